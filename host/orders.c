/* Tries each of the 479,001,600 orders of twelve places, one by one, and prints the first of those that tear least, what it tears, and how
   many tear as little. The weights are those of `Rule::Dense` in crates/cases/src/orders.rt, and the row "twelve places, dense weights" there
   is held to what this prints. No order is passed over because of what its beginning tears already.

       gcc -O2 -o orders orders.c && ./orders
*/
#include <stdio.h>
#include <string.h>

enum { PLACES = 12 };

/* What the streams from place i to place j weigh together, from 1 to 1,000. On the diagonal these are a place's streams to itself. */
static unsigned weight(unsigned i, unsigned j)
{
    return 1 + (37 * i + 61 * j + 213 * i * j) % 1000;
}

static unsigned weights[PLACES][PLACES];
static unsigned order[PLACES], best[PLACES];
static unsigned least = ~0u;
static unsigned long tried, as_little;

/* What the streams into place u weigh from u itself and from the places that are left, which stand after it. */
static unsigned torn_into(unsigned u, unsigned left)
{
    unsigned torn = weights[u][u];
    for (unsigned i = 0; i < PLACES; i++)
        if (left >> i & 1)
            torn += weights[i][u];
    return torn;
}

/* Counts an order that tears so much, and keeps it where none before it tears as little. */
static void judge(unsigned torn)
{
    tried++;
    if (torn < least) {
        least = torn;
        as_little = 0;
        memcpy(best, order, sizeof best);
    }
    as_little += torn == least;
}

/* Tries every order that begins with the first `count` places of `order`, which tear `torn`, the lower place first: so an order is tried
   before those that come after it, compared place by place. */
static void try_from(unsigned count, unsigned left, unsigned torn)
{
    if (count == PLACES) {
        judge(torn);
        return;
    }
    for (unsigned u = 0; u < PLACES; u++)
        if (left >> u & 1) {
            unsigned rest = left & ~(1u << u);
            order[count] = u;
            try_from(count + 1, rest, torn + torn_into(u, rest));
        }
}

int main(void)
{
    for (unsigned i = 0; i < PLACES; i++)
        for (unsigned j = 0; j < PLACES; j++)
            weights[i][j] = weight(i, j);
    try_from(0, (1u << PLACES) - 1, 0);
    printf("orders tried: %lu\nthe first of the %lu that tear least:", tried, as_little);
    for (unsigned i = 0; i < PLACES; i++)
        printf(" %u", best[i]);
    printf(", torn %u\n", least);
    return 0;
}
