/* The smallest use of the library: unit 1 sends to unit 2, which returns a third of what it gets. It is planned, and the recycle converged.
   Numbers of 16 bits and doubles go to the library as a little-endian machine holds them. */
#include "najmudhil.h"

#include <stdio.h>

static const uint16_t flowsheet[] = {
    1, 2, 4, 16, 20, 52, 0, 0, /* edition, units, streams, where the unit and the stream table begin, length in bytes, spare */
    1, 2,                      /* the units */
    1, 0, 1, 1,                /* the streams: number, source, receiver, weight. First the feed, */
    2, 1, 2, 1,                /* then what unit 1 sends, */
    3, 2, 1, 1,                /* the recycle, */
    4, 2, 0, 1,                /* and the product */
};

int main(void)
{
    static uint16_t plan[1168 / 2];
    static uint8_t work[65536];
    uint32_t refused = najmudhil_plan((const uint8_t *)flowsheet, sizeof flowsheet, (uint8_t *)plan, sizeof plan, work, sizeof work);
    if (refused)
        return printf("planning refuses the flowsheet by %u\n", (unsigned)refused), 1;
    const uint16_t *torn = plan + plan[6] / 2; /* the torn table; plan[2] and plan[3] are the counts of blocks and of torn streams */
    printf("blocks %u, torn %u: stream %u\n", plan[2], plan[3], torn[0]);

    double x = 0, record[2]; /* the recycle's flow as it is supposed, and the last move's x and y */
    uint16_t count = 0;
    uint8_t answer[9] = {0};
    do {
        double y = (100 + x) / 3; /* what the units make of it, calculated in the plan's order */
        refused = najmudhil_step((uint8_t *)&x, sizeof x, y, (uint8_t *)record, sizeof record, (uint8_t *)&count, sizeof count,
                                 NAJMUDHIL_WEGSTEIN, 1e-9, 100, answer, sizeof answer);
    } while (!refused && answer[0] == NAJMUDHIL_MOVED);
    if (refused || answer[0] != NAJMUDHIL_SETTLED)
        return printf("not settled: refusal %u, verdict %u\n", (unsigned)refused, answer[0]), 1;
    printf("settled at %.3f after %u moves\n", x, count);
    return 0;
}
