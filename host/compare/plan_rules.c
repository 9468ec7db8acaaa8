/* Planning: an image is read, paths are walked from each unit, and the orders of each block are tried, the first of them first. */
#include "rules.h"

#include <string.h>

/* Ends are places of the unit table, or OUTSIDE. */
enum { OUTSIDE = UNITS, UNKNOWN };

struct stream {
    unsigned number, source, receiver, weight;
};

struct sheet {
    unsigned unit_count, stream_count;
    unsigned units[UNITS];
    struct stream streams[STREAMS];
};

/* ------------------------------------------------------------------------------------------------------- reading an image */

static unsigned number_at(const uint8_t *bytes, size_t at)
{
    return bytes[at] | (unsigned)bytes[at + 1] << 8;
}

/* The first of 1 to 5 that holds, or 0. */
static uint32_t header_refusal(const uint8_t *image, size_t length)
{
    if (length < 16)
        return 1;
    if (number_at(image, 0) != 1)
        return 2;
    if (image[12] || image[13] || image[14] || image[15])
        return 3;
    unsigned unit_count = number_at(image, 2), stream_count = number_at(image, 4);
    if (unit_count > UNITS || stream_count > STREAMS)
        return 4;
    unsigned streams_at = 16 + 2 * unit_count, total = streams_at + 8 * stream_count;
    if (number_at(image, 6) != 16 || number_at(image, 8) != streams_at || number_at(image, 10) != total || length != total)
        return 5;
    return 0;
}

static int is_number(unsigned number)
{
    return number >= 1 && number <= 9999;
}

/* The end that a number means: outside, a place of the unit table, or nothing known. */
static unsigned end_of(const struct sheet *sheet, unsigned number)
{
    for (unsigned i = 0; i < sheet->unit_count; i++)
        if (sheet->units[i] == number)
            return i;
    return number == 0 ? OUTSIDE : UNKNOWN;
}

/* The first of 7 to 10 that holds of the stream at a place of the table, or 0. */
static uint32_t stream_refusal(const struct sheet *sheet, unsigned place)
{
    const struct stream *s = &sheet->streams[place];
    if (!is_number(s->number) || (place > 0 && s->number <= sheet->streams[place - 1].number))
        return 7;
    if (s->source == UNKNOWN || s->receiver == UNKNOWN)
        return 8;
    if (s->source == OUTSIDE && s->receiver == OUTSIDE)
        return 9;
    return s->weight < 1 || s->weight > 1000 ? 10 : 0;
}

/* Reads an image; gives the first refusal of 1 to 10, or 0. */
static uint32_t read_sheet(const uint8_t *image, size_t length, struct sheet *sheet)
{
    uint32_t refusal = header_refusal(image, length);
    if (refusal)
        return refusal;
    sheet->unit_count = number_at(image, 2);
    sheet->stream_count = number_at(image, 4);
    for (unsigned i = 0; i < sheet->unit_count; i++) {
        sheet->units[i] = number_at(image, 16 + 2 * i);
        if (!is_number(sheet->units[i]) || (i > 0 && sheet->units[i] <= sheet->units[i - 1]))
            return 6;
    }
    for (unsigned i = 0; i < sheet->stream_count; i++) {
        size_t at = 16 + 2 * sheet->unit_count + 8 * i;
        unsigned source = end_of(sheet, number_at(image, at + 2)), receiver = end_of(sheet, number_at(image, at + 4));
        sheet->streams[i] = (struct stream){number_at(image, at), source, receiver, number_at(image, at + 6)};
        refusal = stream_refusal(sheet, i);
        if (refusal)
            return refusal;
    }
    return 0;
}

/* --------------------------------------------------------------------------------------------- who reaches whom, and blocks */

/* Marks every unit that a path of streams leads to from this one, through units only. */
static void walk(const struct sheet *sheet, unsigned from, uint8_t reached[UNITS])
{
    for (unsigned i = 0; i < sheet->stream_count; i++) {
        unsigned to = sheet->streams[i].receiver;
        if (sheet->streams[i].source == from && to != OUTSIDE && !reached[to]) {
            reached[to] = 1;
            walk(sheet, to, reached);
        }
    }
}

/* For each unit the first of those that share its block: they are one, or each reaches the other. Gives how many units the largest block has. */
static unsigned find_blocks(const struct sheet *sheet, unsigned block_of[UNITS])
{
    uint8_t reached[UNITS][UNITS] = {{0}};
    unsigned members[UNITS] = {0}, largest = 0;
    for (unsigned u = 0; u < sheet->unit_count; u++)
        walk(sheet, u, reached[u]);
    for (unsigned u = 0; u < sheet->unit_count; u++) {
        unsigned v = 0;
        while (v != u && !(reached[u][v] && reached[v][u]))
            v++;
        block_of[u] = v;
        if (++members[v] > largest)
            largest = members[v];
    }
    return largest;
}

/* --------------------------------------------------------------------------------------------------------- a block's order */

/* The weights between the places of a block, the order tried, and the first of those that tear least so far. */
struct trial {
    unsigned count;
    unsigned weights[BLOCK][BLOCK];
    unsigned order[BLOCK], best[BLOCK];
    unsigned least;
};

/* What an order tears: every stream whose source doesn't stand before its receiver. */
static unsigned torn_by(const struct trial *trial)
{
    unsigned torn = 0;
    for (unsigned i = 0; i < trial->count; i++)
        for (unsigned j = i; j < trial->count; j++)
            torn += trial->weights[trial->order[j]][trial->order[i]];
    return torn;
}

/* Keeps the order where none before it tears as little. */
static void judge(struct trial *trial, unsigned torn)
{
    if (torn < trial->least) {
        trial->least = torn;
        memcpy(trial->best, trial->order, sizeof trial->best);
    }
}

static void swap(unsigned *one, unsigned *other)
{
    unsigned kept = *one;
    *one = *other;
    *other = kept;
}

/* Makes the order that comes next, compared place by place; gives 0 at the last one. */
static int next_order(struct trial *trial)
{
    unsigned *order = trial->order, last = trial->count - 1, at = last;
    while (at > 0 && order[at - 1] > order[at])
        at--;
    if (at == 0)
        return 0;
    unsigned greater = last;
    while (order[greater] < order[at - 1])
        greater--;
    swap(&order[at - 1], &order[greater]);
    for (unsigned end = last; at < end; at++, end--)
        swap(&order[at], &order[end]);
    return 1;
}

/* Tries all orders that begin with the first `placed` places of the order and tear so much by those alone; `into` is what each place that is left
   would tear if it came next. A beginning that tears no less than the least so far is left out, since what follows only adds. The lower place comes
   first, so the orders come as they are compared. */
static void try_from(struct trial *trial, unsigned placed, unsigned left, unsigned torn, const unsigned into[BLOCK])
{
    if (placed == trial->count)
        judge(trial, torn);
    for (unsigned u = 0; u < trial->count; u++) {
        unsigned then[BLOCK];
        if (!(left >> u & 1) || torn + into[u] >= trial->least)
            continue;
        for (unsigned v = 0; v < BLOCK; v++)
            then[v] = into[v] - trial->weights[u][v];
        trial->order[placed] = u;
        try_from(trial, placed + 1, left & ~(1u << u), torn + into[u], then);
    }
}

/* Tries the orders of more than seven units: the first to come tears what comes into it from all of them. */
static void try_all(struct trial *trial)
{
    unsigned into[BLOCK] = {0};
    for (unsigned u = 0; u < trial->count; u++)
        for (unsigned from = 0; from < trial->count; from++)
            into[u] += trial->weights[from][u];
    try_from(trial, 0, (1u << trial->count) - 1, 0, into);
}

/* Up to seven units every order is weighed whole; from eight on, orders that begin too badly are left out. */
static void find_order(struct trial *trial)
{
    trial->least = UINT32_MAX;
    for (unsigned u = 0; u < trial->count; u++)
        trial->order[u] = u;
    if (trial->count > 7) {
        try_all(trial);
        return;
    }
    do
        judge(trial, torn_by(trial));
    while (next_order(trial));
}

/* --------------------------------------------------------------------------------------------------------------- the plan */

struct plan {
    unsigned blocks, units, torn;
    unsigned records[UNITS][4], order[UNITS], torn_streams[STREAMS];
};

/* The place of a unit among the units of a block, or how many these are. */
static unsigned among(unsigned unit, const unsigned members[BLOCK], unsigned count)
{
    unsigned at = 0;
    while (at < count && members[at] != unit)
        at++;
    return at;
}

/* Puts a block behind those placed: its units in the order that tears least, and the streams that it tears. */
static void place_block(const struct sheet *sheet, const unsigned block_of[UNITS], unsigned block, struct plan *plan)
{
    struct trial trial = {0};
    unsigned members[BLOCK], *order = plan->order + plan->units, first_torn = plan->torn;
    for (unsigned u = 0; u < sheet->unit_count; u++)
        if (block_of[u] == block)
            members[trial.count++] = u;
    for (unsigned i = 0; i < sheet->stream_count; i++) {
        unsigned from = among(sheet->streams[i].source, members, trial.count), to = among(sheet->streams[i].receiver, members, trial.count);
        if (from < trial.count && to < trial.count)
            trial.weights[from][to] += sheet->streams[i].weight;
    }
    find_order(&trial);
    for (unsigned u = 0; u < trial.count; u++)
        order[u] = members[trial.best[u]];
    for (unsigned i = 0; i < sheet->stream_count; i++) {
        unsigned from = among(sheet->streams[i].source, order, trial.count), to = among(sheet->streams[i].receiver, order, trial.count);
        if (from < trial.count && to < trial.count && from >= to)
            plan->torn_streams[plan->torn++] = sheet->streams[i].number;
    }
    const unsigned record[4] = {plan->units, trial.count, first_torn, plan->torn - first_torn};
    memcpy(plan->records[plan->blocks++], record, sizeof record);
    plan->units += trial.count;
}

/* A block is free when every stream into it from another block comes from a block that is placed. */
static int is_free(const struct sheet *sheet, const unsigned block_of[UNITS], const uint8_t placed[UNITS], unsigned block)
{
    for (unsigned i = 0; i < sheet->stream_count; i++) {
        const struct stream *s = &sheet->streams[i];
        if (s->source == OUTSIDE || s->receiver == OUTSIDE || block_of[s->receiver] != block)
            continue;
        if (block_of[s->source] != block && !placed[block_of[s->source]])
            return 0;
    }
    return 1;
}

/* Places one block after another: of those that are free the one with the lowest unit. `placed` is by a block's first unit. */
static void place_blocks(const struct sheet *sheet, const unsigned block_of[UNITS], struct plan *plan)
{
    uint8_t placed[UNITS] = {0};
    while (plan->units < sheet->unit_count) {
        unsigned u = 0;
        while (placed[block_of[u]] || !is_free(sheet, block_of, placed, block_of[u]))
            u++;
        placed[block_of[u]] = 1;
        place_block(sheet, block_of, block_of[u], plan);
    }
}

static void put_number(struct planned *made, unsigned number)
{
    made->bytes[made->length++] = number & 0xff;
    made->bytes[made->length++] = number >> 8;
}

static void write_plan(const struct sheet *sheet, const struct plan *plan, struct planned *made)
{
    unsigned order_at = 16 + 8 * plan->blocks, torn_at = order_at + 2 * plan->units;
    const unsigned header[8] = {1, plan->units, plan->blocks, plan->torn, 16, order_at, torn_at, torn_at + 2 * plan->torn};
    for (unsigned i = 0; i < 8; i++)
        put_number(made, header[i]);
    for (unsigned i = 0; i < 4 * plan->blocks; i++)
        put_number(made, plan->records[i / 4][i % 4]);
    for (unsigned i = 0; i < plan->units; i++)
        put_number(made, sheet->units[plan->order[i]]);
    for (unsigned i = 0; i < plan->torn; i++)
        put_number(made, plan->torn_streams[i]);
}

void rules_plan(const uint8_t *image, size_t image_len, struct planned *made)
{
    struct sheet sheet = {0};
    struct plan plan = {0};
    unsigned block_of[UNITS];
    memset(made, 0, sizeof *made);
    made->refusal = read_sheet(image, image_len, &sheet);
    if (made->refusal)
        return;
    made->largest = find_blocks(&sheet, block_of);
    if (made->largest > BLOCK) {
        made->refusal = 11;
        return;
    }
    place_blocks(&sheet, block_of, &plan);
    write_plan(&sheet, &plan, made);
}

uint32_t rules_lend(const struct planned *made, uint8_t *plan, size_t plan_len, uint8_t *work, size_t work_len)
{
    if (work_len >= WORK)
        memset(work, 0, WORK);
    if (made->refusal)
        return made->refusal;
    if (plan_len < made->length || work_len < WORK)
        return 12;
    memcpy(plan, made->bytes, made->length);
    return 0;
}
