/* The same planning in plain C. */
#include "plain.h"

#include <string.h>

enum { UNITS = 64, STREAMS = 256, BLOCK = 12, WORK = 65536 };

struct stream {
    unsigned number, source, receiver, weight;
};

struct sheet {
    unsigned units, streams;
    unsigned unit[UNITS];
    struct stream stream[STREAMS];
};

struct plan {
    unsigned blocks, units, torn;
    unsigned block[UNITS][4], order[UNITS], tears[STREAMS];
};

static unsigned number_at(const uint8_t *bytes, size_t at)
{
    return bytes[at] + 256u * bytes[at + 1];
}

/* The place of a unit, or -1. */
static int place_of(const struct sheet *sheet, unsigned number)
{
    for (unsigned i = 0; i < sheet->units; i++)
        if (sheet->unit[i] == number)
            return (int)i;
    return -1;
}

static int known(const struct sheet *sheet, unsigned end)
{
    return end == 0 || place_of(sheet, end) >= 0;
}

static uint32_t read_header(const uint8_t *image, size_t length, struct sheet *sheet)
{
    if (length < 16)
        return 1;
    if (number_at(image, 0) != 1)
        return 2;
    if (image[12] || image[13] || image[14] || image[15])
        return 3;
    sheet->units = number_at(image, 2);
    sheet->streams = number_at(image, 4);
    if (sheet->units > UNITS || sheet->streams > STREAMS)
        return 4;
    unsigned streams_at = 16 + 2 * sheet->units, total = streams_at + 8 * sheet->streams;
    if (number_at(image, 6) != 16 || number_at(image, 8) != streams_at || number_at(image, 10) != total || length != total)
        return 5;
    return 0;
}

static uint32_t read_sheet(const uint8_t *image, size_t length, struct sheet *sheet)
{
    uint32_t refused = read_header(image, length, sheet);
    if (refused)
        return refused;
    size_t at = 16;
    unsigned last = 0;
    for (unsigned i = 0; i < sheet->units; i++, at += 2) {
        unsigned number = number_at(image, at);
        if (number < 1 || number > 9999 || number <= last)
            return 6;
        sheet->unit[i] = last = number;
    }
    last = 0;
    for (unsigned i = 0; i < sheet->streams; i++, at += 8) {
        struct stream s = {number_at(image, at), number_at(image, at + 2), number_at(image, at + 4), number_at(image, at + 6)};
        if (s.number < 1 || s.number > 9999 || s.number <= last)
            return 7;
        if (!known(sheet, s.source) || !known(sheet, s.receiver))
            return 8;
        if (s.source == 0 && s.receiver == 0)
            return 9;
        if (s.weight < 1 || s.weight > 1000)
            return 10;
        sheet->stream[i] = s;
        last = s.number;
    }
    return 0;
}

/* Row i has bit j where the unit in place i reaches the one in place j. */
static void find_reach(const struct sheet *sheet, uint64_t reach[UNITS])
{
    memset(reach, 0, UNITS * sizeof *reach);
    for (unsigned i = 0; i < sheet->streams; i++) {
        int from = place_of(sheet, sheet->stream[i].source), to = place_of(sheet, sheet->stream[i].receiver);
        if (from >= 0 && to >= 0)
            reach[from] |= UINT64_C(1) << to;
    }
    for (unsigned k = 0; k < sheet->units; k++)
        for (unsigned i = 0; i < sheet->units; i++)
            if (reach[i] >> k & 1)
                reach[i] |= reach[k];
}

/* The places of the block of the unit in a place, rising. */
static unsigned members(const uint64_t reach[UNITS], unsigned units, unsigned place, unsigned member[UNITS])
{
    unsigned count = 0;
    for (unsigned j = 0; j < units; j++)
        if (j == place || ((reach[place] >> j & 1) && (reach[j] >> place & 1)))
            member[count++] = j;
    return count;
}

/* The lowest place not yet placed whose block is fed by placed blocks alone. */
static unsigned next_free(const uint64_t reach[UNITS], const uint64_t reached_by[UNITS], unsigned units, uint64_t placed)
{
    for (unsigned i = 0; i < units; i++)
        if (!(placed >> i & 1) && !(reached_by[i] & ~(reach[i] | placed)))
            return i;
    return units;
}

/* The weights into each place from each set of six places. */
static void sum_half(uint32_t weight[BLOCK][BLOCK], unsigned from, unsigned to, uint32_t sums[64][BLOCK])
{
    memset(sums[0], 0, sizeof sums[0]);
    for (unsigned place = from; place < to; place++) {
        unsigned size = 1u << (place - from);
        for (unsigned set = 0; set < size; set++)
            for (unsigned u = 0; u < BLOCK; u++)
                sums[size + set][u] = sums[set][u] + weight[place][u];
    }
}

/* The first order of n places that tears least. The table has for each set what an order of it tears least. */
static void find_order(uint32_t weight[BLOCK][BLOCK], unsigned n, uint32_t *table, unsigned order[BLOCK])
{
    uint32_t low[64][BLOCK], high[64][BLOCK];
    sum_half(weight, 0, n < 6 ? n : 6, low);
    sum_half(weight, 6, n, high);
    table[0] = 0;
    for (unsigned set = 1; set < 1u << n; set++) {
        uint32_t least = UINT32_MAX;
        for (unsigned u = 0; u < n; u++)
            if (set >> u & 1) {
                uint32_t torn = low[set % 64][u] + high[set / 64][u] + table[set ^ 1u << u];
                if (torn < least)
                    least = torn;
            }
        table[set] = least;
    }
    for (unsigned k = 0, set = (1u << n) - 1; k < n; k++)
        for (unsigned u = 0; u < n; u++)
            if ((set >> u & 1) && low[set % 64][u] + high[set / 64][u] + table[set ^ 1u << u] == table[set]) {
                order[k] = u;
                set ^= 1u << u;
                break;
            }
}

/* Where a unit stands among some, or -1. */
static int stands(const unsigned *unit, unsigned count, unsigned number)
{
    for (unsigned i = 0; i < count; i++)
        if (unit[i] == number)
            return (int)i;
    return -1;
}

static void plan_block(const struct sheet *sheet, const unsigned *member, unsigned n, uint32_t *table, struct plan *plan)
{
    unsigned unit[BLOCK], order[BLOCK] = {0}, *ordered = plan->order + plan->units;
    uint32_t weight[BLOCK][BLOCK] = {{0}};
    for (unsigned i = 0; i < n; i++)
        unit[i] = sheet->unit[member[i]];
    for (unsigned i = 0; i < sheet->streams; i++) {
        int from = stands(unit, n, sheet->stream[i].source), to = stands(unit, n, sheet->stream[i].receiver);
        if (from >= 0 && to >= 0)
            weight[from][to] += sheet->stream[i].weight;
    }
    find_order(weight, n, table, order);
    for (unsigned i = 0; i < n; i++)
        ordered[i] = unit[order[i]];
    unsigned first = plan->torn;
    for (unsigned i = 0; i < sheet->streams; i++) {
        int from = stands(ordered, n, sheet->stream[i].source), to = stands(ordered, n, sheet->stream[i].receiver);
        if (from >= 0 && to >= 0 && to <= from)
            plan->tears[plan->torn++] = sheet->stream[i].number;
    }
    unsigned *block = plan->block[plan->blocks++];
    block[0] = plan->units;
    block[1] = n;
    block[2] = first;
    block[3] = plan->torn - first;
    plan->units += n;
}

static uint32_t make_plan(const struct sheet *sheet, uint8_t *work, size_t work_len, struct plan *plan)
{
    uint64_t reach[UNITS], reached_by[UNITS] = {0}, placed = 0;
    unsigned start[UNITS], blocks = 0, member[UNITS];
    find_reach(sheet, reach);
    for (unsigned i = 0; i < sheet->units; i++)
        for (unsigned j = 0; j < sheet->units; j++)
            reached_by[j] |= (reach[i] >> j & 1) << i;
    for (unsigned i; (i = next_free(reach, reached_by, sheet->units, placed)) < sheet->units;) {
        unsigned n = members(reach, sheet->units, i, member);
        if (n > BLOCK)
            return 11;
        for (unsigned k = 0; k < n; k++)
            placed |= UINT64_C(1) << member[k];
        start[blocks++] = i;
    }
    if (work_len < WORK)
        return 12;
    memset(plan, 0, sizeof *plan);
    for (unsigned b = 0; b < blocks; b++)
        plan_block(sheet, member, members(reach, sheet->units, start[b], member), (uint32_t *)(void *)work, plan);
    return 0;
}

static size_t put(uint8_t *bytes, size_t at, unsigned number)
{
    bytes[at] = number % 256;
    bytes[at + 1] = number / 256;
    return at + 2;
}

static uint32_t write_plan(const struct plan *plan, uint8_t *bytes, size_t length)
{
    unsigned order_at = 16 + 8 * plan->blocks, torn_at = order_at + 2 * plan->units, total = torn_at + 2 * plan->torn;
    if (length < total)
        return 12;
    const unsigned header[8] = {1, plan->units, plan->blocks, plan->torn, 16, order_at, torn_at, total};
    size_t at = 0;
    for (unsigned i = 0; i < 8; i++)
        at = put(bytes, at, header[i]);
    for (unsigned b = 0; b < plan->blocks; b++)
        for (unsigned k = 0; k < 4; k++)
            at = put(bytes, at, plan->block[b][k]);
    for (unsigned i = 0; i < plan->units; i++)
        at = put(bytes, at, plan->order[i]);
    for (unsigned i = 0; i < plan->torn; i++)
        at = put(bytes, at, plan->tears[i]);
    return 0;
}

uint32_t plain_plan(const uint8_t *image, size_t image_len, uint8_t *plan, size_t plan_len, uint8_t *work, size_t work_len)
{
    static struct sheet sheet;
    static struct plan made;
    uint32_t refused = read_sheet(image, image_len, &sheet);
    if (!refused)
        refused = make_plan(&sheet, work, work_len, &made);
    if (!refused)
        refused = write_plan(&made, plan, plan_len);
    if (work_len >= WORK)
        memset(work, 0, WORK);
    return refused;
}
