/*
 * A whey line, planned and balanced as a plant's own program would do it: ultrafiltration with diafiltration, reverse osmosis, an evaporator, a
 * dryer, and electrodialysis with its brine. Five recycles: the diafiltration's permeate, its water, concentrate round the evaporator, fines,
 * and brine, where two streams are torn. Ends with 0 where every block settled and the balance closes.
 *
 * Nothing here says which units form a recycle or where it is opened: the plan alone does. A unit takes whatever enters it and gives what leaves
 * it by role, so a stream more in the list is planned and calculated like the others; the shares of a unit's streams of one role make 1.
 *
 * The library takes bytes, low byte first: on the machines this is for, numbers of 16 bits and doubles are such bytes as they stand.
 */
#include "najmudhil.h"

#include <math.h>
#include <stdio.h>
#include <stdlib.h>

_Static_assert(__BYTE_ORDER__ == __ORDER_LITTLE_ENDIAN__, "numbers go to the library as they stand in memory");

enum { WATER, PROTEIN, LACTOSE, FAT, SALT, PARTS };
enum role { FEED, MAIN, SIDE, VAPOUR, FINES, BRINE, ROLES };
enum { WORK = 65536, PLAN = 1168, LIMIT = 200 };
static const double tolerance = 1e-9, closing = 1e-6;

/* Flows are in kg/h. `flow` is what the receiver reckons with, in a torn stream a supposition; then `made` is what the source gave. */
struct stream {
    uint16_t number, source, receiver, weight;
    enum role role;
    double share;
    const char *name;
    double flow[PARTS], made[PARTS], record[PARTS][2];
    uint16_t count[PARTS];
    int torn;
};

static struct stream streams[] = {
    {1, 0, 10, 5, FEED, 1, .name = "raw whey", .flow = {18800, 160, 920, 50, 110}},
    {2, 10, 20, 5, MAIN, 1, .name = "skimmed whey"},
    {3, 10, 0, 5, SIDE, 1, .name = "cream"},
    {4, 20, 21, 5, MAIN, 1, .name = "filtration feed"},
    {5, 21, 22, 5, MAIN, 1, .name = "retentate"},
    {6, 21, 23, 5, SIDE, 1, .name = "permeate"},
    {7, 22, 20, 3, SIDE, 1, .name = "diafiltration permeate"},
    {8, 22, 30, 5, MAIN, 1, .name = "protein concentrate"},
    {9, 23, 22, 3, SIDE, 0.15, .name = "diafiltration water"},
    {10, 23, 0, 5, SIDE, 0.85, .name = "process water"},
    {11, 23, 50, 5, MAIN, 1, .name = "permeate concentrate"},
    {12, 30, 31, 5, MAIN, 1, .name = "evaporator feed"},
    {13, 31, 30, 3, MAIN, 0.3, .name = "concentrate recirculated"},
    {14, 31, 40, 5, MAIN, 0.7, .name = "dryer feed"},
    {15, 31, 0, 5, VAPOUR, 1, .name = "condensate"},
    {16, 40, 42, 5, MAIN, 1, .name = "powder"},
    {17, 40, 41, 3, FINES, 1, .name = "fines in air"},
    {18, 40, 0, 5, VAPOUR, 1, .name = "dryer's moisture"},
    {19, 41, 40, 2, MAIN, 1, .name = "fines returned"},
    {20, 41, 0, 5, SIDE, 1, .name = "dust"},
    {21, 42, 0, 5, MAIN, 1, .name = "powder into the bag"},
    {22, 42, 0, 5, VAPOUR, 1, .name = "fluid bed's moisture"},
    {23, 50, 0, 5, MAIN, 1, .name = "lactose concentrate"},
    {24, 50, 51, 3, BRINE, 1, .name = "brine from the stack"},
    {25, 51, 50, 3, BRINE, 0.85, .name = "brine to the stack"},
    {26, 51, 52, 3, BRINE, 0.15, .name = "brine to be thickened"},
    {27, 52, 51, 2, SIDE, 1, .name = "water out of brine"},
    {28, 52, 0, 5, MAIN, 1, .name = "spent brine"},
    {29, 0, 51, 5, FEED, 1, .name = "water made up", .flow = {400, 0, 0, 0, 0.2}},
};

enum { STREAMS = sizeof streams / sizeof streams[0], BAG = 21 };

/* ---------------------------------------------------------------------- unit models: in[0] is what enters but for brine, in[1] is brine */

typedef void model(const double set[PARTS], double in[2][PARTS], double out[ROLES][PARTS]);

/* A tank, separator, membrane or cyclone: of each component the set fraction goes to the side, as cream, permeate or dust. */
static void split(const double set[PARTS], double in[2][PARTS], double out[ROLES][PARTS])
{
    for (int part = 0; part < PARTS; part++) {
        double all = in[0][part] + in[1][part];
        out[SIDE][part] = set[part] * all;
        out[MAIN][part] = all - out[SIDE][part];
    }
}

/* Electrodialysis: of each component of the feed the set fraction goes over into the brine. With all of it, a tank for brine. */
static void dialyse(const double set[PARTS], double in[2][PARTS], double out[ROLES][PARTS])
{
    for (int part = 0; part < PARTS; part++) {
        double over = set[part] * in[0][part];
        out[BRINE][part] = in[1][part] + over;
        out[MAIN][part] = in[0][part] - over;
    }
}

static double solids(const double flow[PARTS])
{
    return flow[PROTEIN] + flow[LACTOSE] + flow[FAT] + flow[SALT];
}

/* Water leaves as vapour until the rest has the set fraction of solids; where it has more, none leaves. */
static void evaporate(const double set[PARTS], double in[2][PARTS], double out[ROLES][PARTS])
{
    for (int part = 0; part < PARTS; part++)
        out[MAIN][part] = in[0][part] + in[1][part];
    double over = out[MAIN][WATER] - solids(out[MAIN]) * (1 - set[0]) / set[0];
    out[VAPOUR][WATER] = over > 0 ? over : 0;
    out[MAIN][WATER] -= out[VAPOUR][WATER];
}

/* A dryer, to the set moisture; the air carries off the fraction set behind it as fines. */
static void dry(const double set[PARTS], double in[2][PARTS], double out[ROLES][PARTS])
{
    const double fraction[PARTS] = {1 - set[0]};
    evaporate(fraction, in, out);
    for (int part = 0; part < PARTS; part++) {
        out[FINES][part] = set[1] * out[MAIN][part];
        out[MAIN][part] -= out[FINES][part];
    }
}

/* Unit numbers rise, as the image wants them. What is set by component stands in the order water, protein, lactose, fat, salt. */
static const struct unit {
    uint16_t number;
    const char *name;
    model *model;
    double set[PARTS];
} units[] = {
    {10, "separator", split, {0.001, 0.005, 0.001, 0.8, 0.001}},
    {20, "whey tank", split, {0}},
    {21, "ultrafiltration", split, {0.9, 0.012, 0.89, 0, 0.8}},
    {22, "diafiltration", split, {0.85, 0.01, 0.85, 0, 0.7}},
    {23, "reverse osmosis", split, {0.8, 0, 0.002, 0, 0.03}},
    {30, "evaporator tank", split, {0}},
    {31, "evaporator", evaporate, {0.42}},
    {40, "dryer", dry, {0.06, 0.08}},
    {41, "cyclone", split, {0.02, 0.02, 0.02, 0.02, 0.02}},
    {42, "fluid bed", dry, {0.045, 0}},
    {50, "electrodialysis", dialyse, {0.02, 0, 0.005, 0, 0.8}},
    {51, "brine tank", dialyse, {1, 1, 1, 1, 1}},
    {52, "brine thickener", split, {0.6, 0, 0.01, 0, 0.02}},
};

enum { UNITS = sizeof units / sizeof units[0] };

/* The unit, the stream, of a number that stands in the plan; so there is one. */
static const struct unit *unit_of(unsigned number)
{
    const struct unit *unit = units;
    while (unit->number != number)
        unit++;
    return unit;
}

static struct stream *stream_of(unsigned number)
{
    struct stream *stream = streams;
    while (stream->number != number)
        stream++;
    return stream;
}

/* Calculates a unit from the flows that enter it. What is supposed of a torn stream stays. */
static void calculate(const struct unit *unit)
{
    double in[2][PARTS] = {{0}}, out[ROLES][PARTS] = {{0}};
    for (struct stream *s = streams; s < streams + STREAMS; s++)
        if (s->receiver == unit->number)
            for (int part = 0; part < PARTS; part++)
                in[s->role == BRINE][part] += s->flow[part];
    unit->model(unit->set, in, out);
    for (struct stream *s = streams; s < streams + STREAMS; s++)
        if (s->source == unit->number)
            for (int part = 0; part < PARTS; part++)
                (s->torn ? s->made : s->flow)[part] = s->share * out[s->role][part];
}

/* --------------------------------------------------------------------------------------------------- the plan, and what it asks for */

static void stop(const char *what, const char *why, unsigned number)
{
    printf("%s: %s %u\n", what, why, number);
    exit(EXIT_FAILURE);
}

static void make_plan(uint16_t plan[PLAN / 2])
{
    enum { STREAMS_AT = 16 + 2 * UNITS, IMAGE = STREAMS_AT + 8 * STREAMS };
    static uint16_t image[IMAGE / 2] = {1, UNITS, STREAMS, 16, STREAMS_AT, IMAGE};
    static uint8_t work[WORK];
    uint16_t *at = image + 8;
    for (int i = 0; i < UNITS; i++)
        *at++ = units[i].number;
    for (const struct stream *s = streams; s < streams + STREAMS; s++) {
        *at++ = s->number;
        *at++ = s->source;
        *at++ = s->receiver;
        *at++ = s->weight;
    }
    uint32_t refused = najmudhil_plan((const uint8_t *)image, sizeof image, (uint8_t *)plan, PLAN, work, sizeof work);
    if (refused)
        stop("the lists of units and streams", "refused by planning with", refused);
}

/* Steps each value of a torn stream; gives how many of them aren't settled. */
static int step(struct stream *s)
{
    int unsettled = 0;
    for (int part = 0; part < PARTS; part++) {
        uint8_t answer[9];
        uint32_t refused = najmudhil_step((uint8_t *)&s->flow[part], 8, s->made[part], (uint8_t *)s->record[part], 16, (uint8_t *)&s->count[part],
                                          2, NAJMUDHIL_WEGSTEIN, tolerance, LIMIT, answer, sizeof answer);
        if (refused)
            stop(s->name, "refused by the step with", refused);
        if (answer[0] == NAJMUDHIL_SPENT)
            stop(s->name, "not settled after so many moves:", LIMIT);
        if (answer[0] == NAJMUDHIL_STRAYED)
            stop(s->name, "strayed beyond 1e12 at move", s->count[part] + 1u);
        unsettled += answer[0] != NAJMUDHIL_SETTLED;
    }
    return unsettled;
}

/* A block of the plan: its units in order and its torn streams, as parts of the order table and of the torn table. */
struct block {
    const uint16_t *order, *torn;
    int units, torn_streams;
};

static struct block block_at(const uint16_t *plan, int place)
{
    const uint16_t *record = plan + plan[4] / 2 + 4 * place;
    return (struct block){plan + plan[5] / 2 + record[0], plan + plan[6] / 2 + record[2], record[1], record[3]};
}

static void print_block(struct block block)
{
    for (int i = 0; i < block.units; i++)
        printf("%s %u %s", i ? " >" : "", block.order[i], unit_of(block.order[i])->name);
    printf("\n");
    for (int i = 0; i < block.torn_streams; i++) {
        const struct stream *s = stream_of(block.torn[i]);
        printf("    torn: %u %s, %u > %u\n", s->number, s->name, s->source, s->receiver);
    }
}

/* Calculates a block's units in order and steps all that it tears, until a pass in which every value is settled; gives which pass that is. It comes:
   each pass before it moves a value, and each value moves at most LIMIT times. */
static int converge(struct block block)
{
    int passes = 0, unsettled = 1;
    for (int i = 0; i < block.torn_streams; i++)
        stream_of(block.torn[i])->torn = 1;
    while (unsettled) {
        unsettled = 0;
        passes++;
        for (int i = 0; i < block.units; i++)
            calculate(unit_of(block.order[i]));
        for (int i = 0; i < block.torn_streams; i++)
            unsettled += step(stream_of(block.torn[i]));
    }
    return passes;
}

static void converge_blocks(const uint16_t *plan)
{
    printf("%d units, %d streams: %u blocks, %u torn\n", UNITS, STREAMS, plan[2], plan[3]);
    for (int place = 0; place < plan[2]; place++) {
        struct block block = block_at(plan, place);
        printf("%d:", place + 1);
        print_block(block);
        int passes = converge(block);
        if (block.torn_streams)
            printf("    settled at pass %d\n", passes);
    }
}

/* ------------------------------------------------------------------------------------------------------------ the balance */

/* Prints what goes through, component by component; where other than that leaves, both. Gives whether all of it leaves, but for `closing` of it. */
static int closes(const char *name, const double in[PARTS], const double out[PARTS])
{
    int all = 1;
    printf("%-16s", name);
    for (int part = 0; part < PARTS; part++) {
        int one = fabs(in[part] - out[part]) <= closing * (1 + in[part]);
        printf(" %10.3f", in[part]);
        if (!one)
            printf(" in, %.3f OUT", out[part]);
        all &= one;
    }
    printf("\n");
    return all;
}

/* Each unit's balance, and the line's: what comes from outside (unit 0) and what goes there. A torn stream has the one flow that settled. */
static int balance(void)
{
    int all = 1;
    printf("\nthrough it, kg/h      water    protein    lactose        fat       salt\n");
    for (int i = 0; i <= UNITS; i++) {
        double in[PARTS] = {0}, out[PARTS] = {0};
        unsigned number = i < UNITS ? units[i].number : 0;
        for (struct stream *s = streams; s < streams + STREAMS; s++)
            for (int part = 0; part < PARTS; part++) {
                in[part] += s->receiver == number ? s->flow[part] : 0;
                out[part] += s->source == number ? s->flow[part] : 0;
            }
        all &= i < UNITS ? closes(units[i].name, in, out) : closes("the line", out, in);
    }
    return all;
}

int main(void)
{
    static uint16_t plan[PLAN / 2];
    make_plan(plan);
    converge_blocks(plan);
    int closed = balance();
    const double *bag = stream_of(BAG)->flow, dry_matter = solids(bag), all = dry_matter + bag[WATER];
    printf("\nthe balance %s\n", closed ? "closes" : "DOES NOT CLOSE");
    printf("the bag: %.1f kg/h, moisture %.2f %%, protein on dry matter %.2f %%\n", all, 100 * bag[WATER] / all, 100 * bag[PROTEIN] / dry_matter);
    printf("    protein %.2f %%, lactose %.2f %%, fat %.2f %%, salts %.2f %%\n", 100 * bag[PROTEIN] / all, 100 * bag[LACTOSE] / all,
           100 * bag[FAT] / all, 100 * bag[SALT] / all);
    return closed ? EXIT_SUCCESS : EXIT_FAILURE;
}
