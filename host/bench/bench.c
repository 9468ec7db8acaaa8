/*
 * Times the library against plain C (plain.h), turn by turn in one run, and prints the fastest turn of each and their ratio: planning a heavy
 * flowsheet (64 units, five blocks of 12, 250 streams), how planning grows with the units of one block and with the blocks, and one step. Ends
 * with 0 where both gave the same bytes throughout.
 *
 *     host/run bench
 */
#define _POSIX_C_SOURCE 199309L

#include "image.h"
#include "najmudhil.h"
#include "plain.h"

#include <stdalign.h>
#include <stdio.h>
#include <string.h>
#include <time.h>

enum { IMAGE = 2192, PLAN = 1168, WORK = 65536, TURNS = 300, STEPS = 1000 };

static int same = 1;

/* Keeps the shorter time since `from`, in microseconds. */
static void keep_fastest(double *fastest, const struct timespec *from)
{
    struct timespec to;
    clock_gettime(CLOCK_MONOTONIC, &to);
    double took = 1e6 * (double)(to.tv_sec - from->tv_sec) + 1e-3 * (double)(to.tv_nsec - from->tv_nsec);
    if (took < *fastest)
        *fastest = took;
}

/* ------------------------------------------------------------------------------------------------------------- planning */

/* A number below `bound`, the same in each run. */
static unsigned drawn(unsigned bound)
{
    static uint32_t seed = 1;
    seed = seed * 1103515245 + 12345;
    return (seed >> 16) % bound;
}

/* Writes a flowsheet whose first units stand in blocks of `size`; gives its length. The streams go round the blocks: of each block's streams the
   first `size` make it a ring, and the others join any of its units. */
static size_t write_image(uint8_t *image, unsigned units, unsigned blocks, unsigned size, unsigned streams)
{
    uint8_t *at = put_front(image, units, streams);
    for (unsigned i = 0; i < streams; i++) {
        unsigned first = i % blocks * size + 1, turn = i / blocks;
        unsigned source = turn < size ? turn : drawn(size), receiver = turn < size ? (turn + 1) % size : drawn(size);
        at = put(at, i + 1);
        at = put(at, first + source);
        at = put(at, first + receiver);
        at = put(at, 1 + drawn(1000));
    }
    return (size_t)(at - image);
}

static void time_planning(unsigned units, unsigned blocks, unsigned size, unsigned streams)
{
    static alignas(uint32_t) uint8_t work[WORK];
    uint8_t image[IMAGE], proved[PLAN] = {0}, plain[PLAN] = {0};
    double library = 1e9, in_c = 1e9;
    size_t length = write_image(image, units, blocks, size, streams);
    for (int i = 0; i < TURNS; i++) {
        struct timespec from;
        clock_gettime(CLOCK_MONOTONIC, &from);
        uint32_t answer = najmudhil_plan(image, length, proved, PLAN, work, WORK);
        keep_fastest(&library, &from);
        clock_gettime(CLOCK_MONOTONIC, &from);
        uint32_t other = plain_plan(image, length, plain, PLAN, work, WORK);
        keep_fastest(&in_c, &from);
        same &= answer == 0 && other == 0;
    }
    same &= memcmp(proved, plain, PLAN) == 0;
    printf("  %5u %7u %9u %8u  %9.1f us  %9.1f us   %5.2f\n", units, blocks, size, streams, library, in_c, library / in_c);
}

static void time_plannings(void)
{
    printf("planning\n  units  blocks  units in  streams      library      plain C   ratio\n                   each\n");
    time_planning(64, 5, 12, 250);
    printf("one block, of more and more units\n");
    for (unsigned size = 2; size <= 12; size++)
        time_planning(size, 1, size, 4 * size);
    printf("more and more blocks of eight\n");
    for (unsigned blocks = 1; blocks <= 8; blocks++)
        time_planning(8 * blocks, blocks, 8, 32 * blocks);
}

/* --------------------------------------------------------------------------------------------------------------- a step */

typedef uint32_t stepper(uint8_t *, size_t, double, uint8_t *, size_t, uint8_t *, size_t, uint32_t, double, uint32_t, uint8_t *, size_t);

/* What a step changes. */
struct value {
    uint8_t x[8], record[16], count[2], answer[9];
};

/* Takes the same step so many times, each of a value of its own that began the same; gives the last. They are laid out before the time begins: a
   step that reads what was written just before, in other portions, waits for it. */
static struct value take_steps(stepper *step, const struct value *begun, double y, uint32_t method, double *fastest)
{
    static struct value values[STEPS];
    struct timespec from;
    for (int i = 0; i < STEPS; i++)
        values[i] = *begun;
    clock_gettime(CLOCK_MONOTONIC, &from);
    for (struct value *v = values; v < values + STEPS; v++)
        same &= step(v->x, 8, y, v->record, 16, v->count, 2, method, 1e-9, 100, v->answer, 9) == 0;
    keep_fastest(fastest, &from);
    return values[STEPS - 1];
}

static void time_step(const char *what, double y, uint32_t method)
{
    const double x = 110, last[2] = {100, 110};
    const uint16_t count = 1;
    struct value begun = {{0}, {0}, {0}, {0}}, proved, plain;
    double library = 1e9, in_c = 1e9;
    memcpy(begun.x, &x, sizeof x);
    memcpy(begun.record, last, sizeof last);
    memcpy(begun.count, &count, sizeof count);
    for (int i = 0; i < TURNS; i++) {
        proved = take_steps(najmudhil_step, &begun, y, method, &library);
        plain = take_steps(plain_step, &begun, y, method, &in_c);
    }
    same &= memcmp(&proved, &plain, sizeof proved) == 0;
    printf("  %-32s  %9.1f ns  %9.1f ns   %5.2f\n", what, 1e3 * library / STEPS, 1e3 * in_c / STEPS, library / in_c);
}

int main(void)
{
    time_plannings();
    printf("one step                                 library      plain C   ratio\n");
    time_step("settled", 110, 2);
    time_step("moved, by substitution", 115, 1);
    time_step("moved, by Wegstein", 115, 2);
    printf("what they wrote is %s\n", same ? "the same" : "NOT THE SAME");
    return !same;
}
