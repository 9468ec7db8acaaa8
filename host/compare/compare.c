/*
 * Calls the library and the rules as they are written a second time (rules.h) on the same images and steps, drawn from a seed, and compares the
 * answer and every lent byte, with guard bytes around each row. Prints how often each answer came. Ends with 1 at the first difference, which is
 * printed whole, and where some answer never came.
 *
 *     host/run compare [IMAGES [STEPS [SEED]]]
 *
 * Each image and each step is drawn from a seed of its own, which a difference names: "compare 1 0 SEED" is that image alone, "compare 0 1 SEED"
 * that step.
 */
#include "arena.h"
#include "guards.h"
#include "images.h"
#include "najmudhil.h"
#include "rules.h"
#include "steps.h"

#include <inttypes.h>
#include <stdio.h>
#include <stdlib.h>
#include <string.h>

/* How often each answer came. Planning answers 0 to 12, a step 0 or 30 to 34 and then a verdict. */
static unsigned long planned_as[13], largest_block[BLOCK + 1], refused_as[35], verdicts[5], ways[WAYS + 1];

/* ------------------------------------------------------------------------------------------------------------- planning */

static struct arena image, plan, work;

/* As long as the plan, a byte shorter or longer, or any length. */
static size_t draw_plan_length(struct draw *draw, size_t exact)
{
    unsigned dice = draw_below(draw, 10);
    if (dice < 3)
        return exact;
    if (dice == 3)
        return exact > 0 ? exact - 1 : 0;
    if (dice == 4)
        return draw_below(draw, 1300);
    return dice == 5 ? 0 : exact + draw_from(draw, 1, 100);
}

static size_t draw_work_length(struct draw *draw)
{
    const size_t lengths[] = {WORK, WORK, WORK, WORK, WORK, WORK - 1, WORK + 1, WORK + draw_below(draw, 300), 0, draw_below(draw, WORK)};
    return DRAW_ONE(draw, lengths);
}

static int image_differs(uint64_t seed, uint32_t answer, uint32_t wanted)
{
    printf("DIFFERENT at image %" PRIu64 ": the library answers %" PRIu32 ", the rules %" PRIu32 "\n", seed, answer, wanted);
    arena_print(&image, "image");
    arena_print(&plan, "plan");
    printf("working memory, %zu bytes%s\n", work.length, memcmp(work.lent, work.wanted, work.at + work.length + GUARD) ? ", isn't as wanted" : "");
    return 0;
}

static int compare_image(uint64_t seed)
{
    struct draw draw = {seed};
    struct planned made;
    uint8_t bytes[IMAGE_ROOM];
    size_t length = draw_image(&draw, bytes);
    rules_plan(bytes, length, &made);
    arena_fill(&image, &draw, length);
    arena_put(&image, bytes, length);
    arena_fill(&plan, &draw, draw_plan_length(&draw, made.length));
    arena_fill(&work, &draw, draw_work_length(&draw));
    int null = draw_percent(&draw, 50);
    uint32_t wanted = rules_lend(&made, arena_wanted(&plan), plan.length, arena_wanted(&work), work.length);
    BLUR(plan.lent + plan.at, plan.length);
    BLUR(work.lent + work.at, work.length);
    uint32_t answer = najmudhil_plan(arena_lend(&image, null), length, arena_lend(&plan, null), plan.length, arena_lend(&work, null), work.length);
    if (!(arena_same(&image) & arena_same(&plan) & arena_same(&work)) || answer != wanted)
        return image_differs(seed, answer, wanted);
    planned_as[wanted]++;
    if (wanted == 0)
        largest_block[made.largest]++;
    return 1;
}

/* --------------------------------------------------------------------------------------------------------------- a step */

static struct arena x, record, count, answered;

static void lay_out(struct draw *draw, const struct step *step)
{
    const double last[2] = {step->last_x, step->last_y};
    struct arena *rows[4] = {&x, &record, &count, &answered};
    for (int i = 0; i < 4; i++)
        arena_fill(rows[i], draw, step->lengths[i]);
    arena_put(&x, &step->x, sizeof step->x);
    arena_put(&record, last, sizeof last);
    arena_put(&count, &step->count, sizeof step->count);
}

static int step_differs(uint64_t seed, const struct step *step, uint32_t answer, uint32_t wanted)
{
    printf("DIFFERENT at step %" PRIu64 ": the library returns %" PRIu32 ", the rules %" PRIu32 "\n", seed, answer, wanted);
    printf("x %a (%.17g), y %a (%.17g), record %a %a, count %u\n", step->x, step->x, step->y, step->y, step->last_x, step->last_y, step->count);
    printf("method %" PRIu32 ", tolerance %a, limit %" PRIu32 "\n", step->method, step->tolerance, step->limit);
    arena_print(&x, "x");
    arena_print(&record, "record");
    arena_print(&count, "count");
    arena_print(&answered, "answer");
    return 0;
}

/* Whether an accepted step left a NaN in x or in the answer; none may. */
static int left_nan(void)
{
    double left, carried;
    memcpy(&left, arena_wanted(&x), sizeof left);
    memcpy(&carried, arena_wanted(&answered) + 1, sizeof carried);
    return left != left || carried != carried;
}

static void count_step(uint32_t wanted, enum way way)
{
    refused_as[wanted]++;
    if (wanted == 0) {
        verdicts[arena_wanted(&answered)[0]]++;
        ways[way]++;
    }
}

static int compare_step(uint64_t seed)
{
    struct draw draw = {seed};
    struct step step = draw_step(&draw);
    enum way way;
    lay_out(&draw, &step);
    int null = draw_percent(&draw, 50);
    uint32_t wanted = rules_step(arena_wanted(&x), x.length, step.y, arena_wanted(&record), record.length, arena_wanted(&count), count.length,
                                 step.method, step.tolerance, step.limit, arena_wanted(&answered), answered.length, &way);
    if (step.count == 0)
        BLUR(record.lent + record.at, record.length);
    BLUR(answered.lent + answered.at, answered.length);
    uint32_t answer = najmudhil_step(arena_lend(&x, null), x.length, step.y, arena_lend(&record, null), record.length, arena_lend(&count, null),
                                     count.length, step.method, step.tolerance, step.limit, arena_lend(&answered, null), answered.length);
    if (!(arena_same(&x) & arena_same(&record) & arena_same(&count) & arena_same(&answered)) || answer != wanted)
        return step_differs(seed, &step, answer, wanted);
    if (wanted == 0 && left_nan()) {
        printf("a NaN is left\n");
        return step_differs(seed, &step, answer, wanted);
    }
    count_step(wanted, way);
    return 1;
}

/* ----------------------------------------------------------------------------------------------------------- what came */

/* Prints how often each of a row of answers came, by name or by number; gives how many never did. */
static int print_counts(const char *title, const unsigned long *counts, int from, int to, const char *const *names)
{
    int missing = 0;
    printf("%s", title);
    for (int i = from; i <= to; i++) {
        if (names)
            printf("  %s %lu", names[i], counts[i]);
        else
            printf("  %d: %lu", i, counts[i]);
        missing += counts[i] == 0;
    }
    printf("\n");
    return missing;
}

static int print_images(void)
{
    int missing = print_counts("planning answered", planned_as, 0, 12, NULL);
    return missing + print_counts("largest block of a plan", largest_block, 0, BLOCK, NULL);
}

static int print_steps(void)
{
    static const char *const verdict_names[] = {"", "Settled", "Spent", "Strayed", "Moved"};
    static const char *const way_names[] = {"by substitution", "d zero", "q below -5", "q above 0", "q zero", "q from -5 to 0"};
    int missing = print_counts("a step was refused by", refused_as, 30, 34, NULL);
    missing += print_counts("and else", verdicts, 1, 4, verdict_names);
    return missing + print_counts("ways to a next value", ways, 0, WAYS - 1, way_names);
}

int main(int count_of, char **given)
{
    unsigned long images = count_of > 1 ? strtoul(given[1], NULL, 10) : 200000, steps = count_of > 2 ? strtoul(given[2], NULL, 10) : 5000000;
    uint64_t seed = count_of > 3 ? strtoull(given[3], NULL, 10) : 1;
    for (unsigned long i = 0; i < images; i++)
        if (!compare_image(seed + i))
            return EXIT_FAILURE;
    for (unsigned long i = 0; i < steps; i++)
        if (!compare_step(seed + i))
            return EXIT_FAILURE;
    printf("%lu images and %lu steps from seed %" PRIu64 ": no difference\n", images, steps, seed);
    int missing = (images > 0 ? print_images() : 0) + (steps > 0 ? print_steps() : 0);
    if (missing > 0)
        printf("%d of these never came\n", missing);
    return missing > 0 ? EXIT_FAILURE : EXIT_SUCCESS;
}
