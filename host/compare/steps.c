/* A call that is accepted is drawn first, towards each verdict and each way to a next value; then perhaps one of its parts is another one. */
#include "steps.h"

#include <float.h>
#include <math.h>
#include <string.h>

static double of_pattern(uint64_t pattern)
{
    double v;
    memcpy(&v, &pattern, sizeof v);
    return v;
}

static double sign(struct draw *draw, double v)
{
    return draw_percent(draw, 50) ? v : -v;
}

/* The double itself, or one of those next to it. Both zeros are next to the smallest subnormals. */
static double beside(struct draw *draw, double v)
{
    uint64_t pattern;
    memcpy(&pattern, &v, sizeof pattern);
    return of_pattern(pattern + draw_below(draw, 5) - 2);
}

/* Any double at all: both zeros, subnormals, infinities, NaNs that are quiet or not and carry bits, and any 64 bits. */
static double any_double(struct draw *draw)
{
    const double some[] = {0.0, DBL_TRUE_MIN, DBL_MIN, DBL_MAX, 1.0, 1e12, 1e-12, 0.1, 5.0, INFINITY, of_pattern(UINT64_C(0x7ff8000000000000)),
                           of_pattern(UINT64_C(0x7ff0000000000001)), of_pattern(UINT64_C(0x7ff8000000000000) | draw_bits(draw) >> 13)};
    return draw_percent(draw, 30) ? of_pattern(draw_bits(draw)) : beside(draw, sign(draw, DRAW_ONE(draw, some)));
}

/* A double that a step accepts: small whole numbers, for which differences are exact, and all magnitudes up to 1e12. */
static double good_double(struct draw *draw)
{
    const double some[] = {0.0, DBL_TRUE_MIN, DBL_MIN, 1.0, 0.5, 1e12, 9.9e11, 1e-12};
    unsigned dice = draw_below(draw, 10);
    if (dice < 4)
        return sign(draw, draw_below(draw, 41));
    if (dice < 6)
        return sign(draw, DRAW_ONE(draw, some));
    double v = (double)draw_bits(draw) / 18446744073709551616.0;
    return sign(draw, dice < 9 ? v * 2000 : ldexp(v, (int)draw_below(draw, 1100) - 1060));
}

/* Makes y close to x or just not: at the bound, and beside it. */
static void near_the_bound(struct draw *draw, struct step *step)
{
    double bound = step->tolerance * (fabs(step->x) > 1 ? fabs(step->x) : 1);
    step->y = beside(draw, step->x + sign(draw, bound));
}

/* Chooses the record so that d and q are about so much; with small whole numbers and halves they are exactly so. */
static void towards(struct step *step, double d, double q)
{
    double dy = q * d, dx = dy - d;
    step->last_x = step->x - dx;
    step->last_y = step->y - dy;
}

static void draw_factor(struct draw *draw, struct step *step)
{
    const double factors[] = {-5, -4, -1, -0.5, 0, 0.5, 1, 3, -6, -1e300, 1e300, beside(draw, -5), beside(draw, DBL_TRUE_MIN),
                              beside(draw, -DBL_TRUE_MIN)};
    double d = sign(draw, draw_percent(draw, 60) ? draw_from(draw, 1, 16) : good_double(draw));
    unsigned dice = draw_below(draw, 10);
    if (dice == 0)
        d = 0;
    towards(step, d, DRAW_ONE(draw, factors));
    if (dice == 1)
        step->last_y = step->y;
    if (dice == 2)
        step->last_x = beside(draw, step->last_x);
    if (dice == 3)
        step->last_y = beside(draw, step->last_y);
}

/* Values near 1e12 on both sides of 0, so that a next value is beyond. */
static void draw_straying(struct draw *draw, struct step *step)
{
    double scale = draw_percent(draw, 50) ? 1e12 : 1e11 * draw_from(draw, 1, 10);
    step->x = sign(draw, scale);
    step->y = draw_percent(draw, 70) ? -step->x : step->x * 0.5;
    towards(step, sign(draw, draw_percent(draw, 50) ? 1e11 : 1e10), -(double)draw_below(draw, 7));
}

static struct step draw_good(struct draw *draw)
{
    const double tolerances[] = {1e-12, 0.1, 0.0625, 1e-9, 1e-6, beside(draw, 0.05), 0.001};
    const unsigned limits[] = {1, 2, 5, 100, 499, 500};
    struct step step = {good_double(draw), good_double(draw), good_double(draw), good_double(draw), DRAW_ONE(draw, tolerances), 0,
                        draw_percent(draw, 80) ? 2 : 1, DRAW_ONE(draw, limits), {8, 16, 2, 9}};
    unsigned dice = draw_below(draw, 10);
    step.count = draw_percent(draw, 15) ? 0 : draw_percent(draw, 15) ? step.limit : draw_below(draw, step.limit);
    if (dice < 4)
        draw_factor(draw, &step);
    else if (dice < 6)
        near_the_bound(draw, &step);
    else if (dice < 7)
        draw_straying(draw, &step);
    return step;
}

/* Puts something else, often at the edge of what is accepted, in the place of one part. */
static void damage(struct draw *draw, struct step *step)
{
    static const uint32_t methods[] = {0, 1, 2, 3, 256, 258, 65537, UINT32_MAX}, limits[] = {0, 1, 2, 500, 501, 65536, 65537, UINT32_MAX};
    const double tolerances[] = {beside(draw, 1e-12), beside(draw, 0.1), 0.0, -0.0, -1e-6, any_double(draw)};
    const uint16_t counts[] = {0, step->limit - 1, step->limit, step->limit + 1, 500, 501, 65535, draw_below(draw, 65536)};
    unsigned dice = draw_below(draw, 12);
    double *values[] = {&step->x, &step->y, &step->last_x, &step->last_y};
    if (dice < 4)
        *values[dice] = draw_percent(draw, 50) ? any_double(draw) : beside(draw, sign(draw, 1e12));
    else if (dice < 6)
        step->tolerance = DRAW_ONE(draw, tolerances);
    else if (dice == 6)
        step->method = DRAW_ONE(draw, methods);
    else if (dice == 7)
        step->limit = DRAW_ONE(draw, limits);
    else if (dice < 10)
        step->count = DRAW_ONE(draw, counts);
    else
        step->lengths[draw_below(draw, 4)] = draw_below(draw, 20);
}

struct step draw_step(struct draw *draw)
{
    struct step step = draw_good(draw);
    while (draw_percent(draw, 35))
        damage(draw, &step);
    return step;
}
