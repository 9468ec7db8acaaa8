/* Numbers drawn from a seed (splitmix64): the same in every run. */
#ifndef DRAW_H
#define DRAW_H

#include <stdint.h>

struct draw {
    uint64_t state;
};

static inline uint64_t draw_bits(struct draw *draw)
{
    uint64_t z = draw->state += UINT64_C(0x9e3779b97f4a7c15);
    z = (z ^ z >> 30) * UINT64_C(0xbf58476d1ce4e5b9);
    z = (z ^ z >> 27) * UINT64_C(0x94d049bb133111eb);
    return z ^ z >> 31;
}

/* A number below `bound`, which is at least 1. */
static inline unsigned draw_below(struct draw *draw, unsigned bound)
{
    return (unsigned)((draw_bits(draw) >> 32) * bound >> 32);
}

/* A number from `low` to `high`. */
static inline unsigned draw_from(struct draw *draw, unsigned low, unsigned high)
{
    return low + draw_below(draw, high - low + 1);
}

/* True so many times in a hundred. */
static inline int draw_percent(struct draw *draw, unsigned percent)
{
    return draw_below(draw, 100) < percent;
}

/* One of the items of an array. */
#define DRAW_ONE(draw, array) ((array)[draw_below((draw), sizeof(array) / sizeof(array)[0])])

#endif
