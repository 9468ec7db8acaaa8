/* The step of one value. Each operation rounds once: this is compiled with -ffp-contract=off, or a compiler may fuse a product and a sum. */
#include "rules.h"

#include <string.h>

/* |v| is v with its sign bit cleared. */
static double size_of(double v)
{
    uint64_t pattern;
    memcpy(&pattern, &v, sizeof pattern);
    pattern &= ~(UINT64_C(1) << 63);
    memcpy(&v, &pattern, sizeof v);
    return v;
}

/* Finite and not beyond 1e12 in size; a NaN is at most nothing. */
static int in_range(double v)
{
    return size_of(v) <= 1e12;
}

static double double_at(const uint8_t *bytes)
{
    uint64_t pattern = 0;
    double v;
    for (int i = 7; i >= 0; i--)
        pattern = pattern << 8 | bytes[i];
    memcpy(&v, &pattern, sizeof v);
    return v;
}

static void put_double(uint8_t *bytes, double v)
{
    uint64_t pattern;
    memcpy(&pattern, &v, sizeof pattern);
    for (int i = 0; i < 8; i++)
        bytes[i] = pattern >> 8 * i & 0xff;
}

/* A value and the record of its last accepted move. */
struct value {
    double x, y, last_x, last_y;
};

/* The next value by Wegstein, and the way to it. */
static double by_wegstein(struct value v, enum way *way)
{
    double dx = v.x - v.last_x, dy = v.y - v.last_y, d = dy - dx;
    *way = D_ZERO;
    if (d == 0)
        return v.y;
    double q = dy / d;
    *way = WITHIN;
    if (q < -5) {
        *way = BELOW;
        q = -5;
    }
    if (q > 0) {
        *way = ABOVE;
        q = 0;
    } else if (q == 0)
        *way = Q_ZERO;
    return q == 0 ? v.y : (q * v.x) + ((1 - q) * v.y);
}

/* The answer: which verdict, and what it carries. */
static void tell(uint8_t *answer, uint8_t verdict, double carried)
{
    answer[0] = verdict;
    put_double(answer + 1, carried);
}

/* The first of 31 to 34 that holds, or 0. */
static uint32_t step_refusal(struct value v, unsigned count, uint32_t method, double tolerance, uint32_t limit)
{
    if (!(tolerance >= 1e-12 && tolerance <= 0.1))
        return 31;
    if (limit < 1 || limit > 500 || method < 1 || method > 2)
        return 32;
    if (!in_range(v.x) || !in_range(v.y))
        return 33;
    if (count > limit || (count > 0 && !(in_range(v.last_x) && in_range(v.last_y))))
        return 34;
    return 0;
}

uint32_t rules_step(uint8_t *x, size_t x_len, double y, uint8_t *record, size_t record_len, uint8_t *count, size_t count_len, uint32_t method,
                    double tolerance, uint32_t limit, uint8_t *answer, size_t answer_len, enum way *way)
{
    *way = WAYS;
    if (x_len != 8 || record_len != 16 || count_len != 2 || answer_len != 9)
        return 30;
    struct value v = {double_at(x), y, double_at(record), double_at(record + 8)};
    unsigned moves = count[0] + 256u * count[1];
    uint32_t refusal = step_refusal(v, moves, method, tolerance, limit);
    if (refusal)
        return refusal;
    double apart = size_of(v.y - v.x), measure = size_of(v.x) > 1 ? size_of(v.x) : 1;
    if (apart <= tolerance * measure) {
        tell(answer, 1, apart);
        return 0;
    }
    if (moves == limit) {
        tell(answer, 2, apart);
        return 0;
    }
    *way = SUBSTITUTED;
    double next = method == 1 || moves == 0 ? v.y : by_wegstein(v, way);
    if (!in_range(next)) {
        tell(answer, 3, next);
        return 0;
    }
    put_double(record, v.x);
    put_double(record + 8, v.y);
    put_double(x, next);
    count[0] = (moves + 1) & 0xff;
    count[1] = (moves + 1) >> 8;
    tell(answer, 4, apart);
    return 0;
}
