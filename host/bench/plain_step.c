/* The same step of one value in plain C. */
#include "plain.h"

#include <math.h>
#include <string.h>

struct record {
    double x, y;
};

static double next_of(double x, double y, struct record last)
{
    double dx = x - last.x, dy = y - last.y, d = dy - dx;
    if (d == 0)
        return y;
    double q = dy / d;
    if (q < -5)
        q = -5;
    if (q >= 0)
        return y;
    return q * x + (1 - q) * y;
}

static uint32_t answer_with(uint8_t *answer, uint8_t verdict, double carried)
{
    answer[0] = verdict;
    memcpy(answer + 1, &carried, sizeof carried);
    return 0;
}

uint32_t plain_step(uint8_t *x, size_t x_len, double y, uint8_t *record, size_t record_len, uint8_t *count, size_t count_len, uint32_t method,
                    double tolerance, uint32_t limit, uint8_t *answer, size_t answer_len)
{
    double supposed;
    struct record last;
    uint16_t moves;
    if (x_len != sizeof supposed || record_len != sizeof last || count_len != sizeof moves || answer_len != 9)
        return 30;
    memcpy(&supposed, x, sizeof supposed);
    memcpy(&last, record, sizeof last);
    memcpy(&moves, count, sizeof moves);
    if (!(tolerance >= 1e-12 && tolerance <= 0.1))
        return 31;
    if (limit < 1 || limit > 500 || (method != 1 && method != 2))
        return 32;
    if (!(fabs(supposed) <= 1e12 && fabs(y) <= 1e12))
        return 33;
    if (moves > limit || (moves > 0 && !(fabs(last.x) <= 1e12 && fabs(last.y) <= 1e12)))
        return 34;
    double apart = fabs(y - supposed);
    if (apart <= tolerance * (fabs(supposed) > 1 ? fabs(supposed) : 1))
        return answer_with(answer, 1, apart);
    if (moves == limit)
        return answer_with(answer, 2, apart);
    double next = method == 1 || moves == 0 ? y : next_of(supposed, y, last);
    if (!(fabs(next) <= 1e12))
        return answer_with(answer, 3, next);
    last = (struct record){supposed, y};
    moves++;
    memcpy(x, &next, sizeof next);
    memcpy(record, &last, sizeof last);
    memcpy(count, &moves, sizeof moves);
    return answer_with(answer, 4, apart);
}
