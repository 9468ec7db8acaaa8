/* The rules of docs/RULES.md written a second time, from the rules alone and by other means than the library's: planning tries the orders of a
   block, and the step is those sentences in plain C. */
#ifndef RULES_H
#define RULES_H

#include <stddef.h>
#include <stdint.h>

enum { UNITS = 64, STREAMS = 256, BLOCK = 12, PLAN = 1168, WORK = 65536 };

/* What planning an image comes to: 0 and the plan, or a refusal from 1 to 11. With it, how many units the largest block has. */
struct planned {
    uint32_t refusal;
    size_t length;
    uint8_t bytes[PLAN];
    unsigned largest;
};

/* Plans an image. */
void rules_plan(const uint8_t *image, size_t image_len, struct planned *made);

/* Answers a call of planning: writes what was made of the image to the buffers lent, and tries them for 12. */
uint32_t rules_lend(const struct planned *made, uint8_t *plan, size_t plan_len, uint8_t *work, size_t work_len);

/* Ways to a next value: by substitution, d zero, q below -5, above 0, zero, and from -5 to 0. */
enum way { SUBSTITUTED, D_ZERO, BELOW, ABOVE, Q_ZERO, WITHIN, WAYS };

/* The step of one value, with the parameters and answers of najmudhil_step. Where a next value is made, tells the way to it in `way`. */
uint32_t rules_step(uint8_t *x, size_t x_len, double y, uint8_t *record, size_t record_len, uint8_t *count, size_t count_len, uint32_t method,
                    double tolerance, uint32_t limit, uint8_t *answer, size_t answer_len, enum way *way);

#endif
