/* Planning and the step in plain C, by the rules of docs/RULES.md and with the parameters and answers of najmudhil_plan and najmudhil_step: what
   these are timed against. The working memory is aligned as numbers of 32 bits are, and numbers in bytes are this machine's. */
#ifndef PLAIN_H
#define PLAIN_H

#include <stddef.h>
#include <stdint.h>

uint32_t plain_plan(const uint8_t *image, size_t image_len, uint8_t *plan, size_t plan_len, uint8_t *work, size_t work_len);

uint32_t plain_step(uint8_t *x, size_t x_len, double y, uint8_t *record, size_t record_len, uint8_t *count, size_t count_len, uint32_t method,
                    double tolerance, uint32_t limit, uint8_t *answer, size_t answer_len);

#endif
