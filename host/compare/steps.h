/* Calls of the step, drawn with every kind of double. */
#ifndef STEPS_H
#define STEPS_H

#include "draw.h"

struct step {
    double x, y, last_x, last_y, tolerance;
    uint16_t count;
    uint32_t method, limit;
    /* How long x, the record, the count and the answer are lent. */
    unsigned lengths[4];
};

struct step draw_step(struct draw *draw);

#endif
