/* Images of flowsheets, good and damaged, drawn so that each refusal and each size of a block comes often. */
#ifndef IMAGES_H
#define IMAGES_H

#include "draw.h"

#include <stddef.h>

/* The longest image drawn. */
enum { IMAGE_ROOM = 2400 };

/* Draws an image; gives its length. */
size_t draw_image(struct draw *draw, uint8_t image[IMAGE_ROOM]);

#endif
