/* Writing a flowsheet's image: numbers of 16 bits, the low byte first. */
#ifndef IMAGE_H
#define IMAGE_H

#include <stdint.h>

/* Writes a number, and gives the place behind it. */
static inline uint8_t *put(uint8_t *at, unsigned number)
{
    at[0] = number % 256;
    at[1] = number / 256;
    return at + 2;
}

/* Writes the header and the units 1, 2, .. of an image, and gives the place of its first stream. */
static inline uint8_t *put_front(uint8_t *image, unsigned units, unsigned streams)
{
    const unsigned streams_at = 16 + 2 * units, header[8] = {1, units, streams, 16, streams_at, streams_at + 8 * streams, 0, 0};
    uint8_t *at = image;
    for (int i = 0; i < 8; i++)
        at = put(at, header[i]);
    for (unsigned unit = 1; unit <= units; unit++)
        at = put(at, unit);
    return at;
}

#endif
