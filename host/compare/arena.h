/* A row of bytes as it is lent to the library, with guard bytes on both sides, and beside it the same bytes as the rules leave them. */
#ifndef ARENA_H
#define ARENA_H

#include "draw.h"

#include <stddef.h>

enum { GUARD = 64, ROOM = 66560 };

struct arena {
    size_t at, length;
    uint8_t lent[ROOM], wanted[ROOM];
};

/* Makes a row of so many bytes at any alignment; it and its guards are filled with one byte, which isn't 0. */
void arena_fill(struct arena *arena, struct draw *draw, size_t length);

/* Writes bytes to the front of both rows, as many as the row has. */
void arena_put(struct arena *arena, const void *bytes, size_t length);

/* The row for the library, whose guards valgrind then watches. An empty row may be NULL, and is where `null` says so. */
uint8_t *arena_lend(struct arena *arena, int null);

/* The row for the rules. */
uint8_t *arena_wanted(struct arena *arena);

/* Ends the lending; gives whether the lent row and its guards are, byte by byte, as wanted. */
int arena_same(struct arena *arena);

/* Prints both rows, in hex. */
void arena_print(const struct arena *arena, const char *name);

#endif
