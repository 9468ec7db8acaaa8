#include "arena.h"

#include "guards.h"

#include <stdio.h>
#include <string.h>

void arena_fill(struct arena *arena, struct draw *draw, size_t length)
{
    int fill = (int)draw_from(draw, 1, 255);
    arena->at = GUARD + draw_below(draw, 8);
    arena->length = length;
    memset(arena->lent, fill, arena->at + length + GUARD);
    memset(arena->wanted, fill, arena->at + length + GUARD);
}

void arena_put(struct arena *arena, const void *bytes, size_t length)
{
    if (length > arena->length)
        length = arena->length;
    memcpy(arena->lent + arena->at, bytes, length);
    memcpy(arena->wanted + arena->at, bytes, length);
}

uint8_t *arena_lend(struct arena *arena, int null)
{
    CLOSE(arena->lent, arena->at);
    CLOSE(arena->lent + arena->at + arena->length, GUARD);
    return arena->length == 0 && null ? NULL : arena->lent + arena->at;
}

uint8_t *arena_wanted(struct arena *arena)
{
    return arena->wanted + arena->at;
}

int arena_same(struct arena *arena)
{
    OPEN(arena->lent, arena->at + arena->length + GUARD);
    return memcmp(arena->lent, arena->wanted, arena->at + arena->length + GUARD) == 0;
}

/* The front of a row, as long as the longest image. */
enum { SHOWN = 2400 };

static void print_row(const char *name, const char *which, const uint8_t *bytes, size_t length)
{
    printf("%s %s, %zu bytes:", name, which, length);
    for (size_t i = 0; i < length && i < SHOWN; i++)
        printf("%s%02x", i % 2 ? "" : " ", bytes[i]);
    printf("%s\n", length > SHOWN ? " .." : "");
}

void arena_print(const struct arena *arena, const char *name)
{
    print_row(name, "lent", arena->lent + arena->at, arena->length);
    if (memcmp(arena->lent, arena->wanted, arena->at + arena->length + GUARD) != 0)
        print_row(name, "wanted", arena->wanted + arena->at, arena->length);
}
