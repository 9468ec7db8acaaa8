/* A flowsheet is drawn first, then written, and then perhaps damaged. */
#include "images.h"

#include <string.h>

/* One unit and one stream more than an image may have, so that these bounds are met from above too. */
enum { MOST_UNITS = 65, MOST_STREAMS = 257, OUTSIDE = MOST_UNITS };

struct drawn {
    unsigned units, streams;
    unsigned unit[MOST_UNITS];
    unsigned stream[MOST_STREAMS][4];
};

/* ------------------------------------------------------------------------------------------------------------ a flowsheet */

/* Rising numbers from 1 to 9,999: one after another or far apart, and sometimes up to the last. */
static void draw_numbers(struct draw *draw, unsigned *numbers, unsigned count)
{
    unsigned number = 0, widest = count > 0 && draw_percent(draw, 60) ? 9999 / count : 1;
    if (widest > 1 && draw_percent(draw, 50))
        widest = 3;
    for (unsigned i = 0; i < count; i++)
        numbers[i] = number += draw_from(draw, 1, widest);
    unsigned shift = draw_percent(draw, 10) ? 9999 - number : 0;
    for (unsigned i = 0; i < count; i++)
        numbers[i] += shift;
}

/* All alike, few weights, or many: where weights are alike many orders tear as little. */
static void draw_weights(struct draw *draw, struct drawn *sheet)
{
    static const unsigned ranges[][2] = {{1, 1}, {1, 2}, {1, 5}, {1, 1000}, {999, 1000}, {1000, 1000}};
    const unsigned *range = DRAW_ONE(draw, ranges);
    for (unsigned i = 0; i < sheet->streams; i++)
        sheet->stream[i][3] = draw_from(draw, range[0], range[1]);
}

/* Shuffles the units' places, so that numbers tell nothing of who is in which group. */
static void draw_places(struct draw *draw, unsigned *places, unsigned count)
{
    for (unsigned i = 0; i < count; i++) {
        unsigned at = draw_below(draw, i + 1);
        places[i] = places[at];
        places[at] = i;
    }
}

/* A stream's ends within a group, of `size` units from `first` on, or from an earlier group to a later one, which closes no loop. */
static void draw_ends(struct draw *draw, const struct drawn *sheet, unsigned first, unsigned size, unsigned ends[2])
{
    ends[0] = draw_from(draw, first, first + size - 1);
    ends[1] = draw_from(draw, first, first + size - 1);
    unsigned kind = draw_below(draw, 20);
    if (kind < 4 && first > 0)
        ends[0] = draw_below(draw, first);
    else if (kind < 6 && first + size < sheet->units)
        ends[1] = draw_from(draw, first + size, sheet->units - 1);
    else if (kind == 6)
        ends[1] = ends[0];
}

/* Puts a stream behind those drawn, if there is room. Ends are places in `places`, or OUTSIDE. */
static void put_stream(struct drawn *sheet, const unsigned *places, unsigned source, unsigned receiver, unsigned most)
{
    if (sheet->streams >= most)
        return;
    sheet->stream[sheet->streams][1] = source == OUTSIDE ? 0 : sheet->unit[places[source]];
    sheet->stream[sheet->streams][2] = receiver == OUTSIDE ? 0 : sheet->unit[places[receiver]];
    sheet->streams++;
}

/* A group: now and then a ring, and streams that join its units with each other and with those of other groups. Some come twice. */
static void draw_group(struct draw *draw, struct drawn *sheet, const unsigned *places, unsigned first, unsigned size, unsigned most)
{
    unsigned tries = draw_below(draw, 2 * size + 3);
    if (size > 1 && draw_percent(draw, 70))
        for (unsigned i = 0; i < size; i++)
            put_stream(sheet, places, first + i, first + (i + 1) % size, most);
    while (tries-- > 0) {
        unsigned ends[2];
        draw_ends(draw, sheet, first, size, ends);
        if (draw_percent(draw, 10))
            ends[draw_below(draw, 2)] = OUTSIDE;
        put_stream(sheet, places, ends[0], ends[1], most);
        if (draw_percent(draw, 10))
            put_stream(sheet, places, ends[0], ends[1], most);
    }
}

/* A stream takes any of the places drawn so far, so that a group's streams don't stand together. */
static void shuffle_streams(struct draw *draw, struct drawn *sheet)
{
    for (unsigned i = 1; i < sheet->streams; i++) {
        unsigned at = draw_below(draw, i + 1), kept[4];
        memcpy(kept, sheet->stream[i], sizeof kept);
        memcpy(sheet->stream[i], sheet->stream[at], sizeof kept);
        memcpy(sheet->stream[at], kept, sizeof kept);
    }
}

/* How large the groups of a flowsheet may be: small ones mostly, since an order of many units takes long to find by trying. */
static unsigned draw_largest(struct draw *draw)
{
    unsigned dice = draw_below(draw, 100);
    return dice < 84 ? draw_from(draw, 1, 7) : dice < 94 ? draw_from(draw, 8, 12) : draw_from(draw, 13, 64);
}

static void draw_sheet(struct draw *draw, struct drawn *sheet)
{
    unsigned places[MOST_UNITS], numbers[MOST_STREAMS], dice = draw_below(draw, 100), first = 0, largest = draw_largest(draw);
    unsigned most = draw_percent(draw, 2) ? MOST_STREAMS : MOST_STREAMS - 1;
    memset(sheet, 0, sizeof *sheet);
    sheet->units = dice < 2 ? draw_from(draw, 64, 65) : dice < 60 ? draw_below(draw, 10) : draw_below(draw, 65);
    draw_numbers(draw, sheet->unit, sheet->units);
    draw_places(draw, places, sheet->units);
    while (first < sheet->units) {
        unsigned size = draw_percent(draw, 40) ? 1 : draw_from(draw, 1, largest);
        if (size > sheet->units - first)
            size = sheet->units - first;
        draw_group(draw, sheet, places, first, size, most);
        first += size;
    }
    if (draw_percent(draw, 2))
        while (sheet->units > 0 && sheet->streams < most)
            put_stream(sheet, places, OUTSIDE, draw_below(draw, sheet->units), most);
    shuffle_streams(draw, sheet);
    draw_numbers(draw, numbers, sheet->streams);
    for (unsigned i = 0; i < sheet->streams; i++)
        sheet->stream[i][0] = numbers[i];
    draw_weights(draw, sheet);
}

/* --------------------------------------------------------------------------------------------------------- image and damage */

static void poke(uint8_t *image, size_t at, unsigned number)
{
    image[at] = number & 0xff;
    image[at + 1] = number >> 8 & 0xff;
}

static size_t write_image(const struct drawn *sheet, uint8_t *image)
{
    size_t streams_at = 16 + 2 * sheet->units, total = streams_at + 8 * sheet->streams;
    const size_t header[8] = {1, sheet->units, sheet->streams, 16, streams_at, total, 0, 0};
    for (unsigned i = 0; i < 8; i++)
        poke(image, 2 * i, (unsigned)header[i]);
    for (unsigned i = 0; i < sheet->units; i++)
        poke(image, 16 + 2 * i, sheet->unit[i]);
    for (unsigned i = 0; i < 4 * sheet->streams; i++)
        poke(image, streams_at + 2 * i, sheet->stream[i / 4][i % 4]);
    return total;
}

/* A number of the header, or a spare byte, is another one. */
static void damage_header(struct draw *draw, uint8_t *image)
{
    static const unsigned numbers[] = {0, 1, 2, 15, 16, 17, 63, 64, 65, 255, 256, 257, 2192, 65535};
    unsigned place = draw_below(draw, 8), dice = draw_below(draw, 3);
    unsigned held = image[2 * place] + 256u * image[2 * place + 1];
    if (place >= 6)
        image[draw_from(draw, 12, 15)] = draw_from(draw, 1, 255);
    else
        poke(image, 2 * place, dice == 0 ? DRAW_ONE(draw, numbers) : dice == 1 ? held + 1 : held - 1);
}

/* A number that is out of range, at its edge, that of the record before or after, or any. */
static unsigned draw_bad_number(struct draw *draw, unsigned before, unsigned after)
{
    const unsigned numbers[] = {0, 1, 9999, 10000, 65535, before, after, before + 1, draw_below(draw, 65536), draw_from(draw, 1, 9999)};
    return DRAW_ONE(draw, numbers);
}

static void damage_unit(struct draw *draw, struct drawn *sheet)
{
    unsigned at = draw_below(draw, sheet->units);
    sheet->unit[at] = draw_bad_number(draw, at > 0 ? sheet->unit[at - 1] : 0, at + 1 < sheet->units ? sheet->unit[at + 1] : 1);
}

/* One of a stream's numbers is another one, or both its ends are outside. */
static void damage_stream(struct draw *draw, struct drawn *sheet)
{
    static const unsigned weights[] = {0, 1, 1000, 1001, 1024, 65535};
    unsigned at = draw_below(draw, sheet->streams), field = draw_below(draw, 5), *stream = sheet->stream[at];
    if (field == 0)
        stream[0] = draw_bad_number(draw, at > 0 ? sheet->stream[at - 1][0] : 0, at + 1 < sheet->streams ? sheet->stream[at + 1][0] : 1);
    else if (field == 3)
        stream[3] = DRAW_ONE(draw, weights);
    else if (field == 4)
        stream[1] = stream[2] = 0;
    else
        stream[field] = draw_percent(draw, 50) ? stream[field] + 1 : draw_bad_number(draw, stream[1], stream[2]);
}

/* The image is cut off, or has bytes behind its end. */
static size_t damage_length(struct draw *draw, uint8_t *image, size_t length)
{
    unsigned dice = draw_below(draw, 4);
    if (dice == 0)
        return draw_below(draw, 17);
    if (dice == 1)
        return draw_below(draw, (unsigned)length + 1);
    if (dice == 2)
        return length - 1;
    size_t more = draw_from(draw, 1, 40);
    for (size_t i = 0; i < more; i++)
        image[length + i] = draw_below(draw, 256);
    return length + more;
}

/* Any bytes; the header's front is mostly good, so that reading gets further. */
static size_t draw_bytes(struct draw *draw, uint8_t *image)
{
    size_t length = draw_percent(draw, 50) ? draw_below(draw, 40) : draw_below(draw, IMAGE_ROOM);
    for (size_t i = 0; i < length; i++)
        image[i] = draw_below(draw, 256);
    if (length >= 2 && draw_percent(draw, 70))
        poke(image, 0, 1);
    return length;
}

size_t draw_image(struct draw *draw, uint8_t image[IMAGE_ROOM])
{
    struct drawn sheet;
    unsigned damage = draw_below(draw, 100);
    if (damage < 2)
        return draw_bytes(draw, image);
    draw_sheet(draw, &sheet);
    for (unsigned twice = 0; twice < 2; twice++) {
        if (damage >= 2 && damage < 12 && sheet.units > 0)
            damage_unit(draw, &sheet);
        if (damage >= 10 && damage < 32 && sheet.streams > 0)
            damage_stream(draw, &sheet);
        if (draw_percent(draw, 70))
            break;
    }
    size_t length = write_image(&sheet, image);
    if (damage >= 32 && damage < 40)
        damage_header(draw, image);
    if (damage >= 40 && damage < 44)
        length = damage_length(draw, image, length);
    if (damage == 44)
        image[draw_below(draw, (unsigned)length)] ^= 1u << draw_below(draw, 8);
    return length;
}
