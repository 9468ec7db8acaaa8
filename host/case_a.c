/*
 * Plans a flowsheet of seven units and seven streams, in which 2, 3, 7 and 6 are one recycle, and compares what najmudhil_plan answers with what
 * the rules say, byte by byte: the answer, the plan, the bytes of the lent buffer beyond it, and the working memory. One line a check; ends with
 * 0 where all of them hold.
 */
#include "image.h"
#include "najmudhil.h"

#include <stdio.h>
#include <string.h>

enum { UNITS = 7, STREAMS = 7, IMAGE = 16 + 2 * UNITS + 8 * STREAMS, PLAN = 64, ROOM = 80, WORK = 65536 };

/* Number, source, receiver, weight. */
static const uint16_t streams[STREAMS][4] = {
    {1, 1, 2, 1}, {2, 2, 3, 1}, {3, 3, 4, 1}, {4, 3, 7, 1}, {5, 5, 6, 1}, {6, 6, 2, 1}, {7, 7, 6, 1},
};

/* Header; four blocks, a record of four numbers each; the units in order; the one torn stream. */
static const uint16_t wanted[PLAN / 2] = {
    1, UNITS, 4, 1, 16, 48, 62, PLAN,
    0, 1, 0, 0,
    1, 1, 0, 0,
    2, 4, 0, 1,
    6, 1, 1, 0,
    1, 5, 2, 3, 7, 6, 4,
    6,
};

static void write_image(uint8_t image[IMAGE])
{
    uint8_t *at = put_front(image, UNITS, STREAMS);
    for (int i = 0; i < STREAMS; i++)
        for (int k = 0; k < 4; k++)
            at = put(at, streams[i][k]);
}

static int failures;

static void check(const char *what, int holds)
{
    printf("%s: %s\n", what, holds ? "yes" : "NO");
    failures += !holds;
}

int main(void)
{
    static uint8_t work[WORK];
    static const uint8_t cleared[WORK];
    uint8_t image[IMAGE], plan[ROOM], expected[ROOM];

    write_image(image);
    memset(plan, 0xa5, sizeof plan);
    memset(expected, 0xa5, sizeof expected);
    memset(work, 0x5a, sizeof work);
    uint8_t *at = expected;
    for (int i = 0; i < PLAN / 2; i++)
        at = put(at, wanted[i]);

    uint32_t answer = najmudhil_plan(image, sizeof image, plan, sizeof plan, work, sizeof work);
    check("the image has 86 bytes", sizeof image == 86);
    check("the answer is 0", answer == 0);
    check("the plan is the one wanted, and the bytes beyond it stayed", memcmp(plan, expected, sizeof plan) == 0);
    check("the working memory is zero", memcmp(work, cleared, sizeof work) == 0);

    memset(plan, 0xa5, sizeof plan);
    memset(expected, 0xa5, sizeof expected);
    answer = najmudhil_plan(image, sizeof image, plan, PLAN - 1, work, sizeof work);
    check("one byte less is 12", answer == 12);
    check("and leaves the buffer as it stood", memcmp(plan, expected, sizeof plan) == 0);
    return failures != 0;
}
