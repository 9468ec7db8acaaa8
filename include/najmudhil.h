/*
 * Najmudhil for C programs: the plan of a flowsheet, and the convergence step of one value of a torn stream.
 * Link with the static library libnajmudhil.a.
 *
 * What holds of both functions:
 *
 *  - Every row of bytes is a pointer and then its length in bytes. Rows of any length and content are answered; no
 *    byte beyond a length is read or written.
 *  - A pointer points to as many bytes as the length after it says; where that is 0 it may have any value, NULL too.
 *  - The rows of one call don't overlap. No alignment is asked for.
 *  - Numbers in bytes are little-endian: the low byte first. A double is the 8 bytes of its IEEE 754 pattern.
 *  - What is returned is 0, or the number of a refusal: of those that hold, the first in the order given below.
 *  - Nothing is kept between calls and nothing is allocated, so calls on rows of their own may run at one time.
 *  - The step computes in doubles, one rounding for each operation: call it with rounding to nearest and subnormal
 *    numbers kept, as a C program starts.
 */
#ifndef NAJMUDHIL_H
#define NAJMUDHIL_H

#include <stddef.h>
#include <stdint.h>

#ifdef __cplusplus
extern "C" {
#endif

/* ------------------------------------------------------------------------------------------------ planning */

/*
 * Writes the plan of the flowsheet in `image` to the front of `plan`.
 *
 * image   The flowsheet, in numbers of 16 bits. Header, 16 bytes: edition (1), unit count U, stream count S, offset of
 *         the unit table (16), offset of the stream table (16 + 2U), total length (16 + 2U + 8S), four zero bytes.
 *         A unit record is its number, 1 to 9,999, strictly rising through the table. A stream record is number
 *         (1 to 9,999, strictly rising), source, receiver, weight (1 to 1,000); source and receiver are unit numbers
 *         of the table or 0 for outside, not both 0. U is at most 64 and S at most 256. Only read.
 * plan    Where the plan goes, in numbers of 16 bits. Header, 16 bytes: edition (1), U, block count B, torn count T,
 *         offset of the block table (16), of the order table (16 + 8B), of the torn table (16 + 8B + 2U), total length
 *         (16 + 8B + 2U + 2T, at most 1,168). A block record is four numbers: first place in the order table (from 0),
 *         number of units, first place in the torn table (from 0), number torn. The order table has the unit numbers
 *         in order, the torn table the numbers of the torn streams, block by block, rising within a block.
 *         Bytes beyond the plan stay as they were. On a refusal all stay.
 * work    Working memory, at least 65,536 bytes of any content. When it is that long, its first 65,536 bytes are zero
 *         after the call, accepted or refused, and the rest stay. A shorter one stays as it was.
 *
 * Returns 0, or the first refusal: 1 to 5 in order, then each unit in table order (6), then each stream in table order
 * (7, 8, 9, 10), then 11, then 12.
 *
 *    1   fewer than 16 bytes
 *    2   edition not 1
 *    3   a spare byte not zero
 *    4   U over 64 or S over 256
 *    5   offsets, total or the image's length differ from the counts
 *    6   unit number out of range or not rising
 *    7   stream number out of range or not rising
 *    8   an end that is neither 0 nor a known unit
 *    9   both ends 0
 *   10   weight out of range
 *   11   a block over 12 units
 *   12   `plan` shorter than the plan, or `work` under 65,536 bytes
 */
uint32_t najmudhil_plan(const uint8_t *image, size_t image_len, uint8_t *plan, size_t plan_len, uint8_t *work,
                        size_t work_len);

/* ---------------------------------------------------------------------------------------- convergence step */

/* The first byte of a step's answer. */
#define NAJMUDHIL_SETTLED 1
#define NAJMUDHIL_SPENT 2
#define NAJMUDHIL_STRAYED 3
#define NAJMUDHIL_MOVED 4

/* The method of a step. */
#define NAJMUDHIL_SUBSTITUTION 1
#define NAJMUDHIL_WEGSTEIN 2

/*
 * Takes one convergence step for one value of a torn stream.
 *
 * x          8 bytes: the value supposed, a double.
 * y          The value calculated from it.
 * record     16 bytes: the x and then the y of the last accepted move, two doubles. At count 0 its content is ignored,
 *            whatever it is.
 * count      2 bytes: how many moves there were, a number of 16 bits. Begin with 0 and hand each count on to the next
 *            call; with one limit kept, Moved then comes at most as often as the limit says.
 * method     1 substitution, 2 Wegstein with its factor from -5 to 0.
 * tolerance  From 1e-12 to 0.1. The value is close when |y - x| is at most the tolerance times the larger of |x| and 1.
 * limit      How many moves there may be, 1 to 500.
 * answer     9 bytes, written where 0 is returned: the verdict's number, then the double that it carries.
 *
 *              1  Settled   carries |y - x|        the value is close
 *              2  Spent     carries |y - x|        not close, and the count equals the limit
 *              3  Strayed   carries the next value, which is beyond 1e12 in size
 *              4  Moved     carries |y - x|        x is now the next value, the record this call's x and y, and the
 *                                                  count one more
 *
 *            On Settled, Spent and Strayed the answer alone is written: x, record and count stay, to the byte.
 *            On Moved all bytes of all four are written; the record's x is the 8 bytes that x had.
 *
 * Returns 0, or the first of these refusals that holds, with all of x, record, count and answer unchanged.
 *
 *   30   a length that isn't 8 for x, 16 for record, 2 for count, 9 for answer
 *   31   tolerance not from 1e-12 to 0.1 (a NaN too)
 *   32   limit not 1 to 500, or method unknown
 *   33   x or y not finite (a NaN too) or beyond 1e12 in size
 *   34   count over limit, or at a count over 0 a value of the record not finite (a NaN too) or beyond 1e12 in size
 */
uint32_t najmudhil_step(uint8_t *x, size_t x_len, double y, uint8_t *record, size_t record_len, uint8_t *count,
                        size_t count_len, uint32_t method, double tolerance, uint32_t limit, uint8_t *answer,
                        size_t answer_len);

#ifdef __cplusplus
}
#endif

#endif
