/*
 * Gannetrope: exact, proved equivalence of Clifford+T circuits.
 *
 * The static library is target/staticlib/libcapi.a, for x86-64 Linux; `scripts/build library` makes it. Its functions are
 * proved to meet their contracts for every input that the rules below allow.
 *
 * Rules for every pair of a pointer and a length:
 *   - the pointer is aligned and not null, even where the length is 0;
 *   - it points to at least that many slots, all of them initialised;
 *   - what is lent for writing overlaps nothing else that is lent to the same call.
 */
#ifndef GANNETROPE_H
#define GANNETROPE_H

#include <stddef.h>
#include <stdint.h>

#ifdef __cplusplus
extern "C" {
#endif

/* How many slots gannetrope_judge needs in `numbers` and in `entries`. */
#define GANNETROPE_NUMBERS 11
#define GANNETROPE_ENTRIES 8

/* The slots of `numbers`. A slot that the report has no value for is 0. */
#define GANNETROPE_KIND 0          /* one of the kinds below */
#define GANNETROPE_EXPONENT 1      /* equal, different: the miter's power of the square root of 2, the least possible */
#define GANNETROPE_STEPS 2         /* equal, different: gates of both lists */
#define GANNETROPE_NODES 3         /* equal, different: used node slots of the first store */
#define GANNETROPE_VALUES 4        /* equal, different: used value slots of the first store */
#define GANNETROPE_ROW 5           /* different: the row of the first forbidding entry */
#define GANNETROPE_COLUMN 6        /* different: its column */
#define GANNETROPE_REFUSAL 7       /* refused: the number of the refusal, 1 to 14 or 17 */
#define GANNETROPE_LIST 8          /* refused with 3 to 10 or 17: the list, 1 or 2 */
#define GANNETROPE_OFFSET 9        /* refused with 3 to 10 or 17: an offset in that list */
#define GANNETROPE_REFUSED_AFTER 10 /* refused with 13 or 14: steps finished before */

/* The kinds of report. */
#define GANNETROPE_EQUAL 0
#define GANNETROPE_DIFFERENT 1
#define GANNETROPE_REFUSED 2

/* The first slots of the two entries in `entries`, each four numbers a, b, c, d. */
#define GANNETROPE_ENTRY 0  /* equal: the factor; different: the first forbidding entry */
#define GANNETROPE_CORNER 4 /* different: the entry at row 0, column 0 */

/* Bytes of stack that are enough for a call of gannetrope_judge. The most that was seen in use is 951, 795,103 and 4,727,263. */
#define GANNETROPE_STACK_REFUSED 65536 /* refused with 1 to 12 or 17, before any step */
#define GANNETROPE_STACK_SMALL 1048576 /* N and L at most 4,096 */
#define GANNETROPE_STACK_LARGE 8388608 /* any call */

/*
 * Judges whether two gate lists are the same operator up to a factor. After each step the product is divided by the
 * square root of 2 while its exponent is above 0 and every entry is a multiple; the width (13) is tested before that.
 *
 * list1, list2   the gate lists as bytes
 * schedule       one byte for each step: 0 takes the next gate of list 1, 1 the next of list 2
 * w              the width in bits that every number of a step's product must fit, 2 to 32
 * level .. d     the first store: three node columns of one length N, at most 65,536, and four value columns of one
 *                length L, 1 to 65,536
 * other_level .. other_d
 *                the second store, of the same lengths
 * numbers        at least GANNETROPE_NUMBERS slots for the report; more are left alone
 * entries        at least GANNETROPE_ENTRIES slots for its entries; more are left alone
 *
 * Returns 0 if the pair was judged: the report is in `numbers` and `entries`. After equal or different the first store
 * holds the miter's reduced diagram with its unused slots 0, and the second is all 0. The refusals 1 to 12 and 17
 * change no store; 13 and 14 leave both all 0.
 *
 * Returns 1 if `numbers` or `entries` is too short: then nothing was judged and nothing written.
 *
 * Every call fits a thread with the stack that GANNETROPE_STACK_LARGE says; two kinds need less.
 */
uint32_t gannetrope_judge(
    const uint8_t *list1, size_t list1_length,
    const uint8_t *list2, size_t list2_length,
    const uint8_t *schedule, size_t schedule_length,
    uint32_t w,
    uint32_t *level, size_t level_length,
    uint32_t *low, size_t low_length,
    uint32_t *high, size_t high_length,
    int32_t *a, size_t a_length,
    int32_t *b, size_t b_length,
    int32_t *c, size_t c_length,
    int32_t *d, size_t d_length,
    uint32_t *other_level, size_t other_level_length,
    uint32_t *other_low, size_t other_low_length,
    uint32_t *other_high, size_t other_high_length,
    int32_t *other_a, size_t other_a_length,
    int32_t *other_b, size_t other_b_length,
    int32_t *other_c, size_t other_c_length,
    int32_t *other_d, size_t other_d_length,
    uint64_t *numbers, size_t numbers_length,
    int32_t *entries, size_t entries_length);

/* gannetrope_schedule returns this plus the refusal's number where it refuses. */
#define GANNETROPE_SCHEDULE_REFUSED 65536

/*
 * Makes the proportional schedule of m gates of list 1 and p gates of list 2, which keeps both lists equally far along.
 *
 * Returns m + p, with the first m + p bytes of the buffer filled and the rest left alone. It refuses with 6 where m or
 * p is over 4,096, then with 15 where the buffer is shorter than m + p; then the buffer is left alone.
 */
uint32_t gannetrope_schedule(uint32_t m, uint32_t p, uint8_t *buffer, size_t buffer_length);

/* How many slots gannetrope_inverse needs in `numbers`. */
#define GANNETROPE_WRITER_NUMBERS 5

/* The slots of `numbers`. A slot that the answer has no value for is 0. */
#define GANNETROPE_WRITER_KIND 0    /* GANNETROPE_WRITTEN or GANNETROPE_REFUSED */
#define GANNETROPE_WRITER_BYTES 1   /* written: how many bytes */
#define GANNETROPE_WRITER_REFUSAL 2 /* refused: the number of the refusal, 3 to 10, 16 or 17 */
#define GANNETROPE_WRITER_LIST 3    /* refused with 3 to 10 or 17: the list, 1 */
#define GANNETROPE_WRITER_OFFSET 4  /* refused with 3 to 10 or 17: an offset in that list */

/* The kind of an answer that is no refusal. */
#define GANNETROPE_WRITTEN 0

/*
 * Writes the list of a list's inverse: its gates in opposite order, each by its inverse code. Written twice, it is the
 * first list again; after the list it undoes it.
 *
 * list           the gate list as bytes
 * buffer         as many bytes as the list has; more are left alone
 * numbers        at least GANNETROPE_WRITER_NUMBERS slots for the answer; more are left alone
 *
 * Returns 0 if `numbers` has the answer: the bytes written, which are as many as the list's, or the refusal, 3 to 10 or
 * 17 of the list and then 16 where the buffer is shorter than the inverse; a refusal leaves the buffer alone.
 *
 * Returns 1 if `numbers` is too short: then nothing was written.
 *
 * The call takes time in proportion to the list's length, and less stack than GANNETROPE_STACK_REFUSED says.
 */
uint32_t gannetrope_inverse(
    const uint8_t *list, size_t list_length,
    uint8_t *buffer, size_t buffer_length,
    uint64_t *numbers, size_t numbers_length);

#ifdef __cplusplus
}
#endif

#endif
