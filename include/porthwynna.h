/* Porthwynna: finds the repetitions of a byte text, the strings that stand twice in a row. For C99 and C++ on x86-64 Linux.
   The functions' answers are proved; this header is written by hand, and tested. */
#ifndef PORTHWYNNA_H
#define PORTHWYNNA_H

#include <stddef.h>
#include <stdint.h>

#ifdef __cplusplus
extern "C" {
#endif

/* A repetition has a start and a half of at least 1: the half bytes from start on are equal to the half bytes after them. Starts
   count from 0, all 256 values of a byte may occur, and n below is the text's length.

   What the caller owes:
   - Each pointer is good for its length, which counts elements and not bytes, and aligned for its type: a text for reading, a
     lent buffer (work, report, answer) for reading and writing. Where the length is 0 the pointer may be anything, NULL too.
   - A lent buffer overlaps neither another one nor the text.
   - The calling thread has as much stack left as the function takes (below).
   Nothing else need be checked beforehand. No text is ever written. There is no state and nothing is allocated: several threads
   may call at the same time, each with buffers of its own, on the same text too. */

/* The version of this header. */
#define PORTHWYNNA_VERSION_MAJOR 0
#define PORTHWYNNA_VERSION_MINOR 1
#define PORTHWYNNA_VERSION_PATCH 0
/* The three as one number: 10000 for each major version, 100 for each minor one, and the patch. */
#define PORTHWYNNA_VERSION \
    (10000 * PORTHWYNNA_VERSION_MAJOR + 100 * PORTHWYNNA_VERSION_MINOR + PORTHWYNNA_VERSION_PATCH)

/* Replies. ANSWER_TOO_SHORT is tried first, then the others in the order of their numbers. */
#define PORTHWYNNA_DONE 0
#define PORTHWYNNA_TEXT_TOO_LONG 1     /* n is over LENGTH_LIMIT */
#define PORTHWYNNA_WORK_TOO_SHORT 2    /* work has fewer than WORK_PER_BYTE times n numbers */
#define PORTHWYNNA_FULL 3              /* there are more blocks than the report has room for */
#define PORTHWYNNA_NO_SUCH_PLACE 4     /* half is 0, or start plus twice the half is over n */
#define PORTHWYNNA_ANSWER_TOO_SHORT 99 /* answer has fewer numbers than the function writes */

/* Limits. */
#define PORTHWYNNA_LENGTH_LIMIT 16384
#define PORTHWYNNA_GREATEST_DEPTH 14 /* the depth D (see porthwynna_room) of a text of LENGTH_LIMIT bytes */
#define PORTHWYNNA_WORK_PER_BYTE 2
#define PORTHWYNNA_NUMBERS_PER_BLOCK 3
/* Numbers of the largest work space and of the largest report that any text needs. */
#define PORTHWYNNA_LARGEST_WORK (PORTHWYNNA_WORK_PER_BYTE * PORTHWYNNA_LENGTH_LIMIT)
#define PORTHWYNNA_LARGEST_REPORT (PORTHWYNNA_NUMBERS_PER_BLOCK * PORTHWYNNA_LENGTH_LIMIT * PORTHWYNNA_GREATEST_DEPTH)

/* A block's numbers, by their places in it: block k of a report, counted from 0, begins at report[k * NUMBERS_PER_BLOCK]. */
#define PORTHWYNNA_BLOCK_HALF 0
#define PORTHWYNNA_BLOCK_FIRST 1
#define PORTHWYNNA_BLOCK_LAST 2

/* Numbers that each function writes at the front of the answer; the rest of it is as before. Below each its places there, where
   it is more than one. */
#define PORTHWYNNA_LIST_ANSWER 2
#define PORTHWYNNA_LIST_BLOCKS 0
#define PORTHWYNNA_LIST_COMPARISONS 1
#define PORTHWYNNA_STANDS_ANSWER 1
#define PORTHWYNNA_IS_FREE_ANSWER 1
#define PORTHWYNNA_LONGEST_ANSWER 2
#define PORTHWYNNA_LONGEST_START 0
#define PORTHWYNNA_LONGEST_HALF 1
#define PORTHWYNNA_ROOM_ANSWER 1

/* Bytes of stack that each function takes, at most, for any text; measured (tests/c/stack.c), not proved. */
#define PORTHWYNNA_LIST_STACK 72000
#define PORTHWYNNA_STANDS_STACK 256
#define PORTHWYNNA_IS_FREE_STACK 72000
#define PORTHWYNNA_LONGEST_STACK 72000
#define PORTHWYNNA_ROOM_STACK 256
#define PORTHWYNNA_VERSION_STACK 256

/* A reply in words, in English. Any number may be asked. */
static inline const char *porthwynna_reply_text(uint32_t reply)
{
    switch (reply) {
    case PORTHWYNNA_DONE:
        return "done";
    case PORTHWYNNA_TEXT_TOO_LONG:
        return "the text has more than 16384 bytes";
    case PORTHWYNNA_WORK_TOO_SHORT:
        return "the work space has fewer than two numbers for each byte of the text";
    case PORTHWYNNA_FULL:
        return "the list has more blocks than the report has room for";
    case PORTHWYNNA_NO_SUCH_PLACE:
        return "the half is 0, or its two copies go past the end of the text";
    case PORTHWYNNA_ANSWER_TOO_SHORT:
        return "the answer has fewer numbers than the function writes";
    default:
        return "no reply of this library";
    }
}

/* The version that the archive was built as, as one number. A program may compare it with PORTHWYNNA_VERSION, the version of the
   header that it was compiled with: where the two differ, header and archive don't belong together. */
uint32_t porthwynna_version(void);

/* All repetitions of the text, as blocks in the report. A block is three numbers, half, first and last: with this half there is a
   repetition at each start from first to last. Each repetition of the text is in exactly one block.
   Answer: K, the number of blocks, and C, the number of comparisons of one byte with another.

   Reply               Answer     Report                                        Work
   DONE                K, C       the K blocks, the rest as before              the first 2n numbers 0, the rest as before
   FULL                K, C       the leading blocks that fit, rest as before   as for DONE
   TEXT_TOO_LONG, WORK_TOO_SHORT, ANSWER_TOO_SHORT: all as before

   The report has room for report_len / 3 blocks; numbers left over at its end are never written. After FULL, a report of 3K
   numbers is enough; porthwynna_room gives a number of blocks that is enough for any text of n bytes.

   Order of the blocks: the text is cut in the middle, the left piece longer by one byte where n is odd. First come the repetitions
   across the cut whose second half begins at the cut or after it, by rising half; then the others across the cut, by rising half;
   then everything of the left piece in the same way, then everything of the right piece.

   Time: of the order of n log n, since C is at most 4nD. */
uint32_t porthwynna_list(const uint8_t *text, size_t text_len, uint16_t *work, size_t work_len, uint16_t *report,
                         size_t report_len, uint32_t *answer, size_t answer_len);

/* Does the repetition with this start and half stand in the text? Any start and half may be asked.
   DONE: answer 1 for yes, 0 for no. TEXT_TOO_LONG, NO_SUCH_PLACE, ANSWER_TOO_SHORT: answer as before.
   Time: of the order of the half, at most. */
uint32_t porthwynna_stands(const uint8_t *text, size_t text_len, uint64_t start, uint64_t half, uint32_t *answer,
                           size_t answer_len);

/* Is the text free of repetitions?
   DONE: answer 1 for yes, 0 for no; work: the first 2n numbers 0, the rest as before.
   TEXT_TOO_LONG, WORK_TOO_SHORT, ANSWER_TOO_SHORT: all as before.
   Time: that of a whole list, of the order of n log n, also where a repetition stands at the very start. */
uint32_t porthwynna_is_free(const uint8_t *text, size_t text_len, uint16_t *work, size_t work_len, uint32_t *answer,
                            size_t answer_len);

/* The longest repetition: the one with the greatest half, and among equals the first start of the block that porthwynna_list
   puts first.
   DONE: answer start, half, or 0, 0 where the text has no repetition; work: the first 2n numbers 0, the rest as before.
   TEXT_TOO_LONG, WORK_TOO_SHORT, ANSWER_TOO_SHORT: all as before.
   Time: that of a list, of the order of n log n. */
uint32_t porthwynna_longest(const uint8_t *text, size_t text_len, uint16_t *work, size_t work_len, uint32_t *answer,
                            size_t answer_len);

/* A number of blocks that is enough for any text of n bytes: n times D, the smallest number with 2 to the power D at least n.
   DONE: answer n times D. TEXT_TOO_LONG, ANSWER_TOO_SHORT: answer as before.
   Time: constant. */
uint32_t porthwynna_room(size_t n, uint32_t *answer, size_t answer_len);

#ifdef __cplusplus
}
#endif

#endif
