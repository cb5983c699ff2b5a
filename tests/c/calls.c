/* Calls every function of porthwynna.h and holds reply, answer, report, work space and text to document 01 after each call.
   A call's lent memory stands between guard numbers; the text is a block of its own, so that valgrind sees a read past its ends. */
#include <porthwynna.h>

#include <stdio.h>
#include <stdlib.h>
#include <string.h>

#if PORTHWYNNA_DONE != 0 || PORTHWYNNA_TEXT_TOO_LONG != 1 || PORTHWYNNA_WORK_TOO_SHORT != 2 || PORTHWYNNA_FULL != 3 ||            \
    PORTHWYNNA_NO_SUCH_PLACE != 4 || PORTHWYNNA_ANSWER_TOO_SHORT != 99
#error "a reply has another number in document 01"
#endif
#if PORTHWYNNA_LENGTH_LIMIT != 16384 || PORTHWYNNA_GREATEST_DEPTH != 14 || PORTHWYNNA_WORK_PER_BYTE != 2 ||                        \
    PORTHWYNNA_NUMBERS_PER_BLOCK != 3
#error "a limit is another in document 01"
#endif

#if PORTHWYNNA_LARGEST_WORK != 2 * 16384 || PORTHWYNNA_LARGEST_REPORT != 3 * 229376
#error "document 01's examples give the largest work space and the largest report otherwise"
#endif

#define LIMIT PORTHWYNNA_LENGTH_LIMIT
#define LENGTH(array) (sizeof(array) / sizeof *(array))
#define TEXT(letters) .text = (const uint8_t *)letters, .n = sizeof letters - 1

enum asked { LIST, STANDS, IS_FREE, LONGEST, ROOM };

/* What is lent, by lengths; the reply, the values that stand at the answer's front, and the report's leading blocks. */
struct call {
    enum asked asked;
    const uint8_t *text;
    size_t n;
    uint64_t start, half;
    size_t work, report, answer;
    uint32_t reply, values[2];
    uint16_t blocks[12];
};

static uint8_t zeros[LIMIT + 1];
static uint8_t full_bytes[LIMIT]; /* all 255 */
static uint8_t twos[LIMIT];

/* `twos` is how often 2 divides 1, 2, 3, ..: between two equal bytes stands a greater one, so it has no repetition.
   Of 16,384 = 2^d equal bytes, d = 14: a part of 2h bytes has the halves 1 to h right and 2 to h - 1 left, and its tables cost
   4h - 2. So K is 2^d (d - 3/2) + 2 and C is 2^d (2d - 2) + 2. C of `twos` is by tests/model.py, and so is that of "abcabcab". */
enum { EQUAL_BLOCKS = LIMIT / 2 * 25 + 2, EQUAL_COMPARISONS = LIMIT * 26 + 2, TWOS_COMPARISONS = 458633 };

static const struct call calls[] = {
    /* document 01's examples; the lent memory is longer than it need be, or as short as it may be */
    {LIST, TEXT(""), .answer = 2, .reply = 0, .values = {0, 0}},
    {LIST, TEXT(""), .work = 2, .report = 3, .answer = 3, .reply = 0, .values = {0, 0}},
    {LIST, TEXT("a"), .work = 2, .answer = 2, .reply = 0, .values = {0, 0}},
    {LIST, TEXT("aa"), .work = 5, .report = 6, .answer = 4, .reply = 0, .values = {1, 2}, .blocks = {1, 0, 0}},
    {LIST, TEXT("ab"), .work = 5, .report = 3, .answer = 2, .reply = 0, .values = {0, 2}},
    {LIST, TEXT("aba"), .work = 7, .report = 3, .answer = 2, .reply = 0, .values = {0, 6}},
    {LIST, TEXT("abab"), .work = 8, .report = 3, .answer = 2, .reply = 0, .values = {1, 10}, .blocks = {2, 0, 0}},
    {LIST, TEXT("ababc"), .work = 10, .report = 3, .answer = 2, .reply = 0, .values = {1, 17}, .blocks = {2, 0, 0}},
    {LIST, TEXT("abcabcab"), .work = 16, .report = 9, .answer = 2, .reply = 0, .values = {2, 34}, .blocks = {3, 1, 2, 3, 0, 0}},
    {LIST, TEXT("aaaa"), .work = 8, .report = 12, .answer = 2, .reply = 0, .values = {4, 10},
     .blocks = {1, 1, 1, 2, 0, 0, 1, 0, 0, 1, 2, 2}},
    {LIST, TEXT("\0\0\0\0"), .work = 9, .report = 14, .answer = 2, .reply = 0, .values = {4, 10},
     .blocks = {1, 1, 1, 2, 0, 0, 1, 0, 0, 1, 2, 2}},
    {LIST, TEXT("\377\377\377\377"), .work = 9, .report = 15, .answer = 2, .reply = 0, .values = {4, 10},
     .blocks = {1, 1, 1, 2, 0, 0, 1, 0, 0, 1, 2, 2}},

    /* more blocks than there is room for */
    {LIST, TEXT("aaaa"), .work = 8, .report = 11, .answer = 2, .reply = 3, .values = {4, 10},
     .blocks = {1, 1, 1, 2, 0, 0, 1, 0, 0}},
    {LIST, TEXT("aaaa"), .work = 9, .report = 7, .answer = 3, .reply = 3, .values = {4, 10}, .blocks = {1, 1, 1, 2, 0, 0}},
    {LIST, TEXT("aaaa"), .work = 8, .report = 2, .answer = 2, .reply = 3, .values = {4, 10}},
    {LIST, TEXT("aaaa"), .work = 8, .report = 0, .answer = 2, .reply = 3, .values = {4, 10}},

    /* at the limit of length, and beyond it */
    {LIST, .text = zeros, .n = LIMIT, .work = 2 * LIMIT + 1, .report = 4, .answer = 2, .reply = 3,
     .values = {EQUAL_BLOCKS, EQUAL_COMPARISONS}, .blocks = {1, LIMIT / 2 - 1, LIMIT / 2 - 1}},
    {LIST, .text = full_bytes, .n = LIMIT, .work = 2 * LIMIT, .report = 3, .answer = 2, .reply = 3,
     .values = {EQUAL_BLOCKS, EQUAL_COMPARISONS}, .blocks = {1, LIMIT / 2 - 1, LIMIT / 2 - 1}},
    {LIST, .text = twos, .n = LIMIT, .work = 2 * LIMIT, .report = 3, .answer = 2, .reply = 0, .values = {0, TWOS_COMPARISONS}},
    {LIST, .text = zeros, .n = LIMIT + 1, .work = 2 * LIMIT + 2, .report = 3, .answer = 2, .reply = 1},
    {LIST, .text = zeros, .n = LIMIT + 1, .work = 0, .report = 0, .answer = 2, .reply = 1},

    /* a work space that is too short */
    {LIST, .text = zeros, .n = LIMIT, .work = 2 * LIMIT - 1, .report = 3, .answer = 2, .reply = 2},
    {LIST, TEXT("aaaa"), .work = 7, .report = 12, .answer = 2, .reply = 2},
    {LIST, TEXT("a"), .work = 1, .report = 3, .answer = 2, .reply = 2},
    {LIST, TEXT("a"), .work = 0, .report = 0, .answer = 2, .reply = 2},

    /* an answer that is too short is told before everything else */
    {LIST, TEXT("aa"), .work = 4, .report = 3, .answer = 1, .reply = 99},
    {LIST, TEXT("aa"), .work = 4, .report = 3, .answer = 0, .reply = 99},
    {LIST, TEXT("aa"), .work = 0, .report = 3, .answer = 1, .reply = 99},
    {LIST, .text = zeros, .n = LIMIT + 1, .work = 0, .report = 3, .answer = 1, .reply = 99},
    {LIST, TEXT(""), .answer = 0, .reply = 99},

    /* the place test; sums of start and twice the half that are over 64 bits too, and starts that are 0 in their lower 32 */
    {STANDS, TEXT("abab"), .start = 0, .half = 2, .answer = 1, .reply = 0, .values = {1}},
    {STANDS, TEXT("abab"), .start = 1, .half = 1, .answer = 2, .reply = 0, .values = {0}},
    {STANDS, TEXT("abab"), .start = 1, .half = 2, .answer = 1, .reply = 4},
    {STANDS, TEXT("abab"), .start = 0, .half = 0, .answer = 1, .reply = 4},
    {STANDS, TEXT("abab"), .start = 4, .half = 0, .answer = 1, .reply = 4},
    {STANDS, TEXT(""), .start = 0, .half = 0, .answer = 1, .reply = 4},
    {STANDS, TEXT(""), .start = 0, .half = 1, .answer = 1, .reply = 4},
    {STANDS, TEXT("aaaa"), .start = 2, .half = 1, .answer = 1, .reply = 0, .values = {1}},
    {STANDS, TEXT("aaaa"), .start = 3, .half = 1, .answer = 1, .reply = 4},
    {STANDS, TEXT("aaaa"), .start = UINT64_MAX, .half = 1, .answer = 1, .reply = 4},
    {STANDS, TEXT("aaaa"), .start = UINT64_MAX - 1, .half = 1, .answer = 1, .reply = 4},
    {STANDS, TEXT("aaaa"), .start = 0, .half = UINT64_MAX, .answer = 1, .reply = 4},
    {STANDS, TEXT("aaaa"), .start = 2, .half = UINT64_MAX, .answer = 1, .reply = 4},
    {STANDS, TEXT("aaaa"), .start = 0, .half = UINT64_C(1) << 63, .answer = 1, .reply = 4},
    {STANDS, TEXT("aaaa"), .start = 0, .half = (UINT64_C(1) << 63) + 1, .answer = 1, .reply = 4},
    {STANDS, TEXT("aaaa"), .start = UINT64_C(1) << 32, .half = 1, .answer = 1, .reply = 4},
    {STANDS, TEXT("aaaa"), .start = 0, .half = (UINT64_C(1) << 32) + 1, .answer = 1, .reply = 4},
    {STANDS, TEXT("aaaa"), .start = UINT64_MAX, .half = UINT64_MAX, .answer = 1, .reply = 4},
    {STANDS, .text = zeros, .n = LIMIT, .start = 0, .half = LIMIT / 2, .answer = 1, .reply = 0, .values = {1}},
    {STANDS, .text = zeros, .n = LIMIT + 1, .start = 0, .half = 1, .answer = 1, .reply = 1},
    {STANDS, .text = zeros, .n = LIMIT + 1, .start = 0, .half = 0, .answer = 1, .reply = 1},
    {STANDS, TEXT("abab"), .start = 0, .half = 2, .answer = 0, .reply = 99},
    {STANDS, .text = zeros, .n = LIMIT + 1, .start = 0, .half = 0, .answer = 0, .reply = 99},

    {IS_FREE, TEXT(""), .answer = 1, .reply = 0, .values = {1}},
    {IS_FREE, TEXT("a"), .work = 3, .answer = 1, .reply = 0, .values = {1}},
    {IS_FREE, TEXT("aa"), .work = 5, .answer = 2, .reply = 0, .values = {0}},
    {IS_FREE, TEXT("ab"), .work = 4, .answer = 1, .reply = 0, .values = {1}},
    {IS_FREE, TEXT("abab"), .work = 8, .answer = 1, .reply = 0, .values = {0}},
    {IS_FREE, .text = twos, .n = LIMIT, .work = 2 * LIMIT, .answer = 1, .reply = 0, .values = {1}},
    {IS_FREE, .text = zeros, .n = LIMIT, .work = 2 * LIMIT, .answer = 1, .reply = 0, .values = {0}},
    {IS_FREE, .text = zeros, .n = LIMIT + 1, .work = 2 * LIMIT + 2, .answer = 1, .reply = 1},
    {IS_FREE, .text = zeros, .n = LIMIT + 1, .work = 0, .answer = 1, .reply = 1},
    {IS_FREE, TEXT("ab"), .work = 3, .answer = 1, .reply = 2},
    {IS_FREE, TEXT("ab"), .work = 0, .answer = 1, .reply = 2},
    {IS_FREE, TEXT("ab"), .work = 4, .answer = 0, .reply = 99},
    {IS_FREE, .text = zeros, .n = LIMIT + 1, .work = 0, .answer = 0, .reply = 99},

    {LONGEST, TEXT(""), .answer = 2, .reply = 0, .values = {0, 0}},
    {LONGEST, TEXT("aa"), .work = 5, .answer = 3, .reply = 0, .values = {0, 1}},
    {LONGEST, TEXT("ab"), .work = 4, .answer = 2, .reply = 0, .values = {0, 0}},
    {LONGEST, TEXT("aaaa"), .work = 8, .answer = 2, .reply = 0, .values = {0, 2}},
    {LONGEST, TEXT("abcabcab"), .work = 16, .answer = 2, .reply = 0, .values = {1, 3}},
    {LONGEST, .text = zeros, .n = LIMIT, .work = 2 * LIMIT, .answer = 2, .reply = 0, .values = {0, LIMIT / 2}},
    {LONGEST, .text = zeros, .n = LIMIT + 1, .work = 2 * LIMIT + 2, .answer = 2, .reply = 1},
    {LONGEST, .text = zeros, .n = LIMIT + 1, .work = 0, .answer = 2, .reply = 1},
    {LONGEST, TEXT("aa"), .work = 3, .answer = 2, .reply = 2},
    {LONGEST, TEXT("aa"), .work = 0, .answer = 2, .reply = 2},
    {LONGEST, TEXT("aa"), .work = 4, .answer = 1, .reply = 99},
    {LONGEST, TEXT("aa"), .work = 4, .answer = 0, .reply = 99},
    {LONGEST, .text = zeros, .n = LIMIT + 1, .work = 0, .answer = 1, .reply = 99},

    {ROOM, .n = 0, .answer = 1, .reply = 0, .values = {0}},
    {ROOM, .n = 1, .answer = 2, .reply = 0, .values = {0}},
    {ROOM, .n = 2, .answer = 1, .reply = 0, .values = {2}},
    {ROOM, .n = 3, .answer = 1, .reply = 0, .values = {6}},
    {ROOM, .n = 4, .answer = 1, .reply = 0, .values = {8}},
    {ROOM, .n = 5, .answer = 1, .reply = 0, .values = {15}},
    {ROOM, .n = LIMIT - 1, .answer = 1, .reply = 0, .values = {229362}},
    {ROOM, .n = LIMIT, .answer = 1, .reply = 0, .values = {229376}},
    {ROOM, .n = LIMIT + 1, .answer = 1, .reply = 1},
    {ROOM, .n = SIZE_MAX, .answer = 1, .reply = 1},
    {ROOM, .n = 4, .answer = 0, .reply = 99},
    {ROOM, .n = LIMIT + 1, .answer = 0, .reply = 99},
};

static int tried, wrong;

static void expect(const char *what, int right)
{
    tried++;
    if (!right) {
        wrong++;
        printf("tests/c/calls.c: %s is wrong\n", what);
    }
}

static void expect_call(size_t call, const char *what, int right)
{
    expect(what, right);
    if (!right)
        printf("tests/c/calls.c: that was call %zu of the table\n", call + 1);
}

/* Memory for the lent buffers: BEFORE everywhere before a call, and GUARD numbers of it that are not lent on either side. */
enum { GUARD = 4 };
static const uint16_t BEFORE = 0xBEEF;
static uint16_t work[GUARD + 2 * LIMIT + 2 + GUARD], report[GUARD + 15 + GUARD];
static uint32_t answer[GUARD + 4 + GUARD];

static void fill(void)
{
    for (size_t i = 0; i < LENGTH(work); i++)
        work[i] = BEFORE;
    for (size_t i = 0; i < LENGTH(report); i++)
        report[i] = BEFORE;
    for (size_t i = 0; i < LENGTH(answer); i++)
        answer[i] = BEFORE;
}

static int in(size_t i, size_t written) { return i >= GUARD && i - GUARD < written; }

static int answer_is(const uint32_t *values, size_t written)
{
    for (size_t i = 0; i < LENGTH(answer); i++)
        if (answer[i] != (in(i, written) ? values[i - GUARD] : BEFORE))
            return 0;
    return 1;
}

static int report_is(const uint16_t *blocks, size_t written)
{
    for (size_t i = 0; i < LENGTH(report); i++)
        if (report[i] != (in(i, written) ? blocks[i - GUARD] : BEFORE))
            return 0;
    return 1;
}

static int work_is_cleared(size_t written)
{
    for (size_t i = 0; i < LENGTH(work); i++)
        if (work[i] != (in(i, written) ? 0 : BEFORE))
            return 0;
    return 1;
}

/* Makes the call; `nothing` is the pointer for each length of 0. */
static uint32_t make(const struct call *c, const uint8_t *text, void *nothing)
{
    uint16_t *w = c->work > 0 ? work + GUARD : nothing;
    uint16_t *r = c->report > 0 ? report + GUARD : nothing;
    uint32_t *a = c->answer > 0 ? answer + GUARD : nothing;
    const uint8_t *t = c->n > 0 ? text : nothing;
    switch (c->asked) {
    case LIST:
        return porthwynna_list(t, c->n, w, c->work, r, c->report, a, c->answer);
    case STANDS:
        return porthwynna_stands(t, c->n, c->start, c->half, a, c->answer);
    case IS_FREE:
        return porthwynna_is_free(t, c->n, w, c->work, a, c->answer);
    case LONGEST:
        return porthwynna_longest(t, c->n, w, c->work, a, c->answer);
    default:
        return porthwynna_room(c->n, a, c->answer);
    }
}

/* One call, and document 01's table of what comes back. */
static void try_call(size_t number, void *nothing)
{
    const struct call *c = &calls[number];
    size_t letters = c->asked == ROOM ? 0 : c->n;
    uint8_t *text = malloc(letters);
    if (text == NULL && letters > 0)
        abort();
    if (letters > 0)
        memcpy(text, c->text, letters);
    fill();
    uint32_t reply = make(c, text, nothing);

    static const size_t sizes[] = {PORTHWYNNA_LIST_ANSWER, PORTHWYNNA_STANDS_ANSWER, PORTHWYNNA_IS_FREE_ANSWER,
                                   PORTHWYNNA_LONGEST_ANSWER, PORTHWYNNA_ROOM_ANSWER};
    int answered = c->reply == PORTHWYNNA_DONE || c->reply == PORTHWYNNA_FULL;
    int works = answered && c->asked != STANDS && c->asked != ROOM;
    size_t room = c->report / PORTHWYNNA_NUMBERS_PER_BLOCK;
    size_t written = answered && c->asked == LIST ? (c->values[0] < room ? c->values[0] : room) : 0;
    expect_call(number, "the reply", reply == c->reply);
    expect_call(number, "the answer", answer_is(c->values, answered ? sizes[c->asked] : 0));
    expect_call(number, "the report", report_is(c->blocks, written * PORTHWYNNA_NUMBERS_PER_BLOCK));
    expect_call(number, "the work space", work_is_cleared(works ? PORTHWYNNA_WORK_PER_BYTE * c->n : 0));
    expect_call(number, "the text", letters == 0 || memcmp(text, c->text, letters) == 0);
    free(text);
}

/* The names of a block's and an answer's numbers, on "abcabcab", whose first block is 3 1 2, with C 34 and the longest at 1. */
static void try_names(void)
{
    enum { N = 8 };
    const uint8_t *text = (const uint8_t *)"abcabcab";
    uint16_t work[PORTHWYNNA_WORK_PER_BYTE * N], block[PORTHWYNNA_NUMBERS_PER_BLOCK];
    uint32_t totals[PORTHWYNNA_LIST_ANSWER] = {0}, longest[PORTHWYNNA_LONGEST_ANSWER] = {0};
    porthwynna_list(text, N, work, LENGTH(work), block, LENGTH(block), totals, LENGTH(totals));
    porthwynna_longest(text, N, work, LENGTH(work), longest, LENGTH(longest));
    expect("the places in a block", block[PORTHWYNNA_BLOCK_HALF] == 3 && block[PORTHWYNNA_BLOCK_FIRST] == 1 &&
                                        block[PORTHWYNNA_BLOCK_LAST] == 2);
    expect("the places in a list's answer",
           totals[PORTHWYNNA_LIST_BLOCKS] == 2 && totals[PORTHWYNNA_LIST_COMPARISONS] == 34);
    expect("the places in a longest repetition's answer",
           longest[PORTHWYNNA_LONGEST_START] == 1 && longest[PORTHWYNNA_LONGEST_HALF] == 3);
}

/* Each reply has a text of its own, and so have, together, all numbers that are none. */
static void try_texts(void)
{
    static const uint32_t replies[] = {PORTHWYNNA_DONE, PORTHWYNNA_TEXT_TOO_LONG, PORTHWYNNA_WORK_TOO_SHORT, PORTHWYNNA_FULL,
                                       PORTHWYNNA_NO_SUCH_PLACE, PORTHWYNNA_ANSWER_TOO_SHORT, UINT32_MAX};
    for (size_t i = 0; i < LENGTH(replies); i++) {
        const char *text = porthwynna_reply_text(replies[i]);
        int own = strlen(text) > 0;
        for (size_t j = 0; j < i; j++)
            own = own && strcmp(text, porthwynna_reply_text(replies[j])) != 0;
        expect("a reply's text", own);
    }
    expect("the text of no reply", strcmp(porthwynna_reply_text(98), porthwynna_reply_text(UINT32_MAX)) == 0);
}

int main(void)
{
    memset(full_bytes, 255, sizeof full_bytes);
    for (size_t i = 0; i < LIMIT; i++)
        for (size_t left = i + 1; left % 2 == 0; left /= 2)
            twos[i]++;
    for (size_t i = 0; i < LENGTH(calls); i++) {
        try_call(i, NULL);
        try_call(i, (uint8_t *)work + 1); /* an odd address, where no number of 16 or 32 bits can stand */
    }
    try_names();
    try_texts();
    expect("the version", porthwynna_version() == PORTHWYNNA_VERSION);
    printf("%d tried, %d wrong\n", tried, wrong);
    return wrong == 0 ? EXIT_SUCCESS : EXIT_FAILURE;
}
