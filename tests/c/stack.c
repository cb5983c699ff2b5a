/* Measures the stack that each function takes, on a stack of its own that is painted beforehand, and holds it to porthwynna.h.
   Texts at the limit of length, since the recursion goes deepest there. */
#include <porthwynna.h>

#include <stdio.h>
#include <stdlib.h>
#include <string.h>
#include <ucontext.h>

enum { LIMIT = PORTHWYNNA_LENGTH_LIMIT, PAINT = 0xA5, UNCALLED = 7 };

static uint8_t text[LIMIT];
static uint16_t work[PORTHWYNNA_LARGEST_WORK], report[PORTHWYNNA_LARGEST_REPORT];
static uint32_t answer[2];
static uint8_t stack[1 << 20];
static ucontext_t here, there;
static int asked;

static void call(void)
{
    switch (asked) {
    case 0:
        porthwynna_list(text, LIMIT, work, PORTHWYNNA_LARGEST_WORK, report, PORTHWYNNA_LARGEST_REPORT, answer, 2);
        break;
    case 1:
        porthwynna_stands(text, LIMIT, 0, LIMIT / 2, answer, 2);
        break;
    case 2:
        porthwynna_is_free(text, LIMIT, work, PORTHWYNNA_LARGEST_WORK, answer, 2);
        break;
    case 3:
        porthwynna_longest(text, LIMIT, work, PORTHWYNNA_LARGEST_WORK, answer, 2);
        break;
    case 4:
        porthwynna_room(LIMIT, answer, 2);
        break;
    case 5:
        porthwynna_version();
        break;
    }
}

/* Bytes of the painted stack that a call has changed, or was entered below. */
static size_t taken(int function)
{
    asked = function;
    memset(stack, PAINT, sizeof stack);
    if (getcontext(&there) != 0)
        abort();
    there.uc_stack.ss_sp = stack;
    there.uc_stack.ss_size = sizeof stack;
    there.uc_link = &here;
    makecontext(&there, call, 0);
    if (swapcontext(&here, &there) != 0)
        abort();
    size_t kept = 0;
    while (kept < sizeof stack && stack[kept] == PAINT)
        kept++;
    return sizeof stack - kept;
}

int main(void)
{
    static const char *const names[] = {"porthwynna_list", "porthwynna_stands", "porthwynna_is_free", "porthwynna_longest",
                                        "porthwynna_room", "porthwynna_version"};
    static const size_t said[] = {PORTHWYNNA_LIST_STACK, PORTHWYNNA_STANDS_STACK, PORTHWYNNA_IS_FREE_STACK,
                                  PORTHWYNNA_LONGEST_STACK, PORTHWYNNA_ROOM_STACK, PORTHWYNNA_VERSION_STACK};
    int tried = 0, wrong = 0;
    for (int kind = 0; kind < 2; kind++) {
        for (size_t i = 0; i < LIMIT; i++)
            text[i] = kind == 0 ? 'a' : (uint8_t)(i * i % 251);
        size_t own = taken(UNCALLED); /* what this program takes itself */
        for (int function = 0; function < 6; function++) {
            size_t bytes = taken(function) - own;
            tried++;
            /* no more than the header says, and not so little that it says nothing */
            if (bytes > said[function] || (said[function] > 1000 && bytes < said[function] * 9 / 10)) {
                wrong++;
                printf("tests/c/stack.c: %s took %zu bytes, and the header says %zu\n", names[function], bytes, said[function]);
            }
        }
    }
    printf("%d tried, %d wrong\n", tried, wrong);
    return wrong == 0 ? EXIT_SUCCESS : EXIT_FAILURE;
}
