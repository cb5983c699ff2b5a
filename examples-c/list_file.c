/* Lists the repetitions of a file: list_file FILE
   README.md, 'Use it from C and C++', says how it is built. */
#include <stdio.h>
#include <stdlib.h>

#include <porthwynna.h>

#define LENGTH(array) (sizeof(array) / sizeof *(array))

static uint8_t text[PORTHWYNNA_LENGTH_LIMIT + 1]; /* one byte more, so that a longer file is refused and not cut off */
static uint16_t work[PORTHWYNNA_LARGEST_WORK];
static uint16_t report[PORTHWYNNA_LARGEST_REPORT];

static int fail(const char *what)
{
    perror(what);
    return EXIT_FAILURE;
}

int main(int argc, char **argv)
{
    if (argc != 2) {
        fputs("usage: list_file FILE\n", stderr);
        return 2;
    }
    FILE *file = fopen(argv[1], "rb");
    if (file == NULL)
        return fail(argv[1]);
    size_t n = fread(text, 1, sizeof text, file);
    if (ferror(file))
        return fail(argv[1]);
    fclose(file);

    uint32_t totals[PORTHWYNNA_LIST_ANSWER];
    uint32_t reply = porthwynna_list(text, n, work, LENGTH(work), report, LENGTH(report), totals, LENGTH(totals));
    if (reply != PORTHWYNNA_DONE) {
        fprintf(stderr, "%s: %s\n", argv[1], porthwynna_reply_text(reply));
        return EXIT_FAILURE;
    }
    size_t blocks = totals[PORTHWYNNA_LIST_BLOCKS];
    printf("repetitions %zu comparisons %lu\n", blocks, (unsigned long)totals[PORTHWYNNA_LIST_COMPARISONS]);
    for (size_t k = 0; k < blocks; k++) {
        const uint16_t *block = report + k * PORTHWYNNA_NUMBERS_PER_BLOCK;
        printf("%d %d %d\n", block[PORTHWYNNA_BLOCK_HALF], block[PORTHWYNNA_BLOCK_FIRST], block[PORTHWYNNA_BLOCK_LAST]);
    }
    return fclose(stdout) == 0 ? EXIT_SUCCESS : fail("standard output");
}
