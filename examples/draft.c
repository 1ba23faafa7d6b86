/* draft N [F FIRST SPACING]: writes a practice sheet of N heads as big-endian words, as the programs replay and trace read
 * it. At most F heads are faulty, as many as is allowed where it is not said; the first real time is FIRST, and from each
 * to the next it is SPACING, 1000 and 100 where they are not said. */
#include <stdio.h>
#include <stdlib.h>

#include "daisarnica_sheet.h"
#include "write_words.h"

static uint32_t sheet[DAISARNICA_DRAFT_WORDS(16)];

/* What 32 bits cannot hold becomes the largest number that they can, and is refused like it. */
static uint32_t number(const char *text)
{
    char *end;
    unsigned long long n = strtoull(text, &end, 10);

    if (end == text || *end) {
        fprintf(stderr, "not a number: %s\n", text);
        exit(2);
    }
    return n > UINT32_MAX ? UINT32_MAX : (uint32_t)n;
}

int main(int argc, char **argv)
{
    uint32_t n, f, first, spacing, cause;
    size_t words;

    if (argc != 2 && argc != 5) {
        fprintf(stderr, "usage: draft N [F FIRST SPACING]\n");
        return 2;
    }
    n = number(argv[1]);
    f = argc == 5 ? number(argv[2]) : n > 0 ? (n - 1) / 2 : 0;
    first = argc == 5 ? number(argv[3]) : 1000;
    spacing = argc == 5 ? number(argv[4]) : 100;
    cause = daisarnica_draft_sheet(n, f, first, spacing, sheet, sizeof sheet / sizeof sheet[0]);
    if (cause) {
        fprintf(stderr, "refused %lu\n", (unsigned long)cause);
        return 1;
    }
    words = DAISARNICA_DRAFT_WORDS((size_t)n);
    return write_words(sheet, words);
}
