/* recorder N F CORRECT DRIFT TIGHTNESS: reads the entries of a run sheet as lines of six numbers (real time, reading, head,
 * action, sender, serial) and writes the sheet as big-endian words, as the programs replay and trace read it. */
#include <ctype.h>
#include <stdio.h>
#include <stdlib.h>

#include "daisarnica_sheet.h"
#include "write_words.h"

/* One number more than there may be, so that too many are noticed. */
#define MOST (DAISARNICA_SHEET_NUMBERS + 1)

static uint32_t numbers[MOST];
static uint32_t sheet[DAISARNICA_SHEET_WORDS];

/* x with one digit more. What 32 bits cannot hold is too large for every field, and so is the largest number that they can. */
static uint32_t with_digit(uint32_t x, int digit)
{
    if (!isdigit(digit)) {
        fprintf(stderr, "not a number\n");
        exit(2);
    }
    return x > (UINT32_MAX - 9) / 10 ? UINT32_MAX : 10 * x + (uint32_t)(digit - '0');
}

static uint32_t argument(const char *text)
{
    uint32_t x = with_digit(0, (unsigned char)*text);

    while (*++text) x = with_digit(x, (unsigned char)*text);
    return x;
}

static size_t read_numbers(void)
{
    size_t count = 0;
    int c = getchar();

    while (count < MOST) {
        uint32_t x = 0;

        while (isspace(c)) c = getchar();
        if (c == EOF) break;
        for (; c != EOF && !isspace(c); c = getchar()) x = with_digit(x, c);
        numbers[count++] = x;
    }
    return count;
}

int main(int argc, char **argv)
{
    size_t count, words;
    uint32_t cause;

    if (argc != 6) {
        fprintf(stderr, "usage: recorder N F CORRECT DRIFT TIGHTNESS\n");
        return 2;
    }
    count = read_numbers();
    cause = daisarnica_write_sheet(argument(argv[1]), argument(argv[2]), argument(argv[3]), argument(argv[4]),
                                   argument(argv[5]), numbers, count, sheet, DAISARNICA_SHEET_WORDS);
    if (cause) {
        fprintf(stderr, "refused %lu\n", (unsigned long)cause);
        return 1;
    }
    words = 2 + 3 * (count / DAISARNICA_ENTRY_NUMBERS);
    return write_words(sheet, words);
}
