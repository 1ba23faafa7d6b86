/* bus_load: reads a run sheet as big-endian words, as recorder and draft write it, replays it, and prints the bus load: for
 * each head the starts, votes and adjusts that it broadcast, and its frames in all; then those of all n heads together, and
 * the most that they can be, n * n + 2 * n. */
#include <stdio.h>

#include "daisarnica_sheet.h"

/* One byte more than a sheet may have, so that too many are noticed. */
static unsigned char bytes[4 * DAISARNICA_SHEET_WORDS + 1];
static uint32_t sheet[DAISARNICA_SHEET_WORDS];
static uint32_t out[DAISARNICA_RESULT_WORDS];

static int refuse(uint32_t cause, uint32_t place)
{
    fprintf(stderr, "refused %lu %lu\n", (unsigned long)cause, (unsigned long)place);
    return 1;
}

static uint32_t word_at(const unsigned char *b)
{
    return (uint32_t)b[0] << 24 | (uint32_t)b[1] << 16 | (uint32_t)b[2] << 8 | b[3];
}

static void print_counts(const long *counts)
{
    printf(" %6ld %5ld %7ld %6ld", counts[0], counts[1], counts[2], counts[0] + counts[1] + counts[2]);
}

static int print_load(uint32_t n)
{
    long all[3] = {0, 0, 0}, counts[3];
    int64_t told[DAISARNICA_TOLD_NUMBERS];
    uint32_t head;
    size_t i;

    printf("head starts votes adjusts frames\n");
    for (head = 0; head < n; head++) {
        uint32_t cause = daisarnica_plan(n, head, out, DAISARNICA_WORDS_A_HEAD * (size_t)n, told);

        if (cause != DAISARNICA_READ) return refuse(cause, 0);
        for (i = 0; i < 3; i++) {
            counts[i] = (long)told[DAISARNICA_STARTS + i];
            all[i] += counts[i];
        }
        printf("%4lu", (unsigned long)head);
        print_counts(counts);
        putchar('\n');
    }
    printf(" all");
    print_counts(all);
    printf(" of at most %lu\n", (unsigned long)(n * n + 2 * n));
    return fflush(stdout) ? 1 : 0;
}

int main(void)
{
    uint32_t answer[DAISARNICA_ANSWER_NUMBERS];
    size_t length = fread(bytes, 1, sizeof bytes, stdin), words = length / 4, i;

    /* As in the program replay, what is too long is cause 1, and then what is not whole words cause 2. */
    if (length == sizeof bytes) return refuse(1, 0);
    if (length % 4) return refuse(2, 0);
    for (i = 0; i < words; i++) sheet[i] = word_at(bytes + 4 * i);
    daisarnica_replay_and_judge(sheet, words, out, DAISARNICA_RESULT_WORDS, answer);
    if (answer[DAISARNICA_REPLAY_CAUSE]) return refuse(answer[DAISARNICA_REPLAY_CAUSE], answer[DAISARNICA_REPLAY_PLACE]);
    return print_load(sheet[0] >> 20 & 255);
}
