/* Replays and judges the bench sheet M1, and prints what the program replay prints; then the same sheet with a buffer
 * that is too small, and with its last word damaged. */
#include <stdio.h>

#include "daisarnica_sheet.h"

static uint32_t sheet[] = {
    0x10200003, 0x2064000A,
    0x300003B6, 0x400003E8, 0x51100000, 0x300003E8, 0x400003E8, 0x51000000,
    0x3000044C, 0x4000044C, 0x52010000, 0x30000450, 0x40000482, 0x52110000,
    0x30000456, 0x40000488, 0x53100000, 0x300004EC, 0x400004EC, 0x52000000,
    0x300004EF, 0x40000521, 0x52100000, 0x300004F6, 0x400004F6, 0x53000000,
    0x30000514, 0x40000514, 0x54000000, 0x300005B4, 0x400005E6, 0x55100000,
    0x30000654, 0x40000654, 0x55010000, 0x300007D0, 0x400007D0, 0x56000000,
    0x300007D0, 0x40000802, 0x56100000, 0x30000834, 0x40000834, 0x57000000,
    0x300008D4, 0x40000906, 0x58100000, 0x300008FC, 0x4000092E, 0x57100000,
    0x30000974, 0x40000974, 0x58010000, 0x30000BB8, 0x40000BB8, 0x59000000,
    0x30000BB8, 0x40000BEA, 0x59100000, 0x30000FA0, 0x40000FA0, 0x50000000,
    0x30000FA0, 0x40000FD2, 0x50100000,
};

#define WORDS (sizeof sheet / sizeof sheet[0])
#define HEADS 2
#define RESULT_WORDS (DAISARNICA_WORDS_A_HEAD * HEADS)

static void print_refusal(const char *what, uint32_t cause, uint32_t place)
{
    printf("%s %lu %lu\n", what, (unsigned long)cause, (unsigned long)place);
}

/* A head's line: its number, and what the carriage display shows of it, from outcome to correction. */
static void print_head(uint32_t head, const uint32_t *out)
{
    int64_t shown[DAISARNICA_SHOWN_NUMBERS];
    uint32_t cause = daisarnica_display(HEADS, head, out, RESULT_WORDS, shown);
    size_t i;

    if (cause != DAISARNICA_READ) {
        print_refusal("not shown", cause, 0);
        return;
    }
    printf("%lu", (unsigned long)head);
    for (i = 0; i < DAISARNICA_SHOWN_NUMBERS; i++) printf(" %ld", (long)shown[i]);
    putchar('\n');
}

static void show(size_t out_words)
{
    uint32_t out[RESULT_WORDS], answer[DAISARNICA_ANSWER_NUMBERS];
    uint32_t judged = daisarnica_replay_and_judge(sheet, WORDS, out, out_words, answer);
    uint32_t q;

    if (answer[DAISARNICA_REPLAY_CAUSE] == 0)
        for (q = 0; q < HEADS; q++) print_head(q, out);
    else
        print_refusal("refused", answer[DAISARNICA_REPLAY_CAUSE], answer[DAISARNICA_REPLAY_PLACE]);
    if (judged < DAISARNICA_UNJUDGED)
        printf("premises %lu\n", (unsigned long)judged);
    else
        print_refusal("not judged", judged - DAISARNICA_UNJUDGED, answer[DAISARNICA_JUDGE_PLACE]);
}

int main(void)
{
    show(RESULT_WORDS);
    show(RESULT_WORDS - 1);
    sheet[WORDS - 1] |= 1;
    show(RESULT_WORDS);
    return 0;
}
