/* Two boards in one process take the bench sheet's 21 entries. Frames go from board to board through an array, and
 * each board has a counter of its own, which its base turns into readings. Both phases close early at both boards; the
 * timers' actions that come after it are taken and change nothing. */
#include <stdio.h>
#include <stdlib.h>

#include "daisarnica.h"

#define BOARDS 2
#define SERIALS 16

typedef struct {
    uint32_t reading, board, action, sender, serial;
} entry;

static const entry entries[] = {
    {1000, 1, 1, 0, 0}, {1000, 0, 1, 0, 0}, {1100, 0, 2, 1, 0}, {1154, 1, 2, 1, 0}, {1160, 1, 3, 0, 0},
    {1260, 0, 2, 0, 0}, {1313, 1, 2, 0, 0}, {1270, 0, 3, 0, 0}, {1300, 0, 4, 0, 0}, {1510, 1, 5, 0, 0},
    {1620, 0, 5, 1, 0}, {2000, 0, 6, 0, 0}, {2050, 1, 6, 0, 0}, {2100, 0, 7, 0, 0}, {2310, 1, 8, 0, 0},
    {2350, 1, 7, 0, 0}, {2420, 0, 8, 1, 0}, {3000, 0, 9, 0, 0}, {3050, 1, 9, 0, 0}, {4000, 0, 0, 0, 0},
    {4050, 1, 0, 0, 0},
};

/* Where each board's counter stood when its clock began. Both run past 4,294,967,295 to 0 during the round. */
static const uint32_t base[BOARDS] = {4294966000u, 4294964000u};

static daisarnica_head board[BOARDS];
static uint32_t outcome[BOARDS];
static daisarnica_frame votes[BOARDS][SERIALS], adjusts[BOARDS][SERIALS];

static void must(uint32_t cause, const char *what)
{
    if (cause != DAISARNICA_DONE) {
        fprintf(stderr, "%s: cause %u\n", what, (unsigned)cause);
        exit(1);
    }
}

/* The frame that this action delivers: what its sender sent under that serial. */
static const daisarnica_frame *delivered(const entry *e)
{
    static const daisarnica_frame none;

    switch (e->action) {
    case DAISARNICA_VOTE_DELIVERED: return &votes[e->sender][e->serial];
    case DAISARNICA_ADJUST_DELIVERED: return &adjusts[e->sender][e->serial];
    default: return &none;
    }
}

static void keep(uint32_t from, const daisarnica_frame *f)
{
    if (f->action == DAISARNICA_VOTE_DELIVERED) votes[from][f->serial] = *f;
    if (f->action == DAISARNICA_ADJUST_DELIVERED) adjusts[from][f->serial] = *f;
}

/* Tells the action at which a board's round ended. */
static void tell_end(uint32_t q, uint32_t reading)
{
    daisarnica_ending x;

    must(daisarnica_result(&board[q], &x), "result");
    if (x.outcome != outcome[q]) printf("board %u has outcome %u at reading %u\n", (unsigned)q, (unsigned)x.outcome, (unsigned)reading);
    outcome[q] = x.outcome;
}

static void take(const entry *e)
{
    const daisarnica_frame *f = delivered(e);
    daisarnica_input input;
    daisarnica_frame sent;
    uint32_t counter = base[e->board] + e->reading;

    input.action = e->action;
    must(daisarnica_reading(counter, base[e->board], &input.reading), "reading");
    input.sender = e->sender;
    input.serial = f->serial;
    input.choice = f->choice;
    input.carried = f->carried;
    input.none = f->none;
    must(daisarnica_action(&board[e->board], &input, &sent), "action");
    keep(e->board, &sent);
    tell_end(e->board, input.reading);
    if (e->action == DAISARNICA_LOOK)
        printf("board %u shows %ld\n", (unsigned)e->board, (long)((int64_t)input.reading + daisarnica_correction(&board[e->board])));
}

int main(void)
{
    uint32_t q;
    size_t i;

    for (q = 0; q < BOARDS; q++) must(daisarnica_fresh(&board[q], BOARDS, 0, q), "fresh");
    for (i = 0; i < sizeof entries / sizeof entries[0]; i++) take(&entries[i]);
    for (q = 0; q < BOARDS; q++) {
        daisarnica_ending x;

        must(daisarnica_result(&board[q], &x), "result");
        printf("%u %u %u %u %u %u %ld\n", (unsigned)q, (unsigned)x.outcome, (unsigned)x.candidate, (unsigned)x.adjuster,
               (unsigned)x.adjustment, (unsigned)x.start, (long)daisarnica_correction(&board[q]));
    }
    return 0;
}
