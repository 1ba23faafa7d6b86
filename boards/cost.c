/* What an action costs on a board: for the actions of a round at head 1, of 2 heads and of 16, the instructions of one call
 * of daisarnica_action. The emulator takes a nanosecond for each instruction; a call is made a thousand times, each time on
 * a copy of the record, and the same loop without the call is taken off. */
#include <stdio.h>
#include <stdlib.h>
#include <string.h>

#include "daisarnica.h"

#define CALLS 1000
#define MOST_HEADS 16
#define ACTIONS 10

/* start.c's clock of CLOCK MHz, of which 24 bits count. */
uint32_t ticks(void);

typedef uint32_t call(daisarnica_head *head, const daisarnica_input *input, daisarnica_frame *frame);

static daisarnica_head head;

static uint32_t nothing(daisarnica_head *h, const daisarnica_input *x, daisarnica_frame *f)
{
    (void)h;
    (void)x;
    (void)f;
    return 0;
}

static uint32_t ticks_of(call *volatile what, const daisarnica_input *x)
{
    daisarnica_head copy;
    daisarnica_frame frame;
    uint32_t from = ticks();
    int i;

    for (i = 0; i < CALLS; i++) {
        copy = head;
        what(&copy, x, &frame);
    }
    return (ticks() - from) & 0xFFFFFF;
}

static daisarnica_input input_of(uint32_t action)
{
    daisarnica_input x;

    memset(&x, 0, sizeof x);
    x.action = action;
    x.reading = 100 * action;
    x.sender = action == DAISARNICA_START_DELIVERED ? 1 : 0;
    if (action == DAISARNICA_VOTE_DELIVERED) x.carried = 150;
    return x;
}

/* After one's own start comes that of head 0. */
static void take_start(void)
{
    daisarnica_input x = input_of(DAISARNICA_START_DELIVERED);
    daisarnica_frame frame;

    x.sender = 0;
    daisarnica_action(&head, &x, &frame);
}

/* After head 0's vote come those of all others but the last, with readings in rising order. */
static void take_votes(uint32_t n)
{
    daisarnica_input x = input_of(DAISARNICA_VOTE_DELIVERED);
    daisarnica_frame frame;

    for (x.sender = 2; x.sender + 1 < n; x.sender++) {
        x.carried++;
        daisarnica_action(&head, &x, &frame);
    }
}

static unsigned long take(uint32_t n, uint32_t action)
{
    daisarnica_input x = input_of(action);
    daisarnica_frame frame;
    uint32_t cost = (ticks_of(daisarnica_action, &x) - ticks_of(nothing, &x)) / CLOCK;

    if (daisarnica_action(&head, &x, &frame) != DAISARNICA_DONE) exit(1); /* a refused call costs something else */
    if (action == DAISARNICA_START_DELIVERED) take_start();
    if (action == DAISARNICA_VOTE_DELIVERED) take_votes(n);
    return cost;
}

/* A round of n heads, each action once, in the order of their numbers. The last of 16 heads is silent, so that no phase
 * closes early. */
static void play(uint32_t n, unsigned long cost[ACTIONS])
{
    uint32_t i;

    daisarnica_fresh(&head, n, 0, 1);
    for (i = 0; i < ACTIONS; i++) cost[i] = take(n, i);
}

int main(void)
{
    unsigned long two[ACTIONS], sixteen[ACTIONS];
    int i;

    play(2, two);
    play(MOST_HEADS, sixteen);
    for (i = 0; i < ACTIONS; i++) printf("action %d: %lu %lu\n", i, two[i], sixteen[i]);
    return 0;
}
