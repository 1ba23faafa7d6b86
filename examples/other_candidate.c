/* The fitting shop's case at one board: head 0 of six goes from candidate 5 to candidate 2. Head 4, which voted for 5 and
 * stopped, has read 1394 of head 5's start; the median is of what was read of head 2's. With 1394 it would be 1414. */
#include <stdio.h>
#include <stdlib.h>

#include "daisarnica.h"

static daisarnica_head head;

/* Takes an action, and prints the vote or adjust that it sends. */
static void act(uint32_t action, uint32_t reading, uint32_t sender, uint32_t serial, uint32_t choice, uint32_t carried)
{
    daisarnica_input input = {action, reading, sender, serial, choice, carried, 0};
    daisarnica_frame sent;
    uint32_t cause = daisarnica_action(&head, &input, &sent);

    if (cause != DAISARNICA_DONE) {
        fprintf(stderr, "action %u: cause %u\n", (unsigned)action, (unsigned)cause);
        exit(1);
    }
    if (sent.action == DAISARNICA_VOTE_DELIVERED) printf("vote for %u with %u\n", (unsigned)sent.choice, (unsigned)sent.carried);
    if (sent.action == DAISARNICA_ADJUST_DELIVERED) printf("adjust by %u with %u\n", (unsigned)sent.choice, (unsigned)sent.carried);
}

int main(void)
{
    if (daisarnica_fresh(&head, 6, 1, 0) != DAISARNICA_DONE) return 1;
    act(DAISARNICA_START_DELIVERED, 1405, 5, 0, 0, 0);
    act(DAISARNICA_START_DELIVERED, 1483, 2, 0, 0, 0);
    act(DAISARNICA_VOTE_DELIVERED, 1500, 5, 0, 5, 1357);
    act(DAISARNICA_VOTE_DELIVERED, 1510, 4, 0, 5, 1394);
    act(DAISARNICA_VOTE_DELIVERED, 1520, 2, 0, 2, 1360);
    act(DAISARNICA_VOTE_DELIVERED, 1530, 5, 1, 2, 1435);
    act(DAISARNICA_VOTE_DELIVERED, 1540, 1, 0, 2, 1318);
    act(DAISARNICA_VOTE_DELIVERED, 1550, 3, 0, 2, 1676);
    act(DAISARNICA_VOTE_CLOSE, 2000, 0, 0, 0, 0);
    act(DAISARNICA_ADJUST_TURN, 2100, 0, 0, 0, 0);
    return 0;
}
