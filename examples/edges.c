/* What a board may do wrong: each refusal gives its cause and leaves the record as it was, no number traps, and nothing
 * is written past the record. */
#include <stdio.h>
#include <string.h>

#include "daisarnica.h"

static struct {
    uint32_t before[8];
    daisarnica_head head;
    uint32_t after[8];
} lent;

static uint32_t seed = 1;

static uint32_t any(void)
{
    seed = seed * 1664525u + 1013904223u;
    return seed >> 7;
}

static uint32_t pick(uint32_t n) { return any() % n; }

/* Numbers near the ends of the ranges, and some beyond. */
static uint32_t number(void)
{
    static const uint32_t ends[] = {0, 1, 2, 9, 10, 15, 16, 17, 255, 256, 268435455u, 268435456u, 268435457u, 4294967295u};

    return ends[pick(sizeof ends / sizeof ends[0])];
}

static uint32_t act(uint32_t action, uint32_t reading, uint32_t sender, uint32_t serial, uint32_t none)
{
    daisarnica_input input;
    daisarnica_frame frame;
    daisarnica_head was = lent.head;
    uint32_t cause;

    input.action = action;
    input.reading = reading;
    input.sender = sender;
    input.serial = serial;
    input.choice = 0;
    input.carried = 0;
    input.none = none;
    cause = daisarnica_action(&lent.head, &input, &frame);
    if (cause && (memcmp(&was, &lent.head, sizeof was) || frame.action || frame.serial || frame.choice || frame.carried || frame.none))
        printf("refused with cause %u and something changed\n", (unsigned)cause);
    return cause;
}

/* Any numbers in any place: each call returns, and gives a cause that it may give. */
static void scramble(unsigned rounds)
{
    unsigned ended = 0;

    while (rounds--) {
        daisarnica_ending x;
        uint32_t cause, i;

        daisarnica_fresh(&lent.head, 2 + pick(15), pick(8), pick(2));
        for (i = pick(4); i; i--) lent.head.opaque[pick(DAISARNICA_HEAD_SIZE / 4)] = number();
        for (i = 0; i < 30; i++) {
            cause = act(pick(11), i + pick(2) * number(), pick(3), pick(2), pick(9) == 0);
            if (cause != 0 && cause != 6 && (cause < 8 || cause > 10)) printf("cause %u of an action\n", (unsigned)cause);
        }
        cause = daisarnica_result(&lent.head, &x);
        if (cause != 0 && cause != 10) printf("cause %u of a result\n", (unsigned)cause);
        if (x.outcome != 2 && daisarnica_correction(&lent.head) != 0) printf("a correction without a clock\n");
        ended += x.outcome != 0;
    }
    if (ended == 0) printf("no round ended\n");
}

int main(void)
{
    uint32_t i, reading = 7;

    memset(&lent, 0xA5, sizeof lent);
    printf("bytes %u\n", (unsigned)sizeof lent.head);
    printf("no record %u\n", (unsigned)act(0, 0, 0, 0, 0));
    printf("fresh %u", (unsigned)daisarnica_fresh(&lent.head, 17, 0, 0));
    printf(" %u", (unsigned)daisarnica_fresh(&lent.head, 4, 2, 0));
    printf(" %u", (unsigned)daisarnica_fresh(&lent.head, 4294967295u, 4294967295u, 4294967295u));
    printf(" %u", (unsigned)daisarnica_fresh(&lent.head, 4, 1, 4));
    printf(" %u\n", (unsigned)daisarnica_fresh(&lent.head, 4, 1, 3));
    printf("action %u", (unsigned)act(10, 5, 0, 0, 0));
    printf(" %u", (unsigned)act(0, 5, 1, 0, 0));
    printf(" %u", (unsigned)act(5, 5, 4, 0, 0));
    printf(" %u", (unsigned)act(5, 5, 0, 0, 2));
    printf(" %u", (unsigned)act(0, 268435456u, 0, 0, 0));
    printf(" %u", (unsigned)act(3, 5, 0, 0, 0));
    printf(" %u", (unsigned)act(0, 5, 0, 0, 0));
    printf(" %u\n", (unsigned)act(0, 4, 0, 0, 0));
    printf("reading %u", (unsigned)daisarnica_reading(5, 4294967290u, &reading));
    printf(" %u", (unsigned)reading);
    printf(" %u", (unsigned)daisarnica_reading(268435455u, 0, &reading));
    printf(" %u", (unsigned)reading);
    printf(" %u", (unsigned)daisarnica_reading(268435456u, 0, &reading));
    printf(" %u\n", (unsigned)reading);
    scramble(20000);
    for (i = 0; i < 8; i++)
        if (lent.before[i] != 0xA5A5A5A5u || lent.after[i] != 0xA5A5A5A5u) printf("written past the record\n");
    printf("done\n");
    return 0;
}
