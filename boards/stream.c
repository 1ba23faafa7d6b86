/* A stream of actions by a fixed seed through the five functions, and a checksum of all that they give: two builds of the
 * library that answer alike print the same lines. Rounds are mostly plausible, with numbers out of range and damaged records
 * among them. Exits with 1 if a refusal changed something, or if a cause, an outcome or a sort of frame was never met. */
#include <stdio.h>
#include <stdlib.h>
#include <string.h>

#include "daisarnica.h"

#define SEED 225u    /* of 1 to 500, the one by which most of the library's branches are taken */
#define ACTIONS 400000u
#define LINE 20000u  /* actions from one line to the next, so that a difference is found near where it arose */
#define LONGEST 120u /* actions of one head */
#define HEADS 16u
#define TIMES 268435456u
#define CAUSES 12u
#define FIELDS 7u    /* of an input */
#define NUMBERS (DAISARNICA_HEAD_SIZE / 4u)

enum { VOTES, ADJUSTS, STARTS };

/* What is known of the head's round from outside. */
static struct {
    uint32_t n, own, base, now, sender, talks, outcome, closed;
    uint32_t choice[2];        /* the candidate and the adjuster, by the frames that the head sent; n if none */
    uint32_t serial[2][HEADS]; /* of the next vote and adjust of each sender */
} known;

/* How often each was met: causes of all calls, outcomes at the end of a round, frames that the head sent. */
static struct {
    uint32_t actions, cause[CAUSES], outcome[3], frame[3], early, spent, damaged, corrected;
} met;

static daisarnica_head head;
static uint64_t sum = UINT64_C(0xcbf29ce484222325);
static uint32_t seed = SEED;

/* C leaves open in which order the parts of an expression draw, so none has two draws but where the order is fixed. */
static uint32_t any(void)
{
    seed ^= seed << 13;
    seed ^= seed >> 17;
    seed ^= seed << 5;
    return seed;
}

static uint32_t pick(uint32_t below) { return (any() >> 4) % below; }

static int one_in(uint32_t count) { return pick(count) == 0; }

/* Numbers near the ends of the ranges, and beyond. */
static uint32_t end_number(void)
{
    static const uint32_t ends[] = {0, 1, 2, 8, 9, 10, 15, 16, 17, 64, 127, 128, 255, 256, TIMES - 1, TIMES, TIMES + 1,
                                    2147483648u, 4294967295u};

    return ends[pick(sizeof ends / sizeof ends[0])];
}

static uint32_t mostly(uint32_t below) { return one_in(8) ? end_number() : pick(below); }

static void fail(const char *what)
{
    printf("%s, at action %lu\n", what, (unsigned long)met.actions);
    exit(1);
}

/* FNV-1a, by words of 32 bits. */
static void fold(const void *words, size_t size)
{
    const unsigned char *from = words;
    uint32_t word;
    size_t i;

    for (i = 0; i < size; i += sizeof word) {
        memcpy(&word, from + i, sizeof word);
        sum = (sum ^ word) * UINT64_C(0x100000001b3);
    }
}

static void fold_cause(uint32_t cause)
{
    if (cause >= CAUSES) fail("a cause that no call has");
    met.cause[cause]++;
    fold(&cause, sizeof cause);
}

static void tell(const char *what)
{
    printf("%s %lu checksum %08lx%08lx\n", what, (unsigned long)met.actions, (unsigned long)(sum >> 32),
           (unsigned long)(sum & 0xffffffffu));
}

/* How the round stands: the outcome. */
static uint32_t look(void)
{
    daisarnica_ending x;
    uint64_t correction;
    uint32_t half[2];

    memset(&x, 0xA5, sizeof x);
    fold_cause(daisarnica_result(&head, &x));
    fold(&x, sizeof x);
    correction = (uint64_t)daisarnica_correction(&head);
    met.corrected += correction != 0;
    half[0] = (uint32_t)(correction >> 32);
    half[1] = (uint32_t)(correction & 0xffffffffu);
    fold(half, sizeof half);
    if (x.outcome > 2) fail("an outcome that no round has");
    return x.outcome;
}

/* A frame that the head sent tells its candidate or its adjuster. */
static void follow(const daisarnica_frame *frame)
{
    if (frame->action == DAISARNICA_START_DELIVERED) met.frame[STARTS]++;
    if (frame->action == DAISARNICA_VOTE_DELIVERED) {
        met.frame[VOTES]++;
        known.choice[VOTES] = frame->choice;
    }
    if (frame->action == DAISARNICA_ADJUST_DELIVERED) {
        met.frame[ADJUSTS]++;
        known.choice[ADJUSTS] = frame->choice;
    }
}

/* Takes an action; the record is folded after all calls on it, for none but an action may change it. */
static uint32_t act(const daisarnica_input *input)
{
    static const daisarnica_frame none;
    daisarnica_head was = head;
    daisarnica_frame frame;
    uint32_t cause;

    memset(&frame, 0xA5, sizeof frame);
    cause = daisarnica_action(&head, input, &frame);
    fold_cause(cause);
    fold(&frame, sizeof frame);
    follow(&frame);
    known.outcome = look();
    fold(&head, sizeof head);
    if (cause != DAISARNICA_DONE && memcmp(&was, &head, sizeof was) != 0) fail("refused, and the record changed");
    if (cause != DAISARNICA_DONE && memcmp(&none, &frame, sizeof none) != 0) fail("refused, and a frame sent");
    if (++met.actions % LINE == 0) tell("actions");
    return cause;
}

static uint32_t reading(uint32_t counter, uint32_t base)
{
    uint32_t x = 0xA5A5A5A5u;

    fold_cause(daisarnica_reading(counter, base, &x));
    fold(&x, sizeof x);
    return x;
}

/* The action that a round has at this part of it, or any. */
static uint32_t draw_action(uint32_t at, uint32_t length)
{
    static const uint32_t order[] = {1, 2, 2, 3, 2, 4, 5, 5, 5, 5, 5, 5, 6, 7, 8, 8, 8, 8, 8, 9, 0};
    uint32_t action = order[at * (sizeof order / sizeof order[0]) / length];

    if (one_in(5)) action = pick(11);
    if (action != DAISARNICA_VOTE_DELIVERED && action != DAISARNICA_ADJUST_DELIVERED) return action;
    return known.talks ? action : DAISARNICA_LOOK;
}

/* A vote or an adjust of the next head in turn, mostly for what the head has chosen, so that before long all have spoken. */
static void draw_frame(uint32_t kind, daisarnica_input *x)
{
    uint32_t *serial;

    known.sender = (known.sender + 1) % known.n;
    if (known.sender == known.own && !one_in(8)) known.sender = (known.sender + 1) % known.n;
    serial = &known.serial[kind][known.sender];
    x->sender = known.sender;
    x->serial = one_in(12) ? pick(16) : *serial;
    if (*serial < 15) ++*serial;
    x->choice = known.choice[kind];
    if (x->choice == known.n || one_in(8)) x->choice = pick(known.n);
    x->carried = one_in(3) ? pick(4) : one_in(3) ? known.now : pick(TIMES);
    x->none = kind == VOTES && one_in(5);
    if (x->none) x->carried = 0;
}

/* The reading is a counter's, and falls at times; where that is below 0, the counter is too far. */
static void draw_input(uint32_t at, uint32_t length, daisarnica_input *x)
{
    static const uint32_t steps[] = {1, 2, 7, 400, 100000};
    uint32_t step = pick(steps[pick(sizeof steps / sizeof steps[0])]);

    memset(x, 0, sizeof *x);
    x->action = draw_action(at, length);
    if (x->action == DAISARNICA_START_DELIVERED) x->sender = pick(known.n);
    if (x->action == DAISARNICA_VOTE_DELIVERED) draw_frame(VOTES, x);
    if (x->action == DAISARNICA_ADJUST_DELIVERED) draw_frame(ADJUSTS, x);
    if (one_in(40)) step = 0u - 1 - pick(3);
    x->reading = reading(known.base + known.now + step, known.base);
}

/* One field of the input becomes another number. */
static void spoil(daisarnica_input *x)
{
    uint32_t field[FIELDS], at = pick(FIELDS);

    memcpy(field, x, sizeof field);
    field[at] = end_number();
    memcpy(x, field, sizeof field);
}

/* Where a record has the head's own numbers, and where sixteen by sender begin. */
static const uint8_t own_at[16] = {0, 1, 2, 3, 4, 5, 6, 7, 8, 9, 42, 43, 44, 77, 78, 79};
static const uint8_t senders_at[6] = {10, 26, 45, 61, 80, 96};

/* A number of the record becomes another: by a bit, by one, or any. */
static void damage(void)
{
    uint32_t *number = &head.opaque[one_in(2) ? own_at[pick(16)] : pick(NUMBERS)];

    switch (pick(4)) {
    case 0: *number ^= 1u << pick(one_in(2) ? 8 : 32); break;
    case 1: *number += 1 - 2 * pick(2); break;
    case 2: *number = pick(known.n + 2); break;
    default: *number = end_number();
    }
}

/* One number by sender becomes alike for all heads, as when all have spoken. */
static void damage_alike(void)
{
    uint32_t *number = &head.opaque[senders_at[pick(6)]], same = 1 + pick(known.n), i;

    for (i = 0; i < known.n; i++) number[i] = same;
}

/* An action at a damaged copy of the record; if it was taken, the round goes on from there at times. */
static void act_damaged(const daisarnica_input *x)
{
    daisarnica_head kept = head;
    uint32_t cause, outcome = known.outcome;

    if (one_in(4)) damage_alike();
    else damage();
    if (one_in(2)) damage();
    cause = act(x);
    met.damaged += cause == DAISARNICA_DONE;
    if (cause == DAISARNICA_DONE && one_in(4)) {
        known.closed = 0;
    } else {
        head = kept;
        known.outcome = outcome;
    }
}

/* An action at the record as it is. An early close is seen by a round that ends without its adjust close, or by a vote close
 * that is taken a second time. */
static void act_plain(const daisarnica_input *x)
{
    uint32_t outcome = known.outcome;

    if (act(x) != DAISARNICA_DONE) return;
    known.now = x->reading;
    met.early += outcome == 0 && known.outcome != 0 && x->action != DAISARNICA_ADJUST_CLOSE;
    if (x->action == DAISARNICA_VOTE_CLOSE) met.spent += known.closed++ != 0;
}

static void fresh(uint32_t n, uint32_t f, uint32_t own)
{
    daisarnica_head was = head;
    uint32_t cause = daisarnica_fresh(&head, n, f, own);

    fold_cause(cause);
    fold(&head, sizeof head);
    if (cause != DAISARNICA_DONE && memcmp(&was, &head, sizeof was) != 0) fail("not made, and the record changed");
}

/* A fresh head, after one that may be refused; half of the benches are small. */
static void begin(void)
{
    uint32_t n = mostly(19), f = mostly(4), own = mostly(18);

    fresh(n, f, own);
    n = 2 + pick(one_in(2) ? 4 : HEADS - 1);
    f = pick((n - 1) / 2 + 1);
    own = pick(n);
    fresh(n, f, own);
    memset(&known, 0, sizeof known);
    known.n = n;
    known.own = own;
    known.base = any();
    known.choice[VOTES] = known.choice[ADJUSTS] = n;
    known.talks = !one_in(5);
}

/* One head's round, and a counter that may be too far past its base. */
static void sequence(void)
{
    uint32_t i, length = 1 + pick(LONGEST), counter = any();
    daisarnica_input x;

    begin();
    for (i = 0; i < length && met.actions < ACTIONS; i++) {
        draw_input(i, length, &x);
        if (one_in(30)) spoil(&x);
        if (one_in(6)) act_damaged(&x);
        else act_plain(&x);
    }
    met.outcome[known.outcome]++;
    reading(counter, one_in(2) ? any() : counter - pick(2 * TIMES));
}

static void must_meet(const char *what, uint32_t count)
{
    printf("%s %lu\n", what, (unsigned long)count);
    if (count == 0) fail("never met");
}

int main(void)
{
    while (met.actions < ACTIONS) sequence();
    must_meet("cause 0", met.cause[DAISARNICA_DONE]);
    must_meet("cause 3", met.cause[DAISARNICA_BAD_HEADS]);
    must_meet("cause 6", met.cause[DAISARNICA_BAD_NUMBER]);
    must_meet("cause 8", met.cause[DAISARNICA_READING_FELL]);
    must_meet("cause 9", met.cause[DAISARNICA_ACTION_CLOSED]);
    must_meet("cause 10", met.cause[DAISARNICA_BAD_RECORD]);
    must_meet("cause 11", met.cause[DAISARNICA_COUNTER_TOO_FAR]);
    must_meet("outcome 0", met.outcome[0]);
    must_meet("outcome 1", met.outcome[1]);
    must_meet("outcome 2", met.outcome[2]);
    must_meet("starts sent", met.frame[STARTS]);
    must_meet("votes sent", met.frame[VOTES]);
    must_meet("adjusts sent", met.frame[ADJUSTS]);
    must_meet("ended without adjust close", met.early);
    must_meet("vote close taken again", met.spent);
    must_meet("damaged and taken", met.damaged);
    must_meet("corrections not 0", met.corrected);
    tell("done");
    return 0;
}
