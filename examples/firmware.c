/* firmware.c: see firmware.h. */
#include "firmware.h"

#include <string.h>

static uint32_t phase_of(const can_frame *c) { return c->id >> 4 & 3; }

static uint32_t sender_of(const can_frame *c) { return c->id & 15; }

/* The action that delivers a frame of this phase: 8, 5 or 2. */
static uint32_t delivers(uint32_t phase) { return 8 - 3 * phase; }

static uint32_t phase_delivered_by(uint32_t action) { return (8 - action) / 3; }

static can_frame to_can(const firmware *w, const daisarnica_frame *f)
{
    can_frame c;
    int i;

    c.id = CAN_PROTOCOL | phase_delivered_by(f->action) << 4 | w->own;
    c.data[0] = (uint8_t)(f->serial << 4 | f->choice);
    c.data[1] = (uint8_t)f->none;
    c.data[2] = (uint8_t)(w->set.number >> 8);
    c.data[3] = (uint8_t)w->set.number;
    for (i = 0; i < 4; i++) c.data[4 + i] = (uint8_t)(f->carried >> (24 - 8 * i));
    return c;
}

/* The fields as they stand in the frame: whether they are in their ranges the library asks. */
static daisarnica_input from_can(const can_frame *c)
{
    daisarnica_input x;
    int i;

    x.action = delivers(phase_of(c));
    x.reading = 0;
    x.sender = sender_of(c);
    x.serial = c->data[0] >> 4;
    x.choice = c->data[0] & 15;
    x.none = c->data[1];
    x.carried = 0;
    for (i = 0; i < 4; i++) x.carried = x.carried << 8 | c->data[4 + i];
    return x;
}

/* A frame of this protocol and round; of one's own only the start, since a head's own vote or adjust is in its record. */
static int is_for(const firmware *w, const can_frame *c)
{
    uint32_t number = (uint32_t)c->data[2] << 8 | c->data[3];
    int ours = (c->id & CAN_PROTOCOL_BITS) == CAN_PROTOCOL && phase_of(c) < 3 && number == w->set.number;

    return ours && (sender_of(c) != w->own || delivers(phase_of(c)) == DAISARNICA_START_DELIVERED);
}

/* The timers that an action starts. Those of the closes run from the first frame that a head receives, which comes to all
 * heads at about the same time. The adjust turn is counted anew from each vote until the vote timer has run out, since any
 * vote may close the phase early; where it comes while the phase is open, it is refused and counted from the next vote. */
static void start_timers(firmware *w, const daisarnica_input *x, uint32_t sent)
{
    int vote = x->action == DAISARNICA_VOTE_DELIVERED || sent == DAISARNICA_VOTE_DELIVERED;

    if (!w->closing && (vote || x->action == DAISARNICA_START_DELIVERED)) {
        w->closing = 1;
        w->due[DAISARNICA_VOTE_CLOSE] = x->reading + w->set.vote_time;
        w->due[DAISARNICA_ADJUST_CLOSE] = x->reading + w->set.adjust_time;
    }
    if (x->action == DAISARNICA_START_CONFIRMED) w->due[DAISARNICA_VOTE_TURN] = x->reading + w->own * w->set.turn;
    if (x->action == DAISARNICA_VOTE_CLOSE || (vote && w->due[DAISARNICA_VOTE_CLOSE] != NOT_DUE))
        w->due[DAISARNICA_ADJUST_TURN] = x->reading + (w->own + 1) * w->set.turn;
}

static event act(firmware *w, const daisarnica_input *input, uint32_t counter)
{
    event x;

    memset(&x, 0, sizeof x);
    x.input = *input;
    x.cause = daisarnica_reading(counter, w->base, &x.input.reading);
    if (x.cause == DAISARNICA_DONE) x.cause = daisarnica_action(&w->record, &x.input, &x.frame);
    if (x.cause != DAISARNICA_DONE) return x;
    x.taken = 1;
    start_timers(w, &x.input, x.frame.action);
    if (x.frame.action) x.out = to_can(w, &x.frame);
    return x;
}

uint32_t firmware_begin(firmware *w, const round_settings *set, uint32_t own, uint32_t base)
{
    int i;

    w->set = *set;
    w->own = own;
    w->base = base;
    w->closing = 0;
    for (i = 0; i < ACTIONS; i++) w->due[i] = NOT_DUE;
    w->due[DAISARNICA_START_SENT] = set->start_time;
    return daisarnica_fresh(&w->record, set->n, set->f, own);
}

uint32_t firmware_due(const firmware *w, uint32_t counter)
{
    uint32_t first = 0, reading, i;

    if (daisarnica_reading(counter, w->base, &reading) != DAISARNICA_DONE) return 0;
    for (i = 0; i < ACTIONS; i++)
        if (w->due[i] <= reading && w->due[i] < w->due[first]) first = i;
    return first;
}

event firmware_timer(firmware *w, uint32_t action, uint32_t counter)
{
    daisarnica_input input;

    memset(&input, 0, sizeof input);
    input.action = action;
    w->due[action] = NOT_DUE;
    return act(w, &input, counter);
}

event firmware_frame(firmware *w, const can_frame *in, uint32_t counter)
{
    daisarnica_input input;
    event none;

    if (is_for(w, in)) {
        input = from_can(in);
        return act(w, &input, counter);
    }
    memset(&none, 0, sizeof none);
    return none;
}

void firmware_confirmed(firmware *w, const can_frame *sent, uint32_t counter)
{
    uint32_t reading;

    if (delivers(phase_of(sent)) == DAISARNICA_START_DELIVERED &&
        daisarnica_reading(counter, w->base, &reading) == DAISARNICA_DONE)
        w->due[DAISARNICA_START_CONFIRMED] = reading + w->set.guard;
}

uint32_t firmware_next_base(const firmware *w, uint32_t interval)
{
    return w->base - (uint32_t)daisarnica_correction(&w->record) + interval;
}
