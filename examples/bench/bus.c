/* bus.c: a round runs: timers by each head's crystal, frames by arbitration, one after the other, and the recorder. */
#include <stdio.h>
#include <stdlib.h>
#include <string.h>

#include "bench.h"

uint32_t counter_at(const head *h, uint32_t at) { return h->counter + (uint32_t)((uint64_t)at * h->rate / MILLION); }

/* The first time at which the head's clock shows this reading or more. */
static uint32_t shown_from(const head *h, uint32_t reading)
{
    uint32_t at_0 = h->counter - h->w.base;

    return reading <= at_0 ? 0 : (uint32_t)(((uint64_t)(reading - at_0) * MILLION + h->rate - 1) / h->rate);
}

int runs(const head *h, uint32_t at) { return at < h->stops; }

uint32_t correct_bits(const bench *b)
{
    uint32_t set = 0, h;

    for (h = 0; h < b->set.n; h++) set |= (uint32_t)b->heads[h].correct << h;
    return set;
}

/* After each event at a head: when its next timer runs out. */
static void set_timer(head *h, uint32_t now)
{
    uint32_t first = NOT_DUE, i;

    h->w.due[h->dead] = NOT_DUE;
    for (i = 0; i < ACTIONS; i++)
        if (h->w.due[i] < first) first = h->w.due[i];
    h->timer = first == NOT_DUE ? NEVER : shown_from(h, first);
    if (h->timer < now) h->timer = now;
}

static void receive_start(bench *b, head *h, uint32_t sender)
{
    b->repeated += h->starts >> sender & 1;
    h->starts |= 1u << sender;
    h->received[sender] = b->now;
}

/* The recorder notes whose frame was taken, and which, by what its sender sent and not by what the receiver made of it. */
static void record(bench *b, uint32_t h, const daisarnica_input *x, const sent_frame *taken)
{
    uint32_t sender = taken ? taken->sender : 0, serial = taken ? taken->serial : 0;
    const uint32_t entry[DAISARNICA_ENTRY_NUMBERS] = {b->now, x->reading, h, x->action, sender, serial};

    if (b->count + DAISARNICA_ENTRY_NUMBERS > DAISARNICA_SHEET_NUMBERS) {
        fprintf(stderr, "more entries than a sheet has room for\n");
        exit(2);
    }
    memcpy(b->numbers + b->count, entry, sizeof entry);
    b->count += DAISARNICA_ENTRY_NUMBERS;
    b->heads[h].last = x->reading;
    if (x->action == DAISARNICA_START_DELIVERED) receive_start(b, &b->heads[h], sender);
}

/* The controller has a frame of its head to send. Votes and adjusts may have to wait in it. */
static void put(bench *b, uint32_t h, const event *x)
{
    head *own = &b->heads[h];
    uint32_t phase = (x->frame.action - DAISARNICA_START_DELIVERED) / 3;
    waiting_frame *w = &own->waiting[own->waits++];

    own->frames[phase]++;
    w->sent.frame = x->out;
    w->sent.sender = h;
    w->sent.serial = x->frame.serial;
    w->ready = b->now + (phase ? own->slow : 0);
}

/* What an event came to at head h, whose record was as it is here before it: noted, and its frame handed to the controller.
 * A refusal is counted, and must have changed nothing. */
static void note(bench *b, uint32_t h, const daisarnica_head *before, const event *x, const sent_frame *taken)
{
    head *own = &b->heads[h];

    if (x->taken) record(b, h, &x->input, taken);
    if (x->cause) {
        b->refused[x->cause]++;
        b->changed += memcmp(before, &own->w.record, sizeof *before) != 0;
    }
    if (x->frame.action) put(b, h, x);
    set_timer(own, b->now);
}

static void take_timed(bench *b, uint32_t h, uint32_t action)
{
    head *own = &b->heads[h];
    daisarnica_head before = own->w.record;
    event x = firmware_timer(&own->w, action, counter_at(own, b->now));

    note(b, h, &before, &x, NULL);
}

static void run_timer(bench *b, uint32_t h)
{
    const head *own = &b->heads[h];

    b->now = own->timer;
    take_timed(b, h, firmware_due(&own->w, counter_at(own, b->now)));
}

static void arrive(bench *b, const arrival *a)
{
    head *own = &b->heads[a->head];
    daisarnica_head before = own->w.record;
    uint32_t counter = counter_at(own, b->now);
    event x;

    if (!runs(own, b->now)) return;
    if (a->confirms) {
        firmware_confirmed(&own->w, &a->sent.frame, counter);
        set_timer(own, b->now);
        return;
    }
    x = firmware_frame(&own->w, &a->sent.frame, counter);
    note(b, a->head, &before, &x, &a->sent);
}

static void expect(bench *b, uint32_t at, uint32_t h, int confirms, const sent_frame *sent)
{
    arrival *a = &b->arrivals[b->arrivals_count++];

    if (b->arrivals_count == MOST_ARRIVALS) {
        fprintf(stderr, "more arrivals than there is room for\n");
        exit(2);
    }
    a->at = at;
    a->head = h;
    a->confirms = confirms;
    a->sent = *sent;
}

/* The frame that has ended comes to the heads of this set, but for those that miss its sender's frames. */
static void deliver(bench *b, const sent_frame *sent, uint32_t set)
{
    uint32_t h;

    for (h = 0; h < b->set.n; h++) {
        head *to = &b->heads[h];

        if (set >> h & 1 && !(to->missed >> sent->sender & 1))
            expect(b, b->bus_free + pick(b, to->latency + 1), h, 0, sent);
    }
}

static uint32_t waiting_id(const head *h, size_t i) { return h->waiting[i].sent.frame.id; }

/* A head's first frame of the lowest identifier among those that are ready; waits if there is none. */
static size_t first_waiting(const head *h, uint32_t now)
{
    size_t first = h->waits, i;

    for (i = 0; i < h->waits; i++)
        if (h->waiting[i].ready <= now && (first == h->waits || waiting_id(h, i) < waiting_id(h, first))) first = i;
    return first;
}

/* The bus is free and some head is ready: the one with the lowest identifier has it. */
static uint32_t arbitrate(const bench *b)
{
    uint32_t winner = 0, lowest = NEVER, h;

    for (h = 0; h < b->set.n; h++) {
        const head *own = &b->heads[h];
        size_t i = first_waiting(own, b->now);

        if (i == own->waits || !runs(own, b->now) || waiting_id(own, i) >= lowest) continue;
        winner = h;
        lowest = waiting_id(own, i);
    }
    return winner;
}

/* The winner sends. If it stops meanwhile some heads may have taken the frame; with an error in the last bit some have, and
 * it is sent again; else it is sent, and confirmed unless its sender lost it to a correct head. */
static void send(bench *b, uint32_t sender)
{
    head *h = &b->heads[sender];
    size_t i = first_waiting(h, b->now);
    sent_frame sent = h->waiting[i].sent;
    uint32_t some = pick(b, 65536);

    b->bus_free = b->now + (LEAST_BITS + pick(b, STUFFED_BITS + 1)) * b->bit;
    if (!runs(h, b->bus_free) || pick(b, 100) < b->noise) {
        deliver(b, &sent, some & ~h->lost);
        b->bus_free += 20 * b->bit;
        return;
    }
    deliver(b, &sent, ~h->lost);
    if (!(h->lost & correct_bits(b))) expect(b, b->bus_free, sender, 1, &sent);
    h->waits--;
    memmove(h->waiting + i, h->waiting + i + 1, (h->waits - i) * sizeof h->waiting[0]);
}

static void use_bus(bench *b)
{
    if (pick(b, 100) < b->load)
        b->bus_free = b->now + (LEAST_BITS + STUFFED_BITS) * b->bit;
    else
        send(b, arbitrate(b));
}

/* When a head's controller has a frame to send: at once if the bus was free. */
static uint32_t ready_at(const bench *b, const head *h)
{
    uint32_t at = NEVER;
    size_t i;

    for (i = 0; i < h->waits; i++)
        if (h->waiting[i].ready < at) at = h->waiting[i].ready;
    if (at < b->bus_free) at = b->bus_free;
    return runs(h, at) ? at : NEVER;
}

static size_t first_arrival(const bench *b)
{
    size_t first = 0, i;

    for (i = 1; i < b->arrivals_count; i++)
        if (b->arrivals[i].at < b->arrivals[first].at) first = i;
    return first;
}

static void take_arrival(bench *b, size_t i)
{
    arrival a = b->arrivals[i];

    b->arrivals_count--;
    memmove(b->arrivals + i, b->arrivals + i + 1, (b->arrivals_count - i) * sizeof a);
    b->now = a.at;
    arrive(b, &a);
}

/* Bad input of every sort comes to a head that has taken an action. */
static void refuse_all(bench *b, uint32_t h)
{
    uint32_t which;

    for (which = 0; b->heads[h].last && which < BAD_INPUTS; which++) refuse(b, h, which);
}

static void come_to_all(bench *b)
{
    uint32_t h;

    b->now = b->bad_input;
    b->bad_input = NEVER;
    for (h = 0; h < b->set.n; h++) refuse_all(b, h);
}

/* The next thing that happens; of several in one microsecond what was received goes first, then timers, then the bus.
 * Returns 0 if there is nothing more. */
static int go_on(bench *b)
{
    uint32_t bus = NEVER, timers = NEVER, whose = 0, h;
    size_t i = first_arrival(b);
    uint32_t arrivals = b->arrivals_count ? b->arrivals[i].at : NEVER;

    for (h = 0; h < b->set.n; h++) {
        uint32_t ready = ready_at(b, &b->heads[h]), at = b->heads[h].timer;

        if (ready < bus) bus = ready;
        if (at >= timers || !runs(&b->heads[h], at)) continue;
        timers = at;
        whose = h;
    }
    if (b->bad_input < arrivals && b->bad_input < timers && b->bad_input < bus) {
        come_to_all(b);
    } else if (arrivals != NEVER && arrivals <= timers && arrivals <= bus) {
        take_arrival(b, i);
    } else if (timers != NEVER && timers <= bus) {
        run_timer(b, whose);
    } else if (bus != NEVER) {
        b->now = bus;
        use_bus(b);
    } else {
        return 0;
    }
    return 1;
}

void run(bench *b)
{
    uint32_t h;

    for (h = 0; h < b->set.n; h++) set_timer(&b->heads[h], 0);
    while (go_on(b)) {
    }
}

void look(bench *b, uint32_t at)
{
    uint32_t h;

    b->now = at;
    for (h = 0; h < b->set.n; h++)
        if (runs(&b->heads[h], at)) take_timed(b, h, DAISARNICA_LOOK);
}
