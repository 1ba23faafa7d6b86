/* draw.c: the settings, crystals and faults of a round, all drawn from its seed. Most rounds keep the premises, with faulty
 * heads or without; in the others something is done against one of them. Whether it is broken the judge says. */
#include <stdio.h>
#include <stdlib.h>
#include <string.h>

#include "bench.h"

/* The number generator splitmix64: every seed gives another sequence, so rounds of neighbouring seeds have nothing in
 * common. */
uint32_t pick(bench *b, uint32_t below)
{
    uint64_t x = b->random += 0x9E3779B97F4A7C15u;

    x = (x ^ x >> 30) * 0xBF58476D1CE4E5B9u;
    x = (x ^ x >> 27) * 0x94D049BB133111EBu;
    return (uint32_t)((x ^ x >> 31) >> 32) % below;
}

static uint32_t between(bench *b, uint32_t low, uint32_t high) { return low + pick(b, high - low + 1); }

static uint32_t frame_time(const bench *b) { return (LEAST_BITS + STUFFED_BITS) * b->bit; }

/* apart is how far the clocks, and so the starts, may be apart before the round. A phase is long enough for that and for
 * twice as many frames as it can have. */
static void draw_times(bench *b, uint32_t apart)
{
    uint32_t n = b->set.n, frame = frame_time(b), most = n * (n + 1) / 2;

    b->set.number = pick(b, 65536);
    b->set.start_time = apart + between(b, 0, 1000);
    b->set.guard = 2 * b->tightness + 2;
    b->set.turn = 4 * frame;
    b->set.vote_time = 2 * apart + n * b->set.turn + 2 * (n + most) * frame;
    b->set.adjust_time = b->set.vote_time + 2 * apart + (n + 1) * b->set.turn + 2 * most * frame;
}

/* What is done against premises 4 to 8 shows only while a phase is open, so a faulty head is to keep it so. */
static void draw_settings(bench *b)
{
    static const uint32_t bits[] = {1, 2, 4, 8}; /* 1 Mbit/s to 125 kbit/s */
    static const uint32_t premises[] = {1, 2, 3, 4, 5, 5, 6, 6, 6, 7, 7, 8, 8, 8}; /* more often what is hard to break */

    b->disturbed = pick(b, 2) ? premises[pick(b, sizeof premises / sizeof premises[0])] : 0;
    b->set.n = b->disturbed >= 4 ? between(b, 3, MOST_HEADS) : between(b, 2, between(b, 2, MOST_HEADS));
    b->set.f = pick(b, (b->set.n - 1) / 2 + 1);
    if (b->disturbed >= 4 && b->set.f == 0) b->set.f = 1;
    b->drift = between(b, 1, 200);
    b->tightness = between(b, 1, 40);
    b->bit = bits[pick(b, 4)];
    b->load = pick(b, 2) ? pick(b, 30) : 0;
    b->noise = pick(b, 2) ? pick(b, 10) : 0;
}

/* A healthy head: its crystal keeps to the drift, at times it is off by all of it; its counter stands anywhere, often
 * shortly before it wraps, and its clock shows up to apart at time 0. */
static void draw_head(bench *b, uint32_t own, uint32_t apart)
{
    head *h = &b->heads[own];

    h->correct = 1;
    h->rate = MILLION - b->drift + (pick(b, 3) ? pick(b, 2 * b->drift + 1) : 2 * b->drift * pick(b, 2));
    h->counter = pick(b, 2) ? pick(b, UINT32_MAX) : 0u - pick(b, 2 * b->set.adjust_time);
    h->latency = b->tightness;
    h->stops = NEVER;
    h->lost = h->missed = h->slow = h->dead = h->last = h->starts = 0;
    h->waits = 0;
    h->frames[0] = h->frames[1] = h->frames[2] = 0;
    if (firmware_begin(&h->w, &b->set, own, h->counter - between(b, 0, apart)) != DAISARNICA_DONE) {
        fprintf(stderr, "no fresh record\n");
        exit(2);
    }
}

/* One fault of a head: it stops, from the beginning or later, loses frames to some, misses frames of some, has a crystal
 * that is off by up to a tenth, or a controller that sends late. */
static void spoil(bench *b, head *h, uint32_t own)
{
    uint32_t others = ((1u << b->set.n) - 1) & ~(1u << own), busy = b->set.start_time + 8 * b->set.n * frame_time(b);

    h->correct = 0;
    switch (pick(b, 6)) {
    case 0: h->stops = 0; break;
    case 1: h->stops = pick(b, busy); break;
    case 2: h->lost = pick(b, 65536) & others; break;
    case 3: h->missed = pick(b, 65536) & others; break;
    case 4: h->rate = between(b, 900000, 1100000); break;
    default: h->slow = pick(b, busy); break;
    }
}

static void draw_faulty(bench *b)
{
    uint32_t n = b->set.n, f = b->set.f, count = pick(b, f + 1);

    if (b->disturbed == 1) count = between(b, f + 1, n);
    if (b->disturbed >= 4 && count == 0) count = 1;
    while (count) {
        uint32_t own = pick(b, n);

        if (!b->heads[own].correct) continue;
        spoil(b, &b->heads[own], own);
        if (pick(b, 3) == 0) spoil(b, &b->heads[own], own);
        if (b->disturbed >= 4 && count == 1) b->heads[own].stops = 0;
        if (b->disturbed == 6 || b->disturbed == 8) {
            b->heads[own].stops = NEVER;
            b->heads[own].slow = pick(b, b->set.adjust_time);
        }
        count--;
    }
}

/* A correct head other than this one. With at most f faulty heads at least two are correct. */
static uint32_t correct_but(bench *b, uint32_t not)
{
    uint32_t h = pick(b, b->set.n);

    while (h == not || !b->heads[h].correct) h = pick(b, b->set.n);
    return h;
}

/* Against premise 2 a crystal off by more than the drift; against 3 a head that reads late, or does not receive a start that
 * is confirmed; against 4 a timer that never runs out. */
static void disturb_one(bench *b)
{
    static const uint32_t timers[] = {DAISARNICA_VOTE_CLOSE, DAISARNICA_ADJUST_TURN, DAISARNICA_ADJUST_CLOSE};
    uint32_t own = correct_but(b, NEVER), off = b->drift * between(b, 2, 20);
    head *h = &b->heads[own];

    if (b->disturbed == 2) h->rate = pick(b, 2) ? MILLION + off : MILLION - off;
    if (b->disturbed == 3 && pick(b, 2)) h->latency = b->tightness + between(b, 1, 300);
    else if (b->disturbed == 3) h->missed = 1u << correct_but(b, own);
    if (b->disturbed == 4) h->dead = timers[pick(b, 3)];
}

/* Against premise 5 all vote timers are too short, against 6 and 8 the timers are apart; against 7 one head's adjust timer
 * ends shortly after its own turn. */
static void disturb_timers(bench *b)
{
    uint32_t votes = b->set.vote_time, adjusts = b->set.adjust_time - votes;
    uint32_t all = between(b, 1, 30), one = pick(b, b->set.n), h;

    for (h = 0; h < b->set.n; h++) {
        round_settings *set = &b->heads[h].w.set;

        if (b->disturbed == 5) set->vote_time = votes / 100 * all;
        if (b->disturbed == 6) set->vote_time = votes / 100 * between(b, 20, 100);
        if (b->disturbed == 7 && h == one) set->adjust_time = votes + (h + 1) * set->turn + between(b, 1, set->turn);
        if (b->disturbed == 8) set->adjust_time = votes + adjusts / 100 * between(b, 30, 100);
    }
}

void draw(bench *b, uint32_t seed)
{
    uint32_t apart, h;

    b->random = (uint64_t)seed << 32;
    draw_settings(b);
    apart = pick(b, 3001);
    draw_times(b, apart);
    for (h = 0; h < b->set.n; h++) draw_head(b, h, apart);
    draw_faulty(b);
    if (b->disturbed > 1) disturb_one(b);
    disturb_timers(b);
    b->bad_input = pick(b, 4) ? NEVER : pick(b, b->set.vote_time);
    b->now = b->bus_free = b->count = b->repeated = b->changed = 0;
    b->arrivals_count = 0;
    memset(b->refused, 0, sizeof b->refused);
}
