/* bench.h: a simulated bench: heads with crystals, timers and CAN controllers on one bus, each of them running firmware.h,
 * and the recorder that notes every action taken. Times are real microseconds from the beginning of the round, but where a
 * reading is meant. */
#ifndef BENCH_H
#define BENCH_H

#include <stddef.h>

#include "../firmware.h"
#include "daisarnica_sheet.h"

#define MOST_HEADS 16
#define NEVER UINT32_MAX
#define MILLION 1000000u

/* A frame of 8 data bytes has 111 bits on the bus, the gap after it included, and up to 24 more to keep the clocks of the
 * controllers in step. */
#define LEAST_BITS 111
#define STUFFED_BITS 24

/* A head sends one start, and a vote or adjust for each candidate or adjuster at most. */
#define MOST_WAITING (1 + 2 * MOST_HEADS)

/* A frame, and what the recorder notes of it, as its sender's library gave it. */
typedef struct {
    can_frame frame;
    uint32_t sender, serial;
} sent_frame;

typedef struct {
    sent_frame sent;
    uint32_t ready; /* not sent before */
} waiting_frame;

typedef struct {
    firmware w;
    int correct;
    uint32_t rate;                       /* what its counter counts in a million microseconds */
    uint32_t counter;                    /* at time 0 */
    uint32_t latency;                    /* from the end of a frame to its reading, at most */
    uint32_t stops;                      /* it takes and sends nothing from this time on */
    uint32_t lost, missed;               /* sets of heads: that its frames do not reach; whose frames it does not receive */
    uint32_t slow;                       /* its votes and adjusts wait so long in the controller */
    uint32_t dead;                       /* the action whose timer never runs out; 0 for none */
    uint32_t timer;                      /* when its next timer runs out */
    waiting_frame waiting[MOST_WAITING]; /* first in, first out among equal identifiers */
    size_t waits;
    uint32_t last;                       /* the reading of its last action */
    uint32_t starts;                     /* a set: the heads whose start it has received */
    uint32_t received[MOST_HEADS];       /* when each of them was last received */
    uint32_t frames[3];                  /* starts, votes and adjusts that it broadcast */
} head;

/* What a controller hands over to its head: a frame, or that its own was sent. */
typedef struct {
    uint32_t at, head;
    int confirms;
    sent_frame sent;
} arrival;

#define MOST_ARRIVALS 512
#define CAUSES 14

typedef struct {
    uint64_t random;
    round_settings set;
    uint32_t drift, tightness;
    uint32_t bit;                 /* the time of a bit on the bus */
    uint32_t load, noise;         /* of 100 frames so many wait for another device's, or have an error in the last bit */
    uint32_t disturbed;           /* the premise that something was done against, 0 for none */
    uint32_t bad_input;           /* when input comes that every head is to refuse */
    head heads[MOST_HEADS];
    uint32_t now, bus_free;
    arrival arrivals[MOST_ARRIVALS];
    size_t arrivals_count;
    uint32_t numbers[DAISARNICA_SHEET_NUMBERS], count; /* what the recorder has noted, six numbers an entry */
    uint32_t repeated;            /* starts received again */
    uint32_t refused[CAUSES];     /* calls of the library that were refused, by cause */
    uint32_t changed;             /* records that a refused call changed, or bad input that was not refused */
} bench;

/* draw.c: all of a round is drawn from its seed. */
uint32_t pick(bench *b, uint32_t below);
void draw(bench *b, uint32_t seed);

/* bus.c: the round from its beginning until no timer runs and no frame waits; then looks, all heads in one microsecond. */
void run(bench *b);
void look(bench *b, uint32_t at);
int runs(const head *h, uint32_t at);
uint32_t counter_at(const head *h, uint32_t at);
uint32_t correct_bits(const bench *b);

/* bad_input.c: input that every head is to refuse, each with its cause. */
enum { NO_HEADS_FRAME, COUNTER_PAST_BASE, READING_THAT_FELL, DAMAGED_RECORD, BAD_INPUTS };
uint32_t refuse(bench *b, uint32_t h, uint32_t which);

#endif
