/* daisarnica.h: one head of a drawing bench, for boards written in C.
 *
 * A board keeps one record of its head, in memory of its own, and hands it to each call. A call takes no other memory
 * than what is lent to it, has no state between calls, and always returns. It needs memset, on some processors memcpy too,
 * and nothing else. docs/FIRMWARE.md says which event of a board is which action.
 *
 * Every number has an answer: what is out of range is refused with its cause, and a refusal leaves the record as it
 * was. What the caller owes: each pointer is to memory of its own that holds the whole struct; the structs of one call
 * do not overlap; and no other code, such as an interrupt, uses a record while a call works on it.
 *
 * Times are microseconds, below 2^28. A reading is what the head's clock shows. */
#ifndef DAISARNICA_H
#define DAISARNICA_H

#include <stdint.h>

#ifdef __cplusplus
extern "C" {
#endif

/* A head's record. Its content is the library's: make it by daisarnica_fresh, change it by daisarnica_action. It may be
 * copied, and kept over a restart: a record that was damaged is refused (cause 10) if any number is out of its range. */
#define DAISARNICA_HEAD_SIZE 448
#define DAISARNICA_HEAD_ALIGN 4

typedef struct {
    uint32_t opaque[DAISARNICA_HEAD_SIZE / 4];
} daisarnica_head;

/* The actions of a head.
 *
 * A phase may close early. The vote phase closes by itself in the very call after which the latest votes of all n heads,
 * this head's own among them, name its candidate; the adjust phase likewise with the adjuster, once the vote phase is
 * closed. So on a bench where every head speaks no timer is waited out. What brings it is mostly the delivery of the last
 * vote or adjust that was missing (5, 8); one call may close both phases, and daisarnica_result then has the outcome at once.
 * A head that stays silent keeps all others' phases open until their timers' actions close them (6, 9).
 *
 * The timers' actions may still be called: after an early close of the vote phase any VOTE_CLOSE, after one of the adjust
 * phase any ADJUST_TURN or ADJUST_CLOSE, returns 0, changes nothing but the last reading and sends no frame. So firmware
 * need not know whether a phase closed early: it starts its timers and calls their actions as before.
 *
 * Of the start readings that votes carry, the adjustment is the median of those voted for the candidate that the head has at
 * its adjust turn: when it goes on to another candidate it drops the others, and a vote for another one leaves none. With an
 * even count of them it is half the sum of the two middle ones, rounded down. */
enum {
    DAISARNICA_LOOK = 0,             /* only a reading */
    DAISARNICA_START_SENT = 1,       /* the start is the frame to send */
    DAISARNICA_START_DELIVERED = 2,  /* of sender, one's own too */
    DAISARNICA_START_CONFIRMED = 3,  /* one's own start */
    DAISARNICA_VOTE_TURN = 4,
    DAISARNICA_VOTE_DELIVERED = 5,   /* of another head */
    DAISARNICA_VOTE_CLOSE = 6,       /* the vote phase's timer has run out */
    DAISARNICA_ADJUST_TURN = 7,
    DAISARNICA_ADJUST_DELIVERED = 8, /* of another head */
    DAISARNICA_ADJUST_CLOSE = 9      /* the adjust phase's timer has run out */
};

/* The causes that a call returns; 0 is for what was done. */
enum {
    DAISARNICA_DONE = 0,
    DAISARNICA_BAD_HEADS = 3,       /* n not 2 to 16, or 2 f + 1 above n */
    DAISARNICA_BAD_NUMBER = 6,      /* a number of the call that is out of its range, or not 0 where it is not used */
    DAISARNICA_READING_FELL = 8,    /* a reading below the record's last */
    DAISARNICA_ACTION_CLOSED = 9,   /* an action that the head cannot take now */
    DAISARNICA_BAD_RECORD = 10,     /* a record out of its ranges */
    DAISARNICA_COUNTER_TOO_FAR = 11 /* a counter 2^28 or more past its base */
};

/* An action. sender is 0 except in actions 2, 5 and 8; serial, choice, carried and none are 0 except in 5 and 8.
 * The last four are what the delivered frame has, as it was handed to its sender in a daisarnica_frame. */
typedef struct {
    uint32_t action;
    uint32_t reading;
    uint32_t sender;
    uint32_t serial;
    uint32_t choice;  /* the candidate of a vote, the adjuster of an adjust */
    uint32_t carried; /* the start reading of a vote, the adjustment of an adjust */
    uint32_t none;    /* 1 in place of a vote's start reading, which is then 0; else 0 */
} daisarnica_input;

/* The frame to send. action is the action that its delivery is: 2 a start, 5 a vote, 8 an adjust; 0 if there is none. */
typedef struct {
    uint32_t action;
    uint32_t serial;
    uint32_t choice;
    uint32_t carried;
    uint32_t none;
} daisarnica_frame;

/* How the round ended for a head. All but the outcome are 0 unless the outcome is 2. */
typedef struct {
    uint32_t outcome;    /* 0: no adjust close yet, by its action or early; 1: no clock was adopted; 2: one was */
    uint32_t candidate;
    uint32_t adjuster;
    uint32_t adjustment;
    uint32_t start;      /* the candidate's start reading */
} daisarnica_ending;

/* The structs are read and written field after field, without gaps. */
typedef char daisarnica_head_fits[sizeof(daisarnica_head) == DAISARNICA_HEAD_SIZE ? 1 : -1];
typedef char daisarnica_input_fits[sizeof(daisarnica_input) == 28 ? 1 : -1];
typedef char daisarnica_frame_fits[sizeof(daisarnica_frame) == 20 ? 1 : -1];
typedef char daisarnica_ending_fits[sizeof(daisarnica_ending) == 20 ? 1 : -1];

/* Makes a fresh record of head own of n heads, of which at most f are faulty. Head 0 has the highest rank.
 * Returns 0, 3 (n or f), or 6 (own is not below n). The memory need not be set before. */
uint32_t daisarnica_fresh(daisarnica_head *head, uint32_t n, uint32_t f, uint32_t own);

/* Takes an action. Returns 0, 10, 6, 8 or 9, the first that holds in this order. Always writes the frame; after a
 * refusal it is no frame. */
uint32_t daisarnica_action(daisarnica_head *head, const daisarnica_input *input, daisarnica_frame *frame);

/* Reads how the round ended. Returns 0, or 10, and then all that is written is 0. */
uint32_t daisarnica_result(const daisarnica_head *head, daisarnica_ending *ending);

/* The correction, adjustment less start reading, between -2^28 and 2^28: the corrected clock is a reading plus it.
 * 0 unless the outcome is 2, and for a record out of its ranges. */
int64_t daisarnica_correction(const daisarnica_head *head);

/* Turns a free-running 32-bit counter into a reading: counter less base, wrapped. Returns 0, or 11, and then the
 * reading is 0. */
uint32_t daisarnica_reading(uint32_t counter, uint32_t base, uint32_t *reading);

#ifdef __cplusplus
}
#endif

#endif
