/* firmware.h: the firmware of one head: which event of its CAN controller and timers is which action of daisarnica.h, and
 * the frames as they go over CAN. docs/FIRMWARE.md has the same in words. The layout on CAN is an application note; the
 * specification leaves it open.
 *
 * It touches no hardware: the board hands it each event with the counter at that moment, in the order in which they came,
 * and looks afterwards when the next timer runs out and whether there is a frame to send. examples/bench.c does so for a
 * simulated bench. */
#ifndef FIRMWARE_H
#define FIRMWARE_H

#include "daisarnica.h"

/* A CAN frame with an 11-bit identifier and 8 data bytes. Of two identifiers the lower one wins the bus. */
typedef struct {
    uint32_t id;
    uint8_t data[8];
} can_frame;

/* Identifier: bits 10 to 6 the protocol's, chosen for the bench; 5 and 4 the phase, 0 adjust, 1 vote, 2 start, so that a
 * later phase goes first; 3 to 0 the sender, so that of one phase the higher rank goes first.
 * Data: byte 0 the serial in bits 7 to 4 and the choice in 3 to 0, byte 1 the mark none, 2 and 3 the round's number, 4 to 7
 * what is carried, the highest byte first. */
#define CAN_PROTOCOL 0x100u
#define CAN_PROTOCOL_BITS 0x7C0u

/* What one round is set to, at all heads alike. Times are microseconds of the head's own clock. */
typedef struct {
    uint32_t n, f;
    uint32_t number;      /* of the round, below 2^16 */
    uint32_t start_time;  /* the reading at which to send the start */
    uint32_t guard;       /* from the confirmation of one's own start to action 3, the tightness at least */
    uint32_t turn;        /* from a rank's turn to the next one's: a frame is sent and taken in it */
    uint32_t vote_time;   /* from the first frame of the round to the vote close */
    uint32_t adjust_time; /* from the first frame of the round to the adjust close */
} round_settings;

/* The actions that a timer brings: 1, 3, 4, 6, 7 and 9; due has the reading at which each of them is due. */
#define ACTIONS 10
#define NOT_DUE UINT32_MAX

typedef struct {
    daisarnica_head record;
    round_settings set;
    uint32_t own;           /* the head's number */
    uint32_t base;          /* the counter at which its clock shows 0 */
    uint32_t due[ACTIONS];
    int closing;            /* the timers of both closes have been started */
} firmware;

/* What an event came to. If taken is 0, nothing has changed: the library refused it for the cause, or, if that is 0 too, the
 * frame was none for it. If frame.action is not 0, out is to be sent: it is frame, laid out for CAN. */
typedef struct {
    int taken;
    uint32_t cause;
    daisarnica_input input;
    daisarnica_frame frame;
    can_frame out;
} event;

/* Begins a round at head own with a fresh record. Returns 0, or the cause that daisarnica_fresh gives. */
uint32_t firmware_begin(firmware *w, const round_settings *set, uint32_t own, uint32_t base);

/* The action whose timer has run out, the one that was due first; 0 if there is none. */
uint32_t firmware_due(const firmware *w, uint32_t counter);

/* The timer of this action has run out; also for action 0, a look at the clock at any time. */
event firmware_timer(firmware *w, uint32_t action, uint32_t counter);

/* A frame was received, one's own too. */
event firmware_frame(firmware *w, const can_frame *in, uint32_t counter);

/* The controller confirms that this frame of one's own was sent. */
void firmware_confirmed(firmware *w, const can_frame *sent, uint32_t counter);

/* The base for the next round, which begins one interval after this one: by it the clock in use is this round's corrected
 * clock less the interval. To be taken once the corrected clock has passed the interval. */
uint32_t firmware_next_base(const firmware *w, uint32_t interval);

#endif
