/* bad_input.c: what a head must refuse: a frame on the bus that no head sent, a counter past its base, a reading that fell,
 * a record damaged in memory. Each call gives its cause and leaves record and timers as they were, so a round goes on as if
 * it had not been made. */
#include <string.h>

#include "bench.h"

/* A frame of the protocol and this round that no head can have sent: its choice is no head, or, on a bench of all sixteen,
 * it carries a number of 2^28. */
static can_frame no_heads_frame(const firmware *w)
{
    can_frame c;

    memset(&c, 0, sizeof c);
    c.id = CAN_PROTOCOL | 1u << 4 | (w->own ? 0 : 1);
    c.data[2] = (uint8_t)(w->set.number >> 8);
    c.data[3] = (uint8_t)w->set.number;
    if (w->set.n < MOST_HEADS)
        c.data[0] = 15;
    else
        c.data[4] = 16;
    return c;
}

static event bad_call(head *h, uint32_t counter, uint32_t which)
{
    firmware *w = &h->w;
    can_frame frame = no_heads_frame(w);

    switch (which) {
    case NO_HEADS_FRAME: return firmware_frame(w, &frame, counter);
    case COUNTER_PAST_BASE: return firmware_timer(w, DAISARNICA_LOOK, w->base + (1u << 28));
    case READING_THAT_FELL: return firmware_timer(w, DAISARNICA_LOOK, w->base + h->last - 1);
    default: return firmware_timer(w, DAISARNICA_LOOK, counter);
    }
}

/* A record is damaged by a bit that no number in it may have, and mended afterwards, as from a copy that was kept aside. */
uint32_t refuse(bench *b, uint32_t h, uint32_t which)
{
    static const uint32_t causes[BAD_INPUTS] = {DAISARNICA_BAD_NUMBER, DAISARNICA_COUNTER_TOO_FAR, DAISARNICA_READING_FELL,
                                                DAISARNICA_BAD_RECORD};
    firmware *w = &b->heads[h].w, before;
    uint32_t damage = which == DAMAGED_RECORD ? 1u << 31 : 0;
    uint32_t *number = &w->record.opaque[pick(b, DAISARNICA_HEAD_SIZE / 4)];
    event x;

    *number ^= damage;
    before = *w;
    x = bad_call(&b->heads[h], counter_at(&b->heads[h], b->now), which);
    b->refused[x.cause]++;
    b->changed += x.cause != causes[which] || memcmp(&before, w, sizeof before) != 0;
    *number ^= damage;
    return x.cause;
}
