/* daisarnica_sheet.h: whole run sheets for programs written in C: one is written from its fields, drafted for practice, or
 * replayed and judged; and two readers of the result words that a replay leaves: a carriage display's and a bus planner's.
 *
 * A call takes no other memory than what is lent to it and at most some 14 KB of stack, has no state between calls, and
 * always returns. It needs memcpy and memset and nothing else.
 *
 * Every input has an answer: what is against the rules is turned back with its cause; the buffer is then left as it was,
 * and the numbers of a reader are all 0. What the caller owes: each pointer is to memory of its own that holds as many
 * words or numbers as are said, and the parts of one call do not overlap. */
#ifndef DAISARNICA_SHEET_H
#define DAISARNICA_SHEET_H

#include <stddef.h>
#include <stdint.h>

#ifdef __cplusplus
extern "C" {
#endif

/* A sheet has 2 words and 3 for each of at most 4,096 entries. There are 4 result words for each of at most 16 heads. */
#define DAISARNICA_SHEET_WORDS 12290
#define DAISARNICA_WORDS_A_HEAD 4
#define DAISARNICA_RESULT_WORDS 64

/* A recorder gives six numbers for each entry. */
#define DAISARNICA_ENTRY_NUMBERS 6
#define DAISARNICA_SHEET_NUMBERS (DAISARNICA_ENTRY_NUMBERS * 4096)

/* The words of a drafted sheet of n heads: 2,498 for 16 heads, the most. */
#define DAISARNICA_DRAFT_WORDS(n) (2 + 3 * (3 * (n) * (n) + 4 * (n)))

/* The causes for which a sheet is not written (all but 13) or not drafted (3, 5 and 13); 0 is for one that was. */
enum {
    DAISARNICA_WRITTEN = 0,
    DAISARNICA_TOO_MANY_NUMBERS = 1,  /* more than DAISARNICA_SHEET_NUMBERS */
    DAISARNICA_NOT_WHOLE_ENTRIES = 2, /* a count that is not a whole number of sixes */
    DAISARNICA_BAD_FIRST_WORD = 3,    /* n not 2 to 16, 2 f + 1 above n, or a correct bit at n or above */
    DAISARNICA_SHORT_BUFFER = 5,      /* out_words below 2 + 3 for each entry */
    DAISARNICA_BAD_ENTRY = 6,         /* an action above 9, or a head or sender not below n */
    DAISARNICA_BAD_FIELD = 12,        /* a number too large for its field, or not 0 where the field is not used */
    DAISARNICA_TIME_TOO_FAR = 13      /* a draft whose last real time would be 2^28 or more */
};

/* Writes the run sheet of n heads of which at most f are faulty, with a bit of correct for each correct head (bit 0 for
 * head 0), drift in parts per million and tightness in microseconds, and of count / 6 entries into the buffer out of
 * out_words words. An entry's six numbers are real time, reading, head, action, sender, serial; the sender is 0 except in
 * actions 2, 5 and 8, the serial except in 5 and 8. The sheet has 2 + count / 6 * 3 words; words behind it are left as
 * they were.
 *
 * Widths of the fields in bits: n 8, f 4, correct 16, drift 12, tightness 16, real time and reading 28, the others 4.
 *
 * Returns 0 or a cause: the first that applies of 1, 2, 12, 3, 6 and 5, in this order. Nothing is written then. The
 * order of times and readings and whether an action is open are not asked: those are for the replay.
 *
 * If it returns 0, the sheet is not turned back by causes 1 to 4 or 6, it is read back as the same fields, and no other
 * words are. */
uint32_t daisarnica_write_sheet(uint32_t n, uint32_t f, uint32_t correct, uint32_t drift, uint32_t tightness,
                                const uint32_t *numbers, size_t count, uint32_t *out, size_t out_words);

/* Drafts a sheet to practise with before a bench is wired: the faultless round of n heads, with f in its first word and
 * drift and tightness 0, into the buffer out of out_words words. All heads are correct, every clock shows the real time,
 * every frame is delivered, and every head takes all six timed actions: 1 by all, the starts' deliveries, 3 by all; 4 by
 * head 0, its vote's deliveries, 4 by the others, their votes' deliveries, 6 by all; 7, the adjusts and 9 in the same
 * manner. Senders and then receivers rise by number.
 *
 * The first entry is at the real time first; from each entry to the next it moves on by spacing, which may be 0, but the
 * deliveries of one frame share theirs: there are 9 n real times. The sheet has DAISARNICA_DRAFT_WORDS(n) words; words
 * behind it are left as they were.
 *
 * Returns 0 or a cause: the first that applies of 3, 13 and 5, in this order. Nothing is written then. The last real time,
 * first + spacing * (9 n - 1), is not wrapped.
 *
 * If it returns 0, the judge finds every premise kept: daisarnica_replay_and_judge returns 0 for the sheet. This is proved
 * for all n, f, first and spacing. */
uint32_t daisarnica_draft_sheet(uint32_t n, uint32_t f, uint32_t first, uint32_t spacing, uint32_t *out,
                                size_t out_words);

/* Where the numbers of an answer stand. A cause is 1 to 9; its place is the index of the refused entry's first word, and
 * 0 for what concerns the sheet as a whole. Each number is 0 where there is none. */
enum {
    DAISARNICA_REPLAY_CAUSE = 0,
    DAISARNICA_REPLAY_PLACE = 1,
    DAISARNICA_JUDGE_CAUSE = 2,
    DAISARNICA_JUDGE_PLACE = 3,
    DAISARNICA_BROKEN_PREMISE = 4, /* the first broken one, 1 to 8 */
    DAISARNICA_ANSWER_NUMBERS = 5
};

/* The judge's number is this much above its cause, where it turned the sheet back. */
#define DAISARNICA_UNJUDGED 16

/* Replays a sheet of so many words, writes the heads' result words into the buffer out of out_words words, and judges
 * the sheet. The replay asks for a buffer of 4 words a head (cause 5); the judge does not. Words of the buffer behind
 * the heads' are left as they were.
 *
 * The result words come in the order of the heads, four for each. The top four bits of a word are its kind:
 *   kind 6: outcome in bits 27 to 24, head in 23 to 20, candidate in 19 to 16, adjuster in 15 to 12; the outcome is 0 if the
 *           adjust phase did not close, 1 if the head adopted no clock, 2 if it did
 *   kind 7: adjustment in bits 27 to 0
 *   kind 8: the candidate's start reading in bits 27 to 0
 *   kind 9: starts in bits 27 to 20, votes in 19 to 12, adjusts in 11 to 4: the frames that the head broadcast, each counted
 *           once, however often it was delivered
 * All other bits are 0. Candidate, adjuster, adjustment and start reading are 0 unless the outcome is 2; the counts of kind
 * 9 stand whatever the outcome.
 *
 * Always writes the five numbers of the answer. Returns the judge's answer in one number: 0 if the sheet keeps all
 * premises, 1 to 8 for the first broken premise, 17 to 25 (DAISARNICA_UNJUDGED + cause) if the sheet is turned back.
 *
 * If it returns 0 and the replay's cause is 0, the result words show that every correct head adopted a clock, all with
 * the same candidate, adjuster and adjustment, and their corrected clocks are within the bound. */
uint32_t daisarnica_replay_and_judge(const uint32_t *sheet, size_t words, uint32_t *out, size_t out_words,
                                     uint32_t answer[DAISARNICA_ANSWER_NUMBERS]);

/* Where the numbers of a reader stand. The display shows the first six, the planner's reader tells all nine. */
enum {
    DAISARNICA_OUTCOME = 0,
    DAISARNICA_CANDIDATE = 1,
    DAISARNICA_ADJUSTER = 2,
    DAISARNICA_ADJUSTMENT = 3,
    DAISARNICA_START_READING = 4,
    DAISARNICA_CORRECTION = 5, /* adjustment less start reading, signed; 0 unless the outcome is 2 */
    DAISARNICA_SHOWN_NUMBERS = 6,
    DAISARNICA_STARTS = 6,
    DAISARNICA_VOTES = 7,
    DAISARNICA_ADJUSTS = 8,
    DAISARNICA_TOLD_NUMBERS = 9
};

/* The causes for which a reader turns words back; 0 is for words that were read. */
enum {
    DAISARNICA_READ = 0,
    DAISARNICA_WRONG_LENGTH = 2, /* not as many words as n heads have */
    DAISARNICA_NO_SUCH_HEAD = 3, /* n not 2 to 16, or head not below n */
    DAISARNICA_WRONG_KIND = 6    /* a word whose kind is not that of its place, of any head's words */
};

/* The carriage display: shows how the round ended for one head of n, from count result words. It passes over words of
 * kinds other than 6 to 8, wherever they stand and however many; the others are to be three words a head, of kinds 6, 7
 * and 8 in this order. So it reads what a replay leaves and also an old file of three words a head, and shows the same.
 *
 * Always writes the six numbers. Returns 0 or a cause: the first that applies of 3, 2 and 6, in this order. All numbers are
 * 0 then. All but the correction are the fields as they stand in the words; the head in a word, a number that is no outcome
 * and bits that should be 0 are not asked.
 *
 * Of what a replay leaves it shows what the program replay prints, for every head below n. */
uint32_t daisarnica_display(uint32_t n, uint32_t head, const uint32_t *words, size_t count,
                            int64_t shown[DAISARNICA_SHOWN_NUMBERS]);

/* The planner's reader: tells the same of one head of n, and the frames that it broadcast, from count result words. It
 * wants all four words a head, of kinds 6, 7, 8 and 9 in this order, and no others.
 *
 * Always writes the nine numbers. Returns 0 or a cause, as the display does. Where it returns 0, the display returns 0 for
 * the same words, and shows the same six numbers. */
uint32_t daisarnica_plan(uint32_t n, uint32_t head, const uint32_t *words, size_t count,
                         int64_t told[DAISARNICA_TOLD_NUMBERS]);

#ifdef __cplusplus
}
#endif

#endif
