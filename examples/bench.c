/* bench ROUNDS SEED [sheet]: rounds of a simulated bench, of the seeds from SEED on. Every head runs the library; the
 * recorder's sheet is replayed and judged, and must tell what the boards themselves say.
 *
 * One round is shown as a table, or, with the word sheet, its sheet is written as big-endian words, as the programs replay
 * and trace read it; of several there is a report. Ends with 1 if something is not as it must be: a sheet that is not
 * written or not accepted, an ending or a count of frames that the replay tells otherwise, a look from which the next
 * round's clock would not go on, a refused call that changed something; or, with all premises kept, correct heads without
 * one common clock, or farther apart than the bound. */
#include <stdio.h>
#include <stdlib.h>
#include <string.h>

#include "bench/bench.h"
#include "write_words.h"

static bench b;
static uint32_t sheet[DAISARNICA_SHEET_WORDS], out[DAISARNICA_RESULT_WORDS];

/* The corrected clocks of two correct heads in one microsecond: how far they are apart, and how far they may be. */
typedef struct {
    uint32_t first, second, at;
    int64_t apart, bound;
} distance;

/* What a round came to. */
typedef struct {
    daisarnica_ending ending[MOST_HEADS]; /* what the boards say */
    int64_t correction[MOST_HEADS];
    int looked;
    distance farthest;
    int64_t room;                         /* the least that a bound leaves above its distance */
    uint32_t written, judged, answer[DAISARNICA_ANSWER_NUMBERS];
    uint32_t otherwise;                   /* heads of which the replay tells otherwise */
    uint32_t stray;                       /* looks from which the next round's clock would not go on */
} result;

static void read_endings(result *r)
{
    uint32_t h;

    for (h = 0; h < b.set.n; h++) {
        daisarnica_result(&b.heads[h].w.record, &r->ending[h]);
        r->correction[h] = daisarnica_correction(&b.heads[h].w.record);
    }
}

/* The bound in whole microseconds: tightness + 2, and the drift since each of the two last received the chosen start. */
static int64_t bound_of(uint32_t first, uint32_t second, uint32_t candidate)
{
    uint64_t since = 2 * (uint64_t)b.now - b.heads[first].received[candidate] - b.heads[second].received[candidate];

    return (int64_t)(b.tightness + 2 + b.drift * since / MILLION);
}

static void compare_clocks(result *r, uint32_t first, uint32_t second)
{
    distance d;

    d.first = first;
    d.second = second;
    d.at = b.now;
    d.apart = llabs((int64_t)b.heads[first].last + r->correction[first] - b.heads[second].last - r->correction[second]);
    d.bound = bound_of(first, second, r->ending[first].candidate);
    if (!r->looked || d.apart > r->farthest.apart) r->farthest = d;
    if (!r->looked || d.bound - d.apart < r->room) r->room = d.bound - d.apart;
    r->looked = 1;
}

static int has_clock(const result *r, uint32_t h) { return b.heads[h].correct && r->ending[h].outcome == 2; }

static void compare_with_lower(result *r, uint32_t h)
{
    uint32_t lower;

    for (lower = 0; lower < h; lower++)
        if (has_clock(r, lower) && r->ending[lower].candidate == r->ending[h].candidate) compare_clocks(r, lower, h);
}

/* By the next round's base, with the start time for an interval, a head's counter reads as its corrected clock. */
static int goes_on(const result *r, uint32_t h)
{
    const head *own = &b.heads[h];
    uint32_t interval = b.set.start_time, reading;
    int64_t corrected = (int64_t)own->last + r->correction[h];
    uint32_t cause = daisarnica_reading(counter_at(own, b.now), firmware_next_base(&own->w, interval), &reading);

    return cause == DAISARNICA_DONE && reading == corrected - interval;
}

/* All heads look in one microsecond; of the correct ones every two that have a clock of the same candidate are compared. */
static void look_and_compare(result *r)
{
    uint32_t h;

    look(&b, b.now + 1 + pick(&b, pick(&b, 2) ? 20 * MILLION : 1000));
    for (h = 0; h < b.set.n; h++) {
        if (!has_clock(r, h)) continue;
        compare_with_lower(r, h);
        r->stray += !goes_on(r, h);
    }
}

/* What the board says of head h is what the replay tells of it; and so are the frames that went to its controller. */
static int tells(const result *r, uint32_t h)
{
    const daisarnica_ending *x = &r->ending[h];
    const uint32_t *sent = b.heads[h].frames;
    const int64_t says[DAISARNICA_TOLD_NUMBERS] = {x->outcome, x->candidate, x->adjuster, x->adjustment, x->start,
                                                   r->correction[h], sent[0], sent[1], sent[2]};
    int64_t told[DAISARNICA_TOLD_NUMBERS];

    return daisarnica_plan(b.set.n, h, out, DAISARNICA_WORDS_A_HEAD * (size_t)b.set.n, told) == DAISARNICA_READ &&
           !memcmp(says, told, sizeof told);
}

static void judge(result *r)
{
    uint32_t h;

    r->written = daisarnica_write_sheet(b.set.n, b.set.f, correct_bits(&b), b.drift, b.tightness, b.numbers, b.count, sheet,
                                        DAISARNICA_SHEET_WORDS);
    r->judged = daisarnica_replay_and_judge(sheet, 2 + b.count / 2, out, DAISARNICA_RESULT_WORDS, r->answer);
    for (h = 0; h < b.set.n; h++) r->otherwise += !tells(r, h);
}

static result play(uint32_t seed)
{
    result r;
    uint32_t looks;

    memset(&r, 0, sizeof r);
    draw(&b, seed);
    run(&b);
    read_endings(&r);
    for (looks = 1 + pick(&b, 3); looks; looks--) look_and_compare(&r);
    judge(&r);
    return r;
}

static int accepted(const result *r)
{
    return r->written == DAISARNICA_WRITTEN && r->answer[DAISARNICA_REPLAY_CAUSE] == 0 && r->judged < DAISARNICA_UNJUDGED;
}

/* The ending of the first correct head. There may be none. */
static const daisarnica_ending *first_ending(const result *r)
{
    uint32_t h = 0;

    while (h < b.set.n && !b.heads[h].correct) h++;
    return h < b.set.n ? &r->ending[h] : NULL;
}

/* Every correct head has a clock, all of the same candidate, adjuster and adjustment. */
static int agreed(const result *r)
{
    const daisarnica_ending *one = first_ending(r);
    uint32_t h;

    for (h = 0; h < b.set.n; h++) {
        const daisarnica_ending *x = &r->ending[h];

        if (!b.heads[h].correct) continue;
        if (x->outcome != 2 || x->candidate != one->candidate) return 0;
        if (x->adjuster != one->adjuster || x->adjustment != one->adjustment) return 0;
    }
    return 1;
}

static int is_right(const result *r)
{
    int kept = r->judged == 0;

    return accepted(r) && !r->otherwise && !r->stray && !b.changed && !(kept && (!agreed(r) || (r->looked && r->room < 0)));
}

static void print_state(const head *h)
{
    if (h->correct) printf("correct");
    else printf("faulty:");
    if (h->stops != NEVER) printf(" stops at %lu", (unsigned long)h->stops);
    if (h->lost) printf(" loses frames");
    if (h->missed) printf(" misses frames");
    if (h->slow) printf(" sends late");
    if (h->dead) printf(" no timer for action %lu", (unsigned long)h->dead);
    if (h->latency > b.tightness) printf(" reads late");
    if (labs((long)h->rate - (long)MILLION) > (long)b.drift) printf(" crystal off");
    putchar('\n');
}

static void print_head(const result *r, uint32_t h)
{
    static const char *const outcomes[] = {"open", "no clock", "adopted"};
    const daisarnica_ending *x = &r->ending[h];
    const uint32_t *sent = b.heads[h].frames;

    printf("%4lu %+7ld  %-8s", (unsigned long)h, (long)b.heads[h].rate - (long)MILLION, outcomes[x->outcome]);
    if (x->outcome == 2)
        printf(" %9lu %8lu %10lu %10ld", (unsigned long)x->candidate, (unsigned long)x->adjuster,
               (unsigned long)x->adjustment, (long)r->correction[h]);
    else
        printf(" %9s %8s %10s %10s", "-", "-", "-", "-");
    printf(" %6lu %5lu %7lu  ", (unsigned long)sent[0], (unsigned long)sent[1], (unsigned long)sent[2]);
    print_state(&b.heads[h]);
}

static void print_changed(void) { printf("refused calls that changed something: %lu\n", (unsigned long)b.changed); }

/* What a head must refuse, shown at the first one that has taken an action. */
static void print_refusals(void)
{
    static const char *const inputs[BAD_INPUTS] = {"a frame that no head sent", "a counter past its base",
                                                   "a reading that fell", "a damaged record"};
    uint32_t h = 0, which;

    while (h < b.set.n && !b.heads[h].last) h++;
    for (which = 0; h < b.set.n && which < BAD_INPUTS; which++)
        printf("head %lu is given %s: refused with cause %lu\n", (unsigned long)h, inputs[which],
               (unsigned long)refuse(&b, h, which));
}

static void print_round(const result *r, uint32_t seed)
{
    const distance *d = &r->farthest;
    uint32_t h;

    printf("seed %lu: %lu heads of which at most %lu are faulty, drift %lu ppm, tightness %lu us, %lu kbit/s\n",
           (unsigned long)seed, (unsigned long)b.set.n, (unsigned long)b.set.f, (unsigned long)b.drift,
           (unsigned long)b.tightness, 1000 / (unsigned long)b.bit);
    printf("head     ppm  outcome  candidate adjuster adjustment correction starts votes adjusts\n");
    for (h = 0; h < b.set.n; h++) print_head(r, h);
    if (r->looked)
        printf("farthest apart at %lu us: heads %lu and %lu, %ld us of at most %ld us\n", (unsigned long)d->at,
               (unsigned long)d->first, (unsigned long)d->second, (long)d->apart, (long)d->bound);
    if (accepted(r) && r->judged) printf("premise %lu is broken\n", (unsigned long)r->judged);
    if (accepted(r) && !r->judged) printf("all premises are kept\n");
    if (!accepted(r)) printf("the sheet is refused: %lu\n", (unsigned long)r->answer[DAISARNICA_REPLAY_CAUSE]);
    printf("heads of which the replay tells otherwise: %lu\n", (unsigned long)r->otherwise);
    printf("looks from which the next round's clock would not go on: %lu\n", (unsigned long)r->stray);
}

/* The report of many rounds. */
typedef struct {
    unsigned long rounds, entries, longest, wrapped, heads, refused_sheets, otherwise, stray, refused[CAUSES], changed;
    unsigned long broken[9], first[9];      /* by the first broken premise, 0 for none */
    unsigned long divided[2], above[2];     /* without one common clock, and above the bound: kept, and broken */
    unsigned long faulty, led, again, repeated; /* kept ones: with faulty heads, led by another head than 0, in which a head
                                                 * voted again, in which a start was received again */
    int64_t room;                           /* the least below the bound in a kept one */
} report;

static int any_wrapped(void)
{
    uint32_t h;

    for (h = 0; h < b.set.n; h++)
        if (counter_at(&b.heads[h], b.now) < b.heads[h].counter) return 1;
    return 0;
}

static int voted_again(void)
{
    uint32_t h;

    for (h = 0; h < b.set.n; h++)
        if (b.heads[h].frames[1] > 1) return 1;
    return 0;
}

static void add_kept(report *p, const result *r)
{
    p->faulty += correct_bits(&b) != (1u << b.set.n) - 1;
    p->led += first_ending(r)->candidate != 0;
    p->again += voted_again();
    p->repeated += b.repeated != 0;
    if (r->looked && r->room < p->room) p->room = r->room;
}

static void add_judged(report *p, const result *r, uint32_t seed)
{
    int broken = r->judged != 0;

    if (!p->broken[r->judged]++) p->first[r->judged] = seed;
    p->divided[broken] += !agreed(r);
    p->above[broken] += r->looked && r->room < 0;
    if (!broken) add_kept(p, r);
}

static void add(report *p, const result *r, uint32_t seed)
{
    unsigned long entries = b.count / DAISARNICA_ENTRY_NUMBERS;
    size_t i;

    p->rounds++;
    p->refused_sheets += !accepted(r);
    p->heads += b.set.n;
    p->otherwise += r->otherwise;
    p->stray += r->stray;
    p->wrapped += any_wrapped();
    p->entries += entries;
    p->changed += b.changed;
    if (entries > p->longest) p->longest = entries;
    for (i = 0; i < CAUSES; i++) p->refused[i] += b.refused[i];
    if (accepted(r)) add_judged(p, r, seed);
}

static void print_report(const report *p)
{
    size_t i;

    printf("rounds %lu, of %lu entries in all and %lu at most; in %lu a counter wrapped\n", p->rounds, p->entries,
           p->longest, p->wrapped);
    printf("all premises kept %lu, of these with faulty heads %lu, led by another head than 0 %lu,\n", p->broken[0],
           p->faulty, p->led);
    printf("  with a head that voted again %lu, with a start received again %lu\n", p->again, p->repeated);
    for (i = 1; i <= 8; i++) printf("premise %d broken %lu, first by seed %lu\n", (int)i, p->broken[i], p->first[i]);
    printf("without one common clock: kept %lu, broken %lu\n", p->divided[0], p->divided[1]);
    printf("above the bound: kept %lu, broken %lu; least room below it in a kept one %ld us\n", p->above[0], p->above[1],
           (long)p->room);
    printf("sheets refused %lu\n", p->refused_sheets);
    printf("heads of which the replay tells otherwise %lu of %lu\n", p->otherwise, p->heads);
    printf("looks from which the next round's clock would not go on %lu\n", p->stray);
}

static void print_refused(const report *p)
{
    size_t i;

    printf("calls refused:");
    for (i = 0; i < CAUSES; i++)
        if (p->refused[i]) printf(" %lu with cause %d,", p->refused[i], (int)i);
    printf(" %lu of them changed something\n", p->changed);
}

/* From so many rounds on each premise must have been broken, and each sort of kept round met. */
#define ALL_MET 10000

static int all_met(const report *p)
{
    size_t i;

    for (i = 0; i <= 8; i++)
        if (!p->broken[i]) return 0;
    return p->faulty && p->led && p->again && p->repeated;
}

static int play_many(uint32_t rounds, uint32_t seed)
{
    report p;
    uint32_t i;
    int right = 1;

    memset(&p, 0, sizeof p);
    p.room = INT64_MAX;
    for (i = 0; i < rounds; i++) {
        result r = play(seed + i);

        add(&p, &r, seed + i);
        if (!is_right(&r)) {
            right = 0;
            print_round(&r, seed + i);
            print_changed();
        }
    }
    print_report(&p);
    print_refused(&p);
    return right && (rounds < ALL_MET || all_met(&p));
}

/* A whole number up to most, or most + 1 for what is none. */
static uint32_t number(const char *text, uint32_t most)
{
    char *end;
    unsigned long x = strtoul(text, &end, 10);

    return *text < '0' || *text > '9' || *end || x > most ? most + 1 : (uint32_t)x;
}

int main(int argc, char **argv)
{
    const uint32_t most = 1000000000;
    uint32_t rounds = argc > 1 ? number(argv[1], most) : 0, seed = argc > 2 ? number(argv[2], most) : 0;
    int writes = argc == 4 && !strcmp(argv[3], "sheet"), right;
    result r;

    if (argc < 3 || argc > 4 || (argc == 4 && !(writes && rounds == 1)) || !rounds || rounds > most || seed > most) {
        fprintf(stderr, "usage: bench ROUNDS SEED, or bench 1 SEED sheet\n");
        return 2;
    }
    if (rounds > 1) return play_many(rounds, seed) && !fflush(stdout) ? 0 : 1;
    r = play(seed);
    right = is_right(&r);
    if (writes) return write_words(sheet, 2 + b.count / 2) || !right;
    print_round(&r, seed);
    print_refusals();
    print_changed();
    return right && !b.changed && !fflush(stdout) ? 0 : 1;
}
