//! Random rounds: a bus with delays and losses, heads that follow the steps, and
//! clocks. A round keeps all premises, or breaks a wanted one.

use crate::random::Random;
use crate::record::Record;
use crate::step::{input, is_closed, is_spent, step, Frame};
use crate::words::{Entry, Reading, RealTime, Settings, MAX_ENTRIES, TIME_LIMIT};

const MILLION: i64 = 1_000_000;

/// Where a round stands, by the closes of its correct heads.
#[derive(Clone, Copy, PartialEq, Eq, PartialOrd, Ord)]
enum Stage {
    Voting,
    VoteClosing,
    Adjusting,
    AdjustClosing,
    After,
}

/// How a head's clock runs.
#[derive(Clone, Copy)]
enum Style {
    /// The greatest, the least or any reading that premise 2 allows.
    Greatest,
    Least,
    Any,
    Edge,
    /// A steady rate, in parts per million.
    Rate(i64),
    /// Only for faulty heads: stands still, or jumps.
    Still,
    Jumps(u64),
}

/// A head's clock. The bounds of premise 2 are kept as running extremes.
struct Clock {
    style: Style,
    steady: bool,
    drift: i64,
    base: i64,
    begun: Option<i64>,
    last: i64,
    least: i64,
    greatest: i64,
    /// Readings left before one that breaks premise 2.
    break_in: Option<u32>,
}

impl Clock {
    fn read(&mut self, random: &mut Random, now: i64) -> i64 {
        let Some(begun) = self.begun else {
            self.begun = Some(now);
            return self.keep(now, self.base);
        };
        let scaled = self.drift * now;
        let high = now + (self.least + MILLION + scaled).div_euclid(MILLION);
        let low = now - (scaled + MILLION - self.greatest).div_euclid(MILLION);
        let low = low.max(self.last);
        let high = high.max(low);
        let breaks = match &mut self.break_in {
            Some(0) => {
                self.break_in = None;
                true
            }
            Some(left) => {
                *left -= 1;
                false
            }
            None => false,
        };
        if breaks {
            if low > self.last && random.chance(1, 2) {
                return self.keep(now, low - 1);
            }
            let above = random.pick(&[1, 1, 2, 1_000]);
            return self.keep(now, high + above);
        }
        let wanted = match self.style {
            Style::Greatest => high,
            Style::Least => low,
            Style::Any => random.between(low, high),
            Style::Edge => random.pick(&[low, high]),
            Style::Rate(rate) => {
                let passed = now - begun;
                self.base + passed + (passed * rate).div_euclid(MILLION)
            }
            Style::Still => self.last,
            Style::Jumps(width) => self.last + random.below(width) as i64,
        };
        let reading = if self.steady {
            wanted.clamp(low, high)
        } else {
            wanted.clamp(self.last, i64::from(TIME_LIMIT) - 1)
        };
        self.keep(now, reading)
    }

    /// Sets the clock before its first entry.
    fn set(&mut self, now: i64, reading: i64) {
        self.base = reading;
        self.begun = Some(now);
        self.keep(now, reading);
    }

    fn keep(&mut self, now: i64, reading: i64) -> i64 {
        let offset = MILLION * (reading - now);
        self.least = self.least.min(offset - self.drift * now);
        self.greatest = self.greatest.max(offset + self.drift * now);
        self.last = reading;
        reading
    }
}

/// A frame on its way to a head: delivery action, sender, serial, head.
#[derive(Clone, Copy, PartialEq, Eq)]
struct Pending {
    action: u32,
    sender: u32,
    serial: u32,
    head: u32,
}

/// Deliveries of a start that are to be its last before the confirmation.
#[derive(Clone, Copy)]
struct Burst {
    first: u32,
    got: u32,
}

/// Which of its voluntary actions a head means to take.
#[derive(Clone, Copy)]
struct Wish {
    start: bool,
    confirm: bool,
    turn: bool,
}

/// All of them.
const EAGER: Wish = Wish {
    start: true,
    confirm: true,
    turn: true,
};

/// How faulty heads fare.
#[derive(Clone, Copy, PartialEq, Eq)]
enum Mood {
    /// They stop, and miss and lose frames.
    Wild,
    /// They do neither, so all heads may hear all.
    Tame,
    /// As tame, but some lines from or to them carry no votes, or no adjusts: heads
    /// close early where they hear all, and others by entry.
    Cut,
    /// As tame, but some stop after a vote: what it carries reaches the others, who
    /// may go on to another candidate.
    Brief,
}

#[derive(Clone, Copy)]
enum Task {
    Act(u32, u32),
    /// A head's spent action, by its place in the head's list.
    Spend(u32, usize),
    Burst(u32),
    Restart(u32),
    Must,
    May,
    Extra,
}

struct Round<'a> {
    random: &'a mut Random,
    settings: Settings,
    stage: Stage,
    now: u32,
    entries: Vec<Entry>,
    records: Vec<Record>,
    clocks: Vec<Clock>,
    wishes: Vec<Wish>,
    /// Entries that a head has left before it stops.
    left: Vec<u32>,
    /// In quarters, by sender and head.
    loss: Vec<Vec<u64>>,
    mood: Mood,
    /// Delivery action, sender and head of the lines that do not carry such frames.
    cuts: Vec<[u32; 3]>,
    /// The head to which votes come late.
    slow: Option<u32>,
    /// Heads that mean to lead: votes come to them after their own turn.
    leaders: Vec<u32>,
    /// In hundredths, how surely a turn or a vote waits for those of lower rank.
    rising: u64,
    /// By head, the votes that it sends before it stops.
    votes_left: Vec<Option<u32>>,
    /// Whether a head takes its adjust turn as soon as it has closed its votes early.
    hasty: bool,
    /// Whether, after the first close by entry, what others hear late closes them early.
    late_words: bool,
    /// By head, which of actions 6, 7 and 9 it means to take after an early close.
    spends: Vec<Vec<u32>>,
    bursts: Vec<Option<Burst>>,
    /// By sender, the heads that its start reached.
    start_reached: Vec<u32>,
    /// The heads that were delivered a vote.
    got_vote: u32,
    /// The frames sent, each with its delivery to head 0.
    frames: Vec<(Pending, Frame)>,
    /// Deliveries that premises 5 and 7 ask for before the next close, other
    /// deliveries, and those kept back on purpose.
    must: Vec<Pending>,
    may: Vec<Pending>,
    held: Vec<Pending>,
    /// Own actions, frames that must arrive, other frames, anything else.
    weights: [u64; 4],
    /// Looks and repeated deliveries left.
    extras: u32,
    /// How fast real time goes on, and whether it is near its end.
    pace: u64,
    late: bool,
    /// How long a stage may go on after all that it needs.
    linger: u64,
    /// The premise to break, in which way, of whom, and whether it is done.
    breaks: u32,
    variant: u64,
    victim: u32,
    omitted: u32,
    silent: bool,
    spent: bool,
    failed: bool,
}

/// Bounds and typical values of drift or tightness.
fn setting(random: &mut Random, limit: u64) -> u32 {
    let value = match random.below(6) {
        0 => 0,
        1 => limit,
        2 => 1 + random.below(4),
        3 => random.below(200),
        _ => random.below(limit + 1),
    };
    value as u32
}

/// Settings of a round; with `breaks` 1 too few heads are correct.
fn settings(random: &mut Random, breaks: u32) -> Settings {
    let mut n = 2 + random.below(15);
    if random.chance(1, 2) {
        n = n.min(2 + random.below(15));
    }
    let mut f = random.below((n - 1) / 2 + 1);
    if n > 2 && random.chance(1, 3) {
        f = f.max(1);
    }
    // If none is faulty and premise 5 (7) is kept, all close their votes (adjust
    // phases) early, so premise 6 (8) is never broken first.
    let needs_faulty = matches!(breaks, 6 | 8);
    if needs_faulty {
        n = n.max(3);
        f = f.max(1);
    }
    let faulty = if breaks == 1 {
        random.between(f as i64 + 1, n as i64)
    } else if needs_faulty || (f > 0 && random.chance(2, 3)) {
        random.between(1, f as i64)
    } else {
        random.between(0, f as i64)
    };
    let mut heads: Vec<u32> = (0..n as u32).collect();
    random.shuffle(&mut heads);
    if matches!(breaks, 6 | 8) && random.chance(1, 2) {
        // Head 0 is the first to be faulty.
        heads.sort_by_key(|&head| head != 0);
    }
    let correct = heads[faulty as usize..]
        .iter()
        .fold(0, |set, h| set | 1 << h);
    Settings {
        n: n as u32,
        f: f as u32,
        correct,
        drift: setting(random, 4_095),
        tightness: setting(random, 65_535),
    }
}

/// A time in the last part of the 28 bits.
fn late_time(random: &mut Random) -> i64 {
    i64::from(TIME_LIMIT) - 1 - random.between(0, 300_000)
}

/// The lines that carry no votes, no adjusts or neither: from a faulty head to some
/// correct ones, and at times from those to it.
fn faulty_cuts(random: &mut Random, settings: &Settings, breaks: u32) -> Vec<[u32; 3]> {
    let correct = settings.correct_heads();
    let faulty: Vec<u32> = (0..settings.n)
        .filter(|&x| !settings.is_correct(x))
        .collect();
    if faulty.is_empty() || correct.is_empty() {
        return Vec::new();
    }
    let actions: &[u32] = match breaks {
        6 => &[5],
        8 => &[8],
        _ => random.pick(&[&[5][..], &[8], &[5, 8]]),
    };
    let mut cuts = Vec::new();
    let x = random.pick(&faulty);
    let part = random.pick(&[0, 1, 2, 3, 4]);
    let sure = random.pick(&correct);
    let back = random.chance(1, 3);
    for head in correct {
        if head != sure && !random.chance(part, 4) {
            continue;
        }
        for &action in actions {
            cuts.push([action, x, head]);
            if back && random.chance(1, 2) {
                cuts.push([action, head, x]);
            }
        }
    }
    cuts
}

/// The heads that mean to lead: two or more, so that others change candidate when they
/// have taken votes; mostly correct ones where faulty heads are brief, and in half of
/// the other rounds none.
fn draw_leaders(random: &mut Random, settings: &Settings, mood: Mood) -> Vec<u32> {
    if mood != Mood::Brief && random.chance(1, 2) {
        return Vec::new();
    }
    let mut heads: Vec<u32> = (0..settings.n).collect();
    if mood == Mood::Brief && random.chance(3, 4) {
        heads = settings.correct_heads();
    }
    random.shuffle(&mut heads);
    heads.truncate(random.pick(&[2, 2, 3, 4]));
    heads
}

/// The votes that each head sends before it stops: one or two where faulty heads are
/// brief.
fn draw_votes_left(random: &mut Random, settings: &Settings, mood: Mood) -> Vec<Option<u32>> {
    let mut stops = |head| mood == Mood::Brief && !settings.is_correct(head) && random.chance(3, 4);
    let brief: Vec<bool> = (0..settings.n).map(&mut stops).collect();
    let votes = |stops: bool| stops.then(|| random.pick(&[1, 1, 1, 2]));
    brief.into_iter().map(votes).collect()
}

fn clock(random: &mut Random, settings: &Settings, correct: bool, late: bool) -> Clock {
    let drift = i64::from(settings.drift);
    let style = if correct {
        match random.below(5) {
            0 => Style::Greatest,
            1 => Style::Least,
            2 => Style::Any,
            3 => Style::Edge,
            _ => Style::Rate(random.between(-drift, drift)),
        }
    } else {
        match random.below(5) {
            0 => Style::Rate(random.between(-MILLION, 3 * MILLION)),
            1 => Style::Still,
            2 => Style::Jumps(3),
            3 => Style::Jumps(5_000),
            _ => Style::Jumps(1 << 24),
        }
    };
    let base = match random.below(5) {
        0 | 1 if late => late_time(random),
        0 => 0,
        1 => random.between(0, 100),
        2 => random.between(0, 1 << 27),
        _ => random.between(0, 100_000),
    };
    Clock {
        style,
        steady: correct,
        drift,
        base,
        begun: None,
        last: 0,
        least: i64::MAX / 2,
        greatest: i64::MIN / 2,
        break_in: None,
    }
}

/// The settings and entries of a random round that is meant to keep all
/// premises (`breaks` 0) or to break the one given first. None if it grew too
/// long or a clock ran out of its 28 bits; whether the premises are as meant is
/// for the judge to say.
pub fn round(random: &mut Random, breaks: u32) -> Option<(Settings, Vec<Entry>)> {
    let settings = settings(random, breaks);
    let n = settings.n;
    let all_correct: Vec<u32> = settings.correct_heads();
    // Some rounds end near the last times of 28 bits.
    let late = random.chance(1, 10);
    let mut clocks: Vec<Clock> = (0..n)
        .map(|h| clock(random, &settings, settings.is_correct(h), late))
        .collect();
    let mut left = vec![u32::MAX; n as usize];
    let mut loss = vec![vec![0; n as usize]; n as usize];
    let likely = random.pick(&[1, 3, 10]);
    let mut wishes: Vec<Wish> = (0..n)
        .map(|_| Wish {
            start: random.chance(likely, likely + 1),
            confirm: random.chance(likely, likely + 1),
            turn: random.chance(likely, likely + 1),
        })
        .collect();
    let mood = match random.below(11) {
        0..=3 => Mood::Wild,
        4 => Mood::Tame,
        5..=7 => Mood::Cut,
        _ => Mood::Brief,
    };
    let leaders = draw_leaders(random, &settings, mood);
    for &leader in &leaders {
        wishes[leader as usize] = EAGER;
    }
    let mut votes_left = draw_votes_left(random, &settings, mood);
    let mut cuts = Vec::new();
    if mood == Mood::Cut {
        cuts = faulty_cuts(random, &settings, breaks);
    }
    for x in (0..n).filter(|&x| mood == Mood::Wild && !settings.is_correct(x)) {
        if random.chance(1, 2) {
            left[x as usize] = random.below(8 * u64::from(n)) as u32;
        }
        let out = random.pick(&[0, 0, 1, 2, 3, 4]);
        let inward = random.pick(&[0, 0, 1, 2, 3, 4]);
        for y in 0..n {
            loss[x as usize][y as usize] = random.pick(&[out, out, 0, 4]);
            if y != x {
                loss[y as usize][x as usize] = random.pick(&[inward, inward, 0, 4]);
            }
        }
        let cut_off = all_correct
            .iter()
            .any(|&c| loss[x as usize][c as usize] == 4);
        wishes[x as usize].confirm &= !cut_off || random.chance(1, 2);
    }
    // For premise 6 (8), no vote (adjust) of a faulty head 0 reaches a correct head
    // before it breaks.
    let silent = matches!(breaks, 6 | 8) && !settings.is_correct(0);
    if silent {
        left[0] = u32::MAX;
        loss[0] = vec![0; n as usize];
        loss.iter_mut().for_each(|from| from[0] = 0);
        votes_left[0] = None;
        wishes[0] = EAGER;
    }
    let mut variant = random.below(3);
    let is_faultless = all_correct.len() as u32 == n;
    if breaks == 7 && variant == 0 && is_faultless {
        // Then all would close early at the adjusts that reach them.
        variant = 1;
    }
    let victim = if all_correct.is_empty() {
        0
    } else {
        random.pick(&all_correct)
    };
    let other = (victim + 1 + random.below(u64::from(n) - 1) as u32) % n;
    let mut omitted = 0;
    match breaks {
        2 => clocks[victim as usize].break_in = Some(random.below(3 * u64::from(n) + 6) as u32),
        // What the victim never hears keeps it from closing early.
        4 => {
            omitted = random.pick(&[6, 7, 9]);
            if is_faultless || random.chance(1, 2) {
                cuts.push([if omitted == 6 { 5 } else { 8 }, other, victim]);
            }
        }
        5 if variant == 0 && is_faultless && random.chance(1, 2) => {
            cuts.push([5, other, victim]);
        }
        7 if variant == 1 && is_faultless && random.chance(1, 2) => {
            cuts.push([8, other, victim]);
        }
        5 if variant == 2 => wishes.iter_mut().for_each(|w| w.turn = false),
        _ => {}
    }
    let now = match random.below(6) {
        0..=2 if late => late_time(random) as u64,
        0 => 0,
        1 => random.below(1 << 27),
        2 => random.below(100),
        _ => random.below(100_000),
    };
    // Some benches set their clocks together: readings are close, or equal.
    let is_set = random.chance(1, 8);
    if is_set {
        let (base, apart) = (clocks[0].base, random.pick(&[0, 1, 3, 50]));
        for clock in &mut clocks {
            clock.set(now as i64, base + random.between(0, apart));
        }
    }
    let slow = random
        .chance(1, 3)
        .then(|| random.below(u64::from(n)) as u32);
    let hasty = random.chance(if breaks >= 7 { 1 } else { 2 }, 3);
    let spends = (0..n)
        .map(|_| match random.below(4) {
            0 => Vec::new(),
            1 => vec![6, 7, 9],
            2 => vec![6, 6, 7, 7, 9, 9],
            _ => vec![random.pick(&[6, 7, 9])],
        })
        .collect();
    let mut round = Round {
        settings,
        stage: Stage::Voting,
        now: now as u32,
        entries: Vec::new(),
        records: (0..n).map(|h| Record::fresh(n, settings.f, h)).collect(),
        clocks,
        wishes,
        left,
        loss,
        mood,
        cuts,
        slow,
        leaders,
        rising: random.pick(&[0, 50, 95, 99, 99]),
        votes_left,
        hasty,
        late_words: random.chance(1, 3),
        spends,
        bursts: vec![None; n as usize],
        start_reached: vec![0; n as usize],
        got_vote: 0,
        frames: Vec::new(),
        must: Vec::new(),
        may: Vec::new(),
        held: Vec::new(),
        weights: [0; 4].map(|_| random.pick(&[1, 4, 16, 64])),
        extras: random.below(6 * u64::from(n)) as u32,
        pace: random.pick(match (late, is_set) {
            (_, true) => &[1, 1, 3, 40][..],
            (true, _) => &[1, 3, 40],
            _ => &[1, 3, 40, 400, 20_000],
        }),
        late,
        linger: random.pick(&[1, 5, 40]),
        breaks,
        variant,
        victim,
        omitted,
        silent,
        spent: false,
        failed: false,
        random,
    };
    round.weights[3] = round.weights[3].min(4);
    let mut steps = 0;
    while round.stage != Stage::After && !round.failed {
        steps += 1;
        round.failed |= steps > 20 * MAX_ENTRIES;
        round.move_on();
        round.advance();
        round.take();
    }
    if !round.failed {
        round.finish();
    }
    (!round.failed).then_some((settings, round.entries))
}

impl Round<'_> {
    fn record(&self, head: u32) -> &Record {
        &self.records[head as usize]
    }

    fn is_correct(&self, head: u32) -> bool {
        self.settings.is_correct(head)
    }

    fn is_stopped(&self, head: u32) -> bool {
        self.left[head as usize] == 0
    }

    fn is_open(&self, action: u32, head: u32) -> bool {
        !is_closed(self.record(head), action, 0)
    }

    /// Whether a correct head leaves out this action, for premise 4 to be broken.
    fn omits(&self, head: u32, action: u32) -> bool {
        self.omitted != 0
            && head == self.victim
            && (action == self.omitted || (self.omitted == 6 && action != 6))
    }

    /// The correct heads that took the action, closed its phase early, or leave it
    /// out.
    fn through(&self, action: u32) -> u32 {
        (0..self.settings.n)
            .filter(|&h| self.is_correct(h))
            .filter(|&h| {
                let r = self.record(h);
                let mark = match action {
                    6 => r.vote_close,
                    7 => r.adjust_turn || r.adjust_early,
                    _ => r.adjust_close,
                };
                mark || self.omits(h, action)
            })
            .fold(0, |set, h| set | 1 << h)
    }

    /// The correct heads that closed their votes (`close` 6) or their adjust phase
    /// by entry.
    fn closed_by_entry(&self, close: u32) -> u32 {
        (0..self.settings.n)
            .filter(|&h| self.is_correct(h))
            .filter(|&h| {
                let r = self.record(h);
                match close {
                    6 => r.vote_close && !r.vote_early,
                    _ => r.adjust_close && !r.adjust_early,
                }
            })
            .fold(0, |set, h| set | 1 << h)
    }

    /// After a close by entry, the correct heads still open hear all that they have
    /// missed, if that closes them all early: no other close by entry follows, so
    /// premise 6 (`close` 6) or 8 (`close` 9) is kept.
    fn hear_late(&mut self, close: u32) {
        if !self.late_words || self.closed_by_entry(close) == 0 {
            return;
        }
        let said = |r: &Record| match close {
            6 => (r.candidate, r.votes_sent),
            _ => (r.adjuster, r.adjusts_sent),
        };
        let mut missed = Vec::new();
        for head in self.settings.correct_heads() {
            let record = self.record(head);
            let is_closed = match close {
                6 => record.vote_close,
                _ => record.adjust_close,
            };
            if is_closed {
                continue;
            }
            for sender in (0..self.settings.n).filter(|&sender| sender != head) {
                let (choice, sent) = said(self.record(sender));
                if choice.is_none() || choice != said(record).0 {
                    return;
                }
                let kept = &record.kept[sender as usize];
                let (action, latest) = match close {
                    6 => (5, kept.latest_vote),
                    _ => (8, kept.latest_adjust),
                };
                if latest != choice {
                    missed.push(Pending {
                        action,
                        sender,
                        serial: sent - 1,
                        head,
                    });
                }
            }
        }
        self.random.shuffle(&mut missed);
        for p in missed {
            self.advance();
            self.deliver(p);
        }
    }

    /// Premise 5 no longer asks for the deliveries left.
    fn give_up_votes(&mut self) {
        let given_up = self.must.iter().filter(|p| p.action != 8);
        self.may.extend(given_up);
        self.must.retain(|p| p.action == 8);
    }

    /// "every correct head either took all of 1, 3 and 4 or was delivered a vote"
    fn unready(&self) -> Vec<u32> {
        (0..self.settings.n)
            .filter(|&h| self.is_correct(h))
            .filter(|&h| !self.record(h).vote_turn && (self.got_vote >> h) & 1 == 0)
            .collect()
    }

    /// The next stage, where the premises allow it or are to be broken so.
    fn move_on(&mut self) {
        let all = self.settings.correct;
        match self.stage {
            Stage::Voting => {
                let unready = self.unready();
                let early = match (self.breaks, self.variant) {
                    (5, 1) => self.random.chance(1, 60),
                    (5, 2) => self.must.is_empty() && self.random.chance(1, 15),
                    _ => false,
                };
                // Adjusts may be on their way from heads that have closed early.
                let arrived = self.must.iter().all(|p| p.action == 8);
                let ready = arrived && unready.is_empty();
                let stalled = arrived && !unready.is_empty();
                if early || (ready && self.random.chance(1, self.linger)) {
                    self.give_up_votes();
                    self.stage = Stage::VoteClosing;
                } else if stalled
                    && (self.breaks, self.variant) != (5, 2)
                    && self.random.chance(1, 3)
                {
                    let head = self.random.pick(&unready);
                    self.wishes[head as usize] = EAGER;
                }
            }
            Stage::VoteClosing => {
                self.hear_late(6);
                if self.through(6) == all {
                    self.stage = Stage::Adjusting;
                    if self.random.chance(1, 2) {
                        self.may.append(&mut self.held);
                    }
                }
            }
            Stage::Adjusting => {
                let mut through = self.through(7);
                if self.breaks == 7 && self.variant == 0 {
                    through |= 1 << self.victim;
                }
                let early = self.breaks == 7 && self.variant == 2 && self.random.chance(1, 20);
                let ready = through == all && self.must.is_empty();
                if early || (ready && self.random.chance(1, self.linger)) {
                    self.may.append(&mut self.must);
                    self.stage = Stage::AdjustClosing;
                }
            }
            Stage::AdjustClosing => {
                self.hear_late(9);
                if self.through(9) == all {
                    self.stage = Stage::After;
                }
            }
            Stage::After => {}
        }
    }

    /// Real time goes on, but not past the end of an open burst.
    fn advance(&mut self) {
        let mut passed = match self.random.below(8) {
            0..=2 => 0,
            3 => self.random.below(2),
            _ => self.random.below(self.pace),
        };
        if self.random.chance(1, 300) {
            passed = self.random.below(50 * self.pace * self.pace.min(100));
        }
        let mut now = u64::from(self.now) + passed;
        for x in 0..self.settings.n {
            if let Some(burst) = self.open_burst(x) {
                if self.is_stopped(x) {
                    self.bursts[x as usize] = None;
                } else {
                    now = now.min(u64::from(burst.first + self.settings.tightness));
                }
            }
        }
        self.now = (now as u32).max(self.now);
    }

    /// The burst of a head's start, if it misses a correct head.
    fn open_burst(&self, x: u32) -> Option<Burst> {
        let all = self.settings.correct;
        self.bursts[x as usize].filter(|b| b.got & all != all && !self.record(x).confirmed)
    }

    /// One entry of the sheet; the frame that it sends goes on its way.
    fn emit(&mut self, action: u32, head: u32, sender: u32, serial: u32) {
        if self.is_stopped(head) || self.failed {
            return;
        }
        if self.left[head as usize] != u32::MAX {
            self.left[head as usize] -= 1;
        }
        let frame = self
            .frames
            .iter()
            .find(|(p, _)| (p.action, p.sender, p.serial) == (action, sender, serial))
            .map(|&(_, frame)| frame);
        let reading = self.clocks[head as usize].read(self.random, i64::from(self.now));
        if self.entries.len() == MAX_ENTRIES
            || reading >= i64::from(TIME_LIMIT)
            || self.now >= TIME_LIMIT
        {
            self.failed = true;
            return;
        }
        let reading = Reading(reading as u32);
        let frame = frame.filter(|_| matches!(action, 2 | 5 | 8));
        let given = input(action, reading, sender, serial, frame);
        let (after, sent) = step(self.record(head), &given).expect("an open action");
        self.records[head as usize] = after;
        self.entries.push(Entry {
            time: RealTime(self.now),
            reading,
            action,
            head,
            sender,
            serial,
        });
        if action == 2 {
            self.start_reached[sender as usize] |= 1 << head;
        }
        if action == 5 {
            self.got_vote |= 1 << head;
        }
        if let Some(frame) = sent {
            self.send(head, frame);
            self.stop_after(head, frame);
        }
    }

    /// A brief head stops with the last of its votes, or a few entries later.
    fn stop_after(&mut self, head: u32, frame: Frame) {
        let Frame::Vote { serial, .. } = frame else {
            return;
        };
        if self.votes_left[head as usize] == Some(serial + 1) {
            self.left[head as usize] = self.random.pick(&[0, 0, 0, 1, 3]);
        }
    }

    /// Whether a head leaves its vote turn, for now, to leaders of lower rank.
    fn leads_later(&mut self, head: u32) -> bool {
        let lower = self.leaders.iter().filter(|&&x| x > head);
        let is_before = |&x: &u32| self.record(x).candidate.is_none() && !self.is_stopped(x);
        lower.copied().any(|x| is_before(&x)) && self.random.chance(self.rising, 100)
    }

    /// Whether a vote waits: for the turn of a head that means to lead, or for votes
    /// to the same head that name a lower rank.
    fn waits(&mut self, p: Pending) -> bool {
        if p.action != 5 || self.leaders.is_empty() {
            return false;
        }
        let h = self.record(p.head);
        let is_leader = self.leaders.contains(&p.head) && !self.is_stopped(p.head);
        if is_leader && h.candidate.is_none() && !h.vote_close {
            return self.random.chance(49, 50);
        }
        let named = |p: &Pending| {
            let is_it = |q: &Pending| (q.action, q.sender, q.serial) == (5, p.sender, p.serial);
            let sent = self.frames.iter().find(|(q, _)| is_it(q));
            sent.and_then(|(_, frame)| match frame {
                Frame::Vote { candidate, .. } => Some(*candidate),
                _ => None,
            })
        };
        let other = |q: &&Pending| q.action == 5 && q.head == p.head;
        let mut others = self.must.iter().filter(other);
        let is_behind = others.any(|q| named(q) > named(&p));
        is_behind && self.random.chance(self.rising, 100)
    }

    fn send(&mut self, sender: u32, frame: Frame) {
        let (action, serial) = match frame {
            Frame::Start => (2, 0),
            Frame::Vote { serial, .. } => (5, serial),
            Frame::Adjust { serial, .. } => (8, serial),
        };
        let late = match action {
            8 => self.stage >= Stage::AdjustClosing,
            _ => self.stage >= Stage::VoteClosing,
        };
        let to_first = Pending {
            action,
            sender,
            serial,
            head: 0,
        };
        self.frames.push((to_first, frame));
        for head in 0..self.settings.n {
            let pending = Pending { head, ..to_first };
            if head == sender && action != 2 {
                continue;
            }
            let is_asked = self.is_correct(sender) && self.is_correct(head);
            if self.cuts.contains(&[action, sender, head]) {
                // Premise 4 would be kept by an early close at its delivery.
                if self.breaks != 4 && self.random.chance(1, 2) {
                    self.held.push(pending);
                }
            } else if (is_asked || self.mood != Mood::Wild) && !late {
                self.must.push(pending);
            } else {
                self.may.push(pending);
            }
        }
    }

    /// Whether a delivery now keeps premises 3, 6 and 8.
    fn may_reach(&self, p: Pending) -> bool {
        if p.action != 2 && p.sender == p.head {
            return false;
        }
        if self.silent && !self.spent && p.action == if self.breaks == 6 { 5 } else { 8 } {
            let record = self.record(0);
            let choice = match p.action {
                5 => record.candidate,
                _ => record.adjuster,
            };
            if (p.head == 0 && choice.is_none()) || (p.sender == 0 && self.is_correct(p.head)) {
                return false;
            }
        }
        if !self.is_correct(p.head) {
            return true;
        }
        match p.action {
            2 => match self.bursts[p.sender as usize] {
                Some(burst) => {
                    !self.record(p.sender).confirmed
                        && self.now <= burst.first + self.settings.tightness
                }
                None => !self.record(p.sender).confirmed,
            },
            5 => self.stage != Stage::VoteClosing,
            _ => self.stage != Stage::AdjustClosing,
        }
    }

    fn deliver(&mut self, p: Pending) {
        if p.action == 2 {
            if let Some(burst) = &mut self.bursts[p.sender as usize] {
                burst.got |= 1 << p.head;
            }
        }
        self.emit(p.action, p.head, p.sender, p.serial);
    }

    /// The actions that heads can take by themselves now, and the deliveries that
    /// come before a confirmation.
    fn own_tasks(&mut self) -> Vec<Task> {
        let mut tasks = Vec::with_capacity(4 * self.settings.n as usize);
        // None comes if all others close early.
        let others_closed = self.through(9) | 1 << self.victim == self.settings.correct;
        let first_close = self.closed_by_entry(9) != 0 || others_closed;
        for h in 0..self.settings.n {
            if self.is_stopped(h) {
                continue;
            }
            let wish = self.wishes[h as usize];
            if wish.start && self.is_open(1, h) {
                tasks.push(Task::Act(1, h));
            }
            if wish.confirm && self.is_open(3, h) {
                let all = self.settings.correct;
                match self.bursts[h as usize] {
                    Some(burst) if burst.got & all == all => {
                        tasks.push(Task::Act(3, h));
                        if self.random.chance(1, 40) && !self.spent {
                            tasks.push(Task::Restart(h));
                        }
                    }
                    _ => tasks.push(Task::Burst(h)),
                }
            }
            if wish.turn && self.is_open(4, h) && !self.leads_later(h) {
                tasks.push(Task::Act(4, h));
            }
            for (place, &action) in self.spends[h as usize].iter().enumerate() {
                let is_spent = is_spent(&self.records[h as usize], action);
                if is_spent && self.random.chance(1, 4) {
                    tasks.push(Task::Spend(h, place));
                }
            }
            let took_turn = self.record(h).adjust_turn;
            if !self.is_correct(h) && self.mood == Mood::Wild {
                for action in [6, 7, 9] {
                    if self.is_open(action, h) && self.random.chance(1, 12) {
                        tasks.push(Task::Act(action, h));
                    }
                }
                continue;
            }
            let waits = self.breaks == 7
                && self.variant == 0
                && h == self.victim
                && !(self.stage == Stage::AdjustClosing && first_close);
            if self.stage >= Stage::VoteClosing && self.is_open(6, h) && !self.omits(h, 6) {
                tasks.push(Task::Act(6, h));
            }
            let may_turn = self.stage >= Stage::VoteClosing || self.hasty;
            if may_turn && self.is_open(7, h) && !self.omits(h, 7) && !waits {
                tasks.push(Task::Act(7, h));
            }
            if self.stage >= Stage::AdjustClosing
                && self.is_open(9, h)
                && (took_turn || self.omits(h, 7))
                && !self.omits(h, 9)
            {
                tasks.push(Task::Act(9, h));
            }
        }
        tasks
    }

    /// One task, drawn at random.
    fn take(&mut self) {
        if self.break_now() {
            return;
        }
        let own = self.own_tasks();
        let mut choices: Vec<(u64, Task)> = Vec::with_capacity(4);
        if !own.is_empty() {
            let task = self.random.pick(&own);
            choices.push((self.weights[0], task));
        }
        if !self.must.is_empty() {
            choices.push((self.weights[1], Task::Must));
        }
        if !self.may.is_empty() {
            choices.push((self.weights[2], Task::May));
        }
        if self.extras > 0 {
            choices.push((self.weights[3], Task::Extra));
        }
        let total: u64 = choices.iter().map(|c| c.0).sum();
        if total == 0 {
            return;
        }
        let mut drawn = self.random.below(total);
        for (weight, task) in choices {
            if drawn < weight {
                return self.perform(task);
            }
            drawn -= weight;
        }
    }

    fn perform(&mut self, task: Task) {
        match task {
            Task::Act(action, head) => self.emit(action, head, 0, 0),
            Task::Spend(head, place) => {
                let action = self.spends[head as usize].remove(place);
                self.emit(action, head, 0, 0);
            }
            Task::Restart(x) => self.bursts[x as usize] = None,
            Task::Burst(x) => {
                let now = self.now;
                let burst = *self.bursts[x as usize].get_or_insert(Burst { first: now, got: 0 });
                let mut missing = self.settings.correct_heads();
                missing.retain(|&h| (burst.got >> h) & 1 == 0);
                // Without a correct head a burst is whole from its start.
                if !missing.is_empty() {
                    let head = self.random.pick(&missing);
                    self.deliver(Pending {
                        action: 2,
                        sender: x,
                        serial: 0,
                        head,
                    });
                }
            }
            Task::Must => {
                let index = self.random.index(self.must.len());
                let p = self.must[index];
                if p.action == 5 && self.slow == Some(p.head) && self.random.chance(9, 10) {
                    return;
                }
                if self.waits(p) {
                    return;
                }
                self.must.swap_remove(index);
                let drops = (self.breaks == 5 && p.action != 8 && self.variant == 0
                    || self.breaks == 7 && p.action == 8 && self.variant == 1)
                    && self.is_correct(p.sender)
                    && self.is_correct(p.head);
                // A brief head is to have a reading to vote with, and no burst asks for it.
                let by_burst = self.mood != Mood::Brief || self.is_correct(p.head);
                let needless = p.action == 2
                    && ((self.start_reached[p.sender as usize] >> p.head) & 1 == 1
                        || (self.wishes[p.sender as usize].confirm && by_burst));
                if drops && !needless && !self.spent && self.random.chance(1, 4) {
                    self.spent = true;
                    self.held.push(p);
                } else if self.may_reach(p) && (!needless || self.random.chance(1, 4)) {
                    self.deliver(p);
                } else if self.record(p.sender).confirmed {
                    // Already reached, or never to be: premise 3 is broken.
                    self.held.push(p);
                } else if p.action == 2
                    && (self.start_reached[p.sender as usize] >> p.head) & 1 == 0
                {
                    // Left to the burst.
                    self.must.push(p);
                }
            }
            Task::May => {
                let index = self.random.index(self.may.len());
                let p = self.may[index];
                if !self.may_reach(p) {
                    return;
                }
                self.may.swap_remove(index);
                let loss = self.loss[p.sender as usize][p.head as usize];
                if !self.random.chance(loss, 4) {
                    self.deliver(p);
                }
            }
            Task::Extra => {
                self.extras -= 1;
                let head = self.random.below(u64::from(self.settings.n)) as u32;
                if self.frames.is_empty() || self.random.chance(1, 3) {
                    self.emit(0, head, 0, 0);
                    return;
                }
                let index = self.random.index(self.frames.len());
                let p = Pending {
                    head,
                    ..self.frames[index].0
                };
                let lost = self.loss[p.sender as usize][head as usize] == 4
                    || self.cuts.contains(&[p.action, p.sender, head]);
                if self.may_reach(p) && !lost {
                    self.deliver(p);
                }
            }
        }
    }

    /// What breaks premise 3, 6 or 8 on purpose. True if an entry was made.
    fn break_now(&mut self) -> bool {
        if self.spent || !self.random.chance(1, 3) {
            return false;
        }
        let all = self.settings.correct;
        let n = self.settings.n;
        match self.breaks {
            3 if self.variant == 0 => {
                let confirmed: Vec<u32> = (0..n).filter(|&x| self.record(x).confirmed).collect();
                if confirmed.is_empty() || !self.random.chance(1, 10) {
                    return false;
                }
                let sender = self.random.pick(&confirmed);
                let head = self.random.pick(&self.settings.correct_heads());
                self.spent = true;
                self.emit(2, head, sender, 0);
                true
            }
            3 => {
                for x in 0..n {
                    let Some(burst) = self.open_burst(x) else {
                        continue;
                    };
                    let missing = all & !burst.got;
                    if missing.count_ones() != 1 || self.is_stopped(x) {
                        continue;
                    }
                    self.spent = true;
                    if self.variant == 1 {
                        let past = self.random.pick(&[1, 1, 2, 500]);
                        let end = burst.first + self.settings.tightness;
                        self.now = self.now.max(end + past);
                        let head = missing.trailing_zeros();
                        self.deliver(Pending {
                            action: 2,
                            sender: x,
                            serial: 0,
                            head,
                        });
                    } else {
                        self.emit(3, x, 0, 0);
                    }
                    return true;
                }
                false
            }
            6 | 8 => {
                let (close, delivery) = if self.breaks == 6 { (6, 5) } else { (9, 8) };
                let through = self.through(close);
                if self.closed_by_entry(close) == 0 || through == all {
                    return false;
                }
                // A delivery that makes an open head change its choice is drawn
                // more often.
                let mut all_pairs = Vec::new();
                let mut changing = Vec::new();
                for &(p, frame) in self.frames.iter().filter(|(p, _)| p.action == delivery) {
                    for head in self.settings.correct_heads() {
                        let p = Pending { head, ..p };
                        if p.sender != head {
                            all_pairs.push(p);
                            if (through >> head) & 1 == 0 && self.changes_choice(head, frame) {
                                changing.push(p);
                            }
                        }
                    }
                }
                if all_pairs.is_empty() {
                    return false;
                }
                let p = if changing.is_empty() || self.random.chance(1, 4) {
                    self.random.pick(&all_pairs)
                } else {
                    self.random.pick(&changing)
                };
                self.spent = true;
                self.deliver(p);
                true
            }
            _ => false,
        }
    }

    /// Whether a frame carries a candidate or adjuster above the head's own.
    fn changes_choice(&self, head: u32, frame: Frame) -> bool {
        let record = self.record(head);
        match frame {
            Frame::Start => false,
            Frame::Vote { candidate, .. } => record.candidate.is_none_or(|c| candidate < c),
            Frame::Adjust { adjuster, .. } => record.adjuster.is_none_or(|a| adjuster < a),
        }
    }

    /// The spent actions that a head still means to take.
    fn spend_rest(&mut self, head: u32) {
        let mut rest = std::mem::take(&mut self.spends[head as usize]);
        rest.retain(|&action| is_spent(self.record(head), action));
        for action in rest {
            self.advance();
            self.emit(action, head, 0, 0);
        }
    }

    /// After the last correct close: late frames, other entries, and looks in the
    /// same microsecond.
    fn finish(&mut self) {
        self.may.append(&mut self.held);
        for burst in &mut self.bursts {
            *burst = None;
        }
        for head in 0..self.settings.n {
            if self.random.chance(1, 2) {
                self.spend_rest(head);
            }
        }
        for _ in 0..self.random.below(4) {
            for _ in 0..self.random.below(2 * u64::from(self.settings.n)) {
                self.advance();
                self.take();
            }
            for x in 0..self.settings.n {
                if self.open_burst(x).is_some() {
                    self.bursts[x as usize] = None;
                }
            }
            self.advance();
            if self.random.chance(1, 3) {
                let width = if self.late { 1 << 12 } else { 1 << 22 };
                self.now += self.random.below(width) as u32;
            }
            let mut heads: Vec<u32> = (0..self.settings.n).collect();
            self.random.shuffle(&mut heads);
            for head in heads {
                if self.random.chance(9, 10) {
                    self.emit(0, head, 0, 0);
                }
                if self.random.chance(1, 10) {
                    self.emit(0, head, 0, 0);
                }
            }
        }
    }
}
