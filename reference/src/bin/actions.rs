//! `actions SEED COUNT`: takes random sequences of actions, at least COUNT of them,
//! at one head of the proved static library and of the reference, and compares all
//! that can be seen of both after each. Now and then the record's memory is damaged
//! first, or made one to which all have spoken, one with a vote reading beside any
//! latest vote, one whose latest votes name a higher rank than its candidate, or one at
//! its adjust turn with any number of vote readings. Stops at the first difference;
//! fails too if 1,000,000 actions or more never had one of the early closes, a spent
//! action, one of the ways with readings of another candidate, the median of one of the
//! counts up to 16 or of one of the ways with an even count, or a refusal for one of the
//! memory's numbers. Built with the feature `board`.

use std::collections::BTreeMap;
use std::process::ExitCode;

use reference::ask::seed_and_count;
use reference::board::{all_spoken, at, edges, same_counter, with_vote};
use reference::board::{Both, InputNumbers, NUMBERS};
use reference::medians::{draw_readings, evens, EVENS};
use reference::random::Random;
use reference::record::Record;
use reference::step::{is_closed, is_spent};
use reference::words::{Reading, MAX_HEADS, TIME_LIMIT};

/// From this many actions on, all that can be met must have been.
const ENOUGH: u64 = 1_000_000;
/// The actions that may end with an early close of the votes, and of the adjust phase.
/// 1 and 9 cannot: with a candidate, or after the vote close, 1 is closed, and 9
/// closes the adjust phase itself.
const CLOSE_VOTES: [usize; 5] = [2, 3, 4, 5, 8];
const CLOSE_ADJUSTS: [usize; 7] = [2, 3, 4, 5, 6, 7, 8];

/// Actions by what they met.
#[derive(Default)]
struct Tally {
    actions: u64,
    sequences: u64,
    /// By cause, 0 for what was done.
    causes: [u64; 12],
    /// Fresh heads that were refused with cause 3 or 6.
    not_made: u64,
    /// Damaged records that were refused, and that were still in their ranges.
    refused: u64,
    taken: u64,
    /// By index in the record's memory, damage there alone: refused, and taken.
    alone: BTreeMap<usize, [u64; 2]>,
    /// By action, early closes of the votes and of the adjust phase, and spent ones.
    votes: [u64; 10],
    adjusts: [u64; 10],
    spent: [u64; 10],
    /// Early closes of both by the same action.
    at_once: u64,
    candidates: Candidates,
    medians: Medians,
}

/// Actions by what they did with readings of another candidate.
#[derive(Default)]
struct Candidates {
    /// Changes of candidate, those that dropped a reading, and those to a head that
    /// another sender's latest vote already named.
    changed: u64,
    dropped: u64,
    named_before: u64,
    /// Votes taken that named another candidate, and those of them whose sender had a
    /// reading.
    others: u64,
    others_held: u64,
    /// Records refused for a reading of another candidate alone: with no candidate,
    /// with no latest vote, and with one that names another.
    refused: [u64; 3],
    /// Records taken whose own reading is beside such a latest vote of their own.
    own: u64,
}

impl Candidates {
    fn accepted(&mut self, numbers: &InputNumbers, before: &Record, after: &Record) {
        let sender = numbers[2] as usize;
        let own = before.own as usize;
        if !before.names_candidate(own) && before.kept[own].vote_reading.is_some() {
            self.own += 1;
        }
        let [old, new] = [before, after].map(|r| r.kept[sender]);
        let is_taken = numbers[0] == 5 && old.vote_serial != new.vote_serial;
        if is_taken && !after.names_candidate(sender) {
            self.others += 1;
            self.others_held += u64::from(old.vote_reading.is_some());
        }
        if before.candidate.is_none() || before.candidate == after.candidate {
            return;
        }
        let third = |&p: &usize| p != own && p != sender;
        let is_lost = |p: usize| {
            let [old, new] = [before, after].map(|r| r.kept[p].vote_reading);
            old.is_some() && new.is_none()
        };
        let is_named = |p: usize| before.kept[p].latest_vote == after.candidate;
        self.changed += 1;
        self.dropped += u64::from((0..MAX_HEADS).filter(third).any(is_lost));
        self.named_before += u64::from((0..MAX_HEADS).filter(third).any(is_named));
    }

    /// A record that is refused, if without its readings of another candidate it would
    /// be in its ranges.
    fn refused(&mut self, record: &Record) {
        let mut rest = record.clone();
        let mut why = None;
        for sender in (0..MAX_HEADS).filter(|&p| p != record.own as usize) {
            let kept = &mut rest.kept[sender];
            if kept.vote_reading.is_some() && !record.names_candidate(sender) {
                kept.vote_reading = None;
                why = Some(match (record.candidate, kept.latest_vote) {
                    (None, _) => 0,
                    (_, None) => 1,
                    _ => 2,
                });
            }
        }
        if let Some(why) = why.filter(|_| rest.in_ranges()) {
            self.refused[why] += 1;
        }
    }

    fn missing(&self) -> Vec<String> {
        [
            (self.dropped, "a reading dropped"),
            (self.named_before, "a candidate named before"),
            (self.others, "another candidate"),
            (self.others_held, "another candidate, with a reading before"),
            (self.refused[0], "refusal for a reading without a candidate"),
            (
                self.refused[1],
                "refusal for a reading without a latest vote",
            ),
            (
                self.refused[2],
                "refusal for a reading of another candidate",
            ),
            (self.own, "own reading beside another latest vote"),
        ]
        .into_iter()
        .filter(|(met, _)| *met == 0)
        .map(|(_, name)| name.into())
        .collect()
    }

    fn print(&self) {
        println!(
            "candidates changed: {}, of them {} with a reading dropped, {} to one that a latest vote named before",
            self.changed, self.dropped, self.named_before
        );
        println!(
            "votes taken that name another candidate: {}, of them {} with a reading before",
            self.others, self.others_held
        );
        println!(
            "records refused for a reading of another candidate alone: {} without a candidate, {} without a latest vote, {} with one for another; own ones taken: {}",
            self.refused[0], self.refused[1], self.refused[2], self.own
        );
    }
}

/// Adjust turns by what they took the median of.
#[derive(Default)]
struct Medians {
    /// By the count of readings.
    counts: [u64; MAX_HEADS + 1],
    /// Of an even count, by what the readings are.
    evens: BTreeMap<&'static str, u64>,
    /// Records refused for vote readings of 2²⁸ or more alone.
    beyond: u64,
}

impl Medians {
    fn accepted(&mut self, numbers: &InputNumbers, before: &Record, after: &Record) {
        if numbers[0] == 7 && before.adjuster.is_none() && after.adjuster.is_some() {
            let readings = before.vote_readings();
            self.counts[readings.len()] += 1;
            for name in evens(&readings) {
                *self.evens.entry(name).or_default() += 1;
            }
        }
    }

    fn refused(&mut self, record: &Record) {
        let mut rest = record.clone();
        for kept in &mut rest.kept {
            kept.vote_reading = kept.vote_reading.map(|r| Reading(r.0 % TIME_LIMIT));
        }
        self.beyond += u64::from(rest != *record && rest.in_ranges());
    }

    fn missing(&self) -> Vec<String> {
        let counts = (1..=MAX_HEADS).filter(|&count| self.counts[count] == 0);
        let evens = EVENS.into_iter().filter(|e| !self.evens.contains_key(e));
        let beyond = (self.beyond == 0).then(|| "refusal for a vote reading of 2²⁸".into());
        counts
            .map(|count| format!("median of {count}"))
            .chain(evens.map(String::from))
            .chain(beyond)
            .collect()
    }

    fn print(&self) {
        println!("medians, by 1 to 16 readings: {:?}", &self.counts[1..]);
        for name in EVENS {
            let turns = self.evens.get(name).copied().unwrap_or(0);
            println!("{turns:>9}  {name}");
        }
        println!(
            "records refused for vote readings of 2²⁸ or more alone: {}",
            self.beyond
        );
    }
}

impl Tally {
    /// What closed early, or was spent, at an accepted action.
    fn early(&mut self, action: usize, before: &Record, after: &Record) {
        let votes = after.vote_early && !before.vote_early;
        let adjusts = after.adjust_early && !before.adjust_early;
        self.votes[action] += u64::from(votes);
        self.adjusts[action] += u64::from(adjusts);
        self.spent[action] += u64::from(is_spent(before, action as u32));
        self.at_once += u64::from(votes && adjusts);
    }

    /// What was never met of early closes, candidates, medians and damage.
    fn missing(&self) -> Vec<String> {
        let name = |what: &str, number: usize| format!("{what} {number}");
        let refused = |&index: &usize| self.alone.get(&index).is_none_or(|p| p[0] == 0);
        let votes = CLOSE_VOTES.into_iter().filter(|&a| self.votes[a] == 0);
        let adjusts = CLOSE_ADJUSTS.into_iter().filter(|&a| self.adjusts[a] == 0);
        let spent = [6, 7, 9].into_iter().filter(|&a| self.spent[a] == 0);
        votes
            .map(|a| name("early vote close by", a))
            .chain(adjusts.map(|a| name("early adjust close by", a)))
            .chain(spent.map(|a| name("spent", a)))
            .chain((self.at_once == 0).then(|| "both at once".into()))
            .chain(self.candidates.missing())
            .chain(self.medians.missing())
            .chain(
                (0..NUMBERS)
                    .filter(refused)
                    .map(|i| name("refusal for number", i)),
            )
            .collect()
    }
}

/// A number that is mostly in its range.
fn mostly_below(random: &mut Random, limit: u64) -> u32 {
    match random.below(200) {
        0 => limit as u32,
        1 => random.draw() as u32,
        _ => random.below(limit) as u32,
    }
}

/// The next action: mostly one that a head may take.
fn draw(random: &mut Random, record: &Record) -> InputNumbers {
    let n = u64::from(record.n.clamp(2, 16));
    let action = mostly_below(random, 10);
    let step = random.pick(&[0, 1, 7, 400, 100_000]);
    let passed = random.below(step + 1) as u32;
    let mut numbers = [
        action,
        record.last_reading.0.wrapping_add(passed),
        0,
        0,
        0,
        0,
        0,
    ];
    if random.chance(1, 60) {
        numbers[1] = random.pick(&[0, 1, (1 << 28) - 1, 1 << 28, u32::MAX]);
    }
    if matches!(action, 2 | 5 | 8) || random.chance(1, 80) {
        numbers[2] = mostly_below(random, n);
    }
    if matches!(action, 5 | 8) || random.chance(1, 80) {
        numbers[3] = mostly_below(random, 16);
        numbers[4] = mostly_below(random, n);
        numbers[5] = mostly_below(random, 1 << 28);
    }
    if (action == 5 && random.chance(1, 5)) || random.chance(1, 200) {
        numbers[6] = if random.chance(1, 50) {
            random.draw() as u32
        } else {
            1
        };
        if random.chance(9, 10) {
            numbers[5] = 0;
        }
    }
    numbers
}

/// A vote or an adjust of a head that has not yet spoken for the record's choice, so
/// that the phase closes early before long; the next action where there is none.
fn speak(random: &mut Random, record: &Record) -> InputNumbers {
    let delivery = if record.vote_close || random.chance(1, 3) {
        8
    } else {
        5
    };
    let choice = match delivery {
        5 => record.candidate,
        _ => record.adjuster,
    };
    let said = |q: u32| {
        let kept = &record.kept[q as usize];
        match delivery {
            5 => (kept.latest_vote, kept.vote_serial),
            _ => (kept.latest_adjust, kept.adjust_serial),
        }
    };
    let others = (0..record.n).filter(|&q| q != record.own);
    let silent: Vec<u32> = others
        .filter(|&q| choice.is_none() || said(q).0 != choice)
        .collect();
    if silent.is_empty() || random.chance(1, 20) {
        return draw(random, record);
    }
    let sender = random.pick(&silent);
    let serial = said(sender).1.map_or(0, |last| last + 1);
    let any = random.below(u64::from(record.n)) as u32;
    let carried = choice.filter(|_| random.chance(15, 16)).unwrap_or(any);
    let none = delivery == 5 && random.chance(1, 5);
    let reading = if none { 0 } else { random.below(1 << 28) };
    [
        delivery,
        record.last_reading.0 + random.below(2) as u32,
        sender,
        serial,
        carried,
        reading as u32,
        none.into(),
    ]
}

/// A new vote that names any head, mostly one of higher rank than the candidate, and
/// often one that latest votes name already.
fn lead(random: &mut Random, record: &Record) -> InputNumbers {
    let others: Vec<u32> = (0..record.n).filter(|&q| q != record.own).collect();
    let sender = random.pick(&others);
    let kept = &record.kept[sender as usize];
    let below = record.candidate.unwrap_or(record.n).max(1);
    let latest = record.kept.iter().filter_map(|kept| kept.latest_vote);
    let named: Vec<u32> = latest.filter(|&named| named < below).collect();
    let carried = if !named.is_empty() && random.chance(1, 2) {
        random.pick(&named)
    } else {
        let limit = random.pick(&[record.n, below, below, below]);
        random.below(limit.into()) as u32
    };
    let none = random.chance(1, 5);
    let reading = if none { 0 } else { random.below(1 << 28) };
    [
        5,
        record.last_reading.0,
        sender,
        kept.vote_serial.map_or(0, |last| last + 1),
        carried,
        reading as u32,
        none.into(),
    ]
}

/// A copy of the head with a vote reading, mostly another sender's, beside a latest
/// vote that is none, the candidate's or any other; at times without a candidate.
fn voted(random: &mut Random, both: &Both, record: &Record) -> Both {
    let mut head = both.head;
    let any = random.below(record.n.into()) as u32;
    let sender = random.pick(&[any, any, record.own]) as usize;
    if random.chance(1, 4) {
        // No candidate, no mark for it and no votes sent.
        head[at::MARKS] &= !64;
        head[at::CANDIDATE] = 0;
        head[at::VOTES_SENT] = 0;
        if random.chance(1, 2) {
            head[at::VOTE_READINGS].fill(0);
        }
    }
    let reading = 1 + random.below(1 << 28) as u32;
    let other = 1 + random.below(record.n.into()) as u32;
    let named = random.pick(&[0, head[at::CANDIDATE], other, other]);
    both.damaged(with_vote(&head, sender, reading, named))
}

/// A copy of the head, its votes open, in which the latest votes of some others name a
/// head of higher rank than the candidate; their readings do not count.
fn named_ahead(random: &mut Random, both: &Both, record: &Record) -> Both {
    let mut head = both.head;
    let below = record.candidate.unwrap_or(record.n);
    if below > 0 {
        let ahead = random.below(below.into()) as u32;
        for sender in (0..record.n).filter(|&q| q != record.own) {
            if random.chance(1, 2) {
                head = with_vote(&head, sender as usize, 0, 1 + ahead);
            }
        }
        // Vote close, adjust turn and adjust close.
        head[at::MARKS] &= !(8 | 16 | 32);
        head[at::VOTE_EARLY] = 0;
        head[at::ADJUST_EARLY] = 0;
    }
    both.damaged(head)
}

/// A copy of the head at its adjust turn, with a candidate, no adjuster and some vote
/// readings; at times one of them is 2²⁸ or more.
fn before_turn(random: &mut Random, both: &Both, record: &Record) -> Both {
    let mut head = both.head;
    let n = record.n as usize;
    if record.candidate.is_none() {
        head[at::MARKS] |= 64;
        head[at::CANDIDATE] = 1 + random.below(record.n.into()) as u32;
        head[at::VOTES_SENT] = 1;
    }
    // Vote close, but neither adjust turn nor adjust close.
    head[at::MARKS] = head[at::MARKS] & !(16 | 32) | 8;
    head[at::ADJUSTER] = 0;
    head[at::ADJUSTS_SENT] = 0;
    head[at::ADJUSTMENT] = 0;
    head[at::ADJUST_EARLY] = 0;
    let any = 1 + random.index(n);
    let count = random.pick(&[2, n, any]);
    let mut senders: Vec<usize> = (0..n).collect();
    random.shuffle(&mut senders);
    head[at::VOTE_READINGS].fill(0);
    for (&sender, reading) in senders.iter().zip(draw_readings(random, count)) {
        head = with_vote(&head, sender, 1 + reading, head[at::CANDIDATE]);
    }
    if random.chance(1, 8) {
        head[at::VOTE_READINGS.start + senders[0]] =
            random.pick(&[1 + TIME_LIMIT, 1 << 29, 1 << 31, u32::MAX]);
    }
    both.damaged(head)
}

/// A copy of the head to which all have spoken; at times its phases are opened again.
/// It has sent and confirmed its start, and taken its turn, as may be.
fn spoken(random: &mut Random, both: &Both) -> Both {
    let mut head = both.head;
    if random.chance(1, 2) {
        head[at::MARKS] = head[at::MARKS] & !7 | random.pick(&[0, 1, 3, 7]);
    }
    match random.below(3) {
        0 => {
            // Vote close, adjust turn and adjust close.
            head[at::MARKS] &= !(8 | 16 | 32);
            head[at::VOTE_EARLY] = 0;
            head[at::ADJUST_EARLY] = 0;
        }
        1 => {
            head[at::MARKS] &= !32;
            head[at::ADJUST_EARLY] = 0;
        }
        _ => {}
    }
    for &delivery in random.pick(&[&[5][..], &[8], &[5, 8]]) {
        head = all_spoken(&head, delivery);
    }
    both.damaged(head)
}

/// A copy of the head with one to three numbers of its memory changed, and the
/// index if it is one.
fn damage(random: &mut Random, both: &Both, record: &Record) -> (Both, Option<usize>) {
    match random.below(10) {
        0 | 1 => return (spoken(random, both), None),
        2 => return (voted(random, both, record), None),
        3 => return (named_ahead(random, both, record), None),
        4 | 5 => return (before_turn(random, both, record), None),
        _ => {}
    }
    let mut head = both.head;
    let changes = random.pick(&[1, 1, 1, 2, 3]);
    let mut index = 0;
    for _ in 0..changes {
        index = random.index(NUMBERS);
        head[index] = match random.below(6) {
            0 => head[index] ^ 1 << random.below(32),
            1 => (random.draw() as u32) >> random.below(32),
            2 => head[index].wrapping_add(random.pick(&[1, u32::MAX, 256, 1 << 28])),
            _ => random.pick(&edges(index, record)),
        };
    }
    (both.damaged(head), (changes == 1).then_some(index))
}

/// One action at both, with what it meets of early closes, candidates and medians.
fn act(both: &mut Both, numbers: &InputNumbers, tally: &mut Tally) -> Result<u32, String> {
    let before = both.record.clone();
    let cause = both.act(numbers)?;
    match (cause, &before, &both.record) {
        (0, Some(before), Some(after)) => {
            tally.early(numbers[0] as usize, before, after);
            tally.candidates.accepted(numbers, before, after);
            tally.medians.accepted(numbers, before, after);
        }
        (10, Some(before), _) => {
            tally.candidates.refused(before);
            tally.medians.refused(before);
        }
        _ => {}
    }
    Ok(cause)
}

/// One action at a damaged copy of the head, from which the sequence goes on at
/// times if it is still a record.
fn act_damaged(
    random: &mut Random,
    both: &mut Both,
    record: &Record,
    tally: &mut Tally,
) -> Result<u32, String> {
    let (mut other, index) = damage(random, both, record);
    let changed = other.head != both.head;
    let drawn = other.record.as_ref().unwrap_or(record);
    let may_adjust =
        drawn.candidate.is_some() && drawn.adjuster.is_none() && !is_closed(drawn, 7, 0);
    let numbers = if may_adjust && random.chance(1, 2) {
        [7, drawn.last_reading.0, 0, 0, 0, 0, 0]
    } else if other.in_ranges() && random.chance(1, 3) {
        lead(random, drawn)
    } else {
        draw(random, drawn)
    };
    let cause = act(&mut other, &numbers, tally)?;
    if changed {
        let taken = cause != 10;
        tally.taken += u64::from(taken);
        tally.refused += u64::from(!taken);
        if let Some(index) = index {
            tally.alone.entry(index).or_default()[usize::from(taken)] += 1;
        }
    }
    if other.in_ranges() && random.chance(1, 4) {
        *both = other;
    }
    Ok(cause)
}

/// One sequence of up to 120 actions.
fn sequence(random: &mut Random, tally: &mut Tally) -> Result<(), String> {
    let n = 2 + random.below(15) as u32;
    let f = random.below(u64::from((n - 1) / 2) + 1) as u32;
    let own = random.below(u64::from(n)) as u32;
    let wide = [n, f, own].map(|x| {
        if random.chance(1, 2) {
            x
        } else {
            mostly_below(random, 18)
        }
    });
    let not_made = Both::fresh(wide[0], wide[1], wide[2])?.is_err();
    tally.not_made += u64::from(not_made);
    let Ok(mut both) = Both::fresh(n, f, own)? else {
        return Err(format!("fresh {n} {f} {own} is refused"));
    };
    let talks = random.chance(1, 2);
    for _ in 0..1 + random.below(120) {
        let record = both
            .record
            .clone()
            .expect("a sequence goes on from a record");
        let cause = if random.chance(1, 8) {
            act_damaged(random, &mut both, &record, tally)?
        } else if talks && random.chance(2, 3) {
            act(&mut both, &speak(random, &record), tally)?
        } else if random.chance(1, 6) {
            act(&mut both, &lead(random, &record), tally)?
        } else {
            act(&mut both, &draw(random, &record), tally)?
        };
        tally.causes[cause as usize] += 1;
        tally.actions += 1;
    }
    let base = random.draw() as u32;
    let now = random.draw() as u32;
    let near = base.wrapping_add(random.below(1 << 29) as u32);
    same_counter(random.pick(&[now, near]), base)?;
    tally.sequences += 1;
    Ok(())
}

fn main() -> ExitCode {
    let Some((seed, count)) = seed_and_count() else {
        eprintln!("usage: actions SEED COUNT");
        return ExitCode::from(2);
    };
    let mut tally = Tally::default();
    while tally.actions < count {
        let index = tally.sequences;
        if let Err(what) = sequence(&mut Random::new(seed, index), &mut tally) {
            println!("difference in sequence {index} of seed {seed}: {what}");
            return ExitCode::FAILURE;
        }
    }
    println!(
        "{} actions in {} sequences of seed {seed}, no difference",
        tally.actions, tally.sequences
    );
    println!("by cause 0 to 11: {:?}", tally.causes);
    println!("fresh heads refused: {}", tally.not_made);
    println!(
        "damaged records: {} refused, {} taken",
        tally.refused, tally.taken
    );
    let both_ways = |p: &&[u64; 2]| p[0] > 0 && p[1] > 0;
    let alone = tally.alone.values();
    println!(
        "of {NUMBERS} numbers, damaged alone: {} refused, {} taken, {} both",
        alone.clone().filter(|p| p[0] > 0).count(),
        alone.clone().filter(|p| p[1] > 0).count(),
        alone.filter(both_ways).count()
    );
    println!("by action 0 to 9, votes closed early: {:?}", tally.votes);
    println!(
        "adjust phases closed early: {:?}; both at once: {}",
        tally.adjusts, tally.at_once
    );
    println!("spent: {:?}", tally.spent);
    tally.candidates.print();
    tally.medians.print();
    let missing = tally.missing();
    if tally.actions >= ENOUGH && !missing.is_empty() {
        println!("never met: {}", missing.join(", "));
        return ExitCode::FAILURE;
    }
    ExitCode::SUCCESS
}
