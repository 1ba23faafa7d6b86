//! The order of a sheet's actions without its clocks, for the search of
//! [`crate::shortest`]: the records that it leads to, and the premises that it breaks.
//!
//! What a head does goes by the order of entries alone: no step asks how large a reading
//! is. So every reading is 0 here ("A reading of 0 is a reading"). Heads with the same
//! adjuster have the same adjustment, which it alone took; those with different ones may
//! have different adjustments if these are medians of different votes' readings. Premise 2
//! and the tightness in premise 3 ask of clocks and real times and are left aside.

use std::collections::HashMap;

use crate::judge::parts;
use crate::record::Record;
use crate::step::{input, is_spent, step, Frame};
use crate::words::{Entry, Reading, RealTime, Settings};

/// At most so many heads.
pub const HEADS: usize = 3;

/// A set of parts of premises, as [`crate::judge::keeps_part`] counts them.
#[derive(Clone, Copy, Debug, Default, PartialEq, Eq, PartialOrd, Ord)]
pub struct Parts(u16);

impl Parts {
    pub fn is_empty(self) -> bool {
        self.0 == 0
    }

    pub fn is_within(self, other: Parts) -> bool {
        self.0 & !other.0 == 0
    }

    /// Adds a part if it is broken.
    fn add(&mut self, premise: u32, part: usize, is_broken: bool) {
        let bit = (1..premise).map(parts).sum::<usize>() + part;
        self.0 |= u16::from(is_broken) << bit;
    }
}

impl FromIterator<(u32, usize)> for Parts {
    fn from_iter<I: IntoIterator<Item = (u32, usize)>>(listed: I) -> Parts {
        let mut parts = Parts::default();
        for (premise, part) in listed {
            parts.add(premise, part, true);
        }
        parts
    }
}

/// What is asked of an order besides the premises.
#[derive(Clone, Copy, Debug, PartialEq, Eq)]
pub enum Asked {
    /// The claim fails, the bound left aside: a correct head is without a clock, or two
    /// have different choices.
    Failure,
    /// Two correct heads have adjustments that are medians of different readings.
    Adjustments,
    /// There are two looks at correct heads, or at one.
    Looks,
}

/// One head: its record, and what is asked besides.
#[derive(Clone, PartialEq, Eq, Hash)]
pub struct Head {
    pub record: Record,
    /// The votes and the adjusts that it sent, by serial.
    pub sent: [Vec<Frame>; 2],
    /// What has reached it, for a correct head.
    reached: Reached,
    /// How often it was looked at, up to twice, for a correct head, if looks are asked.
    looks: usize,
    /// Whose start's readings it took the median of, and who read it, as a bit for each,
    /// if that is asked.
    median_of: (Option<u32>, u32),
}

/// What has reached a head: starts as a bit for each sender; votes and adjusts, up to the
/// first correct close of their phase, as a bit for each sender and serial.
#[derive(Clone, Default, PartialEq, Eq, Hash)]
struct Reached {
    starts: u32,
    frames: [u32; 2],
    /// Whether "was delivered a vote".
    some_vote: bool,
    /// Whether the first correct vote close, and adjust close, has come.
    closed: [bool; 2],
}

/// What the correct heads' closes by entry of a phase have come to.
#[derive(Clone, Copy, Debug, PartialEq, Eq, PartialOrd, Ord)]
enum Close {
    None,
    First,
    /// After the first a frame of the phase has reached a correct head, and another
    /// close may come.
    FrameSince,
}

/// Where an order has come to.
#[derive(Clone, Copy, Debug, PartialEq, Eq, PartialOrd, Ord)]
pub struct State {
    /// The heads, by their numbers in [`Order`].
    heads: [u32; HEADS],
    /// Of votes and of adjusts.
    closes: [Close; 2],
    /// The parts of premises 3 and 5 to 8 that are broken.
    broken: Parts,
}

/// Votes and adjusts.
const PHASES: [usize; 2] = [0, 1];

/// A step that was not taken yet, and one that is refused.
const UNKNOWN: u32 = u32::MAX;
const REFUSED: u32 = u32::MAX - 1;

/// The orders of actions at the heads of given settings. Every head that is met, with all
/// that is kept of it, has a number, and each step of it is taken once.
pub struct Order {
    pub settings: Settings,
    may_break: Parts,
    asked: Asked,
    heads: Vec<Head>,
    numbers: HashMap<Head, u32>,
    /// The number of the head after a step, by its number before and the step's code.
    steps: Vec<u32>,
    codes: usize,
}

/// An entry without its real time and reading.
pub fn entry(action: u32, head: usize, sender: usize, serial: usize) -> Entry {
    Entry {
        time: RealTime(0),
        reading: Reading(0),
        action,
        head: head as u32,
        sender: sender as u32,
        serial: serial as u32,
    }
}

impl Order {
    /// Orders in which only these parts may be broken.
    pub fn new(settings: Settings, may_break: Parts, asked: Asked) -> Order {
        let n = settings.n as usize;
        assert!(n <= HEADS, "at most {HEADS} heads");
        Order {
            settings,
            may_break,
            asked,
            heads: Vec::new(),
            numbers: HashMap::new(),
            steps: Vec::new(),
            codes: FIRST_CLOSE + PHASES.len() + n + 3 * n.pow(3),
        }
    }

    /// "Before the first entry every head's record is fresh".
    pub fn fresh(&mut self) -> State {
        let Settings { n, f, .. } = self.settings;
        let mut state = State {
            heads: [0; HEADS],
            closes: [Close::None; 2],
            broken: Parts::default(),
        };
        for own in 0..n {
            state.heads[own as usize] = self.number(Head {
                record: Record::fresh(n, f, own),
                sent: [Vec::new(), Vec::new()],
                reached: Reached::default(),
                looks: 0,
                median_of: (None, 0),
            });
        }
        state
    }

    /// One of the heads of a state.
    pub fn head(&self, state: &State, head: usize) -> &Head {
        &self.heads[state.heads[head] as usize]
    }

    fn number(&mut self, head: Head) -> u32 {
        if let Some(&number) = self.numbers.get(&head) {
            return number;
        }
        let number = self.heads.len() as u32;
        self.heads.push(head.clone());
        self.numbers.insert(head, number);
        self.steps.resize(self.heads.len() * self.codes, UNKNOWN);
        number
    }

    fn is_correct(&self, head: usize) -> bool {
        self.settings.is_correct(head as u32)
    }

    fn correct(&self) -> impl Iterator<Item = usize> + '_ {
        (0..self.settings.n as usize).filter(|&head| self.is_correct(head))
    }

    /// The state after an entry. None if the entry is refused, or breaks a part of a
    /// premise that may not be broken.
    pub fn take(&mut self, state: &State, entry: &Entry) -> Option<State> {
        let head = entry.head as usize;
        let frame = self.frame(state, entry)?;
        let broken = self.breaks(state, entry);
        if !broken.is_within(self.may_break) {
            return None;
        }
        let mut after = *state;
        after.heads[head] = self.step(state.heads[head], entry, frame)?;
        after.broken.0 |= broken.0;
        if self.is_correct(head) {
            self.count_closes(state, entry, &mut after);
        }
        Some(after)
    }

    /// The frame that an entry delivers, if it delivers one. None where its sender has not
    /// sent it.
    fn frame(&self, state: &State, entry: &Entry) -> Option<Option<Frame>> {
        let sender = self.head(state, entry.sender as usize);
        let serial = entry.serial as usize;
        match entry.action {
            2 if sender.record.start_sent => Some(Some(Frame::Start)),
            2 => None,
            5 => sender.sent[0].get(serial).copied().map(Some),
            8 => sender.sent[1].get(serial).copied().map(Some),
            _ => Some(None),
        }
    }

    /// Whether an entry is a correct head's close of votes (phase 0) or adjusts (phase 1).
    /// "Premises 5 to 8 look at closes by entry only at heads still open".
    fn is_close(&self, state: &State, entry: &Entry, phase: usize) -> bool {
        let head = entry.head as usize;
        entry.action == [6, 9][phase]
            && self.is_correct(head)
            && !is_spent(&self.head(state, head).record, entry.action)
    }

    /// The parts of premises 3 and 5 to 8 that an entry breaks.
    fn breaks(&self, state: &State, entry: &Entry) -> Parts {
        let mut broken = Parts::default();
        let (head, sender) = (entry.head as usize, entry.sender as usize);
        match entry.action {
            // "A start confirmed by any head was delivered earlier to every correct head"
            3 => broken.add(3, 0, !self.start_reached_all(state, head)),
            // "and none reaches a correct head later."
            2 if self.head(state, sender).record.confirmed => {
                broken.add(3, 2, self.is_correct(head));
            }
            _ => {}
        }
        for phase in PHASES {
            if self.is_close(state, entry, phase) {
                self.add_at_close(state, phase, &mut broken);
            }
        }
        broken
    }

    fn start_reached_all(&self, state: &State, sender: usize) -> bool {
        self.correct()
            .all(|head| self.head(state, head).reached.starts >> sender & 1 == 1)
    }

    /// Premise 5 at the first correct vote close, premise 6 at a later one; premises 7 and 8
    /// likewise of adjusts.
    fn add_at_close(&self, state: &State, phase: usize, broken: &mut Parts) {
        let (at_first, at_later) = [(5, 6), (7, 8)][phase];
        if state.closes[phase] != Close::None {
            broken.add(at_later, 0, state.closes[phase] == Close::FrameSince);
            return;
        }
        for head in self.correct() {
            broken.add(at_first, 0, !self.took_part(state, head, phase));
            // "and each vote all other correct heads"; "each adjust sent by a correct head
            // by then reached, by then, all other correct heads"
            let last = parts(at_first) - 1;
            broken.add(at_first, last, !self.reached_others(state, head, phase));
            if phase == 0 && self.head(state, head).record.start_sent {
                // "each start a correct head sent by then reached, by then, all correct heads"
                broken.add(5, 1, !self.start_reached_all(state, head));
            }
        }
    }

    /// "every correct head either took all of 1, 3 and 4 or was delivered a vote"; "every
    /// correct head took 7", or has closed its adjust phase early.
    fn took_part(&self, state: &State, head: usize, phase: usize) -> bool {
        let Head {
            record, reached, ..
        } = self.head(state, head);
        if phase == 0 {
            record.vote_turn || reached.some_vote
        } else {
            record.adjust_turn || record.adjust_early
        }
    }

    /// Whether the frames of a phase that a head sent have reached all other correct heads.
    fn reached_others(&self, state: &State, sender: usize, phase: usize) -> bool {
        let sent = self.head(state, sender).sent[phase].len();
        let all_sent = ((1 << sent) - 1) << (sender * self.settings.n as usize);
        let mut others = self.correct().filter(|&head| head != sender);
        others.all(|head| self.head(state, head).reached.frames[phase] & all_sent == all_sent)
    }

    /// What the closes have come to after an entry of a correct head.
    fn count_closes(&mut self, before: &State, entry: &Entry, after: &mut State) {
        for phase in PHASES {
            let since = before.closes[phase] != Close::None;
            if self.is_close(before, entry, phase) && !since {
                after.closes[phase] = Close::First;
                // What has reached the heads by then is asked no more.
                for head in &mut after.heads[..self.settings.n as usize] {
                    *head = self.after_first_close(*head, phase);
                }
            }
            if entry.action == [5, 8][phase] && since {
                after.closes[phase] = Close::FrameSince;
            }
            if after.closes[phase] == Close::FrameSince && !self.is_open(after, phase) {
                after.closes[phase] = Close::First;
            }
        }
    }

    /// Whether another correct close may come.
    fn is_open(&self, state: &State, phase: usize) -> bool {
        self.correct().any(|head| {
            let record = &self.head(state, head).record;
            ![record.vote_close, record.adjust_close][phase]
        })
    }

    /// The number of a head after a step, or None if it is refused.
    fn step(&mut self, before: u32, entry: &Entry, frame: Option<Frame>) -> Option<u32> {
        let place = before as usize * self.codes + self.code(entry, frame);
        if self.steps[place] == UNKNOWN {
            let after = self.stepped(self.heads[before as usize].clone(), entry, frame);
            self.steps[place] = after.map_or(REFUSED, |head| self.number(head));
        }
        Some(self.steps[place]).filter(|&after| after != REFUSED)
    }

    /// The number of a head after the first correct close of a phase.
    fn after_first_close(&mut self, before: u32, phase: usize) -> u32 {
        let place = before as usize * self.codes + FIRST_CLOSE + phase;
        if self.steps[place] == UNKNOWN {
            let mut head = self.heads[before as usize].clone();
            head.reached.close(phase);
            self.steps[place] = self.number(head);
        }
        self.steps[place]
    }

    /// A code for an action and what its frame carries.
    fn code(&self, entry: &Entry, frame: Option<Frame>) -> usize {
        let n = self.settings.n as usize;
        let starts = FIRST_CLOSE + PHASES.len();
        let (sender, serial) = (entry.sender as usize, entry.serial as usize);
        let place = |carried: u32| (sender * n + serial) * n + carried as usize;
        match frame {
            None => entry.action as usize,
            Some(Frame::Start) => starts + sender,
            Some(Frame::Adjust { adjuster, .. }) => starts + n + place(adjuster),
            Some(Frame::Vote {
                candidate, reading, ..
            }) => {
                let votes = usize::from(reading.is_some()) + 1;
                starts + n + votes * n.pow(3) + place(candidate)
            }
        }
    }

    /// A head after a step.
    fn stepped(&self, mut head: Head, entry: &Entry, frame: Option<Frame>) -> Option<Head> {
        let Entry {
            action,
            reading,
            sender,
            serial,
            ..
        } = *entry;
        let (after, sent) =
            step(&head.record, &input(action, reading, sender, serial, frame)).ok()?;
        if self.is_correct(entry.head as usize) {
            head.reached.reach(entry, self.settings.n);
            if self.asked == Asked::Looks && head.record.adjust_close {
                head.looks = 2.min(head.looks + 1);
            }
        }
        if self.asked == Asked::Adjustments && action == 7 && sent.is_some() {
            head.median_of = (after.candidate, with_readings(&head.record));
        }
        head.record = without_unused(after, self.asked);
        match sent {
            Some(Frame::Vote { .. }) => head.sent[0].extend(sent),
            Some(Frame::Adjust { .. }) => head.sent[1].extend(sent),
            Some(Frame::Start) | None => {}
        }
        Some(head)
    }

    /// The parts that are broken if an order ends in a state, with those of premise 1 and
    /// premise 4.
    pub fn broken(&self, state: &State) -> Parts {
        let mut broken = state.broken;
        let correct = self.correct().count() as u32;
        // "1. At least n − f heads are correct."
        broken.add(1, 0, correct < self.settings.n - self.settings.f);
        for head in self.correct() {
            let h = &self.head(state, head).record;
            // "4. Every correct head takes actions 6, 7 and 9.", or closes early
            broken.add(4, 0, !h.vote_close);
            broken.add(4, 1, !h.adjust_turn && !h.adjust_early);
            broken.add(4, 2, !h.adjust_close);
        }
        broken
    }

    /// Whether what is asked holds if an order ends in a state.
    pub fn has_asked(&self, state: &State) -> bool {
        match self.asked {
            Asked::Failure => self.claim_fails(state),
            Asked::Adjustments => self.adjustments_differ(state),
            Asked::Looks => self.looks(state) >= 2,
        }
    }

    fn claim_fails(&self, state: &State) -> bool {
        let mut records = self.correct().map(|head| &self.head(state, head).record);
        let Some(first) = records.next() else {
            return false;
        };
        let choice = |r: &Record| (r.candidate, r.adjuster);
        first.outcome() != 2 || records.any(|r| r.outcome() != 2 || choice(r) != choice(first))
    }

    fn adjustments_differ(&self, state: &State) -> bool {
        let mut medians = Vec::new();
        for head in self.correct() {
            if let Some(adjuster) = self.head(state, head).record.adjuster {
                medians.push(self.head(state, adjuster as usize).median_of);
            }
        }
        medians.iter().any(|&median_of| median_of != medians[0])
    }

    fn looks(&self, state: &State) -> usize {
        self.correct()
            .map(|head| self.head(state, head).looks)
            .sum()
    }
}

/// The codes of the first closes come after those of the ten actions.
const FIRST_CLOSE: usize = 10;

impl Reached {
    fn reach(&mut self, entry: &Entry, n: u32) {
        let bit = 1 << (entry.sender * n + entry.serial);
        match entry.action {
            2 => self.starts |= 1 << entry.sender,
            5 if !self.closed[0] => {
                self.frames[0] |= bit;
                self.some_vote = true;
            }
            8 if !self.closed[1] => self.frames[1] |= bit,
            _ => {}
        }
    }

    fn close(&mut self, phase: usize) {
        self.closed[phase] = true;
        self.frames[phase] = 0;
        self.some_vote &= phase != 0;
    }
}

/// The senders whose vote readings are held, as bits.
fn with_readings(h: &Record) -> u32 {
    let senders = (0..h.n).filter(|&sender| h.kept[sender as usize].vote_reading.is_some());
    senders.map(|sender| 1 << sender).sum()
}

/// A record without what no later step asks, so that more orders lead to the same state:
/// after the vote close all of votes but their readings, up to the adjust turn, and the
/// starts of others than the candidate; after the adjust close all of adjusts but the
/// adjuster. Whose the readings are is dropped where it is not asked.
fn without_unused(mut h: Record, asked: Asked) -> Record {
    if !h.vote_close {
        return h;
    }
    let may_adjust = h.adjuster.is_none() && !h.adjust_turn && !h.adjust_close;
    let held = if may_adjust { with_readings(&h) } else { 0 };
    let held = match asked {
        Asked::Adjustments => held,
        _ => u32::from(held != 0) << h.own,
    };
    for (sender, kept) in (0..).zip(&mut h.kept) {
        let is_held = held >> sender & 1 == 1;
        kept.vote_reading = is_held.then_some(Reading(0));
        kept.latest_vote = h.candidate.filter(|_| is_held);
        kept.vote_serial = None;
        if h.candidate != Some(sender) {
            kept.start_reading = None;
        }
        if h.adjust_close {
            kept.adjust_serial = None;
            kept.latest_adjust = None;
        }
    }
    h
}
