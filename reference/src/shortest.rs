//! The shortest sheets that break one premise and no other, and on which the third
//! point's claim fails: with them no premise can be left out. A breadth-first search over
//! the orders of actions at a few heads, as [`crate::order`] has them.
//!
//! Premise 2 is broken by clocks, and not by the order. If it alone is broken, the claim
//! fails by the bound, since nothing else in it goes by readings. So the search is for an
//! order that keeps all premises and has two looks, and the clock of the last one is then
//! set ahead. If another premise alone is broken, the claim fails by the order: with
//! premises 2 and 3 kept heads that agree keep the bound. Only with premise 3 broken it can
//! fail by the bound alone, but for that both heads need a clock and a look, which takes
//! more entries than a head without a clock.

use crate::claim::{failures, Failure};
use crate::judge::{keeps, parts};
use crate::order::{entry, Asked, Order, Parts, State};
use crate::sheet::run;
use crate::words::{write_sheet, Entry, Reading, RealTime, Settings};

/// What is searched for.
#[derive(Clone, Copy, Debug)]
pub struct Goal {
    /// No part of a premise but these is broken, and one of these, if there are any.
    pub broken: Parts,
    pub asked: Asked,
}

impl Goal {
    /// What is searched for to break a premise.
    pub fn of(premise: u32) -> Goal {
        let all = (0..parts(premise)).map(|part| (premise, part));
        Goal {
            broken: all.filter(|_| premise != 2).collect(),
            asked: if premise == 2 {
                Asked::Looks
            } else {
                Asked::Failure
            },
        }
    }
}

/// What a search has found.
#[derive(Clone, Debug)]
pub enum Found {
    /// An order with the fewest entries.
    Order(Vec<Entry>),
    /// None with so many entries or fewer.
    NoneUpTo(usize),
    /// None, whatever the number of entries: no state is left.
    None,
}

/// A search, with the states that it has come to.
pub struct Search {
    order: Order,
    goal: Goal,
    /// The states after 0, 1, .. entries, each once, those left out that break a premise
    /// which is to be kept.
    layers: Vec<Vec<State>>,
}

/// Once this many states are listed the repeated ones are removed.
const MANY: usize = 1 << 22;

impl Search {
    pub fn new(settings: Settings, goal: Goal) -> Search {
        let mut order = Order::new(settings, goal.broken, goal.asked);
        let fresh = order.fresh();
        Search {
            order,
            goal,
            layers: vec![vec![fresh]],
        }
    }

    /// How many states were come to.
    pub fn states(&self) -> usize {
        self.layers.iter().map(Vec::len).sum()
    }

    /// Searches up to so many entries.
    pub fn run(&mut self, most: usize) -> Found {
        for count in 0..=most {
            let layer = &self.layers[count];
            if layer.is_empty() {
                return Found::None;
            }
            if let Some(&state) = layer.iter().find(|state| self.is_found(state)) {
                return Found::Order(self.way_to(count, state));
            }
            if count < most {
                let next = self.next_layer(count);
                self.layers.push(next);
            }
        }
        Found::NoneUpTo(most)
    }

    /// The states one entry after those of a layer. An entry that leaves the state as it
    /// was is never needed.
    fn next_layer(&mut self, count: usize) -> Vec<State> {
        let mut next = Vec::new();
        let mut many = MANY;
        for index in 0..self.layers[count].len() {
            let state = self.layers[count][index];
            for entry in self.entries(&state) {
                let after = self.order.take(&state, &entry);
                next.extend(after.filter(|after| *after != state));
            }
            if next.len() > many {
                next.sort_unstable();
                next.dedup();
                many = MANY.max(2 * next.len());
            }
        }
        next.sort_unstable();
        next.dedup();
        next
    }

    /// The entries that may be taken in a state, and others that are refused.
    fn entries(&self, state: &State) -> Vec<Entry> {
        let heads = 0..self.order.settings.n as usize;
        let mut entries = Vec::new();
        for head in heads.clone() {
            if self.goal.asked == Asked::Looks {
                entries.push(entry(0, head, 0, 0));
            }
            entries.extend([1, 3, 4, 6, 7, 9].map(|action| entry(action, head, 0, 0)));
            for sender in heads.clone() {
                let from = self.order.head(state, sender);
                entries.push(entry(2, head, sender, 0));
                for (action, sent) in [5, 8].into_iter().zip(&from.sent) {
                    entries.extend((0..sent.len()).map(|s| entry(action, head, sender, s)));
                }
            }
        }
        entries
    }

    /// Whether an order that leads to the state is one of those searched for.
    fn is_found(&self, state: &State) -> bool {
        let broken = self.order.broken(state);
        let one_is = !broken.is_empty() || self.goal.broken.is_empty();
        one_is && broken.is_within(self.goal.broken) && self.order.has_asked(state)
    }

    /// The entries of an order that leads to a state of a layer.
    fn way_to(&mut self, count: usize, state: State) -> Vec<Entry> {
        let mut way = Vec::new();
        let mut to = state;
        for count in (0..count).rev() {
            let (from, entry) = self.step_to(count, &to);
            way.push(entry);
            to = from;
        }
        way.reverse();
        way
    }

    /// A state of a layer from which an entry leads to the given one.
    fn step_to(&mut self, count: usize, to: &State) -> (State, Entry) {
        for index in 0..self.layers[count].len() {
            let from = self.layers[count][index];
            for entry in self.entries(&from) {
                if self.order.take(&from, &entry) == Some(*to) {
                    return (from, entry);
                }
            }
        }
        unreachable!("each state of a layer comes from the layer before");
    }
}

/// The first entry's real time, and the microseconds from one entry to the next.
const FIRST: u32 = 1_000;
const SPACING: usize = 10;
/// A clock that is ahead is so by more microseconds than any tightness has.
const AHEAD: u32 = 100_000;

/// The sheet of an order, with clocks that show real time. If looks are searched for, the
/// last two entries are in the same microsecond, and the last one's clock is ahead.
pub fn sheet(settings: &Settings, order: &[Entry], goal: &Goal) -> Vec<u32> {
    let mut entries = order.to_vec();
    for (time, entry) in (FIRST..).step_by(SPACING).zip(&mut entries) {
        (entry.time, entry.reading) = (RealTime(time), Reading(time));
    }
    if let (Asked::Looks, [.., before, last]) = (goal.asked, &mut entries[..]) {
        last.time = before.time;
        last.reading = Reading(last.time.0 + AHEAD);
    }
    write_sheet(settings, &entries)
}

/// What a sheet shows of a premise: if it is accepted and breaks this premise and no
/// other, each judged by itself, the clauses of the claim that fail on it.
pub fn shown(words: &[u32], premise: u32) -> Vec<Failure> {
    let Ok(run) = run(words, None) else {
        return Vec::new();
    };
    let alone = (1..=8).all(|other| keeps(&run, other) == (other != premise));
    if !alone {
        return Vec::new();
    }
    failures(words).expect("the sheet is accepted")
}
