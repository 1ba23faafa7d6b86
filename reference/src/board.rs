//! One head of the proved static library beside the reference's: each action is
//! taken by both, and all that can be seen of them is compared. The record's
//! layout is the library's own; its ranges are those of documents 01 and 02.

use crate::counter::counter_reading;
use crate::record::{Kept, Record};
use crate::step::{step, Frame, Input};
use crate::words::{counts_allowed, Cause, Reading, MAX_HEADS, TIME_LIMIT};

/// The memory of a head; `at` says where it has what.
pub type Head = [u32; NUMBERS];
/// How many numbers a head's memory has.
pub const NUMBERS: usize = 112;

/// Where a head's memory has what. Readings, serials and latest frames stand by sender.
pub mod at {
    use std::ops::Range;

    pub const LAST: usize = 0;
    pub const MARKS: usize = 1;
    pub const ADJUSTMENT: usize = 2;
    pub const N: usize = 3;
    pub const F: usize = 4;
    pub const OWN: usize = 5;
    /// Four zeros.
    pub const SPARE: Range<usize> = 6..10;
    pub const START_READINGS: Range<usize> = 10..26;
    pub const VOTE_READINGS: Range<usize> = 26..42;
    pub const CANDIDATE: usize = 42;
    pub const VOTES_SENT: usize = 43;
    pub const VOTE_EARLY: usize = 44;
    pub const VOTE_SERIALS: Range<usize> = 45..61;
    pub const LATEST_VOTES: Range<usize> = 61..77;
    pub const ADJUSTER: usize = 77;
    pub const ADJUSTS_SENT: usize = 78;
    pub const ADJUST_EARLY: usize = 79;
    pub const ADJUST_SERIALS: Range<usize> = 80..96;
    pub const LATEST_ADJUSTS: Range<usize> = 96..112;
}

/// Action, reading, sender, serial, choice, carried, and the mark "none".
pub type InputNumbers = [u32; 7];

extern "C" {
    fn daisarnica_fresh(head: *mut Head, n: u32, f: u32, own: u32) -> u32;
    fn daisarnica_action(head: *mut Head, input: *const InputNumbers, frame: *mut [u32; 5]) -> u32;
    fn daisarnica_result(head: *const Head, ending: *mut [u32; 5]) -> u32;
    fn daisarnica_correction(head: *const Head) -> i64;
    fn daisarnica_reading(counter: u32, base: u32, reading: *mut u32) -> u32;
}

/// A frame as the interface writes it: the action that delivers it, serial,
/// candidate or adjuster, what is carried, and the mark "none".
fn frame_numbers(frame: Option<Frame>) -> [u32; 5] {
    match frame {
        None => [0; 5],
        Some(Frame::Start) => [2, 0, 0, 0, 0],
        Some(Frame::Vote {
            serial,
            candidate,
            reading,
        }) => {
            let none = u32::from(reading.is_none());
            [5, serial, candidate, reading.map_or(0, |r| r.0), none]
        }
        Some(Frame::Adjust {
            serial,
            adjuster,
            adjustment,
        }) => [8, serial, adjuster, adjustment.0, 0],
    }
}

/// How the round ended, as the interface writes it.
fn ending(record: &Record) -> [u32; 5] {
    let outcome = record.outcome();
    match (outcome, record.candidate, record.adjuster) {
        (2, Some(candidate), Some(adjuster)) => {
            let start = record.chosen_start_reading().map_or(0, |r| r.0);
            [outcome, candidate, adjuster, record.adjustment.0, start]
        }
        _ => [outcome, 0, 0, 0, 0],
    }
}

/// None is 0, and a number or reading is one more than itself.
fn number(word: u32) -> Option<u32> {
    word.checked_sub(1)
}

/// The marks' weights in the one number that they make; the last says that there
/// is a candidate.
const MARKS: [u32; 7] = [1, 2, 4, 8, 16, 32, 64];

/// The record that a head's memory holds. None if a mark beyond the seven is set,
/// the last of them disagrees with the candidate, a mark of an early close is neither
/// 0 nor 1, or a spare number is not 0.
pub fn record_in(head: &Head) -> Option<Record> {
    let mut kept = [Kept::default(); MAX_HEADS];
    for (p, kept) in kept.iter_mut().enumerate() {
        kept.start_reading = number(head[at::START_READINGS.start + p]).map(Reading);
        kept.vote_reading = number(head[at::VOTE_READINGS.start + p]).map(Reading);
        kept.vote_serial = number(head[at::VOTE_SERIALS.start + p]);
        kept.adjust_serial = number(head[at::ADJUST_SERIALS.start + p]);
        kept.latest_vote = number(head[at::LATEST_VOTES.start + p]);
        kept.latest_adjust = number(head[at::LATEST_ADJUSTS.start + p]);
    }
    let marks = head[at::MARKS];
    let [start_sent, confirmed, vote_turn, vote_close, adjust_turn, adjust_close, candidate] =
        MARKS.map(|weight| marks & weight != 0);
    if marks >= 128 || candidate != (head[at::CANDIDATE] != 0) {
        return None;
    }
    if head[at::VOTE_EARLY] > 1 || head[at::ADJUST_EARLY] > 1 || head[at::SPARE] != [0; 4] {
        return None;
    }
    Some(Record {
        n: head[at::N],
        f: head[at::F],
        own: head[at::OWN],
        last_reading: Reading(head[at::LAST]),
        kept,
        candidate: number(head[at::CANDIDATE]),
        adjuster: number(head[at::ADJUSTER]),
        adjustment: Reading(head[at::ADJUSTMENT]),
        votes_sent: head[at::VOTES_SENT],
        adjusts_sent: head[at::ADJUSTS_SENT],
        start_sent,
        confirmed,
        vote_turn,
        vote_close,
        adjust_turn,
        adjust_close,
        vote_early: head[at::VOTE_EARLY] == 1,
        adjust_early: head[at::ADJUST_EARLY] == 1,
    })
}

/// The memory with every head's latest vote naming the candidate (`delivery` 5), or
/// every latest adjust the adjuster (`delivery` 8), whoever it is. If that phase is
/// open, the next action that is not without effect closes it early.
pub fn all_spoken(head: &Head, delivery: u32) -> Head {
    let (choice, latest) = if delivery == 5 {
        (at::CANDIDATE, at::LATEST_VOTES)
    } else {
        (at::ADJUSTER, at::LATEST_ADJUSTS)
    };
    let mut spoken = *head;
    let n = (head[at::N] as usize).min(MAX_HEADS);
    spoken[latest][..n].fill(head[choice]);
    spoken
}

/// The memory with this vote reading and latest vote of a sender, each as the memory
/// counts it: 0 is none, else one more. Unless the sender is the head itself, the
/// reading has to be voted for the candidate (document 02, No. 5).
pub fn with_vote(head: &Head, sender: usize, reading: u32, named: u32) -> Head {
    let mut voted = *head;
    voted[at::VOTE_READINGS.start + sender] = reading;
    voted[at::LATEST_VOTES.start + sender] = named;
    voted
}

/// Numbers at, below and above the ends of what may stand at an index of the
/// memory of a head with this record, and such as fewer bits would cut.
pub fn edges(index: usize, record: &Record) -> [u32; 9] {
    let n = record.n;
    let top = match index {
        at::LAST | at::ADJUSTMENT => TIME_LIMIT - 1,
        at::MARKS => 127,
        at::CANDIDATE | at::ADJUSTER => n,
        at::VOTES_SENT => n.saturating_sub(record.candidate.unwrap_or(n)),
        at::ADJUSTS_SENT => n.saturating_sub(record.adjuster.unwrap_or(n)),
        at::N => MAX_HEADS as u32,
        at::F => n.saturating_sub(1) / 2,
        at::OWN => n.saturating_sub(1),
        at::VOTE_EARLY | at::ADJUST_EARLY => 1,
        i if at::SPARE.contains(&i) => 0,
        i if at::START_READINGS.contains(&i) || at::VOTE_READINGS.contains(&i) => TIME_LIMIT,
        i if at::VOTE_SERIALS.contains(&i) || at::ADJUST_SERIALS.contains(&i) => 16,
        _ => n,
    };
    let below = top.saturating_sub(1);
    let above = top.saturating_add(1);
    let cut = (top % 256).wrapping_add(256);
    [0, 1, 2, below, top, above, cut, 255, u32::MAX]
}

/// What the reference says to an action: the record and frame after it, or a
/// cause. A mark "none" that is neither 0 nor 1 is out of its range.
fn expected(
    record: Option<&Record>,
    numbers: &InputNumbers,
) -> Result<(Record, Option<Frame>), Cause> {
    let record = record.filter(|r| r.in_ranges()).ok_or(Cause(10))?;
    if numbers[6] > 1 {
        return Err(Cause(6));
    }
    let input = Input {
        action: numbers[0],
        reading: numbers[1],
        sender: numbers[2],
        serial: numbers[3],
        carried_head: numbers[4],
        carried_reading: numbers[5],
        none: numbers[6] == 1,
    };
    step(record, &input)
}

/// A head at both: its memory, and the record that the reference keeps. None
/// stands for memory that holds no record.
#[derive(Clone)]
pub struct Both {
    pub head: Head,
    pub record: Option<Record>,
}

impl Both {
    /// A fresh head at both, or the cause for which both refuse it.
    pub fn fresh(n: u32, f: u32, own: u32) -> Result<Result<Both, u32>, String> {
        let untouched = [u32::MAX; NUMBERS];
        let mut head = untouched;
        // The pointer is to memory of this function that holds the whole record.
        let cause = unsafe { daisarnica_fresh(&mut head, n, f, own) };
        let expected = match (counts_allowed(n, f), own < n) {
            (false, _) => 3,
            (true, false) => 6,
            (true, true) => 0,
        };
        let record = Some(Record::fresh(n, f, own));
        let kept = if expected == 0 {
            record_in(&head) == record
        } else {
            head == untouched
        };
        if cause != expected || !kept {
            return Err(format!("fresh {n} {f} {own}: {cause}, {head:?}"));
        }
        Ok(if cause == 0 {
            Ok(Both { head, record })
        } else {
            Err(cause)
        })
    }

    /// The same memory with other numbers in it.
    pub fn damaged(&self, head: Head) -> Both {
        Both {
            head,
            record: record_in(&head),
        }
    }

    /// Whether the memory holds a record in its ranges.
    pub fn in_ranges(&self) -> bool {
        self.record.as_ref().is_some_and(Record::in_ranges)
    }

    /// One action at both, which must agree: gives its cause, or 0.
    pub fn act(&mut self, numbers: &InputNumbers) -> Result<u32, String> {
        let before = self.head;
        let mut frame = [9; 5];
        let cause = unsafe { daisarnica_action(&mut self.head, numbers, &mut frame) };
        let (wanted, sent) = match expected(self.record.as_ref(), numbers) {
            Ok((after, sent)) => {
                self.record = Some(after);
                (0, sent)
            }
            Err(cause) => (cause.0, None),
        };
        let kept = if wanted == 0 {
            record_in(&self.head) == self.record
        } else {
            self.head == before
        };
        if cause == wanted && frame == frame_numbers(sent) && kept {
            self.same_ending().map(|()| cause)
        } else {
            Err(format!(
                "{numbers:?} of {before:?}: {cause} {frame:?} {:?}, not {wanted} {sent:?} {:?}",
                self.head, self.record
            ))
        }
    }

    /// How the round ended and the correction, at both.
    fn same_ending(&self) -> Result<(), String> {
        let mut end = [9; 5];
        let cause = unsafe { daisarnica_result(&self.head, &mut end) };
        let correction = unsafe { daisarnica_correction(&self.head) };
        let expected = match &self.record {
            Some(record) if record.in_ranges() => {
                let adopted = record.correction().filter(|_| record.outcome() == 2);
                (0, ending(record), adopted.unwrap_or(0))
            }
            _ => (10, [0; 5], 0),
        };
        if (cause, end, correction) == expected {
            Ok(())
        } else {
            let head = self.head;
            Err(format!(
                "ending of {head:?}: {cause} {end:?} {correction}, not {expected:?}"
            ))
        }
    }
}

/// A counter's reading at both.
pub fn same_counter(counter: u32, base: u32) -> Result<(), String> {
    let mut reading = 9;
    let cause = unsafe { daisarnica_reading(counter, base, &mut reading) };
    let expected = match counter_reading(counter, base) {
        Ok(reading) => (0, reading.0),
        Err(cause) => (cause.0, 0),
    };
    if (cause, reading) == expected {
        Ok(())
    } else {
        Err(format!(
            "counter {counter} {base}: {cause} {reading}, not {expected:?}"
        ))
    }
}
