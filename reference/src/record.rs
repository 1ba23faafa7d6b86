//! A head's record, its ranges, its outcome and its correction.

use crate::words::{counts_allowed, Reading, MAX_HEADS, TIME_LIMIT};

/// What is kept "by each sender": "the last start reading, vote reading, and
/// vote and adjust serials taken"; and, by document 02, No. 4, whom its latest
/// vote and its latest adjust name. Each may be none.
#[derive(Clone, Copy, Debug, PartialEq, Eq, Hash, Default)]
pub struct Kept {
    pub start_reading: Option<Reading>,
    pub vote_reading: Option<Reading>,
    pub vote_serial: Option<u32>,
    pub adjust_serial: Option<u32>,
    pub latest_vote: Option<u32>,
    pub latest_adjust: Option<u32>,
}

/// "A head's record keeps n, f, its own number and last reading (0 when
/// fresh); by each sender, the last start reading, vote reading, and vote and
/// adjust serials taken; candidate; adjuster; adjustment; votes and adjusts
/// sent; six marks (start sent, confirmed, vote turn, vote close, adjust turn,
/// adjust close)." Document 02, No. 4, adds "a mark for each phase closed early".
#[derive(Clone, Debug, PartialEq, Eq, Hash)]
pub struct Record {
    pub n: u32,
    pub f: u32,
    pub own: u32,
    pub last_reading: Reading,
    pub kept: [Kept; MAX_HEADS],
    pub candidate: Option<u32>,
    pub adjuster: Option<u32>,
    pub adjustment: Reading,
    pub votes_sent: u32,
    pub adjusts_sent: u32,
    pub start_sent: bool,
    pub confirmed: bool,
    pub vote_turn: bool,
    pub vote_close: bool,
    pub adjust_turn: bool,
    pub adjust_close: bool,
    pub vote_early: bool,
    pub adjust_early: bool,
}

impl Record {
    /// "Before the first entry every head's record is fresh: n and f from the
    /// first word, its own number, last reading 0, no marks, nothing else kept
    /// or sent."
    pub fn fresh(n: u32, f: u32, own: u32) -> Record {
        Record {
            n,
            f,
            own,
            last_reading: Reading(0),
            kept: [Kept::default(); MAX_HEADS],
            candidate: None,
            adjuster: None,
            adjustment: Reading(0),
            votes_sent: 0,
            adjusts_sent: 0,
            start_sent: false,
            confirmed: false,
            vote_turn: false,
            vote_close: false,
            adjust_turn: false,
            adjust_close: false,
            vote_early: false,
            adjust_early: false,
        }
    }

    /// The start readings held, one at most by sender.
    pub fn start_readings(&self) -> Vec<Reading> {
        self.kept.iter().filter_map(|k| k.start_reading).collect()
    }

    /// The vote readings held, one at most by sender.
    pub fn vote_readings(&self) -> Vec<Reading> {
        self.kept.iter().filter_map(|k| k.vote_reading).collect()
    }

    /// The start reading of the candidate, if both are there.
    pub fn chosen_start_reading(&self) -> Option<Reading> {
        self.kept[self.candidate? as usize].start_reading
    }

    /// "Outcome 2 (adopted) if h has a candidate, its start reading and an
    /// adjuster; else 1. Outcome 0: no adjust close yet."
    pub fn outcome(&self) -> u32 {
        if !self.adjust_close {
            0
        } else if self.chosen_start_reading().is_some() && self.adjuster.is_some() {
            2
        } else {
            1
        }
    }

    /// "Correction is adjustment minus the candidate's start reading, signed".
    pub fn correction(&self) -> Option<i64> {
        let start = self.chosen_start_reading()?;
        Some(i64::from(self.adjustment.0) - i64::from(start.0))
    }

    /// "Record ranges", sentence by sentence. A record outside them is cause
    /// 10.
    pub fn in_ranges(&self) -> bool {
        let below_n = |number: Option<u32>| number.is_none_or(|x| x < self.n);
        let is_time = |reading: Option<Reading>| reading.is_none_or(|r| r.0 < TIME_LIMIT);
        let is_serial = |serial: Option<u32>| serial.is_none_or(|s| s <= 15);

        // "n, f as above"
        if !counts_allowed(self.n, self.f) {
            return false;
        }
        // "own number, candidate and adjuster below n"
        if self.own >= self.n || !below_n(self.candidate) || !below_n(self.adjuster) {
            return false;
        }
        // "readings and adjustment below 2²⁸; serials at most 15"
        if !is_time(Some(self.last_reading)) || !is_time(Some(self.adjustment)) {
            return false;
        }
        for kept in &self.kept {
            if !is_time(kept.start_reading)
                || !is_time(kept.vote_reading)
                || !is_serial(kept.vote_serial)
                || !is_serial(kept.adjust_serial)
            {
                return false;
            }
            // "each sender's latest vote and adjust (none, or below n)"
            if !below_n(kept.latest_vote) || !below_n(kept.latest_adjust) {
                return false;
            }
        }
        // There is no sender at n or above, so nothing is kept for one.
        if self.kept[self.n as usize..]
            .iter()
            .any(|&kept| kept != Kept::default())
        {
            return false;
        }
        // "the adjustment is 0 without an adjuster"
        if self.adjuster.is_none() && self.adjustment != Reading(0) {
            return false;
        }
        // "votes sent 0 exactly without a candidate v, else 1 to n − v, and
        // adjusts likewise with the adjuster"
        let count_fits = |sent: u32, choice: Option<u32>| match choice {
            None => sent == 0,
            Some(v) => 1 <= sent && sent <= self.n - v,
        };
        if !count_fits(self.votes_sent, self.candidate)
            || !count_fits(self.adjusts_sent, self.adjuster)
        {
            return false;
        }
        // "confirmed only if sent, turn only if confirmed, adjust turn or close
        // only after vote close"
        if (self.confirmed && !self.start_sent)
            || (self.vote_turn && !self.confirmed)
            || ((self.adjust_turn || self.adjust_close) && !self.vote_close)
        {
            return false;
        }
        // "a mark for each phase closed early, set only with that phase's close
        // mark"
        if (self.vote_early && !self.vote_close) || (self.adjust_early && !self.adjust_close) {
            return false;
        }
        !self.keeps_other_candidates()
    }

    /// Whether the sender's latest vote names the candidate; never without one.
    pub fn names_candidate(&self, sender: usize) -> bool {
        self.candidate.is_some() && self.kept[sender].latest_vote == self.candidate
    }

    /// Document 02, No. 5: "A record that keeps another sender's vote reading without
    /// that sender's latest vote naming the candidate is outside its ranges." The
    /// head's own vote reading is not asked.
    pub fn keeps_other_candidates(&self) -> bool {
        let mut others = (0..MAX_HEADS).filter(|&sender| sender != self.own as usize);
        others
            .any(|sender| self.kept[sender].vote_reading.is_some() && !self.names_candidate(sender))
    }
}

/// Document 02, No. 6: "With an even count, the adjustment becomes half the sum of the
/// two middle readings, rounded down." With an odd count it is still the middle one: "The
/// median of k readings in order is the one at place (k − 1) / 2, rounded down, from
/// place 0." None without a reading. Two readings, each below 2²⁸, have a sum in 32 bits.
pub fn median(readings: &[Reading]) -> Option<Reading> {
    let mut in_order = readings.to_vec();
    in_order.sort();
    match in_order.len() {
        0 => None,
        count if count.is_multiple_of(2) => {
            let sum = in_order[count / 2 - 1].0 + in_order[count / 2].0;
            Some(Reading(sum / 2))
        }
        count => Some(in_order[(count - 1) / 2]),
    }
}
