//! "Result words", with the fourth one of document 02, No. 7, "Frames told exactly".

use crate::sheet::Run;
use crate::step::Frame;
use crate::words::{bits, MAX_HEADS};

/// The result words of one head: "Each head's result gains a fourth word".
pub const HEAD_WORDS: usize = 4;
/// Those of as many heads as there may be.
pub const RESULT_WORDS: usize = HEAD_WORDS * MAX_HEADS;

/// Document 02, No. 7: "each head's frames are told exactly: starts, votes and adjusts
/// it broadcast, as the steps broadcast them."
#[derive(Clone, Copy, Debug, Default, PartialEq, Eq)]
pub struct Broadcast {
    pub starts: u32,
    pub votes: u32,
    pub adjusts: u32,
}

impl Broadcast {
    /// The frames of a head in a run, each counted at the entry whose step sent it. How
    /// often a frame is delivered is no matter.
    pub fn of(run: &Run, head: u32) -> Broadcast {
        let mut sent = Broadcast::default();
        for (entry, frame) in run.entries.iter().zip(&run.frames) {
            if entry.head != head {
                continue;
            }
            match frame {
                None => {}
                Some(Frame::Start) => sent.starts += 1,
                Some(Frame::Vote { .. }) => sent.votes += 1,
                Some(Frame::Adjust { .. }) => sent.adjusts += 1,
            }
        }
        sent
    }

    /// All its frames.
    pub fn frames(&self) -> u32 {
        self.starts + self.votes + self.adjusts
    }

    /// "kind 9: bits 27–20 starts, 19–12 votes, 11–4 adjusts, rest zero"
    fn word(&self) -> u32 {
        9 << 28 | self.starts << 20 | self.votes << 12 | self.adjusts << 4
    }

    fn read(word: u32) -> Broadcast {
        Broadcast {
            starts: bits(word, 27, 20),
            votes: bits(word, 19, 12),
            adjusts: bits(word, 11, 4),
        }
    }
}

/// "in head order from word 0, later words kept".
pub fn write_results(run: &Run, buffer: &mut [u32]) {
    for (head, to) in (0..run.settings.n).zip(buffer.chunks_mut(HEAD_WORDS)) {
        to.copy_from_slice(&HeadResult::of(run, head).words());
    }
}

/// What the first words of a buffer say of n heads.
pub fn read_results(buffer: &[u32], n: u32) -> Vec<HeadResult> {
    let heads = buffer.chunks(HEAD_WORDS).take(n as usize);
    heads.map(HeadResult::read).collect()
}

/// What the result words say of a head.
#[derive(Clone, Copy, Debug, PartialEq, Eq)]
pub struct HeadResult {
    pub head: u32,
    pub outcome: u32,
    pub candidate: u32,
    pub adjuster: u32,
    pub adjustment: u32,
    pub start: u32,
    pub broadcast: Broadcast,
}

impl HeadResult {
    /// How a head ends a run. "All fields but kind, outcome and head are zero unless the
    /// outcome is 2", except the fourth word's, "set whatever the outcome".
    pub fn of(run: &Run, head: u32) -> HeadResult {
        let record = &run.records[head as usize];
        let mut result = HeadResult {
            head,
            outcome: record.outcome(),
            candidate: 0,
            adjuster: 0,
            adjustment: 0,
            start: 0,
            broadcast: Broadcast::of(run, head),
        };
        if result.outcome == 2 {
            result.candidate = record.candidate.expect("outcome 2 has a candidate");
            result.adjuster = record.adjuster.expect("outcome 2 has an adjuster");
            result.adjustment = record.adjustment.0;
            result.start = record
                .chosen_start_reading()
                .expect("outcome 2 has the candidate's start reading")
                .0;
        }
        result
    }

    /// Reads a head's result words.
    pub fn read(words: &[u32]) -> HeadResult {
        HeadResult {
            head: bits(words[0], 23, 20),
            outcome: bits(words[0], 27, 24),
            candidate: bits(words[0], 19, 16),
            adjuster: bits(words[0], 15, 12),
            adjustment: bits(words[1], 27, 0),
            start: bits(words[2], 27, 0),
            broadcast: Broadcast::read(words[3]),
        }
    }

    /// "kind 6 with bits 27–24 outcome, 23–20 head, 19–16 candidate, 15–12 adjuster, rest
    /// zero; kind 7 with the adjustment; kind 8 with the candidate's start reading"; and
    /// the fourth word.
    pub fn words(&self) -> [u32; HEAD_WORDS] {
        [
            6 << 28
                | self.outcome << 24
                | self.head << 20
                | self.candidate << 16
                | self.adjuster << 12,
            7 << 28 | self.adjustment,
            8 << 28 | self.start,
            self.broadcast.word(),
        ]
    }

    /// "kind 7's number less kind 8's as each head's correction"; 0 unless the
    /// outcome is 2, since both are then 0.
    pub fn correction(&self) -> i64 {
        i64::from(self.adjustment) - i64::from(self.start)
    }
}
