//! Document 02, No. 5, "Readings of another candidate", watched in a run: which
//! readings are dropped or left out, and whether a median is another without them.

use crate::record::{median, Record};
use crate::sheet::{run_observed, Run, Taken};
use crate::step::Frame;
use crate::words::{Reading, MAX_HEADS};

/// What the entries of a run can do with readings of another candidate.
pub const WAYS: [&str; 9] = [
    "5 adopts, readings of the former candidate dropped",
    "5 adopts, its sender's former reading replaced",
    "5 names another candidate, its reading left out",
    "5 names another candidate, with none",
    "5 names the candidate after its sender's reading was dropped",
    "5 names the candidate after its sender named another",
    "7 readings left out",
    "7 readings left out, the median another with them",
    "7 no vote reading but those left out",
];

/// What was seen of one head.
#[derive(Clone, Copy, Default)]
struct Seen {
    /// By sender, what the latest vote taken from it carries.
    carried: [Option<Reading>; MAX_HEADS],
    /// By sender, whether its reading was dropped since then.
    dropped: [bool; MAX_HEADS],
    /// Whether the head ever dropped a reading.
    drops: bool,
    /// The senders whose readings it left out when it became adjuster, and whether
    /// its median would have been another with them.
    left_out: u32,
    moved: bool,
}

/// The watch over a run; it is shown each entry.
#[derive(Default)]
pub struct Watch {
    heads: [Seen; MAX_HEADS],
    /// Which of `WAYS` the entries took, in order.
    pub ways: Vec<&'static str>,
}

impl Watch {
    /// The watch over a sheet, up to the entry that is refused if one is.
    pub fn over(words: &[u32]) -> Watch {
        let mut watch = Watch::default();
        let _ = run_observed(words, None, &mut |taken| watch.entry(taken));
        watch
    }

    pub fn entry(&mut self, taken: &Taken) {
        let sender = taken.entry.sender as usize;
        let serial = |r: &Record| r.kept[sender].vote_serial;
        match taken.delivered {
            // A vote without effect leaves the serial.
            Some(Frame::Vote {
                candidate, reading, ..
            }) if serial(taken.before) != serial(taken.after) => {
                self.vote(taken, candidate, reading);
            }
            None if taken.after.adjust_turn && !taken.before.adjust_turn => self.turn(taken),
            _ => {}
        }
    }

    fn vote(&mut self, taken: &Taken, candidate: u32, reading: Option<Reading>) {
        let (before, after, sender) = (taken.before, taken.after, taken.entry.sender as usize);
        let seen = &mut self.heads[before.own as usize];
        let is_dropped = |p: &usize| {
            let [old, new] = [before, after].map(|r| r.kept[*p].vote_reading);
            *p != before.own as usize && *p != sender && old.is_some() && new.is_none()
        };
        let dropped: Vec<usize> = (0..MAX_HEADS).filter(is_dropped).collect();
        let old = before.kept[sender];
        if taken.frame.is_some() {
            if !dropped.is_empty() {
                self.ways.push(WAYS[0]);
            }
            if old.vote_reading.is_some() {
                self.ways.push(WAYS[1]);
            }
        } else if after.candidate != Some(candidate) {
            self.ways.push(WAYS[if reading.is_some() { 2 } else { 3 }]);
        } else if seen.dropped[sender] {
            self.ways.push(WAYS[4]);
        } else if old.latest_vote.is_some() && !before.names_candidate(sender) {
            self.ways.push(WAYS[5]);
        }
        seen.drops |= !dropped.is_empty();
        dropped.iter().for_each(|&p| seen.dropped[p] = true);
        seen.dropped[sender] = false;
        seen.carried[sender] = reading;
    }

    fn turn(&mut self, taken: &Taken) {
        let h = taken.before;
        let seen = &mut self.heads[h.own as usize];
        if h.candidate.is_none() || h.adjuster.is_some() {
            return;
        }
        let is_left_out = |p: &usize| seen.carried[*p].is_some() && !h.names_candidate(*p);
        let left_out: Vec<usize> = (0..MAX_HEADS).filter(is_left_out).collect();
        if left_out.is_empty() {
            return;
        }
        let held = h.vote_readings();
        if held.is_empty() {
            self.ways.push(WAYS[8]);
            return;
        }
        self.ways.push(WAYS[6]);
        let others = left_out.iter().filter_map(|&p| seen.carried[p]);
        let all: Vec<Reading> = held.iter().copied().chain(others).collect();
        seen.left_out = left_out.iter().fold(0, |set, p| set | 1 << p);
        seen.moved = median(&all) != median(&held);
        if seen.moved {
            self.ways.push(WAYS[7]);
        }
    }

    /// What holds of a sheet that keeps all premises.
    pub fn kept_ways(&self, run: &Run) -> Vec<&'static str> {
        let correct = run.settings.correct_heads();
        let seen = |head: &u32| &self.heads[*head as usize];
        let adjuster = correct
            .first()
            .and_then(|&h| run.records[h as usize].adjuster);
        let faulty = !run.settings.correct;
        [
            (
                correct.iter().any(|h| seen(h).drops),
                "kept, a correct head dropped readings",
            ),
            (
                correct.iter().any(|h| seen(h).left_out & faulty != 0),
                "kept, a correct adjuster left out a faulty head's reading",
            ),
            (
                adjuster.is_some_and(|a| seen(&a).moved),
                "kept, the adjustment another with the readings left out",
            ),
        ]
        .into_iter()
        .filter(|(holds, _)| *holds)
        .map(|(_, name)| name)
        .collect()
    }
}
