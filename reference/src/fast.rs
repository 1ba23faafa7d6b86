//! A second form of replay and judge: one pass over the words, with bit sets
//! and running minima. It shares only the reading of settings and the numbers of
//! the causes with the plain form, and is checked against it.

use crate::program::{accepted_text, read_words, refused_text};
use crate::results::{Broadcast, HeadResult};
use crate::sheet::check_front;
use crate::words::{Cause, Refusal, Settings, MAX_HEADS};

/// No candidate and no adjuster: above every head's number, so that "no
/// candidate, or a carried one of higher rank" is one comparison.
const NOBODY: u8 = 16;
/// The mark "none" of a vote: no time of 28 bits.
const NO_READING: u32 = u32::MAX;

const START_SENT: u8 = 1;
const CONFIRMED: u8 = 2;
const VOTE_TURN: u8 = 4;
const VOTE_CLOSE: u8 = 8;
const ADJUST_TURN: u8 = 16;
const ADJUST_CLOSE: u8 = 32;
const VOTE_EARLY: u8 = 64;
const ADJUST_EARLY: u8 = 128;

/// Votes or adjusts, as a head sees them.
#[derive(Clone, Copy)]
struct Phase {
    /// Candidate or adjuster.
    choice: u8,
    /// Frames sent, each with the head and the reading that it carries.
    sent: u8,
    frames: [(u8, u32); MAX_HEADS],
    /// By sender, the least serial that is above the last taken.
    next: [u8; MAX_HEADS],
    /// By whom they name, the heads whose latest frame names it, the own one's too.
    named: [u16; MAX_HEADS],
}

const EMPTY: Phase = Phase {
    choice: NOBODY,
    sent: 0,
    frames: [(0, 0); MAX_HEADS],
    next: [0; MAX_HEADS],
    named: [0; MAX_HEADS],
};

impl Phase {
    fn send(&mut self, own: usize, choice: u8, reading: u32) {
        self.choice = choice;
        self.frames[self.sent as usize] = (choice, reading);
        self.sent += 1;
        self.hear(own, choice);
    }

    /// The latest frame of a head names this one, and no other any more.
    fn hear(&mut self, from: usize, choice: u8) {
        self.named
            .iter_mut()
            .for_each(|heads| *heads &= !(1 << from));
        self.named[choice as usize] |= 1 << from;
    }

    fn all_name_choice(&self, all: u16) -> bool {
        self.choice != NOBODY && self.named[self.choice as usize] == all
    }
}

#[derive(Clone, Copy)]
struct Head {
    last: u32,
    marks: u8,
    /// Senders whose start reading is held, and the readings.
    starts: u16,
    start: [u32; MAX_HEADS],
    /// By sender, what its latest vote carries: a reading or `NO_READING`.
    vote: [u32; MAX_HEADS],
    adjustment: u32,
    votes: Phase,
    adjusts: Phase,
}

const FRESH: Head = Head {
    last: 0,
    marks: 0,
    starts: 0,
    start: [0; MAX_HEADS],
    vote: [NO_READING; MAX_HEADS],
    adjustment: 0,
    votes: EMPTY,
    adjusts: EMPTY,
};

impl Head {
    fn has(&self, mark: u8) -> bool {
        self.marks & mark != 0
    }

    fn send_vote(&mut self, own: usize, candidate: u8) {
        let held = self.starts >> candidate & 1 == 1;
        let reading = if held {
            self.start[candidate as usize]
        } else {
            NO_READING
        };
        self.vote[own] = reading;
        self.votes.send(own, candidate, reading);
    }

    fn own_vote(&mut self, own: usize, f: u32) {
        if self.marks & (VOTE_TURN | VOTE_CLOSE) == VOTE_TURN
            && self.votes.choice == NOBODY
            && self.starts.count_ones() > f
        {
            self.send_vote(own, own as u8);
        }
    }

    /// The phases to which all have spoken are closed early. In a run this finds
    /// nothing after an entry without effect, so it is asked after every entry.
    fn close_early(&mut self, all: u16) {
        if !self.has(VOTE_CLOSE) && self.votes.all_name_choice(all) {
            self.marks |= VOTE_CLOSE | VOTE_EARLY;
        }
        if self.marks & (VOTE_CLOSE | ADJUST_CLOSE) == VOTE_CLOSE
            && self.adjusts.all_name_choice(all)
        {
            self.marks |= ADJUST_CLOSE | ADJUST_EARLY;
        }
    }

    /// The median of what the latest votes that name the candidate carry. In a run
    /// these are the vote readings: a head's candidate only rises in rank and it
    /// adopts any higher one, so a vote that did not name its candidate when it was
    /// taken never names a later one.
    fn vote_median(&self) -> Option<u32> {
        let named = self.votes.named[self.votes.choice as usize];
        let mut held = self.vote;
        for (from, vote) in held.iter_mut().enumerate() {
            if named >> from & 1 == 0 {
                *vote = NO_READING;
            }
        }
        held.sort_unstable();
        // `NO_READING` is the largest, so the readings held come first.
        let count = held.partition_point(|&r| r != NO_READING);
        // The two in the middle; with an odd count both are the one there.
        let low = held[count.checked_sub(1)? / 2];
        let high = held[count / 2];
        Some(low + (high - low) / 2)
    }

    fn result(&self, own: usize) -> HeadResult {
        let (candidate, adjuster) = (self.votes.choice, self.adjusts.choice);
        let adopted = self.has(ADJUST_CLOSE)
            && candidate != NOBODY
            && adjuster != NOBODY
            && self.starts >> candidate & 1 == 1;
        let head = own as u32;
        let broadcast = Broadcast {
            starts: self.has(START_SENT).into(),
            votes: self.votes.sent.into(),
            adjusts: self.adjusts.sent.into(),
        };
        if adopted {
            return HeadResult {
                head,
                outcome: 2,
                candidate: candidate.into(),
                adjuster: adjuster.into(),
                adjustment: self.adjustment,
                start: self.start[candidate as usize],
                broadcast,
            };
        }
        HeadResult {
            head,
            outcome: self.has(ADJUST_CLOSE).into(),
            candidate: 0,
            adjuster: 0,
            adjustment: 0,
            start: 0,
            broadcast,
        }
    }
}

/// What the judge keeps in its pass. Sets of heads are bit sets.
struct Judge {
    settings: Settings,
    correct: u16,
    /// Bit k: premise k is broken.
    broken: u16,
    /// Premise 2, by head: the least of 1,000,000 · (reading − time) − drift ·
    /// time, and the greatest of 1,000,000 · (reading − time) + drift · time.
    least: [i64; MAX_HEADS],
    greatest: [i64; MAX_HEADS],
    /// By action, the heads that took it.
    took: [u16; 10],
    /// By sender, the heads that its start reached, and when it last did.
    start_reached: [u16; MAX_HEADS],
    start_times: [[u32; MAX_HEADS]; MAX_HEADS],
    /// By sender and serial, the heads that a vote or an adjust reached.
    vote_reached: [[u16; MAX_HEADS]; MAX_HEADS],
    adjust_reached: [[u16; MAX_HEADS]; MAX_HEADS],
    /// A correct head that was open closed its votes, or its adjust phase, by entry.
    vote_closed: bool,
    adjust_closed: bool,
    /// A vote or adjust reached a correct head after the first such close.
    late_vote: bool,
    late_adjust: bool,
}

/// The heads with this mark.
fn marked(heads: &[Head; MAX_HEADS], mark: u8) -> u16 {
    let bits = heads.iter().map(|h| u16::from(h.has(mark)));
    bits.rfold(0, |set, bit| set << 1 | bit)
}

impl Judge {
    fn new(settings: Settings) -> Judge {
        Judge {
            settings,
            correct: settings.correct as u16,
            broken: 0,
            least: [i64::MAX / 2; MAX_HEADS],
            greatest: [i64::MIN / 2; MAX_HEADS],
            took: [0; 10],
            start_reached: [0; MAX_HEADS],
            start_times: [[0; MAX_HEADS]; MAX_HEADS],
            vote_reached: [[0; MAX_HEADS]; MAX_HEADS],
            adjust_reached: [[0; MAX_HEADS]; MAX_HEADS],
            vote_closed: false,
            adjust_closed: false,
            late_vote: false,
            late_adjust: false,
        }
    }

    fn ask(&mut self, premise: u32, kept: bool) {
        if !kept {
            self.broken |= 1 << premise;
        }
    }

    /// Whether the set holds all correct heads.
    fn is_whole(&self, set: u16) -> bool {
        set & self.correct == self.correct
    }

    /// Whether each frame of a correct head reached all other correct heads.
    fn frames_reached(
        &self,
        reached: &[[u16; MAX_HEADS]; MAX_HEADS],
        heads: &[Head; MAX_HEADS],
        sent: fn(&Head) -> u8,
    ) -> bool {
        (0..MAX_HEADS)
            .filter(|&x| self.correct >> x & 1 == 1)
            .all(|x| {
                let frames = &reached[x][..sent(&heads[x]) as usize];
                frames.iter().all(|&set| self.is_whole(set | 1 << x))
            })
    }

    /// One entry, judged before its head takes it.
    #[allow(clippy::too_many_arguments)]
    fn entry(
        &mut self,
        heads: &[Head; MAX_HEADS],
        time: u32,
        reading: u32,
        action: usize,
        head: usize,
        sender: usize,
        serial: usize,
    ) {
        let bit = 1u16 << head;
        let is_correct = self.correct & bit != 0;
        if is_correct {
            let offset = 1_000_000 * (i64::from(reading) - i64::from(time));
            let drifted = i64::from(self.settings.drift) * i64::from(time);
            let (low, high) = (offset - drifted, offset + drifted);
            let kept =
                low - self.least[head] <= 1_000_000 && self.greatest[head] - high <= 1_000_000;
            self.ask(2, kept);
            self.least[head] = self.least[head].min(low);
            self.greatest[head] = self.greatest[head].max(high);
        }
        match action {
            2 => {
                self.ask(3, !(is_correct && self.took[3] >> sender & 1 == 1));
                self.start_reached[sender] |= bit;
                self.start_times[sender][head] = time;
            }
            3 => {
                let times = (0..MAX_HEADS)
                    .filter(|&x| self.correct >> x & 1 == 1)
                    .map(|x| self.start_times[head][x]);
                let width = times.clone().max().unwrap_or(0) - times.min().unwrap_or(0);
                let whole = self.is_whole(self.start_reached[head]);
                self.ask(3, whole && width <= self.settings.tightness);
            }
            5 => {
                self.vote_reached[sender][serial] |= bit;
                self.late_vote |= is_correct && self.vote_closed;
            }
            6 if is_correct && !heads[head].has(VOTE_EARLY) => {
                if !self.vote_closed {
                    let led = self.took[1] & self.took[3] & self.took[4];
                    let kept = self.is_whole(led | self.took[5])
                        && (0..MAX_HEADS)
                            .filter(|&x| (self.took[1] & self.correct) >> x & 1 == 1)
                            .all(|x| self.is_whole(self.start_reached[x]))
                        && self.frames_reached(&self.vote_reached, heads, |h| h.votes.sent);
                    self.ask(5, kept);
                    self.vote_closed = true;
                }
                self.ask(6, !self.late_vote);
            }
            8 => {
                self.adjust_reached[sender][serial] |= bit;
                self.late_adjust |= is_correct && self.adjust_closed;
            }
            9 if is_correct && !heads[head].has(ADJUST_EARLY) => {
                if !self.adjust_closed {
                    let kept = self.is_whole(self.took[7] | marked(heads, ADJUST_EARLY))
                        && self.frames_reached(&self.adjust_reached, heads, |h| h.adjusts.sent);
                    self.ask(7, kept);
                    self.adjust_closed = true;
                }
                self.ask(8, !self.late_adjust);
            }
            _ => {}
        }
        self.took[action] |= bit;
    }

    /// The first broken premise, or 0, after the last entry.
    fn verdict(mut self, heads: &[Head; MAX_HEADS]) -> u32 {
        let enough = self.settings.n - self.settings.f;
        self.ask(1, self.correct.count_ones() >= enough);
        let voted = self.took[6] | marked(heads, VOTE_EARLY);
        let adjusted = self.took[7] & self.took[9] | marked(heads, ADJUST_EARLY);
        self.ask(4, self.is_whole(voted & adjusted));
        match self.broken {
            0 => 0,
            broken => broken.trailing_zeros(),
        }
    }
}

/// The results and the first broken premise of a sheet, or its refusal. With a
/// buffer length, cause 5 is tested too.
pub fn answer(words: &[u32], buffer: Option<usize>) -> Result<(Vec<HeadResult>, u32), Refusal> {
    let settings = check_front(words, buffer)?;
    let n = settings.n;
    let all = u16::MAX >> (16 - n);
    let mut heads = [FRESH; MAX_HEADS];
    let mut judge = Judge::new(settings);
    let mut now = 0;
    for (index, entry) in words[2..].chunks_exact(3).enumerate() {
        let refused = |number| {
            Err(Refusal {
                cause: Cause(number),
                place: 2 + 3 * index,
            })
        };
        let (time, reading, third) = (entry[0] ^ 0x3000_0000, entry[1] ^ 0x4000_0000, entry[2]);
        let action = (third >> 24 & 15) as usize;
        let head = (third >> 20 & 15) as usize;
        let sender = (third >> 16 & 15) as usize;
        let serial = (third >> 12 & 15) as usize;
        // By action, the bits of the third word that may be set.
        let used: u32 = match action {
            2 => 0x0FFF_0000,
            5 | 8 => 0x0FFF_F000,
            0..=9 => 0x0FF0_0000,
            _ => return refused(6),
        };
        if (time | reading) >> 28 != 0
            || (third ^ 0x5000_0000) & !used != 0
            || head as u32 >= n
            || sender as u32 >= n
        {
            return refused(6);
        }
        if time < now {
            return refused(7);
        }
        if reading < heads[head].last {
            return refused(8);
        }
        let from = &heads[sender];
        let h = &heads[head];
        let closed = match action {
            1 => h.has(START_SENT | VOTE_CLOSE) || h.votes.choice != NOBODY,
            2 => !from.has(START_SENT),
            3 => h.marks & (START_SENT | CONFIRMED) != START_SENT,
            4 => h.marks & (CONFIRMED | VOTE_TURN) != CONFIRMED,
            5 => sender == head || serial >= from.votes.sent as usize,
            6 => h.marks & (VOTE_CLOSE | VOTE_EARLY) == VOTE_CLOSE,
            7 | 9 if h.has(ADJUST_EARLY) => false,
            7 => h.marks & (VOTE_CLOSE | ADJUST_TURN | ADJUST_CLOSE) != VOTE_CLOSE,
            8 => sender == head || serial >= from.adjusts.sent as usize,
            9 => h.marks & (VOTE_CLOSE | ADJUST_CLOSE) != VOTE_CLOSE,
            _ => false,
        };
        if closed {
            return refused(9);
        }
        judge.entry(&heads, time, reading, action, head, sender, serial);
        now = time;
        let vote = from.votes.frames[serial];
        let adjust = from.adjusts.frames[serial];
        let h = &mut heads[head];
        h.last = reading;
        match action {
            1 => h.marks |= START_SENT,
            2 if !h.has(ADJUST_CLOSE) => {
                h.starts |= 1 << sender;
                h.start[sender] = reading;
                h.own_vote(head, settings.f);
            }
            3 => h.marks |= CONFIRMED,
            4 => {
                h.marks |= VOTE_TURN;
                h.own_vote(head, settings.f);
            }
            5 if !h.has(VOTE_CLOSE) && serial as u8 >= h.votes.next[sender] => {
                h.votes.next[sender] = serial as u8 + 1;
                h.vote[sender] = vote.1;
                h.votes.hear(sender, vote.0);
                if vote.0 < h.votes.choice {
                    h.send_vote(head, vote.0);
                }
            }
            6 => h.marks |= VOTE_CLOSE,
            7 if !h.has(ADJUST_EARLY) => {
                h.marks |= ADJUST_TURN;
                if h.votes.choice != NOBODY && h.adjusts.choice == NOBODY {
                    if let Some(median) = h.vote_median() {
                        h.adjustment = median;
                        h.adjusts.send(head, head as u8, median);
                    }
                }
            }
            8 if !h.has(ADJUST_CLOSE) && serial as u8 >= h.adjusts.next[sender] => {
                h.adjusts.next[sender] = serial as u8 + 1;
                h.adjusts.hear(sender, adjust.0);
                if adjust.0 < h.adjusts.choice {
                    h.adjustment = adjust.1;
                    h.adjusts.send(head, adjust.0, adjust.1);
                }
            }
            9 => h.marks |= ADJUST_CLOSE,
            _ => {}
        }
        h.close_early(all);
    }
    let results = (0..n as usize).map(|own| heads[own].result(own)).collect();
    Ok((results, judge.verdict(&heads)))
}

/// What the program prints for the bytes on its standard input.
pub fn printed(bytes: &[u8]) -> String {
    match read_words(bytes).and_then(|words| answer(&words, None)) {
        Ok((results, premise)) => accepted_text(&results, premise),
        Err(refusal) => refused_text(refusal),
    }
}
