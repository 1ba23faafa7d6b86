//! "Actions and steps of one head h", and document 02, No. 4, "Closing when all
//! have spoken", and No. 5, "Readings of another candidate".

use crate::record::{median, Record};
use crate::words::{has_sender, has_serial, Cause, Reading, TIME_LIMIT};

/// "For one head the caller gives action, reading, sender, serial and what the
/// frame carries (zero where unused)".
#[derive(Clone, Copy, Debug, PartialEq, Eq, Default)]
pub struct Input {
    pub action: u32,
    pub reading: u32,
    pub sender: u32,
    pub serial: u32,
    /// The candidate (action 5) or the adjuster (action 8) that is carried.
    pub carried_head: u32,
    /// The reading (action 5) or the adjustment (action 8) that is carried.
    pub carried_reading: u32,
    /// The mark "none", for a vote without a reading.
    pub none: bool,
}

/// "the frame to send, if any: a start, or a vote or adjust with its serial".
#[derive(Clone, Copy, Debug, PartialEq, Eq, Hash)]
pub enum Frame {
    Start,
    /// "A vote carries the candidate and h's own start reading of it, or the
    /// mark "none"".
    Vote {
        serial: u32,
        candidate: u32,
        reading: Option<Reading>,
    },
    Adjust {
        serial: u32,
        adjuster: u32,
        adjustment: Reading,
    },
}

/// The input of a delivery of `frame`, or of an action that has no frame.
pub fn input(
    action: u32,
    reading: Reading,
    sender: u32,
    serial: u32,
    frame: Option<Frame>,
) -> Input {
    let plain = Input {
        action,
        reading: reading.0,
        sender,
        serial,
        ..Input::default()
    };
    match frame {
        Some(Frame::Vote {
            candidate, reading, ..
        }) => Input {
            carried_head: candidate,
            carried_reading: reading.map_or(0, |r| r.0),
            none: reading.is_none(),
            ..plain
        },
        Some(Frame::Adjust {
            adjuster,
            adjustment,
            ..
        }) => Input {
            carried_head: adjuster,
            carried_reading: adjustment.0,
            ..plain
        },
        Some(Frame::Start) | None => plain,
    }
}

/// What cause 6 asks of one head's input: "action above 9, head or sender not
/// below n, a must-be-zero field; for one head also a candidate or adjuster
/// not below n, a reading or adjustment of 2²⁸ or more, or a serial above 15".
/// "Beside the mark "none" (action 5 only) the carried reading is zero."
pub fn input_fits(n: u32, input: &Input) -> bool {
    if input.action > 9 || input.sender >= n || input.serial > 15 {
        return false;
    }
    if input.reading >= TIME_LIMIT || input.carried_reading >= TIME_LIMIT {
        return false;
    }
    if input.carried_head >= n {
        return false;
    }
    if !has_sender(input.action) && input.sender != 0 {
        return false;
    }
    // A serial and carried numbers are used by actions 5 and 8 alone.
    if !has_serial(input.action)
        && (input.serial != 0 || input.carried_head != 0 || input.carried_reading != 0)
    {
        return false;
    }
    if input.none && (input.action != 5 || input.carried_reading != 0) {
        return false;
    }
    true
}

/// Whether the action is spent: "After an early vote close any action 6, and after
/// an early adjust close any action 7 or 9, has no effect and isn't cause 9".
pub fn is_spent(h: &Record, action: u32) -> bool {
    match action {
        6 => h.vote_early,
        7 | 9 => h.adjust_early,
        _ => false,
    }
}

/// Whether the action is cause 9: closed, unless it is spent.
pub fn is_refused(h: &Record, action: u32, sender: u32) -> bool {
    !is_spent(h, action) && is_closed(h, action, sender)
}

/// Whether the action is closed, by the sentence of each action.
pub fn is_closed(h: &Record, action: u32, sender: u32) -> bool {
    match action {
        // "Closed if already sent, if h has a candidate, or after its vote close."
        1 => h.start_sent || h.candidate.is_some() || h.vote_close,
        // "Closed if not sent or already confirmed."
        3 => !h.start_sent || h.confirmed,
        // "Closed if not confirmed or already taken."
        4 => !h.confirmed || h.vote_turn,
        // "Closed if sender is h." and "8 adjust delivered: as 5".
        5 | 8 => sender == h.own,
        // "Closed if already taken."
        6 => h.vote_close,
        // "Closed before the vote close, if already taken, or after the adjust close."
        7 => !h.vote_close || h.adjust_turn || h.adjust_close,
        // "Closed before the vote close or if already taken."
        9 => !h.vote_close || h.adjust_close,
        _ => false,
    }
}

/// Document 02, No. 5: "only readings voted for the head's present candidate count;
/// changing candidate drops the others". Latest votes and serials stay.
fn drop_others(h: &mut Record) {
    for sender in 0..h.n as usize {
        if !h.names_candidate(sender) {
            h.kept[sender].vote_reading = None;
        }
    }
}

/// h takes `candidate` and votes. "A vote carries the candidate and h's own
/// start reading of it, or the mark "none"; it is also h's own vote reading."
/// "Serials count a head's votes from 0." It is h's own latest vote.
fn vote(h: &mut Record, candidate: u32) -> Frame {
    let reading = h.kept[candidate as usize].start_reading;
    let serial = h.votes_sent;
    h.candidate = Some(candidate);
    drop_others(h);
    h.kept[h.own as usize].vote_reading = reading;
    h.kept[h.own as usize].latest_vote = Some(candidate);
    h.votes_sent += 1;
    Frame::Vote {
        serial,
        candidate,
        reading,
    }
}

/// h takes adjuster and adjustment and sends both. It is h's own latest adjust.
fn adjust(h: &mut Record, adjuster: u32, adjustment: Reading) -> Frame {
    let serial = h.adjusts_sent;
    h.adjuster = Some(adjuster);
    h.adjustment = adjustment;
    h.kept[h.own as usize].latest_adjust = Some(adjuster);
    h.adjusts_sent += 1;
    Frame::Adjust {
        serial,
        adjuster,
        adjustment,
    }
}

/// "After 2 and 4: once the turn is taken, with the vote open, no candidate and
/// at least f + 1 start readings held, h becomes its own candidate and votes."
fn own_vote(h: &mut Record) -> Option<Frame> {
    let enough = h.start_readings().len() > h.f as usize;
    if h.vote_turn && !h.vote_close && h.candidate.is_none() && enough {
        return Some(vote(h, h.own));
    }
    None
}

/// Whether a carried head replaces the one held: "with no candidate, or a
/// carried one of higher rank (lower number)".
fn outranks(carried: u32, held: Option<u32>) -> bool {
    held.is_none_or(|held| carried < held)
}

/// "if the serial isn't above the last taken from that sender".
fn is_new(serial: u32, last: Option<u32>) -> bool {
    last.is_none_or(|last| serial > last)
}

/// Whether these papers call the action without effect on h: a look, what is spent,
/// and what comes after the close of its phase or with an old serial.
pub fn is_without_effect(h: &Record, input: &Input) -> bool {
    let kept = &h.kept[input.sender as usize];
    match input.action {
        // "0 look: only time and reading."
        0 => true,
        // "No effect after the adjust close."
        2 => h.adjust_close,
        // "No effect after the vote close or if the serial isn't above the last
        // taken from that sender."
        5 => h.vote_close || !is_new(input.serial, kept.vote_serial),
        // "as 5, with adjuster and adjustment, until the adjust close"
        8 => h.adjust_close || !is_new(input.serial, kept.adjust_serial),
        action => is_spent(h, action),
    }
}

/// "a head closes its vote as soon as its own and every other head's latest vote
/// name its candidate, and the adjust phase likewise with the adjuster, but never
/// before its vote close; "all" means all n." "vote first"
fn close_early(h: &mut Record) {
    let heads = h.n as usize;
    if let Some(candidate) = h.candidate {
        let mut latest = h.kept[..heads].iter().map(|kept| kept.latest_vote);
        if !h.vote_close && latest.all(|vote| vote == Some(candidate)) {
            h.vote_close = true;
            h.vote_early = true;
        }
    }
    if let Some(adjuster) = h.adjuster {
        let mut latest = h.kept[..heads].iter().map(|kept| kept.latest_adjust);
        let is_open = h.vote_close && !h.adjust_close;
        if is_open && latest.all(|adjust| adjust == Some(adjuster)) {
            h.adjust_close = true;
            h.adjust_early = true;
        }
    }
}

/// "Otherwise the carried reading (or none) becomes the sender's vote reading; with
/// no candidate, or a carried one of higher rank (lower number), h adopts it and
/// votes." Document 02, No. 5: "a vote taken that names another candidate leaves its
/// sender with none".
fn take_vote(h: &mut Record, input: &Input) -> Option<Frame> {
    let sender = input.sender as usize;
    h.kept[sender].vote_serial = Some(input.serial);
    h.kept[sender].latest_vote = Some(input.carried_head);
    let adopts = outranks(input.carried_head, h.candidate);
    let sent = adopts.then(|| vote(h, input.carried_head));
    // Asked of the candidate that h has now, adopted or not.
    let counts = h.names_candidate(sender) && !input.none;
    h.kept[sender].vote_reading = counts.then_some(Reading(input.carried_reading));
    sent
}

/// What an action does that is neither refused nor without effect, on all but the
/// last reading.
fn effect(h: &mut Record, input: &Input) -> Option<Frame> {
    let sender = input.sender as usize;
    match input.action {
        // "1 start sent: the start is the frame to send."
        1 => {
            h.start_sent = true;
            Some(Frame::Start)
        }
        // "2 start of the sender delivered, one's own too: its start reading
        // becomes this reading, again at each repeat."
        2 => {
            h.kept[sender].start_reading = Some(Reading(input.reading));
            own_vote(h)
        }
        // "3 own start confirmed."
        3 => {
            h.confirmed = true;
            None
        }
        // "4 vote turn."
        4 => {
            h.vote_turn = true;
            own_vote(h)
        }
        // "5 vote delivered."
        5 => take_vote(h, input),
        // "6 vote close."
        6 => {
            h.vote_close = true;
            None
        }
        // "7 adjust turn. [...] With a candidate, no adjuster and at least one
        // vote reading, h becomes adjuster, takes the median of the vote readings
        // as adjustment and sends both."
        7 => {
            h.adjust_turn = true;
            if h.candidate.is_some() && h.adjuster.is_none() {
                if let Some(adjustment) = median(&h.vote_readings()) {
                    return Some(adjust(h, h.own, adjustment));
                }
            }
            None
        }
        // "8 adjust delivered: as 5, with adjuster and adjustment, until the
        // adjust close; taken before the vote close too."
        8 => {
            h.kept[sender].adjust_serial = Some(input.serial);
            h.kept[sender].latest_adjust = Some(input.carried_head);
            if outranks(input.carried_head, h.adjuster) {
                let adjustment = Reading(input.carried_reading);
                return Some(adjust(h, input.carried_head, adjustment));
            }
            None
        }
        // "9 adjust close."
        9 => {
            h.adjust_close = true;
            None
        }
        // A look is without effect.
        _ => None,
    }
}

/// One step of one head: the record after it and the frame to send, or a
/// cause, with the record unchanged. "One head: 10, 6, 8, 9." "Every accepted
/// action makes its reading the last reading". Whether all have spoken "is tested
/// [...] at the end of each action but looks and those that these papers call
/// without effect".
pub fn step(record: &Record, input: &Input) -> Result<(Record, Option<Frame>), Cause> {
    if !record.in_ranges() {
        return Err(Cause(10));
    }
    if !input_fits(record.n, input) {
        return Err(Cause(6));
    }
    if Reading(input.reading) < record.last_reading {
        return Err(Cause(8));
    }
    if is_refused(record, input.action, input.sender) {
        return Err(Cause(9));
    }
    let mut after = record.clone();
    let mut frame = None;
    if !is_without_effect(record, input) {
        frame = effect(&mut after, input);
        close_early(&mut after);
    }
    after.last_reading = Reading(input.reading);
    Ok((after, frame))
}
