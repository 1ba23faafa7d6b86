//! Document 02, No. 3, "Drafting a plain round": "the faultless round with drift
//! and tightness 0: all heads correct, clocks equal to real time, every frame
//! delivered, all six timed actions by every head".

use std::ops::Range;

use crate::words::{counts_allowed, write_sheet};
use crate::words::{Cause, Entry, Reading, RealTime, Settings, TIME_LIMIT};

/// Action, head and sender of an entry.
pub type Act = (u32, u32, u32);

/// "The room is known beforehand: 2 + 3 × (3n² + 4n) words."
pub fn room(n: u32) -> usize {
    let n = n as usize;
    2 + 3 * (3 * n * n + 4 * n)
}

/// How often real time moves on for n heads: each head has six timed actions and
/// three frames, and all of these but the first come after another.
pub fn steps(n: u32) -> u32 {
    9 * n - 1
}

/// A timed action by these heads, each at a real time of its own.
fn by(heads: Range<u32>, action: u32) -> Vec<Vec<Act>> {
    heads.map(|head| vec![(action, head, 0)]).collect()
}

/// The deliveries of these senders' frames to n heads, "own included" for a start.
/// "deliveries of the same frame share" a real time.
fn from(senders: Range<u32>, action: u32, n: u32) -> Vec<Vec<Act>> {
    senders
        .map(|sender| {
            (0..n)
                .filter(|&head| action == 2 || head != sender)
                .map(|head| (action, head, sender))
                .collect()
        })
        .collect()
}

/// What happens at each real time in turn. "Within each, senders and then
/// receivers rise by number."
fn round(n: u32) -> Vec<Vec<Act>> {
    [
        // "1 by all; the starts' deliveries, own included; 3 by all"
        by(0..n, 1),
        from(0..n, 2, n),
        by(0..n, 3),
        // "head 0's 4, its vote's deliveries, 4 by the others, their votes'
        // deliveries; 6 by all"
        by(0..1, 4),
        from(0..1, 5, n),
        by(1..n, 4),
        from(1..n, 5, n),
        by(0..n, 6),
        // "7 and the adjusts in the manner of 4 and the votes; 9 by all"
        by(0..1, 7),
        from(0..1, 8, n),
        by(1..n, 7),
        from(1..n, 8, n),
        by(0..n, 9),
    ]
    .concat()
}

/// "clocks equal to real time". Each head votes and adjusts once, so the serials
/// are 0.
pub fn entry(time: u32, (action, head, sender): Act) -> Entry {
    Entry {
        time: RealTime(time),
        reading: Reading(time),
        action,
        head,
        sender,
        serial: 0,
    }
}

/// Fills the buffer with the drafted sheet. A refusal "leaves the buffer
/// untouched"; "words past the last one written are kept".
pub fn draft(n: u32, f: u32, first: u32, spacing: u32, out: &mut [u32]) -> Result<(), Cause> {
    // "Bad n or f is cause 3"
    if !counts_allowed(n, f) {
        return Err(Cause(3));
    }
    // "then 13 when the last real time would reach 2²⁸"
    let round = round(n);
    let last = u64::from(first) + u64::from(spacing) * (round.len() as u64 - 1);
    if last >= u64::from(TIME_LIMIT) {
        return Err(Cause(13));
    }
    let entries: Vec<Entry> = (0..)
        .zip(round)
        .flat_map(|(step, acts)| acts.into_iter().map(move |act| (step, act)))
        .map(|(step, act)| entry(first + spacing * step, act))
        .collect();
    let settings = Settings {
        n,
        f,
        correct: (1 << n) - 1,
        drift: 0,
        tightness: 0,
    };
    let words = write_sheet(&settings, &entries);
    // "then cause 5"
    let Some(front) = out.get_mut(..words.len()) else {
        return Err(Cause(5));
    };
    front.copy_from_slice(&words);
    Ok(())
}
