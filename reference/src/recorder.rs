//! Document 02, No. 1, "A recorder of our own": a run sheet written from n, f,
//! correct bits, drift, tightness and one list of six numbers an entry.

use crate::words::{counts_allowed, has_sender, has_serial, write_sheet};
use crate::words::{Cause, Entry, Reading, RealTime, Settings, MAX_ENTRIES, TIME_LIMIT};

/// "six numbers an entry, in M1's order": "real time, reading, head, action,
/// sender, serial".
fn entry_of(numbers: &[u32]) -> Entry {
    Entry {
        time: RealTime(numbers[0]),
        reading: Reading(numbers[1]),
        head: numbers[2],
        action: numbers[3],
        sender: numbers[4],
        serial: numbers[5],
    }
}

/// "12 when a field exceeds its width": the first two words'.
fn settings_within(given: &Settings) -> bool {
    given.n < 1 << 8
        && given.f < 1 << 4
        && given.correct < 1 << 16
        && given.drift < 1 << 12
        && given.tightness < 1 << 16
}

/// "12 when a field exceeds its width or is set where 01 wants zero": an
/// entry's.
fn entry_within(entry: &Entry) -> bool {
    let times = [entry.time.0, entry.reading.0];
    let others = [entry.head, entry.action, entry.sender, entry.serial];
    times.iter().all(|&time| time < TIME_LIMIT)
        && others.iter().all(|&field| field < 1 << 4)
        && (entry.sender == 0 || has_sender(entry.action))
        && (entry.serial == 0 || has_serial(entry.action))
}

/// "6 for an action above 9 or a head or sender not below n".
fn entry_fits(entry: &Entry, n: u32) -> bool {
    entry.action <= 9 && entry.head < n && entry.sender < n
}

/// Fills the buffer with the run sheet. "Every refusal comes before anything
/// is written, in this order"; "words past the last one written are kept".
pub fn record(given: &Settings, numbers: &[u32], out: &mut [u32]) -> Result<(), Cause> {
    // "1 for more than 24,576 numbers in the list"
    if numbers.len() > 6 * MAX_ENTRIES {
        return Err(Cause(1));
    }
    // "2 for a list that isn't whole sixes"
    if !numbers.len().is_multiple_of(6) {
        return Err(Cause(2));
    }
    let entries: Vec<Entry> = numbers.chunks(6).map(entry_of).collect();
    if !settings_within(given) || !entries.iter().all(entry_within) {
        return Err(Cause(12));
    }
    // "3 for n, f or a correct bit against the first word's rules"
    if !counts_allowed(given.n, given.f) || given.correct >> given.n != 0 {
        return Err(Cause(3));
    }
    if !entries.iter().all(|entry| entry_fits(entry, given.n)) {
        return Err(Cause(6));
    }
    // "5 for a short buffer"
    let words = write_sheet(given, &entries);
    let Some(front) = out.get_mut(..words.len()) else {
        return Err(Cause(5));
    };
    front.copy_from_slice(&words);
    Ok(())
}
