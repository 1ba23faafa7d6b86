//! "The eight premises", each as plain loops over the entries, with what document
//! 02, No. 4, says of phases closed early. "Before and after, earlier and later go
//! by the order of entries".

use crate::sheet::{run, Run};
use crate::step::Frame;
use crate::words::{Entry, Refusal};

/// The judge: the first broken premise, or 0 if all are kept. "The judge, which
/// has no result buffer, tests the same without 5."
pub fn judge(words: &[u32]) -> Result<u32, Refusal> {
    Ok(first_broken(&run(words, None)?))
}

/// The first broken premise of a sheet that was run to its end, or 0.
pub fn first_broken(run: &Run) -> u32 {
    (1..=8).find(|&premise| !keeps(run, premise)).unwrap_or(0)
}

/// Whether a run keeps one premise: all that it asks.
pub fn keeps(run: &Run, premise: u32) -> bool {
    (0..parts(premise)).all(|part| keeps_part(run, premise, part))
}

/// How many things a premise asks.
pub fn parts(premise: u32) -> usize {
    match premise {
        3..=5 => 3,
        7 => 2,
        _ => 1,
    }
}

/// One of the things that a premise asks, in the order of its sentence.
pub fn keeps_part(run: &Run, premise: u32, part: usize) -> bool {
    match (premise, part) {
        (1, _) => enough_correct(run),
        (2, _) => clocks_steady(run),
        (3, 0) => confirmed_delivered(run),
        (3, 1) => confirmed_within_tightness(run),
        (3, _) => confirmed_not_later(run),
        (4, 0) => all_take(run, run.entries.len(), 6),
        (4, 1) => all_take(run, run.entries.len(), 7),
        (4, _) => all_take(run, run.entries.len(), 9),
        (5, 0) => all_took_turn_or_got_vote(run),
        (5, 1) => starts_reached(run),
        (5, _) => frames_reached(run, 5, 6),
        (6, _) => no_delivery_between(run, 5, 6),
        (7, 0) => all_take_7_before(run),
        (7, _) => frames_reached(run, 8, 9),
        _ => no_delivery_between(run, 8, 9),
    }
}

/// "1. At least n − f heads are correct."
fn enough_correct(run: &Run) -> bool {
    let correct = run.settings.correct_heads().len() as u32;
    correct >= run.settings.n - run.settings.f
}

/// "2. For two entries of a correct head, real times s ≤ t, readings a, b:
/// 1,000,000 × |(b − a) − (t − s)| ≤ drift × (t − s) + 1,000,000."
fn clocks_steady(run: &Run) -> bool {
    for head in run.settings.correct_heads() {
        let own: Vec<&Entry> = run.entries.iter().filter(|e| e.head == head).collect();
        for (index, earlier) in own.iter().enumerate() {
            for later in &own[index + 1..] {
                let (s, t) = (i64::from(earlier.time.0), i64::from(later.time.0));
                let (a, b) = (i64::from(earlier.reading.0), i64::from(later.reading.0));
                let drift = i64::from(run.settings.drift);
                if 1_000_000 * ((b - a) - (t - s)).abs() > drift * (t - s) + 1_000_000 {
                    return false;
                }
            }
        }
    }
    true
}

/// Whether an entry delivers the start of `sender` to `head`.
fn delivers_start(entry: &Entry, head: u32, sender: u32) -> bool {
    entry.action == 2 && entry.head == head && entry.sender == sender
}

/// The indices of the entries that confirm a start, "by any head".
fn confirm_indices(run: &Run) -> Vec<usize> {
    let indices = 0..run.entries.len();
    indices.filter(|&i| run.entries[i].action == 3).collect()
}

/// "3. A start confirmed by any head was delivered earlier to every correct
/// head".
fn confirmed_delivered(run: &Run) -> bool {
    for index in confirm_indices(run) {
        let sender = run.entries[index].head;
        let earlier = &run.entries[..index];
        for head in run.settings.correct_heads() {
            if !earlier.iter().any(|e| delivers_start(e, head, sender)) {
                return false;
            }
        }
    }
    true
}

/// "their last deliveries lie within the tightness", in real time.
fn confirmed_within_tightness(run: &Run) -> bool {
    for index in confirm_indices(run) {
        let sender = run.entries[index].head;
        let earlier = &run.entries[..index];
        let mut last_deliveries = Vec::new();
        for head in run.settings.correct_heads() {
            let last = earlier.iter().rfind(|e| delivers_start(e, head, sender));
            last_deliveries.extend(last.map(|e| e.time.0));
        }
        for x in &last_deliveries {
            for y in &last_deliveries {
                if x.abs_diff(*y) > run.settings.tightness {
                    return false;
                }
            }
        }
    }
    true
}

/// "and none reaches a correct head later."
fn confirmed_not_later(run: &Run) -> bool {
    for index in confirm_indices(run) {
        let sender = run.entries[index].head;
        let later = &run.entries[index + 1..];
        for head in run.settings.correct_heads() {
            if later.iter().any(|e| delivers_start(e, head, sender)) {
                return false;
            }
        }
    }
    true
}

/// Whether `head` takes `action` in one of the entries.
fn takes(entries: &[Entry], head: u32, action: u32) -> bool {
    entries.iter().any(|e| e.head == head && e.action == action)
}

/// Whether `head` closes its votes (`close` 6) or its adjust phase (`close` 9)
/// early in one of the entries before `end`.
fn closes_early(run: &Run, end: usize, head: u32, close: u32) -> bool {
    let phase = usize::from(close == 9);
    (0..end).any(|i| run.entries[i].head == head && run.early[i][phase])
}

/// "4. Every correct head takes actions 6, 7 and 9.", for one action, in the entries
/// before `end`. "Premise 4 counts an early vote close as 6 taken; an early adjust
/// close counts as 7 and 9 taken in premises 4 and 7."
fn all_take(run: &Run, end: usize, action: u32) -> bool {
    let close = if action == 6 { 6 } else { 9 };
    for head in run.settings.correct_heads() {
        if !takes(&run.entries[..end], head, action) && !closes_early(run, end, head, close) {
            return false;
        }
    }
    true
}

/// The indices of the correct heads' entries with this action.
fn correct_indices(run: &Run, action: u32) -> Vec<usize> {
    (0..run.entries.len())
        .filter(|&i| run.entries[i].action == action)
        .filter(|&i| run.settings.is_correct(run.entries[i].head))
        .collect()
}

/// The indices of the correct closes, of votes (`close` 6) or adjusts (`close` 9).
/// "Premises 5 to 8 look at closes by entry only at heads still open": an action of a
/// head that has closed early before is none.
pub fn close_indices(run: &Run, close: u32) -> Vec<usize> {
    let mut indices = correct_indices(run, close);
    indices.retain(|&i| !closes_early(run, i, run.entries[i].head, close));
    indices
}

/// The entries before the first correct close. None without such a close: the
/// premises "ask nothing where there is no such close".
fn before_close(run: &Run, close: u32) -> Option<&[Entry]> {
    let first = *close_indices(run, close).first()?;
    Some(&run.entries[..first])
}

/// "5. Before the first correct vote close, every correct head either took all
/// of 1, 3 and 4 or was delivered a vote".
fn all_took_turn_or_got_vote(run: &Run) -> bool {
    let Some(before) = before_close(run, 6) else {
        return true;
    };
    for head in run.settings.correct_heads() {
        let took_all = takes(before, head, 1) && takes(before, head, 3) && takes(before, head, 4);
        let was_delivered_a_vote = takes(before, head, 5);
        if !took_all && !was_delivered_a_vote {
            return false;
        }
    }
    true
}

/// "each start a correct head sent by then reached, by then, all correct heads".
fn starts_reached(run: &Run) -> bool {
    let Some(before) = before_close(run, 6) else {
        return true;
    };
    for sender in run.settings.correct_heads() {
        if !takes(before, sender, 1) {
            continue;
        }
        for head in run.settings.correct_heads() {
            if !before.iter().any(|e| delivers_start(e, head, sender)) {
                return false;
            }
        }
    }
    true
}

/// The serial of a vote (`delivery` 5) or adjust (`delivery` 8), if the frame is
/// one.
fn serial_of(frame: Option<Frame>, delivery: u32) -> Option<u32> {
    match frame {
        Some(Frame::Vote { serial, .. }) if delivery == 5 => Some(serial),
        Some(Frame::Adjust { serial, .. }) if delivery == 8 => Some(serial),
        _ => None,
    }
}

/// "and each vote all other correct heads." (`delivery` 5, `close` 6) "and each
/// adjust sent by a correct head by then reached, by then, all other correct
/// heads." (`delivery` 8, `close` 9)
fn frames_reached(run: &Run, delivery: u32, close: u32) -> bool {
    let Some(before) = before_close(run, close) else {
        return true;
    };
    for (entry, &frame) in before.iter().zip(&run.frames) {
        let sender = entry.head;
        let Some(serial) = serial_of(frame, delivery) else {
            continue;
        };
        if !run.settings.is_correct(sender) {
            continue;
        }
        for head in run.settings.correct_heads() {
            let reached = before.iter().any(|e| {
                e.action == delivery && e.head == head && e.sender == sender && e.serial == serial
            });
            if head != sender && !reached {
                return false;
            }
        }
    }
    true
}

/// "6. From the first to the last correct vote close no vote reaches a correct
/// head." (`delivery` 5, `close` 6) "8. As 6, for adjusts and adjust closes."
/// (`delivery` 8, `close` 9)
fn no_delivery_between(run: &Run, delivery: u32, close: u32) -> bool {
    let closes = close_indices(run, close);
    let (Some(&first), Some(&last)) = (closes.first(), closes.last()) else {
        return true;
    };
    let deliveries = correct_indices(run, delivery);
    !deliveries
        .iter()
        .any(|&index| first < index && index < last)
}

/// "7. Before the first correct adjust close, every correct head took 7", or has by
/// then closed its adjust phase early.
fn all_take_7_before(run: &Run) -> bool {
    before_close(run, 9).is_none_or(|before| all_take(run, before.len(), 7))
}
