//! Document 02, No. 2: "a constant table of 1,280 yes-or-no entries, for ten
//! actions and the 128 settings of seven marks (the six and "has a candidate")".
//! Here each entry is answered from the sentence of its action; the tests hold
//! the table that replay asks to that. And a sheet for each entry that a run can
//! ask for, and sheets that ask for actions after an early close: by No. 4 the table
//! "is then asked only for the other actions".

use crate::record::Record;
use crate::step::is_closed;
use crate::words::{has_sender, write_sheet, Entry, Reading, RealTime, Settings};

pub const ACTIONS: u32 = 10;
pub const SETTINGS: u32 = 128;

/// A head's setting as a number: the six marks in document 01's order, then "has a
/// candidate", each with twice the weight of the one before.
pub fn setting(h: &Record) -> u32 {
    let marks = [
        h.start_sent,
        h.confirmed,
        h.vote_turn,
        h.vote_close,
        h.adjust_turn,
        h.adjust_close,
        h.candidate.is_some(),
    ];
    (0..7).map(|k| u32::from(marks[k]) << k).sum()
}

fn has(setting: u32, mark: u32) -> bool {
    setting >> mark & 1 == 1
}

/// Head 0 of two with such marks and none closed early; a candidate is itself, voted
/// for once.
fn head(setting: u32) -> Record {
    Record {
        start_sent: has(setting, 0),
        confirmed: has(setting, 1),
        vote_turn: has(setting, 2),
        vote_close: has(setting, 3),
        adjust_turn: has(setting, 4),
        adjust_close: has(setting, 5),
        candidate: has(setting, 6).then_some(0),
        votes_sent: u32::from(has(setting, 6)),
        ..Record::fresh(2, 0, 0)
    }
}

/// What the table says. "Tests on the sender stay outside it": a frame is of the
/// other head.
pub fn is_open(action: u32, setting: u32) -> bool {
    !is_closed(&head(setting), action, 1)
}

/// The entries, action and setting, that a run can ask for: those whose marks
/// keep the ranges.
pub fn in_reach() -> impl Iterator<Item = (u32, u32)> {
    let settings = (0..SETTINGS).filter(|&setting| head(setting).in_ranges());
    settings.flat_map(|setting| (0..ACTIONS).map(move |action| (action, setting)))
}

/// A sheet of three heads whose last entry asks for this one: head 1 sends a start,
/// a vote and an adjust, head 0 comes to the setting, and then has the action. It
/// holds no start reading, so it gets a candidate by head 1's vote alone. Head 2 is
/// silent, so no head closes early.
pub fn asking(action: u32, setting: u32) -> Vec<u32> {
    let marks = [(0, 1), (1, 3), (2, 4), (6, 5), (3, 6), (4, 7), (5, 9)];
    let comes = marks.into_iter().filter(|&(mark, _)| has(setting, mark));
    let actions = comes.map(|(_, action)| action).chain([action]);
    sheet(3, actions)
}

/// How head 0 of two comes to an early close, or to both: by head 1's vote or adjust,
/// or by its own action 6 after head 1's adjust.
const WAYS: [&[u32]; 8] = [
    &[5],
    &[5, 7],
    &[5, 9],
    &[5, 7, 9],
    &[5, 8],
    &[8, 5],
    &[6, 8],
    &[8, 6],
];

/// Sheets of two heads, each with the action that its last entry asks for: head 0 has
/// closed its votes, its adjust phase or both early.
pub fn asking_early() -> impl Iterator<Item = (u32, Vec<u32>)> {
    let turns: [&[u32]; 4] = [&[], &[1], &[1, 3], &[1, 3, 4]];
    let comes = turns
        .into_iter()
        .flat_map(|turn| WAYS.map(|way| [turn, way].concat()));
    comes.flat_map(|comes| {
        (0..ACTIONS).map(move |action| {
            let actions = comes.iter().copied().chain([action]);
            (action, sheet(2, actions))
        })
    })
}

/// The sheet of n heads in which head 1 sends a start, a vote and an adjust and hears
/// nothing, and head 0 then has these actions.
fn sheet(n: u32, actions: impl Iterator<Item = u32>) -> Vec<u32> {
    let sends = [1, 2, 3, 4, 6, 7].map(|action| (1, action));
    let actions = sends.into_iter().chain(actions.map(|action| (0, action)));
    let entries: Vec<Entry> = (0..)
        .zip(actions)
        .map(|(time, (head, action))| Entry {
            time: RealTime(time),
            reading: Reading(time),
            action,
            head,
            sender: u32::from(has_sender(action)),
            serial: 0,
        })
        .collect();
    let settings = Settings {
        n,
        f: 0,
        correct: (1 << n) - 1,
        drift: 0,
        tightness: 0,
    };
    write_sheet(&settings, &entries)
}
