//! Document 02, No. 4, "Closing when all have spoken": the step of one head, and what
//! the premises ask of sheets in which heads close early, or some do.

use reference::claim;
use reference::draft::{entry, Act};
use reference::fast;
use reference::judge::{judge, keeps};
use reference::program::printed;
use reference::record::Record;
use reference::sheet::{run, Run};
use reference::step::{step, Frame, Input};
use reference::words::{to_bytes, write_sheet, Cause, Entry, Reading, Settings};

/// An action without a frame, at a reading.
fn act(action: u32, reading: u32) -> Input {
    Input {
        action,
        reading,
        ..Input::default()
    }
}

/// A vote or an adjust that names a head, at reading 10 and carrying reading 7.
fn frame(action: u32, sender: u32, serial: u32, named: u32) -> Input {
    Input {
        sender,
        serial,
        carried_head: named,
        carried_reading: 7,
        ..act(action, 10)
    }
}

/// The record after actions that are all accepted.
fn after(record: &Record, inputs: &[Input]) -> Record {
    let take = |record: Record, input: &Input| step(&record, input).unwrap().0;
    inputs.iter().fold(record.clone(), take)
}

/// Vote close, early vote close, adjust close and early adjust close.
fn closes(r: &Record) -> [bool; 4] {
    [r.vote_close, r.vote_early, r.adjust_close, r.adjust_early]
}

const OPEN: [bool; 4] = [false; 4];
const VOTE_EARLY: [bool; 4] = [true, true, false, false];
const BOTH_EARLY: [bool; 4] = [true; 4];

#[test]
fn vote_and_then_adjust_close_early() {
    let fresh = Record::fresh(3, 1, 2);
    let one = after(&fresh, &[frame(5, 0, 0, 0)]);
    assert_eq!(closes(&one), OPEN, "head 1 has not spoken");
    let voted = after(&one, &[frame(5, 1, 0, 0)]);
    assert_eq!(closes(&voted), VOTE_EARLY);
    let latest = voted.kept.map(|kept| kept.latest_vote);
    assert_eq!(latest[..4], [Some(0), Some(0), Some(0), None]);
    let adjusted = after(&voted, &[frame(8, 1, 0, 1), frame(8, 0, 0, 1)]);
    assert_eq!(closes(&adjusted), BOTH_EARLY);
    assert!(adjusted.in_ranges());
    // No start reading of head 0 is held.
    assert_eq!(adjusted.outcome(), 1);
}

#[test]
fn spent_actions_change_the_last_reading_only() {
    let voted = after(&Record::fresh(2, 0, 0), &[frame(5, 1, 0, 1)]);
    assert_eq!(closes(&voted), VOTE_EARLY);
    let spent = |record: &Record, action, reading| {
        let (later, sent) = step(record, &act(action, reading)).unwrap();
        let same = Record {
            last_reading: Reading(reading),
            ..record.clone()
        };
        assert_eq!((&later, sent), (&same, None), "action {action}");
        later
    };
    let twice = spent(&spent(&voted, 6, 11), 6, 12);
    assert_eq!(step(&twice, &act(6, 11)), Err(Cause(8)));
    // 7 and 9 are open as after a close by entry.
    let (turned, sent) = step(&voted, &act(7, 11)).unwrap();
    assert!(turned.adjust_turn && matches!(sent, Some(Frame::Adjust { adjuster: 0, .. })));
    assert_eq!(step(&turned, &act(7, 11)), Err(Cause(9)), "already taken");
    let by_entry = after(&voted, &[act(9, 11)]);
    assert_eq!(closes(&by_entry), [true, true, true, false]);
    assert_eq!(step(&by_entry, &act(7, 12)), Err(Cause(9)));
    assert_eq!(step(&by_entry, &act(9, 12)), Err(Cause(9)));
    spent(&by_entry, 6, 12);
    // After the early adjust close both are spent, with the turn taken or not.
    let adjusted = after(&voted, &[frame(8, 1, 0, 1)]);
    assert_eq!(closes(&adjusted), BOTH_EARLY);
    let mut last = adjusted;
    for (action, reading) in [(7, 11), (9, 12), (7, 13), (9, 14), (6, 15)] {
        last = spent(&last, action, reading);
    }
    assert!(!last.adjust_turn);
    assert_eq!(step(&last, &act(9, 14)), Err(Cause(8)));
    let (turned, _) = step(&voted, &act(7, 11)).unwrap();
    let lower = Input {
        reading: 12,
        ..frame(8, 1, 0, 0)
    };
    let adjusted = after(&turned, &[lower]);
    assert_eq!(closes(&adjusted), BOTH_EARLY);
    spent(&adjusted, 7, 12);
    // What is closed stays closed.
    assert_eq!(step(&adjusted, &act(1, 12)), Err(Cause(9)));
    assert_eq!(step(&adjusted, &act(4, 12)), Err(Cause(9)));
    // A close by entry is not early, so a second 6 is closed.
    let by_entry = after(&Record::fresh(2, 0, 0), &[act(6, 1)]);
    assert_eq!(closes(&by_entry), [true, false, false, false]);
    assert_eq!(step(&by_entry, &act(6, 1)), Err(Cause(9)));
}

#[test]
fn both_phases_close_in_one_action() {
    let spoken = after(&Record::fresh(2, 0, 0), &[frame(8, 1, 0, 1)]);
    assert_eq!(closes(&spoken), OPEN, "never before the vote close");
    let (voted, sent) = step(&spoken, &frame(5, 1, 0, 1)).unwrap();
    assert_eq!(closes(&voted), BOTH_EARLY);
    assert!(matches!(sent, Some(Frame::Vote { candidate: 1, .. })));
    // At the vote close by entry too, which has no candidate.
    let by_entry = after(&spoken, &[act(6, 11)]);
    assert_eq!(closes(&by_entry), [true, false, true, true]);
}

#[test]
fn a_silent_third_head_leaves_the_timers() {
    let spoken = after(
        &Record::fresh(3, 1, 0),
        &[frame(5, 1, 0, 1), frame(8, 1, 0, 1)],
    );
    assert_eq!(closes(&spoken), OPEN);
    let closed = after(&spoken, &[act(6, 11), act(7, 12), act(9, 13)]);
    assert_eq!(closes(&closed), [true, false, true, false]);
}

#[test]
fn latest_vote_is_of_the_last_taken() {
    let fresh = Record::fresh(3, 1, 2);
    let latest = |record: &Record, sender: usize| {
        let kept = record.kept[sender];
        (kept.latest_vote, kept.latest_adjust)
    };
    let one = after(&fresh, &[frame(5, 1, 1, 0), frame(8, 1, 1, 0)]);
    assert_eq!(latest(&one, 1), (Some(0), Some(0)));
    assert_eq!(latest(&one, 2), (Some(0), Some(0)), "its own");
    // An old serial is passed over.
    let stale = after(&one, &[frame(5, 1, 0, 1), frame(8, 1, 0, 1)]);
    assert_eq!(stale, one);
    // One that names a lower rank is taken and kept, though not adopted.
    let other = after(&one, &[frame(5, 1, 2, 1), frame(8, 1, 2, 1)]);
    assert_eq!(latest(&other, 1), (Some(1), Some(1)));
    assert_eq!((other.candidate, other.adjuster), (Some(0), Some(0)));
    let not_all = after(&other, &[frame(5, 0, 0, 0)]);
    assert_eq!(closes(&not_all), OPEN);
    // The mark "none" is no matter.
    let none = Input {
        none: true,
        carried_reading: 0,
        ..frame(5, 1, 3, 0)
    };
    let all = after(&not_all, &[none]);
    assert_eq!((closes(&all), latest(&all, 1).0), (VOTE_EARLY, Some(0)));
    // After the close nothing is taken.
    let closed = after(&all, &[frame(5, 1, 4, 1)]);
    assert_eq!(closed, all);
}

/// Head 1 of three: all have spoken for 0 in both phases, and both are open.
fn spoken() -> Record {
    let mut record = Record {
        candidate: Some(0),
        votes_sent: 1,
        adjuster: Some(0),
        adjusts_sent: 1,
        start_sent: true,
        ..Record::fresh(3, 1, 1)
    };
    for kept in &mut record.kept[..3] {
        kept.latest_vote = Some(0);
        kept.latest_adjust = Some(0);
        kept.vote_serial = Some(4);
        kept.adjust_serial = Some(4);
    }
    assert!(record.in_ranges());
    record
}

#[test]
fn tested_after_each_action_with_effect() {
    let record = spoken();
    let confirmed = Record {
        confirmed: true,
        ..spoken()
    };
    for input in [act(3, 1), frame(5, 2, 5, 0), frame(8, 2, 5, 0)] {
        assert_eq!(closes(&after(&record, &[input])), BOTH_EARLY, "{input:?}");
    }
    let start = Input {
        sender: 2,
        ..act(2, 1)
    };
    assert_eq!(closes(&after(&record, &[start])), BOTH_EARLY);
    assert_eq!(closes(&after(&confirmed, &[act(4, 1)])), BOTH_EARLY);
    // By entry, and then the adjust phase early.
    let by_entry = after(&record, &[act(6, 1)]);
    assert_eq!(closes(&by_entry), [true, false, true, true]);
    // Without effect: a look, and old serials.
    for input in [act(0, 1), frame(5, 2, 4, 0), frame(8, 2, 4, 0)] {
        assert_eq!(closes(&after(&record, &[input])), OPEN, "{input:?}");
    }
}

#[test]
fn vote_is_tested_first() {
    let mut record = spoken();
    record.kept[2].latest_vote = Some(2);
    assert_eq!(closes(&after(&record, &[act(3, 1)])), OPEN);
    // A vote after the vote close is without effect, so the adjust phase stays open.
    let by_entry = Record {
        vote_close: true,
        ..record.clone()
    };
    let late = after(&by_entry, &[frame(5, 2, 5, 0)]);
    assert_eq!(closes(&late), [true, false, false, false]);
    let turned = after(&by_entry, &[act(7, 1)]);
    assert_eq!(closes(&turned), [true, false, true, true]);
    // 9 closes by entry before the test.
    let closed = after(&by_entry, &[act(9, 1)]);
    assert_eq!(closes(&closed), [true, false, true, false]);
    // 6 after an early vote close is spent: nothing is tested.
    let spent = Record {
        vote_early: true,
        ..by_entry
    };
    assert_eq!(closes(&after(&spent, &[act(6, 1)])), VOTE_EARLY);
    // Its own vote counts like the others', and all n are asked.
    for head in 0..3 {
        let mut record = spoken();
        record.kept[head].latest_vote = None;
        assert_eq!(closes(&after(&record, &[act(3, 1)])), OPEN, "{head}");
    }
    // Without a candidate, or an adjuster, nothing closes.
    let nobody = Record {
        candidate: None,
        votes_sent: 0,
        ..spoken()
    };
    assert_eq!(closes(&after(&nobody, &[act(3, 1)])), OPEN);
    let nobody = Record {
        adjuster: None,
        adjusts_sent: 0,
        ..spoken()
    };
    assert_eq!(closes(&after(&nobody, &[act(3, 1)])), VOTE_EARLY);
}

#[test]
fn record_ranges() {
    let fits_with = |change: &dyn Fn(&mut Record)| {
        let mut record = Record::fresh(4, 1, 3);
        change(&mut record);
        record.in_ranges()
    };
    assert!(fits_with(&|r| r.kept[2].latest_vote = Some(3)));
    assert!(!fits_with(&|r| r.kept[2].latest_vote = Some(4)));
    assert!(fits_with(&|r| r.kept[2].latest_adjust = Some(3)));
    assert!(!fits_with(&|r| r.kept[2].latest_adjust = Some(4)));
    assert!(!fits_with(&|r| r.kept[4].latest_vote = Some(0)));
    assert!(!fits_with(&|r| r.kept[4].latest_adjust = Some(0)));
    assert!(!fits_with(&|r| r.vote_early = true));
    assert!(fits_with(&|r| (r.vote_close, r.vote_early) = (true, true)));
    assert!(!fits_with(
        &|r| (r.vote_close, r.adjust_early) = (true, true)
    ));
    assert!(fits_with(&|r| {
        (r.vote_close, r.adjust_close, r.adjust_early) = (true, true, true);
    }));
    assert!(!fits_with(&|r| {
        (r.vote_early, r.adjust_close, r.adjust_early) = (true, true, true);
    }));
}

/// The sheet of n heads with these entries, one each microsecond, and clocks that
/// show real time.
fn sheet(n: u32, f: u32, correct: u32, acts: &[Act]) -> Vec<u32> {
    let settings = Settings {
        n,
        f,
        correct,
        drift: 0,
        tightness: 50,
    };
    let entries: Vec<Entry> = (0..)
        .zip(acts)
        .map(|(time, &act)| entry(time, act))
        .collect();
    write_sheet(&settings, &entries)
}

/// The first broken premise, or 0; plain and fast form agree, and the claim holds.
fn broken(words: &[u32]) -> u32 {
    let bytes = to_bytes(words);
    assert_eq!(printed(&bytes), fast::printed(&bytes));
    if let Some(checked) = claim::check(words) {
        checked.unwrap();
    }
    judge(words).unwrap()
}

/// Two correct heads up to head 0's vote.
const TWO: [Act; 10] = [
    (1, 0, 0),
    (2, 0, 0),
    (2, 1, 0),
    (3, 0, 0),
    (1, 1, 0),
    (2, 0, 1),
    (2, 1, 1),
    (3, 1, 0),
    (4, 0, 0),
    (5, 1, 0),
];

fn two(more: &[Act]) -> Vec<u32> {
    sheet(2, 0, 3, &[&TWO[..], more].concat())
}

#[test]
fn premise_4_counts_early_closes() {
    // Neither takes 6 or 9, and head 1 does not take 7.
    let least = [(5, 0, 1), (7, 0, 0), (8, 1, 0), (8, 0, 1)];
    assert_eq!(broken(&two(&least)), 0);
    let ended = run(&two(&least), None).unwrap();
    assert!(ended.records.iter().all(|r| closes(r) == BOTH_EARLY));
    assert!(ended.records.iter().all(|r| r.outcome() == 2));
    // They may take them all the same.
    let more = [(6, 0, 0), (6, 1, 0), (7, 1, 0), (9, 1, 0), (9, 0, 0)];
    assert_eq!(broken(&two(&[&least[..], &more].concat())), 0);
    // Head 0 does not close its adjust phase: 7 alone is not enough, nor 9.
    let open = &least[..3];
    assert_eq!(broken(&two(open)), 4);
    let closed = [open, &[(9, 0, 0)]].concat();
    assert_eq!(
        broken(&two(&closed)),
        7,
        "head 1's adjust has not reached it"
    );
    let without_7 = [(5, 0, 1), (7, 1, 0), (8, 0, 1), (9, 1, 0)];
    assert_eq!(
        broken(&two(&without_7)),
        7,
        "head 0's adjust has not reached it"
    );
    let neither = [(5, 0, 1), (9, 0, 0), (9, 1, 0)];
    assert_eq!(broken(&two(&neither)), 4);
    // Head 0's votes stay open.
    assert_eq!(broken(&two(&[])), 4);
}

#[test]
fn premises_5_and_6_ask_nothing_where_all_close_early() {
    let rest = [(7, 0, 0), (8, 1, 0), (8, 0, 1)];
    // Head 1 spends a 6 before its vote reaches head 0, and between two of them.
    let early = [(6, 1, 0), (5, 0, 1), (5, 1, 0), (6, 0, 0)];
    let words = two(&[&early[..], &rest].concat());
    assert_eq!(broken(&words), 0);
    // Head 0 closes by entry before the vote: it is open then.
    let by_entry = [(6, 1, 0), (6, 0, 0), (5, 0, 1)];
    let words = two(&[&by_entry[..], &rest].concat());
    assert_eq!(broken(&words), 5);
    // Spent 9s likewise.
    let spent = [
        (5, 0, 1),
        (7, 0, 0),
        (8, 1, 0),
        (9, 1, 0),
        (8, 0, 1),
        (8, 1, 0),
        (9, 0, 0),
    ];
    assert_eq!(broken(&two(&spent)), 0);
}

/// Three heads, f = 1, head 2 faulty, all votes closed early, and head 1 adjuster; its
/// adjust has reached the others, and head 0's has reached head 1.
const THREE: [Act; 21] = [
    (1, 0, 0),
    (2, 0, 0),
    (2, 1, 0),
    (2, 2, 0),
    (3, 0, 0),
    (1, 1, 0),
    (2, 0, 1),
    (2, 1, 1),
    (2, 2, 1),
    (4, 0, 0),
    (5, 1, 0),
    (5, 2, 0),
    (5, 0, 1),
    (5, 2, 1),
    (5, 0, 2),
    (5, 1, 2),
    (7, 1, 0),
    (8, 0, 1),
    (8, 2, 1),
    (8, 2, 0),
    (8, 1, 0),
];

fn three(more: &[Act]) -> Vec<u32> {
    sheet(3, 1, 3, &[&THREE[..], more].concat())
}

fn three_run(more: &[Act]) -> Run {
    run(&three(more), None).unwrap()
}

#[test]
fn premise_7_counts_early_adjust_closes() {
    // Head 2's adjust reaches head 0, which has not taken 7, but not head 1.
    let kept = [(8, 0, 2), (9, 1, 0)];
    assert_eq!(broken(&three(&kept)), 0);
    let ended = three_run(&kept);
    assert_eq!(closes(&ended.records[0]), BOTH_EARLY);
    assert_eq!(closes(&ended.records[1]), [true, true, true, false]);
    assert_eq!(ended.records[0].adjustment, ended.records[1].adjustment);
    // It comes after head 1's close: too late.
    let late = [(9, 1, 0), (8, 0, 2)];
    assert_eq!(broken(&three(&late)), 7);
    assert!(keeps(&three_run(&late), 4) && keeps(&three_run(&late), 8));
    // Or head 0 has taken 7 by then, and closes early later, or by entry.
    assert_eq!(broken(&three(&[(7, 0, 0), (9, 1, 0), (8, 0, 2)])), 0);
    assert_eq!(broken(&three(&[(7, 0, 0), (9, 1, 0), (9, 0, 0)])), 0);
    // Premise 8: between two closes by entry, but not between one and a spent 9.
    let between = [(7, 0, 0), (9, 1, 0), (8, 0, 1), (9, 0, 0)];
    assert_eq!(broken(&three(&between)), 8);
    let spent = [(8, 0, 2), (9, 1, 0), (8, 0, 1), (9, 0, 0)];
    assert_eq!(broken(&three(&spent)), 0);
    // A spent 7 after head 1's close, and a 9 left out at head 1.
    assert_eq!(broken(&three(&[(8, 0, 2), (9, 1, 0), (7, 0, 0)])), 0);
    assert_eq!(broken(&three(&[(8, 0, 2)])), 4);
}

/// The vote phase of three heads in which head 2, faulty, is heard by head 0 alone.
#[test]
fn votes_closed_both_ways() {
    let rest = [(8, 0, 2), (9, 1, 0)];
    let mut acts = THREE.to_vec();
    let heard = acts.iter().position(|&a| a == (5, 1, 2)).unwrap();
    acts[heard] = (6, 1, 0);
    acts.extend(rest);
    let words = sheet(3, 1, 3, &acts);
    assert_eq!(broken(&words), 0);
    let records = run(&words, None).unwrap().records;
    assert_eq!(closes(&records[0]), BOTH_EARLY);
    assert_eq!(closes(&records[1]), [true, false, true, false]);
    assert!(records[0].outcome() == 2 && records[1].outcome() == 2);
    // Head 1's close comes before its vote has reached head 0, early or not.
    let sent = acts.iter().position(|&a| a == (5, 0, 1)).unwrap();
    acts[sent..=heard].rotate_right(1);
    assert_eq!(acts[sent], (6, 1, 0));
    assert_eq!(broken(&sheet(3, 1, 3, &acts)), 5);
}
