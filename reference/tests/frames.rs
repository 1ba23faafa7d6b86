//! Document 02, No. 7, "Frames told exactly": the fourth word of each head's result, as
//! both forms of the replay write it, and the buffer that it needs.

use std::fs;

use reference::fast;
use reference::generate::generate;
use reference::program::read_words;
use reference::results::{Broadcast, HeadResult, HEAD_WORDS};
use reference::sheet::{replay, run};
use reference::words::{write_sheet, Cause, Entry, Reading, RealTime, Refusal, Settings};

/// What stands in a buffer before a call.
const UNTOUCHED: u32 = 7;

fn sample(name: &str) -> Vec<u32> {
    let path = format!("{}/../samples/{name}.sheet", env!("CARGO_MANIFEST_DIR"));
    read_words(&fs::read(path).unwrap()).unwrap()
}

/// Action, head, sender and serial of an entry.
type Act = [u32; 4];

/// The sheet of n correct heads, f = 0, with these entries, one each microsecond, and
/// clocks that show real time.
fn sheet(n: u32, acts: &[Act]) -> Vec<u32> {
    let settings = Settings {
        n,
        f: 0,
        correct: (1 << n) - 1,
        drift: 0,
        tightness: 50,
    };
    let entry = |(time, &[action, head, sender, serial]): (u32, &Act)| Entry {
        time: RealTime(time),
        reading: Reading(time),
        action,
        head,
        sender,
        serial,
    };
    let entries: Vec<Entry> = (0..).zip(acts).map(entry).collect();
    write_sheet(&settings, &entries)
}

/// The result words of an accepted sheet; both forms of the replay write the same.
fn results(words: &[u32]) -> Vec<u32> {
    let n = run(words, None).unwrap().settings.n as usize;
    let mut out = vec![UNTOUCHED; HEAD_WORDS * n];
    assert_eq!(replay(words, &mut out), Ok(()));
    let (fast, _) = fast::answer(words, Some(out.len())).unwrap();
    let quick: Vec<u32> = fast.iter().flat_map(HeadResult::words).collect();
    assert_eq!(out, quick);
    out
}

/// Outcome, starts, votes and adjusts of each head.
fn told(words: &[u32]) -> Vec<[u32; 4]> {
    let results = results(words);
    let heads = results.chunks(HEAD_WORDS).map(HeadResult::read);
    let numbers = |r: HeadResult| {
        let sent = r.broadcast;
        [r.outcome, sent.starts, sent.votes, sent.adjusts]
    };
    heads.map(numbers).collect()
}

/// Head 0's start, taken by both of two heads and confirmed, and its turn: it votes.
const LED: [Act; 5] = [
    [1, 0, 0, 0],
    [2, 0, 0, 0],
    [2, 1, 0, 0],
    [3, 0, 0, 0],
    [4, 0, 0, 0],
];

/// "M1's fourth words are 0x90101010."
#[test]
fn fourth_words_of_m1_and_m11() {
    let m1 = [
        [0x6200_0000, 0x7000_0506, 0x8000_04EC, 0x9010_1010],
        [0x6210_0000, 0x7000_0506, 0x8000_0521, 0x9010_1010],
    ];
    assert_eq!(results(&sample("m1")), m1.concat());
    let m11 = [
        [0x6000_0000, 0x7000_0000, 0x8000_0000, 0x9000_0000],
        [0x6010_0000, 0x7000_0000, 0x8000_0000, 0x9000_0000],
    ];
    assert_eq!(results(&sample("m11")), m11.concat());
}

/// "Cause 5 tests 4n words": three a head were enough before.
#[test]
fn buffers_below_four_words_a_head() {
    let refused = Refusal {
        cause: Cause(5),
        place: 0,
    };
    for (name, n) in [("m1", 2), ("m11", 2), ("drafted", 5), ("sixteen", 16)] {
        let words = sample(name);
        for room in 0..4 * n {
            let mut out = vec![UNTOUCHED; room];
            assert_eq!(replay(&words, &mut out), Err(refused), "{name} {room}");
            assert_eq!(out, vec![UNTOUCHED; room], "{name} {room}");
            assert_eq!(fast::answer(&words, Some(room)), Err(refused));
        }
        for more in 0..5 {
            let mut out = vec![UNTOUCHED; 4 * n + more];
            assert_eq!(replay(&words, &mut out), Ok(()));
            assert_eq!(out[..4 * n], results(&words));
            assert_eq!(out[4 * n..], vec![UNTOUCHED; more], "later words kept");
        }
    }
}

/// "set whatever the outcome"
#[test]
fn counts_without_outcome_2() {
    assert_eq!(told(&sheet(2, &LED)), [[0, 1, 1, 0], [0, 0, 0, 0]]);
    // Head 1 votes without a start of its own; then both close by entry, with no
    // adjuster.
    let voted = [&LED[..], &[[5, 1, 0, 0], [6, 0, 0, 0]]].concat();
    assert_eq!(told(&sheet(2, &voted)), [[0, 1, 1, 0], [0, 0, 1, 0]]);
    let closed = [&voted[..], &[[9, 0, 0, 0], [9, 1, 0, 0]]].concat();
    assert_eq!(told(&sheet(2, &closed)), [[1, 1, 1, 0], [1, 0, 1, 0]]);
    let fields = results(&sheet(2, &closed));
    let expected = [
        [0x6100_0000, 0x7000_0000, 0x8000_0000, 0x9010_1000],
        [0x6110_0000, 0x7000_0000, 0x8000_0000, 0x9000_1000],
    ];
    assert_eq!(fields, expected.concat());
    // An adjust without a vote: head 1 hears the adjust alone, and has no candidate.
    let adjusted = [
        &LED[..],
        &[[6, 0, 0, 0], [7, 0, 0, 0], [8, 1, 0, 0]],
        &[[6, 1, 0, 0], [9, 1, 0, 0]],
    ];
    assert_eq!(
        told(&sheet(2, &adjusted.concat())),
        [[0, 1, 1, 1], [1, 0, 0, 1]]
    );
}

/// Head 1 votes for itself, and then for head 0; so do the adjusts.
#[test]
fn two_votes_and_two_adjusts() {
    let led = [
        [1, 1, 0, 0],
        [2, 0, 1, 0],
        [2, 1, 1, 0],
        [3, 1, 0, 0],
        [4, 1, 0, 0],
    ];
    let acts = [
        &led[..],
        &LED,
        &[[5, 1, 0, 0], [6, 0, 0, 0], [7, 1, 0, 0], [7, 0, 0, 0]],
        &[[8, 1, 0, 0], [9, 0, 0, 0]],
    ];
    let words = sheet(2, &acts.concat());
    assert_eq!(told(&words), [[2, 1, 1, 1], [2, 1, 2, 2]]);
    assert_eq!(results(&words)[7], 0x9010_2020);
}

/// Deliveries are not counted, nor are repeats, frames of old serials, frames that are
/// lost or late, looks and spent turns.
#[test]
fn deliveries_do_not_count() {
    let m1 = sample("m1");
    // Deliveries and looks come twice, and so do actions 6, 7 and 9: both heads close
    // early, so that these are spent, all but head 0's turn.
    let is_doubled = |third: u32| !matches!(third >> 24 & 15, 1 | 3 | 4) && third != 0x5700_0000;
    let mut doubled = m1[..2].to_vec();
    for entry in m1[2..].chunks(3) {
        doubled.extend(entry.repeat(1 + usize::from(is_doubled(entry[2]))));
    }
    assert_eq!(doubled.len(), 2 + 3 * (21 + 15));
    assert_eq!(results(&doubled), results(&m1));
    // Head 0's vote reaches nobody, or comes after the vote close.
    let lost = [&LED[..], &[[6, 1, 0, 0]]].concat();
    assert_eq!(told(&sheet(2, &lost)), [[0, 1, 1, 0], [0, 0, 0, 0]]);
    let late = [&lost[..], &[[5, 1, 0, 0], [5, 1, 0, 0]]].concat();
    assert_eq!(told(&sheet(2, &late)), [[0, 1, 1, 0], [0, 0, 0, 0]]);
}

/// Every head leads first, and hears of the others from its own rank up: so they
/// broadcast n² + 2n frames, as many as source 000 counts.
fn rising(n: u32) -> Vec<u32> {
    let all = |action| (0..n).map(move |head| [action, head, 0, 0]);
    let starts = (0..n).flat_map(|sender| (0..n).map(move |head| [2, head, sender, 0]));
    let heard = |action| {
        let above = move |head: u32| (0..head).rev().map(move |from| [action, head, from, 0]);
        (0..n).flat_map(above)
    };
    let acts = all(1)
        .chain(starts)
        .chain(all(3))
        .chain(all(4))
        .chain(heard(5))
        .chain(all(6))
        .chain(all(7))
        .chain(heard(8))
        .chain(all(9));
    sheet(n, &acts.collect::<Vec<_>>())
}

#[test]
fn as_many_frames_as_there_can_be() {
    for n in 2..=16 {
        let expected: Vec<[u32; 4]> = (0..n).map(|q| [2, 1, q + 1, q + 1]).collect();
        let told = told(&rising(n));
        assert_eq!(told, expected, "{n}");
        let frames: u32 = told.iter().flat_map(|t| &t[1..]).sum();
        assert_eq!(frames, n * n + 2 * n);
    }
    // The largest counts of all.
    assert_eq!(results(&rising(16))[63], 0x9011_0100);
}

/// What was counted as it was sent is what each record keeps of it.
#[test]
fn counts_of_generated_sheets() {
    let mut heads = 0;
    for index in 0..400 {
        let Ok(words) = read_words(&generate(7, index).bytes) else {
            continue;
        };
        let Ok(run) = run(&words, None) else {
            continue;
        };
        for record in &run.records {
            let kept = Broadcast {
                starts: record.start_sent.into(),
                votes: record.votes_sent,
                adjusts: record.adjusts_sent,
            };
            assert_eq!(Broadcast::of(&run, record.own), kept, "sheet {index}");
            heads += 1;
        }
    }
    assert!(heads > 1_000, "{heads} heads");
}
