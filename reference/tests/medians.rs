//! Document 02, No. 6, "Even counts": the median, the adjust turn of one head, both
//! forms of the replay, and the sample sheet.

use std::fs;

use reference::claim;
use reference::fast;
use reference::judge::first_broken;
use reference::medians::{draw_readings, evens, EVENS};
use reference::program::read_words;
use reference::random::Random;
use reference::record::{median, Record};
use reference::sheet::run;
use reference::step::{step, Frame, Input};
use reference::words::{write_sheet, Cause, Entry, Reading, RealTime, Settings, TIME_LIMIT};

/// The last reading of 28 bits.
const LAST: u32 = TIME_LIMIT - 1;

fn readings(numbers: &[u32]) -> Vec<Reading> {
    numbers.iter().map(|&r| Reading(r)).collect()
}

fn median_of(numbers: &[u32]) -> u32 {
    median(&readings(numbers)).expect("there is a reading").0
}

/// The same by places in order and without 32 bits: with an odd count both are the
/// middle one.
fn by_places(numbers: &[u32]) -> u32 {
    let mut in_order = numbers.to_vec();
    in_order.sort_unstable();
    let count = in_order.len();
    let [low, high] = [(count - 1) / 2, count / 2].map(|place| u64::from(in_order[place]));
    u32::try_from((low + high) / 2).unwrap()
}

/// Lists of these lengths with every number below `limit` in every place.
fn all_lists(lengths: std::ops::RangeInclusive<u32>, limit: u32) -> Vec<Vec<u32>> {
    let digits = |list: u32, length: u32| (0..length).map(move |p| list / limit.pow(p) % limit);
    lengths
        .flat_map(|length| (0..limit.pow(length)).map(move |list| (list, length)))
        .map(|(list, length)| digits(list, length).collect())
        .collect()
}

/// So many lists of 1 to 16 readings.
fn drawn_lists(lists: u64) -> Vec<Vec<u32>> {
    let draw = |index| draw_readings(&mut Random::new(6, index), 1 + index as usize % 16);
    (0..lists).map(draw).collect()
}

/// All orders of the numbers.
fn orders(numbers: &[u32]) -> Vec<Vec<u32>> {
    if numbers.is_empty() {
        return vec![Vec::new()];
    }
    let without = |p: usize| [&numbers[..p], &numbers[p + 1..]].concat();
    let begun = |p: usize| orders(&without(p)).into_iter().map(move |rest| (p, rest));
    let whole = |(p, rest): (usize, Vec<u32>)| [&[numbers[p]], &rest[..]].concat();
    (0..numbers.len()).flat_map(begun).map(whole).collect()
}

/// "half the sum of the two middle readings, rounded down"
#[test]
fn even_counts() {
    assert_eq!(median_of(&[1260, 1313]), 1286);
    assert_eq!(median_of(&[4, 6]), 5);
    assert_eq!(median_of(&[4, 5]), 4, "rounded down");
    assert_eq!(median_of(&[7, 7]), 7);
    assert_eq!(median_of(&[0, 1]), 0, "a reading of 0 is a reading");
    // Neither the first, the last nor the mean of all counts.
    assert_eq!(median_of(&[900, 10, 13, 0]), 11);
    assert_eq!(median_of(&[20, 1, 20, 90]), 20, "equal in the middle");
    assert_eq!(median_of(&[20, 20, 20, 23]), 20);
    assert_eq!(median_of(&[20, 23, 23, 23, 20, 20]), 21);
    let sixteen: Vec<u32> = (0..16).map(|place| place * place).collect();
    assert_eq!(median_of(&sixteen), (49 + 64) / 2);
    let but_one = &sixteen[1..];
    assert_eq!(median_of(but_one), 64, "as before with an odd count");
    assert_eq!(median_of(&[LAST; 16]), LAST);
    assert_eq!(median_of(&[LAST, LAST - 1]), LAST - 1);
    assert_eq!(median_of(&[0, LAST, LAST, 0]), LAST / 2);
}

#[test]
fn odd_counts() {
    assert_eq!(median_of(&[9]), 9);
    assert_eq!(median_of(&[5, 9, 7]), 7);
    assert_eq!(median_of(&[5, 5, 9]), 5);
    assert_eq!(median_of(&[LAST, 0, 1, 2, LAST]), 2);
    assert_eq!(median(&[]), None);
}

#[test]
fn as_by_places() {
    for list in all_lists(1..=6, 4).into_iter().chain(drawn_lists(20_000)) {
        let middle = median_of(&list);
        assert_eq!(middle, by_places(&list), "{list:?}");
        let (least, greatest) = (list.iter().min(), list.iter().max());
        assert!(least <= Some(&middle) && Some(&middle) <= greatest);
    }
}

#[test]
fn in_any_order() {
    for list in [
        &[3, 1, 4, 1, 5, 9][..],
        &[2, 7, 1, 8],
        &[6, 6, 6, 9],
        &[9, 2],
    ] {
        let all = orders(list);
        assert_eq!(all.len(), (1..=list.len()).product());
        for order in all {
            assert_eq!(median_of(&order), by_places(list), "{order:?}");
        }
    }
}

#[test]
fn what_even_counts_are_told_by() {
    let told = |numbers: &[u32]| {
        let names = evens(&readings(numbers));
        EVENS.map(|name| u8::from(names.contains(&name)))
    };
    assert_eq!(told(&[4, 6]), [1, 1, 0, 0, 0, 0]);
    assert_eq!(told(&[5, 4]), [1, 0, 1, 0, 0, 0]);
    assert_eq!(told(&[7, 7]), [1, 0, 0, 0, 0, 0]);
    assert_eq!(told(&[LAST, 1]), [1, 1, 0, 1, 0, 0]);
    assert_eq!(told(&[LAST, 0]), [1, 0, 1, 0, 0, 0]);
    assert_eq!(told(&[7, 7, 7, 7]), [1, 0, 0, 0, 1, 0]);
    assert_eq!(told(&[0, 7, 7, 90]), [1, 0, 0, 0, 1, 1]);
    assert_eq!(told(&[0, 4, 6, 11]), [1, 1, 0, 0, 0, 0]);
    assert_eq!(told(&[0, 4, 6, 12]), [1, 1, 0, 0, 0, 1]);
    assert_eq!(told(&[1, 2, 3]), [0; 6]);
    assert_eq!(told(&[]), [0; 6]);
}

/// Head 3 of four at its adjust turn, with candidate 0 and these vote readings.
fn before_turn(voted: [Option<u32>; 4]) -> Record {
    let mut record = Record {
        candidate: Some(0),
        votes_sent: 1,
        vote_close: true,
        ..Record::fresh(4, 1, 3)
    };
    for (kept, reading) in record.kept.iter_mut().zip(voted) {
        kept.vote_reading = reading.map(Reading);
        kept.latest_vote = Some(0);
    }
    record
}

fn turn() -> Input {
    Input {
        action: 7,
        ..Input::default()
    }
}

#[test]
fn adjust_turn_takes_the_half_sum() {
    let adjustment = |voted| {
        let (after, sent) = step(&before_turn(voted), &turn()).unwrap();
        let adjust = Frame::Adjust {
            serial: 0,
            adjuster: 3,
            adjustment: after.adjustment,
        };
        assert_eq!((after.adjuster, sent), (Some(3), Some(adjust)));
        assert!(after.in_ranges());
        after.adjustment.0
    };
    assert_eq!(adjustment([Some(30), Some(11), Some(24), Some(5)]), 17);
    assert_eq!(adjustment([Some(30), None, Some(24), Some(5)]), 24);
    assert_eq!(adjustment([None, Some(11), Some(24), None]), 17);
    assert_eq!(adjustment([None, Some(11), None, None]), 11);
    assert_eq!(adjustment([Some(LAST); 4]), LAST);
}

/// The ranges are asked before any sum is made.
#[test]
fn readings_beyond_28_bits_are_cause_10() {
    for beyond in [TIME_LIMIT, 1 << 31, u32::MAX] {
        for count in 1..=4 {
            let voted = [0, 1, 2, 3].map(|p| (p < count).then_some(beyond));
            let record = before_turn(voted);
            assert_eq!(step(&record, &turn()), Err(Cause(10)), "{voted:?}");
        }
    }
}

/// A sheet in which the heads read head 0's start at these numbers and vote for it; their
/// votes reach head 0 in this order, last to first, and it takes the median.
fn bench(starts: &[u32]) -> Vec<u32> {
    let n = starts.len() as u32;
    let entry = |(action, head, sender): (u32, u32, u32)| Entry {
        time: RealTime(0),
        reading: Reading(starts[head as usize]),
        action,
        head,
        sender,
        serial: 0,
    };
    let delivered = (0..n).map(|head| (2, head, 0));
    let votes = (1..n).rev().flat_map(|q| [(5, q, 0), (5, 0, q)]);
    let acts = [(1, 0, 0)]
        .into_iter()
        .chain(delivered)
        .chain([(3, 0, 0), (4, 0, 0)])
        .chain(votes)
        .chain([(7, 0, 0), (9, 0, 0)]);
    let settings = Settings {
        n,
        f: 0,
        correct: 1,
        drift: 0,
        tightness: 0,
    };
    write_sheet(&settings, &acts.map(entry).collect::<Vec<_>>())
}

#[test]
fn both_forms_of_replay() {
    let small = all_lists(2..=5, 4);
    let drawn = drawn_lists(4_000).into_iter().filter(|l| l.len() > 1);
    for starts in small.into_iter().chain(drawn) {
        let words = bench(&starts);
        let plain = run(&words, None).unwrap();
        let (quick, _) = fast::answer(&words, None).unwrap();
        assert_eq!(plain.records[0].outcome(), 2);
        let both = [plain.records[0].adjustment.0, quick[0].adjustment];
        assert_eq!(both, [by_places(&starts); 2], "{starts:?}");
    }
}

#[test]
fn the_sample() {
    let path = concat!(env!("CARGO_MANIFEST_DIR"), "/../samples/even-count.sheet");
    let words = read_words(&fs::read(path).unwrap()).unwrap();
    let ended = run(&words, None).unwrap();
    assert_eq!(first_broken(&ended), 0);
    let adjuster = &ended.records[0];
    let held = adjuster.vote_readings();
    assert_eq!(held, readings(&[1277, 1220, 1322, 1256]));
    assert_eq!(adjuster.adjustment, Reading(1266));
    assert_eq!(evens(&held), [EVENS[0], EVENS[2], EVENS[5]]);
    let shown = |r: &Record| i64::from(r.last_reading.0) + r.correction().unwrap();
    let looks: Vec<i64> = ended.records.iter().map(shown).collect();
    assert_eq!(looks, [4006, 4004, 4005, 4003]);
    assert!(claim::check(&words).unwrap().is_ok());
}
