//! M1 to M12 of document 01, with the values of document 02, No. 6, and the fourth words
//! of No. 7; the causes of one head; and the recorder of document 02.

use reference::counter::counter_reading;
use reference::fast;
use reference::judge::judge;
use reference::program::printed;
use reference::record::{median, Record};
use reference::recorder::record;
use reference::sheet::{check_front, replay, run};
use reference::step::{step, Frame, Input};
use reference::words::{to_bytes, write_entry, Cause, Entry, Reading, RealTime, Refusal, Settings};

/// M1's first two words.
const FRONT: [u32; 2] = [0x1020_0003, 0x2064_000A];

/// M1's entries: "real time, reading, head, action, sender, serial".
const ENTRIES: [[u32; 6]; 21] = [
    [950, 1000, 1, 1, 0, 0],
    [1000, 1000, 0, 1, 0, 0],
    [1100, 1100, 0, 2, 1, 0],
    [1104, 1154, 1, 2, 1, 0],
    [1110, 1160, 1, 3, 0, 0],
    [1260, 1260, 0, 2, 0, 0],
    [1263, 1313, 1, 2, 0, 0],
    [1270, 1270, 0, 3, 0, 0],
    [1300, 1300, 0, 4, 0, 0],
    [1460, 1510, 1, 5, 0, 0],
    [1620, 1620, 0, 5, 1, 0],
    [2000, 2000, 0, 6, 0, 0],
    [2000, 2050, 1, 6, 0, 0],
    [2100, 2100, 0, 7, 0, 0],
    [2260, 2310, 1, 8, 0, 0],
    [2300, 2350, 1, 7, 0, 0],
    [2420, 2420, 0, 8, 1, 0],
    [3000, 3000, 0, 9, 0, 0],
    [3000, 3050, 1, 9, 0, 0],
    [4000, 4000, 0, 0, 0, 0],
    [4000, 4050, 1, 0, 0, 0],
];

fn m1() -> Vec<u32> {
    let mut words = FRONT.to_vec();
    for [time, reading, head, action, sender, serial] in ENTRIES {
        words.extend(write_entry(&Entry {
            time: RealTime(time),
            reading: Reading(reading),
            action,
            head,
            sender,
            serial,
        }));
    }
    words
}

fn m1_with_tightness(tightness: u32) -> Vec<u32> {
    let mut words = m1();
    words[1] = words[1] & 0xFFFF_0000 | tightness;
    words
}

fn refused(number: u32, place: usize) -> Refusal {
    Refusal {
        cause: Cause(number),
        place,
    }
}

#[test]
fn m1_result_words_and_text() {
    let mut buffer = [7; 10];
    assert_eq!(replay(&m1(), &mut buffer), Ok(()));
    let result = [
        0x6200_0000,
        0x7000_0506,
        0x8000_04EC,
        0x9010_1010,
        0x6210_0000,
        0x7000_0506,
        0x8000_0521,
        0x9010_1010,
    ];
    assert_eq!(buffer[..8], result);
    assert_eq!(buffer[8..], [7, 7], "later words kept");
    let text = "0 2 0 0 1286 1260 26\n1 2 0 0 1286 1313 -27\npremises 0\n";
    assert_eq!(printed(&to_bytes(&m1())), text);
    assert_eq!(fast::printed(&to_bytes(&m1())), text);
}

#[test]
fn m1_looks() {
    let run = run(&m1(), None).unwrap();
    let shown: Vec<i64> = run
        .records
        .iter()
        .map(|r| i64::from(r.last_reading.0) + r.correction().unwrap())
        .collect();
    assert_eq!(shown, [4026, 4023]);
    let checked = reference::claim::check(&m1()).unwrap().unwrap();
    // Both heads close early, so that their spent actions 9 are looks too.
    assert_eq!((checked.heads, checked.pairs), (2, 2));
}

#[test]
fn m2_and_m3_tightness() {
    assert_eq!(judge(&m1_with_tightness(4)), Ok(0));
    assert_eq!(judge(&m1_with_tightness(2)), Ok(3));
    assert_eq!(judge(&m1_with_tightness(3)), Ok(3));
}

#[test]
fn m4_and_m5_median() {
    let median_of = |readings: &[u32]| {
        let readings: Vec<Reading> = readings.iter().map(|&r| Reading(r)).collect();
        median(&readings)
    };
    assert_eq!(median_of(&[1313, 1260]), Some(Reading(1286)));
    assert_eq!(median_of(&[5, 9, 7]), Some(Reading(7)));
    assert_eq!(median_of(&[]), None);
}

#[test]
fn m6_and_m7_first_word() {
    assert_eq!(
        check_front(&[0x1042_000F, FRONT[1]], None),
        Err(refused(3, 0))
    );
    assert!(check_front(&[0x1052_001F, FRONT[1]], None).is_ok());
}

#[test]
fn m8_to_m10_counter() {
    assert_eq!(counter_reading(5, 4_294_967_290), Ok(Reading(11)));
    assert_eq!(counter_reading(268_435_455, 0), Ok(Reading(268_435_455)));
    assert_eq!(counter_reading(268_435_456, 0), Err(Cause(11)));
}

#[test]
fn m11_two_words() {
    let text = "0 0 0 0 0 0 0\n1 0 0 0 0 0 0\npremises 4\n";
    assert_eq!(printed(&to_bytes(&FRONT)), text);
}

#[test]
fn m12_short_buffer() {
    for room in [5, 7] {
        let mut buffer = vec![7; room];
        assert_eq!(replay(&m1(), &mut buffer), Err(refused(5, 0)));
        assert_eq!(buffer, vec![7; room]);
    }
    assert_eq!(replay(&m1(), &mut [7; 8]), Ok(()));
    assert_eq!(judge(&m1()), Ok(0), "the judge tests the same without 5");
}

#[test]
fn lengths() {
    let mut words = FRONT.to_vec();
    for _ in 0..4_096 {
        words.extend([0x3000_0000, 0x4000_0000, 0x5000_0000]);
    }
    assert_eq!(judge(&words), Ok(4));
    words.extend([0x3000_0000, 0x4000_0000, 0x5000_0000]);
    assert_eq!(judge(&words), Err(refused(1, 0)));
    assert_eq!(printed(&[0; 49_161]), "refused 1 0\n");
    assert_eq!(printed(&[0; 49_159]), "refused 2 0\n");
    assert_eq!(printed(&[]), "refused 2 0\n");
}

/// Two looks of a head gain a microsecond each: neighbours pass, the pair does
/// not.
#[test]
fn drift_is_not_between_neighbours_only() {
    let mut words = m1();
    words[1] &= 0xF000_FFFF;
    words.extend([0x3000_0FA0, 0x4000_0FA1, 0x5000_0000]);
    assert_eq!(judge(&words), Ok(0));
    words.extend([0x3000_0FA0, 0x4000_0FA2, 0x5000_0000]);
    assert_eq!(judge(&words), Ok(2));
}

#[test]
fn one_head_causes_in_order() {
    let fresh = Record::fresh(3, 1, 2);
    let act = |action, reading| Input {
        action,
        reading,
        ..Input::default()
    };
    // 10 before 6, 6 before 8, 8 before 9.
    let bad = Record {
        vote_turn: true,
        ..fresh.clone()
    };
    assert_eq!(step(&bad, &act(10, 0)), Err(Cause(10)));
    let (later, frame) = step(&fresh, &act(1, 9)).unwrap();
    assert_eq!(frame, Some(Frame::Start));
    let unfit = Input {
        serial: 1,
        ..act(1, 8)
    };
    assert_eq!(step(&later, &unfit), Err(Cause(6)));
    assert_eq!(step(&later, &act(1, 8)), Err(Cause(8)));
    assert_eq!(step(&later, &act(1, 9)), Err(Cause(9)));
    assert_eq!(step(&fresh, &act(0, 1 << 28)), Err(Cause(6)));
    // Beside "none" the carried reading is zero; "none" is for action 5 only.
    let vote = Input {
        carried_head: 1,
        none: true,
        ..act(5, 9)
    };
    assert!(step(&later, &vote).is_ok());
    let both = Input {
        carried_reading: 4,
        ..vote
    };
    assert_eq!(step(&later, &both), Err(Cause(6)));
    let adjust = Input { action: 8, ..vote };
    assert_eq!(step(&later, &adjust), Err(Cause(6)));
    // One's own unsent start is taken by one head.
    let own = Input {
        sender: 2,
        ..act(2, 0)
    };
    assert!(step(&fresh, &own).is_ok());
}

#[test]
fn record_ranges() {
    let fresh = Record::fresh(4, 1, 3);
    assert!(fresh.in_ranges());
    let fits_with = |change: &dyn Fn(&mut Record)| {
        let mut record = fresh.clone();
        change(&mut record);
        record.in_ranges()
    };
    assert!(!fits_with(&|r| r.f = 2));
    assert!(!fits_with(&|r| r.n = 17));
    assert!(!fits_with(&|r| r.own = 4));
    assert!(!fits_with(&|r| r.last_reading = Reading(1 << 28)));
    assert!(!fits_with(&|r| r.adjustment = Reading(1)));
    assert!(!fits_with(&|r| r.candidate = Some(2)));
    assert!(!fits_with(&|r| r.votes_sent = 1));
    assert!(fits_with(&|r| (r.candidate, r.votes_sent) = (Some(2), 2)));
    assert!(!fits_with(&|r| (r.candidate, r.votes_sent) = (Some(2), 3)));
    assert!(fits_with(&|r| (r.adjuster, r.adjusts_sent) = (Some(0), 4)));
    assert!(!fits_with(&|r| (r.adjuster, r.adjusts_sent) = (Some(0), 0)));
    assert!(!fits_with(&|r| r.kept[0].vote_serial = Some(16)));
    assert!(fits_with(&|r| r.kept[3].start_reading = Some(Reading(0))));
    assert!(!fits_with(&|r| r.kept[4].start_reading = Some(Reading(0))));
    assert!(!fits_with(&|r| r.confirmed = true));
    assert!(!fits_with(&|r| r.adjust_turn = true));
    assert!(!fits_with(&|r| r.adjust_close = true));
}

/// n, f, correct bits, drift and tightness.
fn settings(given: [u32; 5]) -> Settings {
    let [n, f, correct, drift, tightness] = given;
    Settings {
        n,
        f,
        correct,
        drift,
        tightness,
    }
}

#[test]
fn m1_recorded_from_its_numbers() {
    let mut buffer = [7; 66];
    let written = record(
        &settings([2, 0, 3, 100, 10]),
        &ENTRIES.concat(),
        &mut buffer,
    );
    assert_eq!(written, Ok(()));
    assert_eq!(buffer[..65], m1());
    assert_eq!(buffer[65], 7, "words past the last one written are kept");
}

#[test]
fn recorder_names_the_first_cause() {
    let refused = |given: [u32; 5], numbers: &[u32], room: usize| {
        let mut buffer = vec![7; room];
        let cause = record(&settings(given), numbers, &mut buffer).unwrap_err();
        assert!(buffer.iter().all(|&word| word == 7), "nothing is written");
        cause.0
    };
    let look = |action, sender| [950, 1000, 1, action, sender, 0];
    assert_eq!(refused([256, 0, 0, 0, 0], &[9; 24_577], 0), 1);
    assert_eq!(refused([256, 0, 0, 0, 0], &[9; 7], 0), 2);
    assert_eq!(refused([256, 0, 3, 100, 10], &look(1, 0), 0), 12);
    assert_eq!(refused([17, 0, 3, 4096, 10], &look(1, 0), 0), 12);
    assert_eq!(refused([17, 0, 3, 100, 10], &look(10, 1), 0), 12);
    assert_eq!(refused([17, 0, 3, 100, 10], &look(10, 0), 0), 3);
    assert_eq!(refused([2, 0, 4, 100, 10], &look(10, 0), 0), 3);
    assert_eq!(refused([2, 0, 3, 100, 10], &look(10, 0), 0), 6);
    assert_eq!(refused([2, 0, 3, 100, 10], &look(2, 2), 0), 6);
    assert_eq!(refused([2, 0, 3, 100, 10], &look(2, 1), 4), 5);
}
