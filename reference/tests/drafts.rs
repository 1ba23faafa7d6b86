//! Document 02, No. 3: the drafted sheet word for word, its room, what is refused,
//! and how it is replayed and judged for every n and f.

use reference::cover::ALLOWED_COUNTS;
use reference::draft::{draft, room, steps};
use reference::fast;
use reference::judge::judge;
use reference::program::printed;
use reference::results::HEAD_WORDS;
use reference::sheet::{check_front, replay, run};
use reference::words::{counts_allowed, to_bytes, Cause};

/// What stands in a buffer before a call.
const UNTOUCHED: u32 = 7;

/// The drafted sheet; the room is enough, and no word less would be.
fn drafted(n: u32, f: u32, first: u32, spacing: u32) -> Vec<u32> {
    let mut words = vec![UNTOUCHED; room(n)];
    assert_eq!(draft(n, f, first, spacing, &mut words), Ok(()));
    words
}

/// The cause, of a refusal that leaves the buffer untouched; 0 if there is none.
fn cause(n: u32, f: u32, first: u32, spacing: u32, room: usize) -> u32 {
    let mut words = vec![UNTOUCHED; room];
    let Err(Cause(number)) = draft(n, f, first, spacing, &mut words) else {
        return 0;
    };
    assert_eq!(words, vec![UNTOUCHED; room]);
    number
}

fn allowed() -> impl Iterator<Item = (u32, u32)> {
    let pairs = (0..20).flat_map(|n| (0..20).map(move |f| (n, f)));
    pairs.filter(|&(n, f)| counts_allowed(n, f))
}

#[test]
fn two_heads_word_for_word() {
    // Real time, action, head and sender; the reading is the real time.
    let entries = [
        (1000, 1, 0, 0),
        (1010, 1, 1, 0),
        (1020, 2, 0, 0),
        (1020, 2, 1, 0),
        (1030, 2, 0, 1),
        (1030, 2, 1, 1),
        (1040, 3, 0, 0),
        (1050, 3, 1, 0),
        (1060, 4, 0, 0),
        (1070, 5, 1, 0),
        (1080, 4, 1, 0),
        (1090, 5, 0, 1),
        (1100, 6, 0, 0),
        (1110, 6, 1, 0),
        (1120, 7, 0, 0),
        (1130, 8, 1, 0),
        (1140, 7, 1, 0),
        (1150, 8, 0, 1),
        (1160, 9, 0, 0),
        (1170, 9, 1, 0),
    ];
    let mut expected = vec![0x1020_0003, 0x2000_0000];
    for (time, action, head, sender) in entries {
        let act = action << 24 | head << 20 | sender << 16;
        expected.extend([0x3000_0000 | time, 0x4000_0000 | time, 0x5000_0000 | act]);
    }
    assert_eq!(drafted(2, 0, 1000, 10), expected);
}

/// Three heads show that senders rise, that receivers rise for each sender, and
/// that one's own vote and adjust are left out: head and sender of each delivery.
#[test]
fn deliveries_among_three_heads() {
    let words = drafted(3, 1, 0, 1);
    let delivered = |action| -> Vec<(u32, u32)> {
        let entries = run(&words, None).unwrap().entries.into_iter();
        let taken = entries.filter(|entry| entry.action == action);
        taken.map(|entry| (entry.head, entry.sender)).collect()
    };
    let starts = [
        (0, 0),
        (1, 0),
        (2, 0),
        (0, 1),
        (1, 1),
        (2, 1),
        (0, 2),
        (1, 2),
        (2, 2),
    ];
    let others = [(1, 0), (2, 0), (0, 1), (2, 1), (0, 2), (1, 2)];
    assert_eq!(delivered(2), starts);
    assert_eq!(delivered(5), others);
    assert_eq!(delivered(8), others);
}

#[test]
fn room_for_every_n() {
    let rooms: Vec<usize> = (2..=16).map(room).collect();
    assert_eq!(rooms[0], 62);
    assert_eq!(rooms[14], 2498);
    for n in 2..=16 {
        let exact = room(n);
        assert_eq!(cause(n, 0, 1000, 100, exact - 1), 5);
        assert_eq!(cause(n, 0, 1000, 100, 0), 5);
        let mut words = vec![UNTOUCHED; exact + 2];
        assert_eq!(draft(n, 0, 1000, 100, &mut words), Ok(()));
        assert_eq!(words[..exact], drafted(n, 0, 1000, 100));
        assert_eq!(words[exact..], [UNTOUCHED; 2], "words behind are kept");
        assert_ne!(words[exact - 1], UNTOUCHED, "the room is filled");
    }
}

#[test]
fn refusals_at_their_bounds() {
    // n from 2 to 16, 2f + 1 at most n, in numbers of 32 bits.
    for (n, f) in [
        (0, 0),
        (1, 0),
        (17, 0),
        (258, 0),
        (u32::MAX, 0),
        (2, 1),
        (15, 8),
        (16, 8),
        (16, 1 << 31),
        (16, u32::MAX),
    ] {
        assert_eq!(cause(n, f, 0, 0, 4000), 3, "{n} {f}");
        assert_eq!(cause(n, f, u32::MAX, u32::MAX, 0), 3, "before 13 and 5");
    }
    // Two heads have 18 real times.
    for (first, spacing) in [
        (0x0FFF_FFFF, 0),
        (0x0FFF_FFFF - 17, 1),
        (0, 15_790_320),
        (15, 15_790_320),
    ] {
        assert_eq!(cause(2, 0, first, spacing, 62), 0, "{first} {spacing}");
        assert_eq!(cause(2, 0, first, spacing, 61), 5, "{first} {spacing}");
    }
    for (first, spacing) in [
        (0x1000_0000, 0),
        (0x1000_0000 - 17, 1),
        (16, 15_790_320),
        (0, 15_790_321),
        // In 32 bits these would come out small.
        (u32::MAX, 1),
        (0, 252_645_136),
        (u32::MAX, u32::MAX),
    ] {
        assert_eq!(cause(2, 0, first, spacing, 62), 13, "{first} {spacing}");
        assert_eq!(cause(2, 0, first, spacing, 0), 13, "before 5");
    }
}

/// 9n real times, each a spacing after the one before; the last at the very end of
/// time, where the longest spacing is.
#[test]
fn times_of_every_draft() {
    for n in 2..=16 {
        let spacing = 0x0FFF_FFFF / steps(n);
        let first = 0x0FFF_FFFF - spacing * steps(n);
        let entries = run(&drafted(n, 0, first, spacing), None).unwrap().entries;
        assert!(entries.iter().all(|e| e.time.0 == e.reading.0));
        let mut times: Vec<u32> = entries.iter().map(|e| e.time.0).collect();
        times.dedup();
        assert_eq!(times.len(), 9 * n as usize);
        assert_eq!((times[0], times.last()), (first, Some(&0x0FFF_FFFF)));
        assert!(times.windows(2).all(|pair| pair[1] - pair[0] == spacing));
        assert_eq!(cause(n, 0, first + 1, spacing, room(n)), 13);
    }
}

#[test]
fn every_draft_is_accepted_and_kept() {
    assert_eq!(allowed().count(), ALLOWED_COUNTS);
    for ((n, f), (first, spacing)) in
        allowed().flat_map(|pair| [(1000, 100), (0, 0), (0x0FF0_0000, 7)].map(|t| (pair, t)))
    {
        let words = drafted(n, f, first, spacing);
        let given = check_front(&words, None).unwrap();
        assert_eq!((given.n, given.f, given.correct), (n, f, (1 << n) - 1));
        assert_eq!((given.drift, given.tightness), (0, 0));
        assert_eq!(judge(&words), Ok(0));
        let mut results = vec![UNTOUCHED; HEAD_WORDS * n as usize];
        assert_eq!(replay(&words, &mut results), Ok(()));
        // Outcome 2, candidate 0 and adjuster 0; head 0's start comes after n starts. Each
        // head broadcasts one frame of each sort.
        let start = first + spacing * n;
        for (head, found) in (0..).zip(results.chunks(HEAD_WORDS)) {
            let expected = [
                0x6200_0000 | head << 20,
                0x7000_0000 | start,
                0x8000_0000 | start,
                0x9010_1010,
            ];
            assert_eq!(found, expected, "{n} {f} {first} {spacing}");
        }
        let bytes = to_bytes(&words);
        assert_eq!(printed(&bytes), fast::printed(&bytes));
    }
}

#[test]
fn sample_is_drafted() {
    let sample = include_bytes!("../../samples/drafted.sheet");
    assert_eq!(to_bytes(&drafted(5, 2, 1000, 100)), sample);
}
