//! Document 02, No. 7: the carriage display and the planner's reader, on the words of
//! sheets, on words of any fields, and what they refuse.

use std::fs;
use std::path::PathBuf;
use std::sync::LazyLock;

use reference::program::read_words;
use reference::readers::{display, plan};
use reference::results::HEAD_WORDS;
use reference::sheet::replay;
use reference::words::{kind, Cause};

/// The folder of the sample sheets, in the repository's root.
const SAMPLES: &str = concat!(env!("CARGO_MANIFEST_DIR"), "/../samples");

/// M1's result words, which the marked cases spell out.
static M1: LazyLock<Vec<u32>> = LazyLock::new(|| {
    let bytes = fs::read(PathBuf::from(SAMPLES).join("m1.sheet")).expect("M1 is a sample");
    let mut words = vec![0; 2 * HEAD_WORDS];
    let sheet = read_words(&bytes).expect("a sheet has whole words");
    replay(&sheet, &mut words).expect("M1 is accepted");
    words
});

/// What the display shows of M1's heads.
const SHOWN: [[i64; 6]; 2] = [[2, 0, 0, 1286, 1260, 26], [2, 0, 0, 1286, 1313, -27]];

/// The words of kinds 6 to 8: a file of three words a head.
fn three(words: &[u32]) -> Vec<u32> {
    let mut words = words.to_vec();
    words.retain(|&word| kind(word) != 9);
    words
}

/// The causes of the display and of the planner's reader, 0 where they answer.
fn causes(n: u32, head: u32, words: &[u32]) -> [u32; 2] {
    let number = |cause: Option<Cause>| cause.map_or(0, |cause| cause.0);
    let shown = display(n, head, words).err();
    [shown, plan(n, head, words).err()].map(number)
}

#[test]
fn both_on_m1() {
    for (head, shown) in (0..).zip(SHOWN) {
        assert_eq!(display(2, head, &M1), Ok(shown));
        assert_eq!(display(2, head, &three(&M1)), Ok(shown));
        let told = [&shown[..], &[1, 1, 1]].concat();
        assert_eq!(plan(2, head, &M1).unwrap()[..], told);
        assert_eq!(plan(2, head, &three(&M1)), Err(Cause(2)));
    }
}

/// "outcome to correction as the replay program prints them"
#[test]
fn as_the_replay_program_prints() {
    let files = fs::read_dir(SAMPLES).unwrap().map(|f| f.unwrap().path());
    let sheets = files.filter(|path| path.extension().is_some_and(|e| e == "sheet"));
    let mut heads = 0;
    for path in sheets {
        let text = fs::read_to_string(path.with_extension("txt")).unwrap();
        let printed: Vec<&str> = text.lines().collect();
        let Some((_, printed)) = printed.split_last().filter(|(_, lines)| !lines.is_empty()) else {
            continue;
        };
        heads += printed.len();
        check_lines(&path, printed);
    }
    assert!(heads > 40, "{heads} heads");
}

fn check_lines(path: &PathBuf, printed: &[&str]) {
    let words = read_words(&fs::read(path).unwrap()).unwrap();
    let n = printed.len() as u32;
    let mut out = vec![0; HEAD_WORDS * printed.len()];
    replay(&words, &mut out).unwrap();
    for (head, line) in (0..).zip(printed) {
        let told = plan(n, head, &out).unwrap();
        let line_of = |numbers: &[i64]| {
            let fields: Vec<String> = numbers.iter().map(i64::to_string).collect();
            format!("{head} {}", fields.join(" "))
        };
        assert_eq!(line_of(&display(n, head, &out).unwrap()), *line, "{path:?}");
        assert_eq!(display(n, head, &three(&out)), display(n, head, &out));
        assert_eq!(line_of(&told[..6]), *line, "{path:?}");
    }
}

/// "passes over kinds other than 6 to 8", wherever they stand and however many.
#[test]
fn display_passes_over_other_kinds() {
    let known = three(&M1);
    for other in [0, 1, 2, 3, 4, 5, 9, 10, 11, 12, 13, 14, 15] {
        for word in [other << 28, other << 28 | 0x0FFF_FFFF] {
            for at in 0..=known.len() {
                let mut words = known.clone();
                words.insert(at, word);
                assert_eq!(display(2, 1, &words), Ok(SHOWN[1]), "{word:#x} at {at}");
            }
            // Before, between and behind all words, a thousand each time.
            let many = vec![word; 1_000];
            let between = known.iter().flat_map(|&w| [&[w], &many[..]].concat());
            let words: Vec<u32> = many.iter().copied().chain(between).collect();
            assert_eq!(display(2, 0, &words), Ok(SHOWN[0]));
            assert_eq!(causes(2, 0, &words), [0, 2]);
        }
    }
}

/// The fields as they stand in the words, whatever the outcome; the correction is 0
/// unless it is 2. The head in a word and bits that should be zero are not asked.
#[test]
fn fields_as_they_stand() {
    for outcome in 0..16 {
        // Head 13 and low bits set in the words of head 1.
        let mut words = M1.to_vec();
        words[4] = 0x60D5_6FFF | outcome << 24;
        words[5] = 0x7FFF_FFFF;
        words[6] = 0x8000_0001;
        words[7] = 0x9FFF_FFFF;
        let correction = if outcome == 2 { 0x0FFF_FFFE } else { 0 };
        let shown = [outcome.into(), 5, 6, 0x0FFF_FFFF, 1, correction];
        assert_eq!(display(2, 1, &words), Ok(shown));
        let told = [&shown[..], &[255; 3]].concat();
        assert_eq!(plan(2, 1, &words).unwrap()[..], told);
    }
    // The least correction, and each count in its place.
    let words = [0x6200_0000, 0x7000_0000, 0x8FFF_FFFF, 0x9120_3040];
    let words = [&words[..], &M1[4..]].concat();
    let told = [2, 0, 0, 0, 0x0FFF_FFFF, -0x0FFF_FFFF, 18, 3, 4];
    assert_eq!(plan(2, 0, &words), Ok(told));
    assert_eq!(plan(2, 1, &words).unwrap()[6..], [1, 1, 1]);
}

/// "Each tests n and that the head is below it (cause 3)"
#[test]
fn n_and_head() {
    for n in [0, 1, 17, 18, 255, 258, (1 << 30) + 2, u32::MAX] {
        // The words of n heads, where there can be so many.
        let heads = if n < 256 { n as usize } else { 2 };
        let words = M1[..4].repeat(heads);
        for head in [0, 1, n.wrapping_sub(1), n, u32::MAX] {
            assert_eq!(causes(n, head, &words), [3, 3], "{n} {head}");
        }
    }
    for n in 2..=16 {
        let words = M1[..4].repeat(n as usize);
        for head in 0..n {
            assert_eq!(causes(n, head, &words), [0, 0], "{n} {head}");
        }
        for head in [n, n + 1, 16, 256, 1 << 31, u32::MAX] {
            assert_eq!(causes(n, head, &words), [3, 3], "{n} {head}");
        }
    }
}

/// "then its length, 4n, or 3n for the display once unknown kinds are dropped (2)"
#[test]
fn lengths() {
    assert_eq!(causes(2, 0, &[]), [2, 2]);
    for cut in 0..8 {
        // Without the last word, of kind 9, the display has all that it wants.
        let shown = if cut == 7 { 0 } else { 2 };
        assert_eq!(causes(2, 0, &M1[..cut]), [shown, 2], "{cut}");
    }
    let longer = |more: u32| [&M1[..], &[more]].concat();
    assert_eq!(causes(2, 1, &longer(0x6200_0000)), [2, 2]);
    assert_eq!(causes(2, 1, &longer(0x9010_1010)), [0, 2]);
    // The words of three heads, or of two, for another n.
    assert_eq!(causes(3, 0, &M1), [2, 2]);
    assert_eq!(causes(2, 0, &M1.repeat(2)), [2, 2]);
    assert_eq!(causes(4, 3, &M1.repeat(2)), [0, 0]);
    // Twelve words of three a head are four heads to the display, and three by length.
    let twelve = three(&M1.repeat(2));
    assert_eq!(causes(4, 0, &twelve), [0, 2]);
    assert_eq!(causes(3, 0, &twelve), [2, 6]);
}

/// "then the kinds in their places (6)", of all heads, not only of the one asked.
#[test]
fn kinds_of_all_heads() {
    for place in 0..8 {
        for other in 0..16 {
            let mut words = M1.to_vec();
            words[place] = words[place] & 0x0FFF_FFFF | other << 28;
            let own = kind(M1[place]);
            let known = |kind| (6..=8).contains(&kind);
            let expected = match (known(own), known(other)) {
                _ if own == other => [0, 0],
                (true, true) => [6, 6],
                // To the display a word more or fewer, or one more that it passes over.
                (true, false) | (false, true) => [2, 6],
                (false, false) => [0, 6],
            };
            for head in 0..2 {
                let found = causes(2, head, &words);
                assert_eq!(found, expected, "{other} at {place} for {head}");
            }
        }
    }
    // Heads exchanged, but each kind in its place: the head in a word is not asked.
    assert_eq!(display(2, 0, &[&M1[4..], &M1[..4]].concat()), Ok(SHOWN[1]));
    let mut exchanged = M1.to_vec();
    exchanged.swap(0, 1);
    assert_eq!(causes(2, 1, &exchanged), [6, 6]);
    // Without kind 9 moved, the display has its words in their places.
    let fourth_first = [&[M1[3], M1[7]], &three(&M1)[..]].concat();
    assert_eq!(causes(2, 1, &fourth_first), [0, 6]);
}

/// Cause 3 before 2, and 2 before 6.
#[test]
fn refusals_in_order() {
    let mut wrong = M1.to_vec();
    wrong.swap(0, 1);
    assert_eq!(causes(2, 2, &wrong), [3, 3], "head and kinds");
    assert_eq!(causes(2, 2, &M1[..5]), [3, 3], "head and length");
    assert_eq!(causes(17, 0, &M1), [3, 3], "n and length");
    assert_eq!(causes(1, 0, &wrong[..5]), [3, 3], "all three");
    assert_eq!(causes(0, 0, &[]), [3, 3]);
    assert_eq!(causes(2, 0, &wrong[..6]), [2, 2], "length and kinds");
    let longer = [&wrong[..], &[0x8000_0000]].concat();
    assert_eq!(causes(2, 0, &longer), [2, 2], "length and kinds");
    assert_eq!(causes(2, 0, &wrong), [6, 6], "kinds alone");
}
