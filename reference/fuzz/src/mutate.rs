//! Changes of whole entries, since bytes changed at random are seldom a sheet; and of
//! result words, which stand behind a first word that names n and a head.

use reference::damage::{damage, Asked};
use reference::fast;
use reference::random::Random;
use reference::results::HeadResult;
use reference::words::{kind, to_bytes};

use crate::sheet::{named, split};

const TIME: u32 = (1 << 28) - 1;

/// The word with its low 28 bits moved on.
fn later(word: u32, by: u32) -> u32 {
    word & !TIME | (word & TIME).wrapping_add(by) & TIME
}

/// The word with `value` in the bits from `low` on that `mask` has.
fn with(word: u32, mask: u32, low: u32, value: u64) -> u32 {
    word & !(mask << low) | (value as u32 & mask) << low
}

fn change_settings(random: &mut Random, words: &mut [u32]) {
    let any = random.draw();
    match random.below(6) {
        0 => words[0] = with(words[0], 0xFF, 20, any % 18),
        1 => words[0] = with(words[0], 0xF, 16, any % 9),
        2 | 3 => words[0] ^= 1 << (any % 16),
        4 => words[1] = with(words[1], 0xFFF, 16, random.pick(&[0, 1, 100, 4_095, any])),
        _ => {
            words[1] = with(
                words[1],
                0xFFFF,
                0,
                random.pick(&[0, 1, any % 50, 65_535, any]),
            )
        }
    }
}

/// One field of an entry.
fn change_field(random: &mut Random, words: &mut [u32], at: usize) {
    let n = u64::from(words[0] >> 20 & 0xFF).clamp(1, 16);
    let third = words[at + 2];
    words[at + 2] = match random.below(5) {
        0 => with(third, 0xF, 24, random.below(10)),
        1 => with(third, 0xF, 20, random.below(n)),
        2 => with(third, 0xF, 16, random.below(n)),
        3 => with(third, 0xF, 12, random.below(4)),
        _ => third ^ 1 << random.below(32),
    };
}

/// Time goes on from an entry: real time, readings, or both, of all heads or one.
fn move_on(random: &mut Random, words: &mut [u32], at: usize) {
    let by = random.pick(&[1, 2, 7, 1_000, 1 << 20, u32::MAX]);
    let head = words[at + 2] & 0x00F0_0000;
    let (times, readings) = random.pick(&[(true, true), (true, false), (false, true)]);
    let one = random.chance(1, 2);
    for entry in words[at..].chunks_exact_mut(3) {
        if times {
            entry[0] = later(entry[0], by);
        }
        if readings && (!one || entry[2] & 0x00F0_0000 == head) {
            entry[1] = later(entry[1], by);
        }
    }
}

/// A new entry before another, at the time and reading that its head has.
fn insert(random: &mut Random, words: &mut Vec<u32>, at: usize) {
    let n = u64::from(words[0] >> 20 & 0xFF).clamp(1, 16);
    let (action, head) = (random.below(10) as u32, random.below(n) as u32);
    let mut third = 5 << 28 | action << 24 | head << 20;
    if matches!(action, 2 | 5 | 8) {
        third |= (random.below(n) as u32) << 16;
    }
    if matches!(action, 5 | 8) {
        third |= random.pick(&[0, 0, 0, 1, 1, 2, 3]) << 12;
    }
    let time = if at > 2 { words[at - 3] } else { 3 << 28 };
    let own = words[2..at]
        .rchunks_exact(3)
        .find(|e| e[2] >> 20 & 15 == head);
    let reading = own.map_or(4 << 28, |e| later(e[1], time.wrapping_sub(e[0]) & TIME));
    words.splice(at..at, [time, reading, third]);
}

/// An entry comes once more, before another.
fn double(words: &mut Vec<u32>, from: usize, at: usize) {
    let mut entry = [words[from], words[from + 1], words[from + 2]];
    if at > 2 {
        let passed = words[at - 3].wrapping_sub(entry[0]) & TIME;
        entry[0] = words[at - 3];
        entry[1] = later(entry[1], passed);
    }
    words.splice(at..at, entry);
}

/// One change of a sheet.
fn change(random: &mut Random, words: &mut Vec<u32>) {
    if words.len() < 2 {
        words.resize(2, 0);
        words[0] = 0x1020_0003;
        words[1] = 0x2064_000A;
    }
    let entries = (words.len() - 2) / 3;
    words.truncate(2 + 3 * entries);
    let end = 2 + 3 * random.index(entries + 1);
    if entries == 0 || random.chance(1, 4) {
        return insert(random, words, end);
    }
    let at = 2 + 3 * random.index(entries);
    let other = 2 + 3 * random.index(entries);
    match random.below(10) {
        0 => change_settings(random, words),
        1 => drop(words.drain(at..at + 3)),
        2 => double(words, at, other),
        3 | 4 => {
            // Two entries are exchanged and keep their real times.
            words.swap(at + 1, other + 1);
            words.swap(at + 2, other + 2);
        }
        5 | 6 => move_on(random, words, at),
        7 if random.chance(1, 4) => words.truncate(at),
        _ => change_field(random, words, at),
    }
}

/// Result words with one damage or two; at times those of a sheet in its place. None for
/// other sheets.
fn filed(random: &mut Random, given: &[u32]) -> Option<Vec<u32>> {
    let [first, words @ ..] = given else {
        return None;
    };
    if words.first().is_some_and(|&word| kind(word) > 5) {
        let (n, head) = named(*first);
        let words = words.to_vec();
        let mut asked = Asked { n, head, words };
        for _ in 0..random.pick(&[1, 1, 2]) {
            damage(random, &mut asked);
        }
        let first = with(*first, 0xFF, 20, asked.n.into());
        let first = with(first, 0xF, 16, asked.head.into());
        return Some([&[first], &asked.words[..]].concat());
    }
    if !random.chance(1, 16) {
        return None;
    }
    let (results, _) = fast::answer(given, None).ok()?;
    let told = results.iter().flat_map(HeadResult::words);
    Some([*first].into_iter().chain(told).collect())
}

/// The bytes after one to three changes; mostly until the sheet is accepted.
pub fn mutated(random: &mut Random, data: &[u8], max: usize) -> Vec<u8> {
    let (given, rest) = split(data);
    if let Some(words) = filed(random, &given) {
        let mut bytes = to_bytes(&words);
        bytes.truncate(max);
        return bytes;
    }
    let tries = random.pick(&[1, 8, 24]);
    let mut words = Vec::new();
    for _ in 0..tries {
        words.clone_from(&given);
        for _ in 0..random.pick(&[1, 1, 2, 3]) {
            change(random, &mut words);
        }
        if fast::answer(&words, None).is_ok() {
            break;
        }
    }
    let mut bytes = to_bytes(&words);
    if random.chance(1, 8) {
        bytes.push(random.below(80) as u8);
    } else if rest.len() == 1 {
        bytes.extend(rest);
    }
    bytes.truncate(max);
    bytes
}
