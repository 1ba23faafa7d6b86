//! Result words to be read, good and damaged ones, for the program that compares the
//! readers and for the fuzzer.

use crate::random::Random;
use crate::words::kind;

/// Numbers of heads outside 2 to 16: 258 is 2 in eight bits, and four times the last but
/// one is 8 in 32.
const BAD_HEADS: [u32; 9] = [0, 1, 17, 18, 255, 258, 1 << 31, (1 << 30) + 2, u32::MAX];
/// Kinds that the display passes over.
const UNKNOWN: [u32; 13] = [0, 1, 2, 3, 4, 5, 9, 10, 11, 12, 13, 14, 15];

/// What a reader is asked: of which head of how many, and the words.
#[derive(Clone, Debug)]
pub struct Asked {
    pub n: u32,
    pub head: u32,
    pub words: Vec<u32>,
}

/// A word of this kind: any fields, or all bits alike; the outcome of kind 6 is mostly 2.
fn word(random: &mut Random, kind: u32) -> u32 {
    let any = random.draw() as u32 & 0x0FFF_FFFF;
    let mut fields = random.pick(&[any, any, any, 0, 0x0FFF_FFFF]);
    if kind == 6 && random.chance(2, 3) {
        fields = fields & 0x00FF_FFFF | random.pick(&[0, 1, 2, 2, 2]) << 24;
    }
    kind << 28 | fields
}

fn unknown(random: &mut Random) -> u32 {
    let kind = random.pick(&UNKNOWN);
    word(random, kind)
}

fn known(random: &mut Random) -> u32 {
    let kind = random.pick(&[6, 7, 8]);
    word(random, kind)
}

/// Words of any fields, four for each of n heads: mostly 2 to 16, at times a number that
/// is refused.
pub fn drawn(random: &mut Random) -> Asked {
    let n = match random.below(12) {
        0 => random.pick(&[0, 1, 17, 18, 255]),
        _ => 2 + random.below(15) as u32,
    };
    let words = (0..4 * n).map(|place| word(random, 6 + place % 4));
    let words = words.collect();
    let head = random.below(n.max(1).into()) as u32;
    Asked { n, head, words }
}

/// A number of heads, or a head, at or beyond its bounds.
fn misname(random: &mut Random, asked: &mut Asked) {
    let (n, head) = (asked.n, asked.head);
    match random.below(4) {
        0 => asked.n = random.pick(&BAD_HEADS),
        1 => asked.n = random.pick(&[n.wrapping_sub(1), n.wrapping_add(1), 2, 16]),
        _ => {
            let beyond = [n, n, n.wrapping_add(1), 16, 255, u32::MAX];
            // In eight bits, or but for the highest bit, these are the head.
            let alike = [head | 1 << 8, head | 1 << 31];
            asked.head = random.pick(&[&beyond[..], &alike].concat());
        }
    }
}

/// So many words that the display passes over, in one place or spread.
fn strew(random: &mut Random, words: &mut Vec<u32>) {
    let many = random.below(4_000);
    let count = random.pick(&[2, 3, 16, 40, many]);
    if random.chance(1, 2) {
        let at = random.index(words.len() + 1);
        let block: Vec<u32> = (0..count).map(|_| unknown(random)).collect();
        words.splice(at..at, block);
    } else {
        for _ in 0..count.min(60) {
            let at = random.index(words.len() + 1);
            words.insert(at, unknown(random));
        }
    }
}

/// One damage of the words; where there are none, one is put in.
fn spoil(random: &mut Random, words: &mut Vec<u32>) {
    if words.is_empty() {
        words.push(known(random));
        return;
    }
    let at = random.index(words.len());
    match random.below(13) {
        0 | 1 => words[at] ^= (1 + random.below(15) as u32) << 28,
        2 => words[at] = known(random),
        3 => drop(words.remove(at)),
        4 | 5 => words.insert(at, unknown(random)),
        6 => words.insert(at, known(random)),
        7 => {
            let other = random.index(words.len());
            words.swap(at, other);
        }
        8 => drop(words.pop()),
        9 => {
            // As the next head's first word would be.
            let next = [known(random), word(random, 6)];
            words.push(random.pick(&next));
        }
        10 => words.retain(|&w| kind(w) != 9),
        11 => strew(random, words),
        // None, one head fewer, or cut anywhere.
        _ => words.truncate(random.pick(&[0, words.len().saturating_sub(4), at])),
    }
}

/// One damage, of the words or of what is asked.
pub fn damage(random: &mut Random, asked: &mut Asked) {
    if random.chance(1, 5) {
        misname(random, asked);
    } else {
        spoil(random, &mut asked.words);
    }
}
