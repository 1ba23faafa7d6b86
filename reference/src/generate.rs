//! Seeded sheets: rounds that keep all premises, rounds that break one of them
//! first, sheets that are turned back by a wanted cause, and damaged ones.

use crate::cover::{closed_reasons, BRANCHES};
use crate::draft::{draft, room, steps};
use crate::fast;
use crate::random::Random;
use crate::results::{HEAD_WORDS, RESULT_WORDS};
use crate::round::round;
use crate::sheet::run;
use crate::words::{to_bytes, write_entry, write_sheet, Cause, Entry, RealTime};
use crate::words::{MAX_ENTRIES, MAX_WORDS, TIME_LIMIT};

/// What a sheet was made for.
#[derive(Clone, Copy, Debug, PartialEq, Eq)]
pub enum Aim {
    /// Accepted, with this first broken premise, or 0.
    Premise(u32),
    /// Turned back by this cause.
    Cause(u32),
    /// Damaged at random.
    Damaged,
}

/// A sheet with the length of the result buffer to replay it with.
#[derive(Clone, Debug)]
pub struct Generated {
    pub aim: Aim,
    pub bytes: Vec<u8>,
    pub buffer: usize,
}

/// The sheet of this seed and index.
pub fn generate(seed: u64, index: u64) -> Generated {
    let mut random = Random::new(seed, index);
    let aim = match random.below(20) {
        0..=7 => Aim::Premise(0),
        8..=12 => Aim::Premise(1 + random.below(8) as u32),
        13..=16 => Aim::Cause(draw_cause(&mut random)),
        _ => Aim::Damaged,
    };
    let mut buffer = RESULT_WORDS;
    let bytes = match aim {
        Aim::Premise(premise) => {
            let (mut words, n) = accepted(&mut random, premise);
            if premise == 0 && random.chance(1, 200) {
                fill(&mut random, &mut words);
            }
            buffer = HEAD_WORDS * n as usize + random.index(5);
            to_bytes(&words)
        }
        Aim::Cause(5) => {
            let (words, n) = accepted(&mut random, 0);
            // Before document 02, No. 7, three words a head were enough.
            let (heads, enough) = (n as usize, HEAD_WORDS * n as usize);
            let any = random.index(enough);
            let three = 3 * heads + random.index(heads);
            buffer = random.pick(&[any, three, 3 * heads, enough - 1]);
            to_bytes(&words)
        }
        Aim::Cause(cause) => turned_back(&mut random, cause),
        Aim::Damaged => damaged(&mut random),
    };
    Generated { aim, bytes, buffer }
}

/// Cause 1 makes long sheets and is rarer; 6 and 9 have the most reasons.
fn draw_cause(random: &mut Random) -> u32 {
    let causes = [2, 3, 4, 5, 6, 6, 6, 7, 8, 9, 9, 9, 9, 9];
    if random.chance(1, 40) {
        return 1;
    }
    random.pick(&causes)
}

/// n, f, first real time and spacing of a sheet that can be drafted, the times often
/// at an edge.
pub fn draftable(random: &mut Random) -> [u32; 4] {
    let n = 2 + random.below(15) as u32;
    let f = random.below(u64::from((n - 1) / 2) + 1) as u32;
    let longest = (TIME_LIMIT - 1) / steps(n);
    let any = random.below(u64::from(longest) + 1) as u32;
    let spacing = random.pick(&[0, 1, 100, longest, any]);
    let latest = TIME_LIMIT - 1 - spacing * steps(n);
    let any = random.below(u64::from(latest) + 1) as u32;
    [n, f, random.pick(&[0, latest, any]), spacing]
}

/// The words and n of a sheet that is accepted with this first broken premise,
/// as the fast form says; [`crate::cover`] holds the plain form to it.
pub fn accepted(random: &mut Random, premise: u32) -> (Vec<u32>, u32) {
    if premise == 0 && random.chance(1, 16) {
        let [n, f, first, spacing] = draftable(random);
        let mut words = vec![0; room(n)];
        draft(n, f, first, spacing, &mut words).expect("it can be drafted");
        return (words, n);
    }
    loop {
        let Some((settings, entries)) = round(random, premise) else {
            continue;
        };
        let words = write_sheet(&settings, &entries);
        let (_, broken) = fast::answer(&words, None).expect("rounds are accepted");
        if broken == premise {
            return (words, settings.n);
        }
    }
}

/// More looks, at heads whose last entry is in the last microsecond, with the
/// same reading: "12,290 words may pass".
fn fill(random: &mut Random, words: &mut Vec<u32>) {
    let now = words[words.len() - 3];
    let mut heads: Vec<[u32; 2]> = Vec::new();
    for entry in words[2..].rchunks(3).take_while(|e| e[0] == now) {
        let head = entry[2] & 0x00F0_0000;
        if heads.iter().all(|h| h[1] != head) {
            heads.push([entry[1], head]);
        }
    }
    let room = MAX_ENTRIES - words.len() / 3;
    let count = random.pick(&[1, 40, room, room]).min(room);
    for _ in 0..count {
        let [reading, head] = random.pick(&heads);
        words.extend([now, reading, 0x5000_0000 | head]);
    }
}

/// Any sheet that is accepted.
fn any_accepted(random: &mut Random) -> Vec<u32> {
    let premise = random.pick(&[0, 0, 0, 0, 4, 5, 7]);
    accepted(random, premise).0
}

/// The bytes of a sheet that is turned back by this cause.
fn turned_back(random: &mut Random, cause: u32) -> Vec<u8> {
    loop {
        let mut words = any_accepted(random);
        let entries = (words.len() - 2) / 3;
        match cause {
            1 => {
                let more = random.pick(&[1, 2, 3, 4, 300]);
                while words.len() < MAX_WORDS + more {
                    let at = 2 + 3 * random.index(entries);
                    words.extend_from_within(at..at + 3);
                }
                words.truncate(MAX_WORDS + more);
                if random.chance(1, 4) {
                    words[0] = random.draw() as u32;
                }
                let mut bytes = to_bytes(&words);
                if random.chance(1, 3) {
                    bytes.truncate(4 * MAX_WORDS + 1 + random.index(4));
                }
                return bytes;
            }
            2 => {
                if random.chance(1, 4) {
                    words.truncate(random.index(2));
                } else if random.chance(1, 3) {
                    let mut bytes = to_bytes(&words);
                    bytes.truncate(bytes.len() - 1 - random.index(3));
                    return bytes;
                } else {
                    words.truncate(words.len() - 1 - random.index(2));
                }
                if !words.is_empty() && random.chance(1, 4) {
                    words[0] = 0;
                }
                return to_bytes(&words);
            }
            3 => {
                let n = random.below(18) as u32;
                let correct = random.draw() as u32 & 0xFFFF;
                words[0] = match random.below(6) {
                    0 => words[0] ^ (1 + random.below(15) as u32) << 28,
                    1 => words[0] & 0xF00F_FFFF | random.pick(&[0, 1, 17, 18, 255]) << 20,
                    2 => words[0] & 0xFFF0_FFFF | (random.below(16) as u32) << 16,
                    3 => words[0] | correct,
                    4 => 1 << 28 | n << 20 | (random.below(9) as u32) << 16 | correct,
                    _ => 1 << 28 | n << 20 | correct & ((1 << n.min(16)) - 1),
                };
                if random.chance(1, 4) {
                    words[1] = random.draw() as u32;
                }
            }
            4 => {
                words[1] ^= (1 + random.below(15) as u32) << 28;
                if random.chance(1, 4) && entries > 0 {
                    words[2] = random.draw() as u32;
                }
            }
            _ => break_entry(random, &mut words, cause),
        }
        if let Err(refusal) = run(&words, None) {
            if refusal.cause == Cause(cause) {
                return to_bytes(&words);
            }
        }
    }
}

/// One entry at a random place is put out of order for cause 6, 7, 8 or 9; at
/// times the same entry also has a reason for a later cause.
fn break_entry(random: &mut Random, words: &mut Vec<u32>, cause: u32) {
    let n = u64::from(words[0] >> 20 & 0xFF);
    let entries = (words.len() - 2) / 3;
    if entries == 0 {
        return;
    }
    let place = 2 + 3 * random.index(entries);
    let now = if place > 2 {
        words[place - 3] & 0x0FFF_FFFF
    } else {
        words[place] & 0x0FFF_FFFF
    };
    match cause {
        6 => {
            let third = place + 2;
            match random.below(9) {
                0 => words[place] ^= (1 + random.below(15) as u32) << 28,
                1 => words[place + 1] ^= (1 + random.below(15) as u32) << 28,
                2 => words[third] ^= (1 + random.below(15) as u32) << 28,
                3 => {
                    let action = 10 + random.below(6) as u32;
                    words[third] = words[third] & 0xF0FF_FFFF | action << 24;
                }
                4 => words[third] |= 1 << random.below(12),
                5 => {
                    let head = n + random.below(16);
                    words[third] = words[third] & 0xFF0F_FFFF | (head.min(15) as u32) << 20;
                }
                6 => {
                    let sender = n + random.below(16);
                    words[third] = words[third] & 0xFFF0_FFFF | (sender.min(15) as u32) << 16;
                }
                7 => words[third] = words[third] & 0xFFF0_FFFF | (random.below(n) as u32) << 16,
                _ => words[third] = words[third] & 0xFFFF_0FFF | (random.below(16) as u32) << 12,
            }
            if random.chance(1, 4) {
                words[place] &= 0xF000_0000;
            }
        }
        7 if now > 0 => {
            let any = random.below(now.into()) as u32;
            let time = random.pick(&[now - 1, any]);
            words[place] = 3 << 28 | time;
            if random.chance(1, 4) {
                words[place + 1] = 4 << 28;
            }
        }
        8 => {
            let head = words[place + 2] >> 20 & 15;
            let last = (2..place)
                .step_by(3)
                .rev()
                .find(|&p| words[p + 2] >> 20 & 15 == head)
                .map_or(0, |p| words[p + 1] & 0x0FFF_FFFF);
            if last > 0 {
                let any = random.below(last.into()) as u32;
                let below = random.pick(&[last - 1, any]);
                words[place + 1] = 4 << 28 | below;
                if random.chance(1, 4) {
                    words[place + 2] = words[place + 2] & 0xF0FF_FFFF | 1 << 24;
                }
            }
        }
        9 => insert_closed(random, words),
        _ => {}
    }
}

/// An entry that is closed, or whose frame was not sent, for one reason drawn
/// at random, comes in at a random place.
fn insert_closed(random: &mut Random, words: &mut Vec<u32>) {
    let reasons: Vec<&str> = BRANCHES
        .iter()
        .copied()
        .filter(|b| b.starts_with("cause 9"))
        .collect();
    let wanted = random.pick(&reasons);
    for _ in 0..40 {
        let place = 2 + 3 * random.index(words.len() / 3 + 1);
        let before = run(&words[..place], None).expect("a part of an accepted sheet");
        let n = before.settings.n;
        let mut found = Vec::new();
        for (action, head, sender) in (1..10)
            .flat_map(|action| (0..n).map(move |head| (action, head)))
            .flat_map(|(action, head)| (0..n).map(move |sender| (action, head, sender)))
        {
            let from = &before.records[sender as usize];
            let (sent, limit) = match action {
                2 => (u32::from(from.start_sent), 1),
                5 => (from.votes_sent, 16),
                8 => (from.adjusts_sent, 16),
                _ if sender == 0 => (0, 1),
                _ => continue,
            };
            // A frame that was not sent, or one's own.
            let first = if head == sender && action != 2 {
                0
            } else {
                sent
            };
            if first < limit && closed_reasons(&before.records, action, head, sender) == [wanted] {
                found.push((action, head, sender, first, limit));
            }
        }
        if found.is_empty() {
            continue;
        }
        let (action, head, sender, first, limit) = random.pick(&found);
        let any = random.between(first.into(), i64::from(limit) - 1) as u32;
        let entry = Entry {
            time: before.entries.last().map_or(RealTime(0), |e| e.time),
            reading: before.records[head as usize].last_reading,
            action,
            head,
            sender,
            serial: random.pick(&[first, any]),
        };
        words.splice(place..place, write_entry(&entry));
        words.truncate(MAX_WORDS);
        return;
    }
}

/// Flipped bits, edited entries, cut and garbage bytes.
fn damaged(random: &mut Random) -> Vec<u8> {
    if random.chance(1, 10) {
        let length = random.index(400);
        return (0..length).map(|_| random.draw() as u8).collect();
    }
    let mut words = any_accepted(random);
    if random.chance(1, 2) {
        for _ in 0..1 + random.below(3) {
            edit(random, &mut words);
        }
        return to_bytes(&words);
    }
    let mut bytes = to_bytes(&words);
    match random.below(4) {
        0 => {
            // Cut, at any byte or between entries.
            let length = random.index(bytes.len() + 1);
            bytes.truncate(random.pick(&[length, 8 + length / 12 * 12]));
        }
        1 => {
            let at = random.index(bytes.len());
            let end = bytes.len().min(at + 1 + random.index(8));
            bytes[at..end]
                .iter_mut()
                .for_each(|b| *b = random.draw() as u8);
        }
        2 => {
            let more = random.index(30);
            bytes.extend((0..more).map(|_| random.draw() as u8));
        }
        _ => {}
    }
    for _ in 0..random.below(3) {
        if !bytes.is_empty() {
            let at = random.index(bytes.len());
            bytes[at] ^= 1 << random.below(8);
        }
    }
    bytes
}

/// One edit that may leave the sheet accepted: settings changed, or an entry
/// taken out, doubled, moved or changed in one field.
fn edit(random: &mut Random, words: &mut Vec<u32>) {
    let entries = (words.len() - 2) / 3;
    if entries < 2 {
        return;
    }
    let at = 2 + 3 * random.index(entries);
    match random.below(9) {
        0 => words[0] ^= 1 << random.below(u64::from(words[0] >> 20 & 0xFF)),
        1 => words[1] = words[1] & 0xF000_FFFF | (random.below(4_096) as u32) << 16,
        2 => words[1] = words[1] & 0xFFFF_0000 | random.below(50) as u32,
        3 | 4 => {
            words.drain(at..at + 3);
        }
        5 => {
            let copy = [words[at], words[at + 1], words[at + 2]];
            words.splice(at..at, copy);
            words.truncate(MAX_WORDS);
        }
        6 => {
            // Two neighbours are exchanged, but for their real times.
            if at + 6 <= words.len() {
                words.swap(at + 1, at + 4);
                words.swap(at + 2, at + 5);
            }
        }
        7 => words[at + 1] = words[at + 1].wrapping_add(random.below(3) as u32),
        _ => words[at + 2] ^= 1 << (12 + random.below(16)),
    }
}
