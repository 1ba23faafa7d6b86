//! "Words of a run sheet": settings, entries and their fields.

/// Microseconds of real time. "Real time never stands in for a reading."
#[derive(Clone, Copy, Debug, PartialEq, Eq, PartialOrd, Ord)]
pub struct RealTime(pub u32);

/// Microseconds on a head's clock in use.
#[derive(Clone, Copy, Debug, PartialEq, Eq, Hash, PartialOrd, Ord)]
pub struct Reading(pub u32);

/// "At most 4,096 entries: 12,290 words."
pub const MAX_ENTRIES: usize = 4_096;
/// "At most 4,096 entries: 12,290 words."
pub const MAX_WORDS: usize = 12_290;
/// "Times are microseconds in 28 bits": every time is below this.
pub const TIME_LIMIT: u32 = 1 << 28;
/// "n (heads, 2..16)".
pub const MAX_HEADS: usize = 16;

/// A cause of the table "Causes to turn a sheet back", by its number.
#[derive(Clone, Copy, Debug, PartialEq, Eq)]
pub struct Cause(pub u32);

/// A number and a place. "Place is the index of the entry's first word, 0 for
/// one head."
#[derive(Clone, Copy, Debug, PartialEq, Eq)]
pub struct Refusal {
    pub cause: Cause,
    pub place: usize,
}

/// The two first words of a sheet.
#[derive(Clone, Copy, Debug, PartialEq, Eq)]
pub struct Settings {
    /// Number of heads.
    pub n: u32,
    /// Number of heads that may be faulty.
    pub f: u32,
    /// "one bit per correct head, bit 0 for head 0".
    pub correct: u32,
    /// In parts per million.
    pub drift: u32,
    /// In microseconds.
    pub tightness: u32,
}

impl Settings {
    /// "Correct: the head's bit in the first word is set."
    pub fn is_correct(&self, head: u32) -> bool {
        (self.correct >> head) & 1 == 1
    }

    /// The numbers of the correct heads.
    pub fn correct_heads(&self) -> Vec<u32> {
        (0..self.n).filter(|&h| self.is_correct(h)).collect()
    }
}

/// One entry of a sheet.
#[derive(Clone, Copy, Debug, PartialEq, Eq)]
pub struct Entry {
    pub time: RealTime,
    pub reading: Reading,
    pub action: u32,
    pub head: u32,
    pub sender: u32,
    pub serial: u32,
}

/// Bits `high` to `low` of a word. "Bit 31 is the highest".
pub fn bits(word: u32, high: u32, low: u32) -> u32 {
    (word >> low) & (((1u64 << (high - low + 1)) - 1) as u32)
}

/// "the top four bits are the kind".
pub fn kind(word: u32) -> u32 {
    bits(word, 31, 28)
}

/// n and f by the rules of the first word: "n (heads, 2..16)" and "2f + 1 is
/// at most n".
pub fn counts_allowed(n: u32, f: u32) -> bool {
    (2..=16).contains(&n) && 2 * u64::from(f) < u64::from(n)
}

/// "First word, kind 1: bits 27–20 n (heads, 2..16), 19–16 f, 15–0 one bit per
/// correct head, bit 0 for head 0. 2f + 1 is at most n." No correct bit is at
/// n or above. Gives n, f and the bits of the correct heads.
pub fn read_first(word: u32) -> Option<(u32, u32, u32)> {
    let n = bits(word, 27, 20);
    let f = bits(word, 19, 16);
    let correct = bits(word, 15, 0);
    if kind(word) != 1 || !counts_allowed(n, f) || correct >> n != 0 {
        return None;
    }
    Some((n, f, correct))
}

/// "Second word, kind 2: bits 27–16 drift in parts per million, 15–0 tightness
/// in microseconds." Gives drift and tightness.
pub fn read_second(word: u32) -> Option<(u32, u32)> {
    if kind(word) != 2 {
        return None;
    }
    Some((bits(word, 27, 16), bits(word, 15, 0)))
}

/// "Sender is zero except in actions 2, 5, 8".
pub fn has_sender(action: u32) -> bool {
    matches!(action, 2 | 5 | 8)
}

/// "serial is zero except in 5 and 8".
pub fn has_serial(action: u32) -> bool {
    matches!(action, 5 | 8)
}

/// "Each entry, three words: kind 3 with the real time, kind 4 with the head's
/// reading (of the clock in use), kind 5 with bits 27–24 action, 23–20 head,
/// 19–16 sender, 15–12 serial, 11–0 zero." None stands for cause 6: "entry's
/// kinds, action above 9, head or sender not below n, a must-be-zero field".
pub fn read_entry(words: &[u32], n: u32) -> Option<Entry> {
    let (first, second, third) = (words[0], words[1], words[2]);
    if kind(first) != 3 || kind(second) != 4 || kind(third) != 5 {
        return None;
    }
    let entry = Entry {
        time: RealTime(bits(first, 27, 0)),
        reading: Reading(bits(second, 27, 0)),
        action: bits(third, 27, 24),
        head: bits(third, 23, 20),
        sender: bits(third, 19, 16),
        serial: bits(third, 15, 12),
    };
    if entry.action > 9 || entry.head >= n || entry.sender >= n {
        return None;
    }
    if bits(third, 11, 0) != 0
        || (!has_sender(entry.action) && entry.sender != 0)
        || (!has_serial(entry.action) && entry.serial != 0)
    {
        return None;
    }
    Some(entry)
}

/// The two words of given settings.
pub fn write_settings(settings: &Settings) -> [u32; 2] {
    [
        1 << 28 | settings.n << 20 | settings.f << 16 | settings.correct,
        2 << 28 | settings.drift << 16 | settings.tightness,
    ]
}

/// The three words of a given entry.
pub fn write_entry(entry: &Entry) -> [u32; 3] {
    [
        3 << 28 | entry.time.0,
        4 << 28 | entry.reading.0,
        5 << 28 | entry.action << 24 | entry.head << 20 | entry.sender << 16 | entry.serial << 12,
    ]
}

/// The words of a whole sheet.
pub fn write_sheet(settings: &Settings, entries: &[Entry]) -> Vec<u32> {
    let mut words = write_settings(settings).to_vec();
    for entry in entries {
        words.extend(write_entry(entry));
    }
    words
}

/// Words as big-endian bytes.
pub fn to_bytes(words: &[u32]) -> Vec<u8> {
    words.iter().flat_map(|w| w.to_be_bytes()).collect()
}
