//! The run of a whole sheet, with causes 1 to 9 and their places.

use crate::record::Record;
use crate::results::{write_results, HEAD_WORDS};
use crate::step::{input, step, Frame};
use crate::words::{read_entry, read_first, read_second, Cause, Entry, Refusal};
use crate::words::{Settings, MAX_WORDS};

/// A sheet that was run to its end.
#[derive(Clone, Debug)]
pub struct Run {
    pub settings: Settings,
    /// The entries, in order.
    pub entries: Vec<Entry>,
    /// The frame that each entry's head sent at it.
    pub frames: Vec<Option<Frame>>,
    /// Whether each entry's head has its vote, and its adjust phase, closed early
    /// after it.
    pub early: Vec<[bool; 2]>,
    /// "A head ends with its record after the last entry".
    pub records: Vec<Record>,
}

/// What an observer of a run is shown at each accepted entry.
pub struct Taken<'a> {
    pub entry: &'a Entry,
    pub before: &'a Record,
    pub after: &'a Record,
    /// The frame that is delivered.
    pub delivered: Option<Frame>,
    /// The frame to send.
    pub frame: Option<Frame>,
}

/// Causes 1 to 5, in this order, with place 0. No buffer length is given for
/// the judge: "The judge, which has no result buffer, tests the same without
/// 5."
pub fn check_front(words: &[u32], buffer: Option<usize>) -> Result<Settings, Refusal> {
    let refused = |number| Refusal {
        cause: Cause(number),
        place: 0,
    };
    // "more than 12,290 words"
    if words.len() > MAX_WORDS {
        return Err(refused(1));
    }
    // "fewer than 2 words, or not 2 + 3 × a whole number"
    if words.len() < 2 || !(words.len() - 2).is_multiple_of(3) {
        return Err(refused(2));
    }
    // "first word against its rules, or a correct bit at n or above"
    let (n, f, correct) = read_first(words[0]).ok_or(refused(3))?;
    // "second word not kind 2"
    let (drift, tightness) = read_second(words[1]).ok_or(refused(4))?;
    // "result buffer below 3n words"; document 02, No. 7: "Cause 5 tests 4n words."
    if buffer.is_some_and(|length| length < HEAD_WORDS * n as usize) {
        return Err(refused(5));
    }
    Ok(Settings {
        n,
        f,
        correct,
        drift,
        tightness,
    })
}

/// The frame that an entry delivers, as its sender sent it before. None where
/// the sender has not sent it.
fn delivered(
    entry: &Entry,
    before: &[Entry],
    frames: &[Option<Frame>],
    records: &[Record],
) -> Option<Frame> {
    if entry.action == 2 {
        let sent = records[entry.sender as usize].start_sent;
        return sent.then_some(Frame::Start);
    }
    // "A delivered vote or adjust carries what its sender's step sent under that
    // serial."
    for (earlier, frame) in before.iter().zip(frames) {
        if earlier.head != entry.sender {
            continue;
        }
        match *frame {
            Some(Frame::Vote { serial, .. }) if entry.action == 5 && serial == entry.serial => {
                return *frame;
            }
            Some(Frame::Adjust { serial, .. }) if entry.action == 8 && serial == entry.serial => {
                return *frame;
            }
            _ => {}
        }
    }
    None
}

/// The run of a sheet, "entry by entry 6 to 9", each accepted entry shown to an
/// observer.
pub fn run_observed(
    words: &[u32],
    buffer: Option<usize>,
    observe: &mut dyn FnMut(&Taken),
) -> Result<Run, Refusal> {
    let settings = check_front(words, buffer)?;
    let mut run = Run {
        settings,
        entries: Vec::new(),
        frames: Vec::new(),
        early: Vec::new(),
        records: (0..settings.n)
            .map(|own| Record::fresh(settings.n, settings.f, own))
            .collect(),
    };
    for place in (2..words.len()).step_by(3) {
        let refused = |cause| Refusal { cause, place };
        let entry = read_entry(&words[place..place + 3], settings.n).ok_or(refused(Cause(6)))?;
        // "real time below the last entry's"
        if run
            .entries
            .last()
            .is_some_and(|last| entry.time < last.time)
        {
            return Err(refused(Cause(7)));
        }
        // "reading below that head's last"
        let record = &run.records[entry.head as usize];
        if entry.reading < record.last_reading {
            return Err(refused(Cause(8)));
        }
        // "on a sheet also a frame its sender hasn't sent"
        let mut frame = None;
        if matches!(entry.action, 2 | 5 | 8) {
            frame = delivered(&entry, &run.entries, &run.frames, &run.records);
            if frame.is_none() {
                return Err(refused(Cause(9)));
            }
        }
        let given = input(
            entry.action,
            entry.reading,
            entry.sender,
            entry.serial,
            frame,
        );
        let (after, sent) = step(record, &given).map_err(refused)?;
        observe(&Taken {
            entry: &entry,
            before: record,
            after: &after,
            delivered: frame,
            frame: sent,
        });
        // "Each entry takes the record that its head's last entry left; nothing
        // else writes it."
        run.early.push([after.vote_early, after.adjust_early]);
        run.records[entry.head as usize] = after;
        run.entries.push(entry);
        run.frames.push(sent);
    }
    Ok(run)
}

/// The run of a sheet.
pub fn run(words: &[u32], buffer: Option<usize>) -> Result<Run, Refusal> {
    run_observed(words, buffer, &mut |_| {})
}

/// The replay of a sheet: its result words go to the buffer. A sheet that is
/// turned back leaves the buffer unchanged.
pub fn replay(words: &[u32], buffer: &mut [u32]) -> Result<(), Refusal> {
    let run = run(words, Some(buffer.len()))?;
    write_results(&run, buffer);
    Ok(())
}
