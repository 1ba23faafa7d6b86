//! Replay and judge by the proved static library and by the fast form here, on
//! the same words; the recorder of both, on the fields of the same sheets; the
//! drafts of both; and both readers of both, on the result words of a draft.
//! `benchmark` prints for each sheet, or number of heads of a draft, the time of one
//! call in nanoseconds, the median of several runs: what is done, sheet, proved,
//! reference. `benchmark SHEET FORM CALLS` only makes the calls, for a count of
//! instructions.

use reference::draft::{draft, room};
use reference::fast;
use reference::program::read_words;
use reference::readers::{display, plan};
use reference::recorder::record;
use reference::results::{read_results, HEAD_WORDS, RESULT_WORDS};
use reference::sheet::{check_front, replay};
use reference::sheets::{compare_readers, proved, proved_display, proved_draft};
use reference::sheets::{proved_plan, proved_recording};
use reference::words::{read_entry, Settings, MAX_WORDS};
use std::hint::black_box;
use std::time::Instant;

const ENTRIES: usize = 4096;
/// The numbers of heads for which a draft is measured.
const DRAFTED_HEADS: [u32; 4] = [2, 5, 8, 16];
/// The numbers of heads whose result words are read.
const READ_HEADS: [u32; 2] = [2, 16];
/// The readers, as the forms of their calls begin.
const READERS: [&str; 2] = ["display", "plan"];
const RUNS: usize = 301;
/// The length of one run: so short that other programs seldom interrupt it.
const RUN_NANOSECONDS: u128 = 1_000_000;

/// A sheet of correct heads, written entry by entry.
struct Writer {
    heads: u32,
    words: Vec<u32>,
    time: u32,
}

impl Writer {
    fn new(heads: u32) -> Writer {
        // f as large as it may be, the drift 100 parts per million, the tightness 10,000 microseconds.
        let first = 1 << 28 | heads << 20 | ((heads - 1) / 2) << 16 | ((1 << heads) - 1);
        let second = 2 << 28 | 100 << 16 | 10_000;
        Writer {
            heads,
            words: vec![first, second],
            time: 0,
        }
    }

    fn put(&mut self, action: u32, head: u32, sender: u32, serial: u32) {
        self.time += 1;
        let reading = self.time + 50 * head;
        self.words.extend([
            3 << 28 | self.time,
            4 << 28 | reading,
            5 << 28 | action << 24 | head << 20 | sender << 16 | serial << 12,
        ]);
    }

    fn each_head(&mut self, action: u32) {
        (0..self.heads).for_each(|head| self.put(action, head, 0, 0));
    }

    /// The frames of the senders from the first on, each to all other heads.
    fn deliver(&mut self, action: u32, first: u32, serial: u32) {
        for sender in first..self.heads {
            for head in (0..self.heads).filter(|&head| head != sender) {
                self.put(action, head, sender, serial);
            }
        }
    }

    /// Looks and repeated deliveries in turn, or looks alone (action 0).
    fn fill(&mut self, action: u32, entries: usize) {
        for i in 0..entries as u32 {
            let head = i / 2 % self.heads;
            if i % 2 == 0 || action == 0 {
                self.put(0, head, 0, 0);
            } else {
                self.put(action, head, (head + 1) % self.heads, 0);
            }
        }
    }
}

/// The entries of one whole round in which each start is delivered so often to
/// each head.
fn entries(heads: u32, starts: u32) -> usize {
    (7 * heads + starts * heads * heads + 2 * (heads + heads - 1) * (heads - 1)) as usize
}

/// One whole round that keeps all premises, with so many entries in all.
fn round(heads: u32, total: usize, starts: u32, votes: u32, adjusts: u32) -> Vec<u32> {
    let filled = total - entries(heads, starts);
    let mut sheet = Writer::new(heads);
    sheet.each_head(1);
    for _ in 0..starts {
        for sender in 0..heads {
            (0..heads).for_each(|head| sheet.put(2, head, sender, 0));
        }
    }
    sheet.each_head(3);
    sheet.each_head(4);
    // Each head votes for itself, and then for head 0; so do the adjusts.
    sheet.deliver(5, 0, 0);
    sheet.deliver(5, 1, 1);
    sheet.fill(votes, filled / 2);
    sheet.each_head(6);
    sheet.each_head(7);
    sheet.deliver(8, 0, 0);
    sheet.deliver(8, 1, 1);
    sheet.fill(adjusts, filled - filled / 2);
    sheet.each_head(9);
    sheet.each_head(0);
    sheet.words
}

fn sheets() -> [(&'static str, Vec<u32>); 5] {
    let m1 = read_words(include_bytes!("../../../samples/m1.sheet")).expect("M1 has whole words");
    [
        ("m1", m1),
        ("three", round(3, entries(3, 1), 1, 0, 0)),
        ("five", round(5, entries(5, 1), 1, 0, 0)),
        ("full", round(16, ENTRIES, 1, 5, 8)),
        ("starts", round(16, ENTRIES, 11, 0, 0)),
    ]
}

/// That both forms give the same answer, and that all premises are kept.
fn compare(name: &str, words: &[u32]) {
    let mut out = [0; RESULT_WORDS];
    let answer = proved(words, &mut out);
    let (results, premise) = fast::answer(words, Some(RESULT_WORDS)).expect("an accepted sheet");
    let shown = read_results(&out, results.len() as u32);
    assert_eq!(answer, (premise, [0, 0, 0, 0, premise]), "{name}");
    assert_eq!(premise, 0, "{name}");
    assert_eq!(shown, results, "{name}");
}

/// A sheet's words, and the fields that it is written from.
struct Sheet {
    name: &'static str,
    words: Vec<u32>,
    given: Settings,
    numbers: Vec<u32>,
}

impl Sheet {
    fn new(name: &'static str, words: Vec<u32>) -> Sheet {
        let given = check_front(&words, None).expect("an accepted sheet");
        let numbers = words[2..].chunks(3).flat_map(|three| {
            let e = read_entry(three, given.n).expect("an accepted sheet");
            [e.time.0, e.reading.0, e.head, e.action, e.sender, e.serial]
        });
        Sheet {
            name,
            given,
            numbers: numbers.collect(),
            words,
        }
    }

    /// One call of the proved recorder.
    fn record(&self, out: &mut [u32]) -> u32 {
        let g = &self.given;
        let given = [g.n, g.f, g.correct, g.drift, g.tightness];
        proved_recording(black_box(&given), black_box(&self.numbers), out)
    }

    /// That both recorders write the sheet's words.
    fn compare_recorders(&self) {
        for form in ["record", "record-reference"] {
            let mut out = vec![0; MAX_WORDS];
            self.call(form, 1, &mut out);
            assert_eq!(out[..self.words.len()], self.words, "{}", self.name);
        }
    }

    /// So many calls of one form. `tests` is the recorder with a buffer that is too
    /// short: all tests are made, and nothing is written.
    fn call(&self, form: &str, calls: u128, out: &mut [u32]) {
        for _ in 0..calls {
            let words = black_box(&self.words);
            match form {
                "replay" => _ = black_box(proved(words, &mut out[..RESULT_WORDS])),
                "replay-reference" => _ = black_box(fast::answer(words, Some(RESULT_WORDS))),
                "record" => _ = black_box(self.record(out)),
                "tests" => _ = black_box(self.record(&mut out[..1])),
                "record-reference" => {
                    _ = black_box(record(&self.given, black_box(&self.numbers), out))
                }
                _ => panic!("no form {form}"),
            }
            black_box(&out);
        }
    }
}

/// So many calls of one form of the draft for n heads.
fn call_draft(n: u32, form: &str, calls: u128, out: &mut [u32]) {
    let given = [n, (n - 1) / 2, 1000, 100];
    for _ in 0..calls {
        let given = black_box(&given);
        match form {
            "draft" => _ = black_box(proved_draft(given, out)),
            "draft-reference" => _ = black_box(draft(given[0], given[1], given[2], given[3], out)),
            _ => panic!("no form {form}"),
        }
        black_box(&out);
    }
}

/// That both forms draft the same words.
fn compare_drafts(n: u32) {
    let [proved, reference] = ["draft", "draft-reference"].map(|form| {
        let mut out = vec![0; MAX_WORDS];
        call_draft(n, form, 1, &mut out);
        out
    });
    assert_eq!(proved[0] >> 28, 1, "{n}");
    assert_eq!(proved, reference, "{n}");
}

/// The result words of a drafted sheet of n heads.
fn drafted_results(n: u32) -> Vec<u32> {
    let mut sheet = vec![0; room(n)];
    draft(n, (n - 1) / 2, 1000, 100, &mut sheet).expect("it can be drafted");
    let mut words = vec![0; HEAD_WORDS * n as usize];
    replay(&sheet, &mut words).expect("a drafted sheet is accepted");
    words
}

/// So many calls of one form of a reader, for the last of n heads.
fn call_reader(n: u32, words: &[u32], form: &str, calls: u128) {
    for _ in 0..calls {
        let (words, head) = (black_box(words), black_box(n - 1));
        match form {
            "display" => _ = black_box(proved_display(n, head, words)),
            "display-reference" => _ = black_box(display(n, head, words)),
            "plan" => _ = black_box(proved_plan(n, head, words)),
            "plan-reference" => _ = black_box(plan(n, head, words)),
            _ => panic!("no form {form}"),
        }
    }
}

/// That both forms of both readers give the same numbers, and refuse nothing.
fn check_readers(n: u32, words: &[u32]) {
    let read = compare_readers(n, n - 1, words);
    assert!(matches!(read, Ok((Ok(_), Ok(_)))), "{n}: {read:?}");
}

/// What makes so many calls of a form, with a buffer.
type Calls<'a> = &'a dyn Fn(&str, u128, &mut [u32]);

fn nanoseconds(call: Calls, form: &str, calls: u128) -> u128 {
    let mut out = vec![0; MAX_WORDS];
    let start = Instant::now();
    call(form, calls, &mut out);
    start.elapsed().as_nanos()
}

/// The median time of one call, of both forms by turns: what is done, and what on.
fn measure(what: &str, name: &str, call: Calls) {
    let forms = [what, &format!("{what}-reference")];
    let calls = forms.map(|form| 1 + RUN_NANOSECONDS * 10 / nanoseconds(call, form, 10).max(1));
    let mut times = [[0; 2]; RUNS];
    for run in &mut times {
        for (i, form) in forms.iter().enumerate() {
            run[i] = nanoseconds(call, form, calls[i]) / calls[i];
        }
    }
    let [proved, reference] = [0, 1].map(|i| {
        let mut list = times.map(|run| run[i]);
        list.sort_unstable();
        list[RUNS / 2]
    });
    println!("{what} {name} {proved} {reference}");
}

/// The times of all that is measured.
fn measure_all(sheets: &[Sheet]) {
    for sheet in sheets {
        compare(sheet.name, &sheet.words);
        sheet.compare_recorders();
        for what in ["replay", "record"] {
            measure(what, sheet.name, &|form, calls, out| {
                sheet.call(form, calls, out)
            });
        }
    }
    for n in DRAFTED_HEADS {
        compare_drafts(n);
        measure("draft", &n.to_string(), &|form, calls, out| {
            call_draft(n, form, calls, out)
        });
    }
    for n in READ_HEADS {
        let words = drafted_results(n);
        check_readers(n, &words);
        for what in READERS {
            measure(what, &n.to_string(), &|form, calls, _| {
                call_reader(n, &words, form, calls)
            });
        }
    }
}

/// So many calls of a form, on a sheet or with a number of heads.
fn only_call(sheets: &[Sheet], name: &str, form: &str, calls: u128) {
    let mut out = vec![0; MAX_WORDS];
    let is_reader = READERS.iter().any(|what| form.starts_with(what));
    match name.parse() {
        Ok(n) if is_reader => call_reader(n, &drafted_results(n), form, calls),
        Ok(n) => call_draft(n, form, calls, &mut out),
        Err(_) => sheets
            .iter()
            .find(|s| s.name == name)
            .expect("a sheet's name, or a number of heads")
            .call(form, calls, &mut out),
    }
}

fn main() {
    let arguments: Vec<String> = std::env::args().skip(1).collect();
    let sheets = sheets().map(|(name, words)| Sheet::new(name, words));
    match arguments.as_slice() {
        [] => measure_all(&sheets),
        [name, form, calls] => {
            let calls = calls.parse().expect("a number of calls");
            only_call(&sheets, name, form, calls);
        }
        _ => panic!("usage: benchmark [SHEET FORM CALLS]"),
    }
}
