//! `shortest PREMISE N F CORRECT MOST [adjustments]`: searches the sheets of N heads with
//! this f and these bits of correct heads, up to MOST entries, for the shortest that
//! breaks this premise alone and on which the third point's claim fails; with the last
//! word, on which two correct heads have different adjustments. Prints how many entries
//! it has, the clauses that fail and each entry as real time, reading, head, action,
//! sender and serial; or that there is none, up to so many entries or at all.

use std::process::ExitCode;

use reference::order::{Asked, HEADS};
use reference::sheet::run;
use reference::shortest::{sheet, shown, Found, Goal, Search};
use reference::words::{counts_allowed, Entry, Settings};

/// The premise, what is searched for, the heads' settings and the most entries, from the
/// command line.
fn arguments() -> Option<(u32, Goal, Settings, usize)> {
    let arguments: Vec<String> = std::env::args().skip(1).collect();
    let (numbers, words) = arguments.split_at_checked(5)?;
    let numbers: Vec<u32> = numbers.iter().filter_map(|a| a.parse().ok()).collect();
    let [premise, n, f, correct, most] = numbers[..] else {
        return None;
    };
    let fits = (1..=8).contains(&premise) && n as usize <= HEADS && counts_allowed(n, f);
    if !fits || correct >> n != 0 {
        return None;
    }
    let mut goal = Goal::of(premise);
    match words {
        [] => {}
        [word] if word == "adjustments" && premise != 2 => goal.asked = Asked::Adjustments,
        _ => return None,
    }
    let settings = Settings {
        n,
        f,
        correct,
        drift: 100,
        tightness: 1_000,
    };
    Some((premise, goal, settings, most as usize))
}

fn line(e: &Entry) -> String {
    let (time, reading) = (e.time.0, e.reading.0);
    let fields = [time, reading, e.head, e.action, e.sender, e.serial];
    fields.map(|field| field.to_string()).join(" ")
}

fn main() -> ExitCode {
    let Some((premise, goal, settings, most)) = arguments() else {
        eprintln!("usage: shortest PREMISE N F CORRECT MOST [adjustments], N at most {HEADS}");
        return ExitCode::from(2);
    };
    let mut search = Search::new(settings, goal);
    let found = search.run(most);
    let states = search.states();
    match found {
        Found::None => println!("{states} states: none"),
        Found::NoneUpTo(most) => println!("{states} states: none up to {most} entries"),
        Found::Order(order) => {
            println!("{states} states: {} entries", order.len());
            let words = sheet(&settings, &order, &goal);
            let failures = shown(&words, premise);
            assert!(!failures.is_empty(), "the sheet shows what its order does");
            failures.iter().for_each(|f| println!("{f}"));
            let entries = run(&words, None).expect("the sheet is accepted").entries;
            entries.iter().for_each(|e| println!("{}", line(e)));
        }
    }
    ExitCode::SUCCESS
}
