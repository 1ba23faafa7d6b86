//! The search for the shortest sheets that break one premise alone and on which the third
//! point's claim fails: its orders are judged as the sheets of these orders are, and it
//! finds what the samples `needed-1` to `needed-8` show.

use reference::claim::failures;
use reference::judge::{keeps_part, parts};
use reference::order::{entry, Asked, Order};
use reference::random::Random;
use reference::sheet::{run, Run};
use reference::shortest::{sheet, shown, Found, Goal, Search};
use reference::words::{Entry, Settings};

fn settings(n: u32, f: u32, correct: u32) -> Settings {
    Settings {
        n,
        f,
        correct,
        drift: 100,
        tightness: 10_000,
    }
}

/// Every part of every premise.
fn all_parts() -> Vec<(u32, usize)> {
    let parts_of = |premise| (0..parts(premise)).map(move |part| (premise, part));
    (1..=8).flat_map(parts_of).collect()
}

/// Any entry of n heads, refused or not.
fn any_entry(random: &mut Random, n: usize) -> Entry {
    let action = random.pick(&[1, 2, 2, 2, 3, 4, 5, 5, 5, 6, 7, 7, 8, 8, 8, 9, 9]);
    let head = random.index(n);
    match action {
        2 => entry(2, head, random.index(n), 0),
        5 | 8 => entry(action, head, random.index(n), random.index(2)),
        _ => entry(action, head, 0, 0),
    }
}

/// The parts that a sheet breaks.
fn broken(run: &Run) -> Vec<(u32, usize)> {
    let mut broken = all_parts();
    broken.retain(|&(premise, part)| !keeps_part(run, premise, part));
    broken
}

/// Takes random entries, and compares what is refused, which parts are broken and whether
/// the claim fails with what is said of the sheet. Most entries that break something are
/// left out again, so that all has time to happen. Gives the parts that were broken alone.
fn walk(settings: Settings, random: &mut Random) -> Vec<(u32, usize)> {
    let mut order = Order::new(settings, all_parts().into_iter().collect(), Asked::Failure);
    let mut state = order.fresh();
    let mut entries = Vec::new();
    let mut breaks = 0;
    let mut alone = Vec::new();
    for _ in 0..400 {
        let next = any_entry(random, settings.n as usize);
        let after = order.take(&state, &next);
        entries.push(next);
        let words = sheet(&settings, &entries, &Goal::of(1));
        let Ok(run) = run(&words, None) else {
            assert!(after.is_none(), "{entries:?}");
            entries.pop();
            continue;
        };
        let after = after.unwrap();
        let mut parts = broken(&run);
        assert_eq!(
            order.broken(&after),
            parts.iter().copied().collect(),
            "{entries:?}"
        );
        let fails = !failures(&words).unwrap().is_empty();
        assert_eq!(order.has_asked(&after), fails, "{entries:?}");
        // Premises 1 and 4 ask of the whole sheet.
        parts.retain(|(premise, _)| ![1, 4].contains(premise));
        if let [part] = parts[..] {
            alone.push(part);
        }
        if parts.len() > breaks && random.chance(29, 30) {
            entries.pop();
            continue;
        }
        (state, breaks) = (after, parts.len());
    }
    alone
}

#[test]
fn orders_are_judged_as_their_sheets() {
    let mut seen = Vec::new();
    for index in 0..2_000 {
        let mut random = Random::new(1, index);
        let (n, f) = random.pick(&[(2, 0), (3, 0), (3, 1), (3, 1)]);
        let correct = random.below(1 << n) as u32;
        seen.extend(walk(settings(n, f, correct), &mut random));
    }
    for part in all_parts() {
        // Premise 2 and the tightness are left aside.
        let aside = [1, 2, 4].contains(&part.0) || part == (3, 1);
        assert_eq!(seen.contains(&part), !aside, "{part:?}");
    }
}

/// The fewest entries of a sheet that shows the premise to be needed, or that there is
/// none.
fn fewest(premise: u32, goal: Goal, settings: Settings, most: usize) -> String {
    match Search::new(settings, goal).run(most) {
        Found::Order(order) => {
            let words = sheet(&settings, &order, &goal);
            assert!(!shown(&words, premise).is_empty(), "premise {premise}");
            order.len().to_string()
        }
        Found::NoneUpTo(most) => format!("none up to {most}"),
        Found::None => "none".into(),
    }
}

/// What shows a premise to be needed by different adjustments.
fn adjustments(premise: u32) -> Goal {
    Goal {
        asked: Asked::Adjustments,
        ..Goal::of(premise)
    }
}

/// Two heads are enough for five of the premises. Every order of their actions is asked.
#[test]
fn two_heads() {
    let both = settings(2, 0, 3);
    let found = (2..=8).map(|premise| fewest(premise, Goal::of(premise), both, 100));
    let expected = ["12", "9", "0", "6", "none", "11", "none"];
    assert_eq!(found.collect::<Vec<_>>(), expected);
    assert_eq!(fewest(7, adjustments(7), both, 100), "none");
    for correct in 0..3 {
        let some = settings(2, 0, correct);
        assert_eq!(fewest(1, Goal::of(1), some, 100), "none");
    }
}

/// With a third head none of these is shorter.
#[test]
fn three_heads_for_what_two_show() {
    for (f, correct) in [(0, 7), (1, 7), (1, 6), (1, 5), (1, 3)] {
        for (premise, fewer) in [(2, 11), (3, 8), (5, 5), (7, 10)] {
            let found = fewest(premise, Goal::of(premise), settings(3, f, correct), fewer);
            assert_eq!(found, format!("none up to {fewer}"), "premise {premise}");
        }
    }
}

/// The sheets of three heads among the samples, f = 1.
#[test]
fn three_heads() {
    for (premise, goal, correct, entries) in [
        (1, Goal::of(1), 1, "7"),
        (6, Goal::of(6), 6, "23"),
        (7, adjustments(7), 3, "17"),
        (8, Goal::of(8), 6, "21"),
        (8, adjustments(8), 6, "21"),
    ] {
        let found = fewest(premise, goal, settings(3, 1, correct), 23);
        assert_eq!(found, entries, "premise {premise}");
    }
}
