//! `cover SEED COUNT`: generates sheets, compares the plain form with the fast
//! one, checks the third point, and prints how often each branch was reached.
//! Fails on the first disagreement, or if a branch is missing at the end.

use std::process::ExitCode;

use reference::cover::{Cover, ALLOWED_COUNTS, BRANCHES};

fn main() -> ExitCode {
    let arguments: Vec<u64> = std::env::args()
        .skip(1)
        .filter_map(|a| a.parse().ok())
        .collect();
    let [seed, count] = arguments[..] else {
        eprintln!("usage: cover SEED COUNT");
        return ExitCode::from(2);
    };
    let mut cover = Cover::default();
    for index in 0..count {
        if let Err(why) = cover.sheet(seed, index) {
            println!("failed: {why}");
            return ExitCode::FAILURE;
        }
    }
    for name in BRANCHES {
        let reached = cover.branches.get(name).copied().unwrap_or(0);
        println!("{reached:>9}  {name}");
    }
    let counts = cover.counts.len();
    println!("{counts:>9}  pairs n, f with all premises kept, of {ALLOWED_COUNTS}");
    println!("{:>9}  sheets", cover.sheets);
    println!("{:>9}  accepted", cover.accepted);
    println!("{:>9}  refused", cover.refused);
    println!("{:>9}  plain and fast agree", cover.agreed);
    println!("{:>9}  sheets with the third point checked", cover.claims);
    println!("{:>9}  pairs of looks in the same microsecond", cover.pairs);
    println!("{:>9}  bytes on average", cover.bytes / count.max(1));
    println!("{:>9}  bytes at most", cover.longest);
    let missing = cover.missing();
    if !missing.is_empty() || counts < ALLOWED_COUNTS {
        println!("missing: {}", missing.join("; "));
        return ExitCode::FAILURE;
    }
    ExitCode::SUCCESS
}
