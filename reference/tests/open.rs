//! The table of open actions in the product's text, against the sentence of each
//! action: all 1,280 entries, those too that no run can ask for. And the sheets
//! that ask for those in reach, and for actions after an early close.

use reference::open::{asking, asking_early, in_reach, is_open, setting, ACTIONS, SETTINGS};
use reference::sheet::run;
use reference::step::is_spent;
use reference::words::Cause;

#[test]
fn table() {
    let text = include_str!("../../crates/sheet_open/src/lib.rt");
    let lines: Vec<&str> = text
        .lines()
        .map(|line| line.trim_matches([' ', '\\', '"', ';']))
        .filter(|line| line.len() == SETTINGS as usize && line.trim_matches(['0', '1']).is_empty())
        .collect();
    assert_eq!(lines.len(), ACTIONS as usize);
    for (action, line) in (0..).zip(lines) {
        for (setting, entry) in (0..).zip(line.chars()) {
            let expected = if is_open(action, setting) { '1' } else { '0' };
            assert_eq!(entry, expected, "action {action}, setting {setting}");
        }
    }
}

#[test]
fn sheets() {
    assert_eq!(in_reach().count(), 400);
    for (action, marks) in in_reach() {
        let words = asking(action, marks);
        let last = words.len() - 3;
        let before = run(&words[..last], None).expect("all but the last are open");
        assert_eq!(setting(&before.records[0]), marks);
        assert!(before.early.iter().all(|&early| early == [false; 2]));
        match run(&words, None) {
            Ok(_) => assert!(is_open(action, marks)),
            Err(refusal) => {
                assert!(!is_open(action, marks));
                assert_eq!((refusal.cause, refusal.place), (Cause(9), last));
            }
        }
    }
}

/// "After an early vote close any action 6, and after an early adjust close any action
/// 7 or 9, has no effect and isn't cause 9; No. 2's table is then asked only for the
/// other actions."
#[test]
fn sheets_after_early_closes() {
    let (mut spent, mut refused, mut early) = (0, 0, [0; 2]);
    for (action, words) in asking_early() {
        let last = words.len() - 3;
        let before = run(&words[..last], None).expect("all but the last are open");
        let head = &before.records[0];
        assert!(head.vote_early || head.adjust_early);
        early[0] += u32::from(head.vote_early);
        early[1] += u32::from(head.adjust_early);
        let is_spent = is_spent(head, action);
        spent += u32::from(is_spent);
        match run(&words, None) {
            Ok(_) => assert!(is_spent || is_open(action, setting(head))),
            Err(refusal) => {
                refused += 1;
                assert!(!is_spent && !is_open(action, setting(head)));
                assert_eq!((refusal.cause, refusal.place), (Cause(9), last));
            }
        }
    }
    assert_eq!((early, spent), ([240, 160], 56));
    assert_eq!(refused, 108);
}
