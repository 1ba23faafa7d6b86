//! The sheets of the folder `samples`: what the replay program prints for each, the
//! last line of each trace, and last lines of changed sheets.

use std::fs;
use std::path::{Path, PathBuf};

use reference::trace::last_line;

/// The folder of the sample sheets, in the repository's root.
const SAMPLES: &str = concat!(env!("CARGO_MANIFEST_DIR"), "/../samples");

/// The files there with this ending.
fn files(ending: &str) -> Vec<PathBuf> {
    let all = fs::read_dir(SAMPLES).unwrap().map(|f| f.unwrap().path());
    let files: Vec<_> = all
        .filter(|path| path.extension().is_some_and(|e| e == ending))
        .collect();
    assert!(!files.is_empty(), "no .{ending} in {SAMPLES}");
    files
}

#[test]
fn printed_of_samples() {
    for path in files("sheet") {
        let bytes = fs::read(&path).unwrap();
        let text = fs::read_to_string(path.with_extension("txt")).unwrap();
        assert_eq!(reference::program::printed(&bytes), text, "{path:?}");
        assert_eq!(reference::fast::printed(&bytes), text, "{path:?}");
    }
}

#[test]
fn last_lines_of_samples() {
    let mut kinds = Vec::new();
    for path in files("trace") {
        let text = fs::read_to_string(&path).unwrap();
        let bytes = fs::read(path.with_extension("sheet")).unwrap();
        let last = text.split_inclusive('\n').next_back().unwrap();
        assert_eq!(last_line(&bytes), last, "{path:?}");
        kinds.push(last.split(' ').take(2).collect::<Vec<_>>().join(" "));
    }
    let premises = (1..=8).filter(|p| kinds.contains(&format!("premises {p}")));
    assert_eq!(premises.count(), 8, "a trace for each premise: {kinds:?}");
    assert!(kinds.contains(&"premises 0\n".into()), "{kinds:?}");
    assert!(kinds.iter().any(|k| k.starts_with("refused")), "{kinds:?}");
}

fn sample(name: &str) -> Vec<u8> {
    fs::read(Path::new(SAMPLES).join(name)).unwrap()
}

/// M1 with its tightness changed, its entries cut or a first word changed.
#[test]
fn last_lines_near_m1() {
    let m1 = sample("m1.sheet");
    let mut tight = m1.clone();
    // "M2: M1 with tightness 4 keeps all; M3: with 2, premise 3 is broken", by
    // the start that entry 4 confirms; its last deliveries are 4 apart.
    tight[7] = 4;
    assert_eq!(last_line(&tight), "premises 0\n");
    tight[7] = 3;
    assert_eq!(last_line(&tight), "premises 3 entry 4\n");
    // With 4 entries nothing is confirmed: premise 4 comes first, and at the end.
    assert_eq!(last_line(&tight[..8 + 12 * 4]), "premises 4 end\n");
    assert_eq!(last_line(&tight[..8 + 12 * 5]), "premises 3 entry 4\n");
    // "M11: M1's first two words alone".
    assert_eq!(last_line(&m1[..8]), "premises 4 end\n");
    // No head is correct: premise 1, whatever the entries are.
    let mut nobody = m1.clone();
    nobody[3] = 0;
    assert_eq!(last_line(&nobody), "premises 1 end\n");
    assert_eq!(last_line(&nobody[..8]), "premises 1 end\n");
    assert_eq!(last_line(&m1[..m1.len() - 1]), "refused 2 0\n");
    assert_eq!(last_line(&[0; 49_161]), "refused 1 0\n");
    assert_eq!(last_line(&[]), "refused 2 0\n");
}
