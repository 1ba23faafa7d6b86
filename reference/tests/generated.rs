//! Generated sheets: plain and fast agree, each sheet is what it was made for,
//! the third point holds, and every branch is reached.

use reference::cover::{Cover, ALLOWED_COUNTS};

#[test]
fn generated() {
    let mut cover = Cover::default();
    for index in 0..8_000 {
        cover.sheet(1, index).unwrap();
    }
    assert_eq!(cover.agreed, 8_000);
    assert_eq!(cover.missing(), Vec::<&str>::new());
    assert_eq!(cover.counts.len(), ALLOWED_COUNTS);
}
