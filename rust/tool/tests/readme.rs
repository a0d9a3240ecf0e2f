//! README's first screen is what the tool writes.

mod common;

use std::fs;

use common::{out, samples};

#[test]
fn the_first_screen() {
    let readme = fs::read_to_string(samples().join("../README.md")).unwrap();
    let block = readme.split("```text\n").nth(1).unwrap();
    let shown = block.split("```").next().unwrap();
    assert_eq!(shown.lines().count(), 6);
    let listing = out(&["day", "day.txt"], b"");
    assert!(listing.contains(&format!("\n{shown}")), "{shown}");
}
