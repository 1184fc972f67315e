//! What `docs/FORMAT.md` shows is what a run gives.

#![deny(warnings)]

use std::fs;
use std::path::Path;

use bivamolune_tests::boundary::SUBJECT;
use bivamolune_tests::dump::Run;

/// The parts between fences of a page.
fn fenced(page: &str) -> Vec<&str> {
    page.split("```\n").skip(1).step_by(2).collect()
}

#[test]
fn the_page_shows_a_run() {
    let page = Path::new(env!("CARGO_MANIFEST_DIR")).join("../docs/FORMAT.md");
    let page = fs::read_to_string(page).expect("the page is there");
    assert_eq!(fenced(&page), Run::of(&SUBJECT).parts());
}
