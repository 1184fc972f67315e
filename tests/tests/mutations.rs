//! The table of changes that the mutation run makes fits the second implementation. The run
//! itself takes long and is a command: see README.

#![deny(warnings)]

use std::collections::BTreeSet;
use std::fs;
use std::path::Path;

use bivamolune_tests::mutations::{read, Mutation, QUICK, SLOW};

fn package() -> &'static Path {
    Path::new(env!("CARGO_MANIFEST_DIR"))
}

fn table() -> Vec<Mutation> {
    let text = fs::read_to_string(package().join("mutations.txt")).expect("the table is there");
    read(&text).expect("the table can be read")
}

/// The files of the second implementation.
fn files() -> BTreeSet<String> {
    let folder = fs::read_dir(package().join("src/reference")).expect("the folder is there");
    let names = folder.map(|entry| entry.expect("an entry").file_name());
    names
        .map(|name| name.to_string_lossy().into_owned())
        .collect()
}

/// Suites that see no change of the second implementation, or only that it was changed.
const LEFT_OUT: [&str; 7] = [
    "come_close",
    "differential",
    "header",
    "late_faults",
    "mutations",
    "order_kept",
    "promises",
];

#[test]
fn every_change_fits_its_file() {
    let mut unfit = Vec::new();
    for mutation in table() {
        let file = package().join("src/reference").join(&mutation.file);
        let source = fs::read_to_string(&file).expect("the file is there");
        if let Err(why) = mutation.apply(&source) {
            unfit.push(format!("{}: {why}", mutation.name));
        }
    }
    assert!(unfit.is_empty(), "{unfit:#?}");
}

/// The tests that are named for a change are there.
#[test]
fn every_named_test_is_there() {
    let mut missing = Vec::new();
    for (suite, test) in table().into_iter().filter_map(|m| m.by) {
        let file = package().join("tests").join(format!("{suite}.rs"));
        let text = fs::read_to_string(file).unwrap_or_default();
        if !text.contains(&format!("#[test]\nfn {test}()")) {
            missing.push(format!("{suite} {test}"));
        }
    }
    assert!(missing.is_empty(), "{missing:#?}");
}

#[test]
fn there_are_enough_and_each_once() {
    let all = table();
    assert!(all.len() >= 250, "only {}", all.len());
    let names: BTreeSet<&String> = all.iter().map(|m| &m.name).collect();
    assert_eq!(names.len(), all.len());
    let changes: BTreeSet<_> = all.iter().map(|m| (&m.file, &m.old, &m.new)).collect();
    assert_eq!(changes.len(), all.len());
    let equivalent = all.iter().filter(|m| m.equivalent.is_some()).count();
    assert!(equivalent <= 10, "{equivalent}");
}

#[test]
fn every_file_is_changed() {
    let changed: BTreeSet<String> = table().into_iter().map(|m| m.file).collect();
    let mut wanted = files();
    wanted.remove("mod.rs");
    assert_eq!(changed, wanted);
}

#[test]
fn every_suite_is_run_or_left_out() {
    let folder = fs::read_dir(package().join("tests")).expect("the folder is there");
    let names = folder.map(|entry| entry.expect("an entry").path());
    let suites: BTreeSet<String> = names
        .filter(|path| path.extension().map_or(false, |e| e == "rs"))
        .filter_map(|path| Some(path.file_stem()?.to_string_lossy().into_owned()))
        .collect();
    let known = QUICK.iter().chain(&SLOW).chain(&LEFT_OUT);
    let known = known.map(|name| name.to_string());
    assert_eq!(suites, known.collect());
}
