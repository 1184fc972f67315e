//! Leaves out one rule of the second implementation after another, as `mutations.txt` says,
//! and asks that the tests catch each. It works on a copy of the package under `target`.
//!
//! `mutate` runs the whole table; `--from N` and `--to N` run a part of it, places counted
//! from 1; `--only WORDS` runs the changes whose name has these words. It ends with 1 if a
//! change is alive, does not build, is not caught by the test that the table names for it,
//! or is caught though it is named an equivalent. `--tests yes` turns the question round: it
//! lists the quick tests that fail on no change at all.

#![deny(warnings)]

use std::collections::{BTreeMap, BTreeSet};
use std::env;
use std::fs;
use std::path::Path;
use std::process::ExitCode;

use bivamolune_tests::mutations::trial::{as_text, failing, names, Fate, Trial};
use bivamolune_tests::mutations::{read, Mutation, QUICK};

const USAGE: &str = "usage: mutate [--from N] [--to N] [--only WORDS] [--tests yes]";

/// Which changes are run.
struct Options {
    from: usize,
    to: usize,
    only: String,
    tests: bool,
}

impl Options {
    /// The options of the command line, or nothing where they cannot be read.
    fn read() -> Option<Options> {
        let mut options = Options {
            from: 1,
            to: usize::MAX,
            only: String::new(),
            tests: false,
        };
        let mut words = env::args().skip(1);
        while let Some(word) = words.next() {
            let value = words.next()?;
            match word.as_str() {
                "--from" => options.from = value.parse().ok()?,
                "--to" => options.to = value.parse().ok()?,
                "--only" => options.only = value,
                "--tests" => options.tests = value == "yes",
                _ => return None,
            }
        }
        Some(options)
    }

    /// The changes that are run, with their places in the table.
    fn chosen<'a>(&self, all: &'a [Mutation]) -> Vec<(usize, &'a Mutation)> {
        let places = (1..).zip(all);
        let of = |(place, mutation): &(usize, &Mutation)| {
            (self.from..=self.to).contains(place) && mutation.name.contains(&self.only)
        };
        places.filter(of).collect()
    }
}

fn main() -> ExitCode {
    match Options::read().map(|options| run(&options)) {
        Some(Ok(true)) => ExitCode::SUCCESS,
        Some(Ok(false)) => ExitCode::FAILURE,
        Some(Err(error)) => {
            eprintln!("{error}");
            ExitCode::from(2)
        }
        None => {
            eprintln!("{USAGE}");
            ExitCode::from(2)
        }
    }
}

/// Runs the changes; whether all is as it should be.
fn run(options: &Options) -> Result<bool, String> {
    let package = Path::new(env!("CARGO_MANIFEST_DIR"));
    let table = fs::read_to_string(package.join("mutations.txt")).map_err(as_text)?;
    let all = read(&table)?;
    let trial = Trial::new(package).map_err(as_text)?;
    match trial.fate() {
        Fate::Alive => println!("without a change all tests pass"),
        Fate::Caught(by) => return Err(format!("without a change {by} fails")),
        Fate::Unbuilt(text) => return Err(text),
    }
    match options.tests {
        true => idle_tests(&trial, &options.chosen(&all)),
        false => changes(&trial, &options.chosen(&all)),
    }
}

/// What becomes of each change.
fn changes(trial: &Trial, chosen: &[(usize, &Mutation)]) -> Result<bool, String> {
    let (mut caught, mut equivalent, mut wrong) = (0, 0, 0);
    for (place, mutation) in chosen {
        let fate = trial.with(mutation, |trial| match &mutation.by {
            Some((suite, test)) => trial.fate_by(suite, test),
            None => trial.fate(),
        })?;
        let (right, text) = judge(&fate, mutation);
        println!("{place} {}: {text}", mutation.name);
        match right {
            true if fate == Fate::Alive => equivalent += 1,
            true => caught += 1,
            false => wrong += 1,
        }
    }
    let all = chosen.len();
    println!(
        "{all} changes: {caught} caught, {equivalent} equivalent, {wrong} not as they should be"
    );
    Ok(wrong == 0)
}

/// Whether a fate is the one the table asks for, and its text.
fn judge(fate: &Fate, mutation: &Mutation) -> (bool, String) {
    match (fate, &mutation.equivalent) {
        (Fate::Caught(by), None) => (true, format!("caught by {by}")),
        (Fate::Caught(by), Some(_)) => (false, format!("NOT EQUIVALENT: caught by {by}")),
        (Fate::Alive, Some(why)) => (true, format!("equivalent: {why}")),
        (Fate::Alive, None) => (false, "ALIVE".to_string()),
        (Fate::Unbuilt(text), _) => (false, format!("DOES NOT BUILD\n{text}")),
    }
}

/// The quick tests that fail on no change. A suite all of whose tests have failed is not run
/// again.
fn idle_tests(trial: &Trial, chosen: &[(usize, &Mutation)]) -> Result<bool, String> {
    let mut idle: BTreeMap<&str, BTreeSet<String>> = BTreeMap::new();
    for suite in QUICK {
        let program = trial.built(suite)?;
        idle.insert(suite, names(&program)?);
    }
    for (place, mutation) in chosen {
        let left: usize = idle.values().map(BTreeSet::len).sum();
        println!("{place} {}: {left} tests left", mutation.name);
        trial.with(mutation, |trial| {
            for (suite, tests) in idle.iter_mut().filter(|(_, tests)| !tests.is_empty()) {
                if let Ok(program) = trial.built(suite) {
                    for test in failing(&program, None) {
                        tests.remove(&test);
                    }
                }
            }
        })?;
    }
    for (suite, tests) in &idle {
        for test in tests {
            println!("{suite}: {test} fails on no change");
        }
    }
    Ok(true)
}
