//! Measures deliver, purge, log message and the two calls on texts of the static library
//! beside the second implementation.
//!
//! Without options it prints the time of every case and the growth with the number of
//! deltas; `--case NAME` keeps to one, `--rounds N` and `--seconds N` say how long.
//! `--save FILE` writes the table down, and `--baseline FILE` holds this run against one
//! that was saved. `--case NAME --calls N --of library|second|copy` makes N calls of a case
//! and nothing else, for a tool that counts instructions. `--stack` prints the deepest
//! stack, `--most BYTES` allows no more, and `--list` prints the names of the cases. No
//! time is ever judged; it ends with 1 only if the sides differ, if something cannot be
//! measured, or if the stack is deeper than allowed.

#![deny(warnings)]

use std::env;
use std::process::ExitCode;
use std::time::Duration;

use bivamolune_tests::bench::cases::{named, specs, Spec};
use bivamolune_tests::bench::measure::Effort;
use bivamolune_tests::bench::sides::{repeat, Side, FIRST};
use bivamolune_tests::bench::{report, saved, stack};

/// What the command line asks for.
struct Options {
    spec: Option<Spec>,
    calls: Option<u64>,
    of: Option<Side>,
    rounds: usize,
    seconds: u64,
    save: Option<String>,
    baseline: Option<String>,
    stack: bool,
    most: Option<usize>,
    list: bool,
}

const USAGE: &str =
    "usage: bench [--case NAME] [--rounds N] [--seconds N] [--save FILE] [--baseline FILE]
       bench --case NAME --calls N --of library|second|copy
       bench --stack [--case NAME] [--most BYTES]
       bench --list";

fn main() -> ExitCode {
    match options().map(|options| run(&options)) {
        Some(Ok(())) => ExitCode::SUCCESS,
        Some(Err(what)) => {
            eprintln!("{what}");
            ExitCode::FAILURE
        }
        None => {
            eprintln!("{USAGE}");
            ExitCode::from(2)
        }
    }
}

/// The options, or nothing where they cannot be read or do not go together.
fn options() -> Option<Options> {
    let mut options = Options {
        spec: None,
        calls: None,
        of: None,
        rounds: 301,
        seconds: 2,
        save: None,
        baseline: None,
        stack: false,
        most: None,
        list: false,
    };
    let mut words = env::args().skip(1);
    while let Some(word) = words.next() {
        match word.as_str() {
            "--stack" => options.stack = true,
            "--list" => options.list = true,
            "--case" => options.spec = Some(named(&words.next()?)?),
            "--of" => options.of = Some(Side::named(&words.next()?)?),
            "--calls" => options.calls = Some(words.next()?.parse().ok()?),
            "--rounds" => options.rounds = words.next()?.parse().ok()?,
            "--seconds" => options.seconds = words.next()?.parse().ok()?,
            "--save" => options.save = Some(words.next()?),
            "--baseline" => options.baseline = Some(words.next()?),
            "--most" => options.most = Some(words.next()?.parse().ok()?),
            _ => return None,
        }
    }
    let counting = options.calls.is_some() && options.of.is_some() && options.spec.is_some();
    let halfway = options.calls.is_some() || options.of.is_some();
    (counting || !halfway).then_some(options)
}

fn run(options: &Options) -> Result<(), String> {
    if let (Some(spec), Some(calls), Some(side)) = (options.spec, options.calls, options.of) {
        count(&spec, calls, side);
        return Ok(());
    }
    let specs = options.spec.map_or_else(specs, |spec| vec![spec]);
    if options.list {
        specs.iter().for_each(|spec| println!("{spec}"));
        return Ok(());
    }
    if options.stack {
        return stack::run(specs, options.most);
    }
    times(&specs, options)
}

/// Measures, saves, and compares with what was saved.
fn times(specs: &[Spec], options: &Options) -> Result<(), String> {
    let effort = Effort {
        rounds: options.rounds.max(1),
        time: Duration::from_secs(options.seconds),
    };
    let baseline = options.baseline.as_deref();
    let then = baseline.map(saved::read).transpose()?;
    let rows = report::run(specs, effort)?;
    if let (Some(file), Some(then)) = (baseline, then) {
        saved::print(&rows, &then, file);
    }
    match &options.save {
        Some(file) => saved::save(&rows, file),
        None => Ok(()),
    }
}

/// Makes the calls, and says first which implementation answers them.
fn count(spec: &Spec, calls: u64, side: Side) {
    let name = match side {
        Side::Library => FIRST,
        Side::Second => "second",
        Side::Copy => "copy",
    };
    eprintln!("{spec}: {calls} times {name}");
    repeat(&spec.build(), side, calls);
}
