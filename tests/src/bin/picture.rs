//! Draws what stations do, as an SVG on standard output.
//!
//! `picture fault` draws the plant's fault, beside what the old single queue makes of the same
//! arrivals. `picture seed N` draws a plant in motion. `picture late` draws a log before and after
//! a late change, `picture late N` one of the generator's seed N.

#![deny(warnings)]

use std::env;
use std::io::{self, Write};
use std::process::ExitCode;

use bivamolune_tests::boundary::SUBJECT;
use bivamolune_tests::picture::{fault, late, late_seed, seed};

fn main() -> ExitCode {
    let words: Vec<String> = env::args().skip(1).collect();
    let words: Vec<&str> = words.iter().map(String::as_str).collect();
    let drawn = match words[..] {
        ["fault"] => Some(fault(&SUBJECT)),
        ["late"] => Some(late(&SUBJECT)),
        ["late", number] => number
            .parse()
            .ok()
            .map(|number| late_seed(&SUBJECT, number)),
        ["seed", number] => number.parse().ok().map(|number| seed(&SUBJECT, number)),
        _ => None,
    };
    let written = drawn.map(|drawn| {
        let written = io::stdout().write_all(drawn?.as_bytes());
        written.map_err(|error| error.to_string())
    });
    match written {
        Some(Ok(())) => ExitCode::SUCCESS,
        Some(Err(error)) => {
            eprintln!("{error}");
            ExitCode::FAILURE
        }
        None => {
            eprintln!("usage: picture fault | late [N] | seed N");
            ExitCode::from(2)
        }
    }
}
