//! Writes the shipped sample, the plant's fault as it comes to the furnace's station.
//!
//! `sample deltas` writes the messages end to end, `sample listing` the lines that a listing
//! program must print for them, by the second implementation.

#![deny(warnings)]

use std::env;
use std::io::{self, Write};
use std::process::ExitCode;

use bivamolune_tests::boundary::SUBJECT;
use bivamolune_tests::picture::story::plant_fault;
use bivamolune_tests::reference::listing::listing;

fn main() -> ExitCode {
    let written = match env::args().nth(1).as_deref() {
        Some("deltas") => write(|deltas| deltas),
        Some("listing") => write(|deltas| listing(&deltas).into_bytes()),
        _ => {
            eprintln!("usage: sample deltas | listing");
            return ExitCode::from(2);
        }
    };
    match written {
        Ok(()) => ExitCode::SUCCESS,
        Err(error) => {
            eprintln!("sample: {error}");
            ExitCode::FAILURE
        }
    }
}

/// Writes what is made of the messages.
fn write(make: fn(Vec<u8>) -> Vec<u8>) -> Result<(), String> {
    let bytes = make(plant_fault(&SUBJECT)?.deltas());
    let written = io::stdout().write_all(&bytes);
    written.map_err(|error| error.to_string())
}
