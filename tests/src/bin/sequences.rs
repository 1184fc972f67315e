//! Reads sequences on standard input, as bytes or as text, and prints the other form. A
//! refusal prints its number on standard error, and the program ends with 1.

#![deny(warnings)]

use std::io::{self, Write};
use std::process::ExitCode;

use bivamolune_tests::input::read_input;
use bivamolune_tests::reference::sequences::{other_form, INPUT};

fn main() -> io::Result<ExitCode> {
    let mut input = Vec::new();
    read_input(INPUT, &mut input)?;
    match other_form(&input) {
        Ok(printed) => {
            let mut stdout = io::stdout().lock();
            stdout.write_all(&printed).and_then(|()| stdout.flush())?;
            Ok(ExitCode::SUCCESS)
        }
        Err(code) => {
            writeln!(io::stderr(), "refused: {}", code.number())?;
            Ok(ExitCode::FAILURE)
        }
    }
}
