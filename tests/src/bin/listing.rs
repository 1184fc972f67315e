//! Prints the listing of the messages on standard input. Where reading fails, what was read
//! before is listed, standard error says why, and the program ends with 1.

#![deny(warnings)]

use std::io::{self, Write};

use bivamolune_tests::input::read_input;
use bivamolune_tests::reference::listing::{listing, INPUT};

fn main() -> io::Result<()> {
    let mut input = Vec::new();
    let read = read_input(INPUT, &mut input);
    io::stdout().write_all(listing(&input).as_bytes())?;
    read
}
