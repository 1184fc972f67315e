//! Prints the log of the image on standard input, or the number of a refusal. Where reading
//! fails, nothing is printed, standard error says why, and the program ends with 1.

#![deny(warnings)]

use std::io::{self, Write};

use bivamolune_tests::input::read_input;
use bivamolune_tests::reference::image::SIZE;
use bivamolune_tests::reference::print_log::print_log;

fn main() -> io::Result<()> {
    let mut input = Vec::new();
    // One byte more than an image shows that there are too many.
    read_input(SIZE + 1, &mut input)?;
    io::stdout().write_all(print_log(&input).as_bytes())
}
