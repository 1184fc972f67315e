//! Prints the parts of `docs/FORMAT.md` that are made from a run: a message, an image, steps.

#![deny(warnings)]

use bivamolune_tests::boundary::SUBJECT;
use bivamolune_tests::dump::Run;

fn main() {
    println!("{}", Run::of(&SUBJECT).parts().join("\n"));
}
