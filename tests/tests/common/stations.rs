//! Stations of the plant, one at a time.

use bivamolune_tests::plant::Station;
use bivamolune_tests::wire::line;

use super::common::SUBJECT;

/// A station of one line.
pub fn station(letter: u8) -> Station {
    Station::new(&SUBJECT, vec![line(letter)]).expect("an empty station")
}

/// Delivers; the code.
pub fn deliver(station: &mut Station, message: &[u8]) -> u32 {
    station.deliver(&SUBJECT, message).expect("a delivery").code
}
