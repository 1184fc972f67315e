//! The plant's fault: a shift remark of low importance waits for a lost message, and
//! an unrelated burner change must not wait with it.

#![deny(warnings)]

mod common;

use bivamolune_tests::wire::{add, line, raise, sequence, set, Draft};
use common::{delta, steps, Station, A, B, C, D};

const BURNER: usize = 20;
const DISPLAY: usize = 40;
const REMARK: usize = 60;

/// A1, the message that is lost at first.
fn lost() -> Draft {
    delta(A, 1).commands(&[set(REMARK as u8, 1)])
}

/// A2, a shift remark of priority 0 that needs A1.
fn remark() -> Draft {
    delta(A, 2).priority(1, 0).commands(&[add(REMARK as u8, 5)])
}

/// B1 and B2, display changes.
fn displays() -> [Draft; 2] {
    [
        delta(B, 1).commands(&[set(DISPLAY as u8, 7)]),
        delta(B, 2).commands(&[raise(DISPLAY as u8, 9)]),
    ]
}

/// C1, a burner change that names nothing.
fn burner() -> Draft {
    delta(C, 1).commands(&[set(BURNER as u8, 850)])
}

/// Each station gets the remark first and the rest in its own order.
fn stations() -> [Station; 3] {
    let [one, two] = displays();
    let mut first = Station::with(&[remark(), one.clone(), two.clone()]);
    let mut second = Station::with(&[remark(), two.clone()]);
    let mut third = Station::with(&[remark()]);
    assert_eq!(first.deliver(&burner()), steps(0, "+C1"));
    assert_eq!(second.deliver(&burner()), steps(0, "+C1"));
    assert_eq!(third.deliver(&burner()), steps(0, "+C1"));
    assert_eq!(second.deliver(&one), steps(0, "-C1 +B1 +B2 +C1"));
    assert_eq!(third.deliver(&one), steps(0, "-C1 +B1 +C1"));
    assert_eq!(third.deliver(&two), steps(0, "-C1 +B2 +C1"));
    [first, second, third]
}

#[test]
fn the_burner_does_not_wait_for_the_remark() {
    let mut stations = stations();
    for station in &stations {
        assert_eq!(
            (station.log(), station.held()),
            ("B1 B2 C1".into(), "A2".into())
        );
        assert_eq!(station.value(BURNER), 850);
        assert_eq!(station.value(DISPLAY), 9);
        assert_eq!(station.value(REMARK), 0);
        assert!(station.image == stations[0].image);
    }
    let all = steps(0, "-C1 -B2 -B1 +A1 +B1 +B2 +C1 +A2");
    for station in &mut stations {
        assert_eq!(station.deliver(&lost()), all);
        assert_eq!(
            (station.log(), station.held()),
            ("A1 B1 B2 C1 A2".into(), "".into())
        );
        assert_eq!(station.value(REMARK), 6);
        assert_eq!(station.value(BURNER), 850);
    }
    assert!(stations[0].image == stations[1].image);
    assert!(stations[1].image == stations[2].image);
}

#[test]
fn what_names_the_remark_waits_with_it() {
    let mut station = Station::with(&[remark()]);
    let names = delta(D, 1).naming(&[sequence(line(A), 2)]);
    assert_eq!(station.deliver(&names), steps(0, ""));
    assert_eq!(station.deliver(&burner()), steps(0, "+C1"));
    assert_eq!(station.held(), "A2 D1");
}
