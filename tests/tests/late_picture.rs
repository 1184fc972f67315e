//! The picture of a late arrival: the boxes of both logs, the lines between equal deltas, which
//! never cross, and no picture of a program that lets two deltas change places.

#![deny(warnings)]

mod common;
#[path = "common/drawing.rs"]
mod drawing;

use std::collections::{BTreeMap, BTreeSet};

use bivamolune_tests::boundary::Reference;
use bivamolune_tests::faulty::{Fault, Faulty};
use bivamolune_tests::picture::{late, late_seed};
use common::SUBJECT;
use drawing::{attribute, number, text};

/// A delta's box: its class, the delta's name and the words under it, and where it is.
struct Drawn {
    class: String,
    name: String,
    words: Vec<String>,
    middle: usize,
    top: usize,
    bottom: usize,
}

/// The rows of a picture from top to bottom, each from left to right. The samples of the legend,
/// 20 high, are left out.
fn rows(picture: &str) -> Vec<Vec<Drawn>> {
    let mut rows: BTreeMap<usize, BTreeMap<usize, Drawn>> = BTreeMap::new();
    let lines: Vec<&str> = picture.lines().collect();
    for (at, line) in lines.iter().enumerate() {
        let sample = number(line, "height") == 20;
        if attribute(line, "rx") != "4" || sample {
            continue;
        }
        let texts = lines[at + 1..].iter();
        let texts = texts.take_while(|line| line.starts_with("<text") && line.contains(" mid\""));
        let mut texts = texts.map(|line| text(line).to_string());
        let (x, top) = (number(line, "x"), number(line, "y"));
        let drawn = Drawn {
            class: attribute(line, "class").to_string(),
            name: texts.next().expect("a box has a name"),
            words: texts.collect(),
            middle: x + number(line, "width") / 2,
            top,
            bottom: top + number(line, "height"),
        };
        rows.entry(top).or_default().insert(x, drawn);
    }
    let rows = rows.into_values();
    rows.map(|row| row.into_values().collect()).collect()
}

/// The classes and names of a row.
fn told(row: &[Drawn]) -> Vec<String> {
    let boxes = row.iter();
    boxes
        .map(|own| format!("{} {}", own.class, own.name))
        .collect()
}

/// The story: B2 comes late, B3 was held, and D1 is in a later block. Kept deltas are of class
/// executed, those that are undone and executed again of class again, the late one is composed.
#[test]
fn the_rows_are_the_logs_of_the_story() {
    let picture = late(&SUBJECT).expect("it can be drawn");
    let rows = rows(&picture);
    assert_eq!(rows.len(), 2);
    assert_eq!(
        told(&rows[0]).join(", "),
        "executed A1, executed B1, again C1, again A2, again C2, again D1, held B3"
    );
    assert_eq!(
        told(&rows[1]).join(", "),
        "executed A1, executed B1, composed B2, again C1, again A2, freed B3, again C2, again D1"
    );
    let words = |row: usize, place: usize| rows[row][place].words.join(", ");
    assert_eq!(words(0, 6), "feeder +10, needs B2");
    assert_eq!(words(1, 2), "feeder +5, group 1");
    assert_eq!(words(1, 5), "feeder +10, group 2");
    assert_eq!(words(1, 7), "remark = 1, block 1, priority 0");
}

/// Whether a box is one of both logs.
fn in_both(own: &&Drawn) -> bool {
    ["executed", "again"].contains(&own.class.as_str())
}

/// Asks that the lines of a picture join each delta of both logs to itself, and that those of a
/// band go from left to right in both rows. How many bands there are, and how many were held.
fn look_at_lines(picture: &str) -> (usize, usize) {
    let rows = rows(picture);
    let lines = picture
        .lines()
        .filter(|l| l.starts_with("<line class=\"same\""));
    let mut drawn = lines.map(|line| {
        let end = |x, y| (number(line, x), number(line, y));
        (end("x1", "y1"), end("x2", "y2"))
    });
    let mut seen = BTreeSet::new();
    let mut held = 0;
    for band in rows.chunks(2) {
        let old: Vec<&Drawn> = band[0].iter().filter(in_both).collect();
        let new: Vec<&Drawn> = band[1].iter().filter(in_both).collect();
        assert_eq!(old.len(), new.len());
        for (old, new) in old.iter().zip(&new) {
            assert_eq!((&old.name, &old.class), (&new.name, &new.class));
            let line = ((old.middle, old.bottom), (new.middle, new.top));
            assert_eq!(drawn.next(), Some(line));
        }
        let freed = band[1].iter().filter(|own| own.class == "freed");
        held += freed.count();
        for own in &band[1] {
            assert!(seen.insert(own.name.clone()), "{} twice", own.name);
        }
    }
    assert_eq!(drawn.next(), None);
    assert_eq!(picture.matches(">arrives late<").count(), 2);
    (rows.len() / 2, held)
}

/// Of the story, and of seeds with many bands and with many that were held.
#[test]
fn lines_join_equal_deltas_and_never_cross() {
    let story = late(&SUBJECT).expect("it can be drawn");
    assert_eq!(look_at_lines(&story), (1, 1));
    let (mut bands, mut held) = (0, 0);
    for seed in 0..100 {
        let picture = late_seed(&SUBJECT, seed).expect("it can be drawn");
        assert!(picture == late_seed(&Reference, seed).expect("it can be drawn"));
        let (more, freed) = look_at_lines(&picture);
        bands = more.max(bands);
        held = freed.max(held);
    }
    assert_eq!(bands, 8);
    assert!(held > 10);
}

#[test]
fn a_program_that_is_wrong_gets_no_picture() {
    let error = |drawn: Result<String, String>| drawn.expect_err("no picture");
    for fault in [Fault::TiesByCount, Fault::TiesLatestFirst] {
        for drawn in [late(&Faulty(fault)), late_seed(&Faulty(fault), 17)] {
            let error = error(drawn);
            assert!(error.starts_with("order not kept: "), "{error}");
        }
    }
    assert_eq!(
        error(late(&Faulty(Fault::UndoesEverything))),
        "the late change is not as the story tells it"
    );
    assert_eq!(
        error(late_seed(&Faulty(Fault::HoldsAll), 17)),
        "seed 17: no delivery undoes anything"
    );
}
