//! The plant's fault as a story with composed deltas: what each station does, and the sample made
//! of it. The pictures in docs, and the programs that write all this.

#![deny(warnings)]

mod common;
#[path = "common/drawing.rs"]
mod drawing;

use std::fs::{self, OpenOptions};
use std::path::Path;
use std::process::{Command, Output};

use bivamolune_tests::boundary::{Calls, Reference};
use bivamolune_tests::picture::story::{plant_fault, Story, BURNER, FURNACE};
use bivamolune_tests::picture::{fault, late, late_seed, seed};
use bivamolune_tests::plant::What;
use common::{name, setpoint, u32_at, SUBJECT};
use drawing::{attribute, number, text};

fn story() -> Story {
    plant_fault(&SUBJECT).expect("the story can be played")
}

fn root() -> &'static Path {
    Path::new(concat!(env!("CARGO_MANIFEST_DIR"), "/.."))
}

/// The steps of a station with their times: "5+B1 6-A2".
fn steps(story: &Story, station: usize) -> String {
    let mut steps = Vec::new();
    for event in &story.events {
        match event.what {
            What::Executed(at, own) if at == station => {
                steps.push(format!("{}+{}", event.time, name(&own)));
            }
            What::Undone(at, own) if at == station => {
                steps.push(format!("{}-{}", event.time, name(&own)));
            }
            _ => {}
        }
    }
    steps.join(" ")
}

/// Displays and burner are executed when they come, whatever waits; the remark of priority 0
/// gives way to them where it was executed, and the late message goes to its place.
#[test]
fn what_each_station_does() {
    let story = story();
    let late = "11-C1 11-B2 11-B1 11+A1 11+B1 11+B2 11+C1 11+A2";
    assert_eq!(
        steps(&story, 0),
        "1+A1 2+A2 5-A2 5+B1 5+A2 6-A2 6+B2 6+A2 7-A2 7+C1 7+A2"
    );
    assert_eq!(steps(&story, 1), format!("4+B1 5+B2 7+C1 {late}"));
    assert_eq!(
        steps(&story, 2),
        format!("6+C1 8-C1 8+B1 8+C1 9-C1 9+B2 9+C1 {late}")
    );
    assert_eq!(steps(&story, FURNACE), format!("5+B1 6+B2 7+C1 {late}"));
    for image in &story.images {
        assert!(*image == story.images[0]);
        assert_eq!(setpoint(image, usize::from(BURNER)), (0, 850));
    }
}

/// What was composed: the remark has priority 0 in block 1, and the burner change names
/// nothing, as the remark is held where it was composed.
#[test]
fn what_comes_to_the_furnace() {
    let story = story();
    let came: Vec<(usize, String)> = story
        .arrivals
        .iter()
        .map(|(time, message)| (*time, name(&message[12..24])))
        .collect();
    let came: Vec<(usize, &str)> = came.iter().map(|(t, name)| (*t, name.as_str())).collect();
    assert_eq!(
        came,
        [(3, "A2"), (5, "B1"), (6, "B2"), (7, "C1"), (11, "A1")]
    );
    for (_, message) in &story.arrivals {
        assert_eq!((message[2], u32_at(message, 24)), (0, 1));
    }
    let remark = &story.arrivals[0].1;
    assert_eq!(
        (remark[1], u32_at(remark, 28), u32_at(remark, 32)),
        (1, 1, 0)
    );
    assert_eq!(story.burner, story.arrivals[3].1);
}

#[test]
fn the_picture_in_docs_is_that_of_the_run() {
    let drawn = fault(&SUBJECT).expect("it can be drawn");
    let shipped = fs::read_to_string(root().join("docs/plant-fault.svg")).expect("it is there");
    assert!(drawn == shipped, "draw docs/plant-fault.svg again");
    assert!(drawn.contains("burner change C1 is executed as it arrives, at 7<"));
    assert!(drawn.contains("burner change C1 stands behind the remark until 11<"));
    assert!(drawn.contains("end with the log A1 B1 B2 C1 A2 and equal images"));
}

/// By the second implementation too, where the library is tested.
#[test]
fn the_late_picture_in_docs_is_that_of_the_run() {
    let shipped = fs::read_to_string(root().join("docs/late-arrival.svg")).expect("it is there");
    for calls in [&SUBJECT as &dyn Calls, &Reference] {
        let drawn = late(calls).expect("it can be drawn");
        assert!(drawn == shipped, "draw docs/late-arrival.svg again");
    }
    assert!(shipped.contains(">A late change squeezes in: what you have read keeps its order<"));
    assert!(shipped.contains("B3 needs B2, and was held until then"));
    assert!(shipped.contains("B2 goes to its place between B1 and C1."));
}

#[test]
fn the_sample_is_that_of_the_run() {
    let shipped = fs::read(root().join("samples/plant-fault.deltas")).expect("it is there");
    assert!(shipped == story().deltas(), "write the sample again");
}

/// The boxes of all words: left, right and base line, with six pixels for a character, eight
/// for one of the title.
fn words(picture: &str) -> Vec<(usize, usize, usize)> {
    let texts = picture.lines().filter(|line| line.starts_with("<text"));
    let placed = texts.map(|line| {
        let (class, x) = (attribute(line, "class"), number(line, "x"));
        let width = text(line).chars().count() * if class == "title" { 8 } else { 6 };
        let left = if class.contains("mid") {
            x - width / 2
        } else {
            x
        };
        (left, left + width, number(line, "y"))
    });
    placed.collect()
}

#[test]
fn no_words_lie_on_others_or_outside() {
    let large = [
        fault(&SUBJECT),
        seed(&SUBJECT, 17),
        seed(&SUBJECT, 3),
        late(&SUBJECT),
    ];
    let seeds = (0..30).map(|seed| (20, late_seed(&SUBJECT, seed)));
    let pictures = large.into_iter().map(|picture| (60, picture));
    for (least, picture) in pictures.chain(seeds) {
        let picture = picture.expect("it can be drawn");
        let (width, height) = (number(&picture, "width"), number(&picture, "height"));
        let mut words = words(&picture);
        assert!(words.len() > least);
        words.sort_unstable();
        for (place, (left, right, base)) in words.iter().enumerate() {
            assert!(*right < width && *base < height);
            let after = words[place + 1..].iter().take_while(|(l, ..)| l < right);
            let hit = after.clone().find(|(.., b)| b.abs_diff(*base) < 11);
            assert_eq!(hit, None, "at {left} {base}");
        }
    }
}

/// A program of this package with these words.
fn run(program: &str, words: &[&str]) -> Output {
    let output = Command::new(program).args(words).output();
    output.expect("the program runs")
}

#[test]
fn the_programs_write_what_is_shipped() {
    let (picture, sample) = (env!("CARGO_BIN_EXE_picture"), env!("CARGO_BIN_EXE_sample"));
    for (program, words, file) in [
        (picture, "fault", "docs/plant-fault.svg"),
        (picture, "late", "docs/late-arrival.svg"),
        (sample, "deltas", "samples/plant-fault.deltas"),
        (sample, "listing", "samples/plant-fault.txt"),
    ] {
        let output = run(program, &[words]);
        assert_eq!(output.status.code(), Some(0));
        assert!(output.stdout == fs::read(root().join(file)).expect("it is there"));
    }
    for (words, drawn) in [
        (["seed", "17"], seed(&SUBJECT, 17)),
        (["late", "17"], late_seed(&SUBJECT, 17)),
    ] {
        let drawn = drawn.expect("it can be drawn");
        assert!(run(picture, &words).stdout == drawn.into_bytes());
    }
    let mut wrong = vec![&[][..], &["seed"], &["seed", "x"], &["fault", "1"]];
    wrong.extend([&["late", "x"][..], &["late", "-1"], &["late", "1", "2"]]);
    for words in wrong {
        let output = run(picture, words);
        assert_eq!((output.status.code(), output.stdout), (Some(2), vec![]));
        assert_eq!(output.stderr, b"usage: picture fault | late [N] | seed N\n");
    }
    assert_eq!(run(sample, &[]).status.code(), Some(2));
}

#[test]
fn a_picture_that_cannot_be_written_is_an_error() {
    for words in [&["fault"][..], &["late"], &["late", "17"]] {
        let full = OpenOptions::new().write(true).open("/dev/full");
        let mut picture = Command::new(env!("CARGO_BIN_EXE_picture"));
        let picture = picture.args(words).stdout(full.expect("a full device"));
        let output = picture.output().expect("the program runs");
        assert_eq!(output.status.code(), Some(1));
        assert!(!output.stderr.is_empty());
    }
}
