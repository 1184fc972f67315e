//! How often the seeds that begin from an image with floors reach each limit of them.

#![deny(warnings)]

mod common;

use std::collections::BTreeMap;

use bivamolune_tests::boundary::{code, Reference};
use bivamolune_tests::call::{Action, Call, Outcome, View, World};
use bivamolune_tests::generate::{case, is_with_floors, LIMIT};
use bivamolune_tests::view::{all_messages, base_values, first_message, floor_count, floors};
use bivamolune_tests::wire::Sequence;
use common::{messages, u16_at, u32_at};

/// How often each limit was reached.
#[derive(Default)]
struct Seen(BTreeMap<String, usize>);

impl Seen {
    fn mark(&mut self, name: &str, seen: bool) {
        *self.0.entry(name.to_string()).or_default() += usize::from(seen);
    }

    /// Marks of an image that a list begins from.
    fn mark_image(&mut self, image: &[u8]) {
        let all = floors(image);
        for count in [0, 1, 31, 32] {
            self.mark(&format!("{count} floors"), all.len() == count);
        }
        for number in [1, 0x00FF, 0x0100, 0xFFFE, 0xFFFF] {
            let at = |floor: &Sequence| u16_at(floor, 10) == number;
            self.mark(&format!("floor of {number:04X}"), all.iter().any(at));
        }
        for (field, at) in [("block", 16), ("group", 20)] {
            for number in [0, 1, LIMIT - 1, LIMIT] {
                let is = !all.is_empty() && u32_at(image, at) == number;
                self.mark(&format!("purged {field} {number}"), is);
            }
        }
        for value in [-1_000_000, 1_000_000] {
            let is = base_values(image).contains(&value);
            self.mark(&format!("base value {value}"), is);
        }
        let log = u16_at(image, 0);
        let held = u16_at(image, 2);
        self.mark("an emptied log", log == 0 && !all.is_empty());
        self.mark("and held ones", log == 0 && held > 0 && !all.is_empty());
        self.mark("64 behind floors", log + held == 64 && !all.is_empty());
        for message in all_messages(image) {
            self.mark_needs(&all, &message);
        }
    }

    /// Marks of a message in an image: its number and its needs beside the floors.
    fn mark_needs(&mut self, all: &[Sequence], message: &[u8]) {
        let own = &message[12..24];
        self.mark("message just above", beside(all, own) == Some(1));
        let named = message[40..40 + 12 * usize::from(message[2])].chunks(12);
        for need in named.filter_map(|need| beside(all, need)) {
            self.mark("need at a floor", need == 0);
            self.mark("need below a floor", need < 0);
            self.mark("need just above", need == 1);
        }
    }

    /// Marks of a right message that arrives, with the code that it gets.
    fn mark_delivery(&mut self, image: &[u8], message: &[u8], answered: u32) {
        let full = u16_at(image, 0) + u16_at(image, 2) == 64;
        match beside(&floors(image), &message[12..24]) {
            Some(place) if place <= 0 => {
                assert_eq!(answered, 0);
                self.mark("delivery at a floor", place == 0);
                self.mark("delivery below a floor", place < 0);
                self.mark("delivery at or below with 64", full);
            }
            Some(1) => {
                self.mark("delivery just above, 0", answered == 0);
                self.mark("delivery just above, 7", answered == 7);
                self.mark("delivery just above, 8", answered == 8);
            }
            _ => {}
        }
    }

    /// Marks of a compose on a line that has a floor, or on an emptied log.
    fn mark_compose(&mut self, image: &[u8], line: &[u8], answered: u32) {
        let floor = floors(image).into_iter().find(|f| f[..10] == *line);
        let emptied = u16_at(image, 0) == 0 && floor_count(image) > 0;
        let log = messages(image, 0, u16_at(image, 0));
        let logged = log.iter().any(|message| message[12..22] == *line);
        self.mark(
            "composed on a floor",
            answered == 0 && floor.is_some() && !logged,
        );
        self.mark(
            "composed above a floor",
            answered == 0 && floor.is_some() && logged,
        );
        self.mark("composed on an emptied log", answered == 0 && emptied);
        let last = floor.map_or(false, |floor| floor[10..] == [0xFF, 0xFF]);
        self.mark("compose past FFFF", answered == 10 && last);
        self.mark(
            "compose past a limit, emptied",
            answered == 10 && emptied && !last,
        );
        self.mark("compose on a floor, 9", answered == 9 && floor.is_some());
    }

    /// Marks of damage: each byte of the header from 10 on, of a floor, of the base values; and a
    /// floor too many.
    fn mark_damage(&mut self, right: &[u8], wrong: &[u8]) {
        let differs = |at: &usize| right[*at] != wrong[*at];
        let places: Vec<usize> = (0..right.len()).filter(differs).collect();
        if let [at] = places[..] {
            for byte in 10..32 {
                self.mark(&format!("header byte {byte:02} alone"), at == byte);
            }
            let in_floors = (544..first_message(right)).contains(&at);
            for byte in 0..12 {
                let is = in_floors && (at - 544) % 12 == byte;
                self.mark(&format!("floor byte {byte:02} alone"), is);
            }
            self.mark("a base value alone", (288..544).contains(&at));
        }
        self.mark("33 floors", floor_count(wrong) == 33);
    }
}

/// How far a sequence is above the floor of its line, if it has one: 0 at it, negative below.
fn beside(all: &[Sequence], own: &[u8]) -> Option<i32> {
    let floor = all.iter().find(|floor| floor[..10] == own[..10])?;
    Some(u16_at(own, 10) as i32 - u16_at(floor, 10) as i32)
}

fn note(seen: &mut Seen, world: &World, call: &Call, outcome: &Outcome) {
    let answered = code(outcome.answer);
    let image = &world.image;
    match (&call.view, &call.action) {
        (_, Action::Begin(image)) => seen.mark_image(image),
        (View::Station, Action::Deliver { message, .. }) if [0, 7, 8].contains(&answered) => {
            seen.mark_delivery(image, message, answered);
        }
        (View::Station, Action::Compose(composing)) if [0, 9, 10].contains(&answered) => {
            seen.mark_compose(image, &composing.line, answered);
        }
        (View::Edited(_), _) => {
            let damaged = world.view(&call.view);
            seen.mark("damaged and refused", answered == 2);
            seen.mark("damaged and taken", answered == 0 && damaged != *image);
            seen.mark_damage(image, &damaged);
        }
        _ => {}
    }
}

/// The seeds of the differential run that begin from an image with floors. The least number was
/// measured as 23, that of a byte of floors; half of it is asked of all.
#[test]
fn the_seeds_with_floors_reach_every_limit() {
    let mut seen = Seen::default();
    for seed in (0..6_000).filter(|seed| is_with_floors(*seed)) {
        let mut world = World::default();
        for call in case(seed) {
            let outcome = world.perform(&Reference, &call);
            note(&mut seen, &world, &call, &outcome);
            world.follow(&call, &outcome);
        }
    }
    println!("{:#?}", seen.0);
    assert_eq!(seen.0.len(), 76);
    for (limit, count) in &seen.0 {
        assert!(*count >= 11, "{limit} only {count} times");
    }
}
