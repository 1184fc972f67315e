//! How often the seeds that the differential run compares reach each limit: of fields, needs,
//! lengths and numbers, conflicts in one byte, images with one wrong message.

#![deny(warnings)]

mod common;

use std::collections::{BTreeMap, BTreeSet};

use bivamolune_tests::boundary::{code, executions, undos, Reference};
use bivamolune_tests::call::{Action, Call, Outcome, View, World};
use bivamolune_tests::edit::Edit;
use bivamolune_tests::generate::{case, is_at_limits, LIMIT};
use bivamolune_tests::view::{all_messages, sequence_of};
use common::{messages, u16_at, u32_at, Station};

/// Numbers at a border of group, block and priority.
const BORDERS: [u32; 6] = [0xFFFF, 0x1_0000, 0xFF_FFFF, 0x100_0000, LIMIT - 1, LIMIT];

/// How often each limit was reached, and which bytes lines had at which place.
#[derive(Default)]
struct Seen {
    limits: BTreeMap<String, usize>,
    bytes: BTreeSet<(usize, u8)>,
}

impl Seen {
    fn mark(&mut self, name: &str, seen: bool) {
        *self.limits.entry(name.to_string()).or_default() += usize::from(seen);
    }

    /// Marks of an accepted message.
    fn mark_message(&mut self, message: &[u8]) {
        self.mark_field("group", u32_at(message, 24));
        if message[1] == 1 {
            self.mark_field("block", u32_at(message, 28));
            self.mark_field("priority", u32_at(message, 32));
        }
        for number in [0x00FF, 0x0100, 0xFFFE, 0xFFFF] {
            let name = format!("number {number:04X}");
            self.mark(&name, u16_at(message, 22) == number);
        }
        let line = message[12..22].iter().copied();
        self.bytes.extend(line.enumerate());
        let commands = message[40 + 12 * usize::from(message[2])..].chunks(8);
        for value in commands.map(|command| u32_at(command, 4) as i32) {
            self.mark("value -1000000", value == -1_000_000);
            self.mark("value 1000000", value == 1_000_000);
            self.mark("value below -65536", value < -65_536);
            self.mark("value above 65536", value > 65_536);
        }
    }

    /// Marks of a group, a block or a priority: at a border, or anywhere above.
    fn mark_field(&mut self, field: &str, number: u32) {
        for border in BORDERS {
            self.mark(&format!("{field} {border}"), number == border);
        }
        let between = number > BORDERS[0] && !BORDERS.contains(&number);
        self.mark(&format!("{field} between"), between);
    }

    /// Marks of a message that is refused by 7: where it differs from the one that is present.
    fn mark_conflict(&mut self, image: &[u8], message: &[u8]) {
        let all = all_messages(image);
        let of_its_sequence = |own: &&Vec<u8>| sequence_of(own) == sequence_of(message);
        let present = all.iter().find(of_its_sequence).expect("it is present");
        let differs = |at: &usize| present[*at] != message[*at];
        let places: Vec<usize> = (0..present.len()).filter(differs).collect();
        assert_eq!((places.len(), present.len()), (1, message.len()));
        let name = match places[0] {
            24..=27 => "group",
            28..=31 => "block",
            32..=35 => "priority",
            at if at < 40 + 12 * usize::from(message[2]) => "dependencies",
            _ => "commands",
        };
        self.mark(&format!("conflict in {name}"), true);
        self.mark("conflict past byte 140", places[0] >= 140);
    }

    /// Marks of a message that makes a copy of an image wrong.
    fn mark_wrong(&mut self, image: &[u8], place: usize, message: &[u8]) {
        let code = Station::new().code(message);
        let part = ["among the held", "in the log"][usize::from(place < u16_at(image, 0))];
        self.mark(&format!("image wrong by {code} {part}"), true);
    }

    /// Marks of an accepted delivery.
    fn mark_steps(&mut self, answer: u64) {
        let released = (undos(answer), executions(answer)) == (0, 64);
        self.mark("63 released by one", released);
    }

    /// Marks of the image that a list leaves behind.
    fn mark_image(&mut self, image: &[u8]) {
        let log = messages(image, 0, u16_at(image, 0));
        let chained = log.windows(2).all(|two| needs(&two[1], &two[0]));
        self.mark("log of 64", log.len() == 64);
        self.mark("chain of 64", log.len() == 64 && chained);
        let all = all_messages(image);
        let longest = all.iter().filter(|message| message.len() == 200);
        self.mark("64 messages of 200 bytes", longest.count() == 64);
        for user in log.iter().filter(|m| m[2] == 8 && u16_at(m, 22) > 1) {
            let (before, named) = blocks(&log, user);
            self.mark(
                "eight beside a predecessor of greater block",
                before > named,
            );
            self.mark(
                "eight with a greater block beside a predecessor",
                before < named,
            );
        }
    }
}

/// Whether a message names another.
fn names(user: &[u8], of: &[u8]) -> bool {
    let named = &user[40..40 + 12 * usize::from(user[2])];
    named.chunks(12).any(|sequence| *sequence == of[12..24])
}

/// Whether a message names another or follows it.
fn needs(user: &[u8], of: &[u8]) -> bool {
    let follows = user[12..22] == of[12..22] && u16_at(user, 22) == u16_at(of, 22) + 1;
    follows || names(user, of)
}

/// The own block of a delta's predecessor, and the greatest of those that it names.
fn blocks(log: &[Vec<u8>], user: &[u8]) -> (u32, u32) {
    let (named, before): (Vec<&Vec<u8>>, Vec<&Vec<u8>>) = log
        .iter()
        .filter(|of| needs(user, of))
        .partition(|of| names(user, of));
    let greatest = |of: &[&Vec<u8>]| of.iter().map(|m| u32_at(m, 28)).max().unwrap_or(0);
    (greatest(&before), greatest(&named))
}

/// Makes the calls of a list, and notes what they reach.
fn run(seed: u64, seen: &mut Seen) {
    let mut world = World::default();
    for call in case(seed) {
        let outcome = world.perform(&Reference, &call);
        note(seen, &world.image, &call, &outcome);
        world.follow(&call, &outcome);
    }
    seen.mark_image(&world.image);
}

fn note(seen: &mut Seen, image: &[u8], call: &Call, outcome: &Outcome) {
    match (&call.view, &call.action, code(outcome.answer)) {
        (View::Station, Action::Deliver { message, .. }, 0) => {
            seen.mark_message(message);
            seen.mark_steps(outcome.answer);
        }
        (View::Station, Action::Deliver { message, .. }, 7) => seen.mark_conflict(image, message),
        (View::Edited(Edit::Instead(place, message)), _, answered) => {
            assert_eq!(answered, 2);
            seen.mark_wrong(image, *place, message);
        }
        _ => {}
    }
}

/// The seeds of the differential run that are at the limits. The least number was measured as 41,
/// that of images of 64 longest messages; half of it is asked of all.
#[test]
fn the_seeds_reach_every_limit() {
    let mut seen = Seen::default();
    for seed in (0..6_000).filter(|seed| is_at_limits(*seed)) {
        run(seed, &mut seen);
    }
    println!("{:#?}", seen.limits);
    assert_eq!(seen.limits.len(), 49);
    for (limit, count) in &seen.limits {
        assert!(*count >= 20, "{limit} only {count} times");
    }
    // Each byte at each place of UID and creator.
    assert_eq!(seen.bytes.len(), 10 * 256);
}
