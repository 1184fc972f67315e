//! Everything that can be seen of many calls of each kind, as one number a kind. Images with no
//! floor, and the offsets in them, are taken as they were before change request 4, so that
//! numbers of an earlier library can be held against them.

use std::collections::BTreeMap;
use std::ops::Range;

use bivamolune_tests::boundary::{code, packed, Calls};
use bivamolune_tests::call::{Action, Call, Outcome, View, World};
use bivamolune_tests::generate::{any_draft, case};
use bivamolune_tests::random::Random;
use bivamolune_tests::view::u16_at;

use super::common::IMAGE;
use super::known::{wrong_header, Edits, Known, MESSAGES};

/// How many calls there were, and the digest of what was seen of them.
#[derive(Clone, Copy, Debug, PartialEq, Eq)]
pub struct Tally {
    pub calls: usize,
    pub digest: u64,
}

impl Tally {
    const NONE: Tally = Tally {
        calls: 0,
        digest: 0xCBF2_9CE4_8422_2325,
    };

    /// Takes in the answer and all bytes of all buffers.
    fn note(&mut self, outcome: &Outcome) {
        self.calls += 1;
        self.take(&outcome.answer.to_be_bytes());
        for (_, buffer) in outcome.buffers() {
            self.take(&(buffer.len() as u64).to_be_bytes());
            self.take(buffer);
        }
    }

    /// FNV-1a of 64 bits, eight bytes at a time so that it is quick; the turn lets the upper
    /// ones reach all bits.
    fn take(&mut self, bytes: &[u8]) {
        for part in bytes.chunks(8) {
            let word = part.try_into().unwrap_or_else(|_| filled(part));
            let mixed = (self.digest ^ u64::from_be_bytes(word)).wrapping_mul(0x0100_0000_01B3);
            self.digest = mixed.rotate_left(29);
        }
    }
}

/// The last bytes of a buffer, with zeros behind them.
fn filled(part: &[u8]) -> [u8; 8] {
    let mut word = [0; 8];
    word[..part.len()].copy_from_slice(part);
    word
}

/// A kind of call: which one, and what it was given for an image.
pub type Kind = (&'static str, &'static str);
/// The tally of each kind.
pub type Tallies = BTreeMap<Kind, Tally>;

/// Makes the calls of these seeds: the generator's lists, then, on the image that each leaves
/// behind, every place and some other calls; the same on copies of it with wrong lengths,
/// counts and bytes used, and on bytes that no station wrote.
pub fn tallies(calls: &dyn Calls, seeds: Range<u64>) -> Tallies {
    let mut run = Run {
        calls,
        world: World::default(),
        tallies: Tallies::new(),
    };
    for seed in seeds {
        run.world = World::default();
        for call in case(seed) {
            let image = match call.view {
                View::Station => "image",
                View::Sized(_) | View::Edited(_) => "damaged",
            };
            run.call(image, &call);
        }
        run.read_on(&mut Random::new(seed));
    }
    run.tallies
}

/// An implementation, the station that it is asked on, and what was seen.
struct Run<'a> {
    calls: &'a dyn Calls,
    world: World,
    tallies: Tallies,
}

impl Run<'_> {
    fn call(&mut self, image: &'static str, call: &Call) {
        let outcome = self.world.perform(self.calls, call);
        let kind = (name(&call.action), image);
        let tally = self.tallies.entry(kind).or_insert(Tally::NONE);
        match image {
            "image" => tally.note(&as_before(&call.action, outcome.clone())),
            _ => tally.note(&outcome),
        }
        self.world.follow(call, &outcome);
    }

    /// The calls after a list, on the image that it left behind and in its stead.
    fn read_on(&mut self, random: &mut Random) {
        let known = Known::read(&self.world.image);
        for place in 0..=known.messages.len() as u32 {
            for action in [Action::LogMessage(place), Action::Setpoint(place)] {
                let view = View::Station;
                self.call("image", &Call { view, action });
            }
        }
        self.readings(&known, "image");
        for edits in some_damage(random, &known) {
            self.world.image = known.damaged(&edits);
            self.readings(&known, "damaged");
        }
        for _ in 0..3 {
            self.world.image = hostile(random);
            self.readings(&known, "hostile");
        }
    }

    fn readings(&mut self, known: &Known, image: &'static str) {
        for action in known.readings() {
            let view = View::Station;
            self.call(image, &Call { view, action });
        }
    }
}

/// What change request 4 moved the messages by.
const MOVED: usize = 272;

/// The outcome of a call on an image, as it was when the header had 16 bytes and there were no
/// base values: header bytes 4 to 15 are those of then, values and messages follow, and the
/// offset that log message gives is counted so.
fn as_before(action: &Action, mut outcome: Outcome) -> Outcome {
    let image = outcome.image;
    let mut before = image[..4].to_vec();
    for (at, less) in [(4, 16), (6, MOVED), (8, MOVED)] {
        before.extend((u16_at(&image, at) as u16 - less as u16).to_be_bytes());
    }
    before.resize(16, 0);
    before.extend(&image[32..288]);
    before.extend(&image[MESSAGES..]);
    before.resize(IMAGE, 0);
    outcome.image = before;
    if matches!(action, Action::LogMessage(_)) && code(outcome.answer) == 0 {
        outcome.answer = outcome.answer.wrapping_sub(packed(0, MOVED as u32));
    }
    outcome
}

/// Wrong numbers: those of the header, those that fit each other, and some of all.
fn some_damage(random: &mut Random, known: &Known) -> Vec<Edits> {
    let mut damage = known.wrong_numbers();
    random.shuffle(&mut damage);
    damage.truncate(5);
    damage.extend(known.fitting_numbers());
    damage.extend(wrong_header());
    damage
}

/// The calls that read an image by their names, and the rest by one.
fn name(action: &Action) -> &'static str {
    match action {
        Action::Deliver { .. } | Action::DeliverComposed { .. } => "deliver",
        Action::Compose(_) => "compose",
        Action::Setpoint(_) => "setpoint",
        Action::LogMessage(_) => "log message",
        Action::Empty | Action::Begin(_) | Action::Purge(_) => "other",
        Action::ReadSequences { .. } | Action::WriteSequences { .. } => "other",
    }
}

/// Bytes that no station wrote: any, or a header, and messages whose lengths lead on.
fn hostile(random: &mut Random) -> Vec<u8> {
    let mask = random.pick(&[0x00, 0x01, 0x3F, 0xFF]);
    if random.chance(33) {
        return noise(random, mask, IMAGE);
    }
    let odd = random.pick(&[0, 0, 4, 50]);
    let count = random.within(1, 65);
    let log = random.below(count + 1);
    let messages: Vec<u8> = (0..count)
        .flat_map(|_| hostile_message(random, mask, odd))
        .collect();
    let end = MESSAGES + messages.len();
    let used = random.pick(&[end, end, end + 1, end - 1, MESSAGES, 65_535]);
    let numbers = [log, count - log, 32, MESSAGES, used, 0, MESSAGES, 288];
    let mut header = numbers.map(|number| (number as u16).to_be_bytes()).concat();
    header.resize(32, 0);
    let values = noise(random, mask, MESSAGES - header.len());
    let rest = noise(random, mask, IMAGE - end);
    [header, values, messages, rest].concat()
}

/// A right message; so many of a hundred are any bytes with its length, or have a wrong one.
fn hostile_message(random: &mut Random, mask: u8, odd: usize) -> Vec<u8> {
    let mut message = any_draft(random).bytes();
    let mut length = message.len() as u16;
    if random.chance(odd) {
        message = noise(random, mask, message.len());
    }
    if random.chance(odd / 4) {
        length = random.pick(&[0, 47, 49, 201, 65_535]);
    }
    message[4..6].copy_from_slice(&length.to_be_bytes());
    message
}

/// Any bytes, of which only some bits are there.
fn noise(random: &mut Random, mask: u8, size: usize) -> Vec<u8> {
    (0..size).map(|_| random.byte() & mask).collect()
}
