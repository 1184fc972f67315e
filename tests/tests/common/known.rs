//! Images whose messages are known from what was delivered, and the numbers of them that a
//! walk over the messages goes by, made wrong.

use bivamolune_tests::call::{Action, Composing};
use bivamolune_tests::edit::Edit;
use bivamolune_tests::generate::{any_draft, drafts};
use bivamolune_tests::random::Random;
use bivamolune_tests::reference::plain::PlainStation;
use bivamolune_tests::view::{all_messages, u16_at};
use bivamolune_tests::wire::{line, sequence, set, Draft, Sequence};

use super::common::{Station, STEPS};

/// Where the messages of an image with no floor begin.
pub const MESSAGES: usize = 544;

/// Dependencies and commands of the deltas of a set, in turn.
type Sizes = &'static [(usize, usize)];
/// 48 bytes, 200 bytes, and lengths between.
const LEAST: Sizes = &[(0, 1)];
const GREATEST: Sizes = &[(8, 8)];
const MIXED: Sizes = &[(0, 1), (8, 8), (1, 1), (0, 8), (3, 2), (8, 1), (5, 7)];

/// What is changed in one copy of an image.
pub type Edits = Vec<Edit>;

/// An image and its messages.
pub struct Known {
    pub image: Vec<u8>,
    /// The log's messages in order, then the held ones by ascending sequence.
    pub messages: Vec<Vec<u8>>,
    /// How many of them are the log's.
    pub log: usize,
}

impl Known {
    /// Delivers a set. The messages are those of the deltas, put in order apart from the
    /// image.
    pub fn delivered(set: &[Draft]) -> Known {
        let mut plain = PlainStation::default();
        for draft in set {
            assert_eq!(plain.deliver(&draft.bytes(), STEPS), Ok(()));
        }
        let log = plain.log();
        let place = |own: Sequence| log.iter().position(|sequence| *sequence == own);
        let mut ordered = set.to_vec();
        ordered.sort_by_key(|draft| {
            let own = draft.sequence();
            (place(own).unwrap_or(log.len()), own)
        });
        Known {
            image: Station::with(set).image,
            messages: ordered.iter().map(Draft::bytes).collect(),
            log: log.len(),
        }
    }

    /// A right image, with the messages that are read from it.
    pub fn read(image: &[u8]) -> Known {
        Known {
            image: image.to_vec(),
            messages: all_messages(image),
            log: u16_at(image, 0),
        }
    }

    /// What the running offset is at a place: that of the first message and the lengths of
    /// all before the place. Past the last message it is where the messages end.
    pub fn offset(&self, place: usize) -> usize {
        let before = &self.messages[..place];
        MESSAGES + before.iter().map(Vec::len).sum::<usize>()
    }

    /// Edits that leave no image, of the numbers that a walk goes by: those of the header, the
    /// lengths of the messages, and both.
    pub fn wrong_numbers(&self) -> Vec<Edits> {
        let mut all = wrong_header();
        for place in 0..self.messages.len() {
            let lengths = self.wrong_lengths(place);
            all.extend(lengths.into_iter().map(|edit| vec![edit]));
        }
        all.extend(self.exchanged_lengths());
        all.extend(self.fitting_numbers());
        all
    }

    /// The length of a message one more, one less, twice, 0, the greatest number, and the
    /// length of the message before and after.
    fn wrong_lengths(&self, place: usize) -> Vec<Edit> {
        let own = self.messages[place].len();
        let mut others = vec![own + 1, own - 1, 2 * own, 0, 65_535];
        let beside = [place.wrapping_sub(1), place + 1];
        let beside = beside.into_iter().filter_map(|at| self.messages.get(at));
        others.extend(beside.map(Vec::len).filter(|length| *length != own));
        let at = self.offset(place) + 4;
        let made = |other| number_made(at, own, other);
        others.into_iter().map(made).collect()
    }

    /// The lengths of two messages side by side exchanged, so that the walk ends as it did.
    fn exchanged_lengths(&self) -> Vec<Edits> {
        let mut all = Vec::new();
        for (place, two) in self.messages.windows(2).enumerate() {
            let (one, other) = (two[0].len(), two[1].len());
            if one != other {
                let first = number_made(self.offset(place) + 4, one, other);
                let second = number_made(self.offset(place + 1) + 4, other, one);
                all.push(vec![first, second]);
            }
        }
        all
    }

    /// The last message left out, or with a command more or less, and all numbers made to
    /// fit: the walk ends at the bytes used, and only the bytes themselves are wrong.
    pub fn fitting_numbers(&self) -> Vec<Edits> {
        let last = match self.messages.len() {
            0 => return Vec::new(),
            count => count - 1,
        };
        let (at, own) = (self.offset(last), self.messages[last].len() as u16);
        let count = if last < self.log { 0 } else { 2 };
        let less = u16::wrapping_neg;
        vec![
            vec![Edit::Header(count, less(1)), Edit::Header(8, less(own))],
            longer(at, 1, 8),
            longer(at, less(1), less(8)),
        ]
    }

    /// A copy of the image with some edits.
    pub fn damaged(&self, edits: &[Edit]) -> Vec<u8> {
        let mut image = self.image.clone();
        edits.iter().for_each(|edit| edit.apply(&mut image));
        image
    }

    /// Calls that read the image. Some of them are right, and the others would be refused by
    /// a number above 2.
    pub fn readings(&self) -> Vec<Action> {
        let new = Draft::new(line(2), 1).bytes();
        let present = self.messages.last().unwrap_or(&new).clone();
        let last = self.messages.len().saturating_sub(1) as u32;
        let mut actions = Vec::new();
        for message in [new, present, Vec::new()] {
            let steps = STEPS;
            actions.push(Action::Deliver { message, steps });
        }
        for commands in [&set(0, 1)[..], &[]] {
            actions.push(Action::Compose(Composing::plain(&line(2), commands)));
        }
        actions.extend([0, 64].map(Action::Setpoint));
        actions.extend([0, last, u32::MAX].map(Action::LogMessage));
        actions
    }
}

/// Both counts, the offset of messages and the bytes used one more and one less, and the
/// offset where the header ends or a second message may begin.
pub fn wrong_header() -> Vec<Edits> {
    let mut edits = vec![number_made(6, MESSAGES, 32), number_made(6, MESSAGES, 592)];
    for at in [0, 2, 6, 8] {
        edits.extend([1, 0xFFFF].map(|add| Edit::Header(at, add)));
    }
    edits.into_iter().map(|edit| vec![edit]).collect()
}

/// The edit that makes a number of two bytes another.
fn number_made(at: usize, old: usize, new: usize) -> Edit {
    Edit::Header(at, (new as u16).wrapping_sub(old as u16))
}

/// So many commands and bytes more for the last message, which begins at an offset. Bytes
/// 2 and 3 of a message are its counts, that of commands the lower one.
fn longer(at: usize, commands: u16, bytes: u16) -> Edits {
    vec![
        Edit::Header(at + 2, commands),
        Edit::Header(at + 4, bytes),
        Edit::Header(8, bytes),
    ]
}

/// A set in which some places are held. A delta of the log names those before it, as far as
/// there are any; a held one waits for its predecessor, and names what never comes.
fn shaped(count: usize, held: fn(usize) -> bool, sizes: Sizes) -> Vec<Draft> {
    let never: Vec<Sequence> = (0xE0..0xE8).map(|last| sequence(line(last), 1)).collect();
    let (mut log, mut drafts) = (Vec::new(), Vec::new());
    for place in 0..count {
        let (named, commands) = sizes[place % sizes.len()];
        let (number, known) = if held(place) { (2, &never) } else { (1, &log) };
        let named = &known[known.len().saturating_sub(named)..];
        let draft = Draft::new(line(0x10 + place as u8), number).naming(named);
        let draft = draft.commands(&vec![set(place as u8, 7); commands]);
        if !held(place) {
            log.push(draft.sequence());
        }
        drafts.push(draft);
    }
    drafts
}

/// Sets of no, one and 64 deltas, in the log, held and both, of the least, the greatest and
/// mixed lengths, each in an order of arrival of its own.
pub fn shapes() -> Vec<Vec<Draft>> {
    let held: [fn(usize) -> bool; 3] = [|_| false, |_| true, |place| place % 2 == 1];
    let mut shapes = vec![Vec::new()];
    for count in [1, 64] {
        for held in held {
            for sizes in [LEAST, GREATEST, MIXED] {
                let mut set = shaped(count, held, sizes);
                Random::new(shapes.len() as u64).shuffle(&mut set);
                shapes.push(set);
            }
        }
    }
    shapes
}

/// The set of a seed: hard to order, with any right deltas among them.
pub fn generated(seed: u64) -> Vec<Draft> {
    let mut random = Random::new(13_000_000 + seed);
    let count = random.pick(&[1, 2, 7, 30, 63, 64]);
    let mut set = drafts(&mut random, count);
    while set.len() < 64 && random.chance(80) {
        let other = any_draft(&mut random);
        if set.iter().all(|draft| draft.sequence() != other.sequence()) {
            set.push(other);
        }
    }
    random.shuffle(&mut set);
    set
}
