//! Lists of calls with purges in them: of no message, of one, of some, of all and of more, where
//! they leave 31, 32 or 33 floors, where numbers end, beside held deltas and on wrong copies of the
//! image. What was purged arrives again, under its own bytes and under others, and stations compose
//! on what is left.

use super::floors::{image_with, near, Start};
use super::right::any_command;
use super::sets::{settle, styled_drafts, Style, LIMIT};
use super::{arrange, call, compose, deliver, disturb, edit, SIZES, STEPS};
use crate::boundary::{code, Reference};
use crate::call::{Action, Call, View, World};
use crate::edit::Edit;
use crate::random::Random;
use crate::reference::image::MOST_FLOORS;
use crate::reference::purged::Purged;
use crate::view::{floors, log, messages, sequence_of, u16_at};
use crate::wire::{sequence, Draft, Line};

/// Of each eight seeds one has purges, from here on. The seeds below give what they always gave:
/// digests of an earlier library hang on them (`tests/offsets.rs`).
const FIRST: u64 = 200;

/// Whether the list of a seed has purges.
pub fn is_with_purges(seed: u64) -> bool {
    seed >= FIRST && seed % 8 == 2
}

/// The list of a seed.
pub fn case(seed: u64) -> Vec<Call> {
    let mut random = Random::new(seed);
    let style = Style::new(&mut random);
    let (begin, arrivals) = beginning(&mut random, &style);
    let mut list = List::new(begin);
    let (often, noise) = (random.pick(&[0, 3, 10, 30]), random.pick(&[0, 5, 15]));
    for draft in &arrivals {
        list.push(call(deliver(draft.bytes())));
        if random.chance(often) {
            list.purge(&mut random, &style);
        }
        if random.chance(noise) {
            list.disturb(&mut random, &style, draft);
        }
    }
    for _ in 0..random.within(2, 6) {
        list.purge(&mut random, &style);
        let draft = &arrivals[random.below(arrivals.len())];
        list.disturb(&mut random, &style, draft);
    }
    list.calls
}

/// How a list begins, and what arrives: from no deltas, from an image with floors, with as many
/// lines as leave about 32 floors, a full log, or near the last number.
fn beginning(random: &mut Random, style: &Style) -> (Call, Vec<Draft>) {
    let (image, mut arrivals) = match random.below(11) {
        0..=4 => {
            let count = random.pick(&[1, 3, 6, 12, 24, 64, 70]);
            let arrivals = styled_drafts(random, style, count);
            (None, arrivals)
        }
        5 | 6 => {
            let start = Start::new(random, style);
            let image = image_with(&start.present, &start.purged);
            (Some(image), start.drafts)
        }
        7 | 8 => many_lines(random),
        9 => (None, full_log(random)),
        _ => last_numbers(random),
    };
    arrange(random, &mut arrivals);
    let begin = image.map_or(Action::Empty, Action::Begin);
    (call(begin), arrivals)
}

/// Lines of which 31 to 34 have a floor or get one once all is purged.
fn many_lines(random: &mut Random) -> (Option<Vec<u8>>, Vec<Draft>) {
    let all = random.within(MOST_FLOORS - 1, MOST_FLOORS + 2) as u8;
    let mut lines: Vec<Line> = (0..all).map(|l| [0, 0, 0, 0, 2, l, 0, 0, 0, 1]).collect();
    random.shuffle(&mut lines);
    let count = random.pick(&[0, 16, 29, 30, 31, 32]).min(lines.len());
    let mut purged = Purged::nothing();
    for line in &lines[..count] {
        purged.floors.insert(*line, random.pick(&[1, 2, 0xFF]));
    }
    let mut arrivals = Vec::new();
    for (place, line) in lines.iter().enumerate() {
        if place >= count || random.chance(20) {
            arrivals.extend(above(random, *line, purged.floor(line), 1));
        }
    }
    ((count > 0).then(|| image_with(&[], &purged)), arrivals)
}

/// 64 deltas of a few lines that can all be executed, and some more.
fn full_log(random: &mut Random) -> Vec<Draft> {
    let lines = random.pick(&[1, 2, 5, 32]);
    let line = |place: usize| [0, 0, 0, 0, 4, (place % lines) as u8, 0, 0, 0, 1];
    let number = |place: usize| (place / lines) as u16;
    let count = random.within(64, 70);
    let drafts = (0..count).flat_map(|place| above(random, line(place), number(place), 1));
    drafts.collect()
}

/// Two lines up to number FFFF, one of them from a floor just below it, and a third.
fn last_numbers(random: &mut Random) -> (Option<Vec<u8>>, Vec<Draft>) {
    let lines: [Line; 3] = [1, 2, 3].map(|l| [0, 0, 0, 0, 3, l, 0, 0, 0, 1]);
    let mut purged = Purged::nothing();
    for line in &lines[..2] {
        purged.floors.insert(*line, 0xFFFF - random.below(5) as u16);
    }
    purged.block = random.pick(&[0, 1, LIMIT - 1, LIMIT]);
    purged.group = random.pick(&[0, 1, LIMIT - 1, LIMIT]);
    let mut arrivals = Vec::new();
    for line in lines {
        arrivals.extend(above(random, line, purged.floor(&line), 4));
    }
    arrivals.push(Draft::new([9; 10], 2));
    (Some(image_with(&[], &purged)), arrivals)
}

/// Up to so many deltas above a floor, one at least where there is a number.
fn above(random: &mut Random, line: Line, floor: u16, most: u16) -> Vec<Draft> {
    let last = floor.saturating_add(random.within(1, most.into()) as u16);
    let numbers = floor.saturating_add(1)..=last;
    let drafts = numbers.filter(|number| *number > floor).map(|number| {
        let draft = Draft::new(line, number).commands(&[any_command(random)]);
        let field = match random.chance(2) {
            true => LIMIT,
            false => random.within(1, 3) as u32,
        };
        match random.chance(20) {
            true => draft.priority(field, random.pick(&[0, 7])),
            false => draft.group(field),
        }
    });
    drafts.collect()
}

/// A list that grows, the station as the second implementation leaves it, and what was purged.
struct List {
    world: World,
    calls: Vec<Call>,
    gone: Vec<Vec<u8>>,
}

impl List {
    fn new(begin: Call) -> List {
        let mut list = List {
            world: World::default(),
            calls: Vec::new(),
            gone: Vec::new(),
        };
        list.push(begin);
        list
    }

    fn push(&mut self, call: Call) {
        let outcome = self.world.perform(&Reference, &call);
        if let (Action::Purge(k), View::Station, 0) =
            (&call.action, &call.view, code(outcome.answer))
        {
            self.gone
                .extend(messages(&self.world.image, 0, *k as usize));
        }
        self.world.follow(&call, &outcome);
        self.calls.push(call);
    }

    /// A purge, most often with something that comes after it.
    fn purge(&mut self, random: &mut Random, style: &Style) {
        let k = self.count(random);
        self.push(call(Action::Purge(k)));
        for _ in 0..random.below(5) {
            self.after_purge(random, style);
        }
    }

    /// How many to purge: near the ends of the log, and near what leaves 32 floors.
    fn count(&self, random: &mut Random) -> u32 {
        let log = u16_at(&self.world.image, 0) as u32;
        let fitting = fitting(&self.world.image);
        match random.below(14) {
            0 => 0,
            1 | 2 => 1,
            3 | 4 => log,
            5 => log + 1,
            6 => random.pick(&[u32::MAX, 1 << 31, 1 << 16, (1 << 16) + log, 256 + log]),
            7 | 8 => fitting,
            9 | 10 => fitting + 1,
            _ => random.within(0, log as usize) as u32,
        }
    }

    /// What comes after a purge: what was purged, what names it, composes.
    fn after_purge(&mut self, random: &mut Random, style: &Style) {
        let gone = match self.gone.len() {
            0 => return,
            count => self.gone[random.below(count)].clone(),
        };
        match random.below(6) {
            0 => self.push(call(deliver(gone))),
            1 => self.push(call(deliver(otherwise(random, gone)))),
            2 => self.push(call(deliver(naming(random, &gone)))),
            kind => {
                let mut composing = compose(random, style);
                if kind > 3 {
                    composing.line = gone[12..22].to_vec();
                }
                self.push(call(Action::Compose(composing)));
                if random.chance(80) {
                    self.push(call(Action::DeliverComposed { steps: STEPS }));
                }
            }
        }
    }

    /// A purge of a copy that is damaged or of wrong size, or calls as other lists have them.
    fn disturb(&mut self, random: &mut Random, style: &Style, draft: &Draft) {
        let view = match random.below(8) {
            0 => View::Sized(random.pick(&SIZES)),
            1 | 2 => View::Edited(edit(random)),
            3..=5 => View::Edited(edit_of_floors(random)),
            _ => {
                let mut more = Vec::new();
                disturb(random, style, draft, &mut more);
                more.into_iter().for_each(|call| self.push(call));
                return;
            }
        };
        let action = Action::Purge(self.count(random));
        self.push(Call { view, action });
    }
}

/// The most that can be purged with no more than 32 floors.
fn fitting(image: &[u8]) -> u32 {
    let mut lines: Vec<Line> = floors(image).iter().map(line_of).collect();
    let mut count = 0;
    for own in log(image).iter().map(line_of) {
        if !lines.contains(&own) {
            lines.push(own);
        }
        if lines.len() > MOST_FLOORS {
            break;
        }
        count += 1;
    }
    count
}

fn line_of(own: &[u8; 12]) -> Line {
    let mut line = [0; 10];
    line.copy_from_slice(&own[..10]);
    line
}

/// A right message of the same sequence with another group or value.
fn otherwise(random: &mut Random, mut message: Vec<u8>) -> Vec<u8> {
    let last = message.len() - 1;
    message[random.pick(&[27, last])] ^= 1 << random.below(3);
    message
}

/// A delta that names one at or beside a purged one, its own line being another or the same.
fn naming(random: &mut Random, gone: &[u8]) -> Vec<u8> {
    let named = sequence_of(gone);
    let (line, number) = (line_of(&named), u16_at(&named, 10) as u16);
    let mut draft = match random.chance(50) {
        true => Draft::new([8; 10], random.within(1, 2) as u16),
        false => Draft::new(line, near(random, number)),
    };
    draft.commands = vec![any_command(random)];
    draft.dependencies = vec![sequence(line, near(random, number))];
    settle(&mut draft);
    draft.bytes()
}

/// A change of what an earlier purge left, after which the copy may be an image still.
fn edit_of_floors(random: &mut Random) -> Edit {
    let (place, tag) = (random.below(MOST_FLOORS), random.below(64));
    match random.below(7) {
        0 => Edit::Word(
            random.pick(&[16, 20]),
            random.pick(&[1, 7, LIMIT, LIMIT + 1]),
        ),
        1 => Edit::Floor(place, random.below(12), 1 << random.below(8)),
        2 => Edit::DropFloor(place),
        3 | 4 => {
            let line = [7, 0, 0, 0, 0, random.byte(), 0, 0, 0, 1];
            Edit::AddFloor(sequence(line, random.pick(&[0, 1, 0xFFFF])))
        }
        5 => Edit::BaseAndSetpoint(tag, random.pick(&[1_000_000, -1_000_000, 1_000_001])),
        _ => Edit::SwapFloors(place, place + 1),
    }
}
