//! Lists of calls that begin from an image with floors: such as a purge leaves, and others that
//! are images too. Messages at, below and just above the floors arrive, and copies of the image
//! are damaged in what a purge writes.

use super::right::{any_command, line_of_any_bytes};
use super::sets::{settle, styled_drafts, Style, LIMIT, LINES};
use super::wrong::conflicting;
use super::{any_action, arrange, call, compose, deliver, disturb, STEPS};
use crate::call::{Action, Call, Composing, View};
use crate::edit::Edit;
use crate::random::Random;
use crate::reference::image::{self, MOST_FLOORS};
use crate::reference::message::{line, number, Delta};
use crate::reference::order::{order, Set};
use crate::reference::purged::Purged;
use crate::reference::setpoints::run;
use crate::wire::{sequence, Draft, Line, Sequence};

/// Of each eight seeds one begins from an image with floors, from here on. The seeds below give
/// what they always gave: digests of an earlier library hang on them (`tests/offsets.rs`).
const FIRST: u64 = 200;

/// The most deltas of an image.
const MOST: usize = 64;

/// Whether the list of a seed begins from an image with floors.
pub fn is_with_floors(seed: u64) -> bool {
    seed >= FIRST && seed % 8 == 4
}

/// A set of deltas, some of which are in the image that the list begins from, and what was
/// purged before them.
pub struct Start {
    pub drafts: Vec<Draft>,
    pub present: Vec<Draft>,
    pub purged: Purged,
}

/// The list of a seed.
pub fn case(seed: u64) -> Vec<Call> {
    let mut random = Random::new(seed);
    let style = Style::new(&mut random);
    let start = Start::new(&mut random, &style);
    let image = image_with(&start.present, &start.purged);
    let mut calls = vec![call(Action::Begin(image))];
    let mut arrivals = start.drafts.clone();
    arrange(&mut random, &mut arrivals);
    let noise = random.pick(&[5, 15, 40]);
    for draft in &arrivals {
        while random.chance(noise) {
            start.disturb(&mut random, &style, &mut calls);
        }
        calls.push(call(deliver(draft.bytes())));
    }
    for _ in 0..random.within(4, 12) {
        start.disturb(&mut random, &style, &mut calls);
    }
    calls
}

/// An image with floors, one in four of them damaged.
pub fn any_image(random: &mut Random) -> Vec<u8> {
    let style = Style::new(random);
    let start = Start::new(random, &style);
    let mut image = image_with(&start.present, &start.purged);
    if random.chance(25) {
        start.edit(random).apply(&mut image);
    }
    image
}

/// The image of these deltas behind a purged part, which has none of them.
pub fn image_with(drafts: &[Draft], purged: &Purged) -> Vec<u8> {
    let messages: Vec<Vec<u8>> = drafts.iter().map(Draft::bytes).collect();
    image::write(&order(&set_of(&messages), purged))
}

/// The right messages as a set; of two with one sequence the later is taken.
fn set_of(messages: &[Vec<u8>]) -> Set<'_> {
    let deltas = messages.iter().filter_map(|bytes| Delta::check(bytes).ok());
    deltas.map(|delta| (delta.sequence(), delta)).collect()
}

impl Start {
    pub fn new(random: &mut Random, style: &Style) -> Start {
        let count = random.pick(&[1, 2, 3, 5, 8, 8, 20, 63, MOST]);
        let drafts = styled_drafts(random, style, count);
        let purged = match random.below(5) {
            0 | 1 => cut(random, &drafts),
            _ => made(random, &drafts),
        };
        let share = random.pick(&[0, 50, 50, 100, 100]);
        let stays = |draft: &&Draft| !purged.has(&draft.sequence());
        let above: Vec<&Draft> = drafts.iter().filter(stays).collect();
        let present = above.into_iter().filter(|_| random.chance(share)).cloned();
        let mut present: Vec<Draft> = present.collect();
        if random.chance(10) {
            let fillers = fillers().take(MOST - present.len());
            present.extend(fillers);
        }
        Start {
            drafts,
            present,
            purged,
        }
    }

    /// One of the deltas.
    fn any(&self, random: &mut Random) -> &Draft {
        &self.drafts[random.below(self.drafts.len())]
    }

    /// A floor, or a line without one.
    fn any_floor(&self, random: &mut Random) -> (Line, u16) {
        let floors: Vec<(Line, u16)> = self.purged.floors.clone().into_iter().collect();
        match floors.len() {
            0 => (random.pick(&LINES), 0),
            count => floors[random.below(count)],
        }
    }

    /// Calls beside the plain deliveries.
    fn disturb(&self, random: &mut Random, style: &Style, calls: &mut Vec<Call>) {
        let draft = self.any(random).clone();
        match random.below(10) {
            0 => disturb(random, style, &draft, calls),
            1 | 2 => calls.push(call(deliver(self.near_a_floor(random)))),
            3 => calls.push(call(deliver(conflicting(random, &draft)))),
            4 | 5 => {
                calls.push(call(Action::Compose(self.compose(random, style))));
                if random.chance(30) {
                    calls.push(call(Action::DeliverComposed { steps: STEPS }));
                }
            }
            6 if random.chance(6) => self.fill(random, calls),
            _ => {
                let view = View::Edited(self.edit(random));
                let action = match random.chance(50) {
                    true => any_action(random, style, &draft),
                    false => Action::Setpoint(random.below(64) as u32),
                };
                calls.push(Call { view, action });
            }
        }
    }

    /// A message just below, at or just above a floor, which names what is at or near another.
    fn near_a_floor(&self, random: &mut Random) -> Vec<u8> {
        let (own, floor) = self.any_floor(random);
        let number = near(random, floor);
        let mut draft = Draft::new(own, number).commands(&[any_command(random)]);
        if random.chance(50) {
            let (line, floor) = self.any_floor(random);
            let named = sequence(line, near(random, floor));
            draft.dependencies.push(named);
            settle(&mut draft);
        }
        draft.bytes()
    }

    /// A compose on a line that has a floor, or as others are.
    fn compose(&self, random: &mut Random, style: &Style) -> Composing {
        let mut composing = compose(random, style);
        if random.chance(60) {
            composing.line = self.any_floor(random).0.to_vec();
        }
        composing
    }

    /// Fills the station up, and delivers what is at or below a floor.
    fn fill(&self, random: &mut Random, calls: &mut Vec<Call>) {
        calls.extend(fillers().map(|draft| call(deliver(draft.bytes()))));
        for _ in 0..4 {
            calls.push(call(deliver(self.near_a_floor(random))));
        }
    }

    /// Damage of what a purge writes. Where there is no floor, most often of what is zero then;
    /// where there is no room for another, often by one more.
    fn edit(&self, random: &mut Random) -> Edit {
        let place = random.below(MOST_FLOORS);
        let tag = random.below(64);
        let kind = match self.purged.floors.len() {
            0 if random.chance(60) => random.within(11, 14),
            MOST_FLOORS if random.chance(25) => 9,
            _ => random.below(17),
        };
        match kind {
            0 | 1 => Edit::Byte(random.within(10, 31), random.byte()),
            2 => Edit::Bit(8 * 10 + random.below(8 * 22)),
            3 => Edit::Header(
                2 * random.within(3, 15),
                random.pick(&[1, 0xFFFF, 0x100, 12]),
            ),
            4 | 5 => Edit::Floor(place, random.below(12), 1 << random.below(8)),
            6 => Edit::SwapFloors(place, place + 1),
            7 => Edit::DoubleFloor(place),
            8 => Edit::DropFloor(place),
            9 | 10 => Edit::AddFloor(self.another_floor(random)),
            11 | 12 => {
                let values = [1, 1_000_000, -1_000_000, 1_000_001, -1_000_001, i32::MIN];
                Edit::BaseAndSetpoint(tag, random.pick(&values))
            }
            13 | 14 => {
                let words = [0, 1, LIMIT, LIMIT + 1, u32::MAX];
                Edit::Word(random.pick(&[16, 20]), random.pick(&words))
            }
            15 => Edit::Base(tag, random.pick(&[1, -1, 0x0100_0000])),
            _ => super::edit(random),
        }
    }

    /// A floor of number 0, of any line, or at or near the number of a delta.
    fn another_floor(&self, random: &mut Random) -> Sequence {
        let own = self.any(random);
        match random.below(4) {
            0 => sequence(line_of_any_bytes(random), random.pick(&[0, 0, 1, 0xFFFF])),
            1 => {
                let (line, floor) = self.any_floor(random);
                sequence(line, near(random, floor))
            }
            _ => sequence(own.line, near(random, own.number)),
        }
    }
}

/// 64 deltas of lines of their own, which are held.
fn fillers() -> impl Iterator<Item = Draft> {
    (0..MOST as u8).map(|last| Draft::new([0xEE, 0, 0, 0, 0, last, 0, 0, 0, 1], 2))
}

/// A number at or beside this one, or at an end.
pub fn near(random: &mut Random, number: u16) -> u16 {
    let ends = [1, 0xFFFF];
    match random.below(8) {
        0 | 1 => number.saturating_sub(1).max(1),
        2..=4 => number.max(1),
        5 | 6 => number.saturating_add(1),
        _ => random.pick(&ends),
    }
}

/// What a purge leaves: the first deltas of the log of a set, as many as leave no more floors
/// than an image has.
fn cut(random: &mut Random, drafts: &[Draft]) -> Purged {
    let messages: Vec<Vec<u8>> = drafts.iter().map(Draft::bytes).collect();
    let mut purged = Purged::nothing();
    let log = order(&set_of(&messages), &purged).log;
    let most = random.below(log.len() + 1);
    for placed in &log[..most] {
        let own = placed.delta.sequence();
        let more = usize::from(!purged.floors.contains_key(&line(&own)));
        if purged.floors.len() + more > MOST_FLOORS {
            break;
        }
        purged.floors.insert(line(&own), number(&own));
        purged.base = run(placed.delta.commands(), purged.base).0;
        purged.block = purged.block.max(placed.effective_block);
        purged.group = purged.group.max(placed.delta.group());
    }
    purged
}

/// What no purge need have left: any floors, any values, block and group within their limits.
fn made(random: &mut Random, drafts: &[Draft]) -> Purged {
    let mut purged = Purged::nothing();
    let wanted = random.pick(&[0, 1, 1, 2, 4, 8, MOST_FLOORS - 1, MOST_FLOORS]);
    let own = random.pick(&[0, 1, 2, 6]);
    for _ in 0..own.min(wanted) {
        let draft = &drafts[random.below(drafts.len())];
        purged.floors.insert(draft.line, near(random, draft.number));
    }
    while purged.floors.len() < wanted {
        let line = match random.chance(30) {
            true => random.pick(&LINES),
            false => line_of_any_bytes(random),
        };
        let number = random.pick(&[1, 1, 2, 3, 0x00FF, 0x0100, 0xFFFE, 0xFFFF]);
        purged.floors.entry(line).or_insert(number);
    }
    if wanted > 0 {
        purged.block = any_limit(random);
        purged.group = any_limit(random);
        for _ in 0..random.pick(&[0, 1, 8, 64]) {
            let values = [-1_000_000, 1_000_000, 999_990, -999_990, 1, -1];
            purged.base[random.below(64)] = random.pick(&values);
        }
    }
    purged
}

/// A purged block or group: often 0 or near its limit.
fn any_limit(random: &mut Random) -> u32 {
    random.pick(&[0, 0, 1, 2, 3, 0x100, 0x1_0000, LIMIT - 1, LIMIT])
}
