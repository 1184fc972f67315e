//! Lists of calls at the limits: fields from their whole range, the longest chains and messages,
//! the highest numbers, conflicts in one byte, images with one wrong message.

mod fields;
mod images;
mod shapes;

pub use images::wrong_images;

use super::right::any_command;
use super::wrong::conflicting_byte;
use super::{call, deliver, reading, STEPS};
use crate::call::{Action, Call, Composing, View};
use crate::random::Random;
use crate::wire::Draft;
use fields::field;

/// Of each eight seeds one is at the limits, from here on. The seeds below give what they always
/// gave: digests of an earlier library hang on them (`tests/offsets.rs`).
const FIRST: u64 = 200;

/// Whether the list of a seed is at the limits.
pub fn is_at_limits(seed: u64) -> bool {
    seed >= FIRST && seed % 8 == 0
}

/// The list of a seed: a set is delivered, then come conflicts with it, calls on wrong copies of
/// its image, and a delta of the station's own.
pub fn case(seed: u64) -> Vec<Call> {
    let mut random = Random::new(seed);
    let drafts = shapes::set(&mut random);
    let mut calls = vec![call(Action::Empty)];
    calls.extend(drafts.iter().map(|draft| call(deliver(draft.bytes()))));
    for _ in 0..6 {
        let draft = &drafts[random.below(drafts.len())];
        calls.push(call(deliver(conflicting_byte(&mut random, draft))));
    }
    for (_, edit) in wrong_images(&mut random, &drafts, 6) {
        let action = action(&mut random, &drafts);
        let view = View::Edited(edit);
        calls.push(Call { view, action });
    }
    calls.push(call(Action::Compose(compose(&mut random, &drafts))));
    calls.push(call(Action::DeliverComposed { steps: STEPS }));
    calls
}

/// A call that reads an image.
fn action(random: &mut Random, drafts: &[Draft]) -> Action {
    match random.below(4) {
        0 => deliver(drafts[random.below(drafts.len())].bytes()),
        1 => Action::Compose(compose(random, drafts)),
        _ => reading(random),
    }
}

/// A compose on a line of the set or on another, its priority at a border or any.
fn compose(random: &mut Random, drafts: &[Draft]) -> Composing {
    let line = match random.chance(50) {
        true => drafts[random.below(drafts.len())].line,
        false => fields::line(random),
    };
    let mut composing = Composing::plain(&line, &any_command(random));
    if random.chance(50) {
        composing.priority_flag = 1;
        composing.priority = field(random, 0);
    }
    composing
}
