//! Any right delta: every field from its whole range, the ends of it more often.

use super::sets::{settle, LIMIT, LINES};
use crate::random::Random;
use crate::wire::{command, sequence, Command, Draft, Line, Sequence};

/// A delta that passes 3 to 6.
pub fn any_draft(random: &mut Random) -> Draft {
    let mut draft = Draft::new(any_line(random), any_number(random)).group(any_field(random, 0));
    if random.chance(50) {
        let block = any_field(random, 1);
        draft = draft.priority(block, any_field(random, 0));
    }
    let named = random.pick(&[0, 0, 1, 2, 8]);
    draft.dependencies = (0..named).map(|_| any_sequence(random)).collect();
    settle(&mut draft);
    let commands = random.pick(&[1, 1, 2, 7, 8]);
    draft.commands = (0..commands).map(|_| any_command(random)).collect();
    draft
}

/// Ten bytes, most often those of a line that others have too.
fn any_line(random: &mut Random) -> Line {
    match random.chance(70) {
        true => random.pick(&LINES),
        false => line_of_any_bytes(random),
    }
}

pub fn line_of_any_bytes(random: &mut Random) -> Line {
    let mut line = [0; 10];
    line.iter_mut().for_each(|byte| *byte = random.byte());
    line
}

/// A number from 0001 to FFFF.
fn any_number(random: &mut Random) -> u16 {
    match random.below(4) {
        0 => random.pick(&[1, 2, 0x00FF, 0x0100, 0x7FFF, 0x8000, 0xFFFF]),
        1 => random.within(1, 0xFFFF) as u16,
        _ => random.within(1, 4) as u16,
    }
}

pub fn any_sequence(random: &mut Random) -> Sequence {
    sequence(any_line(random), any_number(random))
}

/// A number from `first` to the limit.
fn any_field(random: &mut Random, first: u32) -> u32 {
    match random.below(4) {
        0 => random.pick(&[first, LIMIT]),
        1 => random.within(first as usize, LIMIT as usize) as u32,
        _ => first + random.below(4) as u32,
    }
}

pub fn any_command(random: &mut Random) -> Command {
    let operation = random.within(1, 3) as u8;
    let any_tag = random.within(0, 63) as u8;
    let tag = random.pick(&[0, 63, any_tag]);
    let value = match random.below(3) {
        0 => random.pick(&[-1_000_000, 1_000_000, 0, -1]),
        _ => random.within(0, 2_000_000) as i32 - 1_000_000,
    };
    command(operation, tag, value)
}
