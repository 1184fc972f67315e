//! Fields from their whole range, and often at a border: where a number takes one byte more, and
//! at its limit.

use crate::generate::right::any_command;
pub use crate::generate::right::line_of_any_bytes as line;
use crate::generate::LIMIT;
use crate::random::Random;
use crate::wire::{Draft, Line};

const BORDERS: [u32; 8] = [
    0xFF,
    0x100,
    0xFFFF,
    0x1_0000,
    0xFF_FFFF,
    0x100_0000,
    LIMIT - 1,
    LIMIT,
];

/// A group, block or priority. One in two is the first, so that others are compared too.
pub fn field(random: &mut Random, first: u32) -> u32 {
    match random.below(4) {
        0 => random.pick(&BORDERS),
        1 => random.within(first as usize, LIMIT as usize) as u32,
        _ => first,
    }
}

/// A delta that names nothing.
pub fn draft(random: &mut Random, line: Line, number: u16) -> Draft {
    let mut draft = Draft::new(line, number).group(field(random, 0));
    if random.chance(60) {
        let block = field(random, 1);
        draft = draft.priority(block, field(random, 0));
    }
    let commands = random.pick(&[1, 2, 3, 8]);
    draft.commands = (0..commands).map(|_| any_command(random)).collect();
    draft
}

/// The first delta of a line of any bytes.
pub fn lone_draft(random: &mut Random) -> Draft {
    let line = line(random);
    draft(random, line, 1)
}
