//! Wrong messages: damaged ones, nearly right ones whose code is known, and conflicts.

use super::sets::{settle, LIMIT, LINES};
use crate::random::Random;
use crate::reference::message::Delta;
use crate::wire::{sequence, Draft, Sequence};

/// A message with something wrong, most often in one place.
pub fn damaged_message(random: &mut Random, draft: &Draft) -> Vec<u8> {
    match random.below(4) {
        0 => damaged_bytes(random, draft.bytes()),
        1 => {
            let spoiled = spoiled(random, draft.clone()).bytes();
            damaged_bytes(random, spoiled)
        }
        _ => spoiled(random, draft.clone()).bytes(),
    }
}

/// Bytes changed without regard to what they mean.
fn damaged_bytes(random: &mut Random, mut bytes: Vec<u8>) -> Vec<u8> {
    let length = bytes.len();
    match random.below(8) {
        0 => bytes[random.below(length.min(40))] ^= 1 << random.below(8),
        1 => bytes[random.below(length.min(40))] = random.byte(),
        2 => bytes[random.below(length)] ^= 1 << random.below(8),
        3 => bytes.truncate(random.below(length)),
        4 => bytes.resize(length + random.pick(&[1, 4, 8, 12, 152]), 0),
        5 => bytes[4 + random.below(2)] = random.byte(),
        6 => bytes = (0..random.below(260)).map(|_| random.byte()).collect(),
        _ => {
            let at = random.pick(&[2, 3, 7, 9, 5]);
            bytes[at] = bytes[at].wrapping_add(random.pick(&[1, 255, 8, 12]));
        }
    }
    bytes
}

/// A draft with a field out of its range, one to three times.
fn spoiled(random: &mut Random, mut draft: Draft) -> Draft {
    for _ in 0..random.pick(&[1, 1, 1, 2, 3]) {
        match random.below(4) {
            0 | 3 => spoil_dependencies(random, &mut draft),
            1 => spoil_commands(random, &mut draft),
            _ => spoil_fields(random, &mut draft),
        }
    }
    draft
}

fn spoil_dependencies(random: &mut Random, draft: &mut Draft) {
    let own = draft.sequence();
    let named = &mut draft.dependencies;
    match random.below(8) {
        0 | 7 => named.push(own),
        1 => named.push(sequence(draft.line, draft.number.wrapping_sub(1))),
        2 => named.push(sequence(random.pick(&LINES), 0)),
        3 => named.extend(named.first().copied()),
        4 => named.reverse(),
        5 => named.extend(LINES.iter().take(9).map(|line| sequence(*line, 7))),
        _ => named.push(sequence(random.pick(&LINES), 1)),
    }
    if random.chance(70) {
        named.sort_unstable();
    }
}

fn spoil_commands(random: &mut Random, draft: &mut Draft) {
    match random.below(6) {
        0 => draft.commands.clear(),
        1 => draft.commands.resize(9, [1, 0, 0, 0, 0, 0, 0, 0]),
        _ => spoil_command(random, draft),
    }
}

/// A wrong operation, tag, zero or value in one command, if there is one.
fn spoil_command(random: &mut Random, draft: &mut Draft) {
    let place = random.below(draft.commands.len());
    if let Some(command) = draft.commands.get_mut(place) {
        match random.below(4) {
            0 => command[0] = random.pick(&[0, 4, 255]),
            1 => command[1] = random.pick(&[64, 128, 255]),
            2 => command[2 + random.below(2)] = random.pick(&[1, 128]),
            _ => {
                let value = random.pick(&[1_000_001_i32, -1_000_001, i32::MAX, i32::MIN]);
                command[4..].copy_from_slice(&value.to_be_bytes());
            }
        }
    }
}

fn spoil_fields(random: &mut Random, draft: &mut Draft) {
    match random.below(6) {
        0 => draft.number = 0,
        1 => draft.group = random.pick(&[LIMIT + 1, u32::MAX]),
        2 => draft.explicit = Some((0, 5)),
        3 => draft.explicit = Some((random.pick(&[LIMIT + 1, u32::MAX]), 0)),
        4 => draft.explicit = Some((1, random.pick(&[LIMIT + 1, u32::MAX]))),
        _ => draft.group = LIMIT,
    }
}

/// A right message with one thing made wrong, and the code that this is, 3 to 6.
pub fn nearly_right(random: &mut Random, draft: &Draft) -> (u32, Vec<u8>) {
    let code = random.within(3, 6) as u32;
    let draft = draft.clone();
    let message = match code {
        3 => wrong_layout(random, &draft),
        4 => number_zero(random, draft),
        5 => wrong_dependencies(random, draft),
        _ => out_of_range(random, draft),
    };
    (code, message)
}

/// Code 3: one byte of counts, length, offsets or zeros, or a count or size of its own.
fn wrong_layout(random: &mut Random, draft: &Draft) -> Vec<u8> {
    let mut wrong = draft.clone();
    match random.below(4) {
        0 => wrong.dependencies = LINES[..9].iter().map(|line| sequence(*line, 7)).collect(),
        1 => wrong.commands.clear(),
        2 => wrong.commands.resize(9, [1, 0, 0, 0, 0, 0, 0, 0]),
        _ => {}
    }
    let mut bytes = wrong.bytes();
    if wrong == *draft {
        let at = random.pick(&[0, 1, 2, 3, 4, 5, 6, 7, 8, 9, 10, 11, 36, 37, 38, 39]);
        match random.below(4) {
            0 => bytes.truncate(bytes.len() - 1),
            1 => bytes.push(0),
            _ => bytes[at] = bytes[at].wrapping_add(random.pick(&[2, 128, 254])),
        }
    }
    bytes
}

/// Code 4: its own number, or that of one dependency, is 0000.
fn number_zero(random: &mut Random, mut draft: Draft) -> Vec<u8> {
    if random.chance(50) {
        draft.number = 0;
        settle(&mut draft);
    } else {
        draft.dependencies.truncate(7);
        let zero = sequence(random.pick(&LINES), 0);
        draft.dependencies.push(zero);
        draft.dependencies.sort_unstable();
    }
    draft.bytes()
}

/// Code 5: its own sequence, its predecessor, one named twice, or two exchanged.
fn wrong_dependencies(random: &mut Random, mut draft: Draft) -> Vec<u8> {
    draft.dependencies.truncate(7);
    let own = draft.sequence();
    let first = draft.dependencies.first().copied();
    let two = draft.dependencies.len() >= 2;
    match (random.below(4), first) {
        (0, Some(first)) => draft.dependencies.push(first),
        (1, Some(_)) if two => {
            let place = random.below(draft.dependencies.len() - 1);
            draft.dependencies.swap(place, place + 1);
            return draft.bytes();
        }
        (2, _) if draft.number > 1 => {
            let before = sequence(draft.line, draft.number - 1);
            draft.dependencies.push(before);
        }
        _ => draft.dependencies.push(own),
    }
    draft.dependencies.sort_unstable();
    draft.bytes()
}

/// Code 6: a field or a command out of its range, or a field without the flag.
fn out_of_range(random: &mut Random, mut draft: Draft) -> Vec<u8> {
    let above = random.pick(&[LIMIT + 1, u32::MAX]);
    let without_flag = random.pick(&[28, 31, 32, 35]);
    match random.below(6) {
        0 => draft.group = above,
        1 => draft.explicit = Some((0, random.pick(&[0, 5]))),
        2 => draft.explicit = Some((above, 0)),
        3 => draft.explicit = Some((1, above)),
        4 => {
            draft.explicit = None;
            let mut bytes = draft.bytes();
            bytes[without_flag] = 1;
            return bytes;
        }
        _ => spoil_command(random, &mut draft),
    }
    draft.bytes()
}

/// A right message of the same sequence with other bytes.
pub fn conflicting(random: &mut Random, draft: &Draft) -> Vec<u8> {
    let mut other = draft.clone();
    match random.below(4) {
        0 => other.commands[0][0] = other.commands[0][0] % 3 + 1,
        1 => {
            other.explicit = match other.explicit {
                None => Some((1, 0)),
                Some(_) => None,
            }
        }
        2 => {
            let named: Sequence = sequence(random.pick(&LINES), 1);
            other.dependencies = vec![named];
            settle(&mut other);
        }
        _ => {}
    }
    if other == *draft {
        other.group ^= 1;
    }
    other.bytes()
}

/// A right message of the same sequence that differs in one byte, any that can.
pub fn conflicting_byte(random: &mut Random, draft: &Draft) -> Vec<u8> {
    let right = draft.bytes();
    loop {
        let mut other = right.clone();
        // Before byte 24 are layout and sequence.
        let at = random.within(24, right.len() - 1);
        other[at] ^= random.within(1, 255) as u8;
        if Delta::check(&other).is_ok() {
            return other;
        }
    }
}
