//! Inputs of the listing program: messages end to end, right, wrong, cut, damaged, too long.

use super::sets::drafts;
use super::wrong::{conflicting, nearly_right};
use crate::random::Random;
use crate::wire::Draft;

/// How many bytes the program takes.
const INPUT: usize = 60_000;

/// The stream of a seed.
pub fn stream(seed: u64) -> Vec<u8> {
    let mut random = Random::new(seed);
    let mut bytes = messages(&mut random);
    match random.below(40) {
        0..=9 => {}
        10..=17 => bytes.truncate(random.below(bytes.len() + 1)),
        18..=25 => damage(&mut random, &mut bytes),
        26..=31 => wrong_length(&mut random, &mut bytes),
        32..=34 => bytes.extend(noise(&mut random)),
        35..=37 => bytes = noise(&mut random),
        _ => bytes = long(&mut random),
    }
    bytes
}

/// Right messages in any order, with repeats, conflicts and refused ones between them.
fn messages(random: &mut Random) -> Vec<u8> {
    let (least, most) = random.pick(&[
        (1, 1),
        (1, 3),
        (1, 3),
        (1, 8),
        (1, 8),
        (1, 20),
        (1, 20),
        (61, 70),
    ]);
    let count = random.within(least, most);
    let mut drafts = drafts(random, count);
    if random.chance(50) {
        random.shuffle(&mut drafts);
    }
    let odd = random.pick(&[0, 0, 20, 60]);
    let mut bytes = Vec::new();
    for draft in &drafts {
        bytes.extend(draft.bytes());
        while random.chance(odd) {
            let other = &drafts[random.below(drafts.len())];
            bytes.extend(beside(random, other));
        }
    }
    bytes
}

/// A repeat, a conflict, or a message of right length that is refused.
fn beside(random: &mut Random, draft: &Draft) -> Vec<u8> {
    match random.below(3) {
        0 => draft.bytes(),
        1 => conflicting(random, draft),
        _ => nearly_right(random, draft).1,
    }
}

/// Some bytes changed, anywhere.
fn damage(random: &mut Random, bytes: &mut [u8]) {
    for _ in 0..random.pick(&[1, 1, 2, 30]) {
        let at = random.below(bytes.len());
        bytes[at] ^= 1 << random.below(8);
    }
}

/// The length field of some message, the first ones more often, made another.
fn wrong_length(random: &mut Random, bytes: &mut [u8]) {
    let mut at = 0;
    for _ in 0..random.below(5) {
        let next = at + usize::from(bytes[at + 4]) * 256 + usize::from(bytes[at + 5]);
        if next + 6 <= bytes.len() {
            at = next;
        }
    }
    let length = random.pick(&[
        0_u16, 1, 6, 47, 48, 49, 60, 199, 200, 201, 256, 0x3000, 0xFFFF,
    ]);
    bytes[at + 4..at + 6].copy_from_slice(&length.to_be_bytes());
}

/// Bytes that mean nothing, some of them with a length that may be cut.
fn noise(random: &mut Random) -> Vec<u8> {
    let most = random.pick(&[5, 6, 7, 60, 400]);
    let size = random.below(most + 1);
    let mut bytes: Vec<u8> = match random.below(3) {
        0 => vec![random.pick(&[0, 1, 48, 0xFF]); size],
        _ => (0..size).map(|_| random.byte()).collect(),
    };
    if size >= 6 && random.chance(60) {
        let length = random.within(47, 201) as u16;
        bytes[4..6].copy_from_slice(&length.to_be_bytes());
    }
    bytes
}

/// A few messages again and again, up to the last byte that is taken or past it.
fn long(random: &mut Random) -> Vec<u8> {
    let few = random.within(1, 5);
    let bytes: Vec<u8> = drafts(random, few).iter().flat_map(Draft::bytes).collect();
    let near = random.within(INPUT - 200, INPUT + 200);
    let size = random.pick(&[INPUT - 1, INPUT, INPUT + 1, near, 2 * INPUT]);
    bytes.into_iter().cycle().take(size).collect()
}
