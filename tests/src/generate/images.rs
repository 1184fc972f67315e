//! Inputs of the program that prints a log: images of all shapes, damaged ones, and bytes
//! that are none.

use super::{any_draft, drafts, edit, floors, image_with, is_with_floors};
use crate::edit::Edit;
use crate::random::Random;
use crate::reference::purged::Purged;
use crate::wire::Draft;

/// The size of an image.
const SIZE: usize = 16_384;
/// Sizes that are not an image's.
const SIZES: [usize; 7] = [0, 1, 272, SIZE - 1, SIZE + 1, 2 * SIZE, 40_000];

/// The input of a seed.
pub fn image_input(seed: u64) -> Vec<u8> {
    let mut random = Random::new(seed);
    if is_with_floors(seed) {
        return floors::any_image(&mut random);
    }
    match random.below(20) {
        0..=10 => image(&mut random),
        11..=16 => damaged_image(&mut random).1,
        17 | 18 => wrong_size(&mut random),
        _ => noise(&mut random),
    }
}

/// An image: of nothing, of few deltas, of many, of as many as it holds.
fn image(random: &mut Random) -> Vec<u8> {
    let (least, most) = random.pick(&[(0, 0), (1, 1), (1, 8), (1, 8), (9, 40), (61, 64), (64, 64)]);
    let count = random.within(least, most);
    let mut drafts: Vec<Draft> = match random.chance(80) {
        true => drafts(random, count),
        false => (0..count).map(|_| any_draft(random)).collect(),
    };
    if random.chance(20) {
        drafts.iter_mut().for_each(repeat_commands);
    }
    image_of(&drafts)
}

/// Repeats the commands until there are eight.
fn repeat_commands(draft: &mut Draft) {
    let commands = draft.commands.iter().copied();
    draft.commands = commands.cycle().take(8).collect();
}

/// The image of these deltas; of two with one sequence the later is taken.
pub fn image_of(drafts: &[Draft]) -> Vec<u8> {
    image_with(drafts, &Purged::nothing())
}

/// An image with an edit, and the edit. Some edits make another image of it.
pub fn damaged_image(random: &mut Random) -> (Edit, Vec<u8>) {
    let mut image = image(random);
    let edit = edit(random);
    edit.apply(&mut image);
    (edit, image)
}

/// An image that is cut, or goes on with itself.
fn wrong_size(random: &mut Random) -> Vec<u8> {
    let image = image(random);
    let size = random.pick(&SIZES);
    image.into_iter().cycle().take(size).collect()
}

/// As many bytes as an image has.
fn noise(random: &mut Random) -> Vec<u8> {
    match random.chance(50) {
        true => vec![random.pick(&[0, 1, 0xFF]); SIZE],
        false => (0..SIZE).map(|_| random.byte()).collect(),
    }
}
