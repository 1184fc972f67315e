//! Images written from parts, right or wrong, apart from the second implementation.

use crate::view::{BASE, FLOORS, SETPOINTS};
use crate::wire::{Draft, Sequence};

/// Values by their tags; those of other tags are zero.
pub type Values = Vec<(usize, i32)>;

/// The parts of an image, each as it is written. Nothing is checked and nothing is computed but
/// counts and offsets, so that wrong ones can be written.
#[derive(Clone, Debug, Default, PartialEq, Eq)]
pub struct Sketch {
    pub log: Vec<Draft>,
    pub held: Vec<Draft>,
    pub values: Values,
    /// Each floor as the sequence of its line and number.
    pub floors: Vec<Sequence>,
    pub base: Values,
    pub block: u32,
    pub group: u32,
}

impl Sketch {
    /// The image. What does not fit is cut off.
    pub fn image(&self) -> Vec<u8> {
        let floors = self.floors.concat();
        let all = self.log.iter().chain(&self.held);
        let messages: Vec<u8> = all.flat_map(Draft::bytes).collect();
        let first = FLOORS + floors.len();
        let used = first + messages.len();
        let (log, held, count) = (self.log.len(), self.held.len(), self.floors.len());
        let mut image = Vec::new();
        for number in [log, held, SETPOINTS, first, used, count, FLOORS, BASE] {
            image.extend((number as u16).to_be_bytes());
        }
        image.extend(self.block.to_be_bytes());
        image.extend(self.group.to_be_bytes());
        image.extend([0; 8]);
        image.extend(words(&self.values));
        image.extend(words(&self.base));
        image.extend(floors);
        image.extend(messages);
        image.resize(16_384, 0);
        image
    }
}

/// 64 values of four bytes, by tag.
fn words(values: &Values) -> Vec<u8> {
    let mut all = [0; 64];
    for (tag, value) in values {
        all[*tag] = *value;
    }
    all.iter().flat_map(|value| value.to_be_bytes()).collect()
}
