//! A station's disk: what it saved, also where the save was cut, and an older backup.

use std::collections::BTreeSet;
use std::fmt::{self, Display, Formatter};

use super::station::{Memory, Station};
use crate::boundary::{code, Calls};
use crate::random::Random;
use crate::view::{all_messages, values};
use crate::wire::Line;

/// What a disk writes whole or not at all.
const SECTOR: usize = 512;
/// The sectors of an image.
pub const SECTORS: usize = 32;

/// What is on the disk after a save that was cut.
#[derive(Clone, Copy, Debug, PartialEq, Eq)]
pub enum Left {
    /// The image from before, whole.
    Old,
    /// The new image, whole.
    New,
    /// Sectors of both, which are an image that the station never had.
    Mixed,
    /// Sectors of both, which are no image.
    Broken,
}

impl Display for Left {
    fn fmt(&self, f: &mut Formatter<'_>) -> fmt::Result {
        f.write_str(match self {
            Left::Old => "old",
            Left::New => "new",
            Left::Mixed => "mixed",
            Left::Broken => "broken",
        })
    }
}

/// Which sectors a cut save wrote: the first ones, or each by chance.
pub fn cut(random: &mut Random) -> [bool; SECTORS] {
    let mut written = [false; SECTORS];
    if random.chance(50) {
        let count = random.within(0, SECTORS);
        written[..count].fill(true);
    } else {
        written.iter_mut().for_each(|is| *is = random.chance(50));
    }
    written
}

impl Station {
    /// Writes image and host model to the disk, the old ones staying until the new ones are
    /// whole.
    pub fn save(&mut self) {
        self.saved.clone_from(&self.memory);
    }

    /// Writes the image over the old one, and is cut when these sectors are written. The host
    /// takes what it then finds if that is an image; if not, it has no deltas.
    pub fn save_in_place(
        &mut self,
        calls: &dyn Calls,
        written: &[bool; SECTORS],
    ) -> Result<Left, String> {
        let image = mixed(&self.saved.image, &self.memory.image, written);
        if image == self.saved.image {
            return Ok(Left::Old);
        }
        if image == self.memory.image {
            self.save();
            return Ok(Left::New);
        }
        let found = found(calls, &image)?;
        let left = found.as_ref().map_or(Left::Broken, |_| Left::Mixed);
        self.saved = match found {
            Some(memory) => memory,
            None => Station::new(calls, Vec::new())?.memory,
        };
        Ok(left)
    }

    /// Begins again from the disk. The hardware kept its values, which may be those of
    /// deltas that were not saved, so the host sets it once from the saved image; from there
    /// on it follows the pairs again.
    pub fn restart(&mut self) {
        self.memory.clone_from(&self.saved);
        self.hardware.setpoints = values(&self.saved.image);
    }

    /// Keeps a copy of what is saved.
    pub fn back_up(&mut self) {
        self.backup.clone_from(&self.saved);
    }

    /// Begins again from the backup; the messages that the station no longer has.
    pub fn restore(&mut self) -> BTreeSet<Vec<u8>> {
        let had = std::mem::take(&mut self.memory.accepted);
        self.saved.clone_from(&self.backup);
        self.restart();
        had.difference(&self.memory.accepted).cloned().collect()
    }

    /// A station that begins from a copy of this one's disk.
    pub fn cloned(&self, lines: Vec<Line>) -> Station {
        let mut clone = self.clone();
        clone.lines = lines;
        clone.restart();
        clone
    }
}

/// The new image in the sectors that were written, the old one in the rest.
fn mixed(old: &[u8], new: &[u8], written: &[bool; SECTORS]) -> Vec<u8> {
    let sectors = old.chunks(SECTOR).zip(new.chunks(SECTOR)).zip(written);
    let sectors = sectors.map(|((old, new), written)| if *written { new } else { old });
    sectors.collect::<Vec<_>>().concat()
}

/// What a host makes of an image that it finds: it learns the log and what each delta found
/// from a fresh station that gets the image's messages. None where there is no image.
fn found(calls: &dyn Calls, image: &[u8]) -> Result<Option<Memory>, String> {
    if code(calls.setpoint(image, 0)) != 0 {
        return Ok(None);
    }
    let fresh = Station::with(calls, &all_messages(image))?.memory;
    match fresh.image == image {
        true => Ok(Some(fresh)),
        false => Err("an image is not that of its messages".to_string()),
    }
}
