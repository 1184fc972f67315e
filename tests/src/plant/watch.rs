//! What must hold at every station after each event, whatever hosts neglect: a station has
//! what it accepted and did not purge and no more, what was purged leaves the same behind
//! everywhere, and behind that a set of messages has one image.

use std::collections::{BTreeMap, BTreeSet};

use super::station::Memory;
use crate::view::{all_messages, first_message, u16_at, BASE};

/// What a purge leaves in an image: header bytes 10-31, base values and floors.
type Behind = Vec<u8>;

/// What has been seen in a run.
#[derive(Clone, Debug, Default)]
pub struct Watch {
    /// The image of each set of messages that a station had, behind what it had purged.
    images: BTreeMap<(Behind, BTreeSet<Vec<u8>>), Vec<u8>>,
    /// What each list of purged messages left.
    behind: BTreeMap<Vec<Vec<u8>>, Behind>,
    /// Messages that operators composed or that came right from outside.
    pub made: BTreeSet<Vec<u8>>,
    /// Messages in a log that nobody made.
    pub strange: BTreeSet<Vec<u8>>,
}

impl Watch {
    /// Looks at a station after something happened there.
    pub fn look(&mut self, memory: &Memory) -> Result<(), String> {
        let messages = all_messages(&memory.image);
        let log = messages.iter().take(u16_at(&memory.image, 0));
        let strange = log.filter(|message| !self.made.contains(*message));
        self.strange.extend(strange.cloned());
        let count = messages.len();
        let set: BTreeSet<Vec<u8>> = messages.into_iter().collect();
        if count != set.len() || set != memory.accepted {
            return Err("the image has not what was accepted".to_string());
        }
        let behind = behind(&memory.image);
        if !self.behind.contains_key(&memory.purged) {
            self.behind.insert(memory.purged.clone(), behind.clone());
        }
        if self.behind[&memory.purged] != behind {
            return Err("the same purged messages left two things".to_string());
        }
        let image = self.images.entry((behind, set));
        match *image.or_insert_with(|| memory.image.clone()) == memory.image {
            true => Ok(()),
            false => Err("the same messages have two images".to_string()),
        }
    }
}

fn behind(image: &[u8]) -> Behind {
    [&image[10..32], &image[BASE..first_message(image)]].concat()
}
