//! What comes to the stations from outside the plant.

use std::collections::BTreeMap;

use crate::generate::{drafts, nearly_right, LINES};
use crate::random::Random;
use crate::wire::Draft;

/// Messages from outside: right ones of lines that no station has, and wrong ones with
/// their code.
#[derive(Clone, Debug)]
pub struct Outside {
    pub right: Vec<Vec<u8>>,
    pub wrong: BTreeMap<Vec<u8>, u32>,
}

impl Outside {
    pub fn new(random: &mut Random) -> Outside {
        let right = match random.below(6) {
            0 | 1 => Vec::new(),
            // As many ends for each log as lines.
            2 => LINES.iter().map(|line| Draft::new(*line, 1)).collect(),
            _ => {
                let count = random.pick(&[1, 4, 12]);
                drafts(random, count)
            }
        };
        let some = right.iter().take(4);
        let wrong = some.map(|draft| nearly_right(random, draft));
        Outside {
            wrong: wrong.map(|(code, message)| (message, code)).collect(),
            right: right.iter().map(Draft::bytes).collect(),
        }
    }
}
