//! A station of which every delivery is asked whether it kept the order of the log, by its steps
//! alone, and by the logs of its image, to which the steps lead.

use bivamolune_tests::boundary::{code, executions, undos, Calls};
use bivamolune_tests::order_kept::{by_logs, by_steps};
use bivamolune_tests::view::{log, play, steps};
use bivamolune_tests::wire::{Draft, Sequence};

use super::common::{IMAGE, PATTERN, STEPS};

/// The image, and the log that the steps are played on.
#[derive(Clone)]
pub struct Watched {
    pub image: Vec<u8>,
    pub played: Vec<Sequence>,
}

/// What a delivery answered, and whether it kept the order by each check.
#[derive(Clone, Copy, Debug, PartialEq, Eq)]
pub struct Delivered {
    pub code: u32,
    pub undos: usize,
    pub executions: usize,
    pub kept: Kept,
}

/// Whether the order is kept by the steps, and by the logs.
#[derive(Clone, Copy, Debug, PartialEq, Eq)]
pub struct Kept {
    pub by_steps: bool,
    pub by_logs: bool,
}

impl Kept {
    pub const WHOLE: Kept = Kept {
        by_steps: true,
        by_logs: true,
    };
}

impl Watched {
    /// A station of no deltas.
    pub fn new(calls: &dyn Calls) -> Watched {
        let mut image = vec![PATTERN; IMAGE];
        assert_eq!(calls.empty(&mut image), 0);
        let played = Vec::new();
        Watched { image, played }
    }

    /// Delivers, and plays the steps; they lead to the image's log.
    pub fn deliver(&mut self, calls: &dyn Calls, message: &[u8]) -> Delivered {
        let old = self.played.clone();
        let mut buffer = vec![PATTERN; STEPS];
        let answer = calls.deliver(&mut self.image, message, &mut buffer);
        let (undos, executions) = (undos(answer), executions(answer));
        let all = steps(&buffer, undos, executions).expect("undos, then executions");
        assert!(
            play(&mut self.played, &all),
            "an undo of another than the last"
        );
        assert_eq!(self.played, log(&self.image));
        let kept = Kept {
            by_steps: by_steps(answer, &buffer).is_ok(),
            by_logs: by_logs(&old, &log(&self.image)).is_ok(),
        };
        Delivered {
            code: code(answer),
            undos,
            executions,
            kept,
        }
    }
}

/// Every order in which these can arrive at a station, and each delivery on the way: what the log
/// was before, which one arrived, what was answered, and the station after it.
pub fn every_order(
    calls: &dyn Calls,
    station: &Watched,
    rest: &[Draft],
    look: &mut dyn FnMut(&[Sequence], &Draft, Delivered, &mut Watched),
) {
    for (place, draft) in rest.iter().enumerate() {
        let mut next = station.clone();
        let delivered = next.deliver(calls, &draft.bytes());
        look(&station.played, draft, delivered, &mut next);
        let mut others = rest.to_vec();
        others.remove(place);
        every_order(calls, &next, &others, look);
    }
}
