//! A station of the plant: its image, its host, which knows the log by the steps alone, and
//! its burner hardware, which knows the setpoints by their pairs alone.

use std::collections::BTreeSet;

use crate::boundary::{code, executions, length, undos, Calls};
use crate::call::{hex, Composing};
use crate::order_kept::by_steps;
use crate::view::{floors, log, messages, sequence_of, steps, values, Kind, Pair, Step, STEP};
use crate::wire::{Line, Sequence};

/// The size of an image.
const IMAGE: usize = 16_384;
/// The size of a step buffer.
const STEPS: usize = 10_160;
/// As many deltas as an image has room for.
pub const MOST: usize = 64;
/// As many floors as an image has room for.
const MOST_FLOORS: usize = 32;
/// What bytes hold that nobody has written.
const PATTERN: u8 = 0xA5;

/// The host's model: the log as the steps played it, and beside each delta what its commands
/// had found when it was executed.
#[derive(Clone, Debug, Default, PartialEq, Eq)]
pub struct Host {
    pub log: Vec<Sequence>,
    found: Vec<Vec<Pair>>,
}

impl Host {
    /// An execution adds a delta at the end. An undo must name the last one, and restore what
    /// its commands had found, the last command first. `found` is what the step's pairs found.
    fn play(&mut self, step: &Step, found: Vec<Pair>) -> Result<(), String> {
        if step.kind == Kind::Execute {
            self.log.push(step.sequence);
            self.found.push(found);
            return Ok(());
        }
        let name = hex(&step.sequence);
        if self.log.pop() != Some(step.sequence) {
            return Err(format!("undo of {name}, which is not the last"));
        }
        match self.found.pop().iter().flatten().rev().eq(&step.pairs) {
            true => Ok(()),
            false => Err(format!("undo of {name} restores other values")),
        }
    }

    /// A purge has no step; the log loses its first ones.
    fn lose(&mut self, count: usize) {
        self.log.drain(..count);
        self.found.drain(..count);
    }
}

/// Burner hardware: 64 setpoints, all zero at first. Deliveries reach it by the pairs of
/// their steps alone, never by the image.
#[derive(Clone, Debug, PartialEq, Eq)]
pub struct Hardware {
    pub setpoints: [i32; 64],
}

impl Default for Hardware {
    fn default() -> Hardware {
        let setpoints = [0; 64];
        Hardware { setpoints }
    }
}

impl Hardware {
    /// Each pair sets its tag to its value; the tags, and what they showed before.
    fn feed(&mut self, step: &Step) -> Vec<Pair> {
        let mut found = Vec::new();
        for (tag, value) in &step.pairs {
            found.push((*tag, self.setpoints[*tag]));
            self.setpoints[*tag] = *value;
        }
        found
    }

    /// Whether its setpoints are those of an image.
    pub fn shows(&self, image: &[u8]) -> bool {
        self.setpoints == values(image)
    }
}

/// An image, the host that belongs to it, and the messages that were accepted on the way to
/// it, as the plain station keeps them. Those that were purged lie apart, in their order.
#[derive(Clone, Debug, PartialEq, Eq)]
pub struct Memory {
    pub image: Vec<u8>,
    pub host: Host,
    pub accepted: BTreeSet<Vec<u8>>,
    pub purged: Vec<Vec<u8>>,
}

impl Memory {
    /// Whether no new delta has room.
    pub fn is_full(&self) -> bool {
        self.accepted.len() == MOST
    }

    /// The whole history: what was purged, then the log.
    pub fn history(&self) -> Vec<Sequence> {
        let purged = self.purged.iter().map(|message| sequence_of(message));
        purged.chain(self.host.log.iter().copied()).collect()
    }

    /// Whether a sequence was purged.
    pub fn has_purged(&self, own: &Sequence) -> bool {
        let mut purged = self.purged.iter();
        purged.any(|message| sequence_of(message) == *own)
    }

    /// What deliver must answer to a message that passes 3 to 6.
    pub fn due(&self, message: &[u8]) -> u32 {
        let own = sequence_of(message);
        if self.has_purged(&own) {
            return 0;
        }
        let mut accepted = self.accepted.iter();
        match accepted.find(|known| sequence_of(known) == own) {
            Some(known) if known == message => 0,
            Some(_) => 7,
            None if self.is_full() => 8,
            None => 0,
        }
    }

    /// What a purge of so many must answer.
    fn due_of_purge(&self, count: usize) -> u32 {
        let history = self.history();
        match history.get(..self.purged.len() + count) {
            None => 15,
            Some(purged) if highest(purged).len() > MOST_FLOORS => 16,
            Some(_) => 0,
        }
    }

    /// Puts the first messages of a log, which were accepted, to those that were purged.
    fn put_away(&mut self, dropped: Vec<Vec<u8>>) {
        self.host.lose(dropped.len());
        for message in &dropped {
            self.accepted.remove(message);
        }
        self.purged.extend(dropped);
    }
}

/// Of each line the sequence of highest number, ascending.
fn highest(sequences: &[Sequence]) -> Vec<Sequence> {
    let sorted: BTreeSet<Sequence> = sequences.iter().copied().collect();
    let mut highest: Vec<Sequence> = Vec::new();
    for sequence in sorted {
        match highest.last_mut() {
            Some(last) if last[..10] == sequence[..10] => *last = sequence,
            _ => highest.push(sequence),
        }
    }
    highest
}

/// A station with what it has in memory, its hardware, and on its disk what it has saved and
/// an older backup.
#[derive(Clone, Debug)]
pub struct Station {
    pub lines: Vec<Line>,
    pub memory: Memory,
    pub hardware: Hardware,
    pub(super) saved: Memory,
    pub(super) backup: Memory,
}

/// What a delivery answered: the code and the steps.
#[derive(Clone, Debug, PartialEq, Eq)]
pub struct Delivery {
    pub code: u32,
    pub steps: Vec<Step>,
}

impl Station {
    /// A station of no deltas, saved and backed up as such.
    pub fn new(calls: &dyn Calls, lines: Vec<Line>) -> Result<Station, String> {
        let mut image = vec![PATTERN; IMAGE];
        match calls.empty(&mut image) {
            0 => {}
            code => return Err(format!("empty answers {code}")),
        }
        let memory = Memory {
            image,
            host: Host::default(),
            accepted: BTreeSet::new(),
            purged: Vec::new(),
        };
        let station = Station::at(memory, Hardware::default());
        Ok(Station { lines, ..station })
    }

    /// A station without a line that has this, saved and backed up.
    pub fn at(memory: Memory, hardware: Hardware) -> Station {
        Station {
            lines: Vec::new(),
            hardware,
            saved: memory.clone(),
            backup: memory.clone(),
            memory,
        }
    }

    /// A station without a line that got these messages, one after another.
    pub fn with(calls: &dyn Calls, messages: &[Vec<u8>]) -> Result<Station, String> {
        let mut station = Station::new(calls, Vec::new())?;
        for message in messages {
            station.deliver(calls, message)?;
        }
        Ok(station)
    }

    /// Delivers and lets the host play the steps, which keep the order of its log. Whatever the
    /// answer, the host's log is the image's, and so are the setpoints of the hardware; a refusal
    /// writes nothing, nor does anything past the steps, nor a delta that was purged.
    pub fn deliver(&mut self, calls: &dyn Calls, message: &[u8]) -> Result<Delivery, String> {
        let before = self.memory.image.clone();
        let mut buffer = vec![PATTERN; STEPS];
        let answer = calls.deliver(&mut self.memory.image, message, &mut buffer);
        let steps = self.play(&buffer, undos(answer), executions(answer))?;
        by_steps(answer, &buffer).map_err(|broken| broken.to_string())?;
        let still = self.memory.image == before && steps.is_empty();
        let code = code(answer);
        if code != 0 && !still {
            return Err(format!("a refusal by {code} wrote"));
        }
        let purged = self.memory.has_purged(&sequence_of(message));
        if purged && !still {
            return Err("a delta that was purged wrote".to_string());
        }
        self.look()?;
        if code == 0 && !purged {
            self.memory.accepted.insert(message.to_vec());
        }
        Ok(Delivery { code, steps })
    }

    /// Purges the first ones of the log, and lets the host's log lose them; the code. The
    /// hardware hears nothing of it. A refusal writes nothing.
    pub fn purge(&mut self, calls: &dyn Calls, count: usize) -> Result<u32, String> {
        let before = self.memory.image.clone();
        let due = self.memory.due_of_purge(count);
        let code = calls.purge(&mut self.memory.image, count as u32);
        if code != due {
            return Err(format!("a purge of {count} answers {code}, not {due}"));
        }
        if code == 0 {
            self.memory.put_away(messages(&before, 0, count));
        } else if self.memory.image != before {
            return Err(format!("a refusal by {code} wrote"));
        }
        let purged = self.memory.history();
        if floors(&self.memory.image) != highest(&purged[..self.memory.purged.len()]) {
            return Err("the floors are not those of what was purged".to_string());
        }
        self.look().map(|()| code)
    }

    /// The host's log is the image's, and so are the setpoints of the hardware.
    fn look(&self) -> Result<(), String> {
        if self.memory.host.log != log(&self.memory.image) {
            return Err("the host's log is not the image's".to_string());
        }
        match self.hardware.shows(&self.memory.image) {
            true => Ok(()),
            false => Err("the hardware's setpoints are not the image's".to_string()),
        }
    }

    /// Plays the steps at the front of a buffer, behind which nothing is written.
    fn play(
        &mut self,
        buffer: &[u8],
        undos: usize,
        executions: usize,
    ) -> Result<Vec<Step>, String> {
        let steps = steps(buffer, undos, executions);
        let steps =
            steps.ok_or_else(|| format!("not {undos} undos, then {executions} executions"))?;
        if buffer[STEP * steps.len()..]
            .iter()
            .any(|byte| *byte != PATTERN)
        {
            return Err("bytes past the steps were written".to_string());
        }
        for step in &steps {
            let found = self.hardware.feed(step);
            self.memory.host.play(step, found)?;
        }
        Ok(steps)
    }

    /// Composes; the code, and the message where it is 0.
    pub fn compose(&self, calls: &dyn Calls, composing: &Composing) -> (u32, Vec<u8>) {
        let mut buffer = vec![PATTERN; composing.room];
        let answer = calls.compose(&self.memory.image, &composing.request(), &mut buffer);
        buffer.truncate(length(answer));
        (code(answer), buffer)
    }
}
