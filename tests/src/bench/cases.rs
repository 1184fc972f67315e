//! The cases of the benchmark: an image, a message that arrives, and the answer. Those of
//! texts are in `texts`, those of log message in `places`, those of a purge in `purges`.

use std::fmt;

use crate::bench::{places, purges, texts};
use crate::boundary::{Calls, Reference};
use crate::edit::Edit;
use crate::reference::steps::BUFFER;
use crate::sketch::Sketch;
use crate::wire::{command, line, sequence, set, Command, Draft, Sequence};

/// How many deltas the images hold.
pub const COUNTS: [usize; 4] = [0, 16, 40, 63];
/// The ring has this many deltas, so that the 64th closes it.
const RING: usize = 64;
/// How many lines woven deltas have, and the floor of each where there is one.
const WOVEN: usize = 32;
const WOVEN_FLOOR: u16 = 9;
/// The line of the first delta of an image; a lower one stays free.
const FIRST_LINE: u8 = 0x10;
const LOWER_LINE: u8 = 0x01;

/// What the deltas of an image are like.
#[derive(Clone, Copy, Debug, PartialEq, Eq)]
pub enum Shape {
    /// One line, its numbers from 1.
    Chain,
    /// One line, its numbers from 2: all held.
    Waiting,
    /// A line for each delta, and no needs.
    Lone,
    /// Lone lines with blocks and priorities; the log is not in order of sequence.
    Priority,
    /// A line for each delta, which names the eight before it.
    Needs,
    /// The same with eight commands: 200 bytes from the ninth delta on.
    Longest,
    /// A line for each delta; all name the first eight, so that all others are ready at
    /// once, and have eight commands.
    Fan,
    /// Each delta names the next of a ring: all held.
    Ring,
    /// Each delta names the next eight of a ring and has eight commands: all held, and
    /// all messages of 200 bytes.
    RingLongest,
    /// A chain, the longest and a ring of the longest behind 32 floors of other lines.
    ChainFloors,
    LongestFloors,
    RingFloors,
    /// 32 lines in turn, each delta names the eight before it and has eight commands: as the
    /// longest, but all of 64 can be purged.
    Woven,
    /// The same behind 32 floors of these very lines.
    WovenFloors,
    /// No deltas: a text is read.
    Read,
    /// No deltas: sequences are written as text.
    Write,
    /// The deltas of a chain: log message is asked.
    Log,
}

/// What arrives.
#[derive(Clone, Copy, Debug, PartialEq, Eq)]
pub enum Arrival {
    /// The delta of the latest key: no undo.
    Latest,
    /// A delta of a key before all others: everything is undone.
    Earliest,
    /// The first of a line that waits for it: everything is executed.
    First,
    /// One more delta that is held.
    Held,
    /// A delta that is present.
    Repeat,
    /// What is refused by a code.
    Refused(u32),
    /// Sequences in either form, all right.
    Right,
    /// The first place of the log, its last, and all of them one after another.
    Begin,
    End,
    Whole,
    /// A purge of the first so many.
    Purge(u32),
}

/// A case before its image is built, which takes as many deliveries as it holds.
#[derive(Clone, Copy, Debug, PartialEq, Eq)]
pub struct Spec {
    pub shape: Shape,
    pub arrival: Arrival,
    pub count: usize,
}

/// The call of a case.
#[derive(Clone, Copy, Debug, PartialEq, Eq)]
pub enum Call {
    Deliver,
    Read,
    Write,
    /// Log message, once for each place from the first to the last given.
    Places(u32, u32),
    /// A purge of so many.
    Purge(u32),
}

impl Call {
    /// Whether it writes what it reads, and so cannot be made again on the same buffers.
    pub fn writes(self) -> bool {
        matches!(self, Call::Deliver | Call::Purge(_))
    }
}

/// A case: what a delivery gets, and what it must answer. A call on texts gets its input as
/// the message and its buffer as the steps, and leaves the image alone. The answers of log
/// message at several places are added up.
#[derive(Clone, Debug, PartialEq, Eq)]
pub struct Case {
    pub name: String,
    pub call: Call,
    pub image: Vec<u8>,
    pub message: Vec<u8>,
    pub steps: Vec<u8>,
    pub answer: u64,
}

/// The pairs of shape and arrival that are measured at each count.
pub const GROWING: [(Shape, Arrival); 20] = [
    (Shape::Chain, Arrival::Latest),
    (Shape::Chain, Arrival::Earliest),
    (Shape::Waiting, Arrival::First),
    (Shape::Lone, Arrival::Latest),
    (Shape::Lone, Arrival::Earliest),
    (Shape::Priority, Arrival::Latest),
    (Shape::Priority, Arrival::Earliest),
    (Shape::Needs, Arrival::Latest),
    (Shape::Needs, Arrival::Earliest),
    (Shape::Longest, Arrival::Latest),
    (Shape::Longest, Arrival::Earliest),
    (Shape::Fan, Arrival::Latest),
    (Shape::Fan, Arrival::Earliest),
    (Shape::Waiting, Arrival::Held),
    (Shape::Ring, Arrival::Held),
    (Shape::RingLongest, Arrival::Held),
    (Shape::ChainFloors, Arrival::Latest),
    (Shape::LongestFloors, Arrival::Latest),
    (Shape::LongestFloors, Arrival::Earliest),
    (Shape::RingFloors, Arrival::Held),
];

/// The shapes behind floors, each with the one that differs from it in that alone.
pub const FLOORED: [(Shape, Shape); 3] = [
    (Shape::ChainFloors, Shape::Chain),
    (Shape::LongestFloors, Shape::Longest),
    (Shape::RingFloors, Shape::RingLongest),
];

/// All cases.
pub fn specs() -> Vec<Spec> {
    let mut specs = Vec::new();
    for (shape, arrival) in GROWING {
        specs.extend(COUNTS.map(|count| Spec::new(shape, arrival, count)));
    }
    for shape in [Shape::Chain, Shape::Longest, Shape::RingLongest] {
        specs.extend([1, 16, 40, 63, 64].map(|count| Spec::new(shape, Arrival::Repeat, count)));
    }
    for code in 1..=8 {
        let count = if code == 8 { 64 } else { 63 };
        specs.push(Spec::new(Shape::Longest, Arrival::Refused(code), count));
    }
    specs.push(Spec::new(Shape::Chain, Arrival::Refused(2), 64));
    specs.extend(purges::specs());
    specs.extend(places::specs());
    specs.extend(texts::specs());
    specs
}

/// The case of that name.
pub fn named(name: &str) -> Option<Spec> {
    specs().into_iter().find(|spec| spec.to_string() == name)
}

impl Spec {
    pub fn new(shape: Shape, arrival: Arrival, count: usize) -> Spec {
        Spec {
            shape,
            arrival,
            count,
        }
    }

    /// The case, its image as the second implementation writes it.
    pub fn build(&self) -> Case {
        match (self.shape, self.arrival) {
            (_, Arrival::Purge(k)) => return purges::build(self, k),
            (Shape::Read | Shape::Write, _) => return texts::build(self),
            (Shape::Log, _) => return places::build(self),
            _ => {}
        }
        let mut case = Case {
            name: self.to_string(),
            call: Call::Deliver,
            image: self.shape.image(self.count),
            message: self.draft().bytes(),
            steps: vec![0xA5; BUFFER],
            answer: self.answer().into(),
        };
        match self.arrival {
            Arrival::Refused(1) => case.steps.truncate(BUFFER - 1),
            Arrival::Refused(2) if self.shape == Shape::Chain => {
                places::USED_ONE_MORE.apply(&mut case.image);
            }
            Arrival::Refused(2) => Edit::Setpoint(63, 1).apply(&mut case.image),
            Arrival::Refused(3) => case.message.truncate(case.message.len() - 1),
            _ => {}
        }
        case
    }

    /// The delta that arrives.
    fn draft(&self) -> Draft {
        let next = self.shape.member(self.count);
        match self.arrival {
            Arrival::Latest if self.shape == Shape::Priority => next.priority(9, 0),
            Arrival::Earliest => self.shape.before_all(),
            Arrival::First => Draft::new(line(FIRST_LINE), 1),
            Arrival::Repeat => self.shape.member(self.count - 1),
            Arrival::Refused(7) => spoiled(7, self.shape.member(self.count - 1)),
            Arrival::Refused(code) => spoiled(code, next),
            _ => next,
        }
    }

    /// The packed answer that makes the case what its name says.
    fn answer(&self) -> u32 {
        let count = self.count as u32;
        match self.arrival {
            Arrival::Latest => 65_536,
            Arrival::Earliest => 256 * count + 65_536 * (count + 1),
            Arrival::First => 65_536 * (count + 1),
            Arrival::Refused(code) => code,
            _ => 0,
        }
    }
}

impl Shape {
    /// The shape without its floors.
    fn without_floors(self) -> Shape {
        let floored = FLOORED.iter().find(|(floored, _)| *floored == self);
        floored.map_or(self, |(_, plain)| *plain)
    }

    /// The delta at a place of the image.
    fn member(self, place: usize) -> Draft {
        let number = place as u16;
        let draft = match self.without_floors() {
            Shape::Chain => Draft::new(line(FIRST_LINE), number + 1),
            Shape::Waiting => Draft::new(line(FIRST_LINE), number + 2),
            _ => self.of_own_line(place),
        };
        let draft = draft.naming(&self.names(place));
        let draft = draft.commands(&self.commands(place));
        match self {
            Shape::Priority => draft.priority(1 + place as u32 % 8, 5 * place as u32 % 16),
            _ => draft,
        }
    }

    /// A delta of the line of a place, the first of it or woven with the others.
    fn of_own_line(self, place: usize) -> Draft {
        let turn = (place / WOVEN) as u16;
        match self {
            Shape::Woven => Draft::new(own_line(place % WOVEN), 1 + turn),
            Shape::WovenFloors => Draft::new(own_line(place % WOVEN), WOVEN_FLOOR + 1 + turn),
            _ => Draft::new(own_line(place), 1),
        }
    }

    /// What the delta at a place names, ascending.
    fn names(self, place: usize) -> Vec<Sequence> {
        let places: Vec<usize> = match self.without_floors() {
            Shape::Needs | Shape::Longest | Shape::Woven | Shape::WovenFloors => {
                (place.saturating_sub(8)..place).collect()
            }
            Shape::Fan => (0..place.min(8)).collect(),
            Shape::Ring => vec![(place + 1) % RING],
            Shape::RingLongest => (1..=8).map(|step| (place + step) % RING).collect(),
            _ => Vec::new(),
        };
        let named = places
            .iter()
            .map(|place| self.of_own_line(*place).sequence());
        let mut named: Vec<Sequence> = named.collect();
        named.sort_unstable();
        named
    }

    /// One command or eight, of all three operations over all tags.
    fn commands(self, place: usize) -> Vec<Command> {
        let count = match self.without_floors() {
            Shape::Longest | Shape::Fan | Shape::RingLongest => 8,
            Shape::Woven | Shape::WovenFloors => 8,
            _ => 1,
        };
        let numbered = |at: usize| {
            let value = 1_000 * at as i32 - 250_000;
            command(1 + (at % 3) as u8, (at % 64) as u8, value)
        };
        (8 * place..).map(numbered).take(count).collect()
    }

    /// A delta of a key before all members, with no needs.
    fn before_all(self) -> Draft {
        let draft = Draft::new(line(LOWER_LINE), 1).commands(&self.commands(0));
        match self {
            Shape::Priority => draft.priority(1, 2_147_483_647),
            _ => draft,
        }
    }

    /// The image of no members: with no floor or with 32, of lines above all others or of the
    /// members' own.
    fn first_image(self) -> Vec<u8> {
        let mut sketch = Sketch::default();
        if self == Shape::WovenFloors {
            let lines = (0..WOVEN).map(own_line);
            sketch.floors = lines.map(|line| sequence(line, WOVEN_FLOOR)).collect();
        } else if self != self.without_floors() {
            let lines = (0xC0..0xE0).map(line);
            sketch.floors = lines.map(|line| sequence(line, 9)).collect();
        }
        sketch.image()
    }

    /// The image of the first so many members.
    pub fn image(self, count: usize) -> Vec<u8> {
        let mut image = self.first_image();
        let mut steps = vec![0; BUFFER];
        for place in 0..count {
            Reference.deliver(&mut image, &self.member(place).bytes(), &mut steps);
        }
        image
    }
}

/// The line of a member, where each has its own.
fn own_line(place: usize) -> [u8; 10] {
    line(FIRST_LINE + place as u8)
}

/// One of the longest deltas, made to be refused by a code as late as can be. Codes 1
/// to 3 are made on the buffers, and code 8 needs nothing but a full station.
fn spoiled(code: u32, mut draft: Draft) -> Draft {
    match code {
        4 => draft.number = 0,
        5 => draft.dependencies.swap(6, 7),
        6 => draft.commands[7] = set(63, 1_000_001),
        7 => draft.commands[7] = set(63, 7),
        _ => {}
    }
    draft
}

impl fmt::Display for Spec {
    fn fmt(&self, f: &mut fmt::Formatter) -> fmt::Result {
        write!(f, "{}-{}-{}", self.shape, self.arrival, self.count)
    }
}

impl fmt::Display for Shape {
    fn fmt(&self, f: &mut fmt::Formatter) -> fmt::Result {
        f.write_str(match self {
            Shape::Chain => "chain",
            Shape::Waiting => "waiting",
            Shape::Lone => "lone",
            Shape::Priority => "priority",
            Shape::Needs => "needs",
            Shape::Longest => "longest",
            Shape::Fan => "fan",
            Shape::Ring => "ring",
            Shape::RingLongest => "ring200",
            Shape::ChainFloors => "chain32",
            Shape::LongestFloors => "longest32",
            Shape::RingFloors => "ring32",
            Shape::Woven => "woven",
            Shape::WovenFloors => "woven32",
            Shape::Read => "read",
            Shape::Write => "write",
            Shape::Log => "log",
        })
    }
}

impl fmt::Display for Arrival {
    fn fmt(&self, f: &mut fmt::Formatter) -> fmt::Result {
        match self {
            Arrival::Latest => f.write_str("latest"),
            Arrival::Earliest => f.write_str("earliest"),
            Arrival::First => f.write_str("first"),
            Arrival::Held => f.write_str("held"),
            Arrival::Repeat => f.write_str("repeat"),
            Arrival::Refused(code) => write!(f, "code{code}"),
            Arrival::Right => f.write_str("right"),
            Arrival::Begin => f.write_str("begin"),
            Arrival::End => f.write_str("end"),
            Arrival::Whole => f.write_str("whole"),
            Arrival::Purge(k) => write!(f, "purge{k}"),
        }
    }
}

#[cfg(test)]
mod tests {
    use super::{named, specs};
    use crate::bench::measure::check;

    #[test]
    fn every_case_is_what_its_name_says_on_both_sides() {
        for spec in specs() {
            assert_eq!(named(&spec.to_string()), Some(spec), "a name is used twice");
            assert_eq!(check(&spec.build()).err(), None);
        }
    }
}
