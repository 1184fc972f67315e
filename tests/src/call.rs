//! A call with all its arguments, what it leaves behind, and the station between calls.

use std::fmt::{self, Display, Formatter};

use crate::boundary::{code, length, Calls};
use crate::edit::Edit;
use crate::reference::compose::Request;

/// What buffers hold before a call writes them.
const PATTERN: u8 = 0xA5;
/// The right size of an image.
const IMAGE: usize = 16_384;

/// A call: on which image, and which one.
#[derive(Clone, Debug, PartialEq, Eq)]
pub struct Call {
    pub view: View,
    pub action: Action,
}

/// Which image buffer the call gets.
#[derive(Clone, Debug, PartialEq, Eq)]
pub enum View {
    /// The station's, which the call may change for those after it.
    Station,
    /// A copy cut or extended to a size; what becomes of it is compared and dropped.
    Sized(usize),
    /// A copy with an edit; what becomes of it is compared and dropped.
    Edited(Edit),
}

/// The call and its other arguments.
#[derive(Clone, Debug, PartialEq, Eq)]
pub enum Action {
    Empty,
    /// No call: the station's image becomes this one.
    Begin(Vec<u8>),
    Deliver {
        message: Vec<u8>,
        steps: usize,
    },
    /// Delivers what the last compose wrote.
    DeliverComposed {
        steps: usize,
    },
    Compose(Composing),
    /// Asks for the value of a tag.
    Setpoint(u32),
    /// Asks for the log's message at a place.
    LogMessage(u32),
    /// Drops the first so many log messages.
    Purge(u32),
    /// Reads a text into a buffer of a size.
    ReadSequences {
        text: Vec<u8>,
        room: usize,
    },
    /// Writes sequences as text into a buffer of a size.
    WriteSequences {
        sequences: Vec<u8>,
        room: usize,
    },
}

/// What a compose is handed beside the image.
#[derive(Clone, Debug, PartialEq, Eq)]
pub struct Composing {
    pub line: Vec<u8>,
    pub commands: Vec<u8>,
    pub priority_flag: u32,
    pub priority: u32,
    /// The size of the message buffer.
    pub room: usize,
}

impl Composing {
    /// Without priority, into a buffer of the least size.
    pub fn plain(line: &[u8], commands: &[u8]) -> Composing {
        Composing {
            line: line.to_vec(),
            commands: commands.to_vec(),
            priority_flag: 0,
            priority: 0,
            room: 200,
        }
    }

    /// The same, as the call takes it.
    pub fn request(&self) -> Request<'_> {
        Request {
            line: &self.line,
            commands: &self.commands,
            priority_flag: self.priority_flag,
            priority: self.priority,
        }
    }
}

impl Display for Composing {
    fn fmt(&self, f: &mut Formatter<'_>) -> fmt::Result {
        write!(
            f,
            "Compose line {} commands {} flag {} priority {} room {}",
            hex(&self.line),
            hex(&self.commands),
            self.priority_flag,
            self.priority,
            self.room
        )
    }
}

/// Bytes as hexadecimal digits.
pub fn hex(bytes: &[u8]) -> String {
    bytes.iter().map(|byte| format!("{byte:02X}")).collect()
}

impl Action {
    /// Whether it is a delivery.
    pub fn delivers(&self) -> bool {
        matches!(
            self,
            Action::Deliver { .. } | Action::DeliverComposed { .. }
        )
    }
}

/// Everything that can be seen after a call: the answer, the image buffer, the step,
/// message, sequence or text buffer whole, and what the call only reads, which it must leave
/// as it was. `text` is the text or the sequences that a call on texts is handed.
#[derive(Clone, Debug, Default, PartialEq, Eq)]
pub struct Outcome {
    pub answer: u64,
    pub image: Vec<u8>,
    pub buffer: Vec<u8>,
    pub message: Vec<u8>,
    pub line: Vec<u8>,
    pub commands: Vec<u8>,
    pub text: Vec<u8>,
}

impl Outcome {
    /// The buffers and their names.
    pub fn buffers(&self) -> [(&'static str, &[u8]); 6] {
        [
            ("image", &self.image),
            ("buffer", &self.buffer),
            ("message", &self.message),
            ("line", &self.line),
            ("commands", &self.commands),
            ("text", &self.text),
        ]
    }
}

/// The station's image, and what the last compose wrote.
#[derive(Clone, Debug)]
pub struct World {
    pub image: Vec<u8>,
    composed: Vec<u8>,
}

impl Default for World {
    /// A buffer that is no image yet.
    fn default() -> World {
        World {
            image: vec![PATTERN; IMAGE],
            composed: Vec::new(),
        }
    }
}

impl World {
    /// Makes the call on an implementation. The station itself is not changed.
    pub fn perform(&self, calls: &dyn Calls, call: &Call) -> Outcome {
        let image = self.view(&call.view);
        match &call.action {
            Action::Empty => empty(calls, image),
            Action::Begin(image) => read(0, image.clone()),
            Action::Deliver { message, steps } => deliver(calls, image, message, *steps),
            Action::DeliverComposed { steps } => deliver(calls, image, &self.composed, *steps),
            Action::Compose(composing) => compose(calls, image, composing.clone()),
            Action::Setpoint(tag) => read(calls.setpoint(&image, *tag), image),
            Action::LogMessage(place) => read(calls.log_message(&image, *place), image),
            Action::Purge(k) => purge(calls, image, *k),
            Action::ReadSequences { text, room } => {
                let by = |from: &[u8], into: &mut [u8]| calls.read_sequences(from, into);
                convert(by, image, text, *room)
            }
            Action::WriteSequences { sequences, room } => {
                let by = |from: &[u8], into: &mut [u8]| calls.write_sequences(from, into);
                convert(by, image, sequences, *room)
            }
        }
    }

    /// The same call, with the composed message written into it.
    pub fn spelled_out(&self, call: &Call) -> Call {
        let mut call = call.clone();
        if let Action::DeliverComposed { steps } = call.action {
            let message = self.composed.clone();
            call.action = Action::Deliver { message, steps };
        }
        call
    }

    /// The station after a call with this outcome.
    pub fn follow(&mut self, call: &Call, outcome: &Outcome) {
        if call.view != View::Station {
            return;
        }
        self.image.clone_from(&outcome.image);
        if matches!(call.action, Action::Compose(_)) && code(outcome.answer) == 0 {
            let written = outcome.buffer.get(..length(outcome.answer));
            self.composed = written.unwrap_or(&[]).to_vec();
        }
    }

    /// The image buffer a call gets.
    pub fn view(&self, view: &View) -> Vec<u8> {
        let mut image = self.image.clone();
        match view {
            View::Station => {}
            View::Sized(size) => image.resize(*size, 0),
            View::Edited(edit) => edit.apply(&mut image),
        }
        image
    }
}

fn empty(calls: &dyn Calls, mut image: Vec<u8>) -> Outcome {
    let answer = calls.empty(&mut image);
    read(answer.into(), image)
}

fn purge(calls: &dyn Calls, mut image: Vec<u8>, k: u32) -> Outcome {
    let answer = calls.purge(&mut image, k);
    read(answer.into(), image)
}

/// What is seen after a call that has no buffer but the image.
fn read(answer: u64, image: Vec<u8>) -> Outcome {
    Outcome {
        answer,
        image,
        ..Outcome::default()
    }
}

/// A delivery of a copy of the message, with a step buffer of a size.
fn deliver(calls: &dyn Calls, mut image: Vec<u8>, message: &[u8], steps: usize) -> Outcome {
    let (message, mut buffer) = (message.to_vec(), pattern(steps));
    let answer = calls.deliver(&mut image, &message, &mut buffer);
    Outcome {
        answer: answer.into(),
        image,
        buffer,
        message,
        ..Outcome::default()
    }
}

/// A compose of arguments that are its own.
fn compose(calls: &dyn Calls, image: Vec<u8>, own: Composing) -> Outcome {
    let mut buffer = pattern(own.room);
    let answer = calls.compose(&image, &own.request(), &mut buffer);
    Outcome {
        answer: answer.into(),
        image,
        buffer,
        line: own.line,
        commands: own.commands,
        ..Outcome::default()
    }
}

/// A copy of a text or of sequences turned into the other, in a buffer of a size. The image
/// is no part of it.
fn convert(
    by: impl Fn(&[u8], &mut [u8]) -> u32,
    image: Vec<u8>,
    from: &[u8],
    room: usize,
) -> Outcome {
    let (text, mut buffer) = (from.to_vec(), pattern(room));
    let answer = by(&text, &mut buffer);
    Outcome {
        answer: answer.into(),
        image,
        buffer,
        text,
        ..Outcome::default()
    }
}

/// A buffer whose bytes are nonzero and differ from those beside them.
fn pattern(size: usize) -> Vec<u8> {
    (0..size).map(|at| 1 + (at % 251) as u8).collect()
}
