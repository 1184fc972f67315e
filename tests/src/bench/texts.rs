//! The cases of texts: one sequence and eight, right, and refused as late as can be.

use crate::bench::cases::{Arrival, Call, Case, Shape, Spec};
use crate::reference::image::SIZE;
use crate::wire::text;

/// Right ones of one and eight sequences, and eight that are refused.
pub fn specs() -> Vec<Spec> {
    let mut specs = Vec::new();
    for shape in [Shape::Read, Shape::Write] {
        specs.extend([1, 8].map(|count| Spec::new(shape, Arrival::Right, count)));
        specs.extend([1, 13, 14].map(|code| Spec::new(shape, Arrival::Refused(code), 8)));
    }
    specs
}

/// The case: its input, a buffer of the least size, and the answer.
pub fn build(spec: &Spec) -> Case {
    let read = spec.shape == Shape::Read;
    let (room, length) = match read {
        true => (96, 12 * spec.count),
        false => (199, 25 * spec.count - 1),
    };
    let (answer, missing) = match spec.arrival {
        Arrival::Refused(1) => (1, 1),
        Arrival::Refused(code) => (code, 0),
        _ => (256 * length as u32, 0),
    };
    Case {
        name: spec.to_string(),
        call: if read { Call::Read } else { Call::Write },
        image: vec![0; SIZE],
        message: input(spec, read),
        steps: vec![0xA5; room - missing],
        answer: answer.into(),
    }
}

/// The text or the sequences. Code 14 is in the last number. Code 13 is in the last
/// character of a text, and in one byte too few of sequences.
fn input(spec: &Spec, read: bool) -> Vec<u8> {
    let mut sequences: Vec<u8> = (0..12 * spec.count)
        .map(|at| (37 * at + 0x9A) as u8)
        .collect();
    if spec.arrival == Arrival::Refused(14) {
        let number = sequences.len() - 2;
        sequences[number..].fill(0);
    }
    let mut input = if read { text(&sequences) } else { sequences };
    if spec.arrival == Arrival::Refused(13) {
        input.pop();
        input.extend(read.then_some(b'G'));
    }
    input
}
