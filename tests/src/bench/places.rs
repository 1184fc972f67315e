//! The cases of log message: one place of a log and all of them, and an image that is refused
//! for where its messages end.

use crate::bench::cases::{Arrival, Call, Case, Shape, Spec};
use crate::boundary::packed;
use crate::edit::Edit;

/// The deltas of the log, each of so many bytes.
const COUNT: usize = 64;
const LENGTH: u32 = 48;

/// Makes the bytes used one more than where the messages end.
pub const USED_ONE_MORE: Edit = Edit::Header(8, 1);

/// The first and the last place, the whole log, and the image that is refused.
pub fn specs() -> Vec<Spec> {
    let arrivals = [
        Arrival::Begin,
        Arrival::End,
        Arrival::Whole,
        Arrival::Refused(2),
    ];
    arrivals
        .map(|arrival| Spec::new(Shape::Log, arrival, COUNT))
        .to_vec()
}

/// The case: its image, its places, and the sum of their answers.
pub fn build(spec: &Spec) -> Case {
    let mut image = Shape::Chain.image(spec.count);
    let last = spec.count as u32 - 1;
    let (first, last) = match spec.arrival {
        Arrival::Begin => (0, 0),
        Arrival::Whole => (0, last),
        _ => (last, last),
    };
    let part = |place| packed(256 * LENGTH, 544 + LENGTH * place);
    let mut answer = (first..=last).map(part).sum();
    if spec.arrival == Arrival::Refused(2) {
        USED_ONE_MORE.apply(&mut image);
        answer = 2;
    }
    Case {
        name: spec.to_string(),
        call: Call::Places(first, last),
        image,
        message: Vec::new(),
        steps: Vec::new(),
        answer,
    }
}
