//! What images and steps say, read by the paper's offsets and apart from the second
//! implementation.

use crate::wire::Sequence;

/// The two-byte number at an offset.
pub fn u16_at(bytes: &[u8], at: usize) -> usize {
    usize::from(bytes[at]) * 256 + usize::from(bytes[at + 1])
}

/// The four-byte number at an offset.
pub fn u32_at(bytes: &[u8], at: usize) -> u32 {
    bytes[at..at + 4]
        .iter()
        .fold(0, |n, b| n * 256 + u32::from(*b))
}

/// Where the values of an image begin.
pub const SETPOINTS: usize = 32;
/// Where its base values begin.
pub const BASE: usize = 288;
/// Where its floors begin, of twelve bytes each.
pub const FLOORS: usize = 544;

/// How many floors an image has.
pub fn floor_count(image: &[u8]) -> usize {
    u16_at(image, 10)
}

/// Where the messages of an image begin.
pub fn first_message(image: &[u8]) -> usize {
    FLOORS + 12 * floor_count(image)
}

/// The floors of an image, each as the sequence of its line and highest purged number.
pub fn floors(image: &[u8]) -> Vec<Sequence> {
    let floors = image[FLOORS..first_message(image)].chunks(12);
    floors.map(sequence_of_bytes).collect()
}

/// Twelve bytes as a sequence; zeros where there are not twelve.
fn sequence_of_bytes(bytes: &[u8]) -> Sequence {
    bytes.try_into().unwrap_or([0; 12])
}

/// The messages of an image: `skip` are left out, `take` are given.
pub fn messages(image: &[u8], skip: usize, take: usize) -> Vec<Vec<u8>> {
    let mut at = first_message(image);
    let mut all = Vec::new();
    for _ in 0..skip + take {
        let length = u16_at(image, at + 4);
        all.push(image[at..at + length].to_vec());
        at += length;
    }
    all.split_off(skip)
}

/// All messages of an image, the log's and then the held ones.
pub fn all_messages(image: &[u8]) -> Vec<Vec<u8>> {
    messages(image, 0, u16_at(image, 0) + u16_at(image, 2))
}

/// The sequences of an image's log.
pub fn log(image: &[u8]) -> Vec<Sequence> {
    let log = messages(image, 0, u16_at(image, 0));
    log.iter().map(|message| sequence_of(message)).collect()
}

/// Bytes 12-23 of a message; zeros where they are missing.
pub fn sequence_of(message: &[u8]) -> Sequence {
    sequence_of_bytes(message.get(12..24).unwrap_or(&[]))
}

/// The 64 values of an image, by tag.
pub fn values(image: &[u8]) -> [i32; 64] {
    values_at(image, SETPOINTS)
}

/// The 64 base values of an image, by tag.
pub fn base_values(image: &[u8]) -> [i32; 64] {
    values_at(image, BASE)
}

fn values_at(image: &[u8], at: usize) -> [i32; 64] {
    let mut values = [0; 64];
    for (tag, value) in values.iter_mut().enumerate() {
        *value = u32_at(image, at + 4 * tag) as i32;
    }
    values
}

/// The size of a step.
pub const STEP: usize = 80;

/// What a step does.
#[derive(Clone, Copy, Debug, PartialEq, Eq)]
pub enum Kind {
    Undo,
    Execute,
}

/// Tag and value.
pub type Pair = (usize, i32);

/// A step, with the pairs that it counts.
#[derive(Clone, Debug, PartialEq, Eq)]
pub struct Step {
    pub kind: Kind,
    pub sequence: Sequence,
    pub pairs: Vec<Pair>,
}

/// The step of these bytes, if they are one: a kind, one to eight pairs with tags up to 63,
/// and zeros in the pairs beyond.
pub fn step(bytes: &[u8]) -> Option<Step> {
    if bytes.len() != STEP {
        return None;
    }
    let kind = match bytes[0] {
        1 => Kind::Undo,
        2 => Kind::Execute,
        _ => return None,
    };
    let count = 65_536 * usize::from(bytes[1]) + u16_at(bytes, 2);
    if !(1..=8).contains(&count) || bytes[16 + 8 * count..].iter().any(|byte| *byte != 0) {
        return None;
    }
    let pair = |at| (u32_at(bytes, at) as usize, u32_at(bytes, at + 4) as i32);
    let pairs: Vec<Pair> = (0..count).map(|place| pair(16 + 8 * place)).collect();
    let sequence = bytes[4..16].try_into().ok()?;
    pairs.iter().all(|(tag, _)| *tag < 64).then_some(Step {
        kind,
        sequence,
        pairs,
    })
}

/// The steps at the front of a buffer, if they are so many undos and then so many
/// executions.
pub fn steps(buffer: &[u8], undos: usize, executions: usize) -> Option<Vec<Step>> {
    let records = buffer.chunks(STEP).take(undos + executions);
    let steps: Vec<Step> = records.map(step).collect::<Option<_>>()?;
    let kind = |place| [Kind::Execute, Kind::Undo][usize::from(place < undos)];
    let right = (0..)
        .zip(&steps)
        .all(|(place, step)| step.kind == kind(place));
    (right && steps.len() == undos + executions).then_some(steps)
}

/// Plays steps on a log: an undo must name its last delta and takes it off, an execution adds the
/// named one at its end. Whether every undo named the last.
pub fn play(log: &mut Vec<Sequence>, steps: &[Step]) -> bool {
    steps.iter().all(|step| match step.kind {
        Kind::Undo => log.pop() == Some(step.sequence),
        Kind::Execute => {
            log.push(step.sequence);
            true
        }
    })
}
