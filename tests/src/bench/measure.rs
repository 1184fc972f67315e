//! Time of all sides in turn, after a check that they do the same.

use std::time::{Duration, Instant};

use crate::bench::cases::Case;
use crate::bench::sides::{black_box, sides, Buffers, NAMES};
use crate::boundary::Calls;

/// Fewer rounds than this are not taken, however long they last.
const LEAST_ROUNDS: usize = 21;
/// A timed part of calls that can be made again lasts at least so long.
const BATCH_NS: f64 = 20_000.0;
/// Copies of an image in one timed part.
const COPIES: usize = 32;

/// How many rounds a case gets: so many, or fewer if they last too long.
#[derive(Clone, Copy, Debug)]
pub struct Effort {
    pub rounds: usize,
    pub time: Duration,
}

/// The time of a call over all rounds, in nanoseconds.
#[derive(Clone, Copy, Debug, PartialEq)]
pub struct Spread {
    pub median: f64,
    pub worst: f64,
}

/// What was measured of a case: a call of each side, in the order of their names, and
/// one copy of 16,384 bytes.
#[derive(Clone, Debug)]
pub struct Timing {
    pub sides: Vec<Spread>,
    pub copy: Spread,
    pub rounds: usize,
}

impl Timing {
    /// The library, or what stands in for it.
    pub fn library(&self) -> Spread {
        self.sides[0]
    }

    /// The second implementation.
    pub fn second(&self) -> Spread {
        self.sides[1]
    }

    /// An earlier archive of the library, if one was linked.
    pub fn earlier(&self) -> Option<Spread> {
        self.sides.get(2).copied()
    }

    /// The library's time over the second implementation's.
    pub fn ratio(&self) -> f64 {
        self.library().median / self.second().median
    }
}

/// Answer, image and step buffer of all sides are equal, and the answer is the case's.
/// Says whether the buffers are as they were.
pub fn check(case: &Case) -> Result<bool, String> {
    let fresh = Buffers::new(case);
    let mut first: Option<Buffers> = None;
    for (calls, side) in sides().into_iter().zip(NAMES) {
        let mut buffers = fresh.clone();
        let answer = buffers.call(calls, case);
        let wrong = |what: &str| Err(format!("{}: {side}: {what}", case.name));
        if answer != case.answer {
            return wrong(&format!("answer {answer:#x}, not {:#x}", case.answer));
        }
        let first = first.get_or_insert_with(|| buffers.clone());
        if buffers.image != first.image {
            return wrong("the images differ");
        }
        if buffers.steps != first.steps {
            return wrong("the step or text buffers differ");
        }
    }
    Ok(first == Some(fresh))
}

/// Times cases after their check: in each round, for each case in turn, all sides and
/// a copy. What slows the machine for a while then falls on all of them.
pub fn measure(cases: &[Case], effort: Effort) -> Result<Vec<Timing>, String> {
    let tracks: Result<Vec<Track>, String> = cases.iter().map(Track::new).collect();
    let mut tracks = tracks?;
    let time = effort.time * cases.len() as u32;
    let begin = Instant::now();
    for round in 0..effort.rounds {
        if round >= LEAST_ROUNDS && begin.elapsed() > time {
            break;
        }
        tracks.iter_mut().for_each(Track::round);
    }
    Ok(tracks.into_iter().map(Track::timing).collect())
}

/// A case and its times so far.
struct Track<'a> {
    case: &'a Case,
    buffers: Buffers,
    batch: usize,
    sides: Vec<Vec<f64>>,
    copy: Vec<f64>,
}

impl<'a> Track<'a> {
    fn new(case: &'a Case) -> Result<Track<'a>, String> {
        // A call on texts writes nothing that it reads, and so may be made again as well.
        let still = check(case)? || !case.call.writes();
        let mut buffers = Buffers::new(case);
        let batch = if still { batch(case, &mut buffers) } else { 1 };
        Ok(Track {
            case,
            buffers,
            batch,
            sides: vec![Vec::new(); NAMES.len()],
            copy: Vec::new(),
        })
    }

    /// One call of each side. Who goes first takes turns, as the later ones are better off.
    fn round(&mut self) {
        let calls = sides();
        for turn in 0..calls.len() {
            let side = (turn + self.copy.len()) % calls.len();
            let time = timed(calls[side], self.case, &mut self.buffers, self.batch);
            self.sides[side].push(time);
        }
        self.copy.push(timed_copy(self.case, &mut self.buffers));
    }

    fn timing(mut self) -> Timing {
        Timing {
            rounds: self.copy.len(),
            sides: self.sides.iter_mut().map(|times| spread(times)).collect(),
            copy: spread(&mut self.copy),
        }
    }
}

/// The time of one call, from fresh buffers. The refilling is outside the timed part,
/// as is a first call of the same side, which brings its code and data near.
/// Calls that write nothing that they read are timed as a batch on the same buffers.
fn timed(calls: &dyn Calls, case: &Case, buffers: &mut Buffers, batch: usize) -> f64 {
    buffers.refill(case);
    buffers.call(calls, case);
    buffers.refill(case);
    let begin = Instant::now();
    for _ in 0..batch {
        buffers.call(calls, case);
    }
    begin.elapsed().as_nanos() as f64 / batch as f64
}

/// How many calls make a timed part long enough.
fn batch(case: &Case, buffers: &mut Buffers) -> usize {
    let times = sides().into_iter();
    let times = times.map(|calls| timed(calls, case, buffers, LEAST_ROUNDS));
    let least = times.fold(BATCH_NS, f64::min).max(1.0);
    (BATCH_NS / least).ceil() as usize
}

/// The time of one copy of an image.
fn timed_copy(case: &Case, buffers: &mut Buffers) -> f64 {
    let begin = Instant::now();
    for _ in 0..COPIES {
        black_box(&mut buffers.image).copy_from_slice(black_box(&case.image));
    }
    begin.elapsed().as_nanos() as f64 / COPIES as f64
}

/// What the clock itself takes, which is in the time of every single call.
pub fn clock() -> f64 {
    let mut times: Vec<f64> = (0..1_001)
        .map(|_| Instant::now().elapsed().as_nanos() as f64)
        .collect();
    spread(&mut times).median
}

/// The worst one, and the middle one or the mean of the two in the middle.
fn spread(times: &mut [f64]) -> Spread {
    times.sort_by(f64::total_cmp);
    let middle = times.len() / 2;
    let median = match times.len() {
        0 => f64::NAN,
        count if count % 2 == 1 => times[middle],
        _ => (times[middle - 1] + times[middle]) / 2.0,
    };
    let worst = times.last().copied().unwrap_or(f64::NAN);
    Spread { median, worst }
}

#[cfg(test)]
mod tests {
    use super::{spread, Spread};

    #[test]
    fn the_median_and_the_worst() {
        let odd = spread(&mut [9.0, 1.0, 4.0]);
        assert_eq!(
            odd,
            Spread {
                median: 4.0,
                worst: 9.0
            }
        );
        let even = spread(&mut [5.0, 8.0, 1.0, 4.0]);
        assert_eq!(
            even,
            Spread {
                median: 4.5,
                worst: 8.0
            }
        );
    }
}
