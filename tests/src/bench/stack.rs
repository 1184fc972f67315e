//! The deepest stack of a call.
//!
//! A thread with a stack of known size paints it: a function that is never inlined fills
//! a large local array with a pattern and returns, so that the bytes below its caller's
//! frame hold the pattern. The caller then makes the measured call, which writes over
//! some of them, and the bytes are read back. They are no longer part of any living
//! variable, and so they are read as a debugger would, through `/proc/self/mem` and not
//! through a pointer: nothing here is unsafe, and the compiler knows of no such read.
//!
//! The lowest byte that changed is the deepest one written. A byte that the call wrote
//! with the pattern's value would be missed, so that two patterns are used and the deeper
//! result counts. Bytes that the last function reserved and never wrote are not counted.
//! The depth is counted from a variable of the caller, which errs upward by the rest of
//! the caller's frame. What the reading itself writes is the floor, printed as well:
//! less than that cannot be seen.

use std::fs::File;
use std::io;
use std::ops::Range;
use std::os::unix::fs::FileExt;
use std::thread;

use crate::bench::cases::{Arrival, Case, Spec};
use crate::bench::measure::check;
use crate::bench::report::print_sides;
use crate::bench::sides::{black_box, library, second, Buffers, FIRST};
use crate::boundary::Calls;
use crate::reference::compose::Request;
use crate::view::u16_at;

/// The thread's stack, and how much of it is painted.
const STACK: usize = 8 << 20;
const PAINTED: usize = 4 << 20;
const PATTERNS: [u8; 2] = [0xA5, 0x5A];

/// What is called on the painted stack.
#[derive(Clone, Copy)]
enum Job<'a> {
    Nothing,
    Empty,
    Case(&'a Case),
    /// On the image of the case: a compose, the calls that only look, and a purge of its log,
    /// of 32 deltas at most.
    Compose(&'a Case),
    Read(&'a Case),
    Purge(&'a Case),
}

/// Eight commands that set tag 0 to 0.
const COMMANDS: [u8; 64] = {
    let mut commands = [0; 64];
    let mut at = 0;
    while at < 64 {
        commands[at] = 1;
        at += 8;
    }
    commands
};

/// A compose of the most commands, with priority.
const REQUEST: Request = Request {
    line: &[0xFF; 10],
    commands: &COMMANDS,
    priority_flag: 1,
    priority: 5,
};

/// The bytes two sides used for the same job.
struct Depths {
    name: String,
    library: usize,
    second: usize,
}

/// Prints the bytes of stack that empty and each case take on both sides. It is an error
/// if the library takes more than a limit.
pub fn run(specs: Vec<Spec>, most: Option<usize>) -> Result<(), String> {
    let worker = thread::Builder::new().stack_size(STACK);
    let worker = worker.spawn(move || measure(&specs));
    let ended = worker.map_err(|error| error.to_string())?.join();
    let (floor, rows) = ended.map_err(|_| "the measuring thread ended early")??;
    print_sides();
    println!("Bytes of stack to the deepest byte written. Below {floor} nothing is seen.");
    println!();
    println!("{:<22}{FIRST:>12}{:>12}", "call", "second");
    for row in &rows {
        println!("{:<22}{:>12}{:>12}", row.name, row.library, row.second);
    }
    let library = rows.iter().map(|row| row.library).max().unwrap_or(0);
    let second = rows.iter().map(|row| row.second).max().unwrap_or(0);
    println!("{:<22}{library:>12}{second:>12}", "deepest");
    match most {
        Some(most) if library > most => Err(format!("{library} bytes of stack, {most} allowed")),
        _ => Ok(()),
    }
}

/// The floor, and the depths of empty and of each case.
fn measure(specs: &[Spec]) -> Result<(usize, Vec<Depths>), String> {
    let mut probe = Probe::new().map_err(|error| format!("no /proc/self/mem: {error}"))?;
    let floor = probe.deepest(second(), Job::Nothing)?;
    let mut rows = vec![probe.depths("empty", Job::Empty)?];
    for spec in specs {
        let case = spec.build();
        check(&case)?;
        rows.push(probe.depths(&case.name, Job::Case(&case))?);
        if matches!(spec.arrival, Arrival::Latest | Arrival::Held) {
            let name = |call| format!("{call} {} {}", spec.shape, spec.count);
            rows.push(probe.depths(&name("compose"), Job::Compose(&case))?);
            rows.push(probe.depths(&name("read"), Job::Read(&case))?);
            rows.push(probe.depths(&name("purge"), Job::Purge(&case))?);
        }
    }
    Ok((floor, rows))
}

/// Everything the reading needs, made before the stack is painted.
struct Probe {
    memory: File,
    seen: Vec<u8>,
}

impl Probe {
    fn new() -> io::Result<Probe> {
        let memory = File::open("/proc/self/mem")?;
        let seen = vec![0; PAINTED];
        Ok(Probe { memory, seen })
    }

    fn depths(&mut self, name: &str, job: Job) -> Result<Depths, String> {
        Ok(Depths {
            name: name.to_string(),
            library: self.deepest(library(), job)?,
            second: self.deepest(second(), job)?,
        })
    }

    /// The greater depth of the two patterns.
    fn deepest(&mut self, calls: &dyn Calls, job: Job) -> Result<usize, String> {
        let mut deepest = 0;
        for pattern in PATTERNS {
            let mut buffers = job.buffers();
            // Once before, so that what happens only the first time is over.
            job.run(calls, &mut buffers);
            buffers = job.buffers();
            let depth = self.depth(calls, job, &mut buffers, pattern);
            deepest = deepest.max(depth.map_err(|error| error.to_string())?);
        }
        Ok(deepest)
    }

    /// Paints, calls and reads, all three from the same frame.
    #[inline(never)]
    fn depth(
        &mut self,
        calls: &dyn Calls,
        job: Job,
        buffers: &mut Buffers,
        pattern: u8,
    ) -> io::Result<usize> {
        // What is called must not become a part of this frame, which is not painted.
        let calls = black_box(calls);
        let mark = 0_u8;
        let top = black_box(&mark) as *const u8 as usize;
        let painted = paint(pattern);
        job.run(calls, buffers);
        self.memory
            .read_exact_at(&mut self.seen, painted.start as u64)?;
        match self.seen.iter().position(|byte| *byte != pattern) {
            Some(0) => {
                let what = "a call went below the painted stack";
                Err(io::Error::new(io::ErrorKind::Other, what))
            }
            Some(changed) => Ok(top - (painted.start + changed)),
            None => Ok(top - painted.end),
        }
    }
}

impl Job<'_> {
    fn buffers(self) -> Buffers {
        match self {
            Job::Case(case) | Job::Compose(case) | Job::Read(case) | Job::Purge(case) => {
                Buffers::new(case)
            }
            Job::Nothing | Job::Empty => Buffers {
                image: vec![0xA5; 16_384],
                steps: Vec::new(),
            },
        }
    }

    #[inline(always)]
    fn run(self, calls: &dyn Calls, buffers: &mut Buffers) {
        match self {
            Job::Nothing => {}
            Job::Empty => {
                black_box(calls.empty(&mut buffers.image));
            }
            Job::Case(case) => {
                buffers.call(calls, case);
            }
            Job::Compose(_) => {
                black_box(calls.compose(&buffers.image, &REQUEST, &mut buffers.steps));
            }
            Job::Read(_) => {
                black_box(calls.setpoint(&buffers.image, 63));
                black_box(calls.log_message(&buffers.image, 0));
            }
            Job::Purge(_) => {
                let log = u16_at(&buffers.image, 0) as u32;
                black_box(calls.purge(&mut buffers.image, log.min(32)));
            }
        }
    }
}

/// Fills the stack below the caller's frame, and says where.
#[inline(never)]
fn paint(pattern: u8) -> Range<usize> {
    let mut array = [0_u8; PAINTED];
    black_box(&mut array).fill(pattern);
    let ends = black_box(&array).as_ptr_range();
    ends.start as usize..ends.end as usize
}

#[cfg(test)]
mod tests {
    use super::{black_box, thread, Calls, Job, Probe, STACK};

    const ARRAY: usize = 100_000;

    /// Takes a known part of the stack.
    struct Known;

    impl Calls for Known {
        fn empty(&self, image: &mut [u8]) -> u32 {
            let array = [image[0]; ARRAY];
            u32::from(black_box(&array)[1])
        }
    }

    /// The image's bytes are the first pattern, so that only the second one shows them.
    #[test]
    fn a_known_depth_is_found() {
        let measured = || Probe::new().map(|mut probe| probe.deepest(&Known, Job::Empty));
        let thread = thread::Builder::new().stack_size(STACK).spawn(measured);
        let depth = thread.unwrap().join().unwrap().unwrap().unwrap();
        assert!((ARRAY..ARRAY + 1_000).contains(&depth), "{depth}");
    }
}
