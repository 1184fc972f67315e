//! The sides that are measured, and the buffers they share.

use std::arch::asm;

use crate::bench::cases::{Call, Case};
use crate::boundary::{Calls, Reference, SUBJECT};

/// The name of the first side: without the library's deliver it is the second
/// implementation once more.
pub const FIRST: &str = if cfg!(feature = "library-deliver") {
    "library"
} else {
    "itself"
};

static SECOND: Reference = Reference;
#[cfg(feature = "earlier")]
static EARLIER: crate::boundary::Earlier = crate::boundary::Earlier;

/// The names of the sides, in the order of their times.
pub const NAMES: &[&str] = if cfg!(feature = "earlier") {
    &[FIRST, "second", "earlier"]
} else {
    &[FIRST, "second"]
};

/// The sides, called the same way so that none is inlined.
pub fn sides() -> Vec<&'static dyn Calls> {
    vec![
        library(),
        second(),
        #[cfg(feature = "earlier")]
        black_box(&EARLIER),
    ]
}

/// What is run in a measurement. `Copy` makes no call: it is what both sides have in
/// common, the refilling of the buffers.
#[derive(Clone, Copy, Debug, PartialEq, Eq)]
pub enum Side {
    Library,
    Second,
    Copy,
}

impl Side {
    /// The side of that name on the command line.
    pub fn named(name: &str) -> Option<Side> {
        match name {
            "library" => Some(Side::Library),
            "second" => Some(Side::Second),
            "copy" => Some(Side::Copy),
            _ => None,
        }
    }

    /// The implementation.
    pub fn calls(self) -> Option<&'static dyn Calls> {
        match self {
            Side::Library => Some(library()),
            Side::Second => Some(second()),
            Side::Copy => None,
        }
    }
}

/// The library, or what stands in for it.
pub fn library() -> &'static dyn Calls {
    black_box(&SUBJECT)
}

/// The second implementation.
pub fn second() -> &'static dyn Calls {
    black_box(&SECOND)
}

/// A value of which the compiler knows nothing any more. `std::hint` has it only in
/// versions of Rust newer than the one that these tests are to be built with.
#[allow(unsafe_code)]
pub fn black_box<T>(value: T) -> T {
    let mut value = value;
    // Sound: it has no instruction. The compiler must take it that the value was read
    // and written.
    unsafe {
        asm!("/* {} */", in(reg) std::ptr::addr_of_mut!(value), options(nostack, preserves_flags));
    }
    value
}

/// The image and the step buffer of a call, or the buffer of a call on texts, at the same
/// addresses for both sides. Log message and a purge have the image alone.
#[derive(Clone, Debug, PartialEq, Eq)]
pub struct Buffers {
    pub image: Vec<u8>,
    pub steps: Vec<u8>,
}

impl Buffers {
    /// The buffers as a call of the case finds them.
    pub fn new(case: &Case) -> Buffers {
        Buffers {
            image: case.image.clone(),
            steps: case.steps.clone(),
        }
    }

    /// Copies image and step buffer of the case afresh.
    pub fn refill(&mut self, case: &Case) {
        black_box(&mut self.image).copy_from_slice(black_box(&case.image));
        black_box(&mut self.steps).copy_from_slice(black_box(&case.steps));
    }

    /// One call of the case.
    #[inline(always)]
    pub fn call(&mut self, calls: &dyn Calls, case: &Case) -> u64 {
        let steps = &mut self.steps;
        black_box(match case.call {
            Call::Deliver => calls.deliver(&mut self.image, &case.message, steps).into(),
            Call::Read => calls.read_sequences(&case.message, steps).into(),
            Call::Write => calls.write_sequences(&case.message, steps).into(),
            Call::Purge(k) => calls.purge(&mut self.image, k).into(),
            Call::Places(first, last) => {
                let places = first..=last;
                places
                    .map(|place| calls.log_message(&self.image, place))
                    .sum()
            }
        })
    }
}

/// Refills the buffers and makes the call, so many times, and nothing else.
pub fn repeat(case: &Case, side: Side, times: u64) {
    let calls = side.calls();
    let mut buffers = Buffers::new(case);
    for _ in 0..times {
        buffers.refill(case);
        if let Some(calls) = calls {
            buffers.call(calls, case);
        }
    }
}
