//! The eight calls on byte buffers, with their answers packed into one number.

#[cfg(feature = "earlier")]
mod earlier;
#[cfg(feature = "link")]
mod library;
#[cfg(any(feature = "library-deliver", feature = "earlier"))]
mod pointers;

#[cfg(feature = "earlier")]
pub use earlier::Earlier;
#[cfg(feature = "link")]
pub use library::Library;

use crate::reference::code::Code;
use crate::reference::compose::{compose, Request};
use crate::reference::purge::purge;
use crate::reference::station::{deliver, empty, log_message, log_message_code, setpoint};
use crate::reference::text::{read_sequences, write_sequences};

/// The calls of an implementation, as the C boundary has them. One that an implementation
/// does not have is answered by the second implementation.
pub trait Calls {
    /// The code.
    fn empty(&self, image: &mut [u8]) -> u32 {
        Reference.empty(image)
    }

    /// The code + 256 * undos + 65536 * executions.
    fn deliver(&self, image: &mut [u8], message: &[u8], steps: &mut [u8]) -> u32 {
        Reference.deliver(image, message, steps)
    }

    /// The code + 256 * length of the message.
    fn compose(&self, image: &[u8], request: &Request, message: &mut [u8]) -> u32 {
        Reference.compose(image, request, message)
    }

    /// The code + 2^32 * the value as an unsigned number of 32 bits.
    fn setpoint(&self, image: &[u8], tag: u32) -> u64 {
        Reference.setpoint(image, tag)
    }

    /// The code + 256 * length of the part + 2^32 * its offset in the image; both are 0
    /// beside a refusal.
    fn log_message(&self, image: &[u8], place: u32) -> u64 {
        Reference.log_message(image, place)
    }

    /// The code.
    fn purge(&self, image: &mut [u8], k: u32) -> u32 {
        Reference.purge(image, k)
    }

    /// The code + 256 * length of the sequences.
    fn read_sequences(&self, text: &[u8], sequences: &mut [u8]) -> u32 {
        Reference.read_sequences(text, sequences)
    }

    /// The code + 256 * length of the text.
    fn write_sequences(&self, sequences: &[u8], text: &mut [u8]) -> u32 {
        Reference.write_sequences(sequences, text)
    }
}

/// The second implementation. It has every call.
#[derive(Clone, Copy, Debug, Default)]
pub struct Reference;

impl Calls for Reference {
    fn empty(&self, image: &mut [u8]) -> u32 {
        empty(image).map_or_else(Code::number, |()| 0)
    }

    fn deliver(&self, image: &mut [u8], message: &[u8], steps: &mut [u8]) -> u32 {
        match deliver(image, message, steps) {
            Ok(counts) => 256 * counts.undos as u32 + 65_536 * counts.executions as u32,
            Err(code) => code.number(),
        }
    }

    fn compose(&self, image: &[u8], request: &Request, message: &mut [u8]) -> u32 {
        with_length(compose(image, request, message))
    }

    fn setpoint(&self, image: &[u8], tag: u32) -> u64 {
        let (code, value) = setpoint(image, tag as usize);
        packed(code, value as u32)
    }

    fn log_message(&self, image: &[u8], place: u32) -> u64 {
        let part = log_message(image, place as usize);
        let code = log_message_code(image, place as usize);
        let offset = match part {
            [] => 0,
            _ => part.as_ptr() as usize - image.as_ptr() as usize,
        };
        packed(code + 256 * part.len() as u32, offset as u32)
    }

    fn purge(&self, image: &mut [u8], k: u32) -> u32 {
        purge(image, k).map_or_else(Code::number, |()| 0)
    }

    fn read_sequences(&self, text: &[u8], sequences: &mut [u8]) -> u32 {
        with_length(read_sequences(text, sequences))
    }

    fn write_sequences(&self, sequences: &[u8], text: &mut [u8]) -> u32 {
        with_length(write_sequences(sequences, text))
    }
}

/// The code and the length written.
fn with_length(written: Result<usize, Code>) -> u32 {
    match written {
        Ok(length) => 256 * length as u32,
        Err(code) => code.number(),
    }
}

/// What is tested: the library where it is linked, else the second implementation.
#[cfg(feature = "link")]
pub const SUBJECT: Library = Library;
#[cfg(not(feature = "link"))]
pub const SUBJECT: Reference = Reference;

/// The lower and the upper half of an answer of 64 bits.
pub fn packed(low: u32, high: u32) -> u64 {
    u64::from(high) << 32 | u64::from(low)
}

/// The code of a packed answer.
pub fn code(answer: impl Into<u64>) -> u32 {
    (answer.into() % 256) as u32
}

/// The undos of a delivery's packed answer.
pub fn undos(answer: impl Into<u64>) -> usize {
    (answer.into() / 256 % 256) as usize
}

/// The executions of a delivery's packed answer.
pub fn executions(answer: impl Into<u64>) -> usize {
    (answer.into() / 65_536) as usize
}

/// The length in the packed answer of compose, log message, the reader or the writer.
pub fn length(answer: impl Into<u64>) -> usize {
    (answer.into() % (1 << 32) / 256) as usize
}

/// The offset in the packed answer of log message.
pub fn offset(answer: u64) -> usize {
    (answer >> 32) as usize
}

/// The value in the packed answer of setpoint.
pub fn value(answer: u64) -> i32 {
    (answer >> 32) as u32 as i32
}

/// The functions of the static library that a comparison calls in this build. The rest of
/// `Calls` is answered by the second implementation, and compared with itself.
pub const COMPARED: &[&str] = &[
    #[cfg(feature = "library-empty")]
    "bivamolune_empty",
    #[cfg(feature = "library-deliver")]
    "bivamolune_deliver",
    #[cfg(feature = "library-compose")]
    "bivamolune_compose",
    #[cfg(feature = "library-setpoint")]
    "bivamolune_setpoint",
    #[cfg(feature = "library-log-message")]
    "bivamolune_log_message",
    #[cfg(feature = "library-purge")]
    "bivamolune_purge",
    #[cfg(feature = "library-read-sequences")]
    "bivamolune_read_sequences",
    #[cfg(feature = "library-write-sequences")]
    "bivamolune_write_sequences",
];

#[cfg(all(test, feature = "link"))]
mod tests {
    use super::COMPARED;
    use std::collections::BTreeSet;
    use std::process::Command;

    /// The name in a line of `nm`: address, kind, name.
    fn name(line: &str) -> Option<&str> {
        line.split_whitespace().nth(2)
    }

    /// Whatever the archive exports, of any name, is a function that is compared.
    #[test]
    fn every_function_of_the_archive_is_compared() {
        let archive = env!("BIVAMOLUNE_ARCHIVE");
        let listed = Command::new("nm")
            .args(["-g", "--defined-only", archive])
            .output();
        let listed = String::from_utf8(listed.expect("nm runs").stdout).expect("names");
        let there: BTreeSet<&str> = listed.lines().filter_map(name).collect();
        assert_eq!(there, COMPARED.iter().copied().collect());
    }
}
