//! The static library. A function whose feature is off is answered by the second
//! implementation, so that a comparison says nothing about it.

#[cfg(feature = "library-deliver")]
use super::pointers::deliver_by;
use super::Calls;
#[cfg(feature = "library-compose")]
use super::Request;

#[allow(unsafe_code)]
extern "C" {
    #[cfg(feature = "library-empty")]
    fn bivamolune_empty(image: *mut u8, image_size: usize) -> u32;

    #[cfg(feature = "library-deliver")]
    fn bivamolune_deliver(
        image: *mut u8,
        image_size: usize,
        message: *const u8,
        message_size: usize,
        steps: *mut u8,
        steps_size: usize,
    ) -> u32;

    #[cfg(feature = "library-compose")]
    fn bivamolune_compose(
        image: *const u8,
        image_size: usize,
        line: *const u8,
        line_size: usize,
        commands: *const u8,
        commands_size: usize,
        priority_flag: u32,
        priority: u32,
        message: *mut u8,
        message_size: usize,
    ) -> u32;

    #[cfg(feature = "library-setpoint")]
    fn bivamolune_setpoint(image: *const u8, image_size: usize, tag: u32) -> u64;

    #[cfg(feature = "library-log-message")]
    fn bivamolune_log_message(image: *const u8, image_size: usize, place: u32) -> u64;

    #[cfg(feature = "library-purge")]
    fn bivamolune_purge(image: *mut u8, image_size: usize, k: u32) -> u32;

    #[cfg(feature = "library-read-sequences")]
    fn bivamolune_read_sequences(
        text: *const u8,
        text_size: usize,
        sequences: *mut u8,
        sequences_size: usize,
    ) -> u32;

    #[cfg(feature = "library-write-sequences")]
    fn bivamolune_write_sequences(
        sequences: *const u8,
        sequences_size: usize,
        text: *mut u8,
        text_size: usize,
    ) -> u32;
}

/// The functions of the static library.
#[derive(Clone, Copy, Debug, Default)]
pub struct Library;

// Sound, each of them: each pointer and size are those of one slice, and none overlap.
#[allow(unsafe_code)]
impl Calls for Library {
    #[cfg(feature = "library-empty")]
    fn empty(&self, image: &mut [u8]) -> u32 {
        unsafe { bivamolune_empty(image.as_mut_ptr(), image.len()) }
    }

    #[cfg(feature = "library-deliver")]
    fn deliver(&self, image: &mut [u8], message: &[u8], steps: &mut [u8]) -> u32 {
        deliver_by(bivamolune_deliver, image, message, steps)
    }

    #[cfg(feature = "library-compose")]
    fn compose(&self, image: &[u8], request: &Request, message: &mut [u8]) -> u32 {
        unsafe {
            bivamolune_compose(
                image.as_ptr(),
                image.len(),
                request.line.as_ptr(),
                request.line.len(),
                request.commands.as_ptr(),
                request.commands.len(),
                request.priority_flag,
                request.priority,
                message.as_mut_ptr(),
                message.len(),
            )
        }
    }

    #[cfg(feature = "library-setpoint")]
    fn setpoint(&self, image: &[u8], tag: u32) -> u64 {
        unsafe { bivamolune_setpoint(image.as_ptr(), image.len(), tag) }
    }

    #[cfg(feature = "library-log-message")]
    fn log_message(&self, image: &[u8], place: u32) -> u64 {
        unsafe { bivamolune_log_message(image.as_ptr(), image.len(), place) }
    }

    #[cfg(feature = "library-purge")]
    fn purge(&self, image: &mut [u8], k: u32) -> u32 {
        unsafe { bivamolune_purge(image.as_mut_ptr(), image.len(), k) }
    }

    #[cfg(feature = "library-read-sequences")]
    fn read_sequences(&self, text: &[u8], sequences: &mut [u8]) -> u32 {
        unsafe {
            bivamolune_read_sequences(
                text.as_ptr(),
                text.len(),
                sequences.as_mut_ptr(),
                sequences.len(),
            )
        }
    }

    #[cfg(feature = "library-write-sequences")]
    fn write_sequences(&self, sequences: &[u8], text: &mut [u8]) -> u32 {
        unsafe {
            bivamolune_write_sequences(
                sequences.as_ptr(),
                sequences.len(),
                text.as_mut_ptr(),
                text.len(),
            )
        }
    }
}
