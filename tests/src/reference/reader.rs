//! The log reader: the lent image together with the offset of the next message.

use super::image::{first_message, read_sized, SIZE};
use super::message::cut_at;

/// Hands out the log's messages one after another.
#[derive(Clone, Debug)]
pub struct Reader<'a> {
    image: &'a [u8],
    next: usize,
}

impl<'a> Reader<'a> {
    /// Starts at the first message of the log, past as many floors as the buffer counts. In
    /// one of wrong size it has nowhere to start, and stays at 0.
    pub fn new(image: &'a [u8]) -> Reader<'a> {
        let next = match image.len() {
            SIZE => first_message(image),
            _ => 0,
        };
        Reader { image, next }
    }

    /// The offset of the next message.
    pub fn offset(&self) -> usize {
        self.next
    }

    /// The next message of the log. Past the last one, or on a buffer that answers
    /// 1 or 2, the part is empty and the reader stays.
    pub fn next_message(&mut self) -> &'a [u8] {
        if self.next >= log_end(self.image) {
            return &[];
        }
        let message = cut_at(self.image, self.next).unwrap_or(&[]);
        self.next += message.len();
        message
    }
}

/// The offset past the last message of the log, 0 on a refused buffer.
fn log_end(image: &[u8]) -> usize {
    match read_sized(image) {
        Ok((_, order)) => {
            let lengths = order.log.iter().map(|p| p.delta.bytes().len());
            first_message(image) + lengths.sum::<usize>()
        }
        Err(_) => 0,
    }
}
