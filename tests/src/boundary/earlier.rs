//! An earlier archive of the static library, for the benchmark alone: only deliver. The
//! build gives its functions other names, so that both archives fit into one program.

use super::pointers::deliver_by;
use super::Calls;

#[allow(unsafe_code)]
extern "C" {
    fn earlier_bivamolune_deliver(
        image: *mut u8,
        image_size: usize,
        message: *const u8,
        message_size: usize,
        steps: *mut u8,
        steps_size: usize,
    ) -> u32;
}

/// Deliver of the earlier archive; the rest is the second implementation's.
#[derive(Clone, Copy, Debug, Default)]
pub struct Earlier;

impl Calls for Earlier {
    fn deliver(&self, image: &mut [u8], message: &[u8], steps: &mut [u8]) -> u32 {
        deliver_by(earlier_bivamolune_deliver, image, message, steps)
    }
}
