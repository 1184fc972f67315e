//! Deliver by pointers and sizes, of one archive or another.

/// Deliver as an archive has it.
pub type Deliver = unsafe extern "C" fn(*mut u8, usize, *const u8, usize, *mut u8, usize) -> u32;

/// A delivery by the deliver of an archive.
#[allow(unsafe_code)]
pub fn deliver_by(deliver: Deliver, image: &mut [u8], message: &[u8], steps: &mut [u8]) -> u32 {
    // Sound: each pointer and size are those of one slice, and none overlap.
    unsafe {
        deliver(
            image.as_mut_ptr(),
            image.len(),
            message.as_ptr(),
            message.len(),
            steps.as_mut_ptr(),
            steps.len(),
        )
    }
}
