//! Standard input of the programs.

use std::fs::File;
use std::io::{self, Read};
use std::os::unix::io::AsFd;

/// Reads up to so many bytes, and drops what lies beyond; that is read too, so that its
/// writer can end. What was read before a failure is kept.
pub fn read_input(most: usize, input: &mut Vec<u8>) -> io::Result<()> {
    // Read by `io::stdin`, a descriptor that cannot be read would be one at its end.
    let mut stdin = File::from(io::stdin().as_fd().try_clone_to_owned()?);
    stdin.by_ref().take(most as u64).read_to_end(input)?;
    io::copy(&mut stdin, &mut io::sink())?;
    Ok(())
}
