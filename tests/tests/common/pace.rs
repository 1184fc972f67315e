//! Standard input handed over piece by piece, as a program reads it, through a socket, which
//! tells what was left unread.

use std::fs;
use std::io::{self, Error, ErrorKind, Read, Write};
use std::net::Shutdown;
use std::os::unix::io::OwnedFd;
use std::os::unix::net::UnixStream;
use std::process::{Command, Output};
use std::thread;
use std::time::Instant;

use super::{Program, LIMIT};

/// When a piece is handed over.
#[derive(Clone, Copy, Debug, PartialEq)]
pub enum Pace {
    /// At once.
    AtOnce,
    /// When the program waits in a read, which then brings this piece alone.
    Awaited,
    /// The same, after that read was interrupted.
    Interrupted,
}

impl Program {
    /// What the program prints and how it ends, with the input in pieces of a size. It must
    /// read every byte.
    pub fn output_at(&self, pace: Pace, input: &[u8], size: usize) -> Result<Output, String> {
        let (near, mut far) = UnixStream::pair().expect("two ends");
        // A read with a limit of time is not begun again by the system after a stop.
        near.set_read_timeout(Some(LIMIT)).expect("it can be set");
        let child = self.start_from(OwnedFd::from(near).into());
        let handed = hand_over(&mut far, child.id(), pace, input.chunks(size));
        let handed = handed.and(far.shutdown(Shutdown::Write));
        let output = child.wait_with_output().expect("the program ends");
        // This end fails where the other was closed with bytes unread.
        match handed.and_then(|()| far.read(&mut [0])) {
            Ok(_) => Ok(output),
            Err(error) => Err(format!("it did not read all ({error}): {output:?}")),
        }
    }
}

/// Hands the pieces over, and lets the program wait for the end in the same way.
fn hand_over<'a>(
    far: &mut UnixStream,
    child: u32,
    pace: Pace,
    pieces: impl Iterator<Item = &'a [u8]>,
) -> io::Result<()> {
    for piece in pieces {
        await_read(child, pace)?;
        far.write_all(piece)?;
    }
    await_read(child, pace)
}

/// Waits until the program waits in a read, and interrupts that, as the pace asks.
fn await_read(child: u32, pace: Pace) -> io::Result<()> {
    if pace == Pace::AtOnce {
        return Ok(());
    }
    await_state(child, 'S')?;
    if pace == Pace::Interrupted {
        send_signal(child, "STOP");
        await_state(child, 'T')?;
        send_signal(child, "CONT");
    }
    Ok(())
}

/// Waits until a process that was started here sleeps, S, or is stopped, T. It fails where the
/// process has ended.
fn await_state(child: u32, wanted: char) -> io::Result<()> {
    let begin = Instant::now();
    while begin.elapsed() < LIMIT {
        let status = fs::read_to_string(format!("/proc/{child}/stat"))?;
        let behind_name = status.rsplit(") ").next();
        match behind_name.and_then(|fields| fields.chars().next()) {
            Some(state) if state == wanted => return Ok(()),
            Some('Z') => return Err(Error::new(ErrorKind::BrokenPipe, "it has ended")),
            _ => thread::yield_now(),
        }
    }
    Err(Error::new(ErrorKind::TimedOut, "it does not wait"))
}

fn send_signal(child: u32, name: &str) {
    let mut shell = Command::new("sh");
    let shell = shell.args(["-c", "kill -\"$0\" \"$1\"", name, &child.to_string()]);
    let status = shell.status().expect("the shell ends");
    assert!(status.success(), "{name} cannot be sent");
}
