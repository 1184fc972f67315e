//! A program run as a process; of the listing program, what it prints.

#![allow(dead_code)]

pub mod pace;

use std::fs::{File, OpenOptions};
use std::io::{self, Write};
use std::os::unix::io::OwnedFd;
use std::os::unix::net::{UnixDatagram, UnixStream};
use std::os::unix::process::ExitStatusExt;
use std::path::PathBuf;
use std::process::{Child, ChildStdin, Command, ExitStatus, Output, Stdio};
use std::thread;
use std::time::{Duration, Instant};

use bivamolune_tests::reference::listing::listing;
use pace::Pace;

/// The signal of a write to a pipe that nobody reads: no crash, but how such a program ends.
const SIGPIPE: i32 = 13;
/// How long a program may take to end.
const LIMIT: Duration = Duration::from_secs(20);

/// Where the crates are, seen from this package. A proved program is in its crate's folder `out`.
const CRATES: &str = "../crates";

/// A program by its path, and the words behind it.
#[derive(Clone, Debug)]
pub struct Program {
    path: PathBuf,
    words: Vec<String>,
}

/// The second implementation's program and, with the feature, the proved one.
pub fn programs() -> Vec<Program> {
    vec![
        Program::at(env!("CARGO_BIN_EXE_listing")),
        #[cfg(feature = "library-listing")]
        proved("listing"),
    ]
}

/// The proved program of a name: as the environment says, or else where it is built. It must
/// be there.
pub fn proved(name: &str) -> Program {
    let variable = format!("BIVAMOLUNE_{}", name.to_uppercase());
    let built = || {
        PathBuf::from(env!("CARGO_MANIFEST_DIR"))
            .join(CRATES)
            .join(name)
            .join("out")
            .join(name)
    };
    let path = std::env::var_os(&variable).map_or_else(built, PathBuf::from);
    assert!(
        path.is_file(),
        "{} is missing: run `rt ci`, or `rt run` in crates/{name}, or set {variable}",
        path.display()
    );
    Program::at(path)
}

impl Program {
    /// The program of a path.
    pub fn at(path: impl Into<PathBuf>) -> Program {
        Program {
            path: path.into(),
            words: Vec::new(),
        }
    }

    /// A script of the shell.
    pub fn script(text: &str) -> Program {
        Program {
            path: PathBuf::from("/bin/sh"),
            words: vec!["-c".to_string(), text.to_string()],
        }
    }

    fn command(&self) -> Command {
        let mut command = Command::new(&self.path);
        command.args(&self.words);
        command
    }

    /// The program as a script starts it by `"$0" "$@"`.
    fn command_in(&self, script: &str) -> Command {
        let mut shell = Command::new("sh");
        shell.args(["-c", script]).arg(&self.path).args(&self.words);
        shell
    }

    /// The program, reading from this.
    fn start_from(&self, stdin: Stdio) -> Child {
        Program::started(self.command().stdin(stdin))
    }

    fn started(command: &mut Command) -> Child {
        let command = command.stdout(Stdio::piped()).stderr(Stdio::piped());
        command.spawn().expect("the program starts")
    }

    /// What the program prints and how it ends, with the input in pieces of a size.
    pub fn output(&self, input: &[u8], size: usize) -> Result<Output, String> {
        fed(self.start_from(Stdio::piped()), input, size)
    }

    /// The same, where there is no room for what it prints.
    pub fn output_without_room(&self, input: &[u8]) -> Result<Output, String> {
        let full = OpenOptions::new().write(true).open("/dev/full");
        let mut command = self.command();
        let command = command.stdin(Stdio::piped()).stderr(Stdio::piped());
        let command = command.stdout(full.expect("it can be opened"));
        let child = command.spawn().expect("the program starts");
        fed(child, input, input.len().max(1))
    }

    /// What the program prints and how it ends, reading from this.
    pub fn output_from(&self, stdin: Stdio) -> Output {
        let mut child = self.start_from(stdin);
        await_end(&mut child);
        child.wait_with_output().expect("what it printed is there")
    }

    /// The same, with standard input closed.
    pub fn output_from_closed(&self) -> Output {
        let mut shell = self.command_in("exec \"$0\" \"$@\" <&-");
        shell.output().expect("the program ends")
    }

    /// What the program prints for an input.
    pub fn list(&self, input: &[u8]) -> Result<String, String> {
        self.list_pieces(input, input.len().max(1))
    }

    /// The same, with the input in pieces of a size.
    pub fn list_pieces(&self, input: &[u8], size: usize) -> Result<String, String> {
        listed(self.output(input, size)?)
    }

    /// The same, with each piece handed over at this pace.
    pub fn list_at(&self, pace: Pace, input: &[u8], size: usize) -> Result<String, String> {
        listed(self.output_at(pace, input, size)?)
    }

    /// Whether it prints what the second implementation gives.
    pub fn agrees(&self, input: &[u8]) -> Result<String, String> {
        let (printed, wanted) = (self.list(input)?, listing(input));
        match printed == wanted {
            true => Ok(printed),
            false => Err(difference(&printed, &wanted)),
        }
    }

    /// How it ends when nobody reads what it prints, with the signal of a closed pipe as a
    /// shell leaves it.
    pub fn end_unread(&self, input: &[u8]) -> ExitStatus {
        unread(self.start_from(Stdio::piped()), input)
    }

    /// The same, with that signal ignored, so that the write fails instead.
    pub fn end_unread_without_signal(&self, input: &[u8]) -> ExitStatus {
        let mut shell = self.command_in("trap '' PIPE; exec \"$0\" \"$@\"");
        unread(Program::started(shell.stdin(Stdio::piped())), input)
    }
}

/// What was printed, if the program ended well.
fn listed(output: Output) -> Result<String, String> {
    if output.status.code() != Some(0) {
        return Err(format!("it ended with {}", output.status));
    }
    String::from_utf8(output.stdout).map_err(|error| error.to_string())
}

/// What a program prints and how it ends, with the input in pieces of a size.
fn fed(mut child: Child, input: &[u8], size: usize) -> Result<Output, String> {
    let stdin = child.stdin.take().expect("its input is piped");
    let bytes = input.to_vec();
    let writer = thread::spawn(move || feed(stdin, &bytes, size));
    let output = child.wait_with_output().expect("the program ends");
    let written = writer.join().expect("no panic");
    written.map_err(|error| format!("it did not read all ({error}): {output:?}"))?;
    Ok(output)
}

/// Writes the input in pieces. It fails where the program ends before it has read all but what
/// a pipe holds.
fn feed(mut stdin: ChildStdin, input: &[u8], size: usize) -> io::Result<()> {
    let mut pieces = input.chunks(size);
    pieces.try_for_each(|piece| stdin.write_all(piece))
}

/// Closes the output before the input comes.
fn unread(mut child: Child, input: &[u8]) -> ExitStatus {
    drop(child.stdout.take());
    let stdin = child.stdin.take().expect("its input is piped");
    feed(stdin, input, input.len().max(1)).expect("the input fits the pipe");
    await_end(&mut child)
}

/// How a program ends. It must do so before long.
fn await_end(child: &mut Child) -> ExitStatus {
    let begin = Instant::now();
    while begin.elapsed() < LIMIT {
        if let Some(status) = child.try_wait().expect("its status can be asked") {
            return status;
        }
        thread::sleep(Duration::from_millis(1));
    }
    child.kill().expect("it can be ended");
    panic!("the program does not end");
}

/// A directory, of which no byte can be read.
pub fn directory() -> Stdio {
    File::open("/").expect("it can be opened").into()
}

/// A file that was opened to be written alone.
pub fn write_only() -> Stdio {
    let file = OpenOptions::new().write(true).open("/dev/null");
    file.expect("it can be opened").into()
}

/// A socket that nobody writes to, where a read would have to wait, and fails instead.
pub fn unready() -> Stdio {
    let socket = UnixDatagram::unbound().expect("a socket");
    socket.set_nonblocking(true).expect("it can be set");
    OwnedFd::from(socket).into()
}

/// These bytes, and then a read that fails: the other end was closed with bytes unread.
pub fn broken_off(bytes: &[u8]) -> Stdio {
    let (mut near, mut far) = UnixStream::pair().expect("two ends");
    near.write_all(b"unread").expect("there is room");
    far.write_all(bytes).expect("there is room");
    drop(far);
    OwnedFd::from(near).into()
}

/// Whether a signal ended it that is not the one of a closed pipe.
pub fn crashed(status: ExitStatus) -> bool {
    status.signal().map_or(false, |signal| signal != SIGPIPE)
}

/// The first line in which two texts differ.
pub fn difference(printed: &str, wanted: &str) -> String {
    let (mut one, mut two) = (printed.lines(), wanted.lines());
    for number in 1.. {
        match (one.next(), two.next()) {
            (None, None) => break,
            (a, b) if a != b => return format!("line {number}: {a:?}, and wanted is {b:?}"),
            _ => {}
        }
    }
    "the ends of lines differ".to_string()
}
