//! A copy of the package on which a change is tried: built and run suite by suite.

use std::collections::BTreeSet;
use std::env;
use std::fs;
use std::io::{self, Read};
use std::path::{Path, PathBuf};
use std::process::{Child, Command, Stdio};
use std::thread;
use std::time::{Duration, Instant};

use super::{Mutation, QUICK, SLOW};

/// A suite that runs longer counts as caught: a change may never end.
const LIMIT: Duration = Duration::from_secs(240);

/// What became of a change.
#[derive(Clone, Debug, PartialEq, Eq)]
pub enum Fate {
    Caught(String),
    Alive,
    Unbuilt(String),
}

/// An error in words.
pub fn as_text(error: io::Error) -> String {
    error.to_string()
}

/// A copy of the package, with a build folder of its own.
#[derive(Clone, Debug)]
pub struct Trial {
    copy: PathBuf,
    build: PathBuf,
}

impl Trial {
    /// Copies what the tests need.
    pub fn new(package: &Path) -> io::Result<Trial> {
        let folder = package.join("target/mutate");
        let trial = Trial {
            copy: folder.join("package"),
            build: folder.join("build"),
        };
        if trial.copy.exists() {
            fs::remove_dir_all(&trial.copy)?;
        }
        fs::create_dir_all(&trial.copy)?;
        for name in ["Cargo.toml", "Cargo.lock", "build.rs"] {
            fs::copy(package.join(name), trial.copy.join(name))?;
        }
        for name in ["src", "tests"] {
            copy_folder(&package.join(name), &trial.copy.join(name))?;
        }
        // What is shipped lies beside the package.
        for name in ["docs", "samples"] {
            copy_folder(&package.join("..").join(name), &folder.join(name))?;
        }
        Ok(trial)
    }

    /// Changes a file, does something, and puts the file back.
    pub fn with<T>(&self, mutation: &Mutation, act: impl FnOnce(&Trial) -> T) -> Result<T, String> {
        let file = self.copy.join("src/reference").join(&mutation.file);
        let source = fs::read_to_string(&file).map_err(as_text)?;
        let text = mutation.apply(&source);
        let changed = text.map_err(|why| format!("{}: {why}", mutation.name))?;
        fs::write(&file, changed).map_err(as_text)?;
        let done = act(self);
        fs::write(&file, source).map_err(as_text)?;
        Ok(done)
    }

    /// Builds and runs one suite after another, up to one that fails.
    pub fn fate(&self) -> Fate {
        for suite in QUICK.into_iter().chain(SLOW) {
            match self.built(suite).map(|program| failing(&program, None)) {
                Ok(tests) if tests.is_empty() => {}
                Ok(tests) => return Fate::Caught(format!("{suite}: {}", tests[0])),
                Err(text) => return Fate::Unbuilt(text),
            }
        }
        Fate::Alive
    }

    /// Builds one suite and runs one test of it.
    pub fn fate_by(&self, suite: &str, test: &str) -> Fate {
        match self
            .built(suite)
            .map(|program| failing(&program, Some(test)))
        {
            Ok(tests) if tests.is_empty() => Fate::Alive,
            Ok(_) => Fate::Caught(format!("{suite}: {test}, which names the rule")),
            Err(text) => Fate::Unbuilt(text),
        }
    }

    /// The program of a suite, or what the compiler says.
    pub fn built(&self, suite: &str) -> Result<PathBuf, String> {
        let cargo = env::var_os("CARGO").unwrap_or_else(|| "cargo".into());
        // Where little is run, most of the time goes into the build.
        let level = if QUICK.contains(&suite) { "0" } else { "3" };
        let words = [
            "test",
            "--release",
            "--offline",
            "--no-run",
            "--test",
            suite,
        ];
        let output = Command::new(cargo)
            .args(words)
            .current_dir(&self.copy)
            .env("CARGO_TARGET_DIR", self.build.join(level))
            .env("CARGO_PROFILE_RELEASE_OPT_LEVEL", level)
            .env("CARGO_INCREMENTAL", "1")
            .env("CARGO_TERM_COLOR", "never")
            // A change may leave something unused.
            .env("RUSTFLAGS", "--cap-lints warn")
            .output()
            .map_err(as_text)?;
        let text = String::from_utf8_lossy(&output.stderr).into_owned();
        let executable = text.lines().rev().find_map(|line| {
            let rest = line.trim().strip_prefix("Executable")?;
            rest.rsplit_once('(')?.1.strip_suffix(')')
        });
        match (output.status.success(), executable) {
            (true, Some(program)) => Ok(self.copy.join(program)),
            _ => Err(text),
        }
    }
}

/// The names of a suite's tests.
pub fn names(program: &Path) -> Result<BTreeSet<String>, String> {
    let output = Command::new(program).arg("--list").output();
    let text = output.map_err(as_text)?.stdout;
    let text = String::from_utf8_lossy(&text).into_owned();
    let names = text.lines().filter_map(|line| line.strip_suffix(": test"));
    Ok(names.map(str::to_string).collect())
}

/// Runs a suite or one test of it; the tests that fail, or what happened instead.
pub fn failing(program: &Path, test: Option<&str>) -> Vec<String> {
    // A change may fill the memory.
    let mut words = vec!["-c", "ulimit -v 4000000; exec \"$0\" \"$@\""];
    let program = program.to_string_lossy();
    words.push(&program);
    if let Some(test) = test {
        words.extend(["--exact", test]);
    }
    let child = Command::new("sh")
        .args(words)
        .stdin(Stdio::null())
        .stdout(Stdio::piped())
        .stderr(Stdio::null())
        .spawn();
    match child {
        Ok(child) => outcome(child),
        Err(error) => vec![error.to_string()],
    }
}

/// Waits for a suite, at most as long as a suite may take.
fn outcome(mut child: Child) -> Vec<String> {
    let stdout = child.stdout.take();
    let reader = thread::spawn(move || {
        let mut text = String::new();
        stdout.map(|mut stdout| stdout.read_to_string(&mut text));
        text
    });
    let begin = Instant::now();
    let status = loop {
        match child.try_wait() {
            Ok(None) if begin.elapsed() < LIMIT => thread::sleep(Duration::from_millis(20)),
            Ok(Some(status)) => break Some(status),
            _ => break None,
        }
    };
    if status.is_none() {
        let _ = child.kill();
        let _ = child.wait();
    }
    let text = reader.join().unwrap_or_default();
    let failed = text.lines().filter(|line| line.ends_with("... FAILED"));
    let names = failed.filter_map(|line| line.split_whitespace().nth(1));
    let names: Vec<String> = names.map(str::to_string).collect();
    match status.map(|status| status.success()) {
        Some(true) => Vec::new(),
        _ if !names.is_empty() => names,
        None => vec!["it does not end".to_string()],
        Some(false) => vec!["it breaks off".to_string()],
    }
}

/// Copies a folder with all that is in it.
fn copy_folder(from: &Path, to: &Path) -> io::Result<()> {
    fs::create_dir_all(to)?;
    for entry in fs::read_dir(from)? {
        let entry = entry?;
        let target = to.join(entry.file_name());
        if entry.file_type()?.is_dir() {
            copy_folder(&entry.path(), &target)?;
        } else {
            fs::copy(entry.path(), target)?;
        }
    }
    Ok(())
}
