//! Writes the calls of the generator's first seeds to standard output, for the host with
//! guarded pages (`c/guard.c`), which makes them on the library; then purges of images of all
//! shapes, right ones, damaged ones and bytes that are none, by the same seeds.
//!
//! `guard_cases COUNT`, the number of seeds. A call is a letter, then each buffer that it
//! reads as a size and its bytes, then its numbers, all numbers of four bytes.

#![deny(warnings)]

use std::cell::RefCell;
use std::env;
use std::io::{self, Write};
use std::process::ExitCode;

use bivamolune_tests::boundary::{Calls, Reference};
use bivamolune_tests::call::World;
use bivamolune_tests::generate::{case, image_input};
use bivamolune_tests::reference::compose::Request;
use bivamolune_tests::view::u16_at;

/// The size of an image.
const IMAGE: usize = 16_384;
/// The host has no room for larger buffers.
const MOST: usize = 20_000;
/// How many floors some of the images claim.
const CLAIMS: [u16; 4] = [1, 33, 1_321, 0xFFFF];

/// The second implementation, which writes down what it was called with.
#[derive(Default)]
struct Recorder {
    written: RefCell<Vec<u8>>,
}

impl Recorder {
    fn letter(&self, letter: u8) {
        self.written.borrow_mut().push(letter);
    }

    fn number(&self, number: u32) {
        self.written.borrow_mut().extend(number.to_ne_bytes());
    }

    fn buffer(&self, bytes: &[u8]) {
        self.number(bytes.len() as u32);
        self.written.borrow_mut().extend(bytes);
    }
}

impl Calls for Recorder {
    fn empty(&self, image: &mut [u8]) -> u32 {
        self.letter(b'e');
        self.buffer(image);
        Reference.empty(image)
    }

    fn deliver(&self, image: &mut [u8], message: &[u8], steps: &mut [u8]) -> u32 {
        self.letter(b'd');
        self.buffer(image);
        self.buffer(message);
        self.number(steps.len() as u32);
        Reference.deliver(image, message, steps)
    }

    fn compose(&self, image: &[u8], request: &Request, message: &mut [u8]) -> u32 {
        self.letter(b'c');
        self.buffer(image);
        self.buffer(request.line);
        self.buffer(request.commands);
        self.number(request.priority_flag);
        self.number(request.priority);
        self.number(message.len() as u32);
        Reference.compose(image, request, message)
    }

    fn setpoint(&self, image: &[u8], tag: u32) -> u64 {
        self.letter(b's');
        self.buffer(image);
        self.number(tag);
        Reference.setpoint(image, tag)
    }

    fn log_message(&self, image: &[u8], place: u32) -> u64 {
        self.letter(b'l');
        self.buffer(image);
        self.number(place);
        Reference.log_message(image, place)
    }

    fn purge(&self, image: &mut [u8], k: u32) -> u32 {
        self.letter(b'p');
        self.buffer(image);
        self.number(k);
        Reference.purge(image, k)
    }

    fn read_sequences(&self, text: &[u8], sequences: &mut [u8]) -> u32 {
        self.letter(b'r');
        self.buffer(text);
        self.number(sequences.len() as u32);
        Reference.read_sequences(text, sequences)
    }

    fn write_sequences(&self, sequences: &[u8], text: &mut [u8]) -> u32 {
        self.letter(b'w');
        self.buffer(sequences);
        self.number(text.len() as u32);
        Reference.write_sequences(sequences, text)
    }
}

fn main() -> ExitCode {
    let count = env::args().nth(1).and_then(|word| word.parse().ok());
    let written = count.map(|count: u64| (0..count).try_for_each(write_case));
    match written {
        Some(Ok(())) => ExitCode::SUCCESS,
        Some(Err(error)) => {
            eprintln!("guard_cases: {error}");
            ExitCode::FAILURE
        }
        None => {
            eprintln!("usage: guard_cases COUNT");
            ExitCode::from(2)
        }
    }
}

/// Makes the calls of a seed, and its purges, and writes them.
fn write_case(seed: u64) -> io::Result<()> {
    let recorder = Recorder::default();
    let mut world = World::default();
    for call in case(seed) {
        let outcome = world.perform(&recorder, &call);
        world.follow(&call, &outcome);
    }
    let mut image = image_input(seed);
    image.truncate(MOST);
    purge_each(&recorder, &image);
    if image.len() == IMAGE {
        let claim = CLAIMS[seed as usize % CLAIMS.len()];
        image[10..12].copy_from_slice(&claim.to_be_bytes());
        purge_each(&recorder, &image);
    }
    let written = recorder.written.borrow();
    io::stdout().lock().write_all(&written)
}

/// Purges copies of an image: by none, one, half of the log, the log, one more, and by the most
/// that can be said.
fn purge_each(calls: &Recorder, image: &[u8]) {
    let log = match image.len() {
        0 | 1 => 0,
        _ => u16_at(image, 0) as u32,
    };
    for k in [0, 1, log / 2, log, log + 1, u32::MAX] {
        calls.purge(&mut image.to_vec(), k);
    }
}
