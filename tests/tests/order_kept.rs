//! The check of late arrivals itself: steps and logs by hand that keep the order, and some that do
//! not.

#![deny(warnings)]

mod common;

use bivamolune_tests::order_kept::{by_logs, by_steps, is_what_is_left, pairs_stand, Broken};
use bivamolune_tests::wire::{line, sequence, Sequence};
use common::{PATTERN, STEP, STEPS};

/// Letters as sequences of number 1.
fn log(letters: &str) -> Vec<Sequence> {
    let lines = letters.bytes().map(|letter| line(letter - b'A' + 0x0A));
    lines.map(|line| sequence(line, 1)).collect()
}

/// A step of one pair, which sets tag 0 to 1.
fn record(kind: u8, own: &Sequence) -> [u8; STEP] {
    let mut record = [0; STEP];
    record[0] = kind;
    record[3] = 1;
    record[4..16].copy_from_slice(own);
    record[23] = 1;
    record
}

/// The buffer of these undos and executions, in the order in which they are written, and the
/// answer that counts them.
fn delivery(undone: &str, executed: &str) -> (u32, Vec<u8>) {
    let undos = log(undone).into_iter().map(|own| record(1, &own));
    let executions = log(executed).into_iter().map(|own| record(2, &own));
    let mut buffer = undos.chain(executions).collect::<Vec<_>>().concat();
    buffer.resize(STEPS, PATTERN);
    let answer = 256 * undone.len() + 65_536 * executed.len();
    (answer as u32, buffer)
}

fn of_steps(undone: &str, executed: &str) -> Result<(), Broken> {
    let (answer, buffer) = delivery(undone, executed);
    by_steps(answer, &buffer)
}

/// The last undone stood first: after CB, which undoes C and then B, come B and C again.
#[test]
fn steps_that_keep_the_order() {
    for (undone, executed) in [
        ("", ""),
        ("", "A"),
        ("", "BA"),
        ("B", "AB"),
        ("A", "AB"),
        ("CB", "ABC"),
        ("CB", "BAC"),
        ("CB", "BCA"),
        ("CB", "BC"),
        ("FDB", "EBADCF"),
    ] {
        assert_eq!(of_steps(undone, executed), Ok(()), "{undone} {executed}");
    }
}

/// Turned round, left out, or executed twice.
#[test]
fn steps_that_do_not() {
    for (undone, executed, left) in [
        ("CB", "CB", "CB"),
        ("CB", "ACB", "CB"),
        ("CB", "CAB", "CB"),
        ("DCB", "BADC", "BDC"),
        ("B", "", ""),
        ("B", "A", ""),
        ("CB", "AC", "C"),
        ("B", "ABB", "BB"),
        ("BB", "AB", "B"),
    ] {
        let before = log(&undone.chars().rev().collect::<String>());
        let after = log(left);
        let broken = Err(Broken::Order { before, after });
        assert_eq!(of_steps(undone, executed), broken, "{undone} {executed}");
    }
}

/// Each byte of a sequence tells one delta from another.
#[test]
fn one_byte_of_a_sequence_is_another_delta() {
    for byte in 0..12 {
        let (answer, mut buffer) = delivery("B", "AB");
        assert_eq!(by_steps(answer, &buffer), Ok(()));
        buffer[2 * STEP + 4 + byte] ^= 1;
        assert!(by_steps(answer, &buffer).is_err(), "byte {byte}");
    }
}

/// Records that are not those which the answer counts.
#[test]
fn records_that_are_not_those_counted() {
    let (_, buffer) = delivery("B", "AB");
    for (undos, executions) in [(0, 1), (1, 3), (2, 1), (3, 0), (1, 200)] {
        let answer = (256 * undos + 65_536 * executions) as u32;
        let broken = Broken::Records { undos, executions };
        assert_eq!(by_steps(answer, &buffer), Err(broken));
    }
    let (answer, buffer) = delivery("CB", "ABC");
    assert!(by_steps(answer, &buffer[..4 * STEP]).is_err());
}

#[test]
fn what_is_broken_in_words() {
    let broken = of_steps("CB", "CAB").expect_err("turned round");
    let [b, c] = ["00000000000B000000010001", "00000000000C000000010001"];
    let words = format!("order not kept: {b} {c} before, {c} {b} after");
    assert_eq!(broken.to_string(), words);
    let records = Broken::Records {
        undos: 1,
        executions: 3,
    };
    assert_eq!(records.to_string(), "not 1 undos, then 3 executions");
}

#[test]
fn logs_by_hand() {
    for (old, new) in [("", "A"), ("B", "AB"), ("AC", "ABC"), ("BC", "ABCD")] {
        assert_eq!(by_logs(&log(old), &log(new)), Ok(()), "{old} {new}");
    }
    for (old, new, left) in [
        ("AB", "BA", "BA"),
        ("AB", "BCA", "BA"),
        ("ABC", "DAC", "AC"),
    ] {
        let (before, after) = (log(old), log(left));
        let broken = Err(Broken::Order { before, after });
        assert_eq!(by_logs(&log(old), &log(new)), broken, "{old} {new}");
    }
}

/// All logs of up to four of four deltas, each once.
fn logs() -> Vec<Vec<Sequence>> {
    let mut all = vec![Vec::new()];
    let mut done = 0;
    while done < all.len() {
        for own in log("ABCD") {
            if !all[done].contains(&own) {
                all.push([&all[done][..], &[own]].concat());
            }
        }
        done += 1;
    }
    all
}

/// Of all pairs of logs: the two forms say the same where the new log has all of the old one, or the
/// old one had two or more; where a lone delta is gone, only the stronger form sees it. How many
/// logs keep an old one of n is known: 24 / n! of the whole ones.
#[test]
fn the_two_forms() {
    let all = logs();
    assert_eq!(all.len(), 1 + 4 + 12 + 24 + 24);
    let mut whole = [0; 5];
    for (old, new) in all
        .iter()
        .flat_map(|old| all.iter().map(move |new| (old, new)))
    {
        let (pairs, left) = (pairs_stand(old, new), is_what_is_left(old, new));
        let gone = old.iter().any(|own| !new.contains(own));
        assert_eq!(pairs, left || (gone && old.len() == 1), "{old:?} {new:?}");
        assert_eq!(by_logs(old, new).is_ok(), left);
        whole[old.len()] += usize::from(left && new.len() == 4);
    }
    assert_eq!(whole, [24, 4 * 24, 12 * 12, 24 * 4, 24]);
}

/// A delta that stands twice in the new log stands before itself.
#[test]
fn a_delta_twice_is_no_order() {
    let (old, new) = (log("AB"), log("ABA"));
    assert!(!pairs_stand(&old, &new) && !is_what_is_left(&old, &new));
    assert!(!pairs_stand(&log("A"), &log("AA")));
}
