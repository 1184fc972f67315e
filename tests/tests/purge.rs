//! "Purging the old end", the purge itself: what it drops, what it leaves of it, and what calls
//! give afterwards. What is expected is written out.

#![deny(warnings)]

mod common;

use bivamolune_tests::reference::compose::Request;
use bivamolune_tests::sketch::Sketch;
use bivamolune_tests::view::{base_values, floors, u16_at, u32_at, values};
use bivamolune_tests::wire::{add, line, raise, sequence, set, Draft, Sequence};
use common::{
    a1, b1, delta, find_log_message, plain_request, setpoint, steps, Station, A, B, C, D,
};

fn s(letter: u8, number: u16) -> Sequence {
    sequence(line(letter), number)
}

/// The purged block and the purged group.
fn block_and_group(station: &Station) -> (u32, u32) {
    (u32_at(&station.image, 16), u32_at(&station.image, 20))
}

/// Composes on a line, without priority or with this one, and delivers; the steps, and the group
/// and the block of the message.
fn compose_and_deliver(
    station: &mut Station,
    letter: u8,
    priority: Option<u32>,
) -> (String, u32, u32) {
    let line = line(letter);
    let (code, message) = station.compose(&Request {
        priority_flag: u32::from(priority.is_some()),
        priority: priority.unwrap_or(0),
        ..plain_request(&line)
    });
    assert_eq!(code, 0);
    let (code, steps) = station.deliver_bytes(&message);
    assert_eq!(code, 0);
    (steps, u32_at(&message, 24), u32_at(&message, 28))
}

/// A1 and B1 of the examples, then A2 of block 4, and C2 held.
fn some() -> Sketch {
    let a2 = delta(A, 2).priority(4, 0);
    Sketch {
        log: vec![a1(), b1().group(3), a2.commands(&[add(3, 5), set(7, 9)])],
        held: vec![delta(C, 2)],
        values: vec![(3, 1485), (7, 9)],
        ..Sketch::default()
    }
}

/// "A call drops the first K log messages"; floors, base values, block and group are what they
/// leave, and the setpoints stay. Beyond L it is 15.
#[test]
fn each_k_of_a_small_log() {
    let all = some();
    let after = |k: usize, floors: &[Sequence], tag_3: i32, block, group| Sketch {
        log: all.log[k..].to_vec(),
        floors: floors.to_vec(),
        base: vec![(3, tag_3), (7, if k == 3 { 9 } else { 0 })],
        block,
        group,
        ..all.clone()
    };
    let expected = [
        all.clone(),
        after(1, &[s(A, 1)], 1500, 0, 1),
        after(2, &[s(A, 1), s(B, 1)], 1480, 0, 3),
        after(3, &[s(A, 2), s(B, 1)], 1485, 4, 3),
    ];
    for (k, expected) in (0..).zip(expected) {
        let mut station = Station { image: all.image() };
        assert_eq!(station.purge(k), 0);
        assert!(station.image == expected.image(), "K = {k}");
    }
    let mut station = Station { image: all.image() };
    for k in [4, 256, 257, 65_536, 65_537, 1 << 31, u32::MAX] {
        assert_eq!(station.purge(k), 15, "K = {k}");
    }
}

/// "The first K log messages" are those of the log's order, not of arrival and not of sequences.
#[test]
fn the_first_of_the_log_are_dropped() {
    let arrivals = [
        delta(A, 1).priority(2, 0),
        delta(D, 1),
        delta(B, 1).group(2),
        delta(C, 1).group(1).naming(&[s(A, 1)]),
    ];
    let logs = ["D1 B1 A1 C1", "B1 A1 C1", "A1 C1", "C1", ""];
    for (k, log) in (0..).zip(logs) {
        let mut station = Station::with(&arrivals);
        assert_eq!((station.purge(k), station.log()), (0, log.to_string()));
    }
}

/// "The setpoints after them become the base values", with sums stopped as they were.
#[test]
fn base_values_of_stopped_sums() {
    let mut station = Station::with(&[
        delta(A, 1).commands(&[set(0, 999_990), set(63, -999_990)]),
        delta(B, 1).commands(&[add(0, 20), add(63, -20)]),
        delta(C, 1).commands(&[add(0, -20), add(63, 20), raise(5, 7)]),
    ]);
    for (base, at_63) in [(999_990, -999_990), (1_000_000, -1_000_000)] {
        assert_eq!(station.purge(1), 0);
        let base_now = base_values(&station.image);
        assert_eq!((base_now[0], base_now[63], base_now[5]), (base, at_63, 0));
        assert_eq!((station.value(0), station.value(63)), (999_980, -999_980));
    }
    assert_eq!(station.purge(1), 0);
    assert!(base_values(&station.image) == values(&station.image));
    assert_eq!(base_values(&station.image)[5], 7);
}

/// The values after the dropped ones are those of the base values before, and not of zeros.
#[test]
fn base_values_go_on_from_base_values() {
    let begun = Sketch {
        log: vec![delta(B, 1).commands(&[add(3, 1), raise(4, -9)])],
        floors: vec![s(A, 9)],
        values: vec![(3, 101), (4, -5), (6, 8)],
        base: vec![(3, 100), (4, -5), (6, 8)],
        ..Sketch::default()
    };
    let image = begun.image();
    let mut station = Station { image };
    assert_eq!(station.purge(1), 0);
    let expected = Sketch {
        log: Vec::new(),
        floors: vec![s(A, 9), s(B, 1)],
        base: begun.values.clone(),
        group: 1,
        ..begun
    };
    assert!(station.image == expected.image());
}

/// "Greatest purged effective block": B1 has no block of its own, but the 5 of its need.
#[test]
fn the_purged_block_is_an_effective_one() {
    let mut station = Station::with(&[
        delta(A, 1).priority(5, 0),
        delta(B, 1).naming(&[s(A, 1)]),
        delta(C, 1),
    ]);
    assert_eq!(station.log(), "C1 A1 B1");
    for (block, letter, log) in [(0, 'C', "A1 B1"), (5, 'A', "B1"), (5, 'B', "")] {
        assert_eq!(station.purge(1), 0);
        assert_eq!(block_and_group(&station), (block, 1), "{letter}");
        assert_eq!(station.log(), log);
    }
    // A block that was purged before stays the greatest.
    assert_eq!(
        station.deliver(&delta(C, 2).priority(3, 1)),
        steps(0, "+C2")
    );
    assert_eq!(station.purge(1), 0);
    assert_eq!(block_and_group(&station), (5, 1));
}

/// "Greatest purged group": groups need not ascend along a log, nor over purges.
#[test]
fn the_purged_group_is_the_greatest() {
    let drafts = [delta(A, 1).group(7), delta(A, 2).group(2)];
    let mut station = Station::with(&drafts);
    assert_eq!(station.log(), "A1 A2");
    assert_eq!(station.purge(2), 0);
    assert_eq!(block_and_group(&station), (0, 7));
    assert_eq!(station.code(&delta(B, 1).group(3).bytes()), 0);
    assert_eq!(station.purge(1), 0);
    assert_eq!(block_and_group(&station), (0, 7));
    assert_eq!(station.code(&delta(B, 2).group(9).bytes()), 0);
    assert_eq!(station.purge(1), 0);
    assert_eq!(block_and_group(&station), (0, 9));
}

/// "A floor is a line and its highest purged number, ascending": raised where there is one, new
/// in its place where there is none, and left where nothing of the line was purged.
#[test]
fn floors_are_raised_and_sorted() {
    let mut station = Station::with(&[
        delta(C, 1),
        delta(B, 1).group(2),
        delta(B, 2).group(3),
        delta(A, 1).group(4),
        delta(D, 1).group(5),
        delta(B, 3).group(6),
    ]);
    assert_eq!(station.log(), "C1 B1 B2 A1 D1 B3");
    let expected: [&[Sequence]; 6] = [
        &[s(C, 1)],
        &[s(B, 1), s(C, 1)],
        &[s(B, 2), s(C, 1)],
        &[s(A, 1), s(B, 2), s(C, 1)],
        &[s(A, 1), s(B, 2), s(C, 1), s(D, 1)],
        &[s(A, 1), s(B, 3), s(C, 1), s(D, 1)],
    ];
    let begun = station.clone();
    for (k, expected) in (1..).zip(expected) {
        assert_eq!(station.purge(1), 0);
        assert_eq!(floors(&station.image), expected);
        let mut at_once = begun.clone();
        assert_eq!(at_once.purge(k), 0);
        assert!(at_once.image == station.image, "K = {k}");
    }
}

/// What was purged arrives again, with its own bytes or with others: 0, no step, no byte of the
/// image. What was not is a repeat, or a conflict.
#[test]
fn what_was_purged_arrives_again() {
    let all = some();
    for k in 0..=3 {
        let mut station = Station { image: all.image() };
        assert_eq!(station.purge(k as u32), 0);
        let before = station.image.clone();
        for (place, own) in all.log.iter().enumerate() {
            assert_eq!(station.deliver(own), steps(0, ""), "{own:?}");
            let other = own.clone().group(8).naming(&[s(D, 5)]);
            let code = if place < k { 0 } else { 7 };
            assert_eq!(station.deliver(&other), steps(code, ""), "{other:?}");
        }
        assert_eq!(station.deliver(&delta(C, 2)), steps(0, ""));
        assert!(station.image == before, "K = {k}");
    }
}

/// "A need at or below its floor counts as placed": what names a purged delta runs, and what
/// follows a purged one in its line.
#[test]
fn needs_that_were_purged() {
    let mut station = Station {
        image: some().image(),
    };
    assert_eq!(station.purge(3), 0);
    let user = delta(D, 1).naming(&[s(A, 1), s(A, 2), s(B, 1)]);
    assert_eq!(station.deliver(&user), steps(0, "+D1"));
    assert_eq!(station.deliver(&delta(B, 2)), steps(0, "-D1 +B2 +D1"));
    assert_eq!(station.deliver(&delta(A, 4)), steps(0, ""));
    assert_eq!(station.deliver(&delta(C, 1)), steps(0, "-D1 +C1 +C2 +D1"));
}

/// "Purged deltas keep their order ahead of all later ones": one whose key is below theirs comes
/// behind them, and is not undone for it; nothing that was purged is ever in a step.
#[test]
fn later_ones_come_behind() {
    let drafts = [
        delta(B, 1).group(5).priority(3, 0),
        delta(C, 1).priority(4, 1),
    ];
    let mut station = Station::with(&drafts);
    let mut whole = station.clone();
    let early = delta(A, 1).commands(&[add(0, 1)]);
    assert_eq!(whole.deliver(&early), steps(0, "-C1 -B1 +A1 +B1 +C1"));
    assert_eq!(station.purge(1), 0);
    assert_eq!(station.deliver(&early), steps(0, "-C1 +A1 +C1"));
    assert_eq!(station.purge(2), 0);
    // Its block counts as 4 now, the greatest purged one.
    assert_eq!(station.deliver(&delta(D, 1)), steps(0, "+D1"));
    assert_eq!(
        station.deliver(&delta(D, 2).priority(4, 0)),
        steps(0, "+D2")
    );
}

/// The steps' pairs of the rest: undone down to the base values, and executed from them.
#[test]
fn pairs_after_a_purge() {
    let mut station = Station::with(&[a1(), delta(C, 1).commands(&[add(3, 5), set(8, 1)])]);
    assert_eq!(station.purge(1), 0);
    let expected = ["-C1 8=0 3=1500", "+B1 3=1480", "+C1 3=1485 8=1"];
    assert_eq!(station.pairs(&b1()), expected);
    assert_eq!(station.value(3), 1485);
}

/// Places and setpoints as the readers give them: places count from the rest on.
#[test]
fn readers_after_a_purge() {
    let all = some();
    let mut station = Station { image: all.image() };
    assert_eq!(station.purge(2), 0);
    let message = all.log[2].bytes();
    assert_eq!(find_log_message(&station.image, 0), (0, &message[..]));
    assert_eq!(find_log_message(&station.image, 1).0, 12);
    assert_eq!(setpoint(&station.image, 3), (0, 1485));
    assert_eq!(setpoint(&station.image, 7), (0, 9));
    assert_eq!(station.purge(1), 0);
    assert_eq!(find_log_message(&station.image, 0).0, 12);
    assert_eq!(setpoint(&station.image, 3), (0, 1485));
}

/// The rest is moved up behind the floors, the held ones after it, and zeros follow to the end.
#[test]
fn the_rest_is_moved_up() {
    let mut station = Station {
        image: some().image(),
    };
    let lengths: usize = [48, 48, 56, 48].iter().sum();
    assert_eq!(u16_at(&station.image, 8), 544 + lengths);
    for (k, first, used) in [(1, 556, 556 + 152), (1, 568, 568 + 104), (1, 568, 568 + 48)] {
        assert_eq!(station.purge(k), 0);
        assert_eq!(u16_at(&station.image, 6), first);
        assert_eq!(u16_at(&station.image, 8), used);
        assert!(station.image[used..].iter().all(|byte| *byte == 0));
        assert!(station.image[..used].ends_with(&delta(C, 2).bytes()));
    }
}

/// Compose, deliver, purge all, compose again: numbers go on, group and block rise by one each
/// time, nothing is named and nothing undone.
#[test]
fn composing_on_what_was_purged() {
    let mut station = Station::new();
    for round in 1..=40 {
        let own = compose_and_deliver(&mut station, A, Some(round));
        assert_eq!(own, (format!("+A{round}"), round, round));
        let log = station.log();
        assert_eq!((station.purge(1), log), (0, format!("A{round}")));
        assert_eq!(block_and_group(&station), (round, round));
        assert_eq!(floors(&station.image), [s(A, round as u16)]);
    }
    // Without priority, on another line: its number is its own, the block stays.
    let own = compose_and_deliver(&mut station, B, None);
    assert_eq!(own, ("+B1".to_string(), 41, 0));
    // Behind it A goes on: it is below B1, so that the group is one more again.
    let own = compose_and_deliver(&mut station, A, None);
    assert_eq!(own, ("+A41".to_string(), 42, 0));
    assert_eq!(station.purge(2), 0);
    assert_eq!(block_and_group(&station), (40, 42));
}

/// A composed delta names what is left of the log alone, and its predecessor may be purged.
#[test]
fn composed_dependencies_after_a_purge() {
    let ends: Vec<Draft> = (1..=9).map(|last| delta(last, 1)).collect();
    let mut station = Station::with(&ends);
    assert_eq!(station.compose_code(line(A)), 11);
    assert_eq!(station.purge(1), 0);
    let (code, message) = station.compose(&plain_request(&line(A)));
    let names: Vec<Sequence> = (2..=9).map(|last| s(last, 1)).collect();
    let expected = delta(A, 1).naming(&names);
    assert_eq!((code, message), (0, expected.bytes()));
    let (_, message) = station.compose(&plain_request(&line(1)));
    let expected = delta(1, 2).group(2).naming(&names);
    assert_eq!(message, expected.bytes());
}
