//! "Purging the old end", what it asks of calls on an image that has floors: order, deliver,
//! compose, the steps' pairs, the reader and the programs. What is expected is written out.

#![deny(warnings)]

mod common;

use bivamolune_tests::reference::compose::Request;
use bivamolune_tests::reference::print_log::print_log;
use bivamolune_tests::reference::reader::Reader;
use bivamolune_tests::sketch::Sketch;
use bivamolune_tests::view::{base_values, floors, u32_at};
use bivamolune_tests::wire::{add, line, raise, sequence, set, Draft, Sequence};
use common::{delta, find_log_message, plain_request, setpoint, steps, Station, A, B, C, D, IMAGE};

const LIMIT: u32 = 2_147_483_647;
const E: u8 = 0x0E;

fn s(letter: u8, number: u16) -> Sequence {
    sequence(line(letter), number)
}

/// The station of a sketch, which is an image.
fn station(sketch: &Sketch) -> Station {
    let image = sketch.image();
    assert_eq!(setpoint(&image, 0).0, 0, "it is an image");
    Station { image }
}

/// A station with these floors and nothing else but the purged block.
fn purged(floors: &[Sequence], block: u32) -> Station {
    station(&Sketch {
        floors: floors.to_vec(),
        block,
        ..Sketch::default()
    })
}

/// What composing on a line gives, without priority or with this one.
fn composed(station: &Station, letter: u8, priority: Option<u32>) -> (u32, Vec<u8>) {
    let line = line(letter);
    station.compose(&Request {
        priority_flag: u32::from(priority.is_some()),
        priority: priority.unwrap_or(0),
        ..plain_request(&line)
    })
}

fn accepted(draft: Draft) -> (u32, Vec<u8>) {
    (0, draft.bytes())
}

fn refused(code: u32) -> (u32, Vec<u8>) {
    (code, Vec::new())
}

// What runs, and in which order.

/// "A need at or below its floor counts as placed": floor A3.
#[test]
fn a_need_at_below_and_above_its_floor() {
    for (number, runs) in [(1, true), (2, true), (3, true), (4, false), (0xFFFF, false)] {
        let mut station = purged(&[s(A, 3)], 0);
        let user = delta(B, 1).naming(&[s(A, number)]);
        let expected = if runs { "+B1" } else { "" };
        assert_eq!(station.deliver(&user), steps(0, expected), "A{number}");
        assert_eq!(station.held_count(), usize::from(!runs));
    }
}

/// The predecessor is a need: A4 follows the floor A3, A5 waits for A4.
#[test]
fn a_predecessor_at_and_above_its_floor() {
    let mut station = purged(&[s(A, 3)], 0);
    assert_eq!(station.deliver(&delta(A, 5)), steps(0, ""));
    assert_eq!(station.deliver(&delta(A, 6)), steps(0, ""));
    assert_eq!(station.deliver(&delta(A, 4)), steps(0, "+A4 +A5 +A6"));
    assert_eq!(station.deliver(&delta(B, 2)), steps(0, ""));
}

/// A floor is of a line, its number does not count for others, and a line is ten bytes long.
#[test]
fn a_floor_of_another_line() {
    for other in [
        [0, 0, 0, 0, 0, 0x0A, 0, 0, 0, 2],
        [1, 0, 0, 0, 0, 0x0A, 0, 0, 0, 1],
    ] {
        let mut station = purged(&[sequence(other, 9)], 0);
        assert_eq!(station.deliver(&delta(A, 2)), steps(0, ""));
        let user = delta(B, 1).naming(&[s(A, 1)]);
        assert_eq!(station.deliver(&user), steps(0, ""));
        let user = delta(C, 1).naming(&[sequence(other, 9)]);
        assert_eq!(station.deliver(&user), steps(0, "+C1"));
    }
}

/// Numbers are compared whole: floor 0100 has 00FF and not 0101.
#[test]
fn a_floor_at_the_end_of_a_byte() {
    for (number, runs) in [
        (0x00FF, true),
        (0x0100, true),
        (0x0101, false),
        (0x01FF, false),
    ] {
        let mut station = purged(&[s(A, 0x0100)], 0);
        let user = delta(B, 1).naming(&[s(A, number)]);
        let expected = if runs { "+B1" } else { "" };
        assert_eq!(station.deliver(&user), steps(0, expected), "{number:04X}");
    }
}

/// Some needs purged, some in the log, one missing: the last to come frees the user.
#[test]
fn needs_purged_placed_and_missing() {
    let mut station = purged(&[s(A, 3), s(B, 1)], 0);
    let user = delta(D, 1).naming(&[s(A, 2), s(B, 1), s(C, 1), s(C, 2)]);
    assert_eq!(station.deliver(&user), steps(0, ""));
    assert_eq!(station.deliver(&delta(C, 2)), steps(0, ""));
    assert_eq!(station.deliver(&delta(C, 1)), steps(0, "+C1 +C2 +D1"));
}

/// Rings stay rings.
#[test]
fn a_ring_above_floors() {
    let mut station = purged(&[s(A, 3), s(B, 3)], 0);
    let one = delta(A, 4).naming(&[s(B, 4)]);
    assert_eq!(station.deliver(&one), steps(0, ""));
    let two = delta(B, 4).naming(&[s(A, 4)]);
    assert_eq!(station.deliver(&two), steps(0, ""));
    assert_eq!(station.held(), "A4 B4");
}

/// "No effective block counts below the greatest purged one": with 5 purged, blocks 0, 2 and 5
/// are 5, and the priority decides; block 6 is behind them.
#[test]
fn no_effective_block_below_the_purged_one() {
    let arrivals = [
        delta(A, 1).priority(6, 9),
        delta(B, 1),
        delta(C, 1).priority(2, 1),
        delta(D, 1).priority(5, 3),
    ];
    let with = |block| {
        let mut station = purged(&[s(E, 1)], block);
        for draft in &arrivals {
            assert_eq!(station.deliver(draft).0, 0);
        }
        station.log()
    };
    assert_eq!(with(0), "B1 C1 D1 A1");
    assert_eq!(with(1), "B1 C1 D1 A1");
    assert_eq!(with(2), "C1 B1 D1 A1");
    assert_eq!(with(5), "D1 C1 B1 A1");
    assert_eq!(with(6), "A1 D1 C1 B1");
    assert_eq!(with(LIMIT), "A1 D1 C1 B1");
}

/// A purged need has no block of its own any more: only the greatest purged one counts.
#[test]
fn a_purged_need_has_the_purged_block() {
    let mut station = purged(&[s(A, 1)], 4);
    let user = delta(C, 1).naming(&[s(A, 1)]);
    assert_eq!(station.deliver(&delta(B, 1).priority(5, 0)).0, 0);
    assert_eq!(station.deliver(&delta(D, 1).priority(4, 0)).0, 0);
    assert_eq!(station.deliver(&user), steps(0, "-B1 +C1 +B1"));
    assert_eq!(station.log(), "D1 C1 B1");
}

/// The purged group is no part of a key.
#[test]
fn the_purged_group_orders_nothing() {
    let mut station = station(&Sketch {
        floors: vec![s(E, 1)],
        group: 50,
        ..Sketch::default()
    });
    assert_eq!(station.deliver(&delta(A, 1).group(3)).0, 0);
    assert_eq!(
        station.deliver(&delta(B, 1).group(2)),
        steps(0, "-A1 +B1 +A1")
    );
}

// Setpoints and the steps' pairs.

/// The log is run from the base values: A1 of the examples is purged, with tag 3 at 1500.
#[test]
fn the_log_is_run_from_the_base_values() {
    let mut station = station(&Sketch {
        floors: vec![s(A, 1)],
        values: vec![(3, 1500), (5, -7)],
        base: vec![(3, 1500), (5, -7)],
        group: 1,
        ..Sketch::default()
    });
    let b1 = delta(B, 1).commands(&[add(3, -20), raise(5, -9), raise(5, -6)]);
    assert_eq!(station.pairs(&b1), ["+B1 3=1480 5=-7 5=-6"]);
    assert_eq!((station.value(3), station.value(5)), (1480, -6));
    // What comes before it restores the base values first.
    let a2 = delta(A, 2).commands(&[set(3, 10)]);
    let expected = ["-B1 5=-7 5=-7 3=1500", "+A2 3=10", "+B1 3=-10 5=-7 5=-6"];
    assert_eq!(station.pairs(&a2), expected);
    assert_eq!(station.value(3), -10);
    assert_eq!(base_values(&station.image)[3], 1500);
    assert_eq!(setpoint(&station.image, 3), (0, -10));
    assert_eq!(setpoint(&station.image, 5), (0, -6));
}

#[test]
fn a_sum_is_stopped_from_a_base_value() {
    let mut station = station(&Sketch {
        floors: vec![s(A, 1)],
        values: vec![(0, 1_000_000), (63, -1_000_000)],
        base: vec![(0, 1_000_000), (63, -1_000_000)],
        ..Sketch::default()
    });
    let b1 = delta(B, 1).commands(&[add(0, 5), add(0, -5), add(63, -5), add(63, 5)]);
    let expected = ["+B1 0=1000000 0=999995 63=-1000000 63=-999995"];
    assert_eq!(station.pairs(&b1), expected);
}

// Deliver.

/// Floors A3 and B1, tag 3 at 7, log A4, C2 held.
fn some() -> Sketch {
    Sketch {
        log: vec![delta(A, 4).commands(&[set(3, 8)])],
        held: vec![delta(C, 2)],
        values: vec![(3, 8), (4, 1)],
        floors: vec![s(A, 3), s(B, 1)],
        base: vec![(3, 7), (4, 1)],
        block: 2,
        group: 5,
    }
}

/// "A delivery at or below a floor answers 0 with no step, and its message joins no set."
#[test]
fn a_delivery_at_and_below_a_floor() {
    for own in [delta(A, 1), delta(A, 2), delta(A, 3), delta(B, 1)] {
        let mut station = station(&some());
        let before = station.image.clone();
        for message in [
            own.clone(),
            own.clone().group(LIMIT),
            own.clone().priority(LIMIT, 3),
            own.clone().commands(&[set(3, -1); 8]),
            own.clone().naming(&[s(D, 9)]),
        ] {
            assert_eq!(station.deliver(&message), steps(0, ""), "{message:?}");
            assert!(station.image == before, "{message:?}");
        }
    }
}

#[test]
fn a_delivery_just_above_a_floor() {
    let mut station = station(&some());
    assert_eq!(station.deliver(&delta(B, 2)), steps(0, "+B2"));
    assert_eq!(station.deliver(&delta(A, 4)), steps(7, ""));
    assert_eq!(station.deliver(&some().log[0]), steps(0, ""));
    assert_eq!(station.deliver(&delta(A, 5)), steps(0, "-B2 +A5 +B2"));
    assert_eq!(
        (station.log(), station.held()),
        ("A4 A5 B2".into(), "C2".into())
    );
    assert_eq!(floors(&station.image), [s(A, 3), s(B, 1)]);
    assert_eq!(u32_at(&station.image, 16), 2);
    assert_eq!(u32_at(&station.image, 20), 5);
}

/// "7 and 8 are not looked for there", and 1 to 6 are.
#[test]
fn a_delivery_below_a_floor_with_64_present() {
    let mut full = some();
    full.held = (2..65).map(|number| delta(C, number)).collect();
    let mut station = station(&full);
    assert_eq!((station.log_count(), station.held_count()), (1, 63));
    let before = station.image.clone();
    for own in [delta(A, 3), delta(A, 1).group(9), delta(B, 1)] {
        assert_eq!(station.deliver(&own), steps(0, ""));
    }
    assert_eq!(station.deliver(&delta(A, 5)), steps(8, ""));
    assert_eq!(station.deliver(&delta(B, 2)), steps(8, ""));
    assert_eq!(station.deliver(&delta(A, 4)), steps(7, ""));
    assert_eq!(station.deliver(&some().log[0]), steps(0, ""));
    assert!(station.image == before);
}

#[test]
fn a_wrong_delivery_below_a_floor() {
    let mut station = station(&some());
    let own = delta(A, 2);
    let mut cut = own.bytes();
    cut.pop();
    assert_eq!(station.code(&cut), 3);
    assert_eq!(station.code(&delta(A, 0).bytes()), 4);
    assert_eq!(station.code(&own.clone().naming(&[s(B, 0)]).bytes()), 4);
    assert_eq!(station.code(&own.clone().naming(&[s(A, 1)]).bytes()), 5);
    assert_eq!(station.code(&own.clone().naming(&[s(A, 2)]).bytes()), 5);
    assert_eq!(station.code(&own.clone().group(LIMIT + 1).bytes()), 6);
    assert_eq!(station.deliver_into(&own.bytes(), 10_159), steps(1, ""));
    station.image[31] = 1;
    assert_eq!(station.code(&own.bytes()), 2);
}

/// All numbers of a line are at or below floor FFFF.
#[test]
fn a_line_that_is_purged_to_its_end() {
    let mut station = purged(&[s(A, 0xFFFF)], 0);
    let before = station.image.clone();
    for number in [1, 2, 0x7FFF, 0x8000, 0xFFFE, 0xFFFF] {
        assert_eq!(station.deliver(&delta(A, number)), steps(0, ""));
        let user = delta(B, 1).naming(&[s(A, number)]);
        assert_eq!(station.clone().deliver(&user), steps(0, "+B1"));
    }
    assert!(station.image == before);
}

/// What a floor let wait: it stays out of the set, and does not count as a repeat later.
#[test]
fn a_purged_delta_is_in_no_log() {
    let mut station = station(&some());
    assert_eq!(station.deliver(&delta(B, 1)), steps(0, ""));
    assert_eq!(
        station.deliver(&delta(D, 1).naming(&[s(B, 1)])),
        steps(0, "+D1")
    );
    assert_eq!(
        (station.log(), station.held()),
        ("A4 D1".into(), "C2".into())
    );
    // Again, also under other bytes: no 7, as there is nothing that it repeats.
    let before = station.image.clone();
    for other in [delta(B, 1), delta(B, 1).group(2).commands(&[set(3, -1)])] {
        assert_eq!(station.deliver(&other), steps(0, ""), "{other:?}");
        assert!(station.image == before, "{other:?}");
    }
}

/// "Equal images are promised to stations whose floors, base values, purged block and group agree
/// and whose remaining deltas are the same": of all orders in which these seven can come, with
/// purged ones and repeats between them. Each set has one image, whichever of it came last.
#[test]
fn equal_images_in_all_orders_of_arrival() {
    let a4 = delta(A, 4).commands(&[set(3, 8)]);
    let a5 = delta(A, 5).commands(&[add(3, 10)]);
    // Its block is below the purged one, and so is its need; it runs first by its priority.
    let b2 = delta(B, 2).priority(1, 7).naming(&[s(A, 2)]);
    let b2 = b2.commands(&[add(3, 2), raise(4, 50)]);
    let c1 = delta(C, 1).priority(3, 0).commands(&[add(4, -3)]);
    let c2 = delta(C, 2);
    let d1 = delta(D, 1).naming(&[s(A, 5), s(B, 1)]);
    let d1 = d1.commands(&[set(4, 51)]);
    let e2 = delta(E, 2);
    let begun = Sketch {
        floors: vec![s(A, 3), s(B, 1)],
        values: vec![(3, 7), (4, 1)],
        base: vec![(3, 7), (4, 1)],
        block: 2,
        group: 5,
        ..Sketch::default()
    };
    let expected = Sketch {
        log: [&b2, &a4, &a5, &d1, &c1, &c2].map(Draft::clone).to_vec(),
        held: vec![e2.clone()],
        values: vec![(0, 1), (3, 18), (4, 48)],
        ..begun.clone()
    };
    let purged = [delta(A, 1), delta(A, 3).priority(9, 9), delta(B, 1)];
    let all = [a4, a5, b2, c1, c2, d1, e2];
    // The image of each set, by a bit for each delta that is in it.
    let mut images: Vec<Option<Vec<u8>>> = vec![None; 1 << all.len()];
    images[0] = Some(begun.image());
    for set in 0..images.len() {
        let image = images[set]
            .clone()
            .expect("each set follows from a smaller one");
        for message in &purged {
            let mut station = Station {
                image: image.clone(),
            };
            assert_eq!(station.deliver(message), steps(0, ""));
            assert!(station.image == image, "{message:?} to {set:b}");
        }
        for (place, message) in all.iter().enumerate() {
            let mut station = Station {
                image: image.clone(),
            };
            assert_eq!(station.deliver(message).0, 0);
            let one = images[set | 1 << place].get_or_insert_with(|| station.image.clone());
            assert!(station.image == *one, "{message:?} to {set:b}");
        }
    }
    assert!(images.last() == Some(&Some(expected.image())));
}

// Compose.

/// Number: one more than the greatest of the log, or than the floor.
#[test]
fn a_composed_number_counts_the_floor() {
    let station = station(&some());
    // B1 is purged, and no delta of B is in the log; the group is the purged 5.
    let expected = delta(B, 2).group(5).naming(&[s(A, 4)]);
    assert_eq!(composed(&station, B, None), accepted(expected));
    // A4 is in the log above floor A3, and is the predecessor.
    assert_eq!(composed(&station, A, None), accepted(delta(A, 5).group(5)));
    let expected = delta(D, 1).group(5).naming(&[s(A, 4)]);
    assert_eq!(composed(&station, D, None), accepted(expected));
    assert_eq!(composed(&station, C, None), refused(9));
}

/// "On a log emptied by purging the group is the greatest purged group plus one, and the block
/// the greatest purged block plus one", also beside held deltas.
#[test]
fn compose_on_a_log_that_was_emptied() {
    let emptied = Sketch {
        floors: vec![s(A, 3)],
        block: 7,
        group: 4,
        ..Sketch::default()
    };
    let with_held = Sketch {
        held: vec![delta(C, 2).group(90).priority(80, 1)],
        ..emptied.clone()
    };
    for sketch in [emptied, with_held] {
        let station = station(&sketch);
        assert_eq!(composed(&station, A, None), accepted(delta(A, 4).group(5)));
        let expected = delta(A, 4).group(5).priority(8, 6);
        assert_eq!(composed(&station, A, Some(6)), accepted(expected));
        assert_eq!(composed(&station, B, None), accepted(delta(B, 1).group(5)));
    }
}

/// Group 0 purged gives 1, as where nothing was; block 0 gives 1.
#[test]
fn compose_where_group_and_block_0_were_purged() {
    let station = purged(&[s(A, 3)], 0);
    let expected = delta(A, 4).group(1).priority(1, 0);
    assert_eq!(composed(&station, A, Some(0)), accepted(expected));
}

/// The highest group is that of log and purged part; plus one if the last delta is above.
#[test]
fn a_composed_group_counts_the_purged_one() {
    for (group, on_a, on_c) in [
        (0, 4, 3),
        (2, 4, 3),
        (3, 4, 3),
        (4, 5, 4),
        (LIMIT - 1, LIMIT, LIMIT - 1),
    ] {
        let station = station(&Sketch {
            log: vec![delta(B, 1).group(3)],
            values: vec![(0, 1)],
            floors: vec![s(E, 1)],
            group,
            ..Sketch::default()
        });
        let named = [s(B, 1)];
        let expected = delta(A, 1).group(on_a).naming(&named);
        assert_eq!(composed(&station, A, None), accepted(expected));
        let expected = delta(C, 1).group(on_c).naming(&named);
        assert_eq!(composed(&station, C, None), accepted(expected));
    }
}

/// The highest block is that of log and purged part.
#[test]
fn a_composed_block_counts_the_purged_one() {
    for (block, expected) in [(0, 4), (2, 4), (3, 4), (4, 5), (LIMIT - 1, LIMIT)] {
        let station = station(&Sketch {
            log: vec![delta(B, 1).priority(3, 0)],
            values: vec![(0, 1)],
            floors: vec![s(E, 1)],
            block,
            ..Sketch::default()
        });
        let expected = delta(C, 1).priority(expected, 2).naming(&[s(B, 1)]);
        assert_eq!(composed(&station, C, Some(2)), accepted(expected));
    }
}

/// 10 where the number would pass FFFF: by the floor, and by a log above it.
#[test]
fn compose_past_the_last_number() {
    let station_at = |floor, log: &[u16]| {
        let log: Vec<Draft> = log.iter().map(|number| delta(A, *number)).collect();
        let values = log.iter().take(1).map(|_| (0, 1)).collect();
        station(&Sketch {
            log,
            values,
            floors: vec![s(A, floor)],
            ..Sketch::default()
        })
    };
    let code = |floor, log: &[u16]| composed(&station_at(floor, log), A, None).0;
    assert_eq!(code(0xFFFF, &[]), 10);
    assert_eq!(code(0xFFFE, &[0xFFFF]), 10);
    assert_eq!(code(0xFFFD, &[0xFFFE, 0xFFFF]), 10);
    assert_eq!(code(0xFFFD, &[0xFFFE]), 0);
    let last = composed(&station_at(0xFFFE, &[]), A, None);
    assert_eq!(last, accepted(delta(A, 0xFFFF)));
    // Another line goes on.
    assert_eq!(composed(&station_at(0xFFFF, &[]), B, None).0, 0);
}

/// 10 where group or block would pass their limit: by what was purged alone.
#[test]
fn compose_past_the_limits_of_group_and_block() {
    let with = |group, block| {
        station(&Sketch {
            floors: vec![s(A, 3)],
            group,
            block,
            ..Sketch::default()
        })
    };
    assert_eq!(composed(&with(LIMIT, 0), A, None), refused(10));
    assert_eq!(composed(&with(LIMIT, 0), A, Some(1)), refused(10));
    let last = accepted(delta(A, 4).group(LIMIT));
    assert_eq!(composed(&with(LIMIT - 1, 0), A, None), last);
    // The block counts only with priority.
    assert_eq!(composed(&with(0, LIMIT), A, None), accepted(delta(A, 4)));
    assert_eq!(composed(&with(0, LIMIT), A, Some(1)), refused(10));
    let last = delta(A, 4).priority(LIMIT, 1);
    assert_eq!(composed(&with(0, LIMIT - 1), A, Some(1)), accepted(last));
    // With a log the group passes its limit only if the last delta is above.
    let mut logged = some();
    logged.group = LIMIT;
    let expected = delta(B, 2).group(LIMIT).naming(&[s(A, 4)]);
    assert_eq!(composed(&station(&logged), B, None), accepted(expected));
    assert_eq!(composed(&station(&logged), 0x09, None), refused(10));
}

/// 9 before 10, and 10 before 11.
#[test]
fn compose_answers_the_lowest_on_floors() {
    let lone = |count: u8| (0..count).map(|last| delta(0x30 + last, 1)).collect();
    let mut sketch = Sketch {
        log: lone(9),
        held: vec![delta(C, 2)],
        values: vec![(0, 1)],
        floors: vec![s(A, 0xFFFF)],
        ..Sketch::default()
    };
    let all = station(&sketch);
    assert_eq!(composed(&all, C, None), refused(9));
    assert_eq!(composed(&all, A, None), refused(10));
    assert_eq!(composed(&all, B, None), refused(11));
    sketch.log = lone(8);
    let named: Vec<Sequence> = (0x30..0x38).map(|last| s(last, 1)).collect();
    // The last delta, 37, is above B.
    let expected = delta(B, 1).group(2).naming(&named);
    assert_eq!(composed(&station(&sketch), B, None), accepted(expected));
}

/// What is purged is no dependency, and a need of a log delta that is purged makes no end.
#[test]
fn dependencies_are_of_the_log_alone() {
    let station = station(&Sketch {
        log: vec![
            delta(C, 2).naming(&[s(A, 3)]),
            delta(D, 1).naming(&[s(C, 1)]),
        ],
        values: vec![(0, 1)],
        floors: vec![s(A, 3), s(C, 1)],
        group: 1,
        ..Sketch::default()
    });
    assert_eq!(station.log(), "C2 D1");
    let expected = delta(A, 4).group(2).naming(&[s(C, 2), s(D, 1)]);
    assert_eq!(composed(&station, A, None), accepted(expected));
}

/// Delivered where it was composed, a delta is the first step, with no undo; it frees what
/// waits.
#[test]
fn a_composed_delta_is_delivered_without_undo() {
    let mut station = station(&Sketch {
        held: vec![delta(A, 5), delta(B, 1).naming(&[s(D, 3)])],
        floors: vec![s(A, 3), s(D, 2)],
        block: 7,
        group: 4,
        ..Sketch::default()
    });
    assert_eq!(composed(&station, A, None), refused(9));
    let (code, message) = composed(&station, D, Some(1));
    assert_eq!(
        (code, &message),
        (0, &delta(D, 3).group(5).priority(8, 1).bytes())
    );
    assert_eq!(station.deliver_bytes(&message), steps(0, "+D3 +B1"));
    assert_eq!(station.held(), "A5");
}

// Reading.

#[test]
fn log_messages_lie_behind_the_floors() {
    let sketch = some();
    let station = station(&sketch);
    let (code, part) = find_log_message(&station.image, 0);
    assert_eq!((code, part), (0, &sketch.log[0].bytes()[..]));
    // 544 and two floors.
    assert_eq!(part.as_ptr_range(), station.image[568..616].as_ptr_range());
    assert_eq!(find_log_message(&station.image, 1).0, 12);
    assert_eq!(setpoint(&station.image, 4), (0, 1));
    assert_eq!(setpoint(&station.image, 64), (12, 0));
}

#[test]
fn the_reader_starts_behind_the_floors() {
    for count in [0, 1, 2, 31, 32] {
        let log = vec![delta(A, 1), delta(B, 1)];
        let image = Sketch {
            log: log.clone(),
            held: vec![delta(C, 2)],
            values: vec![(0, 1)],
            floors: (0..count).map(|last| s(0x80 + last, 1)).collect(),
            ..Sketch::default()
        };
        let image = image.image();
        let mut reader = Reader::new(&image);
        let first = 544 + 12 * usize::from(count);
        assert_eq!(reader.offset(), first);
        for (place, draft) in log.iter().enumerate() {
            assert_eq!(reader.offset(), first + 48 * place);
            assert_eq!(reader.next_message(), draft.bytes());
        }
        assert!(reader.next_message().is_empty());
        assert_eq!(reader.offset(), first + 96);
    }
}

/// On what is no image it stays where it starts: at 0 in a buffer of another size, else behind
/// as many floors as the header says.
#[test]
fn the_reader_on_what_is_no_image() {
    for size in [0, 1, 12, 544, IMAGE - 1, IMAGE + 1] {
        let buffer = vec![1; size];
        let mut reader = Reader::new(&buffer);
        assert_eq!(reader.offset(), 0);
        assert!(reader.next_message().is_empty());
        assert_eq!(reader.offset(), 0);
    }
    for (count, first) in [(1_u16, 556), (33, 940), (5_416, 65_536), (0xFFFF, 786_964)] {
        let mut buffer = Station::new().image;
        buffer[10..12].copy_from_slice(&count.to_be_bytes());
        let mut reader = Reader::new(&buffer);
        assert_eq!(reader.offset(), first);
        assert!(reader.next_message().is_empty());
        assert_eq!(reader.offset(), first);
    }
}

#[test]
fn a_log_behind_floors_is_printed_with_its_offsets() {
    let mut sketch = some();
    sketch.log.push(delta(B, 2).commands(&[add(63, -1)]));
    sketch.values.push((63, -1));
    let expected = "0 568 48 00000000000A000000010004 3 8\n\
                    1 616 48 00000000000B000000010002 63 -1\n";
    assert_eq!(print_log(&sketch.image()), expected);
    sketch.floors.swap(0, 1);
    assert_eq!(print_log(&sketch.image()), "2\n");
}

/// Empty writes an image without floors over one that has some.
#[test]
fn empty_over_an_image_with_floors() {
    let image = some().image();
    let mut station = Station { image };
    assert_eq!(station.deliver(&delta(A, 1)), steps(0, ""));
    assert_eq!(
        bivamolune_tests::boundary::Calls::empty(&common::SUBJECT, &mut station.image),
        0
    );
    assert!(station.image == Sketch::default().image());
    assert_eq!(station.deliver(&delta(A, 1)), steps(0, "+A1"));
}
