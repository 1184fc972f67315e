//! The purge just inside and just outside of each of its limits: K, 32 floors, numbers, 64 deltas,
//! sizes, an emptied log; and that neither the order of arrival nor that of purges leaves a trace.

#![deny(warnings)]

mod common;

use bivamolune_tests::boundary::Calls;
use bivamolune_tests::call::Action;
use bivamolune_tests::generate::{case, drafts, is_with_floors};
use bivamolune_tests::random::Random;
use bivamolune_tests::reference::compose::Request;
use bivamolune_tests::sketch::Sketch;
use bivamolune_tests::view::{floor_count, floors, u16_at, u32_at};
use bivamolune_tests::wire::{add, line, sequence, set, Draft, Sequence};
use common::{delta, plain_request, steps, Station, A, B, C, D, IMAGE, PATTERN, SUBJECT};

const LIMIT: u32 = 2_147_483_647;

fn s(letter: u8, number: u16) -> Sequence {
    sequence(line(letter), number)
}

/// The station of a sketch.
fn station(sketch: &Sketch) -> Station {
    Station {
        image: sketch.image(),
    }
}

/// Floors of number 1, of so many lines from 0x40 on.
fn many_floors(count: u8) -> Vec<Sequence> {
    (0..count).map(|place| s(0x40 + place, 1)).collect()
}

// K.

/// A purge of none changes nothing, on whatever image.
#[test]
fn k_of_zero_changes_nothing() {
    let mut images = vec![Station::new().image];
    for seed in (0..2_000).filter(|seed| is_with_floors(*seed)) {
        if let Some(Action::Begin(image)) = case(seed).first().map(|call| call.action.clone()) {
            images.push(image);
        }
    }
    assert!(images.len() > 200);
    let with_32 = |image: &&Vec<u8>| floor_count(image) == 32;
    assert!(images.iter().filter(with_32).count() > 5);
    for image in images {
        let mut station = Station {
            image: image.clone(),
        };
        assert_eq!(station.purge(0), 0);
        assert!(station.image == image);
    }
}

#[test]
fn k_at_and_beyond_the_log() {
    for count in [0, 1, 63, 64] {
        let drafts: Vec<Draft> = (1..=count).map(|number| delta(A, number)).collect();
        let full = Station::with(&drafts);
        let log = u32::from(count);
        for beyond in [log + 1, log + 256, log + 65_536, log + (1 << 31), u32::MAX] {
            assert_eq!(full.clone().purge(beyond), 15, "{beyond} of {count}");
        }
        let mut emptied = full.clone();
        assert_eq!((emptied.purge(log), emptied.log_count()), (0, 0));
        let floors_now = floors(&emptied.image);
        assert_eq!(floors_now, [s(A, count)][..usize::from(count > 0)]);
    }
}

/// Held deltas are no part of L.
#[test]
fn k_does_not_count_held_deltas() {
    let mut station = Station::with(&[delta(A, 1), delta(B, 2), delta(C, 2), delta(C, 3)]);
    assert_eq!(station.purge(2), 15);
    assert_eq!(station.purge(4), 15);
    assert_eq!(station.purge(1), 0);
    assert_eq!(station.purge(1), 15);
    assert_eq!(station.held(), "B2 C2 C3");
}

// 32 floors.

/// 31, 32 and 33 lines: each K up to the last that fits, and none beyond.
#[test]
fn k_up_to_32_lines() {
    for lines in [31, 32, 33, 64] {
        let all: Vec<Draft> = (1..=lines).map(|last| delta(last, 1)).collect();
        let full = Station::with(&all);
        for k in 0..=u32::from(lines) {
            let code = if k > 32 { 16 } else { 0 };
            let mut purged = full.clone();
            assert_eq!(purged.purge(k), code, "{k} of {lines}");
            let wanted = if code == 0 { k as usize } else { 0 };
            assert_eq!(floor_count(&purged.image), wanted);
        }
        assert_eq!(full.clone().purge(u32::from(lines) + 1), 15);
    }
}

/// A line that has a floor adds none: with 32 floors, whatever is of their lines can go.
#[test]
fn lines_with_a_floor_add_none() {
    for count in [31, 32] {
        let mut station = station(&Sketch {
            floors: many_floors(count),
            ..Sketch::default()
        });
        for number in 2..=4 {
            assert_eq!(station.code(&delta(0x40, number).group(1).bytes()), 0);
        }
        assert_eq!(station.code(&delta(0x10, 1).group(2).bytes()), 0);
        assert_eq!(station.code(&delta(0x41, 2).group(3).bytes()), 0);
        assert_eq!(station.log_count(), 5);
        let code = if count == 32 { 16 } else { 0 };
        for (k, code) in [(1, 0), (2, 0), (3, 0), (4, code), (5, code)] {
            assert_eq!(station.clone().purge(k), code, "{k} with {count}");
        }
        assert_eq!(station.purge(3), 0);
        assert_eq!(floors(&station.image)[0], s(0x40, 4));
        assert_eq!(station.purge(1), code);
    }
}

/// Once there are 32, they stay: no other line's delta can go, and its line fills the image.
#[test]
fn a_33rd_line_stays_for_good() {
    let mut station = station(&Sketch {
        floors: many_floors(32),
        ..Sketch::default()
    });
    for number in 1..=64 {
        assert_eq!(station.code(&delta(0x10, number).bytes()), 0);
        assert_eq!(station.purge(1), 16);
    }
    assert_eq!(station.code(&delta(0x40, 2).bytes()), 8);
    assert_eq!(station.purge(0), 0);
}

/// Counting goes by whole lines: the creator's last byte and the UID's first make others.
#[test]
fn lines_are_ten_bytes() {
    let mut all: Vec<Draft> = (0..32)
        .map(|last| Draft::new([0, 0, 0, 0, 0, 9, 0, 0, 0, last], 1))
        .collect();
    assert_eq!(Station::with(&all).purge(32), 0);
    all.push(Draft::new([1, 0, 0, 0, 0, 9, 0, 0, 0, 1], 1));
    assert_eq!(Station::with(&all).purge(33), 16);
    assert_eq!(Station::with(&all).purge(32), 0);
}

// Numbers and other limits.

/// Up to FFFF, and 10 for good: what is delivered of the line then is at or below its floor.
#[test]
fn the_last_number() {
    let mut station = station(&Sketch {
        floors: vec![s(A, 0xFFFD)],
        ..Sketch::default()
    });
    for number in [0xFFFE, 0xFFFF] {
        let (code, message) = station.compose(&plain_request(&line(A)));
        assert_eq!((code, u16_at(&message, 22)), (0, number));
        assert_eq!(station.code(&message), 0);
        assert_eq!(station.purge(1), 0);
        assert_eq!(floors(&station.image), [s(A, number as u16)]);
    }
    assert_eq!(station.compose_code(line(A)), 10);
    let before = station.image.clone();
    for number in [1, 2, 0x8000, 0xFFFE, 0xFFFF] {
        assert_eq!(station.deliver(&delta(A, number)), steps(0, ""));
    }
    assert!(station.image == before);
    assert_eq!(station.compose_code(line(B)), 0);
}

/// Numbers are raised over the end of a byte.
#[test]
fn floors_around_0100() {
    let mut station = station(&Sketch {
        floors: vec![s(A, 0x00FE)],
        ..Sketch::default()
    });
    for number in [0x00FF, 0x0100, 0x0101] {
        assert_eq!(
            station.deliver(&delta(A, number)),
            (0, format!("+A{number}"))
        );
        assert_eq!(station.purge(1), 0);
        assert_eq!(floors(&station.image), [s(A, number)]);
    }
}

/// The greatest group and block can be purged; composing on nothing else is then 10.
#[test]
fn the_last_group_and_block() {
    let begun = Station::with(&[delta(A, 1).group(LIMIT), delta(B, 1).priority(LIMIT, 0)]);
    assert_eq!(begun.log(), "A1 B1");
    let line = line(C);
    let with_priority = Request {
        priority_flag: 1,
        ..plain_request(&line)
    };
    for (k, block, codes) in [(1, 0, (0, 10)), (2, LIMIT, (10, 10))] {
        let mut station = begun.clone();
        assert_eq!(station.purge(k), 0);
        assert_eq!(u32_at(&station.image, 16), block);
        assert_eq!(u32_at(&station.image, 20), LIMIT);
        assert_eq!(station.compose_code(line), codes.0);
        assert_eq!(station.compose(&with_priority).0, codes.1);
    }
}

// 64 deltas.

/// "Frees their bytes for new ones": a full station takes as many again as were purged.
#[test]
fn a_purge_leaves_room() {
    let all: Vec<Draft> = (1..=64).map(|number| delta(A, number)).collect();
    for k in [1, 2, 63, 64] {
        let mut station = Station::with(&all);
        assert_eq!(station.code(&delta(A, 65).bytes()), 8);
        assert_eq!(station.purge(u32::from(k)), 0);
        for number in 65..65 + k {
            let added = station.deliver(&delta(A, number));
            assert_eq!(added, (0, format!("+A{number}")));
        }
        assert_eq!(station.log_count(), 64);
        assert_eq!(station.code(&delta(A, 65 + k).bytes()), 8);
        // What was purged is no conflict and needs no room.
        assert_eq!(station.deliver(&delta(A, k).group(9)), steps(0, ""));
        assert_eq!(station.deliver(&delta(A, k + 1).group(9)), steps(7, ""));
    }
}

/// The fullest image: 64 messages of 200 bytes, of which half goes, and all the rest.
#[test]
fn messages_of_200_bytes() {
    let names: Vec<Sequence> = (0x80..0x88).map(|last| s(last, 1)).collect();
    let floors = [&[s(A, 1)], &names[..]].concat();
    let long = |number| {
        let draft = delta(A, number).naming(&names);
        draft.commands(&[add((number % 64) as u8, 1); 8])
    };
    let begun = Sketch {
        log: (2..=65).map(long).collect(),
        values: (0..64).map(|tag| (tag, 8)).collect(),
        floors: floors.clone(),
        ..Sketch::default()
    };
    let mut station = station(&begun);
    assert_eq!(station.purge(32), 0);
    let expected = Sketch {
        log: (34..=65).map(long).collect(),
        floors: [&[s(A, 33)], &floors[1..]].concat(),
        base: (2..=33).map(|tag| (tag, 8)).collect(),
        group: 1,
        ..begun.clone()
    };
    assert!(station.image == expected.image());
    assert_eq!(station.purge(32), 0);
    let expected = Sketch {
        log: Vec::new(),
        floors: [&[s(A, 65)], &floors[1..]].concat(),
        base: begun.values.clone(),
        group: 1,
        ..begun
    };
    assert!(station.image == expected.image());
}

// An emptied log.

/// Held ones stay, wait as before, and run when what they wait for comes. Compose counts what was
/// purged, and does not count them.
#[test]
fn an_emptied_log_beside_held_ones() {
    let mut station = Station::with(&[
        delta(A, 1).group(4),
        delta(B, 2).group(9).naming(&[s(A, 1)]),
        delta(C, 1).naming(&[s(D, 1)]),
        delta(D, 1).naming(&[s(C, 1)]),
    ]);
    assert_eq!(station.purge(1), 0);
    assert_eq!(
        (station.log(), station.held()),
        ("".into(), "B2 C1 D1".into())
    );
    assert_eq!(station.compose_code(line(B)), 9);
    let (_, message) = station.compose(&plain_request(&line(A)));
    assert_eq!(message, delta(A, 2).group(5).bytes());
    assert_eq!(station.deliver(&delta(B, 1)), steps(0, "+B1 +B2"));
    assert_eq!(station.held(), "C1 D1");
}

// Sizes.

#[test]
fn images_of_other_sizes() {
    for size in [0, 1, 543, 544, IMAGE - 1, IMAGE + 1, 2 * IMAGE] {
        for k in [0, 1, u32::MAX] {
            let mut buffer = vec![PATTERN; size];
            assert_eq!(SUBJECT.purge(&mut buffer, k), 1);
            assert!(buffer.iter().all(|byte| *byte == PATTERN));
        }
    }
    // Also where all that an image has is there.
    let mut longer = Station::with(&[delta(A, 1)]).image;
    longer.push(0);
    assert_eq!(SUBJECT.purge(&mut longer, 1), 1);
}

/// Each bit of header and setpoints and of a message: no image, and no byte is written.
#[test]
fn damaged_images() {
    let right = Station::with(&[delta(A, 1).commands(&[set(0, 3)]), delta(B, 2)]);
    for bit in (0..8 * 640).chain(8 * (IMAGE - 1)..8 * IMAGE) {
        let mut station = right.clone();
        station.image[bit / 8] ^= 1 << (bit % 8);
        let judged = SUBJECT.setpoint(&station.image, 0) % 256;
        let code = station.purge(1);
        assert_eq!(u64::from(code), judged, "bit {bit}");
        assert!(bit >= 8 * 544 || code == 2, "bit {bit}");
    }
}

// Neither order leaves a trace.

/// A purge of A and then of B is one of A + B, for all pairs.
#[test]
fn two_purges_are_one_of_the_sum() {
    for seed in 0..60 {
        let mut random = Random::new(5_000_000 + seed);
        let begun = Station::with(&drafts(&mut random, 12));
        let log = begun.log_count() as u32;
        for sum in 0..=log {
            let mut at_once = begun.clone();
            assert_eq!(at_once.purge(sum), 0);
            for first in 0..=sum {
                let mut twice = begun.clone();
                assert_eq!((twice.purge(first), twice.purge(sum - first)), (0, 0));
                assert!(
                    twice.image == at_once.image,
                    "seed {seed}: {first} of {sum}"
                );
            }
        }
    }
}

/// Equal bytes where the same was purged and the same remains: one station purges as it goes, one
/// at the end, one gets the rest in another order and with repeats of what was purged.
#[test]
fn equal_images_by_different_histories() {
    let mut purged = 0;
    for seed in 0..400 {
        let mut random = Random::new(6_000_000 + seed);
        let all = drafts(&mut random, 16);
        let mut at_the_end = Station::with(&all);
        let log = at_the_end.log_count();
        let k = random.within(0, log) as u32;
        let first = common::messages(&at_the_end.image, 0, k as usize);
        let mut rest = common::messages(&at_the_end.image, k as usize, 16 - k as usize);
        assert_eq!(at_the_end.purge(k), 0);
        // What comes first is purged one by one; with nothing else there, it is the whole log.
        let mut as_it_goes = Station::new();
        for message in &first {
            assert_eq!((as_it_goes.code(message), as_it_goes.purge(1)), (0, 0));
        }
        random.shuffle(&mut rest);
        for message in rest.iter().chain(&first) {
            assert_eq!(as_it_goes.code(message), 0);
        }
        assert!(as_it_goes.image == at_the_end.image, "seed {seed}");
        purged += k;
    }
    assert!(purged > 1_000, "{purged}");
}
