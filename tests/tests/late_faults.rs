//! Wrong programs whose order of two deltas hangs on what arrives: each is found by its own answers
//! alone where it turns round what was in the log. (That the comparison finds each over seeds is
//! shown in `differential.rs`.)

#![deny(warnings)]

mod common;
#[path = "common/watched.rs"]
mod watched;

use std::collections::BTreeSet;

use bivamolune_tests::boundary::{Calls, Reference};
use bivamolune_tests::call::World;
use bivamolune_tests::faulty::{Fault, Faulty};
use bivamolune_tests::generate::case;
use bivamolune_tests::order_kept::{by_steps, Broken};
use bivamolune_tests::wire::{line, sequence, Draft};
use common::{delta, name, A, B, C, D, SUBJECT};
use watched::{every_order, Kept, Watched};

/// Neither of the two checks finds the order kept.
const BROKEN: Kept = Kept {
    by_steps: false,
    by_logs: false,
};

/// What of the order a program keeps in each delivery of a list, and its log after each.
fn run(calls: &dyn Calls, drafts: &[Draft]) -> Vec<(Kept, String)> {
    let mut station = Watched::new(calls);
    let mut deliver = |draft: &Draft| {
        let delivered = station.deliver(calls, &draft.bytes());
        assert_eq!(delivered.code, 0);
        let names: Vec<String> = station.played.iter().map(|own| name(own)).collect();
        (delivered.kept, names.join(" "))
    };
    drafts.iter().map(&mut deliver).collect()
}

/// The log before the last delivery and after it, which the fault turns round by both checks
/// and the right program does not.
fn turned(fault: Fault, drafts: &[Draft]) -> [String; 2] {
    assert!(run(&SUBJECT, drafts)
        .iter()
        .all(|(kept, _)| *kept == Kept::WHOLE));
    let mut found = run(&Faulty(fault), drafts);
    let (last, after) = found.pop().expect("a last one");
    assert_eq!(last, BROKEN, "{fault:?}");
    assert!(
        found.iter().all(|(kept, _)| *kept == Kept::WHOLE),
        "{fault:?}"
    );
    let (_, before) = found.pop().expect("one before");
    [before, after]
}

fn names(logs: [&str; 2]) -> [String; 2] {
    logs.map(str::to_string)
}

/// B1 and A1 stand as B1 came last, and are read as if A1 had come after it.
#[test]
fn ties_the_latest_first() {
    let drafts = [delta(A, 1), delta(B, 1), delta(C, 1)];
    let logs = turned(Fault::TiesLatestFirst, &drafts);
    assert_eq!(logs, names(["B1 A1", "C1 A1 B1"]));
}

#[test]
fn ties_by_the_number_of_deltas() {
    let drafts = [delta(A, 1), delta(B, 1), delta(C, 1)];
    let logs = turned(Fault::TiesByCount, &drafts);
    assert_eq!(logs, names(["A1 B1", "C1 B1 A1"]));
}

/// The burner change C1 lets B1, which it needs, go before the middling A1.
#[test]
fn priority_handed_down() {
    let burner = delta(C, 1).priority(1, 9).naming(&[sequence(line(B), 1)]);
    let drafts = [
        delta(A, 1).priority(1, 5),
        delta(B, 1).priority(1, 1),
        burner,
    ];
    let logs = turned(Fault::PriorityHandedDown, &drafts);
    assert_eq!(logs, names(["A1 B1", "B1 C1 A1"]));
}

/// B1 of block 2 takes A1, which it needs, behind C1.
#[test]
fn block_handed_down() {
    let user = delta(B, 1).priority(2, 0).naming(&[sequence(line(A), 1)]);
    let logs = turned(Fault::BlockHandedDown, &[delta(A, 1), delta(C, 1), user]);
    assert_eq!(logs, names(["A1 C1", "C1 A1 B1"]));
}

/// The same though B2 is held.
#[test]
fn block_of_a_held_delta() {
    let held = delta(B, 2).priority(2, 0).naming(&[sequence(line(A), 1)]);
    let logs = turned(Fault::BlockOfHeld, &[delta(A, 1), delta(C, 1), held]);
    assert_eq!(logs, names(["A1 C1", "C1 A1"]));
}

/// A1 and C1 are ties; B1 and E1 need A1, and E1 needs B1, which is behind D1 by itself.
fn five() -> Vec<Draft> {
    let [a1, b1] = [A, B].map(|letter| sequence(line(letter), 1));
    vec![
        delta(A, 1),
        delta(B, 1).priority(2, 3).naming(&[a1]),
        delta(C, 1),
        delta(D, 1).priority(2, 5),
        delta(0x0E, 1).priority(2, 9).naming(&[a1, b1]),
    ]
}

/// What of the order a program keeps over every order of arrival of the five, and how many images
/// their set has in the end.
fn in_every_order(calls: &dyn Calls) -> (Kept, usize) {
    let (mut all, mut images) = (Kept::WHOLE, BTreeSet::new());
    let start = Watched::new(calls);
    every_order(calls, &start, &five(), &mut |_, _, delivered, after| {
        all.by_steps &= delivered.kept.by_steps;
        all.by_logs &= delivered.kept.by_logs;
        if after.played.len() == 5 {
            images.insert(after.image.clone());
        }
    });
    (all, images.len())
}

/// Which break the order, by their own answers alone. Where ties are decided by arrival, and what
/// arrives always goes last, the order is kept: that one shows in a set that has two images. Four of
/// the others have one image for each set, as the right program has.
#[test]
fn which_of_them_break_the_order() {
    assert_eq!(in_every_order(&Reference), (Kept::WHOLE, 1));
    assert_eq!(in_every_order(&SUBJECT), (Kept::WHOLE, 1));
    for (fault, expected) in [
        (Fault::TiesByArrival, (Kept::WHOLE, 2)),
        (Fault::TiesLatestFirst, (BROKEN, 2)),
        (Fault::TiesByCount, (BROKEN, 1)),
        (Fault::PriorityHandedDown, (BROKEN, 1)),
        (Fault::BlockHandedDown, (BROKEN, 1)),
        (Fault::BlockOfHeld, (BROKEN, 1)),
    ] {
        assert_eq!(in_every_order(&Faulty(fault)), expected, "{fault:?}");
    }
}

/// Whether a program's steps break the order in the calls of some seeds, with floors in some.
fn breaks(calls: &dyn Calls) -> bool {
    let seeds = (0..30).chain((0..10).map(|place| 204 + 8 * place));
    let mut broken = seeds.map(|seed| {
        let mut world = World::default();
        case(seed).iter().any(|call| {
            let outcome = world.perform(calls, call);
            world.follow(call, &outcome);
            let kept = by_steps(outcome.answer, &outcome.buffer);
            call.action.delivers() && matches!(kept, Err(Broken::Order { .. }))
        })
    });
    broken.any(|broken| broken)
}

/// These have another log than the right one, and no call of these seeds breaks the order.
#[test]
fn other_wrong_logs_keep_the_order() {
    let others = [
        Fault::HoldsAll,
        Fault::KeyAlone,
        Fault::WaitsBehindHeld,
        Fault::PurgedJoins,
        Fault::PriorityOf16Bits,
        Fault::BlockOf16Bits,
        Fault::GroupOf24Bits,
        Fault::EightHidePredecessor,
        Fault::NeedsByLineAlone,
        Fault::NeedAtFloorMissing,
        Fault::NeedBelowFloorMissing,
        Fault::PurgedBlockUncounted,
        Fault::TiesByArrival,
    ];
    for fault in others {
        assert!(!breaks(&Faulty(fault)), "{fault:?}");
    }
    assert!(!breaks(&SUBJECT));
    for fault in [
        Fault::TiesLatestFirst,
        Fault::TiesByCount,
        Fault::PriorityHandedDown,
        Fault::BlockHandedDown,
        Fault::BlockOfHeld,
    ] {
        assert!(breaks(&Faulty(fault)), "{fault:?}");
    }
}
