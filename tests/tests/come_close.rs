//! "Programs that come close": the nine of the paper, each as that very program on a station
//! of its own. A test says what still fits, and by which demand it is found. (That the
//! differential runner finds each over seeds is shown in `differential.rs`.)

#![deny(warnings)]

mod common;

use bivamolune_tests::boundary::{code, executions, length, offset, undos, Calls};
use bivamolune_tests::call::{Action, Call, View};
use bivamolune_tests::differential::{compare, Difference};
use bivamolune_tests::faulty::{Fault, Faulty};
use bivamolune_tests::plant::Station;
use bivamolune_tests::reference::plain::PlainStation;
use bivamolune_tests::view::{log, u16_at, values};
use bivamolune_tests::wire::{add, line, sequence, set, Draft};
use common::{a1, b1, delta, name, A, B, C, IMAGE, PATTERN, STEPS, SUBJECT};

/// A station after these deliveries by a program, or what its host finds first: steps that are
/// not those counted, an undo that cannot be played, a played log or played setpoints that are
/// not the image's.
fn run(calls: &dyn Calls, drafts: &[Draft]) -> Result<Station, String> {
    let mut station = Station::new(calls, Vec::new())?;
    for draft in drafts {
        let delivery = station.deliver(calls, &draft.bytes())?;
        if delivery.code != 0 {
            return Err(format!("refused by {}", delivery.code));
        }
    }
    Ok(station)
}

/// The same of a fault whose steps, counts and image fit each other.
fn fitting(fault: Fault, drafts: &[Draft]) -> Station {
    let found = run(&Faulty(fault), drafts);
    found.unwrap_or_else(|error| panic!("{fault:?}: {error}"))
}

/// After which of the deliveries a fault's image first is not that of the set (demand 2).
fn wrong_image_after(fault: Fault, drafts: &[Draft]) -> Option<usize> {
    let mut plain = PlainStation::default();
    let mut image = vec![PATTERN; IMAGE];
    assert_eq!(Faulty(fault).empty(&mut image), 0);
    drafts.iter().position(|draft| {
        let message = draft.bytes();
        Faulty(fault).deliver(&mut image, &message, &mut [0; STEPS]);
        plain.deliver(&message, STEPS).expect("a right message");
        image != plain.image()
    })
}

/// Where the runner finds a fault: the place of a delivery, and what differs.
fn difference(fault: Fault, drafts: &[Draft]) -> Option<Difference> {
    let deliver = |draft: &Draft| Action::Deliver {
        message: draft.bytes(),
        steps: STEPS,
    };
    let actions = [Action::Empty]
        .into_iter()
        .chain(drafts.iter().map(deliver));
    let view = View::Station;
    let calls = actions.map(|action| Call {
        view: view.clone(),
        action,
    });
    let found = compare(&SUBJECT, &Faulty(fault), &calls.collect::<Vec<_>>());
    found.map(|difference| Difference {
        place: difference.place - 1,
        ..difference
    })
}

/// The place alone.
fn found_at(fault: Fault, drafts: &[Draft]) -> Option<usize> {
    difference(fault, drafts).map(|difference| difference.place)
}

/// An image's log in names.
fn names(image: &[u8]) -> Vec<String> {
    log(image).iter().map(|sequence| name(sequence)).collect()
}

/// Deltas of one line each, with lines from 10 hexadecimal on.
fn lone(count: u8) -> Vec<Draft> {
    (0..count).map(|last| delta(0x10 + last, 1)).collect()
}

/// The right program comes through.
#[test]
fn one_that_is_right() {
    let drafts = [delta(A, 2), b1(), a1()];
    let station = run(&SUBJECT, &drafts).expect("all fits");
    assert_eq!(names(&station.memory.image), ["A1", "A2", "B1"]);
}

/// "plays honest undos and executions but counts them freely": the records and the image are
/// right, and the counts are not those of the records.
#[test]
fn one_that_counts_freely() {
    let drafts = [b1(), a1()];
    let found = run(&Faulty(Fault::CountsOff), &drafts).expect_err("wrong counts");
    assert_eq!(found, "not 1 undos, then 3 executions");
    assert_eq!(wrong_image_after(Fault::CountsOff, &drafts), None);
    let found = difference(Fault::CountsOff, &drafts).expect("it is found");
    assert_eq!(found.place, 1);
    assert_eq!(found.what, "answers 0x20100 and 0x30100");
}

/// "undoes everything each time": all fits, and the steps are not the fewest.
#[test]
fn one_that_undoes_everything() {
    let drafts = [a1(), delta(A, 2), b1()];
    fitting(Fault::UndoesEverything, &drafts);
    assert_eq!(wrong_image_after(Fault::UndoesEverything, &drafts), None);
    let found = difference(Fault::UndoesEverything, &drafts).expect("it is found");
    assert_eq!(found.place, 1);
    assert_eq!(found.what, "answers 0x10000 and 0x20100");
}

/// "rebuilds on the first delivery and only echoes later": right after the first call, and
/// wrong after the second.
#[test]
fn one_that_echoes_later() {
    let drafts = [a1(), b1()];
    let station = fitting(Fault::EchoesLater, &drafts);
    assert_eq!(names(&station.memory.image), ["A1"]);
    assert_eq!(wrong_image_after(Fault::EchoesLater, &drafts), Some(1));
    assert_eq!(found_at(Fault::EchoesLater, &drafts), Some(1));
}

/// "holds every delta": all fits, and nothing is ever executed.
#[test]
fn one_that_holds_every_delta() {
    let drafts = [a1(), b1(), delta(A, 2)];
    let image = fitting(Fault::HoldsAll, &drafts).memory.image;
    assert_eq!((u16_at(&image, 0), u16_at(&image, 2)), (0, 3));
    assert_eq!(wrong_image_after(Fault::HoldsAll, &drafts), Some(0));
    assert_eq!(found_at(Fault::HoldsAll, &drafts), Some(0));
    // Deltas that are held for good are held by the right program too.
    assert_eq!(found_at(Fault::HoldsAll, &[delta(A, 2), delta(B, 2)]), None);
}

/// "or leaves the image as it was": answer and steps are right.
#[test]
fn one_that_leaves_the_image() {
    let found = run(&Faulty(Fault::LeavesImage), &[a1()]).expect_err("another log");
    assert_eq!(found, "the host's log is not the image's");
    assert_eq!(wrong_image_after(Fault::LeavesImage, &[a1()]), Some(0));
    let found = difference(Fault::LeavesImage, &[a1()]).expect("it is found");
    assert!(found.what.starts_with("image byte 1"), "{}", found.what);
}

/// "answers full with 63 present": right up to there.
#[test]
fn one_that_is_full_at_63() {
    let drafts = lone(64);
    fitting(Fault::FullAt63, &drafts[..63]);
    let found = run(&Faulty(Fault::FullAt63), &drafts).map(|station| station.memory);
    assert_eq!(found, Err("refused by 8".to_string()));
    assert_eq!(found_at(Fault::FullAt63, &drafts), Some(63));
    run(&SUBJECT, &drafts).expect("64 are taken");
}

/// "or 12 for a place in the log": the last one.
#[test]
fn one_that_refuses_a_place_in_the_log() {
    let image = run(&SUBJECT, &lone(3)).expect("all fits").memory.image;
    let wrong = Faulty(Fault::LastPlaceRefused);
    for place in 0..4 {
        let (right, wrong) = (
            SUBJECT.log_message(&image, place),
            wrong.log_message(&image, place),
        );
        assert_eq!(right == wrong, place != 2, "place {place}");
    }
    let answer = SUBJECT.log_message(&image, 2);
    let part = (code(answer), offset(answer), length(answer));
    assert_eq!(part, (0, 544 + 2 * 48, 48));
    assert_eq!(code(wrong.log_message(&image, 2)), 12);
}

/// "or refuses all": no station is ever wrong, and no delta accepted.
#[test]
fn one_that_refuses_all() {
    for drafts in [[a1()], [delta(A, 2)], [b1().priority(1, 5)]] {
        let found = run(&Faulty(Fault::RefusesAll), &drafts).map(|s| s.memory);
        assert_eq!(found, Err("refused by 3".to_string()));
        assert_eq!(found_at(Fault::RefusesAll, &drafts), Some(0));
        run(&SUBJECT, &drafts).expect("it is accepted");
    }
}

/// "the same log always: equal on all stations", whatever came in which order.
#[test]
fn one_with_the_same_log_always() {
    let stations = [vec![a1(), b1()], vec![b1(), a1()], vec![delta(C, 1)]];
    let images = stations.map(|drafts| {
        assert_eq!(wrong_image_after(Fault::SameLog, &drafts), Some(0));
        assert_eq!(found_at(Fault::SameLog, &drafts), Some(0));
        fitting(Fault::SameLog, &drafts).memory.image
    });
    assert!(images[0] == images[1] && images[1] == images[2]);
}

/// "Sorting by key alone, so that a need follows its user": A1 names B1, whose group is
/// higher. Steps, counts, setpoints and log fit each other.
#[test]
fn one_that_sorts_by_key_alone() {
    let user = a1().naming(&[sequence(line(B), 1)]);
    let drafts = [b1().group(2), user.clone()];
    let wrong = fitting(Fault::KeyAlone, &drafts).memory.image;
    assert_eq!(names(&wrong), ["A1", "B1"]);
    let right = run(&SUBJECT, &drafts).expect("all fits").memory.image;
    assert_eq!(names(&right), ["B1", "A1"]);
    assert_eq!((values(&wrong)[3], values(&right)[3]), (1480, 1500));
    assert_eq!(wrong_image_after(Fault::KeyAlone, &drafts), Some(1));
    assert_eq!(found_at(Fault::KeyAlone, &drafts), Some(1));
    // Where the need has the lower key, nothing is wrong.
    assert_eq!(found_at(Fault::KeyAlone, &[b1().group(0), user]), None);
}

/// "Letting unrelated deltas wait behind a held one": B1 waits for A1, which A2 needs, and
/// with A1 all is right again. A1 itself does not wait.
#[test]
fn one_that_lets_unrelated_deltas_wait() {
    let drafts = [delta(A, 2), b1(), a1()];
    let wrong = fitting(Fault::WaitsBehindHeld, &drafts[..2]).memory.image;
    assert_eq!((u16_at(&wrong, 0), u16_at(&wrong, 2)), (0, 2));
    assert_eq!(wrong_image_after(Fault::WaitsBehindHeld, &drafts), Some(1));
    assert_eq!(found_at(Fault::WaitsBehindHeld, &drafts), Some(1));
    let image = |calls: &dyn Calls| run(calls, &drafts).map(|station| station.memory.image);
    assert!(image(&Faulty(Fault::WaitsBehindHeld)) == image(&SUBJECT));
    // What a held one needs runs at once, and what ran before goes on standing.
    let held = delta(A, 3).naming(&[sequence(line(C), 1)]);
    let related = [b1(), held, delta(C, 1)];
    assert_eq!(found_at(Fault::WaitsBehindHeld, &related), None);
}

/// "Undoing an addition by subtracting, wrong once the sum was stopped": C1 adds 20 to what
/// A1 has set, and B1, which comes between them, lets it be undone.
#[test]
fn one_that_undoes_by_subtracting() {
    let drafts = |value| {
        let first = delta(A, 1).commands(&[set(3, value)]);
        let last = delta(C, 1).commands(&[add(3, 20)]);
        [first, last, b1()]
    };
    let (stopped, not_stopped) = (drafts(999_990), drafts(999_980));
    let found = run(&Faulty(Fault::Subtracts), &stopped).map(|station| station.memory);
    let undo = "undo of 00000000000C000000010001 restores other values";
    assert_eq!(found, Err(undo.to_string()));
    assert_eq!(wrong_image_after(Fault::Subtracts, &stopped), Some(2));
    assert_eq!(found_at(Fault::Subtracts, &stopped), Some(2));
    assert_eq!(value_after(&SUBJECT, &stopped), 999_990);
    assert_eq!(value_after(&Faulty(Fault::Subtracts), &stopped), 999_980);
    assert_eq!(found_at(Fault::Subtracts, &not_stopped), None);
}

/// Tag 3 of the image after these deliveries, the last of which undoes one and executes two.
fn value_after(calls: &dyn Calls, drafts: &[Draft]) -> i32 {
    let mut image = vec![PATTERN; IMAGE];
    assert_eq!(calls.empty(&mut image), 0);
    let mut deliver = |draft: &Draft| calls.deliver(&mut image, &draft.bytes(), &mut [0; STEPS]);
    let answers: Vec<u32> = drafts.iter().map(&mut deliver).collect();
    let last = answers.last().copied().expect("a last one");
    assert_eq!((code(last), undos(last), executions(last)), (0, 1, 2));
    values(&image)[3]
}
