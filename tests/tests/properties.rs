//! What must hold for every input, over many seeds.

#![deny(warnings)]

mod common;

use std::collections::BTreeMap;

use bivamolune_tests::boundary::{code, executions, length, undos, Calls};
use bivamolune_tests::call::{Action, Composing, View, World};
use bivamolune_tests::generate::{
    case, conflicting, damaged_message, drafts, edit, is_with_floors,
};
use bivamolune_tests::order_kept::{by_logs, by_steps};
use bivamolune_tests::random::Random;
use bivamolune_tests::reference::plain::PlainStation;
use bivamolune_tests::reference::purged::Purged;
use bivamolune_tests::reference::reader::Reader;
use bivamolune_tests::view::{all_messages, base_values, floors, log, play, sequence_of, steps};
use bivamolune_tests::wire::{Draft, Sequence};
use common::{
    log_message, log_message_code, messages, setpoint, u16_at, u32_at, Station, PATTERN, STEP,
    STEPS, SUBJECT,
};

/// A set of 1 to 64 deltas, small ones more often.
fn set(random: &mut Random) -> Vec<Draft> {
    let most = random.pick(&[5, 5, 20, 64]);
    let count = random.within(1, most);
    drafts(random, count)
}

#[test]
fn arrival_order_does_not_matter() {
    for seed in 0..1_000 {
        let mut random = Random::new(seed);
        let mut set = set(&mut random);
        let first = Station::with(&set);
        for _ in 0..3 {
            random.shuffle(&mut set);
            let mut other = Station::new();
            for draft in &set {
                assert_eq!(other.code(&draft.bytes()), 0);
                let earlier = &set[random.below(set.len())];
                // Repeats, conflicts and damage in between leave no trace.
                if log_or_held(&other, earlier) {
                    assert_eq!(other.code(&earlier.bytes()), 0);
                    other.code(&conflicting(&mut random, earlier));
                }
                let damaged = damaged_message(&mut random, earlier);
                if Station::new().code(&damaged) != 0 {
                    other.code(&damaged);
                }
            }
            assert!(other.image == first.image, "seed {seed}");
        }
    }
}

/// Whether a station has the delta, with these bytes.
fn log_or_held(station: &Station, draft: &Draft) -> bool {
    let count = station.log_count() + station.held_count();
    messages(&station.image, 0, count).contains(&draft.bytes())
}

/// One delivery of a run: what went in, and what was there before and after.
struct Delivery<'a> {
    message: &'a [u8],
    old: Vec<u8>,
    new: Vec<u8>,
    steps: Vec<u8>,
    before: Vec<u8>,
    answer: u32,
}

/// Demand 3: each list of deliveries, against the plain station.
#[test]
fn whole_runs_agree_with_the_plain_station() {
    let (mut deliveries, mut refused, mut undoing) = (0, 0, 0);
    for seed in 0..2_500 {
        let mut image = Station::new().image;
        let mut plain = PlainStation::default();
        let mut played: Vec<Sequence> = Vec::new();
        for call in case(seed) {
            let (message, steps) = match &call.action {
                Action::Deliver { message, steps } => (message, *steps),
                _ => continue,
            };
            let delivery = deliver(&image, message, steps);
            image.clone_from(&delivery.new);
            let expected = plain.deliver(message, steps);
            let number = expected.map_or_else(|code| code.number(), |()| 0);
            assert_eq!(code(delivery.answer), number, "seed {seed}");
            check_buffers(&delivery);
            check_counts(&delivery);
            check_order(&mut played, &delivery);
            assert!(image == plain.image(), "seed {seed}");
            assert_eq!(played, log(&image), "seed {seed}");
            assert_eq!(played, plain.log(), "seed {seed}");
            deliveries += 1;
            refused += usize::from(number != 0);
            undoing += usize::from(undos(delivery.answer) > 0);
        }
    }
    assert!(
        deliveries > 30_000 && refused > 3_000 && undoing > 3_000,
        "{deliveries} {refused} {undoing}"
    );
}

/// The plain station of an image: what was purged as the image has it, and its messages.
fn plain_of(image: &[u8]) -> PlainStation {
    let floor = |floor: Sequence| {
        let line = floor[..10].try_into().expect("ten bytes");
        (line, u16_at(&floor, 10) as u16)
    };
    let mut plain = PlainStation::after(Purged {
        floors: floors(image).into_iter().map(floor).collect(),
        base: base_values(image),
        block: u32_at(image, 16),
        group: u32_at(image, 20),
    });
    for message in all_messages(image) {
        assert_eq!(plain.deliver(&message, STEPS), Ok(()));
    }
    plain
}

/// The same from images with floors: what is at or below one is answered by 0 and changes
/// nothing, however many there are.
#[test]
fn whole_runs_from_images_with_floors() {
    let mut seen: BTreeMap<&str, usize> = BTreeMap::new();
    for seed in (0..6_000).filter(|seed| is_with_floors(*seed)) {
        let calls = case(seed);
        let mut image = match &calls[0].action {
            Action::Begin(image) => image.clone(),
            other => panic!("begins with {other:?}"),
        };
        let mut plain = plain_of(&image);
        let mut played = log(&image);
        for call in calls {
            let (message, steps) = match &call.action {
                Action::Deliver { message, steps } => (message, *steps),
                _ => continue,
            };
            let delivery = deliver(&image, message, steps);
            image.clone_from(&delivery.new);
            let expected = plain.deliver(message, steps);
            let number = expected.map_or_else(|code| code.number(), |()| 0);
            assert_eq!(code(delivery.answer), number, "seed {seed}");
            check_buffers(&delivery);
            check_counts(&delivery);
            check_order(&mut played, &delivery);
            assert!(image == plain.image(), "seed {seed}");
            assert_eq!(played, log(&image), "seed {seed}");
            let below = number == 0 && is_purged(&image, message);
            let full = u16_at(&image, 0) + u16_at(&image, 2) == 64;
            let mut mark = |name, is: bool| *seen.entry(name).or_default() += usize::from(is);
            mark("purged", below);
            mark("purged with 64", below && full);
            mark("undos", undos(delivery.answer) > 0);
            mark("not purged", number == 0 && !below);
        }
    }
    assert_eq!(seen.len(), 4);
    assert!(seen.values().all(|count| *count > 300), "{seen:?}");
}

/// Whether a message is at or below a floor of an image.
fn is_purged(image: &[u8], message: &[u8]) -> bool {
    let own = &message[12..24];
    let mut floors = floors(image).into_iter();
    floors.any(|floor| floor[..10] == own[..10] && floor[10..] >= own[10..])
}

/// Delivers to an image, with a step buffer of nonzero bytes.
fn deliver<'a>(image: &[u8], message: &'a [u8], size: usize) -> Delivery<'a> {
    let before: Vec<u8> = (0..size).map(|at| at as u8 | 1).collect();
    let (mut new, mut steps) = (image.to_vec(), before.clone());
    let answer = SUBJECT.deliver(&mut new, message, &mut steps);
    Delivery {
        message,
        old: image.to_vec(),
        new,
        steps,
        before,
        answer,
    }
}

/// A refusal changes no byte; bytes past the steps are unchanged.
fn check_buffers(delivery: &Delivery) {
    let end = STEP * (undos(delivery.answer) + executions(delivery.answer));
    assert_eq!(delivery.steps[end..], delivery.before[end..]);
    if code(delivery.answer) != 0 {
        assert_eq!(end, 0);
        assert!(delivery.old == delivery.new);
    }
}

/// The counts by the longest common start.
fn check_counts(delivery: &Delivery) {
    let (old, new) = (log(&delivery.old), log(&delivery.new));
    let mut common = 0;
    while common < old.len() && common < new.len() && old[common] == new[common] {
        common += 1;
    }
    assert_eq!(undos(delivery.answer), old.len() - common);
    assert_eq!(executions(delivery.answer), new.len() - common);
    if code(delivery.answer) == 0 && !is_purged(&delivery.old, delivery.message) {
        let own = sequence_of(delivery.message);
        let held = messages(&delivery.new, new.len(), u16_at(&delivery.new, 2));
        assert!(new.contains(&own) || held.contains(&delivery.message.to_vec()));
    }
}

/// Plays the records: undos name the last delta, executions add one. What was in the log keeps its
/// order, by the records alone and by the played logs.
fn check_order(played: &mut Vec<Sequence>, delivery: &Delivery) {
    let (undone, executed) = (undos(delivery.answer), executions(delivery.answer));
    let old = played.clone();
    let steps = steps(&delivery.steps, undone, executed).expect("undos, then executions");
    assert!(play(played, &steps), "an undo of another than the last");
    assert_eq!(by_steps(delivery.answer, &delivery.steps), Ok(()));
    assert_eq!(by_logs(&old, played), Ok(()));
}

#[test]
fn composed_deltas_follow_the_rules_and_are_accepted_without_undo() {
    let mut answered: BTreeMap<u32, usize> = BTreeMap::new();
    for seed in 0..2_500 {
        let mut world = World::default();
        for call in case(seed) {
            let outcome = world.perform(&SUBJECT, &call);
            let code = code(outcome.answer);
            let on_station = call.view == View::Station && [0, 9, 10, 11].contains(&code);
            if let (Action::Compose(composing), true) = (&call.action, on_station) {
                let message = &outcome.buffer[..length(outcome.answer)];
                let wanted = expected(&world.image, composing);
                assert_eq!((code, message), wanted.as_tuple());
                *answered.entry(code).or_default() += 1;
                if code == 0 {
                    check_delivered(&world.image, message);
                }
            }
            world.follow(&call, &outcome);
        }
    }
    assert_eq!(answered.keys().copied().collect::<Vec<_>>(), [0, 9, 10, 11]);
    assert!(answered.values().all(|count| *count > 30), "{answered:?}");
}

/// A code, and a message where it is 0.
struct Composed {
    code: u32,
    message: Vec<u8>,
}

impl Composed {
    fn as_tuple(&self) -> (u32, &[u8]) {
        (self.code, &self.message)
    }

    fn refused(code: u32) -> Composed {
        let message = Vec::new();
        Composed { code, message }
    }
}

/// What the paper asks of compose with right arguments, read off the image.
fn expected(image: &[u8], composing: &Composing) -> Composed {
    let line = &composing.line[..];
    let log = messages(image, 0, u16_at(image, 0));
    let held = messages(image, log.len(), u16_at(image, 2));
    if held.iter().any(|message| message[12..22] == *line) {
        return Composed::refused(9);
    }
    let mut draft = Draft::new(line.try_into().expect("ten bytes"), 1);
    let commands = composing.commands.chunks(8);
    draft.commands = commands
        .map(|command| command.try_into().expect("eight bytes"))
        .collect();
    // With needs before users, a line's deltas in the log are numbered from its floor on.
    let floor = floors(image).into_iter().find(|floor| floor[..10] == *line);
    let floor = floor.map_or(0, |floor| u16_at(&floor, 10));
    let number = floor + log.iter().filter(|m| m[12..22] == *line).count() + 1;
    if number > 0xFFFF {
        return Composed::refused(10);
    }
    draft.number = number as u16;
    draft.group = group(&log, u32_at(image, 20), &draft.sequence());
    if composing.priority_flag == 1 {
        // The highest effective block is the highest block of all, the purged one included.
        let blocks = log.iter().map(|m| u32_at(m, 28));
        let highest = blocks.fold(u32_at(image, 16), u32::max);
        draft.explicit = Some((highest + 1, composing.priority));
    }
    draft.dependencies = ends(&log, &draft);
    judged(&draft)
}

/// The highest, the purged one included, plus one if the last sequence is above, or there is
/// none.
fn group(log: &[Vec<u8>], purged: u32, own: &[u8]) -> u32 {
    let highest = log.iter().map(|m| u32_at(m, 24)).fold(purged, u32::max);
    match log.last() {
        Some(last) => highest + u32::from(last[12..24] > *own),
        None => highest + 1,
    }
}

/// The log deltas that no log delta needs, less the predecessor.
fn ends(log: &[Vec<u8>], draft: &Draft) -> Vec<Sequence> {
    let mut named: Vec<Sequence> = Vec::new();
    for message in log {
        let own: Sequence = message[12..24].try_into().expect("twelve bytes");
        let needed = log.iter().any(|user| {
            let names = user[40..40 + 12 * usize::from(user[2])].chunks(12);
            let follows = user[12..22] == own[..10] && u16_at(user, 22) == u16_at(&own, 10) + 1;
            follows || names.into_iter().any(|name| name == own)
        });
        let before = own[..10] == draft.line && u16_at(&own, 10) + 1 == usize::from(draft.number);
        if !needed && !before {
            named.push(own);
        }
    }
    named.sort_unstable();
    named
}

/// Codes 10 and 11, or the message.
fn judged(draft: &Draft) -> Composed {
    let limit = 2_147_483_647;
    if draft.group > limit || draft.explicit.map_or(false, |(block, _)| block > limit) {
        return Composed::refused(10);
    }
    if draft.dependencies.len() > 8 {
        return Composed::refused(11);
    }
    let message = draft.bytes();
    Composed { code: 0, message }
}

/// Delivers a composed message to the image it was composed on.
fn check_delivered(image: &[u8], message: &[u8]) {
    let (mut image, mut steps) = (image.to_vec(), vec![PATTERN; STEPS]);
    let full = u16_at(&image, 0) + u16_at(&image, 2) == 64;
    let answer = SUBJECT.deliver(&mut image, message, &mut steps);
    if full {
        assert_eq!(answer, 8);
        return;
    }
    assert_eq!((code(answer), undos(answer)), (0, 0));
    assert!(executions(answer) >= 1);
    assert_eq!(steps[..4], [2, 0, 0, message[3]]);
    assert_eq!(steps[4..16], message[12..24]);
}

/// A buffer is an image exactly if its messages, delivered to an empty station, give
/// it back.
#[test]
fn an_image_is_what_its_messages_give() {
    let (mut right, mut wrong) = (0, 0);
    for seed in 0..4_000 {
        let mut random = Random::new(3_000_000 + seed);
        let most = random.pick(&[3, 8, 20, 63]);
        let count = random.within(1, most);
        let mut image = Station::with(&drafts(&mut random, count)).image;
        edit(&mut random).apply(&mut image);
        let given = given_by_messages(&image);
        let is_image = given.map_or(false, |given| given == image);
        let mut steps = vec![PATTERN; STEPS];
        let refused = SUBJECT.deliver(&mut image, &[], &mut steps);
        assert_eq!(refused, if is_image { 3 } else { 2 }, "seed {seed}");
        let (code, _) = setpoint(&image, 0);
        assert_eq!(code, if is_image { 0 } else { 2 }, "seed {seed}");
        right += usize::from(is_image);
        wrong += usize::from(!is_image);
    }
    assert!(right > 200 && wrong > 2_000, "{right} {wrong}");
}

/// The image of the messages a buffer counts, if all are there, new and accepted.
fn given_by_messages(image: &[u8]) -> Option<Vec<u8>> {
    let mut station = Station::new();
    let mut at = 544;
    for number in 1..=u16_at(image, 0) + u16_at(image, 2) {
        let size = u16_at(image.get(at..at + 6)?, 4);
        if station.code(image.get(at..at + size)?) != 0 {
            return None;
        }
        if station.log_count() + station.held_count() != number {
            return None;
        }
        at += size;
    }
    Some(station.image)
}

#[test]
fn readers_agree_with_the_image() {
    for seed in 0..300 {
        let mut random = Random::new(4_000_000 + seed);
        let station = Station::with(&set(&mut random));
        let count = station.log_count();
        let expected = messages(&station.image, 0, count);
        let mut reader = Reader::new(&station.image);
        for (place, message) in expected.iter().enumerate() {
            assert_eq!(log_message(&station.image, place), message);
            assert_eq!(log_message_code(&station.image, place), 0);
            assert_eq!(reader.next_message(), message);
        }
        assert!(reader.next_message().is_empty() && reader.next_message().is_empty());
        assert_eq!(log_message_code(&station.image, count), 12);
        for tag in 0..64 {
            assert_eq!(setpoint(&station.image, tag), (0, station.value(tag)));
        }
    }
}
