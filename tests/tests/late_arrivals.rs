//! "A late arrival only squeezes in": small sets in every order of arrival, and what arrives in
//! vain, on the second implementation and, where it is linked, on the library. After each delivery
//! the order of what was in the log before is asked of the steps alone, and of the image's logs, to
//! which the steps lead.

#![deny(warnings)]

mod common;
#[path = "common/listings.rs"]
mod listings;
#[path = "common/watched.rs"]
mod watched;

use bivamolune_tests::boundary::{Calls, Reference, COMPARED};
use bivamolune_tests::view::all_messages;
use bivamolune_tests::wire::{add, line, sequence, set, Draft, Sequence};
use common::{delta, A, B, C, D, SUBJECT};
use listings::{first_listing, Past};
use watched::{every_order, Kept, Watched};

const E: u8 = 0x0E;
const F: u8 = 0x0F;
const LETTERS: [u8; 4] = [A, B, C, D];

/// What is asked: the second implementation, and the library where it is linked.
fn asked() -> Vec<&'static dyn Calls> {
    let mut all: Vec<&dyn Calls> = vec![&Reference];
    if !COMPARED.is_empty() {
        all.push(&SUBJECT);
    }
    all
}

fn s(letter: u8, number: u16) -> Sequence {
    sequence(line(letter), number)
}

/// Deliveries, and among them: those that undo, those that are held, and those that come before,
/// between and behind what was in the log.
#[derive(Clone, Copy, Debug, Default, PartialEq, Eq)]
struct Tally {
    deliveries: usize,
    undoing: usize,
    held: usize,
    front: usize,
    between: usize,
    end: usize,
}

impl Tally {
    /// Counts a delivery so many times, by the logs before and after it.
    fn count(&mut self, times: usize, undoes: bool, own: &Sequence, logs: [&[Sequence]; 2]) {
        let [old, new] = logs;
        let place = new.iter().position(|other| other == own);
        let before = |place: usize| new[..place].iter().any(|other| old.contains(other));
        let behind = |place: usize| new[place..].iter().any(|other| old.contains(other));
        self.deliveries += times;
        self.undoing += times * usize::from(undoes);
        match place.map(|place| (before(place), behind(place))) {
            None => self.held += times,
            Some((false, true)) => self.front += times,
            Some((true, true)) => self.between += times,
            Some((true, false)) => self.end += times,
            Some((false, false)) => {}
        }
    }

    fn add(&mut self, other: Tally) {
        self.deliveries += other.deliveries;
        self.undoing += other.undoing;
        self.held += other.held;
        self.front += other.front;
        self.between += other.between;
        self.end += other.end;
    }
}

/// Lets a set arrive at a station in every order; each delivery is accepted and keeps the order.
fn arrive(calls: &dyn Calls, start: &Watched, set: &[Draft]) -> Tally {
    let mut tally = Tally::default();
    every_order(calls, start, set, &mut |old, draft, delivered, after| {
        let found = (delivered.code, delivered.kept);
        assert_eq!(found, (0, Kept::WHOLE), "{old:?}, then {draft:?}");
        let undoes = delivered.undos > 0;
        tally.count(1, undoes, &draft.sequence(), [old, &after.played]);
    });
    tally
}

/// The same counts by the definition of the log alone: of each part of the set its log by search,
/// and how many orders it can have arrived in.
fn searched(set: &[Draft]) -> Tally {
    let part = |mask: usize| {
        let places = (0..set.len()).filter(|place| mask >> place & 1 == 1);
        places.map(|place| set[place].clone()).collect()
    };
    let log = |mask: usize| {
        let part: Vec<Draft> = part(mask);
        let first = first_listing(&Past::default(), &part);
        first.iter().map(|place| part[*place].sequence()).collect()
    };
    let logs: Vec<Vec<Sequence>> = (0..1 << set.len()).map(log).collect();
    let mut tally = Tally::default();
    for (mask, old) in logs.iter().enumerate() {
        let orders = (1..=mask.count_ones() as usize).product();
        for place in (0..set.len()).filter(|place| mask >> place & 1 == 0) {
            let new = &logs[mask | 1 << place];
            let undoes = !new.starts_with(old);
            tally.count(orders, undoes, &set[place].sequence(), [old, new]);
        }
    }
    tally
}

/// Lets all these sets arrive in every order, on all that are asked. How often what happened is
/// what the search says, and that is given back.
fn all_arrive(sets: &[Vec<Draft>]) -> Tally {
    let mut expected = Tally::default();
    sets.iter().for_each(|set| expected.add(searched(set)));
    for calls in asked() {
        let mut found = Tally::default();
        let start = Watched::new(calls);
        let arrived = sets.iter().map(|set| arrive(calls, &start, set));
        arrived.for_each(|tally| found.add(tally));
        assert_eq!(found, expected);
    }
    println!("{} sets: {expected:?}", sets.len());
    expected
}

/// Two groups without priority, two priorities of one block, and one of the next.
fn with_key(draft: Draft, choice: usize) -> Draft {
    match choice {
        0 => draft,
        1 => draft.group(2),
        2 => draft.priority(1, 5),
        3 => draft.priority(1, 7),
        _ => draft.priority(2, 5),
    }
}

/// Digits of a number to a base, the lowest first.
fn digits(number: usize, base: usize, count: u32) -> Vec<usize> {
    (0..count)
        .map(|place| number / base.pow(place) % base)
        .collect()
}

/// Deltas of these lines, each of number 1 and with its own commands on shared tags.
fn lone(letters: &[u8]) -> Vec<Draft> {
    let commands = |letter: u8| [set(0, letter.into()), add(1, letter.into())];
    let lone = letters.iter().map(|l| delta(*l, 1).commands(&commands(*l)));
    lone.collect()
}

/// Four lines without needs, and every choice of their keys: equal keys are decided by sequence, so
/// that the four stand in one line. Of each 64 deliveries 4 come to an empty log. The second comes
/// before or behind the first (12), the third at one of three places (24), the fourth at one of
/// four (24); all but the last places make undos.
#[test]
fn every_choice_of_keys() {
    let keyed = |number: usize| {
        let choices = digits(number, 5, 4);
        let drafts = lone(&LETTERS).into_iter().zip(choices);
        drafts
            .map(|(draft, choice)| with_key(draft, choice))
            .collect()
    };
    let sets: Vec<Vec<Draft>> = (0..625).map(keyed).collect();
    let places = 6 + 8 + 6;
    let expected = Tally {
        deliveries: 625 * (4 + 12 + 24 + 24),
        undoing: 625 * (6 + 16 + 18),
        held: 0,
        front: 625 * places,
        between: 625 * (8 + 12),
        end: 625 * places,
    };
    assert_eq!(all_arrive(&sets), expected);
}

/// Those of these letters that the bits of a number choose, as sequences of number 1.
fn chosen(bits: usize, letters: &[u8]) -> Vec<Sequence> {
    let places = (0..letters.len()).filter(|place| bits >> place & 1 == 1);
    places.map(|place| s(letters[place], 1)).collect()
}

/// Four lines, each of which names any of those with a higher sequence, and two choices of each
/// one's key: needs that go against the sequences, and against or along the keys.
#[test]
fn every_choice_of_needs() {
    let needing = |number: usize| {
        let (names, keys) = (number % 64, digits(number / 64, 2, 4));
        let names = [names % 8, names / 8 % 4, names / 32, 0];
        let named = |(place, draft): (usize, Draft)| {
            let named = chosen(names[place], &LETTERS[place + 1..]);
            with_key(draft.naming(&named), [1, 2][keys[place]])
        };
        let drafts = lone(&LETTERS).into_iter().enumerate();
        drafts.map(named).collect()
    };
    let sets: Vec<Vec<Draft>> = (0..64 * 16).map(needing).collect();
    let tally = all_arrive(&sets);
    assert!(tally.undoing > 9_000 && tally.held > 9_000, "{tally:?}");
}

/// Three lines, each of which names any of the others and of one that never comes, and a fourth
/// beside them, which names none: rings, and needs that are missing.
#[test]
fn rings_and_missing_needs() {
    let needing = |number: usize| {
        let mut set = lone(&[A, B, D, C]);
        for (place, bits) in digits(number, 8, 3).into_iter().enumerate() {
            let mut others = vec![A, B, D, E];
            others.remove(place);
            set[place].dependencies = chosen(bits, &others);
        }
        set
    };
    let sets: Vec<Vec<Draft>> = (0..512).map(needing).collect();
    let tally = all_arrive(&sets);
    assert!(tally.undoing > 1_000 && tally.held > 9_000, "{tally:?}");
}

/// Four lines, each of which names one of the others or none, in five ways to give them keys:
/// chains along the keys and against them, rings of two, three and four.
#[test]
fn every_single_need_of_four() {
    const KEYS: [[usize; 4]; 5] = [[0; 4], [2; 4], [1, 0, 2, 2], [4, 3, 2, 0], [0, 2, 3, 4]];
    let needing = |number: usize| {
        let (names, keys) = (digits(number % 256, 4, 4), KEYS[number / 256]);
        let named = |(place, draft): (usize, Draft)| {
            let mut named = vec![s(LETTERS[names[place]], 1)];
            named.retain(|other| *other != draft.sequence());
            with_key(draft.naming(&named), keys[place])
        };
        let drafts = lone(&LETTERS).into_iter().enumerate();
        drafts.map(named).collect()
    };
    let sets: Vec<Vec<Draft>> = (0..256 * 5).map(needing).collect();
    let tally = all_arrive(&sets);
    assert!(tally.undoing > 9_000 && tally.held > 9_000, "{tally:?}");
}

/// Sets of five and six deltas.
fn larger() -> Vec<Vec<Draft>> {
    let ties = lone(&[A, B, C, D, E, F]);
    let chain = vec![
        delta(A, 1),
        delta(A, 2),
        delta(A, 3).group(0),
        delta(B, 1),
        delta(B, 2),
        delta(C, 1),
    ];
    let needs = vec![
        delta(A, 1).group(3),
        delta(A, 2).naming(&[s(B, 1)]),
        delta(B, 1).priority(1, 5),
        delta(C, 1).priority(1, 7).naming(&[s(A, 1)]),
        delta(C, 2),
        delta(D, 1).priority(2, 0),
    ];
    let ring = vec![
        delta(A, 1).naming(&[s(B, 2)]),
        delta(B, 1),
        delta(B, 2).naming(&[s(A, 1)]),
        delta(C, 1).priority(1, 1),
        delta(C, 2).naming(&[s(D, 9)]),
        delta(D, 1).group(0),
    ];
    let equal = vec![
        delta(B, 1).priority(1, 5),
        delta(C, 1).priority(1, 5),
        delta(D, 1).priority(1, 5),
        delta(A, 1).naming(&[s(D, 1)]),
        delta(C, 2),
    ];
    vec![ties, chain, needs, ring, equal]
}

/// Another message of the same sequence.
fn conflicting(draft: &Draft) -> Vec<u8> {
    draft.clone().commands(&[set(9, 9)]).bytes()
}

/// Delivers what gives no step and leaves every byte of the image; the code.
fn in_vain(calls: &dyn Calls, station: &mut Watched, message: &[u8]) -> u32 {
    let before = station.image.clone();
    let delivered = station.deliver(calls, message);
    assert_eq!((delivered.undos, delivered.executions), (0, 0));
    assert!(station.image == before, "the image was written");
    delivered.code
}

/// Every order of the larger sets; after each delivery the same again, which is no step, and
/// another of its sequence, which is refused by 7.
#[test]
fn larger_sets_with_repeats_and_conflicts() {
    let sets = larger();
    let tally = all_arrive(&sets);
    assert!(tally.between > 1_000 && tally.held > 1_000, "{tally:?}");
    for (calls, set) in asked()
        .into_iter()
        .flat_map(|calls| sets.iter().map(move |set| (calls, set)))
    {
        let start = Watched::new(calls);
        every_order(calls, &start, set, &mut |_, draft, _, after| {
            assert_eq!(in_vain(calls, after, &draft.bytes()), 0);
            assert_eq!(in_vain(calls, after, &conflicting(draft)), 7);
        });
    }
}

/// Every order of the larger sets that have needs across lines, with every purge after each
/// delivery: what was purged arrives again in vain, under other bytes too, and the rest arrives in
/// every order behind the floors.
#[test]
fn late_arrivals_behind_a_purge() {
    for calls in asked() {
        let (mut purges, mut behind) = (0, Tally::default());
        for set in larger().into_iter().skip(2) {
            let start = Watched::new(calls);
            every_order(calls, &start, &set, &mut |_, _, _, after| {
                for k in 1..=after.played.len() {
                    purges += 1;
                    behind.add(after_purge(calls, after, k, &set));
                }
            });
        }
        assert_eq!((purges, behind.undoing), (14_679, 9_215));
    }
}

/// Purges so many, lets them arrive again, and then those that have not arrived yet, in every
/// order.
fn after_purge(calls: &dyn Calls, station: &Watched, k: usize, set: &[Draft]) -> Tally {
    let arrived = all_messages(&station.image);
    let is_new = |draft: &&Draft| !arrived.contains(&draft.bytes());
    let rest: Vec<Draft> = set.iter().filter(is_new).cloned().collect();
    let mut purged = station.clone();
    assert_eq!(calls.purge(&mut purged.image, k as u32), 0);
    for sequence in purged.played.drain(..k).collect::<Vec<_>>() {
        let draft = set.iter().find(|draft| draft.sequence() == sequence);
        let draft = draft.expect("one of the set");
        assert_eq!(in_vain(calls, &mut purged, &draft.bytes()), 0);
        assert_eq!(in_vain(calls, &mut purged, &conflicting(draft)), 0);
    }
    arrive(calls, &purged, &rest)
}

/// 64 lines without needs, of equal keys: every second one, and the others.
fn many() -> (Vec<Draft>, Vec<Draft>) {
    let draft = |last: u8| delta(0x10 + last, 1).commands(&[add(0, i32::from(last))]);
    (0..64).map(draft).partition(|draft| draft.line[5] % 2 == 0)
}

/// Delivers these; the number of undos. Each is accepted and keeps the order.
fn undos_of<'a>(
    calls: &dyn Calls,
    station: &mut Watched,
    drafts: impl Iterator<Item = &'a Draft>,
) -> usize {
    let mut undos = 0;
    for draft in drafts {
        let delivered = station.deliver(calls, &draft.bytes());
        assert_eq!((delivered.code, delivered.kept), (0, Kept::WHOLE));
        undos += delivered.undos;
    }
    undos
}

/// 32 come late, each between two others or at the end, up to a full station: from the lowest
/// on, each undoes those of the 32 that are above it; from the highest on, also the late ones above.
/// From the highest on, all 64 come to the front. A full station undoes nothing more.
#[test]
fn many_late_arrivals() {
    let (early, late) = many();
    for calls in asked() {
        let mut station = Watched::new(calls);
        assert_eq!(undos_of(calls, &mut station, early.iter()), 0);
        let mut backward = station.clone();
        assert_eq!(undos_of(calls, &mut station, late.iter()), 31 * 32 / 2);
        let undos = undos_of(calls, &mut backward, late.iter().rev());
        assert_eq!(undos, 31 * 32);
        let mut front = Watched::new(calls);
        let all = early.iter().zip(&late).flat_map(|(even, odd)| [even, odd]);
        let all: Vec<&Draft> = all.collect();
        assert_eq!(
            undos_of(calls, &mut front, all.into_iter().rev()),
            63 * 64 / 2
        );
        assert!(station.image == backward.image && station.image == front.image);
        assert_eq!(in_vain(calls, &mut front, &delta(A, 1).bytes()), 8);
        assert_eq!(in_vain(calls, &mut front, &late[0].bytes()), 0);
        assert_eq!(in_vain(calls, &mut front, &conflicting(&late[0])), 7);
    }
}
