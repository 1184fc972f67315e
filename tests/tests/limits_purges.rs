//! How often the seeds with purges reach each limit of the purge.

#![deny(warnings)]

use std::collections::{BTreeMap, BTreeSet};

use bivamolune_tests::boundary::{code, Reference};
use bivamolune_tests::call::{Action, Call, Outcome, View, World};
use bivamolune_tests::generate::{case, is_with_purges};
use bivamolune_tests::view::{base_values, floor_count, floors, log, messages, u16_at, u32_at};

/// How often each limit was reached.
#[derive(Default)]
struct Seen(BTreeMap<String, usize>);

impl Seen {
    fn mark(&mut self, limit: &str, reached: bool) {
        *self.0.entry(limit.to_string()).or_default() += usize::from(reached);
    }

    /// Marks of a purge's K beside the log of its image.
    fn mark_count(&mut self, image: &[u8], k: u32, answered: u32) {
        let log = u16_at(image, 0) as u32;
        self.mark("K of none, empty log", k == 0 && log == 0);
        self.mark("K of none, with a log", k == 0 && log > 0);
        self.mark("K of one", k == 1 && log > 1);
        self.mark("K of a part", k > 1 && k < log && answered == 0);
        self.mark("K of all", k == log && log > 1 && answered == 0);
        self.mark("K of all 64", k == log && log == 64 && answered == 0);
        self.mark("K of one more", k == log + 1 && answered == 15);
        self.mark("K above 255", k > 255 && k < 65_536);
        self.mark("K above 65535", k > 65_535 && answered == 15);
        self.mark("K of 4294967295", k == u32::MAX && answered == 15);
    }

    /// Marks of a purge that dropped something.
    fn mark_purge(&mut self, before: &[u8], after: &[u8], k: usize) {
        let held = u16_at(after, 2);
        self.mark(
            "emptied beside held ones",
            u16_at(after, 0) == 0 && held > 0,
        );
        self.mark("64 present before", u16_at(before, 0) + held == 64);
        self.mark("the first purge", floor_count(before) == 0);
        self.mark("a later purge", floor_count(before) > 0);
        for count in [1, 31, 32] {
            let is = floor_count(after) == count && floor_count(before) < count;
            self.mark(&format!("{count:02} floors now"), is);
        }
        self.mark("raised alone", floor_count(after) == floor_count(before));
        let numbers: Vec<usize> = floors(after).iter().map(|f| u16_at(f, 10)).collect();
        let old: Vec<usize> = floors(before).iter().map(|f| u16_at(f, 10)).collect();
        let is_new = |number| numbers.contains(&number) && !old.contains(&number);
        self.mark("floor 0001 now", is_new(1));
        self.mark("floor FFFF now", is_new(0xFFFF));
        self.mark_fields(before, after, k);
    }

    /// Marks of block, group and base values of a purge.
    fn mark_fields(&mut self, before: &[u8], after: &[u8], k: usize) {
        let dropped = messages(before, 0, k);
        let last = &dropped[k - 1];
        for (name, at, of) in [("block", 16, 28), ("group", 20, 24)] {
            let (old, new) = (u32_at(before, at), u32_at(after, at));
            self.mark(&format!("{name} raised"), new > old);
            self.mark(&format!("{name} kept above 0"), new == old && old > 0);
            self.mark(&format!("{name} not the last's"), new > u32_at(last, of));
            self.mark(&format!("{name} at its limit"), new == 2_147_483_647);
        }
        let (old, new) = (base_values(before), base_values(after));
        self.mark("base values changed", old != new);
        self.mark(
            "base values at a stop",
            new.iter().any(|v| v.abs() == 1_000_000),
        );
    }

    /// Marks of a purge of a copy.
    fn mark_copy(&mut self, call: &Call, copy: &[u8], k: u32, answered: u32) {
        self.mark(
            "wrong size",
            matches!(call.view, View::Sized(_)) && answered == 1,
        );
        let edited = matches!(call.view, View::Edited(_));
        self.mark("damaged", edited && answered == 2);
        let beyond = edited && answered == 2 && k as usize > u16_at(copy, 0);
        self.mark("damaged and K beyond the log", beyond);
        self.mark("edited and purged", edited && answered == 0 && k > 0);
        self.mark("edited and 15", edited && answered == 15);
        self.mark("edited and 16", edited && answered == 16);
    }

    /// Marks of what arrives at or below a floor, and of composes behind purges.
    fn mark_after(&mut self, world: &World, gone: &[Vec<u8>], call: &Call, answered: u32) {
        let image = &world.image;
        match &call.action {
            Action::Deliver { message, .. } if answered == 0 => {
                let same = gone.contains(message);
                let other = gone.iter().any(|m| m[12..24] == message[12..24]);
                self.mark("purged, again", same);
                self.mark("purged, with other bytes", other && !same);
            }
            Action::Compose(composing) if floor_count(image) > 0 => {
                let emptied = u16_at(image, 0) == 0 && answered == 0;
                self.mark("composed on an emptied log", emptied);
                let own = |m: &Vec<u8>| m[12..22] == composing.line[..];
                self.mark(
                    "composed on a purged line",
                    answered == 0 && gone.iter().any(own),
                );
                self.mark("compose past a limit", answered == 10);
            }
            _ => {}
        }
    }
}

/// How many lines the log and the floors have together.
fn lines(image: &[u8]) -> usize {
    let all = log(image).into_iter().chain(floors(image));
    let lines: BTreeSet<Vec<u8>> = all.map(|sequence| sequence[..10].to_vec()).collect();
    lines.len()
}

/// Notes a call; what it purged is gone.
fn note(seen: &mut Seen, world: &World, call: &Call, outcome: &Outcome, gone: &mut Vec<Vec<u8>>) {
    let answered = code(outcome.answer);
    match (&call.view, &call.action) {
        (View::Station, Action::Purge(k)) => {
            seen.mark_count(&world.image, *k, answered);
            seen.mark("16", answered == 16);
            let full = floor_count(&world.image) == 32;
            seen.mark("16 with 32 floors", answered == 16 && full);
            let many = lines(&world.image) > 32;
            seen.mark("15 with over 32 lines", answered == 15 && many);
            if answered == 0 && *k > 0 {
                seen.mark_purge(&world.image, &outcome.image, *k as usize);
                gone.extend(messages(&world.image, 0, *k as usize));
            }
        }
        (View::Station, _) => seen.mark_after(world, gone, call, answered),
        (view, Action::Purge(k)) => seen.mark_copy(call, &world.view(view), *k, answered),
        _ => {}
    }
}

/// The seeds of the differential run that have purges. Half of the least number measured is asked
/// of all.
#[test]
fn the_seeds_with_purges_reach_every_limit() {
    let mut seen = Seen::default();
    for seed in (0..6_000).filter(|seed| is_with_purges(*seed)) {
        let (mut world, mut gone) = (World::default(), Vec::new());
        for call in case(seed) {
            let outcome = world.perform(&Reference, &call);
            note(&mut seen, &world, &call, &outcome, &mut gone);
            world.follow(&call, &outcome);
        }
    }
    println!("{:#?}", seen.0);
    assert_eq!(seen.0.len(), 44);
    for (limit, count) in &seen.0 {
        assert!(*count >= 8, "{limit} only {count} times");
    }
}
