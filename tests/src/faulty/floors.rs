//! Variants that are wrong in what a purge left: floors, base values, purged block and group.

use super::Fault;
use crate::edit::Edit;
use crate::reference::bytes::{array_at, i32_at, put, u16_at, u32_at};
use crate::reference::image::{self, first_message, read_sized, BASE, FLOOR, FLOORS, SIZE};
use crate::reference::message::{cut_at, line, number, Delta, Sequence, LIMIT, VALUE};
use crate::reference::order::{order, Order, Set};
use crate::reference::purged::Purged;
use crate::view::sequence_of;

/// Whether the fault is in the order of the log.
pub fn orders(fault: Fault) -> bool {
    let own = [
        Fault::NeedsByLineAlone,
        Fault::NeedAtFloorMissing,
        Fault::NeedBelowFloorMissing,
        Fault::PurgedBlockUncounted,
    ];
    own.contains(&fault)
}

/// Whether a need counts as placed without standing in the log.
pub fn counts_as_placed(fault: Fault, purged: &Purged, need: &Sequence) -> bool {
    let floor = purged.floor(&line(need));
    match fault {
        Fault::NeedsByLineAlone => floor > 0,
        Fault::NeedAtFloorMissing => number(need) < floor,
        Fault::NeedBelowFloorMissing => number(need) == floor,
        _ => purged.has(need),
    }
}

/// The least effective block.
pub fn least_block(fault: Fault, purged: &Purged) -> u32 {
    match fault {
        Fault::PurgedBlockUncounted => 0,
        _ => purged.block,
    }
}

/// What is answered to a right message on an image that has 64 deltas or fewer, where the fault
/// shows.
pub fn delivery(fault: Fault, image: &[u8], message: &[u8]) -> Option<u32> {
    let (set, order) = read_sized(image).ok()?;
    let own = sequence_of(message);
    let floor = order.purged.floor(&line(&own));
    let below = order.purged.has(&own);
    match fault {
        Fault::ConflictBelowFloor if below => Some(7),
        Fault::FullBelowFloor if below && set.len() == image::CAPACITY => Some(8),
        Fault::DeliveryByLineAlone if floor > 0 => Some(0),
        _ => None,
    }
}

/// Takes the base values out of an order, so that its log is run from zero.
pub fn without_base<'a>(order: &Order<'a>) -> Order<'a> {
    let mut other = order.clone();
    other.purged.base = Purged::nothing().base;
    other
}

/// Makes the fault in a composed message.
pub fn compose(fault: Fault, image: &[u8], message: &mut [u8]) {
    if let Ok((_, order)) = read_sized(image) {
        match fault {
            Fault::NumberWithoutFloor => number_of_log(&order, message),
            Fault::GroupOneOnEmptied if order.log.is_empty() => put(message, 24, &[0, 0, 0, 1]),
            Fault::PurgedGroupUncounted if !order.log.is_empty() => group_of_log(&order, message),
            Fault::BlockOfLogAlone if message[1] == 1 => block_of_log(&order, message),
            _ => {}
        }
    }
}

/// One more than the line's greatest number in the log.
fn number_of_log(order: &Order, message: &mut [u8]) {
    let own = sequence_of(message);
    let log = order.log_sequences();
    let of_line = log.iter().filter(|other| line(other) == line(&own));
    let greatest = of_line.map(number).max().unwrap_or(0);
    put(message, 22, &(greatest + 1).to_be_bytes());
}

/// The group of the log alone; that of the log's last sequence being above stays.
fn group_of_log(order: &Order, message: &mut [u8]) {
    let groups = order.log.iter().map(|placed| placed.delta.group());
    let highest = groups.max().unwrap_or(0);
    let with_purged = highest.max(order.purged.group);
    let group = u32_at(message, 24) - with_purged + highest;
    put(message, 24, &group.to_be_bytes());
}

/// One more than the greatest own block in the log.
fn block_of_log(order: &Order, message: &mut [u8]) {
    let blocks = order.log.iter().map(|placed| placed.delta.block());
    let block = blocks.max().unwrap_or(0) + 1;
    put(message, 28, &block.to_be_bytes());
}

/// The purged part and the messages of a buffer, whatever they are.
struct Listed<'a> {
    set: Set<'a>,
    floors: Vec<Sequence>,
    purged: Purged,
}

/// Whether the fault takes a buffer for an image that is wrong by its rule and no other.
pub fn passes(fault: Fault, buffer: &[u8]) -> bool {
    let listed = match listed(buffer) {
        Some(listed) if buffer.len() == SIZE => listed,
        _ => return false,
    };
    let mut right = buffer.to_vec();
    match fault {
        Fault::FloorTwicePasses => {
            let twice = |two: &[Sequence]| line(&two[0]) == line(&two[1]);
            if let Some(place) = listed.floors.windows(2).position(twice) {
                Edit::DropFloor(place).apply(&mut right);
            }
        }
        Fault::FloorsUnordered => {
            let mut floors = listed.floors.clone();
            floors.sort_unstable();
            put(&mut right, FLOORS, &floors.concat());
        }
        Fault::HeaderEndUnchecked => right[24..32].fill(0),
        _ => {}
    }
    let broken = listed.broken();
    let by_equality = broken.is_empty() && right != buffer;
    let order = order(&listed.set, &listed.purged);
    (by_equality || broken == [fault]) && image::write(&order) == right
}

/// What a buffer lists, if it lists messages that pass 3 to 6, no sequence twice.
fn listed(buffer: &[u8]) -> Option<Listed<'_>> {
    let mut purged = Purged::nothing();
    let count = usize::from(u16_at(buffer, 10)).min(100);
    let floor = |place: usize| array_at(buffer, FLOORS + FLOOR * place);
    let floors: Vec<Sequence> = (0..count).map(floor).collect();
    purged.floors = floors.iter().map(|f| (line(f), number(f))).collect();
    purged.block = u32_at(buffer, 16);
    purged.group = u32_at(buffer, 20);
    for (tag, value) in purged.base.iter_mut().enumerate() {
        *value = i32_at(buffer, BASE + 4 * tag);
    }
    let mut set = Set::new();
    let mut at = first_message(buffer);
    for _ in 0..usize::from(u16_at(buffer, 0)) + usize::from(u16_at(buffer, 2)) {
        let delta = Delta::check(cut_at(buffer, at)?).ok()?;
        at += delta.bytes().len();
        if set.insert(delta.sequence(), delta).is_some() {
            return None;
        }
    }
    (set.len() <= image::CAPACITY).then_some(Listed {
        set,
        floors,
        purged,
    })
}

impl Listed<'_> {
    /// The faults that let each broken rule pass, of those that equality does not show.
    fn broken(&self) -> Vec<Fault> {
        let purged = &self.purged;
        let value = |value: &i32| (-VALUE..=VALUE).contains(value);
        let none = Purged::nothing();
        let no_floor = self.floors.is_empty();
        let rules = [
            (Fault::ThirtyThreeFloors, self.floors.len() > 32),
            (
                Fault::FloorZeroPasses,
                self.floors.iter().any(|floor| number(floor) == 0),
            ),
            (
                Fault::MessageBelowFloorPasses,
                self.set.keys().any(|own| purged.has(own)),
            ),
            (Fault::BaseOutOfRangePasses, !purged.base.iter().all(value)),
            (Fault::PurgedBlockAboveLimit, purged.block > LIMIT),
            (Fault::PurgedGroupAboveLimit, purged.group > LIMIT),
            (
                Fault::BaseWithoutFloor,
                no_floor && purged.base != none.base,
            ),
            (
                Fault::BlockWithoutFloor,
                no_floor && purged.block != none.block,
            ),
            (
                Fault::GroupWithoutFloor,
                no_floor && purged.group != none.group,
            ),
        ];
        let broken = rules.into_iter().filter(|(_, broken)| *broken);
        broken.map(|(fault, _)| fault).collect()
    }
}
