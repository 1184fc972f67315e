//! "Purging the old end": a call drops the first K log messages, and what is left of them are
//! floors, base values, block and group.

use super::code::Code;
use super::image::{read_sized, write, MOST_FLOORS};
use super::message::{line, number};
use super::order::{order, Order, Placed, Set};
use super::purged::Purged;
use super::setpoints::run;

/// "A call drops the first K log messages and frees their bytes for new ones": the image becomes
/// the one of what remains, before which they were purged too. There is no step.
pub fn purge(image: &mut [u8], k: u32) -> Result<(), Code> {
    let (mut set, old) = read_sized(image)?;
    let dropped = first(&old, k)?;
    let purged = purged_with(&old.purged, dropped)?;
    drop_all(&mut set, dropped);
    let bytes = write(&order(&set, &purged));
    image.copy_from_slice(&bytes);
    Ok(())
}

/// The first K of the log, or "15 if K exceeds L".
pub fn first<'a, 'b>(order: &'b Order<'a>, k: u32) -> Result<&'b [Placed<'a>], Code> {
    order.log.get(..k as usize).ok_or(Code::Beyond)
}

/// The purged part once these were purged too, in their order, or "16 if over 32 floors would
/// result".
pub fn purged_with(before: &Purged, dropped: &[Placed]) -> Result<Purged, Code> {
    let mut purged = before.clone();
    for placed in dropped {
        take(&mut purged, placed);
    }
    if purged.floors.len() > MOST_FLOORS {
        return Err(Code::Floors);
    }
    Ok(purged)
}

/// Takes one more delta into the purged part. "The setpoints after them become the base values";
/// the rest of it keeps the "highest purged number" of each line, the "greatest purged effective
/// block" and the "greatest purged group".
fn take(purged: &mut Purged, placed: &Placed) {
    let sequence = placed.delta.sequence();
    let floor = purged.floors.entry(line(&sequence)).or_insert(0);
    *floor = number(&sequence).max(*floor);
    purged.base = run(placed.delta.commands(), purged.base).0;
    purged.block = purged.block.max(placed.effective_block);
    purged.group = purged.group.max(placed.delta.group());
}

/// Takes the dropped ones out of the set. Held ones stay in it.
fn drop_all(set: &mut Set, dropped: &[Placed]) {
    for placed in dropped {
        set.remove(&placed.delta.sequence());
    }
}
