//! Hard inputs from a seed: sets of deltas, wrong messages, edits, texts, lists of calls,
//! streams, images.

mod floors;
mod images;
mod limits;
mod purges;
mod right;
mod sets;
mod streams;
mod texts;
mod wrong;

pub use floors::{image_with, is_with_floors};
pub use images::{damaged_image, image_input};
pub use limits::{is_at_limits, wrong_images};
pub use purges::is_with_purges;
pub use right::any_draft;
pub use sets::{drafts, LIMIT, LINES};
pub use streams::stream;
pub use texts::{any_sequences, either_form, nearly_right_sequences, nearly_right_text, text_call};
pub use wrong::{conflicting, conflicting_byte, damaged_message, nearly_right};

use crate::call::{Action, Call, Composing, View};
use crate::edit::Edit;
use crate::random::Random;
use crate::wire::{command, Draft};
use sets::{styled_drafts, Kind, Style};

/// The place of an image's last byte.
const LAST: usize = 16_383;
/// The least size of a step buffer.
const STEPS: usize = 10_160;
/// Sizes that are not an image's.
const SIZES: [usize; 6] = [0, 10, 272, 16_383, 16_385, 20_000];

/// An edit of an image.
pub fn edit(random: &mut Random) -> Edit {
    let place = random.below(64);
    match random.below(14) {
        0 => Edit::Bit(random.below(8 * 16_384)),
        1 => Edit::Bit(random.below(8 * 700)),
        2 => Edit::Byte(random.below(16), random.byte()),
        3 => {
            let at = random.pick(&[0, 2, 4, 6, 8, 10, 12, 14]);
            Edit::Header(at, random.pick(&[1, 0xFFFF, 0x100, 0x8000, 48]))
        }
        4 => Edit::Setpoint(place, random.pick(&[1, -1, 0x0100_0000])),
        5 => Edit::Tail(
            random.pick(&[0, 1, 47, 5_000, 16_383]),
            random.pick(&[1, 255]),
        ),
        6 | 7 => Edit::Message(place, random.below(200), 1 << random.below(8)),
        8 => Edit::Swap(place, random.below(64)),
        9 => Edit::Double(place),
        10 => Edit::Drop(place),
        11 => Edit::Border(random.chance(50)),
        12 => Edit::Byte(LAST, random.pick(&[0, 1, 0x80, 0xFF])),
        _ => Edit::Fill(random.pick(&[63, 64, 65, 66])),
    }
}

/// A list of calls from a seed. It begins with an empty station, or with one that has floors.
pub fn case(seed: u64) -> Vec<Call> {
    if is_at_limits(seed) {
        return limits::case(seed);
    }
    if is_with_floors(seed) {
        return floors::case(seed);
    }
    if is_with_purges(seed) {
        return purges::case(seed);
    }
    let mut random = Random::new(seed);
    let style = Style::new(&mut random);
    let count = count(&mut random, style.kind);
    let mut drafts = styled_drafts(&mut random, &style, count);
    arrange(&mut random, &mut drafts);
    if style.kind == Kind::Single && random.chance(80) {
        lowest_last(&mut drafts);
    }
    let noise = random.pick(&[0, 5, 15, 40]);
    let composed = match style.kind {
        Kind::Single => 0,
        _ => random.pick(&[0, 0, 0, 50, 95]),
    };
    let mut calls = vec![call(Action::Empty)];
    for place in 0..drafts.len() {
        while random.chance(noise) {
            let draft = &drafts[random.below(drafts.len())];
            disturb(&mut random, &style, draft, &mut calls);
        }
        if random.chance(composed) {
            compose_and_deliver(&mut random, &style, &mut calls);
        } else {
            calls.push(call(deliver(drafts[place].bytes())));
        }
    }
    for _ in 0..random.below(6) {
        let draft = &drafts[random.below(drafts.len())];
        disturb(&mut random, &style, draft, &mut calls);
    }
    if random.chance(2) {
        read_everywhere(&mut random, &mut calls);
    }
    texts::add_texts(seed, &mut calls);
    calls
}

/// Every tag and every place, and some beyond, on the station, on a copy of wrong size and
/// on an edited one.
fn read_everywhere(random: &mut Random, calls: &mut Vec<Call>) {
    let size = random.pick(&SIZES);
    let edited = View::Edited(edit(random));
    for view in [View::Station, View::Sized(size), edited] {
        for number in (0..=65).chain([u32::MAX]) {
            for action in [Action::Setpoint(number), Action::LogMessage(number)] {
                let view = view.clone();
                calls.push(Call { view, action });
            }
        }
    }
}

/// How many deltas a list has. Single ones fill the image, or nearly.
fn count(random: &mut Random, kind: Kind) -> usize {
    match random.below(10) {
        _ if kind == Kind::Single => random.within(62, 66),
        0..=4 => random.within(1, 6),
        5..=7 => random.within(7, 24),
        8 => random.within(25, 60),
        _ => random.within(61, 70),
    }
}

/// The order of arrival: as they are, nearly so, from the end, by descending sequence,
/// or any.
fn arrange(random: &mut Random, drafts: &mut [Draft]) {
    match random.below(9) {
        0..=2 => {}
        3..=4 => drafts.chunks_mut(5).for_each(|near| random.shuffle(near)),
        5 => drafts.reverse(),
        6 => drafts.sort_by_key(|draft| std::cmp::Reverse(draft.sequence())),
        _ => random.shuffle(drafts),
    }
}

/// Makes the delta of the lowest line that of the lowest key, and the 64th to arrive, so
/// that it undoes and executes all there is.
fn lowest_last(drafts: &mut [Draft]) {
    let last = drafts.len().min(64) - 1;
    let lowest = (0..drafts.len()).min_by_key(|place| drafts[*place].sequence());
    drafts.swap(lowest.unwrap_or(last), last);
    drafts[last].group = 0;
    drafts[last].explicit = None;
}

fn call(action: Action) -> Call {
    Call {
        view: View::Station,
        action,
    }
}

fn deliver(message: Vec<u8>) -> Action {
    Action::Deliver {
        message,
        steps: STEPS,
    }
}

/// A delta of the station's own. Among lone lines it is not delivered, as it would
/// leave the log with one end.
fn compose_and_deliver(random: &mut Random, style: &Style, calls: &mut Vec<Call>) {
    calls.push(call(Action::Compose(compose(random, style))));
    if style.kind == Kind::Woven {
        calls.push(call(Action::DeliverComposed { steps: STEPS }));
    }
}

/// One or two calls that are not the next plain delivery.
fn disturb(random: &mut Random, style: &Style, draft: &Draft, calls: &mut Vec<Call>) {
    let bytes = draft.bytes();
    match random.below(22) {
        0 | 1 => calls.push(call(deliver(bytes))),
        2..=4 => calls.push(call(deliver(conflicting(random, draft)))),
        5 | 6 => calls.push(call(deliver(damaged_message(random, draft)))),
        7 | 8 => calls.push(call(deliver(nearly_right(random, draft).1))),
        9..=11 => compose_and_deliver(random, style, calls),
        12 => calls.push(call(Action::Compose(compose(random, style)))),
        13 => calls.push(call(Action::Compose(odd_compose(random, style)))),
        14 => {
            let steps = random.pick(&[0, 80, 2_032, 10_159, 10_161, 20_000]);
            let message = bytes;
            calls.push(call(Action::Deliver { message, steps }));
        }
        15 => {
            let size = random.pick(&SIZES);
            let action = any_action(random, style, draft);
            calls.push(Call {
                view: View::Sized(size),
                action,
            });
        }
        16 if random.chance(10) => calls.push(call(Action::Empty)),
        17 | 18 => calls.push(call(reading(random))),
        _ => {
            let view = View::Edited(edit(random));
            let action = any_action(random, style, draft);
            calls.push(Call { view, action });
        }
    }
}

/// A setpoint or a log message, near the ends of what there is or anywhere.
fn reading(random: &mut Random) -> Action {
    let far = [63, 64, 65, 255, 256, 1 << 31, u32::MAX];
    let number = match random.below(3) {
        0 => random.pick(&far),
        1 => random.below(64) as u32,
        _ => random.below(4) as u32,
    };
    match random.chance(50) {
        true => Action::Setpoint(number),
        false => Action::LogMessage(number),
    }
}

/// Any of the calls.
fn any_action(random: &mut Random, style: &Style, draft: &Draft) -> Action {
    match random.below(10) {
        0 => Action::Empty,
        1..=4 => deliver(draft.bytes()),
        5 => deliver(damaged_message(random, draft)),
        6 => Action::DeliverComposed { steps: STEPS },
        7 => Action::Compose(compose(random, style)),
        _ => reading(random),
    }
}

/// A compose with right arguments, on one of the lines or any other.
fn compose(random: &mut Random, style: &Style) -> Composing {
    let line = match random.below(4) {
        0 => random.pick(&LINES),
        _ => random.pick(&style.lines),
    };
    let priority_flag = u32::from(random.chance(style.explicit.max(10)));
    Composing {
        line: line.to_vec(),
        commands: style.commands(random).concat(),
        priority_flag,
        priority: priority_flag * random.pick(style.priorities),
        room: 200,
    }
}

/// A compose with one to three arguments changed, most often to wrong ones.
fn odd_compose(random: &mut Random, style: &Style) -> Composing {
    let mut odd = compose(random, style);
    for _ in 0..random.within(1, 3) {
        match random.below(7) {
            0 => odd.line.resize(random.pick(&[0, 9, 11, 12]), 0),
            1 => odd.commands.resize(random.pick(&[0, 7, 9, 63, 65, 72]), 0),
            2 => odd.priority_flag = random.pick(&[0, 1, 2, 256, u32::MAX]),
            3 => odd.priority = random.pick(&[0, 1, LIMIT, LIMIT + 1, u32::MAX]),
            4 => odd.room = random.pick(&[0, 48, 199, 201, 500]),
            5 => odd.commands = command(1, 0, 1).repeat(random.within(1, 9)),
            _ => {
                let at = random.below(odd.commands.len());
                if let Some(byte) = odd.commands.get_mut(at) {
                    *byte ^= 1 << random.below(8);
                }
            }
        }
    }
    odd
}
