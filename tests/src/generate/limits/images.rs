//! Copies of an image in which one message is wrong by one of the rules 3 to 6, and nothing else
//! is: order and values are what they would be if that rule were not asked, and counts and bytes
//! used are made to fit.

use super::fields::line;
use crate::edit::Edit;
use crate::generate::images::image_of;
use crate::generate::LIMIT;
use crate::random::Random;
use crate::view::{all_messages, log, sequence_of};
use crate::wire::{command, sequence, Command, Draft, Sequence};

/// A command that leaves every value as it is: it raises tag 0 to -1000000.
const STILL: Command = [3, 0, 0, 0, 0xFF, 0xF0, 0xBD, 0xC0];

/// A delta at its place in the image.
struct Standing<'a> {
    draft: &'a Draft,
    in_log: bool,
    /// Whether another needs it.
    needed: bool,
}

/// At most so many edits of the image of a set, each with the code of the message that it puts
/// in.
pub fn wrong_images(random: &mut Random, drafts: &[Draft], most: usize) -> Vec<(u32, Edit)> {
    let image = image_of(drafts);
    let log = log(&image).len();
    let all = all_messages(&image);
    let mut wrong = Vec::new();
    for _ in 0..most {
        let draft = &drafts[random.below(drafts.len())];
        let own = draft.sequence();
        let place = all.iter().position(|message| sequence_of(message) == own);
        let standing = Standing {
            draft,
            in_log: place < Some(log),
            needed: drafts.iter().any(|user| needs(user, &own)),
        };
        let code = random.within(3, 6) as u32;
        let spoiled = place.zip(standing.spoiled(random, code));
        wrong.extend(spoiled.map(|(place, message)| (code, Edit::Instead(place, message))));
    }
    wrong
}

/// Whether a delta names a sequence, or follows it.
fn needs(user: &Draft, of: &Sequence) -> bool {
    let before = sequence(user.line, user.number.wrapping_sub(1));
    before == *of || user.dependencies.contains(of)
}

impl Standing<'_> {
    /// The message made wrong by a rule, if this delta can be.
    fn spoiled(&self, random: &mut Random, code: u32) -> Option<Vec<u8>> {
        match code {
            3 => Some(self.wrong_layout(random)),
            4 => self.number_zero(random),
            5 => self.wrong_dependencies(random),
            _ => self.out_of_range(random),
        }
    }

    /// A ninth command, or a wrong kind, offset or zero.
    fn wrong_layout(&self, random: &mut Random) -> Vec<u8> {
        let mut wrong = self.draft.clone();
        if random.chance(20) {
            wrong.commands.resize(9, STILL);
            return wrong.bytes();
        }
        let mut bytes = wrong.bytes();
        let at = random.pick(&[0, 6, 7, 8, 9, 10, 11, 36, 37, 38, 39]);
        bytes[at] ^= random.within(1, 255) as u8;
        bytes
    }

    /// A held one names 0000 of a line. One in the log has it, if it has no predecessor and
    /// nobody needs it.
    fn number_zero(&self, random: &mut Random) -> Option<Vec<u8>> {
        let mut wrong = self.draft.clone();
        match (self.in_log, wrong.number, self.needed) {
            (false, ..) => wrong.dependencies = vec![sequence(line(random), 0)],
            (true, 1, false) => wrong.number = 0,
            _ => return None,
        }
        Some(wrong.bytes())
    }

    /// The predecessor named, one named twice, two exchanged; a held one names itself.
    fn wrong_dependencies(&self, random: &mut Random) -> Option<Vec<u8>> {
        let mut wrong = self.draft.clone();
        let (own, number) = (wrong.sequence(), wrong.number);
        let named = &mut wrong.dependencies;
        let room = named.len() < 8;
        match random.below(4) {
            0 if room && number > 1 => named.push(sequence(self.draft.line, number - 1)),
            1 if room && !named.is_empty() => named.push(named[0]),
            2 if room && !self.in_log => named.push(own),
            3 if named.len() > 1 => {
                let place = random.below(named.len() - 1);
                named.swap(place, place + 1);
                return Some(wrong.bytes());
            }
            _ => return None,
        }
        named.sort_unstable();
        Some(wrong.bytes())
    }

    /// Block or priority without the flag, a wrong command that would do nothing; a held one
    /// has a group, block or priority beyond the limit.
    fn out_of_range(&self, random: &mut Random) -> Option<Vec<u8>> {
        let mut wrong = self.draft.clone();
        match random.below(3) {
            0 if wrong.explicit.is_none() => {
                let mut bytes = wrong.bytes();
                bytes[random.within(28, 35)] = random.within(1, 255) as u8;
                return Some(bytes);
            }
            1 if wrong.commands.len() < 8 => wrong.commands.push(idle_command(random)),
            2 if !self.in_log => match random.below(3) {
                0 => wrong.group = LIMIT + 1,
                1 => wrong.explicit = Some((random.pick(&[0, LIMIT + 1]), 0)),
                _ => wrong.explicit = Some((1, LIMIT + 1)),
            },
            _ => return None,
        }
        Some(wrong.bytes())
    }
}

/// A command with one thing wrong, which sets, adds and raises nothing.
fn idle_command(random: &mut Random) -> Command {
    let mut still = STILL;
    still[random.within(2, 3)] = 1;
    let any = [
        command(0, 5, 7),
        command(4, 5, 7),
        command(1, 64, 7),
        command(3, 5, -1_000_001),
        still,
    ];
    random.pick(&any)
}
