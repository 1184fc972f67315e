//! Sets of right deltas: lines, numbers, groups, blocks and needs that are hard to order.

use crate::random::Random;
use crate::wire::{command, sequence, Command, Draft, Line, Sequence};

/// The limit of group, block and priority.
pub const LIMIT: u32 = 2_147_483_647;

/// Lines that differ in the first, a middle or the last byte, and in the sign bit.
pub const LINES: [Line; 14] = [
    [0, 0, 0, 0, 0, 0x0A, 0, 0, 0, 1],
    [0, 0, 0, 0, 0, 0x0B, 0, 0, 0, 1],
    [0, 0, 0, 0, 0, 0x0C, 0, 0, 0, 1],
    [0, 0, 0, 0, 0, 0x0A, 0, 0, 0, 2],
    [0, 0, 0, 0, 0, 0x0A, 0x80, 0, 0, 0],
    [0x7F, 0xFF, 0xFF, 0xFF, 0xFF, 0xFF, 0, 0, 0, 0],
    [0x80, 0, 0, 0, 0, 0, 0, 0, 0, 0],
    [0; 10],
    [0, 0, 0, 0, 0, 0, 0, 0, 0, 1],
    [0, 0, 0, 0, 0, 0, 0, 0, 0, 0xFF],
    [0xE9, 0x64, 0x14, 0x19, 0xD1, 0x8C, 0x02, 0xB9, 0x49, 0x5F],
    [0x64, 0x01, 0xC3, 0x7E, 0xFB, 0x36, 0x6A, 0x87, 0xF4, 0x21],
    [0xFF, 0xFF, 0xFF, 0xFF, 0xFF, 0xFF, 0xFF, 0xFF, 0xFF, 0xFE],
    [0xFF, 0, 0, 0, 0, 0, 0, 0, 0, 0],
];

const GROUPS: [&[u32]; 6] = [
    &[1],
    &[1, 2],
    &[0, 1, 2, 3],
    &[1, 0xFF, 0x100, 0x1_0000],
    &[LIMIT, LIMIT - 1, 1],
    &[5, 5, 5, 6],
];
const BLOCKS: [&[u32]; 5] = [
    &[1],
    &[1, 2],
    &[1, 2, 3, 4],
    &[LIMIT, LIMIT - 1, 1],
    &[0xFF, 0x100],
];
const PRIORITIES: [&[u32]; 4] = [&[0, 1], &[5, 7], &[0], &[LIMIT, 0, 0x100]];
const VALUES: [&[i32]; 4] = [
    &[1, -1, 20, -20],
    &[1_000_000, -1_000_000, 999_990, -999_990, 20, -20],
    &[600_000, -600_000, 0],
    &[1500, -20, 3, -1_000_000],
];
const TAGS: [&[u8]; 3] = [&[3], &[0, 63], &[0, 1, 2, 3, 31, 32, 62, 63]];

/// How the deltas of a set stand to each other.
#[derive(Clone, Copy, Debug, PartialEq, Eq)]
pub enum Kind {
    /// Some lines whose deltas name each other.
    Woven,
    /// Many lines that name nothing, so that the log has many ends.
    Lone,
    /// A line for each delta, so that the log has as many ends as deltas.
    Single,
}

/// What the deltas of one set are like. Chances are of a hundred.
#[derive(Clone, Debug)]
pub struct Style {
    pub kind: Kind,
    pub lines: Vec<Line>,
    pub priorities: &'static [u32],
    pub explicit: usize,
    groups: &'static [u32],
    blocks: &'static [u32],
    values: &'static [i32],
    tags: &'static [u8],
    dependencies: usize,
    commands: usize,
    gap: usize,
    missing: usize,
    ring: usize,
}

impl Style {
    /// The style of one set.
    pub fn new(random: &mut Random) -> Style {
        let kind = match random.below(100) {
            0..=5 => Kind::Lone,
            6..=8 => Kind::Single,
            _ => Kind::Woven,
        };
        // Half of the sets lack nothing, so that all can be executed in the end.
        let woven = usize::from(kind == Kind::Woven);
        let lacking = woven * 2 * random.below(2);
        Style {
            kind,
            lines: lines(random, kind),
            groups: random.pick(&GROUPS),
            blocks: random.pick(&BLOCKS),
            priorities: random.pick(&PRIORITIES),
            values: random.pick(&VALUES),
            tags: random.pick(&TAGS),
            dependencies: random.pick(&[0, 0, 1, 2, 3, 8]) * woven,
            commands: random.pick(&[1, 1, 2, 8]),
            explicit: random.pick(&[0, 20, 50, 100]),
            gap: lacking * random.pick(&[0, 0, 1, 8]),
            missing: lacking * random.pick(&[0, 0, 1, 5]),
            ring: lacking * random.pick(&[0, 0, 1, 5]),
        }
    }

    /// Some commands of eight bytes.
    pub fn commands(&self, random: &mut Random) -> Vec<Command> {
        let count = random.within(1, self.commands);
        (0..count).map(|_| self.command(random)).collect()
    }

    fn command(&self, random: &mut Random) -> Command {
        let operation = random.pick(&[1, 2, 2, 3]);
        command(operation, random.pick(self.tags), random.pick(self.values))
    }

    /// A delta that needs only what is known, or misses something.
    fn draft(&self, random: &mut Random, line: Line, number: u16, known: &[Draft]) -> Draft {
        let mut draft = Draft::new(line, number).group(random.pick(self.groups));
        draft.commands = self.commands(random);
        if random.chance(self.explicit) {
            let block = random.pick(self.blocks);
            draft.explicit = Some((block, random.pick(self.priorities)));
        }
        for _ in 0..random.below(self.dependencies + 1) {
            if !known.is_empty() {
                let named = &known[random.below(known.len())];
                draft.dependencies.push(named.sequence());
            }
        }
        if random.chance(self.missing) {
            let line = random.pick(&self.lines);
            let number = random.pick(&[1, 2, 3, 40, 0x00FF, 0x0100, 0xFFFF]);
            draft.dependencies.push(sequence(line, number));
        }
        settle(&mut draft);
        draft
    }

    /// Lets some deltas name later ones, which may close rings.
    fn close_rings(&self, random: &mut Random, drafts: &mut [Draft]) {
        for place in 0..drafts.len() {
            if random.chance(self.ring) {
                let later = drafts[random.within(place, drafts.len() - 1)].sequence();
                drafts[place].dependencies.push(later);
                settle(&mut drafts[place]);
            }
        }
    }
}

/// The lines of a set, in a random order: for single deltas, more than an image holds.
fn lines(random: &mut Random, kind: Kind) -> Vec<Line> {
    let mut lines = LINES.to_vec();
    if kind == Kind::Single {
        lines.extend((0..60).map(|last| [0, 0, 0, 0, 1, last, 0, 0, 0, 1]));
    }
    random.shuffle(&mut lines);
    if kind == Kind::Woven {
        lines.truncate(random.pick(&[1, 2, 3, 3, 4, 6, 10, 14]));
    }
    lines
}

/// Makes dependencies right: ascending, not own, not the predecessor, at most eight.
pub fn settle(draft: &mut Draft) {
    let own = draft.sequence();
    let before = sequence(draft.line, draft.number.wrapping_sub(1));
    let wrong = |named: &Sequence| *named == own || *named == before;
    draft.dependencies.retain(|named| !wrong(named));
    draft.dependencies.sort_unstable();
    draft.dependencies.dedup();
    draft.dependencies.truncate(8);
}

/// Right deltas, no sequence twice, in an order in which most can be executed.
pub fn drafts(random: &mut Random, count: usize) -> Vec<Draft> {
    let style = Style::new(random);
    styled_drafts(random, &style, count)
}

/// Right deltas of a style, no sequence twice.
pub fn styled_drafts(random: &mut Random, style: &Style, count: usize) -> Vec<Draft> {
    let mut next = vec![1_u16; style.lines.len()];
    if style.kind == Kind::Woven && random.chance(8) {
        next[0] = random.pick(&[0xFFC0, 0x00FD, 0x00F0]);
    }
    let mut drafts: Vec<Draft> = Vec::new();
    while drafts.len() < count {
        let which = match style.kind {
            Kind::Single => drafts.len() % style.lines.len(),
            _ => random.below(style.lines.len()),
        };
        if random.chance(style.gap) {
            next[which] = next[which].wrapping_add(random.within(1, 2) as u16);
        }
        let (line, number) = (style.lines[which], next[which]);
        next[which] = number.wrapping_add(1).max(1);
        let own = sequence(line, number);
        let taken = drafts.iter().any(|draft| draft.sequence() == own);
        if number != 0 && !taken {
            let draft = style.draft(random, line, number, &drafts);
            drafts.push(draft);
        }
    }
    style.close_rings(random, &mut drafts);
    drafts
}
