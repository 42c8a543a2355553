//! Sheets that create the same identifiers again and again, with many relations (document 02, order
//! 10): up to some thousand relation effects and phi operands, of which about as many are held as may
//! be.

use crate::generate::{self, Generator, empty_block};
use crate::plain::building::{Held, build};
use crate::plain::sheet::{
    Block, Effect, Instruction, MAX_HELD, MAX_MUTATIONS, MAX_RENDERS, Phi, Place, SHEET_WORDS,
    Sheet, Terminal, is_mutation, is_render,
};
use crate::random::Random;

// =============================================================================
// As much as fits
// =============================================================================

/// How many effects and phi operands there are.
fn size(sheet: &Sheet) -> usize {
    let of_block = |block: &Block| {
        let phis: usize = block.phis.iter().map(|phi| phi.operands.len()).sum();
        let effects: usize = block.instructions.iter().map(|i| i.listed().len()).sum();
        phis + effects + block.terminal.effects().len() + 1
    };
    sheet.blocks.iter().map(of_block).sum()
}

/// The sheet with the first `left` of its effects, phi operands and terminals only.
fn first(sheet: &Sheet, mut left: usize) -> Sheet {
    let mut sheet = sheet.clone();
    let mut take = |length: usize| {
        let taken = length.min(left);
        left -= taken;
        taken
    };
    for block in &mut sheet.blocks {
        for phi in &mut block.phis {
            phi.operands.truncate(take(phi.operands.len()));
        }
        for effects in block.instructions.iter_mut().flat_map(|i| &mut i.effects) {
            effects.truncate(take(effects.len()));
        }
        if take(1) == 0 {
            let order = block.terminal.order();
            block.terminal = Terminal::Other { order, operands: Vec::new() };
        }
        match &mut block.terminal {
            Terminal::Other { .. } => {}
            Terminal::Return { effects, .. } | Terminal::MaybeThrow { effects, .. } => {
                effects.truncate(take(effects.len()));
            }
        }
    }
    sheet
}

/// The sheet, or as much of its beginning as holds no edge and no entry too many.
pub fn fitted(sheet: Sheet) -> Sheet {
    if build(&sheet).is_ok() {
        return sheet;
    }
    let lengths: Vec<usize> = (0..=size(&sheet)).collect();
    let fits = |length: &usize| build(&first(&sheet, *length)).is_ok();
    let mut length = lengths.partition_point(fits).saturating_sub(1);
    // What waits can make a longer beginning fit and a shorter one not.
    while !fits(&length) {
        length /= 2;
    }
    first(&sheet, length)
}

// =============================================================================
// Which sheets
// =============================================================================

/// How a part of a sheet stores its relations.
#[derive(Clone, Copy)]
enum Style {
    /// Effects of instructions.
    Effects,
    /// Phis whose predecessors have come.
    Phis,
    /// Phis whose predecessors come later or never.
    Waiting,
}

const STYLES: [Style; 3] = [Style::Effects, Style::Phis, Style::Waiting];

struct Maker<'g, 'r> {
    g: &'g mut Generator<'r>,
    words: usize,
    mutations: usize,
    renders: usize,
    /// Of 100 effects so many create a node.
    creations: usize,
    /// Of 1,000 effects so many are mutations or renders.
    walks: usize,
    /// Identifiers that are created again are those below this number.
    again: usize,
    /// The numbers of the blocks so far.
    next: u32,
}

impl Maker<'_, '_> {
    fn effect(&mut self) -> Effect {
        let percent = |m: &mut Self, of| m.g.random.percent(of);
        let kind = if self.g.random.below(1_000) < self.walks {
            self.g.random.choose(&[1, 2, 3, 3, 4, 17])
        } else if percent(self, self.creations) {
            self.g.random.choose(&[9, 9, 10, 13])
        } else {
            self.g.random.choose(&[5, 6, 6, 7, 8])
        };
        let spent =
            is_mutation(kind) && self.mutations == 0 || is_render(kind) && self.renders == 0;
        let kind = if spent { 9 } else { kind };
        self.mutations -= is_mutation(kind) as usize;
        self.renders -= is_render(kind) as usize;
        let mut effect = self.g.effect_of(kind);
        if matches!(kind, 9 | 13) {
            effect.first.identifier = self.g.random.below(self.again) as u32;
        }
        if kind == 10 {
            effect.second.identifier = self.g.random.below(self.again) as u32;
        }
        effect
    }

    /// At most so many effects, in instructions.
    fn effects(&mut self, block: &mut Block, most: usize) {
        let mut left = most.min(self.words.saturating_sub(30) / 8);
        while left > 0 {
            let part = left.min(self.g.random.between(1, 300));
            left -= part;
            let effects: Vec<Effect> = (0..part).map(|_| self.effect()).collect();
            let order = self.g.order();
            self.words = self.words.saturating_sub(8 + 8 * part);
            block.instructions.push(Instruction::plain(order, effects));
        }
    }

    fn phi(&mut self, numbers: impl Iterator<Item = u32>) -> Phi {
        let most = self.words.saturating_sub(40) / 4;
        let operands: Vec<(u32, Place)> =
            numbers.take(most.min(1_024)).map(|number| (number, self.g.place())).collect();
        self.words = self.words.saturating_sub(4 + 4 * operands.len());
        let identifier = self.g.random.below(self.again) as u32;
        Phi { place: Place { identifier, ..self.g.place() }, operands }
    }

    fn block(&mut self) -> Block {
        let block = empty_block(self.next);
        self.next += 1;
        self.words = self.words.saturating_sub(10);
        block
    }

    fn terminal(&mut self, block: &mut Block) {
        let order = self.g.order();
        let most = if self.words > 200 { 3 } else { 0 };
        let count = self.g.random.below(most + 1);
        let effects: Vec<Effect> = (0..count).map(|_| self.g.effect_of(6)).collect();
        self.words = self.words.saturating_sub(8 * count);
        match self.g.random.below(4) {
            0 => block.terminal = Terminal::Return { order, value: self.g.place(), effects },
            1 => block.terminal = Terminal::MaybeThrow { order, effects },
            _ => {}
        }
    }

    /// A part of a sheet in one style.
    fn part(&mut self, style: Style) -> Vec<Block> {
        let mut blocks = Vec::new();
        match style {
            Style::Effects => {
                for _ in 0..self.g.random.between(1, 3) {
                    let mut block = self.block();
                    let most = self.g.random.between(50, 1_500);
                    self.effects(&mut block, most);
                    self.terminal(&mut block);
                    blocks.push(block);
                }
            }
            Style::Phis => {
                for _ in 0..self.g.random.between(2, 50) {
                    let mut block = self.block();
                    for _ in 0..self.g.random.between(1, 4) {
                        let phi = self.phi(0..self.next - 1);
                        block.phis.push(phi);
                    }
                    let most = self.g.random.below(8);
                    self.effects(&mut block, most);
                    self.terminal(&mut block);
                    blocks.push(block);
                }
            }
            Style::Waiting => {
                let mut block = self.block();
                let come = self.g.random.between(0, 30) as u32;
                let never = self.g.random.choose(&[0, 20, 200, 900]);
                for _ in 0..self.g.random.between(1, 40) {
                    let come = self.next..self.next + come;
                    let phi = self.phi(come.chain(1_000..1_000 + never));
                    block.phis.push(phi);
                }
                blocks.push(block);
                for _ in 0..come {
                    let mut block = self.block();
                    let most = self.g.random.below(12);
                    self.effects(&mut block, most);
                    blocks.push(block);
                }
            }
        }
        blocks
    }
}

/// An accepted sheet that creates some of its identifiers again and again. Some parts fill the graph
/// up; then all that is created again is created once more, and it goes on.
pub fn sheet(random: &mut Random) -> Sheet {
    let identifiers = match random.below(4) {
        0 => random.between(2, 8),
        1 | 2 => random.between(5, 40),
        _ => random.between(40, 300),
    };
    let mut g = generate::generator(random, identifiers, 2);
    let mut sheet = g.without_blocks();
    if g.random.percent(80) {
        let mut first = empty_block(0);
        first.instructions.push(Instruction::plain(1, g.create_all(0, identifiers)));
        sheet.blocks.push(first);
    }
    let again = g.random.between(1, identifiers);
    let rounds = g.random.between(1, 4);
    for round in 1..=rounds {
        let words = SHEET_WORDS.saturating_sub(sheet.words().len() + 60);
        let next = sheet.blocks.len() as u32;
        if words < 500 || next > 180 {
            break;
        }
        let totals = sheet.totals();
        let creations = g.random.choose(&[0, 0, 1, 2, 5, 20, 50]);
        let mut maker = Maker {
            words: g.random.between(400, words),
            mutations: MAX_MUTATIONS - totals.mutations,
            renders: MAX_RENDERS - totals.renders,
            creations,
            walks: g.random.choose(&[1, 5, 20]),
            again,
            next,
            g: &mut g,
        };
        let style = maker.g.random.choose(&STYLES);
        let blocks = maker.part(style);
        sheet.blocks.extend(blocks);
        sheet = fitted(sheet);
        let fits = sheet.words().len() + 8 * again + 20 <= SHEET_WORDS;
        if round < rounds && fits && sheet.blocks.len() < 200 {
            let mut once_more = empty_block(sheet.blocks.len() as u32);
            let mut effects = g.create_all(0, again);
            let count = g.random.below(again + 1);
            effects.truncate(count);
            once_more.instructions.push(Instruction::plain(2, effects));
            sheet.blocks.push(once_more);
        }
    }
    while sheet.words().len() > SHEET_WORDS {
        sheet.blocks.pop();
    }
    fitted(sheet)
}

/// Such a sheet, mostly with relations behind it that pass the limit, or do not; it may be refused 8
/// by building alone, and has no other fault.
pub fn about_limit(random: &mut Random) -> Sheet {
    let mut sheet = sheet(random);
    let identifiers = sheet.identifiers.len();
    let number = sheet.blocks.len() as u32;
    let room = (SHEET_WORDS - sheet.words().len()).saturating_sub(60) / 8;
    let held = build(&sheet).map_or(Held::default(), |built| built.held);
    let left = MAX_HELD - held.larger();
    let more = left + random.choose(&[0, 1, 1, 1, 2, 5, 40]);
    let mut g = generate::generator(random, identifiers, 1);
    let mut effects: Vec<Effect> = Vec::new();
    for _ in 0..more.min(room) {
        let kind = g.random.choose(&[5, 6, 7, 8]);
        effects.push(g.effect_of(kind));
    }
    // At times room is made behind the word that passes.
    if g.random.percent(30) && effects.len() + identifiers < room {
        effects.extend(g.create_all(0, identifiers));
    }
    let mut block = empty_block(number);
    for part in effects.chunks(1_000) {
        block.instructions.push(Instruction::plain(3, part.to_vec()));
    }
    if sheet.blocks.len() < 256 && room > 0 {
        sheet.blocks.push(block);
    }
    sheet
}

#[cfg(test)]
mod tests {
    use super::*;
    use crate::plain::read_whole;

    /// The numbers held, counted again over the lists of a finished graph.
    fn counted(sheet: &Sheet) -> (Held, Held) {
        let built = build(sheet).expect("the sheet is accepted");
        let mut again = Held::default();
        for held in built.nodes.iter().flatten().map(|node| node.holds()) {
            again.edges += held.edges;
            again.entries += held.entries;
        }
        (built.held, again)
    }

    /// They are accepted; many have far more relation effects than may be held, and some hold as many
    /// as may be.
    #[test]
    fn made_sheets_fill_the_graph() {
        let mut random = Random::new(10);
        let (mut many, mut full, mut most) = (0, 0, 0);
        for _ in 0..300 {
            let sheet = sheet(&mut random);
            assert!(read_whole(&sheet.words()).is_ok_and(|whole| whole.verdict == 0));
            let (held, again) = counted(&sheet);
            assert_eq!(held, again);
            let relations = sheet.totals().relations;
            many += (relations > MAX_HELD) as usize;
            full += (held.larger() > MAX_HELD - 30) as usize;
            most = most.max(relations);
        }
        println!("{many} with many relations, {full} nearly full, at most {most} relations");
        assert!(many > 60 && full > 15 && most > 3_000, "{many} {full} {most}");
    }

    /// About half of those about the limit are refused.
    #[test]
    fn the_limit_is_passed() {
        let mut random = Random::new(11);
        let sheets: Vec<Sheet> = (0..200).map(|_| about_limit(&mut random)).collect();
        let refused = sheets.iter().filter(|sheet| build(sheet).is_err()).count();
        let words = sheets.iter().map(|sheet| sheet.words().len()).max();
        println!("{refused} of 200 are refused, at most {words:?} words");
        assert!((40..170).contains(&refused), "{refused}");
        assert!(words <= Some(SHEET_WORDS));
    }
}
