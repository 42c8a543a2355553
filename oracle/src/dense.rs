//! Sheets whose walks are long: chains, and graphs with as many relations as a sheet may have.

use crate::plain::sheet::{
    Block, Effect, Instruction, MAX_COUNT, MAX_HELD, MAX_IDENTIFIERS, MAX_MUTATIONS, Phi, Place,
    Sheet, Terminal,
};
use crate::random::Random;

pub fn place(identifier: usize) -> Place {
    Place { identifier: identifier as u32, traits: 0, span: identifier as u32 + 1 }
}

/// An effect between two identifiers.
pub fn two(kind: u32, from: usize, into: usize) -> Effect {
    Effect { kind, first: place(from), second: place(into), extra: 0 }
}

/// A block with these effects, in instructions as full as may be.
pub fn block(number: usize, phis: Vec<Phi>, effects: &[Effect]) -> Block {
    let instructions = (1..)
        .zip(effects.chunks(MAX_COUNT as usize))
        .map(|(order, part)| Instruction::plain(order, part.to_vec()))
        .collect();
    let terminal = Terminal::Other { order: 9, operands: Vec::new() };
    Block { number: number as u32, phis, instructions, terminal }
}

/// A sheet of these blocks. The first identifier is the parameter, the last one what is returned.
pub fn sheet(identifiers: usize, blocks: Vec<Block>) -> Sheet {
    Sheet::plain(identifiers, vec![place(0)], place(identifiers - 1), blocks)
}

/// The same of one block with these effects.
fn one_block(identifiers: usize, effects: &[Effect]) -> Sheet {
    sheet(identifiers, vec![block(0, Vec::new(), effects)])
}

fn mutations(random: &mut Random, count: usize, kinds: &[u32], below: usize) -> Vec<Effect> {
    let mut one = || Effect {
        kind: random.choose(kinds),
        first: place(random.below(below)),
        ..Effect::default()
    };
    (0..count).map(|_| one()).collect()
}

/// A chain over all identifiers, each the alias of the one before it, and back by captures.
pub fn chain(random: &mut Random, relations: usize, mutated: usize) -> Sheet {
    let last = MAX_IDENTIFIERS as usize - 1;
    let there = (0..last).map(|i| two(8, i, i + 1));
    let back = (0..last).rev().map(|i| two(5, i + 1, i));
    let mut effects: Vec<Effect> = there.chain(back).take(relations).collect();
    effects.extend(mutations(random, mutated, &[3, 4], last));
    one_block(last + 1, &effects)
}

/// Random relations of these kinds between so many identifiers, and mutations of the last kinds.
pub fn random(
    random: &mut Random,
    identifiers: usize,
    relations: usize,
    mutated: usize,
    kinds: &[u32],
    mutating: &[u32],
) -> Sheet {
    // A tree first, so that every identifier has a node.
    let mut effects: Vec<Effect> = (1..identifiers)
        .map(|into| two(random.choose(&[8, 10]), random.below(into), into))
        .take(relations)
        .collect();
    while effects.len() < relations {
        let (from, into) = (random.below(identifiers), random.below(identifiers));
        effects.push(two(random.choose(kinds), from, into));
    }
    effects.extend(mutations(random, mutated, mutating, identifiers));
    one_block(identifiers, &effects)
}

/// Each identifier may be an alias of each other one, and is one: definite walks come after
/// conditional ones, so that every entry is taken twice.
pub fn twice(random: &mut Random, identifiers: usize, mutated: usize) -> Sheet {
    let mut effects: Vec<Effect> = (1..identifiers).map(|into| two(8, 0, into)).collect();
    let mut kind = 6;
    while effects.len() < MAX_HELD {
        let (from, into) = (random.below(identifiers), random.below(identifiers));
        effects.push(two(kind, from, into));
        kind = 13 - kind;
    }
    effects.extend(mutations(random, mutated, &[3], identifiers));
    one_block(identifiers, &effects)
}

/// The longest and densest, each with its name.
pub fn all() -> Vec<(&'static str, Sheet)> {
    mutated(MAX_MUTATIONS)
}

/// The same with so many mutations.
pub fn mutated(count: usize) -> Vec<(&'static str, Sheet)> {
    let mut r = Random::new(17);
    let most = MAX_HELD;
    vec![
        ("chain of 512 by aliases", chain(&mut r, 511, count)),
        ("chain of 512, and back by captures", chain(&mut r, 1022, count)),
        ("512 identifiers, all relations", random(&mut r, 512, most, count, &[5, 6, 7], &[3])),
        ("512 identifiers, aliases", random(&mut r, 512, most, count, &[6], &[1, 2, 3, 4])),
        ("128 identifiers, all relations", random(&mut r, 128, most, count, &[5, 6, 7], &[3])),
        ("32 identifiers, all relations", random(&mut r, 32, most, count, &[5, 6, 7], &[3])),
        ("512 identifiers, taken twice", twice(&mut r, 512, count)),
        ("32 identifiers, taken twice", twice(&mut r, 32, count)),
    ]
}
