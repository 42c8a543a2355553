//! Damaged sheets: good ones cut, extended or changed, and buffers too short.

use crate::generate::{self, Limit, PASSABLE};
use crate::plain::sheet::read_words;
use crate::plain::sheet::{
    ABSENT, APPLY, Diagnostic, EFFECTS, Effect, MAX_BLOCK_NUMBER, MAX_DIAGNOSTIC, MAX_ORDER,
    MAX_RANGE, MAX_TRAITS, MAX_TYPE, SHEET_WORDS, Sheet, Terminal, Value, WORKSPACE_WORDS,
};
use crate::random::Random;
use crate::recreated;

/// How many words the answer buffer has.
#[derive(Debug, Clone, Copy, PartialEq, Eq)]
pub enum Room {
    /// As many as the answer.
    Exact,
    /// That many more than the answer.
    More(usize),
    /// That many fewer than the answer, at least 0.
    Short(usize),
    None,
}

impl Room {
    pub fn words(self, answer: usize) -> usize {
        match self {
            Room::Exact => answer,
            Room::More(n) => answer + n,
            Room::Short(n) => answer.saturating_sub(n),
            Room::None => 0,
        }
    }
}

/// One call.
#[derive(Debug, Clone, PartialEq, Eq)]
pub struct Call {
    pub sheet: Vec<u32>,
    pub workspace: usize,
    pub room: Room,
}

impl Call {
    pub fn good(sheet: &Sheet, random: &mut Random) -> Call {
        let room = if random.percent(50) { Room::Exact } else { Room::More(random.below(40)) };
        let workspace = WORKSPACE_WORDS + if random.percent(80) { 0 } else { random.below(40) };
        Call { sheet: sheet.words(), workspace, room }
    }
}

/// Limits of document 01 and their neighbours, and the effect count of an absent list.
pub const EDGES: [u32; 38] = [
    0,
    1,
    2,
    3,
    7,
    8,
    9,
    11,
    12,
    13,
    15,
    16,
    17,
    18,
    63,
    64,
    65,
    71,
    72,
    255,
    256,
    257,
    511,
    512,
    513,
    1_023,
    1_024,
    1_025,
    65_535,
    65_536,
    999_999,
    1_000_000,
    1_000_001,
    16_384,
    0x7fff_ffff,
    0x8000_0000,
    0xffff_fffe,
    ABSENT,
];

/// What a word at a position is changed to.
pub type Change = fn(&[u32], usize, &mut Random) -> u32;

/// Changes one word: to one more, to one less, or by one of these, each as often.
pub fn change<const N: usize>(words: &mut [u32], random: &mut Random, others: [Change; N]) {
    if words.is_empty() {
        return;
    }
    let at = random.below(words.len());
    words[at] = match random.below(2 + N) {
        0 => words[at].wrapping_add(1),
        1 => words[at].wrapping_sub(1),
        other => others[other - 2](words, at, random),
    };
}

fn change_word(words: &mut [u32], random: &mut Random) {
    let another: Change = |words, _, random| words[random.below(words.len())];
    change(words, random, [another, |_, _, random| random.choose(&EDGES)]);
}

/// Use a block number, or one predecessor of a phi, a second time.
fn repeat_number(sheet: &mut Sheet, random: &mut Random) {
    let phis: Vec<(usize, usize)> = sheet
        .blocks
        .iter()
        .enumerate()
        .flat_map(|(b, block)| (0..block.phis.len()).map(move |p| (b, p)))
        .filter(|&(b, p)| !sheet.blocks[b].phis[p].operands.is_empty())
        .collect();
    if !phis.is_empty() && random.percent(50) {
        let (b, p) = random.choose(&phis);
        let operands = &mut sheet.blocks[b].phis[p].operands;
        let mut again = operands[random.below(operands.len())];
        again.1.identifier = again.1.identifier.saturating_sub(1);
        operands.insert(random.below(operands.len() + 1), again);
    } else if !sheet.blocks.is_empty() {
        let again = random.choose(&sheet.blocks.iter().map(|b| b.number).collect::<Vec<_>>());
        let at = random.below(sheet.blocks.len());
        sheet.blocks[at].number = again;
    }
}

fn pick<T>(mut list: Vec<T>, random: &mut Random) -> Option<T> {
    if list.is_empty() {
        return None;
    }
    let at = random.below(list.len());
    Some(list.swap_remove(at))
}

/// Set one word to the end of its range, or to one past it.
fn to_edge(sheet: &mut Sheet, random: &mut Random) {
    let past = random.percent(60) as u32;
    let count = sheet.identifiers.len() as u32;
    let inner = sheet.functions.len() as u32;
    match random.below(10) {
        0 => {
            let at = random.below(sheet.identifiers.len());
            let identifier = &mut sheet.identifiers[at];
            match random.below(3) {
                0 => identifier.start = MAX_RANGE + past,
                1 => identifier.end = MAX_RANGE + past,
                _ => identifier.type_ = MAX_TYPE + past,
            }
        }
        1 => {
            let all = sheet.functions.iter_mut().flat_map(|f| &mut f.diagnostics).collect();
            let diagnostic: Option<&mut Diagnostic> = pick(all, random);
            diagnostic.into_iter().for_each(|d| match random.below(2) {
                0 => d.identity = MAX_DIAGNOSTIC + past,
                _ => d.instance = MAX_DIAGNOSTIC + past,
            });
        }
        2 => {
            let place = pick(sheet.places_mut(), random);
            place.into_iter().for_each(|p| p.identifier = count - 1 + past);
        }
        3 => {
            pick(sheet.places_mut(), random).into_iter().for_each(|p| p.traits = MAX_TRAITS + past);
        }
        4 => {
            let all = sheet.blocks.iter_mut().map(|b| &mut b.number).collect();
            pick(all, random).into_iter().for_each(|n| *n = MAX_BLOCK_NUMBER + past);
        }
        5 => {
            let phis = sheet.blocks.iter_mut().flat_map(|b| &mut b.phis);
            let all = phis.flat_map(|p| &mut p.operands).collect();
            pick(all, random).into_iter().for_each(|o| o.0 = MAX_BLOCK_NUMBER + past);
        }
        6 => {
            let mut all: Vec<&mut u32> = Vec::new();
            for block in &mut sheet.blocks {
                all.extend(block.instructions.iter_mut().map(|i| &mut i.order));
                all.push(match &mut block.terminal {
                    Terminal::Other { order, .. } => order,
                    Terminal::Return { order, .. } => order,
                    Terminal::MaybeThrow { order, .. } => order,
                });
            }
            pick(all, random).into_iter().for_each(|o| *o = MAX_ORDER + past);
        }
        7 => {
            let instructions = sheet.blocks.iter_mut().flat_map(|b| &mut b.instructions);
            let all = instructions.map(|i| &mut i.value).collect();
            pick(all, random).into_iter().for_each(|v| match random.below(2) {
                0 => *v = Value::Function((inner + past).saturating_sub(1)),
                _ => *v = Value::StoreContext(count - 1 + past),
            });
        }
        8 => {
            if let Some(effect) = pick(sheet.effects_mut(), random) {
                let (_, instance, most) = EFFECTS[effect.kind as usize];
                match effect.kind {
                    13 if random.percent(50) => effect.extra = inner - 1 + past,
                    14..=16 if random.percent(50) => effect.second.identifier = instance + past,
                    _ => effect.extra = most + past,
                }
            }
        }
        _ => {
            if let Some(effect) = pick(sheet.effects_mut(), random) {
                let word = random.choose(&[1, 2, u32::MAX]);
                match random.below(7) {
                    0 => effect.kind = 17 + past,
                    1 => effect.first.identifier = word,
                    2 => effect.first.traits = word,
                    3 => effect.first.span = word,
                    4 => effect.second.identifier = word,
                    5 => effect.second.traits = word,
                    _ => effect.second.span = word,
                }
            }
        }
    }
}

/// Put Apply among the effects of an instruction.
pub fn apply(sheet: &mut Sheet, random: &mut Random) {
    let all = sheet.blocks.iter_mut().flat_map(|b| &mut b.instructions).collect();
    if let Some(instruction) = pick(all, random) {
        let effects = instruction.effects.get_or_insert_default();
        let at = random.below(effects.len() + 1);
        effects.insert(at, Effect { kind: APPLY, ..Effect::default() });
    }
}

/// The positions of all effect counts, each with how many effects follow it.
fn effect_counts(sheet: &Sheet) -> Vec<(usize, usize)> {
    // Where two sheets whose words differ from a count on first differ.
    let at = |one: &Sheet, other: &Sheet| {
        let (one, other) = (one.words(), other.words());
        one.iter().zip(&other).take_while(|(one, other)| one == other).count()
    };
    let mut counts = Vec::new();
    for (b, block) in sheet.blocks.iter().enumerate() {
        for (i, instruction) in block.instructions.iter().enumerate() {
            let with = |effects| {
                let mut sheet = sheet.clone();
                sheet.blocks[b].instructions[i].effects = effects;
                sheet
            };
            counts.push((at(&with(None), &with(Some(Vec::new()))), instruction.listed().len()));
        }
        let with = |list: Vec<Effect>| {
            let mut sheet = sheet.clone();
            match &mut sheet.blocks[b].terminal {
                Terminal::Other { .. } => return None,
                Terminal::Return { effects, .. } | Terminal::MaybeThrow { effects, .. } => {
                    *effects = list;
                }
            }
            Some(sheet)
        };
        if let (Some(none), Some(one)) = (with(Vec::new()), with(vec![Effect::default()])) {
            counts.push((at(&none, &one), block.terminal.effects().len()));
        }
    }
    counts
}

/// Set an effect count to the absent one or to one past its range, with the effects behind it or
/// without; at times the sheet then ends.
fn change_effect_count(sheet: &Sheet, random: &mut Random) -> Vec<u32> {
    let mut words = sheet.words();
    if let Some((at, effects)) = pick(effect_counts(sheet), random) {
        words[at] = random.choose(&[ABSENT, ABSENT, ABSENT, ABSENT - 1, 1_025, 1_024, 0]);
        match random.below(5) {
            0 => {}
            1 => words.truncate(at + 1),
            _ => _ = words.drain(at + 1..at + 1 + 8 * effects),
        }
    }
    words
}

/// The word that passes a total, of a sheet that is refused for that: behind it the sheet may end.
fn passing_word(words: &[u32]) -> Option<usize> {
    if read_words(words) != Err(8) {
        return None;
    }
    let all: Vec<usize> = (0..words.len()).collect();
    Some(all.partition_point(|&at| read_words(&words[..=at]) == Err(3)))
}

/// Put a fault near the word that passes a total, or, if none does, anywhere.
fn damage_total(words: &mut Vec<u32>, random: &mut Random) {
    let whole = words.len();
    let passing = passing_word(words).unwrap_or_else(|| random.below(whole));
    let near = (passing + random.choose(&[0, 1, 1, 2, 3, 4, 7, 8, 9, 10, 11])).saturating_sub(3);
    match random.below(10) {
        0 => {}
        1 => words.truncate(random.between(passing, whole)),
        2 | 3 => words.truncate(passing + random.below(2)),
        4 => words.truncate(near),
        5 => words.push(random.choose(&EDGES)),
        6 => words[passing] = random.choose(&EDGES),
        7 => change_word(&mut words[passing..], random),
        _ => words[near.min(whole - 1)] = random.choose(&EDGES),
    }
}

/// A sheet that holds as many relations as may be, or more; mostly with another fault, or with an
/// Apply.
fn about_held(call: &mut Call, random: &mut Random) {
    let mut sheet = recreated::about_limit(random);
    if random.percent(30) {
        apply(&mut sheet, random);
    }
    call.sheet = sheet.words();
    let whole = call.sheet.len();
    match random.below(10) {
        0 => call.sheet.push(random.choose(&EDGES)),
        1 => call.sheet.truncate(whole - random.between(1, 9)),
        2 => call.sheet.truncate(random.between(1, whole)),
        3 => change_word(&mut call.sheet, random),
        4 => call.sheet[whole - 1 - random.below(20)] = random.choose(&EDGES),
        5 => call.room = random.choose(&[Room::None, Room::Short(1)]),
        6 => call.workspace = WORKSPACE_WORDS - 1,
        _ => {}
    }
}

/// Mostly small sheets: damage does not need large ones.
fn good_sheet(random: &mut Random) -> Sheet {
    if random.percent(80) { generate::tiny(random) } else { generate::sheet(random) }
}

/// A call about what may be held together, and nothing else.
pub fn recreated(random: &mut Random) -> Call {
    let mut call = Call { sheet: Vec::new(), workspace: WORKSPACE_WORDS, room: Room::Exact };
    about_held(&mut call, random);
    call
}

pub fn damaged(random: &mut Random) -> Call {
    let mut sheet = good_sheet(random);
    let mut call = Call { sheet: Vec::new(), workspace: WORKSPACE_WORDS, room: Room::Exact };
    match random.below(100) {
        // Cut.
        0..14 => {
            call.sheet = sheet.words();
            let cut = if random.percent(40) { 1 } else { random.between(1, call.sheet.len()) };
            call.sheet.truncate(call.sheet.len() - cut);
        }
        // Extended.
        14..22 => {
            call.sheet = sheet.words();
            for _ in 0..random.between(1, 9) {
                call.sheet.push(random.choose(&EDGES));
            }
            if random.percent(15) {
                let length = SHEET_WORDS + random.choose(&[0, 1, 1, 1, 2, 100]);
                call.sheet.resize(length, random.choose(&EDGES));
            }
        }
        // One word at the end of its range, or past it.
        22..36 => {
            to_edge(&mut sheet, random);
            call.sheet = sheet.words();
        }
        // An effect count changed.
        36..42 => {
            sheet = generate::tiny(random);
            call.sheet = change_effect_count(&sheet, random);
        }
        // One word changed.
        42..52 => {
            call.sheet = sheet.words();
            change_word(&mut call.sheet, random);
        }
        // A few words changed.
        52..62 => {
            call.sheet = sheet.words();
            for _ in 0..random.between(2, 5) {
                change_word(&mut call.sheet, random);
            }
        }
        // A word taken out or put in.
        62..70 => {
            call.sheet = sheet.words();
            let at = random.below(call.sheet.len());
            if random.percent(50) {
                call.sheet.remove(at);
            } else {
                call.sheet.insert(at, random.choose(&EDGES));
            }
        }
        // A number used a second time, at times with another fault.
        70..78 => {
            for _ in 0..random.between(1, 2) {
                repeat_number(&mut sheet, random);
            }
            call.sheet = sheet.words();
            if random.percent(15) {
                change_word(&mut call.sheet, random);
            }
        }
        // A total met or passed, and mostly another fault.
        78..80 => {
            call.sheet = generate::about_total(random).words();
            damage_total(&mut call.sheet, random);
        }
        // As many relations held as may be, or more, and mostly another fault.
        80..82 => about_held(&mut call, random),
        // A limit passed by one.
        82..86 => {
            let limit = if random.percent(50) {
                random.choose(&PASSABLE)
            } else {
                random.choose(&[Limit::Relations, Limit::Entries, Limit::Mutations, Limit::Renders])
            };
            call.sheet = generate::past_limit(random, limit).words();
            if random.percent(20) {
                change_word(&mut call.sheet, random);
            }
        }
        // Any words.
        89..90 => {
            let length = random.below(60);
            call.sheet = (0..length).map(|_| random.choose(&EDGES)).collect();
        }
        // Apply, at times with another fault.
        86..89 => {
            for _ in 0..random.between(1, 2) {
                apply(&mut sheet, random);
            }
            call.sheet = sheet.words();
            match random.below(8) {
                0 => call.room = random.choose(&[Room::None, Room::Short(1)]),
                1 => call.workspace = WORKSPACE_WORDS - 1,
                2 => call.sheet.push(0),
                3 => change_word(&mut call.sheet, random),
                4 => {
                    let limit = random.choose(&[
                        Limit::Relations,
                        Limit::Entries,
                        Limit::Mutations,
                        Limit::Renders,
                    ]);
                    let mut past = generate::past_limit(random, limit);
                    apply(&mut past, random);
                    call.sheet = past.words();
                }
                _ => {}
            }
        }
        // A short workspace, whatever else is wrong.
        90..93 => {
            call.sheet = sheet.words();
            call.workspace = if random.percent(50) {
                WORKSPACE_WORDS - 1
            } else {
                random.below(WORKSPACE_WORDS)
            };
            if random.percent(40) {
                change_word(&mut call.sheet, random);
            }
        }
        // A short answer buffer.
        _ => {
            call.sheet = sheet.words();
            call.room = match random.below(4) {
                0 => Room::None,
                1 => Room::Short(random.between(2, 60)),
                _ => Room::Short(1),
            };
        }
    }
    call
}
