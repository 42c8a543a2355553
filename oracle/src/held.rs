//! Sheets about what is held (document 02, order 10): as many forward edges and entries held together
//! as may be, and one more, with what creates a node again, what is skipped, what waits, and what else
//! a sheet is refused for. Refusals, walks and numbers are written by hand, from the document's text.

use crate::boundaries::Boundary;
use crate::plain::sheet::{APPLY, Block, Effect, Instruction, Phi, Place, Sheet, Terminal};

const MOST: usize = 1_024;

const CAPTURE: u32 = 5;
const ALIAS: u32 = 6;
const MAYBE_ALIAS: u32 = 7;
const ASSIGN: u32 = 8;
const CREATE_FROM: u32 = 10;

fn place(identifier: u32) -> Place {
    Place { identifier, traits: 0, span: 0 }
}

fn two(kind: u32, from: u32, into: u32) -> Effect {
    Effect { kind, first: place(from), second: place(into), extra: 0 }
}

fn create(identifier: u32) -> Effect {
    Effect { kind: 9, first: place(identifier), ..Effect::default() }
}

fn function(identifier: u32) -> Effect {
    Effect { kind: 13, first: place(identifier), ..Effect::default() }
}

fn mutate(identifier: u32) -> Effect {
    Effect { kind: 1, first: place(identifier), ..Effect::default() }
}

/// The same relation so many times.
fn times(count: usize, kind: u32, from: u32, into: u32) -> Vec<Effect> {
    vec![two(kind, from, into); count]
}

fn block(number: u32, effects: &[Effect]) -> Block {
    let instructions =
        effects.chunks(1_000).map(|part| Instruction::plain(1, part.to_vec())).collect();
    let terminal = Terminal::Other { order: 2, operands: Vec::new() };
    Block { number, phis: Vec::new(), instructions, terminal }
}

/// A phi whose operands are this one, of so many predecessors from a number on.
fn phi(into: u32, from: u32, predecessors: std::ops::Range<u32>) -> Phi {
    let operands = predecessors.map(|number| (number, place(from))).collect();
    Phi { place: place(into), operands }
}

fn with_phis(number: u32, phis: Vec<Phi>) -> Block {
    Block { phis, ..block(number, &[]) }
}

/// Six identifiers, of which 0 to 2 are parameters and 5 is returned; 3 and 4 have no node at first.
fn six(blocks: Vec<Block>) -> Sheet {
    Sheet::plain(6, [0, 1, 2].map(place).to_vec(), place(5), blocks)
}

fn effects(parts: &[&[Effect]]) -> Sheet {
    six(vec![block(0, &parts.concat())])
}

/// Each of 0 to 31 an alias into each of 32 to 63: 1,024 edges and as many entries, 32 at each.
/// 64 to 66 have nodes, 67 has none.
fn grid(more: &[Effect]) -> Sheet {
    let mut all: Vec<Effect> = (0..67).map(create).collect();
    for from in 0..32 {
        all.extend((32..64).map(|into| two(ALIAS, from, into)));
    }
    all.extend(more);
    Sheet::plain(68, Vec::new(), place(66), vec![block(0, &all)])
}

fn named(name: &str, sheet: &Sheet, refusal: u32) -> Boundary {
    Boundary { name: name.to_string(), words: sheet.words(), refusal }
}

/// Met and passed by one, of relations from everything that stores them.
fn met_and_passed() -> Vec<Boundary> {
    let mut sheets = Vec::new();
    // Readings 10.1 and 10.2.
    for (more, refusal) in [(0, 0), (1, 8)] {
        let at_two = effects(&[&times(512, ALIAS, 0, 2), &times(512 + more, ALIAS, 1, 2)]);
        sheets.push(named("512 edges at 0, the others at 1", &at_two, refusal));
        for kind in [CAPTURE, ALIAS, MAYBE_ALIAS, ASSIGN] {
            let name = format!("kind {kind}, the same relation again and again");
            sheets.push(named(&name, &effects(&[&times(MOST + more, kind, 0, 1)]), refusal));
        }
        let ends = |count: usize, terminal| {
            let mut sheet = effects(&[&times(count, ALIAS, 0, 1)]);
            sheet.blocks[0].terminal = terminal;
            sheet
        };
        let returned = Terminal::Return { order: 2, value: place(0), effects: Vec::new() };
        sheets.push(named("a Return", &ends(MOST - 1 + more, returned), refusal));
        let alias = vec![two(ALIAS, 0, 1)];
        let aliased = Terminal::MaybeThrow { order: 2, effects: alias };
        sheets.push(named("an Alias of a terminal", &ends(MOST - 1 + more, aliased), refusal));
    }
    // A relation to itself; every kind at once.
    let all = [CAPTURE, ALIAS, MAYBE_ALIAS, ASSIGN].map(|kind| times(256, kind, 0, 0)).concat();
    sheets.push(named("all kinds, to itself", &effects(&[&all]), 0));
    sheets.push(named("all kinds, one more", &effects(&[&all, &[two(ALIAS, 0, 0)]]), 8));
    sheets
}

/// What is created again, and what stays: readings 10.3 to 10.5.
fn created_again() -> Vec<Boundary> {
    let full = times(MOST, ALIAS, 0, 1);
    let one = [two(ALIAS, 2, 1)];
    let some = [times(600, ALIAS, 0, 1), times(424, ALIAS, 2, 1)].concat();
    let again = [vec![create(0)], times(600, CAPTURE, 0, 1)].concat();
    let sheet = |name, parts: &[&[Effect]], refusal| named(name, &effects(parts), refusal);
    let on_grid = |name, more: &[Effect], refusal| named(name, &grid(more), refusal);
    vec![
        sheet("into is created again: its edges from others stay", &[&full, &[create(1)], &one], 8),
        sheet("from is created again: its edges are given back", &[&some, &again], 0),
        sheet("and one more", &[&some, &again, &one], 8),
        sheet("a node that exists is assigned", &[&full, &[two(ASSIGN, 2, 0)]], 8),
        sheet("CreateFrom into the full node", &[&full, &[two(CREATE_FROM, 2, 0)]], 0),
        sheet("CreateFrom of itself", &[&full, &[two(CREATE_FROM, 0, 0)]], 0),
        sheet("CreateFrom into another node", &[&full, &[two(CREATE_FROM, 2, 1)]], 8),
        sheet(
            "CreateFrom into the full node, from a node without one",
            &[&full, &[two(CREATE_FROM, 3, 0)]],
            0,
        ),
        sheet(
            "CreateFrom without a node at from holds no edge",
            &[&full, &[two(CREATE_FROM, 3, 4)]],
            0,
        ),
        on_grid("entries full", &[], 0),
        on_grid("one more", &[two(ALIAS, 64, 65)], 8),
        on_grid("from is created again: entries of it stay", &[create(0), two(ALIAS, 64, 65)], 8),
        on_grid("into is created again: edges to it stay", &[create(32), two(ALIAS, 64, 65)], 8),
        on_grid(
            "both: edges and entries are given back",
            &[create(0), create(32), two(ALIAS, 64, 65)],
            0,
        ),
        on_grid("an entry that is there already", &[create(0), two(ALIAS, 1, 32)], 0),
        on_grid("the same in another list", &[create(0), two(CAPTURE, 1, 32)], 8),
        on_grid(
            "CreateFrom without a node at from, entries full",
            &[create(0), two(CREATE_FROM, 67, 65)],
            8,
        ),
        on_grid(
            "CreateFrom without a node at from, an entry given back",
            &[two(CREATE_FROM, 67, 32)],
            0,
        ),
        on_grid("CreateFrom, an entry given back, edges full", &[two(CREATE_FROM, 64, 32)], 8),
    ]
}

/// CreateFunction and phis give back too.
fn created_otherwise() -> Vec<Boundary> {
    let full = times(MOST, ALIAS, 0, 1);
    let one = [two(ALIAS, 2, 1)];
    let mut functions = effects(&[&full, &[function(0)], &one]);
    functions.functions.push(Default::default());
    let phi = |into| {
        let mut second = with_phis(1, vec![phi(into, 2, 0..0)]);
        second.instructions = block(1, &one).instructions;
        six(vec![block(0, &full), second])
    };
    vec![
        named("CreateFunction gives back", &functions, 0),
        named("a phi gives back", &phi(0), 0),
        named("a phi of another identifier", &phi(3), 8),
    ]
}

/// Passing the limit and dropping later: reading 10.7. Skipped relations: reading 10.8.
fn passed_for_a_while() -> Vec<Boundary> {
    let over = times(MOST + 1, ALIAS, 0, 1);
    let full = times(MOST, ALIAS, 0, 1);
    let dropped = [create(0), create(1)];
    let skipped = [times(600, ALIAS, 3, 1), times(400, CAPTURE, 0, 4)].concat();
    vec![
        named("passed, and dropped later", &effects(&[&over, &dropped]), 8),
        named("dropped before", &effects(&[&full, &dropped, &full[200..]]), 0),
        named("skipped relations", &effects(&[&skipped, &full]), 0),
        named("skipped ones alone", &effects(&[&skipped, &times(900, MAYBE_ALIAS, 3, 4)]), 0),
    ]
}

/// Operands that wait hold nothing: reading 10.6.
fn waiting() -> Vec<Boundary> {
    // As many as fit into a sheet of one identifier, and they never come.
    let phis = |left: u32| -> Vec<Phi> {
        let parts = (0..4).map(|part| left.saturating_sub(1_024 * part).min(1_024));
        parts.map(|part| phi(0, 0, 1..part + 1)).collect()
    };
    let alone = |left| Sheet::plain(1, Vec::new(), place(0), vec![with_phis(0, phis(left))]);
    let come = |count: u32, again: &[Effect]| {
        // All of them wait for block 9.
        let phis: Vec<Phi> = (0..count).map(|_| phi(1, 0, 9..10)).collect();
        six(vec![with_phis(0, phis), block(9, again)])
    };
    let of_each = |blocks: u32, each: u32, again: &[Effect]| {
        let phis: Vec<Phi> = (0..each).map(|_| phi(1, 0, 1..blocks + 1)).collect();
        let first = with_phis(0, phis);
        six([first].into_iter().chain((1..=blocks).map(|n| block(n, again))).collect())
    };
    let stored = |own: u32, predecessors: u32, phis: usize| {
        let first = (0..predecessors).map(|number| block(number, &[]));
        let last = with_phis(predecessors, vec![phi(0, own, 0..predecessors); phis]);
        let blocks = first.chain([last]).collect();
        Sheet::plain(2, vec![place(1)], place(0), blocks)
    };
    vec![
        named("2,048 operands that never come", &alone_of(&six(Vec::new()), phis(2_048)), 0),
        named("4,086 operands that never come", &alone(4_086), 0),
        named("1,024 operands that come", &come(1_024, &[]), 0),
        named("1,024 that come, and one more", &come(1_024, &[two(ALIAS, 0, 1)]), 8),
        named("1,024 that come, dropped before", &come(1_024, &[two(ALIAS, 0, 1), create(0)]), 0),
        named("32 blocks, 32 operands each", &of_each(32, 32, &[]), 0),
        named("33 blocks, 32 operands each", &of_each(33, 32, &[]), 8),
        named("80 blocks, 40 operands each, given back", &of_each(80, 40, &[create(0)]), 0),
        named("1,024 of their own phi", &stored(0, 64, 16), 0),
        named("3,904 of their own phi, given back", &stored(0, 64, 61), 0),
        named("1,024 of another identifier", &stored(1, 64, 16), 0),
        named("1,088 of another identifier", &stored(1, 64, 17), 8),
    ]
}

fn alone_of(sheet: &Sheet, phis: Vec<Phi>) -> Sheet {
    Sheet { blocks: vec![with_phis(0, phis)], ..sheet.clone() }
}

/// Among other refusals: readings 10.9 to 10.11, 10.15 and 10.16.
fn among_refusals() -> Vec<Boundary> {
    let over = times(MOST + 1, ALIAS, 0, 1);
    let apply = [Effect { kind: APPLY, ..Effect::default() }];
    let mutations = |count: usize| vec![mutate(0); count];
    let sheet = |name, parts: &[&[Effect]], refusal| named(name, &effects(parts), refusal);
    let words = effects(&[&over]).words();
    let whole = words.len();
    // The terminal's three words stand at the end; eight words before them is the last effect.
    let changed = |name: &str, changes: &[(usize, u32)], length: usize, refusal| {
        let mut words = words.clone();
        changes.iter().for_each(|&(back, word)| words[whole - back] = word);
        words.resize(length, 0);
        Boundary { name: name.to_string(), words, refusal }
    };
    let mut sheets = vec![
        sheet("an Apply behind", &[&over, &apply], 8),
        sheet("an Apply before", &[&apply, &over], 8),
        sheet("an Apply, and 1,024 held", &[&over[1..], &apply], 10),
        sheet("512 mutations", &[&over, &mutations(512)], 8),
        sheet("513 mutations before", &[&mutations(513), &over], 8),
        sheet("513 mutations behind", &[&over, &mutations(513)], 8),
        changed("words follow", &[], whole + 1, 7),
        changed("the end behind the effect that passes", &[], whole - 3, 3),
        changed("the terminal's order", &[(2, 1_000_000)], whole, 5),
        changed("the count of operands", &[(1, 65)], whole, 4),
        changed("traits of the effect that passes", &[(9, 16)], whole, 5),
        changed("16,385 words", &[], 16_385, 2),
        changed("16,384 words", &[], 16_384, 7),
    ];
    let mut again = effects(&[&over]);
    again.blocks.push(block(0, &[]));
    sheets.push(named("a block number again", &again, 6));
    // A total of the reading beats a fault behind it, whatever is held.
    let mut cut = effects(&[&over, &mutations(513)]).words();
    cut.pop();
    let name = "513 mutations behind, and the end of the sheet".to_string();
    sheets.push(Boundary { name, words: cut, refusal: 8 });
    sheets
}

/// Accepted sheets with their walks: mutations, parameters, what is returned.
pub fn walks() -> Vec<(&'static str, Sheet, Vec<u32>)> {
    let two_params = |effects: &[Effect]| {
        Sheet::plain(5, [1, 2].map(place).to_vec(), place(3), vec![block(0, effects)])
    };
    let full = times(MOST, ALIAS, 1, 2);
    // From 1 all edges are taken, and from 2 the one entry back; from 2 the entry and then all edges.
    let entry_alone = [&full[..], &[two(CREATE_FROM, 0, 4), mutate(4)]].concat();
    let skipped = [&full[..], &times(500, ALIAS, 0, 4), &[mutate(1)]].concat();
    let given_back = [&full[..], &[create(1)], &[two(ALIAS, 2, 1), mutate(1)]].concat();
    vec![
        ("an entry alone", two_params(&entry_alone), vec![2, 1_026, 1_026, 1]),
        ("skipped", two_params(&skipped), vec![1_026, 1_026, 1_026, 1]),
        // 1 has the entry of 2; 2 has an edge to 1 and the old entry of 1.
        ("given back", two_params(&given_back), vec![4, 4, 4, 1]),
    ]
}

/// Accepted sheets with the edges and entries that they hold in the end.
pub fn numbers() -> Vec<(&'static str, Sheet, usize, usize)> {
    let full = times(MOST, ALIAS, 0, 1);
    vec![
        ("the same again and again", effects(&[&full]), MOST, 1),
        ("into created again", effects(&[&full, &[create(1)]]), MOST, 0),
        ("from created again", effects(&[&full, &[create(0)]]), 0, 1),
        ("a grid", grid(&[]), MOST, MOST),
        ("a grid, from created again", grid(&[create(0)]), MOST - 32, MOST),
        ("a grid, into created again", grid(&[create(32)]), MOST, MOST - 32),
        ("an entry alone", effects(&[&[two(CREATE_FROM, 3, 4)]]), 0, 1),
        (
            "an entry in each list",
            effects(&[&[
                two(CREATE_FROM, 0, 1),
                two(CAPTURE, 0, 1),
                two(ALIAS, 0, 1),
                two(ASSIGN, 0, 1),
                two(MAYBE_ALIAS, 0, 1),
            ]]),
            5,
            4,
        ),
    ]
}

/// Left out of `replay`, where others show the same: these sheets are long.
const LEFT_OUT: [&str; 12] = [
    "kind 5, the same relation again and again",
    "kind 7, the same relation again and again",
    "kind 8, the same relation again and again",
    "512 edges at 0, the others at 1",
    "skipped ones alone",
    "2,048 operands that never come",
    "512 mutations",
    "513 mutations before",
    "513 mutations behind",
    "the count of operands",
    "16,385 words",
    "16,384 words",
];

/// Those that `replay` has.
pub fn chief() -> Vec<Boundary> {
    all().into_iter().filter(|sheet| !LEFT_OUT.contains(&sheet.name.as_str())).collect()
}

pub fn all() -> Vec<Boundary> {
    [
        met_and_passed(),
        created_again(),
        created_otherwise(),
        passed_for_a_while(),
        waiting(),
        among_refusals(),
    ]
    .concat()
}
