//! Sheets just at and just over a total, with a fault before, at and behind the word that passes it
//! (document 02, order 7); and the same of 1,024 relations, which are no total of the reading since
//! order 10: here none of them is held, so that each fault has its own refusal. The refusals are written
//! by hand, from the document's text. What is held has `src/held.rs`.

use crate::boundaries::Boundary;

const RELATIONS: usize = 1_024;
const MUTATIONS: usize = 512;
const RENDERS: usize = 256;

/// A word that counts one more: what stands before it, the word, and the rest of the sheet.
struct Counted {
    before: Vec<u32>,
    word: u32,
    after: Vec<u32>,
}

/// One word changed: what it is, where it stands from the word that passes (0 is that word itself),
/// its new number, and the refusal.
type Fault = (&'static str, isize, u32, u32);

/// Two identifiers, the second of which is returned, and so many blocks. The first has no node, so
/// that relations from it are skipped.
fn head(blocks: u32) -> Vec<u32> {
    vec![2, 0, 1, 2, 0, 0, 0, 0, 0, 0, 0, 0, 0, 1, 1, 0, 0, blocks]
}

/// A phi with so many operands. Their predecessors are numbered from 100 and never come.
fn phi(operands: usize) -> Vec<u32> {
    let all = (100..).take(operands).flat_map(|number| [number, number % 2, 0, 0]);
    [1, 0, 0, operands as u32].into_iter().chain(all).collect()
}

/// An instruction up to its effects, of which there are so many.
fn instruction(effects: usize) -> [u32; 8] {
    [1, 0, 0, 0, 0, 0, 0, effects as u32]
}

/// The words of an effect behind its kind.
fn places(kind: u32) -> [u32; 7] {
    let two = matches!(kind, 5..=8 | 10 | 11);
    [0, 0, 0, two as u32, 0, 0, 0]
}

/// So many effects, of these kinds in turn.
fn effects(kinds: &[u32], count: usize) -> Vec<u32> {
    let kinds = kinds.iter().cycle().take(count);
    kinds.flat_map(|&kind| [&[kind][..], &places(kind)].concat()).collect()
}

/// A terminal of kind 0.
const OTHER: [u32; 3] = [0, 2, 0];

impl Counted {
    fn words(&self) -> Vec<u32> {
        [&self.before[..], &[self.word], &self.after].concat()
    }

    /// The second operand of a second phi, after so many relations; its first one is of block 7.
    fn operand(counted: usize) -> Counted {
        let second = [1, 0, 0, 2, 7, 0, 0, 0];
        Counted {
            before: [&head(1)[..], &[0, 2], &phi(counted - 1), &second].concat(),
            word: 8,
            after: [&[0, 0, 0, 0][..], &OTHER].concat(),
        }
    }

    /// The value of a Return.
    fn returned(counted: usize) -> Counted {
        Counted {
            before: [&head(1)[..], &[0, 1], &phi(counted), &[0, 1, 2]].concat(),
            word: 0,
            after: vec![0, 0, 0, 0],
        }
    }

    /// An effect of a Return, whose value is the relation before it.
    fn of_return(kind: u32, counted: usize) -> Counted {
        let terminal = [0, 1, 2, 0, 0, 0, 1];
        Counted {
            before: [&head(1)[..], &[0, 1], &phi(counted - 1), &terminal].concat(),
            word: kind,
            after: [&places(kind)[..], &[0]].concat(),
        }
    }

    /// An effect of a MaybeThrow.
    fn of_maybe_throw(kind: u32, counted: usize) -> Counted {
        Counted {
            before: [&head(1)[..], &[0, 1], &phi(counted), &[0, 2, 2, 1]].concat(),
            word: kind,
            after: [&places(kind)[..], &[0]].concat(),
        }
    }

    /// An effect of an instruction, after so many phi operands.
    fn behind_phi(kind: u32, counted: usize) -> Counted {
        let before = [&head(1)[..], &[0, 1], &phi(counted), &[1], &instruction(1)].concat();
        Counted { before, word: kind, after: [&places(kind)[..], &OTHER].concat() }
    }

    /// An effect of an instruction, after one with so many effects of these kinds.
    fn behind_instruction(kinds: &[u32], kind: u32, counted: usize) -> Counted {
        let all = [&instruction(counted)[..], &effects(kinds, counted), &instruction(1)].concat();
        let before = [&head(1)[..], &[0, 0, 2], &all].concat();
        Counted { before, word: kind, after: [&places(kind)[..], &OTHER].concat() }
    }

    /// An effect of an instruction that has so many others before it, of these kinds.
    fn behind_effects(kinds: &[u32], kind: u32, counted: usize) -> Counted {
        let all = effects(kinds, counted);
        Counted {
            before: [&head(1)[..], &[0, 0, 1], &instruction(counted + 1), &all].concat(),
            word: kind,
            after: [&places(kind)[..], &OTHER].concat(),
        }
    }
}

fn named(name: &str, what: &str, words: &[u32], refusal: u32) -> Boundary {
    Boundary { name: format!("{name}: {what}"), words: words.to_vec(), refusal }
}

/// The sheet cut before the word that passes a total and right behind it, where it is refused `behind`;
/// and these faults.
fn around(name: &str, passed: &Counted, behind: u32, faults: &[Fault]) -> Vec<Boundary> {
    let at = passed.before.len();
    let words = passed.words();
    let mut sheets = vec![
        named(name, "the end before the word that passes", &words[..at], 3),
        named(name, "the end behind the word that passes", &words[..=at], behind),
    ];
    for &(what, by, word, refusal) in faults {
        let mut words = words.clone();
        words[at.checked_add_signed(by).expect("a word of the sheet")] = word;
        sheets.push(named(name, what, &words, refusal));
    }
    sheets
}

/// The total met, passed with no other fault, and passed with words behind the last block.
fn whole(name: &str, total: usize, make: impl Fn(usize) -> Counted) -> Vec<Boundary> {
    let words = make(total).words();
    vec![
        named(name, "the total met", &make(total - 1).words(), 0),
        named(name, "the total passed", &words, 8),
        named(name, "words follow", &[&words[..], &[0]].concat(), 8),
    ]
}

/// 1,024 relations and one more, of which none is held.
fn more_relations(name: &str, make: impl Fn(usize) -> Counted) -> Vec<Boundary> {
    let words = make(RELATIONS).words();
    vec![
        named(name, "1,024 of them", &make(RELATIONS - 1).words(), 0),
        named(name, "1,025 of them", &words, 0),
        named(name, "words follow", &[&words[..], &[0]].concat(), 7),
    ]
}

fn operands() -> Vec<Boundary> {
    around(
        "a phi operand",
        &Counted::operand(RELATIONS),
        3,
        &[
            ("traits of the operand before", -2, 16, 5),
            ("its number out of range", 0, 65_536, 5),
            ("its number again", 0, 7, 6),
            ("its identifier", 1, 2, 5),
            ("the count of instructions", 4, 1_025, 4),
        ],
    )
}

fn returns() -> Vec<Boundary> {
    around(
        "the value of a Return",
        &Counted::returned(RELATIONS),
        3,
        &[
            ("the terminal's kind", -2, 3, 5),
            ("the terminal's order", -1, 1_000_000, 5),
            ("its identifier", 0, 2, 5),
            ("its traits", 1, 16, 5),
            ("the count of effects", 3, 1_025, 4),
        ],
    )
}

fn terminals() -> Vec<Boundary> {
    let of_return = around(
        "an Alias of a Return",
        &Counted::of_return(6, RELATIONS),
        3,
        &[
            ("the value's traits", -3, 16, 5),
            ("the count of effects", -1, 1_025, 4),
            ("its kind", 0, 18, 5),
            ("its first place", 1, 2, 5),
            ("the count of operands", 8, 1, 4),
        ],
    );
    let of_maybe_throw = around(
        "an Alias of a MaybeThrow",
        &Counted::of_maybe_throw(6, RELATIONS),
        3,
        &[("the terminal's order", -2, 1_000_000, 5), ("its extra word", 7, 1, 5)],
    );
    [of_return, of_maybe_throw].concat()
}

const RELATION_KINDS: [u32; 5] = [5, 6, 7, 8, 10];
const MUTATION_KINDS: [u32; 4] = [1, 2, 3, 4];
const RENDER: u32 = 17;

fn relations() -> Vec<Boundary> {
    around(
        "a relation of an instruction",
        &Counted::behind_phi(5, RELATIONS),
        3,
        &[
            ("the instruction's order", -8, 1_000_000, 5),
            ("the count of effects", -1, 1_025, 4),
            ("its kind", 0, 18, 5),
            ("its first place", 1, 2, 5),
            ("traits of its second place", 5, 16, 5),
            ("its extra word", 7, 1, 5),
        ],
    )
}

fn mutations() -> Vec<Boundary> {
    around(
        "a mutation",
        &Counted::behind_effects(&MUTATION_KINDS, 1, MUTATIONS),
        8,
        &[
            ("the extra word of the one before", -1, 1, 5),
            ("its kind", 0, 18, 5),
            ("its place", 1, 2, 8),
            ("its extra word", 7, 2, 8),
        ],
    )
}

fn renders() -> Vec<Boundary> {
    let make = |counted| Counted::behind_effects(&[RENDER], RENDER, counted);
    let passed = make(RENDERS);
    let mut sheets = around(
        "a render",
        &passed,
        8,
        &[
            ("the extra word of the one before", -1, 1, 5),
            ("the kind of the one before", -8, 18, 5),
            ("its kind", 0, 18, 5),
            ("its place", 1, 2, 8),
            ("its unused place", 4, 1, 8),
            ("its extra word", 7, 1, 8),
            ("the terminal's kind", 8, 3, 8),
        ],
    );
    sheets.extend(whole("a render", RENDERS, make));
    // A block behind it with the number of the first, and one with an Apply.
    let mut words = passed.words();
    words[17] = 2;
    let then = |what, block: &[u32]| named("a render", what, &[&words[..], block].concat(), 8);
    sheets.push(then("a block number again", &[0, 0, 0, 0, 2, 0]));
    let apply = [&[1, 0, 1][..], &instruction(1), &effects(&[12], 1), &OTHER].concat();
    sheets.push(then("an Apply behind it", &apply));
    // An Apply before it.
    let mut applied = passed.before;
    let first = applied.len() - 8 * RENDERS;
    applied[first - 1] = RENDERS as u32 + 2;
    applied.splice(first..first, effects(&[12], 1));
    let words = [&applied[..], &[RENDER], &passed.after].concat();
    sheets.push(named("a render", "an Apply before it", &words, 8));
    sheets
}

/// Effects that count nowhere, behind totals that are met: mutations, renders and other relations
/// of terminals, and kinds of instructions that are none of the three.
fn uncounted() -> Vec<Boundary> {
    const OTHERS: [u32; 6] = [0, 9, 11, 14, 15, 16];
    let sheet = |what, words: Vec<u32>| named("a total met", what, &words, 0);
    let ends = |kinds: &[u32]| {
        let all = effects(kinds, kinds.len());
        let count = kinds.len() as u32;
        [&[2, 2, count][..], &all, &[0]].concat()
    };
    let of_instruction = |kinds: &[u32], met: usize| {
        let all = [effects(kinds, met), effects(&OTHERS, 6)].concat();
        [&head(1)[..], &[0, 0, 1], &instruction(met + 6), &all].concat()
    };
    let mutated = of_instruction(&MUTATION_KINDS, MUTATIONS);
    let rendered = of_instruction(&[RENDER], RENDERS);
    let related = [&head(1)[..], &[0, 1], &phi(RELATIONS), &[0]].concat();
    vec![
        sheet("mutations of a terminal", [&mutated[..], &ends(&MUTATION_KINDS)].concat()),
        sheet("renders of a terminal", [&rendered[..], &ends(&[RENDER])].concat()),
        sheet("no Alias of a terminal", [&related[..], &ends(&[5, 7, 8, 10, 11, 12])].concat()),
    ]
}

/// Both totals met in one sheet, with 1,024 relations that are not held, from everything that relates;
/// then one more.
fn together() -> Vec<Boundary> {
    let count = RELATION_KINDS.len() + MUTATIONS + RENDERS;
    let kinds =
        [vec![RENDER; RENDERS], MUTATION_KINDS.repeat(MUTATIONS / 4), RELATION_KINDS.into()];
    let met = [
        &head(2)[..],
        &[0, 2],
        &phi(500),
        &phi(RELATIONS - 500 - RELATION_KINDS.len() - 3),
        &[1],
        &instruction(count),
        &effects(&kinds.concat(), count),
        // A Return and its two aliases; the last block has no relation.
        &[1, 2, 0, 0, 0, 2],
        &effects(&[6], 2),
        &[0],
        &[1, 0],
    ]
    .concat();
    let sheet = |what, rest: &[u32], refusal| {
        named("all totals met", what, &[&met[..], rest].concat(), refusal)
    };
    let one = |kind| [&[1][..], &instruction(1), &[kind]].concat();
    vec![
        sheet("no more", &[&[0][..], &OTHER].concat(), 0),
        sheet("one more mutation", &one(2), 8),
        sheet("one more render", &one(RENDER), 8),
        sheet("one more relation", &one(6), 3),
        sheet("one more Return", &[0, 1, 2, 1], 3),
        sheet("one more Alias of a terminal", &[0, 2, 2, 1, 6], 3),
    ]
}

/// What passes a total, in sheets with no other fault or with words behind the last block; every
/// kind that counts; a sheet over a total as long as a sheet can be, and one word longer.
fn further() -> Vec<Boundary> {
    let mutation = |kind| Counted::behind_effects(&MUTATION_KINDS, kind, MUTATIONS);
    let mut sheets = [
        more_relations("a phi operand", Counted::operand),
        more_relations("the value of a Return", Counted::returned),
        more_relations("an Alias of a Return", |n| Counted::of_return(6, n)),
        more_relations("an Alias of a MaybeThrow", |n| Counted::of_maybe_throw(6, n)),
        more_relations("a relation", |n| Counted::behind_instruction(&[5, 6, 7], 5, n)),
        whole("a mutation", MUTATIONS, |n| Counted::behind_effects(&MUTATION_KINDS, 1, n)),
    ]
    .concat();
    for kind in RELATION_KINDS {
        let name = format!("kind {kind}");
        sheets.extend(around(&name, &Counted::behind_phi(kind, RELATIONS), 3, &[]));
    }
    for kind in MUTATION_KINDS {
        sheets.extend(around(&format!("kind {kind}"), &mutation(kind), 8, &[]));
    }
    let render = Counted::behind_effects(&[RENDER], RENDER, RENDERS).words();
    for (length, refusal) in [(16_384, 8), (16_385, 2)] {
        let mut words = render.clone();
        words.resize(length, 0);
        sheets.push(named("a render", &format!("{length} words"), &words, refusal));
    }
    sheets
}

/// Those that `replay` has: sheets over a total are long.
pub fn chief() -> Vec<Boundary> {
    let sheets = [mutations(), renders(), uncounted(), together()[..3].to_vec()];
    let ends = [operands(), returns(), terminals(), relations()];
    [sheets.concat(), ends.map(|sheets| sheets[..2].to_vec()).concat()].concat()
}

pub fn all() -> Vec<Boundary> {
    let relations = [operands(), returns(), terminals(), relations()].concat();
    [mutations(), renders(), uncounted(), together(), relations, further()].concat()
}
