//! The bench cases of document 01, with the numbers that it gives. In the form of order 4 they
//! have lvalue place 0, empty lists and value 0, and their ranges are those before the pass
//! over operands.

use crate::boundaries;
use crate::callers;
use crate::compare::{compare, roomy};
use crate::damage::{Call, Room};
use crate::generate::{self, LIMITS, Limit, PASSABLE};
use crate::held;
use crate::plain::building::build;
use crate::plain::sheet::{
    APPLY, Block, Effect, Instruction, Phi, Place, Sheet, Terminal, WORKSPACE_WORDS,
};
use crate::plain::walks::{Trace, trace};
use crate::plain::{self, Answer, Outcome};
use crate::random::Random;
use crate::totals;

const CASE_1: &str = "2 0 1 / 3 0 0 0 0 0 0 0 0 0 / 0 / 1 0 0 5 / 0 / 1 2 0 0 / 1 0 0 2 1 0 0 0 0 0 0 2 9 1 0 0 0 0 0 0 5 0 0 0 1 0 0 0 2 0 0 0 0 0 0 1 3 1 0 7 0 0 0 0 1 3 1 0 0 0 0";

/// Before the pass over operands.
const RANGES_1: [(u32, u32); 3] = [(0, 3), (0, 3), (0, 0)];

pub const ANSWER_1: &str = "\
ranges 3 1 3 0 3 0 0
params 1 0 3 5
context 0
diagnostics 0
effects 3 3 0 0 7 0 0 0 0 9 2 0 0 0 0 0 0 6 0 3 5 2 0 0 0
walks 3 3 5 5
phis 0
instructions 2 0 3 0 0 5 0
terminals 1 1 1 0
inner 0
";

fn place(identifier: u32) -> Place {
    Place { identifier, traits: 0, span: 0 }
}

fn one(kind: u32, identifier: u32) -> Effect {
    Effect { kind, first: place(identifier), ..Effect::default() }
}

fn two(kind: u32, from: u32, into: u32) -> Effect {
    Effect { kind, first: place(from), second: place(into), extra: 0 }
}

/// Every effect in an instruction of its own, orders from 1.
fn block(number: u32, effects: &[Effect]) -> Block {
    let instructions = (1..)
        .zip(effects)
        .map(|(order, effect)| Instruction::plain(order, vec![*effect]))
        .collect();
    let terminal = Terminal::Other { order: 9, operands: Vec::new() };
    Block { number, phis: Vec::new(), instructions, terminal }
}

fn sheet(identifiers: usize, params: &[u32], returns: u32, blocks: Vec<Block>) -> Sheet {
    let params = params.iter().map(|&p| place(p)).collect();
    Sheet::plain(identifiers, params, place(returns), blocks)
}

/// The answer, on which the original and the plain reader agree.
fn agreed(sheet: &Sheet) -> Result<Answer, String> {
    let (refusal, difference) = compare(&roomy(&sheet.words()), &mut []);
    match difference {
        Some(d) => Err(format!("{} differs: {:?} / {:?}", d.side, d.got, d.expected)),
        None if refusal > 0 => Err(format!("refused {refusal}")),
        None => Ok(plain::answer(sheet)),
    }
}

fn is<T: PartialEq + std::fmt::Debug>(what: &str, got: T, expected: T) -> Result<(), String> {
    if got == expected { Ok(()) } else { Err(format!("{what}: {got:?}, not {expected:?}")) }
}

/// What the real walks of an accepted sheet leave.
fn traced(sheet: &Sheet) -> Trace {
    trace(sheet, build(sheet).expect("the sheet is accepted"))
}

/// The identifiers accepted by a walk, in order.
fn accepted(sheet: &Sheet, walk: usize) -> Vec<u32> {
    let traced = traced(sheet);
    traced.walks[walk].accepted.iter().map(|s| s.identifier).collect()
}

/// The ranges before the pass over operands.
fn ranges_before(sheet: &Sheet) -> Vec<(u32, u32)> {
    let ends = traced(sheet).ends;
    sheet.identifiers.iter().zip(ends).map(|(i, end)| (i.start, end)).collect()
}

pub fn case_1_words() -> Vec<u32> {
    CASE_1.split_whitespace().filter_map(|w| w.parse().ok()).collect()
}

fn case_1() -> Result<(), String> {
    let sheet = plain::read(&case_1_words()).map_err(|r| format!("refused {r}"))?;
    is("ranges before the pass", ranges_before(&sheet), RANGES_1.to_vec())?;
    is("lines", agreed(&sheet)?.lines(), ANSWER_1.lines().map(String::from).collect())
}

/// The two sheets of case 2. Cases 8 and 9 use the first one too.
pub fn without_blocks() -> [Sheet; 2] {
    [sheet(1, &[], 0, Vec::new()), sheet(3, &[0, 1], 2, Vec::new())]
}

fn case_2() -> Result<(), String> {
    let [first, second] = without_blocks();
    let answer = agreed(&first)?;
    is("effects", answer.effects, vec![one(9, 0)])?;
    is("walks", answer.walks, vec![1])?;
    let answer = agreed(&second)?;
    is("effects", answer.effects, vec![one(9, 2), two(5, 1, 0)])
}

/// The sheets of cases 3 to 7, in order; case 6 has two.
pub fn graph_sheets() -> [Sheet; 6] {
    let (x, y, p) = (0, 1, 2);
    let mut first = block(0, &[one(1, x), two(6, x, y)]);
    first.phis.push(Phi { place: place(p), operands: vec![(1, place(x))] });
    let joined = |mutated| {
        let mut last = block(2, &[one(1, mutated)]);
        last.phis.push(Phi { place: place(p), operands: vec![(0, place(0)), (1, place(1))] });
        sheet(4, &[0, 1], 3, vec![block(0, &[]), block(1, &[]), last])
    };
    let effects = [two(6, 0, 1), two(7, 0, 1), one(1, 0)];
    [
        sheet(3, &[], 2, vec![block(0, &[two(10, 0, 1), one(1, 1)])]),
        sheet(3, &[0, 1], 2, vec![block(0, &[two(5, 0, 1), one(1, 1)])]),
        sheet(4, &[x, y], 3, vec![first, block(1, &[])]),
        joined(0),
        joined(p),
        sheet(3, &[0, 1], 2, vec![block(0, &effects)]),
    ]
}

fn case_3() -> Result<(), String> {
    let [sheet, ..] = graph_sheets();
    let answer = agreed(&sheet)?;
    is("entries", answer.walks[0], 2)?;
    let ranges = ranges_before(&sheet);
    is("end of 0", ranges[0].1, 0)?;
    is("end of 1", ranges[1].1, 3)
}

fn case_4() -> Result<(), String> {
    let [_, sheet, ..] = graph_sheets();
    let answer = agreed(&sheet)?;
    is("entries", answer.walks[0], 1)?;
    is("accepted", accepted(&sheet, 0), vec![1])?;
    is("end of 0", ranges_before(&sheet)[0].1, 0)
}

fn case_5() -> Result<(), String> {
    let [_, _, sheet, ..] = graph_sheets();
    let answer = agreed(&sheet)?;
    is("entries", answer.walks[0], 1)?;
    is("end of the phi", ranges_before(&sheet)[2].1, 0)?;
    let built = build(&sheet).map_err(|refusal| format!("refused {refusal}"))?;
    let edges = &built.nodes[0].as_ref().ok_or("x has no node")?.edges;
    is("stored order", edges.iter().map(|e| e.index).collect(), vec![2, 0])
}

fn case_6() -> Result<(), String> {
    let [_, _, _, from_operand, from_phi, _] = graph_sheets();
    for (sheet, entries, reached) in [(from_operand, 2, vec![0, 2]), (from_phi, 5, vec![2, 1, 0])] {
        is("entries", agreed(&sheet)?.walks[0], entries)?;
        is("accepted", accepted(&sheet, 0), reached)?;
    }
    Ok(())
}

fn case_7() -> Result<(), String> {
    let [.., sheet] = graph_sheets();
    is("entries", agreed(&sheet)?.walks[0], 7)?;
    is("accepted", accepted(&sheet, 0), vec![0, 1, 1])
}

fn case_8() -> Result<(), String> {
    let words = without_blocks()[0].words();
    let mut caller = [u32::MAX];
    for serial in [Some(u32::MAX), Some(0)] {
        is("serial", plain::turn(&mut caller, 0, &words, WORKSPACE_WORDS, 16_384).1, serial)?;
    }
    is("refused", plain::turn(&mut caller, 0, &words, 0, 16_384).1, None)?;
    is("record", caller, [1])
}

fn refusal(call: &Call) -> Result<u32, String> {
    match compare(call, &mut []) {
        (refusal, None) => Ok(refusal),
        (_, Some(difference)) => Err(format!("{difference:?}")),
    }
}

/// Sheets that hold 1,024 relations, each before one that would hold 1,025.
fn relation_sheets() -> [Sheet; 6] {
    let mut random = Random::new(9);
    let mut made = |make: fn(&mut Random, Limit) -> Sheet, limit| make(&mut random, limit);
    [
        made(generate::at_limit, Limit::Relations),
        made(generate::past_limit, Limit::Relations),
        made(generate::at_limit, Limit::PhiRelations),
        made(generate::past_limit, Limit::PhiRelations),
        made(generate::at_limit, Limit::Entries),
        made(generate::past_limit, Limit::Entries),
    ]
}

fn case_9() -> Result<(), String> {
    let good = roomy(&without_blocks()[0].words());
    let workspace = |workspace| Call { workspace, ..good.clone() };
    is("workspace 16,383", refusal(&workspace(16_383))?, 1)?;
    is("workspace 16,384", refusal(&workspace(16_384))?, 0)?;
    for pair in relation_sheets().chunks(2) {
        let held = build(&pair[0]).map(|built| built.held.larger());
        is("held", held, Ok(1_024))?;
        is("1,024 held", refusal(&roomy(&pair[0].words()))?, 0)?;
        is("1,025 held", refusal(&roomy(&pair[1].words()))?, 8)?;
    }
    is("room as the answer", refusal(&Call { room: Room::Exact, ..good.clone() })?, 0)?;
    is("one answer word short", refusal(&Call { room: Room::Short(1), ..good.clone() })?, 9)?;
    let Outcome::Accepted(words) = plain::outcome(&good.sheet, good.workspace, usize::MAX) else {
        return Err("refused".into());
    };
    is("answer", words, vec![1, 0, 0, 0, 0, 0, 1, 9, 0, 0, 0, 0, 0, 0, 0, 1, 1, 0, 0, 0, 0])
}

/// Every limit: met exactly it is accepted, passed by one it is refused.
fn limits() -> Result<(), String> {
    let mut random = Random::new(10);
    for limit in LIMITS {
        let at = generate::at_limit(&mut random, limit);
        is(&format!("{limit:?} met"), refusal(&roomy(&at.words()))?, 0)?;
        let totals = at.totals();
        match limit {
            Limit::Mutations => is("mutations", totals.mutations, 512)?,
            Limit::Renders => is("renders", totals.renders, 256)?,
            Limit::Words => is("words", at.words().len(), 16_384)?,
            _ => {}
        }
    }
    for limit in PASSABLE {
        let past = generate::past_limit(&mut random, limit).words();
        let expected = match limit {
            Limit::Words => 2,
            Limit::Relations
            | Limit::PhiRelations
            | Limit::Entries
            | Limit::Mutations
            | Limit::Renders => 8,
            _ => 4,
        };
        is(&format!("{limit:?} passed"), refusal(&roomy(&past))?, expected)?;
    }
    Ok(())
}

/// For one word the lower number, and the first faulty word decides: sheets with their refusals.
fn ordered_sheets() -> Vec<(&'static str, Vec<u32>, u32)> {
    let good = sheet(1, &[], 0, vec![block(7, &[]), block(8, &[])]).words();
    // The words of the second block: number, phis, instructions, terminal, order, operands.
    let number = good.len() - 6;
    let with = |changes: &[(usize, u32)], length: usize| {
        let mut words = good.clone();
        changes.iter().for_each(|&(at, word)| words[at] = word);
        words.resize(length, 0);
        words
    };
    let whole = good.len();
    let apply = Effect { kind: APPLY, ..Effect::default() };
    let applied = sheet(1, &[], 0, vec![block(0, &[one(1, 0)]), block(1, &[apply])]).words();
    let mut in_terminal = sheet(1, &[], 0, vec![block(0, &[])]);
    in_terminal.blocks[0].terminal = Terminal::MaybeThrow { order: 2, effects: vec![apply] };
    let applied_longer = applied.iter().copied().chain([0]).collect();
    vec![
        ("good", with(&[], whole), 0),
        ("number again", with(&[(number, 7)], whole), 6),
        ("number past its range", with(&[(number, 65_536)], whole), 5),
        ("6 before 4", with(&[(number, 7), (number + 1, 1_025)], whole), 6),
        ("4 before 5", with(&[(number + 1, 1_025), (number + 3, 3)], whole), 4),
        ("5 before 3", with(&[(number + 3, 3)], whole - 1), 5),
        ("3", with(&[], whole - 1), 3),
        ("5 before 7", with(&[(number + 4, 1_000_000)], whole + 1), 5),
        ("7", with(&[], whole + 1), 7),
        ("2 before all others", with(&[(0, 9)], 16_385), 2),
        ("7 up to 16,384 words", with(&[], 16_384), 7),
        ("flags 3", with(&[(0, 3)], whole), 4),
        ("empty", with(&[], 0), 3),
        ("Apply in a terminal", in_terminal.words(), 0),
        ("10", applied, 10),
        ("7 before 10", applied_longer, 7),
    ]
}

fn refusal_order() -> Result<(), String> {
    let sheets = ordered_sheets();
    for (name, words, expected) in &sheets {
        is(name, refusal(&roomy(words))?, *expected)?;
    }
    let find = |name| sheets.iter().find(|sheet| sheet.0 == name).ok_or("no such sheet");
    let (_, longer, _) = find("7")?;
    let (_, applied, _) = find("10")?;
    is("10 before 9", refusal(&Call { room: Room::None, ..roomy(applied) })?, 10)?;
    is("1 before 10", refusal(&Call { workspace: 0, ..roomy(applied) })?, 1)?;
    is("1 before 7", refusal(&Call { workspace: 0, ..roomy(longer) })?, 1)?;
    let past = generate::past_limit(&mut Random::new(1), Limit::Renders).words();
    is("8", refusal(&roomy(&past))?, 8)?;
    is("8 before 9", refusal(&Call { room: Room::None, ..roomy(&past) })?, 8)?;
    is("1 before 8", refusal(&Call { workspace: 0, ..roomy(&past) })?, 1)
}

/// Every word at the end of its range and one past it.
fn words_in_range() -> Result<(), String> {
    let sheets = boundaries::all();
    sheets.iter().try_for_each(|s| is(&s.name, refusal(&roomy(&s.words))?, s.refusal))
}

/// Totals met and passed, with a fault before, at and behind the word that passes.
fn totals_passed() -> Result<(), String> {
    let sheets = totals::all();
    sheets.iter().try_for_each(|s| is(&s.name, refusal(&roomy(&s.words))?, s.refusal))
}

/// What is held: met and passed, and how it stands among the refusals.
fn relations_held() -> Result<(), String> {
    for sheet in held::all() {
        is(&sheet.name, refusal(&roomy(&sheet.words))?, sheet.refusal)?;
        // The drawing gives this 8 too, and never 10.
        let drawn = plain::dot::judge(&sheet.words).err().unwrap_or(0);
        let expected = if sheet.refusal == 10 { 0 } else { sheet.refusal };
        is(&format!("{}, drawn", sheet.name), drawn, expected)?;
        let room = |room| Call { room, ..roomy(&sheet.words) };
        let short = if sheet.refusal == 0 { 9 } else { sheet.refusal };
        is(&format!("{}, no room", sheet.name), refusal(&room(Room::None))?, short)?;
    }
    for (name, sheet, walks) in held::walks() {
        is(name, agreed(&sheet)?.walks, walks)?;
    }
    for (name, sheet, edges, entries) in held::numbers() {
        let held = build(&sheet).map(|built| (built.held.edges, built.held.entries));
        is(name, held, Ok((edges, entries)))?;
    }
    Ok(())
}

/// The words of every sheet above but those of the totals and of what is held; the first one is case
/// 1's.
pub fn sheets() -> Vec<Vec<u32>> {
    let made = without_blocks().into_iter().chain(graph_sheets()).chain(relation_sheets());
    let mut sheets = vec![case_1_words()];
    sheets.extend(made.map(|sheet| sheet.words()));
    sheets.extend(ordered_sheets().into_iter().map(|(_, words, _)| words));
    sheets.extend(boundaries::all().into_iter().map(|boundary| boundary.words));
    sheets
}

type Case = fn() -> Result<(), String>;

pub const FURTHER: [(&str, Case); 6] = [
    ("limits", limits),
    ("refusal order", refusal_order),
    ("words in range", words_in_range),
    ("totals", totals_passed),
    ("held", relations_held),
    ("callers", callers::cases),
];

pub const CASES: [Case; 9] =
    [case_1, case_2, case_3, case_4, case_5, case_6, case_7, case_8, case_9];
