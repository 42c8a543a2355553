//! The comparison of one call: the plain reader decides, every other side is
//! held to it.

use std::panic::{AssertUnwindSafe, catch_unwind};

use crate::damage::{Call, Room};
use crate::original_side::{self, Answered};
use crate::plain::building::{Built, Held};
use crate::plain::walks::{render, trace};
use crate::plain::{self, Outcome, Whole, sheet};

/// A further side of the comparison, such as our own library. It answers every
/// call, refusals 1 and 9 included, with all ten sections.
pub trait Side {
    fn name(&self) -> &'static str;

    /// What the call of one of its callers gave, or what is wrong with the buffers or the records that
    /// it left.
    fn outcome(
        &mut self,
        sheet: &[u32],
        workspace_len: usize,
        answer_len: usize,
    ) -> Result<Outcome, String>;

    /// The same for a caller outside the records; none if the side has no records.
    fn outside(&mut self, _: &[u32], _: usize, _: usize) -> Option<Result<Outcome, String>> {
        None
    }
}

/// A difference between a side and the plain reader, or the original.
#[derive(Debug, Clone)]
pub struct Difference {
    pub side: &'static str,
    pub expected: Vec<String>,
    pub got: Vec<String>,
}

/// The outcome in the program's lines.
pub fn lines(outcome: &Outcome) -> Vec<String> {
    match outcome {
        Outcome::Refused(number) => vec![format!("refused {number}")],
        Outcome::Accepted(words) => words_in_lines(words),
    }
}

/// The sections of an answer's words; words that make no section come last.
fn words_in_lines(words: &[u32]) -> Vec<String> {
    let sections = [
        ("ranges", 2),
        ("params", 3),
        ("context", 3),
        ("diagnostics", 2),
        ("effects", 8),
        ("walks", 1),
        ("phis", 3),
        ("instructions", 3),
        ("terminals", 3),
        ("inner", 3),
    ];
    let mut lines = Vec::new();
    let mut rest = words;
    for (name, size) in sections {
        let Some((&count, after)) = rest.split_first() else { break };
        let length = (count as usize).saturating_mul(size).min(after.len());
        let words: String = after[..length].iter().map(|w| format!(" {w}")).collect();
        lines.push(format!("{name} {count}{words}"));
        rest = &after[length..];
    }
    if !rest.is_empty() {
        lines.push(format!("more {rest:?}"));
    }
    lines
}

/// The original's lines, all but the walks, or why there are none. Where it has nothing of its own
/// to say they are the plain reader's.
pub fn original_lines(sheet: &sheet::Sheet) -> Vec<String> {
    match original_answer(sheet) {
        Ok(Some(original)) => without_walks(&original.filled(&plain::answer(sheet))),
        Ok(None) => vec!["an Apply is met".to_string()],
        Err(message) => vec![message],
    }
}

pub fn without_walks(answer: &plain::Answer) -> Vec<String> {
    let mut lines = answer.lines();
    lines.retain(|line| !line.starts_with("walks"));
    lines
}

/// What the original leaves, none if it meets an Apply; or its panic.
fn original_answer(sheet: &sheet::Sheet) -> Result<Option<Answered>, String> {
    or_panic(|| original_side::answer(sheet))
}

/// What is asked of the original, or its panic.
pub fn or_panic<T>(asked: impl FnOnce() -> T) -> Result<T, String> {
    catch_unwind(AssertUnwindSafe(asked)).map_err(|panic| {
        let text = panic
            .downcast_ref::<String>()
            .cloned()
            .or_else(|| panic.downcast_ref::<&str>().map(|s| s.to_string()))
            .unwrap_or_default();
        format!("panic: {text}")
    })
}

/// The plain reader's answer held to the original's, to the bound of a walk, and its reading of
/// the sheet to the sheet's words. The original's has been filled from the plain reader's where
/// it has nothing of its own to say.
fn compare_answers(
    words: &[u32],
    sheet: &sheet::Sheet,
    held: Held,
    plain: &plain::Answer,
    original: &Result<plain::Answer, String>,
) -> Option<Difference> {
    let difference = |side, expected, got| Some(Difference { side, expected, got });
    match original {
        Ok(original) if original == plain => {}
        Ok(original) => return difference("original", plain.lines(), without_walks(original)),
        Err(message) => return difference("original", plain.lines(), vec![message.clone()]),
    }
    // Every walk ends after at most 4R + 1 entries, R the larger of the numbers held after building.
    let bound = 4 * held.larger() as u32 + 1;
    if plain.walks.iter().any(|&w| w > bound) {
        return difference("bound of a walk", vec![format!("at most {bound}")], plain.lines());
    }
    if sheet.words() != words {
        let (read, given) = (format!("{:?}", sheet.words()), format!("{words:?}"));
        return difference("words of the sheet as read", vec![given], vec![read]);
    }
    None
}

/// How many entries the longest walk of a render takes.
fn most_rendered(sheet: &sheet::Sheet, built: &Built) -> u32 {
    if built.renders.is_empty() {
        return 0;
    }
    let built = trace(sheet, built.clone()).built;
    built.renders.iter().map(|of| render(&built, of).taken).max().unwrap_or(0)
}

/// The walk of a render follows entries alone, each once: R + 1 at most.
fn render_bound(held: Held, most: u32) -> Option<Difference> {
    let bound = held.entries as u32 + 1;
    let told = |count| vec![format!("{count} entries")];
    let side = "bound of a render's walk";
    (most > bound).then(|| Difference { side, expected: told(bound), got: told(most) })
}

/// The original ends with an error on a sheet with an Apply.
fn compare_apply(sheet: &sheet::Sheet) -> Option<Difference> {
    let got = match original_answer(sheet) {
        Ok(None) => return None,
        Ok(Some(original)) => without_walks(&original.answer),
        Err(message) => vec![message],
    };
    Some(Difference { side: "original", expected: vec!["refused 10".into()], got })
}

/// A number that varies from call to call, for the choice of lengths.
pub fn varied(call: &Call, result: Option<usize>) -> usize {
    call.sheet.len() + 31 * result.unwrap_or(0)
}

/// The lengths at which a call is made: workspace and buffer for the result. The first are the call's
/// own; then a buffer that is full, one short, and longer.
pub fn lengths(call: &Call, result: Option<usize>) -> Vec<(usize, usize)> {
    let vary = varied(call, result);
    let longer = sheet::WORKSPACE_WORDS + vary % 257;
    let far = [1, 8, 61, 3_000][vary % 4];
    let mut lengths = vec![(call.workspace, call.room.words(result.unwrap_or(0)))];
    match result {
        Some(full) => {
            lengths.push((sheet::WORKSPACE_WORDS, full));
            lengths.push((longer, full.saturating_sub(1)));
            lengths.push((longer, full + far));
        }
        None => lengths.push((longer, far)),
    }
    lengths.dedup();
    lengths
}

/// One side for a caller outside the records, at lengths at which others are refused 1, refused 9 or
/// accepted: 11 all the same.
fn compare_outside(side: &mut dyn Side, call: &Call, full: usize) -> Option<Difference> {
    let (workspace, room) = [
        (call.workspace, call.room.words(full)),
        (sheet::WORKSPACE_WORDS - 1, full),
        (0, 0),
        (sheet::WORKSPACE_WORDS + 7, full + 61),
    ][varied(call, Some(full)) % 4];
    let got = side.outside(&call.sheet, workspace, room)?;
    if got == Ok(Outcome::Refused(11)) {
        return None;
    }
    let lent = format!("outside the records, workspace {workspace}, answer buffer {room}");
    let got = got.as_ref().map_or_else(|message| vec![message.clone()], lines);
    Some(Difference { side: side.name(), expected: vec![lent, "refused 11".into()], got })
}

/// One side at one call's lengths, held to the plain reader and to the original.
fn compare_side(
    side: &mut dyn Side,
    sheet: &[u32],
    (workspace, room): (usize, usize),
    judged: &Result<Vec<u32>, u32>,
    original: Option<&[u32]>,
) -> Option<Difference> {
    let expected = plain::lend(judged.clone(), workspace, room);
    let got = side.outcome(sheet, workspace, room);
    let of_original = match (&got, original) {
        (Ok(Outcome::Accepted(words)), Some(original)) => words == original,
        _ => true,
    };
    if of_original && got.as_ref() == Ok(&expected) {
        return None;
    }
    let lent = format!("workspace {workspace}, answer buffer {room}");
    let got = got.as_ref().map_or_else(|message| vec![message.clone()], lines);
    Some(Difference { side: side.name(), expected: [vec![lent], lines(&expected)].concat(), got })
}

/// The refusal of a call (0 if it is accepted) and the first difference.
pub fn compare(call: &Call, sides: &mut [Box<dyn Side>]) -> (u32, Option<Difference>) {
    let mut difference = None;
    let mut original_words = None;
    let judged = match plain::read_whole(&call.sheet) {
        Ok(Whole { sheet, built, verdict: 0 }) => {
            let held = built.held;
            let rendered = most_rendered(&sheet, &built);
            let plain = plain::answer_of(&sheet, built);
            let original = original_answer(&sheet).and_then(|answered| {
                let answered = answered.ok_or("an Apply is met")?;
                Ok(answered.filled(&plain))
            });
            difference = compare_answers(&call.sheet, &sheet, held, &plain, &original);
            difference = difference.or_else(|| render_bound(held, rendered));
            original_words = original.ok().map(|answer| answer.words());
            Ok(plain.words())
        }
        Ok(Whole { sheet, verdict, .. }) => {
            difference = compare_apply(&sheet);
            Err(verdict)
        }
        Err(refusal) => Err(refusal),
    };
    let lengths = lengths(call, judged.as_ref().ok().map(Vec::len));
    for side in sides {
        for &lent in &lengths {
            let original = original_words.as_deref();
            let of_side = compare_side(side.as_mut(), &call.sheet, lent, &judged, original);
            difference = difference.or(of_side);
        }
        let full = judged.as_ref().map_or(0, Vec::len);
        difference = difference.or(compare_outside(side.as_mut(), call, full));
    }
    let (workspace, room) = lengths[0];
    let refusal = match plain::lend(judged, workspace, room) {
        Outcome::Refused(number) => number,
        Outcome::Accepted(_) => 0,
    };
    (refusal, difference)
}

// =============================================================================
// Shrinking
// =============================================================================

/// Smaller variants of a sheet's parts, largest steps first.
fn smaller(sheet: &sheet::Sheet) -> Vec<sheet::Sheet> {
    use sheet::Terminal;
    let mut all = Vec::new();
    let mut with = |change: &dyn Fn(&mut sheet::Sheet)| {
        let mut copy = sheet.clone();
        change(&mut copy);
        if copy != *sheet {
            all.push(copy);
        }
    };
    for b in 0..sheet.blocks.len() {
        with(&|s| _ = s.blocks.remove(b));
    }
    for (b, block) in sheet.blocks.iter().enumerate() {
        for i in 0..block.instructions.len() {
            with(&|s| _ = s.blocks[b].instructions.remove(i));
        }
        for p in 0..block.phis.len() {
            with(&|s| _ = s.blocks[b].phis.remove(p));
        }
        with(&|s| s.blocks[b].terminal = Terminal::Other { order: 0, operands: Vec::new() });
        for (i, instruction) in block.instructions.iter().enumerate() {
            for e in 0..instruction.listed().len() {
                with(&|s| {
                    let effects = &mut s.blocks[b].instructions[i].effects;
                    effects.as_mut().map(|effects| effects.remove(e));
                });
            }
            for l in 0..instruction.lvalues.len() {
                with(&|s| _ = s.blocks[b].instructions[i].lvalues.remove(l));
            }
            for o in 0..instruction.operands.len() {
                with(&|s| _ = s.blocks[b].instructions[i].operands.remove(o));
            }
            with(&|s| {
                let smaller = &mut s.blocks[b].instructions[i];
                smaller.value = sheet::Value::Plain;
                smaller.lvalues.clear();
                smaller.operands.clear();
            });
        }
        if let Terminal::Other { operands, .. } = &block.terminal {
            for o in 0..operands.len() {
                with(&|s| {
                    if let Terminal::Other { operands, .. } = &mut s.blocks[b].terminal {
                        operands.remove(o);
                    }
                });
            }
        }
        for (p, phi) in block.phis.iter().enumerate() {
            for o in 0..phi.operands.len() {
                with(&|s| _ = s.blocks[b].phis[p].operands.remove(o));
            }
        }
        for e in 0..block.terminal.effects().len() {
            with(&|s| match &mut s.blocks[b].terminal {
                Terminal::Return { effects, .. } | Terminal::MaybeThrow { effects, .. } => {
                    effects.remove(e);
                }
                Terminal::Other { .. } => {}
            });
        }
    }
    for i in 0..sheet.params.len() {
        with(&|s| _ = s.params.remove(i));
    }
    for i in 0..sheet.context.len() {
        with(&|s| _ = s.context.remove(i));
    }
    with(&|s| _ = s.identifiers.pop());
    // The last identifier becomes another one.
    let last = sheet.identifiers.len() as u32 - 1;
    for other in 0..last {
        with(&|s| {
            s.identifiers.pop();
            for place in s.places_mut() {
                if place.identifier == last {
                    place.identifier = other;
                }
            }
        });
    }
    with(&|s| _ = s.functions.pop());
    for f in 0..sheet.functions.len() {
        with(&|s| _ = s.functions[f].diagnostics.pop());
        with(&|s| _ = s.functions[f].context.pop());
    }
    all
}

/// Variants of words: parts taken out, single words set to 0 or halved.
fn smaller_words(words: &[u32]) -> Vec<Vec<u32>> {
    let mut all = Vec::new();
    let mut length = words.len() / 2;
    while length > 0 {
        for start in (0..words.len()).step_by(length) {
            let mut copy = words.to_vec();
            copy.drain(start..(start + length).min(words.len()));
            all.push(copy);
        }
        length /= 2;
    }
    for at in 0..words.len() {
        if words[at] > 0 {
            for less in [0, words[at] / 2, words[at] - 1] {
                let mut copy = words.to_vec();
                copy[at] = less;
                all.push(copy);
            }
        }
    }
    all
}

/// The smallest call found that still differs.
pub fn shrink(call: &Call, mut differs: impl FnMut(&Call) -> bool) -> Call {
    let mut best = call.clone();
    let mut tries = 20_000;
    loop {
        let mut variants: Vec<Vec<u32>> = Vec::new();
        if let Ok(sheet) = sheet::read_words(&best.sheet) {
            variants.extend(smaller(&sheet).iter().map(sheet::Sheet::words));
        }
        if best.sheet.len() < 2_000 {
            variants.extend(smaller_words(&best.sheet));
        }
        let next = variants.into_iter().find(|words| {
            tries -= 1;
            tries > 0 && differs(&Call { sheet: words.clone(), ..best })
        });
        match next {
            Some(words) => best.sheet = words,
            None => return best,
        }
    }
}

/// A call with enough room.
pub fn roomy(sheet: &[u32]) -> Call {
    Call { sheet: sheet.to_vec(), workspace: sheet::WORKSPACE_WORDS, room: Room::Exact }
}

#[cfg(test)]
mod tests {
    use super::*;
    use crate::generate;
    use crate::random::Random;

    /// Answers like the plain reader, but forgets the last word if there is a phi.
    struct Faulty;

    impl Side for Faulty {
        fn name(&self) -> &'static str {
            "faulty"
        }
        fn outcome(
            &mut self,
            words: &[u32],
            workspace_len: usize,
            answer_len: usize,
        ) -> Result<Outcome, String> {
            let outcome = plain::outcome(words, workspace_len, answer_len);
            let phi = plain::read(words).is_ok_and(|s| s.blocks.iter().any(|b| !b.phis.is_empty()));
            Ok(match outcome {
                Outcome::Accepted(mut words) if phi => {
                    words.pop();
                    Outcome::Accepted(words)
                }
                other => other,
            })
        }
    }

    #[test]
    fn a_fault_is_found_and_shrunk() {
        let mut sides: Vec<Box<dyn Side>> = vec![Box::new(Faulty)];
        let mut random = Random::new(1);
        let call = (0..1_000)
            .map(|_| roomy(&generate::sheet(&mut random).words()))
            .find(|call| compare(call, &mut sides).1.is_some())
            .expect("sheets with a phi come up");
        let small = shrink(&call, |call| {
            compare(call, &mut sides).1.is_some_and(|difference| difference.side == "faulty")
        });
        let sheet = plain::read(&small.sheet).expect("it is accepted");
        // One identifier, one block, one phi without operands.
        assert_eq!(sheet.identifiers.len(), 1);
        assert_eq!(small.sheet.len(), 25);
        assert!(small.sheet.iter().sum::<u32>() <= 8, "{:?}", small.sheet);
    }
}
