//! The program `ranges` on files: what it prints, held to the plain reader.

use std::fs::File;
use std::path::Path;
use std::process::{Command, Stdio};

use crate::compare::{Difference, compare, lines, roomy};
use crate::damage::damaged;
use crate::dense::{block, place, sheet};
use crate::generate::{self, Limit};
use crate::plain::sheet::{
    Diagnostic, Effect, InnerFunction, MAX_FUNCTION_DIAGNOSTICS, Sheet, Terminal,
};
use crate::plain::{self, Outcome};
use crate::random::Random;

/// The answer words that the program lends.
const ROOM: usize = 16_384;

/// Words of a sheet file; a cut last word is filled up with zeros.
pub fn file_words(bytes: &[u8]) -> Vec<u32> {
    let word = |part: &[u8]| {
        let mut four = [0; 4];
        four[..part.len()].copy_from_slice(part);
        u32::from_le_bytes(four)
    };
    bytes.chunks(4).map(word).collect()
}

pub fn bytes(words: &[u32]) -> Vec<u8> {
    words.iter().flat_map(|w| w.to_le_bytes()).collect()
}

// =============================================================================
// Files
// =============================================================================

/// A file that the program is run on whatever the seed, with its refusal, or 0.
pub struct Fixed {
    pub name: String,
    pub bytes: Vec<u8>,
    refusal: u32,
}

/// A sheet with an answer of so many words. A render adds its effect and the diagnostics of the
/// function node that it finds: the first node has as many as may be, the second what is missing.
/// A mutation of an identifier without a node adds one word, its walk.
fn answered_in(words: usize) -> Sheet {
    const EFFECT: usize = 8;
    const FULL: usize = MAX_FUNCTION_DIAGNOSTICS as usize;
    // Ten counts, four ranges, Create for returns, its walk, and the lvalue of one instruction.
    let rest = words - (10 + 4 * 2 + EFFECT + 1 + 3) - EFFECT;
    let (rest, odd) = (rest - rest % 2, rest % 2);
    let (renders, last) = (rest / (EFFECT + 2 * FULL), rest % (EFFECT + 2 * FULL) / 2);
    let diagnostics = |from: usize, count: usize| {
        let diagnostic = |i| Diagnostic { identity: i as u32, instance: 2 * i as u32 };
        let diagnostics = (from..from + count).map(diagnostic).collect();
        InnerFunction { diagnostics, context: Vec::new() }
    };
    let function = |n| Effect { kind: 13, first: place(n), extra: n as u32, ..Effect::default() };
    let render = |n| Effect { kind: 17, first: place(n), ..Effect::default() };
    let mut effects = vec![function(0), function(1), render(1)];
    effects.extend(vec![render(0); renders]);
    effects.extend(vec![Effect { kind: 1, first: place(2), ..Effect::default() }; odd]);
    Sheet {
        functions: vec![diagnostics(0, FULL), diagnostics(100, last)],
        params: Vec::new(),
        ..sheet(4, vec![block(0, Vec::new(), &effects)])
    }
}

/// A sheet whose last word is a span, which may be any, of an operand of its terminal.
fn ending_in_span() -> Sheet {
    let mut last = block(0, Vec::new(), &[]);
    last.terminal = Terminal::Other { order: 1, operands: vec![place(0)] };
    sheet(1, vec![last])
}

/// A sheet whose last word is the operand count of a MaybeThrow, which is fixed at 0.
fn ending_in_count() -> Sheet {
    let mut last = block(0, Vec::new(), &[]);
    last.terminal = Terminal::MaybeThrow { order: 1, effects: Vec::new() };
    sheet(1, vec![last])
}

/// Answers as long as the lent words and one word longer; a last word of which no byte, some and
/// all are there; a sheet of 16,384 words, and more bytes behind it.
pub fn fixed() -> Result<Vec<Fixed>, String> {
    let mut files = Vec::new();
    let mut put = |name: String, bytes, refusal| files.push(Fixed { name, bytes, refusal });
    for (words, refusal) in [(ROOM, 0), (ROOM + 1, 9)] {
        let sheet = answered_in(words);
        let got = plain::answer(&sheet).words().len();
        if got != words {
            return Err(format!("an answer of {got} words was made for {words}"));
        }
        put(format!("an answer of {words} words"), bytes(&sheet.words()), refusal);
    }
    let ending = |sheet: Sheet, last: &[u8]| {
        let whole = bytes(&sheet.words());
        [&whole[..whole.len() - 4], last].concat()
    };
    put("no byte of the last word".into(), ending(ending_in_count(), &[]), 3);
    for count in 1..=4 {
        let mut last = vec![0; count];
        put(format!("the last word is 0, in {count} bytes"), ending(ending_in_count(), &last), 0);
        last[count - 1] += 1;
        let name = format!("byte {count} of the last word is the last and too large");
        put(name, ending(ending_in_count(), &last), 4);
        let name = format!("byte {count} of a span is the last, and shown");
        put(name, ending(ending_in_span(), &last), 0);
    }
    let full = bytes(&generate::at_limit(&mut Random::new(1), Limit::Words).words());
    for more in 0..=4 {
        let longer = [&full[..], &[0; 4][..more]].concat();
        put(format!("16,384 words and {more} bytes"), longer, if more > 0 { 2 } else { 0 });
    }
    for file in &files {
        file.check()?;
    }
    Ok(files)
}

impl Fixed {
    /// The plain reader refuses the file as it is said here, and agrees with the original.
    fn check(&self) -> Result<(), String> {
        let words = file_words(&self.bytes);
        let refusal = match plain::outcome(&words, ROOM, ROOM) {
            Outcome::Refused(number) => number,
            Outcome::Accepted(_) => 0,
        };
        if refusal != self.refusal {
            return Err(format!("{}: refusal {refusal}, not {}", self.name, self.refusal));
        }
        match compare(&roomy(&words), &mut []).1 {
            None => Ok(()),
            Some(difference) => Err(format!("{}: {difference:?}", self.name)),
        }
    }
}

/// A file: a sheet, accepted or damaged, at times with a cut word or more words than any sheet has.
pub fn made(random: &mut Random) -> Vec<u8> {
    let words = match random.percent(50) {
        true => generate::sheet(random).words(),
        false => damaged(random).sheet,
    };
    let mut bytes = bytes(&words);
    match random.below(20) {
        0..3 => bytes.truncate(bytes.len() - random.below(4).min(bytes.len())),
        3..6 => bytes.extend(vec![random.below(2) as u8; random.between(1, 3)]),
        6 => bytes.resize(4 * random.between(16_380, 16_390) - random.below(4), 0),
        7 => bytes.resize(random.between(65_530, 300_000), 1),
        _ => {}
    }
    bytes
}

// =============================================================================
// Runs
// =============================================================================

/// The lines that the program prints on a file.
fn printed(program: &Path, file: &Path) -> std::io::Result<Vec<String>> {
    let output =
        Command::new(program).stdin(File::open(file)?).stderr(Stdio::inherit()).output()?;
    let mut lines: Vec<String> =
        String::from_utf8_lossy(&output.stdout).lines().map(String::from).collect();
    if !output.status.success() {
        lines.push(output.status.to_string());
    }
    Ok(lines)
}

/// One run on a file that is written to `place`: the words and the difference, if there is one.
pub fn compare_run(
    program: &Path,
    place: &Path,
    bytes: &[u8],
) -> std::io::Result<Option<(Vec<u32>, Difference)>> {
    std::fs::write(place, bytes)?;
    let got = printed(program, place)?;
    let words = file_words(bytes);
    let expected = lines(&plain::outcome(&words, ROOM, ROOM));
    if got == expected {
        return Ok(None);
    }
    Ok(Some((words, Difference { side: "program", expected, got })))
}
