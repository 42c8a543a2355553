//! A plain implementation of document 01 with the orders of document 02 that have landed,
//! in the order of their text. Lists and loops only; no thought of speed or of memory.

pub mod building;
pub mod dot;
pub mod operands;
pub mod sheet;
pub mod walks;

use building::{Built, Kind, Mutation, Node, build, records_errors};
use operands::{CAPTURE, pass};
use sheet::{
    Diagnostic, Effect, Place, Sheet, WORKSPACE_WORDS, put_diagnostic, put_effect, put_place,
    read_words,
};
use walks::{render, trace, walk};

/// A sheet that is not refused 2 to 8.
#[derive(Debug, Clone)]
pub struct Whole {
    pub sheet: Sheet,
    /// The graph that building leaves.
    pub built: Built,
    /// 0, or 10 for an Apply among an instruction's effects.
    pub verdict: u32,
}

/// The sheet with its graph and its verdict; or the refusal: 2 to 8 while reading, then 8 while
/// building.
pub fn read_whole(words: &[u32]) -> Result<Whole, u32> {
    let sheet = read_words(words)?;
    let built = build(&sheet)?;
    let verdict = if sheet.applies() { 10 } else { 0 };
    Ok(Whole { sheet, built, verdict })
}

/// The sheet's parts, or the refusal, 2 to 8 or 10.
pub fn read(words: &[u32]) -> Result<Sheet, u32> {
    let whole = read_whole(words)?;
    if whole.verdict == 0 { Ok(whole.sheet) } else { Err(whole.verdict) }
}

#[derive(Debug, Clone, PartialEq, Eq)]
pub enum Outcome {
    Refused(u32),
    Accepted(Vec<u32>),
}

/// The sections of an answer.
#[derive(Debug, Clone, PartialEq, Eq, Default)]
pub struct Answer {
    pub ranges: Vec<(u32, u32)>,
    pub params: Vec<Place>,
    pub context: Vec<Place>,
    pub diagnostics: Vec<Diagnostic>,
    pub effects: Vec<Effect>,
    pub walks: Vec<u32>,
    pub phis: Vec<Place>,
    pub instructions: Vec<Place>,
    pub terminals: Vec<Place>,
    pub inner: Vec<Place>,
}

impl Answer {
    /// The sections with their names, counts and words.
    pub fn sections(&self) -> [(&'static str, usize, Vec<u32>); 10] {
        let places = |places: &[Place]| {
            let mut words = Vec::new();
            places.iter().for_each(|p| put_place(&mut words, p));
            words
        };
        let ranges = self.ranges.iter().flat_map(|r| [r.0, r.1]).collect();
        let mut diagnostics = Vec::new();
        self.diagnostics.iter().for_each(|d| put_diagnostic(&mut diagnostics, d));
        let mut effects = Vec::new();
        self.effects.iter().for_each(|e| put_effect(&mut effects, e));
        [
            ("ranges", self.ranges.len(), ranges),
            ("params", self.params.len(), places(&self.params)),
            ("context", self.context.len(), places(&self.context)),
            ("diagnostics", self.diagnostics.len(), diagnostics),
            ("effects", self.effects.len(), effects),
            ("walks", self.walks.len(), self.walks.clone()),
            ("phis", self.phis.len(), places(&self.phis)),
            ("instructions", self.instructions.len(), places(&self.instructions)),
            ("terminals", self.terminals.len(), places(&self.terminals)),
            ("inner", self.inner.len(), places(&self.inner)),
        ]
    }

    pub fn words(&self) -> Vec<u32> {
        let mut words = Vec::new();
        for (_, count, section) in self.sections() {
            words.push(count as u32);
            words.extend(section);
        }
        words
    }

    /// A line for each section, as the program prints them.
    pub fn lines(&self) -> Vec<String> {
        let line = |(name, count, words): (&str, usize, Vec<u32>)| {
            let mut line = format!("{name} {count}");
            words.iter().for_each(|w| line.push_str(&format!(" {w}")));
            line
        };
        self.sections().map(line).to_vec()
    }
}

/// The records of a context variable or parameter as effects: local first.
fn record_effects(place: &Place, node: &Node) -> Vec<Effect> {
    let mut effects = Vec::new();
    let effect = |kind, span, extra| Effect {
        kind,
        first: Place { span, ..*place },
        second: Place::default(),
        extra,
    };
    match node.local {
        Some(r) if r.kind == Kind::Definite => effects.push(effect(1, r.span, node.reason)),
        Some(r) => effects.push(effect(2, r.span, 0)),
        None => {}
    }
    match node.transitive {
        Some(r) if r.kind == Kind::Definite => effects.push(effect(3, r.span, 0)),
        Some(r) => effects.push(effect(4, r.span, 0)),
        None => {}
    }
    effects
}

/// The place with its effect replaced, the reactive mark kept.
fn marked(place: &Place, effect: u32) -> Place {
    Place { traits: place.traits / 8 * 8 + effect, ..*place }
}

/// The answer of an accepted sheet.
pub fn answer(sheet: &Sheet) -> Answer {
    answer_of(sheet, build(sheet).expect("the sheet is accepted"))
}

/// The answer of an accepted sheet whose graph is built.
pub fn answer_of(sheet: &Sheet, built: Built) -> Answer {
    let errors = records_errors(sheet);
    let mut diagnostics = built.diagnostics.clone();
    let mut effects = built.effects.clone();
    let traced = trace(sheet, built);
    let (ends, mut built) = (traced.ends, traced.built);
    let mut counts: Vec<u32> = traced.walks.iter().map(|w| w.taken).collect();

    if errors {
        let mutated = traced.walks.iter().flat_map(|w| w.functions.clone());
        let rendered = built.renders.iter().flat_map(|r| render(&built, r).functions);
        for function in mutated.chain(rendered) {
            diagnostics.extend(&sheet.functions[function as usize].diagnostics);
        }
    }

    let node_of = |place: &Place| built.nodes[place.identifier as usize].as_ref();
    for place in sheet.context.iter().chain(&sheet.params) {
        effects.extend(node_of(place).map_or(Vec::new(), |n| record_effects(place, n)));
    }
    let mark = |place: &Place| {
        let recorded = node_of(place).is_some_and(|n| n.has_record());
        if recorded { marked(place, CAPTURE) } else { *place }
    };
    let params: Vec<Place> = sheet.params.iter().map(mark).collect();
    let context: Vec<Place> = sheet.context.iter().map(mark).collect();

    // 6 × reason + value kind: reason KnownReturnSignature is 0.
    let value_kind = match sheet.identifiers[sheet.returns.identifier as usize].type_ {
        1 => 2, // Primitive
        2 => 1, // Frozen
        _ => 0, // Mutable
    };
    effects.push(Effect {
        kind: 9,
        first: sheet.returns,
        second: Place::default(),
        extra: value_kind,
    });

    let returns = sheet.returns.identifier;
    let tracked: Vec<Place> =
        params.iter().chain(&context).chain([&sheet.returns]).copied().collect();
    for (into, index) in tracked.iter().zip(built.next_index..) {
        let simulated = Mutation {
            index,
            order: 0,
            kind: Kind::Conditional,
            transitive: true,
            place: *into,
            reason: 0,
        };
        counts.push(walk(&mut built, &simulated, None).taken);
        for from in params.iter().chain(&context) {
            if from.identifier == into.identifier || from.identifier == returns {
                continue;
            }
            let node = built.nodes[from.identifier as usize].as_ref();
            if node.expect("parameters and context have nodes").last == index {
                let kind = if into.identifier == returns { 6 } else { 5 };
                effects.push(Effect { kind, first: *from, second: *into, extra: 0 });
            }
        }
    }

    let passed = pass(sheet, ends);
    Answer {
        ranges: passed.ranges.iter().map(|r| (r.start, r.end)).collect(),
        params,
        context,
        diagnostics,
        effects,
        walks: counts,
        phis: passed.phis,
        instructions: passed.instructions,
        terminals: passed.terminals,
        inner: passed.contexts.concat(),
    }
}

/// What the sheet alone decides: the answer's words, or refusals 2 to 8 and 10.
pub fn judge(sheet: &[u32]) -> Result<Vec<u32>, u32> {
    Ok(answer(&read(sheet)?).words())
}

/// What is then decided by the lengths of the lent buffers.
pub fn lend(judged: Result<Vec<u32>, u32>, workspace_len: usize, answer_len: usize) -> Outcome {
    if workspace_len < WORKSPACE_WORDS {
        return Outcome::Refused(1);
    }
    match judged {
        Err(refusal) => Outcome::Refused(refusal),
        Ok(words) if answer_len < words.len() => Outcome::Refused(9),
        Ok(words) => Outcome::Accepted(words),
    }
}

/// The whole call of a caller that has a record, without its serial.
pub fn outcome(sheet: &[u32], workspace_len: usize, answer_len: usize) -> Outcome {
    lend(judge(sheet), workspace_len, answer_len)
}

/// The service's call for the caller at a position, on the callers' next serials (document 02, order
/// 9): 11 outside them, before all else. An accepted call takes its caller's next serial.
pub fn turn(
    callers: &mut [u32],
    position: usize,
    sheet: &[u32],
    workspace_len: usize,
    answer_len: usize,
) -> (Outcome, Option<u32>) {
    let Some(next) = callers.get_mut(position) else {
        return (Outcome::Refused(11), None);
    };
    let outcome = outcome(sheet, workspace_len, answer_len);
    match outcome {
        Outcome::Refused(_) => (outcome, None),
        Outcome::Accepted(_) => {
            let serial = *next;
            *next = next.wrapping_add(1);
            (outcome, Some(serial))
        }
    }
}
