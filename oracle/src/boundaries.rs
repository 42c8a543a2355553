//! Every word of a sheet at the end of its range and one past it: small sheets, each with the
//! refusal that documents 01 and 02 give it. The limits stand here a second time, from the document's
//! text, so that the plain reader's are held to them.

/// A sheet with its refusal, 0 for none.
#[derive(Clone)]
pub struct Boundary {
    pub name: String,
    pub words: Vec<u32>,
    pub refusal: u32,
}

/// What a word is held to.
#[derive(Clone, Copy, PartialEq, Eq)]
enum Held {
    /// A count, and its limit.
    Count(u32),
    /// The same of an instruction's effects, whose list can be absent.
    Listed(u32),
    /// A fixed count.
    Fixed,
    /// The largest of its range.
    Range(u32),
    /// The same, where the words that follow depend on it.
    Kind(u32),
    Nothing,
}

use Held::{Count, Fixed, Kind, Listed, Nothing, Range};

/// The words of a sheet, each with a name and what it is held to.
#[derive(Default)]
struct Described {
    words: Vec<u32>,
    held: Vec<(String, Held)>,
}

const IDENTIFIERS: u32 = 3;
const FUNCTIONS: u32 = 2;

/// An instruction's effect count that means that the list is absent.
const ABSENT: u32 = u32::MAX;

/// The table of document 01: kinds, places, largest extra word; and largest first word of an
/// unused second place, which for kinds 14 to 16 is the instance.
const TABLE: [(&[u32], u32, u32, u32); 8] = [
    (&[0], 1, 11, 0),
    (&[1], 1, 1, 0),
    (&[2, 3, 4, 17], 1, 0, 0),
    (&[5, 6, 7, 8, 10, 11], 2, 0, 0),
    (&[9], 1, 71, 0),
    (&[12], 0, 0, 0),
    // Below the count of inner functions.
    (&[13], 1, FUNCTIONS - 1, 0),
    (&[14, 15, 16], 1, 65_535, 65_535),
];

impl Described {
    fn put(&mut self, name: &str, word: u32, held: Held) {
        self.words.push(word);
        self.held.push((name.to_string(), held));
    }

    fn place(&mut self, of: &str, identifier: u32) {
        self.put(&format!("{of}: identifier"), identifier, Range(IDENTIFIERS - 1));
        self.put(&format!("{of}: traits"), 0, Range(15));
        self.put(&format!("{of}: span"), 0, Nothing);
    }

    /// A count of at most 64 and the places of these identifiers.
    fn places(&mut self, of: &str, identifiers: &[u32]) {
        self.put(&format!("count, {of}"), identifiers.len() as u32, Count(64));
        for (i, identifier) in identifiers.iter().enumerate() {
            self.place(&format!("place {i}, {of}"), *identifier);
        }
    }

    /// A place, or an unused one with the largest first word that it may have.
    fn place_if(&mut self, of: &str, used: bool, identifier: u32, instance: u32) {
        if used {
            return self.place(of, identifier);
        }
        self.put(&format!("{of}, unused: first word"), instance, Range(instance));
        for word in ["second", "third"] {
            self.put(&format!("{of}, unused: {word} word"), 0, Range(0));
        }
    }

    /// An effect whose extra word is its largest.
    fn effect(&mut self, of: &str, kind: u32) {
        let (_, places, most, instance) =
            TABLE.iter().find(|row| row.0.contains(&kind)).expect("a row");
        self.put(&format!("{of}: kind"), kind, Kind(17));
        self.place_if(&format!("{of}: first place"), 1 <= *places, 0, 0);
        self.place_if(&format!("{of}: second place"), 2 <= *places, 1, *instance);
        self.put(&format!("{of}: extra"), *most, Range(*most));
    }

    /// An effect count and the effects.
    fn effects(&mut self, of: &str, kinds: &[u32], held: Held) {
        self.put(&format!("effects of {of}"), kinds.len() as u32, held);
        for kind in kinds {
            self.effect(&format!("kind {kind} in {of}"), *kind);
        }
    }

    /// All sections before the blocks.
    fn head(&mut self) {
        self.put("flags", 2, Fixed);
        self.put("function expression", 0, Range(1));
        self.put("validations", 1, Range(1));
        self.put("identifiers", IDENTIFIERS, Count(512));
        for i in 0..IDENTIFIERS {
            self.put(&format!("start of {i}"), 0, Range(1_000_000));
            self.put(&format!("end of {i}"), 0, Range(1_000_000));
            self.put(&format!("type of {i}"), 0, Range(2));
        }
        self.put("inner functions", FUNCTIONS, Count(64));
        for f in 0..FUNCTIONS {
            self.put(&format!("diagnostics of function {f}"), 2, Count(64));
            for d in 0..2 {
                let of = format!("diagnostic {d} of function {f}");
                self.put(&format!("{of}: identity"), 2 * f + d, Range(65_535));
                self.put(&format!("{of}: instance"), 7, Range(65_535));
            }
            self.places(&format!("context of function {f}"), &[f, 2]);
        }
        self.put("parameters", 2, Count(64));
        self.place("first parameter", 0);
        self.place("second parameter", 1);
        self.put("context", 1, Count(64));
        self.place("context variable", 1);
        self.put("returns", 1, Fixed);
        self.place("returns", 2);
    }

    fn block(&mut self, number: u32, phis: u32) {
        self.put(&format!("number of block {number}"), number, Range(65_535));
        self.put(&format!("phis of block {number}"), phis, Count(1_024));
    }

    fn phi(&mut self, operands: &[u32]) {
        self.place("phi", 2);
        self.put("operands", operands.len() as u32, Count(1_024));
        for (identifier, predecessor) in operands.iter().enumerate() {
            self.put(&format!("predecessor {predecessor}"), *predecessor, Range(65_535));
            self.place(&format!("operand of {predecessor}"), identifier as u32);
        }
    }

    fn instructions(&mut self, count: u32) {
        self.put("instructions", count, Count(1_024));
    }

    /// An instruction up to its value.
    fn lists(&mut self, order: u32, lvalues: &[u32], operands: &[u32]) {
        self.put(&format!("order of instruction {order}"), order, Range(999_999));
        self.place(&format!("lvalue of instruction {order}"), 0);
        self.places(&format!("value lvalues of instruction {order}"), lvalues);
        self.places(&format!("operands of instruction {order}"), operands);
    }

    fn value(&mut self, value: u32) {
        self.put(&format!("value {value}"), value, Kind(2));
        match value {
            1 => self.put("function of a value", 0, Range(FUNCTIONS - 1)),
            2 => self.put("identifier that is stored", 1, Range(IDENTIFIERS - 1)),
            _ => {}
        }
    }

    /// An instruction without lists and with a plain value.
    fn instruction(&mut self, order: u32, kinds: &[u32]) {
        self.lists(order, &[], &[]);
        self.value(0);
        self.instruction_effects(order, kinds);
    }

    /// The end of an instruction.
    fn instruction_effects(&mut self, order: u32, kinds: &[u32]) {
        self.effects(&format!("instruction {order}"), kinds, Listed(1_024));
    }

    fn other(&mut self, order: u32, operands: &[u32]) {
        self.put("terminal kind, other", 0, Kind(2));
        self.put("order of a terminal, other", order, Range(999_999));
        self.places("operands of a terminal", operands);
    }

    fn returns(&mut self, order: u32, kinds: &[u32]) {
        self.put("terminal kind, Return", 1, Kind(2));
        self.put("order of a Return", order, Range(999_999));
        self.place("value of a Return", 0);
        self.effects("a Return", kinds, Count(1_024));
        self.put("operands of a Return", 0, Fixed);
    }

    fn maybe_throw(&mut self, order: u32, kinds: &[u32]) {
        self.put("terminal kind, MaybeThrow", 2, Kind(2));
        self.put("order of a MaybeThrow", order, Range(999_999));
        self.effects("a MaybeThrow", kinds, Count(1_024));
        self.put("operands of a MaybeThrow", 0, Fixed);
    }

    /// The word at its largest, and the refusal one past it.
    fn most(&self, at: usize) -> (u32, Option<u32>) {
        match self.held[at].1 {
            Count(most) | Listed(most) => (most, Some(4)),
            Fixed => (self.words[at], Some(4)),
            Range(most) | Kind(most) => (most, Some(5)),
            Nothing => (u32::MAX, None),
        }
    }

    fn whole(&self, name: &str, refusal: u32) -> Boundary {
        Boundary { name: name.to_string(), words: self.words.clone(), refusal }
    }

    /// The first so many words of the sheet, one of them changed.
    fn with(&self, at: usize, how: &str, word: u32, length: usize, refusal: u32) -> Boundary {
        let mut words = self.words[..length].to_vec();
        words[at] = word;
        Boundary { name: format!("{} {how}", self.held[at].0), words, refusal }
    }

    /// A word at its largest: in the whole sheet, and with the sheet's end behind it.
    fn met(&self, at: usize) -> Vec<Boundary> {
        let (most, _) = self.most(at);
        let whole = self.words.len();
        let mut sheets = Vec::new();
        if matches!(self.held[at].1, Range(_) | Nothing) {
            sheets.push(self.with(at, "met", most, whole, 0));
        }
        if at + 1 < whole {
            sheets.push(self.with(at, "met, then the end", most, at + 1, 3));
        }
        sheets
    }

    /// A word one past its largest, in a sheet of so many words; a fixed count also one below.
    fn passed(&self, at: usize, length: usize) -> Vec<Boundary> {
        let (most, refusal) = self.most(at);
        let mut sheets = Vec::new();
        if let Some(refusal) = refusal {
            sheets.push(self.with(at, "passed", most + 1, length, refusal));
        }
        if self.held[at].1 == Fixed && most > 0 {
            sheets.push(self.with(at, "one below", most - 1, length, 4));
        }
        sheets
    }
}

/// A sheet with every section and every kind of terminal.
fn every_section() -> Described {
    let mut sheet = Described::default();
    sheet.head();
    sheet.put("blocks", 3, Count(256));
    sheet.block(20, 1);
    sheet.phi(&[30, 20, 10]);
    sheet.instructions(4);
    sheet.instruction(1, &[13, 5]);
    sheet.instruction(2, &[]);
    // Destructure and FunctionExpression; StoreContext follows.
    sheet.lists(7, &[1, 2], &[0]);
    sheet.value(0);
    sheet.instruction_effects(7, &[8]);
    sheet.lists(8, &[], &[]);
    sheet.value(1);
    sheet.instruction_effects(8, &[13]);
    sheet.returns(3, &[6]);
    sheet.block(10, 0);
    sheet.instructions(2);
    sheet.instruction(4, &[3, 17]);
    sheet.lists(9, &[2], &[2, 1]);
    sheet.value(2);
    sheet.instruction_effects(9, &[]);
    sheet.maybe_throw(5, &[9]);
    sheet.block(30, 0);
    sheet.instructions(0);
    sheet.other(6, &[0, 1]);
    sheet
}

/// Every word of that sheet, left to right. One past its range decides, whatever follows it, and
/// also if nothing does.
fn words() -> Vec<Boundary> {
    let sheet = every_section();
    let whole = sheet.words.len();
    let mut sheets = vec![sheet.whole("every section", 0)];
    for at in 0..whole {
        sheets.extend(sheet.met(at));
        sheets.extend(sheet.passed(at, whole));
        sheets.extend(sheet.passed(at, at + 1));
    }
    sheets
}

/// An effect of each kind in an instruction, in a MaybeThrow and in a Return: every word at its
/// largest; then, in the instruction each of them, in the terminals the last one passed.
fn effects() -> Vec<Boundary> {
    let mut sheets = Vec::new();
    for kind in 0..=17 {
        let mut sheet = Described::default();
        sheet.head();
        sheet.put("blocks", 2, Count(256));
        sheet.block(0, 0);
        sheet.instructions(1);
        sheet.instruction(1, &[kind]);
        // Where the effects end: behind those of a terminal stands its operand count.
        let instruction = sheet.words.len();
        sheet.maybe_throw(2, &[kind]);
        let maybe_throw = sheet.words.len() - 1;
        sheet.block(1, 0);
        sheet.instructions(0);
        sheet.returns(3, &[kind]);
        let returns = sheet.words.len() - 1;
        for at in [instruction, maybe_throw, returns].into_iter().flat_map(|end| end - 8..end) {
            if matches!(sheet.held[at].1, Range(_) | Nothing) {
                sheet.words[at] = sheet.most(at).0;
            }
        }
        let whole = sheet.words.len();
        let met = if kind == 12 { 10 } else { 0 };
        sheets.push(sheet.whole(&format!("kind {kind}, every word met"), met));
        for at in (instruction - 8..instruction).chain([maybe_throw - 1, returns - 1]) {
            sheets.extend(sheet.passed(at, whole));
        }
    }
    sheets
}

/// A sheet whose lists of effects are all empty: every value, with an operand whose start may be
/// set, and both terminals that have effects.
fn empty_effects() -> Described {
    let mut sheet = Described::default();
    sheet.head();
    sheet.put("blocks", 2, Count(256));
    sheet.block(1, 0);
    sheet.instructions(2);
    sheet.lists(5, &[1], &[0]);
    sheet.value(0);
    sheet.instruction_effects(5, &[]);
    sheet.lists(6, &[], &[]);
    sheet.value(1);
    sheet.instruction_effects(6, &[]);
    sheet.maybe_throw(7, &[]);
    sheet.block(2, 0);
    sheet.instructions(1);
    sheet.lists(8, &[2], &[2, 1]);
    sheet.value(2);
    sheet.instruction_effects(8, &[]);
    sheet.returns(9, &[]);
    sheet
}

/// Every effect count of that sheet, absent and one below that, with the rest of the sheet behind
/// it and with its end. Only the list of an instruction can be absent.
fn absent() -> Vec<Boundary> {
    let mut sheet = empty_effects();
    let whole = sheet.words.len();
    let mut sheets = vec![sheet.whole("empty lists of effects", 0)];
    let counts: Vec<usize> =
        (0..whole).filter(|&at| sheet.held[at].0.starts_with("effects of")).collect();
    for &at in &counts {
        let instruction = matches!(sheet.held[at].1, Listed(_));
        for length in [whole, at + 1] {
            let refusal = match (instruction, length == whole) {
                (true, true) => 0,
                (true, false) => 3,
                (false, _) => 4,
            };
            sheets.push(sheet.with(at, "absent", ABSENT, length, refusal));
            sheets.push(sheet.with(at, "one below absent", ABSENT - 1, length, 4));
            sheets.extend(sheet.passed(at, length));
        }
    }
    for at in counts {
        if matches!(sheet.held[at].1, Listed(_)) {
            sheet.words[at] = ABSENT;
        }
    }
    sheets.push(sheet.whole("absent lists of effects", 0));
    sheets
}

/// CreateFunction's extra word, and a value's function, below the count of inner functions.
fn functions() -> Vec<Boundary> {
    let mut sheets = Vec::new();
    for count in [0_u32, 1, 2, 63, 64] {
        for function in count.saturating_sub(1)..=count {
            // Functions without diagnostics and context; no parameter, no context; returns; a block.
            let mut head = vec![2, 0, 1, 1, 0, 0, 0, count];
            head.extend(vec![0; 2 * count as usize]);
            head.extend([0, 0, 1, 0, 0, 0, 1, 0, 0, 1]);
            let create = [1, 0, 0, 0, 0, 0, 0, 1, 13, 0, 0, 0, 0, 0, 0, function];
            let value = [1, 0, 0, 0, 0, 0, 1, function, 0];
            for (what, instruction) in [("CreateFunction", &create[..]), ("value", &value[..])] {
                sheets.push(Boundary {
                    name: format!("{what} of {function} of {count} inner functions"),
                    words: [&head[..], instruction, &[0, 2, 0]].concat(),
                    refusal: if function < count { 0 } else { 5 },
                });
            }
        }
    }
    sheets
}

/// Lists of 64 and of 65 places: context places of an inner function, value lvalues, operands,
/// a terminal's operands.
fn long_lists() -> Vec<Boundary> {
    let mut sheets = Vec::new();
    for count in [64, 65] {
        for long in 0..4 {
            let list = |position: u32| {
                let length = if position == long { count } else { 0 };
                let places = (0..length).flat_map(|i| [i % 2, i % 16, i]);
                [length].into_iter().chain(places)
            };
            // Two identifiers; an inner function without diagnostics; returns; a block.
            let mut words = vec![2, 0, 1, 2, 0, 0, 0, 0, 0, 0, 1, 0];
            words.extend(list(0));
            words.extend([0, 0, 1, 0, 0, 0, 1, 0, 0, 1, 5, 0, 0, 0]);
            words.extend(list(1));
            words.extend(list(2));
            // The function's creation, if it has the list.
            words.extend(if long == 0 { vec![1, 0] } else { vec![0] });
            words.extend([0, 0, 2]);
            words.extend(list(3));
            let refusal = if count == 64 { 0 } else { 4 };
            sheets.push(Boundary {
                name: format!("list {long} of {count} places"),
                words,
                refusal,
            });
        }
    }
    sheets
}

/// Numbers of blocks and of predecessors: rising, falling, and used again.
const NUMBERS: [(&[u32], u32); 14] = [
    (&[0], 0),
    (&[0, 0], 6),
    (&[65_535, 65_535], 6),
    (&[0, 65_536], 5),
    (&[65_536, 0], 5),
    (&[1, 2, 3, 4, 5], 0),
    (&[5, 4, 3, 2, 1], 0),
    (&[2, 4, 3, 5, 1], 0),
    (&[1, 2, 3, 4, 1], 6),
    (&[1, 2, 3, 4, 4], 6),
    (&[5, 4, 3, 2, 5], 6),
    (&[5, 4, 3, 2, 2], 6),
    (&[65_535, 0, 65_535], 6),
    (&[7, 65_535, 0, 7], 6),
];

fn numbers() -> Vec<Boundary> {
    let mut sheets = Vec::new();
    for (numbers, refusal) in NUMBERS {
        let mut blocks = Described::default();
        blocks.head();
        blocks.put("blocks", numbers.len() as u32, Count(256));
        for number in numbers {
            blocks.block(*number, 0);
            blocks.instructions(0);
            blocks.other(1, &[]);
        }
        sheets.push(blocks.whole(&format!("blocks {numbers:?}"), refusal));
        // Two phis with the same predecessors; blocks that come, and others that never do.
        let mut phis = Described::default();
        phis.head();
        phis.put("blocks", 2, Count(256));
        phis.block(1, 2);
        for _ in 0..2 {
            phis.place("phi", 2);
            phis.put("operands", numbers.len() as u32, Count(1_024));
            for number in numbers {
                phis.put("predecessor", *number, Range(65_535));
                phis.place("operand", 0);
            }
        }
        phis.instructions(0);
        phis.other(1, &[]);
        phis.block(65_535, 0);
        phis.instructions(0);
        phis.other(2, &[]);
        sheets.push(phis.whole(&format!("predecessors {numbers:?}"), refusal));
    }
    sheets
}

/// How many instructions without lists and effects stand one after another.
const RUN: u32 = 8;

/// What one of the instructions has that the others do not have.
#[derive(Clone, Copy, PartialEq, Eq)]
enum Odd {
    /// An effect, all of whose words could be those of an instruction.
    Effect,
    /// No list.
    Absent,
}

/// So many instructions, then one with a mutation. Of the first, these may be odd.
fn instructions(odd: impl Fn(u32) -> Option<Odd>) -> (Described, std::ops::Range<usize>) {
    let mut sheet = Described::default();
    sheet.head();
    sheet.put("blocks", 1, Count(256));
    sheet.block(0, 0);
    sheet.instructions(RUN + 1);
    let start = sheet.words.len();
    for i in 0..RUN {
        let kinds: &[u32] = if odd(i) == Some(Odd::Effect) { &[0] } else { &[] };
        let order = sheet.words.len();
        sheet.instruction(i, kinds);
        sheet.words[order] = 999_999;
        if odd(i) == Some(Odd::Absent) {
            *sheet.words.last_mut().expect("the effect count") = ABSENT;
        }
    }
    let run = start..sheet.words.len();
    sheet.instruction(RUN, &[3]);
    sheet.other(999_999, &[]);
    (sheet, run)
}

/// Instructions without lists and effects, one after another: each of their words passed; and an
/// effect at each of them, no list at each of them, and none at any.
fn runs() -> Vec<Boundary> {
    let (sheet, run) = instructions(|_| None);
    let whole = sheet.words.len();
    let mut sheets = vec![sheet.whole("the largest orders", 0)];
    sheets.extend(run.flat_map(|at| sheet.passed(at, whole)));
    for i in 0..RUN {
        let (sheet, _) = instructions(|at| (at == i).then_some(Odd::Effect));
        sheets.push(sheet.whole(&format!("an effect of instruction {i} alone"), 0));
        let (sheet, _) = instructions(|at| (at == i).then_some(Odd::Absent));
        sheets.push(sheet.whole(&format!("no list of instruction {i} alone"), 0));
    }
    let (sheet, _) = instructions(|_| Some(Odd::Absent));
    sheets.push(sheet.whole("no list of any", 0));
    sheets
}

pub fn all() -> Vec<Boundary> {
    [words(), effects(), absent(), functions(), long_lists(), numbers(), runs()].concat()
}
