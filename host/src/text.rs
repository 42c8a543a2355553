//! A sheet as text: a line for each part, for people to read and write.
//!
//! ```text
//! # A parameter is captured by a new list, and the list is changed.
//! flags validations
//! identifier props
//! identifier list
//! identifier result
//! param props span 5
//! returns result
//! block 0
//!   instruction at 1
//!     Create list
//!     Capture props into list
//!   instruction at 2
//!     MutateTransitive list span 7
//!   terminal Return list at 3
//! ```
//!
//! What a line leaves out is 0 in the sheet's words. The repository's docs/TEXT.md describes every
//! line.

use std::collections::HashMap;
use std::fmt::{self, Write};

use crate::builder::{SheetBuilder, within_limits};
use crate::parts::{
    AliasingDiagnostic, AliasingEffect, BlockId, Effect, EffectKind, EvaluationOrder, FunctionId,
    Identifier, IdentifierId, InstructionValue, MutableRange, MutationReason, Place, Type,
    ValueKind, ValueReason,
};
use crate::sheet::{Instruction, Sheet, Terminal};
use crate::spelling::nearest;

/// The names that a text gives to identifiers and inner functions. A sheet's words have none.
#[derive(Debug, Clone, PartialEq, Eq, Default)]
pub struct Names {
    identifiers: Vec<String>,
    functions: Vec<String>,
}

impl Names {
    /// x0, x1, .. and f0, f1, ..
    pub fn numbered(sheet: &Sheet) -> Names {
        let names = |letter: char, count: usize| (0..count).map(move |i| format!("{letter}{i}"));
        Names {
            identifiers: names('x', sheet.identifiers().len()).collect(),
            functions: names('f', sheet.functions().len()).collect(),
        }
    }

    /// The identifier's name; the sheet that the names belong to has it.
    pub fn identifier(&self, id: IdentifierId) -> &str {
        &self.identifiers[id.0 as usize]
    }

    /// The inner function's name; the sheet that the names belong to has it.
    pub fn function(&self, id: FunctionId) -> &str {
        &self.functions[id.0 as usize]
    }

    /// The place as in a text.
    pub fn place(&self, place: &Place) -> String {
        let mut text = self.identifier(place.identifier).to_string();
        if place.effect != Effect::Unknown {
            text += &format!(" {}", place.effect);
        }
        if place.reactive {
            text += " reactive";
        }
        if place.span != 0 {
            text += &format!(" span {}", place.span);
        }
        text
    }

    /// The effect as in a text.
    pub fn effect(&self, effect: &AliasingEffect) -> String {
        let mut text = effect.kind().to_string();
        match effect.places() {
            (Some(from), Some(into)) => {
                text += &format!(" {} into {}", self.place(&from), self.place(&into));
            }
            (Some(place), None) => text += &format!(" {}", self.place(&place)),
            _ => {}
        }
        match *effect {
            AliasingEffect::Create { value, reason, .. } => {
                if value.number() != 0 {
                    text += &format!(" value {value}");
                }
                if reason.number() != 0 {
                    text += &format!(" reason {reason}");
                }
            }
            AliasingEffect::Freeze { reason, .. } if reason.number() != 0 => {
                text += &format!(" reason {reason}");
            }
            AliasingEffect::Mutate { reason: Some(reason), .. } => {
                text += &format!(" reason {reason}");
            }
            AliasingEffect::CreateFunction { function_id, .. } => {
                text += &format!(" function {}", self.function(function_id));
            }
            AliasingEffect::MutateFrozen { error, .. }
            | AliasingEffect::MutateGlobal { error, .. }
            | AliasingEffect::Impure { error, .. } => text += &format!(" diagnostic {error}"),
            _ => {}
        }
        text
    }
}

// =============================================================================
// Writing
// =============================================================================

/// The sheet as text. With [`Names::numbered`] for a sheet that has no names.
pub fn write(sheet: &Sheet, names: &Names) -> String {
    let mut text = String::new();
    put_sheet(&mut text, sheet, names).expect("a string takes every line");
    text
}

fn put_sheet(text: &mut String, sheet: &Sheet, names: &Names) -> fmt::Result {
    writeln!(
        text,
        "flags{}{}{}",
        if sheet.function_expression() { " function-expression" } else { "" },
        if sheet.validations() { " validations" } else { "" },
        if sheet.function_expression() || sheet.validations() { "" } else { " none" },
    )?;
    for (identifier, name) in sheet.identifiers().iter().zip(&names.identifiers) {
        write!(text, "identifier {name}")?;
        let range = identifier.range;
        if range != MutableRange::default() {
            write!(text, " range {} {}", range.start.0, range.end.0)?;
        }
        if identifier.type_ != Type::Other {
            write!(text, " type {}", identifier.type_)?;
        }
        writeln!(text)?;
    }
    for (function, name) in sheet.functions().iter().zip(&names.functions) {
        write!(text, "function {name}")?;
        if !function.diagnostics.is_empty() {
            write!(text, " diagnostics")?;
        }
        for diagnostic in &function.diagnostics {
            write!(text, " {diagnostic}")?;
        }
        for place in &function.context {
            write!(text, " context {}", names.place(place))?;
        }
        writeln!(text)?;
    }
    for place in sheet.params() {
        writeln!(text, "param {}", names.place(place))?;
    }
    for place in sheet.context() {
        writeln!(text, "context {}", names.place(place))?;
    }
    writeln!(text, "returns {}", names.place(&sheet.returns()))?;
    for block in sheet.blocks() {
        writeln!(text, "block {}", block.number.0)?;
        for phi in &block.phis {
            writeln!(text, "  phi {}", names.place(&phi.place))?;
            for operand in &phi.operands {
                let place = names.place(&operand.place);
                writeln!(text, "    operand {place} from {}", operand.predecessor.0)?;
            }
        }
        for instruction in &block.instructions {
            put_instruction(text, instruction, names)?;
        }
        match block.terminal {
            Terminal::Other { order } => writeln!(text, "  terminal Other at {}", order.0)?,
            Terminal::Return { order, value } => {
                writeln!(text, "  terminal Return {} at {}", names.place(&value), order.0)?;
            }
            Terminal::MaybeThrow { order } => {
                writeln!(text, "  terminal MaybeThrow at {}", order.0)?;
            }
        }
        put_places(text, "operand", &block.terminal_operands, names)?;
        put_effects(text, &block.terminal_effects, names)?;
    }
    Ok(())
}

fn put_instruction(text: &mut String, instruction: &Instruction, names: &Names) -> fmt::Result {
    write!(text, "  instruction at {}", instruction.order.0)?;
    if instruction.lvalue != Place::of(IdentifierId(0)) {
        write!(text, " lvalue {}", names.place(&instruction.lvalue))?;
    }
    match instruction.value {
        InstructionValue::Plain => {}
        InstructionValue::Function(id) => write!(text, " function {}", names.function(id))?,
        InstructionValue::StoreContext(id) => {
            write!(text, " StoreContext {}", names.identifier(id))?;
        }
    }
    writeln!(text)?;
    put_places(text, "lvalue", &instruction.lvalues, names)?;
    put_places(text, "operand", &instruction.operands, names)?;
    match &instruction.effects {
        Some(effects) => put_effects(text, effects, names),
        None => writeln!(text, "    no effects"),
    }
}

fn put_places(text: &mut String, word: &str, places: &[Place], names: &Names) -> fmt::Result {
    places.iter().try_for_each(|place| writeln!(text, "    {word} {}", names.place(place)))
}

fn put_effects(text: &mut String, effects: &[AliasingEffect], names: &Names) -> fmt::Result {
    effects.iter().try_for_each(|effect| writeln!(text, "    {}", names.effect(effect)))
}

// =============================================================================
// Parsing
// =============================================================================

/// Why a text is no sheet.
#[derive(Debug, Clone, PartialEq, Eq)]
pub struct TextError {
    line: usize,
    message: String,
}

impl TextError {
    /// The line, from 1.
    pub fn line(&self) -> usize {
        self.line
    }
}

impl fmt::Display for TextError {
    fn fmt(&self, f: &mut fmt::Formatter) -> fmt::Result {
        write!(f, "line {}: {}", self.line, self.message)
    }
}

impl std::error::Error for TextError {}

/// The sheet that a text describes, and the names that it uses.
pub fn parse(text: &str) -> Result<(Sheet, Names), TextError> {
    let mut parser = Parser::default();
    let mut last = 1;
    for (number, line) in (1..).zip(text.lines()) {
        last = number;
        let code = line.split('#').next().unwrap_or_default();
        let mut words = Words { rest: code.split_whitespace().peekable() };
        parser.line(&mut words).map_err(|message| TextError { line: number, message })?;
    }
    let names = parser.names;
    let sheet = match parser.returns {
        None => Err("expected a line `returns PLACE`, found the end of the text".to_string()),
        Some(returns) => parser.builder.finish(returns).map_err(|e| e.to_string()),
    };
    let sheet = sheet.map_err(|message| TextError { line: last, message })?;
    Ok((sheet, names))
}

type Parsed<T = ()> = Result<T, String>;

/// The words of one line.
struct Words<'t> {
    rest: std::iter::Peekable<std::str::SplitWhitespace<'t>>,
}

impl<'t> Words<'t> {
    fn found(&mut self) -> String {
        match self.rest.peek() {
            Some(word) => format!("`{word}`"),
            None => "the end of the line".to_string(),
        }
    }

    fn expected<T>(&mut self, what: &str) -> Parsed<T> {
        self.expected_name(what, [])
    }

    /// The same where one of these names could have stood: the word may be one of them misspelt.
    fn expected_name<'n, T>(
        &mut self,
        what: &str,
        names: impl IntoIterator<Item = &'n str>,
    ) -> Parsed<T> {
        let near = self.rest.peek().and_then(|word| nearest(word, names));
        let hint = near.map_or(String::new(), |name| format!("; did you mean `{name}`?"));
        Err(format!("expected {what}, found {}{hint}", self.found()))
    }

    /// Takes the next word if it is this one.
    fn take(&mut self, word: &str) -> bool {
        self.rest.next_if_eq(&word).is_some()
    }

    fn keyword(&mut self, word: &str) -> Parsed {
        if self.take(word) { Ok(()) } else { self.expected(&format!("`{word}`")) }
    }

    fn number(&mut self, what: &str) -> Parsed<u32> {
        let word = self.rest.peek().copied().unwrap_or_default();
        if let Ok(number) = word.parse() {
            self.rest.next();
            return Ok(number);
        }
        if !word.is_empty() && word.bytes().all(|byte| byte.is_ascii_digit()) {
            return Err(format!("{word} is too large for {what}"));
        }
        self.expected(&format!("{what} (a number)"))
    }

    /// Identity and instance, parted by a slash; an instance left out is 0.
    fn diagnostic(&mut self) -> Parsed<AliasingDiagnostic> {
        const WHAT: &str = "a diagnostic (IDENTITY/INSTANCE)";
        let Some(word) = self.rest.peek().copied() else { return self.expected(WHAT) };
        let (identity, instance) = word.split_once('/').unwrap_or((word, "0"));
        let half = |half: &str| half.bytes().all(|byte| byte.is_ascii_digit()) && !half.is_empty();
        if !half(identity) || !half(instance) {
            return self.expected(WHAT);
        }
        let (Ok(identity), Ok(instance)) = (identity.parse(), instance.parse()) else {
            return Err(format!("{word} is too large for a diagnostic"));
        };
        self.rest.next();
        Ok(AliasingDiagnostic::new(identity, instance))
    }

    /// Takes the next word if it names one of these.
    fn take_named<T: Copy>(&mut self, from_name: impl Fn(&str) -> Option<T>) -> Option<T> {
        let named = self.rest.peek().and_then(|word| from_name(word));
        if named.is_some() {
            self.rest.next();
        }
        named
    }

    fn named<T: Copy>(
        &mut self,
        what: &str,
        from_name: impl Fn(&str) -> Option<T>,
        names: &[&str],
    ) -> Parsed<T> {
        match self.take_named(from_name) {
            Some(named) => Ok(named),
            None => {
                self.expected_name(&format!("{what} ({})", names.join(", ")), names.iter().copied())
            }
        }
    }

    /// Fails unless the line ends here.
    fn end(&mut self) -> Parsed {
        self.end_or(&[])
    }

    /// Fails unless the line ends here. Each of `or`, a word and what follows it, could also have
    /// stood here.
    fn end_or(&mut self, or: &[&str]) -> Parsed {
        if self.rest.peek().is_none() {
            return Ok(());
        }
        let mut what = or.iter().map(|form| format!("`{form}`")).collect::<Vec<_>>().join(", ");
        if !what.is_empty() {
            what += " or ";
        }
        what += "the end of the line";
        self.expected_name(&what, or.iter().map(|form| first_word(form)))
    }

    /// Fails unless the line ends here, behind a place or what the kind of effect has behind it.
    fn end_of_place(&mut self, or: &[&str]) -> Parsed {
        if self.rest.peek().is_none() {
            return Ok(());
        }
        let more: String = or.iter().map(|form| format!(", `{form}`")).collect();
        let what = format!("{MORE_OF_PLACE}{more} or the end of the line");
        self.expected_name(&what, more_of_place(or))
    }
}

/// What the form of a part of a line begins with.
fn first_word(form: &str) -> &str {
    form.split(' ').next().unwrap_or_default()
}

/// A name begins with a letter, `_` or `$`, and goes on with these, digits, `.` and `-`.
fn is_name(word: &str) -> bool {
    let letter = |c: char| c.is_alphabetic() || c == '_' || c == '$';
    word.starts_with(letter)
        && word.chars().all(|c| letter(c) || c.is_numeric() || c == '.' || c == '-')
}

/// What a place's line can go on with.
const MORE_OF_PLACE: &str = "an effect, `reactive`, `span NUMBER`";

/// The words that this can be, and those that the other forms begin with.
fn more_of_place<'n>(or: &[&'n str]) -> impl Iterator<Item = &'n str> {
    let others = or.iter().map(|form| first_word(form));
    Effect::NAMES.iter().copied().chain(["reactive", "span"]).chain(others)
}

/// What a line can begin with, effects aside.
const LINES: [&str; 13] = [
    "flags",
    "identifier",
    "function",
    "param",
    "context",
    "returns",
    "block",
    "phi",
    "operand",
    "instruction",
    "lvalue",
    "no",
    "terminal",
];

#[derive(Default)]
struct Parser {
    builder: SheetBuilder,
    names: Names,
    identifiers: HashMap<String, IdentifierId>,
    functions: HashMap<String, FunctionId>,
    flags: bool,
    returns: Option<Place>,
}

impl Parser {
    fn line(&mut self, words: &mut Words) -> Parsed {
        let Some(&first) = words.rest.peek() else { return Ok(()) };
        if let Some(kind) = EffectKind::from_name(first) {
            words.rest.next();
            let effect = self.effect(kind, words)?;
            return self.builder.effect(effect).map_err(|e| e.to_string());
        }
        let part = match first {
            "flags" => Parser::flags,
            "identifier" => Parser::identifier,
            "function" => Parser::function,
            "param" => Parser::param,
            "context" => Parser::context,
            "returns" => Parser::returns,
            "block" => Parser::block,
            "phi" => Parser::phi,
            "operand" => Parser::operand,
            "instruction" => Parser::instruction,
            "lvalue" => Parser::lvalue,
            "no" => Parser::no_effects,
            "terminal" => Parser::terminal,
            _ => {
                let (lines, effects) = (LINES.join(", "), EffectKind::NAMES.join(", "));
                let names = LINES.iter().chain(EffectKind::NAMES).copied();
                return words.expected_name(
                    &format!("a line that begins with {lines} or an effect ({effects})"),
                    names,
                );
            }
        };
        words.rest.next();
        part(self, words)
    }

    fn flags(&mut self, words: &mut Words) -> Parsed {
        if self.flags {
            return Err("expected one line `flags`, found a second".to_string());
        }
        self.flags = true;
        if words.take("none") {
            return words.end();
        }
        self.builder.function_expression(words.take("function-expression"));
        self.builder.validations(words.take("validations"));
        words.end_or(&["function-expression", "validations", "none"])
    }

    fn name(&self, words: &mut Words, what: &str) -> Parsed<String> {
        match words.rest.next_if(|word| is_name(word)) {
            Some(name) => Ok(name.to_string()),
            None => words.expected(&format!("{what} (letters, digits, _ $ . -)")),
        }
    }

    fn identifier(&mut self, words: &mut Words) -> Parsed {
        let name = self.name(words, "an identifier's name")?;
        if self.identifiers.contains_key(&name) {
            return Err(format!("expected a new identifier's name, found `{name}` again"));
        }
        let mut range = MutableRange::default();
        if words.take("range") {
            range.start = EvaluationOrder(words.number("the range's start")?);
            range.end = EvaluationOrder(words.number("the range's end")?);
        }
        let mut type_ = Type::Other;
        if words.take("type") {
            type_ = words.named("a type", Type::from_name, Type::NAMES)?;
        }
        words.end_or(&["range START END", "type TYPE"])?;
        let id = self.builder.identifier(Identifier { range, type_ }).map_err(|e| e.to_string())?;
        self.names.identifiers.push(name.clone());
        self.identifiers.insert(name, id);
        Ok(())
    }

    fn function(&mut self, words: &mut Words) -> Parsed {
        let name = self.name(words, "an inner function's name")?;
        if self.functions.contains_key(&name) {
            return Err(format!("expected a new inner function's name, found `{name}` again"));
        }
        let mut diagnostics = Vec::new();
        if words.take("diagnostics") {
            while words.rest.peek().is_some_and(|word| *word != "context") {
                diagnostics.push(words.diagnostic()?);
            }
        }
        let mut context = Vec::new();
        while words.take("context") {
            context.push(self.place(words)?);
        }
        if context.is_empty() {
            words.end_or(&["diagnostics IDENTITY/INSTANCE ..", "context PLACE"])?;
        }
        words.end_of_place(&["context PLACE"])?;
        let id = self.builder.function(&diagnostics, &context).map_err(|e| e.to_string())?;
        self.names.functions.push(name.clone());
        self.functions.insert(name, id);
        Ok(())
    }

    fn identifier_name(&self, words: &mut Words) -> Parsed<IdentifierId> {
        let known = words.rest.peek().and_then(|name| self.identifiers.get(*name));
        let Some(&identifier) = known else {
            let names = self.names.identifiers.iter().map(String::as_str);
            return words.expected_name("the name of an identifier declared above", names);
        };
        words.rest.next();
        Ok(identifier)
    }

    fn function_name(&self, words: &mut Words) -> Parsed<FunctionId> {
        let known = words.rest.peek().and_then(|name| self.functions.get(*name));
        let Some(&function) = known else {
            let names = self.names.functions.iter().map(String::as_str);
            let what = "the name of an inner function declared above";
            return words.expected_name(what, names);
        };
        words.rest.next();
        Ok(function)
    }

    fn place(&self, words: &mut Words) -> Parsed<Place> {
        let identifier = self.identifier_name(words)?;
        let effect = words.take_named(Effect::from_name).unwrap_or(Effect::Unknown);
        let reactive = words.take("reactive");
        let span = if words.take("span") { words.number("a span")? } else { 0 };
        Ok(Place { identifier, effect, reactive, span })
    }

    /// A place that ends its line.
    fn last_place(&self, words: &mut Words) -> Parsed<Place> {
        let place = self.place(words)?;
        words.end_of_place(&[])?;
        Ok(place)
    }

    /// A place with a word behind it.
    fn place_then(&self, words: &mut Words, then: &str) -> Parsed<Place> {
        let place = self.place(words)?;
        if !words.take(then) {
            let what = format!("{MORE_OF_PLACE} or `{then}`");
            return words.expected_name(&what, more_of_place(&[then]));
        }
        Ok(place)
    }

    fn param(&mut self, words: &mut Words) -> Parsed {
        let place = self.last_place(words)?;
        self.builder.param(place).map_err(|e| e.to_string())
    }

    fn context(&mut self, words: &mut Words) -> Parsed {
        let place = self.last_place(words)?;
        self.builder.context(place).map_err(|e| e.to_string())
    }

    fn returns(&mut self, words: &mut Words) -> Parsed {
        if self.returns.is_some() {
            return Err("expected one line `returns`, found a second".to_string());
        }
        self.returns = Some(self.last_place(words)?);
        Ok(())
    }

    fn block(&mut self, words: &mut Words) -> Parsed {
        let number = BlockId(words.number("a block's number")?);
        words.end()?;
        self.builder.block(number).map_err(|e| e.to_string())
    }

    fn phi(&mut self, words: &mut Words) -> Parsed {
        let place = self.last_place(words)?;
        self.builder.phi(place).map_err(|e| e.to_string())
    }

    /// An operand of a phi comes from a block; one of an instruction or a terminal from nowhere.
    fn operand(&mut self, words: &mut Words) -> Parsed {
        if !self.builder.in_phi() {
            let place = self.last_place(words)?;
            return self.builder.value_operand(place).map_err(|e| e.to_string());
        }
        let place = self.place_then(words, "from")?;
        let predecessor = BlockId(words.number("the number of a block")?);
        words.end()?;
        self.builder.operand(predecessor, place).map_err(|e| e.to_string())
    }

    fn instruction(&mut self, words: &mut Words) -> Parsed {
        words.keyword("at")?;
        let order = EvaluationOrder(words.number("an order")?);
        let lvalue = if words.take("lvalue") { Some(self.place(words)?) } else { None };
        let value = self.value(words)?;
        let values = ["function NAME", "StoreContext NAME"];
        match (lvalue, value) {
            (_, Some(_)) => words.end()?,
            (Some(_), None) => words.end_of_place(&values)?,
            (None, None) => words.end_or(&["lvalue PLACE", values[0], values[1]])?,
        }
        self.builder.instruction(order).map_err(|e| e.to_string())?;
        let lvalue = lvalue.map_or(Ok(()), |place| self.builder.lvalue(place));
        let value = lvalue.and_then(|()| self.builder.value(value.unwrap_or_default()));
        value.map_err(|e| e.to_string())
    }

    /// What an instruction's value is, if the line says so.
    fn value(&self, words: &mut Words) -> Parsed<Option<InstructionValue>> {
        if words.take("function") {
            return Ok(Some(InstructionValue::Function(self.function_name(words)?)));
        }
        if words.take("StoreContext") {
            return Ok(Some(InstructionValue::StoreContext(self.identifier_name(words)?)));
        }
        Ok(None)
    }

    fn lvalue(&mut self, words: &mut Words) -> Parsed {
        let place = self.last_place(words)?;
        self.builder.value_lvalue(place).map_err(|e| e.to_string())
    }

    /// The list of the instruction's effects is absent.
    fn no_effects(&mut self, words: &mut Words) -> Parsed {
        if !words.take("effects") {
            return words.expected_name("`effects`", ["effects"]);
        }
        words.end()?;
        self.builder.no_effects().map_err(|e| e.to_string())
    }

    fn terminal(&mut self, words: &mut Words) -> Parsed {
        let value = if words.take("Return") { Some(self.place_then(words, "at")?) } else { None };
        let throws = value.is_none() && words.take("MaybeThrow");
        if value.is_none() {
            if !throws && !words.take("Other") {
                let names = ["Return", "MaybeThrow", "Other"];
                return words.expected_name("`Return`, `MaybeThrow` or `Other`", names);
            }
            words.keyword("at")?;
        }
        let order = EvaluationOrder(words.number("an order")?);
        words.end()?;
        let terminal = match value {
            Some(value) => Terminal::Return { order, value },
            None if throws => Terminal::MaybeThrow { order },
            None => Terminal::Other { order },
        };
        self.builder.terminal(terminal).map_err(|e| e.to_string())
    }

    /// What follows an effect's kind.
    fn effect(&self, kind: EffectKind, words: &mut Words) -> Parsed<AliasingEffect> {
        let mut places = [Place::of(IdentifierId(0)); 2];
        match kind.places() {
            0 => {}
            1 => places[0] = self.place(words)?,
            _ => {
                places[0] = self.place_then(words, "into")?;
                places[1] = self.place(words)?;
            }
        }
        let [first, mut second] = places;
        let extra = self.extra(kind, words, &mut second)?;
        Ok(AliasingEffect::of(kind, first, second, extra).expect("the extra word is in range"))
    }

    /// The extra word, and the end of the line. The instance of a diagnostic goes into the second
    /// place.
    fn extra(&self, kind: EffectKind, words: &mut Words, second: &mut Place) -> Parsed<u32> {
        let reason = |words: &mut Words| {
            if words.take("reason") {
                words.named("a reason", ValueReason::from_name, ValueReason::NAMES)
            } else {
                Ok(ValueReason::KnownReturnSignature)
            }
        };
        match kind {
            EffectKind::Freeze => {
                let reason = reason(words)?;
                words.end_of_place(&["reason REASON"])?;
                Ok(reason.number())
            }
            EffectKind::Mutate => {
                let given = words.take("reason");
                if given {
                    let names = MutationReason::NAMES;
                    words.named("a reason", MutationReason::from_name, names)?;
                }
                words.end_of_place(&["reason REASON"])?;
                Ok(given as u32)
            }
            EffectKind::Create => {
                let mut value = ValueKind::Mutable;
                if words.take("value") {
                    value = words.named("a value kind", ValueKind::from_name, ValueKind::NAMES)?;
                }
                let reason = reason(words)?;
                words.end_of_place(&["value KIND", "reason REASON"])?;
                Ok(6 * reason.number() + value.number())
            }
            EffectKind::CreateFunction => {
                if !words.take("function") {
                    let what = format!("{MORE_OF_PLACE} or `function NAME`");
                    return words.expected_name(&what, more_of_place(&["function"]));
                }
                let function = self.function_name(words)?;
                words.end()?;
                Ok(function.0)
            }
            EffectKind::MutateFrozen | EffectKind::MutateGlobal | EffectKind::Impure => {
                if !words.take("diagnostic") {
                    let what = format!("{MORE_OF_PLACE} or `diagnostic IDENTITY/INSTANCE`");
                    return words.expected_name(&what, more_of_place(&["diagnostic"]));
                }
                let diagnostic = words.diagnostic()?;
                words.end()?;
                within_limits(&diagnostic).map_err(|e| e.to_string())?;
                *second = Place::of(IdentifierId(diagnostic.instance.0));
                Ok(diagnostic.identity.0)
            }
            EffectKind::Apply => {
                words.end()?;
                Ok(0)
            }
            _ => {
                words.end_of_place(&[])?;
                Ok(0)
            }
        }
    }
}
