//! Reading a sheet from words: what the library does in its first pass, with faults in words.

use std::fmt;

use crate::limits;
use crate::parts::{
    AliasingDiagnostic, AliasingEffect, BlockId, EffectKind, EvaluationOrder, FunctionId,
    Identifier, IdentifierId, InstructionValue, MutableRange, Place, Type,
};
use crate::refusal::Refusal;
use crate::sheet::{Block, InnerFunction, Instruction, Operand, Phi, Sheet, Terminal, Totals};

/// The first fault in a sheet's words.
#[derive(Debug, Clone, PartialEq, Eq)]
pub struct ReadError {
    refusal: Refusal,
    /// The faulty word's position, from 0.
    at: usize,
    /// The parts around the word, innermost first: name, position from 1, count.
    around: Vec<(&'static str, usize, usize)>,
    fault: String,
}

impl ReadError {
    /// The refusal that the service gives for these words.
    pub fn refusal(&self) -> Refusal {
        self.refusal
    }

    fn within(mut self, part: &'static str, position: usize, count: usize) -> ReadError {
        self.around.push((part, position + 1, count));
        self
    }
}

impl fmt::Display for ReadError {
    fn fmt(&self, f: &mut fmt::Formatter) -> fmt::Result {
        write!(f, "refused {}: word {}", self.refusal.number(), self.at)?;
        for (i, (part, position, count)) in self.around.iter().rev().enumerate() {
            write!(f, "{}{part} {position} of {count}", if i == 0 { " (" } else { ", " })?;
        }
        write!(f, "{}: {}", if self.around.is_empty() { "" } else { ")" }, self.fault)
    }
}

impl std::error::Error for ReadError {}

type Read<T> = Result<T, ReadError>;

struct Reader<'s> {
    words: &'s [u32],
    at: usize,
    /// Number of identifiers and of inner functions, once read.
    identifiers: u32,
    functions: u32,
    /// What has been counted so far.
    totals: Totals,
    /// Whether a total above its limit is a fault.
    counting: bool,
}

/// What an effect adds to the totals.
type Adds = fn(&mut Totals, EffectKind);

impl Reader<'_> {
    /// A fault of the word read last.
    fn fault<T>(&self, refusal: Refusal, fault: String) -> Read<T> {
        Err(ReadError { refusal, at: self.at - 1, around: Vec::new(), fault })
    }

    fn word(&mut self, what: impl fmt::Display) -> Read<u32> {
        self.at += 1;
        match self.words.get(self.at - 1) {
            Some(&word) => Ok(word),
            None => {
                self.fault(Refusal::SheetEnds, format!("expected {what}, but the sheet ends here"))
            }
        }
    }

    fn count(&mut self, what: &str, most: usize) -> Read<usize> {
        let count = self.word(format_args!("a count of {what}"))?;
        if count as usize > most {
            let fault = format!("expected a count of {what}, at most {most}, found {count}");
            return self.fault(Refusal::Count, fault);
        }
        Ok(count as usize)
    }

    fn fixed_count(&mut self, what: &str, fixed: u32) -> Read<()> {
        let count = self.word(format_args!("the count of {what}, {fixed}"))?;
        if count != fixed {
            let fault = format!("expected the count of {what}, {fixed}, found {count}");
            return self.fault(Refusal::Count, fault);
        }
        Ok(())
    }

    fn at_most(&mut self, what: impl fmt::Display, most: u32) -> Read<u32> {
        let word = self.word(&what)?;
        if word > most {
            let fault = format!("expected {what}, at most {most}, found {word}");
            return self.fault(Refusal::OutOfRange, fault);
        }
        Ok(word)
    }

    /// A word that names one of `count` parts declared before.
    fn below(&mut self, what: &str, count: u32) -> Read<u32> {
        let word = self.word(what)?;
        if word >= count {
            let fault = format!("expected {what}, found {word}, but the sheet has {count} of them");
            return self.fault(Refusal::OutOfRange, fault);
        }
        Ok(word)
    }

    fn zero(&mut self, what: impl fmt::Display) -> Read<()> {
        let word = self.word(&what)?;
        if word != 0 {
            return self.fault(Refusal::OutOfRange, format!("expected {what}, 0, found {word}"));
        }
        Ok(())
    }

    fn times<T>(
        &mut self,
        part: &'static str,
        count: usize,
        mut read: impl FnMut(&mut Self) -> Read<T>,
    ) -> Read<Vec<T>> {
        (0..count).map(|i| read(self).map_err(|e| e.within(part, i, count))).collect()
    }

    /// The kind read last adds to the totals.
    fn counted(&mut self, add: impl FnOnce(&mut Totals)) -> Read<()> {
        add(&mut self.totals);
        match self.totals.over().next() {
            Some((what, _, most)) if self.counting => self
                .fault(Refusal::Totals, format!("expected at most {most} {what}, found one more")),
            _ => Ok(()),
        }
    }

    fn identifier(&mut self) -> Read<Identifier> {
        let start = EvaluationOrder(self.at_most("a range's start", limits::RANGE)?);
        let end = EvaluationOrder(self.at_most("a range's end", limits::RANGE)?);
        let what = "a type (0 other, 1 primitive, 2 JSX)";
        let type_ = Type::ALL[self.at_most(what, 2)? as usize];
        Ok(Identifier { range: MutableRange { start, end }, type_ })
    }

    fn diagnostic(&mut self) -> Read<AliasingDiagnostic> {
        let identity = self.at_most("a diagnostic's identity", limits::DIAGNOSTIC)?;
        let instance = self.at_most("a diagnostic's instance", limits::DIAGNOSTIC)?;
        Ok(AliasingDiagnostic::new(identity, instance))
    }

    fn function(&mut self) -> Read<InnerFunction> {
        let count = self.count("an inner function's diagnostics", limits::FUNCTION_DIAGNOSTICS)?;
        let diagnostics = self.times("diagnostic", count, Self::diagnostic)?;
        let context = self.places("an inner function's context places", "context place")?;
        Ok(InnerFunction { diagnostics, context })
    }

    fn place(&mut self) -> Read<Place> {
        let identifier = self.below("a place's identifier", self.identifiers)?;
        let traits = self.at_most("a place's traits (effect, plus 8 if reactive)", 15)?;
        let span = self.word("a place's span")?;
        Ok(Place::from_words([identifier, traits, span]).expect("traits are at most 15"))
    }

    /// A count of places, and each of them.
    fn places(&mut self, what: &str, part: &'static str) -> Read<Vec<Place>> {
        let count = self.count(what, limits::PLACES)?;
        self.times(part, count, Self::place)
    }

    /// A place, of which the effect has one; else three words 0.
    fn effect_place(&mut self, used: bool, kind: EffectKind) -> Read<Place> {
        if used {
            return self.place();
        }
        self.unused(3, kind)?;
        Ok(Place::of(IdentifierId(0)))
    }

    fn unused(&mut self, words: usize, kind: EffectKind) -> Read<()> {
        (0..words)
            .try_for_each(|_| self.zero(format_args!("a word of a place that {kind} does not use")))
    }

    /// The second place; for a diagnosis its first word is the instance, and the others are 0.
    fn second_place(&mut self, kind: EffectKind) -> Read<Place> {
        if !kind.is_diagnosis() {
            return self.effect_place(kind.places() >= 2, kind);
        }
        let what = format_args!("the instance of {kind}'s diagnostic");
        let instance = self.at_most(what, limits::DIAGNOSTIC)?;
        self.unused(2, kind)?;
        Ok(Place::of(IdentifierId(instance)))
    }

    fn effect(&mut self, adds: Adds) -> Read<AliasingEffect> {
        let kind = self.at_most("an effect kind", 17)?;
        let kind = EffectKind::ALL[kind as usize];
        self.counted(|totals| adds(totals, kind))?;
        let first = self.effect_place(kind.places() >= 1, kind)?;
        let second = self.second_place(kind)?;
        let extra = match (kind, kind.most_extra()) {
            (EffectKind::CreateFunction, _) => {
                self.below("an inner function's number", self.functions)?
            }
            (_, 0) => {
                self.zero(format_args!("the extra word of {kind}"))?;
                0
            }
            (_, most) => self.at_most(format_args!("the extra word of {kind}"), most)?,
        };
        Ok(AliasingEffect::of(kind, first, second, extra).expect("the extra word is in range"))
    }

    fn effects(&mut self, what: &str, adds: Adds) -> Read<Vec<AliasingEffect>> {
        let count = self.count(what, limits::COUNT)?;
        self.times("effect", count, |r| r.effect(adds))
    }

    /// The effects of an instruction, whose list can be absent.
    fn instruction_effects(&mut self) -> Read<Option<Vec<AliasingEffect>>> {
        if self.words.get(self.at) == Some(&limits::ABSENT_EFFECTS) {
            self.at += 1;
            return Ok(None);
        }
        let what = "effects (4294967295 if the list is absent)";
        self.effects(what, Totals::add_effect).map(Some)
    }

    /// A block number that is not among those before it.
    fn fresh_number(&mut self, what: &str, before: &mut Vec<u32>) -> Read<BlockId> {
        let number = self.at_most(what, limits::BLOCK_NUMBER)?;
        if before.contains(&number) {
            let fault = format!("expected {what}, found {number}, which was used before");
            return self.fault(Refusal::UsedTwice, fault);
        }
        before.push(number);
        Ok(BlockId(number))
    }

    fn phi(&mut self) -> Read<Phi> {
        let place = self.place()?;
        let count = self.count("a phi's operands", limits::COUNT)?;
        let mut predecessors = Vec::new();
        let operands = self.times("operand", count, |r| {
            let predecessor = r.fresh_number("a predecessor's number", &mut predecessors)?;
            Ok(Operand { predecessor, place: r.place()? })
        })?;
        Ok(Phi { place, operands })
    }

    fn instruction(&mut self) -> Read<Instruction> {
        let order = EvaluationOrder(self.at_most("an instruction's order", limits::ORDER)?);
        let lvalue = self.place()?;
        let lvalues = self.places("an instruction's value lvalues", "value lvalue")?;
        let operands = self.places("an instruction's operands", "operand")?;
        let value = self.value()?;
        let effects = self.instruction_effects()?;
        Ok(Instruction { order, lvalue, lvalues, operands, value, effects })
    }

    fn value(&mut self) -> Read<InstructionValue> {
        let what = "a value (0 plain, 1 function, 2 StoreContext)";
        Ok(match self.at_most(what, 2)? {
            0 => InstructionValue::Plain,
            1 => {
                let number = self.below("an inner function's number", self.functions)?;
                InstructionValue::Function(FunctionId(number))
            }
            _ => {
                let number = self.below("a stored identifier", self.identifiers)?;
                InstructionValue::StoreContext(IdentifierId(number))
            }
        })
    }

    /// A terminal, its effects and its operands.
    fn terminal(&mut self) -> Read<(Terminal, Vec<AliasingEffect>, Vec<Place>)> {
        let kind = self.at_most("a terminal kind (0 other, 1 Return, 2 MaybeThrow)", 2)?;
        let order = EvaluationOrder(self.at_most("a terminal's order", limits::ORDER)?);
        let terminal = match kind {
            0 => {
                let operands = self.places("a terminal's operands", "operand")?;
                return Ok((Terminal::Other { order }, Vec::new(), operands));
            }
            1 => Terminal::Return { order, value: self.place()? },
            _ => Terminal::MaybeThrow { order },
        };
        let effects = self.effects("a terminal's effects", |_, _| ())?;
        let what = if kind == 1 { "a Return's operands" } else { "a MaybeThrow's operands" };
        self.fixed_count(what, 0)?;
        Ok((terminal, effects, Vec::new()))
    }

    fn block(&mut self, before: &mut Vec<u32>) -> Read<Block> {
        let number = self.fresh_number("a block number", before)?;
        let count = self.count("a block's phis", limits::COUNT)?;
        let phis = self.times("phi", count, Self::phi)?;
        let count = self.count("a block's instructions", limits::COUNT)?;
        let instructions = self.times("instruction", count, Self::instruction)?;
        let (terminal, terminal_effects, terminal_operands) = self.terminal()?;
        Ok(Block { number, phis, instructions, terminal, terminal_effects, terminal_operands })
    }

    fn sheet(&mut self) -> Read<Sheet> {
        self.fixed_count("flags", 2)?;
        let function_expression = self.at_most("the flag of a function expression", 1)? == 1;
        let validations = self.at_most("the flag of validations", 1)? == 1;
        let count = self.count("identifiers", limits::IDENTIFIERS)?;
        self.identifiers = count as u32;
        let identifiers = self.times("identifier", count, Self::identifier)?;
        let count = self.count("inner functions", limits::FUNCTIONS)?;
        self.functions = count as u32;
        let functions = self.times("inner function", count, Self::function)?;
        let params = self.places("parameters", "parameter")?;
        let context = self.places("context places", "context place")?;
        self.fixed_count("returns", 1)?;
        let returns = self.place()?;
        let count = self.count("blocks", limits::BLOCKS)?;
        let mut numbers = Vec::new();
        let blocks = self.times("block", count, |r| r.block(&mut numbers))?;
        Ok(Sheet {
            function_expression,
            validations,
            identifiers,
            functions,
            params,
            context,
            returns,
            blocks,
        })
    }
}

/// A sheet whose one fault is a total above its limit is read all the same. If there is another
/// fault behind, the word that passes the total comes first.
pub(crate) fn read(words: &[u32]) -> Read<Sheet> {
    match read_words(words, true) {
        Err(passed) if passed.refusal == Refusal::Totals => {
            read_words(words, false).map_err(|_| passed)
        }
        read => read,
    }
}

fn read_words(words: &[u32], counting: bool) -> Read<Sheet> {
    let totals = Totals::default();
    let mut reader = Reader { words, at: 0, identifiers: 0, functions: 0, totals, counting };
    if words.len() > limits::WORDS {
        reader.at = limits::WORDS + 1;
        let fault =
            format!("a sheet has at most {} words, this one {}", limits::WORDS, words.len());
        return reader.fault(Refusal::LongSheet, fault);
    }
    let sheet = reader.sheet()?;
    let more = words.len() - reader.at;
    if more > 0 {
        reader.at += 1;
        let fault = format!("{more} words follow the last block");
        return reader.fault(Refusal::WordsFollow, fault);
    }
    Ok(sheet)
}
