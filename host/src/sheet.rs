//! A sheet as typed parts, and its words.

use crate::held::{self, Held};
use crate::parts::{
    AliasingDiagnostic, AliasingEffect, BlockId, EffectKind, EvaluationOrder, Identifier,
    IdentifierId, InstructionValue, Place,
};
use crate::reading::{self, ReadError};
use crate::{limits, refusal::Refusal};

/// One function, as the service takes it. Made by a [`SheetBuilder`](crate::SheetBuilder), or
/// read from words or text; its words are never refused 3 to 7.
#[derive(Debug, Clone, PartialEq, Eq)]
pub struct Sheet {
    pub(crate) function_expression: bool,
    pub(crate) validations: bool,
    pub(crate) identifiers: Vec<Identifier>,
    pub(crate) functions: Vec<InnerFunction>,
    pub(crate) params: Vec<Place>,
    pub(crate) context: Vec<Place>,
    pub(crate) returns: Place,
    pub(crate) blocks: Vec<Block>,
}

/// A function inside the sheet's own.
#[derive(Debug, Clone, PartialEq, Eq, Default)]
pub struct InnerFunction {
    /// What it would report.
    pub diagnostics: Vec<AliasingDiagnostic>,
    /// What it uses from around it.
    pub context: Vec<Place>,
}

/// A block: what is done one after another, and how it ends.
#[derive(Debug, Clone, PartialEq, Eq)]
pub struct Block {
    /// The number, by which phis name it.
    pub number: BlockId,
    /// The phis, which come before the instructions.
    pub phis: Vec<Phi>,
    /// The instructions, in order.
    pub instructions: Vec<Instruction>,
    /// How it ends.
    pub terminal: Terminal,
    /// What the terminal does to values. None where the terminal is `Other`.
    pub terminal_effects: Vec<AliasingEffect>,
    /// What the terminal uses, in the visitors' order. None where the terminal is `Return` or
    /// `MaybeThrow`.
    pub terminal_operands: Vec<Place>,
}

/// A value that comes from the predecessor by which its block was entered.
#[derive(Debug, Clone, PartialEq, Eq)]
pub struct Phi {
    /// The value.
    pub place: Place,
    /// Where it comes from, for each predecessor.
    pub operands: Vec<Operand>,
}

/// What a phi is where its block was entered from this predecessor.
#[derive(Debug, Clone, Copy, PartialEq, Eq)]
pub struct Operand {
    /// The block, which need not be one of the sheet.
    pub predecessor: BlockId,
    /// The value there.
    pub place: Place,
}

/// An instruction: when it comes, what it uses, and what it does to values.
#[derive(Debug, Clone, PartialEq, Eq)]
pub struct Instruction {
    /// When it comes.
    pub order: EvaluationOrder,
    /// What its value is assigned to.
    pub lvalue: Place,
    /// What its value assigns to itself (a declaration, a store, a pattern), in the visitors' order.
    pub lvalues: Vec<Place>,
    /// What its value uses, in the visitors' order. The context places of an inner function that
    /// is made are not among them.
    pub operands: Vec<Place>,
    /// What its value is.
    pub value: InstructionValue,
    /// What it does to values, in order; none if the list is absent, which is not an empty one:
    /// the pass over operands then sets no start of an operand, leaves the context of an inner
    /// function as it is, and stores nothing.
    pub effects: Option<Vec<AliasingEffect>>,
}

impl Instruction {
    /// What it does to values, in order: nothing if the list is absent.
    pub fn listed_effects(&self) -> &[AliasingEffect] {
        self.effects.as_deref().unwrap_or_default()
    }
}

/// How a block ends. Only `Return` and `MaybeThrow` can have effects, and only `Other` operands.
#[derive(Debug, Clone, Copy, PartialEq, Eq)]
pub enum Terminal {
    /// In another way than the two below, without effects.
    Other {
        /// When it comes.
        order: EvaluationOrder,
    },
    /// The function returns.
    Return {
        /// When it comes.
        order: EvaluationOrder,
        /// What is returned.
        value: Place,
    },
    /// The function goes on, or throws.
    MaybeThrow {
        /// When it comes.
        order: EvaluationOrder,
    },
}

impl Terminal {
    /// When it comes.
    pub fn order(&self) -> EvaluationOrder {
        match *self {
            Terminal::Other { order }
            | Terminal::Return { order, .. }
            | Terminal::MaybeThrow { order } => order,
        }
    }
}

/// The totals that refusal 8 is about while a sheet is read; see [`Held`] for the others.
#[derive(Debug, Clone, Copy, PartialEq, Eq, Default)]
pub struct Totals {
    /// Mutations in instructions.
    pub mutations: usize,
    /// Renders in instructions.
    pub renders: usize,
}

impl Totals {
    /// An effect of an instruction.
    pub(crate) fn add_effect(&mut self, kind: EffectKind) {
        self.mutations += kind.is_mutation() as usize;
        self.renders += (kind == EffectKind::Render) as usize;
    }

    /// Those that are over their limit: what is counted, how many there are, and how many there
    /// may be.
    pub fn over(self) -> impl Iterator<Item = (&'static str, usize, usize)> {
        let totals = [
            ("mutations", self.mutations, limits::MUTATIONS),
            ("renders", self.renders, limits::RENDERS),
        ];
        totals.into_iter().filter(|&(_, total, most)| total > most)
    }
}

impl Sheet {
    /// The sheet that these words are, or the first fault in them: which word it is, in which part
    /// of the sheet, and what was expected there.
    ///
    /// A sheet whose one fault is a total above its limit is read all the same, and
    /// [`Sheet::refusal`] tells it. With another fault behind, a cut for instance, the first fault
    /// is the word that passes the total, refusal 8. Relations are no such total: see [`Held`].
    pub fn read(words: &[u32]) -> Result<Sheet, ReadError> {
        reading::read(words)
    }

    /// Whether the function is a function expression, whose errors are not recorded.
    pub fn function_expression(&self) -> bool {
        self.function_expression
    }

    /// Whether errors are recorded.
    pub fn validations(&self) -> bool {
        self.validations
    }

    /// The identifiers; the position is the number.
    pub fn identifiers(&self) -> &[Identifier] {
        &self.identifiers
    }

    /// The inner functions; the position is the number.
    pub fn functions(&self) -> &[InnerFunction] {
        &self.functions
    }

    /// The parameters.
    pub fn params(&self) -> &[Place] {
        &self.params
    }

    /// The context variables: what is used from around the function.
    pub fn context(&self) -> &[Place] {
        &self.context
    }

    /// The place that the function returns.
    pub fn returns(&self) -> Place {
        self.returns
    }

    /// The blocks, in order.
    pub fn blocks(&self) -> &[Block] {
        &self.blocks
    }

    /// The numbers of the identifiers.
    pub fn identifier_ids(&self) -> impl ExactSizeIterator<Item = IdentifierId> {
        (0..self.identifiers.len()).map(|i| IdentifierId(i as u32))
    }

    /// What refusal 8 counts while a sheet is read.
    pub fn totals(&self) -> Totals {
        let mut totals = Totals::default();
        for block in &self.blocks {
            for effect in block.instructions.iter().flat_map(Instruction::listed_effects) {
                totals.add_effect(effect.kind());
            }
        }
        totals
    }

    /// How many forward edges and entries the library would hold together, if there were no limit.
    pub fn held(&self) -> Held {
        held::held(self)
    }

    /// The instructions with Apply among their effects: block and order.
    pub fn applies(&self) -> impl Iterator<Item = (BlockId, EvaluationOrder)> {
        let apply = |effect: &AliasingEffect| effect.kind() == EffectKind::Apply;
        self.blocks.iter().flat_map(move |block| {
            let applies =
                block.instructions.iter().filter(move |i| i.listed_effects().iter().any(apply));
            applies.map(|instruction| (block.number, instruction.order))
        })
    }

    /// Refusal 2, 8 or 10, if the service will give it: they are about the sheet as a whole.
    pub fn refusal(&self) -> Option<Refusal> {
        if self.words().len() > limits::WORDS {
            return Some(Refusal::LongSheet);
        }
        let over = self.totals().over().chain(self.held().over()).next().map(|_| Refusal::Totals);
        over.or_else(|| self.applies().next().map(|_| Refusal::Apply))
    }

    /// The words that the service takes.
    pub fn words(&self) -> Vec<u32> {
        let mut words = vec![2, self.function_expression as u32, self.validations as u32];
        words.push(self.identifiers.len() as u32);
        for identifier in &self.identifiers {
            let range = identifier.range;
            words.extend([range.start.0, range.end.0, identifier.type_.number()]);
        }
        words.push(self.functions.len() as u32);
        for function in &self.functions {
            words.push(function.diagnostics.len() as u32);
            words.extend(function.diagnostics.iter().flat_map(|d| d.words()));
            put_places(&mut words, &function.context);
        }
        for places in [&self.params[..], &self.context, &[self.returns]] {
            put_places(&mut words, places);
        }
        words.push(self.blocks.len() as u32);
        for block in &self.blocks {
            put_block(&mut words, block);
        }
        words
    }
}

fn put_places(words: &mut Vec<u32>, places: &[Place]) {
    words.push(places.len() as u32);
    words.extend(places.iter().flat_map(Place::words));
}

fn put_effects(words: &mut Vec<u32>, effects: &[AliasingEffect]) {
    words.push(effects.len() as u32);
    words.extend(effects.iter().flat_map(AliasingEffect::words));
}

fn put_block(words: &mut Vec<u32>, block: &Block) {
    words.extend([block.number.0, block.phis.len() as u32]);
    for phi in &block.phis {
        words.extend(phi.place.words());
        words.push(phi.operands.len() as u32);
        for operand in &phi.operands {
            words.push(operand.predecessor.0);
            words.extend(operand.place.words());
        }
    }
    words.push(block.instructions.len() as u32);
    for instruction in &block.instructions {
        words.push(instruction.order.0);
        words.extend(instruction.lvalue.words());
        put_places(words, &instruction.lvalues);
        put_places(words, &instruction.operands);
        match instruction.value {
            InstructionValue::Plain => words.push(0),
            InstructionValue::Function(function) => words.extend([1, function.0]),
            InstructionValue::StoreContext(identifier) => words.extend([2, identifier.0]),
        }
        match &instruction.effects {
            Some(effects) => put_effects(words, effects),
            None => words.push(limits::ABSENT_EFFECTS),
        }
    }
    match block.terminal {
        Terminal::Other { order } => words.extend([0, order.0]),
        Terminal::Return { order, value } => {
            words.extend([1, order.0]);
            words.extend(value.words());
            put_effects(words, &block.terminal_effects);
        }
        Terminal::MaybeThrow { order } => {
            words.extend([2, order.0]);
            put_effects(words, &block.terminal_effects);
        }
    }
    put_places(words, &block.terminal_operands);
}
