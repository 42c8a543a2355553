//! Building a sheet from typed parts.

use std::fmt;

use crate::limits;
use crate::parts::{
    AliasingDiagnostic, AliasingEffect, BlockId, EvaluationOrder, FunctionId, Identifier,
    IdentifierId, InstructionValue, Place,
};
use crate::sheet::{Block, InnerFunction, Instruction, Operand, Phi, Sheet, Terminal};

/// Why a part was not taken. The builder is then as it was before.
#[derive(Debug, Clone, PartialEq, Eq)]
#[non_exhaustive]
pub enum PartError {
    /// One more than a sheet, a block, a phi or a list may have.
    TooMany {
        /// What there is too much of.
        what: &'static str,
        /// How many there may be.
        most: usize,
    },
    /// A number above its limit.
    TooLarge {
        /// What the number is.
        what: &'static str,
        /// The number.
        number: u32,
        /// The limit.
        most: u32,
    },
    /// The sheet has no such identifier so far.
    NoIdentifier {
        /// The identifier.
        identifier: IdentifierId,
        /// How many the sheet has so far.
        count: usize,
    },
    /// The sheet has no such inner function so far.
    NoFunction {
        /// The inner function.
        function: FunctionId,
        /// How many the sheet has so far.
        count: usize,
    },
    /// The number was given to a block before.
    BlockAgain(BlockId),
    /// The phi names this predecessor already.
    PredecessorAgain(BlockId),
    /// The part cannot follow the one before it.
    OutOfPlace {
        /// The part.
        what: &'static str,
        /// What it can follow.
        follows: &'static str,
    },
    /// The block has no terminal yet.
    BlockNotEnded(BlockId),
}

impl fmt::Display for PartError {
    fn fmt(&self, f: &mut fmt::Formatter) -> fmt::Result {
        match self {
            PartError::TooMany { what, most } => write!(f, "more than {most} {what}"),
            PartError::TooLarge { what, number, most } => {
                write!(f, "{number} is too large for {what}, which is at most {most}")
            }
            PartError::NoIdentifier { identifier, count } => {
                write!(f, "identifier {} is not one of the sheet's {count}", identifier.0)
            }
            PartError::NoFunction { function, count } => {
                write!(f, "inner function {} is not one of the sheet's {count}", function.0)
            }
            PartError::BlockAgain(number) => {
                write!(f, "block number {} is used a second time", number.0)
            }
            PartError::PredecessorAgain(number) => {
                write!(f, "the phi names predecessor {} a second time", number.0)
            }
            PartError::OutOfPlace { what, follows } => write!(f, "{what} follows {follows}"),
            PartError::BlockNotEnded(number) => {
                write!(f, "block {} has no terminal yet", number.0)
            }
        }
    }
}

impl std::error::Error for PartError {}

type Taken<T = ()> = Result<T, PartError>;

/// What the next part of a block can be added to.
#[derive(Debug, Clone, Copy, PartialEq, Eq)]
enum Open {
    /// No block, or one that has its terminal.
    Nothing,
    Block,
    Phi,
    Instruction,
    /// A terminal that can have effects.
    Terminal,
    /// A terminal that can have operands.
    Other,
}

/// Makes a [`Sheet`] from its parts, one after another. Every part is checked when it is added,
/// so that no sheet made here is refused 3 to 7. Refusals 2, 8 and 10 are about the whole sheet
/// and are left to the service; [`Sheet::refusal`] tells them before.
///
/// Identifiers and inner functions are added before the parts that name them. In a block, phis
/// (each followed by its operands) come before instructions (each followed by its lvalues,
/// operands, value and effects), and the terminal, followed by its effects or operands, comes
/// last.
#[derive(Debug, Clone)]
pub struct SheetBuilder {
    sheet: Sheet,
    open: Open,
}

/// Fails if the list is full.
fn room<T>(list: &[T], what: &'static str, most: usize) -> Taken {
    if list.len() < most { Ok(()) } else { Err(PartError::TooMany { what, most }) }
}

pub(crate) fn at_most(what: &'static str, number: u32, most: u32) -> Taken {
    if number <= most { Ok(()) } else { Err(PartError::TooLarge { what, number, most }) }
}

/// Both halves of a diagnostic.
pub(crate) fn within_limits(diagnostic: &AliasingDiagnostic) -> Taken {
    at_most("a diagnostic's identity", diagnostic.identity.0, limits::DIAGNOSTIC)?;
    at_most("a diagnostic's instance", diagnostic.instance.0, limits::DIAGNOSTIC)
}

impl SheetBuilder {
    /// No parts yet, and both flags unset.
    pub fn new() -> SheetBuilder {
        let sheet = Sheet {
            function_expression: false,
            validations: false,
            identifiers: Vec::new(),
            functions: Vec::new(),
            params: Vec::new(),
            context: Vec::new(),
            returns: Place::of(IdentifierId(0)),
            blocks: Vec::new(),
        };
        SheetBuilder { sheet, open: Open::Nothing }
    }

    /// Whether the function is a function expression, whose errors are not recorded.
    pub fn function_expression(&mut self, yes: bool) {
        self.sheet.function_expression = yes;
    }

    /// Whether errors are recorded.
    pub fn validations(&mut self, yes: bool) {
        self.sheet.validations = yes;
    }

    /// Adds an identifier and gives its number.
    pub fn identifier(&mut self, identifier: Identifier) -> Taken<IdentifierId> {
        let sheet = &mut self.sheet;
        room(&sheet.identifiers, "identifiers", limits::IDENTIFIERS)?;
        at_most("a range's start", identifier.range.start.0, limits::RANGE)?;
        at_most("a range's end", identifier.range.end.0, limits::RANGE)?;
        sheet.identifiers.push(identifier);
        Ok(IdentifierId(sheet.identifiers.len() as u32 - 1))
    }

    /// Adds an inner function with its diagnostics and context places, and gives its number.
    pub fn function(
        &mut self,
        diagnostics: &[AliasingDiagnostic],
        context: &[Place],
    ) -> Taken<FunctionId> {
        room(&self.sheet.functions, "inner functions", limits::FUNCTIONS)?;
        let most = limits::FUNCTION_DIAGNOSTICS;
        if diagnostics.len() > most {
            return Err(PartError::TooMany { what: "diagnostics of an inner function", most });
        }
        let most = limits::PLACES;
        if context.len() > most {
            return Err(PartError::TooMany { what: "context places of an inner function", most });
        }
        diagnostics.iter().try_for_each(within_limits)?;
        context.iter().try_for_each(|place| self.known(place))?;
        let function =
            InnerFunction { diagnostics: diagnostics.to_vec(), context: context.to_vec() };
        self.sheet.functions.push(function);
        Ok(FunctionId(self.sheet.functions.len() as u32 - 1))
    }

    /// Adds a parameter. A spread parameter is its place.
    pub fn param(&mut self, place: Place) -> Taken {
        room(&self.sheet.params, "parameters", limits::PLACES)?;
        self.known(&place)?;
        self.sheet.params.push(place);
        Ok(())
    }

    /// Adds a context variable.
    pub fn context(&mut self, place: Place) -> Taken {
        room(&self.sheet.context, "context places", limits::PLACES)?;
        self.known(&place)?;
        self.sheet.context.push(place);
        Ok(())
    }

    /// Begins a block.
    pub fn block(&mut self, number: BlockId) -> Taken {
        self.ended()?;
        let blocks = &mut self.sheet.blocks;
        room(blocks, "blocks", limits::BLOCKS)?;
        at_most("a block number", number.0, limits::BLOCK_NUMBER)?;
        if blocks.iter().any(|block| block.number == number) {
            return Err(PartError::BlockAgain(number));
        }
        blocks.push(Block {
            number,
            phis: Vec::new(),
            instructions: Vec::new(),
            // Replaced by the block's own.
            terminal: Terminal::Other { order: EvaluationOrder::UNSET },
            terminal_effects: Vec::new(),
            terminal_operands: Vec::new(),
        });
        self.open = Open::Block;
        Ok(())
    }

    /// Adds a phi to the block.
    pub fn phi(&mut self, place: Place) -> Taken {
        let follows = "a block's number or one of its phis";
        let block = self.within(&[Open::Block, Open::Phi], "a phi", follows)?;
        room(&block.phis, "phis of a block", limits::COUNT)?;
        self.known(&place)?;
        self.last_block().phis.push(Phi { place, operands: Vec::new() });
        self.open = Open::Phi;
        Ok(())
    }

    /// Adds an operand to the phi: its value where the block is entered from this predecessor.
    pub fn operand(&mut self, predecessor: BlockId, place: Place) -> Taken {
        let follows = "a phi or one of its operands";
        let block = self.within(&[Open::Phi], "an operand", follows)?;
        let operands = &block.phis[block.phis.len() - 1].operands;
        room(operands, "operands of a phi", limits::COUNT)?;
        at_most("a predecessor's number", predecessor.0, limits::BLOCK_NUMBER)?;
        if operands.iter().any(|operand| operand.predecessor == predecessor) {
            return Err(PartError::PredecessorAgain(predecessor));
        }
        self.known(&place)?;
        let phi = self.last_block().phis.last_mut().expect("a phi is open");
        phi.operands.push(Operand { predecessor, place });
        Ok(())
    }

    /// Adds an instruction to the block. Unless it is given another one, its lvalue is a place of
    /// the first identifier with nothing else said; its value is plain, and its list of effects
    /// empty.
    pub fn instruction(&mut self, order: EvaluationOrder) -> Taken {
        let open = [Open::Block, Open::Phi, Open::Instruction];
        let block = self.within(&open, "an instruction", "a block without a terminal")?;
        room(&block.instructions, "instructions of a block", limits::COUNT)?;
        at_most("an instruction's order", order.0, limits::ORDER)?;
        let lvalue = Place::of(IdentifierId(0));
        self.known(&lvalue)?;
        self.last_block().instructions.push(Instruction {
            order,
            lvalue,
            lvalues: Vec::new(),
            operands: Vec::new(),
            value: InstructionValue::Plain,
            effects: Some(Vec::new()),
        });
        self.open = Open::Instruction;
        Ok(())
    }

    /// Sets the instruction's lvalue.
    pub fn lvalue(&mut self, place: Place) -> Taken {
        self.within(&[Open::Instruction], "an lvalue", "an instruction")?;
        self.known(&place)?;
        self.last_instruction().lvalue = place;
        Ok(())
    }

    /// Adds one to the instruction's value lvalues.
    pub fn value_lvalue(&mut self, place: Place) -> Taken {
        self.within(&[Open::Instruction], "a value lvalue", "an instruction")?;
        self.known(&place)?;
        let lvalues = &mut self.last_instruction().lvalues;
        room(lvalues, "value lvalues of an instruction", limits::PLACES)?;
        lvalues.push(place);
        Ok(())
    }

    /// Adds one to the operands of the instruction, or of a terminal `Other`.
    pub fn value_operand(&mut self, place: Place) -> Taken {
        let follows = "a phi, an instruction or a terminal Other";
        self.within(&[Open::Instruction, Open::Other], "an operand", follows)?;
        self.known(&place)?;
        let (operands, what) = match self.open {
            Open::Instruction => {
                (&mut self.last_instruction().operands, "operands of an instruction")
            }
            _ => (&mut self.last_block().terminal_operands, "operands of a terminal"),
        };
        room(operands, what, limits::PLACES)?;
        operands.push(place);
        Ok(())
    }

    /// Sets the instruction's value.
    pub fn value(&mut self, value: InstructionValue) -> Taken {
        self.within(&[Open::Instruction], "a value", "an instruction")?;
        match value {
            InstructionValue::Plain => {}
            InstructionValue::Function(function) => self.known_function(function)?,
            InstructionValue::StoreContext(identifier) => self.known(&Place::of(identifier))?,
        }
        self.last_instruction().value = value;
        Ok(())
    }

    /// Adds an effect to the instruction, unless its list is absent, or to the terminal.
    pub fn effect(&mut self, effect: AliasingEffect) -> Taken {
        let what = "an effect";
        let follows = "an instruction with a list, or a terminal Return or MaybeThrow";
        self.within(&[Open::Instruction, Open::Terminal], what, follows)?;
        self.known_effect(&effect)?;
        let terminal = self.open == Open::Terminal;
        let block = self.last_block();
        let effects = match block.instructions.last_mut() {
            Some(instruction) if !terminal => instruction.effects.as_mut(),
            _ => Some(&mut block.terminal_effects),
        };
        let effects = effects.ok_or(PartError::OutOfPlace { what, follows })?;
        room(effects, "effects of one list", limits::COUNT)?;
        effects.push(effect);
        Ok(())
    }

    /// Leaves the instruction's list of effects out, which is not the same as an empty one: see
    /// [`Instruction::effects`].
    pub fn no_effects(&mut self) -> Taken {
        let (what, follows) = ("an absent list of effects", "an instruction without effects");
        let block = self.within(&[Open::Instruction], what, follows)?;
        if block.instructions.last().is_some_and(|i| !i.listed_effects().is_empty()) {
            return Err(PartError::OutOfPlace { what, follows });
        }
        self.last_instruction().effects = None;
        Ok(())
    }

    /// Ends the block.
    pub fn terminal(&mut self, terminal: Terminal) -> Taken {
        let open = [Open::Block, Open::Phi, Open::Instruction];
        self.within(&open, "a terminal", "a block without one")?;
        at_most("a terminal's order", terminal.order().0, limits::ORDER)?;
        if let Terminal::Return { value, .. } = terminal {
            self.known(&value)?;
        }
        self.last_block().terminal = terminal;
        self.open = match terminal {
            Terminal::Other { .. } => Open::Other,
            Terminal::Return { .. } | Terminal::MaybeThrow { .. } => Open::Terminal,
        };
        Ok(())
    }

    /// The sheet, with the place that its function returns.
    pub fn finish(mut self, returns: Place) -> Taken<Sheet> {
        self.ended()?;
        self.known(&returns)?;
        self.sheet.returns = returns;
        Ok(self.sheet)
    }

    /// Fails if the place's identifier has not been added.
    fn known(&self, place: &Place) -> Taken {
        let (identifier, count) = (place.identifier, self.sheet.identifiers.len());
        if (identifier.0 as usize) < count {
            Ok(())
        } else {
            Err(PartError::NoIdentifier { identifier, count })
        }
    }

    /// Fails if the inner function has not been added.
    fn known_function(&self, function: FunctionId) -> Taken {
        let count = self.sheet.functions.len();
        if (function.0 as usize) < count {
            Ok(())
        } else {
            Err(PartError::NoFunction { function, count })
        }
    }

    fn known_effect(&self, effect: &AliasingEffect) -> Taken {
        let (first, second) = effect.places();
        for place in first.iter().chain(&second) {
            self.known(place)?;
        }
        match *effect {
            AliasingEffect::CreateFunction { function_id, .. } => {
                self.known_function(function_id)?;
            }
            AliasingEffect::MutateFrozen { error, .. }
            | AliasingEffect::MutateGlobal { error, .. }
            | AliasingEffect::Impure { error, .. } => {
                within_limits(&error)?;
            }
            _ => {}
        }
        Ok(())
    }

    /// The block that is being built, if what is open is among these.
    fn within(&self, open: &[Open], what: &'static str, follows: &'static str) -> Taken<&Block> {
        match self.sheet.blocks.last() {
            Some(block) if open.contains(&self.open) => Ok(block),
            _ => Err(PartError::OutOfPlace { what, follows }),
        }
    }

    fn last_block(&mut self) -> &mut Block {
        self.sheet.blocks.last_mut().expect("a block is open")
    }

    fn last_instruction(&mut self) -> &mut Instruction {
        self.last_block().instructions.last_mut().expect("an instruction is open")
    }

    /// Whether a phi is open: what is added as an operand is one of the phi's.
    pub(crate) fn in_phi(&self) -> bool {
        self.open == Open::Phi
    }

    /// Fails if a block lacks its terminal.
    fn ended(&self) -> Taken {
        match (self.open, self.sheet.blocks.last()) {
            (Open::Block | Open::Phi | Open::Instruction, Some(block)) => {
                Err(PartError::BlockNotEnded(block.number))
            }
            _ => Ok(()),
        }
    }
}

impl Default for SheetBuilder {
    fn default() -> SheetBuilder {
        SheetBuilder::new()
    }
}
