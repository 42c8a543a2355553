//! The pass over operands (document 02, orders 4 and 5), as far as it is about ranges, where each start
//! and each end also knows from which part of the sheet it comes.

use service_host::{
    BlockId, EvaluationOrder, FunctionId, IdentifierId, InstructionValue, MutableRange, Sheet,
};

/// How a part of the sheet uses an identifier whose start or end it sets.
#[derive(Debug, Clone, Copy, PartialEq, Eq)]
pub enum Use {
    /// It is the lvalue of an instruction, or one of its value lvalues.
    Lvalue,
    /// It is an operand of an instruction.
    Operand,
    /// It is in the context of an inner function that an instruction makes.
    Context(FunctionId),
    /// An instruction stores it by StoreContext.
    StoreContext,
    /// It is a phi of a block whose first order is this.
    Phi,
}

/// What set a start or an end.
#[derive(Debug, Clone, Copy, PartialEq, Eq)]
pub struct Set {
    pub by: Use,
    pub order: EvaluationOrder,
    pub block: BlockId,
}

/// A range, and what set its start and its end last.
#[derive(Debug, Clone, Copy, PartialEq, Eq)]
pub struct Passed {
    pub range: MutableRange,
    pub start: Option<Set>,
    pub end: Option<Set>,
    /// The last StoreContext that would have moved the end, but has no list of effects.
    pub not_stored: Option<Set>,
}

impl Passed {
    fn begin(&mut self, start: EvaluationOrder, set: Set) {
        if self.range.start == EvaluationOrder::UNSET && start != EvaluationOrder::UNSET {
            self.range.start = start;
            self.start = Some(set);
        }
    }

    fn end(&mut self, set: Set) {
        self.range.end = EvaluationOrder(set.order.0 + 1);
        self.end = Some(set);
    }
}

/// The pass over all blocks, from the ends that the walks have left: one for each identifier.
pub fn pass(sheet: &Sheet, ends: &[EvaluationOrder]) -> Vec<Passed> {
    let ranges = sheet.identifiers().iter().zip(ends).map(|(identifier, &end)| Passed {
        range: MutableRange { end, ..identifier.range },
        start: None,
        end: None,
        not_stored: None,
    });
    let mut all: Vec<Passed> = ranges.collect();
    let at = |id: IdentifierId| id.0 as usize;
    for block in sheet.blocks() {
        let first = block.instructions.first().map_or(block.terminal.order(), |i| i.order);
        for phi in &block.phis {
            let passed = &mut all[at(phi.place.identifier)];
            if passed.range.end > first {
                let before = EvaluationOrder(first.0.saturating_sub(1));
                passed.begin(before, Set { by: Use::Phi, order: first, block: block.number });
            }
        }
        for instruction in &block.instructions {
            let order = instruction.order;
            let set = |by| Set { by, order, block: block.number };
            for lvalue in [&instruction.lvalue].into_iter().chain(&instruction.lvalues) {
                let passed = &mut all[at(lvalue.identifier)];
                passed.begin(order, set(Use::Lvalue));
                if passed.range.end == EvaluationOrder::UNSET {
                    passed.end(set(Use::Lvalue));
                }
            }
            let stored = match instruction.value {
                InstructionValue::StoreContext(id) if all[at(id)].range.end <= order => Some(id),
                _ => None,
            };
            // Without a list the instruction is left here.
            if instruction.effects.is_none() {
                if let Some(id) = stored {
                    all[at(id)].not_stored = Some(set(Use::StoreContext));
                }
                continue;
            }
            let mut operands: Vec<_> =
                instruction.operands.iter().map(|place| (place, Use::Operand)).collect();
            if let InstructionValue::Function(id) = instruction.value {
                let context = &sheet.functions()[id.0 as usize].context;
                operands.extend(context.iter().map(|place| (place, Use::Context(id))));
            }
            for (operand, by) in operands {
                let passed = &mut all[at(operand.identifier)];
                if passed.range.end > order {
                    passed.begin(order, set(by));
                }
            }
            if let Some(id) = stored {
                all[at(id)].end(set(Use::StoreContext));
            }
        }
    }
    all
}
