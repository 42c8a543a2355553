//! The pass over operands (orders 4 and 5 of document 02): the effect on every operand, and the
//! ranges after it. From the original's "Part 2", in its order.

use super::marked;
use super::sheet::{Block, Effect, Instruction, Phi, Place, Sheet, Terminal, Value};

// Positions in `Effect`.
const FREEZE: u32 = 1;
const READ: u32 = 2;
pub const CAPTURE: u32 = 3;
const CONDITIONALLY_MUTATE: u32 = 5;
const STORE: u32 = 7;

/// An order or range that is 0 is unset.
const UNSET: u32 = 0;

#[derive(Debug, Clone, Copy, PartialEq, Eq)]
pub struct Range {
    pub start: u32,
    pub end: u32,
}

/// What the pass has written so far.
#[derive(Debug, Clone)]
pub struct Passed {
    /// One for each identifier.
    pub ranges: Vec<Range>,
    /// The context places of each inner function.
    pub contexts: Vec<Vec<Place>>,
    pub phis: Vec<Place>,
    pub instructions: Vec<Place>,
    pub terminals: Vec<Place>,
}

/// The effects that an instruction's effects give to identifiers; the last one wins.
struct OperandEffects(Vec<(u32, u32)>);

impl OperandEffects {
    fn get(&self, identifier: u32) -> Option<u32> {
        self.0.iter().rev().find(|(of, _)| *of == identifier).map(|(_, effect)| *effect)
    }

    /// The place with its effect from here, or else with this one.
    fn mark(&self, place: &Place, otherwise: u32) -> Place {
        marked(place, self.get(place.identifier).unwrap_or(otherwise))
    }
}

impl Passed {
    fn range(&mut self, place: &Place) -> &mut Range {
        &mut self.ranges[place.identifier as usize]
    }

    fn phis(&mut self, phis: &[Phi], first_order: u32) {
        let mutated: Vec<bool> =
            phis.iter().map(|phi| self.range(&phi.place).end > first_order).collect();
        let mut seen: Vec<u32> = Vec::new();
        for (phi, mutated) in phis.iter().zip(mutated) {
            // Only the first phi of an identifier is found and marked.
            let operands = phi.operands.iter().map(|(_, place)| place);
            if seen.contains(&phi.place.identifier) {
                self.phis.push(phi.place);
                self.phis.extend(operands);
                continue;
            }
            seen.push(phi.place.identifier);
            self.phis.push(marked(&phi.place, STORE));
            self.phis.extend(operands.map(|o| marked(o, if mutated { CAPTURE } else { READ })));
            let range = self.range(&phi.place);
            if mutated && range.start == UNSET {
                range.start = first_order.saturating_sub(1);
            }
        }
    }

    fn operand_effects(&mut self, effects: &[Effect], order: u32) -> OperandEffects {
        let mut given = Vec::new();
        for effect in effects {
            let first = effect.first.identifier;
            match effect.kind {
                0 => given.push((first, FREEZE)),
                1 => given.push((first, STORE)),
                2..=4 => given.push((first, CONDITIONALLY_MUTATE)),
                5..=8 | 10 => {
                    let mutated = self.range(&effect.second).end > order;
                    given.push((first, if mutated { CAPTURE } else { READ }));
                    given.push((effect.second.identifier, STORE));
                }
                _ => {}
            }
        }
        OperandEffects(given)
    }

    /// An operand that is mutated after this order has begun by then.
    fn begin(&mut self, operand: &Place, order: u32) {
        let range = self.range(operand);
        if range.end > order && range.start == UNSET {
            range.start = order;
        }
    }

    fn instruction(&mut self, instruction: &Instruction) {
        let order = instruction.order;
        for lvalue in [&instruction.lvalue].into_iter().chain(&instruction.lvalues) {
            let range = self.range(lvalue);
            if range.start == UNSET {
                range.start = order;
            }
            if range.end == UNSET {
                range.end = order + 1;
            }
        }

        let Some(effects) = &instruction.effects else {
            // Without a list the instruction is left here: no start, no inner context and no
            // store.
            let lvalues = [&instruction.lvalue].into_iter().chain(&instruction.lvalues);
            self.instructions.extend(lvalues.map(|place| marked(place, CONDITIONALLY_MUTATE)));
            let operands = instruction.operands.iter();
            self.instructions.extend(operands.map(|place| marked(place, READ)));
            return;
        };
        let given = self.operand_effects(effects, order);
        self.instructions.push(given.mark(&instruction.lvalue, CONDITIONALLY_MUTATE));
        for lvalue in &instruction.lvalues {
            self.instructions.push(given.mark(lvalue, CONDITIONALLY_MUTATE));
        }
        for operand in &instruction.operands {
            self.begin(operand, order);
            self.instructions.push(given.mark(operand, READ));
        }
        match instruction.value {
            Value::Plain => {}
            // The function's context places are operands too.
            Value::Function(function) => {
                let context = self.contexts[function as usize].clone();
                context.iter().for_each(|place| self.begin(place, order));
                let context = context.iter().map(|place| given.mark(place, READ));
                self.contexts[function as usize] = context.collect();
            }
            Value::StoreContext(identifier) => {
                let range = &mut self.ranges[identifier as usize];
                if range.end <= order {
                    range.end = order + 1;
                }
            }
        }
    }

    fn terminal(&mut self, terminal: &Terminal, function_expression: bool) {
        match terminal {
            Terminal::Return { value, .. } => {
                let effect = if function_expression { READ } else { FREEZE };
                self.terminals.push(marked(value, effect));
            }
            Terminal::Other { operands, .. } => {
                self.terminals.extend(operands.iter().map(|o| marked(o, READ)));
            }
            Terminal::MaybeThrow { .. } => {}
        }
    }

    fn block(&mut self, block: &Block, function_expression: bool) {
        let first = block.instructions.first();
        let first_order = first.map_or(block.terminal.order(), |instruction| instruction.order);
        self.phis(&block.phis, first_order);
        for instruction in &block.instructions {
            self.instruction(instruction);
        }
        self.terminal(&block.terminal, function_expression);
    }
}

/// The pass over all blocks, from the ends that the real walks have left.
pub fn pass(sheet: &Sheet, ends: Vec<u32>) -> Passed {
    let ranges = sheet.identifiers.iter().zip(ends);
    let mut passed = Passed {
        ranges: ranges.map(|(i, end)| Range { start: i.start, end }).collect(),
        contexts: sheet.functions.iter().map(|f| f.context.clone()).collect(),
        phis: Vec::new(),
        instructions: Vec::new(),
        terminals: Vec::new(),
    };
    for block in &sheet.blocks {
        passed.block(block, sheet.function_expression);
    }
    passed
}
