//! Accepted sheets from random numbers: mostly small, with a tail up to the limits.

use crate::plain::sheet::{
    APPLY, Block, Diagnostic, EFFECTS, Effect, Identifier, InnerFunction, Instruction,
    MAX_BLOCK_NUMBER, MAX_DIAGNOSTIC, MAX_HELD, MAX_MUTATIONS, MAX_ORDER, MAX_PLACES, MAX_RANGE,
    MAX_RENDERS, Phi, Place, SHEET_WORDS, Sheet, Terminal, Value, is_mutation, is_render,
};
use crate::random::Random;
use crate::recreated::{self, fitted};

/// How large the parts may become.
struct Size {
    identifiers: usize,
    places: usize,
    functions: usize,
    blocks: usize,
    phis: usize,
    operands: usize,
    instructions: usize,
    effects: usize,
    /// Value lvalues and operands of an instruction, operands of a terminal, context places of
    /// an inner function.
    lists: usize,
}

const TINY: Size = Size {
    identifiers: 5,
    places: 2,
    functions: 2,
    blocks: 3,
    phis: 2,
    operands: 3,
    instructions: 4,
    effects: 4,
    lists: 3,
};

const SMALL: Size = Size {
    identifiers: 16,
    places: 5,
    functions: 4,
    blocks: 6,
    phis: 3,
    operands: 5,
    instructions: 6,
    effects: 5,
    lists: 4,
};

const MIDDLE: Size = Size {
    identifiers: 64,
    places: 12,
    functions: 8,
    blocks: 14,
    phis: 4,
    operands: 8,
    instructions: 9,
    effects: 6,
    lists: 5,
};

const LARGE: Size = Size {
    identifiers: 512,
    places: 64,
    functions: 64,
    blocks: 60,
    phis: 4,
    operands: 10,
    instructions: 12,
    effects: 8,
    lists: 6,
};

/// What is left before a limit.
struct Left {
    words: usize,
    mutations: usize,
    renders: usize,
}

pub struct Generator<'r> {
    pub random: &'r mut Random,
    identifiers: usize,
    functions: usize,
    /// Identifiers drawn more often than others are those below this number.
    hot: usize,
    /// One weight for each effect kind.
    weights: [usize; 18],
    /// Orders and ranges are close together.
    near: bool,
    /// How many of 100 instructions have lists that no form need carry.
    free: usize,
    /// How many of 100 instructions have no list of effects.
    absent: usize,
    left: Left,
}

impl Generator<'_> {
    pub fn identifier(&mut self) -> u32 {
        let limit = if self.random.percent(70) { self.hot } else { self.identifiers };
        self.random.below(limit) as u32
    }

    fn span(&mut self) -> u32 {
        match self.random.below(8) {
            0..3 => 0,
            3..6 => self.random.between(1, 20) as u32,
            6 => self.random.choose(&[u32::MAX, 1 << 31, 65_535, 65_536]),
            _ => self.random.word() as u32,
        }
    }

    pub fn place(&mut self) -> Place {
        Place {
            identifier: self.identifier(),
            traits: self.random.below(16) as u32,
            span: self.span(),
        }
    }

    pub fn order(&mut self) -> u32 {
        if self.near && self.random.percent(90) {
            return self.random.below(7) as u32;
        }
        match self.random.below(20) {
            0 => 0,
            1 => MAX_ORDER,
            2 => self.random.below(MAX_ORDER as usize + 1) as u32,
            _ => self.random.between(1, 60) as u32,
        }
    }

    fn range_word(&mut self) -> u32 {
        if self.near && self.random.percent(50) {
            return self.random.below(9) as u32;
        }
        match self.random.below(12) {
            0 => MAX_RANGE,
            1 => self.random.below(MAX_RANGE as usize + 1) as u32,
            2..5 => self.random.between(1, 60) as u32,
            _ => 0,
        }
    }

    fn kind(&mut self) -> u32 {
        let total: usize = self.weights.iter().sum();
        let mut drawn = self.random.below(total);
        for (kind, weight) in self.weights.iter().enumerate() {
            if drawn < *weight {
                return kind as u32;
            }
            drawn -= weight;
        }
        unreachable!("the weights make the total")
    }

    pub fn effect_of(&mut self, kind: u32) -> Effect {
        let (places, instance, most) = EFFECTS[kind as usize];
        let most = if kind == 13 { self.functions as u32 - 1 } else { most };
        let first = if places >= 1 { self.place() } else { Place::default() };
        let second = if places >= 2 { self.place() } else { Place::default() };
        if instance > 0 {
            let Diagnostic { identity, instance } = self.diagnostic();
            let second = Place { identifier: instance, ..second };
            return Effect { kind, first, second, extra: identity };
        }
        let extra = match self.random.below(4) {
            0 => 0,
            1 => most,
            _ => self.random.below(most as usize + 1) as u32,
        };
        Effect { kind, first, second, extra }
    }

    /// Creations of these identifiers.
    pub fn create_all(&mut self, from: usize, to: usize) -> Vec<Effect> {
        let mut created: Vec<Effect> = (from..to).map(|_| self.effect_of(9)).collect();
        for (identifier, effect) in (from as u32..).zip(&mut created) {
            effect.first.identifier = identifier;
        }
        created
    }

    /// A sheet without blocks.
    pub fn without_blocks(&mut self) -> Sheet {
        self.sheet(&Size { blocks: 0, ..TINY })
    }

    /// An effect that still fits, if one word count does.
    fn effect(&mut self, terminal: bool) -> Option<Effect> {
        if self.left.words < 8 {
            return None;
        }
        let mut kind = if terminal {
            // Every kind may stand in a terminal; Alias is the one that is stored.
            if self.random.percent(50) { 6 } else { self.random.below(18) as u32 }
        } else {
            self.kind()
        };
        if !terminal && kind == APPLY {
            kind = 0;
        }
        if kind == 13 && self.functions == 0 {
            kind = 9;
        }
        if !terminal && is_mutation(kind) {
            if self.left.mutations == 0 {
                return None;
            }
            self.left.mutations -= 1;
        }
        if !terminal && is_render(kind) {
            if self.left.renders == 0 {
                return None;
            }
            self.left.renders -= 1;
        }
        self.left.words -= 8;
        Some(self.effect_of(kind))
    }

    fn effects(&mut self, most: usize, terminal: bool) -> Vec<Effect> {
        let count = self.random.below(most + 1);
        (0..count).map_while(|_| self.effect(terminal)).collect()
    }

    /// The effects of an instruction; the list is absent, empty or full.
    fn instruction_effects(&mut self, most: usize) -> Option<Vec<Effect>> {
        if self.random.percent(self.absent) {
            return None;
        }
        Some(self.effects(most, false))
    }

    /// So many places, or as many as still fit.
    fn list(&mut self, count: usize) -> Vec<Place> {
        let count = count.min(self.left.words / 3);
        self.left.words -= 3 * count;
        (0..count).map(|_| self.place()).collect()
    }

    /// At most so many places; seldom as many as a list may have.
    fn list_of(&mut self, most: usize) -> Vec<Place> {
        let most = if self.random.below(2_000) == 0 { MAX_PLACES as usize } else { most };
        let count = self.random.below(most + 1);
        self.list(count)
    }

    fn function_number(&mut self) -> u32 {
        self.random.below(self.functions) as u32
    }

    /// Lists of any lengths with any value.
    fn free_lists(&mut self, instruction: &mut Instruction, most: usize) {
        instruction.lvalues = self.list_of(most);
        instruction.operands = self.list_of(most);
        instruction.value = match self.random.below(4) {
            0 if self.functions > 0 => Value::Function(self.function_number()),
            0 | 1 => Value::StoreContext(self.identifier()),
            _ => Value::Plain,
        };
    }

    /// Lists that some form of `InstructionValue` carries.
    fn lists(&mut self, instruction: &mut Instruction, most: usize) {
        match self.random.below(20) {
            0..3 if self.functions > 0 => {
                instruction.value = Value::Function(self.function_number());
            }
            // StoreContext: the target is the lvalue and the first operand.
            3..6 if self.left.words >= 9 => {
                instruction.lvalues = self.list(1);
                instruction.operands = self.list(2);
                instruction.lvalues[0].identifier = instruction.operands[0].identifier;
                instruction.value = Value::StoreContext(instruction.operands[1].identifier);
            }
            // Declarations, stores and patterns.
            6..8 => instruction.lvalues = self.list(1),
            8..10 if self.left.words >= 6 => {
                instruction.lvalues = self.list(1);
                instruction.operands = self.list(1);
            }
            10..12 if self.left.words >= 3 => {
                instruction.operands = self.list(1);
                instruction.lvalues = self.list_of(most);
            }
            12..14 => instruction.operands = self.list(1),
            14..16 => instruction.operands = self.list(2),
            16..19 => instruction.operands = self.list_of(most),
            _ => {}
        }
    }

    /// An instruction that still fits.
    fn instruction(&mut self, order: u32, lists: usize) -> Option<Instruction> {
        // Order, lvalue, three counts, value and its word.
        if self.left.words < 9 {
            return None;
        }
        self.left.words -= 9;
        let mut instruction = Instruction::plain(order, Vec::new());
        instruction.lvalue = self.place();
        if self.random.percent(self.free) {
            self.free_lists(&mut instruction, lists);
        } else {
            self.lists(&mut instruction, lists);
        }
        Some(instruction)
    }

    fn phi(&mut self, numbers: &[u32], at: usize, most: usize) -> Phi {
        let place = self.place();
        let mut operands: Vec<(u32, Place)> = Vec::new();
        for _ in 0..self.random.below(most + 1) {
            let predecessor = match self.random.below(10) {
                0 => self.random.below(MAX_BLOCK_NUMBER as usize + 1) as u32,
                1 => numbers[at],
                2..5 => numbers[self.random.between(at, numbers.len() - 1)],
                _ => numbers[self.random.below(at + 1)],
            };
            let fresh = operands.iter().all(|o| o.0 != predecessor);
            if fresh && self.left.words >= 4 {
                self.left.words -= 4;
                operands.push((predecessor, self.place()));
            }
        }
        Phi { place, operands }
    }

    fn block(&mut self, numbers: &[u32], at: usize, size: &Size) -> Option<Block> {
        // Number, two counts and the longest terminal.
        if self.left.words < 10 {
            return None;
        }
        self.left.words -= 10;
        let mut phis = Vec::new();
        for _ in 0..self.random.below(size.phis + 1) {
            if self.left.words >= 4 {
                self.left.words -= 4;
                let mut phi = self.phi(numbers, at, size.operands);
                if let Some(Phi { place, .. }) = phis.last()
                    && self.random.percent(20)
                {
                    phi.place.identifier = place.identifier;
                }
                phis.push(phi);
            }
        }
        let mut instructions = Vec::new();
        for _ in 0..self.random.below(size.instructions + 1) {
            let order = self.order();
            if let Some(mut instruction) = self.instruction(order, size.lists) {
                instruction.effects = self.instruction_effects(size.effects);
                instructions.push(instruction);
            }
        }
        let order = self.order();
        let terminal = match self.random.below(3) {
            0 => Terminal::Other { order, operands: self.list_of(size.lists) },
            1 => {
                let value = self.place();
                Terminal::Return { order, value, effects: self.effects(size.effects, true) }
            }
            _ => Terminal::MaybeThrow { order, effects: self.effects(size.effects, true) },
        };
        Some(Block { number: numbers[at], phis, instructions, terminal })
    }

    /// Different block numbers, in rising order or not.
    fn block_numbers(&mut self, count: usize) -> Vec<u32> {
        let far = self.random.percent(20);
        let mut numbers: Vec<u32> = Vec::new();
        while numbers.len() < count {
            let number = if far {
                self.random.below(MAX_BLOCK_NUMBER as usize + 1) as u32
            } else {
                numbers.len() as u32
            };
            if !numbers.contains(&number) {
                numbers.push(number);
            }
        }
        if far && self.random.percent(30) && !numbers.contains(&MAX_BLOCK_NUMBER) {
            let at = self.random.below(count);
            numbers[at] = MAX_BLOCK_NUMBER;
        }
        for i in (1..count).rev() {
            if self.random.percent(15) {
                numbers.swap(i, self.random.below(i + 1));
            }
        }
        numbers
    }

    /// Half of a diagnostic: often one of a few, so that identities are met with several instances
    /// and the reverse.
    fn diagnostic_word(&mut self) -> u32 {
        match self.random.below(6) {
            0 => MAX_DIAGNOSTIC,
            1..4 => self.random.below(3) as u32,
            _ => self.random.below(MAX_DIAGNOSTIC as usize + 1) as u32,
        }
    }

    fn diagnostic(&mut self) -> Diagnostic {
        Diagnostic { identity: self.diagnostic_word(), instance: self.diagnostic_word() }
    }

    fn places(&mut self, most: usize) -> Vec<Place> {
        let count = self.random.below(most + 1);
        self.left.words = self.left.words.saturating_sub(3 * count);
        (0..count).map(|_| self.place()).collect()
    }

    fn sheet(&mut self, size: &Size) -> Sheet {
        self.left.words -= 16 + 3 * self.identifiers;
        let identifiers = (0..self.identifiers)
            .map(|_| Identifier {
                start: self.range_word(),
                end: self.range_word(),
                type_: self.random.below(3) as u32,
            })
            .collect();
        let functions: Vec<InnerFunction> = (0..self.functions)
            .map(|_| {
                let most = self.random.choose(&[0, 1, 2, 3, 5]);
                let diagnostics: Vec<Diagnostic> =
                    (0..self.random.below(most + 1)).map(|_| self.diagnostic()).collect();
                // Two counts, and a diagnostic that may be added.
                self.left.words -= 2 + 2 * diagnostics.len().max(1);
                InnerFunction { diagnostics, context: self.list_of(size.lists) }
            })
            .collect();
        let params = self.places(size.places);
        let context = self.places(size.places);
        let mut returns = self.place();
        if self.random.percent(20)
            && let Some(place) = params.first().or(context.first())
        {
            returns.identifier = place.identifier;
        }

        let count = self.random.below(size.blocks + 1);
        let numbers = if count == 0 { Vec::new() } else { self.block_numbers(count) };
        let mut blocks: Vec<Block> =
            (0..count).map_while(|at| self.block(&numbers, at, size)).collect();
        // Often most identifiers get a node first.
        let order = self.order();
        if let Some(first) = blocks.first_mut()
            && self.random.percent(60)
            && let Some(mut instruction) = self.instruction(order, size.lists)
        {
            let mut created = Vec::new();
            for identifier in 0..self.identifiers as u32 {
                if self.left.words >= 16 && self.random.percent(75) {
                    let kind = if self.functions > 0 && self.random.percent(25) { 13 } else { 9 };
                    let mut effect = self.effect_of(kind);
                    effect.first.identifier = identifier;
                    self.left.words -= 8;
                    created.push(effect);
                }
            }
            instruction.effects = Some(created);
            first.instructions.insert(0, instruction);
        }
        Sheet {
            function_expression: self.random.percent(30),
            validations: self.random.percent(70),
            identifiers,
            functions,
            params,
            context,
            returns,
            blocks,
        }
    }
}

/// Weights for renders over function nodes, which few mutations disturb.
fn render_weights(random: &mut Random) -> [usize; 18] {
    let mut weights = [0; 18];
    for kind in [5, 6, 7, 8, 10] {
        weights[kind] = random.between(1, 8);
    }
    weights[13] = 6;
    weights[17] = random.between(2, 8);
    weights[random.between(1, 4)] = random.below(2);
    weights
}

fn weights(random: &mut Random) -> [usize; 18] {
    let mut weights = [1; 18];
    match random.below(6) {
        // Every kind alike.
        0 => {}
        // Relations and mutations.
        1 | 2 => {
            for kind in [1, 2, 3, 4, 5, 6, 7, 8, 10] {
                weights[kind] = 8;
            }
        }
        // Nodes created again.
        3 => {
            for kind in [6, 8, 9, 10, 13] {
                weights[kind] = 8;
            }
        }
        // Functions and renders.
        4 => {
            for kind in [3, 5, 6, 13, 17] {
                weights[kind] = 8;
            }
        }
        // A few kinds of their own.
        _ => {
            for _ in 0..4 {
                weights[random.below(18)] = 20;
            }
        }
    }
    weights
}

pub fn generator(random: &mut Random, identifiers: usize, functions: usize) -> Generator<'_> {
    let hot = random.between(1, identifiers.min(8));
    let weights = weights(random);
    let near = random.percent(50);
    let free = if random.percent(15) { 50 } else { 0 };
    let absent = random.choose(&[0, 10, 30, 60]);
    Generator {
        random,
        identifiers,
        functions,
        hot,
        weights,
        near,
        free,
        absent,
        left: Left { words: SHEET_WORDS, mutations: MAX_MUTATIONS, renders: MAX_RENDERS },
    }
}

fn sized(random: &mut Random, size: &Size) -> Sheet {
    let renders = random.percent(15);
    let identifiers = random.between(1, size.identifiers);
    let functions = random.between(renders as usize, size.functions);
    let hot = if random.percent(50) { identifiers } else { random.between(1, identifiers) };
    let mut generator = generator(random, identifiers, functions);
    generator.hot = hot;
    if renders {
        generator.weights = render_weights(generator.random);
    }
    let mut sheet = fitted(generator.sheet(size));
    if renders {
        sheet.validations = true;
        sheet.function_expression = false;
        for (number, function) in (1..).zip(&mut sheet.functions) {
            if function.diagnostics.is_empty() {
                function.diagnostics.push(Diagnostic { identity: number, instance: 100 - number });
            }
        }
    }
    sheet
}

/// An accepted sheet.
pub fn sheet(random: &mut Random) -> Sheet {
    match random.below(1000) {
        0..640 => sized(random, &TINY),
        640..930 => sized(random, &SMALL),
        930..975 => sized(random, &MIDDLE),
        975..985 => recreated::sheet(random),
        985..992 => sized(random, &LARGE),
        _ => {
            let limit = random.choose(&LIMITS);
            at_limit(random, limit)
        }
    }
}

/// A tiny accepted sheet.
pub fn tiny(random: &mut Random) -> Sheet {
    sized(random, &TINY)
}

// =============================================================================
// Limits, met exactly
// =============================================================================

#[derive(Debug, Clone, Copy, PartialEq, Eq)]
pub enum Limit {
    Identifiers,
    Functions,
    FunctionDiagnostics,
    Params,
    Context,
    Blocks,
    Phis,
    Operands,
    Instructions,
    Effects,
    TerminalEffects,
    /// Edges held, of effects and a Return, and of phi operands; entries held, more than edges.
    Relations,
    PhiRelations,
    Entries,
    Mutations,
    Renders,
    InnerContext,
    ValueLvalues,
    InstructionOperands,
    TerminalOperands,
    Words,
    /// A long answer from function nodes and renders; nothing to pass.
    Diagnostics,
}

pub const LIMITS: [Limit; 22] = [
    Limit::Identifiers,
    Limit::Functions,
    Limit::FunctionDiagnostics,
    Limit::Params,
    Limit::Context,
    Limit::Blocks,
    Limit::Phis,
    Limit::Operands,
    Limit::Instructions,
    Limit::Effects,
    Limit::TerminalEffects,
    Limit::Relations,
    Limit::PhiRelations,
    Limit::Entries,
    Limit::Mutations,
    Limit::Renders,
    Limit::InnerContext,
    Limit::ValueLvalues,
    Limit::InstructionOperands,
    Limit::TerminalOperands,
    Limit::Words,
    Limit::Diagnostics,
];

/// Those of the limits that a sheet can pass by one.
pub const PASSABLE: [Limit; 21] = {
    let mut limits = [Limit::Words; 21];
    let mut i = 0;
    while i < limits.len() {
        limits[i] = LIMITS[i];
        i += 1;
    }
    limits
};

pub fn empty_block(number: u32) -> Block {
    Block {
        number,
        phis: Vec::new(),
        instructions: Vec::new(),
        terminal: Terminal::Other { order: 1, operands: Vec::new() },
    }
}

/// A sheet that has `more` above a limit: 0 is accepted, 1 is refused.
fn about_limit(random: &mut Random, limit: Limit, more: usize) -> Sheet {
    let identifiers = match limit {
        Limit::Identifiers => 512,
        Limit::Diagnostics => 256,
        Limit::PhiRelations => random.between(70, 100),
        Limit::Entries => random.between(40, 80),
        _ => random.between(2, 40),
    };
    let mut g = generator(random, identifiers, 3);
    g.hot = identifiers;
    let size = Size { blocks: 2, ..TINY };
    let mut sheet = g.sheet(&size);
    if limit == Limit::Diagnostics {
        return many_diagnostics(&mut g);
    }
    if !matches!(limit, Limit::Identifiers | Limit::Functions | Limit::Params | Limit::Context) {
        sheet.blocks.clear();
    }
    match limit {
        Limit::Identifiers => {
            for _ in 0..more {
                sheet.identifiers.push(Identifier::default());
            }
        }
        Limit::Functions => {
            while sheet.functions.len() < 64 + more {
                sheet.functions.push(InnerFunction::default());
            }
            let mut block = empty_block(65_535);
            let into = g.place();
            let create = Effect { kind: 13, first: into, second: Place::default(), extra: 63 };
            let mut instruction = Instruction::plain(1, vec![create]);
            instruction.value = Value::Function(63);
            block.instructions.push(instruction);
            sheet.blocks = vec![block];
        }
        Limit::FunctionDiagnostics => {
            let diagnostics = (0..64 + more).map(|_| g.diagnostic()).collect();
            sheet.functions = vec![InnerFunction { diagnostics, context: Vec::new() }];
        }
        Limit::InnerContext => {
            // Every function has as many as may be, and each is created by an instruction.
            let mut block = empty_block(0);
            for number in 0..64 {
                let context = g.list(64);
                sheet.functions.resize(number + 1, InnerFunction::default());
                sheet.functions[number].context = context;
                let order = g.order();
                let mut instruction = Instruction::plain(order, vec![g.effect_of(5)]);
                instruction.value = Value::Function(number as u32);
                if number % 4 == 1 {
                    instruction.effects = None;
                }
                block.instructions.push(instruction);
            }
            sheet.functions[63].context.extend(g.list(more));
            sheet.blocks = vec![block];
        }
        Limit::ValueLvalues | Limit::InstructionOperands | Limit::TerminalOperands => {
            let mut block = empty_block(0);
            for i in 0..8 {
                let count = if i == 7 { 64 + more } else { 64 };
                let order = g.order();
                let effects = (0..4).map(|_| g.effect_of(6)).collect();
                let mut instruction = Instruction::plain(order, effects);
                match limit {
                    Limit::ValueLvalues => {
                        instruction.lvalues = g.list(count);
                        instruction.operands = g.list(1);
                    }
                    Limit::InstructionOperands => instruction.operands = g.list(count),
                    _ => {}
                }
                if i % 4 == 1 {
                    instruction.effects = None;
                }
                block.instructions.push(instruction);
            }
            if limit == Limit::TerminalOperands {
                let operands = g.list(64 + more);
                block.terminal = Terminal::Other { order: 9, operands };
            }
            sheet.blocks = vec![block];
        }
        Limit::Params => {
            while sheet.params.len() < 64 + more {
                sheet.params.push(g.place());
            }
        }
        Limit::Context => {
            while sheet.context.len() < 64 + more {
                sheet.context.push(g.place());
            }
        }
        Limit::Blocks => {
            let numbers = g.block_numbers(256 + more);
            sheet.blocks = numbers.iter().map(|&n| empty_block(n)).collect();
        }
        Limit::Phis => {
            let mut block = empty_block(0);
            for _ in 0..1_024 + more {
                block.phis.push(Phi { place: g.place(), operands: Vec::new() });
            }
            sheet.blocks = vec![block];
        }
        Limit::Operands => {
            // The waiting ones come with the second block.
            let mut first = empty_block(1);
            let base = 1;
            let operands = (0..1_024 + more as u32).map(|i| (base + i, g.place())).collect();
            first.phis.push(Phi { place: g.place(), operands });
            sheet.blocks = vec![first, empty_block(2), empty_block(1_024)];
        }
        Limit::Instructions => {
            let mut block = empty_block(0);
            for _ in 0..1_024 + more {
                let order = g.order();
                let mut instruction = Instruction::plain(order, Vec::new());
                instruction.lvalue = g.place();
                if g.random.percent(40) {
                    instruction.effects = None;
                }
                block.instructions.push(instruction);
            }
            sheet.blocks = vec![block];
        }
        Limit::Effects | Limit::TerminalEffects => {
            let effects = (0..1_024 + more)
                .map(|_| {
                    let kind = g.random.choose(&[0, 9, 11, 14, 15]);
                    g.effect_of(kind)
                })
                .collect();
            let mut block = empty_block(0);
            if limit == Limit::Effects {
                block.instructions.push(Instruction::plain(1, effects));
            } else {
                block.terminal = Terminal::MaybeThrow { order: 1, effects };
            }
            sheet.blocks = vec![block];
        }
        Limit::Relations => {
            let mut block = empty_block(0);
            let mut effects = g.create_all(0, identifiers);
            for _ in 0..1_000 {
                let kind = g.random.choose(&[5, 6, 6, 7, 8]);
                effects.push(g.effect_of(kind));
                if effects.len() < 1_000 && g.random.percent(3) {
                    let kind = g.random.between(1, 4) as u32;
                    effects.push(g.effect_of(kind));
                }
            }
            for part in effects.chunks(500) {
                let order = g.order();
                block.instructions.push(Instruction::plain(order, part.to_vec()));
            }
            let value = g.place();
            let aliases = (0..23 + more).map(|_| g.effect_of(6)).collect();
            block.terminal = Terminal::Return { order: 9, value, effects: aliases };
            sheet.blocks = vec![block];
        }
        Limit::PhiRelations => {
            // All predecessors have come. The phis are the identifiers below 64, their operands others.
            let mut blocks: Vec<Block> = (0..20).map(empty_block).collect();
            blocks[0].instructions.push(Instruction::plain(1, g.create_all(0, identifiers)));
            let mut block = empty_block(20);
            for i in 0..MAX_HELD as u32 / 16 {
                let mut operand = || {
                    let identifier = g.random.between(64, identifiers - 1) as u32;
                    Place { identifier, ..g.place() }
                };
                let operands = (0..16).map(|o| ((i + o) % 20, operand())).collect();
                let place = Place { identifier: i, ..g.place() };
                block.phis.push(Phi { place, operands });
            }
            let mut last = empty_block(21);
            for _ in 0..more {
                let value = g.place();
                last.terminal = Terminal::Return { order: 5, value, effects: Vec::new() };
            }
            let mutations = (0..40)
                .map(|_| {
                    let kind = g.random.between(1, 4) as u32;
                    g.effect_of(kind)
                })
                .collect();
            last.instructions.push(Instruction::plain(4, mutations));
            blocks.extend([block, last]);
            sheet.blocks = blocks;
        }
        Limit::Entries => {
            // CreateFrom without a node at "from" holds an entry alone; then every relation is
            // another one.
            sheet.params.clear();
            sheet.context.clear();
            let missing = identifiers as u32 - 1;
            sheet.returns.identifier = 0;
            let mut block = empty_block(0);
            let mut created: Vec<Effect> = (0..missing).map(|_| g.effect_of(10)).collect();
            for (into, effect) in (0..).zip(&mut created) {
                effect.first.identifier = missing;
                effect.second.identifier = into;
            }
            block.instructions.push(Instruction::plain(1, created));
            let mut pairs: Vec<(u32, u32, u32)> = Vec::new();
            while pairs.len() < MAX_HELD - missing as usize + more {
                let node = |g: &mut Generator| g.random.below(missing as usize) as u32;
                let kind = g.random.choose(&[5, 6, 7]);
                let pair = (kind, node(&mut g), node(&mut g));
                if !pairs.contains(&pair) {
                    pairs.push(pair);
                }
            }
            let mut effects: Vec<Effect> = Vec::new();
            for (kind, from, into) in pairs {
                let mut effect = g.effect_of(kind);
                effect.first.identifier = from;
                effect.second.identifier = into;
                effects.push(effect);
            }
            let mutations = (0..20).map(|_| g.random.between(1, 4) as u32);
            let mutations: Vec<u32> = mutations.collect();
            effects.extend(mutations.into_iter().map(|kind| g.effect_of(kind)));
            for part in effects.chunks(500) {
                let order = g.order();
                block.instructions.push(Instruction::plain(order, part.to_vec()));
            }
            sheet.blocks = vec![block];
        }
        Limit::Mutations => {
            let mut block = empty_block(0);
            for _ in 0..(512 + more) / 8 + 1 {
                let order = g.order();
                block.instructions.push(Instruction::plain(order, Vec::new()));
            }
            for i in 0..512 + more {
                let kind = g.random.between(1, 4) as u32;
                let mutation = g.effect_of(kind);
                let relation = g.random.choose(&[5, 6, 7, 8, 10]);
                let relation = g.effect_of(relation);
                let effects = block.instructions[i / 8].effects.get_or_insert_default();
                effects.extend([relation, mutation]);
            }
            sheet.blocks = vec![block];
        }
        Limit::Renders => {
            let mut block = empty_block(0);
            for _ in 0..256 + more {
                let other = g.random.choose(&[5, 6, 8, 10, 13]);
                let effects = vec![g.effect_of(other), g.effect_of(17)];
                let order = g.order();
                block.instructions.push(Instruction::plain(order, effects));
            }
            sheet.blocks = vec![block];
        }
        Limit::Words => {
            let mut block = empty_block(0);
            let target = SHEET_WORDS + more;
            sheet.blocks = vec![block.clone()];
            let mut left = target - sheet.words().len();
            while left >= 16 {
                let count = ((left - 8) / 8).min(g.random.between(1, 600));
                let effects = (0..count)
                    .map(|_| {
                        let kind = g.random.choose(&[0, 9, 11, 13, 14, 15, 16]);
                        g.effect_of(kind)
                    })
                    .collect();
                block.instructions.push(Instruction::plain(1, effects));
                left -= 8 + 8 * count;
            }
            // What is left is made up by functions, of two words each, and a value's own word.
            if left % 2 == 1 {
                block.instructions[0].value = Value::Function(0);
            }
            for _ in 0..left / 2 {
                sheet.functions.push(InnerFunction::default());
            }
            sheet.blocks = vec![block];
        }
        Limit::Diagnostics => unreachable!("made above"),
    }
    sheet
}

/// What a total counts, and how it is filled.
#[derive(Clone, Copy, PartialEq, Eq)]
enum Fill {
    Mutations,
    Renders,
}

impl Fill {
    /// Effects that count to the total.
    fn kinds(self) -> &'static [u32] {
        match self {
            Fill::Mutations => &[1, 2, 3, 4],
            Fill::Renders => &[17],
        }
    }
}

/// A sheet with a total nearly met by its first block; the others meet it or pass it, or they do
/// not, anywhere in them. It has no Apply, and no other fault.
pub fn about_total(random: &mut Random) -> Sheet {
    let identifiers = random.between(2, 16);
    let mut g = generator(random, identifiers, 2);
    let mut sheet = g.without_blocks();
    let fill = g.random.choose(&[Fill::Mutations, Fill::Renders]);
    let total = match fill {
        Fill::Mutations => MAX_MUTATIONS,
        Fill::Renders => MAX_RENDERS,
    };
    let mut left = total - g.random.choose(&[0, 0, 1, 2, 3, 5, 9]);
    let count = g.random.between(1, 5);
    let numbers = g.block_numbers(count);
    let mut filled = empty_block(numbers[0]);
    while left > 0 {
        let part = left.min(g.random.between(1, 400));
        left -= part;
        let kinds: Vec<u32> = (0..part).map(|_| g.random.choose(fill.kinds())).collect();
        let effects = kinds.into_iter().map(|kind| g.effect_of(kind)).collect();
        let order = g.order();
        filled.instructions.push(Instruction::plain(order, effects));
    }
    sheet.blocks = vec![filled];
    // From here on nothing but the words has a limit.
    let words = SHEET_WORDS - sheet.words().len();
    g.left = Left { words, mutations: usize::MAX, renders: usize::MAX };
    fill.kinds().iter().for_each(|&kind| g.weights[kind as usize] += 3);
    sheet.blocks.extend((1..count).map_while(|at| g.block(&numbers, at, &SMALL)));
    sheet
}

/// Many function nodes handed over by many renders.
fn many_diagnostics(g: &mut Generator) -> Sheet {
    let diagnostics = (0..64).map(|_| g.diagnostic()).collect();
    let function = InnerFunction { diagnostics, context: Vec::new() };
    let nodes = g.random.between(2, 200) as u32;
    let renders = g.random.between(1, 60);
    let place = |identifier| Place { identifier, traits: 0, span: 0 };
    let mut effects = Vec::new();
    for i in 0..nodes {
        let create = Effect { kind: 13, first: place(i), ..Effect::default() };
        effects.push(create);
        if i > 0 {
            let kind = g.random.choose(&[5, 6, 8]);
            let relation =
                Effect { kind, first: place(i), second: place(i - 1), ..Effect::default() };
            effects.push(relation);
        }
    }
    let render = Effect { kind: 17, ..Effect::default() };
    effects.extend(std::iter::repeat_n(render, renders));
    let mut block = empty_block(0);
    block.instructions.push(Instruction::plain(1, effects));
    Sheet {
        function_expression: false,
        validations: true,
        identifiers: vec![Identifier::default(); g.identifiers],
        functions: vec![function],
        params: Vec::new(),
        context: Vec::new(),
        returns: place(g.identifiers as u32 - 1),
        blocks: vec![block],
    }
}

/// An accepted sheet that meets the limit exactly.
pub fn at_limit(random: &mut Random, limit: Limit) -> Sheet {
    about_limit(random, limit, 0)
}

/// A sheet that passes one of the `PASSABLE` limits by one.
pub fn past_limit(random: &mut Random, limit: Limit) -> Sheet {
    about_limit(random, limit, 1)
}
