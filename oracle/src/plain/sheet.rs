//! The sheet: its parts, its words, and the reading of words (refusals 2 to 8; that of building is
//! not among them).

pub const SHEET_WORDS: usize = 16_384;
pub const WORKSPACE_WORDS: usize = 16_384;

pub const MAX_IDENTIFIERS: u32 = 512;
pub const MAX_FUNCTIONS: u32 = 64;
pub const MAX_FUNCTION_DIAGNOSTICS: u32 = 64;
pub const MAX_PLACES: u32 = 64;
pub const MAX_BLOCKS: u32 = 256;
pub const MAX_COUNT: u32 = 1_024;

/// An instruction's effect count that means that the list is absent.
pub const ABSENT: u32 = 4_294_967_295;

pub const MAX_RANGE: u32 = 1_000_000;
pub const MAX_TYPE: u32 = 2;
pub const MAX_ORDER: u32 = 999_999;
pub const MAX_BLOCK_NUMBER: u32 = 65_535;
pub const MAX_DIAGNOSTIC: u32 = 65_535;
pub const MAX_TRAITS: u32 = 15;
pub const MAX_KIND: u32 = 17;
pub const MAX_TERMINAL: u32 = 2;
pub const MAX_VALUE: u32 = 2;

/// Forward edges held together, and likewise entries.
pub const MAX_HELD: usize = 1_024;
pub const MAX_MUTATIONS: usize = 512;
pub const MAX_RENDERS: usize = 256;

/// Places, largest first word of an unused second place, and largest extra word, by effect kind.
pub const EFFECTS: [(u32, u32, u32); 18] = [
    (1, 0, 11),          // 0 Freeze
    (1, 0, 1),           // 1 Mutate
    (1, 0, 0),           // 2 MutateConditionally
    (1, 0, 0),           // 3 MutateTransitive
    (1, 0, 0),           // 4 MutateTransitiveConditionally
    (2, 0, 0),           // 5 Capture
    (2, 0, 0),           // 6 Alias
    (2, 0, 0),           // 7 MaybeAlias
    (2, 0, 0),           // 8 Assign
    (1, 0, 71),          // 9 Create
    (2, 0, 0),           // 10 CreateFrom
    (2, 0, 0),           // 11 ImmutableCapture
    (0, 0, 0),           // 12 Apply
    (1, 0, 63),          // 13 CreateFunction, and below the count of inner functions
    (1, 65_535, 65_535), // 14 MutateFrozen: instance, identity
    (1, 65_535, 65_535), // 15 MutateGlobal
    (1, 65_535, 65_535), // 16 Impure
    (1, 0, 0),           // 17 Render
];

#[derive(Debug, Clone, Copy, PartialEq, Eq, Default)]
pub struct Diagnostic {
    pub identity: u32,
    pub instance: u32,
}

#[derive(Debug, Clone, Copy, PartialEq, Eq, Default)]
pub struct Place {
    pub identifier: u32,
    pub traits: u32,
    pub span: u32,
}

#[derive(Debug, Clone, Copy, PartialEq, Eq, Default)]
pub struct Effect {
    pub kind: u32,
    pub first: Place,
    pub second: Place,
    pub extra: u32,
}

#[derive(Debug, Clone, Copy, PartialEq, Eq, Default)]
pub struct Identifier {
    pub start: u32,
    pub end: u32,
    pub type_: u32,
}

#[derive(Debug, Clone, PartialEq, Eq)]
pub struct Phi {
    pub place: Place,
    /// Predecessor's number and place.
    pub operands: Vec<(u32, Place)>,
}

/// What an instruction's value is to the pass over operands.
#[derive(Debug, Clone, Copy, PartialEq, Eq)]
pub enum Value {
    Plain,
    /// FunctionExpression or ObjectMethod of an inner function.
    Function(u32),
    /// StoreContext of an identifier.
    StoreContext(u32),
}

#[derive(Debug, Clone, PartialEq, Eq)]
pub struct Instruction {
    pub order: u32,
    pub lvalue: Place,
    /// The value's lvalues and operands, in the visitors' order.
    pub lvalues: Vec<Place>,
    pub operands: Vec<Place>,
    pub value: Value,
    /// None if the list is absent, which is not an empty one.
    pub effects: Option<Vec<Effect>>,
}

impl Instruction {
    /// With lvalue place 0, empty lists and value 0.
    pub fn plain(order: u32, effects: Vec<Effect>) -> Instruction {
        Instruction {
            order,
            lvalue: Place::default(),
            lvalues: Vec::new(),
            operands: Vec::new(),
            value: Value::Plain,
            effects: Some(effects),
        }
    }

    /// The effects; an absent list has none.
    pub fn listed(&self) -> &[Effect] {
        self.effects.as_deref().unwrap_or(&[])
    }
}

#[derive(Debug, Clone, PartialEq, Eq)]
pub enum Terminal {
    Other { order: u32, operands: Vec<Place> },
    Return { order: u32, value: Place, effects: Vec<Effect> },
    MaybeThrow { order: u32, effects: Vec<Effect> },
}

#[derive(Debug, Clone, PartialEq, Eq)]
pub struct Block {
    pub number: u32,
    pub phis: Vec<Phi>,
    pub instructions: Vec<Instruction>,
    pub terminal: Terminal,
}

#[derive(Debug, Clone, PartialEq, Eq, Default)]
pub struct InnerFunction {
    pub diagnostics: Vec<Diagnostic>,
    pub context: Vec<Place>,
}

#[derive(Debug, Clone, PartialEq, Eq)]
pub struct Sheet {
    pub function_expression: bool,
    pub validations: bool,
    pub identifiers: Vec<Identifier>,
    pub functions: Vec<InnerFunction>,
    pub params: Vec<Place>,
    pub context: Vec<Place>,
    pub returns: Place,
    pub blocks: Vec<Block>,
}

#[derive(Debug, Clone, Copy, PartialEq, Eq, Default)]
pub struct Totals {
    pub relations: usize,
    pub mutations: usize,
    pub renders: usize,
}

impl Terminal {
    pub fn order(&self) -> u32 {
        match self {
            Terminal::Other { order, .. }
            | Terminal::Return { order, .. }
            | Terminal::MaybeThrow { order, .. } => *order,
        }
    }

    pub fn effects(&self) -> &[Effect] {
        match self {
            Terminal::Other { .. } => &[],
            Terminal::Return { effects, .. } | Terminal::MaybeThrow { effects, .. } => effects,
        }
    }
}

pub fn is_relation(kind: u32) -> bool {
    matches!(kind, 5 | 6 | 7 | 8 | 10)
}

pub fn is_mutation(kind: u32) -> bool {
    matches!(kind, 1..=4)
}

pub fn is_render(kind: u32) -> bool {
    kind == 17
}

pub const APPLY: u32 = 12;

impl Sheet {
    /// With validations, identifiers of which nothing is known, no inner function and no context.
    pub fn plain(
        identifiers: usize,
        params: Vec<Place>,
        returns: Place,
        blocks: Vec<Block>,
    ) -> Sheet {
        Sheet {
            function_expression: false,
            validations: true,
            identifiers: vec![Identifier::default(); identifiers],
            functions: Vec::new(),
            params,
            context: Vec::new(),
            returns,
            blocks,
        }
    }

    /// Every effect, in terminals too.
    pub fn effects_mut(&mut self) -> Vec<&mut Effect> {
        let mut all: Vec<&mut Effect> = Vec::new();
        for block in &mut self.blocks {
            all.extend(block.instructions.iter_mut().flat_map(|i| &mut i.effects).flatten());
            match &mut block.terminal {
                Terminal::Other { .. } => {}
                Terminal::Return { effects, .. } | Terminal::MaybeThrow { effects, .. } => {
                    all.extend(effects);
                }
            }
        }
        all
    }

    /// Every place, unused ones of effects too.
    pub fn places_mut(&mut self) -> Vec<&mut Place> {
        let mut all: Vec<&mut Place> = Vec::new();
        all.extend(self.functions.iter_mut().flat_map(|f| &mut f.context));
        all.extend(&mut self.params);
        all.extend(&mut self.context);
        all.push(&mut self.returns);
        for block in &mut self.blocks {
            for phi in &mut block.phis {
                all.push(&mut phi.place);
                all.extend(phi.operands.iter_mut().map(|o| &mut o.1));
            }
            for instruction in &mut block.instructions {
                all.push(&mut instruction.lvalue);
                all.extend(&mut instruction.lvalues);
                all.extend(&mut instruction.operands);
                let effects = instruction.effects.iter_mut().flatten();
                all.extend(effects.flat_map(|e| [&mut e.first, &mut e.second]));
            }
            match &mut block.terminal {
                Terminal::Other { operands, .. } => all.extend(operands),
                Terminal::Return { value, effects, .. } => {
                    all.push(value);
                    all.extend(effects.iter_mut().flat_map(|e| [&mut e.first, &mut e.second]));
                }
                Terminal::MaybeThrow { effects, .. } => {
                    all.extend(effects.iter_mut().flat_map(|e| [&mut e.first, &mut e.second]));
                }
            }
        }
        all
    }

    /// Whether Apply is among an instruction's effects.
    pub fn applies(&self) -> bool {
        let mut instructions = self.blocks.iter().flat_map(|b| &b.instructions);
        instructions.any(|i| i.listed().iter().any(|e| e.kind == APPLY))
    }

    /// Relation effects, mutations and renders.
    pub fn totals(&self) -> Totals {
        let mut totals = Totals::default();
        for block in &self.blocks {
            for phi in &block.phis {
                totals.relations += phi.operands.len();
            }
            for effect in block.instructions.iter().flat_map(Instruction::listed) {
                totals.relations += is_relation(effect.kind) as usize;
                totals.mutations += is_mutation(effect.kind) as usize;
                totals.renders += is_render(effect.kind) as usize;
            }
            if let Terminal::Return { .. } = block.terminal {
                totals.relations += 1;
            }
            for effect in block.terminal.effects() {
                totals.relations += (effect.kind == 6) as usize;
            }
        }
        totals
    }
}

// =============================================================================
// Words of a sheet
// =============================================================================

pub fn put_diagnostic(words: &mut Vec<u32>, diagnostic: &Diagnostic) {
    words.extend([diagnostic.identity, diagnostic.instance]);
}

pub fn put_place(words: &mut Vec<u32>, place: &Place) {
    words.extend([place.identifier, place.traits, place.span]);
}

pub fn put_effect(words: &mut Vec<u32>, effect: &Effect) {
    words.push(effect.kind);
    put_place(words, &effect.first);
    put_place(words, &effect.second);
    words.push(effect.extra);
}

fn put_places(words: &mut Vec<u32>, places: &[Place]) {
    words.push(places.len() as u32);
    for place in places {
        put_place(words, place);
    }
}

fn put_effects(words: &mut Vec<u32>, effects: &[Effect]) {
    words.push(effects.len() as u32);
    for effect in effects {
        put_effect(words, effect);
    }
}

fn put_block(words: &mut Vec<u32>, block: &Block) {
    words.push(block.number);
    words.push(block.phis.len() as u32);
    for phi in &block.phis {
        put_place(words, &phi.place);
        words.push(phi.operands.len() as u32);
        for (predecessor, place) in &phi.operands {
            words.push(*predecessor);
            put_place(words, place);
        }
    }
    words.push(block.instructions.len() as u32);
    for instruction in &block.instructions {
        words.push(instruction.order);
        put_place(words, &instruction.lvalue);
        put_places(words, &instruction.lvalues);
        put_places(words, &instruction.operands);
        match instruction.value {
            Value::Plain => words.push(0),
            Value::Function(function) => words.extend([1, function]),
            Value::StoreContext(identifier) => words.extend([2, identifier]),
        }
        match &instruction.effects {
            Some(effects) => put_effects(words, effects),
            None => words.push(ABSENT),
        }
    }
    match &block.terminal {
        Terminal::Other { order, operands } => {
            words.extend([0, *order]);
            put_places(words, operands);
        }
        Terminal::Return { order, value, effects } => {
            words.extend([1, *order]);
            put_place(words, value);
            put_effects(words, effects);
            put_places(words, &[]);
        }
        Terminal::MaybeThrow { order, effects } => {
            words.extend([2, *order]);
            put_effects(words, effects);
            put_places(words, &[]);
        }
    }
}

impl Sheet {
    pub fn words(&self) -> Vec<u32> {
        let mut words = vec![2, self.function_expression as u32, self.validations as u32];
        words.push(self.identifiers.len() as u32);
        for identifier in &self.identifiers {
            words.extend([identifier.start, identifier.end, identifier.type_]);
        }
        words.push(self.functions.len() as u32);
        for function in &self.functions {
            words.push(function.diagnostics.len() as u32);
            function.diagnostics.iter().for_each(|d| put_diagnostic(&mut words, d));
            put_places(&mut words, &function.context);
        }
        put_places(&mut words, &self.params);
        put_places(&mut words, &self.context);
        put_places(&mut words, &[self.returns]);
        words.push(self.blocks.len() as u32);
        for block in &self.blocks {
            put_block(&mut words, block);
        }
        words
    }
}

// =============================================================================
// Reading
// =============================================================================

struct Reader<'s> {
    words: &'s [u32],
    at: usize,
    /// Number of identifiers and of inner functions, once read.
    identifiers: u32,
    functions: u32,
    /// What has been counted so far.
    totals: Totals,
}

type Read<T> = Result<T, u32>;

/// Whose effect it is: in terminals Alias alone counts.
#[derive(Clone, Copy, PartialEq, Eq)]
enum Of {
    Instruction,
    Terminal,
}

impl Reader<'_> {
    fn word(&mut self) -> Read<u32> {
        let word = *self.words.get(self.at).ok_or(3_u32)?;
        self.at += 1;
        Ok(word)
    }

    fn count(&mut self, limit: u32) -> Read<u32> {
        let count = self.word()?;
        if count > limit { Err(4) } else { Ok(count) }
    }

    fn fixed_count(&mut self, fixed: u32) -> Read<()> {
        if self.word()? != fixed { Err(4) } else { Ok(()) }
    }

    fn at_most(&mut self, limit: u32) -> Read<u32> {
        let word = self.word()?;
        if word > limit { Err(5) } else { Ok(word) }
    }

    fn below(&mut self, limit: u32) -> Read<u32> {
        let word = self.word()?;
        if word >= limit { Err(5) } else { Ok(word) }
    }

    fn times<T>(&mut self, count: u32, mut part: impl FnMut(&mut Self) -> Read<T>) -> Read<Vec<T>> {
        let mut parts = Vec::new();
        for _ in 0..count {
            parts.push(part(self)?);
        }
        Ok(parts)
    }

    fn identifier(&mut self) -> Read<Identifier> {
        let start = self.at_most(MAX_RANGE)?;
        let end = self.at_most(MAX_RANGE)?;
        let type_ = self.at_most(MAX_TYPE)?;
        Ok(Identifier { start, end, type_ })
    }

    fn diagnostic(&mut self) -> Read<Diagnostic> {
        let identity = self.at_most(MAX_DIAGNOSTIC)?;
        let instance = self.at_most(MAX_DIAGNOSTIC)?;
        Ok(Diagnostic { identity, instance })
    }

    fn function(&mut self) -> Read<InnerFunction> {
        let count = self.count(MAX_FUNCTION_DIAGNOSTICS)?;
        let diagnostics = self.times(count, Self::diagnostic)?;
        let context = self.places()?;
        Ok(InnerFunction { diagnostics, context })
    }

    /// The effect of the kind read last counts, in an instruction.
    fn one_effect(&mut self, kind: u32, of: Of) -> Read<()> {
        if of == Of::Terminal {
            return Ok(());
        }
        self.totals.mutations += is_mutation(kind) as usize;
        self.totals.renders += is_render(kind) as usize;
        let over = self.totals.mutations > MAX_MUTATIONS || self.totals.renders > MAX_RENDERS;
        if over { Err(8) } else { Ok(()) }
    }

    fn place(&mut self) -> Read<Place> {
        let identifier = self.below(self.identifiers)?;
        let traits = self.at_most(MAX_TRAITS)?;
        let span = self.word()?;
        Ok(Place { identifier, traits, span })
    }

    fn places(&mut self) -> Read<Vec<Place>> {
        let count = self.count(MAX_PLACES)?;
        self.times(count, Self::place)
    }

    /// An unused place, whose first word can be an instance.
    fn unused_place(&mut self, most: u32) -> Read<Place> {
        let identifier = self.at_most(most)?;
        for _ in 0..2 {
            self.at_most(0)?;
        }
        Ok(Place { identifier, ..Place::default() })
    }

    fn effect(&mut self, of: Of) -> Read<Effect> {
        let kind = self.at_most(MAX_KIND)?;
        self.one_effect(kind, of)?;
        let (places, instance, most) = EFFECTS[kind as usize];
        let first = if places >= 1 { self.place()? } else { self.unused_place(0)? };
        let second = if places >= 2 { self.place()? } else { self.unused_place(instance)? };
        let extra = self.at_most(most)?;
        if kind == 13 && extra >= self.functions {
            return Err(5);
        }
        Ok(Effect { kind, first, second, extra })
    }

    fn effects(&mut self, of: Of) -> Read<Vec<Effect>> {
        let count = self.count(MAX_COUNT)?;
        self.times(count, |r| r.effect(of))
    }

    /// The effects of an instruction, whose list can be absent.
    fn instruction_effects(&mut self) -> Read<Option<Vec<Effect>>> {
        if self.words.get(self.at) == Some(&ABSENT) {
            self.at += 1;
            return Ok(None);
        }
        self.effects(Of::Instruction).map(Some)
    }

    /// A block number that is not among those before it.
    fn fresh_number(&mut self, before: &[u32]) -> Read<u32> {
        let number = self.at_most(MAX_BLOCK_NUMBER)?;
        if before.contains(&number) { Err(6) } else { Ok(number) }
    }

    fn phi(&mut self) -> Read<Phi> {
        let place = self.place()?;
        let count = self.count(MAX_COUNT)?;
        let mut predecessors = Vec::new();
        let operands = self.times(count, |r| {
            let predecessor = r.fresh_number(&predecessors)?;
            predecessors.push(predecessor);
            Ok((predecessor, r.place()?))
        })?;
        Ok(Phi { place, operands })
    }

    fn instruction(&mut self) -> Read<Instruction> {
        let order = self.at_most(MAX_ORDER)?;
        let lvalue = self.place()?;
        let lvalues = self.places()?;
        let operands = self.places()?;
        let value = self.value()?;
        let effects = self.instruction_effects()?;
        Ok(Instruction { order, lvalue, lvalues, operands, value, effects })
    }

    fn value(&mut self) -> Read<Value> {
        Ok(match self.at_most(MAX_VALUE)? {
            0 => Value::Plain,
            1 => Value::Function(self.below(self.functions)?),
            _ => Value::StoreContext(self.below(self.identifiers)?),
        })
    }

    fn terminal(&mut self) -> Read<Terminal> {
        let kind = self.at_most(MAX_TERMINAL)?;
        let order = self.at_most(MAX_ORDER)?;
        Ok(match kind {
            0 => Terminal::Other { order, operands: self.places()? },
            1 => {
                let value = self.place()?;
                let effects = self.effects(Of::Terminal)?;
                self.fixed_count(0)?;
                Terminal::Return { order, value, effects }
            }
            _ => {
                let effects = self.effects(Of::Terminal)?;
                self.fixed_count(0)?;
                Terminal::MaybeThrow { order, effects }
            }
        })
    }

    fn block(&mut self, before: &mut Vec<u32>) -> Read<Block> {
        let number = self.fresh_number(before)?;
        before.push(number);
        let count = self.count(MAX_COUNT)?;
        let phis = self.times(count, Self::phi)?;
        let count = self.count(MAX_COUNT)?;
        let instructions = self.times(count, Self::instruction)?;
        let terminal = self.terminal()?;
        Ok(Block { number, phis, instructions, terminal })
    }

    fn sheet(&mut self) -> Read<Sheet> {
        self.fixed_count(2)?;
        let function_expression = self.at_most(1)? == 1;
        let validations = self.at_most(1)? == 1;

        self.identifiers = self.count(MAX_IDENTIFIERS)?;
        let identifiers = self.times(self.identifiers, Self::identifier)?;
        self.functions = self.count(MAX_FUNCTIONS)?;
        let functions = self.times(self.functions, Self::function)?;
        let params = self.places()?;
        let context = self.places()?;
        self.fixed_count(1)?;
        let returns = self.place()?;

        let count = self.count(MAX_BLOCKS)?;
        let mut numbers = Vec::new();
        let blocks = self.times(count, |r| r.block(&mut numbers))?;
        Ok(Sheet {
            function_expression,
            validations,
            identifiers,
            functions,
            params,
            context,
            returns,
            blocks,
        })
    }
}

/// The sheet's parts, or the refusal that its words give, 2 to 8.
pub fn read_words(words: &[u32]) -> Result<Sheet, u32> {
    if words.len() > SHEET_WORDS {
        return Err(2);
    }
    let totals = Totals::default();
    let mut reader = Reader { words, at: 0, identifiers: 0, functions: 0, totals };
    let sheet = reader.sheet()?;
    if reader.at < words.len() { Err(7) } else { Ok(sheet) }
}
