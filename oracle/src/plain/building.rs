//! Building: the nodes, what is stored in them, the mutations and the renders. Refusal 8 for what is
//! stored (document 02, order 10).

use super::sheet::{Diagnostic, Effect, MAX_HELD, Place, Sheet, Terminal};

#[derive(Debug, Clone, Copy, PartialEq, Eq)]
pub enum Value {
    Object,
    Phi,
    Function(u32),
}

/// How a relation is stored.
#[derive(Debug, Clone, Copy, PartialEq, Eq)]
pub enum Relation {
    Capture,
    Alias,
    MaybeAlias,
    CreateFrom,
}

#[derive(Debug, Clone, Copy, PartialEq, Eq, PartialOrd, Ord)]
pub enum Kind {
    Conditional = 1,
    Definite = 2,
}

/// A forward edge, stored at "from".
#[derive(Debug, Clone, Copy, PartialEq, Eq)]
pub struct Edge {
    pub index: u32,
    pub into: u32,
    pub relation: Relation,
}

/// An entry, stored at "into" in the list of its relation.
#[derive(Debug, Clone, Copy, PartialEq, Eq)]
pub struct Entry {
    pub from: u32,
    pub index: u32,
}

#[derive(Debug, Clone, Copy, PartialEq, Eq)]
pub struct Record {
    pub kind: Kind,
    pub span: u32,
}

#[derive(Debug, Clone, PartialEq, Eq)]
pub struct Node {
    pub value: Value,
    pub edges: Vec<Edge>,
    pub created_from: Vec<Entry>,
    pub captures: Vec<Entry>,
    pub aliases: Vec<Entry>,
    pub maybe_aliases: Vec<Entry>,
    pub local: Option<Record>,
    pub transitive: Option<Record>,
    /// The first reason given; 0 for none, 1 for AssignCurrentProperty.
    pub reason: u32,
    /// The largest mutation index.
    pub last: u32,
}

impl Node {
    fn new(value: Value) -> Node {
        Node {
            value,
            edges: Vec::new(),
            created_from: Vec::new(),
            captures: Vec::new(),
            aliases: Vec::new(),
            maybe_aliases: Vec::new(),
            local: None,
            transitive: None,
            reason: 0,
            last: 0,
        }
    }

    pub fn has_record(&self) -> bool {
        self.local.is_some() || self.transitive.is_some()
    }

    /// What is stored at this node: its forward edges, and its entries in all four lists.
    pub fn holds(&self) -> Held {
        let lists = [&self.created_from, &self.captures, &self.aliases, &self.maybe_aliases];
        Held { edges: self.edges.len(), entries: lists.iter().map(|list| list.len()).sum() }
    }

    fn list(&mut self, relation: Relation) -> &mut Vec<Entry> {
        match relation {
            Relation::Capture => &mut self.captures,
            Relation::Alias => &mut self.aliases,
            Relation::MaybeAlias => &mut self.maybe_aliases,
            Relation::CreateFrom => &mut self.created_from,
        }
    }
}

#[derive(Debug, Clone, Copy, PartialEq, Eq)]
pub struct Mutation {
    pub index: u32,
    pub order: u32,
    pub kind: Kind,
    pub transitive: bool,
    pub place: Place,
    pub reason: u32,
}

#[derive(Debug, Clone, Copy, PartialEq, Eq)]
pub struct Render {
    pub index: u32,
    pub place: Place,
}

/// Forward edges and entries held together in the whole graph.
#[derive(Debug, Clone, Copy, PartialEq, Eq, Default)]
pub struct Held {
    pub edges: usize,
    pub entries: usize,
}

impl Held {
    /// "The walk bound reads R as the larger of the two numbers after building."
    pub fn larger(self) -> usize {
        self.edges.max(self.entries)
    }
}

/// What building leaves.
#[derive(Debug, Clone)]
pub struct Built {
    /// One for each identifier; none if it has no node.
    pub nodes: Vec<Option<Node>>,
    pub held: Held,
    pub mutations: Vec<Mutation>,
    pub renders: Vec<Render>,
    pub next_index: u32,
    pub diagnostics: Vec<Diagnostic>,
    pub effects: Vec<Effect>,
}

/// Nothing, or refusal 8.
type Stored = Result<(), u32>;

/// A phi operand whose predecessor has not come yet.
struct Waiting {
    predecessor: u32,
    from: u32,
    into: u32,
    index: u32,
}

impl Built {
    fn exists(&self, identifier: u32) -> bool {
        self.nodes[identifier as usize].is_some()
    }

    /// A node that is created again gives back the places of its own edges and entries. Edges of
    /// others to it, and entries of others from it, stay.
    fn create(&mut self, identifier: u32, value: Value) {
        let node = self.nodes[identifier as usize].replace(Node::new(value));
        if let Some(dropped) = node.map(|node| node.holds()) {
            self.held.edges -= dropped.edges;
            self.held.entries -= dropped.entries;
        }
    }

    fn next(&mut self) -> u32 {
        self.next_index += 1;
        self.next_index - 1
    }

    fn store_edge(&mut self, index: u32, from: u32, into: u32, relation: Relation) -> Stored {
        if let Some(node) = &mut self.nodes[from as usize] {
            if self.held.edges == MAX_HELD {
                return Err(8);
            }
            self.held.edges += 1;
            node.edges.push(Edge { index, into, relation });
        }
        Ok(())
    }

    fn store_entry(&mut self, index: u32, from: u32, into: u32, relation: Relation) -> Stored {
        if let Some(node) = &mut self.nodes[into as usize] {
            let list = node.list(relation);
            if !list.iter().any(|e| e.from == from) {
                if self.held.entries == MAX_HELD {
                    return Err(8);
                }
                self.held.entries += 1;
                list.push(Entry { from, index });
            }
        }
        Ok(())
    }

    fn store(&mut self, index: u32, from: u32, into: u32, relation: Relation) -> Stored {
        if self.exists(from) && self.exists(into) {
            self.store_edge(index, from, into, relation)?;
            self.store_entry(index, from, into, relation)?;
        }
        Ok(())
    }

    fn instruction_effect(&mut self, effect: &Effect, order: u32, errors: bool) -> Stored {
        let (first, second) = (effect.first.identifier, effect.second.identifier);
        match effect.kind {
            1..=4 => {
                let index = self.next();
                self.mutations.push(Mutation {
                    index,
                    order,
                    kind: if effect.kind % 2 == 1 { Kind::Definite } else { Kind::Conditional },
                    transitive: effect.kind >= 3,
                    place: effect.first,
                    reason: if effect.kind == 1 { effect.extra } else { 0 },
                });
            }
            5 => {
                let index = self.next();
                self.store(index, first, second, Relation::Capture)?;
            }
            6 => {
                let index = self.next();
                self.store(index, first, second, Relation::Alias)?;
            }
            7 => {
                let index = self.next();
                self.store(index, first, second, Relation::MaybeAlias)?;
            }
            8 => {
                if !self.exists(second) {
                    self.create(second, Value::Object);
                }
                let index = self.next();
                self.store(index, first, second, Relation::Alias)?;
            }
            9 => self.create(first, Value::Object),
            10 => {
                self.create(second, Value::Object);
                let index = self.next();
                self.store_edge(index, first, second, Relation::CreateFrom)?;
                self.store_entry(index, first, second, Relation::CreateFrom)?;
            }
            13 => self.create(first, Value::Function(effect.extra)),
            14..=16 => {
                if errors {
                    self.diagnostics.push(Diagnostic { identity: effect.extra, instance: second });
                }
                self.effects.push(*effect);
            }
            17 => {
                let index = self.next();
                self.renders.push(Render { index, place: effect.first });
                self.effects.push(*effect);
            }
            _ => {}
        }
        Ok(())
    }
}

/// Errors are recorded if validations is 1 and function expression 0.
pub fn records_errors(sheet: &Sheet) -> bool {
    sheet.validations && !sheet.function_expression
}

/// What building leaves, or refusal 8 if it would hold an edge or an entry too many, whatever is
/// dropped later. An Apply changes nothing here.
pub fn build(sheet: &Sheet) -> Result<Built, u32> {
    let errors = records_errors(sheet);
    let returns = sheet.returns.identifier;
    let mut built = Built {
        nodes: vec![None; sheet.identifiers.len()],
        held: Held::default(),
        mutations: Vec::new(),
        renders: Vec::new(),
        next_index: 0,
        diagnostics: Vec::new(),
        effects: Vec::new(),
    };
    for place in sheet.params.iter().chain(&sheet.context).chain([&sheet.returns]) {
        built.create(place.identifier, Value::Object);
    }

    let mut come: Vec<u32> = Vec::new();
    let mut waiting: Vec<Waiting> = Vec::new();
    for block in &sheet.blocks {
        for phi in &block.phis {
            let into = phi.place.identifier;
            built.create(into, Value::Phi);
            for (predecessor, place) in &phi.operands {
                let (from, index) = (place.identifier, built.next());
                if come.contains(predecessor) {
                    built.store(index, from, into, Relation::Alias)?;
                } else {
                    waiting.push(Waiting { predecessor: *predecessor, from, into, index });
                }
            }
        }
        come.push(block.number);

        for instruction in &block.instructions {
            for effect in instruction.listed() {
                built.instruction_effect(effect, instruction.order, errors)?;
            }
        }

        for w in waiting.iter().filter(|w| w.predecessor == block.number) {
            built.store(w.index, w.from, w.into, Relation::Alias)?;
        }
        if let Terminal::Return { value, .. } = &block.terminal {
            let index = built.next();
            built.store(index, value.identifier, returns, Relation::Alias)?;
        }
        for effect in block.terminal.effects().iter().filter(|e| e.kind == 6) {
            let index = built.next();
            built.store(
                index,
                effect.first.identifier,
                effect.second.identifier,
                Relation::Alias,
            )?;
        }
    }
    Ok(built)
}
