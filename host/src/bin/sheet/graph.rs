//! The alias graph of a sheet, as document 01 builds it ("Building"; docs/FORMAT.md says what
//! document 01 is), where each relation also knows from which part of the sheet it comes.

use service_host::{
    AliasingEffect, BlockId, EffectKind, EvaluationOrder, IdentifierId, Sheet, Terminal,
};

/// How a relation is stored.
#[derive(Debug, Clone, Copy, PartialEq, Eq)]
pub enum Relation {
    CreateFrom,
    Alias,
    MaybeAlias,
    Capture,
}

/// The part of the sheet that a relation or a mutation comes from.
#[derive(Debug, Clone, Copy, PartialEq, Eq)]
pub enum Origin {
    Instruction { effect: AliasingEffect, order: EvaluationOrder, block: BlockId },
    TerminalEffect { effect: AliasingEffect, order: EvaluationOrder, block: BlockId },
    Operand { phi: IdentifierId, predecessor: BlockId, block: BlockId },
    Return { order: EvaluationOrder, block: BlockId },
}

/// A relation, with the index at which it came.
#[derive(Debug, Clone, Copy, PartialEq, Eq)]
pub struct Link {
    pub relation: Relation,
    pub from: IdentifierId,
    pub into: IdentifierId,
    pub index: u32,
    pub origin: Origin,
}

#[derive(Debug, Clone, PartialEq, Eq)]
pub struct Node {
    pub is_phi: bool,
    /// The relations from it, in stored order.
    pub edges: Vec<Link>,
    /// The relations into it, in stored order.
    pub entries: Vec<Link>,
}

/// Conditional is below Definite.
#[derive(Debug, Clone, Copy, PartialEq, Eq, PartialOrd, Ord)]
pub enum MutationKind {
    Conditional,
    Definite,
}

#[derive(Debug, Clone, Copy, PartialEq, Eq)]
pub struct Mutation {
    pub index: u32,
    pub order: EvaluationOrder,
    pub kind: MutationKind,
    pub transitive: bool,
    pub identifier: IdentifierId,
    pub span: u32,
    pub origin: Origin,
}

/// What building leaves.
#[derive(Debug, Clone)]
pub struct Graph {
    /// One for each identifier.
    pub nodes: Vec<Option<Node>>,
    pub mutations: Vec<Mutation>,
    next_index: u32,
}

impl Graph {
    pub fn build(sheet: &Sheet) -> Graph {
        let nodes = vec![None; sheet.identifiers().len()];
        let mut graph = Graph { nodes, mutations: Vec::new(), next_index: 0 };
        for place in sheet.params().iter().chain(sheet.context()).chain([&sheet.returns()]) {
            graph.create(place.identifier, false);
        }
        let mut come = Vec::new();
        // Phi operands whose predecessor has not come yet.
        let mut waiting = Vec::new();
        for block in sheet.blocks() {
            let number = block.number;
            for phi in &block.phis {
                let into = phi.place.identifier;
                graph.create(into, true);
                for operand in &phi.operands {
                    let predecessor = operand.predecessor;
                    let (from, index) = (operand.place.identifier, graph.next());
                    let origin = Origin::Operand { phi: into, predecessor, block: number };
                    let link = Link { relation: Relation::Alias, from, into, index, origin };
                    if come.contains(&predecessor) {
                        graph.store(link);
                    } else {
                        waiting.push((predecessor, link));
                    }
                }
            }
            come.push(number);

            for instruction in &block.instructions {
                for &effect in instruction.listed_effects() {
                    let order = instruction.order;
                    let origin = Origin::Instruction { effect, order, block: number };
                    graph.instruction_effect(&effect, order, origin);
                }
            }

            for &(_, link) in waiting.iter().filter(|(predecessor, _)| *predecessor == number) {
                graph.store(link);
            }
            let order = block.terminal.order();
            if let Terminal::Return { value, .. } = block.terminal {
                let (from, into) = (value.identifier, sheet.returns().identifier);
                let origin = Origin::Return { order, block: number };
                graph.relate(Relation::Alias, from, into, origin);
            }
            for effect in &block.terminal_effects {
                if let &AliasingEffect::Alias { from, into } = effect {
                    let origin = Origin::TerminalEffect { effect: *effect, order, block: number };
                    graph.relate(Relation::Alias, from.identifier, into.identifier, origin);
                }
            }
        }
        graph
    }

    pub fn node(&self, identifier: IdentifierId) -> Option<&Node> {
        self.nodes[identifier.0 as usize].as_ref()
    }

    fn node_mut(&mut self, identifier: IdentifierId) -> Option<&mut Node> {
        self.nodes[identifier.0 as usize].as_mut()
    }

    fn next(&mut self) -> u32 {
        self.next_index += 1;
        self.next_index - 1
    }

    fn create(&mut self, identifier: IdentifierId, is_phi: bool) {
        let node = Node { is_phi, edges: Vec::new(), entries: Vec::new() };
        self.nodes[identifier.0 as usize] = Some(node);
    }

    /// A relation that takes the next index.
    fn relate(
        &mut self,
        relation: Relation,
        from: IdentifierId,
        into: IdentifierId,
        origin: Origin,
    ) {
        let index = self.next();
        self.store(Link { relation, from, into, index, origin });
    }

    fn store(&mut self, link: Link) {
        if self.node(link.from).is_some() && self.node(link.into).is_some() {
            self.store_halves(link);
        }
    }

    /// The forward edge if "from" has a node, and the entry if "into" has one.
    fn store_halves(&mut self, link: Link) {
        if let Some(node) = self.node_mut(link.from) {
            node.edges.push(link);
        }
        if let Some(node) = self.node_mut(link.into)
            && !node.entries.iter().any(|e| e.from == link.from && e.relation == link.relation)
        {
            node.entries.push(link);
        }
    }

    fn instruction_effect(
        &mut self,
        effect: &AliasingEffect,
        order: EvaluationOrder,
        origin: Origin,
    ) {
        let (first, second) = effect.places();
        let id = |place: Option<service_host::Place>| place.unwrap_or(NOWHERE).identifier;
        let (from, into) = (id(first), id(second));
        let relation = match effect.kind() {
            EffectKind::Capture => Relation::Capture,
            EffectKind::Alias | EffectKind::Assign => Relation::Alias,
            EffectKind::MaybeAlias => Relation::MaybeAlias,
            EffectKind::CreateFrom => {
                self.create(into, false);
                let (relation, index) = (Relation::CreateFrom, self.next());
                self.store_halves(Link { relation, from, into, index, origin });
                return;
            }
            EffectKind::Create | EffectKind::CreateFunction => return self.create(from, false),
            EffectKind::Render => {
                self.next();
                return;
            }
            kind if kind.is_mutation() => {
                let index = self.next();
                let definite = [EffectKind::Mutate, EffectKind::MutateTransitive].contains(&kind);
                let local = [EffectKind::Mutate, EffectKind::MutateConditionally].contains(&kind);
                let kind =
                    if definite { MutationKind::Definite } else { MutationKind::Conditional };
                let transitive = !local;
                let identifier = from;
                let span = first.unwrap_or(NOWHERE).span;
                self.mutations.push(Mutation {
                    index,
                    order,
                    kind,
                    transitive,
                    identifier,
                    span,
                    origin,
                });
                return;
            }
            _ => return,
        };
        if effect.kind() == EffectKind::Assign && self.node(into).is_none() {
            self.create(into, false);
        }
        self.relate(relation, from, into, origin);
    }
}

/// Stands in for a place that an effect does not have.
const NOWHERE: service_host::Place = service_host::Place::of(IdentifierId(0));
