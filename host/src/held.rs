//! What the library holds while it builds the graph of a sheet.

use std::collections::BTreeSet;

use crate::limits;
use crate::parts::{AliasingEffect, EffectKind, IdentifierId};
use crate::sheet::{Sheet, Terminal};

/// How many forward edges, and how many entries, are held together in the whole graph, at the moment
/// at which they are most.
///
/// A relation between two values that exist is stored as an edge at the first and an entry at the
/// second; the second relation of one kind between the same two has an edge only. `CreateFrom` from a
/// value that does not exist has an entry only. A value that is created again gives its own edges and
/// entries back; edges to it and entries from it, which are others', stay. A phi operand is stored once
/// its predecessor has come.
#[derive(Debug, Clone, Copy, PartialEq, Eq, Default)]
pub struct Held {
    /// Forward edges.
    pub edges: usize,
    /// Entries.
    pub entries: usize,
}

impl Held {
    /// Those that are over their limit: what is held, how many, and how many may be.
    pub fn over(self) -> impl Iterator<Item = (&'static str, usize, usize)> {
        let held = [
            ("forward edges held together", self.edges, limits::HELD),
            ("entries held together", self.entries, limits::HELD),
        ];
        held.into_iter().filter(|&(_, held, most)| held > most)
    }

    fn most(&mut self, now: Held) {
        self.edges = self.edges.max(now.edges);
        self.entries = self.entries.max(now.entries);
    }
}

/// What is stored at a value that exists.
#[derive(Clone, Default)]
struct Node {
    edges: usize,
    /// The list, by the kind of effect that fills it, and "from".
    entries: BTreeSet<(u32, IdentifierId)>,
}

struct Graph {
    nodes: Vec<Option<Node>>,
    now: Held,
    most: Held,
}

impl Graph {
    fn exists(&self, identifier: IdentifierId) -> bool {
        self.nodes[identifier.0 as usize].is_some()
    }

    fn create(&mut self, identifier: IdentifierId) {
        let before = self.nodes[identifier.0 as usize].replace(Node::default());
        if let Some(node) = before {
            self.now.edges -= node.edges;
            self.now.entries -= node.entries.len();
        }
    }

    fn store_edge(&mut self, from: IdentifierId) {
        if let Some(node) = &mut self.nodes[from.0 as usize] {
            node.edges += 1;
            self.now.edges += 1;
        }
    }

    fn store_entry(&mut self, list: EffectKind, from: IdentifierId, into: IdentifierId) {
        if let Some(node) = &mut self.nodes[into.0 as usize]
            && node.entries.insert((list.number(), from))
        {
            self.now.entries += 1;
        }
    }

    fn store(&mut self, list: EffectKind, from: IdentifierId, into: IdentifierId) {
        if self.exists(from) && self.exists(into) {
            self.store_edge(from);
            self.store_entry(list, from, into);
        }
        self.most.most(self.now);
    }

    fn effect(&mut self, effect: &AliasingEffect) {
        use AliasingEffect::*;
        match effect {
            Create { into, .. } | CreateFunction { into, .. } => self.create(into.identifier),
            Capture { from, into } | Alias { from, into } | MaybeAlias { from, into } => {
                self.store(effect.kind(), from.identifier, into.identifier);
            }
            Assign { from, into } => {
                if !self.exists(into.identifier) {
                    self.create(into.identifier);
                }
                self.store(EffectKind::Alias, from.identifier, into.identifier);
            }
            CreateFrom { from, into } => {
                self.create(into.identifier);
                self.store_edge(from.identifier);
                self.store_entry(effect.kind(), from.identifier, into.identifier);
                self.most.most(self.now);
            }
            _ => {}
        }
    }
}

/// The most that is held, as if there were no limit.
pub(crate) fn held(sheet: &Sheet) -> Held {
    let nodes = vec![None; sheet.identifiers().len()];
    let mut graph = Graph { nodes, now: Held::default(), most: Held::default() };
    let returns = sheet.returns();
    for place in sheet.params().iter().chain(sheet.context()).chain([&returns]) {
        graph.create(place.identifier);
    }
    let mut come = BTreeSet::new();
    let mut waiting = Vec::new();
    for block in sheet.blocks() {
        for phi in &block.phis {
            let into = phi.place.identifier;
            graph.create(into);
            for operand in &phi.operands {
                let from = operand.place.identifier;
                if come.contains(&operand.predecessor.0) {
                    graph.store(EffectKind::Alias, from, into);
                } else {
                    waiting.push((operand.predecessor, from, into));
                }
            }
        }
        come.insert(block.number.0);
        for instruction in &block.instructions {
            instruction.listed_effects().iter().for_each(|effect| graph.effect(effect));
        }
        for &(predecessor, from, into) in &waiting {
            if predecessor == block.number {
                graph.store(EffectKind::Alias, from, into);
            }
        }
        if let Terminal::Return { value, .. } = block.terminal {
            graph.store(EffectKind::Alias, value.identifier, returns.identifier);
        }
        for effect in &block.terminal_effects {
            if let AliasingEffect::Alias { from, into } = effect {
                graph.store(EffectKind::Alias, from.identifier, into.identifier);
            }
        }
    }
    graph.most
}
