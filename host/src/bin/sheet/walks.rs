//! The walks of a sheet's mutations, and shortest allowed chains (document 01, "Walks").

use std::collections::VecDeque;

use service_host::{EvaluationOrder, IdentifierId, Sheet};

use crate::graph::{Graph, Link, Mutation, MutationKind, Origin, Relation};

/// Where a walk or a chain stands.
#[derive(Debug, Clone, Copy, PartialEq, Eq)]
pub struct State {
    pub identifier: IdentifierId,
    pub kind: MutationKind,
    pub transitive: bool,
    /// Whether it was arrived at over a forward edge.
    pub forwards: bool,
}

/// A step of an allowed chain.
#[derive(Debug, Clone, Copy, PartialEq, Eq)]
pub struct Step {
    pub to: State,
    pub relation: Relation,
    pub index: u32,
    pub origin: Origin,
}

impl State {
    fn start(mutation: &Mutation) -> State {
        State {
            identifier: mutation.identifier,
            kind: mutation.kind,
            transitive: mutation.transitive,
            forwards: false,
        }
    }

    /// A number for each state of an identifier.
    fn position(&self) -> usize {
        let definite = self.kind == MutationKind::Definite;
        self.identifier.0 as usize * 8
            + definite as usize * 4
            + self.transitive as usize * 2
            + self.forwards as usize
    }
}

/// The steps that an accepted entry pushes, in order, for a mutation of this index.
pub fn steps(graph: &Graph, at: State, mutation_index: u32) -> Vec<Step> {
    let Some(node) = graph.node(at.identifier) else { return Vec::new() };
    let over = |relation, kind| match relation {
        Relation::MaybeAlias => MutationKind::Conditional,
        _ => kind,
    };
    let mut steps: Vec<Step> = node
        .edges
        .iter()
        // It stops at the first index not below.
        .take_while(|edge| edge.index < mutation_index)
        .map(|edge| Step {
            to: State {
                identifier: edge.into,
                kind: over(edge.relation, at.kind),
                transitive: at.transitive,
                forwards: true,
            },
            relation: edge.relation,
            index: edge.index,
            origin: edge.origin,
        })
        .collect();
    let aliases = !(at.forwards && node.is_phi);
    for (relation, followed) in [
        (Relation::CreateFrom, true),
        (Relation::Alias, aliases),
        (Relation::MaybeAlias, aliases),
        (Relation::Capture, at.transitive),
    ] {
        let stored =
            |entry: &&Link| followed && entry.relation == relation && entry.index < mutation_index;
        steps.extend(node.entries.iter().filter(stored).map(|entry| Step {
            to: State {
                identifier: entry.from,
                kind: over(relation, at.kind),
                transitive: at.transitive || relation == Relation::CreateFrom,
                forwards: false,
            },
            relation,
            index: entry.index,
            origin: entry.origin,
        }));
    }
    steps
}

/// What a walk did.
#[derive(Debug, Clone, PartialEq, Eq)]
pub struct Walk {
    /// Entries taken, skipped ones included.
    pub taken: u32,
    /// The entries accepted, in order; an identifier that was accepted at both kinds stands twice.
    pub accepted: Vec<State>,
}

pub fn walk(graph: &Graph, mutation: &Mutation) -> Walk {
    let mut walk = Walk { taken: 0, accepted: Vec::new() };
    let mut remembered = vec![None; graph.nodes.len()];
    let mut queue = vec![State::start(mutation)];
    while let Some(at) = queue.pop() {
        walk.taken += 1;
        let kind = &mut remembered[at.identifier.0 as usize];
        if kind.is_some_and(|kind| kind >= at.kind) {
            continue;
        }
        *kind = Some(at.kind);
        if graph.node(at.identifier).is_some() {
            walk.accepted.push(at);
            queue.extend(steps(graph, at, mutation.index).iter().map(|step| step.to));
        }
    }
    walk
}

/// A node's record: the highest kind at which it was accepted, and the mutation that brought it
/// first, as a position in the list.
#[derive(Debug, Clone, Copy, PartialEq, Eq)]
pub struct Record {
    pub kind: MutationKind,
    pub mutation: usize,
}

/// What the walks of all mutations leave.
pub struct Walked {
    pub ends: Vec<EvaluationOrder>,
    /// For each identifier the mutation that moved its end last, as a position in the list.
    pub movers: Vec<Option<usize>>,
    /// For each identifier the record of local entries and that of transitive ones.
    pub records: Vec<[Option<Record>; 2]>,
    /// The entries that each walk took.
    pub taken: Vec<u32>,
}

/// Runs all mutations once, in sheet order.
pub fn walk_all(graph: &Graph, sheet: &Sheet) -> Walked {
    let mut walked = Walked {
        ends: sheet.identifiers().iter().map(|identifier| identifier.range.end).collect(),
        movers: vec![None; sheet.identifiers().len()],
        records: vec![[None; 2]; sheet.identifiers().len()],
        taken: Vec::new(),
    };
    for (i, mutation) in graph.mutations.iter().enumerate() {
        let walk = walk(graph, mutation);
        let end = EvaluationOrder(mutation.order.0 + 1);
        for entry in walk.accepted {
            let at = entry.identifier.0 as usize;
            if walked.ends[at] < end {
                walked.ends[at] = end;
                walked.movers[at] = Some(i);
            }
            let record = &mut walked.records[at][entry.transitive as usize];
            if record.is_none_or(|record| record.kind < entry.kind) {
                *record = Some(Record { kind: entry.kind, mutation: i });
            }
        }
        walked.taken.push(walk.taken);
    }
    walked
}

/// A shortest allowed chain from the mutation that arrives so, if there is one. It has no step if
/// the mutation itself does.
pub fn chain(
    graph: &Graph,
    mutation: &Mutation,
    arrives: impl Fn(&State) -> bool,
) -> Option<Vec<Step>> {
    let start = State::start(mutation);
    graph.node(start.identifier)?;
    // For each state the step that led to it first, and the state before.
    let mut came: Vec<Option<(State, Step)>> = vec![None; graph.nodes.len() * 8];
    let mut queue = VecDeque::from([start]);
    while let Some(at) = queue.pop_front() {
        if arrives(&at) {
            let mut chain = Vec::new();
            let mut state = at;
            while state != start {
                let (before, step) = came[state.position()].expect("every state but the first");
                chain.push(step);
                state = before;
            }
            chain.reverse();
            return Some(chain);
        }
        for step in steps(graph, at, mutation.index) {
            let first = &mut came[step.to.position()];
            if first.is_none() && step.to != start && graph.node(step.to.identifier).is_some() {
                *first = Some((at, step));
                queue.push_back(step.to);
            }
        }
    }
    None
}
