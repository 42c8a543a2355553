//! Walks of mutations and of renders.

use super::building::{Built, Kind, Mutation, Record, Relation, Render, Value};
use super::sheet::Sheet;

/// An entry of a walk.
#[derive(Debug, Clone, Copy, PartialEq, Eq)]
pub struct Step {
    pub identifier: u32,
    pub kind: Kind,
    pub transitive: bool,
    pub forwards: bool,
}

/// What a walk did.
#[derive(Debug, Clone, PartialEq, Eq, Default)]
pub struct Walk {
    /// Entries taken, skipped ones included.
    pub taken: u32,
    pub accepted: Vec<Step>,
    /// Inner functions of the nodes accepted without a record, in order.
    pub functions: Vec<u32>,
}

/// The steps that an accepted entry pushes.
fn pushes(built: &Built, step: Step, index: u32) -> Vec<Step> {
    let node = built.nodes[step.identifier as usize].as_ref().expect("accepted nodes exist");
    let mut pushed = Vec::new();
    for edge in &node.edges {
        if edge.index >= index {
            break;
        }
        let kind =
            if edge.relation == Relation::MaybeAlias { Kind::Conditional } else { step.kind };
        pushed.push(Step { identifier: edge.into, kind, forwards: true, ..step });
    }
    let back = Step { forwards: false, ..step };
    for entry in node.created_from.iter().filter(|e| e.index < index) {
        pushed.push(Step { identifier: entry.from, transitive: true, ..back });
    }
    if !(step.forwards && node.value == Value::Phi) {
        for entry in node.aliases.iter().filter(|e| e.index < index) {
            pushed.push(Step { identifier: entry.from, ..back });
        }
        for entry in node.maybe_aliases.iter().filter(|e| e.index < index) {
            pushed.push(Step { identifier: entry.from, kind: Kind::Conditional, ..back });
        }
    }
    if step.transitive {
        for entry in node.captures.iter().filter(|e| e.index < index) {
            pushed.push(Step { identifier: entry.from, ..back });
        }
    }
    pushed
}

/// The highest kind stays, with the span of the mutation that first brought it.
fn raise(record: &mut Option<Record>, kind: Kind, span: u32) {
    if record.is_none_or(|r| r.kind < kind) {
        *record = Some(Record { kind, span });
    }
}

/// Walk a mutation. `ends` are moved to `end` if there is one.
pub fn walk(built: &mut Built, mutation: &Mutation, mut ends: Option<(&mut [u32], u32)>) -> Walk {
    let mut walk = Walk::default();
    let mut remembered: Vec<Option<Kind>> = vec![None; built.nodes.len()];
    let mut queue = vec![Step {
        identifier: mutation.place.identifier,
        kind: mutation.kind,
        transitive: mutation.transitive,
        forwards: false,
    }];
    while let Some(step) = queue.pop() {
        walk.taken += 1;
        let at = step.identifier as usize;
        if remembered[at].is_some_and(|k| k >= step.kind) {
            continue;
        }
        remembered[at] = Some(step.kind);
        let Some(node) = &mut built.nodes[at] else { continue };
        walk.accepted.push(step);

        if node.reason == 0 {
            node.reason = mutation.reason;
        }
        node.last = node.last.max(mutation.index);
        if let Some((ends, end)) = &mut ends {
            ends[at] = ends[at].max(*end);
        }
        if let Value::Function(function) = node.value
            && !node.has_record()
        {
            walk.functions.push(function);
        }
        let record = if step.transitive { &mut node.transitive } else { &mut node.local };
        raise(record, step.kind, mutation.place.span);

        queue.extend(pushes(built, step, mutation.index));
    }
    walk
}

/// What a render did.
#[derive(Debug, Clone, PartialEq, Eq, Default)]
pub struct Rendered {
    /// Entries taken, skipped ones included.
    pub taken: u32,
    /// The inner functions handed over, in order.
    pub functions: Vec<u32>,
}

/// Walk a render.
pub fn render(built: &Built, render: &Render) -> Rendered {
    let mut rendered = Rendered::default();
    let mut taken = vec![false; built.nodes.len()];
    let mut queue = vec![render.place.identifier];
    while let Some(identifier) = queue.pop() {
        rendered.taken += 1;
        if std::mem::replace(&mut taken[identifier as usize], true) {
            continue;
        }
        let Some(node) = &built.nodes[identifier as usize] else { continue };
        if node.has_record() {
            continue;
        }
        if let Value::Function(function) = node.value {
            rendered.functions.push(function);
        }
        for list in [&node.created_from, &node.aliases, &node.captures] {
            queue.extend(list.iter().filter(|e| e.index < render.index).map(|e| e.from));
        }
    }
    rendered
}

/// What the real walks of a sheet leave.
#[derive(Debug, Clone)]
pub struct Trace {
    pub walks: Vec<Walk>,
    /// The range ends after the walks.
    pub ends: Vec<u32>,
    /// The graph, with the records, reasons and largest indexes after the walks.
    pub built: Built,
}

/// Run all mutations once, in sheet order.
pub fn trace(sheet: &Sheet, mut built: Built) -> Trace {
    let mut ends: Vec<u32> = sheet.identifiers.iter().map(|i| i.end).collect();
    let mutations = built.mutations.clone();
    let walks =
        mutations.iter().map(|m| walk(&mut built, m, Some((&mut ends, m.order + 1)))).collect();
    Trace { walks, ends, built }
}
