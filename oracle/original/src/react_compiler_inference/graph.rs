//! Stand-in: the graph of the pass, which keeps it to itself. The pass is here a second time, with
//! one line that hands over what it has built before its first mutation (`build.rs`).

use std::cell::RefCell;
use std::collections::BTreeMap;

include!(concat!(env!("OUT_DIR"), "/pass.rs"));

/// A forward edge.
#[derive(Debug, Clone, PartialEq, Eq)]
pub struct BuiltEdge {
    pub into: usize,
    /// The name that `EdgeKind` has for it.
    pub kind: String,
    pub index: usize,
}

/// What a node keeps of a relation into it.
#[derive(Debug, Clone, Copy, PartialEq, Eq)]
pub struct BuiltEntry {
    pub from: usize,
    pub index: usize,
}

/// A node, each list in the order in which it is stored.
#[derive(Debug, Clone, PartialEq, Eq)]
pub struct BuiltNode {
    pub phi: bool,
    pub edges: Vec<BuiltEdge>,
    pub created_from: Vec<BuiltEntry>,
    pub aliases: Vec<BuiltEntry>,
    pub maybe_aliases: Vec<BuiltEntry>,
    pub captures: Vec<BuiltEntry>,
}

#[derive(Debug, Clone, Copy, PartialEq, Eq)]
pub struct BuiltMutation {
    pub index: usize,
    pub identifier: usize,
    pub transitive: bool,
    /// Definite, not Conditional.
    pub definite: bool,
}

/// Nodes by their identifiers, and mutations in their order.
#[derive(Debug, Clone, PartialEq, Eq, Default)]
pub struct BuiltGraph {
    pub nodes: BTreeMap<usize, BuiltNode>,
    pub mutations: Vec<BuiltMutation>,
}

thread_local! {
    static HANDED_OVER: RefCell<BuiltGraph> = RefCell::default();
}

fn hand_over(
    state: &AliasingState,
    mutations: Vec<(usize, IdentifierId, bool, MutationKind)>,
) {
    let edge = |edge: &Edge| BuiltEdge {
        into: edge.node.index(),
        kind: format!("{:?}", edge.kind),
        index: edge.index,
    };
    let entries = |map: &FxIndexMap<IdentifierId, usize>| {
        map.iter().map(|(from, &index)| BuiltEntry { from: from.index(), index }).collect()
    };
    let node = |node: &Node| {
        let built = BuiltNode {
            phi: matches!(node.value, NodeValue::Phi),
            edges: node.edges.iter().map(edge).collect(),
            created_from: entries(&node.created_from),
            aliases: entries(&node.aliases),
            maybe_aliases: entries(&node.maybe_aliases),
            captures: entries(&node.captures),
        };
        (node.id.index(), built)
    };
    let mutation = |(index, identifier, transitive, kind): (_, IdentifierId, _, _)| BuiltMutation {
        index,
        identifier: identifier.index(),
        transitive,
        definite: kind == MutationKind::Definite,
    };
    HANDED_OVER.set(BuiltGraph {
        nodes: state.nodes.values().map(node).collect(),
        mutations: mutations.into_iter().map(mutation).collect(),
    });
}

/// The graph as it is built. The rest of the pass runs too, and ends with an error at an Apply.
pub fn built_graph<'a>(
    func: &mut HirFunction<'a>,
    env: &mut Environment<'a>,
    is_function_expression: bool,
) -> BuiltGraph {
    HANDED_OVER.take();
    _ = infer_mutation_aliasing_ranges(func, env, is_function_expression);
    HANDED_OVER.take()
}
