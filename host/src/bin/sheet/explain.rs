//! Why each range is where it is, and why each parameter is reported, in words.

use std::fmt::Write;

use service_host::text::Names;
use service_host::{Answer, IdentifierId, MutableRange, Sheet};

use crate::certainty::{self, Certainty};
use crate::graph::{Graph, Mutation, MutationKind, Origin, Relation};
use crate::operands::{Passed, Set, Use, pass};
use crate::walks::{Step, chain, walk_all};

/// An identifier's range before and after, and what moved it.
pub struct Moved {
    pub before: MutableRange,
    pub after: MutableRange,
    /// The mutation that moved the end last, and a chain from it.
    pub by: Option<(Mutation, Vec<Step>)>,
    /// What then set the start and the end in the pass over operands.
    pub start: Option<Set>,
    pub end: Option<Set>,
    /// What would have set the end after that, had its instruction a list of effects.
    pub not_stored: Option<Set>,
}

/// What there is to say of a sheet and its answer.
pub struct Explained {
    /// One for each identifier.
    pub ranges: Vec<Moved>,
    pub certainty: Certainty,
}

/// Fails if the walks made here and the library's answer disagree.
pub fn explain(sheet: &Sheet, answer: &Answer) -> Result<Explained, String> {
    let graph = Graph::build(sheet);
    let walked = walk_all(&graph, sheet);
    let library = &answer.walks()[..graph.mutations.len()];
    if library != walked.taken {
        return Err(format!(
            "the library's walks took {library:?} entries, those made here {:?}",
            walked.taken
        ));
    }
    let passed = pass(sheet, &walked.ends);
    let mut all = Vec::new();
    for (id, after) in sheet.identifier_ids().zip(answer.ranges()) {
        let at = id.0 as usize;
        let here = passed[at].range;
        if after != here {
            return Err(format!(
                "the library's range of identifier {at} is {}..{}, that made here {}..{}",
                after.start.0, after.end.0, here.start.0, here.end.0
            ));
        }
        let by = match walked.movers[at] {
            None => None,
            Some(mover) => {
                let mutation = graph.mutations[mover];
                let chain = chain(&graph, &mutation, |state| state.identifier == id);
                let chain = chain.ok_or_else(|| {
                    format!("no allowed chain leads to identifier {at}, whose end moved")
                })?;
                Some((mutation, chain))
            }
        };
        let Passed { start, end, not_stored, .. } = passed[at];
        let not_stored = not_stored.filter(|set| after.end <= set.order);
        let before = sheet.identifiers()[at].range;
        all.push(Moved { before, after, by, start, end, not_stored });
    }
    let certainty = certainty::certainty(sheet, &graph, &walked, answer)?;
    Ok(Explained { ranges: all, certainty })
}

fn origin(origin: &Origin, names: &Names) -> String {
    match origin {
        Origin::Instruction { effect, order, block } => {
            let effect = names.effect(effect);
            format!("{effect}, instruction at {} in block {}", order.0, block.0)
        }
        Origin::TerminalEffect { effect, order, block } => {
            let effect = names.effect(effect);
            format!("{effect}, terminal at {} in block {}", order.0, block.0)
        }
        Origin::Operand { phi, predecessor, block } => {
            let phi = names.identifier(*phi);
            format!("phi {phi} in block {}, operand from block {}", block.0, predecessor.0)
        }
        Origin::Return { order, block } => {
            format!("terminal Return at {} in block {}", order.0, block.0)
        }
    }
}

/// What a mutation does to the value that it names.
fn deed(mutation: &Mutation, name: &str) -> String {
    let what = if mutation.transitive {
        format!("{name} and all that it has captured")
    } else {
        name.to_string()
    };
    match mutation.kind {
        MutationKind::Definite => format!("changes {what}"),
        MutationKind::Conditional => format!("may change {what}"),
    }
}

/// How a step leads from one value to the next.
fn way(step: &Step, here: &str, there: &str) -> String {
    match (step.to.forwards, step.relation) {
        (true, Relation::Alias) => format!("{there}, which is an alias of {here}"),
        (true, Relation::MaybeAlias) => {
            format!("{there}, which may be an alias of {here}, so perhaps")
        }
        (true, Relation::Capture) => format!("{there}, which has captured {here}"),
        (true, Relation::CreateFrom) => format!("{there}, which was created from {here}"),
        (false, Relation::Alias) => format!("{there}, of which {here} is an alias"),
        (false, Relation::MaybeAlias) => {
            format!("{there}, of which {here} may be an alias, so perhaps")
        }
        (false, Relation::Capture) => format!("{there}, which {here} has captured"),
        (false, Relation::CreateFrom) => {
            format!("{there}, from which {here} was created, and all that it has captured")
        }
    }
}

/// Why the pass over operands set a start or an end.
fn reason(set: &Set, names: &Names) -> String {
    let instruction = format!("the instruction at {} in block {}", set.order.0, set.block.0);
    match set.by {
        Use::Lvalue => format!("it was 0, and {instruction} has it as an lvalue"),
        Use::Operand => format!("it was 0, and {instruction} has it as an operand"),
        Use::Context(id) => {
            let function = names.function(id);
            format!("it was 0, and {instruction} makes {function}, which has it in its context")
        }
        Use::StoreContext => format!("{instruction} stores it by StoreContext"),
        Use::Phi => format!(
            "it was 0, and it is a phi of block {}, which begins at {}",
            set.block.0, set.order.0
        ),
    }
}

/// The lines of a mutation and of a chain from it.
pub fn led(mutation: &Mutation, chain: &[Step], names: &Names) -> Vec<String> {
    let mut here = names.identifier(mutation.identifier);
    let mut lines = vec![format!(
        "    {} (index {}) {}",
        origin(&mutation.origin, names),
        mutation.index,
        deed(mutation, here)
    )];
    for step in chain {
        let there = names.identifier(step.to.identifier);
        lines.push(format!(
            "    -> {}: {} (index {})",
            way(step, here, there),
            origin(&step.origin, names),
            step.index
        ));
        here = there;
    }
    lines
}

/// The explanation as text.
pub fn write(explained: &Explained, names: &Names) -> String {
    let name = |id: IdentifierId| names.identifier(id);
    let mut text = String::new();
    for (i, moved) in explained.ranges.iter().enumerate() {
        let (before, after) = (moved.before, moved.after);
        let id = IdentifierId(i as u32);
        let mut put = |line: String| writeln!(text, "{line}").expect("a string takes every line");
        if before == after {
            put(format!("{}  {}..{}, not moved", name(id), before.start.0, before.end.0));
        } else {
            put(format!(
                "{}  {}..{} -> {}..{}",
                name(id),
                before.start.0,
                before.end.0,
                after.start.0,
                after.end.0
            ));
        }
        if let Some((mutation, chain)) = &moved.by {
            led(mutation, chain, names).into_iter().for_each(&mut put);
        }
        if let Some(set) = &moved.end {
            put(format!("    end {}: {}", after.end.0, reason(set, names)));
        }
        if let Some(set) = &moved.start {
            put(format!("    start {}: {}", after.start.0, reason(set, names)));
        }
        if let Some(Set { order, block, .. }) = &moved.not_stored {
            put(format!(
                "    end still {}: the instruction at {} in block {} has no list of effects, so \
                 that its StoreContext stores nothing",
                after.end.0, order.0, block.0
            ));
        }
    }
    text + &certainty::write(&explained.certainty, names)
}

#[cfg(test)]
pub mod tests {
    use std::collections::HashSet;

    use oracle::generate;
    use oracle::plain;
    use oracle::random::Random;
    use service_host::{EffectKind, Service, text};

    use super::*;
    use crate::walks;

    fn explained(text: &str) -> String {
        let (sheet, names) = text::parse(text).unwrap();
        let mut service = Service::new();
        let answer = service.infer(0, &sheet.words()).unwrap();
        write(&explain(&sheet, &answer).unwrap(), &names)
    }

    #[test]
    fn case_1() {
        let expected = "\
props  0..0 -> 1..3
    MutateTransitive list span 7, instruction at 2 in block 0 (index 1) changes list and all that it has captured
    -> props, which list has captured: Capture props into list, instruction at 1 in block 0 (index 0)
    start 1: it was 0, and the instruction at 1 in block 0 has it as an lvalue
list  0..0 -> 0..3
    MutateTransitive list span 7, instruction at 2 in block 0 (index 1) changes list and all that it has captured
result  0..0, not moved
param props  Definite (MutateTransitive)
    MutateTransitive list span 7, instruction at 2 in block 0 (index 1) changes list and all that it has captured
    -> props, which list has captured: Capture props into list, instruction at 1 in block 0 (index 0)
Exact here (no phi, every mutation transitive): to a Conditional place no Definite mutation leads without a maybe-alias step, to one not reported no mutation leads.
";
        assert_eq!(explained(include_str!("../../../../examples/case1.txt")), expected);
    }

    #[test]
    fn every_kind_of_step() {
        let text = explained(
            "identifier a range 1 2\nidentifier b\nidentifier c\nidentifier d\nidentifier p\n\
             param a\nparam d\nreturns d\n\
             block 0\n\
             instruction at 1\nCreateFrom a into b\nAssign b into c\nMaybeAlias d into c\n\
             terminal Other at 2\n\
             block 1\nphi p\noperand c from 0\n\
             instruction at 3\nMutateConditionally p\nMutate a span 9\n\
             terminal Return p at 4\n",
        );
        let expected = "\
a  1..2 -> 1..4
    MutateConditionally p, instruction at 3 in block 1 (index 4) may change p
    -> c, of which p is an alias: phi p in block 1, operand from block 0 (index 3)
    -> b, of which c is an alias: Assign b into c, instruction at 1 in block 0 (index 1)
    -> a, from which b was created, and all that it has captured: CreateFrom a into b, instruction at 1 in block 0 (index 0)
";
        assert!(text.starts_with(expected), "{text}");
        assert!(text.contains("-> d, of which c may be an alias, so perhaps: MaybeAlias d into c"));
    }

    /// A sheet that uses its values in every way; its two instructions end with these lines. What is
    /// said of it, with these lines for b, c and s.
    fn uses(lists: &str, b: &str, c: &str, s: &str) {
        let text = explained(&format!(
            "identifier a\nidentifier b range 0 9\nidentifier c range 0 9\n\
             identifier p range 0 9\nidentifier s range 1 3\nidentifier t\n\
             function f context c\nreturns a\n\
             block 4\nphi p\n\
             instruction at 2 function f\noperand b\n{lists}\
             instruction at 3 StoreContext s\nlvalue t\noperand t\noperand s\n{lists}\
             terminal Other at 4\n"
        ));
        let expected = format!(
            "\
a  0..0 -> 2..3
    end 3: it was 0, and the instruction at 2 in block 4 has it as an lvalue
    start 2: it was 0, and the instruction at 2 in block 4 has it as an lvalue
b  0..9{b}
c  0..9{c}
p  0..9 -> 1..9
    start 1: it was 0, and it is a phi of block 4, which begins at 2
s  1..3{s}
t  0..0 -> 3..4
    end 4: it was 0, and the instruction at 3 in block 4 has it as an lvalue
    start 3: it was 0, and the instruction at 3 in block 4 has it as an lvalue
"
        );
        assert_eq!(text, expected);
    }

    /// Each use that can set a start or an end in the pass over operands.
    #[test]
    fn every_kind_of_use() {
        uses(
            "",
            " -> 2..9\n    \
             start 2: it was 0, and the instruction at 2 in block 4 has it as an operand",
            " -> 2..9\n    \
             start 2: it was 0, and the instruction at 2 in block 4 makes f, which has it in its \
             context",
            " -> 1..4\n    end 4: the instruction at 3 in block 4 stores it by StoreContext",
        );
    }

    /// The same without lists: only the lvalues set something.
    #[test]
    fn no_use_without_a_list() {
        uses(
            "no effects\n",
            ", not moved",
            ", not moved",
            ", not moved\n    \
             end still 3: the instruction at 3 in block 4 has no list of effects, so that its \
             StoreContext stores nothing",
        );
    }

    /// A later store with a list: the one without is not spoken of.
    #[test]
    fn stored_after_all() {
        let store = |order: u32, lists: &str| {
            format!(
                "instruction at {order} StoreContext s\nlvalue a\noperand a\noperand s\n{lists}"
            )
        };
        let text = explained(&format!(
            "identifier a\nidentifier s\nreturns a\nblock 0\n{}{}terminal Other at 9\n",
            store(3, "no effects\n"),
            store(5, ""),
        ));
        let expected = "\
s  0..0 -> 0..6
    end 6: the instruction at 5 in block 0 stores it by StoreContext
";
        assert!(text.ends_with(expected), "{text}");
    }

    /// The rules of an allowed chain, read off the plain implementation's graph.
    pub fn is_allowed(built: &plain::building::Built, mutation: &Mutation, chain: &[Step]) -> bool {
        use plain::building::{Relation as Stored, Value};
        let node = |id: IdentifierId| built.nodes[id.0 as usize].as_ref();
        let mut at = (mutation.identifier, mutation.kind, mutation.transitive, false);
        if node(at.0).is_none() {
            return false;
        }
        for step in chain {
            let (here, kind, transitive, forwards) = at;
            let Some(from) = node(here) else { return false };
            let to = step.to;
            let stored = match step.relation {
                Relation::CreateFrom => Stored::CreateFrom,
                Relation::Alias => Stored::Alias,
                Relation::MaybeAlias => Stored::MaybeAlias,
                Relation::Capture => Stored::Capture,
            };
            let found = if to.forwards {
                from.edges.iter().take_while(|e| e.index < mutation.index).any(|e| {
                    e.into == to.identifier.0 && e.relation == stored && e.index == step.index
                })
            } else {
                let barred = forwards && from.value == Value::Phi;
                let list = match step.relation {
                    Relation::CreateFrom => &from.created_from,
                    Relation::Alias | Relation::MaybeAlias if barred => return false,
                    Relation::Alias => &from.aliases,
                    Relation::MaybeAlias => &from.maybe_aliases,
                    Relation::Capture if !transitive => return false,
                    Relation::Capture => &from.captures,
                };
                step.index < mutation.index
                    && list.iter().any(|e| e.from == to.identifier.0 && e.index == step.index)
            };
            let next = if step.relation == Relation::MaybeAlias {
                MutationKind::Conditional
            } else {
                kind
            };
            let wide = transitive || !to.forwards && step.relation == Relation::CreateFrom;
            if !found || to.kind != next || to.transitive != wide || node(to.identifier).is_none() {
                return false;
            }
            at = (to.identifier, to.kind, to.transitive, to.forwards);
        }
        true
    }

    /// The length of a shortest allowed chain, found by trying all chains of 0, 1, 2, .. steps.
    fn shortest(graph: &Graph, mutation: &Mutation, to: IdentifierId) -> usize {
        let definite = mutation.kind == MutationKind::Definite;
        let start = (mutation.identifier.0, definite, mutation.transitive, false);
        let mut layer = HashSet::from([start]);
        for length in 0.. {
            if layer.iter().any(|state| state.0 == to.0) {
                return length;
            }
            let mut next = HashSet::new();
            for &(id, definite, transitive, forwards) in &layer {
                let kind =
                    if definite { MutationKind::Definite } else { MutationKind::Conditional };
                let at = walks::State { identifier: IdentifierId(id), kind, transitive, forwards };
                for step in walks::steps(graph, at, mutation.index) {
                    let s = step.to;
                    if graph.node(s.identifier).is_some() {
                        let definite = s.kind == MutationKind::Definite;
                        next.insert((s.identifier.0, definite, s.transitive, s.forwards));
                    }
                }
            }
            layer = next;
        }
        unreachable!("the caller has a chain")
    }

    /// Every end that a walk moved has a mutation whose order is right before it and an allowed
    /// chain, and no shorter one exists; every end that the pass over operands moved was 0 or is
    /// stored, and is right behind the order that is named.
    #[test]
    fn every_moved_end_has_a_chain() {
        let mut random = Random::new(6);
        let mut service = Service::new();
        let (mut moved, mut passed, mut steps, mut longest) = (0, 0, 0, 0);
        for _ in 0..3_300 {
            let plain_sheet = generate::sheet(&mut random);
            let sheet = Sheet::read(&plain_sheet.words()).unwrap();
            let answer = service.infer(0, &sheet.words()).unwrap();
            let explained = explain(&sheet, &answer).unwrap();
            let all = &explained.ranges;
            let built = plain::building::build(&plain_sheet).unwrap();
            let graph = Graph::build(&sheet);
            let ends = plain::walks::trace(&plain_sheet, built.clone()).ends;
            for (id, m) in sheet.identifier_ids().zip(all) {
                let before_pass = ends[id.0 as usize];
                assert_eq!(m.start.is_some(), m.before.start != m.after.start);
                assert_eq!(m.end.is_some(), before_pass != m.after.end.0);
                if let Some(set) = m.end {
                    assert_eq!(m.after.end.0, set.order.0 + 1);
                    assert!(before_pass == 0 || set.by == Use::StoreContext);
                    passed += 1;
                }
                assert_eq!(m.by.is_some(), m.before.end.0 < before_pass);
                let Some((mutation, chain)) = &m.by else { continue };
                assert_eq!(before_pass, mutation.order.0 + 1);
                let last = chain.last().map_or(mutation.identifier, |s| s.to.identifier);
                assert_eq!(last, id);
                assert!(is_allowed(&built, mutation, chain), "{chain:?}");
                if graph.nodes.len() < 100 {
                    assert_eq!(chain.len(), shortest(&graph, mutation, id));
                }
                moved += 1;
                steps += chain.len();
                longest = longest.max(chain.len());
            }
            write(&explained, &Names::numbered(&sheet));
        }
        assert!(moved > 5_000 && passed > 2_000, "{moved} {passed}");
        assert!(steps > 5_000 && longest > 5, "{steps} {longest}");
    }

    /// The graph as built here is that of the plain implementation.
    #[test]
    fn the_graph_is_the_definitions() {
        use plain::building::Value;
        let mut random = Random::new(7);
        for _ in 0..3_000 {
            let plain_sheet = generate::sheet(&mut random);
            let built = plain::building::build(&plain_sheet).unwrap();
            let graph = Graph::build(&Sheet::read(&plain_sheet.words()).unwrap());
            let mutations = graph.mutations.iter().map(|m| (m.index, m.identifier.0, m.order.0));
            let plain_mutations = built.mutations.iter();
            assert!(mutations.eq(plain_mutations.map(|m| (m.index, m.place.identifier, m.order))));
            assert_eq!(graph.nodes.len(), built.nodes.len());
            for (ours, plain) in graph.nodes.iter().zip(&built.nodes) {
                assert_eq!(ours.is_some(), plain.is_some());
                let (Some(ours), Some(plain)) = (ours, plain) else { continue };
                assert_eq!(ours.is_phi, plain.value == Value::Phi);
                let edges = ours.edges.iter().map(|e| (e.index, e.into.0));
                assert!(edges.eq(plain.edges.iter().map(|e| (e.index, e.into))));
                for (relation, list) in [
                    (Relation::CreateFrom, &plain.created_from),
                    (Relation::Alias, &plain.aliases),
                    (Relation::MaybeAlias, &plain.maybe_aliases),
                    (Relation::Capture, &plain.captures),
                ] {
                    let entries = ours.entries.iter().filter(|e| e.relation == relation);
                    let entries = entries.map(|e| (e.from.0, e.index));
                    assert!(entries.eq(list.iter().map(|e| (e.from, e.index))));
                }
            }
        }
    }

    /// Reached is less than "an allowed chain exists": 1 has a chain and is not reached.
    #[test]
    fn a_chain_alone_moves_nothing() {
        let text = explained(
            "identifier a\nidentifier b\nparam a\nparam b\nreturns b\nblock 0\n\
             instruction at 1\nCreateFrom a into a\nCapture b into a\nMutateConditionally a\n\
             terminal Other at 2\n",
        );
        assert!(text.contains("\nb  0..0, not moved\nparam a"), "{text}");
        assert!(text.contains("\nparam b  not reported\nNot exact here"), "{text}");
    }

    #[test]
    fn an_answer_of_another_sheet_is_noticed() {
        let (sheet, _) = text::parse(include_str!("../../../../examples/case1.txt")).unwrap();
        let mut effects =
            sheet.blocks().iter().flat_map(|b| &b.instructions).flat_map(|i| i.listed_effects());
        assert!(effects.any(|e| e.kind() == EffectKind::MutateTransitive));
        let (other, _) = text::parse(
            "identifier a\nidentifier b\nidentifier c\nparam a\nreturns c\nblock 0\n\
             instruction at 1\nMutate a\nterminal Other at 2\n",
        )
        .unwrap();
        let mut service = Service::new();
        let answer = service.infer(0, &other.words()).unwrap();
        assert!(explain(&sheet, &answer).is_err());
    }
}
