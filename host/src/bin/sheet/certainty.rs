//! How sure the mutation of each context place and parameter is, and why (document 02, order 8).

use std::fmt::Write;

use service_host::text::Names;
use service_host::{Answer, EffectKind, Place, Sheet};

use crate::explain::led;
use crate::graph::{Graph, Mutation, MutationKind};
use crate::walks::{Record, Step, Walked, chain};

/// Why an effect of the answer reports a place.
pub struct Report {
    /// One of the kinds 1 to 4.
    pub kind: EffectKind,
    /// The mutation that brought the kind first, whose span the effect has.
    pub by: Mutation,
    /// A shortest chain from it that arrives at this kind.
    pub chain: Vec<Step>,
}

/// A context place or a parameter, with the effects that report it, the local one first.
pub struct Listed {
    pub context: bool,
    pub place: Place,
    pub reports: Vec<Report>,
}

/// Order 8 speaks of a sheet that has neither a phi nor a mutation that is not transitive: there the
/// kind of each place is what its chains say.
pub struct Certainty {
    /// In the order of the answer's effects: context first.
    pub places: Vec<Listed>,
    /// Whether the sheet has a phi.
    pub phi: bool,
    /// Whether it has a mutation that is not transitive.
    pub local: bool,
}

/// The kinds 1 to 4, by whether a record is transitive and by its kind.
fn effect_kind(transitive: bool, kind: MutationKind) -> EffectKind {
    match (transitive, kind) {
        (false, MutationKind::Definite) => EffectKind::Mutate,
        (false, MutationKind::Conditional) => EffectKind::MutateConditionally,
        (true, MutationKind::Definite) => EffectKind::MutateTransitive,
        (true, MutationKind::Conditional) => EffectKind::MutateTransitiveConditionally,
    }
}

fn report(
    graph: &Graph,
    place: &Place,
    transitive: bool,
    record: Record,
) -> Result<Report, String> {
    let by = graph.mutations[record.mutation];
    let chain = chain(graph, &by, |state| {
        let arrived = (state.identifier, state.transitive, state.kind);
        arrived == (place.identifier, transitive, record.kind)
    });
    let none =
        || format!("no allowed chain leads to identifier {} at its kind", place.identifier.0);
    Ok(Report { kind: effect_kind(transitive, record.kind), by, chain: chain.ok_or_else(none)? })
}

/// Fails if the records made here and the library's answer disagree.
pub fn certainty(
    sheet: &Sheet,
    graph: &Graph,
    walked: &Walked,
    answer: &Answer,
) -> Result<Certainty, String> {
    let mut places = Vec::new();
    let context = sheet.context().iter().map(|place| (true, place));
    for (context, &place) in context.chain(sheet.params().iter().map(|place| (false, place))) {
        let records = walked.records[place.identifier.0 as usize];
        let recorded = [false, true].into_iter().zip(records);
        let reports = recorded
            .filter_map(|(transitive, record)| Some(report(graph, &place, transitive, record?)))
            .collect::<Result<_, _>>()?;
        places.push(Listed { context, place, reports });
    }

    let here: Vec<(EffectKind, Option<Place>)> = places
        .iter()
        .flat_map(|listed| {
            listed.reports.iter().map(|report| {
                let place = Place { span: report.by.span, ..listed.place };
                (report.kind, Some(place))
            })
        })
        .collect();
    let library: Vec<(EffectKind, Option<Place>)> = answer
        .effects()
        .filter(|effect| effect.kind().is_mutation())
        .map(|effect| (effect.kind(), effect.places().0))
        .collect();
    if here != library {
        return Err(format!("the library reports {library:?}, what is made here {here:?}"));
    }
    let phi = sheet.blocks().iter().any(|block| !block.phis.is_empty());
    let local = graph.mutations.iter().any(|mutation| !mutation.transitive);
    Ok(Certainty { places, phi, local })
}

/// How sure a report of this kind is.
fn sure(kind: EffectKind) -> &'static str {
    match kind {
        EffectKind::Mutate | EffectKind::MutateTransitive => "Definite",
        _ => "Conditional",
    }
}

/// As text: a line for each place and each of its reports, with the chain; and what can be said of
/// other chains.
pub fn write(certainty: &Certainty, names: &Names) -> String {
    let mut text = String::new();
    let mut put = |line: String| writeln!(text, "{line}").expect("a string takes every line");
    for Listed { context, place, reports } in &certainty.places {
        let list = if *context { "context" } else { "param" };
        let name = names.identifier(place.identifier);
        if reports.is_empty() {
            put(format!("{list} {name}  not reported"));
        }
        for report in reports {
            put(format!("{list} {name}  {} ({})", sure(report.kind), report.kind));
            led(&report.by, &report.chain, names).into_iter().for_each(&mut put);
        }
    }
    let why = match (certainty.phi, certainty.local) {
        _ if certainty.places.is_empty() => return text,
        (false, false) => {
            put("Exact here (no phi, every mutation transitive): to a Conditional place no Definite \
                 mutation leads without a maybe-alias step, to one not reported no mutation leads."
                .to_string());
            return text;
        }
        (true, false) => "a phi",
        (false, true) => "a mutation that is not transitive",
        (true, true) => "a phi, a mutation that is not transitive",
    };
    put(format!("Not exact here ({why}): chains may lead to a place that its kinds do not show."));
    text
}

#[cfg(test)]
mod tests {
    use oracle::random::Random;
    use oracle::{certainty, generate, plain};
    use service_host::Service;

    use super::*;
    use crate::explain::explain;
    use crate::explain::tests::is_allowed;
    use crate::graph::Relation;

    /// What is said of a sheet, held to the plain implementation's graph: each report has an allowed
    /// chain from its mutation to its place, which arrives at its kind. How many reports there are,
    /// and how many steps they have.
    fn check(plain_sheet: &plain::sheet::Sheet, service: &mut Service) -> (usize, usize) {
        let sheet = Sheet::read(&plain_sheet.words()).unwrap();
        let answer = service.infer(0, &sheet.words()).unwrap();
        let said = explain(&sheet, &answer).unwrap().certainty;
        let built = plain::building::build(plain_sheet).unwrap();
        assert_eq!(!said.phi && !said.local, certainty::in_class(plain_sheet));
        let (mut reports, mut steps) = (0, 0);
        for listed in &said.places {
            for Report { kind, by, chain } in &listed.reports {
                assert!(is_allowed(&built, by, chain));
                let last = chain.last();
                assert_eq!(
                    last.map_or(by.identifier, |s| s.to.identifier),
                    listed.place.identifier
                );
                let definite = sure(*kind) == "Definite";
                let arrived = last.map_or(by.kind, |s| s.to.kind);
                assert_eq!(arrived == MutationKind::Definite, definite);
                let maybe = chain.iter().any(|step| step.relation == Relation::MaybeAlias);
                assert_eq!(by.kind == MutationKind::Definite && !maybe, definite);
                let wide =
                    [EffectKind::MutateTransitive, EffectKind::MutateTransitiveConditionally];
                assert_eq!(last.map_or(by.transitive, |s| s.to.transitive), wide.contains(kind));
                reports += 1;
                steps += chain.len();
            }
        }
        write(&said, &Names::numbered(&sheet));
        (reports, steps)
    }

    /// Sheets that order 8 speaks of, and any.
    #[test]
    fn every_report_has_a_chain() {
        let mut random = Random::new(8);
        let mut service = Service::new();
        let (mut reports, mut steps) = (0, 0);
        for i in 0..4_000 {
            let sheet = match i % 2 {
                0 => plain::read(&certainty::made(&mut random).sheet).unwrap(),
                _ => generate::sheet(&mut random),
            };
            let (more, further) = check(&sheet, &mut service);
            reports += more;
            steps += further;
        }
        assert!(reports > 5_000 && steps > 5_000, "{reports} {steps}");
    }
}
