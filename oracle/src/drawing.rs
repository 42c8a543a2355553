//! Drawings (document 02, order 6): which sheets are drawn, and the comparison of one drawing: the
//! plain implementation's with the original's, and other sides with both.

use crate::compare::{self, Difference, or_panic, roomy, varied};
use crate::damage::{Call, apply};
use crate::original_side;
use crate::plain::building::Held;
use crate::plain::dot::{Drawn, judge, lend};
use crate::plain::sheet::WORKSPACE_WORDS;
use crate::plain::{Whole, read_whole};
use crate::random::Random;
use crate::{cases, dense, generate, held, text, totals};

/// A further side that draws, such as our own library.
pub trait Drawer {
    fn name(&self) -> &'static str;

    /// What the call gave, or what is wrong with the buffers that it left.
    fn draw(&mut self, sheet: &[u32], workspace: usize, room: usize) -> Result<Drawn, String>;
}

// =============================================================================
// Which sheets
// =============================================================================

/// The bench cases, the ranges of words, the totals, what is held, the sheets of smallest/ and drawings/, and those
/// whose walks are long.
pub fn fixed() -> Vec<Call> {
    let mut sheets = cases::sheets();
    sheets.extend(totals::all().into_iter().map(|sheet| sheet.words));
    sheets.extend(held::all().into_iter().map(|sheet| sheet.words));
    let texts = text::smallest().into_iter().chain(text::drawings());
    sheets.extend(texts.map(|text| text.words));
    sheets.extend(dense::all().iter().map(|(_, sheet)| sheet.words()));
    sheets.iter().map(|sheet| roomy(sheet)).collect()
}

/// A sheet that is drawn: every fifth has an Apply among its effects.
pub fn made(random: &mut Random) -> Call {
    let mut sheet = generate::sheet(random);
    if random.percent(20) {
        apply(&mut sheet, random);
    }
    Call::good(&sheet, random)
}

// =============================================================================
// The comparison
// =============================================================================

/// The lengths at which a sheet is drawn: workspace and text. Those of a call; then a text that is
/// shorter or empty, and a workspace that is too short.
fn lengths(call: &Call, text: Option<usize>) -> Vec<(usize, usize)> {
    let vary = varied(call, text);
    let mut lengths = compare::lengths(call, text);
    lengths.extend(text.map(|full| (WORKSPACE_WORDS, vary % full)));
    let short = [WORKSPACE_WORDS - 1, vary, 0][vary % 3];
    lengths.push((short.min(WORKSPACE_WORDS - 1), text.unwrap_or(0)));
    lengths.dedup();
    lengths
}

/// A drawing in lines, with the first line in which it differs from another.
fn told(drawn: &Result<Drawn, String>, other: &Result<Drawn, String>) -> String {
    let lines = |text: &[u8]| -> Vec<String> {
        String::from_utf8_lossy(text).split_inclusive('\n').map(str::to_string).collect()
    };
    match (drawn, other) {
        (Err(message), _) => message.clone(),
        (Ok(Drawn::Refused(number)), _) => format!("refused {number}"),
        (Ok(Drawn::Text(text)), Ok(Drawn::Text(others))) => {
            let (all, others) = (lines(text), lines(others));
            let at = all.iter().zip(&others).take_while(|(a, b)| a == b).count();
            let found =
                all.get(at).map_or("is not there".to_string(), |line| format!("is {line:?}"));
            format!("{} bytes, line {at} {found}", text.len())
        }
        (Ok(Drawn::Text(text)), _) => format!("{} bytes", text.len()),
    }
}

fn difference(
    side: &'static str,
    expected: Result<Drawn, String>,
    got: Result<Drawn, String>,
    asked: String,
) -> Option<Difference> {
    let same = expected == got;
    let told = || Difference {
        side,
        expected: vec![asked, told(&expected, &got)],
        got: vec![told(&got, &expected)],
    };
    (!same).then(told)
}

/// What one comparison has seen.
#[derive(Debug, Default)]
pub struct Seen {
    /// The refusal of the call at its own lengths, 0 if it is drawn.
    pub refusal: u32,
    /// Whether the sheet is drawn although the call on it is refused 10.
    pub applies: bool,
    /// How many calls were made, of all sides.
    pub calls: u64,
    pub difference: Option<Difference>,
}

/// How many edges and entries the original's graph has, beside what the plain implementation holds
/// after building.
fn compare_held(whole: &Whole) -> Option<Difference> {
    let told = |held: &Held| vec![format!("{} edges, {} entries", held.edges, held.entries)];
    let got = match or_panic(|| original_side::held(&whole.sheet)) {
        Ok(held) if held == whole.built.held => return None,
        Ok(held) => told(&held),
        Err(message) => vec![message],
    };
    Some(Difference { side: "original, what is held", expected: told(&whole.built.held), got })
}

/// One sheet: the plain implementation's text beside the original's, then every side at every length.
pub fn compare_drawing(call: &Call, drawers: &mut [Box<dyn Drawer>]) -> Seen {
    let judged = judge(&call.sheet);
    let lengths = lengths(call, judged.as_ref().ok().map(Vec::len));
    let (workspace, room) = lengths[0];
    let mut seen = Seen::default();
    if let Drawn::Refused(number) = lend(&judged, workspace, room) {
        seen.refusal = number;
    }
    if let (Ok(text), Ok(whole)) = (&judged, read_whole(&call.sheet)) {
        seen.applies = whole.verdict == 10;
        let original = or_panic(|| original_side::drawing(&whole.sheet)).map(Drawn::Text);
        let expected = Ok(Drawn::Text(text.clone()));
        seen.difference = difference("original, a drawing", expected, original, String::new())
            .or_else(|| compare_held(&whole));
    }
    for drawer in drawers {
        for &(workspace, room) in &lengths {
            seen.calls += 1;
            let expected = Ok(lend(&judged, workspace, room));
            let got = drawer.draw(&call.sheet, workspace, room);
            let asked = format!("workspace {workspace}, {room} bytes");
            let found = difference(drawer.name(), expected, got, asked);
            seen.difference = seen.difference.or(found);
        }
    }
    seen
}

#[cfg(test)]
mod tests {
    use super::*;
    use crate::plain::building::{Built, Relation, build};
    use crate::plain::dot::dot;

    /// The sheets of drawings/ with their texts, from the plain implementation and the original.
    #[test]
    fn smallest() {
        for text in text::drawings() {
            let lines: String = text.drawing.iter().map(|line| format!("{line}\n")).collect();
            assert_eq!(judge(&text.words), Ok(lines.into_bytes()));
            assert!(compare_drawing(&roomy(&text.words), &mut []).difference.is_none());
        }
    }

    /// A fifth of the made sheets is drawn although the call refuses it; all are drawn.
    #[test]
    fn made_sheets_are_drawn() {
        let mut random = Random::new(6);
        let seen: Vec<Seen> =
            (0..1_000).map(|_| compare_drawing(&made(&mut random), &mut [])).collect();
        assert!(seen.iter().all(|seen| seen.refusal == 0 && seen.difference.is_none()));
        let applies = seen.iter().filter(|seen| seen.applies).count();
        assert!((100..300).contains(&applies), "{applies}");
    }

    /// Draws as the plain implementation does, but for one fault.
    struct Faulty(fn(Built) -> Vec<u8>);

    impl Drawer for Faulty {
        fn name(&self) -> &'static str {
            "faulty"
        }
        fn draw(&mut self, sheet: &[u32], workspace: usize, room: usize) -> Result<Drawn, String> {
            let text = read_whole(sheet).map(|whole| self.0(whole.built));
            Ok(lend(&judge(sheet).and(text), workspace, room))
        }
    }

    fn edges(built: &mut Built, change: impl Fn(&mut Vec<crate::plain::building::Edge>)) {
        built.nodes.iter_mut().flatten().for_each(|node| change(&mut node.edges));
    }

    /// Edges by index; edges under their nodes; maybe written alias; a label off by one; the last line
    /// feed missing; an edge between the same two left out; CreateFrom written capture.
    const FAULTS: [fn(Built) -> Vec<u8>; 7] = [
        |mut built| {
            edges(&mut built, |edges| edges.sort_by_key(|edge| edge.index));
            dot(&built)
        },
        |built| {
            let text = String::from_utf8(dot(&built)).expect("it is ASCII");
            let lines: Vec<&str> = text.split_inclusive('\n').collect();
            let (nodes, edges): (Vec<&str>, Vec<&str>) =
                lines[1..lines.len() - 1].iter().partition(|line| !line.contains("->"));
            let mut under = vec![lines[0]];
            for node in nodes {
                under.push(node);
                let own = format!("{} ->", node.trim_end_matches(";\n"));
                under.extend(edges.iter().filter(|edge| edge.starts_with(&own)));
            }
            under.push("}\n");
            under.concat().into_bytes()
        },
        |mut built| {
            edges(&mut built, |edges| {
                for edge in edges.iter_mut().filter(|e| e.relation == Relation::MaybeAlias) {
                    edge.relation = Relation::Alias;
                }
            });
            dot(&built)
        },
        |mut built| {
            edges(&mut built, |edges| edges.iter_mut().for_each(|edge| edge.index += 1));
            dot(&built)
        },
        |built| {
            let mut text = dot(&built);
            text.pop();
            text
        },
        |mut built| {
            edges(&mut built, |edges| {
                let mut met = Vec::new();
                edges.retain(|edge| {
                    let key = (edge.into, edge.relation);
                    let again = met.contains(&key);
                    met.push(key);
                    !again
                });
            });
            dot(&built)
        },
        |mut built| {
            edges(&mut built, |edges| {
                for edge in edges.iter_mut().filter(|e| e.relation == Relation::CreateFrom) {
                    edge.relation = Relation::Capture;
                }
            });
            dot(&built)
        },
    ];

    /// Each fault is found in the fixed sheets, and in the first thousand made ones.
    #[test]
    fn faults_are_found() {
        for fault in FAULTS {
            let mut drawers: Vec<Box<dyn Drawer>> = vec![Box::new(Faulty(fault))];
            let mut differs = |call: &Call| {
                let found = compare_drawing(call, &mut drawers).difference;
                found.is_some_and(|difference| difference.side == "faulty")
            };
            assert!(fixed().iter().any(&mut differs));
            let mut random = Random::new(1);
            assert!((0..1_000).any(|_| differs(&made(&mut random))));
        }
    }
}
