//! Texts given to Graphviz, where its program `dot` is installed: it takes them, and its picture has
//! the graph's nodes and edges.

use std::io::Write;
use std::process::{Command, Stdio};

use crate::plain::building::build;
use crate::plain::dot::dot;
use crate::plain::sheet::Sheet;

/// The picture of a text, or why there is none.
pub fn picture(text: &[u8]) -> Result<String, String> {
    let said = |error: std::io::Error| format!("dot (Debian package graphviz): {error}");
    let mut run = Command::new("dot")
        .arg("-Tsvg")
        .stdin(Stdio::piped())
        .stdout(Stdio::piped())
        .stderr(Stdio::piped())
        .spawn()
        .map_err(said)?;
    // It writes nothing before it has read the whole graph.
    run.stdin.take().expect("it is piped").write_all(text).map_err(said)?;
    let output = run.wait_with_output().map_err(said)?;
    let warned = String::from_utf8_lossy(&output.stderr);
    if !output.status.success() || !warned.is_empty() {
        return Err(format!("dot: {}: {warned}", output.status));
    }
    String::from_utf8(output.stdout).map_err(|error| error.to_string())
}

/// What stands between two marks, at every place, sorted.
fn between(text: &str, start: &str, end: &str) -> Vec<String> {
    let parts = text.split(start).skip(1);
    let mut found: Vec<String> =
        parts.map(|part| part.split(end).next().unwrap_or_default().to_string()).collect();
    found.sort();
    found
}

/// The titles of nodes or edges in a picture, sorted.
fn titles(picture: &str, class: &str) -> Vec<String> {
    let mut titles = between(picture, &format!("class=\"{class}\">\n<title>"), "</title>");
    titles.iter_mut().for_each(|title| *title = title.replace("&#45;&gt;", "->"));
    titles.sort();
    titles
}

/// How many nodes and edges a sheet's drawing has, if its picture has the same nodes, the same edges
/// and the same texts beside them.
pub fn compare_picture(sheet: &Sheet) -> Result<(usize, usize), String> {
    let built = build(sheet).map_err(|refusal| format!("refused {refusal}"))?;
    let picture = picture(&dot(&built))?;
    let (mut nodes, mut edges, mut texts) = (Vec::new(), Vec::new(), Vec::new());
    for (id, node) in built.nodes.iter().enumerate().filter_map(|(id, n)| Some((id, n.as_ref()?))) {
        nodes.push(format!("n{id}"));
        texts.push(format!("n{id}"));
        edges.extend(node.edges.iter().map(|edge| format!("n{id}->n{}", edge.into)));
    }
    let text = String::from_utf8(dot(&built)).map_err(|error| error.to_string())?;
    texts.extend(between(&text, "[label=\"", "\"]"));
    [&mut nodes, &mut edges, &mut texts].into_iter().for_each(|list| list.sort());
    let mut shown: Vec<String> = between(&picture, "<text ", "</text>");
    shown.iter_mut().for_each(|text| *text = text.split('>').next_back().unwrap_or("").into());
    shown.sort();
    for (what, expected, got) in [
        ("nodes", &nodes, titles(&picture, "node")),
        ("edges", &edges, titles(&picture, "edge")),
        ("texts", &texts, shown),
    ] {
        if *expected != got {
            return Err(format!("{what}: {expected:?}, in the picture {got:?}"));
        }
    }
    Ok((nodes.len(), edges.len()))
}
