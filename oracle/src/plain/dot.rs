//! Drawing (document 02, order 6): the built graph as a DOT file.

use super::building::{Built, Edge, Node, Relation};
use super::read_whole;
use super::sheet::WORKSPACE_WORDS;

#[derive(Debug, Clone, PartialEq, Eq)]
pub enum Drawn {
    Refused(u32),
    Text(Vec<u8>),
}

/// "the line `digraph g {`, for each node in rising identifier `  n0;` with its number, then for each
/// forward edge, by node and stored order, `  n0 -> n1 [label="capture 0"];` with both ends, the word
/// capture, alias or maybe, and the index, then the line `}`. Every line ends in one line feed."
pub fn dot(built: &Built) -> Vec<u8> {
    let nodes: Vec<(usize, &Node)> = built
        .nodes
        .iter()
        .enumerate()
        .filter_map(|(id, node)| Some((id, node.as_ref()?)))
        .collect();
    let mut text = String::from("digraph g {\n");
    for (id, _) in &nodes {
        text.push_str(&format!("  n{id};\n"));
    }
    for (id, node) in &nodes {
        for Edge { index, into, relation } in &node.edges {
            let word = match relation {
                Relation::Capture => "capture",
                Relation::Alias | Relation::CreateFrom => "alias",
                Relation::MaybeAlias => "maybe",
            };
            text.push_str(&format!("  n{id} -> n{into} [label=\"{word} {index}\"];\n"));
        }
    }
    text.push_str("}\n");
    text.into_bytes()
}

/// What the sheet alone decides: the text, or refusals 2 to 8. The drawing "never gives 10".
pub fn judge(sheet: &[u32]) -> Result<Vec<u8>, u32> {
    Ok(dot(&read_whole(sheet)?.built))
}

/// What is then decided by the lengths of the lent buffers: "9 compares the lent bytes with this text's
/// length".
pub fn lend(judged: &Result<Vec<u8>, u32>, workspace_len: usize, text_len: usize) -> Drawn {
    match judged {
        _ if workspace_len < WORKSPACE_WORDS => Drawn::Refused(1),
        Err(refusal) => Drawn::Refused(*refusal),
        Ok(text) if text_len < text.len() => Drawn::Refused(9),
        Ok(text) => Drawn::Text(text.clone()),
    }
}
