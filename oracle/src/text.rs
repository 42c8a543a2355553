//! Sheets with their answers and drawings, as text. `#` begins a comment, a line that begins with
//! `=` is a line of the answer, one with `>` and a blank a line of the drawing, and every other line
//! has words of the sheet, in decimal.

pub struct Text {
    pub words: Vec<u32>,
    pub answer: Vec<String>,
    /// Without their line feeds; none if the file is not about drawings.
    pub drawing: Vec<String>,
}

pub fn parse(text: &str) -> Result<Text, String> {
    let mut parsed = Text { words: Vec::new(), answer: Vec::new(), drawing: Vec::new() };
    for line in text.lines() {
        let line = line.split('#').next().unwrap_or_default().trim();
        if let Some(answer) = line.strip_prefix('=') {
            parsed.answer.push(answer.trim().to_string());
            continue;
        }
        if let Some(drawn) = line.strip_prefix("> ") {
            parsed.drawing.push(drawn.to_string());
            continue;
        }
        for word in line.split_whitespace() {
            parsed.words.push(word.parse().map_err(|_| format!("{word} is no word"))?);
        }
    }
    Ok(parsed)
}

/// The sheets of the folder `smallest/`, in the order of their names.
pub fn smallest() -> Vec<Text> {
    folder(concat!(env!("CARGO_MANIFEST_DIR"), "/smallest"))
}

/// Those of the folder `drawings/`.
pub fn drawings() -> Vec<Text> {
    folder(concat!(env!("CARGO_MANIFEST_DIR"), "/drawings"))
}

fn folder(folder: &str) -> Vec<Text> {
    let entries = std::fs::read_dir(folder).expect("the folder is there");
    let mut files: Vec<_> = entries.filter_map(|entry| Some(entry.ok()?.path())).collect();
    files.sort();
    let text = |file| std::fs::read_to_string(file).map_err(|e| e.to_string());
    files.iter().map(|file| text(file).and_then(|t| parse(&t)).expect("it is text")).collect()
}
