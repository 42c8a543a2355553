//! check --cases            the bench cases of document 01, its limits and refusals
//! check --smallest FILE..  sheets with their answers or drawings, as text
//!
//! The plain reader is held to all lines of an answer, the original to all but the walks; both to all
//! lines of a drawing.

use std::process::ExitCode;

use oracle::cases::{CASES, FURTHER};
use oracle::compare::{lines, original_lines};
use oracle::original_side::drawing;
use oracle::plain;
use oracle::text::{Text, parse};

fn check(file: &str) -> Result<(), String> {
    let text = std::fs::read_to_string(file).map_err(|e| e.to_string())?;
    let text = parse(&text)?;
    if !text.drawing.is_empty() {
        check_drawing(&text)?;
        if text.answer.is_empty() {
            return Ok(());
        }
    }
    let plain = lines(&plain::outcome(&text.words, 16_384, usize::MAX));
    if plain != text.answer {
        return Err(format!("plain reader:\n= {}", plain.join("\n= ")));
    }
    if let Ok(sheet) = plain::read(&text.words) {
        let original = original_lines(&sheet);
        let expected = text.answer.iter().filter(|line| !line.starts_with("walks"));
        if !original.iter().eq(expected) {
            return Err(format!("original:\n= {}", original.join("\n= ")));
        }
    }
    Ok(())
}

fn check_drawing(text: &Text) -> Result<(), String> {
    let expected: String = text.drawing.iter().map(|line| format!("{line}\n")).collect();
    let plain = plain::dot::judge(&text.words).map_err(|r| format!("drawing: refused {r}"))?;
    let whole = plain::read_whole(&text.words).map_err(|r| format!("refused {r}"))?;
    for (side, drawn) in [("plain reader", plain), ("original", drawing(&whole.sheet))] {
        if drawn != expected.as_bytes() {
            let lines = String::from_utf8_lossy(&drawn);
            return Err(format!("{side}:\n> {}", lines.trim_end().replace('\n', "\n> ")));
        }
    }
    Ok(())
}

fn main() -> ExitCode {
    let mut arguments = std::env::args().skip(1);
    let results: Vec<(String, Result<(), String>)> = match arguments.next().as_deref() {
        Some("--cases") => {
            let named = |(n, case): (usize, &fn() -> Result<(), String>)| {
                (format!("case {}", n + 1), case())
            };
            let further = FURTHER.iter().map(|(name, case)| (name.to_string(), case()));
            CASES.iter().enumerate().map(named).chain(further).collect()
        }
        Some("--smallest") => arguments.map(|f| (f.clone(), check(&f))).collect(),
        _ => {
            eprintln!("check --cases | check --smallest FILE..");
            return ExitCode::from(2);
        }
    };
    let mut failed = 0;
    for (name, result) in &results {
        match result {
            Ok(()) => println!("{name}: holds"),
            Err(message) => {
                failed += 1;
                println!("{name}: {message}");
            }
        }
    }
    println!("{} checked, {failed} failed", results.len());
    ExitCode::from((failed > 0) as u8)
}
