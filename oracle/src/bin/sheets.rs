//! sheets answers|loads|drawings|replay N DIR
//!
//! Writes test data from fixed seeds, as 32-bit words, lowest byte first.
//!
//! answers/{good,limits,damaged}.bin: N records, each
//!   sheet length, sheet words..
//!   workspace length, answer buffer length, refusal (0 if accepted),
//!   answer length (0 if refused), answer words..
//!
//! loads/loads.bin: records of class loads, those of src/load.rs and N made ones, each at every length
//!   of output that makes a difference
//!   seed, n, m, output length, refusal (0 if there is a load),
//!   sheet length (0 if refused), sheet words..
//!
//! drawings/drawings.bin: records of drawings, of sheets at each limit, N made and N damaged ones, each
//!   with a text that is full, one byte short and longer
//!   sheet length, sheet words..
//!   workspace length, text length in bytes, refusal (0 if it is drawn),
//!   how many bytes are drawn (0 if refused), the bytes, filled up with zeros to whole words
//!
//! replay/{data/answers.bin,stdout}: records of src/replay.rs, with N accepted and N damaged
//!   sheets, in parts of 32,768 words; and that program's line of counts

use std::path::Path;
use std::process::ExitCode;

use oracle::damage::{Call, damaged};
use oracle::drawing;
use oracle::generate::{self, LIMITS};
use oracle::load::{self, Load};
use oracle::plain::dot::{Drawn, judge, lend};
use oracle::plain::sheet::WORKSPACE_WORDS;
use oracle::plain::{self, Outcome};
use oracle::program::{bytes, file_words};
use oracle::random::Random;
use oracle::replay::{self, Recorded};

type Words = Vec<u32>;

const KINDS: [&str; 4] = ["answers", "loads", "drawings", "replay"];

// =============================================================================
// Answers
// =============================================================================

fn put_list(words: &mut Words, list: &[u32]) {
    words.push(list.len() as u32);
    words.extend(list);
}

fn answer(call: &Call) -> Words {
    let length = plain::read(&call.sheet).map_or(0, |s| plain::answer(&s).words().len());
    let room = call.room.words(length);
    let (refusal, answer) = match plain::outcome(&call.sheet, call.workspace, room) {
        Outcome::Refused(refusal) => (refusal, Vec::new()),
        Outcome::Accepted(answer) => (0, answer),
    };
    let mut words = Vec::new();
    put_list(&mut words, &call.sheet);
    words.extend([call.workspace as u32, room as u32, refusal]);
    put_list(&mut words, &answer);
    words
}

fn write(
    folder: &Path,
    name: &str,
    count: usize,
    mut record: impl FnMut(usize) -> Words,
) -> std::io::Result<()> {
    let mut words = Vec::new();
    for i in 0..count {
        words.extend(record(i));
    }
    std::fs::create_dir_all(folder)?;
    let file = folder.join(name);
    std::fs::write(&file, bytes(&words))?;
    println!("{}: {count} records, {} words", file.display(), words.len());
    Ok(())
}

fn write_answers(folder: &Path, count: usize) -> std::io::Result<()> {
    let mut random = Random::new(12);
    write(folder, "good.bin", count, |_| {
        let sheet = generate::sheet(&mut random);
        answer(&Call::good(&sheet, &mut random))
    })?;
    write(folder, "limits.bin", count.min(LIMITS.len()), |i| {
        let sheet = generate::at_limit(&mut random, LIMITS[i]);
        answer(&Call::good(&sheet, &mut random))
    })?;
    write(folder, "damaged.bin", count, |_| answer(&damaged(&mut random)))
}

// =============================================================================
// Class loads
// =============================================================================

fn loaded(load: Load, room: usize) -> Words {
    let (refusal, sheet) = match load.outcome(room) {
        Outcome::Refused(refusal) => (refusal, Vec::new()),
        Outcome::Accepted(sheet) => (0, sheet),
    };
    let mut words = vec![load.seed, load.n, load.m, room as u32, refusal];
    put_list(&mut words, &sheet);
    words
}

fn write_loads(folder: &Path, count: usize) -> std::io::Result<()> {
    let mut random = Random::new(12);
    let mut loads = [load::fixed(), load::outside()].concat();
    loads.extend((0..count).map(|_| load::made(&mut random)));
    let calls: Vec<(Load, usize)> =
        loads.iter().flat_map(|load| load.rooms().map(|room| (*load, room))).collect();
    write(folder, "loads.bin", calls.len(), |i| loaded(calls[i].0, calls[i].1))
}

// =============================================================================
// Drawings
// =============================================================================

fn drawn(sheet: &[u32], workspace: usize, room: usize) -> Words {
    let (refusal, text) = match lend(&judge(sheet), workspace, room) {
        Drawn::Refused(refusal) => (refusal, Vec::new()),
        Drawn::Text(text) => (0, text),
    };
    let mut words = Vec::new();
    put_list(&mut words, sheet);
    words.extend([workspace as u32, room as u32, refusal, text.len() as u32]);
    words.extend(file_words(&text));
    words
}

fn write_drawings(folder: &Path, count: usize) -> std::io::Result<()> {
    let mut random = Random::new(12);
    let mut calls: Vec<(Vec<u32>, usize, usize)> = Vec::new();
    let mut call = |sheet: Vec<u32>, workspace: usize| {
        let full = judge(&sheet).map_or(0, |text| text.len());
        for room in [full, full.saturating_sub(1), full + 77] {
            calls.push((sheet.clone(), workspace, room));
        }
    };
    LIMITS.into_iter().for_each(|limit| {
        call(generate::at_limit(&mut random, limit).words(), WORKSPACE_WORDS);
    });
    for _ in 0..count {
        call(drawing::made(&mut random).sheet, WORKSPACE_WORDS);
        let damaged = damaged(&mut random);
        call(damaged.sheet, damaged.workspace);
    }
    write(folder, "drawings.bin", calls.len(), |i| {
        let (sheet, workspace, room) = &calls[i];
        drawn(sheet, *workspace, *room)
    })
}

// =============================================================================
// Replay
// =============================================================================

/// The words of a part, and how many parts the program reads.
const PART: usize = 32_768;
const MOST_PARTS: usize = 48;

/// The records in parts: a record goes into the first that has room.
fn parts(records: &[Recorded]) -> Vec<Vec<&Recorded>> {
    let mut parts: Vec<(usize, Vec<&Recorded>)> = Vec::new();
    for record in records {
        let length = record.words.len();
        match parts.iter_mut().find(|(words, _)| words + length <= PART) {
            Some((words, part)) => {
                *words += length;
                part.push(record);
            }
            None => parts.push((length, vec![record])),
        }
    }
    parts.into_iter().map(|(_, part)| part).collect()
}

/// The words of a part, filled up with zeros.
fn part_words(part: &[&Recorded]) -> Words {
    let mut words: Words = part.iter().flat_map(|record| &record.words).copied().collect();
    words.resize(PART, 0);
    words
}

fn write_replay(folder: &Path, count: usize) -> std::io::Result<()> {
    let records = replay::records(count);
    let parts = parts(&records);
    if parts.len() > MOST_PARTS {
        let error = format!("{} parts, and the program reads {MOST_PARTS}", parts.len());
        return Err(std::io::Error::other(error));
    }
    let line = replay::line(parts.iter().flatten().copied());
    let words = parts.iter().map(|part| part_words(part)).collect::<Vec<_>>().concat();
    std::fs::create_dir_all(folder.join("data"))?;
    std::fs::write(folder.join("data/answers.bin"), bytes(&words))?;
    std::fs::write(folder.join("stdout"), &line)?;
    for refusal in 0..=10 {
        let found = records.iter().filter(|r| r.refusal == refusal).count();
        println!("refusal {refusal}: {found} sheets");
    }
    print!("{}: {} words, {line}", folder.display(), words.len());
    Ok(())
}

fn make(what: &str, count: usize, folder: &Path) -> std::io::Result<()> {
    let folder = folder.join(what);
    match what {
        "answers" => write_answers(&folder, count),
        "loads" => write_loads(&folder, count),
        "drawings" => write_drawings(&folder, count),
        _ => write_replay(&folder, count),
    }
}

fn main() -> ExitCode {
    let arguments: Vec<String> = std::env::args().skip(1).collect();
    let parsed = match &arguments[..] {
        [what, count, folder] if KINDS.contains(&what.as_str()) => {
            count.parse().ok().map(|count| (what, count, folder))
        }
        _ => None,
    };
    let Some((what, count, folder)) = parsed else {
        eprintln!("sheets {} N DIR", KINDS.join("|"));
        return ExitCode::from(2);
    };
    match make(what, count, Path::new(folder)) {
        Ok(()) => ExitCode::SUCCESS,
        Err(error) => {
            eprintln!("{error}");
            ExitCode::from(1)
        }
    }
}
