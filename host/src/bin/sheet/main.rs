//! Sheets for people: words to text, text to words, the library's answer, why each end is where it
//! is and how sure each parameter's mutation is, drawings, and class loads.

mod certainty;
mod class_load;
mod explain;
mod graph;
mod load;
mod operands;
mod walks;

use std::ffi::OsString;
use std::io::Write;
use std::path::{Path, PathBuf};
use std::process::ExitCode;

use load::Form;
use service_host::text::{self, Names};
use service_host::{ClassLoad, Refusal, Service, Sheet, limits};

const USAGE: &str = "\
usage: sheet text FILE [-o OUT]      a file of words as text
       sheet words FILE [-o OUT]     text as a file of words
       sheet answer FILE [-o OUT]    the answer, a line for each section: either form
       sheet explain FILE [-o OUT]   each identifier's range before and after, and why; whether each
                                     parameter's mutation is Definite or Conditional: either form
       sheet dot FILE [-o OUT]       the graph as a DOT file, for Graphviz: either form
       sheet load SEED N M [--text] [-o OUT]
                                     the class load of a seed: a sheet of N identifiers (2 to 512)
                                     and M effects (1 to 512), as words or as text
       sheet --help
       sheet --version

A word is four bytes, lowest first; a cut last word is filled up with zeros. FILE - is standard
input. Of a sheet that is refused, the faulty word is named. The repository describes the text form
in docs/TEXT.md and the words in docs/FORMAT.md.

Exit status: 0 done; 1 the file or its sheet is faulty, or a load is refused; 2 the command is
faulty.";

/// What the arguments ask for.
enum Request {
    Say(&'static str),
    Run { job: Job, out: Option<PathBuf> },
}

/// What is to be done: a command with its file, or a class load, as text or as words.
enum Job {
    File(Command, PathBuf),
    Load { load: ClassLoad, text: bool },
}

type Command = fn(&Path) -> Result<Vec<u8>, String>;

const VERSION: &str = concat!("sheet ", env!("CARGO_PKG_VERSION"));

fn request(args: impl Iterator<Item = OsString>) -> Result<Request, String> {
    let mut args = args;
    let mut words = Vec::new();
    let mut out = None;
    let mut text = false;
    while let Some(arg) = args.next() {
        match arg.to_str() {
            Some("--help" | "-h") => return Ok(Request::Say(USAGE)),
            Some("--version" | "-V") => return Ok(Request::Say(VERSION)),
            Some("-o") if out.is_some() => return Err("-o is given twice".to_string()),
            Some("-o") => match args.next() {
                Some(name) => out = Some(PathBuf::from(name)),
                None => return Err("expected a file name after -o".to_string()),
            },
            Some("--text") => text = true,
            Some(flag) if flag.starts_with('-') && flag != "-" => {
                return Err(format!("unknown flag `{flag}`"));
            }
            _ => words.push(arg),
        }
    }
    let mut words = words.into_iter();
    let Some(name) = words.next() else {
        return Err("expected a command".to_string());
    };
    if name == "load" {
        let load = class_load::arguments(words)?;
        return Ok(Request::Run { job: Job::Load { load, text }, out });
    }
    if text {
        return Err("--text goes with `load` only".to_string());
    }
    let command: Command = match name.to_str() {
        Some("text") => to_text,
        Some("words") => to_words,
        Some("answer") => answered,
        Some("explain") => explained,
        Some("dot") => drawn,
        _ => return Err(format!("unknown command `{}`", name.display())),
    };
    let Some(file) = words.next().map(PathBuf::from) else {
        return Err(format!("expected a FILE after `{}`", name.display()));
    };
    match words.next() {
        None => Ok(Request::Run { job: Job::File(command, file), out }),
        Some(more) => Err(format!("expected one FILE, found `{}` too", more.display())),
    }
}

fn main() -> ExitCode {
    let (job, out) = match request(std::env::args_os().skip(1)) {
        Ok(Request::Run { job, out }) => (job, out),
        Ok(Request::Say(text)) => {
            println!("{text}");
            return ExitCode::SUCCESS;
        }
        Err(message) => {
            eprintln!("sheet: {message}\n\n{USAGE}");
            return ExitCode::from(2);
        }
    };
    let output = match job {
        Job::File(command, file) => {
            command(&file).map_err(|message| format!("{}: {message}", file.display()))
        }
        Job::Load { load, text } => class_load::made(load, text),
    };
    let done = output.and_then(|bytes| match out {
        None => std::io::stdout().write_all(&bytes).map_err(|e| format!("standard output: {e}")),
        Some(out) => std::fs::write(&out, &bytes).map_err(|e| format!("{}: {e}", out.display())),
    });
    match done {
        Ok(()) => ExitCode::SUCCESS,
        Err(message) => {
            eprintln!("sheet: {message}");
            ExitCode::FAILURE
        }
    }
}

fn to_text(file: &Path) -> Result<Vec<u8>, String> {
    let Form::Words(words) = load::load(file)? else {
        return Err("expected words, found text".to_string());
    };
    let sheet = Sheet::read(&words).map_err(|e| e.to_string())?;
    warn(file, &sheet);
    Ok(text::write(&sheet, &Names::numbered(&sheet)).into_bytes())
}

fn to_words(file: &Path) -> Result<Vec<u8>, String> {
    let Form::Text(text) = load::load(file)? else {
        return Err("expected text, found words".to_string());
    };
    let (sheet, _) = text::parse(&text).map_err(|e| e.to_string())?;
    warn(file, &sheet);
    Ok(bytes(&sheet.words()))
}

fn bytes(words: &[u32]) -> Vec<u8> {
    words.iter().flat_map(|word| word.to_le_bytes()).collect()
}

fn answered(file: &Path) -> Result<Vec<u8>, String> {
    asked(file, |words| Service::new().infer(0, words).map(|answer| answer.to_string()))
}

fn drawn(file: &Path) -> Result<Vec<u8>, String> {
    asked(file, |words| Service::new().dot(words))
}

/// The library is asked about the words as they are, faulty ones too.
fn asked(
    file: &Path,
    library: impl FnOnce(&[u32]) -> Result<String, Refusal>,
) -> Result<Vec<u8>, String> {
    let words = match load::load(file)? {
        Form::Text(text) => text::parse(&text).map_err(|e| e.to_string())?.0.words(),
        Form::Words(words) => words,
    };
    library(&words).map(String::into_bytes).map_err(|refusal| match Sheet::read(&words) {
        Ok(sheet) => why(&sheet, refusal),
        Err(error) if error.refusal() == refusal => error.to_string(),
        Err(_) => refusal.to_string(),
    })
}

fn explained(file: &Path) -> Result<Vec<u8>, String> {
    let (sheet, names) = either(file)?;
    let mut service = Service::new();
    let answer = service.infer(0, &sheet.words()).map_err(|refusal| why(&sheet, refusal))?;
    let explained = explain::explain(&sheet, &answer)?;
    let all = &explained.ranges;
    let moved = all.iter().filter(|m| m.before.end != m.after.end).count();
    let passed = all.iter().filter(|m| m.end.is_some()).count();
    let mut text = explain::write(&explained, &names);
    text += &format!(
        "{moved} of {} ends moved, {passed} of them by the pass over operands. Ranges, walks and \
         reports made here agree with the library's answer.\n",
        all.len()
    );
    Ok(text.into_bytes())
}

/// The sheet of a file of either form.
fn either(file: &Path) -> Result<(Sheet, Names), String> {
    match load::load(file)? {
        Form::Text(text) => text::parse(&text).map_err(|e| e.to_string()),
        Form::Words(words) => {
            let sheet = Sheet::read(&words).map_err(|e| e.to_string())?;
            let names = Names::numbered(&sheet);
            Ok((sheet, names))
        }
    }
}

/// A refusal that is about a sheet as a whole, with the numbers behind it.
fn why(sheet: &Sheet, refusal: Refusal) -> String {
    let faults: Vec<_> = match refusal {
        Refusal::LongSheet => {
            vec![format!("{} words, at most {}", sheet.words().len(), limits::WORDS)]
        }
        Refusal::Totals => {
            let over = sheet.totals().over().chain(sheet.held().over());
            over.map(|(what, total, most)| format!("{total} {what}, at most {most}")).collect()
        }
        Refusal::Apply => {
            let applies = sheet.applies().take(1);
            applies
                .map(|(b, o)| format!("Apply, instruction at {} in block {}", o.0, b.0))
                .collect()
        }
        _ => return refusal.to_string(),
    };
    format!("refused {}: the sheet has {}", refusal.number(), faults.join("; "))
}

/// Says that the sheet will be refused; it can be written in its other form all the same.
fn warn(file: &Path, sheet: &Sheet) {
    if let Some(refusal) = sheet.refusal() {
        eprintln!("sheet: {}: {}", file.display(), why(sheet, refusal));
    }
}
