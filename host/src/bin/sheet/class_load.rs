//! The class load of a seed, from the command's arguments.

use std::ffi::OsString;

use service_host::text::{self, Names};
use service_host::{ClassLoad, Sheet, limits};

/// SEED, N and M. Numbers that are no words make a faulty command; of all others the library says
/// whether they are within their limits.
pub fn arguments(words: impl Iterator<Item = OsString>) -> Result<ClassLoad, String> {
    let mut words = words;
    let mut number = |name: &str| match words.next() {
        None => Err(format!("expected SEED, N and M after `load`, found no {name}")),
        Some(word) => word.to_str().and_then(|digits| digits.parse().ok()).ok_or_else(|| {
            format!("expected {name}, a number from 0 to 4294967295, found `{}`", word.display())
        }),
    };
    let load =
        ClassLoad { seed: number("SEED")?, identifiers: number("N")?, effects: number("M")? };
    match words.next() {
        None => Ok(load),
        Some(more) => Err(format!("expected SEED, N and M, found `{}` too", more.display())),
    }
}

/// The load as a file of words, or as text.
pub fn made(load: ClassLoad, as_text: bool) -> Result<Vec<u8>, String> {
    let ClassLoad { seed, identifiers, effects } = load;
    let say = |message: String| format!("load {seed} {identifiers} {effects}: {message}");
    let words =
        load.words().map_err(|refusal| say(format!("{refusal}{}", which(identifiers, effects))))?;
    if !as_text {
        return Ok(super::bytes(&words));
    }
    let sheet = Sheet::read(&words).map_err(|error| say(error.to_string()))?;
    Ok(text::write(&sheet, &Names::numbered(&sheet)).into_bytes())
}

/// Which numbers are outside their limits.
fn which(identifiers: u32, effects: u32) -> String {
    let all = [("N", identifiers, limits::LOAD_IDENTIFIERS), ("M", effects, limits::LOAD_EFFECTS)];
    all.into_iter()
        .filter(|(_, number, limits)| !limits.contains(number))
        .map(|(name, number, limits)| {
            format!(" {name} is from {} to {}, found {number}.", limits.start(), limits.end())
        })
        .collect()
}
