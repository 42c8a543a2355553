//! `include/service.h` has the same numbers as this crate.

use service_host::{
    Effect, EffectKind, MutationReason, Refusal, Type, ValueKind, ValueReason, ffi, limits,
};

const HEADER: &str = include_str!("../../include/service.h");

/// The constants of an enum, without their prefix, with their numbers.
fn constants(name: &str, prefix: &str) -> Vec<(String, u32)> {
    let begin = format!("enum {name} {{\n");
    let (_, rest) = HEADER.split_once(&begin).unwrap();
    let (body, _) = rest.split_once("\n};").unwrap();
    let lines = body.lines().filter(|line| !line.trim_start().starts_with("/*"));
    let constant = |line: &str| {
        let (name, rest) = line.trim().strip_prefix(prefix)?.split_once(" = ")?;
        let digits: String = rest.chars().take_while(char::is_ascii_digit).collect();
        Some((name.to_string(), digits.parse().ok()?))
    };
    lines.filter(|l| !l.trim().starts_with('*')).map(|l| constant(l).expect(l)).collect()
}

/// `MaybeFrozen` as `MAYBE_FROZEN`.
fn capitals(name: &str) -> String {
    let mut out = String::new();
    for letter in name.chars() {
        if letter.is_ascii_uppercase() && !out.is_empty() {
            out.push('_');
        }
        out.push(letter.to_ascii_uppercase());
    }
    out
}

fn numbered(names: &[&str]) -> Vec<(String, u32)> {
    names.iter().map(|name| capitals(name)).zip(0..).collect()
}

fn defined(name: &str) -> usize {
    let line = HEADER.lines().find_map(|line| line.strip_prefix(&format!("#define {name} ")));
    line.unwrap().parse().unwrap()
}

#[test]
fn names_and_numbers() {
    assert_eq!(constants("ServiceType", "SERVICE_TYPE_"), numbered(Type::NAMES));
    assert_eq!(constants("ServiceEffect", "SERVICE_EFFECT_"), numbered(Effect::NAMES));
    assert_eq!(constants("ServiceKind", "SERVICE_KIND_"), numbered(EffectKind::NAMES));
    assert_eq!(constants("ServiceReason", "SERVICE_REASON_"), numbered(ValueReason::NAMES));
    assert_eq!(constants("ServiceValue", "SERVICE_VALUE_"), numbered(ValueKind::NAMES));
    let instructions = numbered(&["Plain", "Function", "StoreContext"]);
    assert_eq!(constants("ServiceInstruction", "SERVICE_INSTRUCTION_"), instructions);
    let terminals = numbered(&["Other", "Return", "MaybeThrow"]);
    assert_eq!(constants("ServiceTerminal", "SERVICE_TERMINAL_"), terminals);
    let refusals = Refusal::ALL.map(|r| (format!("REFUSED_{}", capitals(&format!("{r:?}"))), r));
    let mut expected = vec![("ACCEPTED".to_string(), 0)];
    expected.extend(refusals.map(|(name, refusal)| (name, refusal.number())));
    assert_eq!(constants("ServiceRefusal", "SERVICE_"), expected);
    assert_eq!(defined("SERVICE_ASSIGN_CURRENT_PROPERTY"), MutationReason::ALL.len());
}

/// Each refusal's sentence stands before it.
#[test]
fn sentences() {
    for refusal in Refusal::ALL {
        let sentence = refusal.sentence();
        let begin = format!("/* {}", sentence.trim_end_matches('.'));
        let name = format!("SERVICE_REFUSED_{} =", capitals(&format!("{refusal:?}")));
        let (_, rest) = HEADER.split_once(&begin).expect(sentence);
        assert!(rest.lines().nth(1).unwrap().trim().starts_with(&name), "{refusal}");
    }
}

#[test]
fn limits_and_version() {
    assert_eq!(defined("SERVICE_LEAST_WORKSPACE"), ffi::least_workspace());
    assert_eq!(defined("SERVICE_MOST_SHEET"), ffi::most_sheet());
    assert_eq!(defined("SERVICE_MOST_SHEET"), limits::WORDS);
    assert_eq!(defined("SERVICE_MOST_ANSWER"), limits::ANSWER);
    let bounds = |what| {
        [
            defined(&format!("SERVICE_LEAST_LOAD_{what}")),
            defined(&format!("SERVICE_MOST_LOAD_{what}")),
        ]
    };
    let of =
        |limits: std::ops::RangeInclusive<u32>| [*limits.start() as usize, *limits.end() as usize];
    assert_eq!(bounds("IDENTIFIERS"), of(limits::LOAD_IDENTIFIERS));
    assert_eq!(bounds("EFFECTS"), of(limits::LOAD_EFFECTS));
    assert_eq!(defined("SERVICE_MOST_LOAD"), limits::LOAD);
    assert_eq!(defined("SERVICE_MOST_DRAWING"), limits::DRAWING);
    assert_eq!(defined("SERVICE_ABSENT_EFFECTS"), limits::ABSENT_EFFECTS as usize);
    assert_eq!(defined("SERVICE_REACTIVE"), Effect::ALL.len());
    assert!(HEADER.contains("#define SERVICE_CREATED(reason, value) (6 * (reason) + (value))"));
    let parts = env!("CARGO_PKG_VERSION").split('.').map(|part| part.parse::<usize>().unwrap());
    let version = parts.fold(0, |version, part| 100 * version + part);
    assert_eq!(defined("SERVICE_VERSION"), version);
}

/// Nothing that the preprocessor sees is named otherwise.
#[test]
fn prefixes() {
    for line in HEADER.lines() {
        if let Some(macro_) = line.strip_prefix("#define ") {
            assert!(macro_.starts_with("SERVICE_"), "{line}");
        }
    }
}
