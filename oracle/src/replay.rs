//! Sheets with their answers for the program of crate `replay`, as words.
//!
//! A record:
//!
//!   length of the rest
//!   sheet length, sheet words
//!   refusal at a workspace that is long enough and an answer buffer of `ROOM` words (0 if accepted)
//!   answer length (0 if refused), answer words

use crate::cases;
use crate::compare::{compare, roomy};
use crate::damage::damaged;
use crate::dense;
use crate::generate::{self, LIMITS, Limit, PASSABLE};
use crate::held;
use crate::plain::{self, Outcome, sheet::WORKSPACE_WORDS};
use crate::random::Random;
use crate::text;
use crate::totals;

/// The longest answer buffer that the program lends.
pub const ROOM: usize = 18_000;

/// A generated sheet that is longer is not taken, for the size of the file.
const LONGEST: usize = 2_500;

/// So many mutations have the sheets whose walks are long, for the time that the program takes where
/// it is compiled without optimization. `compare` has them with all that a sheet may have.
const LONG_WALKS: usize = 32;

/// The first serials of the program's callers.
const FIRST: [u32; 4] = [0, 4_294_967_295, 7, 4_294_967_000];

/// The calls that the program makes with each sheet for callers outside the records.
const OUTSIDE: usize = 3;

/// The calls that it then makes with an accepted sheet (two of them accepted) and with a refused one.
const CALLS: [usize; 2] = [5, 4];

pub struct Recorded {
    pub words: Vec<u32>,
    pub refusal: u32,
}

fn record(sheet: &[u32]) -> Recorded {
    let (_, difference) = compare(&roomy(sheet), &mut []);
    assert!(difference.is_none(), "the original and the plain reader differ: {sheet:?}");
    let (refusal, answer) = match plain::outcome(sheet, WORKSPACE_WORDS, ROOM) {
        Outcome::Refused(number) => (number, Vec::new()),
        Outcome::Accepted(answer) => (0, answer),
    };
    let mut words = vec![(sheet.len() + 3 + answer.len()) as u32, sheet.len() as u32];
    words.extend(sheet);
    words.extend([refusal, answer.len() as u32]);
    words.extend(answer);
    Recorded { words, refusal }
}

/// Whether sheets at the limit and past it are among those of case 9.
fn is_of_case_9(limit: &Limit) -> bool {
    matches!(limit, Limit::Relations | Limit::PhiRelations | Limit::Entries)
}

/// Whether sheets past the limit are among those about the totals.
fn is_total(limit: &Limit) -> bool {
    is_of_case_9(limit) || matches!(limit, Limit::Mutations | Limit::Renders)
}

/// The bench cases, the order of refusals, every word at the end of its range and past it, the
/// sheets of `smallest/`, those at each limit and one past it, those about the totals and about what is
/// held, those whose walks are long, and `count` accepted and `count` damaged sheets from a fixed seed.
pub fn records(count: usize) -> Vec<Recorded> {
    let mut random = Random::new(15);
    let mut sheets = cases::sheets();
    sheets.extend(text::smallest().into_iter().map(|text| text.words));
    for limit in LIMITS.into_iter().filter(|limit| !is_of_case_9(limit)) {
        sheets.push(generate::at_limit(&mut random, limit).words());
    }
    for limit in PASSABLE.into_iter().filter(|limit| !is_total(limit)) {
        sheets.push(generate::past_limit(&mut random, limit).words());
    }
    sheets.extend(totals::chief().into_iter().map(|sheet| sheet.words));
    sheets.extend(held::chief().into_iter().map(|sheet| sheet.words));
    sheets.extend(dense::mutated(LONG_WALKS).iter().map(|(_, sheet)| sheet.words()));
    let good = std::iter::from_fn(|| Some(generate::sheet(&mut random).words()));
    sheets.extend(good.filter(|words| words.len() <= LONGEST).take(count));
    let bad = std::iter::from_fn(|| Some(damaged(&mut random).sheet));
    sheets.extend(bad.filter(|words| words.len() <= LONGEST).take(count));
    sheets.iter().map(|sheet| record(sheet)).collect()
}

/// The line that the program prints if nothing differs, of records in the order in which they stand in
/// its file. The n-th sheet, counted from 1, is given for the caller at position n modulo 4.
pub fn line<'a>(records: impl IntoIterator<Item = &'a Recorded>) -> String {
    let (mut sheets, mut calls, mut next) = (0, 0, FIRST);
    for record in records {
        sheets += 1;
        calls += OUTSIDE + CALLS[(record.refusal > 0) as usize];
        if record.refusal == 0 {
            let serial = &mut next[sheets % FIRST.len()];
            *serial = serial.wrapping_add(2);
        }
    }
    let next = next.map(|serial| serial.to_string()).join(" ");
    format!("{sheets} sheets, {calls} calls, 0 different, next serials {next}\n")
}

#[cfg(test)]
mod tests {
    use super::*;

    /// By hand: sheets 1, 2, 4 and 5 are accepted; caller 1 has two of them and wraps.
    #[test]
    fn a_line() {
        let record = |refusal| Recorded { words: Vec::new(), refusal };
        let records = [0, 0, 5, 0, 0].map(record);
        let expected =
            "5 sheets, 39 calls, 0 different, next serials 2 3 9 4294967000\n".to_string();
        assert_eq!(line(&records), expected);
    }
}
