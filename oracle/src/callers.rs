//! Callers (document 02, order 9): "A caller's serials count its own accepted calls and wrap as before;
//! what others do, refused or accepted, changes none of its answers, serials or its record." Lists of
//! calls by several callers, one after another on the same records, and the comparison of one list:
//! with the plain implementation call by call, and for each caller with the list of its own calls
//! alone.

use crate::cases::without_blocks;
use crate::compare::{Difference, lines};
use crate::damage::{Call, damaged};
use crate::generate;
use crate::plain::sheet::WORKSPACE_WORDS;
use crate::plain::{self, Outcome};
use crate::random::Random;

/// How many callers have a record, and the position of the one that is named.
#[derive(Debug, Clone, Copy, PartialEq, Eq)]
pub struct Named {
    pub callers: usize,
    pub position: usize,
}

impl Named {
    /// "the caller's position is outside the records"
    pub fn outside(self) -> bool {
        self.callers <= self.position
    }
}

const fn named(callers: usize, position: usize) -> Named {
    Named { callers, position }
}

/// The only record, the first, one between and the last.
pub const INSIDE: [Named; 4] = [named(1, 0), named(4, 0), named(4, 2), named(4, 3)];

/// One past the last, the largest position, one whose lower half is inside, the largest whose product
/// with a record's size has no high part, and the first where no record is lent.
pub const OUTSIDE: [Named; 6] = [
    named(4, 4),
    named(4, usize::MAX),
    named(4, 1 << 32),
    named(4, usize::MAX / 4 + 2),
    named(1, 1),
    named(0, 0),
];

// =============================================================================
// Cases
// =============================================================================

/// The records before, by their next serials; the position; whether the sheet is a good one, the
/// workspace and the room; the refusal or 0, the serial, and the records after.
type Case = (&'static [u32], usize, bool, usize, usize, u32, u32, &'static [u32]);

const LAST: u32 = u32::MAX;
const ROOM: usize = 16_384;

const CASES: [Case; 20] = [
    (&[], 0, true, WORKSPACE_WORDS, ROOM, 11, 0, &[]),
    (&[], usize::MAX, true, WORKSPACE_WORDS, ROOM, 11, 0, &[]),
    (&[0], 0, true, WORKSPACE_WORDS, ROOM, 0, 0, &[1]),
    (&[0], 1, true, WORKSPACE_WORDS, ROOM, 11, 0, &[0]),
    (&[5, 7, 9], 0, true, WORKSPACE_WORDS, ROOM, 0, 5, &[6, 7, 9]),
    (&[5, 7, 9], 1, true, WORKSPACE_WORDS, ROOM, 0, 7, &[5, 8, 9]),
    (&[5, 7, 9], 2, true, WORKSPACE_WORDS, ROOM, 0, 9, &[5, 7, 10]),
    (&[5, 7, 9], 3, true, WORKSPACE_WORDS, ROOM, 11, 0, &[5, 7, 9]),
    (&[5, 7, 9], 1 << 32, true, WORKSPACE_WORDS, ROOM, 11, 0, &[5, 7, 9]),
    (&[5, 7, 9], usize::MAX, true, WORKSPACE_WORDS, ROOM, 11, 0, &[5, 7, 9]),
    // One wraps, the others stay.
    (&[5, LAST, 9], 1, true, WORKSPACE_WORDS, ROOM, 0, LAST, &[5, 0, 9]),
    (&[LAST, 0, LAST], 1, true, WORKSPACE_WORDS, ROOM, 0, 0, &[LAST, 1, LAST]),
    // 11 before 1, 3 and 9, which the caller inside gets.
    (&[5], 1, true, WORKSPACE_WORDS - 1, ROOM, 11, 0, &[5]),
    (&[5], 0, true, WORKSPACE_WORDS - 1, ROOM, 1, 0, &[5]),
    (&[5], 1, false, WORKSPACE_WORDS, ROOM, 11, 0, &[5]),
    (&[5], 0, false, WORKSPACE_WORDS, ROOM, 3, 0, &[5]),
    (&[5, 6], 2, true, WORKSPACE_WORDS, 20, 11, 0, &[5, 6]),
    (&[5, 6], 1, true, WORKSPACE_WORDS, 20, 9, 0, &[5, 6]),
    (&[5, 6], 1, true, WORKSPACE_WORDS, 21, 0, 6, &[5, 7]),
    (&[], 0, false, 0, 0, 11, 0, &[]),
];

/// The plain implementation is held to the table.
pub fn cases() -> Result<(), String> {
    let good = without_blocks()[0].words();
    for (at, &(before, position, whole, workspace, room, refusal, serial, after)) in
        CASES.iter().enumerate()
    {
        let mut callers = before.to_vec();
        let sheet = if whole { &good[..] } else { &good[..3] };
        let (outcome, got) = plain::turn(&mut callers, position, sheet, workspace, room);
        let number = match outcome {
            Outcome::Refused(number) => number,
            Outcome::Accepted(_) => 0,
        };
        let told = (number, got.unwrap_or(0), got.is_some(), &callers[..]);
        if told != (refusal, serial, refusal == 0, after) {
            return Err(format!("row {}: {told:?}", at + 1));
        }
    }
    Ok(())
}

// =============================================================================
// Lists of calls
// =============================================================================

/// A call with its caller.
#[derive(Debug, Clone)]
pub struct Ask {
    pub position: usize,
    pub call: Call,
}

/// Calls one after another, on records with these next serials.
#[derive(Debug, Clone)]
pub struct List {
    pub first: Vec<u32>,
    pub asks: Vec<Ask>,
}

/// A few records, new ones, ones shortly before the wrap and others; calls that are accepted and that
/// are refused, for callers inside and outside the records.
pub fn made(random: &mut Random) -> List {
    let count = random.below(7);
    let first = (0..count).map(|_| match random.below(4) {
        0 => 0,
        1 => LAST - random.below(4) as u32,
        2 => random.below(100) as u32,
        _ => random.word() as u32,
    });
    let first: Vec<u32> = first.collect();
    let ask = |random: &mut Random| {
        let call = match random.below(10) {
            0 => Call::good(&generate::sheet(random), random),
            1..7 => Call::good(&generate::tiny(random), random),
            _ => damaged(random),
        };
        let position = match random.below(8) {
            0 => random.choose(&[count, count + 1, usize::MAX, 1 << 32, usize::MAX / 4 + 2]),
            _ => random.below(count.max(1)),
        };
        Ask { position, call }
    };
    let length = random.between(1, 30);
    let asks = (0..length).map(|_| ask(random)).collect();
    List { first, asks }
}

/// What a caller is told of a call.
type Told = (Outcome, Option<u32>);

/// A further side that serves several callers, such as our own library.
pub trait Server {
    fn name(&self) -> &'static str;

    /// What the call for the caller at a position gave, on the callers' next serials, which are those
    /// after it then; or what is wrong with what it left.
    fn turn(
        &mut self,
        callers: &mut [u32],
        position: usize,
        sheet: &[u32],
        workspace: usize,
        room: usize,
    ) -> Result<Told, String>;
}

/// How many words are lent for the answer.
fn room(call: &Call) -> usize {
    call.room.words(plain::judge(&call.sheet).map_or(0, |answer| answer.len()))
}

/// What is told, without the answer's words.
fn in_words(told: &Result<Told, String>, callers: &[u32]) -> Vec<String> {
    let what = match told {
        Err(message) => vec![message.clone()],
        Ok((outcome, serial)) => [vec![format!("serial {serial:?}")], lines(outcome)].concat(),
    };
    [what, vec![format!("records {callers:?}")]].concat()
}

/// The side's calls of one caller alone, on records that have its own and others than before.
fn alone(
    server: &mut dyn Server,
    list: &List,
    position: usize,
) -> (Vec<Result<Told, String>>, u32) {
    let mut callers: Vec<u32> = list.first.iter().map(|next| !next).collect();
    callers.truncate(position.saturating_add(1));
    if let Some(next) = list.first.get(position) {
        callers[position] = *next;
    }
    let own = list.asks.iter().filter(|ask| ask.position == position);
    let told = own.map(|Ask { call, .. }| {
        server.turn(&mut callers, position, &call.sheet, call.workspace, room(call))
    });
    let told = told.collect();
    (told, callers.get(position).copied().unwrap_or(0))
}

/// One list: every call as the plain implementation says, every record after it too; then each
/// caller's calls alone. The first difference, with how many calls were made.
pub fn compare_list(server: &mut dyn Server, list: &List) -> (u64, Option<Difference>) {
    let (mut callers, mut expected) = (list.first.clone(), list.first.clone());
    let mut mixed: Vec<(usize, Result<Told, String>)> = Vec::new();
    let mut calls = 0;
    let side = server.name();
    for (at, Ask { position, call }) in list.asks.iter().enumerate() {
        let (sheet, workspace, room) = (&call.sheet, call.workspace, room(call));
        let plain = Ok(plain::turn(&mut expected, *position, sheet, workspace, room));
        let got = server.turn(&mut callers, *position, sheet, workspace, room);
        calls += 1;
        if got != plain || callers != expected {
            let asked = format!("call {at}, position {position}, of {:?}", list.first);
            let expected = [vec![asked], in_words(&plain, &expected)].concat();
            return (calls, Some(Difference { side, expected, got: in_words(&got, &callers) }));
        }
        mixed.push((*position, got));
    }
    let mut positions: Vec<usize> = mixed.iter().map(|(position, _)| *position).collect();
    positions.sort_unstable();
    positions.dedup();
    for position in positions {
        let (told, left) = alone(server, list, position);
        calls += told.len() as u64;
        let among = mixed.iter().filter(|(p, _)| *p == position).map(|(_, told)| told);
        let next = callers.get(position).copied().unwrap_or(0);
        if left != next || !told.iter().eq(among) {
            let expected =
                vec![format!("position {position} alone as among others"), next.to_string()];
            return (calls, Some(Difference { side, expected, got: vec![left.to_string()] }));
        }
    }
    (calls, None)
}

#[cfg(test)]
mod tests {
    use super::*;

    #[test]
    fn table() {
        assert_eq!(cases(), Ok(()));
        assert!(INSIDE.iter().all(|named| !named.outside()));
        assert!(OUTSIDE.iter().all(|named| named.outside()));
    }

    /// What made lists have: records that wrap, lists without a record, and every kind of outcome.
    #[test]
    fn made_lists() {
        let mut random = Random::new(1);
        let (mut wraps, mut none, mut refusals) = (0, 0, [0; 12]);
        for _ in 0..500 {
            let List { first, asks } = made(&mut random);
            none += first.is_empty() as u32;
            let mut callers = first;
            for Ask { position, call } in asks {
                let told =
                    plain::turn(&mut callers, position, &call.sheet, call.workspace, room(&call));
                wraps += (told.1 == Some(LAST)) as u32;
                match told.0 {
                    Outcome::Accepted(_) => refusals[0] += 1,
                    Outcome::Refused(number) => refusals[number as usize] += 1,
                }
            }
        }
        assert!(wraps > 100 && none > 20, "{wraps} {none}");
        assert!(refusals.iter().all(|&n| n > 0), "{refusals:?}");
    }

    /// Serves as the plain implementation does, but for one fault.
    struct Faulty(fn(&mut [u32], usize, &Told));

    impl Server for Faulty {
        fn name(&self) -> &'static str {
            "faulty"
        }
        fn turn(
            &mut self,
            callers: &mut [u32],
            position: usize,
            sheet: &[u32],
            workspace: usize,
            room: usize,
        ) -> Result<Told, String> {
            let told = plain::turn(callers, position, sheet, workspace, room);
            self.0(callers, position, &told);
            Ok(told)
        }
    }

    /// The neighbour's record moves too; a refusal takes a serial; one outside takes the last one's;
    /// whoever wraps takes all others along; the serial stops at the largest.
    const FAULTS: [fn(&mut [u32], usize, &Told); 5] = [
        |callers, position, told| {
            if let (Some(_), Some(next)) = (told.1, callers.get_mut(position.wrapping_add(1))) {
                *next = next.wrapping_add(1);
            }
        },
        |callers, position, told| {
            if let (None, Some(next)) = (told.1, callers.get_mut(position)) {
                *next = next.wrapping_add(1);
            }
        },
        |callers, position, _| {
            if callers.len() <= position {
                callers.last_mut().into_iter().for_each(|next| *next = next.wrapping_add(1));
            }
        },
        |callers, _, told| {
            if told.1 == Some(LAST) {
                callers.fill(0);
            }
        },
        |callers, position, told| {
            if told.1 == Some(LAST) {
                callers[position] = LAST;
            }
        },
    ];

    #[test]
    fn faults_are_found() {
        let mut random = Random::new(2);
        let lists: Vec<List> = (0..100).map(|_| made(&mut random)).collect();
        for fault in FAULTS {
            let mut differs = |list| compare_list(&mut Faulty(fault), list).1.is_some();
            assert!(lists.iter().any(&mut differs));
        }
        let mut none = |list| compare_list(&mut Faulty(|_, _, _| ()), list).1.is_none();
        assert!(lists.iter().all(&mut none));
    }
}
