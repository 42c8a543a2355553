//! Class loads (document 02, order 2): a generator of our own, written from the document's text, and
//! the comparison of one load with other sides.

use crate::callers::Named;
use crate::compare::Difference;
use crate::plain::Outcome;
use crate::plain::sheet::{
    Block, EFFECTS, Effect, Instruction, Place, SHEET_WORDS, Sheet, Terminal,
};
use crate::random::Random;

/// What a load is made from.
#[derive(Debug, Clone, Copy, PartialEq, Eq)]
pub struct Load {
    pub seed: u32,
    /// How many identifiers, 2 to 512.
    pub n: u32,
    /// How many effects, 1 to 512.
    pub m: u32,
}

/// "from 1 to 8 and 10 in that order"
const KINDS: [u32; 9] = [1, 2, 3, 4, 5, 6, 7, 8, 10];

/// The state that the draws hand on.
struct Draws(u32);

impl Draws {
    /// "Each draw sets the state to state × 1,664,525 + 1,013,904,223 modulo 2^32; a draw below k is
    /// the state divided by 65,536, modulo k."
    fn below(&mut self, k: u32) -> u32 {
        let next = (u64::from(self.0) * 1_664_525 + 1_013_904_223) % (1 << 32);
        self.0 = next as u32;
        self.0 / 65_536 % k
    }

    fn place(&mut self, n: u32) -> Place {
        Place { identifier: self.below(n), ..Place::default() }
    }

    /// "A kind is drawn below 9 .., then the first place's identifier below n, then the second's
    /// where the kind has two."
    fn effect(&mut self, n: u32) -> Effect {
        let kind = KINDS[self.below(9) as usize];
        let first = self.place(n);
        let (places, ..) = EFFECTS[kind as usize];
        let second = if places == 2 { self.place(n) } else { Place::default() };
        Effect { kind, first, second, extra: 0 }
    }
}

impl Load {
    /// "n identifiers (2 to 512) and m effects (1 to 512)"
    pub fn within(self) -> bool {
        (2..=512).contains(&self.n) && (1..=512).contains(&self.m)
    }

    /// The sheet of a load within its bounds: lvalue place 0, empty lists and value 0.
    pub fn sheet(self) -> Sheet {
        let mut draws = Draws(self.seed);
        let instruction = |order| Instruction::plain(order, vec![draws.effect(self.n)]);
        let block = Block {
            number: 0,
            phis: Vec::new(),
            instructions: (1..=self.m).map(instruction).collect(),
            terminal: Terminal::Other { order: self.m + 1, operands: Vec::new() },
        };
        let returns = Place { identifier: self.n - 1, ..Place::default() };
        Sheet::plain(self.n as usize, vec![Place::default()], returns, vec![block])
    }

    /// "Checks: 5 for arguments outside those bounds, then 9 for a too short output."
    pub fn outcome(self, room: usize) -> Outcome {
        if !self.within() {
            return Outcome::Refused(5);
        }
        let words = self.sheet().words();
        if room < words.len() { Outcome::Refused(9) } else { Outcome::Accepted(words) }
    }

    /// For a caller (document 02, order 9): "11 .. for order 2's sheets too", before 5 and 9.
    pub fn outcome_for(self, named: Option<Named>, room: usize) -> Outcome {
        if named.is_some_and(Named::outside) { Outcome::Refused(11) } else { self.outcome(room) }
    }

    /// How many words the sheet has.
    pub fn words(self) -> usize {
        21 + 3 * self.n as usize + 16 * self.m as usize
    }

    /// How many words its answer has at most: what `crates/model` proves.
    pub fn most_answer(self) -> usize {
        47 + 2 * self.n as usize + 4 * self.m as usize
    }

    /// The load with the nearest arguments within the bounds.
    fn nearest(self) -> Load {
        Load { n: self.n.clamp(2, 512), m: self.m.clamp(1, 512), ..self }
    }

    /// The lengths of output at which the load is asked for: none, one word short, full, one word
    /// more, and as long as the longest sheet. Arguments outside get what would do for those within.
    pub fn rooms(self) -> [usize; 5] {
        let words = self.nearest().words();
        [0, words - 1, words, words + 1, SHEET_WORDS]
    }
}

// =============================================================================
// Which loads
// =============================================================================

/// Seeds whose first product is small, wraps and is as large as may be.
const SEEDS: [u32; 5] = [0, 1, 65_535, 1 << 31, u32::MAX];

/// The corners of the bounds, and their neighbours inside.
const CORNERS: [(u32, u32); 8] =
    [(2, 1), (512, 512), (2, 512), (512, 1), (3, 2), (511, 511), (2, 2), (256, 256)];

/// Outside for identifiers and for effects alike: too few or too many, and numbers whose lower 8 or
/// 16 bits are within.
const OUTSIDE: [u32; 14] = [
    0,
    513,
    514,
    768,
    1_023,
    1_024,
    65_536,
    65_537,
    65_538,
    66_048,
    1 << 31,
    (1 << 31) + 2,
    u32::MAX - 1,
    u32::MAX,
];

/// Every corner with every fixed seed.
pub fn fixed() -> Vec<Load> {
    let with = |seed| CORNERS.map(|(n, m)| Load { seed, n, m });
    SEEDS.into_iter().flat_map(with).collect()
}

/// Arguments of which one or both are outside, the other at an end of its bounds or between.
pub fn outside() -> Vec<Load> {
    let numbers = || OUTSIDE.into_iter().chain([1, 2, 300, 512]);
    let pairs = numbers().flat_map(|n| numbers().map(move |m| (n, m)));
    let loads = pairs.map(|(n, m)| Load { seed: n ^ m, n, m });
    loads.filter(|load| !load.within()).collect()
}

/// A load within its bounds: every second number is at most 20, so that walks get long.
pub fn made(random: &mut Random) -> Load {
    let mut size = |low| {
        let high = if random.percent(50) { 20 } else { 512 };
        random.between(low, high) as u32
    };
    let (n, m) = (size(2), size(1));
    Load { seed: random.word() as u32, n, m }
}

/// The same with an argument that is outside.
pub fn made_outside(random: &mut Random) -> Load {
    let load = made(random);
    let high = (random.word() as u32) << 16;
    let number = match random.below(3) {
        0 => random.choose(&OUTSIDE),
        1 => (random.between(2, 512) as u32 | high).max(513),
        _ => (random.word() as u32).max(513),
    };
    if random.percent(50) { Load { n: number, ..load } } else { Load { m: number, ..load } }
}

// =============================================================================
// The comparison
// =============================================================================

/// A further side that makes class loads, such as our own library.
pub trait Loader {
    fn name(&self) -> &'static str;

    /// What the call gave, for nobody or for a caller, or what is wrong with the output or the records
    /// that it left.
    fn load(&mut self, load: Load, named: Option<Named>, room: usize) -> Result<Outcome, String>;
}

/// An outcome in a line: its length and the first word in which it differs from another.
fn told(outcome: &Result<Outcome, String>, other: &Result<Outcome, String>) -> String {
    match (outcome, other) {
        (Err(message), _) => message.clone(),
        (Ok(Outcome::Refused(number)), _) => format!("refused {number}"),
        (Ok(Outcome::Accepted(words)), Ok(Outcome::Accepted(others))) => {
            let at = words.iter().zip(others).take_while(|(a, b)| a == b).count();
            let found = words.get(at).map_or("is not there".to_string(), |w| format!("is {w}"));
            format!("{} words, word {at} {found}", words.len())
        }
        (Ok(Outcome::Accepted(words)), _) => format!("{} words", words.len()),
    }
}

/// One side at one length, word by word.
pub fn compare_load(
    loader: &mut dyn Loader,
    load: Load,
    named: Option<Named>,
    room: usize,
) -> Option<Difference> {
    let expected = Ok(load.outcome_for(named, room));
    let got = loader.load(load, named, room);
    if got == expected {
        return None;
    }
    let who = named.map_or(String::new(), |named| format!(" for {named:?}"));
    let asked = format!("{load:?}{who} with {room} words");
    Some(Difference {
        side: loader.name(),
        expected: vec![asked, told(&expected, &got)],
        got: vec![told(&got, &expected)],
    })
}

#[cfg(test)]
mod tests {
    use super::*;
    use crate::plain;

    /// By hand: from 0 the states are 1,013,904,223, 1,196,435,762 and 3,519,870,697; divided by
    /// 65,536 they are 15,470 (8 modulo 9, the last kind), 18,256 and 53,708.
    #[test]
    fn first_draws() {
        for n in [2, 97, 512] {
            let effect = Load { seed: 0, n, m: 1 }.sheet().blocks[0].instructions[0].listed()[0];
            assert_eq!(effect.kind, 10);
            assert_eq!(effect.first.identifier, 18_256 % n);
            assert_eq!(effect.second.identifier, 53_708 % n);
        }
    }

    #[test]
    fn lengths() {
        for load in fixed() {
            let words = load.sheet().words();
            assert_eq!(words.len(), load.words());
            assert!(words.len() <= 9_749);
            let answer = plain::judge(&words).expect("a load is accepted");
            assert!(answer.len() <= load.most_answer(), "{load:?}: {}", answer.len());
            assert_eq!(load.outcome(words.len() - 1), Outcome::Refused(9));
            assert_eq!(load.outcome(words.len()), Outcome::Accepted(words));
        }
    }

    /// 11, then 5, then 9, then the load.
    #[test]
    fn for_callers() {
        let good = Load { seed: 0, n: 2, m: 1 };
        let bad = Load { n: 1, ..good };
        for named in [None, Some(Named { callers: 1, position: 0 })] {
            assert_eq!(bad.outcome_for(named, 0), Outcome::Refused(5));
            assert_eq!(good.outcome_for(named, 42), Outcome::Refused(9));
            assert_eq!(good.outcome_for(named, 43), good.outcome(43));
        }
        for (callers, position) in [(1, 1), (1, usize::MAX), (0, 0)] {
            let named = Some(Named { callers, position });
            for (load, room) in [(bad, 0), (good, 42), (good, 43)] {
                assert_eq!(load.outcome_for(named, room), Outcome::Refused(11));
            }
        }
    }

    #[test]
    fn arguments_outside() {
        for load in outside() {
            assert!(load.rooms().iter().all(|&room| load.outcome(room) == Outcome::Refused(5)));
        }
        let mut random = Random::new(1);
        assert!((0..1_000).all(|_| made(&mut random).within()));
        assert!((0..1_000).all(|_| !made_outside(&mut random).within()));
    }

    /// Makes loads as the document says, but divides the state before it is set.
    struct Late;

    impl Loader for Late {
        fn name(&self) -> &'static str {
            "late"
        }
        fn load(
            &mut self,
            load: Load,
            named: Option<Named>,
            room: usize,
        ) -> Result<Outcome, String> {
            // The seed that the first step leads to: 4,276,115,653 undoes 1,664,525.
            let seed = load.seed.wrapping_sub(1_013_904_223).wrapping_mul(4_276_115_653);
            Ok(Load { seed, ..load }.outcome_for(named, room))
        }
    }

    #[test]
    fn a_fault_is_found() {
        assert_eq!(1_664_525_u32.wrapping_mul(4_276_115_653), 1);
        let load = Load { seed: 3, n: 9, m: 9 };
        assert!(compare_load(&mut Late, load, None, 0).is_none());
        let difference = compare_load(&mut Late, load, None, load.words()).expect("words differ");
        assert_eq!(difference.side, "late");
    }
}
