//! Class loads through the library: words worked out from document 02 alone (order 2), beside the
//! oracle's, and every refusal.

use oracle::load::{self, Load};
use oracle::plain::Outcome;
use oracle::random::Random;
use service_host::ffi::{self, Reply};
use service_host::{ClassLoad, Refusal, Service, Sheet, Terminal, limits};

/// An effect's kind, first and second identifier.
type Drawn = (u32, u32, u32);

/// Seed, identifiers and effects.
const WORKED_OUT: [(u32, u32, &[Drawn]); 4] = [
    (0, 2, &[(10, 0, 0)]),
    (1, 3, &[(8, 2, 1), (8, 0, 0), (6, 0, 0), (8, 0, 2)]),
    (2026, 4, &[(7, 1, 2), (10, 0, 1), (3, 0, 0), (8, 2, 1), (2, 1, 0), (7, 2, 0)]),
    (4_294_967_295, 5, &[(2, 1, 0), (7, 3, 4), (10, 3, 0)]),
];

/// The words that a load with these effects has.
fn words(identifiers: u32, effects: &[Drawn]) -> Vec<u32> {
    let count = effects.len() as u32;
    let mut words = vec![2, 0, 1, identifiers];
    words.resize(4 + 3 * identifiers as usize, 0);
    // No inner function, one parameter, no context, returns, one block with no phi.
    words.extend([0, 1, 0, 0, 0, 0, 1, identifiers - 1, 0, 0, 1, 0, 0, count]);
    for (order, &(kind, first, second)) in (1..).zip(effects) {
        words.extend([order, 0, 0, 0, 0, 0, 0, 1, kind, first, 0, 0, second, 0, 0, 0]);
    }
    words.extend([0, count + 1, 0]);
    words
}

#[test]
fn words_worked_out() {
    for (seed, identifiers, worked_out) in WORKED_OUT {
        let effects = worked_out.len() as u32;
        let expected = words(identifiers, worked_out);
        assert_eq!(ClassLoad { seed, identifiers, effects }.words(), Ok(expected.clone()));
        assert_eq!(Load { seed, n: identifiers, m: effects }.sheet().words(), expected);
    }
}

/// Long ones by their length, the sum of their words, and the words as digits of a number in base 31,
/// modulo 2^32.
#[test]
fn long_loads() {
    for (seed, identifiers, effects, length, sum, digits) in [
        (1, 512, 512, 9_749, 349_117, 1_648_462_629),
        (u32::MAX, 2, 512, 8_219, 135_857, 2_995_338_191),
        (7, 512, 1, 1_573, 1_719, 1_764_468_155),
    ] {
        let words = ClassLoad { seed, identifiers, effects }.words().unwrap();
        assert_eq!(words.len(), length);
        assert_eq!(words.iter().sum::<u32>(), sum);
        let joined = |h: u32, &word: &u32| h.wrapping_mul(31).wrapping_add(word);
        assert_eq!(words.iter().fold(0, joined), digits);
    }
}

/// A load into a lent buffer that holds rubbish before. The rest of it must be 0 afterwards.
fn lent(load: Load, room: usize) -> (Reply, Vec<u32>) {
    let mut sheet = vec![0xdead_beef; room];
    let reply = ffi::load(load.seed, load.n, load.m, &mut sheet);
    assert!(sheet[reply.length..].iter().all(|&word| word == 0));
    sheet.truncate(reply.length);
    (reply, sheet)
}

#[test]
fn as_the_oracle() {
    let mut random = Random::new(2);
    let mut loads = [load::fixed(), load::outside()].concat();
    loads.extend((0..100).map(|_| load::made(&mut random)));
    loads.extend((0..100).map(|_| load::made_outside(&mut random)));
    for load in loads {
        for room in load.rooms() {
            let (reply, words) = lent(load, room);
            let expected = match load.outcome(room) {
                Outcome::Refused(refusal) => (Reply { refusal, serial: 0, length: 0 }, vec![]),
                Outcome::Accepted(words) => {
                    (Reply { refusal: 0, serial: 0, length: words.len() }, words)
                }
            };
            assert_eq!((reply, words), expected, "{load:?} with {room} words");
        }
    }
}

/// Every load is accepted, and its answer is short.
#[test]
fn accepted() {
    let mut service = Service::new();
    for (serial, load) in (0..).zip(load::fixed()) {
        let Load { seed, n, m } = load;
        let words = ClassLoad { seed, identifiers: n, effects: m }.words().unwrap();
        assert!(words.len() <= limits::LOAD);
        let sheet = Sheet::read(&words).unwrap();
        assert_eq!(sheet.refusal(), None);
        assert!(matches!(sheet.blocks()[0].terminal, Terminal::Other { .. }));
        let answer = service.infer(0, &words).unwrap();
        assert_eq!(answer.serial(), serial);
        assert!(answer.words().len() <= 47 + 2 * n as usize + 4 * m as usize);
    }
}

#[test]
fn refused() {
    let words = |identifiers, effects| ClassLoad { seed: 9, identifiers, effects }.words();
    for (identifiers, effects) in [
        (0, 1),
        (1, 1),
        (513, 1),
        (65_538, 1),
        (u32::MAX, 1),
        (2, 0),
        (2, 513),
        (2, 65_537),
        (2, u32::MAX),
        (1, 0),
    ] {
        assert_eq!(words(identifiers, effects), Err(Refusal::OutOfRange));
    }
    assert_eq!(words(1, 1).unwrap_err().to_string(), "refused 5: A word is outside its range.");
    assert_eq!(words(2, 1).map(|words| words.len()), Ok(43));
    assert_eq!(words(512, 512).map(|words| words.len()), Ok(limits::LOAD));
    // 5 comes before 9.
    assert_eq!(lent(Load { seed: 9, n: 1, m: 1 }, 0).0.refusal, 5);
    assert_eq!(lent(Load { seed: 9, n: 2, m: 1 }, 0).0.refusal, 9);
    assert_eq!(lent(Load { seed: 9, n: 2, m: 1 }, 42).0.refusal, 9);
    assert_eq!(lent(Load { seed: 9, n: 2, m: 1 }, 43).0.refusal, 0);
}
