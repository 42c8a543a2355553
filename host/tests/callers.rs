//! A serial for each caller (document 02, order 9): calls with what comes of them, written by hand.

use oracle::cases::case_1_words;
use service_host::ffi::{self, Caller, Reply};
use service_host::{ClassLoad, Refusal, Service};

const WORKSPACE: usize = 16_384;
/// As many words as the answer of case 1 has.
const ANSWER: usize = 55;
/// A sheet that is refused 3.
const CUT: [u32; 2] = [2, 0];

/// What a call gives: the refusal, the serial and the length.
fn said(refusal: u32, serial: u32, length: usize) -> Reply {
    Reply { refusal, serial, length }
}

const OUTSIDE: Reply = Reply { refusal: 11, serial: 0, length: 0 };

fn records(serials: &[u32]) -> Vec<Caller> {
    serials.iter().map(|&next| Caller { next }).collect()
}

/// A call on records with these next serials, and the serials after it. Buffers hold rubbish before;
/// both must be 0 afterwards from the answer's length on.
fn call(
    serials: &[u32],
    position: usize,
    sheet: &[u32],
    workspace: usize,
    answer: usize,
) -> (Reply, Vec<u32>) {
    let mut callers = records(serials);
    let mut workspace = vec![0xdead_beef; workspace];
    let mut answer = vec![0xbadd_cafe; answer];
    let reply = ffi::infer(&mut callers, position, sheet, &mut workspace, &mut answer);
    assert!(workspace.iter().all(|&word| word == 0));
    assert!(answer[reply.length..].iter().all(|&word| word == 0));
    (reply, callers.iter().map(|caller| caller.next).collect())
}

/// The same with buffers that are long enough for case 1.
fn case_1(serials: &[u32], position: usize) -> (Reply, Vec<u32>) {
    call(serials, position, &case_1_words(), WORKSPACE, ANSWER)
}

#[test]
fn positions() {
    let before = [5, 7, 9];
    assert_eq!(case_1(&before, 0), (said(0, 5, ANSWER), vec![6, 7, 9]));
    assert_eq!(case_1(&before, 1), (said(0, 7, ANSWER), vec![5, 8, 9]));
    assert_eq!(case_1(&before, 2), (said(0, 9, ANSWER), vec![5, 7, 10]));
    for position in [3, 4, 1 << 32, (1 << 32) + 1, usize::MAX / 4, usize::MAX / 4 + 2, usize::MAX] {
        assert_eq!(case_1(&before, position), (OUTSIDE, before.to_vec()), "{position}");
    }
    assert_eq!(case_1(&[0], 0), (said(0, 0, ANSWER), vec![1]));
    assert_eq!(case_1(&[0], 1), (OUTSIDE, vec![0]));
}

#[test]
fn no_record() {
    for position in [0, 1, usize::MAX] {
        assert_eq!(case_1(&[], position), (OUTSIDE, vec![]));
    }
    let mut none = Service::callers(0);
    assert_eq!(none.infer(0, &case_1_words()).unwrap_err(), Refusal::OutsideRecords);
    assert_eq!(none.next_serials().len(), 0);
}

/// One wraps, the others stay; also the largest serial of a neighbour.
#[test]
fn wrap() {
    const LAST: u32 = 4_294_967_295;
    assert_eq!(case_1(&[5, LAST, 9], 1), (said(0, LAST, ANSWER), vec![5, 0, 9]));
    assert_eq!(case_1(&[5, 0, 9], 1), (said(0, 0, ANSWER), vec![5, 1, 9]));
    assert_eq!(case_1(&[LAST, LAST, LAST], 0), (said(0, LAST, ANSWER), vec![0, LAST, LAST]));
    assert_eq!(case_1(&[LAST, LAST, LAST], 2), (said(0, LAST, ANSWER), vec![LAST, LAST, 0]));
}

/// 11 comes before every other refusal, and each of these leaves every record.
#[test]
fn eleven_first() {
    let sheet = case_1_words();
    let longest = vec![0; 16_385];
    for (sheet, workspace, answer, refusal) in [
        (&sheet[..], WORKSPACE - 1, ANSWER, 1),
        (&sheet, 0, 0, 1),
        (&longest, WORKSPACE, ANSWER, 2),
        (&CUT, WORKSPACE, ANSWER, 3),
        (&[3], WORKSPACE, ANSWER, 4),
        (&[2, 2], WORKSPACE, ANSWER, 5),
        (&[&sheet[..], &[0]].concat(), WORKSPACE, ANSWER, 7),
        (&sheet, WORKSPACE, ANSWER - 1, 9),
    ] {
        let kept = vec![4, 4_294_967_295];
        for position in [0, 1] {
            let got = call(&kept, position, sheet, workspace, answer);
            assert_eq!(got, (said(refusal, 0, 0), kept.clone()));
        }
        for position in [2, usize::MAX] {
            let got = call(&kept, position, sheet, workspace, answer);
            assert_eq!(got, (OUTSIDE, kept.clone()));
        }
    }
}

/// Several callers in turns: each one's serials count its own accepted calls.
#[test]
fn mixed() {
    let good = case_1_words();
    let mut service = Service::resume([0, 4_294_967_294, 7]);
    for (caller, sheet, expected) in [
        (0, &good[..], Ok(0)),
        (1, &good, Ok(4_294_967_294)),
        (1, &good, Ok(4_294_967_295)),
        (0, &CUT, Err(Refusal::SheetEnds)),
        (3, &good, Err(Refusal::OutsideRecords)),
        (0, &good, Ok(1)),
        (1, &CUT, Err(Refusal::SheetEnds)),
        (1, &good, Ok(0)),
        (usize::MAX, &CUT, Err(Refusal::OutsideRecords)),
        (2, &good, Ok(7)),
        (1, &good, Ok(1)),
        (0, &good, Ok(2)),
    ] {
        assert_eq!(service.infer(caller, sheet).map(|answer| answer.serial()), expected);
    }
    assert!(service.next_serials().eq([3, 2, 8]));
}

/// A caller is told the same, and left with the same record, if the others' calls are taken out.
#[test]
fn alone() {
    let good = case_1_words();
    let calls: Vec<(usize, &[u32])> = (0..200)
        .map(|i| ((i + i / 7) % 5, if i % 3 == 1 { &CUT[..] } else { &good[..] }))
        .collect();
    let first = [3, 4_294_967_290, 0, 9];
    let told = |asked: &[(usize, &[u32])], caller: usize| {
        let mut service = Service::resume(first);
        let mut told = Vec::new();
        for &(position, sheet) in asked {
            let said = service.infer(position, sheet).map(|a| (a.serial(), a.words().to_vec()));
            if position == caller {
                told.push(said);
            }
        }
        (told, service.next_serials().nth(caller))
    };
    // The last of them has no record.
    for caller in 0..5 {
        let own: Vec<_> = calls.iter().copied().filter(|&(c, _)| c == caller).collect();
        assert!(own.len() > 20, "{caller}: {}", own.len());
        assert_eq!(told(&calls, caller), told(&own, caller));
    }
}

#[test]
fn kept_and_resumed() {
    let sheet = case_1_words();
    let mut service = Service::callers(3);
    for caller in [2, 0, 2] {
        service.infer(caller, &sheet).unwrap();
    }
    let kept: Vec<u32> = service.next_serials().collect();
    assert_eq!(kept, [1, 0, 2]);
    let mut service = Service::resume(kept);
    assert_eq!(service.infer(2, &sheet).unwrap().serial(), 2);
    assert_eq!(service.infer(1, &sheet).unwrap().serial(), 0);
    assert!(service.next_serials().eq([1, 1, 3]));
    assert!(Service::new().next_serials().eq([0]));
    assert!(Service::callers(2).next_serials().eq([0, 0]));
}

/// Attempts with too short a buffer take no serial of any caller.
#[test]
fn longer_answers() {
    let sheet = case_1_words();
    let mut short = Service::callers(2).most_answer(ANSWER - 1);
    assert_eq!(short.infer(1, &sheet).unwrap_err(), Refusal::ShortAnswer);
    assert_eq!(short.infer(2, &sheet).unwrap_err(), Refusal::OutsideRecords);
    assert!(short.next_serials().eq([0, 0]));
}

/// A class load for a caller into a lent buffer that holds rubbish before, and the records after it.
fn load(serials: &[u32], position: usize, n: u32, room: usize) -> (Reply, Vec<u32>) {
    let callers = records(serials);
    let mut sheet = vec![0xdead_beef; room];
    let reply = ffi::load_for(&callers, position, 0, n, 1, &mut sheet);
    assert!(sheet[reply.length..].iter().all(|&word| word == 0));
    assert_eq!(callers, records(serials));
    sheet.truncate(reply.length);
    (reply, sheet)
}

/// 11, then 5, then 9.
#[test]
fn loads() {
    let words = ClassLoad { seed: 0, identifiers: 2, effects: 1 }.words().unwrap();
    assert_eq!(words.len(), 43);
    for position in [0, 1] {
        assert_eq!(load(&[3, 4], position, 2, 43), (said(0, 0, 43), words.clone()));
        assert_eq!(load(&[3, 4], position, 2, 50), (said(0, 0, 43), words.clone()));
        assert_eq!(load(&[3, 4], position, 2, 42), (said(9, 0, 0), vec![]));
        assert_eq!(load(&[3, 4], position, 1, 42), (said(5, 0, 0), vec![]));
    }
    for (serials, position) in
        [(&[3, 4][..], 2), (&[3, 4], usize::MAX), (&[], 0), (&[], usize::MAX)]
    {
        for (n, room) in [(2, 43), (2, 42), (1, 43), (1, 0)] {
            assert_eq!(load(serials, position, n, room), (OUTSIDE, vec![]));
        }
    }
    let service = Service::callers(2);
    let good = ClassLoad { seed: 0, identifiers: 2, effects: 1 };
    let bad = ClassLoad { identifiers: 1, ..good };
    assert_eq!(service.load(1, good), Ok(words));
    assert_eq!(service.load(1, bad), Err(Refusal::OutOfRange));
    assert_eq!(service.load(2, bad), Err(Refusal::OutsideRecords));
    assert_eq!(Service::callers(0).load(0, good), Err(Refusal::OutsideRecords));
    assert!(service.next_serials().eq([0, 0]));
}

/// A generated sheet given for a caller outside is refused as any other.
#[test]
fn a_load_for_a_caller_outside() {
    let words = ClassLoad { seed: 9, identifiers: 5, effects: 8 }.words().unwrap();
    let mut service = Service::callers(1);
    assert_eq!(service.infer(1, &words).unwrap_err(), Refusal::OutsideRecords);
    assert_eq!(service.infer(0, &words).unwrap().serial(), 0);
}

#[test]
fn in_words() {
    let refusal = Service::new().infer(1, &case_1_words()).unwrap_err();
    assert_eq!(refusal.number(), 11);
    assert_eq!(refusal.to_string(), "refused 11: The caller's position is outside the records.");
}

/// A service of several callers can be handed to another thread, and several run at once.
#[test]
fn in_threads() {
    let threads: Vec<_> = (0..4)
        .map(|first| {
            let mut service = Service::resume([first, first + 10]);
            std::thread::spawn(move || {
                let sheet = case_1_words();
                service.infer(1, &sheet).unwrap();
                service.infer(1, &sheet).unwrap();
                service.infer(0, &sheet).unwrap();
                service.next_serials().collect::<Vec<_>>()
            })
        })
        .collect();
    let serials: Vec<_> = threads.into_iter().map(|t| t.join().unwrap()).collect();
    assert_eq!(serials, [[1, 12], [2, 13], [3, 14], [4, 15]]);
}
