//! The service through the library: the bench cases of document 01, every refusal, the serial of one
//! caller, and what a call leaves in lent buffers. Several callers are in callers.rs.

use oracle::cases::{ANSWER_1, case_1_words, graph_sheets};
use oracle::damage::damaged;
use oracle::generate::{self, Limit, past_limit};
use oracle::plain::building::build;
use oracle::plain::sheet as plain;
use oracle::plain::{self as oracle_plain, Outcome};
use oracle::random::Random;
use service_host::ffi::{self, Caller, Reply};
use service_host::{
    AliasingDiagnostic, AliasingEffect, BlockId, Effect, EvaluationOrder, Identifier, IdentifierId,
    InstructionValue, MutableRange, Place, Refusal, Service, SheetBuilder, Terminal, limits,
};

fn place(identifier: u32) -> Place {
    Place::of(IdentifierId(identifier))
}

/// A sheet of so many identifiers with these parameters and no block.
fn without_blocks(identifiers: usize, params: &[u32], returns: u32) -> Vec<u32> {
    let mut sheet = SheetBuilder::new();
    sheet.validations(true);
    for _ in 0..identifiers {
        sheet.identifier(Identifier::default()).unwrap();
    }
    params.iter().for_each(|&p| sheet.param(place(p)).unwrap());
    sheet.finish(place(returns)).unwrap().words()
}

/// The entries of the first walk, and every end but that of identifier 0: it is the lvalue of
/// every instruction, and the cases' ends are those before the pass over operands.
fn walked(sheet: &plain::Sheet) -> (u32, Vec<u32>) {
    let mut service = Service::new();
    let answer = service.infer(0, &sheet.words()).unwrap();
    (answer.walks()[0], answer.ranges().skip(1).map(|r| r.end.0).collect())
}

#[test]
fn bench_case_1_words() {
    let mut service = Service::new();
    let answer = service.infer(0, &case_1_words()).unwrap();
    assert_eq!(answer.to_string(), ANSWER_1);

    assert_eq!(answer.serial(), 0);
    let moved = MutableRange { start: EvaluationOrder::UNSET, end: EvaluationOrder(3) };
    let ranges: Vec<_> = answer.ranges().collect();
    let begun = MutableRange { start: EvaluationOrder(1), ..moved };
    assert_eq!(ranges, [begun, moved, MutableRange::default()]);
    assert_eq!(answer.range(IdentifierId(1)), Some(moved));
    assert_eq!(answer.range(IdentifierId(3)), None);
    let param = Place { effect: Effect::Capture, ..place(0).span(5) };
    assert_eq!(answer.params().collect::<Vec<_>>(), [param]);
    assert_eq!(answer.context().len(), 0);
    assert_eq!(answer.diagnostics().len(), 0);
    let effects = [
        AliasingEffect::MutateTransitive { value: place(0).span(7) },
        AliasingEffect::create(IdentifierId(2)),
        AliasingEffect::Alias { from: param, into: place(2) },
    ];
    assert_eq!(answer.effects().collect::<Vec<_>>(), effects);
    assert_eq!(answer.walks(), [3, 5, 5]);
    assert_eq!(answer.phis().len(), 0);
    let marked = |identifier, effect| Place { effect, ..place(identifier) };
    let lvalues = [marked(0, Effect::Capture), marked(0, Effect::ConditionallyMutate)];
    assert_eq!(answer.instructions().collect::<Vec<_>>(), lvalues);
    assert_eq!(answer.terminals().collect::<Vec<_>>(), [marked(1, Effect::Freeze)]);
    assert_eq!(answer.inner().len(), 0);
}

/// The sections of the pass over operands, as typed places.
#[test]
fn operands() {
    let text = "\
flags function-expression
identifier a range 0 9
identifier b
identifier p range 0 3
function f context a Mutate reactive span 3 context b
returns b
block 0
  phi p span 1
    operand a from 0
  instruction at 2 lvalue b span 4 function f
    Capture a into b
  instruction at 3 lvalue b StoreContext p
    lvalue a
    operand a Store span 5
    operand p
  terminal Other at 4
    operand a reactive
block 1
  terminal Return b at 5
";
    let (sheet, _) = service_host::text::parse(text).unwrap();
    let mut service = Service::new();
    let answer = service.infer(0, &sheet.words()).unwrap();
    let places = |section: Vec<Place>| -> Vec<(u32, Effect, bool, u32)> {
        section.iter().map(|p| (p.identifier.0, p.effect, p.reactive, p.span)).collect()
    };
    use Effect::{Capture, ConditionallyMutate, Read, Store};
    // a is captured by b, whose end was set to 3, above 2; p is stored at 3, its end.
    let ranges: Vec<_> = answer.ranges().map(|r| (r.start.0, r.end.0)).collect();
    assert_eq!(ranges, [(2, 9), (2, 3), (1, 4)]);
    let phis = places(answer.phis().collect());
    assert_eq!(phis, [(2, Store, false, 1), (0, Capture, false, 0)]);
    let instructions = places(answer.instructions().collect());
    let expected = [
        (1, Store, false, 4),
        (1, ConditionallyMutate, false, 0),
        (0, ConditionallyMutate, false, 0),
        (0, Read, false, 5),
        (2, Read, false, 0),
    ];
    assert_eq!(instructions, expected);
    let terminals = places(answer.terminals().collect());
    assert_eq!(terminals, [(0, Read, true, 0), (1, Read, false, 0)]);
    let inner = places(answer.inner().collect());
    assert_eq!(inner, [(0, Capture, true, 3), (1, Store, false, 0)]);
}

/// An absent list is not an empty one: without a list no start of an operand is set, the context of
/// an inner function stays as it is, and nothing is stored.
#[test]
fn absent_lists() {
    let answered = |absent: bool| {
        let mut sheet = SheetBuilder::new();
        for end in [0, 9, 0, 0] {
            let range = MutableRange { start: EvaluationOrder(0), end: EvaluationOrder(end) };
            sheet.identifier(Identifier { range, ..Identifier::default() }).unwrap();
        }
        let inner = Place { effect: Effect::Mutate, ..place(1) };
        let function = sheet.function(&[], &[inner]).unwrap();
        sheet.block(BlockId(0)).unwrap();
        // It makes the function, and uses what is in its context.
        sheet.instruction(EvaluationOrder(5)).unwrap();
        sheet.value(InstructionValue::Function(function)).unwrap();
        sheet.value_operand(place(1)).unwrap();
        if absent {
            sheet.no_effects().unwrap();
        }
        // It stores 3 in 2.
        sheet.instruction(EvaluationOrder(6)).unwrap();
        sheet.value(InstructionValue::StoreContext(IdentifierId(3))).unwrap();
        sheet.value_lvalue(place(2)).unwrap();
        sheet.value_operand(place(2)).unwrap();
        sheet.value_operand(place(3)).unwrap();
        if absent {
            sheet.no_effects().unwrap();
        }
        sheet.terminal(Terminal::Other { order: EvaluationOrder(7) }).unwrap();
        let words = sheet.finish(place(0)).unwrap().words();
        let mut service = Service::new();
        let answer = service.infer(0, &words).unwrap();
        let ranges: Vec<_> = answer.ranges().map(|r| (r.start.0, r.end.0)).collect();
        let marks: Vec<_> = answer.instructions().map(|p| (p.identifier.0, p.effect)).collect();
        let inner: Vec<_> = answer.inner().map(|p| p.effect).collect();
        (ranges, marks, inner)
    };
    let marks = vec![
        (0, Effect::ConditionallyMutate),
        (1, Effect::Read),
        (0, Effect::ConditionallyMutate),
        (2, Effect::ConditionallyMutate),
        (2, Effect::Read),
        (3, Effect::Read),
    ];
    let ranges = vec![(5, 6), (5, 9), (6, 7), (0, 7)];
    assert_eq!(answered(false), (ranges, marks.clone(), vec![Effect::Read]));
    let ranges = vec![(5, 6), (0, 9), (6, 7), (0, 0)];
    assert_eq!(answered(true), (ranges, marks, vec![Effect::Mutate]));
}

#[test]
fn bench_case_2() {
    let mut service = Service::new();
    let answer = service.infer(0, &without_blocks(1, &[], 0)).unwrap();
    assert_eq!(answer.effects().collect::<Vec<_>>(), [AliasingEffect::create(IdentifierId(0))]);
    assert_eq!(answer.walks(), [1]);

    let answer = service.infer(0, &without_blocks(3, &[0, 1], 2)).unwrap();
    let capture = AliasingEffect::Capture { from: place(1), into: place(0) };
    let effects: Vec<_> = answer.effects().collect();
    assert_eq!(effects, [AliasingEffect::create(IdentifierId(2)), capture]);
}

#[test]
fn bench_cases_3_to_7() {
    let [created_from, capture, waiting, operand, phi, twice] = graph_sheets();
    assert_eq!(walked(&created_from), (2, vec![3, 0]));
    assert_eq!(walked(&capture), (1, vec![3, 0]));
    assert_eq!(walked(&waiting), (1, vec![0, 0, 0]));
    assert_eq!(walked(&operand), (2, vec![0, 2, 0]));
    assert_eq!(walked(&phi), (5, vec![2, 2, 0]));
    assert_eq!(walked(&twice), (7, vec![4, 0]));
}

#[test]
fn bench_case_8() {
    let mut service = Service::resume([u32::MAX]);
    let sheet = without_blocks(1, &[], 0);
    assert_eq!(service.infer(0, &sheet).unwrap().serial(), u32::MAX);
    assert_eq!(service.infer(0, &sheet).unwrap().serial(), 0);
    assert_eq!(service.infer(0, &[]).unwrap_err(), Refusal::SheetEnds);
    assert_eq!(service.infer(0, &sheet).unwrap().serial(), 1);
    assert!(service.next_serials().eq([2]));
}

/// A call on lent buffers that hold rubbish before. The rest of both must be 0 afterwards.
fn lent(caller: &mut Caller, sheet: &[u32], workspace: usize, answer: usize) -> (Reply, Vec<u32>) {
    let before = *caller;
    let mut workspace = vec![0xdead_beef; workspace];
    let mut answer = vec![0xbadd_cafe; answer];
    let one = std::slice::from_mut(caller);
    let reply = ffi::infer(one, 0, sheet, &mut workspace, &mut answer);
    assert!(workspace.iter().all(|&word| word == 0));
    assert!(answer[reply.length..].iter().all(|&word| word == 0));
    if reply.refusal == 0 {
        assert_eq!(reply.serial, before.next);
        assert_eq!(caller.next, before.next.wrapping_add(1));
    } else {
        assert_eq!((reply.serial, reply.length), (0, 0));
        assert_eq!(*caller, before);
    }
    answer.truncate(reply.length);
    (reply, answer)
}

#[test]
fn bench_case_9() {
    let mut caller = ffi::new_caller();
    let sheet = without_blocks(1, &[], 0);
    assert_eq!(lent(&mut caller, &sheet, 16_383, 100).0.refusal, 1);
    assert_eq!(lent(&mut caller, &sheet, 16_384, 100).0.refusal, 0);
    for limit in [Limit::Relations, Limit::PhiRelations, Limit::Entries] {
        let mut random = Random::new(9);
        let most = generate::at_limit(&mut random, limit);
        assert_eq!(build(&most).map(|built| built.held.larger()), Ok(1_024));
        assert_eq!(lent(&mut caller, &most.words(), 16_384, 100_000).0.refusal, 0);
        let over = generate::past_limit(&mut random, limit);
        assert_eq!(lent(&mut caller, &over.words(), 16_384, 100_000).0.refusal, 8);
    }
    let (reply, words) = lent(&mut caller, &sheet, 16_384, 21);
    assert_eq!((reply.refusal, reply.length), (0, 21));
    assert_eq!(words, [1, 0, 0, 0, 0, 0, 1, 9, 0, 0, 0, 0, 0, 0, 0, 1, 1, 0, 0, 0, 0]);
    assert_eq!(lent(&mut caller, &sheet, 16_384, 20).0.refusal, 9);
    assert_eq!(caller.next, 5);
}

#[test]
fn every_refusal() {
    let sheet = without_blocks(2, &[0], 1);
    let with = |at: usize, word: u32| {
        let mut words = sheet.clone();
        words[at] = word;
        words
    };
    let mut two_blocks = sheet.clone();
    // Two blocks of number 7: no phi, no instruction, terminal Other at order 1.
    two_blocks.pop();
    two_blocks.extend([2, 7, 0, 0, 0, 1, 0, 7, 0, 0, 0, 1, 0]);
    // A block whose one instruction has Apply among its effects.
    let mut applied = sheet.clone();
    applied.pop();
    applied.extend([1, 7, 0, 1, 1, 0, 0, 0, 0, 0, 0, 1]);
    applied.extend([12, 0, 0, 0, 0, 0, 0, 0, 0, 2, 0]);
    let over = |limit| past_limit(&mut Random::new(1), limit).words();

    let mut caller = ffi::new_caller();
    let mut refusal = |sheet: &[u32], workspace, answer| {
        let number = lent(&mut caller, sheet, workspace, answer).0.refusal;
        Refusal::from_number(number)
    };
    assert_eq!(refusal(&sheet, 16_384, 1_000), None);
    assert_eq!(refusal(&sheet, 0, 1_000), Some(Refusal::ShortWorkspace));
    assert_eq!(refusal(&[2; 16_385], 16_384, 1_000), Some(Refusal::LongSheet));
    assert_eq!(refusal(&sheet[..sheet.len() - 1], 16_384, 1_000), Some(Refusal::SheetEnds));
    assert_eq!(refusal(&with(0, 3), 16_384, 1_000), Some(Refusal::Count));
    assert_eq!(refusal(&with(3, 513), 16_384, 1_000), Some(Refusal::Count));
    assert_eq!(refusal(&with(1, 2), 16_384, 1_000), Some(Refusal::OutOfRange));
    assert_eq!(refusal(&two_blocks, 16_384, 1_000), Some(Refusal::UsedTwice));
    assert_eq!(refusal(&[&sheet[..], &[0]].concat(), 16_384, 1_000), Some(Refusal::WordsFollow));
    for limit in [Limit::Relations, Limit::Entries, Limit::Mutations, Limit::Renders] {
        assert_eq!(refusal(&over(limit), 16_384, 1_000), Some(Refusal::Totals));
    }
    assert_eq!(refusal(&sheet, 16_384, 0), Some(Refusal::ShortAnswer));
    assert_eq!(refusal(&applied, 16_384, 1_000), Some(Refusal::Apply));
    assert_eq!(refusal(&applied, 16_384, 0), Some(Refusal::Apply));
}

#[test]
fn refusals_in_words() {
    for (number, refusal) in (1..).zip(Refusal::ALL) {
        assert_eq!(refusal.number(), number);
        assert_eq!(Refusal::from_number(number), Some(refusal));
    }
    assert_eq!(Refusal::from_number(0), None);
    let error: Box<dyn std::error::Error> = Service::new().infer(0, &[2, 0, 2]).unwrap_err().into();
    assert_eq!(error.to_string(), "refused 5: A word is outside its range.");
}

/// 512 function nodes, each handed over by 256 renders, with lists of 64 diagnostics.
fn longest_answer() -> Vec<u32> {
    let mut sheet = SheetBuilder::new();
    sheet.validations(true);
    let ids: Vec<_> = (0..512).map(|_| sheet.identifier(Identifier::default()).unwrap()).collect();
    let list: Vec<_> = (0..64).map(|d| AliasingDiagnostic::new(1_000 + d, d)).collect();
    let function_id = sheet.function(&list, &[]).unwrap();
    sheet.block(service_host::BlockId(0)).unwrap();
    let mut effects = Vec::new();
    for &id in &ids {
        effects.push(AliasingEffect::CreateFunction { into: Place::of(id), function_id });
    }
    for pair in ids.windows(2) {
        let (from, into) = (Place::of(pair[1]), Place::of(pair[0]));
        effects.push(AliasingEffect::Capture { from, into });
    }
    effects.extend([AliasingEffect::Render { place: place(0) }; 256]);
    for part in effects.chunks(1_000) {
        sheet.instruction(EvaluationOrder(1)).unwrap();
        part.iter().for_each(|&effect| sheet.effect(effect).unwrap());
    }
    let order = EvaluationOrder(2);
    sheet.terminal(service_host::Terminal::Other { order }).unwrap();
    sheet.finish(place(0)).unwrap().words()
}

#[test]
fn answers_of_any_length() {
    let sheet = longest_answer();
    let mut service = Service::new();
    let answer = service.infer(0, &sheet).unwrap();
    assert_eq!(answer.serial(), 0, "attempts with too short a buffer take no serial");
    assert_eq!((sheet.len(), answer.diagnostics().len()), (11_932, 8_388_608));
    assert!(answer.words().len() <= limits::ANSWER);
    assert!(answer.diagnostics().zip((0..64).cycle()).all(|(d, i)| d.words() == [1_000 + i, i]));
    // The next call is a small one again.
    let answer = service.infer(0, &case_1_words()).unwrap();
    assert_eq!((answer.serial(), answer.words().len()), (1, 55));

    let mut limited = Service::new().most_answer(8_000_000);
    assert_eq!(limited.infer(0, &sheet).unwrap_err(), Refusal::ShortAnswer);
    assert_eq!(limited.infer(0, &case_1_words()).unwrap().serial(), 0);
    let mut tight = Service::new().most_answer(55);
    assert_eq!(tight.infer(0, &case_1_words()).unwrap().words().len(), 55);
    let mut short = Service::new().most_answer(54);
    assert_eq!(short.infer(0, &case_1_words()).unwrap_err(), Refusal::ShortAnswer);
}

/// 64 parameters and 64 context variables, each of which flows into each other one and into what
/// is returned: as many such effects as `limits::ANSWER` counts.
#[test]
fn most_effects() {
    let mut sheet = SheetBuilder::new();
    let ids: Vec<_> = (0..129).map(|_| sheet.identifier(Identifier::default()).unwrap()).collect();
    ids[..64].iter().for_each(|&id| sheet.param(Place::of(id)).unwrap());
    ids[64..128].iter().for_each(|&id| sheet.context(Place::of(id)).unwrap());
    sheet.block(service_host::BlockId(0)).unwrap();
    sheet.instruction(EvaluationOrder(1)).unwrap();
    for pair in ids.windows(2) {
        let (from, into) = (Place::of(pair[0]), Place::of(pair[1]));
        sheet.effect(AliasingEffect::Alias { from, into }).unwrap();
    }
    let order = EvaluationOrder(2);
    sheet.terminal(service_host::Terminal::Other { order }).unwrap();
    let sheet = sheet.finish(place(128)).unwrap().words();
    let mut service = Service::new();
    assert_eq!(service.infer(0, &sheet).unwrap().effects().len(), 1 + 128 * 128);
}

/// Good and damaged sheets, in one service, against the plain implementation and the original.
#[test]
fn answers_are_the_oracles() {
    let mut random = Random::new(2024);
    let mut service = Service::resume([u32::MAX - 500]);
    let mut serial = u32::MAX - 500;
    for i in 0..3_000 {
        let words = if i % 3 == 0 {
            damaged(&mut random).sheet
        } else {
            generate::sheet(&mut random).words()
        };
        let expected = oracle_plain::outcome(&words, 16_384, usize::MAX);
        match (service.infer(0, &words), expected) {
            (Ok(answer), Outcome::Accepted(expected)) => {
                assert_eq!(answer.words(), expected);
                assert_eq!(answer.serial(), serial);
                serial = serial.wrapping_add(1);
                let sheet = oracle_plain::read(&words).unwrap();
                let original = oracle::original_side::answer(&sheet).expect("there is no Apply");
                let original = original.filled(&oracle_plain::answer(&sheet));
                let effects = original.effects.iter().map(|e| {
                    let (a, b) = (e.first, e.second);
                    let words = [a.identifier, a.traits, a.span, b.identifier, b.traits, b.span];
                    let [a, b, c, d, f, g] = words;
                    AliasingEffect::from_words([e.kind, a, b, c, d, f, g, e.extra]).unwrap()
                });
                assert!(answer.effects().eq(effects));
                let diagnostics = original.diagnostics.iter().map(|d| [d.identity, d.instance]);
                assert!(answer.diagnostics().map(|d| d.words()).eq(diagnostics));
                let ranges = answer.ranges().map(|r| (r.start.0, r.end.0));
                assert!(ranges.eq(original.ranges));
                assert_eq!(answer.params().len(), original.params.len());
                assert_eq!(answer.context().len(), original.context.len());
                let places = |list: &[plain::Place]| -> Vec<[u32; 3]> {
                    list.iter().map(|p| [p.identifier, p.traits, p.span]).collect()
                };
                let words = |list: Vec<Place>| list.iter().map(Place::words).collect::<Vec<_>>();
                assert_eq!(words(answer.phis().collect()), places(&original.phis));
                assert_eq!(words(answer.instructions().collect()), places(&original.instructions));
                assert_eq!(words(answer.terminals().collect()), places(&original.terminals));
                assert_eq!(words(answer.inner().collect()), places(&original.inner));
            }
            (Err(refusal), Outcome::Refused(number)) => assert_eq!(refusal.number(), number),
            (got, expected) => panic!("{got:?}, not {expected:?}"),
        }
    }
    assert!(service.next_serials().eq([serial]));
    assert!(serial < u32::MAX / 2, "the serial has wrapped");
}

#[test]
fn sizes() {
    assert_eq!(ffi::least_workspace(), 16_384);
    assert_eq!(ffi::most_sheet(), limits::WORDS);
    assert_eq!(ffi::new_caller(), Caller { next: 0 });
}

/// A service can be handed to another thread.
#[test]
fn one_service_in_each_thread() {
    let threads: Vec<_> = (0..4)
        .map(|first| {
            let mut service = Service::resume([first]);
            std::thread::spawn(move || service.infer(0, &case_1_words()).unwrap().serial())
        })
        .collect();
    let serials: Vec<_> = threads.into_iter().map(|t| t.join().unwrap()).collect();
    assert_eq!(serials, [0, 1, 2, 3]);
}
