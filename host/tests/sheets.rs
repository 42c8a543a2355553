//! Sheets as parts, as words and as text: each becomes each other one and back.

use oracle::damage::damaged;
use oracle::generate;
use oracle::plain::building;
use oracle::random::Random;
use oracle::{held, recreated, totals};
use service_host::text::{self, Names};
use service_host::{
    AliasingDiagnostic, AliasingEffect, BlockId, Effect, EvaluationOrder, FunctionId, Held,
    Identifier, IdentifierId, InstructionValue, MutableRange, PartError, Place, Refusal, Service,
    Sheet, SheetBuilder, Terminal, limits,
};

/// The generator's sheets, as words.
fn generated(seed: u64, count: usize) -> impl Iterator<Item = Vec<u32>> {
    let mut random = Random::new(seed);
    (0..count).map(move |_| generate::sheet(&mut random).words())
}

/// The same sheet, made part by part.
fn rebuilt(sheet: &Sheet) -> Result<Sheet, PartError> {
    let mut builder = SheetBuilder::new();
    builder.function_expression(sheet.function_expression());
    builder.validations(sheet.validations());
    for identifier in sheet.identifiers() {
        builder.identifier(*identifier)?;
    }
    for function in sheet.functions() {
        builder.function(&function.diagnostics, &function.context)?;
    }
    for place in sheet.params() {
        builder.param(*place)?;
    }
    for place in sheet.context() {
        builder.context(*place)?;
    }
    for block in sheet.blocks() {
        builder.block(block.number)?;
        for phi in &block.phis {
            builder.phi(phi.place)?;
            for operand in &phi.operands {
                builder.operand(operand.predecessor, operand.place)?;
            }
        }
        for instruction in &block.instructions {
            builder.instruction(instruction.order)?;
            builder.lvalue(instruction.lvalue)?;
            for place in &instruction.lvalues {
                builder.value_lvalue(*place)?;
            }
            for place in &instruction.operands {
                builder.value_operand(*place)?;
            }
            builder.value(instruction.value)?;
            match &instruction.effects {
                Some(effects) => effects.iter().try_for_each(|effect| builder.effect(*effect))?,
                None => builder.no_effects()?,
            }
        }
        builder.terminal(block.terminal)?;
        for place in &block.terminal_operands {
            builder.value_operand(*place)?;
        }
        for effect in &block.terminal_effects {
            builder.effect(*effect)?;
        }
    }
    builder.finish(sheet.returns())
}

#[test]
fn words_parts_and_text_are_the_same() {
    for words in generated(1, 3_000) {
        let sheet = Sheet::read(&words).unwrap();
        assert_eq!(sheet.words(), words);
        assert_eq!(sheet.refusal(), None);
        assert_eq!(rebuilt(&sheet).unwrap(), sheet);
        let names = Names::numbered(&sheet);
        let text = text::write(&sheet, &names);
        assert_eq!(text::parse(&text).unwrap(), (sheet, names), "{text}");
    }
}

/// Reading here finds the fault that the library finds.
#[test]
fn faults_are_the_librarys() {
    let mut random = Random::new(2);
    let mut service = Service::new();
    let mut seen = [0; 11];
    for _ in 0..6_000 {
        let words = damaged(&mut random).sheet;
        let ours = match Sheet::read(&words) {
            Ok(sheet) => sheet.refusal(),
            Err(error) => Some(error.refusal()),
        };
        let library = service.infer(0, &words).err();
        assert_eq!(ours, library, "{words:?}");
        seen[library.map_or(0, |r| r.number() as usize)] += 1;
    }
    assert_eq!(seen[9], 0);
    assert!(seen[2..9].iter().all(|&count| count > 50) && seen[10] > 50, "{seen:?}");
}

/// The word that passes a total decides, whatever is behind it; what is before it, or wrong with the
/// word itself, comes first. A sheet with no other fault is read all the same.
#[test]
fn totals_while_reading() {
    let mut service = Service::new();
    let mut read = 0;
    for sheet in totals::all() {
        let refusal = match Sheet::read(&sheet.words) {
            Ok(parts) => {
                read += 1;
                parts.refusal()
            }
            Err(error) => Some(error.refusal()),
        };
        assert_eq!(refusal, Refusal::from_number(sheet.refusal), "{}", sheet.name);
        assert_eq!(service.infer(0, &sheet.words).err(), refusal, "{}", sheet.name);
    }
    assert!(read > 10, "{read}");
}

/// What is held decides after the last word and before Apply; the refusal of the whole sheet names it.
/// The most that is held is the number that the oracle's table has.
#[test]
fn held_while_building() {
    let mut service = Service::new();
    let mut over = 0;
    for sheet in held::all() {
        let refusal = match Sheet::read(&sheet.words) {
            Ok(parts) => {
                over += parts.held().over().count();
                parts.refusal()
            }
            Err(error) => Some(error.refusal()),
        };
        assert_eq!(refusal, Refusal::from_number(sheet.refusal), "{}", sheet.name);
        assert_eq!(service.infer(0, &sheet.words).err(), refusal, "{}", sheet.name);
        let drawn = refusal.filter(|&refusal| refusal != Refusal::Apply);
        assert_eq!(service.dot(&sheet.words).err(), drawn, "{}, drawn", sheet.name);
    }
    assert!(over > 10, "{over}");
}

/// Sheets that create the same identifiers again and again: as many as may be held, or more.
#[test]
fn held_by_made_sheets() {
    let mut random = Random::new(10);
    let mut refused = 0;
    for _ in 0..200 {
        let sheet = recreated::about_limit(&mut random);
        let ours = Sheet::read(&sheet.words()).unwrap().refusal();
        assert_eq!(ours.is_some(), building::build(&sheet).is_err());
        refused += ours.is_some() as usize;
    }
    assert!((20..180).contains(&refused), "{refused}");
}

#[test]
fn the_first_fault_in_words() {
    let error = |words: &[u32]| Sheet::read(words).unwrap_err().to_string();
    assert_eq!(
        error(&[2, 0]),
        "refused 3: word 2: expected the flag of validations, but the sheet ends here"
    );
    assert_eq!(error(&[3]), "refused 4: word 0: expected the count of flags, 2, found 3");
    assert_eq!(
        error(&[2, 0, 1, 2, 0, 0, 0, 0, 0, 3]),
        "refused 5: word 9 (identifier 2 of 2): expected a type (0 other, 1 primitive, 2 JSX), \
         at most 2, found 3"
    );
    let head = [2, 0, 1, 1, 0, 0, 0, 0, 0, 0, 1, 0, 0, 0];
    let with = |blocks: &[u32]| [&head[..], blocks].concat();
    assert_eq!(
        error(&with(&[2, 7, 0, 0, 0, 1, 0, 7])),
        "refused 6: word 21 (block 2 of 2): expected a block number, found 7, which was used before"
    );
    let renders = [17, 0, 0, 0, 0, 0, 0, 0].repeat(257);
    let over = [&with(&[1, 7, 0, 1, 1, 0, 0, 0, 0, 0, 0, 257])[..], &renders].concat();
    assert_eq!(
        error(&over),
        "refused 8: word 2074 (block 1 of 1, instruction 1 of 1, effect 257 of 257): expected at \
         most 256 renders, found one more"
    );
    assert_eq!(
        error(&with(&[1, 7, 0, 1, 1, 0, 0, 0, 0, 0, 0, 1, 6, 0, 0, 0, 1])),
        "refused 5: word 30 (block 1 of 1, instruction 1 of 1, effect 1 of 1): expected a \
         place's identifier, found 1, but the sheet has 1 of them"
    );
    assert_eq!(
        error(&with(&[1, 7, 0, 1, 1, 0, 0, 0, 0, 0, 0, 1, 17, 0, 0, 0, 0, 2])),
        "refused 5: word 31 (block 1 of 1, instruction 1 of 1, effect 1 of 1): expected a word \
         of a place that Render does not use, 0, found 2"
    );
    assert_eq!(
        error(&with(&[1, 7, 0, 1, 1, 1])),
        "refused 5: word 19 (block 1 of 1, instruction 1 of 1): expected a place's identifier, \
         found 1, but the sheet has 1 of them"
    );
    assert_eq!(
        error(&with(&[1, 7, 0, 1, 1, 0, 0, 0, 0, 65])),
        "refused 4: word 23 (block 1 of 1, instruction 1 of 1): expected a count of an \
         instruction's operands, at most 64, found 65"
    );
    assert_eq!(
        error(&with(&[1, 7, 0, 1, 1, 0, 0, 0, 0, 1, 0, 16])),
        "refused 5: word 25 (block 1 of 1, instruction 1 of 1, operand 1 of 1): expected a \
         place's traits (effect, plus 8 if reactive), at most 15, found 16"
    );
    assert_eq!(
        error(&with(&[1, 7, 0, 1, 1, 0, 0, 0, 0, 0, 3])),
        "refused 5: word 24 (block 1 of 1, instruction 1 of 1): expected a value (0 plain, \
         1 function, 2 StoreContext), at most 2, found 3"
    );
    assert_eq!(
        error(&with(&[1, 7, 0, 1, 1, 0, 0, 0, 0, 0, 2, 1])),
        "refused 5: word 25 (block 1 of 1, instruction 1 of 1): expected a stored identifier, \
         found 1, but the sheet has 1 of them"
    );
    assert_eq!(
        error(&with(&[1, 7, 0, 0, 2, 1, 0, 1])),
        "refused 4: word 21 (block 1 of 1): expected the count of a MaybeThrow's operands, 0, \
         found 1"
    );
    assert_eq!(error(&with(&[0, 5, 5])), "refused 7: word 15: 2 words follow the last block");
    assert_eq!(
        error(&[0; 16_385]),
        "refused 2: word 16384: a sheet has at most 16384 words, this one 16385"
    );
}

// =============================================================================
// The builder
// =============================================================================

fn place(identifier: u32) -> Place {
    Place::of(IdentifierId(identifier))
}

fn order(number: u32) -> EvaluationOrder {
    EvaluationOrder(number)
}

/// A builder with so many identifiers.
fn builder(identifiers: usize) -> SheetBuilder {
    let mut builder = SheetBuilder::new();
    for _ in 0..identifiers {
        builder.identifier(Identifier::default()).unwrap();
    }
    builder
}

/// Adds parts up to the limit; one more is refused and changes nothing.
fn full(
    mut builder: SheetBuilder,
    most: usize,
    mut part: impl FnMut(&mut SheetBuilder, u32) -> Result<(), PartError>,
) {
    for i in 0..most as u32 {
        part(&mut builder, i).unwrap();
    }
    let before = format!("{builder:?}");
    let error = part(&mut builder, most as u32).unwrap_err();
    assert!(matches!(error, PartError::TooMany { most: m, .. } if m == most), "{error}");
    assert_eq!(format!("{builder:?}"), before);
}

#[test]
fn every_count_has_its_limit() {
    full(builder(0), 512, |b, _| b.identifier(Identifier::default()).map(drop));
    full(builder(0), 64, |b, _| b.function(&[], &[]).map(drop));
    full(builder(1), 64, |b, _| b.param(place(0)));
    full(builder(1), 64, |b, _| b.context(place(0)));
    full(builder(1), 256, |b, i| {
        b.block(BlockId(i))?;
        b.terminal(Terminal::Other { order: order(0) })
    });
    let mut open = builder(1);
    open.block(BlockId(0)).unwrap();
    full(open.clone(), 1_024, |b, _| b.phi(place(0)));
    full(open.clone(), 1_024, |b, _| b.instruction(order(0)));
    let mut phi = open.clone();
    phi.phi(place(0)).unwrap();
    full(phi, 1_024, |b, i| b.operand(BlockId(i), place(0)));
    let mut instruction = open.clone();
    instruction.instruction(order(0)).unwrap();
    full(instruction.clone(), 1_024, |b, _| b.effect(AliasingEffect::Apply));
    full(instruction.clone(), 64, |b, _| b.value_lvalue(place(0)));
    full(instruction, 64, |b, _| b.value_operand(place(0)));
    let mut terminal = open.clone();
    terminal.terminal(Terminal::MaybeThrow { order: order(0) }).unwrap();
    full(terminal, 1_024, |b, _| b.effect(AliasingEffect::Apply));
    let mut terminal = open;
    terminal.terminal(Terminal::Other { order: order(0) }).unwrap();
    full(terminal, 64, |b, _| b.value_operand(place(0)));

    let diagnostics = [AliasingDiagnostic::default(); 65];
    assert!(builder(0).function(&diagnostics[..64], &[]).is_ok());
    assert!(builder(0).function(&diagnostics, &[]).is_err());
    assert!(builder(1).function(&[], &[place(0); 64]).is_ok());
    assert!(builder(1).function(&[], &[place(0); 65]).is_err());
}

#[test]
fn every_number_has_its_limit() {
    fn at_limit(most: u32, part: impl Fn(u32) -> Result<(), PartError>) {
        assert_eq!(part(most), Ok(()));
        let error = part(most + 1).unwrap_err();
        assert!(
            matches!(error, PartError::TooLarge { number, most: m, .. }
            if number == most + 1 && m == most),
            "{error}"
        );
    }
    let identifier = |start, end| {
        let range = MutableRange { start: order(start), end: order(end) };
        builder(0).identifier(Identifier { range, ..Identifier::default() }).map(drop)
    };
    at_limit(limits::RANGE, |n| identifier(n, 0));
    at_limit(limits::RANGE, |n| identifier(0, n));
    let halves = |n| [AliasingDiagnostic::new(n, 0), AliasingDiagnostic::new(0, n)];
    for half in 0..2 {
        at_limit(limits::DIAGNOSTIC, |n| builder(0).function(&[halves(n)[half]], &[]).map(drop));
    }
    at_limit(limits::BLOCK_NUMBER, |n| builder(0).block(BlockId(n)));
    let mut open = builder(1);
    open.block(BlockId(0)).unwrap();
    at_limit(limits::ORDER, |n| open.clone().instruction(order(n)));
    at_limit(limits::ORDER, |n| open.clone().terminal(Terminal::Other { order: order(n) }));
    at_limit(limits::BLOCK_NUMBER, |n| {
        let mut phi = open.clone();
        phi.phi(place(0))?;
        phi.operand(BlockId(n), place(0))
    });
    for half in 0..2 {
        at_limit(limits::DIAGNOSTIC, |n| {
            let mut instruction = open.clone();
            instruction.instruction(order(0))?;
            instruction.effect(AliasingEffect::Impure { place: place(0), error: halves(n)[half] })
        });
    }
}

#[test]
fn parts_that_are_not_there() {
    let none = |b: Result<(), PartError>| {
        assert!(matches!(b, Err(PartError::NoIdentifier { count: 1, .. })), "{b:?}");
    };
    let mut b = builder(1);
    none(b.param(place(1)));
    none(b.context(place(1)));
    none(b.clone().finish(place(1)).map(drop));
    b.block(BlockId(3)).unwrap();
    none(b.phi(place(1)));
    b.phi(place(0)).unwrap();
    none(b.operand(BlockId(0), place(u32::MAX)));
    b.instruction(order(1)).unwrap();
    none(b.effect(AliasingEffect::Alias { from: place(0), into: place(1) }));
    none(b.effect(AliasingEffect::Alias { from: place(1), into: place(0) }));
    none(b.effect(AliasingEffect::Render { place: place(1) }));
    none(b.lvalue(place(1)));
    none(b.value_lvalue(place(1)));
    none(b.value_operand(place(1)));
    none(b.value(InstructionValue::StoreContext(IdentifierId(1))));
    none(b.function(&[], &[place(1)]).map(drop));
    let made = InstructionValue::Function(FunctionId(0));
    assert_eq!(b.value(made), Err(PartError::NoFunction { function: FunctionId(0), count: 0 }));
    none(b.terminal(Terminal::Return { order: order(1), value: place(1) }));
    let create = AliasingEffect::CreateFunction { into: place(0), function_id: FunctionId(0) };
    assert_eq!(b.effect(create), Err(PartError::NoFunction { function: FunctionId(0), count: 0 }));
    b.function(&[], &[]).unwrap();
    assert_eq!(b.effect(create), Ok(()));
    assert_eq!(b.value(made), Ok(()));
    assert_eq!(b.clone().finish(place(0)), Err(PartError::BlockNotEnded(BlockId(3))));
    assert_eq!(b.block(BlockId(4)), Err(PartError::BlockNotEnded(BlockId(3))));
    b.terminal(Terminal::Other { order: order(1) }).unwrap();
    none(b.value_operand(place(1)));
    // An instruction without an lvalue of its own has the first identifier's.
    let mut none_yet = SheetBuilder::new();
    none_yet.block(BlockId(0)).unwrap();
    let first = PartError::NoIdentifier { identifier: IdentifierId(0), count: 0 };
    assert_eq!(none_yet.instruction(order(0)), Err(first));
    assert!(Service::new().infer(0, &b.finish(place(0)).unwrap().words()).is_ok());
}

#[test]
fn numbers_used_twice() {
    let mut b = builder(1);
    b.block(BlockId(7)).unwrap();
    b.phi(place(0)).unwrap();
    b.operand(BlockId(7), place(0)).unwrap();
    assert_eq!(b.operand(BlockId(7), place(0)), Err(PartError::PredecessorAgain(BlockId(7))));
    b.phi(place(0)).unwrap();
    b.operand(BlockId(7), place(0)).unwrap();
    b.terminal(Terminal::Other { order: order(1) }).unwrap();
    assert_eq!(b.block(BlockId(7)), Err(PartError::BlockAgain(BlockId(7))));
    b.block(BlockId(8)).unwrap();
}

#[test]
fn parts_out_of_place() {
    let misplaced = |b: Result<(), PartError>| {
        assert!(matches!(b, Err(PartError::OutOfPlace { .. })), "{b:?}");
    };
    let mut b = builder(1);
    misplaced(b.phi(place(0)));
    misplaced(b.operand(BlockId(0), place(0)));
    misplaced(b.instruction(order(0)));
    misplaced(b.effect(AliasingEffect::Apply));
    misplaced(b.terminal(Terminal::Other { order: order(0) }));
    b.block(BlockId(0)).unwrap();
    misplaced(b.operand(BlockId(0), place(0)));
    misplaced(b.effect(AliasingEffect::Apply));
    misplaced(b.lvalue(place(0)));
    misplaced(b.value_lvalue(place(0)));
    misplaced(b.value_operand(place(0)));
    misplaced(b.value(InstructionValue::Plain));
    misplaced(b.no_effects());
    b.instruction(order(0)).unwrap();
    misplaced(b.phi(place(0)));
    misplaced(b.operand(BlockId(0), place(0)));
    b.terminal(Terminal::Other { order: order(0) }).unwrap();
    misplaced(b.effect(AliasingEffect::Apply));
    misplaced(b.lvalue(place(0)));
    misplaced(b.instruction(order(0)));
    b.value_operand(place(0)).unwrap();
    b.block(BlockId(1)).unwrap();
    b.terminal(Terminal::Return { order: order(0), value: place(0) }).unwrap();
    misplaced(b.value_operand(place(0)));
    misplaced(b.no_effects());
}

/// A list left out is not an empty one: in parts, in words and in text.
#[test]
fn no_list_of_effects() {
    let mut b = builder(1);
    b.block(BlockId(0)).unwrap();
    b.instruction(order(1)).unwrap();
    let empty = b.clone();
    b.no_effects().unwrap();
    let absent = b.clone();
    let render = AliasingEffect::Render { place: place(0) };
    assert_eq!(
        b.effect(render).unwrap_err().to_string(),
        "an effect follows an instruction with a list, or a terminal Return or MaybeThrow"
    );
    assert_eq!(format!("{b:?}"), format!("{absent:?}"));
    // What follows such an instruction has a list again.
    b.instruction(order(2)).unwrap();
    b.effect(render).unwrap();
    assert_eq!(
        b.no_effects().unwrap_err().to_string(),
        "an absent list of effects follows an instruction without effects"
    );
    let finished = |mut b: SheetBuilder| {
        b.terminal(Terminal::MaybeThrow { order: order(3) }).unwrap();
        b.finish(place(0)).unwrap()
    };
    let (empty, absent) = (finished(empty), finished(absent));
    assert_eq!(empty.blocks()[0].instructions[0].effects, Some(Vec::new()));
    assert_eq!(absent.blocks()[0].instructions[0].effects, None);
    let head = [2, 0, 0, 1, 0, 0, 0, 0, 0, 0, 1, 0, 0, 0, 1, 0, 0, 1, 1, 0, 0, 0, 0, 0, 0];
    assert_eq!(empty.words(), [&head[..], &[0, 2, 3, 0, 0]].concat());
    assert_eq!(absent.words(), [&head[..], &[4_294_967_295, 2, 3, 0, 0]].concat());
    for sheet in [&empty, &absent] {
        assert_eq!(Sheet::read(&sheet.words()).as_ref(), Ok(sheet));
        assert_eq!(sheet.refusal(), None);
    }
    let text = |sheet: &Sheet| text::write(sheet, &Names::numbered(sheet));
    let lines = "block 0\n  instruction at 1\n";
    let terminal = "  terminal MaybeThrow at 3\n";
    assert!(text(&empty).ends_with(&format!("{lines}{terminal}")));
    assert!(text(&absent).ends_with(&format!("{lines}    no effects\n{terminal}")));
    assert_eq!(text::parse(&text(&absent)).unwrap().0, absent);
}

/// Of the counts above 1,024 one alone stands for an absent list, in an instruction alone.
#[test]
fn counts_of_effects() {
    let head = [2, 0, 1, 1, 0, 0, 0, 0, 0, 0, 1, 0, 0, 0, 1, 7, 0];
    let with = |rest: &[u32]| Sheet::read(&[&head[..], rest].concat());
    let instruction = |count| with(&[1, 1, 0, 0, 0, 0, 0, 0, count, 0, 2, 0]);
    assert!(instruction(limits::ABSENT_EFFECTS).is_ok());
    for count in [1_025, 4_294_967_294] {
        assert_eq!(
            instruction(count).unwrap_err().to_string(),
            format!(
                "refused 4: word 25 (block 1 of 1, instruction 1 of 1): expected a count of \
                 effects (4294967295 if the list is absent), at most 1024, found {count}"
            )
        );
    }
    assert_eq!(
        with(&[0, 2, 1, 4_294_967_295, 0]).unwrap_err().to_string(),
        "refused 4: word 20 (block 1 of 1): expected a count of a terminal's effects, at most \
         1024, found 4294967295"
    );
    assert_eq!(
        with(&[1, 1, 0, 0, 0, 0, 0, 0, limits::ABSENT_EFFECTS]).unwrap_err().to_string(),
        "refused 3: word 26 (block 1 of 1): expected a terminal kind (0 other, 1 Return, 2 \
         MaybeThrow), but the sheet ends here"
    );
}

/// Parts drawn at random, many of them faulty: what the builder makes is never refused 3 to 7.
#[test]
fn no_sheet_that_is_refused_3_to_7() {
    let mut random = Random::new(3);
    let mut service = Service::new();
    let mut accepted = 0;
    for _ in 0..5_000 {
        let mut b = SheetBuilder::new();
        for _ in 0..random.below(40) {
            let p = Place {
                identifier: IdentifierId(random.below(4) as u32),
                effect: random.choose(Effect::ALL),
                reactive: random.percent(50),
                span: random.word() as u32,
            };
            let near = random.choose(&[0, 1, 2, 65_535, 65_536, 999_999, 1_000_000, 1_000_001]);
            let effect = std::array::from_fn(|_| random.below(18) as u32);
            // Faults are what is tried here.
            _ = match random.below(16) {
                0 => b
                    .identifier(Identifier {
                        range: MutableRange { start: order(near), end: order(near) },
                        ..Identifier::default()
                    })
                    .map(drop),
                1 => b.identifier(Identifier::default()).map(drop),
                2 => b.function(&[AliasingDiagnostic::new(0, near)], &[p]).map(drop),
                3 => b.param(p),
                4 => b.context(p),
                5 => b.block(BlockId(near)),
                6 => b.phi(p),
                7 => b.operand(BlockId(near), p),
                8 => b.instruction(order(near)),
                9 => match AliasingEffect::from_words(effect) {
                    Some(effect) => b.effect(effect),
                    None => b.effect(AliasingEffect::Alias { from: p, into: p }),
                },
                10 => b.lvalue(p),
                11 => b.value_lvalue(p),
                12 => b.value_operand(p),
                13 => b.value(match random.below(3) {
                    0 => InstructionValue::Plain,
                    1 => InstructionValue::Function(FunctionId(near)),
                    _ => InstructionValue::StoreContext(p.identifier),
                }),
                14 => b.no_effects(),
                _ => b.terminal(match random.below(3) {
                    0 => Terminal::Other { order: order(near) },
                    1 => Terminal::Return { order: order(near), value: p },
                    _ => Terminal::MaybeThrow { order: order(near) },
                }),
            };
        }
        if let Ok(sheet) = b.finish(place(0)) {
            accepted += 1;
            let refusal = service.infer(0, &sheet.words()).err();
            assert_eq!(refusal, sheet.refusal(), "{sheet:?}");
        }
    }
    assert!(accepted > 500, "{accepted}");
}

// =============================================================================
// Text
// =============================================================================

const CASE_1: &str = include_str!("../../examples/case1.txt");

#[test]
fn case_1_as_text() {
    let (sheet, names) = text::parse(CASE_1).unwrap();
    let file = include_bytes!("../../examples/case1.sheet");
    let words: Vec<u32> =
        file.as_chunks().0.iter().map(|&bytes| u32::from_le_bytes(bytes)).collect();
    assert_eq!(sheet.words(), words);
    assert_eq!(names.identifier(IdentifierId(1)), "list");
    // Comments aside, the text is the one that is written.
    let code = |text: &str| -> Vec<String> {
        let lines = text.lines().map(|l| l.split('#').next().unwrap().trim_end().to_string());
        lines.filter(|l| !l.is_empty()).collect()
    };
    assert_eq!(code(&text::write(&sheet, &names)), code(CASE_1));
}

#[test]
fn faults_in_text_name_the_line_and_what_was_expected() {
    let head = "identifier a\nidentifier b\nfunction f diagnostics 1/3 2\nreturns b\n";
    let error = |lines: &str| text::parse(&format!("{head}{lines}")).unwrap_err().to_string();
    let block = |lines: &str| error(&format!("block 0\n{lines}"));

    assert_eq!(
        text::parse("identifier a\n").unwrap_err().to_string(),
        "line 1: expected a line `returns PLACE`, found the end of the text"
    );
    assert_eq!(error("returns a"), "line 5: expected one line `returns`, found a second");
    assert_eq!(error("identifier a"), "line 5: expected a new identifier's name, found `a` again");
    assert_eq!(
        error("identifier 7"),
        "line 5: expected an identifier's name (letters, digits, _ $ . -), found `7`"
    );
    assert_eq!(
        error("identifier c range 4"),
        "line 5: expected the range's end (a number), found the end of the line"
    );
    assert_eq!(
        error("identifier c range 4 1000001"),
        "line 5: 1000001 is too large for a range's end, which is at most 1000000"
    );
    assert_eq!(
        error("identifier c range 4294967296 0"),
        "line 5: 4294967296 is too large for the range's start"
    );
    assert_eq!(
        error("identifier c type Array"),
        "line 5: expected a type (Other, Primitive, Jsx), found `Array`"
    );
    assert_eq!(
        error("param c"),
        "line 5: expected the name of an identifier declared above, found `c`"
    );
    assert_eq!(
        error("param a Reads"),
        "line 5: expected an effect, `reactive`, `span NUMBER` or the end of the line, \
         found `Reads`; did you mean `Read`?"
    );
    assert_eq!(error("param a span many"), "line 5: expected a span (a number), found `many`");
    assert_eq!(error("block x"), "line 5: expected a block's number (a number), found `x`");
    assert!(error("Blocks 0").starts_with("line 5: expected a line that begins with flags, "));
    assert_eq!(
        error("instruction at 1"),
        "line 5: an instruction follows a block without a terminal"
    );
    assert_eq!(
        error("block 4\nterminal Other at 1\n\n# again\nblock 4"),
        "line 9: block number 4 is used a second time"
    );
    assert_eq!(error("block 4\nidentifier c"), "line 6: block 4 has no terminal yet");
    assert_eq!(block("instruction 1"), "line 6: expected `at`, found `1`");
    assert_eq!(
        block("instruction at 1 a"),
        "line 6: expected `lvalue PLACE`, `function NAME`, `StoreContext NAME` or the end of the \
         line, found `a`"
    );
    assert_eq!(
        block("instruction at 1 lvalue a Reed"),
        "line 6: expected an effect, `reactive`, `span NUMBER`, `function NAME`, `StoreContext \
         NAME` or the end of the line, found `Reed`; did you mean `Read`?"
    );
    assert_eq!(
        block("instruction at 1 function g"),
        "line 6: expected the name of an inner function declared above, found `g`"
    );
    assert_eq!(
        block("instruction at 1 StoreContext c"),
        "line 6: expected the name of an identifier declared above, found `c`"
    );
    assert_eq!(
        block("instruction at 1 function f StoreContext a"),
        "line 6: expected the end of the line, found `StoreContext`"
    );
    assert_eq!(block("lvalue a"), "line 6: a value lvalue follows an instruction");
    assert_eq!(
        block("operand a"),
        "line 6: an operand follows a phi, an instruction or a terminal Other"
    );
    assert_eq!(
        block("instruction at 1\noperand a from 9"),
        "line 7: expected an effect, `reactive`, `span NUMBER` or the end of the line, \
         found `from`"
    );
    assert_eq!(block("instruction at 1\nno list"), "line 7: expected `effects`, found `list`");
    assert_eq!(
        block("instruction at 1\nno effects\nRender a"),
        "line 8: an effect follows an instruction with a list, or a terminal Return or MaybeThrow"
    );
    assert_eq!(
        block("instruction at 1\nRender a\nno effects"),
        "line 8: an absent list of effects follows an instruction without effects"
    );
    assert_eq!(
        block("terminal MaybeThrow at 1\nno effects"),
        "line 7: an absent list of effects follows an instruction without effects"
    );
    assert_eq!(
        block("terminal MaybeThrow at 1\noperand a"),
        "line 7: an operand follows a phi, an instruction or a terminal Other"
    );
    assert_eq!(
        error("function g contxt a"),
        "line 5: expected `diagnostics IDENTITY/INSTANCE ..`, `context PLACE` or the end of the \
         line, found `contxt`; did you mean `context`?"
    );
    assert_eq!(
        error("function g diagnostics 1 context c"),
        "line 5: expected the name of an identifier declared above, found `c`"
    );
    assert_eq!(
        block("phi a\noperand a from 9\noperand b from 9"),
        "line 8: the phi names predecessor 9 a second time"
    );
    assert_eq!(
        block("phi a\noperand a at 9"),
        "line 7: expected an effect, `reactive`, `span NUMBER` or `from`, found `at`"
    );
    assert_eq!(
        block("terminal Throw at 1"),
        "line 6: expected `Return`, `MaybeThrow` or `Other`, found `Throw`"
    );
    assert_eq!(
        block("terminal Other at 1000000"),
        "line 6: 1000000 is too large for a terminal's order, which is at most 999999"
    );
    let effect = |line: &str| block(&format!("instruction at 1\n{line}"));
    assert_eq!(
        effect("Capture a"),
        "line 7: expected an effect, `reactive`, `span NUMBER` or `into`, found the end of the line"
    );
    assert_eq!(
        effect("CreateFunction a function g"),
        "line 7: expected the name of an inner function declared above, found `g`"
    );
    assert_eq!(
        effect("Impure a diagnostic 65536"),
        "line 7: 65536 is too large for a diagnostic's identity, which is at most 65535"
    );
    assert_eq!(
        effect("Impure a diagnostic 1/65536"),
        "line 7: 65536 is too large for a diagnostic's instance, which is at most 65535"
    );
    assert_eq!(
        effect("Impure a diagnostic 1/x"),
        "line 7: expected a diagnostic (IDENTITY/INSTANCE), found `1/x`"
    );
    assert!(
        effect("Freeze a reason Frost")
            .starts_with("line 7: expected a reason (KnownReturnSignature, State, ")
    );
    assert_eq!(effect("Apply a"), "line 7: expected the end of the line, found `a`");
    assert_eq!(
        error("flags validation"),
        "line 5: expected `function-expression`, `validations`, `none` or the end of the line, \
         found `validation`; did you mean `validations`?"
    );
}

/// The name that a misspelt word is nearest to is proposed, of those that could stand there.
#[test]
fn misspelt_words() {
    let head = "identifier props\nidentifier b\nfunction click\nreturns b\nblock 0\n";
    let meant = |lines: &str| {
        let error = text::parse(&format!("{head}{lines}")).unwrap_err().to_string();
        error
            .split_once("; did you mean `")
            .map(|(_, name)| name.trim_end_matches("`?").to_string())
    };
    let effect = |line: &str| meant(&format!("instruction at 1\n{line}"));
    assert_eq!(meant("instuction at 1").as_deref(), Some("instruction"));
    assert_eq!(meant("terminal return b at 1").as_deref(), Some("Return"));
    assert_eq!(meant("parm b").as_deref(), Some("param"));
    assert_eq!(meant("phi prop").as_deref(), Some("props"));
    assert_eq!(meant("instruction at 1\nno efects").as_deref(), Some("effects"));
    assert_eq!(meant("phi props\noperand b frm 1").as_deref(), Some("from"));
    assert_eq!(effect("MutateTransitve b").as_deref(), Some("MutateTransitive"));
    assert_eq!(effect("Cpature b into props").as_deref(), Some("Capture"));
    assert_eq!(effect("maybealias b into props").as_deref(), Some("MaybeAlias"));
    assert_eq!(effect("Alias b int props").as_deref(), Some("into"));
    assert_eq!(effect("Render b reactiv").as_deref(), Some("reactive"));
    assert_eq!(effect("Create b valu Frozen").as_deref(), Some("value"));
    assert_eq!(effect("Create b value Frosen").as_deref(), Some("Frozen"));
    assert_eq!(effect("Freeze b reason JSXCaptured").as_deref(), Some("JsxCaptured"));
    assert_eq!(effect("CreateFunction b function clik").as_deref(), Some("click"));
    assert_eq!(effect("CreateFunction b funktion click").as_deref(), Some("function"));
    assert_eq!(effect("Impure b diagnostics 1").as_deref(), Some("diagnostic"));
    assert_eq!(effect("Draw b"), None);
    assert_eq!(effect("Render c"), None);
}

/// Every total over its limit is named.
#[test]
fn totals_over_their_limits() {
    let mut b = builder(2);
    b.block(BlockId(0)).unwrap();
    b.instruction(order(1)).unwrap();
    for _ in 0..257 {
        b.effect(AliasingEffect::Render { place: place(0) }).unwrap();
    }
    b.instruction(order(1)).unwrap();
    for _ in 0..1_024 {
        b.effect(AliasingEffect::Alias { from: place(0), into: place(0) }).unwrap();
    }
    b.terminal(Terminal::Return { order: order(2), value: place(0) }).unwrap();
    let sheet = b.finish(place(0)).unwrap();
    let over: Vec<_> = sheet.totals().over().chain(sheet.held().over()).collect();
    let edges = "forward edges held together";
    assert_eq!(over, [("renders", 257, 256), (edges, 1_025, 1_024)]);
    assert_eq!(sheet.held(), Held { edges: 1_025, entries: 1 });
}

/// Words of texts cut, moved and changed: an error or a sheet, and the sheet is never refused
/// 3 to 7.
#[test]
fn damaged_texts() {
    let mut random = Random::new(4);
    let mut service = Service::new();
    let (mut good, mut faulty) = (0, 0);
    for words in generated(5, 1_500) {
        if words.len() > 2_000 {
            continue;
        }
        let sheet = Sheet::read(&words).unwrap();
        let text = text::write(&sheet, &Names::numbered(&sheet));
        let mut lines: Vec<Vec<&str>> =
            text.lines().map(|l| l.split_whitespace().collect()).collect();
        for _ in 0..random.between(1, 3) {
            let (i, j) = (random.below(lines.len()), random.below(lines.len()));
            match random.below(5) {
                0 => _ = lines[i].pop(),
                1 => lines.swap(i, j),
                2 => lines[i] = Vec::new(),
                3 => {
                    if let Some(&word) = lines[j].last() {
                        lines[i].push(word);
                    }
                }
                _ => {
                    let (mut a, b) = (std::mem::take(&mut lines[i]), random.below(9));
                    if let Some(word) = a.get_mut(b) {
                        *word = random.choose(&["0", "1000000", "4294967296", "x0", "into", "-1"]);
                    }
                    lines[i] = a;
                }
            }
        }
        let damaged: Vec<_> = lines.iter().map(|l| l.join(" ")).collect();
        match text::parse(&damaged.join("\n")) {
            Err(error) => {
                faulty += 1;
                assert!((1..=lines.len()).contains(&error.line()));
            }
            Ok((sheet, _)) => {
                good += 1;
                let refusal = service.infer(0, &sheet.words()).err();
                assert_eq!(refusal, sheet.refusal());
            }
        }
    }
    assert!(good > 50 && faulty > 500, "{good} {faulty}");
}
