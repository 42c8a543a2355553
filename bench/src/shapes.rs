//! Sheets: panels as they are written, the limits, and the worst for each side.

use oracle::dense::{block, place, sheet, two};
use oracle::plain::sheet::{
    Block, Diagnostic, Effect, InnerFunction, Instruction, Phi, Place, Sheet, Terminal, Value,
};
use oracle::random::Random;

fn one(kind: u32, identifier: usize) -> Effect {
    Effect { kind, first: place(identifier), ..Effect::default() }
}

/// An inner function with so many diagnostics, with rising identities.
fn function(first: u32, count: u32, context: Vec<Place>) -> InnerFunction {
    let diagnostic = |i| Diagnostic { identity: i, instance: i };
    InnerFunction { diagnostics: (first..first + count).map(diagnostic).collect(), context }
}

/// The smallest sheet: one identifier, which is returned, and no block.
pub fn smallest() -> Sheet {
    Sheet { params: Vec::new(), ..sheet(1, Vec::new()) }
}

/// A panel as people write them: each instruction makes one value from earlier ones, its operands,
/// about a third change one, and every few instructions a branch joins in a phi. With 400
/// identifiers it is nearly as long as a sheet may be.
pub fn panel(random: &mut Random, identifiers: usize) -> Sheet {
    let mut sheet = sheet(identifiers, Vec::new());
    let context = (identifiers / 10).min(8).min(identifiers - 2);
    sheet.context = (1..=context).map(place).collect();
    let captured = (0..=context).map(place).collect();
    sheet.functions = vec![function(7, 2, captured), function(9, 1, vec![place(0)])];
    let mut made = context + 1;
    let mut order = 0;
    let mut number = 0;
    while made < identifiers - 1 {
        let mut phis = Vec::new();
        if number >= 2 && random.percent(60) {
            let operands = vec![
                (number as u32 - 2, place(random.below(made))),
                (number as u32 - 1, place(random.below(made))),
            ];
            phis.push(Phi { place: place(made), operands });
            made += 1;
        }
        let mut instructions = Vec::new();
        for _ in 0..random.between(4, 9) {
            if made >= identifiers - 1 {
                break;
            }
            order += 1;
            let from = |random: &mut Random| made - 1 - random.below(made.min(12));
            let mut effects = match random.below(10) {
                0..4 => vec![one(9, made)],
                4..6 => vec![two(10, from(random), made)],
                6..8 => vec![two(8, from(random), made)],
                _ => vec![Effect { extra: random.below(2) as u32, ..one(13, made) }],
            };
            let made_function = (effects[0].kind == 13).then_some(effects[0].extra);
            for _ in 0..random.below(3) {
                effects.push(two(random.choose(&[5, 5, 5, 6, 7, 11]), from(random), made));
            }
            if random.percent(35) {
                let kind = random.choose(&[1, 2, 3, 3, 4, 4]);
                effects.push(one(kind, from(random)));
            }
            if random.percent(5) {
                effects.push(one(17, from(random)));
            }
            let mut operands: Vec<Place> =
                effects.iter().map(|e| e.first).filter(|p| p.identifier != made as u32).collect();
            operands.dedup();
            let mut instruction = Instruction::plain(order, effects);
            instruction.lvalue = place(made);
            match made_function {
                Some(function) => instruction.value = Value::Function(function),
                None => instruction.operands = operands,
            }
            instructions.push(instruction);
            made += 1;
        }
        order += 1;
        let terminal = Terminal::Other { order, operands: vec![place(made - 1)] };
        sheet.blocks.push(Block { number: number as u32, phis, instructions, terminal });
        number += 1;
    }
    if let Some(last) = sheet.blocks.last_mut() {
        let value = place(made - 1);
        last.terminal = Terminal::Return { order, value, effects: Vec::new() };
    }
    sheet
}

/// A chain of so many aliases, and a mutation of each value.
pub fn chain(identifiers: usize) -> Sheet {
    let last = identifiers - 1;
    let mut effects: Vec<Effect> = (0..last).map(|i| two(8, i, i + 1)).collect();
    effects.extend((0..identifiers).map(|i| one(3, i)));
    sheet(identifiers, vec![block(0, Vec::new(), &effects)])
}

/// So many relations of all kinds between the identifiers, and so many mutations.
pub fn dense(identifiers: usize, relations: usize, mutations: usize) -> Sheet {
    let mut random = Random::new(17);
    let kinds = [5, 6, 7];
    oracle::dense::random(&mut random, identifiers, relations, mutations, &kinds, &[3])
}

/// One phi with so many operands, of which 200 come from blocks that follow.
pub fn phi(operands: usize) -> Sheet {
    let identifiers = 512;
    let created: Vec<Effect> = (0..identifiers - 1).map(|i| one(9, i)).collect();
    let operand = |i| (i as u32, place(i % (identifiers - 1)));
    let phi = Phi { place: place(identifiers - 1), operands: (0..operands).map(operand).collect() };
    let mut blocks = vec![block(60_000, Vec::new(), &created), block(60_001, vec![phi], &[])];
    blocks.extend((0..operands.min(200)).map(|number| block(number, Vec::new(), &[])));
    blocks.push(block(60_002, Vec::new(), &[one(3, 0), one(3, identifiers - 1)]));
    sheet(identifiers, blocks)
}

/// The same with the operands' predecessors in falling order, so that each is searched among all before.
pub fn falling_phi(operands: usize) -> Sheet {
    let mut sheet = phi(operands);
    sheet.blocks[1].phis[0].operands.reverse();
    sheet
}

/// So many phi operands in phis of eight, all of which wait for the last of 250 blocks.
pub fn waiting(operands: usize) -> Sheet {
    let phis = (0..operands / 8).map(|p| Phi {
        place: place(1 + p % 500),
        operands: (0..8).map(|i| (60_000 + i, place((p + i as usize) % 500))).collect(),
    });
    let mut blocks = vec![block(0, phis.collect(), &[])];
    blocks.extend((1..240).map(|number| block(number, Vec::new(), &[])));
    blocks.extend((0..8).map(|i| block(60_000 + i, Vec::new(), &[one(3, 0)])));
    sheet(512, blocks)
}

/// Half of the relations are held throughout. The others are each dropped at once: a value gets
/// one and is created again.
pub fn recreated(times: usize) -> Sheet {
    let identifiers = 512;
    let held = 1_024 - times;
    let mut effects: Vec<Effect> = (0..300).map(|i| one(9, i)).collect();
    effects.extend((0..held).map(|i| two(5, i % 150, 150 + i * 7 % 150)));
    for i in 0..times {
        let (from, into) = (i % 150, 300 + i % 200);
        effects.extend([one(9, into), two(5, from, into), one(9, into)]);
    }
    effects.extend((0..8).map(|i| one(3, i)));
    effects.truncate((16_000 - 3 * identifiers) / 8);
    sheet(identifiers, vec![block(0, Vec::new(), &effects)])
}

/// 1,000 creations between 1,000 relations that stay held. All but the first 32 create from a value
/// that has no node, so that each gives back the entry of the one before it.
pub fn collected() -> Sheet {
    let mut effects: Vec<Effect> = (0..32).map(|i| one(9, i)).collect();
    for i in 0..1_000 {
        effects.push(two([5, 6, 7][i % 3], i % 32, i * 7 % 32));
        if i < 968 {
            effects.push(two(10, 63, 32 + i % 31));
        }
    }
    effects.extend((0..8).map(|i| one(3, i)));
    let mut sheet = sheet(65, vec![block(0, Vec::new(), &effects)]);
    sheet.params = Vec::new();
    sheet
}

/// The same pair of values related again and again: every entry is there already.
pub fn repeated(relations: usize) -> Sheet {
    let mut effects: Vec<Effect> = (0..64).map(|i| one(9, i)).collect();
    effects.extend((0..relations).map(|i| two(5 + (i % 3) as u32, i % 8, 8 + i % 8)));
    effects.extend((0..16).map(|i| one(3, i)));
    sheet(65, vec![block(0, Vec::new(), &effects)])
}

/// So many blocks with a Return each.
pub fn blocks(count: usize) -> Sheet {
    let mut sheet = sheet(64, Vec::new());
    for number in 0..count {
        let from = number % 63;
        let mut b = block(number, Vec::new(), &[one(9, from), one(3, from)]);
        b.terminal = Terminal::Return { order: 9, value: place(from), effects: Vec::new() };
        sheet.blocks.push(b);
    }
    sheet
}

/// 64 parameters and 64 context variables over a dense graph: 129 simulated walks, each of
/// which reaches all of them.
pub fn simulated(relations: usize) -> Sheet {
    let mut sheet = dense(130, relations, 1);
    sheet.params = (0..64).map(place).collect();
    sheet.context = (64..128).map(place).collect();
    sheet
}

/// Function nodes in a row, all handed over by each of so many renders.
pub fn renders(nodes: usize, renders: usize) -> Sheet {
    let mut effects: Vec<Effect> = (0..nodes).map(|i| one(13, i)).collect();
    effects.extend((1..nodes).map(|i| two(5, i, i - 1)));
    effects.extend((0..renders).map(|_| one(17, 0)));
    let mut sheet = sheet(nodes + 1, vec![block(0, Vec::new(), &effects)]);
    sheet.functions = vec![function(0, 64, Vec::new())];
    sheet.params = Vec::new();
    sheet
}

/// So many instructions with 64 operands, and effects on some of them.
pub fn operands(instructions: usize) -> Sheet {
    let mut block = block(0, Vec::new(), &[]);
    for order in 1..=instructions {
        let used = || (0..64).map(|i| (order * 7 + i) % 200);
        let effects = used().take(8).map(|i| two(11, i, 0)).collect();
        let mut instruction = Instruction::plain(order as u32, effects);
        instruction.lvalue = place(200 + order);
        instruction.operands = used().map(place).collect();
        block.instructions.push(instruction);
    }
    sheet(300, vec![block])
}

/// One inner function with 64 context places, made by so many instructions.
pub fn contexts(instructions: usize) -> Sheet {
    let mut block = block(0, Vec::new(), &[]);
    for order in 1..=instructions {
        let mut instruction = Instruction::plain(order as u32, Vec::new());
        instruction.value = Value::Function(0);
        block.instructions.push(instruction);
    }
    let mut sheet = sheet(65, vec![block]);
    sheet.functions = vec![function(0, 0, (0..64).map(place).collect())];
    sheet
}

/// Single sheets, each with its name.
pub fn worst() -> Vec<(String, Sheet)> {
    let mut all: Vec<(String, Sheet)> = oracle::dense::all()
        .into_iter()
        .map(|(name, sheet)| (format!("{name}, 512 mutations"), sheet))
        .collect();
    let more: [(&str, Sheet); 15] = [
        ("the smallest sheet", smallest()),
        ("one phi with 1,024 operands", phi(1_024)),
        ("one phi with 1,024 operands, predecessors falling", falling_phi(1_024)),
        ("1,024 operands that wait, 248 blocks", waiting(1_024)),
        ("512 values created again, 512 relations held", recreated(512)),
        ("128 values created again, 896 relations held", recreated(128)),
        ("1,000 creations between 1,000 relations held", collected()),
        ("1,024 relations between 24 pairs", repeated(1_024)),
        ("256 blocks", blocks(256)),
        ("129 simulated walks over 1,024 relations", simulated(1_024)),
        ("100 renders over 300 functions", renders(300, 100)),
        ("256 renders over 500 functions", renders(500, 256)),
        ("one mutation, 1,024 relations", dense(512, 1_024, 1)),
        ("48 instructions with 64 operands each", operands(48)),
        ("64 context places, made by 1,024 instructions", contexts(1_024)),
    ];
    all.extend(more.map(|(name, sheet)| (name.to_string(), sheet)));
    all
}

/// The cost as the work grows: each next sheet has twice as much of it.
pub fn doublings() -> Vec<(&'static str, Vec<(usize, Sheet)>)> {
    let grow = |from: usize, to: usize, make: &dyn Fn(usize) -> Sheet| {
        let sizes = std::iter::successors(Some(from), |n| Some(n * 2)).take_while(|&n| n <= to);
        sizes.map(|n| (n, make(n))).collect::<Vec<_>>()
    };
    vec![
        ("panel, identifiers", grow(8, 256, &|n| panel(&mut Random::new(5), n))),
        ("chain, identifiers and mutations", grow(8, 512, &chain)),
        ("dense, relations (64 identifiers, 64 mutations)", grow(64, 1_024, &|n| dense(64, n, 64))),
        ("mutations (512 identifiers, 1,024 relations)", grow(8, 512, &|n| dense(512, 1_024, n))),
        ("operands of one phi", grow(16, 1_024, &phi)),
        ("operands that wait (248 blocks)", grow(16, 1_024, &waiting)),
        ("values created again", grow(16, 512, &recreated)),
        ("relations between the same pairs", grow(16, 1_024, &repeated)),
        ("blocks", grow(4, 256, &blocks)),
        ("instructions with 64 operands", grow(1, 32, &operands)),
        ("instructions that make a function of 64 context places", grow(16, 1_024, &contexts)),
    ]
}
