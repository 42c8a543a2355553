//! Drawings through the library: texts worked out from document 02 alone (order 6), beside the
//! oracle's, every refusal, and what a call leaves in lent buffers.

use oracle::damage::{Call, damaged};
use oracle::drawing;
use oracle::generate::{LIMITS, Limit, at_limit, past_limit};
use oracle::plain::dot::{Drawn, judge, lend};
use oracle::plain::sheet::WORKSPACE_WORDS;
use oracle::random::Random;
use service_host::ffi::{self, Reply};
use service_host::{
    AliasingEffect, BlockId, EvaluationOrder, Identifier, IdentifierId, Place, Refusal, Service,
    SheetBuilder, Terminal, limits, text,
};

/// Sheets as text, and the lines between the first and the last.
const WORKED_OUT: [(&str, &[&str]); 7] = [
    ("identifier a\nreturns a\n", &["  n0;"]),
    // No edge under its node; the node that has none has no line.
    (
        "identifier a\nidentifier none\nidentifier b\nparam a\nreturns b\nblock 0\n\
         instruction at 1\nAlias a into b\nAlias b into a\nAlias none into a\n\
         terminal Other at 2\n",
        &["  n0;", "  n2;", "  n0 -> n2 [label=\"alias 0\"];", "  n2 -> n0 [label=\"alias 1\"];"],
    ),
    // The three words; a mutation takes an index; Assign creates; Return is an alias.
    (
        "identifier a\nidentifier b\nidentifier c\nidentifier r\nparam a\nparam b\nreturns r\n\
         block 0\ninstruction at 1\nCapture a into b\nMaybeAlias b into a\nMutate a\n\
         Assign b into c\nterminal Return c at 2\n",
        &[
            "  n0;",
            "  n1;",
            "  n2;",
            "  n3;",
            "  n0 -> n1 [label=\"capture 0\"];",
            "  n1 -> n0 [label=\"maybe 1\"];",
            "  n1 -> n2 [label=\"alias 3\"];",
            "  n2 -> n3 [label=\"alias 4\"];",
        ],
    ),
    // Every edge, and that of CreateFrom an alias.
    (
        "identifier a\nidentifier b\nparam a\nreturns b\nblock 0\ninstruction at 1\n\
         CreateFrom a into b\nAlias a into b\nAlias a into b\nterminal Other at 2\n",
        &[
            "  n0;",
            "  n1;",
            "  n0 -> n1 [label=\"alias 0\"];",
            "  n0 -> n1 [label=\"alias 1\"];",
            "  n0 -> n1 [label=\"alias 2\"];",
        ],
    ),
    // The operand waits with index 0 until its block's end.
    (
        "identifier x\nidentifier y\nidentifier p\nparam x\nreturns y\nblock 0\nphi p\n\
         operand x from 0\ninstruction at 1\nAlias x into y\nterminal Other at 2\n",
        &[
            "  n0;",
            "  n1;",
            "  n2;",
            "  n0 -> n1 [label=\"alias 1\"];",
            "  n0 -> n2 [label=\"alias 0\"];",
        ],
    ),
    // Created again: its own edges are dropped, those to it stay.
    (
        "identifier a\nidentifier b\nparam a\nreturns b\nblock 0\ninstruction at 1\n\
         Alias a into b\nAlias b into a\nCreate b\nterminal Other at 2\n",
        &["  n0;", "  n1;", "  n0 -> n1 [label=\"alias 0\"];"],
    ),
    // Apply is refused by the call and drawn here.
    (
        "identifier a\nidentifier b\nparam a\nreturns b\nblock 0\ninstruction at 1\n\
         Apply\nCapture a into b\nterminal Other at 2\n",
        &["  n0;", "  n1;", "  n0 -> n1 [label=\"capture 0\"];"],
    ),
];

fn whole(lines: &[&str]) -> String {
    let all = [&["digraph g {"], lines, &["}"]].concat();
    all.iter().map(|line| format!("{line}\n")).collect()
}

#[test]
fn worked_out() {
    let mut service = Service::new();
    for (sheet, lines) in WORKED_OUT {
        let (sheet, _) = text::parse(sheet).unwrap();
        assert_eq!(service.dot(&sheet.words()), Ok(whole(lines)));
    }
    assert!(service.next_serials().eq([0]), "no serial is taken");
}

/// A drawing into lent buffers that hold rubbish before; what stands behind the text, and the
/// workspace, must be 0 afterwards.
fn lent(sheet: &[u32], workspace: usize, room: usize) -> (Reply, Vec<u8>) {
    let mut workspace = vec![0xdead_beef; workspace];
    let mut text = vec![0xa5; room];
    let reply = ffi::dot(sheet, &mut workspace, &mut text);
    assert!(workspace.iter().all(|&word| word == 0));
    assert!(text[reply.length..].iter().all(|&byte| byte == 0));
    text.truncate(reply.length);
    (reply, text)
}

#[test]
fn as_the_oracle() {
    let mut random = Random::new(6);
    let mut calls = drawing::fixed();
    let limits = LIMITS.map(|limit| at_limit(&mut random, limit));
    calls.extend(limits.map(|sheet| Call::good(&sheet, &mut random)));
    calls.extend((0..100).map(|_| drawing::made(&mut random)));
    calls.extend((0..200).map(|_| damaged(&mut random)));
    let mut service = Service::new();
    for Call { sheet, workspace, .. } in calls {
        let judged = judge(&sheet);
        let full = judged.as_ref().map_or(40, Vec::len);
        for (workspace, room) in
            [(workspace, full), (WORKSPACE_WORDS, full - 1), (17_000, full + 99), (16_383, full)]
        {
            let expected = match lend(&judged, workspace, room) {
                Drawn::Refused(refusal) => (Reply { refusal, serial: 0, length: 0 }, vec![]),
                Drawn::Text(text) => (Reply { refusal: 0, serial: 0, length: text.len() }, text),
            };
            assert_eq!(lent(&sheet, workspace, room), expected, "{workspace} words, {room} bytes");
        }
        // The wrapper lends enough.
        let drawn = service.dot(&sheet).map(String::into_bytes).map_err(Refusal::number);
        assert_eq!(drawn, judged);
        let called = service.infer(0, &sheet).map(drop).map_err(Refusal::number);
        assert!(called == Err(10) || called == judged.map(drop), "1 to 8 are those of the call");
    }
}

/// 1 to 8 as the call gives them, then 9; never 10.
#[test]
fn refusals() {
    let (sheet, _) = text::parse(WORKED_OUT[6].0).unwrap();
    let good = sheet.words();
    let full = whole(WORKED_OUT[6].1).len();
    assert_eq!(Service::new().infer(0, &good).unwrap_err(), Refusal::Apply);
    let past = past_limit(&mut Random::new(1), Limit::Renders).words();
    let longer = [&good[..], &[0]].concat();
    let blocks = "block 0\nterminal Other at 1\nblock 1\nterminal Other at 1\n";
    let (blocks, _) = text::parse(&format!("identifier a\nreturns a\n{blocks}")).unwrap();
    let mut twice = blocks.words();
    // A block of six words: its number comes first.
    let number = twice.len() - 6;
    twice[number] = 0;
    let long = vec![0; 16_385];
    for (sheet, workspace, room, refusal) in [
        (&good, WORKSPACE_WORDS, full, 0),
        (&good, WORKSPACE_WORDS, full - 1, 9),
        (&good, WORKSPACE_WORDS, 0, 9),
        (&good, WORKSPACE_WORDS - 1, full, 1),
        (&longer, 0, 0, 1),
        (&long, WORKSPACE_WORDS, 0, 2),
        (&good[..good.len() - 1].to_vec(), WORKSPACE_WORDS, 0, 3),
        (&[&[3], &good[1..]].concat(), WORKSPACE_WORDS, 0, 4),
        (&[&[2, 7], &good[2..]].concat(), WORKSPACE_WORDS, 0, 5),
        (&twice, WORKSPACE_WORDS, 0, 6),
        (&longer, WORKSPACE_WORDS, 0, 7),
        (&past, WORKSPACE_WORDS, 0, 8),
    ] {
        assert_eq!(lent(sheet, workspace, room).0.refusal, refusal);
    }
}

/// As many edges as there may be, with lines as long as they get: 1,024 captures between identifiers of
/// three digits, after 512 mutations and 256 renders. 232 indexes still have three digits.
#[test]
fn long() {
    let mut sheet = SheetBuilder::new();
    let ids: Vec<IdentifierId> = (0..limits::IDENTIFIERS)
        .map(|_| sheet.identifier(Identifier::default()).unwrap())
        .collect();
    let [a, b] = [ids[510], ids[511]].map(Place::of);
    sheet.param(a).unwrap();
    sheet.block(BlockId(0)).unwrap();
    let mut effects = vec![AliasingEffect::Mutate { value: a, reason: None }; limits::MUTATIONS];
    effects.extend(vec![AliasingEffect::Render { place: a }; limits::RENDERS]);
    effects.extend(vec![AliasingEffect::Capture { from: a, into: b }; limits::HELD]);
    for (order, some) in (1..).zip(effects.chunks(limits::COUNT)) {
        sheet.instruction(EvaluationOrder(order)).unwrap();
        some.iter().for_each(|&effect| sheet.effect(effect).unwrap());
    }
    sheet.terminal(Terminal::Other { order: EvaluationOrder(9) }).unwrap();
    let words = sheet.finish(b).unwrap().words();
    let drawn = Service::new().dot(&words).unwrap();
    assert_eq!(drawn.lines().count(), 2 + 2 + limits::HELD);
    assert!(drawn.ends_with("  n510 -> n511 [label=\"capture 1791\"];\n}\n"));
    assert_eq!(drawn.len(), 12 + 2 * 8 + 1_024 * 39 - 232 + 2);
    assert!(drawn.len() < limits::DRAWING);
    assert_eq!(limits::DRAWING, 44_046);
}
