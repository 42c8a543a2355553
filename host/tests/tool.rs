//! The program `sheet`.

use std::path::PathBuf;
use std::process::{Command, Output};

use oracle::cases::ANSWER_1;

fn sheet(args: &[&str]) -> Output {
    let examples = PathBuf::from(env!("CARGO_MANIFEST_DIR")).join("../examples");
    Command::new(env!("CARGO_BIN_EXE_sheet")).args(args).current_dir(examples).output().unwrap()
}

fn out(args: &[&str]) -> Vec<u8> {
    let output = sheet(args);
    assert!(output.status.success(), "{output:?}");
    assert!(output.stderr.is_empty(), "{output:?}");
    output.stdout
}

fn fault(args: &[&str]) -> String {
    let output = sheet(args);
    assert_eq!(output.status.code(), Some(1), "{output:?}");
    String::from_utf8(output.stderr).unwrap()
}

/// A file of its own for a test.
fn file(name: &str, bytes: &[u8]) -> String {
    let path = PathBuf::from(env!("CARGO_TARGET_TMPDIR")).join(name);
    std::fs::write(&path, bytes).unwrap();
    path.to_str().unwrap().to_string()
}

#[test]
fn words_and_text() {
    let words = std::fs::read(concat!(env!("CARGO_MANIFEST_DIR"), "/../examples/case1.sheet"));
    let words = words.unwrap();
    assert_eq!(out(&["words", "case1.txt"]), words);
    let text = file("numbered.txt", &out(&["text", "case1.sheet"]));
    assert_eq!(out(&["words", &text]), words);
    let copy = file("copy.sheet", b"");
    assert!(out(&["words", "case1.txt", "-o", &copy]).is_empty());
    assert_eq!(std::fs::read(&copy).unwrap(), words);
    // Zeros at the end of a cut last word are filled in.
    let cut = file("cut.sheet", &words[..words.len() - 3]);
    assert_eq!(out(&["text", &cut]), out(&["text", "case1.sheet"]));
}

#[test]
fn explained() {
    let text = String::from_utf8(out(&["explain", "panel.txt"])).unwrap();
    assert!(text.starts_with(
        "props  0..0 -> 1..7\n    \
         MutateTransitive rows span 88, instruction at 6 in block 2 (index 4) \
         changes rows and all that it has captured\n    \
         -> rows.given, of which rows is an alias: \
         phi rows in block 2, operand from block 1 (index 3)\n    \
         -> props, from which rows.given was created, and all that it has captured: \
         CreateFrom props into rows.given, instruction at 4 in block 1 (index 1)\n    \
         start 1: it was 0, and the instruction at 1 in block 0 has it as an operand\n"
    ));
    assert!(text.contains(
        "length  0..0 -> 6..7\n    \
         end 7: it was 0, and the instruction at 6 in block 2 has it as an lvalue\n    \
         start 6: it was 0, and the instruction at 6 in block 2 has it as an lvalue\n"
    ));
    assert!(text.ends_with(
        "result  0..0, not moved\n\
         param props  Definite (MutateTransitive)\n    \
         MutateTransitive rows span 88, instruction at 6 in block 2 (index 4) \
         changes rows and all that it has captured\n    \
         -> rows.given, of which rows is an alias: \
         phi rows in block 2, operand from block 1 (index 3)\n    \
         -> props, from which rows.given was created, and all that it has captured: \
         CreateFrom props into rows.given, instruction at 4 in block 1 (index 1)\n\
         Not exact here (a phi): chains may lead to a place that its kinds do not show.\n\
         8 of 9 ends moved, 3 of them by the pass over operands. Ranges, walks and reports made \
         here agree with the library's answer.\n"
    ));
    let words = String::from_utf8(out(&["explain", "case1.sheet"])).unwrap();
    assert!(words.starts_with("x0  0..0 -> 1..3\n"), "{words}");
}

/// What `explain` says of context and parameters: the lines between those of the ranges and the last.
fn sure(path: &str) -> String {
    let text = String::from_utf8(out(&["explain", path])).unwrap();
    let lines = text
        .lines()
        .skip_while(|line| !line.starts_with("context ") && !line.starts_with("param "));
    let mut lines: Vec<&str> = lines.collect();
    lines.pop();
    lines.join("\n")
}

const EXACT: &str = "Exact here (no phi, every mutation transitive): to a Conditional place no \
                     Definite mutation leads without a maybe-alias step, to one not reported no \
                     mutation leads.";

/// Whether a parameter's mutation is Definite or Conditional, with the chain.
#[test]
fn how_sure() {
    let expected = format!(
        "param props  Definite (MutateTransitive)\n    \
         MutateTransitive list span 60, instruction at 3 in block 0 (index 2) \
         changes list and all that it has captured\n    \
         -> row, which list has captured: \
         Capture row into list, instruction at 2 in block 0 (index 1)\n    \
         -> props, from which row was created, and all that it has captured: \
         CreateFrom props into row, instruction at 1 in block 0 (index 0)\n\
         param cache  Conditional (MutateTransitiveConditionally)\n    \
         MutateTransitive found span 98, instruction at 5 in block 0 (index 4) \
         changes found and all that it has captured\n    \
         -> cache, of which found may be an alias, so perhaps: \
         MaybeAlias cache into found, instruction at 4 in block 0 (index 3)\n\
         param theme  not reported\n{EXACT}"
    );
    assert_eq!(sure("sure.txt"), expected);

    // Each place has its lines: context first, a parameter that is listed twice. The Definite mutation
    // is named although a Conditional one came before it; forwards over a MaybeAlias it is Conditional.
    let text = "identifier a\nidentifier b\nidentifier c\ncontext a\nparam b\nparam a\nreturns c\n\
                block 0\ninstruction at 1\nMaybeAlias a into b\nMutateTransitiveConditionally a\n\
                MutateTransitive a\nterminal Other at 2\n";
    let of_a = "  Definite (MutateTransitive)\n    \
                MutateTransitive a, instruction at 1 in block 0 (index 2) \
                changes a and all that it has captured\n";
    let expected = format!(
        "context a{of_a}\
         param b  Conditional (MutateTransitiveConditionally)\n    \
         MutateTransitiveConditionally a, instruction at 1 in block 0 (index 1) \
         may change a and all that it has captured\n    \
         -> b, which may be an alias of a, so perhaps: \
         MaybeAlias a into b, instruction at 1 in block 0 (index 0)\n\
         param a{of_a}{EXACT}"
    );
    assert_eq!(sure(&file("sure-places.txt", text.as_bytes())), expected);

    // A longer chain of aliases beside a short one with a MaybeAlias; the alias of d comes too late.
    let text = "identifier a\nidentifier b\nidentifier c\nidentifier d\nparam a\nparam d\nreturns c\n\
                block 3\ninstruction at 4\nCreate b\nCreate c\nMaybeAlias a into c\nAlias a into b\n\
                Alias b into c\nMaybeAlias d into c\nMutateTransitive c\nAlias d into c\n\
                terminal Other at 5\n";
    let mutated = "    MutateTransitive c, instruction at 4 in block 3 (index 4) \
                   changes c and all that it has captured\n";
    let expected = format!(
        "param a  Definite (MutateTransitive)\n{mutated}    \
         -> b, of which c is an alias: Alias b into c, instruction at 4 in block 3 (index 2)\n    \
         -> a, of which b is an alias: Alias a into b, instruction at 4 in block 3 (index 1)\n\
         param d  Conditional (MutateTransitiveConditionally)\n{mutated}    \
         -> d, of which c may be an alias, so perhaps: \
         MaybeAlias d into c, instruction at 4 in block 3 (index 3)\n{EXACT}"
    );
    assert_eq!(sure(&file("sure-longer.txt", text.as_bytes())), expected);
}

/// Sheets that order 8 does not speak of: what is reported and why, and no more. A place can have two
/// reports.
#[test]
fn not_exact() {
    let text = "identifier a\nidentifier b\nidentifier c\nparam a\nparam b\nreturns c\n\
                block 0\nphi c\ninstruction at 1\nCreateFrom a into a\nCapture b into a\n\
                Mutate a reason AssignCurrentProperty\nMutateTransitiveConditionally a\n\
                terminal Other at 2\n";
    let expected = "param a  Definite (Mutate)\n    \
                    Mutate a reason AssignCurrentProperty, instruction at 1 in block 0 (index 2) \
                    changes a\n\
                    param a  Conditional (MutateTransitiveConditionally)\n    \
                    MutateTransitiveConditionally a, instruction at 1 in block 0 (index 3) \
                    may change a and all that it has captured\n\
                    param b  Conditional (MutateTransitiveConditionally)\n    \
                    MutateTransitiveConditionally a, instruction at 1 in block 0 (index 3) \
                    may change a and all that it has captured\n    \
                    -> b, which a has captured: \
                    Capture b into a, instruction at 1 in block 0 (index 1)\n\
                    Not exact here (a phi, a mutation that is not transitive): chains may lead to a \
                    place that its kinds do not show.";
    assert_eq!(sure(&file("not-exact.txt", text.as_bytes())), expected);
    // A local mutation alone: a chain leads to b, by a step that makes it transitive.
    let text = text.replace("phi c\n", "").replace("MutateTransitiveConditionally a\n", "");
    let expected = "param a  Definite (Mutate)\n    \
                    Mutate a reason AssignCurrentProperty, instruction at 1 in block 0 (index 2) \
                    changes a\n\
                    param b  not reported\n\
                    Not exact here (a mutation that is not transitive): chains may lead to a place \
                    that its kinds do not show.";
    assert_eq!(sure(&file("not-exact.txt", text.as_bytes())), expected);
}

#[test]
fn answered() {
    assert_eq!(String::from_utf8(out(&["answer", "case1.sheet"])).unwrap(), ANSWER_1);
    assert_eq!(String::from_utf8(out(&["answer", "case1.txt"])).unwrap(), ANSWER_1);
    let copy = file("answer.txt", b"");
    assert!(out(&["answer", "-o", &copy, "case1.txt"]).is_empty());
    assert_eq!(std::fs::read_to_string(&copy).unwrap(), ANSWER_1);
}

#[test]
fn help_and_version() {
    let version = concat!("sheet ", env!("CARGO_PKG_VERSION"), "\n");
    for flag in ["--version", "-V"] {
        assert_eq!(String::from_utf8(out(&[flag])).unwrap(), version);
    }
    for args in [&["--help"][..], &["-h"], &["text", "case1.sheet", "--help"]] {
        let text = String::from_utf8(out(args)).unwrap();
        assert!(text.starts_with("usage: sheet text FILE"), "{text}");
        for command in ["words", "answer", "explain", "dot", "load", "--help", "--version"] {
            assert!(text.contains(&format!("\n       sheet {command}")), "{command}");
        }
    }
}

/// A faulty command is answered by what is wrong with it, and the usage.
#[test]
fn faulty_commands() {
    for (args, message) in [
        (&[][..], "expected a command"),
        (&["draw", "case1.txt"], "unknown command `draw`"),
        (&["text"], "expected a FILE after `text`"),
        (&["text", "case1.sheet", "case1.txt"], "expected one FILE, found `case1.txt` too"),
        (&["text", "--quiet", "case1.sheet"], "unknown flag `--quiet`"),
        (&["text", "case1.sheet", "-x"], "unknown flag `-x`"),
        (&["text", "case1.sheet", "-o"], "expected a file name after -o"),
        (&["text", "case1.sheet", "-o", "a", "-o", "b"], "-o is given twice"),
        (&["text", "case1.sheet", "--text"], "--text goes with `load` only"),
        (&["load"], "expected SEED, N and M after `load`, found no SEED"),
        (&["load", "1", "2"], "expected SEED, N and M after `load`, found no M"),
        (&["load", "1", "2", "3", "4"], "expected SEED, N and M, found `4` too"),
        (&["load", "1", "two", "3"], "expected N, a number from 0 to 4294967295, found `two`"),
        (
            &["load", "4294967296", "2", "3"],
            "expected SEED, a number from 0 to 4294967295, found `4294967296`",
        ),
    ] {
        let output = sheet(args);
        assert_eq!(output.status.code(), Some(2), "{args:?}");
        assert!(output.stdout.is_empty(), "{args:?}");
        let text = String::from_utf8(output.stderr).unwrap();
        assert!(text.starts_with(&format!("sheet: {message}\n\nusage: sheet ")), "{text}");
    }
}

/// The graph as a DOT file, of either form.
#[test]
fn drawn() {
    let lines = "digraph g {\n  n0;\n  n1;\n  n2;\n  \
                 n0 -> n1 [label=\"capture 0\"];\n  n1 -> n2 [label=\"alias 2\"];\n}\n";
    assert_eq!(String::from_utf8(out(&["dot", "case1.sheet"])).unwrap(), lines);
    assert_eq!(String::from_utf8(out(&["dot", "case1.txt"])).unwrap(), lines);
    let copy = file("case1.dot", b"");
    assert!(out(&["dot", "case1.txt", "-o", &copy]).is_empty());
    assert_eq!(std::fs::read_to_string(&copy).unwrap(), lines);
    // Apply is drawn; what the sheet is refused with otherwise is said as for an answer.
    let head = "identifier a\nreturns a\nblock 0\ninstruction at 1\n";
    let apply = file("drawn-apply.txt", format!("{head}Apply\nterminal Other at 2\n").as_bytes());
    assert_eq!(String::from_utf8(out(&["dot", &apply])).unwrap(), "digraph g {\n  n0;\n}\n");
    let many = format!("{head}{}terminal Other at 2\n", "Render a\n".repeat(257));
    let many = file("drawn-totals.txt", many.as_bytes());
    assert_eq!(
        fault(&["dot", &many]),
        format!("sheet: {many}: refused 8: the sheet has 257 renders, at most 256\n")
    );
    let faulty = file("drawn-faulty.sheet", &[2, 0, 0, 0, 7, 0, 0, 0]);
    assert_eq!(fault(&["dot", &faulty]), fault(&["answer", &faulty]));
    assert!(fault(&["dot", &faulty]).contains("refused 5: word 1: expected the flag"));
}

/// A class load, as text and as words; the words are worked out from document 02 in loads.rs.
#[test]
fn class_loads() {
    let text = "flags validations\n\
                identifier x0\n\
                identifier x1\n\
                identifier x2\n\
                param x0\n\
                returns x2\n\
                block 0\n  \
                instruction at 1\n    \
                Assign x2 into x1\n  \
                instruction at 2\n    \
                Assign x0 into x0\n  \
                instruction at 3\n    \
                Alias x0 into x0\n  \
                instruction at 4\n    \
                Assign x0 into x2\n  \
                terminal Other at 5\n";
    assert_eq!(String::from_utf8(out(&["load", "1", "3", "4", "--text"])).unwrap(), text);
    let words = out(&["load", "1", "3", "4"]);
    assert_eq!(words.len(), 4 * (21 + 3 * 3 + 16 * 4));
    assert_eq!(words, out(&["words", &file("load.txt", text.as_bytes())]));
    let copy = file("load.sheet", b"");
    assert!(out(&["load", "-o", &copy, "1", "3", "4"]).is_empty());
    assert_eq!(std::fs::read(&copy).unwrap(), words);
    assert!(out(&["load", "4294967295", "512", "512", "-o", &copy]).is_empty());
    assert!(out(&["answer", &copy]).starts_with(b"ranges 512 "));
    let explained = String::from_utf8(out(&["explain", &copy])).unwrap();
    assert!(explained.ends_with("agree with the library's answer.\n"), "{explained}");
}

/// The library's refusal, with the number that is outside.
#[test]
fn refused_loads() {
    let n = |number: &str| format!(" N is from 2 to 512, found {number}.");
    let m = |number: &str| format!(" M is from 1 to 512, found {number}.");
    for (args, which) in [
        (["7", "1", "1"], n("1")),
        (["7", "65538", "1"], n("65538")),
        (["7", "2", "0"], m("0")),
        (["7", "2", "4294967295"], m("4294967295")),
        (["7", "513", "513"], n("513") + &m("513")),
    ] {
        let [seed, n, m] = args;
        for more in [&[][..], &["--text"]] {
            assert_eq!(
                fault(&[&["load", seed, n, m], more].concat()),
                format!(
                    "sheet: load {seed} {n} {m}: refused 5: A word is outside its range.{which}\n"
                )
            );
        }
    }
}

/// Text in another encoding is named as such, whatever is asked for.
#[test]
fn other_encodings() {
    let text = "flags none\nidentifier a\nreturns a\n";
    let marked = [b"\xef\xbb\xbf", text.as_bytes()].concat();
    let wide = |order: fn(u16) -> [u8; 2], mark: &str| -> Vec<u8> {
        format!("{mark}{text}").encode_utf16().flat_map(order).collect()
    };
    let utf16 = "UTF-16 (save the text as UTF-8)";
    let utf16_mark = "the byte order mark of UTF-16 (save the text as UTF-8)";
    for (name, bytes, found) in [
        ("mark.txt", marked, "a byte order mark (save the text without one)"),
        ("low.txt", wide(u16::to_le_bytes, ""), utf16),
        ("high.txt", wide(u16::to_be_bytes, ""), utf16),
        ("low-mark.txt", wide(u16::to_le_bytes, "\u{feff}"), utf16_mark),
        ("high-mark.txt", wide(u16::to_be_bytes, "\u{feff}"), utf16_mark),
    ] {
        let path = file(name, &bytes);
        for command in ["text", "words", "answer", "explain", "dot"] {
            let message = format!("expected words or text in UTF-8, found {found}\n");
            assert_eq!(fault(&[command, &path]), format!("sheet: {path}: {message}"));
        }
    }
    let latin = file("latin.txt", b"identifier a\n# caf\xe9\nreturns a\n");
    assert_eq!(
        fault(&["words", &latin]),
        format!("sheet: {latin}: line 2: expected text in UTF-8, found the byte 0xe9\n")
    );
}

/// Refusals about the sheet as a whole come with the numbers behind them.
#[test]
fn refusals_of_the_whole() {
    let head = "identifier a\nreturns a\nblock 0\ninstruction at 1\n";
    let text = |line: &str, times: usize| head.to_string() + &format!("{line}\n").repeat(times);
    let one = "terminal Other at 2\n";
    let totals = [
        (text("Mutate a", 513) + one, "513 mutations, at most 512"),
        (text("Render a", 257) + one, "257 renders, at most 256"),
        (
            text("Alias a into a", 1_024) + "terminal Return a at 2\n",
            "1025 forward edges held together, at most 1024",
        ),
    ];
    for (text, message) in &totals {
        let path = file("totals.txt", text.as_bytes());
        let message = format!("sheet: {path}: refused 8: the sheet has {message}\n");
        assert_eq!(fault(&["answer", &path]), message);
        assert_eq!(fault(&["explain", &path]), message);
        // Its words can be had all the same, and read again.
        let output = sheet(&["words", &path]);
        assert!(output.status.success());
        assert_eq!(String::from_utf8(output.stderr).unwrap(), message);
        let words = file("totals.sheet", &output.stdout);
        assert_eq!(fault(&["answer", &words]), message.replace("totals.txt", "totals.sheet"));
    }
    // Cut behind the word that passes, it cannot be read; the total is the news all the same.
    let path = file("totals.txt", totals[1].0.as_bytes());
    let words = sheet(&["words", &path]).stdout;
    let cut = file("cut.sheet", &words[..words.len() - 4]);
    let message = "refused 8: word 2074 (block 1 of 1, instruction 1 of 1, effect 257 of 257): \
                   expected at most 256 renders, found one more";
    for command in ["answer", "explain", "text"] {
        assert_eq!(fault(&[command, &cut]), format!("sheet: {cut}: {message}\n"));
    }
    let long = text("Freeze a", 1_018) + "instruction at 2\n";
    let path = file("long.txt", (long + &"Freeze a\n".repeat(1_024) + one).as_bytes());
    let words = 3 + 4 + 1 + 1 + 1 + 4 + 1 + 2 + 1 + 8 + 8 + 8 * 2_042 + 3;
    assert_eq!(words, 16_373);
    assert!(sheet(&["answer", &path]).status.success());
    let more =
        std::fs::read_to_string(&path).unwrap().replace(one, "instruction at 3\nFreeze a\n") + one;
    let path = file("long.txt", more.as_bytes());
    assert!(fault(&["answer", &path]).ends_with("at most 16384 words, this one 16389\n"));
    assert_eq!(
        fault(&["explain", &path]),
        format!("sheet: {path}: refused 2: the sheet has 16389 words, at most 16384\n")
    );
    let apply = file("apply.txt", (text("Mutate a", 1) + "Apply\n" + one).as_bytes());
    let message = "refused 10: the sheet has Apply, instruction at 1 in block 0";
    assert_eq!(fault(&["answer", &apply]), format!("sheet: {apply}: {message}\n"));
    assert_eq!(fault(&["explain", &apply]), format!("sheet: {apply}: {message}\n"));
}

#[test]
fn faults() {
    assert!(fault(&["text", "nothing.sheet"]).starts_with("sheet: nothing.sheet: No such file"));
    assert_eq!(fault(&["text", "case1.txt"]), "sheet: case1.txt: expected words, found text\n");
    assert_eq!(
        fault(&["words", "case1.sheet"]),
        "sheet: case1.sheet: expected text, found words\n"
    );
    let misspelt = file("misspelt.txt", b"identifier a\nparam a\nreturn a\n");
    let message = fault(&["explain", &misspelt]);
    let start = "misspelt.txt: line 3: expected a line that begins with flags, identifier, ";
    assert!(message.contains(start), "{message}");
    assert!(message.ends_with(", found `return`; did you mean `returns`?\n"), "{message}");
    let large = file("large.txt", b"identifier a range 0 4294967296\nreturns a\n");
    assert_eq!(
        fault(&["words", &large]),
        format!("sheet: {large}: line 1: 4294967296 is too large for the range's end\n")
    );
    let faulty = file("faulty.sheet", &[2, 0, 0, 0, 7, 0, 0, 0]);
    assert!(fault(&["explain", &faulty]).ends_with(
        "refused 5: word 1: expected the flag of a function expression, at most 1, found 7\n"
    ));
}
