#!/usr/bin/env python3
"""Sheets written by docs/FORMAT.md alone, in plain Python, and what is answered.

    host/format_test.py SHEET [RANGES]    SHEET is the tool `sheet`, RANGES the program `ranges`
    host/format_test.py --write FILE      only write the sheet with every part to a file

The numbers are read from the tables of the page, so that a wrong one there fails here. host/test
runs this.
"""
import os
import re
import struct
import subprocess
import sys

ROOT = os.path.join(os.path.dirname(os.path.abspath(__file__)), "..")
with open(os.path.join(ROOT, "docs/FORMAT.md"), encoding="utf8") as page:
    PAGE = page.read().splitlines()


# ---- the page's tables

def cells(line):
    return [cell.strip() for cell in line.strip("|").split("|")]


def table(*head):
    """The rows of the table whose head begins with these cells."""
    tables = [i for i, line in enumerate(PAGE) if line.startswith("|") and cells(line)[:len(head)] == list(head)]
    assert len(tables) == 1, f"docs/FORMAT.md has {len(tables)} tables {head}"
    rows = []
    for line in PAGE[tables[0] + 2:]:
        if not line.startswith("|"):
            return rows
        rows.append(cells(line))
    return rows


def number(text):
    return int(text.replace(",", ""))


def numbers_by_name(head):
    rows = table(head, "name")
    assert [number(row[0]) for row in rows] == list(range(len(rows))), head
    return {row[1]: number(row[0]) for row in rows}


TYPE = numbers_by_name("type")
EFFECT = numbers_by_name("effect")
TERMINAL = numbers_by_name("terminal")
INSTRUCTION = numbers_by_name("value")
KIND = numbers_by_name("kind")
REASON = numbers_by_name("reason")
VALUE = numbers_by_name("value kind")
PLACES = {row[1]: number(row[2]) for row in table("kind", "name")}
MOST_EXTRA = {row[1]: number(row[3]) for row in table("kind", "name")}
MOST = {row[0]: row[1] for row in table("word", "at most")}
TOTAL = {row[0]: number(row[1]) for row in table("total", "at most")}
HELD = {row[0]: number(row[1]) for row in table("held together", "at most")}
# Both the sheet and the answer have a table that begins so; the sheet's is the first.
COUNT = {}
for row in (cells(line) for line in PAGE[PAGE.index("| section | count | a part |") + 2:]):
    if len(row) < 3:
        break
    COUNT[row[0]] = number(row[1].replace("at most ", ""))
TEXT = " ".join(PAGE)


def said_once(pattern):
    """The number that the page has at this place of its text."""
    found = re.findall(pattern, TEXT)
    assert len(found) == 1, f"docs/FORMAT.md has {found} for {pattern}"
    return number(found[0])


REACTIVE = said_once(r"plus ([\d,]+) if the place is reactive")
CREATE = said_once(r"\| ([\d,]+) × reason \+ value kind")
ASSIGN_CURRENT_PROPERTY = said_once(r"\| ([\d,]+) is AssignCurrentProperty")
FUNCTION_DIAGNOSTICS = said_once(r"a count, at most ([\d,]+), and so many diagnostics")
LIST = said_once(r"A \*\*list of effects\*\* is a count, at most ([\d,]+),")
ABSENT = said_once(r"the count is then ([\d,]+), and no effects follow")
PLACE_LIST = said_once(r"A \*\*list of places\*\* is a count, at most ([\d,]+),")
for part in ("phis", "operands", "instructions"):
    assert LIST == said_once(rf"[Aa] count of {part}, at most ([\d,]+),"), part


# ---- the words of each part

def place(identifier, effect="Unknown", reactive=False, span=0):
    return [identifier, EFFECT[effect] + (REACTIVE if reactive else 0), span]


def effect(kind, *places, extra=0):
    assert len(places) == PLACES[kind] and extra <= MOST_EXTRA[kind]
    words = [KIND[kind]] + sum(places, [])
    return words + [0] * (7 - len(words)) + [extra]


def diagnosis(kind, place, identity, instance):
    """MutateFrozen, MutateGlobal or Impure."""
    words = effect(kind, place, extra=identity)
    words[4] = instance
    return words


def create(into, value, reason):
    return effect("Create", into, extra=CREATE * REASON[reason] + VALUE[value])


def counted(parts):
    """A count and the parts behind it."""
    return [len(parts)] + sum(parts, [])


def phi(place, *operands):
    """The operands are pairs: the predecessor's number and a place."""
    return place + counted([[predecessor] + operand for predecessor, operand in operands])


def inner(diagnostics=(), context=()):
    """An inner function; each diagnostic is [identity, instance]."""
    return counted(diagnostics) + counted(context)


def instruction(order, *effects, lvalue=(0, 0, 0), lvalues=(), operands=(), function=None, stores=None, absent=False):
    """With `absent` it has no list of effects."""
    value = [INSTRUCTION["Plain"]]
    if function is not None:
        value = [INSTRUCTION["Function"], function]
    if stores is not None:
        value = [INSTRUCTION["StoreContext"], stores]
    listed = [ABSENT] if absent else counted(effects)
    return [order] + list(lvalue) + counted(lvalues) + counted(operands) + value + listed


def other(order, *operands):
    return [TERMINAL["Other"], order] + counted(operands)


def returned(order, value, *effects):
    return [TERMINAL["Return"], order] + value + counted(effects) + [0]


def maybe_throw(order, *effects):
    return [TERMINAL["MaybeThrow"], order] + counted(effects) + [0]


def block(number, phis, instructions, terminal):
    return [number] + counted(phis) + counted(instructions) + terminal


def sheet(identifiers, returns, blocks=(), functions=(), params=(), context=(), flags=(0, 1)):
    """Identifiers are (start, end, type), functions the words of `inner`."""
    return (
        counted([[flag] for flag in flags])
        + counted([[start, end, TYPE[kind]] for start, end, kind in identifiers])
        + counted(functions)
        + counted(params)
        + counted(context)
        + counted([returns])
        + counted(blocks)
    )


# ---- running

TOOL = RANGES = None


def run(program, data):
    return subprocess.run(program, input=data, capture_output=True, check=False)


def answer_of_bytes(data):
    """The ten lines, or the refusal's number."""
    done = run([TOOL, "answer", "-"], data)
    if done.returncode == 0:
        assert done.stderr == b"", done.stderr
        said = done.stdout.decode()
    else:
        said = "refused " + re.match(r"sheet: -: refused (\d+): ", done.stderr.decode())[1] + "\n"
    if RANGES:
        ranges = run([RANGES], data).stdout.decode()
        # The program lends 16,384 words.
        assert ranges == said or ranges == "refused 9\n" and len(said.split()) - 10 > 16_384, (ranges, said)
    return said.splitlines() if done.returncode == 0 else int(said.split()[1])


def bytes_of(words):
    return struct.pack(f"<{len(words)}I", *words)


def answer(words):
    return answer_of_bytes(bytes_of(words))


def check(said, expected, what):
    if said != expected:
        sys.exit(f"format: {what}:\n  said     {said}\n  expected {expected}")


# ---- a sheet with every part

# Identifiers.
PROPS, THEME, LIST_, SHOWN, PICKED, LABEL, RESULT, CHANGED, ITEM, REST = range(10)
# Inner functions, by position.
F0, F1 = range(2)

EVERY_PART = sheet(
    flags=(0, 1),
    identifiers=[
        (0, 0, "Other"),  # props
        (0, 0, "Other"),  # theme
        (1, 3, "Other"),  # list
        (0, 0, "Other"),  # shown
        (0, 0, "Other"),  # picked
        (5, 6, "Primitive"),  # label
        (0, 0, "Jsx"),  # result
        (0, 0, "Other"),  # changed
        (0, 0, "Other"),  # item
        (0, 1_000_000, "Other"),  # rest
    ],
    functions=[
        inner([[500, 31], [501, 30]], [place(LIST_, "Mutate", reactive=True, span=21), place(THEME, span=22)]),
        inner([[600, 0]], [place(PROPS, "Store", span=23)]),
    ],
    params=[place(PROPS, "Read", reactive=True, span=11), place(REST, "Store", span=12)],
    context=[place(THEME, "ConditionallyMutate", span=13)],
    returns=place(RESULT, "Freeze", reactive=True, span=14),
    blocks=[
        block(
            10,
            [],
            [
                instruction(
                    1,
                    create(place(LIST_), "Mutable", "KnownReturnSignature"),
                    effect("Capture", place(PROPS), place(LIST_, "Store")),  # index 0
                    lvalue=place(LIST_, "Store", span=31),
                    operands=[place(PROPS, reactive=True, span=32)],
                ),
                instruction(
                    2,
                    effect("CreateFunction", place(SHOWN), extra=F0),
                    effect("CreateFunction", place(CHANGED), extra=F1),
                    effect("Capture", place(CHANGED), place(LIST_)),  # 1
                    lvalue=place(SHOWN),
                    function=F0,
                ),
                instruction(
                    3,
                    effect("CreateFrom", place(THEME), place(ITEM)),  # 2
                    effect("MutateConditionally", place(ITEM, "ConditionallyMutate", span=70)),  # 3
                    lvalue=place(ITEM),
                    lvalues=[place(LABEL, "Read")],
                    operands=[place(THEME)],
                ),
            ],
            other(4, place(PICKED, "Store", reactive=True)),
        ),
        block(
            20,
            [
                phi(
                    place(PICKED, span=4_294_967_295),
                    (10, place(PROPS, "Read", reactive=True)),  # 4
                    (30, place(LIST_, "Capture")),  # 5, stored at the end of block 30
                )
            ],
            [
                instruction(
                    5,
                    create(place(LABEL), "Primitive", "StoreLocal"),
                    diagnosis("Impure", place(LABEL, "Read", span=75), 700, 65_535),
                    lvalue=place(LABEL),
                ),
                instruction(
                    6,
                    effect("MutateTransitive", place(PICKED, "Mutate", span=77)),  # 6
                    lvalue=place(RESULT),
                    lvalues=[place(CHANGED, "Read", span=41)],
                    operands=[place(CHANGED, span=42), place(ITEM, "Mutate")],
                    stores=ITEM,
                ),
            ],
            maybe_throw(
                7,
                effect("Alias", place(CHANGED), place(SHOWN)),  # 7
                effect("Freeze", place(LABEL), extra=REASON["JsxCaptured"]),
            ),
        ),
        block(
            30,
            [],
            [
                instruction(
                    7,
                    lvalue=place(SHOWN, span=51),
                    operands=[place(REST, "Mutate", reactive=True, span=52), place(SHOWN)],
                    stores=SHOWN,
                    absent=True,
                ),
                instruction(7, lvalue=place(LIST_), function=F1, absent=True),
                instruction(
                    8,
                    effect("Render", place(SHOWN, "Read", reactive=True, span=88)),  # 8
                    effect("Mutate", place(REST, "Mutate", span=99), extra=ASSIGN_CURRENT_PROPERTY),  # 9
                    lvalue=place(REST),
                    operands=[place(SHOWN), place(REST)],
                )
            ],
            returned(
                9,
                place(PICKED, "Freeze"),  # 10
                effect("Alias", place(LABEL), place(RESULT)),  # 11
            ),
        ),
    ],
)

# Its answer, by hand. Relation effects, mutations and renders take the indices that stand behind
# them. Each relation is a forward edge at "from" and an entry at "into"; edges and entries are
# written with their index:
#
#   node     edges                    entries
#   props    list 0, picked 4
#   theme    item 2
#   list     picked 5                 captures props 0, changed 1
#   shown                             aliases changed 7
#   picked   result 10                aliases props 4, list 5     (a phi)
#   label    result 11
#   result                            aliases picked 10, label 11
#   changed  list 1, shown 7
#   item                              created from theme 2
#
# A walk takes the entry pushed last, and a node once for each kind. It follows what has a lower
# index than its mutation. `-` marks an entry that is skipped.
#
# Mutation 3 (conditional, item, order 3, span 70): item pushes theme, from which it was created,
#   now transitive; theme pushes item; item-. 3 entries. Ends of item and theme: 4.
# Mutation 6 (transitive, picked, order 6, span 77): picked pushes props, list (not result, 10);
#   list pushes picked, props, changed; changed hands over its diagnostic 600/0 and pushes list (not
#   shown, 7); list-, props pushes list, picked; picked-, list-, picked-, props-. 9 entries. Ends of
#   picked, list, changed and props: 7.
# Mutation 9 (rest, order 8, span 99, AssignCurrentProperty): 1 entry. The end of rest stays
#   1,000,000, which is more than 9.
# Render 8 (shown): has no record, hands over 500/31 and 501/30, and pushes changed, which has a record and
#   is passed by.
#
# Then the simulated walks, which follow all relations.
# props (index 12): props pushes list, picked; picked, a phi arrived at forwards, pushes result;
#   result pushes picked, label; label pushes result; result-, picked-, list pushes picked, props,
#   changed; changed pushes list, shown; shown pushes changed; changed-, list-, props-, picked-.
#   13 entries. Neither rest nor theme was met.
# rest (13): 1 entry.
# theme (14): theme, item, theme-. 3 entries.
# result (15): result pushes picked, label; label pushes result; result-, picked, arrived at
#   backwards, pushes result, props, list; list pushes picked, props, changed; changed pushes list,
#   shown; shown pushes changed; changed-, list-, props pushes list, picked; picked-, list-,
#   picked-, props-, result-. 15 entries. props was met: Alias from props into result.
#
# Then the pass over operands, from the ends props 7, theme 4, list 7, shown 0, picked 7, label 6,
# result 0, changed 7, item 4 and rest 1,000,000:
# - At 1: list, whose end is above 1, is Store and so props Capture; props starts at 1.
# - At 2: shown, an lvalue, is 2..3. Of the function that is made, list is Store and theme, not
#   named by the effects, Read; theme starts at 2.
# - At 3: item starts at 3, and is ConditionallyMutate by the last effect that names it; theme is
#   Capture, since item's end is above 3. label has a range.
# - Block 20 begins at 5: picked's end is above it, so that its operands are Capture and it starts
#   at 4.
# - At 6: result is 6..7; changed, a value lvalue, starts at 6. Both operands are Read: item's end is
#   not above 6. Then item is stored, and its end, 4, becomes 7.
# - At 7, twice, there is no list: lvalues are ConditionallyMutate and operands Read. rest does not
#   start, shown is not stored and ends at 3, and what the second inner function uses stays as it is.
# - At 8: rest starts at 8 and is Store; shown, whose end is 3, is Read.
# - The value of Return is Freeze; the other terminal's operand Read, still reactive.
EVERY_PART_ANSWER = [
    "ranges 10 1 7 2 4 1 7 2 3 4 7 5 6 6 7 6 7 3 7 8 1000000",
    # Capture is 3: props stays reactive (8 more).
    "params 2 0 11 11 9 3 12",
    "context 1 1 3 13",
    # Impure's while building, then those handed over by the mutation, then by the render.
    "diagnostics 4 700 65535 600 0 500 31 501 30",
    " ".join(
        [
            "effects 7",
            "16 5 2 75 65535 0 0 700",  # Impure label
            "17 3 10 88 0 0 0 0",  # Render shown
            # Context first, then parameters: the sheet's traits, the mutation's span.
            "4 1 5 70 0 0 0 0",  # MutateTransitiveConditionally theme
            "3 0 10 77 0 0 0 0",  # MutateTransitive props
            "1 9 7 99 0 0 0 1",  # Mutate rest, AssignCurrentProperty
            "9 6 9 14 0 0 0 1",  # Create result: JSX is Frozen
            "6 0 11 11 6 9 14 0",  # Alias props, as marked, into result
        ]
    ),
    "walks 7 3 9 1 13 1 3 15",
    "phis 3 4 7 4294967295 0 11 0 2 3 0",
    " ".join(
        [
            "instructions 18",
            "2 7 31 0 11 32",  # at 1
            "3 5 0",  # at 2
            "8 5 0 5 5 0 1 3 0",  # at 3
            "5 5 0",  # at 5
            "6 5 0 7 5 41 7 2 42 8 2 0",  # at 6
            "3 5 51 9 10 52 3 2 0",  # at 7
            "2 5 0",  # at 7
            "9 7 0 3 2 0 9 7 0",  # at 8
        ]
    ),
    "terminals 2 4 10 0 4 1 0",
    "inner 3 2 15 21 1 2 22 0 7 23",
]


def every_part():
    check(answer(EVERY_PART), EVERY_PART_ANSWER, "the sheet with every part")


# ---- the page's own sheet

def page_example():
    def words(head):
        column = (row[0].strip("`").split() for row in table(head))
        return [int(word) for row in column for word in row]

    example = words("words of the sheet")
    with open(os.path.join(ROOT, "examples/case1.sheet"), "rb") as file:
        check(bytes_of(example), file.read(), "the page's sheet")
    said = answer(example)
    check([int(w) for line in said for w in line.split()[1:]], words("words of the answer"), "the page's answer")
    # A cut last word, of which the bytes that are missing are 0; and one that ends with a flag 1.
    check(answer_of_bytes(bytes_of(example)[:-3]), said, "a cut last word")
    check(answer_of_bytes(b"\2\0\0\0\1"), answer([2, 1]), "a word of one byte")


# ---- every name: the tool writes a sheet's words as text

def names():
    lines, effects = [], []

    def add(line, words):
        lines.append(line)
        effects.append(words)

    def unless_first(word, name, numbers):
        return f" {word} {name}" if numbers[name] else ""

    for name in EFFECT:
        for reactive in (False, True):
            text = f"Render x0{'' if name == 'Unknown' else ' ' + name}{' reactive' if reactive else ''}"
            add(text, effect("Render", place(0, name, reactive)))
    for name in KIND:
        if name == "Apply":
            continue  # in the terminal below
        behind = {"CreateFunction": " function f0"}.get(name, " diagnostic 0/0" if MOST_EXTRA[name] > 100 else "")
        places = ["", " x0", " x0 into x1"][PLACES[name]]
        add(name + places + behind, effect(name, *[place(0), place(1)][:PLACES[name]]))
    for name in REASON:
        add("Freeze x0" + unless_first("reason", name, REASON), effect("Freeze", place(0), extra=REASON[name]))
        for value in VALUE:
            text = unless_first("value", value, VALUE) + unless_first("reason", name, REASON)
            add("Create x0" + text, create(place(0), value, name))
    add("Mutate x0 reason AssignCurrentProperty", effect("Mutate", place(0), extra=ASSIGN_CURRENT_PROPERTY))
    identifiers = [(0, 0, name) for name in TYPE]
    terminals = [other(2, place(1), place(2, "Read")), returned(3, place(0)), maybe_throw(4, effect("Apply"))]
    blocks = [block(i, [], [], terminal) for i, terminal in enumerate(terminals, 1)]
    values = [
        instruction(5, lvalue=place(1), lvalues=[place(0, "Store")], operands=[place(2, span=9)]),
        instruction(6, function=0),
        instruction(7, lvalue=place(0, "Read"), stores=2),
        instruction(9, operands=[place(1)], absent=True),
    ]
    blocks.append(block(4, [], values, other(8)))
    functions = [inner([], [place(1, "Capture"), place(0)])]
    words = sheet(identifiers, place(0), [block(0, [], [instruction(1, *effects)], other(2))] + blocks, functions)
    done = run([TOOL, "text", "-"], bytes_of(words))
    check(done.stderr, b"", "the tool on a sheet with every name")
    text = [line.strip() for line in done.stdout.decode().splitlines()]
    expected = ["flags validations"]
    expected += [f"identifier x{i}" + unless_first("type", name, TYPE) for i, name in enumerate(TYPE)]
    expected += ["function f0 context x1 Capture context x0", "returns x0"]
    expected += ["block 0", "instruction at 1"] + lines + ["terminal Other at 2"]
    expected += ["block 1", "terminal Other at 2", "operand x1", "operand x2 Read"]
    expected += ["block 2", "terminal Return x0 at 3", "block 3", "terminal MaybeThrow at 4", "Apply"]
    expected += ["block 4", "instruction at 5 lvalue x1", "lvalue x0 Store", "operand x2 span 9"]
    expected += ["instruction at 6 function f0", "instruction at 7 lvalue x0 Read StoreContext x2"]
    expected += ["instruction at 9", "operand x1", "no effects"]
    expected += ["terminal Other at 8"]
    check(text, expected, "the names of a sheet's parts")


# ---- every limit, met and passed by one; a sheet that ends with a good word is refused 3

def limits():
    def most(name):
        return number(MOST[name])

    def word(what, before, at_most, refusal, met=3):
        check(answer(before + [at_most]), met, f"{what} {at_most}")
        if at_most < 4_294_967_295:
            check(answer(before + [at_most + 1]), refusal, f"{what} {at_most + 1}")

    def fixed(what, before, count):
        check(answer(before + [count]), 3, f"count of {what}")
        for wrong in (count - 1, count + 1):
            check(answer(before + [wrong]), 4, f"count of {what}")

    def cut(words, count):
        return words[:len(words) - count]

    fixed("flags", [], COUNT["flags"])
    word("flag", [2], most("flag"), 5)
    word("flag", [2, 0], most("flag"), 5)
    head = [2, 0, 1]
    word("identifiers", head, COUNT["identifiers"], 4)
    word("range start", head + [1], most("range start"), 5)
    word("range end", head + [1, 0], most("range end"), 5)
    word("type", head + [1, 0, 0], most("type"), 5)
    check(most("type"), len(TYPE) - 1, "types")
    head += [2, 0, 0, 0, 0, 0, 0]
    word("inner functions", head, COUNT["inner functions"], 4)
    word("an inner function's diagnostics", head + [1], FUNCTION_DIAGNOSTICS, 4)
    word("identity", head + [1, 1], most("a diagnostic's identity"), 5)
    word("instance", head + [1, 1, 0], most("a diagnostic's instance"), 5)
    word("an inner function's context", head + [1, 0], PLACE_LIST, 4)
    word("an inner function's context place", head + [1, 0, 1], 1, 5)
    head += [1, 0, 0]
    word("parameters", head, COUNT["parameters"], 4)
    check(MOST["a place's identifier"], "N - 1", "a place's identifier")
    word("a place's identifier", head + [1], 1, 5)
    word("traits", head + [1, 0], most("traits"), 5)
    check(most("traits"), len(EFFECT) - 1 + REACTIVE, "traits")
    word("span", head + [1, 0, 0], most("span"), 5)
    head += [0]
    word("context", head, COUNT["context"], 4)
    head += [0]
    fixed("returns", head, COUNT["returns"])
    head += [1, 0, 0, 0]
    word("blocks", head, COUNT["blocks"], 4)
    head += [1]
    word("block number", head, most("block number"), 5)
    head += [7]
    word("phis", head, LIST, 4)
    word("operands", head + [1, 0, 0, 0], LIST, 4)
    word("predecessor's number", head + [1, 0, 0, 0, 1], most("predecessor's number"), 5)
    head += [0]
    word("instructions", head, LIST, 4)
    word("order", head + [1], most("order"), 5)
    word("lvalue", head + [1, 0], 1, 5)
    plain = head + [1, 0] + place(0)
    word("value lvalues", plain, PLACE_LIST, 4)
    word("a value lvalue", plain + [1], 1, 5)
    word("operands of an instruction", plain + [0], PLACE_LIST, 4)
    word("an operand", plain + [0, 1], 1, 5)
    word("value", plain + [0, 0], most("value"), 5)
    check(most("value"), len(INSTRUCTION) - 1, "values")
    check(MOST["a value's inner function"], "their count - 1", "a value's inner function")
    word("a value's inner function", plain + [0, 0, INSTRUCTION["Function"]], 0, 5)
    check(MOST["a stored identifier"], "N - 1", "a stored identifier")
    word("a stored identifier", plain + [0, 0, INSTRUCTION["StoreContext"]], 1, 5)
    plain += [0, 0, INSTRUCTION["Plain"]]
    word("effects", plain, LIST, 4)
    check(answer(plain + [ABSENT]), 3, "an absent list of effects")
    check(answer(plain + [ABSENT - 1]), 4, "a count of effects one below that of an absent list")
    check(isinstance(answer(plain + [ABSENT] + other(0)), list), True, "an instruction without a list")
    word("effect kind", plain + [1], most("effect kind"), 5)
    check(most("effect kind"), len(KIND) - 1, "effect kinds")
    for kind in KIND:
        words = plain + [1] + effect(kind, *[place(0), place(0)][:PLACES[kind]])
        for at in range(3 * PLACES[kind], 6):
            instance = at == 3 and kind in ("MutateFrozen", "MutateGlobal", "Impure")
            largest = most("a diagnostic's instance") if instance else 0
            word(f"word of a place that {kind} does not use", cut(words, 7 - at), largest, 5)
        word(f"extra word of {kind}", cut(words, 1), 0 if kind == "CreateFunction" else MOST_EXTRA[kind], 5)
    many = sheet([(0, 0, "Other")], place(0), [[7] + counted([]) + [1]], [inner()] * COUNT["inner functions"])
    many += [0] + place(0) + [0, 0, INSTRUCTION["Plain"], 1]
    word("extra word of CreateFunction", many + [KIND["CreateFunction"]] + [0] * 6, MOST_EXTRA["CreateFunction"], 5)
    head += [0]
    word("terminal kind", head, most("terminal kind"), 5)
    check(most("terminal kind"), len(TERMINAL) - 1, "terminals")
    for kind in range(len(TERMINAL)):
        word(f"the order of terminal {kind}", head + [kind], most("order"), 5)
    word("operands of a terminal", head + [0, 0], PLACE_LIST, 4)
    word("an operand of a terminal", head + [0, 0, 1], 1, 5)
    for what, before in (("Return", [1, 0, 0, 0, 0]), ("MaybeThrow", [2, 0])):
        word(f"effects of {what}", head + before, LIST, 4)
        check(answer(head + before + [ABSENT]), 4, f"an absent list of effects of {what}")
        check(isinstance(answer(head + before + [0, 0]), list), True, f"{what} without operands")
        check(answer(head + before + [0, 1]), 4, f"{what} with an operand")


# ---- refusals 2, 6, 7 and 8, and which comes first

def held():
    """What the graph holds: each limit met and passed by one, and what gives back."""
    edges, entries = HELD["forward edges"], HELD["entries"]
    check((edges, entries), (1_024, 1_024), "what is held together")

    def with_nodes(*effects, after=()):
        effects = [create(place(i), "Mutable", "KnownReturnSignature") for i in range(67)] + list(effects)
        lists = [instruction(1, *effects[at:at + LIST]) for at in range(0, len(effects), LIST)]
        return sheet([(0, 0, "Other")] * 68, place(66), [block(0, [], lists, other(2)), *after])

    def create_again(identifier):
        return create(place(identifier), "Mutable", "KnownReturnSignature")

    def is_held(expected, what, *effects, after=()):
        words = with_nodes(*effects, after=after)
        check(answer(words) == 8, not expected, what)
        return words

    alias, capture = effect("Alias", place(0), place(1)), effect("Capture", place(64), place(65))
    full = [alias] * edges
    grid = [effect("Alias", place(i), place(j)) for i in range(32) for j in range(32, 64)]
    is_held(True, "the same relation 1,024 times", *full)
    over = is_held(False, "the same relation 1,025 times", *full, alias)
    is_held(False, "into is created again: the edges to it stay", *full, create_again(1), capture)
    is_held(True, "from is created again: its edges are given back", *full, create_again(0), capture)
    is_held(False, "passed, and given back later", *full, alias, create_again(0), create_again(1))
    is_held(True, "relations of a value without a node", *full, *[effect("Alias", place(67), place(1))] * 100)
    is_held(True, "as many entries as there may be", *grid)
    is_held(False, "entries of a node that is created again stay", *grid, create_again(0), capture)
    is_held(False, "edges to a node that is created again stay", *grid, create_again(32), capture)
    is_held(True, "both are given back", *grid, create_again(0), create_again(32), capture)
    is_held(True, "kind 10 gives back first", *full, effect("CreateFrom", place(2), place(0)))
    is_held(True, "kind 10 without a node at from", *full, effect("CreateFrom", place(67), place(3)))
    is_held(False, "kind 10 with a node at from", *full, effect("CreateFrom", place(64), place(3)))
    waits = phi(place(0), *[(i, place(0)) for i in range(2, 1_026)])
    is_held(True, "operands that wait", *full, after=[block(1, [waits], [], other(2))])
    comes = phi(place(65), (0, place(64)))
    is_held(False, "an operand that has come", *full, after=[block(1, [comes], [], other(2))])
    is_held(False, "a Return", *full, after=[block(1, [], [], returned(2, place(0)))])
    is_held(False, "an Alias of a terminal", *full, after=[block(1, [], [], maybe_throw(2, alias))])
    # Among the other refusals: behind 7, before 10.
    check(answer(over + [0]), 7, "7 before 8 for what is held")
    check(answer(over[:-1]), 3, "3 before 8 for what is held")
    check(answer(with_nodes(*full, alias, effect("Apply"))), 8, "8 for what is held before 10")
    check(answer(with_nodes(*full, effect("Apply"))), 10, "10 with as many held as may be")


def refusals():
    check([row[0] for row in table("refusal", "what is wrong")], [str(n) for n in range(1, 12)], "the refusals")

    def blocks(*all_):
        return sheet([(0, 0, "Other")], place(0), all_)

    def in_one(*effects):
        lists = [instruction(1, *effects[at:at + LIST]) for at in range(0, len(effects), LIST)]
        return blocks(block(0, [], lists, other(2)))

    empty = block(7, [], [], other(1))
    phi_twice = block(7, [phi(place(0), (9, place(0)), (9, place(0)))], [], other(1))
    check(answer(blocks(empty, block(8, [], [], other(1))))[0], "ranges 1 0 0", "two blocks")
    check(answer(blocks(empty, empty)), 6, "a block number used twice")
    check(answer(blocks(phi_twice)), 6, "a predecessor named twice")
    check(answer(blocks(empty) + [0]), 7, "a word behind the last block")
    render, mutate = effect("Render", place(0)), effect("Mutate", place(0))
    for total, one in (("renders", render), ("mutations", mutate)):
        check(isinstance(answer(in_one(*[one] * TOTAL[total])), list), True, f"as many {total} as there may be")
        check(answer(in_one(*[one] * (TOTAL[total] + 1))), 8, f"too many {total}")
    # Which kinds are counted, in instructions; none is in terminals.
    counted_kinds = {row[0]: row[2] for row in table("total", "at most")}
    mutations, renders = (
        re.search(pattern, counted_kinds[total])[1] for total, pattern in (
            ("mutations", r"kinds ([\d to]+) in instructions"),
            ("renders", r"kind (\d+) in instructions")))
    first, last = map(int, mutations.split(" to "))
    most = {kind: TOTAL["mutations"] for kind in range(first, last + 1)} | {int(renders): TOTAL["renders"]}
    for name, kind in KIND.items():
        # From and into a value without a node, so that no relation is held.
        one = effect(name, *[place(1), place(1)][:PLACES[name]])
        if name in ("Assign", "CreateFrom"):
            one = effect(name, place(1), place(0))
        functions = [inner()] if name == "CreateFunction" else []
        times = most.get(kind, max(TOTAL.values())) + 1
        lists = [instruction(1, *[one] * count) for count in (times // 2, times - times // 2)]
        words = sheet([(0, 0, "Other")] * 2, place(0), [block(0, [], lists, other(2))], functions)
        check(answer(words) == 8, kind in most, f"{times} effects {name}")
        ends = [block(i, [], [], maybe_throw(1, *[one] * 513)) for i in range(2)]
        words = sheet([(0, 0, "Other")] * 2, place(0), ends, functions)
        check(answer(words) == 8, False, f"1,026 effects {name} in terminals")
    held()
    over = in_one(*[render] * (TOTAL["renders"] + 1))
    at = len(over) - 11

    def changed(words, at, word):
        return words[:at] + [word] + words[at + 1:]

    check(answer(over[:at]), 3, "a sheet cut before the kind that passes")
    check(answer(over[:at + 1]), 8, "a sheet cut behind the kind that passes")
    check(answer(changed(over, at, 18)), 5, "a kind that passes and is 18")
    check(answer(changed(over, at + 2, 16)), 8, "a kind that passes, with a fault behind")
    check(answer(over + [0]), 8, "8 for a total before 7")
    full = in_one(*[effect("Freeze", place(0))] * 2_042)
    check((len(full), isinstance(answer(full), list)), (16_373, True), "a long sheet")
    check(answer(full + [0] * 11), 7, "16,384 words")
    check(answer(full + [0] * 12), 2, "16,385 words")
    apply = effect("Apply")
    check(answer(in_one(mutate, apply)), 10, "Apply in an instruction")
    check(isinstance(answer(blocks(block(0, [], [], maybe_throw(2, apply)))), list), True, "Apply in a terminal")
    check(answer(in_one(mutate, apply) + [0]), 7, "7 before 10")
    check(answer(in_one(apply, *[render] * (TOTAL["renders"] + 1))), 8, "8 before 10")
    # From the page.
    check(answer([2, 7]), 5, "a sheet that is cut behind a flag 7")
    check(answer(in_one(*[render] * (TOTAL["renders"] + 1))[:-10]), 8, "257 renders, cut behind the kind of the last")
    large = block(65_536, [], [], other(1))
    check(answer(blocks(large, large)), 5, "a block number above its limit, twice")


# ---- the longest answers

def longest():
    ids = range(COUNT["identifiers"])
    effects = [effect("CreateFunction", place(i), extra=0) for i in ids]
    effects += [effect("Capture", place(i + 1), place(i)) for i in ids[:-1]]
    effects += [effect("Render", place(0))] * TOTAL["renders"]
    lists = [instruction(1, *effects[at:at + LIST]) for at in range(0, len(effects), LIST)]
    words = sheet([(0, 0, "Other")] * len(ids), place(0), [block(0, [], lists, other(2))], [inner([[9, 8]] * FUNCTION_DIAGNOSTICS)])
    said = answer(words)
    counts = f"a sheet of {len(words):,} words", f"with {int(said[3].split()[1]):,} diagnostics"
    for count in counts:
        check(count in TEXT, True, f"the page has `{count}`")
    places, effects = COUNT["parameters"] + COUNT["context"], 16_384 // 8
    most = 10 + 2 * len(ids) + 3 * places + 2 * (effects + len(ids) * TOTAL["renders"] * FUNCTION_DIAGNOSTICS)
    most += 8 * (effects + 2 * places + 1 + places * places) + TOTAL["mutations"] + places + 1 + 3 * (16_384 // 3)
    check(f"No answer has more than {most:,} words" in TEXT, True, f"the longest answer is {most:,} words")


# ---- class loads

FACTOR, ADDED = said_once(r"state × ([\d,]+) \+"), said_once(r"state × [\d,]+ \+ ([\d,]+) modulo 2\^32")
DIVISOR = said_once(r"divided by ([\d,]+) without a remainder")
LOAD_KINDS = [int(kind) for kind in re.search(r"from the list ([\d, ]+);", TEXT)[1].split(", ")]
BOUNDS = {row[0]: (number(row[1]), number(row[2])) for row in table("number", "least", "most")}


def load(seed, n, m):
    state = seed

    def draw(k):
        nonlocal state
        state = (state * FACTOR + ADDED) % 2**32
        return state // DIVISOR % k

    def drawn(order):
        kind = list(KIND)[LOAD_KINDS[draw(len(LOAD_KINDS))]]
        return instruction(order, effect(kind, *[place(draw(n)) for _ in range(PLACES[kind])]))

    one = block(0, [], [drawn(order) for order in range(1, m + 1)], other(m + 1))
    return sheet([(0, 0, "Other")] * n, place(n - 1), [one], params=[place(0)])


def asked_for(*numbers):
    return run([TOOL, "load", *map(str, numbers)], b"")


def loads():
    (least_n, most_n), (least_m, most_m) = BOUNDS["n"], BOUNDS["m"]
    sizes = [(least_n, least_m), (most_n, most_m), (least_n, most_m), (most_n, least_m), (97, 31)]
    for seed in (0, 1, 2026, 2**31, 2**32 - 1):
        for n, m in sizes:
            made = asked_for(seed, n, m).stdout
            check(made, bytes_of(load(seed, n, m)), f"the class load {seed} {n} {m}")
            check(len(made), 4 * (21 + 3 * n + 16 * m), f"its length, {n} and {m}")
    said = f"has 21 + 3 × n + 16 × m words, at most {21 + 3 * most_n + 16 * most_m:,}."
    check(said in TEXT, True, "the longest class load")
    for n, m in ((least_n - 1, 1), (most_n + 1, 1), (2, least_m - 1), (2, most_m + 1), (65_538, 1), (2, 65_537)):
        check("refused 5: " in asked_for(7, n, m).stderr.decode(), True, f"a class load {n} {m}")
    said = answer(load(2026, 300, 400))
    check(sum(len(line.split()) - 1 for line in said) <= 47 + 2 * 300 + 4 * 400, True, "the answer's length")


# ---- drawings

FIRST, NODE, EDGE, LAST = (row[0].strip("`") for row in table("lines, in this order"))
LABEL = {}
for row in table("word of a label"):
    kinds = re.match(r"kinds? ([\d, and]+)", row[1])[1]
    LABEL |= {int(kind): row[0].strip("`") for kind in re.findall(r"\d+", kinds)}


def drawing(nodes, edges):
    """Edges are [from, into, kind, index], in the order in which they were stored."""
    lines = [FIRST] + [NODE.replace("0", str(node)) for node in sorted(nodes)]
    for source, into, kind, index in sorted(edges, key=lambda edge: edge[0]):
        parts = {"n0": f"n{source}", "n1": f"n{into}", '"capture 0"': f'"{LABEL[kind]} {index}"'}
        lines.append(re.sub("|".join(parts), lambda part: parts[part[0]], EDGE))
    return "".join(line + "\n" for line in lines + [LAST])


def load_graph(n, words):
    """The nodes and edges of a class load's words: effects of sixteen words behind the head."""
    nodes, edges, head = {0, n - 1}, [], 18 + 3 * n
    for index, at in enumerate(range(head, len(words) - 3, 16)):
        kind, source, into = words[at + 8], words[at + 9], words[at + 12]
        if kind == KIND["CreateFrom"]:
            edges = [edge for edge in edges if edge[0] != into]
        if kind in (KIND["CreateFrom"], KIND["Assign"]):
            nodes.add(into)
        if kind in LABEL and {source, into} <= nodes:
            edges.append([source, into, kind, index])
    return nodes, edges


def drawn(words):
    out = run([TOOL, "dot", "-"], bytes_of(words))
    refused = re.search(r"refused (\d+): ", out.stderr.decode())
    return int(refused[1]) if refused else out.stdout.decode()


def drawings():
    check(sorted(LABEL), [5, 6, 7, 8, 10], "the kinds that have a label")
    for seed, n, m in ((0, 2, 1), (1, 3, 4), (2026, 4, 6), (7, 12, 300), (9, 512, 512), (2**32 - 1, 97, 31)):
        words = load(seed, n, m)
        check(drawn(words), drawing(*load_graph(n, words)), f"the drawing of the class load {seed} {n} {m}")

    def in_one(*effects, phis=(), end=other(9)):
        return sheet([(0, 0, "Other")] * 3, place(1), [block(0, list(phis), [instruction(1, *effects)], end)], params=[place(0)])

    alias = effect("Alias", place(0), place(1))
    waits = in_one(alias, phis=[phi(place(2), (0, place(0)))])
    check(drawn(waits), drawing([0, 1, 2], [[0, 1, 6, 1], [0, 2, 6, 0]]), "an operand that waits")
    returns = in_one(effect("Capture", place(0), place(1)), end=returned(9, place(0)))
    check(drawn(returns), drawing([0, 1], [[0, 1, 5, 0], [0, 1, 6, 1]]), "Return is an alias")
    again = in_one(alias, effect("Alias", place(1), place(0)), create(place(1), "Mutable", "Other"), effect("MaybeAlias", place(2), place(0)))
    check(drawn(again), drawing([0, 1], [[0, 1, 6, 0]]), "created again, and a relation of no node")
    check(drawn(in_one(effect("Apply"), alias)), drawing([0, 1], [[0, 1, 6, 0]]), "Apply is drawn")
    check(drawn(in_one(alias) + [0]), 7, "a drawing refused")
    check(drawn(in_one(*[effect("Render", place(0))] * 257)), 8, "another")
    longest = [len(drawing([], [[500, 511, 5, 1_791]])), len(drawing([511], [])), len(drawing([], []))]
    most = longest[2] + 1_024 * (longest[0] - longest[2]) + 512 * (longest[1] - longest[2])
    check(f"{most:,} bytes with the first and the last line" in TEXT, True, f"the longest drawing is {most:,} bytes")


if __name__ == "__main__":
    if sys.argv[1:2] == ["--write"] and len(sys.argv) == 3:
        with open(sys.argv[2], "wb") as out:
            out.write(bytes_of(EVERY_PART))
        sys.exit()
    if len(sys.argv) not in (2, 3):
        sys.exit(__doc__)
    TOOL, RANGES = (sys.argv[1:] + [None])[:2]
    for test in (page_example, every_part, names, limits, refusals, longest, loads, drawings):
        test()
    print(f"format: passed, with the tool{' and the program' if RANGES else ''}")
