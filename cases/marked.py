#!/usr/bin/env python3
"""Document 01's marked cases, its four slips that look right and a sheet for each refusal, as files.

Usage: marked.py: writes NAME.sheet and NAME.txt, what the program prints for it, beside this file, and README.md.
The texts are the reference's; where document 01 has one, it is held to that. Case L is held to its bytes in
crates/rules/proofs/Marked.antt, where what the definition prints for the marked cases is proved.
"""
import pathlib
import re
import sys

HERE = pathlib.Path(__file__).resolve().parent
sys.path.insert(0, str(HERE.parent / "oracle"))
import make_sheets
import reference

SHIP, MODE, CHAR, ITEM, CHARGE, SKILL, PROJECTED = range(7)
L_TEXT = "rows 3\n0 37 430.37\n2 20 50.00\n3 20 50.00\n"


def thing(kind, type_id=0, category=0, slot=0, quantity=0, state=0, bases=(0, 0), effect=0):
    return [kind, type_id, 0, category, slot, quantity, state, 0, 0, 0, effect, *bases, 0, 0, 0, 0]


def module(bases, slot=3, quantity=1, state=1):
    """An item of type 9 and category 7; Low and Online where nothing else is said."""
    return thing(ITEM, 9, 7, slot, quantity, state, bases)


def modifier(func, domain, operation, modifying, modified, skill=0):
    return [func, domain, operation, modifying, modified, skill, 0]


def sheet(attributes=(), effects=(), modifiers=(), types=(), objects=(), bases=(), asks=(), depth=2, collections=(), buffs=(), recording=0):
    made = make_sheets.Sheet()
    made.categories, made.depth, made.recording = [7, 0, 0], depth, recording
    made.tables = [list(table) for table in (attributes, effects, modifiers, types, collections, objects, bases, (), buffs, asks)]
    return made.bytes()


def attribute(i, flags=0, least=0, most=0):
    return [i, flags, 0.0, least, most]


def case_l(depth=2, asks=(), category=1, changes=None, unused=0):
    return sheet([attribute(20, 2), attribute(37, 2)], [[1, category, 0, 0, 0, 1]], [changes or modifier(4, 1, 7, 20, 37)], [[9, 1, 0]],
                 [thing(SHIP, bases=(0, 1)), thing(CHAR), module((1, 1)), module((1, 1))], [[37, 200.0], [20, 50.0]] + [[20, 1.0]] * unused, asks, depth)


def changed(operation, start, first, quantity, second, flags=0):
    return sheet([attribute(20), attribute(37, flags)], [[1, 1, 0, 0, 0, 1]], [modifier(4, 1, operation, 20, 37)], [[9, 1, 0]],
                 [thing(SHIP, bases=(0, 1)), thing(CHAR), module((1, 1), quantity=quantity), module((2, 1), quantity=second)],
                 [[37, start], [20, first], [20, 5.0]])


def skilled(skill, required):
    return sheet((), [[1, 0, 0, 0, 0, 1]], [modifier(0, 1, 3, 20, 37, skill)], [[8, 1, 0]],
                 [thing(SHIP, 8, quantity=1, bases=(0, 1)), thing(CHAR), module((1, 2))], [[20, 5.0], [37, 1.0], [182, required]])


def looped(asks=(), first=0):
    modifiers = [modifier(4, 0, 3, 37, 20), modifier(4, 0, 3, 20, 37)]
    return sheet((), [[1, 0, 0, 0, 0, 2]], [modifiers[first], modifiers[1 - first]], [[8, 1, 0]],
                 [thing(SHIP, 8, bases=(0, 2)), thing(CHAR)], [[20, 10.0], [37, 1.0]], asks)


def by_ship(modifiers, objects, bases, **more):
    """The ship is of type 8, whose one effect, Passive, has all the modifiers."""
    return sheet((), [[1, 0, 0, 0, 0, len(modifiers)]], modifiers, [[8, 1, 0]], objects, bases, **more)


def grey_l(quantities=(1, 1), state=1):
    """Case L with recording, its items in a state."""
    return sheet([attribute(20, 2), attribute(37, 2)], [[1, 1, 0, 0, 0, 1]], [modifier(4, 1, 7, 20, 37)], [[9, 1, 0]],
                 [thing(SHIP, bases=(0, 1)), thing(CHAR)] + [module((1, 1), quantity=quantity, state=state) for quantity in quantities],
                 [[37, 200.0], [20, 50.0]], recording=1)


def grey(category, what, bases=((37, 2.0),), modified=(37,), domain=1, more=(), **others):
    """With recording: what adds its 20, which is 5, to attributes of the ship, by an effect of a category."""
    types = [[9, 1, 0]] if what[0] == ITEM else []
    return sheet((), [[1, category, 0, 0, 0, len(modified)], *more], [modifier(4, domain, 3, 20, a) for a in modified], types + [[9, e[0], 0] for e in more],
                 [thing(SHIP, bases=(0, len(bases))), thing(CHAR), what], [list(b) for b in bases] + [[20, 5.0]], recording=1, **others)


def touched(kind, type_id=0, group=0, category=0, slot=0, bases=(0, 0)):
    return [kind, type_id, group, category, slot, 1, 0, 0, 0, 0, 0, *bases, 0, 0, 0, 0]


def adds(func, domain, modified, skill=0, group=0):
    """ModAdd of attribute 20."""
    return [func, domain, 3, 20, modified, skill, group]


HULL = thing(SHIP, 8, quantity=1, bases=(0, 1))
FRAME = touched(SHIP, 8, 1, bases=(0, 1))

CASES = [
    ("L", "case L: two modules of 50 % each on the ship's 37, stacking penalised", case_l(), L_TEXT),
    ("L-depth-1", "case L at depth 1: the ship's 37 needs a module's 20, one deeper", case_l(1), "refused 9 2\n"),
    ("L-asked", "case L at depth 1, the modules' 20 asked first", case_l(1, [[2, 20], [3, 20]]), L_TEXT),
    ("assign-high", "PreAssign 3 and 5, high is good: 5", changed(0, 10.0, 3.0, 1, 1, 2), "rows 3\n0 37 5.00\n2 20 3.00\n3 20 5.00\n"),
    ("assign-low", "PreAssign 3 and 5, high is not good: 3", changed(0, 10.0, 3.0, 1, 1), "rows 3\n0 37 3.00\n2 20 3.00\n3 20 5.00\n"),
    ("mod-add", "ModAdd 2, quantity 3, on 10: 16", changed(3, 10.0, 2.0, 3, 0), "rows 3\n0 37 16.00\n2 20 2.00\n3 20 5.00\n"),
    ("mod-sub", "ModSub 2, quantity 1, on 10: 8", changed(4, 10.0, 2.0, 1, 0), "rows 3\n0 37 8.00\n2 20 2.00\n3 20 5.00\n"),
    ("pre-div", "PreDiv by 4 on 8, quantity 1: 2", changed(2, 8.0, 4.0, 1, 0), "rows 3\n0 37 2.00\n2 20 4.00\n3 20 5.00\n"),
    ("clamps", "value 4, min 5, max 3: 3", sheet([attribute(20, 0, 37, 38)], objects=[thing(SHIP, bases=(0, 3)), thing(CHAR)],
     bases=[[20, 4.0], [37, 5.0], [38, 3.0]]), "rows 3\n0 20 3.00\n0 37 5.00\n0 38 3.00\n"),
    ("skill-cut", "a skill base of 3.9 requires type 3", skilled(3, 3.9), "rows 3\n0 20 5.00\n2 37 6.00\n2 182 3.90\n"),
    ("skill-cut-up", "one of -3.9 requires type -3", skilled(-3, -3.9), "rows 3\n0 20 5.00\n2 37 6.00\n2 182 -3.90\n"),
    ("skill-held", "one of 3,000,000,000 requires type 2,147,483,647", skilled(2147483647, 3e9), "rows 3\n0 20 5.00\n2 37 6.00\n2 182 3000000000.00\n"),
    ("not-resisted", "attribute 2138 at 0.9, the effect's own resistance 0: none", sheet((), [[1, 0, 0, 0, 0, 1]], [modifier(4, 5, 3, 20, 37)], (),
     [thing(SHIP, bases=(0, 3)), thing(CHAR), thing(PROJECTED, quantity=1, bases=(3, 2), effect=1)],
     [[0, 0.0], [1, 0.0], [37, 2.0], [20, 5.0], [2138, 0.9]]), "rows 5\n0 0 0.00\n0 1 0.00\n0 37 7.00\n2 20 5.00\n2 2138 0.90\n"),
    ("loop-walked", "20 adds 37 and 37 adds 20, walked: 20 is 21, 37 is 11", looped(), "rows 2\n0 20 21.00\n0 37 11.00\n"),
    ("loop-asked", "the same, 37 asked first: 20 is 11, 37 is 12", looped([[0, 37]]), "rows 2\n0 20 11.00\n0 37 12.00\n"),
    ("divided-by-0", "PostDiv by 0: refused 8, place the object divided", sheet((), [[1, 1, 0, 0, 0, 1]], [modifier(4, 2, 6, 20, 37)], [[9, 1, 0]],
     [thing(SHIP), thing(CHAR, bases=(0, 1)), module((1, 1))], [[37, 8.0], [20, 0.0]]), "refused 8 1\n"),
    ("slip-walk", "char and projected object would both be refused at depth 1; the walk meets the projected one first",
     sheet([attribute(20, 0, 37)], objects=[thing(SHIP), thing(CHAR, bases=(0, 2)), thing(PROJECTED, quantity=1, bases=(0, 2))],
           bases=[[20, 4.0], [37, 5.0]], depth=1),
     "refused 9 2\n"),
    ("slip-mode", "the ship adds 5 to 37 of all in its location; the mode's 37 stays", by_ship([modifier(2, 1, 3, 20, 37)],
     [HULL, thing(MODE, bases=(1, 1)), thing(CHAR)], [[20, 5.0], [37, 10.0]]), None),
    ("slip-skills", "182 is added to all in the ship before whatever requires type 0 is touched: the item requires nothing yet",
     by_ship([modifier(2, 1, 3, 20, 182), modifier(0, 1, 3, 20, 37)], [HULL, thing(CHAR), module((1, 1))], [[20, 5.0], [37, 1.0]]), None),
    ("slip-rig", "an offline rig's Passive effect on 1152 runs", sheet((), [[1, 0, 0, 0, 0, 1]], [modifier(4, 1, 3, 20, 1152)], [[9, 1, 0]],
     [thing(SHIP, bases=(0, 1)), thing(CHAR), module((1, 1), slot=4, state=0)], [[1152, 10.0], [20, 5.0]]), "rows 2\n0 1152 15.00\n2 20 5.00\n"),
    ("refused-1", "SHAPE: case L, a byte short", case_l()[:-1], "refused 1 0\n"),
    ("refused-1-6", "SHAPE: an object of kind 7", make_sheets.set_word(case_l(), 212, 7), "refused 1 6\n"),
    ("refused-1-7", "SHAPE: a base attribute that no object has is infinite", sheet(objects=[thing(SHIP), thing(CHAR)], bases=[[1, float("inf")]]), "refused 1 7\n"),
    ("refused-2", "FUNC: func 6", case_l(changes=modifier(6, 1, 7, 20, 37)), "refused 2 0\n"),
    ("refused-3", "DOMAIN: domain 7", case_l(changes=modifier(4, 7, 7, 20, 37)), "refused 3 0\n"),
    ("refused-4", "CATEGORY: category 8", case_l(category=8), "refused 4 0\n"),
    ("refused-5", "OPERATION: operation 10", case_l(changes=modifier(4, 1, 10, 20, 37)), "refused 5 0\n"),
    ("refused-6", "OTHER: OtherID from the ship", by_ship([modifier(4, 3, 3, 20, 37)], [HULL, thing(CHAR)], [[20, 5.0]]), "refused 6 0\n"),
    ("refused-7", "ROOM: 90 skills of 50 attributes each are 4,500 rows, and the program lends 4,096",
     sheet(objects=[thing(SHIP), thing(CHAR)] + [thing(SKILL, bases=(0, 50))] * 90, bases=[[i, 1.0] for i in range(50)]), "refused 7 2\n"),
    ("numbers-order", "two effects on 5, then one on 4: the entry on 4 stands first and has number 2, those on 5 have 0 and 1",
     by_ship([modifier(4, 0, 3, 20, 5), modifier(4, 0, 3, 20, 5), modifier(4, 0, 3, 20, 4)], [HULL, thing(CHAR)], [[20, 2.0]]), None),
    ("numbers-location", "one effect on the ship's location: three entries on three rows, each with number 0",
     by_ship([modifier(2, 1, 3, 20, 37)], [HULL, thing(CHAR), module((0, 0)), module((0, 0))], [[20, 2.0]]), None),
    ("numbers-buff", "a buff between ship and item: its entry has number 1, theirs 0 and 2",
     sheet((), [[1, 0, 0, 0, 0, 1]], [modifier(4, 1, 3, 20, 37)], [[8, 1, 0], [9, 1, 0]], [HULL, thing(CHAR), module((0, 1))], [[20, 2.0]],
           collections=[[30, 3, 0, 1]], buffs=[[30, 5.0]]), None),
    ("numbers-char", "the second effect on the char's location: char, implant and skill have number 1, although the implant arrives last",
     by_ship([modifier(4, 1, 3, 20, 37), modifier(2, 2, 3, 20, 37)],
             [HULL, thing(CHAR), thing(ITEM, 7, 20, 10, 1), thing(SKILL, 6, 16, quantity=1)], [[20, 2.0]]), None),
    ("numbers-loop", "the loop of 20 and 37 with its modifiers in the other order: the entry on 20 has number 1, that on 37 number 0",
     looped(first=1), "rows 2\n0 20 21.00\n0 37 11.00\n"),
    ("grey-L-online", "case L with recording: both source rows run, and name Online", grey_l(), L_TEXT),
    ("grey-L-passive", "the same, the modules Passive: two grey rows that name Online", grey_l(state=0), "rows 3\n0 37 200.00\n2 20 50.00\n3 20 50.00\n"),
    ("grey-target-passive", "a Passive projected object's Target effect: grey, names Active",
     grey(4, thing(PROJECTED, quantity=1, bases=(1, 1), effect=1), domain=5), None),
    ("grey-target-active", "the same of an Active one: runs, names Active",
     grey(4, thing(PROJECTED, quantity=1, state=2, bases=(1, 1), effect=1), domain=5), None),
    ("grey-rig", "an offline rig's Passive effect: on 37 grey, names Online; on 1152 it runs, names Passive",
     grey(0, module((2, 1), slot=4, state=0), ((37, 2.0), (1152, 10.0)), (37, 1152)), None),
    ("grey-overload", "an Active module's Overload effect: grey, names Overload, which the module can reach", grey(3, module((1, 1), slot=1, state=2)), None),
    ("grey-buff", "a buff runs and names Passive", sheet(modifiers=[modifier(4, 1, 3, 20, 37)], objects=[thing(SHIP, bases=(0, 1)), thing(CHAR)], bases=[[37, 2.0]],
     collections=[[30, 3, 0, 1]], buffs=[[30, 5.0]], recording=1), None),
    ("grey-copies", "a penalised quantity of 12: eight rows of one and one of four, each names Online", grey_l((12,)), None),
    ("grey-unreachable", "an item of max state Online has a Target effect: grey, names Active, which the item cannot reach",
     grey(4, module((1, 1), slot=1), more=[[2, 1, 0, 0, 1, 0]]), None),
    ("touched-groups", "41 on group 5 in the ship, 42 on all in it, 43 on all on the char; mode, item, its charge and a drone are of group 5",
     by_ship([adds(1, 1, 41, group=5), adds(2, 1, 42), adds(2, 2, 43)],
             [FRAME, touched(MODE, group=5), touched(CHAR), touched(ITEM, 9, 5, 7, 3), touched(CHARGE, group=5), touched(ITEM, 11, 5, 18, 7)], [[20, 2.0]]), None),
    ("touched-char", "43 on all on the char, 44 on group 5 there, 45 on what requires 7 there: an implant, its charge and a skill",
     by_ship([adds(2, 2, 43), adds(1, 2, 44, group=5), adds(0, 2, 45, 7)],
             [FRAME, touched(CHAR), touched(ITEM, 12, 5, 20, 10, (1, 1)), touched(CHARGE, group=5, bases=(1, 1)), touched(SKILL, 7, 5, 16)], [[20, 2.0], [182, 7.0]]), None),
    ("touched-skills", "46 as owner on what requires 7, 47 in the ship, 48 with a module as target, 49 by a skill's -1, 50 by a buff's -1",
     sheet((), [[1, 0, 0, 0, 0, 2], [2, 0, 0, 0, 2, 1], [3, 0, 0, 0, 3, 1]],
           [adds(3, 2, 46, 7), adds(0, 1, 47, 7), adds(0, 0, 48, 7), adds(0, 1, 49, -1), adds(0, 1, 50, -1)], [[7, 3, 0], [8, 1, 0], [10, 2, 0]],
           [FRAME, touched(CHAR), touched(ITEM, 10, 0, 7, 3, (2, 1)), touched(ITEM, 9, 0, 7, 3, (1, 1)), touched(CHARGE, bases=(1, 1)),
            touched(ITEM, 11, 0, 18, 7, (1, 1)), touched(ITEM, 13, 0, 7), touched(CHARGE, bases=(1, 1)), touched(SKILL, 7, 0, 16)],
           [[20, 2.0], [182, 7.0], [182, 0.0]], collections=[[30, 3, 4, 1]], buffs=[[30, 3.0]]), None),
    ("touched-twice", "the ship's type has one effect twice: two entries on each of the two in the ship, numbers 0 and 1",
     sheet((), [[1, 0, 0, 0, 0, 1]], [adds(2, 1, 42)], [[8, 1, 0], [8, 1, 0]], [FRAME, touched(CHAR), touched(ITEM, 9, 0, 7, 3)], [[20, 2.0]]), None),
    ("written-empty", "written from tables that are empty but for ship and char", sheet(objects=[thing(SHIP), thing(CHAR)]), "rows 0\n"),
    ("written-bits", "written with base values -0.0 and 5e-324: their bits stand in the sheet",
     sheet(objects=[thing(SHIP, bases=(0, 2)), thing(CHAR)], bases=[[20, -0.0], [37, 5e-324]]), "rows 2\n0 20 0.00\n0 37 0.00\n"),
]
# the collection numbers of the entries, in the order of list 3
NUMBERS = {"L": [0, 1], "loop-walked": [0, 1], "numbers-order": [2, 0, 1], "numbers-location": [0, 0, 0], "numbers-buff": [0, 1, 2],
           "numbers-char": [0, 1, 1, 1], "numbers-loop": [1, 0]}
# of each source row what it is from (0 object, 1 buff) and which, its quantity, whether it applies, and the state that it names
GREY = {"grey-L-online": [[0, 2, 1, 1, 1], [0, 3, 1, 1, 1]], "grey-L-passive": [[0, 2, 1, 0, 1], [0, 3, 1, 0, 1]], "grey-target-passive": [[0, 2, 1, 0, 2]],
        "grey-target-active": [[0, 2, 1, 1, 2]], "grey-rig": [[0, 2, 1, 0, 1], [0, 2, 1, 1, 0]], "grey-overload": [[0, 2, 1, 0, 3]],
        "grey-buff": [[1, 30, 1, 1, 0]], "grey-copies": [[0, 2, 1, 1, 1]] * 8 + [[0, 2, 4, 1, 1]], "grey-unreachable": [[0, 2, 1, 0, 2]]}
# object, attribute and collection number of each entry, in the order of list 3
TOUCHED = {"touched-groups": [(0, 42, 1), (2, 43, 2), (3, 41, 0), (3, 42, 1), (4, 41, 0), (4, 42, 1)],
           "touched-char": [(1, 43, 0), (2, 43, 0), (2, 44, 1), (2, 45, 2), (3, 45, 2), (4, 43, 0), (4, 44, 1)],
           "touched-skills": [(2, 50, 2), (3, 47, 1), (3, 48, 3), (3, 49, 4), (4, 46, 0), (4, 47, 1), (4, 48, 3), (4, 49, 4), (5, 46, 0), (7, 46, 0)],
           "touched-twice": [(0, 42, 0), (0, 42, 1), (2, 42, 0), (2, 42, 1)]}


def held(name, data, text):
    """What the program prints; where a text is given it is that; where numbers are, the entries or the source rows have them."""
    answer = reference.answer(data, (4096,) * 5)
    numbers = [entry[11] for entry, _ in answer.entries]
    if NUMBERS.get(name, numbers) != numbers:
        sys.exit(f"{name}: entries numbered {numbers}")
    shown = [[source[k] for k in (0, 1, 7, 9, 10)] for source, _ in answer.sources]
    if GREY.get(name, []) != shown:
        sys.exit(f"{name}: source rows {shown}")
    entries = [(row[0], row[1], entry[11]) for row, _ in answer.rows for entry, _ in answer.entries[row[2]:row[2] + row[3]]]
    if TOUCHED.get(name, entries) != entries:
        sys.exit(f"{name}: entries {entries}")
    found = reference.listing(answer)
    if text not in (None, found):
        sys.exit(f"{name}: {found!r}, expected {text!r}")
    return found


def main():
    proved = (HERE.parent / "crates" / "rules" / "proofs" / "Marked.antt").read_text()
    if re.search(r'bytesL =\s*"([0-9a-f]+)"', proved).group(1) != CASES[0][2].hex():
        sys.exit("case L is not the one in Marked.antt")
    account = ["# Cases", "", "Made by `cases/marked.py`. A sheet is run by `crates/sheet/out/sheet <cases/NAME.sheet`, once `./sample` has made that; NAME.txt is what is printed.", "",
               "| sheet | bytes | what | printed |", "|---|---|---|---|"]
    for name, what, data, text in CASES:
        printed = held(name, data, text)
        (HERE / f"{name}.sheet").write_bytes(data)
        (HERE / f"{name}.txt").write_text(printed)
        account.append(f"| {name} | {len(data)} | {what} | {'; '.join(printed.splitlines())} |")
    account += ["", "Down to divided-by-0 they are the sheets of `crates/rules/proofs/Marked.antt`, and the four slips those of `crates/rules/proofs/Slips.antt`, byte for byte: "
                "what they print is proved there of the definition. Of L, loop-walked and those named numbers-.. `crates/rules/proofs/Numbers.antt` proves which collection numbers their entries have; of those named grey-.. `crates/rules/proofs/Grey.antt` proves what their source rows show, which the text has not: kept.bin has them; of those named touched-.. `crates/touched/proofs/Examples.antt` proves whom each effect names and which entries there are. docs/FORMAT.md explains case L byte by byte, and why each of the refused is.",
                "`kept.bin` has sheets with the oracle's answers, every list of them; [KEPT.md](KEPT.md) names each and says how it is read.",
                "`make_damaged.py` makes the sheets of crates/shape_test; `make_texts.py` hands every sheet here, and its text, to crates/cases_test.",
                "`split.py` cuts a sheet into a book and a fit and joins them again (`--check`: every sheet here comes back). `marked_pools.py` makes the .book and .fit files, "
                "`pools.txt`, the marked examples of several pilots over one book with their answers, and `pilots.txt`, what the examples in C and Rust print; "
                "docs/FORMAT.md, section 11, tells of each file. `marked_writes.py` makes `writes.txt`, the marked examples of written sheets: tables, how many bytes are lent, "
                "and the answer; `crates/tables/proofs/Marked.antt` proves the same of the definition."]
    (HERE / "README.md").write_text("\n".join(account) + "\n")
    print(len(CASES), "cases")


if __name__ == "__main__":
    main()
