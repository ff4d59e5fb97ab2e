#!/usr/bin/env python3
"""The marked examples of M-106: books, fits and a table of calls, as files.

Usage: marked_pools.py: writes the files of FILES, pools.txt and pilots.txt beside this file; each answer is the reference's, and is
held to the one that the request's reading names. marked_pools.py --library: runs pools.txt through the library by oracle/pools.c; every
byte of the pool is compared with the reference's after each call.
pools.txt: `example` and what it shows; `pilot`, its number, and first and length of its stretch of each list (a pilot that has no line
has none); `call`, the pilot asked for, book and fit, and the answer: number, place and five counts. Each example begins with a pool of
8 rows in every column, full of rubbish.
"""
import pathlib
import struct
import subprocess
import sys

HERE = pathlib.Path(__file__).resolve().parent
sys.path.insert(0, str(HERE.parent / "oracle"))
import compare_engine
import marked
import pools
import reference
import split

ROWS = 8
L = "L.book", "L.fit"
THREE = [[0, 2], [2, 3], [0, 2], [0, 1], [0, 0]]
DONE = [0, 0, 2, 3, 2, 0, 0]


def refused(number, place):
    return [number, place, 0, 0, 0, 0, 0]


def with_five(*lists):
    return {3: THREE, 5: [list(lists[l]) if l < len(lists) else [0, 0] for l in range(pools.LISTS)]}


def three_modules():
    """Case L with a third module."""
    module = marked.module((1, 1))
    return marked.sheet([marked.attribute(20, 2), marked.attribute(37, 2)], [[1, 1, 0, 0, 0, 1]], [marked.modifier(4, 1, 7, 20, 37)], [[9, 1, 0]],
                        [marked.thing(marked.SHIP, bases=(0, 1)), marked.thing(marked.CHAR), module, module, module], [[37, 200.0], [20, 50.0]])


def files():
    """Names and bytes."""
    book, fit = split.cut(marked.case_l())
    made = {"L.book": book, "L.fit": fit, "L-depth-1.fit": split.cut(marked.case_l(1))[1],
            "L-asked.fit": split.cut(marked.case_l(1, [[2, 20], [3, 20]]))[1], "L-three.fit": split.cut(three_modules())[1],
            "refused-1.book": book[:-1], "refused-1-20.fit": fit[:-1], "refused-1-26.fit": make_ships(fit),
            "refused-1-30.fit": split.cut(marked.case_l(2, [[9, 20]]))[1]}
    if (len(book), len(fit)) != (164, 344) or split.cut(three_modules())[0] != book:
        sys.exit("book and fit are not case L's")
    return made


def make_ships(fit):
    """The char becomes a second ship."""
    return marked.make_sheets.set_word(fit, 48 + 68, marked.SHIP)


ALONE = {3: THREE}
EXAMPLES = [
    ("1. pilot 3's rows are in rows 2 to 4 of list 2; all else is as lent", ALONE, [(3, *L, DONE)]),
    ("2. pilots 2 and 16 have no stretch", ALONE, [(2, *L, refused(12, 2)), (16, *L, refused(12, 16))]),
    ("2. nor has 16 where 3's stretch leaves the pool", {3: [[0, 2], [6, 3], [0, 2], [0, 1], [0, 0]]}, [(16, *L, refused(12, 16)), (3, *L, refused(12, 3))]),
    ("3. row 4 of list 2 is both 3's and 5's", with_five((0, 0), (4, 2)), [(3, *L, refused(12, 5)), (5, *L, refused(12, 5))]),
    ("3. they touch", with_five((0, 0), (5, 2)), [(3, *L, DONE)]),
    ("3. 5's row 8 is outside", with_five((0, 0), (7, 2)), [(3, *L, refused(12, 5))]),
    ("4. an empty stretch is nowhere, whatever its first", with_five((2, 1), (900, 0)), [(3, *L, DONE)]),
    ("5. a book a byte short, whatever the fit", ALONE, [(3, *L, DONE), (3, "refused-1.book", "L.fit", refused(1, 0)), (3, "refused-1.book", "refused-1-26.fit", refused(1, 0))]),
    ("5. a fit a byte short", ALONE, [(3, *L, DONE), (3, "L.book", "refused-1-20.fit", refused(1, 20))]),
    ("5. two ships in the fit", ALONE, [(3, "L.book", "refused-1-26.fit", refused(1, 26))]),
    ("5. an ask of object 9", ALONE, [(3, "L.book", "refused-1-30.fit", refused(1, 30))]),
    ("6. a row too few", {3: [[0, 2], [2, 2], [0, 2], [0, 1], [0, 0]]}, [(3, *L, refused(7, 2))]),
    ("6. depth 1", ALONE, [(3, "L.book", "L-depth-1.fit", refused(9, 2))]),
    ("7. pilot 0 between two calls for 3", {0: [[2, 2], [5, 3], [2, 2], [1, 1], [0, 0]], 3: THREE},
     [(3, *L, DONE), (0, "L.book", "L-asked.fit", DONE), (0, "L.book", "L-depth-1.fit", refused(9, 2)), (3, *L, DONE)]),
]
# the fits that examples/c/pilots.c and examples/rust/pilots.rs open over L.book
OPENED = ["L.fit", "L-depth-1.fit", "L-three.fit"]


def fresh_pool():
    """Every column full of rubbish."""
    rubbish = lambda n, at: bytes((31 * k + at) % 255 + 1 for k in range(n))
    return pools.Pool([rubbish(ROWS * width, c) for c, width in enumerate(pools.widths())], rubbish(8 * pools.OBJECTS * pools.PILOTS, 10))


def table_of(seats):
    return [seats.get(pilot, [[0, 0]] * pools.LISTS) for pilot in range(pools.PILOTS)]


def snapshots(seats, calls, made):
    """What the reference answers, and the whole pool after each call, before the first too."""
    pool = fresh_pool()
    whole = lambda: b"".join([*pool.columns, pool.states])
    answers, states = [], [whole()]
    for pilot, book, fit, _ in calls:
        answers.append(pool.calculate(table_of(seats), made[book], made[fit], pilot))
        states.append(whole())
    return answers, states


def first_example_holds(states):
    """Rows 2 to 4 of list 2 have L's rows with firsts 0, 2, 2; the others are as lent."""
    widths = pools.widths()
    at, width = ROWS * sum(widths[:2]), widths[2]
    before, after = ([state[at + width * k:at + width * (k + 1)] for k in range(ROWS)] for state in states[:2])
    firsts = [struct.unpack("<6I", row)[2] for row in after[2:5]]
    return firsts == [0, 2, 2] and all((before[k] == after[k]) == (k not in (2, 3, 4)) for k in range(ROWS))


def text(made):
    lines = ["# Made by cases/marked_pools.py, which says how it is read."]
    for what, seats, calls in EXAMPLES:
        answers, states = snapshots(seats, calls, made)
        if answers != [wanted for _, _, _, wanted in calls]:
            sys.exit(f"{what}: {answers}")
        if (states[0] == states[1]) != (answers[0][0] == pools.POOL):
            sys.exit(f"{what}: POOL wrote, or another answer did not")
        lines += ["", f"example {what}"]
        lines += [f"pilot {pilot} " + "  ".join(f"{first} {length}" for first, length in lists) for pilot, lists in sorted(seats.items())]
        lines += [f"call {pilot} {book} {fit} " + " ".join(map(str, answer)) for (pilot, book, fit, _), answer in zip(calls, answers)]
    if not first_example_holds(snapshots(*EXAMPLES[0][1:], made)[1]):
        sys.exit("the first example's rows are not where they should be")
    return "\n".join(lines) + "\n"


def opened(made):
    """What the two examples print for the fits that they open over case L's book."""
    out = ""
    for pilot, name in enumerate(OPENED):
        out += f"pilot {pilot}\n" + reference.listing(pools.answer(made["L.book"], made[name], (256,) * 5))
    return out


def by_library(made):
    """The calls of pools.txt, as it stands, through the library."""
    examples = []
    for line in (HERE / "pools.txt").read_text().splitlines():
        word, _, rest = line.partition(" ")
        if word == "example":
            examples.append((rest, {}, []))
        elif word == "pilot":
            pilot, *numbers = map(int, rest.split())
            examples[-1][1][pilot] = [list(pair) for pair in zip(numbers[::2], numbers[1::2])]
        elif word == "call":
            pilot, book, fit, *answer = rest.split()
            examples[-1][2].append((int(pilot), book, fit, list(map(int, answer))))
    made = {name: (HERE / name).read_bytes() for name in made}
    blob = b"".join(pools.driven(fresh_pool(), [(table_of(seats), made[book], made[fit], pilot) for pilot, book, fit, _ in calls]) for _, seats, calls in examples)
    out = subprocess.run(compare_engine.build(False, "pools.c"), input=blob, stdout=subprocess.PIPE, check=True).stdout
    at = count = differ = 0
    for what, seats, calls in examples:
        for call, state in zip(calls, snapshots(seats, calls, made)[1][1:]):
            if list(struct.unpack_from("<8Q", out, at)) != call[3] + [0] or out[at + 64:at + 64 + len(state)] != state:
                differ += 1
                print(f"differs: {what}: pilot {call[0]}: {list(struct.unpack_from('<8Q', out, at))}")
            at += 64 + len(state)
            count += 1
    print(f"{len(examples)} examples, {count} calls, {differ} differ")
    sys.exit(differ > 0 or at != len(out))


def main():
    made = files()
    if sys.argv[1:] == ["--library"]:
        by_library(made)
    written = {**made, "pools.txt": text(made).encode(), "pilots.txt": opened(made).encode()}
    for name, content in written.items():
        (HERE / name).write_bytes(content)
    print(len(EXAMPLES), "examples,", len(made), "files")


if __name__ == "__main__":
    main()
