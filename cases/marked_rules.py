#!/usr/bin/env python3
"""The marked examples of M-105: tables of lines, fits and answers, as files.

Usage: marked_rules.py: writes rules.txt and L-module-8.book beside this file; each answer is the reference's (oracle/rules.py), and is
held to the one that the request's reading names. marked_rules.py --library: runs rules.txt through the library by oracle/rules.c.
rules.txt: `example` and what it shows; `line`, a line's kind, signed id and number; `check`, a sheet, or a book and a fit, and the answer:
number, place, allowed, line and count. `L.sheet:99` is the first 99 bytes of that file.
"""
import pathlib
import struct
import subprocess
import sys

HERE = pathlib.Path(__file__).resolve().parent
sys.path.insert(0, str(HERE.parent / "oracle"))
import compare_engine
import marked
import rules

SHEET, FILES = ("L.sheet",), ("L.book", "L.fit")
ALLOWED = [0, 0, 1, 0, 0]


def breaks(line, count):
    return [0, 0, 0, line, count]


def refused(number, place):
    return [number, place, 0, 0, 0]


def both(answer):
    return [(SHEET, answer), (FILES, answer)]


EXAMPLES = [
    ("no line allows everything", [], both(ALLOWED)),
    ("points that are just enough", [(0, 9, 3), (3, 0, 6)], both(ALLOWED)),
    ("one point too many", [(0, 9, 3), (3, 0, 5)], both(breaks(1, 6))),
    ("the cap is first", [(1, 0, 1), (2, 0, 9)], both(breaks(0, 2))),
    ("a forbidden group; its number is not read", [(1, 0, 2), (2, 0, 9)], both(breaks(1, 2))),
    ("points above 65,535", [(0, 9, 65536)], both(refused(11, 0))),
    ("ids are signed", [(1, 5, 1), (1, -3, 1)], both(refused(11, 1))),
    ("two totals", [(3, 0, 1), (3, 0, 1)], both(refused(11, 1))),
    ("a total with an id", [(3, 1, 1)], both(refused(11, 0))),
    ("no kind", [(4, 0, 0)], [*both(refused(11, 0)), (("L.sheet:99",), refused(1, 0)), (("L.book:163", "L.fit:0"), refused(1, 0)), (("L.book", "L.fit:343"), refused(1, 20))]),
    ("a type without a line costs 0, a group without a line has no cap", [(0, 8, 65535), (1, 1, 0), (2, 2, 0), (3, 0, 0)], both(ALLOWED)),
    ("the modules' category is another", [(2, 0, 0)], [(("L-module-8.book", "L.fit"), ALLOWED), *both(breaks(0, 2))]),
    ("a third module", [(0, 9, 65535), (1, 0, 3), (3, 0, 131070)], [(SHEET, ALLOWED), (("L.book", "L-three.fit"), breaks(2, 196605))]),
]


def made(name):
    """A file of this folder, or what it begins with."""
    name, _, length = name.partition(":")
    data = (HERE / name).read_bytes()
    return data[:int(length)] if length else data


def answered(files, lines):
    return (rules.by_sheet if len(files) == 1 else rules.by_files)(*map(made, files), lines)


def write():
    (HERE / "L-module-8.book").write_bytes(marked.make_sheets.set_word(made("L.book"), 40, 8))
    out = ["# Made by cases/marked_rules.py, which says how it is read."]
    for name, lines, checks in EXAMPLES:
        out += ["", f"example {name}", *(f"line {kind} {i} {number}" for kind, i, number in lines)]
        for files, answer in checks:
            if answered(files, lines) != answer:
                sys.exit(f"{name}: the reference has {answered(files, lines)}, not {answer}")
            out.append(" ".join(["check", *files, *map(str, answer)]))
    (HERE / "rules.txt").write_text("\n".join(out) + "\n")


def read():
    """Lines, files and answer of each check of rules.txt."""
    lines = []
    for text in (HERE / "rules.txt").read_text().splitlines():
        word, *rest = text.split() or [""]
        if word == "example":
            lines = []
        elif word == "line":
            lines.append(tuple(map(int, rest)))
        elif word == "check":
            yield list(lines), rest[:-5], list(map(int, rest[-5:]))


def run():
    checks = list(read())
    words = compare_engine.build(False, "rules.c")
    blob = b"".join(rules.driven(lines, *map(made, files)) for lines, files, _ in checks)
    out = subprocess.run(words, input=blob, stdout=subprocess.PIPE, check=True).stdout
    found = [list(numbers) for numbers in struct.iter_unpack("<6Q", out)]
    bad = [f"{files} {lines}: expected {answer}, found {got}" for (lines, files, answer), got in zip(checks, found) if got != answer + [0]]
    print("\n".join([*bad, f"{len(checks)} checks of rules.txt, {len(bad)} differ"]))
    sys.exit(bool(bad) or len(found) != len(checks))


if __name__ == "__main__":
    run() if sys.argv[1:] == ["--library"] else write()
