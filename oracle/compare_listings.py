#!/usr/bin/env python3
"""Runs `sheet figures` and `checker` (crates/NAME/out/NAME, made by `rt run` in crates/NAME) and holds what they say to the reference.

Usage: compare_listings.py [--seed SEED] [--figures] [RUNS]: every sheet of cases/, and so many made ones (default 1,000) with six listings each, as
compare_check.py makes them. What `sheet figures` writes must be the reference's rows with the bits of their values; `checker` must accept
it wherever the reference does; and on every listing its line must be, byte for byte, the one of docs/FORMAT.md, section 16. Texts with a bad
line must be refused with its number. --figures: `sheet figures` alone. DOGMA_SHEET and DOGMA_CHECKER name other builds of the programs.
"""
import argparse
import collections
import itertools
import os
import pathlib
import random
import subprocess
import sys
import tempfile

import checks
import compare_check
import reference

ROOT = pathlib.Path(__file__).resolve().parent.parent
LENT, LINES = 4096, 4097


def program(variable, name):
    return [os.environ[variable]] if variable in os.environ else [ROOT / "library/emulated", "run", ROOT / "crates" / name / "out" / name]


SHEET, CHECKER = program("DOGMA_SHEET", "sheet"), program("DOGMA_CHECKER", "checker")
BAD = b"listing, line %d: not an object, an attribute and 16 hexadecimal digits\n"
NO_LINES = [b"", b"0 37", b"0 37 405 ", b"-1 37 4059000000000000", b"0 37 405900000000000g", b"0 37 40590000000000000", b" 0 37 4059000000000000",
            b"0  37 4059000000000000", b"4294967296 37 4059000000000000", b"0 2147483648 4059000000000000", b"0 37 4059000000000000 "]


def line(row):
    return b"%d %d %016x" % row


def listing(lines, end=b"\n"):
    return b"".join(line(row) + end for row in lines)


def own(sheet):
    """Our run's lines, with 4,096 rows in every list, or the line of its refusal."""
    answer = reference.answer(sheet, (LENT,) * 5)
    if answer.number:
        return None, b"refused %d %d\n" % (answer.number, answer.place)
    return [(numbers[0], numbers[1], checks.bits_of(floats[-1])) for numbers, floats in answer.rows], None


def verdict(sheet, lines):
    """Standard output and standard error."""
    if len(lines) > LINES:
        return b"", BAD % (LINES + 1)
    return line_of(sheet, lines), b""


def line_of(sheet, lines):
    answer = checks.checked(sheet, (LENT,) * 4, lines)
    if answer.number == 0:
        return b"accepted\n"
    if answer.number != checks.LISTING:
        return b"refused %d %d\n" % (answer.number, answer.place)
    rows = own(sheet)[0] or []
    stands = [line(some[answer.place]) if answer.place < len(some) else none for some, none in ((lines, b"no line"), (rows, b"no row"))]
    return b"refused 15 %d: listed %s, a run has %s\n" % (answer.place, *stands)


def check(sheet, text, place):
    (place / "sheet").write_bytes(sheet)
    (place / "listing").write_bytes(text)
    done = subprocess.run([*CHECKER, place / "sheet", place / "listing"], stdout=subprocess.PIPE, stderr=subprocess.PIPE)
    return done.stdout, done.stderr


def figures(sheet):
    return subprocess.run([*SHEET, "figures"], input=sheet, stdout=subprocess.PIPE).stdout


def tried(sheet, r, place, only_figures):
    """What of a sheet is not as expected: its own figures, then listings of all kinds, then a bad line."""
    rows, refused = own(sheet)
    text = figures(sheet)
    yield "refused figures" if refused else "figures", None if text == (refused or listing(rows)) else f"figures {text[:60]}"
    if only_figures:
        return
    for lines in [*([rows] if rows is not None else []), *compare_check.listings_of(sheet, r)]:
        want = verdict(sheet, lines)
        found = check(sheet, text if lines is rows else listing(lines, r.choice([b"\n", b"\r\n"])), place)
        yield " ".join(b"".join(want).decode().split()[:2]), None if found == want else f"expected {want}, found {found}"
        if lines:
            at = r.randrange(min(len(lines), LINES))
            bad = listing(lines[:at]) + r.choice(NO_LINES) + b"\n" + listing(lines[at:])
            found = check(sheet, bad, place)
            yield "bad lines", None if found == (b"", BAD % (at + 1)) else f"bad line {at + 1}: found {found}"


def main():
    arguments = argparse.ArgumentParser(description=__doc__, formatter_class=argparse.RawDescriptionHelpFormatter)
    arguments.add_argument("--seed", default="1")
    arguments.add_argument("--figures", action="store_true")
    arguments.add_argument("runs", nargs="?", type=int, default=1000)
    given = arguments.parse_args()
    cases = [(path.name, path.read_bytes()) for path in sorted((ROOT / "cases").glob("*.sheet"))]
    rest = ((f"run {given.seed} {n}", compare_check.calls_of(given.seed, n)[0][0]) for n in range(given.runs))
    counts, differ = collections.Counter(), []
    with tempfile.TemporaryDirectory() as folder:
        for name, sheet in itertools.chain(cases, rest):
            counts["sheets"] += 1
            for kind, what in tried(sheet, random.Random(f"listings {given.seed} {name}"), pathlib.Path(folder), given.figures):
                counts[kind] += 1
                if what:
                    differ.append(f"{name}: {what}")
    print("\n".join([*differ[:20], *(f"{name} {n}" for name, n in counts.items()), f"{len(differ)} differ"]))
    sys.exit(bool(differ))


if __name__ == "__main__":
    main()
