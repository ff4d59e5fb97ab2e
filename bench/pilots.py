#!/usr/bin/env python3
"""Times a pilot's call beside dogma_calculate on the same records, and prints the table of docs/SPEED.md, "Several pilots".

Usage: pilots.py [--seconds S] [NAME ..]: S seconds for each sheet (default 1); with names, of the kinds of bench/sheets.py only these.
Each sheet is cut into book and fit (cases/split.py). Where valgrind is at hand instructions are counted too. The library is the one of
library/build.
"""
import sys

import sheets
from sheets import HERE
from timed import built, given_words, instructions, print_head, timed, written

sys.path.insert(0, str(HERE.parent / "cases"))
import split

SHEET, PILOT, NO_FIT, NO_BOOK, ASTRAY = range(5)


def line(name, data, program, seconds):
    book, fit = split.cut(data)
    files = written(name, (".sheet", data), (".book", book), (".fit", fit))
    rounds, _, (sheet, pilot, _, _, astray, ratio, book_share, _) = timed(name, program, seconds, files)
    n = instructions(program, 5, files)
    counted = "not counted | |"
    if n:
        counted = f"{n[SHEET]:,}, {n[PILOT]:,}, **{n[PILOT] / n[SHEET]:.3f}** | {(n[NO_FIT] - n[NO_BOOK]) / n[PILOT]:.1%} | {n[ASTRAY]:,} |"
    print(f"| {name} | {len(book):,}, {len(fit):,} | {sheet[0] / 1e3:.1f} µs, {pilot[0] / 1e3:.1f} µs | **{ratio[0]:.3f}** ({ratio[1]:.3f} to {ratio[2]:.3f}) | "
          f"{book_share[0]:.1%} | {astray[0] / 1e3:.2f} µs | {counted} {rounds} |", flush=True)


def main():
    given = given_words(__doc__)
    program = built("pilots")
    print_head("pilots", given.seconds, ["sheet", "bytes of book, fit", "`dogma_calculate`, `dogma_calculate_pilot`", "ratio", "SHAPE of the book", "POOL's tests",
                                         "instructions: sheet, pilot, ratio", "SHAPE of the book", "POOL's tests", "rounds"])
    for name, _, data in sheets.kinds():
        if "recorded" not in name and (not given.names or name in given.names):
            line(name, data, program, given.seconds)


if __name__ == "__main__":
    main()
