#!/usr/bin/env python3
"""Times dogma_check on a sheet's own listing beside dogma_calculate, and prints the table of docs/SPEED.md, "Another planner's figures".

Usage: check.py [--seconds S] [NAME ..]: S seconds for each sheet (default 1); with names, of the kinds of bench/sheets.py only these.
Where valgrind is at hand instructions are counted too. The library is the one of library/build. A sheet with a loop is refused.
"""
import sheets
from timed import built, given_words, instructions, print_head, timed, written


def line(name, data, program, seconds):
    files = written(name, (".sheet", data))
    rounds, answer, (calculated, checked, ratio) = timed(name, program, seconds, files, 2)
    n = instructions(program, 2, files)
    counted = f"{n[0]:,}, {n[1]:,}, **{n[1] / n[0]:.2f}**" if n else "not counted"
    said = "accepted" if answer == ["0", "0"] else f"refused {' '.join(answer)}"
    print(f"| {name} | {said} | {calculated[0] / 1e3:.1f} µs, {checked[0] / 1e3:.1f} µs | **{ratio[0]:.2f}** ({ratio[1]:.2f} to {ratio[2]:.2f}) | {counted} | {rounds} |", flush=True)


def main():
    given = given_words(__doc__)
    program = built("check")
    print_head("check", given.seconds, ["sheet", "answer", "`dogma_calculate`, `dogma_check`", "ratio", "instructions: calculation, check, ratio", "rounds"])
    for name, _, data in sheets.kinds():
        if not given.names or name in given.names:
            line(name, data, program, given.seconds)


if __name__ == "__main__":
    main()
