#!/usr/bin/env python3
"""Times writing a sheet beside a run of dogma_calculate on it, and prints the table of docs/SPEED.md, "Writing sheets".

Usage: write.py [--seconds S] [NAME ..]: S seconds for each sheet (default 1); with names, of the kinds of bench/sheets.py only these.
Where valgrind is at hand instructions are counted too. The library is the one of library/build.
"""
import sheets
from timed import built, given_words, instructions, print_head, timed, written


def line(name, data, program, seconds):
    files = written(name, (".sheet", data))
    rounds, _, (writing, run, ratio) = timed(name, program, seconds, files)
    n = instructions(program, 2, files)
    counted = f"{n[0]:,}, {n[1]:,}, **{n[0] / n[1]:.3f}**" if n else "not counted"
    print(f"| {name} | {len(data):,} | {writing[0] / 1e3:.2f} µs, {run[0] / 1e3:.1f} µs | **{ratio[0]:.3f}** ({ratio[1]:.3f} to {ratio[2]:.3f}) | {counted} | {rounds} |", flush=True)


def main():
    given = given_words(__doc__)
    program = built("write")
    print_head("write", given.seconds, ["sheet", "bytes", "writing, `dogma_calculate`", "ratio", "instructions: writing, run, ratio", "rounds"])
    for name, _, data in sheets.kinds():
        if not given.names or name in given.names:
            line(name, data, program, given.seconds)


if __name__ == "__main__":
    main()
