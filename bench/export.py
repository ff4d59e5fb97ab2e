#!/usr/bin/env python3
"""Times dogma_export beside dogma_calculate on the same sheet, and prints the table of docs/SPEED.md, "Spreadsheets".

Usage: export.py [--seconds S] [NAME ..]: S seconds for each sheet (default 1), with names only these; each with 2,048 labels of 8 to 30 bytes, among them those of the
sheet's own attributes; one in ten is quoted. Where valgrind is at hand instructions are counted too. The library is that of library/build.
"""
import random
import struct

import sheets
from timed import built, given_words, instructions, print_head, timed, written

COUNT = 2048


def labels(data):
    """2,048 labels, the sheet's own attributes first."""
    some = random.Random("bench export")
    count, offset = struct.unpack_from("<II", data, 48)
    own = {struct.unpack_from("<i", data, offset + 12 * k)[0] for k in range(count)}
    rows, offset = struct.unpack_from("<II", data, 0)
    own |= {struct.unpack_from("<i", data, offset + 24 * k)[0] for k in range(rows)}
    ids = sorted(own)[:COUNT]
    while len(ids) < COUNT:
        ids.append(some.choice([10000, 100000]) + len(ids))
    texts = [("attribute %d, m/s" if some.random() < 0.1 else "attribute %d") % i + "x" * some.randrange(12) for i in sorted(set(ids))]
    table, at = [], 0
    for i, text in zip(sorted(set(ids)), texts):
        table.append(struct.pack("<iII", i, at, len(text)))
        at += len(text)
    return struct.pack("<II", len(table), at) + b"".join(table) + "".join(texts).encode()


def line(name, data, program, seconds):
    files = written(f"export {name}", (".sheet", data), (".labels", labels(data)))
    rounds, (rows, length), (calculated, exported, plain, ratio) = timed(name, program, seconds, files, 2)
    n = instructions(program, 3, files)
    counted = f"{n[0]:,}, {n[1] - n[0]:,}, **{(n[1] - n[0]) / n[0]:.2f}** ({(n[2] - n[0]) / n[0]:.2f})" if n else "not counted"
    print(f"| {name} | {int(rows):,} | {int(length):,} | {calculated[0] / 1e3:.1f} µs, {exported[0] / 1e3:.1f} µs | "
          f"**{ratio[0]:.2f}** ({ratio[1]:.2f} to {ratio[2]:.2f}) | {plain[0] / 1e3:.1f} µs | {counted} | {rounds} |", flush=True)


def main():
    given = given_words(__doc__)
    program = built("export")
    print_head("export", given.seconds, ["sheet", "rows", "bytes of text", "`dogma_calculate`, `dogma_export`", "the text to the run", "no labels",
                                         "instructions: run, text, ratio (no labels)", "rounds"])
    for name, _, data in sheets.kinds():
        if not given.names or name in given.names:
            line(name, data, program, given.seconds)


if __name__ == "__main__":
    main()
