#!/usr/bin/env python3
"""Measures how the oracle with its own powers and clamps differs from the patched one.

Usage: measure.py PROGRAM KIND SEED COUNT, the program one that build.py made with --leave: over the sheets that the reference does not refuse, the share of sheets and of rows whose value has
other bits, the greatest relative difference, and how many differ in the sign of a zero alone.
"""
import struct
import sys

import compare
import make_sheets
import reference

def rows_of(text):
    return [line.split() for line in text.splitlines() if line.startswith("R ")]


def number(bits):
    return struct.unpack(">d", bytes.fromhex(bits))[0]


def main():
    program = sys.argv[1]
    kind, seed, count = sys.argv[2], sys.argv[3], int(sys.argv[4])
    sheets = other = rows = differ = zeros = status = elsewhere = 0
    greatest, at = 0.0, None
    for start in range(0, count, compare.BATCH):
        names = range(start, min(start + compare.BATCH, count))
        batch = [(n, data) for n, data in ((n, make_sheets.sheet(kind, seed, n)) for n in names) if reference.answer(data).number == 0]
        datas = [data for _, data in batch]
        for (n, _), patched, plain in zip(batch, compare.ask(datas), compare.ask(datas, program)):
            sheets += 1
            rows += len(rows_of(patched))
            if patched == plain:
                continue
            other += 1
            if plain.split("\n")[0] != "0 0":
                status += 1
                continue
            here = 0
            for a, b in zip(rows_of(patched), rows_of(plain)):
                if a[8] != b[8]:
                    here += 1
                    x, y = number(a[8]), number(b[8])
                    if x == y:
                        zeros += 1
                    else:
                        share = abs(x - y) / max(abs(x), abs(y))
                        if share > greatest:
                            greatest, at = share, n
            differ += here
            elsewhere += here == 0
    print(f"{program}, {kind} seed {seed}: {sheets} sheets not refused of {count}, {other} differ ({other / sheets:.2%}), status {status}, in source rows alone {elsewhere}; "
          f"{rows} rows, {differ} values differ ({differ / rows:.3%}), {zeros} of them in the sign of zero alone; greatest relative difference {greatest:.3g} (sheet {at})")


if __name__ == "__main__":
    main()
