#!/usr/bin/env python3
"""Runs the kept sheets through the library by oracle/engine.c and compares every number. Needs no oracle.

Usage: check_kept.py [FILE], FILE cases/kept.bin where none is said. The gate does the same by the program `replay`.
"""
import pathlib
import struct
import sys

HERE = pathlib.Path(__file__).resolve().parent
sys.path.insert(0, str(HERE.parent / "oracle"))
import compare_engine
import make_kept

WIDTHS = [14, 2, 6, 2, 2, 12, 2, 2, 11, 4]


class Kept:
    """A case as it stands in the file, from a place on."""

    def __init__(self, blob, at):
        head = struct.unpack_from("<19I", blob, at)
        length, self.lent, counts = head[0], list(head[1:11]), head[13:18]
        self.data = blob[at + 76:at + 76 + length]
        rows = [counts[k] for k in (0, 0, 1, 1, 1, 2, 2, 3, 4, 4)]
        words = 2 * head[18] + sum(width * count for width, count in zip(WIDTHS, rows))
        self.end = at + 76 + length + -length % 4 + 4 * words
        self.bytes = blob[at:self.end]


def main():
    blob = pathlib.Path(sys.argv[1] if len(sys.argv) > 1 else HERE / "kept.bin").read_bytes()
    cases, at = [], 0
    while at < len(blob):
        cases.append(Kept(blob, at))
        at = cases[-1].end
    texts = compare_engine.ask_engine(compare_engine.build(False), [case.data for case in cases], [case.lent for case in cases], 1)
    differ = 0
    for number, (case, text) in enumerate(zip(cases, texts)):
        if b"!" in text or make_kept.encoded(case, text.decode()) != case.bytes:
            differ += 1
            print(f"differs: {number}: {text.splitlines()[0].decode()}")
    print(f"{len(cases)} kept sheets, {differ} differ")
    sys.exit(differ > 0)


if __name__ == "__main__":
    main()
