#!/usr/bin/env python3
"""Holds the reference against the oracle, bit for bit.

Usage: compare.py [--guarded] KIND SEED COUNT [FIRST]. Sheets that the reference refuses with SHAPE are not given to the oracle;
NUMBER and DEPTH, which the Rust does not have, are only counted. Everything else must be the same text.
With --guarded, lent lengths go with each sheet and only SHAPE is left out.
"""
import collections
import pathlib
import struct
import subprocess
import sys
import tempfile

import make_sheets
import reference
import sampled

ROOT = pathlib.Path(__file__).resolve().parent.parent
PROGRAMS = ROOT / "target" / "oracle"
BATCH = 2000


def ask(sheets, program="oracle", rooms=None):
    """The oracle's answers to many sheets."""
    with tempfile.NamedTemporaryFile() as file:
        for at, data in enumerate(sheets):
            file.write(struct.pack("<I", len(data)) + (struct.pack("<5I", *rooms[at]) if rooms else b"") + data)
        file.flush()
        command = [str(PROGRAMS / program), "--lent" if rooms else "--batch", file.name]
        out = subprocess.run(command, capture_output=True, check=True).stdout.decode()
    answers = out.split("end\n")
    if len(answers) != len(sheets) + 1:
        raise RuntimeError("the oracle did not answer every sheet")
    return answers[:-1]


def batch(kind, seed, numbers, guarded):
    """Numbers, sheets, rooms and the reference's answers."""
    for n in numbers:
        data = make_sheets.sheet(kind, seed, n)
        rooms = sampled.rooms(sampled.lengths(kind, seed, n, data)) if guarded else reference.AMPLE
        yield n, data, rooms, reference.answer(data, rooms)


def main():
    guarded = sys.argv[1] == "--guarded"
    kind, seed, count, first = (sys.argv[1 + guarded:] + ["0"])[:4]
    count, first = int(count), int(first)
    numbers, rows, differ = collections.Counter(), collections.Counter(), 0
    apart = (1,) if guarded else (1, 8, 9)
    for start in range(first, first + count, BATCH):
        some = list(batch(kind, seed, range(start, min(start + BATCH, first + count)), guarded))
        numbers.update(answer.number for _, _, _, answer in some)
        some = [one for one in some if one[3].number not in apart]
        datas, rooms = [one[1] for one in some], [one[2] for one in some]
        theirs = ask(datas, "guarded", rooms) if guarded else ask(datas)
        for (n, _, _, answer), text in zip(some, theirs):
            for name in ("states", "collected", "plain", "rows", "entries", "sources"):
                rows[name] += len(getattr(answer, name))
            if answer.text() != text:
                differ += 1
                if differ <= 5:
                    print("differs:", kind, seed, n, "reference", answer.number, answer.place, "oracle", text.split("\n")[0])
    print(f"{'guarded ' if guarded else ''}{kind} seed {seed} from {first}: {count} sheets, numbers {dict(sorted(numbers.items()))}, "
          f"rows {dict(rows)}, {differ} differ")
    sys.exit(differ > 0)


if __name__ == "__main__":
    main()
