#!/usr/bin/env python3
"""Holds the writers of sheets, books and fits against the reference (oracle/writes.py), byte by byte.

Usage: compare_write.py [--seed SEED] [--workers N] [--emulated] [--from N] [--reference EVERY] [TABLES]: so many tables (default 100,000).
The tables are those of made sheets, and half of them are damaged: fields that are too large, records doubled or in another order, floats
that are not finite, columns of unlike length, a table left out, one record too many, odd header numbers. Each is written as a sheet, as a
book and as a fit, with bytes enough, to the byte, one too few, none. Number, place, length and every lent byte must be the reference's, and
nothing else written: not around the bytes, not in the tables. Each sheet that is written goes through dogma_calculate, and is never SHAPE; of
every EVERY-th (default 20) number, place and counts are held against the reference's. The library is the one of library/build; --emulated as in
compare_engine.py. Tables are made of the seed and their number alone.
"""
import argparse
import collections
import multiprocessing
import pickle
import platform
import random
import struct
import subprocess
import sys
import time

import compare_engine
import make_sheets
import reference
import writes
from reference import TABLES
from writes import ROWS

A_BATCH = 200
ROOM = 4096
HEAD = struct.Struct("<11Q")
ODD = [0, 1, 2, 3, 4, 5, 7, 11, 12, 100, 2 ** 31 - 1, 2 ** 31, 2 ** 32 - 2, 2 ** 32 - 1]
PATTERNS = [0x7ff0000000000000, 0xfff0000000000000, 0x7ff8000000000000, 0xfff8000000000001, 0x7ff0000000000001, 0x8000000000000000, 1,
            0x800fffffffffffff, 0x7fefffffffffffff]


# ---- damages

def some(tables, r, wanted=lambda t: True):
    """A table that has records, or none."""
    full = [t for t in range(10) if tables.rows[t] and wanted(t)]
    return r.choice(full) if full else None


def field(tables, r):
    t = some(tables, r)
    if t is not None:
        row = r.choice(tables.rows[t])
        row[r.randrange(len(row))] = r.choice(ODD)


def floated(tables, r):
    t = some(tables, r, lambda t: tables.floats[t])
    if t is not None:
        tables.floats[t][r.randrange(len(tables.floats[t]))] = r.choice(PATTERNS)


def doubled(tables, r):
    t = some(tables, r)
    if t is not None:
        k = r.randrange(len(tables.rows[t]))
        tables.rows[t].insert(k, list(tables.rows[t][k]))
        if ROWS[t][1] is not None and k < len(tables.floats[t]):
            tables.floats[t].insert(k, tables.floats[t][k])


def swapped(tables, r):
    t = some(tables, r)
    if t is not None:
        a, b = r.randrange(len(tables.rows[t])), r.randrange(len(tables.rows[t]))
        tables.rows[t][a], tables.rows[t][b] = tables.rows[t][b], tables.rows[t][a]


def unlike(tables, r):
    t = r.choice([0, 6, 8])
    if r.random() < 0.5 and tables.floats[t]:
        tables.floats[t].pop()
    else:
        tables.floats[t].append(r.choice(PATTERNS))


def left_out(tables, r):
    t = r.randrange(10)
    tables.rows[t], tables.floats[t] = [], []


def too_many(tables, r):
    """One more than the most, or just the most."""
    t = r.choice([1, 4, 8])
    most = TABLES[t][1] + r.choice([0, 1])
    row = tables.rows[t][-1] if tables.rows[t] else [0] * ROWS[t][0]
    if len(tables.rows[t]) < most:
        tables.rows[t] += [list(row) for _ in range(most - len(tables.rows[t]))]
    if ROWS[t][1] is not None:
        tables.floats[t] = (tables.floats[t] + [0] * most)[:most]


def numbers(tables, r):
    tables.header[r.choice([0, 1, 2, 3, 3, 4, 4])] = r.choice([0, 1, 2, 255, 256, 257, 2 ** 31, 2 ** 32 - 1])


def asked(tables, r):
    tables.rows[9].append([r.choice([0, len(tables.rows[5]), len(tables.rows[5]) - 1 if tables.rows[5] else 0, 2 ** 32 - 1]), r.choice(ODD)])


DAMAGES = [*[field] * 8, *[floated] * 3, doubled, swapped, swapped, unlike, left_out, too_many, numbers, asked]


class Case:
    """Tables, and three calls with them."""

    def __init__(self, seed, number):
        r = random.Random(f"write {seed} {number}")
        kind = "small-real" if number % 100 == 7 else "limits" if number % 2500 == 11 else r.choice(["tiny", "tiny", "dense"])
        if kind == "small-real":
            sheet = make_sheets.Real(r, 30).make()
        elif kind == "limits":
            sheet = make_sheets.Real(r, 250).make()
        else:
            sheet = make_sheets.Dense(r, kind == "tiny").make()
        self.tables = writes.tables_of(sheet)
        for _ in range(r.choice([0, 1, 1, 2])):
            r.choice(DAMAGES)(self.tables, r)
        self.calls = []
        for kind in range(3):
            need = len(writes.bytes_of(self.tables, kind)) if writes.header_fits(self.tables, kind) else 0
            self.calls.append((kind, max(0, r.choice([need, need, need, need + 1, need + r.randrange(200), need - 1, need // 2, 0]))))

    def driven(self):
        return b"".join(writes.driven(self.tables, kind, room) for kind, room in self.calls)

    def differs(self, out, at, whole):
        """What differs, or none; what each call was answered; and where the next case's output begins."""
        bad, answers = None, []
        for kind, room in self.calls:
            found = HEAD.unpack_from(out, at)
            written = bytes(out[at + HEAD.size:at + HEAD.size + room])
            at += HEAD.size + room
            wanted, data = writes.write(self.tables, kind, room)
            if bad is None and (found[:3] != wanted or found[3] or written != data):
                bad = f"call {kind}: expected {wanted}, found {found[:3]}" + (", and something else was written" if found[3] else "")
            calculated = None
            if kind == writes.SHEET and wanted[0] == 0:
                calculated = found[4]
                if bad is None and calculated == reference.SHAPE:
                    bad = f"the written sheet is refused: {found[4:6]}"
                if bad is None and whole:
                    ours = reference.answer(data[:wanted[2]], (ROOM,) * 5)
                    counts = [0] * 5 if ours.number else [len(ours.collected), len(ours.rows), len(ours.entries), len(ours.plain), len(ours.sources)]
                    if [*found[4:]] != [ours.number, ours.place, *counts]:
                        bad = f"the written sheet: expected {[ours.number, ours.place, *counts]}, found {found[4:]}"
            answers.append((kind, wanted, calculated))
        return bad, answers, at


def batch(job):
    words, seed, some_numbers, every = job
    cases = [Case(seed, number) for number in some_numbers]
    out = memoryview(subprocess.run(words, input=b"".join(case.driven() for case in cases), stdout=subprocess.PIPE, check=True).stdout)
    counts, differ, at = collections.Counter(), [], 0
    for number, case in zip(some_numbers, cases):
        bad, answers, at = case.differs(out, at, number % every == 0)
        if bad is not None:
            differ.append(f"tables {seed} {number}: {bad}")
            (compare_engine.PLACE / f"write-{seed}-{number}.pickle").write_bytes(pickle.dumps((case.tables, case.calls)))
        counts["tables"] += 1
        for kind, wanted, calculated in answers:
            counts["answer", kind, *wanted[:2]] += 1
            if calculated is not None:
                counts["calculated", calculated] += 1
    counts["bytes"] = len(out)
    if at != len(out):
        differ.append(f"tables {seed} {some_numbers[0]}: {len(out) - at} bytes more than expected")
    return counts, differ


def main():
    arguments = argparse.ArgumentParser(description=__doc__, formatter_class=argparse.RawDescriptionHelpFormatter)
    arguments.add_argument("--seed", default="1")
    arguments.add_argument("--workers", type=int, default=2)
    arguments.add_argument("--emulated", action="store_true")
    arguments.add_argument("--from", dest="start", type=int, default=0, metavar="N")
    arguments.add_argument("--reference", type=int, default=20, metavar="EVERY")
    arguments.add_argument("tables", nargs="?", type=int, default=100000)
    given = arguments.parse_args()
    words = compare_engine.build(given.emulated, "writes.c")
    all_numbers = range(given.start, given.start + given.tables)
    jobs = [(words, given.seed, all_numbers[at:at + A_BATCH], given.reference) for at in range(0, given.tables, A_BATCH)]
    total, differ, started = collections.Counter(), 0, time.time()
    with multiprocessing.Pool(given.workers) as workers:
        for counts, differing in workers.imap_unordered(batch, jobs):
            total.update(counts)
            differ += len(differing)
            for line in differing[:max(0, 20 - differ + len(differing))]:
                print(line, flush=True)
    print(f"On {platform.machine()}: {compare_engine.library_text(given.emulated)}.")
    print(f"Seed {given.seed}: {total['tables']:,} tables, each written as a sheet, a book and a fit, {total['bytes']:,} bytes compared; {differ} differ; "
          f"{time.time() - started:.0f} s.")
    for kind, name in enumerate(["sheet", "book", "fit"]):
        found = sorted((key[2:], n) for key, n in total.items() if key[0] == "answer" and key[1] == kind)
        print(f"{name}: " + ", ".join(f"{number} {place}: {n:,}" for (number, place), n in found) + ".")
    print("Written sheets by dogma_calculate's answer: " + ", ".join(f"{key[1]}: {n:,}" for key, n in sorted((key, n) for key, n in total.items() if key[0] == "calculated")) + ".")
    sys.exit(differ > 0)


if __name__ == "__main__":
    main()
