#!/usr/bin/env python3
"""Holds calls for pilots over one pool against the reference (oracle/pools.py), byte by byte.

Usage: compare_pool.py [--seed SEED] [--workers N] [--emulated] [--from N] [CALLS]: so many calls (default 100,000), in pools of a dozen.
Each pool has a book, some fits over it, and a row of calls that each find the pool as the one before left it; before the first it
is full of rubbish. The columns of a list are of unlike length. Between calls stretches move, overlap, leave the pool, are empty with a
wild first, or are as short as a row too few; numbers above 15 and pilots without a stretch are asked for; books and fits are damaged.
After each call the seven numbers and every byte of all ten columns and of the states of all 16 pilots must be the reference's, and
nothing else written: between the columns, in the files or in the stretches. Pools that differ go to target/compare. The library is
the one of library/build; --emulated as in compare_engine.py. A pool is made of the seed and its number alone.
"""
import argparse
import collections
import functools
import multiprocessing
import pickle
import platform
import random
import struct
import subprocess
import sys
import time

import compare_engine
import make_sheets
import pools
from pools import LISTS, PILOTS

CALLS_A_POOL = 12
POOLS_A_BATCH = 25
WILD = [2 ** 32 - 1, 2 ** 32 - 2, 2 ** 31, 900, 77]


# ---- files

def files(kind, r, count):
    """A book and so many fits over it."""
    if kind == "small-real":
        book, fit = split().cut(make_sheets.Real(r, 30).make().bytes())
        return book, [fit] * count
    maker = make_sheets.Dense(r, kind == "tiny")
    sheet = maker.make()
    fits = []
    for _ in range(count):
        sheet.tables[5:] = [[] for _ in range(5)]
        maker.objects()
        ids = [record[0] for record in sheet.tables[4]]
        sheet.tables[8] = [[r.choice(ids + [77]), maker.number()] for _ in range(r.choice([0, 1, 3]))] if ids else []
        sheet.tables[9] = [[r.randrange(len(sheet.tables[5])), r.choice(maker.ids)] for _ in range(r.choice([0, 0, 1, 4]))]
        sheet.depth, sheet.recording = r.choice([256, 256, 256, 20, 5, 3, 2, 1]), r.randint(0, 1)
        book, fit = split().cut(sheet.bytes())
        fits.append(fit)
    return book, fits


@functools.cache
def split():
    import split as module
    return module


def record_at(data, r, first):
    """Where some record stands, and the number of its table from 0; none where all tables are empty."""
    words = struct.unpack_from("<10I", data, 0)
    tables = [t for t in range(5) if words[2 * t] > 0]
    if not tables:
        return None
    t = r.choice(tables)
    return words[2 * t + 1] + r.randrange(words[2 * t]) * pools.LAYOUTS[first + t].size, first + t


def word_of(data, r, first):
    """A field of some record becomes a number that is often too large."""
    place = record_at(data, r, first)
    if place is None:
        return data
    at, table = place
    field = 4 * r.randrange(pools.LAYOUTS[table].size // 4)
    return make_sheets.set_word(data, at + field, r.choice([0, 1, 2, 3, 4, 5, 7, 12, 100, 2 ** 31, 2 ** 32 - 1, 0x7ff00000, 0xfff80000]))


def doubled(data, r, first):
    """A record is written over its neighbour: ids stand twice, objects out of order."""
    place = record_at(data, r, first)
    size = pools.LAYOUTS[place[1]].size if place else 0
    if place is None or place[0] + 2 * size > len(data):
        return data
    at = place[0]
    return data[:at + size] + data[at:at + size] + data[at + 2 * size:]


DAMAGES = [
    *[word_of] * 9, doubled, doubled,
    lambda d, r, first: d[:-1],
    lambda d, r, first: d + b"\0",
    lambda d, r, first: d[:r.randrange(len(d) + 1)],
    lambda d, r, first: d[:r.choice([0, 1, 39, 40, 47, 48, 51, 52])],
    lambda d, r, first: make_sheets.set_word(d, 8 * r.randrange(5), r.choice([0, 1, 3, 65, 2 ** 31, 2 ** 32 - 1, 178956971])),
    lambda d, r, first: make_sheets.set_word(d, 8 * r.randrange(5) + 4, r.choice([0, 48, 52, 100, 2 ** 32 - 1])),
    lambda d, r, first: make_sheets.set_word(d, r.choice([40, 44]), r.choice([0, 1, 2, 256, 257, 2 ** 32 - 1])),
]


def damaged(data, r, first):
    for _ in range(r.choice([1, 1, 2])):
        if len(data) < 52:
            break
        data = r.choice(DAMAGES)(data, r, first)
    return data


# ---- pools

class Calls:
    """A pool and a row of calls on it."""

    def __init__(self, seed, number):
        r = self.r = random.Random(f"pool {seed} {number}")
        kind = "small-real" if number % 250 == 7 else r.choice(["tiny", "tiny", "dense"])
        self.answers = functools.cache(pools.answer)
        self.book, self.fits = files(kind, r, r.choice([1, 2, 3, 4]))
        self.others = [files("tiny", r, 1)[0] if r.random() < 0.3 else self.book]
        self.needs = [self.need_of(fit) for fit in self.fits]
        self.seats = r.sample(range(PILOTS), r.choice([1, 2, 3, 3, 4, 5, 8, 16]))
        self.of = {pilot: r.randrange(len(self.fits)) for pilot in self.seats}
        self.stretches = [[[0, 0] for _ in range(LISTS)] for _ in range(PILOTS)]
        self.lay()
        lengths = [0] * 10
        for room, columns in zip(self.room, pools.COLUMNS_OF):
            for c in columns:
                lengths[c] = room + r.choice([0, 0, 1, 3])
            lengths[r.choice(columns)] = room
        content = [r.randbytes(length * width) for length, width in zip(lengths, pools.widths())]
        self.pool = pools.Pool(content, r.randbytes(8 * pools.OBJECTS * PILOTS))
        self.calls = [self.call() for _ in range(CALLS_A_POOL)]

    def need_of(self, fit):
        """The rows that the fit takes of each list, or took until it was refused."""
        found = self.answers(self.book, fit, pools.reference.AMPLE)
        return found.reached if found.number else [len(getattr(found, name)) for name in pools.NAMES]

    def length(self, need):
        r = self.r
        return max(0, need + r.choice([0, 0, 0, 0, 1, 2, 5, -1, -need // 2, -need] if r.random() < 0.25 else [0, 0, 1, 3]))

    def lay(self):
        """Stretches that do not overlap, in any order of the pilots, with and without gaps; the pool may end with the last."""
        r = self.r
        self.room = []
        for l in range(LISTS):
            at = 0
            for pilot in r.sample(self.seats, len(self.seats)):
                at += r.choice([0, 0, 0, 1, 4])
                length = self.length(self.needs[self.of[pilot]][l])
                self.stretches[pilot][l] = [at, length] if length or r.random() < 0.5 else [r.choice(WILD), 0]
                at += length
            self.room.append(at + r.choice([0, 0, 1, 7]))

    def bent(self):
        """The stretches as they stand, or with something wrong, or with a change that must not matter."""
        r = self.r
        table = [[list(stretch) for stretch in some] for some in self.stretches]
        pilot, l = r.choice(self.seats), r.randrange(LISTS)
        stretch = table[pilot][l]
        way = r.choice(["touch", "overlap", "leave", "far", "long", "idle", "none", "twin"])
        other = table[r.choice(self.seats)][l]
        if way == "touch":
            stretch[0] = other[0] + other[1]
        elif way == "overlap":
            stretch[0] = max(0, other[0] + other[1] - 1)
        elif way == "leave":
            stretch[0] = max(0, self.room[l] - stretch[1] + r.choice([0, 1]))
        elif way == "far":
            stretch[0] = r.choice(WILD)
        elif way == "long":
            stretch[1] = r.choice([stretch[1] + 1, 2 ** 32 - 1, 2 ** 32 - stretch[0] if stretch[0] else 2 ** 31])
        elif way == "idle":
            table[r.randrange(PILOTS)][l] = [r.choice(WILD + [0]), r.choice([0, 0, 0, 1])]
        elif way == "none":
            table[pilot] = [[r.choice(WILD), 0] for _ in range(LISTS)]
        else:
            table[r.randrange(PILOTS)] = [list(some) for some in table[pilot]]
        return table

    def moved(self):
        """Two pilots change places in one list, if both still fit there; their lengths stay."""
        r = self.r
        table = [[list(stretch) for stretch in some] for some in self.stretches]
        a, b, l = r.choice(self.seats), r.choice(self.seats), r.randrange(LISTS)
        table[a][l][0], table[b][l][0] = table[b][l][0], table[a][l][0]
        if pools.pool_bad(self.room, table, a) is None:
            self.stretches = table

    def call(self):
        r = self.r
        if r.random() < 0.3:
            self.moved()
        stretches = self.bent() if r.random() < 0.25 else self.stretches
        pilot = r.choice(self.seats)
        fit = self.fits[self.of[pilot]] if r.random() < 0.8 else r.choice(self.fits)
        book = self.book if r.random() < 0.9 else self.others[0]
        if r.random() < 0.12:
            book = damaged(book, r, 0)
        if r.random() < 0.15:
            fit = damaged(fit, r, 5)
        if r.random() < 0.02:
            book, fit = r.choice([(fit, book), (fit, fit), (split().joined(self.book, self.fits[0]), fit), (book, split().joined(self.book, self.fits[0]))])
        if r.random() < 0.08:
            pilot = r.choice([r.randrange(PILOTS), 16, 17, 255, 2 ** 31, 2 ** 32 - 1])
        return stretches, book, fit, pilot

    def differs(self, out, at):
        """The first call that differs, or none; what each was answered; and where the next pool's output begins."""
        answers, bad = [], None
        for number, (stretches, book, fit, pilot) in enumerate(self.calls):
            before = sum(map(len, self.pool.columns)) + len(self.pool.states)
            wanted = self.pool.calculate(stretches, book, fit, pilot, self.answers)
            found = list(struct.unpack_from("<8Q", out, at))
            whole = out[at + 64:at + 64 + before]
            if bad is None and (found != wanted + [0] or whole != b"".join([*self.pool.columns, self.pool.states])):
                bad = f"call {number}, pilot {pilot}: expected {wanted}, found {found[:7]}" + (", and something else was written" if found[7] else "")
            answers.append((wanted[0], self.ways(stretches, pilot, wanted)))
            at += 64 + before
        return bad, answers, at

    def ways(self, stretches, pilot, wanted):
        """What the call has of things that are easily got wrong."""
        number, place, *counts = wanted
        if number == pools.POOL:
            if pilot >= PILOTS:
                return ["POOL, number above 15"]
            if not any(length for _, length in stretches[pilot]):
                return ["POOL, no stretch"]
            leaves = any(length > 0 and first + length > room for (first, length), room in zip(stretches[place], self.room))
            return ["POOL, a stretch leaves" if leaves else "POOL, stretches overlap"] + ["POOL by another pilot"] * (place != pilot)
        found = [f"SHAPE {place}"] * (number == 1) + [f"ROOM {place}"] * (number == 7)
        lists = [[pilot[l] for pilot in stretches if pilot[l][1] > 0] for l in range(LISTS)]
        found += ["stretches touch"] * any(a[0] + a[1] == b[0] for some in lists for a in some for b in some)
        found += ["a stretch ends the pool"] * any(a[0] + a[1] == room for some, room in zip(lists, self.room) for a in some)
        found += ["a list empty"] * any(length == 0 for _, length in stretches[pilot])
        return found + ["a list full to the row"] * any(count == length > 0 for count, (_, length) in zip(counts, stretches[pilot]))


def batch(job):
    words, seed, numbers = job
    clock = compare_engine.Clock()
    made = [Calls(seed, number) for number in numbers]
    blob = b"".join(pools.driven(some.pool, some.calls) for some in made)
    clock.note("make")
    out = memoryview(subprocess.run(words, input=blob, stdout=subprocess.PIPE, check=True).stdout)
    clock.note("engine")
    counts, differ, at = collections.Counter(), [], 0
    for number, some in zip(numbers, made):
        bad, answers, at = some.differs(out, at)
        if bad is not None:
            differ.append(f"pool {seed} {number}: {bad}")
            (compare_engine.PLACE / f"pool-{seed}-{number}.pickle").write_bytes(pickle.dumps((some.pool.lengths(), some.calls)))
        counts["pools"] += 1
        counts["pilots seated"] += len(some.seats)
        for answer, ways in answers:
            counts["calls"] += 1
            counts["answer", answer] += 1
            counts.update(("way", way) for way in ways)
    counts["bytes compared"] = len(out)
    if at != len(out):
        differ.append(f"pools {seed} {numbers[0]}: {len(out) - at} bytes more than expected")
    clock.note("reference and compare")
    return counts, differ, clock.spent


def main():
    arguments = argparse.ArgumentParser(description=__doc__, formatter_class=argparse.RawDescriptionHelpFormatter)
    arguments.add_argument("--seed", default="1")
    arguments.add_argument("--workers", type=int, default=2)
    arguments.add_argument("--emulated", action="store_true")
    arguments.add_argument("--from", dest="start", type=int, default=0, metavar="N")
    arguments.add_argument("calls", nargs="?", type=int, default=100000)
    given = arguments.parse_args()
    words = compare_engine.build(given.emulated, "pools.c")
    count = -(-given.calls // CALLS_A_POOL)
    numbers = range(given.start, given.start + count)
    jobs = [(words, given.seed, numbers[at:at + POOLS_A_BATCH]) for at in range(0, count, POOLS_A_BATCH)]
    total, spent, differ = collections.Counter(), collections.Counter(), 0
    started = time.time()
    with multiprocessing.Pool(given.workers) as workers:
        for counts, differing, seconds in workers.imap_unordered(batch, jobs):
            total.update(counts)
            spent.update(seconds)
            differ += len(differing)
            for line in differing[:max(0, 20 - differ + len(differing))]:
                print(line, flush=True)
    wall = time.time() - started
    by_answer = ", ".join(f"{answer}: {total['answer', answer]:,}" for answer in range(13) if total["answer", answer])
    others = ", ".join(f"{key[1]} {total[key]:,}" for key in sorted((key for key in total if key[0] == "way"), key=lambda key: (len(key[1]), key[1])))
    print(f"On {platform.machine()}: {compare_engine.library_text(given.emulated)}.")
    print(f"Seed {given.seed}: {total['calls']:,} calls in {total['pools']:,} pools with {total['pilots seated']:,} pilots, {total['bytes compared']:,} bytes compared; "
          f"{differ} pools differ; {wall:.0f} s.")
    print(f"Calls by answer: {by_answer}. Of them: {others}.")
    print("Seconds of processor time by part: " + ", ".join(f"{part} {seconds:.0f}" for part, seconds in spent.items()) + ".")
    sys.exit(differ > 0)


if __name__ == "__main__":
    main()
