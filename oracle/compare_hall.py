#!/usr/bin/env python3
"""Holds admissions and leavings against the reference (oracle/halls.py), every element.

Usage: compare_hall.py [--seed SEED] [--emulated] [HALLS]: so many sequences of calls (default 100,000), each on a hall of its own.
A hall has columns of unlike length, of 0 to 40 rows, a table of 16 to 20 places with rubbish behind those in use, and begins all free, or
somewhere in an evening, or spoilt: a count too high, a stretch moved, empty or doubled, a pilot's pair that differs, a pool told wrong.
Calls ask for numbers to 17 and beyond, for no rows, and for more than there are. After each call number, place and count, every
element of the table and of all 80 pairs, every element of the ten columns and every pilot's states must be the reference's, and nothing
beside what was lent written. Halls that differ go to target/compare. A hall is made of the seed and its number alone.
"""
import argparse
import collections
import pathlib
import random
import subprocess
import sys
import time

import compare_engine
from halls import LISTS, PILOTS, Hall

COLUMNS = 10
BATCH = 2000
ROOT = pathlib.Path(__file__).resolve().parent.parent
WILD = [2 ** 32 - 1, 2 ** 32 - 2, 2 ** 31, 900]


def spoilt(hall, r):
    """One thing of what is lent is no longer so."""
    kind = r.randrange(12)
    some = r.randrange(hall.count) if hall.count else 0
    if kind == 0:
        hall.count = r.choice([hall.count + 1, len(hall.table), len(hall.table) + 1, *WILD])
    elif kind == 1:
        hall.table[some] = [r.choice([0, 1, hall.rows, *WILD]), hall.table[some][1]]
    elif kind == 2:
        hall.table[some] = [hall.table[some][0], r.choice([0, 1, hall.rows + 1, *WILD])]
    elif kind == 3 and hall.count > 1:
        hall.table[0], hall.table[1] = hall.table[1], hall.table[0]
    elif kind == 4:
        hall.stretches[r.randrange(PILOTS)][r.randrange(LISTS)][r.randrange(2)] = r.choice([0, 1, 2, hall.rows, *WILD])
    elif kind == 5:
        hall.stretches[r.randrange(PILOTS)] = [[r.choice([0, 1, hall.rows, *WILD]), r.choice([0, 1, 2, *WILD])]] * LISTS
    elif kind == 6 and hall.count and hall.table[some][1] > 1:
        start, length = hall.table[some]
        hall.table[some:some + 1] = [[start, 1], [start + 1, length - 1]]
        hall.count += 1
        del hall.table[17:18]
    elif kind == 8 and hall.count < len(hall.table):
        hall.table[hall.count] = [hall.rows + 5, 0]
        hall.count += 1
    elif kind == 9 and hall.rows:
        row = r.randrange(hall.rows)
        hall.stretches[r.randrange(PILOTS)] = [[row, 1]] * LISTS
    elif kind == 10 and hall.count == len(hall.table):
        hall.count += 1
    elif kind == 11 and hall.count < len(hall.table):
        hall.count = len(hall.table)
    else:
        hall.table = hall.table[:16] if hall.count <= 16 else hall.table


def evening(hall, r, calls):
    """Calls on a hall, as the reference answers them, without the answers."""
    for _ in range(calls):
        pilot = r.randrange(PILOTS)
        if hall.seat(pilot)[1]:
            hall.leave(pilot)
        else:
            hall.admit(pilot, r.choice([1, 1, 2, 3, 5]))


def said(hall, counts, call):
    """What the reference says of a call: a line as the driver writes it. The hall is then as the call leaves it."""
    kind, told, pilot, length = call
    kept, hall.rows = hall.rows, told if kind == "a" else min(counts)
    number, place, cleared = (*hall.admit(pilot, length), None) if kind == "a" else hall.leave(pilot)
    hall.rows = kept
    flat = [n for s in hall.table for n in s] + [n for five in hall.stretches for pair in five for n in pair]
    columns = ["".join("0" if cleared and cleared[0] <= i < sum(cleared) else "=" for i in range(n)) for n in counts]
    states = "".join("0" if cleared and p == pilot else "=" for p in range(PILOTS))
    return " ".join(map(str, [number, place, hall.count, *flat])) + " " + "".join(" " + part for part in [*columns, states, "", ""])


def replayed(one, of):
    """The lines of the same calls, by another reference."""
    hall = of(*one.first)
    return [said(hall, one.counts, call) for call in one.calls]


class Sequence:
    def __init__(self, seed, number):
        r = random.Random(f"hall {seed} {number}")
        rows = r.choice([0, 1, 5, 10, 16, 33, 40])
        self.counts = [rows + r.choice([0, 0, 1, 3]) for _ in range(COLUMNS)]
        self.counts[r.randrange(COLUMNS)] = rows
        places = r.choice([17, 17, 17, 18, 20])
        self.hall = hall = Hall.start(rows, places, r.choice([(0, 0), (7, 7)]))
        if r.random() < 0.6:
            evening(hall, r, r.randrange(40))
        if r.random() < 0.1:
            hall.count, hall.table = 17, [[2 * i, 1] for i in range(17)] + hall.table[17:]
            hall.rows, self.counts = 33, [33] * COLUMNS
            hall.stretches = [[[2 * p + 1, 1]] * LISTS for p in range(PILOTS)]
        if r.random() < 0.25:
            spoilt(hall, r)
        hall.stretches = [[list(pair) for pair in five] for five in hall.stretches]
        self.begun = self.words_of()
        self.first = hall.rows, hall.table, hall.count, hall.stretches
        self.hall = Hall(*self.first)
        self.calls, self.expected = [], []
        for _ in range(r.randrange(1, 14)):
            self.calls.append(self.chosen(r))
            self.expected.append(said(self.hall, self.counts, self.calls[-1]))

    def words_of(self):
        hall = self.hall
        flat = [n for s in hall.table for n in s] + [n for five in hall.stretches for pair in five for n in pair]
        return ["H", *self.counts, len(hall.table), hall.count, *flat]

    def chosen(self, r):
        """A call that has some chance: kind, pool as told, pilot, length."""
        rows = min(self.counts)
        pilot = r.choice([*range(PILOTS), *range(PILOTS), *range(PILOTS), 16, 17, 2 ** 32 - 1])
        if r.random() < (0.25 if pilot >= PILOTS or not self.hall.seat(pilot)[1] else 0.7):
            return "l", 0, pilot, 0
        return "a", r.choice([rows] * 12 + [rows + 1, max(rows - 1, 0), 2 ** 32 - 1]), pilot, r.choice([0, 1, 1, 2, 3, 4, rows, rows + 1, 2 ** 32 - 1, r.randrange(rows + 2)])

    def text(self):
        return " ".join(map(str, self.begun)) + "\n" + "".join(" ".join(map(str, call)) + "\n" for call in self.calls) + ".\n"


def main():
    parser = argparse.ArgumentParser()
    parser.add_argument("--seed", type=int, default=1)
    parser.add_argument("--emulated", action="store_true")
    parser.add_argument("halls", nargs="?", type=int, default=100_000)
    given = parser.parse_args()
    words = compare_engine.build(given.emulated, "halls.c")
    seen, differ, calls, begun = collections.Counter(), [], 0, time.time()
    for first in range(0, given.halls, BATCH):
        made = [Sequence(given.seed, number) for number in range(first, min(first + BATCH, given.halls))]
        said = subprocess.run(words, input="".join(one.text() for one in made), stdout=subprocess.PIPE, text=True, check=True).stdout.split("\n")
        at = 0
        for number, one in enumerate(made, first):
            got = said[at:at + len(one.calls)]
            at += len(one.calls)
            calls += len(one.calls)
            seen.update(line.split(" ", 1)[0] for line in one.expected)
            if got != one.expected:
                differ.append(number)
                place = ROOT / "target" / "compare"
                place.mkdir(parents=True, exist_ok=True)
                (place / f"hall-{given.seed}-{number}").write_text(one.text() + "".join(f"- {a}\n+ {b}\n" for a, b in zip(one.expected, got) if a != b))
        if said[at:] != [""]:
            sys.exit("the driver said more, or less, than it was asked")
    counted = ", ".join(f"{number} {count}" for number, count in sorted(seen.items(), key=lambda item: int(item[0])))
    print(f"{given.halls} halls, {calls} calls ({counted}) in {time.time() - begun:.0f} s: {len(differ)} differ", *differ[:10])
    sys.exit(1 if differ else 0)


if __name__ == "__main__":
    main()
