#!/usr/bin/env python3
"""Holds dogma_check_rules and dogma_check_rules_files against the reference (oracle/rules.py).

Usage: compare_rules.py [--seed SEED] [--workers N] [--emulated] [--from N] [TABLES]: so many tables of lines (default 100,000), each on a
fit of its own, as a sheet and cut into book and fit. Lines name types and groups that the fit has and has not, of items that count and of
objects that do not; caps and totals are just enough, one short, none or wide; quantities go up to 2^32 - 1. Tables are damaged (order,
pairs that stand twice, kinds, points, totals), and so are sheets, books and fits. One table in five hundred has some thousands of lines, on a
fit of up to 1,022 items. Calls that differ go to target/compare. The library is
the one of library/build; --emulated as in compare_engine.py. A table is made of the seed and its number alone.
"""
import collections
import pickle
import random
import struct
import subprocess

import batches
import compare_engine
import compare_pool
import make_sheets
import reference
import rules
from rules import FORBIDDEN, MOST, POINTS, TOTAL

TABLES_A_BATCH = 250
HIGHEST = 2 ** 32 - 1
LOW = 3
ENDS = [0, 1, -1, 2 ** 31 - 1, -2 ** 31, 7, 65536, 1021, 1024]


# ---- fits

def quantities(data, r):
    """Some objects have another quantity."""
    count, offset = struct.unpack_from("<II", data, 40)
    for k in range(count):
        if r.random() < 0.3:
            data = make_sheets.set_word(data, offset + 68 * k + 20, r.choice([0, 1, 2, 5, 100, 2 ** 31, HIGHEST, r.randrange(2 ** 32)]))
    return data


def groups(data, r):
    """Some objects have the group, or the type, of another, or one of the same remainder modulo 1,021."""
    count, offset = struct.unpack_from("<II", data, 40)
    for k in range(count):
        field = r.choice([4, 8])
        if r.random() < 0.2:
            other = struct.unpack_from("<i", data, offset + 68 * r.randrange(count) + field)[0]
            data = make_sheets.set_word(data, offset + 68 * k + field, other + r.choice([0, 0, 0, 1021, -1021, 2 * 1021]))
    return data


def is_crowded(number):
    """Whether a table is one of many lines on a fit of many objects."""
    return number % 500 == 13


def crowded(r):
    """Many items, whose ids are near one another, far apart, or alike modulo 1,021 or 1,024."""
    sheet = make_sheets.Sheet()
    apart, count = r.choice([1, 1021, 1024, 2 ** 20]), r.choice([60, 200, 400, 1022])
    ids = [min(r.randrange(-1022, 1022) * apart, 2 ** 31 - 1) for _ in range(count)] + [2 ** 31 - 1, -2 ** 31]
    records = [make_sheets.object_record(make_sheets.SHIP, 8, category=6), make_sheets.object_record(make_sheets.CHAR, 1)]
    records += [make_sheets.object_record(make_sheets.ITEM, r.choice(ids), r.choice(ids), r.choice([7, 7, 7, 3]), LOW, HIGHEST if r.random() < 0.002 else r.choice([1, 1, 2, 5]), 1, 1)
                for _ in range(count)]
    sheet.tables[5] = records
    return sheet.bytes()


def fit(r, number):
    if is_crowded(number):
        return crowded(r)
    kind = "small-real" if number % 100 == 7 else r.choice(["tiny", "tiny", "dense"])
    data = make_sheets.KINDS[kind](r)
    return groups(quantities(data, r), r) if r.random() < 0.8 else data


# ---- lines

class Lines:
    """A table for a sound sheet."""

    def __init__(self, r, data, many=False):
        self.r, self.many = r, many
        run = reference.Run(data, reference.AMPLE)
        run.read()
        self.items = rules.counted(run)
        self.types = [t.type for t in run.things]
        self.groups = [t.group for t in run.things]

    def id_of(self, known):
        r = self.r
        return r.choice(ENDS) if r.random() < 0.1 else r.randrange(-2 ** 31, 2 ** 31) if r.random() < 0.1 else r.choice(known) + r.choice([0, 0, 0, 0, 1, 1021])

    def limit(self, exact):
        r = self.r
        if self.many:
            return min(max(exact - (r.random() < 0.0005), 0), HIGHEST)
        wanted = r.choice([exact, exact, exact, exact - 1, exact + 1, 0, HIGHEST, r.randrange(2 ** 32)])
        return min(max(wanted, 0), HIGHEST)

    def make(self):
        r = self.r
        lengths = [0, 300, 1000, 1500, 3000, 6000] if self.many else [0, 1, 2, 3, 5, 12]
        some = lambda known: sorted({min(max(self.id_of(known), -2 ** 31), 2 ** 31 - 1) for _ in range(r.choice(lengths))})
        prices = {i: r.choice([0, 1, 2, 3, 10, 65535, r.randrange(65536)]) for i in some(self.types)}
        lines = [(POINTS, i, number) for i, number in sorted(prices.items())]
        lines += [(MOST, i, self.limit(rules.tally(self.items, prices, MOST, i))) for i in some(self.groups)]
        absent = [i for i in some(self.groups) if r.random() < (0 if self.many else 0.2) or rules.tally(self.items, prices, FORBIDDEN, i) == 0]
        lines += [(FORBIDDEN, i, r.choice([0, 0, 1, 9, HIGHEST])) for i in absent]
        if r.random() < 0.6:
            lines.append((TOTAL, 0, self.limit(rules.tally(self.items, prices, TOTAL, 0))))
        return lines


def swapped(lines, r):
    at = r.randrange(len(lines))
    lines[at - 1], lines[at] = lines[at], lines[at - 1]


def doubled(lines, r):
    at = r.randrange(len(lines))
    lines.insert(at, lines[at][:2] + (r.choice([lines[at][2], 0, 1]),))


def changed(lines, r):
    at, field = r.randrange(len(lines)), r.randrange(3)
    values = [[0, 1, 2, 3, 4, 5, 2 ** 31, HIGHEST], ENDS, [0, 1, 65535, 65536, HIGHEST]][field]
    lines[at] = lines[at][:field] + (r.choice(values),) + lines[at][field + 1:]


def damaged(lines, r):
    for _ in range(r.choice([1, 1, 2])):
        if lines:
            r.choice([swapped, doubled, changed, changed, changed])(lines, r)
        else:
            lines.append((r.choice([0, 3, 4]), r.choice(ENDS), r.choice([0, 65535, 65536])))
    return lines


# ---- calls

def bent(data, r, damages):
    try:
        return r.choice(damages)(data, r)
    except (struct.error, ValueError, IndexError):
        return data[:-1]


def calls_of(seed, number):
    """The lines, and the files of each of two calls: a sheet, and a book and a fit."""
    r = random.Random(f"rules {seed} {number}")
    data = fit(r, number)
    lines = Lines(r, data, is_crowded(number)).make()
    if r.random() < 0.2:
        lines = damaged(lines, r)
    book, part = compare_pool.split().cut(data)
    if r.random() < 0.08:
        data = bent(data, r, [damage for _, damage in make_sheets.DAMAGES])
    if r.random() < 0.05:
        book = compare_pool.damaged(book, r, 0)
    if r.random() < 0.05:
        part = compare_pool.damaged(part, r, 5)
    return lines, [(data,), (book, part)]


def wanted(lines, files):
    return rules.by_sheet(*files, lines) if len(files) == 1 else rules.by_files(*files, lines)


def ways(lines, files, answer):
    """What a call has of things that are easily got wrong."""
    number, place, allowed, line, count = answer
    if number == 1:
        return [f"SHAPE {place}"]
    if number == rules.RULES:
        return ["RULES"]
    if allowed:
        return ["allowed"] + ["allowed, no line"] * (not lines) + ["allowed, above 1,023 lines"] * (len(lines) > 1023) + ["allowed, with limits"] * any(kind != POINTS for kind, _, _ in lines)
    kind = ["", "a cap", "a forbidden group", "the total"][lines[line][0]]
    return [f"broken: {kind}"] + ["broken behind line 1,023"] * (line > 1023) + ["a count of 2^32 or more"] * (count >= 2 ** 32) + ["the first line"] * (line == 0)


def batch(job):
    words, seed, numbers = job
    clock = compare_engine.Clock()
    made = [calls_of(seed, number) for number in numbers]
    blob = b"".join(rules.driven(lines, *files) for lines, calls in made for files in calls)
    clock.note("make")
    out = subprocess.run(words, input=blob, stdout=subprocess.PIPE, check=True).stdout
    clock.note("engine")
    found = [list(numbers) for numbers in struct.iter_unpack("<6Q", out)]
    counts, differ, at = collections.Counter(), [], 0
    for number, (lines, calls) in zip(numbers, made):
        counts["tables"] += 1
        counts["lines"] += len(lines)
        for files in calls:
            answer = wanted(lines, files)
            if found[at:at + 1] != [answer + [0]]:
                differ.append(f"table {seed} {number}, {len(files)} files: expected {answer}, found {found[at:at + 1]}")
                (compare_engine.PLACE / f"rules-{seed}-{number}.pickle").write_bytes(pickle.dumps((lines, files)))
            counts["calls"] += 1
            counts.update(("way", way) for way in ways(lines, files, answer))
            at += 1
    if at != len(found):
        differ.append(f"tables {seed} {numbers[0]}: {len(found)} answers to {at} calls")
    clock.note("reference and compare")
    return counts, differ, clock.spent


def main():
    given = batches.given_words(__doc__, "TABLES")
    words = compare_engine.build(given.emulated, "rules.c")
    numbers = range(given.start, given.start + given.count)
    jobs = [(words, given.seed, numbers[at:at + TABLES_A_BATCH]) for at in range(0, given.count, TABLES_A_BATCH)]
    batches.compared(batch, jobs, given, lambda n: f"{n['tables']:,} tables with {n['lines']:,} lines, {n['calls']:,} calls")


if __name__ == "__main__":
    main()
