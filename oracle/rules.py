#!/usr/bin/env python3
"""M-105 in Python, apart from the engine: a fit held against an organiser's lines, each (kind, id, number) with a signed id.

Usage: rules.py LINES SHEET, or rules.py LINES BOOK FIT: LINES has lines of three numbers of 32 bits. Prints number, place, allowed, line
and count.
"""
import pathlib
import struct
import sys

import pools
import reference
from reference import ITEM, Refusal

RULES = 11
POINTS, MOST, FORBIDDEN, TOTAL = range(4)
MOST_POINTS = 65535


def bad_line(lines):
    """The first bad line, or none."""
    for at, (kind, i, number) in enumerate(lines):
        if kind > TOTAL or at > 0 and lines[at - 1][:2] >= (kind, i):
            return at
        if kind == POINTS and number > MOST_POINTS or kind == TOTAL and i != 0:
            return at
    return None


def counted(run):
    """Type, group and quantity of each calculated item."""
    return [(t.type, t.group, t.quantity) for t in run.things if t.kind == ITEM and run.calculated(t)]


def tally(items, prices, kind, i):
    """What a line counts."""
    if kind == TOTAL:
        return sum(quantity * prices.get(kind_of, 0) for kind_of, _, quantity in items)
    return sum(quantity for _, group, quantity in items if group == i)


def broken(items, prices, line):
    """The count that breaks a line, or none."""
    kind, i, number = line
    most = 0 if kind == FORBIDDEN else number
    count = tally(items, prices, kind, i)
    return count if kind != POINTS and count > most else None


def checked(run, lines):
    """Number, place, allowed, line and count."""
    try:
        run.read()
    except Refusal as refusal:
        return [*refusal.answer, 0, 0, 0]
    bad = bad_line(lines)
    if bad is not None:
        return [RULES, bad, 0, 0, 0]
    items, prices = counted(run), {i: number for kind, i, number in lines if kind == POINTS}
    for at, line in enumerate(lines):
        count = broken(items, prices, line)
        if count is not None:
            return [0, 0, 0, at, count]
    return [0, 0, 1, 0, 0]


def by_sheet(sheet, lines):
    return checked(reference.Run(sheet, reference.AMPLE), lines)


def by_files(book, fit, lines):
    return checked(pools.FilesRun(book, fit, reference.AMPLE), lines)


def packed(lines):
    return b"".join(struct.pack("<III", kind, i & 0xffffffff, number) for kind, i, number in lines)


def driven(lines, *files):
    """What oracle/rules.c reads: how many lines and files, their lengths, and all of them."""
    return struct.pack(f"<{2 + len(files)}I", len(lines), len(files), *map(len, files)) + packed(lines) + b"".join(files)


def main():
    data, *files = (pathlib.Path(word).read_bytes() for word in sys.argv[1:])
    lines = list(struct.iter_unpack("<IiI", data))
    print(*(by_sheet if len(files) == 1 else by_files)(*files, lines))


if __name__ == "__main__":
    main()
