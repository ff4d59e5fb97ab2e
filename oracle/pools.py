#!/usr/bin/env python3
"""M-106 in Python, apart from the engine: a book and a fit as two files, and a pool in which each of 16 pilots has a stretch of every list.

Usage: pools.py BOOK FIT [collected rows entries plain sources]: prints what the oracle prints.
A stretch is a first row and a length; stretches are 16 pilots' five. A pool is ten columns of bytes and the states, one run of bytes.
"""
import functools
import pathlib
import struct
import sys

import reference
import sampled
from reference import LAYOUTS, SHAPE, TABLES, Refusal

CASES = pathlib.Path(__file__).resolve().parent.parent / "cases"
sys.path.insert(0, str(CASES))

POOL = 12
PILOTS, LISTS, OBJECTS = 16, 5, 1024
BOOK_HEADER, FIT_HEADER = 52, 48
COLUMNS_OF = [columns for _, columns in sampled.LISTS]
NAMES = [name for name, _ in sampled.LISTS]


# ---- the two files

def standing(data, first, header):
    """Whether five tables, the first by its number from 0, stand from the header's end on without gaps, and end the file."""
    if len(data) < header:
        return False
    words = struct.unpack_from("<10I", data, 0)
    end = header
    for at in range(5):
        if words[2 * at] > TABLES[first + at][1] or words[2 * at + 1] != end:
            return False
        end += words[2 * at] * LAYOUTS[first + at].size
    return end == len(data)


def five_tables(data, first):
    words = struct.unpack_from("<10I", data, 0)
    return [[LAYOUTS[first + t].unpack_from(data, words[2 * t + 1] + k * LAYOUTS[first + t].size) for k in range(words[2 * t])] for t in range(5)]


def fit_header_good(fit):
    if not standing(fit, 5, FIT_HEADER):
        return False
    depth, recording = struct.unpack_from("<II", fit, 40)
    return 1 <= depth <= 256 and recording <= 1


class FilesRun(reference.Run):
    """A run over a book and a fit. SHAPE of the book comes first; of the fit the place is 20 more."""

    def __init__(self, book, fit, rooms):
        super().__init__(None, rooms)
        self.book, self.fit = book, fit

    def read(self):
        if not standing(self.book, 0, BOOK_HEADER):
            raise Refusal(SHAPE, 0)
        records = five_tables(self.book, 0)
        bad = reference.bad_book(records)
        if bad is not None:
            raise Refusal(SHAPE, bad)
        if not fit_header_good(self.fit):
            raise Refusal(SHAPE, 20)
        objects = five_tables(self.fit, 5)
        bad = reference.bad_fit(objects)
        if bad is not None:
            raise Refusal(SHAPE, 20 + bad)
        self.take(records + objects, *struct.unpack_from("<iii", self.book, 40), *struct.unpack_from("<II", self.fit, 40))


def answer(book, fit, rooms=reference.AMPLE):
    return reference.answered(FilesRun(book, fit, rooms))


# ---- the stretches

def rows_of(stretch):
    return range(stretch[0], stretch[0] + stretch[1])


def in_common(a, b):
    """Whether two stretches have a row in common."""
    return a[1] > 0 and b[1] > 0 and (a[0] in rows_of(b) or b[0] in rows_of(a))


def astray(rooms, stretches, pilot):
    """Whether a stretch of the pilot has a row outside the pool, or one of a lower pilot's stretch of the same list."""
    for own, room, others in zip(stretches[pilot], rooms, zip(*stretches[:pilot]) if pilot else [()] * LISTS):
        if own[1] > 0 and rows_of(own)[-1] >= room or any(in_common(own, other) for other in others):
            return True
    return False


def pool_bad(rooms, stretches, pilot):
    """POOL's place, or none. The rooms are the pool's, of each list its shortest column."""
    if pilot >= PILOTS or all(length == 0 for _, length in stretches[pilot]):
        return pilot
    return next((p for p in range(PILOTS) if astray(rooms, stretches, p)), None)


# ---- a call

@functools.cache
def widths():
    """The bytes of an element of each column."""
    import check_kept
    return [4 * width for width in check_kept.WIDTHS]


def columns_of(found):
    """The used part of each column, as bytes."""
    numbers = lambda rows: b"".join(struct.pack(f"<{len(row[0])}I", *map(sampled.u32, row[0])) for row in rows)
    floats = lambda rows, *at: b"".join(struct.pack("<d", row[1][k]) for row in rows for k in at)
    plain = b"".join(struct.pack("<2I", *map(sampled.u32, pair)) for pair in found.plain)
    return [numbers(found.collected), floats(found.collected, 0), numbers(found.rows), floats(found.rows, 0), floats(found.rows, 1),
            numbers(found.entries), floats(found.entries, 0), plain, numbers(found.sources), floats(found.sources, 0, 1)]


class Pool:
    """Ten columns, whatever they hold, and the states of 16 pilots."""

    def __init__(self, columns, states):
        self.columns, self.states = [bytearray(column) for column in columns], bytearray(states)

    def lengths(self):
        return [len(column) // width for column, width in zip(self.columns, widths())]

    def rooms(self):
        return sampled.rooms(self.lengths())

    def calculate(self, stretches, book, fit, pilot, answers=answer):
        """The seven numbers of the answer; what the call writes is written."""
        bad = pool_bad(self.rooms(), stretches, pilot)
        if bad is not None:
            return [POOL, bad, 0, 0, 0, 0, 0]
        found = answers(book, fit, tuple(length for _, length in stretches[pilot]))
        used = columns_of(found)
        for (first, length), columns in zip(stretches[pilot], COLUMNS_OF):
            for c in columns if length > 0 else ():
                width = widths()[c]
                self.columns[c][width * first:width * (first + length)] = used[c].ljust(width * length, b"\0")
        states = b"".join(struct.pack("<2I", *pair) for pair in found.states).ljust(8 * OBJECTS, b"\0")
        self.states[8 * OBJECTS * pilot:8 * OBJECTS * (pilot + 1)] = states
        return [found.number, found.place, *(len(getattr(found, name)) for name in NAMES)]


def driven(pool, calls):
    """What oracle/pools.c reads: a pool, and calls on it, each stretches, book, fit and pilot."""
    parts = [struct.pack("<11I", *pool.lengths(), len(calls)), *pool.columns, pool.states]
    for stretches, book, fit, pilot in calls:
        numbers = [number for lists in stretches for stretch in lists for number in stretch]
        parts += [struct.pack(f"<{3 + len(numbers)}I", pilot, len(book), len(fit), *numbers), book, fit]
    return b"".join(parts)


def main():
    book, fit = (pathlib.Path(word).read_bytes() for word in sys.argv[1:3])
    rooms = tuple(map(int, sys.argv[3:8])) if len(sys.argv) > 3 else reference.AMPLE
    sys.stdout.write(answer(book, fit, rooms).text())


if __name__ == "__main__":
    main()
