#!/usr/bin/env python3
"""M-100 in Python, apart from the engine: tables as they are lent, and the bytes of their sheet, their book or their fit, or the refusal.

A table is a column of rows of 32-bit numbers in the order of document 01's fields, and, where it has a float, a column of floats beside, each
by its 64 bits. Signed numbers go by their 32 bits.
"""
import struct

from reference import LAYOUTS, ROOM, SHAPE, TABLES, bad_book, bad_fit

SHEET_LIST = 6
# of each table: how many numbers a row has, and after how many of them its float stands, if it has one
ROWS = [(4, 2), (6, None), (7, None), (3, None), (4, None), (17, None), (1, 1), (1, None), (1, 1), (2, None)]
# the thirteen columns as they are lent: table, and whether it is the float's
COLUMNS = [(t, floats) for t in range(10) for floats in ((False,) if ROWS[t][1] is None else (False, True))]
# of a sheet, a book, a fit: its tables, its numbers behind the pairs, the bytes of its header, and what is added to a place
KINDS = [(range(10), range(5), 100, 0), (range(5), range(3), 52, 0), (range(5, 10), range(3, 5), 48, 20)]
SHEET, BOOK, FIT = range(3)


class Tables:
    """Five header numbers; of each table its rows, and its floats by their bits (none where it has no float)."""

    def __init__(self, header, rows, floats):
        self.header, self.rows, self.floats = header, rows, floats

    def count(self, t):
        return len(self.rows[t])

    def alike(self, t):
        return ROWS[t][1] is None or len(self.rows[t]) == len(self.floats[t])

    def record(self, t, k):
        """The bytes of record k of a table."""
        before = ROWS[t][1]
        words = [struct.pack("<I", number) for number in self.rows[t][k]]
        if before is not None:
            words.insert(before, struct.pack("<Q", self.floats[t][k]))
        return b"".join(words)

    def records(self, t):
        return [self.record(t, k) for k in range(self.count(t))]


def header_fits(tables, kind):
    own, numbers, _, _ = KINDS[kind]
    if any(not tables.alike(t) or tables.count(t) > TABLES[t][1] for t in own):
        return False
    return kind == BOOK or 1 <= tables.header[3] <= 256 and tables.header[4] <= 1


def bad(tables, kind):
    """SHAPE's place, or none."""
    own, _, _, more = KINDS[kind]
    if not header_fits(tables, kind):
        return more
    read = {t: [LAYOUTS[t].unpack(record) for record in tables.records(t)] for t in own}
    place = None
    if kind != FIT:
        place = bad_book([read[t] for t in range(5)])
    if place is None and kind != BOOK:
        place = bad_fit([read[t] for t in range(5, 10)])
    return None if place is None else place + more


def bytes_of(tables, kind):
    own, numbers, end, _ = KINDS[kind]
    pairs, body = [], []
    for t in own:
        pairs += [tables.count(t), end]
        end += tables.count(t) * LAYOUTS[t].size
        body += tables.records(t)
    return struct.pack(f"<{len(pairs)}I", *pairs) + struct.pack(f"<{len(numbers)}I", *(tables.header[i] for i in numbers)) + b"".join(body)


def write(tables, kind, room):
    """Number, place and length, and the lent bytes after the call."""
    place = bad(tables, kind)
    if place is not None:
        return (SHAPE, place, 0), bytes(room)
    data = bytes_of(tables, kind)
    if len(data) > room:
        return (ROOM, SHEET_LIST, 0), bytes(room)
    return (0, 0, len(data)), data + bytes(room - len(data))


def unsigned(number):
    return number & 0xffffffff


def pattern(x):
    return struct.unpack("<Q", struct.pack("<d", x))[0]


def tables_of(sheet):
    """The tables of a sheet that make_sheets.py makes."""
    rows, floats = [], []
    for t, table in enumerate(sheet.tables):
        before = ROWS[t][1]
        floats.append([pattern(record[before]) for record in table] if before is not None else [])
        rows.append([[unsigned(number) for i, number in enumerate(record) if i != before] for record in table])
    return Tables([*map(unsigned, sheet.categories), sheet.depth, sheet.recording], rows, floats)


def driven(tables, kind, room):
    """What writes.c reads of one call."""
    words = [kind, room]
    parts = []
    for t, floats in COLUMNS:
        words.append(len(tables.floats[t] if floats else tables.rows[t]))
        if floats:
            parts.append(struct.pack(f"<{len(tables.floats[t])}Q", *tables.floats[t]))
        else:
            parts.append(b"".join(struct.pack(f"<{ROWS[t][0]}I", *row) for row in tables.rows[t]))
    return struct.pack(f"<{len(words)}I", *words) + struct.pack("<5I", *tables.header) + b"".join(parts)
