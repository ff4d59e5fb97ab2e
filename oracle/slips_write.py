#!/usr/bin/env python3
"""Slips put into the reference's writer (oracle/writes.py) one at a time: each must be seen by the tables that compare_write.py makes.

Usage: slips_write.py [SEED [TABLES]]: for each slip the first of TABLES tables (default 2,000) on which it shows.
"""
import compare_write
import slipping
import writes

LIKE = "return ROWS[t][1] is None or len(self.rows[t]) == len(self.floats[t])"
FITS = "if any(not tables.alike(t) or tables.count(t) > TABLES[t][1] for t in own):"
NUMBERS = "return kind == BOOK or 1 <= tables.header[3] <= 256 and tables.header[4] <= 1"
PLACE = "    place = bad(tables, kind)\n    if place is not None:\n        return (SHAPE, place, 0), bytes(room)\n    data = bytes_of(tables, kind)\n    if len(data) > room:\n        return (ROOM, SHEET_LIST, 0), bytes(room)\n"

SLIPS = [
    # SHAPE over tables
    ("unlike columns are cut to the shortest", LIKE, "return True"),
    ("unlike columns of table 9 are let in", LIKE, "return t == 8 or " + LIKE[7:]),
    ("one record more than the most", FITS, FITS.replace("> TABLES[t][1]", "> TABLES[t][1] + 1")),
    ("one record less than the most", FITS, FITS.replace("> TABLES[t][1]", ">= TABLES[t][1]")),
    ("depth 0", NUMBERS, NUMBERS.replace("1 <= tables", "0 <= tables")),
    ("depth 257", NUMBERS, NUMBERS.replace("256", "257")),
    ("recording 2", NUMBERS, NUMBERS.replace("<= 1", "<= 2")),
    ("a book's depth is tested", NUMBERS, NUMBERS.replace("kind == BOOK or ", "")),
    ("a fit's header has place 0", "        return more\n", "        return 0\n"),
    ("a fit's place is 21 more", "return None if place is None else place + more", "return None if place is None else place + more + (more > 0)"),
    ("a fit's tables have no 20", "return None if place is None else place + more", "return place"),
    ("a book's tables are not judged", "        place = bad_book([read[t] for t in range(5)])\n", "        pass\n"),
    ("a fit's tables are not judged", "        place = bad_fit([read[t] for t in range(5, 10)])\n", "        pass\n"),
    ("the fit before the book", "    if kind != FIT:\n        place = bad_book([read[t] for t in range(5)])\n    if place is None and kind != BOOK:\n        place = bad_fit([read[t] for t in range(5, 10)])\n",
     "    if kind != BOOK:\n        place = bad_fit([read[t] for t in range(5, 10)])\n    if place is None and kind != FIT:\n        place = bad_book([read[t] for t in range(5)])\n"),
    # the bytes
    ("a float's halves change places", 'struct.pack("<Q", self.floats[t][k])', 'struct.pack("<Q", self.floats[t][k])[4:] + struct.pack("<Q", self.floats[t][k])[:4]'),
    ("-0.0 becomes 0.0", 'struct.pack("<Q", self.floats[t][k])', 'struct.pack("<Q", self.floats[t][k] if self.floats[t][k] != 2 ** 63 else 0)'),
    ("a number's bytes in the other order", 'words = [struct.pack("<I", number)', 'words = [struct.pack(">I", number)'),
    ("three numbers before the default", "ROWS = [(4, 2)", "ROWS = [(4, 3)"),
    ("the value before the attribute", "(1, 1), (1, None)", "(1, 0), (1, None)"),
    ("offsets begin at 0", "    own, numbers, end, _ = KINDS[kind]\n    pairs", "    own, numbers, end, _ = KINDS[kind]\n    end = 0\n    pairs"),
    ("a book's offsets begin at 48", "(range(5), range(3), 52, 0)", "(range(5), range(3), 48, 0)"),
    ("an empty table has no offset", "pairs += [tables.count(t), end]", "pairs += [tables.count(t), end if tables.count(t) else 0]"),
    ("offsets count records", "end += tables.count(t) * LAYOUTS[t].size", "end += tables.count(t)"),
    ("the offset before the count", "pairs += [tables.count(t), end]", "pairs += [end, tables.count(t)]"),
    ("recording before depth", "*(tables.header[i] for i in numbers)", "*(tables.header[i] for i in sorted(numbers, key=lambda i: (i > 2, -i if i > 2 else i)))"),
    ("the numbers before the pairs", 'return struct.pack(f"<{len(pairs)}I", *pairs) + struct.pack(f"<{len(numbers)}I", *(tables.header[i] for i in numbers))',
     'return struct.pack(f"<{len(numbers)}I", *(tables.header[i] for i in numbers)) + struct.pack(f"<{len(pairs)}I", *pairs)'),
    # room, and what is left
    ("ROOM before SHAPE", PLACE, "    data = bytes_of(tables, kind) if header_fits(tables, kind) else b\"\"\n    if len(data) > room:\n        return (ROOM, SHEET_LIST, 0), bytes(room)\n    place = bad(tables, kind)\n    if place is not None:\n        return (SHAPE, place, 0), bytes(room)\n"),
    ("a byte too few is room", "if len(data) > room:", "if len(data) > room + 1:"),
    ("to the byte is no room", "if len(data) > room:", "if len(data) >= room:"),
    ("ROOM with list 5", "SHEET_LIST = 6", "SHEET_LIST = 5"),
    ("the length is the room", "return (0, 0, len(data)), data", "return (0, 0, room), data"),
    ("the length is told after SHAPE", "return (SHAPE, place, 0), bytes(room)", "return (SHAPE, place, room), bytes(room)"),
    ("ones behind the sheet", "data + bytes(room - len(data))", 'data + b"\\1" * (room - len(data))'),
    ("ROOM leaves what fits", "return (ROOM, SHEET_LIST, 0), bytes(room)", "return (ROOM, SHEET_LIST, 0), data[:room]"),
]



def answer(module, case):
    """What each call gives, or that it cannot be said."""
    tables, given = module.Tables(case.tables.header, case.tables.rows, case.tables.floats), []
    for kind, room in case.calls:
        try:
            given.append(module.write(tables, kind, room))
        except Exception as error:
            given.append(type(error).__name__)
    return given


if __name__ == "__main__":
    seed, count = slipping.words(2000)
    slipping.report(SLIPS, writes, "table", [compare_write.Case(seed, number) for number in range(count)], answer)
