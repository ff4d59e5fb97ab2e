#!/usr/bin/env python3
"""The marked examples of M-100: tables, bytes lent and the answer, as a file.

Usage: marked_writes.py: writes writes.txt beside this file; each answer is the reference's, and is held to the one that the request's reading
names. marked_writes.py --library: runs writes.txt's calls through the library by oracle/writes.c; every lent byte is compared.
writes.txt: `tables` and a name; `header` and its five numbers; each column by its name, an element a word, a row's numbers with commas
between, a float by the 16 digits of its bits, `N*` before an element that stands N times; columns that are left out are empty. Then `write`, what is
written (sheet, book or fit), how many bytes are lent, number, place and length, and, where it is written, the file of this folder that has
the same bytes; behind them the lent bytes are zero.
"""
import copy
import itertools
import pathlib
import struct
import subprocess
import sys

HERE = pathlib.Path(__file__).resolve().parent
sys.path.insert(0, str(HERE.parent / "oracle"))
import compare_engine
import make_sheets
import reference
import writes
from writes import BOOK, FIT, SHEET

NAMES = ["attributes", "defaults", "effects", "modifiers", "type_effects", "buff_collections", "objects", "base_attributes", "base_values", "ids",
         "buffs", "buff_values", "asks"]
KINDS = ["sheet", "book", "fit"]
NAN = 0x7ff8000000000000
HEAD = struct.Struct("<11Q")


def read_back(name):
    """The tables of a sheet of this folder."""
    data = (HERE / f"{name}.sheet").read_bytes()
    sheet = make_sheets.Sheet()
    sheet.tables = [list(map(list, table)) for table in reference.tables_of(data)]
    *sheet.categories, sheet.depth, sheet.recording = struct.unpack_from("<iiiII", data, 80)
    return writes.tables_of(sheet)


def case_l(change=lambda tables: None):
    tables = copy.deepcopy(read_back("L"))
    change(tables)
    return tables


def with_float(t, k, bits):
    return lambda tables: tables.floats[t].__setitem__(k, bits)


def with_number(t, k, field, number):
    return lambda tables: tables.rows[t][k].__setitem__(field, number)


def with_header(i, number):
    return lambda tables: tables.header.__setitem__(i, number)


def turned(tables):
    tables.rows[0].reverse()


def many(tables):
    tables.rows[0], tables.floats[0] = [[0, 0, 0, 0]] * 2049, [0] * 2049


def no_objects(tables):
    tables.rows[5] = []


DONE, FULL = (0, 0), (7, 6)
# name, tables, and calls: what is written, bytes lent, number and place, and the file that has the bytes
EXAMPLES = [
    ("L", case_l(), [(SHEET, 508, DONE, "L.sheet"), (SHEET, 600, DONE, "L.sheet"), (SHEET, 507, FULL, None), (SHEET, 0, FULL, None),
                     (BOOK, 164, DONE, "L.book"), (BOOK, 200, DONE, "L.book"), (BOOK, 163, FULL, None),
                     (FIT, 344, DONE, "L.fit"), (FIT, 400, DONE, "L.fit"), (FIT, 343, FULL, None)]),
    ("L-default-nan", case_l(with_float(0, 0, NAN)), [(SHEET, 508, (1, 1), None), (BOOK, 164, (1, 1), None), (FIT, 344, DONE, "L.fit")]),
    ("L-ids-descend", case_l(turned), [(SHEET, 508, (1, 1), None), (SHEET, 0, (1, 1), None), (BOOK, 0, (1, 1), None)]),
    ("L-depth-0", case_l(with_header(3, 0)), [(SHEET, 508, (1, 0), None), (BOOK, 164, DONE, "L.book"), (FIT, 344, (1, 20), None)]),
    ("L-depth-257", case_l(with_header(3, 257)), [(SHEET, 508, (1, 0), None), (FIT, 344, (1, 20), None)]),
    ("L-recording-2", case_l(with_header(4, 2)), [(SHEET, 508, (1, 0), None), (FIT, 344, (1, 20), None)]),
    ("L-many-attributes", case_l(many), [(SHEET, 508, (1, 0), None), (BOOK, 164, (1, 0), None)]),
    ("L-unlike-columns", case_l(lambda tables: tables.floats[6].append(NAN)), [(SHEET, 508, (1, 0), None), (FIT, 344, (1, 20), None)]),
    ("L-ask-of-object-4", case_l(lambda tables: tables.rows[9].append([4, 1])), [(SHEET, 516, (1, 10), None), (FIT, 352, (1, 30), None)]),
    ("L-bases-outside", case_l(with_number(5, 2, 11, 2)), [(SHEET, 508, (1, 6), None), (FIT, 344, (1, 26), None)]),
    ("L-default-2", case_l(with_number(3, 0, 2, 2)), [(SHEET, 508, (1, 4), None), (BOOK, 164, (1, 4), None)]),
    ("L-no-objects", case_l(no_objects), [(SHEET, 236, (1, 6), None), (FIT, 72, (1, 26), None)]),
    ("empty", read_back("written-empty"), [(SHEET, 236, DONE, "written-empty.sheet")]),
    ("bits", read_back("written-bits"), [(SHEET, 260, DONE, "written-bits.sheet")]),
]


def words_of(elements):
    """Each run of the same once, with how many they are."""
    for element, run in itertools.groupby(elements):
        count = len(list(run))
        yield element if count == 1 else f"{count}*{element}"


def columns_of(tables):
    for name, (t, floats) in zip(NAMES, writes.COLUMNS):
        elements = [f"{bits:016x}" for bits in tables.floats[t]] if floats else [",".join(map(str, row)) for row in tables.rows[t]]
        if elements:
            yield f"{name} " + " ".join(words_of(elements))


def text():
    lines = ["# Made by cases/marked_writes.py, which says how it is read."]
    for name, tables, calls in EXAMPLES:
        lines += ["", f"tables {name}", "header " + " ".join(map(str, tables.header)), *columns_of(tables)]
        for kind, room, wanted, file in calls:
            answer, data = writes.write(tables, kind, room)
            bytes_there = (HERE / file).read_bytes() if file else b""
            if answer != (*wanted, len(bytes_there)) or data != bytes_there + bytes(room - len(bytes_there)):
                sys.exit(f"{name}, {KINDS[kind]}, {room}: {answer}")
            lines.append(" ".join(["write", KINDS[kind], str(room), *map(str, answer), *([file] if file else [])]))
    return "\n".join(lines) + "\n"


def by_library():
    program = compare_engine.build(False, "writes.c")
    count = 0
    for name, tables, calls in EXAMPLES:
        for kind, room, wanted, file in calls:
            out = subprocess.run(program, input=writes.driven(tables, kind, room), stdout=subprocess.PIPE, check=True).stdout
            found = HEAD.unpack_from(out, 0)
            answer, data = writes.write(tables, kind, room)
            if found[:4] != (*answer, 0) or out[HEAD.size:] != data or found[4] == reference.SHAPE:
                sys.exit(f"{name}, {KINDS[kind]}, {room}: {found}")
            count += 1
    print(count, "calls as the reference has them, every byte")


def main():
    if sys.argv[1:] == ["--library"]:
        by_library()
        return
    (HERE / "writes.txt").write_text(text())
    print(len(EXAMPLES), "tables,", sum(len(calls) for _, _, calls in EXAMPLES), "calls")


if __name__ == "__main__":
    main()
