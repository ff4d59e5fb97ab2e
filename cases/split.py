#!/usr/bin/env python3
"""Cuts a sheet into a book and a fit, and joins the two again.

Usage: split.py SHEET BOOK FIT: writes the two files. split.py --join BOOK FIT SHEET: writes the sheet.
split.py --check: cuts and joins every sheet here and some hundred that are made: the bytes must be the same, and the answers too.
The headers must be good: counts, offsets and lengths. What is inside the tables is carried as it stands, good or bad.
"""
import pathlib
import struct
import sys

HERE = pathlib.Path(__file__).resolve().parent
sys.path.insert(0, str(HERE.parent / "oracle"))
import make_sheets
import pools
import reference

SHEET_HEADER = 100
CATEGORIES, DEPTH_AND_RECORDING = slice(80, 92), slice(92, 100)


def counts_of(data, tables):
    return list(struct.unpack_from(f"<{2 * tables}I", data, 0)[::2])


def pairs(counts, first, at):
    """Counts and offsets of tables, the first by its number from 0, that follow without gaps from a byte on."""
    out = b""
    for table, count in enumerate(counts, first):
        out += struct.pack("<II", count, at)
        at += count * reference.LAYOUTS[table].size
    return out


def cut(sheet):
    """Book and fit of a sheet whose header is good."""
    counts = counts_of(sheet, 10)
    middle = struct.unpack_from("<I", sheet, 44)[0]
    return (pairs(counts[:5], 0, pools.BOOK_HEADER) + sheet[CATEGORIES] + sheet[SHEET_HEADER:middle],
            pairs(counts[5:], 5, pools.FIT_HEADER) + sheet[DEPTH_AND_RECORDING] + sheet[middle:])


def joined(book, fit):
    """The sheet of a book and a fit whose headers are good."""
    header = pairs(counts_of(book, 5) + counts_of(fit, 5), 0, SHEET_HEADER) + book[40:pools.BOOK_HEADER] + fit[40:pools.FIT_HEADER]
    return header + book[pools.BOOK_HEADER:] + fit[pools.FIT_HEADER:]


def check():
    sheets = [(path.name, path.read_bytes()) for path in sorted(HERE.glob("*.sheet"))]
    sheets += [(f"{kind} {n}", make_sheets.sheet(kind, "split", n)) for kind in ("dense", "tiny", "damaged", "tiny-damaged", "limits") for n in range(60)]
    same = passed = 0
    for name, sheet in sheets:
        if not reference.header_good(sheet):
            passed += 1
            continue
        book, fit = cut(sheet)
        if joined(book, fit) != sheet or not pools.standing(book, 0, pools.BOOK_HEADER) or not pools.fit_header_good(fit):
            sys.exit(f"{name}: the sheet does not come back")
        whole, files = reference.answer(sheet, (4096,) * 5), pools.answer(book, fit, (4096,) * 5)
        if whole.number == reference.SHAPE and whole.place > 5:
            whole.place += 20
        if whole.text() != files.text():
            sys.exit(f"{name}: the answers differ")
        same += 1
    if (HERE / "L.book").read_bytes() + (HERE / "L.fit").read_bytes() != b"".join(cut((HERE / "L.sheet").read_bytes())):
        sys.exit("L.book and L.fit are not L.sheet, cut")
    print(f"{same} sheets cut and joined are the same, and have the same answer; {passed} have a bad header and can't be cut")


def main():
    words = sys.argv[1:]
    if words == ["--check"]:
        check()
    elif len(words) == 4 and words[0] == "--join":
        book, fit = (pathlib.Path(word).read_bytes() for word in words[1:3])
        if not pools.standing(book, 0, pools.BOOK_HEADER) or not pools.fit_header_good(fit):
            sys.exit("the header of the book or of the fit is bad")
        pathlib.Path(words[3]).write_bytes(joined(book, fit))
    elif len(words) == 3:
        sheet = pathlib.Path(words[0]).read_bytes()
        if not reference.header_good(sheet):
            sys.exit("the sheet's header is bad")
        for name, part in zip(words[1:], cut(sheet)):
            pathlib.Path(name).write_bytes(part)
    else:
        sys.exit(__doc__)


if __name__ == "__main__":
    main()
