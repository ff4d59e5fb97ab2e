#!/usr/bin/env python3
"""The marked examples of M-112: labels, lent bytes, sheets and texts, as files.

Usage: marked_exports.py: writes exports.txt and L.csv beside this file; each answer is the reference's (oracle/exports.py), and is held to
the one that the request's reading names. marked_exports.py --library: runs exports.txt through the library by oracle/exports.c.
exports.txt: `example` and what it shows; `label`, an id, first and count; `bytes`, the labels' bytes in hexadecimal; `export`, a sheet, how
many bytes are lent, how many rows each list is lent, number and place, and the text in hexadecimal (`-` after a refusal).
"""
import pathlib
import subprocess
import sys

HERE = pathlib.Path(__file__).resolve().parent
sys.path.insert(0, str(HERE.parent / "oracle"))
import compare_engine
import compare_export
import exports
import reference

PLAIN = b"object,attribute,label,value\r\n0,37,,430.37\r\n2,20,,50.00\r\n3,20,,50.00\r\n"
NAMED = b'object,attribute,label,value\r\n0,37,"Hull ""HP""",430.37\r\n2,20,"Bonus, %",50.00\r\n3,20,"Bonus, %",50.00\r\n'
HEADER = b"object,attribute,label,value\r\n"
NAMES = b'Bonus, %Hull "HP"'


def refused(number, place):
    return number, place, b""


def text(of):
    return 0, 0, of


# name, labels, their bytes, and calls: a sheet, the bytes lent, the rows lent, the answer
EXAMPLES = [
    ("no labels", [], b"", [("L.sheet", 70, 4096, text(PLAIN)), ("L.sheet", 200, 4096, text(PLAIN)), ("L.sheet", 69, 4096, refused(7, 8))]),
    ("a comma, and quotes", [(20, 0, 8), (37, 8, 9)], NAMES, [("L.sheet", 200, 4096, text(NAMED)), ("L.sheet", len(NAMED), 4096, text(NAMED)), ("L.sheet", len(NAMED) - 1, 4096, refused(7, 8))]),
    ("CR alone", [(20, 0, 1)], b"\r", [("L.sheet", 200, 4096, text(PLAIN.replace(b"20,,", b'20,"\r",')))]),
    ("LF alone", [(20, 0, 1)], b"\n", [("L.sheet", 200, 4096, text(PLAIN.replace(b"20,,", b'20,"\n",')))]),
    ("a label of 64 bytes", [(20, 0, 64)], b"x" * 64, [("L.sheet", 400, 4096, text(PLAIN.replace(b"20,,", b"20," + b"x" * 64 + b",")))]),
    ("an id twice", [(20, 0, 1), (20, 0, 1)], b"x", [("L.sheet", 200, 4096, refused(16, 1))]),
    ("ids that descend", [(37, 0, 1), (20, 0, 1)], b"x", [("L.sheet", 200, 4096, refused(16, 1)), ("L-depth-1.sheet", 200, 4096, refused(9, 2)), ("L.sheet", 200, 2, refused(7, 2))]),
    ("65 bytes", [(20, 0, 65)], b"x" * 65, [("L.sheet", 200, 4096, refused(16, 0))]),
    ("a byte 0x7F", [(20, 0, 1)], b"\x7f", [("L.sheet", 200, 4096, refused(16, 0))]),
    ("a range that leaves the bytes", [(20, 5, 1)], b"12345", [("L.sheet", 200, 4096, refused(16, 0))]),
    ("no rows", [], b"", [("written-empty.sheet", 30, 4096, text(HEADER)), ("written-empty.sheet", 29, 4096, refused(7, 8))]),
]


def answered(labels, data, sheet, room, lent):
    return exports.exported(reference.answer((HERE / sheet).read_bytes(), (lent,) * 5), labels, data, room)


def write():
    out = ["# Made by cases/marked_exports.py, which says how it is read."]
    for name, labels, data, calls in EXAMPLES:
        out += ["", f"example {name}", *(f"label {i} {first} {count}" for i, first, count in labels), f"bytes {data.hex() or '-'}"]
        for sheet, room, lent, answer in calls:
            if answered(labels, data, sheet, room, lent) != answer:
                sys.exit(f"{name}: the reference has {answered(labels, data, sheet, room, lent)}, not {answer}")
            out.append(f"export {sheet} {room} {lent} {answer[0]} {answer[1]} {answer[2].hex() or '-'}")
    (HERE / "exports.txt").write_text("\n".join(out) + "\n")
    (HERE / "L.csv").write_bytes(NAMED)
    (HERE / "L.labels").write_bytes(b'20 Bonus, %\n37 Hull "HP"\n')


def read():
    """Labels, their bytes, the call and the answer of each export of exports.txt."""
    labels, data = [], b""
    for line in (HERE / "exports.txt").read_text().splitlines():
        word, *rest = line.split() or [""]
        if word == "example":
            labels, data = [], b""
        elif word == "label":
            labels.append(tuple(map(int, rest)))
        elif word == "bytes":
            data = bytes.fromhex(rest[0].strip("-"))
        elif word == "export":
            sheet, room, lent, number, place, text = rest
            yield list(labels), data, sheet, int(room), int(lent), (int(number), int(place), bytes.fromhex(text.strip("-")))


def run():
    calls = list(read())
    words = compare_engine.build(False, "exports.c")
    blob = b"".join(exports.driven(labels, data, room, [lent] * 10, 1, (HERE / sheet).read_bytes()) for labels, data, sheet, room, lent, _ in calls)
    out = subprocess.run(words, input=blob, stdout=subprocess.PIPE, check=True).stdout
    bad = []
    for (labels, data, sheet, room, lent, (number, place, text)), found in zip(calls, compare_export.answers(out, [call[3] for call in calls])):
        if found != (number, place, len(text), 0, text + bytes(room - len(text))):
            bad.append(f"{sheet} {labels}: expected {(number, place, text)}, found {found}")
    print("\n".join([*bad, f"{len(calls)} exports of exports.txt, {len(bad)} differ"]))
    sys.exit(bool(bad))


if __name__ == "__main__":
    run() if sys.argv[1:] == ["--library"] else write()
