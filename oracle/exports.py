#!/usr/bin/env python3
"""M-112 in Python, apart from the engine: a run's rows as comma-separated text, with labels (id, first, count) over lent bytes.

Usage: exports.py SHEET [LABELS]: prints the text of a sheet's run with ample lists, or `refused`, number and place. LABELS is text, a line
for each label: id, a space and the label.
"""
import pathlib
import struct
import sys

import reference

LABEL, ROOM, TEXT = 16, 7, 8
MOST = 64
PRINTABLE = set(range(0x20, 0x7f)) | {0x0d, 0x0a}
SPECIAL = b',"\r\n'


def bad_label(labels, data):
    """The first bad label, or none."""
    for at, (i, first, count) in enumerate(labels):
        if count > MOST or first + count > len(data) or not PRINTABLE.issuperset(data[first:first + count]):
            return at
        if at > 0 and labels[at - 1][0] >= i:
            return at
    return None


def field(text):
    if any(byte in SPECIAL for byte in text):
        return b'"' + text.replace(b'"', b'""') + b'"'
    return text


def record(fields):
    return b",".join(map(field, fields)) + b"\r\n"


def fields_of(row, texts):
    numbers, floats = row
    return [b"%d" % numbers[0], b"%d" % numbers[1], texts.get(numbers[1], b""), reference.hundredths(floats[1]).encode()]


def records(answer, labels, data):
    """The header and a record for each row, each a list of fields."""
    texts = {i: data[first:first + count] for i, first, count in labels}
    return [[b"object", b"attribute", b"label", b"value"], *(fields_of(row, texts) for row in answer.rows)]


def exported(answer, labels, data, room):
    """Number, place and text, of what the reference answers for the lists lent."""
    if answer.number != 0:
        return answer.number, answer.place, b""
    bad = bad_label(labels, data)
    if bad is not None:
        return LABEL, bad, b""
    text = b"".join(map(record, records(answer, labels, data)))
    return (0, 0, text) if len(text) <= room else (ROOM, TEXT, b"")


def packed(labels):
    return b"".join(struct.pack("<III", i & 0xffffffff, first, count) for i, first, count in labels)


def driven(labels, data, room, lent, seed, sheet):
    """What oracle/exports.c reads."""
    head = struct.pack("<15I", len(sheet), *lent, seed % 2 ** 32, room, len(labels), len(data))
    return head + packed(labels) + data + sheet


def main():
    sheet = pathlib.Path(sys.argv[1]).read_bytes()
    data = pathlib.Path(sys.argv[2]).read_bytes() if len(sys.argv) > 2 else b""
    labels, at = [], 0
    for line in data.splitlines(keepends=True):
        own = line.rstrip(b"\r\n")
        i, _, text = own.partition(b" ")
        labels.append((int(i), at + len(i) + 1, len(text)))
        at += len(line)
    number, place, text = exported(reference.answer(sheet), labels, data, 10 ** 9)
    sys.stdout.buffer.write(text if number == 0 else b"refused %d %d\n" % (number, place))


if __name__ == "__main__":
    main()
