#!/usr/bin/env python3
"""Slips put into the reference of spreadsheets (oracle/exports.py) one at a time: each must be seen by the calls of compare_export.py.

Usage: slips_export.py [SEED [CALLS]]: for each slip the first of CALLS calls (default 1,000) on which it shows.
"""
import compare_export
import exports
import slipping

QUOTED = "if any(byte in SPECIAL for byte in text):"

SLIPS = [
    ("a CR is not quoted", "SPECIAL = b',\"\\r\\n'", "SPECIAL = b',\"\\n'"),
    ("an LF is not quoted", "SPECIAL = b',\"\\r\\n'", "SPECIAL = b',\"\\r'"),
    ("a comma is not quoted", "SPECIAL = b',\"\\r\\n'", "SPECIAL = b'\"\\r\\n'"),
    ("spaces are quoted", "SPECIAL = b',\"\\r\\n'", "SPECIAL = b', \"\\r\\n'"),
    ("every label is quoted", QUOTED, "if text:"),
    ("quotes are not doubled", ".replace(b'\"', b'\"\"')", ""),
    ("records end in LF", '+ b"\\r\\n"', '+ b"\\n"'),
    ("64 bytes are too many", "MOST = 64", "MOST = 63"),
    ("65 bytes are let in", "MOST = 64", "MOST = 65"),
    ("0x7F is let in", "range(0x20, 0x7f)", "range(0x20, 0x80)"),
    ("a tab is let in", "{0x0d, 0x0a}", "{0x0d, 0x0a, 0x09}"),
    ("equal ids are let in", "labels[at - 1][0] >= i", "labels[at - 1][0] > i"),
    ("ids unsigned", "labels[at - 1][0] >= i", "labels[at - 1][0] % 2 ** 32 >= i % 2 ** 32"),
    ("the order is not tested", "        if at > 0 and labels[at - 1][0] >= i:\n            return at\n", ""),
    ("a range may leave the bytes", " or first + count > len(data)", ""),
    ("LABEL before the engine", "    if answer.number != 0:\n        return answer.number, answer.place, b\"\"\n    bad = bad_label(labels, data)\n    if bad is not None:\n        return LABEL, bad, b\"\"\n",
     "    bad = bad_label(labels, data)\n    if bad is not None:\n        return LABEL, bad, b\"\"\n    if answer.number != 0:\n        return answer.number, answer.place, b\"\"\n"),
    ("a text that fits to the byte is refused", "len(text) <= room", "len(text) < room"),
    ("ROOM of list 6", "TEXT = 16, 7, 8", "TEXT = 16, 7, 6"),
    ("no header", "[[b\"object\", b\"attribute\", b\"label\", b\"value\"], *(", "[*("),
    ("the base for the value", "floats[1]", "floats[0]"),
]



def answer(module, call):
    return module.exported(call[5], call[0], call[1], call[2])


if __name__ == "__main__":
    seed, count = slipping.words(1000)
    slipping.report(SLIPS, exports, "call", [compare_export.call_of(seed, number) for number in range(count)], answer)
