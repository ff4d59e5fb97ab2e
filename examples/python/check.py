"""Holds another planner's listing against the rules, and says what is wrong: check.py SHEET LISTING.

LISTING is text, a row to a line: object, attribute, the 16 hexadecimal digits of the value's bits.
"""
import pathlib
import struct
import sys

import dogma
from dogma import Number


def listed(line):
    number, attribute, bits = line.split()
    return dogma.Listed(int(number), int(attribute), struct.unpack(">d", bytes.fromhex(bits))[0])


def main(sheet, listing):
    lines = [listed(line) for line in pathlib.Path(listing).read_text().splitlines()]

    try:
        dogma.check(pathlib.Path(sheet).read_bytes(), lines)
    except dogma.Refused as refusal:
        if refusal.number == Number.LOOP:
            return f"an attribute of object {refusal.place} leads back to itself"
        if refusal.number == Number.LISTING:
            return f"line {refusal.place} is {'missing' if refusal.place == len(lines) else 'wrong'}"
        return f"refused {refusal.number} {refusal.place}"
    return "accepted"


said = main(*sys.argv[1:])
print(said)
sys.exit(said != "accepted")
