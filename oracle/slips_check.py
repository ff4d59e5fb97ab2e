#!/usr/bin/env python3
"""Slips put into the reference of checks (oracle/checks.py) one at a time: each must be seen by the listings of compare_check.py.

Usage: slips_check.py [SEED [SHEETS]]: for each slip the first of SHEETS sheets (default 3,000) on which it shows.
"""
import checks
import compare_check
import slipping

ROWS_FIRST = "    for at in range(max(len(keys), len(listing))):\n"
IS_SAME = "result()) == bits\n"
EFFECT = '            if origin[0] == "effect":\n'
PLACE = "raise Refusal(LOOP, min(loops)[0])"
PARTS = "found |= {k for k in part if len(part) > 1 or k in needs[k]}"

SLIPS = [
    # what leads back
    ("idle entries lead nowhere", EFFECT, '            if origin[0] == "effect" and origin[2].state >= (origin[3] if origin[3] <= 3 else 2):\n'),
    ("resistances lead nowhere", "if resistance is not None:", "if False:"),
    ("a resistance is the source's", "wanted.append((self.ship.number, resistance))", "wanted.append((origin[2].number, resistance))"),
    ("limits lead nowhere", "for limit in (least, most) if limit != 0]", "for limit in ()]"),
    ("the greatest leads nowhere", "for limit in (least, most) if limit != 0]", "for limit in (least,) if limit != 0]"),
    ("what needs itself is no loop", PARTS, "found |= {k for k in part if len(part) > 1}"),
    ("what leads to a loop is on it", "    return found\n\n\ndef float_of", "    while True:\n        more = {k for k in keys if k not in found and any(n in found for n in needs[k])}\n        if not more:\n            return found\n        found |= more\n\n\ndef float_of"),
    ("the highest object on a loop", PLACE, "raise Refusal(LOOP, max(loops)[0])"),
    ("the first row on a loop", PLACE, "raise Refusal(LOOP, keys.index(min(loops)))"),
    ("a loop is no refusal", "    if loops:\n", "    if False:\n"),
    ("LISTING before LOOP", "    if loops:\n", "    if loops and keys == [line[:2] for line in listing]:\n"),
    # rows
    ("missing rows at our row count", "            return at\n    run.listed", "            return len(keys) if at == len(listing) else at\n    run.listed"),
    ("lines past ours are let in", ROWS_FIRST, "    for at in range(len(keys)):\n"),
    ("missing rows are let in", ROWS_FIRST, "    for at in range(len(listing)):\n"),
    ("places from 1", "raise Refusal(LISTING, wrong)", "raise Refusal(LISTING, wrong + 1)"),
    ("rows by object and unsigned attribute", "for attribute in sorted(t.rows)]\n\n    def needs", "for attribute in sorted(t.rows, key=lambda a: a % 2 ** 32)]\n\n    def needs"),
    ("any order of rows", "if keys[at:at + 1] != [line[:2] for line in listing[at:at + 1]]:", "if at >= len(listing) or at >= len(keys) or listing[at][:2] not in keys:"),
    # values
    ("equal floats are the same", IS_SAME, "result()) in (bits, bits ^ 1 << 63 if bits << 1 & (1 << 64) - 1 == 0 else bits)\n"),
    ("half a float is compared", IS_SAME, "result()) >> 32 == bits >> 32\n"),
    ("the last bit is let go", IS_SAME, "result()) >> 1 == bits >> 1\n"),
    ("values are not compared", IS_SAME, "result()) is not None\n"),
    ("infinities are read", "        if not math.isfinite(value):\n            raise Refusal(LISTING, 0)\n", ""),
    ("our own values are read", "        value = self.listed[t.number, attribute]\n", "        value = reference.Run.value_of(self, t, attribute, 1)\n"),
    ("a value that is not finite is let in", "    if not math.isfinite(float_of(bits)):\n        return False\n", "    if not math.isfinite(float_of(bits)):\n        return True\n"),
    ("steps that are not finite are let in", "    except Refusal:\n        return False\n\n\ndef first_wrong", "    except Refusal:\n        return True\n\n\ndef first_wrong"),
    ("the last wrong line", "return next((at for at, (number, attribute, bits) in enumerate(listing)", "return next((at for at, (number, attribute, bits) in reversed(list(enumerate(listing)))"),
    ("recorded rows are not looked at", "    wrong = first_wrong(run, listing)\n", "    run.recording = False\n    wrong = first_wrong(run, listing)\n"),
    # what comes back
    ("source rows come back", "run.listed[t.number, attribute], []\n", "run.listed[t.number, attribute], row.sources\n"),
    ("bases for values", "row.value, row.sources = run.listed[t.number, attribute], []", "row.value, row.sources = row.base, []"),
    ("no room for work", "LISTS = [[0, 1], [2, 3, 4, 5], [6, 7], [8]]", "LISTS = [[0, 1], [2, 3, 4], [6, 7], [8]]"),
]


def answer(module, calls):
    """What is printed of each call on a sheet."""
    return [module.text(module.checked(data, module.rooms(lent), lines)) for data, lent, lines in calls]


if __name__ == "__main__":
    seed, count = slipping.words(3000)
    slipping.report(SLIPS, checks, "sheet", [compare_check.calls_of(seed, number) for number in range(count)], answer)
