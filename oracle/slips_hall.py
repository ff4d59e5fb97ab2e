#!/usr/bin/env python3
"""Slips put into the reference's halls (oracle/halls.py) one at a time: each must be seen by the halls that compare_hall.py makes.

Usage: slips_hall.py [SEED [HALLS]]: for each slip the first of HALLS halls (default 2,000) in which it shows.
"""
import pathlib
import sys
import types

import compare_hall

SOURCE = (pathlib.Path(__file__).resolve().parent / "halls.py").read_text()
STARTS = "starts = [start for start, long in self.runs() if long >= length]"
SLIPS = [
    ("sixteen places are enough", "len(self.table) < PLACES", "len(self.table) < PLACES - 1"),
    ("a count past the table is taken", " or self.count > len(self.table)", ""),
    ("free stretches may touch", "start <= end", "start < end"),
    ("an empty one may be in use", "length == 0 or start <= end", "start <= end"),
    ("their order is not tested", "if length == 0 or start <= end:", "if length == 0:"),
    ("a pilot's pairs may differ", "if any(pair != five[0] for five in self.stretches for pair in five):", "if any(pair[1] != five[0][1] for five in self.stretches for pair in five):"),
    ("a row may be nobody's", "all(len(who) == 1 for who in owners)", "all(len(who) <= 1 for who in owners)"),
    ("a row may be two's", "all(len(who) == 1 for who in owners)", "all(len(who) >= 1 for who in owners)"),
    ("rows outside are let in", "if length and start + length > self.rows:", "if False:"),
    ("an empty pilot outside is refused", "if length and start + length > self.rows:", "if start + length > self.rows:"),
    ("PILOT before TABLE", "        if not self.good():\n            return TABLE, 0\n        if pilot >= PILOTS", "        if pilot >= PILOTS:\n            return PILOT, pilot\n        if not self.good():\n            return TABLE, 0\n        if pilot >= PILOTS"),
    ("LENGTH before PILOT", "        if pilot >= PILOTS or self.seat(pilot)[1]:\n            return PILOT, pilot\n        if length == 0:\n            return LENGTH, pilot\n", "        if length == 0:\n            return LENGTH, pilot\n        if pilot >= PILOTS or self.seat(pilot)[1]:\n            return PILOT, pilot\n"),
    ("POOL before LENGTH", "        if length == 0:\n            return LENGTH, pilot\n", ""),
    ("one that is in is admitted again", "if pilot >= PILOTS or self.seat(pilot)[1]:", "if pilot >= PILOTS:"),
    ("best fit", "min(starts), length]", "min((long, start) for start, long in self.runs() if long >= length)[1], length]"),
    ("the highest run", "min(starts), length]", "max(starts), length]"),
    ("from the back", "min(starts), length]", "min(starts) + dict(self.runs())[min(starts)] - length, length]"),
    ("a run as long is too short", "if long >= length]", "if long > length]"),
    ("as many rows are enough", STARTS, STARTS + "\n        starts = starts or [start for start, _ in self.runs()][:sum(long for _, long in self.runs()) >= length]"),
    ("not joined below", "if free[row] and row and free[row - 1]:", "if free[row] and row and free[row - 1] and [row] != [s[0] for s in [getattr(self, 'last', [-1])]]:"),
    ("places given up stay", "self.table[at] = runs[at] if at < len(runs) else [0, 0]", "self.table[at] = runs[at] if at < len(runs) else self.table[at]"),
    ("places behind are cleared", "        self.count = len(runs)\n", "        self.count = len(runs)\n        self.table[self.count:] = [[0, 0] for _ in self.table[self.count:]]\n"),
    ("a leaver keeps list 5", "self.stretches[pilot] = [[0, 0] for _ in range(LISTS)]", "self.stretches[pilot] = [[0, 0] for _ in range(LISTS - 1)] + [self.stretches[pilot][4]]"),
    ("a leaver keeps its start", "self.stretches[pilot] = [[0, 0] for _ in range(LISTS)]", "self.stretches[pilot] = [[left[0], 0] for _ in range(LISTS)]"),
    ("one that is not in leaves", "if pilot >= PILOTS or not self.seat(pilot)[1]:", "if pilot >= PILOTS:"),
    ("the last row is not cleared", "return DONE, 0, left", "return DONE, 0, [left[0], left[1] - 1]"),
    ("the row behind is cleared", "return DONE, 0, left", "return DONE, 0, [left[0], left[1] + 1]"),
    ("nothing is cleared", "return DONE, 0, left", "return DONE, 0, None"),
]
# this one only shows where a leaver is joined to what ends where it starts
SLIPS[19] = ("not joined below", "        self.settle()\n        return DONE, 0, left", "        self.settle()\n        at = next((k for k, s in enumerate(self.table[:self.count]) if s[0] < left[0] < s[0] + s[1]), None)\n        if at is not None and self.count < len(self.table):\n            start, length = self.table[at]\n            self.table[at:at + 1] = [[start, left[0] - start], [left[0], start + length - left[0]]]\n            del self.table[self.count + 1:self.count + 2]\n            self.count += 1\n        return DONE, 0, left")


def module(text):
    made = types.ModuleType("halls")
    exec(compile(text, "halls.py", "exec"), made.__dict__)
    return made


def main():
    seed, halls = (int(word) for word in (sys.argv[1:] + ["5", "2000"][len(sys.argv) - 1:])[:2])
    true = [compare_hall.Sequence(seed, number) for number in range(halls)]
    unseen = 0
    for name, old, new in SLIPS:
        if SOURCE.count(old) == 0:
            sys.exit(f"{name}: its text is not in halls.py")
        slipped = module(SOURCE.replace(old, new))
        compare_hall.Hall, kept = slipped.Hall, compare_hall.Hall
        first = None
        for number, one in enumerate(true):
            try:
                other = compare_hall.replayed(one, slipped.Hall)
            except Exception:
                other = None
            if other != one.expected:
                first = number
                break
        compare_hall.Hall = kept
        print(f"{name}: " + ("NOT SEEN" if first is None else f"hall {first}"))
        unseen += first is None
    print(f"{len(SLIPS)} slips, {unseen} not seen")
    sys.exit(1 if unseen else 0)


if __name__ == "__main__":
    main()
