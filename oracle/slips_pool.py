#!/usr/bin/env python3
"""Slips put into the reference's pools (oracle/pools.py) one at a time: each must be seen by the pools that compare_pool.py makes.

Usage: slips_pool.py [SEED [POOLS]]: for each slip the first call of POOLS pools (default 1,000) in which it shows.
"""
import sys

import compare_pool
import pools
import slipping

ASTRAY = "if own[1] > 0 and rows_of(own)[-1] >= room or"
IN_COMMON = "return a[1] > 0 and b[1] > 0 and (a[0] in rows_of(b) or b[0] in rows_of(a))"
WRITTEN = "self.columns[c][width * first:width * (first + length)] = used[c].ljust(width * length, b\"\\0\")"

SLIPS = [
    # the files
    ("the fit's place is 21 more", "raise Refusal(SHAPE, 20 + bad)", "raise Refusal(SHAPE, 21 + bad)"),
    ("the fit's header has place 0", "raise Refusal(SHAPE, 20)", "raise Refusal(SHAPE, 0)"),
    ("the fit's header before the book's tables", "        records = five_tables(self.book, 0)\n", "        if not fit_header_good(self.fit):\n            raise Refusal(SHAPE, 20)\n        records = five_tables(self.book, 0)\n"),
    ("a file may go on behind its tables", "return end == len(data)", "return end <= len(data)"),
    ("offsets as in a sheet", "    end = header\n", "    end = 100\n"),
    ("category numbers one later", "struct.unpack_from(\"<iii\", self.book, 40)", "struct.unpack_from(\"<iii\", self.book, 40)[1:], 0"),
    ("depth and recording change places", "*struct.unpack_from(\"<II\", self.fit, 40))\n\n\ndef answer", "*struct.unpack_from(\"<II\", self.fit, 40)[::-1])\n\n\ndef answer"),
    ("depth is not tested", "1 <= depth <= 256", "True"),
    # POOL
    ("stretches that touch overlap", IN_COMMON, "return a[1] > 0 and b[1] > 0 and a[0] <= b[0] + b[1] and b[0] <= a[0] + a[1]"),
    ("an empty stretch overlaps", IN_COMMON, "return a[0] in rows_of(b) or b[0] in rows_of(a)"),
    ("an empty stretch leaves", ASTRAY, "if own[0] + own[1] > room or"),
    ("one row outside is let in", ASTRAY, "if own[1] > 0 and rows_of(own)[-1] > room or"),
    ("the last row is outside", ASTRAY, "if own[1] > 0 and rows_of(own)[-1] + 1 >= room or"),
    ("first plus length wraps", ASTRAY, "if own[1] > 0 and (own[0] + own[1]) % 2 ** 32 > room or"),
    ("overlaps are not tested", "any(in_common(own, other) for other in others)", "False"),
    ("the last pilot is free", "for p in range(PILOTS)", "for p in range(PILOTS - 1)"),
    ("only the asked pilot is tested", "for p in range(PILOTS)", "for p in [pilot]"),
    ("the highest pilot astray", "for p in range(PILOTS)", "for p in reversed(range(PILOTS))"),
    ("stretches before the number asked for", "    if pilot >= PILOTS or all(", "    for p in range(PILOTS):\n        if astray(rooms, stretches, p):\n            return p\n    if pilot >= PILOTS or all("),
    ("a pilot with one empty list has no stretch", "or all(length == 0 for _, length in stretches[pilot])", "or any(length == 0 for _, length in stretches[pilot])"),
    ("a pilot with no stretch is calculated", "if pilot >= PILOTS or all(length == 0 for _, length in stretches[pilot]):", "if pilot >= PILOTS:"),
    ("the lower of two is named", "            return True\n    return False\n", "            return True\n    return any(in_common(a, b) for q in range(pilot + 1, PILOTS) for a, b in zip(stretches[pilot], stretches[q]))\n"),
    ("room is the first column's", "return sampled.rooms(self.lengths())", "return tuple(self.lengths()[columns[0]] for columns in COLUMNS_OF)"),
    # what is written
    ("POOL zeroes rows", "            return [POOL, bad, 0, 0, 0, 0, 0]", "            self.columns[2][:8] = bytes(len(self.columns[2][:8]))\n            return [POOL, bad, 0, 0, 0, 0, 0]"),
    ("POOL writes states", "            return [POOL, bad, 0, 0, 0, 0, 0]", "            self.states[-8:] = bytes(8)\n            return [POOL, bad, 0, 0, 0, 0, 0]"),
    ("states of pilot 0", "self.states[8 * OBJECTS * pilot:8 * OBJECTS * (pilot + 1)] = states", "self.states[:8 * OBJECTS] = states"),
    ("the unused end stays", WRITTEN, "self.columns[c][width * first:width * first + len(used[c])] = used[c]"),
    ("the column's end is zeroed", WRITTEN, WRITTEN + "\n                self.columns[c][width * (first + length):] = bytes(len(self.columns[c]) - width * (first + length))"),
    ("the row behind is zeroed", WRITTEN, WRITTEN + "\n                self.columns[c][width * (first + length):width * (first + length + 1)] = bytes(len(self.columns[c][width * (first + length):width * (first + length + 1)]))"),
    ("rows begin at the column's start", WRITTEN, WRITTEN.replace("width * first:width * (first + length)", ":width * length")),
    ("a refusal leaves the stretches", "            for c in columns if length > 0 else ():", "            for c in columns if length > 0 and found.number == 0 else ():"),
    ("source rows where the rows are", "for (first, length), columns in zip(stretches[pilot], COLUMNS_OF):", "for (first, length), columns in zip([*stretches[pilot][:4], [stretches[pilot][1][0], stretches[pilot][4][1]]], COLUMNS_OF):"),
    ("firsts count from the column's start", "        used = columns_of(found)\n", "        for row, _ in found.rows:\n            row[2] += stretches[pilot][2][0]\n        used = columns_of(found)\n        for row, _ in found.rows:\n            row[2] -= stretches[pilot][2][0]\n"),
    ("room is the pool's", "tuple(length for _, length in stretches[pilot])", "tuple(self.rooms())"),
]


def followed(module, some):
    """What each call answers, and the pool after it."""
    pool = module.Pool(some.pool.columns, some.pool.states)
    for stretches, book, fit, pilot in some.calls:
        answer = pool.calculate(stretches, book, fit, pilot, some.answers if module is pools else module.answer)
        yield answer, pool.columns, pool.states


def seen_in(module, made):
    for number, some in enumerate(made):
        try:
            for call, (ours, theirs) in enumerate(zip(followed(pools, some), followed(module, some))):
                if ours != theirs:
                    return f"pool {number}, call {call}"
        except Exception:
            return f"pool {number}, by an error"
    return None


def main():
    seed, count = slipping.words(1000)
    made, missed = [compare_pool.Calls(seed, number) for number in range(count)], []
    for name, old, new in SLIPS:
        found = seen_in(slipping.slipped(pools, name, old, new), made)
        missed += [name] if found is None else []
        print(f"{name}: {found or 'not seen'}", flush=True)
    print(f"{len(SLIPS)} slips, not seen: {missed}")
    sys.exit(bool(missed))


if __name__ == "__main__":
    main()
