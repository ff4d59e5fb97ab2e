#!/usr/bin/env python3
"""Times dogma_check_rules beside dogma_calculate on the same sheet, and prints the table of docs/SPEED.md, "Tournament rules".

Usage: rules.py [--seconds S] [NAME ..]: S seconds for each sheet (default 1); with names only these. Sheets of 1,024 objects, most of them counted, with 1,000 lines that
are all walked, since none is broken. Where valgrind is at hand instructions are counted too. The library is the one of library/build.
"""
import random
import struct
import sys

import sheets
from make_sheets import CHAR, ITEM, SHIP, Sheet, object_record
from sheets import LOW, recorded
from timed import built, given_words, instructions, print_head, timed, written

POINTS, MOST, FORBIDDEN, TOTAL = range(4)
HIGHEST = 2 ** 32 - 1


def items(pairs, bases=0):
    """A ship, a char and an item for each (type, group), with so many base attributes each and no effect at all."""
    sheet = Sheet()
    sheet.tables[6] = [[i + 1, 1.0] for i in range(bases)]
    common = (0, bases)
    sheet.tables[5] = [object_record(SHIP, 8, category=6), object_record(CHAR, 1)]
    sheet.tables[5] += [object_record(ITEM, kind, group, 7, LOW, 1, 1, 1, bases=common) for kind, group in pairs]
    return sheet.bytes()


def table(types, capped, forbidden, cap, total=HIGHEST):
    lines = [(POINTS, i, 7) for i in sorted(types)] + [(MOST, i, cap) for i in sorted(capped)] + [(FORBIDDEN, i, 0) for i in sorted(forbidden)]
    return lines + [(TOTAL, 0, total)]


def objects_of(data, column):
    """A column of the items of a sheet: 1 types, 2 groups."""
    count, offset = struct.unpack_from("<II", data, 40)
    records = [struct.unpack_from("<6I", data, offset + 68 * i) for i in range(count)]
    return sorted({r[column] for r in records if r[0] == ITEM})


def mixed(data):
    """1,000 lines: prices for the types of a sheet, caps for its groups, forbidden groups that it does not have."""
    types, groups = objects_of(data, 1)[:400], objects_of(data, 2)[:300]
    types += [100_000 + i for i in range(400 - len(types))]
    groups += [200_000 + i for i in range(300 - len(groups))]
    return table(types, groups, range(300_000, 300_299), HIGHEST)


def kinds():
    """Name, what it is, sheet, lines."""
    some = random.Random("bench rules")
    distinct = [(1 + i, 1 + i) for i in range(1022)]
    wide = [(some.randrange(1, 2 ** 31), some.randrange(1, 2 ** 31)) for _ in range(1022)]
    alike = [(1 + i, 1021 * (1 + i)) for i in range(1022)]
    largest = recorded(dict((name, data) for name, _, data in sheets.kinds())["largest"], 0)
    yield "largest", "every table of the sheet at its most", largest, mixed(largest)
    yield "caps", "1,022 modules, each of its own group; a cap of 1 on 999 groups", items(distinct), table([], range(1, 1000), [], 1)
    yield "points", "the same modules; points for 999 types", items(distinct), table(range(1, 1000), [], [], 1)
    yield "all kinds", "the same; 333 prices, 333 caps, 333 forbidden groups", items(distinct), table(range(1, 334), range(1, 334), range(5000, 5333), 1)
    yield "one group", "1,022 modules of one type and group; caps on 999 others", items([(9, 1)] * 1022), table([], range(2, 1001), [], 0)
    yield "random ids", "types and groups of 31 random bits; a cap of 1 on 999 groups", items(wide), table([], [g for _, g in wide][:999], [], 1)
    yield "alike", "all groups alike modulo 1,021; a cap of 1 on 999", items(alike), table([], [g for _, g in alike][:999], [], 1)
    types, found, others = [t for t, _ in wide[:333]], [g for _, g in wide[:333]], [some.randrange(1, 2 ** 31) for _ in range(333)]
    yield "random kinds", "types and groups of 31 random bits; 333 prices, 333 caps, 333 forbidden groups", items(wide), table(types, found, others, 1)


def packed(lines):
    return b"".join(struct.pack("<III", kind, i & 0xffffffff, number) for kind, i, number in lines)


def line(name, data, lines, program, seconds):
    files = written(f"rules {name}", (".sheet", data), (".lines", packed(lines)))
    rounds, (objects, count, allowed, broken, tally), (calculated, checked, empty, ratio) = timed(name, program, seconds, files, 5)
    if allowed != "1":
        sys.exit(f"{name}: line {broken} is broken by {tally}, so the later ones were not walked")
    n = instructions(program, 2, files)
    counted = f"{n[0]:,}, {n[1]:,}, **{n[1] / n[0]:.2f}**" if n else "not counted"
    print(f"| {name} | {int(objects):,} | {int(count):,} | {calculated[0] / 1e3:.1f} µs, {checked[0] / 1e3:.1f} µs | "
          f"**{ratio[0]:.2f}** ({ratio[1]:.2f} to {ratio[2]:.2f}) | {empty[0] / 1e3:.1f} µs | {counted} | {rounds} |", flush=True)


def main():
    given = given_words(__doc__)
    program = built("rules")
    print_head("rules", given.seconds, ["sheet", "objects", "lines", "`dogma_calculate`, `dogma_check_rules`", "ratio", "no line",
                                        "instructions: calculation, check, ratio", "rounds"])
    for name, _, data, lines in kinds():
        if not given.names or name in given.names:
            line(name, data, lines, program, given.seconds)
    print("\n" + "; ".join(f"{name}: {what}" for name, what, _, _ in kinds()) + ".")


if __name__ == "__main__":
    main()
