#!/usr/bin/env python3
"""Slips put into the reference of tournament rules (oracle/rules.py) one at a time: each must be seen by the tables of compare_rules.py.

Usage: slips_rules.py [SEED [TABLES]]: for each slip the first of TABLES tables (default 3,000) on which it shows.
"""
import compare_rules
import rules
import slipping

COUNTED = "for t in run.things if t.kind == ITEM and run.calculated(t)]"
ASCENDS = "lines[at - 1][:2] >= (kind, i)"
MOST_IS = "    most = 0 if kind == FORBIDDEN else number\n"
BREAKS = "return count if kind != POINTS and count > most else None"

SLIPS = [
    # what is counted
    ("charges count", COUNTED, "for t in run.things if t.kind in (3, 4) and (t.kind == 4 or run.calculated(t))]"),
    ("skills count", COUNTED, "for t in run.things if t.kind == 5 or t.kind == ITEM and run.calculated(t)]"),
    ("the hull counts", COUNTED, "for t in run.things if t.kind == 0 or t.kind == ITEM and run.calculated(t)]"),
    ("projected objects count", COUNTED, "for t in run.things if t.kind == 6 or t.kind == ITEM and run.calculated(t)]"),
    ("items in no slot count", COUNTED, "for t in run.things if t.kind == ITEM]"),
    ("drones do not count", COUNTED, "for t in run.things if t.kind == ITEM and run.calculated(t) and not run.drone(t)]"),
    ("implants of a structure do not count", COUNTED, "for t in run.things if t.kind == ITEM and run.calculated(t) and not (run.ship.category == 65 and run.on_char(t))]"),
    ("offline modules do not count", COUNTED, "for t in run.things if t.kind == ITEM and run.calculated(t) and t.state > 0]"),
    ("one piece each", "(t.type, t.group, t.quantity)", "(t.type, t.group, min(t.quantity, 1))"),
    ("at least one piece", "(t.type, t.group, t.quantity)", "(t.type, t.group, max(t.quantity, 1))"),
    ("the type is the group", "(t.type, t.group, t.quantity)", "(t.type, t.type, t.quantity)"),
    # sums
    ("pieces of 32 bits", "return sum(quantity for _, group, quantity in items if group == i)", "return sum(quantity for _, group, quantity in items if group == i) % 2 ** 32"),
    ("points of 32 bits", "return sum(quantity * prices.get(kind_of, 0) for kind_of, _, quantity in items)", "return sum(quantity * prices.get(kind_of, 0) for kind_of, _, quantity in items) % 2 ** 32"),
    ("a type without a line costs 1", "prices.get(kind_of, 0)", "prices.get(kind_of, 1)"),
    ("groups by their remainder", "if group == i)", "if group % 1021 == i % 1021)"),
    # lines
    ("a cap that is reached is broken", BREAKS, "return count if kind != POINTS and (count > most or kind == MOST and count == most) else None"),
    ("a total that is reached is broken", BREAKS, "return count if kind != POINTS and (count > most or kind == TOTAL and count == most) else None"),
    ("a forbidden group by its number", MOST_IS, "    most = number\n"),
    ("a cap of 0 is no cap", BREAKS, "return count if kind != POINTS and count > most and (kind != MOST or number > 0) else None"),
    ("points are a limit", BREAKS, "return count if count > most else None"),
    ("the excess for the count", BREAKS, "return count - most if kind != POINTS and count > most else None"),
    ("the last broken line", "for at, line in enumerate(lines):\n        count", "for at, line in reversed(list(enumerate(lines))):\n        count"),
    ("lines from 1", "return [0, 0, 0, at, count]", "return [0, 0, 0, at + 1, count]"),
    # the table
    ("equal lines are let in", ASCENDS, "lines[at - 1][:2] > (kind, i)"),
    ("ids unsigned", ASCENDS, "(lines[at - 1][0], lines[at - 1][1] % 2 ** 32) >= (kind, i % 2 ** 32)"),
    ("ids ascend across kinds", ASCENDS, "(lines[at - 1][:2] >= (kind, i) or lines[at - 1][1] >= i)"),
    ("the order is not tested", " or at > 0 and " + ASCENDS, ""),
    ("the earlier of two is bad", "at > 0 and " + ASCENDS, "at + 1 < len(lines) and (kind, i) >= lines[at + 1][:2]"),
    ("kind 4 is known", "if kind > TOTAL or", "if kind > TOTAL + 1 or"),
    ("points of 65,536", "MOST_POINTS = 65535", "MOST_POINTS = 65536"),
    ("points of every kind at most 65,535", "kind == POINTS and number > MOST_POINTS", "number > MOST_POINTS"),
    ("a total of any id", " or kind == TOTAL and i != 0", ""),
    ("places from 1", "return [RULES, bad, 0, 0, 0]", "return [RULES, bad + 1, 0, 0, 0]"),
    ("RULES before SHAPE", "    try:\n        run.read()", "    if bad_line(lines) is not None:\n        return [RULES, bad_line(lines), 0, 0, 0]\n    try:\n        run.read()"),
    ("a refusal is allowed", "return [*refusal.answer, 0, 0, 0]", "return [*refusal.answer, 1, 0, 0]"),
]



def answer(module, table):
    """What is said of each call on a table's fit."""
    lines, calls = table
    return [module.by_sheet(*files, lines) if len(files) == 1 else module.by_files(*files, lines) for files in calls]


if __name__ == "__main__":
    seed, count = slipping.words(3000)
    slipping.report(SLIPS, rules, "table", [compare_rules.calls_of(seed, number) for number in range(count)], answer)
