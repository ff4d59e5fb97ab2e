#!/usr/bin/env python3
"""M-111 in Python over the reference: another planner's listing held against 01's rules, line by line, with no descent of our own.

Usage: checks.py SHEET LISTING: LISTING has lines of 16 bytes (object, signed attribute, the value's 64 bits). Prints what oracle/checks.c
prints. A line is (object, attribute, bits).
"""
import math
import pathlib
import struct
import sys

import reference
from reference import MOST_ROWS, Refusal

LOOP, LISTING = 10, 15


class Given(reference.Run):
    """The engine up to dispatch, then values as they are listed: none is ever calculated for another."""

    def __init__(self, data, rooms):
        super().__init__(data, (*rooms, MOST_ROWS))
        self.listed = {}

    def value_of(self, t, attribute, depth):
        if attribute not in t.rows:
            return self.default(attribute)
        value = self.listed[t.number, attribute]
        if not math.isfinite(value):
            raise Refusal(LISTING, 0)
        return value

    def keys(self):
        """Object and attribute of each row, in list 2's order."""
        return [(t.number, attribute) for t in self.things for attribute in sorted(t.rows)]

    def needs(self, key):
        """What an attribute leads to: sources, running or not, resistances, limits; only those that have a row."""
        number, attribute = key
        row = self.things[number].rows[attribute]
        wanted = []
        for origin, _, _, _, resistance, _ in row.entries:
            if origin[0] == "effect":
                wanted.append((origin[2].number, origin[4]))
                if resistance is not None:
                    wanted.append((self.ship.number, resistance))
        _, _, _, least, most = self.attributes.get(attribute, (0, 0, 0.0, 0, 0))
        wanted += [(number, limit) for limit in (least, most) if limit != 0]
        return [(n, a) for n, a in wanted if a in self.things[n].rows]


def on_loops(keys, needs):
    """The keys that lead back to themselves: those of a strongly connected part with more than one key, or that need themselves."""
    index, low, path, on_path, found = {}, {}, [], set(), set()
    for root in keys:
        if root in index:
            continue
        calls = [(root, iter(needs[root]))]
        index[root] = low[root] = len(index)
        path.append(root)
        on_path.add(root)
        while calls:
            key, rest = calls[-1]
            for need in rest:
                if need not in index:
                    index[need] = low[need] = len(index)
                    path.append(need)
                    on_path.add(need)
                    calls.append((need, iter(needs[need])))
                    break
                if need in on_path:
                    low[key] = min(low[key], index[need])
            else:
                calls.pop()
                if calls:
                    low[calls[-1][0]] = min(low[calls[-1][0]], low[key])
                if low[key] == index[key]:
                    part = path[path.index(key):]
                    del path[path.index(key):]
                    on_path -= set(part)
                    found |= {k for k in part if len(part) > 1 or k in needs[k]}
    return found


def float_of(bits):
    return struct.unpack("<d", struct.pack("<Q", bits))[0]


def bits_of(value):
    return struct.unpack("<Q", struct.pack("<d", value))[0]


def gives(run, key, bits):
    """Whether 01's rules give just these bits for the attribute from the other listed values."""
    number, attribute = key
    owner = run.things[number]
    row = owner.rows[attribute]
    row.sources = []
    if not math.isfinite(float_of(bits)):
        return False
    try:
        return bits_of(reference.Calculation(run, owner, attribute, row, 0).result()) == bits
    except Refusal:
        return False


def first_wrong(run, listing):
    """The first wrong line, or none: rows before values."""
    keys = run.keys()
    for at in range(max(len(keys), len(listing))):
        if keys[at:at + 1] != [line[:2] for line in listing[at:at + 1]]:
            return at
    run.listed = {(number, attribute): float_of(bits) for number, attribute, bits in listing}
    return next((at for at, (number, attribute, bits) in enumerate(listing) if not gives(run, (number, attribute), bits)), None)


def dispatched(run):
    run.read()
    run.copy_bases()
    run.collection()
    run.dispatch()


def judged(run, listing):
    dispatched(run)
    keys = run.keys()
    loops = on_loops(keys, {key: run.needs(key) for key in keys})
    if loops:
        raise Refusal(LOOP, min(loops)[0])
    wrong = first_wrong(run, listing)
    if wrong is not None:
        raise Refusal(LISTING, wrong)


def checked(data, rooms, listing):
    """The whole answer; rooms in the order collected, rows, entries, plain."""
    run = Given(bytes(data), rooms)
    try:
        judged(run, listing)
    except Refusal as refusal:
        return reference.Answer(*refusal.answer)
    for t in run.things:
        for attribute, row in t.rows.items():
            row.value, row.sources = run.listed[t.number, attribute], []
    return reference.Answer(0, 0).fill(run)


def ours(data):
    """The listing of our own values, whatever asks and depth are: nothing where there is no such run."""
    run = reference.Run(bytes(data), reference.AMPLE)
    run.read()
    run.depth, run.asks = MOST_ROWS, []
    try:
        run.copy_bases()
        run.collection()
        run.dispatch()
        run.values()
    except Refusal:
        return None
    return [(t.number, attribute, bits_of(t.rows[attribute].value)) for t in run.things for attribute in sorted(t.rows)]


def text(answer):
    """With the counts in the first line, as oracle/checks.c prints it."""
    counts = [len(getattr(answer, name)) for name in ("collected", "rows", "entries", "plain", "sources")]
    first, rest = answer.text().split("\n", 1)
    return " ".join([first, *map(str, counts)]) + "\n" + rest


def packed(listing):
    return b"".join(struct.pack("<IiQ", *line) for line in listing)


def driven(data, lent, listing, seed):
    """What oracle/checks.c reads: lengths of sheet and listing, the lent lengths, a seed, and both."""
    return struct.pack("<12I", len(data), len(listing), *lent, seed % 2 ** 32) + data + packed(listing)


# the columns of each list in a check, in the order of `lent`: collected, its values, rows, bases, values, work, entries, their values, plain
LISTS = [[0, 1], [2, 3, 4, 5], [6, 7], [8]]


def rooms(lent):
    return tuple(min(lent[c] for c in columns) for columns in LISTS)


def main():
    data, lines = (pathlib.Path(word).read_bytes() for word in sys.argv[1:3])
    sys.stdout.write(text(checked(data, (MOST_ROWS,) * 4, list(struct.iter_unpack("<IiQ", lines)))))


if __name__ == "__main__":
    main()
