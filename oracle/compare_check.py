#!/usr/bin/env python3
"""Holds dogma_check against the reference (oracle/checks.py): other planners' listings, every field of every list.

Usage: compare_check.py [--seed SEED] [--workers N] [--emulated] [--from N] [LISTINGS]: so many listings (default 100,000), six on each
sheet: our own values; one bit changed; rows missing, doubled, swapped, added, of another key; values that are not finite, of another
sign, of another row, or made from an infinity; several of these. Sheets are made by make_sheets.py, some of them damaged, many of them with a loop; lists are lent
to the row, with slack, or too short. Listings that differ go to target/compare. The library is the one of library/build; --emulated as in
compare_engine.py. A sheet and its listings are made of the seed and the sheet's number alone.
"""
import collections
import pickle
import random
import subprocess

import batches
import checks
import compare_engine
import make_sheets
import reference

LISTINGS_A_SHEET = 6
SHEETS_A_BATCH = 40
HIGHEST = 2 ** 32 - 1
ODD_BITS = [0x7ff0000000000000, 0xfff0000000000000, 0x7ff8000000000000, 0x7fefffffffffffff, 0, 1 << 63, 1, 0x3ff0000000000000]


# ---- listings

def bit_changed(lines, r):
    at = r.randrange(len(lines))
    lines[at] = (*lines[at][:2], lines[at][2] ^ 1 << r.choice([0, 0, 0, 1, 51, 52, 62, 63, r.randrange(64)]))


def row_missing(lines, r):
    del lines[r.choice([len(lines) - 1, r.randrange(len(lines))])]


def rows_missing(lines, r):
    del lines[r.randrange(len(lines)):]


def row_doubled(lines, r):
    at = r.choice([len(lines) - 1, r.randrange(len(lines))])
    lines.insert(at, lines[at])


def rows_swapped(lines, r):
    a, b = r.randrange(len(lines)), r.randrange(len(lines))
    lines[a], lines[b] = lines[b], lines[a]


def row_added(lines, r):
    at = r.choice([0, len(lines), r.randrange(len(lines) + 1)])
    lines.insert(at, (r.choice([0, 1, 5, 1024, HIGHEST]), r.choice([-2 ** 31, -1, 0, 1, 2 ** 31 - 1]), r.choice(ODD_BITS)))


def key_changed(lines, r):
    at = r.randrange(len(lines))
    number, attribute, bits = lines[at]
    lines[at] = r.choice([((number + 1) % 2 ** 32, attribute, bits), (number, min(attribute + 1, 2 ** 31 - 1), bits), (number, -attribute if attribute > -2 ** 31 else 0, bits)])


def odd_value(lines, r):
    at = r.randrange(len(lines))
    lines[at] = (*lines[at][:2], r.choice(ODD_BITS))


def value_of_another(lines, r):
    at, other = r.randrange(len(lines)), r.randrange(len(lines))
    lines[at] = (*lines[at][:2], lines[other][2])


class Reading(checks.Given):
    """What values that are not finite would give, if one went on from them."""

    def value_of(self, t, attribute, depth):
        return self.listed[t.number, attribute] if attribute in t.rows else self.default(attribute)


def read_on(data, lines, r):
    """One value is an infinity, and those made from it are what an infinity gives."""
    run = Reading(data, (HIGHEST,) * 4)
    checks.dispatched(run)
    if not lines or [line[:2] for line in lines] != run.keys():
        return
    at = r.randrange(len(lines))
    lines[at] = (*lines[at][:2], r.choice(ODD_BITS[:2]))
    run.listed = {line[:2]: checks.float_of(line[2]) for line in lines}
    for k, (number, attribute, _) in enumerate(lines):
        if lines[at][:2] in run.needs((number, attribute)) and k != at:
            owner = run.things[number]
            try:
                value = reference.Calculation(run, owner, attribute, owner.rows[attribute], 0).result()
            except reference.Refusal:
                continue
            lines[k] = (number, attribute, checks.bits_of(value))


CHANGES = [bit_changed, bit_changed, bit_changed, row_missing, rows_missing, row_doubled, rows_swapped, row_added, key_changed, odd_value, odd_value, value_of_another]


def guessed(run, r):
    """A listing where our run gives none: bases, or anything."""
    return [(n, a, checks.bits_of(run.things[n].rows[a].base) if r.random() < 0.8 else r.choice(ODD_BITS)) for n, a in run.keys()]


def listings_of(data, r):
    """Our own, then changed ones; on a sheet that is refused before, anything."""
    run = checks.Given(data, (HIGHEST,) * 4)
    try:
        checks.dispatched(run)
    except reference.Refusal:
        return [[(n, 1 + n, r.choice(ODD_BITS)) for n in range(r.choice([0, 1, 3]))] for _ in range(LISTINGS_A_SHEET)]
    own = checks.ours(data) or guessed(run, r)
    made = [list(own)]
    for _ in range(LISTINGS_A_SHEET - 1):
        lines = list(own)
        if r.random() < 0.1:
            read_on(data, lines, r)
        for _ in range(r.choice([0, 1, 1, 2, 3]) if lines != own else r.choice([1, 1, 1, 2, 3])):
            change = r.choice(CHANGES) if lines else row_added
            change(lines, r)
        made.append(lines)
    return made


# ---- sheets and lent lengths

def reached(data):
    """The rows of each list where nothing is short."""
    run = checks.Given(data, (HIGHEST,) * 4)
    try:
        checks.dispatched(run)
    except reference.Refusal:
        pass
    return run.reached()[:4]


def lent_for(need, r):
    lent = [0] * 9
    slack = r.choice([(0,), (0,), (0, 0, 1), (0, 1, 2, 9)])
    for count, columns in zip(need, checks.LISTS):
        for c in columns:
            lent[c] = count + r.choice(slack)
    if r.random() < 0.15:
        at = r.randrange(4)
        lent[r.choice(checks.LISTS[at])] = r.choice([max(0, need[at] - 1), r.randint(0, need[at])])
    return lent


def sheet_of(r, number):
    kind = "real" if number % 400 == 11 else "small-real" if number % 40 == 7 else r.choice(["tiny", "tiny", "tiny", "dense", "dense", "tiny-damaged"])
    return make_sheets.KINDS[kind](r)


def calls_of(seed, number):
    """Sheet, lent lengths and lines of each of a sheet's calls."""
    r = random.Random(f"check {seed} {number}")
    data = sheet_of(r, number)
    need = reached(data)
    return [(data, lent_for(need, r), lines) for lines in listings_of(data, r)]


# ---- a batch

def ways(lines, answer):
    """What a call has of things that are easily got wrong."""
    names = {0: "accepted", checks.LOOP: "LOOP", checks.LISTING: "LISTING"}
    found = [names.get(answer.number, f"refused {answer.number}")]
    if answer.number == 0:
        found += ["accepted, no row"] * (not lines) + ["accepted, twenty rows or more"] * (len(lines) >= 20)
    if answer.number == checks.LISTING:
        found += ["LISTING past the last line"] * (answer.place == len(lines)) + ["LISTING past the first line"] * (answer.place > 0)
    return found + ["LOOP above object 0"] * (answer.number == checks.LOOP and answer.place > 0)


def batch(job):
    words, seed, numbers = job
    clock = compare_engine.Clock()
    calls = [(number, at, *call) for number in numbers for at, call in enumerate(calls_of(seed, number))]
    clock.note("make")
    blob = b"".join(checks.driven(data, lent, lines, number * 8 + at) for number, at, data, lent, lines in calls)
    out = subprocess.run(words, input=blob, stdout=subprocess.PIPE, check=True).stdout
    found = compare_engine.split(out, len(calls), "the engine")
    clock.note("engine")
    counts, differ = collections.Counter(), []
    for (number, at, data, lent, lines), got in zip(calls, found):
        answer = checks.checked(data, checks.rooms(lent), lines)
        wanted = checks.text(answer).encode()
        counts["lines"] += len(lines)
        counts.update(("way", way) for way in ways(lines, answer))
        if got != wanted:
            first = [text.split(b"\n", 1)[0].decode() for text in (wanted, got)]
            differ.append(f"sheet {seed} {number}, listing {at}: expected {first[0]}, found {first[1]}")
            (compare_engine.PLACE / f"check-{seed}-{number}-{at}.pickle").write_bytes(pickle.dumps((data, lent, lines, wanted, got)))
    counts["listings"] += len(calls)
    counts["sheets"] += len(numbers)
    clock.note("reference and compare")
    return counts, differ, clock.spent


def main():
    given = batches.given_words(__doc__, "LISTINGS")
    words = compare_engine.build(given.emulated, "checks.c")
    numbers = range(given.start, given.start + -(-given.count // LISTINGS_A_SHEET))
    jobs = [(words, given.seed, numbers[at:at + SHEETS_A_BATCH]) for at in range(0, len(numbers), SHEETS_A_BATCH)]
    batches.compared(batch, jobs, given, lambda n: f"{n['listings']:,} listings of {n['lines']:,} lines on {n['sheets']:,} sheets")


if __name__ == "__main__":
    main()
