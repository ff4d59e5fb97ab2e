#!/usr/bin/env python3
"""Chooses the kept sheets and writes them with the oracle's answers, every list of them.

Usage: make_kept.py [OUT], OUT cases/kept.bin where none is said, and then the standard input of the program `replay` too;
and cases/KEPT.md, which names each. Needs the guarded oracle (oracle/build.py --guarded) to make them, nothing to replay them.

For each slip of oracle/slips.py the smallest of the first sheets on which it shows; for each list one that is full to the row and
one that is a row short; for each number sheets of their own; and the marked cases. All numbers are 32 bits, little-endian:

    0        the sheet's length in bytes
    1 .. 10  the lent lengths of the ten columns, in the order of dogma_calculate
    11, 12   number and place
    13 .. 17 the counts of lists 1 to 5
    18       how many states follow: the sheet's objects, 0 after a refusal
    then     the sheet, with zero bytes up to a multiple of four
    then     the states, two numbers each
    then     the ten columns, as many rows of each as its list's count: a number is one, a float two, the low half first

What is not written is zero: the states after those, and each column from its count to its lent length.
"""
import pathlib
import random
import struct
import sys

HERE = pathlib.Path(__file__).resolve().parent
sys.path.insert(0, str(HERE.parent / "oracle"))
import compare_engine
import make_sheets
import marked
import reference
import sampled
import slips

SEED = "kept 1"
LONGEST = 4000
# the letter of a list's lines, and for each column the fields it has of a line
FIELDS = [("C", [slice(0, 14), slice(14, 15)]), ("R", [slice(0, 6), slice(6, 7), slice(7, 8)]), ("E", [slice(0, 12), slice(12, 13)]),
          ("P", [slice(0, 2)]), ("Q", [slice(0, 11), slice(11, 13)])]
LISTING_ALONE = {"hundredths cut", "halves to even", "minus before zero", "star above 10^12 only", "star with a minus"}


class Case:
    def __init__(self, data, lent, made):
        self.data, self.lent, self.made = data, lent, made
        self.rooms = sampled.rooms(lent)
        self.text = reference.answer(data, self.rooms).text()

    def size(self):
        return len(self.data) + 50 * self.text.count("\n")


def candidates(count):
    """Small sheets of every kind, with lent lengths of their own."""
    for n in range(count):
        kind = "small-limits" if n % 40 == 7 else ["tiny", "tiny-damaged", "tiny", "dense", "damaged", "dense"][n % 6]
        data = make_sheets.sheet(kind, SEED, n)
        if len(data) <= LONGEST:
            yield Case(data, sampled.lengths(kind, SEED, n, data), f"{kind} {n}")


def shows(module, case):
    try:
        return module.answer(case.data, case.rooms).text() != case.text
    except Exception:
        return True


def by_slips(cases, most):
    """For each slip the smallest of the first few that are not taken."""
    taken, missing = set(), []
    for name, old, new in slips.SLIPS:
        if name in LISTING_ALONE | slips.SAME:
            continue
        module, found = slips.slipped(name, old, new), []
        for at, case in enumerate(cases):
            if at not in taken and shows(module, case):
                found.append(at)
                if len(found) == most:
                    break
        if not found:
            if not any(shows(module, case) for _, case in by_mark()):
                missing.append(name)
            continue
        best = min(found, key=lambda at: cases[at].size())
        taken.add(best)
        yield name, cases[best]
    print("seen by none:", missing)


def by_room(cases):
    """For each list: full to the row, and one row short; and recorded ones where two lists are full."""
    for at, (name, columns) in enumerate(sampled.LISTS):
        found = 0
        for case in sorted(cases, key=Case.size):
            full = reference.answer(case.data)
            counts = [len(getattr(full, other)) for other, _ in sampled.LISTS]
            if full.number != 0 or counts[at] < 4:
                continue
            lent = [0] * 10
            for need, some in zip(counts, (some for _, some in sampled.LISTS)):
                for c in some:
                    lent[c] = need
            yield f"{name}: every list full to the row", Case(case.data, lent, case.made)
            for c in columns:
                less = list(lent)
                less[c] -= 1
                yield f"{name}: column {sampled.COLUMNS[c]} a row short", Case(case.data, less, case.made)
            found += 1
            if found == 2:
                break


def by_number(cases, each):
    """For each number and place sheets of their own, the smallest first."""
    found = {}
    for case in sorted(cases, key=Case.size):
        first = case.text.split("\n", 1)[0]
        number, place = map(int, first.split())
        key = first if number in (1, 7) else str(number)
        if found.setdefault(key, 0) < each:
            found[key] += 1
            yield f"number {number}, place {place}", case


def by_mark():
    for name, what, data, _ in marked.CASES:
        if len(data) <= LONGEST:
            full = reference.answer(data)
            yield f"marked: {name}", Case(data, [max(8, len(full.rows), len(full.sources))] * 10, "cases/marked.py")
            if name == "L":
                yield "marked: L, one entry lent", Case(data, [8] * 5 + [1, 1] + [8] * 3, "cases/marked.py")


def oracle_texts(chosen):
    """The oracle's answers with all counts; SHAPE is the reference's."""
    good = [at for at, (_, case) in enumerate(chosen) if not case.text.startswith("1 ")]
    texts = dict(zip(good, compare_engine.ask_oracle([chosen[at][1].data for at in good], [chosen[at][1].rooms for at in good])))
    for at, (name, case) in enumerate(chosen):
        text = compare_engine.told(texts[at])[1].decode() if at in texts else case.text.replace("\n", " 0 0 0 0 0\n", 1)
        first, rest = text.split("\n", 1)
        if " ".join(first.split()[:2]) + "\n" + rest != case.text:
            sys.exit(f"{name}: oracle and reference differ")
        yield text


def words(fields):
    """A line's fields as 32-bit numbers; a float is sixteen hexadecimal digits."""
    for field in fields:
        if len(field) == 16:
            yield from struct.unpack("<2I", struct.pack("<Q", int(field, 16)))
        else:
            yield int(field) % 2 ** 32


def encoded(case, text):
    lines = text.splitlines()
    first = [int(word) for word in lines[0].split()]
    by_letter = {letter: [line.split()[1:] for line in lines[1:] if line[0] == letter] for letter in "SCRPEQ"}
    out = [len(case.data), *case.lent, *first, len(by_letter["S"])]
    body = [int(x) for row in by_letter["S"] for x in row]
    for letter, columns in FIELDS:
        for column in columns:
            for row in by_letter[letter]:
                body += words(row[column])
    padded = case.data + bytes(-len(case.data) % 4)
    return struct.pack(f"<{len(out)}I", *out) + padded + struct.pack(f"<{len(body)}I", *body)


def main():
    out = pathlib.Path(sys.argv[1]) if len(sys.argv) > 1 else HERE / "kept.bin"
    compare_engine.PLACE.mkdir(parents=True, exist_ok=True)
    cases = list(candidates(12000))
    chosen = list(by_mark()) + list(by_slips(cases, 6)) + list(by_room(cases)) + list(by_number(cases, 2))
    seen, unlike = set(), []
    for name, case in chosen:
        key = (case.data, tuple(case.lent))
        if key not in seen:
            seen.add(key)
            unlike.append((name, case))
    parts = [encoded(case, text) for (_, case), text in zip(unlike, oracle_texts(unlike))]
    kept = b"".join(parts)
    out.write_bytes(kept)
    if len(sys.argv) == 1:
        (HERE.parent / "crates/replay/stdin").write_bytes(kept)
    longest = max(len(case.data) for _, case in unlike)
    lent = [max(case.lent[c] for _, case in unlike) for c in range(10)]
    account = ["# Kept sheets", "", f"Made by `cases/make_kept.py` (seed \"{SEED}\"), which says how `kept.bin` is read: {len(unlike)} sheets, {sum(map(len, parts)):,} bytes, with the answers of the",
               f"guarded oracle. The longest sheet has {longest} bytes; the most that is lent: {', '.join(f'{name} {n}' for name, n in zip(sampled.COLUMNS, lent))}.", "",
               "`made` is the kind and the number that make_sheets.py has for the sheet; the name is the slip that shows on it, or what else it is there for.", "",
               "| no. | name | made | bytes | number, place, counts |", "|---|---|---|---|---|"]
    for at, ((name, case), part) in enumerate(zip(unlike, parts)):
        account.append(f"| {at} | {name} | {case.made} | {len(case.data)} | {' '.join(map(str, struct.unpack_from('<7I', part, 44)))} |")
    (HERE / "KEPT.md").write_text("\n".join(account) + "\n")
    print(f"{len(unlike)} sheets, {sum(map(len, parts))} bytes; longest {longest}, lent {lent}")


if __name__ == "__main__":
    main()
