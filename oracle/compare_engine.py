#!/usr/bin/env python3
"""Holds the engine against the oracle, bit for bit, on many sheets.

Usage: compare_engine.py [--seed SEED] [--workers N] [--reference EVERY] [--emulated] [--part K/N] [--listing COUNT] [KIND=COUNT ..]

Each sheet is run twice: with lists that are long enough, often to the row, and with some that are short. What is expected is the
guarded oracle's answer; SHAPE, which the Rust does not have, is the reference's; and of every EVERYth sheet the reference's whole
answer is taken too, with lengths by its own count (two lists full before one hit). Every line that oracle/engine.c prints must be
the same: number, place, counts, states, all fields of all lists, floats by their bits, and that all else is zero and untouched.
Without a KIND: a million sheets, as MILLION has them. The library is the one that library/build gives; with --emulated the driver is
linked with the kit's C library, and runs with it. --listing COUNT: the program crates/sheet/out/sheet (`rt run` in crates/sheet makes it)
on the cases, inputs at its buffer's edge and COUNT sheets of each kind, whole and in pieces, its text against the reference's listing. Sheets that differ go to target/compare.
--part K/N: the Kth of N shares of the same sheets, with a report on all shares of this library that have been run.
"""
import argparse
import collections
import hashlib
import multiprocessing
import os
import pathlib
import pickle
import platform
import random
import struct
import subprocess
import sys
import tempfile
import time

import make_sheets
import reference
import sampled

HERE = pathlib.Path(__file__).resolve().parent
ROOT = HERE.parent
PLACE = ROOT / "target" / "compare"
GUARDED = ROOT / "target" / "oracle" / "guarded"
AMPLE = (2 ** 32 - 2,) * 5
BATCH = {"real": 40, "large": 10, "limits": 50, "huge": 20}
MILLION = {"dense": 520000, "tiny": 300000, "damaged": 110000, "tiny-damaged": 60000, "small-real": 8000, "real": 1500, "limits": 400, "huge": 400, "large": 100}
COLUMNS_OF = [columns for _, columns in sampled.LISTS]


# ---- the parts

def build(emulated, source="engine.c"):
    """A driver of this folder, linked with the library, and the words that run it."""
    PLACE.mkdir(parents=True, exist_ok=True)
    made = subprocess.run([str(ROOT / "library" / "build")], cwd=ROOT, stdout=subprocess.PIPE, text=True)
    if made.returncode != 0:
        sys.exit(made.returncode)
    library = made.stdout.strip()
    # named by the library, so that two comparisons at once do not mix
    digest = hashlib.sha256((ROOT / library).read_bytes()).hexdigest()[:12]
    driver = PLACE / f"{source[:-2]}{'-emulated' if emulated else ''}-{digest}"
    if emulated:
        subprocess.run([ROOT / "library" / "emulated", "build", driver, HERE / source, library], cwd=ROOT, check=True)
        return [str(ROOT / "library" / "emulated"), "run", str(driver)]
    command = ["cc", "-std=c11", "-O2", "-Iinclude", str(HERE / source), library, "-o", str(driver)]
    subprocess.run(command, cwd=ROOT, check=True)
    return [str(driver)]


def split(out, count, who):
    """The answers to a batch; what comes after the last is not one."""
    answers = out.split(b"end\n")
    if len(answers) != count + 1:
        raise RuntimeError(f"{who} gave {len(answers) - 1} answers to {count} sheets")
    return answers[:-1]


def ask_oracle(sheets, rooms):
    if not sheets:
        return []
    with tempfile.NamedTemporaryFile(dir=PLACE) as file:
        for data, room in zip(sheets, rooms):
            file.write(struct.pack("<6I", len(data), *room) + data)
        file.flush()
        out = subprocess.run([str(GUARDED), "--told", file.name], check=True, stdout=subprocess.PIPE).stdout
    return split(out, len(sheets), "the oracle")


def ask_engine(words, sheets, lents, seed):
    blob = b"".join(struct.pack("<12I", len(data), *lent, (seed + at) % 2 ** 32) + data for at, (data, lent) in enumerate(zip(sheets, lents)))
    out = subprocess.run(words, input=blob, stdout=subprocess.PIPE, check=True).stdout
    return split(out, len(sheets), "the engine")


def shape_of(data):
    """The first bad table, or none."""
    return reference.bad_table(reference.tables_of(data)) if reference.header_good(data) else 0


def reference_text(data, lent):
    """The reference's answer, with the counts in the first line."""
    answer = reference.answer(data, sampled.rooms(lent))
    counts = [len(getattr(answer, name)) for name in ("collected", "rows", "entries", "plain", "sources")]
    first, rest = answer.text().split("\n", 1)
    return (" ".join([first, *map(str, counts)]) + "\n" + rest).encode()


# ---- lent lengths

def enough(r, reached):
    """No list is too short; most are full to the row."""
    slack = r.choice([(0,), (0,), (0, 0, 1), (0, 1, 2, 9)])
    lent = [0] * 10
    for need, columns in zip(reached, COLUMNS_OF):
        for c in columns:
            lent[c] = need + r.choice(slack)
    return lent


def short(r, reached):
    """One list is one row short, or some are shorter, or all are of the same few rows."""
    lent = enough(r, reached)
    way = r.random()
    if way < 0.08:
        return [r.choice([0, 1, 2, 3, 5])] * 10 if r.random() < 0.5 else [r.choice([0, 1, 2, 3, 5, 40]) for _ in range(10)]
    filled = [at for at in range(5) if reached[at] > 0] or [1]
    some = [r.choice(filled)] if way < 0.6 else [1, 2] if way < 0.8 else r.sample(range(5), 2)
    for at in some:
        need = reached[at]
        lent[r.choice(COLUMNS_OF[at])] = max(0, need - 1) if way < 0.5 else r.randint(need // 2 if way < 0.8 else 0, need)
    return lent


def told(text):
    """Number, place and what was reached, and the answer as the engine gives it: after a refusal the counts are zero."""
    first, rest = text.split(b"\n", 1)
    words = first.split()
    if words[0] == b"0":
        return [int(word) for word in words[2:]], text
    return [int(word) for word in words[2:]], b" ".join(words[:2] + [b"0"] * 5) + b"\n" + rest


# ---- edges

def overlap(ranges):
    """Whether two ranges that are not empty, each a first and a count, have an element in common."""
    some = sorted((first, first + count) for first, count in ranges if count > 0)
    return any(b[0] < a[1] for a, b in zip(some, some[1:]))


def edges_of(data, bad):
    """What a sheet has of ranges that overlap, and of a byte too few or too many."""
    if bad == 0:
        return [name for name, other in (("a byte short", data + b"\0"), ("a byte more", data[:-1])) if reference.header_good(other)]
    if bad is not None:
        return []
    _, effects, _, _, collections, objects, _, _, _, _ = reference.tables_of(data)
    ranges = {"modifiers": [r[4:6] for r in effects] + [r[2:4] for r in collections], "bases": [r[11:13] for r in objects],
              "ids": [part for r in objects for part in (r[13:15], r[15:17])]}
    return [f"overlapping ranges of {name}" for name, some in ranges.items() if overlap(some)]


def edges_of_run(lent, reached, text):
    """Which lists are full to the row in a run that is done, and which was one row short."""
    number, place, *counts = (int(word) for word in text.split(b"\n", 1)[0].split())
    rooms = sampled.rooms(lent)
    if number == 0:
        return [f"list {k + 1} full to the row" for k in range(5) if counts[k] == rooms[k] > 0]
    if number == 7 and rooms[place - 1] + 1 == reached[place - 1]:
        return [f"list {place} a row short"]
    return []


# ---- a batch

class Clock:
    def __init__(self):
        self.spent, self.at = collections.Counter(), time.perf_counter()

    def note(self, part):
        now = time.perf_counter()
        self.spent[part] += now - self.at
        self.at = now


def expected(kind, seed, numbers, sheets, bad, clock):
    """Two lent lengths for each sheet, the answers, and the rows that ample lists would take."""
    r = random.Random(f"engine lent {kind} {seed} {numbers[0]}")
    good = [at for at in range(len(sheets)) if bad[at] is None]
    shapes = [f"1 {place} 0 0 0 0 0\n".encode() if place is not None else None for place in bad]
    clock.note("shape")
    if kind == "huge":  # no room is ample
        lents = [[[r.choice([0, 1, 5, 100, 5000, 70000])] * 10 if r.random() < 0.3 else [r.choice([5, 100, 5000, 70000]) for _ in range(10)] for _ in sheets] for _ in range(2)]
        answers = [[told(text)[1] for text in ask_oracle(sheets, [sampled.rooms(lent) for lent in some])] for some in lents]
        clock.note("oracle")
        return lents, answers, [[0] * 5 for _ in sheets]
    first = {at: told(text) for at, text in zip(good, ask_oracle([sheets[at] for at in good], [AMPLE] * len(good)))}
    clock.note("oracle")
    anything = lambda: [r.choice([0, 1, 7, 60]) for _ in range(10)]
    long = [enough(r, first[at][0]) if at in first else anything() for at in range(len(sheets))]
    less = [short(r, first[at][0]) if at in first else anything() for at in range(len(sheets))]
    clock.note("lengths")
    second = dict(zip(good, ask_oracle([sheets[at] for at in good], [sampled.rooms(less[at]) for at in good])))
    clock.note("oracle")
    answers = [[first[at][1] if at in first else shapes[at] for at in range(len(sheets))],
               [told(second[at])[1] if at in second else shapes[at] for at in range(len(sheets))]]
    return [long, less], answers, [first[at][0] if at in first else [0] * 5 for at in range(len(sheets))]


def keep(kind, seed, n, what, data, lent, theirs, ours):
    name = PLACE / f"{kind}-{seed}-{n}-{what}"
    name.with_suffix(".sheet").write_bytes(data)
    name.with_suffix(".txt").write_text(f"lent {' '.join(map(str, lent))}\n---- expected\n{theirs.decode()}---- engine\n{ours.decode()}")


def batch(job):
    words, kind, seed, start, stop, every = job
    clock = Clock()
    numbers = list(range(start, stop))
    sheets = [make_sheets.sheet(kind, seed, n) for n in numbers]
    clock.note("make")
    bad = [shape_of(data) for data in sheets]
    lents, answers, reached = expected(kind, seed, numbers, sheets, bad, clock)
    runs = [(n, "enough", data, lent, text) for n, data, lent, text in zip(numbers, sheets, lents[0], answers[0])]
    runs += [(n, "short", data, lent, text) for n, data, lent, text in zip(numbers, sheets, lents[1], answers[1])]
    clock.note("lengths")
    held = [at for at in range(len(sheets)) if every and numbers[at] % every == 0]
    differ = []
    for at in held:
        for lent, text in zip((lents[0][at], lents[1][at]), (answers[0][at], answers[1][at])):
            if reference_text(sheets[at], lent) != text:
                differ.append(f"reference and oracle differ: {kind} {seed} {numbers[at]}")
        if kind == "huge":
            continue
        lent = sampled.lengths(kind, seed, numbers[at], sheets[at])
        runs.append((numbers[at], "reference", sheets[at], lent, reference_text(sheets[at], lent)))
    clock.note("reference")
    found = ask_engine(words, [run[2] for run in runs], [run[3] for run in runs], start)
    clock.note("engine")
    edges = collections.Counter(edge for data, place in zip(sheets, bad) for edge in edges_of(data, place))
    for some, texts in zip(lents, answers):
        edges.update(edge for lent, need, text in zip(some, reached, texts) for edge in edges_of_run(lent, need, text))
    clock.note("edges")
    status, rows = collections.Counter(), collections.Counter()
    for (n, what, data, lent, theirs), ours in zip(runs, found):
        status[what, int(theirs.split(b" ", 1)[0])] += 1
        rows["lines"] += theirs.count(b"\n")
        rows["floats"] += 2 * theirs.count(b"\nR ") + theirs.count(b"\nE ") + theirs.count(b"\nC ") + 2 * theirs.count(b"\nQ ")
        if ours != theirs:
            differ.append(f"differs: {kind} {seed} {n} {what}: expected {theirs.split(b'end')[0].splitlines()[0].decode()}, engine {ours.splitlines()[0].decode()}")
            if len(differ) <= 5:
                keep(kind, seed, n, what, data, lent, theirs, ours)
    clock.note("compare")
    return kind, len(sheets), len(held), status, rows, differ, clock.spent, edges


# ---- the program

def buffer_full():
    """A sound sheet of as many bytes as the program's buffer has: ship, char, and base attributes and ids that nobody has."""
    sheet = make_sheets.Sheet()
    sheet.tables[5] = [make_sheets.object_record(kind, 1) for kind in (make_sheets.SHIP, make_sheets.CHAR)]
    sheet.tables[6] = [[1, 0.5]] * 5441
    sheet.tables[7] = [[1]] * 2
    return sheet.bytes()


def inputs(kinds, seed, count):
    """Names and bytes: the cases, the buffer's edges, and sheets that are made."""
    for file in sorted((ROOT / "cases").glob("*.sheet")):
        yield file.stem, file.read_bytes()
    full = buffer_full()
    assert len(full) == 65536
    yield from [("nothing", b""), ("a full buffer", full), ("one byte more", full + b"\0"), ("twice the buffer", full + full)]
    for kind in kinds:
        for n in range(count):
            yield f"{kind}-{n}", make_sheets.sheet(kind, f"{seed} listing", n)


def in_pieces(words, data, size):
    """What is printed for bytes that come by a pipe, so many at a time."""
    process = subprocess.Popen(words, stdin=subprocess.PIPE, stdout=subprocess.PIPE, bufsize=0)
    try:
        for at in range(0, len(data), size):
            process.stdin.write(data[at:at + size])
            time.sleep(0.002)
    except BrokenPipeError:
        pass  # it has read enough to refuse
    process.stdin.close()
    text = process.stdout.read()
    process.wait()
    return text


def listings(kinds, seed, count):
    """The program's text against the reference's, every list lent 4,096; longer than the buffer is SHAPE 0."""
    program = ROOT / "crates" / "sheet" / "out" / "sheet"
    if not program.exists():
        sys.exit("crates/sheet/out/sheet is not there: `rt run` in crates/sheet makes it")
    words = [str(ROOT / "library" / "emulated"), "run", str(program)]
    differ = runs = 0
    for at, (name, data) in enumerate(inputs(kinds, seed, count)):
        wanted = "refused 1 0\n" if len(data) > 65536 else reference.listing(reference.answer(data, (4096,) * 5))
        found = [subprocess.run(words, input=data, stdout=subprocess.PIPE).stdout]
        if at % 20 == 0 or name == "a full buffer":
            found.append(in_pieces(words, data, 4000 if len(data) > 4000 else 77))
        runs += len(found)
        if any(text != wanted.encode() for text in found):
            differ += 1
            (PLACE / f"listing-{name.replace(' ', '-')}.sheet").write_bytes(data)
            print(f"the listing differs: {name}: {found[0][:60]!r}")
    print(f"listing: {runs} runs of {program.relative_to(ROOT)}, {differ} differ")
    return differ


# ---- shares

def shares(driver, given, kinds, share, counters):
    """The counters of all shares of this library, seed and kinds so far; none is counted twice."""
    name = f"{pathlib.Path(driver).name} {given.seed} {given.reference} {kinds} {given.part.split('/')[1]}"
    file = PLACE / f"shares-{hashlib.sha256(name.encode()).hexdigest()[:12]}.pickle"
    done, before = pickle.loads(file.read_bytes()) if file.exists() else (set(), [])
    if share in done:
        sys.exit(f"share {given.part} was counted before: {file.relative_to(ROOT)}")
    for counter, old in zip(counters, before):
        counter.update(old)
    file.write_bytes(pickle.dumps((done | {share}, counters)))
    print(f"\nShares {sorted(done | {share})} of {given.part.split('/')[1]}:")


def library_text(emulated):
    if os.environ.get("DOGMA_LIBRARY"):
        return "an archive that was given, and may be anything"
    return "the library as shipped, with the kit's C library" if emulated else "the library as shipped"


def report(kinds, totals, status, rows, held, spent, seed, differ, wall):
    runs = collections.Counter()
    for (kind, what, number), count in status.items():
        runs[kind, number] += count
    print(f"\nSeed {seed}: {sum(totals.values()):,} sheets, {sum(status.values()):,} runs, {rows['lines']:,} lines, {rows['floats']:,} floats, "
          f"{sum(held.values()):,} sheets by the reference too; {differ} differences; {wall:.0f} s.\n")
    print("| sheets | of them by the reference too | runs | " + " | ".join(str(k) for k in range(10)) + " |")
    print("|---" * 13 + "|")
    for kind in kinds:
        print(f"| {kind} {totals[kind]:,} | {held[kind]:,} | {sum(runs[kind, k] for k in range(10)):,} | " + " | ".join(f"{runs[kind, k]:,}" for k in range(10)) + " |")
    print("\nSeconds of processor time by part: " + ", ".join(f"{part} {spent[part]:.0f}" for part in ("make", "shape", "lengths", "oracle", "reference", "engine", "edges", "compare")) + ".")


def main():
    arguments = argparse.ArgumentParser(description=__doc__, formatter_class=argparse.RawDescriptionHelpFormatter)
    arguments.add_argument("--seed", default="1")
    arguments.add_argument("--workers", type=int, default=2)
    arguments.add_argument("--reference", type=int, default=20, metavar="EVERY")
    arguments.add_argument("--emulated", action="store_true")
    arguments.add_argument("--listing", type=int, default=0, metavar="COUNT")
    arguments.add_argument("--part", default="1/1", metavar="K/N")
    arguments.add_argument("kinds", nargs="*", metavar="KIND=COUNT")
    given = arguments.parse_args()
    kinds = {k: int(n) for k, n in (word.split("=") for word in given.kinds)} or MILLION
    PLACE.mkdir(parents=True, exist_ok=True)
    if given.listing:
        sys.exit(listings(kinds, given.seed, given.listing) > 0)
    if not GUARDED.exists():
        made = subprocess.run([sys.executable, str(HERE / "build.py"), "--guarded"])
        if made.returncode != 0:
            sys.exit(made.returncode)
    words = build(given.emulated)
    jobs = []
    for kind, count in kinds.items():
        size = BATCH.get(kind, 1000)
        jobs += [(words, kind, given.seed, start, min(start + size, count), given.reference) for start in range(0, count, size)]
    totals, status, rows, held, spent, differ, edges = (collections.Counter() for _ in range(7))
    share, of = map(int, given.part.split("/"))
    jobs = jobs[share - 1::of]
    started = said = time.time()
    with multiprocessing.Pool(given.workers) as pool:
        for kind, count, some, numbers, lines, differing, seconds, at_edges in pool.imap_unordered(batch, jobs):
            totals[kind] += count
            held[kind] += some
            status.update({(kind, *key): value for key, value in numbers.items()})
            rows.update(lines)
            spent.update(seconds)
            edges.update(at_edges)
            differ[kind] += len(differing)
            for line in differing[: max(0, 20 - sum(differ.values()) + len(differing))]:
                print(line, flush=True)
            if time.time() - said > 60:
                said = time.time()
                print(f"{sum(totals.values()):,} sheets, {sum(differ.values())} differences, {said - started:.0f} s", flush=True)
    wall = collections.Counter(seconds=time.time() - started)
    if of > 1:
        shares(words[-1], given, kinds, share, [totals, status, rows, held, spent, differ, edges, wall])
    print(f"\nOn {platform.machine()}: {library_text(given.emulated)}.")
    report(kinds, totals, status, rows, held, spent, given.seed, sum(differ.values()), wall["seconds"])
    print("Of them: " + ", ".join(f"{name} {count:,}" for name, count in sorted(edges.items())) + ".")
    sys.exit(sum(differ.values()) > 0)


if __name__ == "__main__":
    main()
