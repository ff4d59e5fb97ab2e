#!/usr/bin/env python3
"""Holds dogma_export against the reference (oracle/exports.py), and its text against Python's csv module.

Usage: compare_export.py [--seed SEED] [--workers N] [--emulated] [--from N] [CALLS]: so many calls (default 20,000), each on a sheet of its
own with labels of its own. Labels name attributes that the run has and has not; they have commas, quotes, CR, LF, spaces at their ends,
none or 64 bytes, and share bytes. Tables are damaged (ids equal or descending, a byte too many, a byte that no label may have, a range that
leaves the bytes), lists are short, sheets are damaged, and the lent text is ample, just enough, one byte short, or any. Every number, all
bytes lent for the text, and by oracle/exports.c all lists must be as expected; every text is read again by csv.reader, strictly, and gives
the records of the reference. Calls that differ go to target/compare. --cases: every sheet of cases/, with and without labels, instead; there
the shell of SQLite, where it is at hand, imports the texts too.
"""
import argparse
import collections
import csv
import io
import multiprocessing
import pickle
import platform
import random
import shutil
import struct
import subprocess
import sys
import tempfile

import compare_engine
import exports
import make_sheets
import reference
import sampled

CALLS_A_BATCH = 100
ENDS = [0, 1, -1, 2 ** 31 - 1, -2 ** 31]
TEXTS = [b"", b" ", b"a,b", b'"', b'""', b"\r", b"\n", b"\r\n", b"Hull \"HP\"", b"Bonus, %", b"=1+1", b" both ", b"x" * 64, b'"' * 64, b"\r\n" * 32, bytes(range(0x20, 0x60)), bytes(range(0x40, 0x7f))]


def label_text(r):
    if r.random() < 0.5:
        return r.choice(TEXTS)
    alphabet = r.choice([b"abc XYZ09", b'a,"\r\n', bytes(sorted(exports.PRINTABLE))])
    return bytes(r.choice(alphabet) for _ in range(r.choice([0, 1, 2, 5, 20, 63, 64])))


def table(r, known):
    """Labels that are all good, and their bytes."""
    ids = set(r.sample(known, r.randint(0, min(len(known), 40)))) if known else set()
    ids |= {r.choice(ENDS) if r.random() < 0.3 else r.randrange(-2 ** 31, 2 ** 31) for _ in range(r.choice([0, 0, 1, 3, 8]))}
    labels, data = [], bytearray(r.choice([b"", b"\0\xff"]))
    for i in sorted(ids):
        text = label_text(r)
        at = data.find(text) if r.random() < 0.2 else -1
        if at < 0:
            at = len(data)
            data += text
        labels.append((i, at, len(text)))
    if r.random() < 0.5:
        data += b"\x7f"
    return labels, bytes(data)


def damaged(labels, data, r):
    """One thing is wrong."""
    if not labels:
        return [(0, len(data) + 1, 0)], data
    at = r.randrange(len(labels))
    i, first, count = labels[at]
    way = r.randrange(6)
    if way == 0:
        labels[at] = (labels[at - 1][0] if at else i, first, count)
        if at == 0:
            labels.insert(0, labels[0])
    elif way == 1:
        labels[at - 1], labels[at] = labels[at], labels[at - 1]
        if at == 0 and len(labels) == 1:
            labels[at] = (i, first, 65)
            data += b"x" * (first + 65)
    elif way == 2:
        labels[at] = (i, len(data), 65)
        data += b"x" * 65
    elif way == 3:
        labels[at] = (i, len(data), 3)
        data += bytes([97, r.choice([0, 9, 11, 12, 14, 31, 127, 128, 255]), 98])
    elif way == 4:
        labels[at] = (i, len(data) - r.choice([0, 1]) if data else 0, r.choice([1, 2, 64]))
    else:
        labels[at] = (i, r.choice([len(data) + 1, 2 ** 32 - 1]), r.choice([0, 1, 64, 2 ** 32 - 1]))
    return labels, data


def lent_for(r, full):
    """Ten lent lengths: mostly enough."""
    if full.number != 0:
        return [400] * 10
    if r.random() < 0.05:
        return [r.choice([0, 3, 60, 200]) for _ in range(10)]
    lent = [0] * 10
    short = r.randrange(5) if r.random() < 0.1 else None
    for at, (name, columns) in enumerate(sampled.LISTS):
        need = len(getattr(full, name))
        for c in columns:
            lent[c] = max(0, need - 1) if at == short else need + r.choice([0, 0, 1, 7])
    return lent


def call_of(seed, number):
    """Labels, their bytes, the lent text, the lent lists, and the sheet; and what is expected."""
    r = random.Random(f"export {seed} {number}")
    kind = "small-real" if number % 100 == 7 else r.choice(["tiny", "tiny", "dense"])
    sheet = make_sheets.KINDS[kind](r)
    if r.random() < 0.06:
        try:
            sheet = r.choice([damage for _, damage in make_sheets.DAMAGES])(sheet, r)
        except (struct.error, ValueError, IndexError):
            sheet = sheet[:-1]
    full = reference.answer(sheet)
    known = sorted({numbers[1] for numbers, _ in full.rows}) if full.number == 0 else [37, 20]
    labels, data = table(r, known)
    if r.random() < 0.15:
        labels, data = damaged(labels, data, r)
    lent = lent_for(r, full)
    answer = reference.answer(sheet, sampled.rooms(lent))
    text = exports.exported(answer, labels, data, 10 ** 9)[2]
    room = max(0, len(text) + r.choice([0, 0, 0, -1, 1, 40, -len(text) // 2, -len(text), 29 - len(text), 30 - len(text)]))
    return labels, data, room, lent, sheet, answer


def wrong(found, labels, data, room, answer):
    """What is not as expected, or nothing."""
    number, place, length, faults, text = found
    expected = exports.exported(answer, labels, data, room)
    if (number, place) != expected[:2] or length != len(expected[2]) or faults:
        return f"expected {expected[:2]} {len(expected[2])}, found {(number, place, length)}, faults {faults}"
    if text != expected[2] + bytes(room - len(expected[2])):
        return "another text"
    if number == 0:
        records = [list(map(bytes.decode, fields)) for fields in exports.records(answer, labels, data)]
        if list(csv.reader(io.StringIO(text[:length].decode("ascii"), newline=""), strict=True)) != records:
            return "csv.reader has other records"
    return None


def by_sqlite(text):
    """The rows of a text as the shell of SQLite imports them, or none where there is no such program."""
    if not shutil.which("sqlite3"):
        return None
    with tempfile.NamedTemporaryFile() as file:
        file.write(text)
        file.flush()
        select = "select " + " || ',' || ".join(f'hex("{name}")' for name in ("object", "attribute", "label", "value")) + " from t;"
        out = subprocess.run(["sqlite3", "-batch", ":memory:", f".import --csv {file.name} t", select], stdout=subprocess.PIPE, check=True).stdout
    return [[bytes.fromhex(field) for field in line.split(",")] for line in out.decode().splitlines()]


def answers(out, rooms):
    at = 0
    for room in rooms:
        yield (*struct.unpack_from("<4Q", out, at), out[at + 32:at + 32 + room])
        at += 32 + room
    if at != len(out):
        raise RuntimeError(f"{len(out) - at} bytes too many")


def ways(found, labels, answer):
    number, place, length = found[:3]
    if number == 0:
        return ["done"] + ["done, no rows"] * (length == 30) + ["done, with labels"] * bool(labels)
    return ["LABEL" if number == exports.LABEL else "ROOM 8" if (number, place) == (7, 8) else f"the engine's {number}"]


def batch(job):
    words, seed, numbers = job
    made = [call_of(seed, number) for number in numbers]
    blob = b"".join(exports.driven(labels, data, room, lent, number, sheet) for number, (labels, data, room, lent, sheet, _) in zip(numbers, made))
    out = subprocess.run(words, input=blob, stdout=subprocess.PIPE, check=True).stdout
    counts, differ = collections.Counter(), []
    for number, call, found in zip(numbers, made, answers(out, [call[2] for call in made])):
        labels, data, room, lent, sheet, answer = call
        what = wrong(found, labels, data, room, answer)
        if what:
            differ.append(f"call {seed} {number}: {what}")
            (compare_engine.PLACE / f"export-{seed}-{number}.pickle").write_bytes(pickle.dumps(call))
        counts["calls"] += 1
        counts["records"] += found[0] == 0 and 1 + len(answer.rows)
        counts.update(("way", way) for way in ways(found, labels, answer))
    return counts, differ


def cases(words):
    """Every sheet of cases/, without labels and with two tables of them."""
    r, calls = random.Random("export cases"), []
    for path in sorted((compare_engine.ROOT / "cases").glob("*.sheet")):
        sheet = path.read_bytes()
        answer = reference.answer(sheet, (4096,) * 5)
        known = sorted({numbers[1] for numbers, _ in answer.rows}) if answer.number == 0 else [37]
        calls += [(path.name, labels, data, 262144, sheet, answer) for labels, data in [([], b""), table(r, known), table(r, known)]]
    blob = b"".join(exports.driven(labels, data, room, [4096] * 10, 1, sheet) for _, labels, data, room, sheet, _ in calls)
    out = subprocess.run(words, input=blob, stdout=subprocess.PIPE, check=True).stdout
    bad = []
    for (name, labels, data, room, _, answer), found in zip(calls, answers(out, [call[3] for call in calls])):
        what = wrong(found, labels, data, room, answer)
        bad += [f"{name}: {what}"] * bool(what)
        if found[0] == 0 and by_sqlite(found[4][:found[2]]) not in (None, exports.records(answer, labels, data)[1:]):
            bad.append(f"{name}: sqlite3 has other records")
    print("\n".join([*bad, f"{len(calls)} exports of cases/, {len(bad)} differ"]))
    sys.exit(bool(bad))


def main():
    arguments = argparse.ArgumentParser(description=__doc__, formatter_class=argparse.RawDescriptionHelpFormatter)
    arguments.add_argument("--seed", default="1")
    arguments.add_argument("--workers", type=int, default=1)
    arguments.add_argument("--emulated", action="store_true")
    arguments.add_argument("--from", dest="start", type=int, default=0, metavar="N")
    arguments.add_argument("--cases", action="store_true")
    arguments.add_argument("calls", nargs="?", type=int, default=20000)
    given = arguments.parse_args()
    words = compare_engine.build(given.emulated, "exports.c")
    if given.cases:
        cases(words)
    numbers = range(given.start, given.start + given.calls)
    jobs = [(words, given.seed, numbers[at:at + CALLS_A_BATCH]) for at in range(0, len(numbers), CALLS_A_BATCH)]
    counts, differ = collections.Counter(), []
    with multiprocessing.Pool(given.workers) as pool:
        for some, bad in pool.imap_unordered(batch, jobs):
            counts.update(some)
            differ += bad
    for what in differ[:20]:
        print(what)
    print(f"{platform.machine()}, seed {given.seed}: {counts['calls']:,} calls, {counts['records']:,} records read again, {len(differ)} differ")
    print("; ".join(f"{way[1]} {n:,}" for way, n in sorted(counts.items(), key=str) if isinstance(way, tuple)))
    sys.exit(bool(differ))


if __name__ == "__main__":
    main()
