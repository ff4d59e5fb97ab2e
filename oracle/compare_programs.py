#!/usr/bin/env python3
"""Runs the program `export` (crates/export/out/export, made by `rt run` in crates/export) and holds what it says to the reference, and its text to other readers.

Usage: compare_programs.py [--seed SEED] [--from N] [--spreadsheet] [RUNS]: so many runs (default 10,000), each on a sheet and a text of
labels of its own, and every sheet of cases/ with and without labels. Texts end lines with LF, CRLF or nothing; ids have zeros before them;
some lines are none, some labels are bad, some sheets are damaged. What comes on standard output and standard error must be, byte for byte,
what the reference has (oracle/exports.py, and the reader of lines below); each text is read again by csv.reader, strictly. --spreadsheet:
LibreOffice Calc reads them too, many in one file, and its cells, written again, must be the fields; labels have no CR then, which it turns
into a line break of its own. The variable DOGMA_EXPORT names another build of the program.
"""
import argparse
import collections
import csv
import io
import itertools
import os
import pathlib
import random
import re
import struct
import subprocess
import sys
import tempfile

import compare_export
import exports
import make_sheets
import reference

ROOT = pathlib.Path(__file__).resolve().parent.parent
LENT, TEXT_BYTES, LABELS = 4096, 704542, 4096
PROGRAM = [os.environ["DOGMA_EXPORT"]] if "DOGMA_EXPORT" in os.environ else [ROOT / "library/emulated", "run", ROOT / "crates/export/out/export"]
BAD_LINE = b"labels, line %d: not an id, a space and a label\n"
BAD_LABEL = b"labels, line %d: over 64 bytes, a byte that is not printable, or an id that does not ascend\n"
NO_LINES = [b"", b"20", b" 20 x", b"x 20", b"+20 x", b"20\tx", b"- 20", b"--1 x", b"2147483648 x", b"-2147483649 x", b"00000000020 x", b"1e3 x", b"0x14 x", b"20, x"]


def label_lines(data):
    """The labels of a text as (id, first, count), or the number of its first bad line, from 1 (docs/FORMAT.md, section 16)."""
    labels, at = [], 0
    while at < len(data):
        end = data.find(b"\n", at)
        end = len(data) if end < 0 else end
        line = data[at:end - 1] if end > at and data[end - 1:end] == b"\r" else data[at:end]
        front = re.match(rb"(-?)([0-9]{1,10}) ", line)
        if not front or len(labels) == LABELS or int(front[2]) > 2 ** 31 - (front[1] != b"-"):
            return len(labels) + 1
        labels.append((int(front[1] + front[2]), at + front.end(), len(line) - front.end()))
        at = end + 1
    return labels


def expected(sheet, data):
    """Standard output, standard error, and the records."""
    labels = label_lines(data)
    if isinstance(labels, int):
        return b"", BAD_LINE % labels, None
    answer = reference.answer(sheet, (LENT,) * 5)
    number, place, text = exports.exported(answer, labels, data, TEXT_BYTES)
    if number == 0:
        return text, b"", exports.records(answer, labels, data)
    return b"", BAD_LABEL % (place + 1) if number == exports.LABEL else b"refused %d %d\n" % (number, place), None


def run(sheet, data, place):
    (place / "sheet").write_bytes(sheet)
    (place / "labels").write_bytes(data)
    words = [*PROGRAM, place / "sheet", place / "labels"]
    done = subprocess.run(words, stdout=subprocess.PIPE, stderr=subprocess.PIPE)
    return done.stdout, done.stderr


def texts(r, known, no_returns):
    """A text of labels."""
    ids = set(r.sample(known, r.randint(0, min(len(known), 12)))) | {r.choice(compare_export.ENDS) for _ in range(r.choice([0, 0, 1, 2]))}
    lines = []
    for i in sorted(ids):
        zeros = "0" * r.choice([0, 0, 0, 1, 10 - len(str(abs(i)))])
        label = compare_export.label_text(r).replace(b"\n", b"")
        if no_returns:
            label = label.replace(b"\r", b"")
        lines.append(b"%s%s%d %s" % (b"-" if i < 0 else b"", zeros.encode(), abs(i), label))
    if lines and r.random() < 0.15:
        lines[r.randrange(len(lines))] = r.choice(NO_LINES)
    if lines and r.random() < 0.1:
        at = r.randrange(len(lines))
        lines[at] = r.choice([lines[at] + b"x" * 65, lines[at] + b"\x7f", lines[at - 1]])
    end = r.choice([b"\n", b"\r\n"])
    return end.join(lines) + (end if lines and r.random() < 0.7 else b"")


def made(seed, number, no_returns):
    r = random.Random(f"programs {seed} {number}")
    sheet = make_sheets.KINDS["small-real" if number % 100 == 7 else r.choice(["tiny", "tiny", "dense"])](r)
    if r.random() < 0.06:
        try:
            sheet = r.choice([damage for _, damage in make_sheets.DAMAGES])(sheet, r)
        except (struct.error, ValueError, IndexError):
            sheet = sheet[:-1]
    full = reference.answer(sheet)
    known = sorted({numbers[1] for numbers, _ in full.rows}) if full.number == 0 else [37, 20]
    return sheet, texts(r, known, no_returns)


def wrong(found, want):
    """What is not as expected, or nothing."""
    if found != want[:2]:
        return f"expected {want[0][:60]} {want[1]}, found {found[0][:60]} {found[1]}"
    if want[2] is not None and [[field.encode() for field in record] for record in csv.reader(io.StringIO(found[0].decode("ascii"), newline=""), strict=True)] != want[2]:
        return "csv.reader has other records"
    return None


def by_spreadsheet(kept, place):
    """How many records LibreOffice Calc has otherwise, of texts one behind another: commas, quotes, every column as text."""
    (place / "in.csv").write_bytes(b"".join(text for text, _ in kept))
    words = ["soffice", f"-env:UserInstallation=file://{place}/profile", "--headless", "--infilter=CSV:44,34,76,1,1/2/2/2/3/2/4/2", "--convert-to",
             "csv:Text - txt - csv (StarCalc):44,34,76,1,,0,false,true,false", "--outdir", place / "out", place / "in.csv"]
    subprocess.run(words, check=True, stdout=subprocess.DEVNULL, stderr=subprocess.DEVNULL)
    cells = list(csv.reader(io.StringIO((place / "out/in.csv").read_bytes().decode(), newline=""), strict=True))
    fields = [[field.decode() for field in record] for _, records in kept for record in records]
    return abs(len(cells) - len(fields)) + sum(map(list.__ne__, cells, fields))


def main():
    arguments = argparse.ArgumentParser(description=__doc__, formatter_class=argparse.RawDescriptionHelpFormatter)
    arguments.add_argument("--seed", default="1")
    arguments.add_argument("--from", dest="start", type=int, default=0, metavar="N")
    arguments.add_argument("--spreadsheet", action="store_true")
    arguments.add_argument("runs", nargs="?", type=int, default=10000)
    given = arguments.parse_args()
    cases = [(path.name, path.read_bytes(), data) for path in sorted((ROOT / "cases").glob("*.sheet")) for data in (b"", (ROOT / "cases/L.labels").read_bytes(), b"37 L\r\n")]
    rest = ((f"run {given.seed} {n}", *made(given.seed, n, given.spreadsheet)) for n in range(given.start, given.start + given.runs))
    counts, differ, kept = collections.Counter(), [], []
    with tempfile.TemporaryDirectory() as folder:
        place = pathlib.Path(folder)
        for name, sheet, data in itertools.chain(cases, rest):
            found, want = run(sheet, data, place), expected(sheet, data)
            what = wrong(found, want)
            if what:
                differ.append(f"{name}: {what}")
            counts["runs"] += 1
            counts["texts" if want[2] is not None else "refused" if want[1].startswith(b"refused") else "no labels' line" if b"not an id" in want[1] else "bad labels"] += 1
            if given.spreadsheet and want[2] is not None:
                kept.append((found[0], want[2]))
                counts["records"] += len(want[2])
            if len(kept) == 2000:
                counts["records differ"] += by_spreadsheet(kept, place)
                kept = []
        if kept:
            counts["records differ"] += by_spreadsheet(kept, place)
    print("\n".join([*differ[:20], *(f"{name} {n}" for name, n in counts.items()), f"{len(differ)} differ"]))
    sys.exit(bool(differ) or counts["records differ"] > 0)


if __name__ == "__main__":
    main()
