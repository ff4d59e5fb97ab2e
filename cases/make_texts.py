#!/usr/bin/env python3
"""Writes the standard input of the program `cases_test`: every sheet of this folder with the text expected of it.

Usage: make_texts.py: writes crates/cases_test/stdin and stdout. make_texts.py --check: says whether they are what it would write.
Behind the files come two sound sheets, case L with unused base attributes: one that fills the program's buffer, one that is longer.
For each sheet: the lengths of its name, of the sheet and of the text, 32 bits each, little-endian; then the three, with nothing between.
"""
import pathlib
import struct
import sys

HERE = pathlib.Path(__file__).resolve().parent
sys.path.insert(0, str(HERE.parent / "oracle"))
import marked
import reference

OUT = HERE.parent / "crates" / "cases_test"
LONGEST = 65536


def sized(name, unused, length, text):
    data = marked.case_l(unused=unused)
    if reference.listing(reference.answer(data, (4096,) * 5)) != marked.L_TEXT or len(data) != length:
        sys.exit(f"{name}: {len(data)} bytes, or not case L")
    return name, data, text.encode()


def main():
    sheets = [(path.stem, path.read_bytes(), path.with_suffix(".txt").read_bytes()) for path in sorted(HERE.glob("*.sheet"))]
    sheets += [sized("full", 5419, LONGEST, marked.L_TEXT), sized("longer", 5420, LONGEST + 12, "refused 1 0\n")]
    made = b"".join(struct.pack("<3I", len(name), len(data), len(text)) + name.encode() + data + text for name, data, text in sheets)
    said = f"{len(sheets)} of {len(sheets)} texts are as expected\n".encode()
    files = {OUT / "stdin": made, OUT / "stdout": said}
    if sys.argv[1:] == ["--check"]:
        stale = [path.name for path, content in files.items() if not path.is_file() or path.read_bytes() != content]
        sys.exit(f"cases_test is not up to date: {', '.join(stale)}" if stale else 0)
    for path, content in files.items():
        path.write_bytes(content)
    print(len(sheets), "texts,", len(made), "bytes")


if __name__ == "__main__":
    main()
