#!/usr/bin/env python3
"""Respells the repository's own definitions and lemmas: words in snake case, a dash only between two names.

usage: tools/port_names.py     at the top, once, after the kit's port.py

It reads tools/port_names.tsv, a line for each name: the old one, a tab, the new one. It writes the .antt files of specs/ and proofs/,
and the clauses of the .rt files. Functions of src/, strings and comments with dashes stay. In the proof of a function a name with a dash
that stands behind a dot is a step of the code, and stays, but a field of a record, or behind a module's path or alias.
A name that only gets _lem is a lemma that had its function's name, and is turned in .antt files alone.
"""
import glob
import re

WORD = re.compile(r"(?<![\w'\-])[^\W\d_][\w'\-]*")
COMMENT = {"antt": re.compile(r"(?:^|(?<=\s))--(?:\s|$)"), "rt": re.compile(r"//")}
PATH = re.compile(r"Rattle(?:\.[\w+]+)*\.(?:specs|proofs)(?:\.[\w+]+)*\.$")
ALIAS = re.compile(r"(?m)^\s*use Rattle\.\S+ as (\w+)$")
FIELD = re.compile(r"(?:by|n)-\w+$")


def turned(line, names, kind, aliases):
    cut = COMMENT[kind].search(line)
    end = cut.start() if cut else len(line)

    def word(m):
        old = m.group()
        new = names.get(old)
        if new is None or (m.start() > end and "-" in old):
            return old
        before = line[: m.start()]
        if aliases is None or "-" not in old or not before.endswith(".") or PATH.search(before) or FIELD.match(old):
            return new
        return new if re.search(r"(?<![\w'.-])(\w+)\.$", before) and re.search(r"(\w+)\.$", before)[1] in aliases else old

    return WORD.sub(word, line)


def main():
    with open("tools/port_names.tsv", encoding="utf-8") as f:
        names = dict(l.rstrip("\n").split("\t") for l in f)
    source = {old: new for old, new in names.items() if not (new == old + "_lem")}
    files = [(p, "antt") for p in glob.glob("crates/*/specs/**/*.antt", recursive=True) + glob.glob("crates/*/proofs/**/*.antt", recursive=True)]
    files += [(p, "rt") for p in glob.glob("crates/*/src/**/*.rt", recursive=True)]
    for path, kind in sorted(files):
        with open(path, encoding="utf-8") as f:
            text = f.read()
        table = names if kind == "antt" else source
        is_answer = kind == "antt" and path.split("/")[2] == "proofs" and path.count("/") > 3
        aliases = set(ALIAS.findall(text)) if is_answer else None
        new = "".join(turned(l, table, kind, aliases) for l in text.splitlines(keepends=True))
        if new != text:
            with open(path, "w", encoding="utf-8") as f:
                f.write(new)


if __name__ == "__main__":
    main()
