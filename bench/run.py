#!/usr/bin/env python3
"""Times the library against the patched Rust, on the same sheets, in turn, and prints the tables of docs/SPEED.md.

Usage: run.py [--seconds S] [--counted] [--sources DIR] [NAME ..]: S seconds for each sheet (default 2); with names, of the kinds only
these. Where valgrind is at hand instructions are counted too; --counted: nothing else.
Both are built for release first: the library by library/build, the Rust from the sources in DIR (by default $DOGMA_SOURCES) by the edits of
oracle/build.py, without what the oracle adds to print lists and to know places.
"""
import argparse
import math
import os
import pathlib
import platform
import re
import shutil
import subprocess
import sys

HERE = pathlib.Path(__file__).resolve().parent
ROOT = HERE.parent
PLACE = ROOT / "target" / "bench"
sys.path.insert(0, str(ROOT / "oracle"))
import build
import sheets

# bytes of a row of each list, numbers and floats
ROW_BYTES = {"collected": 56 + 8, "rows": 24 + 8 + 8, "entries": 48 + 8, "plain": 8, "sources": 44 + 16}
# the fixed category numbers of the sheets that are timed, as the original has constants there
CATEGORIES = build.replace("    report::is_module_category(category_id)\n", "    matches!(category_id, 7 | 32 | 66)\n")
NO_PLACES = [build.replace("        LAST.set(self.number);\n", times=3), build.replace("        LAST.set(self.record.number);\n", times=2)]


def rust_sources(sources):
    """The patched Rust without the oracle's report, and the program that times."""
    place = PLACE / "src"
    (place / "calculate").mkdir(parents=True, exist_ok=True)
    for source, goal, edits in build.plan([], False):
        text = (sources / source).read_text()
        if goal == "calculate/pass_2.rs":
            # without the report of what is collected
            edits = edits[:1] + edits[2:-1]
        if goal == "calculate/mod.rs":
            edits = edits + [CATEGORIES]
        for edit in edits:
            text = edit(text)
        (place / goal).write_text(text)
    for own, goal in build.OWN_FILES.items():
        text = (ROOT / "oracle" / "rust" / own).read_text()
        for edit in NO_PLACES if own == "eve.rs" else []:
            text = edit(text)
        (place / goal).write_text(text)
    report = place / "calculate" / "report.rs"
    report.write_text(report.read_text() + (HERE / "report_tail.rs").read_text())
    (place / "main.rs").write_text((HERE / "main.rs").read_text())
    return place / "main.rs"


def built(sources):
    made = subprocess.run([str(ROOT / "library" / "build")], cwd=ROOT, stdout=subprocess.PIPE, text=True)
    if made.returncode != 0:
        sys.exit(made.returncode)
    library = str((ROOT / made.stdout.strip()).resolve())
    main = rust_sources(sources)
    release = ["rustc", "-C", "opt-level=3", "-C", "codegen-units=1", "-A", "warnings"]
    crate = str(PLACE / "libdogma.rlib")
    ours = [*release, "--edition", "2021", "--crate-type", "rlib", "--crate-name", "dogma", "-o", crate, "rust/src/lib.rs"]
    command = [*release, "--edition", "2024", "--extern", f"dogma={crate}", "-C", f"link-arg={library}", "-o", str(PLACE / "bench"), str(main)]
    stack = ["cc", "-std=c11", "-O2", "-pthread", "-Iinclude", str(HERE / "stack.c"), library, "-o", str(PLACE / "stack")]
    for words in (ours, command, stack):
        if subprocess.run(words, cwd=ROOT).returncode != 0:
            sys.exit("a part was not built")
    return library


def write(name, data):
    file = PLACE / (name.replace(" ", "-").replace(",", "") + ".sheet")
    file.write_bytes(data)
    return str(file)


class Timed:
    """A line of the timing program."""

    def __init__(self, line):
        words = line.split()[1:]
        self.bytes, self.objects, self.collected, self.rows, self.entries, self.plain, self.sources, self.rounds = map(int, words[:8])
        numbers = [tuple(map(float, words[8 + 3 * k:11 + 3 * k])) for k in range(9)]
        self.lent, self.exact, self.alone, self.whole, self.clearing = numbers[:5]
        self.ratio_a, self.ratio_b, self.exact_a, self.exact_b = numbers[5:]

    def memory(self):
        """The bytes of all lists lent to the row, and of the states."""
        counts = {"collected": self.collected, "rows": self.rows, "entries": self.entries, "plain": self.plain, "sources": self.sources}
        return sum(size * counts[name] for name, size in ROW_BYTES.items()) + 8 * 1024


def timed(files, seconds):
    for file in files:
        done = subprocess.run([str(PLACE / "bench"), str(seconds), file], stdout=subprocess.PIPE, text=True)
        if done.returncode != 0:
            sys.exit(f"{file} was not timed")
        yield Timed(done.stdout)


def time_text(ns):
    return f"{ns / 1e6:.2f} ms" if ns >= 1e6 else f"{ns / 1e3:.1f} µs"


def ratio_text(ratio):
    return f"**{ratio[0]:.2f}** ({ratio[1]:.2f} to {ratio[2]:.2f})"


def kinds_table(names, seconds):
    chosen = [(name, what, data) for name, what, data in sheets.kinds() if not names or name.split(",")[0] in names]
    print("| sheet | bytes | objects | collected, rows, entries, sources | ours | (a) Rust, objects built | (b) Rust, from the sheet | "
          "ours to (a) | ours to (b) | lent to the row: bytes, ours, to (a), to (b) | refused at once | rounds |")
    print("|---" * 12 + "|", flush=True)
    files = [write(name, data) for name, _, data in chosen]
    for (name, _, _), t in zip(chosen, timed(files, seconds)):
        print(f"| {name} | {t.bytes:,} | {t.objects:,} | {t.collected:,}, {t.rows:,}, {t.entries:,}, {t.sources:,} | {time_text(t.lent[0])} | "
              f"{time_text(t.alone[0])} | {time_text(t.whole[0])} | {ratio_text(t.ratio_a)} | {ratio_text(t.ratio_b)} | "
              f"{t.memory():,}, {time_text(t.exact[0])}, {t.exact_a[0]:.2f}, {t.exact_b[0]:.2f} | {time_text(t.clearing[0])} | {t.rounds} |", flush=True)
    print("\n" + "; ".join(f"{name}: {what}" for name, what, _ in chosen if "recorded" not in name) + ".")


def instructions(file, what):
    """The instructions of one run, by valgrind: what two more runs take, halved."""
    def all_of(times):
        words = ["valgrind", "--tool=callgrind", f"--callgrind-out-file={PLACE / 'callgrind'}", str(PLACE / "bench"), "count", what, str(times), file]
        said = subprocess.run(words, stdout=subprocess.DEVNULL, stderr=subprocess.PIPE, text=True).stderr
        return int(re.search(r"Collected : (\d+)", said).group(1))
    return (all_of(3) - all_of(1)) // 2


def counted_table(names):
    """The same without a clock: counted instructions, which a busy machine does not change."""
    print("\n| sheet | ours, lent to the row: instructions | (a) Rust, objects built | (b) Rust, from the sheet | ours to (a) | ours to (b) |")
    print("|---" * 6 + "|", flush=True)
    for name, _, data in sheets.kinds():
        if not names or name.split(",")[0] in names:
            file = write(name, data)
            ours, objects, alone, whole = (instructions(file, what) for what in ("ours", "built", "alone", "whole"))
            alone -= objects
            print(f"| {name} | {ours:,} | {alone:,} | {whole:,} | **{ours / alone:.2f}** | **{ours / whole:.2f}** |", flush=True)


def slope(points):
    """The exponent: the slope of the logarithms, by least squares."""
    xs, ys = [math.log(x) for x, _ in points], [math.log(y) for _, y in points]
    mean_x, mean_y = sum(xs) / len(xs), sum(ys) / len(ys)
    return sum((x - mean_x) * (y - mean_y) for x, y in zip(xs, ys)) / sum((x - mean_x) ** 2 for x in xs)


def growth_table(seconds):
    print("\n| what doubles | steps | ours, lent to the row | exponent | at the last step | Rust, objects built | exponent |")
    print("|---" * 7 + "|", flush=True)
    for name, what, steps in sheets.series():
        files = [write(f"growth {name} {n}", data) for n, data in steps]
        found = list(timed(files, seconds / 2))
        ours = [(n, t.exact[0]) for (n, _), t in zip(steps, found)]
        theirs = [(n, t.alone[0]) for (n, _), t in zip(steps, found)]
        print(f"| {name}: {what} | {', '.join(f'{n:,}' for n, _ in steps)} | {', '.join(time_text(y) for _, y in ours)} | {slope(ours):.2f} | "
              f"{math.log2(ours[-1][1] / ours[-2][1]):.2f} | {', '.join(time_text(y) for _, y in theirs)} | {slope(theirs):.2f} |", flush=True)


def memory_table():
    print("\nMemory: " + ", ".join(f"{size} bytes a row of {name}" for name, size in ROW_BYTES.items())
          + f"; {sum(ROW_BYTES.values())} for one row of each, {sum(ROW_BYTES.values()) * 4096 + 8192:,} bytes for room 4,096 and the states.")
    files = [write(f"stack {n}", sheets.chain(n, 1)) for n in (1, 2, 16, 64, 128, 256)]
    lines = subprocess.run([str(PLACE / "stack"), *files], stdout=subprocess.PIPE, text=True, check=True).stdout.splitlines()
    used = [(n, int(line.split()[3])) for n, line in zip((1, 2, 16, 64, 128, 256), lines)]
    print("Stack of a calculation by its depth: " + ", ".join(f"{n}: {size:,} bytes" for n, size in used)
          + f"; {(used[-1][1] - used[0][1]) / 255:,.0f} bytes a level.")


def main():
    arguments = argparse.ArgumentParser()
    arguments.add_argument("--seconds", type=float, default=2.0)
    build.add_sources(arguments)
    arguments.add_argument("--counted", action="store_true")
    arguments.add_argument("names", nargs="*")
    given = arguments.parse_args()
    PLACE.mkdir(parents=True, exist_ok=True)
    built(build.sources_in(given.sources))
    library = "an archive that was given, and may be anything" if os.environ.get("DOGMA_LIBRARY") else "the library as shipped"
    rustc = subprocess.run(["rustc", "--version"], stdout=subprocess.PIPE, text=True).stdout.split()[1]
    print(f"Measured by `bench/run.py --seconds {given.seconds:g}` on {platform.machine()} Linux, {library}; rustc {rustc}, opt-level 3.")
    print("Medians; in brackets the tenth and ninetieth of a hundred of the ratios of neighbouring runs. Ours is the whole run, from bytes to all lists, "
          "clearing included, every list lent 4,096 rows or what it needs.\n")
    if given.counted:
        return counted_table(given.names)
    kinds_table(given.names, given.seconds)
    if shutil.which("valgrind"):
        counted_table(given.names)
    if not given.names:
        growth_table(given.seconds)
        memory_table()


if __name__ == "__main__":
    main()
