"""What the scripts that time calls share: a program built against the library, its instructions counted, the table's head."""
import argparse
import os
import platform
import re
import shutil
import subprocess
import sys

from sheets import HERE

ROOT = HERE.parent
PLACE = ROOT / "target" / "bench"


def given_words(doc):
    """--seconds S for each sheet, and names of sheets, all where there is none."""
    arguments = argparse.ArgumentParser(description=doc, formatter_class=argparse.RawDescriptionHelpFormatter)
    arguments.add_argument("--seconds", type=float, default=1.0)
    arguments.add_argument("names", nargs="*")
    return arguments.parse_args()


def built(name):
    """The program bench/NAME.c, linked with the library of library/build."""
    PLACE.mkdir(parents=True, exist_ok=True)
    made = subprocess.run([ROOT / "library" / "build"], cwd=ROOT, stdout=subprocess.PIPE, text=True)
    if made.returncode != 0:
        sys.exit(made.returncode)
    program = str(PLACE / name)
    subprocess.run(["cc", "-std=c11", "-O2", "-Wall", "-Wextra", "-Iinclude", f"bench/{name}.c", made.stdout.strip(), "-o", program], cwd=ROOT, check=True)
    return program


def print_head(name, seconds, columns):
    what = "an archive that was given, and may be anything" if os.environ.get("DOGMA_LIBRARY") else "the library of library/build"
    print(f"Measured by `bench/{name}.py --seconds {seconds:g}` on {platform.machine()} Linux, {what}.\n")
    print(f"| {' | '.join(columns)} |")
    print("|---" * len(columns) + "|", flush=True)


def written(name, *parts):
    """Files of the parts, each an ending and its bytes, named by a sheet's name."""
    stem = PLACE / name.replace(" ", "-").replace(",", "")
    files = []
    for ending, data in parts:
        files.append(str(stem.with_suffix(ending)))
        open(files[-1], "wb").write(data)
    return files


def timed(name, program, seconds, files, others=0):
    """What a program prints: the rounds, so many other numbers, and triples of median, tenth and ninetieth."""
    done = subprocess.run([program, str(seconds), *files], stdout=subprocess.PIPE, text=True)
    if done.returncode != 0:
        sys.exit(f"{name} was not timed")
    rounds, *numbers = done.stdout.split()
    times = list(map(float, numbers[others:]))
    return rounds, numbers[:others], [tuple(times[k:k + 3]) for k in range(0, len(times), 3)]


def instructions(program, whats, files):
    """The instructions of one call of each of the first so many kinds: what two more take, halved. None without valgrind."""
    def all_of(what, times):
        words = ["valgrind", "--tool=callgrind", f"--callgrind-out-file={PLACE / 'callgrind'}", program, "count", str(what), str(times), *files]
        return int(re.search(r"Collected : (\d+)", subprocess.run(words, stdout=subprocess.DEVNULL, stderr=subprocess.PIPE, text=True).stderr).group(1))
    if not shutil.which("valgrind"):
        return None
    return [(all_of(what, 3) - all_of(what, 1)) // 2 for what in range(whats)]
