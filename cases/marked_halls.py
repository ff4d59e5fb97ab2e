#!/usr/bin/env python3
"""The marked examples of M-107: a table of admissions and leavings, as a file.

Usage: marked_halls.py: writes halls.txt beside this file; each answer is the reference's (oracle/halls.py), and is held to the one that the
request's reading names. marked_halls.py --library: runs halls.txt through the library by oracle/halls.c; number, place, count, every element
of the table and of the pilots' pairs, and which rows and states are cleared, are the reference's after each call.
halls.txt: `example` and what it shows; `pool`, its rows, and how many places the table has; `free`, the first stretches of the table and,
behind a colon, how many are in use; `pilot`, its number, start and length; `admit`, the pilot, its length, the pool told, and the answer:
number and place; `leave`, the pilot and the answer; behind each answer the free stretches then.
"""
import pathlib
import subprocess
import sys

HERE = pathlib.Path(__file__).resolve().parent
sys.path.insert(0, str(HERE.parent / "oracle"))
import compare_engine
import halls

FULL = [[2 * i, 1] for i in range(17)]
ODD = {p: [2 * p + 1, 1] for p in range(16)}


def a(pilot, length, number=0, place=0, free=None, pool=None):
    return "admit", pilot, length, pool, number, place, free


def l(pilot, number=0, place=0, free=None):
    return "leave", pilot, 0, None, number, place, free


THREE = [a(0, 4), a(1, 3), a(2, 3, free=[])]
# name, rows, places, the table, how many in use, pilots, calls
EXAMPLES = [
    ("1. three fill the pool", 10, 17, [[0, 10]], 1, {}, THREE),
    ("2. freed rows serve again, joined", 10, 17, [[0, 10]], 1, {}, [*THREE, l(1), l(0), a(3, 5), a(4, 3, 12, 4, [[5, 2]])]),
    ("3. six free rows, but no run of four", 10, 17, [[0, 10]], 1, {}, [a(0, 3), a(1, 4), a(2, 3), l(0), l(2), a(3, 4, 12, 3), a(3, 3, free=[[7, 3]])]),
    ("4. joined below, above and to both", 10, 17, [[0, 10]], 1, {},
     [a(5, 2), a(6, 2), a(7, 2), l(6, free=[[2, 2], [6, 4]]), l(5, free=[[0, 4], [6, 4]]), l(7, free=[[0, 10]])]),
    ("5. the order of refusals", 10, 17, [[0, 10]], 1, {},
     [a(0, 0, 14, 0), a(16, 0, 13, 16), l(0, 13, 0), a(0, 11, 12, 0), a(0, 10), a(0, 0, 13, 0), a(1, 1, 12, 1)]),
    ("6. sixteen places", 10, 16, [[0, 10]], 1, {}, [a(0, 1, 18, 0)]),
    ("6. an empty one in use", 10, 17, [[0, 10], [0, 0]], 2, {}, [a(0, 1, 18, 0)]),
    ("6. two that touch", 10, 17, [[0, 4], [4, 6]], 2, {}, [a(0, 1, 18, 0)]),
    ("6. out of order", 10, 17, [[5, 5], [0, 5]], 2, {}, [a(0, 1, 18, 0)]),
    ("6. the pool told as 11, also for a number that is none", 10, 17, [[0, 10]], 1, {}, [a(0, 1, 18, 0, pool=11), a(99, 0, 18, 0, pool=11)]),
    ("7. seventeen gaps", 33, 17, FULL, 17, ODD, [l(7, free=[*FULL[:7], [14, 3], *FULL[9:]])]),
    ("8. rows 4 to 6 and pilot 1's states are zero", 10, 17, [[0, 10]], 1, {}, [*THREE, l(1, free=[[4, 3]])]),
]


def begun(rows, places, table, count, pilots):
    return halls.Hall(rows, table + [[0, 0]] * (places - len(table)), count, [[pilots.get(p, [0, 0])] * 5 for p in range(16)])


def run(example):
    """Each call with the hall after it and what was cleared; the answers are the reading's, or it is said."""
    name, rows, places, table, count, pilots, calls = example
    hall = begun(rows, places, table, count, pilots)
    for call in calls:
        kind, pilot, length, pool, number, place, free = call
        hall.rows = rows if pool is None else pool
        answer = (*hall.admit(pilot, length), None) if kind == "admit" else hall.leave(pilot)
        hall.rows = rows
        if answer[:2] != (number, place) or free is not None and hall.table[:hall.count] != free:
            sys.exit(f"{name}: {call}: the reference says {answer[:2]}, {hall.table[:hall.count]}")
        yield call, hall, answer[2]


def lines():
    yield "# Made by cases/marked_halls.py, which says how it is read."
    for example in EXAMPLES:
        name, rows, places, table, count, pilots, _ = example
        yield ""
        yield f"example {name}"
        yield f"pool {rows} {places}"
        yield "free " + "  ".join(f"{s} {n}" for s, n in table) + f" : {count}"
        yield from (f"pilot {p} {s} {n}" for p, (s, n) in pilots.items())
        for (kind, pilot, length, pool, number, place, _), hall, _ in run(example):
            asked = f"{pilot} {length} {rows if pool is None else pool}" if kind == "admit" else f"{pilot}"
            yield f"{kind} {asked} {number} {place} : " + "  ".join(f"{s} {n}" for s, n in hall.table[:hall.count])


def library():
    driver = compare_engine.build(False, "halls.c")
    calls = 0
    for example in EXAMPLES:
        name, rows, places, table, count, pilots, asked = example
        flat = lambda hall: [n for s in hall.table for n in s] + [n for five in hall.stretches for pair in five for n in pair]
        text = " ".join(map(str, ["H", *[rows] * 10, places, count, *flat(begun(rows, places, table, count, pilots))])) + "\n"
        expected = []
        for (kind, pilot, length, pool, number, place, _), hall, cleared in run(example):
            text += f"{kind[0]} {rows if pool is None else pool} {pilot} {length}\n"
            letters = "".join("0" if cleared and cleared[0] <= i < sum(cleared) else "=" for i in range(rows))
            states = "".join("0" if cleared and p == pilot else "=" for p in range(16))
            expected.append(" ".join(map(str, [number, place, hall.count, *flat(hall)])) + " " + "".join(" " + part for part in [*[letters] * 10, states, "", ""]))
        said = subprocess.run(driver, input=text + ".\n", stdout=subprocess.PIPE, text=True, check=True).stdout.split("\n")
        if said != [*expected, ""]:
            sys.exit(f"{name}: the library differs")
        calls += len(expected)
    print(f"{len(EXAMPLES)} halls, {calls} calls as the reference has them, every element")


if __name__ == "__main__":
    if sys.argv[1:] == ["--library"]:
        library()
    else:
        (HERE / "halls.txt").write_text("\n".join(lines()) + "\n")
