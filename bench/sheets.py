"""The sheets that are timed: kinds of fits, and series in which one thing doubles."""
import pathlib
import random
import struct
import sys

HERE = pathlib.Path(__file__).resolve().parent
sys.path.insert(0, str(HERE.parent / "oracle"))
import make_sheets
from make_sheets import CHAR, ITEM, SHIP, Sheet, object_record

LOW = 3
NOBODY = 77


def recorded(data, flag):
    return data[:96] + struct.pack("<I", flag) + data[100:]


def real(seed, skills):
    """A hull with 20 to 30 modules, their charges, drones, implants and so many skills."""
    made = make_sheets.Real(random.Random(f"bench {seed}"), skills)
    made.skill_count = skills
    return made.make().bytes()


def fit(ship_modifiers, item_modifiers, items, bases, attributes=(), depth=256):
    """A ship of type 8 and items of type 9, each type with one Passive effect; all share their base attributes."""
    sheet = Sheet()
    sheet.depth = depth
    sheet.tables[0] = [[i, 0, 0.0, 0, 0] for i in attributes]
    sheet.tables[1] = [[1, 0, 0, 0, 0, len(ship_modifiers)], [2, 0, 0, 0, len(ship_modifiers), len(item_modifiers)]]
    sheet.tables[2] = ship_modifiers + item_modifiers
    sheet.tables[3] = [[8, 1, 0], [9, 2, 0]]
    sheet.tables[6] = [[i, v] for i, v in bases]
    common = (0, len(bases))
    sheet.tables[5] = [object_record(SHIP, 8, category=6, bases=common), object_record(CHAR, 1)]
    sheet.tables[5] += [object_record(ITEM, 9, 1, 7, LOW, 1, 1, 1, bases=common) for _ in range(items)]
    return sheet.bytes()


def chain(depth, items=8):
    """In each item every attribute adds the next one: so many calculations one inside another."""
    steps = [[4, 0, 3, i + 1, i, 0, 0] for i in range(1, depth)]
    return fit([], steps, items, [(i, 1.0) for i in range(1, depth + 1)], range(1, depth + 1))


def wide(modules, attributes=4):
    """Every module changes some attributes of all in the ship by a penalised percentage."""
    steps = [[2, 1, 7, 500, i, 0, 0] for i in range(1, attributes + 1)]
    return fit([], steps, modules, [(i, 100.0) for i in range(1, attributes + 1)] + [(500, 2.0)], range(1, attributes + 1))


def untouched(objects, effects):
    """So many items, and so many collected effects on a group that nobody is of."""
    return fit([[1, 1, 3, 1, 2, NOBODY, 0]] * effects, [], objects, [(i, 1.0) for i in range(1, 9)], range(1, 9))


def entered(modifiers, objects=62):
    """So many effects of the ship on everything in it."""
    return fit([[2, 1, 3, 1, 2 + k % 6, 0, 0] for k in range(modifiers)], [], objects, [(i, 1.0) for i in range(1, 9)], range(1, 9))


def kinds():
    """Name, what it is, bytes; each with recording off and on."""
    largest = make_sheets.sheet("large", "bench", 6)
    some = [
        ("case L", "two modules", (HERE.parent / "cases" / "L.sheet").read_bytes()),
        ("small", "a hull, 20 to 30 modules, 20 skills", real(1, 20)),
        ("real", "a hull, 20 to 30 modules, 400 skills", real(2, 400)),
        ("real 2", "another", real(3, 400)),
        ("big", "the same with 940 skills", real(4, 940)),
        ("largest", "every table at its most", largest),
        ("deep", "chains of 256 in 8 modules", chain(256)),
        ("wide", "100 modules on four attributes of all", wide(100)),
    ]
    for name, what, data in some:
        yield name, what, recorded(data, 0)
        yield name + ", recorded", what, recorded(data, 1)


def series():
    """Name, what doubles, and the sheets."""
    yield "objects", "items, 64 collected effects tested on each", [(n, untouched(n, 64)) for n in (63, 126, 252, 504, 1008)]
    yield "effects", "collected effects, tested on 252 items", [(n, untouched(252, n)) for n in (128, 256, 512, 1024, 2048)]
    yield "entries", "entries of 63 objects", [(63 * n, entered(n)) for n in (16, 32, 64, 128, 256)]
    yield "depth", "calculations one inside another, in each of 8 modules", [(n, chain(n)) for n in (16, 32, 64, 128, 256)]
