#!/usr/bin/env python3
"""Makes the sheets that crates/shape_test judges, sound and damaged, with the verdict expected of each.

    cases/make_damaged.py [SEED]

The verdicts are a plain reading of document 01, "The sheet". Written are crates/shape_test/stdin and stdout.
stdin is a run of steps, each of six little-endian u32, over one buffer that is all zero at first:
    1 at value count stride step   write count numbers, the first at `at`, each `stride` bytes on and `step` more
    2 length expected 0 0 0        judge the first `length` bytes: 0 to 10 for a bad table, 255 for a sound sheet
"""
import math
import pathlib
import random
import struct
import sys

FORMATS = ["<iIdii", "<iIiiII", "<IIIiiii", "<iiI", "<iIII", "<IiiiIIIIIiiIIIIII", "<id", "<i", "<id", "<Ii"]
WIDTHS = [struct.calcsize(f) for f in FORMATS]
MOST = [2048, 1024, 4096, 4096, 64, 1024, 16384, 4096, 64, 1024]
SOUND = 255


def encode(tables, categories=(7, 32, 66), depth=2, recording=0):
    """A sheet's bytes."""
    pairs, body, at = [], b"", 100
    for form, rows in zip(FORMATS, tables):
        pairs += [len(rows), at]
        part = b"".join(struct.pack(form, *row) for row in rows)
        body += part
        at += len(part)
    return struct.pack("<20I3i2I", *pairs, *categories, depth, recording) + body


def ascending(ids):
    return all(a < b for a, b in zip(ids, ids[1:]))


def in_order(kinds):
    """Ship, at most one mode, char, projected, items each with at most one charge right after, skills."""
    kinds = list(kinds)
    if not kinds or kinds.pop(0) != 0:
        return False
    if kinds and kinds[0] == 1:
        kinds.pop(0)
    if not kinds or kinds.pop(0) != 2:
        return False
    while kinds and kinds[0] == 6:
        kinds.pop(0)
    while kinds and kinds[0] == 3:
        kinds.pop(0)
        if kinds and kinds[0] == 4:
            kinds.pop(0)
    while kinds and kinds[0] == 5:
        kinds.pop(0)
    return not kinds


def object_good(o, bases, ids):
    kind, slot, state, max_state, flags = o[0], o[4], o[6], o[7], o[8]
    if slot > 11 or (slot != 0 and kind != 3) or state > 4 or max_state > 4 or flags > 3:
        return False
    return o[11] + o[12] <= bases and o[13] + o[14] <= ids and o[15] + o[16] <= ids


def verdict(b):
    """The first bad table, 0 for the header, or SOUND."""
    if len(b) < 100:
        return 0
    at, tables = 100, []
    for t in range(10):
        count, offset = struct.unpack_from("<2I", b, 8 * t)
        if count > MOST[t] or offset != at:
            return 0
        at += WIDTHS[t] * count
        if at > len(b):
            return 0
        tables.append([struct.unpack_from(FORMATS[t], b, offset + WIDTHS[t] * i) for i in range(count)])
    depth, recording = struct.unpack_from("<2I", b, 92)
    if at != len(b) or not 1 <= depth <= 256 or recording > 1:
        return 0
    attributes, effects, modifiers, types, collections, objects, bases, ids, buffs, asks = tables
    if not ascending([r[0] for r in attributes]) or any(r[1] > 3 or not math.isfinite(r[2]) for r in attributes):
        return 1
    if not ascending([r[0] for r in effects]) or any(r[4] + r[5] > len(modifiers) for r in effects):
        return 2
    if any(a[0] > b[0] for a, b in zip(types, types[1:])) or any(r[2] > 1 for r in types):
        return 4
    if not ascending([r[0] for r in collections]) or any(r[2] + r[3] > len(modifiers) for r in collections):
        return 5
    if not in_order(o[0] for o in objects) or not all(object_good(o, len(bases), len(ids)) for o in objects):
        return 6
    if not all(math.isfinite(r[1]) for r in bases):
        return 7
    if not all(ascending([r[0] for r in bases[o[11] : o[11] + o[12]]]) for o in objects):
        return 7
    if not all(math.isfinite(r[1]) for r in buffs):
        return 9
    if any(a[0] >= len(objects) for a in asks):
        return 10
    return SOUND


def thing(kind, slot=0, base=(0, 0), able=(0, 0), side=(0, 0), flags=0, state=1, max_state=4):
    return [kind, 9, 11, 7, slot, 1, state, max_state, flags, -5, 3, *base, *able, *side]


def small():
    """A sheet with something in every table: two records and more, ids on both sides of 0."""
    attributes = [[-4, 3, -0.0, 0, 0], [0, 1, 5e-324, 20, 37], [20, 2, 1.7e308, 0, 0], [37, 0, 200.0, 0, 20]]
    effects = [[-1, 0, 0, 0, 0, 2], [1, 4, 20, 0, 1, 3], [2, 7, 0, 37, 4, 0]]
    modifiers = [[0, 1, 7, 20, 37, -1, 0], [2, 99, 9, 37, 20, 0, 5], [5, 0, 0, 0, 0, 0, 0], [77, 6, 8, -4, 0, 3, 3]]
    types = [[-9, 1, 0], [9, 1, 1], [9, 2, 0], [9, 1, 1], [12, -1, 0]]
    collections = [[-30, 6, 0, 4], [10, 99, 4, 0], [11, 3, 2, 2]]
    objects = [thing(0, base=(0, 3)), thing(1, base=(6, 0)), thing(2, base=(1, 2), flags=3), thing(6, state=0)]
    objects += [thing(6, base=(3, 3)), thing(3, slot=11, able=(0, 2), side=(5, 0)), thing(4, base=(5, 1), max_state=0)]
    objects += [thing(3, slot=1, base=(2, 1), side=(1, 4)), thing(3), thing(4, flags=1), thing(5), thing(5, state=4)]
    bases = [[-7, 1.5], [20, -0.0], [37, 200.0], [-6, 3.9], [0, 1e300], [1152, -2.5]]
    ids = [[5], [-5], [5], [0], [7]]
    buffs = [[10, 2.5], [-3, -1e-310]]
    asks = [[0, 37], [11, 20], [5, -4]]
    return [attributes, effects, modifiers, types, collections, objects, bases, ids, buffs, asks]


def bare(kinds):
    return [[], [], [], [], [], [thing(k) for k in kinds], [], [], [], []]


INF, NAN = math.inf, math.nan


def field_cases():
    """Sheets that differ from the small one in one field: (table, record, field, value)."""
    big, low = 0xFFFFFFFF, -(2**31)
    cases = [(1, i, 0, v) for i, v in [(0, -5), (0, 0), (0, 1), (1, -4), (1, 20), (2, 0), (3, 20), (3, 21), (3, low), (0, low)]]
    cases += [(1, i, 1, v) for i in (0, 3) for v in (3, 4, 5, 8, big)]
    cases += [(1, i, 2, v) for i in (0, 1, 3) for v in (INF, -INF, NAN, 0.0)]
    cases += [(2, i, 0, v) for i, v in [(0, 1), (0, 2), (1, -1), (1, 2), (2, 1), (2, low), (2, 3)]]
    cases += [(2, i, f, v) for i in (0, 2) for f, v in [(4, 5), (4, big), (5, 5), (5, big), (4, 4), (5, 4), (5, big - 1), (1, big)]]
    cases += [(3, i, f, v) for i in (0, 3) for f, v in [(0, big), (1, big), (2, big), (3, low)]]
    cases += [(4, i, 0, v) for i, v in [(0, 9), (0, 10), (1, -9), (1, -10), (2, 8), (3, 12), (3, 13), (4, 9), (4, 8), (4, low)]]
    cases += [(4, i, 2, v) for i in (0, 4) for v in (0, 1, 2, big)]
    cases += [(5, i, 0, v) for i, v in [(0, 10), (0, 11), (1, -30), (1, 11), (2, 10), (2, low)]]
    cases += [(5, i, f, v) for i in (0, 2) for f, v in [(2, 5), (2, big), (3, 5), (3, big), (2, 4), (3, 0), (3, 3)]]
    cases += [(6, i, 0, v) for i in range(12) for v in range(8)] + [(6, i, 0, big) for i in (0, 2, 11)]
    cases += [(6, i, 4, v) for i in (0, 1, 2, 4, 5, 6, 11) for v in (1, 11, 12, big)]
    cases += [(6, i, f, v) for i in (0, 6, 11) for f in (6, 7) for v in (4, 5, big)]
    cases += [(6, i, 8, v) for i in (0, 5, 11) for v in (3, 4, big)]
    cases += [(6, i, 11, v) for i in (0, 1, 4) for v in (3, 4, 6, 7, big, big - 1)]
    cases += [(6, i, 12, v) for i in (0, 1, 4) for v in (0, 1, 6, 7, big)]
    cases += [(6, i, f, v) for i in (0, 5, 11) for f in (13, 15) for v in (3, 4, 5, 6, big)]
    cases += [(6, i, f, v) for i in (0, 5, 7) for f in (14, 16) for v in (0, 3, 5, 6, big)]
    cases += [(7, i, 0, v) for i in range(6) for v in (-7, -6, 20, 37, 1152, low)]
    cases += [(7, i, 1, v) for i in (0, 3, 5) for v in (INF, -INF, NAN)]
    cases += [(8, i, 0, v) for i in (0, 4) for v in (low, 0)]
    cases += [(9, i, 1, v) for i in (0, 1) for v in (INF, -INF, NAN, 0.0)]
    cases += [(10, i, 0, v) for i in range(3) for v in (0, 11, 12, big)]
    sheets = []
    for table, record, field, value in cases:
        tables = small()
        tables[table - 1][record][field] = value
        sheets.append(encode(tables))
    return sheets


def header_cases():
    """Sheets that differ from the small one in the header or in length."""
    whole = encode(small())
    sheets = [whole[:n] for n in list(range(0, 104, 4)) + [79, 91, 95, 97, 98, 99, 101]]
    at = 100
    for width, rows in zip(WIDTHS, small()):
        at += width * len(rows)
        sheets += [whole[: at - 1], whole[: at - 4]]
    sheets += [whole + bytes(n) for n in (1, 3, 4, 68)]
    for t in range(10):
        count, offset = struct.unpack_from("<2I", whole, 8 * t)
        values = [0, count - 1, count + 1, MOST[t], MOST[t] + 1, 2**31, 2**32 - 1, 2**32 // WIDTHS[t], 2**32 // WIDTHS[t] + count]
        sheets += [patched(whole, 8 * t, v) for v in values]
        values = [0, 100, offset - 1, offset + 1, offset + 4, offset - 4, 2**32 - 1, 2**32 - 4, 2**32 - WIDTHS[t]]
        sheets += [patched(whole, 8 * t + 4, v) for v in values if v != offset]
    sheets += [encode(small(), depth=d) for d in (0, 1, 256, 257, 2**32 - 1)]
    sheets += [encode(small(), recording=r) for r in (0, 1, 2, 2**32 - 1)]
    sheets += [encode(small(), categories=c) for c in ((0, 0, 0), (-1, 2**31 - 1, -(2**31)))]
    return sheets


def order_cases():
    """The kinds' order, in sheets with nothing but objects."""
    kinds = ["", "0", "2", "02", "012", "0112", "00", "002", "01", "022", "0212", "026", "0266", "0263", "0236", "024", "0234"]
    kinds += ["02344", "023434", "0243", "025", "0253", "0254", "0256", "02345", "0234355", "026345", "0163", "0126343555", "07", "027"]
    kinds += ["20", "12", "102", "0265", "0264", "0233", "02333455", "0234355534", "01255", "0125", "0123", "0124", "062", "032", "052"]
    return [encode(bare([int(k) for k in run])) for run in kinds]


def random_cases(rng, n):
    """The small sheet with one to three numbers replaced."""
    whole = encode(small())
    near = [0, 1, 2, 3, 4, 5, 6, 7, 11, 12, 13, 2**32 - 1, 2**31, 2**31 - 1, 0x7FF00000, 0xFFF80000, 0x7FEFFFFF]
    sheets = []
    for _ in range(n):
        sheet = whole
        for _ in range(rng.choice([1, 1, 2, 3])):
            at = 4 * rng.randrange(len(whole) // 4)
            old = struct.unpack_from("<I", sheet, at)[0]
            value = rng.choice([rng.choice(near), (old + rng.choice([-1, 1, 4])) % 2**32, rng.randrange(2**32)])
            sheet = patched(sheet, at, value)
        sheets.append(sheet)
    return sheets


def patched(sheet, at, value):
    return sheet[:at] + struct.pack("<I", value % 2**32) + sheet[at + 4 :]


class Steps:
    """The steps, and the buffer as they leave it."""

    def __init__(self):
        self.out, self.buffer, self.cases = b"", bytearray(), 0

    def put(self, at, value, count=1, stride=4, step=0):
        self.out += struct.pack("<6I", 1, at, value % 2**32, count, stride, step)
        for k in range(count):
            where = at + k * stride
            self.buffer.extend(bytes(max(0, where + 4 - len(self.buffer))))
            struct.pack_into("<I", self.buffer, where, (value + k * step) % 2**32)

    def judge(self, length, expected):
        self.out += struct.pack("<6I", 2, length, expected, 0, 0, 0)
        self.cases += 1

    def sheet(self, b):
        """A sheet, by the numbers in which the buffer differs from it."""
        whole = b + bytes(-len(b) % 4)
        for at in range(0, len(whole), 4):
            if bytes(self.buffer[at : at + 4]) != whole[at : at + 4]:
                self.put(at, struct.unpack_from("<I", whole, at)[0])
        self.judge(len(b), verdict(b))


def largest(steps):
    """A sheet of the largest counts, whose objects all range over all base attributes; then only the last does, and its neighbours."""
    offsets = [100]
    for width, most in zip(WIDTHS, MOST):
        offsets.append(offsets[-1] + width * most)
    end = offsets[-1]
    steps.put(0, 0, (max(end, len(steps.buffer)) + 3) // 4)
    for t in range(10):
        steps.put(8 * t, MOST[t])
        steps.put(8 * t + 4, offsets[t])
    steps.put(92, 256)
    steps.put(96, 1)
    for t in (1, 2, 4, 5, 7):
        steps.put(offsets[t - 1], -MOST[t - 1] // 2, MOST[t - 1], WIDTHS[t - 1], 1)
    first = offsets[5]
    steps.put(first, 5, 1024, 68)
    steps.put(first, 0)
    steps.put(first + 68, 2)
    steps.put(first + 48, 16384, 1024, 68)
    steps.put(first + 56, 4096, 1024, 68)
    steps.put(first + 60, 4096, 1024, 68)
    steps.put(offsets[9], 0, 1024, 8, 1)

    def judged(length=end):
        steps.judge(length, verdict(bytes(steps.buffer[:length])))

    judged()
    steps.put(first + 48, 16, 1023, 68)
    judged()
    judged(end - 1)
    last = [offsets[t] - WIDTHS[t - 1] for t in range(1, 11)]
    spots = [(last[0], -1025), (last[0] + 4, 4), (last[0] + 12, 0x7FF00000), (last[1] + 20, 4097), (last[3], -2049), (last[3] + 8, 2)]
    spots += [(last[4] + 12, 2**32 - 1), (last[5], 4), (last[5] + 48, 16385), (last[5] + 64, 1), (last[6] + 8, 0x7FF00000)]
    spots += [(last[6], 8190), (last[8] + 8, 0xFFF00000), (last[9], 1024)]
    for at, value in spots:
        old = struct.unpack_from("<I", steps.buffer, at)[0]
        steps.put(at, value)
        judged()
        steps.put(at, old)
    for t in range(10):
        steps.put(8 * t, MOST[t] + 1)
        judged()
        steps.put(8 * t, MOST[t])
    judged()


def main():
    rng = random.Random(int(sys.argv[1]) if len(sys.argv) > 1 else 1)
    steps = Steps()
    for sheet in [encode(small())] + header_cases() + field_cases() + random_cases(rng, 300) + order_cases():
        steps.sheet(sheet)
    largest(steps)
    place = pathlib.Path(__file__).resolve().parent.parent / "crates" / "shape_test"
    (place / "stdin").write_bytes(steps.out)
    (place / "stdout").write_text(f"shape {steps.cases} as expected, 0 not\n")
    verdicts = [struct.unpack_from("<I", steps.out, i + 8)[0] for i in range(0, len(steps.out), 24) if steps.out[i] == 2]
    counts = {v: verdicts.count(v) for v in sorted(set(verdicts))}
    print(f"{steps.cases} cases, {len(steps.out)} bytes; by verdict: {counts}")


if __name__ == "__main__":
    main()
