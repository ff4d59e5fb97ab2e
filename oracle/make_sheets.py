#!/usr/bin/env python3
"""Makes sheets from a seed: dense, real, large and damaged ones.

Usage: make_sheets.py KIND SEED COUNT FILE: writes COUNT sheets, each with its length before it. Sheet n of a kind and a seed is always the same.
"""
import random
import struct
import sys

LAYOUTS = ["<iIdii", "<iIiiII", "<IIIiiii", "<iiI", "<iIII", "<IiiiIIIIIiiIIIIII", "<id", "<i", "<id", "<Ii"]
MOST = [2048, 1024, 4096, 4096, 64, 1024, 16384, 4096, 64, 1024]
SHIP, MODE, CHAR, ITEM, CHARGE, SKILL, PROJECTED = range(7)
SKILL_ATTRIBUTES = [182, 183, 184, 1285, 1289, 1290]


class Sheet:
    """The ten tables, as lists of records, and the rest of the header."""

    def __init__(self):
        self.tables = [[] for _ in range(10)]
        self.categories = [7, 32, 66]
        self.depth = 256
        self.recording = 0

    def bytes(self):
        pairs, body, end = [], b"", 100
        for layout, table in zip(LAYOUTS, self.tables):
            part = b"".join(struct.pack(layout, *record) for record in table)
            pairs += [len(table), end]
            end += len(part)
            body += part
        return struct.pack("<20I", *pairs) + struct.pack("<iiiII", *self.categories, self.depth, self.recording) + body


def object_record(kind, type_id, group=0, category=0, slot=0, quantity=1, state=2, max_state=2, flags=0, base=0, effect=0,
                  bases=(0, 0), abilities=(0, 0), side_effects=(0, 0)):
    return [kind, type_id, group, category, slot, quantity, state, max_state, flags, base, effect, *bases, *abilities, *side_effects]


def chance(r, p):
    return r.random() < p


def span(r, length, most):
    """A first and a count inside a table."""
    count = r.randint(0, min(most, length))
    return r.randint(0, length - count), count


# ---- dense ones

class Dense:
    """A small sheet in which everything meets: few ids, many modifiers."""

    def __init__(self, r, tiny=False):
        self.r = r
        self.tiny = tiny
        self.wild = chance(r, 0.12)  # floats of any size
        self.codes = chance(r, 0.15)  # codes that are refused
        self.zeros = chance(r, 0.3)
        own = r.sample(range(1, 30), 3 if tiny else 5) + r.choice([[], [-7], [0], [2 ** 31 - 1, -2 ** 31]])
        special = [6, 1152, 2138] + SKILL_ATTRIBUTES
        self.others = chance(r, 0.3)  # OtherID, which ship, mode, char and skills refuse
        self.ids = own + [i for i in r.sample(special, 2 if tiny else r.randint(2, 5)) if i not in own]
        self.types = r.sample(range(1, 9), 3 if tiny else 5) + r.choice([[], [-1], [0], [-9]])
        self.effects = r.sample(range(1, 40), r.randint(1, 4 if tiny else 8)) + r.choice([[], [-3], [0]])
        self.groups = [r.randint(-1, 3) for _ in range(2)]
        self.sheet = Sheet()

    def number(self):
        r = self.r
        if self.wild and chance(r, 0.3):
            return r.choice([1e308, -1e308, 1.7976931348623157e308, 5e-324, -5e-324, 2.2250738585072014e-308, 1e200, -1e-200, 1e-160, 1e12, -1e12])
        if self.zeros and chance(r, 0.25):
            return r.choice([0.0, -0.0])
        return r.choice([r.randint(-6, 12), r.randint(-6, 12), r.randint(-60, 90), r.uniform(-3, 3), r.uniform(0.5, 1.5), r.uniform(-100, 100),
                         1.0, 100.0, -100.0, 0.0 if self.zeros else 2.0]) * 1.0

    def attributes(self):
        r = self.r
        some = sorted(i for i in self.ids if chance(r, 0.75))
        limit = lambda: r.choice(self.ids + [0]) if chance(r, 0.2) else 0
        self.sheet.tables[0] = [[i, r.randint(0, 3), self.number(), limit(), limit()] for i in some]

    def modifiers(self):
        r = self.r
        count = r.randint(1, 6) if self.tiny else r.randint(2, 16)
        for _ in range(count):
            func = r.choice([0, 1, 2, 3, 4, 4, 2, 5] if chance(r, 0.3) else [0, 1, 2, 3, 4, 4, 4])
            domain = r.choice([0, 1, 1, 2, 4] if not chance(r, 0.25) else [3 if self.others else 4, 5, 6, 0, 1])
            operation = r.choice([0, 1, 2, 3, 4, 5, 6, 7, 7, 8]) if not chance(r, 0.03) else 9
            if self.codes and chance(r, 0.15):
                func = r.choice([6, 7, 2 ** 32 - 1])
            if self.codes and chance(r, 0.15):
                domain = r.choice([7, 8, 2 ** 31])
            if self.codes and chance(r, 0.15):
                operation = r.choice([10, 11, 2 ** 32 - 1])
            skill = r.choice(self.types + [-1, -1])
            self.sheet.tables[2].append([func, domain, operation, r.choice(self.ids), r.choice(self.ids), skill, r.choice(self.groups)])

    def effect_records(self):
        r = self.r
        for i in sorted(self.effects):
            category = r.randint(0, 7)
            if self.codes and chance(r, 0.1):
                category = r.choice([8, 9, 2 ** 31])
            resistance = r.choice(self.ids + [0, 0])
            usage = r.choice(self.ids) if chance(r, 0.12) else 0
            self.sheet.tables[1].append([i, category, resistance, usage, *span(r, len(self.sheet.tables[2]), 3 if self.tiny else 5)])

    def type_effects(self):
        r = self.r
        count = r.randint(1, 5) if self.tiny else r.randint(2, 14)
        known = self.effects + ([99] if chance(r, 0.2) else [])
        self.sheet.tables[3] = sorted([[r.choice(self.types), r.choice(known), r.randint(0, 1)] for _ in range(count)], key=lambda t: t[0])

    def buffs(self):
        r = self.r
        ids = sorted(r.sample([1, 2, 5, -4, 0], r.randint(0, 3)))
        for i in ids:
            operation = r.randint(0, 9)
            if self.codes and chance(r, 0.2):
                operation = r.choice([10, 2 ** 32 - 1])
            self.sheet.tables[4].append([i, operation, *span(r, len(self.sheet.tables[2]), 3)])
        if ids and chance(r, 0.8):
            self.sheet.tables[8] = [[r.choice(ids + [77]), self.number()] for _ in range(r.randint(1, 3))]

    def bases(self):
        """A run of base attributes: a new one, or one that stands already."""
        r = self.r
        table = self.sheet.tables[6]
        if self.runs and chance(r, 0.15):
            return r.choice(self.runs)
        if chance(r, 0.1):  # one that no object has
            table.append([r.choice(self.ids), self.number()])
        some = sorted(i for i in self.ids if chance(r, 0.45))
        run = (len(table), len(some))
        for i in some:
            value = float(r.choice(self.types)) if i in SKILL_ATTRIBUTES and chance(r, 0.8) else self.number()
            if i == 2138:
                value = r.choice([float(r.choice(self.ids)), 0.9, -0.5, 3e9, float(r.choice(self.ids)) + 0.5])
            if i in SKILL_ATTRIBUTES and chance(r, 0.3):
                value += r.choice([0.9, -0.9, 0.5])
            table.append([i, value])
        self.runs.append(run)
        return run

    def quantity(self):
        r = self.r
        return r.choice([1, 1, 1, r.randint(0, 12), r.randint(0, 12), 9, r.choice([100, 1000, 2 ** 31, 2 ** 32 - 1]) if chance(r, 0.3) else 2])

    def thing(self, kind, slot=0, category=0, effect=0):
        r = self.r
        ids = len(self.sheet.tables[7])
        return object_record(kind, r.choice(self.types), r.choice(self.groups), category, slot, self.quantity(), r.randint(0, 4),
                             r.randint(0, 4), r.choice([0, 0, 1, 2, 3]), r.choice(self.types), effect, self.bases(), span(r, ids, 3), span(r, ids, 4))

    def fitted(self):
        r = self.r
        module = r.choice(self.sheet.categories)
        slot, category = r.choice([(1, module), (2, module), (3, module), (4, module), (4, module), (5, module), (6, module), (7, 18), (8, 87), (9, 87),
                                   (10, 20), (11, 20), (r.randint(0, 11), r.choice([7, 18, 20, 87, 6, 8, 16, 65])), (0, module)])
        return self.thing(ITEM, slot, category)

    def objects(self):
        r = self.r
        self.runs = []
        self.sheet.tables[7] = [[r.choice(self.effects + [3])] for _ in range(r.randint(0, 6))]
        some = self.sheet.tables[5]
        some.append(self.thing(SHIP, category=r.choice([6, 6, 6, 65, 1])))
        if chance(r, 0.4):
            some.append(self.thing(MODE, category=r.choice([7, 32, 20])))
        some.append(self.thing(CHAR, category=r.choice([0, 1, 16])))
        for _ in range(r.choice([0, 0, 1, 2])):
            some.append(self.thing(PROJECTED, category=r.choice([7, 8, 18, 0]), effect=r.choice(self.effects)))
        for _ in range(r.randint(0, 2) if self.tiny else r.randint(0, 6)):
            some.append(self.fitted())
            if chance(r, 0.4):
                some.append(self.thing(CHARGE, category=r.choice([8, 8, 7])))
        for _ in range(r.choice([0, 0, 1]) if self.tiny else r.randint(0, 3)):
            some.append(self.thing(SKILL, category=r.choice([16, 16, 2])))

    def make(self):
        r = self.r
        if chance(r, 0.25):
            self.sheet.categories = [r.choice([7, 1, 18, 20, -7, 0]), r.choice([32, 2]), r.choice([66, 6])]
        self.attributes()
        self.modifiers()
        self.effect_records()
        self.type_effects()
        self.buffs()
        self.objects()
        if chance(r, 0.4):
            self.sheet.tables[9] = [[r.randrange(len(self.sheet.tables[5])), r.choice(self.ids)] for _ in range(r.randint(1, 4))]
        self.sheet.depth = r.choice([256, 256, 256, 256, 20, 5, 4, 3, 2, 1])
        self.sheet.recording = r.randint(0, 1)
        return self.sheet


# ---- real-looking ones

class Real:
    """A hull with modules, charges, drones, implants and some hundred skills, by the shape of the game's data."""

    def __init__(self, r, skills=400):
        self.r = r
        self.sheet = Sheet()
        self.skill_count = r.randint(max(20, skills // 2), skills)
        self.attribute_ids = sorted(set(r.sample(range(2, 2700), 180)) | {6, 37, 280, 1152, 2138} | set(SKILL_ATTRIBUTES))
        self.effect = 10
        self.type_rows = []

    def value(self):
        r = self.r
        return r.choice([float(r.randint(1, 60)), float(r.randint(-60, -1)), round(r.uniform(0.7, 1.4), 3), round(r.uniform(1, 5000), 2)])

    def add_effect(self, type_id, category, modifiers, resistance=0, chance_attribute=0, default=0):
        first = len(self.sheet.tables[2])
        self.sheet.tables[2] += modifiers
        self.sheet.tables[1].append([self.effect, category, resistance, chance_attribute, first, len(modifiers)])
        self.type_rows.append([type_id, self.effect, default])
        self.effect += 1

    def modifier(self, skill=0, group=0):
        r = self.r
        func, domain = r.choice([(0, 1), (0, 1), (1, 1), (2, 1), (3, 2), (4, 1), (4, 1), (4, 0), (4, 2)])
        operation = r.choice([7, 7, 7, 7, 5, 5, 3, 3, 2, 8, 0, 6, 4, 1])
        modifying = r.choice(self.bonus)
        return [func, domain, operation, modifying, r.choice(self.attribute_ids), skill, group]

    def bases(self, extra=(), some=25):
        r = self.r
        chosen = {i: self.value() for i in r.sample(self.attribute_ids, min(some, len(self.attribute_ids)))}
        for i in SKILL_ATTRIBUTES + [2138]:
            chosen.pop(i, None)
        chosen.update({i: self.value() for i in r.sample(self.bonus, 3)})
        chosen.update(dict(extra))
        first = len(self.sheet.tables[6])
        self.sheet.tables[6] += [[i, v] for i, v in sorted(chosen.items())]
        return first, len(chosen)

    def make(self):
        r = self.r
        self.bonus = r.sample(self.attribute_ids, 20)
        for i in self.attribute_ids:
            limits = [r.choice(self.attribute_ids) if chance(r, 0.03) else 0 for _ in range(2)]
            default = r.choice([1.0, 100.0] if i in self.bonus else [0.0, 0.0, 1.0, 100.0])
            self.sheet.tables[0].append([i, r.choice([0, 1, 2, 3, 1, 3]), default, *limits])
        skills = [3300 + n for n in range(self.skill_count)]
        used = r.sample(skills, 20)
        module_types = [500 + n for n in range(10)]
        self.add_effect(100, 0, [self.modifier(r.choice(used)) for _ in range(8)])
        for t in module_types:
            self.add_effect(t, r.choice([0, 1, 2, 4]), [self.modifier(r.choice(used), r.randint(50, 60)) for _ in range(r.randint(0, 3))])
            if chance(r, 0.4):
                self.add_effect(t, 3, [[4, 0, 7, r.choice(self.bonus), r.choice(self.attribute_ids), 0, 0]])
        for t in (700, 701):
            self.add_effect(t, 0, [[4, 3, 5, r.choice(self.bonus), r.choice(self.attribute_ids), 0, 0]])
        for s in skills:
            self.add_effect(s, 0, [[r.choice([0, 3]), r.choice([1, 2]), 7, 280, r.choice(self.attribute_ids), r.choice([-1, s, r.choice(used)]), 0]
                                   for _ in range(r.choice([0, 1, 1, 2]))])
        for t in (900, 901, 902):
            self.add_effect(t, 0, [self.modifier(r.choice(used)) for _ in range(2)])
        self.fit(skills, used, module_types)
        self.sheet.tables[3] = sorted(self.type_rows, key=lambda row: row[0])
        self.sheet.tables[4] = [[10, 7, 0, 2], [11, 5, 1, 3]]
        self.sheet.tables[8] = [[10, -12.5], [11, 1.1]]
        self.sheet.recording = r.randint(0, 1)
        return self.sheet

    def fit(self, skills, used, module_types):
        r = self.r
        some = self.sheet.tables[5]
        some.append(object_record(SHIP, 100, 25, 6, bases=self.bases(some=60)))
        some.append(object_record(CHAR, 1373, 1, 1, bases=self.bases(some=5)))
        for _ in range(r.randint(0, 2)):
            some.append(object_record(PROJECTED, 501, 52, 7, quantity=r.randint(1, 3), state=4, max_state=4,
                                      effect=self.sheet.tables[1][1][0], bases=self.bases()))
        for _ in range(r.randint(20, 30)):
            slot = r.choice([1, 2, 3, 4])
            required = list(zip(SKILL_ATTRIBUTES, map(float, r.sample(used, 2))))
            some.append(object_record(ITEM, r.choice(module_types), r.randint(50, 60), 7, slot, 1, r.randint(1, 3), 0, bases=self.bases(required)))
            if slot == 1:
                some.append(object_record(CHARGE, r.choice([700, 701]), 86, 8, bases=self.bases(required, 12)))
        for _ in range(r.randint(0, 3)):
            required = [(182, float(r.choice(used)))]
            some.append(object_record(ITEM, r.choice(module_types), 100, 18, 7, r.randint(1, 5), 2, 2, bases=self.bases(required)))
        for t in (900, 901, 902):
            some.append(object_record(ITEM, t, 300, 20, r.choice([10, 11]), bases=self.bases(some=4)))
        for s in skills:
            first = len(self.sheet.tables[6])
            self.sheet.tables[6] += [[280, float(r.randint(0, 5))]]
            some.append(object_record(SKILL, s, 255, 16, bases=(first, 1)))


# ---- large ones

def large(r):
    """Tables at their most; few modifiers reach far, so that the run stays short."""
    dense = Dense(r)
    dense.codes = dense.wild = dense.others = False
    sheet = dense.make()
    t = sheet.tables
    t[0] = [[i, r.randint(0, 3), dense.number(), 0, 0] for i in sorted(r.sample(range(-4000, 4000), 2048))]
    known = [row[0] for row in t[0]]
    while len(t[2]) < 4096:
        wide = chance(r, 0.002)
        t[2].append([r.randint(0, 4) if wide else 4, r.choice([0, 1, 2]), r.choice([3, 5, 7, 8]), r.choice(known), r.choice(known), r.randint(1, 1000), 1])
    t[1] = [[i, r.randint(0, 7), 0, 0, r.randint(0, 4094), r.choice([0, 1, 2])] for i in range(1, 1025)]
    t[3] = sorted([[r.randint(1, 1000), r.randint(1, 1024), r.randint(0, 1)] for _ in range(4096)], key=lambda row: row[0])
    t[7] = [[r.randint(1, 1024)] for _ in range(4096)]
    t[6] += [[r.choice(known), dense.number()] for _ in range(16384 - len(t[6]))]
    t[4] = [[i, r.randint(0, 9), r.randint(0, 4095), 1] for i in range(64)]
    t[8] = [[r.randint(0, 64), dense.number()] for _ in range(64)]
    t[9] = [[r.randrange(1024), r.choice(known)] for _ in range(1024)]
    while len(t[5]) < 1024:
        place = r.randint(0, 16383)
        t[5].append(object_record(SKILL, r.randint(1, 1000), 1, 16, bases=(place, 1)))
    return sheet


def limits(r, tiny=False):
    """One table at its most, or one record above it."""
    sheet = Dense(r, tiny=True).make()
    t = sheet.tables
    no = r.choice([5, 9] if tiny else range(1, 11))
    goal = MOST[no - 1] + r.randint(0, 1)
    fill = {
        1: lambda k: [k, 1, 0.0, 0, 0], 2: lambda k: [k, 0, 0, 0, 0, 0], 3: lambda k: [4, 0, 3, 1, 1, 0, 0], 4: lambda k: [k, 1, 0],
        5: lambda k: [k, 3, 0, 0], 6: lambda k: object_record(SKILL, 1), 7: lambda k: [1, 0.0], 8: lambda k: [1], 9: lambda k: [1, 2.0], 10: lambda k: [0, 1],
    }[no]
    t[no - 1] = [record for record in t[no - 1] if no not in (1, 2, 4, 5) or record[0] < 1000]
    t[no - 1] += [fill(1000 + k) for k in range(goal - len(t[no - 1]))]
    return sheet.bytes()


def huge(r):
    """A small sheet whose ranges overlap so that a list would take thousands to billions of rows: some list is full."""
    sheet = Sheet()
    t = sheet.tables
    sheet.recording = r.randint(0, 1)
    way = r.choice(["rows", "collected", "plain", "entries", "sources", "copies"])
    objects, modifiers = r.choice([3, 60, 1022]), r.choice([1, 50, 4096])
    bases = r.choice([200, 16384]) if way == "rows" else 3
    t[0] = [[i, 1 if way == "entries" else 0, 0.0, 0, 0] for i in range(1, 4)]
    t[6] = [[i + 1, 1.0] for i in range(bases)]
    located = [2, 1, 3 if way == "entries" else 7, 1, 2, 0, 0]
    t[2] = [list(located) for _ in range(modifiers)]
    effects = 1024 if way in ("collected", "plain") else 1
    t[1] = [[i, 0, 0, 0, 0, 0 if way == "plain" else modifiers] for i in range(effects)]
    t[3] = [[9 if way in ("collected", "plain") else 8, i, 0] for i in range(effects)]
    common = (0, bases)
    quantity = r.choice([8, 9, 2 ** 32 - 1]) if way == "copies" else 1
    t[5] = [object_record(SHIP, 8, category=7, quantity=quantity, bases=common), object_record(CHAR, 1)]
    t[5] += [object_record(ITEM, 9, 1, 7, 3, 1, bases=common) for _ in range(objects)]
    return sheet


# ---- damaged ones

def set_word(data, at, value):
    return data[:at] + struct.pack("<I", value & 0xffffffff) + data[at + 4:]


def in_record(data, r, table, field, value):
    """A field, given by its byte, of some record of a table; nothing where the table is empty."""
    count, offset = struct.unpack_from("<II", data, 8 * (table - 1))
    if count == 0:
        return data
    k = r.randrange(count)
    return set_word(data, offset + k * struct.calcsize(LAYOUTS[table - 1]) + field, value)


def bad_float(data, r, table, field):
    count, offset = struct.unpack_from("<II", data, 8 * (table - 1))
    if count == 0:
        return data
    at = offset + r.randrange(count) * struct.calcsize(LAYOUTS[table - 1]) + field
    value = r.choice([float("inf"), float("-inf"), float("nan")])
    return data[:at] + struct.pack("<d", value) + data[at + 8:]


def swapped(data, r, table):
    """Two neighbours of a table change places, or the one is written over the other."""
    count, offset = struct.unpack_from("<II", data, 8 * (table - 1))
    if count < 2:
        return data
    size = struct.calcsize(LAYOUTS[table - 1])
    at = offset + r.randrange(count - 1) * size
    a, b = data[at:at + size], data[at + size:at + 2 * size]
    return data[:at] + (b + a if chance(r, 0.7) else a + a) + data[at + 2 * size:]


def wrapping(data, r, table, field):
    """A first and a count whose sum is 2 to the 32."""
    count, offset = struct.unpack_from("<II", data, 8 * (table - 1))
    if count == 0:
        return data
    at = offset + r.randrange(count) * struct.calcsize(LAYOUTS[table - 1]) + field
    n = r.randint(1, 3)
    return set_word(set_word(data, at, 2 ** 32 - n), at + 4, n)


def repeated(data, r):
    """An object stands twice."""
    count, offset = struct.unpack_from("<II", data, 40)
    at = offset + 68 * r.randrange(max(count, 1))
    if count == 0 or at + 68 > len(data):
        return data
    data = data[:at] + data[at:at + 68] + data[at:]
    for table in range(7, 11):
        place = struct.unpack_from("<I", data, 8 * table - 4)[0]
        data = set_word(data, 8 * table - 4, place + 68)
    return set_word(data, 40, count + 1)


DAMAGES = [
    ("ranges that wrap", lambda d, r: wrapping(d, r, *r.choice([(2, 16), (5, 8), (6, 44), (6, 52), (6, 60)]))),
    ("an object twice", repeated),
    ("cut short", lambda d, r: d[:r.randrange(len(d))]),
    ("cut in the header", lambda d, r: d[:r.choice([0, 1, 50, 99, 100])]),
    ("one byte more", lambda d, r: d + b"\0"),
    ("one byte short", lambda d, r: d[:-1]),
    ("count", lambda d, r: set_word(d, 8 * r.randrange(10), r.choice([0, 1, 3, 2 ** 32 - 1, 2 ** 31, 178956971, 153391690]))),
    ("offset", lambda d, r: set_word(d, 8 * r.randrange(10) + 4, r.choice([0, 99, 100, 101, 2 ** 32 - 1]))),
    ("depth", lambda d, r: set_word(d, 92, r.choice([0, 257, 2 ** 32 - 1, 256, 1]))),
    ("recording", lambda d, r: set_word(d, 96, r.choice([2, 3, 2 ** 31, 1]))),
    ("attribute flags", lambda d, r: in_record(d, r, 1, 4, r.choice([4, 7, 2 ** 31, 3]))),
    ("attribute float", lambda d, r: bad_float(d, r, 1, 8)),
    ("attribute order", lambda d, r: swapped(d, r, 1)),
    ("effect order", lambda d, r: swapped(d, r, 2)),
    ("effect first", lambda d, r: in_record(d, r, 2, 16, r.choice([100, 2 ** 32 - 1, 7, 2 ** 31]))),
    ("effect count", lambda d, r: in_record(d, r, 2, 20, r.choice([100, 2 ** 32 - 1, 7, 2 ** 31]))),
    ("type order", lambda d, r: swapped(d, r, 4)),
    ("type default", lambda d, r: in_record(d, r, 4, 8, r.choice([2, 2 ** 32 - 1, 1]))),
    ("collection order", lambda d, r: swapped(d, r, 5)),
    ("collection range", lambda d, r: in_record(d, r, 5, r.choice([8, 12]), r.choice([100, 2 ** 32 - 1, 7]))),
    ("kind", lambda d, r: in_record(d, r, 6, 0, r.choice([0, 1, 2, 3, 4, 5, 6, 7, 2 ** 32 - 1]))),
    ("slot", lambda d, r: in_record(d, r, 6, 16, r.choice([1, 5, 11, 12, 2 ** 31]))),
    ("state", lambda d, r: in_record(d, r, 6, r.choice([24, 28]), r.choice([5, 2 ** 32 - 1, 4]))),
    ("flags", lambda d, r: in_record(d, r, 6, 32, r.choice([4, 2 ** 31, 8, 3]))),
    ("object ranges", lambda d, r: in_record(d, r, 6, r.choice([44, 48, 52, 56, 60, 64]), r.choice([1, 6, 9, 40, 2 ** 32 - 1, 2 ** 31]))),
    ("objects out of order", lambda d, r: swapped(d, r, 6)),
    ("base order", lambda d, r: swapped(d, r, 7)),
    ("base float", lambda d, r: bad_float(d, r, 7, 4)),
    ("buff float", lambda d, r: bad_float(d, r, 9, 4)),
    ("ask", lambda d, r: in_record(d, r, 10, 0, r.choice([100, 1024, 2 ** 32 - 1, struct.unpack_from("<I", d, 40)[0]]))),
    ("any word", lambda d, r: set_word(d, 4 * r.randrange(len(d) // 4), r.choice([0, 1, 5, 2 ** 31, 2 ** 32 - 1, 0x7ff00000]))),
]


def damaged(r, tiny=False):
    data = Dense(r, tiny).make().bytes()
    for _ in range(r.choice([1, 1, 2])):
        try:
            data = r.choice(DAMAGES)[1](data, r)
        except (struct.error, ValueError, IndexError):
            break  # the one before left no room for this one
    return data


# ---- all

KINDS = {
    "dense": lambda r: Dense(r).make().bytes(),
    "tiny": lambda r: Dense(r, tiny=True).make().bytes(),
    "real": lambda r: Real(r).make().bytes(),
    "small-real": lambda r: Real(r, 30).make().bytes(),
    "large": lambda r: large(r).bytes(),
    "damaged": damaged,
    "huge": lambda r: huge(r).bytes(),
    "limits": limits,
    "small-limits": lambda r: limits(r, tiny=True),
    "tiny-damaged": lambda r: damaged(r, tiny=True),
}


def sheet(kind, seed, n):
    return KINDS[kind](random.Random(f"{kind} {seed} {n}"))


def main():
    kind, seed, count, file = sys.argv[1], sys.argv[2], int(sys.argv[3]), sys.argv[4]
    with open(file, "wb") as out:
        for n in range(count):
            data = sheet(kind, seed, n)
            out.write(struct.pack("<I", len(data)) + data)


if __name__ == "__main__":
    main()
