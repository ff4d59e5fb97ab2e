#!/usr/bin/env python3
"""Document 01 in Python, apart from the engine: sheet bytes and lent lengths in; number, place and every list out.

Usage: reference.py FILE [collected rows entries plain sources]: prints what the oracle prints.
"""
import math
import struct
import sys
from fractions import Fraction

sys.setrecursionlimit(20000)

SHAPE, FUNC, DOMAIN, CATEGORY, OPERATION, OTHER, ROOM, NUMBER, DEPTH = range(1, 10)
SHIP, MODE, CHAR, ITEM, CHARGE, SKILL, PROJECTED = range(7)
HIGH, MEDIUM, LOW, RIG, SUBSYSTEM, SERVICE, DRONE_BAY, TUBE, FIGHTER_BAY, IMPLANT, BOOSTER = range(1, 12)
PASSIVE, ONLINE, ACTIVE, OVERLOAD = range(4)
ITEM_ID, SHIP_ID, CHAR_ID, OTHER_ID, STRUCTURE_ID, TARGET_ID, TARGET = range(7)
BY_SKILL, BY_GROUP, BY_LOCATION, BY_OWNED_SKILL, BY_ITEM, STOPPER = range(6)
PRE_ASSIGN, PRE_MUL, PRE_DIV, MOD_ADD, MOD_SUB, POST_MUL, POST_DIV, POST_PERCENT, POST_ASSIGN, SKIPPED = range(10)

ACTIVATION = 6
CALIBRATION = 1152
NAMED_RESISTANCE = 2138
SKILL_ATTRIBUTES = (182, 183, 184, 1285, 1289, 1290)
DRONES, IMPLANTS, STRUCTURES, FIGHTERS = 18, 20, 65, 87
EXEMPT = (6, 8, 16, 20, 32, 65)
FACTOR = 0.8691199808003974
COPIES = 8
MOST_ROWS = 2 ** 32 - 1

# name, most records, record layout
TABLES = [
    ("attributes", 2048, "iIdii"), ("effects", 1024, "iIiiII"), ("modifiers", 4096, "IIIiiii"), ("type effects", 4096, "iiI"),
    ("buff collections", 64, "iIII"), ("objects", 1024, "IiiiIIIIIiiIIIIII"), ("base attributes", 16384, "id"),
    ("ids", 4096, "i"), ("projected buffs", 64, "id"), ("asks", 1024, "Ii"),
]
LAYOUTS = [struct.Struct("<" + layout) for _, _, layout in TABLES]


class Refusal(Exception):
    def __init__(self, number, place):
        super().__init__(number, place)
        self.answer = (number, place)


# ---- the sheet

def header_good(data):
    if len(data) < 100:
        return False
    words = struct.unpack_from("<25I", data, 0)
    end = 100
    for at, (_, most, _) in enumerate(TABLES):
        count, offset = words[2 * at], words[2 * at + 1]
        if count > most or offset != end:
            return False
        end += count * LAYOUTS[at].size
    return end == len(data) and 1 <= words[23] <= 256 and words[24] <= 1


def tables_of(data):
    words = struct.unpack_from("<20I", data, 0)
    return [[LAYOUTS[t].unpack_from(data, words[2 * t + 1] + k * LAYOUTS[t].size) for k in range(words[2 * t])] for t in range(10)]


def ascending(values):
    return all(a < b for a, b in zip(values, values[1:]))


def objects_stand(kinds):
    """Ship, at most one mode, char, projected, items each with at most one charge right after, skills."""
    rest = list(kinds)
    if rest[:1] != [SHIP]:
        return False
    rest = rest[1:]
    if rest[:1] == [MODE]:
        rest = rest[1:]
    if rest[:1] != [CHAR]:
        return False
    rest = rest[1:]
    while rest[:1] == [PROJECTED]:
        rest = rest[1:]
    while rest[:1] == [ITEM]:
        rest = rest[2:] if rest[1:2] == [CHARGE] else rest[1:]
    return all(kind == SKILL for kind in rest)


def object_good(record, bases, ids):
    kind, slot, state, most, flags = record[0], record[4], record[6], record[7], record[8]
    codes = kind <= 6 and slot <= 11 and state <= 4 and most <= 4 and flags <= 3
    ranges = record[11] + record[12] <= bases and record[13] + record[14] <= ids and record[15] + record[16] <= ids
    return codes and ranges and (slot == 0 or kind == ITEM)


def bad_book(tables):
    """The first bad one of tables 1 to 5, or none."""
    attributes, effects, modifiers, types, collections = tables
    if not (ascending([r[0] for r in attributes]) and all(r[1] <= 3 and math.isfinite(r[2]) for r in attributes)):
        return 1
    if not (ascending([r[0] for r in effects]) and all(r[4] + r[5] <= len(modifiers) for r in effects)):
        return 2
    if any(a[0] > b[0] for a, b in zip(types, types[1:])) or any(r[2] > 1 for r in types):
        return 4
    if not (ascending([r[0] for r in collections]) and all(r[2] + r[3] <= len(modifiers) for r in collections)):
        return 5
    return None


def bad_fit(tables):
    """The first bad one of tables 6 to 10, or none."""
    objects, bases, ids, buffs, asks = tables
    if not (all(object_good(r, len(bases), len(ids)) for r in objects) and objects_stand([r[0] for r in objects])):
        return 6
    in_order = all(ascending([b[0] for b in bases[r[11]:r[11] + r[12]]]) for r in objects)
    if not (in_order and all(math.isfinite(r[1]) for r in bases)):
        return 7
    if not all(math.isfinite(r[1]) for r in buffs):
        return 9
    if any(r[0] >= len(objects) for r in asks):
        return 10
    return None


def bad_table(tables):
    bad = bad_book(tables[:5])
    return bad_fit(tables[5:]) if bad is None else bad


class Thing:
    """An object of the fit."""

    def __init__(self, number, record, bases, ids):
        self.number = number
        (self.kind, self.type, self.group, self.category, self.slot, self.quantity, self.state, self.max_state,
         flags, base, self.effect, b, bn, a, an, s, sn) = record
        self.bases = bases[b:b + bn]
        self.abilities = {r[0] for r in ids[a:a + an]} if flags & 1 else None
        self.taken_side_effects = {r[0] for r in ids[s:s + sn]}
        self.mutation_base = base if flags & 2 else None
        self.charge = None
        self.holder = None
        self.rows = {}
        self.skills = frozenset()


class Row:
    def __init__(self, base):
        self.base = base
        self.value = None
        self.entries = []
        self.sources = []


def cut_to_i32(x):
    return max(-2 ** 31, min(2 ** 31 - 1, math.trunc(x)))


class Run:
    def __init__(self, data, rooms):
        self.rooms = [min(room, MOST_ROWS) for room in rooms]  # collected, rows, entries, plain, sources
        self.data = data
        self.collected, self.plain = [], []
        self.row_count = self.entry_count = self.source_count = 0
        self.before_hits = []  # how many rows and entries stood before each hit

    # -- reading

    def read(self):
        if not header_good(self.data):
            raise Refusal(SHAPE, 0)
        tables = tables_of(self.data)
        bad = bad_table(tables)
        if bad is not None:
            raise Refusal(SHAPE, bad)
        self.take(tables, *struct.unpack_from("<iiiII", self.data, 80))

    def take(self, tables, m, s, sm, depth, recording):
        """The ten tables, which are good, and the five numbers of the header."""
        self.module_categories, self.depth = (m, s, sm), depth
        self.recording = recording == 1
        self.attributes = {r[0]: r for r in tables[0]}
        self.effects = {r[0]: (k, r) for k, r in enumerate(tables[1])}
        self.modifiers = tables[2]
        self.type_effects = tables[3]
        self.collections = {r[0]: (k, r) for k, r in enumerate(tables[4])}
        self.things = [Thing(k, r, tables[6], tables[7]) for k, r in enumerate(tables[5])]
        for before, after in zip(self.things, self.things[1:]):
            if after.kind == CHARGE:
                before.charge, after.holder = after, before
        self.buffs = tables[8]
        self.asks = tables[9]
        self.ship = self.things[0]
        self.char = next(t for t in self.things if t.kind == CHAR)

    def of_kind(self, *kinds):
        return [t for t in self.things if t.kind in kinds]

    def default(self, attribute):
        return self.attributes[attribute][2] if attribute in self.attributes else 0.0

    # -- whereabouts

    def in_ship(self, t):
        return t.kind == ITEM and t.slot in (HIGH, MEDIUM, LOW, RIG, SUBSYSTEM, SERVICE) and t.category in self.module_categories

    def on_char(self, t):
        return t.kind == ITEM and t.slot in (IMPLANT, BOOSTER) and t.category == IMPLANTS

    def drone(self, t):
        return t.kind == ITEM and t.slot == DRONE_BAY and t.category == DRONES

    def fighter(self, t):
        return t.kind == ITEM and t.slot in (TUBE, FIGHTER_BAY) and t.category == FIGHTERS

    def calculated(self, t):
        return self.in_ship(t) or self.on_char(t) or self.drone(t) or self.fighter(t)

    # -- rooms

    def reached(self):
        """How many rows of each list there are."""
        return [len(self.collected), self.row_count, self.entry_count, len(self.plain), self.source_count]

    def take_row(self, t, attribute, base):
        if self.row_count >= self.rooms[1]:
            raise Refusal(ROOM, 2)
        self.row_count += 1
        t.rows[attribute] = Row(base)

    def copy_bases(self):
        for t in self.things:
            for attribute, value in t.bases:
                self.take_row(t, attribute, value)

    # -- collection

    def func_of(self, k):
        """The modifier's func and the skill or group beside it; none for a stopper."""
        func, _, _, _, _, skill, group = self.modifiers[k]
        if func == STOPPER:
            return None
        if func > STOPPER:
            raise Refusal(FUNC, k)
        return func, {BY_SKILL: skill, BY_OWNED_SKILL: skill, BY_GROUP: group}.get(func, 0)

    @staticmethod
    def operator_of(operation, k):
        if operation == SKIPPED:
            return None
        if operation > SKIPPED:
            raise Refusal(OPERATION, k)
        return operation

    def collect(self, **fields):
        if len(self.collected) >= self.rooms[0]:
            raise Refusal(ROOM, 1)
        self.collected.append(fields)

    def category_of(self, effect_id):
        number, record = self.effects[effect_id]
        if record[1] > 7:
            raise Refusal(CATEGORY, number)
        return record[1]

    def effects_of_type(self, type_id):
        return [(effect, default) for t, effect, default in self.type_effects if t == type_id]

    def type_effects_of(self, t):
        own = self.effects_of_type(t.type)
        if t.mutation_base is None:
            return own
        lacked = {effect for effect, _ in own}
        return own + [pair for pair in self.effects_of_type(t.mutation_base) if pair[0] not in lacked]

    def collect_thing(self, t, skip_ship_domain=False):
        for effect_id, default in self.type_effects_of(t):
            if effect_id not in self.effects:
                continue
            category = self.category_of(effect_id)
            if t.slot == RIG and category == PASSIVE:
                category = ONLINE
            if category <= OVERLOAD:
                t.max_state = max(t.max_state, category)
            if self.fighter(t) and category != PASSIVE:
                used = default == 1 if t.abilities is None else effect_id in t.abilities
                if not used:
                    continue
            _, _, _, chance, first, count = self.effects[effect_id][1]
            if chance != 0 and effect_id not in t.taken_side_effects:
                continue
            if count == 0:
                if len(self.plain) >= self.rooms[3]:
                    raise Refusal(ROOM, 4)
                self.plain.append((t.number, effect_id))
                continue
            for k in range(first, first + count):
                self.collect_modifier(t, effect_id, category, k, skip_ship_domain)
        if ACTIVATION in t.rows:
            t.max_state = max(t.max_state, ACTIVE)
        if t.slot == SUBSYSTEM:
            t.state = t.max_state = ONLINE
        t.state = min(t.state, t.max_state)

    def collect_modifier(self, t, effect_id, category, k, skip_ship_domain):
        _, domain, operation, modifying, modified, _, _ = self.modifiers[k]
        func = self.func_of(k)
        if func is None:
            return
        operator = self.operator_of(operation, k)
        if operator is None:
            return
        if domain == OTHER_ID and t.kind == ITEM and t.charge is None:
            return
        if skip_ship_domain and domain == SHIP_ID:
            return
        if domain in (TARGET_ID, TARGET):
            return
        if domain in (SHIP_ID, STRUCTURE_ID):
            target = self.ship
        elif domain == CHAR_ID:
            target = self.char
        elif domain == ITEM_ID:
            target = t
        elif domain == OTHER_ID:
            target = t.charge or t.holder
            if target is None:
                raise Refusal(OTHER, k)
        else:
            raise Refusal(DOMAIN, k)
        if t.slot == RIG and modified == CALIBRATION:
            category = PASSIVE
        self.collect(origin=("effect", effect_id, t, category, modifying), func=func, operator=operator, quantity=t.quantity,
                     target=target, attribute=modified, resistance=None)

    def collect_projected(self, t):
        if t.effect not in self.effects:
            return
        category = self.category_of(t.effect)
        _, _, resistance, _, first, count = self.effects[t.effect][1]
        if NAMED_RESISTANCE in t.rows:
            resistance = cut_to_i32(t.rows[NAMED_RESISTANCE].base) or resistance
        for k in range(first, first + count):
            _, domain, operation, modifying, modified, _, _ = self.modifiers[k]
            if domain in (ITEM_ID, OTHER_ID):
                continue
            if domain > TARGET:
                raise Refusal(DOMAIN, k)
            target = self.char if domain == CHAR_ID else self.ship
            func = self.func_of(k)
            if func is None:
                continue
            operator = self.operator_of(operation, k)
            if operator is None:
                continue
            self.collect(origin=("effect", t.effect, t, category, modifying), func=func, operator=operator, quantity=t.quantity,
                         target=target, attribute=modified, resistance=resistance or None)

    def collect_buff(self, buff, value):
        if buff not in self.collections:
            return
        number, (_, operation, first, count) = self.collections[buff]
        operator = self.operator_of(operation, number)
        if operator is None:
            return
        for k in range(first, first + count):
            func = self.func_of(k)
            if func is not None:
                self.collect(origin=("buff", buff, value), func=func, operator=operator, quantity=1,
                             target=self.ship, attribute=self.modifiers[k][4], resistance=None)

    def collection(self):
        for t in self.of_kind(SHIP) + self.of_kind(MODE) + self.of_kind(CHAR):
            self.collect_thing(t)
        for t in self.of_kind(PROJECTED):
            self.collect_projected(t)
        for buff, value in self.buffs:
            self.collect_buff(buff, value)
        structure = self.ship.category == STRUCTURES
        for t in self.of_kind(ITEM):
            if structure and self.on_char(t):
                t.state = PASSIVE
            elif self.calculated(t):
                self.collect_thing(t)
                if t.charge:
                    self.collect_thing(t.charge)
        for t in self.of_kind(SKILL):
            self.collect_thing(t, skip_ship_domain=structure)

    # -- dispatch

    def located(self, target):
        if target is self.ship:
            found = [self.ship]
            for t in self.of_kind(ITEM):
                if self.in_ship(t):
                    found += [t, t.charge] if t.charge else [t]
            return found
        if target is self.char:
            return [self.char] + self.of_kind(SKILL) + [t for t in self.of_kind(ITEM) if self.on_char(t)]
        return [target]

    def requiring(self, skill, in_location):
        """Items and charges that require the skill; an item must be in the location, or with none, owned."""
        found = []
        for t in self.of_kind(ITEM):
            if in_location is not None and not in_location(t):
                continue
            owned = in_location is not None or self.drone(t) or self.fighter(t)
            if owned and skill in t.skills:
                found.append(t)
            if t.charge and skill in t.charge.skills:
                found.append(t.charge)
        return found

    def hit(self, e):
        func, key = e["func"]
        if func == BY_ITEM:
            return [e["target"]]
        if func == BY_LOCATION:
            return self.located(e["target"])
        if func == BY_GROUP:
            return [t for t in self.located(e["target"]) if t.group == key]
        if key == -1:
            key = e["origin"][2].type if e["origin"][0] == "effect" else 0
        if func == BY_OWNED_SKILL:
            return self.requiring(key, None)
        return self.requiring(key, self.on_char if e["target"] is self.char else self.in_ship)

    def dispatch(self):
        for t in self.things:
            t.skills = frozenset(cut_to_i32(t.rows[a].base) for a in SKILL_ATTRIBUTES if a in t.rows)
        for number, e in enumerate(self.collected):
            from_effect = e["origin"][0] == "effect"
            category = e["origin"][2].category if from_effect else 0
            attribute = e["attribute"]
            stackable = attribute in self.attributes and self.attributes[attribute][1] & 1 != 0
            penalty = not stackable and category not in EXEMPT
            for t in self.hit(e):
                self.before_hits.append((self.row_count, self.entry_count))
                if attribute not in t.rows:
                    self.take_row(t, attribute, self.default(attribute))
                if self.entry_count >= self.rooms[2]:
                    raise Refusal(ROOM, 3)
                self.entry_count += 1
                itself = from_effect and e["origin"][2] is t
                t.rows[attribute].entries.append((e["origin"], e["operator"], penalty, 1 if itself else e["quantity"], e["resistance"], number))

    # -- values

    def value_of(self, t, attribute, depth):
        row = t.rows.get(attribute)
        if row is None:
            return self.default(attribute)
        if row.value is None:
            if depth > self.depth:
                raise Refusal(DEPTH, t.number)
            row.value = row.base
            row.value = Calculation(self, t, attribute, row, depth).result()
        return row.value

    def values(self):
        for number, attribute in self.asks:
            self.value_of(self.things[number], attribute, 1)
        for t in (self.of_kind(SHIP) + self.of_kind(PROJECTED) + self.of_kind(MODE) + self.of_kind(CHAR)
                  + self.of_kind(ITEM, CHARGE) + self.of_kind(SKILL)):
            for attribute in sorted(t.rows):
                self.value_of(t, attribute, 1)


class Calculation:
    """One attribute of one object."""

    def __init__(self, run, owner, attribute, row, depth):
        self.run, self.owner, self.attribute, self.row, self.depth = run, owner, attribute, row, depth

    def step(self, x):
        if not math.isfinite(x):
            raise Refusal(NUMBER, self.owner.number)
        return x

    def over(self, x, y):
        if y == 0.0:
            raise Refusal(NUMBER, self.owner.number)
        return self.step(x / y)

    def power(self, base, exponent):
        result = 1.0
        while exponent > 0:
            if exponent % 2 == 1:
                result = self.step(result * base)
            exponent //= 2
            if exponent > 0:
                base = self.step(base * base)
        return result

    def note(self, origin, operator, value, quantity, applied, penalty=None):
        if not self.run.recording:
            return None
        if self.run.source_count >= self.run.rooms[4]:
            raise Refusal(ROOM, 5)
        self.run.source_count += 1
        self.row.sources.append([origin, operator, value, quantity, penalty, applied])
        return self.row.sources[-1]

    def simplified(self, operator, x):
        if operator in (PRE_MUL, POST_MUL):
            return self.step(x - 1.0)
        if operator in (PRE_DIV, POST_DIV):
            return self.step(self.over(1.0, x) - 1.0)
        if operator == POST_PERCENT:
            return self.over(x, 100.0)
        return -x if operator == MOD_SUB else x

    def gather(self, operator):
        """What the operator works with: unpenalised with quantities, positives, negatives."""
        plain, positives, negatives = [], [], []
        multiplies = operator in (PRE_MUL, PRE_DIV, POST_MUL, POST_DIV, POST_PERCENT)
        for origin, of_operator, penalty, quantity, resistance, _ in self.row.entries:
            if of_operator != operator:
                continue
            if origin[0] == "buff":
                applied, strength = True, origin[2]
            else:
                _, _, source, category, modifying = origin
                applied = source.state >= (category if category <= OVERLOAD else ACTIVE)
                if not applied and not self.run.recording:
                    continue
                strength = self.run.value_of(source, modifying, self.depth + 1)
                if resistance is not None:
                    strength = self.step(strength * self.run.value_of(self.run.ship, resistance, self.depth + 1))
            if not applied:
                self.note(origin, operator, strength, quantity, False)
                continue
            simple = self.simplified(operator, strength)
            if not (penalty and multiplies):
                if quantity > 0:
                    plain.append((simple, quantity))
                self.note(origin, operator, strength, quantity, True)
                continue
            bucket = negatives if simple < 0.0 else positives
            for _ in range(min(quantity, COPIES)):
                bucket.append((simple, self.note(origin, operator, strength, 1, True)))
            if quantity > COPIES:
                self.note(origin, operator, strength, quantity - COPIES, True, 0.0)
        return plain, positives, negatives

    def penalised(self, current, bucket):
        for position, (value, source) in enumerate(sorted(bucket, key=lambda pair: -abs(pair[0]))):
            weight = self.power(FACTOR, position * position) if position < COPIES else 0.0
            current = self.step(current * self.step(1.0 + self.step(value * weight)))
            if source is not None:
                source[4] = weight
        return current

    def assigned(self, plain):
        good = self.attribute in self.run.attributes and self.run.attributes[self.attribute][1] & 2 != 0
        best = plain[0][0]
        for value, _ in plain[1:]:
            if (good and value >= best) or (not good and value < best):
                best = value
        return best

    def operated(self, operator, current):
        plain, positives, negatives = self.gather(operator)
        if operator in (PRE_ASSIGN, POST_ASSIGN):
            return self.assigned(plain) if plain else current
        for value, quantity in plain:
            if operator in (MOD_ADD, MOD_SUB):
                current = self.step(current + self.step(value * float(quantity)))
            else:
                current = self.step(current * self.power(self.step(1.0 + value), quantity))
        return self.penalised(self.penalised(current, positives), negatives)

    def result(self):
        current = self.row.base
        for operator in range(PRE_ASSIGN, POST_ASSIGN + 1):
            current = self.operated(operator, current)
        _, _, _, least, most = self.run.attributes.get(self.attribute, (0, 0, 0.0, 0, 0))
        if least != 0:
            limit = self.run.value_of(self.owner, least, self.depth + 1)
            current = limit if current < limit else current
        if most != 0:
            limit = self.run.value_of(self.owner, most, self.depth + 1)
            current = limit if current > limit else current
        return current


# ---- what comes back

def optional(x):
    return [0, 0] if x is None else [1, x]


def origin_numbers(origin):
    if origin[0] == "buff":
        return [1, 0, 0, 0, 0, origin[1]], origin[2]
    _, effect, source, category, modifying = origin
    return [0, effect, source.number, category, modifying, 0], 0.0


def state_needed(origin):
    """The lowest state of the source that would do."""
    if origin[0] == "buff":
        return PASSIVE
    return origin[3] if origin[3] <= OVERLOAD else ACTIVE


class Answer:
    """Number, place, and the lists: each row a list of numbers and a list of floats."""

    def __init__(self, number, place):
        self.number, self.place = number, place
        self.states, self.collected, self.plain, self.rows, self.entries, self.sources = [], [], [], [], [], []

    def fill(self, run):
        self.before_hits = run.before_hits
        self.states = [[t.state, t.max_state] for t in run.things]
        for e in run.collected:
            numbers, value = origin_numbers(e["origin"])
            numbers += [*e["func"], e["operator"], e["quantity"], e["target"].number, e["attribute"], *optional(e["resistance"])]
            self.collected.append((numbers, [value]))
        self.plain = [list(pair) for pair in run.plain]
        for t in run.things:
            for attribute in sorted(t.rows):
                self.fill_row(t, attribute, t.rows[attribute])
        return self

    def fill_row(self, t, attribute, row):
        counts = [len(self.entries), len(row.entries), len(self.sources), len(row.sources)]
        self.rows.append(([t.number, attribute, *counts], [row.base, row.value]))
        for origin, operator, penalty, quantity, resistance, number in row.entries:
            numbers, value = origin_numbers(origin)
            self.entries.append((numbers + [operator, int(penalty), quantity, *optional(resistance), number], [value]))
        for origin, operator, value, quantity, penalty, applied in row.sources:
            if origin[0] == "buff":
                numbers = [1, origin[1], 0, 0, 0, 0]
            else:
                numbers = [0, origin[2].number, 1, origin[1], 1, origin[4]]
            numbers += [operator, quantity, int(penalty is not None), int(applied), state_needed(origin)]
            self.sources.append((numbers, [value, 0.0 if penalty is None else penalty]))

    def text(self):
        lines = [f"{self.number} {self.place}"]
        lines += ["S %d %d" % tuple(s) for s in self.states]
        for letter, rows in (("C", self.collected), ("P", [(p, []) for p in self.plain]), ("R", self.rows), ("E", self.entries), ("Q", self.sources)):
            for numbers, floats in rows:
                lines.append(" ".join([letter, *map(str, numbers), *map(bits, floats)]))
        return "\n".join(lines) + "\n"


def bits(x):
    return struct.pack(">d", x).hex()


def hundredths(x):
    """The nearest hundredth of the exact value, halves away from zero."""
    count = (abs(Fraction(x) * 100) + Fraction(1, 2)).__floor__()
    if count >= 10 ** 14:
        return "*"
    return f"{'-' if x < 0 and count > 0 else ''}{count // 100}.{count % 100:02d}"


def listing(answer):
    """What the program prints."""
    if answer.number != 0:
        return f"refused {answer.number} {answer.place}\n"
    lines = [f"{numbers[0]} {numbers[1]} {hundredths(floats[1])}\n" for numbers, floats in answer.rows]
    return "".join([f"rows {len(answer.rows)}\n", *lines])


AMPLE = (10 ** 9,) * 5


def answer(data, rooms=AMPLE):
    """Rooms in the order of the lists: collected, rows, entries, plain, sources."""
    return answered(Run(bytes(data), rooms))


def answered(run):
    try:
        run.read()
        run.copy_bases()
        run.collection()
        run.dispatch()
        run.values()
    except Refusal as refusal:
        refused = Answer(*refusal.answer)
        refused.reached = run.reached()
        return refused
    return Answer(0, 0).fill(run)


def main():
    with open(sys.argv[1], "rb") as file:
        data = file.read()
    rooms = tuple(map(int, sys.argv[2:7])) if len(sys.argv) > 2 else AMPLE
    sys.stdout.write(answer(data, rooms).text())


if __name__ == "__main__":
    main()
