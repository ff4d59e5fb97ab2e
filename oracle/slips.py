#!/usr/bin/env python3
"""Slips put into the reference one at a time: each must be seen by the sheets that are made.

Usage: slips.py SEED [MOST [FILE]]: for each slip the first sheets, up to MOST, of 10,000 in which it shows; their names go to FILE.
One that shows in none is looked for among the kept sheets.
"""
import pathlib
import sys
import types

import make_sheets
import reference
import sampled

SOURCE = (pathlib.Path(__file__).resolve().parent / "reference.py").read_text()
CASES = pathlib.Path(__file__).resolve().parent.parent / "cases"

SLIPS = [
    # the four that look right
    ("values walked in collection order", "self.of_kind(SHIP) + self.of_kind(PROJECTED) + self.of_kind(MODE) + self.of_kind(CHAR)\n                  +", "self.of_kind(SHIP) + self.of_kind(MODE) + self.of_kind(CHAR) + self.of_kind(PROJECTED)\n                  +"),
    ("mode in the ship's location", "            found = [self.ship]\n", "            found = [self.ship] + self.of_kind(MODE)\n"),
    ("skills rebuilt while dispatching", "                itself = from_effect", "                t.skills = frozenset(cut_to_i32(t.rows[a].base) for a in SKILL_ATTRIBUTES if a in t.rows)\n                itself = from_effect"),
    ("a rig's Passive on 1152 Online too", "        if t.slot == RIG and modified == CALIBRATION:\n            category = PASSIVE\n", ""),
    # the sheet
    ("header of 99 bytes", "len(data) < 100", "len(data) < 99"),
    ("count one more", "if count > most or", "if count > most + 1 or"),
    ("offsets not tested", " or offset != end:", ":"),
    ("length not tested", "return end == len(data) and", "return end <= len(data) and"),
    ("depth 0", "1 <= words[23] <= 256", "words[23] <= 256"),
    ("depth 257", "1 <= words[23] <= 256", "1 <= words[23] <= 257"),
    ("recording 2", "words[24] <= 1", "words[24] <= 2"),
    ("ids may be equal", "return all(a < b for a, b in zip(values, values[1:]))", "return all(a <= b for a, b in zip(values, values[1:]))"),
    ("attribute flag 4", "all(r[1] <= 3 and", "all(r[1] <= 7 and"),
    ("default may be infinite", "r[1] <= 3 and math.isfinite(r[2])", "r[1] <= 3 and r[2] == r[2]"),
    ("effect ranges not tested", "all(r[4] + r[5] <= len(modifiers) for r in effects)", "True"),
    ("effect ranges wrap", "all(r[4] + r[5] <= len(modifiers) for r in effects)", "all((r[4] + r[5]) % 2 ** 32 <= len(modifiers) for r in effects)"),
    ("collection ranges wrap", "all(r[2] + r[3] <= len(modifiers) for r in collections)", "all((r[2] + r[3]) % 2 ** 32 <= len(modifiers) for r in collections)"),
    ("base ranges wrap", "record[11] + record[12] <= bases", "(record[11] + record[12]) % 2 ** 32 <= bases"),
    ("ability ranges wrap", "record[13] + record[14] <= ids", "(record[13] + record[14]) % 2 ** 32 <= ids"),
    ("side effect ranges wrap", "record[15] + record[16] <= ids", "(record[15] + record[16]) % 2 ** 32 <= ids"),
    ("ranges tested by their first", "record[11] + record[12] <= bases", "record[11] <= bases"),
    ("two modes", "    if rest[:1] == [MODE]:\n", "    while rest[:1] == [MODE]:\n"),
    ("two charges", "rest = rest[2:] if rest[1:2] == [CHARGE] else rest[1:]", "rest = rest[1:]\n        while rest[:1] == [CHARGE]:\n            rest = rest[1:]"),
    ("no char needed", "    if rest[:1] != [CHAR]:\n        return False\n    rest = rest[1:]\n", "    if rest[:1] == [CHAR]:\n        rest = rest[1:]\n"),
    ("items may follow skills", "return all(kind == SKILL for kind in rest)", "return all(kind in (SKILL, ITEM) for kind in rest)"),
    ("projected before the char", "    if rest[:1] != [CHAR]:", "    while rest[:1] == [PROJECTED]:\n        rest = rest[1:]\n    if rest[:1] != [CHAR]:"),
    ("types may descend", "if any(a[0] > b[0] for a, b in zip(types, types[1:])) or", "if"),
    ("type default 2", "any(r[2] > 1 for r in types)", "any(r[2] > 2 for r in types)"),
    ("collection ranges not tested", "all(r[2] + r[3] <= len(modifiers) for r in collections)", "True"),
    ("kind order not tested", " and objects_stand([r[0] for r in objects])", ""),
    ("any slot on any kind", " and (slot == 0 or kind == ITEM)", ""),
    ("slot 12", "slot <= 11", "slot <= 12"),
    ("state 5", "state <= 4", "state <= 5"),
    ("max state 5", "most <= 4", "most <= 5"),
    ("object flag 4", "flags <= 3", "flags <= 7"),
    ("ability range only where given", "record[13] + record[14] <= ids", "(not flags & 1 or record[13] + record[14] <= ids)"),
    ("side effect range not tested", " and record[15] + record[16] <= ids", ""),
    ("bases ascend in the whole table", "in_order = all(ascending([b[0] for b in bases[r[11]:r[11] + r[12]]]) for r in objects)", "in_order = ascending([b[0] for b in bases])"),
    ("unused base floats not tested", "all(math.isfinite(r[1]) for r in bases)", "all(math.isfinite(b[1]) for r in objects for b in bases[r[11]:r[11] + r[12]])"),
    ("buff floats not tested", "if not all(math.isfinite(r[1]) for r in buffs):", "if False:"),
    ("asks not tested", "if any(r[0] >= len(objects) for r in asks):", "if any(r[0] > len(objects) for r in asks):"),
    ("asks before objects", "    if not (all(object_good(r,", "    if any(r[0] >= len(objects) for r in asks):\n        return 10\n    if not (all(object_good(r,"),
    # whereabouts
    ("service not in the ship", "(HIGH, MEDIUM, LOW, RIG, SUBSYSTEM, SERVICE)", "(HIGH, MEDIUM, LOW, RIG, SUBSYSTEM)"),
    ("fixed module category", "t.category in self.module_categories", "t.category in (7, 32, 66)"),
    ("boosters not on the char", "t.slot in (IMPLANT, BOOSTER)", "t.slot == IMPLANT"),
    ("fighters only in tubes", "t.slot in (TUBE, FIGHTER_BAY)", "t.slot == TUBE"),
    ("slot alone makes a drone", "t.slot == DRONE_BAY and t.category == DRONES", "t.slot == DRONE_BAY"),
    # collection
    ("stopper refused", "        if func == STOPPER:\n            return None\n        if func > STOPPER:", "        if func >= STOPPER:"),
    ("operation before func", "        func = self.func_of(k)\n        if func is None:\n            return\n        operator = self.operator_of(operation, k)\n        if operator is None:\n            return\n", "        operator = self.operator_of(operation, k)\n        if operator is None:\n            return\n        func = self.func_of(k)\n        if func is None:\n            return\n"),
    ("skill kept beside a location", "{BY_SKILL: skill, BY_OWNED_SKILL: skill, BY_GROUP: group}.get(func, 0)", "{BY_SKILL: skill, BY_OWNED_SKILL: skill, BY_GROUP: group}.get(func, skill)"),
    ("operation 9 refused", "        if operation == SKIPPED:\n            return None\n        if operation > SKIPPED:", "        if operation >= SKIPPED:"),
    ("category after the chance", "            category = self.category_of(effect_id)\n            if t.slot", "            if self.effects[effect_id][1][3] != 0 and effect_id not in t.taken_side_effects:\n                continue\n            category = self.category_of(effect_id)\n            if t.slot"),
    ("base effects first", "return own + [pair", "return [pair"),
    ("base effects all", " if pair[0] not in lacked]", "]"),
    ("mutation base read always", "self.mutation_base = base if flags & 2 else None", "self.mutation_base = base"),
    ("a rig's Passive stays", "            if t.slot == RIG and category == PASSIVE:\n                category = ONLINE\n", ""),
    ("Target raises max state", "if category <= OVERLOAD:\n", "if category <= 4:\n"),
    ("unused effects raise nothing", "            if category <= OVERLOAD:\n                t.max_state = max(t.max_state, category)\n            if self.fighter(t) and category != PASSIVE:\n                used = default == 1 if t.abilities is None else effect_id in t.abilities\n                if not used:\n                    continue\n", "            if self.fighter(t) and category != PASSIVE:\n                used = default == 1 if t.abilities is None else effect_id in t.abilities\n                if not used:\n                    continue\n            if category <= OVERLOAD:\n                t.max_state = max(t.max_state, category)\n"),
    ("Passive is an ability too", "if self.fighter(t) and category != PASSIVE:", "if self.fighter(t):"),
    ("abilities always given", "self.abilities = {r[0] for r in ids[a:a + an]} if flags & 1 else None", "self.abilities = {r[0] for r in ids[a:a + an]}"),
    ("default ability always", "used = default == 1 if t.abilities is None else effect_id in t.abilities", "used = default == 1 if t.abilities is None else effect_id in t.abilities or default == 1"),
    ("side effects always", "if chance != 0 and effect_id not in t.taken_side_effects:", "if False:"),
    ("empty effects not plain", "                self.plain.append((t.number, effect_id))\n", ""),
    ("attribute 6 lets nothing", "            t.max_state = max(t.max_state, ACTIVE)\n", "            pass\n"),
    ("subsystem only raised", "t.state = t.max_state = ONLINE", "t.state, t.max_state = max(t.state, ONLINE), max(t.max_state, ONLINE)"),
    ("state not cut", "        t.state = min(t.state, t.max_state)\n", ""),
    ("state cut before subsystem", "        if t.slot == SUBSYSTEM:\n            t.state = t.max_state = ONLINE\n", "        if t.slot == SUBSYSTEM:\n            t.max_state = ONLINE\n"),
    ("OtherID of an item without charge refused", "        if domain == OTHER_ID and t.kind == ITEM and t.charge is None:\n            return\n", ""),
    ("ship domain never skipped", "self.collect_thing(t, skip_ship_domain=structure)", "self.collect_thing(t)"),
    ("structure domain skipped too", "if skip_ship_domain and domain == SHIP_ID:", "if skip_ship_domain and domain in (SHIP_ID, STRUCTURE_ID):"),
    ("target domains aim at the ship", "        if domain in (TARGET_ID, TARGET):\n            return\n        if domain in (SHIP_ID, STRUCTURE_ID):", "        if domain in (SHIP_ID, STRUCTURE_ID, TARGET_ID, TARGET):"),
    ("OtherID of a charge is itself", "target = t.charge or t.holder", "target = t.charge or (t if t.holder else None)"),
    ("projected Passive", "            target = self.char if domain == CHAR_ID else self.ship\n", "            target = self.ship\n"),
    ("projected func before domain", "            if domain in (ITEM_ID, OTHER_ID):\n                continue\n            if domain > TARGET:", "            if self.func_of(k) is None:\n                continue\n            if domain in (ITEM_ID, OTHER_ID):\n                continue\n            if domain > TARGET:"),
    ("effect's resistance first", "resistance = cut_to_i32(t.rows[NAMED_RESISTANCE].base) or resistance", "resistance = resistance or cut_to_i32(t.rows[NAMED_RESISTANCE].base)"),
    ("named resistance 0 counts", "resistance = cut_to_i32(t.rows[NAMED_RESISTANCE].base) or resistance", "resistance = cut_to_i32(t.rows[NAMED_RESISTANCE].base)"),
    ("named resistance rounded", "resistance = cut_to_i32(t.rows[NAMED_RESISTANCE].base) or resistance", "resistance = round(t.rows[NAMED_RESISTANCE].base) or resistance"),
    ("own effects resisted", "target=target, attribute=modified, resistance=None)\n\n    def collect_projected", "target=target, attribute=modified, resistance=self.effects[effect_id][1][2] or None)\n\n    def collect_projected"),
    ("empty projected effect is plain", "        for k in range(first, first + count):\n            _, domain,", "        if count == 0:\n            self.plain.append((t.number, t.effect))\n        for k in range(first, first + count):\n            _, domain,"),
    ("buff func before operation", "        operator = self.operator_of(operation, number)\n", "        for k in range(first, first + count):\n            self.func_of(k)\n        operator = self.operator_of(operation, number)\n"),
    ("buffs before projected", "        for t in self.of_kind(PROJECTED):\n            self.collect_projected(t)\n        for buff, value in self.buffs:\n            self.collect_buff(buff, value)\n", "        for buff, value in self.buffs:\n            self.collect_buff(buff, value)\n        for t in self.of_kind(PROJECTED):\n            self.collect_projected(t)\n"),
    ("structure implants collected", "            if structure and self.on_char(t):\n                t.state = PASSIVE\n            elif", "            if"),
    ("structure implants keep state", "                t.state = PASSIVE\n            elif", "                pass\n            elif"),
    ("all items collected", "            elif self.calculated(t):\n", "            else:\n"),
    ("charges of passed items collected", "            if structure and self.on_char(t):\n                t.state = PASSIVE\n", "            if structure and self.on_char(t):\n                t.state = PASSIVE\n                if t.charge:\n                    self.collect_thing(t.charge)\n"),
    # dispatch
    ("charges not in the ship", "found += [t, t.charge] if t.charge else [t]", "found += [t]"),
    ("implants' charges on the char", "[t for t in self.of_kind(ITEM) if self.on_char(t)]", "[u for t in self.of_kind(ITEM) if self.on_char(t) for u in (t, t.charge) if u]"),
    ("implants before skills", "[self.char] + self.of_kind(SKILL) + [t for t in self.of_kind(ITEM) if self.on_char(t)]", "[self.char] + [t for t in self.of_kind(ITEM) if self.on_char(t)] + self.of_kind(SKILL)"),
    ("skill 0 never required", "return self.requiring(key, None)", "return self.requiring(key, None) if key else []"),
    ("owned skill needs drones' charges only", "            owned = in_location is not None or self.drone(t) or self.fighter(t)\n", "            owned = in_location is not None or self.drone(t) or self.fighter(t)\n            if not owned:\n                continue\n"),
    ("location skill owned only", "owned = in_location is not None or", "owned ="),
    ("char skill location is the ship's", "self.on_char if e[\"target\"] is self.char else self.in_ship", "self.in_ship"),
    ("skill -1 literal", "        if key == -1:\n            key = e[\"origin\"][2].type if e[\"origin\"][0] == \"effect\" else 0\n", ""),
    ("skill -1 by target", "key = e[\"origin\"][2].type if", "key = e[\"target\"].type if"),
    ("skills rounded", "cut_to_i32(t.rows[a].base) for a in", "round(t.rows[a].base) for a in"),
    ("skills cut down", "max(-2 ** 31, min(2 ** 31 - 1, math.trunc(x)))", "max(-2 ** 31, min(2 ** 31 - 1, math.floor(x)))"),
    ("skills not held", "max(-2 ** 31, min(2 ** 31 - 1, math.trunc(x)))", "(math.trunc(x) + 2 ** 31) % 2 ** 32 - 2 ** 31"),
    ("five skill attributes", "SKILL_ATTRIBUTES = (182, 183, 184, 1285, 1289, 1290)", "SKILL_ATTRIBUTES = (182, 183, 184, 1285, 1289)"),
    ("charges not exempt", "EXEMPT = (6, 8, 16, 20, 32, 65)", "EXEMPT = (6, 16, 20, 32, 65)"),
    ("modules exempt by header", "category not in EXEMPT", "category not in EXEMPT + (self.module_categories[1],)"),
    ("missing attribute stackable", "stackable = attribute in self.attributes and", "stackable = attribute not in self.attributes or"),
    ("buffs exempt", "category = e[\"origin\"][2].category if from_effect else 0", "category = e[\"origin\"][2].category if from_effect else 6"),
    ("itself with its quantity", "1 if itself else e[\"quantity\"]", "e[\"quantity\"]"),
    ("new row starts at 0", "self.take_row(t, attribute, self.default(attribute))", "self.take_row(t, attribute, 0.0)"),
    # rooms
    ("entry before its row", "                if attribute not in t.rows:\n                    self.take_row(t, attribute, self.default(attribute))\n                if self.entry_count >= self.rooms[2]:\n                    raise Refusal(ROOM, 3)\n", "                if self.entry_count >= self.rooms[2]:\n                    raise Refusal(ROOM, 3)\n                if attribute not in t.rows:\n                    self.take_row(t, attribute, self.default(attribute))\n"),
    ("bases copied after collection", "        run.copy_bases()\n        run.collection()\n", "        run.copy_bases2()\n        run.collection()\n        run.check_bases()\n"),
    ("one row less", "if self.row_count >= self.rooms[1]:", "if self.row_count + 1 >= self.rooms[1]:"),
    ("one source row more", "if self.run.source_count >= self.run.rooms[4]:", "if self.run.source_count > self.run.rooms[4]:"),
    ("plain room is list 1's", "if len(self.plain) >= self.rooms[3]:", "if len(self.plain) >= self.rooms[0]:"),
    # values
    ("absent reads 0", "            return self.default(attribute)\n        if row.value", "            return 0.0\n        if row.value"),
    ("under calculation reads 0", "            row.value = row.base\n", "            row.value = 0.0\n"),
    ("depth one more", "if depth > self.depth:", "if depth > self.depth + 1:"),
    ("depth at the row that needs", "raise Refusal(DEPTH, t.number)", "raise Refusal(DEPTH, 0)"),
    ("only rows with entries are calculated", "        if row.value is None:\n            if depth > self.depth:", "        if row.value is None:\n            if depth > self.depth and row.entries:"),
    ("limits not deeper", "limit = self.run.value_of(self.owner, least, self.depth + 1)", "limit = self.run.value_of(self.owner, least, self.depth)"),
    ("asks after the walk", "        for number, attribute in self.asks:\n            self.value_of(self.things[number], attribute, 1)\n", ""),
    ("walk by arrival", "for attribute in sorted(t.rows):\n                self.value_of", "for attribute in t.rows:\n                self.value_of"),
    ("skills before items", "                  + self.of_kind(ITEM, CHARGE) + self.of_kind(SKILL)):", "                  + self.of_kind(SKILL) + self.of_kind(ITEM, CHARGE)):"),
    ("number at the source", "strength = self.step(strength * self.run.value_of(self.run.ship, resistance, self.depth + 1))", "strength = strength * self.run.value_of(self.run.ship, resistance, self.depth + 1)"),
    ("resistance off the owner", "self.run.value_of(self.run.ship, resistance, self.depth + 1)", "self.run.value_of(self.owner, resistance, self.depth + 1)"),
    ("resistance before strength", "                strength = self.run.value_of(source, modifying, self.depth + 1)\n                if resistance is not None:\n", "                if resistance is not None:\n                    self.run.value_of(self.run.ship, resistance, self.depth + 1)\n                strength = self.run.value_of(source, modifying, self.depth + 1)\n                if resistance is not None:\n"),
    ("Target runs always", "applied = source.state >= (category if category <= OVERLOAD else ACTIVE)", "applied = category > OVERLOAD or source.state >= category"),
    ("Target runs at Overload", "(category if category <= OVERLOAD else ACTIVE)", "min(category, OVERLOAD)"),
    ("not running is not recorded", "                self.note(origin, operator, strength, quantity, False)\n", ""),
    ("not running is always read", "                if not applied and not self.run.recording:\n                    continue\n", ""),
    ("adds are penalised", "multiplies = operator in (PRE_MUL,", "multiplies = operator in (MOD_ADD, PRE_MUL,"),
    ("PreDiv not penalised", "(PRE_MUL, PRE_DIV, POST_MUL, POST_DIV, POST_PERCENT)\n        for", "(PRE_MUL, POST_MUL, POST_DIV, POST_PERCENT)\n        for"),
    ("quantity 0 assigns", "                if quantity > 0:\n                    plain.append((simple, quantity))\n", "                plain.append((simple, quantity))\n"),
    ("quantity 0 unrecorded", "                self.note(origin, operator, strength, quantity, True)\n                continue\n", "                if quantity > 0:\n                    self.note(origin, operator, strength, quantity, True)\n                continue\n"),
    ("simplified value recorded", "                self.note(origin, operator, strength, quantity, True)\n                continue\n", "                self.note(origin, operator, simple, quantity, True)\n                continue\n"),
    ("zero is negative", "bucket = negatives if simple < 0.0 else positives", "bucket = negatives if simple <= 0.0 else positives"),
    ("minus zero is negative", "bucket = negatives if simple < 0.0 else positives", "bucket = negatives if math.copysign(1.0, simple) < 0.0 else positives"),
    ("nine copies", "COPIES = 8\n", "COPIES = 9\n"),
    ("no row for the rest", "            if quantity > COPIES:\n", "            if False:\n"),
    ("rest without penalty", "self.note(origin, operator, strength, quantity - COPIES, True, 0.0)", "self.note(origin, operator, strength, quantity - COPIES, True)"),
    ("ascending sizes", "key=lambda pair: -abs(pair[0])", "key=lambda pair: abs(pair[0])"),
    ("unstable order", "sorted(bucket, key=lambda pair: -abs(pair[0]))", "reversed(sorted(bucket, key=lambda pair: abs(pair[0])))"),
    ("weights by position", "self.power(FACTOR, position * position)", "self.power(FACTOR, position)"),
    ("negatives first", "self.penalised(self.penalised(current, positives), negatives)", "self.penalised(self.penalised(current, negatives), positives)"),
    ("penalised before unpenalised", "        for value, quantity in plain:\n            if operator in (MOD_ADD, MOD_SUB):", "        current = self.penalised(self.penalised(current, positives), negatives)\n        positives = negatives = []\n        for value, quantity in plain:\n            if operator in (MOD_ADD, MOD_SUB):"),
    ("one bucket", "self.penalised(self.penalised(current, positives), negatives)", "self.penalised(current, positives + negatives)"),
    ("penalty left out of the row", "                source[4] = weight\n", "                pass\n"),
    ("first of equal greatest", "(good and value >= best)", "(good and value > best)"),
    ("last of equal least", "(not good and value < best)", "(not good and value <= best)"),
    ("missing high is good", "good = self.attribute in self.run.attributes and", "good = self.attribute not in self.run.attributes or"),
    ("assign by the ship's flag 1", "self.run.attributes[self.attribute][1] & 2 != 0", "self.run.attributes[self.attribute][1] & 1 != 0"),
    ("ModSub adds", "return -x if operator == MOD_SUB else x", "return x"),
    ("ModSub 0 keeps its sign", "return -x if operator == MOD_SUB else x", "return 0.0 - x if operator == MOD_SUB else x"),
    ("percent of one step", "return self.over(x, 100.0)", "return self.step(x * 0.01)"),
    ("PreDiv divides", "return self.step(self.over(1.0, x) - 1.0)", "return self.step(self.over(1.0 - x, x))"),
    ("add quantity times", "current = self.step(current + self.step(value * float(quantity)))", "for _ in range(min(quantity, 50)):\n                    current = self.step(current + value)"),
    ("power by repeated product", "            exponent //= 2\n            if exponent > 0:\n                base = self.step(base * base)\n", "            exponent //= 2\n            base = self.step(base * base)\n"),
    ("power of the float library", "                current = self.step(current * self.power(self.step(1.0 + value), quantity))", "                current = self.step(current * (self.step(1.0 + value) ** quantity if quantity < 50 else self.power(self.step(1.0 + value), quantity)))"),
    ("highest digit first", "result = self.step(result * base)", "result = self.step(base * result) if exponent != 3 else self.step(result * base * 1.0)"),
    ("max before min", "        if least != 0:\n            limit = self.run.value_of(self.owner, least, self.depth + 1)\n            current = limit if current < limit else current\n        if most != 0:\n            limit = self.run.value_of(self.owner, most, self.depth + 1)\n            current = limit if current > limit else current\n", "        if most != 0:\n            limit = self.run.value_of(self.owner, most, self.depth + 1)\n            current = limit if current > limit else current\n        if least != 0:\n            limit = self.run.value_of(self.owner, least, self.depth + 1)\n            current = limit if current < limit else current\n"),
    ("limits only where present", "        if least != 0:\n", "        if least != 0 and least in self.owner.rows:\n"),
    ("limits off the ship", "limit = self.run.value_of(self.owner, most, self.depth + 1)", "limit = self.run.value_of(self.run.ship, most, self.depth + 1)"),
    ("equal clamp takes the limit", "current = limit if current < limit else current", "current = limit if current <= limit else current"),
    ("equal cap takes the limit", "current = limit if current > limit else current", "current = limit if current >= limit else current"),
    ("assign before the rest", "for operator in range(PRE_ASSIGN, POST_ASSIGN + 1):", "for operator in [POST_ASSIGN, *range(PRE_ASSIGN, POST_ASSIGN)]:"),
    ("NUMBER only at the end", "    def step(self, x):\n        if not math.isfinite(x):", "    def step(self, x):\n        if x != x:"),
    # readings that are easy to miss
    ("ids ascend unsigned", "    return all(a < b for a, b in zip(values, values[1:]))", "    values = [v % 2 ** 32 for v in values]\n    return all(a < b for a, b in zip(values, values[1:]))"),
    ("types compared unsigned", "any(a[0] > b[0] for a, b in zip(types, types[1:]))", "any(a[0] % 2 ** 32 > b[0] % 2 ** 32 for a, b in zip(types, types[1:]))"),
    ("rows by unsigned id", "for attribute in sorted(t.rows):\n                self.fill_row", "for attribute in sorted(t.rows, key=lambda a: a % 2 ** 32):\n                self.fill_row"),
    ("walk by unsigned id", "for attribute in sorted(t.rows):\n                self.value_of", "for attribute in sorted(t.rows, key=lambda a: a % 2 ** 32):\n                self.value_of"),
    ("a type effect counts once", "return [(effect, default) for t, effect, default in self.type_effects if t == type_id]", "return list({effect: (effect, default) for t, effect, default in self.type_effects if t == type_id}.values())"),
    ("quantity 0 not simplified", "            simple = self.simplified(operator, strength)\n", "            simple = self.simplified(operator, strength) if quantity > 0 else strength\n"),
    ("not running is simplified", "            if not applied:\n                self.note(", "            if not applied:\n                self.simplified(operator, strength)\n                self.note("),
    ("not running is not resisted", "                if resistance is not None:\n                    strength", "                if resistance is not None and applied:\n                    strength"),
    ("source row before the step", "            simple = self.simplified(operator, strength)\n            if not (penalty and multiplies):\n                if quantity > 0:\n                    plain.append((simple, quantity))\n                self.note(origin, operator, strength, quantity, True)\n                continue\n", "            if not (penalty and multiplies):\n                self.note(origin, operator, strength, quantity, True)\n            simple = self.simplified(operator, strength)\n            if not (penalty and multiplies):\n                if quantity > 0:\n                    plain.append((simple, quantity))\n                continue\n"),
    ("domain before operation", "        operator = self.operator_of(operation, k)\n        if operator is None:\n            return\n        if domain == OTHER_ID", "        if domain > TARGET:\n            raise Refusal(DOMAIN, k)\n        operator = self.operator_of(operation, k)\n        if operator is None:\n            return\n        if domain == OTHER_ID"),
    ("a rig's charge is a rig", "            if t.slot == RIG and category == PASSIVE:", "            if (t.holder or t).slot == RIG and category == PASSIVE:"),
    ("projected usage chance", "        for k in range(first, first + count):\n            _, domain,", "        if self.effects[t.effect][1][3] != 0 and t.effect not in t.taken_side_effects:\n            return\n        for k in range(first, first + count):\n            _, domain,"),
    ("projected states are collected", "        for t in self.of_kind(PROJECTED):\n            self.collect_projected(t)\n", "        for t in self.of_kind(PROJECTED):\n            self.collect_projected(t)\n            t.state = min(t.state, t.max_state)\n"),
    ("charges of passed items never hit", "            if in_location is not None and not in_location(t):\n", "            if (in_location is not None and not in_location(t)) or not self.calculated(t):\n"),
    ("an item's location has its charge", "            return [self.char] + self.of_kind(SKILL) + [t for t in self.of_kind(ITEM) if self.on_char(t)]\n        return [target]", "            return [self.char] + self.of_kind(SKILL) + [t for t in self.of_kind(ITEM) if self.on_char(t)]\n        return [target] + ([target.charge] if target.charge else [])"),
    ("penalty only where it counts", "penalty = not stackable and category not in EXEMPT", "penalty = not stackable and category not in EXEMPT and e[\"operator\"] in (1, 2, 5, 6, 7)"),
    ("itself at most once", "1 if itself else e[\"quantity\"]", "min(1, e[\"quantity\"]) if itself else e[\"quantity\"]"),
    ("penalised quantity 0 leaves a row", "            if quantity > COPIES:\n                self.note(", "            if quantity > COPIES or quantity == 0:\n                self.note("),
    ("not running in copies", "                self.note(origin, operator, strength, quantity, False)\n", "                self.note(origin, operator, strength, min(quantity, 8), False)\n"),
    ("ninth copy without penalty", "            if source is not None:\n", "            if source is not None and position < COPIES:\n"),
    ("depth tested before the value", "        if row.value is None:\n            if depth > self.depth:\n                raise Refusal(DEPTH, t.number)\n", "        if depth > self.depth:\n            raise Refusal(DEPTH, t.number)\n        if row.value is None:\n"),
    ("absent attributes have a depth", "        if row is None:\n            return self.default", "        if row is None:\n            if depth > self.depth:\n                raise Refusal(DEPTH, t.number)\n            return self.default"),
    ("the first of no entries is 0", "counts = [len(self.entries), len(row.entries),", "counts = [len(self.entries) if row.entries else 0, len(row.entries),"),
    ("a buff's skill -1 is the ship's", "if e[\"origin\"][0] == \"effect\" else 0", "if e[\"origin\"][0] == \"effect\" else self.ship.type"),
    ("list 1 has the skill meant", "        self.collect(origin=(\"effect\", effect_id, t, category, modifying), func=func,", "        func = (func[0], t.type) if func[1] == -1 and func[0] in (BY_SKILL, BY_OWNED_SKILL) else func\n        self.collect(origin=(\"effect\", effect_id, t, category, modifying), func=func,"),
    ("group -1 is the source's", "        if func == BY_GROUP:\n", "        if func == BY_GROUP and key == -1 and e[\"origin\"][0] == \"effect\":\n            return [t for t in self.located(e[\"target\"]) if t.group == e[\"origin\"][2].group]\n        if func == BY_GROUP:\n"),
    ("min read after max", "        if most != 0:\n            limit", "        if most != 0 and least != most:\n            limit"),
    ("hundredths cut", "count = (abs(Fraction(x) * 100) + Fraction(1, 2)).__floor__()", "count = abs(Fraction(x) * 100).__floor__()"),
    ("halves to even", "count = (abs(Fraction(x) * 100) + Fraction(1, 2)).__floor__()", "count = round(abs(Fraction(x) * 100))"),
    ("minus before zero", "'-' if x < 0 and count > 0 else ''", "'-' if x < 0 else ''"),
    ("star above 10^12 only", "if count >= 10 ** 14:", "if count > 10 ** 14:"),
    ("star with a minus", "return \"*\"", "return \"-*\" if x < 0 else \"*\""),
    # what comes back
    ("buff value not shown", "return [1, 0, 0, 0, 0, origin[1]], origin[2]", "return [1, 0, 0, 0, 0, origin[1]], 0.0"),
    ("source rows of buffs have an attribute", "numbers = [1, origin[1], 0, 0, 0, 0]", "numbers = [1, origin[1], 0, 0, 1, 0]"),
    ("rows by arrival", "for attribute in sorted(t.rows):\n                self.fill_row", "for attribute in t.rows:\n                self.fill_row"),
    # M-110: the collection number of an entry
    ("collection numbers from one", "enumerate(self.collected)", "enumerate(self.collected, 1)"),
    ("an entry's number is its place", 'e["resistance"], number))', 'e["resistance"], self.entry_count - 1))'),
    ("numbers count within the row", 'e["resistance"], number))', 'e["resistance"], len(t.rows[attribute].entries)))'),
    ("an entry's number is its source's", 'e["resistance"], number))', 'e["resistance"], e["origin"][2].number if from_effect else number))'),
    # M-104: the lowest state that would do
    ("what asks for no state needs none", "origin[3] <= OVERLOAD else ACTIVE\n\n", "origin[3] <= OVERLOAD else PASSIVE\n\n"),
    ("a source row's state is its category's code", "return origin[3] if origin[3] <= OVERLOAD else ACTIVE", "return origin[3]"),
    ("a source row's state is the one its source is in", "return origin[3] if origin[3] <= OVERLOAD else ACTIVE", "return origin[2].state"),
    ("a source row's state is its source's max state", "return origin[3] if origin[3] <= OVERLOAD else ACTIVE", "return origin[2].max_state"),
    ("a buff needs Active", 'origin[0] == "buff":\n        return PASSIVE', 'origin[0] == "buff":\n        return ACTIVE'),
    ("only grey rows name a state", "int(applied), state_needed(origin)]", "int(applied), 0 if applied else state_needed(origin)]"),
    ("only rows that run name a state", "int(applied), state_needed(origin)]", "int(applied), state_needed(origin) if applied else 0]"),
]

# not slips: they change nothing that can be seen, and show that the test does not cry out at everything
SAME = {"highest digit first"}

EXTRA = """
    def copy_bases2(self):
        rooms, self.rooms[1] = self.rooms[1], MOST_ROWS
        self.copy_bases()
        self.rooms[1] = rooms

    def check_bases(self):
        if self.row_count > self.rooms[1]:
            raise Refusal(ROOM, 2)

    # -- collection
"""


def slipped(name, old, new):
    if SOURCE.count(old) != 1:
        sys.exit(f"{name}: the text stands {SOURCE.count(old)} times")
    text = SOURCE.replace(old, new).replace("\n    # -- collection\n", EXTRA)
    module = types.ModuleType("slipped")
    exec(compile(text, name, "exec"), module.__dict__)
    return module


def shown(module, data, rooms):
    answer = module.answer(data, rooms)
    return answer.text() + module.listing(answer)


def stream(seed, count):
    """Dense, tiny and damaged sheets and ones at a table's most, with lent lengths."""
    for n in range(count):
        kind = ["dense", "tiny", "tiny-damaged", "dense", "tiny", "limits" if n % 50 == 5 else "damaged"][n % 6]
        data = make_sheets.sheet(kind, seed, n)
        rooms = sampled.rooms(sampled.lengths(kind, seed, n, data))
        yield kind, n, data, rooms, shown(reference, data, rooms)


def kept_sheets():
    """The kept sheets with their lent lengths (cases/kept.bin)."""
    sys.path.insert(0, str(CASES))
    import check_kept
    blob, at, number = (CASES / "kept.bin").read_bytes(), 0, 0
    while at < len(blob):
        case = check_kept.Kept(blob, at)
        rooms = sampled.rooms(case.lent)
        yield "kept", number, case.data, rooms, shown(reference, case.data, rooms)
        at, number = case.end, number + 1


def seen_in(module, sheets, most):
    """The first sheets in which the slip shows."""
    found = []
    for at, (kind, n, data, rooms, text) in enumerate(sheets):
        try:
            same = shown(module, data, rooms) == text
        except Exception:
            same = False
        if not same:
            found.append((at, kind, n))
            if len(found) == most:
                break
    return found


def main():
    seed, most = sys.argv[1], int(sys.argv[2]) if len(sys.argv) > 2 else 1
    sheets, kept = list(stream(seed, 10000)), list(kept_sheets())
    wrong, chosen, by_kept = [], set(), []
    for name, old, new in SLIPS:
        module = slipped(name, old, new)
        found = seen_in(module, sheets, most)
        if not found:
            found = seen_in(module, kept, most)
            by_kept += [name] if found else []
        if (not found) != (name in SAME):
            wrong.append(name)
        chosen |= {(kind, n) for _, kind, n in found}
        print(f"{name}: {', '.join(f'sheet {at} ({kind} {n})' for at, kind, n in found) or 'not seen'}", flush=True)
    print(f"{len(SLIPS) - len(SAME)} slips, {len(chosen)} sheets, by kept sheets alone: {by_kept}, unexpected: {wrong}")
    if len(sys.argv) > 3:
        pathlib.Path(sys.argv[3]).write_text("".join(f"{kind} {n}\n" for kind, n in sorted(chosen)))
    sys.exit(bool(wrong))


if __name__ == "__main__":
    main()
