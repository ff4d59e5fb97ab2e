"""The module held against cases/: every number in words, sheets built and read back, pilots, rules, texts, threads, misuse.

Usage: python3 -m unittest in this folder, with DOGMA_LIBRARY where the library is; examples/run does so.
"""
import contextlib
import csv
import io
import pathlib
import shutil
import struct
import subprocess
import sys
import tempfile
import threading
import unittest

import dogma
from dogma import Book, Category, Domain, Engine, Fit, Func, Hall, Operator, Pool, Refused, Rooms, Slot, State

CASES = pathlib.Path(__file__).resolve().parent.parent / "cases"
NONE = [[(0, 0)] * 5 for _ in range(16)]


def case(name):
    return (CASES / name).read_bytes()


SHEET, BOOK, FIT = case("L.sheet"), case("L.book"), case("L.fit")


def refusal(call, *words, **more):
    try:
        call(*words, **more)
    except Refused as refused:
        return refused
    raise AssertionError(f"{call} was not refused")


def numbers(call, *words, **more):
    said = refusal(call, *words, **more)
    return said.number, said.place


def listing(sheet):
    """A sheet's own rows, as another planner would list them."""
    return [dogma.Listed(row.object, row.attribute, row.value) for row in dogma.calculate(sheet).rows]


def fixed(rooms):
    return Engine(rooms, rooms)


def sheet_of(bad):
    """Case L's sheet with one table bad."""
    tables = dogma.read_sheet(SHEET)
    tables.buff_collections = [dogma.BuffCollection(1, 7, 0, 1), dogma.BuffCollection(2, 7, 0, 1)]
    tables.type_effects = [dogma.TypeEffect(9, 1), dogma.TypeEffect(9, 2)]
    tables.buffs = [dogma.Buff(1, 5.0)]
    tables.asks = [dogma.Ask(0, 37)]
    data = bytearray(tables.write_sheet())

    def at(table):
        return struct.unpack_from("<I", data, 8 * (table - 1) + 4)[0]

    form, place, put = {1: ("<d", at(1) + 8, float("inf")), 2: ("<I", at(2) + 20, 9), 4: ("<I", at(4) + 8, 2), 5: ("<I", at(5), 2),
                        9: ("<d", at(9) + 4, float("nan")), 10: ("<I", at(10), 4)}[bad]
    struct.pack_into(form, data, place, put)
    return bytes(data)


def case_l():
    """Case L, in another order and with the states that its file has."""
    book = Book((7, 0, 0))
    book.attribute("maxVelocity", 37, high_is_good=True)
    book.attribute("speedFactor", 20, high_is_good=True)
    book.effect("boost", 1, Category.ONLINE).modifier(Func.ITEM, Domain.SHIP, Operator.POST_PERCENT, "speedFactor", "maxVelocity")
    book.type_of("hull", 0)
    book.type_of("overdrive", 9, category=7, effects=["boost"])
    fit = Fit(depth=2)
    idle = {"quantity": 0, "state": State.PASSIVE, "max_state": State.PASSIVE}
    for _ in range(2):
        fit.item("overdrive", Slot.LOW, state=State.ONLINE, bases={"speedFactor": 50})
    fit.character("hull", **idle)
    fit.ship("hull", bases={"maxVelocity": 200.0}, **idle)
    return book, fit


class Refusals(unittest.TestCase):
    def all(self):
        """In the order of cases/refusals.txt."""
        engine = fixed(Rooms.all(4096))
        names = ["refused-1", "refused-1-6", "refused-1-7", "refused-2", "refused-3", "refused-4", "refused-5", "refused-6", "refused-7",
                 "divided-by-0", "L-depth-1"]
        for name in names:
            yield refusal(engine.calculate, case(name + ".sheet"))
        for table in (1, 2, 4, 5, 9, 10):
            yield refusal(engine.calculate, sheet_of(table))
        pool = Pool({0: Rooms.all(8), 1: Rooms.all(1)})
        for words in [(0, BOOK[1:], FIT), (0, BOOK, FIT[1:]), (0, BOOK, case("refused-1-26.fit")), (1, BOOK, FIT), (2, BOOK, FIT), (16, BOOK, FIT)]:
            yield refusal(pool.calculate, *words)
        stretches = pool.stretches
        stretches[1][4] = (7, 2)
        yield refusal(Pool.with_stretches(Rooms.all(8), stretches).calculate, 0, BOOK, FIT)
        hall = Hall(8)
        hall.admit(3, 5)
        for words in [(4, 4), (3, 1), (16, 1), (4, 0)]:
            yield refusal(hall.admit, *words)
        yield refusal(hall.leave, 4)
        yield refusal(hall.leave, 16)
        yield refusal(Hall.with_state(10, NONE, [(0, 8)]).admit, 0, 1)
        tables = dogma.read_sheet(SHEET)
        yield refusal(tables.write_sheet, 99)
        tables.depth = 0
        yield refusal(tables.write_fit)
        lines = listing(SHEET)
        yield refusal(dogma.check, case("loop-walked.sheet"), [])
        yield refusal(dogma.check, SHEET, lines[:2])
        yield refusal(dogma.check, SHEET, [lines[0], lines[0]])
        yield refusal(dogma.check_rules, [dogma.total(1)] * 2, SHEET)
        yield refusal(dogma.check_rules_files, [dogma.total(1)] * 2, BOOK, FIT[1:])
        yield refusal(dogma.export, SHEET, [(20, "a"), (20, "b")])
        yield refusal(dogma.export, SHEET, {20: "x" * 65})
        yield refusal(engine.export, SHEET, room=9)

    def test_each_number_in_words(self):
        said = list(self.all())
        self.assertEqual([f"{r.number} {r.place} {r}" for r in said], (CASES / "refusals.txt").read_text().splitlines())
        self.assertEqual({r.number for r in said}, {int(number) for number in dogma.Number})

    def test_what_is_accepted(self):
        figures = Engine(Rooms.all(0), Rooms.all(64)).check(SHEET, listing(SHEET))
        self.assertEqual((figures.rows, figures.sources), (dogma.calculate(SHEET).rows, []))

    def test_a_number_that_is_new(self):
        self.assertEqual(str(dogma._refused(99, 3)), "refused 99 3, which this module does not know")


class Sheets(unittest.TestCase):
    def test_case_l_from_nothing(self):
        book, fit = case_l()
        self.assertEqual((fit.write_sheet(book), book.write_book(), fit.write_fit(book)), (SHEET, BOOK, FIT))

    def test_read_back_and_written_again(self):
        sheets = sorted(CASES.glob("*.sheet"))
        self.assertGreater(len(sheets), 30)
        for file in sheets:
            data = file.read_bytes()
            try:
                self.assertEqual(dogma.read_sheet(data).write_sheet(), data)
            except Refused as refused:
                self.assertEqual((refused.number, refused.place), numbers(dogma.calculate, data), file.name)

    def test_plain_tuples(self):
        sheet = dogma.Tables(attributes=[(1, 2)], objects=[(0, 587), dogma.Object(dogma.Kind.CHAR)], ids=[3, 4]).write_sheet()
        tables = dogma.read_sheet(sheet)
        self.assertEqual((tables.attributes[0].flags, tables.objects[0].type, tables.ids, tables.depth), (2, 587, [3, 4], 256))

    def test_damaged(self):
        engine = Engine()
        others = [SHEET[:length] for length in range(len(SHEET))]
        others += [SHEET[:at] + bytes([SHEET[at] ^ 0x80]) + SHEET[at + 1:] for at in range(len(SHEET))]
        for data in others:
            with contextlib.suppress(Refused):
                dogma.read_sheet(data)
                with contextlib.suppress(Refused):
                    engine.calculate(data)
                continue
            self.assertEqual(numbers(dogma.read_sheet, data), numbers(engine.calculate, data))

    def test_what_a_book_lacks(self):
        book, fit = case_l()
        fit.ship("another hull")
        with self.assertRaisesRegex(dogma.UnknownName, 'no type of the name "another hull"'):
            fit.write_sheet(book)
        with self.assertRaises(ValueError):
            book.effect("e", 2, Category.ONLINE).modifier(Func.ITEM, Domain.SHIP, Operator.MOD_ADD, "speedFactor", "maxVelocity", skill="hull")
        with self.assertRaises(ValueError):
            book.buff("b", 1, Operator.MOD_ADD).modifier(Func.OWNER_REQUIRED_SKILL, "maxVelocity")

    def test_everything_at_once(self):
        """Every kind of record and object; the engine takes it, and it reads back as the same tables."""
        book = Book()
        book.attribute("a", 1, stackable=True, default=2.0, at_least="b", at_most="c")
        book.attribute("b", 2)
        book.attribute("c", 3, default=100.0)
        book.effect("on", 10, Category.PASSIVE).modifier(Func.LOCATION_REQUIRED_SKILL, Domain.SHIP, Operator.MOD_ADD, "b", "a", skill=dogma.OWN)
        off = book.effect("off", 11, Category.ACTIVE, resisted_by="b", usage_chance="c")
        off.modifier(Func.LOCATION_GROUP, Domain.SHIP, Operator.POST_MUL, "b", "a", group=5)
        book.effect("plain", 12, Category.TARGET)
        book.buff("all", 7, Operator.POST_PERCENT).modifier(Func.LOCATION, "a").modifier(Func.OWNER_REQUIRED_SKILL, "a", skill="thing")
        book.type_of("thing", 50, group=5, category=7, effects=["on", "off"], default_effects=["plain"])
        fit = Fit(recording=True)
        drone = fit.item("thing", Slot.DRONE_BAY, quantity=5)
        skill = fit.skill("thing", bases={"b": 1.0})
        gun = fit.item("thing", Slot.HIGH, state=State.OVERLOAD, mutated_from="thing", abilities=["plain"], side_effects=["off"], bases={"a": -0.0, "b": 3.0})
        charge = gun.charge("thing", bases={"a": 0.0, "b": 3.0})
        projected = fit.projected("thing", "off")
        ship = fit.ship("thing", bases={"a": 1.0})
        fit.mode("thing")
        fit.projected_buff("all", 10.0)
        fit.ask(ship, "a")
        self.assertEqual([fit.number_of(thing) for thing in (ship, projected, drone, gun, charge, skill)], [0, 3, 4, 5, 6, 7])
        sheet = fit.write_sheet(book)
        self.assertEqual(dogma.read_sheet(sheet), fit.tables(book))
        figures = dogma.calculate(sheet)
        self.assertEqual(figures.states[4], (State.ACTIVE, State.ACTIVE))
        self.assertTrue(figures.collected and figures.entries and figures.plain and figures.sources)
        for row in figures.rows:
            self.assertEqual(figures.find(row.object, row.attribute), row)
            self.assertEqual(len(figures.entries_of(row)), len(row.entries))
            self.assertEqual(len(figures.sources_of(row)), len(row.sources))
        self.assertEqual(figures.value(0, 99), None)

    def test_lists_grow_as_they_must(self):
        sheet = case("refused-7.sheet")
        self.assertEqual(len(dogma.calculate(sheet).rows), 4500)
        self.assertEqual(numbers(Engine(Rooms.all(0), Rooms.all(4499)).calculate, sheet), (7, 2))
        engine = Engine(Rooms.all(0), Rooms.all(4500))
        self.assertEqual((len(engine.calculate(sheet).rows), engine.rooms.rows, engine.rooms.sources), (4500, 4500, 0))
        self.assertEqual(len(list(csv.reader(io.StringIO(engine.export(sheet), newline="")))), 4501)

    def test_each_list_by_its_number(self):
        for at in (0, 1, 2, 4):
            rooms = [64] * 5
            rooms[at] = 1
            self.assertEqual(numbers(fixed(Rooms(*rooms)).calculate, case("grey-L-online.sheet")), (7, at + 1))


class Pilots(unittest.TestCase):
    def test_side_by_side(self):
        pool = Pool({9: Rooms.all(3), 0: Rooms.all(4)})
        alone = pool.calculate(9, BOOK, FIT)
        pool.calculate(0, BOOK, FIT)
        self.assertEqual(numbers(pool.calculate, 0, BOOK, case("L-depth-1.fit")), (9, 2))
        self.assertEqual((pool.figures(9), pool.figures(0), pool.figures(7)), (alone, None, None))
        self.assertEqual(pool.calculate(0, BOOK, FIT), alone)
        self.assertEqual(alone.rows, dogma.calculate(SHEET).rows)

    def test_come_and_go(self):
        hall = Hall(10)
        hall.admit(0, 4)
        hall.admit(1, 3)
        self.assertEqual((hall.free, numbers(hall.admit, 2, 4)), ([(7, 3)], (12, 2)))
        self.assertEqual(len(hall.calculate(0, BOOK, FIT).rows), 3)
        hall.leave(0)
        self.assertEqual((hall.free, hall.figures(0)), ([(0, 4), (7, 3)], None))
        kept = Hall.with_state(10, hall.stretches, hall.free)
        kept.leave(1)
        hall.leave(1)
        self.assertEqual((hall.free, kept.free), ([(0, 10)], [(0, 10)]))
        self.assertEqual(numbers(Hall(0).admit, 0, 1), (12, 0))
        for free in [[], [(0, 9)], [(0, 5), (5, 5)], [(0, 10)] * 2, [(0, 1)] * 18]:
            self.assertEqual(numbers(Hall.with_state(10, NONE, free).leave, 0), (18, 0))


class Organisers(unittest.TestCase):
    def test_rules(self):
        def table(points):
            return [dogma.points(9, 3), dogma.most(0, 2), dogma.forbidden(-1), dogma.total(points)]

        self.assertEqual(dogma.check_rules(table(6), SHEET), (True, None, None))
        self.assertEqual(dogma.check_rules_files(table(5), BOOK, FIT), (False, 3, 6))
        self.assertEqual(dogma.check_rules([], SHEET), (True, None, None))

    def test_texts(self):
        text = case("L.csv").decode()
        labels = {37: 'Hull "HP"', 20: "Bonus, %"}
        self.assertEqual(dogma.export(SHEET, labels), text)
        self.assertEqual(Engine().export(SHEET, sorted(labels.items()), room=len(text)), text)
        self.assertEqual(list(csv.reader(io.StringIO(text, newline="")))[1], ["0", "37", 'Hull "HP"', "430.37"])
        self.assertEqual(numbers(dogma.export, SHEET, {20: "é"}), (16, 0))


class Threads(unittest.TestCase):
    def test_eight(self):
        """Each thread gives what the first run gave, whether engines are their own or one is shared."""
        sheets = [case(name + ".sheet") for name in ("L", "grey-copies", "refused-1-7", "numbers-order", "divided-by-0")]

        def given(engine, sheet):
            try:
                return engine.calculate(sheet)
            except Refused as refused:
                return refused.number, refused.place

        first = [given(fixed(Rooms.all(32)), sheet) for sheet in sheets]
        shared, wrong = fixed(Rooms.all(32)), []

        def run(thread):
            own = fixed(Rooms.all(32))
            for call in range(500):
                at = (call + thread) % len(sheets)
                if given(shared if call % 2 else own, sheets[at]) != first[at]:
                    wrong.append((thread, call))

        threads = [threading.Thread(target=run, args=(at,)) for at in range(8)]
        for thread in threads:
            thread.start()
        for thread in threads:
            thread.join()
        self.assertEqual(wrong, [])


class Misuse(unittest.TestCase):
    def test_what_is_no_sheet(self):
        for wrong in (5, "a sheet", None):
            with self.assertRaises(TypeError):
                dogma.calculate(wrong)
        self.assertEqual(numbers(dogma.calculate, b""), (1, 0))
        self.assertEqual(dogma.calculate(bytearray(SHEET)), dogma.calculate(memoryview(SHEET)))

    def test_numbers_that_do_not_fit(self):
        with self.assertRaises(ValueError):
            Hall(4).admit(2**32, 1)
        with self.assertRaises(ValueError):
            Hall(4).admit(-1, 1)
        with self.assertRaises(ValueError):
            Pool({0: Rooms.all(1)}).calculate(2**32, BOOK, FIT)
        with self.assertRaises(ValueError):
            Pool.with_stretches(Rooms.all(1), [])
        with self.assertRaises(ValueError):
            dogma.Tables(objects=[dogma.Object(-1)]).write_sheet()
        with self.assertRaises(ValueError):
            dogma.check_rules([dogma.points(2**31, 1)], SHEET)
        with self.assertRaises(TypeError):
            dogma.Tables(item=[])
        self.assertEqual(numbers(Pool, {16: Rooms.all(1)}), (13, 16))


class Command(unittest.TestCase):
    def run_on(self, *words, cwd=pathlib.Path(dogma.__file__).parent, **more):
        return subprocess.run([sys.executable, "-m", "dogma", *map(str, words)], stdout=subprocess.PIPE, stderr=subprocess.PIPE, cwd=str(cwd), **more)

    def test_table(self):
        said = self.run_on(CASES / "L.sheet")
        self.assertEqual((said.returncode, said.stdout.decode().splitlines()[1].split()), (0, ["0", "37", "200.00", "430.37"]))
        said = self.run_on("--csv", CASES / "L.sheet")
        self.assertEqual(said.stdout.splitlines()[1], b"0,37,,430.37")
        said = self.run_on(CASES / "refused-1-7.sheet")
        self.assertEqual((said.returncode, said.stdout, said.stderr[:37]), (1, b"", b"refused 1 7: table 7 (base attributes"))

    def test_where_the_library_is(self):
        library = pathlib.Path(dogma.library_path()).resolve()
        with tempfile.TemporaryDirectory() as place:
            there = pathlib.Path(place)
            shutil.copy(dogma.__file__, place)
            for given, seen in [(library, True), (library.with_suffix(".a"), True), (library.parent, True), (there, False)]:
                said = self.run_on(CASES / "L.sheet", cwd=place, env={"DOGMA_LIBRARY": str(given)})
                self.assertEqual(said.returncode == 0, seen, given)
            self.assertEqual(self.run_on(CASES / "L.sheet", cwd=place, env={}).returncode, 2)
            self.assertEqual(self.run_on(CASES / "L.sheet", cwd=place, env={"LD_LIBRARY_PATH": str(library.parent)}).returncode, 0)
            shutil.copy(str(library), place)
            self.assertEqual(self.run_on(CASES / "L.sheet", cwd=place, env={}).returncode, 0)

    def test_the_page(self):
        """The example on the module's page does what it says."""
        code = [line[4:] for line in dogma.__doc__.splitlines() if line.startswith("    ")]
        names = {}
        exec("\n".join(code[:-1]), names)
        self.assertEqual(f"{code[-1].split('#')[1].strip()}", str(eval(code[-1], names)))

    def test_what_is_missing(self):
        self.assertEqual(self.run_on().returncode, 2)
        self.assertEqual(self.run_on(CASES / "none.sheet").returncode, 2)
        with tempfile.TemporaryDirectory() as place:
            said = self.run_on(CASES / "L.sheet", env={"DOGMA_LIBRARY": f"{place}/libdogma.so"})
        self.assertEqual((said.returncode, len(said.stderr.splitlines())), (2, 1))
        self.assertIn(b"library/build makes libdogma.so", said.stderr)

    def test_shown(self):
        for value, text in [(0.125, "0.13"), (1.005, "1.00"), (-0.004, "0.00"), (-0.005, "-0.01"), (1e12, "*"), (999999999999.999, "*"), (-2.5, "-2.50")]:
            self.assertEqual(dogma.shown(value), text)


if __name__ == "__main__":
    unittest.main()
