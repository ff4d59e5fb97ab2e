"""EVE Online fits calculated by an engine whose figures are proved: libdogma from Python, with the standard library alone.

    import dogma

    book = dogma.Book()
    book.attribute("maxVelocity", 37, high_is_good=True)
    book.attribute("speedFactor", 20, high_is_good=True)
    book.effect("boost", 1, dogma.Category.ONLINE).modifier(
        dogma.Func.ITEM, dogma.Domain.SHIP, dogma.Operator.POST_PERCENT, "speedFactor", "maxVelocity")
    book.type_of("hull", 587)
    book.type_of("overdrive", 9, category=7, effects=["boost"])
    fit = dogma.Fit()
    fit.ship("hull", bases={"maxVelocity": 200.0})
    fit.item("overdrive", dogma.Slot.LOW, state=dogma.State.ONLINE, bases={"speedFactor": 50.0})
    figures = dogma.calculate(fit.write_sheet(book))
    figures.value(0, 37)                                # 300.0

What comes back is plain lists of named tuples. What is refused is raised as Refused, which has the library's number and place and says in
words what is wrong and where. `python3 -m dogma SHEET` prints a sheet's figures as a table.

The library is the shared one: the file that the variable DOGMA_LIBRARY names (of an archive the libdogma.so beside it), else libdogma.so
beside this file, else the one that the linker knows. Calls leave the interpreter's lock alone, so that threads run side by side; each
engine, pool and hall takes one call at a time.
"""
from __future__ import annotations

import ctypes
import decimal
import enum
import os
import pathlib
import struct
import sys
import threading
from typing import Any, Callable, Dict, Iterable, Iterator, List, Mapping, NamedTuple, Optional, Sequence, Tuple, Union

OBJECTS = 1024
PILOTS = 16
LISTS = 5
FREE = 17  # 16 pilots leave at most 17 gaps
MOST_ROWS = 2**32 - 1

Bytes = Union[bytes, bytearray, memoryview]
# of each pilot and each list the first row and the length
Stretches = Sequence[Sequence[Tuple[int, int]]]


# ---- codes: docs/FORMAT.md, section 3


class State(enum.IntEnum):
    """An object's state, or the greatest that it can be in."""

    PASSIVE = 0
    ONLINE = 1
    ACTIVE = 2
    OVERLOAD = 3
    ALWAYS_ON = 4


class Category(enum.IntEnum):
    """From which state on an effect runs: the first four from the state of the same name, the others from ACTIVE."""

    PASSIVE = 0
    ONLINE = 1
    ACTIVE = 2
    OVERLOAD = 3
    TARGET = 4
    AREA = 5
    DUNGEON = 6
    SYSTEM = 7


class Operator(enum.IntEnum):
    """What a modifier does to the value, in the order in which they are applied."""

    PRE_ASSIGN = 0
    PRE_MUL = 1
    PRE_DIV = 2
    MOD_ADD = 3
    MOD_SUB = 4
    POST_MUL = 5
    POST_DIV = 6
    POST_PERCENT = 7
    POST_ASSIGN = 8


class Func(enum.IntEnum):
    """Whom a modifier touches."""

    LOCATION_REQUIRED_SKILL = 0
    LOCATION_GROUP = 1
    LOCATION = 2
    OWNER_REQUIRED_SKILL = 3
    ITEM = 4


class Domain(enum.IntEnum):
    """Which object a modifier starts from."""

    ITEM = 0
    SHIP = 1
    CHAR = 2
    OTHER = 3
    STRUCTURE = 4
    TARGET_ID = 5
    TARGET = 6


class Slot(enum.IntEnum):
    """Where an item sits; what is in OTHER is passed over."""

    OTHER = 0
    HIGH = 1
    MEDIUM = 2
    LOW = 3
    RIG = 4
    SUBSYSTEM = 5
    SERVICE = 6
    DRONE_BAY = 7
    FIGHTER_TUBE = 8
    FIGHTER_BAY = 9
    IMPLANT = 10
    BOOSTER = 11


class Kind(enum.IntEnum):
    """What an object is."""

    SHIP = 0
    MODE = 1
    CHAR = 2
    ITEM = 3
    CHARGE = 4
    SKILL = 5
    PROJECTED = 6


class Number(enum.IntEnum):
    """The library's refusals."""

    SHAPE = 1
    FUNC = 2
    DOMAIN = 3
    CATEGORY = 4
    OPERATION = 5
    OTHER = 6
    ROOM = 7
    NUMBER = 8
    DEPTH = 9
    LOOP = 10
    RULES = 11
    POOL = 12
    PILOT = 13
    LENGTH = 14
    LISTING = 15
    LABEL = 16
    TABLE = 18


# ---- refusals


class Refused(Exception):
    """Why there is no result. `number` is one of Number's (or a newer library's), `place` says where; str() says both in words.

    Tables are counted from 1; records, objects, lines, labels and pilots from 0.
    """

    def __init__(self, number: int, place: int, words: str) -> None:
        super().__init__(words)
        self.number = number
        self.place = place

    def __reduce__(self) -> Tuple[Any, ...]:
        return Refused, (self.number, self.place, str(self))


class UnknownName(ValueError):
    """A fit names an attribute, effect, type or buff that the book does not have."""


class LibraryMissing(OSError):
    """libdogma.so is not to be found, or cannot be loaded."""


_TABLES = [
    ("header", "the length, a count, an offset, the depth (1 to 256) or recording (0 or 1) is not as it must be"),
    ("attributes", "ids do not ascend strictly, flags are above 3, or a default is infinite or NaN"),
    ("effects", "ids do not ascend strictly, or modifiers lie outside table 3"),
    ("modifiers", "a record is not allowed"),
    ("type effects", "types descend, or a default is above 1"),
    ("buff collections", "ids do not ascend strictly, or modifiers lie outside table 3"),
    ("objects", "they are out of order (ship, mode, char, projected, items with their charges, skills), a code is none, or a range leaves its table"),
    ("base attributes", "a value is infinite or NaN, or the attributes of an object do not ascend strictly"),
    ("ids", "a record is not allowed"),
    ("projected buffs", "a value is infinite or NaN"),
    ("asks", "an object is not there"),
]

_FULL = {
    1: "list 1 (collected effects) is full",
    2: "list 2 (attribute rows) is full",
    3: "list 3 (entries) is full",
    4: "list 4 (plain effects) is full",
    5: "list 5 (source rows) is full",
    6: "the bytes lent for a sheet, a book or a fit are too few",
    8: "the bytes lent for the text are too few",
}

_WORDS = {
    2: "table 3 (modifiers), record {0}: its func is above 5",
    3: "table 3 (modifiers), record {0}: its domain is above 6",
    4: "table 2 (effects), record {0}: its category is above 7",
    5: "table 3 (modifiers), record {0}, or for a buff table 5 (buff collections): its operation is above 9",
    6: "table 3 (modifiers), record {0}: it means the other (OtherID) of a ship, mode, char or skill, which has none",
    8: "object {0}: a step of an attribute of it is infinite or NaN, so there is no finite figure",
    9: "object {0}: an attribute of it would be calculated deeper than the depth allows (at most 256)",
    10: "object {0}: an attribute of it leads back to itself",
    11: "line {0} of the rules: its kind is above 3, it does not come after the line before, its points are above 65535, or a total has an id",
    14: "pilot {0} wants no row",
    15: "line {0} of the listing: it is missing, or not what the rules give",
    16: "label {0}: it has over 64 bytes, one that is not printable ASCII, CR or LF, or its id does not ascend",
    18: "the stretches and the free rows are no state of the pool",
}


def _shape_words(place: int, files: bool) -> str:
    part = "sheet" if not files else "fit" if place >= 20 else "book"
    table = place - 20 if part == "fit" else place
    name, rule = _TABLES[table] if table < len(_TABLES) else ("unknown", "it is bad")
    return f"the header of the {part}: {rule}" if table == 0 else f"table {table} ({name}) of the {part}: {rule}"


def _pilot_words(number: int, pilot: int, call: str) -> str:
    if pilot >= PILOTS and (number == Number.PILOT or call == "unseated"):
        return f"pilot {pilot}: pilots are 0 to 15"
    return {
        "unseated": f"pilot {pilot} has no stretch of the pool",
        "seated": f"pilot {pilot}: a stretch of it leaves the pool, or overlaps a lower pilot's",
        "admit": f"pilot {pilot} is in already" if number == Number.PILOT else f"pilot {pilot}: no run of free rows is as long",
        "leave": f"pilot {pilot} is not in",
    }.get(call, f"pilot {pilot}")


def _refused(number: int, place: int, *, files: bool = False, call: str = "") -> Refused:
    """What number and place mean: of a book and a fit where `files`, of a pool or a hall by the call."""
    if number == Number.SHAPE:
        words = _shape_words(place, files)
    elif number == Number.ROOM and place in _FULL:
        words = f"{_FULL[place]}: lend more and call again"
    elif number in (Number.POOL, Number.PILOT):
        words = _pilot_words(number, place, call)
    else:
        words = _WORDS.get(number, f"refused {number} {{0}}, which this module does not know").format(place)
    return Refused(number, place, words)


# ---- the library


class _Numbers(ctypes.Structure):
    """A struct of 64-bit numbers that is returned by value."""

    def raised(self, **how: Any) -> None:
        if self.number:
            raise _refused(self.number, self.place, **how)


def _struct_of(*names: str) -> Any:
    return type("_Struct", (_Numbers,), {"_fields_": [(name, ctypes.c_uint64) for name in ("number", "place", *names)]})


_COUNTS = ("collected", "rows", "entries", "plain", "sources")
_Answer = _struct_of(*_COUNTS)
_Seat = _struct_of("free")
_Written = _struct_of("length")
_Checked = _struct_of("allowed", "line", "count")
_Exported = _struct_of(*_COUNTS, "length")

_AT = ctypes.c_void_p
_LONG = ctypes.c_size_t
_U32 = ctypes.c_uint32
_COLUMN = [_AT, _LONG]
# the arguments of include/dogma.h: a pointer and a count for each column
_FUNCTIONS = {
    "dogma_calculate": (_Answer, [_AT, *_COLUMN * 10, *_COLUMN]),
    "dogma_calculate_pilot": (_Answer, [_AT, *_COLUMN * 10, _AT, *_COLUMN * 2, _U32]),
    "dogma_admit": (_Seat, [*_COLUMN, _AT, _U32, _U32, _U32, _U32]),
    "dogma_leave": (_Seat, [_AT, *_COLUMN * 10, *_COLUMN, _AT, _U32, _U32]),
    "dogma_write_sheet": (_Written, [*_COLUMN, _AT, *_COLUMN * 13]),
    "dogma_write_book": (_Written, [*_COLUMN, _AT, *_COLUMN * 6]),
    "dogma_write_fit": (_Written, [*_COLUMN, _AT, *_COLUMN * 7]),
    "dogma_check": (_Answer, [_AT, *_COLUMN * 9, *_COLUMN * 2]),
    "dogma_check_rules": (_Checked, _COLUMN * 2),
    "dogma_check_rules_files": (_Checked, _COLUMN * 3),
    "dogma_export": (_Exported, [*_COLUMN, _AT, *_COLUMN * 10, *_COLUMN * 3]),
}
_loaded: Dict[str, Any] = {}


def library_path() -> str:
    """Where the library is looked for: DOGMA_LIBRARY, else libdogma.so beside this file, else the linker's name."""
    given = os.environ.get("DOGMA_LIBRARY")
    if given:
        path = pathlib.Path(given)
        return str(path / "libdogma.so" if path.is_dir() else path.with_name("libdogma.so") if path.suffix == ".a" else path)
    beside = pathlib.Path(__file__).resolve().with_name("libdogma.so")
    return str(beside) if beside.exists() else "libdogma.so"


def _call(name: str, *arguments: Any) -> Any:
    """Calls a function of the library, which is loaded at the first call."""
    function = _loaded.get(name)
    if function is None:
        try:
            function = getattr(ctypes.CDLL(library_path()), name)
        except (OSError, AttributeError) as error:
            raise LibraryMissing(f"the library cannot be used: {error}; library/build makes libdogma.so, DOGMA_LIBRARY says where it is") from error
        function.restype, function.argtypes = _FUNCTIONS[name]
        _loaded[name] = function
    return function(*arguments)


def _bytes(given: Bytes) -> bytes:
    return memoryview(given).tobytes()


def _read(data: bytes) -> Tuple[ctypes.c_char_p, int]:
    """Bytes that are only read: where they are, and how many."""
    return ctypes.c_char_p(data), len(data)


def _u32(number: int, what: str) -> int:
    """ctypes would cut a number to its lowest 32 bits."""
    if not 0 <= number <= MOST_ROWS:
        raise ValueError(f"{what} is {number}, and must be 0 to {MOST_ROWS}")
    return number


# ---- results


class Origin(NamedTuple):
    """Where an effect comes from: an object's effect, or, where `buff` is given, a projected buff with its value."""

    effect: Optional[int]
    source: Optional[int]
    category: Optional[Category]
    attribute: Optional[int]
    buff: Optional[int]
    value: Optional[float]


class Collected(NamedTuple):
    """A row of list 1: a modifier that was taken. `skill_or_group` is read by func."""

    origin: Origin
    func: Func
    skill_or_group: int
    operator: Operator
    source_quantity: int
    target: int
    target_attribute: int
    resistance: Optional[int]


class Row(NamedTuple):
    """A row of list 2: an attribute of an object. `entries` and `sources` are numbers in those lists."""

    object: int
    attribute: int
    base: float
    value: float
    entries: range
    sources: range


class Entry(NamedTuple):
    """A row of list 3: what acts on a row. `collected` is its effect's number in list 1."""

    origin: Origin
    operator: Operator
    penalty: bool
    quantity: int
    resistance: Optional[int]
    collected: int


class Plain(NamedTuple):
    """A row of list 4: an effect in use that has no modifiers."""

    object: int
    effect: int


class Source(NamedTuple):
    """A row of list 5: what an entry contributed, from an object or a buff; `state` is the lowest in which it runs."""

    object: Optional[int]
    buff: Optional[int]
    effect: Optional[int]
    attribute: Optional[int]
    operator: Operator
    value: float
    quantity: int
    penalty: Optional[float]
    applied: bool
    state: State


class Figures(NamedTuple):
    """A result: the lists, and (state, max state) of each object that the fit can have."""

    rows: List[Row]
    entries: List[Entry]
    sources: List[Source]
    collected: List[Collected]
    plain: List[Plain]
    states: List[Tuple[State, State]]

    def find(self, object: int, attribute: int) -> Optional[Row]:
        """The row of an object's attribute, if there is one."""
        low, high = 0, len(self.rows)
        while low < high:
            middle = (low + high) // 2
            if self.rows[middle][:2] < (object, attribute):
                low = middle + 1
            else:
                high = middle
        return self.rows[low] if low < len(self.rows) and self.rows[low][:2] == (object, attribute) else None

    def value(self, object: int, attribute: int) -> Optional[float]:
        """The value of an object's attribute, if it has a row."""
        row = self.find(object, attribute)
        return None if row is None else row.value

    def entries_of(self, row: Row) -> List[Entry]:
        """What acts on a row, in the order of collection."""
        return self.entries[row.entries.start:row.entries.stop]

    def sources_of(self, row: Row) -> List[Source]:
        """Where a row's value comes from; empty unless the sheet asks for recording."""
        return self.sources[row.sources.start:row.sources.stop]


class Rooms(NamedTuple):
    """How many rows each list has room for."""

    collected: int
    rows: int
    entries: int
    plain: int
    sources: int

    @classmethod
    def all(cls, room: int) -> Rooms:
        """The same room in every list."""
        return cls(room, room, room, room, room)


def _given(flag: int, number: int) -> Optional[int]:
    return number if flag else None


def _origin(kind: int, effect: int, source: int, category: int, attribute: int, buff: int, value: float) -> Origin:
    if kind:
        return Origin(None, None, None, None, buff, value)
    return Origin(effect, source, Category(category), attribute, None, None)


_STATES = {(int(state), int(most)): (state, most) for state in State for most in State}
# of each column the form of an element, numbers signed where they are, and the list that it is a column of
_COLUMNS = [("IiIIiiIiIIIiIi", 0), ("d", 0), ("IiIIII", 1), ("d", 1), ("d", 1), ("IiIIiiIIIIiI", 2), ("d", 2), ("Ii", 3), ("IIIiIiIIIII", 4), ("dd", 4)]
_WIDTHS = [struct.calcsize("=" + form) for form, _ in _COLUMNS]


class _Lists:
    """The ten columns and the states, lent to the library and read back."""

    def __init__(self, rooms: Sequence[int], pilots: int = 1) -> None:
        self.rooms = Rooms(*(_u32(room, "a list's room") for room in rooms))
        # floats, so that each column is aligned; no column is without an element, so that no pointer is null
        self.columns = [(ctypes.c_double * (width * max(self.rooms[which], 1) // 8 + 1))() for width, (_, which) in zip(_WIDTHS, _COLUMNS)]
        self.states = (ctypes.c_uint32 * (2 * OBJECTS * pilots))()

    def lent(self) -> List[Any]:
        pairs = ((column, self.rooms[which]) for column, (_, which) in zip(self.columns, _COLUMNS))
        return [part for pair in pairs for part in pair]

    def _elements(self, column: int, first: int, count: int) -> Iterator[Tuple[Any, ...]]:
        width = _WIDTHS[column]
        return struct.iter_unpack("=" + _COLUMNS[column][0], memoryview(self.columns[column]).cast("B")[width * first:width * (first + count)])

    def figures(self, counts: Sequence[int], firsts: Sequence[int] = (0,) * LISTS, pilot: int = 0) -> Figures:
        parts = [(first if count else 0, count) for first, count in zip(firsts, counts)]
        c, cv, r, b, v, e, ev, p, s, sv = (self._elements(at, *parts[which]) for at, (_, which) in enumerate(_COLUMNS))
        collected = [Collected(_origin(*n[:6], f), Func(n[6]), n[7], Operator(n[8]), *n[9:12], _given(*n[12:])) for n, (f,) in zip(c, cv)]
        rows = [Row(n[0], n[1], base, value, range(n[2], n[2] + n[3]), range(n[4], n[4] + n[5])) for n, (base,), (value,) in zip(r, b, v)]
        entries = [Entry(_origin(*n[:6], f), Operator(n[6]), bool(n[7]), n[8], _given(*n[9:11]), n[11]) for n, (f,) in zip(e, ev)]
        plain = [Plain(*n) for n in p]
        sources = [_source(n, value, penalty) for n, (value, penalty) in zip(s, sv)]
        states = struct.iter_unpack("=II", memoryview(self.states).cast("B")[8 * OBJECTS * pilot:8 * OBJECTS * (pilot + 1)])
        return Figures(rows, entries, sources, collected, plain, [_STATES[pair] for pair in states])


def _source(n: Tuple[int, ...], value: float, penalty: float) -> Source:
    # an object's number, or a buff's id, which is signed
    buff = n[1] - 2**32 if n[1] >= 2**31 else n[1]
    return Source(None if n[0] else n[1], buff if n[0] else None, _given(n[2], n[3]), _given(n[4], n[5]), Operator(n[6]), value, n[7],
                  penalty if n[8] else None, bool(n[9]), State(n[10]))


# ---- one sheet at a time


class Listed(NamedTuple):
    """A line of another planner's listing; a value is judged by its bits, so that -0.0 is not 0.0."""

    object: int
    attribute: int
    value: float


Labels = Union[Mapping[int, str], Iterable[Tuple[int, str]]]


class Engine:
    """Calculates sheets, in lists of its own that serve again from sheet to sheet.

    No bound by the tables' limits could be lent, and the engine does not tell beforehand how many rows it will use. So a list that is full
    is made twice as long and the sheet is calculated again, until it fits or the list has `most` rows: then ROOM is raised.
    """

    def __init__(self, rooms: Rooms = Rooms.all(1 << 10), most: Rooms = Rooms.all(1 << 20)) -> None:
        self._lists = _Lists(rooms)
        self._most = most
        self._lock = threading.Lock()

    @property
    def rooms(self) -> Rooms:
        """How long the lists are now."""
        return self._lists.rooms

    def calculate(self, sheet: Bytes) -> Figures:
        """Every attribute's value, and all lists; or Refused."""
        data = _bytes(sheet)
        with self._lock:
            answer = self._until_it_fits(lambda lists: _call("dogma_calculate", lists.states, *lists.lent(), *_read(data)))
            return self._lists.figures([getattr(answer, count) for count in _COUNTS])

    def check(self, sheet: Bytes, listing: Iterable[Tuple[int, int, float]]) -> Figures:
        """Holds another planner's listing against the rules: every row once, in order, each value what the rules give from the other listed.

        Where it is accepted it is that of every run of the sheet; the figures are the listed ones, without source rows.
        """
        data, lines = _bytes(sheet), _packed("Iid", listing, "a line")

        def call(lists: _Lists) -> Any:
            lent = lists.lent()
            # scratch, a column of list 2; list 5 is not lent
            work = (ctypes.c_uint32 * (4 * max(lists.rooms.rows, 1)))()
            return _call("dogma_check", lists.states, *lent[:10], work, lists.rooms.rows, *lent[10:16], *_read(data), *lines)

        with self._lock:
            answer = self._until_it_fits(call)
            return self._lists.figures([getattr(answer, count) for count in _COUNTS])

    def export(self, sheet: Bytes, labels: Labels = (), room: Optional[int] = None) -> str:
        """A run's rows as comma-separated text by RFC 4180: object, attribute, label, value.

        Labels go by attribute: of a mapping in the order of ids, of pairs as they are given, and then ids must ascend. Each has at most 64
        bytes of printable ASCII, CR or LF. One that begins with =, +, - or @ is a formula to some spreadsheet programs: it is given as it
        is. `room` is the most bytes that the text may have; there are as many as it needs where it is not given.
        """
        pairs = sorted(labels.items()) if isinstance(labels, Mapping) else list(labels)
        # a label of over 64 bytes is refused whatever it holds, so 65 of them will do
        texts = [text.encode("utf-8")[:65] for _, text in pairs]
        table, first = [], 0
        for (attribute, _), text in zip(pairs, texts):
            table.append((attribute, first, len(text)))
            first += len(text)
        rows, count = _packed("iII", table, "a label")
        data = _bytes(sheet)
        text = ctypes.create_string_buffer(0)

        def call(lists: _Lists) -> Any:
            nonlocal text
            # no record has over 172 bytes, the header 30
            length = 30 + 172 * lists.rooms.rows if room is None else _u32(room, "the text's room")
            text = ctypes.create_string_buffer(length + 1)
            return _call("dogma_export", text, length, lists.states, *lists.lent(), rows, count, *_read(b"".join(texts)), *_read(data))

        with self._lock:
            answer = self._until_it_fits(call)
        return text.raw[:answer.length].decode("ascii")

    def _until_it_fits(self, call: Callable[[_Lists], Any]) -> Any:
        while True:
            answer = call(self._lists)
            which = answer.place - 1
            if answer.number != Number.ROOM or which >= LISTS or self.rooms[which] >= self._most[which]:
                answer.raised()
                return answer
            rooms = list(self.rooms)
            rooms[which] = min(max(2 * rooms[which], 1), self._most[which])
            self._lists = _Lists(rooms)


def calculate(sheet: Bytes) -> Figures:
    """A sheet's figures by an engine of its own; who calculates many keeps an Engine."""
    return Engine().calculate(sheet)


def check(sheet: Bytes, listing: Iterable[Tuple[int, int, float]]) -> Figures:
    """Another planner's listing held against the rules by an engine of its own: Engine.check."""
    return Engine().check(sheet, listing)


def export(sheet: Bytes, labels: Labels = ()) -> str:
    """A sheet's rows as comma-separated text by an engine of its own: Engine.export."""
    return Engine().export(sheet, labels)


# ---- several pilots, and pilots that come and go


def _flat(stretches: Stretches) -> Any:
    """The table of stretches as it is lent: 16 pilots, five lists, first and length."""
    pairs = [tuple(pair) for lists in stretches for pair in lists]
    if len(stretches) != PILOTS or len(pairs) != PILOTS * LISTS:
        raise ValueError(f"the stretches are those of {PILOTS} pilots, {LISTS} each")
    return (ctypes.c_uint32 * (2 * PILOTS * LISTS))(*(_u32(number, "a stretch's number") for pair in pairs for number in pair))


class Pool:
    """One pool of rows for up to 16 pilots, each with its own stretch of every list, over one book.

    Pool({0: Rooms.all(256), 3: Rooms.all(512)}) is as long as the rooms of its pilots together. A pilot's result is its own: no pilot can
    change another's. Stretches do not grow: one that is too short is ROOM.
    """

    def __init__(self, pilots: Mapping[int, Rooms]) -> None:
        stretches = [[(0, 0)] * LISTS for _ in range(PILOTS)]
        ends = [0] * LISTS
        for pilot, rooms in pilots.items():
            if not 0 <= pilot < PILOTS:
                raise _refused(Number.PILOT, pilot, call="admit")
            stretches[pilot] = list(zip(ends, rooms))
            ends = [end + room for end, room in zip(ends, rooms)]
        self._seat(Rooms(*ends), stretches)

    @classmethod
    def with_stretches(cls, rooms: Rooms, stretches: Stretches) -> Pool:
        """A pool with this table of stretches, whatever it says: calls raise POOL where it is wrong."""
        pool = cls.__new__(cls)
        pool._seat(rooms, stretches)
        return pool

    def _seat(self, rooms: Sequence[int], stretches: Stretches) -> None:
        self._lists = _Lists(rooms, PILOTS)
        self._table = _flat(stretches)
        self._figures: Dict[int, Figures] = {}
        self._lock = threading.Lock()

    @property
    def stretches(self) -> List[List[Tuple[int, int]]]:
        """Of each pilot and each list the first row and the length."""
        pairs = list(zip(self._table[::2], self._table[1::2]))
        return [pairs[LISTS * pilot:LISTS * (pilot + 1)] for pilot in range(PILOTS)]

    def calculate(self, pilot: int, book: Bytes, fit: Bytes) -> Figures:
        """The pilot's fit over the book; what the other pilots have stays as it was."""
        files = (*_read(_bytes(book)), *_read(_bytes(fit)))
        with self._lock:
            answer = _call("dogma_calculate_pilot", self._lists.states, *self._lists.lent(), self._table, *files, _u32(pilot, "the pilot"))
            seated = pilot < PILOTS and any(length for _, length in self.stretches[pilot])
            if answer.number != Number.POOL:
                self._figures.pop(pilot, None)
            answer.raised(files=True, call="seated" if seated else "unseated")
            counts = [getattr(answer, count) for count in _COUNTS]
            self._figures[pilot] = self._lists.figures(counts, [first for first, _ in self.stretches[pilot]], pilot)
            return self._figures[pilot]

    def figures(self, pilot: int) -> Optional[Figures]:
        """A pilot's last result, if it was not refused."""
        return self._figures.get(pilot)


class Hall:
    """A pool whose rows are lent to pilots as they come, and taken back when they go.

    Hall(1024) has so many rows of every list, all free. A pilot gets the lowest run of as many free rows as it wants, the same of every
    list; so admit the long ones first where you can. One whose rows are too few (ROOM) leaves and is admitted with more.
    """

    def __init__(self, rows: int) -> None:
        self._open(rows, [[(0, 0)] * LISTS] * PILOTS, [(0, rows)] if rows else [])

    @classmethod
    def with_state(cls, rows: int, stretches: Stretches, free: Sequence[Tuple[int, int]]) -> Hall:
        """A hall in a state that was kept, whose rows hold nothing yet; calls raise TABLE where it is no state of so many rows."""
        hall = cls.__new__(cls)
        hall._open(rows, stretches, free)
        return hall

    def _open(self, rows: int, stretches: Stretches, free: Sequence[Tuple[int, int]]) -> None:
        self._pool = Pool.with_stretches(Rooms.all(rows), stretches)
        places = [_u32(number, "a free stretch's number") for pair in free for number in pair]
        self._free = (ctypes.c_uint32 * max(2 * FREE, len(places)))(*places)
        self._count = len(free)

    @property
    def free(self) -> List[Tuple[int, int]]:
        """The free stretches, in order: start and length."""
        return list(zip(self._free[:2 * self._count:2], self._free[1:2 * self._count:2]))

    @property
    def stretches(self) -> List[List[Tuple[int, int]]]:
        """Of each pilot and each list the first row and the length."""
        return self._pool.stretches

    def admit(self, pilot: int, rows: int) -> None:
        """Lends a pilot the lowest run of so many free rows."""
        pool, wanted = self._pool, (_u32(pilot, "the pilot"), _u32(rows, "the rows wanted"))
        with pool._lock:
            seat = _call("dogma_admit", self._free, len(self._free) // 2, pool._table, self._count, pool._lists.rooms.rows, *wanted)
            self._count = seat.free
            seat.raised(call="admit")

    def leave(self, pilot: int) -> None:
        """Clears a pilot's rows and takes them back."""
        pool, who = self._pool, _u32(pilot, "the pilot")
        with pool._lock:
            lists = pool._lists
            seat = _call("dogma_leave", lists.states, *lists.lent(), self._free, len(self._free) // 2, pool._table, self._count, who)
            self._count = seat.free
            seat.raised(call="leave")
            pool._figures.pop(pilot, None)

    def calculate(self, pilot: int, book: Bytes, fit: Bytes) -> Figures:
        """The pilot's fit over the book; what the other pilots have stays as it was."""
        return self._pool.calculate(pilot, book, fit)

    def figures(self, pilot: int) -> Optional[Figures]:
        """A pilot's last result since it was admitted, if it was not refused."""
        return self._pool.figures(pilot)


# ---- an organiser's rules


class Rule(NamedTuple):
    """A line of an organiser's table, made by points, most, forbidden or total. Lines ascend strictly by kind, then by id."""

    kind: int
    id: int
    number: int


def points(of: int, points: int) -> Rule:
    """What one piece of a type costs, at most 65,535; a type without a line costs 0."""
    return Rule(0, of, points)


def most(group: int, pieces: int) -> Rule:
    """At most so many pieces in a group; a group without a line has no cap."""
    return Rule(1, group, pieces)


def forbidden(group: int) -> Rule:
    """No piece in a group."""
    return Rule(2, group, 0)


def total(points: int) -> Rule:
    """At most so many points in all."""
    return Rule(3, 0, points)


class Verdict(NamedTuple):
    """Allowed; or the first broken line, from 0, and what it counted: the pieces in its group, or the points of all."""

    allowed: bool
    line: Optional[int]
    count: Optional[int]


def _verdict(checked: Any, files: bool) -> Verdict:
    checked.raised(files=files)
    return Verdict(True, None, None) if checked.allowed else Verdict(False, checked.line, checked.count)


def check_rules(rules: Iterable[Rule], sheet: Bytes) -> Verdict:
    """Holds a sheet against an organiser's table. The engine is not run."""
    return _verdict(_call("dogma_check_rules", *_packed("IiI", rules, "a rule"), *_read(_bytes(sheet))), False)


def check_rules_files(rules: Iterable[Rule], book: Bytes, fit: Bytes) -> Verdict:
    """Holds a book and a fit against an organiser's table."""
    lines = _packed("IiI", rules, "a rule")
    return _verdict(_call("dogma_check_rules_files", *lines, *_read(_bytes(book)), *_read(_bytes(fit))), True)


# ---- the ten tables


class Attribute(NamedTuple):
    """Table 1. Flags: 1 stackable, 2 high is good."""

    id: int
    flags: int = 0
    default: float = 0.0
    min: int = 0
    max: int = 0


class Effect(NamedTuple):
    """Table 2; first and count are in table 3."""

    id: int
    category: int
    resistance: int = 0
    usage_chance: int = 0
    first: int = 0
    count: int = 0


class Modifier(NamedTuple):
    """Table 3."""

    func: int
    domain: int
    operation: int
    modifying: int
    modified: int
    skill: int = 0
    group: int = 0


class TypeEffect(NamedTuple):
    """Table 4."""

    type: int
    effect: int
    default: int = 0


class BuffCollection(NamedTuple):
    """Table 5; first and count are in table 3."""

    id: int
    operation: int
    first: int = 0
    count: int = 0


class Object(NamedTuple):
    """Table 6; bases are in table 7, abilities and side effects in table 8. Flags: 1 abilities are given, 2 mutated."""

    kind: int
    type: int = 0
    group: int = 0
    category: int = 0
    slot: int = 0
    quantity: int = 1
    state: int = 0
    max_state: int = 0
    flags: int = 0
    mutation_base: int = 0
    projected_effect: int = 0
    first_base: int = 0
    base_count: int = 0
    first_ability: int = 0
    ability_count: int = 0
    first_side_effect: int = 0
    side_effect_count: int = 0


class Base(NamedTuple):
    """Table 7: a base attribute."""

    attribute: int
    value: float


class Buff(NamedTuple):
    """Table 9: a projected buff."""

    buff: int
    value: float


class Ask(NamedTuple):
    """Table 10: an attribute that is to be calculated first."""

    object: int
    attribute: int


def _packed(form: str, records: Iterable[Sequence[Any]], what: str) -> Tuple[Any, int]:
    """Records as a column that is lent: aligned, and never a null pointer."""
    parts = []
    for record in records:
        try:
            parts.append(struct.pack("=" + form, *record))
        except struct.error as error:
            raise ValueError(f"{what} cannot be {tuple(record)}: {error}") from error
    data = b"".join(parts)
    column = (ctypes.c_double * (len(data) // 8 + 1))()
    ctypes.memmove(column, data, len(data))
    return column, len(parts)


_SHEET, _BOOK, _FIT = 100, 52, 48
# of each table the form of a record in the bytes: its float stands where it stands there
_RECORDS = ["<iIdii", "<iIiiII", "<IIIiiii", "<iiI", "<iIII", "<IiiiIIIIIiiIIIIII", "<id", "<i", "<id", "<Ii"]
_RECORD_TYPES: List[Callable[..., Any]] = [Attribute, Effect, Modifier, TypeEffect, BuffCollection, Object, Base, int, Buff, Ask]
_NAMES = ["attributes", "effects", "modifiers", "type_effects", "buff_collections", "objects", "bases", "ids", "buffs", "asks"]


class Tables:
    """The ten tables of a sheet as lists of named tuples, for who lays out records himself; Book and Fit make them by name."""

    def __init__(self, categories: Tuple[int, int, int] = (7, 32, 66), depth: int = 256, recording: int = 0, **tables: Iterable[Any]) -> None:
        self.categories = categories
        self.depth = depth
        self.recording = recording
        self.attributes: List[Attribute] = []
        self.effects: List[Effect] = []
        self.modifiers: List[Modifier] = []
        self.type_effects: List[TypeEffect] = []
        self.buff_collections: List[BuffCollection] = []
        self.objects: List[Object] = []
        self.bases: List[Base] = []
        self.ids: List[int] = []
        self.buffs: List[Buff] = []
        self.asks: List[Ask] = []
        for name, records in tables.items():
            if name not in _NAMES:
                raise TypeError(f"there is no table {name}; there are {', '.join(_NAMES)}")
            of = _RECORD_TYPES[_NAMES.index(name)]
            # a plain tuple is taken for the record that it has the fields of
            setattr(self, name, [record if not isinstance(record, tuple) else of(*record) for record in records])

    def __eq__(self, other: object) -> bool:
        return isinstance(other, Tables) and vars(self) == vars(other)

    def _book_columns(self) -> List[Any]:
        columns = [
            _packed("iIii", ((a.id, a.flags, a.min, a.max) for a in self.attributes), "an attribute"),
            _packed("d", ((a.default,) for a in self.attributes), "a default"),
            _packed("iIiiII", self.effects, "an effect"),
            _packed("IIIiiii", self.modifiers, "a modifier"),
            _packed("iiI", self.type_effects, "a type effect"),
            _packed("iIII", self.buff_collections, "a buff collection"),
        ]
        return [part for column in columns for part in column]

    def _fit_columns(self) -> List[Any]:
        columns = [
            _packed("IiiiIIIIIiiIIIIII", self.objects, "an object"),
            _packed("i", ((base.attribute,) for base in self.bases), "a base attribute"),
            _packed("d", ((base.value,) for base in self.bases), "a base value"),
            _packed("i", ((number,) for number in self.ids), "an id"),
            _packed("i", ((buff.buff,) for buff in self.buffs), "a buff"),
            _packed("d", ((buff.value,) for buff in self.buffs), "a buff's value"),
            _packed("Ii", self.asks, "an ask"),
        ]
        return [part for column in columns for part in column]

    def _length(self, tables: range) -> int:
        return sum(struct.calcsize(_RECORDS[at]) * len(getattr(self, _NAMES[at])) for at in tables)

    def _written(self, function: str, length: int, form: str, header: Sequence[int], columns: List[Any], files: bool, room: Optional[int]) -> bytes:
        length = length if room is None else _u32(room, "the room")
        data = ctypes.create_string_buffer(length + 1)
        answer = _call(function, data, length, _packed(form, [header], "the header")[0], *columns)
        answer.raised(files=files)
        return data.raw[:answer.length]

    def write_sheet(self, room: Optional[int] = None) -> bytes:
        """The sheet's bytes. What is refused is just what reading the sheet would refuse with SHAPE. `room`: the most bytes that it may have."""
        header = (*self.categories, self.depth, int(self.recording))
        columns = [*self._book_columns(), *self._fit_columns()]
        return self._written("dogma_write_sheet", _SHEET + self._length(range(10)), "iiiII", header, columns, False, room)

    def write_book(self, room: Optional[int] = None) -> bytes:
        """The book's file: tables 1 to 5."""
        return self._written("dogma_write_book", _BOOK + self._length(range(5)), "iii", self.categories, self._book_columns(), True, room)

    def write_fit(self, room: Optional[int] = None) -> bytes:
        """The fit's file: tables 6 to 10."""
        header = (self.depth, int(self.recording))
        return self._written("dogma_write_fit", _FIT + self._length(range(5, 10)), "II", header, self._fit_columns(), True, room)


def read_sheet(sheet: Bytes) -> Tables:
    """A sheet's bytes as tables, or the refusal that the engine has for them. Written again they are the same bytes."""
    data = _bytes(sheet)
    header_bad = _refused(Number.SHAPE, 0)
    if len(data) < _SHEET:
        raise header_bad
    *places, module, subsystem, structure_module, depth, recording = struct.unpack_from("<20IiiiII", data)
    tables, at = Tables((module, subsystem, structure_module), depth, recording), _SHEET
    for name, form, of, count, offset in zip(_NAMES, _RECORDS, _RECORD_TYPES, places[::2], places[1::2]):
        end = at + struct.calcsize(form) * count
        if offset != at or end > len(data):
            raise header_bad
        setattr(tables, name, [of(*record) for record in struct.iter_unpack(form, data[at:end])])
        at = end
    # the library itself judges the tables, by writing them; what is not the same then is in the header
    if at != len(data) or tables.write_sheet() != data:
        raise header_bad
    return tables


# ---- sheets from nothing, by name

OWN = object()
"""As a modifier's skill: the type that has the effect."""


class _Record:
    """A record of a book that has modifiers."""

    def __init__(self, book: Book, operation: int, **fields: Any) -> None:
        self._book = book
        self._operation = operation
        self._modifiers: List[Tuple[Any, ...]] = []
        self.fields = fields

    def _add(self, func: int, domain: int, operation: int, modifying: Optional[str], modified: str, skill: Any, group: int) -> None:
        if (skill is not None) != (func in (Func.LOCATION_REQUIRED_SKILL, Func.OWNER_REQUIRED_SKILL)):
            raise ValueError(f"{Func(func).name} goes {'without' if skill is not None else 'by'} a skill")
        self._modifiers.append((func, domain, operation, modifying, modified, skill, group))

    def _rows(self) -> Iterator[Modifier]:
        for func, domain, operation, modifying, modified, skill, group in self._modifiers:
            number = 0 if skill is None else -1 if skill is OWN else self._book._types_named(skill)["id"]
            strength = 0 if modifying is None else self._book.attribute_id(modifying)
            yield Modifier(func, domain, operation, strength, self._book.attribute_id(modified), number, group)


class EffectRecord(_Record):
    """An effect of a book."""

    def modifier(self, func: Func, domain: Domain, operation: Operator, modifying: str, modified: str, *, skill: Any = None, group: int = 0) -> EffectRecord:
        """One attribute of the source changes another, of those whom func and domain mean; skill is a type's name, or OWN."""
        self._add(func, domain, operation, modifying, modified, skill, group)
        return self


class BuffRecord(_Record):
    """A buff of a book."""

    def modifier(self, func: Func, modified: str, *, skill: Any = None, group: int = 0) -> BuffRecord:
        """An attribute that it changes, of those whom func means, from the ship on."""
        self._add(func, Domain.SHIP, self._operation, None, modified, skill, group)
        return self


def _found(records: Mapping[str, Any], what: str, name: str) -> Any:
    if name not in records:
        raise UnknownName(f'the book has no {what} of the name "{name}"')
    return records[name]


class Book:
    """The game's records that a fit needs, by the names that you give them, in any order. One book serves many fits."""

    def __init__(self, categories: Tuple[int, int, int] = (7, 32, 66)) -> None:
        self._categories = categories
        self._attributes: Dict[str, Dict[str, Any]] = {}
        self._effects: Dict[str, EffectRecord] = {}
        self._types: Dict[str, Dict[str, Any]] = {}
        self._buffs: Dict[str, BuffRecord] = {}

    def attribute(self, name: str, id: int, *, stackable: bool = False, high_is_good: bool = False, default: float = 0.0,
                  at_least: Optional[str] = None, at_most: Optional[str] = None) -> None:
        """An attribute; `at_least` and `at_most` are attributes of the same object that it is never below, or above."""
        self._attributes[name] = {"id": id, "flags": int(stackable) + 2 * int(high_is_good), "default": default, "min": at_least, "max": at_most}

    def effect(self, name: str, id: int, category: Category, *, resisted_by: Optional[str] = None, usage_chance: Optional[str] = None) -> EffectRecord:
        """An effect, without modifiers yet; one with a usage chance is a side effect, and runs only in an object that names it."""
        self._effects[name] = EffectRecord(self, 0, id=id, category=category, resistance=resisted_by, usage_chance=usage_chance)
        return self._effects[name]

    def type_of(self, name: str, id: int, *, group: int = 0, category: int = 0, effects: Sequence[str] = (), default_effects: Sequence[str] = ()) -> None:
        """A type; the default effects, behind the others, are a fighter's abilities that run where the fit names none."""
        self._types[name] = {"id": id, "group": group, "category": category, "effects": [(e, 0) for e in effects] + [(e, 1) for e in default_effects]}

    def buff(self, name: str, id: int, operation: Operator) -> BuffRecord:
        """A buff, and what its strength does."""
        self._buffs[name] = BuffRecord(self, operation, id=id)
        return self._buffs[name]

    def attribute_id(self, name: str) -> int:
        """The id of an attribute, to find its rows by."""
        return _found(self._attributes, "attribute", name)["id"]

    def write_book(self) -> bytes:
        """The book's file, for several pilots."""
        return self._tables().write_book()

    def _types_named(self, name: str) -> Dict[str, Any]:
        return _found(self._types, "type", name)

    def _effect_id(self, name: str) -> int:
        return _found(self._effects, "effect", name).fields["id"]

    def _optional(self, name: Optional[str]) -> int:
        return 0 if name is None else self.attribute_id(name)

    def _lay(self, record: _Record, tables: Tables) -> Tuple[int, int]:
        first = len(tables.modifiers)
        tables.modifiers += record._rows()
        return first, len(tables.modifiers) - first

    def _tables(self) -> Tables:
        """Tables 1 to 5, in order, with firsts and counts."""
        tables = Tables(self._categories)
        for a in sorted(self._attributes.values(), key=lambda a: a["id"]):
            tables.attributes.append(Attribute(a["id"], a["flags"], a["default"], self._optional(a["min"]), self._optional(a["max"])))
        for effect in sorted(self._effects.values(), key=lambda record: record.fields["id"]):
            f = effect.fields
            limits = (self._optional(f["resistance"]), self._optional(f["usage_chance"]))
            tables.effects.append(Effect(f["id"], f["category"], *limits, *self._lay(effect, tables)))
        for t in sorted(self._types.values(), key=lambda t: t["id"]):
            tables.type_effects += [TypeEffect(t["id"], self._effect_id(name), default) for name, default in t["effects"]]
        for buff in sorted(self._buffs.values(), key=lambda record: record.fields["id"]):
            tables.buff_collections.append(BuffCollection(buff.fields["id"], buff._operation, *self._lay(buff, tables)))
        return tables


class Thing:
    """An object of a fit, as the fit's functions give it back."""

    def __init__(self, kind: Kind, type_of: Optional[str], slot: int, projected_effect: Optional[str], *, quantity: int = 1,
                 state: Optional[State] = None, max_state: Optional[State] = None, bases: Optional[Mapping[str, float]] = None,
                 mutated_from: Optional[str] = None, abilities: Optional[Sequence[str]] = None, side_effects: Sequence[str] = ()) -> None:
        own = State.ACTIVE
        if kind == Kind.PROJECTED:
            own = State.ALWAYS_ON
        elif kind == Kind.ITEM and slot not in (Slot.DRONE_BAY, Slot.FIGHTER_TUBE):
            own = State.PASSIVE  # collection raises an item's max state by its effects
        self.kind, self.type_of, self.slot, self.projected_effect, self.quantity = kind, type_of, slot, projected_effect, quantity
        self.state = own if state is None else state
        self.max_state = own if max_state is None else max_state
        self.bases = dict(bases or {})
        self.mutated_from, self.abilities, self.side_effects = mutated_from, abilities, side_effects
        self.loaded: Optional[Thing] = None

    def charge(self, type_of: str, **fields: Any) -> Thing:
        """The charge in this item; in the result its number is one more than the item's."""
        self.loaded = Thing(Kind.CHARGE, type_of, 0, None, **fields)
        return self.loaded


class Fit:
    """One pilot's ship: objects by kind, in any order; they are put in order when they are written.

    Each takes quantity (1), state, max_state, bases (values of attributes by name), mutated_from, abilities (that run, by effect; an empty
    list is not the same as none) and side_effects. What the game gives stands where a state is not given: ships, modes, chars, charges,
    skills, drones and fighters in tubes are ACTIVE, what is projected is ALWAYS_ON, other items are PASSIVE.
    """

    def __init__(self, depth: int = 256, recording: bool = False) -> None:
        self.depth = depth
        self.recording = recording
        self._things: List[Thing] = []
        self._buffs: List[Tuple[str, float]] = []
        self._asks: List[Tuple[Thing, str]] = []

    def _push(self, kind: Kind, type_of: str, fields: Mapping[str, Any], slot: int = 0, effect: Optional[str] = None) -> Thing:
        self._things.append(Thing(kind, type_of, slot, effect, **fields))
        return self._things[-1]

    def ship(self, type_of: str, **fields: Any) -> Thing:
        """The ship. There is one."""
        return self._push(Kind.SHIP, type_of, fields)

    def mode(self, type_of: str, **fields: Any) -> Thing:
        """The ship's mode; at most one."""
        return self._push(Kind.MODE, type_of, fields)

    def character(self, type_of: str, **fields: Any) -> Thing:
        """The pilot; at most one. Where none is given a char of type 0 without attributes stands for it."""
        return self._push(Kind.CHAR, type_of, fields)

    def item(self, type_of: str, slot: Slot, **fields: Any) -> Thing:
        """A module, drone, fighter, implant or booster."""
        return self._push(Kind.ITEM, type_of, fields, slot)

    def skill(self, type_of: str, **fields: Any) -> Thing:
        """A skill; its level is the base of an attribute, the game's 280."""
        return self._push(Kind.SKILL, type_of, fields)

    def projected(self, type_of: str, effect: str, **fields: Any) -> Thing:
        """What is aimed at the ship: an object and the effect that it does."""
        return self._push(Kind.PROJECTED, type_of, fields, 0, effect)

    def projected_buff(self, buff: str, value: float) -> None:
        """A buff on the ship, and its strength."""
        self._buffs.append((buff, value))

    def ask(self, thing: Thing, attribute: str) -> None:
        """An attribute that is to be calculated first: it matters only where an attribute leads back to itself, or depth is short."""
        self._asks.append((thing, attribute))

    def number_of(self, thing: Thing) -> int:
        """The object's number in the result, as the fit stands now."""
        for number, there in enumerate(self._in_order()):
            if there is thing:
                return number
        raise ValueError("no object of this fit")

    def tables(self, book: Book) -> Tables:
        """The ten tables."""
        tables = book._tables()
        tables.depth, tables.recording = self.depth, int(self.recording)
        order = self._in_order()
        laid: Dict[Tuple[str, ...], int] = {}
        for thing in order:
            tables.objects.append(self._row(thing, book, tables, laid))
        tables.buffs = [Buff(_found(book._buffs, "buff", name).fields["id"], value) for name, value in self._buffs]
        for thing, attribute in self._asks:
            # one of another fit is none of this: SHAPE refuses it
            number = next((at for at, there in enumerate(order) if there is thing), MOST_ROWS)
            tables.asks.append(Ask(number, book.attribute_id(attribute)))
        return tables

    def write_sheet(self, book: Book) -> bytes:
        """The sheet's bytes."""
        return self.tables(book).write_sheet()

    def write_fit(self, book: Book) -> bytes:
        """The fit's file, for one of several pilots over this book."""
        return self.tables(book).write_fit()

    def _in_order(self) -> List[Thing]:
        order: List[Thing] = []
        for kind in (Kind.SHIP, Kind.MODE, Kind.CHAR, Kind.PROJECTED, Kind.ITEM, Kind.SKILL):
            own = [thing for thing in self._things if thing.kind == kind]
            if kind == Kind.CHAR and not own:
                own = [Thing(Kind.CHAR, None, 0, None)]
            for thing in own:
                order += [thing] if thing.loaded is None else [thing, thing.loaded]
        return order

    def _row(self, thing: Thing, book: Book, tables: Tables, laid: Dict[Tuple[str, ...], int]) -> Object:
        own = {"id": 0, "group": 0, "category": 0} if thing.type_of is None else book._types_named(thing.type_of)
        bases = sorted(Base(book.attribute_id(name), float(value)) for name, value in thing.bases.items())
        # what stands already, to the bit, is taken again
        key = tuple(repr(base) for base in bases)
        if key not in laid:
            laid[key] = _laid(tables.bases, bases)[0]
        abilities = _laid(tables.ids, [book._effect_id(name) for name in thing.abilities or ()])
        side_effects = _laid(tables.ids, [book._effect_id(name) for name in thing.side_effects])
        mutated = 0 if thing.mutated_from is None else book._types_named(thing.mutated_from)["id"]
        effect = 0 if thing.projected_effect is None else book._effect_id(thing.projected_effect)
        flags = int(thing.abilities is not None) + 2 * int(thing.mutated_from is not None)
        return Object(thing.kind, own["id"], own["group"], own["category"], thing.slot, thing.quantity, thing.state, thing.max_state, flags, mutated,
                      effect, laid[key], len(bases), *abilities, *side_effects)


def _laid(table: List[Any], own: List[Any]) -> Tuple[int, int]:
    """Records laid behind those before; first and count."""
    table += own
    return (len(table) - len(own), len(own)) if own else (0, 0)


# ---- the command


def shown(value: float) -> str:
    """A value as the program `sheet` prints it: the nearest hundredth of the exact value, halves away from zero; * from 10^12 on."""
    if abs(value) >= 1e12:
        return "*"
    hundredths = decimal.Decimal(value).quantize(decimal.Decimal("0.01"), rounding=decimal.ROUND_HALF_UP)
    if abs(hundredths) >= 10**12:
        return "*"
    return str(abs(hundredths) if hundredths == 0 else hundredths)


def _print_table(figures: Figures) -> None:
    lines = [("object", "attribute", "base", "value")]
    lines += [(str(row.object), str(row.attribute), shown(row.base), shown(row.value)) for row in figures.rows]
    widths = [max(len(line[at]) for line in lines) for at in range(4)]
    for line in lines:
        print("  ".join(word.rjust(width) for word, width in zip(line, widths)))


def main(words: Sequence[str]) -> int:
    """`python3 -m dogma [--csv] SHEET`: a sheet's figures as a table, or as comma-separated text."""
    csv = list(words[:1]) == ["--csv"]
    if len(words) != 1 + csv or words[-1].startswith("-"):
        print("usage: python3 -m dogma [--csv] SHEET", file=sys.stderr)
        return 2
    try:
        sheet = pathlib.Path(words[-1]).read_bytes()
        if csv:
            sys.stdout.buffer.write(export(sheet).encode("ascii"))
        else:
            _print_table(calculate(sheet))
    except Refused as refusal:
        print(f"refused {refusal.number} {refusal.place}: {refusal}", file=sys.stderr)
        return 1
    except OSError as error:
        print(error, file=sys.stderr)
        return 2
    return 0


if __name__ == "__main__":
    sys.exit(main(sys.argv[1:]))
