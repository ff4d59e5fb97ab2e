#!/usr/bin/env python3
"""The marked examples of M-111: sheets, other planners' listings of them, and the answers, as files.

Usage: marked_checks.py: writes checks/ beside this file, sheets that stand nowhere else, listings, and checks.txt; each answer is the
reference's (oracle/checks.py), and is held to the one that the request's reading names. marked_checks.py --library: runs checks.txt
through the library by oracle/checks.c. A listing is text: object, attribute and the 16 hexadecimal digits of the value's bits, a line
each. checks.txt: `check`, a sheet, a listing, number and place.
"""
import pathlib
import subprocess
import sys

HERE = pathlib.Path(__file__).resolve().parent
PLACE = HERE / "checks"
sys.path.insert(0, str(HERE.parent / "oracle"))
import checks
import compare_engine
from marked import CHAR, PROJECTED, SHIP, attribute, modifier, sheet, thing

AMPLE = (100,) * 4


def idle_loop():
    """The ship's attributes 1 and 2 are each added to the other; the second effect is Active and the ship Passive."""
    return sheet((), [[1, 0, 0, 0, 0, 1], [2, 2, 0, 0, 1, 1]], [modifier(4, 0, 3, 2, 1), modifier(4, 0, 3, 1, 2)], [[8, 1, 0], [8, 2, 0]],
                 [thing(SHIP, 8, bases=(0, 2)), thing(CHAR)], [[1, 10.0], [2, 1.0]])


def idle_product(recording):
    """A Passive projected object's Active effect of 1e200 on the ship's 1, resisted by the ship's 5, which is 1e200."""
    return sheet([attribute(5)], [[1, 2, 5, 0, 0, 1]], [modifier(4, 5, 3, 20, 1)], (),
                 [thing(SHIP, bases=(0, 2)), thing(CHAR), thing(PROJECTED, quantity=1, bases=(2, 1), effect=1)],
                 [[1, 2.0], [5, 1e200], [20, 1e200]], recording=recording)


SHEETS = {
    "idle-loop": idle_loop(),
    "idle-product": idle_product(0),
    "idle-product-recorded": idle_product(1),
    "negative-zero": sheet(objects=[thing(SHIP, bases=(0, 1)), thing(CHAR)], bases=[[1, -0.0]]),
}
L = [(0, 37, 0x407ae5e350f2bada), (2, 20, 0x4049000000000000), (3, 20, 0x4049000000000000)]
LISTINGS = {
    "L": L, "L-two": L[:2], "L-doubled": L + L[2:], "L-swapped": [L[0], L[2], L[1]], "L-none": [],
    "L-51": [L[0], (2, 20, checks.bits_of(51.0)), L[2]], "L-bit": [(0, 37, L[0][2] ^ 1), *L[1:]], "L-two-bit": [(0, 37, L[0][2] ^ 1), L[1]],
    "L-infinite": [L[0], (2, 20, 0x7ff0000000000000), L[2]],
    "loop": [(0, 1, checks.bits_of(11.0)), (0, 2, checks.bits_of(1.0))],
    "product": [(0, 1, checks.bits_of(2.0)), (0, 5, checks.bits_of(1e200)), (2, 20, checks.bits_of(1e200))],
    "zero": [(0, 1, 0)], "negative-zero": [(0, 1, 1 << 63)],
}
CHECKS = [
    ("L", "L", 0, 0), ("L-depth-1", "L", 0, 0), ("L-asked", "L", 0, 0), ("grey-L-online", "L", 0, 0),
    ("L", "L-two", 15, 2), ("L", "L-two-bit", 15, 2), ("L", "L-doubled", 15, 3), ("L", "L-swapped", 15, 1), ("L", "L-none", 15, 0),
    ("L", "L-51", 15, 0), ("L", "L-bit", 15, 0), ("L", "L-infinite", 15, 0),
    ("idle-loop", "loop", 10, 0), ("idle-loop", "L-none", 10, 0), ("loop-walked", "L", 10, 0),
    ("idle-product-recorded", "product", 15, 0), ("idle-product", "product", 0, 0),
    ("negative-zero", "zero", 15, 0), ("negative-zero", "negative-zero", 0, 0),
    ("written-empty", "L-none", 0, 0), ("written-empty", "zero", 15, 0), ("divided-by-0", "L", 15, 0),
    ("refused-1", "L", 1, 0), ("refused-1-6", "L", 1, 6), ("refused-2", "L", 2, 0), ("refused-3", "L", 3, 0), ("refused-4", "L", 4, 0),
    ("refused-5", "L", 5, 0), ("refused-6", "L", 6, 0), ("refused-7", "L", 7, 2),
]


def made(name):
    return SHEETS[name] if name in SHEETS else (HERE / f"{name}.sheet").read_bytes()


def listing_text(lines):
    return "".join(f"{number} {attribute_id} {bits:016x}\n" for number, attribute_id, bits in lines)


def write():
    PLACE.mkdir(exist_ok=True)
    for name, data in SHEETS.items():
        (PLACE / f"{name}.sheet").write_bytes(data)
    for name, lines in LISTINGS.items():
        (PLACE / f"{name}.listing").write_text(listing_text(lines))
    out = ["# Made by cases/marked_checks.py, which says how it is read."]
    for name, listing, *answer in CHECKS:
        found = checks.checked(made(name), AMPLE, LISTINGS[listing])
        if [found.number, found.place] != answer:
            sys.exit(f"{name} {listing}: the reference has {found.number} {found.place}, not {answer}")
        out.append(f"check {'checks/' if name in SHEETS else ''}{name}.sheet checks/{listing}.listing {' '.join(map(str, answer))}")
    (PLACE / "checks.txt").write_text("\n".join(out) + "\n")
    print(len(CHECKS), "checks")


def read_listing(text):
    return [(int(number), int(attribute_id), int(bits, 16)) for number, attribute_id, bits in map(str.split, text.splitlines())]


def read():
    """Sheet, lines and the whole answer's text of each check of checks.txt."""
    for text in (PLACE / "checks.txt").read_text().splitlines()[1:]:
        _, name, listing, number, place = text.split()
        data, lines = (HERE / name).read_bytes(), read_listing((HERE / listing).read_text())
        answer = checks.checked(data, AMPLE, lines)
        assert [answer.number, answer.place] == [int(number), int(place)], text
        yield text, data, lines, checks.text(answer).encode()


def run():
    calls = list(read())
    blob = b"".join(checks.driven(data, (100,) * 9, lines, at) for at, (_, data, lines, _) in enumerate(calls))
    out = subprocess.run(compare_engine.build(False, "checks.c"), input=blob, stdout=subprocess.PIPE, check=True).stdout
    found = compare_engine.split(out, len(calls), "the engine")
    bad = [f"{text}: found {got.splitlines()[0].decode()}" for (text, _, _, wanted), got in zip(calls, found) if got != wanted]
    print("\n".join([*bad, f"{len(calls)} checks of checks.txt, {len(bad)} differ"]))
    sys.exit(bool(bad))


if __name__ == "__main__":
    run() if sys.argv[1:] == ["--library"] else write()
