"""A club's evening over a pool that is too small for all: evening.py BOOK FIT FIT FIT. Two pilots are admitted and calculated, a third
finds no run; the first leaves, the third is admitted where it sat and calculated; then all leave."""
import pathlib
import sys

import dogma

POOL = 10
SEAT = 4


def tell(hall, word, pilot, call):
    """Makes a call, and prints its answer and what is free after it."""
    try:
        call()
        answer = "0 0"
    except dogma.Refused as refusal:
        answer = f"{refusal.number} {refusal.place}"
    print(f"{word} {pilot}: {answer}, free" + "".join(f" {stretch}" for stretch in hall.free))


def admit(hall, pilot):
    tell(hall, "admit", pilot, lambda: hall.admit(pilot, SEAT))


def leave(hall, pilot):
    tell(hall, "leave", pilot, lambda: hall.leave(pilot))


def calculate(hall, pilot, book, fit):
    try:
        figures = hall.calculate(pilot, book, fit)
    except dogma.Refused as refusal:
        print(f"pilot {pilot}: {refusal.number} {refusal.place}")
        return
    print(f"pilot {pilot}: 0 0")
    for row in figures.rows:
        print(row.object, row.attribute, dogma.shown(row.value))


def main(book, one, two, three):
    hall = dogma.Hall(POOL)
    admit(hall, 0)
    admit(hall, 1)
    admit(hall, 2)
    calculate(hall, 0, book, one)
    calculate(hall, 1, book, two)
    leave(hall, 0)
    admit(hall, 2)
    calculate(hall, 2, book, three)
    leave(hall, 1)
    leave(hall, 2)
    leave(hall, 2)


main(*(pathlib.Path(file).read_bytes() for file in sys.argv[1:]))
