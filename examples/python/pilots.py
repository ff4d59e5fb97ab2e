"""Opens up to 16 fits over one book and prints each pilot's values, or the refusal: pilots.py BOOK FIT .."""
import pathlib
import sys

import dogma


def main(book, *fits):
    book = pathlib.Path(book).read_bytes()
    # each pilot has 256 rows of every list
    pool = dogma.Pool({pilot: dogma.Rooms.all(256) for pilot in range(len(fits))})
    refusals = {}
    for pilot, fit in enumerate(fits):
        try:
            pool.calculate(pilot, book, pathlib.Path(fit).read_bytes())
        except dogma.Refused as refusal:
            refusals[pilot] = refusal

    # all of them are in the pool side by side
    for pilot in range(len(fits)):
        print("pilot", pilot)
        if pilot in refusals:
            print("refused", refusals[pilot].number, refusals[pilot].place)
            print(f"pilot {pilot}: {refusals[pilot]}", file=sys.stderr)
            continue
        figures = pool.figures(pilot)
        print("rows", len(figures.rows))
        for row in figures.rows:
            print(row.object, row.attribute, dogma.shown(row.value))


main(*sys.argv[1:])
