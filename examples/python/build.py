"""A hull and two modules, from nothing to figures: build.py [SHEET BOOK FIT] writes the bytes too."""
import pathlib
import sys

import dogma
from dogma import Category, Domain, Func, Operator, Slot, State


def a_book():
    """The game's records: what the hull and the modules have, and how a module makes the hull faster."""
    book = dogma.Book()
    book.attribute("maxVelocity", 37, high_is_good=True)
    book.attribute("speedFactor", 20, high_is_good=True)
    boost = book.effect("boost", 1, Category.ONLINE)
    boost.modifier(Func.ITEM, Domain.SHIP, Operator.POST_PERCENT, "speedFactor", "maxVelocity")
    book.type_of("hull", 587)
    book.type_of("overdrive", 9, category=7, effects=["boost"])
    return book


def a_fit():
    """One pilot's ship."""
    fit = dogma.Fit()
    fit.ship("hull", bases={"maxVelocity": 200.0})
    fit.item("overdrive", Slot.LOW, state=State.ONLINE, bases={"speedFactor": 50.0})
    fit.item("overdrive", Slot.LOW, state=State.ONLINE, bases={"speedFactor": 50.0})
    return fit


def main(files):
    book, fit = a_book(), a_fit()
    sheet = fit.write_sheet(book)

    figures = dogma.calculate(sheet)
    print("rows", len(figures.rows))
    for row in figures.rows:
        print(row.object, row.attribute, dogma.shown(row.value))

    assert figures.value(0, book.attribute_id("maxVelocity")) > 430.0
    for file, data in zip(files, [sheet, book.write_book(), fit.write_fit(book)]):
        pathlib.Path(file).write_bytes(data)


main(sys.argv[1:])
