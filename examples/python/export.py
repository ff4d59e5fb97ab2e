"""Writes a sheet's rows as a .csv file: export.py SHEET LABELS CSV. LABELS is text, a label to a line: ATTRIBUTE LABEL; ids ascend."""
import pathlib
import sys

import dogma


def main(sheet, labels, csv):
    pairs = [line.split(" ", 1) for line in pathlib.Path(labels).read_text().splitlines()]
    labels = [(int(attribute), label) for attribute, label in pairs]

    text = dogma.export(pathlib.Path(sheet).read_bytes(), labels)
    pathlib.Path(csv).write_bytes(text.encode("ascii"))


try:
    main(*sys.argv[1:])
except (dogma.Refused, ValueError) as error:
    sys.exit(str(error))
