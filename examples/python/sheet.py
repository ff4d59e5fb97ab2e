"""Calculates a sheet from a file and prints it: every attribute's value, or the refusal."""
import pathlib
import sys

import dogma


def main(file):
    # as much room as the program `sheet` has, so that it refuses what that one refuses; dogma.calculate would grow
    engine = dogma.Engine(rooms=dogma.Rooms.all(4096), most=dogma.Rooms.all(4096))
    try:
        figures = engine.calculate(pathlib.Path(file).read_bytes())
    except dogma.Refused as refusal:
        print("refused", refusal.number, refusal.place)
        print(refusal, file=sys.stderr)
        return 1
    print("rows", len(figures.rows))
    for row in figures.rows:
        print(row.object, row.attribute, dogma.shown(row.value))
    return 0


if __name__ == "__main__":
    if len(sys.argv) == 2:
        sys.exit(main(sys.argv[1]))
    # several sheets: each beside the text of the same name, for the tests
    import contextlib
    import io

    for file in sys.argv[1:]:
        said = io.StringIO()
        with contextlib.redirect_stdout(said), contextlib.redirect_stderr(io.StringIO()):
            main(file)
        if said.getvalue() != pathlib.Path(file).with_suffix(".txt").read_text():
            sys.exit(f"sheet.py differs on {file}")
