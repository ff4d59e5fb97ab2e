"""What the scripts share that put slips into a reference, one at a time, and say where each is seen."""
import pathlib
import sys
import types


def words(default):
    """The seed and how many cases: SEED [COUNT]."""
    return sys.argv[1] if len(sys.argv) > 1 else "5", int(sys.argv[2]) if len(sys.argv) > 2 else default


def slipped(reference, name, old, new):
    """A reference's module with one text of it replaced, which must stand there once."""
    source = pathlib.Path(reference.__file__).read_text()
    if source.count(old) != 1:
        sys.exit(f"{name}: the text stands {source.count(old)} times")
    module = types.ModuleType("slipped")
    module.__dict__["__file__"] = reference.__file__
    exec(compile(source.replace(old, new), name, "exec"), module.__dict__)
    return module


def report(slips, reference, what, cases, answer):
    """Says of each slip the first case on which it shows; ends with 1 where one does not. A slip that makes the reference fall over shows."""
    right, unseen = [answer(reference, case) for case in cases], 0
    for name, old, new in slips:
        module = slipped(reference, name, old, new)
        first = next((n for n, case in enumerate(cases) if not same(module, case, right[n], answer)), None)
        unseen += first is None
        print(f"{name}: " + ("NOT SEEN" if first is None else f"{what} {first}"), flush=True)
    print(f"{len(slips)} slips, {unseen} not seen in {len(cases):,} {what}s")
    sys.exit(unseen > 0)


def same(module, case, right, answer):
    try:
        return answer(module, case) == right
    except Exception:
        return False
