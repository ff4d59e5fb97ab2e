"""Holds a fit against an organiser's rules, and says in words what is broken: rules.py RULES SHEET, or rules.py RULES BOOK FIT.

RULES is text, a rule to a line: points TYPE POINTS | most GROUP PIECES | forbidden GROUP | total POINTS; # begins a remark.
"""
import pathlib
import sys

import dogma

MAKE = {"points": dogma.points, "most": dogma.most, "forbidden": dogma.forbidden, "total": dogma.total}


def rules(text):
    lines = [line.split("#")[0].split() for line in text.splitlines()]
    return [MAKE[kind](*map(int, numbers)) for kind, *numbers in filter(None, lines)]


def broken(rule, count):
    if rule.kind == 3:
        return f"the fit costs {count} points, and {rule.number} are allowed"
    if rule.kind == 2:
        return f"group {rule.id} is forbidden, and the fit has {count} of it"
    return f"the fit has {count} of group {rule.id}, and {rule.number} are allowed"


def main(file, *files):
    table = rules(pathlib.Path(file).read_text())
    data = [pathlib.Path(name).read_bytes() for name in files]
    try:
        verdict = dogma.check_rules(table, *data) if len(data) == 1 else dogma.check_rules_files(table, *data)
    except dogma.Refused as refusal:
        print("refused", refusal.number, refusal.place)
        print(refusal, file=sys.stderr)
        return 1
    if verdict.allowed:
        print("allowed")
        return 0
    print(f"rule {verdict.line + 1} is broken: {broken(table[verdict.line], verdict.count)}")
    return 1


sys.exit(main(*sys.argv[1:]))
