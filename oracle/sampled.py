#!/usr/bin/env python3
"""Writes theorems that the definition in crates/rules gives what the reference gives, for sheets made from a seed.

Usage: sampled.py CRATES SEED FILES WANTED ..: into CRATES/rules/proofs of a scratch copy, never of this repository.
Each sheet has lent lengths of its own; the number, the place, the counts, all columns, the states and the listing
are compared, and where nothing is refused what each attribute needs, and the values without memory.
"""
import pathlib
import random
import re
import struct
import sys

import make_sheets
import reference

COLUMNS = ["collected", "collectedValues", "rows", "bases", "values", "entries", "entryValues", "plain", "sources", "sourceFloats"]
# the columns of each list, in the order of the reference's rooms
LISTS = [("collected", [0, 1]), ("rows", [2, 3, 4]), ("entries", [5, 6]), ("plain", [7]), ("sources", [8, 9])]
IEEE = ["ofBits", "toBits", "toSigned", "ofInt", "add", "sub", "mul", "div", "neg", "lt"]


def u32(x):
    return x & 0xffffffff


def u64(x):
    return struct.unpack("<Q", struct.pack("<d", x))[0]


def lengths(kind, seed, n, data):
    """Lent lengths by what a run with ample room needs: more or just enough; for four sheets of five some lists may be short."""
    r = random.Random(f"lent {kind} {seed} {n}")
    full = reference.answer(data)
    if full.number != 0:
        few = n % 5 != 0 and r.random() < 0.2
        lent = [r.choice([0, 1, 2, 5]) if few else r.choice([60, 80, 100]) for _ in range(10)]
        if n % 5 > 2:  # a list is full when the refusal is met
            at = r.randrange(5)
            for c in LISTS[at][1]:
                lent[c] = full.reached[at]
        return lent
    short = r.choice([[], [], [r.randrange(5)], [1, 2]]) if n % 5 != 0 else []
    lent = [0] * 10
    for at, (name, columns) in enumerate(LISTS):
        need = len(getattr(full, name))
        for c in columns:
            lent[c] = need + r.choice([0, 0, 1, 2])
        if at in short:
            lent[r.choice(columns)] = r.choice([max(0, need - 1), r.randint(0, need), r.randint(need // 2, need)])
    if short == [1, 2] and full.before_hits:  # both lists are full before the same hit
        lent[r.randint(2, 4)], lent[r.randint(5, 6)] = r.choice(full.before_hits)
    return lent


def rooms(lent):
    return tuple(min(lent[c] for c in columns) for _, columns in LISTS)


def padded(rows, width, n):
    return rows + [[0] * width] * (n - len(rows))


def expected(answer, lent):
    """The columns as lists of lists of numbers, as `dump` gives them."""
    numbers = lambda rows: [list(map(u32, row[0])) for row in rows]
    floats = lambda rows, at: [[u64(row[1][at])] for row in rows]
    both = lambda rows: [list(map(u64, row[1])) for row in rows]
    counts = [len(getattr(answer, name)) for name in ("collected", "rows", "entries", "plain", "sources")]
    return [
        [[answer.number, answer.place] + counts],
        padded(numbers(answer.collected), 14, lent[0]), padded(floats(answer.collected, 0), 1, lent[1]),
        padded(numbers(answer.rows), 6, lent[2]), padded(floats(answer.rows, 0), 1, lent[3]), padded(floats(answer.rows, 1), 1, lent[4]),
        padded(numbers(answer.entries), 12, lent[5]), padded(floats(answer.entries, 0), 1, lent[6]),
        padded([list(map(u32, p)) for p in answer.plain], 2, lent[7]),
        padded(numbers(answer.sources), 11, lent[8]), padded(both(answer.sources), 2, lent[9]),
        answer.states + [[1024 - len(answer.states)]],
        [list(reference.listing(answer).encode())],
    ]


# ---- the memoryless definition

def needs(data, answer):
    """What each row needs directly: sources with their resistances, then the limits; keys are object and attribute."""
    limits = {r[0]: r[3:5] for r in reference.tables_of(data)[0]}
    found = {}
    for (number, attribute, first, count, _, _), _ in answer.rows:
        keys = []
        for entry, _ in answer.entries[first:first + count]:
            if entry[0] == 0:
                keys.append((entry[2], entry[4]))
                if entry[9]:
                    keys.append((0, entry[10]))
        keys += [(number, limit) for limit in limits.get(attribute, ()) if limit != 0]
        found[number, attribute] = keys
    return found


def tree(key, graph, most):
    """How many calculations the key takes without memory, or none where that is more than most, or endless."""
    total, todo = 0, [(key, 0)]
    while todo:
        at, deep = todo.pop()
        if at in graph:
            total += 1
            if total > most or deep > len(graph):
                return None
            todo += [(k, deep + 1) for k in graph[at]]
    return total


def listed(values):
    return " ∷ ".join([*map(str, values), "[]"])


def nested(rows):
    return " ∷ ".join(["(" + listed(row) + ")" for row in rows] + ["[]"])


DUMP = """-- Every column of a run as lists of numbers, floats by their bits.
use Prim.Native.Nat.{ℕ, _+_}
use mathlib.Core.List.{List, [], _∷_, _++_, map}
use mathlib.Core.Bool.{cond}
use lib.ListN.{length, take, drop}
use lib.Dec.{eqb}
use lib.Ieee.{Float, binary64, toBits}
use Rattle·rules·specs.specs.Answer.{Res, ok, refused, number, place, answerOf}
use Rattle·rules·specs.specs.Outcome.{Done, Lent, worldOf}
use Rattle·rules·specs.specs.Listing.{listing}
use Rattle·rules·specs.specs.Bytes.{bits, pairsOf}
use Rattle·rules·specs.specs.Sheet.{bookOf, fitOf}
use Rattle·rules·specs.specs.Dispatch.{Key}
use Rattle·rules·specs.specs.Value.{World}
use Rattle·rules·specs.specs.Fresh.{fresh, needsAt}
use Rattle·rules·specs.specs.Columns.{countsOf, collectedColumn, collectedValueColumn, rowColumn, baseColumn, valueColumn, entryColumn, entryValueColumn, plainColumn, sourceColumn, sourceFloatColumn, stateColumn, stateList}

abbrev floats : List Float → List (List ℕ)
floats l = map (λ x. toBits binary64 x ∷ []) l

abbrev total : List ℕ → ℕ
total [] = 0
total (n ∷ r) = n + total r

-- how many rows of zeros there are
abbrev zeros : List (List ℕ) → ℕ
zeros [] = 0
zeros (x ∷ r) = cond (eqb (total x) 0) 1 0 + zeros r

unfoldable pub dump : Lent → Res Done → List (List (List ℕ))
dump l r =
    ((number (answerOf r) ∷ place (answerOf r) ∷ countsOf r .collected ∷ countsOf r .rows ∷ countsOf r .entries ∷ countsOf r .plain ∷ countsOf r .sources ∷ []) ∷ [])
    ∷ collectedColumn r (l .collected) ∷ floats (collectedValueColumn r (l .collectedValues))
    ∷ rowColumn r (l .rows) ∷ floats (baseColumn r (l .bases)) ∷ floats (valueColumn r (l .values))
    ∷ entryColumn r (l .entries) ∷ floats (entryValueColumn r (l .entryValues))
    ∷ plainColumn r (l .plain)
    ∷ sourceColumn r (l .sources) ∷ map (λ q. map (λ x. toBits binary64 x) q) (sourceFloatColumn r (l .sourceFloats))
    ∷ (take (length (stateList r)) (stateColumn r) ++ ((zeros (drop (length (stateList r)) (stateColumn r)) ∷ []) ∷ []))
    ∷ (listing r ∷ []) ∷ []

-- the values without memory, and what each attribute needs
abbrev worldIn : List ℕ → World
worldIn b = worldOf (bookOf b (pairsOf b)) (fitOf b (pairsOf b)) 0

abbrev valueBits : Res Float → List ℕ
valueBits (ok x) = toBits binary64 x ∷ []
valueBits (refused x) = []

unfoldable pub afresh : List ℕ → List Key → List (List ℕ)
afresh b keys = map (λ k. valueBits (fresh (worldIn b) (k .object) (k .id))) keys

unfoldable pub needed : List ℕ → List Key → List (List (List ℕ))
needed b keys = map (λ k. map (λ n. n .object ∷ bits (n .id) ∷ []) (needsAt (worldIn b) k)) keys
"""


def everything(crates):
    """Opens every definition of laws and rules."""
    out = ["-- Opens every definition at once, for the theorems that compute.", "use lib.Ieee.{" + ", ".join(IEEE) + "}"]
    names = list(IEEE)
    for crate, path in (("laws", "Rattle·laws.specs."), ("rules", "Rattle·rules·specs.specs.")):
        for file in sorted((crates / crate / "specs").glob("*.antt")):
            found = re.findall(r"^ *unfoldable pub (\S+) :", file.read_text(), re.M)
            if found:
                out.append(f"use {path}{file.stem}.{{{', '.join(found)}}}")
                names += found
    out.append("use Rattle·rules·proofs.proofs.SampledDump.{dump, afresh, needed}")
    names += ["dump", "afresh", "needed"]
    out += ["", "unfoldable pub everything : Unit {0}", "unfolding " + " ".join(names), "everything = tt", ""]
    return "\n".join(out)


HEAD = """-- The definition held against the reference.
use Prim.Native.Nat.{ℕ}
use mathlib.Core.Path.{_≡_, refl}
use mathlib.Core.List.{List, [], _∷_}
use Rattle·rules·proofs.proofs.SampledEverything.{everything}
use Rattle·rules·proofs.proofs.SampledDump.{dump, afresh, needed}
use Rattle·rules·specs.specs.Outcome.{outcome, Lent}
use Rattle·rules·specs.specs.Bytes.{signed}
use Rattle·rules·specs.specs.Dispatch.{Key}
"""


def theorem(name, data, lent, answer):
    fields = "; ".join(f"{c} = {n}" for c, n in zip(COLUMNS, lent))
    rows = "\n    ∷ ".join("(" + nested(column) + ")" for column in expected(answer, lent))
    return f"""
abbrev sheet-{name} : List ℕ
sheet-{name} = {listed(data)}

abbrev lent-{name} : Lent
lent-{name} = record {{ {fields} }}

-- {answer.number} {answer.place}
pub same-{name} : dump lent-{name} (outcome sheet-{name} lent-{name}) ≡
    ({rows}
    ∷ [])
unfolding everything
same-{name} = refl
"""


def memoryless(name, data, answer):
    """What each attribute needs, and the values of those that lead into no loop."""
    graph = needs(data, answer)
    values = {(numbers[0], numbers[1]): u64(floats[1]) for numbers, floats in answer.rows}
    keys = lambda some: " ∷ ".join([f"record {{ object = {o}; id = signed {u32(a)} }}" for o, a in some] + ["[]"])
    straight = [key for key in graph if tree(key, graph, 60) is not None]
    shown = " ∷ ".join(["(" + nested([[o, u32(a)] for o, a in graph[key]]) + ")" for key in graph] + ["[]"])
    return f"""
abbrev keys-{name} : List Key
keys-{name} = {keys(graph)}

abbrev straight-{name} : List Key
straight-{name} = {keys(straight)}

pub needs-{name} : needed sheet-{name} keys-{name} ≡ ({shown})
unfolding everything
needs-{name} = refl

pub fresh-{name} : afresh sheet-{name} straight-{name} ≡ ({nested([[values[key]] for key in straight])})
unfolding everything
fresh-{name} = refl
"""


def samples(seed, wanted):
    """Each wanted is KIND=COUNT, or a file with a kind and a number in each line."""
    chosen = []
    for text in wanted:
        if "=" in text:
            kind, count = text.split("=")
            chosen += [(kind, n) for n in range(int(count))]
        else:
            chosen += [(line.split()[0], int(line.split()[1])) for line in open(text)]
    for kind, n in chosen:
        data = make_sheets.sheet(kind, seed, n)
        lent = lengths(kind, seed, n, data)
        yield f"{kind}-{n}", data, lent, reference.answer(data, rooms(lent))


def main():
    crates, seed, files = pathlib.Path(sys.argv[1]), sys.argv[2], int(sys.argv[3])
    proofs = crates / "rules" / "proofs"
    (proofs / "SampledDump.antt").write_text(DUMP)
    (proofs / "SampledEverything.antt").write_text(everything(crates))
    texts = [HEAD for _ in range(files)]
    counts = {}
    for at, (name, data, lent, answer) in enumerate(samples(seed, sys.argv[4:])):
        texts[at % files] += theorem(name, data, lent, answer)
        if answer.number == 0:
            texts[at % files] += memoryless(name, data, answer)
        counts[answer.number] = counts.get(answer.number, 0) + 1
    modules = ["SampledDump", "SampledEverything"]
    for at, text in enumerate(texts):
        modules.append(f"Sampled{at}")
        (proofs / f"Sampled{at}.antt").write_text(text)
    kept = [line for line in (proofs / "Lib.antt").read_text().splitlines() if "Sampled" not in line]
    (proofs / "Lib.antt").write_text("\n".join(kept + [f"pub mod {m}" for m in modules]) + "\n")
    print("numbers", dict(sorted(counts.items())))


if __name__ == "__main__":
    main()
