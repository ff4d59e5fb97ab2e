#!/usr/bin/env python3
"""Builds the Rust oracle from the original sources by explicit edits.

Every edit names the text that it expects; one that is not there, or not as often as said, ends the build.
Usage: build.py [--leave powers] [--leave clamps] [--sources DIR]. The program is target/oracle/oracle; with one of the own rules left out,
target/oracle/unpatched-powers or unpatched-clamps; with both left out, unpatched-powers-clamps. build.py --guarded builds
target/oracle/guarded, which refuses by rooms, float steps and depth as well, each tested where the Rust does the thing.
DIR is a checkout of the original, the one that NOTICE names; without --sources it is $DOGMA_SOURCES.
"""
import argparse
import os
import pathlib
import subprocess
import sys

HERE = pathlib.Path(__file__).resolve().parent
ROOT = HERE.parent
ENGINE = "crates/esf-dogma-engine/src/"
DATA = "crates/esf-data/src/"


def replace(old, new="", times=1):
    def edit(text):
        if text.count(old) != times:
            raise ValueError(f"{text.count(old)} times, not {times}: {old!r}")
        return text.replace(old, new)
    return edit


def cut(start, end=None):
    """Takes out what stands from one text up to another, or to the end."""
    def edit(text):
        for mark in (start, end):
            if mark is not None and text.count(mark) != 1:
                raise ValueError(f"{text.count(mark)} times, not once: {mark!r}")
        rest = "" if end is None else text[text.index(end):]
        return text[:text.index(start)] + rest
    return edit


def append(name):
    return lambda text: text + (HERE / "rust" / name).read_text()


SERDE_LINES = [
    '    #[serde(default, skip_serializing_if = "Vec::is_empty")]\n',
    '    #[serde(default, deserialize_with = "id_map")]\n',
    '    #[serde(default = "one")]\n',
]

INFO = [
    replace("use flatbuffers::Vector;\n", "use crate::eve::Vector;\n"),
    replace("use crate::sde::eve;\n", "use crate::eve;\n"),
]

PROJECTION = [
    replace("use serde::{Deserialize, Serialize};\n"),
    replace("use crate::fit::{id_map, one};\n"),
    replace("#[derive(Serialize, Deserialize, ", "#[derive(", 3),
    replace(SERDE_LINES[0], times=2),
    replace(SERDE_LINES[1]),
    replace(SERDE_LINES[2]),
]

ITEM = [
    replace("use serde::Serialize;\n"),
    replace("use strum_macros::EnumIter;\n"),
    replace("use crate::fit::{FitItem, Slot, State};\n", "use crate::fit::{Slot, State};\n"),
    replace("#[derive(Serialize, Debug, Copy, Clone, PartialEq, Eq, PartialOrd, Ord, EnumIter)]\n"
            '#[serde(rename_all = "snake_case")]\n',
            "#[derive(Debug, Copy, Clone, PartialEq, Eq, PartialOrd, Ord)]\n"),
    # not carried over: needs the fit and the types
    cut("    pub fn new_fit(", "    pub fn new_projected("),
    # M-110: an entry keeps the number of its effect
    replace("    pub quantity: u32,\n    pub resistance: Option<i32>,\n}\n", "    pub quantity: u32,\n    pub resistance: Option<i32>,\n    pub number: u32,\n}\n"),
]

MOD = [
    replace("mod outgoing;\nmod output;\nmod pass_1;\n", "mod output;\n"),
    replace("mod pass_3;\nmod pass_4;\n", "mod pass_3;\npub mod report;\n"),
    replace("use serde::Deserialize;\n"),
    replace("use crate::fit::Fit;\n"),
    replace("use crate::projection::{ProjectedBuff, Projection};\n", "use crate::projection::ProjectedBuff;\n"),
    replace("use crate::validate::validate;\n"),
    replace("use esf_data::Info;\n", "use crate::info::Info;\n"),
    replace("pub use outgoing::beacon;\n"),
    replace("pub use output::{AttributeValue, Calculation, ItemResult, Source, SourceRef};\n", "pub use output::{Source, SourceRef};\n"),
    replace("#[derive(Deserialize, Debug, Default, Clone)]\n#[serde(default)]\n", "#[derive(Debug, Default, Clone)]\n"),
    # the header's category numbers
    replace("    matches!(\n        category_id,\n        CATEGORY_MODULE | CATEGORY_SUBSYSTEM | CATEGORY_STRUCTURE_MODULE\n    )\n",
            "    report::is_module_category(category_id)\n"),
    # the passes before and after are not here
    cut("/// Calculate every attribute of the ship, its items and the character.\n"),
]

PASS_2 = [
    replace("use esf_data::eve;\n", "use crate::eve;\n"),
    replace("        /* Depending on the modifier, move the effects to the correct attribute. */\n",
            "        report(&effects);\n"),
    # M-110: the collected effects are numbered where they are dispatched, and the number goes into each entry
    replace("        for effect in effects {\n", "        for (number, effect) in effects.into_iter().enumerate() {\n"),
    replace("&effect,\n", "&effect,\n number as u32,\n", 5),
    replace("        effect: &Pass2Effect,\n    ) {\n", "        effect: &Pass2Effect,\n        number: u32,\n    ) {\n"),
    replace("            resistance: effect.resistance,\n        });\n", "            resistance: effect.resistance,\n            number,\n        });\n"),
    append("pass_2_tail.rs"),
]

PASS_3 = [
    replace("use strum::IntoEnumIterator;\n"),
    replace("mod reactive_armor;\n"),
    # the armour call goes, the asks come first
    replace("        reactive_armor::simulate(info, objects);\n",
            "        for (object, attribute_id) in super::report::asks() {\n"
            "            let item = objects.get(object).unwrap();\n"
            "            item.calculated_value(info, objects, attribute_id);\n"
            "        }\n"),
    # M-104: a source row has the lowest state that would do
    replace("                    penalty,\n                    applied,\n                };\n",
            "                    penalty,\n                    applied,\n                    state: super::output::lowest_state(&effect.origin),\n                };\n"),
]

POWERS = [
    replace("PENALTY_FACTOR.powi((position * position) as i32)", "crate::own::power(PENALTY_FACTOR, (position * position) as u32)"),
    replace("(1.0 + value).powf(f64::from(quantity))", "crate::own::power(1.0 + value, quantity)"),
]

CLAMPS = [
    replace("current_value = current_value.max(min);", "current_value = crate::own::at_least(current_value, min);"),
    replace("current_value = current_value.min(max);", "current_value = crate::own::at_most(current_value, max);"),
]

GUARD_2 = [
    replace("        effects.push(Pass2Effect {", "        super::report::take(1);\n        effects.push(Pass2Effect {", 3),
    replace("                self.effects.push(", "                super::report::take(4);\n                self.effects.push("),
    replace("            Attribute::new(attr.map_or(", "            super::report::take(2);\n            Attribute::new(attr.map_or("),
    replace("        attribute.effects.push(Effect {", "        super::report::take(3);\n        attribute.effects.push(Effect {"),
]

STEP = "super::report::step"

GUARD_3 = [
    replace("        /* A modifier that reads the attribute it changes gets its base value. */\n",
            "        let _level = super::report::start(objects, owner);\n"),
    replace("value * objects.ship.calculated_value(info, objects, resistance_id)",
            STEP + "(value * objects.ship.calculated_value(info, objects, resistance_id))"),
    replace("Mul => source_value - 1.0,", f"Mul => {STEP}(source_value - 1.0),", 2),
    replace("Div => 1.0 / source_value - 1.0,", f"Div => {STEP}({STEP}(1.0 / source_value) - 1.0),", 2),
    replace("=> source_value / 100.0,", f"=> {STEP}(source_value / 100.0),"),
    replace("current_value *= 1.0 + value * penalty;", f"current_value = {STEP}(current_value * {STEP}(1.0 + {STEP}(value * penalty)));"),
    replace("current_value *= crate::own::power(1.0 + value, quantity);",
            f"current_value = {STEP}(current_value * super::report::power({STEP}(1.0 + value), quantity));"),
    replace("current_value += value * f64::from(quantity);", f"current_value = {STEP}(current_value + {STEP}(value * f64::from(quantity)));"),
    # one that does not run is pushed only where recorded: the test before it
    replace("sources.push(", "super::report::take(5);\n                    sources.push(", 4),
]


def plan(left, guarded):
    own_rules = ([] if "powers" in left else POWERS) + ([] if "clamps" in left else CLAMPS)
    guard_2, guard_3 = (GUARD_2, GUARD_3) if guarded else ([], [])
    return [
        (DATA + "info.rs", "info.rs", INFO),
        (ENGINE + "projection.rs", "projection.rs", PROJECTION),
        (ENGINE + "calculate/attribute_ids.rs", "calculate/attribute_ids.rs", []),
        (ENGINE + "calculate/item.rs", "calculate/item.rs", ITEM),
        (ENGINE + "calculate/mod.rs", "calculate/mod.rs", MOD),
        (ENGINE + "calculate/pass_2.rs", "calculate/pass_2.rs", PASS_2 + guard_2),
        (ENGINE + "calculate/pass_3.rs", "calculate/pass_3.rs", PASS_3 + own_rules + guard_3),
    ]


OWN_FILES = {
    "main.rs": "main.rs", "eve.rs": "eve.rs", "fit.rs": "fit.rs", "own.rs": "own.rs", "sheet.rs": "sheet.rs",
    "output.rs": "calculate/output.rs", "report.rs": "calculate/report.rs",
}


def add_sources(arguments):
    arguments.add_argument("--sources", metavar="DIR", default=os.environ.get("DOGMA_SOURCES"),
                           help="a checkout of EVEShipFit/dogma-engine at the commit in NOTICE; by default $DOGMA_SOURCES")


def sources_in(named):
    """The folder of the original's sources, or an end that says what is missing."""
    if not named:
        sys.exit("the original's sources are not here: name a checkout of EVEShipFit/dogma-engine (its commit is in NOTICE) by --sources DIR or $DOGMA_SOURCES")
    missing = [source for source, _, _ in plan([], False) if not (pathlib.Path(named) / source).is_file()]
    if missing:
        sys.exit(f"{named} has no {missing[0]}: it is to be a checkout of EVEShipFit/dogma-engine (its commit is in NOTICE)")
    return pathlib.Path(named)


def build(sources, left, guarded):
    name = "guarded" if guarded else "-".join(["unpatched", *left]) if left else "oracle"
    target = ROOT / "target" / "oracle"
    place = target / (name + "-src")
    (place / "calculate").mkdir(parents=True, exist_ok=True)
    for source, goal, edits in plan(left, guarded):
        text = (sources / source).read_text()
        for edit in edits:
            try:
                text = edit(text)
            except ValueError as problem:
                sys.exit(f"{source}: expected text found {problem}")
        (place / goal).write_text(text)
    for own, goal in OWN_FILES.items():
        (place / goal).write_text((HERE / "rust" / own).read_text())
    program = target / name
    command = ["rustc", "--edition", "2024", "-O", "-A", "warnings", "-o", str(program), str(place / "main.rs")]
    if subprocess.run(command).returncode != 0:
        sys.exit("rustc refused the edited sources")
    return program


def main():
    arguments = argparse.ArgumentParser()
    arguments.add_argument("--leave", choices=["powers", "clamps"], action="append", default=[])
    arguments.add_argument("--guarded", action="store_true")
    add_sources(arguments)
    given = arguments.parse_args()
    if given.guarded and given.leave:
        arguments.error("a guarded build has the own rules")
    print(build(sources_in(given.sources), sorted(set(given.leave), reverse=True), given.guarded))


if __name__ == "__main__":
    main()
