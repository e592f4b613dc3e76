#!/usr/bin/env python3
"""Looks for names of definitions in specs/ and of types in src/ that two or more crates use, since a reader would find two meanings.

Usage: tests/names.py

tests/names.txt lists the known ones with a reason, as `definition NAME: REASON` and `type NAME: REASON`, a line each. A shared name
that isn't listed is a failure, and so is a listed one that is no longer shared: the list only gets shorter. Lemmas don't count.
"""
import glob
import os
import re
import sys
from collections import defaultdict

sys.path.insert(0, os.path.abspath(f"{__file__}/../shared"))
from places import CRATES, TOP

DEFINITION = re.compile(r"^(?:(?:abbrev|unfoldable) pub|pub record|pub data|pub) (?!mod |use )([A-Za-z_][\w-]*)(?= |:)", re.MULTILINE)
TYPE = re.compile(r"^(?:pub(?:\(crate\))? )?(?:struct|enum|trait|type) ([A-Z]\w*)", re.MULTILINE)
LISTED = os.path.join(TOP, "tests", "names.txt")


def crates_by_name(kind, files, pattern):
    """The crates that have each name."""
    crates = defaultdict(set)
    for path in glob.glob(os.path.join(CRATES, "*", files), recursive=True):
        if not path.endswith("Lemmas.antt"):
            with open(path, encoding="utf-8") as file:
                for name in pattern.findall(file.read()):
                    crates[f"{kind} {name}"].add(os.path.relpath(path, CRATES).split(os.sep)[0])
    return crates


def main():
    crates = crates_by_name("definition", "specs/*.antt", DEFINITION) | crates_by_name("type", "src/**/*.rt", TYPE)
    shared = {name: sorted(of) for name, of in crates.items() if len(of) > 1}
    with open(LISTED, encoding="utf-8") as file:
        listed = dict(line.split(": ", 1) for line in file.read().splitlines())
    wrong = [f"{name} is in the crates {', '.join(shared[name])}: give one of them a name of its own" for name in sorted(shared.keys() - listed.keys())]
    wrong += [f"{name} is no longer in two crates: remove it from tests/names.txt" for name in listed if name not in shared]
    for text in wrong:
        print(f"names: FAILED: {text}")
    print(f"names: {len(crates) - len(wrong)} passed, {len(wrong)} failed")
    return 1 if wrong else 0


sys.exit(main())
