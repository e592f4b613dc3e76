#!/usr/bin/env python3
"""Counts what makes the sources hard to read, and fails if a count is greater than the one that tests/house.txt allows.

Usage: tests/house.py

A line of tests/house.txt is `NUMBER WHAT`. A count that got smaller is printed, so that the number there can follow it.
"""
import glob
import os
import re
import sys

sys.path.insert(0, os.path.abspath(f"{__file__}/../shared"))
from places import CRATES, TOP

IMPORT = re.compile(r"\s*(pub )?(ghost )?use ")
CLAUSE = re.compile(r"\s*(ensures|requires)\b")
KIT = re.compile(r"use Rattle\.(\w+)\.proofs\.")
ALLOWED = os.path.join(TOP, "tests", "house.txt")


def lines(*pattern):
    """The lines of all files of the crates that fit, but for imports."""
    for path in sorted(glob.glob(os.path.join(CRATES, "*", *pattern), recursive=True)):
        with open(path, encoding="utf-8") as file:
            yield from (line for line in file.read().split("\n") if not IMPORT.match(line))


def count_longer(width, found):
    return sum(len(line) > width for line in found)


def kit_imports():
    """The imports of lemmas of the kit's crates outside of proofs/Kit.antt. Those of its standard library are made to be used."""
    ours = {*os.listdir(CRATES), "std", "core", "std_alloc"}
    for path in glob.glob(os.path.join(CRATES, "*", "[ps]*", "**", "*.antt"), recursive=True):
        if os.path.basename(path) != "Kit.antt":
            with open(path, encoding="utf-8") as file:
                yield from (crate for crate in KIT.findall(file.read()) if crate not in ours)


def read(path):
    with open(os.path.join(TOP, path), encoding="utf-8") as file:
        return file.read()


def words():
    for path in ["README.md", *glob.glob(os.path.join(TOP, "docs", "*.md"))]:
        yield from read(path).split()


def counts():
    sources = [line for line in lines("src", "**", "*.rt") if '"' not in line and not line.startswith("#[")]
    return {
        "lines of specs/ over 120 columns": count_longer(120, lines("specs", "**", "*.antt")),
        "lines of src/ over 120 columns, texts and attributes aside": count_longer(120, sources),
        "clauses with a line over 160 columns": count_longer(160, (line for line in sources if CLAUSE.match(line))),
        "lines of proofs/ over 200 columns": count_longer(200, lines("proofs", "**", "*.antt")),
        "imports of the kit's lemmas outside of Kit.antt": sum(1 for _ in kit_imports()),
        "words of README and docs": sum(1 for _ in words()),
        "lines of README": len(read("README.md").splitlines()),
    }


def main():
    with open(ALLOWED, encoding="utf-8") as file:
        allowed = {what: int(number) for number, what in (line.split(" ", 1) for line in file.read().splitlines())}
    found, failed = counts(), 0
    for what, number in found.items():
        if number > allowed.get(what, 0):
            failed += 1
            print(f"house: FAILED: {number} {what}, where {allowed.get(what, 0)} are allowed")
        elif number < allowed.get(what, 0):
            print(f"house: {number} {what}, where {allowed.get(what, 0)} are allowed")
    print(f"house: {len(found) - failed} passed, {failed} failed")
    return 1 if failed else 0


sys.exit(main())
