#!/usr/bin/env python3
"""Checks demo/count_proved: gives it lines of `rt ci`, and compares what it prints. Also checks that the program has what
demo/try_alone.sed cuts from it for the trial.

tests/demo_lines.txt has the lines as rt prints them. They are of crates that are proved, kept from an earlier run, or not proved; of
tests that are proved or not; of edits and of programs. Each crate that is proved or kept counts once.
"""
import os
import re
import subprocess
import sys

sys.path.insert(0, os.path.abspath(f"{__file__}/../shared"))
from places import TOP

COUNT = os.path.join(TOP, "demo", "count_proved")
# The calls of the program by which it reaches the repository.
CUT = ["look_up(", "change(", "init("]
# The crates that are named, and those that the lines show as proved or kept, in their order.
CASES = [
    ("hook_base child_port lazy_disk yaml_lines yaml_flows hookhost", "hook_base child_port lazy_disk hookhost"),
    ("hookhost lazy_disk child_port hook_base", "hook_base child_port lazy_disk hookhost"),
    ("yaml_lines yaml_flows", ""),
    ("hook", ""),
]


def said(names, lines):
    """What demo/count_proved prints for the lines, without the minutes."""
    done = subprocess.run([COUNT, *names], input=lines, stdout=subprocess.PIPE, check=True)
    return re.sub(r" \(after \d+ minutes\)$", "", done.stdout.decode(), flags=re.MULTILINE)


def wrong_cuts():
    """The calls that the program doesn't make, or makes in the trial too."""
    with open(os.path.join(TOP, "crates/hookhost/src/main.rt"), encoding="utf-8") as file:
        whole = file.read()
    trial = subprocess.run(["sed", "-f", os.path.join(TOP, "demo/try_alone.sed")], input=whole, stdout=subprocess.PIPE, text=True, check=True).stdout
    return [call for call in CUT if call not in whole or call in trial]


def main():
    with open(os.path.join(TOP, "tests", "demo_lines.txt"), "rb") as file:
        lines = file.read()
    failed = 0
    for asked, proved in CASES:
        names = asked.split()
        wanted = "".join(f"{at} of {len(names)} crates proved: {name}\n" for at, name in enumerate(proved.split(), 1))
        # A crate that rt reports twice counts once.
        for given in [lines, lines + lines]:
            if (told := said(names, given)) != wanted:
                failed += 1
                print(f"FAILED demo/count_proved {asked}:\n{told}in place of\n{wanted}", end="")
    for call in (wrong := wrong_cuts()):
        print(f"FAILED demo/try_alone.sed doesn't cut off {call}..), or the program has no such call")
    failed += len(wrong)
    print(f"demo: {2 * len(CASES) + len(CUT) - failed} passed, {failed} failed")
    sys.exit(1 if failed else 0)


main()
