#!/usr/bin/env python3
"""Times `hookhost check` on large configurations and `cat` of the same file, in one run, and prints ratios.

Usage: bench/yaml.py [PROGRAM]   (default: crates/hookhost/out/hookhost)

Each configuration is a small one with 1 MiB of one kind of text under a key whose value is ignored, so that the reading of YAML is
what is timed. Each figure is the least of several runs, in milliseconds of wall time. It is taken twice: with the commands taking
turns, so that a busy moment hits them alike, and with each command by itself, which finds `cat` at its fastest since nothing comes
between its runs.
"""
import os
import shutil
import sys
import tempfile

sys.path.insert(0, os.path.dirname(os.path.abspath(__file__)))
from timing import least, least_in_turn, program, show

NAME = ".pre-commit-config.yaml"
HEAD = "repos: []\n"


def plain(number):
    return f"  - some plain text of a list, item {number}\n"


def quoted(number):
    return f"  - \"a text in \\\"double\\\" quotes\\t{number}\"\n  - 'a text in single quotes, it''s {number}'\n"


def flow(number):
    return f"  - [--option-{number}, \"a value\", 'another value', {{key: value, list: [first, second]}}]\n"


def letters(number):
    return f"  - [a{number}, \"b\", 'c', {{d: e, f: [g, h]}}]\n"


def flow_over_lines(number):
    return f"    a{number}, \"b\",\n    'c', {{d: e}}, # a comment\n"


def literal(number):
    return f"    line {number} of a literal text\n\n"


def folded(number):
    return f"    line {number} of a folded text\n      deeper\n\n"


def comment(number):
    return f"# a comment that is dropped, number {number}\n"


def key(number):
    return f"  key{number}: the value of a key\n"


KINDS = [
    ("plain texts", "ci:\n", plain, ""),
    ("quoted texts", "ci:\n", quoted, ""),
    ("flows", "ci:\n", flow, ""),
    ("flows of letters", "ci:\n", letters, ""),
    ("one flow over lines", "ci: [\n", flow_over_lines, "]\n"),
    ("a literal text", "ci: |\n", literal, ""),
    ("a folded text", "ci: >\n", folded, ""),
    ("comments", "", comment, ""),
    ("keys of one table", "ci:\n", key, ""),
]


def text_of(size, before, part, after):
    text, number = [HEAD, before], 0
    left = size - len(HEAD) - len(before) - len(after)
    while True:
        more = part(number)
        if len(more) > left:
            return "".join(text) + after
        text.append(more)
        left -= len(more)
        number += 1


def main():
    tool, top = program(), tempfile.mkdtemp()
    half, whole = os.path.join(top, "half"), os.path.join(top, "whole")
    os.mkdir(half)
    os.mkdir(whole)
    try:
        for what, before, part, after in KINDS:
            for folder, size in ((half, 524288), (whole, 1048576)):
                with open(os.path.join(folder, NAME), "w", encoding="utf-8") as file:
                    file.write(text_of(size, before, part, after))
            check, cat = [tool, "check"], ["cat", NAME]
            ours, twice, beside = least_in_turn([(half, check), (whole, check), (whole, cat)])
            show(f"{os.path.getsize(os.path.join(whole, NAME))} bytes of {what}", twice, beside, "cat ")
            show("  each by itself", least(check, 40), least(cat, 40), "cat ")
            print(f"{'  twice the bytes':44} {twice / ours:.2f} times the time")
    finally:
        os.chdir("/")
        shutil.rmtree(top)


main()
