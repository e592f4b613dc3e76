#!/usr/bin/env python3
"""Runs the tables of tests/rows/tables/ by the built programs for tests and compares each answer, to the byte.

Usage: tests/rows/rows.py [TABLE..]   (default: all tables, each by the name of its file without `.py`)

A table is a Python file with two names: PROGRAM, the crate whose program runs it, and ROWS, one row a line:

    ("read_path", "a//b", "4 EmptyPart"),

A row is the call, its arguments and the answer, each a `str` (taken as UTF-8) or `bytes`. The program reads a line for each row on
standard input: the call's name and its arguments in hexadecimal digits (`-` if there are none), with blanks between. It answers by
one line, the answer in hexadecimal digits. All rows of a table are run by one process.
"""
import os
import subprocess
import sys

sys.path.insert(0, os.path.abspath(f"{__file__}/../../shared"))
import row_tables
from places import TOP, program

SHOWN = 400


def as_bytes(word):
    return word.encode() if isinstance(word, str) else word


def played(crate, rows):
    """The answers of one process to all rows, fewer if it ended before its input, and what is wrong with how it ended."""
    path = program(crate)
    if not os.path.exists(path):
        sys.exit(f"rows: there is no {os.path.relpath(path, TOP)}: build it with `rt run` in crates/{crate}")
    lines = [" ".join([row[0], *(as_bytes(word).hex() or "-" for word in row[1:-1])]) for row in rows]
    ran = subprocess.run([path], input="".join(f"{line}\n" for line in lines).encode(), capture_output=True)
    answers = [bytes.fromhex(line) for line in ran.stdout.decode().splitlines()]
    if ran.returncode or ran.stderr or len(answers) > len(rows):
        return answers, f"{crate} gave {len(answers)} answers and ended with status {ran.returncode}: {ran.stderr.decode(errors='replace').strip()}"
    return answers, ""


def main():
    names = sys.argv[1:] or row_tables.names()
    passed = failed = 0
    for name in names:
        table = row_tables.table_of(name)
        answers, wrong = played(table.PROGRAM, table.ROWS)
        if wrong:
            failed += 1
            print(f"rows: {name}: {wrong}")
        for number, row in enumerate(table.ROWS):
            answer = answers[number] if number < len(answers) else None
            if answer == as_bytes(row[-1]):
                passed += 1
                continue
            failed += 1
            print(f"rows: {name}: {str(row[:-1])[:SHOWN]}\n  wanted {str(as_bytes(row[-1]))[:SHOWN]}\n  got    {str(answer)[:SHOWN]}")
    print(f"rows: {passed} passed, {failed} failed")
    sys.exit(1 if failed or not passed else 0)


main()
