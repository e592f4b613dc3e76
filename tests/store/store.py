#!/usr/bin/env python3
"""Checks stores in real files: makes calls on them with the built program, and reads the files with sqlite3.

Usage: tests/store/store.py [--sample] [PROGRAM [CASE..]]   (default: crates/store_trial/out/store_trial, and all cases; a case by its
name, with `_`)

A store is driven by lines, each answered by a line of fields with tabs between them. The answers are compared with a model of a
store: a few dictionaries and a list of cached results (tests/store/store_model.py). The files are read, and damaged, by the program
sqlite3, which makes stores of version 1 too. A play is killed at random moments. Each allocation of a play is refused in turn
(tests/shared/refuse_allocation.c). A disk in memory stops at each of its operations in turn. With --sample all cases are played, but only
some of the allocations and operations, and of the random plays.

The cases are, by their topic, in tests/store/store_plays.py, store_answers.py, store_versions.py, store_damage.py, store_large.py,
store_stops.py and store_memory.py. They use the programs of store_program.py, and their inputs are in store_cases.py and
store_plants.py.
"""
import os
import subprocess
import sys
import tempfile

sys.path.insert(0, os.path.abspath(f"{__file__}/../../shared"))
from sample import TALLY, note
import store_answers
import store_damage
import store_large
import store_memory
import store_plays
import store_stops
import store_versions
from store_program import Wrong

TOPICS = [store_plays, store_answers, store_versions, store_damage, store_large, store_stops, store_memory]
CASES = [case for topic in TOPICS for case in topic.CASES]


def main():
    chosen = sys.argv[2:] or [case.__name__ for case in CASES]
    passed, failed = 0, 0
    for case in [case for case in CASES if case.__name__ in chosen]:
        with tempfile.TemporaryDirectory() as folder:
            try:
                case(folder)
                wrong = None
            except (Wrong, subprocess.TimeoutExpired) as error:
                wrong = error
        passed, failed = (passed, failed + 1) if wrong else (passed + 1, failed)
        if wrong:
            print(f"FAILED {case.__name__.replace('_', ' ')}: {str(wrong)[:2000]}")
    print(f"store: {passed} passed, {failed} failed{note(TALLY['played'], TALLY['count'], 'stops and refusals')}")
    sys.exit(1 if failed or not passed else 0)


main()
