#!/usr/bin/env python3
"""Checks the built program on hostile inputs: configurations, files of stores, messages, paths, hooks, and limits of what
is cached.

Usage: tests/fuzz/fuzz.py [--sample] [--seconds N] [--seed N] [--case N] [--program FILE] [--trial FILE]
       (default: 60 seconds or with --sample 15, seed 1, all cases that there is time for, and the built programs)

Each answer has to be one that docs/REFERENCE.md allows (tests/fuzz/fuzz_answers.py): no crash, no hang, no other line. A command that is
refused has to leave each file, and what `status`, `log`, `fixes` and `memory` show, as it was. If more is known of an answer, such as
which fault a path has, it has to be that one.

A case has a number, from 0 on. The number gives its kind, and its inputs depend only on the number and the seed. A case that fails prints
both. With `--case` it is played alone, prints all that it did, and leaves a copy of its folder as its last command found it.
"""
import argparse
import collections
import itertools
import os
import random
import shutil
import signal
import subprocess
import sys
import tempfile
import time

sys.path.insert(0, os.path.abspath(f"{__file__}/../../shared"))
from sample import IS_SAMPLED, note

SECONDS, SAMPLED_SECONDS = 60, 15
PARSER = argparse.ArgumentParser(description=__doc__, formatter_class=argparse.RawDescriptionHelpFormatter)
PARSER.add_argument("--seconds", type=float, default=SAMPLED_SECONDS if IS_SAMPLED else SECONDS)
PARSER.add_argument("--seed", type=int, default=1)
PARSER.add_argument("--case", type=int)
PARSER.add_argument("--program")
PARSER.add_argument("--trial")
WORDS = PARSER.parse_args()
# host_program, which is imported below, takes the program as its second word.
sys.argv[1:] = ["", WORDS.program] if WORDS.program else []

import fuzz_configurations
from fuzz_configurations import plays_configurations
from fuzz_hooks import plays_hooks
from fuzz_limits import plays_limits
from fuzz_messages import plays_messages
from fuzz_paths import plays_paths
from fuzz_play import Case
from fuzz_stores import damaged_repository, plays_stores
from host_program import PROGRAM, Wrong

if WORDS.trial:
    fuzz_configurations.TRIALS["run_trial"] = os.path.abspath(WORDS.trial)
# Folders are made in a place with room for large files: on the disk each command waits for it.
IN_MEMORY, ROOM = "/dev/shm", 1 << 30
# At most this many failed cases are printed: more would add no information.
MOST_TOLD = 10
KINDS = [plays_configurations, plays_stores, plays_messages, plays_paths, plays_hooks, plays_limits]


class Bases:
    """What cases share: a folder of folders, the repository that is damaged, and what inputs are made of."""

    def __init__(self, folder):
        self.folder = folder
        self.texts = fuzz_configurations.Texts(folder)
        self.told = damaged_repository(self)

    def new(self, name):
        path = os.path.join(self.folder, name)
        os.mkdir(path)
        return path


def remove(folder):
    """Removes the folder of a case. A hook may have removed the permissions by which a folder is read."""
    subprocess.run(["chmod", "-R", "u+rwx", folder], stderr=subprocess.DEVNULL)
    shutil.rmtree(folder, ignore_errors=True)


def play(bases, number):
    """Plays the case of a number. Answers the case, and what is wrong or None."""
    kept = os.path.join(tempfile.gettempdir(), f"fuzz-{WORDS.seed}-{number}") if WORDS.case is not None else None
    case = Case(bases.new("case"), random.Random(f"{WORDS.seed} {number}"), kept)
    try:
        KINDS[number % len(KINDS)](case, bases)
        case.ends()
        return case, None
    except Wrong as error:
        return case, str(error)
    except Exception as error:
        # An answer that nobody thought of must not end the cases after it.
        return case, f"{type(error).__name__}: {error}"
    finally:
        remove(case.folder)


def tell(case, number, wrong):
    kind = KINDS[number % len(KINDS)].__name__.replace("_", " ")
    if wrong:
        print(f"FAILED {kind}: seed {WORDS.seed}, case {number}, command {case.commands}: {wrong}")
        print(f"  alone: python3 tests/fuzz/fuzz.py --seed {WORDS.seed} --case {number}")
    for text in case.told(WORDS.case is not None):
        print(f"    {text}")
    if case.kept:
        print(f"  the folder before its last command: {case.kept}")
    sys.stdout.flush()


def numbers():
    """The numbers of the cases that there is time for, or that of the one that is named."""
    if WORDS.case is not None:
        yield WORDS.case
        return
    end = time.monotonic() + WORDS.seconds
    for number in itertools.count():
        if time.monotonic() >= end:
            return
        yield number


def place():
    """The folder in which folders are made, or none for the system's own place."""
    return IN_MEMORY if os.path.isdir(IN_MEMORY) and shutil.disk_usage(IN_MEMORY).free >= ROOM else None


def main():
    # A gate that is ended leaves no folder.
    signal.signal(signal.SIGTERM, lambda number, _: sys.exit(128 + number))
    # The shell that starts this in the background may have it ignore some signals that hooks send themselves.
    signal.signal(signal.SIGINT, signal.default_int_handler)
    for number in (signal.SIGQUIT, signal.SIGHUP):
        signal.signal(number, signal.SIG_DFL)
    if not os.path.exists(PROGRAM):
        sys.exit(f"fuzz: there is no {PROGRAM}: build it with `rt run` in crates/hookhost")
    counts, commands, refused, failed = collections.Counter(), 0, 0, 0
    with tempfile.TemporaryDirectory(prefix="fuzz-", dir=place()) as folder:
        bases = Bases(folder)
        for number in numbers():
            case, wrong = play(bases, number)
            counts[KINDS[number % len(KINDS)].__name__] += 1
            commands, refused = commands + case.commands, refused + case.refused
            failed += bool(wrong)
            if case.kept or wrong and failed <= MOST_TOLD:
                tell(case, number, wrong)
    of_kinds = ", ".join(f"{name.partition('_')[2]} {count}" for name, count in counts.items())
    print(f"fuzz: seed {WORDS.seed}: {commands} commands, {refused} of them refused; {of_kinds}")
    print(f"fuzz: {sum(counts.values()) - failed} passed, {failed} failed{note(round(WORDS.seconds), SECONDS, 'seconds')}")
    sys.exit(1 if failed or not counts else 0)


main()
