"""Runs of a program of which one allocation is refused, for tests/memory/refused_memory.py and the modules of its plays.
tests/shared/refuse_allocation.c takes the place of the allocator.
"""
import itertools
import multiprocessing
import os
import subprocess
import sys

from places import TOP, program
from sample import IS_SAMPLED, greatest

EACH = "--each" in sys.argv
# With --sample one in so many of those that are refused otherwise is refused. THERE counts these, for all processes that play.
SAMPLED_ONE_IN, THERE = 10, multiprocessing.Value("q", 0)
# In a sample of allocations that are all refused otherwise, how many are at the beginning and the end, and how many between. The first
# pair is for one of very many texts that are checked, and the second for a play.
OF_TEXT, OF_PLAY = (2, 6), (10, 100)
# About how many allocations the shortest run makes.
GUESS = 100
WORDS = [word for word in sys.argv[1:] if word != "--each"]


def given(at, name):
    """The program that is the word at this place, or the built one of this name."""
    return os.path.abspath(WORDS[at] if len(WORDS) > at else program(name))


PROGRAM, STORE_TRIAL = given(0, "hookhost"), given(1, "store_trial")
HOOK_TRIAL, SELECTION_TRIAL, YAML_TRIAL = given(2, "hook_trial"), given(3, "selection_trial"), given(4, "yaml_trial")
RUN_TRIAL = given(5, "run_trial")


def make_allocator(folder):
    """Makes what takes the place of the allocator."""
    made, source = os.path.join(folder, "refuse.so"), os.path.join(TOP, "tests/shared/refuse_allocation.c")
    subprocess.run(["cc", "-shared", "-fPIC", "-O1", "-o", made, source, "-ldl"], check=True)


def end_with_refusal(words, refused, shared, folder, work, given):
    """How a program ends of which the allocation of this number (0: none) is refused, and whether one was."""
    mark = os.path.join(folder, "refused")
    if os.path.exists(mark):
        os.remove(mark)
    refusing = {"LD_PRELOAD": os.path.join(shared, "refuse.so"), "REFUSE_ALLOCATION": str(refused), "REFUSED_FILE": mark}
    return end_of(words, work, given, os.environ | refusing), os.path.exists(mark)


def end_of(words, work, given=b"", env=None):
    """The status and the outputs of a program."""
    done = subprocess.run(words, input=given, capture_output=True, env=env, timeout=60, cwd=work)
    return done.returncode, done.stdout, done.stderr


def all_of(is_refused, at_ends, between):
    """The numbers of the allocations to refuse, from 1 on and without an end: all, or with --sample so many of the first and the last, and
    so many between."""
    if not IS_SAMPLED:
        return itertools.count(1)
    count = greatest(is_refused, GUESS)
    count_whole(count)
    return numbers_to(count, at_ends, between)


def some_of(is_refused, at_ends, between):
    """The same, where so many of the first and the last are refused, and so many between. With --each all are, and with --sample one in
    so many."""
    if EACH:
        return itertools.count(1)
    count = greatest(is_refused)
    if not IS_SAMPLED:
        return numbers_to(count, at_ends, between)
    count_whole(sum(1 for _ in itertools.takewhile(lambda number: number <= count, numbers_to(count, at_ends, between))))
    return numbers_to(count, at_ends // SAMPLED_ONE_IN, between // SAMPLED_ONE_IN)


def count_whole(count):
    """Counts what is refused without --sample."""
    with THERE.get_lock():
        THERE.value += count


def numbers_to(count, at_ends, between):
    step = max(1, (count - 2 * at_ends) // between)
    return (at for at in itertools.count(1) if at <= at_ends or at > count - at_ends or at % step == 0)


def line_of(call, words):
    """The line by which a program for tests plays a call."""
    held = (word.encode() if isinstance(word, str) else word for word in words)
    return " ".join([call, *(word.hex() or "-" for word in held)]).encode() + b"\n"
