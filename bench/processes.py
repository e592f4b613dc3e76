#!/usr/bin/env python3
"""Times real children, run by the built program child_trial, and cat of their files, in one run, and prints ratios.

Usage: bench/processes.py [CHILD_TRIAL]   (default: crates/child_trial/out/child_trial)

A second child over a tree that the first left as it was is compared with cat of all its files. The same is done with children for
each of which all files are read. A child that changes one file of many is timed both ways. What 1 MiB of output adds to a child
is compared with the same from one cat to another. Each time is wall time in milliseconds, the least of several.
"""
import os
import subprocess
import sys
import time

HERE = os.path.dirname(os.path.abspath(__file__))
sys.path[:1] = [os.path.join(HERE, "..", "tests", "children"), HERE]
from children import MIB, READS, Trial, digits
from timing import show


def least(action, times=25):
    best = None
    for _ in range(times):
        start = time.perf_counter()
        action()
        took = (time.perf_counter() - start) * 1000
        best = took if best is None else min(best, took)
    return best


def filled(files, size):
    trial = Trial()
    for at in range(files):
        trial.ask("letters", digits(f"d{at % 50}/f{at}"), digits(str(size)))
    return trial


def time_second_children():
    for files, size in ((1, 400), (1000, 400), (10_000, 400), (4, 16 * MIB)):
        for reads in READS:
            Trial.reads = READS[reads]
            trial = filled(files, size)
            first = least(lambda: trial.run("true"), 1)
            second = least(lambda: trial.run("true"), 1)
            ours = least(lambda: trial.run("true"))
            changed = least(lambda: trial.ask("measure", *map(digits, ("sh", "-c", "echo y >> d0/f0"))))
            cat = least(lambda: subprocess.run("find . -type f -print0 | xargs -0 cat > /dev/null", shell=True, cwd=f"{trial.top}/h/scratch", check=True))
            show(f"a child, {files} files of {size} bytes", ours, cat, "cat")
            print(f"{'':44} reading {reads}; one that changes a file {changed:.2f} ms; the first child, which writes the folder, {first:.2f} ms, the second {second:.2f} ms; peak memory {trial.peak() / (files * size):.1f} times the tree")
            trial.end()
    Trial.reads = {}


def time_output():
    trial = Trial({"a.txt": b"x" * MIB})
    trial.run("cat", "a.txt")
    nothing = least(lambda: trial.run("true"))
    told = least(lambda: trial.ask("measure", digits("cat"), digits("a.txt")))
    piped = least(lambda: subprocess.run(f"cat {trial.top}/h/scratch/a.txt | cat > /dev/null", shell=True, check=True))
    show("1 MiB of output, beyond a child without", told - nothing, piped, "cat | cat")


def time_many_left():
    trial = Trial({"a.txt": b"one", "d/b.txt": b"two"})
    for count in (50_000, 100_000):
        trial.run("python3", "-c", f"import os\nfor i in range({count}): os.close(os.open(f'd/{{i}}', os.O_CREAT | os.O_WRONLY))")
        print(f"the child after one that left {count} files".ljust(44) + f" {least(lambda: trial.run('true'), 1):9.2f} ms")


time_second_children()
time_output()
time_many_left()
