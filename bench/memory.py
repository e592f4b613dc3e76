#!/usr/bin/env python3
"""Times runs with cached results, in one process of the built program run_trial, and prints ratios.

Usage: bench/memory.py [--small] [RUN_TRIAL]   (default: crates/run_trial/out/run_trial)

  --small   few files and answers, to see that all of it runs: the figures say nothing

Children answer at once, so that only a run's own share is timed, over a book in memory with room for all answers. A run of ten
hooks, each of which gets all files, is timed with nothing and with all of it cached. It is compared with the same run by hooks of
the language `fail`, which start no child. Then runs on one file are timed with more and more cached answers: ten look-ups of the
answer in front in each run; a run for each answer, which puts it; and another, which looks it up and brings it to the front. Each
time is in milliseconds: what so many more runs take in a call, divided by their number, the least of several calls.
"""
import os
import subprocess
import sys
import time

HERE = os.path.dirname(os.path.abspath(__file__))
sys.path[:1] = [HERE]
from timing import is_asked

SMALL = is_asked("--small")
PROGRAM = os.path.abspath(sys.argv[1] if len(sys.argv) > 1 else os.path.join(HERE, "..", "crates/run_trial/out/run_trial"))
HOOKS, SIZE, TURNS = 10, 400, 2 if SMALL else 5
AIM_BESIDE_FAIL, AIM_TWICE = 2, 2.2
# The files of a run, and how many more runs a call makes.
FILES = [(100, 20)] if SMALL else [(1000, 20), (10000, 4)]
ROWS = [50, 100, 200, 400] if SMALL else [500, 1000, 5000, 10000]
RUNS_AMONG = 100


def configuration(count, hook):
    return "repos:\n- repo: local\n  hooks:\n" + "".join(f"  - {{id: h{at}, name: Hook {at}, {hook(at)}}}\n" for at in range(count))


def tool(at):
    return f"language: system, entry: tool{at}"


def command(at):
    return "language: system, entry: c"


def fails(at):
    return "language: fail, entry: never"


def row(call, *arguments):
    return " ".join([call, *(str(word).encode().hex() for word in arguments)])


def played(rows):
    """The answers of one process to these rows, and the milliseconds of each."""
    process = subprocess.Popen([PROGRAM], stdin=subprocess.PIPE, stdout=subprocess.PIPE, text=True)
    process.stdin.write("".join(line + "\n" for line in ["columns", *rows]))
    process.stdin.close()
    process.stdout.readline()
    answers, times = [], []
    for _ in rows:
        start = time.perf_counter()
        answers.append(bytes.fromhex(process.stdout.readline().strip()).decode())
        times.append((time.perf_counter() - start) * 1000)
    if process.wait():
        sys.exit(f"bench/memory.py: run_trial ended with {process.returncode}")
    return answers, times


def per_run(call, *arguments, more, wanted, before=1):
    """The rows of a call with so many runs before and with so many more, which have to be answered so, and how many more these are."""
    return [(row(call, *arguments, before + count), count, wanted(before + count)) for count in (0, more)]


def timed(measures):
    """The least milliseconds of a run of each measure. They take turns."""
    rows = [each for _ in range(TURNS) for measure in measures for each in measure]
    answers, times = played([text for text, _, _ in rows])
    for (text, _, wanted), answer in zip(rows, answers):
        if not answer.startswith(wanted):
            sys.exit(f"bench/memory.py: {text[:40]} is answered by {answer[:60]!r}, wanted {wanted!r}")
    found = []
    for at, measure in enumerate(measures):
        least = [min(times[turn * 2 * len(measures) + 2 * at + which] for turn in range(TURNS)) for which in (0, 1)]
        found.append((least[1] - least[0]) / measure[1][1])
    return found


def told(calls, remembered):
    return f"{calls} calls, {remembered} remembered\n"


def show(what, ours, other, beside, aim=""):
    aim = f"  aim {aim}" if aim else ""
    print(f"{what:52} {ours:9.3f} ms  {beside} {other:9.3f} ms  ratio {ours / other:6.2f}{aim}", flush=True)


def time_many_files():
    for files, more in FILES:
        tools, failing = configuration(HOOKS, tool), configuration(HOOKS, fails)
        first, remembered, fail = timed([
            per_run("first_runs", tools, files, SIZE, more=more, wanted=lambda runs: told(HOOKS * runs, HOOKS)),
            per_run("further_runs", tools, files, SIZE, more=more, wanted=lambda runs: told(HOOKS, HOOKS)),
            per_run("further_runs", failing, files, SIZE, more=more, wanted=lambda runs: told(0, 0)),
        ])
        show(f"ten hooks, {files} files, nothing remembered", first, fail, "`fail` hooks")
        show(f"ten hooks, {files} files, all remembered", remembered, fail, "`fail` hooks", AIM_BESIDE_FAIL)


def time_rows():
    among = timed([per_run("runs_among", configuration(HOOKS, command), rows, more=RUNS_AMONG, wanted=lambda runs: told(1, rows + 1)) for rows in ROWS])
    put = timed([per_run("runs_of_each", configuration(1, command), rows, more=1, before=0, wanted=lambda runs: told(rows * runs, rows * runs)) for rows in ROWS])
    each = timed([per_run("runs_of_each", configuration(1, command), rows, more=3, wanted=lambda runs: told(rows, rows)) for rows in ROWS])
    for what, times in (("ten look-ups, {} remembered", among), ("each of {} put", put), ("each of {} looked up", each)):
        for half, whole in ((0, 1), (2, 3)):
            show(what.format(ROWS[whole]), times[whole], times[half], f"of {ROWS[half]}", AIM_TWICE)


if __name__ == "__main__":
    time_many_files()
    time_rows()
