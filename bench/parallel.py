#!/usr/bin/env python3
"""Times runs with several commands of hooks at the same time, and pre-commit on the same files, and prints ratios.

Usage: bench/parallel.py [--small] [PROGRAM]   (default: crates/hookhost/out/hookhost)

  --small   a tenth of the files and one run of each, to see that all of it runs: the figures say nothing

Each run starts every command, by `run --all-files --fresh`: with one at once, and with as many as there are processors, which the first
line tells. Commands that wait could gain from more, and those that compute can't. Of a hook that gets the names of many files,
`x_at_most` makes parts. A command that writes a cache changes its folder, so in a large tree all commands run again, each in a folder of
its own. pre-commit, if it is installed, runs hooks one after another, and makes parts of one hook by its own rule. `the commands alone`
is the least time that they can take: as many at once, without any program around them. The commands of a line take turns, and each
figure is the least of several, with its ratio to that of pre-commit. Each time is wall time in milliseconds.
"""
import os
import shutil
import subprocess
import sys
import tempfile

sys.path.insert(0, os.path.dirname(os.path.abspath(__file__)))
from timing import is_asked, least_in_turn, program

SMALL = is_asked("--small")
PROGRAM = program()
PRE_COMMIT = shutil.which("pre-commit")
CONFIGURATION = ".pre-commit-config.yaml"
FILES, SOME, FEW, RUNS = (1000, 100, 20, 1) if SMALL else (10000, 1000, 200, 5)
SIZE, AT_ONCE = 400, len(os.sched_getaffinity(0))
# Two commands that take 5 ms for each file: one waits, and one computes.
WAITS = "perl -e 'select(undef, undef, undef, 0.005 * @ARGV)' --"
COMPUTES = "perl -MTime::HiRes=clock -e '1 while clock() < 0.005 * @ARGV' --"
SLEEPS, CACHES = "sh -c 'sleep 0.2' --", "sh -c 'sleep 0.2; mkdir -p .cache' --"
FIXES = "sh -c 'sleep 0.2; [ $0 != hook0 ] || echo fixed > folder0/0000.txt'"


def hooks(count, entry, keys):
    """So many hooks. Each has a word of its own if they are several, so that no two are the same command."""
    words = [f", args: [hook{at}]" if count > 1 else "" for at in range(count)]
    return "".join(f"  - {{id: hook{at}, name: Hook {at}, language: system, entry: \"{entry}\"{word}, {keys}}}\n" for at, word in enumerate(words))


def cases():
    """What is timed: a text, how many files, how many hooks, their entry, a key that only hookhost knows, and the commands alone: how many,
    and what each is."""
    part = SOME // 20
    own = f", x_at_most: {part}"
    return [
        (f"10 hooks that wait 0.2 s, {SOME} files", SOME, 10, SLEEPS, "", (10, "sleep 0.2")),
        (f"10 hooks that wait 0.2 s and write a cache, {FEW} files", FEW, 10, CACHES, "", (10, "sleep 0.2")),
        (f"10 hooks that wait 0.2 s and write a cache, {SOME} files", SOME, 10, CACHES, "", (10, "sleep 0.2")),
        (f"10 hooks that wait 0.2 s, of which the first changes a file, {FEW} files", FEW, 10, FIXES, "", (10, "sleep 0.2")),
        (f"10 hooks `true`, {SOME} files", SOME, 10, "true", "", (10, "true")),
        (f"10 hooks `true`, {FILES} files", FILES, 10, "true", "", (10, "true")),
        (f"a hook that waits 5 ms a file, {SOME} files in 20 parts", SOME, 1, WAITS, own, (20, f"sleep {part * 0.005}")),
        (f"a hook that computes 5 ms a file, {SOME} files in 20 parts", SOME, 1, COMPUTES, own, (20, f"{COMPUTES} $(seq {part})")),
    ]


def write(path, text):
    os.makedirs(os.path.dirname(path) or ".", exist_ok=True)
    with open(path, "w", encoding="utf-8") as file:
        file.write(text)


def make(folder, files, configured, commands):
    """A repository with so many files, which these commands make of the folder."""
    os.mkdir(folder)
    os.chdir(folder)
    write(CONFIGURATION, f"repos:\n- repo: local\n  hooks:\n{configured}")
    for at in range(files):
        write(f"folder{at % 10}/{at:04}.txt", f"{at} ".ljust(SIZE, "."))
    for words in commands:
        subprocess.run(words, check=True, stdout=subprocess.DEVNULL)


def time_case(folder, text, files, count, entry, own, alone):
    ours, theirs = os.path.join(folder, "ours"), os.path.join(folder, "theirs")
    make(ours, files, hooks(count, entry, "files: ^folder" + own), ([PROGRAM, "init"], [PROGRAM, "add", "."]))
    run = [PROGRAM, "run", "--all-files", "--fresh"]
    timed = {"one at once": (ours, [*run, "--jobs=1"]), f"{AT_ONCE} at once": (ours, [*run, f"--jobs={AT_ONCE}"])}
    timed["the commands alone"] = (ours, ["sh", "-c", f'seq {alone[0]} | xargs -P{AT_ONCE} -n1 sh -c "$0"', alone[1]])
    if PRE_COMMIT:
        make(theirs, files, hooks(count, entry, "files: ^folder"), (["git", "init", "--quiet", "."], ["git", "add", "--all"]))
        timed["pre-commit"] = (theirs, [PRE_COMMIT, "run", "--all-files"])
    least = least_in_turn(list(timed.values()), RUNS)
    print(text, *(f"{name:>20} {took:9.1f} ms  ratio {took / least[-1]:5.2f}" for name, took in zip(timed, least)), sep="\n", flush=True)
    os.chdir("/")
    for path in (ours, theirs):
        shutil.rmtree(path, ignore_errors=True)


def main():
    print(f"{AT_ONCE} processors, at a load of {os.getloadavg()[0]:.1f}", flush=True)
    folder = tempfile.mkdtemp()
    os.environ["PRE_COMMIT_HOME"] = os.path.join(folder, "pre-commit")
    try:
        for case in cases():
            time_case(folder, *case)
    finally:
        os.chdir("/")
        shutil.rmtree(folder)


main()
