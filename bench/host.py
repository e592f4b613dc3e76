#!/usr/bin/env python3
"""Times the commands on a repository and Git doing the same in a repository of its own, in one run, and prints ratios.

Usage: bench/host.py [PROGRAM [STORE_TRIAL]]   (default: the built programs)

The repositories are empty, or hold staged files of 400 bytes after some commits, each of which changes one file. Those of hookhost
are made by store_trial. Each command is compared with Git's, and with opening the store, by store_trial, which does nothing else
(its input is one line). `memory`, `memory --limit` and `forget` are timed with 100 answers in the store, of which the limit drops
half; Git has nothing like them. If one `add` stages many files of 400 bytes in a new repository, neither program has any content
yet. Each time is wall time in milliseconds, the least of several runs in which the programs take turns. The peak memory is of the
whole process.
"""
import os
import shutil
import subprocess
import sys
import tempfile
from collections import namedtuple

sys.path.insert(0, os.path.dirname(os.path.abspath(__file__)))
from timing import HERE, in_folder, made_peak, once, peak, program, show

PROGRAM = program()
STORE_TRIAL = os.path.abspath(sys.argv[2] if len(sys.argv) > 2 else os.path.join(HERE, "..", "crates/store_trial/out/store_trial"))
GIT = shutil.which("git") or sys.exit("bench/host.py: there is no git to compare with")
STORE = ".hookhost/store.db"
SIZE, RUNS = 400, 15
# How many files one `add` stages, and how often.
MANY, MANY_RUNS = 10_000, 5
# The files and the commits of each repository.
HISTORIES = [(0, 0), (1000, 1), (1000, 100), (10000, 1), (10000, 10)]
# What is timed: our words and git's. The file NEW gets other bytes before each round, and is staged only between its add and its
# rm.
NEW, OLD = "new.txt", "many/000000"
Pair = namedtuple("Pair", "ours git")
CHANGES = {"add": Pair(["add", NEW], ["add", NEW]), "rm": Pair(["rm", NEW], ["rm", "--cached", "--quiet", NEW])}
LOOK_UPS = {"status": Pair(["status"], ["status", "--short", "--untracked-files=no"])}
OF_HISTORY = {
    "cat": Pair(["cat", OLD], ["cat-file", "blob", ":" + OLD]),
    "log": Pair(["log"], ["log", "--oneline"]),
    "show": Pair(["show", "1"], ["show", "--name-only", "--format=%B", "first"]),
}

# The commands on cached answers, and lines by which store_trial puts some, of which there is room for all again.
OF_ANSWERS = {"memory": ["memory"], "memory --limit": ["memory", "--limit=50"], "forget": ["forget"]}
FIRST_LIMIT = 10_000
ANSWERS = [f"remember tool{at} {NEW} | {NEW}={at} | | 0" for at in range(100)]


def git(*words):
    subprocess.run([GIT, "-c", "user.name=bench", "-c", "user.email=bench@localhost", "-c", "gc.auto=0", *words], check=True, stdout=subprocess.DEVNULL)


def write(path, text):
    if os.path.dirname(path):
        os.makedirs(os.path.dirname(path), exist_ok=True)
    with open(path, "w", encoding="utf-8") as file:
        file.write(text)


def contents_of(seed, at):
    return f"{seed} {at} ".ljust(SIZE, ".")


def play(lines):
    """Plays lines on the folder's store, each of which has to be answered by ok."""
    text = "".join(line + "\n" for line in ["open", *lines, "close"])
    answers = subprocess.run([STORE_TRIAL, STORE], input=text, stdout=subprocess.PIPE, text=True).stdout.splitlines()
    if len(answers) != len(lines) + 2 or not all(answer.startswith("ok") for answer in answers):
        sys.exit(f"bench/host.py: store_trial answers {answers[-1:]!r}")


def make_ours(files, commits):
    subprocess.run([PROGRAM, "init"], check=True)
    changes = (line for at in range(commits) for line in (f"stage plain {OLD} {contents_of(at, 0)}", f"commit m{at}"))
    play([*([f"stage-many {files} {SIZE} 0"] if files else []), *changes])


def make_git(files, commits):
    git("init", "--quiet", ".")
    for at in range(files):
        write(f"many/{at:06}", contents_of(0, at))
    git("add", "--all")
    for at in range(commits):
        write(OLD, contents_of(at, 0))
        git("commit", "--quiet", "--all", "--allow-empty", "--message", f"m{at}")
        if at == 0:
            git("tag", "first")


def time_commands(ours, other, opening, has_history):
    """The least milliseconds of each command, of git's, and of opening the store."""
    pairs = {**CHANGES, **LOOK_UPS, **(OF_HISTORY if has_history else {})}
    times = {what: ([], []) for what in pairs}
    opened = []
    for number in range(RUNS):
        for folder in (ours, other):
            write(os.path.join(folder, NEW), contents_of(1000 + number, number))
        for what, pair in pairs.items():
            times[what][0].append(in_folder(ours, [PROGRAM, *pair.ours]))
            times[what][1].append(in_folder(other, [GIT, *pair.git]))
        opened.append(in_folder(ours, [STORE_TRIAL, STORE], opening))
    return {what: (min(mine), min(theirs)) for what, (mine, theirs) in times.items()}, min(opened)


def put_answers():
    """Puts answers into the folder's store. The commands after that leave its log as commands do: with what store_trial leaves
    the next one would wait longer for the disk."""
    play([f"set-limit {FIRST_LIMIT}", *ANSWERS])
    for pair in CHANGES.values():
        once([PROGRAM, *pair.ours])


def time_on_answers(folder, opening):
    """The least milliseconds of each command on cached answers, and of opening the store with them."""
    os.chdir(folder)
    rounds = []
    for _ in range(RUNS):
        put_answers()
        rounds.append([once([STORE_TRIAL, STORE], opening), *(once([PROGRAM, *words]) for words in OF_ANSWERS.values())])
    opened, *times = map(min, zip(*rounds))
    return dict(zip(OF_ANSWERS, times)), opened


def tell_peaks(helper, folder, opening, has_history):
    os.chdir(folder)
    put_answers()
    alone = peak(helper, [STORE_TRIAL, STORE], opening) / 1e6
    pairs = {**CHANGES, **LOOK_UPS, **(OF_HISTORY if has_history else {})}
    words = {**{what: pair.ours for what, pair in pairs.items()}, **OF_ANSWERS}
    peaks = [(what, peak(helper, [PROGRAM, *each]) / 1e6) for what, each in words.items()]
    told = ", ".join(f"{what} {most:.1f} MB, {most / alone:.2f} times" for what, most in peaks)
    print(f"{'':44} peak memory of opening alone {alone:.1f} MB; {told}")


def time_init(folder):
    times = ([], [])
    for number in range(RUNS):
        for which, words in enumerate(([PROGRAM, "init"], [GIT, "init", "--quiet", "."])):
            work = os.path.join(folder, f"{number}.{which}")
            os.mkdir(work)
            times[which].append(in_folder(work, words))
    show("init", min(times[0]), min(times[1]), "git")


def time_many(folder, helper):
    """One `add` of a folder of files, each time in a new repository, and its peak memory."""
    times = ([], [])
    for number in range(MANY_RUNS):
        for which, (made, words) in enumerate((([PROGRAM, "init"], [PROGRAM, "add", "many"]), ([GIT, "init", "--quiet", "."], [GIT, "add", "many"]))):
            work = os.path.join(folder, f"many{number}.{which}")
            os.mkdir(work)
            os.chdir(work)
            for at in range(MANY):
                write(f"many/{at:06}", contents_of(number, at))
            subprocess.run(made, check=True)
            times[which].append(once(words))
            if number == MANY_RUNS - 1 and which == 0:
                once([PROGRAM, "rm", "many"])
                most = peak(helper, words) / 1e6
            os.chdir(folder)
            shutil.rmtree(work)
    show(f"add: {MANY} new files", min(times[0]), min(times[1]), "git")
    print(f"{'':44} peak memory {most:.1f} MB")


def time_history(folder, helper, files, commits):
    ours, other = os.path.join(folder, "ours"), os.path.join(folder, "git")
    for work, make in ((ours, make_ours), (other, make_git)):
        os.mkdir(work)
        os.chdir(work)
        make(files, commits)
    opening = os.path.join(folder, "opening")
    write(opening, "open\n")
    times, opened = time_commands(ours, other, opening, commits > 0)
    for what, (mine, theirs) in times.items():
        show(f"{what}: {files} files, {commits} commits", mine, theirs, "git")
        print(f"{'':44} beside opening the store, {opened:.2f} ms: ratio {mine / opened:.2f}")
    times, opened = time_on_answers(ours, opening)
    for what, took in times.items():
        show(f"{what} of {len(ANSWERS)} answers: {files} files, {commits} commits", took, opened, "opening")
    tell_peaks(helper, ours, opening, commits > 0)


def main():
    with tempfile.TemporaryDirectory() as folder:
        helper = made_peak(folder)
        time_init(folder)
        time_many(folder, helper)
        for number, (files, commits) in enumerate(HISTORIES):
            work = os.path.join(folder, f"history{number}")
            os.mkdir(work)
            time_history(work, helper, files, commits)
        os.chdir("/")


main()
