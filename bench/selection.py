#!/usr/bin/env python3
"""Times patterns, tags and `pygrep` in `hookhost try` and in other programs on the same files, and prints ratios.

Usage: bench/selection.py [PROGRAM [TRIAL]]   (default: crates/hookhost/out/hookhost, crates/selection_trial/out/selection_trial)

The others are `git grep`, `grep`, `cat`, the program for tests that builds patterns and does nothing else, and pre-commit if that
is installed. The commands of a line take turns, so that a busy moment hits them alike, and each figure is the median of their wall
times, in seconds. Each output goes through a pipe, since `grep` stops at the first match if it writes to /dev/null. A pre-commit
that is too slow for several runs is run once.
"""
import os
import shutil
import statistics
import subprocess
import sys
import tempfile

sys.path.insert(0, os.path.dirname(os.path.abspath(__file__)))
from timing import HERE, once, program

PROGRAM = program()
TRIAL = os.path.abspath(sys.argv[2] if len(sys.argv) > 2 else os.path.join(HERE, "..", "crates/selection_trial/out/selection_trial"))
PRE_COMMIT = shutil.which("pre-commit")
CONFIGURATION = ".pre-commit-config.yaml"
# Lines of 40 bytes with their line feeds.
PLAIN = "the quick brown fox jumps over the dogs\n"
HIT = "the quick brown TODO jump over the dogs\n"
COUNTS = (1, 50, 500)
HALF, PATHS = 5000, 10000


# ---- files

def write(name, text):
    with open(name, "w", encoding="utf-8") as file:
        file.write(text)


def lines(count, every):
    """So many lines of 40 bytes, of which one in `every` has the word that is looked for."""
    return "".join(HIT if every and number % every == 0 else PLAIN for number in range(count))


def configuration(name, hooks):
    write(name, "repos:\n- repo: local\n  hooks:\n" + "".join(f"  - {{{hook}}}\n" for hook in hooks))


def fail_hooks(count, key):
    """Hooks that no file is selected for, each by a value of its own."""
    return [f"id: h{number}, name: Hook {number}, language: fail, entry: never, {key(number)}" for number in range(count)]


def by_files(number):
    return rf"files: '^src/module{number}/.*\.(c|h)$'"


def by_types(number):
    return "types: [image]"


def grep_hook(entry):
    return f"id: g, name: G, language: pygrep, entry: {entry}"


# ---- times

def piped(words, stdin="/dev/null"):
    """The command with its output going through a pipe."""
    return ["sh", "-c", 'stdin=$1; shift; "$@" < "$stdin" | cat', "sh", stdin, *words]


def medians(commands, runs):
    """The median wall time of each command in seconds. They take turns."""
    times = [[once(words) / 1000 for words in commands] for _ in range(runs)]
    return [statistics.median(each) for each in zip(*times)]


def show(what, ours, other, beside, aim=""):
    aim = f"  aim {aim}" if aim else ""
    print(f"{what:58} {ours:8.4f} s  {beside:14} {other:8.4f} s  ratio {ours / other:6.2f}{aim}", flush=True)


def show_twice(what, one, two):
    print(f"{what:58} {two:8.4f} s  {'half of it':14} {one:8.4f} s  ratio {two / one:6.2f}  aim 2.2", flush=True)


def tried(name, paths):
    return piped([PROGRAM, "try", name, *paths])


def report_of(words):
    return subprocess.run(words, capture_output=True).stdout


def beside_pre_commit(what, ours, paths, aim=1):
    """The same configuration by pre-commit, on all files of the repository, which has to report the same of them."""
    if PRE_COMMIT:
        words = [PRE_COMMIT, "run", "--all-files", "--color", "never"]
        if report_of(words) != report_of([PROGRAM, "try", CONFIGURATION, *paths]):
            sys.exit(f"bench/selection.py: {what}: pre-commit reports something else")
        slow = once(piped(words)) / 1000
        other = medians([piped(words)], 3)[0] if slow < 3 else slow
        show(what, ours, other, "pre-commit", aim)


# ---- what is timed

def time_many_files(paths):
    """`pygrep` over many small files, and its own configuration, as all files of the repository are."""
    configuration(CONFIGURATION, [grep_hook("TODO")])
    paths = [CONFIGURATION, *paths]
    ours, git_grep, grep = medians([tried(CONFIGURATION, paths), piped(["git", "grep", "-n", "TODO"]), piped(["grep", "-n", "TODO", *paths])], 15)
    what = f"pygrep, {PATHS} files of 400 bytes"
    show(what, ours, git_grep, "git grep -n")
    show(what, ours, grep, "grep -n")
    show(what, ours, min(git_grep, grep), "the faster", 2)
    beside_pre_commit(what, ours, paths)


def time_files_alone():
    """`pygrep` over one file of a line, and over one of 16 MiB, each in a repository of its own."""
    time_file_alone("pygrep, one file of 40 bytes", 1, 0, "", 0.01)
    time_file_alone("pygrep, one file of 16 MiB, without a match", 16 * 1024 * 1024 // 40, 0, 5, 1)
    time_file_alone("pygrep, one file of 16 MiB, one line in ten matches", 16 * 1024 * 1024 // 40, 10, 3, 1)


def time_file_alone(what, count, every, aim, pre_commit_aim):
    folder = tempfile.mkdtemp(dir=".")
    os.chdir(folder)
    write("alone.txt", lines(count, every))
    configuration(CONFIGURATION, [grep_hook("TODO")])
    stage()
    paths = [CONFIGURATION, "alone.txt"]
    ours, grep = medians([tried(CONFIGURATION, paths), piped(["grep", "-n", "TODO", *paths])], 15)
    show(what, ours, grep, "grep -n | cat", aim)
    beside_pre_commit(what, ours, paths, pre_commit_aim)
    os.chdir("..")
    shutil.rmtree(folder)


def time_hooks(paths):
    """Hooks that no file is selected for."""
    for word, key in (("files", by_files), ("types", by_types)):
        for few in (paths[:1000], paths):
            times = {}
            for count in COUNTS:
                configuration(CONFIGURATION, fail_hooks(count, key))
                times[count], cat = medians([tried(CONFIGURATION, few), piped(["cat", *few])], 7)
                aim = 10 if word == "files" and (count, len(few)) == (500, PATHS) else ""
                what = f"{count} hooks by `{word}`, {len(few)} paths, none selected"
                show(what, times[count], cat, "cat", aim)
                if len(few) == PATHS:
                    beside_pre_commit(what, times[count], few)
        configuration("half.yaml", fail_hooks(250, key))
        configuration("whole.yaml", fail_hooks(500, key))
        one, two, half = medians([tried("half.yaml", paths), tried("whole.yaml", paths), tried("whole.yaml", paths[:HALF])], 7)
        show_twice(f"twice the hooks by `{word}` (250 to 500, {PATHS} paths)", one, two)
        show_twice(f"twice the paths by `{word}` ({HALF} to {PATHS}, 500 hooks)", half, two)


def time_patterns(paths):
    """A configuration of 500 patterns that is read, and then run too, compared with a program that builds the same patterns."""
    patterns = [rf"^src/module{number}/.*\.(c|h)$" for number in range(500)]
    configuration(CONFIGURATION, fail_hooks(500, by_files))
    write("patterns.rows", "".join(f"pattern {each.encode().hex()}\n" for each in patterns))
    commands = [piped([PROGRAM, "check"]), tried(CONFIGURATION, paths[:1]), piped([TRIAL], "patterns.rows"), piped([TRIAL])]
    read, run, alone, none = medians(commands, 31)
    show("`check` of a configuration with 500 patterns", read, alone, "building them", 1.5)
    show("`try` of it on one path, 500 hooks in its report", run, alone, "building them")
    print(f"{'':58} {none:8.4f} s  of which the program for tests takes without a pattern")


def stage():
    """Makes the current folder a repository with all of its files staged."""
    subprocess.run(["git", "init", "--quiet", "."], check=True)
    subprocess.run(["git", "add", "."], check=True)


def main():
    for built in (PROGRAM, TRIAL):
        if not os.path.exists(built):
            sys.exit(f"bench/selection.py: there is no {built}: build it with `rt run` in its crate's folder")
    folder = tempfile.mkdtemp()
    os.environ.update(PRE_COMMIT_HOME=os.path.join(folder, "home"), GIT_CONFIG_GLOBAL="/dev/null")
    os.mkdir(os.path.join(folder, "work"))
    os.chdir(os.path.join(folder, "work"))
    try:
        os.mkdir("files")
        paths = [f"files/f{number:05}.txt" for number in range(PATHS)]
        for number, path in enumerate(paths):
            write(path, lines(10, 10 if number % 100 == 0 else 0))
        configuration(CONFIGURATION, [])
        stage()
        time_many_files(paths)
        time_hooks(paths)
        time_patterns(paths)
        os.chdir("..")
        time_files_alone()
    finally:
        os.chdir("/")
        shutil.rmtree(folder)


main()
