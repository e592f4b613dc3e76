#!/usr/bin/env python3
"""Times `git commit` of one changed file with hookhost-git as the hook, and with pre-commit as the hook, in one run.

Usage: bench/git.py [PROGRAM [FILES..]]   (default: the built program, and 10, 1,000 and 10,000 files)

A repository holds so many files of 400 bytes. Ten hooks are commands that sleep 50 ms. Before each first try one file gets other
bytes and is staged. Once it is committed, the commit is undone and made again as it was: a second try, in which hookhost-git starts
no command. Each time is wall time in milliseconds, the least of several. Shown too are the times without the hooks' own sleep, and
that of the very first run, which stages each file.
"""
import os
import shutil
import subprocess
import sys
import tempfile

sys.path.insert(0, os.path.dirname(os.path.abspath(__file__)))
from timing import HERE, once, program

PROGRAM = program()
BRIDGE = os.path.join(HERE, "..", "git/hookhost-git")
COUNTS = [int(word) for word in sys.argv[2:]] or [10, 1000, 10_000]
CONFIGURATION, CHANGED = ".pre-commit-config.yaml", "many/000003"
SIZE, RUNS, HOOKS, SLEEP = 400, 3, 10, 50


def configuration():
    entry = lambda at: f'sh -c "sleep 0.0{SLEEP}" hook{at}'
    return "repos:\n- repo: local\n  hooks:\n" + "".join(f"  - {{id: hook{at}, name: Hook {at}, language: system, entry: '{entry(at)}', require_serial: true}}\n" for at in range(HOOKS))


def write(path, text):
    os.makedirs(os.path.dirname(path) or ".", exist_ok=True)
    with open(path, "w", encoding="utf-8") as file:
        file.write(text)


def do(*words):
    done = subprocess.run(words, stdout=subprocess.PIPE, stderr=subprocess.STDOUT, text=True)
    if done.returncode:
        sys.exit(f"bench/git.py: {words!r}: {done.stdout}")
    return done.stdout


def make(files, *install):
    do("git", "init", "--quiet", ".")
    write(CONFIGURATION, configuration())
    for at in range(files):
        write(f"many/{at:06}", f"{at} ".ljust(SIZE, ".") + "\n")
    do("git", "add", "--all")
    do("git", "commit", "--quiet", "-m", "m")
    do(*install)


def time_tries():
    """The least times of the first and of the second try, and what the first of all took."""
    commit, times = ["git", "commit", "--quiet", "-m", "m"], []
    for at in range(RUNS + 1):
        write(CHANGED, f"changed {at}\n")
        do("git", "add", CHANGED)
        first = once(commit)
        do("git", "reset", "--quiet", "--soft", "HEAD~1")
        times.append((first, once(commit)))
        if do("git", "show", "--format=", "--name-only", "HEAD") != CHANGED + "\n":
            sys.exit("bench/git.py: a commit isn't made")
    return [min(column) for column in zip(*times[1:])], times[0][0]


def show(files, what, ours, theirs):
    print(f"{files:7} files, {what:24} {ours:9.1f} ms  pre-commit {theirs:9.1f} ms  ratio {ours / theirs:6.2f}", flush=True)


def main():
    who = {f"GIT_{role}_{what}": "bench@localhost" for role in ("AUTHOR", "COMMITTER") for what in ("NAME", "EMAIL")}
    os.environ.update(who, HOOKHOST=PROGRAM, GIT_CONFIG_GLOBAL="/dev/null")
    print(f"ten hooks that sleep {SLEEP} ms")
    for files in COUNTS:
        folder = tempfile.mkdtemp()
        os.environ["PRE_COMMIT_HOME"] = os.path.join(folder, "pre-commit")
        found = {}
        for name, install in (("ours", [BRIDGE, "install"]), ("theirs", ["pre-commit", "install"])):
            os.mkdir(os.path.join(folder, name))
            os.chdir(os.path.join(folder, name))
            make(files, *install)
            found[name] = time_tries()
        (ours, first), (theirs, _) = found["ours"], found["theirs"]
        show(files, "first try", ours[0], theirs[0])
        show(files, "first try but the sleep", ours[0] - HOOKS * SLEEP, theirs[0] - HOOKS * SLEEP)
        show(files, "second try", ours[1], theirs[1])
        show(files, "second try but the sleep", ours[1], theirs[1] - HOOKS * SLEEP)
        print(f"{files:7} files, {'the first run of all':24} {first:9.1f} ms")
        os.chdir("/")
        shutil.rmtree(folder)


main()
