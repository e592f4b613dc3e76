#!/usr/bin/env python3
"""Times commits and runs on a repository and Git with pre-commit's hooks installed, in one run, and prints ratios.

Usage: bench/commit.py [PROGRAM [STORE_TRIAL]]   (default: the built programs)

The repositories hold staged files of 400 bytes after some commits, each of which changes one file. Those of hookhost are made by
store_trial. Before each timed commit one file gets other bytes and is staged. The hooks are commands, `true`, of the stage
`pre-commit`. They get a word of their own, so that each starts a child, and the changed file. pre-commit is installed for all four
stages of a commit. A commit is compared with Git's, and with opening the store, by store_trial, which does nothing else. A run of
one hook on all files is compared with pre-commit's, and with `try` of the same files, which opens no store. Each time is wall time
in milliseconds, the least of several.
"""
import os
import shutil
import subprocess
import sys
import tempfile

sys.path.insert(0, os.path.dirname(os.path.abspath(__file__)))
from timing import HERE, least_in_turn, once, program, show

PROGRAM = program()
STORE_TRIAL = os.path.abspath(sys.argv[2] if len(sys.argv) > 2 else os.path.join(HERE, "..", "crates/store_trial/out/store_trial"))
STORE, CONFIGURATION, NEW = ".hookhost/store.db", ".pre-commit-config.yaml", "new.txt"
SIZE, RUNS, GIT_RUNS = 400, 9, 3
STAGES = ["pre-commit", "prepare-commit-msg", "commit-msg", "post-commit"]
# How many files are staged after how many commits, and the most that a commit with two hooks should take of Git's time.
HISTORIES = [(10, 1, 0.1), (1000, 1, 0.5), (1000, 100, None)]
HOOKS = [0, 2, 10]
# A commit after many commits should take at most so many times what opening the store does more than one after a single commit.
MORE_FOR_HISTORY = 1.3


def configuration(hooks):
    return "repos:\n- repo: local\n  hooks:" + (" []\n" if not hooks else "\n") + "".join(
        f"  - {{id: hook{at}, name: Hook {at}, language: system, entry: \"true\", args: [hook{at}], stages: [commit], require_serial: true}}\n" for at in range(hooks))


def write(path, text):
    os.makedirs(os.path.dirname(path) or ".", exist_ok=True)
    with open(path, "w", encoding="utf-8") as file:
        file.write(text)


def do(*words, **how):
    done = subprocess.run(words, stdout=subprocess.PIPE, stderr=subprocess.PIPE, text=True, **how)
    if done.returncode:
        sys.exit(f"bench/commit.py: {words!r}: {done.stdout}{done.stderr}")
    return done.stdout


def play(lines):
    """Plays lines on the folder's store, each of which has to be answered by ok."""
    answers = do(STORE_TRIAL, STORE, input="".join(line + "\n" for line in ["open", *lines, "close"])).splitlines()
    if not all(answer.startswith("ok") for answer in answers):
        sys.exit(f"bench/commit.py: store_trial answers {answers[-1:]!r}")


def make_ours(files, commits, hooks):
    do(PROGRAM, "init")
    write(CONFIGURATION, configuration(hooks))
    do(PROGRAM, "add", CONFIGURATION)
    changes = (line for at in range(commits) for line in (f"stage plain {NEW} {at}", f"commit m{at}"))
    play([f"stage-many {files} {SIZE} 0", *changes])


def make_git(files, commits, hooks):
    do("git", "init", "--quiet", ".")
    write(CONFIGURATION, configuration(hooks))
    for at in range(files):
        write(f"many/{at:06}", f"0 {at} ".ljust(SIZE, "."))
    for at in range(commits):
        write(NEW, str(at))
        do("git", "add", "--all")
        do("git", "commit", "--quiet", "--message", f"m{at}")
    for stage in STAGES:
        do("pre-commit", "install", "--hook-type", stage)


def time_commit(number, add, commit):
    """The time of one commit, of a file that has other bytes than before."""
    write(NEW, f"other {number}")
    do(*add, NEW)
    return once(commit)


def time_open():
    """What opening the store takes."""
    write("../open", "open\n")
    return min(once([STORE_TRIAL, STORE], "../open") for _ in range(RUNS))


def time_commits(folder, files, commits, hooks):
    """The times of a commit here, of Git's, and of opening the store."""
    times = {}
    for name, make, add, commit, runs in (("ours", make_ours, [PROGRAM, "add"], [PROGRAM, "commit", "-m", "m"], RUNS),
                                          ("git", make_git, ["git", "add"], ["git", "commit", "--quiet", "-m", "m"], GIT_RUNS)):
        work = os.path.join(folder, name)
        os.mkdir(work)
        os.chdir(work)
        make(files, commits, hooks)
        times[name] = min(time_commit(number, add, commit) for number in range(runs))
    os.chdir(os.path.join(folder, "ours"))
    opening = time_open()
    os.chdir(folder)
    for name in ("ours", "git"):
        shutil.rmtree(name)
    return times["ours"], times["git"], opening


def time_runs(folder, files):
    """A run of one hook on all files."""
    for name, make in (("ours", make_ours), ("git", make_git)):
        work = os.path.join(folder, name)
        os.mkdir(work)
        os.chdir(work)
        make(files, 1, 1)
    paths = [CONFIGURATION, NEW, *(f"many/{at:06}" for at in range(files))]
    ours, git = os.path.join(folder, "ours"), os.path.join(folder, "git")
    os.chdir(ours)
    opening = time_open()
    run, tried, cat = least_in_turn([(ours, [PROGRAM, "run", "--all-files"]), (git, [PROGRAM, "try", *([CONFIGURATION] + paths)]), (git, ["cat", *paths])], RUNS)
    os.chdir(git)
    theirs = min(once(["pre-commit", "run", "--all-files"]) for _ in range(GIT_RUNS))
    show(f"run --all-files, {files} files", run, theirs, "pre-commit")
    print(f"{'':44} opening the store {opening:.2f} ms, try {tried:.2f} ms: {run - opening - tried:+.2f} ms beside these, cat {cat:.2f} ms  aim 1 cat")
    os.chdir(folder)
    for name in ("ours", "git"):
        shutil.rmtree(name)


def main():
    os.environ.update(GIT_AUTHOR_NAME="bench", GIT_AUTHOR_EMAIL="bench@localhost", GIT_COMMITTER_NAME="bench", GIT_COMMITTER_EMAIL="bench@localhost")
    folder = tempfile.mkdtemp()
    os.environ["PRE_COMMIT_HOME"] = os.path.join(folder, "pre-commit")
    try:
        after_one = {}
        for files, commits, aim in HISTORIES:
            for hooks in HOOKS:
                ours, git, opening = time_commits(folder, files, commits, hooks)
                show(f"commit, {files} files, {commits} commits, {hooks} hooks", ours, git, "git commit")
                if hooks == 2 and aim:
                    print(f"{'':44} aim {aim}")
                if commits == 1:
                    after_one[files, hooks] = ours
                else:
                    more = ours - after_one[files, hooks]
                    print(f"{'':44} {more:+.2f} ms beside one commit, opening the store {opening:.2f} ms: {more / opening:.2f} times  aim {MORE_FOR_HISTORY}")
        for files in (1000, 10000):
            time_runs(folder, files)
    finally:
        os.chdir("/")
        shutil.rmtree(folder)


main()
