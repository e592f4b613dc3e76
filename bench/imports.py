#!/usr/bin/env python3
"""Times `git commit` of one changed file with eleven hooks of other repositories and five local ones, with hookhost-git as the hook and
with pre-commit as the hook, in one run.

Usage: bench/imports.py [PROGRAM [FILES..]]   (default: the built program, and 10, 1,000 and 10,000 files)

The hooks are those of tests/git/imported_hooks_tools.py: black, isort, pyupgrade, flake8, codespell and yamllint, installed by pip from
wheels of Debian's packages, so nothing comes from the network; shellcheck, xmllint, two searches and a `fail` hook of a third repository;
and mypy, a search, jq, a script and a `fail` hook as local ones. The files are small texts of Python, Markdown, YAML, JSON, XML and
shell. A first commit changes one file of Python, which eleven of the commands get or may read. Then the commit is undone and made again
as it was: the second one. Each time is wall time in milliseconds, the least of several, and then the processor time of all processes that
were started, which other work on the machine lengthens less. The very first run comes before, once pre-commit has installed the hooks: it
makes local ones of them, and brings each file to the store.
"""
import os
import shutil
import subprocess
import sys
import tempfile
import time

sys.path.insert(0, os.path.dirname(os.path.abspath(__file__)))
from timing import HERE, program

PROGRAM = program()
COUNTS = [int(word) for word in sys.argv[2:]] or [10, 1000, 10_000]
sys.argv[1:] = [PROGRAM]
sys.path[1:1] = [os.path.join(HERE, "..", "tests", each) for each in ("git", "shared")]
from git_bridge_repository import BRIDGE, CONFIGURATION, environment
from imported_hooks_tools import GOOD, desk

RUNS, CHANGED = 3, "app/main.py"
# What the hooks need, in a repository of ten files.
NEEDED = [CHANGED, "app/__init__.py", "app/values.py", "check", "data/a.json", "mypy.ini", "pyproject.toml", "setup.cfg", "values"]
ENDS = {
    "py": "NUMBER_{0}: int = {0}\n", "md": "# Text {0}\n\nA text.\n", "yaml": "number: {0}\n", "json": '{{"number": {0}}}\n',
    "xml": "<number>{0}</number>\n", "sh": "#!/bin/sh\necho {0}\n",
}


def do(*words):
    done = subprocess.run(words, stdout=subprocess.PIPE, stderr=subprocess.STDOUT, text=True)
    if done.returncode:
        sys.exit(f"bench/imports.py: {words!r}: {done.stdout}")
    return done.stdout


def write(path, held):
    os.makedirs(os.path.dirname(path) or ".", exist_ok=True)
    with open(path, "w", encoding="utf-8") as file:
        file.write(held)
    if held.startswith("#!"):
        os.chmod(path, 0o755)


def make(files, text):
    """A repository with so many files."""
    do("git", "init", "--quiet", ".")
    write(CONFIGURATION, "repos:" + text)
    chosen = GOOD if files > len(GOOD) else NEEDED
    for path in chosen:
        write(path, GOOD[path])
    ends = list(ENDS.items())
    for at in range(files - len(chosen) - 1):
        end, held = ends[at % len(ends)]
        write(f"many/{at // 100:03}/{'file' if end != 'py' else 'module'}{at:05}.{end}", held.format(at))
    do("git", "add", "--all")
    do("git", "commit", "--quiet", "--no-verify", "-m", "m")


def once(words):
    """The wall time of a command and the processor time of all that it starts, in milliseconds."""
    start, before = time.perf_counter(), os.times()
    subprocess.run(words, stdin=subprocess.DEVNULL, stdout=subprocess.DEVNULL, stderr=subprocess.DEVNULL)
    took, after = time.perf_counter() - start, os.times()
    return took * 1000, (after.children_user + after.children_system - before.children_user - before.children_system) * 1000


def least(times):
    """The least wall time and the least processor time."""
    return tuple(map(min, zip(*times)))


def time_commit(text):
    """The times of a first and of a second commit, which give the changed file this text."""
    commit = ["git", "commit", "--quiet", "-m", "m"]
    write(CHANGED, text)
    do("git", "add", CHANGED)
    first = once(commit)
    do("git", "reset", "--quiet", "--soft", "HEAD~1")
    second = once(commit)
    if do("git", "show", "--format=", "--name-only", "HEAD") != CHANGED + "\n":
        sys.exit(f"bench/imports.py: a commit isn't made: {do('git', 'commit', '--dry-run')}")
    return first, second


def show(files, what, ours, theirs):
    for kind, at in (("wall", 0), ("processor", 1)):
        print(f"{files:7} files, {what:18} {kind:9} {ours[at]:9.0f} ms  pre-commit {theirs[at]:9.0f} ms  ratio {ours[at] / theirs[at]:6.2f}", flush=True)


def main():
    for files in COUNTS:
        folder = tempfile.mkdtemp(dir="/var/tmp")
        os.mkdir(os.path.join(folder, "home"))
        env, text = desk(folder, environment(os.path.join(folder, "home")) | {"PIP_NO_INDEX": "1", "PIP_DISABLE_PIP_VERSION_CHECK": "1"})
        # The desk notes which commands are started, which isn't timed.
        env |= {"PATH": os.environ["PATH"], "PYTHONPATH": ""}
        os.environ.clear()
        os.environ.update(env)
        sides, runs, commits = {"ours": BRIDGE, "theirs": "pre-commit"}, {}, {}
        for name, tool in sides.items():
            os.mkdir(os.path.join(folder, name))
            os.chdir(os.path.join(folder, name))
            make(files, text)
            do("pre-commit", "install-hooks")
            do(tool, "install")
            runs[name], commits[name] = once([tool, "run", "--files", CHANGED]), []
        # Both take turns, so that a busy moment hits them alike.
        for at in range(RUNS + 1):
            for name in sides:
                os.chdir(os.path.join(folder, name))
                commits[name].append(time_commit(GOOD[CHANGED] + f"NUMBERS = {at}\n"))
        for what, at in (("first commit", 0), ("second commit", 1)):
            show(files, what, *(least([times[at] for times in commits[name][1:]]) for name in sides))
        show(files, "first run of all", runs["ours"], runs["theirs"])
        os.chdir("/")
        shutil.rmtree(folder)


main()
