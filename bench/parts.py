#!/usr/bin/env python3
"""Times the parts of one hook over 99,999 files, and pre-commit on the same files, and prints ratios.

Usage: bench/parts.py [--small] [--settled] [PROGRAM]   (default: crates/hookhost/out/hookhost)

  --small     a tenth of the files, to see that all of it runs: the figures say nothing
  --settled   also so long after the run before that its files are on the disk, which takes some minutes

Each path has 17 bytes, so that the names are more than one command takes: the hook runs in 14 parts, each of which is a child of
its own. It notes when each was started, in a file outside of the repository. Before the first one the store is opened, and the
scratch folder is written by the very first run, and looked through by a later one. Before each further one the child before it
runs, and what that changed is searched for. The cost of each further part is given as a ratio to the first. The hook is run by
`run --all-files --fresh`, so that every part is started, and at last without `--fresh`, so that none is. pre-commit starts as many
parts, one after another, in a repository of Git.

Each time is wall time in milliseconds.
"""
import os
import shutil
import sqlite3
import subprocess
import sys
import tempfile
import time

HERE = os.path.dirname(os.path.abspath(__file__))
sys.path[:1] = [HERE, os.path.join(HERE, "..", "tests", "shared")]
from kept_answers import digest
from timing import is_asked, once, program, seconds_to_settle, show

SMALL, SETTLED = is_asked("--small"), is_asked("--settled")
PROGRAM = program()
CONFIGURATION, STORE = ".pre-commit-config.yaml", ".hookhost/store.db"
FILES, PARTS = (9_999, 2) if SMALL else (99_999, 14)
SIZE, RUNS = 400, 1 if SMALL else 3
RUN = [PROGRAM, "run", "--all-files"]


def path_of(at):
    """A path of 17 bytes."""
    return f"folder{at // 1000:02}/{at:08}"


def contents_of(at):
    return f"{at} ".ljust(SIZE, ".").encode()


def configuration(starts):
    """A hook that notes when each of its children starts. It gets all files but the configuration."""
    entry = f"bash -c 'echo $EPOCHREALTIME >> {starts}' noted"
    keys = "language: system, files: ^folder, require_serial: true"
    return f"repos:\n- repo: local\n  hooks:\n  - {{id: parts, name: Parts, {keys}, entry: {entry}}}\n"


def write(path, contents):
    os.makedirs(os.path.dirname(path) or ".", exist_ok=True)
    with open(path, "wb") as file:
        file.write(contents)


def make_ours(folder, starts):
    """A repository of hookhost with the files staged, as rows, which takes less time than to add them."""
    os.mkdir(folder)
    os.chdir(folder)
    write(CONFIGURATION, configuration(starts).encode())
    for words in (["init"], ["add", CONFIGURATION]):
        subprocess.run([PROGRAM, *words], check=True)
    files = [(path_of(at), contents_of(at)) for at in range(FILES)]
    with sqlite3.connect(STORE) as held:
        held.executemany("INSERT INTO blobs VALUES (?, ?)", ((digest(contents), contents) for _, contents in files))
        held.executemany("INSERT INTO staged VALUES (?, 0, ?)", ((path, digest(contents)) for path, contents in files))
    held.close()


def make_git(folder, starts):
    """The same files in a repository of Git."""
    os.mkdir(folder)
    os.chdir(folder)
    write(CONFIGURATION, configuration(starts).encode())
    for at in range(FILES):
        write(path_of(at), contents_of(at))
    for words in (["init", "--quiet", "."], ["add", "--all"]):
        subprocess.run(["git", *words], check=True)


def parts_of(folder, words, starts, wanted):
    """The milliseconds of a command, how long after its start its first child started, and how long each further one
    after that before it. It has to start so many children."""
    os.chdir(folder)
    write(starts, b"")
    began = time.time()
    took = once(words)
    with open(starts, encoding="ascii") as file:
        noted = [float(line) for line in file]
    if len(noted) != wanted:
        sys.exit(f"bench/parts.py: {words!r} starts {len(noted)} children, wanted are {wanted}")
    each = [(now - before) * 1000 for before, now in zip([began, *noted], noted)]
    return took, each[:1], each[1:]


def tell(what, told):
    """The run of several whose parts took least in all."""
    took, (first,), further = min(told)
    mean = sum(further) / len(further)
    show(f"a further part, {what}", mean, first, "the first")
    print(f"{'':44} {min(further):.0f} to {max(further):.0f} ms each; the run {took:.0f} ms", flush=True)
    return took


def time_parts(folder):
    print(f"{FILES} files of {SIZE} bytes in {PARTS} parts, at a load of {os.getloadavg()[0]:.1f}", flush=True)
    ours, git, starts, others = (os.path.join(folder, name) for name in ("ours", "git", "starts", "starts.git"))
    make_ours(ours, starts)
    make_git(git, others)
    fresh = [*RUN, "--fresh"]
    tell("the folder not yet written", [parts_of(ours, fresh, starts, PARTS)])
    took = tell("the folder written", [parts_of(ours, fresh, starts, PARTS) for _ in range(RUNS)])
    if SETTLED:
        time.sleep(seconds_to_settle())
        tell("its files on the disk", [parts_of(ours, fresh, starts, PARTS)])
    remembered = min(parts_of(ours, RUN, starts, 0)[0] for _ in range(RUNS))
    words = ["pre-commit", "run", "--all-files"]
    theirs = tell("by pre-commit", [parts_of(git, words, others, PARTS) for _ in range(RUNS)])
    show(f"a run in {PARTS} parts", took, theirs, "pre-commit")
    show("the same, all remembered", remembered, theirs, "pre-commit")


def main():
    folder = tempfile.mkdtemp()
    os.environ["PRE_COMMIT_HOME"] = os.path.join(folder, "pre-commit")
    try:
        time_parts(folder)
    finally:
        os.chdir("/")
        shutil.rmtree(folder)


main()
