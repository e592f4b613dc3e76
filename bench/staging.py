#!/usr/bin/env python3
"""Times stagings and acceptances among few and many staged files, in a store in a real file, in one run.

Usage: bench/staging.py [STORE_TRIAL]   (default: crates/store_trial/out/store_trial)

One staging, one unstaging and one fix accepted are timed with 10, 1,000, 10,000 and 50,000 files staged. Each is the least of
several in one play, so that opening the store isn't in them. 100,000 stagings are compared with the same rows by sqlite3. Fixes
that delete half of the staged files are accepted among 25,000 and 50,000. Each time is wall time in milliseconds.
"""
import os
import sys
import tempfile

sys.path.insert(0, os.path.dirname(os.path.abspath(__file__)))
from store import PRAGMAS, SIZE, Play, by_sqlite, copy, played, staging_rows
from timing import show

COUNTS = (10, 1000, 10000, 50000)
RUNS = 40


def least(play, lines_of):
    """The least milliseconds of so many turns, each of the lines that it gives for its number."""
    return min(sum(play.ask(line) for line in lines_of(at)) for at in range(RUNS))


def accept_one(play):
    """The least milliseconds that it takes to accept one fix, which is set before and isn't timed."""
    times = []
    for at in range(RUNS):
        play.ask(f"fix many/000005 {'y' * SIZE}{at}")
        play.ask("set")
        times.append(play.ask("accept"))
    return min(times)


def time_single_calls(folder):
    first = None
    for count in COUNTS:
        path = os.path.join(folder, f"single{count}.db")
        played(path, ["create", f"stage-many {count} {SIZE} 0", "close"])
        os.sync()
        play = Play(path)
        play.ask("open")
        stagings = least(play, lambda at: [f"stage plain many/000003 {'x' * SIZE}{at}"])
        added = least(play, lambda at: [f"stage plain new/{at:03} {'z' * SIZE}{at}"])
        gone = least(play, lambda at: [f"unstage new/{at:03}"])
        accepted = accept_one(play)
        play.end()
        times = {"a file staged anew": stagings, "a new file staged": added, "a file unstaged": gone, "a fix accepted": accepted}
        first = first or times
        for what, took in times.items():
            print(f"{what}, {count} files staged".ljust(44) + f" {took:9.3f} ms, {took / first[what]:.2f} times that with {COUNTS[0]}")
        print(f"{'':44} a fix accepted: {accepted / stagings:.2f} times a staging")


def time_many_stagings(folder):
    empty, path, other = (os.path.join(folder, name) for name in ("empty.db", "many.db", "other.db"))
    played(empty, ["create", "close"])
    play = Play(copy(empty, path))
    play.ask("open")
    whole = play.ask(f"stage-many 100000 {SIZE} 0")
    play.end()
    beside = by_sqlite(copy(empty, other), PRAGMAS + "".join(staging_rows(100000, 0)))
    show("100000 stagings, each a transaction", whole, beside, "sqlite3")


def time_deletions(folder):
    times = []
    for count in (25000, 50000):
        path = os.path.join(folder, f"deletions{count}.db")
        lines = [f"fix-gone many/{at:06}" for at in range(0, count, 2)]
        took, _ = played(path, ["create", f"stage-many {count} {SIZE} 0", *lines, "set", "accept", "close"])
        times.append(took[-2])
        print(f"half of {count} files accepted as gone".ljust(44) + f" {took[-2]:9.2f} ms")
    print(f"{'':44} twice the files: {times[1] / times[0]:.2f} times")


def main():
    with tempfile.TemporaryDirectory() as folder:
        time_single_calls(folder)
        time_deletions(folder)
        time_many_stagings(folder)


main()
