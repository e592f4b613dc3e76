#!/usr/bin/env python3
"""Stops the built program at each of its system calls, and checks what it leaves.

Usage: tests/stops/stops.py [--all | --sample] [--only=WORD] [PROGRAM]   (default: crates/hookhost/out/hookhost)

Each command of tests/shared/stops_repository.py is run on copies of a repository. strace counts its system calls by their names, from
the first one in its folder on. Each in turn is

  kill    not made: the program is killed before it
  EIO ..  refused with an error that such a call may meet
  ENOSPC+ refused, and so is each later call that takes room on the disk
  half    given half of the bytes that it asks for, by tests/stops/stops_short.c, alone or all of them

What is left has to be the repository before the command or the one after it, as SQLite and the program read it. What is cached has to be
what one of its transactions left. Each use and each put is one. So is the migration of a store of version 1, which leaves version 1 or
version 2 with all that was there. If a reply reports a commit, or anything that was done, it is there. Each cached answer is one
that a child gave. The same command, run again with nothing in its way, does what it does if nothing ever stopped it. A command that
can't look for a checkout of Git says that it drops what is cached, and is then one in a repository without cached results.

Without --all it tries each call that changes something of `commit` and `accept`, of a run that uses answers, of a limit and of a
migration, and of the others one in several, always the same ones. The log of a killed command holds a change that isn't in the
database yet: there the next commands are stopped as well. With --sample it tries one in so many of these, by each command and kind, and
one of each call and kind at least.
"""
import collections
import itertools
import multiprocessing
import os
import resource
import signal
import subprocess
import sys
import tempfile
import time
import zlib
from concurrent.futures import ProcessPoolExecutor
from pathlib import Path

sys.path.insert(0, os.path.abspath(f"{__file__}/../../shared"))
from sample import note, sampled
from host_program import Wrong, check
from places import program
from stops_calls import calls_of, traced
from stops_repository import QUICK, Scene, adopt_orphans, end_orphans, left_alone, left_in, scenes_of, told_by, wait_for_orphans

ALL = "--all" in sys.argv
ONLY = "".join(word.partition("=")[2] for word in sys.argv[1:] if word.startswith("--only="))
WORDS = [word for word in sys.argv[1:] if not word.startswith("--")]
PROGRAM = os.path.abspath(WORDS[0] if WORDS else program("hookhost"))
WORKERS = 2
# Of the calls that aren't played in any case, one in so many is.
ONE_IN = 7
# With --sample one in so many of those is.
SAMPLED_ONE_IN = 20
# The calls that change what lies on the disk or who may use it, and those that take room there. What can't be written can't be reported
# either.
CHANGING = ("write", "pwrite64", "fsync", "fdatasync", "ftruncate", "rename", "renameat", "renameat2", "unlink", "unlinkat", "mkdir", "mkdirat", "rmdir",
            "openat", "flock", "fcntl", "chmod", "fchmod", "fchmodat", "utimensat", "lchown", "fchownat")
TAKES_ROOM = ("pwrite64", "ftruncate", "mkdir", "mkdirat", "openat", "fsync", "rename", "renameat")
# The errors by which calls are refused. A refused `close` would be one that Linux doesn't have: it closes the file all the same.
OF_FILES = ("openat", "read", "pread64", "write", "pwrite64", "fsync", "fdatasync", "ftruncate", "rename", "renameat", "renameat2", "unlink", "unlinkat",
            "mkdir", "mkdirat", "rmdir", "flock", "fcntl", "statx", "getdents64", "chmod")
ERRORS = {**{call: ("EIO", "ENOSPC", "EINTR") for call in OF_FILES}, "poll": ("EINTR", "ENOMEM"), "wait4": ("EINTR",), "pipe2": ("EMFILE",),
          "clone": ("EAGAIN",), "clone3": ("EAGAIN",), "vfork": ("EAGAIN",)}
CHOSEN = ("commit", "accept", "run that uses", "run that numbers anew", "limit", "status of version 1")
# The command that makes a store of version 1 one of version 2 and does no more: each of its calls is stopped.
MIGRATING = "status of version 1"

# A stop of a scene: what is done to the call of this name and number. One whose kind is `half` has no name, and counts all.
Stop = collections.namedtuple("Stop", "scene kind call number")


# ---- the stops

def injected(stop):
    """The options of strace."""
    if stop.kind == "kill":
        return f"signal=KILL:when={stop.number}"
    error = stop.kind.removesuffix("+")
    return f"error={error}:when={stop.number}{'+' if stop.kind.endswith('+') else ''}"


def stops_of(scene):
    """The stops that are played of a scene."""
    calls, moves = calls_of(scene), 0
    for name, number in calls:
        moves += name in ("read", "write", "pread64", "pwrite64")
        kinds = ["kill", *ERRORS.get(name, ()), *["ENOSPC+"] * (name in TAKES_ROOM)]
        yield from (stop for stop in (Stop(scene.name, kind, name, number) for kind in kinds) if is_played(stop))
    # All transfers are shortened, and each alone.
    yield from (stop for stop in (Stop(scene.name, "half", "", number) for number in range(moves + 1)) if stop.number == 0 or is_played(stop))


def is_played(stop):
    """Whether a stop is played. With --all each is. Otherwise it is if it's of a call that changes something in chosen commands, or each
    kill and each short transfer of a migration. Of the others some are."""
    is_chosen = stop.scene in CHOSEN and stop.call in CHANGING and stop.kind in ("kill", "EIO", "ENOSPC")
    is_of_migration = stop.scene == MIGRATING and stop.kind in ("kill", "half")
    return ALL or is_chosen or is_of_migration or zlib.crc32(" ".join(map(str, stop)).encode()) % ONE_IN == 0


def chosen(stops):
    """All of these stops, or with --sample some by each command and kind, and some of each call and kind."""
    some = {*sampled(stops, lambda stop: (stop.scene, stop.kind), SAMPLED_ONE_IN), *sampled(stops, lambda stop: (stop.call, stop.kind), len(stops))}
    return [stop for stop in stops if stop in some]


def played(scene, stop, work, short):
    """What the stopped command prints, and whether it was stopped."""
    if stop.kind == "half":
        mark = work + ".mark"
        told = told_by([short, str(stop.number), mark, PROGRAM, *scene.words], work)
        return told, os.path.exists(mark)
    told, lines = traced(PROGRAM, scene.words, work, stop.call, "-e", f"inject={stop.call}:{injected(stop)}")
    if stop.kind == "kill":
        return told, told.status == -signal.SIGKILL
    return told, any(line.endswith("(INJECTED)") for line in lines)


def judged(stop):
    """A stop and what it leaves, in a word, or what is wrong with it."""
    scene = SCENES[stop.scene]
    with tempfile.TemporaryDirectory(dir=QUICK) as folder:
        try:
            work = scene.copy(folder)
            told, is_stopped = played(scene, stop, work, SHORT)
            wait_for_orphans()
            place = scene.judge(work, told)
            check(is_stopped or told == scene.told, f"nothing stops it, and it says {told!r:.500}")
            return stop, place if is_stopped else "not stopped", None
        except (Wrong, subprocess.TimeoutExpired) as wrong:
            end_orphans()
            return stop, "wrong", str(wrong)


# ---- a log that holds a change

def with_change_in_log(folder, base):
    """A copy of the repository whose log holds what an `add` changed, since that was killed before it copied it into the database."""
    for number in itertools.count(1):
        work = tempfile.mkdtemp(dir=folder)
        subprocess.run(["cp", "-r", f"{base}/.", work], check=True)
        told, _ = traced(PROGRAM, ["add", "new"], work, "fdatasync", "-e", f"inject=fdatasync:signal=KILL:when={number}")
        check(told.status == -signal.SIGKILL, "no kill leaves a change in the log")
        if left_in(work) != left_alone(work):
            return work


# ---- all of it

def main():
    global SCENES, SHORT
    begin = time.monotonic()
    adopt_orphans()
    with tempfile.TemporaryDirectory(dir=QUICK) as folder:
        SHORT = os.path.join(folder, "short")
        subprocess.run(["cc", "-O1", "-o", SHORT, str(Path(__file__).resolve().parent / "stops_short.c")], check=True)
        scenes = scenes_of(PROGRAM, folder, ONLY)
        left = with_change_in_log(folder, os.path.join(folder, "filled"))
        over_log = [("status over a log", left, ["status"]), ("rm over a log", left, ["rm", "e"])]
        scenes += [Scene(PROGRAM, folder, *scene) for scene in over_log if ONLY in scene[0]]
        SCENES = {scene.name: scene for scene in scenes}
        there = [stop for scene in SCENES.values() for stop in stops_of(scene)]
        stops = chosen(there)
        with ProcessPoolExecutor(WORKERS, multiprocessing.get_context("fork"), initializer=adopt_orphans) as pool:
            results = list(map(show, pool.map(judged, stops, chunksize=4)))
    tell(results, len(there), time.monotonic() - begin)


def show(result):
    """Prints at once what is wrong."""
    stop, _, text = result
    if text:
        print(f"FAILED {stop.scene}: {stop.kind} at {stop.call or 'transfer'} {stop.number}: {text[:900]}", flush=True)
    return result


def tell(results, count, seconds):
    """Prints of each command and kind of stop how many were played and in which state they left the repository."""
    wrong = sum(text is not None for _, _, text in results)
    for name in SCENES:
        counts = collections.Counter((stop.kind, place) for stop, place, _ in results if stop.scene == name)
        kinds = {kind: {place: count for (each, place), count in sorted(counts.items()) if each == kind} for kind in dict.fromkeys(kind for kind, _ in counts)}
        print(f"{name}: " + "; ".join(f"{kind} " + ", ".join(f"{count} {place}" for place, count in places.items()) for kind, places in kinds.items()))
    took = sum(resource.getrusage(who).ru_utime + resource.getrusage(who).ru_stime for who in (resource.RUSAGE_SELF, resource.RUSAGE_CHILDREN))
    stopped = sum(place != "not stopped" for _, place, _ in results)
    print(f"stops: {stopped} of {len(results)} stops came, {took:.0f} processor seconds, {seconds:.0f} s")
    print(f"stops: {len(results) - wrong} passed, {wrong} failed{note(len(results), count, 'stops')}")
    sys.exit(1 if wrong or not stopped else 0)


SCENES, SHORT = {}, ""
main()
