#!/usr/bin/env python3
"""Checks what commands on a repository leave while something runs out: runs them with the built program.

Usage: tests/stops/stops_limits.py [--all | --sample] [--only=WORD] [PROGRAM]   (default: crates/hookhost/out/hookhost)

Each of these runs out, from nothing up to what the command needs: pages of a full disk, which is a tmpfs of its own; the bytes that a
file may have, with a signal and with an error; memory that may be mapped; files that may be open; processes of a user. And these may not
be written: the folder, its files, and a read-only disk, by a user who is subject to permissions.

What is left is judged as after a kill (tests/shared/stops_repository.py). The repository is the one before the command or the one
after it, what is cached is what one of its transactions left, and a refusal is reported. The same command works once the limit is
gone. A program whose stack can't grow is ended by the system at any moment, which counts as a kill. A limit holds for the children of
a run too, whose results may then differ from those without it. There only the repeated command is compared, after their results are
dropped. If something needs root, a disk of its own or another user, and can't be tried, this script says so.

Without --all it tries only one in several limits of bytes and memory, always the same ones. With --sample it tries one in so many of
these, by each command and limit.
"""
import collections
import multiprocessing
import os
import resource
import shutil
import signal
import subprocess
import sys
import tempfile
import time
import zlib
from concurrent.futures import ProcessPoolExecutor
from contextlib import contextmanager

sys.path.insert(0, os.path.abspath(f"{__file__}/../../shared"))
from sample import note, sampled
from host_program import Wrong, check
from places import program
from stops_repository import HOOKS, QUICK, adopt_orphans, faults_in, left_in, scenes_of, sections, told_by

ALL = "--all" in sys.argv
ONLY = "".join(word.partition("=")[2] for word in sys.argv[1:] if word.startswith("--only="))
WORDS = [word for word in sys.argv[1:] if not word.startswith("--")]
GIVEN = os.path.abspath(WORDS[0] if WORDS else program("hookhost"))
# Of the limits of which there are many one in so many is played, and with --sample one in so many of those.
WORKERS, ONE_IN, SAMPLED_ONE_IN = 2, 3, 8
PAGE = 4096
# A user who has no other process, so that each counts, and one who is subject to permissions.
LONELY, NOBODY = 64_321, 65_534
IS_ROOT = os.geteuid() == 0
# Children that need no room on the disk: what one does without it is its own answer.
SMALL_HOOKS = HOOKS.replace(b"""entry: "sh -c 'echo a line >> $1' --", stages: [prepare""", b"entry: cat, stages: [prepare")
# What the loader says if there is no room for a library, or for the data of the first thread.
UNLOADED = (b"error while loading shared libraries", b"cannot allocate TLS data structures")


class Limit:
    """What runs out, and how much of it there is. It is around the command, and nothing of it is there after it."""

    def __init__(self, name, amount):
        self.name, self.amount = name, amount

    def __str__(self):
        return f"{self.name} {self.amount}"

    @contextmanager
    def around(self, work):
        """How the command is to be started meanwhile."""
        yield {}


class Resource(Limit):
    """A limit of the system for each process."""
    KINDS = {"bytes of a file": resource.RLIMIT_FSIZE, "bytes of a file, by a signal": resource.RLIMIT_FSIZE, "KiB of memory": resource.RLIMIT_AS,
             "open files": resource.RLIMIT_NOFILE, "processes": resource.RLIMIT_NPROC}

    def begin(self):
        if self.name == "bytes of a file":
            signal.signal(signal.SIGXFSZ, signal.SIG_IGN)
        most = self.amount * 1024 if self.name == "KiB of memory" else self.amount
        resource.setrlimit(self.KINDS[self.name], (most, most))

    @contextmanager
    def around(self, work):
        how = {}
        if self.name == "processes":
            give(work, LONELY)
            how = {"user": LONELY, "group": LONELY, "extra_groups": []}
        yield {"preexec_fn": self.begin, **how}
        give(work, os.geteuid())


class FullDisk(Limit):
    """A disk with so many free pages."""

    @contextmanager
    def around(self, work):
        filler = os.path.join(work, ".filler")
        about = os.statvfs(work)
        with open(filler, "wb") as file:
            for _ in range(max(0, about.f_bavail - self.amount)):
                file.write(bytes(PAGE))
        free = os.statvfs(work).f_bavail
        check(free == self.amount, f"the disk has {free} free pages in place of {self.amount}")
        yield {}
        os.remove(filler)


class NotWritable(Limit):
    """The folder or a file of it may not be written, by a user who otherwise owns all of it."""

    @contextmanager
    def around(self, work):
        give(work, NOBODY)
        places = {"folder": [work], "repository's folder": [os.path.join(work, ".hookhost")], "file": [os.path.join(work, ".hookhost", self.amount)]}[self.name]
        places = [(place, os.stat(place).st_mode & 0o7777) for place in places if os.path.exists(place)]
        for place, mode in places:
            os.chmod(place, mode & 0o555)
        yield {"user": NOBODY, "group": NOBODY, "extra_groups": []}
        for place, mode in places:
            os.chmod(place, mode)
        give(work, os.geteuid())


class ReadOnlyDisk(Limit):
    """A disk that can only be read."""

    @contextmanager
    def around(self, work):
        disk = os.path.dirname(work)
        subprocess.run(["mount", "-o", "remount,ro", disk], check=True)
        try:
            yield {}
        finally:
            subprocess.run(["mount", "-o", "remount,rw", disk], check=True)


def give(work, user):
    """Gives all of a folder to a user."""
    if not IS_ROOT:
        return
    for at, _, names in os.walk(work):
        for path in (at, *(os.path.join(at, name) for name in names)):
            os.chown(path, user, user, follow_symlinks=False)


# ---- what is left

def judged_softly(scene, work, told):
    """The same if children of the command gave other answers: the history, the staged files and what isn't the hooks' are as before or
    after. Once that is forgotten, the command does what it does without a limit."""
    left = left_in(work)
    (staged, _, *history), befores, afters = left.repository, scene.before.repository, scene.after.repository
    check((staged, *history) in ((befores[0], *befores[2:]), (afters[0], *afters[2:])), f"it says {told!r:.500} and leaves {left!r:.1000}")
    is_made = b"\ncommit " in told.out
    check(is_made or (staged, *history) == (befores[0], *befores[2:]), f"it says {told!r:.500} and leaves {left!r:.1000}")
    forgets, count = told_by([scene.program, "forget"], work), len(left.migrated().answers)
    check(forgets == (0, b"forgotten: %d\n" % count, b""), f"after {told!r:.500} forget says {forgets!r}")
    again, found = scene.run(work), left_in(work)
    if is_made:
        check(again == scene.told_again and found.repository == afters, f"after {told!r:.500} the same command says {again!r:.500}")
    else:
        is_same = (again, found.repository, found.answers) == (scene.told, afters, scene.after.answers[:scene.uses])
        check(is_same, f"after {told!r:.500} the same command says {again!r:.500} and leaves {found!r:.1000}")
    return "other answers"


def judged(scene, limit, work):
    """What a command with this limit leaves, in a word."""
    before = left_in(work)
    with limit.around(work) as how:
        told = told_within(lambda **how: scene.run(work, **how), how)
    if told is None:
        check(left_in(work) == before, f"it isn't started, and leaves {left_in(work)!r:.1000}")
        return "not started"
    check(told.status >= 0 or limit.name != "bytes of a file, by a signal", f"it is ended by signal {-told.status}")
    return judged_softly(scene, work, told) if have_told_otherwise(scene, told) else scene.judge(work, told)


def told_within(run, how):
    """What a command says, or None if the system had no room for the program itself: it can't be started, or the loader
    says so."""
    try:
        told = run(**how)
    except (OSError, subprocess.SubprocessError) as error:
        check(not isinstance(error, subprocess.TimeoutExpired), f"it doesn't end: {error}")
        return None
    is_unloaded = told.status == 127 and any(words in told.err for words in UNLOADED)
    return None if is_unloaded else told


def have_told_otherwise(scene, told):
    """Whether hooks that met no fault gave other answers."""
    if scene.words[0] not in ("run", "commit") or told.status not in (0, 1) or told.out == scene.told.out:
        return False
    found, wanted = sections(told.out), sections(scene.told.out)
    return any(section not in wanted[name] for name, section in found.items() if name not in faults_in(found)) or not faults_in(found)


# ---- the limits

FILE_BYTES = (0, 1, 32, 100, 512, 1024, 4095, 4096, 5000, 8192, 12_288, 20_000, 30_000, 40_000, 57_344, 65_536, 70_000, 80_000, 100_000, 120_000,
              150_000, 200_000)
# From what the program is loaded with to more than a command takes.
MOST_MEMORY, MEMORY_STEP = 6144, 64
FILES, PAGES = range(0, 24), range(0, 28)


def least_memory(program, folder):
    """The KiB of memory within which the program is just loaded, in steps."""
    for amount in range(1024, 1_000_000, MEMORY_STEP):
        how = {"preexec_fn": Resource("KiB of memory", amount).begin}
        told = told_within(lambda **how: told_by([program, "--version"], folder, **how), how)
        if told is not None and told.status == 0:
            return amount
    raise Wrong("the program isn't loaded, whatever memory there is")


def limits(least):
    """The limits that need no disk of their own."""
    yield from (Resource(name, amount) for name in ("bytes of a file", "bytes of a file, by a signal") for amount in FILE_BYTES)
    yield from (Resource("KiB of memory", amount) for amount in range(least - 4 * MEMORY_STEP, least + MOST_MEMORY, MEMORY_STEP))
    yield from (Resource("open files", amount) for amount in FILES)
    if IS_ROOT:
        yield from (Resource("processes", amount) for amount in range(5))
        yield from (NotWritable("file", name) for name in ("lock", "store.db", "store.db-wal"))
        yield NotWritable("repository's folder", "")
        yield NotWritable("folder", "")


def disk_limits():
    yield from (FullDisk("free pages", amount) for amount in PAGES)
    yield ReadOnlyDisk("a disk that is read alone", "")


def is_played(name, limit):
    """All of those that are few, and of the others one in several."""
    is_one_of_many = isinstance(limit, Resource) and limit.name not in ("open files", "processes")
    return ALL or not is_one_of_many or zlib.crc32(f"{name} {limit}".encode()) % ONE_IN == 0


@contextmanager
def disk_in(folder):
    """A disk of its own."""
    disk = tempfile.mkdtemp(dir=folder)
    subprocess.run(["mount", "-t", "tmpfs", "-o", "size=2m", "tmpfs", disk], check=True, stderr=subprocess.DEVNULL)
    try:
        yield disk
    finally:
        subprocess.run(["umount", disk], check=True)


def can_have_disks(folder):
    """Whether a disk can be mounted here: a container may not allow root to do it."""
    try:
        with disk_in(folder):
            return IS_ROOT
    except (subprocess.CalledProcessError, FileNotFoundError):
        return False


def tried(case):
    """A command and its limit, and what that leaves, or what is wrong with it."""
    (name, limit), scene = case, SCENES[case[0]]
    with tempfile.TemporaryDirectory(dir=QUICK) as folder:
        os.chmod(folder, 0o755)
        try:
            if isinstance(limit, (FullDisk, ReadOnlyDisk)):
                with disk_in(folder) as disk:
                    return name, limit, judged(scene, limit, scene.copy(disk)), None
            return name, limit, judged(scene, limit, scene.copy(folder)), None
        except (Wrong, subprocess.TimeoutExpired) as wrong:
            return name, limit, "wrong", str(wrong)


def main():
    global SCENES
    begin = time.monotonic()
    adopt_orphans()
    with tempfile.TemporaryDirectory(dir=QUICK) as folder:
        # Another user can't reach the folder in which it was built.
        os.chmod(folder, 0o755)
        program = shutil.copy(GIVEN, os.path.join(folder, "hookhost"))
        os.chmod(program, 0o755)
        SCENES = {scene.name: scene for scene in scenes_of(program, folder, ONLY, SMALL_HOOKS)}
        least = least_memory(program, folder)
        has_disks = can_have_disks(folder)
        there = [(name, limit) for name in SCENES for limit in (*limits(least), *(disk_limits() if has_disks else ())) if is_played(name, limit)]
        cases = sampled(there, lambda case: (case[0], case[1].name), SAMPLED_ONE_IN)
        with ProcessPoolExecutor(WORKERS, multiprocessing.get_context("fork"), initializer=adopt_orphans) as pool:
            results = list(map(show, pool.map(tried, cases, chunksize=4)))
    if not has_disks:
        print("stops_limits: not played, since no disk can be mounted here: a full disk, a disk that is read alone")
    tell(results, len(there), time.monotonic() - begin)


def show(result):
    """Prints at once what is wrong."""
    name, limit, _, text = result
    if text:
        print(f"FAILED {name} with {limit}: {text[:900]}", flush=True)
    return result


def tell(results, count, seconds):
    """Prints of each kind of limit how many were played and in which state they left the repository."""
    wrong = sum(text is not None for *_, text in results)
    for name in dict.fromkeys(limit.name for _, limit, _, _ in results):
        counts = collections.Counter(place for _, limit, place, _ in results if limit.name == name)
        print(f"{name}: " + ", ".join(f"{count} {place}" for place, count in sorted(counts.items())))
    if not IS_ROOT:
        print("stops_limits: not played, since that needs root: processes of a user, and what a user may not write")
    took = sum(resource.getrusage(who).ru_utime + resource.getrusage(who).ru_stime for who in (resource.RUSAGE_SELF, resource.RUSAGE_CHILDREN))
    print(f"stops_limits: {took:.0f} processor seconds, {seconds:.0f} s")
    print(f"stops_limits: {len(results) - wrong} passed, {wrong} failed{note(len(results), count, 'limits')}")
    sys.exit(1 if wrong or not results else 0)


SCENES = {}
main()
