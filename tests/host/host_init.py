"""Cases of tests/host/host.py: what a refused init leaves next to a store that was moved away, and when a new store's file is named."""
import os
import re
import subprocess
from pathlib import Path

import host_files
from host_program import LOCK, PROGRAM, STORE, Wrong, check, do, paths_in, run, write
from host_state import found_first, shown_alone

LOG, FOLDER = STORE + "-wal", ".hookhost"
# The file of a new store, before it has that name.
NEW_STORE = ".hookhost/new.db"
# What status says after the change.
ADDED = b"A a\n"


def with_a_change_in_its_log(folder):
    """A repository whose last change is in the log alone, since the command was killed before it ended."""
    helper = host_files.helper_in(folder)
    for at in range(1, 100):
        work = os.path.join(folder, str(at))
        os.mkdir(work)
        do(work, "init")
        write(work, "a", b"1\n")
        run(work, "add", "a", env={**os.environ, "LD_PRELOAD": helper, "KILL_AT_WAIT": str(at)})
        if shown_alone(work)[0][0] == b"" and found_first(work, lambda copy: do(copy, "status")) == ADDED:
            return work
    raise Wrong("no kill leaves a change in the log alone")


def leaves_the_log_of_a_store_that_was_moved_away(folder):
    """An init is refused, since its files may have only so many bytes. A log that lies there stays, so the store that is put back next to
    it lacks nothing. So does one of any other bytes."""
    work = with_a_change_in_its_log(folder)
    log, store, away = Path(work, LOG), os.path.join(work, STORE), os.path.join(folder, "away")
    os.rename(store, away)
    kept = log.read_bytes()
    for held in (kept, b"", b"1", b"no log"):
        log.write_bytes(held)
        for most in (0, 1, 100, 4096, 10_000):
            status, out, err = run(work, "init", preexec_fn=host_files.limited(most))
            how = f"next to the log {held[:100]!r} an init within {most} bytes"
            check((status, out) == (3, b"") and err.startswith(b"hookhost: "), f"{how} ends with {status} and says {err!r}")
            check(paths_in(work) == [FOLDER, LOCK, LOG, "a"], f"{how} leaves {paths_in(work)!r}")
            check(log.read_bytes() == held, f"{how} leaves another one")
    log.write_bytes(kept)
    os.rename(away, store)
    check(do(work, "status") == ADDED, "the change of the killed command is gone")


# ---- when the disk is waited for

WRITES = ("write", "writev", "pwrite64", "pwritev", "pwritev2", "ftruncate")
WAITS, NAMES = ("fsync", "fdatasync"), ("rename", "renameat", "renameat2")


def calls_of_init(work):
    """The calls of an init, as strace shows them, that write a file, wait for one, or name one, in their order."""
    log, calls = work + ".calls", ",".join((*WRITES, *WAITS, *NAMES))
    words = ["strace", "-qq", "-y", "-o", log, "-e", "signal=none", "-e", f"trace={calls}", PROGRAM, "init"]
    done = subprocess.run(words, cwd=work, stdin=subprocess.DEVNULL, capture_output=True, timeout=60)
    check((done.returncode, done.stdout, done.stderr) == (0, b"", b""), f"under strace an init says {done!r}")
    for line in Path(log).read_text(encoding="utf-8").splitlines():
        name, told = re.match(r"(\w+)\((.*)", line).groups()
        if name in NAMES:
            yield "name", re.findall(r'"([^"]*)"', told)[1]
        elif place := re.match(r"\d+<([^>]*)>", told):
            yield "write" if name in WRITES else "wait", os.path.relpath(place[1], os.path.realpath(work))


def has_in_order(calls, wanted):
    """Whether these are among the calls in this order."""
    rest = iter(calls)
    return all(each in rest for each in wanted)


def names_a_store_whose_bytes_are_on_the_disk(folder):
    """A new store's file is waited for once all of it is written, and then named. The folder is waited for before that, after the log was
    named, and after it. So it is next to the log of a store that was moved away."""
    work = os.path.join(folder, "work")
    os.mkdir(work)
    for at in range(2):
        calls = list(calls_of_init(work))
        check(calls.count(("name", STORE)) == calls.count(("name", LOG)) == 1, f"an init makes the calls {calls!r}")
        check(("write", NEW_STORE) in calls and ("write", STORE) not in calls, f"an init writes a store that is named: {calls!r}")
        written = len(calls) - calls[::-1].index(("write", NEW_STORE))
        wanted = [("wait", NEW_STORE), ("name", STORE)]
        check(has_in_order(calls[written:], wanted), f"an init names what isn't on the disk: {calls!r}")
        wanted = [("name", LOG), ("wait", FOLDER), ("name", STORE), ("wait", FOLDER)]
        check(has_in_order(calls, wanted), f"an init doesn't wait for the folder: {calls!r}")
        os.rename(os.path.join(work, STORE), os.path.join(folder, f"away{at}"))


CASES = [leaves_the_log_of_a_store_that_was_moved_away, names_a_store_whose_bytes_are_on_the_disk]
