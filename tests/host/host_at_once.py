"""Cases of tests/host/host.py: several programs at once in one folder."""
import os
import random
import subprocess
from concurrent.futures import ThreadPoolExecutor

from host_program import LOCK, PROGRAM, STORE, Wrong, check, do, paths_in, run, staged_rows, write



def lets_one_init_make_the_store(folder):
    """Of several inits at once one makes the store, and the others are refused."""
    refused = (f"hookhost: cannot use {LOCK}\n".encode(), f"hookhost: cannot use {STORE}\n".encode())
    for at in range(20):
        work = os.path.join(folder, str(at))
        os.mkdir(work)
        with ThreadPoolExecutor(4) as pool:
            ends = list(pool.map(lambda _: run(work, "init"), range(4)))
        others = [end for end in ends if end != (0, b"", b"")]
        check(len(others) == 3 and all((status, out) == (3, b"") and err in refused for status, out, err in others), f"four inits at once end with {ends!r}")
        check(paths_in(work) == [".hookhost", LOCK, STORE, STORE + "-wal"] and do(work, "status") == b"", f"four inits at once leave {paths_in(work)!r}")


def with_added(text, name):
    """The text of status with a new file's line."""
    return b"".join(sorted([*text.splitlines(keepends=True), f"A {name}\n".encode()]))


def lets_one_program_work_at_a_time(folder):
    """While a program adds a large file, another is refused, or sees the repository before it or after it."""
    do(folder, "init")
    held, refused = random.Random(1).randbytes(16777216), 0
    for at in range(20):
        name = f"large{at}"
        write(folder, name, held)
        before = do(folder, "status")
        with subprocess.Popen([PROGRAM, "add", name], cwd=folder, stderr=subprocess.DEVNULL) as child:
            while child.poll() is None:
                status, out, err = run(folder, "status")
                is_refused = (status, out, err) == (3, b"", f"hookhost: cannot use {LOCK}\n".encode())
                check(is_refused or (status == 0 and out in (before, with_added(before, name))), f"beside an add: {(status, out, err)!r}")
                refused += is_refused
            # The other may have had the lock just when this one asked for it.
            check(child.returncode in (0, 3), f"add ends with {child.returncode}")
        after = do(folder, "status")
        check(after == (with_added(before, name) if child.returncode == 0 else before), f"after an add that ended with {child.returncode}: {after!r}")
        if refused and child.returncode == 0:
            return print(f"beside a large add: {refused} times refused")
        os.remove(os.path.join(folder, name))
    raise Wrong("in 20 rounds no program met another")


def loses_nothing_of_programs_at_once(folder):
    """Many writers, each of which tries again while another has the lock."""
    do(folder, "init")
    names = [[f"{writer}/{at}" for at in range(10)] for writer in range(4)]

    def add_all(mine):
        refused = 0
        for name in mine:
            write(folder, name, name.encode())
            while (answer := run(folder, "add", name)) != (0, b"", b""):
                check(answer == (3, b"", f"hookhost: cannot use {LOCK}\n".encode()), f"add of {name} beside others: {answer!r}")
                refused += 1
        return refused

    with ThreadPoolExecutor(len(names)) as pool:
        refused = sum(pool.map(add_all, names))
    check(refused > 0, "no program met another")
    wanted = {name.encode(): (0, name.encode()) for mine in names for name in mine}
    check(staged_rows(folder) == wanted, f"sqlite3 reads {sorted(staged_rows(folder))!r}")
    print(f"four writers at once: {len(wanted)} files added, {refused} times refused")


CASES = [lets_one_init_make_the_store, lets_one_program_work_at_a_time, loses_nothing_of_programs_at_once]
