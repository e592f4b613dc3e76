"""Cases of tests/host/host.py: how often the disk is waited for, and the log of the database that a change leaves."""
import os
import shutil
import subprocess
from pathlib import Path

from host_program import STORE, check, do, run, staged_rows, write

# Three hooks, each with a child.
THREE_HOOKS = b"""repos:
- repo: local
  hooks:
  - {id: first, name: First, language: system, entry: 'true', args: [first]}
  - {id: second, name: Second, language: system, entry: 'true', args: [second]}
  - {id: third, name: Third, language: system, entry: 'true', args: [third]}
"""


def waits_for(folder, helper, *words):
    """How many times the program waits for the disk while it does the command."""
    count = os.path.join(folder, "waits")
    status, _, err = run(folder, *words, env={**os.environ, "LD_PRELOAD": helper, "WAITS_FILE": count})
    check((status, err) == (0, b""), f"{words!r} ends with {status} and says {err!r}")
    waits = os.path.getsize(count)
    os.remove(count)
    return waits


def waits_for_the_disk_only_where_something_is_written(folder):
    """Each of both files is waited for, with its folder, when it is opened. A change waits for the log twice; and once
    there was one, the database is waited for, and three times until the log is empty again."""
    helper = os.path.join(folder, "waits.so")
    subprocess.run(["cc", "-shared", "-fPIC", "-O1", "-o", helper, str(Path(__file__).resolve().parent / "count_waits.c"), "-ldl"], check=True)
    do(folder, "init")
    write(folder, "a", b"1")
    write(folder, "b", b"2")
    counts = [waits_for(folder, helper, *words) for words in (["add", "a"], ["add", "b"], ["status"], ["cat", "a"], ["rm", "b"], ["log"], ["fixes"])]
    check(counts == [10, 10, 4, 4, 10, 4, 4], f"the disk is waited for {counts} times")
    # An answer is put as a change is, and used so, except the one in front: its run, which leaves no fixes, writes nothing.
    write(folder, ".pre-commit-config.yaml", THREE_HOOKS)
    do(folder, "add", ".pre-commit-config.yaml")
    runs = [("run", "--all-files", *words) for words in ([], [], ["third"], ["first"], ["first"], ["--fresh"])]
    counts = [waits_for(folder, helper, *words) for words in runs]
    check(counts == [14, 14, 4, 10, 4, 18], f"the disk is waited for {counts} times by runs of hooks")
    counts = [waits_for(folder, helper, *words) for words in (["memory"], ["memory", "--limit=2"], ["forget"])]
    check(counts == [4, 10, 10], f"the disk is waited for {counts} times by what changes the answers alone")
    # Without the log a command makes it, and one that reads removes it again.
    os.remove(os.path.join(folder, STORE + "-wal"))
    counts = [waits_for(folder, helper, *words) for words in (["status"], ["rm", "a"], ["status"])]
    check(counts == [10, 16, 4], f"the disk is waited for {counts} times, at first without a log")


def log_of(folder):
    """How long the log is that a command left."""
    return os.path.getsize(os.path.join(folder, STORE + "-wal"))


def takes_a_store_with_pages_of_another_size(folder):
    """A store that was written out and read in with other pages takes the place of the one next to the log. The log may be as long as a
    small change made it, or short after a large one."""
    do(folder, "init")
    write(folder, "a", b"1")
    do(folder, "add", "a")
    dumped = subprocess.run(["sqlite3", "-batch", os.path.join(folder, STORE), ".dump"], capture_output=True, timeout=60, check=True).stdout
    pages = 4096
    for length in (1, 1_000_000):
        for size in (512, 1024, 65536, 4096):
            write(folder, "b", str(size).encode().ljust(length, b" "))
            do(folder, "add", "b")
            found = log_of(folder)
            # A change of a few large pages is long too.
            check(found == 56 if length > 262_144 or pages > 32_768 else 512 < found <= 262_144, f"a file of {length} bytes leaves a log of {found}")
            pages = size
            os.remove(os.path.join(folder, STORE))
            made = subprocess.run(["sqlite3", "-batch", os.path.join(folder, "made")], input=b"PRAGMA page_size = %d;\n%s" % (size, dumped), capture_output=True, timeout=60)
            check((made.returncode, made.stderr) == (0, b""), f"sqlite3 says {made.stderr!r}")
            os.rename(os.path.join(folder, "made"), os.path.join(folder, STORE))
            check(do(folder, "status") == b"A a\n" and do(folder, "cat", "a") == b"1", f"pages of {size} bytes: the files are others")


def read_in_a_copy(folder, copy, store):
    """The staged files as sqlite3 reads them in a copy of the folder, which removes its log; with another file as the database, if one is
    given."""
    shutil.rmtree(copy, ignore_errors=True)
    shutil.copytree(os.path.join(folder, ".hookhost"), os.path.join(copy, ".hookhost"))
    if store:
        shutil.copyfile(store, os.path.join(copy, STORE))
    return staged_rows(copy)


def read_alone(store, copy):
    """The staged files as sqlite3 reads them in a file of the database without a log."""
    shutil.rmtree(copy, ignore_errors=True)
    os.makedirs(os.path.join(copy, ".hookhost"))
    shutil.copyfile(store, os.path.join(copy, STORE))
    return staged_rows(copy)


def leaves_a_log_without_a_change(folder):
    """The log that a change leaves, of any length, has nothing that the database lacks. It changes nothing if an older file of the
    database is put next to it."""
    work, copy = os.path.join(folder, "work"), os.path.join(folder, "copy")
    store, older, newer = os.path.join(work, STORE), os.path.join(folder, "older"), os.path.join(folder, "newer")
    os.mkdir(work)
    do(work, "init")
    before = {}
    for at, length in enumerate((1, 90_000, 1, 70_000, 300_000, 1, 2)):
        held = str(at).encode().ljust(length, b" ")
        write(work, "a", held)
        shutil.copyfile(store, older)
        do(work, "add", "a")
        check(log_of(work) == 56 if length > 262_144 else length < log_of(work) <= 262_144, f"a change of {length} bytes leaves a log of {log_of(work)}")
        check(read_in_a_copy(work, copy, None) == {b"a": (0, held)}, "sqlite3 finds other files")
        check(read_in_a_copy(work, copy, older) == before, "sqlite3 finds a change in the log")
        shutil.copyfile(store, newer)
        check(read_alone(newer, copy) == {b"a": (0, held)}, "the database alone has other files")
        shutil.copyfile(older, store)
        check(do(work, "status") == b"".join(b"A " + path + b"\n" for path in before), "the log brings a change back")
        shutil.copyfile(newer, store)
        check(do(work, "cat", "a") == held, "the staged file is another")
        before = {b"a": (0, held)}


def cuts_the_long_log_of_a_change_that_was_not_made(folder):
    """A log that a large change left when the power failed, or the disk was full, is cut by the next small one."""
    do(folder, "init")
    write(folder, "a", b"1")
    with open(os.path.join(folder, STORE + "-wal"), "ab") as log:
        log.write(bytes(3_000_000))
    for count in range(2):
        write(folder, "a", b"%d" % count)
        do(folder, "add", "a")
        check(log_of(folder) <= 262_144, f"the log has {log_of(folder)} bytes")
    check(do(folder, "cat", "a") == b"1", "the staged file is another")


CASES = [waits_for_the_disk_only_where_something_is_written, takes_a_store_with_pages_of_another_size,
         leaves_a_log_without_a_change, cuts_the_long_log_of_a_change_that_was_not_made]
