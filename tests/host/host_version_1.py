"""Cases of tests/host/host.py: the stores of version 1 that are kept in tests/shared/version_1, made by an earlier program, and
larger ones. The first command that opens one makes it a store of version 2, whose answers are used in the order of
their keys, or leaves it as it was.
"""
import os
import shutil
import subprocess
from pathlib import Path

import host_files
from host_books import Book
from host_kills import Killed
from host_program import PROGRAM, STORE, check, do, rows, run, write
from host_state import book_in, found_first, state, state_of_rows
from kept_answers import SELECT_ROWS, TO_VERSION_1, KeptAnswer, planting_all, row_of, use_of
from version_1 import stores

VERSION = "SELECT name, value FROM meta ORDER BY name; SELECT name FROM sqlite_schema WHERE name = 'uses'"
# The most answers that are taken over.
MOST_TAKEN_OVER = 10_000
# Commands that open the store `fixes`, with the exit status of each and the limit that it leaves: look-ups, changes, and those that are
# refused once the store is open.
OPENING = [
    (["status"], 0), (["fixes"], 0), (["log"], 0), (["memory"], 0), (["show", "1"], 0), (["cat", "m/x"], 0),
    (["cat", "--fixed", "m/x"], 0), (["cat", "--commit=1", "m/x"], 0),
    (["show", "99"], 3), (["cat", "nowhere"], 3), (["cat", "--fixed", "nowhere"], 3),
    (["add", "new"], 0), (["rm", "m/x"], 0), (["rm", "m"], 0), (["accept"], 0), (["run", "--all-files"], 1),
    (["run-files", "m/x"], 1), (["forget"], 0), (["memory", "--limit=2"], 0),
    (["commit", "--no-verify", "-m", "text"], 3), (["rm", "nowhere"], 3), (["run", "nope"], 3),
    (["run-files", "nowhere"], 3), (["rm", "a//b"], 3),
]
# Commands that don't, apart from an init that is refused.
CLOSED = [
    (["init"], 3), (["--version"], 0), (["memory", "--help"], 2), (["memory", "--limit=0"], 2), (["status", "x"], 2),
    (["add", "nowhere"], 3), (["check"], 3), (["explain"], 3), (["try", "nowhere", "new"], 3),
    (["run", "--hook-stage=x"], 2),
]


def differing(found, wanted):
    """The first line in which two texts differ, in both."""
    pairs = zip(found.splitlines() + ["nothing"], wanted.splitlines() + ["nothing"])
    return next((pair for pair in pairs if pair[0] != pair[1]), None)


def rows_of(work):
    """The rows of each table but `meta`, as the text of a store has them, and the keys of the answers, of which the
    greatest is first."""
    found = stores.rows_of(os.path.join(work, STORE))
    keys = ["|".join(column[2:-1].lower() for column in row[:2]) for row in found["answers"]]
    return {table: found[table] for table in found if table != "meta"}, sorted(keys, reverse=True)


def laid(name, folder, at):
    """A copy of a kept store in a folder of its own, with a file that isn't staged."""
    work = os.path.join(folder, f"{name}{at}")
    stores.lay(name, work)
    write(work, "new", b"new\n")
    check(rows(work, VERSION) == ["version|1"], f"the store {name} isn't of version 1")
    return work


def opens_each_store_of_version_1(folder):
    """Each has the rows that were put, shows what its program showed, and answers hooks without starting their commands."""
    check(len(stores.names()) == 7, f"the stores are {stores.names()!r}")
    for name in stores.names():
        work, wanted = os.path.join(folder, name), stores.text_of(name)
        stores.lay(name, work)
        found = stores.told(PROGRAM, work, stores.commands_in(wanted))
        check(found == wanted, f"the store {name} says and wanted is {differing(found, wanted)!r:.1500}")


def takes_each_store_over_as_it_is(folder):
    """A command that only looks leaves each store with its rows, and its answers as they are in the order of their
    keys."""
    for name in stores.names():
        work = laid(name, folder, "")
        before, keys = rows_of(work)
        do(work, "status")
        after, _ = rows_of(work)
        check(after == before and book_in(work) == (10_000, keys),
              f"the store {name} has other rows once it is taken over")
        do(work, "status")
        check(rows_of(work) == (before, keys) and book_in(work) == (10_000, keys),
              f"the store {name} is taken over once more")


def is_taken_over_by_each_command(folder):
    """After any command the results that were cached are still cached. If it doesn't open the store, that is left as it is."""
    for at, (words, status) in enumerate(OPENING):
        work = laid("fixes", folder, at)
        before, keys = rows_of(work)
        ended = stores.run(PROGRAM, work, words)
        check(ended[0] == status, f"{words!r} on a store of version 1 ends with {ended!r:.1000}")
        (after, _), book = rows_of(work), book_in(work)
        limit = 2 if "--limit=2" in words else 10_000
        left = [] if words == ["forget"] else keys[:limit]
        is_run = words[0] in ("run", "run-files") and status == 1
        check(book.limit == limit and (set(book.keys) >= set(left) if is_run else book.keys == left),
              f"{words!r} on a store of version 1 leaves {book!r:.1000}")
        check(after == before or status != 3 and words[0] not in ("status", "fixes", "log", "show", "cat"),
              f"{words!r} on a store of version 1 leaves other rows")
        check(do(work, "memory") == b"remembered: %d\n" % len(book.keys),
              f"behind {words!r} memory says another number")
    for at, (words, status) in enumerate(CLOSED):
        work = laid("fixes", folder, f"closed{at}")
        before = Path(work, STORE).read_bytes()
        ended = stores.run(PROGRAM, work, words)
        check(ended[0] == status and Path(work, STORE).read_bytes() == before,
              f"{words!r} ends with {ended!r:.1000}, or opens the store")


# ---- larger ones

def answers_of(count):
    """This many answers, the first of which are those of commands on one file."""
    seen = [[("a", at % 2, b"version %d\n" % at)] for at in range(100)]
    return [KeptAnswer([b"tool", b"%d" % at, b"a"], seen[at % 100], [], at % 256, b"said %d\n" % (at % 10))
            for at in range(count)]


def planted(folder, name, answers):
    """A repository of version 1 with these cached results."""
    work = os.path.join(folder, name)
    os.mkdir(work)
    do(work, "init")
    write(work, "a", b"1\n")
    do(work, "add", "a")
    text = f".bail on\n{TO_VERSION_1};\n{planting_all(answers, 1)}"
    words = ["sqlite3", "-batch", os.path.join(work, STORE)]
    done = subprocess.run(words, input=text.encode(), capture_output=True, timeout=120)
    check((done.returncode, done.stderr) == (0, b""), f"sqlite3 says {done.stderr!r}")
    check(rows(work, VERSION) == ["version|1"], "sqlite3 makes no store of version 1")
    return work


def taken_over(answers):
    """The book that is made of these answers."""
    return Book(10_000, sorted(map(use_of, answers), reverse=True)[:MOST_TAKEN_OVER])


def takes_over_as_many_answers_as_a_new_store_remembers(folder):
    """Of one more than these, the one whose key is the least is dropped."""
    for count in (MOST_TAKEN_OVER, MOST_TAKEN_OVER + 1):
        answers = answers_of(count)
        work = planted(folder, str(count), answers)
        before, wanted = state_of_rows(work), taken_over(answers)
        check(do(work, "memory") == b"remembered: 10000\n", f"of {count} answers memory says another number")
        check(book_in(work) == wanted and state_of_rows(work) == before, f"of {count} answers others are taken over")
        kept = set(wanted.keys)
        check(rows(work, SELECT_ROWS) == sorted(row_of(answer) for answer in answers if use_of(answer) in kept),
              f"of {count} answers the rows are others")


def either_version(work, before, wanted):
    """Which version a store is of, that has to have all that it had."""
    check(state_of_rows(work) == before, "beside a migration the repository changes")
    if rows(work, VERSION) == ["version|1"]:
        check(rows(work, SELECT_ROWS) == wanted[0], "a store that is left of version 1 has other answers")
        return 1
    check(book_in(work) == wanted[1] and rows(work, SELECT_ROWS) == wanted[0],
          "a store that is taken over has other answers")
    return 2


def is_left_of_either_version_by_kills(folder):
    """A killed command leaves a store of version 1 as it was, or one of version 2 with all that it had."""
    answers = answers_of(1000)
    base = planted(folder, "base", answers)
    before, wanted, versions = state_of_rows(base), (rows(base, SELECT_ROWS), taken_over(answers)), {1: 0, 2: 0}
    for work, is_ended, _ in Killed(folder, base).each([PROGRAM, "status"]):
        version = found_first(work, lambda copy: either_version(copy, before, wanted))
        check(version == 2 or not is_ended, "a command that is done leaves a store of version 1")
        versions[version] += 1
        check(do(work, "memory") == b"remembered: 1000\n" and either_version(work, before, wanted) == 2,
              "behind a kill others are taken over")
    check(versions[1] > 0, f"the kills leave {versions!r}")
    print(f"kills of a status that takes a store over: {versions[1]} left version 1, {versions[2]} version 2")


def stays_of_version_1_where_it_cannot_be_taken_over(folder):
    """A command whose files may have only so many bytes takes the store over, or is refused and leaves it as it was."""
    answers = answers_of(100)
    base = planted(folder, "base", answers)
    before, wanted, ends = state_of_rows(base), (rows(base, SELECT_ROWS), taken_over(answers)), []
    for at, most in enumerate((0, 100, 4096, 20_000, 50_000, 100_000, 1_000_000)):
        for words in (["status"], ["memory", "--limit=100"]):
            work = shutil.copytree(base, os.path.join(folder, f"{words[0]}{at}"))
            status, out, err = run(work, *words, preexec_fn=host_files.limited(most))
            ends.append(status)
            check(status == 0 or (status, out) == (3, b"") and err.startswith(b"hookhost: "),
                  f"{words!r} within {most} bytes ends with {status} and says {err!r}")
            version = found_first(work, lambda copy: rows(copy, VERSION)[-1])
            check(version == "version|1" if status == 3 else version == "uses",
                  f"{words!r} within {most} bytes ends with {status} and leaves {version!r}")
            check(do(work, "memory") == b"remembered: 100\n",
                  f"behind {words!r} within {most} bytes memory says another number")
            if words == ["status"]:
                check(either_version(work, before, wanted) == 2, "a store isn't taken over")
            check(state(work)[1:] == before, f"{words!r} within {most} bytes changes the repository")
            shutil.rmtree(work)
    check(3 in ends and 0 in ends, f"the commands end with {ends!r}")


CASES = [opens_each_store_of_version_1, takes_each_store_over_as_it_is, is_taken_over_by_each_command,
         takes_over_as_many_answers_as_a_new_store_remembers, is_left_of_either_version_by_kills,
         stays_of_version_1_where_it_cannot_be_taken_over]
