"""The cached results of a repository, as SQLite reads them, and what becomes of them step by step, for tests/shared/stops_repository.py
and tests/memory/refused_memory.py. Also stores that only an old program leaves, or one that was killed, made of a new one by SQLite.
"""
import os
import shutil
import sqlite3
import tempfile
from collections import namedtuple
from contextlib import closing

from host_program import STORE, check
from kept_answers import GREATEST_TICK, TO_VERSION_1

FIRST_LIMIT, MOST_ANSWERS = 10_000, 100_000
COLUMNS = "words, seen, output, changes, status"
FIRST_ANSWERS = f"SELECT {COLUMNS} FROM answers ORDER BY words DESC, seen DESC"
USED_ANSWERS = f"SELECT {COLUMNS} FROM answers JOIN uses USING (words, seen) ORDER BY tick DESC"
COUNTS = "SELECT (SELECT count(*) FROM answers), count(*), min(tick), max(tick) FROM uses"
# A store of version 1 in as few pages as it takes.
TO_SMALL_VERSION_1 = f"{TO_VERSION_1}; VACUUM"
# With one tick left the first use has the greatest, and before the next one all are numbered again.
TO_LAST_TICK = f"UPDATE uses SET tick = tick + {GREATEST_TICK} - 1 - (SELECT max(tick) FROM uses)"
# A change that a killed program may have left in the log.
CHANGE_IN_LOG = "DELETE FROM fixes; DELETE FROM staged WHERE path = 'e'"


class Book(namedtuple("Book", "version limit answers")):
    """The version of a store, how many answers it caches at most, and their rows, the most recently used first. A store of version 1 has
    no limit. Its rows are in the order of a migration, that with the greatest key first."""

    def migrated(self):
        return self if self.version == 2 else Book(2, FIRST_LIMIT, self.answers[:FIRST_LIMIT])

    def used(self, rows):
        """The books after each of these uses and puts: its row is in front then, and the last one is dropped if the limit is passed."""
        found, book = [], self
        for row in rows:
            others = tuple(other for other in book.answers if other[:2] != row[:2])
            book = book._replace(answers=(row, *others)[:book.limit])
            found.append(book)
        return found


def book_by(ask):
    """The book of a store, of which SQL is asked. It has to be one that a store can have."""
    meta, uses = dict(ask("SELECT name, value FROM meta")), ask("SELECT name FROM sqlite_schema WHERE name = 'uses'")
    if meta == {"version": 1}:
        check(uses == (), "a store of version 1 has a table of uses")
        return Book(1, None, ask(FIRST_ANSWERS))
    check(set(meta) == {"version", "limit"} and meta["version"] == 2, f"the store is marked by {meta!r}")
    (answers, uses, least, greatest), book = ask(COUNTS)[0], Book(2, meta["limit"], ask(USED_ANSWERS))
    check(answers == uses == len(book.answers), f"{answers} answers and {uses} uses make {len(book.answers)}")
    check(answers <= book.limit <= MOST_ANSWERS and book.limit > 0, f"{answers} answers have a limit of {book.limit}")
    check(not answers or 1 <= least and greatest <= GREATEST_TICK, f"the ticks are from {least} to {greatest}")
    return book


def steps_between(before, after, uses):
    """The books that a command makes of one, each by a transaction: a migration, and so many uses and puts. If `uses` is none, it is one
    other change instead."""
    if before is None:
        return [None, after]
    steps = [before] if before.version == 2 else [before, before.migrated()]
    steps += [after] if uses is None else steps[-1].used(reversed(after.answers[:uses]))
    check(steps[-1] == after, f"{uses} uses and puts don't make {after!r:.900} of {before!r:.900}")
    return steps


# ---- stores that are made by SQLite

def execute(work, script):
    """Has SQLite change the store of a folder, which isn't open and has no change in its log then."""
    with closing(sqlite3.connect(os.path.join(work, STORE), isolation_level=None)) as database:
        database.executescript(script)
    return work


def execute_in_log(work, script):
    """The same, if what is changed is in the log alone, as after a program that was killed."""
    path = os.path.join(work, STORE)
    with tempfile.TemporaryDirectory() as folder:
        with closing(sqlite3.connect(path, isolation_level=None)) as database:
            database.executescript(f"PRAGMA wal_autocheckpoint = 0; BEGIN; {script}; COMMIT")
            for ending in ("", "-wal"):
                shutil.copy(path + ending, os.path.join(folder, "store" + ending))
        for ending in ("", "-wal"):
            shutil.copy(os.path.join(folder, "store" + ending), path + ending)
    return work
