"""What a repository shows, to the program and to sqlite3, for tests/host/host.py, and repositories to begin with."""
import collections
import os
import random
import shutil
import tempfile

from host_books import Book
from host_program import STORE, check, do, play, rows, staged_rows, write
from kept_answers import GREATEST_TICK, digest

# Hooks of each stage of a commit. That of the stage `manual` modifies files, and so does one before a commit, of the file `bad`.
HOOKS = b"""repos:
- repo: local
  hooks:
  - {id: look, name: Look, language: system, entry: cat, stages: [pre-commit]}
  - {id: mend, name: Mend, language: system, entry: "sed -i 's/x/y/'", files: '^bad$', stages: [pre-commit]}
  - {id: write, name: Write, language: system, entry: "sh -c 'echo a line >> $1' --", stages: [prepare-commit-msg, commit-msg]}
  - {id: behind, name: Behind, language: system, entry: 'true', stages: [post-commit], always_run: true}
  - {id: change, name: Change, language: system, entry: "sed -i 's/x/y/'", stages: [manual]}
"""
BOOK = """SELECT 'meta', name, value FROM meta ORDER BY name;
SELECT 'answer', lower(hex(words)), lower(hex(seen)) FROM answers;
SELECT 'use', lower(hex(words)), lower(hex(seen)), tick FROM uses ORDER BY tick DESC;
SELECT 'table', name FROM sqlite_schema WHERE type = 'table'"""
MOST_PRINTED = 30
TABLES = ["answers", "blobs", "commits", "entries", "fixes", "meta", "staged", "uses"]


def shown(folder):
    """What the repository shows."""
    return [do(folder, word) for word in ("status", "fixes", "log")]


def shown_alone(folder):
    """What a copy of the store's file shows, without a log, to the program and to sqlite3."""
    with tempfile.TemporaryDirectory() as copy:
        os.mkdir(os.path.join(copy, ".hookhost"))
        shutil.copyfile(os.path.join(folder, STORE), os.path.join(copy, STORE))
        return shown(copy), rows(copy, "SELECT hex(path), hex(digest) FROM staged; SELECT hex(path), gone FROM fixes; SELECT n, hex(message) FROM commits")


def state(folder):
    """All that a repository shows, to the program and then to sqlite3. Of many files the program prints only some, one in so many."""
    shown_first = shown(folder)
    files, *others = state_of_rows(folder)
    for path, (_, held) in list(files.items())[::max(1, len(files) // MOST_PRINTED)]:
        check(do(folder, "cat", "--", path) == held, f"cat of {path!r} gives other bytes than sqlite3")
    return shown_first, files, *others


def state_of_rows(folder):
    """What sqlite3 reads of a repository, in a file that has to be sound: staged files, commits, their files, and fixes."""
    check(rows(folder, "PRAGMA integrity_check; PRAGMA foreign_key_check") == ["ok"], "sqlite3 finds the file broken")
    commits, entries = "SELECT n, hex(message) FROM commits", "SELECT n, path, mode, hex(digest) FROM entries"
    others = (commits, entries, "SELECT hex(path), gone, hex(digest) FROM fixes")
    return staged_rows(folder), *(rows(folder, text) for text in others)


def book_in(folder):
    """The book that sqlite3 reads of a store, which has to be one of version 2: each answer with its use, and no more
    than its limit. A key is as `use_of` writes it."""
    found = collections.defaultdict(list)
    for kind, *columns in (line.split("|") for line in rows(folder, BOOK)):
        found[kind].append(columns)
    tables, meta = sorted(name for name, in found["table"]), dict(found["meta"])
    check(tables == TABLES and sorted(meta) == ["limit", "version"] and meta["version"] == "2",
          f"it has the tables {tables!r}, and in meta {meta!r}")
    limit, ticks = int(meta["limit"]), [int(tick) for *_, tick in found["use"]]
    uses = ["|".join(key) for *key, _ in found["use"]]
    check(all(1 <= tick <= GREATEST_TICK for tick in ticks), f"there are the ticks {ticks!r:.500}")
    check(sorted(uses) == sorted("|".join(key) for key in found["answer"]),
          f"of {len(found['answer'])} answers others are used: {uses!r:.500}")
    check(1 <= limit <= 100_000 and len(uses) <= limit, f"with a limit of {limit} there are {len(uses)} answers")
    return Book(limit, uses)


def found_alone(folder):
    """What sqlite3 reads of a copy of the store's file, without its log."""
    with tempfile.TemporaryDirectory() as copy:
        os.mkdir(os.path.join(copy, ".hookhost"))
        shutil.copyfile(os.path.join(folder, STORE), os.path.join(copy, STORE))
        return state_of_rows(copy)


def found_first(work, look):
    """What a look finds in a copy of the repository that no program has opened since it was left."""
    with tempfile.TemporaryDirectory() as copy:
        at_work = shutil.ignore_patterns("scratch*")
        shutil.copytree(os.path.join(work, ".hookhost"), os.path.join(copy, ".hookhost"), ignore=at_work)
        return look(copy)


def kept_contents(folder):
    """All contents that sqlite3 finds, each of which has to be under its digest."""
    found = [line.split("|") for line in rows(folder, "SELECT lower(hex(digest)), hex(bytes) FROM blobs")]
    kept = {bytes.fromhex(held): named for named, held in found}
    check(all(digest(held).hex() == named for held, named in kept.items()), "contents stand under another digest")
    return set(kept)


def filled(folder):
    """A repository with a commit, staged files and a fix, and files that aren't staged yet."""
    base, chance = os.path.join(folder, "base"), random.Random(3)
    os.mkdir(base)
    do(base, "init")
    for name in ("a", "b", "dir/c"):
        write(base, name, chance.randbytes(1000))
        do(base, "add", name)
    play(base, ["commit first\\n", "fix a 2", "set"])
    write(base, "b", chance.randbytes(300000))
    write(base, "new", chance.randbytes(300000))
    return base


def with_files(folder, files):
    """A repository with these staged files, each a path, a mode and contents."""
    base = os.path.join(folder, "base")
    os.mkdir(base)
    do(base, "init")
    for path, mode, held in files:
        write(base, path, held)
        do(base, "add", *["--chmod=+x"] * mode, path)
    return base
