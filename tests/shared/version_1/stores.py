"""The stores of version 1 that are kept in this folder: how one is put into a folder, what its file holds, and what it shows.

Each is the file of its database, as NAME.db.xz, with a text NAME.txt. The text has the rows of each table as sqlite3 quotes them,
after their number and the SHA-256 of all of them. Then it has commands in their order, with what the program that made the store
answered. Long columns and long outputs are cut short in it. The commands may be run without any other program: each command of a hook
that one of them needs is cached.
"""
import hashlib
import lzma
import os
import shlex
import sqlite3
import subprocess
from pathlib import Path

HERE = Path(__file__).resolve().parent
STORE = ".hookhost/store.db"
# The columns of each table, and those of its key.
TABLES = {
    "meta": (["name", "value"], "name"),
    "blobs": (["digest", "bytes"], "digest"),
    "staged": (["path", "mode", "digest"], "path"),
    "fixes": (["path", "gone", "digest"], "path"),
    "commits": (["n", "message"], "n"),
    "entries": (["n", "path", "mode", "digest"], "n, path"),
    "answers": (["words", "seen", "output", "changes", "status"], "words, seen"),
}
# The most characters of a column, and the most bytes of what is printed, that a text has.
MOST_COLUMN, MOST_PRINTED = 140, 4000


def names():
    """The kept stores."""
    return sorted(path.name.removesuffix(".db.xz") for path in HERE.glob("*.db.xz"))


def text_of(name):
    return (HERE / f"{name}.txt").read_text(encoding="ascii")


def keep(name, database, text):
    """Keeps the file of a database with its text."""
    (HERE / f"{name}.db.xz").write_bytes(lzma.compress(database, preset=9 | lzma.PRESET_EXTREME))
    (HERE / f"{name}.txt").write_text(text, encoding="ascii")


def lay(name, folder):
    """Makes the folder the repository of a kept store."""
    path = Path(folder, STORE)
    path.parent.mkdir(parents=True)
    path.write_bytes(lzma.decompress((HERE / f"{name}.db.xz").read_bytes()))


# ---- the rows

def rows_of(path):
    """The rows of each table in the file of a store, each a list of quoted columns, in the order of the keys."""
    with sqlite3.connect(f"file:{path}?mode=ro&immutable=1", uri=True) as database:
        ask = lambda columns, table, key: database.execute(f"SELECT {', '.join(f'quote({each})' for each in columns)} FROM {table} ORDER BY {key}")
        return {table: ask(columns, table, key).fetchall() for table, (columns, key) in TABLES.items()}


def digest_of(rows):
    return hashlib.sha256("\n".join("|".join(row) for row in rows).encode()).hexdigest()


def escaped(text):
    """The text in ASCII, in one line."""
    return text.encode("unicode_escape").decode("ascii")


def cut(column):
    return column if len(column) <= MOST_COLUMN else f"{column[:60]}.. {len(column)} characters"


def lines_of_rows(rows):
    """The lines of a text that say which rows the tables have."""
    for table, found in rows.items():
        yield f"-- rows {table} {len(found)} {digest_of(found)}"
        yield from ("|".join(cut(escaped(column)) for column in row) for row in found)


# ---- what is shown

def run(program, folder, words):
    """The exit status of the program in the folder, if no other one is found, and what it printed."""
    env = {"PATH": os.path.join(folder, "no-programs")}
    done = subprocess.run([program, *words], cwd=folder, stdin=subprocess.DEVNULL, capture_output=True, timeout=600, env=env)
    return done.returncode, done.stdout, done.stderr


def lines_of_answer(status, out, err):
    """The lines of a text that say how a command ended."""
    if len(out) > MOST_PRINTED:
        yield f"{len(out)} bytes, SHA-256 {hashlib.sha256(out).hexdigest()}"
    else:
        yield from (escaped(line) for line in out.decode("utf-8", "surrogateescape").split("\n")[:-1 if out.endswith(b"\n") or not out else None])
        yield from ["-- no line end"] if out and not out.endswith(b"\n") else []
    yield from [f"-- stderr {escaped(err.decode())}"] if err else []
    yield from [f"-- status {status}"] if status else []


def commands_in(text):
    """The words of each command of a text, in their order."""
    lines = [line.removeprefix("-- run ") for line in text.splitlines() if line.startswith("-- run ")]
    return [shlex.split(line.encode().decode("unicode_escape")) for line in lines]


def told(program, folder, commands):
    """The text of the store in the folder: its rows, and then what the program answers to the commands, each after those before."""
    lines = list(lines_of_rows(rows_of(os.path.join(folder, STORE))))
    for words in commands:
        lines += [f"-- run {escaped(shlex.join(words))}", *lines_of_answer(*run(program, folder, words))]
    return "".join(line + "\n" for line in lines)
