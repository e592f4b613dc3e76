"""Cases of tests/fuzz/fuzz.py: stores whose file another program damaged, its bytes, or its rows by sqlite3."""
import os
import random
import shutil
import sqlite3

from fuzz_answers import CONFIGURATION, REFUSALS_OF_OPENING, Answer
from fuzz_play import Case
from host_program import STORE, check
from stops_books import TO_LAST_TICK, TO_SMALL_VERSION_1

# What a row may hold in place of what it holds.
VALUES = [
    None, -1, 0, 1, 2, 7, 256, 100_000, 100_001, 2 ** 32, 2 ** 62, 2 ** 62 + 1, 2 ** 63 - 1, -2 ** 63, 0.5, float("inf"),
    "", "a", "a/b", "../x", ".git/x", ".git/COMMIT_EDITMSG", "a\nb", "/a", "a//b", "\ud7ff", "x" * 5000, b"", b"\0", b"\0" * 31, b"\0" * 32, b"\xff" * 32, b"\0\0\0\1\0\0\0\1c", b"\xff\xff\xff\xff",
    b"a" * 100_000,
]
SCHEMAS = [
    "CREATE TABLE more (a)", "CREATE TABLE more (a) WITHOUT ROWID", "CREATE INDEX more ON staged (mode)",
    "CREATE INDEX more ON staged (mode + 1)", "CREATE UNIQUE INDEX more ON commits (message)",
    "CREATE INDEX more ON blobs (bytes) WHERE bytes > x'00'", "CREATE VIEW more AS SELECT * FROM staged",
    "CREATE VIEW more AS WITH RECURSIVE c(n) AS (SELECT 1 UNION ALL SELECT n FROM c) SELECT * FROM c",
    "CREATE TRIGGER more AFTER INSERT ON staged BEGIN DELETE FROM blobs; END", "CREATE VIRTUAL TABLE more USING fts5(a)",
    "DROP TABLE fixes", "DROP TABLE meta", "DROP TABLE answers", "ALTER TABLE staged ADD COLUMN more INTEGER",
    "ALTER TABLE fixes RENAME TO fixed", "ALTER TABLE commits RENAME COLUMN message TO text", "ANALYZE", "REINDEX",
    "PRAGMA user_version = 7", "PRAGMA application_id = 7", "PRAGMA journal_mode = DELETE",
    "PRAGMA page_size = 512; PRAGMA journal_mode = DELETE; VACUUM", "PRAGMA auto_vacuum = 1; VACUUM", "VACUUM",
    "PRAGMA journal_mode = DELETE; PRAGMA page_size = 65536; VACUUM", "DELETE FROM meta", "INSERT INTO meta VALUES ('more', 1)",
    "UPDATE meta SET value = 2", "UPDATE meta SET value = 3 WHERE name = 'version'",
    "UPDATE meta SET value = 1 WHERE name = 'version'", "UPDATE meta SET value = 3 WHERE name = 'limit'",
    "DELETE FROM meta WHERE name = 'limit'", "DELETE FROM answers", "DELETE FROM uses", "DROP TABLE uses",
    "DELETE FROM uses WHERE tick = (SELECT max(tick) FROM uses)", "UPDATE uses SET tick = -tick",
    "UPDATE uses SET tick = tick * 1000", "INSERT INTO uses SELECT digest, digest, 99 FROM blobs LIMIT 1",
    "CREATE INDEX more ON uses (seen)", TO_LAST_TICK, TO_LAST_TICK, TO_SMALL_VERSION_1, TO_SMALL_VERSION_1,
    f"{TO_SMALL_VERSION_1}; UPDATE answers SET rowid = 9223372036854775807 WHERE rowid = 1",
    f"{TO_SMALL_VERSION_1}; UPDATE meta SET rowid = 9223372036854775807",
    f"{TO_SMALL_VERSION_1}; DELETE FROM blobs WHERE rowid = 3",
    "DELETE FROM blobs", "DELETE FROM staged", "DELETE FROM commits",
    "PRAGMA writable_schema = 1; UPDATE sqlite_schema SET sql = 'CREATE TABLE fixes (path)' WHERE name = 'fixes'",
    "PRAGMA writable_schema = 1; UPDATE sqlite_schema SET rootpage = 3 WHERE name = 'answers'",
    "PRAGMA writable_schema = 1; UPDATE sqlite_schema SET rootpage = 99999 WHERE name = 'staged'",
    "PRAGMA writable_schema = 1; DELETE FROM sqlite_schema WHERE name LIKE 'sqlite_autoindex%'",
]
PAGE = 4096
# What any command prints for a store that isn't opened.
UNUSABLE = Answer(3, b"", f"hookhost: cannot use {STORE}\n".encode())
SHUT = [UNUSABLE, *(Answer(3, b"", f"hookhost: refused: {each}\n".encode()) for each in REFUSALS_OF_OPENING)]


# ---- bytes

def flip_bits(chance, held):
    """Some bits, of the header, of any page's head or anywhere."""
    data = bytearray(held)
    for _ in range(chance.choice([1, 1, 1, 2, 5, 100])):
        at = chance.choice([chance.randrange(100), chance.randrange(0, len(data), PAGE) + chance.randrange(16), chance.randrange(len(data))])
        data[min(at, len(data) - 1)] ^= 1 << chance.randrange(8)
    return bytes(data)


def cut_short(chance, held):
    return held[:chance.choice([chance.randrange(len(held)), chance.randrange(0, len(held), PAGE), chance.randrange(200), 1])]


def extend(chance, held):
    return held + chance.choice([b"\0", bytes(PAGE), held, chance.randbytes(chance.choice([1, PAGE, 10_000]))])


def mix_pages(chance, held):
    """A page that is emptied, random, or a copy of another."""
    pages = [held[at:at + PAGE] for at in range(0, len(held), PAGE)]
    at = chance.randrange(len(pages))
    pages[at] = chance.choice([bytes(PAGE), chance.randbytes(PAGE), chance.choice(pages), chance.choice(pages)])
    return b"".join(pages)


def set_number(chance, held):
    """Two or four bytes that may be a size, a count or a page's number."""
    at = chance.choice([chance.randrange(16, 100), chance.randrange(0, len(held), PAGE) + chance.randrange(12), chance.randrange(len(held) - 4)])
    number = chance.choice([0, 1, 2, 0x7fff, 0xffff, 0x7fffffff, 0xffffffff, chance.randrange(len(held) // PAGE + 2)])
    data = number.to_bytes(4, "big") if number > 0xffff or chance.random() < 0.5 else number.to_bytes(2, "big")
    return (held[:at] + data + held[at + len(data):])[:len(held)]


def other_file(chance, _):
    return chance.choice([b"", b"\0", b"\0\0", b"S", b"SQLite format 3\0", b"SQLite format 3\0" + bytes(84), chance.randbytes(5000), bytes(100_000)])


DAMAGES = [flip_bits, flip_bits, flip_bits, cut_short, extend, mix_pages, set_number, set_number, other_file]


# ---- rows

def rows_of(database, table):
    try:
        return [row[0] for row in database.execute(f"SELECT rowid FROM {table} ORDER BY rowid")]
    except sqlite3.Error:
        return []


def change_of_rows(chance, database):
    """A statement that changes a row, and its values."""
    table = chance.choice([name for name, in database.execute("SELECT name FROM sqlite_schema WHERE type = 'table' AND name NOT LIKE 'sqlite%' ORDER BY name")])
    columns = [row[1] for row in database.execute(f"PRAGMA table_info({table})")]
    column, row = chance.choice(columns), chance.choice(rows_of(database, table) or [0])
    held = [value for value, in database.execute(f"SELECT {column} FROM {table} ORDER BY rowid")] if rows_of(database, table) else []
    value = chance.choice(held) if held and chance.random() < 0.4 else chance.randbytes(32) if chance.random() < 0.1 else chance.choice(VALUES)
    one = (f"UPDATE {table} SET {column} = ? WHERE rowid = ?", (value, row))
    return chance.choice([
        one, one, (f"UPDATE {table} SET {column} = ?", (value,)), (f"DELETE FROM {table} WHERE rowid = ?", (row,)),
        (f"UPDATE {table} SET rowid = ? WHERE rowid = ?", (chance.choice([-1, 0, 99, 2 ** 63 - 1]), row)),
        (f"INSERT INTO {table} VALUES ({', '.join('?' * len(columns))})", tuple(value if each == column else chance.choice(VALUES) for each in columns)),
        (f"UPDATE {table} SET {column} = CAST({column} AS TEXT) || 'x' WHERE rowid = ?", (row,)),
    ])


def damage_rows(chance, path):
    """Changes the rows or the tables of a store. Answers the statements, each with what sqlite3 printed for it."""
    done = []
    database = sqlite3.connect(path, isolation_level=None)
    database.execute("PRAGMA ignore_check_constraints = 1")
    for _ in range(chance.choice([1, 1, 1, 2, 4])):
        try:
            statement = (chance.choice(SCHEMAS), ()) if chance.random() < 0.3 else change_of_rows(chance, database)
            done.append(statement)
            parts = statement[0].split("; ") if "BEGIN" not in statement[0] else [statement[0]]
            for part in parts:
                database.execute(part, statement[1]).fetchall()
        except (sqlite3.Error, IndexError) as error:
            done.append(f"sqlite3 refuses it: {error}")
    database.close()
    for ending in ("-wal", "-shm"):
        if os.path.exists(path + ending):
            os.remove(path + ending)
    return done


def soundness(path):
    """Whether sqlite3 finds the file, whose log it puts into it, to be sound, and what it finds."""
    database = sqlite3.connect(path, isolation_level=None)
    found = [row for check in ("integrity_check", "foreign_key_check") for row in database.execute(f"PRAGMA {check}")]
    database.close()
    return found == [("ok",)], found


# ---- cases

def damaged_repository(bases):
    """A repository with everything that one may have: commits, staged files, fixes, and answers."""
    case = Case(bases.new("told"), random.Random(0))
    hooks = "\n".join(["repos:", "- repo: local", "  hooks:", "  - {id: look, name: Look, language: system, entry: cat, verbose: true, files: txt$}",
                       "  - {id: mend, name: Mend, language: system, entry: sed -i s/x/y/, files: txt$, stages: [pre-commit]}"]) + "\n"
    case.write(CONFIGURATION, hooks.encode())
    case.does("init")
    for count in range(3):
        case.write("a.txt", b"one %d\n" % count)
        case.write(f"d/{count}.txt", b"told\n" * 300 * count)
        case.does("add", CONFIGURATION, "a.txt", "d")
        case.does("commit", "-m", f"commit {count}\n\nand more")
    case.write("a.txt", b"x\n")
    case.does("add", "--chmod=+x", "a.txt")
    case.run("run")
    check(case.run("fixes").out == b"M a.txt\n", "the repository to be damaged has no fixes")
    return case.folder


def asked_of_a_store(chance):
    """Commands on a repository, those first that change nothing."""
    looks = [["status"], ["log"], ["show", "1"], ["show", "3"], ["cat", "a.txt"], ["cat", "--fixed", "a.txt"], ["cat", "--commit=1", "a.txt"],
             ["fixes"], ["memory"]]
    changes = [["run"], ["run", "--all-files"], ["run", "--fresh"], ["run-files", "a.txt"], ["commit", "-m", "more"],
               ["commit", "--no-verify", "-m", "more"], ["accept"], ["forget"], ["add", "a.txt"], ["rm", "a.txt"], ["init"],
               ["memory", "--limit=2"]]
    chance.shuffle(looks)
    chance.shuffle(changes)
    return looks + changes


def remove_file(path):
    if os.path.exists(path):
        os.remove(path)


def damage(case):
    """Damages the store of the case's folder, by rows or by bytes, its log too."""
    path = os.path.join(case.folder, STORE)
    if case.chance.random() < 0.4:
        case.note("lay no log")
        remove_file(path + "-wal")
    if case.chance.random() < 0.5:
        case.note("by sqlite3", damage_rows(case.chance, path))
        return
    at = path + "-wal" if os.path.exists(path + "-wal") and case.chance.random() < 0.2 else path
    with open(at, "rb") as file:
        held = file.read()
    for _ in range(case.chance.choice([1, 1, 1, 2])):
        make = case.chance.choice(DAMAGES)
        held = make(case.chance, held) if len(held) > PAGE else held
        case.note(make.__name__)
    case.write(os.path.relpath(at, case.folder), held)


def plays_stores(case, bases):
    """A store whose file another program damaged. It is refused by each command as it is when it is opened."""
    shutil.rmtree(case.folder)
    shutil.copytree(bases.told, case.folder)
    damage(case)
    first = case.run("status")
    if first.status == 0:
        # A store of version 1 is one of version 2 by now.
        case.changes()
    for words in asked_of_a_store(case.chance):
        if words == ["init"]:
            case.has(words, UNUSABLE)
        elif first in SHUT:
            case.has(words, first)
        else:
            case.run(*words)
    if first.status == 0:
        is_whole, found = soundness(os.path.join(case.folder, STORE))
        check(is_whole, f"sqlite3 finds {found!r} in a store that was opened")
