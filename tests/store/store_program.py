"""The programs store_trial and sqlite3 as tests/store/store.py runs them, and the rows that the file of a store must have."""
import os
import shutil
import signal
import sqlite3
import subprocess
import sys
import time

from kept_answers import GREATEST_TICK, SELECT_ROWS, SELECT_USES, digest, row_of, use_of
from places import program
from store_cases import FIRST_TABLES, MODES, SHOWN, TABLES, unescaped

PROGRAM = os.path.abspath(sys.argv[1] if len(sys.argv) > 1 else program("store_trial"))
NOBODY = 65534
SQLITE = shutil.which("sqlite3") or sys.exit("tests/store/store.py: there is no sqlite3 to read the files with")


class Wrong(Exception):
    """What is wrong, in words."""


def check(holds, text):
    if not holds:
        raise Wrong(text)


def check_story(story, given, place=""):
    """Each line of a story has the answer that is next to it."""
    for (line, wanted), answer in zip(story, given):
        check(answer == wanted, f"{place}{line[:200]!r} is answered {answer[:500]!r}, wanted {wanted[:500]!r}")
    check(len(given) >= len(story), f"{place}{len(given)} of {len(story)} lines are answered")


# ---- the program

def run(path, lines, env=None):
    """The answers to the lines over a file, the exit status and what is on standard error."""
    return run_words([path], lines, env=env)


def run_words(words, lines, program=PROGRAM, **how):
    text = "".join(line + "\n" for line in lines)
    done = subprocess.run([program, *words], input=text.encode(), capture_output=True, timeout=1200, **how)
    # Contents may have ends of lines of another kind.
    given = done.stdout.decode("utf-8", "surrogateescape").split("\n")
    return given[:-1] if not given[-1] else given, done.returncode, done.stderr.decode()


def answers(path, lines):
    """The answers to lines, each of which has to have one."""
    given, status, said = run(path, lines)
    check(status == 0 and len(given) == len(lines),
          f"status {status} after {len(given)} of {len(lines)} answers: {said!r} {given[-1:]!r}")
    return given


def shown(path):
    """All that the store in a file shows, when it is opened and closed."""
    given = answers(path, ["open", *SHOWN, "close"])
    check(given[0] == given[-1] == "ok", f"it isn't opened: {given[0]!r} .. {given[-1]!r}")
    return given[1:-1]


def seconds_of(path, lines):
    """How long a whole play takes."""
    start = time.monotonic()
    answers(path, lines)
    return time.monotonic() - start


def answered_until_killed(path, lines, seconds):
    """How many lines of a play are answered that is killed after so many seconds."""
    child = subprocess.Popen([PROGRAM, path], stdin=subprocess.PIPE, stdout=subprocess.PIPE)
    try:
        child.communicate("".join(line + "\n" for line in lines).encode(), timeout=seconds)
    except subprocess.TimeoutExpired:
        child.send_signal(signal.SIGKILL)
    return len(child.communicate()[0].splitlines())


def held_back_by_permissions(folder):
    """How the program is run as a user who is subject to permissions: one who may do all runs a copy as nobody."""
    if os.geteuid() != 0:
        return {}
    program = shutil.copy(PROGRAM, os.path.join(folder, "program"))
    for path in (folder, program):
        os.chmod(path, 0o755)
    return {"program": program, "user": NOBODY, "group": NOBODY, "extra_groups": []}


# ---- sqlite3

def ask(path, text):
    """What sqlite3 answers to SQL on a file: lines, whose columns bars part."""
    done = subprocess.run([SQLITE, "-batch", "-bail", path], input=text.encode(), capture_output=True, timeout=300)
    check(done.returncode == 0, f"sqlite3 refuses {text[:500]!r}: {done.stderr!r}")
    return done.stdout.decode().splitlines()


def change(path, text):
    """Has sqlite3 change a file, with no regard to its tables' references."""
    ask(path, "PRAGMA foreign_keys = OFF; " + text)


# How the rows of each table are read: in the order of their keys, except the uses, which are from the front on.
SELECTS = {
    "meta": "SELECT name, value FROM meta ORDER BY name",
    "blobs": "SELECT lower(hex(digest)), hex(bytes) FROM blobs ORDER BY digest",
    "staged": "SELECT path, mode, lower(hex(digest)) FROM staged ORDER BY path",
    "fixes": "SELECT path, gone, lower(hex(digest)) FROM fixes ORDER BY path",
    "commits": "SELECT n, hex(message) FROM commits ORDER BY n",
    "entries": "SELECT n, path, mode, lower(hex(digest)) FROM entries ORDER BY n, path",
    "answers": SELECT_ROWS,
    "uses": SELECT_USES,
}


def rows_of(path):
    """The rows of each of these tables that a file has, as lines, whose columns bars part."""
    database = sqlite3.connect(path)
    there = [name for name, in database.execute("SELECT name FROM sqlite_schema WHERE type = 'table' ORDER BY name")]
    found = {table: database.execute(SELECTS[table]).fetchall() for table in SELECTS if table in there}
    # Closed, it leaves no log next to the file, as the program sqlite3 does.
    database.close()
    column = lambda value: "" if value is None else str(value)
    return {table: ["|".join(map(column, row)) for row in rows] for table, rows in found.items()}


def ticks_in(path):
    return [int(line) for line in ask(path, "SELECT tick FROM uses ORDER BY tick")]


def commits_in_log(path):
    """How many transactions are in the log next to a file: each ends with the frame of a page that gives the size of the database."""
    if not os.path.exists(path + "-wal"):
        return 0
    with open(path + "-wal", "rb") as file:
        log = file.read()
    size, salts = int.from_bytes(log[8:12], "big"), log[16:24]
    frames = [log[at:at + 24] for at in range(32, len(log), 24 + size)] if log else []
    return sum(frame[8:16] == salts and any(frame[4:8]) for frame in frames)


def hex_of(text):
    return unescaped(text).hex().upper()


def digest_of(text):
    return digest(unescaped(text)).hex()


def files_of(tree):
    return [f"{path}|{MODES[mode]}|{digest_of(content)}" for path, (mode, content) in sorted(tree.items())]


def meta_of(store):
    return {1: ["version|1"], 2: [f"limit|{store['answers'].limit}", "version|2"]}[store["version"]]


def rows_of_model(store):
    """The rows that the tables of a store must have."""
    kept = [answer for _, answer in store["answers"].rows()]
    rows = {
        "meta": meta_of(store),
        "blobs": sorted(f"{digest(content).hex()}|{content.hex().upper()}" for content in store["blobs"]),
        "staged": files_of(store["staged"]),
        "fixes": [f"{path}|1|" if now is None else f"{path}|0|{digest_of(now)}"
                  for path, now in sorted(store["fixes"].items())],
        "commits": [f"{at}|{hex_of(message)}" for at, (message, _) in enumerate(store["history"], 1)],
        "entries": [f"{at}|{file}" for at, (_, tree) in enumerate(store["history"], 1) for file in files_of(tree)],
        "answers": sorted(row_of(answer) for answer in kept),
    }
    return rows | {"uses": [use_of(answer) for answer in kept]} if store["version"] == 2 else rows


def check_rows(found, store, place=""):
    wanted = rows_of_model(store)
    check(found.keys() == wanted.keys(), f"{place}the tables are {list(found)!r}, wanted {list(wanted)!r}")
    for table in wanted:
        check(found[table] == wanted[table],
              f"{place}the rows of {table} are {found[table]!r:.2000}, wanted {wanted[table]!r:.2000}")


def check_file(path, store):
    """The file is a sound database of the documented tables of its version, and has the rows of the store."""
    tables = sorted(TABLES if store["version"] == 2 else FIRST_TABLES)
    schema = ask(path, "SELECT sql FROM sqlite_schema WHERE sql IS NOT NULL ORDER BY name")
    check(schema == tables, f"the schema is {schema!r}")
    printed = sorted(ask(path, ".schema"))
    check(printed == [line + ";" for line in tables], f"sqlite3 prints the schema {printed!r}")
    check(ask(path, "PRAGMA integrity_check") == ["ok"], "integrity_check finds faults")
    check(ask(path, "PRAGMA foreign_key_check") == [], "foreign_key_check finds faults")
    if store["version"] == 2:
        outside = ask(path, f"SELECT tick FROM uses WHERE tick NOT BETWEEN 1 AND {GREATEST_TICK}")
        check(outside == [], f"the ticks {outside!r} are outside their bounds")
    check_rows(rows_of(path), store)
