#!/usr/bin/env python3
"""Times what the order and the limit of the cached results cost, in stores in real files, and prints ratios.

Usage: bench/uses.py [--small] [--part=PART].. [PROGRAM [STORE_TRIAL]]   (default: the built programs)

  --small       few answers and few turns, to see that all of it runs: the figures say nothing
  --part=PART   only this part, which is calls, limits or migrations

Calls, on an open store that has as many answers as its limit: looking up the row in front and looking up a missing one, neither of
which writes; a use, which looks up the row that was used least lately and moves it to the front in a transaction of its own; and a
put, which drops that row. They are compared with a staging, which is a transaction too, and the use with the same statements by the
program sqlite3. Limits: `memory --limit` that drops half of the answers or all but one is compared with `memory`, which opens the
store and does nothing else, and the drop alone with the same rows by sqlite3. Migrations: `memory` on a store of version 1, which
it converts to version 2, keeping 10,000 of its answers. It is compared with the same on a store of version 2 with as many answers,
and what it adds is compared with the same tables by sqlite3.

Each time is wall time in milliseconds, the least of several runs in which all that is compared takes turns. Each run that writes
has a copy of its own, which is on the disk. The load of the last minute is printed before each part.
"""
import os
import shutil
import sqlite3
import subprocess
import sys
import tempfile

HERE = os.path.dirname(os.path.abspath(__file__))
sys.path[:1] = [HERE, os.path.join(HERE, "..", "tests", "shared")]
from timing import asked_parts, in_folder, is_asked, made_peak, peak, program, show

SMALL = is_asked("--small")
PARTS = asked_parts(["calls", "limits", "migrations"])
PROGRAM = program()
# What is left of the words names store_trial, which store.py reads.
del sys.argv[1:2]
from planting import FIRST_LIMIT, MOST_ANSWERS, answer_to, keys_of, plant
from store import PRAGMAS, SIZE, Play, by_sqlite
from version_1 import stores

STORE, OPENING = stores.STORE, [PROGRAM, "memory"]
# How many answers a store has for calls, and for limits and migrations; how many calls of a kind are timed together; and
# how often.
ANSWERS_OF_CALLS = (10, 100) if SMALL else (10, 1_000, 10_000, 100_000)
ANSWERS = (100,) if SMALL else (10_000, 100_000)
CALLS, TURNS, RUNS = (5, 2, 2) if SMALL else (50, 9, 5)


# ---- answers, and stores that have them

def path_of(at):
    return f"f/{at:06}"


def answers_of(count):
    """The answers of one command to so many files, each of which it saw alone."""
    return [answer_to(["tool", path_of(at)], [(path_of(at), 0, f"{at}".encode())]) for at in range(count)]


def key_line(at):
    """What store_trial calls the words and the files of such an answer."""
    return f"tool {path_of(at)} | {path_of(at)}={at}"


def sql_of(key):
    words, seen = key
    return f"words = x'{words.hex()}' AND seen = x'{seen.hex()}'"


def make_second(folder, answers, limit):
    """A repository whose store is of version 2."""
    os.mkdir(folder)
    os.chdir(folder)
    subprocess.run([PROGRAM, "init"], check=True)
    plant(STORE, answers, limit)


def make_first(folder, answers):
    """A repository whose store an earlier program made, of version 1."""
    stores.lay("empty", folder)
    plant(os.path.join(folder, STORE), answers, version=1)


def copied(path, to):
    """A copy of a repository that the disk has."""
    shutil.rmtree(to, ignore_errors=True)
    shutil.copytree(path, to)
    with open(os.path.join(to, STORE), "rb") as file:
        os.fsync(file.fileno())
    return to


def least_of(rounds):
    """The least of what each round took, by what was timed."""
    rounds = list(rounds)
    return {what: min(each[what] for each in rounds) for what in rounds[0]}


def tell_load(what):
    print(f"{what}, at a load of {os.getloadavg()[0]:.1f}", flush=True)


def look_for_answers(folder, wanted):
    """Checks that so many answers are cached: otherwise something else was timed."""
    said = subprocess.run(OPENING, cwd=folder, stdout=subprocess.PIPE, text=True, check=True).stdout
    if said != f"remembered: {wanted}\n":
        sys.exit(f"bench/uses.py: {said!r}, wanted are {wanted}")


def rows_in(folder):
    """What the store of a repository says of the order and the limit of its answers."""
    asked = ("SELECT name, value FROM meta ORDER BY name", "SELECT words, seen FROM uses ORDER BY tick",
             "SELECT * FROM answers ORDER BY words, seen")
    with sqlite3.connect(os.path.join(folder, STORE)) as held:
        rows = [held.execute(each).fetchall() for each in asked]
    held.close()
    return rows


def compare_stores(ours, theirs):
    """Both programs have to leave the same rows: otherwise they didn't do the same."""
    if rows_in(ours) != rows_in(theirs):
        sys.exit("bench/uses.py: sqlite3 leaves other rows")


# ---- calls on an open store

def lines_of_calls(turn, count):
    """The lines of each kind of call in a turn. Those of uses move one row after another: each looks up the row that was used
    least lately, and the last of them is looked up again while it is in front."""
    numbers = range(turn * CALLS, (turn + 1) * CALLS)
    used = [key_line(at % count) for at in numbers]
    return {
        "a staging": [f"stage plain new.txt {str(at).ljust(SIZE, 'x')}" for at in numbers],
        "a use": [f"recall {line}" for line in used],
        "a look-up of the row in front": [f"recall {used[-1]}"] * CALLS,
        "a look-up of what isn't there": [f"recall {key_line(MOST_ANSWERS + at)}" for at in numbers],
    }


def lines_of_puts(turn):
    """Lines that put answers which no store has yet, in a play that looks nothing up then."""
    return [f"remember new{at} | a.txt={at} | | 0" for at in range(turn * CALLS, (turn + 1) * CALLS)]


def uses_by_sqlite(path, keys):
    """The milliseconds that sqlite3 takes for the statements of a use of each key, without opening the file."""
    first = MOST_ANSWERS + 1
    uses = "".join(f"BEGIN; DELETE FROM uses WHERE {sql_of(key)}; "
                   f"INSERT INTO uses VALUES (x'{key[0].hex()}', x'{key[1].hex()}', {tick}); COMMIT;\n"
                   for tick, key in enumerate(keys, first))
    opening = PRAGMAS + "SELECT count(*) FROM meta;\n"
    return by_sqlite(path, opening + uses) - by_sqlite(path, opening)


def time_calls(folder, count):
    """Each kind of call, in a store that is full."""
    kept, answers = os.path.join(folder, f"calls{count}"), answers_of(count)
    make_second(kept, answers, count)
    play = Play(os.path.join(copied(kept, kept + ".ours"), STORE))
    play.ask("open")
    ours = least_of({what: sum(map(play.ask, lines)) / CALLS for what, lines in lines_of_calls(turn, count).items()}
                    for turn in range(TURNS))
    put = min(sum(map(play.ask, lines_of_puts(turn))) / CALLS for turn in range(TURNS))
    play.end()
    look_for_answers(kept + ".ours", count)
    keys = keys_of(answers[:CALLS])
    theirs = min(uses_by_sqlite(os.path.join(copied(kept, kept + ".theirs"), STORE), keys) for _ in range(TURNS))
    staging, use = ours["a staging"], ours["a use"]
    show(f"a use, {count} answers", use, staging, "a staging")
    show("", use, theirs / len(keys), "sqlite3")
    show(f"a put that drops a row, {count} answers", put, staging, "a staging")
    for what in ("a look-up of the row in front", "a look-up of what isn't there"):
        print(f"{'':44} {what} {ours[what]:.3f} ms", flush=True)
    return use


def time_all_calls(folder):
    tell_load(f"calls on an open store, {CALLS} of a kind together")
    uses = {count: time_calls(folder, count) for count in ANSWERS_OF_CALLS}
    first, last = ANSWERS_OF_CALLS[0], ANSWERS_OF_CALLS[-1]
    print(f"{f'a use among {last} answers':44} {uses[last] / uses[first]:.2f} times that among {first}", flush=True)


# ---- limits

def drops_by_sqlite(path, keys, limit):
    """The milliseconds that sqlite3 takes to set the limit and drop these rows, one by one, without opening the file."""
    drops = "".join(f"DELETE FROM answers WHERE {sql_of(key)}; DELETE FROM uses WHERE {sql_of(key)};\n" for key in keys)
    opening = PRAGMAS + "SELECT count(*) FROM meta;\n"
    change = f"BEGIN; {drops} UPDATE meta SET value = {limit} WHERE name = 'limit'; COMMIT;\n"
    return by_sqlite(path, opening + change) - by_sqlite(path, opening)


def one_round_of_limits(kept, keys, limit):
    """What opening takes, and opening and setting a limit, and what sqlite3 takes to drop the same rows."""
    ours = copied(kept, kept + ".ours")
    times = {"opening": in_folder(ours, OPENING), "limit": in_folder(ours, [*OPENING, f"--limit={limit}"])}
    look_for_answers(ours, limit)
    theirs = copied(kept, kept + ".theirs")
    times["sqlite3"] = drops_by_sqlite(os.path.join(theirs, STORE), keys, limit)
    compare_stores(ours, theirs)
    return times


def time_limits(folder):
    tell_load("setting a limit")
    for count in ANSWERS:
        kept, answers = os.path.join(folder, f"limits{count}"), answers_of(count)
        make_second(kept, answers, MOST_ANSWERS)
        keys = keys_of(answers)
        for limit in (count // 2, 1):
            # The first rows that were planted were used least lately.
            dropped = keys[:count - limit]
            times = least_of(one_round_of_limits(kept, dropped, limit) for _ in range(RUNS))
            more = times["limit"] - times["opening"]
            show(f"`memory --limit={limit}`, {count} answers", times["limit"], times["opening"], "`memory`")
            show("", more, times["sqlite3"], "sqlite3, beside opening")
            print(f"{'':44} {more * 1000 / len(dropped):.1f} microseconds for each row that is dropped", flush=True)


# ---- migrations

def migration_by_sqlite(path, dropped):
    """The milliseconds that sqlite3 takes to give a store of version 1 the rows of version 2, without opening the file."""
    opening = PRAGMAS + "SELECT count(*) FROM meta;\n"
    change = ("BEGIN; CREATE TABLE uses (words BLOB NOT NULL, seen BLOB NOT NULL, tick INTEGER NOT NULL UNIQUE, "
              "PRIMARY KEY (words, seen)) STRICT; "
              "INSERT INTO uses SELECT words, seen, row_number() OVER (ORDER BY words, seen) FROM answers; "
              f"DELETE FROM answers WHERE (words, seen) IN (SELECT words, seen FROM uses WHERE tick <= {dropped}); "
              f"DELETE FROM uses WHERE tick <= {dropped}; "
              f"INSERT INTO meta VALUES ('limit', {FIRST_LIMIT}); UPDATE meta SET value = 2 WHERE name = 'version'; "
              "COMMIT;\n")
    return by_sqlite(path, opening + change) - by_sqlite(path, opening)


def one_round_of_migrations(first, second, count):
    """What `memory` takes on a store of version 1, and once more, and on one of version 2, and what sqlite3 takes."""
    ours, left = copied(first, first + ".ours"), min(count, FIRST_LIMIT)
    times = {"migrating": in_folder(ours, OPENING), "migrated": in_folder(ours, OPENING)}
    look_for_answers(ours, left)
    times["second"] = in_folder(copied(second, second + ".ours"), OPENING)
    theirs = copied(first, first + ".theirs")
    times["sqlite3"] = migration_by_sqlite(os.path.join(theirs, STORE), count - left)
    compare_stores(ours, theirs)
    return times


def time_migrations(folder):
    tell_load("migrating a store of version 1")
    helper = made_peak(folder)
    for count in ANSWERS:
        first, second = (os.path.join(folder, f"migrations{count}.{version}") for version in (1, 2))
        answers = answers_of(count)
        make_first(first, answers)
        make_second(second, answers, MOST_ANSWERS)
        times = least_of(one_round_of_migrations(first, second, count) for _ in range(RUNS))
        os.chdir(copied(first, first + ".ours"))
        most = peak(helper, OPENING)
        os.chdir(second)
        beside = peak(helper, OPENING)
        show(f"migrating {count} answers", times["migrating"], times["second"], "opening version 2 with as many")
        show("", times["migrating"] - times["second"], times["sqlite3"], "sqlite3, beside opening")
        print(f"{'':44} opening what was migrated {times['migrated']:.2f} ms; peak memory {most / 1e6:.1f} MB, "
              f"{most / beside:.2f} times that of opening version 2 with as many", flush=True)


def main():
    parts = {"calls": time_all_calls, "limits": time_limits, "migrations": time_migrations}
    with tempfile.TemporaryDirectory() as folder:
        for part in PARTS:
            parts[part](folder)
        os.chdir("/")


main()
