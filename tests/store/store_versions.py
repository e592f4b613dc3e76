"""Cases of tests/store/store.py: stores of version 1, which become ones of version 2 when they are opened, in one
transaction."""
import collections
import os
import random
import resource
import shutil
import sqlite3

from kept_answers import KeptAnswer, planting_all, use_of
from store_cases import FIRST_TABLES, MODES, SHOWN, SQL, THREE_RECALLS
from store_model import model_over
from store_plants import FIRST_STORE, GREATEST_ROWID, NO_ROWID, planting_store
from store_program import (answered_until_killed, answers, ask, check, check_file, check_rows, commits_in_log,
                           held_back_by_permissions, rows_of, run, run_words, seconds_of, ticks_in)
from version_1 import stores

FIRST_META = "INSERT INTO meta VALUES ('version', 1)"


def uses_of(rows):
    """The uses that a migration makes of the rows of all answers: the greatest key in front, and no more than
    10,000."""
    return ["|".join(row.split("|")[:2]) for row in reversed(rows["answers"])][:10_000]


def check_migrated(found, before, place):
    """These are the rows of a store of version 2 that was made of one of version 1."""
    uses = uses_of(before)
    wanted = before | {"meta": ["limit|10000", "version|2"], "uses": uses, "answers": before["answers"][-10_000:]}
    check(found.keys() == wanted.keys(), f"{place}: the tables are {list(found)!r}")
    for table in wanted:
        check(found[table] == wanted[table],
              f"{place}: the rows of {table} are {found[table]!r:.2000}, wanted {wanted[table]!r:.2000}")


def takes_a_store_of_version_1_over(folder):
    """A store with a commit, a staged file and three answers: all of them are kept, and it stays of version 2."""
    path, model = os.path.join(folder, "store.db"), model_over(FIRST_STORE)
    ask(path, planting_store(FIRST_STORE))
    check_file(path, model.store)
    lines = ["open", *SHOWN, "answers", "limit"]
    given, status, _ = run(path, lines)
    check((given, status) == ([model.play(line) for line in lines], 0), f"it is answered {given!r}")
    check(given[-2:] == ["ok\t3", "ok\t10000"], f"it has {given[-2:]!r} answers and limit")
    check(commits_in_log(path) == 1, f"it is taken over in {commits_in_log(path)} transactions")
    check_file(path, model.store)
    check(ticks_in(path) == [1, 2, 3], f"its ticks are {ticks_in(path)!r}")
    given, status, _ = run(path, lines)
    check((given, status) == ([model.play(line) for line in lines], 0), f"opened again it is answered {given!r}")
    check(commits_in_log(path) == 0, f"opened again it takes {commits_in_log(path)} transactions")
    lines = ["open", *THREE_RECALLS, "remember e | | | 0", "stage plain b 1", "commit n", *SHOWN, "close"]
    given = answers(path, lines)
    check(given == [model.play(line) for line in lines], f"then it is answered {given!r}")
    check_file(path, model.store)


def escaped(held):
    return held.decode("utf-8", "surrogateescape").replace("\\", "\\\\").replace("\n", "\\n").replace("\t", "\\t")


def tree_fields(files):
    modes = list(MODES)
    return [field for mode, name, held in files for field in (modes[mode], escaped(name), escaped(held))]


def change_fields(held):
    return ["gone"] if held is None else ["now", escaped(held)]


def shown_by_rows(path):
    """What a store with these rows shows."""
    with sqlite3.connect(f"file:{path}?mode=ro", uri=True) as database:
        database.text_factory = bytes
        ask_rows = lambda text: database.execute(text).fetchall()
        staged = ask_rows("SELECT mode, path, bytes FROM staged JOIN blobs USING (digest) ORDER BY path")
        entries = ask_rows("SELECT n, mode, path, bytes FROM entries JOIN blobs USING (digest) ORDER BY n, path")
        commits = ask_rows("SELECT n, message FROM commits ORDER BY n")
        fixes = ask_rows("SELECT path, bytes FROM fixes LEFT JOIN blobs USING (digest) ORDER BY path")
    database.close()
    trees = {n: tree_fields(row[1:] for row in entries if row[0] == n) for n, _ in commits}
    return ["\t".join(["ok", *fields]) for fields in [
        tree_fields(staged),
        trees.get(len(commits), []),
        [field for n, message in commits for field in (str(n), escaped(message))],
        [field for name, held in fixes for field in (escaped(name), *change_fields(held))],
        [field for n, _ in commits for field in (str(n), *trees[n])],
    ]]


def opens_each_store_of_an_earlier_program(folder):
    """Each of the stores that a program of version 1 left shows what is in its rows, and has these and its uses
    then."""
    check(len(stores.names()) == 7, f"the stores are {stores.names()!r}")
    for name in stores.names():
        work = os.path.join(folder, name)
        stores.lay(name, work)
        path = os.path.join(work, stores.STORE)
        before, wanted = rows_of(path), shown_by_rows(path)
        count = len(before["answers"])
        lines = ["open", *SHOWN, "answers", "limit"]
        given, status, _ = run(path, lines)
        check((given, status) == (["ok", *wanted, f"ok\t{count}", "ok\t10000"], 0),
              f"{name} shows {given!r:.2000}, wanted {wanted!r:.2000}")
        check(commits_in_log(path) == 1, f"{name} is taken over in {commits_in_log(path)} transactions")
        check_migrated(rows_of(path), before, name)
        check(ticks_in(path) == list(range(1, count + 1)), f"the ticks of {name} are {ticks_in(path)!r}")
        check(shown_by_rows(path) == wanted, f"{name} shows {shown_by_rows(path)!r} then")
        given = answers(path, ["open", *SHOWN, "answers", "close"])
        check(given == ["ok", *wanted, f"ok\t{count}", "ok"], f"opened again, {name} shows {given!r}")


# ---- many answers

def numbered_answers(count):
    return [KeptAnswer([b"c", b"%d" % number], [("a.txt", 0, b"1")], [], number % 256) for number in range(count)]


def planted_with_answers(path, count):
    """Makes a store of version 1 of so many answers, and nothing more. Answers them by their uses."""
    told = numbered_answers(count)
    ask(path, "; ".join([*FIRST_TABLES, FIRST_META]))
    ask(path, planting_all(told, version=1))
    return {use_of(answer): answer for answer in told}


def recall_of(answer):
    return f"recall {answer.words[0].decode()} {answer.words[1].decode()} | a.txt=1"


def keeps_the_last_10_000_answers_of_version_1(folder):
    """They are in the order of their keys, the greatest in front. Those before them are dropped, and their contents are kept."""
    for count in (10_000, 10_001, 100_000):
        path = os.path.join(folder, f"{count}.db")
        told = planted_with_answers(path, count)
        before = rows_of(path)
        uses = uses_of(before)
        check(len(before["answers"]) == count and len(uses) == 10_000, f"{len(before['answers'])} answers were planted")
        # The first and the last that are left, and the last that is not.
        dropped = ["|".join(row.split("|")[:2]) for row in before["answers"][:-10_000][-1:]]
        found = [recall_of(told[use]) for use in (uses[0], uses[-1])]
        wanted = [f"ok\t{told[use].status}\t" for use in (uses[0], uses[-1])]
        lines = ["open", "answers", "limit", *(recall_of(told[use]) for use in dropped), "close"]
        given = answers(path, lines)
        check(given == ["ok", "ok\t10000", "ok\t10000", *["ok\tnone"] * len(dropped), "ok"],
              f"{count} answers: answered {given!r}")
        check_migrated(rows_of(path), before, f"{count} answers")
        ticks = ticks_in(path)
        check(ticks == list(range(count - 9_999, count + 1)), f"{count} answers: the ticks are {ticks[:3]!r} and on")
        sound = ask(path, "PRAGMA integrity_check; PRAGMA foreign_key_check")
        check(sound == ["ok"], f"{count} answers: the file isn't sound: {sound!r:.500}")
        given = answers(path, ["open", *found, "remember e | | | 0", "answers", found[0], "close"])
        check(given == ["ok", *wanted, "ok", "ok\t10000", wanted[0], "ok"], f"{count} answers: then answered {given!r}")
        os.remove(path)


# ---- migrations that are refused or stopped

def check_left(path, before, place):
    """The file is of version 1 still, and can be opened."""
    check(rows_of(path) == before, f"{place}: the refusal changed the rows")
    model = model_over(FIRST_STORE)
    lines = ["open", *SHOWN, "answers", "close"]
    check(answers(path, lines) == [model.play(line) for line in lines], f"{place}: then it isn't opened")
    check_rows(rows_of(path), model.store, f"{place}: ")


def leaves_version_1_where_no_rowid_is_left(folder):
    """A migration puts two rows into `meta`, after that of the version."""
    path = os.path.join(folder, "store.db")
    for rowid in (GREATEST_ROWID - 1, GREATEST_ROWID):
        ask(path, planting_store(FIRST_STORE))
        before = rows_of(path)
        ask(path, f"UPDATE meta SET rowid = {rowid}")
        check(answers(path, ["open"]) == [NO_ROWID], f"with rowid {rowid} it is answered {answers(path, ['open'])!r}")
        check(ask(path, "SELECT rowid FROM meta") == [str(rowid)], f"with rowid {rowid} the refusal changed the row")
        ask(path, "UPDATE meta SET rowid = 1")
        check_left(path, before, f"rowid {rowid}")
        os.remove(path)


def takes_over_a_version_whose_rowid_leaves_room(folder):
    """Three rowids after it are room for both rows, and for the next opening to find one free."""
    path = os.path.join(folder, "store.db")
    ask(path, planting_store(FIRST_STORE))
    ask(path, f"UPDATE meta SET rowid = {GREATEST_ROWID - 3}")
    model = model_over(FIRST_STORE)
    lines = ["open", *SHOWN, "answers", "close", "open", *SHOWN, "set-limit 7", "limit", "close"]
    given = answers(path, lines)
    check(given == [model.play(line) for line in lines], f"it is answered {given!r}")
    check_file(path, model.store)


def refuses_what_it_took_over_to_the_last_rowid(folder):
    """Two rowids after it are room for both rows, of which the last then has the greatest. It is refused until another
    program gives it another one."""
    path, model = os.path.join(folder, "store.db"), model_over(FIRST_STORE)
    ask(path, planting_store(FIRST_STORE))
    ask(path, f"UPDATE meta SET rowid = {GREATEST_ROWID - 2}")
    check(answers(path, ["open", "close", "open"]) == ["ok", "ok", NO_ROWID], "it isn't taken over, or not refused then")
    model.open()
    check_file(path, model.store)
    ask(path, "UPDATE meta SET rowid = rowid - 1")
    lines = ["open", *SHOWN, "answers", "limit", "close"]
    given = answers(path, lines)
    check(given == [model.play(line) for line in lines], f"with another rowid it is answered {given!r}")


def leaves_version_1_where_the_file_may_only_be_read(folder):
    path = os.path.join(folder, "store.db")
    ask(path, planting_store(FIRST_STORE))
    before = rows_of(path)
    os.chmod(path, 0o444)
    given, status, said = run_words([path], ["open", "staged"], **held_back_by_permissions(folder))
    check(given[0].startswith(SQL) and given[1:] == ["no store"] and status == 0, f"it is answered {given!r}, {said!r}")
    os.chmod(path, 0o644)
    check_left(path, before, "read only")


def leaves_one_version_where_the_disk_is_full(folder):
    """No file may become larger than so many bytes: refused, it is of version 1, and taken over, of version 2."""
    path, refused, given = os.path.join(folder, "store.db"), 0, []
    # The pages of the migration take 24 KiB of the log, after which it makes room for 256 more.
    for size in [*range(0, 28_000, 1_000), *range(30_000, 400_000, 60_000)]:
        ask(path, planting_store(FIRST_STORE))
        before, model = rows_of(path), model_over(FIRST_STORE)
        full = lambda: resource.setrlimit(resource.RLIMIT_FSIZE, (size, size))
        # The signal that such a write sends is ignored here, and stays so.
        given, status, said = run_words([path], ["open", *SHOWN], preexec_fn=full, restore_signals=False)
        check(status == 0 and given[0].startswith(("ok", SQL)), f"{size} bytes: answered {given!r}, {said!r}")
        if given[0] == "ok":
            check(given == [model.play(line) for line in ["open", *SHOWN]], f"{size} bytes: it shows {given!r}")
            check_rows(rows_of(path), model.store, f"{size} bytes: ")
        else:
            refused += 1
            check_left(path, before, f"{size} bytes")
        os.remove(path)
    check(given[0] == "ok" and refused > 10, f"{refused} migrations were refused, and the last is answered {given!r}")
    print(f"full disk: {refused} migrations refused")


def is_whole_where_a_migration_is_killed(folder):
    """Killed at random moments, the file is of version 1 with all answers, or of version 2, and can be opened."""
    chance, whole, versions = random.Random(1), os.path.join(folder, "whole.db"), collections.Counter()
    planted_with_answers(whole, 1_000)
    before, path = rows_of(whole), os.path.join(folder, "store.db")
    shutil.copyfile(whole, path)
    seconds = seconds_of(path, ["open", "close"])
    for number in range(40):
        shutil.copyfile(whole, path)
        answered_until_killed(path, ["open"], chance.uniform(0.002, seconds))
        # sqlite3 reads copies, since it puts the log into the file.
        left = [each for each in (path, path + "-wal") if os.path.exists(each)]
        copies = [shutil.copyfile(each, each.replace("store.db", "copy.db")) for each in left]
        found = rows_of(copies[0])
        versions["uses" in found] += 1
        check(found == before or "uses" in found, f"kill {number}: the rows of version 1 are {found!r:.2000}")
        if "uses" in found:
            check_migrated(found, before, f"kill {number}")
        given = answers(path, ["open", "answers", "limit", "close"])
        check(given == ["ok", "ok\t1000", "ok\t10000", "ok"], f"kill {number}: then it is answered {given!r}")
        check_migrated(rows_of(path), before, f"kill {number}, opened again")
        for each in [path, path + "-wal", *copies]:
            if os.path.exists(each):
                os.remove(each)
    check(versions[False] > 0, f"no kill came within a migration: {versions!r}")
    print(f"kills of migrations: {versions[False]} left version 1, {versions[True]} version 2")


CASES = [takes_a_store_of_version_1_over, opens_each_store_of_an_earlier_program,
         keeps_the_last_10_000_answers_of_version_1, leaves_version_1_where_no_rowid_is_left,
         takes_over_a_version_whose_rowid_leaves_room, refuses_what_it_took_over_to_the_last_rowid,
         leaves_version_1_where_the_file_may_only_be_read, leaves_one_version_where_the_disk_is_full,
         is_whole_where_a_migration_is_killed]
