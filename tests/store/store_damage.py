"""Cases of tests/store/store.py: files that another program changed, so that they hold no store, or one that is damaged. They
are refused, and stay as they are."""
import os
import shutil

from kept_answers import planting
from store_cases import DAMAGED, FILLING, NOT_A_STORE, ONE, SHOWN, SQL, THREE_RECALLS
from store_model import model_of, model_over
from store_plants import (AT_ONCE_TO_VERSION_1, FIRST_META_PLANTS, HARMLESS_PLANTS, LARGE_PLANTS, META_PLANTS,
                          OTHER_FIRST_TABLES, OTHER_SCHEMAS, OTHER_TABLES, PLANTS, REFUSED_ROWS, SECOND_STORE, USE_PLANTS,
                          damaged_answers, planting_store)
from store_program import answers, ask, change, check, check_file, check_rows, rows_of, run_words, shown


def filled(folder, version=2):
    """The file of FILLING as a store of a version, and what it shows."""
    path = os.path.join(folder, f"whole{version}.db")
    answers(path, FILLING)
    before = model_of(FILLING).shown()
    check(shown(path) == before, f"opened again it shows {shown(path)!r}, wanted {before!r}")
    if version == 1:
        ask(path, AT_ONCE_TO_VERSION_1)
    return path, before


def check_refused(path, name, text, refusal):
    """A file is refused once this was done to it, and its rows are left."""
    change(path, text)
    rows = rows_of(path)
    given = answers(path, ["open", "staged"])
    check(given[0].startswith(refusal) and given[1] == "no store", f"{name}: answered {given[0]!r}")
    check(rows_of(path) == rows, f"{name}: the refusal changed the rows")


def check_plants(folder, version, plants):
    """Each of these refuses a file, which is as it was if that is taken back."""
    whole, before = filled(folder, version)
    path = os.path.join(folder, "store.db")
    for name, text, refusal, repair in plants:
        shutil.copyfile(whole, path)
        check_refused(path, f"version {version}, {name}", text, refusal)
        change(path, repair)
        if name == "100,001 staged files":
            check(answers(path, ["open", "weigh", "close"])[1] == "ok\t100000\t100000", f"{name}: one fewer is refused")
        else:
            check(shown(path) == before, f"version {version}, {name}: repaired it shows {shown(path)!r}")
        os.remove(path)


def refuses_planted_files(folder):
    check_plants(folder, 2, [*META_PLANTS, *PLANTS, *LARGE_PLANTS])


def refuses_planted_files_of_version_1(folder):
    check_plants(folder, 1, [*FIRST_META_PLANTS, *PLANTS])


def refuses_uses_and_limits_that_break_a_rule(folder):
    """If one of them lacks anything or has too much of it, it is damaged. If that is taken back, all is in its order."""
    path, model = os.path.join(folder, "store.db"), model_over(SECOND_STORE)
    for name, text, refusal, repair in USE_PLANTS:
        ask(path, planting_store(SECOND_STORE))
        check_refused(path, name, text, refusal)
        change(path, repair)
        check(shown(path) == model.shown(), f"{name}: repaired it shows {shown(path)!r}")
        check_rows(rows_of(path), model.store, f"{name}, repaired: ")
        os.remove(path)


def takes_uses_and_limits_within_their_bounds(folder):
    path = os.path.join(folder, "store.db")
    for text, limit in HARMLESS_PLANTS:
        model = model_over(SECOND_STORE)
        ask(path, planting_store(SECOND_STORE))
        ask(path, text)
        model.store["answers"].limit = limit
        for lines in ([], ["set-limit 3"], [THREE_RECALLS[0], "remember e | | | 0", THREE_RECALLS[1]]):
            given = answers(path, ["open", *SHOWN, "limit", *lines, "close"])
            wanted = [model.play(line) for line in ["open", *SHOWN, "limit", *lines, "close"]]
            check(given == wanted, f"{text}: answered {given!r}, wanted {wanted!r}")
            check_file(path, model.store)
        os.remove(path)


def refuses_planted_answers(folder):
    """Each rule of a cached result that is broken makes the store damaged, and nothing is changed."""
    for version in (2, 1):
        whole, before = filled(folder, version)
        path = os.path.join(folder, "store.db")
        for name, contents, records, status in damaged_answers():
            shutil.copyfile(whole, path)
            check_refused(path, f"version {version}, {name}", planting(contents, records, status, version), DAMAGED)
            ask(path, "DELETE FROM answers" + ("; DELETE FROM uses" if version == 2 else ""))
            check(shown(path) == before, f"version {version}, {name}: without the answer it shows {shown(path)!r}")
            os.remove(path)


def refuses_rows_of_contents_and_commits_that_are_not_there(folder):
    path = os.path.join(folder, "store.db")
    answers(path, FILLING)
    rows = rows_of(path)
    given = answers(path, [f"execute {text}" for text in REFUSED_ROWS])
    for text, answer in zip(REFUSED_ROWS, given):
        check(answer.startswith(SQL), f"{text} is answered {answer!r}")
    check(rows_of(path) == rows, "a refusal changed the rows")
    check(shown(path) == model_of(FILLING).shown(), f"then the store shows {shown(path)!r}")
    # The same words do what the tables take.
    taken = [f"execute INSERT INTO staged VALUES ('c.txt', 0, x'{ONE}')"]
    check(answers(path, taken) == ["ok"], "a row that the tables take is refused")
    check(len(rows_of(path)["staged"]) == len(rows["staged"]) + 1, "a row that the tables take isn't there")


def refuses_files_with_other_tables(folder):
    for version, others in ((2, OTHER_TABLES), (1, OTHER_FIRST_TABLES)):
        whole, _ = filled(folder, version)
        for at, (name, text) in enumerate(others):
            path = os.path.join(folder, f"{version}.{at}.db")
            shutil.copyfile(whole, path)
            change(path, text)
            before = ask(path, ".dump")
            for word, refusal in (("open", NOT_A_STORE), ("create", SQL)):
                given = answers(path, [word])
                check(given[0].startswith(refusal), f"{name}: {word} is answered {given!r}")
            check(ask(path, ".dump") == before, f"{name}: the refusal changed the file")
        for at, (name, text) in enumerate(OTHER_SCHEMAS):
            path = os.path.join(folder, f"{version}.schema{at}.db")
            shutil.copyfile(whole, path)
            change(path, text)
            before = ask(path, ".dump")
            check(answers(path, ["open"])[0].startswith(SQL), f"{name}: answered {answers(path, ['open'])!r}")
            check(ask(path, ".dump") == before, f"{name}: the refusal changed the file")


def refuses_files_that_hold_no_store(folder):
    path = os.path.join(folder, "empty.db")
    check(answers(path, ["open", "staged"]) == [NOT_A_STORE, "no store"], "an empty file is a store")
    check(answers(path, ["create", "close"]) == ["ok", "ok"], "no store is made in an empty database")
    for words in ([os.path.join(folder, "again.db")], ["database", "100000"]):
        ends = "crash" if len(words) > 1 else "close"
        given, status, _ = run_words(words, ["open", "create", *SHOWN, ends, "open", *SHOWN])
        check(status == 0 and given == [NOT_A_STORE, *["ok"] * 13], f"{words!r}: answered {given!r}")
    other = os.path.join(folder, "other.db")
    ask(other, "CREATE TABLE notes (text TEXT) STRICT; INSERT INTO notes VALUES ('mine')")
    for word, refusal in (("open", NOT_A_STORE), ("create", SQL)):
        check(answers(other, [word])[0].startswith(refusal), f"{word} takes another program's database")
    left = ask(other, "SELECT text FROM notes"), ask(other, "SELECT name FROM sqlite_schema")
    check(left == (["mine"], ["notes"]), f"another program's rows were changed: {left!r}")
    text = os.path.join(folder, "text.db")
    with open(text, "wb") as file:
        file.write(b"no database\n" * 1000)
    check(answers(text, ["open"])[0].startswith(SQL), "a text is opened")
    with open(text, "rb") as file:
        check(file.read() == b"no database\n" * 1000, "a text was changed")


CASES = [refuses_planted_files, refuses_planted_files_of_version_1, refuses_uses_and_limits_that_break_a_rule,
         takes_uses_and_limits_within_their_bounds, refuses_planted_answers,
         refuses_rows_of_contents_and_commits_that_are_not_there, refuses_files_that_hold_no_store,
         refuses_files_with_other_tables]
