"""Cases of tests/store/store.py: the cached answers, which are in the order in which they were used, up to a limit; and what a use of
one writes.
"""
import os

from kept_answers import contents_of, planting, records_of
from store_cases import ANSWERS_LEFT, ANSWERS_STORY, FILLING, LIMIT_STORY, RECALLED, SHOWN, TICK_PLAYS, USING_PLAYS
from store_model import Model, model_of, model_over
from store_plants import PLANTED_ANSWERS, PlantedStore, REPOSITORY, THREE_ANSWERS, planting_store
from store_program import answers, ask, check, check_file, check_story, commits_in_log, run, run_words, ticks_in


def remembers_answers(folder):
    """What is put is found, by its words and its seen files with their modes and bytes, and by nothing more. Another answer to the same
    takes its place. All of it outlives the process, and a commit; and it can be forgotten."""
    path, model = os.path.join(folder, "store.db"), model_of(FILLING)
    answers(path, FILLING)
    lines = [line for line, _ in ANSWERS_STORY]
    given = answers(path, ["open", *lines, "close"])
    model.play("open")
    check_story(ANSWERS_STORY, given[1:])
    for line, wanted in ANSWERS_STORY:
        check(model.play(line) == wanted, f"the model answers {line!r} otherwise")
    check_file(path, model.store)
    given = answers(path, ["open", *RECALLED, "stage plain c.txt 3", "commit o\\n", *RECALLED, "close"])
    wanted = [model.play(line) for line in RECALLED]
    check(given[1:] == [*wanted, "ok", "ok\t3", *wanted, "ok"], f"opened again, the answers are {given!r}")
    for line in ["stage plain c.txt 3", "commit o\\n", *RECALLED]:
        model.play(line)
    check_file(path, model.store)
    model.play("forget")
    given = answers(path, ["open", "answers", "forget", "answers", "forget", *RECALLED, "close"])
    count = f"ok\t{ANSWERS_LEFT}"
    wanted = ["ok", count, count, "ok\t0", "ok\t0", *["ok\tnone"] * len(RECALLED), "ok"]
    check(given == wanted, f"forgetting is answered {given!r}")
    check_file(path, model.store)


def remembers_many_answers(_folder):
    """More answers than a reader would expect a book to make room for."""
    keys = [f"c | a.txt={number}" for number in range(1100)]
    lines = ["create", *(f"remember {key} | a.txt=x | 0 | {key[-3:]}" for key in keys),
             *(f"recall {key}" for key in keys), "answers", "crash", "open", "answers",
             *(f"recall {key}" for key in keys), "forget", "answers"]
    model = Model()
    wanted = ["ok" if line == "crash" else model.play(line) for line in lines]
    given, status, said = run_words(["log", str(2 ** 63)], lines)
    check(status == 0 and len(given) == len(lines),
          f"status {status} after {len(given)} of {len(lines)} answers: {said!r}")
    check_story(list(zip(lines, wanted)), given)
    check(f"ok\t{len(keys)}" in wanted, "not all answers are remembered")


def finds_answers_that_another_program_wrote(folder):
    """Rows and records that are put together here are opened, and found."""
    path = os.path.join(folder, "store.db")
    answers(path, FILLING)
    for answer, _, _ in PLANTED_ANSWERS:
        ask(path, planting(contents_of(answer), records_of(answer), answer.status))
    given = answers(path, ["open", "answers", *(f"recall {line}" for _, line, _ in PLANTED_ANSWERS), "close"])
    wanted = ["ok", f"ok\t{len(PLANTED_ANSWERS)}", *(f"ok\t{told}" for _, _, told in PLANTED_ANSWERS), "ok"]
    check(given == wanted, f"answers that were planted are answered {given!r}, wanted {wanted!r}")


def keeps_the_answers_that_were_used_last(folder):
    """Up to the limit, which outlives the process and what is forgotten. Whoever opens the file next finds the same
    order."""
    path, model = os.path.join(folder, "store.db"), Model()
    check_story(LIMIT_STORY, answers(path, [line for line, _ in LIMIT_STORY]))
    for line, wanted in LIMIT_STORY:
        check(model.play(line) == wanted, f"the model answers {line!r} otherwise")
    check_file(path, model.store)


def tells_the_order_in_the_tables(folder):
    """The order is compared after each line, in a process of its own."""
    path, model = os.path.join(folder, "store.db"), Model()
    for line in [line for line, _ in LIMIT_STORY if line not in ("open", "close")]:
        begin = [] if line == "create" else ["open"]
        given = answers(path, [*begin, line, *SHOWN, "close"])
        for each in [*begin, line]:
            wanted = model.play(each)
        check(given[len(begin)] == wanted, f"{line!r} is answered {given[len(begin)]!r}, wanted {wanted!r}")
        check_file(path, model.store)


def planted_with(folder, name, tick):
    """The file of a store with three answers, of which the first has this tick, and the model of it."""
    path, planted = os.path.join(folder, f"{name}.db"), PlantedStore(2, *REPOSITORY, THREE_ANSWERS, tick)
    ask(path, planting_store(planted))
    return path, model_over(planted)


def check_played(path, model, lines):
    """Opened, and left open at the end, so that its log is left too, a file is answered as its model."""
    lines = ["open", *lines]
    given, status, _ = run(path, lines)
    check((given, status) == ([model.play(line) for line in lines], 0), f"{lines!r} are answered {given!r}")


def writes_no_more_than_a_use(folder):
    """A look-up of the row in front, and one that finds nothing, leave the file as it was, to the byte. One that moves
    a row, and each other call that changes what is cached, is one transaction."""
    for at, (lines, count) in enumerate(USING_PLAYS):
        path, model = planted_with(folder, at, 1)
        with open(path, "rb") as file:
            before = file.read()
        check_played(path, model, lines)
        found = commits_in_log(path)
        check(found == count, f"{lines!r} are {found} transactions, wanted {count}")
        with open(path, "rb") as file:
            check(file.read() == before or count, f"{lines!r} changed the file")
        check_file(path, model.store)


def numbers_the_ticks_anew(folder):
    """They are numbered from 1 on if a use would pass the greatest tick, and in no other case. It is done in a transaction of its own, in
    their order."""
    for at, (tick, lines, ticks, count) in enumerate(TICK_PLAYS):
        path, model = planted_with(folder, at, tick)
        check_played(path, model, lines)
        found = commits_in_log(path)
        check(found == count, f"from tick {tick}, {lines!r} are {found} transactions, wanted {count}")
        check(ticks_in(path) == ticks, f"from tick {tick}, {lines!r} leave the ticks {ticks_in(path)!r}")
        check_file(path, model.store)


CASES = [remembers_answers, remembers_many_answers, finds_answers_that_another_program_wrote,
         keeps_the_answers_that_were_used_last, tells_the_order_in_the_tables, writes_no_more_than_a_use,
         numbers_the_ticks_anew]
