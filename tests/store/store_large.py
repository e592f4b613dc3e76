"""Cases of tests/store/store.py: what is too large for a store, or too much, by a byte or by one."""
import hashlib
import os

from kept_answers import SELECT_ROWS, SELECT_USES
from store_cases import LARGE_CHILDREN, LARGE_STORY, ONE, ONE_STAGED, SHOWN, TOO_LARGE, TOO_MANY, largest_answers
from store_model import key_of, model_of
from store_program import answers, ask, check, check_file, check_story, files_of, rows_of, rows_of_model, shown


def refuses_what_is_too_large(folder):
    path = os.path.join(folder, "store.db")
    given = answers(path, ["create", "stage plain a.txt 1", "blob-of 16777217", "stage-many 1 16777217 0",
                           "commit " + "m" * 16777217, "fix a.txt " + "1" * 16777217, "set", *SHOWN])
    check(given[2:5] == [TOO_LARGE] * 3 and given[6:7] == [TOO_LARGE], f"answered {[line[:80] for line in given]!r}")
    check(given[7:] == ONE_STAGED, "a refusal changed the store")
    most = ["open", "blob-of 16777216", "stage-many 1 16777216 0", "weigh", "commit " + "m" * 16777216, "close"]
    digest = hashlib.sha256(b"0 0 ".ljust(16777216, b".")).hexdigest()
    wanted = ["ok", f"ok\t{digest}", "ok", "ok\t2\t16777217", "ok\t1", "ok"]
    check_story(list(zip(most, wanted)), answers(path, most), "16 MiB: ")
    check(answers(path, ["open", "weigh"]) == ["ok", "ok\t2\t16777217"], "16 MiB aren't there when it is opened again")


def refuses_answers_that_are_too_large(folder):
    """An answer of which something is as large as contents may be is kept, and found when the store is opened again.
    One of which it is a byte larger is refused and found nowhere. Changes have no larger record than the files that
    were seen."""
    first = ["create", "remember d | | | 1"]
    for at, (name, largest, larger) in enumerate(largest_answers()):
        path, model = os.path.join(folder, f"{at}.db"), model_of(first)
        given = answers(path, [*first, f"remember {larger}", f"recall {key_of(larger)}", "answers", *SHOWN, "close"])
        wanted = ["ok", "ok", TOO_LARGE, "ok\tnone", "ok\t1", *model.shown(), "ok"]
        check(given == wanted, f"{name}: a byte more is answered {given!r:.1000}")
        check_file(path, model.store)
        lines = [f"remember {largest}", "close", "open", f"recall {key_of(largest)}", "recall d |", "answers"]
        given, wanted = answers(path, ["open", *lines]), [model.play(line) for line in lines]
        check(given[1:] == wanted, f"{name}: the largest is answered {given!r:.1000}")
        rows = rows_of_model(model.store)
        check(ask(path, SELECT_ROWS) == rows["answers"], f"{name}: the largest has another row")
        check(ask(path, SELECT_USES) == rows["uses"], f"{name}: the largest has another use")
        os.remove(path)


def stops_at_an_answer_that_is_too_large(folder):
    path = os.path.join(folder, "store.db")
    given = answers(path, [*LARGE_CHILDREN, *(line for line, _ in LARGE_STORY)])[len(LARGE_CHILDREN):]
    check_story(LARGE_STORY, given)


def refuses_more_files_than_a_tree_may_have(folder):
    """At each limit of a staged tree one more file is refused, and another content of a file is not."""
    limits = [("2048", "printf('%04096d', n)", f"{2:04096d}", "a"), ("100000", "'d/' || n", "d/2", "d/x")]
    for at, (count, path_of, there, new) in enumerate(limits):
        path = os.path.join(folder, f"{at}.db")
        answers(path, ["create", "blob 1", "close"])
        ask(path, f"WITH RECURSIVE c(n) AS (SELECT 1 UNION ALL SELECT n + 1 FROM c WHERE n < {count}) "
            f"INSERT INTO staged SELECT {path_of}, 0, x'{ONE}' FROM c")
        given = answers(path, [
            "open", f"stage plain {there} 2", f"stage plain {new} 2", "stage-many 1 16777217 0", "weigh",
            f"add - {new} 2", f"add - {there} 3", f"edit-all add - {there} 4 | add - {new} 2",
            f"stage-all add - {there} 4 | remove {there} | add - {there} 2 | add - {new} 2",
            f"edit-all remove {there} | add - {new} 2", f"stage-all remove {new} | add - {there} 2", f"unstage {there}",
            f"stage plain {new} 2", "close"])
        check(given[2].startswith(TOO_MANY), f"{count} files: answered {given[2]!r}")
        check(given[3] == TOO_LARGE, f"{count} files, and contents too large: answered {given[3]!r}")
        check(given[5] == "refused\t6\tTooMany\tnone", f"{count} files: one more is answered {given[5]!r} by a host")
        check(given[7:9] == ["refused\t6\tTooMany\tnone\tat\t1", "refused\tStore\t7\tat\t3"],
              f"{count} files: one more among several changes is answered {given[7:9]!r}")
        check(given[:2] + given[4:5] + given[6:7] + given[9:] == ["ok", "ok", f"ok\t{count}\t{count}", *["ok"] * 6],
              f"{count} files: answered {given!r}")


# More changes than a new store keeps answers.
MANY_CHANGES = 10_001


def makes_many_changes_at_once(folder):
    """Each of many files that a host adds together is there, and after as many other changes by the store itself only those that they
    left. If the last change is refused, none is made."""
    path, names = os.path.join(folder, "store.db"), [f"many/{at:05}" for at in range(MANY_CHANGES)]
    added = " | ".join(f"add - {name} {at % 7}" for at, name in enumerate(names))
    others = " | ".join(f"remove {name}" if at % 2 else f"add executable {name} {at % 5}" for at, name in enumerate(names))
    first = files_of({name: ("plain", str(at % 7)) for at, name in enumerate(names)})
    then = files_of({name: ("executable", str(at % 5)) for at, name in enumerate(names) if at % 2 == 0})
    refused = f"refused\tNotStaged\tnone\tat\t{MANY_CHANGES}"
    story = [("create", f"edit-all {added}", "ok", first), ("open", f"stage-all {others} | remove many/x", refused, first),
             ("open", f"stage-all {others}", "ok", then)]
    for begin, line, wanted, staged in story:
        given = answers(path, [begin, line, "close"])
        check(given == ["ok", wanted, "ok"], f"{line[:50]!r} is answered {given!r:.500}")
        check(rows_of(path)["staged"] == staged, f"after {line[:50]!r} other files are staged")


def refuses_more_commits_than_a_store_may_have(folder):
    """The 100,000th commit is taken, one more is refused and leaves the store as it was, and its file can be opened."""
    path, model = os.path.join(folder, "store.db"), model_of(["create", "stage plain a.txt 1"])
    answers(path, ["create", "stage plain a.txt 1", "close"])
    ask(path, "WITH RECURSIVE c(n) AS (SELECT 1 UNION ALL SELECT n + 1 FROM c WHERE n < 99999) "
        "INSERT INTO commits SELECT n, x'6d' FROM c")
    model.store["history"] = [("m", {})] * 99999
    last = ["commit n", "fix a.txt 2", "set"]
    given = answers(path, ["open", *last, "commit o", *SHOWN, "close"])
    check(given[1:4] == [model.play(line) for line in last], f"the 100,000th commit: answered {given[1:4]!r}")
    check(given[4].startswith(TOO_MANY), f"one more commit: answered {given[4]!r}")
    check(given[5:-1] == model.shown(), "the refusal of a commit changed what is shown")
    check(shown(path) == model.shown(), "opened again, a store of 100,000 commits isn't the same")
    check_file(path, model.store)


CASES = [refuses_what_is_too_large, refuses_answers_that_are_too_large, stops_at_an_answer_that_is_too_large,
         refuses_more_files_than_a_tree_may_have, makes_many_changes_at_once, refuses_more_commits_than_a_store_may_have]
