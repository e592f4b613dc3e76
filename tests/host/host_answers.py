"""Cases of tests/host/host.py: which of many answers and of large ones are cached."""
import os
import shutil
import subprocess
import time
from pathlib import Path

from host_program import STORE, check, do, line, play, rows, run, staged_rows, write
from host_state import book_in
from kept_answers import SELECT_ROWS, TO_VERSION_1, KeptAnswer, digest, planting_all, row_of, use_of

# How many answers are planted into the file of a store: as many as a store may have. And how many a new one caches.
MANY, TAKEN_OVER = 100_000, 10_000
# Two hooks that leave a mark in the working folder: one whose answer is planted, and one whose answer isn't.
KNOWN, NEW = b"echo >> ../../known", b"echo >> ../../new; echo new"
TWO_HOOKS = b"""repos:
- repo: local
  hooks:
  - {id: known, name: Known, language: system, entry: sh -c '%s' --, files: ^a, verbose: true}
  - {id: new, name: New, language: system, entry: sh -c '%s' --, files: ^a, verbose: true}
""" % (KNOWN, NEW)
ONE = [("a", 0, b"1\n")]
PLANTED = KeptAnswer([b"sh", b"-c", KNOWN, b"--", b"a"], ONE, [], 0, b"planted\n")
PUT = KeptAnswer([b"sh", b"-c", NEW, b"--", b"a"], ONE, [], 0, b"new\n")


def many_answers():
    """Answers of commands each of which has seen each of 500 versions of a file, and one of a hook."""
    changes = [[], [("a", b"mended\n")], [("a", None)]]
    for at in range(MANY - 1):
        seen = [("a", at % 2, b"version %d\n" % (at % 500))]
        yield KeptAnswer([b"tool", b"%d" % (at // 500), b"a"], seen, changes[at % 3], at % 256, b"said %d\n" % (at % 100))
    yield PLANTED


def stage_hooks(folder, hooks):
    """Makes the folder a repository in which these hooks and one file are staged."""
    do(folder, "init")
    for path, held in ((".pre-commit-config.yaml", hooks), ("a", b"1\n")):
        write(folder, path, held)
        do(folder, "add", path)


def starts_of(folder, names):
    """How often each of the hooks was started that leave a line in a file of their name."""
    marks = {name: Path(folder, name) for name in names}
    return {name: mark.stat().st_size if mark.exists() else 0 for name, mark in marks.items()}


def plant(work, answers):
    """Puts answers into a store, of which the last one is in front."""
    text = ".bail on\n" + planting_all(answers)
    words = ["sqlite3", "-batch", os.path.join(work, STORE)]
    done = subprocess.run(words, input=text.encode(), capture_output=True, timeout=120)
    check((done.returncode, done.stderr) == (0, b""), f"sqlite3 says {done.stderr!r}")


def remembers_as_many_answers_as_there_may_be(folder):
    """Of as many as a store may have, one is found, and one more is put, for which the last one is dropped. They are counted, and all are
    forgotten. Of as many in a store of version 1, the number that a new store caches is taken over."""
    work, answers = os.path.join(folder, "work"), list(many_answers())
    os.mkdir(work)
    stage_hooks(work, TWO_HOOKS)
    check(do(work, "memory", f"--limit={MANY}") == b"remembered: 0\n", "something is remembered before")
    plant(work, answers)
    start = time.monotonic()
    check(do(work, "memory") == b"remembered: %d\n" % MANY, "memory says another number of planted answers")
    print(f"memory of {MANY} answers: {time.monotonic() - start:.1f} s")
    told = line("Known", "Passed") + b"- hook id: known\n\nplanted\n\n" + line("New", "Passed") + b"- hook id: new\n\nnew\n\n"
    for _ in range(2):
        said = run(work, "run", "--all-files")
        check(said == (0, told, b""), f"beside many answers a run says {said!r}")
        starts = starts_of(work, ("known", "new"))
        check(starts == {"known": 0, "new": 1}, f"beside many answers the hooks are started {starts!r} times")
        check(do(work, "memory") == b"remembered: %d\n" % MANY, "memory says another number behind a run")
    uses = [use_of(answer) for answer in (PUT, *reversed(answers[1:]))]
    check(book_in(work) == (MANY, uses), "of many answers others are remembered, or in another order")
    forgets_many_answers(shutil.copytree(work, os.path.join(folder, "forgetting")))
    rows(work, TO_VERSION_1)
    check(do(work, "memory") == b"remembered: %d\n" % TAKEN_OVER,
          "of many answers in a store of version 1 another number is remembered")
    check(book_in(work) == (TAKEN_OVER, sorted(uses, reverse=True)[:TAKEN_OVER]),
          "of many answers in a store of version 1 others are remembered")


def forgets_many_answers(work):
    """The answer that was put is written as the reference says. All are forgotten, and nothing more changes."""
    found, status = rows(work, SELECT_ROWS), do(work, "status")
    check(len(found) == MANY and row_of(PUT) in found,
          f"sqlite3 finds {len(found)} answers, or another one that was put")
    check(status == b"A .pre-commit-config.yaml\nA a\n", f"beside many answers status says {status!r}")
    check(do(work, "forget") == b"forgotten: %d\n" % MANY, "another number is forgotten")
    check(do(work, "memory") == b"remembered: 0\n", "something is still remembered")
    check(do(work, "status") == status, "behind a forget other files are staged")
    check(rows(work, "PRAGMA integrity_check; PRAGMA foreign_key_check") == ["ok"] and book_in(work) == (MANY, []),
          "behind a forget sqlite3 finds something else")


# What hooks do that leave a mark too. Some answer as much as there may be, and some a byte more or a good deal.
LARGE = {
    "First": "echo first",
    "Loud": "head -c 17825792 /dev/zero",
    "Louder": "head -c 1048577 /dev/zero >&2",
    "Grown": "head -c 16777217 /dev/zero > $1",
    "Most": "head -c 1048576 /dev/zero",
    "Full": "head -c 16777216 /dev/zero > $1",
    "Last": "wc -c < $1",
}
LARGE_HOOKS = "repos:\n- repo: local\n  hooks:\n" + "".join(
    f"  - {{id: {name}, name: {name}, language: system, entry: sh -c 'echo >> ../../{name}; {does}' --, files: ^a}}\n"
    for name, does in LARGE.items())
FAULTS = {
    "Loud": b"- fault: output is longer than 1048576 bytes\n",
    "Louder": b"- fault: output is longer than 1048576 bytes\n",
    "Grown": b"- fault: files could not be written or read back\n",
}
# What is reported of the first file that is too large.
TOO_LARGE = b"hookhost: .hookhost/scratch/a: the file is too large\n"
LARGEST = bytes(16777216)


def large_answers():
    """What is kept of those hooks."""
    for name, seen, changes, output in [("First", ONE, [], b"first\n"), ("Most", ONE, [], bytes(1048576)),
                                        ("Full", ONE, [("a", LARGEST)], b""), ("Last", [("a", 0, LARGEST)], [], b"16777216\n")]:
        yield KeptAnswer([b"sh", b"-c", f"echo >> ../../{name}; {LARGE[name]}".encode(), b"--", b"a"], seen, changes, 0, output)


def large_report():
    """What a run of those hooks prints."""
    for name in LARGE:
        said = FAULTS.get(name, b"- files were modified by this hook\n" if name == "Full" else b"")
        yield line(name, "Failed") + b"- hook id: " + name.encode() + b"\n" + said if said else line(name, "Passed")


def remembers_the_largest_answers_and_no_larger_ones(folder):
    """More than a child may write, and a file that is larger than one may be, are faults each time. So no answer of a real child is too
    large to be kept. The largest are kept, and so are those before and after them."""
    stage_hooks(folder, LARGE_HOOKS.encode())
    play(folder, ["commit first\\n"])
    files, wanted = staged_rows(folder), sorted(map(row_of, large_answers()))
    for count in (1, 2):
        said = run(folder, "run", "--jobs=1", "--all-files")
        check(said == (1, b"".join(large_report()), TOO_LARGE), f"with large answers a run says {said!r:.2000}")
        starts = starts_of(folder, LARGE)
        check(starts == {name: count if name in FAULTS else 1 for name in LARGE}, f"large answers come of {starts!r} starts")
        check(rows(folder, SELECT_ROWS) == wanted, "of large answers others are kept")
        check(do(folder, "memory") == b"remembered: %d\n" % len(wanted), "of large answers memory says another number")
        shown = [do(folder, word) for word in ("status", "fixes", "log")]
        check(shown == [b"", b"M a\n", b"1 first\n"] and staged_rows(folder) == files, f"with large answers it shows {shown!r}")
    check(do(folder, "accept") == b"accepted: 1\n", "the largest file isn't accepted")
    check(do(folder, "cat", "a") == LARGEST, "the largest file is another")


# As many bytes of paths as may be staged together with those of two files: a record of them has half of the bytes that it may have. One
# of as many files as may be staged would have three quarters, and none has more.
DEEP = ("d" * 249 + "/") * 15
MOST_PATHS = [DEEP + f"{at:0250d}" for at in range(8_388_608 // 4000)]
MOST_HOOK = b"""repos:
- repo: local
  hooks:
  - {id: all, name: All, language: system, entry: sh -c 'echo >> ../../all', pass_filenames: false}
"""


def remembers_an_answer_that_saw_the_most_paths(folder):
    """A record of seen files that is as large as the bytes of staged paths allow is kept, and found."""
    stage_hooks(folder, MOST_HOOK)
    rows(folder, f"WITH RECURSIVE c(n) AS (SELECT 0 UNION ALL SELECT n + 1 FROM c WHERE n < {len(MOST_PATHS) - 1}) "
         f"INSERT INTO staged SELECT '{DEEP}' || printf('%0250d', n), 0, x'{digest(ONE[0][2]).hex()}' FROM c")
    for _ in range(2):
        said = run(folder, "run", "--all-files")
        check(said == (0, line("All", "Passed"), b""), f"with the most paths a run says {said!r:.2000}")
        check(starts_of(folder, ["all"]) == {"all": 1}, "with the most paths the hook isn't started once")
    seen = [(".pre-commit-config.yaml", 0, MOST_HOOK), *ONE, *((path, 0, ONE[0][2]) for path in MOST_PATHS)]
    wanted, found = KeptAnswer([b"sh", b"-c", b"echo >> ../../all"], seen, [], 0), rows(folder, SELECT_ROWS)
    check(found == [row_of(wanted)], f"with the most paths sqlite3 finds {found!r}")


CASES = [remembers_as_many_answers_as_there_may_be, remembers_the_largest_answers_and_no_larger_ones,
         remembers_an_answer_that_saw_the_most_paths]
