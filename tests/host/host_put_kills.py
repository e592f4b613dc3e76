"""Cases of tests/host/host.py: kills of commands whose hooks put answers or use them. After a kill the first ones that were put are
cached, any number of them, and those that were used are in the order of their use.
"""
import collections
import os
import shutil
from pathlib import Path

from host_books import book_of, model_of
from host_kills import Killed
from host_model import MESSAGE
from host_program import PROGRAM, Wrong, check, do, play, refuses, rows, run, write
from host_state import HOOKS, book_in, found_first, kept_contents, state, state_of_rows, with_files
from kept_answers import SELECT_ROWS, KeptAnswer, contents_of, row_of, use_of

# A word that leaves a command room for one name of two letters, so that each of three names is a part of its own.
LONG = b"c" * (131_072 - len(b'sh -c echo "$2" --  c1'))
# Hooks that pass, fail, change a file or take one out, with several parts, all files or none. One ends by a signal, and the last is
# answered by what the first has put.
PUTTING = b"""repos:
- repo: local
  hooks:
  - {id: look, name: Look, language: system, entry: cat, files: ^a, verbose: true}
  - {id: told, name: Told, language: system, entry: 'true', args: [--one, two words], files: ^a}
  - {id: mend, name: Mend, language: system, entry: sed -i s/x/y/, files: ^b}
  - {id: fails, name: Fails, language: system, entry: "sh -c 'echo no; exit 3' --", files: ^b}
  - {id: parts, name: Parts, language: system, entry: sh -c 'echo "$2"' --, args: [%s], files: ^c, require_serial: true}
  - {id: away, name: Away, language: system, entry: rm, files: ^d}
  - {id: all, name: All, language: system, entry: sh -c 'echo all', pass_filenames: false}
  - {id: ends, name: Ends, language: system, entry: sh -c 'kill -9 $$', files: ^a}
  - {id: more, name: More, language: system, entry: sed -i s/y/z/, files: ^b}
  - {id: again, name: Again, language: system, entry: cat, files: ^a, verbose: true}
""" % LONG
# The staged files of that: a path, a mode and contents.
PUT_FILES = [
    (".pre-commit-config.yaml", 0, PUTTING), ("a1", 0, b"one\n"), ("a2", 1, b"two"), ("b1", 0, b"x\n"), ("b2", 0, b"none\n"),
    ("c1", 0, b"1" * 1000), ("c2", 0, b"2" * 1000), ("c3", 0, b"3" * 1000), ("d1", 0, b"gone\n"),
]


def put_files(*begins, **now):
    """Those of the files whose paths begin so, some of them with other contents by now."""
    return [(path, mode, now.get(path, held)) for path, mode, held in PUT_FILES if path.startswith(begins)]


# What the children of those hooks answer, in their order.
RUN_ANSWERS = [
    KeptAnswer([b"cat", b"a1", b"a2"], put_files("a"), [], 0, b"one\ntwo"),
    KeptAnswer([b"true", b"--one", b"two words", b"a1", b"a2"], put_files("a"), [], 0),
    KeptAnswer([b"sed", b"-i", b"s/x/y/", b"b1", b"b2"], put_files("b"), [("b1", b"y\n")], 0),
    KeptAnswer([b"sh", b"-c", b"echo no; exit 3", b"--", b"b1", b"b2"], put_files("b", b1=b"y\n"), [], 3, b"no\n"),
    KeptAnswer([b"sh", b"-c", b'echo "$2"', b"--", LONG, b"c1"], put_files("c1"), [], 0, b"c1\n"),
    KeptAnswer([b"sh", b"-c", b'echo "$2"', b"--", LONG, b"c2"], put_files("c2"), [], 0, b"c2\n"),
    KeptAnswer([b"sh", b"-c", b'echo "$2"', b"--", LONG, b"c3"], put_files("c3"), [], 0, b"c3\n"),
    KeptAnswer([b"rm", b"d1"], put_files("d"), [("d1", None)], 0),
    KeptAnswer([b"sh", b"-c", b"echo all"], put_files(".", "a", "b", "c", b1=b"y\n"), [], 0, b"all\n"),
    KeptAnswer([b"sed", b"-i", b"s/y/z/", b"b1", b"b2"], put_files("b", b1=b"y\n"), [("b1", b"z\n")], 0),
]
# The answers that a run needs, in the order of its parts: one child ends by a signal, and the last one is that of the
# first.
RUN_PARTS = [*RUN_ANSWERS[:-1], None, RUN_ANSWERS[-1], RUN_ANSWERS[0]]
# The staged files of a commit, and what the children of `HOOKS` answer in it: of the files, of the message twice, and after it.
COMMITTED = [(".pre-commit-config.yaml", 0, HOOKS), ("x", 0, b"x" * 100)]
WRITE = [b"sh", b"-c", b"echo a line >> $1", b"--", MESSAGE.encode()]
COMMIT_ANSWERS = [
    KeptAnswer([b"cat", b".pre-commit-config.yaml", b"x"], COMMITTED, [], 0, HOOKS + b"x" * 100),
    KeptAnswer(WRITE, [(MESSAGE, 0, b"text\n")], [(MESSAGE, b"text\na line\n")], 0),
    KeptAnswer(WRITE, [(MESSAGE, 0, b"text\na line\n")], [(MESSAGE, b"text\na line\na line\n")], 0),
    KeptAnswer([b"true"], [], [], 0),
]


def remembered(folder, told):
    """How many answers are cached, by sqlite3: the first of those that are reported, and no others. The last one is in front, but once
    all are reported the first may be used again."""
    found, wanted = rows(folder, SELECT_ROWS), [row_of(answer) for answer in told]
    places = [wanted.index(row) if row in wanted else row for row in found]
    check(sorted(found) == sorted(wanted[:len(found)]), f"of {len(told)} answers these are remembered: {places!r}")
    uses, in_order = book_in(folder).keys, [use_of(answer) for answer in reversed(told[:len(found)])]
    is_used_again = len(found) == len(told) and uses == [*in_order[-1:], *in_order[:-1]]
    check(uses == in_order or is_used_again, f"of {len(told)} answers {len(found)} are remembered in another order")
    return len(found)


def started(work, words, programs):
    """What the words end with and print, and how many children they start."""
    write(work, "started", b"")
    said = run(work, *words, env={**programs, "STARTED": os.path.join(work, "started")})
    check(said[2] == b"", f"{words!r} says {said[2]!r}")
    return said, len(Path(work, "started").read_bytes().splitlines())


def counted_programs(folder):
    """The environment in which each program that hooks name puts a line into the file STARTED, and then does what it does."""
    programs = os.path.join(folder, "programs")
    for name in ("cat", "rm", "sed", "sh", "true"):
        write(programs, name, f'#!/bin/sh\necho {name} >> "$STARTED"\nexec {shutil.which(name)} "$@"\n'.encode())
        os.chmod(os.path.join(programs, name), 0o755)
    return {**os.environ, "PATH": f"{programs}:{os.environ['PATH']}"}


class Putting:
    """A command whose hooks put answers, on copies of a folder in which none is cached, and what it leaves if nothing stops it. It is
    given answers in their order, and puts so many of them before it changes the repository."""

    def __init__(self, folder, base, words, told, puts_first):
        self.killed, self.words, self.told, self.puts_first = Killed(folder, base), words, told, puts_first
        self.programs = counted_programs(folder)
        work = self.killed.copy()
        self.before, self.kept_before = state(work), kept_contents(work)
        check(self.remembered(work) == 0, "something is remembered before")
        self.said, self.starts = started(work, words, self.programs)
        self.after = state(work)
        check(self.before != self.after and self.remembered(work) == len(told), f"{words!r} says {self.said!r:.1000}")

    def remembered(self, work):
        """How many answers are cached, as `memory` says too. Kept are only the contents that were there before and those that the answers
        name."""
        count, said = remembered(work, self.told), do(work, "memory")
        check(said == b"remembered: %d\n" % count, f"of {count} answers memory says {said!r}")
        named = {each for answer in self.told[:count] for each in contents_of(answer)}
        check(kept_contents(work) == self.kept_before | named, f"beside {count} answers other contents are kept")
        return count

    def left(self, work, is_ended, out):
        """How many answers a killed command left, and whether it changed the repository, as it does after those put first."""
        read_first = found_first(work, lambda copy: (*state_of_rows(copy), remembered(copy, self.told)))
        found, count = state(work), self.remembered(work)
        check(read_first == (*found[1:], count), f"before the program sqlite3 reads something else: {read_first!r:.1000}")
        is_done = found == self.after
        check(is_done or found == self.before and not is_ended, f"after a kill of {self.words!r} it shows {found!r:.1000}")
        in_order = count >= self.puts_first if is_done else count <= self.puts_first
        check(in_order, f"beside {count} answers the repository is changed, or isn't")
        is_told = self.said[1] == out if is_ended else self.said[1].startswith(out) and (is_done or out == b"")
        check(is_told, f"a killed {self.words!r} prints {out!r:.1000}")
        return count, is_done

    def check_next(self, work, count):
        """The command after a killed one starts only the children whose answers aren't there. It prints and leaves what one does that
        nothing stops."""
        (said, starts), found = started(work, self.words, self.programs), state(work)
        check(said == self.said, f"behind {count} answers it says {said!r:.1000}")
        check(starts == self.starts - count, f"behind {count} answers it starts {starts} children")
        check(found == self.after, f"behind {count} answers it leaves {found!r:.1000}")
        check(self.remembered(work) == len(self.told), f"behind {count} answers not all are remembered")

    def each(self):
        """For each kill the copy, how many answers it left, and whether the repository was changed. The kills are repeated if none of
        them came between two answers, which can happen if there are few kills."""
        left = collections.Counter()
        for _ in range(5):
            for work, is_ended, out in self.killed.each([PROGRAM, *self.words]):
                count, is_done = self.left(work, is_ended, out)
                left[count] += 1
                yield work, count, is_done
            if any(0 < count < len(self.told) for count in left):
                return print(f"answers that they left: {', '.join(f'{count} ({left[count]} times)' for count in sorted(left))}")
        raise Wrong(f"kills of {self.words!r} left all answers or none")


def keeps_what_was_answered_before_a_kill_of_a_run(folder):
    """A killed run leaves the first of the answers that a whole one puts, each as the reference writes it down."""
    base = with_files(folder, PUT_FILES)
    play(base, ["commit first\\n", "fix a1 2", "set"])
    putting = Putting(folder, base, ["run", "--jobs=1", "--all-files"], RUN_ANSWERS, len(RUN_ANSWERS))
    # One more child ends by a signal.
    check((putting.said[0], putting.starts) == (1, len(RUN_ANSWERS) + 1), f"a run starts {putting.starts} children")
    for work, count, _ in putting.each():
        putting.check_next(work, count)


def keeps_what_was_answered_before_a_kill_of_a_commit(folder):
    """A killed commit is made or isn't, and leaves the first of the answers. Those of hooks after it are left only if it is made."""
    base = with_files(folder, COMMITTED)
    play(base, ["fix x 2", "set"])
    putting = Putting(folder, base, ["commit", "--jobs=1", "-m", "text"], COMMIT_ANSWERS, len(COMMIT_ANSWERS) - 1)
    check((putting.said[0], putting.starts) == (0, len(COMMIT_ANSWERS)), f"a commit starts {putting.starts} children")
    for work, count, is_made in putting.each():
        if is_made:
            refuses(work, putting.words, "refused: 10 NothingStaged")
            check(state(work) == putting.after and putting.remembered(work) == count, "a refused commit changes something")
        else:
            putting.check_next(work, count)


# ---- kills of a run that uses answers, or drops some

def looked_up(book, parts):
    """The books that a run of these parts passes through, and how many children it starts."""
    passed, starts = [book_of(book)], 0
    for part in parts:
        starts += part is None or use_of(part) not in book
        if part is not None and book.find(use_of(part)) is None:
            book.put(use_of(part), True)
        passed.append(book_of(book))
    return passed, starts


def keeps_a_book_of_the_run(folder, base):
    """A killed run leaves one of the books that a whole one passes through, and the next run starts just what that one
    lacks."""
    play(base, ["fix a1 2", "set"])
    words, programs, killed = ["run", "--jobs=1", "--all-files"], counted_programs(folder), Killed(folder, base)
    work = killed.copy()
    passed, starts = looked_up(model_of(book_in(work)), RUN_PARTS)
    before = state(work)
    wanted, after = (*started(work, words, programs), book_in(work)), state(work)
    check(before != after, "a run changes nothing")
    check(wanted[1:] == (starts, passed[-1]), f"a run starts {wanted[1]} children and leaves {wanted[2]!r:.1000}")
    left = collections.Counter()
    for _ in range(5):
        for work, is_ended, _ in killed.each([PROGRAM, *words]):
            book = found_first(work, book_in)
            found = state(work)
            check(book in passed and book_in(work) == book, f"after a kill the book is {book!r:.1000}")
            is_done = found == after and book == passed[-1]
            check(is_done or found == before and not is_ended, f"after a kill it shows {found!r:.1000}")
            left[passed.index(book)] += 1
            behind, starts = looked_up(model_of(book), RUN_PARTS)
            again = (*started(work, words, programs), book_in(work))
            check(again == (wanted[0], starts, behind[-1]) and state(work) == after,
                  f"behind {book!r:.500} a run says {again!r:.1000}")
        if any(0 < at < len(passed) - 1 for at in left):
            return print(f"books that they left: {', '.join(f'number {at} ({left[at]} times)' for at in sorted(left))}")
    raise Wrong("kills of a run left the first book or the last one")


def keeps_all_answers_in_a_kill_of_a_run_that_uses_them(folder):
    base = with_files(folder, PUT_FILES)
    check(run(base, "run", "--all-files")[0] == 1, "the hooks don't fail")
    # Another order than that in which a run leaves them.
    check(run(base, "run-files", "c2", "b1", "d1")[0] == 1 and len(book_in(base).keys) >= len(RUN_ANSWERS),
          "nothing is remembered")
    keeps_a_book_of_the_run(folder, base)


def keeps_the_last_answers_in_a_kill_of_a_run_that_drops_some(folder):
    base = with_files(folder, PUT_FILES)
    do(base, "memory", "--limit=3")
    check(run(base, "run", "--all-files")[0] == 1 and len(book_in(base).keys) == 3,
          "the hooks don't fail, or others are remembered")
    keeps_a_book_of_the_run(folder, base)


CASES = [keeps_what_was_answered_before_a_kill_of_a_run, keeps_what_was_answered_before_a_kill_of_a_commit,
         keeps_all_answers_in_a_kill_of_a_run_that_uses_them, keeps_the_last_answers_in_a_kill_of_a_run_that_drops_some]
