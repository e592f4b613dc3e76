"""Cases of tests/host/host.py: a limit of the cached results. sqlite3 shows which results are kept, from the front on. The model of
tests/shared/list_book.py says which have to be.
"""
import os
import re
from concurrent.futures import ThreadPoolExecutor

from host_books import Book, book_of, model_of
from host_program import LOCK, check, do, rows, run, write
from host_state import book_in, kept_contents, state
from kept_answers import GREATEST_TICK, KeptAnswer, contents_of, use_of
from list_book import ListBook
from places import TOP

# A hook with a child for each file, which leaves a line in a file of the working folder.
PER_FILE = b"""repos:
- repo: local
  hooks:
  - {id: t, name: T, language: system, entry: "sh -c 'echo $1 >> ../../started' --", files: '[.]txt$',
     stages: [pre-commit], x_per_file: true}
"""
PASSED = b"T" + b"." * 72 + b"Passed\n"
LETTERS = "abc"


def answer_of(letter):
    """What is cached of the child of a file."""
    words = [b"sh", b"-c", b"echo $1 >> ../../started", b"--", f"{letter}.txt".encode()]
    return KeptAnswer(words, [(f"{letter}.txt", 0, letter.encode() * 3)], [], 0)


class Limited:
    """A repository of files of which each has a child, and the model of its cached results."""

    def __init__(self, folder, letters=LETTERS):
        self.folder, self.letters, self.book, self.known = folder, letters, ListBook(), {}
        do(folder, "init")
        write(folder, ".pre-commit-config.yaml", PER_FILE)
        for letter in letters:
            write(folder, f"{letter}.txt", letter.encode() * 3)
        do(folder, "add", ".")
        self.known = {use_of(answer_of(letter)): letter for letter in letters}
        self.check_book()

    def check_book(self):
        """Checks that sqlite3 finds the book of the model, and that `memory` counts it."""
        found = book_in(self.folder)
        found = Book(found.limit, [self.known.get(key, "?") for key in found.keys])
        check(found == book_of(self.book), f"what is remembered is {found!r}, wanted {book_of(self.book)!r}")
        said = do(self.folder, "memory")
        check(said == b"remembered: %d\n" % len(self.book), f"of {len(self.book)} answers memory says {said!r}")

    def limit(self, number):
        """Sets the limit, by one word or by two."""
        words = ["memory", f"--limit={number}"] if number % 2 else ["memory", "--limit", str(number)]
        self.book.keep_to(number)
        check(do(self.folder, *words) == b"remembered: %d\n" % len(self.book), f"{words!r} says another number")
        self.check_book()

    def run(self, letters, *options):
        """Runs the hook on these files, which has to start the children that the model lacks. How many these are."""
        path = os.path.join(self.folder, "started")
        write(self.folder, "started", b"")
        named = [f"{letter}.txt" for letter in letters]
        words = ["run", "--jobs=1", *options, "--all-files"] if letters == self.letters else ["run-files", "--jobs=1", *options, *named]
        said = run(self.folder, *words)
        check(said == (0, PASSED, b""), f"{words!r} says {said!r}")
        wanted = []
        for letter in sorted(letters):
            if self.book.find(letter) is None or "--fresh" in options:
                wanted.append(letter)
                self.book.put(letter, True)
        with open(path, encoding="ascii") as file:
            found = [line.removesuffix(".txt\n") for line in file]
        check(found == wanted, f"{words!r} starts children for {found!r}, wanted {wanted!r}")
        self.check_book()
        return len(found)

    def forget(self):
        check(do(self.folder, "forget") == b"forgotten: %d\n" % self.book.forget(), "another number is forgotten")
        self.check_book()


def remembers_the_answers_that_were_used_last(folder):
    """Of three answers two are kept, so that a run of three files finds none of its own. Those of single files are used, and the one that
    was used last stays longest."""
    limited = Limited(folder)
    limited.limit(2)
    starts = [limited.run(letters) for letters in ("abc", "abc", "c", "b", "a", "c", "a", "abc")]
    check(starts == [3, 3, 0, 0, 1, 1, 0, 2], f"the runs start {starts!r} children")


def drops_answers_once_a_limit_is_set(folder):
    """The last ones go at once, and their contents stay, as the repository does."""
    limited = Limited(folder)
    check(limited.run("abc") == 3, "three answers are remembered without a run")
    before, kept = state(folder), kept_contents(folder)
    limited.limit(1)
    check(limited.run("c") == 0, "the last answer was dropped")
    check(state(folder) == before and kept_contents(folder) == kept, "a limit changes the repository, or what is kept")
    check({held for letter in LETTERS for held in contents_of(answer_of(letter))} <= kept, "not all contents are kept")
    starts = [limited.run(letters) for letters in ("b", "b", "abc", "abc")]
    check(starts == [1, 0, 3, 3], f"the runs start {starts!r} children")


def keeps_its_limit(folder):
    """It stays over commands of every kind, over forgetting, and with other hooks staged; each that is set takes the
    place of the last."""
    limited = Limited(folder)
    for number, starts in ((1, [3, 0, 3]), (2, [3, 0, 3]), (3, [3, 0, 0]), (100_000, [3, 0, 0])):
        limited.limit(number)
        found = [limited.run("abc"), limited.run("c"), limited.run("abc")]
        check(found == starts, f"with a limit of {number} the runs start {found!r} children")
        limited.forget()
        limited.forget()
        others = (["status"], ["log"], ["rm", "a.txt"], ["add", "a.txt"], ["commit", "--no-verify", "-m", "text"])
        for words in others:
            status, _, err = run(folder, *words)
            check((status, err) == (0, b"") or words[0] == "commit" and number > 1,
                  f"{words!r} ends with {status} and says {err!r}")
        limited.check_book()


def counts_what_a_fresh_run_and_a_commit_use(folder):
    """Both look each answer up, and put those that they lack, at most as many as there may be."""
    limited = Limited(folder)
    limited.limit(2)
    runs = (("ab",), ("a", "--fresh"), ("c",), ("a",), ("abc", "--fresh"), ("bc",))
    starts = [limited.run(*words) for words in runs]
    check(starts == [2, 1, 1, 0, 3, 0], f"the runs start {starts!r} children")
    said = run(folder, "commit", "-m", "text")
    check(said == (0, PASSED + b"commit 1\n", b""), f"a commit says {said!r}")
    for letter in LETTERS:
        if limited.book.find(letter) is None:
            limited.book.put(letter, True)
    limited.check_book()


# Words that are no limit.
NO_LIMITS = [
    ["--limit=0"], ["--limit", "0"], ["--limit=100001"], ["--limit=4294967297"], ["--limit=-1"], ["--limit", "-1"],
    ["--limit=x"], ["--limit="], ["--limit=1 2"], ["--limit", "1", "2"], ["--limit"], ["--limit=1", "--limit=2"], ["2"],
]


def refuses_what_is_no_limit(folder):
    """It is a fault of usage, with or without a store, and leaves the limit that was."""
    for words in NO_LIMITS:
        status, out, err = run(folder, "memory", *words)
        check((status, out) == (2, b"") and err.startswith(b"error: "),
              f"memory {words!r} ends with {status} and says {err!r}")
        check(os.listdir(folder) == [], f"memory {words!r} leaves {os.listdir(folder)!r}")
    limited = Limited(folder)
    limited.run("abc")
    limited.limit(2)
    for words in NO_LIMITS:
        status, out, err = run(folder, "memory", *words)
        check((status, out) == (2, b"") and err.startswith(b"error: "),
              f"memory {words!r} ends with {status} and says {err!r}")
    limited.check_book()


def query_of_the_reference():
    """The SQL by which docs/REFERENCE.md finds the keys of the cached answers."""
    with open(os.path.join(TOP, "docs", "REFERENCE.md"), encoding="utf-8") as file:
        found = re.findall(r"^sqlite3 [.]hookhost/store[.]db '(SELECT hex\(words\).*)'$", file.read(), re.MULTILINE)
    check(len(found) == 1, f"the reference has the queries {found!r}")
    return found[0]


def is_read_as_the_reference_says(folder):
    """The keys and the status of each answer, the most recently used first."""
    limited, query = Limited(folder), query_of_the_reference()
    for letters in ("abc", "b", "a", "ca"):
        limited.run(letters)
        found = [line.rsplit("|", 1) for line in rows(folder, query)]
        keys, statuses = [limited.known.get(key.lower(), "?") for key, _ in found], {status for _, status in found}
        check((keys, statuses) == (book_of(limited.book).keys, {"0"}), f"behind a run of {letters!r} it finds {keys!r} and {statuses!r}")


def ticks_in(folder, known):
    """The number by which sqlite3 finds each answer used, by the letter of its file."""
    found = (line.rsplit("|", 1) for line in rows(folder, "SELECT lower(hex(words)), lower(hex(seen)), tick FROM uses"))
    return {known[key]: int(tick) for key, tick in found}


def used(ticks, letter):
    """The numbers once an answer is used, or put if there is none. The one in front keeps its own."""
    if ticks and max(ticks, key=ticks.get) == letter:
        return ticks
    if max(ticks.values(), default=0) == GREATEST_TICK:
        ticks = {other: at + 1 for at, other in enumerate(sorted(ticks, key=ticks.get))}
    return ticks | {letter: max(ticks.values(), default=0) + 1}


def renumbers_uses_where_no_greater_number_is_left(folder):
    """Each use has a number that is one greater than all. If that would pass the greatest, the others are first
    numbered from 1 on."""
    limited, ticks = Limited(folder, "abcd"), {}
    runs = [(None, "abc"), (0, "c"), (0, "a"), (0, "d"), (1, "bc"), (2, "abcd"), (None, "da"), (3, "dcba"), (0, "abcd")]
    for room, letters in runs:
        if room is not None:
            more = GREATEST_TICK - room - max(ticks.values())
            rows(folder, f"UPDATE uses SET tick = tick + {more}")
            ticks = {letter: tick + more for letter, tick in ticks.items()}
        limited.run(letters)
        for letter in sorted(letters):
            ticks = used(ticks, letter)
        found = ticks_in(folder, limited.known)
        check(found == ticks, f"behind a run of {letters!r} the uses have the numbers {found!r}, wanted {ticks!r}")
    # The same if the last answer is dropped.
    limited.limit(2)
    rows(folder, f"UPDATE uses SET tick = tick + {GREATEST_TICK - max(ticks_in(folder, limited.known).values())}")
    starts = [limited.run(letters) for letters in ("a", "b", "abcd")]
    check(starts == [1, 1, 2], f"the runs start {starts!r} children")


def keeps_one_limit_of_programs_at_once(folder):
    """Programs set limits, run hooks, forget and look at the same time. Each is done alone, and refused while another is."""
    limited = Limited(folder, "abcdefgh")
    numbers, refused = (1, 2, 3, 5), (3, b"", f"hookhost: cannot use {LOCK}\n".encode())

    def work(at):
        """How often one of them is refused. Each of their commands is repeated until it is done."""
        count = 0
        for step in range(7):
            path = f"{limited.letters[(at + step) % 8]}.txt"
            commands = (["memory", f"--limit={numbers[at]}"], ["run-files", path], ["memory"],
                        ["run-files", path, "a.txt"], ["forget"])
            words = commands[(at + step) % len(commands)]
            while (answer := run(folder, *words)) == refused:
                count += 1
            check(answer[0] == 0 and answer[2] == b"", f"{words!r} beside others ends with {answer!r}")
        return count

    with ThreadPoolExecutor(len(numbers)) as pool:
        count = sum(pool.map(work, range(len(numbers))))
    check(count > 0, "no program met another")
    found = book_in(folder)
    check(found.limit in numbers and set(found.keys) <= set(limited.known), f"programs at once leave {found!r}")
    limited.book = model_of(Book(found.limit, [limited.known[key] for key in found.keys]))
    limited.check_book()
    limited.run("abcdefgh")
    print(f"four programs at once that set limits: {count} times refused")


CASES = [remembers_the_answers_that_were_used_last, drops_answers_once_a_limit_is_set, keeps_its_limit,
         counts_what_a_fresh_run_and_a_commit_use, refuses_what_is_no_limit, is_read_as_the_reference_says,
         renumbers_uses_where_no_greater_number_is_left, keeps_one_limit_of_programs_at_once]
