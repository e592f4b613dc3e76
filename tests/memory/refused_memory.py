#!/usr/bin/env python3
"""Checks the built program with each of its allocations refused in turn, until a run ends with none refused.

Usage: tests/memory/refused_memory.py [--each | --sample] [PROGRAM [STORE_TRIAL [HOOK_TRIAL [SELECTION_TRIAL [YAML_TRIAL [RUN_TRIAL]]]]]]   (default: the built programs)

Each refused run has to print `hookhost: refused: NUMBER OutOfMemory`, write nothing to standard output and end with exit status 3.
Otherwise it has to answer just as with ample memory (a growth that was refused may be tried again with less). Each play lists its numbers
in the order in which they have to come as later allocations are refused: 4, and in `check` 4 while the words are read and then 12.
tests/shared/refuse_allocation.c takes the place of the allocator. The plays are its own, and each text of the tables `yaml_profile` and
`yaml_profile_refused` in tests/rows/tables/, which is checked as a configuration.

If a play starts children, these have all their memory. So no line of the report may show a refusal, and no file of the folder may change.
The folder in which they run is newly made for each run, or left as an earlier run left it, one that gave up among them.

A command on a repository is run on a new copy of one each time, which may be one of version 1. After a refusal it has to show what it
showed before. Otherwise it has to show what it shows after the command with ample memory. SQLite reads it in a copy of its store. What is
cached is what was before, in version 1 or 2. If hooks run, it may also be what some of their uses and puts left, in its order. `memory`
says how many answers these are. Then the command is run again with ample memory, and has to print and leave what it does if nothing was
refused. If a refusal leaves each byte of the folder as an earlier one did, this isn't repeated.

Neither may leave an empty folder that was meant for files that don't belong to the children's folder.

Each allocation is refused too by the program run_trial, of two kinds of runs over one book. In one kind half of the book's answers are
cached when the second run begins. In the other the book has fewer answers than there are hooks. What was used and put by then stays in
its order and is reported. No child is started for it again, and the next run reports what it does from scratch.

Each allocation is refused too by the program hook_trial, of the lists of commands for a host (tests/shared/host_plays.py). In these all
but what stages a file is made twice. Its answers have to be those of tests/shared/host_model.py. There one command, or the hooks after
one commit, are refused memory, after some of the children or before any: all that follows is from scratch. The same holds for commands of
which some limit what is cached. There a look-up is refused memory too, which leaves the order.

Each allocation is refused by the program selection_trial, of the calls on tags that are kept while files change. It answers as with ample
memory, or says that it has none. What was refused is called again there, on tags that have to be as they were.

For the runs with children, the commands on a repository and the lists of commands, the first and the last allocations are refused, and
one in so many of those between. With --each, which takes long, each is refused in turn. The folder of the children is then new for each
run. The reason is that a run that gives up while it removes what it gathered leaves that for the next one. Each would then need more
allocations than the number that is refused. With --sample, of each play and each text the first and the last allocations are refused,
and far fewer of those between. Then not all that can be refused memory has to say so.
"""
import hashlib
import itertools
import multiprocessing
import os
import re
import shutil
import stat
import sys
import tempfile
from concurrent.futures import ProcessPoolExecutor
from dataclasses import dataclass, field

sys.path.insert(0, os.path.abspath(f"{__file__}/../../shared"))
from sample import IS_SAMPLED, note
from host_plays import PLAYS as HOST_PLAYS
from host_program import Wrong
from places import CRATES
from refused_allocation import (EACH, OF_PLAY, OF_TEXT, PROGRAM, SELECTION_TRIAL, STORE_TRIAL, THERE, YAML_TRIAL, all_of, end_of,
                                end_with_refusal, line_of, make_allocator, some_of)
from refused_memory_books import BOOK_PLAYS, refuse_among_remembered, refuse_host_play, refuse_limits
from refused_memory_message import refuse_message
from refused_memory_plays import FILES, OF_CHECK, OF_CHILDREN, OF_STORE, PLAYS, STAGED_HOOKS, USING_HOOKS, Play
from stops_books import TO_SMALL_VERSION_1, Book, execute, steps_between
from stops_repository import left_in
from yaml_texts import read_rows, refused_rows


@dataclass
class Bench:
    """The place in which a play is played: the folder of the allocator and of the repository that is copied, and the play's own. It keeps
    what was found of folders with just the same contents, by the digest of all that is in them: what they show, and what is wrong, if
    anything, with what the same command does then with ample memory."""
    shared: str
    folder: str
    laid: str = None
    lies: str = None
    shown: dict = field(default_factory=dict)
    judged: dict = field(default_factory=dict)

    @property
    def work(self):
        return os.path.join(self.folder, "work")



@dataclass
class Answer:
    """How a run ended: its status and outputs, whether an allocation was refused, what the folder then shows, and what is
    cached in its repository, if it has one."""
    said: tuple
    refused: bool
    shown: tuple = None
    book: Book = None


def run(play, refused, bench):
    """One run with the allocation of this number refused (0: none)."""
    if play.repository or play.children == "new" or (play.children and EACH):
        lay_repository(play, bench)
    return run_there(play, refused, bench)


def run_there(play, refused, bench):
    """The same on what lies in the folder."""
    said, was_refused = end_with_refusal([PROGRAM, *play.words], refused, bench.shared, bench.folder, bench.work, play.stdin)
    return Answer(said, was_refused, *shown_after(play, bench))


def lay_repository(play, bench):
    """Makes the folder's repository again, unless it lies there: none, or a copy of the shared one."""
    if bench.laid is not None and bench.lies == bench.laid:
        return
    shutil.rmtree(os.path.join(bench.work, ".hookhost"), ignore_errors=True)
    if play.repository not in (None, "made"):
        shutil.copytree(os.path.join(bench.shared, play.repository, ".hookhost"), os.path.join(bench.work, ".hookhost"))
    bench.laid = bench.laid or state_of(bench.work)


def shown_before(play, bench):
    """What the folder shows before the play."""
    lay_repository(play, bench)
    return Answer(None, False, *shown_after(play, bench))


def shown_after(play, bench):
    """What the folder of a play shows: what its repository does, or the files that the children got copies of. And what
    is cached."""
    if not play.repository and not play.children:
        return (None, empty_in(bench.work)), None
    bench.lies = state_of(bench.work)
    if bench.lies not in bench.shown:
        shown, book = left_in(bench.work) if play.repository else (files_in(bench.work), None)
        bench.shown[bench.lies] = (shown, empty_in(bench.work)), book
    return bench.shown[bench.lies]


def state_of(work):
    """A digest of all that lies in a folder: each name, what it is, and its bytes."""
    state = hashlib.sha256()
    for at, folders, names in os.walk(work):
        folders.sort()
        for path in [at, *(os.path.join(at, name) for name in sorted(names))]:
            mode, held = os.lstat(path).st_mode, b""
            if stat.S_ISREG(mode):
                with open(path, "rb") as file:
                    held = file.read()
            state.update(repr((os.path.relpath(path, work), mode, hashlib.sha256(held).digest())).encode())
    return state.hexdigest()


def empty_in(work):
    """The empty ones of the folders in which a run gathers what doesn't belong in the folder of children. Their names begin
    with a byte that no path has."""
    scratch = os.path.join(work, ".hookhost", "scratch")
    names = [name for name in os.listdir(scratch) if name.startswith("\x01")] if os.path.isdir(scratch) else []
    return [name for name in names if not os.listdir(os.path.join(scratch, name))]


def files_in(work):
    """The folder's files with their bytes, except those of the program."""
    found = {}
    for folder, folders, names in os.walk(work):
        folders[:] = [name for name in folders if name != ".hookhost"]
        for name in names:
            with open(os.path.join(folder, name), "rb") as file:
                found[os.path.join(folder, name)] = file.read()
    return found


def number_of(said):
    """The number of the refusal for lack of memory that a run reported, or None."""
    for number in (1, *OF_CHECK):
        told = f"hookhost: refused: {number} OutOfMemory\n".encode()
        # Of several files the one that memory was refused for is reported after it.
        if said[:2] == (3, b"") and said[2].startswith(told) and re.fullmatch(rb"(hookhost: at .*\n)?", said[2][len(told):]):
            return number
    return None


def is_stopped_behind(said, plain):
    """Whether a run reported all that it does with ample memory, except for the hook after the commit, which was stopped. That is
    reported on standard error, and undoes nothing."""
    told = b"".join(line for line in plain[1].splitlines(keepends=True) if not line.startswith(b"Behind"))
    return told != plain[1] and said == (plain[0], told, b"hookhost: refused: 1 OutOfMemory\n")


def is_less_told(said, plain):
    """Whether a run reported all that it does with ample memory, except for what was in a child's way: memory was refused for such a
    line."""
    lines = [line for line in plain[2].splitlines(keepends=True) if line.startswith(b"hookhost: ")]
    fewer = {b"".join(some) for count in range(len(lines)) for some in itertools.combinations(lines, count)}
    return said[:2] == plain[:2] and b"".join(lines) == plain[2] and said[2] in fewer


def allocations(play, bench):
    """The numbers of the allocations that are refused in turn, without an end. A run with children makes a few more or
    fewer from time to time, as their outputs come in one piece or in more."""
    is_refused = lambda number: run(play, number, bench).refused
    if not (play.repository or play.children):
        return all_of(is_refused, *(OF_TEXT if play.words == ["check"] else OF_PLAY))
    return some_of(is_refused, *(OF_STORE if play.repository else OF_CHILDREN))


def refuse_each(play, bench):
    """How many allocations were refused in turn, at how many the program gave up, and what was wrong, if anything."""
    before = shown_before(play, bench)
    plain = run(play, 0, bench)
    if play.status not in (None, plain.said[0]):
        return 0, 0, f"status {plain.said[0]} with nothing refused, wanted {play.status}: {plain.said}"
    if play.children and plain.shown != before.shown:
        return 0, 0, f"left {plain.shown} with nothing refused"
    count, gave_up, came = 0, 0, []
    for allocation in allocations(play, bench):
        answer = run(play, allocation, bench)
        if not answer.refused:
            wrong = None if answer == plain else f"answered {answer} with nothing refused"
            return count, gave_up, wrong or (None if are_wanted(came, play.numbers) else f"gave up with {came}, wanted {play.numbers}")
        count += 1
        number = number_of(answer.said)
        if number is not None:
            gave_up += 1
            came += [number] if came[-1:] != [number] else []
        elif answer.said != plain.said and not is_stopped_behind(answer.said, plain.said) and not is_less_told(answer.said, plain.said):
            return count, gave_up, f"answered {answer.said} where allocation {allocation} was refused"
        if answer.shown != (plain if number is None else before).shown:
            return count, gave_up, f"left {answer.shown} where allocation {allocation} was refused, and said {answer.said}"
        if answer.said == plain.said and answer.book != plain.book:
            wrong = f"left {answer.book!r:.900}, wanted {plain.book!r:.900}"
            return count, gave_up, f"{wrong} where allocation {allocation} was refused"
        wrong = wrong_behind(play, answer, before, plain, bench) if number is not None and (play.repository or play.children) else None
        if wrong:
            return count, gave_up, f"{wrong} where allocation {allocation} was refused"


def are_wanted(came, numbers):
    """Whether a play gave up with its numbers in their order. A sample may miss some."""
    left = iter(numbers)
    return all(number in left for number in came) and bool(came) if IS_SAMPLED else tuple(came) == numbers


# The commands of which each use and each answer of a child stays, with any refusal after it.
RUNNING = ("run", "run-files", "hook", "commit")


def wrong_behind(play, answer, before, plain, bench):
    """What is wrong after a refusal, if anything: what is cached, or what the same does now with ample memory."""
    left = bench.lies
    if left not in bench.judged:
        bench.judged[left] = wrong_book(play, answer, before, plain, bench) or wrong_again(play, plain, bench)
    return bench.judged[left]


def wrong_book(play, answer, before, plain, bench):
    """What is wrong with what is cached, if anything: it is that before the command, or that after some of its uses and
    puts."""
    if answer.book is None:
        return None
    steps = steps_between(before.book, plain.book, play.uses)
    if answer.book not in (steps if play.words[0] in RUNNING else [before.book, before.book.migrated()]):
        return f"{answer.book!r:.900} is remembered, of {before.book!r:.900} before and {plain.book!r:.900}"
    said = end_of([PROGRAM, "memory"], bench.work)
    count = len(answer.book.migrated().answers)
    is_told = said == (0, f"remembered: {count}\n".encode(), b"")
    return None if is_told else f"{said} is what memory says of {count} answers"


def wrong_again(play, plain, bench):
    """What is wrong with what the same does now with ample memory, if anything. What children are to find as a refused run left it
    lies there again after it."""
    kept = os.path.join(bench.folder, "kept")
    if play.children == "left":
        shutil.copytree(bench.work, kept, symlinks=True)
    again = run_there(play, 0, bench)
    if play.children == "left":
        shutil.rmtree(bench.work)
        os.rename(kept, bench.work)
    return None if again == plain else f"answered {again} and not {plain} with ample memory"


def play_alone(play, shared):
    """The same in a folder of the play's own. The shared one has the allocator and a repository."""
    with tempfile.TemporaryDirectory() as folder:
        lay_files(os.path.join(folder, "work"), play.configuration)
        try:
            return refuse_each(play, Bench(shared, folder))
        except Wrong as wrong:
            return 0, 0, str(wrong)


def lay_files(folder, configuration):
    """Makes a folder with the files of the plays."""
    for name, text in ((".pre-commit-config.yaml", configuration), *FILES):
        path = os.path.join(folder, name)
        os.makedirs(os.path.dirname(path), exist_ok=True)
        with open(path, "wb") as file:
            file.write(text)


def make_repositories(shared):
    """Makes the repositories that plays are played on."""
    there, using, first = (os.path.join(shared, name) for name in ("there", "using", "first"))
    make_repository(there)
    make_using(using)
    shutil.copytree(using, first)
    execute(first, TO_SMALL_VERSION_1)


def do_all(folder, *steps):
    """Does commands, each given by its words, and lines of store_trial, which are bytes."""
    for step in steps:
        words, given = [PROGRAM, *step], b""
        if isinstance(step, bytes):
            words, given = [STORE_TRIAL, ".hookhost/store.db"], b"open\n" + step + b"close\n"
        told = end_of(words, folder, given)
        if told[0]:
            sys.exit(f"refused_memory: no repository is made, {step!r} says {told!r}")


def make_repository(folder):
    """Makes a repository with a commit, whose files are those of the plays, hooks that are staged, and a fix."""
    lay_files(folder, STAGED_HOOKS)
    do_all(folder, ["init"], ["add", "a.txt"], ["add", "b.txt"],
           b"stage plain old/x 1\nstage plain old/dir/y 2\ncommit first\\n\\nbody\n",
           ["rm", "b.txt"], ["add", ".pre-commit-config.yaml"],
           b"fix a.txt 2\nset\nremember c a.txt | a.txt=1 | a.txt=2 | 0 | said\nremember d | | | 1\n")


def make_using(folder):
    """Makes a repository with as many answers as its limit allows, for two of three staged files and for none of them."""
    lay_files(folder, USING_HOOKS)
    do_all(folder, ["init"], ["add", ".pre-commit-config.yaml", *(name for name, _ in FILES)], b"remember d | | | 1\n",
           ["run-files", "a.txt"], ["run-files", "b.txt"], ["memory", "--limit=3"])


def refuse_lines(program, lines, shared):
    """How many allocations were refused in the lines of a program for tests, how often it gave up, and what went wrong."""
    count = gave_up_times = 0
    with tempfile.TemporaryDirectory() as folder:
        for line in lines:
            plain, _ = end_with_refusal([program], 0, shared, folder, folder, line)
            for refused in all_of(lambda number: end_with_refusal([program], number, shared, folder, folder, line)[1], *OF_PLAY):
                ended, is_refused = end_with_refusal([program], refused, shared, folder, folder, line)
                if not is_refused:
                    break
                count += 1
                gave_up_times += ended != plain
                if ended != plain and (ended[0] != 3 or b"out of memory" not in ended[2]):
                    return count, gave_up_times, f"{line!r}, allocation {refused}: {ended}"
    return count, gave_up_times, None if count else "no line"


def lines_on_kept_tags():
    with open(os.path.join(CRATES, "selection_trial/stdin"), "rb") as file:
        return [line for line in file if line.startswith((b"follow ", b"select_kept "))]


# The calls of the programs for tests, of which each allocation is refused.
LINES = {
    "tags that are kept": (SELECTION_TRIAL, lines_on_kept_tags()),
    "trees that share rows": (YAML_TRIAL, [line_of("tree_plays", [seed, "100"]) for seed in "123"]),
}


def play_all(plays, shared):
    """What each play and each list of commands of a host comes to, and the runs over books and the lines of programs for
    tests, side by side."""
    with ProcessPoolExecutor(os.cpu_count(), multiprocessing.get_context("fork")) as pool:
        answers = [pool.submit(play_alone, play, shared) for play in plays]
        of_hosts = [pool.submit(refuse_host_play, *play, shared) for play in HOST_PLAYS] + [pool.submit(refuse_limits, shared)]
        of_books = [pool.submit(refuse_among_remembered, play, shared) for play in BOOK_PLAYS]
        of_lines = [pool.submit(refuse_lines, *asked, shared) for asked in LINES.values()]
        of_message = [pool.submit(refuse_message, shared)]
        parts = answers, of_hosts, of_books, of_lines, of_message
        return [[each.result() for each in part] for part in parts]


def main():
    texts = [text for text, _ in read_rows() + refused_rows()]
    checks = [Play(f"the check of {text!r}", ["check"], OF_CHECK, configuration=text.encode()) for text in texts]
    with tempfile.TemporaryDirectory() as folder:
        make_allocator(folder)
        make_repositories(folder)
        answers, of_hosts, of_books, of_lines, of_message = play_all(PLAYS + checks, folder)
    failures = [(play.name, wrong) for play, (_, _, wrong) in zip(PLAYS + checks, answers) if wrong]
    failures += [("commands of a host", wrong) for _, _, wrong in of_hosts if wrong]
    failures += [(play.name, wrong) for play, (_, _, wrong) in zip(BOOK_PLAYS, of_books) if wrong]
    failures += [(name, wrong) for name, (_, _, wrong) in zip(LINES, of_lines) if wrong]
    failures += [("hooks about a message", wrong) for _, _, wrong in of_message if wrong]
    for play, (count, gave_up, wrong) in zip(PLAYS, answers):
        print(f"{play.name}: {count} allocations refused in turn, {gave_up} times the program gave up")
    of_texts = answers[len(PLAYS):]
    print(f"the check of {len(checks)} texts: {sum(each[0] for each in of_texts)} allocations refused in turn, "
          f"{sum(each[1] for each in of_texts)} times the program gave up")
    for count, came, _ in of_hosts:
        print(f"commands of a host: {count} allocations refused in turn, which it said at {len(came - {None})} places")
    for play, (count, refused, _) in zip(BOOK_PLAYS, of_books):
        print(f"{play.name}: {count} allocations refused in turn, {refused} times a run was refused")
    for name, (count, gave_up, _) in zip(LINES, of_lines):
        print(f"{name}: {count} allocations refused in turn, {gave_up} times the program gave up")
    for count, gave_up, _ in of_message:
        print(f"hooks about a message: {count} allocations refused in turn, {gave_up} times the program gave up")
    for name, wrong in failures:
        print(f"FAILED {name}: {wrong}")
    played = [*answers, *of_hosts, *of_books, *of_lines, *of_message]
    said = note(sum(each[0] for each in played), THERE.value, "allocations")
    print(f"memory: {len(played) - len(failures)} passed, {len(failures)} failed{said}")
    sys.exit(1 if failures or not checks else 0)


main()
