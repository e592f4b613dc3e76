"""Repositories on which commands are stopped, for the scripts of tests/stops/: how they are made, and what is in one. Also what a command
may print and leave that a kill, a refused call or a limit has stopped.

The model of a command is the same command in a copy in which nothing stops it. SQLite reads what is in a repository, in a copy of its
two files that no program has opened since. Then the program shows it, and has to show just that.
"""
import ctypes
import hashlib
import os
import re
import shutil
import signal
import sqlite3
import subprocess
import tempfile
import time
from collections import namedtuple
from contextlib import suppress

from host_program import LOCK, STORE, Wrong, check, write
from stops_books import CHANGE_IN_LOG, TO_LAST_TICK, TO_SMALL_VERSION_1, book_by, execute, execute_in_log, steps_between

CONFIGURATION, LOG, SCRATCH = ".pre-commit-config.yaml", STORE + "-wal", ".hookhost/scratch"
# A folder whose files needn't reach a disk: there a repository is copied and waited for in no time.
QUICK = "/dev/shm" if os.access("/dev/shm", os.W_OK) else None
# Hooks of each stage of a commit, and of the stage `manual`, of which each has a file of its own: one file changes, one is removed.
HOOKS = b"""repos:
- repo: local
  hooks:
  - {id: look, name: Look, language: system, entry: cat, files: '^[b-e]$', stages: [pre-commit]}
  - {id: refuse, name: Refuse, language: system, entry: "sh -c 'echo no; echo y > $1; exit 3' --", files: '^bad$', stages: [pre-commit]}
  - {id: write, name: Write, language: system, entry: "sh -c 'echo a line >> $1' --", stages: [prepare-commit-msg]}
  - {id: behind, name: Behind, language: system, entry: 'true', stages: [post-commit], always_run: true}
  - {id: mend, name: Mend, language: system, entry: sed -i s/x/y/, files: '^b$', stages: [manual]}
  - {id: away, name: Away, language: system, entry: rm, files: '^d$', stages: [manual]}
  - {id: says, name: Says, language: system, entry: cat, files: '^a$', verbose: true, stages: [manual]}
"""
# Each command runs in its turn, so that the calls of the system come in the same order each time.
IN_TURN = "--jobs=1"
RUN = ("run", IN_TURN, "--hook-stage", "manual", "--all-files")
IDS = {"Look": "look", "Refuse": "refuse", "Write": "write", "Behind": "behind", "Mend": "mend", "Away": "away", "Says": "says"}
LOOKS = (("status",), ("fixes",), ("log",), ("cat", "b"))
# What a command prints that is refused, what it prints of what it did, and of a file among several.
REFUSED = re.compile(rb"(hookhost: (refused: \d+ \w+(?: \d+)?|cannot use [\x20-\x7e]+|standard output was not taken)\n)"
                     rb"(hookhost: (at [\x20-\x7e]+|commit \d+ was made)\n)*")
REPORT = re.compile(rb"^(\w+)\.+(?:\(no files to check\))?(?:Passed|Failed|Skipped)$", re.MULTILINE)
FAULT = b"\n- fault: "
# What is said first if it isn't known whether Git tracks the store: its cached results are forgotten.
FORGOTTEN = b"hookhost: Git tracks .hookhost, or doesn't say: what is remembered there isn't used (git rm -r --cached .hookhost)\n"
# What it prints of a fault after its report: what was in the way of files, and what could not be started.
TROUBLES = re.compile(rb"(hookhost: (?!refused|cannot )[^\n]+: [^\n]+\n)?(hookhost: cannot start [^\n]*: [^\n]+\n)?")

ROWS = (
    "SELECT path, mode, digest FROM staged ORDER BY path",
    "SELECT path, gone, digest FROM fixes ORDER BY path",
    "SELECT n, message FROM commits ORDER BY n",
    "SELECT n, path, mode, digest FROM entries ORDER BY n, path",
)

# How a command ended, and what it printed on both outputs.
Told = namedtuple("Told", "status out err")


class Left(namedtuple("Left", "repository book")):
    """The rows of a repository, and its cached results. Both are None if there is no store."""

    @property
    def answers(self):
        """The rows of what is cached, in their order."""
        return self.book.answers if self.book else ()

    def migrated(self):
        """What the next command makes of it first."""
        return self._replace(book=self.book.migrated())


# ---- the program

def adopt_orphans():
    """Makes this process the parent of what outlives its own children, so that it can wait for that."""
    ctypes.CDLL(None).prctl(36, 1, 0, 0, 0)


def wait_for_orphans(seconds=30):
    """Waits until no child of a stopped program is at work."""
    until = time.monotonic() + seconds
    with suppress(ChildProcessError):
        while time.monotonic() < until:
            if os.waitpid(-1, os.WNOHANG) == (0, 0):
                time.sleep(0.002)
        raise Wrong("a child of a stopped program doesn't end")


def end_orphans():
    """Ends all that outlived a child of this process. strace leaves such a process if it didn't end in time."""
    for process in filter(str.isdigit, os.listdir("/proc")):
        with suppress(OSError):
            with open(f"/proc/{process}/stat") as file:
                parent = int(file.read().rpartition(")")[2].split()[1])
            if parent == os.getpid():
                os.kill(int(process), signal.SIGKILL)
    wait_for_orphans()


def told_by(words, folder, skip="", **how):
    """What the words print in the folder."""
    environment = {**os.environ, "SKIP": skip}
    done = subprocess.run(words, cwd=folder, stdin=subprocess.DEVNULL, capture_output=True, timeout=120, env=environment, **how)
    return Told(done.returncode, done.stdout, done.stderr)


# ---- what lies in a repository

def left_in(work):
    """What the two files of the store hold, in a copy of them that is sound."""
    if not os.path.lexists(os.path.join(work, STORE)):
        return Left(None, None)
    with tempfile.TemporaryDirectory(dir=QUICK) as folder:
        for name in (STORE, LOG):
            with suppress(FileNotFoundError):
                shutil.copyfile(os.path.join(work, name), os.path.join(folder, os.path.basename(name)))
        return left_at(os.path.join(folder, os.path.basename(STORE)))


def left_alone(work):
    """What the file of the database holds without its log."""
    with tempfile.TemporaryDirectory(dir=QUICK) as folder:
        return left_at(shutil.copy(os.path.join(work, STORE), folder))


def left_at(path):
    database = sqlite3.connect(path)
    try:
        ask = lambda text: tuple(database.execute(text).fetchall())
        broken = ask("PRAGMA integrity_check") + ask("PRAGMA foreign_key_check")
        check(broken == (("ok",),), f"SQLite finds the store broken: {broken!r:.500}")
        mistaken = [digest.hex() for digest, held in ask("SELECT digest, bytes FROM blobs") if hashlib.sha256(held).digest() != digest]
        check(mistaken == [], f"these contents stand under another digest: {mistaken!r:.500}")
        return Left(tuple(ask(text) for text in ROWS), book_by(ask))
    except sqlite3.DatabaseError as error:
        raise Wrong(f"SQLite refuses the store: {error}") from error
    finally:
        database.close()


def sections(out):
    """The parts of what a command printed that report hooks, by the names of these, in their order, and what follows."""
    starts = [found.start() for found in REPORT.finditer(out)] + [len(out)]
    return {REPORT.match(out, start)[1].decode(): out[start:end] for start, end in zip(starts, starts[1:])}


def faults_in(found):
    """The names of the hooks of whose sections one reports a fault."""
    return [name for name, section in found.items() if FAULT in section]


class Scene:
    """A command on copies of a repository, and what it prints and leaves if nothing stops it: the first time, and when it's run once
    more. It uses and puts so many answers, and the last of them, so many, after what it does to the repository. If `uses` is none, it
    changes what is cached at once."""

    def __init__(self, program, folder, name, base, words, uses=0, behind=0):
        self.program, self.name, self.base, self.words = program, name, base, words
        self.uses, self.behind, self.forgotten = uses, behind, None
        self.copies, self.by_faults, self.shown = os.path.join(folder, f"model-{name}"), {}, {}
        os.mkdir(self.copies)
        self.before = left_in(base)
        work = self.copy(self.copies)
        self.told, self.after = self.run(work), left_in(work)
        self.books = steps_between(self.before.book, self.after.book, uses)
        check(self.told.err == b"" and self.told.status in (0, 1), f"{name}: {words!r} says {self.told!r}")
        self.note(work, self.after)
        self.told_again, self.after_again = self.run(work), left_in(work)
        self.note(work, self.after_again)
        if self.before.repository is not None:
            self.note(self.copy(self.copies), self.before)

    def copy(self, folder):
        """A new copy of the repository in a folder."""
        return shutil.copytree(self.base, tempfile.mkdtemp(dir=folder), dirs_exist_ok=True, symlinks=True)

    def run(self, work, **how):
        return told_by([self.program, *self.words], work, **how)

    def note(self, work, left):
        """Notes what the program shows of what is left."""
        looks = tuple(told_by([self.program, *words], work) for words in LOOKS)
        # Only in a new repository there is no file to show.
        check(all((look.status, look.err) == (0, b"") for look in looks[:3]), f"{self.name}: it shows {looks!r}")
        self.shown[left.repository] = looks

    # ---- what a stopped command may leave

    def judge(self, work, told):
        """What a command left that something stopped, or didn't, in a word. Then the same command is run once more, and has to do what it
        does if nothing stops it."""
        if told.err.startswith(FORGOTTEN):
            return "forgotten and " + self.where_forgotten().judge(work, told._replace(err=told.err.removeprefix(FORGOTTEN)))
        left = left_in(work)
        place, wanted, then = self.place_of(left, told)
        if left.repository is not None:
            self.check_shown(work, left)
        again = self.run(work)
        check(again == wanted, f"after {told!r:.300}, which left what was {place}, the same command says {again!r:.300}, wanted {wanted!r:.300}")
        found = left_in(work)
        # A command that is refused caches nothing more.
        book = left.book.migrated() if wanted.status == 3 else then.book
        is_it = "" if found.repository == then.repository else "not "
        check(found == Left(then.repository, book), f"after {told!r:.300}, which left what was {place}, the same command leaves "
              f"{found.book!r:.900}, wanted {book!r:.900}, and a repository that is {is_it}the wanted one")
        self.check_folder(work)
        return place

    def where_forgotten(self):
        """The same command if nothing is cached, of one that starts with something."""
        check(self.before.answers, f"{self.name}: it forgets, and there is nothing to forget")
        if self.forgotten is None:
            folder = tempfile.mkdtemp(dir=self.copies)
            base = self.copy(folder)
            ended(told_by([self.program, "forget"], base), ["forget"])
            self.forgotten = Scene(self.program, folder, self.name, base, self.words, self.uses, self.behind)
        return self.forgotten

    def place_of(self, left, told):
        """The state in which a command left the repository, and what it prints and leaves when it's run again."""
        self.check_answers(left)
        if faults_in(sections(told.out)):
            return self.place_of_faults(left, told)
        is_after = left.repository == self.after.repository
        is_known = is_after or left.repository == self.before.repository
        check(is_known, f"it says {told!r:.500} and leaves what was neither before nor after: {left!r:.600}")
        self.check_book(left, told)
        if self.is_stopped_behind(told):
            check(is_after, f"it says {told!r:.300} and leaves what was before")
            return "after, and stopped behind it", self.told_again, self.after_again
        self.check_told(told)
        if told.status == self.told.status:
            check(told.out == self.told.out and left == self.after, f"it says {told!r:.500} and leaves {left!r:.1500}")
        check(is_after or told.out == b"" and b"was made" not in told.err, f"it says {told!r:.500} and leaves what was before")
        if self.after.repository == self.before.repository:
            return self.place_where_nothing_changes(left, told)
        # The disk may refuse a wait after the last write of a change.
        place = "after, and was refused" if told.status == 3 and b"taken" not in told.err else "after"
        return (place, self.told_again, self.after_again) if is_after else (self.place_before(left), self.told, self.after)

    def place_before(self, left):
        """The state in which a command left its cached results if it didn't come to its end."""
        return "before" if left.book == self.before.book else "between two transactions"

    def is_stopped_behind(self, told):
        """Whether a commit says that it is made, and of a hook after it that this was stopped."""
        whole = sections(self.told.out)
        is_there = told.out == b"".join(section for name, section in whole.items() if name != "Behind") + whole.get("Behind", b"")[-len(b"commit N\n"):]
        return self.behind > 0 and told.status == 0 and is_there and REFUSED.fullmatch(told.err) is not None

    def place_where_nothing_changes(self, left, told):
        """A command that changes only what is cached has printed nothing until that is done."""
        is_after = left.book == self.after.book
        check(is_after or told.out == b"", f"it says {told!r:.500} and leaves {left!r:.1500}")
        return ("after", self.told_again, self.after_again) if is_after else (self.place_before(left), self.told, self.after)

    def check_answers(self, left):
        """Each answer that is cached is one that a child gave: it was there before, or it comes to be there while nothing stops the
        command."""
        known = {row for book in self.books if book for row in book.answers}
        check(set(left.answers) <= known, f"an answer is remembered that no child told: {left.answers!r:.1500}")

    def check_book(self, left, told):
        """What is cached is that after one of the transactions that the command makes, and is before or after that of the
        repository as this is."""
        steps, change = [at for at, book in enumerate(self.books) if book == left.book], len(self.books) - 1 - self.behind
        check(steps, f"it says {told!r:.500} and remembers what is behind none of its transactions: {left.book!r:.1500}")
        is_after = left.repository == self.after.repository
        if self.before.repository != self.after.repository:
            is_there = steps[-1] >= change if is_after else steps[0] <= change
            check(is_there, f"it says {told!r:.500} and remembers what is {'' if is_after else 'not '}behind the steps {steps!r}")

    def check_told(self, told):
        """A command is done, or killed, or refused by a line that says so, and what it printed is a beginning of what it prints."""
        check(self.told.out.startswith(told.out), f"it prints what it doesn't where nothing stops it: {told!r:.500}")
        check(told.status in (self.told.status, 3) or told.status < 0, f"it ends with {told!r:.500}")
        if told.status == 3:
            check(REFUSED.fullmatch(told.err), f"it is refused and says {told!r:.500}")
        else:
            check(told.err == b"", f"it says {told!r:.500}")

    def place_of_faults(self, left, told):
        """If a hook's command met a fault the report says so, and the rest is what it is if that hook is skipped."""
        found, wanted = sections(told.out), sections(self.told.out)
        faulted = faults_in(found)
        is_told = told.status == 1 and TROUBLES.fullmatch(told.err)
        check(is_told or re.search(rb"^commit \d+$", told.out, re.MULTILINE), f"with a fault it ends with {told!r:.500}")
        for name, section in found.items():
            is_same = section == wanted[name].split(b"commit ")[0] or section == wanted[name]
            check(is_same or name in faulted, f"beside a fault it says {section!r}, wanted {wanted[name]!r}")
        without = self.without(faulted, told)
        check(left.repository == without.repository, f"with faults of {faulted!r} it leaves {left.repository!r:.900}, wanted {without.repository!r:.900}")
        # What met a fault isn't cached. Before a commit hooks of several stages have answered.
        is_same = self.words[0] == "commit" or left.book == without.book
        check(is_same, f"with faults of {faulted!r} it leaves {left.book!r:.900}, wanted {without.book!r:.900}")
        is_after = left.repository == self.after.repository and self.words[0] == "commit"
        return ("after a fault", self.told_again, self.after_again) if is_after else ("a fault", self.told, self.after)

    def without(self, faulted, told):
        """What the command leaves if these hooks' commands met a fault: what the others changed and answered. Before a commit such a hook
        refuses it."""
        if self.words[0] == "commit":
            is_made = re.search(rb"^commit \d+$", told.out, re.MULTILINE)
            return self.after if is_made else self.refused_commit(sections(told.out), faulted)
        key = frozenset(faulted)
        if key not in self.by_faults:
            work = self.copy(self.copies)
            told_by([self.program, *self.words], work, ",".join(IDS[name] for name in key))
            self.by_faults[key] = left_in(work)
            self.note(work, self.by_faults[key])
        return self.by_faults[key]

    def refused_commit(self, found, faulted):
        """Nothing is committed, and the fixes are those of the hooks that have run."""
        key = (*found, *faulted)
        if key not in self.by_faults:
            work, others = self.copy(self.copies), [IDS[name] for name in IDS if name not in found or name in faulted]
            # A run of a stage sets the fixes as the hooks of that stage do before a commit.
            told_by([self.program, "run"], work, ",".join(others))
            self.by_faults[key] = left_in(work)
            self.note(work, self.by_faults[key])
        return self.by_faults[key]

    def check_shown(self, work, left):
        """The program shows what SQLite read, and leaves it. A store of version 1 is shown in a copy, since it becomes another
        by that."""
        if left.book.version == 1:
            work = shutil.copytree(work, tempfile.mkdtemp(dir=os.path.dirname(work)), dirs_exist_ok=True, symlinks=True)
        looks = tuple(told_by([self.program, *words], work) for words in LOOKS)
        check(looks == self.shown[left.repository], f"it shows {looks!r:.1500}, wanted {self.shown[left.repository]!r:.1500}")
        memory, then = told_by([self.program, "memory"], work), left.migrated()
        wanted = 0, b"remembered: %d\n" % len(then.answers), b""
        check(memory == wanted, f"of {len(then.answers)} answers memory says {memory!r}")
        check(left_alone(work) == then, "the file of the database alone isn't the repository behind the next command")

    def check_folder(self, work):
        """What is left next to the store after the command that was run again. A run that was stopped leaves its mark. The next command
        that starts a child removes it."""
        known = {os.path.basename(name) for name in (STORE, LOG, LOCK, SCRATCH)} | {"scratch.run", "scratch.old"}
        found = set(os.listdir(os.path.join(work, ".hookhost")))
        check(found <= known, f"in its folder it leaves {sorted(found)!r}")


# ---- the repositories

def filled(program, folder, hooks):
    """A repository with these hooks and a commit, staged files of which one is new, one is changed and one is gone, fixes, and answers."""
    base = os.path.join(folder, "filled")
    os.mkdir(base)
    do = lambda *words, wanted=0: ended(told_by([program, *words], base), words, wanted)
    do("init")
    for name, held in ((CONFIGURATION, hooks), ("a", b"one\n"), ("b", b"x\n"), ("d", b"gone\n"), ("dir/c", b"c\n" * 3000)):
        write(base, name, held)
    do("add", ".")
    do("commit", "-m", "first")
    for name, held in (("b", b"x more\n" * 900), ("e", b"x\n")):
        write(base, name, held)
    do("add", "b", "e")
    do("rm", "dir/c")
    do(*RUN, wanted=1)
    for name, held in (("b", b"other\n"), ("new", b"new\n" * 2000), ("many/1", b"1"), ("many/2", b"2" * 5000)):
        write(base, name, held)
    return base


def ended(told, words, wanted=0):
    check((told.status, told.err) == (wanted, b""), f"{words!r} says {told!r}")
    return told.out


def scenes_of(program, folder, only, hooks=HOOKS):
    """The commands that are stopped, each with its repository: those whose names have this word in them."""
    base = filled(program, folder, hooks)

    def changed(name, *commands, files=()):
        """A copy of the repository in which files were written and commands done."""
        work = shutil.copytree(base, os.path.join(folder, name))
        for path, held in files:
            write(work, path, held)
        for words in commands:
            told_by([program, *words], work)
        return work

    empty = os.path.join(folder, "empty")
    os.mkdir(empty)
    to_run = changed("to_run", ("add", "b"), (*RUN, "mend"), ("forget",), files=[("b", b"x other\n")])
    to_commit = changed("to_commit", ("forget",))
    to_refuse = changed("to_refuse", ("add", "bad"), (*RUN, "mend"), ("forget",), files=[("bad", b"x\n")])
    # All hooks of the stage `manual` are answered, and the first of them isn't the one that was used last.
    to_use = changed("to_use", ("add", "new"))
    to_number = execute(changed("to_number", ("add", "new")), TO_LAST_TICK)
    # As many answers as may be, all of another stage.
    to_drop = changed("to_drop", ("forget",), ("memory", "--limit=3"), ("run-files", "b"), ("run-files", "e"), ("run-files", "b", "e"))
    to_commit_anew = changed("to_commit_anew", ("run",), RUN)
    first = execute(changed("first"), TO_SMALL_VERSION_1)
    # Of three hooks two are answered, and the last one's file is another.
    first_to_run = execute(changed("first_to_run", ("add", "a"), files=[("a", b"two\n")]), TO_SMALL_VERSION_1)
    first_in_log = execute_in_log(shutil.copytree(first, os.path.join(folder, "first_in_log")), CHANGE_IN_LOG)
    scenes = [
        ("init", empty, ["init"]), ("add", base, ["add", "new"]), ("add several", base, ["add", "new", "many", "b"]),
        ("rm", base, ["rm", "e", "d"]), ("run", to_run, list(RUN), 3), ("accept", base, ["accept"]),
        ("commit", to_commit, ["commit", IN_TURN, "-m", "second"], 3, 1), ("refused commit", to_refuse, ["commit", IN_TURN, "-m", "refused"], 2),
        ("forget", base, ["forget"], None), ("status", base, ["status"]),
        # What is used, numbered again and dropped, and how many may be.
        ("run that uses", to_use, list(RUN), 3), ("run that numbers anew", to_number, list(RUN), 3),
        ("run that drops", to_drop, list(RUN), 3), ("commit that uses", to_commit_anew, ["commit", IN_TURN, "-m", "second"], 3, 1),
        ("limit", base, ["memory", "--limit=2"], None),
        # Stores that become others first.
        ("status of version 1", first, ["status"]), ("run of version 1", first_to_run, list(RUN), 3),
        ("status over a log of version 1", first_in_log, ["status"]),
    ]
    return [Scene(program, folder, *scene) for scene in scenes if only in scene[0]]
