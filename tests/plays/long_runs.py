#!/usr/bin/env python3
"""Plays one long list of random commands on one repository with the built program, kills some of them, and compares with a model.

Usage: tests/plays/long_runs.py [--commands=N] [--seed=N] [PROGRAM]   (default: 200 commands, seed 1, crates/hookhost/out/hookhost)

The commands, the two hosts and the book of cached answers, with its limits, are those of tests/plays/process_plays.py. In the repository
of the host that caches, one command in some is killed, at a random moment or before a random call of the system. SQLite reads its folder
before any program opens it. It has to be the repository before the command or the one after it, which is that of the other host. If it is
the one before, the command is run again. A command that is killed passes through several books, as it looks up what it needs and puts
what its children answered. The book that it leaves is one of these. So the answers up to one of these puts are cached in their order, and
aren't asked for again.

At the end the store is read by sqlite3, and nothing has grown beyond what the repository holds. The file of the store is compared
with one into which the same rows were newly written, and so is the peak of the memory that a look takes on both. The folder holds
what it holds after a single command.
"""
import collections
import copy
import os
import random
import resource
import shutil
import signal
import sqlite3
import subprocess
import sys
import tempfile
import time
from contextlib import suppress
from pathlib import Path

OPTIONS = dict(word[2:].split("=") for word in sys.argv[1:] if word.startswith("--"))
WORDS = [word for word in sys.argv[1:] if not word.startswith("--")]
# What the plays read of their own command line is another.
sys.argv[1:] = []

sys.path.insert(0, os.path.abspath(f"{__file__}/../../shared"))
import process_plays
from host_books import book_of, children_in, model_of
from host_program import LOCK, STORE, Wrong, check, paths_in, write
from places import program
from process_plays import RUNNING, Command, Play, in_turn, line_of
from stops_repository import LOG, QUICK, adopt_orphans, left_in, wait_for_orphans

COMMANDS, SEED = int(OPTIONS.get("commands", 200)), int(OPTIONS.get("seed", 1))
PROGRAM = os.path.abspath(WORDS[0] if WORDS else program("hookhost"))
# One command in so many is killed: at a moment that is drawn, or before one of so many calls of a name, which strace counts.
KILLED = 4
CALLS = {"openat": 30, "pread64": 80, "pwrite64": 24, "fdatasync": 8, "close": 30, "statx": 60, "write": 6, "ftruncate": 1, "exit_group": 1}
# How often a hook has an argument of nearly the most bytes. Each is kept, and each command reads all that is kept.
LONG = 0.002
LAST_HOOKS = b"""repos:
- repo: local
  hooks:
  - {id: last, name: Last, language: system, entry: play_child -, always_run: true}
"""
# A file of a database has pages that aren't full. Those of a table that grew in the order of its keys are full. Those of one whose keys
# are digests are two thirds full, on average.
MOST_GROWTH, MOST_MORE_MEMORY = 1.6, 1.1


class LongPlay(Play):
    """Both hosts, of which the one that caches is killed now and then."""

    def __init__(self, top, seed):
        super().__init__(top, seed)
        # After a kill the last answer that was put is another one for each host.
        self.forgets = True
        # What the moments of kills are drawn by, apart from the commands, which are the same for any time that these take.
        self.chance, self.seconds = random.Random(f"kills {seed}"), 0.05
        # The book before a command that was killed, what it left of that, and the children that it started.
        self.killed = None

    def step(self, command):
        if len(self.commands) % 1000 == 999:
            print(f"long_runs: {len(self.commands) + 1} commands, {self.ends['killed']} killed", flush=True)
        if self.chance.randrange(KILLED) == 0 and not self.kill(command):
            return self.step_after_kill(command)
        begin = time.monotonic()
        super().step(command)
        # Both hosts have played it, and one was asked to forget before.
        self.seconds += ((time.monotonic() - begin) / 3 - self.seconds) / 20
        return None

    def kill(self, command):
        """Plays a command by the host that caches, and kills it. Answers whether it left the repository as it was."""
        host = self.remembering
        before = left_in(host.folder)
        status, out = self.play_and_kill(command)
        wait_for_orphans()
        after = left_in(host.folder)
        self.ends["killed" if status < 0 else "ended before its kill"] += 1
        self.note_book(command)
        is_done = after.repository != before.repository
        self.ends["killed, and done" if is_done else "killed, and as before"] += status < 0
        is_told = command.words[0] == "commit" and out.splitlines()[-1:] and out.splitlines()[-1].startswith(b"commit ")
        check(is_done or not is_told, f"a killed command says {out!r} and nothing is committed")
        return not is_done

    def play_and_kill(self, command):
        """The status and what was printed. A file lies in the folder only while it is staged."""
        host, path = self.remembering, command.words[-1]
        if command.held is not None:
            write(host.folder, path, command.held)
        skip = {} if command.skip is None else {"SKIP": command.skip}
        call, number, seconds = self.chance.choice(list(CALLS)), self.chance.random(), self.chance.uniform(0, 1.5)
        at_a_call = ["strace", "-qq", "-o", "/dev/null", "-e", f"trace={call}", "-e", f"inject={call}:signal=KILL:when={1 + int(number * CALLS[call])}"]
        by_call = self.chance.random() < 0.7
        program = subprocess.Popen([*at_a_call * by_call, PROGRAM, *in_turn(command)], cwd=host.folder, env=host.environment | skip,
                                   stdin=subprocess.DEVNULL, stdout=subprocess.PIPE, stderr=subprocess.DEVNULL)
        if not by_call:
            time.sleep(seconds * self.seconds)
            program.send_signal(signal.SIGKILL)
        # A child may have the pipe's other end still, but not for long.
        out, _ = program.communicate(timeout=60)
        if command.held is not None:
            os.remove(os.path.join(host.folder, path))
            with suppress(OSError):
                os.removedirs(os.path.dirname(os.path.join(host.folder, path)))
        return program.returncode, out

    def note_book(self, command):
        """Takes over the book that a killed command left. If it runs hooks, what it needs is reported by the other host,
        later."""
        host, before, (word, *words) = self.remembering, self.remembering.book, command.words
        found, children = book_left(host.folder), host.children(self.staged)
        after = copy.deepcopy(before)
        if word == "forget":
            after.forget()
        elif word == "memory" and words:
            after.keep_to(int(words[0].partition("=")[2]))
        if word in RUNNING:
            self.killed = before, found, children
        else:
            check(found in (book_of(before), book_of(after)) and not children,
                  f"a killed {command.words!r} leaves {found!r:.1000}")
        host.book = model_of(found, self.clock)

    def needed(self, is_fresh):
        """The children that a command needs; and that one which was killed before left a book that these lead to."""
        children = super().needed(is_fresh)
        if self.killed:
            book, found, started = self.killed
            passed, starts = passed_through(book, children, is_fresh)
            check(started == starts[:len(started)],
                  f"a killed command starts {started!r:.1000}, wanted {starts!r:.1000}")
            check(found in passed, f"a killed command leaves {found!r:.1000}, wanted one of {passed!r:.3000}")
            self.ends["killed between two answers"] += found not in (passed[0], passed[-1])
            self.killed = None
        return children

    def step_after_kill(self, command):
        """If the killed command was done, the other host does it alone."""
        self.commands.append(command)
        if command.words[0] in RUNNING:
            self.forgetting.forget()
        self.forgetting.play(command)
        self.needed("--fresh" in command.words)
        self.look()
        self.check_shown()


def book_left(work):
    """The book that the two files of a store hold."""
    with tempfile.TemporaryDirectory(dir=QUICK) as folder:
        for name in (STORE, LOG):
            with suppress(FileNotFoundError):
                shutil.copyfile(os.path.join(work, name), os.path.join(folder, os.path.basename(name)))
        database = sqlite3.connect(os.path.join(folder, os.path.basename(STORE)))
        try:
            return children_in(database)
        finally:
            database.close()


def passed_through(book, children, is_fresh):
    """The books that a command passes through which needs these children, and which of these it starts."""
    book, starts = copy.deepcopy(book), []
    passed = [book_of(book)]
    for child in children:
        is_found = book.find(child.key) is not None
        passed.append(book_of(book))
        if is_found and not is_fresh:
            continue
        starts.append(child)
        if child.ending == "answers":
            book.put(child.key, 0)
            passed.append(book_of(book))
    return passed, starts


# ---- what has grown

def rewritten(folder, work):
    """A repository with the same rows, written again."""
    copy = os.path.join(folder, "rewritten")
    os.makedirs(os.path.join(copy, ".hookhost"))
    done = subprocess.run(["sqlite3", "-batch", os.path.join(work, STORE), f"VACUUM INTO '{os.path.join(copy, STORE)}'"], capture_output=True, timeout=600)
    check((done.returncode, done.stderr) == (0, b""), f"sqlite3 says {done.stderr!r}")
    return copy


def memory_of(work, *words):
    """The most KiB of memory that the program takes."""
    program = subprocess.Popen([PROGRAM, *words], cwd=work, stdin=subprocess.DEVNULL, stdout=subprocess.DEVNULL)
    _, status, used = os.wait4(program.pid, 0)
    program.returncode = os.waitstatus_to_exitcode(status)
    check(program.returncode == 0, f"{words!r} ends with {program.returncode}")
    return used.ru_maxrss


def check_growth(folder, play):
    work = play.remembering.folder
    # The next run removes what a killed one has left.
    for command in (Command(("add", process_plays.CONFIGURATION), LAST_HOOKS), Command(("run", "--all-files", "--fresh"))):
        Play.step(play, command)
    left = {os.path.basename(name) for name in (STORE, LOG, LOCK)}
    found = set(os.listdir(os.path.join(work, ".hookhost")))
    check(left <= found <= left | {"scratch"}, f"in its folder lie {sorted(found)!r}")
    scratch = os.path.join(work, ".hookhost", "scratch")
    files = [path for path in paths_in(scratch) if os.path.isfile(os.path.join(scratch, path))]
    check(len(files) <= len(play.staged), f"the folder of children has {len(files)} files of {len(play.staged)} staged ones")
    check(os.path.getsize(os.path.join(work, LOG)) <= 262_144, "the log is longer than it may stay")
    ask = "PRAGMA integrity_check; PRAGMA foreign_key_check"
    whole = subprocess.run(["sqlite3", "-batch", os.path.join(work, STORE), ask], capture_output=True, timeout=600)
    check((whole.stdout, whole.stderr) == (b"ok\n", b""), f"sqlite3 says {whole!r}")
    copy = rewritten(folder, work)
    sizes = [os.path.getsize(os.path.join(place, STORE)) for place in (work, copy)]
    memory = [memory_of(place, "status") for place in (work, copy)]
    commits = len(left_in(work).repository[2])
    print(f"long_runs: {commits} commits, {len(play.remembering.book)} answers: a store of {sizes[0]} bytes, written anew {sizes[1]}; "
          f"memory of a status {memory[0]} KiB, on that {memory[1]}")
    check(sizes[0] <= MOST_GROWTH * sizes[1] + 65_536, f"the store has {sizes[0]} bytes, and its rows need {sizes[1]}")
    check(memory[0] <= MOST_MORE_MEMORY * memory[1] + 2048, f"a status takes {memory[0]} KiB, and where the rows were written anew {memory[1]}")


def main():
    begin = time.monotonic()
    adopt_orphans()
    process_plays.PROGRAM, process_plays.COMMANDS, process_plays.LONG = PROGRAM, COMMANDS, LONG
    with tempfile.TemporaryDirectory(dir=QUICK) as top:
        subprocess.run(["cc", "-O1", "-o", os.path.join(top, "play_child"), str(Path(__file__).resolve().parent / "play_child.c")], check=True)
        os.environ["PATH"] = top + os.pathsep + os.environ["PATH"]
        # With an odd seed no child has a clock: what was cached by a killed command is what would be answered again.
        play, wrong = LongPlay(top, 2 * SEED - 1), None
        try:
            play.run()
            check_growth(top, play)
        except (Wrong, subprocess.TimeoutExpired) as error:
            commands = "".join(map(line_of, play.commands[-40:]))
            wrong = f"--commands={COMMANDS} --seed={SEED} differs at its command {len(play.commands)}: {error}\n{commands}"
    if wrong:
        print(f"long_runs: {wrong}", end="")
    ends = collections.Counter(play.ends)
    took = sum(resource.getrusage(who).ru_utime + resource.getrusage(who).ru_stime for who in (resource.RUSAGE_SELF, resource.RUSAGE_CHILDREN))
    print("long_runs: " + ", ".join(f"{name}: {count}" for name, count in sorted(ends.items())))
    print(f"long_runs: {ends['killed']} commands killed, {took:.0f} processor seconds, {time.monotonic() - begin:.0f} s")
    print(f"long_runs: {len(play.commands) - bool(wrong)} passed, {int(bool(wrong))} failed")
    sys.exit(1 if wrong or not ends["killed"] else 0)


main()
