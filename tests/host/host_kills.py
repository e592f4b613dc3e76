"""Cases of tests/host/host.py: commands that are killed at random moments, each on a copy of a repository. After it the repository is the
one before the command or the one after it."""
import os
import random
import shutil
import signal
import subprocess
import sys
import time

from host_program import LOCK, PROGRAM, STORE, STORE_TRIAL, check, do, paths_in, play, refuses, run, write
from host_state import HOOKS, book_in, filled, found_alone, found_first, state
from sample import IS_SAMPLED, tally

ALL_KILLS, SAMPLED_KILLS = 30, 12
KILLS = int(sys.argv[1]) if len(sys.argv) > 1 else SAMPLED_KILLS if IS_SAMPLED else ALL_KILLS
# A hook with a child for each file.
PER_FILE = b"""repos:
- repo: local
  hooks:
  - {id: look, name: Look, language: system, entry: 'true', files: '[.]txt$', x_per_file: true}
"""



class Killed:
    """Commands that are killed at random moments, each on a copy of a folder."""

    def __init__(self, folder, base):
        self.folder, self.base, self.chance = folder, base, random.Random(2)
        self.work, self.copies = os.path.join(folder, "work"), 0

    def copy(self):
        """A new copy in place of the last. A child of a killed command may still be at work in that, so it has another name."""
        shutil.rmtree(self.work, ignore_errors=True)
        self.copies += 1
        self.work = os.path.join(self.folder, f"work{self.copies}")
        return shutil.copytree(self.base, self.work)

    def play(self, words, given, seconds):
        """Plays a command on a copy, and kills it after so many seconds. Answers the copy, whether the command ended by itself, and what
        it printed. If it does, its exit status is 0, or 1 if a hook failed."""
        work = self.copy()
        child = subprocess.Popen(words, cwd=work, stdin=subprocess.PIPE, stdout=subprocess.PIPE, stderr=subprocess.PIPE)
        try:
            child.communicate(given, timeout=seconds)
        except subprocess.TimeoutExpired:
            child.send_signal(signal.SIGKILL)
        out, err = child.communicate()
        check(child.returncode in (0, 1, -signal.SIGKILL), f"{words!r} ends with {child.returncode} and says {err!r}")
        return work, child.returncode >= 0, out

    def seconds(self, words, given):
        start = time.monotonic()
        self.play(words, given, None)
        return time.monotonic() - start

    def each(self, words, given=b"", kills=KILLS):
        """The answers of `play` for each kill, up to the time that the command takes. That is the least of three times, so that a busy
        moment doesn't put all kills after its end."""
        whole, in_time = min(self.seconds(words, given) for _ in range(3)), 0
        for _ in range(kills):
            work, is_ended, out = self.play(words, given, self.chance.uniform(0, whole))
            in_time += not is_ended
            yield work, is_ended, out
        tally(kills, kills * ALL_KILLS // KILLS)
        check(in_time > 0, f"no kill came before the end of {words!r}")
        print(f"kills of {' '.join(words[1:])}: {in_time} of {kills} came before its end")


def check_kills(killed, words, wanted, look=lambda work: None):
    """A command that changes the repository and ends with the wanted status leaves it, killed, as it was before or after.
    What a command shows then, which only reads, is in the store's file alone. Then this looks at the folder."""
    before = state(killed.copy())
    work = killed.copy()
    status, _, err = run(work, *words)
    check((status, err) == (wanted, b""), f"{words!r} ends with {status} and says {err!r}")
    after = state(work)
    check(before != after, f"{words!r} changes nothing")
    for at, (work, is_ended, _) in enumerate(killed.each([PROGRAM, *words])):
        do(work, ("status", "log", "fixes", "memory")[at % 4])
        alone = found_alone(work)
        found = state(work)
        check(alone == found[1:], f"after a kill of {words!r} and a look the store's file alone has {alone!r:.1000}, and with its log {found!r:.1000}")
        check(found == after or (found == before and not is_ended), f"after a kill of {words!r} it shows {found!r:.1000}")
        look(work)


def is_left_whole_by_kills_of_init(folder):
    """After a killed init the file of the store is a store, or isn't there, and then the next init makes it."""
    base = os.path.join(folder, "base")
    os.mkdir(base)
    found = {True: 0, False: 0}
    for work, is_ended, _ in Killed(folder, base).each([PROGRAM, "init"], kills=10 * KILLS):
        is_there = os.path.lexists(os.path.join(work, STORE))
        check(is_there or not is_ended, "an init that was done left no store")
        found[is_there] += 1
        if is_there:
            refuses(work, ["init"], f"cannot use {STORE}")
        else:
            refuses(work, ["status"], f"cannot use {STORE}")
            do(work, "init")
            check(paths_in(work) == [".hookhost", LOCK, STORE, STORE + "-wal"], f"an init behind a killed one leaves {paths_in(work)!r}")
        check(do(work, "status") == b"" and book_in(work) == (10_000, []), "it is no new store")
    check(found[False] > 0, "no kill came before the store was there")


def is_left_whole_by_kills_of_add_rm_and_accept(folder):
    killed = Killed(folder, filled(folder))
    for words in (["add", "b"], ["add", "new"], ["rm", "a"], ["accept"]):
        check_kills(killed, words, 0)


def is_left_whole_by_kills_of_many_files_at_once(folder):
    """All of them, or none, at any moment of the kill."""
    base, chance = filled(folder), random.Random(5)
    for at in range(300):
        write(os.path.join(base, "many", str(at % 10)), f"{at:03}", chance.randbytes(2000))
    killed = Killed(folder, base)
    check_kills(killed, ["add", "many", "b", "a"], 0)
    do(base, "add", "many")
    apart = os.path.join(folder, "apart")
    os.mkdir(apart)
    check_kills(Killed(apart, base), ["rm", "many", "a"], 0)


def is_left_whole_by_kills_of_commits(folder):
    """In a play that is killed, the commits that were answered are kept, and perhaps one more, each with all its files."""
    count = 20
    given = "open\n" + "".join(f"stage plain x{at:02} {at}\ncommit m{at}\\n\n" for at in range(1, count + 1))
    for work, _, out in Killed(folder, filled(folder)).each([STORE_TRIAL, STORE], given.encode()):
        answered = sum(line.startswith(b"ok\t") for line in out.splitlines(keepends=True) if line.endswith(b"\n"))
        lines = do(work, "log").decode().splitlines()
        made = len(lines) - 1
        check(lines == [f"{at + 1} m{at}" for at in range(made, 0, -1)] + ["1 first"], f"after a kill the log is {lines!r}")
        check(made in (answered, answered + 1), f"{answered} commits were answered, and there are {made}")
        files = ["a", "b", "dir/c", *(f"x{at:02}" for at in range(1, made + 1))]
        check(do(work, "show", str(made + 1)).decode().splitlines()[2:] == files, f"commit {made + 1} hasn't its files")
        state(work)


def is_left_whole_by_kills_of_runs_and_commits(folder):
    """A run that sets fixes, a commit that is made, and one that a hook refuses and whose fixes are set."""
    base = filled(folder)
    killed = Killed(folder, base)
    for name, held in ((".pre-commit-config.yaml", HOOKS), ("x", b"x" * 100000)):
        write(base, name, held)
        do(base, "add", name)
    play(base, ["fix a 2", "set"])
    words = ["run", "--jobs=1", "--hook-stage", "manual"]
    wanted = run(killed.copy(), *words)
    check_kills(killed, words, 1, lambda work: check(run(work, *words) == wanted, "after a kill a run says something else"))
    check_kills(killed, ["commit", "--jobs=1", "-m", "second"], 0)
    write(base, "bad", b"x" * 100000)
    do(base, "add", "bad")
    play(base, ["fix a 2", "set"])
    check_kills(killed, ["commit", "--jobs=1", "-m", "refused"], 1)


def is_left_whole_by_kills_of_forget(folder):
    """After a kill all answers are cached, or none as soon as anything was printed, and the repository is as it was."""
    base = filled(folder)
    write(base, ".pre-commit-config.yaml", HOOKS)
    do(base, "add", ".pre-commit-config.yaml")
    check(run(base, "run", "--all-files")[0] == 0 and do(base, "memory") == b"remembered: 1\n", "nothing is remembered")
    before = state(base)
    for work, is_ended, out in Killed(folder, base).each([PROGRAM, "forget"]):
        found = do(work, "memory")
        # A kill may come between two writes of one line.
        check(b"forgotten: 1\n".startswith(out) and state(work) == before, f"a killed forget says {out!r}, and leaves {state(work)!r:.1000}")
        is_kept = found == b"remembered: 1\n" and not is_ended and out == b""
        check(found == b"remembered: 0\n" or is_kept, f"after a kill it says {found!r}")


def is_left_whole_by_kills_of_a_limit(folder):
    """After a kill as many answers are cached as before, or as the limit leaves. Those are the last ones, and then the limit is set
    too."""
    base = os.path.join(folder, "base")
    os.mkdir(base)
    do(base, "init")
    write(base, ".pre-commit-config.yaml", PER_FILE)
    for at in range(40):
        write(base, f"{at:02}.txt", b"%d\n" % at)
    do(base, "add", ".")
    said, before, files = run(base, "run", "--all-files"), book_in(base), state(base)
    check(said[0] == 0 and len(before.keys) == 40,
          f"a run says {said!r:.500}, and {len(before.keys)} answers are remembered")
    after = (3, before.keys[:3])
    for work, is_ended, out in Killed(folder, base).each([PROGRAM, "memory", "--limit=3"]):
        found = found_first(work, book_in)
        check(found == after or found == before and not is_ended and out == b"",
              f"after a kill that says {out!r} the book is {found!r:.1000}")
        check(b"remembered: 3\n".startswith(out) and state(work) == files,
              f"a killed limit says {out!r}, or changes the repository")
        check(do(work, "memory") == b"remembered: %d\n" % len(found.keys) and book_in(work) == found,
              "the program finds another book")


CASES = [is_left_whole_by_kills_of_init, is_left_whole_by_kills_of_add_rm_and_accept,
         is_left_whole_by_kills_of_many_files_at_once, is_left_whole_by_kills_of_commits,
         is_left_whole_by_kills_of_runs_and_commits, is_left_whole_by_kills_of_forget,
         is_left_whole_by_kills_of_a_limit]
