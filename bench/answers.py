#!/usr/bin/env python3
"""Times cached results in real files: runs, commits, puts and the opening of a store that has them, and prints ratios.

Usage: bench/answers.py [--small] [--part=PART].. [PROGRAM [STORE_TRIAL]]   (default: the built programs)

  --small       few files and answers and few turns, to see that all of it runs: the figures say nothing
  --part=PART   only this part, which is runs, edited, single, puts, openings or commits

Runs: ten hooks run `true` over all files, in a repository after one commit. If nothing is cached, they are timed with a scratch
folder that is still to be written and with one that an earlier run left; and once if all is cached. They are compared with opening
the store, by `memory`, which does nothing else; with `cat` of the same files; and with pre-commit and the same hooks in a
repository of Git, which has to report the same. Edited: a slow hook with `x_per_file`, 5 ms a file, is timed with one edited file,
for which one child has to be started. It is compared with pre-commit, which runs it over all files. Single: a run that starts
nothing, of a hook whose results are cached for each file. Each look-up is a use, since another answer is in front, and a
transaction of its own. Puts: a put is compared with a staging, as calls on an open store and as what each adds to a command of its
own. Openings: opening up to 100,000 answers is compared with reading the same tables with the kit's database and hashing their
contents, by store_trial. Commits: one with cached results is compared with one without hooks.

Each time is wall time in milliseconds, the least of several runs in which all that is compared takes turns. The load of the last
minute is printed before each part.
"""
import os
import shutil
import subprocess
import sys
import tempfile
from collections import defaultdict

HERE = os.path.dirname(os.path.abspath(__file__))
sys.path[:1] = [HERE, os.path.join(HERE, "..", "tests", "shared")]
from timing import asked_parts, in_folder, is_asked, program, show

SMALL = is_asked("--small")
PARTS = asked_parts(["runs", "edited", "single", "puts", "openings", "commits"])
PROGRAM = program()
# What is left of the words names store_trial, which store.py reads.
del sys.argv[1:2]
from planting import FIRST_LIMIT, MOST_ANSWERS, answer_to, plant
from store import FILES, SIZE, Play, contents_of, make_history, played

FOLDER, CONFIGURATION, NEW = ".hookhost", ".pre-commit-config.yaml", "new.txt"
STORE, LOG = f"{FOLDER}/store.db", f"{FOLDER}/store.db-wal"
OPENING, RUN, RUN_ON_ALL = [PROGRAM, "memory"], [PROGRAM, "run"], [PROGRAM, "run", "--all-files"]
COMMIT = [PROGRAM, "commit", "-m", "m"]
PRE_COMMIT = ["pre-commit", "run", "--all-files"]
RUNS, COMMANDS, CALLS, OPENINGS, SLOW_RUNS = (2, 3, 10, 2, 1) if SMALL else (9, 40, 200, 9, 3)
HOOKS, PUTS = 10, 20
# How many files are in a run, in one with an edited file, and in one with results cached one by one. How many are staged for puts and
# for commits. How many answers for each file an opened store has.
RUN_OVER = (100,) if SMALL else (1000, 10000)
EDITED_AMONG, ONE_BY_ONE = (50, 200) if SMALL else (1000, 10000)
STAGED = (10, 100) if SMALL else (10, 1000, 10000)
TO_EACH_FILE = (1, 2) if SMALL else (5, 10, 100)
# The most that a cached run should take: as a part of opening the store and `cat` of the files once, and of pre-commit's time, by the
# number of files.
AIM_BESIDE_CAT, AIM_BESIDE_PRE_COMMIT = 1, {1000: 0.2, 10000: 0.6}
AIM_PUT, AIM_OPENING, AIM_COMMIT = 1.5, 1.3, 1.5
# The most that a run over one edited file should take, as a part of opening the store and of pre-commit's time. And how many times
# `cat` of the files a run that looks all of them up one by one may take, without opening.
AIM_EDITED, AIM_EDITED_BESIDE_PRE_COMMIT, AIM_ONE_BY_ONE = 3, 0.02, 3
# The commands and the states of the files in a store whose answers saw all of them.
WIDE_COMMANDS, WIDE_STATES = 10, 10


# ---- repositories

def hook(at, entry, *arguments, more=""):
    """A hook of the stage `pre-commit`, which pre-commit starts once over all files, as hookhost does without other keys."""
    words = ", ".join(f'"{word}"' for word in arguments)
    command = f"language: system, entry: {entry}, args: [{words}], require_serial: true"
    return f"  - {{id: hook{at}, name: Hook {at}, {command}, stages: [commit]{more}}}\n"


def hooks_of_true(count):
    """Hooks that each have a word of their own: of those with the same words only the first would start a child."""
    return [hook(at, '"true"', f"hook{at}") for at in range(count)]


def configuration(hooks):
    return "repos:\n- repo: local\n  hooks:" + ("\n" + "".join(hooks) if hooks else " []\n")


def write(path, text):
    os.makedirs(os.path.dirname(path) or ".", exist_ok=True)
    with open(path, "w", encoding="utf-8") as file:
        file.write(text)


def do(*words):
    done = subprocess.run(words, stdin=subprocess.DEVNULL, stdout=subprocess.PIPE, stderr=subprocess.PIPE, text=True)
    if done.returncode:
        sys.exit(f"bench/answers.py: {words!r}: {done.stdout}{done.stderr}")
    return done.stdout


class Repository:
    """A repository of hookhost with so many staged files after one commit, which can be put back to how it was made."""

    def __init__(self, folder, files, hooks):
        self.folder, self.kept = folder, folder + ".kept"
        os.mkdir(folder)
        os.chdir(folder)
        write(CONFIGURATION, configuration(hooks))
        do(PROGRAM, "init")
        do(PROGRAM, "add", CONFIGURATION)
        played(STORE, ["open", f"stage-many {files} {SIZE} 0", "close"])
        # The last command is the program's own, which leaves its log as those find it that are timed.
        do(PROGRAM, "commit", "--no-verify", "-m", "m")
        shutil.copytree(FOLDER, self.kept)

    def restore(self):
        """The store as it was made, which the disk has: what waits to be written would be waited for by what is timed."""
        for path in (STORE, LOG):
            to = os.path.join(self.folder, path)
            shutil.copyfile(os.path.join(self.kept, os.path.basename(path)), to)
            with open(to, "rb") as file:
                os.fsync(file.fileno())

    def drop_scratch(self):
        shutil.rmtree(os.path.join(self.folder, FOLDER, "scratch"), ignore_errors=True)

    def time(self, words):
        return in_folder(self.folder, words)

    def look_for_answers(self, wanted):
        """Checks that so many answers are cached: otherwise something else was timed."""
        os.chdir(self.folder)
        said = do(PROGRAM, "memory")
        if said != f"remembered: {wanted}\n":
            sys.exit(f"bench/answers.py: {said!r}, wanted are {wanted}")

    def add_new(self, number):
        """Stages a file that no round before had so, and answers what that takes."""
        write(os.path.join(self.folder, NEW), f"other {number} ".ljust(SIZE, "."))
        return self.time([PROGRAM, "add", NEW])


def make_git(folder, files, hooks):
    """The same files in a repository of Git, after one commit."""
    os.mkdir(folder)
    os.chdir(folder)
    do("git", "init", "--quiet", ".")
    write(CONFIGURATION, configuration(hooks))
    for at in range(files):
        write(f"many/{at:06}", contents_of(SIZE, 0, at).decode())
    do("git", "add", "--all")
    do("git", "commit", "--quiet", "--message", "m")


def least_of(rounds):
    """The least of what each round took, by what was timed."""
    times = defaultdict(list)
    for each in rounds:
        for what, took in each.items():
            times[what].append(took)
    return {what: min(each) for what, each in times.items()}


def tell_load(what):
    print(f"{what}, at a load of {os.getloadavg()[0]:.1f}", flush=True)


# ---- runs on all files

def one_round_of_runs(ours, git, names):
    """What the runs of one round take, from a store without answers on, and what the compared programs take."""
    times = {}
    ours.restore()
    times["opening without answers"] = ours.time(OPENING)
    ours.drop_scratch()
    times["first of all"] = ours.time(RUN_ON_ALL)
    ours.restore()
    times["first"] = ours.time(RUN_ON_ALL)
    times["remembered"] = ours.time(RUN_ON_ALL)
    times["opening"] = ours.time(OPENING)
    times["cat"] = in_folder(git, ["xargs", "-0", "/bin/cat"], names)
    times["pre-commit"] = in_folder(git, PRE_COMMIT)
    return times


def compare_reports(ours, git):
    """Both programs have to say the same of the same files: otherwise they didn't do the same."""
    os.chdir(git)
    theirs = do(*PRE_COMMIT, "--color", "never")
    os.chdir(ours.folder)
    if do(*RUN_ON_ALL) != theirs:
        sys.exit("bench/answers.py: pre-commit reports something else")


def time_runs(folder, files):
    tell_load(f"{HOOKS} hooks over {files} files of {SIZE} bytes")
    hooks = hooks_of_true(HOOKS)
    ours = Repository(os.path.join(folder, f"runs{files}"), files, hooks)
    git, names = os.path.join(folder, f"git{files}"), os.path.join(folder, f"names{files}")
    make_git(git, files, hooks)
    write(names, "\0".join([CONFIGURATION, *(f"many/{at:06}" for at in range(files))]))
    compare_reports(ours, git)
    times = least_of(one_round_of_runs(ours, git, names) for _ in range(RUNS))
    ours.look_for_answers(HOOKS)
    for what, run in (("the first run, which writes the folder", "first of all"), ("a first run, the folder written", "first")):
        show(f"{what}, {files} files", times[run], times["pre-commit"], "pre-commit")
    aim = AIM_BESIDE_PRE_COMMIT.get(files)
    show(f"a remembered run, {files} files", times["remembered"], times["pre-commit"], "pre-commit", aim)
    show("", times["remembered"], times["opening"] + times["cat"], "opening and cat", AIM_BESIDE_CAT)
    more = times["remembered"] - times["opening"]
    print(f"{'':44} opening {times['opening']:.2f} ms, without answers {times['opening without answers']:.2f} ms; "
          f"beside it {more:.2f} ms, cat {times['cat']:.2f} ms", flush=True)


# ---- one put

def calls_of_put(at):
    """A staging, the put of what a child answered that saw that file, and that of one which changed it and wrote something."""
    contents, changed = (f"{at}".ljust(SIZE, letter) for letter in "xy")
    return {
        "staging": f"stage plain {NEW} {contents}",
        "put": f"remember true {NEW} | {NEW}={contents} | | 0",
        "put of a change": f"remember sed {NEW} | {NEW}={contents} | {NEW}={changed} | 1 | changed.{at}",
    }


def time_calls(folder, count):
    """Calls on a store that is open, with so many files staged."""
    path = os.path.join(folder, f"calls{count}.db")
    played(path, ["create", f"stage-many {count} {SIZE} 0", "close"])
    play = Play(path)
    play.ask("open")
    times = least_of({what: play.ask(line) for what, line in calls_of_put(at).items()} for at in range(CALLS))
    play.end()
    show(f"a put, {count} files staged", times["put"], times["staging"], "a staging", AIM_PUT)
    show("one with a change and an output", times["put of a change"], times["staging"], "a staging", AIM_PUT)


def one_round_of_commands(answered, faulted, number):
    """A run that puts what its children answer, and one whose children are ended by a signal, which is never remembered."""
    times = {"add": answered.add_new(number)}
    faulted.add_new(number)
    times["opening"] = answered.time(OPENING)
    times["putting run"] = answered.time(RUN)
    times["faulted run"] = faulted.time(RUN)
    return times


def hooks_of_signal(signal):
    """Hooks whose children send themselves a signal, of which 0 does nothing."""
    return [hook(at, "sh -c 'kill -$0 $$'", signal, f"hook{at}") for at in range(PUTS)]


def time_commands(folder):
    """What a put adds to a run, and what a staging adds to opening the store. There are few files, since those of a child that
    a signal ended aren't read back."""
    answered, faulted = (Repository(os.path.join(folder, f"signal{signal}"), 1, hooks_of_signal(signal)) for signal in "09")
    times = least_of(one_round_of_commands(answered, faulted, number) for number in range(COMMANDS))
    answered.look_for_answers(COMMANDS * PUTS)
    faulted.look_for_answers(0)
    put, staging = (times["putting run"] - times["faulted run"]) / PUTS, times["add"] - times["opening"]
    show(f"each of the {PUTS} puts of a run", put, staging, "what `add` adds to opening", AIM_PUT)
    print(f"{'':44} " + ", ".join(f"{what} {took:.2f} ms" for what, took in times.items()), flush=True)


def time_puts(folder):
    tell_load("puts")
    for count in STAGED:
        time_calls(folder, count)
    time_commands(folder)


# ---- opening a store with answers

def answer_of(which, files):
    """What a command answered that got these files."""
    return answer_to([f"tool{which}", *(path for path, _, _ in files)], files)


def answers_of_each(commands):
    """An answer of each command to each file of a history, which it saw alone."""
    files = [(f"many/{at:06}", 0, contents_of(SIZE, 1, at)) for at in range(FILES)]
    return [answer_of(which, [file]) for which in range(commands) for file in files]


def files_of_state(state):
    """The files of a history, of which one has other contents than in other states."""
    return [(f"many/{at:06}", 0, contents_of(SIZE, 2 if at == state else 1, at)) for at in range(FILES)]


def answers_of_all():
    """The answers of some commands that saw all files of a history, in some of its states."""
    states = [files_of_state(state) for state in range(WIDE_STATES)]
    return [answer_of(which, files) for which in range(WIDE_COMMANDS) for files in states]


def time_opening(folder, what, answers, aim=None):
    path = os.path.join(folder, f"opening{len(answers)}.db")
    make_history(path, 1, True)
    plant(path, answers, MOST_ANSWERS)
    lines = ("open", "connect", "read-tables")
    times = least_of({line: played(path, [line])[0][0] for line in lines} for _ in range(OPENINGS))
    show(f"opening {what}", times["open"], times["read-tables"], "opened, read and hashed", aim)
    size, most = os.path.getsize(path) / 1e6, {line: played(path, [line])[1] for line in lines}
    print(f"{'':44} {times['connect']:9.2f} ms of it to open the database alone; {size:.1f} MB of file; peak memory "
          f"{most['open']:.1f} MB, {most['open'] / most['read-tables']:.2f} times that of reading", flush=True)


def time_openings(folder):
    tell_load(f"opening a store of one commit with {FILES} files")
    time_opening(folder, "no answers", [])
    for each in TO_EACH_FILE:
        aim = AIM_OPENING if each >= 10 else None
        time_opening(folder, f"{each * FILES} answers to a file each", answers_of_each(each), aim)
    time_opening(folder, f"{WIDE_COMMANDS * WIDE_STATES} answers to {FILES} files each", answers_of_all())


# ---- commits

def time_commit(repository, hooks, runs_before, number):
    """A commit of one changed file, whose hooks have run on it before or not."""
    repository.restore()
    repository.add_new(number)
    if runs_before:
        repository.time(RUN)
        repository.look_for_answers(hooks)
    took = repository.time(COMMIT)
    repository.look_for_answers(hooks)
    return took


def time_commits(folder, files):
    tell_load(f"commits of one file, {files} files staged after one commit")
    made = [Repository(os.path.join(folder, f"commits{hooks}.{files}"), files, hooks_of_true(hooks)) for hooks in (0, 2)]
    ways = {"none": (made[0], 0, False), "remembered": (made[1], 2, True), "anew": (made[1], 2, False)}
    times = least_of({what: time_commit(*way, number) for what, way in ways.items()} for number in range(RUNS))
    show(f"two remembered hooks, {files} files", times["remembered"], times["none"], "no hooks", AIM_COMMIT)
    show("two hooks of which nothing is remembered", times["anew"], times["none"], "no hooks")


# ---- a child for each file

PER_FILE = ", x_per_file: true"


def slow(starts):
    """A command of 5 ms a file, which notes in a file outside that it was started."""
    return f"sh -c 'echo >> {starts}; for file; do sleep 0.005; done' slow"


def look_for_starts(starts, wanted):
    """Looks that so many children were started."""
    with open(starts, "rb") as file:
        found = len(file.read())
    if found != wanted:
        sys.exit(f"bench/answers.py: {found} children were started, wanted are {wanted}")


def edit_one(repository, number):
    write(os.path.join(repository.folder, "many/000000"), f"edited {number} ".ljust(SIZE, "."))
    repository.time([PROGRAM, "add", "many/000000"])
    return {"run": repository.time(RUN_ON_ALL), "opening": repository.time(OPENING)}


def time_edited_file(folder, files):
    """A slow hook that was run over each of the files, one of which was edited: one child is started, and no other."""
    tell_load(f"a hook of 5 ms a file, over {files} files")
    starts, others = (os.path.join(folder, name) for name in ("starts", "starts.git"))
    ours = Repository(os.path.join(folder, "slow"), files, [hook(0, slow(starts), more=PER_FILE)])
    git = os.path.join(folder, "git.slow")
    make_git(git, files, [hook(0, slow(others))])
    first = ours.time(RUN_ON_ALL)
    # The configuration is one of the files.
    ours.look_for_answers(files + 1)
    look_for_starts(starts, files + 1)
    times = least_of(edit_one(ours, number) for number in range(RUNS))
    ours.look_for_answers(files + 1 + RUNS)
    look_for_starts(starts, files + 1 + RUNS)
    theirs = min(in_folder(git, PRE_COMMIT) for _ in range(SLOW_RUNS))
    show(f"one edited file of {files}", times["run"], times["opening"], "opening", AIM_EDITED)
    show("", times["run"], theirs, "pre-commit", AIM_EDITED_BESIDE_PRE_COMMIT)
    use = (times["run"] - times["opening"]) / files
    print(f"{'':44} {use:.3f} ms for each file beside opening; the first run, with a child for each, {first:.0f} ms", flush=True)


def time_one_by_one(folder, files):
    """A run that starts nothing, of a hook with a cached result for each file: as many as a new store keeps."""
    tell_load(f"a hook remembered of each of {files} files")
    only = PER_FILE + ", files: ^many/"
    ours = Repository(os.path.join(folder, "single"), files, [hook(0, '"true"', "hook0", more=only)])
    names = os.path.join(folder, "names.single")
    held = [(f"many/{at:06}", 0, contents_of(SIZE, 0, at)) for at in range(files)]
    for path, _, contents in held:
        write(path, contents.decode())
    write(names, "\0".join(path for path, _, _ in held))
    plant(STORE, [answer_to(["true", "hook0", file[0]], [file]) for file in held], FIRST_LIMIT)
    ways = {"run": (RUN_ON_ALL,), "opening": (OPENING,), "cat": (["xargs", "-0", "/bin/cat"], names)}
    times = least_of({what: in_folder(ours.folder, *way) for what, way in ways.items()} for _ in range(RUNS))
    ours.look_for_answers(files)
    if os.path.exists(os.path.join(FOLDER, "scratch")):
        sys.exit("bench/answers.py: a child was started")
    more = times["run"] - times["opening"]
    show(f"{files} files, remembered one by one", more, times["cat"], "cat, beside opening", AIM_ONE_BY_ONE)
    print(f"{'':44} the run {times['run']:.2f} ms, opening {times['opening']:.2f} ms; {more / files:.3f} ms for each file", flush=True)


def each_of(time_one, counts):
    """A part that times one thing at some sizes."""
    return lambda folder: [time_one(folder, count) for count in counts]


def main():
    parts = {"runs": each_of(time_runs, RUN_OVER), "edited": each_of(time_edited_file, [EDITED_AMONG]),
             "single": each_of(time_one_by_one, [ONE_BY_ONE]), "puts": time_puts, "openings": time_openings,
             "commits": each_of(time_commits, STAGED)}
    for who in ("AUTHOR", "COMMITTER"):
        os.environ.update({f"GIT_{who}_NAME": "bench", f"GIT_{who}_EMAIL": "bench@localhost"})
    with tempfile.TemporaryDirectory() as folder:
        os.environ["PRE_COMMIT_HOME"] = os.path.join(folder, "pre-commit")
        for part in PARTS:
            parts[part](folder)
        os.chdir("/")


main()
