"""Cases of tests/host/host.py: commands of hooks that run at the same time, by `--jobs`.

Each command notes in a file outside of the staged ones when it begins and when it ends. What they have to wait for is in that folder
too, so each case is the same each time. Random plays are in host_jobs_plays.py.
"""
import os
import signal
import subprocess
import time
from contextlib import suppress
from pathlib import Path

from host_program import PROGRAM, check, do, line, run, write

# Each command is a hook's script with the names as "$@". It notes that it begins and ends, and which names it gets. With `meet` it waits
# until as many as $MEETING have begun, but only for so many hundredths of a second.
STEPS = """#!/bin/sh
ID=$1; shift; NAMES=$*
note() { echo "$1 $ID $NAMES" >> $TOP/log; }
meet() {
    : > $TOP/here/$$; left=$LIMIT
    while :; do
        set -- $TOP/here/*
        [ $# -ge $MEETING ] && return 0
        [ $left -gt 0 ] || return 1
        left=$((left-1)); sleep 0.01
    done
}
wait_for() { until [ -e $TOP/go ]; do sleep 0.01; done; }
note begin
trap 'note end' EXIT
. $TOP/steps.$ID
"""
CONFIGURATION = ".pre-commit-config.yaml"
LONG, SHORT = "2000", "30"
NO_NAMES = "pass_filenames: false, always_run: true"
ENDING = [signal.SIGINT, signal.SIGTERM, signal.SIGHUP]


class Repository:
    """A repository whose hooks are scripts. Each hook is an id, its keys, and what its script does."""

    def __init__(self, folder, hooks, files=("a",), top=""):
        self.top = os.path.join(folder, "top")
        self.work = os.path.join(folder, "work")
        for path in (self.work, os.path.join(self.top, "here")):
            os.makedirs(path)
        write(self.top, "does", STEPS.encode())
        os.chmod(os.path.join(self.top, "does"), 0o755)
        for name, _, does in hooks:
            write(self.top, f"steps.{name}", f"{does}\n".encode())
        write(self.work, CONFIGURATION, configuration(self.top, hooks, top).encode())
        for path in files:
            write(self.work, path, f"{path}\n".encode())
        do(self.work, "init")
        do(self.work, "add", CONFIGURATION, *files)

    def environment(self, **given):
        return {**os.environ, "TOP": self.top, "LIMIT": LONG, "MEETING": "1", **given}

    def run(self, *words, **given):
        """A command's exit status and what it prints, after the notes of earlier ones were dropped."""
        for path in (Path(self.top, "log"), *Path(self.top, "here").iterdir()):
            path.unlink(missing_ok=True)
        return run(self.work, *words, env=self.environment(**given))

    def notes(self):
        """What the commands noted, in the order of time: `begin` or `end`, the hook, and the names."""
        with suppress(FileNotFoundError):
            return [words.split(" ", 2) for words in Path(self.top, "log").read_text().splitlines()]
        return []

    def begun(self):
        """The hooks whose commands began, each as often as one did, in the order of their names."""
        return sorted(name for step, name, _ in self.notes() if step == "begin")

    def counts(self):
        """How many names each command got that notes their number, in rising order."""
        return sorted(int(count) for _, _, count in self.notes())

    def most_at_once(self):
        """How many commands ran at the same time, at most."""
        running, most = 0, 0
        for step, _, _ in self.notes():
            running += 1 if step == "begin" else -1
            most = max(most, running)
        check(running == 0, f"not each command that began has ended: {self.notes()!r}")
        return most


def configuration(top, hooks, first=""):
    """The text of a configuration. A hook without a script has a language and an entry of its own."""
    rows = []
    for name, keys, does in hooks:
        entry = "" if does is None else f", language: system, entry: '{top}/does {name}'"
        rows.append(f"  - {{id: {name}, name: {name}, {keys}{entry}}}\n")
    return f"{first}default_stages: [pre-commit]\nrepos:\n- repo: local\n  hooks:\n" + "".join(rows)


def in_one_folder(folder, name):
    path = os.path.join(folder, name)
    os.mkdir(path)
    return path


def report(*ends):
    """The report of hooks that end so, each of which has nothing to print."""
    failed = "- hook id: {}\n- exit code: {}\n"
    return b"".join(line(name, "Failed") + failed.format(name, status).encode() if status else line(name, "Passed") for name, status in ends)


def says(found, wanted, text):
    check(found == wanted, f"{text}: {found!r}, wanted {wanted!r}")


# ---- as many at once as may be, and no more

def runs_as_many_at_once_as_it_may(folder):
    """Hooks that wait until all of them have begun pass if all may run at once, and else all but the last one fail. The same holds for
    parts of one hook, and for all commands that run hooks."""
    hooks = [(f"hook{at}", NO_NAMES, "meet") for at in range(4)]
    ends = [(name, 1) for name, _, _ in hooks[:-1]] + [(hooks[-1][0], 0)]
    files = [f"file{at}" for at in range(8)]
    commands = (["run", "--all-files", "--fresh"], ["run-files", "--fresh", "file0"], ["try", CONFIGURATION, "file0"], ["commit", "-m", "text"])
    for at, words in enumerate(commands):
        tested = Repository(in_one_folder(folder, f"hooks{at}"), hooks, files)
        says(tested.run(*words, "--jobs=3", MEETING="4", LIMIT=SHORT)[0], 1, f"{words!r} with three at once")
        check(tested.most_at_once() <= 3, f"{words!r}: more than three ran at once")
        do(tested.work, "forget")
        says(tested.run(*words, "--jobs=1", MEETING="4", LIMIT=SHORT), (1, report(*ends), b""), f"{words!r} one after another")
        says(tested.most_at_once(), 1, f"{words!r}: how many ran at once of one that may")
        do(tested.work, "forget")
        passed = report(*((name, 0) for name, _, _ in hooks)) + (b"commit 1\n" if words[0] == "commit" else b"")
        says(tested.run(*words, "--jobs=4", MEETING="4"), (0, passed, b""), f"{words!r} with four at once")
        says(tested.most_at_once(), 4, f"{words!r}: how many ran at once of four that may")


def runs_parts_of_one_hook_at_once(folder):
    """With x_at_most and x_per_file the parts of a hook run at once, and each gets as many names as is said."""
    files = [f"file{at}" for at in range(8)]
    for at, (keys, names) in enumerate((("x_at_most: 2", 2), ("x_per_file: true", 1), ("x_at_most: 3", 3), ("x_per_file: true, x_at_most: 4", 1))):
        parts = -(-len(files) // names)
        tested = Repository(in_one_folder(folder, str(at)), [("part", f"files: ^file, {keys}", "meet")], files)
        says(tested.run("run", f"--jobs={parts}", MEETING=str(parts)), (0, report(("part", 0)), b""), f"{parts} parts at once, of {keys}")
        says(tested.most_at_once(), parts, f"how many parts of {keys} ran at once")
        given = sorted(words.split() for step, _, words in tested.notes() if step == "begin")
        wanted = [files[first:first + names] for first in range(0, len(files), names)]
        says(given, wanted, f"the names of parts of {keys}")
        do(tested.work, "forget")
        says(tested.run("run", "--jobs=1", MEETING=str(parts), LIMIT=SHORT)[0], 1, f"parts of {keys} one after another")


# A known tool that notes how many files it is given.
KNOWN_TOOL = """#!/bin/sh
count=0
for word; do case $word in -*) ;; *) count=$((count+1)) ;; esac; done
echo "begin ${0##*/} $count" >> $TOP/log
"""


def splits_files_of_known_tools_in_a_cautious_run(folder):
    """A known tool that looks at each file by itself gets at most 100 names in a cautious run, unless its hook or its words say
    otherwise. After an edit of one file only the part with that file is started again."""
    files = [f"file{at:03}.md" for at in range(201)]
    cases = [("flake8", "", [100, 100, 1]), ("eslint --max-warnings=0", "", [100, 100, 1]), ("eslint --max-warnings=9", "", [201]),
             ("black", "", [201]), ("flake8", ", require_serial: true", [201]), ("flake8", ", x_at_most: 150", [150, 51])]
    for at, (entry, keys, parts) in enumerate(cases):
        hook = ("tool", f"language: system, entry: {entry}, files: ^file{keys}", None)
        tested = Repository(in_one_folder(folder, str(at)), [hook], files)
        tools = in_one_folder(tested.top, "tools")
        write(tools, entry.split()[0], KNOWN_TOOL.encode())
        os.chmod(os.path.join(tools, entry.split()[0]), 0o755)
        given = {"PATH": f"{tools}:{os.environ['PATH']}"}
        plain = parts if "x_at_most" in keys else [201]
        for options, wanted in ([], plain), (["--cautious"], parts):
            do(tested.work, "forget")
            says(tested.run("run", *options, **given), (0, report(("tool", 0)), b""), f"{entry}{keys} {options!r}")
            says(tested.counts(), sorted(wanted), f"{entry}{keys} {options!r}: how many names each command gets")
        write(tested.work, "file000.md", b"other\n")
        do(tested.work, "add", "file000.md")
        says(tested.run("run", "--all-files", "--cautious", **given)[0], 0, f"{entry}{keys} after an edit")
        says(tested.counts(), parts[:1], f"{entry}{keys}: how many names the command gets after an edit")


def is_limited():
    """Whether a control group limits the time of processors."""
    with suppress(OSError):
        return not Path("/sys/fs/cgroup/cpu.max").read_text("ascii").startswith("max")
    return False


def runs_as_many_at_once_as_there_are_processors(folder):
    """So it is without `--jobs`."""
    usable = os.sched_getaffinity(0)
    hooks = [(f"hook{at}", NO_NAMES, "meet") for at in range(4)]
    for count in sorted({1, 1 if is_limited() else min(len(usable), 3)}):
        tested = Repository(in_one_folder(folder, str(count)), hooks)
        os.sched_setaffinity(0, sorted(usable)[:count])
        try:
            says(tested.run("run", "--all-files", "--fresh", MEETING=str(count))[0], 0, f"with {count} processors")
        finally:
            os.sched_setaffinity(0, usable)
        says(tested.most_at_once(), count, f"how many ran at once with {count} processors")


def never_runs_more_at_once(folder):
    """However many commands there are, at most so many run at once, and another one begins as soon as one has ended."""
    hooks = [(f"part{at}", "files: ^file, x_at_most: 3", "meet; sleep 0.0$(($$ % 4))") for at in range(3)]
    tested = Repository(in_one_folder(folder, "parts"), hooks, [f"file{at}" for at in range(20)])
    for most in (2, 3, 5, 16):
        says(tested.run("run", "--fresh", f"--jobs={most}", MEETING=str(most))[0], 0, f"with {most} at once")
        says((tested.most_at_once(), len(tested.begun())), (most, 21), f"how many ran at once of {most} that may, and how many in all")
    # One is slow, and the others end next to it one after another.
    hooks = [("slow", NO_NAMES, "meet"), *((f"quick{at}", NO_NAMES, ": > $TOP/here/$$") for at in range(6))]
    tested = Repository(in_one_folder(folder, "slow"), hooks)
    says(tested.run("run", "--jobs=2", MEETING="7")[0], 0, "six quick hooks next to a slow one, two at once")
    says(tested.most_at_once(), 2, "how many ran at once, of two that may")


def shows_durations_of_hooks_that_run_alone(folder):
    """With --verbose, which shows how long each hook took, they run one after another."""
    tested = Repository(folder, [(f"hook{at}", NO_NAMES, "sleep 0.02") for at in range(3)])
    status, _, err = tested.run("run", "--verbose", "--jobs=3")
    says((status, tested.most_at_once(), err.count(b"duration: hook")), (0, 1, 3), f"a run with durations, {err!r}")


def takes_few_open_files(folder):
    """If only some of the commands can be started at once, since the program may open no more files, the others run in their turns."""
    hooks = [("part", "files: ^file, x_per_file: true", "echo $1"), ("last", NO_NAMES, "ls")]
    tested = Repository(folder, hooks, [f"file{at:02}" for at in range(40)])
    wanted = tested.run("run", "--fresh")
    for limit in (24, 40, 80):
        words = ["sh", "-c", f'ulimit -n {limit}; exec "$0" "$@"', PROGRAM, "run", "--fresh", "--jobs=40"]
        found = subprocess.run(words, cwd=tested.work, capture_output=True, env=tested.environment(), stdin=subprocess.DEVNULL, timeout=120)
        says((found.returncode, found.stdout, found.stderr), wanted, f"with at most {limit} open files")


# ---- what is never started, or never next to another

def starts_nothing_after_a_hook_that_may_be_the_last(folder):
    """After a hook that fails with fail_fast, no command of a later one has begun, wherever the key is, and whatever the hook is."""
    slow = "sleep 0.02; exit 1"
    others = [(name, NO_NAMES, "exit 1") for name in ("later", "last")]
    quick, alone = ("first", NO_NAMES, "sleep 0.02"), f"{NO_NAMES}, fail_fast: true"
    stops, fails = ("stops", alone, slow), ("first", NO_NAMES, slow)
    cases = {
        "of the hook, the first one": ("", [stops, *others], ["stops"]),
        "of the hook, the second one": ("", [fails, stops, *others], ["first", "stops"]),
        "of parts": ("", [("stops", "files: ^file, x_at_most: 2, fail_fast: true", slow), *others], ["stops"] * 3),
        "of the configuration": ("fail_fast: true\n", [fails, *others], ["first"]),
        "of the configuration, after one that passes": ("fail_fast: true\n", [quick, ("stops", NO_NAMES, slow), *others], ["first", "stops"]),
        "of a hook that starts nothing": ("", [quick, ("fails", "language: fail, entry: never, fail_fast: true, files: ^file", None), *others], ["first"]),
        "of a hook after another, which passes": ("", [("first", alone, "sleep 0.02"), stops, *others], ["first", "stops"]),
        "of a hook that runs alone": ("", [("stops", f"{alone}, require_serial: true", slow), *others], ["stops"]),
    }
    for at, (text, (first, hooks, begun)) in enumerate(cases.items()):
        tested = Repository(in_one_folder(folder, str(at)), hooks, [f"file{number}" for number in range(6)], first)
        for words in (["run", "--all-files"], ["commit", "-m", "text"], ["try", CONFIGURATION, *(f"file{number}" for number in range(6))]):
            do(tested.work, "forget")
            wanted = tested.run(*words)
            do(tested.work, "forget")
            says(tested.run(*words, "--jobs=4"), wanted, f"{words!r} with fail_fast {text}")
            says((wanted[0], tested.begun()), (1, sorted(begun)), f"what {words!r} starts with fail_fast {text}")


def runs_a_serial_hook_alone(folder):
    """While a hook with require_serial runs, none of its own parts and no other hook does."""
    keys, nap = "files: ^file, x_at_most: 2", "sleep 0.01"
    serial = f"{keys}, require_serial: true"
    hooks = [("before", keys, nap), ("alone", serial, nap), ("after", keys, nap), ("again", serial, nap), ("end", NO_NAMES, nap)]
    tested = Repository(folder, hooks, [f"file{at}" for at in range(8)])
    for words in (["run", "--all-files", "--fresh"], ["commit", "-m", "text"]):
        do(tested.work, "forget")
        says(tested.run(*words, "--jobs=8")[0], 0, f"{words!r} of serial hooks and others")
        running = []
        for step, name, names in tested.notes():
            if step == "begin":
                running.append((name, names))
                check(len(running) == 1 or not {"alone", "again"} & {each for each, _ in running}, f"at the same time run {running!r}")
            else:
                running.remove((name, names))
        says(sorted(tested.begun()), sorted(["before", "alone", "after", "again"] * 4 + ["end"]), "what is started of serial hooks and others")
        check(tested.most_at_once() > 1, "no others run at once")


def runs_hooks_of_a_message_one_after_another(folder):
    """Those of the message and those after the commit run one after another, and those before it at once."""
    stages = ("pre-commit", "prepare-commit-msg", "commit-msg", "post-commit")
    does = {stage: "sleep 0.02; [ ! -e $TOP/one ] || exit 1; : > $TOP/one; sleep 0.02; rm $TOP/one" for stage in stages} | {"pre-commit": "meet"}
    hooks = [(f"{stage}-{at}", f"always_run: true, stages: [{stage}]", does[stage]) for stage in stages for at in range(3)]
    tested = Repository(folder, hooks)
    found = tested.run("commit", "-m", "text", "--jobs=3", MEETING="3")
    says(found, (0, report(*((name, 0) for name, _, _ in hooks)) + b"commit 1\n", b""), "a commit with hooks of all stages")
    steps = [(step, name) for step, name, _ in tested.notes()]
    says(steps[6:], [(step, f"{stage}-{at}") for stage in stages[1:] for at in range(3) for step in ("begin", "end")], "hooks of other stages")
    begun = [("begin", f"pre-commit-{at}") for at in range(3)]
    says((sorted(steps[:3]), [step for step, _ in steps[3:6]]), (begun, ["end"] * 3), "the hooks before the commit")


def starts_no_command_whose_answer_is_cached(folder):
    """A second run starts the commands of the files that changed, and no other, wherever those are."""
    files = [f"file{at}" for at in range(9)]
    hooks = [("each", "files: ^file, x_per_file: true", "sleep 0.01; cat $1"), ("three", "files: ^file, x_at_most: 3", "sleep 0.01"),
             ("all", "files: ^file, require_serial: true", "")]
    tested = Repository(folder, hooks, files)
    says(tested.run("run", "--all-files", "--jobs=4"), (0, report(("each", 0), ("three", 0), ("all", 0)), b""), "a first run")
    says(len(tested.begun()), 9 + 3 + 1, "how many a first run starts")
    for number, changed in enumerate((["file0"], ["file4"], ["file8"], ["file3", "file4"], ["file0", "file3", "file8"], files, [])):
        for path in changed:
            write(tested.work, path, f"{path} {number}\n".encode())
            do(tested.work, "add", path)
        says(tested.run("run", "--all-files", "--jobs=4")[0], 0, f"a run after {changed!r} changed")
        threes = {int(path[4:]) // 3 for path in changed}
        wanted = ["each"] * len(changed) + ["three"] * len(threes) + ["all"] * bool(changed)
        says(tested.begun(), sorted(wanted), f"what a run starts after {changed!r} changed")


# ---- a hook that changes files

def sees_what_hooks_before_it_changed(folder):
    """A hook after one that changes files finds them changed, however they are timed. What began before is nobody's answer."""
    fix, late_fix = "sed -i s/bad/good/ \"$@\"", "sleep 0.03; sed -i s/bad/good/ \"$@\""
    look, late_look = "! grep bad \"$@\"", "sleep 0.03; ! grep bad \"$@\""
    for at, (mend, seek) in enumerate(((fix, late_look), (late_fix, look), (fix, look), (late_fix, late_look))):
        hooks = [("before", "files: ^file", "! grep good \"$@\""), ("mend", "files: ^file, x_at_most: 2", mend), ("seek", "files: ^file", seek),
                 ("show", "files: ^file, x_at_most: 1, verbose: true", "cat \"$@\"")]
        answers = []
        for jobs in (1, 4):
            tested = Repository(in_one_folder(folder, f"{at}-{jobs}"), hooks, [f"file{number}" for number in range(4)])
            for number in range(4):
                write(tested.work, f"file{number}", b"bad\n" if number % 2 else b"fine\n")
            do(tested.work, "add", ".")
            found = tested.run("run", "--all-files", f"--jobs={jobs}")
            ends = (line("before", "Passed"), line("mend", "Failed"), line("seek", "Passed"), line("show", "Passed"))
            check(all(end in found[1] for end in ends), f"a run that mends says {found!r}")
            answers.append((found, do(tested.work, "fixes"), do(tested.work, "cat", "--fixed", "file1"), do(tested.work, "memory")))
        says(answers[1], answers[0], f"four at once, with {mend!r} and {seek!r}")


def takes_no_new_file_of_another(folder):
    """A hook that needs a new file fails, whether the hook that makes it is before it or after it, and however they are timed. The folder
    of each command has only the files of the tree."""
    failed = [("make", 0), ("need", 1)]
    for at in range(20):
        nap, place = f"sleep 0.0{at % 4}", ("gen.txt", "d/gen.txt", "new/gen.txt")[at % 3]
        make = f"mkdir -p {os.path.dirname(place) or '.'}; : > {place}; {nap}"
        need = f"left=6; until [ -e {place} ]; do [ $left -gt 0 ] || exit 1; left=$((left-1)); sleep 0.01; done"
        hooks = [("make", "files: a$", make), ("need", "files: a$", need)]
        if at % 2:
            hooks.reverse()
        tested = Repository(in_one_folder(folder, str(at)), hooks, ("a", "d/a"))
        ends = failed if at % 2 == 0 else failed[::-1]
        for jobs in (4, 2, 1):
            do(tested.work, "forget")
            says(tested.run("run", "--all-files", f"--jobs={jobs}"), (1, report(*ends), b""), f"a hook that needs {place}, {jobs} at once, {nap}")


# What a command does for a while, what another one waits for, and what it would pass by. In their turns it never finds that.
SEEN_BY_OTHERS = {
    "a file that may be run": ("chmod +x a; sleep 0.2", "[ -x a ]"),
    "a file that may be run for a while": ("chmod +x a; sleep 0.2; chmod -x a", "[ -x a ]"),
    "a file that is written again as it was": ("sleep 0.05; : > a; sleep 0.2; echo a > a", "! grep -q a a"),
    "a file that is changed and restored": ("cp a $TOP/held; sleep 0.05; echo b > a; sleep 0.2; cat $TOP/held > a", "grep -q b a"),
    "a file that is away for a while": ("mv a $TOP/held; sleep 0.2; mv $TOP/held a", "[ ! -e a ]"),
    "a file with two names": ("ln a ../held; sleep 0.2; rm ../held", "[ $(stat -c %h a) = 2 ]"),
    "a new file, which is removed again": (": > new; sleep 0.2; rm new", "[ -e new ]"),
    "a new file in a folder, which is removed again": (": > d/new; sleep 0.2; rm d/new", "[ -e d/new ]"),
    "a new file of another's": (": > new; sleep 0.2", "[ -e new ]"),
    "a new folder": ("mkdir d/new; sleep 0.2", "[ -e d/new ]"),
    "a file of Git's": (": > .git/index; sleep 0.2", "[ -e .git/index ]"),
    "a folder that others may not use": ("chmod 700 d; sleep 0.2", "[ $(stat -c %a d) = 700 ]"),
}


def takes_nothing_of_another(folder):
    """A hook fails that waits for what only a hook next to it does, even if that is undone before its end."""
    for at, (text, (does, finds)) in enumerate(SEEN_BY_OTHERS.items()):
        waits = f"left=15; until {finds}; do [ $left -gt 0 ] || exit 1; left=$((left-1)); sleep 0.02; done"
        tested = Repository(in_one_folder(folder, str(at)), [("does", NO_NAMES, does), ("finds", NO_NAMES, waits)], ("a", "d/b"))
        for jobs in (1, 4):
            do(tested.work, "forget")
            says(tested.run("run", "--all-files", f"--jobs={jobs}"), (1, report(("does", 0), ("finds", 1)), b""), f"a hook that waits for {text}, {jobs} at once")


# ---- signals

def begun_together(tested, words, count):
    """A program of which so many commands have begun and wait, and the numbers of their processes."""
    for path in (Path(tested.top, "log"), *Path(tested.top, "here").iterdir()):
        path.unlink(missing_ok=True)
    pipes = {"stdin": subprocess.DEVNULL, "stdout": subprocess.PIPE, "stderr": subprocess.PIPE}
    program = subprocess.Popen([PROGRAM, *words], cwd=tested.work, env=tested.environment(), **pipes, start_new_session=True,
                               preexec_fn=lambda: [signal.signal(number, signal.SIG_DFL) for number in ENDING])
    until = time.monotonic() + 60
    while len(os.listdir(os.path.join(tested.top, "here"))) < count:
        check(time.monotonic() < until and program.poll() is None, f"{words!r} starts {tested.notes()!r}")
        time.sleep(0.005)
    return program, [int(name) for name in os.listdir(os.path.join(tested.top, "here"))]


def is_at_work(process):
    """Whether a process is there and hasn't ended."""
    with suppress(FileNotFoundError, ProcessLookupError):
        return Path(f"/proc/{process}/stat").read_text().rsplit(") ", 1)[1][0] not in "ZX"
    return False


def await_ends(processes):
    until = time.monotonic() + 10
    while any(map(is_at_work, processes)) and time.monotonic() < until:
        time.sleep(0.005)
    return [process for process in processes if is_at_work(process)]


WAITS = ": > $TOP/here/$$; [ -e $TOP/go ] || wait_for; cat \"$@\""


def ends_by_a_signal_while_several_run(folder):
    """A signal to the group ends the program and all its commands. One to the program alone ends it, and its commands go on. Either
    way nothing is printed, the repository is the one before, what is cached was answered, and the next run gives what it gives
    undisturbed."""
    hooks = [("quick", NO_NAMES, "echo quick"), *((f"wait{at}", "files: ^file, verbose: true", WAITS) for at in range(4))]
    for words in (["run", "--all-files"], ["commit", "-m", "text"], ["try", CONFIGURATION, "file0", "file1"]):
        tested = Repository(in_one_folder(folder, words[0]), hooks, ["file0", "file1"])
        write(tested.top, "go", b"")
        wanted = tested.run(*(words if words[0] != "commit" else ["run", "--all-files"]))
        check(wanted[0] == 0 and wanted[1].count(b"file0\nfile1\n") == 4, f"undisturbed it says {wanted!r}")
        for number in ENDING:
            for to_group in (True, False):
                text = f"{words!r} after {number.name} to the {'group' if to_group else 'program'}"
                do(tested.work, "forget")
                os.remove(os.path.join(tested.top, "go"))
                program, children = begun_together(tested, [*words, "--jobs=5"], 4)
                try:
                    (os.killpg if to_group else os.kill)(program.pid, number)
                    out, err = program.communicate(timeout=60) if to_group else (b"", b"")
                    if not to_group:
                        program.wait(timeout=60)
                    says((program.returncode, out, err), (-number, b"", b""), text)
                    left = await_ends(children) if to_group else [child for child in children if is_at_work(child)]
                    says(left, [] if to_group else children, f"{text}: which commands are still at work")
                    check(int(do(tested.work, "memory").split()[-1]) <= 1, f"{text} {do(tested.work, 'memory')!r}")
                    says((do(tested.work, "log"), do(tested.work, "fixes")), (b"", b""), text)
                finally:
                    write(tested.top, "go", b"")
                    still = await_ends(children)
                    for child in still:
                        os.kill(child, signal.SIGKILL)
                    program.stdout.close()
                    program.stderr.close()
                says(still, [], f"{text}: commands that may go on")
                again = words if words[0] != "commit" else ["run", "--all-files"]
                says(tested.run(*again, "--jobs=5"), wanted, f"the next run, {text}")


def runs_on_beside_commands_that_outlive_it(folder):
    """The next run isn't disturbed by four commands that a signal to the program alone has left, though they still wait and then write."""
    late = ": > $TOP/here/$$; [ -e $TOP/quiet ] || { wait_for; echo late > file0; echo late > new; }; cat \"$@\""
    tested = Repository(folder, [(f"wait{at}", "files: ^file, verbose: true", late) for at in range(4)], ["file0", "file1"])
    write(tested.top, "quiet", b"")
    wanted = tested.run("run", "--all-files", "--jobs=4")
    check(wanted[0] == 0, f"undisturbed it says {wanted!r}")
    for number in (*ENDING, signal.SIGKILL):
        do(tested.work, "forget")
        for name in ("quiet", "go"):
            Path(tested.top, name).unlink(missing_ok=True)
        program, children = begun_together(tested, ["run", "--all-files", "--jobs=4"], 4)
        try:
            program.send_signal(number)
            program.wait(timeout=60)
            says((program.returncode, [child for child in children if not is_at_work(child)]), (-number, []), f"signal {number} to the program alone")
            write(tested.top, "quiet", b"")
            says(tested.run("run", "--all-files", "--jobs=4"), wanted, f"beside what signal {number} left")
            do(tested.work, "forget")
            write(tested.top, "go", b"")
            says(tested.run("run", "--all-files", "--jobs=4"), wanted, f"while what signal {number} left goes on")
        finally:
            write(tested.top, "go", b"")
            for child in await_ends(children):
                os.kill(child, signal.SIGKILL)
            program.stdout.close()
            program.stderr.close()
        says(tested.run("run", "--all-files", "--jobs=4"), wanted, f"once all has ended that signal {number} left")


def reports_commands_that_signals_end(folder):
    """If commands that run at once end by signals, each is reported as one that runs alone, and the others as if nothing were."""
    hooks = [("kills", NO_NAMES, "kill -9 $$"), ("passes", NO_NAMES, "sleep 0.02"), ("ends", NO_NAMES, "kill -TERM $$"), ("fails", NO_NAMES, "exit 3")]
    tested = Repository(folder, hooks)
    wanted = tested.run("run", "--all-files")
    remembered = do(tested.work, "memory")
    do(tested.work, "forget")
    says(tested.run("run", "--all-files", "--jobs=4"), wanted, "commands at once that signals end")
    says(do(tested.work, "memory"), remembered, "what is cached after commands that signals end")
    check(wanted[0] == 1 and wanted[1].count(b"- fault: ") == 2 and remembered == b"remembered: 2\n", f"it says {wanted!r}, {remembered!r}")


# ---- refused values

OPTIONS = "[--hook-stage=<STAGE>] [--fresh] [--cautious] [--verbose] [--color=<WHEN>] [--jobs=<N>]"
USAGES = {
    ("run",): f"hookhost run [--all-files] {OPTIONS} [ID]",
    ("run-files", "a"): f"hookhost run-files [--only=<ID>] {OPTIONS} (<PATH>... | --paths-from=<FILE>)",
    ("try", CONFIGURATION, "a"): "hookhost try [--color=<WHEN>] [--jobs=<N>] <CONFIG> <PATH>...",
    ("commit", "-m", "text"): "hookhost commit [--no-verify] [--color=<WHEN>] [--jobs=<N>] -m <TEXT>",
}


def refuses_other_numbers(folder):
    """A value that is no number from 1 to 256 is refused, with the usage of the command, and nothing is started."""
    tested = Repository(folder, [("hook", NO_NAMES, "")])
    for words, usage in USAGES.items():
        for value in ("0", "257", "x", "", "-1", "1.0", "4 ", "0x2", "99999999999999999999", "00", "\u0664"):
            wrong = f"error: invalid value '{value}' for '--jobs <N>': it has to be a number from 1 to 256"
            text = f"{wrong}\n\nUsage: {usage}\n\nFor more information, try '--help'.\n"
            says(tested.run(*words, f"--jobs={value}"), (2, b"", text.encode()), f"{words!r} with --jobs={value}")
            says(tested.notes(), [], f"what {words!r} starts with --jobs={value}")
        for given in (["--jobs=1"], ["--jobs=256"], ["--jobs", "2"]):
            do(tested.work, "forget")
            write(tested.work, "a", f"{words!r} {given!r}\n".encode())
            do(tested.work, "add", "a")
            found = tested.run(*words[:1], *given, *words[1:])
            says((found[0], found[2], tested.begun()), (0, b"", ["hook"]), f"{words!r} with {given!r}")


CASES = [runs_as_many_at_once_as_it_may, runs_as_many_at_once_as_there_are_processors, runs_parts_of_one_hook_at_once,
         splits_files_of_known_tools_in_a_cautious_run,
         never_runs_more_at_once, shows_durations_of_hooks_that_run_alone, takes_few_open_files,
         starts_nothing_after_a_hook_that_may_be_the_last, runs_a_serial_hook_alone, runs_hooks_of_a_message_one_after_another,
         starts_no_command_whose_answer_is_cached, sees_what_hooks_before_it_changed, takes_no_new_file_of_another, takes_nothing_of_another,
         ends_by_a_signal_while_several_run, runs_on_beside_commands_that_outlive_it, reports_commands_that_signals_end, refuses_other_numbers]
