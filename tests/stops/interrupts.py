#!/usr/bin/env python3
"""Interrupts the built program by signals, on a terminal and without one, and checks what it prints and leaves.

Usage: tests/stops/interrupts.py [--all | --sample] [--only=WORD] [PROGRAM]   (default: crates/hookhost/out/hookhost)

SIGINT, SIGTERM and SIGHUP come while a child waits that says when it has begun. They come to the whole foreground group, as a terminal
sends them for its keys and when it is closed. They also come to the program alone, as `kill` sends them. In the middle of its work,
between two children and within a call of the store, they come to the program alone. So does SIGPIPE, before a call that strace counts.

However the program ends, the next command isn't refused, and the repository is the one before the command or the one after it. What
is cached is what one of its transactions left, and standard output has nothing or the whole report. On a terminal no child outlives
the program. Without one it may, and the next run gives what it gives without it. If nobody reads standard output, the change is kept
all the same. If the program is started with SIGCHLD ignored, no child can be waited for: each is a fault of its hook, and nothing of
it is cached.

Without --all it tries only one in several of the calls that strace counts, always the same ones. With --sample it tries one in so many
of these, by each command, and of the commands whose child waits the first and the last for each way.
"""
import collections
import fcntl
import multiprocessing
import os
import resource
import signal
import subprocess
import sys
import tempfile
import termios
import time
import zlib
from concurrent.futures import ProcessPoolExecutor
from contextlib import suppress
from pathlib import Path

sys.path.insert(0, os.path.abspath(f"{__file__}/../../shared"))
from sample import note, sampled
from host_program import Wrong, check
from places import program
from stops_calls import calls_of, traced
from stops_repository import HOOKS, QUICK, Told, adopt_orphans, end_orphans, left_in, scenes_of, told_by, wait_for_orphans

ALL = "--all" in sys.argv
ONLY = "".join(word.partition("=")[2] for word in sys.argv[1:] if word.startswith("--only="))
WORDS = [word for word in sys.argv[1:] if not word.startswith("--")]
PROGRAM = os.path.abspath(WORDS[0] if WORDS else program("hookhost"))
WORKERS, ONE_IN, LIMIT = 2, 23, 60
# With --sample one in so many of these cases is played.
SAMPLED_ONE_IN = 10
SIGNALS = [signal.SIGINT, signal.SIGTERM, signal.SIGHUP]
# A child that says that it has begun, and waits until it may go on. It does both only if it's given the variable, and otherwise nothing.
WAITS = """sh -c '[ -z "$BEGUN" ] || { echo $$ > $BEGUN; until [ -e $BEGUN.go ]; do sleep 0.01; done; }; exec cat "$@"' --"""
WAITING_HOOKS = HOOKS.replace(b"entry: cat,", b'entry: "%s",' % WAITS.replace('"', '\\"').encode())


# ---- while a child runs

class Played:
    """A command whose child waits. On a terminal this is its session's, with the program's group in the foreground."""

    def __init__(self, work, folder, words, on_terminal):
        self.begun, self.far = os.path.join(folder, "begun"), None
        environment = {**os.environ, "BEGUN": self.begun, "SKIP": "", "TERM": "xterm"}
        self.out = tempfile.TemporaryFile()
        near = subprocess.DEVNULL
        if on_terminal:
            self.far, near = os.openpty()
        self.program = subprocess.Popen([PROGRAM, *words], cwd=work, env=environment, stdin=near, stdout=self.out,
                                        stderr=near if on_terminal else subprocess.PIPE, start_new_session=True,
                                        preexec_fn=lambda: begin(near if on_terminal else None))
        if on_terminal:
            os.close(near)
        self.child = self.wait_for_child()

    def wait_for_child(self):
        found, until = "", time.monotonic() + LIMIT
        while not found.endswith("\n"):
            check(time.monotonic() < until and self.program.poll() is None, "no child begins")
            time.sleep(0.005)
            with suppress(FileNotFoundError):
                found = Path(self.begun).read_text()
        return int(found)

    def close_terminal(self):
        os.close(self.far)
        self.far = None

    def told(self):
        """How it ended and what it printed."""
        try:
            self.program.wait(timeout=LIMIT)
        finally:
            if self.far is not None:
                self.close_terminal()
        err = b"" if self.program.stderr is None else self.program.stderr.read()
        self.out.seek(0)
        return Told(self.program.returncode, self.out.read(), err)

    def let_go(self):
        Path(self.begun + ".go").touch()


def begin(terminal):
    """Runs in the new process: signals end it, and the terminal is its own."""
    for number in (*SIGNALS, signal.SIGQUIT, signal.SIGPIPE):
        signal.signal(number, signal.SIG_DFL)
    if terminal is not None:
        fcntl.ioctl(terminal, termios.TIOCSCTTY, 0)


def is_at_work(process):
    """Whether a process is there and hasn't ended."""
    with suppress(FileNotFoundError, ProcessLookupError):
        return Path(f"/proc/{process}/stat").read_text().rsplit(") ", 1)[1][0] not in "ZX"
    return False


def ends_soon(process):
    until = time.monotonic() + 5
    while is_at_work(process) and time.monotonic() < until:
        time.sleep(0.005)
    return not is_at_work(process)


# How a signal comes: what it is, whether there is a terminal, and who sends it.
WAYS = {
    "the key of SIGINT": (signal.SIGINT, True, lambda played: os.write(played.far, b"\x03")),
    "the key of SIGQUIT": (signal.SIGQUIT, True, lambda played: os.write(played.far, b"\x1c")),
    "a terminal that is closed": (signal.SIGHUP, True, Played.close_terminal),
    "SIGTERM to the group, on a terminal": (signal.SIGTERM, True, lambda played: os.killpg(played.program.pid, signal.SIGTERM)),
    **{f"{number.name} to the group": (number, False, lambda played, number=number: os.killpg(played.program.pid, number)) for number in SIGNALS},
    **{f"{number.name} to the program, on a terminal": (number, True, lambda played, number=number: played.program.send_signal(number)) for number in SIGNALS},
    **{f"{number.name} to the program": (number, False, lambda played, number=number: played.program.send_signal(number)) for number in SIGNALS},
}


def interrupted(name, way):
    """What is wrong if a signal comes so while the command's first child waits, or None."""
    scene, (number, on_terminal, send) = SCENES[name], WAYS[way]
    with tempfile.TemporaryDirectory(dir=QUICK) as folder:
        work = scene.copy(folder)
        played = Played(work, folder, scene.words, on_terminal)
        send(played)
        told = played.told()
        check((told.status, told.out, told.err) == (-number, b"", b""), f"it says {told!r}")
        if " to the program" not in way:
            check(ends_soon(played.child), "its child outlives it")
        outlives = is_at_work(played.child)
        if outlives:
            # The next commands work next to it, and find nothing of it.
            try:
                left = left_in(work)
                is_before = left.repository == scene.before.repository and left.book in scene.books
                check(is_before, f"it leaves {left!r:.1000}")
                status = told_by([PROGRAM, "status"], work)
                check((status.status, status.err) == (0, b""), f"beside the child that outlives it status says {status!r}")
                again = scene.run(work)
                check(again == scene.told and left_in(work) == scene.after, f"beside the child that outlives it the same command says {again!r}")
            finally:
                played.let_go()
            wait_for_orphans()
            check(left_in(work) == scene.after, "what outlived it changes the repository")
            return "its child outlives it"
        wait_for_orphans()
        return "its child ends too: " + scene.judge(work, told)


# ---- between its calls

def signalled(name, number, call, at):
    """The same if the signal comes to the program before a call."""
    scene = SCENES[name]
    with tempfile.TemporaryDirectory(dir=QUICK) as folder:
        work = scene.copy(folder)
        told, _ = traced(PROGRAM, scene.words, work, call, "-e", f"inject={call}:signal={number.name.removeprefix('SIG')}:when={at}")
        wait_for_orphans()
        if told.status < 0:
            check(told.status == -number, f"it ends with {told!r:.500}")
        return scene.judge(work, told)


def unread(name):
    """The same if nobody reads standard output."""
    scene = SCENES[name]
    with tempfile.TemporaryDirectory(dir=QUICK) as folder:
        work = scene.copy(folder)
        end, near = os.pipe()
        os.close(end)
        done = subprocess.run([PROGRAM, *scene.words], cwd=work, stdin=subprocess.DEVNULL, stdout=near, stderr=subprocess.PIPE, timeout=LIMIT,
                              env={**os.environ, "SKIP": ""}, preexec_fn=lambda: begin(None))
        os.close(near)
        wait_for_orphans()
        told = Told(done.returncode, b"", done.stderr)
        check(left_in(work) == scene.after, f"it says {told!r} and leaves {left_in(work)!r:.1000}")
        is_said = told.status == 3 and told.err.startswith(b"hookhost: standard output was not taken\n")
        check(is_said or told == (-signal.SIGPIPE, b"", b"") or scene.told.out == b"", f"it says {told!r}")
        scene.judge(work, told)
        return "ended by SIGPIPE" if told.status < 0 else "said so" if is_said else "had nothing to say"


def ignore_ends():
    """Runs in the new process: the system keeps no child's exit status."""
    begin(None)
    signal.signal(signal.SIGCHLD, signal.SIG_IGN)


def unwaited(name):
    """The same if it starts with SIGCHLD ignored."""
    scene = SCENES[name]
    with tempfile.TemporaryDirectory(dir=QUICK) as folder:
        work = scene.copy(folder)
        done = subprocess.run([PROGRAM, *scene.words], cwd=work, stdin=subprocess.DEVNULL, capture_output=True, timeout=LIMIT,
                              env={**os.environ, "SKIP": ""}, preexec_fn=ignore_ends)
        wait_for_orphans()
        told = Told(done.returncode, done.stdout, done.stderr)
        starts = bool({row for book in scene.books if book for row in book.answers} - set(scene.before.answers))
        check((b"- fault: could not be waited for\n" in told.out) == starts, f"it says {told!r:.900}")
        return scene.judge(work, told)


# ---- all of it

def cases():
    running = [name for name in ("run", "commit", "run of version 1") if name in SCENES]
    yield from ((interrupted, name, way) for name in running for way in WAYS)
    yield from ((look, name) for look in (unread, unwaited) for name in SCENES)
    for name, scene in SCENES.items():
        for call, at in calls_of(scene):
            for number in (*SIGNALS, signal.SIGPIPE):
                if ALL or zlib.crc32(f"{name} {number} {call} {at}".encode()) % ONE_IN == 0:
                    yield signalled, name, number, call, at


def group_of(case):
    """What a sample plays one in so many cases of: of a way that a signal comes while a child runs, or of the calls of a command."""
    look, name, *words = case
    return (look, *words) if look is interrupted else (look, name)


def tried(case):
    """A case, and its outcome, or what is wrong."""
    look, *words = case
    try:
        return case, look(*words), None
    except (Wrong, subprocess.TimeoutExpired) as wrong:
        end_orphans()
        return case, "wrong", str(wrong)


def show(result):
    """Prints at once what is wrong."""
    (look, *words), _, text = result
    if text:
        print(f"FAILED {look.__name__} {' '.join(map(str, words))}: {text[:900]}", flush=True)
    return result


def main():
    global SCENES
    start = time.monotonic()
    adopt_orphans()
    # The shell that starts this in the background may have it, and the program with it, ignore some signals.
    for number in (*SIGNALS, signal.SIGQUIT):
        signal.signal(number, signal.SIG_DFL)
    with tempfile.TemporaryDirectory(dir=QUICK) as folder:
        SCENES = {scene.name: scene for scene in scenes_of(PROGRAM, folder, ONLY, WAITING_HOOKS)}
        with ProcessPoolExecutor(WORKERS, multiprocessing.get_context("fork"), initializer=adopt_orphans) as pool:
            there = list(cases())
            results = list(map(show, pool.map(tried, sampled(there, group_of, SAMPLED_ONE_IN), chunksize=4)))
    wrong = sum(text is not None for *_, text in results)
    for look in (interrupted, unread, unwaited, signalled):
        counts = collections.Counter(place for (each, *_), place, _ in results if each is look)
        print(f"{look.__name__}: " + ", ".join(f"{count} {place}" for place, count in sorted(counts.items())))
    took = sum(resource.getrusage(who).ru_utime + resource.getrusage(who).ru_stime for who in (resource.RUSAGE_SELF, resource.RUSAGE_CHILDREN))
    print(f"interrupts: {took:.0f} processor seconds, {time.monotonic() - start:.0f} s")
    print(f"interrupts: {len(results) - wrong} passed, {wrong} failed{note(len(results), len(there), 'cases')}")
    sys.exit(1 if wrong or not results else 0)


SCENES = {}
main()
