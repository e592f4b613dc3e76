"""Runs of hooks in stores of this script's own."""
import contextlib
import os
import select
import signal
import subprocess
import tempfile
import time

from hookhost_reads.basics import Refused, done
from hookhost_reads.strace import LINE, Trace, path_of

# How long a process is waited for that goes on after its command, in seconds.
PATIENCE = 5


def list_of(paths):
    """The paths as a list for --paths-from."""
    return b"".join(os.fsencode(path) + b"\0" for path in paths)


class Store:
    """A store with the staged files, and runs of hooks there, with or without strace."""

    def __init__(self, world, name, contents):
        self.world, self.folder, self.base, self.touched, self.made, self.count = world, os.path.join(world.place, name), contents, set(), set(), 0
        os.mkdir(self.folder)
        staged = world.staged
        for path in staged.paths:
            self.write(path, self.original(path))
        self.call("init")
        self.call("add", given=[path for path in staged.paths if path not in staged.executable])
        self.call("add", "--chmod=+x", given=[path for path in staged.paths if path in staged.executable])

    def original(self, path):
        if path in self.base:
            return self.base[path]
        with open(os.path.join(self.world.staged.folder, path), "rb") as file:
            return file.read()

    def write(self, path, held):
        path = os.path.join(self.folder, path)
        os.makedirs(os.path.dirname(path), exist_ok=True)
        with open(path, "wb") as file:
            file.write(held)

    def call(self, *words, given=None):
        """Calls the program, with paths if there are any."""
        if given is not None and not given:
            return
        answer = done([self.world.program, *words, *([] if given is None else ["--paths-from=-"])], cwd=self.folder, env=self.world.env, input=list_of(given or ()))
        if answer.returncode:
            raise Refused(f"hookhost {words[0]} says: {answer.stderr.decode(errors='replace').strip()}")

    def change(self, paths):
        """Stages these paths, new ones too, with bytes that they never had, and all others as they were."""
        self.count += 1
        known = self.world.known
        self.call("rm", given=sorted(self.made - set(paths)))
        for path in self.made - set(paths):
            os.remove(os.path.join(self.folder, path))
        self.made = {path for path in paths if path not in known}
        back = self.touched - set(paths)
        for path in back:
            self.write(path, self.original(path))
        for path in paths:
            self.write(path, (self.original(path) if path in known else b"") + b"\n" * self.count)
        self.touched = {path for path in paths if path in known}
        self.call("add", given=sorted(back | set(paths)))

    def words_of_run(self, name, *words):
        return [self.world.program, "run-files", "--verbose", *words, "--only=" + name, "--paths-from=-"]

    def run(self, name, selection, *words, env=None):
        """Runs the hooks of a name, and returns the exit status and what was printed."""
        answer = done(self.words_of_run(name, *words), cwd=self.folder, env=self.world.env | (env or {}), input=list_of(selection))
        return answer.returncode, answer.stdout.decode(errors="replace"), answer.stderr.decode(errors="replace")

    @contextlib.contextmanager
    def trace(self, name, selection, calls, *words, env=None):
        """The same, with the commands that strace has seen."""
        strace = [*self.world.strace, "-I", "2", "-f", "-ff", "-qq", "-y", "-ttt", "-s", "200000", "-e", "signal=none", "-e", "trace=" + calls]
        with tempfile.TemporaryDirectory(dir=self.world.place, prefix="trace.") as traces, contextlib.ExitStack() as files:
            given, printed, said = (files.enter_context(tempfile.TemporaryFile()) for _ in range(3))
            given.write(list_of(selection))
            given.seek(0)
            begun = subprocess.Popen([*strace, "-o", os.path.join(traces, "t"), *self.words_of_run(name, *words)], cwd=self.folder, env=self.world.env | (env or {}),
                                     stdin=given, stdout=printed, stderr=said)
            status = self.wait(begun)
            texts = []
            for file in (printed, said):
                file.seek(0)
                texts.append(file.read().decode(errors="replace"))
            main = first_of(traces, self.world.program)
            yield status, *texts, Trace(traces, main, self.world.scratch).commands if main else []

    @staticmethod
    def wait(strace):
        """Waits for the run, and a while for processes that go on after it."""
        ended, quiet = os.pidfd_open(strace.pid), None
        try:
            while not select.select([ended], [], [], 0.5)[0]:
                if quiet is None and not children_of(strace.pid):
                    quiet = time.monotonic()
                if quiet is not None and time.monotonic() - quiet > PATIENCE:
                    strace.terminate()
            return strace.wait()
        finally:
            os.close(ended)
            if strace.poll() is None:
                for child in children_of(strace.pid):
                    os.kill(child, signal.SIGTERM)
                strace.terminate()


def children_of(pid):
    """The numbers of a process's children. Once the program has ended, its strace has none, though other processes may go on."""
    with open(f"/proc/{pid}/task/{pid}/children", encoding="ascii") as file:
        return [int(number) for number in file.read().split()]


def first_of(traces, program):
    """The number of the process that is the program itself: the first one that begins with its start."""
    found = []
    for name in os.listdir(traces):
        with open(os.path.join(traces, name), "rb") as file:
            it = LINE.match(os.fsdecode(file.readline().rstrip(b"\n")))
        if it and it[2] == "execve" and path_of(it[3], "/") == os.path.normpath(program):
            found.append((float(it[1]), name[2:]))
    return min(found)[1] if found else None
