"""Starts pre-commit once for all hooks of a play, for tests/git/compare_stages.py: its modules take longer to read than all that it does
for a hook.

`pre-commit install` writes hooks of Git that start Python with pre-commit's module. Served hooks are the same, but start a small shell
script in place of Python. It writes the number of its process into a fifo. The server, which has read the modules of pre-commit, makes a
process of itself that takes over the words, variables, folder and files of the shell, as the system shows them, and calls `main` of
pre-commit. The status comes back by another fifo.
"""
import os
import re
import select
import shlex
import subprocess
import sys
import traceback

START = "INSTALL_PYTHON="
# How often the server looks whether it is still needed.
SECONDS = 5


def served_hook(text, launcher):
    """A hook that pre-commit has installed, with this script in place of Python."""
    found = re.sub(f"^{START}.*$", lambda _: START + shlex.quote(launcher), text, count=1, flags=re.MULTILINE)
    if found == text:
        raise RuntimeError(f"the hook doesn't say which Python it starts: {text}")
    return found


def python_of(text):
    """The Python that such a hook starts."""
    return shlex.split(re.search(f"^{START}(.*)$", text, re.MULTILINE).group(1))[0]


class Server:
    """The process that has read pre-commit, with the script that calls it."""

    def __init__(self, folder, python, env):
        self.asked, self.answered, self.launcher = (os.path.join(folder, name) for name in ("asked", "answered", "launcher"))
        for fifo in (self.asked, self.answered):
            os.mkfifo(fifo)
        with open(self.launcher, "w", encoding="utf-8") as file:
            # In a subshell, so that the standard output of the shell itself is never the fifo.
            file.write(f"#!/bin/sh\n(echo $$ > {shlex.quote(self.asked)})\nread status < {shlex.quote(self.answered)}\nexit $status\n")
        os.chmod(self.launcher, 0o755)
        self.process = subprocess.Popen([python, os.path.abspath(__file__), self.asked, self.answered], env=env, stdin=subprocess.DEVNULL)

    def end(self):
        """Ends the server, and answers whether it was still there."""
        was_there = self.process.poll() is None
        if was_there:
            with open(self.asked, "w", encoding="utf-8") as file:
                file.write("end\n")
        return self.process.wait(60) == 0 and was_there


def calls(asked):
    """The numbers of the processes that ask, until the word that it is the end, or until the process that has started this one is gone."""
    parent, fifo = os.getppid(), os.open(asked, os.O_RDWR)
    while True:
        if select.select([fifo], [], [], SECONDS)[0]:
            word = os.read(fifo, 100).decode().strip()
            if word == "end":
                return
            yield int(word)
        elif os.getppid() != parent:
            return


def serve(asked, answered):
    """Answers calls."""
    from pre_commit.main import main
    for number in calls(asked):
        child = os.fork()
        if child == 0:
            call(main, f"/proc/{number}")
        _, ended = os.waitpid(child, 0)
        with open(answered, "w", encoding="utf-8") as file:
            file.write(f"{os.waitstatus_to_exitcode(ended)}\n")


def call(main, caller):
    """Calls pre-commit in place of the process that asked, and ends this one."""
    status = 1
    try:
        take_over(caller)
        status = main(sys.argv[1:])
    except SystemExit as ended:
        if isinstance(ended.code, str):
            print(ended.code, file=sys.stderr)
        else:
            status = ended.code or 0
    except BaseException:
        traceback.print_exc()
    finally:
        sys.stdout.flush()
        sys.stderr.flush()
        os._exit(status)


def take_over(caller):
    """Takes over the files, folder, variables and words of a process."""
    for number, how in ((0, os.O_RDONLY), (1, os.O_WRONLY | os.O_APPEND), (2, os.O_WRONLY | os.O_APPEND)):
        file = os.open(f"{caller}/fd/{number}", how)
        os.dup2(file, number)
        os.close(file)
    os.chdir(f"{caller}/cwd")
    os.environ.clear()
    os.environ.update(row.split("=", 1) for row in held_by(f"{caller}/environ"))
    # The words are `sh`, the script, and those of Python: `-mpre_commit` and what pre-commit gets.
    words = held_by(f"{caller}/cmdline")
    sys.argv = [words[1], *words[3:]]


def held_by(path):
    with open(path, "rb") as file:
        return [os.fsdecode(item) for item in file.read().split(b"\0")[:-1]]


if __name__ == "__main__":
    serve(*sys.argv[1:])
