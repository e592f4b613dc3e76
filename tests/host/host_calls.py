"""Cases of tests/host/host.py: the variables of Git's hook. One names the file in which its `git` notes calls, one the folder of commands."""
import os
from pathlib import Path

from host_program import check, do, run, write

VARIABLE, SCRATCH = "HOOKHOST_GIT_CALLS", "HOOKHOST_SCRATCH"
HOOKS = b"""repos:
- repo: local
  hooks:
  - {id: calls, name: Calls, language: system, entry: "sh -c 'echo x >> \\"$CALLED\\"' --", files: ^a$}
  - {id: other, name: Other, language: system, entry: "true", files: ^a$}
"""
FAULT = b"- hook id: calls\n- fault: files could not be written or read back\n"


def told(folder):
    """A repository with those hooks, and the environment in which they run."""
    work = os.path.join(folder, "work")
    write(work, ".pre-commit-config.yaml", HOOKS)
    write(work, "a", b"1")
    do(work, "init")
    do(work, "add", ".")
    calls = os.path.join(folder, "calls")
    return work, calls, {**os.environ, "CALLED": calls, VARIABLE: calls}


def remembers_nothing_of_a_command_that_called_git(folder):
    """Nothing is cached of a command that notes a call, whether the file was there before or not. Otherwise the file makes no
    difference."""
    work, calls, told_of = told(folder)
    for held in (None, b"", b"before\n"):
        if held is not None:
            Path(calls).write_bytes(held)
        for words in (["run"], ["run-files", "a"], ["commit", "-m", "first"], ["run", "--fresh", "--cautious"]):
            status, out, err = run(work, *words, env=told_of)
            check((status, out.count(FAULT), out.count(b"Passed\n")) == (1, 1, 1), f"{words!r} with {held!r} ends with {status} and says {out!r}, {err!r}")
        check(do(work, "memory") == b"remembered: 1\n", "the command is remembered")
    unseen = {**told_of, "CALLED": os.path.join(folder, "elsewhere")}
    check(run(work, "run", env=unseen)[0] == 0 and do(work, "memory") == b"remembered: 2\n", "a command that calls nothing isn't remembered")
    check(run(work, "run", env=told_of)[0] == 0, "the remembered answer isn't used")


def goes_on_without_the_variable(folder):
    work, calls, told_of = told(folder)
    del told_of[VARIABLE]
    check(run(work, "run", env=told_of)[0] == 0 and Path(calls).read_bytes() == b"x\n", "without the variable the command fails")


def takes_no_variable_that_is_no_text(folder):
    """It would watch no file, or use another folder. Only what runs hooks on the repository asks for the variables."""
    work, _, told_of = told(folder)
    for variable in (VARIABLE, SCRATCH):
        spoilt = {**told_of, variable: os.fsdecode(b"/\xff")}
        for words in (["run"], ["run-files", "a"], ["commit", "-m", "first"]):
            answer = run(work, *words, env=spoilt)
            check(answer == (3, b"", b"hookhost: cannot use " + variable.encode() + b"\n"), f"{words!r} is answered {answer!r}")
        for words in (["status"], ["add", "a"], ["forget"], ["try", ".pre-commit-config.yaml", "a"]):
            check(run(work, *words, env=spoilt)[0] == 0, f"{words!r} asks for {variable}")


def runs_where_the_variable_says(folder):
    """Commands of the repository's hooks run there, and those of a try in their usual folder."""
    work, calls, told_of = told(folder)
    place = os.path.join(folder, "elsewhere", "scratch")
    write(work, ".pre-commit-config.yaml", HOOKS.replace(b"echo x >>", b"pwd >"))
    do(work, "add", ".")
    del told_of[VARIABLE]
    check(run(work, "run", env={**told_of, SCRATCH: place})[0] == 0 and Path(calls).read_text() == os.path.realpath(place) + "\n", f"the command ran in {Path(calls).read_text()!r}")
    check(not os.path.lexists(os.path.join(work, ".hookhost/scratch")), "there is another folder of commands")
    check(run(work, "try", ".pre-commit-config.yaml", "a", env={**told_of, SCRATCH: place})[0] == 0, "a try fails")
    check(Path(calls).read_text() == os.path.realpath(work) + "/.hookhost/scratch\n", f"the command of a try ran in {Path(calls).read_text()!r}")


CASES = [remembers_nothing_of_a_command_that_called_git, goes_on_without_the_variable, takes_no_variable_that_is_no_text,
         runs_where_the_variable_says]
