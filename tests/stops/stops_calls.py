"""The system calls of a program, as strace counts and stops them, for tests/stops/stops.py and tests/stops/interrupts.py."""
import collections
import re
import tempfile
from pathlib import Path

from host_program import check
from stops_repository import QUICK, told_by


def traced(program, words, work, calls, *inject):
    """What the words print, and the lines that strace writes of these calls."""
    with tempfile.NamedTemporaryFile(dir=QUICK) as log:
        told = told_by(["strace", "-qq", "-o", log.name, "-e", "signal=none", "-e", f"trace={calls}", *inject, program, *words], work)
        return told, Path(log.name).read_text(errors="replace").splitlines()


def calls_of(scene):
    """The system calls of a command if nothing stops it, from the first one in its folder on, each with its number among those of its
    name."""
    work = scene.copy(scene.copies)
    told, lines = traced(scene.program, scene.words, work, "all")
    check(told == scene.told, f"{scene.name}: beside strace it says {told!r}")
    numbers, found, is_begun = collections.Counter(), [], False
    for line in lines:
        if made := re.match(r"(\w+)\(", line):
            name = made[1]
            numbers[name] += 1
            is_begun = is_begun or '".hookhost' in line
            if is_begun:
                found.append((name, numbers[name]))
    return found
