"""What the end of a program's file says of how it was built, in the form of docs/REFERENCE.md."""
import os
import re

BYTES, UNKNOWN = 96, "build: unknown\n"
PROVED, TRIAL = "build: proved, of commit ", "build: trial, nothing was proved, of commit "
STAMP = re.compile(rf"\n+((?:{PROVED}|{TRIAL})(?:unknown|[0-9a-f]{{12}}(?: with changes)?)\n)".encode())


def end_of(program):
    with open(program, "rb") as file:
        file.seek(-BYTES, os.SEEK_END)
        return file.read()


def build_line(program):
    """The line that `--version` prints of the program in a file."""
    found = STAMP.fullmatch(end_of(program))
    return found[1].decode() if found else UNKNOWN


def without_stamp(program):
    """The bytes of a program without its stamp, if it has one."""
    with open(program, "rb") as file:
        held = file.read()
    return held[:-BYTES] if STAMP.fullmatch(held[-BYTES:]) else held
