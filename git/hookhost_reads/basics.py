"""What the other modules share: the error that ends a run, names as they are printed and as patterns, and commands."""
import os
import subprocess

CONFIGURATION = ".pre-commit-config.yaml"


class Refused(Exception):
    """Why this can't work, in words."""


ESCAPES = {7: "\\a", 8: "\\b", 9: "\\t", 10: "\\n", 11: "\\v", 12: "\\f", 13: "\\r", 34: '\\"', 92: "\\\\"}


def shown(path):
    """The path, in double quotes with the escapes of C if it has blanks, quotes, or bytes that can't be printed."""
    out = ""
    for letter in path:
        if letter.isprintable() and letter not in '"\\':
            out += letter
        else:
            out += "".join(ESCAPES.get(byte) or f"\\{byte:03o}" for byte in os.fsencode(letter))
    return f'"{out}"' if out != path or " " in out or not path else path


def as_pattern(path):
    """The path as a pattern that finds just these characters."""
    return "".join("\\" + letter if letter in r"\.+*?()|[]{}^$" else letter if letter.isprintable() else f"\\x{{{ord(letter):x}}}" for letter in path)


def extension(path):
    """The end of a file's name, from its last dot on; empty for a name that begins with its only dot."""
    return os.path.splitext(os.path.basename(path))[1]


def below(folder, path):
    """The path relative to the folder, or None if it isn't below it."""
    return path[len(folder) + 1:] if path.startswith(folder + "/") else None


def write_program(path):
    """Writes a program that does nothing."""
    with open(path, "wb") as file:
        file.write(b"#!/bin/sh\nexit 0\n")
    os.chmod(path, 0o755)


def done(words, **how):
    """A command that has ended, with what it printed."""
    return subprocess.run(words, stdin=subprocess.DEVNULL if "input" not in how else None, capture_output=True, **how)
