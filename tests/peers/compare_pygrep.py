#!/usr/bin/env python3
"""Compares `builtin_hooks` with pre-commit's own `pygrep`, on random patterns, texts and arguments.

Usage: tests/peers/compare_pygrep.py [CASES [SEED]]   (default: 6000 cases, seed 1)

pre-commit (Debian's package of that name) must be installed, for the Python that runs this or for /usr/bin/python3, which Debian's
packages serve. If it is missing, nothing can be compared, and that is a failure. The program `selection_trial` must be built, by
`rt run`.

The patterns are of what the two languages of patterns share: letters, classes, groups, branches, repetitions, and the ends of lines,
words and texts. Each case is written to a folder, and pre-commit's functions are called on it in this process. If the answers differ,
a reason has to hold, which is tested: the two must agree once one side answers as the reason says. Another difference is a failure,
and so is a reason that no case needed.
"""
import contextlib
import io
import itertools
import os
import random
import re
import subprocess
import sys
import tempfile

sys.path.insert(0, os.path.abspath(f"{__file__}/../../shared"))
from debian_python import try_again
from places import program

PROGRAM = program("selection_trial")

try:
    from pre_commit import output as printed
    from pre_commit.languages import pygrep
except ImportError:
    try_again("pre-commit (Debian's package)")

ARGUMENTS = ["-i", "--ignore-case", "--multiline", "--negate"]
ATOMS = ["a", "b", "B", "c", "x", r"\.", "-", " ", r"\t", r"\n", r"\r", ".", ".", "[ab]", "[^a]", "[a-c]", r"[^\n]", r"\d", r"\D",
         r"\w", r"\W", r"\s", r"\S", "^", "$", r"\b", r"\B", r"\A", "(?:)", "\u00e9"]
PIECES = [b"a", b"b", b"A", b"B", b"c", b"x", b"-", b" ", b"\t", b"0", b".", b"\n", b"\n", b"\n", b"\r", b"\r\n", b"\x0b", b"\xff", "\u00e9".encode(),
          "\u0660".encode(), b"ab", b"aXb"]


# ---- cases

def pattern(rng, depth=0):
    """A pattern of what both languages have."""
    parts = []
    for _ in range(rng.randint(0 if depth else 1, 4)):
        part = rng.choice(ATOMS) if depth > 1 or rng.random() < 0.75 else "(" + rng.choice(["", "?:"]) + pattern(rng, depth + 1) + ")"
        if rng.random() < 0.25 and part[0] not in "^$" and part not in (r"\b", r"\B", r"\A", "(?:)"):
            part += rng.choice(["*", "+", "?", "*?", "+?", "{2}", "{1,2}", "{0,1}"])
        parts.append(part)
    text = "".join(parts)
    return text + "|" + pattern(rng, depth + 1) if rng.random() < 0.15 else text


def contents(rng):
    return b"".join(rng.choice(PIECES) for _ in range(rng.randint(0, 12)))


def cases(count, seed):
    rng = random.Random(seed)
    while count:
        entry = pattern(rng)
        args = [arg for arg in ARGUMENTS if rng.random() < 0.3]
        rng.shuffle(args)
        try:
            re.compile(entry.encode(), flags_of(args))
        except re.error:
            continue
        count -= 1
        yield entry, args, {name: contents(rng) for name in rng.sample(["a", "b.txt", "c d"], rng.randint(1, 3))}


def flags_of(args):
    flags = re.IGNORECASE if {"-i", "--ignore-case"} & set(args) else 0
    return flags | (re.MULTILINE | re.DOTALL if "--multiline" in args else 0)


# ---- the two answers

def ours(rows):
    """The answers of one process to all cases."""
    if not os.path.exists(PROGRAM):
        sys.exit("tests/peers/compare_pygrep.py: there is no crates/selection_trial/out/selection_trial: build it with `rt run` in crates/selection_trial")

    def line(entry, args, files):
        words = [entry.encode(), "\n".join(args).encode(), "\n".join(files).encode()]
        for name, text in files.items():
            words += [name.encode(), text]
        return "grep_answer " + " ".join(word.hex() or "-" for word in words) + "\n"

    ran = subprocess.run([PROGRAM], input="".join(line(*row) for row in rows).encode(), capture_output=True, check=True)
    return [bytes.fromhex(answer) for answer in ran.stdout.decode().splitlines()]


class Standard:
    """What pre-commit writes its output to."""
    def __init__(self):
        self.buffer = io.BytesIO()


def theirs(entry, args, files):
    """The status and the output of pre-commit's pygrep, as the program for tests shows them."""
    taken = Standard()
    with tempfile.TemporaryDirectory() as folder, inside(folder):
        for name, text in files.items():
            with open(name, "wb") as file:
                file.write(text)
        with writing_to(taken.buffer):
            status = pygrep.main([*args, "--", entry, *files])
    return b"%d\n" % status + taken.buffer.getvalue()


@contextlib.contextmanager
def inside(folder):
    before = os.getcwd()
    os.chdir(folder)
    try:
        yield
    finally:
        os.chdir(before)


@contextlib.contextmanager
def writing_to(buffer):
    """pre-commit's functions take their stream as a default argument, so that is what is changed."""
    functions = [printed.write, printed.write_line_b]
    before = [function.__defaults__ for function in functions]
    for function in functions:
        function.__defaults__ = tuple(buffer if hasattr(value, "write") else value for value in function.__defaults__)
    try:
        yield
    finally:
        for function, defaults in zip(functions, before):
            function.__defaults__ = defaults


# ---- why two answers may differ. Each reason changes how one side answers; it holds if the two then agree.

def without_line_feeds(entry, args, files):
    """What pre-commit would answer if it searched each line without its line feed, as the program does."""
    if "--multiline" in args:
        return theirs(entry, args, files)
    found = re.compile(entry.encode(), flags_of(args))
    text = b""
    for name, data in files.items():
        lines = data.split(b"\n")[:-1] if data.endswith(b"\n") or not data else data.split(b"\n")
        hits = [(number, line) for number, line in enumerate(lines, 1) if found.search(line)]
        if "--negate" in args:
            text += b"" if hits else name.encode() + b"\n"
        else:
            text += b"".join(b"%s:%d:%s\n" % (name.encode(), number, line.rstrip(b"\r")) for number, line in hits)
    return b"%d\n" % (1 if text else 0) + text


def with_bytes(entry):
    """The entry for `regex` if it is to be read as Python reads a pattern of bytes."""
    return "(?-u)" + "".join(sign if sign < "\x80" else "".join(rf"\x{byte:02x}" for byte in sign.encode()) for sign in entry)


def with_empty_texts(entry):
    """The entry for Python if `\\B` is to be found in an empty text too."""
    return entry.replace(r"\B", r"(?:\B|\A\Z)")


FEEDS = "by line, a line is searched without its line feed here, and with it there"
BYTES = "classes, `.`, `-i` and signs beyond ASCII are those of characters here, and of bytes there"
EMPTY = r"`\B` is found in an empty text here, and there isn't"
REASONS = [FEEDS, BYTES, EMPTY]


def agree_but_for(reasons, entry, args, files):
    """Whether the two answers are the same, apart from these reasons."""
    mine = ours([(with_bytes(entry) if BYTES in reasons else entry, args, files)])[0]
    other = without_line_feeds if FEEDS in reasons else theirs
    return mine == other(with_empty_texts(entry) if EMPTY in reasons else entry, args, files)


def reasons_of(case):
    """The fewest reasons for which the two answers differ, or None."""
    sets = (reasons for count in (1, 2, 3) for reasons in itertools.combinations(REASONS, count))
    return next((reasons for reasons in sets if agree_but_for(reasons, *case)), None)


def main():
    count = int(sys.argv[1]) if len(sys.argv) > 1 else 6000
    seed = int(sys.argv[2]) if len(sys.argv) > 2 else 1
    rows = list(cases(count, seed))
    agreed, excused, wrong = 0, 0, 0
    used = dict.fromkeys(REASONS, 0)
    for case, mine in zip(rows, ours(rows), strict=True):
        other = theirs(*case)
        if mine == other:
            agreed += 1
            continue
        reasons = reasons_of(case)
        if reasons is None:
            wrong += 1
            print(f"DIFFERENT: {case}\n  here  {mine}\n  there {other}")
            continue
        excused += 1
        for reason in reasons:
            used[reason] += 1
    for reason, number in used.items():
        print(f"{number} differ: {reason}")
    print(f"compare_pygrep: {agreed} of {len(rows)} cases agree, {excused} differ with a reason")
    print(f"compare_pygrep: {agreed + excused} passed, {wrong} failed")
    sys.exit(1 if wrong or not agreed or not all(used.values()) else 0)


main()
