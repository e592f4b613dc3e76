#!/usr/bin/env python3
"""Times `hookhost try`, /bin/true and `cat` of the same files, in one run, and prints ratios.

Usage: bench/try.py [--children | --settled] [PROGRAM]   (default: crates/hookhost/out/hookhost)

Each figure is the least of several runs, in milliseconds of wall time, so that a busy machine matters little. --children times
hooks that start children, and nothing else. They are compared with /bin/true started as often, with `cat` of the files, and, if it
is installed, with pre-commit on the same configuration and files, whose report has to be the same. The scratch folder is as an
earlier run left it. The time of the first run, which writes it, is printed too. --settled times ten hooks so long after that run
that the system has written its files to the disk, as after an earlier commit. It waits for some minutes.
"""
import os
import shutil
import subprocess
import sys
import tempfile
import time

sys.path.insert(0, os.path.dirname(os.path.abspath(__file__)))
from timing import is_asked, least, least_in_turn, made_peak, once, peak, program, seconds_to_settle, show

CHILDREN, SETTLED = is_asked("--children"), is_asked("--settled")
PROGRAM = program()
PRE_COMMIT = shutil.which("pre-commit")
CONFIGURATION = ".pre-commit-config.yaml"
HEAD = "repos:\n- repo: local\n  hooks:\n"


def hook(number, entry):
    return f"  - id: hook{number}\n    name: Hook {number}\n    language: fail\n    entry: {entry}\n"


def hooks_of(size):
    """A configuration of about `size` bytes in at most 500 hooks."""
    count = max(1, min(500, size // 100))
    each = size // count
    text = HEAD
    for number in range(count):
        empty = len(hook(number, ""))
        text += hook(number, "x" * max(1, each - empty - (len(HEAD) // count) - 1))
    return text[:size] if len(text) > size and text[:size].endswith("\n") else text


def comments_of(size):
    """A configuration of one hook and comments, `size` bytes in all."""
    text = HEAD + hook(0, "no")
    line = "# " + "c" * 77 + "\n"
    while len(text) + len(line) <= size:
        text += line
    return text + "#" * (size - len(text) - 1) + "\n" if size - len(text) > 1 else text


def write(name, text):
    with open(name, "w", encoding="utf-8") as file:
        file.write(text)


# ---- hooks that start children

# With these, a command of at most 131,072 bytes has room for 34 names of 7 bytes: 295 parts for 10,000.
LONG_ARGUMENTS = "[" + ", ".join(["x" * 13_078] * 10) + "]"


def command(number, entry, **keys):
    more = "".join(f"    {key.replace('-', '_')}: {value}\n" for key, value in keys.items())
    return f"  - id: hook{number}\n    name: Hook {number}\n    language: system\n    entry: {entry}\n{more}"


def names_of(count):
    """So many files of 400 bytes in the repository, and their names, which are short, so that a command takes 10,000."""
    os.makedirs("f", exist_ok=True)
    names = [f"f/{number:05}" for number in range(count)]
    for name in names:
        if not os.path.exists(name):
            write(name, "x" * 399 + "\n")
    return names


def in_git(names):
    """The repository's files are these, and the configuration."""
    subprocess.run(["git", "rm", "-r", "--cached", "--force", "--quiet", "--ignore-unmatch", "."], check=True)
    subprocess.run(["git", "add", "--pathspec-from-file=-"], input="\n".join([CONFIGURATION, *names]), text=True, check=True)


def report_of(words):
    return subprocess.run(words, capture_output=True, text=True).stdout


def time_hooks(what, hooks, names, started, aim="", changes=False):
    """One configuration of hooks over these files, each part of which starts one child: `started` in all."""
    write(CONFIGURATION, HEAD + "".join(hooks))
    paths = [CONFIGURATION, *names]
    shutil.rmtree(".hookhost", ignore_errors=True)
    ours = [PROGRAM, "try", CONFIGURATION, *paths]
    first = once(ours)
    time.sleep(seconds_to_settle() if SETTLED else 0)
    true = ["sh", "-c", "for at in $(seq $1); do /bin/true; done", "sh", str(started)]
    here = os.getcwd()
    mine, trues, cat = least_in_turn([(here, ours), (here, true), (here, ["cat", *paths])], 7)
    show(f"{what}", mine, trues, f"true {started} times")
    show("", mine, cat, "cat")
    if PRE_COMMIT:
        in_git(names)
        theirs = [PRE_COMMIT, "run", "--all-files", "--color", "never"]
        if report_of(theirs) != report_of(ours):
            sys.exit(f"bench/try.py: {what}: pre-commit reports something else")
        slow = min(once(theirs) for _ in range(1 if changes else 3))
        print(f"{'':44} {mine:9.2f} ms  pre-commit {slow:8.2f} ms  ratio {mine / slow:6.2f}{aim}")
    size, most = sum(os.path.getsize(name) for name in paths), peak("../peak", ours)
    print(f"{'':44} the first run, which writes the folder, {first:.2f} ms; "
          f"peak memory {most / size:.1f} times the tree of {size / 1e6:.1f} MB", flush=True)
    return mine


# Each has a word of its own, since a second child of one command on the same files isn't started.
TEN = [command(number, '"true"', require_serial="true", args=f"[hook{number}]") for number in range(10)]


def time_settled():
    for count, aim in ((1000, 0.25), (10000, 0.7)):
        time_hooks(f"ten hooks `true`, {count} files, settled", TEN, names_of(count), 10, f"  aim {aim}")


def time_children():
    one = [command(0, '"true"', require_serial="true")]
    alone = [command(0, '"true"', pass_filenames="false")]
    twice = {}
    for count in (1, 1000, 5000, 10000):
        names = names_of(count)
        if count != 5000:
            time_hooks(f"`true`, {count} files", one, names, 1)
            time_hooks(f"`true` without names, {count} files", alone, names, 1)
        twice[count] = time_hooks(f"ten hooks `true`, {count} files", TEN, names, 10, {1000: "  aim 0.25", 10000: "  aim 0.7"}.get(count, ""))
    print(f"{'twice the files (5,000 to 10,000), ten hooks':44} {twice[10000] / twice[5000]:.2f} times the time  aim 2.2")
    names = names_of(10000)
    time_hooks("`true`, 10,000 files in 295 parts", [command(0, '"true"', require_serial="true", args=LONG_ARGUMENTS)], names, 295, "  aim 3")
    names = names_of(1000)
    time_hooks("a child that changes 1 of 1,000 files", [command(0, "sh -c 'echo x >> f/00000'", pass_filenames="false")], names, 1, changes=True)
    time_hooks("a child that changes all of 1,000 files", [command(0, "sed -i s/x/y/", require_serial="true", files="^f/")], names, 1, changes=True)


def in_repository(time_them):
    folder = tempfile.mkdtemp()
    made_peak(folder)
    os.mkdir(os.path.join(folder, "repository"))
    os.chdir(os.path.join(folder, "repository"))
    try:
        subprocess.run(["git", "init", "--quiet", "."], check=True)
        time_them()
    finally:
        os.chdir("/")
        shutil.rmtree(folder)


def main():
    folder = tempfile.mkdtemp()
    os.chdir(folder)
    try:
        true = least(["/bin/true"], 50)
        write("one.yaml", HEAD + hook(0, "no"))
        write("one.txt", "x\n")
        show("start: one hook, one path", least([PROGRAM, "try", "one.yaml", "one.txt"], 50), true, "true")
        times = {}
        os.mkdir("files")
        for count in (10, 1000, 5000, 10000):
            names = [f"files/f{number:05}.txt" for number in range(count)]
            for name in names:
                if not os.path.exists(name):
                    write(name, "x" * 400)
            times[count] = least([PROGRAM, "try", "one.yaml", *names])
            show(f"one hook, {count} paths of 400 bytes", times[count], least(["cat", *names]), "cat ")
        print(f"{'twice the paths (5,000 to 10,000)':44} {times[10000] / times[5000]:.2f} times the time")
        for what, make in (("hooks", hooks_of), ("comments", comments_of)):
            sizes = {}
            for size in (1024, 65536, 524288, 1048576):
                write("big.yaml", make(size))
                real = os.path.getsize("big.yaml")
                sizes[size] = least([PROGRAM, "try", "big.yaml", "one.txt"])
                show(f"{real} bytes of {what}", sizes[size], least(["cat", "big.yaml", "one.txt"]), "cat ")
            print(f"{'twice the ' + what + ' (512 KiB to 1 MiB)':44} {sizes[1048576] / sizes[524288]:.2f} times the time")
    finally:
        os.chdir("/")
        shutil.rmtree(folder)


if CHILDREN or SETTLED:
    in_repository(time_settled if SETTLED else time_children)
else:
    main()
