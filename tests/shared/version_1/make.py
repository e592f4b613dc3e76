#!/usr/bin/env python3
"""Makes the stores of this folder again, by a program whose stores are of version 1.

Usage: tests/shared/version_1/make.py [PROGRAM [NAME..]]   (default: crates/hookhost/out/hookhost, and all stores)

They are kept so that later versions are tried on what this program wrote. So a program that makes stores of another version can't
make them. The text of each store (stores.py) says what it holds and shows.
"""
import os
import shutil
import subprocess
import sys
import tempfile

sys.path.insert(0, os.path.abspath(f"{__file__}/../.."))
import stores
from places import program

PROGRAM = os.path.abspath(sys.argv[1] if len(sys.argv) > 1 else program("hookhost"))
CONFIG = ".pre-commit-config.yaml"
EVERY_BYTE = bytes(range(256))
LOOK_UPS = [["status"], ["fixes"], ["log"], ["memory"]]


class Repository:
    """A repository in a folder of its own, which is the current one, so that a path may be as long as one can be."""

    def __init__(self, folder):
        os.chdir(folder)
        self.do("init")

    def do(self, *words, status=0):
        done = subprocess.run([PROGRAM, *words], stdin=subprocess.DEVNULL, capture_output=True, timeout=600)
        if (done.returncode, done.stderr) != (status, b""):
            sys.exit(f"make.py: {words!r:.300} ends with {done.returncode}, and says {done.stdout!r:.2000} {done.stderr!r:.2000}")
        return done.stdout

    def stage(self, files, *how):
        """Stages these files, which the working folder then has."""
        for path, held in files.items():
            if os.path.dirname(path):
                subprocess.run(["mkdir", "-p", "--", os.path.dirname(path)], check=True)
            with open(path, "wb") as file:
                file.write(held)
        self.do("add", *how, "--", *files)

    def commit(self, message, *how):
        self.do("commit", *how, f"-m{message}")


def configuration(*hooks, more=""):
    return f"{more}repos:\n- repo: local\n  hooks:\n{''.join(f'  - {hook}' + chr(10) for hook in hooks)}".encode()


def hook(name, entry, more=""):
    return f"{{id: {name.lower()}, name: {name}, language: system, entry: {entry}{', ' + more if more else ''}}}"


# ---- the stores. Each makes one, and answers the commands by which it is shown

def empty(_repository):
    return LOOK_UPS


# A path of 4,095 bytes, which is the longest that a file can be opened by.
LONGEST = "/".join(["d" * 255] * 15 + ["l" * 255])
HARD_PATHS = ["e\u0301.txt", "\u00e9/\u65e5\u672c\u8a9e.txt", "\U0001f600", " blanks ", "a \"quote\" and 'one'", "back\\slash", "--dash", "[glob*]?", "-",
              "percent%20", "a;b|c", "\u202eturned", ".gitignore", ".hidden/.file", "a.txt.b", "a.txt-b"]


def staged(repository):
    repository.stage({
        "empty": b"", "plain.txt": b"one\n", "no line end": b"two", "every byte": EVERY_BYTE, "zeros": bytes(20_000), "same": b"one\n",
        "deep/" + "/".join(map(str, range(60))) + "/file": b"deep\n", LONGEST: b"long\n", **{path: path.encode() for path in HARD_PATHS},
    })
    repository.stage({"run.sh": b"#!/bin/sh\n", "dir/run": EVERY_BYTE, "changes its mode": b"mode\n"}, "--chmod=+x")
    # Contents that no file has any more, and a mode that is kept.
    repository.stage({"plain.txt": b"first\n", "gone": b"gone\n", "run.sh": b"#!/bin/sh\necho\n"})
    repository.do("rm", "gone")
    paths = ["empty", "plain.txt", "no line end", "every byte", "zeros", LONGEST, "run.sh", *HARD_PATHS]
    return [*LOOK_UPS, *(["cat", "--", path] for path in paths), ["cat", "gone"]]


MESSAGES = ["One line", "Subject\n\nA body of\ntwo lines\n", "\n\n  blanks before\nand behind  \t\n\n\n\nlines\n\n", "# no comment\n#\n",
            "\u00e9 \u65e5\u672c\u8a9e \U0001f600", "x" * 5000, "a\ttab\nand ends of lines\r\nof another kind\r\n", "last word of its own"]
# A message of any bytes is one that a hook writes.
BYTES_OF_MESSAGE = hook("Bytes", "sh -c 'printf \"\\377\\000\\001\\n\\n\\302\\205 \\n.\" > \"$1\"' --", "stages: [prepare-commit-msg]")


def commits(repository):
    repository.stage({CONFIG: b"repos: []\n", "a": b"1\n", "dir/b": b"b\n"})
    repository.stage({"tool": b"#!/bin/sh\n"}, "--chmod=+x")
    for at, message in enumerate(MESSAGES):
        repository.stage({"a": b"%d\n" % at})
        repository.commit(message)
    repository.do("rm", "dir")
    shutil.rmtree("dir")
    repository.stage({"dir": b"no folder any more\n"})
    repository.stage({"a": b"0\n"}, "--chmod=+x")
    repository.commit("A file in the place of a folder, and a mode")
    repository.stage({CONFIG: configuration(BYTES_OF_MESSAGE)})
    repository.commit("another")
    repository.do("forget")
    repository.stage({"a": b"changed\n", "new": b""})
    repository.do("rm", "dir")
    repository.do("add", "--chmod=+x", CONFIG)
    shows = [["show", str(number)] for number in range(1, len(MESSAGES) + 4)]
    return [*LOOK_UPS, *shows, ["cat", "--commit=1", "a"], ["cat", "--commit=8", "dir/b"], ["cat", "--commit=9", "dir"], ["cat", "a"]]


FIXING = configuration(
    hook("Mend", "sed -i s/x/y/", "files: ^m"), hook("Away", "rm", "files: ^gone"), hook("Empties", "sh -c 'printf \"\" > \"$1\"' --", "files: ^emptied"),
    hook("Bytes", "sh -c 'cp \"every byte\" \"$1\"' --", "files: ^bytes"), hook("Same", "sed -i s/x/y/", "files: ^none"),
)


def fixes(repository):
    repository.stage({CONFIG: FIXING, "m\u00e9": b"x\n", "m/x": b"x\nx", "gone 1": b"1", "dir/gone": b"stays", "gone/2": b"2", "emptied": b"e",
                      "none": b"z\n", "every byte": EVERY_BYTE})
    repository.stage({"mode": b"x", "bytes": b"b"}, "--chmod=+x")
    repository.commit("first", "--no-verify")
    repository.do("run", "--all-files", status=1)
    fixed = ["m\u00e9", "m/x", "emptied", "bytes", "mode", "none", "gone 1"]
    return [*LOOK_UPS, *(["cat", "--fixed", path] for path in fixed), ["run", "--all-files"], *LOOK_UPS, ["accept"], *LOOK_UPS,
            ["commit", "--no-verify", "-m", "second"], ["log"]]


MESSAGE_HOOKS = [
    hook("Write", "sh -c 'echo \"a line\" >> \"$1\"' --", "stages: [prepare-commit-msg]"),
    hook("Read", "cat", "stages: [commit-msg], verbose: true"), hook("Behind", "echo behind", "stages: [post-commit], always_run: true, verbose: true"),
]
# What is never cached: a signal, a program that isn't there, and an answer that changes a file which its command hasn't seen.
UNREMEMBERED = [
    hook("Killed", "sh -c 'kill -9 $$' --", "stages: [manual]"), hook("Nowhere", "no-such-program", "stages: [manual]"),
    hook("Strays", "sh -c 'echo >> text.txt' --", "stages: [manual], files: ^note"),
]
ANSWERING = configuration(
    hook("Says", "cat", "files: ^every, verbose: true"), hook("Again", "cat", "files: ^every"),
    hook("Fails", "sh -c 'echo no >&2; echo yes; exit 255' --", "files: \\.txt$"), hook("Three", "sh -c 'exit 3' --", "files: \\.txt$"),
    hook("Mend", "sed -i s/x/y/", "files: ^m"), hook("More", "sed -i s/y/z/", "files: ^m"), hook("Away", "rm", "files: ^gone"),
    hook("Empties", "sh -c 'printf \"\" > \"$1\"' --", "files: ^emptied"), hook("Whole", "sh -c 'find . -type f | wc -l'", "pass_filenames: false, files: txt, verbose: true"),
    hook("Always", "'true'", "always_run: true, files: ^$"), hook("Clock", "sh -c 'cat ../../clock' --", "files: ^text, verbose: true"),
    hook("Slash", "./tools/run", "files: ^text, verbose: true"),
    "{id: script, name: Script, language: script, entry: tools/check, args: [--all, two words], files: ^text, verbose: true}",
    hook("Slow", "echo slow", "stages: [manual], files: ^text, verbose: true"), *UNREMEMBERED, *MESSAGE_HOOKS,
    more="default_stages: [pre-commit]\n",
)
ANSWERED = {
    CONFIG: ANSWERING, "every byte": EVERY_BYTE, "text.txt": b"text\n", "empty.txt": b"", "m\u00e9 x": b"x\n", "m/y": b"x", "gone": b"1", "gone\u00e9": b"",
    "emptied": b"e", "tools/check": b"echo \"$2\" \"$3\"\n",
}


def set_clock(time):
    with open("clock", "wb") as file:
        file.write(time)


def answers(repository):
    set_clock(b"one\n")
    repository.stage(ANSWERED)
    repository.stage({"tools/run": b"#!sh -e\necho run\n", "mode.txt": EVERY_BYTE}, "--chmod=+x")
    repository.do("run", "--all-files", status=1)
    repository.commit("first", "--no-verify")
    repository.stage({"note": b"1"})
    repository.commit("second\n\nof two")
    # An answer is replaced, and what it was stays among the contents.
    set_clock(b"two\n")
    if b"unsteady: clock\n" not in repository.do("run", "clock", "--all-files", "--fresh"):
        sys.exit("make.py: no hook is unsteady")
    # The same words with other files, and the same files with another mode.
    repository.stage({"note": b"2", "text.txt": b"other\n"})
    repository.do("run-files", "text.txt", status=1)
    repository.stage({"text.txt": b"text\n"}, "--chmod=+x")
    repository.do("run", "--hook-stage=manual", "--all-files", status=1)
    repository.do("run-files", "m/y", status=1)
    repository.do("run", "--all-files", status=1)
    return [*LOOK_UPS, ["run", "--all-files"], ["run-files", "m/y"], ["run", "slow", "--hook-stage=manual", "--all-files"],
            ["commit", "-m", "second\n\nof two", "--no-verify"], ["rm", "note"], ["commit", "-m", "second\n\nof two"], *LOOK_UPS, ["forget"], ["memory"]]


# With these words two names of 400 bytes fit one command, and a third doesn't.
LONG = "x" * 65_000
PARTS = configuration(hook("Parts", "sh -c 'shift 2; cat \"$@\"; sed -i s/2/two/ \"$@\"; exit $#' --", f"args: [{LONG}, {LONG}], files: ^long/"))


def parts(repository):
    repository.stage({CONFIG: PARTS, **{f"long/{'n' * 194}/{at:0200d}": b"%d\n" % at for at in range(3)}})
    repository.do("run", "--all-files", status=1)
    return [["status"], ["memory"], ["run", "--all-files"], ["fixes"], ["memory"]]


NUMBERS = 16
MANY = configuration(hook("Tells", "cat", "files: ^a, verbose: true"), hook("Ends", "sh -c 'read -r n < \"$1\"; exit \"$n\"' --", "files: ^a"))


def many(repository):
    """Answers of two hooks to many versions of a file, whose keys come in no order, with a commit for some."""
    repository.stage({CONFIG: MANY})
    for at in range(NUMBERS):
        repository.stage({"a": b"%d\n" % at})
        repository.do("run", "--all-files", status=int(at > 0))
        if at % 5 == 0:
            repository.commit(f"of {at}", "--no-verify")
    return [*LOOK_UPS, ["run", "--all-files"], *LOOK_UPS]


STORES = [empty, staged, commits, fixes, answers, parts, many]


def main():
    chosen = sys.argv[2:] or [make.__name__ for make in STORES]
    for make in (make for make in STORES if make.__name__ in chosen):
        with tempfile.TemporaryDirectory() as folder, tempfile.TemporaryDirectory() as copy:
            commands = make(Repository(folder))
            with open(stores.STORE, "rb") as file:
                database = file.read()
            os.chdir(copy)
            name = make.__name__
            stores.keep(name, database, "")
            stores.lay(name, copy)
            if stores.rows_of(stores.STORE)["meta"] != [("'version'", "1")]:
                sys.exit(f"make.py: {PROGRAM} makes no stores of version 1")
            text = stores.told(PROGRAM, copy, commands)
            # No program is found there, so a command that was started would be a fault.
            if "- fault: " in text:
                sys.exit(f"make.py: of {name} a command is started that isn't remembered: {text}")
            stores.keep(name, database, text)
            os.chdir(stores.HERE)


main()
