#!/usr/bin/env python3
"""Checks the built program on a pseudo terminal: what standard error shows while a child runs, and what is left of it.

Usage: tests/host/terminal.py [PROGRAM]   (default: crates/hookhost/out/hookhost)

The terminal here is a screen that follows ECMA-48, and xterm at the right margin. Each line that is shown is compared as it is on the
screen, and so is the screen at the end. The width of a character is that of Python's unicodedata.
"""
import fcntl
import os
import re
import select
import shutil
import struct
import subprocess
import sys
import tempfile
import termios
import time
import unicodedata
from pathlib import Path

sys.path.insert(0, os.path.abspath(f"{__file__}/../../shared"))
from places import TOP, program

PROGRAM = os.path.abspath(sys.argv[1] if len(sys.argv) > 1 else program("hookhost"))
LIMIT = 60
# What is said on a terminal after a run that left fixes.
FIXES = "hint: hookhost fixes lists what hooks changed, hookhost accept stages it"
NO_FIXES = "hint: there are no fixes: hookhost run makes them, where a hook changes files"


class Wrong(Exception):
    """What is wrong, in words."""


def check(holds, text):
    if not holds:
        raise Wrong(text)


def equal(found, wanted, text):
    check(found == wanted, f"{text}: {found!r} in place of {wanted!r}")


# ---- a terminal

def width_of(c):
    if unicodedata.combining(c) or unicodedata.category(c) in ("Mn", "Me", "Cf"):
        return 0
    return 2 if unicodedata.east_asian_width(c) in "WF" else 1


class Screen:
    """The rows of a terminal, each a list of cells. The second cell of a wide character is empty."""

    def __init__(self, columns):
        self.columns, self.rows, self.at = columns, [[]], [0, 0]
        self.wraps, self.pending = True, False
        # The row of the cursor whenever wrapping was turned on again: the lines that were shown.
        self.shown = []
        # Each color with the text that has it, and the color of what comes next, with the cell at which it begins.
        self.colors, self.color = [], None
        self.left = b""

    def take(self, data):
        data = self.left + data
        while data:
            if found := re.match(rb"\x1b(\[[?0-9;]*[@-~])?", data):
                if not found[1]:
                    check(len(data) < 2, f"an escape that a terminal may not know: {data[:8]!r}")
                    break
                self.obey(found[1])
                data = data[found.end():]
                continue
            size = 1 if data[0] < 0x80 else 2 if data[0] < 0xE0 else 3 if data[0] < 0xF0 else 4
            if len(data) < size:
                break
            self.put(data[:size].decode())
            data = data[size:]
        self.left = data

    def obey(self, sequence):
        if sequence == b"[?7l":
            self.wraps = False
        elif sequence == b"[?7h":
            self.wraps = True
            self.shown.append(self.text(self.at[0]))
        elif sequence == b"[K":
            self.rows[self.at[0]] = self.row()[:self.at[1]]
            self.pending = False
        elif found := re.fullmatch(rb"\[([0-9;]*)m", sequence):
            if self.color:
                color, (row, column) = self.color
                self.colors.append((color, "".join(self.rows[row][column:self.at[1]])))
            self.color = (found[1].decode(), tuple(self.at)) if found[1] else None
        else:
            raise Wrong(f"the sequence {sequence!r} was not expected")

    def row(self):
        while len(self.rows) <= self.at[0]:
            self.rows.append([])
        row = self.rows[self.at[0]]
        row.extend(" " * (self.at[1] - len(row)))
        return row

    def put(self, c):
        if c == "\r":
            self.at[1], self.pending = 0, False
        elif c == "\n":
            self.at[0], self.pending = self.at[0] + 1, False
            self.row()
        else:
            check(unicodedata.category(c) != "Cc", f"the control character {c!r} came")
            self.print(c, width_of(c))

    def print(self, c, width):
        if width == 0:
            row = self.row()
            if row:
                row[-1] += c
            return
        if self.at[1] + width > self.columns or self.pending:
            if self.wraps:
                self.at, self.pending = [self.at[0] + 1, 0], False
            else:
                self.at[1] = self.columns - width
        row = self.row()
        row[self.at[1]:self.at[1] + width] = [c, *[""] * (width - 1)]
        self.pending = self.at[1] + width == self.columns
        self.at[1] = min(self.at[1] + width, self.columns - 1)

    def text(self, number):
        return "".join(self.rows[number]).rstrip(" ") if number < len(self.rows) else ""

    def all(self):
        return [self.text(number) for number in range(len(self.rows))]


class Played:
    """A program whose standard error is a terminal."""

    def __init__(self, folder, words, columns=80, out_too=False, in_too=False, **variables):
        self.end, near = os.openpty()
        fcntl.ioctl(near, termios.TIOCSWINSZ, struct.pack("HHHH", 24, columns, 0, 0))
        environment = {name: text for name, text in os.environ.items() if name not in ("COLUMNS", "TERM", "SKIP")}
        environment.update({"TERM": "xterm", **variables})
        self.out = None if out_too else tempfile.TemporaryFile()
        self.child = subprocess.Popen([PROGRAM, *words], cwd=folder, stdin=near if in_too else subprocess.DEVNULL, stdout=near if out_too else self.out, stderr=near, env=environment)
        os.close(near)
        self.screen, self.bytes = Screen(columns), b""

    def read(self, seconds=LIMIT):
        """Takes what comes next, and answers whether anything did. At the end nothing does."""
        if not select.select([self.end], [], [], seconds)[0]:
            raise Wrong(f"nothing came on the terminal for {seconds} seconds, after {self.bytes!r}")
        try:
            data = os.read(self.end, 65536)
        except OSError:
            data = b""
        self.bytes += data
        self.screen.take(data)
        return data != b""

    def wait(self):
        """The exit status, once all was read."""
        while self.read():
            pass
        return self.ended()

    def ended(self):
        status = self.child.wait(LIMIT)
        os.close(self.end)
        return status

    def printed(self):
        self.out.seek(0)
        return self.out.read().decode()


def hook(entry, name="H", **keys):
    quoted = '"' + entry.replace("\\", "\\\\").replace('"', '\\"').replace("\n", "\\n").replace("\t", "\\t").replace("\x1b", "\\x1b").replace("\r", "\\r") + '"'
    lines = [f"  - id: {name.lower()}", f"    name: {name}", "    language: system", f"    entry: {quoted}"]
    return "\n".join(lines + [f"    {key}: {value}" for key, value in keys.items()]) + "\n"


def folder_of(hooks, files=()):
    folder = tempfile.mkdtemp(dir=BASE)
    Path(folder, "c.yaml").write_text("repos:\n- repo: local\n  hooks:\n" + "".join(hooks))
    for name in files:
        Path(folder, name).parent.mkdir(parents=True, exist_ok=True)
        Path(folder, name).write_text("x\n")
    return folder, ["try", "c.yaml", *files]


def line(name, word):
    return name + "." * (79 - len(name) - len(word)) + word


def shows(hooks, files, shown, status=0, left=(), **how):
    """The lines that are shown are these, and of what is on the screen only these lines are left."""
    folder, words = folder_of(hooks, files)
    played = Played(folder, words, **how)
    equal(played.wait(), status, "the exit status")
    equal(played.screen.shown, shown, "the lines that were shown")
    equal(played.screen.all(), [*left, ""], "what is left on the screen")
    equal((played.screen.at, played.screen.wraps), ([len(left), 0], True), "where the cursor is left, and whether lines wrap")
    return played


# ---- the cases

def shows_each_child_and_how_many_came_before():
    played = shows([hook("true", "A"), hook("no-such-program", "B"), hook("false", "C", always_run="true", pass_filenames="false"), hook("true again", "D")], ["a.txt", "b.txt"], [
        "[0] 1/4 A: true a.txt b.txt", "[1] 2/4 B: no-such-program a.txt b.txt", "[2] 3/4 C: false", "[3] 4/4 D: true again a.txt b.txt"], status=1,
        left=["hookhost: cannot start no-such-program: No such file or directory (os error 2)"])
    equal([it.split(".")[0] for it in played.printed().splitlines() if it.startswith(tuple("ABCD"))], ["A", "B", "C", "D"], "the report")


def shows_none_where_an_answer_is_remembered():
    played = shows([hook("true", "A"), hook("true", "B"), hook("true again", "C")], ["a.txt"], ["[0] 1/3 A: true a.txt", "[1] 3/3 C: true again a.txt"])
    equal(played.printed(), "".join(line(name, "Passed") + "\n" for name in "ABC"), "the report")


def names_the_hooks_that_start_children_by_their_place():
    hooks = [hook("no", "A", files="^b").replace("system", "fail"), hook("true", "B", files="^b"), hook("x", "C").replace("system", "pygrep"), hook("true x", "A name", args="[-y, z]"), hook("true m", "M", stages="[manual]")]
    shows(hooks, ["a.txt"], ["[0] 4/4 A name: true x -y z a.txt"], status=1)


def names_hooks_that_start_a_file():
    folder, words = folder_of([hook("./b.sh 1", "B", files="^a").replace("system", "script"), hook("./c.py", "C", files="^a"), hook("sh c.py", "D", files="^a"), hook("e.sh", "E", files="^a").replace("system", "script")], ["a.txt"])
    Path(folder, "b.sh").write_text("exit 0\n")
    Path(folder, "c.py").write_text("#!/usr/bin/env -S sh -u\nexit 0\n")
    played = Played(folder, [*words, "b.sh", "c.py"])
    equal(played.wait(), 1, "the exit status")
    equal(played.screen.shown, ["[0] 1/4 B: sh b.sh 1 a.txt", "[1] 2/4 C: /usr/bin/env -S sh -u c.py a.txt", "[2] 3/4 D: sh c.py a.txt", "[3] 4/4 E: ./e.sh a.txt"], "the lines that were shown")


def names_the_hooks_of_a_configuration_on_standard_input():
    end, near = os.openpty()
    done = subprocess.Popen([PROGRAM], cwd=folder_of([])[0], stdin=subprocess.PIPE, stdout=subprocess.DEVNULL, stderr=near, env={**os.environ, "TERM": "xterm"})
    os.close(near)
    done.communicate(("repos:\n- repo: local\n  hooks:\n" + hook("true x", "A", always_run="true")).encode(), LIMIT)
    screen = Screen(80)
    screen.take(os.read(end, 65536))
    os.close(end)
    equal((done.returncode, screen.shown), (0, ["[0] 1/1 A: true x"]), "the line")


def names_each_of_hooks_with_the_same_words():
    """The run says which hook a child is of, also if two have the same words and the first has no files."""
    shows([hook("true", "A", files="none"), hook("true", "B", files="^a"), hook("true", "C", files="^b")], ["a.txt", "b.txt"], ["[0] 2/3 B: true a.txt", "[1] 3/3 C: true b.txt"])


def names_the_hooks_of_runs_and_commits():
    stages = {"A": "[pre-commit]", "B": "[pre-commit, commit-msg]", "C": "[pre-commit]", "M": "[manual]", "P": "[post-commit]"}
    folder, _ = folder_of([hook("true " + name.lower(), name, stages=stage, always_run="true", pass_filenames="false" if name == "P" else "true", exclude="yaml$") for name, stage in stages.items()], ["a.txt"])
    os.rename(Path(folder, "c.yaml"), Path(folder, ".pre-commit-config.yaml"))
    for words, variables, shown in [
        (["init"], {}, []),
        (["add", "."], {}, []),
        (["run"], {}, ["[0] 1/3 A: true a a.txt", "[1] 2/3 B: true b a.txt", "[2] 3/3 C: true c a.txt"]),
        (["run"], {}, []),
        (["run", "--fresh"], {"SKIP": "b,x"}, ["[0] 1/3 A: true a a.txt", "[1] 3/3 C: true c a.txt"]),
        (["run", "--fresh", "b"], {}, ["[0] 1/1 B: true b a.txt"]),
        (["run-files", "--hook-stage=manual", "a.txt"], {}, ["[0] 1/1 M: true m a.txt"]),
        (["forget"], {}, []),
        (["commit", "-m", "first"], {}, ["[0] 1/3 A: true a a.txt", "[1] 2/3 B: true b a.txt", "[2] 3/3 C: true c a.txt", "[3] 1/1 B: true b .git/COMMIT_EDITMSG", "[4] 1/1 P: true p"]),
    ]:
        played = Played(folder, words, **variables)
        equal(played.wait(), 0, f"the exit status of {words!r}")
        equal(played.screen.shown, shown, f"the lines that {words!r} shows")


def stands_while_the_child_runs():
    folder, words = folder_of([hook(f"sh -c 'until [ -e {BASE}/go ]; do sleep 0.01; done'", pass_filenames="false")], ["a.txt"])
    played = Played(folder, words)
    while not played.screen.shown:
        played.read()
    time.sleep(0.3)
    check(not select.select([played.end], [], [], 0)[0], "something came while the child ran")
    equal(played.screen.all(), [f"[0] 1/1 H: sh -c until [ -e {BASE}/go ]; do sleep 0.01; done"[:80]], "the screen")
    Path(BASE, "go").touch()
    equal(played.wait(), 0, "the exit status")
    equal(played.screen.all(), [""], "what is left on the screen")


def is_cut_to_the_columns_that_are_said():
    for columns in (1, 3, 4, 12, 40, 79, 80):
        shows([hook("echo " + "0123456789" * 20, pass_filenames="false")], ["a.txt"], [("[0] 1/1 H: echo " + "0123456789" * 20)[:columns].rstrip()], columns=columns, COLUMNS=str(columns))


def is_one_line_on_a_terminal_that_says_nothing():
    # The terminal cuts the line itself, and shows the last of 80 columns at its margin.
    text = ("[0] 1/1 H: echo " + "0123456789" * 20)[:80]
    for columns in (1, 2, 20, 79, 80, 200):
        shows([hook("echo " + "0123456789" * 20, pass_filenames="false")], ["a.txt"], [text[:columns - 1] + text[-1] if columns < 80 else text], columns=columns)


def what_columns_says_amiss_is_80():
    for said in ("", "0", "-5", "wide", "65536", "80 "):
        shows([hook("echo " + "0123456789" * 20, pass_filenames="false")], ["a.txt"], [("[0] 1/1 H: echo " + "0123456789" * 20)[:80]], columns=300, COLUMNS=said)


def wide_characters_take_two_columns():
    for columns, shown in ((27, "[0] 1/1 H: echo 日本語のな"), (26, "[0] 1/1 H: echo 日本語のな"), (25, "[0] 1/1 H: echo 日本語の"), (24, "[0] 1/1 H: echo 日本語の"), (23, "[0] 1/1 H: echo 日本語")):
        shows([hook("echo 日本語のなまえ", pass_filenames="false")], ["a.txt"], [shown], columns=columns, COLUMNS=str(columns))
    shows([hook("echo", pass_filenames="true")], ["é/日本.txt", "e\u0301.txt"], ["[0] 1/1 H: echo e\u0301.txt é/日本.txt"])


def control_characters_are_shown_as_question_marks():
    shows([hook("echo 'a\nb\x1b[2Jc\td\x1b]0;title\re'", pass_filenames="false")], ["a.txt"], ["[0] 1/1 H: echo a?b?[2Jc?d?]0;title?e"])
    shows([hook("echo '\x1b[31m\n\n\n'", pass_filenames="false")], ["a.txt"], ["[0] 1/1 H: echo ?[31m???"])
    shows([hook("echo \u009b31m\u0085\u007f", pass_filenames="false")], ["a.txt"], ["[0] 1/1 H: echo ?31m??"])


def long_commands_are_one_line():
    names = [f"files/{number:06}.txt" for number in range(3000)]
    shows([hook("true", require_serial="true")], names, [("[0] 1/1 H: true " + " ".join(names))[:80]])


def parts_are_shown_one_by_one():
    names = [f"{number:06}" + "x" * 150 + ".txt" for number in range(2000)]
    folder, words = folder_of([hook("true")], names)
    played = Played(folder, words)
    equal(played.wait(), 0, "the exit status")
    check(len(played.screen.shown) > 1, f"there is one part: {played.screen.shown!r}")
    equal([text.split("] ")[0] for text in played.screen.shown], [f"[{number}" for number in range(len(played.screen.shown))], "how many came before")
    equal(played.screen.all(), [""], "what is left on the screen")


def what_a_child_prints_stays_off_the_terminal():
    shows([hook("sh -c 'echo out; echo err >&2; printf \"\\033[2J\" >&2'", pass_filenames="false")], ["a.txt"], ["[0] 1/1 H: sh -c echo out; echo err >&2; printf \"\\033[2J\" >&2"])


def a_report_on_the_same_terminal_stands_alone():
    hooks = [hook("true", "A"), hook("sh -c 'echo said; exit 3'", "B"), hook("true again", "C")]
    folder, words = folder_of(hooks, ["a.txt"])
    wanted = subprocess.run([PROGRAM, *words], cwd=folder, stdin=subprocess.DEVNULL, capture_output=True, timeout=LIMIT)
    equal((wanted.returncode, wanted.stderr), (1, b""), "without a terminal")
    played = Played(folder, words, out_too=True)
    equal(played.wait(), 1, "the exit status")
    equal(len(played.screen.shown), 3, "how many lines were shown")
    equal(played.screen.all(), [text.rstrip() for text in wanted.stdout.decode().split("\n")], "the screen")


def waits_for(name):
    return f"sh -c 'until [ -e {BASE}/{name} ]; do sleep 0.01; done'"


def the_report_comes_as_hooks_end():
    """What it says of a hook is on the screen before the next one ends, in colors, and in the end the screen has the report alone."""
    fails = hook("sh -c 'echo said; exit 3'", "B")
    for number, (words, stages) in enumerate([(["try", "c.yaml", "a.txt"], ""), (["run"], ""), (["commit", "-m", "first"], "[pre-commit, commit-msg]")]):
        hooks = [hook("true", "A"), hook("no", "F", files="none").replace("system", "fail"), fails, hook(waits_for(f"end-{number}"), "C", pass_filenames="false", always_run="true"), hook("true again", "D")]
        hooks = [it + f"    stages: {stages}\n" for it in hooks] if stages else hooks
        folder, _ = folder_of(hooks, ["a.txt"])
        shutil.copy(Path(folder, "c.yaml"), Path(folder, ".pre-commit-config.yaml"))
        for setting in (["init"], ["add", "."]):
            says(folder, setting, 0, [])
        played = Played(folder, words, out_too=True)
        while len(played.screen.shown) < 3:
            check(played.read(), f"{words!r} ended: {played.screen.all()!r}")
        begun = [line("A", "Passed"), line("F", "(no files to check)Skipped"), line("B", "Failed"), "- hook id: b", "- exit code: 3", "", "said", ""]
        equal(played.screen.all()[:len(begun)], begun, f"the screen while {words!r} runs")
        equal(played.screen.colors, [("42", "Passed"), ("46;30", "Skipped"), ("41", "Failed")], f"the colors while {words!r} runs")
        Path(BASE, f"end-{number}").touch()
        equal(played.wait(), 1, f"the exit status of {words!r}")
        equal(played.screen.all(), [*begun, line("C", "Passed"), line("D", "Passed"), ""], f"the screen after {words!r}")


def the_report_comes_in_git_hooks():
    """With a variable it is shown on standard error too, and what is shown there is noted in a file. Standard output has all of it."""
    folder, words = folder_of([hook("true", "A"), hook(waits_for("go-on"), "B", pass_filenames="false"), hook("true", "C")], ["a.txt"])
    noted = Path(BASE, "noted")
    noted.write_text("")
    played = Played(folder, [*words[:1], "--color=always", *words[1:]], HOOKHOST_SHOWN=str(noted))
    while len(played.screen.shown) < 2:
        check(played.read(), f"it ended: {played.screen.all()!r}")
    equal(played.screen.all()[0], line("A", "Passed"), "the screen while it runs")
    Path(BASE, "go-on").touch()
    equal(played.wait(), 0, "the exit status")
    equal(played.printed(), noted.read_text(), "what is noted")
    equal(re.sub("\x1b\\[[0-9;]*m", "", played.printed()), "".join(line(name, "Passed") + "\n" for name in "ABC"), "the report")
    equal(played.screen.all(), [line(name, "Passed") for name in "ABC"] + [""], "the screen in the end")
    # Without the file, and without a terminal, nothing is shown.
    played = Played(folder, words, HOOKHOST_SHOWN=str(Path(BASE, "nowhere")))
    equal((played.wait(), played.screen.all()), (0, [""]), "where the file isn't there")
    noted.write_text("")
    done = subprocess.run([PROGRAM, *words], cwd=folder, stdin=subprocess.DEVNULL, capture_output=True, timeout=LIMIT, env={**os.environ, "HOOKHOST_SHOWN": str(noted)})
    equal((done.returncode, done.stderr, noted.read_text()), (0, b"", ""), "without a terminal")


def a_verbose_run_tells_durations():
    """The duration of each hook whose commands were started is printed on standard error, once it has ended. No other hook has one."""
    folder, _ = folder_of([hook("sleep 0.3", "A", pass_filenames="false"), hook("no", "F", files="none"), hook("sh -c 'exit 2'", "B"), hook("true", "C")], ["a.txt"])
    os.rename(Path(folder, "c.yaml"), Path(folder, ".pre-commit-config.yaml"))
    for setting in (["init"], ["add", "."]):
        says(folder, setting, 0, [])
    for words, told in ((["run", "--verbose"], ["a 0.3", "b 0.0", "c 0.0"]), (["run", "--verbose"], []), (["run", "--fresh"], []), (["run", "--fresh", "--verbose"], ["a 0.3", "b 0.0", "c 0.0"])):
        done = subprocess.run([PROGRAM, *words], cwd=folder, stdin=subprocess.DEVNULL, capture_output=True, timeout=LIMIT)
        found = done.stderr.decode().splitlines()
        check(all(re.fullmatch(r"duration: [abc] [0-9]+\.[0-9]{2}s", text) for text in found), f"{words!r} tells {found!r}")
        equal([text.split()[1] for text in found], [text.split()[0] for text in told], f"the hooks of which {words!r} tells")
        for text, least in zip(found, told):
            check(float(text.split()[2][:-1]) >= float(least.split()[1]), f"{words!r} tells {text!r}")


def the_option_decides_on_colors():
    folder, words = folder_of([hook("true", "A", stages="[pre-commit]")], ["a.txt"])
    shutil.copy(Path(folder, "c.yaml"), Path(folder, ".pre-commit-config.yaml"))
    for setting in (["init"], ["add", "."]):
        says(folder, setting, 0, [])
    for one in (["try", "c.yaml", "a.txt"], ["run"], ["run-files", "a.txt"], ["commit", "-m", "m"]):
        for choice, variables, wanted in (("always", {"NO_COLOR": "1", "PRE_COMMIT_COLOR": "never"}, True), ("never", {"PRE_COMMIT_COLOR": "always"}, False), ("auto", {}, False), ("auto", {"PRE_COMMIT_COLOR": "always"}, True)):
            copy = shutil.copytree(folder, tempfile.mkdtemp(dir=BASE), dirs_exist_ok=True)
            done = subprocess.run([PROGRAM, one[0], f"--color={choice}", *one[1:]], cwd=copy, stdin=subprocess.DEVNULL, capture_output=True, timeout=LIMIT, env={**os.environ, **variables})
            equal((done.returncode, b"\33[42mPassed\33[m\n" in done.stdout), (0, wanted), f"{one!r} with --color={choice} and {variables}")
            equal(b"\33" in done.stdout, wanted, f"escapes of {one!r} with --color={choice} and {variables}")
    played = Played(folder, ["run", "--color=never"], out_too=True)
    equal((played.wait(), played.screen.colors), (0, []), "at a terminal")


def nothing_is_shown_without_a_terminal():
    # Standard output is a terminal, and standard error none.
    folder, words = folder_of([hook("true", "A")], ["a.txt"])
    end, near = os.openpty()
    done = subprocess.run([PROGRAM, *words], cwd=folder, stdin=near, stdout=near, stderr=subprocess.PIPE, env={**os.environ, "TERM": "xterm"}, timeout=LIMIT)
    os.close(near)
    equal((done.returncode, done.stderr), (0, b""), "standard error")
    equal(os.read(end, 65536).decode(), line("A", "Passed").replace("Passed", "\33[42mPassed\33[m") + "\r\n", "standard output")
    os.close(end)
    with open("/dev/full", "wb") as full:
        done = subprocess.run([PROGRAM, *words], cwd=folder, stdin=subprocess.DEVNULL, stdout=subprocess.PIPE, stderr=full, timeout=LIMIT)
    equal((done.returncode, done.stdout.decode()), (0, line("A", "Passed") + "\n"), "where standard error takes nothing")


def a_report_is_colored_where_a_terminal_shows_it():
    """The verdicts are colored by how each hook ended, in the colors of pre-commit. No other text is."""
    hooks = [hook("true", "A"), hook("sh -c 'echo x.Passed.; echo Failed; exit 3'", "B"), hook("true", "C", files="none"), hook("true", "D")]
    folder, words = folder_of(hooks, ["a.txt"])
    colors = [("42", "Passed"), ("41", "Failed"), ("46;30", "Skipped")]
    plain = subprocess.run([PROGRAM, *words], cwd=folder, stdin=subprocess.DEVNULL, capture_output=True, timeout=LIMIT).stdout
    check(b"\33" not in plain, "colors without a terminal")
    for variables, wanted in (({}, True), ({"NO_COLOR": ""}, True), ({"NO_COLOR": "1"}, False), ({"PRE_COMMIT_COLOR": "never"}, False), ({"PRE_COMMIT_COLOR": "auto"}, True),
                              ({"PRE_COMMIT_COLOR": "always", "NO_COLOR": "1"}, True), ({"TERM": "dumb"}, False)):
        played = Played(folder, words, out_too=True, **variables)
        equal(played.wait(), 1, "the exit status")
        equal(played.screen.colors, [*colors, ("42", "Passed")] if wanted else [], f"the colors with {variables}")
        equal(played.screen.all(), [text.rstrip() for text in plain.decode().split("\n")], f"the screen with {variables}")
    forced = subprocess.run([PROGRAM, *words], cwd=folder, stdin=subprocess.DEVNULL, capture_output=True, timeout=LIMIT, env={**os.environ, "PRE_COMMIT_COLOR": "always"}).stdout
    equal(re.sub(rb"\x1b\[[0-9;]*m", b"", forced), plain, "the bytes of a report in colors")
    equal(re.findall(rb"\x1b\[([0-9;]+)m(\w+)\x1b\[m\n", forced), [(b"42", b"Passed"), (b"41", b"Failed"), (b"46;30", b"Skipped"), (b"42", b"Passed")], "the colors that are asked for")


def the_report_alone_is_colored():
    """A run, and a commit, of a repository are, with the hooks that are skipped as asked, and a file that `cat` prints isn't."""
    folder, _ = folder_of([hook("true", "A", stages="[pre-commit]"), hook("true", "B", stages="[pre-commit]")], ["a.txt"])
    os.rename(Path(folder, "c.yaml"), Path(folder, ".pre-commit-config.yaml"))
    Path(folder, "a.txt").write_text("a.Passed\n")
    says(folder, ["init"], 0, [])
    says(folder, ["add", "a.txt", ".pre-commit-config.yaml"], 0, [])
    for words, wanted in ((["run"], [("42", "Passed"), ("43;30", "Skipped")]), (["cat", "a.txt"], []), (["commit", "-m", "a.Passed"], [("42", "Passed"), ("43;30", "Skipped")]), (["show", "1"], [])):
        played = Played(folder, words, out_too=True, SKIP="b")
        equal(played.wait(), 0, "the exit status")
        equal(played.screen.colors, wanted, f"the colors of {words!r}")


def nothing_is_shown_on_a_dumb_terminal():
    folder, words = folder_of([hook("true", "A")], ["a.txt"])
    played = Played(folder, words, TERM="dumb")
    equal((played.wait(), played.bytes), (0, b""), "a dumb terminal")


def nothing_is_shown_of_hooks_without_children():
    folder, words = folder_of([hook("no", "A").replace("system", "fail")], ["a.txt"])
    played = Played(folder, words)
    equal((played.wait(), played.bytes), (1, b""), "a hook of `fail`")


def a_terminal_that_goes_away_changes_nothing():
    folder, words = folder_of([hook(f"sh -c 'until [ -e {BASE}/gone ]; do sleep 0.01; done'", "A", pass_filenames="false"), hook("sh -c 'exit 7'", "B")], ["a.txt"])
    played = Played(folder, words)
    while not played.screen.shown:
        played.read()
    os.close(played.end)
    Path(BASE, "gone").touch()
    equal(played.child.wait(LIMIT), 1, "the exit status")
    equal(played.printed(), "\n".join([line("A", "Passed"), line("B", "Failed"), "- hook id: b", "- exit code: 7", ""]), "the report")


def a_hint_says_what_to_do_next():
    """It follows what refuses or stops a command, and a run that left fixes. Without a terminal there is none."""
    folder, _ = folder_of([hook("sed -i s/x/y/", "A", files="^a", stages="[pre-commit]")], ["a.txt"])
    os.rename(Path(folder, "c.yaml"), Path(folder, ".pre-commit-config.yaml"))
    steps = [
        (["status"], 3, ["hookhost: cannot use .hookhost/store.db", "hint: hookhost init makes a repository here"]),
        (["accept"], 3, ["hookhost: cannot use .hookhost/store.db", "hint: hookhost init makes a repository here"]),
        (["init"], 0, []),
        (["init"], 3, ["hookhost: cannot use .hookhost/store.db", "hint: a repository is here already: go on with it, as by hookhost status"]),
        (["add", "nowhere"], 3, ["hookhost: cannot use nowhere"]),
        (["accept"], 3, ["hookhost: refused: 11 NoFixes", NO_FIXES]),
        (["run"], 3, ["hookhost: refused: 7 NoConfig", "hint: hookhost add .pre-commit-config.yaml stages the configuration of this folder"]),
        (["add", "a.txt", ".pre-commit-config.yaml"], 0, []),
        (["run"], 1, [FIXES]),
        (["commit", "-m", "first"], 1, [FIXES]),
        (["accept"], 0, []),
        (["run"], 0, []),
        (["accept"], 3, ["hookhost: refused: 11 NoFixes", NO_FIXES]),
        (["run", "nothing"], 3, ["hookhost: refused: 9 NoSuchHook"]),
        (["rm", "a.txt", "b.txt"], 3, ["hookhost: refused: 4 NotStaged", "hookhost: at b.txt"]),
    ]
    for words, status, lines in steps:
        says(folder, words, status, lines)


def a_hint_says_what_is_waited_for():
    """It is shown without words, if standard input is a terminal too. The byte 4 ends the input."""
    folder, _ = folder_of([hook("true")], ["a.txt"])
    played = Played(folder, [], in_too=True)
    while played.screen.text(0) != "hint: a configuration is read from standard input: hookhost --help says more":
        check(played.read(), f"the terminal shows {played.screen.all()!r}")
    os.write(played.end, b"\x04")
    equal(played.wait(), 3, "the exit status")
    equal(played.screen.all()[1:], ["hookhost: refused: 2 Config", ""], "the lines")
    says(folder, [], 3, ["hookhost: refused: 2 Config"])


def a_hint_names_the_folder_of_the_repository():
    """It is in one of the folders above, up to 40."""
    folder, _ = folder_of([hook("true")], ["a.txt"])
    says(folder, ["init"], 0, [])
    unused, here = "hookhost: cannot use .hookhost/store.db", "hint: hookhost init makes a repository here"
    for depth in (1, 2, 40, 41):
        inner = Path(folder, *["b"] * depth)
        inner.mkdir(parents=True, exist_ok=True)
        above = "/".join([".."] * depth)
        says(folder, ["status"], 3, [unused, f"hint: the repository is in {above}: cd {above}" if depth < 41 else here], within=inner.relative_to(folder))
    Path(folder, "b/.hookhost").mkdir()
    Path(folder, "b/.hookhost/store.db").mkdir()
    says(folder, ["status"], 3, [unused], within="b")
    says(folder, ["status"], 3, [unused, "hint: the repository is in ../..: cd ../.."], within="b/b")


def a_hint_says_where_a_configuration_is_explained():
    """It is shown if a configuration is refused. For that of a repository it goes by what is staged, which may differ from the file in
    the folder."""
    folder, _ = folder_of([hook("true", stages="[pre-commit]")], ["a.txt"])
    bad = Path(folder, "c.yaml").read_text().replace("language: system", "language: python")
    no_config = ["hookhost: refused: 7 NoConfig", "hint: write .pre-commit-config.yaml, then hookhost add .pre-commit-config.yaml"]
    none_here = "hint: there is no .pre-commit-config.yaml in this folder: write one first"
    explain = "hint: hookhost explain says what is wrong and where"
    staged = "hint: hookhost cat .pre-commit-config.yaml | hookhost explain /dev/stdin says what is wrong and where"
    for words in (["check"], ["explain"], ["try", ".pre-commit-config.yaml", "a.txt"]):
        says(folder, words, 3, ["hookhost: cannot use .pre-commit-config.yaml", none_here])
    says(folder, ["explain", "nothing.yaml"], 3, ["hookhost: cannot use nothing.yaml"])
    says(folder, ["init"], 0, [])
    says(folder, ["run"], 3, no_config)
    says(folder, ["commit", "-m", "first"], 3, ["hookhost: refused: 10 NothingStaged", no_config[1]])
    for name, word in (("bad.yaml", "bad.yaml"), ("a-bad.yaml", "a-bad.yaml"), ("a bad.yaml", "CONFIG"), (".pre-commit-config.yaml", "")):
        Path(folder, name).write_text(bad)
        says(folder, ["try", name, "a.txt"], 3, ["hookhost: refused: 2 Config", f"hint: hookhost explain {word} says what is wrong and where".replace("  ", " ")])
    says(folder, ["check"], 3, ["hookhost: refused: 5 BadLanguage", explain])
    says(folder, ["add", ".pre-commit-config.yaml", "a.txt"], 0, [])
    for words in (["run"], ["run-files", "a.txt"], ["commit", "-m", "first"]):
        says(folder, words, 3, ["hookhost: refused: 8 BadConfig 5", explain])
    shutil.copy(Path(folder, "c.yaml"), Path(folder, ".pre-commit-config.yaml"))
    says(folder, ["run"], 3, ["hookhost: refused: 8 BadConfig 5", staged])
    os.remove(Path(folder, ".pre-commit-config.yaml"))
    says(folder, ["run"], 3, ["hookhost: refused: 8 BadConfig 5", staged])


def no_hint_is_given_in_git_hooks():
    """There the script prints what comes next, in the words of Git."""
    folder, _ = folder_of([hook("sed -i s/x/y/", "A", files="^a", stages="[pre-commit]")], ["a.txt"])
    steps = [(["status"], 3, ["hookhost: cannot use .hookhost/store.db"]), (["init"], 0, []), (["run"], 3, ["hookhost: refused: 7 NoConfig"]),
             (["add", "."], 0, []), (["run"], 1, []), (["accept"], 0, []), (["accept"], 3, ["hookhost: refused: 11 NoFixes"])]
    os.rename(Path(folder, "c.yaml"), Path(folder, ".pre-commit-config.yaml"))
    for words, status, lines in steps:
        says(folder, words, status, lines, HOOKHOST_TOP=folder)


def a_hint_says_that_a_fix_is_undone():
    """It is shown if other bytes are staged than the fix of that path has, and only once they are staged. Of several paths the first is
    reported."""
    folder, _ = folder_of([hook("sed -i s/x/y/", "A", files="^[am]", stages="[pre-commit]")], ["a.txt", "my file.txt", "other.txt"])
    os.rename(Path(folder, "c.yaml"), Path(folder, ".pre-commit-config.yaml"))
    told = "hint: this undoes the fix of {0}: to take it over, hookhost run, then hookhost cat --fixed {1} > {1}"
    of_a, of_my_file = told.format("a.txt", "a.txt"), told.format("my file.txt", "PATH")
    steps = [
        (["a.txt"], 0, [of_a]),
        (["--chmod=+x", "a.txt"], 0, [of_a]),
        (["other.txt"], 0, []),
        (["my file.txt"], 0, [of_my_file]),
        (["other.txt", "my file.txt", "a.txt"], 0, [of_my_file]),
        (["."], 0, [of_a]),
        (["a.txt", "nowhere"], 3, ["hookhost: cannot use nowhere"]),
        (["a.txt", "a.txt/b"], 3, ["hookhost: cannot use a.txt/b"]),
    ]
    for words in [["init"], ["add", "."]]:
        says(folder, words, 0, [])
    for words, status, lines in steps:
        says(folder, ["run"], 1, [FIXES])
        says(folder, ["add", *words], status, lines)
        says(folder, ["add", "a.txt"], 0, [] if status == 0 else [of_a])
    says(folder, ["run"], 1, [FIXES])
    Path(folder, "a.txt").write_text("y\n")
    says(folder, ["add", "a.txt"], 0, [])


def what_is_in_the_way_of_files_is_told():
    """The line comes after the report, and only the first of a run is printed; without a terminal too."""
    spoils = "sh -c 'rm -- \"$1\"; mkdir -- \"$1\"' --"
    folder, words = folder_of([hook("true", "A"), hook(spoils, "B", files="^a"), hook(spoils, "C", files="^b")], ["a.txt", 'b".txt'])
    shutil.copy(Path(folder, "c.yaml"), Path(folder, ".pre-commit-config.yaml"))
    for setting in (["init"], ["add", "."]):
        says(folder, setting, 0, [])
    quoted = '".hookhost/scratch/b\\".txt"'
    for words, place in ((words, ".hookhost/scratch/a.txt"), (["try", "c.yaml", 'b".txt'], quoted), (["run"], ".hookhost/scratch/a.txt"), (["run", "c"], quoted), (["commit", "-m", "first"], ".hookhost/scratch/a.txt")):
        alone = subprocess.run([PROGRAM, *words], cwd=folder, stdin=subprocess.DEVNULL, capture_output=True, timeout=LIMIT)
        equal((alone.returncode, alone.stderr.decode()), (1, f"hookhost: {place}: no file stands there\n"), f"{words!r} without a terminal")
        check(b"- fault: files could not be written or read back\n" in alone.stdout, f"{words!r} reports no fault")
        played = Played(folder, words)
        equal(played.wait(), 1, f"the exit status of {words!r}")
        equal(played.screen.all(), [f"hookhost: {place}: no file stands there", ""], f"what is left on the screen of {words!r}")
        equal(played.printed(), alone.stdout.decode(), f"the report of {words!r}")


def what_cannot_be_started_is_told():
    """The line comes after the report, and only the first of a run is printed."""
    folder, words = folder_of([hook("true", "A"), hook("nowhere", "B", files="^a"), hook("./b.txt/no-where", "C", files="^b")], ["a.txt", "b.txt"])
    line_of_b, line_of_c = "hookhost: cannot start nowhere: No such file or directory (os error 2)", "hookhost: cannot start ./b.txt/no-where: Not a directory (os error 20)"
    says(folder, words, 1, [line_of_b])
    says(folder, ["try", "c.yaml", "b.txt"], 1, [line_of_c])
    os.rename(Path(folder, "c.yaml"), Path(folder, ".pre-commit-config.yaml"))
    for setting in (["init"], ["add", "."]):
        says(folder, setting, 0, [])
    for words in (["run"], ["commit", "-m", "first"], ["run"]):
        says(folder, words, 1, [line_of_b])
    says(folder, ["run", "c"], 1, [line_of_c])


def says(folder, words, status, lines, within=".", **variables):
    """What the command says on a terminal are these lines, and without one those of them that are no hint."""
    copy = shutil.copytree(folder, tempfile.mkdtemp(dir=BASE), dirs_exist_ok=True)
    environment = {**os.environ, **variables}
    done = subprocess.run([PROGRAM, *words], cwd=Path(copy, within), stdin=subprocess.DEVNULL, capture_output=True, timeout=LIMIT, env=environment)
    told = "".join(text + "\n" for text in lines if not text.startswith("hint: "))
    equal((done.returncode, done.stderr.decode()), (status, told), f"{words!r} without a terminal")
    played = Played(Path(folder, within), words, columns=400, **variables)
    equal(played.wait(), status, f"the exit status of {words!r}")
    equal([text for text in played.screen.all() if text], lines, f"what {words!r} says")


def a_killed_program_leaves_a_terminal_that_wraps():
    folder, words = folder_of([hook("sleep 2", pass_filenames="false")], ["a.txt"])
    played = Played(folder, words)
    while not played.screen.shown:
        played.read()
    played.child.kill()
    played.wait()
    check(played.screen.wraps, "lines no longer wrap")


def want_of_memory_for_the_line_loses_no_child():
    library = os.path.join(BASE, "refuse.so")
    subprocess.run(["cc", "-O1", "-shared", "-fPIC", "-o", library, os.path.join(TOP, "tests/shared/refuse_allocation.c"), "-ldl"], check=True)
    folder, words = folder_of([hook("sh -c 'echo said; exit 3' x", "A")], ["a.txt"])
    refused_file = os.path.join(BASE, "refused")
    whole = Played(folder, words)
    equal((whole.wait(), len(whole.screen.shown)), (1, 1), "with ample memory")
    # If memory is refused while the hooks are looked up, the line names none.
    unnamed = [text.replace(" 1/1 A:", "") for text in whole.screen.shown]
    unseen = seen = nameless = 0
    for number in range(1, 2000):
        Path(refused_file).unlink(missing_ok=True)
        # A run that gave up leaves what the next would remove, which takes memory of its own.
        shutil.rmtree(os.path.join(folder, ".hookhost"), ignore_errors=True)
        played = Played(folder, words, LD_PRELOAD=library, REFUSE_ALLOCATION=str(number), REFUSED_FILE=refused_file)
        status = played.wait()
        equal([text for text in played.screen.all() if text], [] if status == 1 else ["hookhost: refused: 4 OutOfMemory"], f"the screen with allocation {number} refused")
        check(played.screen.shown in ([], unnamed, whole.screen.shown), f"a line is shown in part: {played.screen.shown!r}")
        if status == 1:
            equal(played.printed(), whole.printed(), f"the report with allocation {number} refused")
            seen += played.screen.shown == whole.screen.shown
            nameless += played.screen.shown == unnamed
            unseen += played.screen.shown == []
        else:
            equal((status, played.printed()), (3, ""), f"with allocation {number} refused")
        if not os.path.exists(refused_file):
            break
    else:
        raise Wrong("no run had all its memory")
    check(unseen > 0 and nameless > 0 and seen > 0, f"{unseen} runs showed no line, {nameless} one without a hook, {seen} the whole")


CASES = [
    shows_each_child_and_how_many_came_before, shows_none_where_an_answer_is_remembered, names_the_hooks_that_start_children_by_their_place,
    names_hooks_that_start_a_file, names_the_hooks_of_a_configuration_on_standard_input,
    names_each_of_hooks_with_the_same_words, names_the_hooks_of_runs_and_commits, stands_while_the_child_runs, is_cut_to_the_columns_that_are_said, is_one_line_on_a_terminal_that_says_nothing,
    what_columns_says_amiss_is_80, wide_characters_take_two_columns, control_characters_are_shown_as_question_marks, long_commands_are_one_line,
    parts_are_shown_one_by_one, what_a_child_prints_stays_off_the_terminal, a_report_on_the_same_terminal_stands_alone, nothing_is_shown_without_a_terminal,
    a_report_is_colored_where_a_terminal_shows_it, the_report_alone_is_colored, the_report_comes_as_hooks_end, the_report_comes_in_git_hooks,
    a_verbose_run_tells_durations, the_option_decides_on_colors,
    nothing_is_shown_on_a_dumb_terminal, nothing_is_shown_of_hooks_without_children, a_terminal_that_goes_away_changes_nothing,
    a_hint_says_what_to_do_next, a_hint_says_what_is_waited_for, a_hint_names_the_folder_of_the_repository, a_hint_says_where_a_configuration_is_explained,
    no_hint_is_given_in_git_hooks, a_hint_says_that_a_fix_is_undone, what_is_in_the_way_of_files_is_told, what_cannot_be_started_is_told, a_killed_program_leaves_a_terminal_that_wraps, want_of_memory_for_the_line_loses_no_child,
]


def main():
    failed = 0
    for case in CASES:
        try:
            case()
        except (Wrong, subprocess.TimeoutExpired, OSError) as error:
            failed += 1
            print(f"terminal: FAILED: {case.__name__}: {error}")
    print(f"terminal: {len(CASES) - failed} passed, {failed} failed")
    return 1 if failed else 0


BASE = tempfile.mkdtemp(prefix="terminal-")
try:
    STATUS = main()
finally:
    shutil.rmtree(BASE, ignore_errors=True)
sys.exit(STATUS)
