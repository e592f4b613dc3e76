#!/usr/bin/env python3
"""Plays random commands on repositories in real files by two hosts, and compares both with each other and with the model of a book. Each
command is in a process of its own, so that the store is closed and opened between any two. One host caches what children answered, at
most as many answers as a command of the play has set. The other caches only one answer. In three plays of four `forget` is run before
each of its commands that can run hooks, so that it runs them from scratch.

Usage: tests/plays/process_plays.py [--sample] [PLAYS [COMMANDS [SEED]]]   (default: 40 plays of 60 commands each, of the seeds from 1 on;
with --sample only some of them)

Both have to print the same, to end with the same status, and to leave the same repository, which SQLite reads in the file of the
store alone. The children are tests/plays/play_child.c. Their answers depend on their words and on the files that they have seen, and
each records in a log of its host that it was started. The log of the host with one answer shows which children a command needs, in
their order, except those that are the last answer, whose look-up changes no book. So it follows what the other has to start: the
children that its book lacks, and in a fresh run all of them. The model of a book is the list of tests/shared/list_book.py. It knows
the words of a child and the files that it has seen by a digest that the child prints. Their modes, which the child can't see, it
knows from the store. What ended as an answer and changed only files that it saw is put into it. After each command each store has to
have the same answers in the same order: the digests are computed again from the contents that its uses name.

With an even seed some children print a clock, which moves between commands. The host that caches reports what it said when the answer
was cached, and after a fresh run it names the hooks for which the clock now differs.

This model checks no more of what a command prints and leaves: tests/plays/plays.py checks that for hosts in memory.
"""
import collections
import json
import multiprocessing
import os
import random
import re
import shlex
import sqlite3
import subprocess
import sys
import tempfile
from concurrent.futures import ProcessPoolExecutor
from contextlib import suppress
from pathlib import Path

sys.path.insert(0, os.path.abspath(f"{__file__}/../../shared"))
from host_books import book_of, children_in
from host_program import STORE, Wrong, check, run, write
from list_book import ListBook
from places import program
from sample import note, sampled

PROGRAM = program("hookhost")
GIVEN = [int(word) for word in sys.argv[1:]]
PLAYS, COMMANDS, SEED = [*GIVEN, *(40, 60, 1)[len(GIVEN):]]
# With --sample one play in so many is played.
SAMPLED_ONE_IN = 6
# After this many commands, and at the end, both hosts print what they show.
LOOK_AFTER = 20
CONFIGURATION, NO_CONFIGURATION = ".pre-commit-config.yaml", b"repos: 1\n"
# A file that is always staged, so that a child may change it without having seen it.
ANCHOR = "anchor"
SCRIPTS = ["s.sh", "dir/s.sh"]
# One path is the word by which each child is started.
PATHS = [ANCHOR, "a.txt", "b.txt", "c", "dir/a.txt", "dir/é x.md", "play_child", *SCRIPTS]
CONTENTS = [b"x\n"] * 3 + [b"y\n"] * 3 + [b"1\n\nx 2\n", b"\xff\0\r\n", b"no end", b""]
SCRIPT_CONTENTS = [b"#!play_child c\n", b"#! play_child\tcd it \r\nx\n", b"#!play_child -\nno end"]
MESSAGES = ["", "\n", "first", "first", "second\n", "  first \n\n\n\nbody\t\n\n", "# kept\r\n\nbody"]
# What a child may do, as the head of tests/plays/play_child.c says.
LETTERS = ["-", "c", "c", "c", "cd", "cn", "cdn", "s", "cs", "cf", "cdnsf", "co"]
# Scripts, which may not be staged, a program that isn't there, and hooks without children.
OTHER_HOOKS = [
    {"language": "script", "entry": "s.sh"},
    {"language": "script", "entry": "./dir/s.sh it"},
    {"language": "system", "entry": "./s.sh"},
    {"language": "system", "entry": "nowhere it"},
    {"language": "fail", "entry": "Not these.", "files": "^c"},
    {"language": "pygrep", "entry": "more|y"},
]
ARGUMENTS = [[], [], [], ["--x"], ["two words", ""], ["a.txt"], ["./b.txt", "dir"]]
FURTHER = ["a.txt", "c", "dir/a.txt", CONFIGURATION]
PATTERNS = [""] * 5 + [r"\.txt$", "^[ac]", "^dir/"]
TYPES = [[]] * 6 + [["text"], ["executable"], ["non-executable", "binary"]]
OF_MESSAGES = ["prepare-commit-msg", "commit-msg"]
STAGES = [[]] * 4 + [["pre-commit"], ["pre-commit", "manual"], OF_MESSAGES, ["commit-msg"], ["post-commit"]]
# The most bytes of a command, with one byte between words, and how often a hook has one that is nearly so long.
MOST_COMMAND, LONG = 131_072, 0.06
# How often each kind of command is drawn, those at the beginning of a play, and how often what keeps hooks from running is fixed.
KINDS = {
    "add": 16, "configuration": 5, "executable": 4, "rm": 3, "run": 30, "again": 20, "commit": 24, "accept": 2,
    "forget": 2, "memory": 2, "limit": 4, "status": 1, "fixes": 1, "log": 1, "show": 1,
}
# At most how many answers the host that caches keeps.
LIMITS = [1, 2, 3, 5, 10_000, 10_000]
BEGINNING = ["anchor", "configuration", "add", "add", "add"]
MENDED = 0.4
RUNNING = ("run", "run-files", "commit")
SHOWN = {
    "staged files": "SELECT path, mode, bytes FROM staged JOIN blobs USING (digest) ORDER BY path",
    "fixes": "SELECT path, gone, bytes FROM fixes LEFT JOIN blobs USING (digest) ORDER BY path",
    "commits": "SELECT n, message FROM commits ORDER BY n",
    "files of the commits": "SELECT n, path, mode, digest FROM entries ORDER BY n, path",
}

# The words, the contents of the file that is to be staged, the value of SKIP, and whether the clock moves before it.
Command = collections.namedtuple("Command", "words held skip ticks", defaults=[None, None, False])
File = collections.namedtuple("File", "mode held")
# The children that are started, the ids of the unsteady hooks, and what the clock said when each child answered, by its digest. It may
# have said two things within a command, if the answer was dropped in between.
Starts = collections.namedtuple("Starts", "children unsteady said")


class Child(collections.namedtuple("Child", "ending letters digest modes")):
    """How a child ends, the letters that say what it may do, and a digest of its words and of the files that it has seen. Then these
    files' paths with their modes."""

    @property
    def key(self):
        return self.digest, self.modes


# ---- what is drawn by chance

def random_hook(rng, number, has_clock):
    """The keys of a hook. If its children see all files, or a further one, a word says so to them."""
    chance = lambda part: rng.random() < part
    hook = {"id": f"h{number}", "name": rng.choice(["Hook", "A name"]), **rng.choice(OTHER_HOOKS)}
    if chance(0.85):
        letters = rng.choice(LETTERS) + (f"t{number}" if has_clock and chance(0.7) else "")
        hook |= {"language": "system", "entry": f"play_child {letters}"}
    if hook["language"] in ("system", "script"):
        is_whole = chance(0.2)
        hook |= {"args": rng.choice(ARGUMENTS) + ["--whole"] * is_whole, "pass_filenames": not is_whole}
        if chance(0.25):
            also = rng.choice(FURTHER)
            hook |= {"args": [*hook["args"], f"--also={also}"], "x_reads": f"^{re.escape(also)}$"}
    keys = {
        "alias": rng.choice(["", "", "other"]), "files": rng.choice(PATTERNS), "exclude": rng.choice(["", "", "", "b"]),
        "types": rng.choice(TYPES), "stages": rng.choice(STAGES), "always_run": chance(0.4), "verbose": chance(0.4),
        "fail_fast": chance(0.1), "require_serial": chance(0.2), "x_per_file": chance(0.15),
        "x_at_most": rng.choice([0] * 7 + [1, 2, 3]),
    }
    hook |= {key: value for key, value in keys.items() if value}
    return with_long_argument(rng, hook) if chance(LONG) else hook


def with_long_argument(rng, hook):
    """The hook with an argument that leaves only few bytes to names: it needs several children, or some name doesn't fit. A further file
    that its children see is still named to them."""
    also = [word for word in hook.get("args", []) if word.startswith("--also=")]
    argument = "n" * (MOST_COMMAND - len(" ".join(["play_child", "c", *also, ""])) - rng.choice([8, 12, 16, 20, 24]))
    keys = {"language": "system", "entry": "play_child c", "args": [argument, *also], "pass_filenames": True}
    return hook | keys | {"files": "^[a-z]", "types": [], "stages": []}


def random_configuration(rng, has_clock):
    """A configuration's text, which at times can't be read."""
    if rng.random() < 0.03:
        return NO_CONFIGURATION
    hooks = [random_hook(rng, number, has_clock) for number in range(rng.choice([0, 1, 2, 2, 3, 3, 4]))]
    # A hook whose children print the clock has them for itself, so that they show which hook is unsteady.
    shared = [hook for hook in hooks if not re.search(r"t\d$", hook["entry"])]
    if shared and rng.random() < 0.3:
        # Two hooks that start the same children, at times with one id.
        hook = rng.choice(shared)
        hooks.append(hook | {"name": "Twin", "id": rng.choice([hook["id"], "twin"])})
    keys = {"fail_fast": True, "exclude": "^c$", "files": "[a-c.]", "default_stages": ["pre-commit", "commit-msg"]}
    top = {key: value for key, value in keys.items() if rng.random() < 0.04}
    return f"{json.dumps(top | {'repos': [{'repo': 'local', 'hooks': hooks}]})}\n".encode()


def random_command(rng, kind, has_clock, staged, last):
    """A command of this kind, if these files are staged, and this was the last command that ran hooks."""
    skip = rng.choice(["h0", " h1 , ,other", "nope", ""]) if rng.random() < 0.2 else None
    ticks = has_clock and rng.random() < 0.5
    if kind == "again":
        return random_again(rng, last)._replace(ticks=ticks)
    if kind == "anchor":
        return Command(("add", ANCHOR), b"x\n")
    if kind == "configuration":
        return Command(("add", CONFIGURATION), random_configuration(rng, has_clock))
    if kind == "executable":
        path = rng.choice(sorted(staged))
        return Command(("add", "--chmod=+x", path), staged[path].held)
    if kind == "add":
        return random_add(rng)
    if kind == "rm":
        others = [path for path in sorted(staged) if path not in (ANCHOR, CONFIGURATION)]
        return Command(("rm", rng.choice([*others * 3, CONFIGURATION, "nowhere"])))
    if kind == "run":
        return Command(random_run(rng, sorted(staged)), None, skip, ticks)
    if kind == "commit":
        return Command(("commit", *rng.choice([[], [], [], ["--no-verify"]]), "-m", rng.choice(MESSAGES)), None, skip, ticks)
    if kind == "limit":
        return Command(("memory", f"--limit={rng.choice(LIMITS)}"))
    return Command((kind, str(rng.randint(1, 9))) if kind == "show" else (kind,))


def random_add(rng):
    mode, path = rng.choice([[], [], [], ["--chmod=+x"]]), rng.choice([*PATHS * 3, "dir", "c/x"])
    return Command(("add", *mode, path), rng.choice(SCRIPT_CONTENTS if path in SCRIPTS else CONTENTS))


def random_run(rng, staged):
    """The words of a run: of changed files or all, of all hooks or those of a name, or of named files."""
    options = ["--fresh"] * (rng.random() < 0.2) + rng.choice([[]] * 5 + [["--hook-stage", "manual"]])
    if rng.random() < 0.2:
        return "run-files", *options, *rng.choices([*staged * 9, *PATHS], k=rng.choice([1, 1, 2, 3]))
    only = rng.choice([[]] * 14 + [["h0"], ["h0"], ["h1"], ["other"], ["nope"]])
    return "run", *options, *rng.choice([[], ["--all-files"]]), *only


def random_again(rng, last):
    """A command that ran hooks once more, or if there was none a run. What was a run may be a fresh one now."""
    if last is None or last.words[0] == "commit":
        return last or Command(("run",))
    word, *others = last.words
    others = [other for other in others if other != "--fresh"]
    return last._replace(words=(word, *["--fresh"] * (rng.random() < 0.4), *others))


# ---- the hosts

def in_turn(command):
    """The words of a command whose hooks run each in its turn, so that what is started can be counted."""
    word, *others = command.words
    return (word, "--jobs=1", *others) if word in RUNNING else command.words


class Host:
    """A repository in a folder of its own, and what the model says that is cached in it."""

    def __init__(self, top, name):
        self.folder, self.log, self.known = os.path.join(top, name), os.path.join(top, f"{name}.log"), 0
        self.book = ListBook()
        self.environment = {variable: value for variable, value in os.environ.items() if variable != "SKIP"}
        self.environment |= {"PLAY_LOG": self.log, "PLAY_CLOCK": os.path.join(top, "clock")}
        os.mkdir(self.folder)
        write(top, f"{name}.log", b"")
        self.does(("init",), b"")

    def play(self, command):
        """The status and what is printed. A file lies in the folder only while it is staged."""
        path = command.words[-1]
        if command.held is not None:
            write(self.folder, path, command.held)
        skip = {} if command.skip is None else {"SKIP": command.skip}
        answer = run(self.folder, *in_turn(command), program=PROGRAM, env=self.environment | skip)
        if command.held is not None:
            os.remove(os.path.join(self.folder, path))
            with suppress(OSError):
                os.removedirs(os.path.dirname(os.path.join(self.folder, path)))
        return answer

    def does(self, words, wanted):
        answer = self.play(Command(words))
        check(answer == (0, wanted, b""), f"{words!r} is answered {answer!r}, wanted {wanted!r}")

    def memory(self):
        """Checks that `memory` prints how many answers the model has."""
        self.does(("memory",), f"remembered: {len(self.book)}\n".encode())

    def forget(self):
        self.does(("forget",), f"forgotten: {self.book.forget()}\n".encode())

    def limit(self, number):
        """Checks that a limit drops what the model drops."""
        self.book.keep_to(number)
        self.does(("memory", f"--limit={number}"), f"remembered: {len(self.book)}\n".encode())

    def children(self, staged):
        """The children that were started since the last call, in their order, if these files were staged."""
        with open(self.log, "rb") as file:
            file.seek(self.known)
            text = file.read()
        self.known += len(text)
        return [child_of(line, staged) for line in text.decode().split("\n")[:-1]]

    def starts(self, children, is_fresh, clock):
        """Which of the children that a command needs are started. What is cached of these is put into the book, with what
        the clock says."""
        starts = Starts([], [], collections.defaultdict(set))
        for child in children:
            found = self.book.find(child.key)
            if found is not None and not is_fresh:
                starts.said[child.digest].add(found)
                continue
            starts.children.append(child)
            starts.said[child.digest].add(clock)
            if child.ending == "answers":
                self.book.put(child.key, clock)
                _, has_clock, number = child.letters.partition("t")
                starts.unsteady.extend([f"h{number}"] if has_clock and found not in (None, clock) else [])
        return starts

    def shown(self):
        """The repository that the store's file alone shows, the book that it holds, and whether it is whole."""
        held = Path(self.folder, STORE).read_bytes()
        database = sqlite3.connect(":memory:")
        # The database in memory has no log, so the bytes must not ask for one.
        database.deserialize(held[:18] + b"\1\1" + held[20:])
        ask = lambda text: database.execute(text).fetchall()
        found = {name: ask(text) for name, text in SHOWN.items()}, children_in(database)
        broken = ask("PRAGMA foreign_key_check"), ask("PRAGMA integrity_check")
        database.close()
        check(broken == ([], [("ok",)]), f"SQLite finds the store's file broken: {broken!r}")
        return found

    def check_book(self, found):
        """Checks that a book in a store is that of the model."""
        wanted = book_of(self.book)
        check(found == wanted,
              f"it remembers {len(found.keys)} answers, {found!r:.1000}, wanted {len(wanted.keys)}, {wanted!r:.1000}")


def child_of(line, staged):
    """The child of a line of the log. Of the files that it may have seen only the message isn't staged, and is plain."""
    check(line != "broken", "a child finds what can't be, or can't do what it has to")
    ending, letters, digest, *paths = line.split("\t")
    return Child(ending, letters, digest, tuple((path, staged[path].mode if path in staged else 0) for path in paths))


# ---- a play

class Play:
    """The two hosts side by side."""

    def __init__(self, top, seed):
        self.top, self.rng, self.has_clock, self.clock = top, random.Random(seed), seed % 2 == 0, 0
        self.forgets = seed % 4 != 1
        self.remembering, self.forgetting = self.hosts = [Host(top, name) for name in ("remembering", "forgetting")]
        self.commands, self.staged, self.has_fixes, self.ends = [], {}, False, collections.Counter()
        self.forgetting.limit(1)

    def run(self):
        for at in range(COMMANDS):
            kind = BEGINNING[at] if at < len(BEGINNING) else self.random_kind()
            last = next((command for command in reversed(self.commands) if command.words[0] in RUNNING), None)
            self.step(random_command(self.rng, kind, self.has_clock, self.staged, last))
            if (at + 1) % LOOK_AFTER == 0 or at + 1 == COMMANDS:
                self.look()

    def random_kind(self):
        """A kind of command. What keeps hooks from being run, or from passing again, is often fixed at once."""
        if self.rng.random() < MENDED:
            if self.has_fixes:
                return "accept"
            if CONFIGURATION not in self.staged or self.staged[CONFIGURATION].held == NO_CONFIGURATION:
                return "configuration"
        return self.rng.choices(list(KINDS), KINDS.values())[0]

    def step(self, command):
        """Plays a command by both hosts, and looks at what they print and leave."""
        self.commands.append(command)
        self.clock += command.ticks
        write(self.top, "clock", str(self.clock).encode())
        word, is_fresh = command.words[0], "--fresh" in command.words
        if word in ("memory", "forget"):
            self.ask_of_memory(command)
            return self.check_shown()
        if word in RUNNING and self.forgets:
            self.forgetting.forget()
        remembering, forgetting = (host.play(command) for host in self.hosts)
        self.ends[f"{word} {remembering[0]}"] += 1
        check_answers(remembering, forgetting, self.check_children(is_fresh))
        self.check_shown()

    def ask_of_memory(self, command):
        """Counts the cached results of both hosts, or has them drop these. Or sets the limit of the one that caches more than one
        answer."""
        word, *limit = command.words
        if limit:
            self.ends["answers dropped by a limit"] += len(self.remembering.book)
            self.remembering.limit(int(limit[0].partition("=")[2]))
            self.ends["answers dropped by a limit"] -= len(self.remembering.book)
        for host in self.hosts if not limit else []:
            host.forget() if word == "forget" else host.memory()

    def check_children(self, is_fresh):
        """Checks that both hosts started what they had to. Answers what the one that caches has started."""
        remembering, forgetting = self.remembering.children(self.staged), self.needed(is_fresh)
        starts = self.remembering.starts(forgetting, is_fresh, self.clock)
        check(remembering == starts.children, f"it starts {remembering!r}, wanted {starts!r}; from scratch {forgetting!r}")
        self.ends.update(child.ending for child in remembering)
        replayed = len(forgetting) - len(remembering)
        self.ends.update(started=len(remembering), replayed=replayed, unsteady=len(starts.unsteady))
        return starts

    def needed(self, is_fresh):
        """The children that a command needs, which the host that caches one answer alone has started. Those that it lacks are no look-up
        of an answer that isn't in front."""
        children = self.forgetting.children(self.staged)
        wanted = self.forgetting.starts(children, is_fresh, self.clock).children
        check(children == wanted, f"from scratch it starts {children!r}, of which it remembers some")
        return children

    def check_shown(self):
        """Checks that both stores show the same repository, and have the cached results of the model."""
        (remembering, book), (forgetting, other) = (host.shown() for host in self.hosts)
        for name in SHOWN:
            found, wanted = remembering[name], forgetting[name]
            check(found == wanted, f"the {name} are {found!r:.2000}, and from scratch {wanted!r:.2000}")
        self.remembering.check_book(book)
        self.forgetting.check_book(other)
        self.has_fixes = bool(forgetting["fixes"])
        self.staged = {path: File(mode, held) for path, mode, held in forgetting["staged files"]}

    def look(self):
        """Checks that both hosts print the same of what they show, and how many answers they have cached."""
        commands = [Command((word,)) for word in ("status", "fixes", "log")]
        found, wanted = ([host.play(command) for command in commands] for host in self.hosts)
        check(found == wanted, f"it shows {found!r:.2000}, and from scratch {wanted!r:.2000}")
        for host in self.hosts:
            host.memory()


def check_answers(remembering, forgetting, starts):
    """Checks that both hosts print the same, except for unsteady hooks, and for what the clock said when a child answered."""
    unsteady = b"".join(f"unsteady: {name}\n".encode() for name in dict.fromkeys(starts.unsteady))
    wanted = with_clocks(forgetting[1], starts.said) + unsteady
    found = with_clocks(remembering[1], {digest: clocks for digest, clocks in starts.said.items() if len(clocks) > 1})
    check((remembering[0], found, remembering[2]) == (forgetting[0], wanted, forgetting[2]),
          f"it says {remembering!r:.3000}, wanted {forgetting[0]}, {wanted!r:.3000}, {forgetting[2]!r}")


def with_clocks(out, said):
    """What is printed, with all that the clock said when each of these children answered."""
    def told(found):
        clocks = said.get(found[1].decode())
        if clocks is None:
            return found[0]
        return b"clock %s %s" % (found[1], " or ".join(map(str, sorted(clocks))).encode())

    return re.sub(rb"clock (\w+) \d+", told, out)


def line_of(command):
    """A line with a command, with the contents of the file that it stages."""
    clock = "(the clock moves) " if command.ticks else ""
    skip = "" if command.skip is None else f"SKIP={shlex.quote(command.skip)} "
    words = " ".join(shlex.quote(word) if word.isprintable() else f"${word!r}" for word in command.words)
    held = "" if command.held is None else "   # " + re.sub("n{99,}", lambda found: f"<{len(found[0])} n>", repr(command.held))
    return f"  {clock}{skip}hookhost {words}{held}\n"


def played(seed):
    """What is wrong with the play of a seed, or None, and what happened in it."""
    with tempfile.TemporaryDirectory() as top:
        play = Play(top, seed)
        try:
            play.run()
        except (Wrong, subprocess.TimeoutExpired) as wrong:
            commands = "".join(map(line_of, play.commands))
            again = f"tests/plays/process_plays.py 1 {COMMANDS} {seed}"
            return f"{again} differs at its command {len(play.commands)}: {wrong}\n{commands}", play.ends
    return None, play.ends


def main():
    seeds = sampled(range(SEED, SEED + PLAYS), lambda seed: seed % 2, SAMPLED_ONE_IN)
    with tempfile.TemporaryDirectory() as folder:
        source = Path(__file__).resolve().parent / "play_child.c"
        subprocess.run(["cc", "-O1", "-o", os.path.join(folder, "play_child"), str(source)], check=True)
        os.environ["PATH"] = folder + os.pathsep + os.environ["PATH"]
        with ProcessPoolExecutor(len(os.sched_getaffinity(0)), multiprocessing.get_context("fork")) as pool:
            plays = list(pool.map(played, seeds))
    ends, differing = sum((ends for _, ends in plays), collections.Counter()), [text for text, _ in plays if text]
    for text in differing[:3]:
        print(f"process plays: {text}", end="")
    print("process plays: " + ", ".join(f"{name}: {count}" for name, count in sorted(ends.items())))
    print(f"process plays: {len(seeds)} plays of {COMMANDS} commands by two hosts, {ends['started']} children started, {ends['replayed']} replayed")
    print(f"process plays: {len(seeds) - len(differing)} passed, {len(differing)} failed{note(len(seeds), PLAYS, 'plays')}")
    sys.exit(1 if differing or not ends["started"] or not ends["replayed"] else 0)


if __name__ == "__main__":
    main()
