#!/usr/bin/env python3
"""Plays random lists of commands on repositories in memory by two hosts, over children that answer by a table, and compares both with a
model.

Usage: tests/plays/plays.py [--sample] [PLAYS [SEED]]   (default: 1,000 plays of 200 commands each, seed 1; with --sample some of them)

One host caches what children answered, the other drops it before each command. Among the commands is one that limits what is cached,
to one answer, to two or three, or to as many as a new host does. The model has the commits, the staged files and the fixes as plain
lists and dictionaries, and the book of cached answers as a list with a limit. For each host it gives what every command prints, its
exit status, and what it leaves: the repository, how many answers are cached, and which children were started, by the rows of the
table. hook_trial runs the same commands through `command_over`, and all that has to be the model's.

If the model asks a child for an outcome, it is drawn by chance the first time, and is the same for these words and these files from
then on: this is the table. Some outcomes aren't drawn, so that the child isn't started. Then both hosts have to answer the same and
to leave the same repository. In every fourth play some children have a clock, and give several outcomes in turn. There the hosts may
differ, each as the model says.

The model is tests/shared/host_model.py.
"""
import collections
import multiprocessing
import os
import random
import subprocess
import sys
from concurrent.futures import ProcessPoolExecutor

sys.path.insert(0, os.path.abspath(f"{__file__}/../../shared"))
from host_model import (CONFIGURATION, FAULTS, MESSAGE, MOST_COMMAND, MOST_NAMES, NO_PATH, NOT_STARTED, Answer, Hook, Machine, Memory, configuration_text,
                        is_told, words_of_rows)
from places import program
from sample import note, sampled

PROGRAM = program("hook_trial")
PLAYS, SEED = int(sys.argv[1]) if len(sys.argv) > 1 else 1000, int(sys.argv[2]) if len(sys.argv) > 2 else 1
COMMANDS = 200
# With --sample one play in so many is played.
SAMPLED_ONE_IN = 10
# How often a hook has a command that is nearly as long as one may be: it is heavy.
LONG = 0.006
# A file that is always staged, so that a child may change it without having seen it.
ANCHOR = "anchor"
PATHS = ["a.txt", "b.txt", "c", "dir/a.txt", "s.sh"]
# What hooks run, some of whose words are paths of files.
ENTRIES = ["run", "run", "run it", "look", "look ./b.txt", "sh s.sh", "./c", "dir/a.txt it"]
ARGUMENTS = [[], [], [], ["--x"], ["two words", ""], ["a.txt"]]
CONTENTS = [b"x\n"] * 8 + [b"y\n"] * 6 + [b"1\n\n2\n", b"#!/bin/sh -e\n", b"no end", b""]
STAGES = ["pre-commit", "prepare-commit-msg", "commit-msg", "post-commit", "manual"]
PATTERNS = ["", "", r"\.txt$", "^a", "^dir/"]
# The patterns of further files that children see.
FURTHER = [NO_PATH] * 6 + ["^b", r"\.txt$", "^dir/", "^[.]pre", "^[.]git/"]
MESSAGES = [b"", b"\n", b" \t\n\n", b"first", b"first", b"first\n", b"first\n", b"  first \n\n\n\nbody\t\n\n", b"# kept\r\n\nbody"]
CHILDREN_WRITE = [b"x\n", b"y\n", b"z \n", b"\n", b"one\n\n\ntwo \n"]
OUTPUTS = [b"", b"", b"said\n", b" \n\tsaid twice\n\nso\n\n"]
# How many answers are cached at most.
LIMITS = [1, 2, 3, 10_000]
# What a report says of a child that was started and failed.
FAILING = [said for said in FAULTS if said != NOT_STARTED]


# ---- what is drawn by chance

def random_hook(rng, number):
    language = rng.choice(["system"] * 6 + ["script", "fail"])
    entry = "s.sh" if language == "script" else rng.choice(ENTRIES)
    stages = rng.choice([[], ["pre-commit"], ["pre-commit"], [rng.choice(STAGES)], ["prepare-commit-msg", "commit-msg"]])
    chance = lambda part: rng.random() < part
    hook = Hook(f"h{number}", rng.choice(["Hook", "A name", "N" * 60]), rng.choice(["", "", "other"]), language, entry, rng.choice(ARGUMENTS),
                rng.choice(PATTERNS), chance(0.3), not chance(0.2), chance(0.2), chance(0.1), stages, rng.choice(FURTHER), chance(0.2),
                rng.choice([MOST_NAMES] * 7 + [1, 2, 3]))
    return with_long_argument(rng, hook) if chance(LONG) else hook


def with_long_argument(rng, hook):
    """The hook with an argument that leaves so few bytes to names that it needs several children, or that some name doesn't fit."""
    argument = "n" * (MOST_COMMAND - len("run ") - rng.randint(4, 16))
    return hook._replace(language="system", entry="run", args=[argument], files="^[a-z]", pass_filenames=True, stages=[])


def random_configuration(rng):
    """The hooks and whether the whole configuration is `fail_fast`, or None if it can't be read, and its text."""
    if rng.random() < 0.05:
        return None, b"repos: 1\n"
    hooks, fails_fast = [random_hook(rng, number) for number in range(rng.choice([0, 1, 2, 2, 3, 3, 4]))], rng.random() < 0.05
    if hooks and rng.random() < 0.3:
        # Two hooks that start the same children, at times with one id.
        hook = rng.choice(hooks)
        hooks.append(hook._replace(name="Twin", id=rng.choice([hook.id, "twin"])))
    return (hooks, fails_fast), configuration_text(hooks, fails_fast)


class Table:
    """What children answer."""

    def __init__(self, rng, has_clocks):
        self.rng, self.has_clocks, self.rows, self.numbers = rng, has_clocks, [], {}

    def numbers_for(self, key):
        """The numbers of the rows by which a child of these words that has seen these files answers in turn. Without one it isn't started."""
        if key not in self.numbers:
            drawn = self.draw_all(dict(key[1]))
            self.numbers[key] = range(len(self.rows), len(self.rows) + len(drawn))
            self.rows += [(key, outcome) for outcome in drawn]
        return self.numbers[key]

    def draw_all(self, seen):
        if not all(is_told(file) for file in seen.values()) or self.rng.random() < 0.04:
            return []
        return [self.draw(seen) for _ in range(self.rng.choice([1, 2, 3]) if self.has_clocks else 1)]

    def draw(self, seen):
        """An answer, or what a report says of a child that failed."""
        rng, changes = self.rng, {}
        if rng.random() < 0.05:
            return rng.choice(FAILING)
        for path in seen:
            if path != CONFIGURATION and rng.random() < 0.15:
                changes[path] = None if path != ANCHOR and rng.random() < 0.25 else rng.choice(CHILDREN_WRITE)
        if MESSAGE not in seen and rng.random() < 0.05:
            # A file that the child mostly hasn't seen, and that there may be none of.
            changes[rng.choice([ANCHOR, "b.txt", "nowhere"])] = rng.choice(CHILDREN_WRITE)
        return Answer(rng.choice([0] * 8 + [1, 3, 255]), rng.choice(OUTPUTS), changes)


# ---- a play

def random_command(rng, machine, kind=None):
    """A command of this kind, or of any: its words, and the call that it is of a machine."""
    skip = [f"h{rng.randint(0, 3)}"] if rng.random() < 0.15 else ["other"] if rng.random() < 0.05 else []
    kind = kind or rng.choices(["add", "configuration", "rm", "accept", "run", "message", "commit", "log", "show", "forget", "limit"], [27, 7, 7, 12, 33, 8, 20, 2, 3, 2, 4])[0]
    if kind == "configuration":
        found, text = random_configuration(rng)
        machine.configurations[text] = found
        return ("add", "none", CONFIGURATION, text), lambda host: host.add("none", CONFIGURATION, text)
    if kind == "add":
        mode, path, contents = rng.choice(["none", "none", "none", "plain", "executable"]), rng.choice([*PATHS, "dir", "c/x", ANCHOR]), rng.choice(CONTENTS)
        return ("add", mode, path, contents), lambda host: host.add(mode, path, contents)
    if kind == "rm":
        path = rng.choice([*PATHS * 4, CONFIGURATION])
        return ("rm", path), lambda host: host.rm(path)
    if kind == "run":
        stage, files, only = rng.choice(["pre-commit", "pre-commit", "manual", "post-commit"]), rng.choice(["changed", "all"] * 4 + PATHS), rng.choice([""] * 7 + ["h0", "other", "nope"])
        how = rng.choice(["remembering", "remembering", "fresh"])
        return ("run", stage, files, only, how, ",".join(skip)), lambda host: host.run(stage, files, only, how == "fresh", skip)
    if kind == "message":
        stage, message, how = rng.choice(["prepare-commit-msg", "commit-msg"]), rng.choice(MESSAGES), rng.choice(["remembering", "remembering", "fresh"])
        return ("message", stage, message, how, ",".join(skip)), lambda host: host.message(stage, message, how == "fresh", skip)
    if kind == "commit":
        message, how = rng.choice(MESSAGES), rng.choice(["verified", "verified", "verified", "unverified"])
        return ("commit", message, how, ",".join(skip)), lambda host: host.commit(message, how, skip)
    if kind == "limit":
        limit = rng.choice(LIMITS)
        return ("limit", str(limit)), lambda host: host.limit(limit)
    if kind == "show" and machine.history:
        number = rng.randint(1, len(machine.history))
        return ("show", str(number)), lambda host: host.show(number)
    return {"accept": (("accept",), Machine.accept), "forget": (("forget",), None)}.get(kind, (("log",), Machine.log))


class Player:
    """A host of the model that plays, the words by which hook_trial plays the same, and what these are answered by."""

    def __init__(self, table, configurations, forgets_first):
        self.host, self.forgets_first = Machine(Memory(table), configurations), forgets_first
        self.words, self.replies, self.answers, self.ends = [], [], [], collections.Counter()

    def play(self, command, call):
        """Plays a command, and then has the host report what it leaves. The command `forget` is a step of its own. How many answers a
        limit leaves is reported by each host for itself."""
        forgets = self.forgets_first + (call is None)
        forgotten = b"".join(f"{self.host.memory.forget()} forgotten\n".encode() for _ in range(forgets))
        reply = self.host.reply(call).printed() if call else b""
        self.ends[f"{command[0]} {reply[len('status '):][:1].decode()}".strip()] += 1
        left = self.host.list_fixes().printed() + self.host.shown()
        self.words += ["forget"] * forgets + (["line", "all", "all", *command] if call else []) + ["line", "all", "all", "fixes", "store", "counts"]
        self.replies.append(left if command[0] == "limit" else reply + left)
        self.answers.append(forgotten + reply + left + self.host.memory.counts() + self.host.memory.take_rows())


def play_of(number):
    """The table of a play, its commands, and its players, of which the second forgets before each command."""
    rng = random.Random(f"{SEED} {number}")
    table, configurations, commands = Table(rng, has_clocks(number)), {}, []
    players = [Player(table, configurations, forgets_first) for forgets_first in (False, True)]
    for at in range(COMMANDS):
        # The first command stages the anchor, and the second a configuration.
        command, call = random_command(rng, players[0].host, "configuration" if at == 1 else None)
        if at == 0:
            command, call = ("add", "none", ANCHOR, b"x\n"), lambda host: host.add("none", ANCHOR, b"x\n")
        commands.append(command)
        for player in players:
            player.play(command, call)
    return table, commands, players


def has_clocks(number):
    return number % 4 == 3


def as_bytes(word):
    return word.encode() if isinstance(word, str) else word


def lines_of(table, players):
    """The lines by which hook_trial plays."""
    rows = [as_bytes(word).hex() or "-" for word in words_of_rows(table.rows)]
    return "".join(" ".join(["command_over", *rows, *(as_bytes(word).hex() or "-" for word in player.words)]) + "\n" for player in players)


def difference(commands, answers, told):
    """The place in which what a player of hook_trial reported differs, or None."""
    at = 0
    for number, (command, answer) in enumerate(zip(commands, answers)):
        if not told.startswith(answer, at):
            return f"command {number} {command!r}: {told[at:at + len(answer) + 100]!r}, wanted {answer!r}"
        at += len(answer)
    return f"it says more: {told[at:at + 300]!r}" if told[at:] else None


def played(numbers):
    """What is wrong with these plays, played by one process, how the commands ended, and the outcomes of the children."""
    plays = [play_of(number) for number in numbers]
    done = subprocess.run([PROGRAM], input="".join(lines_of(table, players) for table, _, players in plays).encode(), capture_output=True)
    found = [bytes.fromhex(text) for text in done.stdout.decode().splitlines()]
    wrong, ends, parts = [], collections.Counter(), collections.Counter()
    if done.returncode or done.stderr or len(found) != 2 * len(plays):
        wrong.append(f"hook_trial gave {len(found)} answers of {2 * len(plays)} and ended with {done.returncode}: {done.stderr[:300]!r}")
    for at, (number, (_, commands, players)) in enumerate(zip(numbers, plays)):
        ends, parts = ends + players[0].ends, parts + players[0].host.memory.ends
        if players[0].replies != players[1].replies:
            parts["plays in which the hosts differ"] += 1
            wrong += [] if has_clocks(number) else [f"play {number}: a host of the model that remembers differs from one that forgets"]
        for player, told in zip(players, found[2 * at:]):
            if differs := difference(commands, player.answers, told):
                wrong.append(f"play {number}, by the host that {'forgets' if player.forgets_first else 'remembers'}, {differs}")
    return wrong, ends, parts


def main():
    wrong, ends, parts = [], collections.Counter(), collections.Counter()
    numbers = sampled(range(PLAYS), lambda number: number % 4, SAMPLED_ONE_IN)
    with ProcessPoolExecutor(len(os.sched_getaffinity(0)), multiprocessing.get_context("fork")) as pool:
        for some, more, still_more in pool.map(played, [numbers[at:at + 20] for at in range(0, len(numbers), 20)]):
            wrong, ends, parts = wrong + some, ends + more, parts + still_more
    for text in wrong[:5]:
        print(f"plays: {text[:3000]}")
    for counts in (ends, parts):
        print("plays: " + ", ".join(f"{name}: {count}" for name, count in sorted(counts.items())))
    print(f"plays: {len(numbers)} plays of {COMMANDS} commands by two hosts")
    print(f"plays: {len(numbers) - len(wrong)} passed, {len(wrong)} failed{note(len(numbers), PLAYS, 'plays')}")
    sys.exit(1 if wrong or not PLAYS else 0)


main()
