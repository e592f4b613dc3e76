"""Cases of tests/host/host.py: random plays of hooks with several commands at the same time, compared with the same one after another.

Each play is a configuration and some files, and the same commands in as many repositories as there are values of `--jobs`. Whatever a
hook does to the files of the tree, each command has to answer the same in each of them, and leave the same.
"""
import collections
import os
import random
import shutil
from pathlib import Path

from host_program import check, run, write
from host_state import book_in

CONFIGURATION = ".pre-commit-config.yaml"
PLAYS, SEED = 150, 20261130
# In each play the commands run one after another, and with each of these numbers at once in turn.
AT_ONCE = [(4,), (4,), (2,), (4,), (64,), (4,), (4, 2, 64), (4,)]
FILES = ["a.txt", "b.txt", "c.md", "d/e.txt", "d/f.md", "g h.txt", "i/j/k.txt", "l"]
LINES = ["one", "two", "bad", "drop", "end"]
# What a command does by the word that its hook has, with a number from 1 to 3 in $number and the names as "$@".
DOES = {
    "passes": ":",
    "fails": 'echo "no: $*"; exit $number',
    "naps": "sleep 0.00$number",
    "naps and fails": "sleep 0.00$number; echo slow; exit 1",
    "prints": 'cat -- "$@"',
    "judges": 'for name; do while read -r text; do [ "$text" != bad ] || { echo "$name"; exit 1; }; done < "$name"; done',
    "complains": "echo out; echo err >&2; exit $number",
    "mends": 'for name; do grep -q bad "$name" && sed -i s/bad/good/ "$name"; done; :',
    "appends": 'for name; do grep -q end "$name" || echo end >> "$name"; done',
    "mends late": 'sleep 0.00$number; for name; do grep -q two "$name" && sed -i s/two/2/ "$name"; done; :',
    "drops": 'for name; do ! grep -q drop "$name" || rm "$name"; done',
    "empties": 'for name; do ! grep -q drop "$name" || : > "$name"; done; exit 1',
    "makes": "sleep 0.00$number; mkdir -p $(dirname $made); : > $made",
    "needs": "sleep 0.00$number; [ -e $made ]",
    "looks at others": "cat a.txt d/e.txt c.md 2>&1 | tail -n 9; ls",
    # Not the caches that a command next to it may have made.
    "lists": "find . -name .mypy_cache -prune -o -type f -print | LC_ALL=C sort",
    "fills a cache": "mkdir -p .mypy_cache; echo $number > .mypy_cache/$number",
    "is killed": "echo killed; kill -9 $$",
    "ends itself": "kill $$",
    "links": 'rm -f "$1"; ln -s b.txt "$1"',
}
STEPS = """#!/bin/sh
echo >> $TOP/starts
does=$1; number=$2
shift 2
case $number in
1) made=gen.txt ;;
2) made=d/gen.txt ;;
3) made=new/gen.txt ;;
esac
case $does in
%s
esac
"""
# How often a hook does each thing: those that answer alone, those that change files, and those that fault.
OFTEN = {"mends": 2, "appends": 2, "mends late": 2, "drops": 1, "empties": 1, "makes": 1, "needs": 2, "is killed": 1, "ends itself": 1,
         "links": 1, "fills a cache": 1}
# The keys that some hooks have, by their share.
KEYS = [("fail_fast: true", 0.08), ("require_serial: true", 0.12), ("always_run: true", 0.15), ("pass_filenames: false", 0.12),
        ("verbose: true", 0.7), ("x_per_file: true", 0.15)]


def steps():
    return STEPS % "\n".join(f"{word_of(does)}) {text} ;;" for does, text in DOES.items())


def word_of(does):
    return does.replace(" ", "-")


def hook(chance, number, script):
    """A random hook."""
    name = f"h{number}"
    keys = [f"id: {name}", f"name: {name}"]
    kind = chance.random()
    if kind < 0.06:
        keys += ["language: pygrep", "entry: bad"]
    elif kind < 0.12:
        keys += ["language: fail", "entry: never"]
    else:
        does = chance.choices(list(DOES), [OFTEN.get(each, 4) for each in DOES])[0]
        entry = f"'{script} {word_of(does)} {chance.randint(1, 3)}'" if chance.random() > 0.02 else "/nowhere/tool"
        keys += ["language: system", f"entry: {entry}"]
    files = chance.choice(["", "", r"\.txt$", r"\.md$", "^d/", "^nothing$", "^[abc]"])
    keys += [f"files: '{files}'"] if files else []
    # The message of a commit is a file of its hook.
    if chance.random() < 0.1:
        keys.append(f"stages: [{chance.choice(['manual', 'commit-msg', 'prepare-commit-msg', 'post-commit'])}]")
    for key, share in KEYS:
        keys += [key] if chance.random() < share else []
    keys += [f"x_at_most: {chance.randint(1, 4)}"] if chance.random() < 0.3 else []
    keys += [f"x_reads: '{chance.choice(['^a.txt$', 'md$', '^/', '^d/', '.'])}'"] if chance.random() < 0.25 else []
    return "  - {" + ", ".join(keys) + "}\n"


def contents(chance):
    return "".join(f"{chance.choice(LINES)}\n" for _ in range(chance.randint(0, 4))).encode()


class Play:
    """A random configuration and files, what is edited later, and the commands."""

    def __init__(self, seed, script):
        chance = random.Random(seed)
        top = "".join(text for text, share in (("fail_fast: true\n", 0.08), ("exclude: ^l$\n", 0.1)) if chance.random() < share)
        hooks = [hook(chance, number, script) for number in range(chance.randint(2, 7))]
        self.configuration = f"{top}default_stages: [pre-commit]\nrepos:\n- repo: local\n  hooks:\n{''.join(hooks)}".encode()
        self.files = {path: contents(chance) for path in chance.sample(FILES, chance.randint(2, len(FILES)))}
        self.edits = {path: contents(chance) for path in chance.sample(list(self.files), chance.randint(1, 2))}
        self.skip = f"h{chance.randint(0, 6)}" if chance.random() < 0.15 else ""
        paths = sorted(self.files)
        some = chance.sample(paths, chance.randint(1, len(paths)))
        options = chance.choice([[], [], ["--cautious"], ["--fresh"]])
        every = ["run", "--all-files"]
        run_words = chance.choice([every, every, ["run"], ["run-files", *some], [*every, "--hook-stage=manual"]])
        later = chance.choice([["accept"], ["run", "--all-files", "--fresh"], ["try", CONFIGURATION, *some]])
        self.steps = [["run", "--all-files"], None, [*run_words, *options], later, ["commit", "-m", "a text"]]

    def shown(self):
        return f"hooks {self.configuration.decode()}, files {self.files!r}, edits {self.edits!r}, skipped {self.skip!r}"


RUNS = ("run", "run-files", "commit", "try")


class Side:
    """A copy of a play's repository, in which commands run with one number at once."""

    def __init__(self, base, play, jobs):
        self.work, self.play, self.jobs = f"{base}-{jobs}", play, jobs
        self.top = f"{self.work}-top"
        os.mkdir(self.top)
        shutil.copytree(base, self.work)
        self.environment = {**os.environ, "TOP": self.top, "SKIP": play.skip}

    def do(self, *words):
        asked = [words[0], f"--jobs={self.jobs}", *words[1:]] if words[0] in RUNS else words
        return run(self.work, *asked, env=self.environment)

    def told(self, words):
        """What a step answers, and what it leaves."""
        if words is None:
            for path, held in self.play.edits.items():
                write(self.work, path, held)
            return [self.do("add", *self.play.edits)]
        answers = [self.do(*words)]
        if words[0] != "try":
            answers += [self.do("fixes")]
            paths = [line[2:].decode() for line in answers[-1][1].splitlines() if not line.startswith(b"D")]
            answers += [self.do("cat", "--fixed", path) for path in paths]
        return answers

    def starts(self):
        """How many commands of hooks were started so far."""
        with open(Path(self.top, "starts"), "ab") as file:
            return file.tell()


def played(folder, seed, at_once):
    """Plays one configuration, and checks that each number of commands at once gives the same. How many commands of hooks were started one
    after another, and how many more with each of these numbers."""
    base = os.path.join(folder, "base")
    play = Play(seed, os.path.join(folder, "does"))
    os.mkdir(base)
    for path, held in ((CONFIGURATION, play.configuration), *play.files.items()):
        write(base, path, held)
    for words in (["init"], ["add", CONFIGURATION, *play.files]):
        check(run(base, *words) == (0, b"", b""), f"{words!r} of play {seed}")
    sides = [Side(base, play, jobs) for jobs in (1, *at_once)]
    for words in play.steps:
        wanted, *others = [side.told(words) for side in sides]
        for side, told in zip(sides[1:], others):
            check(told == wanted, f"play {seed}, {words!r} with {side.jobs} at once: {told!r}, wanted {wanted!r}; {play.shown()}")
    check(len({side.do("memory") for side in sides}) == 1, f"play {seed} leaves another number of results with several at once; {play.shown()}")
    books = [sorted(book_in(side.work).keys) for side in sides]
    check(books.count(books[0]) == len(books), f"play {seed} leaves other results with several at once; {play.shown()}")
    needed, *started = [side.starts() for side in sides]
    for path in (base, *(path for side in sides for path in (side.work, side.top))):
        shutil.rmtree(path)
    return needed, {side.jobs: count - needed for side, count in zip(sides[1:], started)}


def answers_the_same_at_once_and_one_after_another(folder):
    """A run, an edit and a second run, a run that starts everything, a try, and a commit give the same reports, fixes and cached results,
    and no fewer commands are started."""
    write(folder, "does", steps().encode())
    os.chmod(os.path.join(folder, "does"), 0o755)
    needed, vain = collections.Counter(), collections.Counter()
    for at in range(PLAYS):
        at_once = AT_ONCE[at % len(AT_ONCE)]
        count, more = played(folder, SEED + at, at_once)
        check(min(more.values()) >= 0, f"play {SEED + at} starts too few: {count} one after another, and {more!r} more")
        needed.update({jobs: count for jobs in at_once})
        vain.update(more)
    told = "; ".join(f"{jobs} at once: {needed[jobs]:,} commands, {vain[jobs]:,} more in vain" for jobs in sorted(needed))
    print(f"{PLAYS} plays; {told}")


CASES = [answers_the_same_at_once_and_one_after_another]
