"""Plays the same commands in two repositories, one with hookhost-git and one with pre-commit, for tests/git/compare_stages.py.

After each command the same must be: its exit status, the commit that HEAD names, what is staged, the working files, the message files, what
is under way, the report of the hooks, and what hooks logged. If something differs, a reason has to hold, which is tested: the difference
must be just what the reason says. Most reasons end the play, since the repositories differ from then on.
"""
import collections
import os
import random
import re
import shutil

from compare_stages_made import Player, make
from compare_stages_side import MESSAGE, Side, results
from git_bridge_repository import Wrong, check, same

STEPS = 3

REASONS = {
    "stages of a merge": "a merge that Git commits runs the hooks of the stage pre-commit here; pre-commit has the stage merge-commit for it",
    "beside one another": "commands run before their turn here, and once more if a hook before them changes files",
    "cached": "a command that passed on the same files, words and message isn't started again here",
    "the name of a message": "while Git merges, its message is .git/MERGE_MSG; hooks here find each message as .git/COMMIT_EDITMSG",
    "a refused message": "where a hook refuses a message, pre-commit leaves in Git's file what hooks have written; here the file stays as it was",
    "a list of changes": "where a hook of pre-commit writes a file anew, though with the same bytes, Git lists it as changed in the message of a "
                         "commit of named files; here the file stays as it is",
    "files of a message hook": "files that hooks about a message change stay changed in the working tree of pre-commit; here they are dropped",
    "new files": "a file that a hook makes stays in the working tree of pre-commit; here it is dropped",
}
# Those that few plays need, or by the time that hooks take.
RARE = {"a list of changes", "beside one another"}


class Tally:
    """Which reasons the plays needed, and how many commands there were."""

    def __init__(self):
        self.needed, self.steps, self.made, self.entries = collections.Counter(), 0, 0, 0


class Pair:
    """The two sides of a play."""

    def __init__(self, ours, theirs, tally):
        self.ours, self.theirs, self.tally = ours, theirs, tally
        self.began, self.told = set(), ""
        self.is_ordered = ours.run("git", "config", "hookhost.jobs").out == "1\n"
        self.commit_alone, self.merge_alone = one_sided(configuration_of(ours))

    def attempt(self, step):
        """Does a step in both, and answers whether its command passed, or none if the play ends with a difference that has a reason."""
        for side in (self.ours, self.theirs):
            side.prepare(step)
        head, files = self.ours.head_id(), self.ours.working_files()
        (here, our_entries), (there, their_entries) = self.ours.step(step), self.theirs.step(step)
        self.told = f"{step!r}\nhere {here!r}\nlog {our_entries!r}\npre-commit {there!r}\nlog {their_entries!r}"
        self.tally.steps += 1
        self.tally.entries += len(their_entries)
        if self.differs_in_merge(step, results(here), results(there)):
            self.need("stages of a merge")
            return None
        same("exit status", here.status, there.status)
        same("the report", results(here), results(there))
        if "--" in step.words and lists_changes(our_entries, their_entries):
            self.need("a list of changes")
            return None
        self.compare_entries(our_entries, their_entries)
        ours, theirs = self.ours.state(), self.theirs.state()
        self.tally.made += ours.head != head
        for what in ("head", "branch", "index", "under_way"):
            same(what, getattr(ours, what), getattr(theirs, what))
        self.compare_messages(ours.messages, theirs.messages, our_entries, here.status)
        if self.compare_files(files, ours.files, theirs.files, results(here)):
            return None
        return here.status == 0

    def need(self, reason):
        self.tally.needed[reason] += 1

    def differs_in_merge(self, step, ours, theirs):
        """Whether in a merge the first difference of the reports is a hook that has only one of both stages."""
        if step.words[1] != "merge" or ours == theirs:
            return False
        at = next((at for at, (here, there) in enumerate(zip(ours, theirs)) if here != there), min(len(ours), len(theirs)))
        return name_at(ours, at) in self.commit_alone or name_at(theirs, at) in self.merge_alone

    def without_vain(self, ours, theirs):
        """Our entries in the order in which pre-commit starts hooks, without those of commands that run again, since an earlier hook has changed
        files meanwhile."""
        found, vain = in_turn(ours, theirs)
        for entry in vain:
            check(any(entry.id == other.id for other in theirs), f"not started with pre-commit: {entry!r}")
            self.need("beside one another")
        return found

    def compare_entries(self, ours, theirs):
        """Checks that the same hooks were started, but for those that are cached."""
        ours, theirs = entries_in_order(ours), entries_in_order(theirs)
        if not self.is_ordered:
            ours = self.without_vain(ours, theirs)
        at = 0
        for entry in theirs:
            if at < len(ours) and as_here(ours[at]) == as_here(entry):
                if ours[at].names != entry.names:
                    self.need("the name of a message")
                at += 1
                continue
            key = key_of(as_here(entry))
            check(key in self.began, f"not started here: {entry!r}, but {ours[at:at + 1]!r}")
            self.need("cached")
        same("what is started here alone", ours[at:], [])
        self.began.update(key_of(as_here(entry)) for entry in ours)

    def compare_messages(self, ours, theirs, entries, status):
        """Checks Git's files of messages. That of a refused commit is as it was when the first hook found it."""
        for name in ours:
            if ours[name] == theirs[name]:
                continue
            check(name == "COMMIT_EDITMSG" and status != 0, f"{name}: {ours[name]!r} and {theirs[name]!r} with status {status}")
            seen = [entry.message.encode(errors="surrogateescape") for entry in entries if as_here(entry).names == (MESSAGE,)]
            check(ours[name].removesuffix(b"\n") in seen, f"{name} is {ours[name]!r}, and hooks found {seen!r}")
            self.need("a refused message")

    def compare_files(self, before, ours, theirs, report):
        """Checks the working files, and answers whether the play ends."""
        differ = sorted(path for path in {*ours, *theirs} if ours.get(path) != theirs.get(path))
        for path in differ:
            here, there = ours.get(path), theirs.get(path)
            if path == "new.txt":
                same("the new file", (here, there), (None, (0o644, b"new\n")))
                self.need("new files")
                continue
            same(f"the file {path}", here, before.get(path))
            check(path == "a.txt" and there[1].startswith(here[1]), f"{path} is {there!r} with pre-commit")
            same("what is added with pre-commit", set(there[1][len(here[1]):].splitlines()), {b"changed"})
            check(any(line.endswith("Failed") for line in report), "no hook failed")
            self.need("files of a message hook")
        return bool(differ)


def in_turn(ours, theirs):
    """Our entries in the order of the others, and those of them that have no peer."""
    left, found = list(ours), []
    for entry in theirs:
        at = next((at for at, here in enumerate(left) if as_here(here) == as_here(entry)), None)
        if at is not None:
            found.append(left.pop(at))
    return found, left


def lists_changes(ours, theirs):
    """Whether the first difference is the list of changed files in a message, which Git makes."""
    here, peer = next(((here, peer) for here, peer in zip(ours, theirs) if as_here(here) != as_here(peer)), (None, None))
    if here is None or here.id != peer.id or here.message == peer.message:
        return False
    return without_changes(here.message) == without_changes(peer.message)


def without_changes(message):
    """The lines of a message without those by which Git lists changed files."""
    return [line for line in message.split("\n") if not re.match(r".\tmodified: ", line)]


def name_at(report, at):
    """The name of the hook of a line of a report, or none after its end."""
    return report[at].partition(".")[0] if at < len(report) else None


def one_sided(text):
    """The names of the hooks that have the stage of commits and not that of merges, and those of the others."""
    default = re.search(r"^default_stages: \[(.*)\]$", text, re.MULTILINE)
    names = {"commit": set(), "merge-commit": set()}
    for name, own in re.findall(r"id: (\w+),.*?(?:stages: \[(.*?)\].*)?$", text, re.MULTILINE):
        stages = own or (default.group(1) if default else "commit, merge-commit")
        for stage in {"commit", "merge-commit"} & set(stages.split(", ")):
            names[stage].add(name)
    return names["commit"] - names["merge-commit"], names["merge-commit"] - names["commit"]


def as_here(entry):
    """What is logged here for the same start: a message always has one name."""
    return entry._replace(names=tuple(MESSAGE if name.endswith("/MERGE_MSG") else name for name in entry.names))


def key_of(entry):
    """What a cached result depends on."""
    return entry.id, entry.digest, entry.names, entry.message


def entries_in_order(entries):
    """The entries with the names of each in order: hooks that don't say `require_serial` get them in any."""
    return [entry._replace(names=tuple(sorted(entry.names))) for entry in entries]


def play(top, env, seed, hooks, tally, second):
    """Plays one repository. The name of the second side's hooks is `pre-commit`, the first's may be too."""
    rng = random.Random(seed)
    ours = Side(os.path.join(top, "ours"), env)
    shutil.copytree(hooks.plain, ours.folder, symlinks=True)
    types = make(rng, ours)
    if seed % 5:
        # In the other plays commands run beside one another, so maybe in vain.
        ours.git("config", "hookhost.jobs", "1")
    theirs = Side(os.path.join(top, "theirs"), env)
    shutil.copytree(ours.folder, theirs.folder, symlinks=True)
    ours.hooks_from(hooks.folders[second], types)
    theirs.hooks_from(hooks.folders["pre-commit"], types)
    pair, player = Pair(ours, theirs, tally), Player(rng, ours)
    try:
        for _ in range(STEPS):
            passed = pair.attempt(player.next())
            if passed is None:
                return
            player.was_refused = not passed
    except Wrong as wrong:
        raise Wrong(f"play {seed}: {wrong}\n{pair.told}\nhooks {types!r}\n{configuration_of(ours)}") from None


def configuration_of(side):
    with open(os.path.join(side.folder, ".pre-commit-config.yaml"), encoding="utf-8") as file:
        return file.read()
