"""What is in the keys of a hook's commands."""
import os
import re
from dataclasses import dataclass

from hookhost_reads.basics import Refused, as_pattern, extension, shown, write_program
from hookhost_reads.staged import is_taken
from hookhost_reads.strace import STARTS

# If more items than these may be in a command's key, it is first tried whether every path is.
FEW_ITEMS = 8
# Paths that hardly any pattern finds all of, except one that finds every path.
ODD_PATHS = ("@0@", "@1@.@1@", "@2@/@2@.@2@")


@dataclass(frozen=True)
class Item:
    """Something that a result may depend on: a path that is changed or added to try it, its text in the report, and its pattern."""

    path: str
    kind: str
    told: str
    pattern: str


def items_of(command, world):
    """What a command's result may depend on, other than the files that its words name, in the order of the report."""
    handed = {word.removeprefix("./") for word in command.words} & world.known
    opened, asked, made = (set(filter(None, map(world.inside, paths))) for paths in (command.opened, command.looked, command.made))
    opened, looked = opened & world.known, asked & world.known
    found = [Item(path, "reads", shown(path), as_pattern(path)) for path in sorted(opened - handed)]
    found += [Item(path, "looks at", shown(path), as_pattern(path)) for path in sorted(looked - opened - handed)]
    # A folder exists as long as one of its files does.
    listed = set(map(world.inside, command.listed))
    for folder in sorted((asked & world.folders) - listed - {path[:at.start()] for path in handed | opened | looked for at in re.finditer("/", path)}):
        first = next(path for path in world.staged.paths if path.startswith(folder + "/"))
        found.append(Item(first, "looks at", shown(folder + "/"), as_pattern(folder) + "/.*"))
    found += absent_items(set(filter(None, map(world.inside, command.absent))), made | {path[:at.start()] for path in made for at in re.finditer("/", path)} - world.folders, world)
    for full, since in sorted(command.listed.items()):
        folder = world.inside(full)
        if folder is None or (folder and folder not in world.folders):
            continue
        read = {extension(path) for full, at in command.opened.items() if at >= since and (path := world.inside(full)) in world.known and os.path.dirname(path) == folder}
        head = folder + "/" if folder else ""
        for end in sorted(read):
            found.append(Item(f"{head}hookhost-reads-new{end}", "lists", f"{shown(folder or '.')}, where a new file {shown('*' + end)} isn't in the key",
                              as_pattern(head) + "[^/]*" + as_pattern(end)))
        if not read:
            found.append(Item(f"{head}hookhost-reads-new", "names", shown(folder or "."), ""))
    return found


def absent_items(absent, made, world):
    """The files that a command looked for and didn't find. Of those below a missing folder only the first is given."""
    seen = {}
    for path in sorted(absent):
        parts = path.split("/")
        heads = ["/".join(parts[:count]) for count in range(1, len(parts) + 1)]
        if path in world.known or path in world.folders or not is_taken(path) or ".git" in parts or any(head in made or head in world.known for head in heads):
            continue
        # What a link of hookhost.link leads to is no file of the tree.
        if parts[0] in world.staged.links:
            continue
        first = next(head for head in heads if head not in world.folders)
        if first == path or first not in seen:
            seen[first] = path
    return [Item(path, "looks for", shown(first) if path == first else shown(first + "/") + "..", as_pattern(first) + ("" if path == first else "/.*"))
            for first, path in seen.items()]


class Prober:
    """Finds out from hookhost which items are in the keys of a hook's commands, in a store where each command does nothing."""

    def __init__(self, world, name, commands, words, contents=None):
        self.world, self.name, self.words, self.commands = world, name, words, {command.words for command in commands}
        self.env = {"PATH": stubs(world, commands) + ":" + world.env["PATH"]}
        world.let_scripts(do_nothing=True)
        self.store = world.store(scripts(world, commands) | (contents or {}))
        self.cached()
        self.most = self.cached()
        # Those that aren't cached at all are started each time.
        self.never = self.traced() if self.most < sum(command.count for command in commands) else set()

    def cached(self):
        """How many commands aren't started now, since their results are cached."""
        count = 0
        for selection in self.world.selections:
            status, printed, said = self.store.run(self.name, selection, *self.words, env=self.env)
            counts = re.findall(r"^answered from the cache: (\d+)$", printed, re.MULTILINE)
            if status > 1 or not counts:
                raise Refused(f"hookhost says: {said.strip()}")
            count += int(counts[-1])
        return count

    def traced(self):
        """The commands that are started now, as strace shows."""
        found = set()
        for selection in self.world.selections:
            with self.store.trace(self.name, selection, STARTS, *self.words, env=self.env) as (_, _, _, commands):
                found |= {command.words for command in commands}
        return found

    def started(self, paths):
        """The commands that are started once these paths are changed."""
        self.store.change(paths)
        count = self.cached()
        if count in (0, self.most):
            return set() if count else self.commands
        # Some of them are started, and all are cached now.
        self.store.change(paths)
        return self.traced()

    def missing(self, items):
        """Of each command's items those that aren't in its key."""
        unknown = {words: set(held) for words, held in items.items() if held and words not in self.never}
        missing = {words: set() for words in unknown}

        def sees_all():
            """Takes out the commands that are started for any new path."""
            started = set(unknown)
            for path in ODD_PATHS:
                started &= self.started([path])
            for words in started:
                unknown[words] = set()

        def look(group):
            relevant = [words for words, held in unknown.items() if held & set(group)]
            if not relevant:
                return
            started = self.started(sorted({item.path for item in group}))
            for words in relevant:
                mine = unknown[words] & set(group)
                if words not in started:
                    missing[words] |= mine
                if words not in started or len(group) == 1:
                    unknown[words] -= mine
            # Most keys have nothing of such a group, or nearly all of it.
            for item in group if len(group) > 1 else []:
                look([item])

        if sum(map(len, unknown.values())) > FEW_ITEMS:
            sees_all()
        # A path that is both a file and a folder of another one can't be added with it.
        for group in apart(sorted(set().union(*unknown.values()), key=lambda item: (item.path, item.kind))):
            look(group)
        self.store.change([])
        return missing


def apart(items):
    """The items in groups in which no path is a folder of another one."""
    groups = []
    for item in items:
        for group, paths, folders in groups:
            heads = {item.path[:at.start()] for at in re.finditer("/", item.path)}
            if item.path not in folders and not heads & paths:
                break
        else:
            group, paths, folders = [], set(), set()
            groups.append((group, paths, folders))
        group.append(item)
        paths.add(item.path)
        folders |= {item.path[:at.start()] for at in re.finditer("/", item.path)}
    return [group for group, _, _ in groups]


def stubs(world, commands):
    """A folder of programs that do nothing, by the names of those that are looked for along the PATH."""
    folder = os.path.join(world.place, "stubs")
    os.makedirs(folder, exist_ok=True)
    for command in commands:
        called = command.words[:1] if os.path.basename(command.words[0]) != "env" else command.words[:2]
        for word in called:
            path = os.path.join(folder, word)
            if word and "/" not in word and word not in (".", "..") and not os.path.exists(path):
                write_program(path)
    return folder


def scripts(world, commands):
    """The scripts of the tree that a command starts by the program of their first line, cut to that line."""
    cut = {}
    for path in {word for command in commands for word in command.words[1:4]} & world.known:
        with open(os.path.join(world.staged.folder, path), "rb") as file:
            line = file.readline()
        if line.startswith(b"#!"):
            cut[path] = line.rstrip(b"\n") + b"\n"
    return cut
