"""What is printed of a hook."""
import os
import re

from hookhost_reads.basics import CONFIGURATION, as_pattern, below, extension, shown
from hookhost_reads.configuration import x_reads_of
from hookhost_reads.keys import Prober, items_of
from hookhost_reads.world import traced

# So many lines of a kind are printed of a hook, and then how many more there are.
MOST_LINES = 10
# What says that a command reads just the files that it is handed: no path begins so.
NO_FILE = "^/"
# With so many paths in a pattern, those of one folder and extension become one.
MOST_PATHS, MOST_ALIKE = 20, 5
# Folders of the system: who puts something there installs it.
SYSTEM = ("bin", "boot", "dev", "etc", "gnu", "lib", "lib32", "lib64", "libx32", "nix", "opt", "proc", "run", "sbin", "snap", "sys", "usr", "var/cache", "var/lib")


def is_system(path):
    return any(path == "/" + folder or path.startswith(f"/{folder}/") for folder in SYSTEM)


def outside_of(commands, world):
    """The files outside the tree that commands read and didn't make; if they are many, by folders."""
    found = set()
    for command in commands:
        for path in command.opened.keys() - command.made:
            is_own = is_system(path) or path in (world.place, world.program) or below(world.place, path) is not None or world.is_of_import(path)
            if path.startswith("/") and not is_own and os.path.isfile(path):
                found.add(path)
    for depth in range(12, 1, -1):
        groups = {}
        for path in sorted(found):
            parts = path.split("/")
            groups.setdefault("/".join(parts[:depth]), []).append(path)
        if len(groups) <= MOST_LINES:
            break
    return [shown(at_home(held[0])) if len(held) == 1 else f"{shown(at_home(head) + '/')}, {len(held)} files" for head, held in groups.items()] if found else []


def at_home(path):
    home = os.environ.get("HOME", "").rstrip("/")
    return "~" + path[len(home):] if home and path.startswith(home + "/") else path


def pattern_of(items, old):
    """The pattern that finds what the old one finds, and all of these."""
    alone = sorted({item.pattern for item in items if item.pattern})
    if len(alone) > MOST_PATHS:
        groups = {}
        for item in items:
            if item.kind in ("reads", "looks at"):
                head = item.path.partition("/")[0] if "/" in item.path else ""
                groups.setdefault((head, extension(item.path)), set()).add(item.pattern)
        for (head, end), held in groups.items():
            if len(held) > MOST_ALIKE:
                alone = [it for it in alone if it not in held] + [(as_pattern(head) + "/.*" if head else "[^/]*") + as_pattern(end)]
    alone = without_found(items, alone)
    new = "^(" + "|".join(sorted(set(alone))) + ")$" if len(alone) > 1 else "^" + alone[0] + "$"
    if not old:
        return new
    return (f"(?:{old})" if "(?" in old else old) + "|" + new


def without_found(items, patterns):
    """The patterns without those of single paths that another pattern finds too."""
    paths = {item.pattern: item.path for item in items if not item.pattern.endswith(".*") and "[^/]*" not in item.pattern}
    wide = [re.compile(it) for it in patterns if it not in paths and "\\x{" not in it]
    return [it for it in patterns if it not in paths or not any(each.fullmatch(paths[it]) for each in wide)]


def in_yaml(text):
    return "'" + text.replace("'", "''") + "'"


def tell(head, lines):
    for line in lines[:MOST_LINES]:
        print(f"  {head}: {line}")
    if len(lines) > MOST_LINES:
        print(f"  {head}: {len(lines) - MOST_LINES} more")


def report(world, name, is_cautious):
    """Prints what is found of the hooks of a name, and returns whether something is missing."""
    if name in world.left and name not in world.languages:
        print(f"{name}: left to pre-commit, and so not traced")
        return True
    commands, verdicts, said = traced(world, name)
    if not commands and world.languages.get(name, set()) & {"system", "script"} and not verdicts <= {"Skipped"}:
        said = said or ["strace shows no command"]
    if said:
        print(f"{name}: can't be tried: {'; '.join(said)}")
        return True
    if not commands:
        print(f"{name}: starts no command")
        return False
    items = {command.words: set(items_of(command, world)) for command in commands}
    prober = Prober(world, name, commands, ["--cautious"] if is_cautious else [])
    if untried := [words for words in items if words in prober.never and items[words]]:
        print(f"{name}: can't be tried: {shown(untried[0][0])} isn't cached: it fails, or changes files")
        return True
    found = sorted(set().union(*prober.missing(items).values()), key=lambda item: (item.path, item.kind))
    missing = [item for item in found if item.kind != "names"]
    files = {item.path for item in missing}
    print(f"{name}: " + (f"{len(files)} {'file' if len(files) == 1 else 'files'} missing from the key" if missing else "all that it reads is in the key"))
    for kind in ("reads", "looks at", "looks for", "lists"):
        tell(kind, [item.told for item in missing if item.kind == kind])
    if missing:
        tell_x_reads(world, name, commands, items, missing, is_cautious)
    tell("lists", [item.told for item in found if item.kind == "names"])
    tell("outside", outside_of(commands, world))
    calls_git = any(command.calls_git for command in commands)
    if calls_git:
        print("  calls Git")
    if "Failed" in verdicts:
        print("  failed")
    elif not missing and not is_cautious and not calls_git:
        tell_enough(world, name, commands, items)
    return bool(missing)


def tell_x_reads(world, name, commands, items, missing, is_cautious):
    """Prints the pattern. A hook that gets its first one no longer sees all files in a cautious run, so the pattern has all that it reads."""
    old = x_reads_of(world.configuration, name)
    if is_cautious and old == "":
        plain = Prober(world, name, commands, []).missing(items)
        missing = [item for item in set().union(*plain.values()) if item.kind != "names"]
    if old is None:
        print(f"  to be added to x_reads: {in_yaml(pattern_of(missing, ''))}")
    else:
        print(f"  x_reads: {in_yaml(pattern_of(missing, old))}")
    tell_place(world, name)


def tell_place(world, name):
    """Prints in which entry of the team's configuration the pattern of a hook of another repository has to stand."""
    for source in world.imported.sources(name) if world.imported else []:
        print(f"  where: the hook {name} of {source}, in {world.staged.configuration}")


def tell_enough(world, name, commands, items):
    """Prints for a hook that has every file in its key, since the import doesn't know what it reads, which pattern has what it read."""
    if world.imported is None or not world.imported.sees_all(name):
        return
    prober = Prober(world, name, commands, [], {CONFIGURATION: os.fsencode(world.imported.without_x_reads(name))})
    if prober.never:
        return
    found = [item for item in set().union(*prober.missing(items).values()) if item.kind != "names"]
    print(f"  every file is in the key, of which this is enough: x_reads: {in_yaml(pattern_of(found, '') if found else NO_FILE)}")
    tell_place(world, name)
