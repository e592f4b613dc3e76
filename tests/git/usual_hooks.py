#!/usr/bin/env python3
"""Runs the hooks that docs/FROM_PRE_COMMIT.md shows for most teams, as they are written there, by hookhost-git and by pre-commit.

Usage: tests/git/usual_hooks.py [PROGRAM [PART]]   (default: crates/hookhost/out/hookhost, and each of blocks, trees, inputs and git)
       tests/git/usual_hooks.py --lacking          (the packages that aren't installed, without those of real_tools.py)

Every block has to be taken by `hookhost check`, `hookhost explain` and pre-commit. Each hook whose tool is installed has to pass over a
good tree and to fail over a bad one, and what it fixes has to have the right bytes, by both. The hooks of pre-commit-hooks are compared
with the originals (usual_hooks_originals.py) on hard inputs, each by its own copy of the hook. DIFFERENCES has what differs, with the
reason, and each of them has to occur.
"""
import os
import re
import shutil
import sys
import tempfile

sys.path.insert(0, os.path.abspath(f"{__file__}/../../shared"))
from git_bridge_repository import BRIDGE, CONFIGURATION, PROGRAM, Repository, Wrong, environment
from places import TOP
from real_tools_case import Script
from real_tools_ways import STAYS, Answer
from usual_hooks_cases import CASES, CONFLICTS, LARGE, SETTINGS, TREES, Executable, inputs_of
from usual_hooks_originals import ORIGINALS, case_conflict, check_added_large_files, check_merge_conflict, python_with

PAGE = os.path.join(TOP, "docs/FROM_PRE_COMMIT.md")
SECTION = re.compile(r"^## The hooks most teams have, as local hooks\n(.*?)^## ", re.MULTILINE | re.DOTALL)
BLOCK = re.compile(r"^```yaml\n(.*?)^```$", re.MULTILINE | re.DOTALL)
HEAD = "repos:\n- repo: local\n  hooks:\n"
BEGINS = re.compile(r"^(?=  - id: )", re.MULTILINE)
ENDS = re.compile(r"\.(?:\(no files to check\))?(Passed|Failed|Skipped)$", re.MULTILINE)
CALLS_GIT = "no-commit-to-branch"
WHOLE_TREE = "check-case-conflict"
# Tools that Debian doesn't have: their hooks are just read, if nobody has installed them.
NOT_IN_DEBIAN = {"prettier", "ruff"}
IN_MEMORY = "/dev/shm"
WAYS = {"hookhost": (BRIDGE, "run"), "pre-commit": ("pre-commit", "run", "--color", "never")}

# What differs from the hook of pre-commit-hooks of that name: the hook, the input, and why.
NO_CR = "sed takes a last line without a line feed as any other line, so its carriage return stays"
LOOKS_ALWAYS = "it looks outside a merge too, since a hook that asks Git leaves nothing cached"
NO_TITLE = "since it looks outside a merge, a line that may stand beneath a title is none of a conflict"
LOOKS_AT_ALL = "it looks at all that it is handed or finds, since a hook that asks Git leaves nothing cached"
DIFFERENCES = {
    (name, what): NO_CR for name in ("trailing-whitespace", "trailing-whitespace-markdown") for what in ("CR alone", "CR, then no line feed", "LF CR", "many CR at the end")
} | {
    ("check-yaml", "list as a key"): "PyYAML takes no list as a key, and ruamel.yaml makes a tuple of it",
    ("check-yaml", "number"): "keys are compared as they are written",
    ("check-merge-conflict", "conflict"): LOOKS_ALWAYS,
    ("check-merge-conflict", "conflict, CR LF"): LOOKS_ALWAYS,
    ("check-merge-conflict", "conflict at the end"): LOOKS_ALWAYS,
    ("check-merge-conflict", "a title, in a merge"): NO_TITLE,
    ("check-case-conflict", "beyond ASCII"): "tr goes by bytes",
    ("check-case-conflict", "they were there before"): LOOKS_AT_ALL,
    ("check-added-large-files", "it was there before"): LOOKS_AT_ALL,
}


def lacking():
    found = [] if shutil.which("pyupgrade") else ["pyupgrade"]
    return found + ([] if python_with("ruamel.yaml") else ["python3-ruamel.yaml"])


class Tally:
    """The cases that are as they have to be, and those that aren't."""

    def __init__(self):
        self.passed, self.failed, self.used = 0, 0, set()

    def same(self, what, found, wanted, answer=None):
        self.holds(found == wanted, f"{what}: {short(found)}, wanted {short(wanted)}", answer)

    def holds(self, truth, text, answer=None):
        if truth:
            self.passed += 1
            return
        self.failed += 1
        print(f"WRONG: {text}" + (f"\n{answer.text[-2000:]}" if answer else ""))

    def as_original(self, hook, what, found, wanted):
        """Checks that a hook did what the original does, or one of the differences, which has to be one."""
        key = (hook, what)
        if key not in DIFFERENCES:
            self.same(f"{hook}, {what}, as by the original", found, wanted)
            return
        self.used.add(key)
        self.holds(found != wanted, f"{hook}, {what}: it doesn't differ any more, although {DIFFERENCES[key]}")


def short(value):
    text = repr(value)
    return text if len(text) < 200 else text[:200] + ".."


class Hook:
    """A hook as it is written on the page."""

    def __init__(self, text):
        self.text = text
        self.id = re.search(r"- id: (\S+)", text)[1]
        self.language = re.search(r"^    language: (\S+)", text, re.MULTILINE)[1]
        self.tool = re.search(r"^    entry: (?:\|\n *)?(\S+)", text, re.MULTILINE)[1] if self.language == "system" else None

    def is_installed(self):
        return self.tool is None or shutil.which(self.tool) is not None

    def named(self, name):
        """The hook by another id and name."""
        named = re.sub(r"- id: .*", f"- id: {name}", self.text, count=1)
        return re.sub(r"^    name: .*", f"    name: {name}", named, count=1, flags=re.MULTILINE)

    def within(self, folder):
        """The hook by the name of a folder, for the files of that."""
        return self.named(folder) + f"    files: '^{folder}/'\n"


class Place:
    """A repository in which one tree after another is written, for one way to run hooks."""

    def __init__(self, way, folder, env):
        self.way, self.git = way, Repository.made(os.path.join(folder, way), env)

    def lay(self, tree, hooks):
        for name in os.listdir(self.git.folder):
            if name not in STAYS:
                path = os.path.join(self.git.folder, name)
                shutil.rmtree(path) if os.path.isdir(path) else os.remove(path)
        self.tree = tree
        for path, held in tree.items():
            self.git.write(path, held, 0o755 if isinstance(held, (Script, Executable)) else None)
        self.git.write(CONFIGURATION, HEAD + "".join(hooks))
        self.git.git("add", "--all", "--force", ".")

    def run(self, *words):
        """The answer of the hooks to all files, or to those that a commit would change."""
        ran = self.git.run(*WAYS[self.way], *words)
        if ran.status not in (0, 1):
            raise Wrong(f"{self.way} {words!r}: {ran!r}")
        return Answer(ran)

    def files(self):
        return {path: self.git.read(path) for path in self.tree}


def blocks():
    with open(PAGE, encoding="utf-8") as file:
        return BLOCK.findall(SECTION.search(file.read())[1])


def hooks_of(block):
    return [Hook(text) for text in BEGINS.split(block.removeprefix(HEAD))[1:]]


def all_hooks():
    """Each hook of the page by its id, a second one of that id by another name."""
    found = {}
    for hook in [hook for block in blocks() for hook in hooks_of(block)]:
        found[hook.id if hook.id not in found else f"{hook.id}-2"] = hook
    return found


def folder_of(hook, number=None):
    return hook.replace("-", "_") + ("" if number is None else f"_{number:02}")


def tree_of(files):
    """The files of all hooks, each in the folder of its own, and the settings of tools."""
    found = dict(SETTINGS)
    for hook in CASES:
        found |= {f"{folder_of(hook)}/{path}": held for path, held in files(CASES[hook]).items()}
    return found


def written(held):
    return held.encode() if isinstance(held, str) else held


# ---- the blocks as they are written


def check_blocks(tally, place):
    """Checks that each block is a configuration of its own, in which every key is known."""
    for block in blocks():
        hooks = hooks_of(block)
        what = f"the block of {hooks[0].id}"
        place.lay({}, [])
        place.git.write(CONFIGURATION, block)
        checked = place.git.run(PROGRAM, "check")
        tally.same(f"check, {what}", (checked.status, "ignored" in checked.text, f"hooks: {len(hooks)}" in checked.text), (0, False, True), checked)
        explained = place.git.run(PROGRAM, "explain")
        tally.same(f"explain, {what}", (explained.status, explained.out.split("\n")[0]), (0, f"{CONFIGURATION}: taken, hooks: {len(hooks)}"), explained)
        taken = place.git.run("pre-commit", "validate-config")
        tally.same(f"validate-config, {what}", taken.status, 0, taken)


def check_good(tally, place, hooks):
    """Checks that all hooks pass over a good tree as they are written, over each other's files and their own configuration too."""
    chosen = [hook.text for hook in hooks.values() if hook.id != CALLS_GIT]
    place.lay(tree_of(lambda case: case.good), chosen)
    answer = place.run("--all-files")
    tally.same(f"the good tree, by {place.way}", (answer.status, ENDS.findall(answer.text)), (0, ["Passed"] * len(chosen)), answer)
    tally.same(f"the good tree's files, by {place.way}", place.files(), {path: written(held) for path, held in place.tree.items()}, answer)


def check_cached(tally, place, hooks):
    """Checks that over the same good tree no command starts, and after an edit of nothing that they read only those that see all."""
    known = [hook for hook in hooks.values() if hook.language == "system" and hook.id not in (CALLS_GIT, "ruff", "ruff-format")]
    # The set of files that a hook of any file is given has changed for check-added-large-files too.
    sees_all = {WHOLE_TREE, "check-added-large-files"}
    commands = len(known) + sum(hook.id.startswith("ruff") for hook in hooks.values())
    answer = place.run("--all-files", "--verbose")
    tally.holds(f"answered from the cache: {commands}\n" in answer.text, f"again over the good tree not {commands} answers are cached", answer)
    place.git.add("picture.png", b"\0")
    left = len([hook for hook in known if hook.id not in sees_all])
    answer = place.run("--all-files", "--verbose")
    tally.holds(f"answered from the cache: {left}\n" in answer.text, f"after an edit of no text not {left} answers are cached", answer)


def check_bad(tally, place, hooks):
    """Checks that each hook fails over its bad files, and what it makes of them."""
    place.lay(tree_of(lambda case: case.good) | tree_of(lambda case: case.bad), [hook.within(folder_of(name)) for name, hook in hooks.items() if name != CALLS_GIT])
    answer = place.run("--all-files")
    for name in hooks:
        if name != CALLS_GIT:
            tally.same(f"{name}, the bad tree, by {place.way}", answer.verdicts.get(folder_of(name)), "Failed", answer)
    mended = tree_of(lambda case: case.good) | tree_of(lambda case: case.bad | case.mended)
    installed = {folder_of(name) for name in hooks} | set(SETTINGS)
    files = place.files()
    for path in files:
        if path.split("/")[0] in installed:
            tally.same(f"{path} of the bad tree, by {place.way}", files[path], written(mended[path]), answer)


# ---- hard inputs


def copies_of(hook):
    """Copies of a small hook by their folders, with the inputs of each.

    One copy gets all inputs if it fixes files, since its bytes show the result for each. Otherwise one gets all those at which the
    original passes, and each other input has its own.
    """
    inputs = inputs_of(hook)
    if CASES[hook].mended:
        return {folder_of(hook): inputs}
    taken = [given for given in inputs if b"\0" not in given.held and (hook, given.what) not in DIFFERENCES and ORIGINALS[hook](given.held) is not None]
    others = {folder_of(hook, number): [given] for number, given in enumerate(inputs) if given not in taken}
    return {folder_of(hook): taken} | others


def check_hard(tally, places, hooks):
    """Checks that both ways give the same for each input, and what the original gives."""
    copies = {folder: (name, inputs) for name in ORIGINALS for folder, inputs in copies_of(name).items()}
    tree = {f"{folder}/{given.path}": given.held for folder, (_, inputs) in copies.items() for given in inputs}
    answers = {}
    for place in places:
        place.lay(tree, [hooks[name].within(folder) for folder, (name, _) in copies.items()])
        answers[place.way] = place.run("--all-files"), place.files()
    for folder, (name, inputs) in copies.items():
        verdicts = {way: answer.verdicts.get(folder) for way, (answer, _) in answers.items()}
        tally.same(f"{name}, {folder}, as by pre-commit", verdicts["hookhost"], verdicts["pre-commit"], answers["hookhost"][0])
        for given in inputs:
            left = {way: files[f"{folder}/{given.path}"] for way, (_, files) in answers.items()}
            tally.same(f"{name}, {given.what}, bytes as by pre-commit", left["hookhost"], left["pre-commit"])
            compare_original(tally, name, given, verdicts["hookhost"], left["hookhost"])


def compare_original(tally, name, given, verdict, left):
    """Compares with the original, which is given the same files: no binary ones if the hook asks for text."""
    if verdict == "Skipped" or CASES[name].mended and b"\0" in given.held:
        tally.same(f"{name}, {given.what}, which it isn't handed", (left, b"\0" in given.held), (given.held, True))
        return
    wanted = ORIGINALS[name](given.held)
    if CASES[name].mended:
        tally.as_original(name, given.what, left, wanted)
    else:
        tally.as_original(name, given.what, (verdict, left), ("Failed" if wanted is None else "Passed", given.held))


def check_merge(tally, place, hooks):
    """check-merge-conflict in a merge that is under way, which the original needs."""
    texts = {what: held for what, held in CONFLICTS.items() if b"\0" not in held}
    place.lay({"base": "a\n"}, [])
    for words in (("commit", "-qm", "a"), ("checkout", "-qb", "other"), ("commit", "-qm", "b", "--allow-empty"), ("checkout", "-qB", "third", "HEAD~"), ("commit", "-qm", "c", "--allow-empty")):
        place.git.git(*words)
    place.git.git("merge", "--no-commit", "--no-ff", "-q", "other")
    hook = hooks["check-merge-conflict"]
    place.lay({f"merged_{number}/a name.txt": held for number, held in enumerate(texts.values())}, [hook.within(f"merged_{number}") for number in range(len(texts))])
    answer = place.run("--all-files")
    for number, (what, held) in enumerate(texts.items()):
        wanted = "Failed" if check_merge_conflict(held, is_in_merge=True) is None else "Passed"
        tally.as_original("check-merge-conflict", f"{what}, in a merge", answer.verdicts.get(f"merged_{number}"), wanted)


# ---- hooks that look at more than the files that they are given


def check_names(tally, places, hooks):
    """check-case-conflict over trees, all of whose paths are new."""
    for what, paths in TREES.items():
        found = {}
        for place in places:
            place.lay(dict.fromkeys(paths, "a\n"), [hooks[WHOLE_TREE].named("names")])
            found[place.way] = place.run("--all-files").verdicts.get("names")
        tally.same(f"{WHOLE_TREE}, {what}, as by pre-commit", found["hookhost"], found["pre-commit"])
        tally.as_original(WHOLE_TREE, what, found["hookhost"], "Failed" if case_conflict(paths, paths) else "Passed")


def check_committed(tally, place, hooks):
    """Files that were there before a commit: large ones, and names in conflict."""
    place.lay({"large": LARGE * 600, "x": "a\n", "X": "a\n"}, [hooks["check-added-large-files"].named("large"), hooks[WHOLE_TREE].named("names")])
    place.git.git("commit", "--quiet", "--message", "All")
    large = LARGE * 601
    place.git.add("large", large)
    verdicts = place.run().verdicts
    wanted = "Failed" if check_added_large_files(large.encode(), is_added=False) is None else "Passed"
    tally.as_original("check-added-large-files", "it was there before", verdicts.get("large"), wanted)
    wanted = "Failed" if case_conflict(("large", "x", "X"), ("large",)) else "Passed"
    tally.as_original(WHOLE_TREE, "they were there before", verdicts.get("names"), wanted)


def check_branches(tally, place, hooks):
    """no-commit-to-branch on a branch that is kept, on others, and on none."""
    place.lay({"a": "a\n"}, [hooks[CALLS_GIT].named("branch")])
    for branch, wanted in (("main", "Failed"), ("master", "Failed"), ("topic", "Passed"), ("main/part", "Passed"), ("domain", "Passed")):
        place.git.git("symbolic-ref", "HEAD", f"refs/heads/{branch}")
        tally.same(f"{CALLS_GIT} on {branch}, by {place.way}", place.run("--all-files").verdicts.get("branch"), wanted)
    place.git.git("commit", "--quiet", "--message", "All")
    place.git.git("checkout", "--quiet", "--detach")
    tally.same(f"{CALLS_GIT} on no branch, by {place.way}", place.run("--all-files").verdicts.get("branch"), "Passed")


def play_blocks(tally, folder, env, hooks):
    check_blocks(tally, Place("hookhost", folder, env))


def play_trees(tally, folder, env, hooks):
    """The hooks over a good and a bad tree."""
    places = [Place(way, folder, env) for way in WAYS]
    for place in places:
        check_good(tally, place, hooks)
    check_cached(tally, places[0], hooks)
    for place in places:
        check_bad(tally, place, hooks)


def play_inputs(tally, folder, env, hooks):
    check_hard(tally, [Place(way, folder, env) for way in WAYS], hooks)


def play_git(tally, folder, env, hooks):
    """The hooks that look at Git's list of files, or that don't although the originals do."""
    check_names(tally, [Place(way, os.path.join(folder, "names"), env) for way in WAYS], hooks)
    for way in WAYS:
        check_branches(tally, Place(way, os.path.join(folder, "branches"), env), hooks)
        check_committed(tally, Place(way, os.path.join(folder, "committed"), env), hooks)
        check_merge(tally, Place(way, os.path.join(folder, "merge"), env), hooks)


PARTS = {"blocks": play_blocks, "trees": play_trees, "inputs": play_inputs, "git": play_git}


def played(tally, home, env, parts):
    hooks = {name: hook for name, hook in all_hooks().items() if hook.is_installed()}
    tally.same("tools that aren't installed", {hook.tool for hook in all_hooks().values() if not hook.is_installed()} - NOT_IN_DEBIAN, set())
    tally.same("hooks without a case", set(all_hooks()) - set(CASES), {CALLS_GIT})
    tally.same("cases without a hook", set(CASES) - set(all_hooks()), set())
    for part in parts:
        PARTS[part](tally, os.path.join(home, part), env, hooks)


def tools(home):
    """A folder of tools for hooks that Debian's packages give otherwise than hooks find them."""
    folder = os.path.join(home, "bin")
    os.makedirs(folder)
    # Debian's package gives `yaml` to Debian's `python3` alone.
    os.symlink(python_with("yaml"), os.path.join(folder, "python3"))
    # Without packages that it only recommends, eslint can't print by its default format.
    path = os.path.join(folder, "eslint")
    with open(path, "w", encoding="utf-8") as file:
        file.write(f'#!/bin/sh\nexec {shutil.which("eslint")} --format unix "$@"\n')
    os.chmod(path, 0o755)
    return folder


def main():
    if sys.argv[1:] == ["--lacking"]:
        print(*lacking())
        return
    if not os.path.exists(PROGRAM):
        sys.exit(f"tests/git/usual_hooks.py: there is no {PROGRAM}: build it with `rt run` in crates/hookhost")
    if lacking():
        sys.exit(f"usual_hooks: not installed (Debian's names): {' '.join(lacking())}")
    tally = Tally()
    with tempfile.TemporaryDirectory(dir=IN_MEMORY if os.access(IN_MEMORY, os.W_OK) else None) as home:
        env = environment(home) | {"PYTHONDONTWRITEBYTECODE": "1", "NODE_PATH": "/usr/share/nodejs"}
        env["PATH"] = f"{tools(home)}:{env['PATH']}"
        played(tally, home, env, sys.argv[2:3] or PARTS)
    for key in () if sys.argv[2:] else DIFFERENCES.keys() - tally.used:
        tally.holds(False, f"{key} was not tried")
    print(f"usual_hooks: {tally.passed} passed, {tally.failed} failed")
    sys.exit(1 if tally.failed or not tally.passed else 0)


main()
