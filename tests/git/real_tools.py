#!/usr/bin/env python3
"""Runs tools of Debian as hooks, by hookhost and by pre-commit, over the same trees, and compares how each hook ended.

Usage: tests/git/real_tools.py [PROGRAM [PART]]   (default: crates/hookhost/out/hookhost, and all hooks; with PART those with it in their ids)
       tests/git/real_tools.py --lacking          (the packages that aren't installed)

Each hook is in a table, of real_tools_python.py and the modules like it, with a tree at which it passes and one at which it fails. All
hooks are run over both trees: by pre-commit, by `hookhost-git run --all-files`, in a commit, and by `hookhost run` in a checkout. Some
hooks read more than the files that they are given, such as settings or a module. Each of these is run after an edit of that alone: one at
which it fails, and one at which it passes. What was cached stays.

Each hook has to end as it does by pre-commit, except for DIFFERENCES, each with its reason and each of which has to occur. A hook that
passes here and fails there is wrong, for any reason. So is a hook that ends, by pre-commit, in another way than the tables say. Nothing
is installed: for a missing tool the name of its package is printed.
"""
import concurrent.futures
import os
import shutil
import sys
import tempfile

sys.path.insert(0, os.path.abspath(f"{__file__}/../../shared"))
import real_tools_code
import real_tools_python
import real_tools_searches
import real_tools_texts
from git_bridge_repository import PROGRAM, environment
from real_tools_case import edited, files_of
from real_tools_ways import WAYS, GitHook, PreCommit

# Packages of Debian, each with the command that it is needed for.
PACKAGES = {
    "ack": "ack", "bandit": "bandit", "black": "black", "clang-format": "clang-format", "codespell": "codespell", "cppcheck": "cppcheck", "eslint": "eslint",
    "fd-find": "fdfind", "flake8": "flake8", "gcc": "gcc", "git": "git", "isort": "isort", "jq": "jq", "libperl-critic-perl": "perlcritic", "libxml2-utils": "xmllint",
    "make": "make", "mypy": "mypy", "node-typescript": "tsc", "nodejs": "node", "perl": "perl", "pre-commit": "pre-commit", "pycodestyle": "pycodestyle",
    "pydocstyle": "pydocstyle", "pyflakes3": "pyflakes3", "pylint": "pylint", "python3-pytest": "pytest-3", "reuse": "reuse", "ripgrep": "rg", "ruby": "ruby",
    "ruby-mdl": "mdl", "shellcheck": "shellcheck", "silversearcher-ag": "ag", "tidy": "tidy", "vulture": "vulture", "yamllint": "yamllint",
}

# What differs from pre-commit: the way, the step or `*` for each, and the hook; with the reason. Nothing does.
DIFFERENCES = {}

IN_MEMORY = "/dev/shm"


class Group:
    """Hooks that share a configuration and a tree, and the ways in which they are run."""

    def __init__(self, name, cases, shared, ways=WAYS):
        self.name, self.cases, self.shared, self.ways = name, cases, shared, ways

    def steps(self):
        """Each step's name, its tree, the ids of the hooks that are run, or none for all, and how each ends by pre-commit."""
        tree = files_of(self.shared, self.cases)
        ids = [case.id for case in self.cases]
        yield "bad", files_of(self.shared, self.cases, bad=True), [], dict.fromkeys(ids, "Failed")
        yield "good", tree, [], dict.fromkeys(ids, "Passed")
        for case in self.cases:
            for edit in case.edits:
                yield f"{edit.what} is stricter", edited(tree, case, edit.stricter), [case.id], {case.id: "Failed"}
                yield f"{edit.what} is laxer", edited(tree, case, edit.laxer), [case.id], {case.id: "Passed"}


def lacking():
    return [package for package, command in PACKAGES.items() if shutil.which(command) is None]


def played(way, group, home):
    """What a way answers to each step, by the step's number."""
    env = environment(os.path.join(home, "home")) | {"PYTHONDONTWRITEBYTECODE": "1", "NODE_PATH": "/usr/share/nodejs"}
    place = way(os.path.join(home, group.name, way.name), env, [case.hook() for case in group.cases])
    answers = []
    for _, tree, only, _ in group.steps():
        place.lay(tree)
        answers.append(place.answers(only))
    return answers


class Tally:
    """The cases that agreed, and those that didn't."""

    def __init__(self):
        self.passed, self.failed, self.used = 0, 0, set()

    def wrong(self, text):
        self.failed += 1
        print(f"DIFFERENT: {text}")

    def compare(self, way, step, name, found, wanted, answer):
        if found == wanted:
            self.passed += 1
            return
        is_false = (found, wanted) == ("Passed", "Failed")
        keys = [key for key in ((way, step, name), (way, "*", name)) if key in DIFFERENCES]
        if keys and not is_false:
            self.used.add(keys[0])
            self.passed += 1
            return
        kind = "FALSE PASSED: " if is_false else ""
        self.wrong(f"{kind}{name}, {step}, by {way}: {found}, by pre-commit {wanted}\n{told(answer, name)}")


def told(answer, name):
    """The part of a report on a hook, or the whole report if it has none."""
    lines = answer.text.split("\n")
    begin = next((at for at, line in enumerate(lines) if line.startswith(name + ".")), None)
    return "\n".join("    " + line for line in (lines[-12:] if begin is None else lines[begin:begin + 12]))


def compare(tally, group, answers):
    """Compares all answers of a group with those of pre-commit."""
    for number, (step, _, _, wanted) in enumerate(group.steps()):
        reference = answers[PreCommit][number][PreCommit.name]
        for name, verdict in wanted.items():
            found = reference.verdicts.get(name)
            if found != verdict:
                tally.wrong(f"{name}, {step}: by pre-commit {found}, and the table says {verdict}\n{told(reference, name)}")
            for way in group.ways:
                for how, answer in answers[way][number].items():
                    if how != PreCommit.name:
                        tally.compare(how, step, name, answer.verdicts.get(name), found, answer)


def groups(part):
    """The groups, of the hooks with the part in their ids.

    Those that call Git aren't compared in a checkout: there Git finds the checkout above, of which nothing is staged below the folder in
    which hooks run. docs/REFERENCE.md names that among what an answer may depend on without being seen.
    """
    settings = real_tools_python.SETTINGS | real_tools_searches.SETTINGS
    tools = real_tools_python.cases() + real_tools_texts.cases() + real_tools_code.cases() + real_tools_searches.cases()
    found = [
        Group("tools", tools, settings),
        Group("bare", real_tools_python.bare_cases() + real_tools_searches.bare_cases(), {}),
        Group("git", real_tools_searches.git_cases(), {"/.gitignore": "*.log\n"}, (PreCommit, GitHook)),
    ]
    for group in found:
        group.cases = [case for case in group.cases if part in case.id]
    return [group for group in found if group.cases]


def main():
    if sys.argv[1:] == ["--lacking"]:
        print(*lacking())
        return 0
    if not os.path.exists(PROGRAM):
        sys.exit(f"tests/git/real_tools.py: there is no {PROGRAM}: build it with `rt run` in crates/hookhost")
    if lacking():
        sys.exit(f"real_tools: not installed (Debian's names): {' '.join(lacking())}")
    part = sys.argv[2] if len(sys.argv) > 2 else ""
    tally = Tally()
    with tempfile.TemporaryDirectory(dir=IN_MEMORY if os.access(IN_MEMORY, os.W_OK) else None) as home, concurrent.futures.ThreadPoolExecutor(4) as pool:
        os.mkdir(os.path.join(home, "home"))
        all_groups = groups(part)
        runs = {(group.name, way): pool.submit(played, way, group, home) for group in all_groups for way in group.ways}
        for group in all_groups:
            compare(tally, group, {way: runs[group.name, way].result() for way in group.ways})
    for key in () if part else DIFFERENCES.keys() - tally.used:
        tally.wrong(f"{key} doesn't differ any more")
    print(f"real_tools: {tally.passed} passed, {tally.failed} failed")
    sys.exit(1 if tally.failed or not tally.passed else 0)


main()
