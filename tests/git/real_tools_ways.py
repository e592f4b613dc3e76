"""The ways in which tests/git/real_tools.py runs hooks: by pre-commit, by hookhost as Git's hook, and by hookhost in a checkout."""
import os
import re
import shutil

from git_bridge_repository import BRIDGE, CONFIGURATION, PROGRAM, Repository, Wrong, check, configuration
from real_tools_case import Script

# A line of a report, and a line by which the hook of Git refuses one that calls Git.
VERDICT = re.compile(r"^([a-z0-9_]+)\.+(?:\(no files to check\))?(Passed|Failed|Skipped)$", re.MULTILINE)
CALLS_GIT = re.compile(r"^hookhost-git: refused: the hook `([^`]*)` calls Git", re.MULTILINE)
# What stays in a folder when another tree is written there.
STAYS = (".git", ".hookhost")


class Answer:
    """The verdicts of a run by the hooks' ids, and what it printed."""

    def __init__(self, ran):
        self.status, self.text = ran.status, ran.text
        self.verdicts = dict(VERDICT.findall(ran.text)) | {name: "Refused" for name in CALLS_GIT.findall(ran.text)}


class Way:
    """A repository of its own, in which one tree after another is staged."""

    def __init__(self, folder, env, hooks):
        self.git = Repository.made(folder, env)
        self.hooks, self.folder = hooks, folder
        self.begin()

    def begin(self):
        """What is done before the first tree."""

    def lay(self, tree):
        """Removes what lies there, caches of tools too, writes the tree, and stages it."""
        self.tree = tree
        for name in os.listdir(self.folder):
            if name not in STAYS:
                path = os.path.join(self.folder, name)
                shutil.rmtree(path) if os.path.isdir(path) else os.remove(path)
        for path, text in tree.items():
            check(not os.path.isabs(path) and ".." not in path.split("/"), f"{path} leads out of the tree")
            self.git.write(path, text, 0o755 if isinstance(text, Script) else 0o644)
        self.git.write(CONFIGURATION, configuration(*self.hooks))
        self.git.git("add", "--all", "--force", ".")
        self.stage()

    def stage(self):
        """What is staged elsewhere than in Git."""

    def answered(self, *words):
        ran = self.git.run(*words)
        if ran.status not in (0, 1, 3):
            raise Wrong(f"{words!r} in {self.folder}: {ran!r}")
        return Answer(ran)

    def run(self, only):
        """The answer of the hook of this id on all files, or of every hook."""
        raise NotImplementedError

    def answers(self, only):
        """Each result for the tree that is written, with the way by which it was found."""
        return {self.name: self.run(only)}


class PreCommit(Way):
    name = "pre-commit"

    def run(self, only):
        return self.answered("pre-commit", "run", "--all-files", "--color", "never", *only)


class GitHook(Way):
    """Runs hooks as the hook of Git: by hand, and in a commit, which changes all files, since the branch has none yet."""

    name = "hook of Git"

    def begin(self):
        self.git.installed()
        self.takes_ids = "[ID]" in self.git.bridge("--help").text

    def run(self, only):
        return self.answered(BRIDGE, "run", *(only if self.takes_ids else ()), "--all-files")

    def answers(self, only):
        found = {self.name: self.run(only)}
        if not only:
            # What hooks have fixed is undone.
            self.git.git("checkout-index", "--all", "--force")
            found["commit"] = Answer(self.git.commit())
        return found


class Checkout(Way):
    """Runs hooks by hookhost's own repository in a checkout of Git."""

    name = "checkout"

    def begin(self):
        self.hookhost("init")
        self.cautious = ["--cautious"] if "--cautious" in self.git.run(PROGRAM, "run", "--help").text else []

    def hookhost(self, *words):
        ran = self.git.run(PROGRAM, *words)
        if ran.status != 0:
            raise Wrong(f"hookhost {words!r}: {ran!r}")
        return ran

    def stage(self):
        # A file that stays staged would keep its mode.
        staged = [line.removeprefix("A ") for line in self.hookhost("status").out.splitlines()]
        if staged:
            self.hookhost("rm", "--", *staged)
        self.hookhost("add", ".")
        executable = [path for path, text in self.tree.items() if isinstance(text, Script)]
        if executable:
            self.hookhost("add", "--chmod=+x", "--", *executable)

    def run(self, only):
        return self.answered(PROGRAM, "run", *self.cautious, "--all-files", *only)


WAYS = (PreCommit, GitHook, Checkout)
