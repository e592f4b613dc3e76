"""One of the two repositories of a play of tests/git/compare_stages.py: with hookhost-git or with pre-commit in Git's hooks."""
import collections
import os
import re
import shutil

from git_bridge_repository import Repository, Wrong, check, same
from compare_stages_served import Server, python_of, served_hook

HOOK = os.path.abspath(f"{__file__}/../compare_stages_hook.sh")
TYPES = ["pre-commit", "pre-merge-commit", "prepare-commit-msg", "commit-msg", "post-commit"]
# What Git's folder holds while something is under way, and messages. The others are of a single side.
UNDER_WAY = ["MERGE_HEAD", "MERGE_MODE", "CHERRY_PICK_HEAD", "REVERT_HEAD", "SQUASH_MSG"]
MESSAGES = ["COMMIT_EDITMSG", "MERGE_MSG"]
MESSAGE = ".git/COMMIT_EDITMSG"

# What a hook logged: the digest of the files that it found, variables, the names that it got, and the message. Or the names are what it tells
# of Git.
Entry = collections.namedtuple("Entry", "id digest variables names message")


class State(collections.namedtuple("State", "head branch index files under_way messages")):
    """What a repository holds."""


class Step:
    """A command that may run hooks, with what is done before it."""

    def __init__(self, words, before=(), env=None, given=b"", cwd=""):
        self.words, self.before, self.env, self.given, self.cwd = words, list(before), env or {}, given, cwd

    def __repr__(self):
        told = [*self.before, self.words, *([self.env] if self.env else []), *([self.given] if self.given else []), *([self.cwd] if self.cwd else [])]
        return "; ".join(map(str, told))


class Side(Repository):
    """A repository, and how its hooks are called."""

    def __init__(self, folder, env):
        self.log = folder + ".log"
        super().__init__(folder, env | {"HOOK_LOG": self.log, "GIT_CONFIG_GLOBAL": os.devnull})

    def hooks_from(self, folder, types):
        """Takes over hooks that were installed elsewhere."""
        for name in types:
            shutil.copy(os.path.join(folder, name), os.path.join(self.folder, ".git/hooks", name))

    def prepare(self, step):
        """Does what comes before the command of a step."""
        for what, *words in step.before:
            if what == "write":
                self.write(*words)
            elif what == "remove":
                os.remove(os.path.join(self.folder, *words))
            elif what == "try":
                self.run("git", *words)
            else:
                self.git(what, *words)

    def step(self, step):
        """Does the command of a step, and answers how it ended, and what its hooks logged."""
        answer = self.run(*step.words, env=step.env, given=step.given, cwd=step.cwd)
        return answer, self.entries()

    def entries(self):
        """What hooks logged since the last call. Names are as in the repository."""
        if not os.path.exists(self.log):
            return []
        with open(self.log, encoding="utf-8", errors="surrogateescape", newline="\n") as file:
            text = file.read()
        os.remove(self.log)
        return [entry_of(part) for part in re.split("^(?=<)", text, flags=re.MULTILINE) if part]

    def state(self):
        return State(self.head_id(), self.git_file("HEAD"), self.git("ls-files", "--stage", "-z"), self.working_files(),
                     {name: self.git_file(name) for name in UNDER_WAY}, {name: self.git_file(name) for name in MESSAGES})

    def git_file(self, name):
        """The bytes of a file of Git's folder, or none."""
        path = os.path.join(self.folder, ".git", name)
        if not os.path.isfile(path):
            return None
        with open(path, "rb") as file:
            return file.read()

    def head_id(self):
        """The id of the commit to which HEAD leads. A play packs no reference."""
        head = (self.git_file("HEAD") or b"").decode().strip()
        if head.startswith("ref: "):
            head = (self.git_file(head.removeprefix("ref: ")) or b"").decode().strip()
        return head

    def commit_of(self, name):
        """The tree, the parents and the message of a commit."""
        return commit_parts(self.git("cat-file", "commit", name))


def commit_parts(text):
    head, _, message = text.partition("\n\n")
    return [row for row in head.split("\n") if row.startswith(("tree ", "parent ", "author "))], message


def entry_of(text):
    head, *rest = text.removesuffix("\n").split("\n")
    name, digest, *words = head.split("\t")
    names = [word for word in words[5:] if word]
    check(all(row.startswith("|") for row in rest), f"a log of hooks that can't be read: {text!r}")
    return Entry(name, digest, tuple(words[:5]), tuple(names), "\n".join(row[1:] for row in rest))


def results(answer):
    """The lines of the report that give the outcome of a hook."""
    return [line for line in answer.text.splitlines() if line.endswith(("Passed", "Failed", "Skipped"))]


# ---- the hooks of both


class Hooks:
    """The hooks of Git of both sides, made once."""

    def __init__(self, top, env, both_sides):
        self.folders, self.server = {}, None
        self.plain = Repository.made(os.path.join(top, "plain"), env, "--template=").folder
        os.makedirs(os.path.join(self.plain, ".git/hooks"))
        theirs = Repository.made(os.path.join(top, "with pre-commit"), env)
        words = [word for name in TYPES for word in ("--hook-type", name)]
        same("pre-commit install", theirs.run("pre-commit", "install", *words).status, 0)
        self.folders["pre-commit"] = os.path.join(theirs.folder, ".git/hooks")
        if not both_sides:
            ours = Repository.made(os.path.join(top, "with hookhost-git"), env)
            answer = ours.bridge("install", *words)
            check(answer.status == 0, f"hookhost-git install: {answer!r}")
            self.folders["hookhost-git"] = os.path.join(ours.folder, ".git/hooks")
        for name, folder in self.folders.items():
            for each in TYPES:
                check(os.access(os.path.join(folder, each), os.X_OK), f"{name} has installed no {each}")
        self.serve(top, env)

    def serve(self, top, env):
        """Has pre-commit's hooks call a server."""
        for name in TYPES:
            path = os.path.join(self.folders["pre-commit"], name)
            with open(path, encoding="utf-8") as file:
                text = file.read()
            if self.server is None:
                self.server = Server(top, python_of(text), env)
            with open(path, "w", encoding="utf-8") as file:
                file.write(served_hook(text, self.server.launcher))

    def end(self):
        if self.server and not self.server.end():
            raise Wrong("the server of pre-commit has ended by itself")


# ---- a repository of a case


class Kit:
    """Which hooks the cases get: those of hookhost-git, or of pre-commit."""

    def __init__(self, hooks, is_peer):
        self.hooks, self.is_peer = hooks, is_peer


class Own(Side):
    """A repository of a case."""

    def __init__(self, top, env, kit, name="git"):
        super().__init__(os.path.join(top, name), env)
        self.kit, self.name = kit, name
        shutil.copytree(kit.hooks.plain, self.folder, symlinks=True)

    def configured(self, *hooks, top="", **files):
        """Commits a configuration of these hooks, and such files, and has Git's hooks installed that it names."""
        self.configure(*hooks, top=top)
        for path, text in files.items():
            self.add(path, text)
        self.quietly("commit", "--quiet", "-m", "The configuration")
        if self.kit.is_peer:
            self.hooks_from(self.kit.hooks.folders["pre-commit"], TYPES)
        else:
            self.installed()
        return self

    def quietly(self, *words):
        """Git without hooks."""
        return self.git("-c", f"core.hooksPath={os.devnull}", *words)

    def changed(self, path, text):
        """Stages a file with other bytes."""
        self.add(path, text)

    def committed(self, path, text, message="a commit"):
        """Commits a file without hooks."""
        self.changed(path, text)
        self.quietly("commit", "--quiet", "-m", message)

    def makes(self, *words, moves=True, **how):
        """Git does this, and makes a commit, maybe with the id of the last one. In a linked working tree the HEAD of this one stays."""
        before = self.moves()
        answer = self.run("git", *words, **how)
        check(answer.status == 0 and (self.moves() > before) == moves, f"git {words!r} makes no commit: {answer!r}")
        return answer

    def moves(self):
        """How often HEAD has been given a commit."""
        return (self.git_file("logs/HEAD") or b"").count(b"\n")

    def makes_none(self, *words, **how):
        """Git refuses this, and makes no commit."""
        before = self.head_id()
        answer = self.run("git", *words, **how)
        check(answer.status != 0, f"git {words!r} isn't refused: {answer!r}")
        same(f"the commit after git {words!r}", self.head_id(), before)
        return answer

    def disable(self, name):
        """Takes from a hook of Git the right to be started."""
        os.chmod(os.path.join(self.folder, ".git/hooks", name), 0o644)

    def lines(self):
        """The lines that hooks logged since the last call."""
        if not os.path.exists(self.log):
            return []
        with open(self.log, encoding="utf-8", errors="surrogateescape") as file:
            lines = file.read().splitlines()
        os.remove(self.log)
        return lines

    def notes(self):
        """How many hooks logged that they were started."""
        lines = self.lines()
        same("what is logged", set(lines) - {"started"}, set())
        return len(lines)

    def message(self):
        return self.git("log", "-1", "--format=%B").removesuffix("\n")

    def subject(self):
        return self.git("log", "-1", "--format=%s").removesuffix("\n")
