"""Repositories with hooks for tests/git/imported_hooks.py, made on the spot, and what hookhost-git and pre-commit make of them."""
import os
import re
import shutil
import subprocess

from git_bridge_repository import CONFIGURATION, Repository, check, same

ENDS = re.compile(r"^(.*?)\.{3,}(?:\(no files to check\))?(Passed|Failed|Skipped)$", re.MULTILINE)
# Each hook writes into a file outside the tree that it was started, and with which names.
SCRIPT = '#!/bin/sh\necho "scr $*" >> "$HOOKS_LOG"\n! grep -n BAD "$@"\n'
MODULE = '''import os
import sys


def main():
    with open(os.environ["HOOKS_LOG"], "a") as file:
        file.write("py " + " ".join(sys.argv[1:]) + "\\n")
    wrong = [name for name in sys.argv[1:] if b"UGLY" in open(name, "rb").read()]
    print("looked at", len(sys.argv) - 1, *wrong)
    return bool(wrong)
'''
SETUP = '''from setuptools import setup
setup(name="tiny-hook", version="1.0", py_modules=["tiny_hook"], entry_points={"console_scripts": ["tiny-hook=tiny_hook:main"]})
'''
MANIFEST = r'''
- {id: sys, name: System, language: system, entry: 'sh -c ''echo "sys $*" >> "$HOOKS_LOG"; ! grep -n WRONG "$@"'' --', types: [text], require_serial: true}
- {id: scr, name: Script, language: script, entry: bin/scr.sh, files: '\.txt$', require_serial: true}
- {id: pyg, name: Pygrep, language: pygrep, entry: 'TODO', types: [text], require_serial: true}
- {id: look, name: Pygrep that looks ahead, language: pygrep, entry: 'foo(?!bar)', types: [text], require_serial: true}
- {id: fails, name: Fail, language: fail, entry: No such files., files: '\.bad$', require_serial: true}
- {id: py, name: Python, language: python, entry: tiny-hook, types_or: [python, plain-text], require_serial: true}
- {id: ahead, name: Files that look ahead, language: system, entry: sh -c 'echo "ahead $*" >> "$HOOKS_LOG"' --, files: '^(?!b)', require_serial: true}
- {id: dock, name: Docker, language: docker_image, entry: 'nobody/nothing:1 run'}
'''
LOCAL = '''
- repo: local
  hooks:
  - {id: loc, name: Local, language: system, entry: 'sh -c ''echo "loc $*" >> "$HOOKS_LOG"; ! grep -n M[I]NE "$@"'' --', types: [text], require_serial: true}
  - {id: nothing, name: Local pygrep, language: pygrep, entry: 'NOTH[I]NG', types: [text], require_serial: true}
'''
SIX = ("sys", "scr", "pyg", "look", "fails", "py")


def remote(top, env, files=(), name="hooks"):
    """A repository with hooks, with the tag v1.0."""
    made = Repository.made(os.path.join(top, name), env)
    for path, held, mode in ((".pre-commit-hooks.yaml", MANIFEST, None), ("bin/scr.sh", SCRIPT, 0o755), ("tiny_hook.py", MODULE, None), ("setup.py", SETUP, None), *files):
        made.add(path, held, mode)
    release(made, "v1.0")
    return made


def release(hooks, rev):
    hooks.git("commit", "--quiet", "-m", rev)
    hooks.git("tag", rev)


def of_remote(hooks, *ids, rev="v1.0"):
    """The part of a configuration with these hooks, each an id or a text of keys."""
    return f"\n- repo: {hooks.folder}\n  rev: {rev}\n  hooks:\n" + "".join(f"  - {each if each.startswith('{') else '{id: ' + each + '}'}\n" for each in ids)


class Side:
    """A clone of the team's repository in which one of both runs the hooks."""

    def __init__(self, top, env, name, text, words):
        self.log, self.words = os.path.join(top, f"{name}.log"), words
        self.git = Repository.made(os.path.join(top, name), env | {"HOOKS_LOG": self.log})
        self.git.add(CONFIGURATION, "repos:" + text)
        self.git.git("commit", "--quiet", "-m", "The configuration")

    def run(self, *words, env=None):
        answer = self.git.run(*self.words, *words, env=env)
        answer.verdicts = ENDS.findall(answer.out)
        return answer

    def started(self):
        """What hooks have written since the last call, a line for each command."""
        if not os.path.exists(self.log):
            return []
        with open(self.log, encoding="utf-8", errors="surrogateescape") as file:
            found = file.read().removesuffix("\n").split("\n")
        os.remove(self.log)
        return found


def by_hookhost(top, env, text, name="here"):
    from git_bridge_repository import BRIDGE
    side = Side(top, env, name, text, (BRIDGE, "run"))
    # What is started is compared, and a hook that calls Git ahead of its turn starts again in its turn.
    side.git.git("config", "hookhost.jobs", "1")
    return side


def by_pre_commit(top, env, text, name="there"):
    return Side(top, env, name, text, ("pre-commit", "run", "--color", "never"))


def same_run(what, here, there, *words, env=None):
    """Runs both, and checks that they print the same report and start the same commands, but for those that are cached."""
    ours, theirs = here.run(*words, env=env), there.run(*words, env=env)
    same(f"{what}: the status", ours.status, theirs.status)
    same(f"{what}: the report", ours.out, theirs.out)
    check(theirs.verdicts, f"{what}: pre-commit prints no verdict: {theirs!r}")
    return ours, here.started(), there.started()


def edit(sides, files):
    for side in sides:
        for path, held in files.items():
            side.git.add(path, held)


def path_without(top, name):
    """A PATH with all programs of the PATH but this one."""
    folder = os.path.join(top, "programs")
    os.mkdir(folder)
    for place in os.environ["PATH"].split(":"):
        for each in os.listdir(place) if os.path.isdir(place) else []:
            path = os.path.join(folder, each)
            if each != name and not os.path.lexists(path):
                os.symlink(os.path.join(place, each), path)
    check(shutil.which(name, path=folder) is None, f"{name} is on the PATH")
    return folder


def python_of_hooks():
    """The Python of pre-commit, by its first line."""
    with open(shutil.which("pre-commit"), encoding="utf-8") as file:
        return file.readline()[2:].strip()


def printed(*words, **how):
    return subprocess.run(words, stdout=subprocess.PIPE, check=True, **how).stdout.decode()
