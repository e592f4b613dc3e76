#!/usr/bin/env python3
"""Runs the tools of a team on real files, with results cached in the store, and compares with pre-commit.

Usage: bench/tools.py [PROGRAM]   (default: crates/hookhost/out/hookhost)

A repository of 200 files of Debian's packages (shell, YAML, Python, Markdown) has ten hooks: tools that check, one that changes
files, a script of the repository, and two of `pygrep`. It is run as it is, again once the changes are accepted, once more, with one
file edited, and with `--fresh`. Each time pre-commit runs on the same files in a repository of Git: the reports must be the same,
and so must the files that are left. The commands that `hookhost` starts are counted: all at first and with `--fresh`, and otherwise
only those that get a changed file. Each command of `hookhost` is a process of its own.

It prints what each of the runs took.
"""
import os
import re
import subprocess
import sys
import tempfile
import time
from pathlib import Path

HERE = Path(__file__).resolve().parent
PROGRAM = os.path.abspath(sys.argv[1] if len(sys.argv) > 1 else HERE / "../crates/hookhost/out/hookhost")
CONFIGURATION = ".pre-commit-config.yaml"

# How many files of each kind there are, and the folders in which they are looked for.
KINDS = {".py": 110, ".sh": 30, ".yaml": 12, ".md": 48}
ROOTS = ["/usr/lib/python3", "/usr/lib/python3.11", "/usr/share/doc", "/usr/share", "/usr/lib"]
MOST_BYTES = 12_000

SCRIPT = """#!/bin/sh
# Each Python file ends with a line feed.
echo ends >> "$STARTS"
status=0
for file; do
  [ -s "$file" ] || continue
  [ "$(tail -c 1 "$file" | wc -l)" -eq 1 ] || { echo "$file: no line feed at its end"; status=1; }
done
exit $status
"""

HOOKS = """repos:
- repo: local
  hooks:
  - {id: shellcheck, name: Scripts are sound, language: system, entry: shellcheck --format=gcc --severity=error, types: [shell], require_serial: true}
  - id: syntax
    name: Scripts can be read
    language: system
    entry: sh -c 'for file; do sh -n "$file" || exit 1; done' --
    types: [shell]
    require_serial: true
  - {id: yamllint, name: YAML is neat, language: system, entry: yamllint --format parsable -d relaxed, types: [yaml], require_serial: true}
  - {id: codespell, name: Words are spelt, language: system, entry: codespell, types: [markdown], require_serial: true}
  - {id: compile, name: Python compiles, language: system, entry: python3 -m py_compile, types: [python], require_serial: true}
  - {id: blanks, name: No blanks at line ends, language: system, entry: "sed -i 's/[ \\\\t]*$//'", types: [markdown], require_serial: true}
  - id: ban
    name: No tabs in YAML
    language: system
    entry: sh -c '! grep -n "\t" "$@"' --
    types: [yaml]
    require_serial: true
  - {id: ends, name: Files end with a line feed, language: script, entry: tools/ends.sh, types: [python], require_serial: true}
  - {id: debugger, name: No debugger, language: pygrep, entry: '^\\s*(import pdb|breakpoint\\(\\))', types: [python]}
  - {id: conflicts, name: No marks of a merge, language: pygrep, entry: '^(<{7} |>{7} )', types: [text]}
"""

# The kinds of files that each command gets, for each hook that starts one.
STARTED = {"shellcheck": ".sh", "syntax": ".sh", "yamllint": ".yaml", "codespell": ".md", "compile": ".py", "blanks": ".md", "ban": ".yaml", "ends": ".py"}
# The programs by which the hooks' commands begin, each started once for a hook.
PROGRAMS = ["shellcheck", "sh", "yamllint", "codespell", "python3", "sed"]


def fail(text):
    sys.exit(f"bench/tools.py: FAILED: {text}")


def texts_of(ending, most):
    """The first files of that ending, by their paths, that are small texts; each with bytes of its own."""
    found = {}
    for root in ROOTS:
        for path in sorted(Path(root).rglob("*" + ending)):
            if len(found) == most:
                return found
            try:
                held = path.read_bytes() if path.is_file() and path.stat().st_size <= MOST_BYTES else b""
                held.decode("utf-8")
            except (OSError, UnicodeDecodeError):
                continue
            if held and b"\0" not in held and held not in found.values() and "/test" not in str(path):
                found[f"{ending[1:]}/{len(found):03}-{re.sub(r'[^A-Za-z0-9._-]', '-', path.name)}"] = held
    fail(f"there are {len(found)} files {ending} of {most} below {', '.join(ROOTS)}")


def files():
    held = {path: text for ending, most in KINDS.items() for path, text in texts_of(ending, most).items()}
    # What the hook on blanks changes is there for certain.
    held["md/blanks.md"] = b"# Blanks \n\nat line ends\t\n"
    held["tools/ends.sh"] = SCRIPT.encode()
    held[CONFIGURATION] = HOOKS.encode()
    return held


class Side:
    """A folder of working files, whose hooks' commands are counted."""

    def __init__(self, top, name, env):
        self.folder, self.log = top / name, top / f"{name}.log"
        self.env = dict(env, STARTS=str(self.log))
        self.took = 0
        self.folder.mkdir()

    def run(self, *words, status=0):
        done = subprocess.run(words, cwd=self.folder, env=self.env, stdin=subprocess.DEVNULL, capture_output=True, timeout=600)
        if done.returncode != status:
            fail(f"{words} ends with {done.returncode}, wanted {status}: {done.stdout[-2000:]!r} {done.stderr[-2000:]!r}")
        return done.stdout

    def write(self, held):
        for path, text in held.items():
            (self.folder / path).parent.mkdir(parents=True, exist_ok=True)
            (self.folder / path).write_bytes(text)
            if path.startswith("tools/"):
                (self.folder / path).chmod(0o755)

    def report(self, *words):
        """The report of a run, which may fail, without what `--fresh` prints after it."""
        self.log.unlink(missing_ok=True)
        begun = time.perf_counter()
        done = subprocess.run(words, cwd=self.folder, env=self.env, stdin=subprocess.DEVNULL, capture_output=True, timeout=600)
        self.took = time.perf_counter() - begun
        if done.returncode > 1 or done.stderr:
            fail(f"{words} ends with {done.returncode} and says {done.stderr[-2000:]!r}")
        return done.stdout.decode("utf-8", "replace")

    def started(self):
        return self.log.read_text().splitlines() if self.log.exists() else []


class PreCommit(Side):
    def __init__(self, top, env):
        super().__init__(top, "git", env)
        self.run("git", "init", "--quiet", ".")
        # What Python compiles is no file of the repository.
        (self.folder / ".git/info/exclude").write_text("__pycache__/\n")

    def take(self, held):
        self.write(held)
        self.run("git", "add", "--all")

    def runs(self):
        return self.report("pre-commit", "run", "--all-files", "--color", "never")

    def left(self, paths):
        self.run("git", "add", "--all")
        return {path: (self.folder / path).read_bytes() for path in paths}


class Hookhost(Side):
    def __init__(self, top, env):
        super().__init__(top, "hookhost", env)
        self.run(PROGRAM, "init")

    def take(self, held):
        self.write(held)
        for path in held:
            self.run(PROGRAM, "add", path)

    def runs(self, *more):
        return self.report(PROGRAM, "run", "--all-files", *more)

    def left(self, paths):
        if self.run(PROGRAM, "fixes"):
            self.run(PROGRAM, "accept")
        return {path: self.run(PROGRAM, "cat", path) for path in paths}


def wrappers(top):
    """Programs of the hooks' names that note that they were started, and then are the real ones."""
    folder = top / "bin"
    folder.mkdir()
    for name in PROGRAMS:
        real = subprocess.run(["sh", "-c", f"command -v {name}"], capture_output=True, text=True, check=True).stdout.strip()
        (folder / name).write_text(f'#!/bin/sh\n[ -n "$INSIDE" ] || echo {name} >> "$STARTS"\nINSIDE=1 exec {real} "$@"\n')
        (folder / name).chmod(0o755)
    return folder


def lines_apart(one, other):
    ones, others = one.splitlines(), other.splitlines()
    at = next((at for at, pair in enumerate(zip(ones, others)) if pair[0] != pair[1]), min(len(ones), len(others)))
    return f"line {at + 1}: {ones[at:at + 3]} and {others[at:at + 3]}"


def main():
    with tempfile.TemporaryDirectory(prefix="hookhost-tools-") as folder:
        top = Path(folder)
        env = dict(os.environ, PATH=f"{wrappers(top)}:{os.environ['PATH']}", HOME=folder, GIT_CONFIG_NOSYSTEM="1", PYTHONDONTWRITEBYTECODE="1", PRE_COMMIT_HOME=f"{folder}/cache", LC_ALL="C.UTF-8")
        env.pop("INSIDE", None)
        held = files()
        git, host = PreCommit(top, env), Hookhost(top, env)
        for side in (git, host):
            side.take(held)
        changed = set(KINDS)
        for name, more, edit in [("first", [], {}), ("accepted", [], {}), ("again", [], {}), ("edited", [], {"py": b"\n# One more line.\n"}), ("fresh", ["--fresh"], {})]:
            for kind, text in edit.items():
                path = min(path for path in held if path.endswith("." + kind))
                held[path] += text
                changed.add("." + kind)
                for side in (git, host):
                    side.take({path: held[path]})
            ours, theirs = host.runs(*more), git.runs()
            if ours != theirs:
                fail(f"{name}: the reports differ in {lines_apart(ours, theirs)}")
            wanted = sorted(STARTED) if more else sorted(hook for hook, kind in STARTED.items() if kind in changed)
            if len(host.started()) != len(wanted):
                fail(f"{name}: started were {host.started()}, wanted are those of {wanted}")
            left = host.left(sorted(held))
            apart = [path for path, text in git.left(sorted(held)).items() if left[path] != text]
            if apart:
                fail(f"{name}: {apart} are other files than pre-commit leaves")
            changed = {os.path.splitext(path)[1] for path in held if left[path] != held[path]}
            held = left
            print(f"bench/tools.py: {name}: {ours.count('Passed')} hooks passed, {ours.count('Failed')} failed, {len(host.started())} commands started"
                  f", {host.took * 1000:.0f} ms, pre-commit {git.took * 1000:.0f} ms, {git.took / host.took:.1f} times")
        if "Failed" not in theirs or not any(path.endswith(".md") for path in held):
            fail("no hook failed, so nothing was compared of one")
    print(f"bench/tools.py: {len(held)} files, 5 runs, 0 differ")


if __name__ == "__main__":
    main()
