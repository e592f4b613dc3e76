"""Cases of tests/host/host.py: a store that Git tracks came with a checkout, so none of its cached results is used."""
import os
import re
import shutil
import subprocess

from host_checkout import checkout, git
from host_program import STORE, check, do, run, write

NOT_TRUSTED = b"hookhost: Git tracks .hookhost, or doesn't say: what is remembered there isn't used (git rm -r --cached .hookhost)\n"
HOOKS = b"""repos:
- repo: local
  hooks:
  - {id: good, name: good, language: system, entry: grep -q good, files: '^a$', stages: [pre-commit]}
"""
PASSED, FAILED = (b"good" + b"." * 69 + end + b"\n" for end in (b"Passed", b"Failed"))


def lay(folder, held):
    """A repository with a hook that looks at one file."""
    write(folder, ".pre-commit-config.yaml", HOOKS)
    write(folder, "a", held)
    do(folder, "init")
    do(folder, "add", ".pre-commit-config.yaml", "a")


def cached(folder, **how):
    """How many results of a run came from the cache, and its standard error without the durations of hooks."""
    status, out, err = run(folder, "run", "--all-files", "--verbose", **how)
    check(status in (0, 1), f"a run is answered {(status, out, err)!r}")
    return int(out.rpartition(b"answered from the cache: ")[2].split()[0]), re.sub(rb"(?m)^duration: \S+ [0-9]+\.[0-9]{2}s\n", b"", err)


def is_used_unless_git_tracks_it(folder):
    work = checkout(folder)
    lay(work, b"good\n")
    check([cached(work), cached(work)] == [(0, b""), (1, b"")], "a store of one's own isn't used")
    for tracked in (STORE, ".hookhost/store.db-wal", ".hookhost/other"):
        if not os.path.exists(os.path.join(work, tracked)):
            write(work, tracked, b"")
        git(work, "add", "--force", tracked)
        check([cached(work), cached(work)] == [(0, NOT_TRUSTED)] * 2, f"with {tracked} in Git's index what is remembered is used")
        git(work, "commit", "--quiet", "-m", "tracked")
        status, out, err = run(work, "commit", "-m", "text")
        check((status, err) == (0, NOT_TRUSTED) and PASSED in out, f"a commit is answered {(status, out, err)!r}")
        git(work, "rm", "--quiet", "--cached", tracked)
        write(work, "a", os.urandom(8).hex().encode() + b"good\n")
        do(work, "add", "a")
        check([cached(work), cached(work)] == [(0, b""), (1, b"")], f"without {tracked} in Git's index what is remembered isn't used")
        if tracked != STORE:
            os.remove(os.path.join(work, tracked))


def tells_no_lie_of_somebody_else(folder):
    """A store in which a failed answer was made a passed one, as it lies and as it comes with a clone."""
    work = checkout(folder)
    lay(work, b"bad\n")
    status, out, err = run(work, "run", "--all-files")
    check(status == 1 and out.startswith(FAILED) and err == b"", f"the hook doesn't fail: {(status, out, err)!r}")
    subprocess.run(["sqlite3", os.path.join(work, STORE), "UPDATE answers SET status = 0"], check=True, timeout=60)
    check(run(work, "run", "--all-files") == (0, PASSED, b""), "the edit is none")
    git(work, "add", "--force", ".hookhost", ".pre-commit-config.yaml", "a")
    git(work, "commit", "--quiet", "-m", "with a store")
    git(folder, "clone", "--quiet", work, "clone")
    git(work, "worktree", "add", "--quiet", os.path.join(folder, "tree"))
    git(folder, "init", "--quiet", "above")
    git(os.path.join(folder, "above"), "submodule", "add", "--quiet", work, "module")
    for path in ("clone", "tree", "above/module"):
        found = os.path.join(folder, path)
        check(os.path.exists(os.path.join(found, STORE)), f"{path} has no store")
        for words in (["run", "--all-files"], ["run-files", "a"], ["run", "--all-files", "--cautious"]):
            status, out, err = run(found, *words)
            check(status == 1 and FAILED in out, f"{words!r} in {path} is answered {(status, out, err)!r}")
        status, out, err = run(found, "commit", "-m", "text")
        check(status == 1 and FAILED in out and err == NOT_TRUSTED, f"a commit in {path} is answered {(status, out, err)!r}")


def looks_below_a_checkout_too(folder):
    work = checkout(folder)
    below = os.path.join(work, "some folder/below")
    os.makedirs(below)
    lay(below, b"good\n")
    check([cached(below), cached(below)] == [(0, b""), (1, b"")], "a store of one's own isn't used")
    git(work, "add", "--force", "some folder/below/.hookhost/store.db")
    check(cached(below) == (0, NOT_TRUSTED), "a store in a folder of the checkout is used")
    shutil.rmtree(os.path.join(work, ".git"))
    check(cached(below) == (1, b""), "without a checkout what is remembered isn't used")


def asks_nobody_where_there_is_no_checkout(folder):
    """Without a program `git`, nothing is used within a checkout, and all of it outside."""
    programs = os.path.join(folder, "programs")
    os.mkdir(programs)
    os.symlink(shutil.which("grep"), os.path.join(programs, "grep"))
    without = {"env": {**os.environ, "PATH": programs}}
    work = os.path.join(folder, "outside")
    os.mkdir(work)
    lay(work, b"good\n")
    check([cached(work, **without), cached(work, **without)] == [(0, b""), (1, b"")], "git is asked where there is no checkout")
    work = checkout(folder)
    lay(work, b"good\n")
    check([cached(work, **without), cached(work, **without)] == [(0, b""), (0, NOT_TRUSTED)], "where Git can't say, what is remembered is used")


CASES = [is_used_unless_git_tracks_it, tells_no_lie_of_somebody_else, looks_below_a_checkout_too, asks_nobody_where_there_is_no_checkout]
