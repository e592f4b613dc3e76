"""Partial clones with hookhost-git as their hook, for tests/git/git_bridge.py. What they lack of the files that hooks may read is fetched
at once. If it can't be, a line says so.
"""
import glob
import os
import time

from git_bridge_repository import CONFIGURATION, Repository, check, configuration, content, holds_index, made, names_hook, names_in, not_made, refused, same

FETCHED = "this partial clone lacks {} of the files that hooks may read: fetching them from {}"
LACKS = "nothing was checked: this partial clone lacks 7 of the files that hooks may read, which can't be fetched now; try again once origin can be reached, or commit unchecked by 'git commit --no-verify'"
# How long a repository may take to answer.
MOST_SECONDS_AWAY = 20


def cloned(top, env, *options, name="git"):
    """A partial clone, by other names of the same, of a repository with eight plain files, a link, and a name that hooks can't get."""
    origin = os.path.join(top, "origin")
    if not os.path.isdir(origin):
        there = Repository.made(origin, env)
        there.git("config", "uploadpack.allowFilter", "true")
        there.add(CONFIGURATION, configuration(names_hook()))
        for number in range(6):
            there.add(f"sub/{number}.txt", f"{number}\n")
        there.add("sub/again.txt", "0\n")
        there.add("sub/of a tab\t", "a name that isn't taken\n")
        os.symlink("where no file is", os.path.join(origin, "link"))
        there.git("add", "link")
        there.git("commit", "--quiet", "-m", "m")
    there = Repository(top, env)
    there.git("clone", "--quiet", "--filter=blob:none", *options, "file://" + origin, name)
    return Repository(os.path.join(top, name), env)


def lacks(git):
    """The objects of the index that are missing in the repository."""
    return [line for line in git.git("rev-list", "--objects", "--missing=print", git.git("write-tree", "--missing-ok").strip()).splitlines() if line.startswith("?")]


def packs(git):
    return len(glob.glob(os.path.join(git.folder, ".git/objects/pack/*.promisor")))


def what_hooks_may_read_is_fetched_at_once(top, env):
    git = cloned(top, env, "--no-checkout").installed()
    git.git("read-tree", "HEAD")
    same("what is lacking", (len(lacks(git)), packs(git)), (9, 1))
    answer = git.bridge("run", "--all-files")
    names = sorted([CONFIGURATION, *(f"sub/{number}.txt" for number in range(6)), "sub/again.txt"])
    same("the run", (answer.status, names_in(answer), answer.lines()[0]), (0, names, FETCHED.format(7, "origin")))
    # Hooks don't get the link and the name that isn't taken.
    same("what is lacking then, and how often it was fetched", (len(lacks(git)), packs(git)), (2, 2))
    same("references", git.git("for-each-ref", "--format=%(refname)").split(), ["refs/heads/main", "refs/remotes/origin/HEAD", "refs/remotes/origin/main"])
    check(not os.path.exists(os.path.join(git.folder, ".git/FETCH_HEAD")), "the fetch is written down")
    answer = git.bridge("run", "--all-files", "--verbose")
    same("the second run", (answer.status, any("fetching" in line for line in answer.lines()), answer.out.splitlines()[-1]), (0, False, "answered from the cache: 1"))
    same("what is lacking and fetched still", (len(lacks(git)), packs(git)), (2, 2))


def a_sparse_working_tree_lacks_files(top, env):
    git = cloned(top, env, "--sparse").installed()
    git.add("a.txt", "a\n")
    before = packs(git)
    answer = git.commit()
    made(answer)
    same("what is said", (answer.lines()[0], packs(git) - before), (FETCHED.format(6, "origin"), 1))
    git.add("a.txt", "b\n")
    made(git.commit())
    same("what is fetched for the next commit", packs(git) - before, 1)
    same("the working files", os.path.exists(os.path.join(git.folder, "sub")), False)


def a_repository_that_is_away(top, env):
    """If the remote repository is away, nothing is changed, and what is there already serves."""
    git, whole = cloned(top, env, "--no-checkout"), cloned(top, env, name="whole")
    # What reads the configuration fetches it.
    for clone in (git, whole):
        clone.installed()
    git.git("read-tree", "HEAD")
    away = os.path.join(top, "away")
    os.rename(os.path.join(top, "origin"), away)
    whole.add("a.txt", "a\n")
    made(whole.commit())
    head, index = git.head(), content(os.path.join(git.folder, ".git/index"))
    for _ in range(2):
        refused(git.bridge("run"), LACKS, "does not appear to be a git repository")
        not_made(git.commit("--allow-empty", "-m", "m"), LACKS)
    same("what is as it was", (git.head(), content(os.path.join(git.folder, ".git/index")), len(lacks(git)), packs(git), git.store_holds()), (head, index, 9, 1, {}))
    # Another one may have it too, whose path is one of the working tree.
    git.git("remote", "add", "second", "../away")
    refused(git.bridge("run"), LACKS)
    git.git("config", "remote.second.promisor", "yes")
    same("from another", git.bridge("run").lines()[0], FETCHED.format(7, "second"))
    os.rename(away, os.path.join(top, "origin"))
    other = cloned(top, env, "--no-checkout", name="other")
    other.git("read-tree", "HEAD")
    # What was known of the store stays, so that the next commit brings only what differs.
    same("run", other.bridge("run").status, 0)
    synced = content(os.path.join(other.home(), "synced"))
    os.rename(os.path.join(top, "origin"), away)
    there = Repository(away, env)
    there.add("new.txt", "new\n")
    other.git("update-index", "--add", "--cacheinfo", "100644," + there.git("rev-parse", ":new.txt").strip() + ",new.txt")
    refused(other.bridge("run"), "lacks 1 of the files")
    # Git runs prepare-commit-msg with --no-verify too.
    other.write("message", "m\n")
    for each, how in (("commit-msg", "git commit --no-verify"), ("prepare-commit-msg", "git -c core.hooksPath=/dev/null commit")):
        refused(other.bridge("hook", each, "message"), "lacks 1 of the files", f"or commit unchecked by '{how}'")
    same("what is known of the store", content(os.path.join(other.home(), "synced")), synced)
    there.git("commit", "--quiet", "-m", "new")
    os.rename(away, os.path.join(top, "origin"))
    same("once it is back", other.bridge("run").lines()[0], FETCHED.format(1, "origin"))
    for path in ("link", "sub/of a tab\t"):
        other.git("rm", "--quiet", "--cached", path)
    same("run", other.bridge("run").status, 0)
    holds_index(other)


def a_repository_that_does_not_answer(top, env):
    git = cloned(top, env, "--no-checkout")
    git.git("read-tree", "HEAD")
    git.git("config", "remote.origin.url", "ext::sleep 60")
    git.git("config", "protocol.ext.allow", "always")
    start = time.monotonic()
    refused(git.bridge("run"), LACKS)
    check(time.monotonic() - start >= MOST_SECONDS_AWAY, "it isn't waited for")
    git.git("config", "remote.origin.url", "file://" + os.path.join(top, "origin"))
    same("once it answers", git.bridge("run").lines()[0], FETCHED.format(7, "origin"))


CASES = [what_hooks_may_read_is_fetched_at_once, a_sparse_working_tree_lacks_files, a_repository_that_is_away, a_repository_that_does_not_answer]
