"""Git's state as a part of what hooks of hookhost-git read, for tests/git/git_bridge.py. With the name `.git-state` in `x_reads` their
results are cached though they call Git. What changes that state starts them again."""
import os
import shutil
import signal
import subprocess
import time

from git_bridge_kills import DISTANCE, MOST_COMMANDS, copied, counting_commands, killed_before, run_again
from git_bridge_repository import BRIDGE, CONFIGURATION, Repository, Wrong, check, content, holds_index, made, names_hook, names_in, repository, same, shell
from git_bridge_runs import starts, starts_hook
from git_bridge_served import ASKED, Asked, compare, plain

STATE, WORDS = ".git-state", "The state of Git, by hookhost-git: "
READS, READS_NOTHING = "x_reads: '^\\.git-state$'", "x_reads: '^nothing$'"
# Calls that say no more than the state and the files of the tree.
IN_KEY = ["git log --oneline", "git status --short", "cd sub && git ls-files", "git -C sub ls-files", "git --no-pager -c a.b=c diff --cached --check", "git-ls-files a.txt", "git remote -v", "git branch --show-current",
          "git config user.name; true", "git -c alias.mine='!git ls-files' mine", "git grep -q a", "git describe --always", "git status && git log"]
# Calls that say more: of the repository itself, of another index or working tree, or of a repository elsewhere.
BEYOND = ["git -C \"$HOOKHOST_TOP\" log", "cd \"$HOOKHOST_TOP\" && git status", "git --git-dir=\"$HOOKHOST_TOP/.git\" log", "git --git-dir \"$HOOKHOST_TOP/.git\" log", "GIT_DIR=\"$HOOKHOST_TOP/.git\" git log",
          "git clone --quiet \"$HOOKHOST_TOP\" cloned", "git ls-remote \"$HOOKHOST_TOP\"", "git --work-tree=\"$HOOKHOST_TOP\" status", "GIT_WORK_TREE=\"$HOOKHOST_TOP\" git status",
          "GIT_INDEX_FILE=\"$HOOKHOST_TOP/.git/index\" git diff --cached", "GIT_COMMON_DIR=\"$HOOKHOST_TOP/.git\" git for-each-ref", "git hash-object \"$HOOKHOST_TOP/a.txt\"", "git fetch --quiet origin", "git ls-remote origin",
          "git remote update", "git remote show origin", "git pull --quiet origin main; true", "git submodule status", "git log; git fetch --quiet origin", "/usr/bin/git -C \"$HOOKHOST_TOP\" log"]
# What the working tree has in each case.
FILES = [CONFIGURATION, "a.txt", "sub/b"]


class Desk:
    """A repository with a hook that names Git's state and one that reads no further file, both of which count their starts."""

    def __init__(self, top, env, line="git log --oneline -1", keys=READS, name="git"):
        self.named, self.other = (os.path.join(top, f"{name}.{which}.log") for which in ("named", "other"))
        self.git = repository(top, env, *self.hooks(line, keys), name=name)
        # A hook that calls Git ahead of its turn starts again in its turn.
        self.git.git("config", "hookhost.jobs", "1")
        self.git.add("a.txt", "a\n")
        self.git.add("sub/b", "b\n")

    def hooks(self, line, keys=READS):
        return [starts_hook(self.named, "files: 'txt$', " + keys, line, name="named"), starts_hook(self.other, "files: 'txt$', " + READS_NOTHING, name="other")]

    def starts(self):
        return starts(self.named), starts(self.other)

    def runs(self, what, named, other, *words, status=0, **how):
        """Checks how often the hooks were started in all after a run."""
        answer = self.git.bridge("run", *(words or ("--files", "a.txt")), **how)
        same(f"{what}: the run", (answer.status, answer.lines()), (status, []))
        same(f"{what}: starts", self.starts(), (named, other))
        return answer

    def stated(self):
        """What the store holds as Git's state, and whether that is what is written down."""
        told = self.git.store("cat", "--", STATE)
        path = os.path.join(self.git.home(), "stated")
        return told.out if told.status == 0 else None, os.path.exists(path) and told.out == WORDS + content(path).decode()


def remembered(git):
    return git.store("memory").out.removeprefix("remembered: ").strip()


# ---- what is answered from the cache


def a_hook_that_names_the_state_is_cached(top, env):
    desk = Desk(top, env)
    desk.runs("at first", 1, 1)
    same("what is staged", desk.stated()[1], True)
    answer = desk.runs("again", 1, 1, "--verbose", "--files", "a.txt")
    same("what is told", answer.out.splitlines()[-1], "answered from the cache: 2")
    # Git itself sets further variables in a commit, with an editor others than without, and one that isn't made leaves its message.
    for words in (("-m", ""), ("--date=2020-01-01T00:00:00",), ("--template=/dev/null", "--edit")):
        same(f"a commit that isn't made, by {words!r}", (desk.git.commit(*words, env={"GIT_EDITOR": "true"}).is_made, desk.starts()), (False, (1, 1)))
        desk.runs("after it", 1, 1)
    made(desk.git.commit())
    same("the commit", desk.starts(), (1, 1))
    desk.runs("after the commit", 2, 1)
    desk.runs("again after the commit", 2, 1)
    same("without the repository of hooks", [name for name in os.listdir(desk.git.home()) if name.startswith(("repository", "served"))], [])


def what_is_another_state(top, env):
    """Changes that make another state: after each the hook is started once more, and the other hook isn't."""
    desk = Desk(top, env)
    git = desk.git
    desk.runs("at first", 1, 1)
    home = env["HOME"]
    git.write(f"{home}/patterns", "one\n")
    changes = [
        ("a commit", lambda: git.git("commit", "--quiet", "--no-verify", "-m", "first")),
        ("an empty commit", lambda: git.git("commit", "--quiet", "--no-verify", "--allow-empty", "-m", "empty")),
        ("another message", lambda: git.git("commit", "--quiet", "--no-verify", "--amend", "--allow-empty", "-m", "amended")),
        ("a tag", lambda: git.git("tag", "v1")),
        ("a tag with a message", lambda: git.git("tag", "-a", "v2", "-m", "v2")),
        ("a tag less", lambda: git.git("tag", "-d", "v1")),
        ("a branch", lambda: git.git("branch", "side")),
        ("another branch", lambda: git.git("checkout", "--quiet", "side")),
        ("the branch of before", lambda: git.git("checkout", "--quiet", "main")),
        ("a branch less", lambda: git.git("branch", "--quiet", "-D", "side")),
        ("no branch", lambda: git.git("checkout", "--quiet", "--detach")),
        ("a branch of the same commit", lambda: git.git("checkout", "--quiet", "main")),
        ("a symbolic reference", lambda: git.git("symbolic-ref", "refs/heads/link", "refs/heads/main")),
        ("a note", lambda: git.git("notes", "add", "-m", "note")),
        ("a setting", lambda: git.git("config", "user.name", "Another")),
        ("another setting", lambda: git.git("config", "user.name", "One more")),
        ("a setting of the user", lambda: git.git("config", "--global", "a.b", "c")),
        ("a remote", lambda: git.git("remote", "add", "origin", "/nowhere")),
        ("what is excluded", lambda: git.write(".git/info/exclude", "*.log\n")),
        ("attributes", lambda: git.write(".git/info/attributes", "*.log diff\n")),
        ("what the user excludes", lambda: git.write(f"{home}/.config/git/ignore", "*.tmp\n")),
        ("a file of a setting", lambda: git.git("config", "core.excludesFile", f"{home}/patterns")),
        ("what stands in that file", lambda: git.write(f"{home}/patterns", "two\n")),
        ("what was fetched", lambda: git.write(".git/FETCH_HEAD", f"{git.head()}\t\tbranch 'main' of elsewhere\n")),
        ("the author", lambda: git.env.update(GIT_AUTHOR_NAME="Another")),
        ("a variable", lambda: git.env.update(GIT_CONFIG_COUNT="1", GIT_CONFIG_KEY_0="a.c", GIT_CONFIG_VALUE_0="d")),
        ("a variable of two lines", lambda: git.env.update(GIT_SOMETHING="a\nGIT_OTHER=b")),
        ("one more", lambda: git.env.update(GIT_SOMETHING="a", GIT_OTHER="b")),
    ]
    git.env = dict(git.env)
    for count, (what, change) in enumerate(changes, 2):
        change()
        desk.runs(what, count, 1)
        desk.runs(f"{what}, again", count, 1)
        same(f"{what}: what is staged", desk.stated()[1], True)
    for what, change in (
        ("what Git shows", lambda: git.git("status")), ("packed references", lambda: git.git("pack-refs", "--all")), ("packed objects", lambda: git.git("repack", "-a", "-d", "-q")),
        ("the index written again", lambda: git.git("update-index", "--refresh")), ("the author's time", lambda: git.env.update(GIT_AUTHOR_DATE="2020-01-01 00:00:00 +0000")),
        ("an editor", lambda: git.env.update(GIT_EDITOR="true")), ("who has begun it", lambda: git.env.update(GIT_TRACE2_PARENT_SID="x")),
    ):
        change()
        desk.runs(what, len(changes) + 1, 1)


def a_merge_and_a_rebase(top, env):
    """What is under way, a stash, and another tree."""
    desk = Desk(top, env, "git rev-parse -q --verify MERGE_HEAD; true")
    git = desk.git
    git.git("commit", "--quiet", "--no-verify", "-m", "first")
    git.git("checkout", "--quiet", "-b", "side")
    git.git("commit", "--quiet", "--no-verify", "--allow-empty", "-m", "side")
    git.git("checkout", "--quiet", "main")
    git.git("commit", "--quiet", "--no-verify", "--allow-empty", "-m", "main")
    desk.runs("at first", 1, 1)
    git.git("merge", "--quiet", "--no-commit", "--no-ff", "side")
    desk.runs("a merge", 2, 1)
    git.write(".git/MERGE_MSG", "another message\n")
    desk.runs("another message", 3, 1)
    git.git("merge", "--abort")
    git.write("a.txt", "stashed\n")
    git.git("stash", "--quiet")
    desk.runs("a stash", 4, 1)
    git.write(".git/rebase-merge/head-name", "refs/heads/main\n")
    desk.runs("a rebase", 5, 1)
    git.write(".git/rebase-merge/head-name", "refs/heads/side\n")
    desk.runs("another rebase", 6, 1)
    git.add("sub/b", "another\n")
    desk.runs("another tree", 7, 1)
    desk.runs("again", 7, 1)


def what_is_cached_follows_from_the_state(top, env):
    """A hook that passed under one state fails under another, and passes under the first without a start."""
    desk = Desk(top, env, "test \"$(git branch --show-current)\" != main")
    git = desk.git
    # Git itself would write down the change.
    for branch, count, status in (("work", 1, 0), ("main", 2, 1), ("work", 2, 0), ("main", 3, 1)):
        git.write(".git/HEAD", f"ref: refs/heads/{branch}\n")
        desk.runs(f"on {branch}", count, 1, status=status)


def states_of_a_linked_working_tree(top, env):
    desk = Desk(top, env)
    git = desk.git
    git.git("commit", "--quiet", "--no-verify", "-m", "first")
    git.git("worktree", "add", "--quiet", "-b", "second", os.path.join(top, "second"))
    desk.git = Repository(os.path.join(top, "second"), env)
    desk.runs("at first", 1, 1)
    desk.runs("again", 1, 1)
    desk.git.git("checkout", "--quiet", "--detach")
    desk.runs("no branch", 2, 1)
    git.git("tag", "v1")
    desk.runs("a tag of the other", 3, 1)
    desk.git.git("config", "extensions.worktreeConfig", "true")
    desk.git.git("config", "--worktree", "a.b", "c")
    desk.runs("a setting of this one", 4, 1)


def a_command_that_sees_all(top, env):
    """It sees Git's state too, once the configuration names that, in a cautious run."""
    desk = Desk(top, env, keys="verbose: false")
    git = desk.git
    git.configure(*desk.hooks("git log --oneline -1", keys="verbose: false"), names_hook(READS))
    desk.runs("at first", 1, 1)
    desk.runs("again", 1, 1)
    git.git("tag", "v1")
    desk.runs("a tag", 2, 1)
    git.git("config", "hookhost.cautious", "false")
    # Without the state in its key its calls drop everything.
    desk.runs("that isn't cautious", 3, 1)
    same("what is remembered", remembered(git), "0")


# ---- what drops everything, as before


def a_hook_that_does_not_name_it(top, env):
    desk = Desk(top, env)
    git, third = desk.git, os.path.join(top, "third.log")
    git.configure(*desk.hooks("git log --oneline -1"), starts_hook(third, "files: 'txt$', " + READS_NOTHING, "git log --oneline -1", name="third"))
    for count in (1, 2):
        # By the user's own variable no hook passes for one that names it.
        desk.runs("with a hook that doesn't name it", count, count, env={"HOOKHOST_SEES_GIT_STATE": "1", "HOOKHOST_GIT_STATE": "a.txt"})
        same("starts of that hook, and what is remembered", (starts(third), remembered(git)), (count, "0"))
    git.configure(*desk.hooks("git log --oneline -1"))
    desk.runs("without that hook", 3, 3)
    desk.runs("again", 3, 3)
    git.git("config", "hookhost.alwaysGit", "true")
    for count in (4, 5):
        desk.runs("with a repository from the start", count, count)


def calls_that_say_more(top, env):
    desk = Desk(top, env, 'sh "$HOOKHOST_CALL"')
    git = desk.git
    origin = Repository.made(os.path.join(top, "origin"), env)
    origin.add("o", "o\n")
    origin.git("commit", "--quiet", "-m", "o")
    git.git("remote", "add", "origin", origin.folder)
    git.git("commit", "--quiet", "--no-verify", "-m", "first")
    call = os.path.join(top, "call")
    for lines, count in ((IN_KEY, "2"), (BEYOND, "0")):
        for line in lines:
            git.write(call, line + "\n")
            git.git("tag", "--force", "again")
            git.forget()
            answer = git.bridge("run", "--files", "a.txt", env={"HOOKHOST_CALL": call})
            same(f"{line!r}", (answer.status, remembered(git)), (0, count))
            same(f"{line!r} leaves the working tree", sorted(git.working_files()), FILES)


def a_state_that_changes_meanwhile(top, env):
    """Another program changes the state while hooks run: what they found isn't what their keys have."""
    desk = Desk(top, env, "git branch --list; env -i PATH=/usr/bin:/bin git -C \"$HOOKHOST_TOP\" branch --force meanwhile \"$(cat \"$HOOKHOST_TOP/.git/refs/heads/main\")\"")
    desk.runs("at first", 1, 1)
    same("what is remembered", remembered(desk.git), "0")
    desk.runs("once it stays", 2, 2)
    desk.runs("again", 2, 2)


def a_kill_in_a_run(top, env):
    """What a killed run has cached is dropped, since the run hasn't seen whether the state stayed."""
    desk = Desk(top, env, "git log --oneline -1; test ! -e \"$HOOKHOST_WAIT\" || sleep 60")
    git, wait = desk.git, os.path.join(top, "wait")
    desk.runs("at first", 1, 1, env={"HOOKHOST_WAIT": wait})
    git.write(wait, "")
    git.git("tag", "v1")
    command = subprocess.Popen([BRIDGE, "run"], cwd=git.folder, env=env | {"HOOKHOST_WAIT": wait}, stdin=subprocess.DEVNULL, stdout=subprocess.DEVNULL, stderr=subprocess.DEVNULL, start_new_session=True)
    while command.poll() is None and not os.path.exists(os.path.join(git.home(), "repository/child")):
        time.sleep(0.01)
    os.killpg(command.pid, signal.SIGKILL)
    command.wait()
    check(not os.path.exists(os.path.join(git.home(), "served")), "the killed run has marked its answers, so that nothing is tried")
    os.remove(wait)
    desk.runs("after the kill", 3, 2, env={"HOOKHOST_WAIT": wait})
    desk.runs("again", 3, 2, env={"HOOKHOST_WAIT": wait})


def kills_before_commands(top, env):
    """Kills before each command: after each the next run finds the state as it is, and answers nothing by the earlier state."""
    counting = counting_commands(top, env)
    first = Desk(top, env, "test \"$(git branch --show-current)\" != main", name="first")
    for at in range(1, MOST_COMMANDS, DISTANCE):
        git = copied(first.git, os.path.join(top, f"killed {at}"))
        git.write(".git/HEAD", "ref: refs/heads/work\n")
        same("the run before", git.bridge("run").status, 0)
        git.write(".git/HEAD", "ref: refs/heads/main\n")
        if at % 2:
            git.add("sub/b", f"{at}\n")
        if killed_before(git, counting, at).returncode != -signal.SIGKILL:
            check(at > 40, f"the script isn't killed before command {at}")
            return
        answer = run_again(git)
        same(f"the run after a kill before command {at}", (answer.status, answer.lines()), (1, []))
        told = git.store("cat", "--", STATE).out
        same(f"what is staged after a kill before command {at}", told, WORDS + content(os.path.join(git.home(), "stated")).decode())
        shutil.rmtree(git.folder)
    raise Wrong("the script starts ever more commands")


# ---- the file


def a_tree_that_has_its_own(top, env):
    """The tree has a file of that name. It is then a file as any other, also as a folder, and what calls Git isn't cached."""
    desk = Desk(top, env)
    git = desk.git
    git.configure(*desk.hooks("git log --oneline -1"), names_hook(READS_NOTHING))
    desk.runs("at first", 1, 1)
    for path in (STATE, f"{STATE}/x"):
        named, other = desk.starts()
        git.add(path, "mine  \n")
        # What was cached before serves once more.
        for count in (1, 2):
            desk.runs(f"with {path} of the tree", named + count, other + count - 1)
            same("what is remembered", remembered(git), "0")
        holds_index(git)
        same("what is written down", os.path.exists(os.path.join(git.home(), "stated")), False)
        check(path in names_in(git.bridge("run", "names", "--all-files")), f"{path} of the tree is handed to no hook")
        git.git("rm", "--quiet", "--cached", path)
        desk.runs(f"without {path} of the tree", named + 3, other + 2)
        same("what is staged", desk.stated()[1], True)
        desk.runs(f"again without {path} of the tree", named + 3, other + 2)
        os.remove(os.path.join(git.folder, path))
    git.configure("id: fixes, name: Fixes, language: system, entry: sed -i 's/ *$//', files: git-state, " + READS)
    git.add(f"{STATE}/x", "mine  \n")
    answer = git.bridge("run", "--files", f"{STATE}/x")
    same("a fix of what the tree has", (answer.status, answer.lines(), git.read(f"{STATE}/x")), (1, [f"fixed: {STATE}/x"], b"mine\n"))


def what_a_hook_does_to_it(top, env):
    """It is no fix, and what another hook asks of Git then isn't cached."""
    git = repository(top, env)
    for line in (f"rm {STATE}", f"echo x > {STATE}", f"rm {STATE}; mkdir {STATE}; echo x > {STATE}/x", f"chmod +x {STATE}", "git clean -fdxq", f"git add -f {STATE}; git rm -qf {STATE}"):
        for keys in (READS, READS_NOTHING, "verbose: true"):
            git.configure("id: does, name: Does, language: system, always_run: true, pass_filenames: false, " + shell(line) + ", " + keys, names_hook(READS))
            git.add("a.txt", "a\n")
            before, answer = git.working_files(), git.bridge("run", "--show-diff-on-failure")
            check(answer.status in (0, 1), f"{line!r}: {answer!r}")
            same(f"what is told after {line!r}", (answer.lines(), "All changes" in answer.out), ([], False))
            same(f"the working files after {line!r}", git.working_files(), before)
            same(f"what is staged after {line!r}", git.store("cat", "--", STATE).out[:len(WORDS)], WORDS)
    # A hook that calls Git ahead of its turn starts again in its turn.
    git.git("config", "hookhost.jobs", "1")
    log = os.path.join(top, "git.named.log")
    git.configure("id: does, name: Does, language: system, always_run: true, pass_filenames: false, " + shell(f"echo x > {STATE}"), starts_hook(log, READS + ", files: 'txt$'", "git log --oneline -1", name="named"))
    for count in (1, 2):
        git.bridge("run")
        same("starts after a hook that writes it", (starts(log), remembered(git)), (count, "0"))


def all_files_are_those_of_the_tree(top, env):
    git = repository(top, env, names_hook(READS), "id: count, name: Count, language: system, verbose: true, entry: ls -A, pass_filenames: false, always_run: true")
    git.add("a.txt", "a\n")
    for words in ((), ("names",), ("--fresh",)):
        answer = git.bridge("run", "--all-files", *words)
        same(f"the files of {words!r}", (answer.status, sorted(name for name in names_in(answer) if name)), (0, [CONFIGURATION, "a.txt"]))
    check(f"\n{STATE}\n" in answer.out, f"the hook doesn't find it: {answer!r}")
    same("the working files", sorted(git.working_files()), [CONFIGURATION, "a.txt"])


def a_configuration_that_names_it_no_more(top, env):
    desk = Desk(top, env)
    git = desk.git

    def is_there():
        return desk.stated()[0] is not None, os.path.exists(os.path.join(git.home(), "stated"))

    same("run", (git.bridge("run").status, is_there()), (0, (True, True)))
    git.configure(*desk.hooks("true", keys=READS_NOTHING))
    same("run", (git.bridge("run").status, is_there()), (0, (False, False)))
    holds_index(git)
    git.configure(*desk.hooks("git log --oneline -1"))
    same("run", (git.bridge("run").status, is_there()), (0, (True, True)))
    # A link of that name is in its way.
    git.git("config", "hookhost.link", STATE)
    same("run", (git.bridge("run").status, is_there(), remembered(git)), (0, (False, False), "0"))
    git.git("config", "--unset", "hookhost.link")
    same("run", (git.bridge("run").status, is_there()), (0, (True, True)))
    before = desk.stated()
    for change in (lambda: os.remove(os.path.join(git.home(), "stated")), lambda: git.write(".git/hookhost/stated", ""), lambda: git.write(".git/hookhost/stated", "x\n"), lambda: os.remove(os.path.join(git.home(), "synced"))):
        change()
        same("run", (git.bridge("run").status, desk.stated()), (0, before))
    same("the folder of the store", os.listdir(os.path.join(git.home(), "files")), [".hookhost"])


def git_says_nothing_of_it(top, env):
    git = plain(top, env)
    git.configure(Asked.HOOK + ", " + READS)
    git.write(".git/info/exclude", "excluded.log")
    lines = [line for line in ASKED.strip().split("\n") if line != "git ls-files --others" and "--work-tree" not in line] + ["git ls-files --others --exclude-standard", "git add --all --dry-run", "git clean --dry-run -d"]
    compare(Asked(top, env, lines), git)
    check(remembered(git) != "0", "nothing is remembered")


CASES = [
    a_hook_that_names_the_state_is_cached, what_is_another_state, a_merge_and_a_rebase, what_is_cached_follows_from_the_state, states_of_a_linked_working_tree, a_command_that_sees_all, a_hook_that_does_not_name_it,
    calls_that_say_more, a_state_that_changes_meanwhile, a_kill_in_a_run, kills_before_commands, a_tree_that_has_its_own, what_a_hook_does_to_it, all_files_are_those_of_the_tree, a_configuration_that_names_it_no_more, git_says_nothing_of_it,
]
