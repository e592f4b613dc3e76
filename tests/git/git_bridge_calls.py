"""What hooks of hookhost-git find of Git and of their environment, for tests/git/git_bridge.py. Some calls have a repository made for
them, some are refused, and some are Git's own. What a repository says is looked at in tests/git/git_bridge_served.py."""
import os
import shutil

from git_bridge_repository import Repository, check, content, made, not_made, quoted, refused, repository, same, shell

# Calls for which there is no repository, and so are refused in the folder of hooks: those that name the empty `.git`, or none.
REFUSED = ["git --git-dir=.git log", "git --git-dir .git log", "git --bare log", "env GIT_DIR=.git git grep x", "env GIT_DIR= git grep x", "git --git-dir=.git 'line\nfeed'", "xargs git --git-dir=.git grep secret",
           "git-grep --git-dir=.git x; git --git-dir=.git grep x"]
# Calls that have a repository made for them if there is none yet. With it they print what they print in the working tree.
SERVED = [
    "git grep -q secret", "git grep -q secret -- --no-index", "git grep --untracked -h a", "git-grep -q secret", "git ls-files", "git-ls-files a", "git status", "git diff a b", "git diff --cached --check",
    "git diff -- --no-index", "git log", "git rev-parse --show-prefix", "git check-attr -a a", "git check-ignore a", "git apply a", "git blame -s a", "git hash-object a", "echo a | git hash-object --stdin",
    "git config user.name", "git config --local user.name", "git hash-object -w a", "git ls-remote", "git ls-remote origin", "git submodule status", "git bundle verify a", "git stash list",
    "git -C sub ls-files", "git -C sub -C .. ls-files", "git --no-pager -c a.b=c log", "git --work-tree=. status", "git -c alias.mine='!git ls-files' mine", "git nope", "sh -c 'cd sub && git status --short'",
    "git interpret-trailers", "git-interpret-trailers", "git stripspace", "git check-ref-format refs/heads/a", "git var GIT_EDITOR",
    "env -u GIT_CEILING_DIRECTORIES git grep -q secret", "env GIT_CEILING_DIRECTORIES=/nowhere git status", "sh -c 'cd / && git -C \"$OLDPWD\" status'", "env GIT_WORK_TREE=. git status",
]
# Calls that need none, by their manual pages, or that name one.
TAKEN = [
    "git", "git --version", "git -v", "git --help", "git version", "git help -a", "git --exec-path", "git grep -h", "git init --quiet new", "git clone --quiet \"$HOOKHOST_TOP\" cloned",
    "git config --global a.b", "git config --global a.b c", "git config --file x a.b c", "git config -f x a.b", "git ls-remote \"$HOOKHOST_TOP\"", "git diff --no-index a a", "git grep --no-index -q a",
    "git rev-parse --sq-quote a", "git mailsplit -o. /dev/null",
    "git -C \"$HOOKHOST_TOP\" status", "git -C / --version", "git --git-dir=\"$HOOKHOST_TOP/.git\" log", "git --git-dir \"$HOOKHOST_TOP/.git\" log", "env GIT_DIR=\"$HOOKHOST_TOP/.git\" git log",
    "sh -c 'cd \"$HOOKHOST_TOP\" && git status'", "sh -c 'cd / && git status'", "sh -c 'mkdir mine && cd mine && git init --quiet && git status'",
]
NO_SECRETS = "id: no-secrets, name: No secrets, language: system, " + shell("! git grep -q secret") + ", files: 'txt$'"
LOST = "id: lost, name: Lost, language: system, " + shell("! git --git-dir=.git grep -q secret") + ", files: 'txt$'"
CALLS_GIT = "which finds no repository in the folder where hooks run"


def scratch_of(git):
    """The folder of hooks, made again, with the staged files and without a repository next to it."""
    scratch = git.scratch()
    for path in (scratch, os.path.join(git.home(), "repository")):
        shutil.rmtree(path, ignore_errors=True)
    for path in (os.path.join(os.path.dirname(scratch), ".git"), os.path.join(git.home(), "served")):
        if os.path.exists(path):
            os.remove(path)
    os.makedirs(os.path.join(scratch, ".git"))
    git.git("checkout-index", "--all", f"--prefix={scratch}/")
    return scratch


def called(git, words):
    """How a call in the folder of hooks ends, compared with Git itself there and in the working tree, and what is written down."""
    calls, env = os.path.join(git.home(), "lists/git_calls"), {"HOOKHOST_TOP": git.folder, "GIT_CEILING_DIRECTORIES": os.path.dirname(os.path.dirname(git.scratch()))}
    git.write(calls, "")
    answers = []
    # A colon would part the folder in a PATH, so there it has another name.
    short = git.folder.replace(":", ";") + ".bin"
    if not os.path.islink(short):
        os.symlink(os.path.join(git.home(), "bin"), short)
    core = "/usr/lib/git-core:" + git.env["PATH"]
    answers.append(git.run("sh", "-c", words, env=env | {"PATH": short + ":" + git.env["PATH"]}, cwd=scratch_of(git)))
    is_served = os.path.exists(os.path.join(git.home(), "served"))
    answers += [git.run("sh", "-c", words, env=env | {"PATH": core}, cwd=cwd) for cwd in (scratch_of(git), git.folder)]
    return *answers, content(calls).decode(), is_served


def calls_of_git(top, env):
    """Compares calls of a repository whose path has a blank, quotes and a colon. With it Git itself would find the Git folder above."""
    for name in ("git", "it's a:b \"c\""):
        git = repository(top, env, "id: a, name: A, language: fail, entry: a, files: '^a$'", name=name)
        git.git("config", "--global", "user.name", "x")
        git.git("config", "user.name", "y")
        git.add("sub/b", "secret\n")
        git.add("a", "a \n")
        same("run", git.bridge("run").status, 1)
        for words in REFUSED:
            ours, _, _, written, _ = called(git, words)
            same(f"{words!r} is written down", (written.count("\n") > 0, "no repository of Git is here" in ours.err), (True, True))
            same(f"{words!r} ends", ours.status, 123 if words.startswith("xargs") else 128)
        for words in SERVED:
            ours, _, others, written, is_served = called(git, words)
            same(f"{words!r} answers", (ours.status, ours.out, ours.err.replace(git.scratch(), git.folder)), (others.status, others.out, others.err))
            same(f"{words!r} is served", (written, is_served), ("", True))
        for words in TAKEN:
            ours, others, _, written, is_served = called(git, words)
            same(f"{words!r} is Git's own", (ours.status, ours.out, ours.err, written), (others.status, others.out, others.err, ""))
            same(f"{words!r} looks at the working tree's repository", is_served, "HOOKHOST_TOP" in words)


def hooks_that_call_git_are_refused(top, env):
    other = "id: other, name: Other, language: system, " + shell("git --git-dir=.git ls-files; true")
    git = repository(top, env, LOST)
    git.add("a.txt", "secret\n")
    for _ in range(2):
        answer = git.bridge("run")
        refused(answer, f"hookhost-git: refused: the hook `lost` calls Git (`git --git-dir=.git grep -q secret`), {CALLS_GIT}\n",
                "so nothing counts as checked: leave such a hook to pre-commit, or skip it (SKIP=lost)")
        same("the report", answer.out, "")
        not_made(git.commit(), "the hook `lost` calls Git")
        same("what is remembered", git.store("memory").out, "remembered: 0\n")
    made(git.commit("-m", "m", env={"SKIP": "lost"}))
    git.configure(LOST, other, "id: fine, name: Fine, language: system, entry: 'true'")
    git.add("a.txt", "more\n")
    answer = git.bridge("run")
    several = "calls Git or lost its files: Git finds no repository in the folder where hooks run\n"
    refused(answer, f"refused: the hook `lost` {several}", f"refused: the hook `other` {several}", "(SKIP=lost,other); the calls: `git --git-dir=.git grep -q secret`, `git --git-dir=.git ls-files`")
    check("`fine`" not in answer.err, f"{answer!r}")
    same("without fixes", sorted(git.working_files()), sorted([".pre-commit-config.yaml", "a.txt"]))


def a_hook_that_fixes_and_calls_git(top, env):
    git = repository(top, env, "id: both, name: Both, language: system, " + shell("git --git-dir=.git status; echo fixed > a.txt"))
    git.add("a.txt", "a\n")
    refused(git.bridge("run"), "the hook `both` calls Git")
    same("the file", git.read("a.txt"), b"a\n")


def a_call_that_cannot_be_written_down(top, env):
    """If the file that should hold it is removed, the result is the same."""
    git = repository(top, env, "id: gone, name: Gone, language: system, " + shell('rm "$HOOKHOST_GIT_CALLS"'))
    git.add("a.txt", "a\n")
    refused(git.bridge("run"), f"calls Git, {CALLS_GIT}")
    git = repository(top, env, "id: full, name: Full, language: system, " + shell('rm "$HOOKHOST_GIT_CALLS"; mkdir "$HOOKHOST_GIT_CALLS"; git --git-dir=.git status; true'), name="full")
    git.add("a.txt", "a\n")
    refused(git.bridge("run"), "so nothing counts as checked")


def a_git_of_another_path(top, env):
    """What a Git prints that isn't that of hooks, by its full path or a PATH of the hook's own."""
    real = shutil.which("git", path=env["PATH"])
    takes = [f"{real} --version", f"{real} init --quiet new && cd new && {real} status", f"{real} config --global nope; true", "git init --quiet x && cd x && ! git show nope"]
    serves = [f"{real} ls-files --error-unmatch a.sh", "PATH=/usr/bin:/bin; git ls-files --error-unmatch a.sh", f"test \"$({real} rev-parse --show-toplevel)\" = \"$PWD\"", f"cd sub; {real} grep -q word",
              f"env -i {real} ls-files --error-unmatch a.sh", f"{real} diff --quiet && {real} status", f"git update-index --refresh && {real} ls-files"]
    refuses = [f"cd /; {real} status; true", f"{real} --git-dir=.git status; true", f"{real} diff-index --quiet HEAD; true", f"{real} diff-files; true"]
    git = repository(top, env, "id: a, name: A, language: system, " + shell('sh "$1"') + ", files: 'sh$'")
    git.add("sub/b", "word\n")
    for text in takes:
        git.add("a.sh", text + "\n")
        same(f"{text!r} passes", git.bridge("run").status, 0)
        check(git.store("memory").out != "remembered: 0\n", f"nothing is remembered of {text!r}")
    # What a killed run has cached, and hasn't looked at.
    for name in ("git_trace", "git_calls"):
        git.add("a.sh", takes[0] + "\n")
        same("run", git.bridge("run").status, 0)
        git.write(f".git/hookhost/lists/{name}", "x\n")
        git.add("a.sh", "exit 1\n")
        same("run", git.bridge("run").status, 1)
        same("what is remembered then", git.store("memory").out, "remembered: 1\n")
    for text in (f"{real} -C \"$HOOKHOST_TOP\" log", f"{real} --git-dir=\"$HOOKHOST_TOP/.git\" log"):
        git.add("a.sh", text + "\n")
        same(f"{text!r} passes, and isn't kept", (git.bridge("run").status, git.store("memory").out), (0, "remembered: 0\n"))
    again = "so all hooks are run again, with a repository from the start"
    for number, text in enumerate(serves + ["! " + serves[0]]):
        git.add("a.sh", text + "\n")
        answer = git.bridge("run")
        same(f"{text!r} ends", (answer.status, again in answer.err), (text.startswith("!"), number == 0))
        same(f"what is remembered of {text!r}", git.store("memory").out, "remembered: 0\n")
    for text in refuses:
        git.add("a.sh", text + "\n")
        refused(git.bridge("run"), "calls Git (`", CALLS_GIT)
        same(f"what is remembered of {text!r}", git.store("memory").out, "remembered: 0\n")
    # Another configuration is asked again.
    git.configure("id: a, name: B, language: system, " + shell('sh "$1"') + ", files: 'sh$'")
    git.add("a.sh", takes[0] + "\n")
    same("run", git.bridge("run").status, 0)
    check(git.store("memory").out != "remembered: 0\n", "nothing is remembered with another configuration")
    git.add("a.sh", serves[0] + "\n")
    git.git("config", "hookhost.alwaysGit", "true")
    answer = git.bridge("run")
    same("with hookhost.alwaysGit", (answer.status, answer.err, git.store("memory").out), (0, "", "remembered: 0\n"))


def the_git_of_hooks_is_never_the_real_one(top, env):
    """It isn't by the PATH of hooks, nor in a hook that commits elsewhere."""
    git = repository(top, env, "id: a, name: A, language: fail, entry: a, files: '^a$'")
    same("run", git.bridge("run").status, 0)
    path = os.path.join(git.home(), "bin") + ":" + env["PATH"]
    for _ in range(2):
        same("by the PATH of hooks", git.bridge("run", env={"PATH": path}).status, 0)
    check(f"real={quoted(shutil.which('git', path=env['PATH']))}" in content(os.path.join(git.home(), "bin/git")).decode(), "the git of hooks starts another")
    inner = Repository.made(os.path.join(top, "inner"), env).installed()
    inner.configure("id: a, name: A, language: system, entry: 'true'")
    git.configure("id: commits, name: Commits, language: system, " + shell(f"cd {quoted(inner.folder)} && git commit --quiet -m m"))
    same("run", git.bridge("run").status, 0)
    check(inner.head(), "the hook has committed nothing")


def a_path_with_a_colon(top, env):
    """No PATH can name the git of hooks then, so it is given another name as long as a run takes."""
    temporary = os.path.join(top, "temporary")
    os.mkdir(temporary)
    git = repository(top, env | {"TMPDIR": temporary}, NO_SECRETS, name="a:b")
    git.add("a.txt", "secret\n")
    same("run", git.bridge("run").status, 1)
    same("what is left", os.listdir(temporary), [])
    refused(git.bridge("run", env={"TMPDIR": git.folder}), "hooks can't find their git in a folder with a colon in its name")
    check(not [name for name in os.listdir(git.folder) if name.startswith("tmp")], "a folder is left")


def the_environment_of_hooks(top, env):
    shows = "env | grep -E '^(PRE_COMMIT|HOOKHOST_TOP|HOOKHOST_GIT_CALLS|GIT_DIR|GIT_INDEX_FILE|GIT_PREFIX|GIT_WORK_TREE)=' | sort; command -v git; git init --quiet \"$HOME/new\" && git -C \"$HOME/new\" rev-parse --git-dir"
    git = repository(top, env, "id: shows, name: Shows, language: system, verbose: true, " + shell(shows))
    git.add("sub/a.txt", "a\n")
    answer = git.commit(cwd="sub")
    made(answer)
    home = git.home()
    wanted = [f"HOOKHOST_GIT_CALLS={home}/lists/git_calls", f"HOOKHOST_TOP={git.folder}", "PRE_COMMIT=1", f"{home}/bin/git", ".git"]
    same("what it shows", answer.err.split("\n\n")[1].split("\n"), wanted)


CASES = [
    calls_of_git, hooks_that_call_git_are_refused, a_hook_that_fixes_and_calls_git, a_call_that_cannot_be_written_down, a_git_of_another_path, the_git_of_hooks_is_never_the_real_one, a_path_with_a_colon,
    the_environment_of_hooks,
]
