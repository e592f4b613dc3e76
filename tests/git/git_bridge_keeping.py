"""What hooks of hookhost-git that call Git leave, for tests/git/git_bridge.py: the repository as it was, nothing cached, and no left-over
files."""
import os
import signal
import subprocess
import time

from git_bridge_repository import BRIDGE, Repository, check, content, made, not_made, quoted, refused, repository, same, shell

# What hooks do that write, each in the folder in which hooks run.
HOSTILE = [
    "git commit --quiet --allow-empty -m evil", "git commit --quiet --amend -m evil", "git config user.name evil", "git config --unset-all user.name", "git config core.hooksPath /nowhere", "git add --all .",
    "git rm --quiet --cached a.txt", "git gc --quiet --prune=now", "git repack -a -d -q", "git prune --expire=now", "git stash", "git stash clear", "git checkout --quiet -f other", "git checkout --quiet -b evil",
    "git reset --quiet --hard HEAD", "git branch -D other", "git tag evil", "git tag -d v1", "git update-ref HEAD other", "git update-ref -d refs/heads/main", "git pack-refs --all --prune", "git reflog expire --expire=now --all",
    "git symbolic-ref HEAD refs/heads/evil", "git update-index --assume-unchanged a.txt", "git update-index --force-remove a.txt", "git read-tree --empty", "git write-tree", "echo x | git hash-object -w --stdin",
    "git clean -fdxq", "git notes add -m evil", "git replace HEAD other", "git worktree add --quiet ../evil", "git remote add evil /nowhere", "git remote remove origin", "git fetch --quiet origin", "git merge --quiet other",
    "git rebase --quiet other", "git cherry-pick other", "git maintenance run", "git sparse-checkout set nothing", "git submodule --quiet init", "git filter-branch -f --msg-filter cat HEAD", "git bisect start",
    "git rm -rfq .", "git ls-files; chmod -R 000 \"$(git rev-parse --git-dir)\"", "rm -rf \"$(git rev-parse --git-dir)\"", "rm -rf \"$(git rev-parse --git-common-dir)/objects\"", "echo evil > \"$(git rev-parse --git-path HEAD)\"", "mkdir -p \"$(git rev-parse --git-path hooks)\"; echo exit 1 > \"$(git rev-parse --git-path hooks)/pre-commit\"",
]


def everything(git):
    """All files of the repository except those of the bridge and what a commit writes, byte for byte."""
    found = {}
    top = os.path.join(git.folder, ".git")
    for folder, folders, names in os.walk(top):
        if folder == top:
            folders.remove("hookhost")
        for name in names:
            path = os.path.join(folder, name)
            found[os.path.relpath(path, top)] = content(path)
    return found


def hostile_hooks(top, env):
    git = repository(top, env, "id: evil, name: Evil, language: system, always_run: true, " + shell('sh -c "$EVIL"') + ", pass_filenames: false")
    origin = Repository.made(os.path.join(top, "origin"), env)
    origin.add("o", "o\n")
    origin.git("commit", "--quiet", "-m", "o")
    git.git("remote", "add", "origin", origin.folder)
    git.git("config", "user.name", "Local")
    for word in ("one", "two"):
        git.add("a.txt", word + "\n")
        git.git("commit", "--quiet", "--no-verify", "-m", word)
    git.git("branch", "other", "HEAD~1")
    git.git("tag", "v1")
    git.add("a.txt", "stashed\n")
    git.git("stash", "--quiet")
    git.add("a.txt", "three\n")
    same("run", git.bridge("run", env={"EVIL": "git status"}).status, 0)
    git.git("write-tree")
    before, files = everything(git), git.working_files()
    # With these Git would write into this repository, even if it finds another.
    variables = {"GIT_OBJECT_DIRECTORY": os.path.join(git.folder, ".git/objects"), "GIT_COMMON_DIR": os.path.join(git.folder, ".git")}
    for words, more in [(words, {}) for words in HOSTILE] + [(words, variables) for words in HOSTILE[:12]]:
        answer = git.bridge("run", env=more | {"EVIL": words})
        check(answer.status in (0, 1), f"{words!r}: {answer!r}")
        for path, held in everything(git).items():
            same(f"{path} after {words!r}", held, before.get(path))
        same(f"the names after {words!r}", sorted(everything(git)), sorted(before))
        same("what is remembered", git.store("memory").out, "remembered: 0\n")
        # What hooks did to files is a fix as any other.
        for path, (mode, held) in files.items():
            git.write(path, held, mode)
        same(f"the working files after {words!r}", git.working_files(), files)
    same("what is left", [name for name in os.listdir(git.home()) if name.startswith(("repository", "served"))], [])


def an_answer_that_follows_from_git(top, env):
    """It isn't given again on another branch, after another commit, or with other settings."""
    hooks = {"branch": "test \"$(git branch --show-current)\" != main", "head": "test \"$(git log -1 --format=%s)\" = good", "settings": "test \"$(git config user.name)\" = good",
             "top": "test \"$(git -C \"$HOOKHOST_TOP\" log -1 --format=%s)\" = good", "past": "test \"$(/usr/bin/git log -1 --format=%s)\" = good", "environment": "git --version; test \"$(env -i git log -1 --format=%s)\" = good"}
    for number, (name, line) in enumerate(hooks.items()):
        for cautious in ("true", "false"):
            git = repository(top, env, f"id: asks, name: Asks, language: system, {shell(line)}, files: 'txt$'", "id: other, name: Other, language: system, entry: 'true', files: 'txt$'", name=f"git {number} {cautious}")
            git.git("config", "hookhost.cautious", cautious)
            if name == "environment":
                git.git("config", "hookhost.alwaysGit", "true")
            git.git("config", "user.name", "good")
            git.git("checkout", "--quiet", "-b", "work")
            git.git("commit", "--quiet", "--no-verify", "--allow-empty", "-m", "good")
            git.add("a.txt", "a\n")
            for _ in range(2):
                same(f"{name} passes", git.bridge("run").status, 0)
            if name != "settings":
                git.git("branch", "--quiet", "-f", "main")
                git.git("symbolic-ref", "HEAD", "refs/heads/main")
            git.git("commit", "--quiet", "--no-verify", "--allow-empty", "--only", "-m", "bad")
            git.git("config", "user.name", "bad")
            not_made(git.commit(), "Failed")


def what_is_remembered_without_git(top, env):
    """Once no hook calls Git any more, results are cached as before, and none of a run that was killed."""
    git = repository(top, env, "id: asks, name: Asks, language: system, " + shell('sh "$1"') + ", files: 'sh$'")
    git.add("a.sh", "git ls-files\n")
    same("run", (git.bridge("run").status, git.store("memory").out), (0, "remembered: 0\n"))
    git.add("a.sh", "true\n")
    same("run", (git.bridge("run").status, git.store("memory").out), (0, "remembered: 1\n"))
    check("answered from the cache: 1\n" in git.bridge("run", "--verbose").out, "the answer isn't kept")
    git.write(".git/hookhost/served", "")
    check("answered from the cache: 0\n" in git.bridge("run", "--verbose").out, "an answer of a killed run is kept")
    same("run", git.store("memory").out, "remembered: 1\n")


def fixes_of_a_hook_that_calls_git(top, env):
    """They are written as those of any hook, and the next hook finds them as changes that aren't staged."""
    fixes, sees = shell("git ls-files '*.txt' | xargs sed -i s/bad/good/"), shell("test \"$(git diff --name-only)\" = a.txt && git diff-files --quiet -- b.txt")
    git = repository(top, env, f"id: fixes, name: Fixes, language: system, {fixes}", f"id: sees, name: Sees, language: system, {sees}, pass_filenames: false, always_run: true")
    git.add("a.txt", "bad\n")
    git.add("b.txt", "b\n")
    answer = not_made(git.commit(), "Fixes", "Failed", "fixed: a.txt")
    same("the file", git.read("a.txt"), b"good\n")
    answer = git.bridge("run", "--verbose", "sees")
    same("nothing is changed then", answer.status, 1)


def hooks_behind_one_that_writes(top, env):
    """They find the repository as if it hadn't, and so does a command that is given further files."""
    looks = "test \"$(git diff --cached --name-only)\" = a.txt && ! git config a.b && test \"$(git log -1 --format=%s)\" = \"The configuration\" && test \"$(git ls-files -v a.txt)\" = 'H a.txt' && git diff --quiet"
    for number, words in enumerate(("git commit --quiet -m evil", "git config a.b c", "git update-index --assume-unchanged a.txt", "echo x > b; git add b; rm b", "git stash --quiet; git stash pop --quiet --index", "git rm -q --cached a.txt",
                                    "rm -rf \"$(git rev-parse --git-dir)\"", "rm \"$(git rev-parse --git-dir)/index\"", "git status")):
        hooks = [f"id: {name}, name: {name}, language: system, {shell(line)}, pass_filenames: false, always_run: true" for name, line in (("one", f"{looks}; {words}"), ("two", looks), ("three", f"git status; {looks}"))]
        git = repository(top, env, *hooks, name=f"git {number}")
        git.add("a.txt", "a\n")
        answer = git.bridge("run", "--verbose")
        same(f"after {words!r}", (answer.status, answer.out.count("Passed")), (0, 3))


def two_commits_at_once(top, env):
    """Two commits run in two working trees, each of which finds its own repository. In one working tree the second run is kept out."""
    line = "sleep 0.5; test \"$(git branch --show-current)\" = \"$BRANCH\" && test \"$(git rev-parse --show-toplevel)\" = \"$PWD\" && git diff --cached --quiet -- other"
    git = repository(top, env, f"id: asks, name: Asks, language: system, {shell(line)}, pass_filenames: false")
    git.git("worktree", "add", "--quiet", "-b", "second", os.path.join(top, "second"))
    second = Repository(os.path.join(top, "second"), env)
    commits = []
    for tree, branch in ((git, "main"), (second, "second")):
        tree.add("a.txt", f"{branch}\n")
        commits.append(subprocess.Popen(["git", "commit", "--quiet", "-m", branch], cwd=tree.folder, env=env | {"BRANCH": branch}, stdout=subprocess.PIPE, stderr=subprocess.STDOUT))
    for commit in commits:
        said = commit.communicate(timeout=120)[0]
        same(f"both are made ({said!r})", commit.returncode, 0)
    git.add("a.txt", "again\n")
    first = subprocess.Popen([BRIDGE, "run"], cwd=git.folder, env=env | {"BRANCH": "main"}, stdout=subprocess.DEVNULL, stderr=subprocess.DEVNULL)
    while first.poll() is None and not os.path.exists(os.path.join(git.home(), "repository")):
        time.sleep(0.01)
    refused(git.bridge("run"), "another hookhost-git is at work")
    same("the first", first.wait(timeout=120), 0)


def a_kill_while_a_hook_calls_git(top, env):
    """Nothing that it left is found by the next run, which calls no Git, and after that nothing is left."""
    git = repository(top, env, "id: asks, name: Asks, language: system, " + shell('sh "$1"') + ", files: 'sh$'")
    git.add("a.sh", "git ls-files; git config a.b c; sleep 60\n")
    command = subprocess.Popen([BRIDGE, "run"], cwd=git.folder, env=env, stdin=subprocess.DEVNULL, stdout=subprocess.DEVNULL, stderr=subprocess.DEVNULL, start_new_session=True)
    while command.poll() is None and not os.path.exists(os.path.join(git.home(), "repository/child")):
        time.sleep(0.01)
    os.killpg(command.pid, signal.SIGKILL)
    command.wait()
    place = os.path.dirname(git.scratch())
    for path in (os.path.join(git.home(), "served"), os.path.join(git.home(), "repository"), os.path.join(place, ".git")):
        check(os.path.exists(path), f"{path} isn't left by the kill, so that nothing is tried")
    os.mkdir(os.path.join(git.home(), "repository.new"))
    git.write(os.path.join(place, ".git.new"), "gitdir: /nowhere\n")
    git.add("a.sh", f"test ! -e {quoted(place)}/.git\n")
    same("the next run", git.bridge("run").status, 0)
    same("what is left of it", sorted(os.listdir(git.home())), ["bin", "files", "lists", "lock", "size", "synced", "taken", "tools"])
    same("next to the folder of hooks", os.listdir(place), ["scratch"])
    git.add("a.sh", "git ls-files --error-unmatch a.sh && ! git config a.b\n")
    same("the run after it", git.bridge("run").status, 0)


def a_repository_that_cannot_be_made(top, env):
    """A hook that calls Git is then refused, as if there were no repository for it."""
    git = repository(top, env, "id: asks, name: Asks, language: system, " + shell("! git grep -q '[s]ecret'") + ", files: 'txt$'")
    git.add("a.txt", "a\n")
    same("run", git.bridge("run").status, 0)
    tools = os.path.join(top, "tools")
    git.write(f"{tools}/git", "#!/bin/sh\ncase \"$*\" in *for-each-ref*) exit 1 ;; esac\nexec /usr/bin/git \"$@\"\n", 0o755)
    for _ in range(2):
        refused(git.bridge("run", env={"PATH": tools + ":" + env["PATH"]}), "the hook `asks` calls Git (`git grep -q [s]ecret`)")
        same("what is remembered", git.store("memory").out, "remembered: 0\n")
    same("run", git.bridge("run").status, 0)


def pre_commits_own_hooks(top, env):
    """What hooks of pre-commit-hooks ask of Git, each when it passes and when it fails."""
    in_merge = 'test -f "$(git rev-parse --git-dir)/MERGE_MSG" && { test -f "$(git rev-parse --git-dir)/MERGE_HEAD" || test -d "$(git rev-parse --git-dir)/rebase-merge"; }'
    added = "git diff --staged --name-only --diff-filter=A"
    asks = {
        "branch": 'test "$(git symbolic-ref --short HEAD)" != main',
        "large": f"for f in $({added}); do test -f $f || continue; git check-attr filter -- $f | grep -q lfs || test $(stat -c %s $f) -lt 100 || exit 1; done",
        "submodules": "! git diff --diff-filter=A --raw --staged | grep -q '^:000000 160000'",
        "case": f'test -z "$(git ls-files | tr A-Z a-z | sort | uniq -d)" && {added}',
        "merge": f"{in_merge} || exit 0; ! grep -l '^<<<<<<< ' $(git diff --name-only HEAD MERGE_HEAD)",
        "links": "! git status --porcelain=v2 | grep -q '^1 .. N... 120000 120000 100644'",
        "vcs": "! git remote -v | grep -q evil",
    }
    git = repository(top, env, *(f"id: {name}, name: {name}, language: system, {shell(line)}, pass_filenames: false, always_run: true" for name, line in asks.items()))
    git.git("config", "hookhost.allowLeftOut", "true")

    def ends(*failed):
        answer = git.bridge("run", "--verbose")
        check(answer.status == (1 if failed else 0), f"{failed}: {answer!r}")
        same("what fails", [name for name in asks if any(line.startswith(name + ".") and line.endswith("Failed") for line in answer.out.split("\n"))], list(failed))

    ends("branch")
    git.git("checkout", "--quiet", "-b", "work")
    ends()
    git.add("big", "x" * 100)
    ends("large")
    git.add(".gitattributes", "big filter=lfs\n")
    ends()
    git.add("BIG", "y")
    ends("case")
    git.git("rm", "--quiet", "--cached", "BIG", "big")
    git.git("update-index", "--add", "--cacheinfo", f"160000,{git.head()},module")
    ends("submodules")
    git.git("rm", "--quiet", "--cached", "module")
    git.git("remote", "add", "evil", "/nowhere")
    ends("vcs")
    git.git("remote", "remove", "evil")
    git.git("commit", "--quiet", "--no-verify", "-m", "ours")
    git.git("checkout", "--quiet", "-b", "theirs", "HEAD~1")
    git.add("a.txt", "theirs\n")
    git.git("commit", "--quiet", "--no-verify", "-m", "theirs")
    git.git("checkout", "--quiet", "work")
    git.add("a.txt", "ours\n")
    git.git("commit", "--quiet", "--no-verify", "-m", "ours")
    check(git.run("git", "merge", "theirs").status != 0, "there is no conflict")
    git.git("add", "a.txt")
    ends("merge")
    git.add("a.txt", "both\n")
    ends()
    made(git.commit())


CASES = [
    hostile_hooks, an_answer_that_follows_from_git, what_is_remembered_without_git, fixes_of_a_hook_that_calls_git, hooks_behind_one_that_writes, two_commits_at_once, a_kill_while_a_hook_calls_git, a_repository_that_cannot_be_made, pre_commits_own_hooks,
]
