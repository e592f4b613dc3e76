"""What Git prints in hooks of hookhost-git, compared with a hook of Git's own in the working tree, before the same commit; for
tests/git/git_bridge.py."""
import os

from git_bridge_repository import Repository, check, content, made, not_made, quoted, same, shell

# What a hook asks, in a repository with the files of `filled`. Each line is one call of a shell.
ASKED = """
git ls-files
git ls-files --stage
git ls-files -z | tr '\\0' '\\n'
git ls-files --eol
git ls-files --others
git ls-files --modified
git ls-files 'odd*' sub
git grep -n needle
git grep --cached -n needle
git grep -l needle HEAD
git diff
git diff --cached
git diff --cached --check
git diff --cached --name-status
git diff --cached --name-only --diff-filter=A
git diff --cached --raw -- a.txt
git diff HEAD --stat
git diff-files
git diff-index --cached HEAD
git diff-index HEAD
git rev-parse --show-toplevel
git rev-parse --is-inside-work-tree --is-bare-repository --is-inside-git-dir
git rev-parse HEAD
git rev-parse --abbrev-ref HEAD
git rev-parse --show-object-format
git rev-parse --is-shallow-repository
git rev-parse --verify -q MERGE_HEAD
git rev-parse --verify -q ORIG_HEAD
git rev-parse --abbrev-ref @{-1}
git rev-parse --abbrev-ref @{upstream}
test -f "$(git rev-parse --git-dir)/MERGE_MSG" && cat "$(git rev-parse --git-dir)/MERGE_MSG"
test -d "$(git rev-parse --git-path rebase-merge)"
git symbolic-ref HEAD
git branch --show-current
git branch --all
git tag --list
git describe --always --tags
git for-each-ref
git show-ref
git merge-base HEAD other
git merge-base --is-ancestor other HEAD
git log
git log -1 --stat
git log --oneline --graph --all
git reflog
git stash list
git stash show -p
git show HEAD:a.txt
git cat-file -p HEAD
git cat-file --batch-check < /dev/null
git ls-tree -r HEAD
git blame -s a.txt
git write-tree
git check-attr -a -- a.txt crlf.txt sub/b.md
echo a.txt | git check-attr filter --stdin
git check-ignore -v ignored.log excluded.log
git hash-object crlf.txt a.txt
git archive HEAD a.txt | tar -tf -
git status
git status --short --branch
git status --porcelain=v2 -z | tr '\\0' '\\n'
git config user.name
git config --local user.name
git config --get-all test.many
git config included.value
git config elsewhere.value
git config --bool core.bare
git config core.autocrlf
git config --get-regexp '^remote'
git remote -v
git var GIT_AUTHOR_IDENT
git rev-list --count HEAD
git fsck --connectivity-only --no-dangling
cd sub && git ls-files && git rev-parse --show-prefix --show-cdup && git status --short && git grep needle
git -C sub ls-files ..
git --work-tree=. diff --name-only
git-diff --cached --name-only
git nope
"""
# With a commit of paths the working tree has more than the commit.
OF_THE_INDEX = "ls-files --stage|diff --cached|diff-index --cached|write-tree|git rev-parse|git log|git branch|config|grep --cached|ls-tree|merge-base"


class Asked:
    """A hook that calls Git, and what Git said."""

    def __init__(self, top, env, lines=ASKED.strip().split("\n"), name="asked"):
        self.calls, self.said = os.path.join(top, f"{name}.sh"), os.path.join(top, f"{name}.said")
        with open(self.calls, "w", encoding="utf-8") as file:
            file.writelines(f"echo {quoted('== ' + line)}\n({line}) 2>&1\necho \"ends: $?\"\n" for line in lines)
        self.env = env | {"CALLS": self.calls, "SAID": self.said}

    HOOK = "id: asks, name: Asks, language: system, always_run: true, pass_filenames: false, " + shell('sh "$CALLS" > "$SAID"')

    def of_git(self, git, *words, **how):
        """What Git says in a hook of its own, which refuses the commit."""
        hook = os.path.join(git.folder, git.git("rev-parse", "--git-path", "hooks/pre-commit").rstrip("\n"))
        os.makedirs(os.path.dirname(hook), exist_ok=True)
        git.write(hook, '#!/bin/sh\nsh "$CALLS" > "$SAID"\nexit 1\n', 0o755)
        not_made(git.commit(*words, env=self.env, **how))
        os.remove(hook)
        return self.answers(git.folder)

    def of_ours(self, git, *words, **how):
        git.installed()
        made(git.commit(*words, env=self.env, **how))
        return self.answers(git.scratch())

    def answers(self, folder):
        """What was said to each call, by the call."""
        said = content(self.said).decode(errors="surrogateescape").replace(os.path.realpath(folder), "TOP")
        os.remove(self.said)
        return dict(part.partition("\n")[::2] for part in said.split("== ")[1:])


def compare(asked, git, *words, leaves=(), **how):
    """Compares all that Git prints, except for calls with one of the words of `leaves`."""
    wanted, found = asked.of_git(git, *words, **how), asked.of_ours(git, *words, **how)
    same("the calls", list(found), list(wanted))
    for call, answer in wanted.items():
        if not any(word in call for word in leaves):
            same(f"{call!r} says", found[call], answer)
    same("what is left", [name for name in os.listdir(git.home()) if name.startswith(("repository", "served"))], [])
    same("next to the folder of hooks", [name for name in os.listdir(os.path.dirname(git.scratch())) if name.startswith(".git")], [])


def filled(git):
    """Two branches, a tag, a stash, settings, and changes of all kinds that are staged."""
    git.configure(Asked.HOOK)
    for path, held in (("a.txt", "needle\n"), ("sub/b.md", "b\n"), ("gone", "g\n"), ("moved", "a line that moves\n" * 5), (".gitignore", "*.log\n"), (".gitattributes", "*.md diff=markdown\ncrlf.txt text eol=crlf\n"), ("crlf.txt", "x\r\n")):
        git.add(path, held)
    git.git("commit", "--quiet", "--no-verify", "-m", "first")
    git.git("branch", "other")
    git.git("tag", "-a", "v1", "-m", "v1")
    git.add("a.txt", "needle\nstashed\n")
    git.git("stash", "--quiet")
    git.add("second", "2\n")
    git.git("commit", "--quiet", "--no-verify", "-m", "second")
    git.git("config", "user.name", "Local")
    git.git("config", "--global", "user.name", "Global")
    git.git("config", "user.email", "local@example.invalid")
    for value in ("one", "two \"quoted\" # ; \\"):
        git.git("config", "--add", "test.many", value)
    git.write(".git.settings", "[included]\n\tvalue = here\n") if os.path.isfile(os.path.join(git.folder, ".git")) else git.write(".git/settings", "[included]\n\tvalue = here\n")
    staged(git)
    return git


def staged(git):
    """Changes that are staged, and no others in the working tree."""
    git.add("a.txt", "needle\nmore  \n")
    git.add("new.txt", "needle\n", 0o755)
    git.add("sub/deep/odd name ü \"q\" \\ '.txt", "needle\n")
    git.add("-dash", "d\n")
    git.add("crlf.txt", "x\r\ny\r\n")
    if os.path.exists(os.path.join(git.folder, "gone")):
        git.git("rm", "--quiet", "gone")
        git.git("mv", "moved", "moved away")


def plain(top, env, *options):
    return filled(Repository.made(os.path.join(top, "git"), env, *options))


def git_says_what_it_says_in_the_working_tree(top, env):
    git = plain(top, env)
    git.git("config", "include.path", "settings")
    git.git("config", "--global", f"includeIf.gitdir:{top}/.path", f"{top}/elsewhere")
    git.write(f"{top}/elsewhere", "[elsewhere]\n\tvalue = there\n")
    git.write(".git/info/exclude", "excluded.log\n")
    git.write(".git/info/attributes", "a.txt filter=none\n")
    compare(Asked(top, env), git)
    # Once more, with other changes and from a folder.
    git.add("a.txt", "needle again\n")
    git.git("rm", "--quiet", "new.txt")
    compare(Asked(top, env), git, cwd="sub")
    git.add("a.txt", "amended\n")
    compare(Asked(top, env), git, "--amend", "-m", "amended")


def git_in_a_first_commit(top, env):
    git = Repository.made(os.path.join(top, "git"), env)
    git.configure(Asked.HOOK)
    staged(git)
    compare(Asked(top, env), git)


def git_while_something_is_under_way(top, env):
    """A merge, a cherry-pick, a rebase that stopped, and no branch."""
    git = plain(top, env)
    git.git("commit", "--quiet", "--no-verify", "-m", "third")
    git.git("checkout", "--quiet", "other")
    git.add("a.txt", "theirs\n")
    git.git("commit", "--quiet", "--no-verify", "-m", "theirs")
    git.git("checkout", "--quiet", "main")
    for words in (("merge", "other"), ("cherry-pick", "other"), ("rebase", "other")):
        start = git.head()
        check(git.run("git", *words).status != 0, f"{words!r} finds no conflict")
        git.add("a.txt", f"both, by {words[0]}\n")
        compare(Asked(top, env), git)
        git.run("git", words[0], "--quit")
        git.git("checkout", "--quiet", "-f", "-B", "main", start)
    git.git("checkout", "--quiet", "--detach")
    git.add("a.txt", "detached\n")
    compare(Asked(top, env), git)


def git_in_a_commit_of_paths(top, env):
    git = plain(top, env)
    git.git("commit", "--quiet", "--no-verify", "-m", "third")
    git.write("a.txt", "all\n")
    os.remove(os.path.join(git.folder, "second"))
    compare(Asked(top, env), git, "--all", "-m", "m")
    git.add("new.txt", "staged\n")
    git.write("a.txt", "by its path\n")
    lines = [line for line in ASKED.strip().split("\n") if any(word in line for word in OF_THE_INDEX.split("|")) and "status" not in line]
    compare(Asked(top, env, lines), git, "-m", "m", "a.txt")


def git_of_other_repositories(top, env):
    """Repositories of SHA-256, with objects elsewhere, without history, without objects, of a working tree and of a submodule."""
    plain(os.path.join(top, "sha256"), env, "--object-format=sha256")
    compare(Asked(top, env), Repository(os.path.join(top, "sha256/git"), env))
    origin = plain(top, env)
    origin.git("commit", "--quiet", "--no-verify", "-m", "third")
    origin.git("config", "uploadpack.allowFilter", "true")
    for number, words in enumerate((("--shared", origin.folder), ("--depth=1", f"file://{origin.folder}"), ("--filter=blob:none", f"file://{origin.folder}"))):
        folder = os.path.join(top, f"clone {number}")
        origin.git("clone", "--quiet", *words, folder)
        clone = Repository(folder, env)
        clone.add("a.txt", f"{number}\n")
        clone.git("rm", "--quiet", "second")
        compare(Asked(top, env), clone)
    origin.git("worktree", "add", "--quiet", os.path.join(top, "tree"), "other")
    origin.git("config", "extensions.worktreeConfig", "true")
    tree = Repository(os.path.join(top, "tree"), env)
    tree.git("config", "--worktree", "test.many", "three")
    staged(tree)
    # Git marks the branches of other working trees, and in a hook there it takes each folder for the top.
    compare(Asked(top, env), tree, leaves=("git branch --all", "cd sub", "-C sub"))
    outer = Repository.made(os.path.join(top, "outer"), env)
    outer.git("-c", "protocol.file.allow=always", "submodule", "--quiet", "add", origin.folder, "inner")
    inner = Repository(os.path.join(outer.folder, "inner"), env)
    inner.add("a.txt", "inner\n")
    compare(Asked(top, env), inner, leaves=("cd sub", "-C sub"))


def git_with_forms_of_files(top, env):
    """Line ends, an encoding and a filter."""
    git = Repository.made(os.path.join(top, "git"), env)
    git.git("config", "core.autocrlf", "true")
    git.git("config", "core.safecrlf", "false")
    git.git("config", "filter.upper.clean", "tr a-z A-Z")
    git.git("config", "filter.upper.smudge", "tr A-Z a-z")
    git.configure(Asked.HOOK)
    git.add(".gitattributes", "*.up filter=upper\n*.w working-tree-encoding=UTF-16\n")
    git.git("commit", "--quiet", "--no-verify", "-m", "first")
    staged(git)
    git.add("a.up", "needle\n")
    git.add("a.w", "needle\n".encode("utf-16"))
    git.git("rm", "--quiet", "--cached", "crlf.txt")
    for path in git.working_files():
        os.remove(os.path.join(git.folder, path))
    git.git("checkout-index", "--all", "--force", "--index")
    compare(Asked(top, env), git)


def git_with_files_that_are_left_out(top, env):
    """Links, a submodule, a large file and a name that isn't taken count as unchanged, and are in the index."""
    git = plain(top, env)
    git.git("config", "hookhost.allowLeftOut", "true")
    os.symlink("a.txt", os.path.join(git.folder, "link"))
    git.write("large.txt", b"needle\n" + b"x" * 16777216)
    git.write("line\nfeed", "needle\n")
    inner = Repository.made(os.path.join(git.folder, "inner"), env)
    inner.add("a", "a\n")
    inner.git("commit", "--quiet", "-m", "m")
    git.git("add", "--all")
    asked = Asked(top, env)
    # These look at the files themselves.
    compare(asked, git, leaves=("ls-files --eol", "ls-files --modified", "grep -n needle", "&& git grep", "diff HEAD --stat"))
    git.add("a.txt", "more\n")
    found = asked.of_ours(git)
    check("large.txt:1:needle" in found["git grep -n needle"], f"{found['git grep -n needle']!r}")


def git_in_other_places(top, env):
    """The folder of hooks is named by a link, or lies below the Git folder."""
    os.makedirs(os.path.join(top, "place"))
    os.symlink("place", os.path.join(top, "link"))
    folders = os.path.join(top, "place", f"hookhost-{os.getuid()}"), os.path.join(top, "git/.git/hookhost/files/.hookhost")
    git = plain(top, env)
    git.git("commit", "--quiet", "--no-verify", "-m", "third")
    for place, folder in zip((os.path.join(top, "link"), "/nowhere"), folders):
        git.add("a.txt", f"in {len(folder)}\n")
        asked = Asked(top, env | {"HOOKHOST_TMP": place}, ["git rev-parse --show-toplevel", "git grep -n in", "git diff --cached --name-only", "env -u GIT_CEILING_DIRECTORIES git status --short"])
        wanted = asked.of_git(git)
        git.installed()
        made(git.commit(env=asked.env))
        numbers = [name for name in os.listdir(folder) if not name.endswith(".ahead")]
        scratch = os.path.join(folder, "scratch") if place == "/nowhere" else os.path.join(folder, numbers[0], "scratch")
        same(f"in {place}", asked.answers(scratch), wanted)


CASES = [
    git_says_what_it_says_in_the_working_tree, git_in_a_first_commit, git_while_something_is_under_way, git_in_a_commit_of_paths, git_of_other_repositories, git_with_forms_of_files,
    git_with_files_that_are_left_out, git_in_other_places,
]
