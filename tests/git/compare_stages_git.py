"""What Git's own tests of its hooks check (t7503, t7504 and t7505 of Git 2.39), of hooks that .pre-commit-config.yaml names and that
hookhost-git has installed, for tests/git/compare_stages.py. With pre-commit in its place they pass too, so they say nothing of hookhost's own.

Left out are a test of which Git says that it fails (`merge --continue` forgets `--no-verify`), and what needs no hook.
"""
import os

from compare_stages_side import Own
from git_bridge_repository import check, same, shell

BOTH = "stages: [commit, merge-commit], always_run: true, pass_filenames: false"
LOGS = 'echo started >> "$HOOK_LOG"'
OF_MESSAGE = "stages: [commit-msg]"
OF_PREPARED = "stages: [prepare-commit-msg]"


def hook(name, text, keys):
    return f"id: {name}, name: {name}, language: system, {shell(text)}, {keys}"


def two_sides(git):
    """Makes a branch that is merged without conflicts, and two of which one is in conflict with the other."""
    git.quietly("checkout", "--quiet", "-b", "side")
    git.committed("foo", "foo\n")
    for name in ("first", "second"):
        git.quietly("checkout", "--quiet", "-b", name, "main")
        git.committed("clash", name + "\n")
    git.quietly("checkout", "--quiet", "main")
    git.committed("file", "moved on\n")
    git.git("checkout", "--quiet", "side")


# ---- t7503: pre-commit and pre-merge-commit


def commits_that_pass(top, env, kit):
    """The hook starts once for a commit, and not with `--no-verify` or if Git may not start it."""
    git = Own(top, env, kit).configured(hook("notes", LOGS, BOTH))
    git.changed("file", "more\n")
    git.makes("commit", "-m", "more")
    same("started", git.notes(), 1)
    git.changed("file", "even more\n")
    git.makes("commit", "--no-verify", "-m", "even more")
    same("started with --no-verify", git.notes(), 0)
    git.disable("pre-commit")
    for words in ([], ["--no-verify"]):
        git.changed("file", f"content {words}\n")
        git.makes("commit", *words, "-m", "content")
    same("started while it isn't executable", git.notes(), 0)


def commits_that_fail(top, env, kit):
    git = Own(top, env, kit).configured(hook("notes", LOGS + "; exit 1", BOTH))
    git.changed("file", "another\n")
    git.makes_none("commit", "-m", "another")
    same("started", git.notes(), 1)
    git.makes("commit", "--no-verify", "-m", "stuff")
    same("started with --no-verify", git.notes(), 0)


def merges_that_pass(top, env, kit):
    """The hook starts once for a merge that Git commits, and as pre-commit for one whose conflicts were resolved."""
    git = Own(top, env, kit).configured(hook("notes", LOGS, BOTH))
    two_sides(git)
    git.makes("merge", "--no-edit", "main")
    same("started", git.notes(), 1)
    git.git("reset", "--quiet", "--hard", "HEAD~1")
    git.makes("merge", "--no-edit", "--no-verify", "main")
    same("started with --no-verify", git.notes(), 0)
    git.git("checkout", "--quiet", "first")
    check(git.run("git", "merge", "-m", "merge", "second").status != 0, "the merge has no conflict")
    same("started in a conflict", git.notes(), 0)
    git.changed("clash", "both\n")
    git.makes("commit", "-m", "resolved")
    same("started once it is resolved", git.notes(), 1)
    git.disable("pre-merge-commit")
    git.git("checkout", "--quiet", "side")
    git.git("reset", "--quiet", "--hard", "HEAD~1")
    git.makes("merge", "--no-edit", "main")
    same("started while it isn't executable", git.notes(), 0)


def merges_that_fail(top, env, kit):
    git = Own(top, env, kit).configured(hook("notes", LOGS + "; exit 1", BOTH))
    two_sides(git)
    git.makes_none("merge", "--no-edit", "main")
    same("started", git.notes(), 1)
    check(git.git_file("MERGE_HEAD") is not None, "the merge isn't under way")
    git.git("merge", "--abort")
    git.makes("merge", "--no-edit", "--no-verify", "main")
    same("started with --no-verify", git.notes(), 0)


def folders_and_prefixes(top, env, kit):
    """Git names the folder below the top in which it was called. Hooks here are told of no folder of the real repository (docs/GIT.md, "What
    hooks find")."""
    text = 'echo "started in ${GIT_PREFIX-no folder}" >> "$HOOK_LOG"; test -f file'
    git = Own(top, env, kit).configured(hook("notes", text, BOTH), file="a file\n")
    git.changed("file", "more content\n")
    os.mkdir(os.path.join(git.folder, "below"))
    git.makes("commit", "-m", "from below", cwd="below")
    same("the folder", git.lines(), ["started in below/" if kit.is_peer else "started in no folder"])


def authors(top, env, kit):
    """Hooks find the author in variables, also that of `--author`."""
    test = 'test "$GIT_AUTHOR_NAME" = New && test "$GIT_AUTHOR_EMAIL" = new@example.invalid'
    git = Own(top, env, kit).configured(hook("notes", f"{LOGS}; {test}", BOTH + r", x_reads: '^\.git-state$'"))
    git.makes_none("commit", "--allow-empty", "-m", "by another")
    git.makes("commit", "--allow-empty", "-m", "by variables", env={"GIT_AUTHOR_NAME": "New", "GIT_AUTHOR_EMAIL": "new@example.invalid"})
    git.makes("commit", "--allow-empty", "-m", "by words", "--author=New <new@example.invalid>")
    same("started", git.notes(), 3)
    git.makes_none("commit", "--allow-empty", "-m", "by another")


# ---- t7504: commit-msg


def tries(git, at, *words):
    """Commits with a message by a word, and by an editor."""
    for message, is_edited in ((f"by words {at}", False), (f"by an editor {at}", True)):
        git.changed("file", message + "\n")
        how = {"GIT_EDITOR": 'echo "$EDIT_TEXT" >', "EDIT_TEXT": message} if is_edited else {}
        before = git.moves()
        answer = git.run("git", "commit", "--quiet", *words, *([] if is_edited else ["-m", message]), env=how)
        same(f"whether a commit is made, after {answer!r}", git.moves() > before, answer.status == 0)
        yield message, answer


def messages_that_pass(top, env, kit):
    git = Own(top, env, kit).configured(hook("notes", LOGS, OF_MESSAGE))
    for words in ([], ["--no-verify"]):
        for message, answer in tries(git, words, *words):
            same("status", answer.status, 0)
            same("message", git.message(), message + "\n")
            same("started", git.notes(), 0 if words else 1)


def messages_that_fail(top, env, kit):
    """A refused message is no commit, unless by `--no-verify`, whose opposite is `--verify`."""
    git = Own(top, env, kit).configured(hook("notes", LOGS + "; exit 1", OF_MESSAGE))
    for words in ([], ["-n", "--verify"]):
        for _, answer in tries(git, words, *words):
            check(answer.status == 1, f"{words!r}: {answer!r}")
            same("started", git.notes(), 1)
    for message, answer in tries(git, "unchecked", "--no-verify"):
        same("status", answer.status, 0)
        same("message", git.message(), message + "\n")
        same("started with --no-verify", git.notes(), 0)
    git.disable("commit-msg")
    for words in ([], ["--no-verify"]):
        for _, answer in tries(git, words, *words):
            same("status while it isn't executable", answer.status, 0)


def unrelated(git):
    """Goes to a branch of another history, which has the configuration too."""
    git.quietly("checkout", "--quiet", "--orphan", "unrelated")
    git.git("rm", "--quiet", "--force", "file")
    git.changed("file2", "")
    git.makes("commit", "--no-verify", "-m", "in another branch")


def messages_of_merges(top, env, kit):
    """A merge is refused for its message, unless by `--no-verify`."""
    git = Own(top, env, kit).configured(hook("notes", LOGS + "; exit 1", OF_MESSAGE), file="a file\n")
    unrelated(git)
    git.makes_none("merge", "--no-edit", "--allow-unrelated-histories", "main")
    same("started", git.notes(), 1)
    git.git("merge", "--abort")
    git.makes("merge", "--no-edit", "--allow-unrelated-histories", "--no-verify", "main")
    same("message", git.message(), "Merge branch 'main' into unrelated\n")


def messages_that_change(top, env, kit):
    """What a hook writes is the message, also in a merge, and for each commit that a rebase rewords."""
    git = Own(top, env, kit).configured(hook("notes", 'echo "new message" > "$1"', OF_MESSAGE), file="a file\n")
    for _, answer in tries(git, "changed"):
        same("status", answer.status, 0)
        same("message", git.message(), "new message\n")
    for message, answer in tries(git, "unchecked", "--no-verify"):
        same("status", answer.status, 0)
        same("message", git.message(), message + "\n")
    git.makes("rebase", "--quiet", "-i", "HEAD^", env={"GIT_SEQUENCE_EDITOR": "sed -i s/^pick/reword/", "GIT_EDITOR": "true"})
    same("the reworded message", git.message(), "new message\n")
    unrelated(git)
    git.makes("merge", "--no-edit", "--allow-unrelated-histories", "main")
    same("the message of a merge", git.message(), "new message\n")


# ---- t7505: prepare-commit-msg

# Writes into the first line where the message is from, or while commits are rebased the command in place of all.
PREPARES = r"""#!/bin/sh
folder=$(git rev-parse --git-dir)
source=${PRE_COMMIT_COMMIT_MSG_SOURCE-default}
rebase=$folder/rebase-merge
[ "$source" != commit ] || source=$PRE_COMMIT_COMMIT_OBJECT_NAME
[ "${PRE_COMMIT_COMMIT_MSG_SOURCE-}" != commit ] || [ -d "$rebase" ] || source=$(git rev-parse "$source")
[ "${GIT_EDITOR-}" != : ] || source="$source (no editor)"
if [ -d "$rebase" ]; then
  tail -n 1 "$rebase/done" > "$HOOK_LOG.done"
  read -r command id rest < "$HOOK_LOG.done"
  echo "$source $(git log -1 --pretty="[$command %s]" "$id")" > "$1"
else
  sed "1s/.*/$source/" "$1" > message.new
  mv message.new "$1"
fi
"""


def prepared(top, env, kit, **files):
    script = os.path.join(top, "prepares")
    with open(script, "w", encoding="utf-8") as file:
        file.write(PREPARES)
    os.chmod(script, 0o755)
    return Own(top, env, kit).configured(f"id: prepares, name: prepares, language: system, entry: {script}, {OF_PREPARED}", **files)


def sources_of_messages(top, env, kit):
    """Hooks find where a message is from, and the commit that it is of, and whether there is an editor."""
    git = prepared(top, env, kit, file="a file\n")
    template = os.path.join(top, "template")
    with open(template, "w", encoding="utf-8") as file:
        file.write("dummy template\n")
    head = git.head()
    editor, writes = {"GIT_EDITOR": "true"}, {"GIT_EDITOR": "echo written >>"}
    for words, more, given, wanted in (
            (["-m", "more"], {}, b"", "message (no editor)"), (["-e", "-m", "more"], editor, b"", "message"),
            (["-t", template], writes, b"", "template"), (["-F", "-"], {}, b"more\n", "message (no editor)"),
            (["-e", "-F", "-"], editor, b"more\n", "message"), (["-C", head], {}, b"", head + " (no editor)"), ([], editor, b"", "default"),
            (["--amend"], editor, b"", None), (["-c", head], editor, b"", head)):
        git.changed("file", repr(words))
        before = git.head()
        git.makes("commit", *words, env=more, given=given)
        same(f"the subject with {words!r}", git.subject(), before if wanted is None else wanted)


def sources_of_merges(top, env, kit):
    git = prepared(top, env, kit, file="a file\n")
    for at, (words, more, wanted) in enumerate((([], {}, "merge (no editor)"), (["-e"], {"GIT_EDITOR": "true"}, "merge"))):
        git.quietly("checkout", "--quiet", "-b", f"other{at}")
        git.committed("file", f"other {at}\n")
        git.git("checkout", "--quiet", "main")
        git.makes("merge", "--no-ff", *words, f"other{at}", env=more)
        same("the subject", git.subject(), wanted)


def picked(top, env, kit):
    """A cherry-pick has a message, or with an editor one as of a merge."""
    git = prepared(top, env, kit, file="a file\n")
    git.quietly("checkout", "--quiet", "-b", "other")
    git.committed("c", "1\n")
    git.git("checkout", "--quiet", "main")
    for words, wanted in (([], "message (no editor)"), (["-e"], "merge")):
        git.makes("cherry-pick", *words, "other", env={"GIT_EDITOR": "true"})
        same("the subject", git.subject(), wanted)
        git.git("reset", "--quiet", "--hard", "HEAD^")


# The commands of the rebase of Git's test, and the subjects of all commits that it makes, the last first.
REBASED = ["pick a", "pick b", "fixup 1", "fixup 2", "pick 3", "fixup 4", "squash 5", "reword 6", "squash 7", "fixup 8", "fixup 9", "edit 10",
           "squash 11", "squash 12", "edit 13"]
SUBJECTS = """message [edit rebase-13]
message (no editor) [edit rebase-13]
message [squash rebase-12]
message (no editor) [squash rebase-11]
default [edit rebase-10]
message (no editor) [edit rebase-10]
message [fixup rebase-9]
message (no editor) [fixup rebase-8]
message (no editor) [squash rebase-7]
HEAD [reword rebase-6]
message (no editor) [reword rebase-6]
message [squash rebase-5]
message (no editor) [fixup rebase-4]
message (no editor) [pick rebase-3]
message (no editor) [fixup rebase-2]
message (no editor) [fixup rebase-1]
merge [pick rebase-b]
message [pick rebase-a]
""".splitlines()


def rebased(top, env, kit):
    """The hook starts for each commit that a rebase makes, with the files of that rebase next to it."""
    git = prepared(top, env, kit)
    git.quietly("branch", "rebase-me")
    for path in "ab":
        git.committed(path, path + "\n")
    git.quietly("branch", "onto")
    git.quietly("checkout", "--quiet", "rebase-me")
    for name, path, text in [("a", "a", "aa\n"), ("b", "b", "bb\n")] + [(str(at), "c", f"{at}\n") for at in range(1, 14)]:
        git.committed(path, text, "rebase-" + name)
        git.git("tag", "rebase-" + name)
    commands_file = os.path.join(top, "commands")
    with open(commands_file, "w", encoding="utf-8") as file:
        file.writelines(f"{word} {git.git('rev-parse', 'rebase-' + name)}" for word, name in map(str.split, REBASED))
    how = {"GIT_SEQUENCE_EDITOR": "cp " + commands_file, "GIT_EDITOR": "true"}
    stops, goes_on = (False, ["rebase", "--continue"]), (True, ["rebase", "--continue"])
    for path, text, calls in ((None, "", [(False, ["rebase", "-i", "onto"])]), ("a", "x\n", [stops]), ("b", "x\n", [(True, ["commit"]), goes_on]),
                              ("a", "y\n", [(True, ["commit"]), goes_on]), ("b", "y\n", [goes_on])):
        if path:
            git.changed(path, text)
        for passes, words in calls:
            answer = git.run("git", *words, env=how)
            check((answer.status == 0) == passes, f"git {words!r}: {answer!r}")
    same("the subjects", git.git("log", "--pretty=%s", "-g", "-n18", "HEAD@{1}").splitlines(), SUBJECTS)


def prepared_that_fail(top, env, kit):
    """A hook that fails refuses each commit, also by `--no-verify`, and merges and cherry-picks."""
    git = Own(top, env, kit).configured(hook("fails", LOGS + "; exit 1", OF_PREPARED), file="a file\n")
    git.changed("file", "more\n")
    for words in ([], ["--no-verify"]):
        git.makes_none("commit", *words, "-c", "HEAD", env={"GIT_EDITOR": "true"})
        same("started", git.notes(), 1)
    git.git("reset", "--quiet", "--hard")
    git.quietly("checkout", "--quiet", "-b", "other")
    git.committed("c", "1\n")
    git.git("checkout", "--quiet", "main")
    git.makes_none("merge", "--no-ff", "--no-edit", "other")
    git.git("reset", "--quiet", "--hard")
    answer = git.makes_none("cherry-pick", "other")
    check("'prepare-commit-msg' hook failed" in answer.err, f"Git doesn't say which hook has failed: {answer!r}")
    same("started", git.notes(), 2)


CASES = (commits_that_pass, commits_that_fail, merges_that_pass, merges_that_fail, folders_and_prefixes, authors, messages_that_pass,
         messages_that_fail, messages_of_merges, messages_that_change, sources_of_messages, sources_of_merges, picked, rebased, prepared_that_fail)
