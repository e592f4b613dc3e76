"""Cases of tests/git/compare_stages.py: each reason for which hookhost-git and pre-commit differ, side by side in the same repository. Some
show where they might differ, and don't."""
import os

from compare_stages_git import hook
from compare_stages_side import Kit, MESSAGE, Own, TYPES, results
from git_bridge_repository import check, same

COMMITS, PREPARED, OF_MESSAGE = "stages: [commit], always_run: true", "stages: [prepare-commit-msg]", "stages: [commit-msg]"
STAGES = ["commit", "prepare-commit-msg", "commit-msg", "post-commit"]
AFTER = "stages: [post-commit], always_run: true"
NAMES = 'printf "%s\\n" "$@" >> "$HOOK_LOG"'


def both(top, env, kit, *hooks, **files):
    """The same repository with hookhost-git and with pre-commit."""
    ours, theirs = Own(top, env, kit, "ours"), Own(top, env, Kit(kit.hooks, True), "theirs")
    for side in (ours, theirs):
        side.configured(*hooks, **{"file": "a file\n"} | files)
    return ours, theirs


def differ(what, pair, wanted):
    """Checks what is so here and with pre-commit."""
    same(f"{what}, here and with pre-commit", tuple(pair), wanted)


def notes(name, keys, text=""):
    """A hook that logs its name, and then does something."""
    return hook(name, f'echo {name} >> "$HOOK_LOG"; {text}', keys)


def in_all_stages(text):
    """A hook of each stage, that logs the stage first."""
    return [notes(stage, f"stages: [{stage}], always_run: true", text) for stage in STAGES]


def merging(side, name="side"):
    """Makes a branch that is to be merged."""
    side.quietly("checkout", "--quiet", "-b", name)
    side.committed("other", "another file\n")
    side.quietly("checkout", "--quiet", "main")
    side.committed("file", "moved on\n")


def names_of_messages(top, env, kit):
    """Git's name of a message is .git/COMMIT_EDITMSG, of one of a merge .git/MERGE_MSG, and in a linked working tree a full path. Here
    hooks find each as .git/COMMIT_EDITMSG, so patterns for another name find none."""
    sides = both(top, env, kit, hook("names", NAMES, OF_MESSAGE), hook("merges", NAMES, OF_MESSAGE + ", files: 'MERGE_MSG$'"))
    for side in sides:
        side.changed("file", "more\n")
        side.makes("commit", "-m", "m")
    differ("the name", (side.lines() for side in sides), ([MESSAGE], [MESSAGE]))
    for side in sides:
        merging(side)
        side.makes("merge", "--no-edit", "side")
    differ("the names in a merge", (side.lines() for side in sides), ([MESSAGE], [".git/MERGE_MSG"] * 2))
    for side in sides:
        side.git("worktree", "add", "--quiet", "../" + side.name + ".linked")
        linked = os.path.join(side.folder, "..", side.name + ".linked")
        side.makes("-C", linked, "commit", "--allow-empty", "-m", "linked", moves=False)
    differ("the name in a linked working tree", (side.lines() for side in sides),
           ([MESSAGE], [os.path.realpath(os.path.join(sides[1].folder, ".git/worktrees/theirs.linked/COMMIT_EDITMSG"))]))


def refused_messages(top, env, kit):
    """If a hook refuses a message, Git's file of it stays as it was here. pre-commit leaves what hooks wrote."""
    sides = both(top, env, kit, hook("adds", 'echo added >> "$1"', OF_MESSAGE), hook("refuses", "exit 1", OF_MESSAGE))
    for side in sides:
        side.changed("file", "more\n")
        side.makes_none("commit", "-m", "m")
    differ("the file", (side.git_file("COMMIT_EDITMSG") for side in sides), (b"m\n", b"m\nadded\n"))


def refused_merges(top, env, kit):
    """The message of a merge that was refused, and is ended later, has once what hooks add, since Git keeps its own."""
    sides = both(top, env, kit, hook("adds", 'echo added >> "$1"', OF_MESSAGE), hook("refuses", '[ -n "${PASSES-}" ]', OF_MESSAGE))
    for side in sides:
        merging(side)
        side.makes_none("merge", "-m", "merged", "side")
        side.makes("commit", "--no-edit", env={"PASSES": "1"})
    differ("the message", (side.message() for side in sides), ("merged\nadded\n",) * 2)


def files_of_message_hooks(top, env, kit):
    """Hooks about a message that change another file fail. Here the file stays as it was."""
    for stage in (PREPARED, OF_MESSAGE):
        sides = both(os.path.join(top, stage[9:-1]), env, kit, hook("changes", "echo changed >> file", stage))
        for side in sides:
            side.changed("file", "more\n")
            side.makes_none("commit", "-m", "m")
        differ("the file", (side.read("file") for side in sides), (b"more\n", b"more\nchanged\n"))


def new_files(top, env, kit):
    """A file that a hook makes is dropped here, in each stage, and no hook fails for it."""
    sides = both(top, env, kit, *in_all_stages('echo new > "new by $(tail -n 1 "$HOOK_LOG")"'))
    for side in sides:
        side.changed("file", "more\n")
        side.makes("commit", "-m", "m")
    differ("the new files", (sorted(name for name in side.working_files() if name.startswith("new")) for side in sides),
           ([], sorted("new by " + stage for stage in STAGES)))


def files_after_the_commit(top, env, kit):
    """What hooks after the commit change of files is in the working files of both, and the commit is made."""
    sides = both(top, env, kit, hook("changes", "echo changed >> file", AFTER), hook("fails", "exit 1", AFTER))
    for side in sides:
        side.changed("file", "more\n")
        answer = side.makes("commit", "-m", "m")
        same("the report", [line.partition(".")[0] for line in results(answer) if line.endswith("Failed")], ["changes", "fails"])
        same("the commit", side.git("show", "HEAD:file"), "more\n")
    differ("the file", (side.read("file") for side in sides), (b"more\nchanged\n",) * 2)


def stages_of_merges(top, env, kit):
    """A merge that Git commits runs the hooks of the stage pre-commit here. pre-commit has a stage of its own for it."""
    sides = both(top, env, kit, notes("commits", COMMITS), notes("merges", "stages: [merge-commit], always_run: true"),
                 notes("all", "stages: [commit, merge-commit], always_run: true"))
    for side in sides:
        side.changed("file", "more\n")
        side.makes("commit", "-m", "m")
    differ("the hooks of a commit", (side.lines() for side in sides), (["commits", "all"],) * 2)
    for side in sides:
        merging(side)
        side.makes("merge", "--no-edit", "side")
    differ("the hooks of a merge", (side.lines() for side in sides), (["commits", "all"], ["merges", "all"]))


def written_by_git(top, env, kit):
    """What the Git of hooks writes is in a repository of their own here, which is gone after the run."""
    text = "git config note.of hook; git tag made; git show --no-patch --format=%s HEAD"
    sides = both(top, env, kit, hook("writes", text, OF_MESSAGE + ", verbose: true"))
    for side in sides:
        side.changed("file", "more\n")
        answer = side.makes("commit", "-m", "m")
        check("The configuration" in answer.text, f"the hook's Git doesn't show the last commit: {answer!r}")
    differ("the tags", (side.git("tag") for side in sides), ("", "made\n"))
    differ("the setting", (side.run("git", "config", "note.of").out for side in sides), ("", "hook\n"))


def settings_of_git(top, env, kit):
    """What the Git of hooks does with a message goes by the settings of the repository (git-interpret-trailers(1), git-stripspace(1))."""
    text = 'git interpret-trailers --in-place --trailer checked=yes "$1"; echo "a comment" | git stripspace --comment-lines >> "$HOOK_LOG"'
    sides = both(top, env, kit, hook("trails", text, OF_MESSAGE))
    for side in sides:
        side.git("config", "core.commentChar", ";")
        side.git("config", "trailer.checked.key", "Checked-by")
        side.changed("file", "more\n")
        side.makes("commit", "-m", "m")
    differ("the message", (side.message() for side in sides), ("m\n\nChecked-by: yes\n",) * 2)
    differ("the comment", (side.lines() for side in sides), (["; a comment"],) * 2)


def names_of_git(top, env, kit):
    """The Git of hooks names who commits as the settings of the repository do (git-var(1)), as Git's own sample of prepare-commit-msg asks it."""
    text = r"""git var GIT_COMMITTER_IDENT | sed -n 's/^\(.*>\).*/Signed-off-by: \1/p' >> "$1" """
    sides = both(top, env, kit, hook("signs", "unset GIT_COMMITTER_NAME GIT_COMMITTER_EMAIL; " + text, PREPARED))
    for side in sides:
        side.git("config", "user.name", "Local Name")
        side.git("config", "user.email", "local@example.invalid")
        side.changed("file", "more\n")
        side.makes("commit", "-m", "m")
    differ("the message", (side.message() for side in sides), ("m\nSigned-off-by: Local Name <local@example.invalid>\n",) * 2)


def messages_by_git(top, env, kit):
    """A hook that asks Git where the message is finds it as the hooks before have left it, and what it writes there is the message."""
    text = 'message=$(git rev-parse --git-path COMMIT_EDITMSG); cat "$message" >> "$HOOK_LOG"; echo "by its path" >> "$message"'
    for stage in (PREPARED, OF_MESSAGE):
        sides = both(os.path.join(top, stage[9:-1]), env, kit, hook("adds", 'echo added >> "$1"', stage), hook("asks", text, stage))
        for side in sides:
            side.changed("file", "more\n")
            side.makes("commit", "-m", "m")
        differ("what the hook finds", (side.lines() for side in sides), (["m", "added"],) * 2)
        differ("the message", (side.message() for side in sides), ("m\nadded\nby its path\n",) * 2)


def files_of_git(top, env, kit):
    """The folder .git of hooks has the message alone here, and hooks find Git's other files by asking Git. pre-commit's is Git's own."""
    text = 'for file in .git/MERGE_HEAD "$(git rev-parse --git-path MERGE_HEAD)"; do test ! -e "$file" || echo found; done >> "$HOOK_LOG"'
    sides = both(top, env, kit, hook("merges", text, OF_MESSAGE))
    for side in sides:
        merging(side)
        side.quietly("merge", "--quiet", "--no-commit", "side")
        side.makes("commit", "-m", "m")
    differ("by how many names it is found", (len(side.lines()) for side in sides), (1, 2))


def cached_hooks(top, env, kit):
    """A command that passed isn't started again on the same files, words and message. One of prepare-commit-msg and post-commit always is."""
    sides = both(top, env, kit, notes("files", "stages: [commit], require_serial: true"), notes("prepares", PREPARED), notes("message", OF_MESSAGE),
                 notes("refuses", OF_MESSAGE, '[ -n "${PASSES-}" ]'), notes("after", AFTER))
    for side in sides:
        side.changed("file", "more\n")
        side.makes_none("commit", "-m", "m")
    differ("the hooks", (side.lines() for side in sides), (["files", "prepares", "message", "refuses"],) * 2)
    for side in sides:
        side.makes("commit", "-m", "m", env={"PASSES": "1"})
    differ("the hooks of the same commit", (side.lines() for side in sides),
           (["prepares", "refuses", "after"], ["files", "prepares", "message", "refuses", "after"]))


def variables_of_git(top, env, kit):
    """No variable leads hooks here to the real repository. pre-commit hands on those that Git sets."""
    sides = both(top, env, kit, *in_all_stages('echo "${GIT_INDEX_FILE-none} ${GIT_PREFIX-none}" >> "$HOOK_LOG"'))
    for side in sides:
        side.changed("file", "more\n")
        side.makes("commit", "-m", "m")
    differ("the variables", (side.lines()[1::2] for side in sides), (["none none"] * 4, [".git/index "] * 4))


def unstaged_configurations(top, env, kit):
    """pre-commit refuses each stage while its configuration has changes that aren't staged, so also a commit by `--no-verify`, for its
    prepare-commit-msg. Here hooks are those of the staged configuration."""
    sides = both(top, env, kit, notes("prepares", PREPARED))
    for side in sides:
        side.changed("file", "more\n")
        side.write(".pre-commit-config.yaml", side.read(".pre-commit-config.yaml") + b"# not staged\n")
        answer = side.run("git", "commit", "--no-verify", "-m", "m")
        same("status", answer.status, 0 if side is sides[0] else 1)
    differ("the hooks", (side.lines() for side in sides), (["prepares"], []))


def removed_messages(top, env, kit):
    """A message that a hook removes is an empty one here, and no file for later hooks of the stage. pre-commit hands them the name, and Git
    refuses a commit without a file, also where it may have an empty message."""
    for stage in (PREPARED, OF_MESSAGE):
        sides = both(os.path.join(top, stage[9:-1]), env, kit, notes("removes", stage, 'rm "$1"'), notes("next", stage))
        for side in sides:
            side.changed("file", "more\n")
            side.makes_none("commit", "-m", "m")
        differ("the hooks", (side.lines() for side in sides), (["removes"], ["removes", "next"]))
        differ("the status", (side.run("git", "commit", "--allow-empty-message", "-m", "m").status for side in sides), (0, 128))
        differ("the message", (side.message() for side in sides), ("", "The configuration\n"))


def killed_hooks(top, env, kit):
    """A hook that a signal ends has failed here. pre-commit 3.0.4 calls it passed."""
    sides = both(top, env, kit, hook("dies", 'echo more >> "$1"; kill -9 $$', OF_MESSAGE))
    for side in sides:
        side.changed("file", "more\n")
    differ("the status", (side.run("git", "commit", "-m", "m").status for side in sides), (1, 0))
    differ("the message", (side.message() for side in sides), ("The configuration\n", "m\nmore\n"))


def commands_at_once(top, env, kit):
    """Commands run beside one another here, and once more if a hook before them has changed files, so the second one is started twice."""
    sides = both(top, env, kit, notes("first", "stages: [commit]", 'sleep 0.5; echo changed >> "$1"'),
                 notes("second", "stages: [commit]"))
    for side in sides:
        side.git("config", "hookhost.jobs", "2")
        side.changed("file", "more\n")
        side.makes_none("commit", "-m", "m")
    differ("the hooks", (sorted(side.lines()) for side in sides), (["first", "second", "second"], ["first", "second"]))


def lists_of_changes(top, env, kit):
    """If a hook writes a file anew with the same bytes, Git lists it once more in the message of a commit of named files: as one with changes
    that aren't staged. Here hooks get copies, and it stays as it is."""
    sides = both(top, env, kit, hook("rewrites", 'sed -i s/a/a/ -- "$@"', "stages: [commit], require_serial: true"))
    editor = 'edits() { grep modified: "$1" >> "$HOOK_LOG"; echo m > "$1"; }; edits'
    for side in sides:
        side.changed("file", "more\n")
        side.makes("commit", "--", "file", env={"GIT_EDITOR": editor})
    differ("the list", (side.lines() for side in sides), (["#\tmodified:   file"], ["#\tmodified:   file"] * 2))


def first_commits(top, env, kit):
    """A commit before which there is none has its hooks too, and so has another of no branch."""
    text = 'git rev-parse --verify --quiet HEAD > /dev/null || echo "no commit" >> "$HOOK_LOG"; git diff --cached --name-only >> "$HOOK_LOG"'
    sides = Own(top, env, kit, "ours"), Own(top, env, Kit(kit.hooks, True), "theirs")
    for side in sides:
        side.hooks_from(kit.hooks.folders["pre-commit" if side.kit.is_peer else "hookhost-git"], TYPES)
        side.configure(*in_all_stages(text))
        side.makes("commit", "-m", "m")
    wanted = [line for stage in STAGES[:3] for line in (stage, "no commit", ".pre-commit-config.yaml")]
    differ("what hooks find", (side.lines() for side in sides), (wanted + ["post-commit"],) * 2)
    for side in sides:
        side.git("checkout", "--quiet", "--detach")
        side.changed("file", "more\n")
        side.makes("commit", "-m", "m")
    wanted = [line for stage in STAGES[:3] for line in (stage, "file")]
    differ("what hooks find of no branch", (side.lines() for side in sides), (wanted + ["post-commit"],) * 2)


def stages_apart(top, env, kit):
    """What a command answered while a message was made isn't its answer to the message that was made: only then is there no source."""
    text = '[ -n "${PRE_COMMIT_COMMIT_MSG_SOURCE-}" ] || ! grep REFUSED "$1"'
    sides = both(top, env, kit, notes("both", "stages: [prepare-commit-msg, commit-msg]", text))
    for side in sides:
        side.changed("file", "more\n")
        side.makes_none("commit", "-m", "REFUSED")
    differ("the hooks", (side.lines() for side in sides), (["both", "both"],) * 2)


CASES = (names_of_messages, refused_messages, refused_merges, files_of_message_hooks, new_files, files_after_the_commit, stages_of_merges,
         stages_apart, written_by_git, settings_of_git, names_of_git, messages_by_git, files_of_git, cached_hooks, variables_of_git,
         unstaged_configurations, removed_messages, killed_hooks, commands_at_once, lists_of_changes, first_commits)
