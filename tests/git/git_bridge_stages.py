"""The stages of a commit other than pre-commit, by hookhost-git: which hooks of Git are installed, and what hooks of messages and those after
a commit do; for tests/git/git_bridge.py."""
import fcntl
import os
import shutil
import threading

from git_bridge_repository import (BLANKS, BRIDGE, CONFIGURATION, PROGRAM, WORDS, Repository, check, configuration, content, made, not_made, quoted,
                                   refused, repository, same, shell)

TYPES = ["pre-commit", "pre-merge-commit", "prepare-commit-msg", "commit-msg", "post-commit"]
LATER = TYPES[2:]
MESSAGE = ".git/COMMIT_EDITMSG"


def hook(name, stages, text, keys=""):
    """A hook of a line of shell. Those of messages get the message's file as $1."""
    return f"id: {name}, name: The hook {name}, language: system, {shell(text)}, stages: [{stages}]{keys}"


# A hook that adds a line to the message, one that refuses a word in it, and one that is run after a commit.
ADDS = hook("adds", "prepare-commit-msg", 'printf "\\nAdded-by: a hook\\n" >> "$1"')
REFUSES = hook("refuses", "commit-msg", '! grep -n BAD "$1"')
ALWAYS = ", always_run: true, pass_filenames: false"


def after(text, name="after"):
    return hook(name, "post-commit", text, ALWAYS)


def hooks_of_git(git):
    """The hooks of hookhost-git in the repository, in the order of a commit."""
    folder = os.path.join(git.folder, ".git/hooks")
    found = [name for name in TYPES if os.path.exists(os.path.join(folder, name))]
    for name in found:
        path, mark = os.path.join(folder, name), f"# The hook {name} of hookhost-git: 'hookhost-git uninstall' takes it away."
        check(os.access(path, os.X_OK) and content(path).decode().splitlines()[1] == mark, f"{name} isn't ours")
    return found


def lines_of(git, what, types):
    """The lines that say this of these hooks."""
    return "".join(f"{what}: {git.folder}/.git/hooks/{each}\n" for each in types)


def message_of(git, commit="HEAD"):
    return git.git("log", "-1", "--format=%B", commit).rstrip("\n")


# ---- which hooks of Git are installed


def staged_in(*stages):
    """A configuration with a hook for each of these texts of stages, or without for none."""
    keys = (f", stages: {text}" if text else "" for text in stages)
    return configuration(*(f"id: h{at}, name: h{at}, language: system, entry: 'true'{each}" for at, each in enumerate(keys)))


BLOCK = """repos:
- repo: local
  hooks:
  - id: one
    name: One
    language: system
    entry: 'true'
    stages:  # of a message
      # and no other
      - "commit-msg"

      - merge-commit
  - id: two
    name: Two
    language: system
    entry: 'true'
    stages: [
      post-commit,  # and then
      push
    ]
"""


def install_follows_the_stages_of_hooks(top, env):
    rows = [
        (staged_in(""), [], "runs: pre-commit (1 hook)\n"),
        (staged_in("[pre-commit]", "[manual]"), [], "runs: pre-commit (1 hook)\nnot run: manual (h1)\n"),
        (staged_in("", "[commit-msg]"), ["commit-msg"], "runs: pre-commit (1 hook), commit-msg (2 hooks)\n"),
        ("default_stages: [prepare-commit-msg, commit]\n" + staged_in("", "[post-commit]"), ["prepare-commit-msg", "post-commit"],
         "runs: pre-commit (1 hook), prepare-commit-msg (1 hook), post-commit (1 hook)\n"),
        (staged_in("[merge-commit, commit, push]"), ["pre-merge-commit"],
         "runs: pre-commit (1 hook), pre-merge-commit (1 hook)\nnot served: pre-push\n"),
        (BLOCK, ["pre-merge-commit", "commit-msg", "post-commit"], "runs: commit-msg (1 hook), post-commit (1 hook)\nnot served: pre-push\n"),
        # Of a configuration that hookhost doesn't take as it is.
        (BLOCK.replace("'true'", "!!str true"), ["pre-merge-commit", "commit-msg", "post-commit"],
         "runs: pre-commit, pre-merge-commit, commit-msg, post-commit (hooks are made ready by pre-commit, the first time that they run)\n"
         "not served: pre-push\n"),
    ]
    for number, (text, types, told) in enumerate(rows):
        git = Repository.made(os.path.join(top, str(number)), env)
        git.write(CONFIGURATION, text)
        wanted = [each for each in TYPES if each in ["pre-commit", *types]]
        for _ in range(2):
            answer = git.bridge("install")
            same(f"install with {text}", (answer.status, answer.out, answer.err), (0, lines_of(git, "installed", wanted) + told, ""))
            same(f"the hooks with {text}", hooks_of_git(git), wanted)


def install_follows_the_default_types(top, env):
    hooks = staged_in("[post-commit]")
    taken = [
        ("[pre-commit, commit-msg]", ["pre-commit", "commit-msg"]),
        ("[ commit-msg,prepare-commit-msg,commit-msg ]  # both", ["prepare-commit-msg", "commit-msg"]),
        ("# one a line\n  - pre-merge-commit   # a merge\n\n  # and\n  - post-commit", ["pre-merge-commit", "post-commit"]),
        ("\n- post-commit\n- pre-push", ["post-commit"]),
        ("[pre-push, post-checkout, pre-rebase]", []),
        ("[]", []),
    ]
    for number, (text, types) in enumerate(taken):
        git = Repository.made(os.path.join(top, str(number)), env)
        for at, whole in enumerate((f"default_install_hook_types: {text}\n{hooks}", f"{hooks}default_install_hook_types: {text}\n")):
            git.write(CONFIGURATION, whole)
            answer = git.bridge("install")
            same(f"install with {whole}", (answer.status, hooks_of_git(git), answer.err), (0, types, ""))
            same("the lines", [line for line in answer.out.splitlines() if line.startswith("installed: ")],
                 [f"installed: {git.folder}/.git/hooks/{each}" for each in types]
                 or ["installed: nothing, since default_install_hook_types names no hook that is served"])
            others = [each for each in ("pre-push", "post-checkout", "pre-rebase") if each in text]
            same("what isn't served", [line for line in answer.out.splitlines() if line.startswith("not served")],
                 ["not served: " + ", ".join(others)] if others else [])
    unread = [
        "['pre-commit']", '\n- "pre-commit"', "[pre-commit,\n  commit-msg]", "pre-commit", "", "~", "[pre-commit, ]", "[[pre-commit]]",
        "&types [pre-commit]", "\n- pre-commit\n- &other commit-msg", "\n- pre-commit\n  commit-msg", "[pre-commit] [commit-msg]",
        "[pre-commit]\ndefault_install_hook_types: [commit-msg]", "\n- pre-commit\n-\n  commit-msg",
    ]
    whole = [f"default_install_hook_types: {text}\n{hooks}" for text in unread]
    whole += [f"'default_install_hook_types': [pre-commit]\n{hooks}", "{default_install_hook_types: [pre-commit], repos: []}\n",
              f" default_install_hook_types : [pre-commit]\n{hooks}"]
    git = Repository.made(os.path.join(top, "unread"), env)
    for text in whole:
        git.write(CONFIGURATION, text)
        refused(git.bridge("install"), "default_install_hook_types isn't a list of plain words", "name the hooks by --hook-type")
        same(f"the hooks with {text}", hooks_of_git(git), [])
    git.write(CONFIGURATION, f"default_install_hook_types: [pre-commit, commit]\n{hooks}")
    refused(git.bridge("install"), "default_install_hook_types names what is no hook of Git: commit")
    same("the words have it", (git.bridge("install", "-t", "post-commit").status, hooks_of_git(git)), (0, ["post-commit"]))


def install_takes_types(top, env):
    rows = [
        (["-t", "commit-msg"], ["commit-msg"], "runs: commit-msg (1 hook)\nnot run: pre-commit (h0), post-commit (h2)\n"),
        (["--hook-type", "post-commit", "--hook-type=commit-msg", "-t", "post-commit"], ["commit-msg", "post-commit"],
         "runs: commit-msg (1 hook), post-commit (1 hook)\nnot run: pre-commit (h0)\n"),
        (["-t", "prepare-commit-msg"], ["prepare-commit-msg"],
         "runs: nothing, since no hook has the stage prepare-commit-msg\nnot run: pre-commit (h0), commit-msg (h1), post-commit (h2)\n"),
        (["-t", "pre-merge-commit"], ["pre-merge-commit"], "runs: pre-merge-commit (1 hook)\nnot run: commit-msg (h1), post-commit (h2)\n"),
        ([f"--hook-type={each}" for each in TYPES], TYPES,
         "runs: pre-commit (1 hook), pre-merge-commit (1 hook), commit-msg (1 hook), post-commit (1 hook)\n"),
    ]
    for number, (words, types, told) in enumerate(rows):
        git = Repository.made(os.path.join(top, str(number)), env)
        git.write(CONFIGURATION, staged_in("[pre-commit]", "[commit-msg]", "[post-commit]"))
        answer = git.bridge("install", *words)
        same(f"install {words}", (answer.status, answer.out, hooks_of_git(git)), (0, lines_of(git, "installed", types) + told, types))
    refused(git.bridge("install", "-t", "pre-push"), "--hook-type takes " + ", ".join(TYPES) + ", and not: pre-push", status=2)


def all_or_no_hook_is_installed(top, env):
    """Another's hook in the way of one keeps all from being installed. Those that aren't asked for don't matter."""
    git = Repository.made(os.path.join(top, "git"), env)
    git.write(CONFIGURATION, staged_in("[pre-commit]", "[commit-msg]", "[post-commit]"))
    others = {each: f"{git.folder}/.git/hooks/{each}" for each in ("commit-msg", "post-commit")}
    for name, path in others.items():
        git.write(path, f"#!/bin/sh\n# Ours: {name}.\n", 0o755)
    answer = git.bridge("install")
    same("all are told", answer.lines(),
         [f"not installed, since {path} is there: it is another's, and begins with: # Ours: {name}." for name, path in others.items()])
    same("none is installed", (answer.status, answer.out, os.path.exists(f"{git.folder}/.git/hooks/pre-commit")), (3, "", False))
    same("another", git.bridge("install", "-t", "pre-commit", "-t", "pre-merge-commit").status, 0)
    answer = git.bridge("uninstall")
    same("uninstall", (answer.status, answer.out, answer.err), (0, lines_of(git, "uninstalled", TYPES[:2]), ""))
    for name, path in others.items():
        same("the other's", content(path).decode(), f"#!/bin/sh\n# Ours: {name}.\n")
    same("a second time", git.bridge("uninstall").out, f"not installed: there is no {git.folder}/.git/hooks/pre-commit\n")


def uninstall_takes_all(top, env):
    git = Repository.made(os.path.join(top, "git"), env)
    git.write(CONFIGURATION, staged_in(""))
    same("install", git.bridge("install", *(f"--hook-type={each}" for each in TYPES)).status, 0)
    # The configuration of a later day doesn't matter.
    git.write(CONFIGURATION, "repos: 1\n")
    answer = git.bridge("uninstall")
    same("uninstall", (answer.status, answer.out), (0, lines_of(git, "uninstalled", TYPES)))
    same("the hooks", hooks_of_git(git), [])


def a_hook_without_its_script(top, env):
    """One after the commit can't refuse it."""
    git = Repository.made(os.path.join(top, "git"), env)
    moved = shutil.copy(BRIDGE, top)
    rows = (("post-commit", "the hook post-commit of this commit isn't run"), ("commit-msg", "this commit is refused, since its hook can't run"))
    for each, told in rows:
        shutil.copy(BRIDGE, top)
        same("install", git.run(moved, "install", "-t", each).status, 0)
        os.remove(moved)
        answer = git.commit("--allow-empty", "-m", "m")
        same(f"a commit without {each}", (answer.is_made, f"hookhost-git: {told}: {moved} is missing." in answer.err), (each == "post-commit", True))


# ---- messages


def a_message_passes_is_refused_or_changed(top, env):
    git = repository(top, env, ADDS, REFUSES, WORDS + ", stages: [pre-commit]")
    git.add("a.txt", "a\n")
    answer = git.commit("-m", "BAD")
    not_made(answer, "The hook refuses", "- exit code: 1", "1:BAD")
    answer = git.commit("-m", "Good")
    made(answer)
    same("the verdicts", [line.rpartition(".")[2] for line in answer.err.splitlines()], ["Passed"] * 3)
    same("the message", message_of(git), "Good\n\nAdded-by: a hook")
    same("the file", git.read(MESSAGE), b"Good\n\nAdded-by: a hook\n")
    # A hook that fails leaves the message, whatever it did to it.
    git.configure(hook("both", "commit-msg", 'echo more >> "$1"; ! grep -q BAD "$1"'))
    not_made(git.commit("-m", "BAD"))
    same("the file after a failure", git.read(MESSAGE), b"BAD\n")
    made(git.commit("-m", "Good"))
    same("the message", message_of(git), "Good\nmore")


def a_message_hook_changes_other_files(top, env):
    """What it does to files of the tree is dropped, and it fails as with pre-commit."""
    git = repository(top, env, hook("other", "commit-msg", 'echo more >> a.txt; echo more >> "$1"'), BLANKS + ", stages: [pre-commit]")
    git.add("a.txt", "a\n")
    not_made(git.commit("-m", "m"), "The hook other", "- files were modified by this hook")
    same("the files", (git.read("a.txt"), git.git("status", "--short")), (b"a\n", "A  a.txt\n"))
    same("the message", git.read(MESSAGE), b"m\n")


def hooks_get_the_message_as_git_has_it(top, env):
    """Comment lines, and with commit.verbose the difference below the scissors line, are what Git's own hook gets."""
    log = os.path.join(top, "log")
    git = repository(top, env, hook("copies", "prepare-commit-msg, commit-msg", f'cat "$1" >> {quoted(log)}; echo ---- >> {quoted(log)}'))
    other = Repository.made(os.path.join(top, "other"), env)
    for name in LATER[:2]:
        other.write(f".git/hooks/{name}", f'#!/bin/sh\ncat "$1" >> {quoted(log)}; echo ---- >> {quoted(log)}\n', 0o755)
    other.configure(hook("copies", "prepare-commit-msg, commit-msg", f'cat "$1" >> {quoted(log)}; echo ---- >> {quoted(log)}'))
    other.git("commit", "--quiet", "--no-verify", "-m", "The configuration")
    os.remove(log)
    git.write("../template", "A template\n# with a comment\n")
    rows = [
        (["-m", "one"], {}), (["-F", "../template"], {}), (["-t", "../template", "--cleanup=verbatim"], {}), (["-v"], {}),
        ([], {"commit.verbose": "true", "core.commentChar": ";"}), (["--cleanup=scissors", "--amend"], {"commit.verbose": "true"}),
        (["-m", "kept  \n\n\n# all of it", "--cleanup=whitespace"], {}),
    ]
    for number, (words, settings) in enumerate(rows):
        found = []
        for side in (git, other):
            side.add("a.txt", f"{number}\n")
            options = [word for key, value in settings.items() for word in ("-c", f"{key}={value}")]
            answer = side.run("git", *options, "commit", "--quiet", *words, env={"GIT_EDITOR": "sed -i '1s/^/edited /'"})
            same(f"{words}", answer.status, 0)
            found.append((content(log), message_of(side)))
            os.remove(log)
        same(f"what hooks get by {words} with {settings}", *found)


def hooks_know_where_the_message_comes_from(top, env):
    """By the variables of pre-commit, with what Git hands to its hook (githooks(5), "prepare-commit-msg")."""
    log = os.path.join(top, "log")
    variables = '"${PRE_COMMIT-none} ${PRE_COMMIT_COMMIT_MSG_SOURCE-none} ${PRE_COMMIT_COMMIT_OBJECT_NAME-none} $1"'
    git = repository(top, env, hook("from", ", ".join(LATER[:2]), f"echo {variables} >> {quoted(log)}"))
    git.write("../template", "A template\n")
    git.write("../template.2", "Another\n")
    head = git.head()
    rows = [
        (["-m", "m"], "message none"), (["-F", "../template"], "message none"), (["-t", "../template"], "template none"), ([], "none none"),
        (["--amend"], "commit HEAD"), (["--amend", "-m", "m"], "message none"), (["-C", head], f"commit {head}"), (["-c", "HEAD"], "commit HEAD"),
    ]
    for number, (words, wanted) in enumerate(rows):
        git.add("a.txt", f"{number}\n")
        made(git.commit(*(words or ["--quiet"]), env={"GIT_EDITOR": f"sed -i '1s/^/{number}/'"}))
        same(f"the variables by {words}", content(log).decode(), f"1 {wanted} {MESSAGE}\n1 none none {MESSAGE}\n")
        os.remove(log)
    git.git("checkout", "--quiet", "-b", "side", "HEAD~1")
    git.add("b.txt", "b\n")
    git.git("commit", "--quiet", "--no-verify", "-m", "side")
    git.git("checkout", "--quiet", "main")
    os.remove(log)
    git.git("merge", "--quiet", "--squash", "side")
    made(git.commit("--no-edit"))
    same("a squash", content(log).decode(), f"1 squash none {MESSAGE}\n1 none none {MESSAGE}\n")
    git.git("reset", "--quiet", "--hard", "HEAD~1")
    os.remove(log)
    git.git("merge", "--quiet", "--no-edit", "side")
    same("a merge", content(log).decode(), f"1 merge none {MESSAGE}\n1 none none {MESSAGE}\n")


def a_merge_is_checked(top, env):
    """By the hooks of pre-commit on what it changes, and by those of its message."""
    git = repository(top, env, WORDS + ", stages: [pre-commit]", ADDS, REFUSES)
    same("install", git.bridge("install", "-t", "pre-merge-commit").status, 0)
    git.git("checkout", "--quiet", "-b", "side")
    git.add("b.txt", "b\n")
    git.git("commit", "--quiet", "--no-verify", "-m", "side")
    git.git("checkout", "--quiet", "main")
    git.add("a.txt", "a\n")
    git.git("commit", "--quiet", "--no-verify", "-m", "ours")
    head = git.head()
    for word in ("BAD", "Merged"):
        answer = git.run("git", "merge", "--quiet", "-m", word, "side")
        same(f"the merge {word}", (answer.status == 0, git.head() != head), (word == "Merged",) * 2)
        check("No bad words" in answer.err and "The hook refuses" in answer.err, f"{answer!r}")
        if word == "BAD":
            git.git("merge", "--abort")
    same("the message", message_of(git), "Merged\nAdded-by: a hook")
    git.git("reset", "--quiet", "--hard", head)
    git.git("checkout", "--quiet", "side")
    git.add("b.txt", "BAD\n")
    git.git("commit", "--quiet", "--no-verify", "-m", "side")
    git.git("checkout", "--quiet", "main")
    answer = git.run("git", "merge", "--quiet", "-m", "m", "side")
    same("a bad file", (answer.status == 0, git.head()), (False, head))
    check("b.txt:1:BAD" in answer.err, f"{answer!r}")


def no_verify_leaves_out_two_stages(top, env):
    log = os.path.join(top, "log")
    hooks = [hook(each, each, f"echo {each} >> {quoted(log)}", ALWAYS) for each in ("pre-commit", *LATER)]
    git = repository(top, env, *hooks)
    for words, wanted in ([], ["pre-commit", *LATER]), (["--no-verify"], ["prepare-commit-msg", "post-commit"]):
        open(log, "w").close()
        made(git.commit(*words, "--allow-empty", "-m", "m"))
        same(f"what ran with {words}", content(log).decode().split(), wanted)
    # A file that no hook can be handed hinders no hook of a message.
    open(log, "w").close()
    git.add("large", bytes(16 * 1024 * 1024 + 1))
    not_made(git.commit("-m", "m"), "these files can't be checked")
    made(git.commit("--no-verify", "-m", "m"))
    same("what ran", content(log).decode().split(), ["prepare-commit-msg", "post-commit"])


# ---- what hooks find


def later_hooks_find_git(top, env):
    """The branch, the commit, and what is staged, as Git's own hooks find them."""
    log = os.path.join(top, "log")
    asks = f'{{ git branch --show-current; git log -1 --format=%s; git diff --cached --name-only; git rev-parse --show-prefix; }} >> {quoted(log)}'
    hooks = [hook("branch", "prepare-commit-msg", 'sed -i "1s/^/$(git symbolic-ref --short HEAD): /" "$1"', ", require_serial: true")]
    hooks += [hook(f"asks-{each}", each, asks, ALWAYS) for each in LATER]
    git = repository(top, env, *hooks)
    git.git("checkout", "--quiet", "-b", "ticket-1")
    same("a commit", git.run("git", "commit", "--quiet", "--allow-empty", "-m", "start").status, 0)
    os.remove(log)
    git.add("a.txt", "a\n")
    made(git.commit("-m", "work"))
    same("the message", message_of(git), "ticket-1: work")
    before, now = "ticket-1\nticket-1: start\na.txt\n\n", "ticket-1\nticket-1: work\n\n"
    same("what hooks find", content(log).decode(), before + before + now)
    # Nothing that they do there is seen, but for the message: Git writes that of another commit over it.
    git.configure(hook("writes", ", ".join(LATER), "git config x.y z; git tag nope; git commit --quiet --allow-empty -m m", ALWAYS))
    made(git.commit("-m", "first"))
    same("nothing is written", (message_of(git), git.git("tag"), git.run("git", "config", "x.y").status), ("m", "", 1))


def what_is_cached_stays(top, env):
    """Hooks of messages and those after a commit call Git at each commit: results of other hooks stay. Theirs aren't used again."""
    log = os.path.join(top, "log")
    slow = "id: slow, name: Slow, language: system, " + shell(f"echo slow >> {quoted(log)}") + ", files: 'txt$', x_reads: '^/', stages: [pre-commit]"
    for number, words in enumerate(("true", "git rev-parse HEAD", "git config hookhost.x y; /usr/bin/git rev-parse HEAD")):
        git = repository(top, env, slow, *(hook(each, each, f"echo {each} >> {quoted(log)}; {words}", ALWAYS) for each in LATER), name=str(number))
        git.add("a.txt", "a\n")
        made(git.commit("-m", "one"))
        open(log, "w").close()
        for message in ("two", "three"):
            made(git.commit("--amend", "-m", message))
        found = content(log).decode().split()
        same(f"what is started with {words}", [found.count(each) for each in ("slow", "prepare-commit-msg", "post-commit")], [0, 2, 2])
        check(words == "true" or found.count("commit-msg") == 2, f"a result that depends on Git comes from the cache: {found}")


def a_hook_after_the_commit_fixes_files(top, env):
    git = repository(top, env, after("sed -i 's/ *$//' a.txt; rm -f b.txt; touch made.txt"))
    for path in ("a.txt", "b.txt", "c.txt"):
        git.add(path, "x  \n")
    answer = git.commit("-m", "m")
    made(answer)
    check("The hook after" in answer.err and "- files were modified by this hook" in answer.err, f"{answer!r}")
    same("what is said", answer.lines(), ["fixed: a.txt", "removed: b.txt"])
    same("the files", (git.read("a.txt"), git.git("status", "--short")), (b"x\n", " M a.txt\n D b.txt\n"))
    same("the commit", git.git("show", "HEAD:a.txt"), "x  \n")
    git.configure(hook("no", "post-commit", "true"), after("echo after; exit 2"))
    answer = git.commit("-m", "m")
    made(answer)
    check("(no files to check)Skipped" in answer.err and "- exit code: 2" in answer.err, f"{answer!r}")


def ways_to_commit(top, env):
    """Each way in which Git makes a commit: which hooks run, on which tree."""
    log = os.path.join(top, "log")
    text, keys = f"$(git ls-files -s a.txt b.txt | cut -c 8-10) >> {quoted(log)}", ALWAYS + ", x_reads: '^\\.git-state$'"
    hooks = [hook(each, each, f"echo {each} {text}", keys) for each in LATER]
    git = repository(top, env, *hooks)

    def ran(what, wanted, *words, **how):
        open(log, "w").close()
        same(what, git.run("git", *words, **how).status, 0)
        ids = [line.split()[2][:3] for line in git.git("ls-tree", "HEAD", "a.txt", "b.txt").splitlines()]
        found = [line.split() for line in content(log).decode().splitlines()]
        same(f"{what}: the hooks", [line[0] for line in found], wanted)
        check(all(line[1:] == ids for line in found if line[0] != "post-commit"), f"{what}: {found}, wanted {ids}")

    git.add("a.txt", "1\n")
    git.add("b.txt", "1\n")
    ran("a plain one", LATER, "commit", "-m", "m")
    git.write("a.txt", "2\n")
    git.add("b.txt", "2\n")
    ran("of a path", LATER, "commit", "-m", "m", "a.txt")
    git.write("a.txt", "3\n")
    ran("of all", LATER, "commit", "-a", "-m", "m")
    ran("an empty one", LATER, "commit", "--allow-empty", "-m", "m")
    git.write("a.txt", "stashed\n")
    ran("a stash", [], "stash", "--quiet")
    git.git("stash", "drop", "--quiet")
    # Git makes these without the hook commit-msg.
    ran("a revert", ["prepare-commit-msg", "post-commit"], "revert", "--edit", "HEAD~1", env={"GIT_EDITOR": "true"})
    ran("a revert without an editor", ["prepare-commit-msg", "post-commit"], "revert", "--no-edit", "HEAD")
    git.git("checkout", "--quiet", "-b", "side", "HEAD~4")
    git.add("c.txt", "c\n")
    git.git("commit", "--quiet", "-m", "c")
    ran("a cherry-pick", ["prepare-commit-msg", "post-commit"], "cherry-pick", "main")
    ran("a rebase", ["prepare-commit-msg", "post-commit"], "rebase", "--quiet", "main")
    other = os.path.join(top, "worktree")
    git.git("worktree", "add", "--quiet", "-b", "third", other, "main")
    git.write(f"{other}/a.txt", "third\n")
    open(log, "w").close()
    same("in a linked working tree", git.run("git", "commit", "--quiet", "-a", "-m", "m", cwd=other).status, 0)
    same("its hooks", [line.split()[0] for line in content(log).decode().splitlines()], LATER)
    git.write("sub/x", "x\n")
    git.git("add", "sub")
    ran("from a folder", LATER, "commit", "-m", "m", cwd="sub")


# ---- stages without hooks, and refusals


def counting(top, log):
    """A program that writes its words into a file, and then is the real one."""
    path = os.path.join(top, "counting")
    with open(path, "w", encoding="utf-8") as file:
        file.write(f'#!/bin/sh\necho "$*" >> {quoted(log)}\nexec {quoted(PROGRAM)} "$@"\n')
    os.chmod(path, 0o755)
    return path


def a_stage_without_hooks_costs_nothing(top, env):
    log = os.path.join(top, "log")
    git = repository(top, env | {"HOOKHOST": counting(top, log)}, WORDS + ", stages: [pre-commit]")
    same("install", git.bridge("install", *(f"--hook-type={each}" for each in TYPES)).status, 0)
    git.forget()

    def calls_of(each):
        open(log, "w").close()
        message = os.path.join(top, "message")
        git.write(message, "m\n")
        words = [message] if each.endswith("-msg") else []
        answer = git.bridge("hook", each, *words)
        same(f"hook {each}", (answer.status, answer.text), (0, ""))
        return content(log).decode().splitlines()

    # The first one asks for the stages of the configuration, and no more.
    same("the first", [line.split()[0] for line in calls_of("commit-msg") if line.split()[0] not in ("hook", "check")], ["explain"])
    check(not os.path.exists(os.path.join(git.home(), "files/.hookhost")), "a store was made")
    for each in LATER:
        same(f"the next, {each}", calls_of(each), [])
    # Another configuration in the index is asked again; one that isn't staged doesn't matter.
    git.write(CONFIGURATION, configuration(REFUSES))
    same("not staged", calls_of("commit-msg"), [])
    git.git("add", CONFIGURATION)
    refused(git.bridge("hook", "commit-msg", os.path.join(top, "none")), status=3)
    git.write("../message", "BAD\n")
    answer = git.bridge("hook", "commit-msg", "../message")
    same("and then runs", (answer.status, "1:BAD" in answer.out), (1, True))
    same("but not the others", calls_of("post-commit"), [])


def without_a_configuration(top, env):
    git = Repository.made(os.path.join(top, "git"), env)
    git.write("message", "m\n")
    for each in LATER:
        words = ["message"] if each.endswith("-msg") else []
        answer = git.bridge("hook", each, *words)
        refused(answer, f"no {CONFIGURATION} is in the index", status=1)
        answer = git.bridge("hook", each, *words, env={"PRE_COMMIT_ALLOW_NO_CONFIG": "1"})
        same(f"{each} without", (answer.status, answer.lines()), (0, [f"no {CONFIGURATION} is in the index, so no hook is run"]))
    git.add(CONFIGURATION, "repos:\n- repo: local\n  hooks:\n  - {id: a, name: A, language: pyhton, entry: a}\n")
    refused(git.bridge("hook", "commit-msg", "message"), "`language` is the text `pyhton`", "hookhost refused, so nothing was checked")
    same("the message", git.read("message"), b"m\n")


def the_file_of_the_message(top, env):
    """It is found from the folder of the call, keeps its permissions, and nothing else is left next to it."""
    git = repository(top, env, hook("adds", "commit-msg", 'echo more >> "$1"'))
    git.write("sub/message", "m\n", 0o640)
    whole = os.path.join(git.folder, "sub/message")
    for number, (path, folder) in enumerate((("message", "sub"), ("../sub/message", "sub"), ("sub/message", ""), (whole, "sub"))):
        same(path, git.bridge("hook", "commit-msg", path, cwd=folder).status, 0)
        same("the message", git.read("sub/message"), b"m\n" + b"more\n" * (number + 1))
    same("the file", (os.stat(whole).st_mode & 0o777, os.listdir(os.path.dirname(whole))), (0o640, ["message"]))
    for path in ("none", "sub"):
        refused(git.bridge("hook", "commit-msg", path), f"cannot use {git.folder}/{path}")
    git.configure(REFUSES)
    git.write("sub/message", "BAD\n")
    old = os.stat(whole)
    same("a failure", git.bridge("hook", "commit-msg", "sub/message").status, 1)
    new = os.stat(whole)
    same("the file stays", (new.st_ino, new.st_mtime_ns), (old.st_ino, old.st_mtime_ns))


def a_later_stage_waits_for_another_run(top, env):
    git = repository(top, env, REFUSES)
    git.write("message", "m\n")
    same("a run", git.bridge("hook", "commit-msg", "message").status, 0)
    with open(os.path.join(git.home(), "lock"), "w", encoding="utf-8") as lock:
        fcntl.flock(lock, fcntl.LOCK_EX)
        threading.Timer(1, lambda: fcntl.flock(lock, fcntl.LOCK_UN)).start()
        same("after it", git.bridge("hook", "commit-msg", "message").status, 0)


def an_older_program_runs_no_later_stages(top, env):
    git = repository(top, env, REFUSES)
    program = os.path.join(top, "program")
    git.write(program, f'#!/bin/sh\n[ "$1" != hook ] || {{ echo "no such command"; exit 2; }}\nexec {quoted(PROGRAM)} "$@"\n', 0o755)
    git.write("message", "m\n")
    for words in (["hook", "commit-msg", "message"], ["install"], ["install", "-t", "post-commit"]):
        refused(git.bridge(*words, env={"HOOKHOST": program}), f"hookhost is older than hookhost-git, which needs one that knows 'hook': {program}")
    for words in (["install", "-t", "pre-commit"], ["install", "-t", "pre-merge-commit"]):
        same(f"{words}", git.bridge(*words, env={"HOOKHOST": program}).status, 0)


MANIFEST = r"""
- {id: says, name: Says, language: script, entry: bin/says.sh, stages: [prepare-commit-msg]}
- {id: word, name: Word, language: system, entry: 'sh -c ''! grep -n BAD "$1"'' --', stages: [commit-msg]}
- {id: look, name: Look, language: pygrep, entry: 'WIP(?!ED)', stages: [commit-msg]}
- {id: ends, name: Ends, language: system, entry: 'sh -c ''git log -1 --format=%s; echo "$PRE_COMMIT" >> a.txt'' --', stages: [post-commit],
   always_run: true, verbose: true}
"""
SAYS = '#!/bin/sh\nprintf "\\nFrom: %s %s\\n" "$PRE_COMMIT_COMMIT_MSG_SOURCE" "$1" >> "$1"\n'


def hooks_of_other_repositories_have_stages(top, env):
    """Each runs as those of pre-commit do: all here, and then with some that are left to pre-commit, at their place."""
    hooks = Repository.made(os.path.join(top, "hooks"), env)
    hooks.add(".pre-commit-hooks.yaml", MANIFEST)
    hooks.add("bin/says.sh", SAYS, 0o755)
    hooks.git("commit", "--quiet", "-m", "m")
    text = f"repos:\n- repo: {hooks.folder}\n  rev: {hooks.head()}\n  hooks: [{{id: says}}, {{id: word}}, {{id: look}}, {{id: ends}}]\n"
    # A pattern that hookhost doesn't take leaves these to pre-commit.
    left = ", files: '^(?!x)'"
    local = configuration(hook("signs", "prepare-commit-msg", 'echo "Signed by one" >> "$1"', left), hook("also", "commit-msg", 'echo also >> "$1"'),
                          hook("short", "commit-msg", 'test $(wc -c < "$1") -lt 90', left), hook("last", "commit-msg", "true"),
                          after("echo x >> b.txt", "grows"),
                          f"id: later, name: Later, language: system, entry: 'true', stages: [post-commit], always_run: true{left}")
    rows = ((text, ("Good", "BAD", "WIP", "WIPED")), (text + local.removeprefix("repos:\n"), ("Good", "WIP", "Long" * 20)))
    for number, (whole, messages) in enumerate(rows):
        sides = []
        for name, words in ("here", [BRIDGE, "install"]), ("there", ["pre-commit", "install"]):
            git = Repository.made(os.path.join(top, f"{name}{number}"), env)
            git.add(CONFIGURATION, whole)
            git.add("a.txt", "a\n")
            git.add("b.txt", "b\n")
            git.git("commit", "--quiet", "-m", "start")
            same(f"{name}: install", git.run(*words, *(f"--hook-type={each}" for each in TYPES)).status, 0)
            sides.append(git)
        for at, message in enumerate(messages):
            found = []
            for git in sides:
                git.git("reset", "--quiet", "--hard")
                git.add("c.txt", f"{at}\n")
                answer = git.commit("-m", message)
                lines = [line for line in answer.err.splitlines() if not line.startswith(("hookhost-", "[INFO]", "[WARNING]", "- duration"))]
                found.append((answer.is_made, message_of(git), lines, git.git("status", "--short"), git.read("a.txt"), git.read("b.txt")))
            same(f"{message} with {whole}", *found)


def skip_and_settings_hold_in_each_stage(top, env):
    git = repository(top, env, REFUSES, after("exit 1"))
    answer = git.commit("--allow-empty", "-m", "BAD", env={"SKIP": "refuses,after"})
    made(answer)
    same("the verdicts", answer.err.count("Skipped"), 2)
    git.git("config", "hookhost.jobs", "0")
    not_made(git.commit("--allow-empty", "-m", "m"), "hookhost.jobs can't be '0'")
    git.git("config", "--unset", "hookhost.jobs")
    git.git("config", "hookhost.alwaysGit", "true")
    git.configure(hook("reads", ", ".join(LATER), "test -e ../.git", ALWAYS))
    answer = git.commit("-m", "m")
    made(answer)
    same("with a repository", answer.err.count("Passed"), 2)
    git.git("config", "hookhost.config", "team.yaml")
    git.add("team.yaml", configuration(REFUSES))
    not_made(git.commit("-m", "BAD"), "1:BAD")
    made(git.commit("-m", "by another configuration"))


CASES = [
    install_follows_the_stages_of_hooks, install_follows_the_default_types, install_takes_types, all_or_no_hook_is_installed, uninstall_takes_all,
    a_hook_without_its_script, a_message_passes_is_refused_or_changed, a_message_hook_changes_other_files, hooks_get_the_message_as_git_has_it,
    hooks_know_where_the_message_comes_from, a_merge_is_checked, no_verify_leaves_out_two_stages, later_hooks_find_git, what_is_cached_stays,
    a_hook_after_the_commit_fixes_files, ways_to_commit, a_stage_without_hooks_costs_nothing, without_a_configuration, the_file_of_the_message,
    hooks_of_other_repositories_have_stages, a_later_stage_waits_for_another_run, an_older_program_runs_no_later_stages,
    skip_and_settings_hold_in_each_stage,
]
