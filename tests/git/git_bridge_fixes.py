"""What hookhost-git does with the fixes of hooks, for tests/git/git_bridge.py: which working files it writes and removes, and that no
text of another program is lost by it."""
import os
import shutil

from git_bridge_repository import (BLANKS, BRIDGE, CONFIGURATION, Repository, Wrong, check, holds_index, made, not_made, quoted, refused,
                                   repository, same, shell)

MOST_REMOVED = 10
TIDY = "id: tidy, name: Tidy, language: system, entry: rm -f --, files: 'tmp$', require_serial: true"
# What the script starts to fix a file. Each is found first in a folder of its own, in which a script counts from the call of `hookhost
# fixes` on. That script writes a line into a working file before one of them. If LINKS says so, no link to another folder can be made, or
# none at all.
COMMANDS = ["cat", "chmod", "cmp", "cp", "find", "ln", "mv", "rm", "hookhost"]
TYPING = """#!/bin/sh
if [ "{name}:$1" = hookhost:fixes ]; then : > "$TYPE_COUNT"; fi
if [ -e "$TYPE_COUNT" ]; then
  echo x >> "$TYPE_COUNT"
  [ "$({wc} -l < "$TYPE_COUNT")" != "$TYPE_AT" ] || echo typed >> "$TYPE_INTO"
fi
if [ "{name}" = ln ]; then
  for last; do :; done
  case $LINKS:$last in none:* | beside:[!/]*) exit 1 ;; esac
fi
exec {command} "$@"
"""
MOST_COMMANDS = 60


def fixes_are_written(top, env):
    git = repository(top, env)
    modes = {"plain.txt": 0o644, "private.txt": 0o600, "run.txt": 0o755, "read only.txt": 0o444, "sub/-dash.txt": 0o640}
    for path, mode in modes.items():
        git.add(path, "x \n", mode)
    answer = git.commit()
    not_made(answer)
    same("the lines", answer.lines(), [f"fixed: {path}" for path in sorted(modes)])
    same("the files", {path: held for path, held in git.working_files().items() if path != CONFIGURATION}, {path: (mode, b"x\n") for path, mode in modes.items()})
    git.git("add", "--all")
    made(git.commit())
    holds_index(git)


def modes_outlive_the_umask(top, env):
    """A fix leaves a file the rights that the umask takes from new files."""
    git = repository(top, env)
    modes = {"all.txt": 0o666, "group.txt": 0o664, "program.txt": 0o777, "read only.txt": 0o444}
    for umask in ("022", "077"):
        for path, mode in modes.items():
            git.add(path, f"{umask} \n", mode)
        answer = git.run("sh", "-c", 'umask "$1" && exec "$0" run', BRIDGE, umask)
        same(f"under {umask}", (answer.status, answer.lines()), (1, [f"fixed: {path}" for path in sorted(modes)]))
        found = {path: held for path, held in git.working_files().items() if path != CONFIGURATION}
        same(f"the files under {umask}", found, {path: (mode, f"{umask}\n".encode()) for path, mode in modes.items()})


# Refuses to remove a folder that may not be written, as it does for a user who isn't root.
REMOVES = """#!/bin/sh
for last; do :; done
[ ! -d "$last" ] || [ -z "$(find "$last" -prune ! -perm -200)" ] || exit 1
exec {command} "$@"
"""


def options_come_before_operands(top, env):
    """With POSIXLY_CORRECT a command takes no option after its first operand. Then the same is said and done."""
    calls = "id: calls, name: Calls, language: system, pass_filenames: false, always_run: true, "
    git = repository(top, env, BLANKS, TIDY, calls + shell("git ls-files && chmod -R 000 \"$(git rev-parse --git-dir)\""))
    git.add("a.txt", "x \n")
    git.add("read only.txt", "y \n", 0o444)
    git.add("b.tmp", "b\n")
    git.git("config", "hookhost.versions", "echo 1")
    git.git("config", "hookhost.link", "linked")
    git.write(os.path.join(top, "tools/rm"), REMOVES.format(command=quoted(shutil.which("rm", path=env["PATH"]))), 0o755)
    git.env = env | {"PATH": os.path.join(top, "tools") + ":" + env["PATH"]}
    files = git.working_files()

    def done(variables):
        git.forget()
        git.env = git.env | variables
        for path, (mode, held) in files.items():
            git.write(path, held, mode)
        answers = [git.bridge(*words) for words in (["run", "--show-diff-on-failure"], ["uninstall"], ["install"])]
        return [(answer.status, answer.out, answer.err) for answer in answers], git.working_files(), sorted(os.listdir(git.home()))

    wanted = done({})
    lines = [f"hookhost-git: {line}" for line in ("fixed: a.txt", "removed: b.tmp", "fixed: read only.txt")]
    same("the lines", wanted[0][0][2].splitlines(), lines)
    check("repository" not in wanted[2], "the repository of hooks is left")
    same("with POSIXLY_CORRECT", done({"POSIXLY_CORRECT": "1"}), wanted)


def unstaged_changes_stay(top, env):
    git = repository(top, env)
    for path in ("a's.txt", "b.txt", "gone.txt", "in/c.txt", "linked.txt"):
        git.add(path, "x \n")
    git.write("a's.txt", "x \nmore \n")
    os.remove(os.path.join(git.folder, "gone.txt"))
    # A folder that is a link now leads to the same bytes, and so does a file.
    git.write("out/c.txt", "x \n")
    shutil.rmtree(os.path.join(git.folder, "in"))
    os.symlink("out", os.path.join(git.folder, "in"))
    os.remove(os.path.join(git.folder, "linked.txt"))
    os.symlink("out/c.txt", os.path.join(git.folder, "linked.txt"))
    before = git.working_files()
    answer = git.commit()
    not_made(answer)
    same("the files", git.working_files(), before | {"b.txt": (0o644, b"x\n")})
    lines = answer.lines()
    same("the lines", [line.partition(", which")[0] for line in lines], ["left as it is: a's.txt", "fixed: b.txt"] + [f"left as it is: {path}" for path in ("gone.txt", "in/c.txt", "linked.txt")])
    words = lines[0].partition("; its fix: ")[2]
    same("what the line says", git.run("sh", "-c", words, cwd="out").out, "x\n")


def a_hook_removes_files(top, env):
    git = repository(top, env, TIDY)
    for path in ("a.tmp", "b.tmp", "c.tmp"):
        git.add(path, "x\n")
    git.write("b.tmp", "y\n")
    os.remove(os.path.join(git.folder, "c.tmp"))
    answer = git.commit()
    not_made(answer)
    same("the lines", [line.partition(", which")[0] for line in answer.lines()], ["removed: a.tmp", "left as it is: b.tmp", "removed already, and not staged: c.tmp"])
    same("the files", sorted(git.working_files()), [CONFIGURATION, "b.tmp"])


def links_that_a_hook_removes(top, env):
    """Tracked links stay in the working tree and in the commit, as does a link in the place of a file that a hook removes."""
    removes = "rm -f link linked; git rm -q --cached --ignore-unmatch link linked; rm -f -- \"$@\""
    git = repository(top, env, "id: removes, name: Removes, language: system, files: 'tmp$', require_serial: true, " + shell(removes))
    for path in ("a.tmp", "b.tmp", "c.tmp", "kept"):
        git.add(path, "x\n")
    for path in ("link", "linked"):
        os.symlink("kept", os.path.join(git.folder, path))
        git.git("add", path)
    git.git("config", "hookhost.link", "linked")
    for path, leads_to in (("b.tmp", os.path.join(git.folder, "kept")), ("c.tmp", "nowhere")):
        os.remove(os.path.join(git.folder, path))
        os.symlink(leads_to, os.path.join(git.folder, path))
    before, staged = git.working_files(), git.git("ls-files", "--stage")
    answer = git.commit()
    not_made(answer)
    left = [f"left as it is: {path}, which isn't what is staged; the hooks remove it" for path in ("b.tmp", "c.tmp")]
    same("the lines", answer.lines(), ["left out: 2 links", "removed: a.tmp", *left])
    before.pop("a.tmp")
    same("the files", (git.working_files(), git.git("ls-files", "--stage")), (before, staged))
    git.git("rm", "--quiet", "--cached", "--force", "a.tmp", "b.tmp", "c.tmp")
    git.add("d.tmp.txt", "x\n")
    made(git.commit())
    same("the links of the commit", [line.split()[0] for line in git.git("ls-tree", "HEAD", "link", "linked").splitlines()], ["120000"] * 2)


def new_files_are_dropped(top, env):
    git = repository(top, env, "id: new, name: New, language: system, entry: touch made.txt, pass_filenames: false")
    git.add("a.txt", "x\n")
    made(git.commit())
    same("the files", sorted(git.working_files()), [CONFIGURATION, "a.txt"])


def many_removed_files_stay(top, env):
    """Names of all kinds, of which some have changed meanwhile."""
    git = repository(top, env, TIDY, BLANKS)
    names = [f"{number} it's \\n \"é.tmp" for number in range(MOST_REMOVED - 1)] + ["-dash.tmp"]
    for path in names:
        git.add(path, "x\n")
    answer = git.commit()
    same("as many as may be", sorted(answer.lines()), sorted(f"removed: {path}" for path in names))
    names += ["d/$HOME.tmp", "gone.tmp", "changed.tmp"]
    for path in (*names, "a.txt"):
        git.add(path, "x \n" if path == "a.txt" else "x\n")
    os.remove(os.path.join(git.folder, "gone.tmp"))
    before = git.working_files()
    answer = git.commit()
    not_made(answer)
    lines = answer.lines()
    same("what is told", lines[0], f"not removed: {len(names) - 1} files that hooks removed, since one run removes at most {MOST_REMOVED}")
    same("what else is fixed", lines[2:], ["fixed: a.txt"])
    same("the files", git.working_files(), before | {"a.txt": (0o644, b"x\n")})
    git.write("changed.tmp", "x\nmore\n")
    words = lines[1].removeprefix("to remove those that are still as they are staged: ")
    answer = git.run("sh", "-c", words)
    same("what the line says", answer.status, 0)
    same("what is left", sorted(path for path in git.working_files() if path.endswith("tmp")), ["changed.tmp"])
    check("left as it is: changed.tmp, which isn't what is staged" in answer.err, f"{answer!r}")
    refused(git.bridge("remove"), "there is nothing to remove")
    # What a run has written down, the next one removes.
    for path in names:
        git.add(path, "x\n")
    git.git("add", "a.txt")
    same("again", len(git.bridge("run").lines()), 2)
    git.git("rm", "--quiet", "--force", "--", *names[:-1])
    git.bridge("run")
    refused(git.bridge("remove"), "there is nothing to remove")


def diff_of_fixes(top, env):
    git = repository(top, env, TIDY, BLANKS)
    git.add("a's.txt", "x \n")
    git.add("b.tmp", "b\n")
    git.add("left.txt", "y \n")
    git.write("left.txt", "z\n")
    git.write(CONFIGURATION, git.read(CONFIGURATION) + b"# Not staged.\n")
    answer = git.bridge("run", "--show-diff-on-failure", cwd=".")
    same("run", answer.status, 1)
    shown = answer.out.partition("All changes made by hooks:\n")[2]
    same("the diff", [line for line in shown.split("\n") if line[:1] in "+-"], ["--- a/a's.txt", "+++ b/a's.txt", "-x ", "+x", "--- a/b.tmp", "+++ /dev/null", "-b", ""])
    # What was fixed already is shown again. If nothing is fixed or nothing fails, nothing is.
    same("again", git.bridge("run", "--show-diff-on-failure").out.partition("All changes made by hooks:\n")[2], shown)
    same("without it", git.bridge("run").out.count("All changes"), 0)
    git.git("add", "--all")
    same("nothing", git.bridge("run", "--show-diff-on-failure").out.count("All changes"), 0)


# ---- other programs that write meanwhile


def typing_commands(top, env):
    """A folder of commands that write into a file at their turn, and the environment in which the script finds them."""
    folder = os.path.join(top, "typing")
    os.mkdir(folder)
    for name in COMMANDS:
        command = env["HOOKHOST"] if name == "hookhost" else shutil.which(name)
        path = os.path.join(folder, name)
        with open(path, "w", encoding="utf-8") as file:
            file.write(TYPING.format(name=name, command=quoted(command), wc=shutil.which("wc")))
        os.chmod(path, 0o755)
    return {"PATH": folder + ":" + env["PATH"], "HOOKHOST": os.path.join(folder, "hookhost"), "TYPE_COUNT": os.path.join(top, "count")}


def typed_into(git, typing, links, at, file, fixed):
    """Runs the hooks on a file into which a line is written before a command of that number, and answers whether there was one."""
    copy = Repository(f"{git.folder} {links} {at}", git.env)
    shutil.copytree(git.folder, copy.folder)
    before = copy.read(file)
    if os.path.exists(typing["TYPE_COUNT"]):
        os.remove(typing["TYPE_COUNT"])
    answer = copy.run(BRIDGE, "run", env=typing | {"TYPE_AT": str(at), "TYPE_INTO": os.path.join(copy.folder, file), "LINKS": links})
    held = copy.read(file) if os.path.exists(os.path.join(copy.folder, file)) else None
    aside = [copy.read(os.path.join(copy.home(), name)) for name in os.listdir(copy.home()) if name.startswith("written.")]
    with open(typing["TYPE_COUNT"], encoding="utf-8") as counted:
        is_typed = len(counted.readlines()) >= at
    lines = [line for line in answer.lines() if file in line]
    whole = fixed if lines and lines[0].startswith(("fixed: ", "removed: ")) else before
    same("the status", answer.status, 1)
    if is_typed:
        check(any(found and found.endswith(b"typed\n") for found in (held, *aside)), f"what was written is lost: {held!r}, {aside!r}, {answer!r}")
        check(held in (whole and whole + b"typed\n", b"typed\n", whole), f"the file is {held!r} after {answer!r}")
    else:
        same("the file", held, whole)
    same("what lies beside", sorted(name for name in os.listdir(copy.folder) if name.startswith(".hookhost-git")), [])
    shutil.rmtree(copy.folder)
    return is_typed


def nothing_that_is_written_meanwhile_is_lost(top, env):
    typing = typing_commands(top, env)
    for file, hook, fixed in (("a.txt", BLANKS, b"x\n"), ("b.tmp", TIDY, None)):
        git = repository(top, env, hook, name=file)
        git.add(file, "x \n")
        same("the first run", git.bridge("run").status, 1)
        git.write(file, "x \n")
        for links in ("anywhere", "beside"):
            try:
                count = next(at for at in range(1, MOST_COMMANDS) if not typed_into(git, typing, links, at, file, fixed))
            except Wrong as wrong:
                raise Wrong(f"with links {links}, {file}: {wrong}") from None
            check(count > 8, f"only {count} commands are started")


def without_links_nothing_is_fixed(top, env):
    git = repository(top, env, TIDY, BLANKS)
    git.add("a.txt", "x \n")
    git.add("b.tmp", "y\n")
    before = git.working_files()
    answer = git.run(BRIDGE, "run", env=typing_commands(top, env) | {"TYPE_AT": "0", "TYPE_INTO": "", "LINKS": "none"})
    same("the lines", [line.partition(";")[0] for line in answer.lines()], ["left as it is: a.txt, to which no link can be made", "left as it is: b.tmp, to which no link can be made"])
    same("the files", git.working_files(), before)


def a_killed_fix_is_cleared_up(top, env):
    """What another program wrote into the file that a killed run had just replaced is kept."""
    git = repository(top, env)
    git.add("a.txt", "x \n")
    same("run", git.bridge("run").status, 1)
    lists = os.path.join(git.home(), "lists")
    git.write(os.path.join(lists, "fixed.old"), "x \n")
    for held, kept in (("x \n", []), ("x \ntyped\n", ["written.0"]), ("other\n", ["written.0", "written.1"])):
        git.write(os.path.join(lists, "kept"), held)
        git.write("d/.hookhost-git.1", "half")
        git.write(".git/hookhost/beside", "d/.hookhost-git.1\n")
        answer = git.bridge("run")
        same("what is kept", sorted(name for name in os.listdir(git.home()) if name.startswith("written.")), kept)
        check(("another program wrote" in answer.err) == (held != "x \n"), f"{answer!r}")
        same("what lies about", (os.listdir(os.path.join(git.folder, "d")), os.path.exists(os.path.join(lists, "kept"))), ([], False))
    same("the first", git.read(".git/hookhost/written.0"), b"x \ntyped\n")
    # A second name of the working file itself is nothing that could be lost.
    os.link(os.path.join(git.folder, "a.txt"), os.path.join(lists, "kept"))
    git.bridge("run")
    same("what is kept", len([name for name in os.listdir(git.home()) if name.startswith("written.")]), 2)


CASES = [
    fixes_are_written, modes_outlive_the_umask, options_come_before_operands, unstaged_changes_stay, a_hook_removes_files,
    links_that_a_hook_removes, new_files_are_dropped, many_removed_files_stay, diff_of_fixes,
    nothing_that_is_written_meanwhile_is_lost, without_links_nothing_is_fixed, a_killed_fix_is_cleared_up,
]
