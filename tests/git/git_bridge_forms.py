"""In which form hookhost-git brings files to hooks, when it brings all again, and which paths it means; for tests/git/git_bridge.py."""
import os
import shutil

from git_bridge_fixes import MOST_COMMANDS, MOST_REMOVED, TIDY, typed_into, typing_commands
from git_bridge_repository import (BLANKS, CONFIGURATION, WORDS, Repository, check, made, names_hook, names_in, not_made, quoted, refused,
                                   repository, same, shell)

# Attributes by which files have large letters in the working tree, and such that change nothing of them.
LARGE, SMALL = "*.txt filter=large\n", "*.md filter=large\n"
# The hook refuses large letters and line ends other than LF.
PLAIN = "id: plain, name: Plain, language: system, " + shell('! grep -Hn "[A-Z]\\|$(printf "\\r")" -- "$@"') + ", files: 'txt$'"


# ---- the form of files


class Bench:
    """A repository with a file below a folder, on which a hook is run that refuses other forms than that of its blob."""

    def __init__(self, top, env):
        self.top, self.git = top, repository(top, env, PLAIN)
        self.git.git("config", "filter.large.smudge", "tr a-z A-Z")
        self.git.git("config", "filter.large.clean", "tr A-Z a-z")
        self.git.add("sub/a.txt", "a\n")

    def finds(self, what, held):
        """Checks in which form a run brings the file, and that the hook is asked about that form."""
        for _ in range(2):
            answer = self.git.bridge("run", "--files", "sub/a.txt")
            same(f"{what}: the form", self.git.store("cat", "--", "sub/a.txt").out, held)
            same(f"{what}: the run", answer.status, int(held != "a\n"))

    def each(self, *changes):
        """Checks the form after each of these changes in turn: what it is, what does it, and the form then."""
        self.finds("before", "a\n")
        for what, change, held in changes:
            change()
            self.finds(what, held)

    def writes(self, path, held):
        """What writes a file."""
        return lambda: self.git.write(os.path.join(self.top, path), held)


def forms_by_line_ends(top, env):
    bench = Bench(top, env)
    git = bench.git
    one_call = {"GIT_CONFIG_COUNT": "1", "GIT_CONFIG_KEY_0": "core.eol", "GIT_CONFIG_VALUE_0": "crlf"}
    git.env = dict(env)
    git.add(".gitattributes", "*.txt text\n")
    bench.each(("core.eol", lambda: git.git("config", "core.eol", "crlf"), "a\r\n"),
               ("another core.eol", lambda: git.git("config", "core.eol", "lf"), "a\n"),
               ("core.eol of one call", lambda: git.env.update(one_call), "a\r\n"),
               ("core.autocrlf", lambda: git.git("config", "core.autocrlf", "input"), "a\n"))


def forms_by_attributes_of_the_user(top, env):
    """Their file is the one that a setting names, or else the one of the folder of settings."""
    bench = Bench(top, env)
    git, home = bench.git, env["HOME"]

    def moved(folder):
        git.env = env | ({"XDG_CONFIG_HOME": folder} if folder is not None else {})

    def setting(value):
        return lambda: git.git("config", "core.attributesFile", value)

    bench.each(("new attributes", bench.writes(f"{home}/.config/git/attributes", LARGE), "A\n"),
               ("other attributes", bench.writes(f"{home}/.config/git/attributes", SMALL), "a\n"),
               ("another folder of settings", lambda: moved(f"{top}/settings"), "a\n"),
               ("new attributes in it", bench.writes("settings/git/attributes", LARGE), "A\n"),
               ("other attributes in it", bench.writes("settings/git/attributes", SMALL), "a\n"),
               ("an empty name of the folder", lambda: moved(""), "a\n"),
               ("large letters again", bench.writes(f"{home}/.config/git/attributes", LARGE), "A\n"),
               ("a setting of a file that isn't there", setting(f"{top}/attributes"), "a\n"),
               ("that file", bench.writes("attributes", LARGE), "A\n"),
               ("another content of it", bench.writes("attributes", SMALL), "a\n"),
               ("a setting of a file of the home", setting("~/mine"), "a\n"),
               ("that file of the home", bench.writes(f"{home}/mine", LARGE), "A\n"),
               ("another content of that", bench.writes(f"{home}/mine", SMALL), "a\n"),
               ("the name of another one", setting(f"{home}/.config/git/attributes"), "A\n"))


def forms_by_attributes_of_the_tree(top, env):
    """A file `.gitattributes` below a folder counts for the files that lie there, though these stay as they are."""
    bench = Bench(top, env)
    git = bench.git
    bench.each(("new attributes", lambda: git.add("sub/.gitattributes", LARGE), "A\n"),
               ("other attributes", lambda: git.add("sub/.gitattributes", SMALL), "a\n"),
               ("large letters again", lambda: git.add("sub/.gitattributes", LARGE), "A\n"),
               ("no attributes", lambda: git.git("rm", "--quiet", "--cached", "sub/.gitattributes"), "a\n"),
               ("those of another folder", lambda: git.add("other/.gitattributes", LARGE), "a\n"))


def forms_by_attributes_of_the_repository(top, env):
    """All working trees of a repository share its file `info/attributes`."""
    bench = Bench(top, env)
    git = bench.git
    git.git("commit", "--quiet", "--no-verify", "-m", "m")
    git.git("worktree", "add", "--quiet", "-b", "other", os.path.join(top, "other"))
    for tree in (git, Repository(os.path.join(top, "other"), env)):
        bench.git = tree
        bench.each(("new attributes", bench.writes("git/.git/info/attributes", LARGE), "A\n"),
                   ("other attributes", bench.writes("git/.git/info/attributes", SMALL), "a\n"))
    bench.writes("git/.git/worktrees/other/info/attributes", LARGE)()
    bench.finds("a file that Git doesn't read", "a\n")


# ---- ids that Git writes


OLD = "$Id: " + "0" * 40 + " $"
# What is staged, and the working file then, of files that count as staged, and of files that don't.
AS_STAGED = {
    "new.txt": ("$Id$ x \n", "$Id$ x \n"), "older.txt": (f"{OLD} x \n", f"{OLD} x \n"), "newer.txt": ("$Id$ x \n", f"{OLD} x \n"),
    "two.txt": (f"$Id$$Id$ {OLD}\n$Id \n", f"{OLD}$Id$ $Id$\n$Id \n"), "numbers.txt": ("\0$Id$\0 \n\0", f"\0{OLD}\0 \n\0"),
    "ends.txt": ("x \n$Id$", f"x \n{OLD}"),
}
OTHERWISE = {
    "typed.txt": ("$Id$ x \n", "$Id$ y \n"), "own.txt": ("$Id$ x \n", "$Id: mine $ x \n"), "broken.txt": ("$Id$ x \n", "$Id: \n$ x \n"),
    "short.txt": ("$Id$ x \n", "$Id: " + "0" * 39 + " $ x \n"), "end.txt": ("x \n$Id$", f"x \n{OLD}\n"),
    "number.txt": ("\0$Id$ \n", f"\0\0{OLD} \n"), "plain/a.txt": ("$Id$ x \n", f"{OLD} x \n"),
    "turned/a.txt": ("$Id$ x \n", f"{OLD} x \n"), "wide/a.tmp": ("$Id$$Id$\0x\0\n", f"{OLD}{OLD}\0x\0\n"),
}
IDENT = "* ident\n*.yaml -ident\nplain/* -ident\nturned/* filter=turned\nwide/* working-tree-encoding=UTF-16BE\n"


def with_ids(top, env, files):
    """A repository with these files, staged and then written again."""
    git = repository(top, env, BLANKS.replace("files: 'txt$'", "types: [file], files: 'txt$'"), TIDY)
    for does in ("clean", "smudge"):
        git.git("config", f"filter.turned.{does}", "tr A-Za-z N-ZA-Mn-za-m")
    git.add(".gitattributes", IDENT)
    for path, (staged, working) in files.items():
        git.add(path, staged)
        git.write(path, working)
    return git


def ids_that_git_writes(top, env):
    """They are other ones in the working tree than in the index (gitattributes(5), "ident"), and count for no change."""
    git = with_ids(top, env, AS_STAGED | {"a.tmp": ("$Id$\n", f"{OLD}\n")})
    for path in AS_STAGED:
        same(f"what Git says of {path}", git.git("diff", "--name-only", "--", path), "")
    answer = git.commit()
    not_made(answer)
    same("the lines", sorted(answer.lines()), sorted(["removed: a.tmp", *(f"fixed: {path}" for path in AS_STAGED)]))
    for path in AS_STAGED:
        found = git.git("cat-file", "--filters", f":{path}").replace(" \n", "\n")
        same(f"the working file {path}", git.read(path).decode(), found)
    already = ["removed already, and not staged: a.tmp", *(f"fixed already, and not staged: {path}" for path in AS_STAGED)]
    same("the next run", sorted(git.bridge("run").lines()), sorted(already))
    git.git("add", "--all")
    made(git.commit())


def ids_that_git_does_not_write(top, env):
    """Another change, a text that only looks like an id, or a filter or an encoding: the working file stays."""
    git = with_ids(top, env, OTHERWISE)
    before = git.working_files()
    answer = git.commit()
    not_made(answer)
    wanted = [f"left as it is: {path}, which isn't what is staged" for path in OTHERWISE]
    same("the lines", sorted(line.partition(";")[0] for line in answer.lines()), sorted(wanted))
    same("the files", git.working_files(), before)


def ids_of_many_removed_files(top, env):
    files = {f"{number:02}.tmp": ("$Id$\n", f"{OLD}\n") for number in range(MOST_REMOVED + 1)}
    git = with_ids(top, env, files)
    same("run", git.bridge("run").lines()[0].partition(" that ")[0], f"not removed: {len(files)} files")
    same("remove", git.bridge("remove").lines(), [f"removed: {path}" for path in files])


def a_file_with_ids_that_cannot_be_read(top, env):
    """It stays, and the other files are fixed."""
    git = with_ids(top, env, {"a.txt": ("$Id$ \n", f"{OLD} \n"), "b.txt": ("x \n", "x \n")})
    tools, real = os.path.join(top, "tools"), quoted(shutil.which("cp", path=env["PATH"]))
    git.write(f"{tools}/cp", f"#!/bin/sh\ncase $* in *a.txt*) exit 1 ;; esac\nexec {real} \"$@\"\n", 0o755)
    answer = git.bridge("run", env={"PATH": tools + ":" + env["PATH"]})
    wanted = ["left as it is: a.txt, which isn't what is staged", "fixed: b.txt"]
    same("the run", (answer.status, [line.partition(";")[0] for line in answer.lines()]), (1, wanted))


def ids_while_another_program_writes(top, env):
    """What it writes into a file with an id stays, as in other files."""
    typing, git = typing_commands(top, env), with_ids(top, env, {"a.txt": ("$Id$ \n", f"{OLD} \n")})
    fixed = git.git("cat-file", "--filters", ":a.txt").replace(" \n", "\n").encode()
    same("the first run", (git.bridge("run").status, git.read("a.txt")), (1, fixed))
    git.write("a.txt", f"{OLD} \n")
    count = next(at for at in range(1, MOST_COMMANDS) if not typed_into(git, typing, "anywhere", at, "a.txt", fixed))
    check(count > 8, f"only {count} commands are started")


# ---- which paths are meant


PATHSPECS = ("GIT_LITERAL_PATHSPECS", "GIT_GLOB_PATHSPECS", "GIT_NOGLOB_PATHSPECS", "GIT_ICASE_PATHSPECS")


def words_mean_the_same_paths(top, env):
    """By them Git means other files with the same words. What is checked and said stays the same (git(1))."""
    git = repository(top, env, BLANKS, WORDS, names_hook("x_reads: '^(\\.git-state|tools/.*)$'"),
                     "id: tool, name: Tool, language: script, entry: tools/check, files: 'txt$', verbose: true")
    git.git("commit", "--quiet", "--allow-empty", "--no-verify", "-m", "m")
    git.add("tools/check", "#!/bin/sh\necho checked\n", 0o755)
    git.add("?.txt", "x \n")
    git.add("A.TXT", "BAD\n")
    git.write(".gitignore", "node_modules/\n")
    git.write("node_modules/x", "x\n")
    for name in ("tools", "linked"):
        git.git("config", "--add", "hookhost.link", name)
    files = git.working_files()
    calls = (["run"], ["run", "--all-files"], ["run", "--files", "?.txt", "a"], ["run", "--files", "?.txt"],
             ["run", "--show-diff-on-failure"], ["run", "--from-ref=HEAD~1", "--to-ref=HEAD"], ["install"])

    def said(variables):
        answers = []
        for words in calls:
            for path, (mode, held) in files.items():
                git.write(path, held, mode)
            answer = git.bridge(*words, env=variables)
            answers.append((answer.status, answer.out, answer.err, git.working_files()))
        return answers

    said({})
    wanted = said({})
    parts = ((0, "\nchecked\n"), (4, "\n+x\n"), (6, "hooks don't find node_modules"))
    check(all(part in wanted[number][1] for number, part in parts), f"{wanted!r}")
    git.add("a.txt", "BAD\n")
    not_made(git.commit(), "a.txt:1:BAD")
    for variables in ({name: "1"} for name in PATHSPECS):
        not_made(git.commit(env=variables | {"PRE_COMMIT_ALLOW_NO_CONFIG": "1"}), "a.txt:1:BAD")
        git.git("rm", "--quiet", "--force", "a.txt")
        for words, found, before in zip(calls, said(variables), wanted):
            same(f"{words!r} with {variables!r}", found, before)
        git.add("a.txt", "BAD\n")


def hooks_find_variables_for_pathspecs(top, env):
    """They are the user's, and for hooks that call Git they count as for any hook of Git."""
    shows = shell("env | grep _PATHSPECS= | sort; git ls-files A.TXT")
    git = repository(top, env, "id: shows, name: Shows, language: system, verbose: true, always_run: true, " + shows)
    git.add("a.txt", "a\n")
    same("none", git.bridge("run").out.count("_PATHSPECS="), 0)
    answer = git.bridge("run", env={"GIT_ICASE_PATHSPECS": "1"})
    same("one", (answer.status, answer.out.splitlines()[-3:-1]), (0, ["GIT_ICASE_PATHSPECS=1", "a.txt"]))


def a_tree_that_cannot_be_read(top, env):
    """It isn't taken for one without a configuration."""
    git = repository(top, env, WORDS)
    git.add("a.txt", "BAD\n")
    tools, real = os.path.join(top, "tools"), quoted(shutil.which("git", path=env["PATH"]))
    git.write(f"{tools}/git", f"#!/bin/sh\ncase $* in *ls-tree*{CONFIGURATION}) exit 128 ;; esac\nexec {real} \"$@\"\n", 0o755)
    answer = git.bridge("run", env={"PATH": tools + ":" + env["PATH"], "PRE_COMMIT_ALLOW_NO_CONFIG": "1"})
    refused(answer, "Git can't read the tree of the index")


def long_path(length):
    """A path of so many bytes, of folders with names of 200 bytes at most."""
    parts = ["d" * 199 for _ in range((length - 50) // 200)]
    folders = "/".join(parts) + "/"
    return folders + "f" * (length - len(folders) - len(".txt")) + ".txt"


def paths_near_the_longest(top, env):
    """A name of as many bytes as a path may have is checked, or refused with a line."""
    git = repository(top, env, WORDS, names_hook("files: 'txt$'"))
    served = []
    for length in (4000, 4095, 4096, 4097):
        path = long_path(length)
        same("the length", len(path), length)
        for held in ("x\n", "BAD\n"):
            number = git.run("git", "hash-object", "-w", "--stdin", given=held.encode()).out.strip()
            git.git("update-index", "--add", "--cacheinfo", f"100644,{number},{path}")
            answer = git.bridge("run")
            if answer.status == 3:
                check(answer.lines(), f"{length} bytes are refused without a line: {answer!r}")
            else:
                found = answer.status, names_in(answer), f"{path}:1:BAD" in answer.out
                same(f"{length} bytes", found, (int(held == "BAD\n"), [path], held == "BAD\n"))
                served.append(length)
        not_made(git.commit())
        git.git("rm", "--quiet", "--cached", path)
    check(4000 in served, f"only these lengths are served: {served!r}")


CASES = [
    forms_by_line_ends, forms_by_attributes_of_the_user, forms_by_attributes_of_the_tree, forms_by_attributes_of_the_repository,
    ids_that_git_writes, ids_that_git_does_not_write, ids_of_many_removed_files, a_file_with_ids_that_cannot_be_read,
    ids_while_another_program_writes,
    words_mean_the_same_paths, hooks_find_variables_for_pathspecs, a_tree_that_cannot_be_read, paths_near_the_longest,
]
