"""The manual page and the completions of hookhost-git in share/, for tests/git/git_bridge.py. They name what the help names. Installed
tools read them without a warning, and shells propose what the script takes."""
import os
import re
import shlex
import shutil
import subprocess

from git_bridge_repository import BRIDGE, Repository, check, same
from places import TOP

SHARE = os.path.join(TOP, "share")
PAGE, BASH, ZSH, FISH = "hookhost-git.1", "hookhost-git.bash", "_hookhost-git", "hookhost-git.fish"
# Tools that read a file and say what is wrong with it, and a line that is wrong.
READERS = [
    (["man", "--warnings", "-E", "UTF-8", "-l", "-Tutf8", "-Z"], PAGE, ".XX\n"),
    (["groff", "-man", "-ww", "-Tutf8", "-z"], PAGE, ".XX\n"),
    (["mandoc", "-Tlint", "-Wwarning"], PAGE, ".XX\n"),
    (["bash", "-n"], BASH, "(\n"),
    (["shellcheck", "--shell=bash"], BASH, "(\n"),
    (["zsh", "-n"], ZSH, "(\n"),
    (["fish", "--no-execute"], FISH, "(\n"),
]
COMMANDS = ["install", "uninstall", "run", "remove", "hook"]
OPTIONS_OF_INSTALL = ["--help", "--hook-type", "-h", "-t"]
TYPES = ["commit-msg", "post-commit", "pre-commit", "pre-merge-commit", "prepare-commit-msg"]
OPTIONS = ["--all-files", "--color", "--files", "--from-ref", "--fresh", "--help", "--show-diff-on-failure", "--to-ref", "--verbose", "-a", "-h", "-v"]
COMMITS = ["HEAD", "main", "side"]
# A line up to the cursor, and what its last word may become.
CASES_OF_SHELLS = [
    ("hookhost-git un", ["uninstall"]),
    ("hookhost-git r", ["remove", "run"]),
    ("hookhost-git -", ["--help", "--version", "-h"]),
    ("hookhost-git hook ", TYPES),
    ("hookhost-git hook pre-", ["pre-commit", "pre-merge-commit"]),
    ("hookhost-git install -", OPTIONS_OF_INSTALL),
    ("hookhost-git install --hook-type ", TYPES),
    ("hookhost-git install -t commit-msg -t po", ["post-commit"]),
    ("hookhost-git uninstall -", ["--help", "-h"]),
    ("hookhost-git run -", OPTIONS),
    ("hookhost-git run --f", ["--files", "--fresh", "--from-ref"]),
    ("hookhost-git run my", []),
    ("hookhost-git run --from-ref ", COMMITS),
    ("hookhost-git run --from-ref main --to-ref s", ["side"]),
    ("hookhost-git run id --files m", ["my file.md"]),
    ("hookhost-git run --files 'my file.md' src/", ["src/main.c"]),
    ("hookhost-git run --color a", ["always", "auto"]),
    ("hookhost-git nope ", []),
]


def played(words, folder, env, given=""):
    done = subprocess.run(words, cwd=folder, env=env, input=given, stdout=subprocess.PIPE, stderr=subprocess.PIPE, text=True, timeout=60)
    return done.returncode, done.stdout, done.stderr


def help_of(env):
    status, told, said = played([BRIDGE, "--help"], TOP, env)
    same("--help", (status, said), (0, ""))
    return told


def options_of(told):
    return set(re.findall(r"(?<![\w-])--?[a-z][a-z-]*", "\n".join(line for line in told.splitlines() if line.startswith("  -"))))


def tools_read_the_files(top, env):
    for (tool, *words), name, wrong in READERS:
        if not shutil.which(tool):
            continue
        path = shutil.copy(os.path.join(SHARE, name), top)
        status, told, said = played([tool, *words, path], top, env)
        # With -Z man prints the page, for another program to show.
        same(f"{tool} of {name}", (status, said + ("" if "-Z" in words else told)), (0, ""))
        with open(path, "a", encoding="utf-8") as file:
            file.write(wrong)
        _, told, said = played([tool, *words, path], top, env)
        check(said or (told and "-Z" not in words), f"{tool} says nothing of a wrong line in {name}")


def the_files_name_what_the_help_names(top, env):
    told = help_of(env)
    same("the options of the help", sorted(options_of(told)), sorted({*OPTIONS, *OPTIONS_OF_INSTALL, "--version"}))
    for name in (PAGE, BASH, ZSH, FISH):
        with open(os.path.join(SHARE, name), encoding="utf-8") as file:
            text = file.read().replace("\\-", "-")
        for word in (*COMMANDS, *options_of(told)):
            shown = word.lstrip("-") if name == FISH else word
            check(re.search(rf"(?<![\w-]){re.escape(shown)}(?![\w-])", text), f"share/{name} doesn't name {word}")
    plain = lambda text: re.sub(r"[\s.]", "", text.replace("\\-", "-"))
    with open(os.path.join(SHARE, PAGE), encoding="utf-8") as file:
        page = plain(re.sub(r"^\.B[IR]? |\\fB|\\fR|\\fI", "", file.read(), flags=re.MULTILINE))
    rows = re.findall(r"^  \S.*?(?: {2,}|\n {4,})(.*(?:\n {15,}\S.*)*)$", told.split("Other options")[0], re.MULTILINE)
    check(len(rows) > 10, f"the help has only the rows {rows}")
    for row in rows:
        check(plain(row) in page, f"the manual page lacks what the help says: {row!r}")


def pieces_of(line):
    """The words of a line as bash parts them for a completion; the last is that at the cursor, and may be empty."""
    return shlex.split(line) + ([""] if line.endswith(" ") else [])


def proposals(top, env):
    """A folder with files and commits, and for each shell that is installed what it proposes there for each line."""
    git = Repository.made(os.path.join(top, "git"), env)
    for path in ("my file.md", "src/main.c"):
        git.add(path, "")
    git.git("commit", "--quiet", "-m", "m")
    git.git("branch", "side")
    script = [f"source {shlex.quote(os.path.join(SHARE, BASH))}", "complete -p hookhost-git"]
    for line, _ in CASES_OF_SHELLS:
        pieces = pieces_of(line)
        script.append(f"COMP_WORDS=({shlex.join(pieces)}) COMP_CWORD={len(pieces) - 1}; _hookhost_git; printf '%s\\t' \"${{COMPREPLY[@]}}\"; echo")
    status, told, said = played(["bash", "--norc", "--noprofile"], git.folder, env, "\n".join(script) + "\n")
    same("bash", (status, told.split("\n")[0], said), (0, "complete -F _hookhost_git hookhost-git", ""))
    yield "bash", [[it for it in row.split("\t") if it] for row in told.splitlines()[1:]]
    if shutil.which("fish"):
        script = [f"source {shlex.quote(os.path.join(SHARE, FISH))}"] + [f"complete -C {shlex.quote(line)}; echo ." for line, _ in CASES_OF_SHELLS]
        status, told, said = played(["fish", "--no-config"], git.folder, env, "\n".join(script) + "\n")
        same("fish", (status, said), (0, ""))
        yield "fish", [[it.split("\t")[0] for it in rows.splitlines()] for rows in re.split(r"^\.\n", told, flags=re.MULTILINE)[:-1]]


def shells_propose_what_the_script_takes(top, env):
    for shell, found in proposals(top, env):
        for (line, wanted), proposed in zip(CASES_OF_SHELLS, found, strict=True):
            same(f"what {shell} proposes for {line!r}", sorted(proposed), sorted(wanted))


CASES = [tools_read_the_files, the_files_name_what_the_help_names, shells_propose_what_the_script_takes]
