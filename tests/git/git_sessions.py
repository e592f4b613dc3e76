#!/usr/bin/env python3
"""Checks what a developer does at a terminal in a repository of Git with hookhost's hook: commits, fixes, refusals, settings.

Usage: tests/git/git_sessions.py [PROGRAM [PART]]   (default: crates/hookhost/out/hookhost, all sessions)

PART is a part of a session's name. Each session has a repository, a home and tools of its own. `git commit` and `hookhost-git`
run on a pseudo terminal, as by hand: what they print there is what is compared, without the line that shows a running command.
"""
import os
import pty
import re
import shutil
import subprocess
import sys
import tempfile

sys.path.insert(0, os.path.abspath(f"{__file__}/../../shared"))
from git_bridge_repository import BRIDGE, PROGRAM, Repository, Wrong, check, content, environment, quoted, same, shell

PART = sys.argv[2] if len(sys.argv) > 2 else ""
# What a running command shows, and what takes it away again.
SHOWN = re.compile(r"(\r|\x1b\[[?0-9;]*[a-zA-Z])+(\[\d+\] [^\x1b\r\n]*)?")
# How the end of a hook's line is colored, and what ends the color.
COLORED = re.compile(r"\x1b\[([0-9;]+)m(Passed|Failed|Skipped)\x1b\[m$", re.MULTILINE)


class Desk:
    """A developer's terminal in a repository, with tools of their own first on the PATH."""

    def __init__(self, top):
        self.top, self.tools = top, os.path.join(top, "tools")
        os.makedirs(os.path.join(top, "home"))
        os.mkdir(self.tools)
        env = environment(os.path.join(top, "home"))
        env |= {"PATH": self.tools + ":" + env["PATH"], "TERM": "xterm", "GIT_PAGER": "cat", "PAGER": "cat"}
        self.git = Repository.made(os.path.join(top, "repository"), env)

    def type(self, *words, **variables):
        """The exit status of a command at the terminal, and what it printed."""
        status, text = self.type_for_colors(*words, **variables)
        return status, SHOWN.sub("", text)

    def type_for_colors(self, *words, **variables):
        """The same with the colors, and with all that a terminal doesn't print."""
        child, end = pty.fork()
        if child == 0:
            os.chdir(self.git.folder)
            os.execvpe(words[0], words, self.git.env | variables)
        printed = b""
        while True:
            try:
                data = os.read(end, 65536)
            except OSError:
                break
            if not data:
                break
            printed += data
        os.close(end)
        status = os.waitstatus_to_exitcode(os.waitpid(child, 0)[1])
        return status, printed.decode(errors="replace").replace("\r\n", "\n")

    def commit(self, *words, **variables):
        """Whether a commit was made, and what was printed."""
        status, text = self.type("git", "commit", "--quiet", *(words or ("-m", "m")), **variables)
        return status == 0, text

    def run(self, *words, **variables):
        return self.type(BRIDGE, "run", *words, **variables)

    def tool(self, name, text):
        """Installs a tool, or another version of it."""
        path = os.path.join(self.tools, name)
        with open(path + ".new", "w", encoding="utf-8") as file:
            file.write("#!/bin/sh\n" + text)
        os.chmod(path + ".new", 0o755)
        os.rename(path + ".new", path)

    def starts_with(self, *hooks):
        """Commits a configuration of these hooks, and installs the hook."""
        self.git.configure(*hooks)
        self.git.git("commit", "--quiet", "-m", "The configuration")
        status, text = self.type(BRIDGE, "install")
        same("install", status, 0)
        return text


def made(answer, *parts):
    check(answer[0], f"the commit isn't made: {answer[1]!r}")
    says(answer[1], *parts)


def not_made(answer, *parts):
    check(not answer[0], f"the commit is made: {answer[1]!r}")
    says(answer[1], *parts)


def says(text, *parts):
    for part in parts:
        check(part in text, f"{part!r} isn't in {text!r}")


def ends(answer, status, *parts):
    same("status", answer[0], status)
    says(answer[1], *parts)


def system(name, entry, keys=""):
    """A hook of the language `system` with this id, name and entry."""
    return f"id: {name}, name: {name}, language: system, {entry}" + (", " + keys if keys else "")


# ---- what a tool finds


def tools_find_the_top_of_a_tree(desk):
    desk.git.add(".gitignore", "build/\n")
    desk.starts_with(
        system("black", "entry: black --quiet --check .", "pass_filenames: false, always_run: true"),
        system("rg", shell("! rg --quiet secret ."), "pass_filenames: false, always_run: true"),
        system("fd", shell("! fdfind --extension bad . | grep -q ."), "pass_filenames: false, always_run: true"),
    )
    desk.git.add("a.py", 'X = "fine"\n')
    made(desk.commit())
    desk.git.add("a.py", "x = { 'a':1 }\n")
    not_made(desk.commit(), "black...", "Failed\n- hook id: black\n- exit code: 1")
    desk.git.add("a.py", 'X = "secret"\n')
    not_made(desk.commit(), "Failed\n- hook id: rg\n- exit code: 1")
    desk.git.add("a.py", 'X = "fine"\n')
    desk.git.add("b.bad", "b\n")
    not_made(desk.commit(), "Failed\n- hook id: fd\n- exit code: 1")


def scripts_are_executable(desk):
    desk.git.add("scripts/lint.sh", "#!/bin/sh\n! grep -n BAD \"$@\"\n", 0o755)
    desk.git.add("Makefile", "lint:\n\t./scripts/lint.sh a.txt\n")
    desk.git.add("a.txt", "good\n")
    desk.starts_with(
        system("make", "entry: make --silent lint", "pass_filenames: false"),
        system("bash", "entry: bash -c './scripts/lint.sh a.txt'", "pass_filenames: false"),
        system("mode", shell("test -x scripts/lint.sh && ! test -x a.txt"), "pass_filenames: false"),
        system("chmod", shell("chmod +x a.txt"), "pass_filenames: false"),
        system("mode again", shell("! test -x a.txt"), "pass_filenames: false"),
    )
    desk.git.add("a.txt", "better\n")
    made(desk.commit())
    desk.git.add("a.txt", "BAD\n")
    not_made(desk.commit(), "- hook id: make", "- hook id: bash")


def a_lost_folder_removes_nothing(desk):
    files = {f"{number}.txt": f"{number}\n" for number in range(20)}
    for name, held in files.items():
        desk.git.add(name, held)
    desk.starts_with(system("lost", shell('rm -rf "../${PWD##*/}"'), "pass_filenames: false, always_run: true"), system("moved", shell('mv "$PWD" "$PWD.gone"; mkdir "$PWD"'), "pass_filenames: false, always_run: true"))
    desk.git.add("0.txt", "0 again\n")
    not_made(desk.commit(), "- hook id: lost\n- fault: files could not be written or read back", "- hook id: moved\n- fault: files could not be written or read back", "hookhost: ")
    for name, held in (files | {"0.txt": "0 again\n"}).items():
        same(name, desk.git.read(name).decode(), held)


def many_files_are_not_removed(desk):
    for number in range(12):
        desk.git.add(f"dir/a b{number}'.txt", f"{number}\n")
    desk.starts_with(system("clean", shell('rm -rf -- "$@"')))
    desk.git.add("c.txt", "c\n")
    not_made(desk.commit(), "hookhost-git: removed: c.txt")
    status, text = desk.run("--all-files")
    same("status", status, 1)
    same("files that are left", len(os.listdir(os.path.join(desk.git.folder, "dir"))), 12)
    command = [line.partition("as they are staged: ")[2] for line in text.splitlines() if "as they are staged: " in line]
    check(len(command) == 1, f"no command removes them: {text!r}")
    desk.git.write("dir/a b3'.txt", "edited meanwhile\n")
    subprocess.run(["sh", "-c", command[0]], check=True, env=desk.git.env, cwd="/", capture_output=True)
    same("files that are left", os.listdir(os.path.join(desk.git.folder, "dir")) or ["a b3'.txt"], ["a b3'.txt"])


def a_fix_loses_no_text(desk):
    desk.starts_with(system("blanks", "entry: sed -i 's/ *$//'", "files: txt$"))
    desk.git.add("a.txt", "a  \n")
    # Another program appends to the file right before it is replaced.
    desk.tool("mv", f'case "$*" in *{desk.git.folder}/a.txt) echo more >> {quoted(desk.git.folder)}/a.txt;; esac\nexec /bin/mv "$@"\n')
    not_made(desk.commit())
    os.remove(os.path.join(desk.tools, "mv"))
    check(b"more\n" in desk.git.read("a.txt"), f"the text is lost: {desk.git.read('a.txt')!r}")


def what_is_left_out_does_not_pass(desk):
    desk.starts_with(system("large", shell('test "$(cat -- "$@" | wc -c)" -le 500000')))
    desk.git.add("h.bin", b"x" * 20_000_000)
    not_made(desk.commit(), "h.bin has more than 16777216 bytes", "git config hookhost.allowLeftOut true")
    desk.git.git("config", "hookhost.allowLeftOut", "true")
    made(desk.commit(), "h.bin has more than 16777216 bytes")
    desk.git.git("config", "--unset", "hookhost.allowLeftOut")
    desk.git.add("a.txt", "a\n")
    made(desk.commit())
    desk.git.add("tab\there.txt", "a\n")
    not_made(desk.commit(), "has a name that hookhost doesn't take")
    desk.git.git("rm", "--quiet", "--cached", "tab\there.txt")
    desk.git.add(".hookhost/x", "a\n")
    not_made(desk.commit(), ".hookhost/x")


def a_hook_that_calls_git_looks_at_the_commit(desk):
    desk.starts_with(system("branch", shell("test \"$(git branch --show-current)\" != main")), system("secrets", shell("! git grep -n secret a.txt")))
    desk.git.add("a.txt", "secret\n")
    not_made(desk.commit(), "branch....", "a.txt:1:secret")
    desk.git.git("checkout", "--quiet", "-b", "work")
    desk.git.add("a.txt", "none\n")
    desk.git.write("a.txt", "a secret that isn't staged\n")
    answer = desk.commit()
    made(answer, "branch....", "secrets....")
    check("Failed" not in answer[1], f"a hook failed: {answer[1]!r}")
    desk.git.git("checkout", "--quiet", "-f", "main")
    desk.git.git("merge", "--quiet", "--squash", "work")
    not_made(desk.commit(), "branch....", "Failed")


def a_hook_that_names_no_repository_is_refused(desk):
    desk.starts_with(system("plain", shell("true")), system("secrets", shell("! git --git-dir=.git grep -q secret")))
    desk.git.add("a.txt", "secret\n")
    answer = desk.commit()
    not_made(answer, "secrets", "git --git-dir=.git grep -q secret")
    # At the terminal a hook's line is there as soon as the hook has ended, and then the last word is that nothing counts.
    same("the line of the hook that is refused", re.findall("^secrets\\.+(?!Failed)[A-Z].*$", answer[1], re.MULTILINE), [])
    says(answer[1].strip().splitlines()[-1], "hookhost-git: so nothing counts as checked")
    elsewhere = desk.git.run(BRIDGE, "run")
    same("what is printed where no terminal is", (elsewhere.status, elsewhere.out), (3, ""))
    same("what stays cached", desk.git.store("memory").out, "remembered: 0\n")
    made(desk.commit(SKIP="secrets"))
    desk.git.configure(system("fine", shell("git --version > /dev/null && git init --quiet x && git -C x status --short && git diff --no-index a.txt a.txt")))
    made(desk.commit(), "fine")


def what_cannot_be_started_is_named(desk):
    desk.starts_with(system("lint", "entry: no-such-linter --check"))
    desk.git.add("a.txt", "a\n")
    not_made(desk.commit(), "- fault: could not be started", "no-such-linter")
    desk.tool("no-such-linter", "exit 0\n")
    made(desk.commit())


def variables_name_the_top(desk):
    desk.git.write(".venv/bin/tool", "#!/bin/sh\necho the tool\n", 0o755)
    desk.starts_with(system("venv", "entry: bash -c '\"$HOOKHOST_TOP/.venv/bin/tool\"; echo PRE_COMMIT=$PRE_COMMIT'", "verbose: true"))
    desk.git.add("a.txt", "a\n")
    made(desk.commit(), "the tool\nPRE_COMMIT=1")


# ---- what is cached


def an_edit_of_a_configuration_file_counts(desk):
    desk.git.add(".yamllint", "extends: relaxed\n")
    desk.git.add("a.yaml", "---\na: 1\nb:    2\n")
    desk.starts_with(system("yamllint", "entry: yamllint --strict", "files: '\\.yaml$', exclude: '^\\.'"), system("own", "entry: sh -c 'grep -q relaxed .yamllint'", "files: '\\.yaml$'"))
    answer = desk.run("--all-files")
    same("the first run", desk.run("--all-files")[0], answer[0])
    desk.git.add(".yamllint", "rules:\n  document-start: disable\n  colons: disable\n")
    ends(desk.run("--all-files"), 1, "own....", "Failed\n- hook id: own")
    desk.git.add("a.yaml", "a: 1\nb: 2\n")
    desk.git.add(".yamllint", "# relaxed\nrules:\n  document-start: disable\n")
    ends(desk.run("--all-files"), 0)
    desk.git.add(".yamllint", "# relaxed\nrules:\n  document-start: enable\n")
    ends(desk.run("--all-files"), 1, "Failed\n- hook id: yamllint")


def a_failure_is_not_cached(desk):
    desk.starts_with(system("server", f"entry: bash -c 'test -e {desk.top}/up'"))
    desk.git.add("a.txt", "a\n")
    not_made(desk.commit(), "- hook id: server")
    desk.git.write("../up", "")
    made(desk.commit())


def a_tool_is_installed_and_upgraded(desk):
    desk.starts_with(system("lint", "entry: bash -c 'mylint \"$@\"' --"))
    desk.git.add("a.txt", "a\n")
    not_made(desk.commit(), "- exit code: 127")
    desk.tool("mylint", "exit 0\n")
    made(desk.commit())
    ends(desk.run("--all-files"), 0)
    desk.tool("mylint", "echo stricter; exit 1\n")
    ends(desk.run("--all-files"), 1, "stricter")


def a_second_commit_starts_nothing(desk):
    count = os.path.join(desk.top, "count")
    desk.starts_with(*(system(name, shell(f": {name}; echo x >> {count}")) for name in ("first", "second")), system("always", shell(f"echo x >> {count}"), "always_run: true, files: '^$'"))
    desk.git.add("a.txt", "a\n")
    ends(desk.run(), 0)
    same("commands that were started", len(content(count)), 6)
    made(desk.commit())
    same("commands that were started", len(content(count)), 6)
    desk.git.git("config", "hookhost.cautious", "false")
    desk.git.add("b.txt", "b\n")
    ends(desk.run("--files", "a.txt"), 0)
    same("commands that were started", len(content(count)), 12)
    desk.git.add("c.txt", "c\n")
    ends(desk.run("--files", "a.txt", "--verbose"), 0, "answered from the cache: 3\n")
    same("commands that were started", len(content(count)), 12)


# ---- what is asked of a run


def a_run_takes_names_and_options(desk):
    desk.starts_with(system("names", shell('printf "<%s>" "$@"'), "verbose: true"), system("other", "entry: 'true'"))
    desk.git.add("a.txt", "a\n")
    made(desk.commit("-m", "a"))
    desk.git.add("b.txt", "b\n")
    made(desk.commit("-m", "b"))
    text = desk.run("names", "--all-files")[1]
    says(text, "<a.txt><b.txt>")
    check("other" not in text, f"another hook ran: {text!r}")
    ends(desk.run("--from-ref", "HEAD~1", "--to-ref", "HEAD"), 0, "<b.txt>\n")
    ends(desk.run("--files", "a.txt"), 0, "<a.txt>\n")
    ends(desk.run("--files", "nowhere.txt"), 3, "nowhere.txt")
    ends(desk.run("--all-files", "--verbose"), 0, "- hook id: other", "answered from the cache: ")
    ends(desk.run("--all-files", "--fresh", "--verbose"), 0, "answered from the cache: 0\n")
    ends(desk.type(BRIDGE, "--help"), 0, "--show-diff-on-failure")
    ends(desk.type(BRIDGE, "--version"), 0, "hookhost")
    ends(desk.type(BRIDGE, "no", "such", "words"), 2)


def lines_are_shown_as_hooks_end(desk):
    """At a terminal each line is shown once, and the report is the same as elsewhere."""
    shown = '"${HOOKHOST_GIT_CALLS%/*}/shown"'
    hooks = [system("first", shell("echo said by the first"), "verbose: true"), system("second", shell(f"grep -q 'said by the first' {shown} && grep -q '^first.*Passed' {shown} && ! grep -q '^second' {shown}"))]
    desk.starts_with(*hooks, system("third", shell("echo said by the third; exit 1")))
    desk.git.add("a.txt", "a\n")
    # Elsewhere nothing is shown before all have ended, so the second hook fails.
    plain = desk.git.bridge("run")
    same("elsewhere", (plain.status, plain.out.count("Failed")), (1, 2))
    for status, text in (desk.type(BRIDGE, "run"), desk.type("git", "commit", "--quiet", "-m", "m")):
        check(status != 0, f"the third hook passes: {text!r}")
        same("the lines of hooks", re.findall("^(first|second|third)\\.+(Passed|Failed)$", text, re.MULTILINE), [("first", "Passed"), ("second", "Passed"), ("third", "Failed")])
        for part in ("said by the first", "said by the third", "- hook id: first", "- hook id: third", "- exit code: 1"):
            same(f"how often {part!r} is printed in {text!r}", text.count(part), 1)
    # With standard output elsewhere the report is there, whole. The second hook's answer is cached by now.
    status, text = desk.type("sh", "-c", f"{quoted(BRIDGE)} run > report")
    same("the report in a file", (status, desk.git.read("report").decode()), (1, plain.out.replace("Failed\n- hook id: second\n- exit code: 1\n", "Passed\n")))
    check("said by" not in text, f"it is at the terminal too: {text!r}")
    # What follows from all hooks is at the end.
    desk.git.configure(*hooks)
    status, text = desk.run("--verbose")
    same("the last line", (status, text.rstrip().splitlines()[-1][:-1], text.count("- hook id: second")), (0, "answered from the cache: ", 1))


def a_variable_of_ones_own_shows_nothing(desk):
    desk.starts_with(system("fine", shell('! [ "${HOOKHOST_SHOWN##*/}" = mine ]')))
    desk.git.add("a.txt", "a\n")
    mine = os.path.join(desk.top, "mine")
    same("run", desk.git.bridge("run", env={"HOOKHOST_SHOWN": mine}).status, 0)
    ends(desk.run("--fresh", HOOKHOST_SHOWN=mine), 0, "fine....")
    check(not os.path.exists(mine), "the report is written into a file of one's own")


def colors_are_chosen(desk):
    desk.starts_with(system("fine", "entry: 'true'"), system("none", "entry: 'true'", "files: nowhere"), system("left", "entry: 'true'"), system("ends", "entry: 'false'"))
    desk.git.add("a.txt", "a\n")
    desk.git.env["SKIP"] = "left"
    wanted = [("42", "Passed"), ("46;30", "Skipped"), ("43;30", "Skipped"), ("41", "Failed")]
    for words, variables, at_terminal, elsewhere in (
        ([], {}, True, False), (["--color=auto"], {}, True, False), (["--color", "always"], {}, True, True), (["--color=never"], {}, False, False),
        ([], {"NO_COLOR": "1"}, False, False), ([], {"TERM": "dumb"}, False, False), (["--color=always"], {"NO_COLOR": "1", "TERM": "dumb", "PRE_COMMIT_COLOR": "never"}, True, True),
        ([], {"PRE_COMMIT_COLOR": "always", "NO_COLOR": "1"}, True, True), ([], {"PRE_COMMIT_COLOR": "never"}, False, False), (["--color=never"], {"PRE_COMMIT_COLOR": "always"}, False, False),
        (["--color=always", "--color", "never"], {}, False, False), (["--files", "a.txt", "--color", "always", "--verbose"], {}, True, True),
    ):
        for answer, is_colored in ((desk.type_for_colors(BRIDGE, "run", *words, **variables), at_terminal), (desk.git.bridge("run", *words, env=variables), elsewhere)):
            status, text = answer if isinstance(answer, tuple) else (answer.status, answer.out)
            same(f"the colors with {words!r} and {variables!r}", (status, COLORED.findall(text)), (1, wanted if is_colored else []))
            same(f"what is printed with {words!r} and {variables!r}", SHOWN.sub("", text).count("fine....."), 1)
    for words in (["--color"], ["--color="], ["--color", "sometimes"], ["--color=Always"], ["--files", "a.txt", "--color"]):
        ends(desk.run(*words), 2, "hookhost-git: --color takes auto, always or never, and not: ", "Usage: hookhost-git")


def colors_of_a_diff(desk):
    desk.starts_with(system("blanks", "entry: sed -i 's/ *$//'", "files: txt$"))
    for words, is_colored in (([], False), (["--color=always"], True), (["--color=never"], False)):
        desk.git.add("a.txt", "a  \n")
        answer = desk.git.bridge("run", "--show-diff-on-failure", *words)
        same(f"the diff with {words!r}", (answer.status, "\x1b[" in answer.out.partition("All changes made by hooks:")[2]), (1, is_colored))


def a_program_without_colors_is_refused(desk):
    desk.starts_with(system("fine", "entry: 'true'"))
    desk.git.add("a.txt", "a\n")
    desk.tool("older", f'case $* in "run --help") echo "Usage: hookhost run [--cautious] [--fresh]"; exit 2 ;; esac\nexec {quoted(PROGRAM)} "$@"\n')
    program = os.path.join(desk.tools, "older")
    for words in (["run"], ["run", "--color=never"], ["install"]):
        ends(desk.type(BRIDGE, *words, HOOKHOST=program), 3, f"hookhost-git: hookhost is older than hookhost-git, which needs one that knows 'run --color': {program}\n")
    not_made(desk.commit(HOOKHOST=program), "'run --color'")
    made(desk.commit())


def a_diff_is_shown_on_failure(desk):
    desk.starts_with(system("blanks", "entry: sed -i 's/ *$//'", "files: txt$"))
    desk.git.add("a.txt", "a  \n")
    ends(desk.run("--show-diff-on-failure"), 1, "fixed: a.txt", "-a  ", "+a")


# ---- what is said


def no_hint_leads_out_of_git(desk):
    desk.starts_with(system("blanks", "entry: sed -i 's/ *$//'", "files: txt$"))
    desk.git.add("a.txt", "a  \n")
    answer = desk.commit()
    not_made(answer, "hookhost-git: fixed: a.txt")
    check("hint:" not in answer[1] and "accept" not in answer[1], f"a hint leads elsewhere: {answer[1]!r}")
    check(not os.path.exists(os.path.join(desk.git.folder, ".hookhost")), "there is a second repository")
    desk.git.git("add", "a.txt")
    made(desk.commit())


def a_refused_configuration_is_explained(desk):
    desk.starts_with(system("fine", "entry: 'true'"))
    desk.git.add(".pre-commit-config.yaml", "repos:\n- repo: https://example.invalid/tools\n  rev: v1\n  hooks:\n  - id: x\n")
    desk.git.write(".pre-commit-config.yaml", "repos: []\n")
    not_made(desk.commit(), ".pre-commit-config.yaml:2:", "https://example.invalid/tools", "8 BadConfig")


def install_lists_stages(desk):
    desk.git.add(".pre-commit-config.yaml", "repos: [\n")
    ends(desk.type(BRIDGE, "install"), 0, "installed: ", ".pre-commit-config.yaml:1:")
    text = desk.starts_with(system("fine", "entry: 'true'", "stages: [pre-commit]"), system("subject", "entry: 'true'", "stages: [commit-msg]"), system("tests", "entry: 'true'", "stages: [pre-push]"))
    says(text, "installed: ", "runs: pre-commit (1 hook), commit-msg (1 hook)", "not run: other stages (tests)", "not served: pre-push")


# ---- messages


def a_message_is_refused_and_given_again(desk):
    """The hook before it names the branch, which the editor shows, and the one after it asks for a capital letter."""
    desk.git.add(".gitignore", "*.log\n")
    desk.starts_with(
        system("ticket", shell('sed -i "1s/^/$(git branch --show-current): /" "$1"'), "stages: [prepare-commit-msg]"),
        system("subject", shell('grep ": [A-Z]" "$1"'), "stages: [commit-msg]"),
        system("tell", shell("git log -1 --format='made: %s'"), "stages: [post-commit], always_run: true, verbose: true"),
    )
    desk.git.git("checkout", "--quiet", "-b", "T-1")
    desk.git.add("a.txt", "a\n")
    not_made(desk.commit("-m", "add a"), "ticket.", "Passed\n", "subject.", "Failed\n- hook id: subject\n- exit code: 1\n")
    same("what is staged", desk.git.git("status", "--short"), "A  a.txt\n")
    # An editor gets the message with the branch, between the others' lines.
    desk.tool("editor", 'cp "$1" shown.log\nsed -i "1s/$/Add a/" "$1"\n')
    made(desk.commit("--verbose", GIT_EDITOR="editor"), "subject.", "Passed\ntell.", "- hook id: tell\n", "made: T-1: Add a\n")
    shown = desk.git.read("shown.log").decode()
    check(shown.startswith("T-1: \n") and "# Changes to be committed:" in shown and "+a\n" in shown, f"{shown!r}")
    same("the message", desk.git.git("log", "-1", "--format=%B"), "T-1: Add a\n\n")
    made(desk.commit("--amend", "-m", "add it", "--no-verify"), "ticket.", "made: T-1: add it\n")


SESSIONS = [
    tools_find_the_top_of_a_tree, scripts_are_executable, a_lost_folder_removes_nothing, many_files_are_not_removed, a_fix_loses_no_text,
    what_is_left_out_does_not_pass, a_hook_that_calls_git_looks_at_the_commit, a_hook_that_names_no_repository_is_refused, what_cannot_be_started_is_named, variables_name_the_top,
    an_edit_of_a_configuration_file_counts, a_failure_is_not_cached, a_tool_is_installed_and_upgraded, a_second_commit_starts_nothing,
    a_run_takes_names_and_options, lines_are_shown_as_hooks_end, a_variable_of_ones_own_shows_nothing, colors_are_chosen, colors_of_a_diff, a_program_without_colors_is_refused, a_diff_is_shown_on_failure, no_hint_leads_out_of_git, a_refused_configuration_is_explained, install_lists_stages,
    a_message_is_refused_and_given_again,
]


def main():
    chosen = [session for session in SESSIONS if PART in session.__name__]
    failed = 0
    for session in chosen:
        top = tempfile.mkdtemp(prefix="git-session-")
        try:
            session(Desk(top))
        except (Wrong, subprocess.SubprocessError, OSError) as error:
            failed += 1
            print(f"git_sessions: FAILED: {session.__name__}: {error}", flush=True)
        finally:
            shutil.rmtree(top, ignore_errors=True)
    print(f"git_sessions: {len(chosen) - failed} passed, {failed} failed")
    return 1 if failed else 0


sys.exit(main())
