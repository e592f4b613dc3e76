"""Hooks that look for files and words by themselves, and hooks that call Git, for tests/git/real_tools.py.

A word is written in a hook so that its pattern doesn't find the hook.
"""
from git_bridge_repository import shell
from real_tools_case import Case, Edit, whole, whole_shell

SETTINGS = {"/.gitignore": "*.log\n", "/.ignore": "*.bak\n", "/.fdignore": "*.rej\n", "/.ackrc": "--ignore-file=ext:old\n"}


def ignoring(path, stricter, laxer):
    return (Edit(path[1:], {path: stricter}, {path: laxer}),)


# It would search a pipe, as which pre-commit hands an empty input to hooks.
ACK = "ack --nofilter"
GIT_IGNORE = ignoring("/.gitignore", "*.other\n", "*.lo[g]\n")
IGNORE = ignoring("/.ignore", "*.other\n", "*.ba[k]\n")


def words(name, command, ignored="", edits=(), keys=""):
    """A hook that looks for a word in all files, of which an ignored one has it."""
    files = {"a.txt": "a\n"} | ({ignored: f"{name}_secret\n"} if ignored else {})
    line = f"! {command} {name}[_]secret ."
    return Case(name, whole_shell(line) + keys, files, {"a.txt": f"{name}_secret\n"}, edits)


def no_files(name, command, bad):
    """A hook at which no file has a name."""
    return Case(name, whole_shell(f'test -z "$({command})"'), {"a.txt": "a\n"}, {bad: "a\n"})


def cases():
    by_names = ' -- "$@"'
    return [
        words("rg_dot", "rg"),
        words("rg_gitignore", "rg", "a.log", GIT_IGNORE),
        words("rg_ignore", "rg", "a.bak", IGNORE),
        words("rg_hidden", "rg --hidden --glob !.git"),
        Case("rg_names", shell("! rg rg_names[_]secret" + by_names), {"a.txt": "a\n"}, {"a.txt": "rg_names_secret\n"}),
        Case("rg_hidden_file", whole_shell("! rg rg_hidden_file[_]secret ."), {".a.txt": "rg_hidden_file_secret\n"}, {"b.txt": "rg_hidden_file_secret\n"}),
        words("ack_dot", ACK),
        words("ack_settings", ACK, "a.old", ignoring("/.ackrc", "--ignore-file=ext:other\n", "--ignore-file=ext:old\n--ignore-file=ext:older\n")),
        words("grep_r", "grep -rn"),
        words("grep_exclude", "grep -rn --exclude-dir=.git --exclude=*.skip", "a.skip"),
        Case("grep_names", shell("! grep -Hn grep_names[_]secret" + by_names), {"a.txt": "a\n"}, {"a.txt": "grep_names_secret\n"}),
        no_files("fdfind_dot", "fdfind --extension orig", "a.orig"),
        Case("fdfind_gitignore", whole_shell('test -z "$(fdfind --extension log . fdfind_gitignore)"'), {"a.log": "a\n"}, {"/.gitignore": "*.other\n"}, GIT_IGNORE),
        Case("fdfind_ignore", whole_shell('test -z "$(fdfind --extension rej)"'), {"a.rej": "a\n"}, {"/.fdignore": "*.other\n"}, ignoring("/.fdignore", "*.other\n", "*.re[j]\n")),
        no_files("fdfind_hidden", "fdfind --hidden --extension swp .", ".a.swp"),
        no_files("find_name", "find . -name '*.tmp'", "a.tmp"),
        Case("find_empty", whole_shell('test -z "$(find find_empty -type f -empty)"'), {"a.txt": "a\n"}, {"a.txt": ""}),
        no_files("shell_glob", "ls shell_glob/*.zip 2> /dev/null", "a.zip"),
        Case("always_run", shell("! grep -rn FAI[L]ED_word .") + ", always_run: true, files: '^no file$'", {"a.txt": "a\n"}, {"a.txt": "FAILED_word\n"},
             (Edit("another file", {"b.txt": "FAILED_word\n"}, {"b.txt": "PASSED_word\n"}),)),
    ]


LICENCE = "SPDX-FileCopyrightText: 2026 A Tester <tester@example.invalid>\n\nSPDX-License-Identifier: CC0-1.0\n"


def bare_cases():
    """Hooks over a tree without ignore files."""
    return [
        words("rg_bare", "rg"),
        words("ack_bare", ACK),
        no_files("fdfind_bare", "fdfind --extension orig", "a.orig"),
        no_files("find_absolute", 'find "$PWD" -name "*.part" -not -path "*/.git/*"', "a.part"),
    ]


def git_cases():
    """Hooks that call Git, which have a repository of their own."""
    return [
        Case("git_grep", whole("git grep -q git_grep[_]needed"), {"a.txt": "git_grep_needed\n"}, {"a.txt": "a\n"}),
        Case("git_grep_not", whole_shell("! git grep -q git_grep_not[_]secret"), {"a.txt": "a\n"}, {"a.txt": "git_grep_not_secret\n"}),
        Case("git_diff_check", whole("git diff --cached --check"), {"a.txt": "a\n"}, {"a.txt": "a  \n"}),
        Case("git_ls_files", whole_shell('test -z "$(git ls-files *.orig)"'), {"a.txt": "a\n"}, {"/a.orig": "a\n"}),
        Case("git_top", whole_shell('cd "$(git rev-parse --show-toplevel)" && ! grep -rn git_top[_]secret git_top'), {"a.txt": "a\n"}, {"a.txt": "git_top_secret\n"}),
        Case("git_in_names", shell('git ls-files --error-unmatch -- "$@" > /dev/null && ! grep git_in_names[_]secret -- "$@"'), {"a.txt": "a\n"}, {"a.txt": "git_in_names_secret\n"}),
        Case("git_check_attr", whole_shell("git check-attr text -- git_check_attr/a.txt | grep -q ': set$'"), {"/.gitattributes": "*.txt text\n", "a.txt": "a\n"}, {"/.gitattributes": "*.md text\n"}),
        Case("isort_gitignore", whole("isort --check-only --quiet --skip-gitignore isort_gitignore"), {"a.py": "import os\nimport sys\n"}, {"a.py": "import sys\nimport os\n"}),
        Case("git_check_ignore", whole_shell("git check-ignore --quiet git_check_ignore/a.log && ! grep -rn git_check_ignore[_]secret git_check_ignore"), {"a.txt": "a\n"},
             {"a.txt": "git_check_ignore_secret\n"}),
        # It asks Git for `core.excludesFile`.
        words("ag_dot", "ag"),
        words("ag_gitignore", "ag", "a.log"),
        # It asks Git for the top, and for what is ignored.
        Case("reuse", whole("reuse --root reuse lint"), {"LICENSES/CC0-1.0.txt": "CC0\n", "a.txt": LICENCE}, {"a.txt": "a\n"}),
    ]
