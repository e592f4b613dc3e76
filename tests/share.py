#!/usr/bin/env python3
"""Tests the files of share/: that share/make.py makes them from the help of the program and of hookhost-reads, the completions in real
shells, the manual page, and the list of share/install.

Usage: tests/share.py [PROGRAM]   (default: crates/hookhost/out/hookhost)

The files have to be those that share/make.py makes, and its --check has to find one more line in each. Bash is asked what it
proposes for the lines of CASES and for each command and its options, and so is fish if it is installed. zsh has to read its files,
if it is installed. The program or hookhost-reads has to take what is proposed, and of the stages of docs/REFERENCE.md the program
may take no other. The manual page has to hold each text of the help, and man, groff and mandoc, if they are installed, have to read
it without a warning.
"""
import os
import re
import shlex
import shutil
import subprocess
import sys
import tempfile

sys.path.insert(0, os.path.abspath(f"{__file__}/../shared"))
from places import TOP, program

SHARE = os.path.join(TOP, "share")
PROGRAM = os.path.abspath(sys.argv[1] if len(sys.argv) > 1 else program("hookhost"))
READS = os.path.join(TOP, "git", "hookhost-reads")
MADE_OF_READS = ["hookhost-reads.bash", "_hookhost-reads", "hookhost-reads.fish"]
MADE = ["hookhost.bash", "_hookhost", "hookhost.fish", "hookhost.1", *MADE_OF_READS]
FILES = [".pre-commit-config.yaml", "README.md", "my file.md", "src/main.c"]

# A line up to the cursor, and what its last word may become.
CASES = [
    ("hookhost st", ["status"]),
    ("hookhost run", ["run", "run-files"]),
    ("hookhost help", []),
    ("hookhost -", ["--help", "--version", "-V", "-h"]),
    ("hookhost run --hook-stage=", ["--hook-stage=manual", "--hook-stage=pre-commit"]),
    ("hookhost run --hook-stage=m", ["--hook-stage=manual"]),
    ("hookhost run --hook-stage ", ["manual", "pre-commit"]),
    ("hookhost run-files --hook-stage pre", ["pre-commit"]),
    ("hookhost run-files --hook-stage manual R", ["README.md"]),
    ("hookhost run-files --hook-stage=manual README.md s", ["src"]),
    ("hookhost run --hook-stage=manual --fr", ["--fresh"]),
    ("hookhost run --fresh --fr", []),
    ("hookhost run R", []),
    ("hookhost add --chmod=", ["--chmod=+x"]),
    ("hookhost add --chmod ", ["+x"]),
    ("hookhost add --chmod=+x R", ["README.md"]),
    ("hookhost add --chmod +x R", ["README.md"]),
    ("hookhost add my", ["my file.md"]),
    ("hookhost add src/", ["src/main.c"]),
    ("hookhost add README.md s", ["src"]),
    ("hookhost rm README.md my", ["my file.md"]),
    ("hookhost add --paths-from R", ["README.md"]),
    ("hookhost explain .pre", [".pre-commit-config.yaml"]),
    ("hookhost explain .pre-commit-config.yaml R", []),
    ("hookhost add commit --no", []),
    ("hookhost try .pre", [".pre-commit-config.yaml"]),
    ("hookhost try .pre-commit-config.yaml README.md s", ["src"]),
    ("hookhost rm R", ["README.md"]),
    ("hookhost cat R", ["README.md"]),
    ("hookhost run --jobs ", []),
    ("hookhost run-files --jobs 2 R", ["README.md"]),
    ("hookhost commit -m ", []),
    ("hookhost commit -m R", []),
    ("hookhost commit -m run --no", ["--no-verify"]),
    ("hookhost show R", []),
    ("hookhost status R", []),
    ("hookhost nope R", []),
]
# What fish answers differently: files with names that are hard to propose, options if a command takes no more paths, and those with a
# value, which it proposes again.
BASH_FILES = ["a=b.md", "c:d.md", "-dash.md"]
BASH_CASES = [
    ("hookhost add a=", ["a=b.md"]),
    ("hookhost add c:d", ["c:d.md"]),
    ("hookhost add -- -", ["-dash.md"]),
    ("hookhost status ", ["--help", "-h"]),
    ("hookhost cat README.md ", ["--commit=", "--fixed", "--help", "-h"]),
    ("hookhost add --paths-from=R", ["--paths-from=README.md"]),
    ("hookhost run-files --paths-from=src/", ["--paths-from=src/main.c"]),
    ("hookhost run --fresh ", ["--all-files", "--cautious", "--color=", "--help", "--hook-stage=", "--jobs=", "--verbose", "-h"]),
    ("hookhost run --cautious --v", ["--verbose"]),
    ("hookhost run-files --o", ["--only="]),
    ("hookhost run --hook-stage=manual --h", ["--help"]),
    ("hookhost run --hook-stage manual --h", ["--help"]),
]
# The same of hookhost-reads.
READS_CASES = [
    ("hookhost-reads ", []),
    ("hookhost-reads R", []),
    ("hookhost-reads -", ["--all-files", "--cautious", "--each", "--files", "--help", "-h"]),
    ("hookhost-reads id --c", ["--cautious"]),
    ("hookhost-reads --cautious --c", []),
    ("hookhost-reads --all-files -", ["--cautious", "--each", "--help", "-h"]),
    ("hookhost-reads --all-files R", []),
    ("hookhost-reads --files R", ["README.md"]),
    ("hookhost-reads --files README.md s", ["src"]),
    ("hookhost-reads id --files README.md src/", ["src/main.c"]),
    ("hookhost-reads --files README.md --", ["--cautious", "--each", "--help"]),
    ("hookhost-reads --files README.md --each R", []),
    ("hookhost-reads --each --files my", ["my file.md"]),
    ("hookhost-reads --files -- R", ["README.md"]),
]
READS_BASH_CASES = [
    ("hookhost-reads --files a=", ["a=b.md"]),
    ("hookhost-reads --files c:d", ["c:d.md"]),
    ("hookhost-reads --files README.md -- -", ["-dash.md"]),
]
# Tools that read a file and say what is wrong with it.
SHELLS = [
    *((["bash", "-n"], name) for name in ["hookhost.bash", "hookhost-reads.bash"]),
    *((["shellcheck", "--shell=bash"], name) for name in ["hookhost.bash", "hookhost-reads.bash"]),
    *((["zsh", "-n"], name) for name in ["_hookhost", "_hookhost-reads"]),
    *((["fish", "--no-execute"], name) for name in ["hookhost.fish", "hookhost-reads.fish"]),
]
PAGES = [
    (["man", "--warnings", "-E", "UTF-8", "-l", "-Tutf8", "-Z"], "hookhost.1"),
    (["groff", "-man", "-ww", "-Tutf8", "-z"], "hookhost.1"),
    (["mandoc", "-Tlint", "-Wwarning"], "hookhost.1"),
]
# How the manual page is read, by the first of these that is installed.
READERS = [["groff", "-man", "-Tascii", "-P-cbou"], ["man", "-E", "ascii", "-l"], ["mandoc", "-Tascii"]]
SECTIONS = ["NAME", "SYNOPSIS", "DESCRIPTION", "COMMANDS", "DIAGNOSTICS", "EXIT STATUS", "FILES", "ENVIRONMENT", "SEE ALSO"]
ITEMS = [".pre-commit-config.yaml", ".hookhost/store.db", ".hookhost/store.db-wal", ".hookhost/lock", ".hookhost/scratch", "SKIP"]


def played(words, folder=TOP, given=""):
    """The status of a command, its standard output and its standard error."""
    done = subprocess.run(words, cwd=folder, input=given, stdout=subprocess.PIPE, stderr=subprocess.PIPE, text=True, timeout=60)
    return done.returncode, done.stdout, done.stderr


def help_of(*command):
    """The texts of the help of the program or a command, as empty lines part them."""
    return played([PROGRAM, *command, "--help"])[2].rstrip("\n").split("\n\n")


def rows_of(texts, head):
    """The rows of a table of the help."""
    table = "".join(text for text in texts if text.startswith(head + ":\n"))
    return re.findall(r"^ +(\S.*?) {2,}(.*)$", table, re.MULTILINE)


HELP = {name: help_of(name) for name, _ in rows_of(help_of(), "Commands")}


def options_of(name):
    """The options of a command, with `=` after a long one that takes a value."""
    for shown, _ in rows_of(HELP[name], "Options"):
        for option in re.findall(r"--?[A-Za-z][a-z-]*", shown):
            yield option + "=" if "<" in shown and option.startswith("--") else option


def cases():
    """The lines whose answers are the same in all shells: those of CASES, and those that come from the help."""
    yield from CASES
    yield "hookhost ", sorted(HELP)
    for name in HELP:
        yield f"hookhost {name} -", sorted(options_of(name))


# ---- the files. Here and below each check is yielded as whether it holds, and what is wrong if it doesn't.

def tried_files():
    """Whether the files are as share/make.py makes them, and whether it finds a line more in each, with a program and without."""
    for programs, names in [([PROGRAM], MADE), ([], MADE_OF_READS)]:
        status, _, said = played([sys.executable, os.path.join(SHARE, "make.py"), *programs, "--check"])
        yield status == 0, said.strip()
        for name in names:
            with tempfile.TemporaryDirectory() as folder:
                for part in ["docs", "git", "share"]:
                    shutil.copytree(os.path.join(TOP, part), os.path.join(folder, part))
                with open(os.path.join(folder, "share", name), "a", encoding="utf-8") as file:
                    file.write("x\n")
                status, _, said = played([sys.executable, os.path.join(folder, "share", "make.py"), *programs, "--check"])
            yield status == 1 and f"share/{name}:" in said, f"share/make.py doesn't find a line more in {name}: {said!r}"


def tried_readings(readings, wrong_line):
    """Whether each installed tool reads its file without a message, and says something if a wrong line follows."""
    for (tool, *words), name in readings:
        if not shutil.which(tool):
            print(f"share: {tool} isn't installed here and reads nothing")
            continue
        with tempfile.TemporaryDirectory() as folder:
            path = shutil.copy(os.path.join(SHARE, name), folder)
            status, told, said = played([tool, *words, path])
            # With -Z man prints the page, for another program to show.
            said += "" if "-Z" in words else told
            yield not status and not said, f"{tool} says of {name}: {said[:600]!r}"
            with open(path, "a", encoding="utf-8") as file:
                file.write(wrong_line)
            _, told, said = played([tool, *words, path])
            yield said or (told and "-Z" not in words), f"{tool} says nothing of a wrong line in {name}"


def tried_installed():
    """Whether share/install puts each script of git/ into bin/, and each module where its script looks for it."""
    with open(os.path.join(SHARE, "install"), encoding="utf-8") as file:
        listed = re.findall(r"^(\d+) git/(\S+) (\S+)$", file.read(), re.MULTILINE)
    wanted = []
    for folder, folders, names in os.walk(os.path.join(TOP, "git")):
        folders[:] = [name for name in folders if name != "__pycache__"]
        for path in (os.path.relpath(os.path.join(folder, name), os.path.join(TOP, "git")) for name in names):
            wanted.append(("644", path, f"share/hookhost/{path}") if "/" in path else ("755", path, f"bin/{path}"))
    yield sorted(listed) == sorted(wanted), f"share/install lists {sorted(set(listed) ^ set(wanted))} otherwise than git/ has them"
    for name in ["hookhost-import", "hookhost-reads"]:
        with tempfile.TemporaryDirectory() as folder:
            for _, path, place in listed:
                os.makedirs(os.path.dirname(os.path.join(folder, place)), exist_ok=True)
                shutil.copy(os.path.join(TOP, "git", path), os.path.join(folder, place))
            status, told, said = played([os.path.join(folder, "bin", name), "--help"], folder)
        yield status == 0 and told.startswith(f"Usage: {name} "), f"{name} doesn't find its modules where share/install puts them: {said!r}"


# ---- the shells

def pieces_of(line):
    """The words of a line as bash parts them for a completion; the last is that at the cursor, and may be empty."""
    return re.findall(r"[=:]+|[^\s=:]+", line) + ([""] if line.endswith(" ") else [])


def told_by_bash(lines, folder, name="hookhost"):
    """What bash proposes for each line, as the words that result from it: it doesn't repeat what it has parted from a word."""
    function = "_" + name.replace("-", "_")
    script = [f"source {shlex.quote(os.path.join(SHARE, name + '.bash'))}", f"complete -p {name}"]
    for line in lines:
        pieces = pieces_of(line)
        script.append(f"COMP_WORDS=({shlex.join(pieces)}) COMP_CWORD={len(pieces) - 1}; {function}")
        script.append("printf '%s\\t' \"${COMPREPLY[@]}\"; echo")
    status, told, said = played(["bash", "--norc", "--noprofile"], folder, "\n".join(script) + "\n")
    if status or said or not told.startswith(f"complete -F {function} {name}\n"):
        sys.exit(f"tests/share.py: bash answers {status}, {told[:300]!r}, {said[:600]!r}")
    parted = [re.match(r"(?:.*[=:])?", line.rpartition(" ")[2])[0] for line in lines]
    return [[before + it for it in row.split("\t") if it] for before, row in zip(parted, told.splitlines()[1:], strict=True)]


def told_by_fish(lines, folder, name):
    """What fish proposes for each line."""
    script = [f"source {shlex.quote(os.path.join(SHARE, name + '.fish'))}"]
    script += [f"complete -C {shlex.quote(line)}; echo ." for line in lines]
    status, told, said = played(["fish", "--no-config"], folder, "\n".join(script) + "\n")
    if status or said:
        sys.exit(f"tests/share.py: fish answers {status}, {said[:600]!r}")
    return [[it.split("\t")[0] for it in rows.splitlines()] for rows in re.split(r"^\.\n", told, flags=re.MULTILINE)[:-1]]


def lay(folder, paths):
    for path in paths:
        os.makedirs(os.path.join(folder, os.path.dirname(path)), exist_ok=True)
        open(os.path.join(folder, path), "w", encoding="utf-8").close()


def tried_completions(folder):
    """Whether the shells propose what the rows say. Fish puts a slash after a folder, and no `=` after an option."""
    lay(folder, FILES)
    for name, rows in [("hookhost", list(cases())), ("hookhost-reads", READS_CASES)] if shutil.which("fish") else []:
        for (line, wanted), found in zip(rows, told_by_fish([line for line, _ in rows], folder, name), strict=True):
            found, wanted = [it.rstrip("/") for it in found], [it.rstrip("=") for it in wanted]
            yield sorted(found) == sorted(wanted), f"fish proposes {sorted(found)} for {line!r} in place of {wanted}"
    lay(folder, BASH_FILES)
    for name, rows in [("hookhost", [*cases(), *BASH_CASES]), ("hookhost-reads", READS_CASES + READS_BASH_CASES)]:
        for (line, wanted), found in zip(rows, told_by_bash([line for line, _ in rows], folder, name), strict=True):
            yield sorted(found) == sorted(wanted), f"bash proposes {sorted(found)} for {line!r} in place of {wanted}"


# ---- the program

def is_usage(*words):
    """Whether a command is a usage error, or asks for help, by its exit status in an empty folder."""
    with tempfile.TemporaryDirectory() as folder:
        return played([PROGRAM, *words], folder)[0] == 2


def required_of(name, option="no option"):
    """The required words of a command, as its usage shows them outside brackets. Of those in parentheses one is enough: the
    option itself, otherwise the first."""
    told = re.sub(r"\[[^]]*\]", "", HELP[name][1].removeprefix("Usage: hookhost "))
    told = re.sub(r"\(([^)]*)\)", lambda it: "" if f" {option}" in it[1] else it[1].split(" | ")[0], told)
    return [{"<STAGE>": "pre-commit"}.get(word, "1") if word.startswith("<") else word for word in told.split()[1:]]


def takes_any(name, option):
    """Whether an option takes a value of which the program doesn't say that few words are allowed, as a number."""
    with tempfile.TemporaryDirectory() as folder:
        return option.endswith("=") and ": only " not in played([PROGRAM, name, option, *required_of(name, option)], folder)[2]


def tried_options(folder):
    """Whether the program takes each option that is proposed, with each of its values."""
    lines = [(name, option, f"hookhost {name} {option}") for name in HELP for option in options_of(name)]
    for (name, option, _), told in zip(lines, told_by_bash([line for *_, line in lines], folder), strict=True):
        yield told or takes_any(name, option), f"nothing is proposed for {option} of {name}"
        for word in told:
            required = required_of(name, option)
            words = [name, *required] if option in required else [name, word, *required]
            yield is_usage(*words) == (option in ("-h", "--help")), f"hookhost {name} doesn't take {word}, which is proposed"


def tried_options_of_reads(folder):
    """Whether hookhost-reads names each option that is proposed, and no other, and takes it: in an empty folder it can't work then."""
    proposed, = told_by_bash(["hookhost-reads -"], folder, "hookhost-reads")
    told = re.findall(r"^ +(-.*?)(?: {2}|$)", played([READS, "--help"])[1], re.MULTILINE)
    named = [it for shown in told for it in re.findall(r"--?[a-z][a-z-]*", shown)]
    yield sorted(proposed) == sorted(named), f"hookhost-reads names {named}, and {proposed} are proposed"
    for option in proposed:
        with tempfile.TemporaryDirectory() as empty:
            status, _, said = played([READS, option, *(["1"] if option == "--files" else [])], empty)
        yield status == (0 if option in ("-h", "--help") else 3), f"hookhost-reads doesn't take {option}, which is proposed: {said!r}"


def tried_stages(folder):
    """Whether just those stages of the reference are proposed that the program takes."""
    with open(os.path.join(TOP, "docs", "REFERENCE.md"), encoding="utf-8") as file:
        stages = re.findall(r"`([^`]+)`", re.search(r"^The stages are (.*?)\. ", file.read(), re.MULTILINE)[1])
    for name in ["run", "run-files"]:
        proposed, = told_by_bash([f"hookhost {name} --hook-stage "], folder)
        taken = [it for it in stages if not is_usage(name, f"--hook-stage={it}", *required_of(name))]
        yield sorted(proposed) == sorted(taken), f"{name} takes the stages {taken} of {stages}, and {proposed} are proposed"


# ---- the manual page

def plain(text):
    """A text without blanks, line ends, and the marks of placeholders."""
    return re.sub(r"[\s<>]", "", text)


def told_by_help():
    """What the page has to say: each text of the help, except the program's usage."""
    about, _, *texts = help_of()
    yield about[1:]
    yield from (text.removeprefix("Exit status:") for text in texts if not text.startswith(("Commands:", "Options:")))
    yield from (text for _, text in rows_of(texts, "Commands"))
    for about, usage, *texts in HELP.values():
        yield from [about, usage.removeprefix("Usage: ")]
        yield from (text for text in texts if not text.startswith(("Arguments:", "Options:")))
        rows = rows_of(texts, "Arguments") + rows_of(texts, "Options")
        yield from (re.sub(r"[][.]", "", shown) + text for shown, text in rows)


def tried_page():
    """Whether the manual page has each section, file, variable and text of the help."""
    reader = next((it for it in READERS if shutil.which(it[0])), None)
    if reader is None:
        print("share: none of groff, man and mandoc is installed here, so nobody reads the manual page")
        return
    shown = re.sub(".\b", "", played([*reader, os.path.join(SHARE, "hookhost.1")])[1])
    for line in [*SECTIONS, *(" " * 7 + item for item in ITEMS)]:
        yield re.search(rf"^{re.escape(line)}(?: {{2}}.*)?$", shown, re.MULTILINE), f"the manual page has no {line.strip()}"
    for text in told_by_help():
        yield plain(text) in plain(shown), f"the manual page lacks what the help says: {text!r}"


def main():
    with tempfile.TemporaryDirectory() as folder:
        tries = [
            *tried_files(), *tried_installed(), *tried_readings(SHELLS, "(\n"), *tried_completions(folder), *tried_options(folder),
            *tried_options_of_reads(folder), *tried_stages(folder), *tried_readings(PAGES, ".XX\n"), *tried_page(),
        ]
    wrong = [text for holds, text in tries if not holds]
    for each in wrong:
        print(f"FAILED {each}")
    print(f"share: {len(tries) - len(wrong)} passed, {len(wrong)} failed")
    sys.exit(1 if wrong else 0)


main()
