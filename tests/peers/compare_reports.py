#!/usr/bin/env python3
"""Compares whole reports with those of `pre-commit run --all-files`, on random configurations over random trees.

Usage: tests/peers/compare_reports.py [--sample] [PROGRAM [COUNT [SEED]]]   (default: crates/hookhost/out/hookhost, 200 configurations, seed
1; with --sample only some of them)

pre-commit (Debian's package of that name) must be installed, for the Python that runs this or for /usr/bin/python3, which Debian's
packages serve. If it is missing, nothing can be compared, and that is a failure. `git` must be installed too.

Each tree is written and staged in a repository of its own. Each configuration, of `fail`, `pygrep` and `system` hooks, is run on it:
by `hookhost try CONFIG PATH..` with all staged files, and by pre-commit in this process. pre-commit's `pygrep` is called here too,
except for some configurations, for which it starts its own process, as it always would. Patterns are of what both languages of
patterns share, texts of what both readers of YAML do.

The verdict and each byte of the report must be the same. If they differ, one or several reasons have to hold, which is tested. Each
has a cause that the configuration or the tree must show, the two sides must agree once they answer as the reasons say, and none of
the reasons may be left out. Another difference is a failure, and so is a reason that no configuration needed. Each run begins with
the tree as it was staged, since the commands of hooks change it.
"""
import collections
import contextlib
import io
import json
import os
import random
import re
import subprocess
import sys
import tempfile
import unicodedata
from unittest import mock

sys.path.insert(0, os.path.abspath(f"{__file__}/../../shared"))
from debian_python import try_again
from places import program
from row_tables import table_of
from sample import IS_SAMPLED, note, sampled

PROGRAM = os.path.abspath(sys.argv[1] if len(sys.argv) > 1 else program("hookhost"))

try:
    from identify import extensions, identify, interpreters
    from pre_commit import logging_handler
    from pre_commit import main as pre_commit
    from pre_commit import output as printed
    from pre_commit.commands import run as running
    from pre_commit.languages import pygrep
    from pre_commit.xargs import partition, xargs
except ImportError:
    try_again("pre-commit (Debian's package)")

# Repositories are made here if possible: on the disk they would take minutes.
IN_MEMORY = "/dev/shm"
CONFIGURATION = ".pre-commit-config.yaml"

# With --sample one configuration in so many is compared.
SAMPLED_ONE_IN = 4
# One configuration in so many has pre-commit start its own process for `pygrep`.
OWN_PROCESS = 20

File = collections.namedtuple("File", "executable contents")

# A configuration, the tree that it is run on, and whether pre-commit starts its own process for `pygrep`.
Case = collections.namedtuple("Case", "top hooks tree own_process")


# ---- random trees

FOLDERS = ["", "", "src/", "src/deep/", "lib/", "docs/", "a b/", "\u00e9/", ".hidden/"]
STEMS = ["a", "b1", "x.tar", "README", "Makefile", "setup", "\u65e5", "it's", "Dockerfile", "LICENSE"]
ENDS = ["", "", ".py", ".py", ".PY", ".pyi", ".md", ".txt", ".txt", ".c", ".h", ".yaml", ".json", ".sh", ".png", ".svg", ".plist", ".bin", ".in"]
PIECES = [b"a", b"b", b"c", b"x", b"A", b"-", b" ", b"\t", b"7", b".", b"ab", b"TODO", b"\n", b"\n", b"\n", b"\r\n", b"\r\n", b"\r"]
# In addition, a file that is no plain text has some of these.
ODD_PIECES = PIECES + [b"\xff", b"\xffa", b"\x00", "\u00e9".encode()]
SCRIPTS = [b"#!/bin/sh\n", b"#!/usr/bin/env python3\n", b"#!/usr/bin/env -S node -x\n"]


def contents(rng):
    pieces = ODD_PIECES if rng.random() < 0.3 else PIECES
    text = b"".join(rng.choice(pieces) for _ in range(rng.randint(0, 14)))
    return rng.choice(SCRIPTS) + text if rng.random() < 0.1 else text


def tree(rng):
    names = {rng.choice(FOLDERS) + rng.choice(STEMS) + rng.choice(ENDS) for _ in range(rng.randint(1, 12))}
    return {name: File(rng.random() < 0.12, contents(rng)) for name in sorted(names)}


# ---- random configurations

PATHS = ["", "", "^src/", "^lib/", r"\.py$", r"\.(md|txt)$", "a", "b1", r"^[^/]*$", "(?i:makefile|readme)", r"\bx\b", "^docs/.*", "[\u00e9\u65e5]", r"\d",
         "README", "/.+/", "^(src|lib)/[a-c]", r"\.[ch]$", " ", "'", r"^\.", "^$", ".", r"\w{5,}", r"(?:\.tar)?\.[a-z]{2}$", r"\Aa|h$"]
VERBOSE_PATH = "(?x)^(\n    src/.*|   # all of it\n    lib/.*\\.c\n)$\n"
TAGS = ["file", "text", "text", "binary", "python", "markdown", "plain-text", "c", "header", "shell", "yaml", "json", "png", "image", "makefile", "svg",
        "executable", "non-executable", "javascript", "dockerfile"]
ATOMS = ["a", "b", "c", "x", "A", " ", "-", r"\.", ".", "[ab]", "[a-c]", r"\d", r"\t", "^", "$", r"\b", "TODO", "(?:a|x)", "[^a]", r"\s", r"\w", "\u00e9"]
ARGUMENTS = ["-i", "--ignore-case", "--multiline", "--negate"]
NAMES = ["Check", "a", "A name of more than fifty columns, so that each line is wider than eighty", "\u65e5\u672c", "\u65e5" * 30, "caf\u00e9: 'x'", ""]
ACCENT = "e\u0301 accent"
ENTRIES = ["no such names", "", "one\ntwo", "  blanks around\n\n", "caf\u00e9 \u65e5", "it's \"quoted\" \\ {x} #y"]
# pre-commit counts a blank after each word of a command, the last one too, and leaves room for the environment.
LONGEST = 131_072 + 1
# Commands that pass, fail, print, and modify files. The last leaves room for a few names, so it runs in several parts.
COMMANDS = ["true", "false", "cat", "grep -n TODO", "wc -c", "sed -i s/a/b/", "sed -i s/c/c/", "sh -c 'echo out; echo err >&2; exit 7' --",
            "sh -c 'test $# = 1 || printf \"%s|\" \"$@\"; exit $#' --", "sh -c 'printf \"x\" >> \"$1\"' --",
            "/bin/sh -c 'shift; echo $# \"$1\"; exit $#' -- " + 130_960 * "c"]
STAGES = [["commit"], ["commit", "push"], ["push"], ["manual"], []]


def path_pattern(rng):
    if rng.random() < 0.06:
        return VERBOSE_PATH
    return rng.choice(PATHS) if rng.random() < 0.7 else rng.choice(PATHS) + "|" + rng.choice(PATHS)


def line_pattern(rng):
    """A pattern for texts. One that begins with `-` would be an option of pre-commit's own process."""
    parts = [rng.choice(ATOMS) for _ in range(rng.randint(0, 3))]
    parts = [part + rng.choice(["*", "+", "?", "{2}"]) if part not in ("^", "$", r"\b") and rng.random() < 0.2 else part for part in parts]
    text = "".join(parts) + ("|" + rng.choice(ATOMS) if rng.random() < 0.1 else "")
    return line_pattern(rng) if text.startswith("-") else text


def maybe(rng, chance, **values):
    """These keys with their values, each as often as it was given."""
    return {key: value() for key, value in values.items() if rng.random() < chance}


def truth(rng):
    return lambda: rng.random() < 0.7


def hook(rng, number):
    language = rng.choice(["fail", "pygrep", "pygrep", "system"])
    made = {"id": rng.choice(["same", f"h{number}"]), "name": rng.choice(NAMES) if rng.random() < 0.97 else ACCENT, "language": language}
    made["entry"] = line_pattern(rng) if language == "pygrep" else rng.choice(COMMANDS if language == "system" else ENTRIES)
    tags = lambda: rng.sample(TAGS, rng.randint(0, 2))
    made |= maybe(rng, 0.25, files=lambda: path_pattern(rng), exclude=lambda: path_pattern(rng), args=lambda: [it for it in ARGUMENTS if rng.random() < 0.4])
    made |= maybe(rng, 0.15, types=tags, types_or=tags, exclude_types=tags, alias=lambda: "other")
    made |= maybe(rng, 0.15, pass_filenames=truth(rng), always_run=truth(rng), verbose=truth(rng), fail_fast=truth(rng), require_serial=truth(rng))
    made |= maybe(rng, 0.05, stages=lambda: rng.choice(STAGES), description=lambda: "of no use")
    made |= maybe(rng, 0.02, color=lambda: "unknown to both")
    if language == "system":
        # pre-commit would give the names in another order to several commands at once.
        made |= {"require_serial": True, "args": []}
    return made


def cases(count, seed):
    rng = random.Random(seed)
    for number in range(count):
        top = maybe(rng, 0.2, files=lambda: path_pattern(rng), exclude=lambda: path_pattern(rng), fail_fast=truth(rng))
        top |= maybe(rng, 0.05, default_stages=lambda: rng.choice(STAGES[:-1]))
        yield Case(top, [hook(rng, number) for number in range(rng.randint(0, 6))], tree(rng), number % OWN_PROCESS == 0)


def configuration(top, hooks):
    """The configuration's text. Its quoted texts, lists and tables are JSON, which both readers of YAML take."""
    lines = [f"{key}: {json.dumps(value, ensure_ascii=False)}" for key, value in top.items()]
    lines += ["repos:", "- repo: local", "  hooks:" if hooks else "  hooks: []"]
    lines += [f"  - {json.dumps(each, ensure_ascii=False)}" for each in hooks]
    return "".join(f"{line}\n" for line in lines)


# ---- the two answers: the verdict and the report


def lay_files(case, plain=False):
    """Writes the tree and its configuration into the current folder, again if the commands of hooks have changed them."""
    for path, file in [*case.tree.items(), (CONFIGURATION, File(False, configuration(case.top, case.hooks).encode()))]:
        if os.path.dirname(path):
            os.makedirs(os.path.dirname(path), exist_ok=True)
        with open(path, "wb") as made:
            made.write(file.contents)
        os.chmod(path, 0o755 if file.executable and not plain else 0o644)


def lay(case, rng):
    """Writes the tree into the current folder, with its configuration, and stages it. Answers the staged paths."""
    subprocess.run(["git", "init", "--quiet", "--template="], check=True)
    lay_files(case)
    paths = list(case.tree) + ([CONFIGURATION] if rng.random() < 0.5 else [])
    subprocess.run(["git", "add", "--force", "--", *paths], check=True)
    rng.shuffle(paths)
    return paths


def ours(case, paths, hooks):
    """The exit status and the report of the program, if the configuration has these hooks."""
    lay_files(case)
    with tempfile.NamedTemporaryFile("w", encoding="utf-8", suffix=".yaml") as made:
        made.write(configuration(case.top, hooks))
        made.flush()
        ran = subprocess.run([PROGRAM, "try", made.name, *paths], capture_output=True)
    return ran.returncode, ran.stdout + ran.stderr


def theirs(case, reasons, own_process=False):
    """The exit status and the report of pre-commit, in the current folder, if it answers as these reasons say."""
    lay_files(case, plain=PLAIN in reasons)
    patches = [mock.patch.object(*each) for reason in reasons for each in REASONS[reason].patches]
    taken = io.BytesIO()
    with contextlib.ExitStack() as stack:
        for patch in patches if own_process else [*patches, mock.patch.object(pygrep, "xargs", pygrep_here)]:
            stack.enter_context(patch)
        stack.enter_context(mock.patch.dict(xargs.__kwdefaults__, _max_length=LONGEST))
        stack.enter_context(writing_to(taken))
        stack.enter_context(contextlib.redirect_stderr(io.StringIO()))
        status = pre_commit.main(["run", "--all-files", "--color", "never"])
    return status, taken.getvalue()


def pygrep_here(command, names, **_options):
    """What pre-commit's own process of `pygrep` would give, without the process. Its words begin after the module's name."""
    status, text = 0, io.BytesIO()
    for words in partition(command, names, 1):
        with writing_to(text):
            status = max(status, pygrep.main(words[3:]))
    return status, text.getvalue()


@contextlib.contextmanager
def writing_to(stream):
    """pre-commit's functions take their stream as a default argument, so that is what is changed."""
    functions = [printed.write, printed.write_line_b]
    before = [function.__defaults__ for function in functions]
    for function in functions:
        function.__defaults__ = tuple(stream if hasattr(value, "write") else value for value in function.__defaults__)
    try:
        yield
    finally:
        for function, defaults in zip(functions, before):
            function.__defaults__ = defaults


# ---- why two answers may differ. Each reason changes one detail in how one side answers, and nothing if its cause isn't there.

DURATION = "how long a hook took isn't told"
WARNING = "what is dubious in a configuration isn't told"
STOP = "a hook that passed or was skipped stops no run; there one with `fail_fast` does, where a hook before it failed"
WIDTH = "an accent of its own has no width"
TABLES = "the tables of tags have fewer entries, and some with other tags"
PLAIN = "`try` sees each file as a plain one"
FEEDS = "`pygrep` searches a line without its line feed"
BYTES = "`pygrep` has characters for classes, `.`, `-i` and signs beyond ASCII, and there bytes"


def told_lines(line, use_color, tell=running._subtle_line):
    """A hook's lines but that of its time."""
    if not re.fullmatch(r"- duration: [0-9.]+s", line):
        tell(line, use_color)


def told_record(handler, record, tell=logging_handler.LoggingHandler.emit):
    """What pre-commit warns of, except the key that random hooks have and no program reads."""
    if not re.fullmatch(r"Unexpected key\(s\) present on local => \w+: color", record.getMessage()):
        tell(handler, record)


def run_hooks(config, hooks, skips, args):
    """pre-commit's loop over the hooks, if a hook that didn't fail stops no run."""
    columns = running._compute_cols(hooks)
    classifier = running.Classifier.from_config(running._all_filenames(args), config["files"], config["exclude"])
    any_failed, diff = False, running._get_diff()
    for each in hooks:
        failed, diff = running._run_single_hook(classifier, each, skips, columns, diff, verbose=args.verbose, use_color=args.color)
        any_failed |= failed
        if failed and (config["fail_fast"] or each.fail_fast):
            break
    return int(any_failed)


def is_accent(sign):
    return unicodedata.category(sign) == "Mn"


def width(text, with_accents=running._len_cjk):
    return with_accents("".join(sign for sign in text if not is_accent(sign)))


def our_tables():
    """The tables of tests/rows/tables/file_tags.py in place of those of `identify`."""
    rows = table_of("file_tags")
    names, ends, programs = ({name: set(tags.split()) for name, tags in table.items()} for table in (rows.NAMES, rows.EXTENSIONS, rows.INTERPRETERS))
    told = {name: tags for name, tags in ends.items() if tags & identify.ENCODING_TAGS}
    return [(extensions, "NAMES", names), (extensions, "EXTENSIONS", told), (interpreters, "INTERPRETERS", programs),
            (extensions, "EXTENSIONS_NEED_BINARY_CHECK", {name: tags for name, tags in ends.items() if name not in told})]


def lines_without_feed(file):
    return (line.removesuffix(b"\n") for line in file)


def by_line(pattern, name):
    with open(name, "rb") as file:
        found = [(number, line) for number, line in enumerate(lines_without_feed(file), 1) if pattern.search(line)]
    for number, line in found:
        printed.write(f"{name}:{number}:")
        printed.write_line_b(line.rstrip(b"\r"))
    return int(bool(found))


def by_line_negated(pattern, name):
    with open(name, "rb") as file:
        found = any(pattern.search(line) for line in lines_without_feed(file))
    if not found:
        printed.write_line(name)
    return int(not found)


WITHOUT_FEED = {pygrep.Choice(multiline=False, negate=False): by_line, pygrep.Choice(multiline=False, negate=True): by_line_negated}


def of_bytes(made):
    """The hook whose pattern `regex` reads as Python reads a pattern of bytes."""
    if made["language"] != "pygrep":
        return made
    signs = (sign if sign < "\x80" else "".join(rf"\x{byte:02x}" for byte in sign.encode()) for sign in made["entry"])
    return made | {"entry": "(?-u)" + "".join(signs)}


def any_hook(holds):
    return lambda case: any(holds(each) for each in case.hooks)


def picks_by_tags(made):
    return any(made.get(key) for key in ("types", "types_or", "exclude_types"))


def searches(made):
    return made["language"] == "pygrep"


def searches_lines(made):
    return searches(made) and "--multiline" not in made.get("args", [])


def has_executable(case):
    return any(file.executable for file in case.tree.values())


def is_beyond_ascii(case):
    return not configuration(case.top, case.hooks).isascii() or not all(file.contents.isascii() for file in case.tree.values())


# Its cause, as a question about a case, and what it changes in pre-commit. PLAIN changes the tree there, and BYTES the
# configuration here.
Reason = collections.namedtuple("Reason", "has_cause patches")
REASONS = {
    DURATION: Reason(any_hook(lambda made: made.get("verbose")), [(running, "_subtle_line", told_lines)]),
    WARNING: Reason(any_hook(lambda made: "color" in made), [(logging_handler.LoggingHandler, "emit", told_record)]),
    STOP: Reason(lambda case: case.top.get("fail_fast") or any_hook(lambda made: made.get("fail_fast"))(case), [(running, "_run_hooks", run_hooks)]),
    WIDTH: Reason(any_hook(lambda made: any(map(is_accent, made["name"]))), [(running, "_len_cjk", width)]),
    TABLES: Reason(any_hook(picks_by_tags), our_tables()),
    PLAIN: Reason(lambda case: has_executable(case) and any_hook(picks_by_tags)(case), []),
    FEEDS: Reason(any_hook(searches_lines), [(pygrep, "FNS", pygrep.FNS | WITHOUT_FEED)]),
    BYTES: Reason(lambda case: any_hook(searches)(case) and is_beyond_ascii(case), []),
}


def reasons_of(case, paths, mine):
    """The reasons for which the two answers differ, none of which can be left out, or None."""
    by_bytes = ours(case, paths, [of_bytes(each) for each in case.hooks])

    def agree_but_for(reasons):
        return theirs(case, reasons) == (by_bytes if BYTES in reasons else mine)

    needed = [reason for reason in REASONS if REASONS[reason].has_cause(case)]
    if not agree_but_for(needed):
        return None
    for reason in REASONS:
        fewer = [each for each in needed if each != reason]
        needed = fewer if fewer != needed and agree_but_for(fewer) else needed
    return needed


def compared(case, rng):
    """None if the two answers agree. Otherwise the reasons why not, and the answers."""
    with tempfile.TemporaryDirectory() as folder:
        os.chdir(folder)
        paths = lay(case, rng)
        mine, other = ours(case, paths, case.hooks), theirs(case, [], case.own_process)
        answer = None if mine == other else (reasons_of(case, paths, mine), mine, other)
        os.chdir("/")
    return answer


def set_environment(home):
    """Settings of the user, and of a surrounding repository, don't change the runs."""
    for name in [*os.environ]:
        if name.startswith(("GIT_", "PRE_COMMIT")) or name == "SKIP":
            del os.environ[name]
    os.environ.update(HOME=home, PRE_COMMIT_HOME=home, GIT_CONFIG_GLOBAL="/dev/null", GIT_CONFIG_SYSTEM="/dev/null", LC_ALL="C.UTF-8")


def main():
    count = int(sys.argv[2]) if len(sys.argv) > 2 else 200
    seed = int(sys.argv[3]) if len(sys.argv) > 3 else 1
    if not os.path.exists(PROGRAM):
        sys.exit(f"tests/peers/compare_reports.py: there is no {PROGRAM}: build it with `rt run` in crates/hookhost")
    rng = random.Random(seed)
    agreed, excused, wrong = 0, 0, 0
    used = dict.fromkeys(REASONS, 0)
    with tempfile.TemporaryDirectory(dir=IN_MEMORY if os.access(IN_MEMORY, os.W_OK) else None) as home:
        set_environment(home)
        tempfile.tempdir = home
        for case in (compare := sampled(list(cases(count, seed)), lambda case: case.own_process, SAMPLED_ONE_IN)):
            answer = compared(case, rng)
            if answer is None:
                agreed += 1
                continue
            reasons, mine, other = answer
            if reasons is None:
                wrong += 1
                print(f"DIFFERENT: {configuration(case.top, case.hooks)}over {case.tree}\n  here  {mine}\n  there {other}")
                continue
            excused += 1
            for reason in reasons:
                used[reason] += 1
    for reason, number in used.items():
        print(f"{number} differ: {reason}")
    print(f"compare_reports: {agreed} of {len(compare)} agree, {excused} differ with a reason")
    print(f"compare_reports: {agreed + excused} passed, {wrong} failed{note(len(compare), count, 'configurations')}")
    sys.exit(1 if wrong or not agreed or not (IS_SAMPLED or all(used.values())) else 0)


main()
