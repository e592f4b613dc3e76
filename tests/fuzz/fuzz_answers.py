"""What docs/REFERENCE.md allows a command to answer, for tests/fuzz/fuzz.py: the exit statuses, and each refusal by number and name."""
import collections
import re
from pathlib import Path

from host_program import LOCK, STORE
from places import TOP

CONFIGURATION = ".pre-commit-config.yaml"
REFERENCE = Path(TOP, "docs/REFERENCE.md").read_text(encoding="utf-8")

# The exit status and what was printed on both outputs.
Answer = collections.namedtuple("Answer", "status out err")


# ---- the tables

def section_of(title):
    """The text below a heading, up to the next one."""
    return REFERENCE.partition(f"\n## {title}\n")[2].partition("\n## ")[0]


def tables(text, *head):
    """The rows of each table with this head, without backticks."""
    for block in re.findall(r"(?:^\|.*\n?)+", text, re.MULTILINE):
        rows = [[cell.strip().replace("`", "") for cell in re.split(r"(?<!\\)\|", row.strip().strip("|"))] for row in block.splitlines()]
        if rows[0] == list(head):
            yield rows[2:]


def numbered(rows):
    """The numbers of a table of faults, by their names."""
    return {row[1]: int(row[0]) for row in rows}


def most_bytes(what):
    """How many bytes the limit of this name allows."""
    row, = [row for row in next(tables(section_of("Limits"), "what", "limit")) if row[0] == what]
    return int(re.search(r"([\d,]+) bytes", row[1])[1].replace(",", ""))


STATUSES = {int(row[0]) for row in next(tables(REFERENCE, "exit status", "when"))}
PATH_FAULTS = numbered(next(tables(section_of("Paths"), "number", "fault", "when")))
TRY_FAULTS = numbered(next(tables(section_of("Refusals"), "number", "name", "when", "what to do")))
CONFIG_FAULTS = numbered(next(tables(section_of("Refusals"), "number", "kind", "when", "what to do")))
YAML_FAULTS = numbered(next(tables(section_of("Refusals"), "number", "kind", "when")))
STORE_FAULTS = numbered(next(tables(section_of("The store"), "number", "name", "when", "what to do")))
# The line of a report for each fault of a child, and the pattern that identifies one.
CHILD_FAULTS = {row[0]: row[1].encode() + b"\n" for row in next(tables(section_of("The report"), "fault", "its line"))}
MOST_PATH_BYTES, MOST_OUTPUT_BYTES, MOST_CONFIGURATION_BYTES = map(most_bytes, ["path", "output of a child", "configuration"])
INNER = {"BadPath": PATH_FAULTS, "BadConfig": CONFIG_FAULTS, "Store": STORE_FAULTS}


def refusals_of_commands():
    """What comes after `refused: `, by the command; that of opening and that of the command are one set."""
    found = {"": {}, "try": {}, "check": {}}
    for name, number in TRY_FAULTS.items():
        found[""][f"{number} {name}"] = found["try"][f"{number} {name}"] = name
    for name, number in [*CONFIG_FAULTS.items(), ("Write", TRY_FAULTS["Write"])]:
        found["check"][f"{number} {name}"] = name
    for rows in tables(section_of("Refusals"), "printed", "commands", "when", "what to do"):
        for printed, commands, *_ in rows:
            number, name, *inner = printed.split()
            for command in commands.split(", "):
                texts = [f"{number} {name} {cause}" for cause in INNER[name].values()] if inner else [f"{number} {name}"]
                found.setdefault(command, {}).update(dict.fromkeys(texts, name))
    return found


REFUSALS = refusals_of_commands()
REFUSALS_OF_OPENING = [printed for printed, *_ in next(tables(section_of("Refusals"), "printed", "commands", "when", "what to do"))]


def refusal(name, command, cause=None):
    """The line of standard error for a command's refusal of this name."""
    texts = [text for text, other in REFUSALS[command].items() if other == name and (cause is None or text.endswith(f" {cause}"))]
    return b"hookhost: refused: " + texts[0].encode() + b"\n"


# ---- answers

REPORT = rb"(?:.*(?:Passed|Failed|Skipped)\n.*)?"
# What a command prints that is done: the whole of standard output. Names, ids and keys of a configuration may hold line feeds,
# which are printed as they are (docs/DECISIONS.md). A message that another program took out of the store is shown as none.
DONE = {
    "": REPORT, "try": REPORT, "check": rb"hooks: \d+\n(?:ignored key: .*\n)?", "explain": rb"[^\n]*: taken, hooks: \d+\n.*",
    "init": rb"", "add": rb"", "rm": rb"", "status": rb"(?:[AMD] [^\n]+\n)*", "run": REPORT + rb"(?:unsteady: [^\n]*\n)*",
    "run-files": REPORT + rb"(?:unsteady: [^\n]*\n)*", "fixes": rb"(?:[MD] [^\n]+\n)*", "accept": rb"accepted: [1-9]\d*\n",
    "commit": REPORT + rb"commit [1-9]\d*\n", "cat": rb".*", "log": rb"(?:[1-9]\d* [^\n]*\n)*", "show": rb"(?:.*\n)?\n(?:[^\n]+\n)*",
    "memory": rb"remembered: \d+\n", "forget": rb"forgotten: \d+\n",
}
# The output of the commands that may end with 1.
FAILED = {"": REPORT, "try": REPORT, "run": REPORT, "run-files": REPORT, "commit": REPORT, "explain": rb"[^\n]*:\d+: [^\n]+\n.*"}
# The lines that report a commit that isn't there, and bytes that aren't.
MISSING = {"show": rb"no commit \d+", "cat": rb"no commit \d+|no [^\n]* in commit \d+|no fixed bytes of [^\n]*"}
AT = rb'hookhost: at [^\x00-\x1f\x7f]*\n'
# The bytes with an escape of their own in a path that is shown in quotes.
ESCAPES = {7: rb"\a", 8: rb"\b", 9: rb"\t", 10: rb"\n", 11: rb"\v", 12: rb"\f", 13: rb"\r", 34: rb'\"', 92: rb"\\"}
STOPPED_BEHIND_A_COMMIT = rb"(?:hookhost: [^\n]*\n)?"


def told_path(path):
    """A path as a line shows it: in double quotes, with the escapes of C, if it has control bytes, double quotes or backslashes."""
    is_control = lambda byte: byte < 32 or byte == 127
    if not any(is_control(byte) or byte in ESCAPES for byte in path):
        return path
    return b'"' + b"".join(ESCAPES.get(byte) or (b"\\%03o" % byte if is_control(byte) else bytes([byte])) for byte in path) + b'"'


def is_unusable(words, told):
    """Whether a command of these words may say that this can't be used: a word, a value of one, or what it reads anyway. With
    `add` it may be in a list, or below a folder."""
    command, values = command_of(words), [word.encode() if isinstance(word, str) else word for word in words[1:]]
    if command in ("check", "explain", "try", ""):
        known = [CONFIGURATION.encode()] if command in ("check", "explain") and not values else []
        return told in map(told_path, [*known, *values])
    return command == "add" or told in map(told_path, [STORE.encode(), LOCK.encode(), *values, *(value.partition(b"=")[2] for value in values)])


def is_refusal(words, err):
    """Whether these are the lines of a refusal that a command of these words may give."""
    command = command_of(words)
    if err.startswith(b"hookhost: cannot use ") and err.endswith(b"\n"):
        return is_unusable(words, err[len(b"hookhost: cannot use "):-1])
    if command in MISSING and re.fullmatch(rb"hookhost: (?:" + MISSING[command] + rb")\n", err, re.DOTALL):
        return True
    told = re.fullmatch(rb"hookhost: refused: ([^\n]*)\n(" + AT + rb")?", err)
    return bool(told) and told[1].decode(errors="replace") in REFUSALS.get(command, {}) and (not told[2] or command in ("add", "rm", "run-files"))


def is_of_the_words(words, answer):
    """Whether the text is one of the command line's parser."""
    if any(is_no_text(word) for word in words):
        return answer.err == b"error: a word is not UTF-8\n"
    return answer.err.startswith(b"error: ") or b"Usage: hookhost" in answer.err or answer.err.startswith(b"hookhost ")


def is_no_text(word):
    """Whether the word isn't UTF-8."""
    try:
        return not isinstance(word, str) and word.decode() is None
    except UnicodeDecodeError:
        return True


def command_of(words):
    word = words[0] if words else ""
    return word if isinstance(word, str) else word.decode(errors="replace")


# What comes after a report of which a hook's command met a fault: what was in the way of files, and what could not be started.
TROUBLES = rb"(?:hookhost: (?!refused|cannot )[^\n]+: [^\n]+\n)?(?:hookhost: cannot start [^\n]*: [^\n]+\n)?"
RUNNING = ("", "try", "run", "run-files", "commit")


def wrong_answer(words, answer):
    """What makes an answer one that the reference doesn't allow for these words, or None."""
    command = command_of(words)
    if answer.status not in STATUSES:
        return f"it ends with {answer.status}"
    if answer.status == 2:
        return None if answer.out == b"" and is_of_the_words(words, answer) else "it says of the words what no parser of a command line says"
    if answer.status == 3:
        return None if answer.out == b"" and is_refusal(words, answer.err) else "it is refused by other lines"
    shape = (DONE if answer.status == 0 else FAILED).get(command)
    if shape is None or not re.fullmatch(shape, answer.out, re.DOTALL):
        return f"with {answer.status} it prints other lines"
    allowed = STOPPED_BEHIND_A_COMMIT if command == "commit" else rb""
    if command in RUNNING and b"\n- fault: " in answer.out:
        allowed += TROUBLES
    return None if re.fullmatch(allowed, answer.err) else f"with {answer.status} it says something on standard error"
