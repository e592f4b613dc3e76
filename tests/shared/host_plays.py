"""The lists of commands that a host plays over children of which one fails (tests/rows/tables/commit_flow_fused.py), and with each
growth of memory refused in turn (tests/memory/refused_memory.py)."""
from host_model import (CONFIGURATION, MESSAGE, Answer, File, FixedTable, Hook, Machine, Memory, configuration_text, words_of_rows)

RUN, FRESH_RUN = (("run", "pre-commit", "changed", "", how, "") for how in ("remembering", "fresh"))
COMMIT, ACCEPT, FORGET = ("commit", b"m", "verified", ""), ("accept",), ("forget",)
TXT = r"\.txt$"
TRIM, LOOK = Hook("trim", "Trim", entry="trim", files=TXT, stages=["pre-commit"]), Hook("look", "Look", entry="look", files=TXT, stages=["pre-commit"])
# A hook in each stage of a commit, two of which add a line to the message.
STAGED = [
    TRIM, Hook("mark", "Mark", entry="mark", stages=["prepare-commit-msg"]), Hook("sign", "Sign", entry="sign", stages=["commit-msg"]),
    Hook("tell", "Tell", entry="tell", always_run=True, stages=["post-commit"]),
]


def add(path, contents):
    return "add", "none", path, contents


def plain(path, contents):
    return {path: File(False, contents)}


BEGUN, MARKED, SIGNED = b"m\n", b"m\nmarked\n", b"m\nmarked\nsigned\n"
PREPARE, CHECK = ("message", "prepare-commit-msg", BEGUN, "remembering", ""), ("message", "commit-msg", MARKED, "remembering", "")
UNTRIMMED, TRIMMED = plain("a.txt", b"x \n"), plain("a.txt", b"x\n")
TABLE = FixedTable([
    (["trim", "a.txt"], UNTRIMMED, Answer(0, b"", {"a.txt": b"x\n"})),
    (["trim", "a.txt"], TRIMMED, Answer(0, b"", {})),
    (["look", "a.txt"], UNTRIMMED, Answer(0, b"", {})),
    (["look", "a.txt"], TRIMMED, Answer(0, b"", {})),
    (["mark", MESSAGE], plain(MESSAGE, BEGUN), Answer(0, b"", {MESSAGE: MARKED})),
    (["sign", MESSAGE], plain(MESSAGE, MARKED), Answer(0, b"", {MESSAGE: SIGNED})),
    (["tell"], {}, Answer(0, b"told\n", {})),
])
# The hooks, and the commands after the one that stages their configuration.
PLAYS = [
    # Of two hooks the first trims a file. Once its fix is accepted one of them is started again, and then none.
    ([TRIM, LOOK], [add("a.txt", b"x \n"), RUN, ACCEPT, RUN, RUN, FORGET]),
    # The same, if what was cached is asked for again.
    ([TRIM, LOOK], [add("a.txt", b"x\n"), RUN, FRESH_RUN, RUN]),
    # A commit refused and made, with a hook in each stage, and one more, of whose hooks each is cached.
    (STAGED, [add("a.txt", b"x \n"), COMMIT, ACCEPT, COMMIT, add("b.md", b"1\n"), COMMIT, FORGET]),
    # A run and both stages about a message, each by itself, and a commit for which their results are cached.
    (STAGED, [add("a.txt", b"x\n"), RUN, PREPARE, CHECK, COMMIT]),
]


def host_of(hooks, **memory):
    """A host of the model over these children, of which one fails or which are refused memory."""
    return Machine(Memory(TABLE, **memory), {configuration_text(hooks): (hooks, False)})


def commands_of(hooks, commands):
    return [add(CONFIGURATION, configuration_text(hooks)), *commands]


def words_of(commands):
    """The words by which hook_trial plays the commands over the children of the table."""
    return [*words_of_rows(TABLE.rows), *(word for command in commands for word in command)]
