"""Lists of commands that a host of commit_flow makes at one call, whose hooks start children: what is started, and what is cached as long
as the host lives. The call is

play COMMAND..

with the commands of `crates/hook_trial/src/plays.rt`, after the rows by which children answer. The definitions say the same. These
rows show it from a user's side, and that memory is enough for them. hook_run_remembered.py has those of a book alone."""
from remembered_rows import LOOK, LOOKS, MANY, MANY_FILES, MODIFIED, PASSED, TRIM, TRIMMED, TRIMS, T, child, details, hook, hooks, lint

PROGRAM = "hook_trial"


def of_host(name, text):
    """A text after the line that says what it is and how long."""
    return f"{name} {len(text)}\n{text}"


def add(path, contents):
    return ("add", "none", path, contents)


def host_run(files="all"):
    return ("run", "pre-commit", files, "", "remembering", "")


def ran(verdict, report, *changes):
    return f"ran, {verdict}, 0 unsteady\n{''.join(of_host('change ' + path, text) for path, text in changes)}{of_host('report', report)}"


def ended(calls, faults, remembered):
    return f"{calls} calls, {faults} faults, {remembered} remembered\n{remembered} forgotten\n"


def staged(*files):
    return "".join(of_host(f"staged plain {path}", text) for path, text in files)


TRIM_LOOK = hooks(hook("Trim", "trim"), hook("Look", "look"))
CONFIGURATION = (".pre-commit-config.yaml", TRIM_LOOK)
CONFIGURED = add(*CONFIGURATION)
UNTRIMMED = add("a.txt", "x \n")
# A file is trimmed, the fix is accepted, and two runs find it trimmed.
TRIMMING = (*CONFIGURED, *UNTRIMMED, *host_run(), "accept", *host_run(), *host_run())
TRIM_FAILS = ran("failed", "".join(TRIMS[1:]), ("a.txt", "x\n"))
TRIM_PASSES = ran("passed", "".join(LOOKS))
TRIMMING_TOLD = "added\nadded\n" + TRIM_FAILS + "accepted 1\n" + TRIM_PASSES + TRIM_PASSES
TRIMMING_LEAVES = staged(CONFIGURATION, ("a.txt", "x\n"))
OF_TRIMMING = (*TRIM, *LOOK, *TRIMMED)
STRAYING = hooks(hook("T", "c", "files: ^a"))
LINTED = hooks(hook("T", "sh tools/lint.sh", "files: ^a"))

HOSTS = [
    # After the first run two answers are cached; the second starts one child more, and the third none.
    (*OF_TRIMMING, *CONFIGURED, *UNTRIMMED, *host_run(), "added\nadded\n" + TRIM_FAILS + ended(2, 0, 2) + staged(CONFIGURATION, ("a.txt", "x \n")) + of_host("fix a.txt", "x\n")),
    (
        *OF_TRIMMING, *CONFIGURED, *UNTRIMMED, *host_run(), "accept", *host_run(),
        "added\nadded\n" + TRIM_FAILS + "accepted 1\n" + TRIM_PASSES + ended(3, 0, 3) + TRIMMING_LEAVES,
    ),
    (*OF_TRIMMING, *TRIMMING, TRIMMING_TOLD + ended(3, 0, 3) + TRIMMING_LEAVES),
    (*OF_TRIMMING, *TRIMMING, "forget", *host_run(), TRIMMING_TOLD + "forgot 3\n" + TRIM_PASSES + ended(5, 0, 2) + TRIMMING_LEAVES),
    # A host that has run the hooks before, and taken all away again, replies as a new one does, and starts the third child alone.
    (
        *OF_TRIMMING, *CONFIGURED, *UNTRIMMED, *host_run(), "rm", "a.txt", "rm", ".pre-commit-config.yaml", *TRIMMING,
        "added\nadded\n" + TRIM_FAILS + "removed\nremoved\n" + TRIMMING_TOLD + ended(3, 0, 3) + TRIMMING_LEAVES,
    ),
    # A file that no child has seen is staged, and staged again: nothing is started.
    (
        *OF_TRIMMING, *TRIMMING, *add("b.md", "1\n"), *host_run("a.txt"), *add("b.md", "2\n"), *host_run("a.txt"),
        TRIMMING_TOLD + ("added\n" + TRIM_PASSES) * 2 + ended(3, 0, 3) + staged(CONFIGURATION, ("a.txt", "x\n"), ("b.md", "2\n")),
    ),
    # What a child changes that it hasn't seen is a fix, and isn't cached.
    (
        *child("c", "a.txt", changes="b.txt=z"), *add(".pre-commit-config.yaml", STRAYING), *add("a.txt", "x\n"), *add("b.txt", "y\n"), *host_run(), *host_run(),
        "added\n" * 3 + ran("failed", details("T", MODIFIED), ("b.txt", "z\n")) * 2 + ended(2, 0, 0)
        + staged((".pre-commit-config.yaml", STRAYING), ("a.txt", "x\n"), ("b.txt", "y\n")) + of_host("fix b.txt", "z\n"),
    ),
    # A script that is staged again with other bytes is started again, and with the bytes that it had it isn't.
    (
        *lint(1), *lint(2), *add(".pre-commit-config.yaml", LINTED), *add("a.txt", "x\n"), *add("tools/lint.sh", "1\n"), *host_run(), *add("tools/lint.sh", "2\n"), *host_run(),
        *add("tools/lint.sh", "1\n"), *host_run(),
        "added\n" * 3 + ran("passed", PASSED) + ("added\n" + ran("passed", PASSED)) * 2 + ended(2, 0, 2)
        + staged((".pre-commit-config.yaml", LINTED), ("a.txt", "x\n"), ("tools/lint.sh", "1\n")),
    ),
    # A run that is refused leaves what was cached by then: the second hook's child can't be counted.
    (
        "spent", *CONFIGURED, *UNTRIMMED, *host_run(), "added\nadded\nrefused 14 Spent\n" + ended(2**64 - 1, 0, 0) + staged(CONFIGURATION, ("a.txt", "x \n")),
    ),
]


def many_plays():
    """Runs over files one after another, all of them twice, by a host, whose book its store keeps. The second time no child is started."""
    rows = [word for number in range(MANY) for word in child("c", "a.txt", seen=[f"a.txt={number}"])]
    plays = [word for text in MANY_FILES * 2 for word in (*add("a.txt", text), *host_run())]
    replies = "added\n" + ("added\n" + ran("passed", PASSED)) * 2 * MANY
    configuration = (".pre-commit-config.yaml", hooks(T))
    return (*rows, *add(*configuration), *plays, replies + ended(MANY, 0, MANY) + staged(configuration, ("a.txt", MANY_FILES[-1])))


# A repository has no commit of the number 0, and none after its last one.
NEITHER = "no files\n" * 2

ROWS = [("play", *row, answer + NEITHER) for *row, answer in [*HOSTS, many_plays()]]
