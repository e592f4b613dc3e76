"""The messages of commits, and lists of commands that a host makes. The calls are

begun_message MESSAGE
cleaned_message MESSAGE
play COMMAND..

The first two answer the message that is made of it, and the third what `crates/hook_trial/src/plays.rt` names, on a repository that
is empty at first. The definitions say the same, the message's by lines. These rows show it from a user's side, and that memory
is enough for them."""

PROGRAM = "hook_trial"

CLEANED = [
    ("", ""),
    ("\n", ""),
    (" \t\r\n\n \n", ""),
    ("a", "a\n"),
    ("a\n", "a\n"),
    ("  \nfirst  \n\n\nbody\n\n", "first\n\nbody\n"),
    # A `#` begins no comment, a carriage return ends no line, and blanks within a line and before it stay.
    ("# kept\r\n\t\n \n x\ty\t\n", "# kept\n\n x\ty\n"),
    ("a\rb\n", "a\rb\n"),
    ("a\n\n\n\nb\n\n\nc", "a\n\nb\n\nc\n"),
    # Other signs that are blank are none here; bytes that are no text stay.
    ("a\v\n\f\n\u00a0\n", "a\v\n\f\n\u00a0\n"),
    (b"\xff \n\0 \n", b"\xff\n\0\n"),
    ("x" * 100_000 + " " * 100_000, "x" * 100_000 + "\n"),
    ("\n" * 100_000 + "a" + "\n" * 100_000 + "b" + "\n" * 100_000, "a\n\nb\n"),
]

CONFIGURATION = """repos:
- repo: local
  hooks:
  - {id: trim, name: Trim, language: system, entry: trim, files: '\\.txt$', stages: [pre-commit]}
  - {id: ticket, name: Ticket, language: system, entry: ticket, stages: [commit-msg]}
  - {id: tell, name: Tell, language: system, entry: tell, always_run: true, pass_filenames: false, stages: [post-commit]}
"""

CONFIGURED = ("add", "plain", ".pre-commit-config.yaml", CONFIGURATION)
MESSAGE = ".git/COMMIT_EDITMSG"


def child(status, words, seen="", changes="", output=""):
    """A row by which a child answers. The byte 1 means the line ends within a file."""
    return ("child", f"answer {status}\n{words}\n{seen}\n{changes}\n{output}")


def line(name, word):
    return f"{name}{'.' * (79 - len(name) - len(word))}{word}\n"


def told(name, text):
    """A text after the line that says what it is and how long."""
    return f"{name} {len(text)}\n{text}"


def ended(calls=0, faults=0, remembered=0):
    return f"{calls} calls, {faults} faults, {remembered} remembered\n{remembered} forgotten\n"


def files(name, *files):
    return "".join(told(f"{name} {mode} {path}", contents) for mode, path, contents in files)


# Children that take the blank off a.txt, ask that a message names a ticket, and get a commit reported.
TRIM = child(1, "trim\ta.txt", "a.txt=x ", "a.txt=x", "trimmed\n")
TRIMMED = child(0, "trim\ta.txt", "a.txt=x")
TRIM_NO_MORE = child(3, "trim\ta.txt", "a.txt=x", output="no more\n")
NO_TICKET = child(3, f"ticket\t{MESSAGE}", f"{MESSAGE}=first", output="no ticket\n")
TICKET = child(0, f"ticket\t{MESSAGE}", f"{MESSAGE}=T1 first")
TELL = child(0, "tell", f"a.txt=x\t.pre-commit-config.yaml={CONFIGURATION[:-1]}".replace("\n", "\1"))

TRIM_FAILED = line("Trim", "Failed") + "- hook id: trim\n- exit code: 1\n- files were modified by this hook\n\ntrimmed\n\n"
TRIM_PASSED, TICKET_PASSED = line("Trim", "Passed"), line("Ticket", "Passed")
TICKET_FAILED = line("Ticket", "Failed") + "- hook id: ticket\n- exit code: 3\n\nno ticket\n\n"
NO_MORE = line("Trim", "Failed") + "- hook id: trim\n- exit code: 3\n\nno more\n\n"
NOT_STARTED = line("Tell", "Failed") + "- hook id: tell\n- fault: could not be started\n"

RUN = ("run", "pre-commit", "changed", "", "remembering", "")
CAUTIOUS = ("run", "pre-commit", "changed", "", "cautious", "")
# The same in a cautious run, in which no table has `trim`, so that it sees every file.
TRIM_SEES_ALL = child(3, "trim\ta.txt", f".pre-commit-config.yaml={CONFIGURATION[:-1]}\ta.txt=x".replace("\n", "\1"), output="no more\n")
TICKET_SEES_ALL = child(
    3, f"ticket\t{MESSAGE}", f"{MESSAGE}=first\t.pre-commit-config.yaml={CONFIGURATION[:-1]}\ta.txt=x".replace("\n", "\1"), output="no ticket for all\n")
CONFIGURATION_FILE = ("plain", ".pre-commit-config.yaml", CONFIGURATION)
A = ("plain", "a.txt", "x\n")

PLAYS = [
    # No command, and each kind of command on a repository with nothing in it.
    (ended(),),
    (
        "rm", "a", "accept", "run", "manual", "all", "", "remembering", "", "message", "commit-msg", "m", "remembering", "", "commit", "m", "verified", "", "forget",
        "add", "none", "a/../b", "x",
        "refused 4 NotStaged\nrefused 11 NoFixes\nrefused 7 NoConfig\nrefused 7 NoConfig\nrefused 10 NothingStaged\nforgot 0\nrefused 3 BadPath 3\n" + ended(),
    ),
    # What is staged is reported, and a command that is refused stops none of those after it.
    (
        "add", "executable", "b", "1", "add", "none", "a", "22", "add", "none", "b/c", "x", "add", "none", "b", "", "rm", "a", "rm", "a",
        "added\nadded\nrefused 15 Clash\nadded\nremoved\nrefused 4 NotStaged\n" + ended() + files("staged", ("executable", "b", "")),
    ),
    # Several changes are made all or none, each of what those before it left, and a refusal says which one it is.
    (
        "stage", "3", "add", "executable", "b", "1", "add", "none", "a", "22", "rm", "b", "stage", "2", "add", "none", "c", "x", "rm", "b",
        "stage", "2", "rm", "a", "add", "none", "a/b", "x", "stage", "1", "add", "none", "../a", "x",
        "staged\nrefused 4 NotStaged\nat 1\nstaged\nrefused 3 BadPath 3\nat 0\n" + ended() + files("staged", ("plain", "a/b", "x")),
    ),
    # A limit drops the answers that were used least recently, and none where fewer are cached.
    (
        *TRIMMED, *TRIM_NO_MORE, *CONFIGURED, "add", "none", "a.txt", "x\n", *RUN, "limit", "5", *RUN, "limit", "1", *RUN, "forget", "limit", "100000",
        "added\nadded\n" + "ran, passed, 0 unsteady\n" + told("report", TRIM_PASSED) + "limited 1\nran, passed, 0 unsteady\n" + told("report", TRIM_PASSED)
        + "limited 1\nran, passed, 0 unsteady\n" + told("report", TRIM_PASSED) + "forgot 1\nlimited 0\n" + ended(1) + files("staged", CONFIGURATION_FILE, A),
    ),
    # A run that keeps a fix, which is reported and then accepted.
    (
        *TRIM, *CONFIGURED, "add", "none", "a.txt", "x \n", "run", "pre-commit", "changed", "", "remembering", "",
        "added\nadded\nran, failed, 0 unsteady\n" + told("change a.txt", "x\n") + told("report", TRIM_FAILED) + ended(1, remembered=1)
        + files("staged", CONFIGURATION_FILE, ("plain", "a.txt", "x \n")) + told("fix a.txt", "x\n"),
    ),
    # A day: the same, a message without a ticket, a commit that leaves hooks out, and one with a ticket. After it nothing is left to
    # report.
    (
        *TRIM, *TRIMMED, *NO_TICKET, *TICKET, *TELL, *CONFIGURED, "add", "none", "a.txt", "x \n", "run", "pre-commit", "changed", "", "remembering", "", "accept",
        "commit", "first", "verified", "", "commit", "T1 first \n\n", "unverified", "",
        "rm", "a.txt", "commit", "T1 first", "verified", "", "commit", "T1 first", "verified", "", "forget",
        "added\nadded\nran, failed, 0 unsteady\n" + told("change a.txt", "x\n") + told("report", TRIM_FAILED) + "accepted 1\n"
        + "failed at CommitMsg\n" + told("report", TRIM_PASSED) + told("report", "") + told("report", TICKET_FAILED)
        + "committed 1\n" + told("report", "") + told("post", line("Tell", "Passed"))
        + "removed\ncommitted 2\n" + told("report", line("Trim", "(no files to check)Skipped")) + told("report", "") + told("report", TICKET_PASSED)
        + told("post", NOT_STARTED) + "refused 10 NothingStaged\nforgot 5\n" + ended(6, 1)
        + files("staged", CONFIGURATION_FILE) + files("head", CONFIGURATION_FILE)
        + told("commit 1", "T1 first\n") + files("committed", CONFIGURATION_FILE, A) + told("commit 2", "T1 first\n") + files("committed", CONFIGURATION_FILE),
    ),
    # Hooks about a message get its bytes as they are, and the fixes of a run stay. They may change the message and delete it. What they do to
    # another file makes them fail, and is dropped.
    (
        *TRIM, *NO_TICKET, *TICKET, *child(0, f"ticket\t{MESSAGE}", f"{MESSAGE}=a", f"{MESSAGE}=T2 a"), *child(0, f"ticket\t{MESSAGE}", f"{MESSAGE}=b", MESSAGE),
        *child(0, f"ticket\t{MESSAGE}", f"{MESSAGE}=c", "a.txt=y"), *CONFIGURED, "add", "none", "a.txt", "x \n", *RUN,
        *(word for text in ["first\n", "T1 first\n", "T1 first\n", "a\n", "b\n", "c\n"] for word in ("message", "commit-msg", text, "remembering", "")),
        "message", "prepare-commit-msg", "no line end", "remembering", "", "message", "commit-msg", "", "remembering", "ticket",
        "added\nadded\nran, failed, 0 unsteady\n" + told("change a.txt", "x\n") + told("report", TRIM_FAILED)
        + "message ran, failed\n" + told("message", "first\n") + told("report", TICKET_FAILED)
        + ("message ran, passed\n" + told("message", "T1 first\n") + told("report", TICKET_PASSED)) * 2
        + "message ran, passed\n" + told("message", "T2 a\n") + told("report", TICKET_PASSED)
        + "message ran, passed\n" + told("message", "") + told("report", TICKET_PASSED)
        + "message ran, failed\n" + told("message", "c\n") + told("report", line("Ticket", "Failed") + "- hook id: ticket\n- files were modified by this hook\n")
        + "message ran, passed\n" + told("message", "no line end") + told("report", "")
        + "message ran, passed\n" + told("message", "") + told("report", line("Ticket", "Skipped"))
        + ended(6, remembered=5) + files("staged", CONFIGURATION_FILE, ("plain", "a.txt", "x \n")) + told("fix a.txt", "x\n"),
    ),
    # A run again starts no child, and reports the same. A fresh one starts it, and says that a hook is unsteady.
    (
        *TRIMMED, *TRIM_NO_MORE, *CONFIGURED, "add", "none", "a.txt", "x\n", *RUN, *RUN, "run", "pre-commit", "a.txt", "", "fresh", "", *RUN, "forget", *RUN,
        "added\nadded\n" + ("ran, passed, 0 unsteady\n" + told("report", TRIM_PASSED)) * 2 + "ran, failed, 1 unsteady\n" + told("report", NO_MORE)
        + "ran, failed, 0 unsteady\n" + told("report", NO_MORE) + "forgot 1\nran, passed, 0 unsteady\n" + told("report", TRIM_PASSED) + ended(3, remembered=1)
        + files("staged", CONFIGURATION_FILE, A),
    ),
    # A cautious run starts a command although it was answered for fewer files, and again as long as it fails; a plain run doesn't.
    (
        *TRIMMED, *TRIM_SEES_ALL, *CONFIGURED, "add", "none", "a.txt", "x\n", *RUN, *CAUTIOUS, *CAUTIOUS, *RUN,
        "added\nadded\nran, passed, 0 unsteady\n" + told("report", TRIM_PASSED) + ("ran, failed, 0 unsteady\n" + told("report", NO_MORE)) * 2
        + "ran, passed, 0 unsteady\n" + told("report", TRIM_PASSED) + ended(3, remembered=2) + files("staged", CONFIGURATION_FILE, A),
    ),
    # Afresh and with caution they are started as in a run: a fresh one each time, a cautious one as long as it fails, and both although it
    # was answered for fewer files.
    (
        *NO_TICKET, *TICKET, *TICKET_SEES_ALL, *CONFIGURED, "add", "none", "a.txt", "x\n",
        *(word for text, how in [("first\n", "remembering"), ("first\n", "cautious"), ("first\n", "cautious"), ("T1 first\n", "remembering"),
                                 ("T1 first\n", "fresh"), ("T1 first\n", "verbose")] for word in ("message", "commit-msg", text, how, "")),
        "added\nadded\nmessage ran, failed\n" + told("message", "first\n") + told("report", TICKET_FAILED)
        + ("message ran, failed\n" + told("message", "first\n") + told("report", TICKET_FAILED.replace("no ticket", "no ticket for all"))) * 2
        + ("message ran, passed\n" + told("message", "T1 first\n") + told("report", TICKET_PASSED)) * 2
        + "message ran, passed\n" + told("message", "T1 first\n") + told("report", line("Ticket", "Passed") + "- hook id: ticket\n")
        + ended(5, remembered=3) + files("staged", CONFIGURATION_FILE, A),
    ),
    # Hooks after a commit run by themselves too, with fixes as in a run.
    (
        *TELL, *CONFIGURED, "add", "none", "a.txt", "x\n", *(("run", "post-commit", "changed", "", "remembering", "") * 2),
        "added\nadded\n" + ("ran, passed, 0 unsteady\n" + told("report", line("Tell", "Passed"))) * 2 + ended(1, remembered=1) + files("staged", CONFIGURATION_FILE, A),
    ),
    # Hooks that are skipped aren't asked, by a commit and by a run.
    (
        *CONFIGURED, "add", "none", "a.txt", "x \n", "run", "pre-commit", "all", "trim", "remembering", "trim", "commit", "first", "verified", "ticket,trim, tell",
        "added\nadded\nran, passed, 0 unsteady\n" + told("report", line("Trim", "Skipped"))
        + "committed 1\n" + told("report", line("Trim", "Skipped")) + told("report", "") + told("report", line("Ticket", "Skipped"))
        + told("post", line("Tell", "Skipped")) + ended() + files("staged", CONFIGURATION_FILE, ("plain", "a.txt", "x \n"))
        + files("head", CONFIGURATION_FILE, ("plain", "a.txt", "x \n")) + told("commit 1", "first\n") + files("committed", CONFIGURATION_FILE, ("plain", "a.txt", "x \n")),
    ),
    # If no more children can be counted, what needs one is refused, and a commit that is kept says that its last hooks were stopped.
    (
        "spent", *CONFIGURED, "add", "none", "a.txt", "x\n", "run", "pre-commit", "named.txt", "", "remembering", "", "run", "pre-commit", "a.txt", "", "remembering", "",
        "message", "commit-msg", "first\n", "remembering", "", "commit", "first", "verified", "", "commit", "first", "unverified", "",
        "added\nadded\nrefused 4 NotStaged\nrefused 14 Spent\nrefused 14 Spent\nrefused 14 Spent\ncommitted 1\n" + told("report", "") + "post stopped 4 Spent\n"
        + ended(2**64 - 1) + files("staged", CONFIGURATION_FILE, A) + files("head", CONFIGURATION_FILE, A)
        + told("commit 1", "first\n") + files("committed", CONFIGURATION_FILE, A),
    ),
]

# Staged paths in their order, whether another can't be staged together with them, and that path. Those around a slash in the order of bytes
# are between a folder and what lies in it.
AMONG = [
    (["a", "a-x", "a.b", "a0"], True, "a.b/c"),
    (["a", "a-x", "a.b", "a0"], True, "a/b/c/d"),
    (["a", "a-x", "a.b", "a0"], True, "a0/c"),
    (["a-x", "a.b", "a/b", "a0"], True, "a"),
    (["a-x", "a.b", "a/b", "a/c", "a/d", "a0"], True, "a"),
    (["a-x", "a.b", "a/b", "a0"], True, "a/b/c"),
    (["a/b/c/d/e"], True, "a/b/c"),
    (["src/lib.rs", "src/main.rs"], True, "src/lib.rs/x"),
    (["a-x", "a.b", "a0"], False, "a"),
    (["a-x", "a.b", "a0"], False, "a1/c"),
    (["a-x", "a.b", "a0"], False, "A/c"),
    (["a/bb"], False, "a/b"),
    (["aa/b", "ab"], False, "a"),
    (["src/lib.rs", "src/main.rs"], False, "src/lib"),
]


def beside(staged, clash, path):
    """A path that is staged last."""
    standing = sorted(staged if clash else [*staged, path])
    added = "".join(["added\n" * len(staged), "refused 15 Clash\n" if clash else "added\n"])
    plays = [word for each in [*staged, path] for word in ("add", "none", each, "")]
    return (*plays, added + ended() + files("staged", *(("plain", each, "") for each in standing)))


# A repository has no commit of the number 0, and none after its last one.
NEITHER = "no files\n" * 2

ROWS = [
    *(("play", *row, answer + NEITHER) for *row, answer in [*(beside(*each) for each in AMONG), *PLAYS]),
    *(("cleaned_message", message, cleaned) for message, cleaned in CLEANED),
    ("begun_message", "", ""),
    ("begun_message", "\n", "\n"),
    ("begun_message", "a", "a\n"),
    ("begun_message", "a\n", "a\n"),
    ("begun_message", "a\nb", "a\nb\n"),
    ("begun_message", "a \n\n\n", "a \n\n\n"),
]
