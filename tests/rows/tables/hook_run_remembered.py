"""Runs of hook_run over a book of cached answers: what is started and what isn't, what is put, and what is dropped if only so many are
kept. Also what a refusal of the book leaves, and which hooks are unsteady. The call is

play_book CONFIGURATION STEP..

with the steps that `crates/run_trial/src/book_plays.rt` names. A run is answered by a line on it, by what it gave, by how many answers
are cached, and by whether the answer of each row of the table is. That answer is looked up then, and so used. The definitions say the
same. These rows show it from a user's side, and that memory is enough for them. commit_flow_remembered.py has those of a host's book."""
from list_book import ListBook
from remembered_rows import LOOK, LOOKS, MANY, MANY_FILES, MODIFIED, PASSED, TRIM, TRIMMED, TRIMS, T, child, details, hook, hooks, line, lint

PROGRAM = "run_trial"


# ---- configurations and children

def file(path, contents="x\n", mode="plain"):
    return ("file", mode, path, contents)


def run(how="plain", calls=0, kth=0, fault="signal", book=0, refusal="damaged"):
    """A run over children of which the call of the number `kth` fails, and over a book of which the call `book` is refused."""
    return ("run", how, str(calls), str(kth), fault, str(book), refusal)


# ---- what is answered

NOT_STARTED = "fault: could not be started"


def told(verdict, calls, faults, *lines, held=()):
    """What a run is answered by: `held` says of each row of the table whether its answer is cached, or that another is in
    its place."""
    kept = sum(word in ("held", "other") for word in held)
    return f"{verdict}, {calls} calls, {faults} faults\n{''.join(lines)}{kept} remembered:{''.join(' ' + word for word in held)}\n"


A = file("a.txt")
PASS = child("c", "a.txt")

# Names of 4,095 bytes, of which 31 fit one command of `c`, and not the next.
LONG = [f"{'/'.join(['d' * 255] * 15)}/{number:02}{'f' * 249}.txt" for number in range(32)]
TWO_PARTS = (
    *(word for path in LONG for word in file(path)),
    *child("c", *LONG[:31], seen=[f"{path}=x" for path in LONG[:31]], output="one\n"),
    *child("c", LONG[31], seen=[f"{LONG[31]}=x"], status=3, output="two\n"),
)
BOTH = details("T", "exit code: 3", output="one\ntwo\n")
LAST = details("T", "exit code: 3", "fault: ended by a signal", output="two\n")
THIRD_PARTS = (*TWO_PARTS[-4:-2], *child("c", LONG[31], seen=[f"{LONG[31]}=x"], status=3, output="three\n"))
FAIL = child("c", "a.txt", status=1, output="x\n")
X_FAILED = details("T", "exit code: 1", output="x\n")
STRAYS = child("c", "a.txt", changes="b.txt=z")

# The lines of a child that failed.
FAULTS = {
    "not started": "could not be started",
    "wait failed": "could not be waited for",
    "signal": "ended by a signal",
    "output too long": "output is longer than 1048576 bytes",
    "scratch failed": "files could not be written or read back",
}

RUNS = [
    # Each part is cached by itself. One that a signal ended isn't, and it alone is started again.
    (hooks(T), *TWO_PARTS, *run(), *run(), told("failed", 2, 0, BOTH, held=["held", "held"]) + told("failed", 0, 0, BOTH, held=["held", "held"])),
    (
        hooks(T), *TWO_PARTS, *run(kth=1), *run(), *run(),
        told("failed", 2, 1, LAST, held=["lacking", "held"]) + told("failed", 1, 0, BOTH, held=["held", "held"]) + told("failed", 0, 0, BOTH, held=["held", "held"]),
    ),
    # A name doesn't fit: no child, and nothing to cache.
    (hooks(hook("T", "c" * 131_072)), *A, *run(), told("failed", 0, 0, details("T", "fault: a name does not fit the command"))),
    # If no more children can be counted, what is cached is used, and only what needs a child is refused.
    (hooks(T), *A, *run(calls="all"), told("4 Spent: no more children can be counted", 0, 0)),
    (
        hooks(T), *A, *PASS, *run(), *run(calls="all"), *run("fresh", calls="all"), *run(),
        told("passed", 1, 0, PASSED, held=["held"]) + told("passed", 0, 0, PASSED, held=["held"])
        + told("4 Spent: no more children can be counted", 0, 0, held=["held"]) + told("passed", 0, 0, PASSED, held=["held"]),
    ),
    # A failure is cached as any other answer; a fresh run starts it again, and finds it steady.
    (
        hooks(T), *A, *child("c", "a.txt", status=3), *run(), *run(), *run("fresh"),
        "".join(told("failed", calls, 0, details("T", "exit code: 3"), held=["held"]) for calls in [1, 0, 1]),
    ),
    # One command on the same files is one child, also of two hooks.
    (
        hooks(T, hook("U", "c")), *A, *PASS, *run(), *run("fresh"),
        told("passed", 1, 0, PASSED + line("U", "Passed"), held=["held"]) + told("passed", 2, 0, PASSED + line("U", "Passed"), held=["held"]),
    ),
    # Other children answer otherwise. What is cached stays until a fresh run, which puts the new answer in its place.
    (
        hooks(T), *A, *PASS, *run(), "others", *child("c", "a.txt", status=1, output="x\n"), *run(), *run("fresh"), *run(), *run("fresh"),
        told("passed", 1, 0, PASSED, held=["held"]) + told("passed", 0, 0, PASSED, held=["other"]) + told("failed", 1, 0, "unsteady: t\n", X_FAILED, held=["held"])
        + told("failed", 0, 0, X_FAILED, held=["held"]) + told("failed", 1, 0, X_FAILED, held=["held"]),
    ),
    # The second of two hooks with one command is compared with what the first has just put.
    (
        hooks(T, hook("U", "c")), *A, *PASS, *run(), "others", *child("c", "a.txt", status=1, output="x\n"), *run("fresh"),
        told("passed", 1, 0, PASSED + line("U", "Passed"), held=["held"])
        + told("failed", 2, 0, "unsteady: t\n", X_FAILED + details("U", "exit code: 1", output="x\n"), held=["held"]),
    ),
    # A hook is unsteady by one of its parts, a hook of one id each time that one is, and none of a run that isn't fresh.
    (
        hooks(T), *TWO_PARTS, *run(), "others", *THIRD_PARTS, *run("fresh"), *run(),
        told("failed", 2, 0, BOTH, held=["held", "held"]) + told("failed", 2, 0, "unsteady: t\n", details("T", "exit code: 3", output="one\nthree\n"), held=["held", "held"])
        + told("failed", 0, 0, details("T", "exit code: 3", output="one\nthree\n"), held=["held", "held"]),
    ),
    (
        hooks(hook("T", "c"), hook("T", "d")), *A, *PASS, *child("d", "a.txt"), *run(), "others", *child("c", "a.txt", output="1"), *child("d", "a.txt", output="2"), *run("fresh"),
        told("passed", 2, 0, PASSED * 2, held=["held", "held"]) + told("passed", 2, 0, "unsteady: t\n" * 2, PASSED * 2, held=["held", "held"]),
    ),
    # If only what passed serves, a cached failure is asked again. Its new answer takes its place, and serves from then on.
    (
        hooks(T), *A, *FAIL, *run(), *run("passed"), "others", *PASS, *run("passed"), *run("passed"), *run(),
        told("failed", 1, 0, X_FAILED, held=["held"]) * 2 + told("passed", 1, 0, "unsteady: t\n", PASSED, held=["held"]) + told("passed", 0, 0, PASSED, held=["held"]) * 2,
    ),
    # A cached pass serves, with any answer that its child would give by now.
    (
        hooks(T), *A, *PASS, *run("passed"), "others", *FAIL, *run("passed"), *run("fresh"), *run("passed"),
        told("passed", 1, 0, PASSED, held=["held"]) + told("passed", 0, 0, PASSED, held=["other"]) + told("failed", 1, 0, "unsteady: t\n", X_FAILED, held=["held"])
        + told("failed", 1, 0, X_FAILED, held=["held"]),
    ),
    # An answer with changes is asked again, though its status is 0.
    (
        hooks(hook("Trim", "trim"), hook("Look", "look")), *file("a.txt", "x \n"), *TRIM, *LOOK, *run("passed"), *run("passed"), *file("a.txt"), *TRIMMED, *run("passed"), *run("passed"),
        told("failed", 2, 0, *TRIMS, held=["held"] * 2) + told("failed", 1, 0, *TRIMS, held=["held"] * 2)
        + told("passed", 1, 0, *LOOKS, held=["held"] * 3) + told("passed", 0, 0, *LOOKS, held=["held"] * 3),
    ),
    # Of two parts the one that failed is asked again, and the other serves.
    (hooks(T), *TWO_PARTS, *run("passed"), *run("passed"), told("failed", 2, 0, BOTH, held=["held", "held"]) + told("failed", 1, 0, BOTH, held=["held", "held"])),
    # A fault in place of a cached failure leaves that cached.
    (
        hooks(T), *A, *FAIL, *run(), *run("passed", kth=1), *run(),
        told("failed", 1, 0, X_FAILED, held=["held"]) + told("failed", 1, 1, details("T", "fault: ended by a signal"), held=["held"]) + told("failed", 0, 0, X_FAILED, held=["held"]),
    ),
    # If no more children can be counted, a cached pass serves, and a cached failure doesn't.
    *(
        (hooks(T), *A, *children, *run(), *run("passed", calls="all"), told(verdict, 1, 0, lines, held=["held"]) + again)
        for children, verdict, lines, again in [
            (PASS, "passed", PASSED, told("passed", 0, 0, PASSED, held=["held"])),
            (FAIL, "failed", X_FAILED, told("4 Spent: no more children can be counted", 0, 0, held=["held"])),
        ]
    ),
    # A fault in a fresh run makes nothing unsteady, and what was cached stays.
    (
        hooks(T), *A, *PASS, *run(), *run("fresh", kth=1), *run(),
        told("passed", 1, 0, PASSED, held=["held"]) + told("failed", 1, 1, details("T", "fault: ended by a signal"), held=["held"]) + told("passed", 0, 0, PASSED, held=["held"]),
    ),
    # No fault is cached, whichever it is, and the next run starts the child again.
    *(
        (
            hooks(T), *A, *PASS, *run(kth=1, fault=fault), *run(), *run(),
            told("failed", 1, 1, details("T", f"fault: {text}"), held=["lacking"]) + told("passed", 1, 0, PASSED, held=["held"]) + told("passed", 0, 0, PASSED, held=["held"]),
        )
        for fault, text in FAULTS.items()
    ),
    # A child that can't be started isn't cached, and each run tries it again.
    (hooks(T), *A, *run(), *run(), told("failed", 1, 1, details("T", NOT_STARTED)) * 2),
    # What a child changed is changed again without starting it, and later hooks see it so.
    (
        hooks(hook("Trim", "trim"), hook("Look", "look")), *file("a.txt", "x \n"), *TRIM, *LOOK, *run(), *run(), *file("a.txt"), *TRIMMED, *run(), *run(), "forget", *run(),
        told("failed", 2, 0, *TRIMS, held=["held"] * 2) + told("failed", 0, 0, *TRIMS, held=["held"] * 2)
        + told("passed", 1, 0, *LOOKS, held=["held"] * 3) + told("passed", 0, 0, *LOOKS, held=["held"] * 3)
        + "3 forgotten\n" + told("passed", 2, 0, *LOOKS, held=["lacking", "held", "held"]),
    ),
    # A file that a child removed is gone again without starting it.
    (
        hooks(T, hook("U", "d")), *A, *child("c", "a.txt", changes="a.txt"), *run(), *run(),
        "".join(told("failed", calls, 0, "gone a.txt\n", details("T", MODIFIED), line("U", "(no files to check)Skipped"), held=["held"]) for calls in [1, 0]),
    ),
    # A child that changes a file which it hasn't seen isn't cached, even if it writes the bytes that are there.
    *(
        (
            hooks(hook("T", "c", "files: ^a")), *A, *file("b.txt", "y\n"), *child("c", "a.txt", changes=f"b.txt={text}"), *run(), *run(), *run("fresh"),
            told(verdict, 1, 0, *lines, held=["lacking"]) * 3,
        )
        for text, verdict, lines in [("z", "failed", ["changed b.txt\n", details("T", MODIFIED)]), ("y", "passed", [PASSED])]
    ),
    # In a fresh run such an answer makes the hook unsteady, and leaves what was cached.
    (
        hooks(hook("T", "c", "files: ^a")), *A, *file("b.txt", "y\n"), *PASS, *run(), "others", *STRAYS, *run("fresh"), *run(),
        told("passed", 1, 0, PASSED, held=["held"]) + told("failed", 1, 0, "unsteady: t\n", "changed b.txt\n", details("T", MODIFIED), held=["other"])
        + told("passed", 0, 0, PASSED, held=["other"]),
    ),
    # What a child has seen is the file of each of its words: with other bytes or another mode it is started again. A change of a file
    # that it hasn't seen doesn't start it.
    (
        hooks(hook("T", "sh tools/lint.sh", "files: ^a")), *A, *file("tools/lint.sh", "1\n"), *file("b.txt"), *(word for number in "12" for word in lint(number)), *run(),
        *file("tools/lint.sh", "2\n"), *run(), *file("b.txt", "y\n"), *run(), "gone", "b.txt", *run(), *file("tools/lint.sh", "1\n"), *run(),
        *file("tools/lint.sh", "1\n", "executable"), *run(), *file("a.txt", "y\n"), *run(),
        told("passed", 1, 0, PASSED, held=["held", "lacking"]) + told("passed", 1, 0, PASSED, held=["held"] * 2) + told("passed", 0, 0, PASSED, held=["held"] * 2) * 3
        + told("failed", 1, 1, details("T", NOT_STARTED), held=["held"] * 2) * 2,
    ),
    # A script whose first line changes has another command.
    (
        hooks(hook("T", "tools/lint.sh", "files: ^a", "script")), *A, *file("tools/lint.sh", "#!/bin/sh -e\n"),
        *child("/bin/sh", "-e", "tools/lint.sh", "a.txt", seen=["a.txt=x", "tools/lint.sh=#!/bin/sh -e"]), *child("sh", "tools/lint.sh", "a.txt", seen=["a.txt=x", "tools/lint.sh=x"]),
        *child("./tools/lint.sh", "a.txt"), *run(), *file("tools/lint.sh"), *run(), "gone", "tools/lint.sh", *run(), *file("tools/lint.sh"), *run(),
        told("passed", 1, 0, PASSED, held=["held", "lacking", "lacking"]) + told("passed", 1, 0, PASSED, held=["held", "held", "lacking"])
        + told("passed", 1, 0, PASSED, held=["held"] * 3) + told("passed", 0, 0, PASSED, held=["held"] * 3),
    ),
    # A child whose hook takes no names has seen all files, also those that aren't selected.
    (
        hooks(hook("T", "c", "pass_filenames: false, files: ^a")), *A, *file("b.txt"), *(word for text in "xy" for word in child("c", seen=["a.txt=x", f"b.txt={text}"])), *run(),
        *file("b.txt", "y\n"), *run(), *run(),
        told("passed", 1, 0, PASSED, held=["held", "lacking"]) + told("passed", 1, 0, PASSED, held=["held"] * 2) + told("passed", 0, 0, PASSED, held=["held"] * 2),
    ),
]


# ---- a book that keeps only so many answers

# A hook with a child for each of three files.
LETTERS = "abc"
PER_FILE = hooks(hook("T", "c", r"files: '\.txt$', x_per_file: true"))
PASS_EACH = [word for letter in LETTERS for word in child("c", f"{letter}.txt", seen=[f"{letter}.txt=x"])]
KILLED = details("T", "fault: ended by a signal")


def run_over(book, letters, how, kth):
    """How many children a run on these files starts over a book, and how many of them fail."""
    calls = faults = 0
    for letter in letters:
        if book.find(letter) and how != "fresh":
            continue
        calls += 1
        if calls == kth:
            faults += 1
        else:
            book.put(letter, True)
    return calls, faults


def limited(limit, *runs):
    """Runs over one book with this limit, each by how it is made, the files that are there, and the call that fails. A row."""
    book, steps, answer = ListBook(limit), [], ""
    for how, letters, kth in runs:
        for letter in LETTERS:
            steps += file(f"{letter}.txt") if letter in letters else ("gone", f"{letter}.txt")
        steps += run(how, kth=kth)
        calls, faults = run_over(book, letters, how, kth)
        held = ["held" if book.find(letter) else "lacking" for letter in LETTERS]
        answer += told("failed" if faults else "passed", calls, faults, KILLED if faults else PASSED, held=held)
    return (PER_FILE, *(word for letter in LETTERS for word in file(f"{letter}.txt")), *PASS_EACH, "limit", str(limit), *steps, answer)


def all_three(how="plain", kth=0):
    return how, LETTERS, kth


def only(letters, how="plain", kth=0):
    return how, letters, kth


LIMITS = [
    # The last answers are kept, so that of three files all are looked at again if two have room.
    *(limited(limit, all_three(), all_three(), all_three("fresh"), all_three(), *(only(letter) for letter in "cbac")) for limit in [1, 2, 3, 4, 100_000]),
    # Those of two files are found if two have room, while a run in between needs a third.
    limited(2, only("ab"), only("ab"), only("c"), only("b"), only("a"), only("c")),
    limited(1, only("a"), only("a"), only("b"), only("a"), only("a", "fresh"), only("a")),
    # A child that fails takes no place. If a fresh run starts it, what is cached of it was looked up, and stays.
    *(limited(limit, *(all_three(how, kth) for kth in [1, 2, 3]), all_three(), all_three()) for limit in [1, 2, 3] for how in ["plain", "passed", "fresh"]),
    limited(2, only("ab"), only("a", "fresh", 1), only("c"), only("ab")),
    # Two hooks with one child have one place in a book.
    (
        hooks(T, hook("U", "c")), *A, *PASS, "limit", "1", *run(), *run(), *run("fresh"),
        "".join(told("passed", calls, 0, PASSED + line("U", "Passed"), held=["held"]) for calls in [1, 0, 2]),
    ),
    # Of two parts the first one makes room for the second, each time.
    (hooks(T), *TWO_PARTS, "limit", "1", *run(), *run(), *run("fresh"), told("failed", 2, 0, BOTH, held=["lacking", "held"]) * 3),
    # Another answer takes the place of its own row alone.
    (
        hooks(T), *TWO_PARTS, "limit", "2", *run(), "others", *THIRD_PARTS, *run("fresh"), *run(),
        told("failed", 2, 0, BOTH, held=["held", "held"]) + told("failed", 2, 0, "unsteady: t\n", details("T", "exit code: 3", output="one\nthree\n"), held=["held", "held"])
        + told("failed", 0, 0, details("T", "exit code: 3", output="one\nthree\n"), held=["held", "held"]),
    ),
    # What is dropped can't be compared with: the hook is steady, though its child answers otherwise by now.
    (
        hooks(T), *A, *PASS, *child("c", "a.txt", seen=["a.txt=y"]), "limit", "1", *run(), *file("a.txt", "y\n"), *run(), "others", *child("c", "a.txt", status=1, output="x\n"), *A, *run("fresh"),
        told("passed", 1, 0, PASSED, held=["held", "lacking"]) + told("passed", 1, 0, PASSED, held=["lacking", "held"]) + told("failed", 1, 0, X_FAILED, held=["held"]),
    ),
    # An answer depends on the further files that a child reads too. It is found again once these are as they were, if there is room for
    # it and the other one.
    *(
        (
            hooks(hook("T", "c", r"files: ^a, x_reads: '^lint\.cfg$'")), *A, *file("lint.cfg", "1\n"), *(word for text in "12" for word in child("c", "a.txt", seen=["a.txt=x", f"lint.cfg={text}"])),
            "limit", limit, *run(), *file("lint.cfg", "2\n"), *run(), *file("lint.cfg", "1\n"), *run(),
            told("passed", 1, 0, PASSED, held=["held", "lacking"]) + told("passed", 1, 0, PASSED, held=[other, "held"]) + told("passed", calls, 0, PASSED, held=["held", other]),
        )
        for limit, other, calls in [("1", "lacking", 1), ("10000", "held", 0)]
    ),
    # A book keeps its limit once all is forgotten.
    (
        PER_FILE, *(word for letter in LETTERS for word in file(f"{letter}.txt")), *PASS_EACH, "limit", "2", *run(), "forget", *run(),
        told("passed", 3, 0, PASSED, held=["lacking", "held", "held"]) + "2 forgotten\n" + told("passed", 3, 0, PASSED, held=["lacking", "held", "held"]),
    ),
]


# ---- a book of which one call is refused

# Hooks with a child that changes its file, with two parts, with a child that strays, with one that can't be started, and with one that
# passes. Then the rows of the table by which they are answered; and for each part its row, if any, and whether that is put.
FILLER = "x" * 131_064
REFUSING = hooks(
    hook("Trim", "trim", "files: ^a"), hook("Parts", "p", f"args: [{FILLER}]"), hook("Stray", "stray", "files: ^b"), hook("None", "none", "files: ^a"), hook("Look", "look", "files: ^a"),
)
TABLE = [
    *child("trim", "a.txt", seen=["a.txt=x "], changes="a.txt=x"),
    *child("p", FILLER, "a.txt", output="first\n"),
    *child("p", FILLER, "b.txt", seen=["b.txt=y"], status=2, output="second\n"),
    *child("stray", "b.txt", seen=["b.txt=y"], changes="a.txt=x"),
    *child("look", "a.txt"),
]
PARTS = [(0, True), (1, True), (2, True), (3, False), (None, False), (4, True)]
# The rows whose answers passed: with status 0 and without changes.
PASSING = {1, 4}
# The look-ups and puts of a run that starts all of them.
BOOK_CALLS = 10
OVER_REFUSING = (REFUSING, *file("a.txt", "x \n"), *file("b.txt", "y\n"), *TABLE)
GIVEN = (
    "changed a.txt\n", details("Trim", MODIFIED), details("Parts", "exit code: 2", output="first\nsecond\n"), line("Stray", "Passed"),
    details("None", NOT_STARTED), line("Look", "Passed"),
)
REFUSALS = {
    "damaged": "2 Book: the remembered answers: the store refuses: the store is damaged",
    "collision": "2 Book: the remembered answers: the store refuses: other contents have the same digest",
    "memory": "1 OutOfMemory: out of memory",
}


def serves(how, row):
    """Whether the answer of the row serves a run that is made so, if it is cached."""
    return how == "plain" or (how == "passed" and row in PASSING)


def counted(book, how, refused):
    """Whether a run is refused whose look-up or put of this number is (0: none), and how many children it starts and faults it has.
    What it uses before that is used, and what it puts is put."""
    asked = calls = faults = 0
    for row, is_put in PARTS:
        asked += 1
        if asked == refused:
            return True, calls, faults
        if book.find(row) and serves(how, row):
            continue
        calls += 1
        faults += row is None
        if is_put:
            asked += 1
            if asked == refused:
                return True, calls, faults
            book.put(row, True)
    return False, calls, faults


def refusing(*runs, limit=10_000):
    """Runs over one book, each by what serves it, the call of the book that is refused, and by what. None if what is cached is forgotten.
    A row."""
    book, steps, answer = ListBook(limit), [], ""
    for each in runs:
        if each is None:
            steps.append("forget")
            answer += f"{book.forget()} forgotten\n"
            continue
        how, refused, refusal = each
        steps += run(how, book=refused, refusal=refusal)
        is_refused, calls, faults = counted(book, how, refused)
        words = ["held" if book.find(row) else "lacking" for row in range(5)]
        answer += told(REFUSALS[refusal], calls, faults, held=words) if is_refused else told("failed", calls, faults, *GIVEN, held=words)
    return (*OVER_REFUSING, "limit", str(limit), *steps, answer)


ALL, ALL_FRESH = ("plain", 0, "damaged"), ("fresh", 0, "damaged")
BOOKS = [
    # Nothing is refused: the stray and the one that can't be started are started each time. If only what passed serves, those that didn't
    # pass are started too, and in a fresh run all are.
    refusing(ALL, ALL, ("passed", 0, "damaged"), ALL_FRESH),
    # Each look-up and each put is refused in turn: what was put before stays, and the next run starts the others alone.
    *(refusing(*(each for call in range(1, BOOK_CALLS + 1) for each in [("plain", call, refusal), ALL, None])) for refusal in REFUSALS),
    # The same if half of them are cached, and if all are, in a run that only what passed serves and in a fresh one.
    refusing(*(each for call in range(1, BOOK_CALLS + 1) for each in [("plain", 5, "collision"), ("plain", call, "damaged"), ALL, None])),
    *(refusing(ALL, *(each for call in range(1, BOOK_CALLS + 1) for each in [(how, call, "damaged"), ALL])) for how in ["passed", "fresh"]),
    refusing(*(("plain", call, "damaged") for call in range(1, BOOK_CALLS + 1)), ALL),
    # The same if fewer have room than a run puts: what was used and put before a refused call is used and put.
    *(
        refusing(*(each for call in range(1, BOOK_CALLS + 1) for how in ["plain", "passed", "fresh"] for each in [(how, call, refusal), ALL]), limit=limit)
        for limit in [1, 2, 3]
        for refusal in REFUSALS
    ),
]


def many_runs(calls):
    """Runs over files one after another, each of which starts so many children."""
    steps = [word for number, text in enumerate(MANY_FILES) for word in ("others", *child("c", "a.txt", seen=[f"a.txt={number}"]), *file("a.txt", text), *run())]
    answers = [f"passed, {calls} calls, 0 faults\n{PASSED}{number if calls else MANY} remembered: held\n" for number in range(1, MANY + 1)]
    return steps, "".join(answers)


def many_books():
    first, again = many_runs(1), many_runs(0)
    return (hooks(T), *first[0], *again[0], "forget", first[1] + again[1] + f"{MANY} forgotten\n")


ROWS = [("play_book", *row) for row in [*RUNS, *LIMITS, *BOOKS, many_books()]]
