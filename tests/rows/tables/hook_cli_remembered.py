"""Commands over a repository in memory whose hooks start children: what is started, what is cached of it, and which hooks are unsteady.
Then what becomes of that by `memory`, `forget`, limits, and the options of a run. The call, its steps and its answers are those of
hook_cli.py."""
from command_rows import HABITS, PATIENT, add, commit, cut_off, done, ended, line, message, refused, run, stage

PROGRAM = "hook_trial"


def child(words, seen="", changes="", status=0, output="", fault=""):
    """A row of the table by which a child answers, or fails."""
    row = f"answer {status}\n{words}\n{seen}\n{changes}\n{output}"
    return ("failing", fault, row) if fault else ("child", row)


def hook(name, entry="c", files=r"\.txt$", more=""):
    """A hook's table. Its id is its name in small letters."""
    return f"  - {{id: {name.lower()}, name: {name}, language: system, entry: {entry}, files: '{files}'{more}}}\n"


def text_of(*tables):
    return "repos:\n- repo: local\n  hooks:\n" + "".join(tables)


def with_hooks(*tables):
    """Stages a configuration with these hooks, by a command: a store that is set up gets a new host."""
    return add(".pre-commit-config.yaml", text_of(*tables))


COUNTS = ("counts",)
FRESH = run(how="fresh")


def counted(calls, faults, remembered, *rows):
    """The counts of children: all that were started and those of them that failed, and how many answers are cached. Then the rows of
    those that were started since the last report."""
    return f"{calls} calls, {faults} faults, {remembered} remembered\nrows{''.join(f' {row}' for row in rows)}\n".encode()


def passed(name):
    return f"{name}{'.' * (73 - len(name))}Passed\n"


def failed(name, *details, output=""):
    lines = [f"hook id: {name.lower()}", *details]
    return f"{name}{'.' * (73 - len(name))}Failed\n" + "".join(f"- {each}\n" for each in lines) + (f"\n{output}\n" if output else "")


MODIFIED = "files were modified by this hook"
SIGNAL, NO_START_LINE = "fault: ended by a signal", "fault: could not be started"
T, U = hook("T"), hook("U")
# A hook that gets `a.txt`, which is staged next to a file that it doesn't get, and what adding the three says.
ONE_HOOK = (*with_hooks(T), *add("a.txt", "x\n"), *add("b.md", "y\n"))
ADDED_THREE = done() * 3
# Its child, and answers that it may give.
C = ("c\ta.txt", "a.txt=x")
GOOD, BAD_ONE, OTHER = child(*C), child(*C, status=1, output="x\n"), child(*C, output="y\n")
STRAY = child(*C, changes="b.md=z")
GOOD_T, BAD_T, STRAY_T = passed("T"), failed("T", "exit code: 1", output="x\n"), failed("T", MODIFIED)
UNSTEADY = "unsteady: t\n"
# A hook that gets no names, and its configuration as a file that is seen.
WHOLE = hook("T", files="", more=", pass_filenames: false")
WHOLE_FILE = ".pre-commit-config.yaml=" + text_of(WHOLE)[:-1].replace("\n", "\1")
# Names of 4,095 bytes, of which 31 fit one command of `c`, and not the next.
MANY = [f"{'/'.join(['d' * 255] * 15)}/{number:02}{'f' * 249}.txt" for number in range(32)]

REMEMBERED = [
    # A run again reports the same and starts no child, of all files or of one that is named too. So does a failed one.
    (
        *GOOD, *ONE_HOOK, *run(), *COUNTS, *run(), *run("all"), *run("a.txt"), *COUNTS,
        ADDED_THREE + done(GOOD_T) + counted(1, 0, 1, 0) + done(GOOD_T) * 3 + counted(1, 0, 1),
    ),
    (*BAD_ONE, *ONE_HOOK, *run(), *run(), *COUNTS, ADDED_THREE + ended(1, out=BAD_T) * 2 + counted(1, 0, 1, 0)),
    # Two hooks with equal words and seen files start one child in one run, and two in a fresh one.
    (*GOOD, *with_hooks(T, U), *add("a.txt", "x\n"), *run(), *COUNTS, done() * 2 + done(GOOD_T + passed("U")) + counted(1, 0, 1, 0)),
    (*GOOD, *with_hooks(T, U), *add("a.txt", "x\n"), *FRESH, *COUNTS, done() * 2 + done(GOOD_T + passed("U")) + counted(2, 0, 1, 0, 0)),
    # A child is started again if it sees other bytes of a file or another mode, and not if they are the old ones again.
    (
        *GOOD, *child("c\ta.txt", "a.txt=y"), *child("c\ta.txt", "\x02a.txt=y"), *ONE_HOOK, *run(),
        *add("a.txt", "y\n"), *run(), *COUNTS, *add("a.txt", "y\n", mode="executable"), *run(), *COUNTS, *add("a.txt", "x\n", mode="plain"), *run(), *COUNTS,
        ADDED_THREE + done(GOOD_T) + done() + done(GOOD_T) + counted(2, 0, 2, 0, 1) + done() + done(GOOD_T) + counted(3, 0, 3, 2) + done() + done(GOOD_T) + counted(3, 0, 3),
    ),
    # A file that it hasn't seen may change, come and go.
    (
        *GOOD, *ONE_HOOK, *run(), *add("b.md", "z\n"), *run(), *add("c.md", "z\n"), *run(), *line("rm", "b.md"), *run(), *COUNTS,
        ADDED_THREE + done(GOOD_T) + (done() + done(GOOD_T)) * 3 + counted(1, 0, 1, 0),
    ),
    # One that gets no names sees all files.
    (
        *child("c", f"{WHOLE_FILE}\ta.txt=x"), *child("c", f"{WHOLE_FILE}\ta.txt=x\tb.md=y"), *with_hooks(WHOLE), *add("a.txt", "x\n"), *run(), *run(),
        *COUNTS, *add("b.md", "y\n"), *run(), *COUNTS, *line("rm", "b.md"), *run(), *COUNTS,
        done() * 2 + done(GOOD_T) * 2 + counted(1, 0, 1, 0) + done() + done(GOOD_T) + counted(2, 0, 2, 1) + done() + done(GOOD_T) + counted(2, 0, 2),
    ),
    # A script that a word names is a file that the child sees, by the language `system` and by `script`.
    *(
        (
            *child("sh\ttools/lint.sh\ta.txt", "a.txt=x\ttools/lint.sh=x"), *child("sh\ttools/lint.sh\ta.txt", "a.txt=x\ttools/lint.sh=y"),
            *with_hooks(hook("T", entry=entry).replace("system", language)), *add("a.txt", "x\n"), *add("tools/lint.sh", "x\n"), *run(), *run(), *COUNTS,
            *add("tools/lint.sh", "y\n"), *run(), *COUNTS, *add("tools/lint.sh", "x\n"), *run(), *COUNTS,
            ADDED_THREE + done(GOOD_T) * 2 + counted(1, 0, 1, 0) + done() + done(GOOD_T) + counted(2, 0, 2, 1) + done() + done(GOOD_T) + counted(2, 0, 2),
        )
        for language, entry in [("system", "sh tools/lint.sh"), ("script", "tools/lint.sh")]
    ),
    # A cached result changes files as the child did. What is accepted then is another file, for which the child is started.
    (
        *child("trim\ta.txt", "a.txt=x ", "a.txt=x"), *child("look\ta.txt", "a.txt=x"), *child("trim\ta.txt", "a.txt=x"),
        *with_hooks(hook("Trim", "trim"), hook("Look", "look")), *add("a.txt", "x \n"), *run(), *run(), *COUNTS, *line("fixes"), *line("cat", "a.txt"),
        *line("accept"), *run(), *COUNTS, *run(), *COUNTS, *line("fixes"), "forget", *COUNTS,
        done() * 2 + ended(1, out=failed("Trim", MODIFIED) + passed("Look")) * 2 + counted(2, 0, 2, 0, 1) + done("M a.txt\n") + done("x \n")
        + done("accepted: 1\n") + done(passed("Trim") + passed("Look")) + counted(3, 0, 3, 2) + done(passed("Trim") + passed("Look")) + counted(3, 0, 3)
        + done() + b"3 forgotten\n" + counted(3, 0, 0),
    ),
    # Once dropped, it is started again.
    (*GOOD, *ONE_HOOK, *run(), "forget", "forget", *run(), *COUNTS, ADDED_THREE + done(GOOD_T) + b"1 forgotten\n0 forgotten\n" + done(GOOD_T) + counted(2, 0, 1, 0, 0)),
    # A host that goes on with the store of another has the results that the other cached.
    (*GOOD, *ONE_HOOK, *run(), *stage("c.md"), *run(), *COUNTS, ADDED_THREE + done(GOOD_T) * 2 + counted(1, 0, 1, 0)),
    # No child that failed is cached, and each run starts it again, until it answers.
    *(
        (
            *child(*C, fault=fault), *child(*C, fault=fault), *GOOD, *ONE_HOOK, *run(), *run(), *COUNTS, *run(), *run(), *COUNTS,
            ADDED_THREE + ended(1, out=failed("T", text)) * 2 + counted(2, 2, 0, 0, 1) + done(GOOD_T) * 2 + counted(3, 2, 1, 2),
        )
        for fault, text in [("signal", SIGNAL), ("not started", NO_START_LINE)]
    ),
    (*ONE_HOOK, *run(), *run(), *COUNTS, ADDED_THREE + ended(1, out=failed("T", NO_START_LINE)) * 2 + counted(2, 2, 0, "-", "-")),
    # Of two parts one is ended by a signal: the other is cached alone, and a run again starts that one.
    (
        *child("c\t" + "\t".join(MANY[:31]), "\t".join(f"{path}=x" for path in MANY[:31]), fault="signal"), *child(f"c\t{MANY[31]}", f"{MANY[31]}=x", status=3, output="two\n"),
        *with_hooks(T), *(word for path in MANY for word in add(path, "x\n")), *run(), *COUNTS, *run(), *COUNTS,
        done() * 33 + (ended(1, out=failed("T", "exit code: 3", SIGNAL, output="two\n")) + counted(2, 1, 1, 0, 1)) + ended(1, out=failed("T", "exit code: 3", SIGNAL, output="two\n")) + counted(3, 2, 1, 0),
    ),
    # An answer that changes a file which the child hasn't seen counts, and isn't cached. What it fixed is kept.
    (
        *STRAY, *ONE_HOOK, *run(), *COUNTS, *line("fixes"), *run(), *COUNTS, *line("accept"), *line("cat", "b.md"),
        ADDED_THREE + ended(1, out=STRAY_T) + counted(1, 0, 0, 0) + done("M b.md\n") + ended(1, out=STRAY_T) + counted(2, 0, 0, 0) + done("accepted: 1\n") + done("z\n"),
    ),
    # It does so too if it leaves the bytes as they are, or names a file that isn't there. One that it has seen it may name.
    *(
        (*child(*C, changes=f"{path}={text}"), *ONE_HOOK, *run(), *run(), *COUNTS, ADDED_THREE + done(GOOD_T) * 2 + counted(calls, 0, 2 - calls, *[0] * calls))
        for path, text, calls in [("b.md", "y", 2), ("new.md", "y", 2), ("a.txt", "x", 1)]
    ),
    # If no more children can be counted, what is cached needs none.
    (
        *GOOD, *ONE_HOOK, *run(), "spent", *run(), *FRESH, *run(), "forget", *run(),
        ADDED_THREE + done(GOOD_T) * 2 + refused("14 Spent") + done(GOOD_T) + b"1 forgotten\n" + refused("14 Spent"),
    ),
]

# Runs that start each child, over children that answer otherwise when they are started again.
STEADY = [
    # A fresh run with nothing cached caches its results, and another fresh run starts the child again. The same answer is no other.
    (*GOOD, *ONE_HOOK, *FRESH, *run(), *FRESH, *COUNTS, ADDED_THREE + done(GOOD_T) * 3 + counted(2, 0, 1, 0, 0)),
    (*GOOD, *BAD_ONE, *ONE_HOOK, *FRESH, *COUNTS, ADDED_THREE + done(GOOD_T) + counted(1, 0, 1, 0)),
    # Another answer takes the place of the cached one, by its status, its output or what it changes.
    (
        *GOOD, *BAD_ONE, *ONE_HOOK, *run(), *run(), *COUNTS, *FRESH, *COUNTS, *run(), *COUNTS,
        ADDED_THREE + done(GOOD_T) * 2 + counted(1, 0, 1, 0) + ended(1, out=BAD_T + UNSTEADY) + counted(2, 0, 1, 1) + ended(1, out=BAD_T) + counted(2, 0, 1),
    ),
    (*GOOD, *OTHER, *ONE_HOOK, *run(), *FRESH, *run(), *COUNTS, ADDED_THREE + done(GOOD_T) + done(GOOD_T + UNSTEADY) + done(GOOD_T) + counted(2, 0, 1, 0, 1)),
    (
        *GOOD, *child(*C, changes="a.txt=z"), *ONE_HOOK, *run(), *run("a.txt", how="fresh"), *run(), *line("fixes"), *COUNTS,
        ADDED_THREE + done(GOOD_T) + ended(1, out=STRAY_T + UNSTEADY) + ended(1, out=STRAY_T) + done("M a.txt\n") + counted(2, 0, 1, 0, 1),
    ),
    # One that strays is another too, and isn't cached in its place.
    (
        *GOOD, *STRAY, *ONE_HOOK, *run(), *FRESH, *line("fixes"), *run(), *COUNTS,
        ADDED_THREE + done(GOOD_T) + ended(1, out=STRAY_T + UNSTEADY) + done("M b.md\n") + done(GOOD_T) + counted(2, 0, 1, 0, 1),
    ),
    # A child that fails answers nothing.
    (
        *GOOD, *child(*C, fault="signal"), *ONE_HOOK, *run(), *FRESH, *run(), *COUNTS,
        ADDED_THREE + done(GOOD_T) + ended(1, out=failed("T", SIGNAL)) + done(GOOD_T) + counted(2, 1, 1, 0, 1),
    ),
    # The hooks are in their order, with one id twice if two hooks have it. What counts is what is cached at that moment: the second of
    # two hooks with one child is compared with what the first one was answered.
    (
        *GOOD, *BAD_ONE, *OTHER, *with_hooks(U.replace("id: u", "id: t"), T), *add("a.txt", "x\n"), *run(), *FRESH, *COUNTS,
        done() * 2 + done(passed("U") + GOOD_T) + ended(1, out=failed("U", "exit code: 1", output="x\n").replace("id: u", "id: t") + GOOD_T + UNSTEADY * 2) + counted(3, 0, 1, 0, 1, 2),
    ),
    (
        *GOOD, *BAD_ONE, *with_hooks(U, T), *add("a.txt", "x\n"), *run(), *FRESH, *FRESH,
        done() * 2 + done(passed("U") + GOOD_T) + ended(1, out=failed("U", "exit code: 1", output="x\n") + GOOD_T + "unsteady: u\nunsteady: t\n") * 2,
    ),
    (
        *GOOD, *BAD_ONE, *BAD_ONE, *with_hooks(U, T), *add("a.txt", "x\n"), *run(), *FRESH, *COUNTS,
        done() * 2 + done(passed("U") + GOOD_T) + ended(1, out=failed("U", "exit code: 1", output="x\n") + BAD_T + "unsteady: u\n") + counted(3, 0, 1, 0, 1, 2),
    ),
    # A writer that takes the report alone.
    (
        *GOOD, *OTHER, *ONE_HOOK, *run(), *run(how="fresh", out=str(len(GOOD_T))), *run(how="fresh", out="one"),
        ADDED_THREE + done(GOOD_T) + cut_off(GOOD_T) + done(GOOD_T + UNSTEADY),
    ),
]

# Commits cache results as runs do, if they are made or not, and at any stage.
NOTE, TELL = hook("Note", "note", "", ", stages: [commit-msg]"), hook("Tell", "tell", "", ", stages: [post-commit], always_run: true")
BEFORE_T = T.replace("$'", "$', stages: [pre-commit]")
WITH_STAGES = (*with_hooks(BEFORE_T, NOTE, TELL), *add("a.txt", "x\n"))
NOTED = child("note\t.git/COMMIT_EDITMSG", ".git/COMMIT_EDITMSG=m")
# A hook that reads the message and isn't given it.
READING = hook("Note", "note", "^$", ", stages: [commit-msg], always_run: true, x_reads: 'EDITMSG$'")
COMMITTED = [
    (
        *GOOD, *NOTED, *child("tell"), *child("c\ta.txt", "a.txt=y"), *WITH_STAGES, *run(), *COUNTS, *commit("verified"), *COUNTS,
        *add("a.txt", "y\n"), *commit("verified"), *COUNTS,
        done() * 2 + done(GOOD_T) + counted(1, 0, 1, 0) + done(GOOD_T + passed("Note") + passed("Tell") + "commit 1\n") + counted(3, 0, 3, 1, 2)
        + done() + done(GOOD_T + passed("Note") + passed("Tell") + "commit 2\n") + counted(4, 0, 4, 3),
    ),
    # One that a hook refuses.
    (
        *GOOD, *child("note\t.git/COMMIT_EDITMSG", ".git/COMMIT_EDITMSG=m", status=1), *WITH_STAGES, *commit("verified"), *commit("verified"), *COUNTS,
        done() * 2 + ended(1, out=GOOD_T + failed("Note", "exit code: 1")) * 2 + counted(2, 0, 2, 0, 1),
    ),
    # One of which hooks leave no message.
    (
        *GOOD, *child("note\t.git/COMMIT_EDITMSG", ".git/COMMIT_EDITMSG=m", ".git/COMMIT_EDITMSG="), *WITH_STAGES, *commit("verified"), *commit("verified"), *COUNTS,
        done() * 2 + refused("12 EmptyMessage") * 2 + counted(2, 0, 2, 0, 1),
    ),
    # Their message is a further file of a hook: what becomes of it is cached for it, and is then the commit's message.
    (
        *GOOD, *child("c\ta.txt", "a.txt=y"), *child("note", ".git/COMMIT_EDITMSG=m", ".git/COMMIT_EDITMSG=n"), *with_hooks(BEFORE_T, READING), *add("a.txt", "x\n"),
        *commit("verified"), *COUNTS, *add("a.txt", "y\n"), *commit("verified"), *COUNTS, *line("log"),
        done() * 2 + done(GOOD_T + passed("Note") + "commit 1\n") + counted(2, 0, 2, 0, 2)
        + done() + done(GOOD_T + passed("Note") + "commit 2\n") + counted(3, 0, 3, 1) + done("2 n\n1 n\n"),
    ),
]

# Hooks about a message print what is reported of them, and their results are those of a commit.
MESSAGES = [
    (
        *GOOD, *NOTED, *child("tell"), *WITH_STAGES, *message("m\n", skip="note"), *message("m\n", "prepare-commit-msg"), *message("m\n"), *message("m\n"), *COUNTS,
        *commit("verified"), *COUNTS,
        done() * 2 + done(f"Note{'.' * 68}Skipped\n") + done() + done(passed("Note")) * 2 + counted(1, 0, 1, 1)
        + done(GOOD_T + passed("Note") + passed("Tell") + "commit 1\n") + counted(3, 0, 3, 0, 2),
    ),
    (
        *child("note\t.git/COMMIT_EDITMSG", ".git/COMMIT_EDITMSG=m", status=1), *WITH_STAGES, *message("m\n"), *message("m\n", out="0"), *message("n\n"), *COUNTS,
        done() * 2 + ended(1, out=failed("Note", "exit code: 1")) + cut_off() + ended(1, out=failed("Note", NO_START_LINE)) + counted(2, 1, 1, 0, "-"),
    ),
    (*message("m\n"), refused("7 NoConfig")),
    *((*NOTED, *WITH_STAGES, *message("m\n", out=habit), done() * 2 + done(passed("Note"))) for habit in PATIENT),
]

# What `memory` and `forget` say.
REMEMBERS, FORGOTTEN = "remembered: {}\n".format, "forgotten: {}\n".format
TRIM_LOOK = (
    *child("trim\ta.txt", "a.txt=x ", "a.txt=x"), *child("look\ta.txt", "a.txt=x"), *child("trim\ta.txt", "a.txt=x"),
    *with_hooks(hook("Trim", "trim"), hook("Look", "look")), *add("a.txt", "x \n"), *run(),
)
TRIMMED_ONE = done() * 2 + ended(1, out=failed("Trim", MODIFIED) + passed("Look"))
MEMORY = [
    # Runs and commits cache results, a fresh run too, and look-ups drop nothing.
    (
        *GOOD, *ONE_HOOK, *line("memory"), *run(), *line("memory"), *line("memory"), *run(), *line("status"), *line("memory"), *FRESH, *line("memory"), *COUNTS,
        ADDED_THREE + done(REMEMBERS(0)) + done(GOOD_T) + done(REMEMBERS(1)) * 2 + done(GOOD_T) + done("A .pre-commit-config.yaml\nA a.txt\nA b.md\n")
        + done(REMEMBERS(1)) + done(GOOD_T) + done(REMEMBERS(1)) + counted(2, 0, 1, 0, 0),
    ),
    (
        *GOOD, *NOTED, *child("tell"), *WITH_STAGES, *commit("verified"), *line("memory"), *line("forget"), *line("log"), *line("memory"),
        done() * 2 + done(GOOD_T + passed("Note") + passed("Tell") + "commit 1\n") + done(REMEMBERS(3)) + done(FORGOTTEN(3)) + done("1 m\n") + done(REMEMBERS(0)),
    ),
    # Of children that failed nothing is cached.
    (*child(*C, fault="signal"), *ONE_HOOK, *run(), *line("memory"), *line("forget"), ADDED_THREE + ended(1, out=failed("T", SIGNAL)) + done(REMEMBERS(0)) + done(FORGOTTEN(0))),
    # Once they are dropped, children are started again.
    (
        *GOOD, *ONE_HOOK, *run(), *line("forget"), *COUNTS, *line("memory"), *line("forget"), *run(), *COUNTS, *line("memory"),
        ADDED_THREE + done(GOOD_T) + done(FORGOTTEN(1)) + counted(1, 0, 0, 0) + done(REMEMBERS(0)) + done(FORGOTTEN(0)) + done(GOOD_T) + counted(2, 0, 1, 0) + done(REMEMBERS(1)),
    ),
    # Fixes and staged files stay.
    (
        *TRIM_LOOK, *line("memory"), *line("forget"), *line("fixes"), *line("cat", "a.txt"), *line("accept"), *line("memory"),
        TRIMMED_ONE + done(REMEMBERS(2)) + done(FORGOTTEN(2)) + done("M a.txt\n") + done("x \n") + done("accepted: 1\n") + done(REMEMBERS(0)),
    ),
    (
        *TRIM_LOOK, *line("accept"), *run(), *line("memory"), *line("forget"), *line("forget"), *line("fixes"), *line("cat", "a.txt"),
        TRIMMED_ONE + done("accepted: 1\n") + done(passed("Trim") + passed("Look")) + done(REMEMBERS(3)) + done(FORGOTTEN(3)) + done(FORGOTTEN(0)) + done() + done("x\n"),
    ),
    # A number of two digits.
    (
        *(word for at in range(11) for word in child("c\ta.txt", f"a.txt={at}")), *with_hooks(T), *(word for at in range(11) for word in (*add("a.txt", f"{at}\n"), *run())),
        *line("memory"), *line("forget"), *line("memory"),
        done() + (done() + done(GOOD_T)) * 11 + done(REMEMBERS(11)) + done(FORGOTTEN(11)) + done(REMEMBERS(0)),
    ),
    # All are forgotten, and what is cached stays, even if the line fails.
    *(
        (*GOOD, *ONE_HOOK, *run(), *line("forget", out=str(count)), *line("memory"), ADDED_THREE + done(GOOD_T) + cut_off(FORGOTTEN(1)[:count]) + done(REMEMBERS(0)))
        for count in [0, 1, 11, 12]
    ),
    *((*GOOD, *ONE_HOOK, *run(), *line("forget", out=habit), *line("memory"), ADDED_THREE + done(GOOD_T) + done(FORGOTTEN(1)) + done(REMEMBERS(0))) for habit in PATIENT),
    *((*GOOD, *ONE_HOOK, *run(), *line("forget", err=habit), *line("memory"), ADDED_THREE + done(GOOD_T) + done(FORGOTTEN(1)) + done(REMEMBERS(0))) for habit in HABITS),
    *(
        (*GOOD, *ONE_HOOK, *run(), *line("memory", out=str(count)), *line("memory"), ADDED_THREE + done(GOOD_T) + cut_off(REMEMBERS(1)[:count]) + done(REMEMBERS(1)))
        for count in [0, 1, 12, 13]
    ),
]


# ---- at most so many answers

def limit(number, out="all", err="all"):
    return line("limit", str(number), out=out, err=err)


def only(letter):
    """A run of one file, and what was started then."""
    return (*run(f"{letter}.txt"), *COUNTS)


# A hook with a child for each of three files, and these children, which pass.
PER_FILE = hook("T", more=", x_per_file: true")
PASSING = [child(f"c\t{letter}.txt", f"{letter}.txt=x") for letter in "abc"]
STAGED_THREE = (*with_hooks(PER_FILE), *(word for letter in "abc" for word in add(f"{letter}.txt", "x\n")))
OF_THREE = (*(word for row in PASSING for word in row), *STAGED_THREE)
ADDED_FOUR = done() * 4
ALL_FILES = (*run("all"), *COUNTS)


def ran(calls, remembered, *rows):
    """What a run says whose hook passes, and what was started then."""
    return done(GOOD_T) + counted(calls, 0, remembered, *rows)


THREE_RAN, AGAIN = ran(3, 3, 0, 1, 2), ran(3, 3)
LIMITED = [
    # The last two of three answers are kept, so that all are given again. Then those of single files are used: the one that is used last
    # stays longest.
    (
        *OF_THREE, *limit(2), *ALL_FILES, *ALL_FILES, *only("c"), *only("b"), *only("a"), *only("c"), *line("memory"),
        ADDED_FOUR + done(REMEMBERS(0)) + ran(3, 2, 0, 1, 2) + ran(6, 2, 0, 1, 2) + ran(6, 2) * 2 + ran(7, 2, 0) + ran(8, 2, 2) + done(REMEMBERS(2)),
    ),
    # Of three answers the last one is left, by a limit as by many; a limit of what there is drops none.
    (
        *OF_THREE, *ALL_FILES, *limit(3), *ALL_FILES, *limit(1), *line("memory"), *only("c"), *only("b"), *only("c"),
        ADDED_FOUR + THREE_RAN + done(REMEMBERS(3)) + AGAIN + done(REMEMBERS(1)) * 2 + ran(3, 1) + ran(4, 1, 1) + ran(5, 1, 2),
    ),
    (*OF_THREE, *limit(100_000), *ALL_FILES, *limit(2), *limit(1), *only("c"), ADDED_FOUR + done(REMEMBERS(0)) + THREE_RAN + done(REMEMBERS(2)) + done(REMEMBERS(1)) + ran(3, 1)),
    # A look-up brings an answer to the front, so that another is dropped by the next one, or by a limit.
    (
        *OF_THREE, *limit(2), *run("a.txt"), *run("b.txt"), *run("a.txt"), *run("c.txt"), *only("a"), *only("b"),
        ADDED_FOUR + done(REMEMBERS(0)) + done(GOOD_T) * 4 + ran(3, 2, 0, 1, 2) + ran(4, 2, 1),
    ),
    (*OF_THREE, *ALL_FILES, *only("a"), *limit(1), *only("a"), *only("c"), ADDED_FOUR + THREE_RAN + AGAIN + done(REMEMBERS(1)) + ran(3, 1) + ran(4, 1, 2)),
    # So does that of a fresh run, also if the child that is started then is ended by a signal.
    (
        *PASSING[0], *child("c\ta.txt", "a.txt=x", fault="signal"), *PASSING[1], *PASSING[2], *STAGED_THREE,
        *limit(2), *run("a.txt"), *run("b.txt"), *run("a.txt", how="fresh"), *run("c.txt"), *COUNTS, *run("a.txt"), *run("b.txt"), *COUNTS,
        ADDED_FOUR + done(REMEMBERS(0)) + done(GOOD_T) * 2 + ended(1, out=failed("T", SIGNAL)) + done(GOOD_T) + counted(4, 1, 2, 0, 2, 1, 3)
        + done(GOOD_T) * 2 + counted(5, 1, 2, 2),
    ),
    # A fresh run caches as many, and finds none unsteady that was dropped.
    (
        *PASSING[0], *child("c\ta.txt", "a.txt=x", output="y\n"), *PASSING[1], *STAGED_THREE, *limit(1), *run("a.txt"), *run("b.txt"), *run("a.txt", how="fresh"), *COUNTS,
        ADDED_FOUR + done(REMEMBERS(0)) + done(GOOD_T) * 3 + counted(3, 0, 1, 0, 2, 1),
    ),
    # An answer that is given again takes no other's place.
    (
        *OF_THREE, *limit(2), *run("a.txt"), *run("b.txt"), *run("b.txt", how="fresh"), *COUNTS, *run("a.txt"), *run("b.txt"), *COUNTS,
        ADDED_FOUR + done(REMEMBERS(0)) + done(GOOD_T) * 3 + counted(3, 0, 2, 0, 1, 1) + done(GOOD_T) * 2 + counted(3, 0, 2),
    ),
    # Two hooks with one child need room for one answer. What isn't cached drops none.
    (*GOOD, *with_hooks(T, U), *add("a.txt", "x\n"), *limit(1), *run(), *run(), *COUNTS, done() * 2 + done(REMEMBERS(0)) + done(GOOD_T + passed("U")) * 2 + counted(1, 0, 1, 0)),
    (
        *GOOD, *child("d\ta.txt", "a.txt=x", "b.md=z"), *with_hooks(T, hook("U", "d")), *add("a.txt", "x\n"), *add("b.md", "y\n"), *limit(1), *run(), *run(), *COUNTS,
        ADDED_THREE + done(REMEMBERS(0)) + ended(1, out=GOOD_T + failed("U", MODIFIED)) * 2 + counted(3, 0, 1, 0, 1, 1),
    ),
    # The limit stays once all is forgotten, and for another host of the same store.
    (
        *OF_THREE, *ALL_FILES, *limit(2), *line("forget"), *ALL_FILES, *stage("d.md"), *ALL_FILES,
        ADDED_FOUR + THREE_RAN + done(REMEMBERS(2)) + done(FORGOTTEN(2)) + ran(6, 2, 0, 1, 2) + ran(9, 2, 0, 1, 2),
    ),
    # With a greater one what was dropped is cached again, and then all stays.
    (
        *OF_THREE, *limit(1), *ALL_FILES, *limit(10_000), *ALL_FILES, *ALL_FILES,
        ADDED_FOUR + done(REMEMBERS(0)) + ran(3, 1, 0, 1, 2) + done(REMEMBERS(1)) + ran(5, 3, 0, 1) + ran(5, 3),
    ),
    # Of a commit's answers too the last ones stay. Those of the next commit of other files are given again, and the message's once more.
    (
        *GOOD, *NOTED, *child("tell"), *child("c\ta.txt", "a.txt=y"), *WITH_STAGES, *limit(2), *commit("verified"), *COUNTS, *add("a.txt", "y\n"), *commit("verified"), *COUNTS,
        done() * 2 + done(REMEMBERS(0)) + done(GOOD_T + passed("Note") + passed("Tell") + "commit 1\n") + counted(3, 0, 2, 0, 1, 2)
        + done() + done(GOOD_T + passed("Note") + passed("Tell") + "commit 2\n") + counted(6, 0, 2, 3, 1, 2),
    ),
    # The repository stays as it was, and what is dropped is dropped, even if the line fails.
    (
        *TRIM_LOOK, *limit(1), *line("fixes"), *line("cat", "a.txt"), *line("accept"), *line("memory"),
        TRIMMED_ONE + done(REMEMBERS(1)) + done("M a.txt\n") + done("x \n") + done("accepted: 1\n") + done(REMEMBERS(1)),
    ),
    *(
        (*OF_THREE, *ALL_FILES, *limit(2, out=str(count)), *line("memory"), ADDED_FOUR + THREE_RAN + cut_off(REMEMBERS(2)[:count]) + done(REMEMBERS(2)))
        for count in [0, 1, 12, 13]
    ),
    *((*OF_THREE, *ALL_FILES, *limit(2, out=habit), *line("memory"), ADDED_FOUR + THREE_RAN + done(REMEMBERS(2)) * 2) for habit in PATIENT),
    *((*OF_THREE, *ALL_FILES, *limit(2, err=habit), *line("memory"), ADDED_FOUR + THREE_RAN + done(REMEMBERS(2)) * 2) for habit in HABITS),
]

# Cautious runs, and runs that print each hook's details and how many commands were answered from what is cached. In a cautious run a
# command that is in no table sees every file, unless its hook says which ones it reads.
CAUTIOUS, VERBOSE = run(how="cautious"), run(how="verbose")
T_FILE = ".pre-commit-config.yaml=" + text_of(T)[:-1].replace("\n", "\1")
SEES_RULES = [child("c\ta.txt", f"{T_FILE}\ta.txt=x\trules={number}", status=status, output=output) for number, status, output in [(1, 0, ""), (2, 1, "x\n")]]
# A hook whose command sees every file in any run.
READING_ALL = hook("T", more=", x_reads: ''")
READING_ALL_SEES = ".pre-commit-config.yaml=" + text_of(READING_ALL)[:-1].replace("\n", "\1") + "\ta.txt=x"
OF_ALL = ("c\ta.txt", READING_ALL_SEES)
WITH_READING_ALL = (*with_hooks(READING_ALL), *add("a.txt", "x\n"))
# A command that is known to read the files that it is given alone.
KNOWN = hook("T", "'true'")
DETAILS = "- hook id: t\n"


def from_cache(number):
    return f"answered from the cache: {number}\n"


CHOSEN = [
    # A file that the command reads unasked is made stricter: a plain run answers as before, and a cautious one starts the command.
    (
        *GOOD, *SEES_RULES[0], *SEES_RULES[1], *with_hooks(T), *add("a.txt", "x\n"), *add("rules", "1\n"), *run(), *run(), *COUNTS, *CAUTIOUS, *CAUTIOUS, *COUNTS,
        *add("rules", "2\n"), *run(), *COUNTS, *CAUTIOUS, *COUNTS, *CAUTIOUS, *COUNTS,
        ADDED_THREE + done(GOOD_T) * 2 + counted(1, 0, 1, 0) + done(GOOD_T) * 2 + counted(2, 0, 2, 1)
        + done() + done(GOOD_T) + counted(2, 0, 2) + ended(1, out=BAD_T) + counted(3, 0, 3, 2) + ended(1, out=BAD_T) + counted(4, 0, 3, 2),
    ),
    # A cached failure serves a plain run. A cautious one starts the command again, and its answer takes the place of the failure.
    (
        *child(*OF_ALL, status=1, output="x\n"), *child(*OF_ALL), *WITH_READING_ALL, *run(), *run(), *COUNTS, *CAUTIOUS, *COUNTS, *CAUTIOUS, *run(), *COUNTS,
        done() * 2 + ended(1, out=BAD_T) * 2 + counted(1, 0, 1, 0) + done(GOOD_T + UNSTEADY) + counted(2, 0, 1, 1) + done(GOOD_T) * 2 + counted(2, 0, 1),
    ),
    # The same failure again is no other answer.
    (
        *child(*OF_ALL, status=1, output="x\n"), *WITH_READING_ALL, *run(), *CAUTIOUS, *COUNTS,
        done() * 2 + ended(1, out=BAD_T) * 2 + counted(2, 0, 1, 0, 0),
    ),
    # An answer that changes files is a failure too, with any exit status.
    (
        *child(*OF_ALL, changes="a.txt=z"), *WITH_READING_ALL, *run(), *run(), *COUNTS, *CAUTIOUS, *COUNTS,
        done() * 2 + ended(1, out=STRAY_T) * 2 + counted(1, 0, 1, 0) + ended(1, out=STRAY_T) + counted(2, 0, 1, 0),
    ),
    # A pass that is cached serves each run except a fresh one.
    (
        *child(*OF_ALL), *WITH_READING_ALL, *run(), *CAUTIOUS, *run(), *COUNTS, *run(how="fresh cautious"), *COUNTS,
        done() * 2 + done(GOOD_T) * 3 + counted(1, 0, 1, 0) + done(GOOD_T) + counted(2, 0, 1, 0),
    ),
    # A known tool sees in both what it is known to read, here only the files that it is given.
    (
        *child("true\ta.txt", "a.txt=x"), *with_hooks(KNOWN), *add("a.txt", "x\n"), *add("rules", "1\n"), *run(), *CAUTIOUS, *add("rules", "2\n"), *CAUTIOUS, *COUNTS,
        ADDED_THREE + done(GOOD_T) * 2 + done() + done(GOOD_T) + counted(1, 0, 1, 0),
    ),
    # A verbose run shows each hook's details, and says at its end what came from the cache: nothing at first, and then all of it.
    (
        *GOOD, *ONE_HOOK, *VERBOSE, *VERBOSE, *run(), *run(how="fresh verbose"), *COUNTS,
        ADDED_THREE + done(GOOD_T + DETAILS + from_cache(0)) + done(GOOD_T + DETAILS + from_cache(1)) + done(GOOD_T) + done(GOOD_T + DETAILS + from_cache(0))
        + counted(2, 0, 1, 0, 0),
    ),
    # A command is counted for each hook that it answers, and for each part of a hook's files.
    (
        *GOOD, *with_hooks(T, U), *add("a.txt", "x\n"), *VERBOSE, *VERBOSE, *COUNTS,
        done() * 2 + done(GOOD_T + DETAILS + passed("U") + "- hook id: u\n" + from_cache(1)) + done(GOOD_T + DETAILS + passed("U") + "- hook id: u\n" + from_cache(2))
        + counted(1, 0, 1, 0),
    ),
    (
        *OF_THREE, *run("a.txt"), *VERBOSE, *VERBOSE,
        ADDED_FOUR + done(GOOD_T) + done(GOOD_T + DETAILS + from_cache(1)) + done(GOOD_T + DETAILS + from_cache(3)),
    ),
    # The line comes after those of unsteady hooks, also of a run that failed.
    (
        *GOOD, *BAD_ONE, *ONE_HOOK, *run(), *run(how="fresh verbose"), *VERBOSE,
        ADDED_THREE + done(GOOD_T) + ended(1, out=BAD_T + UNSTEADY + from_cache(0)) + ended(1, out=BAD_T + from_cache(1)),
    ),
    # No hook has files, and none is answered.
    (*with_hooks(T), *VERBOSE, *run(how="cautious verbose"), done() + done(f"T{'.' * 52}(no files to check)Skipped\n{DETAILS}" + from_cache(0)) * 2),
    # A run that is refused prints nothing on the cache.
    (*VERBOSE, refused("7 NoConfig")),
    (*ONE_HOOK, *run(only="u", how="cautious verbose"), ADDED_THREE + refused("9 NoSuchHook")),
    # A writer that doesn't take the line.
    *(
        (*GOOD, *ONE_HOOK, *run(how="verbose", out=str(count)), ADDED_THREE + cut_off((GOOD_T + DETAILS + from_cache(0))[:count]))
        for count in [0, len(GOOD_T), len(GOOD_T + DETAILS), len(GOOD_T + DETAILS) + 1, len(GOOD_T + DETAILS + from_cache(0)) - 1]
    ),
    *((*GOOD, *ONE_HOOK, *run(how="verbose", out=habit), ADDED_THREE + done(GOOD_T + DETAILS + from_cache(0))) for habit in PATIENT),
]

ROWS = [("command_over", *row) for row in [*LIMITED, *REMEMBERED, *STEADY, *CHOSEN, *COMMITTED, *MESSAGES, *MEMORY]]
