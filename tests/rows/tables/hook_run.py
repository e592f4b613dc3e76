"""Runs that are asked for in full: which hooks they go through, which files these get, what is skipped, and at what a run stops. The call
is

run CONFIGURATION STAGE CANDIDATES ONLY SKIP FILE..

and its answer the refusal, or a line on the whole run, a line for each result, and the report. Runs whose hooks have children are
made over a table of answers:

run_hooks CONFIGURATION STAGE CANDIDATES ONLY SKIP CALLS KTH FAULT COUNT ROW.. FILE..

The first line then gives the children's outcomes and faults, and lines on the changed files follow. `run_plan` is the same, but each
child that the plan of the run needs is started outside, and its outcome given to the plan. No contract says what a refusal is shown
as. The other rows test the definitions that the contracts cite, from a user's side."""

PROGRAM = "run_trial"


def hook(name, more="", language="fail", entry="no"):
    """A hook's table. Its id is its name in small letters."""
    return f"  - {{id: {name.lower()}, name: {name}, language: {language}, entry: {entry}{', ' + more if more else ''}}}\n"


def hooks(*tables, top=""):
    return f"{top}repos:\n- repo: local\n  hooks:\n{''.join(tables)}"


def file(path, contents="", mode="plain"):
    return f"{mode} {path}\n{contents}"


def said(verdict, *lines):
    """The line on a run: no child is needed, and the tree stays as it is."""
    return f"Over, {verdict}, the same tree, 0 unsteady\n{''.join(lines)}"


def line(name, word, columns=80):
    """The first line of a hook."""
    return f"{name}{'.' * (columns - len(name) - len(word) - 1)}{word}\n"


def failed(name, *files, entry="no", columns=80):
    """What a report says of a hook of the language `fail` on these files."""
    paths = "\n" + "".join(f"{path}\n" for path in files) if files else ""
    return f"{line(name, 'Failed', columns)}- hook id: {name.lower()}\n- exit code: 1\n\n{entry}\n{paths}\n"


NO_FILES = "(no files to check)Skipped"
MANY = [f"src/{number:05}.txt" for number in range(100_000)]
A, B = file("a.txt", "a\n"), file("b/c.py", "b\n")
BOTH = "a.txt\nb/c.py"
TWO = hooks(hook("One", "alias: first"), hook("Two"))
REFUSED = "3 NoSuchHook: no hook of the stage has that id or alias"

# Which hooks a run goes through: the configuration, the stage, the named hooks, the names to skip, and the line on the run over `a.txt`.
ASKED = [
    (TWO, "pre-commit", "all", "", said("failed", "one: ran, status 1\ntwo: ran, status 1\n", failed("One", "a.txt"), failed("Two", "a.txt"))),
    ("repos: []\n", "pre-commit", "all", "", said("passed")),
    # By its id, and by its alias.
    (TWO, "pre-commit", "only two", "", said("failed", "two: ran, status 1\n", failed("Two", "a.txt"))),
    (TWO, "pre-commit", "only first", "", said("failed", "one: ran, status 1\n", failed("One", "a.txt"))),
    # Nothing has the name: neither a hook's name nor a part of its id is one, and an alias without bytes names nothing.
    (TWO, "pre-commit", "only nope", "", REFUSED),
    (TWO, "pre-commit", "only Two", "", REFUSED),
    (TWO, "pre-commit", "only tw", "", REFUSED),
    (TWO, "pre-commit", "only ", "", REFUSED),
    ("repos: []\n", "pre-commit", "only two", "", REFUSED),
    # An id without bytes is a name.
    (
        hooks(hook("Two"), hook("One").replace("id: one", "id: ''")),
        "pre-commit",
        "only ",
        "",
        said("failed", ": ran, status 1\n", failed("One", "a.txt").replace("id: one", "id: ")),
    ),
    # One name means all hooks that have it, as id or as alias.
    (
        hooks(hook("Same"), hook("Two"), hook("Same", "files: b"), hook("Three", "alias: same")),
        "pre-commit",
        "only same",
        "",
        said(
            "failed",
            "same: ran, status 1\nsame: skipped, no files\nthree: ran, status 1\n",
            failed("Same", "a.txt"),
            line("Same", NO_FILES),
            failed("Three", "a.txt"),
        ),
    ),
    # A hook of another stage isn't one of the run, and its name is none.
    (hooks(hook("One", "stages: [manual]"), hook("Two")), "pre-commit", "all", "", said("failed", "two: ran, status 1\n", failed("Two", "a.txt"))),
    (hooks(hook("One", "stages: [manual]"), hook("Two", "stages: [commit]")), "manual", "all", "", said("failed", "one: ran, status 1\n", failed("One", "a.txt"))),
    (hooks(hook("One", "stages: [manual]"), hook("Two")), "pre-commit", "only one", "", REFUSED),
    (hooks(hook("One"), top="default_stages: [commit-msg]\n"), "pre-commit", "all", "", said("passed")),
    (hooks(hook("One"), top="default_stages: [commit-msg]\n"), "commit-msg", "all", "", said("failed", "one: ran, status 1\n", failed("One", "a.txt"))),
    # A skipped hook passes, also if it always runs, and its details are shown if it is verbose.
    (hooks(hook("Names")), "pre-commit", "all", "names", said("passed", "names: skipped as asked\n", line("Names", "Skipped"))),
    (
        hooks(hook("Names", "verbose: true, always_run: true")),
        "pre-commit",
        "all",
        "names",
        said("passed", "names: skipped as asked\n", line("Names", "Skipped"), "- hook id: names\n"),
    ),
    # It is skipped as asked with any files selected.
    (hooks(hook("Names", "files: b")), "pre-commit", "all", "names", said("passed", "names: skipped as asked\n", line("Names", "Skipped"))),
    # By its alias, among other names; an alias without bytes isn't one.
    (TWO, "pre-commit", "all", "nope\nfirst", said("failed", "one: skipped as asked\ntwo: ran, status 1\n", line("One", "Skipped"), failed("Two", "a.txt"))),
    (hooks(hook("Two")), "pre-commit", "all", "\nOne", said("failed", "two: ran, status 1\n", failed("Two", "a.txt"))),
    # Asked for by name and skipped: it is skipped, and the name is one.
    (TWO, "pre-commit", "only two", "two", said("passed", "two: skipped as asked\n", line("Two", "Skipped"))),
    (TWO, "pre-commit", "only first", "one", said("passed", "one: skipped as asked\n", line("One", "Skipped"))),
    # Only the names of the run's hooks widen the report.
    (
        hooks(hook("Two"), hook("N" * 60)),
        "pre-commit",
        "only two",
        "",
        said("failed", "two: ran, status 1\n", failed("Two", "a.txt")),
    ),
    (
        hooks(hook("Two"), hook("N" * 60)),
        "pre-commit",
        "all",
        "n" * 60,
        said("failed", f"two: ran, status 1\n{'n' * 60}: skipped as asked\n", failed("Two", "a.txt", columns=90), line("N" * 60, "Skipped", 90)),
    ),
]

# At what a run stops: the configuration, the names to skip, and the line on the run over `a.txt`.
STOPS = [
    (hooks(hook("One"), hook("Two"), top="fail_fast: true\n"), "", said("failed", "one: ran, status 1\n", failed("One", "a.txt"))),
    (hooks(hook("One", "fail_fast: true"), hook("Two")), "", said("failed", "one: ran, status 1\n", failed("One", "a.txt"))),
    # Not after a hook that passed, nor after one that was skipped.
    (
        hooks(hook("One", "fail_fast: true", "pygrep", "x"), hook("Two", "fail_fast: true, files: b"), hook("Three"), hook("Four"), top="fail_fast: true\n"),
        "",
        said("failed", "one: ran, status 0\ntwo: skipped, no files\nthree: ran, status 1\n", line("One", "Passed"), line("Two", NO_FILES), failed("Three", "a.txt")),
    ),
    (hooks(hook("One"), hook("Two"), top="fail_fast: true\n"), "one", said("failed", "one: skipped as asked\ntwo: ran, status 1\n", line("One", "Skipped"), failed("Two", "a.txt"))),
    # The fail_fast of a hook that passed holds for no other.
    (
        hooks(hook("One"), hook("Two", "fail_fast: true", "pygrep", "x"), hook("Three", "", "pygrep", "x")),
        "",
        said("failed", "one: ran, status 1\ntwo: ran, status 0\nthree: ran, status 0\n", failed("One", "a.txt"), line("Two", "Passed"), line("Three", "Passed")),
    ),
    # A name after the stop widens the report.
    (hooks(hook("One"), hook("N" * 60), top="fail_fast: true\n"), "", said("failed", "one: ran, status 1\n", failed("One", "a.txt", columns=90))),
]

ONE = hooks(hook("One"))

# Which files a hook gets: the configuration, the candidates, the files, and the line on the run.
FILES = [
    # Candidates in any order, twice, and some that aren't there; a file that is none isn't selected.
    (ONE, "b/c.py\na.txt\nnone\na.txt", A, B, file("d"), said("failed", "one: ran, status 1\n", failed("One", "a.txt", "b/c.py"))),
    (ONE, "", A, said("passed", "one: skipped, no files\n", line("One", NO_FILES))),
    (ONE, "none", A, said("passed", "one: skipped, no files\n", line("One", NO_FILES))),
    (ONE, "a.txt", said("passed", "one: skipped, no files\n", line("One", NO_FILES))),
    # The patterns of the top and of the hook.
    (hooks(hook("One", "files: c, exclude: ^x"), hook("Two"), top="files: b\nexclude: z$\n"), f"{BOTH}\nbc/z\nx/bc", A, B, file("bc/z"), file("x/bc"),
     said("failed", "one: ran, status 1\ntwo: ran, status 1\n", failed("One", "b/c.py"), failed("Two", "b/c.py", "x/bc"))),
    # Tags by the mode and by the first line of an executable file.
    (hooks(hook("One", "types: [python3]"), hook("Two", "types: [executable]"), hook("Three", "exclude_types: [executable]"), hook("Four", "types_or: [node, shell]")),
     "run\nrun.txt\nplain", file("run", "#!/usr/bin/env python3.9\n", "executable"), file("run.txt", "#!/bin/sh\n", "executable"), file("plain", "#!/usr/bin/env python3\n"),
     said("failed", "one: ran, status 1\ntwo: ran, status 1\nthree: ran, status 1\nfour: skipped, no files\n",
          failed("One", "run"), failed("Two", "run", "run.txt"), failed("Three", "plain"), line("Four", NO_FILES))),
    # A hook that always runs gets what is selected, and is run without names if nothing is.
    (hooks(hook("One", "always_run: true, files: c"), hook("Two", "always_run: true, files: zz")), BOTH, A, B,
     said("failed", "one: ran, status 1\ntwo: ran, status 1\n", failed("One", "b/c.py"), failed("Two"))),
    # A hook that takes no names is run without them if files are selected, and skipped if none is.
    (hooks(hook("One", "pass_filenames: false"), hook("Two", "pass_filenames: false, files: zz")), BOTH, A, B,
     said("failed", "one: ran, status 1\ntwo: skipped, no files\n", failed("One"), line("Two", NO_FILES))),
    # `pygrep` looks into the files that are selected, and into none without names.
    (hooks(hook("One", "files: txt", "pygrep", "^b"), hook("Two", "", "pygrep", "^b"), hook("Three", "pass_filenames: false", "pygrep", "^b"), hook("Four", "args: [-i, --negate]", "pygrep", "A")),
     BOTH, A, B,
     said("failed", "one: ran, status 0\ntwo: ran, status 1\nthree: ran, status 0\nfour: ran, status 1\n", line("One", "Passed"), line("Two", "Failed"),
          "- hook id: two\n- exit code: 1\n\nb/c.py:1:b\n\n", line("Three", "Passed"), line("Four", "Failed"), "- hook id: four\n- exit code: 1\n\nb/c.py\n\n")),
    # 100,000 paths, given from the last to the first, of which a pattern finds ten, a tag all, and a search one.
    (hooks(hook("One", r"files: '7777\d\.txt$'"), hook("Two", "types: [text], exclude_types: [plain-text]"), hook("Three", "", "pygrep", "^TODO")),
     "\n".join(reversed(MANY)), *(file(path, "TODO\n" if path == MANY[70_000] else "x\n") for path in MANY),
     said("failed", "one: ran, status 1\ntwo: skipped, no files\nthree: ran, status 1\n", failed("One", *MANY[77_770:77_780]), line("Two", NO_FILES),
          line("Three", "Failed"), f"- hook id: three\n- exit code: 1\n\n{MANY[70_000]}:1:TODO\n\n")),
    # All of the run's hooks were skipped.
    (hooks(hook("One", "files: zz"), hook("Two", "types: [image]")), BOTH, A, B,
     said("passed", "one: skipped, no files\ntwo: skipped, no files\n", line("One", NO_FILES), line("Two", NO_FILES))),
]



def answered(*words, seen, status=0, changes="", output=""):
    """A row of the table: once a child of these words has seen these files, it answers so."""
    return "\n".join([f"answer {status}", "\t".join(words), "\t".join(seen), changes, output])


def told(verdict, calls, faults, *lines):
    """The line on a run over the table."""
    return f"{verdict}, {calls} calls, {faults} faults, 0 unsteady\n{''.join(lines)}"


def over(configuration, answers, files, answer, candidates="a.txt", calls="0", kth="0", fault="signal", skip=""):
    """A run of all hooks of the stage `pre-commit` over the table."""
    return ("run_hooks", configuration, "pre-commit", candidates, "all", skip, calls, kth, fault, str(len(answers)), *answers, *files, answer)


def details(name, *lines, output=""):
    """What a report says of a hook that failed so."""
    block = f"\n{output}\n" if output else ""
    told_lines = "".join(f"- {each}\n" for each in [f"hook id: {name.lower()}", *lines])
    return f"{line(name, 'Failed')}{told_lines}{block}"


T = hooks(hook("T", r"files: '\.txt$'", "system", "c"))
X = file("a.txt", "x\n")
SEEN = ["a.txt=x"]

# Names of 4,095 bytes, of which 31 fit one command of `c`, and not the next.
LONG = [f"{'/'.join(['d' * 255] * 15)}/{number:02}{'f' * 249}.txt" for number in range(32)]
LONG_FILES = [file(path, "x\n") for path in LONG]
TWO_PARTS = [
    answered("c", *LONG[:31], seen=[f"{path}=x" for path in LONG[:31]], output="one\n"),
    answered("c", LONG[31], seen=[f"{LONG[31]}=x"], status=3, output="two\n"),
]

# A hook that reads a further file, and what its children see of it.
READS = r"files: '\.txt$', x_reads: '^lint\.cfg$'"
CFG, Y = file("lint.cfg", "strict\n"), file("b.txt", "y\n")
STRICT, LOOSE = "lint.cfg=strict", "lint.cfg=loose"
A_TXT_AND_B_TXT = "a.txt\nb.txt"

# The lines of a child that failed.
FAULTS = {
    "not started": "could not be started",
    "wait failed": "could not be waited for",
    "signal": "ended by a signal",
    "output too long": "output is longer than 1048576 bytes",
    "scratch failed": "files could not be written or read back",
}

SCRIPT = hooks(hook("T", "files: a", "script", "tools/lint.sh"))
LINT = {"env": "#!/bin/sh -e\n", "plain": "x\n"}
CHILDREN = [
    # A child passes, fails by its status, and prints.
    over(T, [answered("c", "a.txt", seen=SEEN)], [X], told("passed", 1, 0, "t: ran, status 0\n", line("T", "Passed"))),
    over(T, [answered("c", "a.txt", seen=SEEN, status=255)], [X], told("failed", 1, 0, "t: ran, status 255\n", details("T", "exit code: 255"))),
    over(T, [answered("c", "a.txt", seen=SEEN, status=1, output="\n bad \n\n")], [X], told("failed", 1, 0, "t: ran, status 1\n", details("T", "exit code: 1", output="bad\n"))),
    # What a hook prints is shown if it passed and is verbose.
    over(hooks(hook("T", "files: txt, verbose: true", "system", "c")), [answered("c", "a.txt", seen=SEEN, output="said\n")], [X],
         told("passed", 1, 0, "t: ran, status 0\n", line("T", "Passed"), "- hook id: t\n\nsaid\n\n")),
    # A child that isn't in the table isn't started: the files that it sees are others.
    over(T, [answered("c", "a.txt", seen=["a.txt=y"])], [X], told("failed", 1, 1, "t: ran, status 0\n", details("T", "fault: could not be started"))),
    # Each fault has its line.
    *(over(T, [answered("c", "a.txt", seen=SEEN)], [X], told("failed", 1, 1, "t: ran, status 0\n", details("T", f"fault: {text}")), kth="1", fault=fault)
      for fault, text in FAULTS.items()),
    # Two parts: all outputs, and the greatest status. So it is if a part may have more names than fit a command.
    *(over(hook_of_all, TWO_PARTS, LONG_FILES, told("failed", 2, 0, "t: ran, status 3\n", details("T", "exit code: 3", output="one\ntwo\n")), "\n".join(LONG))
      for hook_of_all in (T, T.replace("files: ", "x_at_most: 32, files: "))),
    # The first ends by a signal, and the second runs all the same.
    over(T, TWO_PARTS, LONG_FILES, told("failed", 2, 1, "t: ran, status 3\n", details("T", "exit code: 3", "fault: ended by a signal", output="two\n")), "\n".join(LONG), kth="1"),
    # A name doesn't fit, and no child is started; nor is one whose words don't fit without names.
    *(over(hooks(hook("T", more, "system", "c" * count)), [], [X], told("failed", 0, 0, "t: ran, status 0\n", details("T", "fault: a name does not fit the command")))
      for more, count in [("files: txt", 131_072), ("files: txt", 131_067), ("pass_filenames: false", 131_073)]),
    over(hooks(hook("T", "files: txt", "system", "c" * 131_066)), [answered("c" * 131_066, "a.txt", seen=SEEN)], [X], told("passed", 1, 0, "t: ran, status 0\n", line("T", "Passed"))),
    # All outcomes that can be counted are reported. A run is refused if a further child is needed, and only then.
    over(T, [], [X], "4 Spent: no more children can be counted", calls="all"),
    over(T, [], [X], told("passed", 0, 0, "t: skipped, no files\n", line("T", NO_FILES)), candidates="", calls="all"),
    over(T, [], [X], told("passed", 0, 0, "t: skipped as asked\n", line("T", "Skipped")), skip="t", calls="all"),
    over(ONE, [], [X], told("failed", 0, 0, "one: ran, status 1\n", failed("One", "a.txt")), calls="all"),
    # A hook changes a file, which the next one finds changed; the second leaves it.
    over(hooks(hook("Trim", "files: txt", "system", "trim"), hook("Look", "files: txt", "system", "look")),
         [answered("trim", "a.txt", seen=["a.txt=x "], changes="a.txt=x"), answered("look", "a.txt", seen=SEEN)], [file("a.txt", "x \n")],
         told("failed", 2, 0, "changed a.txt\n", "trim: ran, status 0\nlook: ran, status 0\n", details("Trim", "files were modified by this hook"), line("Look", "Passed"))),
    # A change to the same bytes is none, and one that is taken back by a later hook was a change of each.
    over(T, [answered("c", "a.txt", seen=SEEN, changes="a.txt=x")], [X], told("passed", 1, 0, "t: ran, status 0\n", line("T", "Passed"))),
    over(hooks(hook("To", "files: a", "system", "to"), hook("From", "files: a", "system", "from")),
         [answered("to", "a.txt", seen=SEEN, changes="a.txt=y"), answered("from", "a.txt", seen=["a.txt=y"], changes="a.txt=x")], [X],
         told("failed", 2, 0, "to: ran, status 0\nfrom: ran, status 0\n", *(details(name, "files were modified by this hook") for name in ["To", "From"]))),
    # A hook removes its file: a later one has none.
    over(hooks(hook("Gone", "files: txt", "system", "gone"), hook("Look", "files: txt", "system", "look")),
         [answered("gone", "a.txt", seen=SEEN, changes="a.txt")], [X],
         told("failed", 1, 0, "gone a.txt\n", "gone: ran, status 0\nlook: skipped, no files\n", details("Gone", "files were modified by this hook"), line("Look", NO_FILES))),
    # A child changes one file and removes another.
    over(T, [answered("c", "a.txt", seen=SEEN, changes="a.txt=y\tb.md")], [X, file("b.md", "x\n")],
         told("failed", 1, 0, "changed a.txt\n", "gone b.md\n", "t: ran, status 0\n", details("T", "files were modified by this hook"))),
    # What a child changed before it failed is dropped.
    over(T, [answered("c", "a.txt", seen=SEEN, changes="a.txt=y")], [X], told("failed", 1, 1, "t: ran, status 0\n", details("T", "fault: files could not be written or read back")),
         kth="1", fault="scratch failed"),
    # A child changes a file that it hasn't seen: that counts as well. New files don't.
    over(hooks(hook("T", "files: ^a", "system", "c")), [answered("c", "a.txt", seen=SEEN, changes="b.txt=z")], [X, file("b.txt", "y\n")],
         told("failed", 1, 0, "changed b.txt\n", "t: ran, status 0\n", details("T", "files were modified by this hook"))),
    over(T, [answered("c", "a.txt", seen=SEEN, changes="new.txt=z")], [X], told("passed", 1, 0, "t: ran, status 0\n", line("T", "Passed"))),
    # A child whose hook takes no names sees all files; one that has names sees those, and the files among its words.
    over(hooks(hook("T", "pass_filenames: false", "system", "c")), [answered("c", seen=["a.txt=x", "b.txt=y"])], [X, file("b.txt", "y\n")],
         told("passed", 1, 0, "t: ran, status 0\n", line("T", "Passed"))),
    over(hooks(hook("T", "files: a, args: [./b.txt]", "system", "c -x")), [answered("c", "-x", "./b.txt", "a.txt", seen=["a.txt=x", "b.txt=y"])], [X, file("b.txt", "y\n"), file("d.txt", "z\n")],
         told("passed", 1, 0, "t: ran, status 0\n", line("T", "Passed"))),
    # One sees the files that its hook reads, which no other pattern keeps off, and of which there may be none.
    *(over(hooks(hook("T", f"{READS}, {more}", "system", "c"), top=top), [answered("c", "a.txt", seen=[*SEEN, STRICT])], [X, Y, CFG],
           told("passed", 1, 0, "t: ran, status 0\n", line("T", "Passed")))
      for more, top in [("verbose: false", ""), ("exclude: cfg, types: [text], exclude_types: [ini]", "exclude: ^lint\n")]),
    over(hooks(hook("T", READS, "system", "c")), [answered("c", "a.txt", seen=SEEN)], [X], told("passed", 1, 0, "t: ran, status 0\n", line("T", "Passed"))),
    over(hooks(hook("T", r"files: '\.txt$', x_reads: '^$'", "system", "c")), [answered("c", "a.txt", seen=SEEN)], [X, CFG], told("passed", 1, 0, "t: ran, status 0\n", line("T", "Passed"))),
    # A change of such a file counts as any.
    over(hooks(hook("T", READS, "system", "c")), [answered("c", "a.txt", seen=[*SEEN, STRICT], changes=LOOSE)], [X, CFG],
         told("failed", 1, 0, "changed lint.cfg\n", "t: ran, status 0\n", details("T", "files were modified by this hook"))),
    # A child for each name: all outputs, and the greatest status.
    over(hooks(hook("T", r"files: '\.txt$', x_per_file: true", "system", "c")),
         [answered("c", "a.txt", seen=SEEN, output="one\n"), answered("c", "b.txt", seen=["b.txt=y"], status=2, output="two\n")], [X, Y],
         told("failed", 2, 0, "t: ran, status 2\n", details("T", "exit code: 2", output="one\ntwo\n")), A_TXT_AND_B_TXT),
    # The second sees the further file as the first left it, or none if that removed it.
    over(hooks(hook("T", f"{READS}, x_per_file: true", "system", "c")),
         [answered("c", "a.txt", seen=[*SEEN, STRICT], changes=LOOSE), answered("c", "b.txt", seen=["b.txt=y", LOOSE])], [X, Y, CFG],
         told("failed", 2, 0, "changed lint.cfg\n", "t: ran, status 0\n", details("T", "files were modified by this hook")), A_TXT_AND_B_TXT),
    over(hooks(hook("T", f"{READS}, x_per_file: true", "system", "c")),
         [answered("c", "a.txt", seen=[*SEEN, STRICT], changes="lint.cfg"), answered("c", "b.txt", seen=["b.txt=y"])], [X, Y, CFG],
         told("failed", 2, 0, "gone lint.cfg\n", "t: ran, status 0\n", details("T", "files were modified by this hook")), A_TXT_AND_B_TXT),
    # At most two names for each child: the last has those that are left, and one has all if there are no more.
    over(hooks(hook("T", r"files: '\.txt$', x_at_most: 2", "system", "c")),
         [answered("c", "a.txt", "b.txt", seen=[*SEEN, "b.txt=y"], output="one\n"), answered("c", "d.txt", seen=["d.txt=z"], status=2, output="two\n")],
         [X, Y, file("d.txt", "z\n")], told("failed", 2, 0, "t: ran, status 2\n", details("T", "exit code: 2", output="one\ntwo\n")), f"{A_TXT_AND_B_TXT}\nd.txt"),
    *(over(hooks(hook("T", rf"files: '\.txt$', x_at_most: {most}", "system", "c")), [answered("c", "a.txt", "b.txt", seen=[*SEEN, "b.txt=y"])], [X, Y],
           told("passed", 1, 0, "t: ran, status 0\n", line("T", "Passed")), A_TXT_AND_B_TXT)
      for most in (2, 3, 100_000)),
    # With 1 there is a child for each name, and with both keys the smaller number counts.
    *(over(hooks(hook("T", rf"files: '\.txt$', {keys}", "system", "c")), [answered("c", "a.txt", seen=SEEN), answered("c", "b.txt", seen=["b.txt=y"])], [X, Y],
           told("passed", 2, 0, "t: ran, status 0\n", line("T", "Passed")), A_TXT_AND_B_TXT)
      for keys in ("x_at_most: 1", "x_per_file: true, x_at_most: 2", "x_per_file: false, x_at_most: 1")),
    # Without names there is one child, and hooks that start none have all names at once.
    *(over(hooks(hook("T", f"pass_filenames: false, {key}", "system", "c")), [answered("c", seen=[*SEEN, "b.txt=y"])], [X, Y],
           told("passed", 1, 0, "t: ran, status 0\n", line("T", "Passed")), A_TXT_AND_B_TXT)
      for key in ("x_per_file: true", "x_at_most: 1")),
    over(hooks(hook("One", "x_per_file: true, x_at_most: 1, x_reads: b")), [], [X, Y], told("failed", 0, 0, "one: ran, status 1\n", failed("One", "a.txt", "b.txt")), A_TXT_AND_B_TXT),
    # It always runs: without selected files once, without names.
    over(hooks(hook("T", "files: zz, always_run: true", "system", "c")), [answered("c", seen=[])], [X], told("passed", 1, 0, "t: ran, status 0\n", line("T", "Passed"))),
    # No hook runs after one whose child failed, if it stops the run.
    over(hooks(hook("T", "files: txt, fail_fast: true", "system", "c"), hook("Two", "", "system", "d")), [answered("c", "a.txt", seen=SEEN, status=1)], [X],
         told("failed", 1, 0, "t: ran, status 1\n", details("T", "exit code: 1"))),
    over(hooks(hook("T", "files: txt", "system", "c"), hook("Two", "", "system", "d"), top="fail_fast: true\n"), [answered("c", "a.txt", seen=SEEN)], [X],
         told("failed", 1, 1, "t: ran, status 0\n", details("T", "fault: ended by a signal")), kth="1"),
    # The commands of a script: by what its first line names, by `sh`, and as it is written if it isn't among the files.
    over(SCRIPT, [answered("/bin/sh", "-e", "tools/lint.sh", "a.txt", seen=["a.txt=x", "tools/lint.sh=#!/bin/sh -e"])], [X, file("tools/lint.sh", LINT["env"])],
         told("passed", 1, 0, "t: ran, status 0\n", line("T", "Passed"))),
    over(SCRIPT, [answered("sh", "tools/lint.sh", "a.txt", seen=["a.txt=x", "tools/lint.sh=x"])], [X, file("tools/lint.sh", LINT["plain"])],
         told("passed", 1, 0, "t: ran, status 0\n", line("T", "Passed"))),
    over(SCRIPT, [answered("./tools/lint.sh", "a.txt", seen=SEEN)], [X], told("passed", 1, 0, "t: ran, status 0\n", line("T", "Passed"))),
    over(hooks(hook("T", "files: a", "script", "lint.sh")), [answered("sh", "lint.sh", "a.txt", seen=["a.txt=x", "lint.sh=x"])], [X, file("lint.sh", LINT["plain"])],
         told("passed", 1, 0, "t: ran, status 0\n", line("T", "Passed"))),
    over(hooks(hook("T", "files: a", "script", "tools/lint.sh -q")), [answered("sh", "tools/lint.sh", "-q", "a.txt", seen=["a.txt=x", "tools/lint.sh=x"])],
         [X, file("tools/lint.sh", LINT["plain"])], told("passed", 1, 0, "t: ran, status 0\n", line("T", "Passed"))),
    # A system hook: the file of a first word with a slash, otherwise its words as they are.
    over(hooks(hook("T", "files: a", "system", "./lint -q")), [answered("/bin/sh", "-e", "lint", "-q", "a.txt", seen=["a.txt=x", "lint=#!/bin/sh -e"])], [X, file("lint", LINT["env"])],
         told("passed", 1, 0, "t: ran, status 0\n", line("T", "Passed"))),
    over(hooks(hook("T", "files: a", "system", "lint -q")), [answered("lint", "-q", "a.txt", seen=["a.txt=x", "lint=#!/bin/sh -e"])], [X, file("lint", LINT["env"])],
         told("passed", 1, 0, "t: ran, status 0\n", line("T", "Passed"))),
    over(hooks(hook("T", "files: a", "system", "tools/lint.sh")), [answered("sh", "tools/lint.sh", "a.txt", seen=["a.txt=x", "tools/lint.sh=x"])], [X, file("tools/lint.sh", LINT["plain"])],
         told("passed", 1, 0, "t: ran, status 0\n", line("T", "Passed"))),
    over(hooks(hook("T", "files: a", "system", "./lint -q")), [answered("./lint", "-q", "a.txt", seen=SEEN)], [X], told("passed", 1, 0, "t: ran, status 0\n", line("T", "Passed"))),
    over(hooks(hook("T", "files: a", "system", "sh tools/lint.sh")), [answered("sh", "tools/lint.sh", "a.txt", seen=["a.txt=x", "tools/lint.sh=x"])], [X, file("tools/lint.sh", LINT["plain"])],
         told("passed", 1, 0, "t: ran, status 0\n", line("T", "Passed"))),
]

ROWS = [
    *CHILDREN,
    *(("run_plan", *row[1:]) for row in CHILDREN),
    # A plan that needs a child says so.
    ("run", T, "pre-commit", "a.txt", "all", "", X, "Child"),
    *(("run", configuration, stage, "a.txt", only, skip, A, answer) for configuration, stage, only, skip, answer in ASKED),
    *(("run", configuration, "pre-commit", "a.txt", "all", skip, A, answer) for configuration, skip, answer in STOPS),
    *(("run", configuration, "pre-commit", candidates, "all", "", *files) for configuration, candidates, *files in FILES),
]
