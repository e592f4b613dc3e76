"""Commands over a repository in memory: what each prints, on which writer, with which exit status, and what it leaves. The call is

command_over STEP..

with the steps that `crates/hook_trial/src/host_commands.rt` names, after the rows of `child_tables.rt`. No contract says that memory
is enough for these rows, and none speaks of writers that are interrupted. The other rows test the definitions that the contracts
cite, from a user's side. hook_cli_remembered.py has what commands cache of their hooks' children."""
from command_rows import HABITS, PATIENT, STORE, UNTAKEN, add, commit, cut_off, done, ended, kept, line, refused, run, several, stage

PROGRAM = "hook_trial"

# The most bytes of a file.
MOST = 16 * 1024 * 1024

# A store without files and commits.
EMPTY = [
    (*line("rm", "a"), *STORE, refused("4 NotStaged") + kept()),
    (*line("status"), *STORE, done() + kept()),
    (*line("fixes"), *STORE, done() + kept()),
    (*line("accept"), *STORE, refused("11 NoFixes") + kept()),
    (*line("log"), *STORE, done() + kept()),
    (*line("memory"), *STORE, done("remembered: 0\n") + kept()),
    *((*line("limit", limit), *STORE, done("remembered: 0\n") + kept()) for limit in ["1", "100000"]),
    (*line("forget"), *STORE, done("forgotten: 0\n") + kept()),
    (*line("show", "0"), *STORE, ended(3, err="hookhost: no commit 0\n") + kept()),
    (*line("show", "1"), *STORE, ended(3, err="hookhost: no commit 1\n") + kept()),
    (*line("cat", "a"), *STORE, refused("4 NotStaged") + kept()),
    (*line("cat", "a//b"), *STORE, refused("3 BadPath 4") + kept()),
    (*add("a", "x"), *STORE, done() + kept([("a", "x")])),
]

# The mode that is staged if a file of a mode, or none, is staged at the path, and one is asked for, or none.
MODES = [
    (None, "none", "plain"),
    (None, "plain", "plain"),
    (None, "executable", "executable"),
    ("plain", "none", "plain"),
    ("plain", "plain", "plain"),
    ("plain", "executable", "executable"),
    ("executable", "none", "executable"),
    ("executable", "plain", "plain"),
    ("executable", "executable", "executable"),
]

ADDED = [
    *(
        (*(stage("a", "old", before) if before else ()), *add("a", "new", mode=asked), *STORE, done() + kept([("a", "new", after)]))
        for before, asked, after in MODES
    ),
    # A file without bytes, and bytes that are no text.
    (*add("a"), *STORE, done() + kept([("a", "")])),
    (*add("a", b"\xff\x00\n"), *line("cat", "a"), *STORE, done() + done(b"\xff\x00\n") + kept([("a", b"\xff\x00\n")])),
    # The mode of a file that was taken out is dropped, that of a committed one too.
    (
        *stage("a", "x", "executable"), "commit", "m", *line("rm", "a"), *add("a", "x"), *STORE,
        done() + done() + kept([("a", "x")], [("a", "x", "executable")], commits=1),
    ),
    # The files are in the order of their paths, not in the order in which they are added.
    (*add("c", "3"), *add("a", "1"), *add("b", "2"), *STORE, done() * 3 + kept([("a", "1"), ("b", "2"), ("c", "3")])),
]

REMOVED = [
    (*stage("a", "x"), *stage("b", "y"), *line("rm", "a"), *STORE, done() + kept([("b", "y")])),
    (*stage("a", "x"), *line("rm", "a"), *line("rm", "a"), *STORE, done() + refused("4 NotStaged") + kept()),
    # A folder isn't staged, and a path below a file isn't either.
    (*stage("a/b", "x"), *line("rm", "a"), *STORE, refused("4 NotStaged") + kept([("a/b", "x")])),
    (*stage("a", "x"), *line("rm", "a/b"), *STORE, refused("4 NotStaged") + kept([("a", "x")])),
    # What is committed stays committed.
    (
        *stage("a", "x"), "commit", "m", *line("rm", "a"), *line("rm", "a"), *STORE,
        done() + refused("4 NotStaged") + kept([], [("a", "x")], commits=1),
    ),
]

# Texts that are no paths, and the number of what is wrong with them.
NO_PATHS = [
    ("", 1),
    ("/a", 2),
    ("a/../b", 3),
    ("./a", 3),
    ("..", 3),
    ("a//b", 4),
    ("a/", 4),
    ("a" * 4097, 5),
    ("a\x01", 6),
    ("a\nb", 6),
    ("a\x7f", 6),
    (".git", 7),
    (".git/x", 7),
    # What is looked for first is reported.
    ("/" + "a" * 4096 + "\x01", 5),
    ("/a\x01", 6),
    ("/../b", 2),
    ("../a//b", 4),
    (".git/..", 3),
]

# Commands that name a path.
NAMING = [("add", "none"), ("rm",), ("cat",)]


def naming(command, path):
    return line(*command, path, *(("x",) if command[0] == "add" else ()))


BAD_PATHS = [
    (*stage("a", "x"), "fixes", "a", *naming(command, path), *STORE, refused(f"3 BadPath {number}") + kept([("a", "x")], fixes=1))
    for command in NAMING
    for path, number in NO_PATHS
]

# Paths that look like those.
GOOD_PATHS = [
    (*add(path, "x"), *line("cat", path), *line("rm", path), *STORE, done() + done("x") + done() + kept())
    for path in ["a" * 4096, ".gitignore", "a/.git", ".gitx/a", "...", "a b", "é", " "]
]

# A staged path, and another that can't be staged together with it.
CLASHING = [
    ("a.txt", "a.txt/b"),
    ("a.txt", "a.txt/b/c"),
    ("a/b/c", "a"),
    ("a/b/c", "a/b"),
    ("a/b/c", "a/b/c/d"),
]

# Pairs that can.
APART = [
    ("a.txt", "a/b"),
    ("a/b", "a.txt"),
    ("a/b/c", "a/bc"),
    ("a/bc", "a/b"),
    ("a", "ab/c"),
    ("b/a", "a"),
]

CLASHES = [
    *(
        (*stage(staged, "x"), "fixes", staged, *add(path, "y"), *STORE, refused("15 Clash") + kept([(staged, "x")], fixes=1))
        for staged, path in CLASHING
    ),
    *(
        (*stage(staged, "x"), *add(path, "x"), *STORE, done() + kept([(one, "x") for one in sorted([staged, path])]))
        for staged, path in APART
    ),
    # A file that is committed and no longer staged clashes with none.
    (
        *stage("a", "x"), "commit", "m", *line("rm", "a"), *add("a/b", "y"), *STORE,
        done() + done() + kept([("a/b", "y")], [("a", "x")], commits=1),
    ),
]

TOO_LARGE = [
    (*stage("a", "x"), "fixes", "a", *line("add_zeros", "none", "a", str(MOST + 1)), *STORE, refused("5 TooLarge") + kept([("a", "x")], fixes=1)),
    (*line("add_zeros", "none", "a", str(MOST)), *line("status"), done() + done("A a\n")),
    # The path is looked at first, and a clash last.
    (*line("add_zeros", "none", "/a", str(MOST + 1)), *STORE, refused("3 BadPath 2") + kept()),
    (*stage("a", "x"), *line("add_zeros", "none", "a/b", str(MOST + 1)), *STORE, refused("5 TooLarge") + kept([("a", "x")])),
]

# Two of the fixes are kept: `a` and `b` are staged.
WITH_FIXES = (*stage("a", "x"), *stage("b", "y"), "fixes", "a\nb")
A_AND_B = [("a", "x"), ("b", "y")]
FIXES = [
    (*WITH_FIXES, *STORE, kept(A_AND_B, fixes=2)),
    (*WITH_FIXES, *add("a", "z"), *STORE, done() + kept([("a", "z"), ("b", "y")])),
    (*WITH_FIXES, *add("a", "x"), *STORE, done() + kept(A_AND_B)),
    (*WITH_FIXES, *line("rm", "a"), *STORE, done() + kept([("b", "y")])),
    (*WITH_FIXES, *line("rm", "c"), *STORE, refused("4 NotStaged") + kept(A_AND_B, fixes=2)),
    (*WITH_FIXES, *line("status"), *STORE, done("A a\nA b\n") + kept(A_AND_B, fixes=2)),
    (*WITH_FIXES, *line("cat", "a"), *STORE, done("x") + kept(A_AND_B, fixes=2)),
    (*WITH_FIXES, *line("cat", "c"), *STORE, refused("4 NotStaged") + kept(A_AND_B, fixes=2)),
    (*WITH_FIXES, *line("log"), *STORE, done() + kept(A_AND_B, fixes=2)),
    (*WITH_FIXES, *line("show", "1"), *STORE, ended(3, err="hookhost: no commit 1\n") + kept(A_AND_B, fixes=2)),
    (*WITH_FIXES, *line("fixes"), *STORE, done("D a\nD b\n") + kept(A_AND_B, fixes=2)),
    (*WITH_FIXES, *line("accept"), *STORE, done("accepted: 2\n") + kept()),
    # A fix has other bytes or takes the file out. It says M also if the bytes are those that are staged, or none.
    (*stage("a", "x"), *stage("b", "y"), *stage("c", "z"), "fixes", "a\tnew\nb\nc\t", *line("fixes"), done("M a\nD b\nM c\n")),
    (*stage("a", "x"), "fixes", "a\tx", *line("fixes"), done("M a\n")),
    # The order is that of the paths' bytes.
    (
        *stage("a/b"), *stage("a.txt"), *stage("B"), *stage("é"), "fixes", "B\na.txt\t1\na/b\né\t2", *line("fixes"),
        done("D B\nM a.txt\nD a/b\nM é\n"),
    ),
    # A fix of a path that isn't staged is none.
    (*stage("b", "x"), "fixes", "a\nb\nc\tnew", *line("fixes"), *line("accept"), *STORE, done("D b\n") + done("accepted: 1\n") + kept()),
    (*stage("b", "x"), "fixes", "a", *line("fixes"), *line("accept"), *STORE, done() + refused("11 NoFixes") + kept([("b", "x")])),
    # Accepted, a file keeps its mode, those without a fix stay, and the fixes are forgotten.
    (
        *stage("a", "1", "executable"), *stage("b", "2"), *stage("c", "3"), *stage("d", "4"), "commit", "m", "fixes", "a\tone\nb\nc\t",
        *line("accept"), *line("fixes"), *line("accept"), *line("status"), *STORE,
        done("accepted: 3\n") + done() + refused("11 NoFixes") + done("M a\nD b\nM c\n")
        + kept([("a", "one", "executable"), ("c", ""), ("d", "4")], [("a", "1", "executable"), ("b", "2"), ("c", "3"), ("d", "4")], commits=1),
    ),
    (*stage("a", "x"), "fixes", "a\tx", *line("accept"), *STORE, done("accepted: 1\n") + kept([("a", "x")])),
    # Only those of the last run are kept, and a commit forgets them.
    (*stage("a", "x"), *stage("b", "y"), "fixes", "a", "fixes", "b\tz", *line("fixes"), done("M b\n")),
    (*stage("a", "x"), "fixes", "a", "commit", "m", *line("fixes"), *line("accept"), done() + refused("11 NoFixes")),
    (*stage("a", "x"), "fixes", "a", "unstage", "b", *line("fixes"), done()),
    # Their number is written in full.
    (
        *(word for at in range(12) for word in stage(f"{at:02}")), "fixes", "\n".join(f"{at:02}" for at in range(12)), *line("accept"), *STORE,
        done("accepted: 12\n") + kept(),
    ),
]

STATUS = [
    # Before the first commit each staged file is new.
    (*stage("b", "y", "executable"), *stage("a", ""), *line("status"), done("A a\nA b\n")),
    # After a commit nothing differs. The same holds if the same file is staged again or another came and went.
    (*stage("a", "x"), *stage("b", "y"), "commit", "m", *line("status"), done()),
    (*stage("a", "x"), "commit", "m", *add("a", "x"), *line("status"), done() + done()),
    (*stage("a", "x"), "commit", "m", *line("rm", "a"), *line("status"), *add("a", "x"), *line("status"), done() + done("D a\n") + done() + done()),
    (*stage("a", "x"), "commit", "m", *add("b", "y"), *line("rm", "b"), *line("status"), done() * 3),
    # Other bytes, as many of them or not, another mode alone, and both.
    (*stage("a", "x"), "commit", "m", *stage("a", "y"), *line("status"), done("M a\n")),
    (*stage("a", "x"), "commit", "m", *stage("a", ""), *line("status"), done("M a\n")),
    (*stage("a", "x"), "commit", "m", *stage("a", "x", "executable"), *line("status"), done("M a\n")),
    (*stage("a", "x", "executable"), "commit", "m", *stage("a", "x"), *line("status"), done("M a\n")),
    (*stage("a", "x"), "commit", "m", *stage("a", "y", "executable"), *line("status"), done("M a\n")),
    # A file that gets another name is gone and new.
    (*stage("b", "x"), "commit", "m", "unstage", "b", *stage("a", "x"), *line("status"), done("A a\nD b\n")),
    # All kinds in turn, and paths that didn't change among them.
    (
        *stage("b", "1"), *stage("c", "1"), *stage("d", "1"), *stage("f", "1"), *stage("g", "1"), "commit", "m",
        *stage("a", "1"), "unstage", "b", *stage("c", "2"), *stage("e", "1"), "unstage", "f", *stage("g", "1", "executable"), *stage("h", "1"),
        *line("status"),
        done("A a\nD b\nM c\nA e\nD f\nM g\nA h\n"),
    ),
    # All of the last commit come before all that is staged, and after it.
    (*stage("a", "1"), *stage("b", "1"), "commit", "m", "unstage", "a", "unstage", "b", *stage("c", "1"), *stage("d", "1"), *line("status"), done("D a\nD b\nA c\nA d\n")),
    (*stage("c", "1"), *stage("d", "1"), "commit", "m", "unstage", "c", "unstage", "d", *stage("a", "1"), *stage("b", "1"), *line("status"), done("A a\nA b\nD c\nD d\n")),
    # All is gone.
    (*stage("a", "1"), *stage("b", "1"), "commit", "m", "unstage", "a", "unstage", "b", *line("status"), done("D a\nD b\n")),
    # The order is that of bytes: a blank, `-` and `.` come before `/`, and `0` and letters after it.
    (
        *stage("a/b"), *stage("a0"), *stage("a.txt"), *stage("a-b"), *stage("a b"), *stage("B"), *stage("é"), *stage("z"), *line("status"),
        done("A B\nA a b\nA a-b\nA a.txt\nA a/b\nA a0\nA z\nA é\n"),
    ),
    (*stage("a.txt", "1"), "commit", "m", *stage("a/b", "1"), *line("status"), done("A a/b\n")),
    (*stage("a/b", "1"), "commit", "m", *stage("a.txt", "1"), *line("status"), done("A a.txt\n")),
    (*stage("a.txt", "1"), *stage("a/b", "1"), "commit", "m", "unstage", "a.txt", *line("status"), done("D a.txt\n")),
    (*stage("a", "1"), "commit", "m", "unstage", "a", *stage("a/b", "1"), *line("status"), done("D a\nA a/b\n")),
    (*stage("a/b", "1"), "commit", "m", "unstage", "a/b", *stage("a", "1"), *line("status"), done("A a\nD a/b\n")),
    # The last commit counts, not an earlier one.
    (*stage("a", "1"), "commit", "m", *stage("a", "2"), "commit", "n", *stage("a", "1"), *line("status"), done("M a\n")),
]

CAT = [
    (*stage("a", "one\ntwo\n"), *line("cat", "a"), done("one\ntwo\n")),
    (*stage("a", "one"), *line("cat", "a"), done("one")),
    (*stage("a", ""), *line("cat", "a"), done()),
    (*stage("a", "\n"), *line("cat", "a"), done("\n")),
    (*stage("a", b"\r\n\x00\xff"), *line("cat", "a"), done(b"\r\n\x00\xff")),
    (*stage("a", "1"), *stage("a.txt", "2"), *stage("b/a", "3"), *line("cat", "a.txt"), *line("cat", "b/a"), *line("cat", "a"), done("2") + done("3") + done("1")),
    # The staged file is shown, not the committed one.
    (*stage("a", "old"), "commit", "m", *stage("a", "new"), *line("cat", "a"), done("new")),
    (*stage("a", "old"), "commit", "m", "unstage", "a", *line("cat", "a"), refused("4 NotStaged")),
    (*stage("a/b", "x"), *line("cat", "a"), refused("4 NotStaged")),
]


def missing(path, what):
    """What `cat` ends with if there is no such file."""
    return ended(3, err=f"hookhost: no {what.replace('PATH', path)}\n")


# The bytes that a fix gives to a file, and those of a commit.
HALF_FIXED = (*stage("a", "x"), *stage("b", "y"), "fixes", "a\tfixed\nb")
VERSIONS = [
    (*HALF_FIXED, *line("cat_fixed", "a"), *line("cat", "a"), *STORE, done("fixed") + done("x") + kept(A_AND_B, fixes=2)),
    # A fix that takes the file out gives it no bytes, and nor does any to a file that is staged without one.
    (*HALF_FIXED, *line("cat_fixed", "b"), *STORE, missing("b", "fixed bytes of PATH") + kept(A_AND_B, fixes=2)),
    (*stage("a", "x"), *line("cat_fixed", "a"), missing("a", "fixed bytes of PATH")),
    (*line("cat_fixed", "a"), missing("a", "fixed bytes of PATH")),
    (*HALF_FIXED, *line("accept"), *line("cat_fixed", "a"), *line("cat", "a"), done("accepted: 2\n") + missing("a", "fixed bytes of PATH") + done("fixed")),
    (*line("cat_fixed", "a//b"), refused("3 BadPath 4")),
    (*line("cat_commit", "1", "a//b"), refused("3 BadPath 4")),
    # A commit keeps its bytes, with other bytes staged later.
    (
        *stage("a", "1"), *stage("b", "x"), "commit", "m", *stage("a", "2"), "unstage", "b", "commit", "n", *stage("a", "3"),
        *line("cat_commit", "1", "a"), *line("cat_commit", "2", "a"), *line("cat", "a"), *line("cat_commit", "1", "b"), *line("cat_commit", "2", "b"),
        done("1") + done("2") + done("3") + done("x") + missing("b", "PATH in commit 2"),
    ),
    (*stage("a", b"\x00\xff\r\n"), "commit", "m", *line("cat_commit", "1", "a"), done(b"\x00\xff\r\n")),
    (*stage("a", ""), "commit", "m", *line("cat_commit", "1", "a"), done()),
    *((*stage("a", "1"), "commit", "m", *line("cat_commit", number, "a"), missing("a", f"commit {number}")) for number in ("0", "2", "4294967295")),
    (*line("cat_commit", "1", "a"), missing("a", "commit 1")),
    # A folder of a file is none.
    (*stage("a/b", "x"), "commit", "m", *line("cat_commit", "1", "a"), missing("a", "PATH in commit 1")),
]

# Messages, and what `log` prints for a first commit with each.
FIRST_LINES = [
    ("one\n", "1 one\n"),
    ("one", "1 one\n"),
    ("one\n\nbody\n", "1 one\n"),
    ("one\ntwo", "1 one\n"),
    ("", "1 \n"),
    ("\n", "1 \n"),
    ("\none\n", "1 \n"),
    (" one \r\ntwo\n", "1  one \r\n"),
    (b"\xff\x00\n", b"1 \xff\x00\n"),
]

LOG = [
    *(("commit", message, *line("log"), done(said)) for message, said in FIRST_LINES),
    # The newest is first.
    (*stage("a", "x"), "commit", "one\n", "commit", "two\nmore\n", "unstage", "a", "commit", "", *line("log"), done("3 \n2 two\n1 one\n")),
    # Numbers are written in full, in the order of numbers.
    (
        *(word for number in range(1, 12) for word in ("commit", f"m{number}\n")), *line("log"),
        done("11 m11\n10 m10\n9 m9\n8 m8\n7 m7\n6 m6\n5 m5\n4 m4\n3 m3\n2 m2\n1 m1\n"),
    ),
]

SHOW = [
    (*stage("b", "y"), *stage("a", "x"), "commit", "one\n\nbody\n", *line("show", "1"), done("one\n\nbody\n\na\nb\n")),
    # A line feed is added if the message is not empty and lacks one at its end.
    (*stage("a", "x"), "commit", "one", *line("show", "1"), done("one\n\na\n")),
    (*stage("a", "x"), "commit", "one\ntwo", *line("show", "1"), done("one\ntwo\n\na\n")),
    (*stage("a", "x"), "commit", "one\n\n", *line("show", "1"), done("one\n\n\na\n")),
    (*stage("a", "x"), "commit", "\n", *line("show", "1"), done("\n\na\n")),
    (*stage("a", "x"), "commit", "", *line("show", "1"), done("\na\n")),
    (*stage("a", "x"), "commit", b"\xff\x00", *line("show", "1"), done(b"\xff\x00\n\na\n")),
    # A commit without files.
    ("commit", "one\n", *line("show", "1"), done("one\n\n")),
    ("commit", "one", *line("show", "1"), done("one\n\n")),
    ("commit", "", *line("show", "1"), done("\n")),
    # Each commit has its own message and files, and what is staged later is in none.
    (
        *stage("a", "x"), "commit", "one\n", *stage("b", "y"), "commit", "two\n", "unstage", "a", "commit", "three\n", *stage("c", "z"),
        *line("show", "1"), *line("show", "2"), *line("show", "3"),
        done("one\n\na\n") + done("two\n\na\nb\n") + done("three\n\nb\n"),
    ),
    # Paths are in the order of their bytes.
    (*stage("a/b"), *stage("a.txt"), *stage("a0"), *stage("B"), "commit", "m\n", *line("show", "1"), done("m\n\nB\na.txt\na/b\na0\n")),
    # Numbers that no commit has.
    *(
        ("commit", "one\n", "commit", "two\n", *line("show", number), *STORE, ended(3, err=f"hookhost: no commit {number}\n") + kept(commits=2))
        for number in ["0", "3", "10", "4294967295"]
    ),
]


def refused_at(said, told):
    """What is answered to several changes, of which the one of this path is refused."""
    return ended(3, err=f"hookhost: refused: {said}\nhookhost: at {told}\n")


# Paths that aren't allowed, as they are reported: in quotes if they would end their line or mislead.
TOLD = [
    ("a\n", '"a\\n"'), ("\x07\x08\t\n\x0b\x0c\r", '"\\a\\b\\t\\n\\v\\f\\r"'), ("\x01\x0e\x1f\x7f", '"\\001\\016\\037\\177"'), ('\x1b"\\', '"\\033\\"\\\\"'),
]

# Several changes at once: all of them or none, each made on the result of those before it.
SEVERAL = [
    (*several(("add", "none", "b", "x"), ("add", "executable", "a", "y")), *STORE, done() + kept([("a", "y", "executable"), ("b", "x")])),
    (*several(("add", "none", "a", "x"), ("add", "none", "a", "y"), ("rm", "a")), *STORE, done() + kept()),
    (*stage("a", "x"), *several(("rm", "a"), ("add", "none", "a/b", "y")), *STORE, done() + kept([("a/b", "y")])),
    (*stage("a", "x"), *several(("add", "none", "b", "y"), ("add", "none", "a/b", "y"), ("rm", "c")), *STORE, refused_at("15 Clash", "a/b") + kept([("a", "x")])),
    (*stage("a", "x"), *several(("rm", "a"), ("rm", "a")), *STORE, refused_at("4 NotStaged", "a") + kept([("a", "x")])),
    (*several(("add", "none", "", "y")), *STORE, refused_at("3 BadPath 1", "") + kept()),
    (*several(("add", "none", "a", "y"), ("add", "none", "é//b c", "y")), *STORE, refused_at("3 BadPath 4", "é//b c") + kept()),
    *((*several(("add", "none", "a", "y"), ("rm", path)), *STORE, refused_at("3 BadPath 6", told) + kept()) for path, told in TOLD),
    (*several(("rm", 'a"b')), *STORE, refused_at("4 NotStaged", '"a\\"b"') + kept()),
    (*several(("rm", "a\\b")), *STORE, refused_at("4 NotStaged", '"a\\\\b"') + kept()),
    # A writer that takes little has all of it, and one that fails the beginning.
    *((*several(("rm", 'a"'), err=habit), refused_at("4 NotStaged", '"a\\""')) for habit in ["one", "interrupted"]),
    *(
        (*several(("rm", 'a"'), err=str(count)), ended(3, err='hookhost: refused: 4 NotStaged\nhookhost: at "a\\""\n'[:count]))
        for count in range(50)
    ),
    (*several(("rm", "a"), err="unflushed"), ended(3, err="hookhost: refused: 4 NotStaged\n")),
    (*several(("add", "none", "a", "x"), err="nothing"), *STORE, done() + kept([("a", "x")])),
]

# A store with output for each command, and the commands that print on `out`, with what each prints.
SET_UP = (*stage("a", "one\n"), *stage("b", "y"), "commit", "first\nmore", *stage("a", "two\n"), *stage("c", "z"), "unstage", "b", "fixes", "a")
STANDS = kept([("a", "two\n"), ("c", "z")], [("a", "one\n"), ("b", "y")], fixes=1, commits=1)
SAYING = [
    (("status",), "M a\nD b\nA c\n"),
    (("fixes",), "D a\n"),
    (("cat", "a"), "two\n"),
    (("log",), "1 first\n"),
    (("show", "1"), "first\nmore\n\na\nb\n"),
    (("memory",), "remembered: 0\n"),
    (("limit", "2"), "remembered: 0\n"),
    (("forget",), "forgotten: 0\n"),
]

# What `accept` prints and leaves there.
ACCEPTED = "accepted: 1\n"
ACCEPTS = kept([("c", "z")], [("a", "one\n"), ("b", "y")], commits=1)

# The commands that are refused there, with what each prints on `err`.
REFUSED = [
    (("add", "none", "a/b", "x"), "hookhost: refused: 15 Clash\n"),
    (("add", "none", "/a", "x"), "hookhost: refused: 3 BadPath 2\n"),
    (("rm", "b"), "hookhost: refused: 4 NotStaged\n"),
    (("rm", ""), "hookhost: refused: 3 BadPath 1\n"),
    (("cat", "b"), "hookhost: refused: 4 NotStaged\n"),
    (("cat", "a//b"), "hookhost: refused: 3 BadPath 4\n"),
    (("show", "0"), "hookhost: no commit 0\n"),
    (("show", "2"), "hookhost: no commit 2\n"),
]

# The commands that change the store and print nothing, with what they leave.
SILENT = [
    (("add", "none", "d", "x"), kept([("a", "two\n"), ("c", "z"), ("d", "x")], [("a", "one\n"), ("b", "y")], commits=1)),
    (("rm", "c"), kept([("a", "two\n")], [("a", "one\n"), ("b", "y")], commits=1)),
]

WRITERS = [
    # A writer that takes little or is interrupted gets the same bytes.
    *((*SET_UP, *line(*command, out=habit), *STORE, done(said) + STANDS) for command, said in SAYING for habit in PATIENT),
    *((*SET_UP, *line(*command, err=habit), *STORE, ended(3, err=said) + STANDS) for command, said in REFUSED for habit in PATIENT),
    # A writer that fails has what it took, the beginning of the text. Standard error says of the other that it gave an error, as far as
    # it takes this. Nothing is printed on standard output about standard error.
    *(
        (*SET_UP, *line(*command, out=str(count)), *STORE, cut_off(said[:count]) + STANDS)
        for command, said in SAYING
        for count in [0, 1, len(said) - 1]
    ),
    *(
        (*SET_UP, *line(*command, err=str(count)), *STORE, ended(3, err=said[:count]) + STANDS)
        for command, said in REFUSED
        for count in [0, 1, 10, 18, 20, len(said) - 1]
    ),
    *((*SET_UP, *line(*command, out="nothing"), *STORE, cut_off() + STANDS) for command, _ in SAYING),
    *((*SET_UP, *line(*command, err="nothing"), *STORE, ended(3) + STANDS) for command, _ in REFUSED),
    *(
        (*SET_UP, *line(*command, out="0", err=str(count)), *STORE, cut_off(err=UNTAKEN[:count]) + STANDS)
        for command, _ in SAYING
        for count in [0, 1, len(UNTAKEN) - 1, len(UNTAKEN)]
    ),
    *((*SET_UP, *line(*command, out="0", err=habit), *STORE, cut_off() + STANDS) for command, _ in SAYING for habit in PATIENT),
    # One that takes the whole text and no more stops nothing.
    *((*SET_UP, *line(*command, out=str(len(said))), *STORE, done(said) + STANDS) for command, said in SAYING),
    *((*SET_UP, *line(*command, err=str(len(said))), *STORE, ended(3, err=said) + STANDS) for command, said in REFUSED),
    # One that can't be flushed has the whole text, and the command isn't done.
    *((*SET_UP, *line(*command, out="unflushed"), *STORE, cut_off(said) + STANDS) for command, said in SAYING),
    *((*SET_UP, *line(*command, err="unflushed"), *STORE, ended(3, err=said) + STANDS) for command, said in REFUSED),
    # What is printed is flushed, once.
    *(
        (*SET_UP, *line(*command, out="flushed"), *STORE, ended(0, out=said, flushes=("flushed 1 times ", "")) + STANDS)
        for command, said in SAYING
    ),
    *(
        (*SET_UP, *line(*command, err="flushed"), *STORE, ended(3, err=said, flushes=("", "flushed 1 times ")) + STANDS)
        for command, said in REFUSED
    ),
    # Fixes that are accepted stay so, even if the line fails.
    *((*SET_UP, *line("accept", out=habit), *STORE, done(ACCEPTED) + ACCEPTS) for habit in PATIENT),
    *((*SET_UP, *line("accept", err=habit), *STORE, done(ACCEPTED) + ACCEPTS) for habit in HABITS),
    *((*SET_UP, *line("accept", out=str(count)), *STORE, cut_off(ACCEPTED[:count]) + ACCEPTS) for count in [0, 1, 9, 10, 11]),
    (*SET_UP, *line("accept", out=str(len(ACCEPTED))), *STORE, done(ACCEPTED) + ACCEPTS),
    (*SET_UP, *line("accept", out="nothing"), *STORE, cut_off() + ACCEPTS),
    (*SET_UP, *line("accept", out="unflushed"), *STORE, cut_off(ACCEPTED) + ACCEPTS),
    (*SET_UP, *line("accept", out="flushed"), *STORE, ended(0, out=ACCEPTED, flushes=("flushed 1 times ", "")) + ACCEPTS),
    # An empty text takes no call except the flush.
    *((*line(*command, out="nothing"), done()) for command in [("status",), ("fixes",), ("log",)]),
    *((*line(*command, out="unflushed"), cut_off()) for command in [("status",), ("fixes",), ("log",)]),
    (*stage("a"), *line("cat", "a", out="nothing"), done()),
    (*stage("a"), *line("cat", "a", out="unflushed"), cut_off()),
    # The writer on which a command has nothing to print may behave in any way.
    *((*SET_UP, *line(*command, err=habit), *STORE, done(said) + STANDS) for command, said in SAYING for habit in HABITS),
    *((*SET_UP, *line(*command, out=habit), *STORE, ended(3, err=said) + STANDS) for command, said in REFUSED for habit in HABITS),
    *((*SET_UP, *line(*command, out=habit, err=habit), *STORE, done() + left) for command, left in SILENT for habit in HABITS),
    # A long file, piece by piece.
    *((*stage("a", "0123456789\n" * 3000), *line("cat", "a", out=habit), done("0123456789\n" * 3000)) for habit in PATIENT),
    (*stage("a", "0123456789\n" * 3000), *line("cat", "a", out="9000"), cut_off(("0123456789\n" * 3000)[:9000])),
]

# A configuration with a hook that fails on the files named bad.txt, one that can't be started, and one of the stage manual.
CONFIG = """repos:
- repo: local
  hooks:
  - {id: names, alias: bad, name: Check names, language: fail, entry: no such names, files: 'bad\\.txt$'}
  - {id: start, name: Start, language: system, entry: start, files: '\\.c$'}
  - {id: late, name: Late, language: fail, entry: late, stages: [manual]}
"""

CONFIGURED = (*stage(".pre-commit-config.yaml", CONFIG), *stage("bad.txt", "x"), *stage("good.txt", "y"))

NO_START = "Start" + "." * 48 + "(no files to check)Skipped\n"
BAD = "Check names" + "." * 62 + "Failed\n- hook id: names\n- exit code: 1\n\nno such names\n\nbad.txt\n\n"
NO_BAD = "Check names" + "." * 42 + "(no files to check)Skipped\n"
SKIPPED = "Check names" + "." * 61 + "Skipped\n"
NOT_STARTED = "Start" + "." * 68 + "Failed\n- hook id: start\n- fault: could not be started\n"

RUNS = [
    (*run(), refused("7 NoConfig")),
    (*stage(".pre-commit-config.yaml", "repos: 1\n"), *run(), refused("8 BadConfig 2")),
    (*CONFIGURED, *run("a//b"), refused("3 BadPath 4")),
    (*CONFIGURED, *run("other.txt"), refused("4 NotStaged")),
    (*CONFIGURED, *run(only="late"), refused("9 NoSuchHook")),
    (*CONFIGURED, *run(), ended(1, out=BAD + NO_START)),
    (*CONFIGURED, *run(only="bad"), ended(1, out=BAD)),
    (*CONFIGURED, *run("bad.txt"), ended(1, out=BAD + NO_START)),
    (*CONFIGURED, *run("good.txt"), done(NO_BAD + NO_START)),
    # The hooks that are skipped, by id and by alias, with spaces and empty pieces between the commas.
    *((*CONFIGURED, *run(skip=skip), done(SKIPPED + NO_START)) for skip in ["names", "bad", " names ", ",  ,start2, names", "a,b,names,"]),
    *((*CONFIGURED, *run(skip=skip), ended(1, out=BAD + NO_START)) for skip in ["", ",", "name", "na mes", "\tnames"]),
    # A committed file is no candidate any more, unless all are selected or it is named.
    (*CONFIGURED, "commit", "m", *run(), done(NO_BAD + NO_START)),
    (*CONFIGURED, "commit", "m", *run("all"), ended(1, out=BAD + NO_START)),
    (*CONFIGURED, "commit", "m", *run("bad.txt"), ended(1, out=BAD + NO_START)),
    (*CONFIGURED, *stage("a.c"), *run(skip="names"), ended(1, out=SKIPPED + NOT_STARTED)),
    # A run forgets the fixes that were, and a refused one keeps them.
    (*CONFIGURED, "fixes", "good.txt\tz", *run("good.txt"), *line("fixes"), done(NO_BAD + NO_START) + done()),
    (*CONFIGURED, "fixes", "good.txt\tz", *run("other.txt"), *line("fixes"), refused("4 NotStaged") + done("M good.txt\n")),
    # What a writer took before it gave an error is out.
    *((*CONFIGURED, *run(out=str(count)), cut_off((BAD + NO_START)[:count])) for count in [0, 1, 80]),
    (*CONFIGURED, *run("good.txt", out="0"), cut_off()),
    (*CONFIGURED, *run(only="late", err="5"), ended(3, err="hookh")),
]

MADE = "hookhost: commit 1 was made\n"
# The same hooks, before a commit alone.
BEFORE = (*stage(".pre-commit-config.yaml", CONFIG.replace("$'}", "$', stages: [pre-commit]}")), *stage("bad.txt", "x"))

COMMITS = [
    (*stage("a"), *commit(), refused("7 NoConfig")),
    (*BEFORE, *commit(), done("commit 1\n")),
    # Of a commit whose text isn't taken standard error says that it was made, as far as it takes this.
    *((*BEFORE, *commit(out=str(count)), *line("log"), cut_off("commit 1\n"[:count], UNTAKEN + MADE) + done("1 m\n")) for count in [0, 1, 8]),
    # The reports, of which there are none, are flushed before the commit's number is written.
    (*BEFORE, *commit(out="unflushed"), *line("log"), cut_off(err=UNTAKEN + MADE) + done("1 m\n")),
    *(
        (*BEFORE, *commit(out="0", err=str(count)), *line("log"), cut_off(err=(UNTAKEN + MADE)[:count]) + done("1 m\n"))
        for count in [0, 1, len(UNTAKEN), len(UNTAKEN) + 1, len(UNTAKEN + MADE) - 1, len(UNTAKEN + MADE)]
    ),
    # One that a hook refused wasn't made.
    (*BEFORE, *commit("verified"), *line("log"), ended(1, out=BAD + NO_START) + done()),
    *((*BEFORE, *commit("verified", out=str(count)), *line("log"), cut_off((BAD + NO_START)[:count]) + done()) for count in [0, 1, 80]),
]

ROWS = [("command_over", *row) for row in [*RUNS, *COMMITS, *EMPTY, *ADDED, *REMOVED, *BAD_PATHS, *GOOD_PATHS, *CLASHES, *TOO_LARGE, *SEVERAL, *FIXES, *STATUS, *CAT, *VERSIONS, *LOG, *SHOW, *WRITERS]]
