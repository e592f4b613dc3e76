"""Patterns over paths, and the selection of a hook's files. The program makes every selection in seven ways. It selects among all
candidates, and among those that pass the patterns of the whole configuration first. Each is done by newly made tags and by kept tags
of the tree's files. Then it selects for three hooks one after another, by kept tags of the candidates' files: one that learns the
tags it asks for, one with other rules that learns those that are left, and the first once more. What is selected after changes by
tags that followed them is compared with what newly made tags select. So is what three hooks get before and after the changes, by tags
of which those of changed files are forgotten. What one pattern selects alone is compared with what it selects with the other
patterns' defaults."""
import random
import re

PROGRAM = "selection_trial"

NO_PATTERN = "1 the text is no pattern"

# Texts that are read as patterns: the answer is the text.
PATTERNS = ["", "^$", "^src/", r"\.py$", "(?x)^(\n    a/.*|\n    b/.*\n)$\n", "caf\u00e9+", "(?i)readme", "a{2,3}", "(?P<name>x)", r"\p{Greek}"]

# Long texts are read as patterns too: names, names one after another, classes, comments.
LONG = ["a" * 5_000, "a" * 60_000, "|".join(f"w{number}" for number in range(1_000)), "[ab]" * 15_000, "(?x)" + " " * 60_000]

# Texts that aren't: other syntax, groups that don't end, too deep, too large once compiled, too long.
REFUSED = ["(?=a)", "(?!a)", "(?<!a)b", r"(a)\1", "(a", "a)", "[a", "*a", "a{3,2}", "\\", "(?P<n>a)(?P<n>b)", "(" * 251 + ")" * 251, "((a{1,100}){1,100}){1,100}", "[" * 1_048_576]

# A pattern, a path, and whether the pattern is found in the path: searched for anywhere, by characters, in its own case.
FOUND = [
    ("", "a", True),
    ("^$", "a", False),
    ("b", "a/b.txt", True),
    ("^b", "a/b.txt", False),
    (r"\.txt$", "a/b.txt", True),
    (r"\.txt$", "a/b.txt.py", False),
    ("A", "a", False),
    ("(?i)A", "a", True),
    ("caf\u00e9", "le/caf\u00e9", True),
    ("^caf.$", "caf\u00e9", True),
    ("^caf..$", "caf\u00e9", False),
    (r"^\w+$", "\u65e5\u672c", True),
    ("a|b", "xbx", True),
    ("x.y", "x/y", True),
    ("x.y", "xy", False),
]


def select(candidates, tree, want, top_files="", top_exclude="^$", files="", exclude="^$", types="file", types_or="", exclude_types=""):
    """A selection: candidates and wanted paths parted by blanks, the tree a list of lines."""
    lines = "".join(f"{line}\n" for line in tree)
    wanted = "".join(f"{path}\n" for path in want.split())
    return ("select", top_files, top_exclude, files, exclude, types, types_or, exclude_types, "\n".join(candidates.split()), lines, wanted)


def select_kept(candidates, tree, changes, want, **rules):
    """A selection of the tree that changes leave: they are a list of lines."""
    call, *arguments, wanted = select(candidates, tree, want, **rules)
    return ("select_kept", *arguments, "".join(f"{line}\n" for line in changes), wanted)


def select_found(tree, want, pattern):
    """What one pattern selects of a tree."""
    return ("select_found", pattern, "".join(f"{line}\n" for line in tree), "".join(f"{path}\n" for path in want.split()))


# Lines of a mode, a path and bytes.
TREE = ["- README.md # x", "x run #!/usr/bin/env python3", "- src/a.py import os", "x src/b.py import os", "- src/c.txt x", "- x.py "]
ALL = "README.md run src/a.py src/b.py src/c.txt x.py"
# Paths that differ early and late, in the order of their bytes: capitals, `-`, `.`, `/`, letters, then beyond ASCII.
ORDER = ["B", "a", "a-b", "a.b", "a/b", "ab", "b", "\u00e9"]
MANY = [f"d{number:02}" for number in range(60)]
# Text and binary files in turn.
MIXED = ["- a x", "- b \0", "- c x", "- d \0"]

SELECTIONS = [
    select(ALL, TREE, ALL),
    select("", TREE, ""),
    select(ALL, [], ""),
    select("src/a.py", TREE, "src/a.py"),
    # candidates out of order, repeated, and lacking in the tree
    select("x.py src/b.py README.md", TREE, "README.md src/b.py x.py"),
    select("x.py x.py src/a.py x.py", TREE, "src/a.py x.py"),
    select("a src/a.py zz", TREE, "src/a.py"),
    select("gone/a", TREE, ""),
    select(" ".join(reversed(ORDER)), [f"- {path} " for path in ORDER], " ".join(ORDER)),
    select(" ".join(ORDER), [f"- {path} " for path in ORDER], " ".join(ORDER)),
    select(" ".join(MANY[::20]), [f"- {path} " for path in MANY], "d00 d20 d40"),
    select(" ".join(MANY), [f"- {path} " for path in MANY[::20]], "d00 d20 d40"),
    select("d59 d01 d30 d01", [f"- {path} " for path in MANY], "d01 d30 d59"),
    # the patterns of the whole configuration
    select(ALL, TREE, "src/a.py src/b.py src/c.txt", top_files="^src/"),
    select(ALL, TREE, "README.md run x.py", top_exclude="^src/"),
    select(ALL, TREE, "src/c.txt", top_files="^src/", top_exclude=r"\.py$"),
    # the hook's own patterns
    select(ALL, TREE, "src/a.py src/b.py x.py", files=r"\.py$"),
    select(ALL, TREE, "README.md run src/c.txt", exclude=r"\.py$"),
    select(ALL, TREE, "src/b.py", top_files="^src/", top_exclude=r"c\.", files=r"\.py$", exclude="a"),
    select("a/x b/y c/x", ["- a/x ", "- b/y ", "- c/x "], "c/x", exclude="(?x)^(\n    a/.*|\n    b/.*\n)$\n"),
    # the tags
    select("x.py src/b.txt src/a.py src/a.py", ["- src/a.py ", "- src/b.txt ", "- x.py "], "src/a.py", top_files="^src/", types="python"),
    select(ALL, TREE, "run src/a.py src/b.py x.py", types="python"),
    select(ALL, TREE, "run src/b.py", types="python executable"),
    select(ALL, TREE, "", types="python markdown"),
    select(ALL, TREE, "README.md run src/a.py src/b.py x.py", types_or="python markdown"),
    select(ALL, TREE, "run src/b.py", types="executable", types_or="python markdown"),
    select(ALL, TREE, "README.md src/a.py src/c.txt x.py", exclude_types="executable"),
    select(ALL, TREE, "README.md src/c.txt", exclude_types="python executable"),
    select(ALL, TREE, "src/a.py x.py", types="python", exclude_types="executable"),
    select(ALL, TREE, ALL, types=""),
    select(ALL, TREE, ALL, types="text"),
    select(ALL, TREE, ALL, types_or="file"),
    select(ALL, TREE, "", exclude_types="file"),
    select(ALL, TREE, "", types="no-such-tag"),
    select(ALL, TREE, "", types_or="no-such-tag"),
    select(ALL, TREE, ALL, exclude_types="no-such-tag"),
    # tags that differ from one candidate to the next, and some that the first hook doesn't ask for
    select("a b c d", MIXED, "a c", types="text"),
    select("a b c d", MIXED, "b d", types="binary"),
    select("a b c d", MIXED, "c", files="c|d", types="text"),
    select("d zz b a", MIXED, "b d", top_exclude="c", exclude_types="text"),
]

# The contents of files whose names give no tags, with the tag that they give.
ENCODINGS = {"x": "text", "\0": "binary"}
PLAYED_PATHS = ["a", "a-b", "a/c", "b", "b/a", "b/c", "c"]
PLAYED_PATTERNS = ["", "^$", "^a", "c$", "/"]


def random_selection(source):
    """A row of a tree, changes and rules: candidates and changes in any order, and some repeated."""
    tree = {path: source.choice([*ENCODINGS]) for path in source.sample(PLAYED_PATHS, source.randrange(8))}
    changes = [(path, source.choice([None, *ENCODINGS])) for path in source.choices(PLAYED_PATHS, k=source.randrange(6))]
    if source.random() < 0.5:
        changes = sorted(dict(changes).items())
    after = dict(tree)
    for path, contents in changes:
        if contents is None:
            after.pop(path, None)
        elif path in after:
            after[path] = contents
    candidates = source.choices(PLAYED_PATHS, k=source.randrange(9))
    patterns = {key: source.choice(PLAYED_PATTERNS if "files" in key else ["^$", "^$", *PLAYED_PATTERNS]) for key in ["top_files", "top_exclude", "files", "exclude"]}
    types = {"types": source.choice(["", "file", "text", "binary"]), "types_or": source.choice(["", "text", "binary executable"]), "exclude_types": source.choice(["", "", "binary"])}

    def is_wanted(path):
        tags = {"file", "non-executable", ENCODINGS[after[path]]}
        return (
            all(re.search(patterns[key], path) for key in ["top_files", "files"])
            and not any(re.search(patterns[key], path) for key in ["top_exclude", "exclude"])
            and tags >= {*types["types"].split()}
            and (not types["types_or"] or tags & {*types["types_or"].split()})
            and not tags & {*types["exclude_types"].split()}
        )

    return select_kept(
        " ".join(candidates),
        [f"- {path} {contents}" for path, contents in tree.items()],
        [f"- {path}" if contents is None else f"+ {path} {contents}" for path, contents in changes],
        " ".join(path for path in sorted(after) if path in candidates and is_wanted(path)),
        **patterns,
        **types,
    )


SOURCE = random.Random(10)

AFTER_CHANGES = [
    # one file, text until it changes
    select_kept("e", ["- e x"], [], "e", files="^e$", types="text"),
    select_kept("e", ["- e x"], ["+ e \0"], "", files="^e$", types="text"),
    select_kept("e", ["- e x"], ["+ e \0"], "e", files="^e$", types="binary"),
    select_kept("e", ["- e \0"], ["+ e x"], "e", files="^e$", types="text"),
    select_kept("e", ["- e x"], ["- e"], "", files="^e$"),
    # one of several files, in the middle, at the end, of no candidate, and one that is gone
    select_kept("a b c d", MIXED, ["+ b x"], "a b c", types="text"),
    select_kept("a b c d", MIXED, ["+ d x"], "a c d", types="text"),
    select_kept("a c d", MIXED, ["+ b x"], "a c", types="text"),
    select_kept("a b c d", MIXED, ["+ d x", "+ a \0"], "c d", types="text"),
    select_kept("a b c d", MIXED, ["- a"], "c", types="text"),
    select_kept("a b c d", MIXED, ["+ b x", "+ c \0"], "b", files="b|c", types="text"),
    # files that are gone before others
    select_kept(ALL, TREE, ["- README.md", "- run"], "src/a.py src/b.py src/c.txt x.py"),
    select_kept(ALL, TREE, ["- README.md", "+ src/c.txt \0"], "src/b.py", types="executable", exclude_types="sh python3"),
    select_kept(" ".join(MANY), [f"- {path} x" for path in MANY], [f"- {path}" for path in MANY[::2]], " ".join(MANY[1::2]), types="text"),
    select_kept(" ".join(MANY[::9]), [f"- {path} x" for path in MANY], [f"+ {path} \0" for path in MANY[::6]], " ".join(sorted({*MANY[::6]} & {*MANY[::9]})), types="binary"),
    *(random_selection(SOURCE) for _row in range(1_000)),
]

FOUND_FILES = [
    *(select_found([f"- {path} "], path if found else "", pattern) for pattern, path, found in FOUND),
    select_found(TREE, ALL, ""),
    select_found(TREE, "", "^$"),
    select_found([], "", ""),
    select_found(TREE, "src/a.py src/b.py x.py", r"\.py$"),
    select_found(TREE, "src/c.txt x.py", "c[.]|^x"),
    select_found([f"- {path} " for path in reversed(ORDER)], " ".join(ORDER), ""),
    *(select_found([f"- {path} " for path in PLAYED_PATHS], " ".join(path for path in PLAYED_PATHS if re.search(pattern, path)), pattern) for pattern in PLAYED_PATTERNS),
]

ROWS = [
    *(("pattern", text, text) for text in PATTERNS + LONG),
    *(("pattern", text, NO_PATTERN) for text in REFUSED),
    *(select(path, [f"- {path} "], path if found else "", files=pattern) for pattern, path, found in FOUND),
    *SELECTIONS,
    *AFTER_CHANGES,
    *FOUND_FILES,
]
