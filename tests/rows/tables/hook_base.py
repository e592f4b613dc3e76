"""Paths, trees of files and the changes between them, and the copies of what contracts see as lists.

`trees` plays on two trees, `one` and `other`, and on changes that wait, a step for each argument:

    put TREE MODE PATH BYTES    change PATH BYTES, change PATH (it is gone)    copy (one to other)    apply (to one)
    absorb (as apply, and none waits any longer)
    take-from PATH (one takes what other has there)    share INDEX (one takes the file that other has there)

Others show what their line below has, and a semicolon:

    files TREE      the files, each after a blank
    count TREE      how many files, and whether there are none
    get PATH        what one has at the path
    remove PATH     whether one had it
    same            whether the trees are equal, and whether they are unequal
    changes         of one to other: how many, whether their copy is equal, and each after a blank
    take            `taken` with each change that waits if their paths rise, otherwise `given back`; none waits any longer

`tree_plays` makes as many random calls as the second argument says, by the seed that is the first, on three trees and on plain lists
of files. It compares what each call answers, and after each call every file of the tree.
"""

PROGRAM = "yaml_trial"

MOST_PATH_BYTES = 4_096

# Texts that are no paths, and the number and the name of the refusal.
REFUSED_PATHS = [
    ("", "1 Empty"),
    ("/a", "2 Absolute"),
    ("/", "2 Absolute"),
    ("a/../b", "3 DotPart"),
    ("./a", "3 DotPart"),
    ("a//b", "4 EmptyPart"),
    ("a/", "4 EmptyPart"),
    ("a\tb", "6 ControlByte"),
    ("a\x7f", "6 ControlByte"),
    (".git/x", "7 UnderGit"),
    (".git", "7 UnderGit"),
    # Of two faults the first in order is named.
    ("a" * MOST_PATH_BYTES + "\t", "5 TooLong"),
    ("/\t", "6 ControlByte"),
    ("//a", "2 Absolute"),
    ("a//..", "4 EmptyPart"),
    (".git/../x", "3 DotPart"),
    # A path has at most 4096 bytes.
    ("a" * (MOST_PATH_BYTES + 1), "5 TooLong"),
]

PATHS = [".gitignore", "a", "a/b.txt", "a/.git", "...", "a b/é", "a" * MOST_PATH_BYTES]

ROWS = [
    *(("read_path", text, refused) for text, refused in REFUSED_PATHS),
    *(("read_path", text, text) for text in PATHS),
    # Each refusal has its number and its words.
    ("path_fault", "Empty", "1 the path is empty"),
    ("path_fault", "Absolute", "2 the path begins with a slash"),
    ("path_fault", "DotPart", "3 the path has a part . or .."),
    ("path_fault", "EmptyPart", "4 the path has an empty part"),
    ("path_fault", "TooLong", "5 the path has more than 4096 bytes"),
    ("path_fault", "ControlByte", "6 the path has a control byte"),
    ("path_fault", "UnderGit", "7 the path lies under .git"),
    ("path_fault", "OutOfMemory", "8 out of memory"),
    ("out_of_memory", "out of memory"),
    # The message of a commit has a path; the copy of a path is equal to it.
    ("message_path", ".git/COMMIT_EDITMSG true"),
    # Paths are ordered by their bytes.
    ("order_paths", "a", "a", "equal true"),
    ("order_paths", "a", "a/b", "less false"),
    ("order_paths", "é", "z", "greater false"),
    # Changes lead from one tree to the other.
    (
        "trees",
        "put one plain b 2",
        "put one executable a 0",
        "put one executable a 1",
        "put other executable a 3",
        "changes",
        "change a 3",
        "change b",
        "apply",
        "same",
        "count one",
        "2 true a=3 b gone;true false;1 false;",
    ),
    # The same if the tree keeps the changes, which then wait no longer; a copy of the tree stays as it was.
    (
        "trees",
        "put one executable a 1",
        "put one plain b 2",
        "put one plain c 3",
        "copy",
        "absorb",
        "change a 4",
        "change b",
        "change a 5",
        "change d 6",
        "absorb",
        "take",
        "files one",
        "files other",
        "taken; a:executable=5 c:plain=3; a:executable=1 b:plain=2 c:plain=3;",
    ),
    # A mode alone is no change, and `put` takes the new mode.
    (
        "trees",
        "put one plain a 1",
        "put other executable a 1",
        "changes",
        "put one executable a 1",
        "same",
        "0 true;true false;",
    ),
    # A change keeps the mode, the last of two changes counts, and no file is added.
    (
        "trees",
        "put one executable a 1",
        "change a 2",
        "change a 3",
        "change b 4",
        "apply",
        "put other executable a 3",
        "same",
        "files one",
        "true false; a:executable=3;",
    ),
    # A copy is its tree, and stays as it was.
    (
        "trees",
        "count one",
        "put one plain m m",
        "put one plain b b",
        "put one plain z z",
        "put one plain a a",
        "put one plain n/o n/o",
        "copy",
        "same",
        "get n/o",
        "remove n/o",
        "remove n/o",
        "get n/o",
        "same",
        "files one",
        "files other",
        "0 true;true false;plain=n/o;true;false;none;false true; a:plain=a b:plain=b m:plain=m z:plain=z;"
        " a:plain=a b:plain=b m:plain=m n/o:plain=n/o z:plain=z;",
    ),
    # A tree takes what another has at a path, and nothing if that has none; or the file of an index. The other stays.
    (
        "trees",
        "put one plain m 1",
        "put other executable m 2",
        "put other plain z 3",
        "put other plain a 4",
        "take-from z",
        "take-from b",
        "files one",
        "take-from m",
        "files one",
        "share 2",
        "share 0",
        "files one",
        "remove m",
        "share 1",
        "same",
        "files other",
        " m:plain=1 z:plain=3; m:executable=2 z:plain=3; a:plain=4 m:executable=2 z:plain=3;true;true false; a:plain=4 m:executable=2 z:plain=3;",
    ),
    # Changes whose paths don't rise are given back.
    ("trees", "change a", "change a", "take", "given back a gone a gone;"),
    ("trees", "change b 1", "change a", "take", "take", "given back b=1 a gone;taken;"),
    ("trees", "change a", "change b 1", "take", "taken a gone b=1;"),
    # 100,000 random calls on trees that share rows are those on plain lists.
    *(("tree_plays", str(seed), "10000", "10000 alike") for seed in range(1, 11)),
    # Copies are what was copied.
    ("copy_bytes", "abc", "abc", "3 true true"),
    ("copy_bytes", "abc", "abd", "3 true false"),
    ("copy_bytes", b"\xff\x00", "", "2 true false"),
    # Contents have their SHA-256: the digests of "abc" and of no bytes are those of FIPS 180-4's examples.
    ("copy_content", "abc", "abc", "3 true true ba7816bf8f01cfea414140de5dae2223b00361a396177a9cb410ff61f20015ad"),
    ("copy_content", "abc", "abd", "3 true false ba7816bf8f01cfea414140de5dae2223b00361a396177a9cb410ff61f20015ad"),
    ("copy_content", "", "a", "0 true false e3b0c44298fc1c149afbf4c8996fb92427ae41e4649b934ca495991b7852b855"),
    ("copy_text", "abc", "abc true"),
    ("copy_texts", "abc", "abc true true"),
    ("copy_texts", "a", "é", "a é true true"),
    ("copy_texts", "true true"),
]
