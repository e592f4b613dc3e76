"""The tables of cases of tests/store/store.py: lines with their answers. What is done to the file of a store is in
store_plants.py."""
import hashlib

from kept_answers import GREATEST_TICK

MODES = {"plain": 0, "executable": 1}


def unescaped(text):
    """The bytes of contents as a line writes them."""
    return text.replace("\\\\", "\0").replace("\\n", "\n").replace("\\t", "\t").replace("\0", "\\").encode()


SHOWN = ["staged", "head", "log", "fixes", "trees"]
# Single facts that a store is asked for: paths that are staged in some plays, their folders, and paths below them.
FACTS = [*(f"look {path}" for path in ["a", "b.txt", "dir/c", "dir", "di", "dir/c/d", "a/b/c", "dir/cd"]), "count", "walk",
         *(f"{word} {number}" for word in ("message", "files") for number in range(3)), "answers", "limit"]
# What a store shows that has a.txt staged, with the contents 1, and no more.
ONE_STAGED = ["ok\tplain\ta.txt\t1", "ok", "ok", "ok", "ok"]
# The statements by which the tables of version 1 are made, in their order; and those of version 2, which has one more.
FIRST_TABLES = [
    "CREATE TABLE meta (name TEXT PRIMARY KEY, value INTEGER NOT NULL) STRICT",
    "CREATE TABLE blobs (digest BLOB PRIMARY KEY, bytes BLOB NOT NULL) STRICT",
    "CREATE TABLE staged (path TEXT PRIMARY KEY, mode INTEGER NOT NULL, digest BLOB NOT NULL REFERENCES blobs) STRICT",
    "CREATE TABLE fixes (path TEXT PRIMARY KEY, gone INTEGER NOT NULL, digest BLOB REFERENCES blobs) STRICT",
    "CREATE TABLE commits (n INTEGER PRIMARY KEY, message BLOB NOT NULL) STRICT",
    "CREATE TABLE entries (n INTEGER NOT NULL REFERENCES commits, path TEXT NOT NULL, mode INTEGER NOT NULL, "
    "digest BLOB NOT NULL REFERENCES blobs, PRIMARY KEY (n, path)) STRICT",
    "CREATE TABLE answers (words BLOB NOT NULL REFERENCES blobs, seen BLOB NOT NULL REFERENCES blobs, "
    "output BLOB NOT NULL REFERENCES blobs, changes BLOB NOT NULL REFERENCES blobs, status INTEGER NOT NULL, "
    "PRIMARY KEY (words, seen)) STRICT",
]
TABLES = [
    *FIRST_TABLES,
    "CREATE TABLE uses (words BLOB NOT NULL, seen BLOB NOT NULL, tick INTEGER NOT NULL UNIQUE, "
    "PRIMARY KEY (words, seen)) STRICT",
]
STORY = [
    ("create", "ok"),
    ("stage plain a.txt 1", "ok"),
    ("fix a.txt 2", "ok"),
    ("fix missing.txt 3", "ok"),
    ("set", "ok"),
    ("fixes", "ok\ta.txt\tnow\t2"),
    ("accept", "ok\t1"),
    ("fixes", "ok"),
    ("commit m\\n", "ok\t1"),
    ("log", "ok\t1\tm\\n"),
    ("unstage a.txt", "ok"),
    ("tree 1", "ok\tplain\ta.txt\t2"),
    ("head", "ok\tplain\ta.txt\t2"),
    ("staged", "ok"),
    ("commit n\\n", "ok\t2"),
    ("tree 2", "ok"),
    ("head", "ok"),
    ("tree 3", "ok\tnone"),
    ("blob abc", "ok\tba7816bf8f01cfea414140de5dae2223b00361a396177a9cb410ff61f20015ad"),
    ("blob abc", "ok\tba7816bf8f01cfea414140de5dae2223b00361a396177a9cb410ff61f20015ad"),
    ("stage executable tools/run #!/bin/sh\\n\\techo \\\\ done\\n", "ok"),
    ("stage plain b.txt 2", "ok"),
    ("fix-gone b.txt", "ok"),
    ("set", "ok"),
]
# Accepted fixes are committed, and the commit stays if its file is unstaged; then a commit of no files, and two files.
UNSTAGED_STORY = [
    ("create", "ok"),
    ("stage plain a.txt 1", "ok"),
    ("fix a.txt 2", "ok"),
    ("set", "ok"),
    ("accept", "ok\t1"),
    ("accept", "ok\t0"),
    ("commit m\\n", "ok\t1"),
    ("unstage a.txt", "ok"),
    ("unstage a.txt", "ok"),
    ("staged", "ok"),
    ("fixes", "ok"),
    ("tree 1", "ok\tplain\ta.txt\t2"),
    ("head", "ok\tplain\ta.txt\t2"),
    ("log", "ok\t1\tm\\n"),
    ("tree 0", "ok\tnone"),
    ("tree 2", "ok\tnone"),
    ("commit n\\n", "ok\t2"),
    ("stage executable tools/run #!/bin/sh\\n", "ok"),
    ("stage plain b.txt 2", "ok"),
    ("fix-gone b.txt", "ok"),
    ("set", "ok"),
    ("fixes", "ok\tb.txt\tgone"),
    ("head", "ok"),
    ("log", "ok\t1\tm\\n\t2\tn\\n"),
    ("trees", "ok\t1\tplain\ta.txt\t2\t2"),
    ("staged", "ok\tplain\tb.txt\t2\texecutable\ttools/run\t#!/bin/sh\\n"),
    ("close", "ok"),
    ("open", "ok"),
    ("fixes", "ok\tb.txt\tgone"),
    ("head", "ok"),
    ("log", "ok\t1\tm\\n\t2\tn\\n"),
    ("trees", "ok\t1\tplain\ta.txt\t2\t2"),
    ("staged", "ok\tplain\tb.txt\t2\texecutable\ttools/run\t#!/bin/sh\\n"),
]
# A host's commands: what each answers, and what is staged then.
HOST_STORY = [
    ("add - a.txt 1", "no store"),
    ("create", "ok"),
    ("remove a.txt", "refused\t4\tNotStaged\tnone"),
    ("add - a.txt 1", "ok"),
    ("add - a.txt/b 2", "refused\t15\tClash\tnone"),
    ("add executable dir/run 2", "ok"),
    ("add - dir 2", "refused\t15\tClash\tnone"),
    ("staged", "ok\tplain\ta.txt\t1\texecutable\tdir/run\t2"),
    ("fix a.txt 2", "ok"),
    ("set", "ok"),
    ("remove b.txt", "refused\t4\tNotStaged\tnone"),
    ("add -  3", "refused\t3\tBadPath\t1"),
    ("add - a//b 3", "refused\t3\tBadPath\t4"),
    ("add - .git/x 3", "refused\t3\tBadPath\t7"),
    ("remove ../a.txt", "refused\t3\tBadPath\t3"),
    ("fixes", "ok\ta.txt\tnow\t2"),
    ("add - dir/run 3", "ok"),
    ("fixes", "ok"),
    ("staged", "ok\tplain\ta.txt\t1\texecutable\tdir/run\t3"),
    ("add plain dir/run 3", "ok"),
    ("fix a.txt 2", "ok"),
    ("set", "ok"),
    ("remove a.txt", "ok"),
    ("fixes", "ok"),
    ("staged", "ok\tplain\tdir/run\t3"),
    ("add - dir/run 3\\n..", "ok"),
    ("commit m\\n", "ok\t1"),
    ("remove dir/run", "ok"),
    ("count", "ok\t0\t1\ttrue"),
    ("add - dir/run 3\\n..", "ok"),
    ("count", "ok\t0\t1\tfalse"),
    ("add - a.txt 1", "ok"),
]
# Several changes at once, each list on what those above it left, and what is staged then.
EDITS = [
    ("add - a.txt 1 | add executable dir/run 2 | add - empty ", "ok\tplain\ta.txt\t1\texecutable\tdir/run\t2\tplain\tempty\t"),
    # A path twice: the last is there, with the mode that the one before it gave.
    ("add executable a.txt 3 | add - a.txt 4", "ok\texecutable\ta.txt\t4\texecutable\tdir/run\t2\tplain\tempty\t"),
    # One that is taken out again is no longer staged, and the mode that it had isn't kept.
    ("add - b.txt 5 | remove b.txt | remove a.txt | add - a.txt 4", "ok\tplain\ta.txt\t4\texecutable\tdir/run\t2\tplain\tempty\t"),
    # A file makes room for a folder, and a folder for a file.
    ("remove a.txt | add - a.txt/b 6 | remove dir/run | add plain dir 1", "ok\tplain\ta.txt/b\t6\tplain\tdir\t1\tplain\tempty\t"),
    ("remove empty", "ok\tplain\ta.txt/b\t6\tplain\tdir\t1"),
]
# How many contents, staged files and fixes the file has then.
EDITED_COUNTS = "7|2|0"
# A store, changes that can be made of it, and how many contents, staged files and fixes it has before and after them.
EDITED = ["create", "stage plain a.txt 1", "stage executable kept 2", "fix kept 3", "set"]
EDITABLE = ["add - one 4", "add plain two/x 5", "remove a.txt"]
EDITABLE_COUNTS = ["3|2|1", "5|3|0"]
# What is refused at any place among these: the refusal as a host answers it, and as the store itself does.
REFUSED_EDITS = [
    ("add -  6", "3\tBadPath\t1", "BadPath\t1"),
    ("add plain /one 6", "3\tBadPath\t2", "BadPath\t2"),
    ("remove two/../x", "3\tBadPath\t3", "BadPath\t3"),
    ("remove ", "3\tBadPath\t1", "BadPath\t1"),
    ("add - .git/COMMIT_EDITMSG 6", "3\tBadPath\t7", "BadPath\t7"),
    ("remove missing", "4\tNotStaged\tnone", "NotStaged\tnone"),
    ("remove two", "4\tNotStaged\tnone", "NotStaged\tnone"),
    ("add - kept/x 6", "15\tClash\tnone", "Clash\tnone"),
]
# What those before it make of it: the changes, the refusal, and the index of the change that is refused.
LATER_REFUSED_EDITS = [
    ("add - one 4 | add - one/x 5", "15\tClash\tnone", "Clash\tnone", 1),
    ("add - two/x/y 4 | add - one 5 | add executable two/x 6", "15\tClash\tnone", "Clash\tnone", 2),
    ("remove a.txt | remove a.txt", "4\tNotStaged\tnone", "NotStaged\tnone", 1),
    ("add - one 4 | remove one | add - one/x 5 | remove one", "4\tNotStaged\tnone", "NotStaged\tnone", 3),
    # Of two that are refused it is the first.
    ("add - one 4 | remove missing | add - /x 5", "4\tNotStaged\tnone", "NotStaged\tnone", 1),
]
CONFIG_PATH, MESSAGE = ".pre-commit-config.yaml", ".git/COMMIT_EDITMSG"


def configured(*hooks):
    """A configuration of hooks, each the word of its children, its stage, and how the paths end that it gets. That is a text, or none if
    it gets no paths and always runs. It is as a line writes it."""
    rows = [f"  - {{id: {word}, name: {word.capitalize()}, language: system, entry: {word}, stages: [{stage}], "
            + ("always_run: true}" if ending is None else f"files: '{ending.replace('.', '[.]')}$'}}") for word, stage, ending in hooks]
    return "".join(line + "\\n" for line in ["repos:", "- repo: local", "  hooks:", *rows])


# Hooks of the stages of a commit. What the hook after a commit does is reported and no more.
OF_A_COMMIT = [("tidy", "pre-commit", ".txt"), ("sign", "commit-msg", MESSAGE), ("tell", "post-commit", None)]
# One more, so that each of the four stages has a hook; and two that get the same files in turn.
OF_FOUR_STAGES = [*OF_A_COMMIT, ("mark", "prepare-commit-msg", MESSAGE)]
OF_A_RUN = [("trim", "pre-commit", ".txt"), ("look", "pre-commit", ".txt")]
# The hooks by the text of their configuration.
HOOKS = {configured(*hooks): hooks for hooks in (OF_A_COMMIT, OF_FOUR_STAGES, OF_A_RUN)}
CONFIG, FOUR_STAGES, RUN_CONFIG = (f"{CONFIG_PATH} {text}" for text in HOOKS)
# What the children of the hooks answer: the words, the seen files, which are plain, the changes and the status.
CHILDREN = [
    "child tidy b.txt | b.txt=0 | | 0",
    "child tidy b.txt | b.txt=1 | b.txt=0 | 0",
    "child tidy b.txt | b.txt=2 | b.txt | 0",
    "child tidy b.txt | b.txt=3 | | 1",
    "child tidy b.txt | b.txt=4 | b.txt=\\n | 7",
    f"child sign {MESSAGE} | {MESSAGE}=m\\n | {MESSAGE}=m\\nsigned\\n | 0",
    f"child sign {MESSAGE} | {MESSAGE}=1\\n | | 0",
    f"child sign {MESSAGE} | {MESSAGE}=2\\n | {MESSAGE} | 0",
    f"child sign {MESSAGE} | {MESSAGE}=3\\n | {MESSAGE}=m\\n | 1",
    "child tell | | | 0",
]
# A host's runs, acceptances and commits: what each answers, and what is there then. No row answers for the message
# n, for the contents 5 or for an executable file.
HOOKS_STORY = [
    ("accept-fixes", "no store"),
    ("run-hooks all", "no store"),
    ("check-message m", "no store"),
    ("commit-verified m", "no store"),
    ("create", "ok"),
    ("accept-fixes", "refused\t11\tNoFixes\tnone"),
    ("run-hooks changed", "refused\t7\tNoConfig\tnone"),
    ("prepare-message m", "refused\t7\tNoConfig\tnone"),
    ("commit-verified m", "refused\t10\tNothingStaged\tnone"),
    ("add - b.txt 1", "ok"),
    ("commit-unverified m", "refused\t7\tNoConfig\tnone"),
    (f"stage plain {CONFIG}", "ok"),
    ("commit-unverified  ", "refused\t12\tEmptyMessage\tnone"),
    ("run-hooks changed", "ok\tfailed\tb.txt\tnow\t0"),
    ("fixes", "ok\tb.txt\tnow\t0"),
    ("accept-fixes", "ok\t1"),
    ("fixes", "ok"),
    ("look b.txt", "ok\ttrue\tplain\t0\tfalse\tfalse\ttrue"),
    ("fix b.txt 7", "ok"),
    ("set", "ok"),
    ("run-hooks changed", "ok\tpassed"),
    ("fixes", "ok"),
    ("add - b.txt 1", "ok"),
    ("commit-verified m", "ok\tfailed\tpre-commit"),
    ("fixes", "ok\tb.txt\tnow\t0"),
    ("log", "ok"),
    ("commit-unverified n", "ok\tcommitted\t1\ttold"),
    ("fixes", "ok"),
    ("run-hooks changed", "ok\tpassed"),
    ("run-hooks all", "ok\tfailed\tb.txt\tnow\t0"),
    ("accept-fixes", "ok\t1"),
    ("fix b.txt 7", "ok"),
    ("set", "ok"),
    ("commit-verified n", "ok\tfailed\tcommit-msg"),
    ("fixes", "ok"),
    ("commit-verified 2", "refused\t12\tEmptyMessage\tnone"),
    ("commit-verified 3", "ok\tfailed\tcommit-msg"),
    ("commit-verified m", "ok\tcommitted\t2\ttold"),
    ("commit-verified m", "refused\t10\tNothingStaged\tnone"),
    ("prepare-message m", "ok\tpassed\tm"),
    ("check-message m", "ok\tfailed\tm"),
    ("check-message m\\n", "ok\tpassed\tm\\nsigned\\n"),
    ("check-message 2\\n", "ok\tpassed\t"),
    ("check-message 3\\n", "ok\tfailed\tm\\n"),
    ("log", "ok\t1\tn\\n\t2\tm\\nsigned\\n"),
    ("add - b.txt 2", "ok"),
    ("run-hooks changed", "ok\tfailed\tb.txt\tgone"),
    ("add - b.txt 3", "ok"),
    ("run-hooks changed", "ok\tfailed"),
    ("add - b.txt 4", "ok"),
    ("run-hooks changed", "ok\tfailed\tb.txt\tnow\t\\n"),
    ("add - b.txt 5", "ok"),
    ("run-hooks changed", "ok\tfailed"),
    ("add executable b.txt 1", "ok"),
    ("run-hooks changed", "ok\tfailed"),
]
# What the children of the hooks of four stages answer in addition, and those of a run whose first hook takes blanks from a file.
MARKED = "m\\nmarked\\n"
FOUR_CHILDREN = [
    *CHILDREN,
    f"child mark {MESSAGE} | {MESSAGE}=m\\n | {MESSAGE}={MARKED} | 0",
    f"child mark {MESSAGE} | {MESSAGE}=n\\n | | 0",
    f"child sign {MESSAGE} | {MESSAGE}={MARKED} | {MESSAGE}={MARKED}signed\\n | 0",
]
RUN_CHILDREN = ["child trim a.txt | a.txt=x\\t\\n | a.txt=x\\n | 0", "child trim a.txt | a.txt=x\\n | | 0", "child look a.txt | a.txt=x\\n | | 0"]
# What the hooks of each stage of a commit leave to the next one, and what each of the runs starts, by what is cached.
FOUR_STORY = [
    ("create", "ok"),
    (f"stage plain {FOUR_STAGES}", "ok"),
    ("add - b.txt 0", "ok"),
    ("commit-verified m", "ok\tcommitted\t1\ttold"),
    ("log", f"ok\t1\t{MARKED}signed\\n"),
    ("answers", "ok\t4"),
    ("forget-answers", "ok\t4"),
    ("forget-answers", "ok\t0"),
    ("add - b.txt 1", "ok"),
    ("commit-unverified m", "ok\tcommitted\t2\ttold"),
    ("log", f"ok\t1\t{MARKED}signed\\n\t2\t{MARKED}"),
    ("answers", "ok\t2"),
    ("add - b.txt 0", "ok"),
    ("commit-verified 1", "ok\tfailed\tprepare-commit-msg"),
    ("answers", "ok\t3"),
    ("prepare-message m\\n", f"ok\tpassed\t{MARKED}"),
    ("answers", "ok\t3"),
    (f"check-message {MARKED}", f"ok\tpassed\t{MARKED}signed\\n"),
    ("answers", "ok\t4"),
    ("log", f"ok\t1\t{MARKED}signed\\n\t2\t{MARKED}"),
]
RUN_STORY = [
    ("create", "ok"),
    (f"stage plain {RUN_CONFIG}", "ok"),
    ("add - a.txt x\\t\\n", "ok"),
    ("run-hooks changed", "ok\tfailed\ta.txt\tnow\tx\\n"),
    ("answers", "ok\t2"),
    ("accept-fixes", "ok\t1"),
    ("run-hooks changed", "ok\tpassed"),
    ("answers", "ok\t3"),
    ("run-hooks changed", "ok\tpassed"),
    ("forget-answers", "ok\t3"),
]
# Plays in which a disk stops. One is of the store's calls, and one of a host's commands, the last of which needs a child in each stage of
# a commit. One is of runs of two hooks, of which the first keeps a fix and the last start no child.
STOPPED_CALLS = ["create", "stage plain a.txt 1", "stage executable tools/run 2", "blob 3", "fix a.txt 4", "set", "accept", "commit m\\n",
                 "remember c a.txt | a.txt=6 | a.txt=7 | 0 | one", "remember c a.txt | a.txt=6 | | 1", "unstage a.txt", "fix-gone tools/run", "set",
                 "stage plain tools/run 5", "commit n\\n", "forget", "remember d | | | 0",
                 "fix tools/run 8", "set", "stage-all add - b.txt 9 | add executable b.txt 10 | remove tools/run | add - dir/c 2 | add - dir/d "]
STOPPED_COMMANDS = [*FOUR_CHILDREN, "create", f"stage plain {FOUR_STAGES}", "add - b.txt 1", "commit-verified m", "commit-unverified n", "run-hooks all",
                    "run-hooks changed", "run-hooks all", "edit-all add - a 8 | remove a | add executable dir/c 9 | add - dir/c 10", "run-hooks all",
                    "accept-fixes", "remove dir/c", "forget-answers", "prepare-message m\\n", f"check-message {MARKED}", "check-message 3", "commit-verified m"]
STOPPED_RUNS = [*RUN_CHILDREN, "create", f"stage plain {RUN_CONFIG}", "add - a.txt x\\t\\n", "run-hooks changed", "accept-fixes", "run-hooks changed",
                "run-hooks changed", "forget-answers", "run-hooks changed"]
# Looking up, caching and limiting.
STOPPED_USES = ["create", "remember a | | | 0", "remember b | | | 1", "remember c | | | 2", "recall a |", "recall a |",
                "recall b |", "set-limit 2", "recall d |", "remember d | | | 3", "recall b |", "remember d | | | 4",
                "limit-answers 1", "remember e | | | 5", "set-limit 3", "remember f | | | 6", "forget",
                "remember a | | | 7"]
# Plays of which each allocation is refused. Of the commands of a host all that may be refused are made again at once,
# as far as they leave something to be made.
REFUSED_PLAY = [
    *FOUR_CHILDREN, "create", "stage plain a.txt 1", "fix a.txt 2", "set", "accept", "commit m\\n", "blob abc",
    "remember c a | a=1 | a=2 | 3 | one", "recall c a | a=1", "forget", "add - h 1", "remove h", "fix a.txt 3", "set",
    "stage-all add - h 1 | add executable h 2 | remove h | add - i 3",
    "edit-all add - i 4 | add - j/k 5 | remove i | remove j/k", "unstage a.txt", f"stage plain {FOUR_STAGES}", "add - b.txt 1", *["run-hooks all"] * 2, *["forget-answers"] * 2,
    *["accept-fixes"] * 2, *["commit-verified m"] * 2, "close", "open", *SHOWN, "tree 1", "tree 0", "tree 3",
]
# Paths that clash with those of the random plays, and texts that are none.
OTHER_PATHS = ["a/b", "dir", "dir/c/x", "b.txt.old", "", "/a", "a/", "./a", ".git/a", "e\x7f"]
# Calls on a store that has a.txt staged, and the fixes that it has then.
FIXES_AFTER = [
    (["fix a.txt 2", "set"], "ok\ta.txt\tnow\t2"),
    (["fix-gone a.txt", "set"], "ok\ta.txt\tgone"),
    (["fix b.txt 2", "set"], "ok"),
    (["fix-gone b.txt", "set"], "ok"),
    (["fix a.txt 2", "set", "stage plain b.txt 2"], "ok"),
    (["fix a.txt 2", "set", "stage plain a.txt 1"], "ok"),
    (["fix a.txt 2", "set", "unstage b.txt"], "ok"),
    (["fix a.txt 2", "set", "stage-all add - b.txt 2 | remove b.txt"], "ok"),
    (["fix a.txt 2", "set", "edit-all add - a.txt 1"], "ok"),
    (["fix a.txt 2", "set", "fix b.txt 2", "set"], "ok"),
    (["fix a.txt 2", "set", "fix a.txt 3", "set"], "ok\ta.txt\tnow\t3"),
]
NO_STORE = "the database holds no store of a version that is known"
# Each refusal: its number, its name and what it says.
FAULTS = [
    ("1", "NotAStore", NO_STORE),
    ("2", "Damaged", "the store is damaged"),
    ("3", "Sql", "there is already an object of this name"),
    ("3", "Sql", "database or disk is full"),
    ("4", "OutOfMemory", "out of memory"),
    ("5", "Collision", "other contents have the same digest"),
    ("6", "TooLarge", "contents, a message or a record of more than 16 MiB"),
    ("7", "TooMany", "more commits, staged files or paths than a store takes"),
]
# The rows of the play of statements, in the order of their keys: the numbers, and those once some are replaced. Then what is left once
# some rows are taken out, and what is taken out.
META_ROWS = [
    ("meta", "limit", "2"),
    ("meta", "version", "1"),
]
REPLACED_META_ROWS = [
    ("meta", "limit", "9"),
    ("meta", "new", "5"),
    ("meta", "version", "1"),
]
KEPT_ROWS = [
    ("blobs", "four", "4"),
    ("blobs", "one", "1"),
    ("blobs", "three", "3"),
    ("blobs", "two", "2"),
    ("staged", "a.txt", "one", "0"),
]
TAKEN_ROWS = [
    ("staged", "b.txt", "two", "1"),
    ("fixes", "a.txt", "two", "0"),
    ("fixes", "b.txt", "no digest", "1"),
]
COMMITTED_ROWS = [
    ("commits", "first\\n", "1"),
    ("commits", "second\\n", "2"),
    ("entries", "a.txt", "one", "1", "0"),
    ("entries", "b.txt", "three", "1", "1"),
    ("entries", "a.txt", "two", "2", "1"),
]
ANSWER_ROWS = [
    ("answers", "one", "two", "three", "four", "3"),
    ("answers", "two", "one", "four", "three", "0"),
]
ANSWER_ROWS_LEFT = ANSWER_ROWS[1:]
# The uses are in the order of their ticks.
USE_ROWS = [
    ("uses", "two", "one", "1"),
    ("uses", "one", "two", "2"),
]
USE_ROWS_LEFT = [
    ("uses", "two", "one", "3"),
]
# Lines that end the program with status 2, on an open store.
BAD_LINES = [
    "", "stag", "stage", "staged ", "staged a.txt", "create a", "set a", "execute", "faults a", "stage plain a.txt",
    "stage odd a.txt 1", "stage plain ../a.txt 1", "stage plain .git/COMMIT_EDITMSG 1", "stage plain a.txt \\x",
    "stage plain a.txt \\", "unstage /a", "tree x", "create", "open", "stage-many 1 1", "stage-all", "stage-all add",
    "stage-all add - b.txt", "stage-all remove a.txt | move a.txt", "stage-all add odd b.txt 1", "edit-all",
    "edit-all remove", "edit-all add - b.txt \\x", "edit-all remove a.txt | ", "accept-fixes ", "run-hooks",
    "run-hooks b.txt", "commit-verified", "commit-unverified", "commit-verified \\x", "child", "child tidy | |", "child tidy | | | ", "child tidy | | | 256",
    "child tidy | a.txt | | 0", "child tidy | ../a=1 | | 0", "child tidy | a=\\x | | 0", "child tidy | | b a | 0",
    "child tidy | | .git/a | 0", "limit 1", "answer-limit 1",
    *(f"{word}{limit}" for word in ("set-limit", "limit-answers")
      for limit in ["", " ", " x", " -1", " 0", " 100001", " 1 1"]),
]
FILLING = ["create", "stage plain a.txt 1", "stage plain b.txt 2", "commit m\\n", "commit n\\n", "fix a.txt 2", "set", "close"]
# The digests of the contents 1 and 2.
ONE, TWO = (hashlib.sha256(text).hexdigest() for text in (b"1", b"2"))
NOT_A_STORE, DAMAGED, SQL = f"refused\t1\tNotAStore\t{NO_STORE}", "refused\t2\tDamaged\t", "refused\t3\tSql\t"
NO_ROWID = SQL + "no rowid is left"
TOO_LARGE, TOO_MANY = "refused\t6\tTooLarge\tcontents, a message or a record of more than 16 MiB", "refused\t7\tTooMany\t"
# What is cached and found, on the store of FILLING.
ANSWERS_STORY = [
    ("answers", "ok\t0"),
    ("recall c a.txt | a.txt=1", "ok\tnone"),
    ("remember c a.txt | a.txt=1 | | 0", "ok"),
    ("recall c a.txt | a.txt=1", "ok\t0\t"),
    ("recall c a.txt | a.txt=2", "ok\tnone"),
    ("recall c a.txt |", "ok\tnone"),
    ("recall c a.txt | a.txt=1 b.txt=2", "ok\tnone"),
    ("recall d a.txt | a.txt=1", "ok\tnone"),
    ("recall c | a.txt=1", "ok\tnone"),
    ("recall c a .txt | a.txt=1", "ok\tnone"),
    ("remember c a.txt | a.txt=1 | a.txt=2 | 3 | one\\n", "ok"),
    ("recall c a.txt | a.txt=1", "ok\t3\tone\\n\ta.txt\tnow\t2"),
    ("answers", "ok\t1"),
    ("remember c a.txt b.txt | a.txt=1 b.txt=2 | a.txt b.txt=x | 255", "ok"),
    ("remember | | | 0", "ok"),
    ("recall |", "ok\t0\t"),
    ("remember c .git/COMMIT_EDITMSG | .git/COMMIT_EDITMSG=m | .git/COMMIT_EDITMSG=n | 0", "ok"),
    ("answers", "ok\t4"),
    ("recall c a.txt b.txt | a.txt=1 b.txt=2", "ok\t255\t\ta.txt\tgone\tb.txt\tnow\tx"),
    ("recall c .git/COMMIT_EDITMSG | .git/COMMIT_EDITMSG=m", "ok\t0\t\t.git/COMMIT_EDITMSG\tnow\tn"),
]
RECALLED = ["recall c a.txt | a.txt=1", "recall c a.txt b.txt | a.txt=1 b.txt=2", "recall |", "recall c .git/COMMIT_EDITMSG | .git/COMMIT_EDITMSG=m"]
ANSWERS_LEFT = 4
# What is left if a limit is met: the answers that were put or found last.
LIMIT_STORY = [
    ("create", "ok"),
    ("limit", "ok\t10000"),
    ("answer-limit", "ok\t10000"),
    ("set-limit 2", "ok"),
    ("limit", "ok\t2"),
    ("remember a | | | 1", "ok"),
    ("remember b | | | 2", "ok"),
    ("remember c | | | 3", "ok"),
    ("answers", "ok\t2"),
    ("recall a |", "ok\tnone"),
    # Found, it is in front, so that the next one is dropped in place of the other.
    ("recall b |", "ok\t2\t"),
    ("remember d | | | 4", "ok"),
    ("recall c |", "ok\tnone"),
    ("recall b |", "ok\t2\t"),
    ("recall d |", "ok\t4\t"),
    # An answer to what was asked before drops none, and is in front.
    ("remember b | | | 5", "ok"),
    ("answers", "ok\t2"),
    ("close", "ok"),
    ("open", "ok"),
    ("answer-limit", "ok\t2"),
    ("remember e | | | 6", "ok"),
    ("recall d |", "ok\tnone"),
    ("recall b |", "ok\t5\t"),
    ("recall e |", "ok\t6\t"),
    ("recall b |", "ok\t5\t"),
    ("limit-answers 3", "ok\t2"),
    ("remember a | | | 7", "ok"),
    ("recall e |", "ok\t6\t"),
    ("answers", "ok\t3"),
    # What was used last is left, in the same order.
    ("limit-answers 2", "ok\t2"),
    ("recall b |", "ok\tnone"),
    ("set-limit 2", "ok"),
    ("answers", "ok\t2"),
    ("close", "ok"),
    ("open", "ok"),
    ("set-limit 1", "ok"),
    ("recall a |", "ok\tnone"),
    ("recall e |", "ok\t6\t"),
    ("remember e | | | 8", "ok"),
    ("recall e |", "ok\t8\t"),
    ("remember f | | | 9", "ok"),
    ("recall e |", "ok\tnone"),
    ("limit-answers 100000", "ok\t1"),
    ("limit", "ok\t100000"),
    ("forget", "ok\t1"),
    ("limit", "ok\t100000"),
    ("limit-answers 1", "ok\t0"),
    ("remember g | | | 0", "ok"),
    ("remember h | | | 0", "ok"),
    ("forget-answers", "ok\t1"),
    ("answer-limit", "ok\t1"),
    ("remember i | | | 0", "ok"),
    ("close", "ok"),
]
# The lines that recall three answers, of which the last one is in front.
THREE_RECALLS = ["recall c a.txt | a.txt=1", "recall d |", "recall c | a.txt=1 b="]
LAST, MIDDLE, FRONT = THREE_RECALLS
# Plays on them of which each allocation is refused: of uses, the first of which passes the greatest tick; and on a store
# of version 1.
REFUSED_USES = ["open", LAST, MIDDLE, FRONT, "recall e |", "remember e | | | 0 | one", "set-limit 4", "set-limit 3",
                LAST, "remember f | | | 0", "limit-answers 2", "limit", "answers", "close"]
REFUSED_MIGRATION = ["open", MIDDLE, "close"]
# Calls on a store of these, and how many transactions they are.
USING_PLAYS = [
    ([], 0),
    ([FRONT], 0),
    (["recall e |"], 0),
    (["answers", "limit", "answer-limit", *[FRONT] * 3, "recall c |", FRONT], 0),
    ([LAST], 1),
    ([MIDDLE], 1),
    ([LAST, LAST, "recall e |", LAST], 1),
    ([LAST, MIDDLE, FRONT], 3),
    ([LAST, FRONT, LAST], 3),
    (["remember e | | | 0"], 1),
    (["remember e | | | 0", "recall e |"], 1),
    (["remember d | | | 4"], 1),
    (["remember c | a.txt=1 b= | | 5"], 1),
    (["set-limit 2", MIDDLE], 2),
    (["set-limit 1", FRONT, LAST, MIDDLE], 1),
    (["limit-answers 3", LAST, "remember e | | | 0", MIDDLE], 3),
    (["forget", LAST], 1),
]
# The tick of the last of these, calls, the ticks then, and how many transactions the calls were.
TICK_PLAYS = [
    (1, [LAST], [2, 3, 4], 1),
    (7, [MIDDLE, MIDDLE, "recall e |", FRONT], [7, 10, 11], 2),
    (7, ["remember e | | | 0"], [7, 8, 9, 10], 1),
    (7, ["set-limit 3", "remember e | | | 0"], [8, 9, 10], 2),
    (GREATEST_TICK - 3, [LAST], [GREATEST_TICK - 2, GREATEST_TICK - 1, GREATEST_TICK], 1),
    (GREATEST_TICK - 3, [LAST, MIDDLE], [2, 3, 4], 3),
    (GREATEST_TICK - 2, [FRONT, "recall e |"], [GREATEST_TICK - 2, GREATEST_TICK - 1, GREATEST_TICK], 0),
    (GREATEST_TICK - 2, ["set-limit 2"], [GREATEST_TICK - 1, GREATEST_TICK], 1),
    (GREATEST_TICK - 2, ["set-limit 2", MIDDLE], [2, 3], 3),
    (GREATEST_TICK - 2, [LAST], [2, 3, 4], 2),
    (GREATEST_TICK - 2, [LAST, LAST, MIDDLE, FRONT, LAST], [5, 6, 7], 5),
    (GREATEST_TICK - 2, ["remember e | | | 0"], [1, 2, 3, 4], 2),
    (GREATEST_TICK - 2, ["remember d | | | 4"], [1, 3, 4], 2),
    (GREATEST_TICK - 2, ["remember c | a.txt=1 b= | | 5"], [1, 2, 4], 2),
    (GREATEST_TICK - 2, ["set-limit 3", "remember e | | | 0"], [2, 3, 4], 3),
    (GREATEST_TICK - 2, ["close", "open", MIDDLE], [1, 3, 4], 2),
]

LARGE = "1" * 16777217
# A file that has a byte too many is refused before it clashes.
LARGE_EDITS = [(f"add - {path} {LARGE}", "5\tTooLarge\tnone", "Store\t6") for path in ("one", "kept/x")]
# Children whose answers are too large to be kept, since of a host's children nothing says how much they may answer.
LARGE_CHILDREN = [
    f"child tidy b.txt | b.txt=0 | b.txt={LARGE} | 0",
    "child tidy b.txt | b.txt=1 | | 0",
    f"child sign {MESSAGE} | {MESSAGE}=m\\n | {MESSAGE}={LARGE} | 0",
    f"child sign {MESSAGE} | {MESSAGE}=n\\n | | 0",
    f"child tell | | | 0 | {LARGE}",
]
# Such an answer stops a run and the hooks before a commit, and leaves what was put before and the rest as it was. Hooks
# after a commit are stopped, and the commit is made.
LARGE_STORY = [
    ("create", "ok"),
    (f"stage plain {CONFIG}", "ok"),
    ("add - b.txt 0", "ok"),
    ("fix b.txt 7", "ok"),
    ("set", "ok"),
    ("run-hooks all", "refused\t2\tStore\t6"),
    ("commit-verified m", "refused\t2\tStore\t6"),
    ("answers", "ok\t0"),
    ("fixes", "ok\tb.txt\tnow\t7"),
    ("add - b.txt 1", "ok"),
    ("fix b.txt 7", "ok"),
    ("set", "ok"),
    ("commit-verified m", "refused\t2\tStore\t6"),
    ("answers", "ok\t1"),
    ("recall tidy b.txt | b.txt=1", "ok\t0\t"),
    ("log", "ok"),
    ("fixes", "ok\tb.txt\tnow\t7"),
    ("commit-verified n", "ok\tcommitted\t1\tstopped"),
    ("answers", "ok\t2"),
    (f"recall sign {MESSAGE} | {MESSAGE}=n\\n", "ok\t0\t"),
    ("recall tell |", "ok\tnone"),
    ("log", "ok\t1\tn\\n"),
    ("close", "ok"),
    ("open", "ok"),
    ("answers", "ok\t2"),
]


def seen_of_size(size):
    """Seen files whose record has this size, if that is large: paths of 4,096 bytes, and a shorter one after them."""
    count, rest = divmod(size - 4, 4096 + 37)
    return [*(f"{at:04096d}" for at in range(count)), "1" * (rest - 37)]


def largest_answers():
    """What of an answer is as large as may be, by a byte, or a byte larger: its name, and the line for a size."""
    most = 16777216
    for name, line in [
        ("words", lambda size: f"{'c' * (size - 8)} | | | 0"),
        ("seen files", lambda size: f"c | {' '.join(f'{path}=' for path in seen_of_size(size))} | | 0"),
        ("contents of a seen file", lambda size: f"c a | a={'1' * size} | | 0"),
        ("contents of a changed file", lambda size: f"c a | a=1 | a={'1' * size} | 0"),
        ("output", lambda size: f"c | | | 0 | {'1' * size}"),
    ]:
        yield name, line(most), line(most + 1)
