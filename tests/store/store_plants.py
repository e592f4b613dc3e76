"""What other programs do to the files of stores in tests/store/store.py: stores that they make, rows and tables that they
change, and how the program refuses these then."""
import collections
import hashlib

from kept_answers import (GREATEST_TICK, TO_VERSION_1, KeptAnswer, b, changed_item, changes_record, contents_of, digest,
                          listed, n4, records_of, seen_item, statements_of, use_of)
from store_cases import (DAMAGED, FIRST_TABLES, LAST, MESSAGE, MIDDLE, MODES, NOT_A_STORE, ONE, SQL, TABLES, TWO,
                         unescaped)

NO_ROWID = SQL + "no rowid is left"
GREATEST_ROWID = 2 ** 63 - 1

# An answer, the words and seen files of a line that recalls it, and what is reported of it.
PLANTED_ANSWERS = [
    (KeptAnswer([b"c", b"a.txt"], [("a.txt", 0, b"abc")], [], 0), "c a.txt | a.txt=abc", "0\t"),
    (KeptAnswer([b"c"], [("a", 0, b""), ("b/c", 0, b"1")], [("a", b"new"), ("b/c", None)], 255, b"said\n"), "c | a= b/c=1", "255\tsaid\\n\ta\tnow\tnew\tb/c\tgone"),
    (KeptAnswer(["\u00e9".encode()], [(MESSAGE, 0, b"m\n")], [(MESSAGE, b"n\n")], 1), f"\u00e9 | {MESSAGE}=m\\n", f"1\t\t{MESSAGE}\tnow\tn\\n"),
    (KeptAnswer([], [], [], 7), " | ", "7\t"),
]

# What is done to the file of FILLING, how it is refused then, and what takes it back. A store of version 1 that has
# these rows is refused in the same way.
PLANTS = [
    ("a blob under another digest", "INSERT INTO blobs VALUES (x'00', x'33')", DAMAGED, "DELETE FROM blobs WHERE digest = x'00'"),
    ("other bytes under a digest", f"UPDATE blobs SET bytes = x'33' WHERE digest = x'{ONE}'", DAMAGED, f"UPDATE blobs SET bytes = x'31' WHERE digest = x'{ONE}'"),
    ("an illegal staged path", f"INSERT INTO staged VALUES ('a/../b', 0, x'{ONE}')", DAMAGED, "DELETE FROM staged WHERE path = 'a/../b'"),
    ("an illegal committed path", f"INSERT INTO entries VALUES (1, '../x', 0, x'{ONE}')", DAMAGED, "DELETE FROM entries WHERE path = '../x'"),
    ("an illegal path of a fix", "INSERT INTO fixes VALUES ('../x', 1, NULL)", DAMAGED, "DELETE FROM fixes WHERE path = '../x'"),
    ("a staged path of the repository's own", f"INSERT INTO staged VALUES ('.git/COMMIT_EDITMSG', 0, x'{ONE}')", DAMAGED,
     "DELETE FROM staged WHERE path = '.git/COMMIT_EDITMSG'"),
    ("an empty staged path", f"INSERT INTO staged VALUES ('', 0, x'{ONE}')", DAMAGED, "DELETE FROM staged WHERE path = ''"),
    ("the contents of another digest", f"UPDATE blobs SET bytes = x'32' WHERE digest = x'{ONE}'", DAMAGED, f"UPDATE blobs SET bytes = x'31' WHERE digest = x'{ONE}'"),
    ("a staged mode below 0", "UPDATE staged SET mode = -1 WHERE path = 'a.txt'", DAMAGED, "UPDATE staged SET mode = 0 WHERE path = 'a.txt'"),
    ("a staged mode of 2", "UPDATE staged SET mode = 2 WHERE path = 'a.txt'", DAMAGED, "UPDATE staged SET mode = 0 WHERE path = 'a.txt'"),
    ("a committed mode of 2", "UPDATE entries SET mode = 2 WHERE n = 1 AND path = 'a.txt'", DAMAGED, "UPDATE entries SET mode = 0 WHERE n = 1 AND path = 'a.txt'"),
    ("a fix with a gone of 2", "INSERT INTO fixes VALUES ('b.txt', 2, NULL)", DAMAGED, "DELETE FROM fixes WHERE path = 'b.txt'"),
    ("a fix with a gone of 2 and contents", "UPDATE fixes SET gone = 2", DAMAGED, "UPDATE fixes SET gone = 0"),
    ("a gone fix with contents", "UPDATE fixes SET gone = 1", DAMAGED, "UPDATE fixes SET gone = 0"),
    ("a fix with no contents", "INSERT INTO fixes VALUES ('b.txt', 0, NULL)", DAMAGED, "DELETE FROM fixes WHERE path = 'b.txt'"),
    ("a fix of a file that isn't staged", "INSERT INTO fixes VALUES ('c.txt', 1, NULL)", DAMAGED, "DELETE FROM fixes WHERE path = 'c.txt'"),
    ("commits 1 and 3", "UPDATE commits SET n = 3 WHERE n = 2; UPDATE entries SET n = 3 WHERE n = 2", DAMAGED,
     "UPDATE commits SET n = 2 WHERE n = 3; UPDATE entries SET n = 2 WHERE n = 3"),
    ("commits 1, 2 and 4", "INSERT INTO commits VALUES (4, x'6d')", DAMAGED, "DELETE FROM commits WHERE n = 4"),
    ("a commit 0", "INSERT INTO commits VALUES (0, x'6d')", DAMAGED, "DELETE FROM commits WHERE n = 0"),
    ("a commit below 0", "INSERT INTO commits VALUES (-1, x'6d')", DAMAGED, "DELETE FROM commits WHERE n = -1"),
    # A row more is put in after all others, so after the greatest rowid there is room for none. After the one below
    # it there is.
    *((f"the greatest rowid in {table}", f"UPDATE {table} SET rowid = {2 ** 63 - 1} WHERE {where}", NO_ROWID, f"UPDATE {table} SET rowid = {2 ** 63 - 2} WHERE {where}")
      for table, where in [("blobs", f"digest = x'{ONE}'"), ("staged", "path = 'a.txt'"), ("fixes", "path = 'a.txt'"),
                           ("entries", "n = 1 AND path = 'a.txt'")]),
    ("the greatest rowid in answers", f"INSERT INTO answers (rowid, words, seen, output, changes, status) VALUES ({2 ** 63 - 1}, x'{ONE}', x'{ONE}', x'{TWO}', x'{TWO}', 0)", NO_ROWID,
     "DELETE FROM answers"),
    # Here the tables' own rules are broken, which the kit's database refuses when it opens a file.
    ("an entry without its commit", f"INSERT INTO entries VALUES (3, 'a.txt', 0, x'{ONE}')", SQL, "DELETE FROM entries WHERE n = 3"),
    ("a staged digest that isn't there", "INSERT INTO staged VALUES ('c.txt', 0, x'00')", SQL, "DELETE FROM staged WHERE path = 'c.txt'"),
    ("a committed digest that isn't there", "INSERT INTO entries VALUES (1, 'c.txt', 0, x'00')", SQL, "DELETE FROM entries WHERE path = 'c.txt'"),
    ("a digest of a fix that isn't there", "INSERT INTO fixes VALUES ('b.txt', 0, x'00')", SQL, "DELETE FROM fixes WHERE path = 'b.txt'"),
    *((f"the {column} of an answer that aren't there", f"INSERT INTO answers VALUES ({', '.join(digests)}, 0)", SQL, "DELETE FROM answers")
      for column, digests in [(column, [f"x'{ONE}'"] * at + ["x'00'"] + [f"x'{TWO}'"] * (3 - at)) for at, column in enumerate(["words", "seen files", "output", "changes"])]),
]
# The same, of so many rows or bytes that they aren't planted twice.
LARGE_PLANTS = [
    ("8 MiB of staged paths and more", "WITH RECURSIVE c(n) AS (SELECT 1 UNION ALL SELECT n + 1 FROM c WHERE n < 2049) "
     f"INSERT INTO staged SELECT printf('%04096d', n), 0, x'{ONE}' FROM c", DAMAGED, "DELETE FROM staged WHERE length(path) = 4096"),
    ("100,001 staged files", "WITH RECURSIVE c(n) AS (SELECT 1 UNION ALL SELECT n + 1 FROM c WHERE n < 99999) "
     f"INSERT INTO staged SELECT 'd/' || n, 0, x'{ONE}' FROM c", DAMAGED, "DELETE FROM staged WHERE path = 'd/1'"),
    ("more than 100,000 commits", "WITH RECURSIVE c(n) AS (SELECT 3 UNION ALL SELECT n + 1 FROM c WHERE n < 100001) "
     "INSERT INTO commits SELECT n, x'6d' FROM c", DAMAGED, "DELETE FROM commits WHERE n > 2"),
    ("contents of more than 16 MiB", f"INSERT INTO blobs VALUES (x'{hashlib.sha256(bytes(16777217)).hexdigest()}', zeroblob(16777217))", DAMAGED,
     "DELETE FROM blobs WHERE length(bytes) > 16777216"),
    ("a message of more than 16 MiB", "UPDATE commits SET message = zeroblob(16777217) WHERE n = 2", DAMAGED, "UPDATE commits SET message = x'6e0a' WHERE n = 2"),
]
REPAIRED_META = "DELETE FROM meta; INSERT INTO meta VALUES ('version', 2), ('limit', 10000)"
# Rows of `meta` that give no version, or one that isn't that of the tables.
META_PLANTS = [
    (name, f"DELETE FROM meta{rows and '; INSERT INTO meta VALUES '}{rows}", NOT_A_STORE, REPAIRED_META)
    for name, rows in [
        ("no rows of meta", ""),
        ("no version", "('limit', 10000)"),
        ("version 3", "('version', 3), ('limit', 10000)"),
        ("version 7", "('version', 7), ('limit', 10000)"),
        ("version 0", "('version', 0), ('limit', 10000)"),
        ("a version of 33 bits", f"('version', {2 ** 32 + 2}), ('limit', 10000)"),
        ("version 1 beside the table of uses", "('version', 1)"),
        ("version 1 with a limit", "('version', 1), ('limit', 10000)"),
        ("a third number", "('version', 2), ('limit', 10000), ('edition', 1)"),
        ("a version under another name", "('edition', 2), ('limit', 10000)"),
        ("a limit under another name", "('version', 2), ('Limit', 10000)"),
        ("another number without a limit", "('version', 2), ('edition', 1)"),
    ]
] + [
    (f"the greatest rowid of the {name}", f"UPDATE meta SET rowid = {GREATEST_ROWID} WHERE name = '{name}'", NO_ROWID,
     f"UPDATE meta SET rowid = {GREATEST_ROWID - 1} WHERE name = '{name}'") for name in ("version", "limit")
]
# The same of version 1, to the file of FILLING as one of version 1.
FIRST_META_PLANTS = [
    (name, f"DELETE FROM meta{rows and '; INSERT INTO meta VALUES '}{rows}", NOT_A_STORE,
     "DELETE FROM meta; INSERT INTO meta VALUES ('version', 1)")
    for name, rows in [
        ("no rows of meta", ""),
        ("version 2 without the table of uses", "('version', 2), ('limit', 10000)"),
        ("version 2 without a limit", "('version', 2)"),
        ("version 3", "('version', 3)"),
        ("version 7", "('version', 7)"),
        ("version 0", "('version', 0)"),
        ("a version of 33 bits", f"('version', {2 ** 32 + 1})"),
        ("version 1 with a limit", "('version', 1), ('limit', 10000)"),
        ("a second number", "('version', 1), ('edition', 1)"),
        ("a version under another name", "('edition', 1)"),
    ]
]
# Answers that are in a store next to one staged file and one commit, in the order of `THREE_RECALLS`. Unless stated otherwise, the last
# one is in front.
THREE_ANSWERS = [
    KeptAnswer([b"c", b"a.txt"], [("a.txt", 0, b"1")], [("a.txt", b"2")], 0, b"one"),
    KeptAnswer([b"d"], [], [], 3),
    KeptAnswer([b"c"], [("a.txt", 0, b"1"), ("b", 0, b"")], [("b", None)], 255, b"\n"),
]
REPAIRED_USES = "; ".join(["DELETE FROM uses", *statements_of(THREE_ANSWERS, 1)[len(THREE_ANSWERS):]])
FIRST_ANSWER = "words = x'{}' AND seen = x'{}'".format(*use_of(THREE_ANSWERS[0]).split("|"))
# What is done to a store of version 2 with these answers, so that it is damaged, and what takes it back.
USE_PLANTS = [
    *((name, text, DAMAGED, REPAIRED_USES) for name, text in [
        ("an answer without a use", "DELETE FROM uses WHERE tick = 2"),
        ("no uses", "DELETE FROM uses"),
        ("a use more", "INSERT INTO uses VALUES (x'00', x'00', 4)"),
        ("a use under a key that none has", "UPDATE uses SET seen = words WHERE tick = 2"),
        ("a use under a key that is cut short", "UPDATE uses SET words = substr(words, 1, 31) WHERE tick = 3"),
        ("a use whose digests stand the other way round", "UPDATE uses SET words = seen, seen = words WHERE tick = 1"),
        ("two uses that have each other's seen files", "UPDATE uses SET seen = (SELECT seen FROM uses AS other "
         "WHERE other.tick = 3 - uses.tick) WHERE tick < 3"),
        *((f"a tick of {tick}", f"UPDATE uses SET tick = {tick} WHERE tick = 2")
          for tick in [0, -1, GREATEST_TICK + 1, 2 ** 63 - 1, -2 ** 63]),
    ]),
    ("a use without an answer", f"DELETE FROM answers WHERE {FIRST_ANSWER}", DAMAGED,
     "; ".join(statements_of(THREE_ANSWERS[:1]))),
    ("no limit", "DELETE FROM meta WHERE name = 'limit'", DAMAGED, REPAIRED_META),
    *((f"a limit of {limit}", f"UPDATE meta SET value = {limit} WHERE name = 'limit'", DAMAGED, REPAIRED_META)
      for limit in [0, -1, 100_001, 2 ** 32 + 10_000, 2 ** 63 - 1, -2 ** 63]),
    *((f"three answers where the limit is {limit}", f"UPDATE meta SET value = {limit} WHERE name = 'limit'", DAMAGED,
       REPAIRED_META) for limit in [1, 2]),
    ("the greatest rowid in uses", f"UPDATE uses SET rowid = {GREATEST_ROWID} WHERE tick = 2", NO_ROWID,
     f"UPDATE uses SET rowid = {GREATEST_ROWID - 1} WHERE tick = 2"),
]
# What is done to it, so that it says the same: the greatest tick and rowid that may be, and the bounds of a limit.
HARMLESS_PLANTS = [
    (f"UPDATE uses SET tick = {GREATEST_TICK} WHERE tick = 3", 10_000),
    (f"UPDATE uses SET tick = {GREATEST_TICK} - 3 + tick", 10_000),
    (f"UPDATE uses SET rowid = {GREATEST_ROWID - 1} WHERE tick = 1", 10_000),
    ("UPDATE meta SET value = 3 WHERE name = 'limit'", 3),
    ("UPDATE meta SET value = 100000 WHERE name = 'limit'", 100_000),
    ("UPDATE meta SET rowid = 100 - rowid", 10_000),
    ("UPDATE uses SET rowid = 100 - rowid", 10_000),
]


def damaged_answers():
    """Answers that break one rule of a store each: its name, the contents that are planted, the four records and the
    status."""
    whole = KeptAnswer([b"c", b"a"], [("a", 0, b"1"), ("b", 1, b"2")], [("a", b"3"), ("b", None)], 0)
    contents, records = contents_of(whole), records_of(whole)
    words, seen, output, changes = records
    yield "an answer of status 256", contents, records, 256
    yield "an answer of a status below 0", contents, records, -1
    for at, name in [(0, "words"), (1, "seen files"), (3, "changes")]:
        for end in range(len(records[at])):
            yield f"{name} cut at {end}", contents, [*records[:at], records[at][:end], *records[at + 1:]], 0
        yield f"{name} with a byte more", contents, [*records[:at], records[at] + b"\0", *records[at + 1:]], 0
    for name, other in [
        ("a word that is no text", listed([b(b"\xff")])),
        ("more words than are there", n4(3) + words[4:]),
    ]:
        yield name, contents, [other, seen, output, changes], 0
    one, two = digest(b"1"), digest(b"2")
    for name, items in [
        ("a seen file of another mode", [seen_item("a", 2, one), seen_item("b", 1, two)]),
        ("a seen file whose contents aren't kept", [seen_item("a", 0, one), seen_item("b", 1, bytes(32))]),
        ("a seen file of no path", [seen_item("", 0, one), seen_item("a", 0, one), seen_item("b", 0, one)]),
        ("a seen file above the repository", [seen_item("../a", 0, one), seen_item("a", 0, one), seen_item("b", 0, one)]),
        ("a seen file under .git", [seen_item(".git/config", 0, one), seen_item("a", 0, one), seen_item("b", 0, one)]),
        ("seen files that don't rise", [seen_item("b", 1, two), seen_item("a", 0, one)]),
        ("a seen file twice", [seen_item("a", 0, one), seen_item("a", 0, one), seen_item("b", 1, two)]),
    ]:
        yield name, contents, [words, listed(items), output, changes], 0
    for name, items in [
        ("a change of a file that wasn't seen", [changed_item("c", digest(b"3"))]),
        ("a change whose contents aren't kept", [changed_item("a", bytes(32))]),
        ("changes that don't rise", [changed_item("b", None), changed_item("a", None)]),
        ("a change twice", [changed_item("a", None), changed_item("a", None)]),
        ("a change with another mark", [b(b"a") + b"\2" + one]),
    ]:
        yield name, contents, [words, seen, output, listed(items)], 0
    yield "no changes, and a file that wasn't seen is gone", contents, [words, listed([]), output, changes_record([("a", None)])], 0


# What the tables of the file of FILLING themselves refuse, so that no store comes to hold it.
REFUSED_ROWS = [
    f"INSERT INTO entries VALUES (3, 'a.txt', 0, x'{ONE}')",
    "INSERT INTO staged VALUES ('c.txt', 0, x'00')",
    "INSERT INTO entries VALUES (1, 'c.txt', 0, x'00')",
    "INSERT INTO fixes VALUES ('b.txt', 0, x'00')",
    f"DELETE FROM blobs WHERE digest = x'{ONE}'",
    "DELETE FROM commits WHERE n = 1",
    f"INSERT INTO staged VALUES ('a.txt', 0, x'{TWO}')",
    f"INSERT INTO entries VALUES (1, 'a.txt', 1, x'{TWO}')",
    "INSERT INTO commits VALUES (2, x'6d')",
    "INSERT INTO staged VALUES ('c.txt', 'plain', NULL)",
]
# What is done to the tables of the file of FILLING, so that it holds no store.
OTHER_TABLES = [
    ("no version that can be read", "DROP TABLE meta"),
    ("a table more", "CREATE TABLE notes (text TEXT) STRICT"),
    ("an index more", "CREATE INDEX modes ON staged (mode)"),
    ("a view more", "CREATE VIEW paths AS SELECT path FROM staged"),
    ("a table less", "DROP TABLE answers"),
    ("another table of that name", "DROP TABLE answers; CREATE TABLE answers (words BLOB NOT NULL) STRICT"),
    ("no table of uses", "DROP TABLE uses"),
    ("uses whose ticks may be equal", f"DROP TABLE uses; {TABLES[-1].replace(' UNIQUE', '')}"),
    ("uses without a key", f"DROP TABLE uses; {TABLES[-1].replace(', PRIMARY KEY (words, seen)', '')}"),
    ("uses that refer to answers", f"DROP TABLE uses; {TABLES[-1].replace('seen BLOB', 'seen BLOB REFERENCES blobs')}"),
    ("an index more on uses", "CREATE INDEX lately ON uses (tick)"),
    ("the answers behind the uses", f"DROP TABLE answers; {FIRST_TABLES[-1]}"),
]
# The same to the file as one of version 1.
OTHER_FIRST_TABLES = [
    ("a table more", "CREATE TABLE notes (text TEXT) STRICT"),
    ("another table of uses", "CREATE TABLE uses (words BLOB NOT NULL) STRICT"),
    ("the table of uses", TABLES[-1]),
    ("a table less", "DROP TABLE answers"),
]
# What the kit's database itself doesn't open, so that nothing can be reported of its tables.
OTHER_SCHEMAS = [
    ("a trigger", "CREATE TRIGGER forget AFTER INSERT ON staged BEGIN DELETE FROM fixes; END"),
    ("an index on an expression", "CREATE INDEX lengths ON staged (length(path))"),
    ("an index of some rows", "CREATE INDEX plain ON staged (path) WHERE mode = 0"),
    ("a view with a window", "CREATE VIEW numbered AS SELECT row_number() OVER () FROM staged"),
    ("pages that move by themselves", "PRAGMA auto_vacuum = FULL; VACUUM"),
]


# ---- stores that SQL makes

# A store by its version, its staged files and commits as the model has them, and its cached answers. In version 2 also the tick of the
# first of these, which was used least lately; each further one has a tick more.
PlantedStore = collections.namedtuple("PlantedStore", "version staged history answers tick", defaults=[1])


def contents_in(planted):
    """All contents that a store keeps."""
    trees = [planted.staged, *(tree for _, tree in planted.history)]
    files = {unescaped(text) for tree in trees for _, text in tree.values()}
    return sorted(files.union(*map(contents_of, planted.answers)))


def planting_store(planted):
    """SQL that makes a store in an empty database, in one transaction, on one line."""
    columns = lambda path, mode, text: f"'{path}', {MODES[mode]}, x'{digest(unescaped(text)).hex()}'"
    second, history = planted.version == 2, list(enumerate(planted.history, 1))
    return "; ".join([
        "BEGIN", *(TABLES if second else FIRST_TABLES), f"INSERT INTO meta VALUES ('version', {planted.version})",
        *(["INSERT INTO meta VALUES ('limit', 10000)"] if second else []),
        *(f"INSERT INTO blobs VALUES (x'{digest(each).hex()}', x'{each.hex()}')" for each in contents_in(planted)),
        *(f"INSERT INTO commits VALUES ({at}, x'{unescaped(message).hex()}')" for at, (message, _) in history),
        *(f"INSERT INTO entries VALUES ({at}, {columns(path, *file)})" for at, (_, tree) in history
          for path, file in tree.items()),
        *(f"INSERT INTO staged VALUES ({columns(path, *file)})" for path, file in planted.staged.items()),
        *statements_of(planted.answers, planted.tick if second else None), "COMMIT",
    ])


REPOSITORY = {"a.txt": ("plain", "1")}, [("m\\n", {"a.txt": ("executable", "2\\n")})]
FIRST_STORE = PlantedStore(1, *REPOSITORY, THREE_ANSWERS)
SECOND_STORE = PlantedStore(2, *REPOSITORY, THREE_ANSWERS)
# The last of its answers has the greatest tick.
LAST_TICKS = PlantedStore(2, *REPOSITORY, THREE_ANSWERS, GREATEST_TICK - len(THREE_ANSWERS) + 1)
PLANTED_STORES = {planting_store(planted): planted for planted in (FIRST_STORE, SECOND_STORE, LAST_TICKS)}
# A store of version 1 by one transaction.
AT_ONCE_TO_VERSION_1 = f"BEGIN; {TO_VERSION_1}; COMMIT"
# Plays in which a disk stops, of a store of version 1 that is opened, and of one whose last tick is the greatest.
STOPPED_MIGRATION = [f"execute {planting_store(FIRST_STORE)}", "open", MIDDLE, "stage plain b.txt 2", "set-limit 2"]
STOPPED_TICKS = [f"execute {planting_store(LAST_TICKS)}", "open", LAST, MIDDLE, "remember e | | | 0"]
