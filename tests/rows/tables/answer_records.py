"""The records of answers: the bytes of each, and what is read from bytes.

A word is an argument of `words_record`. A seen file is one of `seen_record`: `p` (plain) or `x` (executable), the 32 bytes of a
digest, and its path. A changed file is one of `changes_record`: `-` and its path if it is gone, or `+`, the 32 bytes of a digest, and
its path. `read_words`, `read_seen` and `read_changes` take the bytes of a record. They answer `none`, or how many items there are and
each of them as such an argument, after its length. `long_words_record` gives the length of the record of one word of so many bytes.
`read_long_words` gives how many words are read from bytes with so many more after them.

The bytes are put together here, by `struct`.
"""

import hashlib
import random
import struct

PROGRAM = "yaml_trial"

MOST = 16 << 20
MESSAGE = ".git/COMMIT_EDITMSG"
CHANCE = random.Random(20261126)


def digest(contents):
    return hashlib.sha256(contents).digest()


def n4(number):
    return struct.pack(">I", number)


def b(data):
    return n4(len(data)) + data


def listed(items):
    return n4(len(items)) + b"".join(items)


def seen_item(path, mode, contents):
    return b(path.encode()) + bytes([mode]) + digest(contents)


def changed_item(path, contents):
    return b(path.encode()) + (b"\0" if contents is None else b"\1" + digest(contents))


def seen_argument(path, mode, contents):
    return b"px"[mode : mode + 1] + digest(contents) + path.encode()


def changed_argument(path, contents):
    return (b"-" if contents is None else b"+" + digest(contents)) + path.encode()


def told(arguments):
    return f"{len(arguments)} ".encode() + b"".join(f"{len(it)}:".encode() + it for it in arguments)


def both_ways(maker, reader, arguments, record):
    """A record is made of the arguments, and they are read of it."""
    yield (maker, *arguments, record)
    yield (reader, record, told(arguments))


def only_whole(reader, record):
    """Nothing is read of less or of more than a record."""
    for end in range(len(record)):
        yield (reader, record[:end], "none")
    yield (reader, record + b"\0", "none")
    yield (reader, record + record, "none")


def refused(reader, records):
    for record in records:
        yield (reader, record, "none")


def words_of(words):
    return [it.encode() for it in words], listed([b(it.encode()) for it in words])


def seen_of(files):
    return [seen_argument(*it) for it in files], listed([seen_item(*it) for it in files])


def changes_of(files):
    return [changed_argument(*it) for it in files], listed([changed_item(*it) for it in files])


def chance_text(most):
    return "".join(CHANCE.choice("ab./é\n€𝄞 ") for _ in range(CHANCE.randrange(most)))


def chance_paths():
    """Different paths in the order of their bytes."""
    parts = ["a", "b", "a b", "é", "z" * 40, ".gitignore", "-", "a.txt", "€", "𝄞"]
    found = {"/".join(CHANCE.choice(parts) for _ in range(CHANCE.randrange(1, 4))) for _ in range(CHANCE.randrange(8))}
    return sorted(found, key=str.encode)


def chance_contents():
    return bytes(CHANCE.randrange(256) for _ in range(CHANCE.randrange(5)))


def chance_rows():
    for _ in range(60):
        yield from both_ways("words_record", "read_words", *words_of([chance_text(9) for _ in range(CHANCE.randrange(5))]))
        seen = [(path, CHANCE.randrange(2), chance_contents()) for path in chance_paths()]
        yield from both_ways("seen_record", "read_seen", *seen_of(seen))
        changes = [(path, CHANCE.choice([None, chance_contents()])) for path in chance_paths()]
        yield from both_ways("changes_record", "read_changes", *changes_of(changes))


SEEN = [("a.txt", 0, b"abc"), ("b/run", 1, b""), ("é", 0, b"x")]
CHANGES = [(MESSAGE, b"new"), ("a.txt", None), ("b", b""), ("b/c", b"abc")]
ABC = bytes.fromhex("ba7816bf8f01cfea414140de5dae2223b00361a396177a9cb410ff61f20015ad")

ROWS = [
    # A record as it is written down, digit by digit.
    ("words_record", "c", "a.txt", bytes.fromhex("00000002" "00000001" "63" "00000005" "612e747874")),
    ("seen_record", b"p" + ABC + b"a.txt", bytes.fromhex("00000001" "00000005" "612e747874" "00") + ABC),
    ("changes_record", "-a.txt", bytes.fromhex("00000001" "00000005" "612e747874" "00")),
    ("changes_record", b"+" + ABC + b"a.txt", bytes.fromhex("00000001" "00000005" "612e747874" "01") + ABC),
    # Nothing is a record too, and so are words without bytes.
    *both_ways("words_record", "read_words", *words_of([])),
    *both_ways("words_record", "read_words", *words_of(["", "", ""])),
    *both_ways("seen_record", "read_seen", *seen_of([])),
    *both_ways("changes_record", "read_changes", *changes_of([])),
    # Words may be the same, and in any order; a zero and a line end are bytes as others.
    *both_ways("words_record", "read_words", *words_of(["sh", "-c", "b\0a\n", "sh", "naïve €"])),
    *both_ways("seen_record", "read_seen", *seen_of(SEEN)),
    *both_ways("seen_record", "read_seen", *seen_of([(MESSAGE, 0, b"Add it\n")])),
    *both_ways("changes_record", "read_changes", *changes_of(CHANGES)),
    *chance_rows(),
    # Nothing is read of a part of a record, nor of more than one.
    *only_whole("read_words", words_of(["c", "a.txt", ""])[1]),
    *only_whole("read_seen", seen_of(SEEN)[1]),
    *only_whole("read_changes", changes_of(CHANGES)[1]),
    *refused(
        "read_words",
        [
            # The count promises more, or less.
            n4(3) + b(b"c") + b(b"a.txt"),
            n4(1) + b(b"c") + b(b"a.txt"),
            n4(0xFFFFFFFF),
            n4(0xFFFFFFFF) + b(b"c") * 9,
            # A word promises more.
            n4(1) + n4(0xFFFFFFFF) + b"c",
            # The least byte first.
            struct.pack("<I", 1) + struct.pack("<I", 1) + b"c",
            # No UTF-8: a byte alone, a form too long, half a pair, past the last.
            *(listed([b(b"a"), b(word)]) for word in [b"\xff", b"\xc0\x80", b"\xed\xa0\x80", b"\xf4\x90\x80\x80", b"\xe2\x82"]),
        ],
    ),
    *refused(
        "read_seen",
        [
            # Paths that don't rise.
            seen_of([("b", 0, b""), ("a", 0, b"")])[1],
            seen_of([("a", 0, b""), ("a", 0, b"")])[1],
            seen_of([("a", 0, b""), ("a", 1, b"x")])[1],
            seen_of([("a", 0, b""), ("c", 0, b""), ("b", 0, b"")])[1],
            seen_of([("ab", 0, b""), ("a", 0, b"")])[1],
            seen_of([("a", 0, b""), (MESSAGE, 0, b"")])[1],
            # Texts that are no path.
            *(seen_of([(path, 0, b"")])[1] for path in ["", "/a", "a//b", "a/", "./a", "a/..", "a\tb", ".git", ".git/x", "a" * 4_097]),
            seen_of([(MESSAGE + "x", 0, b"")])[1],
            n4(1) + b(b"\xff") + b"\0" + ABC,
            # A mode that is none.
            n4(1) + b(b"a") + b"\2" + ABC,
            n4(1) + b(b"a") + b"\xff" + ABC,
            # A record of changes: of another length, or of a file that is gone.
            changes_of([("a", None)])[1],
            words_of(["a"])[1],
        ],
    ),
    # A path of the most bytes.
    *both_ways("seen_record", "read_seen", *seen_of([("a" * 4_096, 1, b"")])),
    *refused(
        "read_changes",
        [
            changes_of([("b", None), ("a", None)])[1],
            changes_of([("a", None), ("a", b"")])[1],
            changes_of([("a", b""), ("a", b"")])[1],
            *(changes_of([(path, None)])[1] for path in ["", "/a", "a//b", "..", ".git/COMMIT_EDITMSG/x"]),
            n4(1) + b(b"\xff") + b"\0",
            # A mark that is none.
            n4(1) + b(b"a") + b"\2",
            n4(1) + b(b"a") + b"\2" + ABC,
            # A digest after the mark of a file that is gone, and none after the other.
            n4(1) + b(b"a") + b"\0" + ABC,
            n4(1) + b(b"a") + b"\1",
            n4(1) + b(b"a") + b"\1" + ABC[:31],
        ],
    ),
    # A record has at most 16 MiB: the word after its length, which comes after the count.
    ("long_words_record", str(MOST - 8), str(MOST)),
    ("long_words_record", str(MOST - 7), "a record of more than 16 MiB"),
    ("long_words_record", str(MOST + 1), "a record of more than 16 MiB"),
    ("read_long_words", str(MOST - 8), n4(1) + n4(MOST - 8), "1 "),
    ("read_long_words", str(MOST - 7), n4(1) + n4(MOST - 7), "none"),
]
