"""The words of an entry, compared with those of Python's shlex.split, and the parts of a command."""

PROGRAM = "selection_trial"

OPEN = "1 OpenQuote"
NOTHING = "2 NothingEscaped"


def words(text, *want):
    """A text and its words: each is written with a line feed before it."""
    return ("words", text, "".join(f"\n{word}" for word in want))


def parts(limit, most, command, names, want):
    """A command's words and its names, parted by blanks, and the cuts: lists of two, or the index that is refused."""
    cuts = f"1 TooLong {want}" if isinstance(want, int) else "".join(f"{start} {end}\n" for start, end in want)
    return ("parts", str(limit), str(most), "".join(f"{word}\n" for word in command.split()), "".join(f"{name}\n" for name in names), cuts)


def names(*lengths):
    """Names of these lengths."""
    return ["n" * length for length in lengths]


WORDS = [
    words(r"""sh -c 'echo "a b"' \x "q\"r\n" """[:-1], "sh", "-c", 'echo "a b"', "x", r'q"r\n'),
    words("a''b ''", "ab", ""),
    words(""),
    words(" \t\r\n"),
    words("a", "a"),
    words("\ta\r\nb ", "a", "b"),
    words("''", ""),
    words('""', ""),
    words("'' \"\"", "", ""),
    words("a\vb\fc\u00a0d", "a\vb\fc\u00a0d"),
    words("a#b #c", "a#b", "#c"),
    words("$HOME ~ * `a` $(b) ; & | < >", "$HOME", "~", "*", "`a`", "$(b)", ";", "&", "|", "<", ">"),
    words(r"'a\b'", r"a\b"),
    words(r"'a\'", "a\\"),
    words(r'"a\b\$\`"', r"a\b\$\`"),
    words(r'"\\"', "\\"),
    words(r'"\\\""', r'\"'),
    words(r"\'\"\\\ ", "'\"\\ "),
    words("a\\\nb", "a\nb"),
    words('"a\\\nb"', "a\\\nb"),
    words("\"a b\"'c d'e\\ f", "a bc de f"),
    words("'a\nb'", "a\nb"),
    words("'don'\\''t' 'don'\"'\"'t'", "don't", "don't"),
    words(r""" "\'" "a'b" """, r"\'", "a'b"),
    words("'\"' \"'\"", '"', "'"),
    words("caf\u00e9 \\\u65e5'\u672c'", "caf\u00e9", "\u65e5\u672c"),
    words('"\\\u00e9"', "\\\u00e9"),
    words("a\0b", "a\0b"),
    ("words", "'a", OPEN),
    ("words", '"a', OPEN),
    ("words", "'", OPEN),
    ("words", "a b 'c", OPEN),
    ("words", "'a\\", OPEN),
    ("words", '"\\"', OPEN),
    ("words", "\"'", OPEN),
    ("words", "a\\", NOTHING),
    ("words", "\\", NOTHING),
    ("words", '"a\\', NOTHING),
    ("words", '"\\\\\\', NOTHING),
    ("words", "a\\\\\\", NOTHING),
]

LONG = 131_072

PARTS = [
    parts(7, 100_000, "ab", ["x", "yy", "z"], [(0, 2), (2, 3)]),
    parts(6, 100_000, "ab", ["x", "yy", "z"], [(0, 1), (1, 2), (2, 3)]),
    parts(4, 100_000, "ab", ["x", "yy", "z"], 1),
    parts(LONG, 100_000, "c", names(*[4095] * 31, 4094), [(0, 32)]),
    parts(LONG, 100_000, "c", names(*[4095] * 32), [(0, 31), (31, 32)]),
    # without names: one part, if the words fit
    parts(5, 1, "ab cd", [], [(0, 0)]),
    parts(4, 1, "ab cd", [], 0),
    parts(0, 1, "", [], [(0, 0)]),
    # the words alone don't fit
    parts(1, 1, "ab", ["x"], 0),
    parts(2, 1, "ab", ["x"], 0),
    parts(3, 1, "ab", ["x"], 0),
    parts(4, 1, "ab", ["x"], [(0, 1)]),
    # without words no byte comes before the first name
    parts(2, 9, "", ["xx", "y", "zz"], [(0, 1), (1, 2), (2, 3)]),
    parts(4, 9, "", ["xx", "y", "zz"], [(0, 2), (2, 3)]),
    parts(1, 9, "", ["y", "xx"], 1),
    # the first of several names that don't fit
    parts(5, 9, "ab", ["x", "yyy", "zzz"], 1),
    parts(5, 9, "ab", ["x", "yy", "zzz", "zzz"], 2),
    # few names a part
    parts(99, 1, "ab", ["x", "y", "z"], [(0, 1), (1, 2), (2, 3)]),
    parts(99, 2, "ab", ["x", "y", "z"], [(0, 2), (2, 3)]),
    parts(99, 3, "ab", ["x", "y", "z"], [(0, 3)]),
    parts(6, 2, "a", ["xx", "y", "z"], [(0, 2), (2, 3)]),
    # greedy, not even
    parts(9, 9, "a", names(1, 1, 1, 6, 1), [(0, 3), (3, 4), (4, 5)]),
    # the greatest limit and count
    parts(2**64 - 1, 2**64 - 1, "ab", ["x", "y"], [(0, 2)]),
    parts(LONG, 100_000, "c", names(*[1] * 65_535), [(0, 65_535)]),
    parts(LONG, 100_000, "c", names(*[1] * 65_536), [(0, 65_535), (65_535, 65_536)]),
    parts(10**9, 100_000, "c", names(*[1] * 100_001), [(0, 100_000), (100_000, 100_001)]),
]

ROWS = [*WORDS, *PARTS]
