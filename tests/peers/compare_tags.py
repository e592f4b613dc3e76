#!/usr/bin/env python3
"""Compares the tags of files with those of the library `identify`, from which they come.

Usage: tests/peers/compare_tags.py [PROGRAM]   (default: crates/selection_trial/out/selection_trial)

The library (Debian's python3-identify) must be installed, for the Python that runs this or for /usr/bin/python3, which Debian's
packages serve. If it is missing, nothing can be compared, and that is a failure.

Files with all names of both tables, in other letters and put together, with random names, modes, first lines and bytes are written to a
folder. There `identify` reads them, and the program is given them. If the two differ, `identify` is asked again with the tables of
tests/rows/tables/file_tags.py in place of its own: most differences end there. Each that is left must have a reason, and a reason has a
test of the file. A file for which no test holds is a failure.
"""
import collections
import io
import os
import random
import re
import string
import subprocess
import sys
import tempfile

sys.path.insert(0, os.path.abspath(f"{__file__}/../../shared"))
from debian_python import try_again
from places import program
from row_tables import table_of

try:
    from identify import extensions, identify, interpreters
except ImportError:
    try_again("library identify (Debian's python3-identify)")

PROGRAM = os.path.abspath(sys.argv[1] if len(sys.argv) > 1 else program("selection_trial"))

# Files are written here if possible: the disk would take minutes for them.
IN_MEMORY = "/dev/shm"

RANDOM = random.Random(20_230_331)

File = collections.namedtuple("File", "mode name contents")


def tables():
    """The tables of names, extensions and interpreters, as the rows of the tests have them, each with sets of tags."""
    rows = table_of("file_tags")
    return [{name: set(tags.split()) for name, tags in table.items()} for table in (rows.NAMES, rows.EXTENSIONS, rows.INTERPRETERS)]


NAMES, EXTENSIONS, INTERPRETERS = tables()
THEIR_TABLES = (extensions.NAMES, extensions.EXTENSIONS, extensions.EXTENSIONS_NEED_BINARY_CHECK, interpreters.INTERPRETERS)
OUR_TABLES = (
    NAMES,
    {name: tags for name, tags in EXTENSIONS.items() if tags & identify.ENCODING_TAGS},
    {name: tags for name, tags in EXTENSIONS.items() if not tags & identify.ENCODING_TAGS},
    INTERPRETERS,
)
ALL_TAGS = sorted(identify.ALL_TAGS.union(*(tags for table in OUR_TABLES for tags in table.values())))


def use_tables(all_tables):
    """Has `identify` look names up in these tables."""
    extensions.NAMES, extensions.EXTENSIONS, extensions.EXTENSIONS_NEED_BINARY_CHECK, interpreters.INTERPRETERS = all_tables


# ---- the files


def some_name():
    """A random name: pieces from both tables and random letters, with dots between them."""
    known = [*NAMES, *EXTENSIONS, *THEIR_TABLES[0], *THEIR_TABLES[1], "", "", "x", "\u212at", "\u00c9", "\u0130", "a b"]
    pieces = [RANDOM.choice(known) for _ in range(RANDOM.randint(1, 4))]
    if RANDOM.random() < 0.3:
        pieces.append("".join(RANDOM.choice("abcmdpsty.") for _ in range(RANDOM.randint(1, 4))))
    name = ".".join(pieces)
    return RANDOM.choice([name, name, name.upper(), name.title(), name.swapcase()])


def some_line():
    """A random first line, most of them a script's."""
    known = [*INTERPRETERS, *THEIR_TABLES[3], "env", "", "x", "\u00e9"]
    programs = [RANDOM.choice(["/bin/", "/usr/bin/", "", "a/b.c/"]) + RANDOM.choice(known) + RANDOM.choice(["", "", ".1", ".2.3", "."]) for _ in range(2)]
    first = RANDOM.choice(["/usr/bin/env", "/usr/bin/env", programs[0]])
    words = [first, *RANDOM.choice([[], ["-S"], [programs[1]], ["-S", programs[1]], [programs[1], "-e"], ["-i", "-S"]])]
    blank = RANDOM.choice([" ", "\t", "  ", " \t"])
    end = RANDOM.choice(["", "", "\r", " ", "\r\r", "\x0b", " 'a b'", " \\", "\u00a0", " \"", " " * 1010, " x" * 600])
    return RANDOM.choice(["#!", "#!", "#! ", "#!\t", "#", " #!", ""]) + blank.join(words) + end


def some_bytes():
    """Random bytes, about as many as are looked at, most of them of a text."""
    length = RANDOM.choice([0, 1, 5, 1023, 1024, 1025, 1500])
    text = bytes(RANDOM.choice(b"ab \n\t\x1b\xe9\xff") for _ in range(length))
    at = RANDOM.choice([0, length - 1, 1022, 1023, 1024, 1025])
    return text[:at] + bytes([RANDOM.randrange(256)]) + text[at + 1:] if 0 <= at < length else text


def is_name(name):
    """Whether a file may have the name, in a folder and in a repository."""
    return name not in ("", ".", "..") and "/" not in name and len(name.encode()) <= 255 and not any(ord(it) < 32 or ord(it) == 127 for it in name)


def files():
    """All files that are compared, each once."""
    known = sorted({*NAMES, *EXTENSIONS, *(name for table in THEIR_TABLES for name in table)})
    forms = ["{}", "x.{}", "{}.x", ".{}", "..{}", "x..{}", "{}.", "x.{}.txt", "x.txt.{}", "{0}.{0}", "{}x", "x{}", "Makefile.{}", "{}.Makefile"]
    names = [form.format(shape(name)) for name in known for form in forms for shape in (str, str.upper, str.title)]
    made = [File(RANDOM.choice(["plain", "executable"]), name, b"#!/usr/bin/env ruby\n") for name in names]
    programs = sorted({*INTERPRETERS, *THEIR_TABLES[3]})
    made += [File("executable", "run", f"#!{where}{name}{end}\n".encode()) for name in programs for where in ("", "/bin/", "/usr/bin/env ", "/usr/bin/env -S ") for end in ("", ".1.2", " -e", "x")]
    made += [File(RANDOM.choice(["plain", "executable"]), some_name(), some_bytes()) for _ in range(4000)]
    made += [File("executable", RANDOM.choice(["run", "x.plist", "x.unknown"]), f"{some_line()}\n".encode() + some_bytes()) for _ in range(4000)]
    made += [File("plain", "e", some_bytes()) for _ in range(1000)]
    made.append(File("executable", "run", b"#!/usr/bin/env nix-shell\n#!nix-shell -i python3 -p python3\n"))
    return list(dict.fromkeys(file for file in made if is_name(file.name)))


# ---- what each reports of a file: its tags, and the words of its first line from the interpreter's on


def ours(all_files):
    """What the program answers to all files."""
    calls = []
    for file in all_files:
        asked = [file.mode, f"d/{file.name}", file.contents, *ALL_TAGS]
        calls += [["tags_of", *asked], ["shebang", file.contents]]
    lines = [" ".join([call, *((word.encode() if isinstance(word, str) else word).hex() or "-" for word in words)]) for call, *words in calls]
    ran = subprocess.run([PROGRAM], input="".join(f"{line}\n" for line in lines).encode(), capture_output=True, check=True)
    answers = [bytes.fromhex(line).decode().split("\n")[:-1] for line in ran.stdout.decode().splitlines()]
    if len(answers) != len(calls):
        sys.exit(f"compare_tags: {len(calls)} calls, {len(answers)} answers")
    return [(set(tags), from_interpreter(words)) for tags, words in zip(answers[::2], answers[1::2])]


def from_interpreter(words):
    """The words of a first line as `identify` gives them: without `env` and what belongs to it."""
    if words[:1] == ["/usr/bin/env"]:
        return words[2:] if words[1:2] == ["-S"] else words[1:]
    return words


def theirs(folder, file):
    """What `identify` reports of the file, with its own tables and with ours. None if it fails."""
    path = os.path.join(folder, file.name)
    with open(path, "wb") as made:
        made.write(file.contents)
    os.chmod(path, 0o755 if file.mode == "executable" else 0o644)
    said = []
    for all_tables in (THEIR_TABLES, OUR_TABLES):
        use_tables(all_tables)
        try:
            said.append((identify.tags_from_path(path), list(identify.parse_shebang(io.BytesIO(file.contents)))))
        except IndexError:
            said.append(None)
    os.remove(path)
    return said


# ---- why they may differ


def rest_of_line(file):
    """What follows `#!` in the first line, or nothing."""
    return file.contents[2:].partition(b"\n")[0] if file.contents.startswith(b"#!") else b""


def has_small_letter_beyond_ascii(file):
    """Whether a character beyond ASCII becomes one within it if it is made small."""
    return any(ord(it) >= 128 and min(map(ord, it.lower())) < 128 for it in file.name)


def is_env_alone(file):
    return rest_of_line(file).split() == [b"/usr/bin/env"]


def in_rest(pattern):
    """The test whether what follows `#!` has a part of this pattern."""
    return lambda file: re.search(pattern, rest_of_line(file))


REASONS = [
    (in_rest(rb"^/usr/bin/env nix-shell$"), "further lines are read there after `nix-shell`"),
    (has_small_letter_beyond_ascii, "A to Z alone are made small here, there each letter"),
    (is_env_alone, "`/usr/bin/env` alone names no interpreter; identify fails there"),
    (in_rest(rb"['\"\\]"), "quotes and backslashes are ordinary characters of a first line here"),
    (lambda file: len(rest_of_line(file)) > 1024, "a first line of more than 1,024 bytes is none here"),
    (lambda file: not set(rest_of_line(file)) <= set(string.printable.encode()), "a first line may have characters beyond ASCII here"),
    (in_rest(rb"[\x0b\x0c]|\r."), "spaces and tabs alone part words here, and one carriage return ends a line"),
]


def main():
    all_files = files()
    agreed, without_reason = 0, []
    by_reason = collections.defaultdict(list)
    said_here = ours(all_files)
    with tempfile.TemporaryDirectory(dir=IN_MEMORY if os.access(IN_MEMORY, os.W_OK) else None) as folder:
        for file, here in zip(all_files, said_here):
            there, there_with_our_tables = theirs(folder, file)
            if here == there:
                agreed += 1
            elif here == there_with_our_tables:
                by_reason["the tables here have fewer entries, and some with other tags"].append((file, here, there))
            elif reason := next((reason for test, reason in REASONS if test(file)), None):
                by_reason[reason].append((file, here, there_with_our_tables))
            else:
                without_reason.append((file, here, there_with_our_tables))
    for reason, found in by_reason.items():
        file, here, there = found[0]
        print(f"differs: {len(found)}: {reason}\n  as {file.mode} {file.name!r} {file.contents[:60]!r}: {shown(here)} here, {shown(there)} there")
    for file, here, there in without_reason[:20]:
        print(f"DIFFERENT: {file.mode} {file.name!r} {file.contents[:80]!r}: {shown(here)} here, {shown(there)} there")
    lacking = [reason for _, reason in REASONS if reason not in by_reason]
    for reason in lacking:
        print(f"compare_tags: no file has this reason any more: {reason}")
    with_reason = sum(map(len, by_reason.values()))
    print(f"compare_tags: {agreed} of {len(all_files)} files agree, {with_reason} differ with a reason")
    print(f"compare_tags: {agreed + with_reason} passed, {len(without_reason) + len(lacking)} failed")
    sys.exit(1 if without_reason or lacking or not agreed else 0)


def shown(said):
    if said is None:
        return "failed"
    tags, words = said
    return f"{' '.join(sorted(tags))}, first line {words[:4]}" if words else " ".join(sorted(tags))


main()
