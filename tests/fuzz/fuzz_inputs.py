"""Hostile inputs of tests/fuzz/fuzz.py: bytes that are made of others, and the configurations to make them of."""
import os
import re

import row_tables
import yaml_texts
from places import TOP

TABLES = ("hook_config", "report_text", "command_line", "configuration_run", "hook_run", "builtin_hooks", "hook_cli", "hook_cli_remembered")
# A text that is longer makes all that are made of it long, and few of them.
MOST_TEXT_BYTES = 20_000
# Pieces that the readers of configurations, paths and messages look for.
TOKENS = [
    b"\n", b"\r\n", b"\r", b"\t", b" ", b"  ", b"\0", b"\xff", b"\xc3", b"\xed\xa0\x80", b"\xf4\x90\x80\x80", b"\xef\xbb\xbf",
    b"\xe2\x80\xa8", b"\xc2\x85", b"- ", b": ", b":", b"? ", b"#", b" #", b"|", b">", b"|-", b">+", b"|2", b"'", b"''", b'"', b"\\", b"\\x",
    b"\\ud800", b"\\u0000", b"[", b"]", b"{", b"}", b",", b"&a", b"*a", b"!", b"!!str", b"%", b"@", b"`", b"---", b"...", b"~", b"null",
    b"true", b"no", b"0", b"9" * 40, b"(", b")", b"(?i)", b"(a*)*", b"[[:", b"{999999}", b"\\1", b"^$", b".*", b"$(x)",
]
KEYS = [
    b"repos", b"repo", b"local", b"hooks", b"id", b"name", b"alias", b"language", b"entry", b"args", b"files", b"exclude", b"types",
    b"types_or", b"exclude_types", b"stages", b"default_stages", b"always_run", b"verbose", b"fail_fast", b"pass_filenames", b"x_reads", b"x_per_file",
    b"x_at_most", b"log_file", b"additional_dependencies", b"system", b"script", b"fail", b"pygrep", b"pre-commit", b"manual",
]
# What messages are made of, to be cleaned.
MESSAGE_PIECES = [
    b"\n", b"\n", b"\n\n\n", b" ", b"\t", b"\r", b"\r\n", b"#", b"# a", b"\v", b"\f", b"\x1c", b"\x1b[2J", b"\xc2\xa0", b"\xe2\x80\xa8",
    b"a", b"line", b"   ", b"\\", b"-", b"x" * 300,
]
# What paths are made of.
PATH_PIECES = [
    b"a", b"a", b"b", b"/", b"/", b"//", b".", b"..", b"...", b".git", b".gitx", b".hookhost", b"\n", b"\t", b"\x01", b"\x7f", b" ", b"'",
    b'"', b"\\", b"*", b"-", b"\xc3\xa9", b"\xe2\x80\xae", b"\xf0\x9f\x99\x82", b"\xff", b"\xed\xa0\x80", b"d" * 255, b"e" * 256,
]


# ---- configurations

def bytes_in(row):
    """The texts of a row of a table, at any depth within one another."""
    for each in row:
        if isinstance(each, (list, tuple)):
            yield from bytes_in(each)
        elif isinstance(each, (str, bytes)):
            yield each.encode() if isinstance(each, str) else each


def laid_in_sessions():
    """The files that sessions write."""
    folder = os.path.join(TOP, "tests", "sessions")
    for name in sorted(name for name in os.listdir(folder) if name.endswith(".txt")):
        with open(os.path.join(folder, name), encoding="utf-8") as file:
            yield from (body.encode() for body in re.findall(r"^-- (?:file|stdin).*\n((?:(?!-- |== ).*\n)+)", file.read(), re.MULTILINE))


def configurations():
    """The texts that are in tables and sessions, each once, those that are no configuration too."""
    found = [text for text, _ in [*yaml_texts.read_rows(), *yaml_texts.refused_rows()]]
    found += [text for name in TABLES for row in row_tables.table_of(name).ROWS for text in bytes_in(row[1:-1]) if b"repos" in text]
    texts = [text.encode() if isinstance(text, str) else text for text in [*found, *laid_in_sessions()]]
    return sorted({text for text in texts if text and len(text) <= MOST_TEXT_BYTES})


def whole_configurations(texts):
    """Those texts that name a hook, of which more is read than of others."""
    return [text for text in texts if b"hooks" in text and b"entry" in text]


# ---- bytes that are made of others

def place(chance, data):
    return chance.randint(0, len(data))


def piece(chance, data):
    """A piece of the bytes: mostly a short one, or some of its lines."""
    if chance.random() < 0.5:
        start = place(chance, data)
        return data[start:start + chance.choice([1, 2, 5, 20, 200])]
    lines = data.splitlines(keepends=True)
    start = place(chance, lines)
    return b"".join(lines[start:start + chance.choice([1, 1, 2, 5])])


def flip(chance, data, _):
    if not data:
        return data
    at = chance.randrange(len(data))
    return data[:at] + bytes([data[at] ^ (1 << chance.randrange(8))]) + data[at + 1:]


def cut(chance, data, _):
    start, end = sorted([place(chance, data), place(chance, data)])
    return data[:start] + data[min(end, start + chance.choice([1, 4, 40, 10_000])):]


def end_early(chance, data, _):
    return data[:place(chance, data)]


def double(chance, data, _):
    part = piece(chance, data)
    at = place(chance, data)
    return data[:at] + part * chance.choice([1, 1, 2, 40]) + data[at:]


def double_line(chance, data, _):
    lines = data.splitlines(keepends=True)
    if not lines:
        return data
    at = chance.randrange(len(lines))
    lines[at:at] = [lines[at]] * chance.choice([1, 2, 9])
    return b"".join(lines)


def join(chance, data, others):
    at = place(chance, data)
    return data[:at] + piece(chance, chance.choice(others)) + data[at:]


def cross(chance, data, others):
    other = chance.choice(others)
    return data[:place(chance, data)] + other[place(chance, other):]


def put(chance, data, _):
    at = place(chance, data)
    return data[:at] + chance.choice(TOKENS if chance.random() < 0.7 else KEYS) * chance.choice([1, 1, 1, 3, 40]) + data[at:]


def put_random(chance, data, _):
    at = place(chance, data)
    return data[:at] + chance.randbytes(chance.choice([1, 2, 8, 100])) + data[at:]


def indent(chance, data, _):
    lines = data.split(b"\n")
    at = chance.randrange(len(lines))
    lines[at] = b" " * chance.choice([1, 2, 4]) + lines[at] if chance.random() < 0.6 else lines[at].lstrip(b" ")
    return b"\n".join(lines)


def exchange_key(chance, data, _):
    """Puts another known word in place of one."""
    found = list(re.finditer(rb"[a-z_-]{2,}", data))
    if not found:
        return data
    at = chance.choice(found)
    return data[:at.start()] + chance.choice(KEYS) + data[at.end():]


def drop_line(chance, data, _):
    lines = data.splitlines(keepends=True)
    if lines:
        del lines[chance.randrange(len(lines))]
    return b"".join(lines)


def swap_lines(chance, data, _):
    lines = data.splitlines(keepends=True)
    if len(lines) > 1:
        at = chance.randrange(len(lines) - 1)
        lines[at:at + 2] = [lines[at + 1], lines[at]]
    return b"".join(lines)


def exchange_word(chance, data, others):
    """Puts a word of another text in place of one."""
    found, words = list(re.finditer(WORD, data)), re.findall(WORD, chance.choice(others))
    if not found or not words:
        return data
    at = chance.choice(found)
    return data[:at.start()] + chance.choice(words) + data[at.end():]


WORD = rb"[^ \r\n,:{}\[\]]+"
# Those that leave the layout mostly as it is, so that more is read after it, and all.
SOFT_MAKERS = [drop_line, swap_lines, double_line, exchange_key, exchange_key, exchange_word, exchange_word]
MAKERS = [flip, cut, end_early, double, join, cross, put, put, put_random, indent, *SOFT_MAKERS]


def made_of(chance, others):
    """Bytes that are made of one of these, or at times random ones."""
    if chance.random() < 0.03:
        return chance.randbytes(chance.choice([0, 1, 10, 1000, 5000]))
    data, makers = chance.choice(others), SOFT_MAKERS if chance.random() < 0.6 else MAKERS
    for _ in range(chance.choice([1, 1, 1, 2, 3, 8])):
        data = chance.choice(makers)(chance, data, others)
    return data


def joined(chance, pieces, most):
    """Some of these pieces next to one another."""
    return b"".join(chance.choice(pieces) for _ in range(chance.randint(0, most)))
