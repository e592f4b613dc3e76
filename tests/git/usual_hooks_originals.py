"""What the hooks of pre-commit-hooks do, according to its README, for tests/git/usual_hooks.py: Debian has no package of them.

Each takes the bytes of a file and answers those that it leaves, or None if the hook fails and leaves them as they were.
"""
import ast
import functools
import io
import json
import os
import re
import subprocess
import sys
import tomllib
import xml.sax

from usual_hooks_cases import YAML

DEBUGGERS = ("bpdb", "ipdb", "pdb", "pdbr", "pudb", "pydevd_pycharm", "q", "rdb", "rpdb", "wdb")
KEYS = (
    "BEGIN RSA PRIVATE KEY", "BEGIN DSA PRIVATE KEY", "BEGIN EC PRIVATE KEY", "BEGIN OPENSSH PRIVATE KEY", "BEGIN PRIVATE KEY", "PuTTY-User-Key-File-2",
    "BEGIN SSH2 ENCRYPTED PRIVATE KEY", "BEGIN PGP PRIVATE KEY BLOCK", "BEGIN ENCRYPTED PRIVATE KEY", "BEGIN OpenVPN Static key V1",
)
CONFLICT = re.compile(rb"^(<<<<<<< |======= |=======\r?\n|>>>>>>> )", re.MULTILINE)
MOST_KILOBYTES = 500


def trimmed_line(line, is_markdown):
    """A line without the blanks at its end. Two are left at the end of a line of Markdown that has more than blanks."""
    end = b"\r\n" if line.endswith(b"\r\n") else b"\n" if line.endswith(b"\n") else b""
    body = line.removesuffix(end)
    keeps_two = is_markdown and body.endswith(b"  ") and not body.isspace()
    return body.rstrip() + (b"  " if keeps_two else b"") + end


def trailing_whitespace(held, is_markdown=False):
    return b"".join(trimmed_line(line, is_markdown) for line in io.BytesIO(held))


def trailing_whitespace_markdown(held):
    return trailing_whitespace(held, is_markdown=True)


def end_of_file_fixer(held):
    """The bytes with one line end at their end, the first that is there; none if nothing but line ends is there."""
    body = held.rstrip(b"\r\n")
    ends = held[len(body):]
    if not body:
        return b""
    for end in (b"\n", b"\r\n", b"\r"):
        if ends.startswith(end):
            return body + end
    return body + b"\n"


def mixed_line_ending(held):
    """With `--fix=auto`: the line end that is most frequent, LF before CR LF before CR, at the end of each line."""
    lines = held.splitlines(keepends=True)
    counts = {b"\r": 0, b"\r\n": 0, b"\n": 0}
    for line in lines:
        for end in counts:
            if line.endswith(end):
                counts[end] += 1
                break
    if sum(count > 0 for count in counts.values()) < 2:
        return held
    most = max(counts.values())
    chosen = [end for end, count in counts.items() if count == most][-1]
    return b"".join(line.rstrip(b"\r\n") + chosen for line in lines)


# ruamel.yaml is the library that check-yaml reads with. One process reads all texts.
READS_YAML = """import json, sys, ruamel.yaml
def is_taken(text):
    try:
        ruamel.yaml.YAML(typ="safe").load(text.encode("latin-1").decode())
    except (ValueError, ruamel.yaml.YAMLError):
        return False
    return True
print(json.dumps({text: is_taken(text) for text in json.load(sys.stdin)}))
"""


@functools.cache
def python_with(module):
    """The Python that has a module: the one that runs this, or Debian's."""
    for python in (sys.executable, "/usr/bin/python3"):
        if os.path.exists(python) and subprocess.run([python, "-c", f"import {module}"], capture_output=True).returncode == 0:
            return python
    return None


@functools.cache
def taken_yaml():
    texts = json.dumps([held.decode("latin-1") for held in YAML.values()])
    return json.loads(subprocess.run([python_with("ruamel.yaml"), "-c", READS_YAML], input=texts.encode(), stdout=subprocess.PIPE, check=True).stdout)


def check_yaml(held):
    return held if taken_yaml()[held.decode("latin-1")] else None


def distinct(pairs):
    keys = [key for key, _ in pairs]
    if len(set(keys)) != len(keys):
        raise ValueError("Duplicate key")
    return dict(pairs)


def taken_by(reader, fault):
    """A check that fails if a reader raises the fault. Another fault fails it too, by the hook's own end."""
    def check(held):
        try:
            reader(held)
        except fault:
            return None
        return held
    return check


check_json = taken_by(lambda held: json.load(io.BytesIO(held), object_pairs_hook=distinct), ValueError)
check_toml = taken_by(lambda held: tomllib.load(io.BytesIO(held)), ValueError)
check_xml = taken_by(lambda held: xml.sax.parse(io.BytesIO(held), xml.sax.handler.ContentHandler()), (xml.sax.SAXException, LookupError, ValueError))


class Debugging(ast.NodeVisitor):
    """Whether a module is imported that debugs, or `breakpoint` is called."""

    found = False

    def visit_Import(self, node):
        self.found |= any(name.name in DEBUGGERS for name in node.names)

    def visit_ImportFrom(self, node):
        self.found |= node.module in DEBUGGERS

    def visit_Call(self, node):
        self.found |= isinstance(node.func, ast.Name) and node.func.id == "breakpoint"
        self.generic_visit(node)


def debug_statements(held):
    visitor = Debugging()
    try:
        visitor.visit(ast.parse(held))
    except (SyntaxError, ValueError):
        return None
    return None if visitor.found else held


def detect_private_key(held):
    return None if any(key.encode() in held for key in KEYS) else held


def check_merge_conflict(held, is_in_merge=False):
    return None if is_in_merge and CONFLICT.search(held) else held


def check_executables_have_shebangs(held):
    return held if held[:2] == b"#!" else None


def check_shebang_scripts_are_executable(held):
    return None if held[:2] == b"#!" else held


def check_added_large_files(held, is_added=True):
    return None if is_added and -(-len(held) // 1024) > MOST_KILOBYTES else held


def folders_of(paths):
    parts = [path.split("/") for path in paths]
    return {"/".join(part[:count]) for part in parts for count in range(1, len(part))}


def case_conflict(paths, relevant):
    """Whether check-case-conflict fails in a repository with these paths, given those that are relevant."""
    relevant = set(relevant) | folders_of(relevant)
    others = (set(paths) | folders_of(paths)) - relevant
    lower = [path.lower() for path in relevant]
    return len(set(lower)) < len(lower) or bool({path.lower() for path in others} & set(lower))


ORIGINALS = {
    "trailing-whitespace": trailing_whitespace, "trailing-whitespace-markdown": trailing_whitespace_markdown,
    "end-of-file-fixer": end_of_file_fixer, "mixed-line-ending": mixed_line_ending, "check-yaml": check_yaml, "check-json": check_json, "check-toml": check_toml,
    "check-xml": check_xml, "debug-statements": debug_statements, "check-added-large-files": check_added_large_files, "check-merge-conflict": check_merge_conflict,
    "check-executables-have-shebangs": check_executables_have_shebangs, "check-shebang-scripts-are-executable": check_shebang_scripts_are_executable,
    "detect-private-key": detect_private_key,
}
