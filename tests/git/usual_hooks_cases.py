"""The trees and the hard inputs on which tests/git/usual_hooks.py plays the hooks of docs/FROM_PRE_COMMIT.md."""
import dataclasses

from real_tools_case import Script

KEY = "-----BEGIN {} KEY-----\n"
CONFLICT = "<<<<<<< HEAD\na\n=======\nb\n>>>>>>> other\n"
LARGE = "a" * 1023 + "\n"


class Executable(bytes):
    """The bytes of a file that is executable."""


@dataclasses.dataclass(frozen=True)
class Case:
    """The files at which a hook passes, those at which it fails, and what it makes of these if it fixes them."""

    good: dict
    bad: dict
    mended: dict = dataclasses.field(default_factory=dict)


def mends(path, bad, good):
    return Case({path: good}, {path: bad}, {path: good})


# Paths are those within the hook's own folder. Each Python file has a name of its own, since mypy is given all of them.
CASES = {
    "trailing-whitespace": mends("a name.txt", "a \nb\t\n", "a\nb\n"),
    "trailing-whitespace-2": mends("a.txt", "a  \n", "a\n"),
    "trailing-whitespace-markdown": Case({"a.md": "a\n"}, {"a.md": "a   \n  \nb \n"}, {"a.md": "a  \n\nb\n"}),
    "end-of-file-fixer": Case({"a.txt": "a\n"}, {"a.txt": "a", "b.txt": "b\n\n\n"}, {"a.txt": "a\n", "b.txt": "b\n"}),
    "mixed-line-ending": mends("a.txt", "a\r\nb\nc\n", "a\nb\nc\n"),
    "check-yaml": Case({"a.yaml": "a: 1\n"}, {"a.yaml": "a: [\n"}),
    "check-json": Case({"a.json": "[]\n"}, {"a.json": "{\n"}),
    "check-toml": Case({"a.toml": "a = 1\n"}, {"a.toml": "a =\n"}),
    "check-xml": Case({"a.xml": "<a />\n"}, {"a.xml": "<a>\n"}),
    "debug-statements": Case({"debugged.py": "print(1)\n"}, {"debugged.py": "import pdb\n"}),
    "check-added-large-files": Case({"a.txt": "a\n"}, {"a.txt": LARGE * 501}),
    "check-case-conflict": Case({"a.txt": "a\n"}, {"A.txt": "a\n"}),
    "check-merge-conflict": Case({"a.txt": "a\n"}, {"a.txt": CONFLICT}),
    "check-executables-have-shebangs": Case({"a.sh": Script("#!/bin/sh\nexit 0\n")}, {"a.sh": Script("exit 0\n")}),
    "check-shebang-scripts-are-executable": Case({"a.txt": "a\n"}, {"a.txt": "#!/bin/sh\nexit 0\n"}),
    "detect-private-key": Case({"a.txt": "a\n"}, {"a.txt": KEY.format("RSA PRIVATE")}),
    "pyupgrade": mends("older.py", "class A(object):\n    pass\n", "class A:\n    pass\n"),
    "black": mends("layout.py", "print('a')\n", 'print("a")\n'),
    "isort": mends("order.py", "import sys\nimport os\n\nprint(os, sys)\n", "import os\nimport sys\n\nprint(os, sys)\n"),
    "ruff": Case({"linted.py": "print(1)\n"}, {"linted.py": "import os\n"}),
    "ruff-format": mends("format.py", "print('a')\n", 'print("a")\n'),
    "flake8": Case({"style.py": "print(1)\n"}, {"style.py": "import os\n"}),
    "mypy": Case({"kinds.py": "number: int = 1\n"}, {"kinds.py": 'number: int = "a"\n'}),
    "prettier": Case({"a.json": "[]\n"}, {"a.json": '{"a":1}\n'}, {"a.json": '{ "a": 1 }\n'}),
    "eslint": Case({"a.js": "console.log(1);\n"}, {"a.js": "var = 1;\n"}),
    "shellcheck": Case({"a.sh": Script("#!/bin/sh\necho 1\n")}, {"a.sh": Script("#!/bin/sh\necho $1\n")}),
    "clang-format": mends("a.c", "int  a ;\n", "int a;\n"),
    "codespell": Case({"a.txt": "the end\n"}, {"a.txt": "to recieve\n"}),
}
SETTINGS = {".eslintrc.json": "{}\n"}

# Bytes by a name that DIFFERENCES can say.
TEXTS = {
    "empty": b"",
    "no line feed": b"a",
    "one line": b"a\n",
    "CR LF": b"a\r\nb \t\r\n",
    "CR alone": b"a\rb \r",
    "CR, then no line feed": b"a\nb \r",
    "LF CR": b"a\n\r\n\r",
    "trailing tabs": b"a\t\t\nb \t \n\t\n",
    "other blanks": b"a \v\f\n\v\n\xc2\xa0\n",
    "two blanks": b"a  \nb   \n \n  \n   \nc\t  \nd  \t\n",
    "two blanks, CR LF": b"a  \r\n   \r\nb    \r\n",
    "two blanks, no line feed": b"a\nb   ",
    "two CR": b"a  \r\r\n",
    "line feeds alone": b"\n\n\n",
    "CR LF alone": b"\r\n\r\n",
    "blanks alone": b"  ",
    "many at the end": b"a\n\n\n",
    "many CR LF at the end": b"a\r\n\r\n",
    "many CR at the end": b"a\r\r",
    "CR CR LF at the end": b"a\r\r\n",
    "mixed": b"a\r\nb\nc\rd\n",
    "mixed evenly": b"a\r\nb\nc",
    "mostly CR LF": b"a\r\nb\r\nc\n",
    "mostly CR": b"a\rb\rc\n",
    "binary": b"\0\1\2  \n",
    "very long line": b"a b" * 100_000 + b"  \n",
    "not UTF-8": b"\xff\xfe \xe9 \xe9  \n\x80 \n\xe9",
    "a mark of byte order": b"\xef\xbb\xbfa \n",
    "conflict": CONFLICT.encode(),
    "conflict, CR LF": CONFLICT.replace("\n", "\r\n").encode(),
    "a title": b"Install\n=======\n",
    "arrows": b" <<<<<<< a\n>>>>>>>\n<<<<<<<<\n",
    "conflict at the end": b"a\n>>>>>>> other",
    "script": b"#!/bin/sh\n",
    "script later": b"\n#!/bin/sh\n",
    "half a script": b"#",
    "CR script": b"#!/bin/sh\r\n",
}
KINDS = ("RSA PRIVATE", "DSA PRIVATE", "EC PRIVATE", "OPENSSH PRIVATE", "PRIVATE", "SSH2 ENCRYPTED PRIVATE", "ENCRYPTED PRIVATE")
NO_KINDS = ("PUBLIC", "RSA PUBLIC", "PGP PRIVATE", "OTHER PRIVATE", "rsa private")
KEYS = {f"{kind} key": KEY.format(kind).encode() for kind in KINDS + NO_KINDS}
KEYS |= {
    "PGP block": b"BEGIN PGP PRIVATE KEY BLOCK",
    "OpenVPN": b"\xff BEGIN OpenVPN Static key V1\n",
    "PuTTY": b"PuTTY-User-Key-File-2: a\n",
    "PuTTY 3": b"PuTTY-User-Key-File-3: a\n",
    "key in a long line": b"a" * 100_000 + b"BEGIN PRIVATE KEY",
    "key over lines": b"BEGIN RSA\nPRIVATE KEY\n",
}
JSON = {
    "empty": b"",
    "table": b'{"a": 1, "b": {"a": 2}}',
    "doubled key": b'{"a": 1, "a": 2}',
    "doubled within": b'[{"b": {"a": 1, "a": 2}}]',
    "comment": b"[] // a",
    "single": b"['a']",
    "NaN": b"[NaN, Infinity]",
    "mark": b"\xef\xbb\xbf[]",
    "UTF-16": "[]".encode("utf-16"),
    "not UTF-8": b'["\xff"]',
    "surrogate": b'["\\ud800"]',
    "CR LF": b"{\r\n}\r\n",
    "control": b'["\t"]',
    "escaped key": b'{"a": 1, "\\u0061": 2}',
    "long": b"[" + b"1," * 50_000 + b"1]",
}
TOML = {
    "empty": b"",
    "table": b"[a]\nb = 1\n",
    "doubled key": b"a = 1\na = 2\n",
    "doubled table": b"[a]\n[a]\n",
    "no line feed": b"a = 1",
    "CR LF": b"a = 1\r\n",
    "CR alone": b"a = 1\rb = 2\r",
    "not UTF-8": b"a = '\xff'\n",
    "mark": b"\xef\xbb\xbfa = 1\n",
    "date": b"a = 2026-02-30\n",
    "mixed list": b"a = [1, 'b']\n",
    "tab": b"\ta = 1\n",
    "dotted": b"a.b = 1\na.c = 2\n",
    "lines": b"a = {\n}\n",
}
XML = {
    "empty": b"",
    "element": b"<a/>",
    "open": b"<a><b></a>",
    "entity": b"<a>&b;</a>",
    "declared": b'<!DOCTYPE a [<!ENTITY b "c">]><a>&b;</a>',
    "outer": b'<!DOCTYPE a SYSTEM "nothing.dtd"><a/>',
    "outer entity": b'<!DOCTYPE a SYSTEM "nothing.dtd"><a>&b;</a>',
    "Latin": b'<?xml version="1.0" encoding="ISO-8859-1"?><a>\xe9</a>',
    "not UTF-8": b"<a>\xe9</a>",
    "encoding": b'<?xml version="1.0" encoding="nothing"?><a/>',
    "mark": b"\xef\xbb\xbf<a/>",
    "UTF-16": "<a/>".encode("utf-16"),
    "doubled": b'<a b="1" b="2"/>',
    "blank first": b' <?xml version="1.0"?><a/>',
    "prefix": b"<a:b/>",
    "NUL": b"<a>\0</a>",
}
PYTHON = {
    "empty": b"",
    "module": b"import os\n",
    "pdb": b"import os, pdb\n",
    "from": b"from ipdb import set_trace\n",
    "part": b"import pdb.part\n",
    "of": b"from . import pdb\n",
    "of nothing": b"from .pdb import a\n",
    "like": b"import pdbx\nfrom a.pdb import b\n",
    "call": b"def f():\n    return [breakpoint()]\n",
    "name": b"breakpoint\n",
    "method": b"a.breakpoint()\n",
    "text": b'"import pdb; breakpoint()"\n# import pdb\n',
    "within": b"if 1:\n  try:\n    import q\n  finally: pass\n",
    "broken": b"def (\n",
    "NUL": b"a = 1\0\n",
    "Latin": b"# coding: latin-1\na = '\xe9'\n",
    "not UTF-8": b"a = '\xe9'\n",
    "CR LF": b"import wdb\r\n",
    "tabs": b"if 1:\n\ta = 1\n        b = 2\n",
    "argument": b"a(b=breakpoint())\n",
}
YAML = {
    "empty": b"",
    "comment": b"# a\n",
    "table": b"a: 1\nb: [1, {c: d}]\n",
    "doubled key": b"a: 1\na: 2\n",
    "two documents": b"a: 1\n---\nb: 2\n",
    "one of one": b"---\na: 1\n...\n",
    "tag": b"a: !other b\n",
    "known tags": b"a: !!str 1\nb: !!set {c, d}\nc: !!binary YQ==\n",
    "anchor": b"a: &a {b: 1}\nc: *a\n",
    "no anchor": b"a: *b\n",
    "merged": b"a: &a {b: 1}\nc: {<<: *a, b: 2}\n",
    "merged within": b"a: &a {x: 1}\nb: {c: &c {<<: *a, x: 2}}\nd: {<<: *c}\n",
    "merged twice": b"a: &a {b: 1}\nc:\n  <<: *a\n  <<: *a\n",
    "tab": b"a:\n\tb: 1\n",
    "colon": b"a: b: c\n",
    "list as a key": b"? [a]\n: b\n",
    "not UTF-8": b"a: \xff\n",
    "UTF-16": "a: 1\n".encode("utf-16"),
    "mark": b"\xef\xbb\xbfa: 1\n",
    "control": b"a: \1\n",
    "CR LF": b"a: 1\r\nb: 2\r\n",
    "no line feed": b"a: 1",
    "numbers as keys": b"1: a\n'1': b\n",
    "template": b"a: {{ b }}\n",
    "emoji": "a: \U0001f600\n".encode(),
    "number": b"1: a\n0x1: b\n",
    "folded": b"a: >\n  b\n\n c\n",
    "equals": b"a: =\n",
    "date": b"a: 2026-02-30\n",
}
CONFLICTS = {what: TEXTS[what] for what in ("empty", "one line", "conflict", "conflict, CR LF", "a title", "arrows", "conflict at the end", "not UTF-8", "binary")}
SCRIPTS = {what: TEXTS[what] for what in ("empty", "one line", "script", "script later", "half a script", "CR script", "a mark of byte order", "not UTF-8", "binary")}
SIZES = {f"{size} bytes": b"a" * size for size in (0, 1, 512_000, 512_001, 513_024, 513_025)} | {"binary": b"\0" * 512_001}

# The name of the file of each input, which has a blank, and the inputs.
INPUTS = {
    "trailing-whitespace": ("a name", TEXTS),
    "trailing-whitespace-markdown": ("a name.md", TEXTS),
    "end-of-file-fixer": ("a name", TEXTS),
    "mixed-line-ending": ("a name", TEXTS),
    "check-yaml": ("a name.yaml", YAML),
    "check-json": ("a name.json", JSON),
    "check-toml": ("a name.toml", TOML),
    "check-xml": ("a name.xml", XML),
    "debug-statements": ("a name.py", PYTHON),
    "check-added-large-files": ("a name.bin", SIZES),
    "check-merge-conflict": ("a name", CONFLICTS),
    "check-executables-have-shebangs": ("a name", {what: Executable(held) for what, held in SCRIPTS.items()}),
    "check-shebang-scripts-are-executable": ("a name", SCRIPTS),
    "detect-private-key": ("a name.txt", KEYS | {"binary": TEXTS["binary"], "empty": b""}),
}


@dataclasses.dataclass(frozen=True)
class Input:
    """A file that a hook is given."""

    what: str
    path: str
    held: bytes


def inputs_of(hook):
    """The inputs of a hook, each by a path of its own."""
    name, texts = INPUTS[hook]
    return [Input(what, f"{number:02} {name}", held) for number, (what, held) in enumerate(texts.items())]


# Paths of a repository, all of which are new.
TREES = {
    "no conflict": ("a", "b/a", "B c/a"),
    "files": ("a name", "A Name"),
    "folders": ("d/x", "D/y"),
    "a file and a folder": ("d/x/y", "d/X"),
    "within": ("d/x", "e/X"),
    "beyond ASCII": ("\xe9", "\xc9"),
    "beyond ASCII, the same": ("\xe9a", "\xe9A"),
    "blanks": (" a", "a", "a "),
}
