"""What no contract of hook_config says: which refusal a text has and on which line, what each is shown as, and that the words of a
configuration are those of pre-commit."""

PROGRAM = "run_trial"

# A configuration of one hook.
ONE_HOOK = """\
repos:
- repo: local
  hooks:
  - id: names
    name: Check names
    language: fail
    entry: no such names
"""

# What comes before a hook's table.
START = """\
repos:
- repo: local
  hooks:
"""

# A hook with the keys that it must have, and no further ones.
PLAIN_HOOK = """\
  - id: a
    name: A
    language: fail
    entry: e
"""


def in_a_hook(keys):
    """A configuration whose only hook has more keys than it must have."""
    return f"repos: [{{repo: local, hooks: [{{id: a, name: A, language: fail, entry: e, {keys}}}]}}]\n"


def in_hooks(hooks):
    """A configuration of one repository with these hooks."""
    return f"repos: [{{repo: local, hooks: [{hooks}]}}]\n"


def in_repositories(repositories):
    return f"repos: [{repositories}]\n"


def with_language(language):
    return f"repos: [{{repo: local, hooks: [{{id: a, name: A, language: {language}, entry: e}}]}}]\n"


def with_pygrep(keys):
    """A configuration whose only hook is of the language `pygrep`, with an entry among these keys."""
    return f"repos: [{{repo: local, hooks: [{{id: a, name: A, language: pygrep, {keys}}}]}}]\n"


def with_command(language, keys):
    """A configuration whose only hook is of this language, with an entry among these keys."""
    return f"repos: [{{repo: local, hooks: [{{id: a, name: A, language: {language}, {keys}}}]}}]\n"


# The fields of the hook of `in_a_hook` without further keys, except its stages, in the order of the type.
FIELDS_OF_A_HOOK = {
    "id": "a",
    "name": "A",
    "alias": "",
    "language": "Fail",
    "entry and args": "e",
    "files": "",
    "exclude": "^$",
    "types": "+file",
    "types_or": "",
    "exclude_types": "",
    "always_run": "false",
    "verbose": "false",
    "pass_filenames": "true",
    "fail_fast": "false",
    "x_reads": "^$",
    "x_per_file": "false",
    "x_at_most": "100000",
    "log_file": "",
    "additional_dependencies": "",
}


# What a number of names is written as, with the number, and what none is: no number, one out of range, in another base or quoted.
NAME_COUNTS = [("1", "1"), ("20", "20"), ("+7", "7"), ("007", "7"), ("99999", "99999"), ("100000", "100000"), ("000100000", "100000")]
NO_NAME_COUNTS = [
    "0", "+0", "000", "100001", "1000000", "18446744073709551615", "18446744073709551616", "18446744073709551617", "9" * 40, "-1", "-0", "++1",
    "+-1", "1+", "+", "1.0", "1.5", "1e3", "0x10", "0o17", "1_000", "'1,000'", "1 000", "\uff15", "\u0665", "five", "true", "~", "''", "'5'",
    '"5"', "[5]", "[]", "{5: 5}", "{}",
]


def hook_line(changed):
    """How a hook is shown that has these fields, and otherwise those of a hook without further keys."""
    return "|".join({**FIELDS_OF_A_HOOK, **changed}.values()) + "\n"


def both(cases):
    """Each text is read alone and with its node, which gives the same."""
    return [(call, *case) for case in cases for call in ("read_config", "read_config_with_node")]


# Whole texts.
TEXTS = [
    ("", "2 Shape at 0"),
    ("a", "2 Shape at 0"),
    ("- a\n", "2 Shape at 0"),
    ("repos: &a b\n", "1 Yaml at 1"),
    ("a: 1\na: 2\n", "1 Yaml at 2"),
    ("repos:\n\tb: 1\n", "1 Yaml at 2"),
    ("fail_fast: true\n", "3 MissingKey at 0"),
    ("repos:\n", "2 Shape at 0"),
    ("repos: a\n", "2 Shape at 0"),
    ("repos: {a: 1}\n", "2 Shape at 0"),
    ("repos: []\n", "0 hooks, false"),
    ("default_stages: push\n", "2 Shape at 0"),
    ("default_stages:\n", "2 Shape at 0"),
    ("default_stages:\n- push\n-\n", "2 Shape at 0"),
    ("default_stages: [push, {a: b}]\n", "2 Shape at 0"),
    ("default_stages: [push, pushes]\n", "4 BadStage at 0"),
    ("default_stages: [push]\n", "3 MissingKey at 0"),
    ("fail_fast: [true]\nrepos: []\n", "2 Shape at 0"),
    ("x: 1\nrepos: []\n", "0 hooks, false x"),
    ("x: 1\nrepos:\n", "2 Shape at 0"),
    (f"{ONE_HOOK}default_stages:\n", "2 Shape at 0"),
    (ONE_HOOK, "1 hooks, false"),
]

# Lists of repositories.
REPOSITORIES = [
    ("a", "2 Shape at 0"),
    ("[]", "2 Shape at 0"),
    ("{hooks: [{id: a}]}", "3 MissingKey at 0"),
    ("{repo: local}", "3 MissingKey at 0"),
    ("{repo: local, hooks: a}", "2 Shape at 0"),
    ("{repo: [local], hooks: [{id: a}]}", "2 Shape at 0"),
    ("{repo: local, hooks: []}", "0 hooks, false"),
    ("{repo: meta, hooks: []}", "6 RemoteRepo at 0"),
    ("{repo: Local, hooks: []}", "6 RemoteRepo at 0"),
    ("{repo: meta, hooks: [{id: a, name: A, language: fail, entry: e}]}", "6 RemoteRepo at 0"),
    ("{repo: https://example.com/a, rev: v1, hooks: [{id: a}]}", "6 RemoteRepo at 0"),
]

# Lists of hooks.
HOOKS = [
    ("a", "2 Shape at 1"),
    ("[]", "2 Shape at 1"),
    ("{id: a, name: A, language: fail}", "3 MissingKey at 1"),
    ("{id: a, language: fail, entry: e}", "3 MissingKey at 1"),
    ("{id: a, name: A, entry: e}", "3 MissingKey at 1"),
    ("{name: A, language: fail, entry: e}", "3 MissingKey at 1"),
    ("{id: a, name: A, language: fail, entry: e}, {id: a, name: A, language: fail, entry: e}", "2 hooks, false"),
    ("{id: a, name: A, language: fail, entry: e}, {id: b}", "3 MissingKey at 2"),
]

# Keys of a hook, apart from those that it must have.
KEYS = [
    ("stages: push", "2 Shape at 1"),
    ("stages: [[push]]", "2 Shape at 1"),
    ("stages: [push, Push]", "4 BadStage at 1"),
    ("stages: [never, []]", "4 BadStage at 1"),
    ("stages: [[], never]", "2 Shape at 1"),
    ("args: b", "2 Shape at 1"),
    ("args: [b, []]", "2 Shape at 1"),
    ("log_file: b", "10 Unsupported at 1"),
    ("log_file: [b]", "2 Shape at 1"),
    ("log_file: ''", "1 hooks, false"),
    ("additional_dependencies: [x]", "10 Unsupported at 1"),
    ("additional_dependencies: [x, y]", "10 Unsupported at 1"),
    ("additional_dependencies: [x, [y]]", "2 Shape at 1"),
    ("additional_dependencies: [[y], x]", "2 Shape at 1"),
    ("additional_dependencies: x", "2 Shape at 1"),
    ("additional_dependencies: []", "1 hooks, false"),
    ('verbose: "true"', "2 Shape at 1"),
    ("files: [a]", "2 Shape at 1"),
    ("files: {a: b}", "2 Shape at 1"),
    ("exclude: []", "2 Shape at 1"),
    ("files: '('", "7 BadPattern at 1"),
    ("exclude: '['", "7 BadPattern at 1"),
    ("files: 'a(?=b)'", "7 BadPattern at 1"),
    ("exclude: '(a)\\1'", "7 BadPattern at 1"),
    # A path is a text, so a pattern of bytes that are no UTF-8 is none.
    ("files: '(?-u)\\xff'", "7 BadPattern at 1"),
    ("types: python", "2 Shape at 1"),
    ("types: {a: b}", "2 Shape at 1"),
    ("types: [python, [b]]", "2 Shape at 1"),
    ("types_or: python", "2 Shape at 1"),
    ("types_or: [[b]]", "2 Shape at 1"),
    ("exclude_types: python", "2 Shape at 1"),
    ("exclude_types: [{a: b}]", "2 Shape at 1"),
    ("x_reads: [a]", "2 Shape at 1"),
    ("x_reads: {a: b}", "2 Shape at 1"),
    ("x_reads: '('", "7 BadPattern at 1"),
    ("x_reads: 'a(?=b)'", "7 BadPattern at 1"),
    ("x_reads: '(?-u)\\xff'", "7 BadPattern at 1"),
    ('x_per_file: "true"', "2 Shape at 1"),
    ("x_per_file: 1", "2 Shape at 1"),
    ("x_per_file: [true]", "2 Shape at 1"),
    ("x_per_file: {true: true}", "2 Shape at 1"),
    *((f"x_at_most: {value}", "2 Shape at 1") for value in NO_NAME_COUNTS),
    ("x_reads: a, x_per_file: yes, x_at_most: 2", "1 hooks, false"),
    ("x_read: a, x_per_files: yes, x_at_mosts: 0", "1 hooks, false x_read x_per_files x_at_mosts"),
]

# A hook of any language has these keys, which are read after all others.
KEYS_OF_CHILDREN = [
    ("x_reads: a, x_per_file: true, x_at_most: 2", "1 hooks, false"),
    ("x_reads: '('", "7 BadPattern at 1"),
    ("x_per_file: 1", "2 Shape at 1"),
    ("x_at_most: 0", "2 Shape at 1"),
]

# Keys of a hook of the language `pygrep`.
PYGREP_KEYS = [
    ("entry: e", "1 hooks, false"),
    ("entry: ''", "1 hooks, false"),
    ("entry: '('", "7 BadPattern at 1"),
    ("entry: 'a(?=b)'", "7 BadPattern at 1"),
    ("entry: [e]", "2 Shape at 1"),
    ("args: [-i]", "3 MissingKey at 1"),
    ("entry: e, args: [-i, --multiline, --negate, --ignore-case, -i]", "1 hooks, false"),
    ("entry: e, args: ['-i']", "1 hooks, false"),
    ("entry: e, args: -i", "2 Shape at 1"),
    ("entry: e, args: [--max]", "9 BadArgs at 1"),
    ("entry: e, args: ['']", "9 BadArgs at 1"),
    ("entry: e, args: [-I]", "9 BadArgs at 1"),
    ("entry: e, args: ['-i ']", "9 BadArgs at 1"),
    ("entry: e, args: [-i, --negated]", "9 BadArgs at 1"),
    ("entry: '(', args: [--max]", "9 BadArgs at 1"),
    # Bytes that are no UTF-8 are looked for too.
    ("entry: '(?-u)\\xff'", "1 hooks, false"),
]

# Entries, and arguments, of hooks that start a program.
STARTED = ["system", "script"]
COMMANDS = [
    ("entry: e", "1 hooks, false"),
    ("entry: ' e '", "1 hooks, false"),
    ("entry: ./e", "1 hooks, false"),
    ("entry: bash -c 'a b'", "1 hooks, false"),
    ("entry: e, args: ['', \"'\", '\\']", "1 hooks, false"),
    ("entry: ''", "8 BadEntry at 1"),
    ('entry: " \\t\\r\\n "', "8 BadEntry at 1"),
    # The arguments don't replace the entry.
    ("entry: '', args: [e]", "8 BadEntry at 1"),
    # The first word is empty, with any quotes.
    ("entry: \"''\"", "8 BadEntry at 1"),
    ("entry: \"'' e\"", "8 BadEntry at 1"),
    ("entry: '\"\"'", "8 BadEntry at 1"),
    ("entry: \"''e\"", "1 hooks, false"),
    ("entry: \"e ''\"", "1 hooks, false"),
    # Quotes that are open at the end, and a backslash with nothing after it.
    ("entry: it's", "8 BadEntry at 1"),
    ("entry: 'say \"a'", "8 BadEntry at 1"),
    ("entry: 'e\\'", "8 BadEntry at 1"),
    ("entry: 'e \"\\'", "8 BadEntry at 1"),
    ("entry: 'e\\ '", "1 hooks, false"),
    ("entry: e, args: a", "2 Shape at 1"),
    ("args: [a]", "3 MissingKey at 1"),
]

# Patterns at the top.
TOP_PATTERNS = [
    ("", "|^$"),
    ("files: a\n", "a|^$"),
    ("exclude: b\n", "|b"),
    ("files: a\nexclude: b\n", "a|b"),
    ("exclude: b\nfiles: ''\n", "|b"),
    ('files: "\\\\.py$"\n', "\\.py$|^$"),
    ("files: [a]\n", "2 Shape at 0"),
    ("exclude:\n", "2 Shape at 0"),
    ("files: '('\n", "7 BadPattern at 0"),
    ("exclude: '*'\n", "7 BadPattern at 0"),
]

# A pattern that is too big once it is built.
TOO_BIG = "((a{1,100}){1,100}){1,100}"

# A pattern of 64 KiB is taken, and one of nearly 1 MiB is too big once it is built.
LONG = "x" * 65536

# A text in single quotes that takes a configuration of one hook to its greatest size: the pattern of `files` at the top.
LONGEST = "x" * (1048576 - len(f"files: ''\n{ONE_HOOK}"))

# Texts with two faults, in the order in which they are reported. Each row holds one fault and the next of its kind of place that can be
# distinguished from it.
FIRST_AT_THE_TOP = [
    ("files: '('\nfiles: b\n", "1 Yaml at 2"),
    ("files: '('\ndefault_stages: [never]\n", "4 BadStage at 0"),
    ("exclude: [x]\nfiles: '('\n", "7 BadPattern at 0"),
    ("exclude: '('\nfiles: [x]\n", "2 Shape at 0"),
    ("fail_fast: [x]\nexclude: '('\n", "7 BadPattern at 0"),
    ("fail_fast: [x]\ndefault_stages: [never]\n", "4 BadStage at 0"),
    ("fail_fast: [x]\n", "2 Shape at 0"),
    ("fail_fast: [x]\nrepos: [{}]\n", "2 Shape at 0"),
    ("repos: [{}]\ndefault_stages: [never]\n", "4 BadStage at 0"),
    ("repos: [{}, {repo: meta}]\n", "3 MissingKey at 0"),
    ("repos: [{repo: meta}, {}]\n", "6 RemoteRepo at 0"),
    ("repos: [{repo: []}]\n", "2 Shape at 0"),
    ("repos: [{hooks: a}]\n", "3 MissingKey at 0"),
    ("repos: [{hooks: a, repo: meta}]\n", "6 RemoteRepo at 0"),
    ("repos: [{hooks: [{files: '('}], repo: meta}]\n", "6 RemoteRepo at 0"),
    ("repos: [{repo: local, hooks: [{id: a, name: A, language: fail, entry: e, files: '('}]}]\nfiles: '['\n", "7 BadPattern at 0"),
    ("repos: [{repo: local, hooks: [{}]}, {repo: meta}]\n", "3 MissingKey at 1"),
]

# The same of hooks.
FIRST_IN_HOOKS = [
    ("{files: '('}, {}", "3 MissingKey at 1"),
    ("{id: a, name: A, language: fail, entry: e, files: '('}, {}", "7 BadPattern at 1"),
    ("{log_file: [], files: '('}", "2 Shape at 1"),
    ("{additional_dependencies: x, log_file: b}", "10 Unsupported at 1"),
    ("{log_file: [], additional_dependencies: [x]}", "2 Shape at 1"),
    ("{additional_dependencies: [x]}", "10 Unsupported at 1"),
    ("{id: []}", "2 Shape at 1"),
    ("{name: []}", "3 MissingKey at 1"),
    ("{id: a, alias: []}", "3 MissingKey at 1"),
    ("{language: node}", "3 MissingKey at 1"),
    ("{id: a, name: A, language: node, alias: []}", "2 Shape at 1"),
    ("{id: a, name: A, entry: e, language: node, alias: b}", "5 BadLanguage at 1"),
    ("{id: a, name: A, language: node}", "5 BadLanguage at 1"),
    ("{id: a, name: A, language: script}", "3 MissingKey at 1"),
    ("{id: a, name: A, language: script, entry: [e]}", "2 Shape at 1"),
    ("{id: a, name: A, language: script, entry: '', args: b}", "2 Shape at 1"),
    ("{id: a, name: A, language: system, entry: '', alias: []}", "2 Shape at 1"),
    ("{id: a, name: A, language: system, entry: '', files: '('}", "8 BadEntry at 1"),
    ("{}, {id: a, name: A, language: system, entry: ''}", "3 MissingKey at 1"),
    ("{id: a, name: A, language: system, entry: e}, {id: a, name: A, language: system, entry: ''}", "8 BadEntry at 2"),
    ("{id: a, name: A, language: fail, args: b}", "3 MissingKey at 1"),
    ("{id: a, name: A, language: pygrep, entry: '(', args: b}", "2 Shape at 1"),
    ("{id: a, name: A, language: pygrep, entry: '(', args: [b]}", "9 BadArgs at 1"),
    ("{id: a, name: A, language: pygrep, entry: '(', files: [x]}", "7 BadPattern at 1"),
    ("{id: a, name: A, language: pygrep, entry: e, args: [b], files: '('}", "9 BadArgs at 1"),
    ("{id: a, name: A, language: fail, entry: e, files: '(', args: b}", "2 Shape at 1"),
    ("{id: a, name: A, language: fail, entry: e, exclude: [x], files: '('}", "7 BadPattern at 1"),
    ("{id: a, name: A, language: fail, entry: e, types: x, exclude: '('}", "7 BadPattern at 1"),
    ("{id: a, name: A, language: fail, entry: e, stages: [never], types: x}", "2 Shape at 1"),
    ("{id: a, name: A, language: fail, entry: e, stages: [never], exclude_types: x}", "2 Shape at 1"),
    ("{id: a, name: A, language: fail, entry: e, stages: [never], exclude: '('}", "7 BadPattern at 1"),
    ("{id: a, name: A, language: fail, entry: e, stages: [never], args: b}", "2 Shape at 1"),
    ("{id: a, name: A, language: fail, entry: e, verbose: x, stages: [never]}", "4 BadStage at 1"),
    ("{id: a, name: A, language: fail, entry: e, x_reads: '(', fail_fast: x}", "2 Shape at 1"),
    ("{id: a, name: A, language: fail, entry: e, x_reads: '(', stages: [never]}", "4 BadStage at 1"),
    ("{id: a, name: A, language: fail, entry: e, x_reads: [x], exclude: '('}", "7 BadPattern at 1"),
    ("{id: a, name: A, language: pygrep, entry: e, x_reads: '(', args: [b]}", "9 BadArgs at 1"),
    ("{id: a, name: A, language: system, entry: '', x_reads: '('}", "8 BadEntry at 1"),
    ("{id: a, name: A, language: fail, entry: e, x_per_file: x, stages: [never]}", "4 BadStage at 1"),
    ("{id: a, name: A, language: fail, entry: e, x_per_file: x, x_reads: '('}", "7 BadPattern at 1"),
    ("{id: a, name: A, language: fail, entry: e, x_per_file: x}, {}", "2 Shape at 1"),
    ("{id: a, name: A, language: fail, entry: e, x_at_most: 0, stages: [never]}", "4 BadStage at 1"),
    ("{id: a, name: A, language: fail, entry: e, x_at_most: 0, x_reads: '('}", "7 BadPattern at 1"),
    ("{id: a, name: A, language: fail, entry: e, x_at_most: 0}, {}", "2 Shape at 1"),
]

# A fault has its hook's number over all repositories.
THIRD_HOOK = f"{START}{PLAIN_HOOK}- repo: local\n  hooks:\n{PLAIN_HOOK}{PLAIN_HOOK}    verbose: maybe\n"

# The four languages, quoted or not.
FOUR_LANGUAGES = ["fail", "pygrep", "system", "script", '"system"']

# Languages of pre-commit that no configuration of this profile has, and other words.
OTHER_LANGUAGES = ["node", "python", "docker", "Fail", "fails", "Pygrep", "grep", "''", '"system "']

LANGUAGES = [
    *((with_language(word), "1 hooks, false") for word in FOUR_LANGUAGES),
    *((with_language(word), "5 BadLanguage at 1") for word in OTHER_LANGUAGES),
]

# The configuration of one hook in pieces: each text that ends within a piece, or with it, has the piece's outcome.
PIECES = [
    ("repos:\n- repo: ", "2 Shape at 0"),
    ("loca", "6 RemoteRepo at 0"),
    ("l\n  ", "3 MissingKey at 0"),
    ("hooks", "1 Yaml at 3"),
    (":\n  ", "2 Shape at 0"),
    ("- id: ", "2 Shape at 1"),
    ("names\n    ", "3 MissingKey at 1"),
    ("name", "1 Yaml at 5"),
    (": ", "2 Shape at 1"),
    ("Check names\n    ", "3 MissingKey at 1"),
    ("language", "1 Yaml at 6"),
    (": ", "2 Shape at 1"),
    ("fai", "5 BadLanguage at 1"),
    ("l\n    ", "3 MissingKey at 1"),
    ("entry", "1 Yaml at 7"),
    (": ", "2 Shape at 1"),
    ("no such names", "1 hooks, false"),
]


# Block texts of a key that isn't known, and a pattern over lines, in pieces as well.
BLOCK_TEXTS = ["e: >\n  (?x)^(\n      a/.*|\n      b/.*\n  )$\n", "e: >-\n  a\n  b\n\n  c\n", "e: |\n  a\n", "e: |\n  a"]
PATTERN_PIECES = [
    ("repos: ", "2 Shape at 0"),
    ("[", "1 Yaml at 1"),
    ("]\n", "0 hooks, false"),
    ("exclude", "1 Yaml at 2"),
    (": ", "2 Shape at 0"),
    (">\n  ", "0 hooks, false"),
    ("(?x", "7 BadPattern at 0"),
    (")^", "0 hooks, false"),
    ("(\n      a/.*|\n      b/.*\n  ", "7 BadPattern at 0"),
    (")$\n", "0 hooks, false"),
]


def prefixes(pieces):
    """Each text of one character and more that the pieces begin with."""
    text = ""
    for piece, said in pieces:
        for character in piece:
            text += character
            yield text, said


# Every kind of refusal: its name in the program, its number, its name and its words.
KINDS = [
    ("yaml", "1 Yaml: the text is not YAML that can be read"),
    ("shape", "2 Shape: a value is of the wrong kind"),
    ("missing key", "3 MissingKey: a required key is missing"),
    ("bad stage", "4 BadStage: a stage is not known"),
    ("bad language", "5 BadLanguage: a language is not known"),
    ("remote repository", "6 RemoteRepo: a repository is not `local`"),
    ("bad pattern", "7 BadPattern: a pattern cannot be read"),
    ("bad entry", "8 BadEntry: an entry cannot be read"),
    ("bad arguments", "9 BadArgs: an argument is not known"),
    ("unsupported", "10 Unsupported: a key is not supported"),
    ("too many", "11 TooMany: there are more than 500 hooks"),
    ("out of memory", "12 OutOfMemory: out of memory"),
]

# Keys of a hook, apart from those that it must have, and the hook's fields except its stages, in the order of the type.
FIELDS = [
    ("x: y", {}),
    ("alias: b", {"alias": "b"}),
    ('alias: "true"', {"alias": "true"}),
    ("args: [b, c d]", {"entry and args": "e+b+c d"}),
    ("args: []", {}),
    ("files: b", {"files": "b"}),
    ("files: ''", {}),
    ("exclude: b", {"exclude": "b"}),
    ("exclude: ''", {"exclude": ""}),
    ("files: '^a/', exclude: '\\.py$'", {"files": "^a/", "exclude": "\\.py$"}),
    ("types: [python]", {"types": "+python"}),
    ("types: [text, python, text, '', 'a b']", {"types": "+text+python+text++a b"}),
    ("types: []", {"types": ""}),
    ("types_or: [c, c++]", {"types_or": "+c+c++"}),
    ("types_or: []", {}),
    ("exclude_types: [image]", {"exclude_types": "+image"}),
    ("exclude_types: []", {}),
    ("types: [a], types_or: [b], exclude_types: [c]", {"types": "+a", "types_or": "+b", "exclude_types": "+c"}),
    ("stages: [push]", {}),
    ("language_version: b", {}),
    ("require_serial: {b: c}", {}),
    ("description: [d]", {}),
    ("always_run: true", {"always_run": "true"}),
    ("verbose: true", {"verbose": "true"}),
    ("pass_filenames: false", {"pass_filenames": "false"}),
    ("fail_fast: true", {"fail_fast": "true"}),
    ("x_reads: b", {"x_reads": "b"}),
    ("x_reads: ''", {"x_reads": ""}),
    ("x_reads: '^lint\\.cfg$', files: '^a/', exclude: '^b/'", {"files": "^a/", "exclude": "^b/", "x_reads": "^lint\\.cfg$"}),
    ("x_per_file: true", {"x_per_file": "true"}),
    ("x_per_file: Off", {}),
    *((f"x_at_most: {value}", {"x_at_most": number}) for value, number in NAME_COUNTS),
    ("x_per_file: true, x_at_most: 20", {"x_per_file": "true", "x_at_most": "20"}),
    ("log_file: ''", {}),
    ("additional_dependencies: []", {}),
]

# The node that comes with a configuration.
WITH_NODE = 'repos:\n- repo: local\n  hooks:\n  - {id: a, name: A, language: fail, entry: "e"}\n'
NODE = (
    'Table([("repos", List([Table([("repo", Text { text: "local", quoted: false }), ("hooks", List([Table(['
    '("id", Text { text: "a", quoted: false }), ("name", Text { text: "A", quoted: false }), '
    '("language", Text { text: "fail", quoted: false }), ("entry", Text { text: "e", quoted: true })])]))])]))])'
)

# The keys that a hook must have, with their values.
REQUIRED = [("id", "a"), ("name", "A"), ("language", "fail"), ("entry", "e")]


def with_a_list_at(listed):
    """A configuration whose only hook has a list at one of the keys that it must have."""
    keys = "".join(f"    {key}:\n    - {value}\n" if key == listed else f"    {key}: {value}\n" for key, value in REQUIRED)
    return f"{START}  - x: 1\n{keys}"


# Keys at the top, and of a hook, that are passed over.
IGNORED_TOP_KEYS = ["ci", "default_install_hook_types", "default_language_version", "minimum_pre_commit_version"]
IGNORED_HOOK_KEYS = ["language_version", "minimum_pre_commit_version", "require_serial", "description"]

# Values of every kind, as they are written after a key.
VALUES = [" a", "", "\n      - b", "\n      c: d"]

IGNORED = [
    *((f"{ONE_HOOK}{key}:{value}\n", "1 hooks, false") for key in IGNORED_TOP_KEYS for value in VALUES),
    *((f"{ONE_HOOK}    {key}:{value}\n", "1 hooks, false") for key in IGNORED_HOOK_KEYS for value in VALUES),
]

# Words that say true, false, and neither.
TRUE = ["true", "yes", "on", "TRUE", "YES", "ON", "True", "Yes", "On"]
FALSE = ["false", "no", "off", "FALSE", "NO", "OFF", "False", "No", "Off"]
NEITHER = ["tRUE", "y", "n", "1", "0", "truee", '"true"']

TRUTHS = [
    *((f"fail_fast: {word}\n{ONE_HOOK}", "1 hooks, true") for word in TRUE),
    *((f"fail_fast: {word}\n{ONE_HOOK}", "1 hooks, false") for word in FALSE),
    *((f"fail_fast: {word}\n{ONE_HOOK}", "2 Shape at 0") for word in NEITHER),
]

# Keys that are in no table, in the order of the text.
UNKNOWN_KEYS = [
    (
        "x: 1\nrepos:\n- repo: local\n  hooks:\n  - id: a\n    name: A\n    language: fail\n    entry: e\n    foo: 2\n    description: d\n",
        "1 hooks, false x foo",
    ),
    (
        "x: 1\nrepos:\n- rev: 2\n  repo: local\n  hooks:\n  - foo: 3\n    id: a\n    name: A\n    language: fail\n    entry: e\n    bar: 4\n  last: 5\ny: 6\n",
        "1 hooks, false x rev foo bar last y",
    ),
    (
        "repos:\n- repo: local\n  hooks:\n  - id: a\n    name: A\n    language: fail\n    entry: e\n    foo: 3\n  - id: b\n    name: B\n    language: fail\n    entry: e\n    foo: 3\n",
        "2 hooks, false foo foo",
    ),
    (
        "id: 1\nrepo: 2\nRepos: 3\nrepos:\n- repo: local\n  id: 4\n  fail_fast: 5\n  hooks:\n  - repo: 6\n    id: a\n    name: A\n    language: fail\n    entry: e\n",
        "1 hooks, false id repo Repos id fail_fast repo",
    ),
    # Three keys that a hook alone has.
    ("x_reads: '('\nx_per_file: 1\nrepos:\n- repo: local\n  x_per_file: 2\n  hooks: []\n", "0 hooks, false x_reads x_per_file x_per_file"),
    ("x_at_most: 0\nrepos:\n- repo: local\n  x_at_most: no\n  hooks: []\n", "0 hooks, false x_at_most x_at_most"),
]

# 500 hooks in two repositories.
FIVE_HUNDRED = f"{START}{PLAIN_HOOK * 300}- repo: local\n  hooks:\n{PLAIN_HOOK * 200}"

# 500 hooks, each with patterns and an entry of its own.
WITH_PATTERNS = START + "".join(
    f"  - {{id: a, name: A, language: pygrep, entry: 'e{number}', files: '^f{number}', exclude: 'x{number}$'}}\n" for number in range(500)
)

# What comes after 500 hooks: the number of hooks is looked at before the hook that is one too many.
BEHIND = [
    ("", "500 hooks, false"),
    (PLAIN_HOOK, "11 TooMany at 501"),
    ("  - id: a\n", "11 TooMany at 501"),
    ("  - a\n", "11 TooMany at 501"),
    ("  - files: '('\n", "11 TooMany at 501"),
    ("- repo: local\n  hooks: []\n", "500 hooks, false"),
    ("- repo: local\n  hooks: [a]\n", "11 TooMany at 501"),
    ("- repo: local\n  hooks: a\n", "2 Shape at 0"),
    ("- repo: meta\n  hooks: [a]\n", "6 RemoteRepo at 0"),
]

# The longest text that is held.
MEBIBYTE = "0123456789abcdef" * 65536

# Every stage: its first name, and its own.
STAGES = [
    ("pre-commit", "PreCommit"),
    ("pre-merge-commit", "PreMergeCommit"),
    ("pre-push", "PrePush"),
    ("prepare-commit-msg", "PrepareCommitMsg"),
    ("commit-msg", "CommitMsg"),
    ("post-checkout", "PostCheckout"),
    ("post-commit", "PostCommit"),
    ("post-merge", "PostMerge"),
    ("post-rewrite", "PostRewrite"),
    ("pre-rebase", "PreRebase"),
    ("manual", "Manual"),
]

ALL_STAGES = (
    "pre-commit pre-merge-commit pre-push prepare-commit-msg commit-msg post-checkout post-commit post-merge "
    "post-rewrite pre-rebase manual "
)

# Names that older configurations have, the first names of their stages, and these stages.
OLDER = [("commit", "pre-commit", "PreCommit"), ("merge-commit", "pre-merge-commit", "PreMergeCommit"), ("push", "pre-push", "PrePush")]

# Words that name no stage.
OTHER_WORDS = ["Pre-commit", "pre-commit-", "pre_commit", "commits", "merge", "update", "post-push", "pre commit"]

# Two repositories of three hooks, of which the second has a stage of its own.
THREE_HOOKS = f"{START}{PLAIN_HOOK}{PLAIN_HOOK}    stages:\n    - commit-msg\n- repo: local\n  hooks:\n{PLAIN_HOOK}"
DEFAULTS = "default_stages:\n- push\n- manual\n"

HOOK_STAGES = [
    *((f"{ONE_HOOK}    stages:\n    - {word}\n", f"{word} \n") for word, _ in STAGES),
    *((f"{ONE_HOOK}default_stages:\n- {word}\n", f"{word} \n") for word, _ in STAGES),
    *((f"{ONE_HOOK}    stages:\n    - {word}\n", f"{name} \n") for word, name, _ in OLDER),
    # A list of stages is a set.
    (f"{ONE_HOOK}    stages:\n    - manual\n    - push\n    - commit\n    - pre-push\n", "pre-commit pre-push manual \n"),
    # The default stages hold at any place in the text.
    (f"{DEFAULTS}{THREE_HOOKS}", "pre-push manual \ncommit-msg \npre-push manual \n"),
    (f"{THREE_HOOKS}{DEFAULTS}", "pre-push manual \ncommit-msg \npre-push manual \n"),
    # Without default stages, or with none, a hook has all.
    (ONE_HOOK, f"{ALL_STAGES}\n"),
    (f"{ONE_HOOK}default_stages: []\n", f"{ALL_STAGES}\n"),
    # A hook with an empty list of stages has the default ones.
    (f"{START}  - {{id: a, name: A, language: fail, entry: e, stages: []}}\ndefault_stages: [push]\n", "pre-push \n"),
    # A quoted word names a stage.
    (in_a_hook('stages: ["manual"]'), "manual \n"),
]

OTHER_STAGES = [
    *((f"{ONE_HOOK}    stages:\n    - {word}\n", "4 BadStage at 1") for word in OTHER_WORDS),
    *((f"{ONE_HOOK}default_stages:\n- {word}\n", "4 BadStage at 0") for word in OTHER_WORDS),
]

ROWS = [
    *both(TEXTS),
    *both((in_repositories(repositories), said) for repositories, said in REPOSITORIES),
    *both((in_hooks(hooks), said) for hooks, said in HOOKS),
    *both((in_a_hook(keys), said) for keys, said in KEYS),
    *both(FIRST_AT_THE_TOP),
    *both((in_hooks(hooks), said) for hooks, said in FIRST_IN_HOOKS),
    *both([(THIRD_HOOK, "2 Shape at 3")]),
    *both(LANGUAGES),
    *both((with_command(language, keys), said) for language in STARTED for keys, said in COMMANDS),
    *both((with_command(language, f"entry: e, {keys}"), said) for language in FOUR_LANGUAGES for keys, said in KEYS_OF_CHILDREN),
    *both(prefixes([*PIECES, ("\n", "1 hooks, false")])),
    *both(each for text in BLOCK_TEXTS for each in prefixes([("e", "2 Shape at 0"), (text[1:], "3 MissingKey at 0")])),
    *both(prefixes(PATTERN_PIECES)),
    *(("config_kind", kind, f"{said}\n{said}\n") for kind, said in KINDS),
    *both((with_pygrep(keys), said) for keys, said in PYGREP_KEYS),
    *(("top_patterns", f"{keys}{ONE_HOOK}", said) for keys, said in TOP_PATTERNS),
    *(("top_patterns", f"{ONE_HOOK}{keys}", said) for keys, said in TOP_PATTERNS),
    *both([(f"files: {TOO_BIG}\n{ONE_HOOK}", "7 BadPattern at 0"), (f"{ONE_HOOK}    exclude: {TOO_BIG}\n", "7 BadPattern at 1"), (f"{ONE_HOOK}    x_reads: {TOO_BIG}\n", "7 BadPattern at 1")]),
    *both([(f"{START}  - {{id: a, name: A, language: pygrep, entry: '{TOO_BIG}'}}\n", "7 BadPattern at 1")]),
    ("top_patterns", f"files: '{LONG}'\n{ONE_HOOK}", f"{LONG}|^$"),
    ("top_patterns", f"files: '{LONGEST}'\n{ONE_HOOK}", "7 BadPattern at 0"),
    ("hooks", in_a_hook(f"types: [{LONG}, b]"), hook_line({"types": f"+{LONG}+b"})),
    *both([(f"files: '{LONGEST}x'\n{ONE_HOOK}", "1 Yaml at 1")]),
    ("hooks", ONE_HOOK, hook_line({"id": "names", "name": "Check names", "entry and args": "no such names"})),
    *(("hooks", in_a_hook(keys), hook_line(changed)) for keys, changed in FIELDS),
    ("hooks", with_pygrep("entry: e, args: [-i, --negate]"), hook_line({"language": "Pygrep", "entry and args": "e+-i+--negate"})),
    *(
        ("hooks", with_command(word.lower(), "entry: e, x_reads: b, x_per_file: true, x_at_most: 3"), hook_line({"language": word, "x_reads": "b", "x_per_file": "true", "x_at_most": "3"}))
        for word in ["Fail", "Pygrep", "System", "Script"]
    ),
    *both([(f"{WITH_PATTERNS}{PLAIN_HOOK}", "11 TooMany at 501"), (WITH_PATTERNS, "500 hooks, false")]),
    ("node", WITH_NODE, NODE),
    ("hooks_with_node", WITH_NODE, hook_line({})),
    *both((with_a_list_at(key), "2 Shape at 1") for key, _ in REQUIRED),
    *both(IGNORED),
    *both(TRUTHS),
    *both(UNKNOWN_KEYS),
    *both((f"{FIVE_HUNDRED}{lines}", said) for lines, said in BEHIND),
    ("config_text", MEBIBYTE, f"held {MEBIBYTE}"),
    ("config_text", f"{MEBIBYTE}g", "too long"),
    ("empty_config_text", "held "),
    *(("hook_stages", *case) for case in HOOK_STAGES),
    *both(OTHER_STAGES),
    *(("stage_of_word", word, stage) for word, stage in STAGES),
    *(("stage_of_word", word, stage) for word, _, stage in OLDER),
    *(("stage_of_word", word, "none") for word in OTHER_WORDS),
    ("stage_of_word", "", "none"),
    ("stages", "all", ALL_STAGES),
    ("stages", "none", ""),
    ("stages", "none", "manual", "manual "),
    ("stages", "all", "manual", ALL_STAGES),
]
