"""YAML texts that have no node, and how deep nodes may lie. The sections are of YAML 1.2.2, the calls those of yaml_profile.

`tests/peers/compare_yaml.py` compares the rows of REFUSED with PyYAML.
"""

PROGRAM = "yaml_trial"

MOST_BYTES = 1_048_576

# A row is a text that has no node, and the kind and the line of its fault.
# Bytes, marks of documents and tabs: 5.1, 5.4, 6.1, 6.8, 9.1
REFUSED_LINES = [
    ("a: \u0001\n", "Unsupported", 1),
    ("a: b\rc\n", "Unsupported", 1),
    ("a: b\r", "Unsupported", 1),
    ("a: |\n  b\u0007\n", "Unsupported", 2),
    ("[b,\n \u0002]\n", "Unsupported", 2),
    ("a: 'b\0'\n", "Unsupported", 1),
    ("# \u001b\na: 1\n", "Unsupported", 1),
    ("a: 1\n---\nb: 2\n", "Unsupported", 2),
    ("---\n---\n", "Unsupported", 2),
    ("...\n", "Unsupported", 1),
    ("a: 1\n...\n", "Unsupported", 2),
    ("%YAML 1.2\n---\na: 1\n", "Unsupported", 1),
    ("--- a\n", "Unsupported", 1),
    ("[a,\n---\n]\n", "Unsupported", 2),
    ("a: 1\n%b: 2\n", "Unsupported", 2),
    ("a: |\n  b\n---\n", "Unsupported", 3),
    ("\ta: 1\n", "TabIndent", 1),
    ("a:\n \tb: 1\n", "TabIndent", 2),
    ("-\ta\n", "TabIndent", 1),
    ("- \ta\n", "TabIndent", 1),
    ("- a\n-\t- b\n", "TabIndent", 2),
    ("[a,\n\tb]\n", "TabIndent", 2),
    ("- foo:\t bar\n- - baz\n  -\tbaz\n", "TabIndent", 3),
    ("a: |\n  b\n\tc\n", "TabIndent", 3),
    ("a:\n\tb: 1\n", "TabIndent", 2),
    ("- a\n-\tb\n", "TabIndent", 2),
    ("a: |\n\tb\n", "TabIndent", 2),
    ("a: 1\n\tb: 2\nc: \u0001\n", "TabIndent", 2),
    ("\ta: \u0001\n", "Unsupported", 1),
]

# Lists and tables by their indentation: 8.2
REFUSED_LISTS_AND_TABLES = [
    ("a: 1\n b: 2\n", "Layout", 2),
    ("- a\n  b\n", "Layout", 2),
    ("a:\n  b: 1\n c: 2\n", "Layout", 3),
    ("a: - b\n", "Layout", 1),
    ("a: b: c\n", "Layout", 1),
    ("a: 'b': c\n", "Layout", 1),
    ("- - a\n - b\n", "Layout", 2),
    ("a:\n- b\n c: d\n", "Layout", 3),
    ("a\nb: 1\n", "Layout", 2),
    ("- a\nb\n", "Layout", 2),
    ("a: 1\n- b\n", "Layout", 2),
    ("'a'\nb\n", "Layout", 2),
    ("a: 'b'\n  c\n", "Layout", 2),
    ("a: [b]\n  c\n", "Layout", 2),
    ("a: 1\n  # c\n  b\n", "Layout", 3),
    ("a: -\n", "Layout", 1),
    ("a: - # b\n", "Layout", 1),
    ("a: b\n]\n", "Layout", 2),
    ("- a\n- b\n]\n", "Layout", 3),
    ("a\nb\n", "Layout", 2),
    ("a\n  b\n", "Layout", 2),
    ("a: 1\n# 2\n  b: 2\n", "Layout", 3),
    ("a: 1\nb\n", "Layout", 2),
    ("a: 1\n- 2\n", "Layout", 2),
    ("- a\nb: 1\n", "Layout", 2),
    ("- a\n   b\n", "Layout", 2),
    ("- a: 1\n   b: 2\n", "Layout", 2),
    ("- a: 1\n b: 2\n", "Layout", 2),
    ("  a: 1\nb: 2\n", "Layout", 2),
    ("  - a\n- b\n", "Layout", 2),
    ("a:\n    b: 1\n  c: 2\n", "Layout", 3),
    ("a:\n  - 1\n- 2\n", "Layout", 3),
    ("a:\n- 1\nb\n", "Layout", 3),
    ("a:\n- 1\n 2\n", "Layout", 3),
    ("-\n  a\n b\n", "Layout", 3),
    (": 1\n", "Layout", 1),
    ("a\nb\n\tc: 1\n", "Layout", 2),
]

# Nodes within more than 32 others, and empty places in a flow, which are no nodes.
TOO_DEEP = [
    (
        "# a\n- - - - - - - - - - - - - - - - - - - - - - - - - - - - - - - - - b\n",
        "TooDeep",
        2,
    ),
    (
        "\n  # a\n- - - - - - - - - - - - - - - - - - - - - - - - - - - - - - - - -\n",
        "TooDeep",
        3,
    ),
    (
        "# a\n- - - - - - - - - - - - - - - - - - - - - - - - - - - - - - - - b:\n",
        "TooDeep",
        2,
    ),
    (
        "- - - - - - - - - - - - - - - - - - - - - - - - - - - - - - - b:\n                                                              # c\n                                                              - d\n",
        "TooDeep",
        3,
    ),
    (
        "# a\n[[[[[[[[[[[[[[[[[[[[[[[[[[[[[[[[[b]]]]]]]]]]]]]]]]]]]]]]]]]]]]]]]]]\n",
        "TooDeep",
        2,
    ),
    (
        "[ # a\n[[[[[[[[[[[[[[[[[[[[[[[[[[[[[[[[{b: c}]]]]]]]]]]]]]]]]]]]]]]]]]]]]]]]]]\n",
        "TooDeep",
        2,
    ),
    (
        "[[[[[[[[[[[[[[[[[[[[[[[[[[[[[[[[[,]]]]]]]]]]]]]]]]]]]]]]]]]]]]]]]]]\n",
        "Layout",
        1,
    ),
    (
        "[[[[[[[[[[[[[[[[[[[[[[[[[[[[[[[[{b: }]]]]]]]]]]]]]]]]]]]]]]]]]]]]]]]]\n",
        "Layout",
        1,
    ),
]

# Keys that are in their table already: 3.2.1.3
DOUBLED_KEYS = [
    ("a: 1\na: 2\n", "DoubledKey", 2),
    ("a: 1\n'a': 2\n", "DoubledKey", 2),
    ("\"a\": 1\nb: 2\n\"\\x61\": 3\n", "DoubledKey", 3),
    ("{a: 1, a: 2}\n", "DoubledKey", 1),
    ("{a: 1,\n 'a': 2}\n", "DoubledKey", 2),
    ("a:\n  b: 1\n  b: 2\n", "DoubledKey", 3),
    ("- a: 1\n  a: 2\n", "DoubledKey", 2),
    ("a: 1\nb:\n- c\na:\n- d\n", "DoubledKey", 4),
    ("{'': 1, \"\": 2}\n", "DoubledKey", 1),
    (
        "a: 1\nb:\n  a: 2\n  c: 3\n  a : 4\nd",
        "DoubledKey",
        5,
    ),
]

# Plain texts: 7.3.3
REFUSED_PLAIN_TEXTS = [
    ("&a b\n", "Unsupported", 1),
    ("a: *b\n", "Unsupported", 1),
    ("a: !b c\n", "Unsupported", 1),
    ("!!str a: b\n", "Unsupported", 1),
    ("a: @b\n", "Unsupported", 1),
    ("a: `b`\n", "Unsupported", 1),
    ("a: %b\n", "Unsupported", 1),
    ("? a\n: b\n", "Unsupported", 1),
    ("?\n", "Layout", 1),
    ("a: ?\n", "Layout", 1),
    ("a: ,b\n", "Layout", 1),
    ("a: ]\n", "Layout", 1),
    ("a: }b\n", "Layout", 1),
    (": a\n", "Layout", 1),
    ("- : a\n", "Layout", 1),
    ("- ? a\n", "Unsupported", 1),
    ("a:\n  ? b\n", "Unsupported", 2),
    ("a: &x 1\n", "Unsupported", 1),
    ("- a\n*b\n", "Unsupported", 2),
    ("? a\n", "Unsupported", 1),
    ("a\n--- b\n", "Unsupported", 2),
    ("- `a\n", "Unsupported", 1),
    ("a: ? b\n", "Unsupported", 1),
    ("%a\n", "Unsupported", 1),
    ("a\n...\n", "Unsupported", 2),
    ("a: 1\r\nb: 2\r", "Unsupported", 2),
]

# Quoted texts: 5.7, 7.3.1, 7.3.2
REFUSED_QUOTED_TEXTS = [
    ("a: 'b\n", "Quote", 1),
    ("a: \"b\n  c\"\n", "Quote", 1),
    ("a: \"b\\\n", "Quote", 1),
    ("a: \"\\ud800\"\n", "Quote", 1),
    ("a: \"\\uDFFF\"\n", "Quote", 1),
    ("a: \"\\q\"\n", "Unsupported", 1),
    ("a: \"\\x4\"\n", "Unsupported", 1),
    ("a: \"\\u12\"\n", "Unsupported", 1),
    ("a: \"\\U00000041\"\n", "Unsupported", 1),
    ("a: \"\\a\"\n", "Unsupported", 1),
    ("a: 'b'c\n", "Layout", 1),
    ("a: \"b\"#c\n", "Layout", 1),
    ("a: 'b' 'c'\n", "Layout", 1),
    ("'a'b: c\n", "Layout", 1),
    ("'a\n", "Quote", 1),
    ("'a: b\n", "Quote", 1),
    ("\"a\\\": b\n", "Quote", 1),
    ("'a':b\n", "Layout", 1),
    ("b: 1\n'a\n", "Quote", 2),
    ("- 'a\n  b'\n", "Quote", 1),
    ("a: \"b", "Quote", 1),
    ("a: 1\n'b: 2\n", "Quote", 2),
    ("- a\n- 'b\n  c'\n", "Quote", 2),
    ("- \"\\ud800\"\n", "Quote", 1),
    ("- \"\\a\"\n", "Unsupported", 1),
    ("- 'a' b\n", "Layout", 1),
    ("a: 'b'#c\n", "Layout", 1),
    ("a: 1\n'b'\n", "Layout", 2),
]

# Flows on one line: 7.4
REFUSED_FLOWS = [
    ("[a\n", "Layout", 1),
    ("[a b: c]\n", "Unsupported", 1),
    ("[a: b]\n", "Unsupported", 1),
    ("['a':b]\n", "Unsupported", 1),
    ("[{a}]\n", "Unsupported", 1),
    ("{a}\n", "Unsupported", 1),
    ("{a, b: c}\n", "Unsupported", 1),
    ("{'a'}\n", "Unsupported", 1),
    ("{a]\n", "Unsupported", 1),
    ("{a [b]}\n", "Unsupported", 1),
    ("{a\"]\n", "Unsupported", 1),
    ("{a: }\n", "Layout", 1),
    ("{a:, b: c}\n", "Layout", 1),
    ("{: a}\n", "Layout", 1),
    ("[,]\n", "Layout", 1),
    ("[a,,b]\n", "Layout", 1),
    ("[a,b,,]\n", "Layout", 1),
    ("{,}\n", "Layout", 1),
    ("[a}\n", "Layout", 1),
    ("{a: b]\n", "Layout", 1),
    ("[a] b\n", "Layout", 1),
    ("[a]]\n", "Layout", 1),
    ("[a]#b\n", "Layout", 1),
    ("{[a]: b}\n", "Layout", 1),
    ("[a]: b\n", "Layout", 1),
    ("{a: b}: c\n", "Layout", 1),
    ("[&a b]\n", "Unsupported", 1),
    ("[a, *b]\n", "Unsupported", 1),
    ("[? a]\n", "Unsupported", 1),
    ("[- a]\n", "Layout", 1),
    ("[a, |]\n", "Layout", 1),
    ("[:]\n", "Layout", 1),
    ("[:,a]\n", "Layout", 1),
    ("a: {b: c}}\n", "Layout", 1),
    ("[a, b\n", "Layout", 1),
    ("[\"a\" b]\n", "Layout", 1),
    ("[[a] [b]]\n", "Layout", 1),
    ("[!a]\n", "Unsupported", 1),
    ("{a: %b}\n", "Unsupported", 1),
    ("a: [b\n", "Layout", 1),
    ("[a] b", "Layout", 1),
    ("a: [b] c", "Layout", 1),
    ("[a,,b]", "Layout", 1),
]

# Flows over lines, and next to other nodes: 7.4
REFUSED_FLOWS_OVER_LINES = [
    ("a: [b,\n  c\n", "Layout", 2),
    ("a: [b,\n  c\n# d\n\n", "Layout", 2),
    ("a: [\nb\n]\n", "Layout", 2),
    ("- [\n  a\n]\n", "Layout", 2),
    ("- [\n   a\n ]\n", "Layout", 3),
    ("a:\n  [b,\n c]\n", "Layout", 3),
    ("{a: b,\n c: }\n", "Layout", 2),
    ("[a,#b\n c]\n", "Layout", 1),
    ("[a\n b]\n", "Layout", 2),
    ("['a\n b']\n", "Quote", 1),
    ("[a,\n \"b]\n", "Quote", 2),
    ("a: [\"b\n  c\"]\n", "Quote", 1),
    ("a: [b,\n  \"c\n  d\", e]\n", "Quote", 2),
    ("a: {\"b\n", "Quote", 1),
    ("{a: |\n  b}\n", "Layout", 1),
    ("[a]\n[b]\n", "Layout", 2),
    ("a: [b]\n]\n", "Layout", 2),
    ("a: [b,\n- c]\n", "Layout", 2),
    ("a:\n- [b,\n  c]\n", "Layout", 3),
    ("[a,\n  b\n  c]\n", "Layout", 3),
    ("{a: b\n c: d}\n", "Layout", 2),
    ("a: [b,\nc]\n", "Layout", 2),
    ("a: [b,\n- c\n]\n", "Layout", 2),
    ("a: [\n  b\nc: d\n", "Layout", 3),
    ("a:\n  [b,\n  c]\n", "Layout", 3),
    ("a:\n  [b\n]\n", "Layout", 3),
    ("- [a,\n  b]\n", "Layout", 2),
    ("- [a\n ]\n", "Layout", 2),
    ("a: [b: c,\nd]\n", "Unsupported", 1),
    ("a: [b,\n\n# c\n", "Layout", 1),
    ("- a\n- [b,\n    c # ]\n\n", "Layout", 3),
    ("a: [b,\n  c\n\td]\n", "TabIndent", 3),
    ("[a,\n  b]\n  c\n", "Layout", 3),
    ("a: 1\n]\n", "Layout", 2),
    ("a:\n]\n", "Layout", 2),
    ("a:\n- b\n}\n", "Layout", 3),
    ("b: 1\na: {b}", "Unsupported", 2),
    ("a: {b: 1,\n b: 2}", "DoubledKey", 2),
    ("[a,\n&b]", "Unsupported", 2),
    ("[a,\n'b\n']", "Quote", 2),
    ("[a,\n%b\n]\n", "Unsupported", 2),
    ("[\n...\n", "Unsupported", 2),
    ("[a b\nc]", "Layout", 2),
    ("[\na}", "Layout", 2),
    ("[a\n,b: |\n]\n", "Unsupported", 2),
    ("[a]\nb: |\n", "Layout", 2),
]

# Block texts: 8.1
REFUSED_BLOCK_TEXTS = [
    ("a: |2\n  b\n", "Unsupported", 1),
    ("a: |-1\n b\n", "Unsupported", 1),
    ("a: >1-\n b\n", "Unsupported", 1),
    ("a: |x\n", "Layout", 1),
    ("a: | x\n", "Layout", 1),
    ("a: |-+\n", "Layout", 1),
    ("a: |#c\n", "Layout", 1),
    ("|\n a\n", "Unsupported", 1),
    (">-\n a\n", "Unsupported", 1),
    ("a:\n  |\n  x\n", "Layout", 2),
    ("a: |\n    \n  b\n", "Layout", 2),
    ("a: |\n  b\n c\n", "Layout", 3),
    ("a: |\nb\n", "Layout", 2),
    ("- |\n a\nb\n", "Layout", 3),
    ("a: |\n  b\n\t\n  c\n", "Layout", 4),
    ("a: |\n  b\n# c\n  d\n", "Layout", 4),
    ("- - |\n  a\n", "Layout", 2),
    ("a:\n- |\nb\n", "Layout", 3),
    ("a: >\n  b\n     \n  c: d\n e\n", "Layout", 5),
    ("a: |\n  b\n c: 1\n", "Layout", 3),
    ("a: |\n  b\n c\nd: 1\n", "Layout", 3),
    ("a:\n  |\n  b\n", "Layout", 2),
    ("- a: b\n-\n  >\n  b\n", "Layout", 3),
    ("a: | b\n", "Layout", 1),
    ("a: |\n   \n  b\n", "Layout", 2),
    ("|\n  b\n", "Unsupported", 1),
    ("# a\n> b\n", "Unsupported", 2),
    ("a: |\n    b\n  c\n\td: 1\n", "Layout", 3),
    ("b: 1\na: |-1\n", "Unsupported", 2),
]

REFUSED = [
    *REFUSED_LINES,
    *REFUSED_LISTS_AND_TABLES,
    *TOO_DEEP,
    *DOUBLED_KEYS,
    *REFUSED_PLAIN_TEXTS,
    *REFUSED_QUOTED_TEXTS,
    *REFUSED_FLOWS,
    *REFUSED_FLOWS_OVER_LINES,
    *REFUSED_BLOCK_TEXTS,
]

# Bytes that aren't UTF-8 at their end or in their middle, and the kind and the line of their fault.
REFUSED_BYTES = [
    (b"a\nb\n\xff\n", "Layout", 2),
    (b"a:\n\tb\n\xff\n", "TabIndent", 2),
    (b"a:\n  b\xff\nc", "NotUtf8", 2),
    (b"a: \x01\xff\n", "NotUtf8", 1),
    (b"[a,\nb\xff]\n", "NotUtf8", 2),
    (b"- {a: \xff]\n", "NotUtf8", 1),
]

TOO_DEEP_HERE = "TooDeep in line 1"

# What comes before the brackets, how many brackets, what is between them, and the answer.
BRACKETS = [
    ("", 33, "", "[" * 33 + "]" * 33),
    ("", 34, "", TOO_DEEP_HERE),
    ("", 32, "a", "[" * 32 + "'a'" + "]" * 32),
    ("", 33, "a", TOO_DEEP_HERE),
    ("a: ", 32, "", "{'a': " + "[" * 32 + "]" * 32 + "}"),
    ("a: ", 33, "", TOO_DEEP_HERE),
    ("- - ", 31, "", "[" * 33 + "]" * 33),
    ("- - ", 32, "", TOO_DEEP_HERE),
]

# How many dashes may come before a first line, the line, and what is below it as deep. Then the node after the dashes, and the line of
# the fault after one dash more.
NESTED = [
    (32, "a", "", "'a'", 1),
    (32, "", "", "None", 1),
    (31, "a: b", "", "{'a': 'b'}", 1),
    (31, "a:", "", "{'a': None}", 1),
    (31, "a:", "  b", "{'a': 'b'}", 2),
    (30, "a:", "- b", "{'a': ['b']}", 2),
    (30, "a:", "  - b", "{'a': ['b']}", 2),
]


def nested(dashes, first, below):
    return "- " * dashes + first + "\n" + "  " * dashes + below


def fault(kind, line):
    return f"{kind} in line {line}"


ROWS = [
    *(("read_yaml", text, fault(kind, line)) for text, kind, line in REFUSED + REFUSED_BYTES),
    *(("count_beginnings", text, str(len(text.encode()))) for text, _, _ in REFUSED),
    # A node lies within at most 32 others.
    *(("read_yaml", first + "[" * count + inner + "]" * count, answer) for first, count, inner, answer in BRACKETS),
    *(("read_yaml", nested(most, first, below), "[" * most + node + "]" * most) for most, first, below, node, _ in NESTED),
    *(("read_yaml", nested(most + 1, first, below), fault("TooDeep", line)) for most, first, below, _, line in NESTED),
    # A text of too many bytes is refused in its first line.
    ("read_yaml", "#" + "c" * (MOST_BYTES - 1), "None"),
    ("read_yaml", "#" + "c" * (MOST_BYTES - 1) + "\n", "TooLarge in line 1"),
]
