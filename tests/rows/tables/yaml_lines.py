"""The base of the YAML reader: characters, lines, and what one line's content says.

The calls, each on one text:

    characters      the characters, or the fault as `KIND in line LINE`
    read_lines      each line as `NUMBER/INDENT:CONTENT;`, its block text in angle brackets, and a fault after them as
                    `!KIND'S NUMBER in LINE`
    count_lines     how many lines, and how many of them begin a block text
    read_content    what the content of line 7 after 2 columns is: `- NUMBER/INDENT:REST`, `KEY = VALUE`, whether it is
                    quoted and the text, or the fault
    read_quoted     the quoted text at the start in angle brackets and what follows it, or the fault in line 7
    yaml_kind       a kind's number, its words, and those of its fault in line 4
"""

PROGRAM = "yaml_trial"

MOST_BYTES = 1_048_576

LINES = [
    (b"", ""),
    (b"a", "1/0:a;"),
    (b"a\n", "1/0:a;"),
    (b"a\r\n  b\r\n", "1/0:a;2/2:b;"),
    (b"\n\n   a  \t\n", "3/3:a  \t;"),
    (b"\xef\xbb\xbfa\n", "1/0:a;"),
    (
        b"a\xef\xbb\xbf\xc2\x85\xe2\x80\xa8\x7fb\n",
        "1/0:a\ufeff\u0085\u2028\u007fb;",
    ),
    (b"\xe6\xbc\xa2: \xf0\x9f\x98\x80\n", "1/0:漢: 😀;"),
    (b"# c\n  # c\n\t\n \t # c\na", "5/0:a;"),
    (
        b"a # b # c\nd\t#e\nf#g\n",
        "1/0:a # b # c;2/0:d\t#e;3/0:f#g;",
    ),
    (b"a\tb\n", "1/0:a\tb;"),
    (b"---\na\n", "2/0:a;"),
    (b"\n# c\n--- \t# c\na\n", "4/0:a;"),
    (b" ---\n", "1/1:---;"),
    (b"----\n...a\n %b\n", "1/0:----;2/0:...a;3/1:%b;"),
    (b"--- a\n", "!3 in 1"),
    (b"---\n---\n", "!3 in 2"),
    (b"a\n--- b\n", "1/0:a;!3 in 2"),
    (b"...\n", "!3 in 1"),
    (b"a\n...\tb\n", "1/0:a;!3 in 2"),
    (b"%YAML 1.2\n", "!3 in 1"),
    (b"\ta\n", "!2 in 1"),
    (b"a:\n  \tb: 1\n", "1/0:a:;!2 in 2"),
    (b"a\n \t \t\n%\n\tb\n", "1/0:a;!3 in 3"),
]

# Control characters are unsupported.
CONTROL_CHARACTERS = [
    (b"a\x01\n", "!3 in 1"),
    (b"a\n\tb\n\x01\n", "1/0:a;!2 in 2"),
    (b"a\n# \x1f\n", "1/0:a;!3 in 2"),
    (b"a\rb\n", "!3 in 1"),
    (b"a\nb\r", "1/0:a;!3 in 2"),
    (b"a\r\r\n", "!3 in 1"),
    (b"\t\x00a\n", "!3 in 1"),
]

# Contents are items, entries or texts.
CONTENTS = [
    ("-", "- "),
    ("- ", "- "),
    ("-\t# c", "- "),
    ("- a # c", "- 7/4:a # c"),
    ("-   - b: c", "- 7/6:- b: c"),
    ("-a", "false -a"),
    ("-#c", "false -#c"),
    ("a: b # c", "a = b # c"),
    ("a:", "a = "),
    ("a: # c", "a = "),
    ("a :\t b c", "a = b c"),
    ("a b: c: d", "a b = c: d"),
    ("a # b: c", "false a"),
    ("a#b: c", "a#b = c"),
    ("a:: b", "a: = b"),
    ("-: a", "- = a"),
    ("?:: ", "?: = "),
    ("漢: 字", "漢 = 字"),
    ("'a b' : c", "a b = c"),
    ("'#': 'c' # d", "# = 'c' # d"),
    ("\"a\\\"b\": c", "a\"b = c"),
    ("a:b", "false a:b"),
    ("a - b, [c] \t", "false a - b, [c]"),
    ("?a :b", "false ?a :b"),
    ("''", "true "),
    ("'it''s # one: two' # three", "true it's # one: two"),
    ("\"a\\\\\\\"\\/\\x41\\u6f22\"", "true a\\\"/A漢"),
    ("\"[\\n|\\t|\\r|\\0]\"", "true [\n|\t|\r|\0]"),
]

REFUSED_CONTENTS = [
    ("Unsupported", "&a"),
    ("Unsupported", "*a"),
    ("Unsupported", "!a"),
    ("Unsupported", "%a"),
    ("Unsupported", "@a"),
    ("Unsupported", "`a"),
    ("Unsupported", "? a"),
    ("Unsupported", "?\ta: b"),
    ("Unsupported", "&a b: c"),
    ("Unsupported", "\"\\a\""),
    ("Unsupported", "\"\\xZ0\""),
    ("Unsupported", "\"\\u12\""),
    ("Layout", ",a"),
    ("Layout", "]a"),
    ("Layout", "}"),
    ("Layout", "?"),
    ("Layout", ":"),
    ("Layout", ": a"),
    ("Layout", "'a' b"),
    ("Layout", "'a'#b"),
    ("Layout", "\"a\"b: c"),
    ("Quote", "'a"),
    ("Quote", "'a''"),
    ("Quote", "\"a"),
    ("Quote", "\"a\\"),
    ("Quote", "\"\\ud800\""),
    ("TabIndent", "-\ta"),
    ("TabIndent", "- \t a: b"),
]

# Block texts leave their text.
BLOCK_TEXTS = [
    (b"a: |\n  x\n  y\nb", "1/0:a: |<x\ny\n>;4/0:b;"),
    (b"a: |-\n  x\n\n  y\n\n\nb", "1/0:a: |-<x\n\ny>;7/0:b;"),
    (b"a: |+ # c\n  x\n\n\nb", "1/0:a: |+ # c<x\n\n\n>;5/0:b;"),
    (b"a: |\n  x\n    y\n\tz", "1/0:a: |<x\n  y\n>;!2 in 4"),
    (b"a: |\n\n  x\n", "1/0:a: |<\nx\n>;"),
    (b"a: |\n  x\n   \n", "1/0:a: |<x\n \n>;"),
    (b"a: |\n  x # y\n  # z\n # c\n\n", "1/0:a: |<x # y\n# z\n>;"),
    (b"a: |+\n  x\n  ", "1/0:a: |+<x\n>;"),
    (b"a: |\n  x\n\n  ", "1/0:a: |<x\n>;"),
    (b"a: |\n  x", "1/0:a: |<x>;"),
    (b"a: |", "1/0:a: |<>;"),
    (b"a: |+", "1/0:a: |+<>;"),
    (b"a: |\n\n   \nb", "1/0:a: |<>;4/0:b;"),
    (b"a: |+\n\n   \nb", "1/0:a: |+<\n\n>;4/0:b;"),
    (b"a: |\n# c\n  x", "1/0:a: |<>;3/2:x;"),
    (b"a: |\n  \t\n  x\n", "1/0:a: |<\t\nx\n>;"),
    (b"a: |\n  x\n\t\n  y", "1/0:a: |<x\n>;4/2:y;"),
    (b"a: >\n  x\n  y\n", "1/0:a: ><x y\n>;"),
    (b"a: >\n\n  x\n\n\n  y\n", "1/0:a: ><\nx\n\ny\n>;"),
    (b"a: >-\n  x\n   y\n\n  z\n", "1/0:a: >-<x\n y\n\nz>;"),
    (b"a: >+\n  x\n\n", "1/0:a: >+<x\n\n>;"),
    (b"- |\n x\n- a", "1/0:- |<x\n>;3/0:- a;"),
    (b"- |\nx", "1/0:- |<>;2/0:x;"),
    (b"- - a: |\n     x\n    y", "1/0:- - a: |<x\n>;3/4:y;"),
    (b"- -  |\n   x\n  y", "1/0:- -  |<x\n>;3/2:y;"),
    (b"'a': |\r\n  x\r\n", "1/0:'a': |<x\n>;"),
    (b"a: |\n  \xe6\xbc\xa2\n", "1/0:a: |<漢\n>;"),
    (b"a: |\n  ---\n  - b: |\n", "1/0:a: |<---\n- b: |\n>;"),
    (b"a: |\n  x\x01\n", "1/0:a: |<x\u0001\n>;!3 in 2"),
    (b"a: |\n  \n  x\n", "1/0:a: |<\nx\n>;"),
    (b"a: >\n \n  \n  x\n  \n", "1/0:a: ><\n\nx\n>;"),
    (b"a: |\n   \n  x\n", "!4 in 2"),
    (b"a: |2\n  x\n", "!3 in 1"),
    (b"b\na: >-1\n", "1/0:b;!3 in 2"),
    (b"a: |x\n", "!4 in 1"),
]

# No block text begins in a line within a flow.
LINES_WITHIN_FLOWS = [
    (
        b"[\n  a, \"b: | # foo\",\n    c\n]",
        "1/0:[;2/2:a, \"b: | # foo\",;3/4:c;4/0:];",
    ),
    (b"[\n  a, \"b: |\"\n]", "1/0:[;2/2:a, \"b: |\";3/0:];"),
    (
        b"a: {\n  b: |\n  }\nc: |\n  x\n",
        "1/0:a: {;2/2:b: |;3/2:};4/0:c: |<x\n>;",
    ),
    (
        b"- - [[{b: [],\n- |\n}], ']'\n- |\n]\n- |\n  x",
        "1/0:- - [[{b: [],;2/0:- |;3/0:}], ']';4/0:- |;5/0:];6/0:- |<x>;",
    ),
    (b"[a # ]\n, b#]\n- |\n", "1/0:[a # ];2/0:, b#];3/0:- |<>;"),
    (b"[# ]\n]\n- |\n", "1/0:[# ];2/0:];3/0:- |<>;"),
    (
        b"['it''s ]', \"\\\"]\", a'], b\"]\n- |\n",
        "1/0:['it''s ]', \"\\\"]\", a'], b\"];2/0:- |<>;",
    ),
    (
        b"['it''s ]', \"\\\"]\", a'\n- |\n]\n",
        "1/0:['it''s ]', \"\\\"]\", a';2/0:- |;3/0:];",
    ),
    (
        b"{\"a\":\"]}\", b : ']', c: ']'\n- |\n}\n",
        "1/0:{\"a\":\"]}\", b : ']', c: ']';2/0:- |;3/0:};",
    ),
    (
        b"{\"a\" # }\n:\"}\"\n- |\n}\n",
        "1/0:{\"a\" # };2/0::\"}\";3/0:- |;4/0:};",
    ),
    (b"[:\"]\n- |\n", "1/0:[:\"];2/0:- |<>;"),
    (b"a: \"[\"\nb: |\n x", "1/0:a: \"[\";2/0:b: |<x>;"),
    (b"[: |\n a[: |\n  x", "1/0:[: |;2/1:a[: |;3/2:x;"),
]

# Lines of a flow up to its end, and how many lines there are with a line that begins a block text after it.
WHOLE_FLOWS = [
    ("a: ['\"']", 2),
    ("a: [x:'y]", 2),
    ("a: ['# [']", 2),
    ("a: [\"\\\"[\"]", 2),
    ("a: [x'y]", 2),
    ("a: {\"a\":'b'}", 2),
    ("a: ['it''s [', '''', '''[']", 2),
    ("a: [x, # [ {\n  y]", 3),
    ("a: [x # [\n  , \"[\" # {\n  ] # [", 4),
    ("a: {\"a\"\n  :'[' # [\n  }", 4),
    ("a: {b\n  : '['}", 3),
    ("a: [:x, x:\"y, -'x, {y: :z}]", 2),
]

# Lines of a flow that continues, and how many lines there are with two more, which look like a block text.
OPEN_FLOWS = [
    ("a: ['\"',", 3),
    ("a: [x:'y,", 3),
    ("a: ['# ]',", 3),
    ("a: [\"\\\"]\",", 3),
    ("a: [x'y,", 3),
    ("a: {\"a\":'}',", 3),
    ("a: ['it''s ]', ''']',", 3),
    ("a: [x, # ] }", 3),
    ("a: [[x], # ]", 3),
    ("a: [x # ]\n  , \"]\" # }\n  ,", 5),
    ("a: {\"a\"\n  :'}',", 4),
    ("a: {b\n  : [], c: '}',", 4),
]

# Bytes that aren't UTF-8, and the line that has them.
NOT_UTF8 = [
    (b"\xff", 1),
    (b"a\n\xc3\n", 2),
    (b"a\r\nb\n\xed\xa0\x80", 3),
    (b"\ta\n\n\xff", 3),
    (b"a\n\xe6\xbc\n\xa2", 2),
]

# The kinds of faults, their numbers and their words.
KINDS = [
    ("NotUtf8", 1, "not UTF-8"),
    ("TabIndent", 2, "a tab in the indentation"),
    ("Unsupported", 3, "not supported"),
    ("Layout", 4, "bad layout"),
    ("Quote", 5, "bad quoted text"),
    ("DoubledKey", 6, "doubled key"),
    ("TooDeep", 7, "nested too deeply"),
    ("TooLarge", 8, "too large"),
    ("OutOfMemory", 9, "out of memory"),
]

ROWS = [
    *(("read_lines", *row) for row in LINES + CONTROL_CHARACTERS + BLOCK_TEXTS + LINES_WITHIN_FLOWS),
    *(("read_content", *row) for row in CONTENTS),
    *(("read_content", text, f"{kind} in line 7") for kind, text in REFUSED_CONTENTS),
    *(("count_lines", f"{flow}\nb: |\n  z\n", f"{count} 1") for flow, count in WHOLE_FLOWS),
    *(("count_lines", f"{flow}\nb: |\n  z\n", f"{count} 0") for flow, count in OPEN_FLOWS),
    # Quoted texts end on their line.
    ("read_quoted", "'a\nb'", "Quote in line 7"),
    ("read_quoted", "'a'\n, b", "<a>\n, b"),
    *(("characters", text, f"NotUtf8 in line {line}") for text, line in NOT_UTF8),
    # The most bytes are read, and one more is not.
    ("characters", b"\xef\xbb\xbf" + b"\n" * (MOST_BYTES - 3), "\n" * (MOST_BYTES - 3)),
    ("characters", b"\xef\xbb\xbf" + b"\n" * (MOST_BYTES - 3) + b"\xff", "TooLarge in line 1"),
    *(("yaml_kind", kind, f"{number}; {words}; line 4: {words}") for kind, number, words in KINDS),
    # Lack of memory is reported of line 0.
    ("yaml_fault_of", "AllocError", "OutOfMemory in line 0"),
]
