"""YAML texts with their nodes. The sections are of YAML 1.2.2.

The calls, each on one text:

    read_yaml               the node, or the fault as `KIND in line LINE`
    debug_yaml              the node as `Debug` has it
    count_beginnings        how many beginnings of its bytes, without itself, are read or refused at one of their lines
    count_open_beginnings   how many of them are read, or refused as `Layout` in their last line
    read_twice              `same`, if a flow is read as the text that it is and by the reader of flows, which looks for no
                            block texts, and both give the same node or none

`tests/peers/compare_yaml.py` compares the rows of READ with PyYAML.
"""

PROGRAM = "yaml_trial"

# A row is a text and its node: `'a'` is an unquoted text or a key, `"a"` a quoted text, and `None` an empty place.
# Comments, blank lines and indentation: 6.1 to 6.7
COMMENTS = [
    ("# Comment only.\n", "None"),
    ("key:    # Comment\n  value\n", "{'key': 'value'}"),
    (
        "key:    # Comment\n        # lines\n  value\n\n",
        "{'key': 'value'}",
    ),
    (
        "  # Leading comment line spaces are\n  # neither content nor indentation.\n\nNot indented:\n  By one space:\n    By four:\n      spaces\n  Flow style: [    # Leading spaces\n    By two,        # in flow style\n    Also by two,   # are neither\n    Still by two,  # content nor\n    ]              # indentation.\n",
        "{'Not indented': {'By one space': {'By four': 'spaces'}, 'Flow style': ['By two', 'Also by two', 'Still by two']}}",
    ),
    ("a: b # c\n#d\ne: f#g\n", "{'a': 'b', 'e': 'f#g'}"),
    ("a: 'b' # c\nd: \"e\"\t# f\n", "{'a': \"b\", 'd': \"e\"}"),
    ("a: # nothing\nb:\n", "{'a': None, 'b': None}"),
    (
        "a:\n  # deeper\n# less\n      # more\n  b: c\n",
        "{'a': {'b': 'c'}}",
    ),
    (
        "- foo:\t bar\n- - baz\n  - baz\n",
        "[{'foo': 'bar'}, ['baz', 'baz']]",
    ),
    (
        "sequence:\n- one\n- two\nmapping:\n  sky: blue\n  sea: green\n",
        "{'sequence': ['one', 'two'], 'mapping': {'sky': 'blue', 'sea': 'green'}}",
    ),
    (
        "a:\r\n  - 1\r\n  - 2\r\nb: 3\r\n",
        "{'a': ['1', '2'], 'b': '3'}",
    ),
    ("\ufeffa: 1\n", "{'a': '1'}"),
    ("\ufeff# c\r\na: 1", "{'a': '1'}"),
    ("---\na: 1\n", "{'a': '1'}"),
    ("--- # a comment\n- a\n", "['a']"),
    ("# before\n---\n# after\na: 1\n", "{'a': '1'}"),
    ("\n\n---   \n\n[a]\n", "['a']"),
    ("\t\na: 1\n\t# c\n \t \nb: 2\n", "{'a': '1', 'b': '2'}"),
]

# Single and double quotes: 5.7, 7.3.1, 7.3.2
QUOTED_TEXTS = [
    ("a: 'it''s'\n", "{'a': \"it's\"}"),
    ("a: ''\nb: \"\"\n", "{'a': \"\", 'b': \"\"}"),
    ("a: ''''\nb: ''''''\n", "{'a': \"'\", 'b': \"''\"}"),
    ("'a': b\n\"c\": 'd'\n", "{'a': 'b', 'c': \"d\"}"),
    ("'a' : b\n\"c\"\t: d\n", "{'a': 'b', 'c': 'd'}"),
    (
        "- 'a: b'\n- \"c # d\"\n- 'e #f' # g\n",
        "[\"a: b\", \"c # d\", \"e #f\"]",
    ),
    (
        "a: \"\\\\ \\\" \\/ \\n\\t\\r\"\n",
        "{'a': \"\\\\ \\\" / \\n\\t\\r\"}",
    ),
    (
        "a: \"\\x41\\u00e9\\u65e5\\x00\\0\"\n",
        "{'a': \"A\u00e9\u65e5\\0\\0\"}",
    ),
    ("a: 'no \\n escape'\n", "{'a': \"no \\\\n escape\"}"),
    ("a: \"tab\there\"\n", "{'a': \"tab\\there\"}"),
    ("\"quoted\"\n", "\"quoted\""),
    ("'- a'\n", "\"- a\""),
    ("a: '  outer  blanks  '\n", "{'a': \"  outer  blanks  \"}"),
    ("a: \"'\"\nb: '\"'\n", "{'a': \"'\", 'b': \"\\\"\"}"),
    (
        "a: '\u65e5\u672c'\n\"\u00e9\": 1\n",
        "{'a': \"\u65e5\u672c\", '\u00e9': '1'}",
    ),
    ("- \"a\": 1\n  'b': 2\n", "[{'a': '1', 'b': '2'}]"),
    ("- 'a'\n- \"b\"   # c\n", "[\"a\", \"b\"]"),
    (
        "'single': text\n'a''b': c\n",
        "{'single': 'text', 'a\\'b': 'c'}",
    ),
    ("\"a\\\"b\": c\n", "{'a\"b': 'c'}"),
    ("\"a: b\": c\n", "{'a: b': 'c'}"),
    ("'#': '#'\n", "{'#': \"#\"}"),
    ("'a b' # c\n", "\"a b\""),
    (
        "'a': 'b'\n\"c\" : \"d: e\" # f\n",
        "{'a': \"b\", 'c': \"d: e\"}",
    ),
    (
        "- 'it''s'\n- \"A\\n\"\n- ''\n",
        "[\"it's\", \"A\\n\", \"\"]",
    ),
    ("- 'a': b\n  c: 'd'\n", "[{'a': 'b', 'c': \"d\"}]"),
    ("'- a': 1\n'b: c': 2\n", "{'- a': '1', 'b: c': '2'}"),
    ("a:\n  'b'\n", "{'a': \"b\"}"),
    ("a: 'true'\nb: true\n", "{'a': \"true\", 'b': 'true'}"),
    ("a: '|'\nb: \">\"\n", "{'a': \"|\", 'b': \">\"}"),
    ("'': 1\n", "{'': '1'}"),
    (
        "\"\\u0061\": \"\\\\ \\\" \\/ \\t\"\n",
        "{'a': \"\\\\ \\\" / \\t\"}",
    ),
]

# Plain texts on one line: 7.3.3
PLAIN_TEXTS = [
    ("a: b c  d\n", "{'a': 'b c  d'}"),
    (
        "- ::vector\n- Up, up, and away!\n- -123\n- http://example.com/foo#bar\n",
        "['::vector', 'Up, up, and away!', '-123', 'http://example.com/foo#bar']",
    ),
    (
        "- a:b\n- a::b\n- :a\n- ?a\n- -a\n- a#b\n- a'b\"c\n",
        "['a:b', 'a::b', ':a', '?a', '-a', 'a#b', 'a\\'b\"c']",
    ),
    ("a: x, y] z} [w {v\n", "{'a': 'x, y] z} [w {v'}"),
    ("a: --\n", "{'a': '--'}"),
    ("a: 10:30\nb: c:\\d\n", "{'a': '10:30', 'b': 'c:\\\\d'}"),
    (
        "url: https://example.com:80/?a=b&c=*\n",
        "{'url': 'https://example.com:80/?a=b&c=*'}",
    ),
    ("a b c: d e f\n", "{'a b c': 'd e f'}"),
    ("a?: b\n-c: d\n", "{'a?': 'b', '-c': 'd'}"),
    (
        "a: true\nb: ~\nc: 1.5\nd: null\n",
        "{'a': 'true', 'b': '~', 'c': '1.5', 'd': 'null'}",
    ),
    ("a:    b   \n", "{'a': 'b'}"),
    (
        "a: \u00e9\u65e5\U0001f600\n",
        "{'a': '\u00e9\u65e5\U0001f600'}",
    ),
    (
        "a: b\u0085c\u2028d\u007f\n",
        "{'a': 'b\u0085c\u2028d\u007f'}",
    ),
    ("a: b\ufeffc\n", "{'a': 'b\ufeffc'}"),
    ("a!: b\n", "{'a!': 'b'}"),
    (
        "a: b & c * d ! e | f > g % h @ i ` j\n",
        "{'a': 'b & c * d ! e | f > g % h @ i ` j'}",
    ),
    ("a: b -\nc: d - e\n", "{'a': 'b -', 'c': 'd - e'}"),
    (
        "a: -1\nb: -x\nc: ?x\nd: :x\n",
        "{'a': '-1', 'b': '-x', 'c': '?x', 'd': ':x'}",
    ),
    ("a: b|\nc: d >\n", "{'a': 'b|', 'c': 'd >'}"),
    ("a: b [c]\nd: e, f\n", "{'a': 'b [c]', 'd': 'e, f'}"),
    ("a[b]: c]\n", "{'a[b]': 'c]'}"),
]

# Block lists and tables: 8.2.1 to 8.2.3
LISTS_AND_TABLES = [
    (
        "block sequence:\n  - one\n  - two : three\n",
        "{'block sequence': ['one', {'two': 'three'}]}",
    ),
    (
        "-\n- text\n- - one\n  - two\n- one: two\n",
        "[None, 'text', ['one', 'two'], {'one': 'two'}]",
    ),
    (
        "block mapping:\n key: value\n",
        "{'block mapping': {'key': 'value'}}",
    ),
    (
        "a:\n b:\n  c:\n   d: e\n",
        "{'a': {'b': {'c': {'d': 'e'}}}}",
    ),
    ("-\n  - a\n  -\n    - b\n", "[['a', ['b']]]"),
    (
        "-   - a\n    - b\n-   c: d\n    e: f\n",
        "[['a', 'b'], {'c': 'd', 'e': 'f'}]",
    ),
    ("a:\n- b\n- c\nd:\n  - e\n", "{'a': ['b', 'c'], 'd': ['e']}"),
    (
        "a:\n- b:\n  - c\n  d: e\n- f\ng: h\n",
        "{'a': [{'b': ['c'], 'd': 'e'}, 'f'], 'g': 'h'}",
    ),
    ("- a:\n- b:\n", "[{'a': None}, {'b': None}]"),
    ("- - - a\n    - b\n  - c\n- d\n", "[[['a', 'b'], 'c'], 'd']"),
    (
        "a:\n\n  b: 1\n\n\n  c: 2\n\nd: 3\n",
        "{'a': {'b': '1', 'c': '2'}, 'd': '3'}",
    ),
    ("  a: 1\n  b: 2\n", "{'a': '1', 'b': '2'}"),
    ("   - a\n   - b\n", "['a', 'b']"),
    (
        "a:\n  - b: 1\n    c: 2\n  - d: 3\n",
        "{'a': [{'b': '1', 'c': '2'}, {'d': '3'}]}",
    ),
    (
        "a:\n      b: c\nd:\n e: f\n",
        "{'a': {'b': 'c'}, 'd': {'e': 'f'}}",
    ),
    ("-\n\n  a: b\n\n-\n  c\n", "[{'a': 'b'}, 'c']"),
    ("a :  b\nc\t:\td\n", "{'a': 'b', 'c': 'd'}"),
    ("a:\n  'b'\nc:\n  \"d\" # e\n", "{'a': \"b\", 'c': \"d\"}"),
    ("a:\n  [b]\nc:\n  {d: e}\n", "{'a': ['b'], 'c': {'d': 'e'}}"),
    ("- [a, b]\n- {c: d}\n", "[['a', 'b'], {'c': 'd'}]"),
    ("a:\n- [b]\n- - c\n", "{'a': [['b'], ['c']]}"),
    ("", "None"),
    ("\n  \n\t\n# nothing\n", "None"),
    ("---\n", "None"),
    ("---\na\n", "'a'"),
    ("a", "'a'"),
    ("  a b # a comment\n", "'a b'"),
    ("- a\n- b\n", "['a', 'b']"),
    ("-\n- # nothing\n-\n", "[None, None, None]"),
    ("-\n  a\n- b", "['a', 'b']"),
    ("-   - a\n    - b\n- c\n", "[['a', 'b'], 'c']"),
    ("- - a\n  -\n    - b\n", "[['a', ['b']]]"),
    ("a: 1\nb: 2\n", "{'a': '1', 'b': '2'}"),
    ("a : 1\nb:\t2\n", "{'a': '1', 'b': '2'}"),
    ("a:\nb:\n", "{'a': None, 'b': None}"),
    ("a:\n  b\nc: d\n", "{'a': 'b', 'c': 'd'}"),
    (
        "a:\n  b:\n    c: 1\n  d: 2\ne: 3\n",
        "{'a': {'b': {'c': '1'}, 'd': '2'}, 'e': '3'}",
    ),
    (
        "- a: 1\n  b: 2\n- c: 3\n",
        "[{'a': '1', 'b': '2'}, {'c': '3'}]",
    ),
    ("-\n  a: 1\n  b: 2\n", "[{'a': '1', 'b': '2'}]"),
    ("a:\n  - 1\n  - 2\nb: 3\n", "{'a': ['1', '2'], 'b': '3'}"),
    ("a:\n- 1\n- 2\nb: 3\n", "{'a': ['1', '2'], 'b': '3'}"),
    (
        "a:\n- 1\n- b: 2\n  c:\n  - 3\nd:\n",
        "{'a': ['1', {'b': '2', 'c': ['3']}], 'd': None}",
    ),
    ("- a:\n- b\n", "[{'a': None}, 'b']"),
    ("- a:\n  - b\n", "[{'a': ['b']}]"),
    ("- a:\n  - b\n  c: 1\n", "[{'a': ['b'], 'c': '1'}]"),
    (
        "# 1\na: # 2\n    # 3\n  b: 1 # 4\n# 5\n\n  c: 2\n#6",
        "{'a': {'b': '1', 'c': '2'}}",
    ),
    ("a: 1\nA: 2\n", "{'a': '1', 'A': '2'}"),
    ("\u00e9: \u65e5\n", "{'\u00e9': '\u65e5'}"),
    ("\ufeffa: 1\r\nb:\r\n", "{'a': '1', 'b': None}"),
    ("a: b #c\nd: e#f\n", "{'a': 'b', 'd': 'e#f'}"),
    ("a: # b\n", "{'a': None}"),
    ("---\t# a\n- b\n", "['b']"),
    ("a: -b\nc: ?d\ne: :f\n", "{'a': '-b', 'c': '?d', 'e': ':f'}"),
    ("a: b:c\n", "{'a': 'b:c'}"),
]

# Flow lists and flow tables on one line: 7.4.1, 7.4.2
FLOWS = [
    ("[]\n", "[]"),
    ("{}\n", "{}"),
    (
        "[a, [b, [c]], {d: [e, {f: g}]}]\n",
        "['a', ['b', ['c']], {'d': ['e', {'f': 'g'}]}]",
    ),
    (
        "{a: 'b', \"c\": d, 'e': \"f\"}\n",
        "{'a': \"b\", 'c': 'd', 'e': \"f\"}",
    ),
    (
        "{'a':b, \"c\":[d], 'e':{f: g}}\n",
        "{'a': 'b', 'c': ['d'], 'e': {'f': 'g'}}",
    ),
    (
        "{a: http://b:80/c, d: e:f}\n",
        "{'a': 'http://b:80/c', 'd': 'e:f'}",
    ),
    ("[-a, ?b, :c, --d, -1]\n", "['-a', '?b', ':c', '--d', '-1']"),
    ("[a b, c  d , e]\n", "['a b', 'c  d', 'e']"),
    (
        "[a, 'b, c', \"d ] e\", '#f', g#h]\n",
        "['a', \"b, c\", \"d ] e\", \"#f\", 'g#h']",
    ),
    ("[ '', \"\" , ' ']\n", "[\"\", \"\", \" \"]"),
    ("[a,b,c]\n", "['a', 'b', 'c']"),
    ("{a: [], b: {}}\n", "{'a': [], 'b': {}}"),
    ("[[], {}, [[]]]\n", "[[], {}, [[]]]"),
    ("[\t a\t,\tb ]\n", "['a', 'b']"),
    (
        "args: [--a=b, '--c', \"--d e\"]\n",
        "{'args': ['--a=b', \"--c\", \"--d e\"]}",
    ),
    ("a: ['b: c']\n", "{'a': [\"b: c\"]}"),
    ("{a: \"b\", c : d}\n", "{'a': \"b\", 'c': 'd'}"),
    ("[]", "[]"),
    (
        "[a, 'b', {c: d, \"e\":f}, [], {}]",
        "['a', \"b\", {'c': 'd', 'e': 'f'}, [], {}]",
    ),
    (
        "a: [-1, :b, ?c, d:e, f#g]\n",
        "{'a': ['-1', ':b', '?c', 'd:e', 'f#g']}",
    ),
]

# Flows over lines, and next to other nodes: 7.4
FLOWS_OVER_LINES = [
    ("a: []\nb: {}\n", "{'a': [], 'b': {}}"),
    (
        "- [one, two, ]\n- [three ,four]\n",
        "[['one', 'two'], ['three', 'four']]",
    ),
    (
        "- { one : two , three: four , }\n- {five: six,seven : eight}\n",
        "[{'one': 'two', 'three': 'four'}, {'five': 'six', 'seven': 'eight'}]",
    ),
    (
        "[\n\"double quoted\", 'single quoted',\nplain text, [ nested ],\n]\n",
        "[\"double quoted\", \"single quoted\", 'plain text', ['nested']]",
    ),
    (
        "a: [b, c] # d\ne: {f: g} # h\n",
        "{'a': ['b', 'c'], 'e': {'f': 'g'}}",
    ),
    ("a: [\n  b,\n  c\n]\nd: e\n", "{'a': ['b', 'c'], 'd': 'e'}"),
    (
        "a: [\n  b,\n  c\n  ]\nd: e\n",
        "{'a': ['b', 'c'], 'd': 'e'}",
    ),
    (
        "a: [b,\n c,\n    d]\ne: f\n",
        "{'a': ['b', 'c', 'd'], 'e': 'f'}",
    ),
    (
        "a: {\n  b: c,\n  d: [\n    e\n  ],\n}\n",
        "{'a': {'b': 'c', 'd': ['e']}}",
    ),
    ("- [a,\n   b\n  ]\n- c\n", "[['a', 'b'], 'c']"),
    ("- [\n    a\n  ]\n", "[['a']]"),
    ("- a: [\n    b\n  ]\n  c: d\n", "[{'a': ['b'], 'c': 'd'}]"),
    ("[\na,\n  b,\nc\n]\n", "['a', 'b', 'c']"),
    ("  [a,\nb]\n", "['a', 'b']"),
    ("{\na: b,\n}\n", "{'a': 'b'}"),
    (
        "a: [ # c\n  b, # d\n  # e\n\n  f # g\n]\n",
        "{'a': ['b', 'f']}",
    ),
    (
        "{a\n : b, c:\n d, e: f\n}\n",
        "{'a': 'b', 'c': 'd', 'e': 'f'}",
    ),
    ("[a, \"b: | # c\",\n  d]\n", "['a', \"b: | # c\", 'd']"),
    (
        "[\n  a, \"b: | # c\",\n    d\n]\n",
        "['a', \"b: | # c\", 'd']",
    ),
    ("[\n  a, 'b: >',\n    d\n]\n", "['a', \"b: >\", 'd']"),
    ("a: [\"b\"\n  , 'c'\n  ]\n", "{'a': [\"b\", \"c\"]}"),
    ("---\n{a: 1}\n", "{'a': '1'}"),
    ("{\"a\"\n: b}\n", "{'a': 'b'}"),
    ("--- # a\n{ } # b\n# c\n", "{}"),
    ("a: [\n  1,\n]\nb: 2\n", "{'a': ['1'], 'b': '2'}"),
    (
        "[\n  a, \"b: | # foo\",\n    c\n]",
        "['a', \"b: | # foo\", 'c']",
    ),
    ("   [\na,\n  b # c\n  ,\n ]\n", "['a', 'b']"),
    ("{a:\n\nb,\n'c'\n:\nd}\n", "{'a': 'b', 'c': 'd'}"),
    (
        "a:\n  [b,\n   c\n  ]\nd: e\n",
        "{'a': ['b', 'c'], 'd': 'e'}",
    ),
    ("- [a,\n   b]\n- {c: d\n  }\n", "[['a', 'b'], {'c': 'd'}]"),
    (
        "- a: [\n  ]\n  b: {\n   c: d}\n",
        "[{'a': [], 'b': {'c': 'd'}}]",
    ),
    ("a: [b,\n# c\n\n  d]\n", "{'a': ['b', 'd']}"),
    ("a:\n- [b]\n- {}\nc: []\n", "{'a': [['b'], {}], 'c': []}"),
    (
        "'a': [[b],\n {c: [d,\n e]}\n]",
        "{'a': [['b'], {'c': ['d', 'e']}]}",
    ),
    ("a:\n  {b: c}\n", "{'a': {'b': 'c'}}"),
]

# Flows that mislead a reader that counts their brackets, each before a block text: 7.4, 8.1. A reader that still takes the
# flow for open after its last line finds no block text below it.
FLOWS_BEFORE_BLOCK_TEXTS = [
    ("a: ['\"']\nb: |\n  z\n", "{'a': [\"\\\"\"], 'b': 'z\\n'}"),
    ("a: [x:'y]\nb: |\n  z\n", "{'a': ['x:\\'y'], 'b': 'z\\n'}"),
    ("a: ['# [']\nb: |\n  z\n", "{'a': [\"# [\"], 'b': 'z\\n'}"),
    (
        "a: [\"\\\"[\"]\nb: |\n  z\n",
        "{'a': [\"\\\"[\"], 'b': 'z\\n'}",
    ),
    ("a: [x'y]\nb: |\n  z\n", "{'a': ['x\\'y'], 'b': 'z\\n'}"),
    (
        "a: [x\"y, 'z']\nb: |\n  z\n",
        "{'a': ['x\"y', \"z\"], 'b': 'z\\n'}",
    ),
    (
        "a: {\"k\":'v['}\nb: |\n  z\n",
        "{'a': {'k': \"v[\"}, 'b': 'z\\n'}",
    ),
    (
        "a: ['it''s [', '']\nb: |\n  z\n",
        "{'a': [\"it's [\", \"\"], 'b': 'z\\n'}",
    ),
    (
        "a: [x#y, \"\\\\\"]\nb: |\n  z\n",
        "{'a': ['x#y', \"\\\\\"], 'b': 'z\\n'}",
    ),
    (
        "a: [x, # ] } ' [\n  y]\nb: |\n  z\n",
        "{'a': ['x', 'y'], 'b': 'z\\n'}",
    ),
    (
        "a: ['it''s',\n  'b [''', # ''\n  c\n]\nb: |\n  z\n",
        "{'a': [\"it's\", \"b ['\", 'c'], 'b': 'z\\n'}",
    ),
    (
        "a: {x\n  : 'y[', \"z\"\n  :{w: ']'}}\nb: |\n  z\n",
        "{'a': {'x': \"y[\", 'z': {'w': \"]\"}}, 'b': 'z\\n'}",
    ),
    (
        "a: {x:\n  'y[' # {\n  }\nb: |\n  z\n",
        "{'a': {'x': \"y[\"}, 'b': 'z\\n'}",
    ),
]

# Literal block texts, and block texts of all kinds: 8.1.1, 8.1.2
LITERAL_TEXTS = [
    ("e: |\n  a\n", "{'e': 'a\\n'}"),
    ("e: |\n  a", "{'e': 'a'}"),
    ("a: |\n  b\n  c\nd: e\n", "{'a': 'b\\nc\\n', 'd': 'e'}"),
    ("a: |\n b\n  c\n\n d\n", "{'a': 'b\\n c\\n\\nd\\n'}"),
    ("a: |-\n  b\n\nc: d\n", "{'a': 'b', 'c': 'd'}"),
    ("a: |+\n  b\n\nc: d\n", "{'a': 'b\\n\\n', 'c': 'd'}"),
    ("a: | # comment\n  b\n", "{'a': 'b\\n'}"),
    ("a: |   \n  # text\n  b # c\n", "{'a': '# text\\nb # c\\n'}"),
    ("- |\n  a\n- |-\n  b\n", "['a\\n', 'b']"),
    ("- - |\n    a\n  - b\n", "[['a\\n', 'b']]"),
    ("- a: |\n    b\n  c: d\n", "[{'a': 'b\\n', 'c': 'd'}]"),
    ("a: |\n\n\n  b\n", "{'a': '\\n\\nb\\n'}"),
    ("a: |\n  \n  b\n", "{'a': '\\nb\\n'}"),
    ("a: |\n  b\n    c\n   d\n", "{'a': 'b\\n  c\\n d\\n'}"),
    ("a: |\n  \tb\n", "{'a': '\\tb\\n'}"),
    ("a: |\n", "{'a': ''}"),
    ("a: |-\nb: c\n", "{'a': '', 'b': 'c'}"),
    ("a: |+\n\n\nb: c\n", "{'a': '\\n\\n', 'b': 'c'}"),
    ("a: |+\n  b", "{'a': 'b'}"),
    ("a: |\n  b", "{'a': 'b'}"),
    ("a: |-\n  b", "{'a': 'b'}"),
    ("a: |\n  - b\n  c: 'd\n", "{'a': '- b\\nc: \\'d\\n'}"),
    ("a: |\n  b\n# comment\nc: d\n", "{'a': 'b\\n', 'c': 'd'}"),
    ("a: |\n  b\n # comment\nc: d\n", "{'a': 'b\\n', 'c': 'd'}"),
    (
        "a: |\n  b\n\n \n   \nc: d\n",
        "{'a': 'b\\n\\n\\n \\n', 'c': 'd'}",
    ),
    ("a: |\r\n  b\r\n  c\r\n", "{'a': 'b\\nc\\n'}"),
    ("'a': |\n  b\n", "{'a': 'b\\n'}"),
    (
        "a:\n  b: |\n    c\n  d: |\n    e\n",
        "{'a': {'b': 'c\\n', 'd': 'e\\n'}}",
    ),
    (
        "a: |\n      b\n       c\nd: e\n",
        "{'a': 'b\\n c\\n', 'd': 'e'}",
    ),
    ("a: |\n  b\n   c\nd: e\n", "{'a': 'b\\n c\\n', 'd': 'e'}"),
    (
        "a: >-\n  b\n  c\n\n  d\ne:\n",
        "{'a': 'b c\\nd', 'e': None}",
    ),
    ("a: |+\n\n b\n\n", "{'a': '\\nb\\n\\n'}"),
    ("a: |\nb: >\n", "{'a': '', 'b': ''}"),
    ("- |\n b\n- >-\n  c\n  d\n", "['b\\n', 'c d']"),
    (
        "- a: |\n    b\n     c: d\n  e: f\n",
        "[{'a': 'b\\n c: d\\n', 'e': 'f'}]",
    ),
    ("- - |-\n    a\n    b\n  - c\n", "[['a\\nb', 'c']]"),
    ("- a: |\n   - b\n", "[{'a': '- b\\n'}]"),
    (
        "a:\n- |\n  b\n- c\nd: |-\n  - e\n",
        "{'a': ['b\\n', 'c'], 'd': '- e'}",
    ),
    (
        "'a': |-\n  # b\n  c # d\n # e\nf: g\n",
        "{'a': '# b\\nc # d', 'f': 'g'}",
    ),
    ("a: |-\n  ---\n  \tb\n", "{'a': '---\\n\\tb'}"),
    (
        "a: >\n\n  b\n  c\n\n\n  d\n   e\n\n  f\n\n",
        "{'a': '\\nb c\\n\\nd\\n e\\n\\nf\\n'}",
    ),
    ("a: |+\n  b\n\n  ", "{'a': 'b\\n\\n'}"),
    ("a: |\n\nb: |+\n\nc: 1\n", "{'a': '', 'b': '\\n', 'c': '1'}"),
]

# Folded block texts: 8.1.3
FOLDED_TEXTS = [
    (
        "e: >\n  (?x)^(\n      a/.*|\n      b/.*\n  )$\n",
        "{'e': '(?x)^(\\n    a/.*|\\n    b/.*\\n)$\\n'}",
    ),
    ("e: >-\n  a\n  b\n\n  c\n", "{'e': 'a b\\nc'}"),
    ("a: >\n  b\n  c\n", "{'a': 'b c\\n'}"),
    ("a: >\n  b\n\n  c\n", "{'a': 'b\\nc\\n'}"),
    ("a: >\n  b\n\n\n  c\n", "{'a': 'b\\n\\nc\\n'}"),
    ("a: >-\n  b\n  c\n\n", "{'a': 'b c'}"),
    ("a: >+\n  b\n  c\n\n\n", "{'a': 'b c\\n\\n\\n'}"),
    (
        "a: >\n\n  folded\n  line\n\n  next\n  line\n    * bullet\n\n    * list\n    * lines\n\n  last\n  line\n\n# Comment\n",
        "{'a': '\\nfolded line\\nnext line\\n  * bullet\\n\\n  * list\\n  * lines\\n\\nlast line\\n'}",
    ),
    ("a: >\n  b\n   c\n  d\n", "{'a': 'b\\n c\\nd\\n'}"),
    ("a: >\n  b\n\n   c\n\n  d\n", "{'a': 'b\\n\\n c\\n\\nd\\n'}"),
    (
        "a: >\n   b\n\n\n   c\n    d\n\n   e\n",
        "{'a': 'b\\n\\nc\\n d\\n\\ne\\n'}",
    ),
    ("- >\n  a\n  b\n- >-\n  c\n", "['a b\\n', 'c']"),
    ("a: >\n  b  \n  c\n", "{'a': 'b   c\\n'}"),
    ("a: >\n  \tb\n  c\n", "{'a': '\\tb\\nc\\n'}"),
    ("a: >\n  b\n", "{'a': 'b\\n'}"),
    ("a: >-\n  b\n  c", "{'a': 'b c'}"),
]

# As teams write them in `.pre-commit-config.yaml`
CONFIGURATIONS = [
    (
        "repos:\n-   repo: local\n    hooks:\n    -   id: a\n        name: A\n        entry: a b\n        language: system\n        types: [python]\n        args: [\"--fix\", '--x=y']\n",
        "{'repos': [{'repo': 'local', 'hooks': [{'id': 'a', 'name': 'A', 'entry': 'a b', 'language': 'system', 'types': ['python'], 'args': [\"--fix\", \"--x=y\"]}]}]}",
    ),
    (
        "exclude: |\n  (?x)^(\n    docs/.*|\n    tests/data/.*\n  )$\n",
        "{'exclude': '(?x)^(\\n  docs/.*|\\n  tests/data/.*\\n)$\\n'}",
    ),
    (
        "exclude: >\n  (?x)^(\n      a|\n      b\n  )$\n",
        "{'exclude': '(?x)^(\\n    a|\\n    b\\n)$\\n'}",
    ),
    (
        "files: ^(a|b)/.*\\.py$\nexclude: '\\.min\\.js$'\n",
        "{'files': '^(a|b)/.*\\\\.py$', 'exclude': \"\\\\.min\\\\.js$\"}",
    ),
    (
        "ci:\n  autofix_commit_msg: |\n    [pre-commit.ci] auto fixes\n\n    for more information, see https://pre-commit.ci\n  skip: []\n",
        "{'ci': {'autofix_commit_msg': '[pre-commit.ci] auto fixes\\n\\nfor more information, see https://pre-commit.ci\\n', 'skip': []}}",
    ),
    (
        "default_stages: [pre-commit, pre-push]\ndefault_language_version:\n  python: python3.11\n",
        "{'default_stages': ['pre-commit', 'pre-push'], 'default_language_version': {'python': 'python3.11'}}",
    ),
    (
        "- id: x\n  entry: bash -c 'a \"$@\" && b' --\n  language: system\n",
        "[{'id': 'x', 'entry': 'bash -c \\'a \"$@\" && b\\' --', 'language': 'system'}]",
    ),
    (
        "args:\n  - --maxkb=500\n  - --enforce-all   # all of them\n  - \"--name=a b\"\n",
        "{'args': ['--maxkb=500', '--enforce-all', \"--name=a b\"]}",
    ),
    (
        "args: [\n  --a,\n  --b=c,   # why\n  '--d',\n]\n",
        "{'args': ['--a', '--b=c', \"--d\"]}",
    ),
    (
        "additional_dependencies: ['a==1.0', \"b>=2\", c]\n",
        "{'additional_dependencies': [\"a==1.0\", \"b>=2\", 'c']}",
    ),
    (
        "entry: \"^TODO|FIXME\\\\b\"\nfiles: \\.(c|h)pp?$\n",
        "{'entry': \"^TODO|FIXME\\\\b\", 'files': '\\\\.(c|h)pp?$'}",
    ),
    (
        "# See https://pre-commit.com\nrepos:\n  # first\n  - repo: local\n    # second\n    hooks:\n      # third\n      - id: a  # fourth\n        pass_filenames: false\n",
        "{'repos': [{'repo': 'local', 'hooks': [{'id': 'a', 'pass_filenames': 'false'}]}]}",
    ),
    (
        "types_or: [c, c++]\nstages:\n- commit-msg\nverbose: true\n",
        "{'types_or': ['c', 'c++'], 'stages': ['commit-msg'], 'verbose': 'true'}",
    ),
    (
        "entry: >-\n  python -m tool\n  --flag\n  --other\nlanguage: system\n",
        "{'entry': 'python -m tool --flag --other', 'language': 'system'}",
    ),
    (
        "exclude: (?x)^(a/.*|b\\.c)$\n",
        "{'exclude': '(?x)^(a/.*|b\\\\.c)$'}",
    ),
    (
        "minimum_pre_commit_version: '3.2.0'\nfail_fast: yes\n",
        "{'minimum_pre_commit_version': \"3.2.0\", 'fail_fast': 'yes'}",
    ),
    (
        "description: \"a: b, [c] {d} # e\"\n",
        "{'description': \"a: b, [c] {d} # e\"}",
    ),
    (
        "entry: ./run.sh --pattern '{}' -- [x]\n",
        "{'entry': './run.sh --pattern \\'{}\\' -- [x]'}",
    ),
]

READ = [
    *COMMENTS,
    *QUOTED_TEXTS,
    *PLAIN_TEXTS,
    *LISTS_AND_TABLES,
    *FLOWS,
    *FLOWS_OVER_LINES,
    *FLOWS_BEFORE_BLOCK_TEXTS,
    *LITERAL_TEXTS,
    *FOLDED_TEXTS,
    *CONFIGURATIONS,
]

# Flows on one line, with what misleads a reader that looks for their last bracket or for the header of a block text.
BROKEN = [
    ("[a, 'c: |', \"d: >\", e]", "['a', \"c: |\", \"d: >\", 'e']"),
    ("[a, 'b: | # c', \"d: > # e\", {f: g}]", "['a', \"b: | # c\", \"d: > # e\", {'f': 'g'}]"),
    (
        "[ 'it''s ]: |', \"\\\"]: |\", \"\\\\\", a'b:c, a\"]",
        "[\"it's ]: |\", \"\\\"]: |\", \"\\\\\", 'a\\'b:c', 'a\"']",
    ),
    ("[a', 'b: |', c\"]", "['a\\'', \"b: |\", 'c\"']"),
    ("[a , 'b: |' , -d, -, ?e]", "['a', \"b: |\", '-d', '-', '?e']"),
    (
        "{a: 'b: |', \"c\":'d: |', e: [f, 'g: |'], h: i}",
        "{'a': \"b: |\", 'c': \"d: |\", 'e': ['f', \"g: |\"], 'h': 'i'}",
    ),
    ("{a: 'b: |', \"c\" : [ ], 'd':{ }, e:[f], g :  h}", "{'a': \"b: |\", 'c': [], 'd': {}, 'e': ['f'], 'g': 'h'}"),
    ("{'a: |': b, c#d: 'e: |', f: :g, :h : 'i: |'}", "{'a: |': 'b', 'c#d': \"e: |\", 'f': ':g', ':h': \"i: |\"}"),
    ("[[[ 'a: |' ], { }], {b: {c: 'd: |'}}, ]", "[[[\"a: |\"], {}], {'b': {'c': \"d: |\"}}]"),
    ("[:a, :'b, a:'c, ?d, 'e: |']", "[':a', ':\\'b', 'a:\\'c', '?d', \"e: |\"]"),
    ("[a#b, c 'd, # ' f: |\n 'e: |' ]", "['a#b', 'c \\'d', \"e: |\"]"),
    ("{a: b # ' [ { \n , c: 'd: |'}", "{'a': 'b', 'c': \"d: |\"}"),
    ("[\"a\\\": |\", 'b''c: |', '', \"\", 'd']", "[\"a\\\": |\", \"b'c: |\", \"\", \"\", \"d\"]"),
    ("{ '': '', \"y\": 'x: |', a: \"\\u005d: |\" }", "{'': \"\", 'y': \"x: |\", 'a': \"]: |\"}"),
]

# Why the law of comments and empty lines leaves out texts with block texts: of those, such lines are a part. A row is a
# text with such a line and one without, each with its node.
LINES_OF_BLOCK_TEXTS = [
    ("a: |\n  b\n  # c\n", "{'a': 'b\\n# c\\n'}", "a: |\n  b\n", "{'a': 'b\\n'}"),
    ("a: |\n  b\n\n  c\n", "{'a': 'b\\n\\nc\\n'}", "a: |\n  b\n  c\n", "{'a': 'b\\nc\\n'}"),
    ("- >+\n  a\n\n", "['a\\n\\n']", "- >+\n  a\n", "['a\\n']"),
]

CONFIGURATION = """repos:
- repo: local
  hooks:
  - id: names
    name: Check names
    language: fail
    entry: no such names
"""

CONFIGURATIONS_DEBUG = (
    'Table([("repos", List([Table(['
    '("repo", Text { text: "local", quoted: false }), ("hooks", List([Table(['
    '("id", Text { text: "names", quoted: false }), '
    '("name", Text { text: "Check names", quoted: false }), '
    '("language", Text { text: "fail", quoted: false }), '
    '("entry", Text { text: "no such names", quoted: false })])]))])]))])'
)

def beginnings(text):
    return str(len(text.encode()))


def cut(text):
    """The text on two lines, broken at each place."""
    return [f"{text[:at]}\n{text[at:]}" for at in range(1, len(text))]


ROWS = [
    *(("read_yaml", text, node) for text, node in READ),
    *(("count_beginnings", text, beginnings(text)) for text, _ in READ),
    # A flow that is broken anywhere is read if it is one.
    *(("read_yaml", text, node) for text, node in BROKEN),
    *(("read_twice", broken, "same") for text, _ in BROKEN for broken in cut(text)),
    *(("read_yaml", text, node) for text, node, _, _ in LINES_OF_BLOCK_TEXTS),
    *(("read_yaml", text, node) for _, _, text, node in LINES_OF_BLOCK_TEXTS),
    ("debug_yaml", CONFIGURATION, CONFIGURATIONS_DEBUG),
    ("count_open_beginnings", CONFIGURATION, beginnings(CONFIGURATION)),
]
