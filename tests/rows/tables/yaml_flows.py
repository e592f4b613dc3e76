"""The flows of a YAML text.

The calls:

    read_flow TEXT ROOM             the node, or the fault as `KIND in line LINE` or `KIND at the end`, if at most ROOM nodes
                                    may lie within one another; `'a'` is a plain text or a key, `"a"` a quoted text
    count_flow_beginnings TEXT      how many beginnings of the text, without itself, are read or refused in their last line
    flow_fault KIND                 the text of a fault of this kind
"""

PROGRAM = "yaml_trial"

MOST_NODES = 33

READ = [
    ("[]", "[]"),
    ("{}", "{}"),
    ("[ \t]", "[]"),
    ("[\n]", "[]"),
    ("{\n\n  }", "{}"),
    ("[a]", "['a']"),
    ("[a, b]", "['a', 'b']"),
    ("[a,b]", "['a', 'b']"),
    ("[a, b,]", "['a', 'b']"),
    ("[ a ,\tb , ]", "['a', 'b']"),
    ("[a b  c ]", "['a b  c']"),
    ("{a: b}", "{'a': 'b'}"),
    ("{a: b, c: d,}", "{'a': 'b', 'c': 'd'}"),
    ("{ a : b ,c:\td }", "{'a': 'b', 'c': 'd'}"),
    ("{b: 1, a: 2, B: 3}", "{'b': '1', 'a': '2', 'B': '3'}"),
    ("[a, [b, []], {c: {}}]", "['a', ['b', []], {'c': {}}]"),
    ("{a: [b, {c: d}], e: []}", "{'a': ['b', {'c': 'd'}], 'e': []}"),
    ("{a:[b], c:{d: e}}", "{'a': ['b'], 'c': {'d': 'e'}}"),
    ("[[[]]]", "[[[]]]"),
    ("[a,\n  b\n]", "['a', 'b']"),
    ("[\n  a\n  ,\n  b\n]", "['a', 'b']"),
    ("{a\n : b}", "{'a': 'b'}"),
    ("{a:\n  b,\n  c: d}", "{'a': 'b', 'c': 'd'}"),
    ("[a]   ", "['a']"),
    ("[a] # c", "['a']"),
    ("[a]\t#c [b]", "['a']"),
    ("[a, # c\n b]", "['a', 'b']"),
    ("[a # c, d\n , b]", "['a', 'b']"),
    ("[ # ]\n]", "[]"),
    ("[\n# a]\n]", "[]"),
    ("[a,\n#b,\n#c,\n  d]", "['a', 'd']"),
    ("{a: # }\n b}", "{'a': 'b'}"),
    ("{a # :\n : b}", "{'a': 'b'}"),
    ("[a#b, c]", "['a#b', 'c']"),
    ("[-]", "['-']"),
    ("[?]", "['?']"),
    ("[?a]", "['?a']"),
    ("[-a, -1, --]", "['-a', '-1', '--']"),
    ("[:a]", "[':a']"),
    ("[a:b, a::b]", "['a:b', 'a::b']"),
    ("[a :b]", "['a :b']"),
    ("[-:a, -,]", "['-:a', '-']"),
    ("{:a: b}", "{':a': 'b'}"),
    ("{:: a}", "{':': 'a'}"),
    ("{-: a, ?: b}", "{'-': 'a', '?': 'b'}"),
    ("{a:b: c}", "{'a:b': 'c'}"),
    ("[a&b, a*, a!, a|, a>, a', a\", a%, a@, a`]", "['a&b', 'a*', 'a!', 'a|', 'a>', 'a\\'', 'a\"', 'a%', 'a@', 'a`']"),
    ("['a']", "[\"a\"]"),
    ("[\"a\" , 'b']", "[\"a\", \"b\"]"),
    ("['', \"\"]", "[\"\", \"\"]"),
    ("['a, ]', \"{b: # }\"]", "[\"a, ]\", \"{b: # }\"]"),
    ("['it''s', \"\\\"\\\\\\x41\\u6f22\\n\"]", "[\"it's\", \"\\\"\\\\A\u6f22\\n\"]"),
    ("{'a': b}", "{'a': 'b'}"),
    ("{'a':b, \"c\":'d'}", "{'a': 'b', 'c': \"d\"}"),
    ("{'a' : b, \"c\"\n:d}", "{'a': 'b', 'c': 'd'}"),
    ("{'a':[b],'c':{}}", "{'a': ['b'], 'c': {}}"),
    ("{'': a}", "{'': 'a'}"),
    ("{'a:': b, 'c, d': e}", "{'a:': 'b', 'c, d': 'e'}"),
    ("[\u6f22\u5b57, {\U0001f600: \u00e9}]", "['\u6f22\u5b57', {'\U0001f600': '\u00e9'}]"),
    ("[\u0085, \u2028, \ufeff, \u00a0]", "['\u0085', '\u2028', '\ufeff', '\u00a0']"),
    ("[true, ~, 1, null]", "['true', '~', '1', 'null']"),
    ("[a\tb, c\t]", "['a\\tb', 'c']"),
]

# A text, the kind of its fault, and the line from 1 on, unless it is the end of the text.
REFUSED = [
    ("[,]", "Layout", 1),
    ("[a,,b]", "Layout", 1),
    ("[a,\n,b]", "Layout", 2),
    ("[a, ,]", "Layout", 1),
    ("{,}", "Layout", 1),
    ("{a: b,,}", "Layout", 1),
    ("[a}", "Layout", 1),
    ("[a\n}", "Layout", 2),
    ("{a: b]", "Layout", 1),
    ("[}", "Layout", 1),
    ("{]", "Layout", 1),
    ("[a [b]]", "Layout", 1),
    ("[[a] [b]]", "Layout", 1),
    ("[[a]\nb]", "Layout", 2),
    ("[a\nb]", "Layout", 2),
    ("{a: b\nc: d}", "Layout", 2),
    ("[a]b", "Layout", 1),
    ("[a] b", "Layout", 1),
    ("[a]]", "Layout", 1),
    ("[a]#c", "Layout", 1),
    ("[a],", "Layout", 1),
    ("[a]: b", "Layout", 1),
    ("[a]\nb", "Layout", 2),
    ("[a] # c\nb", "Layout", 2),
    ("[\na]\n\n[b]", "Layout", 4),
    ("[a]\n", "Layout", 2),
    ("a", "Layout", 1),
    (" [a]", "Layout", 1),
    ("'a'", "Layout", 1),
    ("[:]", "Layout", 1),
    ("[:,a]", "Layout", 1),
    ("{:}", "Layout", 1),
    ("{: a}", "Layout", 1),
    ("{:\na}", "Layout", 1),
    ("[- a]", "Layout", 1),
    ("[-\n]", "Layout", 1),
    ("[?\n]", "Layout", 1),
    ("[|]", "Layout", 1),
    ("[>]", "Layout", 1),
    ("[#a\n]", "Layout", 1),
    ("[a,#b\n]", "Layout", 1),
    ("[[]#b\n]", "Layout", 1),
    ("['a'#b\n]", "Layout", 1),
    ("['a' b]", "Layout", 1),
    ("['a'b]", "Layout", 1),
    ("['a''b'\"c\"]", "Layout", 1),
    ("[a\n:b]", "Layout", 2),
    ("{[a]: b}", "Layout", 1),
    ("{a: b,\n {c: d}: e}", "Layout", 2),
    ("[[a]: b]", "Layout", 1),
    ("[{a: b}\n : c]", "Layout", 2),
    ("{a: }", "Layout", 1),
    ("{a:}", "Layout", 1),
    ("{a:,b: c}", "Layout", 1),
    ("{a:\n , b: c}", "Layout", 2),
    ("{'a'b: c}", "Layout", 1),
    ("{a\nb: c}", "Layout", 2),
    ("{a\n:b}", "Layout", 2),
    ("{a: b: c}", "Layout", 1),
    ("{'a':#b\n c}", "Layout", 1),
    ("[k: v]", "Unsupported", 1),
    ("[a,\n k\n : v]", "Unsupported", 3),
    ("[k:]", "Unsupported", 1),
    ("[k:[a]]", "Unsupported", 1),
    ("['a':b]", "Unsupported", 1),
    ("['a' : b]", "Unsupported", 1),
    ("{a}", "Unsupported", 1),
    ("{a, b: c}", "Unsupported", 1),
    ("{b: c, 'a'\n}", "Unsupported", 2),
    ("{a]", "Unsupported", 1),
    ("{a [b]}", "Unsupported", 1),
    ("{a\"]", "Unsupported", 1),
    ("{'a'\n{b: c}}", "Unsupported", 2),
    ("[&a b]", "Unsupported", 1),
    ("[a,\n *a]", "Unsupported", 2),
    ("[!a]", "Unsupported", 1),
    ("[%a]", "Unsupported", 1),
    ("[@a]", "Unsupported", 1),
    ("[`a]", "Unsupported", 1),
    ("[? a]", "Unsupported", 1),
    ("{a: b, ?\tc: d}", "Unsupported", 1),
    ("[\"\\a\"]", "Unsupported", 1),
    ("[a,\n \"\\xZ0\"]", "Unsupported", 2),
    ("['a]", "Quote", 1),
    ("[\n 'a\n ']", "Quote", 2),
    ("[\"\\ud800\"]", "Quote", 1),
    ("{\"a", "Quote", 1),
    ("[\"a\nb\"]", "Quote", 1),
    ("[a,\n \"b\n \"]", "Quote", 2),
    ("{\"a\n\": b}", "Quote", 1),
    ("{a: \"b\\\n c\"}", "Unsupported", 1),
    ("{a: 1, a: 2}", "DoubledKey", 1),
    ("{a: 1,\n 'b': 2,\n b\n : 3}", "DoubledKey", 3),
    ("{a: 1, \"\\x61\": , c}", "DoubledKey", 1),
    ("{a: {a: {b: 1, b: 2}}}", "DoubledKey", 1),
]

# Texts that end before their last bracket.
UNCLOSED = [
    "[", "{", "[ ", "[\n", "[ # a", "[a", "[a,", "[a, ", "[a # ]", "[[a]", "[[a],\n", "{a", "{a:",
    "{a: ", "{a: b", "{a: b,", "{'a'", "{'a':", "[{a: []}", "",
]

# Texts and their nodes. Each beginning of the texts can be read up to its last line.
WHOLE = [
    (
        "[a, 'b''c', \"\\x41\\u6f22\", [d, {e: -}], {f\n : [g # h\n , i]}] # j",
        "['a', \"b'c\", \"A\u6f22\", ['d', {'e': '-'}], {'f': ['g', 'i']}]",
    ),
    (
        "{a: b, 'c':{d: [], e:{}}, \"\\n\" : -1, f: g#h, i: [[[]]],}",
        "{'a': 'b', 'c': {'d': [], 'e': {}}, '\\n': '-1', 'f': 'g#h', 'i': [[[]]]}",
    ),
    (
        "[\n  -, ?a, :b, \U0001f600 # \u6f22\n  , c ]\t # d",
        "['-', '?a', ':b', '\U0001f600', 'c']",
    ),
]

# What is within brackets, and the most brackets around it that leave room for it.
NESTED = [
    ("", "", 33),
    ("a", "'a'", 32),
    ("'a'", "\"a\"", 32),
    ("{}", "{}", 32),
    ("{a: b}", "{'a': 'b'}", 31),
    (" # a\n", "", 33),
]

# A flow, its node, and how many nodes lie within one another.
ROOMS = [
    ("[]", "[]", 1),
    ("{}", "{}", 1),
    ("[a]", "['a']", 2),
    ("{a: b}", "{'a': 'b'}", 2),
    ("[a, [b], {c: d}]", "['a', ['b'], {'c': 'd'}]", 3),
]

# Each kind of fault that a flow may have, and how it is reported.
TOLD = [
    ("Unsupported", "not supported"),
    ("Layout", "bad layout"),
    ("Quote", "bad quoted text"),
    ("DoubledKey", "doubled key"),
    ("TooDeep", "nested too deeply"),
    ("OutOfMemory", "out of memory"),
]


def nested(brackets, within):
    return "[" * brackets + within + "]" * brackets


ROWS = [
    *(("read_flow", text, str(MOST_NODES), node) for text, node in READ),
    *(("read_flow", text, str(MOST_NODES), f"{kind} in line {line}") for text, kind, line in REFUSED),
    *(("read_flow", text, str(MOST_NODES), "Layout at the end") for text in UNCLOSED),
    *(("read_flow", text, str(MOST_NODES), node) for text, node in WHOLE),
    *(("count_flow_beginnings", text, str(len(text))) for text, _ in WHOLE),
    # At most 33 nodes lie within one another.
    *(("read_flow", nested(most, text), str(MOST_NODES), nested(most, node)) for text, node, most in NESTED),
    *(("read_flow", nested(most + 1, text), str(MOST_NODES), "TooDeep in line 1") for text, _, most in NESTED),
    # Room is counted down to nothing.
    *(("read_flow", text, str(room), node) for text, node, room in ROOMS),
    *(("read_flow", text, str(room - 1), "TooDeep in line 1") for text, _, room in ROOMS),
    # An empty place is no node.
    *(("read_flow", text, "1", "Layout in line 1") for text in ["[,]", "{a:,}", "{a:}"]),
    *(("flow_fault", kind, told) for kind, told in TOLD),
]
