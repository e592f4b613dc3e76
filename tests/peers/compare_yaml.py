#!/usr/bin/env python3
"""Compares the table of YAML texts with PyYAML, a reader of YAML 1.1 that shares no code with this one.

Usage: tests/peers/compare_yaml.py

PyYAML (Debian's python3-yaml) must be installed, for the Python that runs this or for /usr/bin/python3, which Debian's packages
serve. If it is missing, nothing can be compared, and that is a failure.

The rows are those of yaml_profile.py and yaml_profile_refused.py in tests/rows/tables, with which the reader is tested. If PyYAML
takes a text, the values must agree. Each text that only one of the two takes is printed with its reason. A reason has a test of the
text: a text for which no test holds is a failure.
"""
import ast
import os
import re
import sys

sys.path.insert(0, os.path.abspath(f"{__file__}/../../shared"))
from debian_python import try_again
from yaml_texts import most_nodes, read_rows, refused_rows

try:
    import yaml
except ImportError:
    try_again("PyYAML (Debian's python3-yaml)")


def holds(pattern):
    """The test whether a text has a part of this pattern."""
    return lambda text: re.search(pattern, text)


def has_deep_node(text):
    """Whether more nodes of the text lie within one another than may, as PyYAML's nodes show it."""
    level, within = [yaml.compose(text, Loader=yaml.BaseLoader)], 0
    while level:
        level = [inner for node in level if not isinstance(node, yaml.ScalarNode) for inner in inner_nodes(node)]
        within += 1
    return within > most_nodes()


def inner_nodes(node):
    """The items of a list's node, the values of a table's."""
    return [value for _, value in node.value] if isinstance(node, yaml.MappingNode) else node.value


def has_doubled_key(text):
    """Whether a table of the text has a key twice, as PyYAML's nodes show it."""
    nodes = [yaml.compose(text, Loader=yaml.BaseLoader)]
    for node in nodes:
        if isinstance(node, yaml.MappingNode):
            keys = [key.value for key, _ in node.value]
            if len(set(keys)) < len(keys):
                return True
            nodes += [value for _, value in node.value]
        elif isinstance(node, yaml.SequenceNode):
            nodes += node.value
    return False


def has_shallow_flow(text):
    """Whether a line of a flow is too far left for the line that the flow begins on, taken after its dashes. A line
    that begins with a closing bracket may be one column further left, and a flow that is the whole text anywhere."""
    found = re.search(r"(?ms)^([ -]*)[^\n\[{]*([\[{].*[\]}])", text)
    if not found or not text[:found.start(2)].strip():
        return False
    lines = [line for line in found[2].split("\n")[1:] if line.strip()]
    return any(len(re.match(r" *[\]}]?", line)[0]) <= len(found[1]) for line in lines)


# Why PyYAML refuses a text that is read here.
REFUSED_THERE = [
    (holds(r"\x7f"), "byte 127 is an ordinary character here, as in YAML 1.2.2, 5.1, nb-json"),
    (holds(r"[{,]\s*[^\s:]+\s*\n\s*:"), "a flow key's colon may stand on the next line in YAML 1.2.2, 7.4.2"),
    (holds(r", :\w"), "a plain text in a flow may begin with `:` before a letter in YAML 1.2.2, 7.3.3"),
    (holds(r"\t"), "a tab separates tokens in YAML 1.2.2, 6.2; PyYAML takes spaces only"),
]

# Why PyYAML takes a text that is refused here, for each kind of refusal.
REFUSED_HERE = {
    "DoubledKey": [
        (has_doubled_key, "a key stands in its table once (YAML 1.2.2, 3.2.1.3); PyYAML keeps the last"),
    ],
    "TooDeep": [
        (has_deep_node, "there is a limit of depth"),
    ],
    "Quote": [
        (holds(r"(['\"])[^'\"\n]*\n[^'\"\n]*\1"), "a quoted text ends on its line"),
        (holds(r"(?i)\\ud[89a-f]"), "a surrogate is no character"),
    ],
    "Unsupported": [
        (holds(r"\r(?!\n)"), "a carriage return without a line feed is left out"),
        (holds(r"(?m)^(%|\.\.\.$|--- \w)"), "directives, end marks and a text behind `---` are left out"),
        (holds(r"(?m)(^|[ \[])[&!]"), "anchors and tags are left out"),
        (holds(r"(?m)(^|[ \[])\? "), "complex keys are left out"),
        (holds(r"\\[^\\\"/ntr0xu]"), "further escapes are left out"),
        (holds(r"\[[^{}\]]*:"), "pairs within a flow list are left out"),
        (holds(r"\{[^:}]+[,}]"), "keys without a value in a flow are left out"),
        (holds(r"[|>]-?\d"), "digits of a block text's mark are left out"),
        (holds(r"^[|>]"), "a block text as the whole text is left out"),
    ],
    "Layout": [
        (holds(r"^\?\n"), "a `?` alone is the key of nothing; PyYAML takes it for an empty key"),
        (holds(r"[\"'\]},]#"), "a comment begins after a blank (YAML 1.2.2, 6.6)"),
        (holds(r"(?m)^ +[|>]$"), "a block text begins behind its key or its dash"),
        (has_shallow_flow, "a line of a flow stands deeper than the line that the flow belongs to"),
        (holds(r"(?m)\w\n *[^\s:#-][^:\n]*$"), "a plain text stands on one line"),
        (holds(r": *[,}]"), "an empty place in a flow is left out"),
    ],
}


def reason_of(text, reasons):
    """The first reason whose test holds for the text, or None."""
    return next((reason for test, reason in reasons if test(text)), None)


def value_of(node):
    """A node as the table writes it, with an empty place as an empty text, as PyYAML's base loader gives it."""
    if isinstance(node, list):
        return [value_of(item) for item in node]
    if isinstance(node, dict):
        return {key: value_of(value) for key, value in node.items()}
    return "" if node is None else node


def main():
    read, refused = read_rows(), refused_rows()
    wrong, agreed, only_here, only_there = [], 0, 0, 0
    for text, shown in read:
        ours = value_of(ast.literal_eval(shown))
        try:
            theirs = yaml.load(text, Loader=yaml.BaseLoader)
        except yaml.YAMLError:
            reason = reason_of(text, REFUSED_THERE)
            print(f"only here:  {text!r}: {reason}")
            only_here += 1
            if reason is None:
                wrong.append(text)
            continue
        if ours == ("" if theirs is None else theirs):
            agreed += 1
        else:
            print(f"DIFFERENT:  {text!r}: {ours!r} here, {theirs!r} there")
            wrong.append(text)
    for text, kind in refused:
        try:
            yaml.load(text, Loader=yaml.BaseLoader)
        except (yaml.YAMLError, ValueError):
            agreed += 1
            continue
        reason = reason_of(text, REFUSED_HERE[kind])
        print(f"only there: {text!r}: {kind} here: {reason}")
        only_there += 1
        if reason is None:
            wrong.append(text)
    print(f"compare_yaml: {agreed} of {len(read) + len(refused)} texts agree, {only_here} are read only here, {only_there} only by PyYAML")
    print(f"compare_yaml: {len(read) + len(refused) - len(wrong)} passed, {len(wrong)} failed")
    sys.exit(1 if wrong or not agreed else 0)


main()
