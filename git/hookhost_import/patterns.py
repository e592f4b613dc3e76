"""Patterns that find other paths here than in pre-commit, by docs/REFERENCE.md ("Patterns and selection")."""
import re

OPERATORS = ("&&", "--", "~~")


def classes_of(pattern):
    """What is within the brackets of a pattern of Python."""
    at = 0
    while at < len(pattern):
        if pattern[at] == "\\":
            at += 2
        elif pattern[at] == "[":
            begin = at + 1 + (pattern[at + 1:at + 2] == "^")
            end = begin + 1
            while end < len(pattern) and pattern[end] != "]":
                end += 2 if pattern[end] == "\\" else 1
            yield pattern[begin:end]
            at = end + 1
        else:
            at += 1


def is_verbose(pattern):
    return re.search(r"\(\?[aiLmsu]*x", pattern) is not None


def means_the_same(pattern):
    """Whether hookhost, if it takes the pattern, finds what Python finds by it. What it doesn't take isn't looked for here."""
    for held in classes_of(pattern):
        plain = re.sub(r"\\.", "", held, flags=re.DOTALL)
        # A bracket within brackets begins a class there, and these signs are operators.
        if "[" in plain or any(it in plain for it in OPERATORS) or (is_verbose(pattern) and re.search(r"[\s#]", plain)):
            return False
    # `++` and the like don't go back, and a flag within the pattern counts from its beginning.
    return not re.search(r"(?<!\\)[*+?}]\+", pattern) and not re.search(r"(?<!^)\(\?[aiLmsux]+\)", pattern)


def finds_the_same(pattern, arguments):
    """Whether pygrep of hookhost, which goes by characters, finds in any bytes what pygrep of pre-commit does, which goes by bytes."""
    if {"-i", "--ignore-case"} & set(arguments) or not pattern.isascii() or not means_the_same(pattern):
        return False
    return not re.search(r"\\[A-Za-z0-9]|\(\?[^:]|\[\^", pattern) and "." not in re.sub(r"\\.", "", pattern)
