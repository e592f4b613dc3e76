"""A configuration as text, in the YAML that hookhost reads (docs/REFERENCE.md, "The configuration's text")."""
import itertools

from hookhost_import.basics import in_comment

ESCAPES = {"\\": "\\\\", '"': '\\"', "\n": "\\n", "\t": "\\t", "\r": "\\r", "\0": "\\0"}


def in_quotes(text):
    """The text in double quotes, on one line."""
    return '"' + "".join(map(letter, text)) + '"'


def letter(it):
    if it in ESCAPES:
        return ESCAPES[it]
    if it.isprintable() or ord(it) > 0xffff:
        return it
    return f"\\x{ord(it):02x}" if ord(it) < 256 else f"\\u{ord(it):04x}"


def value(it):
    if isinstance(it, bool):
        return "true" if it else "false"
    if isinstance(it, int):
        return str(it)
    return "[" + ", ".join(map(in_quotes, it)) + "]" if isinstance(it, (list, tuple)) else in_quotes(it)


def text_of(head, top, hooks, sources=()):
    """The text: lines of comment, the keys at the top, and the hooks, each a table of its keys, below a comment with its repository."""
    lines = [f"# {line}" for line in head] + [f"{key}: {value(it)}" for key, it in top.items()]
    if not hooks:
        return "\n".join([*lines, "repos: []"]) + "\n"
    lines += ["repos:", "- repo: local", "  hooks:"]
    for hook, source in itertools.zip_longest(hooks, sources):
        lines += [f"  # of {in_comment(source)}"] if source else []
        for number, (key, it) in enumerate(hook.items()):
            lines.append(("  - " if number == 0 else "    ") + f"{key}: {value(it)}")
    return "\n".join(lines) + "\n"
