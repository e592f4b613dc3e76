"""Files that hooks of pre-commit get for their types and those of hookhost don't, since its table of types is shorter."""
import os
import tempfile

from hookhost_import.pre_commit_parts import Classifier

try:
    from identify import extensions, interpreters
except ImportError:  # then the tables can't be compared
    extensions = interpreters = None

KEYS = ("types", "types_or", "exclude_types")


def samples():
    """A file for each row of the tables of pre-commit: its path, its text, and the row as it is written into a list."""
    for end in sorted({**extensions.EXTENSIONS, **extensions.EXTENSIONS_NEED_BINARY_CHECK}):
        yield f"ends/a.{end}", "text\n", f"end {end}"
    for name in sorted(extensions.NAMES):
        yield f"names/{name}", "text\n", f"name {name}"
    for name in sorted(interpreters.INTERPRETERS):
        yield f"programs/{name}", f"#!/usr/bin/env {name}\n", f"program {name}"


def lay(folder):
    rows = {}
    for path, text, row in samples():
        full = os.path.join(folder, path)
        os.makedirs(os.path.dirname(full), exist_ok=True)
        with open(full, "w", encoding="utf-8") as file:
            file.write(text)
        os.chmod(full, 0o755 if row.startswith("program ") else 0o644)
        rows[path] = row
    return rows


def selected_by_pre_commit(folder, names, hook):
    was = os.getcwd()
    os.chdir(folder)
    try:
        types, types_or, excluded = (hook.get(key, plain) for key, plain in zip(KEYS, (["file"], [], [])))
        return set(Classifier(sorted(names)).by_types(sorted(names), types, types_or, excluded))
    finally:
        os.chdir(was)


def unknown_rows(program, hooks):
    """The rows whose files pre-commit hands to one of these hooks, and hookhost doesn't."""
    asked = []
    for hook in hooks:
        keys = {key: hook[key] for key in KEYS if key in hook}
        if keys and keys not in asked:
            asked.append(keys)
    if not asked:
        return []
    with tempfile.TemporaryDirectory(dir=program.place) as folder:
        rows = lay(folder)
        found = set()
        for keys, here in zip(asked, program.selects(folder, asked), strict=True):
            found |= selected_by_pre_commit(folder, rows, keys) - here
        return sorted(rows[path] for path in found)
