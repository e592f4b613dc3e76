"""Cases of tests/fuzz/fuzz.py: paths of any bytes, as words and in lists, compared with the rules of docs/REFERENCE.md."""
import os

import fuzz_inputs
from fuzz_answers import CONFIGURATION, MOST_PATH_BYTES, PATH_FAULTS, Answer, is_no_text, told_path
from fuzz_play import NO_TEXT, entry_at
from host_program import check

DONE = Answer(0, b"", b"")
ENDLESS = b"/dev/zero"


def parts(path):
    return path.split(b"/")


# What identifies each fault of a path, in no order: the order is in the table.
FAULTY = {
    "Empty": lambda path: path == b"",
    "TooLong": lambda path: len(path) > MOST_PATH_BYTES,
    "ControlByte": lambda path: any(byte < 32 or byte == 127 for byte in path),
    "Absolute": lambda path: path.startswith(b"/"),
    "EmptyPart": lambda path: b"" in parts(path),
    "DotPart": lambda path: any(part in (b".", b"..") for part in parts(path)),
    "UnderGit": lambda path: parts(path)[0] == b".git",
    "OutOfMemory": lambda path: False,
}


def fault_of(path):
    """The number of the first fault of a path, or None."""
    return next((number for name, number in PATH_FAULTS.items() if FAULTY[name](path)), None)


def made_path(chance, known):
    """A path of pieces, one that is known, or one close to the limit of a path."""
    if known and chance.random() < 0.3:
        return chance.choice(known)
    if chance.random() < 0.06:
        return (b"p" * 200 + b"/") * 20 + b"q" * (MOST_PATH_BYTES - 4020 + chance.choice([-1, 0, 1, 2]))
    if chance.random() < 0.1:
        return chance.randbytes(chance.choice([1, 3, 20])).replace(b"\0", b"")
    return fuzz_inputs.joined(chance, fuzz_inputs.PATH_PIECES, 6)


def lay(case, path):
    """Writes a file at the path, if the system takes it and it lies in the folder, but isn't one of the program's own."""
    if b".." in parts(path) or path.startswith(b"/") or os.path.normpath(path).startswith((b".hookhost", b"..")):
        return False
    try:
        case.write(path, path)
    except OSError:
        return False
    return True


def stands_for(case, path):
    """Whether a word names a file, a folder or nothing."""
    at = os.path.join(os.fsencode(case.folder), path)
    try:
        return "folder" if os.path.isdir(at) else "file" if os.path.isfile(at) and not path.endswith(b"/") else "nothing"
    except ValueError:
        return "nothing"


def clashes(path, staged):
    return any(each.startswith(path + b"/") or path.startswith(each + b"/") for each in staged)


def adds(case, path, staged):
    """One word of `add`: a file is staged, or refused for its path or another's."""
    words, kind, fault = ["add", "--", path], stands_for(case, path), fault_of(path)
    if is_no_text(path):
        case.has(words, NO_TEXT)
    elif kind == "nothing" and path:
        case.has(words, Answer(3, b"", b"hookhost: cannot use " + told_path(path) + b"\n"))
    elif kind in ("file", "nothing") and fault is not None:
        case.refuses(words, "BadPath", fault)
    elif kind == "file" and clashes(path, staged):
        case.refuses(words, "Clash")
    elif kind == "file":
        case.has(words, DONE)
        staged[path] = entry_at(os.path.join(os.fsencode(case.folder), path))[1]
        check(case.does("cat", "--", path) == staged[path], "a staged file has other bytes")
    else:
        case.run(*words)
        reads_staged(case, staged)


def reads_staged(case, staged):
    """Adds what is staged by now, if no model says it: in a repository without commits, whose paths end no line."""
    names = [name[2:] for name in case.does("status").split(b"\n") if name]
    for each in {*staged} - {*names}:
        del staged[each]
    for each in names:
        staged[each] = None


def cats(case, path, staged):
    words = ["cat", "--", path]
    if is_no_text(path):
        case.has(words, NO_TEXT)
    elif fault_of(path) is not None:
        case.refuses(words, "BadPath", fault_of(path))
    elif path not in staged:
        case.refuses(words, "NotStaged")
    elif staged[path] is not None:
        case.has(words, Answer(0, staged[path], b""))


def removes(case, path, staged):
    words, fault = ["rm", "--", path], fault_of(path)
    below = [each for each in staged if each.startswith(path + b"/")]
    if is_no_text(path):
        case.has(words, NO_TEXT)
    elif path.rstrip(b"/") != path or path == b".":
        # A word of a folder, with any number of slashes after it.
        case.run(*words)
        reads_staged(case, staged)
    elif path in staged or below:
        case.has(words, DONE)
        for each in below or [path]:
            del staged[each]
    elif fault is not None:
        case.refuses(words, "BadPath", fault)
    else:
        case.refuses(words, "NotStaged")


def runs_files(case, paths, staged):
    """All paths have to be staged, and the first that isn't is reported."""
    words = ["run-files", "--", *paths]
    wrong = next((path for path in paths if fault_of(path) is not None or path not in staged), None)
    if any(map(is_no_text, paths)):
        case.has(words, NO_TEXT)
    elif b".pre-commit-config.yaml" not in staged:
        case.refuses(words, "NoConfig")
    elif wrong is None:
        check(case.run(*words).status == 0, "a run of named files fails")
    elif fault_of(wrong) is not None:
        case.refuses(words, "BadPath", fault_of(wrong))
    else:
        case.refuses(words, "NotStaged")


def lists(case, paths, staged):
    """The paths as a list in a file or on standard input, which may end without a NUL byte, or be of other bytes."""
    command = case.chance.choice(["add", "rm", "run-files"])
    listed = b"\0".join(paths) + b"\0" * case.chance.choice([0, 1, 1, 2])
    if case.chance.random() < 0.2:
        listed = case.chance.randbytes(case.chance.choice([0, 1, 5, 500]))
    if case.chance.random() < 0.5:
        case.run(command, "--paths-from=-", given=listed)
    else:
        case.write(b"list", listed)
        case.run(command, "--paths-from=list")
    reads_staged(case, staged)


def reads_no_end(case):
    """A file without an end, in the place of each file that a command reads."""
    unusable = Answer(3, b"", b"hookhost: cannot use %s\n" % ENDLESS)
    for command in ("add", "rm", "run-files"):
        case.has([command, b"--paths-from=" + ENDLESS], unusable)
    os.symlink(ENDLESS, os.path.join(os.fsencode(case.folder), b"endless"))
    case.changes()
    case.has(["add", b"endless"], Answer(3, b"", b"hookhost: cannot use endless\n"))
    case.has(["try", CONFIGURATION, ENDLESS], unusable)
    case.refuses(["try", ENDLESS, "a"], "Config")
    check(case.run("explain", ENDLESS).status != 0, "a configuration without an end is taken")


def plays_paths(case, bases):
    """Words and lists of paths of which the system takes some."""
    known, staged = [b".pre-commit-config.yaml", b"a", b"d/e"], {}
    case.does("init")
    case.write(CONFIGURATION, b"repos:\n- repo: local\n  hooks:\n  - {id: look, name: Look, language: system, entry: 'true', pass_filenames: false}\n")
    for path in (b"a", b"d/e"):
        case.write(path, path)
    for _ in range(8):
        path = made_path(case.chance, [])
        if lay(case, path):
            known.append(path)
    case.has(["add", CONFIGURATION], DONE)
    staged[CONFIGURATION.encode()] = None
    for _ in range(10):
        path, others = made_path(case.chance, known), [made_path(case.chance, known) for _ in range(3)]
        adds(case, path, staged)
        cats(case, path, staged)
        case.chance.choice([removes, cats, adds])(case, others[0], staged)
        case.chance.choice([runs_files, lists])(case, others, staged)
        case.run("cat", "--commit=1", "--", path)
        case.run("cat", "--fixed", "--", path)
    # Without `--` a word may be an option, or a value of one.
    case.run(case.chance.choice(["add", "rm", "cat", "run-files", "log", "show", "try", "explain"]), *(it for it in others if stands_for(case, it) != "folder"))
    if case.chance.random() < 0.1:
        reads_no_end(case)
