#!/usr/bin/env python3
"""Runs the sessions of tests/sessions/ with the built program and compares every byte that it prints.

Usage: tests/sessions/sessions.py [PROGRAM [CASE]]   (default: crates/hookhost/out/hookhost, all cases; CASE: a part of FILE: NAME)

A session file holds cases. `== NAME` begins a case, in an empty folder. Within it:
  -- file PATH      the lines that follow are the file's content
  -- bytes PATH     the same, with Python's escapes, for bytes that no text file keeps; line ends are as written
  -- fill PATH N    `#` is added at the file's end until it has N bytes
  -- repeat N PATH  the lines that follow are added at the file's end N times
  -- folder PATH    an empty folder
  -- link PATH TARGET   a symbolic link
  -- remove PATH    the file is removed, or the folder with all in it
  -- demo           the files of demo/
  -- stdin          the lines that follow are the next command's standard input
  -- stdin PATH     the file is its standard input, or the folder, which can't be read
  -- run WORD ..    runs `hookhost WORD ..`, the words cut as a shell cuts them
  -- run-bytes WORD ..   the same with Python's escapes, the words cut at blanks, for words that no text file keeps
  -- stdout, -- stderr   what that command printed there, to the byte (nothing if left out); how long a hook took is N
  -- stdout bytes   the same of standard output with Python's escapes; line ends are as written
  -- stdout build   the same of standard output, and then the line that the end of the program's file says of its build
  -- shown in PATH  that file of the repository has what it printed, to the byte
  -- stderr contains TEXT   a part of what it printed there
  -- status N       its exit status (0 if left out)
  -- output FILE    its standard output goes to this file, as /dev/full, and isn't compared
  -- counted        hooks count their calls: from here on each `run`, `run-files` and `commit` has `--jobs=1`
  -- locked         another process holds the lock while the next command runs
  -- environment NAME=VALUE   the variable has this value in the next command's environment
  -- play           store_trial plays the lines that follow on the folder's store, and answers `ok` to each
  -- sql TEXT       sqlite3 answers this to SQL on the store: the lines that follow, and nothing else
  -- files          the lines that follow are the folder's files, all of them, in order

After each command every file has to be as it was, except after an `init`, `add`, `rm`, `accept`, `run`, `run-files`, `commit`,
`forget` or `memory --limit` that is done. Such a command is done also if its output can't be written, or if a hook fails. After one
that runs hooks and is refused, the repository in the store has to be as it was, since results may have been cached. The same holds
after any command that converts a store of an earlier version. Two files may change, since every command that opens a store changes
them: the lock, and the log that the database begins again. The scratch folder of the commands of hooks isn't compared, nor is the
folder that holds it.
"""
import fcntl
import os
import re
import shlex
import shutil
import sqlite3
import subprocess
import sys
import tempfile

sys.path.insert(0, os.path.abspath(f"{__file__}/../../shared"))
from build_stamps import build_line
from places import TOP, program

PROGRAM = os.path.abspath(sys.argv[1] if len(sys.argv) > 1 else program("hookhost"))
CASE = sys.argv[2] if len(sys.argv) > 2 else ""
STORE_TRIAL = program("store_trial")
STORE, LOCK = ".hookhost/store.db", ".hookhost/lock"
FOLDER, SCRATCH = "./.hookhost", "./.hookhost/scratch"
LAID = ("file", "bytes", "fill", "repeat", "folder", "link", "remove", "demo")
LOOKED_AT = ("play", "sql", "files")
RUNNING = ("run", "run-files", "hook", "commit")
REPOSITORY = ("staged", "fixes", "commits", "entries")
# What `meta` has in a store of an earlier version.
EARLIER = [("version", 1)]
CHANGING = ("init", "add", "rm", "accept", "run", "run-files", "commit", "forget")
# A line that says how long a hook took.
DURATION = re.compile(rb"^(duration: .* )[0-9]+\.[0-9]{2}s$", re.MULTILINE)


def unescaped(text):
    """The bytes that the text is with Python's escapes."""
    return text.encode().decode("unicode_escape").encode("latin-1")


def cases_of(path):
    """The cases of a session file: (name, [(head, body)])."""
    cases, steps, body = [], None, None
    with open(path, encoding="utf-8") as file:
        for line in file:
            if line.startswith("== "):
                steps = []
                cases.append((line[3:].strip(), steps))
                body = None
            elif line.startswith("-- "):
                body = []
                steps.append((line[3:].rstrip("\n"), body))
            elif body is not None:
                body.append(line)
    return [(name, [(head, "".join(lines)) for head, lines in steps]) for name, steps in cases]


def commands_of(steps):
    """The steps as a list of files to write, commands with what they must print, and looks at the folder."""
    stdin, is_locked, environment, command, is_counted = b"", False, {}, None, False
    for head, body in steps:
        word, _, rest = head.partition(" ")
        if word in LAID or word in LOOKED_AT:
            yield word, rest, body
        elif word == "stdin":
            stdin = rest or body.encode()
        elif word == "locked":
            is_locked = True
        elif word == "counted":
            is_counted = True
        elif word == "environment":
            name, _, value = rest.partition("=")
            environment[name] = value
        elif word in ("run", "run-bytes"):
            words = shlex.split(rest) if word == "run" else [unescaped(each) for each in rest.split()]
            if is_counted and words[:1] and words[0] in RUNNING:
                words.insert(1, "--jobs=1")
            command = {"words": words, "stdin": stdin, "stdout": b"", "stderr": b"", "part": None, "status": 0,
                       "output": None, "shown": None, "is_locked": is_locked, "environment": environment}
            stdin, is_locked, environment = b"", False, {}
            yield "run", command, None
        elif word == "stdout":
            told = body + (build_line(PROGRAM) if rest == "build" else "")
            command["stdout"] = unescaped(body.replace("\n", "")) if rest == "bytes" else told.encode()
        elif word == "stderr" and rest.startswith("contains "):
            command["part"] = rest[len("contains "):].encode()
        elif word == "stderr":
            command["stderr"] = body.encode()
        elif word == "output":
            command["output"] = rest
        elif word == "shown":
            command["shown"] = rest[len("in "):]
        elif word == "status":
            command["status"] = int(rest)
        else:
            sys.exit(f"unknown step: {head}")


def content(path):
    with open(path, "rb") as file:
        return file.read()


def held_at(path):
    """What a file holds, or the target of a link."""
    return os.readlink(path) if os.path.islink(path) else content(path)


def files_that_stay():
    """The folders and the files below this folder with their contents, except those that commands may change."""
    found = {}
    for folder, folders, names in os.walk("."):
        folders[:] = [name for name in folders if os.path.join(folder, name) != SCRATCH]
        found.update((os.path.join(folder, name), None) for name in folders)
        found.update((os.path.join(folder, name), held_at(os.path.join(folder, name))) for name in names)
    return {path: held for path, held in found.items() if path not in (FOLDER, "./" + LOCK, "./" + STORE + "-wal")}


def rows_in(store, tables):
    """The rows of these tables of a store, whose file holds these bytes, or None if it is no database that has
    them."""
    database = sqlite3.connect(":memory:")
    try:
        # The database in memory has no log, so the bytes must not ask for one.
        database.deserialize(store[:18] + b"\1\1" + store[20:])
        return [database.execute(f"SELECT * FROM {table}").fetchall() for table in tables]
    except sqlite3.DatabaseError:
        return None
    finally:
        database.close()


def changes_all(words):
    """Whether a command that is done may change all of a store."""
    limits = words[:1] == ["memory"] and any(word.startswith("--limit") for word in words)
    runs = words[:1] == ["hook"] and words[-1] in ("pre-commit", "post-commit")
    return limits or runs or words[:1] in [[word] for word in CHANGING]


def is_left(before, after, words):
    """The files are as before. After hooks the store may have other answers, and one of an earlier version may be
    taken over."""
    store = "./" + STORE
    if before == after or store not in before or store not in after:
        return before == after
    is_taken_over = rows_in(before[store], ["meta"]) == [EARLIER] and rows_in(after[store], ["meta"]) != [EARLIER]
    if not is_taken_over and words[:1] not in [[word] for word in RUNNING]:
        return False
    tables = REPOSITORY if is_taken_over else ("meta", *REPOSITORY)
    found, wanted = ({**files, store: rows_in(files[store], tables)} for files in (after, before))
    return wanted[store] is not None and found == wanted


def run_alone(command):
    """What is wrong with the command's answer, or with the files after it, or None."""
    before = files_that_stay()
    held = open(LOCK, "a") if command["is_locked"] else None
    if held:
        fcntl.flock(held, fcntl.LOCK_EX)
    wrong = run(command)
    if held:
        held.close()
    is_done = command["status"] in (0, 1) or command["output"] is not None
    may_change = is_done and changes_all(command["words"])
    after = files_that_stay()
    # Hooks about a message may change its file, and others of the working folder by their full paths.
    if is_done and command["words"][:1] == ["hook"]:
        before, after = ({path: files[path] for path in ("./" + STORE,)} for files in (before, after))
    return wrong or (None if may_change or is_left(before, after, command["words"]) else "it changed the folder's files")


def run(command):
    """What is wrong with the command's answer, or None."""
    stdin = command["stdin"]
    stdout = open(command["output"], "wb") if command["output"] else subprocess.PIPE
    if isinstance(stdin, str) and os.path.isdir(stdin):
        given = {"stdin": os.open(stdin, os.O_RDONLY)}
    else:
        given = {"input": stdin if isinstance(stdin, bytes) else content(stdin)}
    env = {key: value for key, value in os.environ.items() if key != "SKIP"} | command["environment"]
    done = subprocess.run([PROGRAM, *command["words"]], **given, stdout=stdout, stderr=subprocess.PIPE, env=env, timeout=60)
    if done.returncode != command["status"]:
        return f"status {done.returncode}, wanted {command['status']}; printed {(done.stdout or b'')[:300]!r} {done.stderr[:300]!r}"
    if done.stdout is not None and done.stdout != command["stdout"]:
        return f"printed {done.stdout[:600]!r}, wanted {command['stdout'][:600]!r}"
    if command["shown"] and (done.stdout or b"") + done.stderr not in content(os.path.join(TOP, command["shown"])):
        return f"what it printed isn't in {command['shown']}"
    if command["part"] is not None:
        return None if command["part"] in done.stderr else f"{command['part']!r} isn't in {done.stderr[:600]!r}"
    said = DURATION.sub(rb"\1N", done.stderr)
    return None if said == command["stderr"] else f"standard error {said[:600]!r}, wanted {command['stderr'][:600]!r}"


def look(kind, what, body):
    """What is wrong with the folder or its store, or None."""
    wanted = body
    if kind == "files":
        found = sorted(os.path.relpath(os.path.join(folder, name)) for folder, _, names in os.walk(".") for name in names)
        text = "".join(path + "\n" for path in found)
    elif kind == "sql":
        text = answer_of(["sqlite3", "-batch", STORE, what], "")
    else:
        lines = "open\n" + body + "close\n"
        text = "".join(line.split("\t")[0] + "\n" for line in answer_of([STORE_TRIAL, STORE], lines).splitlines())
        wanted = "ok\n" * lines.count("\n")
    return None if text == wanted else f"it is {text[:600]!r}, wanted {wanted[:600]!r}"


def answer_of(words, given):
    """What another program prints, with any exit status."""
    return subprocess.run(words, input=given, stdout=subprocess.PIPE, stderr=subprocess.STDOUT, text=True, timeout=60).stdout


def lay(kind, what, body):
    """Writes the files of a step."""
    if kind == "folder":
        os.makedirs(what)
    elif kind == "link":
        path, target = what.split(" ")
        os.symlink(target, path)
    elif kind == "remove":
        shutil.rmtree(what) if os.path.isdir(what) else os.remove(what)
    elif kind == "demo":
        shutil.copytree(os.path.join(TOP, "demo"), ".", dirs_exist_ok=True, ignore=shutil.ignore_patterns(".*"))
    elif kind == "repeat":
        count, path = what.split(" ", 1)
        with open(path, "ab") as file:
            file.write(body.encode() * int(count))
    elif kind == "fill":
        path, size = what.rsplit(" ", 1)
        with open(path, "ab") as file:
            file.write(b"#" * (int(size) - file.tell()))
    else:
        if os.path.dirname(what):
            os.makedirs(os.path.dirname(what), exist_ok=True)
        with open(what, "wb") as file:
            file.write(body.encode() if kind == "file" else unescaped(body.replace("\n", "")))


def play(steps):
    for kind, what, body in list(commands_of(steps)):
        if kind in LAID:
            lay(kind, what, body)
        elif kind in LOOKED_AT:
            if wrong := look(kind, what, body):
                return f"{kind} {what}: {wrong}"
        elif wrong := run_alone(what):
            return f"hookhost {' '.join(map(str, what['words']))}: {wrong}"
    return None


def main():
    passed, failed = 0, 0
    folder = os.path.join(TOP, "tests", "sessions")
    for name in sorted(name for name in os.listdir(folder) if name.endswith(".txt")):
        for case, steps in cases_of(os.path.join(folder, name)):
            if CASE not in f"{name}: {case}":
                continue
            with tempfile.TemporaryDirectory() as place:
                os.chdir(place)
                wrong = play(steps)
                os.chdir("/")
            passed, failed = (passed, failed + 1) if wrong else (passed + 1, failed)
            if wrong:
                print(f"FAILED {name}: {case}: {wrong}")
    print(f"sessions: {passed} passed, {failed} failed")
    sys.exit(1 if failed or not passed else 0)


main()
