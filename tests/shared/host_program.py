"""The built program in folders of its own: what it answers, and what is in a repository then."""
import os
import shutil
import subprocess
import sys

from places import program

PROGRAM = os.path.abspath(sys.argv[2] if len(sys.argv) > 2 else program("hookhost"))
STORE_TRIAL = os.path.abspath(sys.argv[3] if len(sys.argv) > 3 else program("store_trial"))
STORE, LOCK, IGNORE_FILE = ".hookhost/store.db", ".hookhost/lock", ".hookhost/.gitignore"
NOBODY = 65534


class Wrong(Exception):
    """What is wrong, in words."""


def check(holds, text):
    if not holds:
        raise Wrong(text)


# ---- the program

def line(name, end):
    """A hook's first line in a report of 80 columns."""
    return f"{name:.<73}{end}\n".encode()


def run(folder, *words, **how):
    """The exit status and what was printed on both outputs, of the program with these words in the folder."""
    path, seconds = how.pop("program", PROGRAM), how.pop("timeout", 120)
    done = subprocess.run([path, *words], cwd=folder, stdin=subprocess.DEVNULL, capture_output=True, timeout=seconds, **how)
    return done.returncode, done.stdout, done.stderr


def do(folder, *words):
    """What the command prints, which has to be done."""
    status, out, err = run(folder, *words)
    check((status, err) == (0, b""), f"{words!r} in {os.listdir(folder)!r} ends with {status} and says {err!r}")
    return out


def refuses(folder, words, text, **how):
    answer = run(folder, *words, **how)
    wanted = (3, b"", b"hookhost: " + text.encode() + b"\n")
    check(answer == wanted, f"{words!r} is answered {answer!r}, wanted {wanted!r}")


def owned_by_nobody(folder):
    """A copy of the program that anyone may run, and how to run it as a user who is subject to permissions."""
    if os.geteuid() != 0:
        return PROGRAM, {}
    copied = shutil.copy(PROGRAM, os.path.join(folder, "program"))
    for path in (folder, copied):
        os.chmod(path, 0o755)
    return copied, {"user": NOBODY, "group": NOBODY, "extra_groups": []}


def play(folder, lines):
    """What store_trial answers to lines on the folder's store."""
    text = "".join(line + "\n" for line in ["open", *lines, "close"])
    done = subprocess.run([STORE_TRIAL, STORE], cwd=folder, input=text.encode(), capture_output=True, timeout=120)
    answers = done.stdout.decode().splitlines()
    check(len(answers) == len(lines) + 2 and all(answer.startswith("ok") for answer in answers), f"store_trial answers {answers!r}")
    return answers[1:-1]


def rows(folder, text):
    """What sqlite3 answers to SQL on the folder's store, which isn't to be open."""
    done = subprocess.run(["sqlite3", "-batch", os.path.join(folder, STORE), text], capture_output=True, timeout=60)
    check(done.returncode == 0, f"sqlite3 refuses {text!r}: {done.stderr!r}")
    return done.stdout.decode().splitlines()


def staged_rows(folder):
    """The staged files as sqlite3 reads them: mode and contents by path."""
    found = (line.split("|") for line in rows(folder, "SELECT hex(path), mode, hex(bytes) FROM staged JOIN blobs USING (digest)"))
    return {bytes.fromhex(path): (int(mode), bytes.fromhex(held)) for path, mode, held in found}


def write(folder, path, held):
    path = os.path.join(folder, path)
    os.makedirs(os.path.dirname(path), exist_ok=True)
    with open(path, "wb") as file:
        file.write(held)


def paths_in(folder):
    """All that is in the folder."""
    return sorted(os.path.relpath(os.path.join(at, name), folder) for at, folders, names in os.walk(folder) for name in (*folders, *names))
