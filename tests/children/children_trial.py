"""What tests/children/children.py plays children with: the built program child_trial in a folder of its own, with a tree."""
import atexit
import os
import re
import select
import shutil
import signal
import subprocess
import sys
import tempfile
import time
from pathlib import Path

from places import program

HERE = Path(__file__).resolve().parent
# Everything lies here. So does a copy of the program, since the repository may be closed to all but its owner.
WORDS = sys.argv[1:] if Path(sys.argv[0]).name == "children.py" else []
PLACE = WORDS[WORDS.index("--in") + 1] if "--in" in WORDS else None
BASE = tempfile.mkdtemp(prefix="children-", dir=PLACE)
os.chmod(BASE, 0o777)
atexit.register(shutil.rmtree, BASE, True)
GIVEN = [word for word in sys.argv[1:] if word not in ("-v", "--settled", "--reads", "--in", PLACE)]
PROGRAM = shutil.copy(GIVEN[0] if GIVEN else program("child_trial"), Path(BASE, "child_trial"))
os.chmod(PROGRAM, 0o755)
# The signals whose default is to end a process.
DEADLY = [1, 2, 3, 4, 5, 6, 7, 8, 9, 10, 11, 12, 13, 14, 15, 16, 24, 25, 26, 27, 29, 30, 31, *range(34, 65)]
# A signal that is ignored here is in each child too: a shell in the background ignores some, and nohup another. The one of a pipe that
# nobody reads stays ignored here, and subprocess turns it on in each child. A program that is refused memory may end before its input is
# written.
for number in DEADLY:
    if number not in (signal.SIGKILL, signal.SIGPIPE):
        signal.signal(number, signal.SIG_DFL)
NOBODY = 65534
MIB = 1 << 20
NAMES = ["NotStarted", "WaitFailed", "Signal", "OutputTooLong", "ScratchFailed"]
# What a child sees: each entry's kind, mode, links, owner, group and path, and what each file contains.
SEEN = "find . -printf '%y %m %n %U %G %P\\n' | sed 's/^d \\([0-7]*\\) [0-9]*/d \\1/' | LC_ALL=C sort; find . -type f -print0 | LC_ALL=C sort -z | xargs -0r sha256sum"
# What the program reads of the files, by what its environment says.
READS = {"what may have changed": {}, "everything": {"CHILD_TRIAL_READS": "everything"}}
TREE = {"a.txt": b"one\n", "b.txt": b"two\n", "d/c.txt": b"three\n", "d/e/f.txt": b"", "d-e": b"x", "é/日本": b"y"}


class Wrong(Exception):
    """What is wrong, in words."""


def check(holds, text):
    if not holds:
        raise Wrong(text)


def equal(found, wanted, text):
    check(found == wanted, f"{text}: {str(found)[:600]} in place of {str(wanted)[:600]}")


def digits(data):
    data = data.encode() if isinstance(data, str) else data
    return data.hex() or "-"


class Trial:
    """A child_trial in a new folder, with a tree."""

    # What the programs are given to read, and the words and outcomes of all children, in their order.
    reads = READS["what may have changed"]
    told = []

    def __init__(self, tree=(), user=None, keep=None, limit=None, programs=(), folder="h/scratch", starter=(), **how):
        self.top = keep or tempfile.mkdtemp(prefix="children-", dir=BASE)
        os.chmod(self.top, 0o777)
        self.tree = {}
        # The paths of the files that are to be run.
        self.programs = set()
        self.calls = self.faults = 0
        as_user = {"user": user, "group": user, "extra_groups": []} if user is not None and os.getuid() == 0 else {}
        how["env"] = how.get("env", os.environ) | Trial.reads
        # A shell sets a limit, and has the program in its place. So has what `starter` names.
        words = [*starter, PROGRAM, folder] if limit is None else ["sh", "-c", f'ulimit {limit}; exec "$@"', "sh", PROGRAM, folder]
        self.process = subprocess.Popen(words, cwd=self.top, stdin=subprocess.PIPE, stdout=subprocess.PIPE, stderr=subprocess.DEVNULL, **as_user, **how)
        for path, data in dict(tree).items():
            (self.program if path in programs else self.file)(path, data)

    def ask(self, *words, within=None):
        self.process.stdin.write(" ".join(words).encode() + b"\n")
        self.process.stdin.flush()
        if within is not None and not select.select([self.process.stdout], [], [], within)[0]:
            self.process.kill()
            raise Wrong(f"the program hangs at {words!r}")
        line = self.process.stdout.readline()
        return bytes.fromhex(line.decode().strip()).decode() if line.endswith(b"\n") else None

    def file(self, path, data):
        self.tree[path] = data
        self.programs.discard(path)
        self.ask("file", digits(path), digits(data))

    def program(self, path, data):
        self.tree[path] = data
        self.programs.add(path)
        self.ask("program", digits(path), digits(data))

    def remove(self, path):
        del self.tree[path]
        self.programs.discard(path)
        self.ask("remove", digits(path))

    def run(self, *words):
        """The outcome of a child: a fault's name, or (status, output, changes)."""
        outcome = self.outcome(*words)
        Trial.told.append((words, outcome))
        return outcome

    def outcome(self, *words, within=None):
        text = self.ask("run", *map(digits, words), within=within)
        check(text is not None, f"the program ends at {words!r}")
        calls, faults, *rest = text.split(" ")
        if rest == ["memory"]:
            equal((calls, faults), (f"calls={self.calls}", f"faults={self.faults}"), "counts after want of memory")
            return "memory"
        self.calls += 1
        self.faults += rest[0] in NAMES
        equal((calls, faults), (f"calls={self.calls}", f"faults={self.faults}"), "counts")
        if rest[0] in NAMES:
            return rest[0]
        changes = {}
        for change in rest[2:]:
            path, mark, data = re.fullmatch(r"([0-9a-f]+)([=-])([0-9a-f]*)", change).groups()
            changes[bytes.fromhex(path).decode()] = bytes.fromhex(data) if mark == "=" else None
        return int(rest[0]), bytes.fromhex(rest[1][1:]), changes

    def sh(self, text):
        return self.run("sh", "-c", text)

    def sees_the_tree(self, after):
        """Checks that the next child finds what it would in a newly made folder, and that it leaves it so."""
        wanted = Trial(self.tree, user=NOBODY if self.is_nobody() else None, programs=self.programs)
        equal(self.sh(SEEN), wanted.sh(SEEN), f"what the child after {after!r} sees")
        wanted.end()

    def is_nobody(self):
        return os.getuid() == 0 and os.stat(f"/proc/{self.process.pid}").st_uid == NOBODY

    def peak(self):
        """The most memory that the program has had, in bytes."""
        return int(re.search(r"VmHWM:\s*(\d+) kB", Path(f"/proc/{self.process.pid}/status").read_text())[1]) * 1024

    def reads_of(self, *words):
        """How many bytes the program reads of a child of these words and of its files."""
        counted = lambda: int(re.search(r"rchar: (\d+)", Path(f"/proc/{self.process.pid}/io").read_text())[1])
        before = counted()
        self.run(*words)
        return counted() - before

    def end(self):
        self.process.stdin.close()
        self.process.wait()


def users():
    return [None, NOBODY] if os.getuid() == 0 else [None]


def beside(trial):
    """The names in the folder that holds the scratch folder."""
    return sorted(os.listdir(f"{trial.top}/h"))


def configuration(entry, more=""):
    return f"repos:\n- repo: local\n  hooks:\n  - {{id: t, name: T, language: system, entry: {entry}, files: '\\.txt$'{more}}}\n"


def runs_are(trial, text, *runs):
    """Checks that runs of the hooks print this, one after another, with these counts in all: outcomes, faults among them, and cached
    answers."""
    for number, (how, said, counts) in enumerate(runs):
        equal(trial.ask("hooks", digits(text), digits(how)), said, f"what run {number} of {text!r} says")
        equal(trial.ask("counts"), counts, f"the counts behind run {number} of {text!r}")


def of_hook(verdict, *lines):
    return f"{verdict.lower()}\nT{'.' * 72}{verdict}\n" + "".join(f"- {each}\n" for each in lines)


# Files that are known once a child has run: after them others are written, so that the clock of the file system goes on
# before the first child.
KNOWN = 300
FILLED = TREE | {f"z/{i}": b"z" * 400 for i in range(KNOWN)}


def built(name, text):
    """The program of a text in C."""
    program = Path(BASE, name)
    if not program.exists():
        subprocess.run(["cc", "-O1", "-x", "c", "-o", program, "-"], input=text.encode(), check=True)
        program.chmod(0o755)
    return str(program)


def known_trial(user=None, **how):
    """A trial whose files are known, if they can be: two children have run."""
    trial = Trial(FILLED, user=user, **how)
    for _ in range(2):
        equal(trial.run("true"), (0, b"", {}), "a child that changes nothing")
    return trial


def wait_for(place):
    until = time.monotonic() + 60
    while not os.path.exists(place):
        check(time.monotonic() < until, f"{place} isn't there")
        time.sleep(0.0005)


def takes(trial, outcome):
    """Gives the trial the tree that a child left."""
    for path, data in outcome[2].items():
        trial.file(path, data)


def kind_of(place):
    """The kind of the file system that a place lies on."""
    device = os.stat(place).st_dev
    wanted = f"{os.major(device)}:{os.minor(device)}"
    kinds = [line.split(" - ")[1].split()[0] for line in Path("/proc/self/mountinfo").read_text().splitlines() if line.split()[2] == wanted]
    return kinds[0] if kinds else "one that isn't listed"


def are_fine(place):
    """Whether times of files are given finer than in thousandths of a second. One alone may be a whole number of these."""
    made = [Path(place, f"fine-{number}") for number in range(3)]
    for path in made:
        path.touch()
        time.sleep(0.02)
    return any(path.stat().st_ctime_ns % 1_000_000 for path in made)


# Whether times of files show what was changed, in the place in which all is played.
TELLING = kind_of(BASE) == "ext4" and are_fine(BASE)
