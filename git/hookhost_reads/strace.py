"""What strace shows of the commands that a run of hookhost starts."""
import os
import re
import shutil
from dataclasses import dataclass, field

from hookhost_reads.basics import Refused, done

TRACED = "open,openat,openat2,creat,execve,execveat,readlink,readlinkat,stat,lstat,newfstatat,statx,access,faccessat,faccessat2,getdents,getdents64," \
    "chdir,fchdir,mkdir,mkdirat,rename,renameat,renameat2,link,linkat,symlink,symlinkat,clone,clone3,fork,vfork"
STARTS = "execve,clone,clone3,fork,vfork"
LINE = re.compile(r"(\d+\.\d+) (\w+)\((.*)\) += (-?\d+|\?)(?:<((?:[^<>\\]|\\.)*)>(?:\(deleted\))?)?(?: ([A-Z]+) .*)?$", re.DOTALL)
CURRENT = re.compile(r"AT_FDCWD<((?:[^<>\\]|\\.)*)>")
PLACE = re.compile(r"(?:AT_FDCWD|-?\d+)(?:<((?:[^<>\\]|\\.)*)>(?:\(deleted\))?)?")
TEXT = re.compile(r'"((?:[^"\\]|\\.)*)"')
ESCAPED = re.compile(rb"\\(?:([0-7]{1,3})|x([0-9a-f]{2})|(.))", re.DOTALL)
LETTERS = {b"a": b"\a", b"b": b"\b", b"f": b"\f", b"n": b"\n", b"r": b"\r", b"t": b"\t", b"v": b"\v"}
ABSENT = ("ENOENT", "ENOTDIR", "ELOOP")
# Calls on two paths that make the second one.
RENAMES = ("rename", "renameat", "renameat2", "link", "linkat", "symlink", "symlinkat")


def strace_words():
    """The words of a strace that works here."""
    if shutil.which("strace") is None:
        raise Refused("there is no strace, which shows what commands read: install the package of that name")
    said = b""
    for words in (["strace", "--seccomp-bpf"], ["strace"]):
        tried = done([*words, "-f", "-qq", "-y", "-o", "/dev/null", "-e", "trace=execve", "true"])
        if tried.returncode == 0:
            return words
        said = tried.stderr
    lines = said.decode(errors="replace").strip().split("\n")
    raise Refused(f"strace can't trace here; a container or its settings may forbid it: {lines[0]}")


def unescaped(text):
    """A text as it was before strace escaped it."""
    def letter(it):
        if it[1]:
            return bytes([int(it[1], 8)])
        return bytes([int(it[2], 16)]) if it[2] else LETTERS.get(it[3], it[3])
    return os.fsdecode(ESCAPED.sub(letter, os.fsencode(text)))


@dataclass
class Command:
    """A command that hookhost has started: its words, and what its processes did."""

    words: tuple
    opened: dict = field(default_factory=dict)     # each path that was opened for reading, and when it was last
    looked: set = field(default_factory=set)       # paths that were there when they were asked for
    absent: set = field(default_factory=set)       # paths that weren't
    made: set = field(default_factory=set)
    listed: dict = field(default_factory=dict)     # each folder that was listed, and when it was first
    calls_git: bool = False
    count: int = 1                                 # how often it was started

    def add(self, other):
        self.count += other.count
        self.opened |= other.opened
        self.looked |= other.looked
        self.absent |= other.absent
        self.made |= other.made
        self.listed |= other.listed
        self.calls_git |= other.calls_git


class Trace:
    """The commands that a traced hookhost has started, read from the files of strace, one for each process."""

    def __init__(self, folder, main, scratch):
        self.folder, self.scratch, self.commands, self.seen = folder, scratch, [], set()
        self.read(main, scratch, None, is_main=True)
        # A process whose number no other one shows, as in a namespace of its own, may belong to any command.
        for name in sorted(os.listdir(folder)):
            if name[2:] not in self.seen:
                lost = Command((), count=0)
                self.read(name[2:], scratch, lost)
                for command in self.commands:
                    command.add(lost)

    def lines(self, number):
        try:
            with open(os.path.join(self.folder, "t." + number), "rb") as file:
                for line in file:
                    if it := LINE.match(os.fsdecode(line.rstrip(b"\n"))):
                        yield float(it[1]), it[2], it[3], it[4], it[5], it[6]
        except FileNotFoundError:
            return

    def read(self, number, cwd, command, *, is_main=False):
        """Reads what a process did, and then the processes that it has started. Each is hookhost's own, or belongs to a command."""
        self.seen.add(number)
        begun = []
        is_first, is_git = True, False
        for at, call, rest, result, real, error in self.lines(number):
            # strace shows the current folder in calls that name one. This corrects it after a chdir through a link.
            if it := CURRENT.search(rest):
                cwd = unescaped(it[1])
            if call in ("execve", "execveat") and result == "0" and command is None:
                # The first execve of the main process starts hookhost; those of its children start commands.
                if is_main and is_first:
                    is_first = False
                    continue
                command, cwd = Command(words_of(rest)), self.scratch
                self.commands.append(command)
            if call in ("clone", "clone3", "fork", "vfork"):
                if result.isdigit() and result != "0":
                    begun.append((result, cwd, command, command is None and "CLONE_THREAD" in rest))
            elif call == "fchdir" and result == "0":
                cwd = place_of(rest) or cwd
            elif call == "chdir" and result == "0" and "/proc/self/" not in rest:
                cwd = os.path.normpath(os.path.join(cwd, path_of(rest, cwd) or ""))
            elif command is not None:
                if call in ("execve", "execveat") and result == "0":
                    is_git = os.path.basename(path_of(rest, cwd) or "") == "git"
                # Where Git looks for a repository, it doesn't look for files of the tree.
                if not is_git or error not in ABSENT:
                    note(command, at, call, rest, cwd, result, real, error)
        for child, child_cwd, child_command, is_thread in begun:
            if child not in self.seen:
                self.read(child, child_cwd, child_command, is_main=is_thread)


def words_of(rest):
    """The words of a started program, from the arguments of execve."""
    listed = re.search(r', \[((?:"(?:[^"\\]|\\.)*"(?:, )?)*)\]', rest)
    return tuple(unescaped(it[1]) for it in TEXT.finditer(listed[1])) if listed else ()


def place_of(rest):
    place = PLACE.match(rest)
    return unescaped(place[1]) if place and place[1] else None


def path_of(rest, cwd):
    """The full path that a call names."""
    place = PLACE.match(rest)
    begin = place.end() + 2 if place and place.end() and rest[place.end():place.end() + 2] == ", " else 0
    text = TEXT.match(rest, begin)
    if text is None or not text[1]:
        return None
    folder = unescaped(place[1]) if begin and place[1] else cwd
    return os.path.normpath(os.path.join(folder, unescaped(text[1])))


def last_path(rest, cwd):
    """The second path of a call on two paths."""
    folder, path = None, None
    for it in re.finditer(PLACE.pattern + r'(?=, ")|' + TEXT.pattern, rest):
        if it[0].startswith('"'):
            path = os.path.normpath(os.path.join(folder or cwd, unescaped(it[2])))
        else:
            folder = unescaped(it[1]) if it[1] else None
    return path


def note(command, at, call, rest, cwd, result, real, error):
    """Records what a call shows of files."""
    is_done = error is None and result != "?"
    if call in ("getdents", "getdents64"):
        folder = place_of(rest)
        if folder:
            command.listed.setdefault(folder, at)
        return
    if call in RENAMES or call in ("mkdir", "mkdirat"):
        if is_done and (path := last_path(rest, cwd)):
            command.made.add(path)
        return
    path = path_of(rest, cwd)
    if path is None:
        return
    if call in ("open", "openat", "openat2", "creat"):
        path = unescaped(real) if is_done and real else path
        if is_done and (call == "creat" or re.search(r"\bO_(EXCL|TRUNC)\b", rest) or ("O_CREAT" in rest and path in command.absent)):
            command.made.add(path)
        elif is_done and "O_WRONLY" not in rest and "O_DIRECTORY" not in rest and "O_PATH" not in rest:
            command.opened[path] = at
        elif error in ABSENT:
            command.absent.add(path)
        elif not is_done or "O_PATH" in rest:
            command.looked.add(path)
        return
    if call in ("execve", "execveat") and is_done:
        command.opened[path] = at
        command.calls_git |= os.path.basename(path) == "git"
    elif call in ("readlink", "readlinkat") and is_done:
        command.opened[path] = at
    elif error in ABSENT:
        command.absent.add(path)
    else:
        command.looked.add(path)
