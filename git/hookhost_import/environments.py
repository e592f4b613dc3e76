"""What hooks run: the files of clones and environments, and of the programs outside to which these lead."""
import hashlib
import os
import shutil

from hookhost_import.basics import digest_of
from hookhost_import.pre_commit_parts import environment_of

# Git's own files of a clone, and compiled modules, which Python writes as it runs.
LEFT_OUT = (".git", "__pycache__")


class States:
    """Whether the state of a file is a digest of what it holds, and not what the system keeps of it."""

    by_content = False


def state_of(path):
    """What tells whether a file is still the same, by default without reading it."""
    try:
        if States.by_content and os.path.isfile(path):
            with open(path, "rb") as file:
                return f"{path} {hashlib.sha256(file.read()).hexdigest()}"
        if States.by_content and os.path.exists(path):
            return f"{path} is a folder"
        found = os.stat(path)
    except OSError:
        return f"{path} is missing"
    return f"{path} {found.st_dev} {found.st_ino} {found.st_size} {found.st_mtime_ns} {found.st_ctime_ns}"


def files_below(top):
    """The files and links below a folder."""
    for folder, folders, names in os.walk(top):
        folders[:] = sorted(name for name in folders if name not in LEFT_OUT)
        for name in sorted(names + [name for name in folders if os.path.islink(os.path.join(folder, name))]):
            yield os.path.join(folder, name)


def leads_out(path, top):
    """The file outside to which a link leads, or the program outside that the first line of a script names; else None."""
    if os.path.islink(path):
        target = os.path.realpath(path)
        return None if target.startswith(top + os.sep) or not os.path.isfile(target) else target
    if not os.access(path, os.X_OK):
        return None
    with open(path, "rb") as file:
        line = file.readline(4096)
    words = os.fsdecode(line[2:]).split() if line.startswith(b"#!") else []
    if not words:
        return None
    if os.path.basename(words[0]) == "env":
        found = [shutil.which(word) for word in words[1:] if not word.startswith("-") and "=" not in word][:1]
        return found[0] if found else None
    return None if words[0].startswith(top + os.sep) or not os.path.isfile(words[0]) else words[0]


class Environment:
    """The folder with a hook's clone and environment: what is looked at there, and the state in which it is."""

    seen = {}

    def __init__(self, top):
        self.top = os.path.realpath(top)
        self.outside, states = set(), []
        for path in files_below(self.top):
            states.append(state_of(path) + (" " + os.readlink(path) if os.path.islink(path) else ""))
            found = leads_out(path, self.top)
            if found is not None:
                self.outside.add(found)
        self.state = digest_of(*states, *map(state_of, sorted(self.outside)))

    @staticmethod
    def of(hook):
        """The hook's environment. The folder of a clone has its environment too."""
        top = hook.prefix.prefix_dir
        if top not in Environment.seen:
            Environment.seen[top] = Environment(top)
        return Environment.seen[top]


def is_installed(hook):
    """Whether there is an environment, whole or not."""
    folder = environment_of(hook)
    return folder is None or os.path.isdir(folder)
