"""The Python in which pre-commit is installed, which is often not the one that started this script."""
import os
import re
import shutil
import sys

from hookhost_import.basics import Refused

# Says that this Python is already the one of pre-commit.
CHOSEN = "HOOKHOST_IMPORT_PYTHON"


def python_of(program):
    """The interpreter of the program pre-commit, by its first line, or None if that isn't Python."""
    with open(program, "rb") as file:
        first, second = (os.fsdecode(file.readline()) for _ in range(2))
    words = first[2:].split() if first.startswith("#!") else []
    if words[:1] == ["/usr/bin/env"] and len(words) > 1:
        words = [shutil.which(words[-1])]
    # An installer writes this, if the path of the interpreter is too long for a first line or has blanks.
    if it := re.match(r"'''exec' (?:\"(.*?)\"|(\S+)) ", second):
        words = [it[1] or it[2]]
    is_python = words and words[0] and re.match(r"python|pypy", os.path.basename(words[0])) and os.access(words[0], os.X_OK)
    return words[0] if is_python else None


def use_python_of_pre_commit():
    """Starts this script again by the Python of `pre-commit` along the PATH. So environments are those that it would install itself."""
    program = shutil.which("pre-commit")
    if program is None:
        raise Refused("there is no pre-commit along the PATH, which installs the hooks of other repositories")
    python = python_of(program)
    if python is None:
        raise Refused(f"{program} isn't a script of Python, so its modules aren't known")
    # In a virtual environment the same file, by another link, has other modules.
    if python != sys.executable and os.environ.get(CHOSEN) != python:
        os.environ[CHOSEN] = python
        os.execv(python, [python, os.path.realpath(sys.argv[0]), *sys.argv[1:]])
    os.environ.pop(CHOSEN, None)
