"""The scripts that start the commands of hooks in the environments of pre-commit."""
import contextlib
import os
import re
import shlex
import sys

from hookhost_import.basics import digest_of, in_comment, in_utf8, write_whole
from hookhost_import.environments import Environment, state_of
from hookhost_import.pre_commit_parts import SCRIPT, UNSET, languages


def patches_of(hook):
    """The variables that pre-commit sets for a command of the hook, in its own form (pre_commit.envcontext)."""
    language, found = languages[hook.language], []

    @contextlib.contextmanager
    def noted(patch, _env=None):
        found.extend(patch)
        yield

    was, language.envcontext = language.envcontext, noted
    try:
        with language.in_env(hook.prefix, hook.language_version):
            pass
    finally:
        language.envcontext = was
    return found


def line_of(name, value):
    """The line of a shell that sets the variable. A value of several parts may have other variables as parts."""
    if value is UNSET:
        return f"unset {name}"
    parts = [value] if isinstance(value, str) else value
    return f"export {name}=" + "".join(shlex.quote(part) if isinstance(part, str) else '"${' + part.name + '-}"' for part in parts if part != "")


def script_of(hook, lines, words):
    """The text of a script. It says whose hook it starts."""
    comment = f"# The hook {in_comment(f'{hook.id} of {hook.src}')}, by hookhost-import."
    return "\n".join(["#!/bin/sh", comment, *lines, "exec " + shlex.join(words) + ' "$@"']) + "\n"


def written(folder, hook, rev, text, state):
    """Writes a script, and returns its path. The path has a digest of all that it starts, so a change of that is another command."""
    number = digest_of(hook.src, rev, hook.language, hook.language_version, *hook.additional_dependencies, text, state)[:32]
    name = re.sub(r"[^A-Za-z0-9_.-]+", "-", hook.id).strip("-.")[:40] or "hook"
    path = os.path.join(in_utf8(os.path.abspath(folder), "the folder of scripts"), f"{name}-{number}")
    # One that is there stays the same file: hookhost-git drops what is cached if a program changes.
    if not is_as_written(path, os.fsencode(text)):
        write_whole(path, os.fsencode(text), 0o755)
    return path


def is_as_written(path, held):
    if not os.access(path, os.X_OK):
        return False
    with open(path, "rb") as file:
        return file.read() == held


def write_for_environment(folder, hook, rev):
    """The script for a hook whose words are started in an environment, or of which the first is a file of its repository."""
    first = shlex.split(hook.entry)[0]
    if hook.language in SCRIPT:
        text = script_of(hook, [], [hook.prefix.path(first)])
    else:
        text = script_of(hook, [line_of(*patch) for patch in patches_of(hook)], [first])
    return written(folder, hook, rev, text, Environment.of(hook).state)


def looked_at_for_pygrep():
    return os.path.realpath(sys.executable), os.path.realpath(languages["pygrep"].__file__)


def write_for_pygrep(folder, hook, rev):
    """The script that searches as pre-commit does, for patterns of Python that hookhost doesn't take."""
    text = script_of(hook, [], [sys.executable, "-m", languages["pygrep"].__name__])
    return written(folder, hook, rev, text, "\n".join(map(state_of, looked_at_for_pygrep())))
