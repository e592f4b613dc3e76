"""README.md's session with Git, for tests/git/git_bridge.py: the program prints what it shows."""
import os
import re
import subprocess

from git_bridge_repository import PROGRAM, same
from places import TOP

SECTION = "## As a hook of Git\n"
PROMPT = "$ "


def session():
    """The commands of the session, each with the lines beneath it."""
    with open(os.path.join(TOP, "README.md"), encoding="utf-8") as file:
        block = file.read().split(SECTION)[1].split("```\n")[1]
    commands = []
    for line in block.splitlines(keepends=True):
        if line.startswith(PROMPT):
            commands.append((line.removeprefix(PROMPT).rstrip("\n"), []))
        else:
            commands[-1][1].append(line)
    return [(command, "".join(lines)) for command, lines in commands]


def readme_session(top, env):
    """Plays the session in a folder of its own, in place of the one that its first command makes."""
    tools = os.path.join(top, "tools")
    os.mkdir(tools)
    os.symlink(PROGRAM, os.path.join(tools, "hookhost"))
    env = env | {"PATH": ":".join((os.path.join(TOP, "git"), tools, env["PATH"]))}
    folder = os.path.join(top, "plans")
    os.mkdir(folder)
    subprocess.run(["git", "init", "--quiet"], cwd=folder, env=env, check=True, timeout=60)
    for command, shown in session()[1:]:
        reads = command.startswith("cat > ")
        done = subprocess.run(["bash", "-c", command], cwd=folder, env=env, input=shown.encode() if reads else b"",
                              stdout=subprocess.PIPE, stderr=subprocess.STDOUT, timeout=60)
        if reads:
            continue
        if command == "hookhost-git install":
            shown = re.sub("^installed: .*(?=/.git/hooks/)", f"installed: {folder}", shown, flags=re.MULTILINE)
        same(command, done.stdout.decode(), shown)
