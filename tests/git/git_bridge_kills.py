"""Kills of hookhost-git, for tests/git/git_bridge.py: before each command that its script starts, in turn, and at random moments.

After each kill the working files are whole: each is as it was, or as hooks fixed it. The next run then prints and leaves what it does in
a copy of the repository without kills. Nothing that the killed run began is left.
"""
import os
import random
import shutil
import signal
import subprocess
import time

from sample import IS_SAMPLED, spread, tally
from git_bridge_repository import BLANKS, BRIDGE, Repository, Wrong, check, content, names_hook, same, shell

# What the script starts. For each a script that counts is found first, in a folder of its own.
COMMANDS = ["awk", "cat", "chmod", "cmp", "cp", "find", "flock", "git", "ln", "mkdir", "mv", "readlink", "rm", "sed", "stat", "tr", "wc", "hookhost"]
COUNTING = """#!/bin/sh
echo x >> "$KILL_COUNT"
[ "$({wc} -l < "$KILL_COUNT")" -lt "$KILL_AT" ] || kill -9 "-$KILL_GROUP"
if [ "{name}:$NO_LINKS" = ln:none ]; then
  for last; do :; done
  case $last in [!/]*) exit 1 ;; esac
fi
exec {command} "$@"
"""
STRAY = ".hookhost-git."
# A hook that calls Git, twice at once, says what it finds, and writes.
CALLS_GIT = "id: calls, name: Calls, language: system, verbose: true, pass_filenames: false, always_run: true, " + shell("git ls-files & git status --short > /dev/null; wait; git config a.b; git config a.b c; git log --oneline; true")
# More commands than the script starts, and how many kills come at random.
MOST_COMMANDS, KILLS_AT_RANDOM = 300, 16
# Of the commands of a run in which a hook calls Git each that has this distance from the next is killed before.
DISTANCE = 5
# With --sample one kill in so many comes.
SAMPLED_ONE_IN = 6
# At most so many runs are tried until one isn't kept out by what a killed one has started.
MOST_TRIES = 200


def make(folder, env, rng, *hooks):
    """A repository that was synced, with further changes that are staged: some files hooks fix, and one they remove."""
    git = Repository.made(folder, env, "--template=")
    git.configure(BLANKS, names_hook("types: [executable]"), "id: tidy, name: Tidy, language: system, entry: rm -f --, files: 'tmp$'", *hooks)
    for path in ("a.txt", "b.txt", "d/c.txt", "d/run.sh", "e"):
        git.add(path, f"{path}\n", rng.choice([0o644, 0o755]))
    same("the first run", git.bridge("run").status, 0)
    git.git("commit", "--quiet", "-m", "m")
    change(git, rng)
    git.write("b.txt", "not staged\n")
    git.write("new \\.txt", "x \n", 0o640)
    git.write("d/-gone.tmp", "x\n")
    git.git("add", "new \\.txt", "d/-gone.tmp")
    return git


def change(git, rng):
    """Stages some changes."""
    for path in ("a.txt", "b.txt", "d/c.txt", "d/run.sh", "e"):
        where = os.path.join(git.folder, path)
        kind = rng.choice(["edit", "edit", "mode", "remove", "none"])
        if kind == "edit" or not os.path.exists(where):
            git.write(path, rng.choice(["x \n", "y\nz  \n"]))
        elif kind == "mode":
            os.chmod(where, os.stat(where).st_mode ^ 0o111)
        elif kind == "remove":
            os.remove(where)
    # Not what a killed run may have left next to a working file.
    git.git("add", "--all", "--", ".", f":(exclude,glob)**/{STRAY}*")


def copied(git, folder):
    shutil.copytree(git.folder, folder, symlinks=True)
    return Repository(folder, git.env)


class Whole:
    """What a run that nothing disturbs prints and leaves in a copy of a repository, whose store is newly made."""

    def __init__(self, git):
        copy = copied(git, git.folder + ".whole")
        copy.forget()
        for path in copy.working_files():
            if os.path.basename(path).startswith(STRAY):
                os.remove(os.path.join(copy.folder, path))
        self.answer, self.files, self.store = copy.bridge("run"), copy.working_files(), copy.store_holds()
        shutil.rmtree(copy.folder)


def run_again(git):
    """The answer of the next run, once what a killed one has started is over."""
    for _ in range(MOST_TRIES):
        answer = git.bridge("run")
        if "another hookhost" not in answer.err:
            return answer
        time.sleep(0.02)
    raise Wrong(f"a killed run keeps others out: {answer!r}")


def look_at(git, before, whole):
    """Checks that the working files after a kill are those before or the fixed ones, except one that was being written next to it."""
    for path, held in git.working_files().items():
        if not os.path.basename(path).startswith(STRAY):
            check(held in (before.get(path), whole.files.get(path)), f"after a kill {path} is {held!r}, and was {before.get(path)!r}")
    lost = [path for path in before if path in whole.files and not os.path.exists(os.path.join(git.folder, path))]
    same("files that are gone after a kill", lost, [])


def go_on(git, before, whole, rng):
    """Looks at what a kill left, perhaps stages other changes, and compares the next run with an undisturbed one."""
    look_at(git, before, whole)
    if rng.random() < 0.3:
        change(git, rng)
        whole = Whole(git)
    found = run_again(git)
    same("the report after a kill", (found.status, found.out), (whole.answer.status, whole.answer.out))
    same("the working files after it", git.working_files(), whole.files)
    same("the store after it", git.store_holds(), whole.store)
    same("what lies in the store's folder", os.listdir(os.path.join(git.home(), "files")), [".hookhost"])
    same("what is left of a repository", [name for name in os.listdir(git.home()) if name.startswith(("repository", "served"))], [])
    same("what is left next to the folder of hooks", [name for name in os.listdir(os.path.dirname(git.scratch())) if name.startswith(".git")], [])


# ---- before each command

def counting_commands(top, env):
    """A folder of commands that count themselves, and the environment in which the script finds them."""
    folder = os.path.join(top, "counting")
    os.mkdir(folder)
    for name in COMMANDS:
        command = env["HOOKHOST"] if name == "hookhost" else shutil.which(name)
        path = os.path.join(folder, name)
        with open(path, "w", encoding="utf-8") as file:
            file.write(COUNTING.format(name=name, command="'" + command + "'", wc=shutil.which("wc")))
        os.chmod(path, 0o755)
    return {"PATH": folder + ":" + env["PATH"], "HOOKHOST": os.path.join(folder, "hookhost"), "KILL_COUNT": os.path.join(top, "count")}


def killed_before(git, counting, at, *words):
    """How a run ends that is killed before the command of this number, if it starts so many."""
    if os.path.exists(counting["KILL_COUNT"]):
        os.remove(counting["KILL_COUNT"])
    words = ["sh", "-c", 'export KILL_GROUP=$$; exec "$0" "$@"', BRIDGE, *(words or ["run"])]
    return subprocess.run(words, cwd=git.folder, env=git.env | {"NO_LINKS": ""} | counting | {"KILL_AT": str(at)}, stdin=subprocess.DEVNULL, capture_output=True, start_new_session=True, timeout=60)


def places(first, top, counting, distance, *words):
    """The numbers of the commands before which a run is killed, and more of them than it starts: all that have this distance, or with
    --sample some of those that an undisturbed run starts."""
    if not IS_SAMPLED:
        return range(1, MOST_COMMANDS, distance)
    git = copied(first, os.path.join(top, "counted"))
    killed_before(git, counting, MOST_COMMANDS, *words)
    shutil.rmtree(git.folder)
    count = content(counting["KILL_COUNT"]).count(b"x")
    there = range(1, count + 1, distance)
    some = spread(there, max(2, len(there) // SAMPLED_ONE_IN))
    tally(len(some), len(there))
    return [*some, *range(count + 1, MOST_COMMANDS)]


def killed_before_each_command(top, env):
    killed_before_commands(top, env, 1)


def killed_while_a_hook_calls_git(top, env):
    killed_before_commands(top, env, DISTANCE, CALLS_GIT)


def killed_before_commands(top, env, distance, *hooks):
    """Kills the script before each command. In every second run no hard link can be made from one folder to another, so files are written
    next to working files."""
    counting = counting_commands(top, env)
    first = make(os.path.join(top, "first"), env, random.Random(1), *hooks)
    before, whole, over = first.working_files(), Whole(first), set()
    for at in places(first, top, counting, distance):
        git, links = copied(first, os.path.join(top, f"killed {at}")), "" if at % 2 else "none"
        done = killed_before(git, counting | {"NO_LINKS": links}, at)
        if done.returncode != -signal.SIGKILL:
            check(40 < content(counting["KILL_COUNT"]).count(b"x") < at, f"the script isn't killed before command {at}")
            over.add(links)
            if len(over) == 2:
                return
        try:
            go_on(git, before, whole, random.Random(at))
        except Wrong as wrong:
            raise Wrong(f"killed before command {at}: {wrong}") from None
        shutil.rmtree(git.folder)
    raise Wrong("the script starts ever more commands")


def killed_while_a_tool_changes(top, env):
    """No answer of the tool before is taken by the next run."""
    counting, tool = counting_commands(top, env), os.path.join(top, "tools/mylint")
    env = env | {"PATH": os.path.dirname(tool) + ":" + env["PATH"]}
    first = Repository.made(os.path.join(top, "first"), env, "--template=")
    first.configure("id: lint, name: Lint, language: system, entry: mylint, files: 'txt$'")
    first.add("a.txt", "a\n")
    first.write(tool, "#!/bin/sh\n", 0o755)
    for answered in (0, 1):
        same("the first runs", first.bridge("run", "--verbose").out.splitlines()[-1], f"answered from the cache: {answered}")
    first.write(tool, "#!/bin/sh\nexit 1\n", 0o755)
    counting |= {"PATH": counting["PATH"].replace(":", f":{os.path.dirname(tool)}:", 1)}
    for at in places(first, top, counting, DISTANCE // 2):
        git = copied(first, os.path.join(top, f"killed {at}"))
        if killed_before(git, counting, at).returncode != -signal.SIGKILL:
            return
        same(f"the run after a kill before command {at}", run_again(git).status, 1)
        shutil.rmtree(git.folder)
    raise Wrong("the script starts ever more commands")


def killed_while_a_message_is_changed(top, env):
    """The message is whole, and no answer that depends on the branch is taken by the next run."""
    counting, words = counting_commands(top, env), ["hook", "commit-msg", "message"]
    first = Repository.made(os.path.join(top, "first"), env, "--template=")
    tells = 'git branch --show-current | grep -v bad && echo more >> "$1"'
    first.configure("id: tells, name: Tells, language: system, stages: [commit-msg], " + shell(tells), BLANKS + ", stages: [pre-commit]")
    first.add("a.txt", "x \n")
    first.write("message", "m\n")
    same("the first run", first.bridge("run").status, 1)
    first.add("a.txt", "y \n")
    for at in places(first, top, counting, DISTANCE, *words):
        git = copied(first, os.path.join(top, f"killed {at}"))
        is_over = killed_before(git, counting, at, *words).returncode != -signal.SIGKILL
        check(git.read("message") in (b"m\n", b"m\nmore\n") and git.read("a.txt") == b"y \n", f"killed before command {at}: {git.read('message')!r}")
        for branch, status, held in (("bad", 1, b"m\n"), ("main", 0, b"m\nmore\n")):
            git.write("message", "m\n")
            git.git("symbolic-ref", "HEAD", f"refs/heads/{branch}")
            found = git.bridge(*words)
            same(f"on {branch}, killed before command {at}", (found.status, git.read("message")), (status, held))
        same(f"the files, killed before command {at}", (git.bridge("run").status, git.read("a.txt")), (1, b"y\n"))
        shutil.rmtree(git.folder)
        if is_over:
            return
    raise Wrong("the script starts ever more commands")


# ---- at random moments

def killed_at_random(top, env):
    rng = random.Random(2)
    first = make(os.path.join(top, "first"), env, rng, CALLS_GIT)
    before, whole = first.working_files(), Whole(first)
    start = time.monotonic()
    copied(first, os.path.join(top, "timed")).bridge("run")
    takes = time.monotonic() - start
    kills = KILLS_AT_RANDOM // SAMPLED_ONE_IN * 2 if IS_SAMPLED else KILLS_AT_RANDOM
    tally(kills, KILLS_AT_RANDOM)
    for number in range(kills):
        git = copied(first, os.path.join(top, f"killed {number}"))
        command = subprocess.Popen([BRIDGE, "run"], cwd=git.folder, env=env, stdin=subprocess.DEVNULL, stdout=subprocess.DEVNULL, stderr=subprocess.DEVNULL, start_new_session=True)
        time.sleep(rng.random() * takes)
        # The script alone, whose commands go on, or all that it has started.
        if number % 2:
            command.kill()
        else:
            os.killpg(command.pid, signal.SIGKILL)
        command.wait()
        go_on(git, before, whole, rng)
        shutil.rmtree(git.folder)


KILLS = [killed_before_each_command, killed_while_a_hook_calls_git, killed_while_a_tool_changes, killed_while_a_message_is_changed, killed_at_random]
