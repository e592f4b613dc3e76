#!/usr/bin/env python3
"""Compares commits with those of Git, into whose repository pre-commit has installed its hooks, in random plays.

Usage: tests/peers/compare_commits.py [--sample] [PROGRAM [PLAYS [SEED]]]   (default: crates/hookhost/out/hookhost, 40 plays, seed 1;
with --sample only some of them)

pre-commit and Git must be installed. In a play the same files are staged and unstaged in a repository of Git and in one of
`hookhost`, with the same configuration. Commits are tried in both, with messages of all kinds, with `--no-verify` and with hooks
skipped. The same must be: whether the commit is made, its tree, its message, and which hooks ran in which order with which arguments.
After a commit in which hooks failed, the working files that pre-commit's hooks leave must be those that are staged once `hookhost`
has accepted the fixes.

If they differ, a reason has to hold, which is tested: the difference must be just what the reason says. Another difference is a
failure, and so is a reason that no play needed.
"""
import collections
import os
import random
import subprocess
import sys
import tempfile
from concurrent.futures import ThreadPoolExecutor

sys.path.insert(0, os.path.abspath(f"{__file__}/../../shared"))
from places import program
from sample import note, sampled

WORDS = sys.argv[1:]
PROGRAM = os.path.abspath(WORDS[0] if WORDS else program("hookhost"))
PLAYS, SEED = int(WORDS[1]) if len(WORDS) > 1 else 40, int(WORDS[2]) if len(WORDS) > 2 else 1
COMMITS = 6
# With --sample one play in so many is played.
SAMPLED_ONE_IN = 4
CONFIGURATION = ".pre-commit-config.yaml"
STAGES = ["commit", "prepare-commit-msg", "commit-msg", "post-commit"]

# What a hook does with its last argument, which is a file's name if the hook is given one. Each says first that it ran.
ACTIONS = {
    "pass": "true",
    "fail": "exit 1",
    "change": 'for f in "$@"; do echo more >> "$f"; done',
    "new": "echo new > made.txt",
    "remove": 'rm -f "$1"',
    "message": 'printf "by a hook \\\\n\\\\n" >> "$1"',
}
OF_FILES = ["pass", "pass", "pass", "fail", "change", "remove"]
OF_MESSAGES = ["pass", "message", "message", "fail", "remove"]
BEHIND = ["pass", "fail", "change", "new"]

PATHS = ["a.txt", "b.txt", "c.py", "dir/a.txt", "dir/deep/x", "with blank.txt", "\u00e9.txt"]
LINES = ["first", "body", "# a comment", "", "", " ", "  indented", "blank behind \t", "\u00e9"]

REASONS = {
    "nothing staged": "Git runs the hooks of pre-commit before it looks whether there is anything to commit",
    "cleaned before hooks": "Git cleans a message before hooks see it, and once more behind them",
    "a removed file": "pre-commit hands a file that a hook has removed to the hooks behind it; here they get what is there, and a removed message is an empty file again in the next stage",
    "working files": "Git leaves in the working folder what hooks behind the commit changed",
}

Hook = collections.namedtuple("Hook", "id stage action always_run files")


# ---- random plays


def random_hooks(rng):
    hooks = []
    for at in range(rng.randint(1, 6)):
        stage = rng.choice(STAGES)
        action = rng.choice(OF_FILES if stage == "commit" else BEHIND if stage == "post-commit" else OF_MESSAGES)
        files = rng.choice(["", "", r"\.txt$", "^dir/"]) if stage == "commit" else ""
        hooks.append(Hook(f"hook{at}", stage, action, stage == "post-commit" or rng.random() < 0.4, files))
    return hooks


def configuration(hooks):
    text = "repos:\n- repo: local\n  hooks:\n"
    for hook in hooks:
        shell = f'echo "{hook.id}:" "$@" >> "$HOOK_LOG"; {ACTIONS[hook.action]}'
        entry = "sh -c '" + shell.replace("'", "'\\''") + "' --"
        text += f"  - id: {hook.id}\n    name: {hook.id}\n    language: system\n    entry: |-\n      {entry}\n    stages: [{hook.stage}]\n"
        text += "    require_serial: true\n" + ("    always_run: true\n" if hook.always_run else "")
        text += f"    files: '{hook.files}'\n" if hook.files else ""
    return text


def random_message(rng):
    if rng.random() < 0.08:
        return rng.choice(["", " \n\t\n"])
    lines = [rng.choice(LINES) for _ in range(rng.randint(1, 5))]
    return "\n".join(lines) + rng.choice(["", "", "\n", "\n\n\n"])


# ---- the two sides


def end_of(words, folder, env, given=None):
    done = subprocess.run(words, cwd=folder, env=env, input=given, capture_output=True, timeout=120)
    return done.returncode, done.stdout, done.stderr


class Side:
    """A repository and a folder of working files."""

    def __init__(self, folder, env):
        self.folder = folder
        self.log = os.path.join(folder, "..", os.path.basename(folder) + ".log")
        self.env = dict(env, HOOK_LOG=self.log)
        self.told = ""
        os.mkdir(folder)

    def run(self, *words, given=None, **env):
        return end_of(words, self.folder, dict(self.env, **env), given)

    def must(self, *words, given=None):
        status, out, error = self.run(*words, given=given)
        if status:
            raise RuntimeError(f"{words}: {status}: {out!r} {error!r}")
        return out

    def write(self, path, text, executable):
        name = os.path.join(self.folder, path)
        os.makedirs(os.path.dirname(name), exist_ok=True)
        with open(name, "w", encoding="utf-8") as file:
            file.write(text)
        os.chmod(name, 0o755 if executable else 0o644)

    def hooks_run(self):
        """The lines of the hooks that ran since the last call."""
        if not os.path.exists(self.log):
            return []
        with open(self.log, encoding="utf-8") as file:
            lines = file.read().splitlines()
        os.remove(self.log)
        return lines


class Git(Side):
    def __init__(self, folder, env):
        super().__init__(folder, env)
        self.must("git", "init", "--quiet", ".")
        for stage in ["pre-commit", *STAGES[1:]]:
            self.must("pre-commit", "install", "--hook-type", stage)

    def add(self, path):
        self.must("git", "add", "--", path)

    def remove(self, path):
        self.must("git", "rm", "--quiet", "--cached", "--", path)
        if os.path.exists(os.path.join(self.folder, path)):
            os.remove(os.path.join(self.folder, path))

    def commit(self, message, no_verify, skip):
        words = ["git", "commit", "--quiet", "-m", message] + (["--no-verify"] if no_verify else [])
        before = self.commits()
        status, _, error = self.run(*words, **({"SKIP": skip} if skip else {}))
        self.told = error.decode()
        return status, self.commits() > before

    def commits(self):
        status, out, _ = self.run("git", "rev-list", "--count", "HEAD")
        return int(out) if status == 0 else 0

    def message(self):
        return self.must("git", "cat-file", "commit", "HEAD").partition(b"\n\n")[2]

    def head(self):
        rows = self.must("git", "ls-tree", "-r", "-z", "HEAD").split(b"\0")[:-1]
        return {path.decode(): (mode == b"100755", blob.split()[1]) for mode, blob, path in (self.row_of(row) for row in rows)}

    @staticmethod
    def row_of(row):
        words, _, path = row.partition(b"\t")
        mode, _, rest = words.partition(b" ")
        return mode, rest, path

    def accept(self):
        """Stages the working files, and answers what is staged."""
        self.must("git", "add", "--all", ".")
        return self.staged()

    def staged(self):
        paths = [path.decode() for path in self.must("git", "ls-files", "-z").split(b"\0")[:-1]]
        return {path: self.must("git", "cat-file", "blob", f":{path}") for path in paths}

    def leave(self):
        """Puts back the working files as they are staged, and answers whether they were so."""
        left = self.must("git", "status", "--porcelain", "--untracked-files=all")
        self.must("git", "checkout", "--quiet", "--", ".")
        self.must("git", "clean", "--quiet", "--force", "-d")
        return any(line[1:2] != b" " for line in left.splitlines())


class Hookhost(Side):
    def __init__(self, folder, env):
        super().__init__(folder, env)
        self.paths = set()
        self.must(PROGRAM, "init")

    def add(self, path):
        executable = os.access(os.path.join(self.folder, path), os.X_OK)
        self.must(PROGRAM, "add", *(["--chmod=+x"] if executable else []), path)

    def remove(self, path):
        self.must(PROGRAM, "rm", path)

    def commit(self, message, no_verify, skip):
        # Git starts each hook again.
        self.must(PROGRAM, "forget")
        words = [PROGRAM, "commit", "-m", message] + (["--no-verify"] if no_verify else [])
        status, out, error = self.run(*words, **({"SKIP": skip} if skip else {}))
        self.told = out.decode() + error.decode()
        return status, out.splitlines()[-1:] != [] and out.splitlines()[-1].startswith(b"commit ")

    def message(self):
        number = self.must(PROGRAM, "log").split()[0]
        shown = self.must(PROGRAM, "show", number.decode())
        paths = b"".join(path.encode() + b"\n" for path in sorted(self.staged(), key=str.encode))
        return shown.removesuffix(b"\n" + paths)

    def accept(self):
        """Accepts the fixes, if any, and answers what is staged."""
        self.run(PROGRAM, "accept")
        return self.staged()

    def staged(self):
        # The staged paths: those of HEAD and what differs, which `run-files` and `cat` show. Here it is each that may be there.
        found = {}
        for path in [CONFIGURATION, *PATHS]:
            status, out, _ = self.run(PROGRAM, "cat", path)
            if status == 0:
                found[path] = out
        return found


# ---- a play


class Differs(Exception):
    """The two sides differ, and no reason holds."""


def stripspace(text):
    return subprocess.run(["git", "stripspace"], input=text, capture_output=True, check=True).stdout


def changes_message(hooks, no_verify, skip):
    return [hook for hook in hooks if hook.action in ("message", "remove") and hook.id not in skip.split(",")
            and (hook.stage == "prepare-commit-msg" or (hook.stage == "commit-msg" and not no_verify))]


def calls_to_removal(hooks, ran):
    """How many calls of hooks there were up to the first that removes a file, or 0 if none does."""
    removing = [hook.id for hook in hooks if hook.action == "remove"]
    return next((at + 1 for at, call in enumerate(ran) if call.split(":")[0] in removing), 0)


def same(what, ours, theirs, play):
    if ours != theirs:
        raise Differs(f"{what}: here {ours!r}, Git {theirs!r}; {play}")


def stage_random(rng, both, staged):
    """Stages or takes out some files alike."""
    for _ in range(rng.randint(0, 3)):
        path = rng.choice(PATHS)
        if path in staged and rng.random() < 0.25:
            staged.discard(path)
            for side in both:
                side.remove(path)
            continue
        text, executable = "".join(rng.choice(["x\n", "y\n", "z "]) for _ in range(rng.randint(0, 4))), rng.random() < 0.2
        staged.add(path)
        for side in both:
            side.write(path, text, executable)
            side.add(path)


def play_one(number):
    """The reasons that the play needed, and how many commits were tried and made."""
    rng = random.Random(f"{SEED} {number}")
    needed, made_in_all, tried = collections.Counter(), 0, 0
    with tempfile.TemporaryDirectory(dir="/dev/shm" if os.path.isdir("/dev/shm") else None) as folder:
        env = {key: value for key, value in os.environ.items() if not key.startswith("GIT_") and key != "SKIP"}
        env |= {"HOME": folder, "PRE_COMMIT_HOME": os.path.join(folder, "pre-commit")}
        for key in ("GIT_AUTHOR_NAME", "GIT_COMMITTER_NAME"):
            env[key] = "A Tester"
        for key in ("GIT_AUTHOR_EMAIL", "GIT_COMMITTER_EMAIL"):
            env[key] = "tester@example.invalid"
        theirs, ours = Git(os.path.join(folder, "git"), env), Hookhost(os.path.join(folder, "ours"), env)
        hooks, staged = random_hooks(rng), set()
        for side in (ours, theirs):
            side.write(CONFIGURATION, configuration(hooks), False)
            side.add(CONFIGURATION)
        for at in range(COMMITS):
            stage_random(rng, (ours, theirs), staged)
            message, no_verify = random_message(rng), rng.random() < 0.2
            skip = ",".join(hook.id for hook in hooks if rng.random() < 0.15)
            play = f"play {number}, commit {at + 1}, message {message!r}, no_verify {no_verify}, SKIP {skip!r}\n{configuration(hooks)}"
            tried += 1
            made = try_commit(ours, theirs, hooks, message, no_verify, skip, needed, play)
            if made is None:
                break
            made_in_all += made
            staged = {path for path in ours.staged() if path != CONFIGURATION}
    return needed, tried, made_in_all


def try_commit(ours, theirs, hooks, message, no_verify, skip, needed, play):
    """Tries one commit in both, and answers whether it was made; None if one alone was, so that the play is over."""
    nothing = theirs.run("git", "diff", "--cached", "--quiet")[0] == 0 and theirs.commits() > 0
    (status, made), (git_status, git_made) = ours.commit(message, no_verify, skip), theirs.commit(message, no_verify, skip)
    play += f"\nhere {status}: {ours.told}\nGit {git_status}: {theirs.told}"
    ran, git_ran = ours.hooks_run(), theirs.hooks_run()
    if nothing:
        same("nothing staged", (status, made, git_made, ran), (3, False, False, []), play)
        if git_ran:
            needed["nothing staged"] += 1
        theirs.leave()
        return False
    if (ran, made) != (git_ran, git_made) and (shared := calls_to_removal(hooks, git_ran)):
        same("the hooks up to one that removes a file", ran[:shared], git_ran[:shared], play)
        needed["a removed file"] += 1
        return None
    same("made", made, git_made, play)
    same("hooks", ran, git_ran, play)
    same("status", status == 0, git_status == 0, play)
    if made:
        compare_messages(ours, theirs, changes_message(hooks, no_verify, skip), message, needed, play)
        if theirs.leave():
            needed["working files"] += 1
        same("the committed files", ours.staged(), {path: theirs.must("git", "cat-file", "blob", f"HEAD:{path}") for path in theirs.head()}, play)
        return True
    if status == 1:
        same("the fixes", ours.accept(), theirs.accept(), play)
    else:
        same("the fixes of a refused commit", ours.run(PROGRAM, "fixes")[1], b"", play)
        theirs.leave()
    return False


def compare_messages(ours, theirs, changing, message, needed, play):
    here, there = ours.message(), theirs.message()
    if here == there:
        return
    added = b"by a hook \n\n" * sum(hook.action == "message" for hook in changing)
    begun = message.encode() + (b"" if message.endswith("\n") or not message else b"\n")
    same("the message that is cleaned first", (here, there), (stripspace(begun + added), stripspace(stripspace(begun) + added)), play)
    needed["cleaned before hooks"] += 1


def main():
    needed, tried, made, failures = collections.Counter(), 0, 0, []

    def answer(number):
        try:
            return play_one(number), None
        except (Differs, RuntimeError) as error:
            return (collections.Counter(), 0, 0), f"{type(error).__name__}: {error}"

    numbers = sampled(range(PLAYS), lambda number: 0, SAMPLED_ONE_IN)
    with ThreadPoolExecutor(len(os.sched_getaffinity(0))) as pool:
        for (some, a, b), failure in pool.map(answer, numbers):
            needed, tried, made = needed + some, tried + a, made + b
            failures += [failure] if failure else []
    for failure in failures[:10]:
        print(f"compare_commits: {failure}")
    for name, count in sorted(needed.items()):
        print(f"{count:5} {name}: {REASONS[name]}")
    unneeded = [name for name in REASONS if name not in needed] if len(numbers) >= 40 else []
    for name in unneeded:
        print(f"compare_commits: no play needed the reason: {name}")
    print(f"compare_commits: {tried} tried in {len(numbers)} plays, {made} made")
    print(f"compare_commits: {len(numbers) - len(failures)} passed, {len(failures) + len(unneeded)} failed{note(len(numbers), PLAYS, 'plays')}")
    sys.exit(1 if failures or unneeded or not made else 0)


main()
