"""Compares random repositories of Git with hookhost-git as the hook with copies of them with pre-commit as the hook, for
tests/git/git_bridge.py.

In a play a repository gets commits, perhaps a merge that is under way, and changes that are staged, or not, or in part. Then it is
copied, and the same commit is tried in both. If it is refused, it is tried once more with all staged. The same must be: whether the
commit is made, the commit with its tree, what is staged, and the working files. The reports must call the same hooks passed, failed or
skipped. If they differ, a reason has to hold, which is tested: the difference must be just what the reason says. A play ends with its
first difference.
"""
import collections
import os
import random
import shutil
import stat
import subprocess

from git_bridge_repository import CONFIGURATION, Repository, Wrong, check, configuration, same, shell

PATHS = ["a.txt", "b.txt", "c.txt", "d/a.txt", "d/e f.txt", "\u00e9.txt", "x.tmp", "d/x.tmp", "run.sh", "worse.txt"]
LINES = ["one\n", "two\n", "three\n", "four\n", "blank \n", "blank  \n"]
HOOKS = {
    "blanks": "language: system, entry: sed -i -e 's/ *$//' --, files: 'txt$'",
    "end": "language: system, " + shell('for f; do grep -q END "$f" || echo END >> "$f"; done') + ", files: '^[ab].txt$'",
    "words": "language: system, " + shell('! grep -Hn BAD -- "$@"') + ", files: 'txt$'",
    "tidy": "language: system, entry: rm -f --, files: 'tmp$'",
    "temporary": "language: system, entry: echo, files: 'tmp$'",
    "whole": "language: system, entry: test ! -e worse.txt, pass_filenames: false",
    "always": "language: system, entry: test -e .pre-commit-config.yaml, pass_filenames: false, always_run: true",
    "executable": "language: system, " + shell('echo "$@"; false') + ", types: [executable]",
    "new": "language: system, entry: touch made.txt, pass_filenames: false, files: '^d/'",
    "manual": "language: system, entry: 'false', stages: [manual]",
    "pygrep": "language: pygrep, entry: BAD, files: 'txt$'",
}
# Some hooks are in fewer plays: pre-commit takes long for `pygrep`, and each new file is a difference.
RARELY = {"pygrep": 0.05, "new": 0.06, "whole": 0.35, "executable": 0.2, "temporary": 0.3}

REASONS = {
    "unstaged configuration": "pre-commit refuses a commit while its configuration has changes that aren't staged; here the staged one is read",
    "configuration not staged": "pre-commit reads the configuration of the working tree, though none is staged; here none is in the index",
    "configuration gone": "pre-commit finds no configuration in the working tree; here the staged one is read",
    "unstaged changes": "pre-commit applies changes that aren't staged to what hooks fixed; here such a file is left as it is",
    "rolled back": "where that can't be done, pre-commit takes back all fixes; here those of other files are written",
    "not staged": "hooks of pre-commit see files that aren't staged; here they see the staged ones alone",
    "conflict not staged": "in a merge pre-commit hands over files of the working tree that Git named as in conflict, staged or not; here those that are staged",
    "new files": "a file that a hook makes stays in the working tree of pre-commit; here it is dropped",
    "a removed file": "pre-commit hands a file that a hook has removed to the hooks behind it; here they get what is there",
}


class Reasons:
    """Which reasons the plays needed."""

    def __init__(self):
        self.needed, self.tried, self.made = collections.Counter(), 0, 0


def random_text(rng):
    lines = rng.choices(LINES, k=rng.choice([0, 1, 2, 4, 9]))
    if rng.random() < 0.08:
        lines.insert(rng.randint(0, len(lines)), "BAD\n")
    return "".join(lines) + rng.choice(["", "END\n", "END\n", "END\n", "no end"])


def edited(rng, held):
    """A text with a line more at the beginning, in the middle or at the end, or another text."""
    lines = held.decode().splitlines(keepends=True)
    if not lines or rng.random() < 0.3:
        return random_text(rng)
    lines.insert(rng.choice([0, len(lines) // 2, len(lines) - 1]), rng.choice([*LINES, "other\n"]))
    return "".join(lines)


def random_configuration(rng):
    names = [name for name in HOOKS if rng.random() < RARELY.get(name, 0.55)]
    rng.shuffle(names)
    hooks = [f"id: {name}, name: {name}, {HOOKS[name]}, require_serial: true" for name in names]
    top = rng.choice(["", "", "", "fail_fast: true\n", "exclude: '^d/'\n", "files: '^[^b]'\n"])
    return configuration(*hooks, top=top)


class Maker:
    """Makes a random repository."""

    def __init__(self, rng, git):
        self.rng, self.git = rng, git

    def chance(self, part):
        return self.rng.random() < part

    def files(self):
        """The plain files of the working tree."""
        return [path for path in PATHS if os.path.isfile(self.at(path)) and not os.path.islink(self.at(path))]

    def at(self, path):
        return os.path.join(self.git.folder, path)

    def remove(self, path):
        os.remove(self.at(path))
        if os.path.dirname(path) and not os.listdir(os.path.dirname(self.at(path))):
            os.rmdir(os.path.dirname(self.at(path)))

    def change(self, kinds):
        """One change of the working tree."""
        rng, kind, files = self.rng, self.rng.choice(kinds), self.files()
        if kind == "write" or not files:
            path = rng.choice(PATHS[:-1] if self.chance(0.9) else PATHS)
            if os.path.islink(self.at(path)):
                self.remove(path)
            self.git.write(path, random_text(rng))
            return
        path = rng.choice(files)
        if kind == "edit":
            self.git.write(path, edited(rng, self.git.read(path)))
        elif kind == "remove":
            self.remove(path)
        elif kind == "move":
            other = rng.choice(PATHS[:-1])
            if not os.path.lexists(self.at(other)):
                os.makedirs(os.path.dirname(self.at(other)), exist_ok=True)
                os.rename(self.at(path), self.at(other))
        elif kind == "mode":
            os.chmod(self.at(path), os.stat(self.at(path)).st_mode ^ 0o111)
        elif kind == "link":
            self.remove(path)
            os.makedirs(os.path.dirname(self.at(path)), exist_ok=True)
            os.symlink(rng.choice(["a.txt", "nowhere"]), self.at(path))

    def changes(self, most, kinds):
        for _ in range(self.rng.randint(1, most)):
            self.change(kinds)

    def commit_all(self):
        self.git.git("add", "--all")
        self.git.git("commit", "--quiet", "--allow-empty", "--no-verify", "-m", "m")

    def make(self):
        """A history, perhaps a merge under way, and then changes."""
        text = random_configuration(self.rng)
        self.git.write(CONFIGURATION, text)
        all_kinds = ["write", "write", "edit", "edit", "edit", "remove", "move", "mode", "link"]
        if self.chance(0.85):
            for _ in range(self.rng.randint(2, 6)):
                self.change(["write"])
            self.commit_all()
            if self.chance(0.25):
                self.merge(all_kinds)
        if self.chance(0.95):
            self.changes(4, all_kinds)
        self.stage_some()
        if self.chance(0.5):
            self.changes(3, ["write", "edit", "edit", "edit", "remove", "mode"])
        if self.chance(0.3):
            self.stage_in_part()
        if self.chance(0.1):
            self.git.write("worse.txt", "not staged\n")
        for path in named_in_conflict(self.git):
            if self.chance(0.3) and self.git.git("ls-files", "--", path):
                self.git.git("rm", "--quiet", "--cached", "--force", "--", path)
        if self.chance(0.04):
            self.git.write(CONFIGURATION, text + "# not staged\n")
        elif self.chance(0.03):
            os.remove(self.at(CONFIGURATION))
        elif self.chance(0.03):
            self.git.git("rm", "--quiet", "--cached", "--ignore-unmatch", CONFIGURATION)

    def merge(self, kinds):
        self.git.git("checkout", "--quiet", "-b", "side")
        self.changes(3, kinds)
        self.commit_all()
        self.git.git("checkout", "--quiet", "main")
        self.changes(3, kinds)
        self.commit_all()
        self.git.run("git", "merge", "--quiet", "--no-commit", "--no-ff", "side")
        for path in self.git.git("diff", "--name-only", "--diff-filter=U", "-z").split("\0")[:-1]:
            if self.chance(0.3):
                self.git.git("rm", "--quiet", "--", path)
            elif not os.path.islink(self.at(path)):
                self.git.write(path, random_text(self.rng))
        self.git.git("add", "--all")

    def stage_some(self):
        if self.chance(0.6):
            self.git.git("add", "--all")
            return
        self.git.git("add", "--", CONFIGURATION)
        listed = self.git.git("ls-files", "-z", "--others", "--modified", "--deleted").split("\0")[:-1]
        chosen = sorted({path for path in listed if self.chance(0.6)})
        if chosen:
            self.git.git("add", "--", *chosen)

    def stage_in_part(self):
        """A file that hooks fix, and that has changes which aren't staged."""
        path = self.rng.choice(["a.txt", "c.txt", "d/a.txt"])
        if self.chance(0.5) or os.path.islink(self.at(path)):
            return
        lines = [f"line {at}\n" for at in range(9)] + ["END\n"]
        lines[0] = "line 0 \n"
        self.git.add(path, "".join(lines))
        lines[self.rng.choice([1, 1, 8])] = "not staged\n"
        self.git.write(path, "".join(lines))

    def words(self):
        """The words of the commit."""
        rng, paths = self.rng, [path for path in self.git.git("ls-files", "-z").split("\0")[:-1] if os.path.lexists(self.at(path))]
        kind = rng.choices(["plain", "all", "named", "amend", "empty"], [14, 2, 2, 1, 1])[0]
        if os.path.exists(self.at(".git/MERGE_HEAD")) or (kind == "amend" and not self.git.head()) or (kind == "named" and not paths):
            kind = "plain"
        return {"plain": ["-m", "m"], "all": ["--all", "-m", "m"], "named": ["-m", "m", "--", rng.choice(paths or [""])],
                "amend": ["--amend", "-m", "other"], "empty": ["--allow-empty", "-m", "m"]}[kind]


# ---- a play


class Pair:
    """A repository with hookhost-git, and its copy with pre-commit."""

    def __init__(self, ours, theirs, reasons):
        self.ours, self.theirs, self.reasons = ours, theirs, reasons

    def attempt(self, words, env):
        """Tries the commit in both, and answers whether it was made in both, or none if they differ for a reason."""
        self.words, before, self.unstaged_conflicts = words, self.ours.working_files(), unstaged_conflicts(self.ours)
        ours, theirs = self.ours.commit(*words, env=env), self.theirs.commit(*words, env=env)
        self.told = f"git commit {words!r} with {env!r}\nhere {ours!r}\npre-commit {theirs!r}"
        self.reasons.tried += 1
        reason = self.reason_of_all(before, theirs, ours) or self.reason_of_files(before, theirs)
        if reason:
            self.reasons.needed[reason] += 1
            return None
        for what, found in (("made", lambda git, answer: answer.is_made), ("the commit", lambda git, answer: git.head()),
                            ("what is staged", lambda git, answer: git.git("ls-files", "--stage")), ("the report", lambda git, answer: results(answer))):
            if what == "the report" and differs_behind_removal(results(ours), results(theirs)):
                self.reasons.needed["a removed file"] += 1
                return None
            same(what, found(self.ours, ours), found(self.theirs, theirs))
        self.reasons.made += ours.is_made
        return ours.is_made

    def reason_of_all(self, before, theirs, ours):
        """Why pre-commit runs no hooks, or here none are run."""
        if "Your pre-commit configuration is unstaged" in theirs.text:
            check(self.theirs.run("git", "diff", "--quiet", "--", CONFIGURATION).status == 1, "the configuration has no changes that aren't staged")
            return "unstaged configuration"
        if f"No {CONFIGURATION} file was found" in theirs.text and "is in the index" not in ours.text:
            check(CONFIGURATION not in before and self.ours.git("ls-files", CONFIGURATION), "the configuration isn't gone from the working tree alone")
            return "configuration gone"
        if "is in the index" in ours.text and CONFIGURATION in before:
            # A commit of named files has the others as HEAD has them.
            asked = ["ls-tree", "--name-only", "HEAD"] if "--" in self.words else ["ls-files"]
            same("the staged configuration", self.ours.run("git", *asked, "--", CONFIGURATION).out, "")
            return "configuration not staged"
        if "whole" in failed(theirs) and "whole" not in failed(ours):
            check("worse.txt" in before and not self.ours.git("ls-files", "worse.txt"), "the file that the hook finds is staged")
            return "not staged"
        if self.unstaged_conflicts and results(ours) != results(theirs):
            differ = [here for here, there in zip(results(ours), results(theirs)) if here != there]
            check(all(here.endswith(("Passed", "(no files to check)Skipped")) for here in differ), f"without {self.unstaged_conflicts} other hooks fail here")
            return "conflict not staged"
        return None

    def reason_of_files(self, before, theirs):
        """Why the working files differ, or none if they don't."""
        here, there = self.ours.working_files(), self.theirs.working_files()
        reasons = [self.reason_of_file(path, before.get(path), here.get(path), there.get(path), theirs)
                   for path in sorted({*here, *there}) if here.get(path) != there.get(path)]
        return reasons[0] if reasons else None

    def reason_of_file(self, path, before, here, there, theirs):
        if path == "made.txt" and (before, here, there) == (None, None, (0o644, b"")):
            return "new files"
        staged, fixed = (self.bytes_of(option, path) for option in ([], ["--fixed"]))
        if "Rolling back fixes" in theirs.text and there == before and before[1] == staged:
            same(f"the fixed {path}", here and here[1], fixed)
            return "rolled back"
        same(f"the file {path} with changes that aren't staged", here, before)
        check(before is not None and before[1] != staged and there is not None, f"{path} has no changes that aren't staged")
        same(f"pre-commit's {path}", there[1], merged(fixed, staged, before[1]))
        return "unstaged changes"

    def bytes_of(self, options, path):
        """The bytes that are staged in the store, or those that a fix gives, or none."""
        done = subprocess.run([self.ours.env["HOOKHOST"], "cat", *options, "--", path], cwd=os.path.join(self.ours.home(), "files"), capture_output=True, timeout=60)
        return done.stdout if done.returncode == 0 else None


def named_in_conflict(git):
    """The files that Git's message names as in conflict."""
    message = os.path.join(git.folder, ".git/MERGE_MSG")
    if not os.path.exists(message):
        return []
    with open(message, encoding="utf-8") as file:
        return [line.lstrip("#").strip() for line in file if line.startswith(("\t", "#\t"))]


def unstaged_conflicts(git):
    """Those of them that are files of the working tree and aren't staged."""
    return [path for path in named_in_conflict(git) if os.path.lexists(os.path.join(git.folder, path)) and not git.git("ls-files", "--", path)]


def results(answer):
    """The lines of the report that give the outcome of a hook."""
    return [line for line in answer.text.splitlines() if line.endswith(("Passed", "Failed", "Skipped"))]


def failed(answer):
    return [line.partition(".")[0] for line in results(answer) if line.endswith("Failed")]


def differs_behind_removal(ours, theirs):
    """Whether both reports are the same up to a hook that removes files, and after it hooks got a removed file there."""
    at = next((at for at, line in enumerate(theirs) if line.startswith("tidy.") and line.endswith("Failed")), None)
    return at is not None and ours != theirs and ours[:at + 1] == theirs[:at + 1] and all(
        here == there or "(no files to check)" in here for here, there in zip(ours[at + 1:], theirs[at + 1:]))


def merged(fixed, staged, changed):
    """The fixed bytes with the changes that lead from the staged bytes to others."""
    folder = "/dev/shm" if os.path.isdir("/dev/shm") else "/tmp"
    names = [os.path.join(folder, f"git_bridge.{os.getpid()}.{at}") for at in range(3)]
    for name, held in zip(names, (fixed, staged, changed)):
        with open(name, "wb") as file:
            file.write(held)
    done = subprocess.run(["git", "merge-file", "-p", "--quiet", *names], capture_output=True, timeout=60)
    for name in names:
        os.remove(name)
    return done.stdout


def play(top, env, seed, template, reasons):
    """Plays one repository."""
    rng = random.Random(seed)
    ours = Repository(os.path.join(top, "ours"), env)
    shutil.copytree(template["plain"], ours.folder, symlinks=True)
    maker = Maker(rng, ours)
    maker.make()
    words, skip = maker.words(), rng.choice([{}] * 8 + [{"SKIP": "words"}, {"SKIP": "end, whole,blanks"}])
    theirs = Repository(os.path.join(top, "theirs"), env)
    shutil.copytree(ours.folder, theirs.folder, symlinks=True)
    for side, hook in ((ours, "hookhost-git"), (theirs, "pre-commit")):
        shutil.copy(template[hook], os.path.join(side.folder, ".git/hooks/pre-commit"))
    pair = Pair(ours, theirs, reasons)
    try:
        if pair.attempt(words, skip) is False:
            for side in (ours, theirs):
                side.git("add", "--all")
            pair.attempt(["-m", "m"], skip)
        if seed % 5 == 0 and os.path.isdir(os.path.join(ours.home(), "files/.hookhost")):
            leaves_nothing(ours)
    except Wrong as wrong:
        raise Wrong(f"play {seed}: {wrong}\n{getattr(pair, 'told', '')}\n{ours.git('status', '--short')}") from None


def leaves_nothing(git):
    """Checks that no left-over file is there, and that a run brings the store to the state of the index."""
    same("the folder of the store", os.listdir(os.path.join(git.home(), "files")), [".hookhost"])
    if git.git("ls-files", CONFIGURATION) and git.bridge("run").status in (0, 1):
        rows = [row.partition("\t") for row in git.git("ls-files", "--stage", "-z").split("\0")[:-1]]
        same("the store", git.store_holds(), {path: git.git("cat-file", "blob", f":{path}") for head, _, path in rows if head.startswith("100")})


def templates(top, env):
    """A repository without hooks, and the files of both hooks."""
    plain = Repository.made(os.path.join(top, "plain"), env, "--template=")
    os.makedirs(os.path.join(plain.folder, ".git/hooks"))
    found = {"plain": plain.folder}
    for name, words in (("hookhost-git", None), ("pre-commit", ("pre-commit", "install"))):
        git = Repository.made(os.path.join(top, f"with {name}"), env)
        git.installed() if words is None else same("pre-commit install", git.run(*words).status, 0)
        found[name] = os.path.join(git.folder, ".git/hooks/pre-commit")
        check(stat.S_IMODE(os.stat(found[name]).st_mode) & 0o100, f"{name} isn't executable")
    return found
