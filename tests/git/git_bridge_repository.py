"""Repositories of Git in folders of their own, with hookhost-git as their hook, for tests/git/git_bridge.py."""
import os
import shutil
import stat
import subprocess
import sys

from places import TOP, program

PROGRAM = os.path.abspath(sys.argv[1] if len(sys.argv) > 1 else program("hookhost"))
BRIDGE = os.path.join(TOP, "git/hookhost-git")
CONFIGURATION = ".pre-commit-config.yaml"
# A command of many hooks takes minutes on a busy machine.
LIMIT = 900
MOST_BYTES = 16 * 1024 * 1024


class Wrong(Exception):
    """What is wrong, in words."""


def check(holds, text):
    if not holds:
        raise Wrong(text)


def same(what, found, wanted):
    check(found == wanted, f"{what}: {found!r}, wanted {wanted!r}")


def environment(home):
    """An environment in which Git and pre-commit read nothing of this machine's user, and each commit has the same time."""
    env = {key: value for key, value in os.environ.items() if not key.startswith(("GIT_", "PRE_COMMIT")) and key not in ("SKIP", "HOOKHOST", "XDG_CONFIG_HOME")}
    env |= {"HOME": home, "PRE_COMMIT_HOME": os.path.join(home, "pre-commit"), "GIT_CONFIG_NOSYSTEM": "1", "HOOKHOST": PROGRAM, "HOOKHOST_TMP": home}
    env |= {"GIT_AUTHOR_DATE": "2026-11-27 08:00:00 +0000", "GIT_COMMITTER_DATE": "2026-11-27 08:00:00 +0000"}
    for who in ("AUTHOR", "COMMITTER"):
        env |= {f"GIT_{who}_NAME": "A Tester", f"GIT_{who}_EMAIL": "tester@example.invalid"}
    return env


class Answer:
    """How a command ended, and what it printed."""

    def __init__(self, done):
        self.status, self.out, self.err = done.returncode, done.stdout.decode(errors="surrogateescape"), done.stderr.decode(errors="surrogateescape")
        self.text = self.out + self.err

    def lines(self):
        """The lines of hookhost-git itself."""
        return [line.removeprefix("hookhost-git: ") for line in self.err.split("\n") if line.startswith("hookhost-git: ")]

    def __repr__(self):
        return f"status {self.status}, {self.out!r}, {self.err!r}"


class Repository:
    """A repository with its working files."""

    def __init__(self, folder, env):
        self.folder, self.env = folder, env

    @staticmethod
    def made(folder, env, *options):
        os.makedirs(folder)
        repository = Repository(folder, env)
        repository.git("init", "--quiet", "--initial-branch=main", *options, ".")
        return repository

    def run(self, *words, env=None, cwd=None, given=b""):
        done = subprocess.run(words, cwd=os.path.join(self.folder, cwd or ""), env=self.env | (env or {}), input=given, capture_output=True, timeout=LIMIT)
        return Answer(done)

    def git(self, *words, **how):
        """What Git prints, which has to do it."""
        answer = self.run("git", *words, **how)
        check(answer.status == 0, f"git {words!r}: {answer!r}")
        return answer.out

    def bridge(self, *words, **how):
        return self.run(BRIDGE, *words, **how)

    def installed(self):
        answer = self.bridge("install")
        check(answer.status == 0, f"install: {answer!r}")
        return self

    def commit(self, *words, **how):
        """Tries a commit, and returns it with whether it was made."""
        before = self.head()
        answer = self.run("git", "commit", "--quiet", *(words or ("-m", "m")), **how)
        answer.is_made = self.head() != before
        check(answer.is_made == (answer.status == 0), f"a commit is made, or ends with another status than 0: {answer!r}")
        return answer

    def head(self):
        return self.run("git", "rev-parse", "--verify", "--quiet", "HEAD").out.strip()

    def write(self, path, held, mode=None):
        path = os.path.join(self.folder, path)
        os.makedirs(os.path.dirname(path), exist_ok=True)
        with open(path, "wb") as file:
            file.write(held.encode() if isinstance(held, str) else held)
        if mode is not None:
            os.chmod(path, mode)

    def read(self, path):
        with open(os.path.join(self.folder, path), "rb") as file:
            return file.read()

    def add(self, path, held, mode=None):
        """Writes and stages a file."""
        self.write(path, held, mode)
        self.git("add", "--", path)

    def configure(self, *hooks, top=""):
        """Stages a configuration of these hooks, each a text of keys."""
        self.add(CONFIGURATION, configuration(*hooks, top=top))

    def working_files(self):
        """All working files by their paths: a link's target, or the mode and the bytes of a file."""
        found = {}
        for folder, folders, names in os.walk(self.folder):
            folders[:] = [name for name in folders if name != ".git"]
            for name in names + [name for name in folders if os.path.islink(os.path.join(folder, name))]:
                path = os.path.join(folder, name)
                if name == ".git":
                    continue
                kind = os.lstat(path)
                held = ("link", os.readlink(path)) if stat.S_ISLNK(kind.st_mode) else (stat.S_IMODE(kind.st_mode), content(path))
                found[os.path.relpath(path, self.folder)] = held
        return found

    def home(self):
        """The folder that the bridge has for itself."""
        return os.path.join(self.git("rev-parse", "--absolute-git-dir").rstrip("\n"), "hookhost")

    def scratch(self):
        """The folder in which hooks run."""
        number = self.run("git", "hash-object", "--stdin", given=(self.home() + "\n").encode()).out[:16]
        return os.path.join(self.env["HOOKHOST_TMP"], f"hookhost-{os.getuid()}", number, "scratch")

    def store(self, *words):
        """What the program answers in the folder of the store."""
        return Answer(subprocess.run([PROGRAM, *words], cwd=os.path.join(self.home(), "files"), env=self.env, input=b"", capture_output=True, timeout=60))

    def store_holds(self):
        """The files that are staged in the store, by their paths."""
        answer = self.store("status")
        check(answer.status == 0, f"status: {answer!r}")
        paths = [line.removeprefix("A ") for line in answer.out.split("\n")[:-1]]
        return {path: self.store("cat", "--", path).out for path in paths}

    def forget(self):
        shutil.rmtree(self.home(), ignore_errors=True)


def content(path):
    with open(path, "rb") as file:
        return file.read()


def configuration(*hooks, top=""):
    return top + "repos:\n- repo: local\n  hooks:" + ("".join(f"\n  - {{{hook}}}" for hook in hooks) if hooks else " []") + "\n"


def shell(text):
    """A hook's entry of one line of a shell, whose arguments are the names."""
    return "entry: " + quoted_yaml("sh -c " + quoted(text) + " --")


def quoted(text):
    return "'" + text.replace("'", "'\\''") + "'"


def quoted_yaml(text):
    return '"' + text.replace("\\", "\\\\").replace('"', '\\"') + '"'


# Hooks that cost little. The first takes blanks from line ends, the second refuses a word.
BLANKS = "id: blanks, name: No blanks, language: system, entry: sed -i -e 's/ *$//' --, files: 'txt$', require_serial: true"
WORDS = "id: words, name: No bad words, language: system, " + shell('! grep -Hn BAD -- "$@"') + ", files: 'txt$', require_serial: true"


def names_hook(keys=""):
    """A hook that prints the names that it gets, one a line."""
    return "id: names, name: Names, language: system, " + shell('printf "<%s>\\n" "$@"') + ", verbose: true" + (", " + keys if keys else "")


def names_in(answer):
    """The names that such a hook has printed, of which the first is none."""
    return [line[1:-1] for line in answer.text.split("\n") if line.startswith("<") and line.endswith(">")]


# ---- what cases begin with, and look at


def repository(top, env, *hooks, name="git", options=()):
    """A repository with the hook and these hooks' configuration, which is committed."""
    made = Repository.made(os.path.join(top, name), env, *options)
    made.configure(*(hooks or (BLANKS, WORDS)))
    made.git("commit", "--quiet", "-m", "The configuration")
    return made.installed()


def refused(answer, *parts, status=3):
    same("status", answer.status, status)
    for part in parts:
        check(part in answer.err, f"{part!r} isn't in {answer!r}")


def made(answer):
    check(answer.is_made, f"the commit isn't made: {answer!r}")


def not_made(answer, *parts):
    check(not answer.is_made, f"the commit is made: {answer!r}")
    for part in parts:
        check(part in answer.text, f"{part!r} isn't in {answer!r}")


def holds_index(git):
    """Checks that the store holds the plain files of the index, as Git writes them."""
    rows = [row.partition("\t") for row in git.git("ls-files", "--stage", "-z").split("\0")[:-1]]
    wanted = {path: git.git("cat-file", "--filters", f":{path}") for head, _, path in rows if head.startswith("100")}
    same("the store", git.store_holds(), wanted)
