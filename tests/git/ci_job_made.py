"""What docs/CONTINUOUS_INTEGRATION.md shows, and a server that plays it, for tests/git/ci_job.py."""
import os
import re
import shutil

import yaml
from git_bridge_repository import CONFIGURATION, Repository, check, configuration, same, shell
from imported_hooks_made import ENDS
from places import TOP

PAGE = os.path.join(TOP, "docs/CONTINUOUS_INTEGRATION.md")
KINDS = ["sh", "sh", "yaml", "yaml", "sh", "sh"]
SETTING = "git config hookhost.toolsByContent true\n"
# Each hook writes a line into a file outside the tree for each start.
PLAIN = "language: system, x_reads: '^/', "


def logs(name, then):
    return shell(f'echo "{name} $*" >> "$HOOKS_LOG"; {then}')


HOOKS = (
    f"id: words, name: words, {PLAIN}types: [plain-text], x_per_file: true, " + logs("words", '! grep -Hn BAD "$@"'),
    f"id: blanks, name: blanks, {PLAIN}types: [markdown], " + logs("blanks", 'sed -i "s/ *$//" "$@"'),
    "id: tree, name: tree, language: system, always_run: true, pass_filenames: false, x_reads: '', " + shell('echo tree >> "$HOOKS_LOG"'),
)


def shown():
    """The blocks of the page: the script of the job, a job anywhere, GitHub's, GitLab's, the team's hook, and the copy of a store."""
    with open(PAGE, encoding="utf-8") as file:
        found = re.findall(r"^```(\w+)\n(.*?)^```$", file.read(), re.MULTILINE | re.DOTALL)
    same("the blocks of the page", [kind for kind, _ in found], KINDS)
    return [text for _, text in found]


SCRIPT, ANYWHERE, GITHUB, GITLAB, TEAM_HOOK, COPY = shown()


def steps_of_github():
    """The depth of the clone, the folder that is kept, and the lines of the last step."""
    steps = yaml.safe_load(GITHUB)["jobs"]["hooks"]["steps"]
    used = {step["uses"].split("@")[0]: step["with"] for step in steps if "uses" in step}
    return used["actions/checkout"]["fetch-depth"], used["actions/cache"]["path"], steps[-1]["run"]


def steps_of_gitlab():
    job = yaml.safe_load(GITLAB)["hooks"]
    return job["variables"]["GIT_DEPTH"], job["cache"]["paths"], "\n".join(job["script"])


class Server:
    """An origin, a developer's clone that pushes to it, and jobs. Each job has a new clone in the place of the last one."""

    def __init__(self, top, env, *hooks, text=None, script=SCRIPT):
        self.top, self.log = top, os.path.join(top, "log")
        self.home, self.kept = (os.path.join(top, *parts) for parts in (("home",), ("home", "kept", "hookhost")))
        self.env = env | {"PATH": f"{TOP}/git:{env['PATH']}", "HOOKS_LOG": self.log, "HOME": self.home, "TARGET": "main", "BRANCH": "change",
                          "ORIGIN": f"file://{top}/origin.git"}
        os.makedirs(self.home, exist_ok=True)
        # Hooks note that they start, so each command runs in its turn.
        with open(os.path.join(self.home, ".gitconfig"), "w", encoding="utf-8") as file:
            file.write("[hookhost]\n\tjobs = 1\n")
        self.desk = Repository.made(os.path.join(top, "desk"), self.env)
        self.desk.add("ci/hooks", script, 0o755)
        self.desk.add(CONFIGURATION, text or configuration(*(hooks or HOOKS)))
        self.desk.add("old.txt", "old\n")
        self.desk.git("commit", "--quiet", "-m", "The configuration")
        self.desk.git("clone", "--quiet", "--bare", self.desk.folder, os.path.join(top, "origin.git"))
        self.desk.git("remote", "add", "origin", os.path.join(top, "origin.git"))
        self.desk.git("checkout", "--quiet", "-b", "change")

    def push(self, files, branch="change"):
        """Commits these files on a branch, unchecked, and pushes it."""
        self.desk.git("checkout", "--quiet", branch)
        for path, held in files.items():
            self.desk.add(path, held)
        self.desk.git("commit", "--quiet", "--allow-empty", "--no-verify", "-m", "m")
        self.desk.git("push", "--quiet", "--force", "origin", branch)
        return self

    def place(self):
        """An empty folder for a job, always the same."""
        folder = os.path.join(self.top, "work")
        shutil.rmtree(folder, ignore_errors=True)
        os.mkdir(folder)
        return folder

    def job(self, commands=ANYWHERE, env=None, options=""):
        """What a job prints in a new clone. The options are those of the clone."""
        folder = self.place()
        clone = commands.replace("git clone --quiet", f"git clone --quiet {options}".rstrip(), 1)
        return self.play(folder, clone, env)

    def play(self, folder, commands, env=None):
        """What these lines of a shell print, the first that fails being the last."""
        answer = Repository(folder, self.env).run("sh", "-e", "-c", commands, env=env)
        answer.verdicts = dict(ENDS.findall(answer.out))
        return answer

    def started(self):
        """What hooks have written since the last call, a line for each command, in the order of the alphabet."""
        if not os.path.exists(self.log):
            return []
        with open(self.log, encoding="utf-8") as file:
            found = sorted(file.read().splitlines())
        os.remove(self.log)
        return found

    def job_is(self, what, status, started, **how):
        """Plays a job, and checks how it ends and what it starts."""
        answer = self.job(**how)
        same(f"{what}: the status, with {answer!r}", answer.status, status)
        same(f"{what}: what is started", self.started(), started)
        return answer


def said(what, answer, *parts):
    for part in parts:
        check(part in answer.text, f"{what}: {part!r} isn't in {answer!r}")


def as_new(folder):
    """Copies a folder into its own place, as what is brought to a new machine: other inodes and times of change."""
    shutil.copytree(folder, folder + ".new", symlinks=True)
    shutil.rmtree(folder)
    os.rename(folder + ".new", folder)
