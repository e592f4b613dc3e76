"""Second clones, several working trees and hooks of other repositories, for tests/git/ci_job.py. They are the claims of
docs/CONTINUOUS_INTEGRATION.md in its order."""
import os
import shutil
import subprocess

from ci_job_cases import DROPPED
from ci_job_made import COPY, SCRIPT, SETTING, TEAM_HOOK, Server, as_new, said
from git_bridge_repository import BRIDGE, Repository, check, made, not_made, same
from imported_hooks_made import of_remote, path_without, remote

TEAM_LINE = "git config core.hooksPath .githooks"


# ---- hooks of other repositories


def imported(top, env, *ids, script=SCRIPT):
    """A server with hooks of another repository, of which `py` has an environment of Python, and the folder of pre-commit."""
    hooks, home = remote(top, env), os.path.join(top, "home/kept/pre-commit")
    return Server(top, env | {"PRE_COMMIT_HOME": home}, text="repos:" + of_remote(hooks, *ids), script=script).push({"a.txt": "a\n"}), home


def hooks_of_other_repositories_are_kept(top, env):
    server, home = imported(top, env, "scr", "py")
    every = ["py a.txt", "scr a.txt"]
    said("the first job", server.job_is("the first job", 0, every), "they are made ready")
    as_new(home)
    answer = server.job_is("both folders on a new machine", 0, [])
    same("it imports nothing", answer.lines(), [])
    # An edited module is another program.
    places = [folder for folder, _, names in os.walk(home) if "tiny_hook.py" in names and folder.endswith("site-packages")]
    module, = (os.path.join(folder, "tiny_hook.py") for folder in places)
    server.desk.write(module, server.desk.read(module).decode() + "# newer\n")
    server.job_is("an edited module", 0, ["py a.txt", "scr a.txt"])
    server.job_is("again", 0, [])
    shutil.rmtree(home)
    server.job_is("without pre-commit's folder", 0, every)
    server.push({"a.txt": "UGLY\n"})
    server.job_is("a hook that fails", 1, every)


def without_the_setting_they_start_on_each_new_machine(top, env):
    server, home = imported(top, env, "scr", script=SCRIPT.replace(SETTING, ""))
    for what in ("the first job", "both folders on a new machine"):
        server.job_is(what, 0, ["scr a.txt"])
        as_new(home)


# ---- another clone


def clone(server, name, *options):
    found = Repository(os.path.join(server.top, name), server.env)
    server.desk.git("clone", "--quiet", *options, server.env["ORIGIN"], found.folder)
    return found


def a_second_developer_runs_one_line(top, env):
    server = Server(top, env)
    second = clone(server, "second")
    second.add("a.txt", "BAD\n")
    made(second.commit())
    second.git("config", "user.name", "Second")
    said("the one line", second.run("sh", "-c", "hookhost-git install"), "installed: ", "runs: pre-commit (3 hooks)")
    second.add("a.txt", "BAD BAD\n")
    not_made(second.commit(), "a.txt:1:BAD")
    # The team's own file.
    server.push({}, "main")
    server.desk.add(".githooks/pre-commit", TEAM_HOOK, 0o755)
    server.push({}, "main")
    third = clone(server, "third")
    third.add("a.txt", "BAD\n")
    made(third.commit())
    same("the team's line", third.run("sh", "-c", TEAM_LINE).status, 0)
    third.add("a.txt", "BAD BAD\n")
    os.makedirs(os.path.join(third.folder, "sub"))
    not_made(third.commit(cwd="sub"), "a.txt:1:BAD")
    for path in ("/usr/bin:/bin", path_without(top, "hookhost-git")):
        not_made(third.commit(env={"PATH": path}), "hookhost-git: not found")
    answer = third.run("hookhost-git", "install")
    same("install", (answer.status, third.read(".githooks/pre-commit").decode()), (3, TEAM_HOOK))
    said("install", answer, "not installed, since", "it is another's, and begins with: exec hookhost-git hook pre-commit")
    third.add("a.txt", "good\n")
    made(third.commit())


# ---- several working trees


def trees(server, *names):
    """The desk, and working trees of its repository next to it."""
    found = [server.desk]
    for name in names:
        folder = os.path.join(server.top, name)
        server.desk.git("worktree", "add", "--quiet", "-b", name, folder)
        found.append(Repository(folder, server.env))
    return found


def all_files(server, tree, what, started, status=0, lines=()):
    answer = tree.run("hookhost-git", "run", "--all-files")
    same(f"{what}: the status and what is started, with {answer!r}", (answer.status, server.started()), (status, started))
    same(f"{what}: lines", answer.lines(), list(lines))


def copied(server, tree):
    """Copies the store of the desk as the page shows it."""
    same("the copy", server.play(tree.folder, COPY, {"FIRST": server.desk.folder}).status, 0)


def working_trees_share_hooks_and_no_store(top, env):
    server = Server(top, env).push({"a.txt": "a\n"})
    every = ["tree", "words a.txt", "words old.txt"]
    first, second, third = trees(server, "second", "third")
    same("install", first.run("hookhost-git", "install").status, 0)
    all_files(server, first, "the first tree", every)
    all_files(server, second, "a second tree starts each command", every)
    all_files(server, second, "once", [])
    check(os.path.getsize(os.path.join(second.home(), "files/.hookhost/store.db")) > 0 and second.home() != first.home(), "both share a store")
    # Git runs the one hook in each.
    second.add("a.txt", "BAD\n")
    not_made(second.commit(), "a.txt:1:BAD")
    server.started()
    # A run at work in one keeps none of another waiting.
    holds = ["flock", os.path.join(first.home(), "lock"), "sh", "-c", "echo; read line"]
    with subprocess.Popen(holds, stdin=subprocess.PIPE, stdout=subprocess.PIPE) as holder:
        holder.stdout.readline()
        said("a run where another is at work", first.run("hookhost-git", "run"), "another hookhost-git is at work")
        all_files(server, third, "a run next to it", every)
        holder.stdin.close()
    # Each goes its own way after a copy.
    copied(server, third)
    all_files(server, third, "a copy", [])
    third.add("b.txt", "b\n")
    all_files(server, third, "an edit in the copy", ["tree", "words b.txt"])
    all_files(server, first, "the first tree after it", [])
    first.add("b.txt", "b\n")
    all_files(server, first, "the same edit there", ["tree", "words b.txt"])


def a_copy_in_another_clone(top, env):
    """It is as good as in another working tree of one machine, also if the clone has other commits."""
    server = Server(top, env).push({"a.txt": "a\n"})
    all_files(server, server.desk, "the desk", ["tree", "words a.txt", "words old.txt"])
    server.push({"c.txt": "c\n"}, "main")
    other = clone(server, "clone", "--branch", "main", "--depth", "1")
    copied(server, other)
    all_files(server, other, "a copy in another clone", ["tree", "words c.txt"])


def a_copy_sees_that_a_linked_folder_is_another(top, env):
    """The folder of packages of one working tree mustn't pass for that of another."""
    server = Server(top, env).push({"a.txt": "a\n"})
    every = ["tree", "words a.txt", "words old.txt"]
    first, second, third, fourth = trees(server, "second", "third", "fourth")
    for tree, number in ((first, 1), (second, 1), (third, 1), (fourth, 2)):
        tree.write(".venv/lib/python3.11/site-packages/tool-1.0.dist-info/RECORD", f"tool,sha256={number}\n")
        tree.write(".venv/bin/tool", "#!/bin/sh\n", 0o755)
    first.git("config", "hookhost.link", ".venv")
    all_files(server, first, "the first tree", every)
    copied(server, second)
    answer = second.run("hookhost-git", "run", "--all-files")
    same("a copy with another folder", (answer.status, server.started()), (0, every))
    line, = answer.lines()
    check(line.startswith(DROPPED + second.folder + "/.venv"), f"the line is {line!r}")
    first.git("config", "hookhost.toolsByContent", "true")
    all_files(server, first, "by content", every)
    copied(server, third)
    all_files(server, third, "a copy with a copy of the folder", [])
    copied(server, fourth)
    packages = f"{fourth.folder}/.venv/lib/python3.11/site-packages"
    all_files(server, fourth, "a copy with a folder of other packages", every, lines=[f"{DROPPED}{packages} changed"])


def a_copy_imports_hooks_of_other_repositories_again(top, env):
    server, _ = imported(top, env, "scr")
    first, second = trees(server, "second")
    made_ready = ".pre-commit-config.yaml has hooks that pre-commit installs: they are made ready, once for this configuration"
    every = ["scr a.txt old.txt"]
    answer = first.run("hookhost-git", "run", "--files", "a.txt", "old.txt")
    same("the first tree", (answer.status, server.started()), (0, every))
    copied(server, second)
    answer = second.run("hookhost-git", "run", "--files", "a.txt", "old.txt")
    same("the copy", (answer.status, server.started(), answer.lines()), (0, every, [made_ready]))
    same("the bridge", shutil.which("hookhost-git", path=server.env["PATH"]), BRIDGE)


CASES = [
    hooks_of_other_repositories_are_kept, without_the_setting_they_start_on_each_new_machine, a_second_developer_runs_one_line,
    working_trees_share_hooks_and_no_store, a_copy_in_another_clone, a_copy_sees_that_a_linked_folder_is_another,
    a_copy_imports_hooks_of_other_repositories_again,
]
