"""Runs of hooks of other repositories by hookhost-git, next to those of pre-commit; for tests/git/imported_hooks.py."""
import os

from git_bridge_repository import CONFIGURATION, check, made, not_made, same
from imported_hooks_made import LOCAL, MODULE, SIX, by_hookhost, by_pre_commit, edit, of_remote, release, remote, same_run


def first_second_and_edited_runs_are_those_of_pre_commit(top, env):
    hooks = remote(top, env)
    text = of_remote(hooks, *SIX) + LOCAL
    here, there = by_hookhost(top, env, text), by_pre_commit(top, env, text)
    edit((here, there), {"a.txt": "one\n", "b.txt": "two\n", "c.py": "three\n", "d.md": "four\n"})
    ours, started, wanted = same_run("the first run", here, there)
    same("the first run's verdicts", [verdict for _, verdict in ours.verdicts], ["Passed", "Passed", "Passed", "Passed", "Skipped", "Passed", "Passed", "Passed"])
    same("what the first run starts", started, wanted)
    same("what the first run starts", started, ["sys a.txt b.txt c.py d.md", "scr a.txt b.txt", "py a.txt b.txt c.py", "loc a.txt b.txt c.py d.md"])
    ours, started, wanted = same_run("the second run", here, there)
    same("what the second run starts", (started, len(wanted)), ([], 4))
    check("made ready" not in ours.err, f"the second run imports again: {ours!r}")
    edit((here, there), {"a.txt": "WRONG UGLY foo\nTODO BAD MINE\n", "e.bad": "x\n"})
    ours, started, wanted = same_run("the edited run", here, there)
    same("the edited run's verdicts", [verdict for _, verdict in ours.verdicts], ["Failed"] * 7 + ["Passed"])
    same("what the edited run starts", started, wanted)
    edit((here, there), {"a.txt": "one\n"})
    for side in (here, there):
        side.git.git("rm", "--quiet", "--force", "e.bad")
    _, started, wanted = same_run("the run after the edit is taken back", here, there)
    same("what it starts", (started, len(wanted)), ([], 4))
    here.git.installed()
    made(here.git.commit())
    edit((here,), {"a.txt": "BAD\n"})
    not_made(here.git.commit(), "Script..", "1:BAD")


def an_update_starts_hooks_again(top, env):
    hooks = remote(top, env)
    here = by_hookhost(top, env, of_remote(hooks, "scr", "py") + LOCAL)
    edit((here,), {"a.txt": "NEW\n"})
    same("the first run", [verdict for _, verdict in here.run().verdicts], ["Passed"] * 4)
    same("what it starts", here.started(), ["scr a.txt", "py a.txt", "loc a.txt"])
    hooks.add("tiny_hook.py", MODULE.replace("UGLY", "NEW"))
    release(hooks, "v2.0")
    here.git.add(CONFIGURATION, "repos:" + of_remote(hooks, "scr", "py", rev="v2.0") + LOCAL)
    here.git.git("commit", "--quiet", "--no-verify", "-m", "v2.0", "--", CONFIGURATION)
    same("after the update", [verdict for _, verdict in here.run().verdicts], ["Passed", "Failed", "Passed", "Passed"])
    same("what starts again", [line.split()[0] for line in here.started()][:2], ["scr", "py"])
    # The earlier revision is another command, whose result is still right.
    here.git.add(CONFIGURATION, "repos:" + of_remote(hooks, "scr", "py") + LOCAL)
    here.git.git("commit", "--quiet", "--no-verify", "-m", "v1.0", "--", CONFIGURATION)
    same("the earlier revision", [verdict for _, verdict in here.run().verdicts], ["Passed"] * 4)


def a_changed_environment_starts_its_hooks_again(top, env):
    """A module that is edited, or an environment that pre-commit makes again, is another program."""
    hooks = remote(top, env)
    home = os.path.join(top, "environments")
    here = by_hookhost(top, env | {"PRE_COMMIT_HOME": home}, of_remote(hooks, "scr", "py"))
    edit((here,), {"a.txt": "OLD\n"})
    for wanted in (["scr a.txt", "py a.txt"], []):
        same("verdicts", [verdict for _, verdict in here.run().verdicts], ["Passed", "Passed"])
        same("starts", here.started(), wanted)
    module, = [os.path.join(folder, "tiny_hook.py") for folder, _, names in os.walk(home) if "tiny_hook.py" in names and folder.endswith("site-packages")]
    with open(module, encoding="utf-8") as file:
        held = file.read()
    times = os.stat(module)
    with open(module, "w", encoding="utf-8") as file:
        file.write(held.replace("UGLY", "OLD\\n"))
    os.utime(module, ns=(times.st_atime_ns, times.st_mtime_ns + 2_000_000_000))
    same("after an edit of a module", [verdict for _, verdict in here.run().verdicts], ["Passed", "Failed"])
    same("no other folder", os.path.exists(os.path.join(env["PRE_COMMIT_HOME"], "db.db")) and "environments" in open(script_of(here, "py"), encoding="utf-8").read(), True)
    here.started()
    for name in os.listdir(home):
        if name.startswith("repo"):
            os.rename(os.path.join(home, name), os.path.join(top, name))
    for name in ("db.db", ".lock"):
        os.remove(os.path.join(home, name))
    same("after pre-commit has installed it again", [verdict for _, verdict in here.run().verdicts], ["Passed", "Passed"])
    same("starts", here.started(), ["scr a.txt", "py a.txt"])


def script_of(side, name):
    """The newest script that starts a hook."""
    folder = os.path.join(side.git.home(), "scripts")
    return max((os.path.join(folder, each) for each in os.listdir(folder) if each.startswith(name + "-")), key=os.path.getmtime)


def hooks_that_cannot_be_made_are_left_to_pre_commit(top, env):
    hooks = remote(top, env)
    text = of_remote(hooks, "scr", "ahead", "dock") + "\n- repo: meta\n  hooks:\n  - {id: identity}\n" + LOCAL
    here = by_hookhost(top, env, text)
    edit((here,), {"a.txt": "a\n", "b.txt": "b\n"})
    for what in ("first", "second"):
        answer = here.run(env={"SKIP": "dock"})
        same(f"the {what} run", (answer.status, [name for name, _ in answer.verdicts]), (0, ["Script", "Files that look ahead", "Docker", "identity", "Local", "Local pygrep"]))
        check("\na.txt\nb.txt\n" in answer.out, f"identity doesn't print the files: {answer!r}")
        same("starts", here.started(), ["scr a.txt b.txt", "ahead a.txt", "loc a.txt b.txt"] if what == "first" else ["ahead a.txt"])
        if what == "first":
            for name in ("ahead", "dock", "identity"):
                check(f"left to pre-commit: '{name}': " in answer.err, f"{name} isn't named: {answer!r}")
    # There is no docker here, or no such image.
    answer = here.run()
    same("with docker", (answer.status, dict(answer.verdicts)["Docker"], dict(answer.verdicts)["identity"]), (1, "Failed", "Passed"))
    answer = here.run("identity")
    same("one of them alone", (answer.status, answer.verdicts), (0, [("identity", "Passed")]))
    answer = here.run("scr")
    same("one of the others alone", (answer.status, answer.verdicts), (0, [("Script", "Passed")]))
    here.started()
    answer = here.run("--files", "a.txt", env={"SKIP": "dock,identity"})
    same("on one file", (answer.status, here.started()), (0, ["scr a.txt", "ahead a.txt", "loc a.txt"]))
    # Git hands another index to its hook then.
    here.git.installed()
    made(here.git.commit(env={"SKIP": "dock"}))
    here.git.write("a.txt", "other\n")
    answer = here.git.commit("-a", "-m", "m", env={"SKIP": "dock"})
    made(answer)
    check("\n\na.txt\n\n" in answer.text, f"identity doesn't get the file of git commit -a: {answer!r}")


def files_that_hooks_cannot_be_handed_go_to_pre_commit(top, env):
    """Of the configuration hooks would find another text, and hookhost doesn't know each type of pre-commit."""
    hooks = remote(top, env)
    toml = "\n- repo: local\n  hooks:\n  - {id: toml, name: No bad TOML, language: pygrep, entry: BAD, types: [toml]}\n  - {id: shell, name: No bad shell, language: pygrep, entry: BAD, types: [shell]}\n"
    text = of_remote(hooks, "pyg", "scr") + toml
    here, there = by_hookhost(top, env, text), by_pre_commit(top, env, text)
    edit((here, there), {CONFIGURATION: "repos:" + text + "# TODO\n"})
    ours, *_ = same_run("an edit of the configuration", here, there)
    check(f"only it can hand them {CONFIGURATION}" in ours.err and ours.status == 1, f"the run isn't pre-commit's: {ours!r}")
    for side in (here, there):
        side.git.git("commit", "--quiet", "--no-verify", "-m", "m")
    for path, mode, held in (("sub/Pipfile", None, "BAD\n"), ("run.CSH", None, "BAD\n"), ("starts", 0o755, "#!/usr/bin/env -S tcsh -f\nBAD\n")):
        for side in (here, there):
            side.git.add(path, held, mode)
        ours, *_ = same_run(path, here, there)
        check(path in ours.err and ours.status == 1, f"{path} isn't pre-commit's: {ours!r}")
        for side in (here, there):
            side.git.git("rm", "--quiet", "--force", path)
    edit((here,), {"a.txt": "a\n", "Pipfile": "fine\n"})
    answer = here.run("--all-files")
    same("all files", (answer.status, len(answer.verdicts), answer.verdicts[:4]), (1, 8, [(name, "Passed" if number < 2 else "Skipped") for number, name in enumerate(
        ("Pygrep", "Script", "No bad TOML", "No bad shell"))]))
    check(f"{CONFIGURATION}:" in answer.out and "TODO" in answer.out, f"the configuration isn't checked: {answer!r}")
    here.started()


CASES = [
    first_second_and_edited_runs_are_those_of_pre_commit, an_update_starts_hooks_again, a_changed_environment_starts_its_hooks_again,
    hooks_that_cannot_be_made_are_left_to_pre_commit, files_that_hooks_cannot_be_handed_go_to_pre_commit,
]
