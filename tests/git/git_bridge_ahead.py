"""Commands of hooks that run at once in the hook of Git, those ahead of their turns in folders of their own; for tests/git/git_bridge.py.

Each command notes in the user's home that it begins. What it has to wait for is there too, so each case is the same each time.
"""
import os
import shutil

from git_bridge_repository import check, content, made, not_made, quoted, refused, repository, same, shell

BEGINS = 'mkdir -p "$HOME/here" && echo "$ID" >> "$HOME/log" && : > "$HOME/here/$$"; '
LONG, SHORT = 2000, 30


def meets(number, limit=LONG):
    """Lines of a shell that wait until so many commands have begun, for so many hundredths of a second."""
    return (f'left={limit}; until [ "$(ls "$HOME/here" | wc -l)" -ge {number} ]; do '
            "[ $left -gt 0 ] || exit 9; left=$((left-1)); sleep 0.01; done; ")


def hook(name, does, keys=""):
    keys = ", ".join(["always_run: true, pass_filenames: false", *filter(None, [keys])])
    return f"id: {name}, name: {name}, language: system, {keys}, " + shell(f"ID={name}; {BEGINS}{does}")


def starts(env):
    """Which commands have begun, and forgets it."""
    home = env["HOME"]
    begun = content(os.path.join(home, "log")).decode().split() if os.path.exists(os.path.join(home, "log")) else []
    for name in ("log", "here"):
        path = os.path.join(home, name)
        shutil.rmtree(path) if os.path.isdir(path) else os.path.exists(path) and os.remove(path)
    return sorted(begun)


def with_jobs(git, jobs, *words):
    """What a run answers with so many commands at once, and nothing cached, and which of them have begun."""
    git.forget()
    git.git("checkout", "--quiet", "--", ".")
    git.git("config", "hookhost.jobs", str(jobs))
    answer = git.bridge("run", *words)
    return (answer.status, answer.out, answer.err), starts(git.env)


def alike(git, jobs=3):
    """The answer of a run, which is the same with one command at once and with several, and what these have begun."""
    alone, _ = with_jobs(git, 1)
    together, begun = with_jobs(git, jobs)
    same("with several at once", together, alone)
    ahead = os.path.dirname(git.scratch()) + ".ahead"
    same("what is left next to the folders of commands ahead", os.listdir(ahead), [])
    return together, begun


def commands_run_at_once(top, env):
    git = repository(top, env, *(hook(name, meets(3, SHORT)) for name in "abc"))
    git.git("config", "hookhost.jobs", "1")
    not_made(git.commit())
    starts(env)
    git.configure(*(hook(name, meets(3)) for name in "abc"))
    git.git("config", "hookhost.jobs", "3")
    made(git.commit())
    same("what has begun", starts(env), ["a", "b", "c"])
    git.add("a.txt", "changed\n")
    git.git("config", "--unset", "hookhost.jobs")
    git.configure(hook("a", "true"))
    made(git.commit())
    for wrong in ("0", "257", "many", "-1", "1 2"):
        git.git("config", "hookhost.jobs", wrong)
        refused(git.bridge("run"), f"hookhost.jobs can't be {quoted(wrong)}: it has to be a number from 1 to 256")


def a_command_that_calls_git_runs_again_in_its_turn(top, env):
    calls = ["git diff --cached --name-only", "git rev-parse --show-toplevel --git-dir", "cd sub && git ls-files", 'git -C "$PWD/sub" ls-files; true']
    git = repository(top, env)
    git.add("sub/a.txt", "a\n")
    for text in calls:
        others = hook("second", text, "verbose: true"), hook("third", f"! {{ {text}; }}", "verbose: true")
        git.configure(hook("first", "true"), *others)
        alone, _ = with_jobs(git, 1)
        same(f"{text!r} in its turn", alone[0], 1)
        git.configure(hook("first", meets(3)), *others)
        together, begun = with_jobs(git, 3)
        same(f"{text!r} ahead of its turn", together, alone)
        same("what has begun", begun, ["first", "second", "second", "third", "third"])


def a_repository_of_the_hooks_own_needs_no_turn(top, env):
    does = "mkdir own && cd own && git init --quiet && git status --short --branch && git --version && cd .. && rm -rf own"
    git = repository(top, env, hook("first", meets(2)), hook("second", does, "verbose: true"))
    _, begun = with_jobs(git, 2)
    same("what has begun", begun, ["first", "second"])


def what_names_its_folder_runs_again(top, env):
    git = repository(top, env)
    for text in ("pwd", 'dirname "$PWD"', 'basename "$(dirname "$PWD")"', 'basename "$PWD"', 'pwd > a.txt', "pwd >&2"):
        git.configure(hook("first", "true"), hook("second", text, "verbose: true"), hook("third", text, "verbose: true"))
        git.add("a.txt", "a\n")
        answer, _ = alike(git)
        check(".ahead" not in answer[1] and "scratch." not in answer[1], f"{text!r} tells of a folder ahead: {answer!r}")


def a_fix_of_an_earlier_hook_is_seen(top, env):
    git = repository(top, env)
    git.add("a.txt", "bad\n")
    others = hook("second", "cat a.txt", "verbose: true"), hook("third", "! grep good a.txt", "verbose: true")
    git.configure(hook("first", meets(1) + "sed -i s/bad/good/ a.txt"), *others)
    alone, _ = with_jobs(git, 1)
    git.configure(hook("first", meets(3) + "sed -i s/bad/good/ a.txt"), *others)
    together, begun = with_jobs(git, 3)
    same("with several at once", together, alone)
    same("what has begun", begun, ["first", "second", "second", "third", "third"])


def with_a_repository_from_the_start_each_runs_in_its_turn(top, env):
    git = repository(top, env, *(hook(name, meets(2, SHORT)) for name in "ab"))
    git.git("config", "hookhost.alwaysGit", "true")
    answer, begun = with_jobs(git, 2)
    same("with hookhost.alwaysGit", (answer[0], begun), (1, ["a", "b"]))
    git.git("config", "--unset", "hookhost.alwaysGit")
    same("without it", with_jobs(git, 2)[0][0], 0)


def a_git_by_its_full_path_ahead_of_its_turn(top, env):
    real = quoted(shutil.which("git", path=env["PATH"]))
    others = hook("second", f"{real} ls-files", "verbose: true"), hook("third", f"! {real} ls-files", "verbose: true")
    git = repository(top, env, hook("first", "true"), *others)
    alone, _ = with_jobs(git, 1)
    together, _ = with_jobs(git, 3)
    same("with several at once", together, alone)
    check("so all hooks are run again, with a repository from the start" in together[2] and together[0] == 1, f"it says {together!r}")


def a_record_of_calls_that_can_not_be_written(top, env):
    """The run is refused then, since it isn't known which command called Git."""
    git = repository(top, env)
    spoils = 'mkdir "$(dirname "$PWD")/$(basename "$PWD").calls"; git ls-files'
    git.configure(hook("first", meets(2)), hook("second", spoils))
    git.git("config", "hookhost.jobs", "2")
    refused(git.bridge("run"), "calls Git")
    starts(env)


CASES = [commands_run_at_once, a_command_that_calls_git_runs_again_in_its_turn, a_repository_of_the_hooks_own_needs_no_turn,
         what_names_its_folder_runs_again, a_fix_of_an_earlier_hook_is_seen, with_a_repository_from_the_start_each_runs_in_its_turn,
         a_git_by_its_full_path_ahead_of_its_turn, a_record_of_calls_that_can_not_be_written]
