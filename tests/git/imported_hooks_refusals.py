"""What hookhost-git refuses of configurations with hooks of other repositories, and what no text in them can do; for
tests/git/imported_hooks.py."""
import json
import os

from git_bridge_repository import CONFIGURATION, check, made, not_made, refused, same
from imported_hooks_made import LOCAL, by_hookhost, by_pre_commit, edit, of_remote, path_without, remote

# Nothing of this may be run by a shell. The files that it would make lie in the working folder of whatever runs it.
TEXTS = ["$(touch pwned)", "`touch pwned`", "a  b", "'", '"', "\\", "-", "", "one\ntwo", "*", "é\u2028\U0001f40d", "\t", "; touch pwned", "#", "&x", "!y", "{z", "%", "\x7f"]
ARGUMENTS = '#!/bin/sh\nfor word; do printf "<%s>" "$word"; done >> "$HOOKS_LOG"\necho >> "$HOOKS_LOG"\n'
BROKEN = 'raise SystemExit("this setup is broken")\n'


def as_yaml(it):
    """It in YAML, in which a surrogate is no character, and DEL isn't read as it is."""
    return json.dumps(it).replace("\\ud83d\\udc0d", "\U0001f40d").replace("\x7f", "\\x7f")


def without_pre_commit_it_is_refused(top, env):
    hooks = remote(top, env)
    here = by_hookhost(top, env, of_remote(hooks, "sys") + LOCAL)
    edit((here,), {"a.txt": "a\n"})
    here.git.installed()
    without = {"PATH": path_without(top, "pre-commit")}
    refused(here.run(env=without), "hookhost: refused: 8 BadConfig", f"{CONFIGURATION}:2: ", "install pre-commit", "docs/FROM_PRE_COMMIT.md")
    not_made(here.git.commit(env=without), "so nothing was checked")
    same("starts", here.started(), [])
    made(here.git.commit())
    same("starts with it", here.started(), ["sys a.txt", "loc a.txt"])
    # One that hookhost takes by itself needs no pre-commit.
    here.git.add(CONFIGURATION, "repos:" + LOCAL)
    made(here.git.commit(env=without))


def no_text_of_a_configuration_is_run(top, env):
    name = "it's \"$(touch pwned)\" `touch pwned`"
    hooks = remote(top, env, (
        (".pre-commit-hooks.yaml", as_yaml([{"id": "o'dd\n$(touch pwned)", "name": "x", "language": "script", "entry": "'bin/a r g s.sh' 'in entry $(touch pwned)' \\\"",
                                                "require_serial": True}]), None),
        ("bin/a r g s.sh", ARGUMENTS, 0o755)), name=name)
    hook = {"id": "o'dd\n$(touch pwned)", "name": name + "\n# \\ é: [x]", "alias": "al'ias: $(touch pwned)", "args": TEXTS, "files": "^(a'\\$\\(touch pwned\\)\\.txt|b\"\\.txt)$"}
    text = "\n- " + as_yaml({"repo": hooks.folder, "rev": "v1.0", "hooks": [hook]}) + "\n"
    odd = env | {"PRE_COMMIT_HOME": os.path.join(top, "a 'place' of $(touch pwned)")}
    here, there = by_hookhost(top, odd, text), by_pre_commit(top, odd, text)
    edit((here, there), {"a'$(touch pwned).txt": "a\n", 'b".txt': "b\n"})
    for side in (here, there):
        answer = side.run()
        check(answer.status == 0, f"the run fails: {answer!r}")
        check(name in answer.out, f"the name isn't in the report: {answer!r}")
    wanted = ["in entry $(touch pwned)", '"', *TEXTS, "a'$(touch pwned).txt", 'b".txt']
    found = here.started()
    same("the words", "\n".join(found), "".join(f"<{word}>" for word in wanted))
    same("those of pre-commit", there.started(), found)
    same("again", (here.run().status, here.started()), (0, []))
    same("by its alias", [verdict for _, verdict in here.run(hook["alias"]).verdicts], ["Passed"])
    pwned = [os.path.join(folder, each) for folder, _, names in os.walk(top) for each in names if each == "pwned"]
    same("what a shell has run", pwned + ([] if not os.path.exists("pwned") else ["pwned"]), [])


def a_failing_install_refuses_the_commit(top, env):
    hooks = remote(top, env, (("setup.py", BROKEN, None),))
    here = by_hookhost(top, env, of_remote(hooks, "scr", "py") + LOCAL)
    edit((here,), {"a.txt": "a\n"})
    here.git.installed()
    not_made(here.git.commit(), "this setup is broken", "so nothing was checked")
    same("the status", here.run().status, 3)
    same("what is kept", (here.started(), os.listdir(os.path.join(here.git.home(), "imports"))), ([], []))
    # It needn't be installed if it is skipped.
    answer = here.run(env={"SKIP": "py"})
    same("skipped", (answer.status, answer.verdicts), (0, [("Script", "Passed"), ("Python", "Skipped"), ("Local", "Passed"), ("Local pygrep", "Passed")]))
    same("starts", here.started(), ["scr a.txt", "loc a.txt"])


def what_pre_commit_refuses_is_refused(top, env):
    hooks = remote(top, env)
    here = by_hookhost(top, env, of_remote(hooks, "nowhere"))
    edit((here,), {"a.txt": "a\n"})
    refused(here.run(), "`nowhere` is not present in repository", "can't be made ready")
    here.git.add(CONFIGURATION, "repos:" + of_remote(hooks, "{id: scr, minimum_pre_commit_version: '999'}"))
    refused(here.run(), "999", "can't be made ready")
    here.git.add(CONFIGURATION, "repos:" + of_remote(hooks, "{id: scr, stages: [nope]}"))
    refused(here.run(), "nope", "can't be made ready")
    here.git.add(CONFIGURATION, "repos:" + of_remote(hooks, "scr", rev="v9.9"))
    refused(here.run(), "v9.9", "can't be made ready")
    same("starts", (here.started(), os.listdir(os.path.join(here.git.home(), "imports"))), ([], []))
    hooks.git("tag", "v9.9")
    here.git.git("commit", "--quiet", "--no-verify", "-m", "m", "--", CONFIGURATION)
    same("once it is there", (here.run().status, here.started()), (0, ["scr a.txt"]))


CASES = [without_pre_commit_it_is_refused, no_text_of_a_configuration_is_run, a_failing_install_refuses_the_commit, what_pre_commit_refuses_is_refused]
