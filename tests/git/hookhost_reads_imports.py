"""Cases of tests/git/hookhost_reads.py with hooks of other repositories, and with another configuration than .pre-commit-config.yaml."""
import os

from git_bridge_repository import CONFIGURATION, check, same
from imported_hooks_made import SETUP, of_remote, path_without, remote

ALL_IN = "all that it reads is in the key"
ENOUGH = "every file is in the key, of which this is enough: x_reads: "
MANIFEST = """
- {id: rules, name: Rules, language: script, entry: bin/rules.sh, files: '^a$'}
- {id: setup, name: Setup, language: python, entry: tiny-hook, files: '^a$'}
- {id: plain, name: Plain, language: script, entry: bin/plain.sh, files: '^a$'}
- {id: asks, name: Asks Git, language: script, entry: bin/asks.sh, files: '^a$'}
- {id: wrong, name: Wrong, language: script, entry: bin/wrong.sh, files: '^a$'}
- {id: ahead, name: Looks ahead, language: script, entry: bin/plain.sh, files: '^(?!b)'}
- {id: dock, name: Docker, language: docker_image, entry: 'nobody/nothing:1 run'}
"""
MODULE = """import sys


def main():
    return len([open(name).read() for name in ("setup.cfg", *sys.argv[1:])]) < 2
"""
FILES = (
    (".pre-commit-hooks.yaml", MANIFEST, None), ("bin/words", "w\n", None), ("tiny_hook.py", MODULE, None), ("setup.py", SETUP, None),
    ("bin/rules.sh", '#!/bin/sh\ncat "${0%/*}/words" rules "$@" > /dev/null; test ! -e more/rules\n', 0o755),
    ("bin/plain.sh", '#!/bin/sh\ncat "$@" > /dev/null\n', 0o755),
    ("bin/asks.sh", "#!/bin/sh\ncat rules > /dev/null; git status > /dev/null 2>&1 || true\n", 0o755),
    ("bin/wrong.sh", "#!/bin/sh\ncat rules > /dev/null; exit 1\n", 0o755),
)
TREE = {"a": "a\n", "b": "b\n", "rules": "r\n", "setup.cfg": "[x]\n", "values": "v\n"}
LOCAL = "\n- repo: local\n  hooks:\n  - {id: loc, name: Local, language: system, entry: sh -c 'cat values \"$@\"' --, files: '^a$'}\n"


def hooks_of(desk):
    """The repository of the hooks. Nothing comes from the network."""
    desk.env |= {"PIP_NO_INDEX": "1", "PIP_DISABLE_PIP_VERSION_CHECK": "1"}
    return remote(os.path.dirname(desk.home), desk.env, FILES)


def where(name, hooks, configuration=CONFIGURATION):
    return f"where: the hook {name} of {hooks.folder}, v1.0, in {configuration}"


def lay(desk, text, configuration=CONFIGURATION):
    for path, held in TREE.items():
        desk.git.write(path, held)
    desk.git.write(configuration, "repos:" + text)
    desk.git.git("add", "--all")


def hooks_of_other_repositories_are_traced(desk):
    hooks = hooks_of(desk)
    lay(desk, of_remote(hooks, "rules", "setup", "dock", "plain", "asks", "wrong", "ahead") + LOCAL)
    before = sorted(os.listdir(os.path.join(desk.git.folder, ".git")))
    answer = desk.reads("--all-files")
    check("\nhookhost-reads: left to pre-commit, and so not traced: dock, ahead\n" in answer.err, f"what is left isn't told: {answer!r}")
    check(f"hookhost-reads: left to pre-commit: {CONFIGURATION}, in whose place" in answer.err, f"the configuration isn't told: {answer!r}")
    enough = {"rules": r"'^(more/.*|rules)$'", "setup": r"'^setup\.cfg$'", "plain": "'^/'"}
    told = desk.told("--files", "a", status=1)
    same("hooks", list(told), ["rules", "setup", "plain", "asks", "wrong", "loc"])
    for name, pattern in enough.items():
        same(name, told[name], [ALL_IN, ENOUGH + pattern, where(name, hooks)])
    same("those whose reads may be others", (told["asks"], told["wrong"]), ([ALL_IN, "calls Git"], [ALL_IN, "failed"]))
    same("loc", told["loc"], ["1 file missing from the key", "reads: values", "x_reads: '^values$'"])
    told = desk.told("rules", "wrong", "loc", "--cautious", "--files", "a", status=0)
    same("with cautious keys", told, {"rules": [ALL_IN], "wrong": [ALL_IN, "failed"], "loc": [ALL_IN]})
    same("the folder of Git", sorted(os.listdir(os.path.join(desk.git.folder, ".git"))), before)
    desk.is_clean()
    # With these lines an edit of another file starts none of them.
    lay(desk, of_remote(hooks, *(f"{{id: {name}, x_reads: {pattern}}}" for name, pattern in enough.items())))
    same("with what was printed", desk.told("--files", "a", status=0), {name: [ALL_IN] for name in enough})
    for path, held, cached in (("b", "b\n", 0), ("b", "c\n", 3), ("rules", "s\n", 2), ("setup.cfg", "[y]\n", 2), ("b", "d\n", 3)):
        desk.git.add(path, held)
        ran = desk.git.bridge("run", "--files", "a", "--verbose")
        same(f"{path} is {held!r}", (ran.status, ran.out.splitlines()[-1]), (0, f"answered from the cache: {cached}"))


def what_the_team_says_of_other_repositories_counts(desk):
    hooks = hooks_of(desk)
    lay(desk, of_remote(hooks, "{id: rules, x_reads: '^other$'}", "{id: setup, alias: two, x_reads: 'setup|[.]toml$'}", "ahead"))
    told = desk.told("rules", "two", "--files", "a", status=1)
    wanted = ["2 files missing from the key", "reads: rules", "looks for: more/..", r"x_reads: '^other$|^(more/.*|rules)$'", where("rules", hooks)]
    same("told", told, {"rules": wanted, "two": [ALL_IN]})
    same("one that is left", desk.told("ahead", "--files", "a", status=1), {"ahead": ["left to pre-commit, and so not traced"]})


def another_configuration_is_read(desk):
    hooks = hooks_of(desk)
    lay(desk, LOCAL + "  - {id: yaml, name: YAML, language: system, entry: cat values, files: 'pre-commit'}\n", "ci/hooks.yaml")
    desk.git.git("config", "hookhost.config", "ci/hooks.yaml")
    wanted = {"loc": ["1 file missing from the key", "reads: values", "x_reads: '^values$'"], "yaml": ["starts no command"]}
    same("local hooks", desk.told("--files", "a", status=1), wanted)
    # Hooks find it in the place of this one, which is none of the files that they are handed.
    desk.git.add(CONFIGURATION, "repos: []\n")
    same("all files", desk.told("--all-files", status=1), wanted)
    check(f"left to pre-commit: {CONFIGURATION}" in desk.reads("--all-files").err, "the file isn't named")
    lay(desk, of_remote(hooks, "{id: rules, x_reads: '^/'}"), "ci/hooks.yaml")
    same("of another repository", desk.told("--files", "a", status=1)["rules"][-1], where("rules", hooks, "ci/hooks.yaml"))
    desk.git.git("config", "hookhost.config", "../x")
    refused(desk, "hookhost.config can't be ../x")
    desk.git.git("config", "hookhost.config", "x")
    refused(desk, "no x is staged")


def refused(desk, *parts, **how):
    answer = desk.reads("--files", "a", **how)
    same("the status", (answer.status, answer.out), (3, ""))
    for part in parts:
        check(part in answer.err, f"{part!r} isn't in {answer!r}")
    desk.is_clean()


def without_pre_commit_the_ways_to_go_on_are_told(desk):
    hooks = hooks_of(desk)
    lay(desk, of_remote(hooks, "rules") + LOCAL)
    without = {"PATH": path_without(desk.home, "pre-commit")}
    refused(desk, "hookhost-reads: the staged configuration is refused:", f"{CONFIGURATION}:2: ", "install pre-commit (pre-commit.com)",
            "docs/FROM_PRE_COMMIT.md", env=without)
    # Local ones need none.
    lay(desk, LOCAL)
    same("local hooks", desk.reads("--files", "a", env=without).out.split("\n")[0], "loc: 1 file missing from the key")
    lay(desk, of_remote(hooks, "nowhere"))
    refused(desk, f"hookhost-reads: {CONFIGURATION} has hooks that pre-commit installs", "`nowhere` is not present in repository",
            "can't be made ready by pre-commit")


CASES = [
    hooks_of_other_repositories_are_traced, what_the_team_says_of_other_repositories_counts, another_configuration_is_read,
    without_pre_commit_the_ways_to_go_on_are_told,
]
