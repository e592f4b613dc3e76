"""The parts of hookhost-import, and settings of hookhost-git that go with it; for tests/git/imported_hooks.py."""
import json
import os
import re
import subprocess
import sys

from git_bridge_repository import CONFIGURATION, PROGRAM, check, made, refused, same
from imported_hooks_made import LOCAL, by_hookhost, edit, of_remote, path_without, printed, python_of_hooks, remote
from places import CRATES, TOP

IMPORTER = os.path.join(TOP, "git/hookhost-import")
sys.path.insert(0, os.path.join(TOP, "git"))
from hookhost_import import interpreter, patterns, tools, yaml_text

# Paths of all kinds that patterns of tools tell apart.
PATHS = [folder + name for folder in ("", "a/", ".a/", ".git-state/", "x/.git-state/") for name in (
    "a.py", ".a", ".g", ".git", ".git-", ".git-stat", ".git-state", ".git-states", ".gitignore", "a.toml", "a.cfg", "a.ini", "a.yml", "README", "a.md", "_clang-format", "proselintrc", "a.json",
    "a.git-state", ".hit-state", "b.txt", "a.so", "c")]


def the_table_of_tools_is_that_of_hookhost(_top, _env):
    """Each pattern finds the same paths as the one of the program, but not the file with Git's state."""
    with open(os.path.join(CRATES, "run_options/src/tools.rt"), encoding="utf-8") as file:
        text = file.read()
    named = dict(re.findall(r'^const (\w+): &str =\s*r?"(.*)";$', text, re.MULTILINE))
    rows = {tool: named[name] for tool, kind, name in re.findall(r'\(\s*"([^"]+)",\s*ToolKind::(\w+),\s*(\w+),', text) if kind == "Options"}
    check(len(named) > 10 and len(rows) > 60, f"the table isn't read: {len(named)} patterns, {len(rows)} tools")
    for name, (_, reads) in (tools.OF_PYTHON | tools.OF_NODE).items():
        for path in PATHS:
            found, wanted = bool(re.search(reads, path)), path != ".git-state" and bool(re.search(rows[name], path))
            same(f"{name} reads {path}", found, wanted)
        check(patterns.means_the_same(reads), f"the pattern of {name} means something else to hookhost")
    same("what an unknown tool reads", [path for path in PATHS if not re.search(tools.EVERYTHING, path)], [])


def a_tool_is_known_if_its_package_has_installed_it(top, _env):
    class Hook:
        entry, args, language, pass_filenames, always_run = "black", ["--check", "--line-length=100"], "python", True, False

    def hook(**keys):
        return type("Other", (Hook,), keys)

    def record(folder, package, name):
        path = os.path.join(top, folder, "lib/python3.11/site-packages", package + "-1.0.dist-info")
        os.makedirs(path)
        with open(os.path.join(path, "RECORD"), "w", encoding="utf-8") as file:
            file.write(f"../../../bin/{name},sha256=x,1\n{package}.py,,\n")
        return os.path.join(top, folder)

    own, other = record("own", "black", "black"), record("other", "blacker", "black")
    hooks = record("hooks", "pre_commit_hooks", "check-json")
    both = record("both", "black", "black")
    record("both", "blacker", "black")
    rows = [(Hook, own, tools.PYTHON), (Hook, other, tools.EVERYTHING), (Hook, both, tools.EVERYTHING), (Hook, os.path.join(top, "none"), tools.EVERYTHING),
            (hook(entry="check-json", args=[]), hooks, tools.NOTHING), (hook(entry="check-json", args=[]), own, tools.EVERYTHING),
            (hook(args=["--config=x"]), own, tools.EVERYTHING), (hook(args=["src"]), own, tools.EVERYTHING), (hook(entry="black 'x y'"), own, tools.EVERYTHING),
            (hook(pass_filenames=False), own, tools.EVERYTHING), (hook(always_run=True), own, tools.EVERYTHING), (hook(language="ruby"), own, tools.EVERYTHING)]
    for number, (each, folder, wanted) in enumerate(rows):
        same(f"row {number}", tools.reads_of(each, folder), wanted)


def patterns_that_mean_something_else_are_known(_top, _env):
    rows = [(r"^src/", True), (r"[[:alpha:]]", False), (r"[a--b]", False), (r"[a&&b]", False), ("(?x)^(\n  a |\n  b\n)$", True), (r"(?x)[a b]", False), (r"[]a[]", False),
            (r"a++", False), (r"c\+\+", True), (r"[\[a]", True), (r"[^]a]b[c]", True), (r"(?i)a", True), (r"\[[a]", True)]
    for pattern, wanted in rows:
        same(pattern, patterns.means_the_same(pattern), wanted)
    for pattern, words, wanted in ((r"a\(b", [], True), ("a.b", [], False), (r"a\.b", [], True), (r"\bx", [], False), ("[^a]", [], False), ("a", ["-i"], False), ("é", [], False), ("(?i)k", [], False), ("a|b", ["--negate"], True)):
        same(f"pygrep {pattern} {words}", patterns.finds_the_same(pattern, words), wanted)


def the_python_of_pre_commit_is_found(top, _env):
    python = os.path.join(top, "a place", "python3")
    os.mkdir(os.path.dirname(python))
    os.symlink(sys.executable, python)
    rows = [(f"#!{python_of_hooks()}\n", python_of_hooks()), (f"#!/bin/sh\n'''exec' \"{python}\" \"$0\" \"$@\"\n' '''\n", python), ("#!/bin/sh\nexec x\n", None),
            ("#!/nowhere/python3\n", None), ("", None)]
    for text, wanted in rows:
        with open(os.path.join(top, "program"), "w", encoding="utf-8") as file:
            file.write(text)
        same(text, interpreter.python_of(os.path.join(top, "program")), wanted)


def any_text_is_read_back(top, env):
    """The YAML that is written is read by Python's yaml and by hookhost as the same texts."""
    texts = ["".join(map(chr, range(first, first + 64))) for first in (0, 64, 128, 0x2000, 0xd7c0, 0xe000, 0xfec0, 0x1f400)] + ["- a: b #c", "a: b", "", " x ", "'", "\\'\""]
    texts[6] = texts[6].replace("\ufffe", "").replace("\uffff", "")
    hooks = [{"id": f"h{number}", "name": "n", "language": "fail", "entry": text, "always_run": True} for number, text in enumerate(texts)]
    made_text = yaml_text.text_of(["a comment"], {"fail_fast": False, "files": "^a$"}, hooks)
    with open(os.path.join(top, "c.yaml"), "w", encoding="utf-8") as file:
        file.write(made_text)
    script = "import json, sys, yaml; print(json.dumps([it['entry'] for it in yaml.safe_load(open('c.yaml', encoding='utf-8'))['repos'][0]['hooks']]))"
    found = json.loads(printed(python_of_hooks(), "-c", script, cwd=top, env=env))
    same("by Python's yaml", found, texts)
    with open(os.path.join(top, "a"), "w", encoding="utf-8"):
        pass
    report = subprocess.run([PROGRAM, "try", "c.yaml", "a"], cwd=top, env=env, capture_output=True).stdout.decode()
    for number, text in enumerate(texts):
        shown = (text + "\n\na").strip("\t\n\v\f\r ")
        check(f"- hook id: h{number}\n- exit code: 1\n\n{shown}\n" in report, f"hookhost reads {text!r} otherwise: {report!r}")


def another_configuration_is_named(top, env):
    here = by_hookhost(top, env, "\n- repo: local\n  hooks:\n  - {id: other, name: Other, language: fail, entry: Never., files: txt$}\n")
    git = here.git
    git.git("config", "hookhost.config", "ci/hooks.yaml")
    edit((here,), {"a.txt": "a\n"})
    refused(here.run(), "no ci/hooks.yaml is in the index", status=1)
    git.add("ci/hooks.yaml", "repos:" + LOCAL)
    same("install", git.bridge("install").out.splitlines()[-1], "runs: pre-commit (2 hooks)")
    answer = here.run()
    same("the run", (answer.status, answer.verdicts), (0, [("Local", "Passed"), ("Local pygrep", "Passed")]))
    same("what it starts", here.started(), ["loc a.txt ci/hooks.yaml"])
    same("again", (here.run().status, here.started()), (0, []))
    made(git.commit())
    here.started()
    # hookhost reads it as .pre-commit-config.yaml, so only pre-commit can hand hooks the file of that name.
    edit((here,), {CONFIGURATION: "repos: [] # MINE NOTHING\n"})
    answer = here.run()
    same("an edit of the other one", (answer.status, answer.verdicts, here.started()), (1, [("Local", "Failed"), ("Local pygrep", "Failed")], [f"loc {CONFIGURATION}"]))
    refused(here.run(env={"PATH": path_without(top, "pre-commit")}), f"left out: {CONFIGURATION} can't be handed to hooks", "hookhost.allowLeftOut")
    git.git("reset", "--quiet", "--hard")
    edit((here,), {"a.txt": "b\n"})
    same("a later run", (here.run().status, here.started()), (0, ["loc a.txt"]))
    for value in ("../x.yaml", "/x.yaml", "a b.yaml", "a//b", "./a", "-a", ""):
        git.git("config", "hookhost.config", value)
        refused(here.run(), "hookhost.config can't be")
    git.git("config", "--unset", "hookhost.config")
    same("without it", here.run().verdicts, [("Other", "Failed")])


def yaml_that_hookhost_does_not_read_is_imported(top, env):
    text = "\n- repo: local\n  hooks:\n  - &first\n    id: a\n    name: over\n      lines\n    language: system\n    entry: sh -c 'echo \"a $*\" >> \"$HOOKS_LOG\"; git diff --quiet' --\n    x_reads: '^/'\n  - {<<: *first, id: b, args: [x]}\n"
    here = by_hookhost(top, env, text)
    edit((here,), {"a.txt": "a\n"})
    answer = here.run()
    same("the run", (answer.status, answer.verdicts), (0, [("over lines", "Passed")] * 2))
    same("what it starts", here.started(), ["a a.txt", "a x a.txt"])
    # Git in hooks finds no difference, though hooks find another text as the configuration. What calls it isn't cached without its state.
    same("again", (here.run().status, here.started()), (0, ["a a.txt", "a x a.txt"]))


def keys_of_hookhosts_own_are_kept(top, env):
    """Those of the team's entry of a hook decide what is in the key, and how many files a command is handed."""
    hooks = remote(top, env)
    here = by_hookhost(top, env, of_remote(hooks, "{id: scr, x_reads: '^rules$', x_per_file: true}", "{id: py, x_reads: '^/', x_at_most: 2, types_or: [plain-text]}",
                                           "{id: sys, x_reads: [a], args: ['WRONG']}", "{id: pyg, x_per_file: 'true'}", "{id: look, x_reads: }"))
    edit((here,), {"a.txt": "a\n", "b.txt": "b\n", "c.txt": "c\n", "rules": "r\n"})
    made_text = here.git.run(IMPORTER).out
    for part in ('x_reads: "^rules$"\n    x_per_file: true\n', 'x_reads: "^/"\n    x_at_most: 2\n'):
        check(part in made_text, f"{part!r} isn't in {made_text}")
    answer = here.run()
    for name, key, what in (("sys", "x_reads", "a text in quotes"), ("pyg", "x_per_file", "true or false"), ("look", "x_reads", "a text in quotes")):
        check(f"left to pre-commit: '{name}': its {key} has to be {what}\n" in answer.err, f"{name}: {answer!r}")
    # pre-commit would warn of them.
    check("Unexpected key" not in answer.text, f"{answer!r}")
    same("what is started", here.started(), ["scr a.txt", "scr b.txt", "scr c.txt", "py a.txt b.txt", "py c.txt", "sys WRONG a.txt b.txt c.txt rules"])
    for path, wanted in (("b.txt", ["scr b.txt", "py a.txt b.txt"]), ("rules", ["scr a.txt", "scr b.txt", "scr c.txt"]), ("other", [])):
        edit((here,), {path: "other\n"})
        same(f"after an edit of {path}", (here.run().status, [line for line in here.started() if not line.startswith("sys")]), (0, wanted))


def hookhost_import_alone(top, env):
    hooks = remote(top, env)
    here = by_hookhost(top, env, of_remote(hooks, "pyg", "dock"))
    answer = here.git.run(IMPORTER, "--left", "left")
    same("the status", (answer.status, here.git.read("left")), (0, b"dock\n"))
    check("left to pre-commit: 'dock': hookhost doesn't start hooks of the language docker_image" in answer.err, f"{answer!r}")
    here.git.write("made.yaml", answer.out)
    same("the language", re.findall("language: .*", answer.out), ['language: "pygrep"'])
    check(f'  # of {hooks.folder}, v1.0\n  - id: "pyg"\n' in answer.out, f"the repository isn't told: {answer!r}")
    same("hookhost takes it", here.git.run(PROGRAM, "explain", "made.yaml").out.splitlines()[0], "made.yaml: taken, hooks: 1")
    answer = here.git.run(IMPORTER, "--help")
    same("--help", (answer.status, answer.out[:22]), (0, "Usage: hookhost-import"))
    for words in (["--nope"], ["a", "b"], ["--left"]):
        refused(here.git.run(IMPORTER, *words), "Usage: hookhost-import", status=2)
    refused(here.git.run(IMPORTER, "nowhere.yaml"), "nowhere.yaml", status=1)
    refused(here.git.run(IMPORTER, env={"PATH": path_without(top, "pre-commit")}), "there is no pre-commit along the PATH")


CASES = [
    the_table_of_tools_is_that_of_hookhost, a_tool_is_known_if_its_package_has_installed_it, patterns_that_mean_something_else_are_known,
    the_python_of_pre_commit_is_found, any_text_is_read_back,
    another_configuration_is_named, yaml_that_hookhost_does_not_read_is_imported, keys_of_hookhosts_own_are_kept, hookhost_import_alone,
]
