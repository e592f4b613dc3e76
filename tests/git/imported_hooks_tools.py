"""Real tools as hooks of other repositories, next to local ones in one configuration; for tests/git/imported_hooks.py.

Tools for Python are installed by pip into the environments of pre-commit, from wheels of what Debian has installed: so they are known
tools, which their own packages have installed. Each command notes that it was started.
"""
import glob
import os
import re
import shutil
import zipfile

from git_bridge_repository import BRIDGE, Repository, check, made, not_made, same
from imported_hooks_made import ENDS, Side, release
from places import TOP

READS = os.path.join(TOP, "git/hookhost-reads")
MODULES = "/usr/lib/python3/dist-packages"
# The packages of wheels: their modules, and what they need of the others.
WHEELS = {
    "black": (["black", "blib2to3", "_black_version.py"], ["click", "mypy_extensions", "packaging", "pathspec", "platformdirs"]),
    "isort": (["isort"], ["toml"]), "pyupgrade": (["pyupgrade"], ["tokenize_rt"]), "flake8": (["flake8"], ["mccabe", "pycodestyle", "pyflakes"]),
    "codespell": (["codespell_lib"], []), "yamllint": (["yamllint"], ["pathspec", "PyYAML"]), "PyYAML": (["yaml"], []),
} | {name: ([name], []) for name in ("click", "packaging", "pathspec", "platformdirs", "pyflakes", "toml")} | {
    name: ([name + ".py"], []) for name in ("mccabe", "mypy_extensions", "pycodestyle", "tokenize_rt")
}
SETUP = 'from setuptools import setup\nsetup(name="mirror-{0}", version="1.0", py_modules=[], install_requires={1})\n'
# As in the repositories of these tools.
FORMATTERS = """
- {id: pyupgrade, name: pyupgrade, entry: pyupgrade, language: python, types: [python]}
- {id: isort, name: isort, entry: isort, language: python, types_or: [cython, pyi, python], args: [--filter-files], require_serial: true}
- {id: black, name: black, entry: black, language: python, types_or: [python, pyi], require_serial: true}
"""
LINTERS = """
- {id: flake8, name: flake8, entry: flake8, language: python, types: [python], require_serial: true}
- {id: codespell, name: codespell, entry: codespell, language: python, types: [text]}
- {id: yamllint, name: yamllint, entry: yamllint, language: python, types: [file, yaml]}
"""
TOOLS = r"""
- {id: shellcheck, name: shellcheck, entry: bin/shellcheck.sh, language: script, types: [shell]}
- {id: xmllint, name: xmllint, entry: xmllint --noout, language: system, types: [xml]}
- {id: noqa, name: no blanket noqa, entry: '# noqa(?!: )', language: pygrep, types: [python]}
- {id: no-eval, name: no eval, entry: '\beval\(', language: pygrep, types: [python]}
- {id: no-orig, name: no backups, entry: Backups are not committed., language: fail, files: '\.orig$'}
"""
TEXT = """
- repo: {formatters}
  rev: v1.0
  hooks:
  - id: pyupgrade
    args: [--py38-plus]
  - id: isort
  - id: black
- repo: local
  hooks:
  - {{id: mypy, name: types, language: system, entry: mypy, types: [python]}}
  - {{id: no-print, name: no print, language: pygrep, entry: 'print[(]', types: [python]}}
- repo: {linters}
  rev: v1.0
  hooks:
  - id: flake8
  - id: codespell
  - id: yamllint
- repo: {tools}
  rev: v1.0
  hooks:
  - id: shellcheck
    x_reads: '^[.]?shellcheckrc$'
  - id: xmllint
    x_reads: '[.]dtd$'
  - id: noqa
  - id: no-eval
  - id: no-orig
- repo: local
  hooks:
  - {{id: jq, name: numbers, language: system, entry: jq --exit-status .number, types: [json], x_reads: '^/'}}
  - {{id: check, name: values, language: script, entry: ./check, files: '^data/', x_reads: '^check$|^values$'}}
  - {{id: no-secrets, name: no secrets, language: fail, entry: Secrets are not committed., files: 'secret'}}
"""
ORDER = ["pyupgrade", "isort", "black", "types", "no print", "flake8", "codespell", "yamllint", "shellcheck", "xmllint", "no blanket noqa", "no eval",
         "no backups", "numbers", "values", "no secrets"]
# What starts a command, by the name that it notes.
STARTS = ["pyupgrade", "isort", "black", "mypy", "flake8", "codespell", "yamllint", "shellcheck", "xmllint", "pygrep", "jq", "check"]
GOOD = {
    "app/main.py": "import os\nimport sys\n\nfrom app.values import NUMBER\n\nLISTED = {os.name, sys.platform, str(NUMBER)}\n",
    "app/__init__.py": "", "app/values.py": "NUMBER: int = 1\n", "README.md": "# A title\n\nA text.\n", "conf/a.yaml": "first: 1\n",
    "run.sh": "#!/bin/sh\necho \"$1\"\n", "data/a.json": '{"number": 1}\n', "data/a.xml": "<data/>\n", "values": "1\n",
    "check": '#!/bin/sh\necho check >> "$HOOKS_LOG"\ngrep -q "$(cat values)" data/a.json\n',
    "mypy.ini": "[mypy]\ncache_dir = /dev/null\n", "setup.cfg": "[flake8]\nmax-line-length = 88\n",
    "pyproject.toml": '[tool.isort]\nprofile = "black"\n', ".yamllint": "extends: relaxed\nrules: {line-length: disable}\n",
}
# What hooks fix by themselves, and the rest.
FIXED = {"app/main.py": "import sys, os\nfrom app.values import NUMBER\nLISTED = set([os.name, sys.platform, str( NUMBER )])\n"}
BAD = {
    "app/values.py": "import re\n\nNUMBER: int = \"1\"\nprint(eval(\"1\"))  # noqa\n", "README.md": "# A title\n\nTeh text.\n",
    "conf/a.yaml": "first: 1\nfirst: 2\n", "run.sh": "#!/bin/sh\necho $1\n", "data/a.json": '{"number": null}\n', "data/a.xml": "<data>\n",
    "a.orig": "a\n", "data/secret": "s\n",
}
# Tools that aren't scripts of Python note by these what they start, and Python by the other.
SHIM = '#!/bin/sh\necho {0} >> "$HOOKS_LOG"\nexec {1} "$@"\n'
CUSTOMIZE = """import os, sys
log, words = os.environ.get("HOOKS_LOG"), sys.orig_argv
if log and len(words) > 1:
    name = words[2].split(".")[-1] if words[1] == "-m" and len(words) > 2 else os.path.basename(words[1])
    with open(log, "a") as file:
        file.write(name + "\\n")
"""


def wheel(folder, name, modules, needs):
    """A wheel of an installed package."""
    info, = glob.glob(os.path.join(MODULES, f"{name}-[0-9]*-info"))
    head, = (read(os.path.join(info, each)) for each in ("METADATA", "PKG-INFO") if os.path.exists(os.path.join(info, each)))
    version = re.search("^Version: (.*)$", head, re.MULTILINE)[1]
    own = f"{name}-{version}.dist-info"
    texts = {f"{own}/METADATA": f"Metadata-Version: 2.1\nName: {name}\nVersion: {version}\n" + "".join(f"Requires-Dist: {each}\n" for each in needs),
             f"{own}/WHEEL": "Wheel-Version: 1.0\nGenerator: tests\nRoot-Is-Purelib: true\nTag: py3-none-any\n"}
    if os.path.exists(os.path.join(info, "entry_points.txt")):
        texts[f"{own}/entry_points.txt"] = read(os.path.join(info, "entry_points.txt"))
    names = [path for module in modules for path in files_of(module)]
    texts[f"{own}/RECORD"] = "".join(f"{path},,\n" for path in (*names, *texts, f"{own}/RECORD"))
    with zipfile.ZipFile(os.path.join(folder, f"{name}-{version}-py3-none-any.whl"), "w") as file:
        for path in names:
            file.write(os.path.join(MODULES, path), path)
        for path, text in texts.items():
            file.writestr(path, text)


def files_of(module):
    """The files of a module, by their paths below the folder of modules."""
    top = os.path.join(MODULES, module)
    if os.path.isfile(top):
        return [module]
    found = [os.path.join(folder, name) for folder, _, names in os.walk(top) for name in sorted(names) if not folder.endswith("__pycache__")]
    return [os.path.relpath(path, MODULES) for path in found]


def read(path):
    with open(path, encoding="utf-8") as file:
        return file.read()


def mirror(top, env, name, manifest, *file):
    """A repository with hooks and one file more."""
    git = Repository.made(os.path.join(top, name), env)
    git.add(".pre-commit-hooks.yaml", manifest)
    git.add(*file)
    release(git, "v1.0")
    return git.folder


def desk(top, env):
    """The environment in which commands note that they are started, and the configuration, whose repositories are made."""
    for folder in ("wheels", "shims", "python"):
        os.mkdir(os.path.join(top, folder))
    for name, row in WHEELS.items():
        wheel(os.path.join(top, "wheels"), name, *row)
    for name in ("shellcheck", "xmllint", "jq"):
        write(os.path.join(top, "shims", name), SHIM.format(name, shutil.which(name)), 0o755)
    write(os.path.join(top, "python/sitecustomize.py"), CUSTOMIZE)
    env = env | {"PIP_FIND_LINKS": os.path.join(top, "wheels"), "PATH": os.path.join(top, "shims") + ":" + env["PATH"],
                 "PYTHONPATH": os.path.join(top, "python"), "PYTHONDONTWRITEBYTECODE": "1"}
    formatters = mirror(top, env, "formatters", FORMATTERS, "setup.py", SETUP.format("formatters", ["pyupgrade", "isort", "black"]))
    linters = mirror(top, env, "linters", LINTERS, "setup.py", SETUP.format("linters", ["flake8", "codespell", "yamllint"]))
    tools = mirror(top, env, "tools", TOOLS, "bin/shellcheck.sh", '#!/bin/sh\nexec shellcheck "$@"\n', 0o755)
    return env, TEXT.format(formatters=formatters, linters=linters, tools=tools)


def write(path, held, mode=0o644):
    with open(path, "w", encoding="utf-8") as file:
        file.write(held)
    os.chmod(path, mode)


class Team(Side):
    """A side whose hooks are tools, of which it is told which were started."""

    def lay(self, tree):
        for path, held in tree.items():
            self.git.add(path, held, 0o755 if held.startswith("#!") else None)

    def started(self):
        return [name for name in super().started() if name in STARTS]

    def files(self):
        return {path: held for path, held in self.git.working_files().items() if not path.startswith(".mypy_cache")}


def real_tools_of_other_repositories(top, env):
    env, text = desk(top, env)
    here, there = sides = Team(top, env, "here", text, (BRIDGE, "run")), Team(top, env, "there", text, ("pre-commit", "run", "--color", "never"))
    for side in sides:
        side.lay(GOOD | FIXED | BAD)
    # Over all files, of which some are fixed.
    ours = same_verdicts("the bad tree", here, there, {*ORDER})
    for side in sides:
        side.lay({path: side.git.read(path).decode() for path in FIXED})
        for path in BAD:
            side.lay({path: GOOD[path]}) if path in GOOD else side.git.git("rm", "--quiet", "--force", path)
    check("left to pre-commit" not in ours.err, f"hooks are left to pre-commit: {ours!r}")
    same("the fixed file", here.git.read("app/main.py").decode(), GOOD["app/main.py"])
    same_verdicts("the good tree", here, there, set())
    # On the configuration pre-commit alone starts these.
    on_configuration = ["codespell", "yamllint"]
    ours = same_verdicts("again", here, there, set(), lambda: same("what is started again", here.started(), on_configuration))
    edits(here, on_configuration)
    answer = here.git.run(READS, "--all-files", "--cautious")
    count = answer.out.count(": all that it reads is in the key\n")
    # Two hooks start pygrep.
    same(f"what keys have, with {answer!r}", (answer.status, "outside: " in answer.out, count), (0, False, len(STARTS) + 1))
    commits(here, there)


def same_verdicts(what, here, there, failed, meanwhile=lambda: None):
    """Runs both over all files, and compares verdicts and files. Ours ends with a report on the configuration."""
    there.started()
    here.started()
    ours = here.run("--all-files")
    meanwhile()
    theirs = there.run("--all-files")
    same(f"{what}: the order by pre-commit, with {theirs!r}", [name for name, _ in theirs.verdicts], ORDER)
    same(f"{what}: verdicts", ours.verdicts[:len(ORDER)], theirs.verdicts)
    same(f"{what}: those that fail", {name for name, verdict in theirs.verdicts if verdict == "Failed"}, failed)
    same(f"{what}: on the configuration", {verdict for _, verdict in ours.verdicts[len(ORDER):]} - {"Skipped"}, {"Passed"})
    same(f"{what}: the status", ours.status, theirs.status)
    same(f"{what}: files", here.files(), there.files())
    return ours


def edits(here, on_configuration):
    """An edit of one file starts only what is handed it, or may read it."""
    rows = (
        ("README.md", "# A title\n\nAnother text.\n", ["codespell"]),
        ("data/a.xml", "<data></data>\n", ["mypy", "isort", "flake8", "codespell", "yamllint", "xmllint", "check"]),
        ("app/values.py", "NUMBER: int = 2\n", ["pyupgrade", "isort", "black", "mypy", "flake8", "codespell", "yamllint", "pygrep"]),
        (".shellcheckrc", "disable=SC2034\n", ["isort", "black", "mypy", "flake8", "codespell", "yamllint", "shellcheck"]),
    )
    for path, held, wanted in rows:
        here.started()
        here.lay({path: held})
        same(f"after an edit of {path}", here.run("--all-files").status, 0)
        same(f"what an edit of {path} starts", set(here.started()), {*wanted, *on_configuration})


def commits(here, there):
    for side in (here, there):
        side.git.git("commit", "--quiet", "--no-verify", "-m", "m")
        same("install", side.git.run(side.words[0], "install").status, 0)
        side.lay({"app/main.py": FIXED["app/main.py"], "conf/a.yaml": "first: 1\nfirst: 2\n"})
    ours, theirs = (side.git.commit() for side in (here, there))
    not_made(ours)
    not_made(theirs)
    same("a commit: verdicts", ENDS.findall(ours.text), ENDS.findall(theirs.text))
    same("a commit: order", [name for name, _ in ENDS.findall(ours.text)], ORDER)
    for side in (here, there):
        side.lay({"app/main.py": side.git.read("app/main.py").decode(), "conf/a.yaml": "first: 3\n"})
        side.started()
    ours, theirs = (side.git.commit() for side in (here, there))
    made(ours)
    made(theirs)
    same("a commit that is made: verdicts", ENDS.findall(ours.text), ENDS.findall(theirs.text))
    same("its files", *(side.git.git("ls-tree", "-r", "HEAD", "--", "app/main.py", "conf") for side in (here, there)))
    here.started()
    here.git.git("reset", "--quiet", "--soft", "HEAD~1")
    made(here.git.commit())
    same("what the same commit starts again", here.started(), [])


CASES = [real_tools_of_other_repositories]
