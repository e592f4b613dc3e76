"""Hooks by tools of Debian over one tree with their settings and imports, for tests/git/hookhost_reads.py."""
import os
import re

from places import CRATES

DATA = '<?xml version="1.0"?>\n<!DOCTYPE data SYSTEM "data.dtd">\n<data><row/></data>\n'
TREE = {
    # Python
    "app/main.py": "from app.values import NUMBER\n\nprint(NUMBER)\n", "app/values.py": "NUMBER = 1\n", "app/__init__.py": "",
    "mypy.ini": "[mypy]\ncache_dir = /dev/null\n", "setup.cfg": "[flake8]\nmax-line-length = 88\n", ".isort.cfg": "[settings]\nprofile = black\n",
    "pylintrc": "[MESSAGES CONTROL]\ndisable = all\nenable = no-member\n", ".pydocstyle": "[pydocstyle]\nselect = D404\n", "tox.ini": "[pycodestyle]\nmax-line-length = 88\n",
    "pyproject.toml": "[tool.black]\nline-length = 88\n", ".bandit": "[bandit]\nskips = B101\n",
    # texts and data
    ".yamllint": "rules:\n  key-duplicates: enable\n", "docs/a.yaml": "first: 1\n", ".codespellrc": "[codespell]\nignore-words = docs/words.txt\n", "docs/words.txt": "teh\n",
    "docs/a.md": "# A title\n\nText of teh page.\n", ".mdlrc": 'rules "MD010"\n', "docs/a.json": '{"name": "a"}\n', "app/rule.jq": '.name == "a"\n',
    "docs/data.dtd": "<!ELEMENT data (row*)>\n<!ELEMENT row EMPTY>\n", "docs/a.xml": DATA, "docs/a.pod": "=head1 NAME\n\na - a page\n\n=cut\n",
    # shell, C, JavaScript and Perl
    ".shellcheckrc": "disable=SC2034\n", "app/run.sh": "#!/bin/sh\n# shellcheck source=app/values.sh\n. ./app/values.sh\necho \"$number\"\n", "app/values.sh": "#!/bin/sh\nnumber=1\n",
    ".clang-format": "BasedOnStyle: LLVM\n", "app/a.c": "int main(void) { return 0; }\n", ".eslintrc.json": '{"root": true, "extends": "./app/rules.json", "env": {"node": true}}\n',
    "app/rules.json": '{"rules": {"no-var": "off"}}\n', "app/a.js": "module.exports = 1;\n", "tsconfig.json": '{"compilerOptions": {"noEmit": true, "types": []}}\n',
    "app/main.ts": 'import { size } from "./values";\nexport const twice: number = 2 * size;\n', "app/values.ts": "export const size: number = 1;\n",
    ".perlcriticrc": "severity = 5\n", ".perltidyrc": "-l=100\n", "app/a.pl": "use strict;\nuse warnings;\nprint 1;\n",
}

# The hooks of the first case: their words, and the files that they are given.
TELLING = {
    "mypy": ("mypy", "main.py"), "flake8": ("flake8", "main.py"), "isort": ("isort --check-only", "main.py"), "yamllint": ("yamllint", "a.yaml"),
    "shellcheck": ("shellcheck -x", "run.sh"), "codespell": ("codespell", "a.md"), "eslint": ("eslint --format unix", "a.js"),
    "clang-format": ("clang-format --dry-run --Werror", "a.c"), "jq": ("jq --exit-status --from-file app/rule.jq", "a.json"), "xmllint": ("xmllint --noout --valid", "a.xml"),
}
# What is printed of each. Files that a tool looks for and doesn't find are listed only if they are few.
TOLD = {
    "mypy": ["reads: app/__init__.py", "reads: app/values.py", "reads: mypy.ini", "lists: app, where a new file *.py isn't in the key", "lists: ."],
    "flake8": ["reads: setup.cfg", r"x_reads: '^setup\.cfg$'"],
    "isort": ["reads: .isort.cfg", "reads: app/__init__.py"],
    "yamllint": ["reads: .yamllint", r"x_reads: '^\.yamllint$'"],
    "shellcheck": ["reads: .shellcheckrc", "reads: app/values.sh", "looks for: app/.shellcheckrc", "looks for: app/shellcheckrc",
                   r"x_reads: '^(\.shellcheckrc|app/\.shellcheckrc|app/shellcheckrc|app/values\.sh)$'"],
    "codespell": ["reads: .codespellrc", "reads: docs/words.txt", "reads: setup.cfg", "looks at: pyproject.toml",
                  r"x_reads: '^(\.codespellrc|docs/words\.txt|pyproject\.toml|setup\.cfg)$'"],
    "eslint": ["reads: .eslintrc.json", "reads: app/rules.json"],
    "clang-format": ["reads: .clang-format", "looks for: app/.clang-format", "looks for: app/_clang-format", r"x_reads: '^(\.clang-format|app/\.clang-format|app/_clang-format)$'"],
    "jq": [],
    "xmllint": ["reads: docs/data.dtd", r"x_reads: '^docs/data\.dtd$'"],
}

# The tools of the table that Debian has: the words, which have to be harmless for the tool, and the files.
KNOWN = {
    "bandit": ("bandit --quiet", "main.py"), "black": ("black --check --quiet", "main.py"), "clang-format": ("clang-format --dry-run --Werror", "a.c"),
    "codespell": ("codespell", "a.md"), "echo": ("echo a", "a.md"), "egrep": ("egrep -c data", "a.xml"), "eslint": ("eslint", "a.js"), "false": ("'false'", "a.md"),
    "fgrep": ("fgrep -c data", "a.xml"), "flake8": ("flake8", "main.py"), "grep": ("grep -c data", "a.xml"), "isort": ("isort --check-only", "main.py"),
    "mdl": ("mdl", "a.md"), "mypy": ("mypy", "main.py"), "perlcritic": ("perlcritic --quiet", "a.pl"), "perltidy": ("perltidy", "a.pl"), "podchecker": ("podchecker", "a.pod"),
    "printf": ("printf a", "a.md"), "pycodestyle": ("pycodestyle", "main.py"), "pydocstyle": ("pydocstyle", "main.py"), "pyflakes3": ("pyflakes3", "main.py"),
    "pylint": ("pylint --score=n", "main.py"), "pyupgrade": ("pyupgrade --py38-plus", "main.py"), "sed": ("sed -n p", "a.md"), "shellcheck": ("shellcheck -x", "run.sh"), "tidy": ("tidy -q -e", "a.xml"),
    "true": ("'true'", "a.md"), "tsc": ("tsc", "main.ts"), "yamllint": ("yamllint", "a.yaml"),
    # Not all of these are installed on the machine of the tests.
    "autoflake": ("autoflake --check", "main.py"), "autopep8": ("autopep8 --diff", "main.py"), "checkbashisms": ("checkbashisms", "run.sh"),
    "docformatter": ("docformatter --check", "main.py"), "dos2unix": ("dos2unix --quiet", "a.md"), "flawfinder": ("flawfinder --quiet", "a.c"), "gofmt": ("gofmt -l", "a.md"),
    "proselint": ("proselint", "a.md"), "rubocop": ("rubocop", "a.md"), "shfmt": ("shfmt -d", "run.sh"), "unix2dos": ("unix2dos --quiet", "a.md"), "yapf3": ("yapf3 --diff", "main.py"),
}


def known_names():
    """The names of the table of known tools, as the program has it."""
    with open(os.path.join(CRATES, "run_options/src/tools.rt"), encoding="utf-8") as file:
        found = re.findall(r'^    \(\s*"([^"]+)",\s*ToolKind::', file.read(), re.MULTILINE)
    if len(found) < 50:
        raise ValueError("the table of known tools isn't found")
    return found


def hooks_of(rows):
    """The hooks of a table by their ids, each given the file with that end."""
    return {name: f"id: '{name}', name: '{name}', language: system, entry: {quoted_entry(words)}, files: '/{re.escape(end)}$'" for name, (words, end) in rows.items()}


def quoted_entry(words):
    return '"' + words + '"'
