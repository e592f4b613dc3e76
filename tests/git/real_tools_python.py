"""Hooks by tools for Python, for tests/git/real_tools.py. Each file that passes has the format of black."""
from real_tools_case import Case, Edit, entry, whole

LINE = 'print("a line of more than twenty columns")\n'
PYPROJECT = "[tool.black]\nline-length = 88\n\n[tool.vulture]\nignore_names = [\"forgotten\"]\n"
NARROW = Edit("pyproject.toml", {"/pyproject.toml": PYPROJECT.replace("88", "20")}, {"/pyproject.toml": PYPROJECT.replace("88", "100")})
SETTINGS = {
    "/pyproject.toml": PYPROJECT,
    "/.isort.cfg": "[settings]\nprofile = black\n",
    "/.flake8": "[flake8]\nmax-line-length = 88\n",
    "/tox.ini": "[pycodestyle]\nmax-line-length = 88\n",
    "/.pydocstyle": "[pydocstyle]\nselect = D100\n",
    "/pylintrc": "[MESSAGES CONTROL]\ndisable = all\nenable = unused-import\n",
    "/mypy.ini": "[mypy]\ncache_dir = /dev/null\n",
    "/pytest.ini": "[pytest]\n",
    "/bandit.yaml": "skips: [B101]\n",
}


def settings(path, old, stricter, laxer):
    """An edit of a file of settings."""
    text = SETTINGS[path]
    if old not in text:
        raise ValueError(f"{path} has no {old}")
    return Edit(path[1:], {path: text.replace(old, stricter)}, {path: text.replace(old, laxer)})


def module(path, *, good, bad, better):
    """A module that isn't given to the hook, and its edit."""
    return {path: good}, Edit(path, {path: bad}, {path: better})


def with_module(name, keys, main, **how):
    """A hook that is given `main.py` alone, which imports what is in `values.py`."""
    files, edit = module(f"{name}_values.py", **how)
    return Case(name, keys + f", files: '^{name}/main'", files | {"main.py": main}, {f"{name}_values.py": how["bad"]}, (edit,))


def formatters():
    imports = "import os\nimport sys\n\nprint(os.name, sys.path)\n"
    turned = {"a.py": imports.replace("import os\nimport sys", "import sys\nimport os")}
    sort = settings("/.isort.cfg", "profile = black\n", "profile = black\nreverse_sort = True\n", "profile = black\nline_length = 100\n")
    party = Edit("a module of the tree", {"/our_party.py": None}, {"/our_party.py": "NUMBER = 2\n"})
    return [
        Case("black_names", entry("black --quiet"), {"a.py": LINE}, {"a.py": LINE.replace('"', "'")}, (NARROW,)),
        Case("black_dot", whole("black --check --quiet ."), {"a.py": LINE}, {"a.py": LINE.replace('"', "'")}, (NARROW,)),
        Case("black_exclude", entry("black --check --quiet --force-exclude '/(\\.git|build)/'"), {"a.py": LINE, "build/b.py": "print('b')\n"},
             {"a.py": LINE.replace('"', "'")}),
        Case("isort_names", entry("isort --check-only --quiet"), {"a.py": imports}, turned, (sort,)),
        Case("isort_dot", whole("isort --check-only --quiet ."), {"a.py": imports}, turned, (sort,)),
        Case("isort_party", entry("isort --check-only --quiet"), {"a.py": "import attr\n\nimport our_party\n\nprint(attr, our_party)\n", "/our_party.py": "NUMBER = 1\n"},
             {"a.py": "import our_party\nimport attr\n\nprint(attr, our_party)\n"}, (party,)),
    ]


def linters():
    unused = {"a.py": "import os\n\n" + LINE}
    wide = settings("/.flake8", "88", "20", "100")
    function = '"""A module."""\n\n\ndef function():\n    return 1\n'
    docs = settings("/.pydocstyle", "D100", "D100,D103", "D101")
    lint = settings("/pylintrc", "unused-import", "missing-module-docstring", "unused-variable")
    skips = settings("/bandit.yaml", "[B101]", "[B102]", "[B101, B102]")
    forgotten = Edit("pyproject.toml", {"/pyproject.toml": PYPROJECT.replace("forgotten", "other")}, {"/pyproject.toml": PYPROJECT.replace("forgotten", "forgotten\", \"other")})
    return [
        Case("flake8_names", entry("flake8"), {"a.py": LINE}, unused, (wide,)),
        Case("flake8_dot", whole("flake8"), {"a.py": LINE}, unused, (wide,)),
        Case("pycodestyle", entry("pycodestyle"), {"a.py": LINE}, {"a.py": "print( 1 )\n"}, (settings("/tox.ini", "88", "20", "100"),)),
        Case("pydocstyle", entry("pydocstyle"), {"a.py": function}, {"a.py": "NUMBER = 1\n"}, (docs,)),
        Case("pyflakes", entry("pyflakes3"), {"a.py": LINE}, unused),
        Case("pylint_names", entry("pylint --score=n"), {"a.py": LINE}, unused, (lint,)),
        with_module("pylint_imports", entry("pylint --score=n --disable=all --enable=no-member"), "import pylint_imports_values\n\nprint(pylint_imports_values.NUMBER)\n",
                    good="NUMBER = 1\n", bad="OTHER = 1\n", better="NUMBER = 2\n"),
        Case("bandit", entry("bandit --quiet -c bandit.yaml"), {"a.py": "assert True\n"}, {"a.py": 'exec("1")\n'}, (skips,)),
        Case("vulture", entry("vulture"), {"a.py": "def used():\n    return 1\n\n\ndef forgotten():\n    return 2\n", "b.py": "from a import used\n\nprint(used())\n"},
             {"b.py": "print(1)\n"}, (forgotten,)),
    ]


def checkers():
    types = settings("/mypy.ini", "[mypy]\n", "[mypy]\ndisallow_untyped_defs = True\n", "[mypy]\nstrict_optional = False\n")
    warning = "import warnings\n\n\ndef test_warning():\n    warnings.warn(\"a warning\")\n"
    warns = settings("/pytest.ini", "[pytest]\n", "[pytest]\nfilterwarnings = error\n", "[pytest]\naddopts = -q\n")
    fixture = "import pytest\n\n\n@pytest.fixture\ndef number():\n    return 1\n"
    fixtures, fixed = module("conftest.py", good=fixture, bad=fixture.replace("1", "2"), better=fixture.replace("1", "3 - 2"))
    values, changed = module("pytest_values.py", good="NUMBER = 1\n", bad="NUMBER = 2\n", better="NUMBER = 3 - 2\n")
    return [
        Case("mypy_names", entry("mypy"), {"a.py": "def double(number):\n    return 2 * number\n"}, {"a.py": 'number: int = "a"\n'}, (types,)),
        with_module("mypy_imports", entry("mypy"), "from mypy_imports_values import NUMBER\n\nnumber: int = NUMBER\n",
                    good="NUMBER: int = 1\n", bad='NUMBER: str = "a"\n', better="NUMBER: int = 2\n"),
        Case("pytest_tree", whole("pytest-3 -q pytest_tree"), fixtures | {"test_tree.py": "def test_number(number):\n    assert number == 1\n"},
             {"test_tree.py": "def test_number(number):\n    assert number == 5\n"}, (fixed,)),
        Case("pytest_names", entry("pytest-3 -q") + ", files: '^pytest_names/test_'",
             values | {"test_names.py": "from pytest_values import NUMBER\n\n\ndef test_value():\n    assert NUMBER == 1\n"}, {"pytest_values.py": "NUMBER = 5\n"}, (changed,)),
        Case("pytest_settings", entry("pytest-3 -q -p no:cacheprovider"), {"test_warning.py": warning}, {"test_warning.py": "def test_a():\n    assert False\n"}, (warns,)),
        with_module("doctest", entry("python3 -m doctest"), '"""\n>>> NUMBER\n1\n"""\nfrom doctest_values import NUMBER  # noqa: F401\n',
                    good="NUMBER = 1\n", bad="NUMBER = 2\n", better="NUMBER = 3 - 2\n"),
        Case("py_compile", entry("python3 -m py_compile"), {"a.py": LINE}, {"a.py": "def (\n"}),
        with_module("python_script", entry("python3 python_script/main.py"), "import sys\n\nfrom python_script_values import NUMBER\n\nsys.exit(NUMBER != 1)\n",
                    good="NUMBER = 1\n", bad="NUMBER = 2\n", better="NUMBER = 3 - 2\n"),
    ]


def cases():
    return formatters() + linters() + checkers()


# A script that leaves out what lies in a folder `.git` by the whole path.
WALK = """import sys
from pathlib import Path

FOLDER = Path(__file__).resolve().parent
FILES = [path for path in FOLDER.rglob("*.txt") if ".git" not in path.parts]
sys.exit(any("walk_absolute_broken" in path.read_text() for path in FILES))
"""


def bare_cases():
    """Hooks over a tree without settings. Their tools look further up for the top of a project."""
    unused = {"a.py": "import os\n\n" + LINE}
    quotes = {"a.py": LINE.replace('"', "'")}
    return [
        Case("black_bare", whole("black --check --quiet ."), {"a.py": LINE}, quotes),
        Case("black_bare_names", entry("black --check --quiet"), {"a.py": LINE}, quotes),
        Case("black_bare_exclude", entry("black --check --quiet --force-exclude '/(\\.git|build)/'"), {"a.py": LINE, "build/b.py": "print('b')\n"}, quotes),
        Case("isort_bare", whole("isort --check-only --quiet ."), {"a.py": "import os\nimport sys\n\nprint(os.name, sys.path)\n"}, {"a.py": "import sys\nimport os\n"}),
        Case("flake8_bare", whole("flake8 flake8_bare"), {"a.py": LINE}, unused),
        Case("pytest_bare", whole("pytest-3 -q"), {"test_a.py": "def test_a():\n    assert 1 == 1\n"}, {"test_a.py": "def test_a():\n    assert 1 == 2\n"}),
        Case("vulture_bare", whole("vulture vulture_bare"), {"a.py": LINE}, unused),
        Case("vulture_exclude", whole("vulture vulture_exclude --exclude .git,build"), {"a.py": LINE}, unused),
        Case("walk_absolute", whole("python3 walk_absolute/walk.py"), {"a.txt": "a\n", "walk.py": WALK}, {"a.txt": "walk_absolute_broken\n"}),
        Case("bandit_bare", whole("bandit --quiet --recursive --skip B101 ."), {"a.py": LINE}, {"a.py": 'exec("1")\n'}),
    ]
