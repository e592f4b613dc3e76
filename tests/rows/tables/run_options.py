"""What the commands of known tools are taken to read in a cautious run, and what the options of a run make of a configuration. The table
of known tools is repeated here, by its patterns, so that none is changed unnoticed."""

PROGRAM = "selection_trial"

EVERY = "every path"
NOTHING = "^$"
DOT = r"(^|/)\."
PYTHON = r"(^|/)\.|\.(toml|cfg|ini)$"
TOML = r"(^|/)\.|\.toml$"
PROJECT = r"/|^\.|^[^.]*$|\.([cm]?[jt]sx?|json5?|jsonc|ya?ml|toml|cfg|ini|conf|properties|xml|txt|in|lock|lst|dic|dict|words|py[di]?|so|typed|rb|ru|gemspec|rake|p[lm]|t|(ba|da|k|z)?sh|bats|inc|env|vue|svelte|css|s[ac]ss|less|html?|mod|sum|hh?|hpp|cc?|cpp)$"
HASKELL = r"(^|/)\.|\.cabal$|(^|/)(cabal\.project|fourmolu\.ya?ml|package\.yaml)"

# The tools by the pattern of what they read in addition to their files.
TOOLS = {
    NOTHING: """add-trailing-comma check-ast check-builtin-literals check-byte-order-marker check-docstring-first check-json
        check-toml check-yaml checkbashisms debug-statement-hook desktop-file-validate detect-private-key dos2unix
        double-quote-string-fixer echo egrep end-of-file-fixer false fgrep file-contents-sorter fix-byte-order-marker
        fix-encoding-pragma flawfinder grep jpegoptim jsonnetfmt misspell mixed-line-ending name-tests-test podchecker
        pretty-format-json printf pyflakes pyflakes3 pyupgrade requirements-txt-fixer sed sort-simple-yaml tidy
        trailing-whitespace-fixer true unix2dos""",
    DOT: "csslint deadnix editorconfig-checker nixfmt shfmt vint",
    PYTHON: "autoflake autopep8 black blacken-docs darglint docformatter flynt pycodestyle pydocstyle yapf yapf3",
    TOML: "alejandra stylua toml-sort typos",
    HASKELL: "fourmolu ormolu",
    PROJECT: """codespell eslint flake8 isort markdownlint mdl mypy perlcritic prettier pylint rubocop ruff shellcheck stylelint
        tsc yamllint""",
    r"(^|/)\.|\.(toml|cfg|ini|ya?ml|py)$": "bandit",
    r"\.bak$": "optipng",
    r"(^|/)\.|(^|/)_clang-format$": "clang-format",
    r"(^|/)\.|(^|/)elm(-package)?\.json$": "elm-format",
    r"(^|/)\.|(^|/)go\.(mod|work)$": "gofmt",
    r"(^|/)\.|\.java$": "google-java-format",
    r"(^|/)\.|(^|/)hadolint\.ya?ml$": "hadolint",
    r"(^|/)\.|(^|/)dune[^/]*$": "ocamlformat",
    r"(^|/)\.|(^|/)perltidy[^/]*$|\.(bak|DEBUG|ERR|LOG|TEE|tdy)$": "perltidy",
    r"(^|/)\.|(^|/)proselint[^/]*$": "proselint",
}
PATTERNS = {name: pattern for pattern, names in TOOLS.items() for name in names.split()}

# Tools whose verdict on a file depends on the others that they are given.
OF_ALL = """autoflake autopep8 black echo egrep false fgrep flynt grep isort mypy printf pycodestyle pylint sed shellcheck true
    tsc""".split()

# Tools that may read any file, or look for one: they aren't known.
UNKNOWN = """ansible-lint bash cat cppcheck djlint env golangci-lint hlint jq luacheck npx perl pytest python python3 reuse
    rustfmt sh sqlfluff terraform textlint vulture xmllint""".split()

# Words after the name of a tool that takes options, and whether they are harmless.
OPTIONS = [
    ("", True),
    ("--check", True),
    ("--check -q --fast", True),
    ("--py39-plus", True),
    ("--a", True),
    ("--2", True),
    ("---", True),
    ("-i", True),
    ("-I", True),
    ("-l100", True),
    ("-o7", True),
    ("--line-length=100", True),
    ("--select=E9,F63,F7", True),
    ("--jobs=1", True),
    ("--x=1,2", True),
    # what might name a file
    ("src", False),
    ("100", False),
    ("--line-length 100", False),
    ("-l 100", False),
    ("--config=x", False),
    ("--config=setup1.cfg", False),
    ("--config=a/b", False),
    ("--config=CONFIG", False),
    ("--select=E,F", False),
    ("--config=", False),
    ("--config==1", False),
    ("--config=1=2", False),
    ("--line-length=100.", False),
    ("@args", False),
    ("-cfoo", False),
    ("-c1a", False),
    ("-style=file", False),
    ("-xq", False),
    ("-1", False),
    ("-", False),
    ("--", False),
    ("--=1", False),
    ("--Werror", False),
    ("--a.b", False),
    ("--a/b", False),
    ("--a_b", False),
    ("--caf\u00e9", False),
    ("-\u00e9", False),
    ("--check src", False),
    ("src --check", False),
    ("--check --config=x", False),
]

# The same for `grep`: at most one word is no option.
GREP = [
    ("", True),
    ("TODO", True),
    ("a/b", True),
    ("-n TODO", True),
    ("-nHiE TODO", True),
    ("TODO -q", True),
    ("-abcEFGhHiIlLnoPqsvwxyzZ x", True),
    ("--quiet TODO", True),
    ("--count --extended-regexp --fixed-strings --ignore-case --invert-match --line-number --word-regexp x", True),
    ("TODO src", False),
    ("-n TODO src", False),
    ("-r TODO", False),
    ("-R TODO", False),
    ("-rn TODO", False),
    ("-nr TODO", False),
    ("-f words", False),
    ("-fwords", False),
    ("-e TODO", False),
    ("-d skip", False),
    ("-D skip", False),
    ("-A3 TODO", False),
    ("-m1 TODO", False),
    ("--recursive TODO", False),
    ("--file=words", False),
    ("--include=x TODO", False),
    ("--Quiet TODO", False),
    ("--quiet=1 TODO", False),
    ("-- TODO", False),
    ("- TODO", False),
]

# The same for `sed`: the last word is a script, and no script has a letter of a command that looks outside.
SED = [
    ("p", True),
    ("s/a/b/", True),
    ("-i s/a/b/", True),
    ("-i -n s/a/b/p", True),
    ("-i -E s/a+/b/g", True),
    ("-e s/a/b/ -e s/b/c/", True),
    ("-zsu p", True),
    ("-nErsuz p", True),
    ("-i -e p", True),
    ("s/a/b/ p", True),
    ("", False),
    ("-i", False),
    ("-n -e", False),
    ("s/a/b/ -i", False),
    ("r", False),
    ("rwords", False),
    ("Rwords", False),
    ("s/a/b/w", False),
    ("s/a/b/W", False),
    ("s/a/b/e", False),
    ("F", False),
    ("s/for/b/", False),
    ("-f p", False),
    ("-fp", False),
    ("-l p", False),
    ("-i.bak p", False),
    ("-i1 p", False),
    ("-ni p", False),
    ("-in p", False),
    ("-iE p", False),
    ("-ne p", False),
    ("-en p", False),
    ("-e- p", False),
    ("--expression=p", False),
    ("--quiet p", False),
    ("-e s/a/b/ -e rwords", False),
    ("-e rwords -e p", False),
    ("- p", False),
]

# Words with blanks, empty words and words beyond ASCII, as lists.
WHOLE_WORDS = [
    (["black", "--check "], EVERY),
    (["black", ""], EVERY),
    (["black "], EVERY),
    (["", "--check"], EVERY),
    (["Black"], EVERY),
    (["./black"], EVERY),
    (["/usr/bin/black"], EVERY),
    (["bin/black"], EVERY),
    (["blac"], EVERY),
    (["blackd"], EVERY),
    (["bash", "-c", "black"], EVERY),
    (["env", "black"], EVERY),
    (["python", "-m", "black"], EVERY),
    (["npx", "prettier"], EVERY),
    (["sed", "-i", "s/ *$//"], NOTHING),
    (["sed", "-i", "s/\t/    /"], NOTHING),
    (["sed", "s/\u00e9/x/"], NOTHING),
    (["sed", ""], NOTHING),
    (["grep", ""], NOTHING),
    (["grep", "", ""], EVERY),
    (["grep", "-n", "to do"], NOTHING),
    (["grep", "\u00e9"], NOTHING),
    (["egrep", "-q", "a|b"], NOTHING),
    (["egrep", "-r", "a"], EVERY),
    (["fgrep", "-q", "a"], NOTHING),
    (["fgrep", "-f", "a"], EVERY),
    (["true", "src", "--config=x"], NOTHING),
    (["false", "-r", "."], NOTHING),
    (["echo", "a file"], NOTHING),
    (["printf", "%s\\n", "@x"], NOTHING),
    ([], EVERY),
]


def reads(words, answer, pass_filenames="true", always_run="false"):
    return ("command_reads", "".join(f"{word}\n" for word in words), pass_filenames, always_run, answer)


def harmless(tool, cases):
    return [reads([tool, *words.split(" ")] if words else [tool], PATTERNS[tool] if known else EVERY) for words, known in cases]


def rows_of_commands():
    rows = [reads([name], pattern) for name, pattern in PATTERNS.items() if name != "sed"]
    rows += [reads([name], EVERY) for name in UNKNOWN]
    rows += [reads(words, answer) for words, answer in WHOLE_WORDS]
    for tool in ("black", "gofmt", "pyupgrade"):
        rows += harmless(tool, OPTIONS)
    for tool in ("grep", "egrep", "fgrep"):
        rows += harmless(tool, GREP)
    rows += harmless("sed", SED)
    # a command that isn't given names, or that may be given none
    for words in (["black"], ["grep", "x"], ["sed", "p"], ["true"], ["unknown"]):
        rows += [reads(words, EVERY, *switches) for switches in (("false", "false"), ("true", "true"), ("false", "true"))]
    return rows


# Whether the files of a command are split.
SPLIT = [
    (["eslint"], True),
    (["eslint", "--quiet"], True),
    (["eslint", "--max-warnings=0"], True),
    (["eslint", "--max-warnings=10"], False),
    (["eslint", "--max-warnings=00"], False),
    (["eslint", "--max-warnings=0", "--max-warnings=1"], False),
    (["eslint", "--max-warnings", "0"], False),
    (["eslint", "--config=x.json"], False),
    (["stylelint", "--max-warnings=3"], False),
    (["flake8", "--max-line-length=100"], True),
    (["flake8", "--max-complexity=10", "-j1"], True),
    (["flake8", "src"], False),
    (["./flake8"], False),
    (["npx", "eslint"], False),
    (["Eslint"], False),
    ([""], False),
    ([], False),
]


def split_rows():
    rows = [("can_split", f"{name}\n", str(name not in OF_ALL).lower()) for name in PATTERNS]
    rows += [("can_split", f"{name}\n", "false") for name in UNKNOWN]
    return rows + [("can_split", "".join(f"{word}\n" for word in words), str(split).lower()) for words, split in SPLIT]


# The hooks of a configuration, in the keys of one each, and for each the pattern that it has in a cautious run.
HOOKS = [
    ("known", "language: system, entry: black", PYTHON),
    ("args", "language: system, entry: black, args: [--check, -q]", PYTHON),
    ("path", "language: system, entry: black, args: [--config=x.toml]", EVERY),
    ("unknown", "language: system, entry: vulture", EVERY),
    ("words", "language: system, entry: 'grep -n TODO'", NOTHING),
    ("shell", "language: system, entry: bash -c true", EVERY),
    ("always", "language: system, entry: black, always_run: true", EVERY),
    ("whole", "language: system, entry: black, pass_filenames: false", EVERY),
    ("single", "language: system, entry: black, x_per_file: true", PYTHON),
    ("script", "language: script, entry: black", EVERY),
    ("reads", "language: system, entry: vulture, x_reads: '^a$'", "^a$"),
    ("known_reads", "language: system, entry: black, x_reads: '^a$'", "^a$"),
    ("script_reads", "language: script, entry: x.sh, x_reads: '^a$'", "^a$"),
    ("every", "language: system, entry: black, x_reads: ''", EVERY),
    ("none", "language: system, entry: vulture, x_reads: '^$'", EVERY),
    ("fail", "language: fail, entry: no", NOTHING),
    ("fail_reads", "language: fail, entry: no, x_reads: '^a$'", "^a$"),
    ("pygrep", "language: pygrep, entry: black", NOTHING),
    ("verbose", "language: system, entry: 'true', verbose: true", NOTHING),
    ("split", "language: system, entry: flake8", PROJECT),
    ("split_words", "language: system, entry: eslint --quiet, args: [--max-warnings=0]", PROJECT),
    ("limited", "language: system, entry: eslint --max-warnings=7", PROJECT),
    ("split_reads", "language: system, entry: flake8, x_reads: '^a$'", "^a$"),
    ("split_single", "language: system, entry: flake8, x_per_file: true", PROJECT),
    ("fewer", "language: system, entry: flake8, x_at_most: 7", PROJECT),
    ("more", "language: system, entry: flake8, x_at_most: 99999", PROJECT),
    ("most", "language: system, entry: flake8, x_at_most: 100000", PROJECT),
    ("serial", "language: system, entry: flake8, require_serial: true", PROJECT),
    ("split_always", "language: system, entry: flake8, always_run: true", EVERY),
    ("split_whole", "language: system, entry: flake8, pass_filenames: false", EVERY),
    ("split_script", "language: script, entry: flake8", EVERY),
    ("split_pygrep", "language: pygrep, entry: flake8", NOTHING),
]
# The most names that a command of a hook gets: what its keys say, and what it is in a cautious run if its files are split.
MOST = 100_000
OWN_MOST = {"fewer": 7, "more": 99_999}
SPLITS = ("split", "split_words", "split_reads", "split_single", "most")
# What a hook has without options, if its keys say it.
OWN = {"reads": "^a$", "known_reads": "^a$", "script_reads": "^a$", "every": EVERY, "fail_reads": "^a$", "split_reads": "^a$"}


def configuration(hooks):
    lines = "".join(f"  - {{id: {name}, name: {name}, {keys}}}\n" for name, keys, _cautious in hooks)
    return f"repos:\n- repo: local\n  hooks:\n{lines}"


def options(names, hooks=HOOKS):
    cautious, verbose = "cautious" in names, "verbose" in names
    lines = ""
    for name, _keys, pattern in hooks:
        shown = pattern if cautious else OWN.get(name, NOTHING)
        most = 100 if cautious and name in SPLITS else OWN_MOST.get(name, MOST)
        lines += f"{name}|{shown}|{most}|{str(verbose or name == 'verbose').lower()}\n"
    return ("with_options", names, configuration(hooks), lines)


ROWS = [
    ("tools", "".join(f"{name}|{'all' if name in OF_ALL else 'each'}|{PATTERNS[name]}\n" for name in sorted(PATTERNS))),
    *rows_of_commands(),
    *split_rows(),
    *(options(names) for names in ("", "cautious", "verbose", "cautious verbose")),
    *(options("cautious", [hook]) for hook in HOOKS),
    ("with_options", "cautious verbose", "repos: []\n", ""),
    options("cautious", [(f"h{number}", "language: system, entry: " + ("black" if number % 2 else "vulture"), PYTHON if number % 2 else EVERY) for number in range(500)]),
]
