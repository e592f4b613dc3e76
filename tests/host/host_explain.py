"""Cases of tests/host/host.py: all faults of a configuration are reported, in the order of its lines."""
import random

from host_program import check, run, write

NAME = ".pre-commit-config.yaml"
STAGES = ("`pre-commit`, `pre-merge-commit`, `pre-push`, `prepare-commit-msg`, `commit-msg`, `post-checkout`, `post-commit`, `post-merge`, "
          "`post-rewrite`, `pre-rebase` or `manual`")
NO_PATTERN = "a pattern of the crate `regex`: do without lookaround and back references, or make it shorter"
# Keys of a hook, each with what is reported of it.
WRONG = {
    "args: --fix": "`args` is the text `--fix`, and has to be a list of texts",
    "always_run: ture": "`always_run` is the text `ture`, and has to be an unquoted `true` or `false` (did you mean `true`?)",
    "files: '(?!x)'": f"`files` is the quoted text `(?!x)`, and has to be {NO_PATTERN}",
    "exclude: '['": f"`exclude` is the quoted text `[`, and has to be {NO_PATTERN}",
    "x_reads: '('": f"`x_reads` is the quoted text `(`, and has to be {NO_PATTERN}",
    "x_at_most: 0": "`x_at_most` is the text `0`, and has to be an unquoted number from 1 to 100000",
    "log_file: lint.log": "`log_file` is the text `lint.log`, and has to be empty: no output is kept in a file",
    "additional_dependencies: [ruff]": "`additional_dependencies` is a list, and has to be empty: nothing is installed for a hook",
    "stages: [never]": f"item 1 of `stages` is the text `never`, and has to be {STAGES}",
    "verbose: []": "`verbose` is a list, and has to be an unquoted `true` or `false`",
}
LANGUAGES = {
    "language: python": "`language` is the text `python`, and has to be `system`, `script`, `fail` or `pygrep`",
    "language: {}": "`language` is a table, and has to be a text",
}
ENTRIES = {
    "entry: lint 'all": "`entry` is the text `lint 'all`, and has to be a command of one word at least: close its quotes, and end it with no backslash",
    "entry: []": "`entry` is a list, and has to be a text",
}
REMOTE = "`repo` is the text `https://example.org`, and has to be `local`: write its hooks under `repo: local`"
TOPS = {
    "fail_fast: maybe": "`fail_fast` is the text `maybe`, and has to be an unquoted `true` or `false`",
    "exclude: '*'": f"`exclude` is the quoted text `*`, and has to be {NO_PATTERN}",
    "default_stages: [no]": f"item 1 of `default_stages` is the text `no`, and has to be {STAGES}",
}


class Text:
    """A configuration as its lines, and what is wrong in which of them."""

    def __init__(self):
        self.lines, self.wrong, self.hooks, self.repositories = [], [], 0, 0

    def add(self, line, *wrong):
        self.lines.append(line)
        self.wrong += [(len(self.lines), text) for text in wrong]


def put_hook(text, rng):
    text.hooks += 1
    own = f"hook {text.hooks} (`h{text.hooks}`): "
    text.add(f"  - id: h{text.hooks}")
    language, why_language = rng.choice([("language: system", None)] * 3 + list(LANGUAGES.items()))
    entry, why_entry = rng.choice([("entry: lint", None)] * 2 + list(ENTRIES.items()))
    if why_language and why_entry and entry != "entry: []":
        # A language that isn't known hides what its entry has to be.
        why_entry = None
    rows = [(language, why_language), (entry, why_entry), ("name: n", None), *rng.sample(list(WRONG.items()), rng.randrange(4))]
    rng.shuffle(rows)
    for row, why in rows:
        text.add(f"    {row}", *([own + why] if why else []))


def configuration(rng):
    text = Text()
    for row, why in rng.sample(list(TOPS.items()), rng.randrange(3)):
        text.add(row, why)
    text.add("repos:")
    for number in range(1, rng.randrange(2, 5)):
        is_remote = rng.random() < 0.3
        text.add("- repo: https://example.org" if is_remote else "- repo: local", *([f"repository {number}: {REMOTE}"] if is_remote else []))
        text.add("  hooks:")
        for _ in range(rng.randrange(1, 4)):
            if is_remote:
                text.hooks += 1
                text.add("  - id: x")
                text.add("    args: no list")
            else:
                put_hook(text, rng)
    return text


def told(out):
    """The lines and sentences that are reported, without the lines of the file and the marks."""
    found = [line[len(NAME) + 1:].partition(": ") for line in out.decode().splitlines() if line.startswith(NAME + ":")]
    return [(int(number), sentence) for number, _, sentence in found]


def tells_all_faults_at_once(folder):
    rng = random.Random(1)
    several = 0
    for _ in range(200):
        text = configuration(rng)
        write(folder, NAME, ("\n".join(text.lines) + "\n").encode())
        status, out, err = run(folder, "explain")
        check(err == b"" and status == (1 if text.wrong else 0), f"{text.lines!r} is answered {(status, out, err)!r}")
        if text.wrong:
            check(told(out) == text.wrong, f"{text.lines!r} is told {told(out)!r} in place of {text.wrong!r}")
        several += len(text.wrong) > 3
    check(several > 50, "too few configurations have several faults")


def tells_a_hundred_faults_at_most(folder):
    hook = "  - {id: a, name: A, language: cobol, entry: e}\n"
    for count, more in ((99, False), (100, True), (400, True)):
        write(folder, NAME, ("repos:\n- repo: local\n  hooks:\n" + hook * count).encode())
        status, out, err = run(folder, "explain")
        check((status, err) == (1, b"") and len(told(out)) == min(count, 100), f"{count} faults: {len(told(out))} are told")
        check(out.endswith(b"no more than 100 faults are told at once\n") == more, f"{count} faults: the end is {out[-100:]!r}")


CASES = [tells_all_faults_at_once, tells_a_hundred_faults_at_most]
