"""Makes the random repositories, configurations and commands of tests/git/compare_stages.py."""
import os

from compare_stages_side import HOOK, Step, TYPES
from git_bridge_repository import CONFIGURATION

LINES = ["one\n", "two\n", "three\n", "four\n", "blank \n", "blank  \n"]
# Lines of messages. The last is the scissors line of Git (git-commit(1), "--cleanup").
WORDS = ["Say something", "a body", "", "", "  indented", "blanks after  ", "# a comment", "; another comment", "\u00e9\u00e8", "a return\r",
         "Signed-off-by: A <a@b>", "a line that is longer than the seventy-two columns that a subject should have at most",
         "# ------------------------ >8 ------------------------"]
EDITOR = os.path.abspath(f"{__file__}/../compare_stages_editor.sh")
EDITS = ["keep", "write", "write", "append", "prepend", "clear", "comment"]
# The stages by the names that pre-commit 3.0.4 knows.
STAGES = ["commit", "merge-commit", "prepare-commit-msg", "commit-msg", "post-commit"]
OF_FILES = ["pass", "words", "words", "blanks", "changed", "history"]
OF_MESSAGES = ["pass", "append", "append", "subject", "trailer", "uncomment", "strip", "replace", "source", "amended", "branch", "words", "words",
               "short", "short", "changed"]
OF_BOTH = ["pass", "words", "words", "blanks", "append", "history"]
AFTER = ["pass", "pass", "history", "changed"]
# Hooks of few plays, since each is a difference or ends most commands.
RARE = {"commit": ["fail", "new"], "message": ["clear", "fail", "change", "new"], "post-commit": ["fail", "change", "new"]}
KEYS_OF_MESSAGES = ["", "", "", "", "", "always_run: true", "files: 'MSG$'", r"files: '(^\.git/|^a|^d/)'", "exclude: '^a'", "types: [text]",
                    "types: [file]", "types: [executable]", "exclude_types: [markdown]", "pass_filenames: false", "fail_fast: true", "verbose: true"]
KEYS = ["", "", "", "always_run: true", "files: 'txt$'", r"files: '(^\.git/|^a|^d/)'", "exclude: '^a'", "types: [text]", "types: [executable]",
        "types_or: [shell, plain-text]", "exclude_types: [plain-text]", "pass_filenames: false", "fail_fast: true", "verbose: true"]
SETTINGS = [("core.commentChar", ";"), ("commit.verbose", "true"), ("commit.cleanup", "scissors"), ("commit.cleanup", "whitespace"),
            ("commit.status", "false"), ("merge.log", "true"), ("core.commentChar", "auto"), ("i18n.commitEncoding", "ISO-8859-1")]
OPTIONS = [(0.12, "--no-verify"), (0.08, "--verbose"), (0.06, "--signoff"), (0.1, "--allow-empty"), (0.03, "--allow-empty-message"),
           (0.04, "--author=Another <another@example.invalid>"), (0.04, "--no-status")]
# What is done before a command: all changes but those of c.txt are staged, and without hooks committed, so that they hinder no merge.
STAGE_ALL = ("add", "--update", ":!c.txt")
NO_HOOKS = ("-c", "core.hooksPath=" + os.devnull)
COMMIT_REST = [STAGE_ALL, ("try", *NO_HOOKS, "commit", "--quiet", "-m", "The rest")]


def chosen(rng, *weighted):
    """One of some things, each after its weight."""
    return rng.choices(weighted[1::2], weighted[::2])[0]


# ---- the configuration


def random_hook(rng, at):
    stages = chosen(rng, 4, ["commit", "merge-commit"], 1.2, ["commit"], 0.4, ["merge-commit"], 4, ["prepare-commit-msg"], 4, ["commit-msg"],
                    2, ["prepare-commit-msg", "commit-msg"], 2, ["post-commit"], 0.3, ["manual"], 0.3, ["push"], 2, [],
                    0.7, ["commit", "merge-commit", "commit-msg"])
    kind = "both" if not stages or len(stages) == 3 else "message" if stages[0].endswith("msg") else stages[0]
    action = rng.choice({"both": OF_BOTH, "message": OF_MESSAGES, "post-commit": AFTER}.get(kind, OF_FILES))
    if kind in RARE and rng.random() < 0.05:
        action = rng.choice(RARE[kind])
    key = "always_run: true" if kind == "post-commit" and rng.random() < 0.9 else rng.choice(KEYS_OF_MESSAGES if kind == "message" else KEYS)
    name = f"hook{at}"
    language = chosen(rng, 12, "system", 3, "script", 0.4, "pygrep", 0.4, "fail")
    entry = {"system": f"{HOOK} {name} {action}", "script": f"tools/hook.sh {name} {action}", "pygrep": rng.choice(["BAD", "REFUSED", "Say"]),
             "fail": "these are refused"}[language]
    if language == "fail":
        key = rng.choice(["files: '^run'", "files: '^d/'", "types: [executable]", "files: 'MSG$'"])
    keys = [f"id: {name}", f"name: {name}", f"language: {language}", f"entry: {entry}"]
    keys += [f"stages: [{', '.join(stages)}]"] * bool(stages) + [key] * bool(key) + ["require_serial: true"] * (rng.random() < 0.7)
    return "{" + ", ".join(keys) + "}"


def random_configuration(rng):
    top = chosen(rng, 12, "", 1, "fail_fast: true\n", 1, "exclude: '^d/'\n", 1, "files: '[^c].txt$|MSG'\n",
                 1, "default_stages: [commit, merge-commit]\n", 1, "default_stages: [commit-msg]\n")
    return top + "repos:\n- repo: local\n  hooks:\n" + "".join(f"  - {random_hook(rng, at)}\n" for at in range(rng.randint(2, 6)))


# ---- the history


def random_text(rng, bad=0.06):
    lines = rng.choices(LINES, k=rng.choice([1, 2, 4, 7]))
    if rng.random() < bad:
        lines.insert(rng.randint(0, len(lines)), "BAD\n")
    return "".join(lines)


def random_message(rng):
    if rng.random() < 0.05:
        return rng.choice(["", " \n\t\n", "# a comment alone\n"])
    lines = [rng.choice(WORDS[:2]), *rng.choices(WORDS[:-1], k=rng.randint(0, 4))]
    if rng.random() < 0.15:
        lines.insert(rng.randint(0, len(lines)), "REFUSED")
    if rng.random() < 0.06:
        lines.insert(rng.randint(0, len(lines)), WORDS[-1])
    return "\n".join(lines) + rng.choice(["", "\n", "\n\n\n"])


def imported(commits):
    """The stream of git-fast-import(1) that makes commits, each of a branch, the commit before, a message and files."""
    parts = []
    for at, (branch, parent, message, files) in enumerate(commits, 1):
        parts.append(f"commit refs/heads/{branch}\nmark :{at}\nauthor A Tester <tester@example.invalid> 1795766400 +0000\n"
                     f"committer A Tester <tester@example.invalid> 1795766400 +0000\n{data(message)}" + (f"from :{parent}\n" if parent else ""))
        parts += [f"M {'100755' if path.endswith('.sh') else '100644'} inline {path}\n{data(text)}" for path, text in files.items()]
    return "".join(parts).encode()


def data(text):
    return f"data {len(text.encode())}\n{text}\n"


def make(rng, side):
    """Makes a history: `main`, `clean` and `clash`, which fork from it, `ahead`, which goes on from it, and `pick` with two commits."""
    text, more = random_text(rng, 0), random_text(rng)
    with open(HOOK, encoding="utf-8") as file:
        script = file.read()
    first = {CONFIGURATION: random_configuration(rng), "a.txt": text, "b.txt": random_text(rng), "c.txt": "a text\n",
             "d/e.txt": random_text(rng), "run.sh": "#!/bin/sh\necho run\n", "tools/hook.sh": script}
    commits = [("main", 0, "The first\n", first), ("main", 1, "The second\n\nWith a body.\n", {"a.txt": "two\n" + text}),
               ("clean", 1, random_message(rng) or "clean\n", {"new s.txt": random_text(rng), "d/e.txt": more}),
               ("clash", 1, "A clash\n", {"a.txt": "three\n" + text}), ("ahead", 2, "Goes on\n", {"new f.txt": random_text(rng)}),
               ("pick", 1, random_message(rng) or "pick\n", {"b.txt": more}),
               ("pick", 6, "# Like a comment\n\n; and another\n", {"a.txt": "four\n" + text})]
    side.run("git", "fast-import", "--quiet", given=imported(commits))
    side.git("reset", "--quiet", "--hard", "main")
    for key, value in rng.sample(SETTINGS, chosen(rng, 3, 0, 3, 1, 1, 2)):
        with open(os.path.join(side.folder, ".git/config"), "a", encoding="utf-8") as file:
            section, name = key.split(".")
            file.write(f"[{section}]\n\t{name} = \"{value}\"\n")
    if rng.random() < 0.2:
        side.write("c.txt", "not staged\n")
    if rng.random() < 0.15:
        side.write("not staged.txt", "in no commit\n")
    return list(TYPES) if rng.random() < 0.7 else [name for name in TYPES if rng.random() < 0.7] or ["commit-msg"]


# ---- the commands


class Player:
    """Makes the steps of a play, from what the repository holds."""

    def __init__(self, rng, side):
        self.rng, self.side, self.merged, self.was_refused = rng, side, set(), False

    def chance(self, part):
        return self.rng.random() < part

    def is_under_way(self, name):
        return os.path.exists(os.path.join(self.side.folder, ".git", name))

    def next(self):
        """The next step."""
        for head in ("MERGE_HEAD", "CHERRY_PICK_HEAD", "REVERT_HEAD"):
            if self.is_under_way(head):
                return self.ended(head)
        if self.was_refused and self.chance(0.5):
            return self.again()
        make = chosen(self.rng, 10, self.commit, 2.4, self.merge, 0.7, self.squash, 1, self.pick, 0.6, self.revert)
        return make()

    def again(self):
        """Tries once more, perhaps with what was refused mended or with no hooks that may refuse."""
        mended = [] if self.chance(0.4) else self.mends()
        words = ["--allow-empty", *self.rng.choice([[], [], ["--no-verify"]]), "-m", "Once more"]
        return Step(["git", "commit", "--quiet", *words], [*mended, STAGE_ALL])

    def mends(self):
        """Takes from files what hooks refuse."""
        mends = []
        for path in ("a.txt", "b.txt", "d/e.txt", "new s.txt", "new f.txt"):
            if os.path.exists(os.path.join(self.side.folder, path)):
                lines = self.side.read(path).decode().splitlines(keepends=True)
                kept = [line for line in lines if not line.startswith(("BAD", "<<<<", "====", ">>>>"))]
                mends += [("write", path, "".join(kept))] * (kept != lines)
        return mends

    def ended(self, head):
        """Ends what is under way, as a merge with conflicts."""
        before = [*self.mends(), STAGE_ALL]
        name = {"MERGE_HEAD": "merge", "CHERRY_PICK_HEAD": "cherry-pick", "REVERT_HEAD": "revert"}[head]
        words, env = chosen(self.rng, 3, (["git", "commit", "--quiet", "--no-edit"], {}), 3, (["git", "commit", "--quiet"], self.editor()),
                            2, (["git", "commit", "--quiet", "-m", "Resolved"], {}), 2, (["git", name, "--continue"], self.editor()),
                            1, (["git", "commit", "--quiet", "--no-edit", "--no-verify"], {}))
        if self.was_refused and self.chance(0.4):
            return Step(["git", name, "--abort"])
        return Step(words, before, env)

    def editor(self):
        edit = self.rng.choice(EDITS)
        return {"GIT_EDITOR": EDITOR, "EDIT": edit, "EDIT_TEXT": random_message(self.rng).replace("\0", "")}

    def commit(self):
        """A commit, with a message of any origin."""
        before, which = self.changes()
        words, env, given = self.message()
        rng = self.rng
        options = [option for part, option in OPTIONS if self.chance(part)]
        if self.chance(0.3):
            options.append("--cleanup=" + rng.choice(["strip", "whitespace", "verbatim", "scissors", "default"]))
        cwd = "d" if self.chance(0.1) and not which else ""
        if self.chance(0.05):
            before.append((*NO_HOOKS, "checkout", "--quiet", "--detach"))
        if self.chance(0.06):
            env = env | {"SKIP": rng.choice(["hook0", "hook1", "hook1, hook2"])}
        return Step(["git", "commit", "--quiet", *options, *words, *which], before, env, given, cwd)

    def changes(self):
        """Changes of files, and the words of a commit that takes them."""
        # What hooks have fixed is staged: tests/git/git_bridge_plays.py compares what becomes of changes that aren't.
        rng, before = self.rng, [STAGE_ALL]
        paths = rng.sample(["a.txt", "b.txt", "d/e.txt", "new g.txt"], rng.randint(1, 2))
        before += [("write", path, random_text(rng)) for path in paths]
        if self.chance(0.1):
            before.append(("write", "run.sh", f"#!/bin/sh\necho {rng.randint(0, 9)}\n", 0o755))
            paths.append("run.sh")
        is_unstaged = self.side.read("c.txt") == b"not staged\n"
        kind = chosen(rng, 12, "staged", 2, "all", 2, "named")
        if kind == "all" and not is_unstaged:
            return before, ["--all"]
        before.append(("add", "--", *paths))
        return before, ["--", paths[0]] if kind == "named" else []

    def message(self):
        """The words of a message, with variables and what is given."""
        rng, text = self.rng, random_message(self.rng)
        kind = chosen(rng, 6, "words", 2, "file", 1.5, "given", 2, "template", 4, "editor", 2, "amend", 1, "reuse", 1, "edited", 1, "fixup",
                      0.7, "squash", 0.7, "twice", 0.7, "trailer")
        if kind == "words":
            return ["-m", text], {}, b""
        if kind == "twice":
            return ["-m", text, "-m", random_message(rng)], {}, b""
        if kind == "trailer":
            return ["-m", text, "--trailer", "Reviewed-by: B <b@c>"], {}, b""
        if kind == "file":
            return ["-F", self.outside(text), *rng.choice([[], [], ["--edit"]])], self.editor(), b""
        if kind == "given":
            # Some aren't UTF-8.
            return ["-F", "-"], {}, text.encode() if self.chance(0.8) else text.encode("latin-1")
        if kind == "template":
            return ["-t", self.outside(text)], self.editor(), b""
        if kind == "amend":
            words = rng.choice([["--no-edit"], [], ["-m", text], ["--no-edit", "--reset-author"]])
            return ["--amend", *words], self.editor(), b""
        return {"editor": [], "reuse": ["-C", rng.choice(["HEAD", "clean", "pick"])], "edited": ["-c", rng.choice(["HEAD", "clean"])],
                "fixup": [rng.choice(["--fixup=HEAD", "--fixup=amend:HEAD"])], "squash": ["--squash=HEAD"]}[kind], self.editor(), b""

    def outside(self, text):
        """The path of a file outside of the repository with this text."""
        path = os.path.join(self.side.folder, "..", "message")
        with open(path, "wb") as file:
            file.write(text.encode())
        return path

    def merge(self):
        """A merge: ahead, clean or in conflict."""
        branch = chosen(self.rng, 3, "clean", 2, "clash", 1, "ahead")
        if branch in self.merged:
            return self.commit()
        self.merged.add(branch)
        cleanup = "--cleanup=" + self.rng.choice(["verbatim", "scissors", "strip"])
        words, env = chosen(self.rng, 3, (["--no-edit"], {}), 2, (["-m", random_message(self.rng)], {}), 2, (["--edit"], self.editor()),
                            1, (["--no-edit", "--no-verify"], {}), 1, (["-m", "merged", cleanup], {}), 0.5, (["--no-commit"], {}))
        return Step(["git", "merge", "--quiet", *self.rng.choice([[], ["--no-ff"]]), *words, branch], COMMIT_REST, env)

    def squash(self):
        """A commit of what a merge would bring."""
        branch = self.rng.choice(["clean", "ahead"])
        if branch in self.merged:
            return self.commit()
        self.merged.add(branch)
        words, env = self.rng.choice([(["--no-edit"], {}), ([], self.editor()), (["-m", "squashed"], {})])
        return Step(["git", "commit", "--quiet", *words], [*COMMIT_REST, ("try", "merge", "--quiet", "--squash", branch)], env)

    def pick(self):
        picked = self.rng.choice(["clean", "pick", "pick~1", "ahead"])
        words, env = self.rng.choice([([], {}), (["-x"], {}), (["--edit"], self.editor()), (["--signoff"], {})])
        return Step(["git", "cherry-pick", *words, picked], COMMIT_REST, env)

    def revert(self):
        words, env = self.rng.choice([(["--no-edit"], {}), (["--edit"], self.editor())])
        return Step(["git", "revert", *words, "HEAD"], COMMIT_REST, env)
