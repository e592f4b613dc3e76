#!/usr/bin/env python3
"""Tests git/hookhost-reads: what it prints of hooks that read more than their keys have, and that its x_reads corrects that.

Usage: tests/git/hookhost_reads.py [PROGRAM [PART]]   (default: crates/hookhost/out/hookhost, and all cases)

With PART only the cases with PART in their names are run. Tools of Debian run over the tree of hookhost_reads_tools.py. They run without
x_reads, then with what was printed, and then as known tools, whose rows must have all that the tool reads. The other cases run hooks of a
line of shell.
"""
import os
import shutil
import signal
import subprocess
import sys
import tempfile
import time

sys.path.insert(0, os.path.abspath(f"{__file__}/../../shared"))
from git_bridge_repository import PROGRAM, Answer, Repository, Wrong, check, configuration, environment, same, shell
from hookhost_reads_imports import CASES as IMPORTS
from hookhost_reads_tools import KNOWN, TELLING, TOLD, TREE, hooks_of, known_names
from places import TOP

SCRIPT = os.path.join(TOP, "git/hookhost-reads")
PART = sys.argv[2] if len(sys.argv) > 2 else ""
ALL_IN = "all that it reads is in the key"


class Desk:
    """A working tree of Git with a configuration, and what hookhost-reads prints of it."""

    def __init__(self, top):
        self.home = os.path.join(top, "home")
        self.temporary = os.path.join(top, "temporary")
        for folder in (self.home, self.temporary):
            os.mkdir(folder)
        self.env = environment(self.home) | {"HOOKHOST_TMP": self.temporary, "PYTHONDONTWRITEBYTECODE": "1", "NODE_PATH": "/usr/share/nodejs"}
        self.git = Repository.made(os.path.join(top, "git"), self.env)

    def lay(self, tree, *hooks):
        for path, held in tree.items():
            self.git.write(path, held, 0o755 if held.startswith("#!") else None)
        self.git.write(".pre-commit-config.yaml", configuration(*hooks))
        self.git.git("add", "--all")

    def reads(self, *words, **how):
        return self.git.run(SCRIPT, *words, **how)

    def told(self, *words, status, **how):
        """What is printed of each hook, by its id: the lines, without what comes before them."""
        answer = self.reads(*words, **how)
        same(f"status of {words!r}, with {answer!r}", answer.status, status)
        found, last = {}, None
        for line in answer.out.split("\n")[:-2]:
            if line.startswith("  "):
                found[last].append(line[2:])
            else:
                last, _, head = line.partition(": ")
                found[last] = [head]
        return found

    def is_clean(self):
        same("what is left", os.listdir(self.temporary), [])


def hook(name, line, keys="files: '^a$'"):
    """A hook of a line of shell."""
    return f"id: {name}, name: {name}, language: system, {shell(line)}, {keys}"


def pattern_in(lines):
    """The pattern that is printed, as it is written there."""
    found = [line.removeprefix("x_reads: ") for line in lines if line.startswith("x_reads: ")]
    same("patterns", len(found), 1)
    return found[0]


# ---- tools of Debian


def tools_without_and_with_x_reads(desk):
    hooks = hooks_of(TELLING)
    desk.lay(TREE, *hooks.values())
    told = desk.told("--all-files", status=1)
    same("hooks", list(told), list(hooks))
    for name, lines in told.items():
        wanted = TOLD[name]
        kinds = {line.partition(": ")[0] for line in wanted} | {"reads", "looks at", "lists", "failed"}
        same(name, [line for line in lines[1:] if line.partition(": ")[0] in kinds], wanted)
        check(lines[0].endswith("missing from the key") or not wanted, f"{name}: {lines}")
    # What was printed closes the gap.
    mended = {name: text + (", x_reads: " + pattern_in(told[name]) if TOLD[name] else "") for name, text in hooks.items()}
    desk.lay({}, *mended.values())
    for name, lines in desk.told("--all-files", status=0).items():
        same(name, [line for line in lines if not line.startswith("outside: ")], [ALL_IN] + ["lists: ."] * (name == "mypy"))
    desk.is_clean()


def known_tools_have_what_they_read_in_their_keys(desk):
    names = known_names()
    lacking = [name for name in names if shutil.which(name) is None]
    unknown = [name for name in names if name not in lacking and name not in KNOWN]
    # More tools than the gate installs are printed, and not refused.
    if unknown:
        print(f"hookhost_reads: installed, and without a case: {', '.join(unknown)}", flush=True)
    hooks = hooks_of({name: words for name, words in KNOWN.items() if name not in lacking})
    desk.lay(TREE, *hooks.values())
    told = desk.told("--all-files", "--cautious", status=0)
    same("hooks", list(told), list(hooks))
    print(f"hookhost_reads: {len(hooks)} tools of the table are installed, {len(lacking)} aren't", flush=True)
    for name, lines in told.items():
        found = [line for line in lines[1:] if line.partition(": ")[0] in ("reads", "looks at", "looks for") or ", where a new" in line]
        same(f"what the row of {name} lacks", found, [])


def a_library_at_the_top_starts_isort_again(desk):
    """isort takes a module as the project's own if a library of its name lies at the top."""
    desk.lay({"a.py": "import attr\nimport our_party\n\nprint(attr, our_party)\n"}, "id: isort, name: isort, language: system, entry: isort --check-only --quiet, files: 'a.py'")
    store = os.path.join(desk.git.folder, "..", "store")
    shutil.copytree(desk.git.folder, store, ignore=shutil.ignore_patterns(".git"))

    def run(*words):
        return Answer(subprocess.run([PROGRAM, *words], cwd=store, env=desk.env, stdin=subprocess.DEVNULL, capture_output=True, timeout=60))

    run("init")
    run("add", ".")
    same("the first run", run("run-files", "--cautious", "a.py").status, 0)
    open(os.path.join(store, "our_party.abi3.so"), "w", encoding="utf-8").close()
    run("add", ".")
    same("with the library", run("run-files", "--cautious", "a.py").status, 1)


# ---- what hooks read


def a_hook_that_reads_what_it_is_handed(desk):
    desk.lay({"a": "a\n"}, hook("cat", 'cat "$@"'), "id: word, name: word, language: pygrep, entry: BAD", hook("none", "cat rules", "files: 'nothing'"))
    same("told", desk.told(status=0), {"cat": [ALL_IN], "word": ["starts no command"], "none": ["starts no command"]})
    same("one hook", desk.reads("cat").out, f"cat: {ALL_IN}\nhookhost-reads: 1 hook, 0 with something missing\n")
    desk.is_clean()


def each_kind_of_look_is_told(desk):
    tree = {"a": "a\n", "rules": "a\n", "there": "a\n", "docs/b.txt": "a\n", "docs/c.md": "a\n", "names/x.h": "a\n", "folder/x": "a\n", "run": "#!/bin/sh\nexit 0\n"}
    desk.lay(tree, hook("all", "cat rules docs/*.txt; test -e there; test -e gone; test -d folder; test -e no/such/file; ls names; ./run"))
    same("told", desk.told("--files", "a", status=1), {"all": [
        "8 files missing from the key", "reads: docs/b.txt", "reads: rules", "reads: run", "looks at: folder/", "looks at: there", "looks for: gone", "looks for: no/..",
        "lists: docs, where a new file *.txt isn't in the key", r"x_reads: '^(docs/[^/]*\.txt|folder/.*|gone|no/.*|rules|run|there)$'", "lists: names"]})
    desk.is_clean()


def what_is_told_is_answered_from_the_cache(desk):
    desk.lay({"a": "a\n", "rules": "a\n"}, hook("same", 'cmp rules "$1"'))
    line = pattern_in(desk.told(status=1)["same"])
    desk.git.git("config", "hookhost.cautious", "false")

    def starts():
        """How the hook ends, once the file that it isn't given is edited."""
        desk.git.add("rules", "a\n")
        same("with the same", desk.git.bridge("run", "--files", "a").status, 0)
        desk.git.add("rules", "b\n")
        return desk.git.bridge("run", "--files", "a").status

    same("without x_reads", starts(), 0)
    desk.git.configure(hook("same", 'cmp rules "$1"') + ", x_reads: " + line)
    same("with x_reads", starts(), 1)


def an_old_pattern_is_kept(desk):
    olds = ["'old'", "plain", '"two\\\\.txt$"', "'it''s'", "'(?i)UPPER'", "'^$'", "'a, b}'"]
    wanted = ["old|^rules$", "plain|^rules$", "two\\.txt$|^rules$", "it''s|^rules$", "(?:(?i)UPPER)|^rules$", "^rules$", "a, b}|^rules$"]
    tree = {"a": "a\n", "rules": "a\n"}
    hooks = [hook(f"h{at}", "cat rules") + ", x_reads: " + old for at, old in enumerate(olds)]
    desk.lay(tree, *hooks)
    same("flows", [pattern_in(lines)[1:-1] for lines in desk.told("--files", "a", status=1).values()], wanted)
    block = "".join(f"  - x_reads: {old}   # a word\n    name: h\n    # x_reads: no\n\n    id: h{at}\n    language: system\n    entry: sh -c 'cat rules'\n    files: ^a$\n" for at, old in enumerate(olds[:5]))
    desk.git.add(".pre-commit-config.yaml", "exclude: x_reads\nrepos:\n- repo: local\n  hooks:\n" + block + "default_stages: [pre-commit]\n")
    same("blocks", [pattern_in(lines)[1:-1] for lines in desk.told("--files", "a", status=1).values()], wanted[:5])


def an_old_pattern_counts(desk):
    desk.lay({"a": "a\n", "one.cfg": "a\n", "two.cfg": "a\n", "three": "a\n"}, hook("cat", "cat one.cfg two.cfg three") + ", x_reads: 'cfg$'")
    same("told", desk.told("--files", "a", status=1), {"cat": ["1 file missing from the key", "reads: three", "x_reads: 'cfg$|^three$'"]})


def scripts_of_the_tree_are_tried(desk):
    text = "\n. ./rules.sh\necho x > a\nexit 3\n"
    tree = {"a": "a\n", "rules.sh": "number=1\n", "by_sh": "#!/bin/sh" + text, "by_env": "#!/usr/bin/env sh" + text, "plain": text, "tool.py": "#!/usr/bin/python3\nopen('rules.sh').read()\n"}
    keys = ", files: '^a$'"
    desk.lay(tree, *(f"id: {name}, name: {name}, language: {language}, entry: {words}" + keys for name, language, words in (
        ("by_sh", "script", "by_sh"), ("by_env", "script", "by_env"), ("system", "system", "./by_sh x"), ("plain", "script", "plain"), ("python", "script", "tool.py"))))
    desk.git.git("update-index", "--chmod=-x", "plain")
    for words, wanted, status in (((), ["1 file missing from the key", "reads: rules.sh", "x_reads: '^rules\\.sh$'"], 1), (("--cautious",), [ALL_IN], 0)):
        for name, lines in desk.told("--files", "a", *words, status=status).items():
            same(f"{name} {words!r}", [line for line in lines if not line.startswith(("failed", "lists"))], wanted)
            same(f"{name} failed", "failed" in lines, name != "python")


def a_file_that_is_handed_with_others_is_read_alone(desk):
    desk.lay({"a": "", "b": "", "c": ""}, hook("cat", "cat a b", "files: '^[abc]$'"), hook("per", "cat a b", "files: '^[abc]$', x_per_file: true"))
    wanted = ["2 files missing from the key", "reads: a", "reads: b", "x_reads: '^(a|b)$'"]
    same("together", desk.told("--all-files", status=1), {"cat": [ALL_IN], "per": wanted})
    same("each", desk.told("--all-files", "--each", "cat", status=1), {"cat": wanted})
    same("what a commit changes", desk.told(status=1)["cat"], [ALL_IN])


def files_outside_are_told(desk):
    for name in ("settings", "a\nb", "many/1", "many/2", "many/3"):
        path = os.path.join(desk.home, name)
        os.makedirs(os.path.dirname(path), exist_ok=True)
        open(path, "w", encoding="utf-8").close()
    many = "; ".join(f'cat "$HOME/many/{number}"' for number in range(1, 4))
    line = 'cat "$HOME/settings" "$HOME/a\nb" /etc/hostname > /dev/null; t=$(mktemp); echo x > "$t"; cat "$t" "$HOME/none"; rm "$t"; ' + many
    desk.lay({"a": "a\n"}, hook("cat", "sh ./line") + ", x_reads: '^line$'")
    desk.git.add("line", line)
    same("told", desk.told("--files", "a", status=0)["cat"], [ALL_IN, 'outside: "~/a\\nb"', "outside: ~/many/1", "outside: ~/many/2", "outside: ~/many/3", "outside: ~/settings"])


def what_links_lead_to_is_found(desk):
    """The file that a link leads to isn't a file of the tree: no key lacks it."""
    desk.lay({"a": "a\n", "rules": "r\n", ".gitignore": ".venv/\n"}, "id: lint, name: lint, language: system, entry: .venv/bin/lint, files: '^a$'")
    desk.git.write(".venv/bin/lint", "#!/bin/sh\ncat .venv/words; test -e .venv/absent || cat rules\n", 0o755)
    desk.git.write(".venv/words", "w\n")
    told = desk.told(status=1)["lint"]
    same("without a link", told, ["can't be tried: cannot start .venv/bin/lint: No such file or directory (os error 2)"])
    desk.git.git("config", "hookhost.link", ".venv/")
    told = desk.told(status=1)["lint"]
    same("told", [line for line in told if not line.startswith("outside: ")], ["1 file missing from the key", "reads: rules", "x_reads: '^rules$'"])
    check(any(line.startswith("outside: ") and line.endswith(".venv/words") for line in told), f"{told}")
    same("what lies behind the link", sorted(os.listdir(os.path.join(desk.git.folder, ".venv"))), ["bin", "words"])


def hostile_names_are_quoted(desk):
    names = ["a b", "it's", 'a"b', "a\\b", "[x]{1}(y)|z^$.+*?", "ä", "#", "a\u2028b", "-x"]
    tree = {"a": "a\n"} | dict.fromkeys(names, "a\n")
    desk.lay(tree, hook("cat", "cat -- [!a] a?* it* [[]*; cat ./*"))
    for name in (b"not \xff utf-8", b"line\nfeed"):
        with open(os.path.join(os.fsencode(desk.git.folder), name), "wb"):
            pass
    desk.git.git("add", "--all")
    answer = desk.reads("--files", "a")
    check("left out: 2 of the staged files" in answer.err, answer)
    for line in ('reads: "a b"', "reads: it's", 'reads: "a\\"b"', 'reads: "a\\\\b"', "reads: [x]{1}(y)|z^$.+*?", "reads: ä", "reads: #", 'reads: "a\\342\\200\\250b"', "reads: -x"):
        check(f"  {line}\n" in answer.out, f"{line!r} isn't in {answer.out}")
    line = pattern_in([line.strip() for line in answer.out.split("\n")])
    desk.git.configure(hook("cat", "cat -- [!a] a?* it* [[]*; cat ./*") + ", x_reads: " + line)
    same("mended", desk.reads("--files", "a").out.split("\n")[0], f"cat: {ALL_IN}")


def many_files_become_one_pattern(desk):
    many = {f"rules/{number}.txt": "a\n" for number in range(30)}
    desk.lay({"a": "a\n"} | many, hook("cat", " ".join(["cat", *many])))
    lines = desk.told("--files", "a", status=1)["cat"]
    same("lines", (len(lines), lines[0], lines[11]), (13, "30 files missing from the key", "reads: 20 more"))
    same("pattern", pattern_in(lines), r"'^rules/.*\.txt$'")


def hooks_that_fail_or_fix_are_told(desk):
    desk.lay({"a": "a\n", "rules": "a\n"}, hook("fails", "cat rules; exit 7"), hook("fixes", 'cat rules >> "$1"'), hook("removes", "cat rules; rm a rules"),
             "id: gone, name: gone, language: system, entry: no-such-program, files: '^a$'")
    wanted = ["1 file missing from the key", "reads: rules", "x_reads: '^rules$'", "failed"]
    told = desk.told("--files", "a", status=1)
    same("told", told, {"fails": wanted, "fixes": wanted, "removes": wanted, "gone": ["can't be tried: cannot start no-such-program: No such file or directory (os error 2)"]})
    same("cautious", set(map(str, desk.told("--files", "a", "--cautious", "fails", "fixes", "removes", status=0).values())), {str([ALL_IN, "failed"])})
    desk.lay({}, "id: full, name: full, language: system, entry: /bin/false x, files: '^a$'", "id: reader, name: reader, language: system, entry: /bin/cat rules none, files: '^a$'")
    same("by a full path", desk.told("--files", "a", "--cautious", status=1)["reader"], ["can't be tried: /bin/cat isn't cached: it fails, or changes files"])


def a_hook_that_is_handed_nothing_sees_all(desk):
    desk.lay({"a": "a\n", "rules": "a\n"}, hook("whole", "cat rules", "pass_filenames: false"), hook("always", "cat rules", "always_run: true, files: none"))
    same("told", desk.told("--files", "a", status=1), {"whole": [ALL_IN], "always": ["1 file missing from the key", "reads: rules", "x_reads: '^rules$'"]})


def what_is_left_at_work_is_not_waited_for(desk):
    # As long as it has the command's standard input, the next run takes another folder.
    line = 'cat rules; exec 3<&0; sleep 600 <&3 > /dev/null 2>&1 & echo $! > "$HOME/left"'
    desk.lay({"a": "a\n", "rules": "a\n"}, hook("daemon", line), hook("other", "cat rules"))
    before = time.monotonic()
    wanted = ["1 file missing from the key", "reads: rules", "x_reads: '^rules$'"]
    told = desk.told("--files", "a", status=1)
    with open(os.path.join(desk.home, "left"), encoding="ascii") as file:
        os.kill(int(file.read()), signal.SIGKILL)
    same("told", told, {"daemon": wanted, "other": wanted})
    check(time.monotonic() - before < 500, "the process that was left was waited for")


def a_hook_that_calls_git_is_told(desk):
    desk.lay({"a": "a\n"}, hook("git", "git rev-parse HEAD || true"))
    same("told", desk.told("--files", "a", status=0), {"git": [ALL_IN, "calls Git"]})


# ---- the places in which it works


def nothing_is_changed(desk):
    desk.lay({"a": "a\n", "rules": "a\n", "run": "#!/bin/sh\necho x > a\n"}, hook("cat", "cat rules > b; ./run"))
    desk.git.git("commit", "--quiet", "-m", "m")
    desk.git.add("a", "b\n")
    desk.git.write("a", "c\n")
    before = bytes_of(desk.git.folder)
    desk.told(status=1)
    same("all files", bytes_of(desk.git.folder), before)
    os.mkdir(os.path.join(desk.git.folder, "sub"))
    same("in a folder", desk.told("--files", "../a", status=1, cwd="sub")["cat"][1:3], ["reads: rules", "reads: run"])
    desk.is_clean()
    # Neither is anything left by one that is ended.
    desk.git.configure(hook("slow", "cat rules; sleep 30", "files: '^a$'"))
    begun = subprocess.Popen([SCRIPT, "--files", "a"], cwd=desk.git.folder, env=desk.env, stdout=subprocess.DEVNULL, stderr=subprocess.DEVNULL)
    until = time.monotonic() + 60
    while not any("trace." in name for folder in os.listdir(desk.temporary) for name in os.listdir(os.path.join(desk.temporary, folder))) and time.monotonic() < until:
        time.sleep(0.1)
    begun.terminate()
    same("status", begun.wait(60), 3)
    desk.is_clean()


def bytes_of(top):
    """All files and links below a folder, with their bytes and modes."""
    found = {}
    for folder, _, names in os.walk(top):
        for name in names:
            path = os.path.join(folder, name)
            with open(path, "rb") as file:
                found[os.path.relpath(path, top)] = (os.stat(path).st_mode, file.read())
    return found


def a_repository_of_hookhost_is_looked_at(desk):
    folder = desk.git.folder
    shutil.rmtree(os.path.join(folder, ".git"))
    for path, held in {"a": "a\n", "rules": "a\n", "run": "#!/bin/sh\ncat rules\n", ".pre-commit-config.yaml": configuration(hook("run", "./run"))}.items():
        desk.git.write(path, held)

    def store(*words):
        done = desk.git.run(PROGRAM, *words)
        check(done.status == 0, f"{words!r}: {done!r}")

    store("init")
    store("add", ".")
    store("add", "--chmod=+x", "run")
    desk.git.write("rules", "not staged\n")
    before = bytes_of(folder)
    same("told", desk.told(status=1), {"run": ["1 file missing from the key", "reads: rules", "x_reads: '^rules$'"]})
    same("all files", bytes_of(folder), before)
    desk.git.write(".pre-commit-config.yaml", configuration(hook("run", "./run") + ", x_reads: '^run$'", "id: t, name: t, language: system, entry: 'true'"))
    store("add", ".pre-commit-config.yaml")
    store("commit", "--no-verify", "-m", "m")
    check("no staged file differs" in desk.reads().err, "a run without files is told")
    same("with x_reads", desk.told("--all-files", status=1)["run"], ["1 file missing from the key", "reads: rules", "x_reads: '^run$|^rules$'"])
    desk.is_clean()


def what_keeps_it_from_working_is_told(desk):
    desk.lay({"a": "a\n"}, hook("cat", "cat a"))
    tools = os.path.join(desk.home, "tools")
    os.mkdir(tools)
    for name in ("git", "sh", "cat"):
        os.symlink(shutil.which(name), os.path.join(tools, name))
    python = [sys.executable, SCRIPT]

    def refused(part, *words, status=3, cwd=None, **env):
        answer = desk.git.run(*python, *words, env=env, cwd=cwd)
        check(answer.status == status and answer.err.startswith("hookhost-reads: ") and part in answer.err and not answer.out, f"{part!r} isn't in {answer!r}")
        desk.is_clean()

    refused("there is no strace", PATH=tools)
    with open(os.path.join(tools, "strace"), "w", encoding="utf-8") as file:
        file.write("#!/bin/sh\necho 'strace: ptrace(PTRACE_TRACEME, ...): Operation not permitted' >&2\nexit 1\n")
    os.chmod(os.path.join(tools, "strace"), 0o755)
    refused("strace can't trace here; a container or its settings may forbid it: strace: ptrace(PTRACE_TRACEME, ...): Operation not permitted", PATH=tools)
    refused("there is no hookhost", HOOKHOST=desk.home)
    refused("neither a repository of hookhost (.hookhost) nor a working tree of Git", cwd=desk.home, GIT_CEILING_DIRECTORIES=os.path.dirname(desk.home))
    refused("not staged: b", "--files", "b")
    refused("9 NoSuchHook", "nope")
    refused("No such file or directory", HOOKHOST_TMP=os.path.join(desk.home, "none"))
    for words in (["--nope"], ["--files"], ["--all-files", "--files", "a"]):
        refused("Usage: hookhost-reads", *words, status=2)
    same("help", desk.reads("--help").out.split("\n")[0].split(" [")[0], "Usage: hookhost-reads")
    desk.git.add(".pre-commit-config.yaml", "repos: [\n")
    refused("the staged configuration is refused", "--files", "a")
    desk.git.git("rm", "--quiet", "--cached", ".pre-commit-config.yaml")
    refused("no .pre-commit-config.yaml is staged")


CASES = [
    tools_without_and_with_x_reads, known_tools_have_what_they_read_in_their_keys, a_library_at_the_top_starts_isort_again,
    a_hook_that_reads_what_it_is_handed, each_kind_of_look_is_told, what_is_told_is_answered_from_the_cache, an_old_pattern_is_kept, an_old_pattern_counts,
    scripts_of_the_tree_are_tried, a_file_that_is_handed_with_others_is_read_alone, files_outside_are_told, what_links_lead_to_is_found, hostile_names_are_quoted, many_files_become_one_pattern,
    hooks_that_fail_or_fix_are_told, a_hook_that_is_handed_nothing_sees_all, what_is_left_at_work_is_not_waited_for, a_hook_that_calls_git_is_told,
    nothing_is_changed, a_repository_of_hookhost_is_looked_at, what_keeps_it_from_working_is_told, *IMPORTS,
]


def main():
    chosen = [case for case in CASES if PART in case.__name__]
    failed = 0
    for case in chosen:
        top = tempfile.mkdtemp(prefix="hookhost-reads-test-")
        begun = os.times()
        try:
            case(Desk(top))
        except (Wrong, subprocess.SubprocessError, OSError) as error:
            failed += 1
            print(f"hookhost_reads: FAILED: {case.__name__}: {error}", flush=True)
        finally:
            shutil.rmtree(top, ignore_errors=True)
        if "HOOKHOST_READS_TIMES" in os.environ:
            now = os.times()
            print(f"{case.__name__}: {now.children_user + now.children_system - begun.children_user - begun.children_system:.1f} s", flush=True)
    print(f"hookhost_reads: {len(chosen) - failed} passed, {failed} failed")
    return 1 if failed or not chosen else 0


sys.exit(main())
