"""What hooks find through the links of hookhost.link, and which changes there drop cached results; for tests/git/git_bridge.py."""
import os
import subprocess
import sys

from git_bridge_repository import PROGRAM, Repository, check, content, made, not_made, quoted, refused, repository, same
from git_bridge_runs import starts
from git_bridge_served import Asked, compare
from git_bridge_tools import DROPPED, Bench, rewritten

VENV, MODULES = ".venv/bin/lint", "node_modules/.bin/eslint"
# What can't be linked, as Git has it and as the line shows it.
BAD_NAMES = [("", ""), ("/", "/"), ("a/b", "a/b"), ("a//", "a//"), ("/etc", "/etc"), ("..", ".."), (".", "."), (".git", ".git"), (".git/", ".git/"), (".hookhost", ".hookhost"),
             ("a:b", "a:b"), ("a\nb", "a?b"), ("a\tb", "a?b"), (b"\xff", "\udcff"), ("x" * 256, "x" * 256)]
# Names that a file of patterns would read as something different.
HARD_NAMES = ["my [env]*?", "#hash", "!bang", "tail ", "back\\slash", "'quoted\" ü"]
# What a hook may ask of what is ignored.
ASKED = """
git status --porcelain
git status --short --branch
git ls-files --others --exclude-standard
git ls-files --others --exclude-standard --directory
git add --all --dry-run
git clean --dry-run -d
git diff --stat HEAD
git check-ignore .venv node_modules a.txt
"""


def installed(git, *names, log=None):
    """Puts tools into the working tree that aren't staged, each of which writes down its starts, and has them ignored."""
    git.add(".gitignore", ".venv/\nnode_modules/\n")
    for path in names:
        git.write(path, "#!/bin/sh\n" + (f"echo started >> {quoted(log)}\n" if log else "") + f"echo this is {os.path.basename(path)}\n", 0o755)


def linked(git, *names):
    for name in names:
        git.git("config", "--add", "hookhost.link", name)


def runs(name, entry, keys="pass_filenames: false, always_run: true"):
    """A hook whose entry has no shell around it."""
    return f"id: {name}, name: {name}, language: system, verbose: true, entry: {entry}, {keys}"


def behind(git):
    """What the links lead to, by its paths."""
    return {path: held for path, held in git.working_files().items() if path.startswith((".venv", "node_modules", "elsewhere"))}


# ---- what hooks find


def tools_behind_links(top, env):
    log = os.path.join(top, "log")
    git = repository(top, env, runs("lint", VENV), runs("eslint", "./" + MODULES))
    installed(git, VENV, MODULES, log=log)
    not_made(git.commit(), "- fault: could not be started")
    # A list of the user's own isn't taken: cached results don't depend on it.
    not_made(git.commit(env={"HOOKHOST_LINKS": ".venv:node_modules"}), "- fault: could not be started")
    same("starts without links", starts(log), 0)
    linked(git, ".venv/", "node_modules")
    answer = git.commit(env={"HOOKHOST_LINKS": "a/b"})
    made(answer)
    check("this is lint" in answer.text and "this is eslint" in answer.text, f"{answer!r}")
    same("starts", starts(log), 2)
    git.add("a.txt", "a\n")
    same("of another tree", (git.bridge("run").status, starts(log)), (0, 4))
    answer = git.bridge("run", "--verbose")
    same("the next run", (answer.status, answer.lines(), answer.out.splitlines()[-1], starts(log)), (0, [], "answered from the cache: 2", 4))
    made(git.commit(cwd=".venv"))
    same("the commit", starts(log), 4)


def a_real_environment(top, env):
    """A virtual environment of Python, whose packages the hook imports, though neither they nor it are staged."""
    git = repository(top, env, runs("module", ".venv/bin/python -m mylint", "files: 'txt$'"))
    done = subprocess.run([sys.executable, "-m", "venv", "--without-pip", os.path.join(git.folder, ".venv")], env=env, capture_output=True, timeout=300)
    if done.returncode:
        print("git_bridge: no environment of Python can be made here, and none is linked")
        return
    packages = os.path.join(git.folder, f".venv/lib/python{sys.version_info[0]}.{sys.version_info[1]}/site-packages")
    git.write(os.path.join(packages, "mylint/__main__.py"), "import os, sys\nimport mylint.words\nprint(mylint.words.FOUND, mylint.__file__, os.getcwd(), *sys.argv[1:])\n")
    git.write(os.path.join(packages, "mylint/__init__.py"), "")
    git.write(os.path.join(packages, "mylint/words.py"), "FOUND = 'found'\n")
    git.add(".gitignore", ".venv/\n")
    linked(git, ".venv")
    git.add("a.txt", "a\n")
    answer = git.bridge("run")
    same("the run", (answer.status, answer.lines()), (0, []))
    said = next(line for line in answer.out.splitlines() if line.startswith("found")).split()
    same("the module", (os.path.realpath(said[1]), said[2:]), (os.path.realpath(os.path.join(packages, "mylint/__init__.py")), [git.scratch(), "a.txt"]))
    answer = git.bridge("run", "--verbose")
    same("the next run", (answer.status, answer.lines(), answer.out.splitlines()[-1]), (0, [], "answered from the cache: 1"))
    os.mkdir(os.path.join(packages, "other-1.0.dist-info"))
    answer = git.bridge("run", "--verbose")
    same("after an installation", (answer.status, answer.out.splitlines()[-1]), (0, "answered from the cache: 0"))
    check(answer.lines()[0].startswith(f"{DROPPED}{packages} changed"), f"{answer!r}")


def staged_names_win(top, env):
    shows = runs("shows", "sh -c 'cat .venv node_modules/mine; ls node_modules; readlink vendor; cat vendor'")
    git = repository(top, env, shows)
    installed(git, MODULES)
    git.write("elsewhere", "elsewhere\n")
    git.add(".gitignore", "nothing\n")
    git.add(".venv", "staged\n")
    git.add("node_modules/mine", "mine\n")
    # A link that is staged isn't given to hooks, so its name is free.
    os.symlink("elsewhere", os.path.join(git.folder, "vendor"))
    git.git("add", "vendor")
    linked(git, ".venv", "node_modules", "vendor", "nowhere")
    git.write(".venv", "not staged\n")
    answer = git.bridge("run")
    same("the run", (answer.status, answer.lines()), (0, ["left out: 1 link"]))
    same("what it shows", answer.out.splitlines()[3:-1], ["staged", "mine", "mine", f"{git.folder}/vendor", "elsewhere"])
    # What the tree no longer has is linked, which no key shows.
    git.git("rm", "--quiet", "--cached", "--force", ".venv", "node_modules/mine")
    answer = git.bridge("run")
    check(answer.lines()[0].startswith(f"{DROPPED}.venv is linked now; node_modules is linked now"), f"{answer!r}")
    same("what it shows then", (answer.status, answer.out.splitlines()[3:-1]), (0, ["not staged", "mine", "mine", f"{git.folder}/vendor", "elsewhere"]))


def a_link_that_is_replaced(top, env):
    """A hook replaces the link, which harms no file that the link leads to. The next hook finds the link again."""
    git = repository(top, env)
    installed(git, VENV, MODULES)
    git.write("elsewhere/kept", "kept\n")
    linked(git, ".venv", "node_modules")
    before = behind(git)
    for entry in ("rm .venv", "rm -rf .venv node_modules", "rm .venv && mkdir -p .venv/bin && touch .venv/bin/lint", "rm .venv && echo file > .venv", f"ln -sfn {git.folder}/elsewhere .venv", "ln -sfn . .venv",
                  "mv .venv moved && mv node_modules .venv", "git add --all --force && git rm --quiet --cached .venv node_modules && git clean -ffdxq"):
        git.configure(runs("first", f"sh -c '{entry}'"), runs("second", "sh -c 'readlink .venv node_modules && .venv/bin/lint && node_modules/.bin/eslint'"))
        for words in (["run"], ["run", "--all-files", "--fresh"]):
            answer = git.bridge(*words)
            same(f"after {entry!r}", answer.status, 0)
            check(f"{git.folder}/.venv\n{git.folder}/node_modules\nthis is lint\nthis is eslint\n" in answer.out, f"after {entry!r}: {answer!r}")
        same(f"what lies behind the links after {entry!r}", behind(git), before)
    same("fixes", git.store("fixes").out, "")


def what_a_hook_writes_behind_a_link(top, env):
    """It is the user's own folder, and the hook passes."""
    git = repository(top, env, runs("writes", "sh -c 'echo written > .venv/made'"))
    installed(git, VENV)
    linked(git, ".venv")
    git.bridge("run")
    same("what it has written", git.read(".venv/made"), b"written\n")
    same("fixes", git.store("fixes").out, "")
    # Until nothing changes there any more, nothing is cached for long.
    answer = git.bridge("run")
    same("the next run", (answer.status, answer.lines()), (0, [f"{DROPPED}{git.folder}/.venv changed"]))
    same("one more", git.bridge("run").lines(), [])


# ---- what drops cached results


def what_is_installed_changes(top, env):
    bench = Bench(top, env, f"{VENV} ./{MODULES} target", keys="files: 'txt$', x_reads: '^a'")
    git = bench.git
    installed(git, VENV, MODULES)
    packages = os.path.join(git.folder, ".venv/lib/python3.11/site-packages")
    os.makedirs(packages)
    base = bench.tool("python3.11", folder=os.path.join(top, "base"))
    os.symlink(base, os.path.join(git.folder, ".venv/bin/python"))
    for path in (".venv/pyvenv.cfg", "node_modules/.package-lock.json"):
        git.write(path, "x\n")
    bench.starts_at("without links", 1)
    rewritten(os.path.join(git.folder, VENV))
    bench.starts_at("what isn't linked", 1)
    at = git.folder
    added = f".venv is linked now; {VENV} is there now, {at}/{VENV}"
    bench.changed("a link", added, lambda: linked(git, ".venv"))
    bench.changed("one more", f"node_modules is linked now; ./{MODULES} is there now, {at}/{MODULES}", lambda: linked(git, "node_modules/"))
    for path in (VENV, MODULES, ".venv/pyvenv.cfg", "node_modules/.package-lock.json"):
        bench.changed("a file behind a link", f"{at}/{path} changed", lambda path=path: rewritten(os.path.join(at, path)))
    bench.changed("the program that Python is", f"{at}/.venv/bin/python changed", lambda: rewritten(base))
    bench.changed("a package", f"{packages} changed", lambda: os.mkdir(os.path.join(packages, "black-24.dist-info")))
    os.makedirs(os.path.join(packages, "black-24.dist-info/__pycache__"))
    bench.starts_at("what is compiled", starts(bench.log))
    for folder in (".venv/bin", "node_modules/.bin"):
        bench.changed("one more command", f"{at}/{folder} changed", lambda folder=folder: git.write(f"{folder}/other", "", 0o755))
    bench.changed("one more folder of packages", f"the folders of packages of {at}/.venv changed", lambda: os.makedirs(os.path.join(at, ".venv/lib/python3.12/site-packages")))
    for name in (".yarn-integrity", ".modules.yaml"):
        bench.changed("another installer", f"{at}/node_modules changed; {at}/node_modules/{name} is there now", lambda name=name: git.write(f"node_modules/{name}", "x\n"))
    bench.changed("no program any more", f"{VENV} is gone", lambda: os.chmod(os.path.join(at, VENV), 0o644))
    bench.changed("what isn't there any more", f"./{MODULES} is gone; {at}/node_modules is gone; {at}/node_modules/.bin is gone; and 3 more", lambda: os.rename(os.path.join(at, "node_modules"), os.path.join(at, "moved")))
    bench.changed("what is there again", f"./{MODULES} is there now, {at}/{MODULES}; {at}/node_modules is there now; {at}/node_modules/.bin is there now; and 3 more",
                  lambda: os.rename(os.path.join(at, "moved"), os.path.join(at, "node_modules")))


def the_list_of_names_changes(top, env):
    bench = Bench(top, env, "tool", keys="files: 'txt$', x_reads: '^a'")
    git = bench.git
    bench.starts_at("without links", 1)
    bench.changed("a name that is nowhere", "target is linked now", lambda: linked(git, "target"))
    bench.changed("what a name leads to", f"{git.folder}/target is there now", lambda: os.mkdir(os.path.join(git.folder, "target")))
    bench.changed("one more name", "vendor is linked now", lambda: linked(git, "vendor"))
    for names in (["vendor", "target"], ["target/", "vendor/", "target", "vendor"]):
        git.git("config", "--unset-all", "hookhost.link")
        linked(git, *names)
        bench.starts_at(f"the same names: {names!r}", starts(bench.log))
    # The hook doesn't see this file, and no longer finds the link.
    bench.changed("a name that the tree has", "target is no longer linked", lambda: git.add("target/x", "x\n"))
    bench.changed("a name that the tree has no more", "target is linked now", lambda: git.git("rm", "--quiet", "--cached", "target/x"))
    git.git("config", "--unset-all", "hookhost.link")
    linked(git, "vendor")
    bench.starts_at("a name less", starts(bench.log) + 1, [f"{DROPPED}target is no longer linked"])
    bench.changed("no name", "vendor is no longer linked", lambda: git.git("config", "--unset-all", "hookhost.link"))
    bench.changed("a name of before", "vendor is linked now", lambda: linked(git, "vendor"))


# ---- what Git says in hooks


def git_says_nothing_of_links(top, env):
    """What it prints in the working tree, in which a pattern for folders ignores these."""
    git = repository(top, env, Asked.HOOK)
    git.add(".gitignore", ".venv/\nnode_modules/\n")
    git.write(".git/info/exclude", "excluded.log")
    git.write(VENV, "lint\n", 0o755)
    git.write(MODULES, "eslint\n", 0o755)
    linked(git, ".venv", "node_modules", "nowhere")
    git.add("a.txt", "a\n")
    lines = ASKED.strip().split("\n")
    compare(Asked(top, env, lines), git)
    # From the start, and for what really adds all.
    asked = Asked(top, env, [*lines, "test -L .venv && touch excluded.log new.txt && git add --all && git diff --cached --name-only HEAD"])
    for value in ("false", "true"):
        git.git("config", "hookhost.alwaysGit", value)
        git.add("a.txt", f"{value}\n")
        found = asked.of_ours(git)
        same("what is added", found[[*found][-1]].splitlines()[:-1], ["a.txt", "new.txt"])
        same("what isn't staged", found["git ls-files --others --exclude-standard"].splitlines()[:-1], [])


def names_that_are_hard(top, env):
    shows = runs("shows", "\"sh -c 'git status --porcelain --untracked-files=all; find . -maxdepth 1 -type l | wc -l'\"")
    git = repository(top, env, shows)
    for name in HARD_NAMES:
        git.write(f"{name}/file", "x\n")
    linked(git, *HARD_NAMES)
    answer = git.bridge("run")
    same("the run", (answer.status, answer.lines(), answer.out.splitlines()[-2:-1]), (0, [], [str(len(HARD_NAMES))]))
    # Each pattern is that of its own name alone.
    git.configure(runs("others", "\"sh -c 'mkdir deep; for name; do touch \\\"$name\\\" deep/\\\"$name\\\"; done; git -c core.quotePath=false status --porcelain --untracked-files=all' -- 'my e' hash bang tail backslash 'back slash'\""))
    answer = git.bridge("run")
    for name in ("my e", "hash", "bang", "tail", "backslash", "back slash"):
        for path in (name, f"deep/{name}"):
            check(f'?? "{path}"\n' in answer.out or f"?? {path}\n" in answer.out, f"{path!r} isn't told in {answer!r}")


# ---- what is refused, and proposed


def names_that_cannot_be_linked(top, env):
    git = repository(top, env, runs("lint", VENV))
    installed(git, VENV)
    linked(git, ".venv")
    same("run", git.bridge("run").status, 0)
    def state():
        return [content(os.path.join(git.home(), name)) for name in ("synced", "tools")], git.store("memory").out
    before = state()
    git.add("a.txt", "a\n")
    for name, shown in BAD_NAMES:
        git.run("git", "config", "--unset-all", "hookhost.link")
        linked(git, ".venv", name)
        for answer in (git.bridge("run"), git.bridge("run", "--all-files", "--fresh")):
            same(f"the line of {name!r}", (answer.status, answer.out, answer.lines()), (3, "", [
                f"hookhost.link can't be '{shown}': it has to be the name of something at the top of the working tree, as .venv; it is UTF-8 without slashes, colons and control characters, and not .git or .hookhost"]))
        not_made(git.commit(), "hookhost.link can't be")
        same(f"what is known after {name!r}", state(), before)
    git.git("config", "--unset-all", "hookhost.link")
    linked(git, ".venv")
    made(git.commit())


def a_program_that_makes_no_links(top, env):
    git = repository(top, env, runs("lint", VENV))
    installed(git, VENV)
    program = os.path.join(top, "program")
    git.write(program, f'#!/bin/sh\nunset HOOKHOST_LINKS\nexec {quoted(PROGRAM)} "$@"\n', 0o755)
    git.configure(runs("fine", "'true'"))
    same("without a name", git.bridge("run", env={"HOOKHOST": program}).status, 0)
    linked(git, ".venv")
    refused(git.bridge("run", env={"HOOKHOST": program}), f"hookhost is older than hookhost-git, which needs one that knows HOOKHOST_LINKS for hookhost.link: {program}")


def install_proposes_links(top, env):
    git = Repository.made(os.path.join(top, "git"), env)
    def proposed(*names):
        for folder in ("", "sub"):
            os.makedirs(os.path.join(git.folder, folder), exist_ok=True)
            answer = git.bridge("install", cwd=folder)
            wanted = [f"hooks don't find {name}, which isn't staged, unless it is linked: git config --add hookhost.link {name}" for name in names]
            same(f"what is proposed of {names!r}", (answer.status, answer.out.splitlines()[1:]), (0, wanted))
        same("what is set", git.run("git", "config", "--get-all", "hookhost.link").out.split(), asked)
    asked = []
    git.write(".gitignore", ".venv/\nnode_modules/\n")
    git.write("node_modules", "a file\n")
    proposed()
    os.remove(os.path.join(git.folder, "node_modules"))
    git.write(VENV, "x\n")
    git.write(MODULES, "x\n")
    proposed(".venv", "node_modules")
    git.write(".gitignore", "node_modules\n")
    proposed("node_modules")
    # An environment may have itself ignored.
    git.write(".venv/.gitignore", "*\n")
    proposed(".venv", "node_modules")
    linked(git, ".venv/")
    asked.append(".venv/")
    proposed("node_modules")
    linked(git, "node_modules")
    asked.append("node_modules")
    proposed()
    os.makedirs(os.path.join(top, "real"))
    os.rename(os.path.join(git.folder, "node_modules"), os.path.join(top, "real/node_modules"))
    proposed()


CASES = [
    tools_behind_links, a_real_environment, staged_names_win, a_link_that_is_replaced, what_a_hook_writes_behind_a_link, what_is_installed_changes, the_list_of_names_changes,
    git_says_nothing_of_links, names_that_are_hard, names_that_cannot_be_linked, a_program_that_makes_no_links, install_proposes_links,
]
