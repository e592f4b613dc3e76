"""Jobs, what is kept between them, and what is believed of it; for tests/git/ci_job.py. They are the claims of
docs/CONTINUOUS_INTEGRATION.md in its order."""
import os
import shutil
import sqlite3

from ci_job_made import ANYWHERE, HOOKS, SCRIPT, SETTING, Server, as_new, said, steps_of_github, steps_of_gitlab
from git_bridge_repository import BRIDGE, CONFIGURATION, check, configuration, same, shell

DROPPED = "what was cached is dropped, since tools or settings changed: "
LINT = "id: lint, name: lint, language: system, entry: lint, types: [plain-text], x_reads: '^/'"
MORE = "id: more, name: more, " + shell('echo "more $*" >> "$HOOKS_LOG"') + ", language: system, types: [plain-text], x_reads: '^/'"


# ---- jobs


def the_first_job_starts_each_hook_and_the_next_none(top, env):
    server = Server(top, env).push({"a.txt": "one\n"})
    first = server.job_is("from nothing", 0, ["tree", "words a.txt"])
    same("verdicts", first.verdicts, {"words": "Passed", "blanks": "Skipped", "tree": "Passed"})
    second = server.job_is("with what was kept", 0, [])
    same("what it prints", (second.out, second.lines()), (first.out, []))
    server.push({"b.txt": "two\n"})
    server.job_is("one file more", 0, ["tree", "words b.txt"])
    server.push({"b.txt": "two\n"}, "main")
    server.job_is("no file that differs from the target's", 0, [])
    shutil.rmtree(server.kept)
    server.job_is("with nothing kept", 0, ["tree", "words a.txt", "words b.txt"])


def a_hook_that_fails_fails_the_job(top, env):
    server = Server(top, env).push({"a.txt": "BAD\n", "b.txt": "good\n", "c.md": "two  \n"})
    first = server.job_is("the first job", 1, ["blanks c.md", "tree", "words a.txt", "words b.txt"])
    said("the first job", first, "a.txt:1:BAD", "All changes made by hooks:", "\n-two  \n+two\n")
    # Only what failed is started again, and then nothing.
    server.job_is("the second job", 1, ["blanks c.md", "words a.txt"])
    server.push({"a.txt": "mended\n", "c.md": "two\n"})
    server.job_is("what is mended", 0, ["blanks c.md", "tree", "words a.txt"])
    server.job_is("again", 0, [])
    # B has to be checked out: what is in the index is checked.
    server.push({"a.txt": "BAD\n"})
    answer = server.job(ANYWHERE.replace("cd checkout", "cd checkout; git checkout --quiet HEAD~1"))
    same("another commit is checked out", answer.status, 0)


def a_job_of_github_checks_the_merge(top, env):
    depth, path, commands = steps_of_github()
    same("what is kept", path, "~/kept")
    server = Server(top, env).push({"a.txt": "BAD\n"}).push({"main.txt": "BAD\n"}, "main")
    server.desk.git("merge", "--quiet", "--no-edit", "change")
    server.desk.git("push", "--quiet", "origin", "HEAD:refs/pull/1/merge")
    for deep, status in ((depth, 1), (1, 3)):
        folder = server.place()
        server.play(folder, f'git init --quiet; git fetch --quiet --depth={deep} "$ORIGIN" refs/pull/1/merge; git checkout --quiet FETCH_HEAD')
        answer = server.play(folder, commands)
        same(f"a clone of depth {deep}, with {answer!r}", answer.status, status)
        said("a job of GitHub", answer, "a.txt:1:BAD" if status == 1 else "no commit of Git: HEAD^1")
        check("main.txt" not in answer.out, f"what the target has is checked: {answer!r}")
    same("what is kept", sorted(os.listdir(os.path.join(server.home, "kept"))), ["hookhost"])


def a_job_of_gitlab_keeps_what_its_hooks_need(top, env):
    depth, paths, commands = steps_of_gitlab()
    same("the depth of the clone, and what is kept", (depth, paths), (0, ["kept"]))
    server = Server(top, env).push({"a.txt": "good\n"}).push({"main.txt": "BAD\n"}, "main")
    folder = os.path.join(server.place(), "checkout")
    base = server.desk.git("merge-base", "main", "change").strip()
    started = []
    for _ in range(2):
        server.desk.git("clone", "--quiet", "--branch", "change", server.env["ORIGIN"], folder)
        if started:
            os.rename(os.path.join(top, "kept"), os.path.join(folder, "kept"))
        answer = server.play(folder, commands, {"CI_MERGE_REQUEST_DIFF_BASE_SHA": base})
        same(f"the job, with {answer!r}", answer.status, 0)
        started.append(server.started())
        os.rename(os.path.join(folder, "kept"), os.path.join(top, "kept"))
        shutil.rmtree(folder)
    same("what both jobs start", started, [["tree", "words a.txt"], []])


def history_that_a_clone_lacks(top, env):
    server = Server(top, env)
    for number in range(3):
        server.push({f"a{number}.txt": "a\n"})
    server.push({"main.txt": "main\n"}, "main").push({"old.txt": "changed\n"}, "main")
    every = [f"words a{number}.txt" for number in range(3)]
    # Only main has changed old.txt, so it isn't checked while the last common commit is known.
    server.job_is("all of it", 0, ["tree", *every])
    shutil.rmtree(server.kept)
    answer = server.job_is("both commits, and none before", 0, ["tree", *every, "words old.txt"], options="--no-single-branch --depth 1")
    same("both commits, and none before", answer.lines(), [])
    shutil.rmtree(server.kept)
    answer = server.job_is("without the target", 3, [], options="--depth 1")
    said("without the target", answer, "no commit of Git: origin/main")
    check(not os.path.exists(server.kept), "something is kept of a job that was refused")


# ---- what is kept


def what_is_kept_is_small(top, env):
    """The page's figures, with a thousand files and several hooks that see all of them."""
    hooks = [f"id: h{number}, name: h{number}, language: system, entry: sh -c true h{number}, x_reads: ''" for number in range(5)]
    server = Server(top, env, *hooks)
    files = {f"d{number // 100}/{number}.txt": f"{number} ".ljust(400, ".") + "\n" for number in range(1000)}
    for path, held in files.items():
        server.desk.write(path, held)
    server.desk.git("add", "--all")
    server.push({})
    same("a job", server.job().status, 0)
    size = sum(os.lstat(os.path.join(folder, name)).st_size for folder, _, names in os.walk(server.kept) for name in names)
    tracked = sum(map(len, files.values()))
    check(tracked < size < tracked + 1000 * len(files) + 300_000, f"{size} bytes are kept for {len(files)} files of {tracked} bytes")


def a_runner_that_goes_on_needs_nothing_kept(top, env):
    server = Server(top, env).push({"a.txt": "a\n"})
    server.job_is("the first job", 0, ["tree", "words a.txt"], env={"KEPT": "/nowhere/kept"}, commands=ANYWHERE.replace("KEPT=~/kept/hookhost ", ""))
    server.push({"b.txt": "b\n"})
    checkout = os.path.join(top, "work/checkout")
    answer = server.play(checkout, 'git pull --quiet; sh ci/hooks "origin/$TARGET" HEAD', {"KEPT": "/nowhere/kept"})
    same("the next job in the same clone", (answer.status, server.started()), (0, ["tree", "words b.txt"]))


def tools_by_their_content(top, env):
    """A tool and packages of Python that are brought to each machine anew, and then with another content."""
    tools, packages = os.path.join(top, "tools"), os.path.join(top, "tools/lib/python3.11/site-packages")
    server = Server(top, env | {"PATH": f"{tools}/bin:{env['PATH']}"}, *HOOKS, LINT)
    write = server.desk.write
    lint = f'#!{tools}/bin/python3\nimport os\nopen(os.environ["HOOKS_LOG"], "a").write("lint\\n")\n'
    write(f"{tools}/bin/lint", lint, 0o755)
    os.symlink("/usr/bin/python3", f"{tools}/bin/python3")
    write(f"{packages}/one/__init__.py", "1\n")
    write(f"{packages}/one-1.0.dist-info/RECORD", "one/__init__.py,sha256=1\n")
    server.push({"a.txt": "a\n"})
    every = ["lint", "tree", "words a.txt"]
    server.job_is("the first job", 0, every)
    changes = [
        ("installed anew", lambda: None, None),
        ("a module edited by hand", lambda: write(f"{packages}/one/__init__.py", "2\n"), None),
        ("a compiled module", lambda: write(f"{packages}/__pycache__/one.pyc", "2\n"), None),
        ("installed otherwise", lambda: write(f"{packages}/one-1.0.dist-info/RECORD", "one/__init__.py,sha256=2\n"), f"{packages} changed"),
        ("one more package", lambda: write(f"{packages}/two.py", "\n"), f"{packages} changed"),
        ("another tool", lambda: write(f"{tools}/bin/lint", lint + "# newer\n"), f"{tools}/bin/lint changed"),
        ("another variable", lambda: server.env.update(LC_CTYPE="C"), "the variable LC_CTYPE changed"),
    ]
    for what, change, line in changes:
        change()
        as_new(tools)
        answer = server.job_is(what, 0, every if line else [])
        same(what, answer.lines(), [DROPPED + line] if line else [])


def tools_by_their_states(top, env):
    """Without the setting, what is brought to a new machine is another tool."""
    tools = os.path.join(top, "tools")
    server = Server(top, env | {"PATH": f"{tools}:{env['PATH']}"}, LINT, script=SCRIPT.replace(SETTING, ""))
    server.desk.write(f"{tools}/lint", '#!/bin/sh\necho lint >> "$HOOKS_LOG"\n', 0o755)
    server.push({"a.txt": "a\n"})
    server.job_is("the first job", 0, ["lint"])
    server.job_is("the same machine", 0, [])
    as_new(tools)
    answer = server.job_is("another machine", 0, ["lint"])
    same("another machine", answer.lines(), [f"{DROPPED}{tools}/lint changed"])
    # The setting itself changes what is compared.
    server.push({"ci/hooks": SCRIPT, "a.txt": "a\n"})
    server.job_is("with the setting", 0, ["lint"])
    server.job_is("again", 0, [])


# ---- what is believed of it


def what_was_kept_of_something_else(top, env):
    server = Server(top, env).push({"a.txt": "a\n"})
    server.job_is("the first job", 0, ["tree", "words a.txt"])
    # Of another branch, which has one file more.
    server.desk.git("checkout", "--quiet", "-b", "other")
    server.push({"b.txt": "b\n"}, "other")
    server.job_is("another branch", 0, ["tree", "words b.txt"], env={"BRANCH": "other"})
    server.job_is("the first branch", 0, [])
    # Of a commit that the clone lacks: its tree is in no clone any more.
    server.push({"c.txt": "c\n"}, "other")
    server.job_is("a commit that goes", 0, ["tree", "words c.txt"], env={"BRANCH": "other"})
    server.desk.git("push", "--quiet", "origin", "--delete", "other")
    server.desk.git("--git-dir", os.path.join(top, "origin.git"), "gc", "--quiet", "--prune=now")
    with open(os.path.join(server.kept, "synced"), encoding="utf-8") as file:
        tree = file.read().split()[1]
    server.job_is("the first branch after it", 0, [])
    same("the earlier tree", server.desk.run("git", "--git-dir", os.path.join(top, "work/checkout/.git"), "cat-file", "-e", tree).status, 1)
    # Of another configuration.
    server.push({CONFIGURATION: configuration(*HOOKS, MORE)})
    server.job_is("another configuration", 0, ["more a.txt", "tree"])


def changed(path, at):
    """Changes one byte of a file."""
    with open(path, "r+b") as file:
        file.seek(at)
        held = file.read(1)
        file.seek(at)
        file.write(bytes([held[0] ^ 0x15]))


def damages(kept):
    """What may happen to what is kept, and whether the store has to be refused for it."""
    store = os.path.join(kept, "files/.hookhost/store.db")
    size = os.path.getsize(store)
    yield "the store is cut", True, lambda: os.truncate(store, size // 2)
    yield "the store is empty", True, lambda: os.truncate(store, 0)
    yield "the store is of another kind", True, lambda: written(store, b"hello\n")
    yield "the store is a folder", True, lambda: (os.remove(store), os.mkdir(store))
    with open(store, "rb") as file:
        held = file.read()
    for what, at in (("head", 20), ("tables", held.index(b"CREATE TABLE answers")), ("contents", held.index(b"echo tree"))):
        yield f"a byte of the {what} is another", True, lambda at=at: changed(store, at)
    # Not each byte of a database is used.
    for at in range(1, 8):
        yield f"a byte is another at {at} eighths", None, lambda at=at: changed(store, size * at // 8)
    for name in ("files/.hookhost/store.db", "files", "synced", "tools", "size", "bin", "lists", "lock", "taken"):
        yield f"{name} is missing", False, lambda name=name: removed(os.path.join(kept, name))
    yield "nothing is in it", False, lambda: (shutil.rmtree(kept), os.mkdir(kept))
    yield "it is a file", False, lambda: (shutil.rmtree(kept), written(kept, b""))


def written(path, held):
    with open(path, "wb") as file:
        file.write(held)


def removed(path):
    shutil.rmtree(path) if os.path.isdir(path) else os.remove(path)


def what_was_kept_is_damaged(top, env):
    server = Server(top, env).push({"a.txt": "BAD\n", "b.txt": "b\n"})
    first = server.job_is("the first job", 1, ["tree", "words a.txt", "words b.txt"])
    good = shutil.copytree(server.kept, os.path.join(top, "good"))
    count = 0
    for what, is_refused, damage in damages(server.kept):
        damage()
        answer = server.job()
        same(f"{what}: the job, with {answer!r}", (answer.status, answer.out), (first.status, first.out))
        refused = "hookhost refused, so nothing was checked" in answer.err
        check(is_refused in (None, refused), f"{what}: {answer!r}")
        count += refused
        server.started()
        if is_refused:
            server.job_is(f"{what}: the next job", 1, ["words a.txt"])
        shutil.rmtree(server.kept)
        shutil.copytree(good, server.kept)
    check(count >= 7, f"only {count} damaged stores are refused")


def set_in_store(kept, statement):
    store = sqlite3.connect(os.path.join(kept, "files/.hookhost/store.db"))
    with store:
        store.execute(statement)
    store.close()


def what_was_kept_is_of_another_version(top, env):
    server = Server(top, env).push({"a.txt": "a\n"})
    server.job_is("the first job", 0, ["tree", "words a.txt"])
    set_in_store(server.kept, "UPDATE meta SET value = 99 WHERE name = 'version'")
    answer = server.job_is("a later hookhost's", 0, ["tree", "words a.txt"])
    said("a later hookhost's", answer, "NotAStore", "the store is broken, and nothing in it is needed")
    server.job_is("after that", 0, [])
    # Results of an earlier hookhost-git.
    path = os.path.join(server.kept, "synced")
    with open(path, encoding="utf-8") as file:
        held = file.read()
    written(path, ("0" + held[held.index(":"):]).encode())
    server.job_is("an earlier hookhost-git's", 0, ["tree", "words a.txt"])


def what_somebody_else_wrote_is_believed(top, env):
    server = Server(top, env).push({"a.txt": "BAD\n"})
    server.job_is("the first job", 1, ["tree", "words a.txt"])
    set_in_store(server.kept, "UPDATE answers SET status = 0, output = (SELECT output FROM answers WHERE status = 0)")
    answer = server.job_is("an answer that was made up", 0, [])
    same("an answer that was made up", answer.verdicts["words"], "Passed")
    answer = server.play(os.path.join(top, "work/checkout"), "hookhost-git run --all-files --fresh")
    same("--fresh", (answer.status, answer.verdicts["words"]), (1, "Failed"))
    same("the bridge", os.path.dirname(BRIDGE), os.path.dirname(shutil.which("hookhost-git", path=server.env["PATH"])))


CASES = [
    the_first_job_starts_each_hook_and_the_next_none, a_hook_that_fails_fails_the_job, a_job_of_github_checks_the_merge,
    a_job_of_gitlab_keeps_what_its_hooks_need, history_that_a_clone_lacks, what_is_kept_is_small, a_runner_that_goes_on_needs_nothing_kept,
    tools_by_their_content, tools_by_their_states, what_was_kept_of_something_else, what_was_kept_is_damaged,
    what_was_kept_is_of_another_version, what_somebody_else_wrote_is_believed,
]
