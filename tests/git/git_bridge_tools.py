"""When hookhost-git drops cached results, for tests/git/git_bridge.py. It drops them after a change of a tool, its interpreter, its
packages, a variable, or the output of the command of hookhost.versions. Otherwise it keeps them."""
import os
import re
import time

from git_bridge_repository import content, made, not_made, quoted, refused, repository, same
from git_bridge_runs import starts, starts_hook

DROPPED = "what was cached is dropped, since tools or settings changed: "
UNTOLD = "nothing is cached, and cached results are dropped: the command of hookhost.versions "
# A minute, in which the command of hookhost.versions isn't asked again, and how long it may take.
MINUTE, LONGEST = 60, 10


class Bench:
    """A repository with a hook that counts its starts and whose configuration has some words, and folders of tools on the PATH."""

    def __init__(self, top, env, words, name="git", keys="files: 'txt$'"):
        self.log, self.first, self.tools = (os.path.join(top, f"{name}.{what}") for what in ("log", "first", "tools"))
        self.home = os.path.join(top, f"{name}.home")
        for folder in (self.first, self.tools, self.home):
            os.mkdir(folder)
        self.git = repository(top, env | {"PATH": f"{self.first}:{self.tools}:/usr/bin:/bin", "HOME": self.home, "LC_ALL": "C.UTF-8"}, starts_hook(self.log, keys, ": " + words), name=name)
        self.git.add("a.txt", "a\n")

    def tool(self, name, text="#!/bin/sh\n", folder=None):
        """Installs a tool in a folder that hooks find, and answers its path."""
        path = os.path.join(folder or self.tools, name)
        self.git.write(path, text, 0o755)
        return path

    def starts_at(self, what, count, lines=(), **how):
        """Checks that a run prints these lines, how many commands were started in all after it, and that the next run starts none."""
        answer = self.git.bridge("run", **how)
        same(f"{what}: the run", (answer.status, answer.lines()), (0, list(lines)))
        same(f"{what}: commands that were started", starts(self.log), count)
        answer = self.git.bridge("run", **how)
        same(f"{what}: the next run", (answer.status, answer.lines(), starts(self.log)), (0, [], count))

    def changed(self, what, line, change, **how):
        """Checks that after a change everything is started once, with a line, and before it nothing is."""
        before = starts(self.log)
        same(f"{what}: before", (self.git.bridge("run").lines(), starts(self.log)), ([], before))
        change()
        self.starts_at(what, before + 1, [DROPPED + line], **how)


def renamed_over(bench, path, text):
    """Puts another file in the place of one, with its size and its last change."""
    state = os.stat(path)
    bench.tool(os.path.basename(path) + ".new", text)
    os.utime(path + ".new", ns=(state.st_atime_ns, state.st_mtime_ns))
    os.rename(path + ".new", path)


def rewritten(path):
    """Writes a file once more, so that only the time is another at which that was."""
    state, held = os.stat(path), content(path)
    with open(path, "wb") as file:
        file.write(held)
    os.utime(path, ns=(state.st_atime_ns, state.st_mtime_ns))


def relinked(path, leads_to):
    os.symlink(leads_to, path + ".new")
    os.rename(path + ".new", path)


def nothing_is_dropped_for_nothing(top, env):
    """A second run starts nothing, nor does one after an edit of the configuration but what that asks for."""
    bench = Bench(top, env, "python3 mylint /usr/bin/env node tools/check.py nowhere")
    bench.tool("mylint", "#!/usr/bin/env python3\n")
    bench.git.add("tools/check.py", "#!/usr/bin/env python3\n")
    bench.starts_at("at first", 1)
    bench.git.add("b.bin", "b\n")
    bench.starts_at("of another tree", 2)
    os.utime(os.path.join(bench.tools, "mylint"), ns=(0, os.stat(os.path.join(bench.tools, "mylint")).st_mtime_ns - 1))
    bench.starts_at("after a nanosecond", 3, [f"{DROPPED}{bench.tools}/mylint changed"])
    other = os.path.join(top, "other")
    bench.tool("other")
    hooks = [starts_hook(bench.log, "files: 'txt$', x_reads: '^a'", ": mylint"), starts_hook(other, "files: 'txt$', x_reads: '^a'", ": other", name="other")]
    bench.git.configure(hooks[0])
    bench.starts_at("another command", 4)
    bench.git.configure(*hooks)
    bench.starts_at("one more hook, of a tool that wasn't named", 4)
    same("commands of that hook", starts(other), 1)
    # A tool that isn't named is kept in mind.
    bench.git.configure(hooks[0])
    bench.starts_at("without that hook", 4)
    bench.tool("other", "#!/bin/sh\n# newer\n")
    bench.starts_at("what isn't named", 4)
    bench.git.configure(*hooks)
    bench.starts_at("the hook again", 5, [f"{DROPPED}{bench.tools}/other changed"])
    same("commands of that hook", starts(other), 2)


def a_tool_that_changes(top, env):
    bench = Bench(top, env, "mylint; $HOOKHOST_TOP/.tools/own ${HOOKHOST_TOP}/.tools/braces ~/own missing install printf")
    path = bench.tool("mylint")
    own = [bench.tool(name, folder=os.path.join(bench.git.folder, ".tools")) for name in ("own", "braces")]
    own.append(bench.tool("own", folder=bench.home))
    for name in ("one", "two"):
        bench.tool(name, f"#!/bin/sh\n# {name}\n")
    os.symlink("one", os.path.join(bench.tools, "current"))
    os.remove(path)
    os.symlink("current", path)
    bench.starts_at("at first", 1)
    bench.changed("a link on the way", f"{path} changed", lambda: relinked(os.path.join(bench.tools, "current"), "two"))
    os.remove(path)
    bench.tool("mylint")
    bench.starts_at("a file in its place", 3, [f"{DROPPED}{path} changed"])
    bench.changed("another file of the same size and time", f"{path} changed", lambda: renamed_over(bench, path, "#!/bin/sH\n"))
    bench.changed("the same file, written again", f"{path} changed", lambda: rewritten(path))
    for place in own:
        bench.changed("a tool by its path", f"{place} changed", lambda place=place: rewritten(place))
    bench.changed("elsewhere on the PATH", f"mylint is {bench.first}/mylint now, and was {path}", lambda: bench.tool("mylint", folder=bench.first))
    bench.changed("no more there", f"mylint is {path} now, and was {bench.first}/mylint", lambda: os.remove(os.path.join(bench.first, "mylint")))
    bench.changed("not a program any more", "mylint is gone", lambda: os.chmod(path, 0o644))
    bench.changed("a program again", f"mylint is there now, {path}", lambda: os.chmod(path, 0o755))
    bench.changed("a tool that is installed", f"missing is there now, {bench.tools}/missing", lambda: bench.tool("missing"))
    # Shells have words for these, which the script has too.
    for name in ("install", "printf"):
        bench.changed("a tool with the name of a word", f"{name} is {bench.tools}/{name} now, and was /usr/bin/{name}", lambda name=name: bench.tool(name))
    for name in ("LANG", "LC_ALL", "LC_TIME", "PYTHONPATH"):
        bench.changed("a variable", f"the variable {name} changed", lambda: None, env={name: "C"})
        bench.starts_at("the variable is as it was", starts(bench.log) + 1, [f"{DROPPED}the variable {name} changed"])

    def change_all():
        for place in [path, *own]:
            rewritten(place)
        bench.tool("install", folder=bench.first)

    bench.changed("several", f"install is {bench.first}/install now, and was {bench.tools}/install; {path} changed; {own[0]} changed; and 2 more", change_all)


def interpreters(top, env):
    """Interpreters of scripts that words name, on the PATH and in the tree, one after another."""
    rows = [("path", "#!{} -E"), ("tree", "#! {}"), ("script", "#!/usr/bin/env {}"), ("chain", "#!/usr/bin/env -S {} -E -s"), ("chain in the tree", "#!\t{}\r")]
    for number, (kind, line) in enumerate(rows):
        bench = Bench(top, env, "tools/lint" if kind == "tree" else "mylint", name=f"git{number}")
        python = bench.tool("mypython")
        first = line.format("mypython" if "env" in line else python) + "\nprint()\n"
        if kind == "path":
            bench.tool("mylint", first)
        elif kind == "tree":
            bench.git.add("tools/lint", first + "x" * 70000, 0o755)
        elif kind == "script":
            bench.git.add("large", "#!/usr/bin/env unseen\n" + "x" * 70000)
            bench.git.add("tools/lint.py", first)
            bench.git.configure("id: s, name: S, language: script, entry: tools/lint.py large, files: nothing", starts_hook(bench.log, "files: 'txt$'"))
        elif kind == "chain":
            bench.tool("middle", first)
            bench.tool("mylint", "#!/usr/bin/env middle\n")
        else:
            bench.git.add("tools/middle", first, 0o755)
            bench.tool("mylint", "#!tools/middle\n")
        bench.starts_at(kind, 1)
        if kind == "script":
            bench.tool("unseen")
            bench.starts_at("a large file that isn't executable", 1)
        bench.changed(f"{kind}, {line!r}", f"{python} changed", lambda python=python: rewritten(python))


def a_script_names_another_interpreter(top, env):
    bench = Bench(top, env, "mylint", keys="files: 'txt$', x_reads: '^a'")
    names = [bench.tool(name) for name in ("one", "two")]
    bench.tool("mylint", "#!/usr/bin/env one\n")
    bench.starts_at("at first", 1)
    rewritten(names[1])
    bench.starts_at("what isn't named", 1)
    bench.changed("the script", f"{bench.tools}/mylint changed", lambda: bench.tool("mylint", "#!/usr/bin/env two\n"))
    bench.changed("what it names now", f"{names[1]} changed", lambda: rewritten(names[1]))
    # The script of the tree is none of the files that the hook has seen.
    bench.git.add("tools/lint", "#!/usr/bin/env one\n")
    bench.git.configure(starts_hook(bench.log, "files: 'txt$', x_reads: '^a'", ": tools/lint"))
    bench.starts_at("a script of the tree", 4)
    bench.git.add("tools/lint", "#!/usr/bin/env two\n")
    bench.starts_at("a script that names another", 4)
    bench.changed("what that names", f"{names[1]} changed", lambda: rewritten(names[1]))


def packages(top, env):
    """Packages of Python, in a virtual environment and elsewhere, and of node."""
    bench = Bench(top, env, "$HOOKHOST_TOP/.venv/bin/black pip $HOOKHOST_TOP/../elsewhere/bin/python3 eslint shim")
    venv, elsewhere, shims = (os.path.join(*parts) for parts in ((bench.git.folder, ".venv"), (top, "elsewhere"), (bench.home, ".pyenv")))
    base = bench.tool("python3.11", "", os.path.join(top, "base", "bin"))
    packages_of = {name: os.path.join(folder, "lib/python3.11/site-packages") for name, folder in (("venv", venv), ("base", os.path.join(top, "base")), ("user", os.path.join(bench.home, ".local")), ("shim", os.path.join(shims, "versions/3.11.7")))}
    for folder in packages_of.values():
        os.makedirs(folder)
    for folder in (venv, elsewhere):
        os.makedirs(os.path.join(folder, "bin"))
        os.symlink(base, os.path.join(folder, "bin/python3"))
    python = os.path.join(venv, "bin/python3")
    bench.tool("black", f"#!{python}\n", os.path.join(venv, "bin"))
    bench.git.write(os.path.join(venv, "pyvenv.cfg"), "home = /usr/bin\n")
    bench.tool("eslint", "#!/usr/bin/env node\n")
    bench.tool("node", "")
    bench.tool("shim", folder=os.path.join(shims, "shims"))
    os.symlink(os.path.join(shims, "shims/shim"), os.path.join(bench.tools, "linked"))
    bench.git.env["PATH"] += ":" + os.path.join(shims, "shims")
    bench.starts_at("at first", 1)
    for name, folder in packages_of.items():
        bench.changed(f"a package of {name}", f"{folder} changed", lambda folder=folder: os.mkdir(os.path.join(folder, "black-24.dist-info")))
    bench.changed("the environment", f"{venv}/pyvenv.cfg changed", lambda: bench.git.write(os.path.join(venv, "pyvenv.cfg"), "home = /usr/local/bin\n"))
    bench.changed("one more folder of packages", f"the folders of packages of {python} changed", lambda: os.makedirs(os.path.join(venv, "lib/python3.12/site-packages")))
    bench.changed("the version of shims", f"{shims}/version is there now", lambda: bench.git.write(os.path.join(shims, "version"), "3.11.7\n"))
    for name in (".package-lock.json", ".yarn-integrity", ".modules.yaml"):
        path = os.path.join(bench.git.folder, "node_modules", name)
        bench.changed("packages of node", f"{path} is there now", lambda path=path: bench.git.write(path, "{}\n"))
        bench.changed("other packages of node", f"{path} changed", lambda path=path: bench.git.write(path, "{ }\n"))
        bench.changed("no packages of node", f"{path} is gone", lambda path=path: os.remove(path))
    # What Python compiles on the way is none.
    os.makedirs(os.path.join(packages_of["venv"], "black-24.dist-info/__pycache__"))
    bench.starts_at("what is compiled", starts(bench.log))


def a_stricter_tool_is_asked(top, env):
    """The stricter tool is run in a commit whose files have passed before."""
    tools = os.path.join(top, "tools")
    git = repository(top, env | {"PATH": f"{tools}:{env['PATH']}"}, "id: lint, name: Lint, language: system, entry: mylint, files: 'txt$'")
    git.write(os.path.join(tools, "mylint"), "#!/usr/bin/env strict\n", 0o755)
    git.write(os.path.join(tools, "strict"), "#!/bin/sh\nexit 0\n", 0o755)
    git.add("a.txt", "a\n")
    made(git.commit())
    git.git("reset", "--quiet", "--soft", "HEAD~1")
    git.write(os.path.join(tools, "strict"), "#!/bin/sh\nexit 1\n", 0o755)
    not_made(git.commit(), f"{DROPPED}{tools}/strict changed", "Failed")


def what_is_known_of_tools(top, env):
    """The stored states of tools: if they can't be read, everything is dropped, without a line on what changed."""
    bench = Bench(top, env, "mylint")
    bench.tool("mylint")
    bench.starts_at("at first", 1)
    path = os.path.join(bench.git.home(), "tools")
    for number, held in enumerate((b"", b"da39a3ee5e6b4b0d3255bfef95601890afd80709\n", b"\0\xff\n\t\t\n", content(path).replace(b"tools-", b"tools-9", 1))):
        bench.git.write(path, held)
        bench.starts_at(f"{held[:20]!r}", number + 2)
    os.remove(path)
    bench.starts_at("without it", 6)
    # Without a program that gives the states, nothing is known, and the run is refused.
    bench.tool("stat", "#!/bin/sh\nexit 1\n", bench.first)
    refused(bench.git.bridge("run"), "cannot look at the programs that the configuration names")


# ---- the command of hookhost.versions


def later(git):
    """Sets the time back at which the command was asked."""
    path = os.path.join(git.home(), "versions")
    asks, at, rest = content(path).decode().split(" ", 2)
    git.write(path, f"{asks} {int(at) - MINUTE} {rest}")


def versions_are_asked(top, env):
    bench = Bench(top, env, "mylint")
    asked, said = os.path.join(top, "asked"), os.path.join(top, "said")
    bench.git.write(said, "black==23.1.0\n")
    bench.starts_at("at first", 1)
    bench.git.git("config", "hookhost.versions", f"echo started >> {quoted(asked)}; cat {quoted(said)}; test -e a.txt && test \"$HOOKHOST_TOP\" = \"$PWD\" && ! read -r line")
    bench.starts_at("once it is set", 2, [DROPPED + "hookhost.versions is set"])
    same("how often it was asked", starts(asked), 1)
    bench.git.write(said, "black==24.1.0\n")
    bench.starts_at("within a minute", 2)
    same("how often it was asked", starts(asked), 1)
    later(bench.git)
    bench.starts_at("after a minute", 3, [DROPPED + "hookhost.versions prints something else"])
    same("how often it was asked", starts(asked), 2)
    later(bench.git)
    bench.starts_at("the same is printed", 3)
    same("how often it was asked", starts(asked), 3)
    # A clock that was set back, and a file that is none.
    path = os.path.join(bench.git.home(), "versions")
    for number, text in enumerate((re.sub(r" \d+ ", f" {int(time.time()) + 1000} ", content(path).decode(), count=1), "", "x\n", "x y z\n")):
        bench.git.write(path, text)
        bench.starts_at(repr(text), 3)
        same("how often it was asked", starts(asked), number + 4)
    bench.git.git("config", "hookhost.versions", "true")
    bench.starts_at("another command", 4, [DROPPED + "hookhost.versions prints something else"])
    bench.git.git("config", "--unset", "hookhost.versions")
    bench.starts_at("without it", 5, [DROPPED + "hookhost.versions is no longer set"])


def versions_that_cannot_be_told(top, env):
    """Nothing is cached then, and a line says why; within a minute the command isn't asked again."""
    bench = Bench(top, env, "mylint")
    bench.starts_at("at first", 1)
    rows = [("false", "ends with exit status 1"), ("nope", "ends with exit status 127"), ("echo x; kill -9 $$", "ends with exit status 137"), ("yes", "prints more than 1048576 bytes"),
            ("sleep 50", f"doesn't end within {LONGEST} seconds"), ("sleep 50 &", f"doesn't end within {LONGEST} seconds")]
    count, asked = 1, os.path.join(top, "asked")
    for command, why in rows:
        bench.git.git("config", "hookhost.versions", f"echo started >> {quoted(asked)}; {command}")
        before, start = starts(asked), time.monotonic()
        for _ in range(2):
            answer = bench.git.bridge("run")
            count += 1
            same(f"{command!r}", (answer.status, answer.lines(), starts(bench.log)), (0, [UNTOLD + why], count))
        same(f"how often {command!r} was asked", starts(asked) - before, 1)
        if command != "sleep 50 &":
            continue
        # What it leaves at work keeps no other run out.
        same("the time", time.monotonic() - start < 30 * LONGEST, True)
    bench.git.git("config", "hookhost.versions", "echo 1")
    bench.starts_at("what can be told", count + 1)


CASES = [
    nothing_is_dropped_for_nothing, a_tool_that_changes, interpreters, a_script_names_another_interpreter, packages, a_stricter_tool_is_asked, what_is_known_of_tools,
    versions_are_asked, versions_that_cannot_be_told,
]
