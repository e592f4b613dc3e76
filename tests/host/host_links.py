"""Cases of tests/host/host.py: links in the folder of children, to what is installed in the working folder and isn't staged."""
import os

from host_program import check, do, paths_in, run, write

VARIABLE = "HOOKHOST_LINKS"
# What a hook's command says of the folder that it runs in, and what the links lead to.
SHOWN = "find . -mindepth 1 -maxdepth 1 ! -name .git -printf '%f %y\\n' | LC_ALL=C sort"


def hook(entry, name="h"):
    return f"""  - {{id: {name}, name: {name}, language: system, entry: "{entry}", pass_filenames: false, verbose: true, stages: [pre-commit]}}\n"""


def lay(folder, *entries, staged=()):
    """A repository with a hook for each entry, and next to it `.venv` and `node_modules`, of which nothing is staged."""
    do(folder, "init")
    write(folder, ".pre-commit-config.yaml", ("repos:\n- repo: local\n  hooks:\n" + "".join(hook(entry, f"h{at}") for at, entry in enumerate(entries))).encode())
    write(folder, "a.txt", b"1\n")
    write(folder, "hook.sh", SHOWN.encode())
    write(folder, ".venv/bin/tool", b"#!/bin/sh\necho tool of $(basename $PWD)\n")
    os.chmod(os.path.join(folder, ".venv/bin/tool"), 0o755)
    write(folder, "node_modules/.bin/eslint", b"#!/bin/sh\necho eslint\n")
    os.chmod(os.path.join(folder, "node_modules/.bin/eslint"), 0o755)
    for path in (".pre-commit-config.yaml", "a.txt", "hook.sh", *staged):
        do(folder, "add", path)


def linked(folder, *words, links=".venv:node_modules"):
    return run(folder, *words, env={**os.environ, VARIABLE: links})


def outputs(folder, *words, status=0, links=".venv:node_modules"):
    """What the hooks print, without the lines of the report."""
    answer = linked(folder, *words, links=links)
    check((answer[0], answer[2]) == (status, b""), f"{words!r} with {links!r} is answered {answer!r}")
    return [line for line in answer[1].decode().splitlines() if line and not line.endswith(("Passed", "Failed")) and not line.startswith("- ")]


def finds_what_is_installed(folder):
    """A tool of the working folder is started by its path, its answer is cached, and without the variable it isn't there."""
    lay(folder, ".venv/bin/tool", "node_modules/.bin/eslint", "sh hook.sh")
    status, out, err = run(folder, "run", "--all-files")
    check(status == 1 and out.count(b"could not be started") == 2, f"without links: {(status, out, err)!r}")
    do(folder, "forget")
    wanted = ["tool of scratch", "eslint", ".pre-commit-config.yaml f", ".venv l", "a.txt f", "hook.sh f", "node_modules l"]
    check(outputs(folder, "run", "--all-files") == wanted, "what is installed isn't found")
    status, out, err = linked(folder, "run", "--all-files", "--verbose")
    check((status, err) == (0, b"") and b"answered from the cache: 3" in out, f"the second run: {(status, out, err)!r}")
    check(outputs(folder, "run", "--all-files", "--fresh") == wanted, "what is installed isn't found again")
    check(do(folder, "fixes") == b"", "what is installed is a fix")


def keeps_what_the_tree_has(folder):
    """A name of a file or a folder of the tree isn't linked, and neither is one that is nowhere."""
    lay(folder, "sh hook.sh; cat .venv node_modules/mine; ls node_modules")
    os.rename(os.path.join(folder, ".venv"), os.path.join(folder, "installed"))
    write(folder, ".venv", b"staged\n")
    write(folder, "node_modules/mine", b"mine\n")
    do(folder, "add", ".venv", "node_modules/mine")
    write(folder, ".pre-commit-config.yaml", ("repos:\n- repo: local\n  hooks:\n" + hook("sh -c 'sh hook.sh; cat .venv node_modules/mine; ls node_modules'")).encode())
    do(folder, "add", ".pre-commit-config.yaml")
    wanted = [".pre-commit-config.yaml f", ".venv f", "a.txt f", "hook.sh f", "node_modules d", "staged", "mine", "mine"]
    check(outputs(folder, "run", "--all-files", links=".venv:node_modules:nowhere") == wanted, "the tree's own names are linked")
    do(folder, "rm", ".venv")
    do(folder, "rm", "node_modules")
    os.remove(os.path.join(folder, ".venv"))
    os.rename(os.path.join(folder, "installed"), os.path.join(folder, ".venv"))
    write(folder, ".pre-commit-config.yaml", ("repos:\n- repo: local\n  hooks:\n" + hook("sh hook.sh")).encode())
    do(folder, "add", ".pre-commit-config.yaml")
    wanted = [".pre-commit-config.yaml f", ".venv l", "a.txt f", "hook.sh f", "node_modules l"]
    check(outputs(folder, "run", "--all-files") == wanted, "names that the tree has no more aren't linked")


def touches_nothing_behind_a_link(folder):
    """After anything that a child puts in a link's place, the next one finds the link. What it leads to stays as it was."""
    lay(folder, "sh hook.sh")
    before = [path for path in paths_in(folder) if path.startswith((".venv", "node_modules"))]
    elsewhere = os.path.join(folder, "elsewhere")
    write(folder, "elsewhere/kept", b"kept\n")
    for entry in ("rm .venv", "rm .venv node_modules && mkdir -p .venv/bin node_modules/a/b && touch .venv/bin/tool node_modules/a/b/c",
                  "rm .venv && echo file > .venv", f"ln -sfn {elsewhere} .venv", "ln -sfn . .venv", "mv .venv moved && mv node_modules .venv"):
        write(folder, ".pre-commit-config.yaml", ("repos:\n- repo: local\n  hooks:\n" + hook(f"sh -c '{entry}'", "first") + hook("sh hook.sh", "second")).encode())
        do(folder, "add", ".pre-commit-config.yaml")
        for words in (["run", "--all-files"], ["run", "--all-files", "--fresh"], ["try", ".pre-commit-config.yaml", "a.txt", "hook.sh"]):
            found = outputs(folder, *words)
            check(".venv l" in found and "node_modules l" in found and "moved l" not in found, f"after {entry!r}: {found!r}")
        check([path for path in paths_in(folder) if path.startswith((".venv", "node_modules"))] == before, f"after {entry!r} something else is installed")
        check(os.listdir(elsewhere) == ["kept"], f"after {entry!r} something else stands where a child's own link led")
    check(do(folder, "fixes") == b"", "a link is a fix")


def links_each_name_once(folder):
    lay(folder, "sh hook.sh")
    wanted = [".pre-commit-config.yaml f", ".venv l", "a.txt f", "hook.sh f"]
    check(outputs(folder, "run", "--all-files", links=".venv:.venv:.venv") == wanted, "a name that is given twice")
    os.rename(os.path.join(folder, ".venv"), os.path.join(folder, "installed"))
    os.symlink("installed", os.path.join(folder, ".venv"))
    check(outputs(folder, "run", "--all-files", "--fresh", links=".venv") == wanted, "a link to a link")
    os.remove(os.path.join(folder, ".venv"))
    do(folder, "forget")
    found = outputs(folder, "run", "--all-files", "--fresh", links=".venv")
    check(found == [path for path in wanted if path != ".venv l"], f"a name that is nowhere: {found!r}")


def refuses_what_is_no_name(folder):
    lay(folder, "sh hook.sh")
    before = do(folder, "status")
    for links in ("", ":", ".venv:", "a/b", "/tmp", "..", ".", ".git", ".hookhost", "a\nb", b"\xff"):
        for words in (["run"], ["run-files", "a.txt"], ["commit", "-m", "m"], ["try", ".pre-commit-config.yaml", "a.txt"]):
            answer = run(folder, *words, env={**os.environb, VARIABLE.encode(): os.fsencode(links)})
            check(answer == (3, b"", b"hookhost: cannot use HOOKHOST_LINKS\n"), f"{words!r} with {links!r} is answered {answer!r}")
    for words in (["status"], ["fixes"], ["log"], ["check"], ["explain"], ["add", "a.txt"]):
        status, _, err = run(folder, *words, env={**os.environ, VARIABLE: "a/b"})
        check((status, err) == (0, b""), f"{words!r} looks at the links: {err!r}")
    check(do(folder, "status") == before, "a refused command changes something")


CASES = [finds_what_is_installed, keeps_what_the_tree_has, touches_nothing_behind_a_link, links_each_name_once, refuses_what_is_no_name]
