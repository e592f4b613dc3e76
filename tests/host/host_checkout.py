"""Cases of tests/host/host.py: how the folder of a repository is kept out of a checkout of Git, by the checkout's own list."""
import os
import shutil
import subprocess
from pathlib import Path

from host_program import IGNORE_FILE, STORE, check, do, owned_by_nobody, run, write

LINE = b".hookhost/\n"
# What an earlier program wrote.
IGNORES_ALL = b"*\n"
EXCLUDE = ".git/info/exclude"
ENVIRONMENT = {"GIT_CONFIG_GLOBAL": "/dev/null", "GIT_CONFIG_NOSYSTEM": "1", "GIT_AUTHOR_NAME": "A", "GIT_AUTHOR_EMAIL": "a@b",
               "GIT_COMMITTER_NAME": "A", "GIT_COMMITTER_EMAIL": "a@b"}
# The most bytes of a list that is added to, and of a file that names a folder.
MOST_EXCLUDE, MOST_NAME = 1_048_576, 4_096
HOOKS = b"""repos:
- repo: local
  hooks:
  - {id: t, name: T, language: system, entry: test ! -e ../.gitignore, pass_filenames: false, files: '^a$'}
"""
PASSED = b"T........................................................................Passed\n"


def git(folder, *words):
    done = subprocess.run(["git", "-c", "protocol.file.allow=always", *words], cwd=folder, env={**os.environ, **ENVIRONMENT}, capture_output=True, timeout=60)
    check(done.returncode == 0, f"git {words!r} says {done.stderr!r}")
    return done.stdout


def checkout(folder, name="checkout"):
    """A new checkout, with a file that is committed."""
    path = os.path.join(folder, name)
    git(folder, "init", "--quiet", path)
    write(path, "a", b"1")
    git(path, "add", "a")
    git(path, "commit", "--quiet", "-m", "first")
    return path


def ends_with_line(path):
    return Path(path).read_bytes().endswith(b"\n" + LINE) or Path(path).read_bytes() == LINE


def is_out(folder):
    """Git has nothing to stage, and the list has the line once."""
    check(git(folder, "status", "--porcelain") == b"", f"Git would stage {git(folder, 'status', '--porcelain')!r}")
    git(folder, "add", ".")
    check(git(folder, "diff", "--cached", "--name-only") == b"", "Git stages the folder")
    named = os.fsdecode(git(folder, "rev-parse", "--git-path", "info/exclude").strip())
    listed = Path(folder, named).read_bytes()
    check(listed.splitlines().count(LINE.strip()) == 1, f"the list is {listed!r}")


def keeps_its_folder_out_of_git(folder):
    """A line of the checkout's list keeps it out. init adds the line, and so does each later change if it is missing, even one that is
    refused."""
    work = checkout(folder)
    path = os.path.join(work, EXCLUDE)
    before = Path(path).read_bytes()
    do(work, "init")
    check(Path(path).read_bytes() == before + LINE, f"init leaves {Path(path).read_bytes()!r}")
    is_out(work)
    check(not os.path.lexists(os.path.join(work, IGNORE_FILE)), "there is an ignore file")
    for words in (["add", "a"], ["status"], ["rm", "a"], ["forget"]):
        do(work, *words)
    check(Path(path).read_bytes() == before + LINE, "a later command changes the list")
    for held in (b"", b"x", b"x\n", b".hookhost/x\n", b" .hookhost/\n", b"x\n.hookhost"):
        Path(path).write_bytes(held)
        do(work, "status")
        check(Path(path).read_bytes() == held, "status changes the list")
        check(run(work, "rm", "nowhere")[0] == 3, "rm of what isn't staged is done")
        wanted = held + (b"" if held.endswith(b"\n") or not held else b"\n") + LINE
        check(Path(path).read_bytes() == wanted, f"{held!r} becomes {Path(path).read_bytes()!r}")
        do(work, "add", "a")
        check(Path(path).read_bytes() == wanted, "the line comes twice")
    for held in (LINE, b".hookhost/", b"x\n.hookhost/\ny\n", b"\xff\n.hookhost/\n!.hookhost/\n"):
        Path(path).write_bytes(held)
        do(work, "add", "a")
        check(Path(path).read_bytes() == held, f"{held!r} becomes {Path(path).read_bytes()!r}")


def makes_the_list_of_a_checkout_without(folder):
    work = checkout(folder)
    shutil.rmtree(os.path.join(work, ".git/info"))
    do(work, "init")
    is_out(work)
    os.remove(os.path.join(work, EXCLUDE))
    do(work, "add", "a")
    is_out(work)


def finds_the_list_from_wherever_git_would(folder):
    """It is found from a folder of the checkout, a worktree, a submodule, and a checkout whose history lies elsewhere, named by an
    absolute path and by a relative one."""
    work = checkout(folder)
    inner = os.path.join(work, "b/c")
    os.makedirs(inner)
    do(inner, "init")
    is_out(work)
    git(work, "worktree", "add", "--quiet", "../tree")
    tree = os.path.join(folder, "tree")
    Path(work, EXCLUDE).write_bytes(b"")
    do(tree, "init")
    is_out(tree)
    check(ends_with_line(os.path.join(work, EXCLUDE)), "the worktrees' list is another")
    top = checkout(folder, "top")
    git(top, "submodule", "--quiet", "add", "../checkout", "sub")
    do(os.path.join(top, "sub"), "init")
    is_out(os.path.join(top, "sub"))
    check(ends_with_line(os.path.join(top, ".git/modules/sub/info/exclude")) and not ends_with_line(os.path.join(top, EXCLUDE)), "the submodule's list is another")
    apart = os.path.join(folder, "apart")
    git(folder, "init", "--quiet", "--separate-git-dir", os.path.join(folder, "history"), apart)
    do(apart, "init")
    is_out(apart)
    Path(folder, "history/info/exclude").unlink()
    Path(apart, ".git").write_bytes(b"gitdir: ../history\n")
    write(apart, "b/a", b"1")
    do(os.path.join(apart, "b"), "init")
    check(ends_with_line(os.path.join(folder, "history/info/exclude")), "a relative name leads elsewhere")


def leaves_a_checkouts_history_alone(folder):
    """A repository below the folder of a history needs no line, and neither does one outside of checkouts. An empty folder `.git`
    is none."""
    work = checkout(folder)
    before = Path(work, EXCLUDE).read_bytes()
    for name in (".git/hookhost/files", ".git"):
        inner = os.path.join(work, name)
        os.makedirs(inner, exist_ok=True)
        do(inner, "init")
        write(inner, IGNORE_FILE, IGNORES_ALL)
        write(inner, "a", b"1")
        do(inner, "add", "a")
        check(Path(work, EXCLUDE).read_bytes() == before, "the list is added to")
        check(not os.path.lexists(os.path.join(inner, IGNORE_FILE)), "the ignore file stays")
    outside = os.path.join(folder, "outside")
    write(outside, "a", b"1")
    do(outside, "init")
    write(outside, IGNORE_FILE, IGNORES_ALL)
    do(outside, "add", "a")
    check(sorted(os.listdir(outside)) == [".hookhost", "a"] and not os.path.lexists(os.path.join(outside, IGNORE_FILE)), "the ignore file stays outside of checkouts")
    inner = os.path.join(work, "inner")
    os.makedirs(os.path.join(inner, ".git"))
    do(inner, "init")
    check(os.listdir(os.path.join(inner, ".git")) == [] and ends_with_line(os.path.join(work, EXCLUDE)), "an empty folder is taken for a history")


def takes_the_ignore_file_away_before_hooks_run(folder):
    """The ignore file that an earlier program wrote is above the files of hooks. Another one belongs to its owner."""
    work = checkout(folder)
    do(work, "init")
    write(work, ".pre-commit-config.yaml", HOOKS)
    do(work, "add", ".")
    Path(work, EXCLUDE).write_bytes(b"")
    write(work, IGNORE_FILE, IGNORES_ALL)
    check(do(work, "run") == PASSED, "the hook finds the ignore file")
    check(ends_with_line(os.path.join(work, EXCLUDE)) and not os.path.lexists(os.path.join(work, IGNORE_FILE)), "the ignore file isn't replaced")
    for held in (b"", b"*", b"*\n\n", b"own\n", b"*\r\n"):
        write(work, IGNORE_FILE, held)
        do(work, "add", "a")
        check(Path(work, IGNORE_FILE).read_bytes() == held, f"an ignore file {held!r} goes")
    os.remove(os.path.join(work, IGNORE_FILE))
    for make in (os.mkdir, os.mkfifo, lambda path: os.symlink("../a", path)):
        make(os.path.join(work, IGNORE_FILE))
        do(work, "add", "a")
        check(os.path.lexists(os.path.join(work, IGNORE_FILE)), "what is no file goes")
        (os.rmdir if os.path.isdir(os.path.join(work, IGNORE_FILE)) else os.remove)(os.path.join(work, IGNORE_FILE))


def keeps_the_ignore_file_where_the_list_cannot_be_had(folder):
    """Otherwise Git would stage the folder. The command is done all the same, and waits for no fifo."""
    def exclude(make):
        def spoil(work):
            os.remove(os.path.join(work, EXCLUDE))
            make(os.path.join(work, EXCLUDE))
        return spoil

    def git_file(held):
        def spoil(work):
            shutil.move(os.path.join(work, ".git"), os.path.join(work, "history"))
            Path(work, ".git").write_bytes(held)
        return spoil

    def fifo(work):
        git_file(b"")(work)
        os.remove(os.path.join(work, ".git"))
        os.mkfifo(os.path.join(work, ".git"))

    spoils = {
        "a folder": exclude(os.mkdir), "a fifo": exclude(os.mkfifo), "a link to nothing": exclude(lambda path: os.symlink("nothing", path)),
        "a link to a fifo": exclude(lambda path: (os.mkfifo(path + "1"), os.symlink("exclude1", path))),
        "too long": exclude(lambda path: Path(path).write_bytes(b"x\n" * (MOST_EXCLUDE // 2) + b"x")),
        "no history": git_file(b"gitdir: nowhere\n"), "no name": git_file(b"history\n"), "no text": git_file(b"gitdir: \xff\n"),
        "a long name": git_file(b"gitdir: " + b"./" * (MOST_NAME // 2) + b"history\n"), "a fifo for a history": fifo,
    }
    for number, (name, spoil) in enumerate(spoils.items()):
        work = checkout(folder, str(number))
        do(work, "init")
        spoil(work)
        write(work, IGNORE_FILE, IGNORES_ALL)
        do(work, "add", "a")
        check(Path(work, IGNORE_FILE).read_bytes() == IGNORES_ALL, f"with {name} the ignore file goes")
    work = checkout(folder, "most")
    Path(work, EXCLUDE).write_bytes(b"x\n" * (MOST_EXCLUDE // 2))
    do(work, "init")
    check(ends_with_line(os.path.join(work, EXCLUDE)), "a list of as many bytes as there may be isn't added to")


def goes_by_no_history_of_another_user(folder):
    """It could name any folder in which this user may write."""
    program, how = owned_by_nobody(folder)
    if not how:
        return
    work = checkout(folder)
    inner = os.path.join(work, "inner")
    os.mkdir(inner)
    os.chmod(os.path.join(work, EXCLUDE), 0o666)
    before = Path(work, EXCLUDE).read_bytes()
    os.chown(inner, how["user"], how["group"])
    check(run(inner, "init", program=program, **how) == (0, b"", b""), "another user's checkout is in the way")
    check(os.path.exists(os.path.join(inner, STORE)) and Path(work, EXCLUDE).read_bytes() == before, "another user's list is added to")


def leaves_nothing_of_a_try(folder):
    """A try leaves no folder that Git would stage, and no line in its list. An ignore file that lies there is replaced all the same."""
    work = checkout(folder)
    before = Path(work, EXCLUDE).read_bytes()
    write(folder, "hooks.yaml", HOOKS)
    for words in (["try", "../hooks.yaml", "a"], ["try", "../nothing.yaml", "a"], ["check"]):
        run(work, *words)
        check(git(work, "status", "--porcelain", "--ignored") == b"", f"{words!r} leaves {os.listdir(work)!r}")
    check(run(work, "try", "../hooks.yaml", "a") == (0, PASSED, b""), "the hook fails")
    check(sorted(os.listdir(work)) == [".git", "a"] and Path(work, EXCLUDE).read_bytes() == before, f"a try leaves {os.listdir(work)!r}")
    do(work, "init")
    Path(work, EXCLUDE).write_bytes(b"")
    write(work, IGNORE_FILE, IGNORES_ALL)
    check(run(work, "try", "../hooks.yaml", "a") == (0, PASSED, b""), "the hook finds the ignore file")
    is_out(work)
    check(not os.path.lexists(os.path.join(work, ".hookhost/scratch")) and os.path.exists(os.path.join(work, STORE)), "a try beside a repository leaves its folder, or takes the store away")


CASES = [keeps_its_folder_out_of_git, makes_the_list_of_a_checkout_without, finds_the_list_from_wherever_git_would, leaves_a_checkouts_history_alone,
         takes_the_ignore_file_away_before_hooks_run, keeps_the_ignore_file_where_the_list_cannot_be_had, goes_by_no_history_of_another_user,
         leaves_nothing_of_a_try]
