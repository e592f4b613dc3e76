"""Cases of tests/host/host.py: the files that words of `add` and `rm` stand for, when there are as many as may be, and which of them is
told first. Others are of a list on standard input, and of words that are pipes."""
import os
import random
import subprocess
import tempfile

from host_program import PROGRAM, check, do, owned_by_nobody, rows, run, staged_rows, write
from stops_repository import QUICK

MOST_LIST_BYTES = 16_777_216
# How many folders these files are in, and how many files are in each: more than 10,000.
FOLDERS, EACH = 8, 12_500
COUNTED = "SELECT count(*), count(DISTINCT path), min(path), max(path) FROM staged"


def lay_many(work):
    """As many empty files below a folder as may be staged, and after them one more."""
    for at in range(FOLDERS):
        os.makedirs(os.path.join(work, f"many/{at}"))
        for number in range(EACH):
            os.mknod(os.path.join(work, f"many/{at}/{number:05}"))
    os.mknod(os.path.join(work, "many/more"))


def stages_as_many_files_as_there_may_be(_folder):
    """One file too many below a folder refuses all of them, and no word after it is read. Without it all are staged, and then those of a
    folder among them are taken out."""
    with tempfile.TemporaryDirectory(dir=QUICK) as work:
        lay_many(work)
        do(work, "init")
        said = run(work, "add", "many", "nowhere")
        wanted = (3, b"", b"hookhost: refused: 6 TooMany\nhookhost: at many/more\n")
        check(said == wanted, f"an add of one file too many says {said!r}")
        os.remove(os.path.join(work, "many/more"))
        for words, folders in ((["status"], 0), (["add", "many"], FOLDERS), (["rm", f"many/{FOLDERS - 1}"], FOLDERS - 1)):
            check(do(work, *words) == b"", f"{words!r} prints something")
            count, last = EACH * folders, f"many/{folders - 1}/{EACH - 1:05}"
            wanted, found = f"{count}|{count}|many/0/00000|{last}" if count else "0|0||", rows(work, COUNTED)
            check(found == [wanted], f"after {words!r} sqlite3 counts {found!r}")


# Files and folders whose names only begin or end as those of a repository do, by the words that stand for them; and files of
# repositories, which are left out.
LIKE_OTHERS = {
    ".hookhost2": [".hookhost2/a", ".hookhost2/.hookhost/b"], ".hookhost.d": [".hookhost.d/sub/c"], ".hookhos": [".hookhos/d"],
    "x.hookhost": ["x.hookhost/e"], ".gitx": [".gitx"], ".git2": [".git2/f"], "x.git": ["x.git/g"], ".gi": [".gi"],
    "sub": ["sub/.gitx/h", "sub/.hookhost/i", "sub/x.git", "sub/.hookhost2"],
}
LEFT_OUT = [".hookhost/k", ".hookhost/sub/l", ".git/m", "sub/.git/n", ".hookhost2/.git/o"]


def stages_what_is_only_named_like_a_repository(folder):
    """What is only named like a repository's folder is staged, by the current folder and by a word of its own."""
    do(folder, "init")
    everything = [path for paths in LIKE_OTHERS.values() for path in paths]
    for path in (*everything, *LEFT_OUT):
        write(folder, path, b"1")
    do(folder, "add", ".hookhost", ".hookhost/sub/")
    check(staged_rows(folder) == {}, f"of the repository's own files are staged {list(staged_rows(folder))!r}")
    for word, paths in {".": everything, **LIKE_OTHERS}.items():
        do(folder, "add", word)
        found = sorted(staged_rows(folder))
        check(found == sorted(path.encode() for path in paths), f"add {word} stages {found!r}")
        do(folder, "rm", *paths)


# Paths below a folder. The first in the order of their bytes isn't in the folder that is the first by its name: `d-f/g` is before `d/e`.
NEAR = ["d/e", "d/e-", "d-f/g", "d-f/h/i", "d.", "d0", "d0-", "da/b/c", "e", "é", "f", "g/a", "g-", "h", "i/j", "k", "l", "m/n", "o", "p"]


def lay_near(work, top, end, chance):
    """Writes those paths below a folder in any order, and returns the first one by its bytes."""
    paths = [f"{top}/{path}{end}" for path in NEAR]
    for path in chance.sample(paths, len(paths)):
        write(work, path, b"1")
    return min(paths, key=os.fsencode)


def tells_the_first_by_order_of_several_files(folder):
    """Of the files below a folder that can't be read, or whose paths are refused, the first in the order of the bytes of their paths is
    told, whatever order the folder has them in."""
    program, user = owned_by_nobody(folder)
    work, chance = os.path.join(folder, "work"), random.Random(2)
    os.mkdir(work)
    os.chmod(work, 0o777)
    how = {"program": program, **user}
    check(run(work, "init", **how) == (0, b"", b""), "nobody has no repository")
    for at in range(6):
        refused, unreadable = f"refused{at}", f"unreadable{at}"
        first = lay_near(work, refused, "\n", chance).replace("\n", "\\n")
        said = run(work, "add", refused, **how)
        wanted = f'hookhost: refused: 3 BadPath 6\nhookhost: at "{first}"\n'
        check(said == (3, b"", wanted.encode()), f"an add of refused files says {said!r}")
        first = lay_near(work, unreadable, "", chance)
        for path in NEAR:
            os.chmod(os.path.join(work, unreadable, path), 0)
        for words in ([unreadable], [refused, unreadable]):
            said = run(work, "add", *words, **how)
            check(said == (3, b"", f"hookhost: cannot use {first}\n".encode()), f"an add of unreadable files says {said!r}")


# ---- standard input

def listed(folder, command, names):
    """What a command answers to a list of names on its standard input."""
    done = subprocess.run([PROGRAM, command, "--paths-from=-"], cwd=folder, input=names, capture_output=True, timeout=120)
    return done.returncode, done.stdout, done.stderr


def cuts_no_list_on_standard_input(folder):
    """A list of 16 MiB is taken, all of it. One with a byte more is refused, whichever byte that is."""
    name = b"a" * 255
    for path in (name.decode(), "a", "b"):
        write(folder, path, b"1")
    do(folder, "init")
    # The name again and again, and others at the end.
    most = (name + b"\0") * (MOST_LIST_BYTES // 256 - 1) + b"a\0" * 127 + b"b\0"
    check(len(most) == MOST_LIST_BYTES, f"the list has {len(most)} bytes")
    for more in (b"\0", b"b", b"\xff"):
        for command in ("add", "rm", "run-files"):
            said = listed(folder, command, most + more)
            check(said == (3, b"", b"hookhost: cannot use -\n"), f"{command} of a list that is too long says {said!r}")
    check(do(folder, "status") == b"", "of a list that is too long something is staged")
    check((said := listed(folder, "add", most)) == (0, b"", b""), f"add of the longest list says {said!r}")
    found = do(folder, "status")
    check(found == b"A a\nA " + name + b"\nA b\n", f"the longest list stages {found!r}")
    check((said := listed(folder, "rm", most)) == (0, b"", b""), f"rm of the longest list says {said!r}")
    check(do(folder, "status") == b"", "of the longest list something isn't taken out")


def waits_for_no_pipe_under_the_lock(folder):
    """A file to stage that is a pipe is refused, though nothing comes from it. A list that isn't at its end keeps no other command out."""
    write(folder, "a", b"1")
    do(folder, "init")
    for words in (["add", "/dev/stdin"], ["add", "a", "/dev/stdin"], ["add", "--chmod=+x", "/dev/fd/0"], ["add", "/proc/self/fd/0", "a"]):
        read, written = os.pipe()
        done = subprocess.run([PROGRAM, *words], cwd=folder, stdin=read, capture_output=True, timeout=20)
        os.close(written)
        os.close(read)
        named = next(word for word in words if "/" in word)
        said = done.returncode, done.stdout, done.stderr
        check(said == (3, b"", f"hookhost: cannot use {named}\n".encode()), f"{words!r} with a pipe that sends nothing says {said!r}")
    check(do(folder, "status") == b"", "something is staged")
    with subprocess.Popen([PROGRAM, "add", "--paths-from=-"], cwd=folder, stdin=subprocess.PIPE, stderr=subprocess.PIPE) as child:
        # More than a pipe holds, so the program has read some of it.
        child.stdin.write(b"a\0" * 200_000)
        child.stdin.flush()
        check(do(folder, "status") == b"", "something is staged before the list is at its end")
        _, said = child.communicate(timeout=60)
        check((child.returncode, said) == (0, b""), f"add of the list says {said!r}")
    check(do(folder, "status") == b"A a\n", "the list isn't staged")


CASES = [stages_as_many_files_as_there_may_be, stages_what_is_only_named_like_a_repository, tells_the_first_by_order_of_several_files,
         cuts_no_list_on_standard_input, waits_for_no_pipe_under_the_lock]
