"""What children of tests/children/children.py do to their files: it is read back, and doesn't reach the next child."""
import os
import re
import tempfile
from pathlib import Path

from children_trial import BASE, MIB, NOBODY, TREE, Trial, built, check, equal, users, wait_for


# ---- what is read back

def changes_are_read_back():
    whole = {"whole": b"x" * 65_536, "twice": b"x" * 131_072}
    trial = Trial(TREE | whole | {"big": b"x" * 70_000})
    equal(trial.sh("rm a.txt"), (0, b"", {"a.txt": None}), "a file is gone")
    equal(trial.sh("rm -r d; : > d"), (0, b"", {"d/c.txt": None, "d/e/f.txt": None}), "a file in a folder's place")
    equal(trial.sh("rm a.txt; mkdir a.txt"), "ScratchFailed", "a folder in a file's place")
    equal(trial.sh("echo more >> big; : > b.txt; echo new > new; chmod 600 d-e"), (0, b"", {"b.txt": b"", "big": b"x" * 70_000 + b"more\n"}), "changed files")
    # What was there is read to its end, so that nothing but the length tells that more follows.
    for path, data in {"d/e/f.txt": b"", **whole}.items():
        equal(trial.sh(f"printf y >> {path}"), (0, b"", {path: data + b"y"}), f"a file of {len(data)} bytes that grew")
    equal(trial.sh("printf 'y' | dd of=big bs=1 seek=69999 conv=notrunc 2>/dev/null"), (0, b"", {"big": b"x" * 69_999 + b"y"}), "the last byte")
    equal(trial.sh("head -c 16777216 /dev/zero > a.txt")[2]["a.txt"], bytes(16 * MIB), "16 MiB")
    equal(trial.sh("head -c 16777217 /dev/zero > a.txt"), "ScratchFailed", "16 MiB and a byte")
    equal(trial.sh("truncate -s 1T a.txt"), "ScratchFailed", "a file of holes")
    equal(trial.sh("rm -rf ./* .git"), (0, b"", dict.fromkeys(trial.tree)), "all that is in the folder is gone")
    trial.sees_the_tree("an emptied folder")


# A program that goes on until there is a file go in the folder that it is given, or until that folder is gone.
GOES_ON = r"""
#include <fcntl.h>
#include <stdio.h>
#include <unistd.h>

static char place[4096];

static const char *at(const char *top, const char *name) {
    snprintf(place, sizeof place, "%s/%s", top, name);
    return place;
}

int main(int count, char **words) {
    close(open(at(words[1], "started"), O_WRONLY | O_CREAT, 0666));
    while (access(at(words[1], "go"), F_OK) != 0 && access(words[1], F_OK) == 0) usleep(200);
    close(open(at(words[1], "done.1"), O_WRONLY | O_CREAT, 0666));
    return 0;
}
"""


def a_program_that_still_runs_is_read_back():
    """The system lets nobody write its file, and so it is read by a second name. A program that was killed may have left such a name."""
    data = Path(built("goes-on", GOES_ON)).read_bytes()
    for user in users():
        trial = Trial(TREE | {"d/goes-on": data}, user=user, programs={"d/goes-on"})
        top = trial.top
        starts = f"d/goes-on {top} > /dev/null 2>&1 < /dev/null & until [ -e {top}/started ]; do sleep 0.001; done"
        for text in (starts, "true", "touch $(printf '\\001')look", "chmod 400 a.txt; touch $(printf '\\001')look", "chmod 500 d/goes-on"):
            equal(trial.sh(text), (0, b"", {}), f"{text} as {user}")
            trial.sees_the_tree(text)
        changes = {"a.txt": b"one\nmore\n", "d/goes-on": None}
        equal(trial.sh("echo more >> a.txt; chmod 400 a.txt; rm d/goes-on"), (0, b"", changes), f"a change as {user}")
        Path(top, "go").touch()
        wait_for(f"{top}/done.1")
        trial.sees_the_tree("a program that has ended")
        trial.end()


def modes_hide_nothing_from_the_next():
    for user in users():
        trial = Trial(TREE, user=user)
        is_root = os.getuid() == 0 and user is None
        for text in ("chmod 000 .", "chmod -R 000 .", "chmod 000 a.txt", "chmod 000 d", "chmod 400 d", "chmod 300 d; mkdir z z/y z/y/x; : > z/y/x/f; chmod 000 z/y/x z/y z"):
            unreadable = not is_root and text != "chmod 300 d; mkdir z z/y z/y/x; : > z/y/x/f; chmod 000 z/y/x z/y z"
            equal(trial.sh(text), "ScratchFailed" if unreadable else (0, b"", {}), f"{text} as {user}")
            trial.sees_the_tree(text)
        for text in ("chmod 7777 .", "chmod 2777 d; chmod 4755 a.txt", "umask 0; mkdir o; : > o/x", "chmod 500 ."):
            equal(trial.sh(text), (0, b"", {}), f"{text} as {user}")
            trial.sees_the_tree(text)


STRAYS = [
    "touch new .hidden 'a b' -x; mkdir -p d/n/n/n d/e/f.txt.d; touch d/n/n/n/x é/z",
    "mkfifo f; ln -s f l; ln -s /etc e; ln -s none n; ln -s . d/loop",
    "rm a.txt; mkfifo a.txt",
    "rm a.txt; ln -s b.txt a.txt",
    "rm a.txt; mkdir a.txt; touch a.txt/x",
    "rm -r d; touch d",
    "rm -r d; mkfifo d",
    "rm -r d; ln -s /etc d",
    "rm b.txt; ln a.txt b.txt",
    "ln a.txt second",
    "touch $(printf '\\377') $(printf 'd/\\200\\201'); mkdir $(printf '\\376'); touch $(printf '\\376/\\375'); mkdir -p $(printf 'd/\\374/\\373')",
    "mkdir -p $(printf '\\001')0/1/0 $(printf '\\001')1; touch $(printf '\\001')2 $(printf '\\001')0/0; rm a.txt",
    "mkdir d/$(printf '\\001')0; touch d/$(printf '\\001')0/x",
    "mkdir -p d/n/$(printf '\\001')0 d/n/m/$(printf '\\001')1",
    "i=0; while [ $i -lt 300 ]; do mkdir dddddddddddddddddddddd; cd dddddddddddddddddddddd; i=$((i+1)); done; touch x",
    "mkdir -p d/$(printf 'x%.0s' $(seq 250)); touch d/$(printf 'y%.0s' $(seq 255))",
    "rm -r d a.txt b.txt; mkdir -p d/c.txt/e d/e/f.txt; chmod 000 d/c.txt d/e d",
    "rm a.txt; : > a.txt; printf 'ONE\\n' > a.txt",
    "touch -d 1970-01-01 a.txt; rm d-e; printf y > d-e",
]


def whatever_a_child_left_is_gone():
    for user in users():
        trial = Trial(TREE, user=user)
        for text in STRAYS:
            trial.sh(text)
            trial.sees_the_tree(text)
        trial.run("python3", "-c", "import socket; socket.socket(socket.AF_UNIX).bind('a socket')")
        trial.sees_the_tree("a socket")
        trial.run("python3", "-c", "import os\nfor i in range(100000): os.close(os.open(f'd/{i}', os.O_CREAT | os.O_WRONLY))")
        trial.sees_the_tree("100,000 files")
        trial.run("python3", "-c", "import os\nfor i in range(3000): os.mkdir('deep'); os.chdir('deep')")
        trial.sees_the_tree("folders 3,000 deep")
    if os.getuid() == 0:
        trial = Trial(TREE)
        for text in ("chown 65534 a.txt", "chown 65534:65534 d", "chown -R 65534 .", "chgrp 65534 a.txt", "chgrp 65534 d", "chgrp 65534 ."):
            equal(trial.sh(text), (0, b"", {}), text)
            trial.sees_the_tree(text)


def the_tree_may_change_between_two():
    trial = Trial(TREE)
    for path, data in (("a.txt", b"other\n"), ("d", None), ("d/c.txt", b""), ("n/e/w", b"1"), ("a.txt/x", b"2"), ("zz", b"3")):
        if data is None:
            for inner in [p for p in trial.tree if p.startswith("d/")]:
                trial.remove(inner)
            trial.file("d", b"a file now")
        else:
            for outer in [p for p in trial.tree if path.startswith(p + "/")]:
                trial.remove(outer)
            trial.file(path, data)
        trial.sees_the_tree(f"{path} is put")
    for path in list(trial.tree):
        trial.remove(path)
    trial.sees_the_tree("all files are removed")


# ---- links

def no_link_is_followed():
    outside = tempfile.mkdtemp(prefix="outside-", dir=BASE)
    Path(outside, "c.txt").write_text("secret\n")
    Path(outside, "scratch").mkdir()
    Path(outside, "scratch/kept").write_text("kept\n")
    before = sorted((p, p.is_file() and p.read_bytes()) for p in Path(outside).rglob("*"))

    def untouched(text):
        equal(sorted((p, p.is_file() and p.read_bytes()) for p in Path(outside).rglob("*")), before, f"what lies outside, after {text}")

    trial = Trial(TREE)
    for text in (f"rm a.txt; ln -s {outside}/c.txt a.txt", f"rm -r d; ln -s {outside} d", f"cd ..; rm -r scratch; ln -s {outside} scratch"):
        equal(trial.sh(text), "ScratchFailed", text)
        if text.startswith("cd"):
            equal(trial.sh("true"), "ScratchFailed", "the folder is a link")
            untouched(text)
            os.unlink(f"{trial.top}/h/scratch")
        trial.sees_the_tree(text)
        untouched(text)
    equal(trial.sh(f"cd ../..; mv h g; ln -s {outside} h"), "ScratchFailed", "a parent that a link replaces")
    equal(trial.sh("true"), "ScratchFailed", "the folder's parent is a link")
    untouched("a parent that is a link")


def what_holds_the_folder_may_be_no_link():
    outside = Path(tempfile.mkdtemp(prefix="outside-", dir=BASE))
    for path, data in TREE.items():
        place = outside / "scratch" / path
        place.parent.mkdir(parents=True, exist_ok=True)
        place.write_bytes(b"secret\n")
    before = sorted((p, p.is_file() and p.read_bytes()) for p in outside.rglob("*"))
    moves = (f"ln -s {outside} h", "ln -s g h", f"mkdir h; ln -s {outside}/scratch h/scratch", "ln -s ../../g/scratch h")
    for text in moves:
        trial = Trial(TREE)
        equal(trial.sh(f"cd ../..; mv h g; {text}"), "ScratchFailed", text)
        equal(trial.sh("true"), "ScratchFailed", f"the child behind {text}")
        equal(sorted((p, p.is_file() and p.read_bytes()) for p in outside.rglob("*")), before, f"what lies outside, after {text}")
        trial.end()


# A process that goes on when its child has ended. It replaces a file and a folder by a series of files, fifos and links, each in one
# step. It begins once there is a file go in the first folder, and at a file stop it ends and makes done.1.
SWAPS = r"""
#define _GNU_SOURCE
#include <errno.h>
#include <fcntl.h>
#include <stdio.h>
#include <stdlib.h>
#include <string.h>
#include <sys/stat.h>
#include <unistd.h>

int main(int count, char **words) {
    const char *top = words[1], *outside = words[2], *kinds = words[3];
    int mode = (int)strtol(words[4], NULL, 8);
    char spare[4096], stop[4096], done[4096], link[4096];
    if (fork() != 0) return 0;
    setsid();
    for (int number = 0; number < 3; number++) close(number);
    open("/dev/null", O_RDWR);
    umask(0);
    sprintf(spare, "%s/go", top);
    while (access(spare, F_OK) != 0) {
        if (access(top, F_OK) != 0) return 0;
        usleep(200);
    }
    sprintf(spare, "%s/spare", top);
    sprintf(stop, "%s/stop", top);
    for (int turn = 0; turn % 16 != 0 || (access(stop, F_OK) != 0 && access(top, F_OK) == 0); turn++) {
        char kind = kinds[turn % strlen(kinds)];
        /* Where the program has replaced a folder meanwhile, the old one is here. */
        if (unlink(spare) != 0 && errno == EISDIR) {
            sprintf(done, "%s/old.%d", top, turn);
            rename(spare, done);
        }
        if (kind == 'f') mkfifo(spare, mode);
        if (kind == 'l') { sprintf(link, "%s/c.txt", outside); symlink(link, spare); }
        if (kind == 'r') {
            int file = open(spare, O_WRONLY | O_CREAT | O_EXCL, 0666);
            write(file, "new\n", 4);
            fchmod(file, mode);
            close(file);
        }
        if (kind == 'd') {
            symlink(outside, spare);
            renameat2(AT_FDCWD, spare, AT_FDCWD, "d", RENAME_EXCHANGE);
            renameat2(AT_FDCWD, spare, AT_FDCWD, "d", RENAME_EXCHANGE);
        } else {
            rename(spare, "a.txt");
        }
    }
    sprintf(done, "%s/done.1", top);
    close(open(done, O_WRONLY | O_CREAT, 0666));
    return 0;
}
"""


def what_a_process_left_behind_swaps_is_not_waited_for_or_followed():
    swaps = built("swaps", SWAPS)
    for user in users():
        for kinds, mode in (("rfrld", "644"), *([("rf", "444")] if user == NOBODY else [])):
            outside = Path(tempfile.mkdtemp(prefix="outside-", dir=BASE))
            outside.chmod(0o777)
            for path in ("c.txt", "e/f.txt", "kept/kept"):
                (outside / path).parent.mkdir(exist_ok=True)
                (outside / path).write_bytes(b"secret\n")
                (outside / path).chmod(0o666)
                (outside / path).parent.chmod(0o777)
            trial = Trial(TREE, user=user)
            trial.file("d/c.txt", b"three\n")
            text = f"while {kinds!r} of mode {mode} are swapped as {user}"
            equal(trial.run(swaps, trial.top, str(outside), kinds, mode), (0, b"", {}), text)
            Path(trial.top, "go").touch()
            for _ in range(60):
                outcome = trial.outcome("true", within=60)
                check(b"secret" not in repr(outcome).encode(), f"{text} a child tells {outcome!r}")
                check(outcome == "ScratchFailed" or outcome[:2] == (0, b""), f"{text} a child tells {outcome!r}")
            Path(trial.top, "stop").touch()
            wait_for(Path(trial.top, "done.1"))
            trial.sees_the_tree(text)
            trial.end()
            left = sorted(str(p.relative_to(outside)) for p in outside.rglob("*"))
            equal(left, ["c.txt", "e", "e/f.txt", "kept", "kept/kept"], f"what lies outside {text}")


def no_file_is_written_in_place():
    trial = Trial(TREE)
    outside = Path(trial.top, "outside")
    outside.write_bytes(b"one\n")
    trial.sh("rm a.txt; ln ../../outside a.txt; chmod 644 a.txt")
    trial.sees_the_tree("a second name outside, with equal bytes")
    check(outside.stat().st_nlink == 1, "the outside file keeps a name inside")
    trial.sh("rm a.txt; ln ../../outside a.txt")
    trial.file("a.txt", b"changed\n")
    trial.sees_the_tree("a second name outside, with other bytes")
    equal(outside.read_bytes(), b"one\n", "the outside file")
    trial.file("a.txt", b"same\n")
    trial.file("b.txt", b"same\n")
    trial.sh("rm b.txt; ln a.txt b.txt")
    equal(trial.sh("echo x >> a.txt"), (0, b"", {"a.txt": b"same\nx\n"}), "two files that the child before had linked")


def folders_whose_names_begin_alike_are_told_apart():
    paths = ["q-/f", "q.f", "q/0/f", "q/00/f", "q/f", "q0/f", "q00/f", "q00/q/f", "q00/q0/f", "q00/qq"]
    for chosen in (paths, [path for path in paths if not path.startswith("q/0")]):
        tree = {path: f"{path}\n".encode() for path in chosen}
        trial = Trial(tree)
        for _ in range(2):
            equal(trial.run("cat", *tree), (0, b"".join(tree.values()), {}), "what files contain")
        for path in tree:
            equal(trial.run("sh", "-c", f"echo more >> {path}"), (0, b"", {path: tree[path] + b"more\n"}), f"{path} is changed")
            trial.file(path, f"other {path}\n".encode())
            equal(trial.run("cat", *tree), (0, b"".join(trial.tree[it] for it in tree), {}), f"what files contain after {path} is")
        trial.sees_the_tree("all of them")
        trial.end()


# ---- long paths and names

def path_of(length, first="p"):
    """A path of so many bytes, of folders with long names."""
    path = first
    while len(path) < length:
        path += "/" + "n" * min(200, length - len(path) - 1) if length - len(path) > 1 else "m"
    return path


# What a child does with the file of a path of any length: it goes to the file's folder step by step.
AT_PATH = "import os, sys\n*folders, name = sys.argv[2].split('/')\nfor f in folders: os.chdir(f)\n"


def at_path(text, path):
    return ["python3", "-c", AT_PATH + text, "-", path]


def paths_of_every_length_are_laid():
    for user in users():
        # The system takes at once those up to 4,085 bytes, below h/scratch.
        for length in (4_085, 4_086, 4_096) if user is None else (4_096,):
            path, text = path_of(length), f"a path of {length} bytes as {user}"
            equal(len(path), length, "the length of a path")
            trial = Trial(TREE | {path: b"long\n", path[:-1] + "b": b"beside\n"}, user=user)
            told = trial.run(*at_path("print(open(name).read())", path))
            equal(told, (0, b"long\n\n", {}), text)
            equal(trial.run(*at_path("open(name, 'a').write('x')", path)), (0, b"", {path: b"long\nx"}), f"{text} is changed")
            equal(trial.run(*at_path("os.unlink(name)", path)), (0, b"", {path: None}), f"{text} is removed")
            equal(trial.run(*at_path("os.unlink(name); os.mkdir(name)", path)), "ScratchFailed", f"{text} becomes a folder")
            equal(trial.run(*at_path("os.unlink(name); os.symlink('/etc/passwd', name)", path)), "ScratchFailed", f"{text} becomes a link")
            equal(trial.run(*at_path("open('stray', 'w'); os.mkdir('o' * 255); open('o' * 255 + '/x', 'w'); os.chmod('.', 0o700)", path)), (0, b"", {}), f"strays beside {text}")
            trial.sees_the_tree(f"strays beside {text}")
            deep = "import shutil\nos.chdir('..'); shutil.rmtree(folders[-1]); open(folders[-1], 'w')"
            equal(trial.run(*at_path(deep, path)), (0, b"", {path: None, path[:-1] + "b": None}), f"a file in the place of the folder of {text}")
            trial.sees_the_tree(text)
            trial.file(path, b"other\n")
            equal(trial.run(*at_path("print(open(name).read())", path)), (0, b"other\n\n", {}), f"{text} that the tree has changed")
            trial.end()


def a_name_that_is_too_long_is_told():
    for path in ("n" * 255, "d/" + "n" * 255, "é" * 127):
        trial = Trial(TREE | {path: b"x\n"})
        equal(trial.run("cat", path), (0, b"x\n", {}), "a name of 255 bytes")
        equal(trial.ask("trouble"), "", "no trouble")
        trial.end()
    for path in ("n" * 256, "d/" + "n" * 256, "d/" + "n" * 256 + "/f", "é" * 128, path_of(3_999) + "/" + "n" * 96, "n" * 4_096):
        trial = Trial(TREE)
        equal(trial.sh("true"), (0, b"", {}), "a child without the file")
        trial.file(path, b"x\n")
        is_right = all(len(name.encode()) < 256 for name in path.split("/"))
        equal(trial.sh("true"), (0, b"", {}) if is_right else "ScratchFailed", f"a path of {len(path)} bytes")
        folder = re.match(".*?/?[^/]{128,}", path)[0]
        equal(trial.ask("trouble"), "" if is_right else f"h/scratch/{folder}: File name too long (os error 36)", "what is told of a name that is too long")
        trial.remove(path)
        equal(trial.sh("true"), (0, b"", {}), "a child without the file again")
        trial.sees_the_tree("a name that is too long")
        trial.end()
