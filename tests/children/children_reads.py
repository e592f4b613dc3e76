"""Which files are read for children of tests/children/children.py: those that no child can have changed aren't."""
import os
import random
import shutil
import subprocess
import tempfile
import time
from pathlib import Path

from children_trial import BASE, FILLED, KNOWN, MIB, TELLING, TREE, Trial, are_fine, built, check, equal, kind_of, known_trial, takes, users, wait_for


# ---- what is read

# A process that writes through memory, which the system calls a shared mapping of the file. It reads there first. With `end` it writes
# one letter and ends. With `stay` another process has the file mapped, and goes on when this one ends. It has written the first letter.
# It writes each further one once there is a file go.N next to the folder, and then makes done.N.
MAPS = r"""
#include <fcntl.h>
#include <stdio.h>
#include <string.h>
#include <sys/mman.h>
#include <sys/stat.h>
#include <unistd.h>

static char place[4096];

static const char *at(const char *top, const char *name, int number) {
    sprintf(place, "%s/%s.%d", top, name, number);
    return place;
}

/* It ends too once the folder is gone, so that none outlives its test. */
static void wait_for(const char *top, const char *name, int number) {
    while (access(at(top, name, number), F_OK) != 0) {
        if (access(top, F_OK) != 0) _exit(0);
        usleep(200);
    }
}

int main(int count, char **words) {
    const char *how = words[1], *letters = words[3], *top = words[4];
    struct stat found;
    int file = open(words[2], O_RDWR);
    if (file < 0 || fstat(file, &found) != 0) return 9;
    char *bytes = mmap(NULL, found.st_size, PROT_READ | PROT_WRITE, MAP_SHARED, file, 0);
    if (bytes == MAP_FAILED) return 9;
    close(file);
    volatile char *first = bytes;
    char seen = *first;
    (void)seen;
    if (strcmp(how, "end") == 0) {
        *first = letters[0];
        return 0;
    }
    if (fork() != 0) {
        wait_for(top, "done", 0);
        return 0;
    }
    setsid();
    for (int number = 0; number < 3; number++) close(number);
    for (int number = 0; letters[number] != 0; number++) {
        if (number > 0) wait_for(top, "go", number);
        *first = letters[number];
        close(open(at(top, "done", number), O_WRONLY | O_CREAT, 0644));
    }
    wait_for(top, "go", 99);
    return 0;
}
"""

# A process that writes a file twice at once, and leaves another that writes it a third time after so many microseconds.
RACES = r"""
#include <fcntl.h>
#include <stdlib.h>
#include <time.h>
#include <unistd.h>

static long long now(void) {
    struct timespec at;
    clock_gettime(CLOCK_MONOTONIC, &at);
    return at.tv_sec * 1000000000LL + at.tv_nsec;
}

int main(int count, char **words) {
    int file = open(words[1], O_WRONLY);
    long long until = now() + atoll(words[3]) * 1000;
    close(open(words[4], O_WRONLY | O_CREAT, 0644));
    pwrite(file, &words[2][0], 1, 0);
    pwrite(file, &words[2][1], 1, 0);
    if (fork() != 0) return 0;
    for (int number = 0; number < 3; number++) close(number);
    while (now() < until) {}
    pwrite(file, &words[2][2], 1, 0);
    unlink(words[4]);
    return 0;
}
"""


TWO, LETTER, ZEROS = b"two\n", b"tne\n", b"\0\0\0\0"

# What a child does to a.txt, by which its bytes get others of the same length, and what it leaves there.
QUIET_WRITES = {
    "the same length": (["sh", "-c", "printf 'two\n' > a.txt"], TWO),
    "in place": (["sh", "-c", "printf tw | dd of=a.txt conv=notrunc 2> /dev/null; printf 'two\n' 1<> a.txt"], TWO),
    "its time set back": (["python3", "-c", "import os\ns = os.stat('a.txt')\nopen('a.txt', 'w').write('two\\n')\nos.utime('a.txt', ns=(s.st_atime_ns, s.st_mtime_ns))"], TWO),
    "its times set to the first second of all": (["sh", "-c", "printf 'two\n' 1<> a.txt; touch -d @0 a.txt"], TWO),
    "renamed over, its time set back": (["python3", "-c", "import os\ns = os.stat('a.txt')\nopen('new', 'w').write('two\\n')\nos.utime('new', ns=(s.st_atime_ns, s.st_mtime_ns))\nos.rename('new', 'a.txt')"], TWO),
    "removed and made": (["sh", "-c", "rm a.txt; printf 'two\n' > a.txt"], TWO),
    "copied with its times": (["sh", "-c", "printf 'two\n' > new; touch -r a.txt new; cp -p new a.txt; rm new"], TWO),
    "by another name": (["python3", "-c", "import os\ns = os.stat('a.txt')\nos.link('a.txt', '../../other')\nopen('../../other', 'w').write('two\\n')\nos.unlink('../../other')\nos.utime('a.txt', ns=(s.st_atime_ns, s.st_mtime_ns))"], TWO),
    "through memory": (["MAPS", "end", "a.txt", "t"], LETTER),
    "through memory, its time set back": (["sh", "-c", "touch -r a.txt ../../time; MAPS end a.txt t; touch -r ../../time a.txt"], LETTER),
    "a folder of the same names": (["sh", "-c", "mkdir -p ../../e; printf 'two\n' > ../../e/a.txt; mv ../../e/a.txt ."], TWO),
    "cut and grown again": (["sh", "-c", "truncate -s 0 a.txt; truncate -s 4 a.txt"], ZEROS),
    "a hole punched": (["sh", "-c", "touch -r a.txt ../../time; fallocate --punch-hole --offset 0 --length 4096 a.txt; touch -r ../../time a.txt"], ZEROS),
    "written behind a hole": (["python3", "-c", "file = open('a.txt', 'wb')\nfile.seek(3)\nfile.write(b'!')"], b"\0\0\0!"),
}


def a_quiet_write_is_read_back():
    maps = built("maps", MAPS)
    for user in users():
        for name, (words, wanted) in QUIET_WRITES.items():
            trial = known_trial(user=user)
            words = [word.replace("MAPS", maps) for word in words]
            equal(trial.run(*words), (0, b"", {"a.txt": wanted}), f"{name} as {user}")
            trial.sees_the_tree(name)
            equal(trial.run(*words), (0, b"", {"a.txt": wanted}), f"{name}, again, as {user}")
            trial.file("a.txt", wanted)
            equal(trial.sh("cat a.txt"), (0, wanted, {}), f"the child after {name} that keeps the change")
            trial.sees_the_tree(f"{name}, kept")
            trial.end()


def a_file_is_known_by_more_than_its_bytes():
    for user in users():
        trial = known_trial(user=user)
        equal(trial.sh("chmod 600 a.txt"), (0, b"", {}), "a mode alone")
        trial.sees_the_tree("a mode alone")
        equal(trial.sh("ln a.txt ../../second"), (0, b"", {}), "a second name outside")
        trial.sees_the_tree("a second name outside")
        equal(trial.sh("printf 'two\n' > ../../second; cat a.txt"), (0, b"one\n", {}), "a write by the second name of before")
        for text in ("rm a.txt; mkdir a.txt", "rm a.txt; ln -s b.txt a.txt", "rm a.txt; mkfifo a.txt", "rm -r d; ln -s e d"):
            equal(trial.sh(text), "ScratchFailed", text)
            trial.sees_the_tree(text)
        equal(trial.sh("mkdir n; mv d n/; mv n/d d; mv b.txt n/; mv n/b.txt ."), (0, b"", {}), "moved away and back")
        equal(trial.sh("mv a.txt n; mv b.txt a.txt; mv n b.txt"), (0, b"", {"a.txt": b"two\n", "b.txt": b"one\n"}), "two files changed for one another")
        trial.sees_the_tree("two files changed for one another")
        equal(trial.sh("mkdir n; cp -r z n/; cp -rp z n/y; mv z n/x; mv n/z z; echo y > z/1"), (0, b"", {"z/1": b"y\n"}), "a copied folder in a folder's place")
        trial.sees_the_tree("a copied folder")
        trial.end()


def folders_that_change_places_are_seen():
    trial = Trial({f"{folder}/f": folder.encode() * 4 for folder in "pq"} | FILLED)
    trial.run("true")
    trial.run("true")
    equal(trial.sh("mv p n; mv q p; mv n q"), (0, b"", {"p/f": b"qqqq", "q/f": b"pppp"}), "two folders changed for one another")
    trial.sees_the_tree("two folders changed for one another")
    equal(trial.sh("mv p n; mv q p; mv n q"), (0, b"", {"p/f": b"qqqq", "q/f": b"pppp"}), "and again")
    takes(trial, (0, b"", {"p/f": b"qqqq", "q/f": b"pppp"}))
    trial.sees_the_tree("two folders changed for one another, kept")


def a_tree_that_changes_is_known_by_its_bytes():
    trial = known_trial()
    for data in (b"two\n", b"one\n", b"one", b""):
        trial.file("a.txt", data)
        equal(trial.sh("cat a.txt"), (0, data, {}), f"a tree that has {data!r}")
        trial.sees_the_tree(f"a tree that has {data!r}")
    trial.remove("a.txt")
    trial.sees_the_tree("a tree without it")
    trial.file("a.txt", b"one\n")
    trial.sees_the_tree("a tree with it")


def a_process_left_behind_with_a_mapping_is_seen():
    maps = built("maps", MAPS)
    for letters in ("abcd", "oxyo"):
        trial = known_trial()
        top = trial.top
        left = trial.run(maps, "stay", "a.txt", letters, top)
        first = letters[0].encode() + b"ne\n"
        equal(left, (0, b"", {} if first == b"one\n" else {"a.txt": first}), "a file that stays mapped")
        takes(trial, left)
        time.sleep(0.02)
        equal(trial.sh("cat a.txt"), (0, first, {}), "the child after it")
        # During a child, without a look of the system at the file in between.
        second = letters[1].encode() + b"ne\n"
        changed = trial.sh(f"touch {top}/go.1; until [ -e {top}/done.1 ]; do sleep 0.001; done")
        equal(changed, (0, b"", {"a.txt": second}), "a write through the mapping during a later child")
        takes(trial, changed)
        equal(trial.sh("cat a.txt"), (0, second, {}), "the child after that")
        # Between two children.
        for number in range(2, len(letters)):
            Path(top, f"go.{number}").touch()
            wait_for(f"{top}/done.{number}")
            trial.sees_the_tree("a write through the mapping between two children")
        Path(top, "go.99").touch()
        trial.end()


def a_mapping_that_an_ended_program_left_is_seen():
    maps = built("maps", MAPS)
    trial = known_trial()
    top = trial.top
    left = trial.run(maps, "stay", "a.txt", "oxy", top)
    equal(left, (0, b"", {}), "a file that stays mapped")
    trial.end()
    time.sleep(0.02)
    trial = Trial(FILLED, keep=top)
    changed = trial.sh(f"touch {top}/go.1; until [ -e {top}/done.1 ]; do sleep 0.001; done")
    equal(changed, (0, b"", {"a.txt": b"xne\n"}), "a write through the mapping during a child of the next program")
    takes(trial, changed)
    equal(trial.sh("cat a.txt"), (0, b"xne\n", {}), "the child after that")
    Path(top, "go.2").touch()
    wait_for(f"{top}/done.2")
    trial.sees_the_tree("a write through the mapping between two children")
    Path(top, "go.99").touch()
    trial.end()


def a_process_left_behind_that_writes_is_seen():
    trial = known_trial()
    top = trial.top
    late = f"exec > /dev/null 2>&1 < /dev/null; for n in 1 2 3; do until [ -e {top}/go.$n ]; do sleep 0.001; done; printf \"$n\" | dd of=$PWD/a.txt conv=notrunc; touch {top}/done.$n; done"
    equal(trial.sh(f"({late}) & :"), (0, b"", {}), "a process left behind")
    changed = trial.sh(f"touch {top}/go.1; until [ -e {top}/done.1 ]; do sleep 0.001; done")
    equal(changed, (0, b"", {"a.txt": b"1ne\n"}), "a late write during a child")
    for number in (2, 3):
        Path(top, f"go.{number}").touch()
        wait_for(f"{top}/done.{number}")
        trial.sees_the_tree("a late write between two children")


def tries(most):
    """How often a race is played: less if all is read, so that nothing depends on a moment."""
    return most if TELLING and Trial.reads == {} else most // 20


def a_rewrite_right_behind_a_look_is_seen():
    for turn in range(tries(7_000)):
        if turn % KNOWN == 0:
            trial = known_trial()
        path = f"z/{turn % KNOWN}"
        place = Path(trial.top, "h/scratch", path)
        times = place.stat()
        # Between two children, as soon as the first is reported, with its old time of writing.
        with open(place, "r+b") as file:
            file.write(b"y")
        os.utime(place, ns=(times.st_atime_ns, times.st_mtime_ns))
        equal(trial.run("head", "-c", "1", path), (0, b"z", {}), f"the child behind rewrite {turn}")
        # By a child, over what the look before it saw.
        if turn % 4 == 0:
            equal(trial.sh(f"printf y 1<> {path}"), (0, b"", {path: b"y" + b"z" * 399}), f"rewrite {turn} by a child")
        if turn % KNOWN == KNOWN - 1:
            trial.end()


def latest(told, turn):
    """The most microseconds after which the third write comes: more and more while each came before the look, as on a busy machine."""
    return 3_000 << (0 if False in told else min(turn // 15, 6))


def race(trial, path, told, most):
    """A child that writes a file twice at once, and leaves a process that writes it once more within so many microseconds. The next child
    sees what was reported of it. Notes whether the last write was."""
    busy = f"{trial.top}/busy"
    letters = "".join(random.sample("abcdefgh", 3))
    outcome = trial.outcome(built("races", RACES), path, letters, str(random.randrange(most)), busy)
    check(outcome[0] == 0, f"a race is told as {outcome!r}")
    takes(trial, outcome)
    told[outcome[2].get(path, b"-")[:1] == letters[2].encode()] = True
    while os.path.exists(busy):
        pass
    equal(trial.outcome("cat", path), (0, trial.tree[path], {}), f"the child behind the race of {letters}")


def a_rewrite_around_a_look_is_seen():
    random.seed(1)
    told = {}
    for turn in range(tries(2_000)):
        if turn % KNOWN == 0:
            trial = known_trial()
        race(trial, f"z/{turn % KNOWN}", told, latest(told, turn))
        if turn % KNOWN == KNOWN - 1:
            trial.end()
    check(len(told) == 2, f"the third write always comes on one side of the look: {told}")


def a_rewrite_in_the_tick_in_which_files_were_laid_is_seen():
    random.seed(2)
    told = {}
    for turn in range(tries(1_000)):
        trial = Trial(TREE)
        race(trial, "a.txt", told, latest(told, turn))
        trial.end()
        shutil.rmtree(trial.top)
    check(len(told) == 2, f"the third write always comes on one side of the look: {told}")


def what_no_child_can_have_changed_is_not_read():
    tree = {f"n{i % 7}/f{i}": b"x" * 10_000 for i in range(300)}
    trial = Trial(tree)
    all_bytes = 10_000 * len(tree)
    check(trial.reads_of("true") >= all_bytes, "a first child reads back what it was given")
    for words in (["true"], ["touch", "n1/new"], ["sh", "-c", "echo y >> n1/f1"], ["sh", "-c", "rm -r n2; echo > n3/f3"], ["true"]):
        read = trial.reads_of(*words)
        if TELLING and Trial.reads == {}:
            check(read < all_bytes / 3, f"{read} bytes are read of {words!r}")
        else:
            check(read >= all_bytes, f"only {read} bytes are read of {words!r}")
    trial.sees_the_tree("what is known")
    trial.end()
    # What another program wrote just before may still be in use by it.
    trial = Trial(tree, keep=trial.top)
    for _ in range(2):
        check(trial.reads_of("true") >= 2 * all_bytes, "files that were changed just before the program are read at each look")


def whole_seconds_tell_nothing():
    """Files are played on a file system whose times are whole seconds, if one can be made."""
    if os.getuid() != 0:
        print("children: only root can mount a file system, so no whole seconds were played")
        return
    image = Path(BASE, "image")
    with open(image, "wb") as file:
        file.truncate(16 * MIB)
    # An inode of 128 bytes has no room for parts of a second.
    subprocess.run(["mkfs.ext4", "-q", "-F", "-I", "128", image], check=True, capture_output=True)
    place = tempfile.mkdtemp(prefix="children-", dir=BASE)
    if subprocess.run(["mount", "-o", "loop", image, place], capture_output=True).returncode != 0:
        print("children: nothing can be mounted, so no whole seconds were played")
        return
    try:
        equal((kind_of(place), are_fine(place)), ("ext4", False), "what was mounted")
        trial = Trial({f"n{i % 7}/f{i}": b"x" * 10_000 for i in range(50)}, keep=place)
        for words in (["true"], ["true"], ["sh", "-c", "printf y 1<> n1/f1"], ["true"]):
            read = trial.reads_of(*words)
            check(read >= 500_000, f"only {read} bytes are read of {words!r}")
        trial.sees_the_tree("whole seconds")
        trial.end()
    finally:
        subprocess.run(["umount", place], check=True)


def hundredths(name):
    return int(Path(f"/proc/sys/vm/{name}_centisecs").read_text())


def files_that_have_settled_are_read_once():
    maps = built("maps", MAPS)
    tree = {f"n{i % 7}/f{i}": b"x" * 10_000 for i in range(300)} | TREE
    all_bytes = 10_000 * 300
    trial = Trial(tree)
    top = trial.top
    equal(trial.run(maps, "stay", "a.txt", "oxy", top), (0, b"", {}), "a file that stays mapped")
    trial.end()
    seconds = (hundredths("dirty_expire") + hundredths("dirty_writeback")) * 4 // 100 + 5
    time.sleep(seconds if Trial.reads == {} else 0.1)
    trial = Trial(tree, keep=top)
    read = trial.reads_of("true")
    if TELLING and Trial.reads == {}:
        check(all_bytes <= read < all_bytes * 4 / 3, f"{read} bytes are read of a first child")
    else:
        check(read >= 2 * all_bytes, f"{read} bytes are read of a first child")
    read = trial.reads_of("true")
    check(read < all_bytes / 10 if TELLING and Trial.reads == {} else read >= 2 * all_bytes, f"{read} bytes are read of a second child")
    changed = trial.sh(f"touch {top}/go.1; until [ -e {top}/done.1 ]; do sleep 0.001; done")
    equal(changed, (0, b"", {"a.txt": b"xne\n"}), "a write through a mapping of an ended program")
    Path(top, "go.2").touch()
    wait_for(f"{top}/done.2")
    trial.sees_the_tree("a write through the mapping between two children")
    equal(trial.sh("printf 'two\n' 1<> b.txt; rm n1/f1; printf y 1<> n2/f2"), (0, b"", {"n1/f1": None, "n2/f2": b"y" + b"x" * 9_999}), "changes of settled files")
    trial.sees_the_tree("changes of settled files")
    Path(top, "go.99").touch()
    trial.end()
