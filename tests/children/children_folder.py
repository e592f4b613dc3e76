"""The scratch folder of the children of tests/children/children.py: its folder `.git`, its programs, its loss, and its end."""
import os
import shutil
import subprocess
import tempfile
from pathlib import Path


from children_trial import BASE, FILLED, TREE, Trial, beside, built, check, configuration, equal, known_trial, of_hook, runs_are, users, wait_for


# ---- the folder .git

# What a child leaves of the folder.
LEFT_OF_GIT = [
    "rmdir .git",
    "rmdir .git; mkfifo .git",
    "rmdir .git; : > .git",
    "rmdir .git; ln -s /etc .git",
    "rmdir .git; ln -s none .git",
    "rmdir .git; ln -s . .git",
    "touch .git/x .git/.y $(printf '.git/\\377'); mkfifo .git/f; ln -s /etc .git/l",
    "mkdir -p .git/a/b/c; touch .git/a/b/c/d; chmod 000 .git/a/b .git/a .git",
    "chmod 000 .git",
    "chmod 7777 .git",
    "mv .git d/g",
    "mv .git ../../git",
    "mkdir n; mv d/.git n; cp -r d .git/d; mv .git n; mv n .git",
    "mkdir -p .git/.git/.git; touch .git/.git/.git/HEAD d/.git",
    "git init --quiet . && git add a.txt && git config user.name x",
    "git init --quiet --bare .git",
]


def a_folder_for_git_stands_beside_every_tree():
    for user in users():
        for tree in ({}, TREE, {".gitignore": b"x\n", ".git-blame": b"y\n", ".g": b""}):
            trial = Trial(tree, user=user)
            wanted = "".join(f"{name}\n" for name in sorted({path.split("/")[0] for path in tree} | {".git"}, key=str.encode))
            equal(trial.sh("LC_ALL=C ls -A"), (0, wanted.encode(), {}), "what stands in the folder")
            equal(trial.sh("ls -A .git; stat -c %F .git"), (0, b"directory\n", {}), "the folder .git")
            equal(trial.sh("[ $(stat -c %a:%u .git) = $(stat -c %a:%u .) ]"), (0, b"", {}), "its mode and its owner")
            trial.end()


def whatever_a_child_left_of_it_is_gone():
    for user in users():
        trial = Trial(TREE, user=user, env=os.environ | {"HOME": "/nonexistent", "GIT_CONFIG_GLOBAL": "/dev/null"})
        for text in LEFT_OF_GIT:
            told = trial.sh(text + " 2> /dev/null")
            check(told != "ScratchFailed" and told[2] == {}, f"{text} as {user} is told as {told!r}")
            trial.sees_the_tree(text)
            equal(trial.sh("ls -A .git"), (0, b"", {}), f"the folder .git behind {text} as {user}")
        trial.end()


def what_is_left_between_two_children_is_gone_too():
    trial = Trial(TREE)
    trial.sh("true")
    place = Path(trial.top, "h/scratch/.git")
    for make in (lambda: place.joinpath("HEAD").touch(), lambda: (place.rmdir(), os.mkfifo(place)), lambda: (place.rmdir(), place.symlink_to("/etc")), place.rmdir):
        make()
        equal(trial.outcome("sh", "-c", "ls -A .git; stat -c %F .git", within=60), (0, b"directory\n", {}), "the folder .git")
    trial.end()


MESSAGE = ".git/COMMIT_EDITMSG"


def a_message_is_in_it():
    for user in users():
        trial = Trial(TREE | {MESSAGE: b"A plan\n"}, user=user)
        equal(trial.sh(f"cat {MESSAGE}; ls -A .git"), (0, b"A plan\nCOMMIT_EDITMSG\n", {}), "the message")
        equal(trial.sh(f"echo More >> {MESSAGE}; touch .git/x"), (0, b"", {MESSAGE: b"A plan\nMore\n"}), "a message that a child changed")
        trial.sees_the_tree("a message that a child changed")
        for text in ("rm -r .git", "rm -r .git; mkfifo .git", "rm -r .git; touch .git"):
            equal(trial.sh(text), (0, b"", {MESSAGE: None}), text)
            trial.sees_the_tree(text)
        equal(trial.sh("rm -r .git; ln -s /etc .git"), "ScratchFailed", "a link in the place of the message's folder")
        trial.sees_the_tree("a link in the place of the message's folder")
        trial.remove(MESSAGE)
        equal(trial.sh("ls -A .git"), (0, b"", {}), "the folder without the message")
        trial.file(MESSAGE, b"Another\n")
        trial.sees_the_tree("another message")
        trial.end()


# ---- programs

SAYS = b"#!/bin/sh\necho said $0 $*\n"


def programs_of_the_tree_are_run():
    for user in users():
        trial = Trial(TREE | {"d/say.sh": SAYS, "say.sh": SAYS}, user=user, programs={"d/say.sh", "say.sh"})
        equal(trial.run("./say.sh", "a b"), (0, b"said ./say.sh a b\n", {}), "a program by its path")
        equal(trial.run("d/say.sh"), (0, b"said d/say.sh\n", {}), "a program in a folder")
        for shell in ("sh", "bash"):
            equal(trial.run(shell, "-c", "./say.sh x && cd d && ./say.sh y"), (0, b"said ./say.sh x\nsaid ./say.sh y\n", {}), f"programs by {shell}")
        equal(trial.sh("find . -type f -perm -u=x | LC_ALL=C sort"), (0, b"./d/say.sh\n./say.sh\n", {}), "which files are programs")
        trial.file("say.sh", SAYS)
        equal(trial.run("./say.sh"), "NotStarted", "a program that the tree makes a file")
        trial.program("say.sh", SAYS)
        equal(trial.run("./say.sh"), (0, b"said ./say.sh\n", {}), "a file that the tree makes a program")
        trial.end()


def a_mode_alone_is_no_change_and_is_taken_back():
    for user in users():
        trial = Trial(FILLED | {"say.sh": SAYS}, user=user, programs={"say.sh"})
        for text in ("true", "true", "chmod -x say.sh", "chmod +x a.txt", "chmod 711 say.sh a.txt", "chmod +x *.txt d/* d/e/*", "chmod 600 say.sh", "chmod u+s,+x say.sh b.txt", "cp say.sh n; mv n say.sh; chmod -x say.sh"):
            equal(trial.sh(text), (0, b"", {}), f"{text} as {user}")
            trial.sees_the_tree(text)
        equal(trial.sh("chmod +x a.txt; echo more >> a.txt; chmod -x say.sh; echo more >> say.sh"), (0, b"", {"a.txt": b"one\nmore\n", "say.sh": SAYS + b"more\n"}), "bytes beside modes")
        trial.sees_the_tree("bytes beside modes")
        # All modes change for one another, with the bytes that are known.
        for turn in range(4):
            for path, data in list(trial.tree.items())[:60]:
                (trial.file if path in trial.programs else trial.program)(path, data)
            trial.sees_the_tree(f"modes that the tree changes, turn {turn}")
            equal(trial.sh("true"), (0, b"", {}), "a child behind that")
        trial.end()


def a_later_program_finds_its_own_modes():
    trial = Trial(TREE)
    for programs in ({"a.txt"}, {"b.txt", "d/c.txt"}, set(), set(TREE)):
        equal(trial.sh("true"), (0, b"", {}), "a child")
        trial.end()
        trial = Trial(TREE, keep=trial.top, programs=programs)
        trial.sees_the_tree(f"a program whose tree has the programs {programs}")
    trial.end()


def programs_have_the_modes_of_what_is_new():
    for mask, wanted in ((0o022, b"755\n644\n"), (0o077, b"700\n600\n"), (0o027, b"750\n640\n"), (0o000, b"777\n666\n")):
        trial = Trial({"a": b"x", "b": b"x"}, programs={"a"}, preexec_fn=lambda: os.umask(mask))
        for _ in range(3):
            equal(trial.sh("stat -c %a a b"), (0, wanted, {}), f"modes under {oct(mask)}")
        trial.end()


# ---- a folder that is lost

# What a child does by which its folder isn't at its place any more.
LOSSES = [
    'rm -rf "$PWD"',
    "rm -rf ../scratch",
    "cd / && rm -rf \"$OLDPWD\"",
    "cd / && rm -rf \"$OLDPWD\" && mkdir \"$OLDPWD\"",
    "cp -r . ../copy; cd / && rm -rf \"$OLDPWD\" && mv \"$OLDPWD/../copy\" \"$OLDPWD\"",
    "mv ../scratch ../x.$$",
    "mv ../scratch ../x.$$; mkdir ../scratch",
    "mv ../scratch ../x.$$; cp -r ../x.$$ ../scratch",
    "mv ../scratch ../x.$$; : > ../scratch",
    "mv ../scratch ../x.$$; mkfifo ../scratch",
    "mkdir ../y.$$; mv ../scratch ../y.$$/; mkdir ../scratch; mv ../y.$$/scratch/* ../scratch",
    "rm -rf ../../h",
    "cd / && rm -rf \"${OLDPWD%/*}\"; mkdir -p \"$OLDPWD\"",
    "cd ../..; mv h g.$$",
    "cd ../..; mv h g.$$; cp -r g.$$ h",
    "cd ../..; mv h g.$$; mkdir -p h/scratch; cp g.$$/scratch/a.txt h/scratch/b.txt",
    "echo changed > a.txt; rm b.txt; mv ../scratch ../x.$$",
]
LOST = "h/scratch: the folder is gone, or another one stands in its place"


def a_folder_that_is_lost_is_a_fault():
    for user in users():
        for text in LOSSES:
            for trial in (Trial(TREE, user=user), *([known_trial()] if user is None else [])):
                equal(trial.sh(text), "ScratchFailed", f"{text} as {user}")
                equal(trial.ask("trouble"), LOST, f"what is told of {text}")
                trial.sees_the_tree(text)
                check({"scratch", "scratch.run"} <= set(beside(trial)), f"beside the folder behind {text} are {beside(trial)}")
                trial.end()


def a_link_in_its_place_is_a_fault():
    for text in ("mv ../scratch ../x; ln -s x ../scratch", "cd ..; rm -rf scratch; ln -s none scratch", "cd ../..; mv h g; ln -s g h", "mv ../scratch ../x; cd ..; ln -s x scratch; echo y > x/a.txt"):
        trial = Trial(TREE)
        equal(trial.sh(text), "ScratchFailed", text)
        equal(trial.ask("trouble"), "h/scratch: a link stands there", f"what is told of {text}")
        trial.end()


def a_folder_that_comes_back_is_not_lost():
    trial = Trial(TREE)
    for text in ("mv ../scratch ../x; mv ../x ../scratch", "cd ..; mkdir x; mv scratch x; mv x/scratch .; rmdir x", "cd ../..; mv h g; mv g h", "rm -rf ./*; mv ../scratch ../x; mv ../x ../scratch"):
        equal(trial.sh(text), (0, b"", dict.fromkeys(TREE) if text.startswith("rm") else {}), text)
        trial.sees_the_tree(text)
    equal(trial.ask("trouble"), "", "no trouble")
    trial.end()


def a_hundred_losses_in_a_row_harm_nothing():
    trial = Trial(TREE)
    for turn in range(100):
        text = LOSSES[turn % len(LOSSES)].replace("$$", str(turn))
        equal(trial.sh(text), "ScratchFailed", f"{text}, turn {turn}")
    trial.sees_the_tree("a hundred lost folders")
    check({"scratch", "scratch.run"} <= set(beside(trial)), f"beside the folder are {beside(trial)}")
    opened = len(os.listdir(f"/proc/{trial.process.pid}/fd"))
    trial.sh("true")
    equal(len(os.listdir(f"/proc/{trial.process.pid}/fd")), opened, "how many files are open")
    check(opened <= 4, f"{opened} files are open between two children")
    trial.end()
    runs = Trial({"a.txt": b"x\n"})
    said = of_hook("Failed", "hook id: t", "fault: files could not be written or read back")
    runs_are(runs, configuration("sh -c 'rm -rf ../scratch'"), ("plain", said, "1 1 0"), ("plain", said, "2 2 0"))
    runs.end()


# A process that goes on when its child has ended. It swaps the scratch folder for another one and back, until there is a file stop in the
# first folder.
EXCHANGES = r"""
#define _GNU_SOURCE
#include <fcntl.h>
#include <stdio.h>
#include <sys/stat.h>
#include <unistd.h>

int main(int count, char **words) {
    char one[4096], other[4096], stop[4096];
    if (fork() != 0) return 0;
    setsid();
    for (int number = 0; number < 3; number++) close(number);
    open("/dev/null", O_RDWR);
    sprintf(one, "%s/h/scratch", words[1]);
    sprintf(other, "%s/other", words[1]);
    sprintf(stop, "%s/stop", words[1]);
    mkdir(other, 0755);
    while (access(stop, F_OK) != 0 && access(words[1], F_OK) == 0) {
        renameat2(AT_FDCWD, one, AT_FDCWD, other, RENAME_EXCHANGE);
        usleep(count > 2 ? 300 : 0);
        renameat2(AT_FDCWD, one, AT_FDCWD, other, RENAME_EXCHANGE);
        usleep(count > 2 ? 700 : 0);
    }
    sprintf(stop, "%s/done.1", words[1]);
    close(open(stop, O_WRONLY | O_CREAT, 0666));
    return 0;
}
"""


def a_folder_that_is_changed_for_another_tells_no_file_as_removed():
    """All the time, from before the first file is written: each child finds the files of its tree, and loses none of them."""
    exchanges = built("exchanges", EXCHANGES)
    for slowly in ([], ["slowly"]):
        trial = Trial(TREE)
        told = {}
        first = trial.outcome(exchanges, trial.top, *slowly)
        check(first in ("ScratchFailed", (0, b"", {})), f"what exchanges the folder is told as {first!r}")
        for _ in range(100):
            outcome = trial.outcome("cat", "a.txt", "b.txt", within=60)
            check(outcome == "ScratchFailed" or outcome == (0, TREE["a.txt"] + TREE["b.txt"], {}), f"a child whose folder is changed for another is told as {outcome!r}")
            told[outcome == "ScratchFailed"] = True
        Path(trial.top, "stop").touch()
        wait_for(Path(trial.top, "done.1"))
        check(True in told, "no child has lost its folder")
        trial.sees_the_tree("a folder that was changed for another")
        trial.end()


# ---- how the folder is named

# Each name of the folder that a program is given, and the folder that holds it.
HOLDERS = {
    "h/scratch/": "h",
    "h/scratch///": "h",
    "./h/scratch/": "h",
    "TOP/h/scratch": "h",
    "TOP/h/scratch/": "h",
    "n/h/scratch/": "n/h",
    "scratch": ".",
    "scratch/": ".",
}


def slashes_at_the_end_of_its_name_change_nothing():
    for given, holder in HOLDERS.items():
        is_played_by_its_name(given, holder)


def is_played_by_its_name(given, holder):
    """Plays a folder that is named so: its place, what is told of it, the folder next to it, and its end."""
    top = tempfile.mkdtemp(prefix="children-", dir=BASE)
    given = given.replace("TOP", top)
    named = given.rstrip("/")
    text = f"a folder named {given!r}"
    trial = Trial(TREE, keep=top, folder=given)
    place = os.path.realpath(f"{top}/{holder}/scratch")
    equal(trial.sh("pwd -P"), (0, f"{place}\n".encode(), {}), text)
    equal(sorted(os.listdir(f"{top}/{holder}")), ["scratch", "scratch.run"], f"what is next to {text}")
    equal(trial.sh("echo more >> a.txt; rm d/c.txt; touch new"), (0, b"", {"a.txt": b"one\nmore\n", "d/c.txt": None}), text)
    trial.sees_the_tree(text)
    equal(trial.sh("rm a.txt; mkdir a.txt"), "ScratchFailed", text)
    equal(trial.ask("trouble"), f"{named}/a.txt: no file stands there", f"what is told of {text}")
    trial.sees_the_tree(text)
    second = Trial(TREE, keep=top, folder=named, env=os.environ | REMOVED)
    equal(second.sh("pwd -P"), (0, f"{place}.1\n".encode(), {}), f"the folder next to {text}")
    second.end()
    trial.end()
    equal(os.listdir(f"{top}/{holder}"), ["scratch"], f"what stays of {text}")
    last = Trial(TREE, keep=top, folder=given, env=os.environ | REMOVED)
    last.sees_the_tree(text)
    last.end()
    check(not os.path.exists(f"{top}/{holder}") or os.listdir(f"{top}/{holder}") == [], f"what is left of {text}")


# ---- a system that doesn't show what is open

# What a child does, and what is read back of it, or told of it.
CHANGES = {
    "echo more >> d/c.txt; touch d/new new": {"d/c.txt": b"three\nmore\n"},
    "rm -r d; touch d": {"d/c.txt": None, "d/e/f.txt": None},
    "chmod 000 d; mkdir -p n/m; touch n/m/x; chmod 000 n/m n": {},
    "rmdir .git; touch .git; printf 1 1<> z/1": {"z/1": b"1" + b"z" * 399},
}
TROUBLES = {
    "rm a.txt; ln -s /etc/passwd a.txt": "h/scratch/a.txt: no file stands there",
    "rm -r d; ln -s /etc d": "h/scratch/d/c.txt: a link stands there",
    'rm -rf "$PWD"': LOST,
    "mv ../scratch ../x; cp -r ../x ../scratch": LOST,
}
WITHOUT_PROC = "unshare", "-m", "sh", "-c", 'mount -t tmpfs none /proc && exec "$@"', "sh"


def what_is_open_need_not_be_shown():
    """Without /proc the folder is found by its name alone."""
    if subprocess.run([*WITHOUT_PROC, "true"], capture_output=True).returncode != 0:
        print("children: only root can mount, so no system without /proc was played")
        return
    trial = Trial(FILLED, starter=WITHOUT_PROC)
    for _ in range(2):
        equal(trial.sh("ls /proc"), (0, b"", {}), "a child without /proc")
    trial.sees_the_tree("a child without /proc")
    for text, changes in CHANGES.items():
        equal(trial.sh(text), (0, b"", changes), f"{text} without /proc")
        trial.sees_the_tree(text)
    for text, told in TROUBLES.items():
        first = Trial(TREE, starter=WITHOUT_PROC)
        equal(first.sh(text), "ScratchFailed", f"{text} without /proc")
        equal(first.ask("trouble"), told, f"what is told of {text} without /proc")
        first.sees_the_tree(text)
        first.end()
    trial.end()


# ---- calls that are written down

def watched(tree, calls="calls", user=None):
    """A trial of children that are watched by a file of its first folder."""
    top = tempfile.mkdtemp(prefix="children-", dir=BASE)
    return Trial(tree, user=user, keep=top, env=os.environ | {"CHILD_TRIAL_CALLS": f"{top}/{calls}"})


def a_child_that_calls_is_a_fault():
    for make in (False, True):
        trial = watched(TREE)
        if make:
            Path(trial.top, "calls").touch()
        equal(trial.sh("true"), (0, b"", {}), "a child that calls nobody")
        for text in ("echo status >> ../../calls", "echo x >> ../../calls; exit 3", "echo y >> ../../calls; kill -9 $$", "echo z >> ../../calls; head -c 2000000 /dev/zero", "echo >> ../../calls; rm a.txt", ": > ../../calls", "echo w >> ../../calls; rm -rf ../scratch"):
            equal(trial.sh(text), "ScratchFailed", text)
            trial.sees_the_tree(text)
        equal(trial.ask("trouble"), "", "what was in the way of no file")
        for text, told in (("true", (0, b"", {})), ("exit 3", (3, b"", {})), ("rm a.txt", (0, b"", {"a.txt": None})), ("cat ../../calls", (0, b"w\n", {})), ("kill -9 $$", "Signal")):
            equal(trial.sh(text), told, f"{text} behind calls")
        trial.end()
    runs = watched({"a.txt": b"x\n"})
    said = of_hook("Failed", "hook id: t", "fault: files could not be written or read back")
    runs_are(runs, configuration("sh -c 'echo >> ../../calls'"), ("plain", said, "1 1 0"), ("plain", said, "2 2 0"), ("fresh", said, "3 3 0"))
    runs_are(runs, configuration("sh -c 'wc -l < ../../calls'"), ("plain", of_hook("Passed"), "4 3 1"), ("plain", of_hook("Passed"), "4 3 1"))
    runs.end()


def a_file_of_calls_that_cant_be_looked_at_is_a_fault():
    trial = watched(TREE, calls="number/calls")
    Path(trial.top, "number").touch()
    equal(trial.sh("touch ../../started"), "ScratchFailed", "a file of calls below a file")
    check(not Path(trial.top, "started").exists(), "a child is started that can't be watched")
    equal(trial.ask("trouble"), f"{trial.top}/number/calls: Not a directory (os error 20)", "what is told of it")
    trial.end()


# ---- what can't be started

def the_first_word_that_cant_be_started_is_told():
    for words, told in ((["no-such-program", "x"], "no-such-program: No such file or directory (os error 2)"), (["./a.txt"], "./a.txt: Permission denied (os error 13)"), (["./bare"], "./bare: Exec format error (os error 8)"), (["./none.sh"], "./none.sh: No such file or directory (os error 2)"), ([], ": there is no word to start")):
        trial = Trial(TREE | {"bare": b"echo x\n", "none.sh": b"#!/no/such/shell\n"}, programs={"bare", "none.sh"})
        for text in ("true", "exit 127", "kill -9 $$", "rm a.txt; mkdir a.txt"):
            trial.sh(text)
        equal(trial.ask("unstarted"), "", "nothing is told of what was started")
        for last in (words, ["another"], words):
            equal(trial.run(*last), "NotStarted", f"{last}")
            equal(trial.ask("unstarted"), told, f"what is told of {words} first")
        check(trial.ask("trouble").startswith("h/scratch/a.txt: "), "what is told of files")
        trial.end()


# ---- the end

REMOVED = {"CHILD_TRIAL_AT_END": "removed"}


def removing(tree, keep=None, user=None):
    return Trial(tree, user=user, keep=keep, env=os.environ | REMOVED)


def a_folder_is_removed_at_the_end():
    for user in users():
        for text in ("true", "mkdir -p n/m; touch n/m/x; chmod 000 n/m n", "git init --quiet .", "rm -rf ../scratch", "mkfifo f; ln -s /etc l", "chmod 000 .", "rm ../scratch.run", "rm -rf ../../h", "rm -rf .git; ln -s / .git", "kill -9 $$"):
            trial = removing(TREE, user=user)
            trial.sh(text)
            trial.end()
            equal(sorted(os.listdir(trial.top)), [], f"what is left behind {text} as {user}")
    trial = removing(TREE)
    trial.end()
    equal(os.listdir(trial.top), [], "what is left where no child has run")
    for text, left in (("touch ../kept", ["kept"]), ("mkdir ../kept", ["kept"]), ("mv ../scratch ../x", ["x"]), ("mv ../scratch ../x; ln -s x ../scratch", ["scratch", "scratch.run", "x"])):
        trial = removing(TREE)
        trial.sh(text)
        trial.end()
        equal(beside(trial), left, f"what is left behind {text}")


def only_its_own_folder_is_removed():
    first = Trial(TREE)
    first.sh("true")
    second = removing(TREE, keep=first.top)
    equal(second.sh("pwd -P"), (0, os.path.realpath(f"{first.top}/h/scratch.1").encode() + b"\n", {}), "the folder beside another")
    second.end()
    equal(beside(first), ["scratch", "scratch.run"], "what is left beside another")
    first.sees_the_tree("another's end")
    first.end()
    equal(beside(first), ["scratch"], "a folder that stays")
    third = removing(TREE, keep=first.top)
    third.sees_the_tree("a folder that stayed")
    third.end()
    equal(os.listdir(first.top), [], "what is left where a folder had stayed")
    killed = removing(TREE)
    killed.sh("true")
    killed.process.kill()
    killed.process.wait()
    equal(beside(killed), ["scratch", "scratch.run"], "what a killed program leaves")
    last = removing(TREE, keep=killed.top)
    last.sees_the_tree("a killed program")
    last.end()
    equal(os.listdir(killed.top), [], "what is left behind a killed program")


def no_link_is_followed_at_the_end():
    outside = Path(tempfile.mkdtemp(prefix="outside-", dir=BASE))
    for make in (lambda place: place.mkdir(), lambda place: place.touch()):
        make(outside / "scratch")
        for text in (f"cd ../..; mv h g; ln -s {outside} h", f"cd ..; mv scratch x; ln -s {outside} scratch", f"cd ..; mv scratch x; ln -s {outside}/scratch scratch"):
            trial = removing(TREE)
            equal(trial.sh(text), "ScratchFailed", text)
            trial.end()
            equal([path.name for path in outside.iterdir()], ["scratch"], f"what lies outside behind {text}")
        shutil.rmtree(outside / "scratch") if (outside / "scratch").is_dir() else (outside / "scratch").unlink()
