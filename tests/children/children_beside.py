"""Programs of tests/children/children.py side by side, killed, without memory, and in the way of what others left."""
import os
import re
import shutil
import signal
import subprocess
import tempfile
import time
from pathlib import Path

from children_trial import BASE, NOBODY, PROGRAM, SEEN, TREE, Trial, beside, check, digits, equal, users
from places import TOP


# ---- programs side by side, and children that outlive theirs

def each_program_has_a_folder_of_its_own():
    first = Trial(TREE)
    equal(first.sh(":"), (0, b"", {}), "a first child")
    equal(beside(first), ["scratch", "scratch.run"], "beside the folder that is used")
    second, third = Trial({"a.txt": b"1"}, keep=first.top), Trial(keep=first.top)
    for trial, name in ((second, "scratch.1"), (third, "scratch.2"), (first, "scratch")):
        equal(trial.sh("pwd -P"), (0, os.path.realpath(f"{first.top}/h/{name}").encode() + b"\n", {}), "the folder")
        trial.sees_the_tree("a child of each")
    second.sh("mkdir -p d/e; touch d/e/f; chmod 0 d/e d")
    second.end()
    equal(beside(first), ["scratch", "scratch.2", "scratch.2.run", "scratch.run"], "once the second has ended")
    first.end()
    equal(beside(first), ["scratch", "scratch.2", "scratch.2.run"], "once the first has ended")
    fourth = Trial(TREE, keep=first.top)
    fourth.sees_the_tree("programs that have ended")
    third.end()
    fourth.end()
    equal(beside(first), ["scratch"], "once all have ended")


def killed_beside(trial, text):
    """The number of a child that goes on when its program is killed, while the children of others are there too."""
    path = Path(trial.top, "number")
    path.unlink(missing_ok=True)
    trial.process.stdin.write(f"run {digits('sh')} {digits('-c')} {digits(f'echo $$ > {trial.top}/number; {text}')}\n".encode())
    trial.process.stdin.flush()
    until = time.monotonic() + 60
    while not (path.exists() and path.read_text().endswith("\n")):
        check(time.monotonic() < until, "no child is started")
        time.sleep(0.005)
    trial.process.send_signal(signal.SIGKILL)
    trial.process.wait()
    return int(path.read_text())


def end_outlived(child):
    """Ends a child whose program has ended, and waits for its end."""
    os.kill(child, signal.SIGKILL)
    while os.path.exists(f"/proc/{child}") and Path(f"/proc/{child}/stat").read_text().rsplit(") ", 1)[1][0] not in "ZX":
        time.sleep(0.001)


# What a child does before its program is killed, and what after it. The second is known by its standard input, so it has its
# folder's name to itself: a shell takes `cd` by that.
OUTLIVING = [
    ("exec < /dev/null", "echo late > a.txt; echo late > new; rm -r d", "scratch"),
    ("cd d", "cd e; echo late > f.txt; mkdir late; cd ..; echo late > c.txt; rm -r e", "scratch.1"),
    ("exec > a.txt < /dev/null", "echo late; chmod 0 d .", "scratch"),
]


def a_child_that_outlives_its_program_is_seen_by_none():
    for user in users():
        for before, late, name in OUTLIVING:
            killed = Trial(TREE, user=user)
            top, text = killed.top, f"a child that outlived its program and does {before!r} and {late!r} as {user}"
            child = killed_beside(killed, f"exec 2> /dev/null; {before}; until [ -e {top}/go ]; do sleep 0.01; done; {late}; touch {top}/done; exec sleep 60")
            try:
                equal(beside(killed), ["scratch", "scratch.run"], "beside the folder of a killed program")
                trial, wanted = Trial(TREE, user=user, keep=top), Trial(TREE, user=user)
                equal(trial.sh("pwd -P")[1], os.path.realpath(f"{top}/h/{name}").encode() + b"\n", f"the folder beside {text}")
                meets = f"touch {top}/go; until [ -e {top}/done ]; do sleep 0.01; done; "
                equal(trial.sh(meets + SEEN), wanted.sh(SEEN), f"what a child sees beside {text}")
                trial.sees_the_tree(text)
                wanted.end()
                check(os.readlink(f"/proc/{child}/cwd").endswith(" (deleted)"), f"the folder isn't gone of {text}")
            finally:
                end_outlived(child)
            trial.end()
            last = Trial(TREE, user=user, keep=top)
            last.sees_the_tree(text)
            last.end()
            equal(beside(killed), ["scratch"], "once it has ended")


# ---- stops and refusals

def a_killed_program_leaves_no_harm():
    trial = Trial({f"n{i % 7}/f{i}": b"x" * i for i in range(300)})
    tree, top = trial.tree, trial.top
    for turn in range(12):
        trial.process.stdin.write(b"run " + digits("sh").encode() + b" 2d63 " + digits("touch new; rm -r n1; sleep 0.02").encode() + b"\n")
        trial.process.stdin.flush()
        time.sleep(0.004 * turn)
        trial.process.send_signal(signal.SIGKILL)
        trial.process.wait()
        time.sleep(0.1)
        trial = Trial(tree, keep=top)
        trial.sees_the_tree(f"kill {turn}")


def refused_memory_is_told_as_such():
    library = Path(BASE, "refuse.so")
    subprocess.run(["cc", "-O1", "-shared", "-fPIC", "-o", library, os.path.join(TOP, "tests/shared/refuse_allocation.c"), "-ldl"], check=True)
    rows = [f"file {digits(p)} {digits(d)}" for p, d in {"a.txt": b"one\n", "d/b.txt": b"two\n"}.items()]
    hostile = "cat a.txt; echo e >&2; echo x > a.txt; rm d/b.txt; mkdir -p n/m; touch n/m/x"
    rows += [f"run {digits('sh')} {digits('-c')} {digits(hostile)}"] * 2
    wanted = None
    told = 0
    for number in range(0, 2_000):
        top = tempfile.mkdtemp(prefix="refused-", dir=BASE)
        refused = Path(top, "refused")
        environment = os.environ | {"LD_PRELOAD": str(library), "REFUSE_ALLOCATION": str(number), "REFUSED_FILE": str(refused)} | Trial.reads
        done = subprocess.run([PROGRAM, "h/scratch"], cwd=top, input="\n".join(rows).encode() + b"\n", env=environment, capture_output=True)
        answers = [bytes.fromhex(line).decode() for line in done.stdout.decode().split("\n")[:-1]]
        outcomes = [re.sub(r"^calls=\d+ faults=\d+ ", "", a) for a in answers if a]
        if wanted is None:
            wanted = outcomes
            equal(len(wanted), 2, "two outcomes with ample memory")
        for outcome, right in zip(outcomes, wanted):
            check(outcome in (right, "memory"), f"allocation {number} is refused, and the outcome is {outcome}")
        check(done.returncode == 3 or len(outcomes) == 2, f"allocation {number} is refused, and the program ends with {done.returncode}")
        check(outcomes.count("memory") <= 1, f"allocation {number} is refused, and memory is refused twice")
        told += outcomes.count("memory")
        was_refused = refused.exists()
        shutil.rmtree(top)
        if number > 0 and not was_refused:
            break
    check(number > 50 and told > 20, f"only {number} allocations, {told} of them told of")


# ---- what is in the way

def what_is_in_the_way_is_told():
    trial = Trial(TREE)
    equal(trial.ask("trouble"), "", "what is in the way of no child")
    for text in ("exit 3", "kill -9 $$", "rm a.txt"):
        trial.sh(text)
    equal(trial.run("no-such-program"), "NotStarted", "a program that isn't there")
    equal(trial.ask("trouble"), "", "what is in the way of no file")
    equal(trial.sh("rm d/c.txt; mkfifo d/c.txt"), "ScratchFailed", "a fifo in a file's place")
    first = trial.ask("trouble")
    equal(first, "h/scratch/d/c.txt: no file stands there", "what is told of a fifo")
    equal(trial.sh("rm a.txt; mkdir a.txt"), "ScratchFailed", "a folder in a file's place")
    equal(trial.ask("trouble"), first, "what is told of the second one")
    trial.end()
    for text, told in (("rm -r d; ln -s /etc d", "d/c.txt: a link stands there"), ("rm a.txt; ln -s b.txt a.txt", "a.txt: no file stands there"),
                        ("truncate -s 16777217 d-e", "d-e: the file is too large"), ("cd ..; rm -r scratch; ln -s /etc scratch", ": a link stands there")):
        trial = Trial(TREE)
        equal(trial.sh(text), "ScratchFailed", text)
        equal(trial.ask("trouble"), f"h/scratch{'' if told[0] == ':' else '/'}{told}", f"what is told of {text!r}")
        trial.end()
    for make in (os.mkdir, os.mkfifo, lambda path: os.symlink("/etc/passwd", path)):
        top = tempfile.mkdtemp(prefix="children-", dir=BASE)
        os.mkdir(f"{top}/h")
        make(f"{top}/h/scratch.run")
        trial = Trial(TREE, keep=top)
        equal(trial.sh("true"), "ScratchFailed", "a mark that can't be set")
        check(trial.ask("trouble").startswith("h/scratch.run: "), f"of the mark is told {trial.ask('trouble')!r}")
        trial.end()


def what_others_own_is_told():
    """A folder of another user's, and a file that nobody may remove: of root's, or one that the file system keeps."""
    if os.getuid() == 0:
        for inner, said in (("", "h/scratch: Operation not permitted (os error 1)"), ("o/p", "h/scratch/\1")):
            trial = Trial(TREE, user=NOBODY)
            equal(trial.sh("true"), (0, b"", {}), "a first child")
            trial.end()
            place = Path(trial.top, "h/scratch", inner)
            place.mkdir(parents=True, exist_ok=True)
            place.joinpath("root's").write_bytes(b"")
            for path in [place, place / "root's", *([place.parent] if inner else [])]:
                os.chown(path, 0, 0)
            place.chmod(0o755)
            for _ in range(2):
                trial = Trial(TREE, user=NOBODY, keep=trial.top)
                for _ in range(2):
                    equal(trial.sh("true"), "ScratchFailed", f"{inner!r} of root's")
                found = trial.ask("trouble")
                check(found.startswith(said) or inner and found.startswith("h/scratch/o: "), f"of {inner!r} of root's is told {found!r}")
                trial.end()
            shutil.rmtree(f"{trial.top}/h/scratch")
            trial = Trial(TREE, user=NOBODY, keep=trial.top)
            trial.sees_the_tree(f"{inner!r} of root's")
            trial.end()
    trial = Trial(TREE)
    equal(trial.sh("true"), (0, b"", {}), "a first child")
    stuck = Path(trial.top, "h/scratch/stuck")
    stuck.write_bytes(b"")
    if subprocess.run(["chattr", "+i", stuck], capture_output=True).returncode == 0:
        try:
            equal(trial.sh("true"), "ScratchFailed", "a file that can't be removed")
            equal(trial.ask("trouble"), "h/scratch/stuck: Operation not permitted (os error 1)", "what is told of it")
        finally:
            subprocess.run(["chattr", "-i", stuck], check=True)
    trial.sees_the_tree("a file that couldn't be removed")
