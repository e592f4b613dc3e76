"""Signals, limits, modes and memory that the program of tests/children/children.py begins with."""
import os
import re
import resource
import signal
import subprocess
import tempfile
import time
from pathlib import Path

from children_trial import BASE, HERE, MIB, NAMES, NOBODY, TREE, Trial, Wrong, check, configuration, digits, equal, of_hook, runs_are, users, wait_for


# ---- signals, limits and modes that the program begins with

def ignoring(*numbers):
    """A beginning that ignores these signals, and has two others blocked."""
    def begin():
        for number in numbers:
            signal.signal(number, signal.SIG_IGN)
        signal.pthread_sigmask(signal.SIG_SETMASK, [signal.SIGTERM, signal.SIGUSR1])
    return {"preexec_fn": begin, "restore_signals": False}


def mask_of(numbers):
    return sum(1 << number - 1 for number in numbers)


def children_begin_with_no_signal_blocked():
    for numbers in ([], [signal.SIGPIPE], [signal.SIGINT, signal.SIGHUP, signal.SIGPIPE]):
        trial = Trial(TREE, **ignoring(*numbers))
        told = trial.run("grep", "-E", "^Sig(Blk|Ign)", "/proc/self/status")
        found = [int(line.split()[1], 16) for line in told[1].decode().splitlines()]
        # What is ignored stays ignored, as under nohup, except the signal of a pipe that nobody reads.
        equal(found[0], 0, f"what is blocked in a child where {numbers} are ignored")
        equal(found[1] & mask_of([1, 2, 3, 13, 15, 17]), mask_of(number for number in numbers if number != signal.SIGPIPE), f"what is ignored in a child where {numbers} are")
        equal(trial.sh("yes | head -n 1; kill -TERM $$"), "Signal", "a child that ends itself by a signal that was blocked")
        trial.sees_the_tree("signals")
        trial.end()


def ignored_children_are_a_fault():
    """If the program is started with SIGCHLD ignored, the system keeps no child's exit status for it. That is a fault of each child, as
    of Git's hooks."""
    trial = Trial({"a.txt": b"x\n"}, **ignoring(signal.SIGCHLD))
    for text in ("true", "exit 3", "echo y > a.txt", "kill -9 $$"):
        equal(trial.sh(text), "WaitFailed", f"{text} where the ends of children are ignored")
    said = of_hook("Failed", "hook id: t", "fault: could not be waited for")
    runs_are(trial, configuration("sh -c 'echo >> ../../starts'"), ("plain", said, "5 5 0"), ("plain", said, "6 6 0"))
    trial.end()
    trial = Trial({"a.txt": b"x\n"}, keep=trial.top)
    runs_are(trial, configuration("sh -c 'echo >> ../../starts'"), ("plain", of_hook("Passed"), "1 0 1"), ("plain", of_hook("Passed"), "1 0 1"))
    equal(Path(trial.top, "starts").read_text(), "\n" * 3, "how often the command was started")


def a_signal_to_the_group_ends_a_child_too():
    for number in (signal.SIGINT, signal.SIGTERM, signal.SIGHUP):
        trial = Trial(TREE, start_new_session=True)
        group = os.getpgid(trial.process.pid)
        equal(trial.run("python3", "-c", "import os; print(os.getpgrp(), os.getsid(0))"), (0, f"{group} {group}\n".encode(), {}), "the group of a child")
        path = Path(trial.top, "number")
        trial.process.stdin.write(f"run {digits('sh')} {digits('-c')} {digits(f'echo $$ > {path}; exec sleep 60')}\n".encode())
        trial.process.stdin.flush()
        wait_for(path)
        while not path.read_text().endswith("\n"):
            time.sleep(0.005)
        os.killpg(group, number)
        equal(trial.process.wait(60), -number, "how the program ends")
        child, until = path.read_text().strip(), time.monotonic() + 20
        while os.path.exists(f"/proc/{child}") and Path(f"/proc/{child}/stat").read_text().rsplit(") ", 1)[1][0] not in "ZX":
            check(time.monotonic() < until, f"a child outlives signal {number} to its group")
            time.sleep(0.005)
        trial = Trial(TREE, keep=trial.top)
        trial.sees_the_tree(f"signal {number} to the group")
        trial.end()


LIMITED = "cat a.txt; echo z > a.txt; rm d/c.txt"


def under_limit(text, user=None, **how):
    """How children and a run of hooks end under a limit: by their own output, or by a fault that isn't cached. A program without the
    limit then finds all as it would have."""
    config, passed = configuration("sh -c 'echo >> ../../starts'"), of_hook("Passed")
    trial = Trial(user=user, **how)
    try:
        trial.file("a.txt", b"x\n")
        trial.file("d/c.txt", b"y\n")
        outcome = trial.outcome("sh", "-c", LIMITED, within=60)
        said = trial.ask("hooks", digits(config), digits("plain"), within=60)
        counts = trial.ask("counts")
        check(None not in (said, counts), "the program ends")
        if "fault: " in said or said.startswith("refused: "):
            equal(counts.split()[2], "0", f"how many answers are remembered of {said!r} under {text}")
        else:
            check(said == passed or "exit code: " in said, f"a run under {text} says {said!r}")
        check(outcome in NAMES[:2] + NAMES[4:] + ["memory"] or isinstance(outcome, tuple), f"a child under {text} is told as {outcome!r}")
        end = outcome if isinstance(outcome, str) else "an answer"
        trial.end()
    except (Wrong, BrokenPipeError) as wrong:
        if isinstance(wrong, Wrong) and "the program ends" not in str(wrong):
            raise
        # Lack of memory, or of what the system needs to start it. If there is no room for its stack, the system ends it.
        check(trial.process.wait(60) in (3, 127, -signal.SIGSEGV), f"the program ends with {trial.process.returncode} under {text}")
        end = "the program's end"
    trial = Trial({"a.txt": b"x\n", "d/c.txt": b"y\n"}, user=user, keep=trial.top)
    trial.sees_the_tree(text)
    equal(trial.ask("hooks", digits(config), digits("plain")), passed, f"a run behind {text}")
    trial.end()
    return end


def few_open_files_are_a_fault():
    ends = {under_limit(f"{most} open files", limit=f"-n {most}") for most in range(3, 16)}
    check({"ScratchFailed", "NotStarted", "an answer"} <= ends, f"few open files are told as {ends}")


def no_more_processes_are_a_fault():
    user = NOBODY if os.getuid() == 0 else None
    none = lambda: resource.setrlimit(resource.RLIMIT_NPROC, (0, 0))
    equal(under_limit("no more processes", user, preexec_fn=none), "NotStarted", "how no more processes are told")


def little_memory_is_a_fault():
    trial = Trial()
    trial.ask("counts")
    taken = int(re.search(r"VmPeak:\s*(\d+) kB", Path(f"/proc/{trial.process.pid}/status").read_text())[1])
    trial.end()
    ends = {under_limit(f"{most} KiB of memory", limit=f"-v {most}") for most in range(taken, taken + 3_000, 150)}
    check("an answer" in ends, f"little memory is told as {ends}")


def a_full_disk_is_a_fault():
    library = Path(BASE, "full.so")
    subprocess.run(["cc", "-O1", "-shared", "-fPIC", "-o", library, HERE / "full_disk.c", "-ldl"], check=True)
    right = (0, b"x\n", {"a.txt": b"z\n", "d/c.txt": None})
    config, passed = configuration("sh -c 'echo >> ../../starts'"), of_hook("Passed")
    failed = of_hook("Failed", "hook id: t", "fault: files could not be written or read back")
    told = set()
    for number in range(1, 200):
        top = tempfile.mkdtemp(prefix="children-", dir=BASE)
        environment = os.environ | {"LD_PRELOAD": str(library), "FULL_FROM": str(number), "FULL_FILE": f"{top}/full"}
        trial = Trial({"a.txt": b"x\n", "d/c.txt": b"y\n"}, keep=top, env=environment)
        outcome = trial.outcome("sh", "-c", LIMITED, within=60)
        said = trial.ask("hooks", digits(config), digits("plain"), within=60)
        count = trial.ask("counts")
        check(outcome in (right, "ScratchFailed"), f"with the disk full from call {number} on a child is told as {outcome!r}")
        check((said, count[-1]) in ((passed, "1"), (failed, "0")), f"with the disk full from call {number} on a run says {said!r}, and counts {count!r}")
        told.add((outcome == right, said == passed))
        if said == failed:
            check(trial.ask("trouble").endswith(": No space left on device (os error 28)"), f"of a full disk is told {trial.ask('trouble')!r}")
        trial.end()
        was_full = os.path.exists(f"{top}/full")
        trial = Trial(trial.tree, keep=top)
        trial.sees_the_tree(f"a disk that was full from call {number} on")
        equal(trial.ask("hooks", digits(config), digits("plain")), passed, f"a run behind a disk that was full from call {number} on")
        trial.end()
        if not was_full:
            break
    equal(told, {(False, False), (True, False), (True, True)}, "how full disks are told")


def modes_are_those_of_what_is_new():
    for mask in (0o022, 0o077, 0o027, 0o002, 0o000):
        for user in users():
            trial = Trial(TREE, user=user, preexec_fn=lambda: os.umask(mask))
            for text in ("true", "chmod 777 a.txt d . ..; umask 0; echo x > b.txt; mkdir n", "chmod 700 d; chmod 600 a.txt", "rm -r d b.txt", "true"):
                equal(trial.sh(text)[0], 0, text)
            equal(trial.sh("chmod 755 ..")[0], 0, "a last child")
            top = Path(trial.top, "h/scratch")
            for path in sorted([top, *top.rglob("*")]):
                wanted = (0o777 if path.is_dir() else 0o666) & ~mask
                equal(oct(path.stat().st_mode & 0o7777), oct(wanted), f"the mode of {path.relative_to(top)} under {oct(mask)} as {user}")
            equal(oct(Path(trial.top, "h/scratch.run").stat().st_mode & 0o7777), oct(0o666 & ~mask), f"the mode of the mark under {oct(mask)}")
            trial.end()
    trial = Trial(TREE, preexec_fn=lambda: os.umask(0o077))
    equal(trial.sh("stat -c %a .. . a.txt d d/c.txt"), (0, b"700\n700\n600\n700\n600\n", {}), "the modes that a child sees under 077")
    trial = Trial(TREE, preexec_fn=lambda: os.umask(0o022))
    equal(trial.sh("stat -c %a .. . a.txt d d/c.txt"), (0, b"755\n755\n644\n755\n644\n", {}), "the modes that a child sees under 022")


# ---- memory

def memory_is_in_proportion_to_the_tree():
    size = 4 * 16 * MIB
    trial = Trial()
    for i in range(4):
        trial.ask("letters", digits(f"f{i}"), digits(str(16 * MIB)))
    equal(trial.ask("measure", "sh".encode().hex(), "-c".encode().hex(), digits("for f in f*; do tr x y < $f > new; mv new $f; done")), "0 0 4", "all files change")
    check(trial.peak() <= 4 * size, f"{trial.peak()} bytes for a tree of {size}")
