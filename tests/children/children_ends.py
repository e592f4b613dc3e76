"""How children of tests/children/children.py end, what they are given, and what runs of hooks make of them."""
import os
from pathlib import Path

from children_trial import DEADLY, MIB, TREE, Trial, check, configuration, equal, of_hook, runs_are


# ---- how a child ends

def each_status_is_told():
    trial = Trial(TREE)
    for status in range(256):
        equal(trial.sh(f"exit {status}"), (status, b"", {}), f"exit {status}")


def each_deadly_signal_is_a_fault():
    trial = Trial(TREE)
    for number in DEADLY:
        equal(trial.sh(f"ulimit -c 0; echo x; kill -{number} $$; sleep 9"), "Signal", f"signal {number}")
    equal(trial.sh("ulimit -f 1; exec head -c 100000 /dev/zero > big"), "Signal", "a file past ulimit -f")
    trial.sees_the_tree("signals")


def what_cant_start_is_a_fault():
    trial = Trial(TREE | {"run": b"#!/bin/sh\necho run\n"})
    for words in (["no-such-program"], ["./a.txt"], ["./none"], ["/none"], ["a.txt/x"], [""], [], ["/"], ["sh\0"], ["sh", "-c", "\0"], ["./run"], ["d/../run"]):
        equal(trial.run(*words), "NotStarted", f"{words!r}")
    equal(trial.run("../prog"), "NotStarted", "a program outside that isn't there")
    prog = Path(trial.top, "h/prog")
    prog.write_text("#!/bin/sh\necho \"$0 $*\"\n")
    prog.chmod(0o755)
    equal(trial.run("../prog", "a b", ""), (0, b"../prog a b \n", {}), "a program word with a slash, from within the folder")
    equal(trial.run(str(prog), "x"), (0, f"{prog} x\n".encode(), {}), "a program word that begins with a slash")
    prog.write_text("echo no mark\n")
    equal(trial.run("../prog"), "NotStarted", "a program without #!")


# ---- what a child is given

def nothing_but_the_tree_is_given():
    reader, writer = os.pipe()
    held = os.open("/etc/passwd", os.O_RDONLY)
    environment = {"PATH": os.environ["PATH"], "ONE": "1 =\n", "LC_ALL": "C"}
    trial = Trial(TREE, pass_fds=(reader, writer, held), env=environment)
    equal(trial.sh("pwd -P; cat; readlink /proc/self/fd/0"), (0, os.path.realpath(f"{trial.top}/h/scratch").encode() + b"\n/dev/null\n", {}), "folder and input")
    # The shell lists its own numbers by a pattern, which opens the folder for a moment.
    numbers = trial.run("python3", "-c", "import os\nfor n in range(1000):\n  try: os.fstat(n); print(n)\n  except OSError: pass")
    equal(numbers, (0, b"0\n1\n2\n", {}), "open files")
    given = environment | Trial.reads
    equal(trial.run("env"), (0, "".join(f"{k}={v}\n" for k, v in given.items()).encode(), {}), "environment")
    equal(trial.sh("ls -l /proc/self/fd | wc -l"), (0, b"5\n", {}), "/proc/self/fd: a total, three, and the folder that ls lists")


# ---- outputs

def outputs_have_a_limit():
    trial = Trial({"a.txt": b"x" * MIB, "b.txt": b"x" * (MIB + 1), "c.txt": b"y" * 200_000})
    equal(trial.run("cat", "a.txt"), (0, b"x" * MIB, {}), "1 MiB")
    equal(trial.run("cat", "b.txt"), "OutputTooLong", "1 MiB and a byte")
    equal(trial.sh("cat b.txt >&2"), "OutputTooLong", "1 MiB and a byte of standard error")
    equal(trial.sh("head -c 1048575 a.txt >&2; echo"), (0, b"\n" + b"x" * (MIB - 1), {}), "both together 1 MiB")
    equal(trial.sh("cat a.txt >&2; echo"), "OutputTooLong", "both together 1 MiB and a byte")
    equal(trial.sh("cat c.txt >&2; tr y z < c.txt"), (0, b"z" * 200_000 + b"y" * 200_000, {}), "one after the other")
    equal(trial.sh("cat b.txt; kill -9 $$"), "Signal", "a signal goes before the length")
    equal(trial.sh("cat b.txt; rm a.txt; mkdir a.txt"), "OutputTooLong", "the length goes before what can't be read back")
    peak = trial.peak()
    equal(trial.run("python3", "-c", "import os\nx = bytes(65536)\nfor i in range(8192): os.write(1, x); os.write(2, x)"), "OutputTooLong", "1 GiB in turns")
    check(trial.peak() <= peak + 4 * MIB, f"1 GiB of output takes {trial.peak() - peak} bytes")


def outputs_may_be_closed_early():
    trial = Trial(TREE)
    equal(trial.sh("exec >&- 2>&-; sleep 0.3; echo late > a.txt; exit 7"), (7, b"", {"a.txt": b"late\n"}), "both closed")
    equal(trial.sh("echo a; exec >&-; echo b >&2; sleep 0.1; echo c >&2"), (0, b"a\nb\nc\n", {}), "one closed")
    equal(trial.sh("(sleep 0.4; echo late) & echo now"), (0, b"now\nlate\n", {}), "a grandchild that holds the pipe")


# ---- runs of hooks, whose answers are cached

def a_command_that_failed_is_started_anew_by_a_fresh_run_alone():
    trial = Trial({"a.txt": b"x\n"})
    said = of_hook("Failed", "hook id: t", "exit code: 3")
    runs_are(trial, configuration("sh -c 'echo >> ../../starts; exit 3'"), ("plain", said, "1 0 1"), ("plain", said, "1 0 1"), ("fresh", said, "2 0 1"))
    equal(Path(trial.top, "starts").read_text(), "\n\n", "how often it was started")


def a_command_that_a_signal_ended_is_started_again():
    trial = Trial({"a.txt": b"x\n"})
    said = of_hook("Failed", "hook id: t", "fault: ended by a signal")
    runs_are(trial, configuration("sh -c 'kill -9 $$'"), ("plain", said, "1 1 0"), ("plain", said, "2 2 0"), ("fresh", said, "3 3 0"))


def what_a_command_changed_is_changed_without_it():
    trial = Trial({"a.txt": b"x \n"})
    text = configuration("sed -i 's/ *$//'") + "  - {id: u, name: U, language: system, entry: grep -c ' ', verbose: true, files: a}\n"
    u = f"U{'.' * 72}Failed\n- hook id: u\n- exit code: 1\n\n0\n\n"
    said = of_hook("Failed", "hook id: t", "files were modified by this hook") + u
    runs_are(trial, text, ("plain", said, "2 0 2"), ("plain", said, "2 0 2"))
    trial.file("a.txt", b"x\n")
    said = of_hook("Passed").replace("passed", "failed", 1) + u
    runs_are(trial, text, ("plain", said, "3 0 3"), ("plain", said, "3 0 3"))


def a_command_that_answers_otherwise_is_told_by_a_fresh_run():
    trial = Trial({"a.txt": b"x\n"})
    text = configuration("sh -c 'echo >> ../../starts; wc -l < ../../starts'", ", verbose: true")
    said = [of_hook("Passed", "hook id: t") + f"\n{number}\n\n" for number in (1, 2)]
    fresh = said[1].replace("passed\n", "passed\nunsteady: t\n")
    runs_are(trial, text, ("plain", said[0], "1 0 1"), ("plain", said[0], "1 0 1"), ("fresh", fresh, "2 0 1"), ("plain", said[1], "2 0 1"))
