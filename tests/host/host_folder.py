"""Cases of tests/host/host.py: what a change leaves in the folder if the disk is full, or nobody takes its output."""
import os
import subprocess

import host_files
from host_program import PROGRAM, check, do, paths_in, run, write
from host_state import HOOKS, shown, shown_alone


def leaves_nothing_of_an_init_that_fails(folder):
    """An init whose files may have only so many bytes, as on a full disk, makes a store or leaves the folder as it was. This holds also
    if the folder has what a killed init left."""
    ends = []
    for at, most in enumerate((0, 1, 100, 4096, 10_000, 40_000, 60_000, 100_000, 200_000)):
        work = os.path.join(folder, str(at))
        os.mkdir(work)
        for wanted in ([], [".hookhost", ".hookhost/lock"]):
            status, out, err = run(work, "init", preexec_fn=host_files.limited(most))
            ends.append(status)
            if status == 0:
                break
            check((status, out) == (3, b"") and err.startswith(b"hookhost: "), f"an init within {most} bytes says {err!r}")
            check(paths_in(work) == wanted, f"an init within {most} bytes leaves {paths_in(work)!r}")
            for name in ("lock", "new.db", "new.db-wal"):
                write(work, f".hookhost/{name}", b"" if name == "lock" else b"left")
        if status != 0:
            do(work, "init")
        check(do(work, "status") == b"", f"an init within {most} bytes makes no store")
    check(3 in ends and 0 in ends, f"the inits end with {ends!r}")


def keeps_a_change_whose_text_was_not_taken(folder):
    """With a full standard output each command ends as it would, or with 3 if it has something to print. What it did is in the file of
    the store alone."""
    do(folder, "init")
    hooks = HOOKS.replace(b"stages: [manual]", b"stages: [manual], files: '^.$'")
    for name, held in (("a", b"x"), ("b", b"x"), ("c", b"x"), (".pre-commit-config.yaml", hooks)):
        write(folder, name, held)
    in_stage = ["--hook-stage", "manual"]
    for words, wanted in ((["add", "a"], 0), (["add", "b"], 0), (["add", ".pre-commit-config.yaml"], 0), (["run", *in_stage, "--all-files"], 3),
                          (["accept"], 3), (["commit", "-m", "first"], 3), (["rm", "a"], 0), (["add", "c"], 0), (["run-files", *in_stage, "c"], 3),
                          (["accept"], 3), (["run", "change", *in_stage], 3), (["commit", "-m", "second"], 3)):
        before = shown_alone(folder)
        with open("/dev/full", "wb") as full:
            done = subprocess.run([PROGRAM, *words], cwd=folder, stdin=subprocess.DEVNULL, stdout=full, stderr=subprocess.PIPE, timeout=120)
        check(done.returncode == wanted, f"{words!r} ends with {done.returncode} and says {done.stderr!r}")
        alone, after = shown_alone(folder), shown(folder)
        check(alone[0] == after, f"after {words!r} the file of the store shows {alone[0]!r}, and with its log {after!r}")
        changes = words[:2] != ["run", "change"]
        check((alone[0] != before[0], alone[1] != before[1]) == (changes, changes), f"after {words!r} the file of the store shows {alone!r}, as before it")
    check(do(folder, "log") == b"2 second\n1 first\n", "there are other commits")


CASES = [leaves_nothing_of_an_init_that_fails, keeps_a_change_whose_text_was_not_taken]
