"""Cases of tests/host/host.py: runs of hooks that a signal ends while their child goes on, and runs side by side in one folder.

A child waits until the script or a child of a later run lets it go on, so each case is the same each time. The script ends the
children that outlive their run.
"""
import os
import shutil
import signal
import subprocess
import time
from concurrent.futures import ThreadPoolExecutor
from contextlib import suppress
from pathlib import Path

from host_program import LOCK, PROGRAM, STORE, Wrong, check, do, paths_in, run, write

MARK = "scratch.run"

# The first hook does what the file `hook` in $TOP says, which isn't staged. The second shows what it finds, and changes a file.
TOLD = b"""repos:
- repo: local
  hooks:
  - {id: told, name: Told, language: system, entry: "sh -c '. $TOP/hook'", pass_filenames: false, verbose: true}
  - {id: show, name: Show, language: system, entry: "sh -c 'find . | LC_ALL=C sort; cat a b; sed -i s/x/y/ b'", pass_filenames: false, verbose: true}
"""
WAITS = 'echo $$ > $TOP/pid; until [ -e $TOP/go ]; do sleep 0.01 < /dev/null; done; '
# What it writes late goes to its current folder, and to the folder's full path, which a shell's `cd` takes. A message on a folder that is
# gone must not end it: nobody reads that.
LATE = WAITS + '{ rm -f a; echo late > b; echo late > new; mkdir d; cd "$PWD" && rm -f a; echo late > b; echo late > new; } 2> /dev/null; touch $TOP/done\n'
# A process does the same whose standard input is another, so that nobody knows of it.
UNKNOWN = "exec < /dev/null; " + WAITS + '{ rm -f a; echo late > b; echo late > new; mkdir d; } 2> /dev/null; touch $TOP/done\n'
# Lets the child go on that waits, until it has done what it does late.
MEETS = 'readlink /proc/$(cat $TOP/pid)/cwd > $TOP/cwd; touch $TOP/go; until [ -e $TOP/done ]; do sleep 0.01; done\n'
# Each run starts its children, with any results of those before it cached.
# Each command runs in its turn: host_jobs.py plays those that run at the same time.
IN_TURN = "--jobs=1"
RUN, TRY, COMMIT = ["run", IN_TURN, "--all-files", "--fresh"], ["try", IN_TURN, "told.yaml", "a", "b"], ["commit", IN_TURN, "-m", "text"]
ENDING = [signal.SIGTERM, signal.SIGINT, signal.SIGHUP, signal.SIGKILL]


def told(folder, name="work"):
    """A repository whose first hook does what the test writes for it, and how it is run."""
    work = os.path.join(folder, name)
    os.mkdir(work)
    do(work, "init")
    for path, held in ((".pre-commit-config.yaml", TOLD), ("told.yaml", TOLD), ("a", b"1\n"), ("b", b"x\n"), ("hook", b":")):
        write(work, path, held)
    for path in (".pre-commit-config.yaml", "a", "b"):
        do(work, "add", path)
    return work


def tell(work, text):
    """Writes what the first hook has to do from now on. The file is a new one, since a shell may be reading the old one still."""
    os.remove(os.path.join(work, "hook"))
    write(work, "hook", text.encode())


def top(work):
    return {**os.environ, "TOP": work, "PROGRAM": PROGRAM}


def begun(work, words, hook=LATE):
    """A program whose child waits, and the child's number. It ends by the signals that may be ignored here."""
    tell(work, hook)
    for name in ("pid", "go", "done"):
        with suppress(FileNotFoundError):
            os.remove(os.path.join(work, name))
    program = subprocess.Popen([PROGRAM, *words], cwd=work, env=top(work), stdin=subprocess.DEVNULL, stdout=subprocess.PIPE, stderr=subprocess.PIPE,
                               preexec_fn=lambda: [signal.signal(number, signal.SIG_DFL) for number in ENDING if number != signal.SIGKILL])
    found, until = b"", time.monotonic() + 60
    while not found.endswith(b"\n"):
        check(time.monotonic() < until and program.poll() is None, f"{words!r} starts no child")
        time.sleep(0.005)
        with suppress(FileNotFoundError):
            found = Path(work, "pid").read_bytes()
    return program, int(found)


def outlived(work, words, number, hook=LATE):
    """The child that outlives a program which a signal ended."""
    program, child = begun(work, words, hook)
    program.send_signal(number)
    program.communicate(timeout=60)
    try:
        check(program.returncode == -number and os.path.exists(f"/proc/{child}"), f"{words!r} ends with {program.returncode}, and its child with it")
        check(MARK in scratch_names(work), f"signal {number} leaves no mark of {words!r}")
    except Wrong:
        end(child)
        raise
    return child


def end(child):
    """Ends a child of a program that is no longer there, and waits for its end."""
    with suppress(FileNotFoundError, ProcessLookupError):
        os.kill(child, signal.SIGKILL)
        while Path(f"/proc/{child}/stat").read_text().rsplit(") ", 1)[1][0] not in "ZX":
            time.sleep(0.001)


def scratch_names(work):
    """What is in the repository's folder apart from its own files."""
    return sorted(set(os.listdir(os.path.join(work, ".hookhost"))) - {os.path.basename(name) for name in (STORE, STORE + "-wal", LOCK)})


def says(work, words, wanted, text, left=None):
    """Checks that a run of the hooks prints this, and what it leaves. Unless stated otherwise, a run leaves its folder, and a try
    nothing."""
    done = run(work, *words, env=top(work))
    left = left if left is not None else [] if words == TRY else ["scratch"]
    check(done == (wanted[0], wanted[1], b""), f"{text}: {words!r} says {done!r}, wanted {wanted!r}")
    check(scratch_names(work) == left, f"{text}: {words!r} leaves {scratch_names(work)!r}")


def undisturbed(folder):
    """What `run` and `try` of such a repository print."""
    work = told(folder, "undisturbed")
    wanted = {}
    for words in (RUN, TRY):
        wanted[words[0]] = run(work, *words, env=top(work))
        check(wanted[words[0]][0] == 1 and b"Told" + b"." * 69 + b"Passed" in wanted[words[0]][1], f"{words!r} says {wanted[words[0]]!r}")
    return wanted


def tells_nothing_of_a_child_that_outlived_its_run(folder):
    """After a signal to the program alone the next run's verdict, fixes and accepted files are those of its own children. The folder is
    gone in which the old one is at work. The run after it removes the last of that."""
    wanted = undisturbed(folder)
    for number in ENDING:
        for words, later, hook, left in ((RUN, RUN, LATE, [MARK]), (COMMIT, RUN, LATE, [MARK]), (TRY, RUN, UNKNOWN, ["scratch"]), (RUN, TRY, UNKNOWN, []), (TRY, TRY, LATE, [MARK])):
            text = f"after signal {number} to {words[0]}"
            work = told(folder, f"{number}-{words[0]}-{later[0]}")
            child = outlived(work, words, number, hook)
            try:
                tell(work, MEETS)
                says(work, later, wanted[later[0]], text, left)
                found = Path(work, "cwd").read_text()
                check(found.endswith(" (deleted)\n"), f"{text} the child is still at work in {found!r}")
            finally:
                end(child)
            if later == RUN:
                check(do(work, "fixes") == b"M b\n" and do(work, "accept") == b"accepted: 1\n", f"{text} there are other fixes")
                check(do(work, "cat", "a") + do(work, "cat", "b") == b"1\ny\n", f"{text} other files are staged")
            tell(work, ":")
            says(work, TRY, wanted["try"], f"once the child has ended, {text}")


def outlasts_a_child_that_goes_on_writing(folder):
    """What outlived its run writes to its current folder as fast as it can, while that is removed."""
    wanted, work = undisturbed(folder), told(folder)
    writes = 'i=0; while [ ! -e $TOP/done ]; do i=$((i+1)); mkdir d$i; : > d$i/f; : > f$i; done 2> /dev/null'
    child = outlived(work, RUN, signal.SIGTERM, "exec < /dev/null; " + WAITS + writes)
    write(work, "go", b"")
    tell(work, ":")
    try:
        time.sleep(0.3)
        says(work, RUN, wanted["run"], "beside a child that goes on writing")
    finally:
        write(work, "done", b"")
        end(child)


def leaves_no_mark_where_it_ended_by_itself(folder):
    work = told(folder)
    for hook in (":", "exit 3", "kill -9 $$", "rm -r ../scratch", f"rm ../{MARK}", "rm a; mkdir a"):
        tell(work, hook)
        for words in (RUN, TRY, COMMIT):
            do(work, "forget")
            found = run(work, *words, env=top(work))
            check(found[0] == 1 and set(scratch_names(work)) <= {"scratch"}, f"{words!r} with {hook!r} ends with {found!r} and leaves {scratch_names(work)!r}")
    with open("/dev/full", "wb") as full:
        done = subprocess.run([PROGRAM, *RUN], cwd=work, env=top(work), stdin=subprocess.DEVNULL, stdout=full, stderr=subprocess.DEVNULL, timeout=120)
    check(done.returncode == 3 and scratch_names(work) == ["scratch"], f"a run whose report isn't taken leaves {scratch_names(work)!r}")


# Within a hook of a run the program tries the hooks on one file of the run. There the hooks are given nothing.
TRIES = '(cp $TOP/told.yaml .; cd %s; TOP=$TOP/none "$PROGRAM" try told.yaml b > $TOP/said); rm told.yaml\n'


def lets_a_try_have_a_folder_of_its_own(folder):
    """A `try` within a hook of a run changes nothing of the run, and has its own files alone. It is started below the run's folder or in
    the folder that holds it."""
    wanted, work = undisturbed(folder), told(folder)
    for place in (".", "../.."):
        tell(work, TRIES % place)
        says(work, RUN, wanted["run"], f"with a try in {place}")
        found = Path(work, "said").read_bytes()
        check(b"\n.\n./.git\n./b\n" in found and b"files were modified" in found and b"./a" not in found, f"a try in {place} of a hook says {found!r}")


def lets_runs_go_side_by_side(folder):
    """A run, and tries at the same time, of which some are killed. The next run removes what they left."""
    wanted, work = undisturbed(folder), told(folder)
    program, child = begun(work, RUN, WAITS)
    late = []
    try:
        tell(work, ":")
        with ThreadPoolExecutor(6) as pool:
            ends = list(pool.map(lambda _: run(work, *TRY, env=top(work)), range(12)))
        check(set(ends) == {wanted["try"]}, f"tries beside a run say {set(ends)!r}")
        check(scratch_names(work) == ["scratch", MARK], f"tries beside a run leave {scratch_names(work)!r}")
        for number in ENDING:
            beside, other = begun(work, TRY)
            late.append(other)
            beside.send_signal(number)
            beside.communicate(timeout=60)
        # Each takes the next number, since a child of the last one has its name, and removes the folder there.
        left = ["scratch", "scratch.1.run", "scratch.2.run", "scratch.3.run", "scratch.4", "scratch.4.run", MARK]
        check(scratch_names(work) == left, f"killed tries leave {scratch_names(work)!r}")
    finally:
        write(work, "go", b"")
        out, err = program.communicate(timeout=60)
        for number in (child, *late):
            end(number)
    check((program.returncode, out, err) == wanted["run"], f"a run beside tries says {out!r} and {err!r}")
    tell(work, ":")
    says(work, RUN, wanted["run"], "after tries that were killed")


def touches_nothing_outside_its_folder(folder):
    """What is in the place of the mark and the folders is refused, or removed itself, and no link is followed."""
    wanted, outside = undisturbed(folder), os.path.join(folder, "outside")
    write(outside, "kept", b"kept\n")
    kinds = {"folder": os.mkdir, "fifo": os.mkfifo, "link": lambda path: os.symlink(outside, path), "link to a file": lambda path: os.symlink(os.path.join(outside, "kept"), path),
             "link to nothing": lambda path: os.symlink(os.path.join(outside, "made"), path), "file": lambda path: write("/", path, b"file\n")}
    fault = b"- fault: files could not be written or read back\n"
    for at, (kind, make) in enumerate(kinds.items()):
        for name in ("scratch.run", "scratch.old", "scratch", "scratch.1", "scratch.1.run"):
            text = f"a {kind} at {name}"
            work = told(folder, f"{at}{name}")
            if name in ("scratch.run", "scratch.1.run"):
                do(work, "status")
            else:
                end(outlived(work, RUN, signal.SIGKILL))
                tell(work, ":")
            path = os.path.join(work, ".hookhost", name)
            if name == "scratch":
                shutil.rmtree(path)
            make(path)
            found = run(work, *RUN, env=top(work))
            is_refused = name == "scratch.run" and kind != "file" or name == "scratch" and kind.startswith("link")
            check(found[1].count(fault) == 2 if is_refused else found == wanted["run"], f"with {text} a run says {found!r}")
            stays = is_refused or name in ("scratch", "scratch.1") or name == "scratch.1.run" and kind != "file"
            check(os.path.lexists(path) == stays, f"{text} is there, or isn't")
            check(paths_in(outside) == ["kept"] and Path(outside, "kept").read_bytes() == b"kept\n", f"{text} leads to what is changed")
            if is_refused:
                shutil.rmtree(path) if kind == "folder" else os.remove(path)
                says(work, RUN, wanted["run"], f"after {text}")


CASES = [tells_nothing_of_a_child_that_outlived_its_run, outlasts_a_child_that_goes_on_writing, leaves_no_mark_where_it_ended_by_itself,
         lets_a_try_have_a_folder_of_its_own, lets_runs_go_side_by_side, touches_nothing_outside_its_folder]
