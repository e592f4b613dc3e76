"""Cases of tests/host/host.py: fifos and pipes, and standard streams that are closed or that nobody reads. Others are of the modes and
names of the files that are made, files over the limit of a process, and the order in which the store's file and the lock are opened.
"""
import contextlib
import fcntl
import os
import resource
import shutil
import signal
import stat
import subprocess
from pathlib import Path

from host_program import LOCK, PROGRAM, STORE, check, do, owned_by_nobody, paths_in, refuses, rows, run, staged_rows, write

SCRATCH = ".hookhost/scratch"
CONFIGURATION = ".pre-commit-config.yaml"
# A hook that shows its files, and one that changes `b` if it is asked to.
HOOKS = b"""repos:
- repo: local
  hooks:
  - {id: look, name: Look, language: system, entry: cat, files: '^[ab]$', verbose: true, stages: [pre-commit]}
  - {id: change, name: Change, language: system, entry: "sed -i s/x/y/", files: '^b$', stages: [manual]}
"""


def helper_in(folder):
    """tests/host/host_hooks.c, built: what is preloaded before a program."""
    path = os.path.join(folder, "hooks.so")
    source = Path(__file__).resolve().parent / "host_hooks.c"
    subprocess.run(["cc", "-shared", "-fPIC", "-O1", "-o", path, str(source), "-ldl"], check=True)
    return path


def configured(folder):
    """A repository with hooks, a commit, and a staged file that it hasn't."""
    write(folder, CONFIGURATION, HOOKS)
    write(folder, "a", b"1\n")
    do(folder, "init")
    do(folder, "add", CONFIGURATION, "a")
    do(folder, "commit", "-m", "first")
    write(folder, "b", b"x\n")
    do(folder, "add", "b")
    return folder


def stored(folder):
    """What sqlite3 reads of a repository, whose file has to be sound."""
    check(rows(folder, "PRAGMA integrity_check; PRAGMA foreign_key_check") == ["ok"], "sqlite3 finds the file broken")
    return rows(folder, "SELECT n, hex(message) FROM commits; SELECT n, path FROM entries; SELECT hex(path), gone, hex(digest) FROM fixes"), staged_rows(folder)


def copy_of(folder, name):
    return shutil.copytree(folder, os.path.join(os.path.dirname(folder), name), symlinks=True)


def new(folder, name):
    path = os.path.join(folder, name)
    os.mkdir(path)
    return path


# ---- fifos and pipes

def waits_for_no_fifo_that_is_named(folder):
    """Opening a fifo waits for its other end, so a program that does would never end. The fifo is the configuration, a file, or a list of
    paths, given by its name or by a link, with its other end open or not."""
    work = configured(new(folder, "work"))
    os.mkdir(os.path.join(work, "dir"))
    for path in ("fifo", "dir/fifo"):
        os.mkfifo(os.path.join(work, path))
    os.symlink("fifo", os.path.join(work, "link"))
    bare = new(folder, "bare")
    os.mkfifo(os.path.join(bare, CONFIGURATION))
    before = stored(work)
    for _ in range(2):
        for word in ("check", "explain"):
            refuses(bare, [word], f"cannot use {CONFIGURATION}", timeout=20)
        for path in ("fifo", "dir/fifo", "link"):
            for words in (["try", path, "a"], ["try", CONFIGURATION, path], ["try", CONFIGURATION, "a", path], ["explain", path], ["add", path], ["add", "a", path],
                          ["add", f"--paths-from={path}"], ["rm", f"--paths-from={path}"], ["run-files", f"--paths-from={path}"]):
                refuses(work, words, f"cannot use {path}", timeout=20)
        # Somebody has the other end open, and writes nothing.
        for at, path in ((bare, CONFIGURATION), (work, "fifo"), (work, "dir/fifo")):
            os.open(os.path.join(at, path), os.O_RDWR | os.O_CLOEXEC)
    check(stored(work) == before and do(work, "status") == b"A b\n", "the repository is another")


def reads_no_fifo_that_takes_the_name_of_a_file(folder):
    """The same if the file is a fifo by the time that it is opened. It isn't read, which would wait for what is written to it."""
    helper = helper_in(folder)
    work = configured(new(folder, "work"))
    for words, path in ((["add", "a"], "a"), (["add", "a", "b"], "b"), (["try", CONFIGURATION, "a"], "a"), (["try", CONFIGURATION, "a"], CONFIGURATION), (["check"], CONFIGURATION)):
        env = {**os.environ, "LD_PRELOAD": helper, "SWAP_AT_OPEN": path}
        refuses(work, words, f"cannot use {path}", env=env, timeout=20)
        check(stat.S_ISFIFO(os.stat(os.path.join(work, path)).st_mode), f"{path} was not swapped")
        os.remove(os.path.join(work, path))
        write(work, path, HOOKS if path == CONFIGURATION else b"x\n")


def reads_the_pipes_that_it_is_handed(folder):
    """A pipe without a name, as a shell makes for `<(..)` and `|`."""
    write(folder, "a", b"1\n")
    write(folder, "c.yaml", HOOKS)
    passed = run(folder, "try", "c.yaml", "a")
    check(passed[0] == 0 and passed[1].startswith(b"Look"), f"try says {passed!r}")
    told = run(folder, "explain", "c.yaml")
    for words in ("cat c.yaml | '{0}' try /dev/stdin a", "'{0}' try <(cat c.yaml) a", "'{0}' try /dev/stdin a < c.yaml"):
        done = subprocess.run(["bash", "-c", words.format(PROGRAM)], cwd=folder, stdin=subprocess.DEVNULL, capture_output=True, timeout=60)
        check((done.returncode, done.stdout, done.stderr) == passed, f"{words!r} says {done!r}")
    done = subprocess.run(["bash", "-c", f"cat c.yaml | '{PROGRAM}' explain /dev/stdin"], cwd=folder, capture_output=True, timeout=60)
    check(done.stdout == told[1].replace(b"c.yaml", b"/dev/stdin"), f"explain says {done!r}")
    do(folder, "init")
    done = subprocess.run(["bash", "-c", f"'{PROGRAM}' add --paths-from=<(printf 'a\\0c.yaml')"], cwd=folder, capture_output=True, timeout=60)
    check((done.returncode, do(folder, "status")) == (0, b"A a\nA c.yaml\n"), f"add says {done!r}")


# ---- standard streams

def closed(*streams):
    """What closes these standard streams before the program begins."""
    return lambda: [os.close(number) for number in streams]


def ends_as_with_a_full_output_where_it_is_closed(folder):
    """With a standard stream closed nothing that is meant for it comes into a file of the repository. A command whose output isn't taken
    ends as on a full disk. What is left is compared with a copy on which the command had its streams."""
    work = configured(new(folder, "work"))
    write(work, "new", b"2\n")
    cases = [["status"], ["log"], ["run"], ["run", "--hook-stage=manual"], ["commit", "-m", "second"], ["add", "new"], ["add", "new", "nowhere"], ["cat", "b"], ["check"],
             ["try", CONFIGURATION, "a"], ["explain"], ["--version"], ["add", "--paths-from=-"], ["rm", "nowhere"], ["init"]]
    for at, words in enumerate(cases):
        whole = copy_of(work, f"whole{at}")
        wanted = run(whole, *words)
        paths, left = paths_in(whole), stored(whole)
        full = copy_of(work, f"full{at}")
        with open("/dev/full", "wb") as output:
            done = subprocess.run([PROGRAM, *words], cwd=full, stdin=subprocess.DEVNULL, stdout=output, stderr=subprocess.PIPE, timeout=60)
        for streams in ((0,), (1,), (2,), (0, 1, 2)):
            copy = copy_of(work, "".join(map(str, (at, "closed", *streams))))
            found = run(copy, *words, preexec_fn=closed(*streams))
            status, out, err = (done.returncode, b"", done.stderr) if 1 in streams else wanted
            if 0 in streams and words[-1] == "--paths-from=-":
                status, out, err = 3, b"", b"hookhost: cannot use -\n"
            check(found == (status, out, b"" if 2 in streams else err), f"{words!r} without the streams {streams!r} ends with {found!r}")
            check(os.path.getsize(os.path.join(copy, LOCK)) == 0, f"{words!r} without the streams {streams!r} writes into the lock")
            check(paths_in(copy) == paths, f"{words!r} without the streams {streams!r} leaves {paths_in(copy)!r}")
            check(stored(copy) == left, f"{words!r} without the streams {streams!r} leaves another repository")
            shutil.rmtree(copy)


def hands_its_hooks_the_streams_that_they_have_ever(folder):
    """With streams closed the commands of hooks have an empty input, and both outputs."""
    hook = b"repos:\n- repo: local\n  hooks:\n  - {id: t, name: T, language: system, entry: \"sh -c 'cat; echo out; echo err >&2; ls /proc/$$/fd'\", verbose: true, pass_filenames: false}\n"
    write(folder, "c.yaml", hook)
    write(folder, "a", b"1")
    wanted = run(folder, "try", "c.yaml", "a")
    for streams in ((0,), (2,), (0, 2)):
        found = run(folder, "try", "c.yaml", "a", preexec_fn=closed(*streams))
        check(found == wanted and b"out\n" in found[1] and b"err\n" in found[1], f"without the streams {streams!r}: {found!r} in place of {wanted!r}")


def unread(work, *words):
    """What a command ends with and says on standard error, whose output is a pipe that nobody reads any more."""
    read, written = os.pipe()
    os.close(read)
    done = subprocess.run([PROGRAM, *words], cwd=work, stdin=subprocess.DEVNULL, stdout=written, stderr=subprocess.PIPE, timeout=60)
    os.close(written)
    return done.returncode, done.stderr.decode()


def ends_where_nobody_reads_its_output(folder):
    """In a pipe to `head -1` no signal ends it, it says so in one line, and what it did is kept. The lock is free then."""
    untaken, unwritten = "hookhost: standard output was not taken\n", "hookhost: refused: 3 Write\n"
    work = configured(new(folder, "work"))
    write(work, "large", os.urandom(100_000))
    do(work, "add", "large")
    before = stored(work)
    for words, text in (("cat large", untaken), ("log", ""), ("status", "")):
        # A pipe takes what it has room for, even if nobody reads it.
        done = subprocess.run(["bash", "-c", f"'{PROGRAM}' {words} | head -c 1; echo ${{PIPESTATUS[0]}}"], cwd=work, stdin=subprocess.DEVNULL, capture_output=True, timeout=60)
        check((done.stderr.decode(), done.stdout[1:]) == (text, b"3\n" if text else b"0\n"), f"{words!r} ends with {done.stdout!r} and says {done.stderr!r}")
    for words, said in ((["cat", "large"], untaken), (["status"], untaken), (["log"], untaken), (["show", "1"], untaken), (["memory"], untaken), (["run", "--all-files"], untaken),
                        (["check"], unwritten), (["explain"], unwritten), (["try", CONFIGURATION, "a"], unwritten), (["--version"], unwritten)):
        check((found := unread(work, *words)) == (3, said), f"{words!r} ends with {found!r}")
        check(do(work, "status") == b"A b\nA large\n", f"behind {words!r} the repository is another")
    check(stored(work) == before, "the repository is another")
    for words, said, shown in ((["run", "--hook-stage=manual"], untaken, ["M b"]), (["accept"], untaken, []), (["commit", "-m", "second"], untaken + "hookhost: commit 2 was made\n", [])):
        check((found := unread(work, *words)) == (3, said), f"{words!r} ends with {found!r}")
        check(do(work, "fixes").decode().splitlines() == shown, f"{words!r} leaves other fixes")
    check(do(work, "log") == b"2 second\n1 first\n" and do(work, "cat", "b") == b"y\n", "there are other commits")


# ---- modes and names

def makes_files_of_the_modes_that_the_mask_says(folder):
    """Each file and folder that the program makes, while a hook runs and after it. Who may read an executable file may run it."""
    held = b"repos:\n- repo: local\n  hooks:\n  - {id: s, name: S, language: script, entry: see.sh, pass_filenames: false}\n"
    script = b"cd $TOP && find .hookhost -printf '%m %y .%P\\n' | LC_ALL=C sort -k3 > $TOP/seen\n"
    for mask, plain, open_folder in ((0o022, "644", "755"), (0o077, "600", "700")):
        work = new(folder, f"{mask:o}")
        for path, contents in ((CONFIGURATION, held), ("see.sh", script), ("dir/sub/a", b"1")):
            write(work, path, contents)
        os.chmod(os.path.join(work, "see.sh"), 0o755)
        how = {"preexec_fn": lambda: os.umask(mask), "env": {**os.environ, "TOP": work}}
        for words in (["init"], ["add", "--chmod=+x", "see.sh"], ["add", "."], ["run", "--all-files"]):
            check((done := run(work, *words, **how))[0] == 0, f"{words!r} says {done!r}")
        scratch = [("f", f"scratch/{path}") for path in (CONFIGURATION, "dir/sub/a", "see.sh")] + [("d", f"scratch/{path}".rstrip("/")) for path in ("", ".git", "dir", "dir/sub")]
        left = [("d", ""), ("f", "lock"), ("f", "store.db"), ("f", "store.db-wal"), *scratch]
        # The log has the mode of the store's file, and the mark of a run is only its owner's.
        while_it_runs = [*left, ("f", "scratch.run")]
        for found, wanted in ((Path(work, "seen").read_text(), while_it_runs), (listed(work), left)):
            lines = sorted((f"{open_folder if kind == 'd' or path == 'scratch/see.sh' else plain} {kind} .{path}" for kind, path in wanted), key=lambda line: line.split(" ", 2)[2])
            check(found.splitlines() == lines, f"with the mask {mask:o} there are {found!r} in place of {lines!r}")


def listed(work):
    done = subprocess.run("find .hookhost -printf '%m %y .%P\\n' | LC_ALL=C sort -k3", shell=True, cwd=work, stdout=subprocess.PIPE, check=True, text=True)
    return done.stdout


# ---- the store's file and the lock

@contextlib.contextmanager
def locked(work):
    with open(os.path.join(work, LOCK), "a", encoding="utf-8") as lock:
        fcntl.flock(lock, fcntl.LOCK_EX)
        yield


def tells_of_the_store_before_it_looks_at_the_lock(folder):
    """What is at the store's name is looked at first, though another process has the lock."""
    program, user = owned_by_nobody(folder)
    work = configured(new(folder, "work"))
    os.chmod(work, 0o777)
    for path in (".hookhost", STORE, STORE + "-wal", LOCK):
        os.chmod(os.path.join(work, path), 0o777)
    how = {"program": program, **user}
    commands = (["status"], ["log"], ["add", "a"], ["rm", "a"], ["run"], ["commit", "-m", "x"], ["accept"], ["forget"])
    kept = os.path.join(work, "kept")
    with locked(work):
        for words in commands:
            refuses(work, words, f"cannot use {LOCK}", **how)
        os.rename(os.path.join(work, STORE), kept)
        makes = {"nothing": lambda path: None, "a folder": os.mkdir, "a fifo": os.mkfifo, "a link": lambda path: os.symlink("../kept", path),
                 "a file that may not be read": lambda path: os.chmod(shutil.copy(kept, path), 0), "a socket": make_socket}
        for what, make in makes.items():
            make(os.path.join(work, STORE))
            for words in commands:
                answer = run(work, *words, timeout=20, **how)
                check(answer == (3, b"", f"hookhost: cannot use {STORE}\n".encode()), f"with {what} at the store's name {words!r} says {answer!r}")
            if what != "nothing":
                (os.rmdir if what == "a folder" else os.remove)(os.path.join(work, STORE))
    os.rename(kept, os.path.join(work, STORE))
    check(run(work, "status", **how) == (0, b"A b\n", b""), "the repository is another")


def make_socket(path):
    import socket
    with socket.socket(socket.AF_UNIX) as end:
        end.bind(path)


def takes_no_lock_whose_file_is_gone_or_elsewhere(folder):
    """A lock that was opened and then removed keeps nobody out, and a link may lead out of the folder."""
    work = configured(new(folder, "work"))
    before = stored(work)
    env = {**os.environ, "LD_PRELOAD": helper_in(folder), "REMOVE_AT_LOCK": LOCK}
    for words in (["status"], ["add", "a"], ["commit", "-m", "x"]):
        refuses(work, words, f"cannot use {LOCK}", env=env)
        check(not os.path.exists(os.path.join(work, LOCK)), "the lock was not removed")
        do(work, "status")
    os.remove(os.path.join(work, LOCK))
    write(work, "outside", b"kept")
    os.symlink("../outside", os.path.join(work, LOCK))
    for words in (["status"], ["add", "a"]):
        refuses(work, words, f"cannot use {LOCK}")
    check(Path(work, "outside").read_bytes() == b"kept" and stored(work) == before, "the repository is another")


# ---- kills

def holds_change(log):
    """Whether the log may hold a change: its first page has the log's mark."""
    held = Path(log).read_bytes() if os.path.exists(log) else b""
    return len(held) > 56 and held[16:24] == held[40:48]


def leaves_what_was_shown_in_the_file_alone(folder):
    """A command is killed after each of its waits for the disk. What one that only reads shows then, from before it or after it, is in
    the file of the store, which alone is the repository."""
    work, helper = configured(new(folder, "work")), helper_in(folder)
    write(work, "new", b"2\n" * 5000)
    for words in (["add", "new"], ["run", "--hook-stage=manual"], ["commit", "-m", "second"], ["forget"]):
        before, done = shown(work), copy_of(work, "done")
        run(done, *words)
        after, logs = shown(done), 0
        for at in range(1, 100):
            killed = copy_of(work, "killed")
            ended = run(killed, *words, env={**os.environ, "LD_PRELOAD": helper, "KILL_AT_WAIT": str(at)})[0]
            logs += holds_change(os.path.join(killed, STORE + "-wal"))
            first = LOOKS[at % len(LOOKS)]
            looked = do(killed, first)
            alone = new(folder, "alone")
            os.mkdir(os.path.join(alone, ".hookhost"))
            shutil.copyfile(os.path.join(killed, STORE), os.path.join(alone, STORE))
            found = shown(alone)
            # What its hooks answered is put before the command's own change.
            is_one = found[:3] in (before[:3], after[:3]) and (found[3] in (before[3], after[3]) or words[0] in ("run", "commit"))
            check(is_one and found[LOOKS.index(first)] == looked, f"{words!r} killed at wait {at} leaves {found!r}, of which {looked!r} was shown")
            shutil.rmtree(killed)
            shutil.rmtree(alone)
            if ended != -signal.SIGKILL:
                break
        check(ended != -signal.SIGKILL and logs > 1, f"of {at} kills of {words!r} {logs} left a change in the log")
        shutil.rmtree(work)
        os.rename(done, work)


LOOKS = ("status", "fixes", "log", "memory")


def shown(folder):
    """What the commands show that only read."""
    return [do(folder, look) for look in LOOKS]


# ---- the environment, and the limits of the process

def skips_no_hook_by_bytes_that_are_no_text(folder):
    work = configured(new(folder, "work"))
    whole = run(work, "run", "--fresh")
    for text in (b"\xff", b"look,\xff", b"\xff,look", b"look\xff", b"\xed\xa0\x80"):
        answer = run(work, "run", "--fresh", env={**os.environb, b"SKIP": text})
        check(answer == whole and b"Skipped" not in answer[1], f"with SKIP={text!r} it says {answer!r}")
    check(b"Skipped" in run(work, "run", "--fresh", env={**os.environ, "SKIP": "look"})[1], "no hook is skipped at all")


def limited(most):
    """What lets the files of the program have only so many bytes. Past them the system ends a program by a signal, unless that looks."""
    return lambda: resource.setrlimit(resource.RLIMIT_FSIZE, (most, most))


def refuses_to_write_past_the_limit_of_the_process(folder):
    """A command is done, or refused in words and without a trace, for any limit of its files' length."""
    work = configured(new(folder, "work"))
    write(work, "large", os.urandom(60_000))
    ends = []
    # What hooks see is written to files too, the configuration as the longest.
    for words, least in ((["add", "large"], 0), (["rm", "a"], 0), (["forget"], 0), (["commit", "--no-verify", "-m", "x"], 0), (["run", "--hook-stage=manual"], len(HOOKS))):
        done, before = copy_of(work, "done"), shown(work)
        run(done, *words)
        after = shown(done)
        for most in (0, 1, 56, len(HOOKS), 4096, 8192, 20_000, 50_000, 70_000, 150_000, 400_000, 1_000_000):
            if most < least:
                continue
            copy = copy_of(work, "copy")
            status, out, err = run(copy, *words, preexec_fn=limited(most))
            ends.append(status)
            found = shown(copy)
            check(status in (0, 1) and found == after or status == 3 and err.startswith(b"hookhost: ") and found[:3] == before[:3], f"{words!r} within {most} bytes ends with {status}, says {err!r}, and leaves {found!r}")
            check(run(copy, "status", preexec_fn=limited(0)) == (0, found[0], b""), "a command that only reads writes")
            shutil.rmtree(copy)
        shutil.rmtree(done)
    check(ends.count(0) > 3 and ends.count(3) > 10, f"the commands end with {ends!r}")


CASES = [waits_for_no_fifo_that_is_named, reads_no_fifo_that_takes_the_name_of_a_file, reads_the_pipes_that_it_is_handed,
         ends_as_with_a_full_output_where_it_is_closed, hands_its_hooks_the_streams_that_they_have_ever, ends_where_nobody_reads_its_output,
         makes_files_of_the_modes_that_the_mask_says, tells_of_the_store_before_it_looks_at_the_lock, takes_no_lock_whose_file_is_gone_or_elsewhere,
         leaves_what_was_shown_in_the_file_alone, skips_no_hook_by_bytes_that_are_no_text, refuses_to_write_past_the_limit_of_the_process]
