"""Cases of tests/host/host.py: files and folders that may not be read or written, and fifos in their place."""
import os
import shutil

from host_program import LOCK, STORE, check, do, owned_by_nobody, refuses, run, write



def refuses_what_may_not_be_read_or_written(folder):
    program, user = owned_by_nobody(folder)
    how = {"program": program, **user}
    work = os.path.join(folder, "work")
    write(work, "a.txt", b"1")
    write(work, "secret.txt", b"2")
    os.chmod(os.path.join(work, "secret.txt"), 0)
    os.chmod(work, 0o555)
    refuses(work, ["init"], f"cannot use {STORE}", **how)
    check(sorted(os.listdir(work)) == ["a.txt", "secret.txt"], "a refused init leaves something")
    os.chmod(work, 0o777)
    check(run(work, "init", **how) == (0, b"", b"") and run(work, "add", "a.txt", **how) == (0, b"", b""), "nobody has no repository")
    refuses(work, ["add", "secret.txt"], "cannot use secret.txt", **how)
    refuses(work, ["add", "a.txt", "secret.txt", "nowhere"], "cannot use secret.txt", **how)
    write(os.path.join(work, "shut"), "b", b"3")
    os.chmod(os.path.join(work, "shut"), 0)
    refuses(work, ["add", "."], "cannot use shut", **how)
    os.chmod(os.path.join(work, "shut"), 0o755)
    shutil.rmtree(os.path.join(work, "shut"))
    for path, mode, named in ((LOCK, 0o444, LOCK), (STORE, 0, STORE), (".hookhost", 0, STORE)):
        path = os.path.join(work, path)
        before = os.stat(path).st_mode
        os.chmod(path, mode)
        refuses(work, ["status"], f"cannot use {named}", **how)
        os.chmod(path, before)
    check(run(work, "status", **how) == (0, b"A a.txt\n", b""), "the repository is another")


def refuses_fifos_and_waits_for_none(folder):
    """Opening a fifo waits for its other end, so a program that does would never end."""
    for at, (path, named) in enumerate(((".hookhost", STORE), (STORE, STORE), (LOCK, LOCK))):
        work = os.path.join(folder, str(at))
        os.mkdir(work)
        if path == LOCK:
            do(work, "init")
            os.remove(os.path.join(work, LOCK))
        elif path == STORE:
            os.mkdir(os.path.join(work, ".hookhost"))
        os.mkfifo(os.path.join(work, path))
        for words in (["status"], ["add", "a.txt"]):
            refuses(work, words, f"cannot use {named}")
        refuses(work, ["init"], f"cannot use {STORE}")
    work = os.path.join(folder, "below")
    os.makedirs(os.path.join(work, "dir"))
    os.mkfifo(os.path.join(work, "dir", "fifo"))
    write(work, "dir/a", b"1")
    do(work, "init")
    refuses(work, ["add", "dir/fifo", "dir/a"], "cannot use dir/fifo")
    do(work, "add", "dir")
    check(do(work, "status") == b"A dir/a\n", "a fifo below a folder is staged")
    work = os.path.join(folder, "new")
    os.makedirs(os.path.join(work, ".hookhost"))
    os.mkfifo(os.path.join(work, LOCK))
    refuses(work, ["init"], f"cannot use {LOCK}")
    os.rename(os.path.join(work, LOCK), os.path.join(work, STORE + "-wal"))
    refuses(work, ["init"], f"cannot use {STORE}")


CASES = [refuses_what_may_not_be_read_or_written, refuses_fifos_and_waits_for_none]
