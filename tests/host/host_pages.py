"""Cases of tests/host/host.py: how much of a large store a command reads."""
import os
import random
import re
import subprocess

from host_program import PROGRAM, STORE, check, do, write

MIB = 1 << 20


def bytes_read(folder, *words):
    """How many bytes the program reads of its files while it does the command."""
    told = os.path.join(folder, "..", "reads")
    done = subprocess.run(["strace", "-qq", "-f", "-e", "trace=read,pread64,readv,preadv", "-o", told, PROGRAM, *words], cwd=folder, stdin=subprocess.DEVNULL, capture_output=True, timeout=300)
    check((done.returncode, done.stderr) == (0, b""), f"{words!r} ends with {done.returncode} and says {done.stderr!r}")
    with open(told, encoding="latin-1") as file:
        return sum(int(count) for count in re.findall(r"= (\d+)$", file.read(), re.MULTILINE))


def each_page_of_a_large_store_is_read_at_most_twice(folder):
    """A look-up reads the store's file no more than twice, although the file has more pages than the library keeps by itself."""
    work = os.path.join(folder, "work")
    os.mkdir(work)
    do(work, "init")
    content = random.Random(60)
    for number in range(4):
        write(work, f"file{number}", content.randbytes(6 * MIB))
    do(work, "add", ".")
    size = os.path.getsize(os.path.join(work, STORE))
    check(size > 24 * MIB, f"the store has {size} bytes")
    count = bytes_read(work, "status")
    check(count <= 2 * size + MIB, f"of {size} bytes {count} are read")


CASES = [each_page_of_a_large_store_is_read_at_most_twice]
