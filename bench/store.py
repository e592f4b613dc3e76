#!/usr/bin/env python3
"""Times calls on a store in a real file and the same rows by the program sqlite3, in one run, and prints ratios.

Usage: bench/store.py [PROGRAM]   (default: crates/store_trial/out/store_trial)

Stagings are each a transaction of their own. Opening is timed after 1, 10 and 100 commits of 1,000 files of 400 bytes, once with
the same contents in each commit and once with other contents in each. It is compared with what the database alone takes: to open
the file, and to open it, read each table once and hash the contents. The other calls are timed after each of those openings, since
they are to cost the same whatever the history. The first staging is timed apart from the next 100, so that one sees what opening
leaves for it to do. Each time is wall time in milliseconds, the least of several runs. A run that writes gets a copy. The peak
memory is of the whole process. It is compared with the contents held, and with what the database alone takes: to put contents into
their table, and to open a file and read its tables.
"""
import hashlib
import os
import shutil
import sqlite3
import subprocess
import sys
import tempfile
import time

sys.path.insert(0, os.path.dirname(os.path.abspath(__file__)))
from timing import HERE, show

PROGRAM = os.path.abspath(sys.argv[1] if len(sys.argv) > 1 else os.path.join(HERE, "..", "crates/store_trial/out/store_trial"))
SQLITE = shutil.which("sqlite3") or sys.exit("bench/store.py: there is no sqlite3 to compare with")
SIZE, FILES, LARGE = 400, 1000, 16777216
# A seed that no history has.
NEW = 1000000
# The log, the syncs and the checks of references that a store has.
PRAGMAS = "PRAGMA journal_mode = WAL; PRAGMA synchronous = FULL; PRAGMA foreign_keys = ON;\n"
READ = [
    "SELECT name, value FROM meta ORDER BY name",
    "SELECT digest, bytes FROM blobs ORDER BY digest",
    "SELECT path, mode, digest FROM staged ORDER BY path",
    "SELECT path, gone, digest FROM fixes ORDER BY path",
    "SELECT n, message FROM commits ORDER BY n",
    "SELECT n, path, mode, digest FROM entries ORDER BY n, path",
    "SELECT words, seen, output, changes, status FROM answers ORDER BY words, seen",
    "SELECT words, seen, tick FROM uses ORDER BY tick",
]


def contents_of(size, seed, at):
    return f"{seed} {at} ".encode().ljust(size, b".")[:size]


def new_contents(seed, count):
    """So many texts that no history has."""
    return [contents_of(SIZE, NEW + seed, at).decode() for at in range(count)]


# What is timed after each opening, in turn in one play, and its lines. Calls that change staged files take others of them.
CALLS = [
    ("the first staging", [f"stage-many 1 {SIZE} {NEW}"]),
    ("the next 100", [f"stage-many 100 {SIZE} {NEW + 1}"]),
    ("100 unstagings", [f"unstage many/{at:06}" for at in range(100, 200)]),
    ("10 times a fix set and accepted", [line for at, text in enumerate(new_contents(2, 10), 200)
                                         for line in (f"fix many/{at:06} {text}", "set", "accept")]),
    ("10 commits of the staged files", ["commit m"] * 10),
    ("100 contents kept", [f"blob {text}" for text in new_contents(3, 100)]),
    ("the staged files, read 10 times", ["staged"] * 10),
    ("the files of HEAD, read 10 times", ["head"] * 10),
    ("the files of commit 1, read 10 times", ["tree 1"] * 10),
]


class Play:
    """A running store_trial, whose lines are timed one at a time."""

    def __init__(self, path):
        self.child = subprocess.Popen([PROGRAM, path], stdin=subprocess.PIPE, stdout=subprocess.PIPE)

    def ask(self, line):
        """The milliseconds until the line is answered."""
        start = time.perf_counter()
        self.child.stdin.write(line.encode() + b"\n")
        self.child.stdin.flush()
        answer = self.child.stdout.readline()
        took = (time.perf_counter() - start) * 1000
        if not answer.startswith(b"ok"):
            sys.exit(f"{line[:80]!r} is answered {answer[:200]!r}")
        return took

    def peak(self):
        """The peak memory so far in MB. The figure of wait4 counts this script's own memory too, from before the exec."""
        with open(f"/proc/{self.child.pid}/status") as status:
            return next(int(line.split()[1]) for line in status if line.startswith("VmHWM:")) * 1024 / 1e6

    def end(self):
        """Ends the program, and answers its peak memory in MB."""
        peak = self.peak()
        self.child.stdin.close()
        self.child.stdout.read()
        self.child.stdout.close()
        if self.child.wait():
            sys.exit(f"store_trial ended with {self.child.returncode}")
        return peak


def played(path, lines):
    """The milliseconds of each line, and the peak memory."""
    play = Play(path)
    times = [play.ask(line) for line in lines]
    return times, play.end()


def by_sqlite(path, text):
    """The milliseconds that sqlite3 takes for SQL on a file."""
    with tempfile.TemporaryFile() as script:
        script.write(text.encode())
        script.seek(0)
        start = time.perf_counter()
        subprocess.run([SQLITE, "-batch", path], stdin=script, stdout=subprocess.DEVNULL, check=True)
        return (time.perf_counter() - start) * 1000


def staging_rows(count, seed):
    """The statements of so many stagings, each a transaction."""
    for at in range(count):
        bytes_ = contents_of(SIZE, seed, at)
        digest = hashlib.sha256(bytes_).hexdigest()
        yield (f"BEGIN; INSERT OR IGNORE INTO blobs VALUES (x'{digest}', x'{bytes_.hex()}'); DELETE FROM fixes; "
               f"DELETE FROM staged WHERE path = 'many/{at:06}'; INSERT INTO staged VALUES ('many/{at:06}', 0, x'{digest}'); COMMIT;\n")


def copy(path, to):
    """A copy of a closed store, without what an earlier one of that name left in its log."""
    if os.path.exists(to + "-wal"):
        os.remove(to + "-wal")
    shutil.copyfile(path, to)
    return to


def time_stagings(folder):
    empty = os.path.join(folder, "empty.db")
    played(empty, ["create", "close"])
    for count in (1000, 10000):
        ours, other = copy(empty, os.path.join(folder, f"ours{count}.db")), copy(empty, os.path.join(folder, f"other{count}.db"))
        times, peak = played(ours, ["open", f"stage-many {count} {SIZE} 0", "close"])
        beside = by_sqlite(other, PRAGMAS + "".join(staging_rows(count, 0)))
        show(f"{count} stagings of {SIZE} bytes", times[1], beside, "sqlite3")
        print(f"{'':44} {times[1] / count:9.3f} ms each; peak memory {peak:.1f} MB, {peak * 1e6 / (count * SIZE):.1f} times the contents")
    return ours, other


def time_large_commit(ours, other):
    times, _ = played(ours, ["open", "commit m"])
    beside = by_sqlite(other, PRAGMAS + "BEGIN; INSERT INTO commits VALUES (1, x'6d'); "
                       "INSERT INTO entries SELECT 1, path, mode, digest FROM staged; DELETE FROM fixes; COMMIT;")
    show("one commit of 10000 files", times[1], beside, "sqlite3")


def tell_peak(peak, held, alone):
    """Prints a peak in MB and that of the database alone, for so many bytes of contents."""
    told = "; ".join(f"{what} {each:.1f} MB, {each * 1e6 / held:.1f} times" for what, each in alone)
    print(f"{'':44} peak memory {peak:.1f} MB, {peak * 1e6 / held:.1f} times the contents; {told}")


def time_large_contents(folder):
    ours, other, alone, bytes_ = (os.path.join(folder, name) for name in ("large.db", "large_other.db", "large_alone.db", "bytes"))
    played(ours, ["create", "close"])
    copy(ours, other)
    copy(ours, alone)
    with open(bytes_, "wb") as file:
        file.write(contents_of(LARGE, 0, 0))
    digest = hashlib.sha256(contents_of(LARGE, 0, 0)).hexdigest()
    times, peak = played(ours, ["open", f"stage-many 1 {LARGE} 0", "close"])
    beside = by_sqlite(other, PRAGMAS + f"BEGIN; INSERT INTO blobs VALUES (x'{digest}', readfile('{bytes_}')); "
                       f"INSERT INTO staged VALUES ('many/000000', 0, x'{digest}'); COMMIT;")
    show("16 MiB of contents in", times[1], beside, "sqlite3")
    tell_peak(peak, LARGE, [("the database alone", played(alone, [f"insert-alone {LARGE}"])[1])])
    times, peak = played(ours, ["open", "weigh"])
    beside = by_sqlite(other, "SELECT writefile('/dev/null', bytes) FROM blobs;")
    show("16 MiB of contents out, by an opened store", sum(times), beside, "sqlite3")
    print(f"{'':44} opened in {times[0]:.1f} ms")
    tell_peak(peak, LARGE, [("to open the database alone", played(ours, ["connect"])[1]), ("and read it", played(ours, ["read-tables"])[1])])


def rows_of_history(commits, are_same):
    """The rows of a store with so many commits of FILES files, as tables."""
    blobs, entries = {}, []
    for number in range(1, commits + 1):
        seed = 1 if are_same else number
        for at in range(FILES):
            bytes_ = contents_of(SIZE, seed, at)
            digest = hashlib.sha256(bytes_).digest()
            blobs[digest] = bytes_
            entries.append((number, f"many/{at:06}", 0, digest))
    staged = [row[1:] for row in entries[-FILES:]]
    return blobs, entries, staged


def make_history(path, commits, are_same):
    """Makes a store with so many commits, by its rows, and answers how many MB of contents it has."""
    played(path, ["create", "close"])
    blobs, entries, staged = rows_of_history(commits, are_same)
    with sqlite3.connect(path) as held:
        held.executemany("INSERT INTO blobs VALUES (?, ?)", blobs.items())
        held.executemany("INSERT INTO staged VALUES (?, ?, ?)", staged)
        held.executemany("INSERT INTO commits VALUES (?, x'6d')", ((number,) for number in range(1, commits + 1)))
        held.executemany("INSERT INTO entries VALUES (?, ?, ?, ?)", entries)
    held.close()
    return sum(map(len, blobs.values())) / 1e6


def least_of_line(path, line, runs=5):
    """The least milliseconds of a line that is a program's only one, and the peak memory of such a run."""
    all_runs = [played(path, [line]) for _ in range(runs)]
    return min(times[0] for times, _ in all_runs), min(peak for _, peak in all_runs)


def times_of_calls(path):
    """The milliseconds of each of CALLS, over a copy of a closed store, which the disk has written before."""
    play = Play(copy(path, path + ".more"))
    os.sync()
    play.ask("open")
    times = [sum(play.ask(line) for line in lines) for _, lines in CALLS]
    play.end()
    return times


def time_calls(paths, contents, rounds=9):
    """The stores take turns, so that a slow moment of the machine falls on none of them alone."""
    all_rounds = [[times_of_calls(path) for path in paths] for _ in range(rounds)]
    for at, (what, _) in enumerate(CALLS):
        times = [min(each[place][at] for each in all_rounds) for place in range(len(paths))]
        print(f"{what} after 1, 10 and 100 commits of {contents} contents: {', '.join(f'{each:.1f}' for each in times)} ms; "
              f"ratio of the last to the first {times[-1] / times[0]:.2f}, aim 1")


def time_opening(folder, are_same):
    contents = "the same" if are_same else "other"
    paths = []
    for commits in (1, 10, 100):
        path = os.path.join(folder, f"{commits}{are_same}.db")
        paths.append(path)
        held = make_history(path, commits, are_same)
        ours, peak = least_of_line(path, "open")
        alone, alone_peak = least_of_line(path, "connect")
        read, read_peak = least_of_line(path, "read-tables")
        beside = min(by_sqlite(path, ";\n".join(READ) + ";\n") for _ in range(5))
        checked = min(by_sqlite(path, "PRAGMA integrity_check; PRAGMA foreign_key_check;\n" + ";\n".join(READ) + ";\n") for _ in range(5))
        show(f"opening {commits} commits of {FILES} files, {contents} contents", ours, beside, "sqlite3, rows read  ")
        show("", ours, checked, "and the file checked")
        print(f"{'':44} {alone:9.2f} ms of it to open the database alone, {read:.2f} ms to open, read and hash: ratio {ours / read:.2f}")
        print(f"{'':44} {os.path.getsize(path) / 1e6:9.1f} MB of file, {held:.1f} MB of contents")
        tell_peak(peak, held * 1e6, [("to open the database alone", alone_peak), ("and read it", read_peak)])
    time_calls(paths, contents)


def main():
    with tempfile.TemporaryDirectory() as folder:
        ours, other = time_stagings(folder)
        time_large_commit(ours, other)
        time_large_contents(folder)
        for are_same in (True, False):
            time_opening(folder, are_same)


if __name__ == "__main__":
    main()
