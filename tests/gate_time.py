#!/usr/bin/env python3
"""Runs the parts of tests/run or tests/prove, up to the first that fails, and prints the last line of each and the time that it took.

Usage: tests/gate_time.py --name=NAME --budget=N --programs=COMMAND [--in=FOLDER] [--sample] FILE

FILE has a command on each line, and comments. Those before the line `--` run in turn. Then COMMAND makes the programs, and prints
when each is made. A line after `--` names the programs that its command runs, and then the command. These run side by side and are
begun in this order, each once its programs are made: one for each processor, and more while a processor is idle. While COMMAND
runs, one is begun if a processor is idle. The output of each is shown once it has ended. All of these run in FOLDER. N is how many
processor minutes all may take; the summary says so if it is more. The last line, `N passed, M failed`, counts the cases of all
scripts: each ends with a line that counts its own.

A command that ends in `[--sample]` gets this word if this script has it, and then has to play a sample of its cases, which its last
line says. Without the word it has to play all.

A part's processor time is what the system counts for it and for all that it started. If it is the checker's, the processes below it
are looked at twice a second. Their time is counted for the crate that their command line or folder names: for its proofs, its
must-fail edits, or its program (built and run). The time of a process after its last look, and of one that names no crate, is
counted for the part itself.
"""
import argparse
import os
import re
import shlex
import signal
import subprocess
import sys
import threading
import time
from collections import defaultdict

PAUSE, IDLE_SECONDS = 0.5, 5
START = time.monotonic()
TICKS = os.sysconf("SC_CLK_TCK")
PHASES = ["proofs", "edits", "program"]
# The last line of a script.
CASES = re.compile(r"(\d+) passed, (\d+) failed(?: \(a sample: ([\d,]+ of [\d,]+ [\w ]+)\))?$")
# What the checker, or tests/trial_programs.py, prints of a program that is made.
MADE = re.compile(rb"(?:rt: )?(\w+)(?: proved|: the proved program|: built without proofs .*)\n")


def processes():
    """Each running process: its parent, when it began, and the seconds of processor time that it took itself."""
    found = {}
    for name in filter(str.isdigit, os.listdir("/proc")):
        try:
            with open(f"/proc/{name}/stat", "rb") as file:
                fields = file.read().rpartition(b")")[2].split()
        except OSError:
            continue
        found[int(name)] = int(fields[1]), fields[19], (int(fields[11]) + int(fields[12])) / TICKS
    return found


def work_of(process):
    """The crate and the phase that a process works for, by its command line and its folder, or None."""
    try:
        folder = os.readlink(f"/proc/{process}/cwd")
        with open(f"/proc/{process}/cmdline", "rb") as file:
            words = file.read().decode(errors="replace").split("\0")
    except OSError:
        return None
    line = " ".join(words)
    if ran := re.search(r"/rt-run-\w+/bin/(\w+)", line):
        return ran[1], "program"
    if checked := re.search(r"--crate-name (\w+)", line):
        if "/rt-edit-" in folder:
            return checked[1], "edits"
        return checked[1], "program" if "--crate-checked" in words else "proofs"
    if linked := re.search(r"/crates/(\w+)$", folder):
        return linked[1], "program"
    if laid_out := re.search(r"/rattle fmt .*?/crates/(\w+)/", line):
        return laid_out[1], "proofs"
    return None


class Watch:
    """The processor time of all processes below one, by what they work for."""

    def __init__(self, top):
        self.top, self.works, self.took, self.is_over = top, {}, {}, False
        self.thread = threading.Thread(target=self.run)
        self.thread.start()

    def run(self):
        while not self.is_over:
            self.look()
            time.sleep(PAUSE)

    def look(self):
        found = processes()
        for process, (_, began, took) in found.items():
            chain = [process]
            while chain[-1] in found and chain[-1] != self.top:
                chain.append(found[chain[-1]][0])
            if chain.pop() == self.top:
                # What a command starts works for the same as the command.
                works = [self.work_at(each, found[each][1]) for each in chain]
                if known := [work for work in works if work]:
                    self.took[process, began] = known[-1], took

    def work_at(self, process, began):
        """What the process works for. It is asked again until it is known, since a command begins as a copy of what starts it."""
        if not self.works.get((process, began)):
            self.works[process, began] = work_of(process)
        return self.works[process, began]

    def end(self):
        """The seconds by crate and phase."""
        self.is_over = True
        self.thread.join()
        sums = defaultdict(float)
        for work, took in self.took.values():
            sums[work] += took
        return sums


class Part:
    """A part of the gate: its command and the programs that it runs. Once it ran: its status, its last line, its seconds, and those of
    processors."""

    def __init__(self, name, folder=".", programs=()):
        self.name, self.folder, self.programs = name, folder, frozenset(programs)
        self.status, self.said, self.took, self.seconds, self.by_work = None, "", 0.0, 0.0, {}

    def run(self, show):
        """Runs the part, and shows its lines as they come."""
        start = time.monotonic()
        with subprocess.Popen(shlex.split(self.name), cwd=self.folder, stdin=subprocess.DEVNULL, stdout=subprocess.PIPE, stderr=subprocess.STDOUT) as command:
            watch = Watch(command.pid) if self.name.startswith("rt ") else None
            try:
                for line in command.stdout:
                    show(line)
                    self.said = line.decode(errors="replace").strip() or self.said
                _, status, used = os.wait4(command.pid, 0)
                command.returncode = os.waitstatus_to_exitcode(status)
            finally:
                if command.returncode is None:
                    command.terminate()
                self.by_work = watch.end() if watch else {}
        self.status, self.took, self.seconds = command.returncode, time.monotonic() - start, used.ru_utime + used.ru_stime
        if not self.status and bool(self.sample()) != self.name.endswith(" --sample"):
            self.status, self.said = 1, f"it doesn't play what it has to, a sample or all: {self.said}"

    def cases(self):
        """How many cases passed and failed by its last line. A part that fails without such a line counts as one that failed."""
        counts = CASES.search(self.said) if not self.name.startswith("rt ") else None
        passed, failed = (int(counts[at]) for at in (1, 2)) if counts else (0, 0)
        return passed, failed or int(bool(self.status))

    def sample(self):
        """How many of how many cases a sample has, by its last line, or None if it says that it played all."""
        counts = CASES.search(self.said)
        return counts[3] if counts else None


def show(line):
    sys.stdout.buffer.write(line)
    sys.stdout.flush()


def minutes():
    """How long the gate has been running. So the lines of a run that was cut off show the time at which it came to each."""
    return f"{(time.monotonic() - START) / 60:.1f} minutes"


def with_time(line):
    """A line of the checker, with the time if it is the first one on a crate."""
    return b"after " + minutes().encode() + b": " + line if line.startswith(b"== ") else line


def run_in_turn(parts):
    """Runs the parts up to the first that fails, and says whether all passed."""
    for part in parts:
        print(f"after {minutes()}: {part.name}", flush=True)
        part.run(show)
        if part.status:
            return False
    return True


class Idleness:
    """Whether a processor that the gate may use has been idle for the last seconds."""

    def __init__(self):
        self.begin()

    def begin(self):
        """Looks from now on."""
        self.since, self.before = time.monotonic(), self.idle_seconds()

    @staticmethod
    def idle_seconds():
        """How long the processors have been idle, all together."""
        ours = {f"cpu{number}" for number in os.sched_getaffinity(0)}
        with open("/proc/stat", encoding="ascii") as file:
            lines = [line.split() for line in file]
        return sum(int(words[4]) + int(words[5]) for words in lines if words[0] in ours) / TICKS

    def is_there(self):
        """Whether one has been idle since the last time. It is asked at most every IDLE_SECONDS seconds."""
        passed = time.monotonic() - self.since
        if passed < IDLE_SECONDS:
            return False
        idle = self.idle_seconds() - self.before
        self.begin()
        return idle >= 0.9 * passed


class SideBySide:
    """What makes the programs, and the scripts that play them."""

    def __init__(self, maker, scripts):
        self.maker, self.scripts, self.left, self.running = maker, scripts, list(scripts), []
        self.made, self.printing, self.idleness = set(), threading.Lock(), Idleness()

    def run(self):
        """Runs all, up to the first that fails. Those that run at that time go on to their end."""
        making = threading.Thread(target=self.make)
        making.start()
        while making.is_alive() or self.running or self.left:
            self.running = [thread for thread in self.running if thread.is_alive()]
            if self.has_failed():
                self.left = []
            if part := self.next(making.is_alive()):
                self.left.remove(part)
                self.running.append(threading.Thread(target=self.play, args=[part]))
                self.running[-1].start()
            else:
                time.sleep(PAUSE)

    def make(self):
        print(f"after {minutes()}: {self.maker.name}", flush=True)
        self.maker.run(self.hear)

    def hear(self, line):
        if found := MADE.fullmatch(line):
            self.made.add(found[1].decode())
        with self.printing:
            show(with_time(line))

    def play(self, part):
        lines = []
        part.run(lines.append)
        with self.printing:
            print(f"after {minutes()}: {part.name}, within {part.took / 60:.1f} minutes", flush=True)
            show(b"".join(lines))

    def has_failed(self):
        return any(part.status for part in [self.maker, *self.scripts])

    def next(self, is_making):
        """The script to begin now, if any."""
        processors = len(os.sched_getaffinity(0))
        # A script whose program was not made is started at the end, and fails.
        ready = [part for part in self.left if not is_making or part.programs <= self.made]
        is_free = not is_making and len(self.running) < processors or len(self.running) < 2 * processors and self.idleness.is_there()
        return ready[0] if ready and is_free else None


def show_times(parts):
    """The processor minutes as a table, a line for each crate and for each part."""
    sums = defaultdict(float)
    for part in parts:
        for work, took in part.by_work.items():
            sums[work] += took
    print(f"{'processor minutes':28}" + "".join(f"{each:>9}" for each in [*PHASES, "sum"]))
    for crate in sorted({crate for crate, _ in sums}, key=lambda it: -sum(sums[it, phase] for phase in PHASES)):
        row = [sums[crate, phase] / 60 for phase in PHASES]
        print(f"  {crate:26}" + "".join(f"{each:9.1f}" for each in [*row, sum(row)]))
    row = [sum(sums[it] for it in sums if it[1] == phase) / 60 for phase in PHASES]
    print(f"  {'all crates':26}" + "".join(f"{each:9.1f}" for each in [*row, sum(row)]))
    for part in parts:
        own = max(part.seconds - sum(part.by_work.values()), 0) / 60
        print(f"  {part.name + (', the rest' if part.by_work else ''):60}{own:9.1f}, within {part.took / 60:.1f} minutes")


def show_samples(name, parts):
    """Which scripts played a sample of their cases, and of how many."""
    sampled = [part for part in parts if part.sample()]
    print(f"{name}: these played a sample of their cases, and tests/prove plays all of them:")
    for part in sampled:
        passed, failed = part.cases()
        print(f"{name}:   {part.name.removesuffix(' --sample')}: {part.sample()}: {passed:,} passed, {failed:,} failed")


def parts_of(file, folder, is_sample):
    """The parts that run in turn, and the scripts that play programs."""
    lines = [line.strip() for line in file.read().splitlines() if line.strip() and not line.startswith("#")]
    lines = [re.sub(r" \[--sample\]$", " --sample" if is_sample else "", line) for line in lines]
    cut = lines.index("--")
    scripts = [line.split(": ", 1) for line in lines[cut + 1:]]
    return [Part(name, folder) for name in lines[:cut]], [Part(name, folder, programs.split()) for programs, name in scripts]


def options():
    reader = argparse.ArgumentParser(description="Runs the parts of tests/run or tests/prove.")
    reader.add_argument("--name", required=True)
    reader.add_argument("--budget", type=int, required=True)
    reader.add_argument("--programs", required=True)
    reader.add_argument("--in", dest="folder", default=".")
    reader.add_argument("--sample", action="store_true")
    reader.add_argument("file", type=argparse.FileType())
    return reader.parse_args()


def main():
    signal.signal(signal.SIGTERM, lambda number, _: sys.exit(128 + number))
    words = options()
    first, scripts = parts_of(words.file, words.folder, words.sample)
    maker = Part(words.programs)
    if run_in_turn(first):
        SideBySide(maker, scripts).run()
    parts = [*first, maker, *scripts]
    ran = [part for part in parts if part.status is not None]
    show_times(ran)
    for part in ran:
        print(f"{words.name}: {part.name}: {'FAILED with status ' + str(part.status) if part.status else 'passed'}: {part.said}")
    for part in parts:
        if part.status is None:
            print(f"{words.name}: {part.name}: not run")
    took = sum(part.seconds for part in ran) / 60
    is_well = bool(parts) and all(part.status == 0 for part in parts)
    over = ", OVER THE BUDGET" if took > words.budget else ""
    print(f"{words.name}: {'passed' if is_well else 'FAILED'}: {took:.1f} processor minutes of at most {words.budget}{over}, "
          f"in {minutes()} on {len(os.sched_getaffinity(0))} processors")
    if not any(part.name.startswith("rt ") for part in parts):
        print(f"{words.name}: no proof was checked: tests/prove does that")
    if words.sample:
        show_samples(words.name, ran)
    passed, failed = map(sum, zip(*(part.cases() for part in parts)))
    print(f"{passed:,} passed, {failed:,} failed")
    sys.exit(0 if is_well else 1)


main()
