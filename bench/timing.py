"""What the benchmarks share: what is timed and how much of it, the least time and the peak memory of a command, and a
line of figures."""
import os
import subprocess
import sys
import time

HERE = os.path.dirname(os.path.abspath(__file__))


def program():
    """The program that is timed: the first argument, or the built one."""
    return os.path.abspath(sys.argv[1] if len(sys.argv) > 1 else os.path.join(HERE, "..", "crates/hookhost/out/hookhost"))


def is_asked(option):
    """Whether the script was given this option, which is no word of its any longer then."""
    is_given = option in sys.argv
    sys.argv[:] = [word for word in sys.argv if word != option]
    return is_given


def asked_parts(parts):
    """The parts that the script was asked for by --part=NAME, in their order, or all. The options are no words then."""
    options = [word for word in sys.argv[1:] if word.startswith("--part=")]
    sys.argv[:] = [word for word in sys.argv if word not in options]
    wanted = {option.removeprefix("--part=") for option in options}
    if not wanted <= set(parts):
        sys.exit(f"{sys.argv[0]}: the parts are {', '.join(parts)}")
    return [part for part in parts if not options or part in wanted]


def once(words, given="/dev/null"):
    """The wall time of the command in milliseconds, its input being that file, its output going to /dev/null."""
    null_out = [(os.POSIX_SPAWN_OPEN, fd, "/dev/null", os.O_WRONLY, 0) for fd in (1, 2)]
    null_in = [(os.POSIX_SPAWN_OPEN, 0, given, os.O_RDONLY, 0)]
    start = time.perf_counter()
    child = os.posix_spawnp(words[0], words, os.environ, file_actions=null_in + null_out)
    _, status = os.waitpid(child, 0)
    took = (time.perf_counter() - start) * 1000
    if os.waitstatus_to_exitcode(status) not in (0, 1):
        sys.exit(f"{words[0]} ended with {os.waitstatus_to_exitcode(status)}")
    return took


def in_folder(folder, words, given="/dev/null"):
    """The wall time of the command in that folder, which becomes this process's current folder."""
    os.chdir(folder)
    return once(words, given)


def least(words, runs=15):
    """The least wall time of the command."""
    return min(once(words) for _ in range(runs))


def least_in_turn(commands, runs=40):
    """The least wall time of each command, each in its folder. They take turns, so that a busy moment hits them alike."""
    times = [[] for _ in commands]
    for _ in range(runs):
        for which, (folder, words) in enumerate(commands):
            times[which].append(in_folder(folder, words))
    return [min(each) for each in times]


def seconds_to_settle():
    """For how long a file counts as one that a process may have changed without a sign, and some seconds more."""
    waits = [f"/proc/sys/vm/dirty_{name}_centisecs" for name in ("expire", "writeback")]
    return 4 * sum(int(open(each, encoding="ascii").read()) for each in waits) / 100 + 5


def made_peak(folder):
    """The program of peak.c, built in that folder."""
    helper = os.path.join(folder, "peak")
    subprocess.run(["cc", "-O1", "-o", helper, os.path.join(HERE, "peak.c")], check=True)
    return helper


def peak(helper, words, given="/dev/null"):
    """The peak memory of the command in bytes, by the program of peak.c, with that file as its input."""
    with open(given, "rb") as stdin:
        done = subprocess.run([helper, *words], stdin=stdin, stdout=subprocess.DEVNULL, stderr=subprocess.PIPE,
                              text=True)
    return int(done.stderr.split()[-1]) * 1024


def beside_aim(ratio, aim):
    """The most that a ratio should be, and whether it is; None if there is no aim."""
    return "" if aim is None else f"  aim {aim}: {'met' if ratio <= aim else 'missed'}"


def show(what, ours, other, beside, aim=None):
    """One line: our time, the other program's, and their ratio, with its aim if it has one."""
    ratio = ours / other
    print(f"{what:44} {ours:9.2f} ms  {beside} {other:8.2f} ms  ratio {ratio:6.2f}{beside_aim(ratio, aim)}", flush=True)
