"""Cases of tests/children/children.py: children that are asked ahead of their turns, of which several run at once.

Each runs in a folder of its own, and is started while it is waited for one of them. Only those of a tree of over 400 files first share
a folder, and run at once when they are asked: once one of them changed anything there, they run again apart.
"""
import os
import random
from pathlib import Path

from children_trial import MIB, SEEN, TELLING, TREE, Trial, check, digits, equal

# A tree that is so large that its children share a folder.
LARGE = TREE | {f"many/{number:03}": b"%d\n" % number for number in range(400)}
# What a child may do, by how often: pass, fail, print, wait, end by a signal. None changes anything in its folder.
QUIET = [
    ":", "exit 3", "echo out; echo err >&2", "sleep 0.02; cat a.txt", "f=$(mktemp); echo x > $f; rm $f; ls d", "sleep 0.01; exit 255",
    "head -c 70000 /dev/zero | tr '\\0' x", "kill -9 $$", "cat d/c.txt b.txt; exit 1", "wc -c < d-e",
]
LOUD = ["echo more >> a.txt", "rm d/c.txt", "printf %s new > b.txt; exit 1"]
# Changes of which nothing may be left at the end, but which another child may have found meanwhile.
BRIEF = [
    "touch new", "mkdir new", "ln -s a.txt new", "touch d/new", "mkdir -p .mypy_cache", "mkdir d/__pycache__", "touch .git/x",
    "c=$(cat a.txt); : > a.txt; sleep 0.05; printf '%s\\n' \"$c\" > a.txt", "cat a.txt > ../copy$$; mv ../copy$$ a.txt", "mv a.txt ../a$$; mv ../a$$ a.txt",
    "mv a.txt x; mv x a.txt", "touch new; rm new", "touch d/new; rm d/new", "mkdir d/x; rmdir d/x", "chmod +x a.txt", "chmod +x a.txt; chmod -x a.txt",
    "chmod 700 d; chmod 755 d", "chmod 755 .", "ln a.txt ../x$$; rm ../x$$", "mkdir .git/x; rmdir .git/x", "touch -d 2001-01-01 a.txt", "touch a.txt",
    "mv d ../d$$; mv ../d$$ d", "setfattr -n user.x -v y a.txt || chmod g-w a.txt",
]


def counting(trial, commands):
    """The commands, each of which also notes that it was started."""
    log = f"{trial.top}/log"
    Path(log).touch()
    os.chmod(log, 0o666)
    return [f"echo {number} >> {log}; {command}" for number, command in enumerate(commands)], log


def ahead(trial, most, commands):
    trial.ask("ahead", digits(str(most)), *map(digits, commands))


def starts(log):
    """How often each command was started, by its number."""
    return sorted(Path(log).read_text().split())


def may_share():
    """Whether children share a folder: only if the times of files show each change, and aren't left aside."""
    return TELLING and not Trial.reads


def in_turn(tree, commands, most):
    """The outcomes of commands that were asked ahead, how often each was started before the first turn, and in all; and the outcomes of
    those that weren't asked ahead."""
    one, other = Trial(tree), Trial(tree)
    counted, log = counting(one, commands)
    ahead(one, most, counted)
    begun = starts(log)
    told = [one.sh(each) for each in counted]
    again = starts(log)
    wanted = [other.sh(each) for each in counting(other, commands)[0]]
    one.sees_the_tree("children that were asked ahead")
    for trial in (one, other):
        trial.end()
        equal(sorted(os.listdir(f"{trial.top}/h")), ["scratch"], f"what is left of {commands!r}, {most} at once")
    return told, wanted, begun, again


def numbers_of(commands, times=1):
    return sorted(times * [str(number) for number in range(len(commands))])


def children_ahead_answer_as_in_their_turns():
    """Whatever they do, and however many run at once, each answers as in its turn, and is started once. A child that gave no answer is
    started again in its turn, which then says why."""
    play = random.Random(58)
    for at, most in enumerate((1, 2, 3, 8, 64, 2, 4)):
        commands = [play.choice(QUIET + LOUD + BRIEF if at % 2 else QUIET) for _ in range(play.randrange(2, 12))]
        told, wanted, _begun, again = in_turn(TREE, commands, most)
        equal(told, wanted, f"outcomes of {commands!r}, {most} at once")
        killed = [str(number) for number, command in enumerate(commands) if command == "kill -9 $$"]
        equal(again, sorted(numbers_of(commands) + killed), f"starts of {commands!r}, {most} at once")


def what_a_child_ahead_leaves_is_found_by_none():
    """Children run while another one has changed its folder, in each way, and answer as in their turns. Each is started once."""
    for change in LOUD + BRIEF:
        one, other = Trial(TREE), Trial(TREE)
        meet = f"{one.top}/meet"
        os.mkdir(meet)
        os.chmod(meet, 0o777)
        waits = "for i in $(seq 600); do [ -e %s/%s ] && break; sleep 0.05; done"
        commands = [f"({change}); touch {meet}/changed; {waits % (meet, 'looked')}", f"{waits % (meet, 'changed')}; {SEEN}; touch {meet}/looked"]
        commands, log = counting(one, [*commands, SEEN])
        ahead(one, 2, commands)
        equal([one.sh(each) for each in commands], [other.sh(each) for each in commands], f"outcomes next to {change!r}")
        equal(starts(log), 2 * ["0"] + 2 * ["1"] + 2 * ["2"], f"starts next to {change!r}, those of their turns among them")
        one.end()
        other.end()


def an_answer_ahead_doesnt_name_its_folder():
    """A child that writes the path of its folder, on its outputs or into a file, runs again in its turn: the path is that of the turns."""
    for writes in ("pwd", "pwd >&2; exit 3", "pwd > a.txt", "basename \"$PWD\" > d/c.txt"):
        trial = Trial(TREE)
        meet = f"{trial.top}/meet"
        os.mkdir(meet)
        os.chmod(meet, 0o777)
        waits = f"for i in $(seq 600); do [ $(ls {meet} | wc -l) -lt 3 ] || break; sleep 0.05; done"
        commands, log = counting(trial, [f"touch {meet}/{number}; {waits}; {writes}" for number in range(3)])
        ahead(trial, 3, commands)
        told = [trial.sh(each) for each in commands]
        equal(told, 3 * told[:1], f"outcomes of {writes!r}")
        check("scratch." not in str(told), f"the outcomes of {writes!r} name another folder: {told!r}")
        check(len(starts(log)) == 5, f"{writes!r} was started {len(starts(log))} times, wanted 5")
        trial.end()


def children_of_a_large_tree_share_a_folder():
    """Those that change nothing answer as in their turns, and are started once. If one of them changes anything in the folder, if only for a
    moment, all run again, each in a folder of its own: another may have found it."""
    play = random.Random(59)
    quiet = [play.choice(QUIET[:6]) for _ in range(6)]
    for change in [None, *LOUD, *(BRIEF if may_share() else BRIEF[:2])]:
        commands = quiet if change is None else ["cat a.txt", change, "ls -A d . | sort", "exit 1"]
        told, wanted, begun, again = in_turn(LARGE, commands, 4)
        equal(told, wanted, f"outcomes next to {change!r}")
        wanted = [], numbers_of(commands, 2 if change and may_share() else 1)
        equal((begun, again), wanted, f"starts next to {change!r}, before the first turn and in all")


def answers_ahead_are_of_one_tree():
    """An answer isn't given on another tree, nor to other words, nor twice."""
    trial = Trial(TREE)
    (look, other), log = counting(trial, ["cat a.txt", "cat b.txt"])
    ahead(trial, 2, [look, other])
    equal(trial.sh(look), (0, b"one\n", {}), "the answer of its turn")
    equal(trial.sh(look), (0, b"one\n", {}), "the same once more")
    equal(starts(log).count("0"), 2, "the starts so far")
    trial.file("a.txt", b"three\n")
    before = starts(log)
    equal(trial.sh(other), (0, b"two\n", {}), "the answer on another tree")
    equal(starts(log), [*before, "1"], "the starts on another tree")
    trial.file("a.txt", b"one\n")
    equal(trial.sh(other), (0, b"two\n", {}), "the answer on the first tree again")
    equal(starts(log), [*before, "1", "1"], "the starts in all")
    trial.end()


def children_ahead_run_at_once():
    """As many run at once as are allowed: each waits until all of them have begun."""
    trial = Trial(TREE)
    meet = f"{trial.top}/meet"
    os.mkdir(meet)
    os.chmod(meet, 0o777)
    waits = f"for i in $(seq 600); do [ $(ls {meet} | wc -l) -lt 4 ] || exit 0; sleep 0.05; done; exit 1"
    commands = [f"touch {meet}/{number}; {waits}" for number in range(4)]
    ahead(trial, 4, commands)
    equal([trial.sh(each) for each in commands], 4 * [(0, b"", {})], "children that wait for each other")
    trial.end()


def no_more_children_run_at_once_than_allowed():
    """The third begins only once one of the first two has ended."""
    trial = Trial(TREE)
    log = f"{trial.top}/order"
    commands = [f"echo begins >> {log}; sleep 0.2; echo ends >> {log}" for _ in range(5)]
    commands = [f"{command} # {number}" for number, command in enumerate(commands)]
    ahead(trial, 2, commands)
    equal([trial.sh(each) for each in commands], 5 * [(0, b"", {})], "children that note when they run")
    running = most = 0
    for word in Path(log).read_text().split():
        running += 1 if word == "begins" else -1
        most = max(most, running)
    equal((most, running), (2, 0), "the most that ran at once, and how many are left")
    trial.end()


def large_outputs_of_many_are_whole():
    """Each output up to the limit is kept, however they come; one past the limit is a fault in its turn."""
    trial = Trial(TREE)
    letters = "abcdef"
    commands = [f"head -c {MIB} /dev/zero | tr '\\0' {letter}" for letter in letters] + ["head -c 20000000 /dev/zero"]
    ahead(trial, 4, commands)
    for letter, command in zip(letters, commands):
        status, output, changes = trial.sh(command)
        check((status, len(output), set(output), changes) == (0, MIB, {ord(letter)}, {}), f"the output of {letter} has {len(output)} bytes")
    equal(trial.sh(commands[-1]), "OutputTooLong", "the child that writes too much")
    trial.end()


def a_call_ahead_keeps_no_answer():
    """If a call is recorded while they run, none of their answers is kept: in its turn that child alone is a fault."""
    trial = Trial(TREE, env=os.environ | {"CHILD_TRIAL_CALLS": "calls"})
    calls = f"{trial.top}/calls"
    commands = ["echo fine", f"echo called >> {calls}", "echo good"]
    ahead(trial, 3, commands)
    equal([trial.sh(each) for each in commands], [(0, b"fine\n", {}), "ScratchFailed", (0, b"good\n", {})], "children of which one calls")
    trial.end()


def an_answer_ahead_doesnt_wait_for_others():
    """The first answer is given while another child runs, and the run can end then: its end waits for that child."""
    trial = Trial(TREE)
    os.chmod(trial.top, 0o777)
    waits = f"for i in $(seq 600); do [ -e {trial.top}/%s ] && break; sleep 0.05; done"
    first = f"{waits % 'begun'}; echo first"
    ahead(trial, 2, [first, f"touch {trial.top}/begun; {waits % 'go'}; touch {trial.top}/over"])
    equal(trial.sh(first), (0, b"first\n", {}), "the first of them, while the second runs")
    check(not os.path.exists(f"{trial.top}/over"), "the second has ended before it could")
    Path(f"{trial.top}/go").touch()
    trial.end()
    check(os.path.exists(f"{trial.top}/over"), "the run has ended before a child that was asked ahead")
    equal(sorted(os.listdir(f"{trial.top}/h")), ["scratch"], "what is left then")


def a_child_in_its_turn_runs_alone():
    """A child that wasn't asked ahead begins once all others have ended. Those that weren't started yet run after it, each once."""
    trial = Trial(TREE)
    log = f"{trial.top}/order"
    Path(log).touch()
    os.chmod(log, 0o666)
    notes = "echo begins >> {0}; sleep 0.1; echo ends >> {0}; echo {1}"
    commands = [notes.format(log, number) for number in range(6)]
    ahead(trial, 3, commands)
    equal(trial.sh(commands[0]), (0, b"0\n", {}), "the first of them")
    equal(trial.sh(f"[ $(grep -c begins {log}) = $(grep -c ends {log}) ]"), (0, b"", {}), "a child in its turn, while others were at work")
    equal([trial.sh(each) for each in commands[1:]], [(0, b"%d\n" % number, {}) for number in range(1, 6)], "the others")
    equal(Path(log).read_text().count("begins"), 6, "the starts of all of them")
    trial.end()


def a_lost_folder_ahead_is_made_again():
    """If one of them removes its folder, it fails in its turn, and the next child finds the folder whole."""
    trial, other = Trial(TREE), Trial(TREE)
    commands = ["echo one", 'rm -rf "$PWD"', 'sleep 0.1; rm -rf "$PWD".run "$PWD"', "echo two; cat a.txt", "sleep 0.1; echo three"]
    ahead(trial, 3, commands)
    equal([trial.sh(each) for each in commands], [other.sh(each) for each in commands], "children of which some remove their folders")
    trial.sees_the_tree("a lost folder")
    trial.end()
    other.end()
