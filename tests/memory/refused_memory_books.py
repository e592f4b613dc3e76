"""What tests/memory/refused_memory.py plays of books and of hosts, of which each allocation is refused: runs over one book by the
program run_trial, and commands of a host by hook_trial.
"""
import re
import tempfile
from dataclasses import dataclass

from host_model import (CONFIGURATION, OUT_OF_MEMORY, Answer, FixedTable, Hook, Machine, Memory, call_of,
                        configuration_text, ended, played, words_of_rows)
from host_plays import TXT, add, commands_of, host_of, plain as plain_file, words_of
from refused_allocation import HOOK_TRIAL, OF_PLAY, RUN_TRIAL, all_of, end_with_refusal, line_of, some_of
from sample import IS_SAMPLED

# How many allocations at the beginning and the end are refused, and how many between. The first pair is for the lists of commands that a
# host plays, and the second for the one with limits.
OF_HOST, OF_LIMITS = (200, 800), (100, 500)

# ---- runs over one book

# Hooks of one child each, and the rows by which children answer.
BOOK_HOOKS = "repos:\n- repo: local\n  hooks:\n" + "".join(
    f"  - {{id: h{at}, name: H{at}, language: system, entry: c{at}}}\n" for at in range(4)
)
BOOK_ROWS = [f"answer {at}\nc{at}\ta.txt\na.txt=x\n{'a.txt=x' if at == 1 else ''}\nsaid {at}\n" for at in range(4)]
BOOK_RUN = ["run", "plain", "0", "0", "signal", "0", "memory"]
# What a run is answered by: its verdict or its refusal, how many children were started, and how many of them failed. It also has what is
# reported, and which rows of the table are cached.
BOOK_ANSWER = re.compile(r"(passed|failed|1 OutOfMemory: out of memory), (\d) calls, (\d) faults\n((?:.*\n)*?)"
                         r"(\d) remembered:((?: held| lacking)*)\n")


@dataclass
class BookPlay:
    """Runs of all hooks over a book of a limit. Each has the rows of the table at that time, and how many children it starts."""
    name: str
    limit: int
    tables: list
    calls: list

    def words(self):
        words, before = [BOOK_HOOKS, "file", "plain", "a.txt", "x\n", "limit", str(self.limit)], []
        for table in self.tables:
            if table[:len(before)] != before:
                words, before = [*words, "others"], []
            words += [word for at in table[len(before):] for word in ("child", BOOK_ROWS[at])] + BOOK_RUN
            before = table
        return words


BOOK_PLAYS = [
    # In the first run children answer for the first two hooks alone.
    BookPlay("runs over one book", 10_000, [[0, 1], *[[0, 1, 2, 3]] * 3], [4, 2, 0, 0]),
    # With one hook more than answers each run starts all. Then the order shows in which the run before used them: one is dropped for the
    # answer of the first hook.
    BookPlay("runs over a book of three answers", 3, [[0, 1], *[[0, 1, 2, 3]] * 2, [3], [3, 0], [3, 0]], [4, 2, 4, 1, 2, 1]),
]


@dataclass
class BookRun:
    """What a run over the book is answered by. The rows that are held are numbers."""
    refused: bool
    calls: int
    faults: int
    report: str
    held: set


def book_runs(play, refused, shared, folder):
    """How the program ended, what it answered, whether the allocation of this number (0: none) was refused, and the runs, if they were
    reported."""
    line = line_of("play_book", play.words())
    (status, out, err), was_refused = end_with_refusal([RUN_TRIAL], refused, shared, folder, folder, line)
    text = bytes.fromhex(out.decode().strip()).decode()
    runs = [book_run(table, *told) for table, told in zip(play.tables, BOOK_ANSWER.findall(text))]
    return (status, text, err), was_refused, runs


def book_run(table, verdict, calls, faults, report, _, rows):
    held = {at for at, word in zip(table, rows.split()) if word == "held"}
    return BookRun(verdict[0] == "1", int(calls), int(faults), report, held)


def with_front(book, at, limit):
    """The numbers of the rows that are cached, once this one is used or put."""
    return (at, *(other for other in book if other != at))[:limit]


def steps_of(book, table, limit):
    """What a run of all hooks comes to after each of its look-ups, starts and puts: how many children were started, the
    hooks whose children failed, and the book."""
    calls, failed, steps = 0, (), [(0, (), book)]
    for at in range(len(BOOK_ROWS)):
        has_failed = at not in book and at not in table
        calls, failed = calls + (at not in book), failed + (at,) * has_failed
        steps.append((calls, failed, book))
        book = book if has_failed else with_front(book, at, limit)
        steps.append((calls, failed, book))
    return steps


def report_of(failed, plain):
    """What a run reports in which these hooks have no answer. Of the runs with nothing refused all have one in the second,
    and in the first the last one has none."""
    (*_, unanswered), answered = (re.split(r"^(?=H\d\.)", run.report, flags=re.MULTILINE)[1:] for run in plain[:2])
    without = (unanswered.replace("H3", f"H{at}").replace("h3", f"h{at}") for at in range(len(answered)))
    return "".join(told[at in failed] for at, told in enumerate(zip(answered, without)))


def books_behind(run, books, table, limit, plain):
    """The books that there may be after a run that reported this, of those that there may have been before. To learn which rows are held
    uses them, in the order of the table."""
    found = set()
    for steps in (steps_of(book, table, limit) for book in books):
        for calls, failed, after in steps if run.refused else steps[-1:]:
            held = [at for at in table if at in after]
            told = calls, len(failed), "" if run.refused else report_of(failed, plain), set(held)
            if (run.calls, run.faults, run.report, run.held) == told:
                for at in held:
                    after = with_front(after, at, limit)
                found.add(after)
    return found


def gave_up(end):
    """Whether the program itself was refused memory, or read no configuration for lack of it."""
    return end == (3, "", b"out of memory\n") or end[0] == 0 and end[1].startswith("12 OutOfMemory at ")


def refuse_among_remembered(play, shared):
    """How many allocations were refused in turn, how many runs were, and what was wrong, if anything."""
    with tempfile.TemporaryDirectory() as folder:
        well, _, plain = book_runs(play, 0, shared, folder)
        if well[0] or [run.calls for run in plain] != play.calls or wrong_runs(play, well, plain, plain):
            return 0, 0, f"ended with {well} with nothing refused"
        refused, count = [0] * len(plain), 0
        for allocation in all_of(lambda number: book_runs(play, number, shared, folder)[1], *OF_PLAY):
            end, was_refused, runs = book_runs(play, allocation, shared, folder)
            if not was_refused:
                is_well = (any(refused) if IS_SAMPLED else all(refused[:3])) and end == well
                return count, sum(refused), None if is_well else f"ended with {end}, and {refused} were refused"
            count += 1
            wrong = wrong_runs(play, end, runs, plain)
            if wrong:
                return count, sum(refused), f"{wrong} where allocation {allocation} was refused: {end}"
            refused = [count + run.refused for count, run in zip(refused, runs)] if runs else refused


def wrong_runs(play, end, runs, plain):
    """What is wrong with the runs of a program in which an allocation was refused, if anything."""
    if gave_up(end):
        return None
    if (end[0], end[2]) != (0, b"") or len(runs) != len(plain) or sum(run.refused for run in runs) > 1:
        return "ended otherwise"
    books = {()}
    for at, (run, table) in enumerate(zip(runs, play.tables)):
        books = books_behind(run, books, table, play.limit, plain)
        if not books:
            return f"run {at} {'tells something else' if run.refused else 'is not the run from scratch'}"
    return None


# ---- lists of commands of a host

def twice(commands):
    """The commands, of which all that may ask for hooks or change what they left are made twice."""
    return [each for command in commands for each in [command] * (1 if command[0] == "add" else 2)]


def places_of(memory, commands):
    """The places at which memory may be refused to commands that start as many children as these have."""
    numbers = range(1, len(commands) + 1)
    yield from ((word, number) for word in ("command", "post") for number in numbers)
    yield from ((call, place) for call in range(1, memory.calls + 1) for place in ("start", "put"))


def told_where_refused(hooks, commands):
    """Each answer to the commands if memory is refused once, or never, and the place at which it is."""
    host = host_of(hooks)
    well = played(host, commands)
    told = {played(host_of(hooks, want=want), commands): want for want in places_of(host.memory, commands)}
    # What is cached is forgotten after the commands.
    forgotten = re.compile(rb"( remembered\n)\d+ forgotten\n")
    assert len(forgotten.findall(well)) == 1
    return told | {well: None, forgotten.sub(rb"\1refused " + OUT_OF_MEMORY.encode() + b"\n", well): ("forget", 1)}


def refuse_host_play(hooks, commands, shared):
    """How many allocations were refused in turn, the places at which the host said so, and what was wrong, if anything."""
    commands = twice(commands_of(hooks, commands))
    line, told = line_of("play", words_of(commands)), told_where_refused(hooks, commands)
    return refuse_line(line, told, OF_HOST, shared, lambda came: wrong_places(came, commands))


def refuse_line(line, told, numbers, shared, wrong_among):
    """The same of a line of hook_trial that may be answered so, and of the places at which memory was refused."""
    with tempfile.TemporaryDirectory() as folder:
        play = lambda number: end_with_refusal([HOOK_TRIAL], number, shared, folder, folder, line)
        count, came = 0, set()
        for number in some_of(lambda number: play(number)[1], *numbers):
            (status, out, err), was_refused = play(number)
            if not was_refused:
                is_well = told.get(bytes.fromhex(out.decode()), 0) is None
                wrong = None if IS_SAMPLED and came - {None} else wrong_among(came)
                return count, came, wrong if is_well else f"answered {out} with nothing refused"
            count += 1
            if (status, out, err) == (3, b"", b"out of memory\n"):
                continue
            answer = bytes.fromhex(out.decode())
            if (status, err) != (0, b"") or answer not in told:
                return count, came, f"ended with {status}, {answer}, {err} where allocation {number} was refused"
            came.add(told[answer])


def wrong_places(came, commands):
    """Which commands, of those that a growth can be refused to, never said so."""
    kinds = {commands[place[1] - 1][0] for place in came - {None} if place[0] == "command"}
    missing = {command[0] for command in commands} - {"forget"} - kinds
    return f"memory was never refused to {missing}" if missing else None


# ---- limits of a host

# A child for each file: one of two answers is dropped if a third comes, the one that was used least lately.
LOOKING = [Hook("look", "Look", entry="look", files=TXT, stages=["pre-commit"], x_per_file=True)]
FILES = ["a.txt", "b.txt", "c.txt"]
LOOKING_TABLE = FixedTable([(["look", path], plain_file(path, b"x\n"), Answer(0, b"", {})) for path in FILES])


def runs_on(*files):
    """A run on each of these."""
    return [("run", "pre-commit", each, "", "remembering", "") for each in files]


LIMITED = [
    add(CONFIGURATION, configuration_text(LOOKING)), *(add(path, b"x\n") for path in FILES),
    *twice([("limit", 2), *runs_on("all", "c.txt", "b.txt", "a.txt", "b.txt")]),
    *twice([("limit", 1), *runs_on("b.txt", "a.txt", "all")]),
]


class LookingMemory(Memory):
    """A memory that may be refused to a look-up too, if `want` is ("find", its number). The book is then as it was."""

    def __init__(self, table, want=None):
        super().__init__(table, want=want)
        self.looked = 0

    def told(self, words, seen, is_fresh):
        self.looked += 1
        self.refuse_at("find", self.looked)
        return super().told(words, seen, is_fresh)


def limited(want=None):
    """What hook_trial answers to each of the commands with limits, and what it reports then, if memory is refused so."""
    host = Machine(LookingMemory(LOOKING_TABLE, want), {configuration_text(LOOKING): (LOOKING, False)})
    replies = [host.reply(call_of(command)).printed() for command in LIMITED]
    return [*replies, host.shown() + host.memory.counts() + host.memory.take_rows()], host.memory


def untaken(replies):
    """The same if standard output, which is kept in memory, takes only a beginning of what one command prints, and the number of that
    command."""
    for at, reply in enumerate(replies[:-1]):
        out = reply.partition(b"\n")[2]
        for taken in range(len(out)):
            cut = ended(3, out[:taken], b"hookhost: standard output was not taken\n")
            yield b"".join([*replies[:at], cut, *replies[at + 1:]]), ("out", at + 1)


def refuse_limits(shared):
    """How many allocations were refused in turn, the places at which the host said so, and what was wrong, if anything."""
    well, memory = limited()
    places = [*places_of(memory, LIMITED), *(("find", number) for number in range(1, memory.looked + 1))]
    told = dict(untaken(well)) | {b"".join(limited(want)[0]): want for want in places} | {b"".join(well): None}
    steps = [word for command in LIMITED for word in ("line", "all", "all", *command)]
    words = [str(word) if isinstance(word, int) else word for word in [*words_of_rows(LOOKING_TABLE.rows), *steps]]
    return refuse_line(line_of("command_over", [*words, "store", "counts"]), told, OF_LIMITS, shared, wrong_limits)


def wrong_limits(came):
    """What memory was never refused to, of what has to be refused it."""
    words = {word for place in came - {None} for word in place}
    kinds = words | {LIMITED[number - 1][0] for word, number in came - {None} if word == "command"}
    missing = {"add", "limit", "find", "put"} - kinds
    return f"memory was never refused to {missing}" if missing else None
