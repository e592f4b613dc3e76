"""Cases of tests/store/store.py: a disk in memory that stops at each operation on its log or its database file in turn, and loses what
wasn't synchronized. What is opened then is the state before a line or the state after it.
"""
import collections
import copy
import os
from concurrent.futures import ThreadPoolExecutor

from kept_answers import GREATEST_TICK
from sample import IS_SAMPLED, greatest, spread, tally
from store_cases import LAST, NOT_A_STORE, SHOWN, SQL, STOPPED_CALLS, STOPPED_COMMANDS, STOPPED_RUNS, STOPPED_USES
from store_model import Course, Model, is_stopped_behind, lines_behind, recall_of, recalled_by
from store_plants import STOPPED_MIGRATION, STOPPED_TICKS
from store_program import check, rows_of_model, run_words

# With --sample the disk stops at one operation in so many.
SAMPLED_ONE_IN = 8
# What a call answers if the disk stops, and what a command of a host does. Of several changes none is named then.
STOPPED = (SQL, "refused\t2\tStore\t3", "refused\tStore\t3\tat\tnone")
# What may be left if a play stops: a store, or none. Then how many rows it has, and what it shows and how many rows it has once it is
# opened. Then lines that show in which order its answers are, with what is answered to them.
Left = collections.namedtuple("Left", "store state order")


def counts_of(store):
    """The answer to read-tables: the rows of a store's tables except the contents and the uses, the contents, and that none of them is
    under another's digest. In `meta` a store of version 1 has a row less."""
    rows = rows_of_model(store)
    count = sum(len(rows[table]) for table in ("meta", "staged", "fixes", "commits", "entries", "answers"))
    return f"ok\t{count}\t{len(rows['blobs'])}\t0"


def opened(store):
    """The model of a store once it is opened."""
    model = Model()
    model.store = copy.deepcopy(store)
    model.open()
    return model


def state_of(store):
    if store is None:
        return None
    then = opened(store)
    return [counts_of(store), *then.shown(), counts_of(then.store)]


def lines_of_order(store):
    """If the limit falls by one, the last answer is gone."""
    if store is None:
        return []
    model, lines = opened(store), ["answers", "limit"]
    recalls = [recall_of(answer) for _, answer in model.store["answers"].rows()]
    for count in range(len(recalls) - 1, 0, -1):
        lines += [f"set-limit {count}", recalls[count]]
    lines += recalls[:1]
    return [("crash", "ok"), ("open", "ok"), *((line, model.play(line)) for line in lines)]


def left_as(store):
    return Left(copy.deepcopy(store), state_of(store), lines_of_order(store))


def answered(words, lines):
    """The answers to lines with those that are wanted, on a disk that stops so, and whether they are these."""
    given, status, _ = run_words(words, [line for line, _ in lines])
    return status == 0 and given == [answer for _, answer in lines]


class StoppedPlay:
    """A play in which the disk stops: its course, and what may be left if it stops at a line, or at none."""

    def __init__(self, play):
        self.play, self.course, self.told = play, Course(play, Model()), recalled_by(play)
        models = self.course.models
        stores = [[before.store, *after.states(lambda each: each.store)] for before, after in zip(models, models[1:])]
        self.left = [[left_as(store) for store in each] for each in [*stores, [models[-1].store]]]

    def run(self, which, number):
        """Plays up to the line at which the disk stops, crashes, opens the store again, and plays on. Answers how many lines come before that one, or none if no line was stopped."""
        words = [which, str(number)]
        given, status, _ = run_words(words, self.play)
        # On a disk that stopped, no store can be opened.
        ends = len(given) == len(self.play) or self.play[len(given)] == "open"
        check(ends and status == (0 if len(given) == len(self.play) else 2), f"{words}: status {status} after {given!r}")
        at = self.course.first_other(given)
        check(at < len(given) or at == len(self.play), f"{words}: {at} of {len(self.play)} lines are answered")
        left = self.left[at]
        if at < len(self.play):
            is_behind = is_stopped_behind(given[at], self.course.answers[at])
            check(is_behind or given[at].startswith(STOPPED), f"{words}: {self.play[at]!r} is answered {given[at]!r}")
            if self.play[at].startswith("execute "):
                # This is no call on a store, and only makes one for the lines after it.
                return at
            # If a commit is reported, nothing loses it.
            left = [each for each in left if not is_behind or each.state[1:-1] == left[-1].state[1:-1]]
        self.check_left(words, at, given[:at + 1], left)
        return at if at < len(self.play) else None

    def check_left(self, words, at, given, left):
        """What is opened after the stop is left there, up to the order of its answers, and continues as the model does."""
        played, is_open = self.play[:at + 1], self.course.models[at].is_open
        lines = lines_behind(self.play, at, is_open)
        state, given_on = self.state_behind(words, played, given, left[0].state[1:-1] if is_open else [], lines)
        alike = [each for each in left if each.state == state]
        check(alike, f"{words}: {state!r} is none of {[each.state for each in left]!r}")
        begun = list(zip(played, given))
        found = [each for each in alike if each.store is None or answered(words, [*begun, *each.order])]
        check(found, f"{words}: the answers stand in another order than in any of {len(alike)} stores")
        if lines:
            self.check_lines_behind(f"{words}, behind {played[-1][:200]!r}", at, lines, given_on, found[0].store)

    @staticmethod
    def state_behind(words, played, before, shown, lines_on):
        """What a store shows, and how many rows it has, that is opened after a crash after the lines that were played. It crashes again
        before its rows are counted. Also what is answered to further lines then. Until the first crash it has to show this, if one is
        open. If there is no store, one is made for these lines."""
        lines = [*played, *(SHOWN if shown else []), "crash", "read-tables", "open", *SHOWN, "crash", "read-tables"]
        given, status, _ = run_words(words, [*lines, *lines_on])
        check(status == 0 and len(given) == len(lines + lines_on) and given[:len(played)] == before,
              f"{words}: played again it answers {given!r}, status {status}")
        given, given_on = given[:len(lines)], given[len(lines):]
        still = given[len(played):-len(SHOWN) - 5]
        crashed, counts, is_opened, *found, crashed_again, counts_then = given[-len(SHOWN) - 5:]
        check(crashed == crashed_again == "ok", f"{words}: the crashes are answered {crashed!r} and {crashed_again!r}")
        check(still == shown, f"{words}: a call that was stopped left {still!r} in place of {shown!r}")
        check(is_opened in ("ok", NOT_A_STORE), f"{words}: opened again: {is_opened!r}")
        if is_opened == "ok":
            return [counts, *found, counts_then], given_on
        made, _, _ = run_words(words, [*played, "crash", "create", *lines_on[1:]])
        made = made[len(played):]
        check(made[:2] == ["ok", "ok"], f"{words}: where there is no store, none can be made: {made[:2]!r}")
        return None, made[1:]

    def answers_behind(self, at, lines, store):
        """What the model answers to lines after a stop that left this store. It runs hooks from scratch if no row is cached, and a fix
        that waited for the line that was stopped waits no more."""
        model = copy.deepcopy(self.course.models[at])
        model.store, model.is_open, model.waiting = copy.deepcopy(store), False, {}
        return [model.play("create" if line == "open" and store is None else line) for line in lines]

    def check_lines_behind(self, place, at, lines, given, store):
        """The store has what was answered, and nothing more, and all lines are answered as by the model."""
        for line, answer, right in zip(lines, given, self.answers_behind(at, lines, store)):
            check(answer == right, f"{place}: then {line!r} is answered {answer!r}, wanted {right!r}")
        check(len(given) == len(lines), f"{place}: {len(given)} of {len(lines)} lines are answered then")
        for first in (1, len(lines) - len(self.told) - 1):
            found = dict(zip(self.told, given[first + 1:]))
            kept = [line for line, answer in found.items() if answer != "ok\tnone"]
            check(given[first] == f"ok\t{len(kept)}",
                  f"{place}: of {given[first]!r} answers the children tell {len(kept)}")
            check(all(found[line] in self.told[line] for line in kept), f"{place}: {found!r} isn't what the children told")

    def some_stops(self, which):
        """The same for some of the operations, and how many there are."""
        count = greatest(lambda number: run_words([which, str(number - 1)], self.play)[0] != self.course.answers)
        numbers = spread(range(count), max(2, count // SAMPLED_ONE_IN))
        tally(len(numbers), count)
        with ThreadPoolExecutor(max_workers=len(os.sched_getaffinity(0))) as pool:
            stops = list(pool.map(lambda number: self.run(which, number), numbers))
        check(None not in stops, f"of {count} stops on the {which} some don't come: {stops!r}")
        return stops, count

    def stops(self, which):
        """The lines at which the play stops, as `run` gives them, while the disk stops at each of its operations on a file in turn. And how
        many these are."""
        if IS_SAMPLED:
            return self.some_stops(which)
        with ThreadPoolExecutor(max_workers=len(os.sched_getaffinity(0))) as pool:
            stops = []
            while None not in stops:
                stops += pool.map(lambda number: self.run(which, number), range(len(stops), len(stops) + 64))
        ended = stops.index(None)
        check(stops[ended:].count(None) == len(stops) - ended, f"stopped later on the {which}, a play didn't end")
        return stops[:ended], ended

    def writes(self):
        """Which of the lines change what is in the store, or make it."""
        models = enumerate(zip(self.course.models, self.course.models[1:]))
        return {at for at, (before, after) in models if before.store != after.store}


def is_left_before_or_after_a_line_by_a_stop(play):
    """The disk stops at each operation on the log, and at each on the database file, and loses what wasn't
    synchronized. Each line that writes to the disk has to be stopped."""
    stopped = StoppedPlay(play)
    (stops, of_log), (_, of_database) = (stopped.stops(which) for which in ("log", "database"))
    unstopped = [play[at] for at in stopped.writes() if at not in stops]
    check(not unstopped or IS_SAMPLED and len(unstopped) < len(stopped.writes()) / 2, f"lines that no stop met: {unstopped!r}")
    check(of_log > 40 and of_database > 10, f"too few stops: {of_log} and {of_database}")
    print(f"stops: there are {of_log} operations on the log and {of_database} on the database file")


def is_left_before_or_after_a_call_by_a_stop(_folder):
    is_left_before_or_after_a_line_by_a_stop(STOPPED_CALLS)


def is_left_before_or_after_a_command_by_a_stop(_folder):
    is_left_before_or_after_a_line_by_a_stop(STOPPED_COMMANDS)


def is_left_before_or_after_a_run_by_a_stop(_folder):
    is_left_before_or_after_a_line_by_a_stop(STOPPED_RUNS)


def is_left_before_or_after_a_use_by_a_stop(_folder):
    is_left_before_or_after_a_line_by_a_stop(STOPPED_USES)


def is_of_one_version_behind_a_stop(_folder):
    """A store of version 1 with a commit, a staged file and three answers stays so or is taken over, with all of
    them."""
    is_left_before_or_after_a_line_by_a_stop(STOPPED_MIGRATION)


def is_left_before_or_after_new_ticks_by_a_stop(_folder):
    is_left_before_or_after_a_line_by_a_stop(STOPPED_TICKS)


# ---- between two transactions

def has_tick(words, played, tick):
    """Whether a use has this tick in the store after these lines and a crash. No other may be put in with the same tick then."""
    given, _, _ = run_words(words, [*played, "crash", f"execute INSERT INTO uses VALUES (x'00', x'00', {tick})"])
    return given[-1].startswith(SQL)


def is_whole_between_new_ticks_and_a_use(_folder):
    """Stops leave a store whose ticks end with the greatest, one whose ticks are numbered again, and one in which the
    use has a tick more: all three come."""
    played, found = [*STOPPED_TICKS[:2], LAST], []
    # Each of them means several operations, so that every other one meets all.
    for number in range(0, 1000, 2):
        words = ["log", str(number)]
        given, status, _ = run_words(words, played)
        if given[:2] != ["ok", "ok"]:
            continue
        check(status == 0 and len(given) == len(played), f"{words}: status {status} after {given!r}")
        ticks = [tick for tick in (1, 4, GREATEST_TICK) if has_tick(words, played, tick)]
        found += [ticks] if ticks not in found else []
        if given[2].startswith("ok"):
            break
    check(found == [[GREATEST_TICK], [1], [4]], f"of these ticks there are {found!r} in turn")


CASES = [is_left_before_or_after_a_call_by_a_stop, is_left_before_or_after_a_command_by_a_stop,
         is_left_before_or_after_a_run_by_a_stop, is_left_before_or_after_a_use_by_a_stop,
         is_of_one_version_behind_a_stop, is_left_before_or_after_new_ticks_by_a_stop,
         is_whole_between_new_ticks_and_a_use]
