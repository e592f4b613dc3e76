"""Cases of tests/store/store.py: each allocation of a play is refused in turn (tests/shared/refuse_allocation.c). A refused call has
changed nothing, and the store can be opened then."""
import copy
import functools
import os
import shutil
import subprocess
from concurrent.futures import ThreadPoolExecutor

from places import TOP
from sample import IS_SAMPLED, greatest, spread, tally
from store_cases import REFUSED_MIGRATION, REFUSED_PLAY, REFUSED_USES, SHOWN
from store_model import Course, Model, is_stopped_behind, model_over
from store_plants import FIRST_STORE, LAST_TICKS, planting_store
from store_program import answers, ask, check, rows_of, rows_of_model, run


# With --sample one allocation in so many is refused.
SAMPLED_ONE_IN = 10


def refusing_library(folder):
    library = os.path.join(folder, "refuse.so")
    source = os.path.join(TOP, "tests/shared/refuse_allocation.c")
    subprocess.run(["cc", "-shared", "-fPIC", "-O1", "-o", library, source, "-ldl"], check=True)
    return library


def is_want(answer):
    """The call, or the command of a host, was refused for lack of memory. The database's own lack is reported so too."""
    return answer.startswith(("refused\t4\tOutOfMemory\t", "refused\t1\tOutOfMemory\t", "refused\tStore\t4\t"))


@functools.cache
def rows_in(model):
    """The rows that the file of a model must have."""
    return rows_of_model(model.store)


@functools.cache
def shown_when_opened(model):
    """What is answered if the file of a model is opened, and what it shows then."""
    opened = copy.deepcopy(model)
    return [opened.open(), *([] if opened.store is None else opened.shown())]


class RefusedPlay:
    """A play over the file of a planted store, or over none, of which one allocation is refused."""

    def __init__(self, folder, library, name, planted, play):
        self.folder, self.library, self.name = folder, library, name
        self.course = Course(play, model_over(planted) if planted else Model())
        # What is left if the program itself gives up at a line, which may be done or not.
        models = list(zip(self.course.models, self.course.models[1:]))
        self.given_up = [[before, *after.states(copy.deepcopy)] for before, after in models]
        self.behind = {}
        self.file = os.path.join(folder, f"{name}.db") if planted else None
        if planted:
            ask(self.file, planting_store(planted))

    def course_behind(self, at, is_done):
        """The course of the lines after one that was refused, or that is a commit whose last hooks were stopped."""
        if (at, is_done) not in self.behind:
            model, after = (copy.deepcopy(self.course.models[each]) for each in (at + is_done, at + 1))
            # A store that can't be closed is closed all the same, and fixes that can't be set wait no more.
            model.is_open = after.is_open if self.course.play[at] == "close" else model.is_open
            model.waiting = after.waiting
            self.behind[at, is_done] = Course(self.course.play[at + 1:], model)
        return self.behind[at, is_done]

    def models_after(self, given, status):
        """The models of what the file may hold after these answers: a refused call has changed nothing. And whether one
        was refused, or the program gave up."""
        course, at = self.course, self.course.first_other(given)
        if at < len(given):
            line, answer, right = course.play[at], given[at], course.answers[at]
            is_done = is_stopped_behind(answer, right)
            check(is_done or is_want(answer), f"{line!r} is answered {answer!r}, wanted {right!r}")
            behind = self.course_behind(at, is_done)
            rest = given[at + 1:]
            other = behind.first_other(rest)
            check(rest == behind.answers,
                  f"behind {line!r}: {rest[other:][:1]!r}, wanted {behind.answers[other:][:1]!r}")
            course = behind
        elif len(given) < len(course.play):
            check(status == 3, f"status {status} after {len(given)} answers")
            return self.given_up[len(given)], True
        check(status == 0, f"status {status}")
        return [course.models[-1]], course is not self.course

    def run(self, number):
        """Plays with the allocation of this number refused. Answers whether one was, and whether that was noticed."""
        path, mark = (os.path.join(self.folder, f"{self.name}{number}.{end}") for end in ("db", "mark"))
        if self.file:
            shutil.copyfile(self.file, path)
        env = dict(os.environ, LD_PRELOAD=self.library, REFUSE_ALLOCATION=str(number), REFUSED_FILE=mark)
        given, status, said = run(path, self.course.play, env)
        models, is_noticed = self.models_after(given, status)
        check(said == ("store_trial: out of memory\n" if status == 3 else ""), f"allocation {number}: it says {said!r}")
        self.check_file(path, models, f"{self.name}, allocation {number}: ")
        is_refused = os.path.exists(mark)
        for left in (path, path + "-wal", mark):
            if os.path.exists(left):
                os.remove(left)
        return is_refused, is_noticed

    def check_file(self, path, models, place):
        """The file holds what one of the models does, up to the order of what is cached if SQL made it, and can be opened."""
        if self.file:
            found = rows_of(path)
            models = [model for model in models if rows_in(model) == found]
            check(models, f"{place}its rows are {found!r}")
        is_opened, *found = answers(path, ["open", *SHOWN])
        given = [is_opened, *(found if is_opened == "ok" else [])]
        wanted = [shown_when_opened(model) for model in models]
        check(given in wanted, f"{place}it shows {given!r}, wanted one of {wanted!r}")


def refuses_some_allocations(refused):
    """The same if only some are refused. How many are noticed is then those of all, about."""
    count = greatest(lambda number: refused.run(number)[0])
    numbers = spread(range(1, count + 1), max(2, count // SAMPLED_ONE_IN))
    tally(len(numbers), count)
    with ThreadPoolExecutor(max_workers=len(os.sched_getaffinity(0))) as pool:
        played = list(pool.map(refused.run, numbers))
    check(all(is_refused for is_refused, _ in played), f"of {count} allocations some aren't refused: {played!r}")
    return count, sum(is_noticed for _, is_noticed in played) * count // len(played)


def refuses_each_allocation(refused):
    """How many allocations of a play there are, and how many of them are noticed if they are refused."""
    noticed = 0
    with ThreadPoolExecutor(max_workers=len(os.sched_getaffinity(0))) as pool:
        for start in range(1, 1000000, 64):
            played = list(pool.map(refused.run, range(start, start + 64)))
            noticed += sum(is_noticed for _, is_noticed in played)
            if not played[-1][0]:
                return start - 1 + sum(is_refused for is_refused, _ in played), noticed


def refuses_for_want_of_memory(folder):
    """Each allocation of a play of every call is refused in turn; and of plays on planted stores, after which their
    order is reported."""
    library = refusing_library(folder)
    for name, planted, play, least in [
        ("calls", None, REFUSED_PLAY, 100), ("uses", LAST_TICKS, REFUSED_USES, 50),
        ("migration", FIRST_STORE, REFUSED_MIGRATION, 50),
    ]:
        refuse = refuses_some_allocations if IS_SAMPLED else refuses_each_allocation
        count, noticed = refuse(RefusedPlay(folder, library, name, planted, play))
        check(count > least and noticed > least / 2, f"{name}: {count} allocations were refused, and {noticed} noticed")
        print(f"memory, {name}: {count} allocations refused in turn, {noticed} times a call or the program gave up")


CASES = [refuses_for_want_of_memory]
