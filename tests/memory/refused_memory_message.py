"""Hooks about a message in a file, for tests/memory/refused_memory.py: with any allocation refused, the file holds what it held or what the
hooks made of it, as the program says, and nothing lies next to it."""
import os
import re
import shutil
import tempfile

from refused_allocation import PROGRAM, end_with_refusal, some_of

# How many allocations at the beginning and the end are refused, and how many between.
OF_MESSAGE = (220, 300)
BEFORE, AFTER = b"first\n", b"first\na line\n"
NO_MEMORY = re.compile(rb"hookhost: refused: [14] OutOfMemory\n")


def play(number, shared, folder):
    """How the hooks of commit-msg end if the allocation of this number (0: none) is refused, whether it was, what the message's file then
    holds, and what lies next to it."""
    work = os.path.join(folder, "work")
    shutil.rmtree(work, ignore_errors=True)
    shutil.copytree(os.path.join(shared, "there", ".hookhost"), os.path.join(work, ".hookhost"))
    with open(os.path.join(work, "message"), "wb") as file:
        file.write(BEFORE)
    said, was_refused = end_with_refusal([PROGRAM, "hook", "commit-msg", "message"], number, shared, folder, work, b"")
    with open(os.path.join(work, "message"), "rb") as file:
        return said, was_refused, file.read(), sorted(os.listdir(work))


def refuse_message(shared):
    """How many allocations were refused in turn, how often the program gave up, and what was wrong, if anything."""
    with tempfile.TemporaryDirectory() as folder:
        plain, _, changed, beside = play(0, shared, folder)
        if plain[0] or changed != AFTER:
            return 0, 0, f"{plain} with nothing refused leaves {changed}"
        count = gave_up = 0
        for number in some_of(lambda number: play(number, shared, folder)[1], *OF_MESSAGE):
            said, was_refused, held, names = play(number, shared, folder)
            if not was_refused:
                return count, gave_up, None if (said, held) == (plain, AFTER) else f"{said} with nothing refused leaves {held}"
            count += 1
            is_refusal = said[0] == 3 and NO_MEMORY.fullmatch(said[2])
            gave_up += bool(is_refusal)
            if names != beside or (said, held) != (plain, AFTER) and not (is_refusal and held == BEFORE):
                return count, gave_up, f"allocation {number}: {said} leaves {held} and {names}"
