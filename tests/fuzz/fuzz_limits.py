"""Cases of tests/fuzz/fuzz.py: values that limit how many answers are cached, and runs in between."""
import re
import shutil

import fuzz_inputs
from fuzz_answers import Answer, is_no_text
from fuzz_play import NO_TEXT, remembered, text_of
from host_program import check
from stops_books import FIRST_LIMIT, MOST_ANSWERS

# Values that look like a number, of which some are one.
VALUES = [
    "0", "1", "1", "2", "2", "3", "5", "100000", "100001", "+1", "+3", "00002", "0" * 40 + "3", "+0", "-0", "-1", "++1",
    "+-1", "+", "-", "--", "", " ", "1 ", " 1", "1\n", "1\t", "\u00a01", "1,000", "1_0", "1.0", "1e2", "0x1", "1h", "two",
    "NaN", "\u0663", "\uff12", "\u00b2", "\u4e00", "4294967297", "18446744073709551617", "9" * 400, "=1", "1=1", "1 2",
    "1;2", "--limit=1",
]
# Runs print the same each time, with any results cached.
RUNS = [["run", "--all-files"], ["run", "--all-files", "--fresh"], ["run-files", "a.txt"], ["run", "mend"]]
OTHERS = [["forget"], ["status"]]


def limit_in(value):
    """The limit that a value gives, or none. A value is decimal digits, with or without a plus before them, of a number from 1 to
    100,000."""
    text = "" if is_no_text(value) else value if isinstance(value, str) else value.decode()
    number = int(text) if re.fullmatch(r"\+?[0-9]+", text) else 0
    return number if 1 <= number <= MOST_ANSWERS else None


def drawn_value(chance):
    kind = chance.choice(["listed", "listed", "listed", "number", "pieces"])
    if kind == "listed":
        return chance.choice(VALUES)
    if kind == "number":
        return str(chance.randint(*chance.choice([(1, 9), (1, MOST_ANSWERS), (MOST_ANSWERS + 1, 2 ** 70)])))
    return fuzz_inputs.joined(chance, [*fuzz_inputs.TOKENS, b"1", b"2", b"+"], 3).replace(b"\0", b"")


def words_of(chance, value):
    """The words of a limit. Its value is in one word with the option, or comes after it. A value that begins with a dash may not come
    after it."""
    held = value if isinstance(value, bytes) else value.encode()
    is_apart = held and not held.startswith(b"-") and chance.random() < 0.4
    return ["memory", "--limit", held] if is_apart else ["memory", b"--limit=" + held]


def plays_limits(case, bases):
    """Values of `--limit` of any kind, on a repository with cached results."""
    shutil.rmtree(case.folder)
    shutil.copytree(bases.told, case.folder)
    limit, first = FIRST_LIMIT, {tuple(words): case.run(*words) for words in RUNS}
    for _ in range(8):
        count = remembered(case.run("memory"))
        check(count <= limit, f"{count} answers are remembered with a limit of {limit}")
        limit = limits(case, drawn_value(case.chance), count, limit)
        words = case.chance.choice(RUNS + OTHERS)
        answer, wanted = case.run(*words), first.get(tuple(words))
        check(wanted in (None, answer), f"{words!r} says {text_of(answer)}, and before {text_of(wanted)}")


def limits(case, value, count, limit):
    """Plays a value on a repository with so many cached results. Answers the limit then."""
    words, asked = words_of(case.chance, value), limit_in(value)
    if asked is not None:
        case.has(words, Answer(0, f"remembered: {min(count, asked)}\n".encode(), b""))
        return asked
    if is_no_text(value):
        case.has(words, NO_TEXT)
    else:
        answer = case.run(*words)
        check(answer.status == 2, f"a limit of {text_of(value)} is answered by {text_of(answer)}")
    return limit
