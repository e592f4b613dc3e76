#!/usr/bin/env python3
"""Compares `arg_partition::words` with Python's own `shlex.split`, on random texts.

Usage: tests/peers/compare_words.py [TEXTS [SEED]]   (default: 200000 texts, seed 1)

The program `selection_trial` must be built, by `rt run`. One process of it answers all texts. They are made of blanks, quotes,
backslashes and a few characters between, and of characters that are blanks to Python and not to `shlex`. The words must be the same,
and so must the refusal if there is one. No difference is allowed.
"""
import os
import random
import shlex
import subprocess
import sys

sys.path.insert(0, os.path.abspath(f"{__file__}/../../shared"))
from places import program

PROGRAM = program("selection_trial")

# Quotes, backslashes and blanks often, so that most texts have several; then what could be taken for one of them.
OFTEN = ["'", '"', "\\", "\\", " ", "a", "b"]
HARD = ["\t", "\r", "\n", "#", "$", "`", "~", "*", ";", "\v", "\f", "\x1c", "\0", "\u00a0", "\u00e9", "\u2028", "\u65e5", "\U0001f600",
        "''", '""', "\\'", '\\"', "\\\\", "n", "-", "=", "("]

REFUSALS = {"No closing quotation": "1 OpenQuote", "No escaped character": "2 NothingEscaped"}


def texts(count, seed):
    rng = random.Random(seed)
    for _ in range(count):
        yield "".join(rng.choice(OFTEN if rng.random() < 0.7 else HARD) for _ in range(rng.randint(0, 14)))


def ours(rows):
    """The answers of one process to all texts."""
    if not os.path.exists(PROGRAM):
        sys.exit("tests/peers/compare_words.py: there is no crates/selection_trial/out/selection_trial: build it with `rt run` in crates/selection_trial")
    lines = "".join(f"words {text.encode().hex() or '-'}\n" for text in rows)
    ran = subprocess.run([PROGRAM], input=lines.encode(), capture_output=True, check=True)
    return [bytes.fromhex(answer).decode() for answer in ran.stdout.decode().splitlines()]


def theirs(text):
    """Python's words, as the program for tests shows them."""
    try:
        return "".join(f"\n{word}" for word in shlex.split(text))
    except ValueError as refused:
        return REFUSALS[str(refused)]


def main():
    count, seed = (int(word) for word in (sys.argv[1:] + ["200000", "1"][len(sys.argv) - 1:]))
    rows = list(texts(count, seed))
    answers = ours(rows)
    kinds = {"words": 0, **{refusal: 0 for refusal in REFUSALS.values()}}
    failed = abs(len(answers) - len(rows))
    for text, answer in zip(rows, answers):
        wanted = theirs(text)
        kinds[wanted if wanted in kinds else "words"] += 1
        if answer != wanted:
            failed += 1
            if failed < 10:
                print(f"compare_words: {text!r}\n  shlex {wanted!r}\n  ours  {answer!r}")
    for kind, number in kinds.items():
        if not number:
            failed += 1
            print(f"compare_words: no text was answered by {kind}")
    print(f"compare_words: {kinds['words']} texts with words, {kinds['1 OpenQuote']} OpenQuote, {kinds['2 NothingEscaped']} NothingEscaped")
    print(f"compare_words: {len(rows) - failed} passed, {failed} failed")
    sys.exit(1 if failed else 0)


main()
