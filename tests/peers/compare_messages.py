#!/usr/bin/env python3
"""Compares how the message of a commit is cleaned with `git stripspace`, on random messages.

Usage: tests/peers/compare_messages.py [MESSAGES [SEED]]   (default: 10000 messages, seed 1)

The program `hook_trial` must be there, built by `rt run`; one process of it answers all messages. Git cleans one message a
process. They are made of line feeds, carriage returns, blanks and a few signs between, among them what other tools take for
a blank or the begin of a comment. No difference is allowed.
"""
import os
import random
import subprocess
import sys
from concurrent.futures import ThreadPoolExecutor

sys.path.insert(0, os.path.abspath(f"{__file__}/../../shared"))
from places import program

PROGRAM = program("hook_trial")
OFTEN = [b"\n", b"\n", b" ", b"\t", b"a"]
HARD = [b"\r", b"\r\n", b"#", b"\v", b"\f", b"\x1c", b"\xc2\xa0", b"\xe2\x80\xa8", b"\xff", b"line", b"\n\n\n", b"   ", b"\\", b"# a"]


def messages(count, seed):
    rng = random.Random(seed)
    for _ in range(count):
        yield b"".join(rng.choice(OFTEN if rng.random() < 0.8 else HARD) for _ in range(rng.randint(0, 16)))


def ours(made):
    """The answers of one process to all messages."""
    if not os.path.exists(PROGRAM):
        sys.exit("compare_messages: there is no crates/hook_trial/out/hook_trial: build it with `rt run` in crates/hook_trial")
    lines = "".join(f"cleaned_message {message.hex() or '-'}\n" for message in made)
    ran = subprocess.run([PROGRAM], input=lines.encode(), capture_output=True, check=True)
    return [bytes.fromhex(answer) for answer in ran.stdout.decode().splitlines()]


def gits(message):
    return subprocess.run(["git", "stripspace"], input=message, capture_output=True, check=True).stdout


def main():
    count, seed = (int(word) for word in (sys.argv[1:] + ["10000", "1"][len(sys.argv) - 1:])[:2])
    made = list(messages(count, seed))
    answers = ours(made)
    with ThreadPoolExecutor(os.cpu_count()) as pool:
        wanted = list(pool.map(gits, made))
    if len(answers) != len(made):
        sys.exit(f"compare_messages: {len(answers)} answers to {len(made)} messages")
    differ = [(message, mine, theirs) for message, mine, theirs in zip(made, answers, wanted) if mine != theirs]
    for message, mine, theirs in differ[:10]:
        print(f"differs: {message!r}: {mine!r} here, {theirs!r} there")
    print(f"compare_messages: {sum(mine != message for message, mine in zip(made, answers))} messages changed by cleaning")
    print(f"compare_messages: {len(made) - len(differ)} passed, {len(differ)} failed")
    sys.exit(1 if differ or not made else 0)


main()
