"""Cases of tests/fuzz/fuzz.py: messages of commits, given with `-m` or written by a hook."""
import subprocess

import fuzz_inputs
from fuzz_answers import CONFIGURATION, Answer, is_no_text
from fuzz_play import LIMIT, NO_TEXT, text_of
from host_program import check, line

def cleaned(message):
    return subprocess.run(["git", "stripspace"], input=message, capture_output=True, check=True, timeout=LIMIT).stdout


def made_message(chance, texts):
    """Any bytes: pieces that cleaning looks at, configurations, random ones."""
    if chance.random() < 0.8:
        return fuzz_inputs.joined(chance, fuzz_inputs.MESSAGE_PIECES + [b"\xff", b"\0"] * (chance.random() < 0.3), 14)
    return texts.made(chance) if chance.random() < 0.7 else chance.randbytes(chance.choice([1, 10, 300]))


MESSAGE_HOOK = """repos:
- repo: local
  hooks:
  - {id: made, name: Made, language: system, entry: %s, stages: [%s]}
"""


def shows_the_commit(case, number, message):
    """Checks that the commit with this number has this cleaned message."""
    shown = case.does("show", str(number))
    check(shown == message + b"\n" + f"{CONFIGURATION}\na\nmade\n".encode(), f"the commit with the message {text_of(message)} is shown as {text_of(shown)}")
    first = case.does("log").split(b"\n")[0]
    check(first == f"{number} ".encode() + message.split(b"\n")[0], f"of the message {text_of(message)} log shows {text_of(first)}")


def takes_a_message(case, number, words, message, printed):
    """A commit whose message becomes this one. Answers whether it is made."""
    wanted = cleaned(message)
    if not wanted:
        case.refuses(words, "EmptyMessage")
        return False
    case.has(words, Answer(0, printed + f"commit {number}\n".encode(), b""))
    shows_the_commit(case, number, wanted)
    return True


def plays_messages(case, bases):
    """Messages of `-m`, and those that a hook writes over them. A word of the hook names the file that it copies. Otherwise a cached
    result would answer it."""
    stage = case.chance.choice(["commit-msg", "prepare-commit-msg"])
    entry, number = case.chance.choice(["cp made", "sh -c 'cat $0 > $1' made", "sh -c 'rm $1; cp $0 $1' made"]), 1
    case.does("init")
    for at in range(4):
        said = made_message(case.chance, bases.texts).replace(b"\0", b"")[:100_000]
        is_made = case.chance.random() < 0.6
        made = made_message(case.chance, bases.texts)
        case.write(CONFIGURATION, (MESSAGE_HOOK % (entry, stage) if is_made else "repos: []\n").encode())
        case.write("a", b"%d" % at)
        case.write("made", made)
        case.does("add", CONFIGURATION, "a", "made")
        if is_no_text(said):
            case.has(["commit", "-m", said], NO_TEXT)
            said = b"said"
        # A word that begins with a dash isn't taken as the value of the word before it.
        words = ["commit", b"-m=" + said] if said.startswith(b"-") else ["commit", "-m", said]
        message = made if is_made else said
        number += takes_a_message(case, number, words, message, line("Made", "Passed") if is_made else b"")
