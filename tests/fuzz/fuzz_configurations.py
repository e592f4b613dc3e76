"""Cases of tests/fuzz/fuzz.py: configurations that are cut, joined, doubled and changed, through all that reads one."""
import os
import re
import shutil
import subprocess

import fuzz_inputs
from fuzz_answers import CONFIGURATION, CONFIG_FAULTS, MOST_CONFIGURATION_BYTES, YAML_FAULTS
from fuzz_play import LIMIT, environment, text_of
from host_program import check
from places import program

# Another program for tests can be given in place of the built one.
TRIALS = {}
# What hooks of made configurations may start: nothing that writes, waits or ends other processes.
HARMLESS = ("true", "false", "cat", "echo", "wc")
# A text with one of these may name another program, or a file without an end, and is read but not run.
UNSAFE = (b"bin", b"/dev", b"/proc", b"/lib", b"/etc", b"\\x", b"\\u", b"#!", b"~")
TRIED = {"a.txt": b"one fixme\ntwo\n", "b.py": b"#!/x\nprint(1)\n", "d/c.md": b"\xff\0\r\n", "Makefile": b"all:\n"}
MOST_RUN_HOOKS = 40
TEXTS_OF_A_CASE = 6
TEXTS_OF_A_TRIAL = 60


class Texts:
    """What made configurations are made of, and the folder of what their hooks may start."""

    def __init__(self, folder):
        self.all = fuzz_inputs.configurations()
        self.whole = fuzz_inputs.whole_configurations(self.all)
        self.tools = os.path.join(folder, "tools")
        os.mkdir(self.tools)
        for name in HARMLESS:
            os.symlink(shutil.which(name), os.path.join(self.tools, name))

    def made(self, chance):
        """A text, a few of which are as large as one may be, or a byte larger."""
        text = fuzz_inputs.made_of(chance, self.whole if chance.random() < 0.7 else self.all)
        if chance.random() < 0.005:
            return text + b"\n" + b"#" * (MOST_CONFIGURATION_BYTES - len(text) - chance.choice([0, 1]))
        return text


def played(crate, call, texts):
    """What a program for tests answers to a call on each text, or none if it isn't built."""
    path = TRIALS.get(crate) or program(crate)
    if not os.path.exists(path):
        return [None] * len(texts)
    asked = "".join(f"{call} {text.hex() or '-'}\n" for text in texts).encode()
    ran = subprocess.run([path], input=asked, capture_output=True, timeout=LIMIT)
    answers = [bytes.fromhex(answer) for answer in ran.stdout.decode().splitlines()]
    check(ran.returncode == 0 and len(answers) == len(texts), f"{crate} ends with {ran.returncode} at its text {len(answers)} of these: {ran.stderr!r}")
    return answers


def read_by_the_trials(texts):
    """How run_trial reads each text: the number of the fault's kind, or 0 and how many hooks there are. If yaml_trial reads
    no node, that is the fault, and no other text has it."""
    read = [answer and reading(text, answer) for text, answer in zip(texts, played("run_trial", "read_config", texts))]
    for text, found, answer in zip(texts, read, played("yaml_trial", "read_yaml", texts)):
        if answer is not None:
            told = re.fullmatch(rb"(\w+) in line (\d+)", answer)
            check(not told or told[1].decode() in YAML_FAULTS, f"yaml_trial reads {text_of(text)} as {text_of(answer)}")
            check(not found or bool(told) == (found[0] == CONFIG_FAULTS["Yaml"]), f"run_trial reads {text_of(text)} as {found}, and yaml_trial as {text_of(answer)}")
    return read


def reading(text, answer):
    words = answer.split(b"\n")[0].split()
    if len(words) > 1 and words[1].startswith(b"hooks"):
        return 0, int(words[0])
    check(CONFIG_FAULTS.get(words[1].decode()) == int(words[0]) and words[2] == b"at", f"run_trial reads {text_of(text)} as {text_of(answer)}")
    return int(words[0]), None


def read_by_the_program(case):
    """How `check` and `explain` read the configuration of the folder, as run_trial gives it."""
    told, why = case.run("check"), case.run("explain")
    is_taken = told.status == 0
    check((told.status, why.status) in ((0, 0), (3, 1)), f"check answers {text_of(told)} and explain {text_of(why)}")
    check(not any(byte < 32 and byte != 10 or byte == 127 for byte in why.out), f"explain shows a control character: {text_of(why)}")
    if not is_taken:
        return int(told.err.split()[2]), None
    count = int(told.out.split()[1])
    check(why.out.startswith(f"{CONFIGURATION}: taken, hooks: {count}\n".encode()), f"check counts {count} hooks, and explain says {text_of(why)}")
    return 0, count


def made_skip(chance):
    """A value of SKIP, which may be no text."""
    return fuzz_inputs.joined(chance, [b",", b" ", b"a", b"names", b"\xff", b"\n", b"x" * 999], 6)


def run_made(case, text, number, count, tools):
    """The configuration that is in the folder, through `try` and staged through `run`, which have to say the same."""
    env = environment(tools)
    case.does("add", CONFIGURATION)
    if number:
        case.refuses(["run"], "BadConfig", number)
        case.refuses(["commit", "-m", "made"], "BadConfig", number)
        case.refuses([], "Config", given=text)
        return case.refuses(["try", CONFIGURATION, *TRIED], "Config")
    if count > MOST_RUN_HOOKS or any(each in text for each in UNSAFE):
        return None
    tried = case.run("try", CONFIGURATION, CONFIGURATION, *TRIED, env=env)
    first, again = case.run("run", "--all-files", env=env), case.run("run", "--all-files", env=env)
    check(tried == first, f"try says {text_of(tried)}, and run {text_of(first)}")
    check(first == again, f"the first run says {text_of(first)}, and the second {text_of(again)}")
    case.run(given=text, env=env)
    case.run("run", env={**env, "SKIP": made_skip(case.chance)})
    return case.run("commit", "-m", "made", env=env)


def plays_configurations(case, bases):
    """Texts of which most are no configurations any more."""
    texts = [bases.texts.made(case.chance) for _ in range(TEXTS_OF_A_CASE)]
    others = [bases.texts.made(case.chance) for _ in range(TEXTS_OF_A_TRIAL)]
    case.note("the programs for tests read", texts + others)
    read = read_by_the_trials(texts + others)
    case.does("init")
    for path, held in TRIED.items():
        case.write(path, held)
    case.does("add", *TRIED)
    for text, wanted in zip(texts, read):
        case.write(CONFIGURATION, text)
        found = read_by_the_program(case)
        check(wanted in (None, found), f"the program reads the text as {found}, and run_trial as {wanted}")
        run_made(case, text, *found, bases.texts.tools)
