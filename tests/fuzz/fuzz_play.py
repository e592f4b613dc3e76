"""One case of tests/fuzz/fuzz.py: its folder, the commands that are played there, and what each has to leave."""
import os
import random
import shutil
import signal
import subprocess

from fuzz_answers import Answer, command_of, refusal, wrong_answer
from host_program import LOCK, PROGRAM, STORE, check, write

# What is answered to a word that isn't UTF-8.
NO_TEXT = Answer(2, b"", b"error: a word is not UTF-8\n")
# A command that takes longer counts as hanging: the slowest here takes a few seconds on a machine that does other work too.
LIMIT = 30
SHOWING = ["status", "log", "fixes", "memory"]
# The commands that change nothing, except `memory` with a limit.
LOOKING = (*SHOWING, "cat", "show", "check", "explain")
# How often what the repository shows is looked at after a change, to be compared after the refusals that follow.
LOOKS = 0.3
# The commands that may cache results of hooks though they are refused after them.
RUNNING = ["run", "run-files", "commit"]
# What any command may change: the lock, SQLite's log, and the folder of the commands of hooks.
MAY_CHANGE = (os.fsencode(LOCK), os.fsencode(STORE) + b"-wal")
SCRATCH = b".hookhost/scratch"
SHOWN_BYTES = 1500


def environment(path=None):
    """The environment of a command. If a folder is named, its hooks find their programs in that folder alone."""
    return {key: held for key, held in os.environ.items() if key != "SKIP"} | ({"PATH": path} if path else {})


def answer_of(words, folder, given=b"", env=None):
    """What the program answers in the folder. A program that hangs is ended with all that it has started."""
    with subprocess.Popen([PROGRAM, *words], cwd=folder, env=env or environment(), start_new_session=True,
                          stdin=subprocess.PIPE, stdout=subprocess.PIPE, stderr=subprocess.PIPE) as child:
        try:
            out, err = child.communicate(given, timeout=LIMIT)
        except subprocess.TimeoutExpired:
            os.killpg(child.pid, signal.SIGKILL)
            child.communicate()
            check(False, f"no answer within {LIMIT} seconds")
        return Answer(child.returncode, out, err)


def entry_at(path):
    """What is at a path, without following a link or into a fifo."""
    if os.path.islink(path):
        return "link", os.readlink(path)
    if os.path.isdir(path):
        return "folder", None
    if not os.path.isfile(path):
        return "other", None
    with open(path, "rb") as file:
        return "file", file.read()


def entries_of(folder):
    """All that is below a folder by its path, except what any command may change."""
    top, found = os.fsencode(folder), {}
    for at, folders, names in os.walk(top):
        within = os.path.relpath(at, top)
        folders[:] = [name for name in folders if not os.path.normpath(os.path.join(within, name)).startswith(SCRATCH)]
        for name in (*folders, *names):
            path = os.path.normpath(os.path.join(within, name))
            if path not in MAY_CHANGE and not path.startswith(SCRATCH):
                found[path] = entry_at(os.path.join(at, name))
    return found


def text_of(held):
    """Bytes or words as Python reads them again."""
    return repr(held) if len(repr(held)) <= SHOWN_BYTES else f"{repr(held)[:SHOWN_BYTES]}.. ({len(held)} bytes or words)"


def is_looking(words):
    """Whether a command of these words changes nothing."""
    command = command_of(words)
    return command in LOOKING and (command != "memory" or len(words) == 1)


def remembered(answer):
    return int(answer.out.split()[1]) if answer.status == 0 else None


class Case:
    """A folder, in which files are written and commands played, and the chances of this case alone."""

    def __init__(self, folder, chance, kept=None):
        self.folder, self.chance, self.kept = folder, chance, kept
        self.steps, self.commands, self.refused = [], 0, 0
        # What was in the folder after the last change, and what the repository showed then, if it was looked at.
        self.entries, self.shown, self.is_unsure = None, None, False
        self.looks = random.Random(chance.random())

    def note(self, *step):
        """Keeps what was done, to be printed if the case fails."""
        self.steps.append(step)

    def write(self, path, held):
        """Writes a file of the folder, whose path is a text or bytes."""
        self.changes()
        self.note("write", path, held)
        write(*((os.fsencode(self.folder), path) if isinstance(path, bytes) else (self.folder, path)), held)

    def changes(self):
        """What the folder holds and shows is no longer known. What it showed after refused commands is looked at before."""
        self.ends()
        self.entries = self.shown = None

    def run(self, *words, given=b"", env=None):
        """What a command answers. It has to be an allowed answer, and a refusal has to leave all as it was."""
        command, looks = command_of(words), is_looking(words)
        if not looks:
            self.ends()
        if self.entries is None:
            # A look takes four commands, so that not each change is followed by one.
            self.shown = self.showing() if self.kept or self.looks.random() < LOOKS else None
            self.entries = entries_of(self.folder)
        self.note("run", words, given) if given else self.note("run", words)
        if self.kept:
            self.keep()
        self.commands += 1
        answer = answer_of(words, self.folder, given, env)
        wrong = wrong_answer(words, answer)
        check(not wrong, f"{wrong}: {text_of(answer)}")
        if answer.status in (2, 3):
            self.is_left(command, answer)
        elif not looks:
            self.entries = self.shown = None
        return answer

    def showing(self):
        """What the repository shows."""
        shown = [answer_of([word], self.folder) for word in SHOWING]
        for word, answer in zip(SHOWING, shown):
            wrong = wrong_answer([word], answer)
            check(not wrong, f"{word}: {wrong}: {text_of(answer)}")
        return shown

    def is_left(self, command, answer):
        """Checks that a refused command has left all files as they were. After hooks the store may have other answers. What else it shows
        is looked at later, or at once if each command is looked at."""
        self.refused += 1
        after, is_of_hooks = entries_of(self.folder), command in RUNNING
        changed = sorted(path for path in {*self.entries, *after} if self.entries.get(path) != after.get(path))
        check(changed in ([], [os.fsencode(STORE)][:is_of_hooks]), f"refused by {text_of(answer)} it changed {changed!r}")
        self.is_unsure = self.shown is not None
        if self.kept or is_of_hooks:
            self.ends()
        if is_of_hooks:
            self.entries = self.shown = None

    def ends(self):
        """Checks that the refused commands since the last change have left what the repository shows. Hooks before a refusal may have
        answered, which is cached."""
        if not self.is_unsure:
            return
        self.is_unsure, after = False, self.showing()
        if remembered(after[-1]) is not None and remembered(self.shown[-1]) is not None:
            check(remembered(after[-1]) >= remembered(self.shown[-1]), "a refused command has forgotten answers")
            is_same = after[:-1] == self.shown[:-1]
        else:
            is_same = after == self.shown
        check(is_same, f"a refused command changed what is shown: {text_of(self.shown)} before, {text_of(after)} behind it")

    def has(self, words, wanted, **how):
        """Plays a command whose answer is known."""
        answer = self.run(*words, **how)
        check(answer == wanted, f"it answers {text_of(answer)} in place of {text_of(wanted)}")

    def refuses(self, words, name, cause=None, **how):
        """Plays a command that has to be refused so."""
        self.has(words, Answer(3, b"", refusal(name, command_of(words), cause)), **how)

    def does(self, *words, **how):
        """What a command prints that has to be done."""
        answer = self.run(*words, **how)
        check(answer.status == 0 and answer.err == b"", f"it isn't done: {text_of(answer)}")
        return answer.out

    def keep(self):
        """Keeps the folder as the next command finds it, without the folder of hooks, in which a fifo may be."""
        shutil.rmtree(self.kept, ignore_errors=True)
        shutil.copytree(self.folder, self.kept, symlinks=True, ignore=shutil.ignore_patterns("scratch*"))

    def told(self, is_whole):
        """What was done up to now, a line each."""
        for step in self.steps:
            word, *rest = step
            yield " ".join([word, *(repr(it) if is_whole else text_of(it) for it in rest)])
