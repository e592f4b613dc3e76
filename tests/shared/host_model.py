"""A model of a host: the commits, the staged files and the fixes as plain lists and dictionaries, and the book of cached results as the
list of tests/shared/list_book.py.

tests/plays/plays.py compares the program hook_trial with it, and the table tests/rows/tables/commit_flow_fused.py and
tests/memory/refused_memory.py have their answers from it. For each command it gives what a host replies, as the program prints it and
as hook_trial gives it; what is left then; and which children were started. One child of it may fail, as that of the kit's name
`FuseChildren` does, and at one place it may be refused memory.

What a configuration's text means, and how patterns are read, isn't the model's: its hooks are made of values, and the text from them.
"""
import collections
import json
import re
from typing import NamedTuple

from list_book import ListBook

# The most bytes of a command, with one byte between words, and the most names of one.
MOST_COMMAND, MOST_NAMES = 131_072, 100_000
# The pattern that is found in no path.
NO_PATH = "^$"
CONFIGURATION, MESSAGE = ".pre-commit-config.yaml", ".git/COMMIT_EDITMSG"
TRIMMED = b"\t\n\v\f\r "
NOT_STARTED, MISFIT = "could not be started", "a name does not fit the command"
# What a report says of a child that failed, and the name of the fault in the table.
FAULTS = {
    NOT_STARTED: "not started",
    "could not be waited for": "wait failed",
    "ended by a signal": "signal",
    "output is longer than 1048576 bytes": "output too long",
    "files could not be written or read back": "scratch failed",
}
OUT_OF_MEMORY = "1 OutOfMemory"

Hook = collections.namedtuple(
    "Hook", "id name alias language entry args files always_run pass_filenames verbose fail_fast stages x_reads x_per_file x_at_most",
    defaults=["", "system", "run", [], "", False, True, False, False, [], NO_PATH, False, MOST_NAMES],
)
File = collections.namedtuple("File", "executable contents")
Answer = collections.namedtuple("Answer", "status output changes")
Run = collections.namedtuple("Run", "passed report tree unsteady")


# ---- texts that hook_trial reads

def configuration_text(hooks, fails_fast=False):
    rows = "".join(f"  - {json.dumps(keys_of(hook))}\n" for hook in hooks)
    head = "fail_fast: true\n" if fails_fast else ""
    return (f"{head}repos:\n- repo: local\n  hooks:\n{rows}" if hooks else f"{head}repos: []\n").encode()


def keys_of(hook):
    """The keys of a hook whose values aren't those that it has without them."""
    keys = hook._asdict()
    without = {"alias": "", "args": [], "files": "", "always_run": False, "pass_filenames": True, "verbose": False, "fail_fast": False, "stages": [],
               "x_reads": NO_PATH, "x_per_file": False, "x_at_most": MOST_NAMES}
    return {key: value for key, value in keys.items() if key not in without or without[key] != value}


def words_of_rows(rows):
    """The rows of a table, each a key and an outcome, as hook_trial reads them."""
    for (words, seen), outcome in rows:
        answer = Answer(0, b"", {}) if isinstance(outcome, str) else outcome
        files = "\t".join(seen_text(path, file) for path, file in seen)
        changes = "\t".join(path if held is None else f"{path}={line_of(held)}" for path, held in sorted(answer.changes.items()))
        yield from ["failing", FAULTS[outcome]] if isinstance(outcome, str) else ["child"]
        yield f"answer {answer.status}\n" + "\t".join(words) + f"\n{files}\n{changes}\n" + answer.output.decode()


def is_told(file):
    """Whether a row can say that a child has seen this file: its lines are ended and hold no tab."""
    return file.contents.endswith(b"\n") and b"\t" not in file.contents


def seen_text(path, file):
    """How a row says that a child has seen this file."""
    return ("\x02" if file.executable else "") + f"{path}={line_of(file.contents)}"


def line_of(contents):
    return contents[:-1].replace(b"\n", b"\x01").decode()


# ---- what is cached

class FixedTable:
    """A table of rows, each the words of a child, the files that it has seen, and its outcome."""

    def __init__(self, rows):
        self.rows = [((tuple(words), tuple(sorted(seen.items()))), outcome) for words, seen, outcome in rows]

    def numbers_for(self, key):
        """The numbers of the rows by which a child of these words that has seen these files answers in turn. Without one it isn't started."""
        return [number for number, (row, _) in enumerate(self.rows) if row == key]


class Want(Exception):
    """Memory was refused."""


class Memory:
    """The children of a host, and the book of their cached results, with the limit of a new one. The call of the number `kth` fails with
    `fault`. `want` is the place at which memory is refused, if anywhere. It is the number of a call and whether it is refused before its
    `start` or at the `put` of its answer, or the number of a command (`Machine`)."""

    def __init__(self, table, kth=0, fault=None, want=None):
        self.table, self.kth, self.fault, self.want = table, kth, fault, want
        self.book, self.asked, self.calls, self.faults, self.started = ListBook(), collections.Counter(), 0, 0, []
        self.ends = collections.Counter()
        # The words and the seen files of the child that failed by the fuse.
        self.fused = None

    def told(self, words, seen, is_fresh):
        """The outcome of the child of these words that has seen these files, and whether it now answers otherwise than is cached. It is
        looked up in a fresh run too, and so is used."""
        key = tuple(words), tuple(sorted(seen.items()))
        found = self.book.find(key)
        if found is not None and not is_fresh:
            self.ends["remembered"] += 1
            return found, False
        outcome = self.start(key)
        if isinstance(outcome, str):
            self.ends["failed"] += 1
            return outcome, False
        strays = any(path not in seen for path in outcome.changes)
        if not strays:
            self.refuse_at(self.calls, "put")
            self.ends["dropped"] += key not in self.book and len(self.book) == self.book.limit
            self.book.put(key, outcome)
        is_other = found is not None and found != outcome
        self.ends["strayed" if strays else "put" if found is None else "put in place of another" if is_other else "put again"] += 1
        return outcome, is_other

    def start(self, key):
        """The outcome of a child that is started: the first time it is given by the first of its rows, then by the next one, and so
        on."""
        self.refuse_at(self.calls + 1, "start")
        self.calls += 1
        if self.calls == self.kth:
            self.fused, self.faults = key, self.faults + 1
            return self.fault
        numbers = self.table.numbers_for(key)
        number = numbers[self.asked[key] % len(numbers)] if numbers else None
        outcome = NOT_STARTED if number is None else self.table.rows[number][1]
        self.asked[key] += 1
        self.faults += isinstance(outcome, str)
        self.started.append(number)
        return outcome

    def refuse_at(self, *place):
        if place == self.want:
            # Memory is refused once: the same call has it when it comes again.
            self.want = None
            raise Want

    def forget(self):
        """How many answers are forgotten. The limit stays."""
        return self.book.forget()

    def counts(self):
        """How many children were started, how many of them failed, and how many answers are cached."""
        return f"{self.calls} calls, {self.faults} faults, {len(self.book)} remembered\n".encode()

    def take_rows(self):
        """The rows by which children answered since the last call."""
        rows, self.started = "".join(" -" if number is None else f" {number}" for number in self.started), []
        return f"rows{rows}\n".encode()


# ---- a run of hooks

class Spoken:
    """What a hook answered."""

    def __init__(self):
        self.status, self.output, self.faults, self.modified, self.is_unsteady = 0, b"", [], False, False

    @property
    def failed(self):
        return self.status != 0 or bool(self.faults) or self.modified


def line(columns, name, word, postfix=""):
    return f"{name}{'.' * (columns - len(name) - len(postfix) - len(word) - 1)}{postfix}{word}\n".encode()


def details(hook, spoken):
    text = f"- hook id: {hook.id}\n"
    text += f"- exit code: {spoken.status}\n" if spoken.status else ""
    text += "".join(f"- fault: {fault}\n" for fault in spoken.faults)
    text += "- files were modified by this hook\n" if spoken.modified else ""
    trimmed = spoken.output.strip(TRIMMED)
    return text.encode() + (b"\n" + trimmed + b"\n\n" if trimmed else b"")


def run_hook(hook, names, tree, memory, is_fresh):
    """What the hook answers for these files, and the tree that it leaves."""
    spoken, after = Spoken(), tree
    if hook.language == "fail":
        spoken.status, spoken.output = 1, (hook.entry + "\n\n" + "\n".join(names) + "\n").encode()
        return spoken, tree
    words = command_of(hook, tree)
    parts = parts_of(words, names, 1 if hook.x_per_file else hook.x_at_most)
    if parts is None:
        spoken.faults.append(MISFIT)
        return spoken, tree
    for part in parts:
        after = run_part(hook, [*words, *part], spoken, after, memory, is_fresh)
    tracked = lambda files: {path: file for path, file in files.items() if path != MESSAGE}
    spoken.modified = tracked(after) != tracked(tree)
    memory.ends[f"hooks in {len(parts)} parts"] += 1
    return spoken, after


def run_part(hook, words, spoken, tree, memory, is_fresh):
    """Adds what a child answers to what its hook does. The tree that it leaves."""
    named = {word.removeprefix("./") for word in words}
    seen = {path: file for path, file in tree.items() if not hook.pass_filenames or path in named or re.search(hook.x_reads, path)}
    outcome, is_other = memory.told(words, seen, is_fresh)
    if isinstance(outcome, str):
        spoken.faults.append(outcome)
        return tree
    spoken.status, spoken.output = max(spoken.status, outcome.status), spoken.output + outcome.output
    spoken.is_unsteady = spoken.is_unsteady or is_other
    return changed(tree, outcome.changes)


def command_of(hook, tree):
    """The words of a hook's command, before the names."""
    first, *others = [*hook.entry.split(), *hook.args]
    path = first.removeprefix("./")
    if path in tree and (hook.language == "script" or "/" in first):
        return [*shebang(tree[path].contents), path, *others]
    return ["./" + path if hook.language == "script" else first, *others]


def shebang(contents):
    first = contents.split(b"\n")[0].decode()
    return first[2:].split() if first.startswith("#!") else ["sh"]


def parts_of(words, names, most):
    """The names of each child, as many as fit one command in turn and at most so many, or None if one doesn't fit with the words alone."""
    room = MOST_COMMAND - len(" ".join(words))
    if room < 0 or any(room < 1 + len(name) for name in names):
        return None
    parts, left = [[]], room
    for name in names:
        if left < 1 + len(name) or len(parts[-1]) == most:
            parts, left = [*parts, []], room
        parts[-1].append(name)
        left -= 1 + len(name)
    return parts


def changed(tree, changes):
    """The tree with changes applied. A file keeps its mode, and one that isn't there doesn't come."""
    after = dict(tree)
    for path, held in changes.items():
        if held is None:
            after.pop(path, None)
        elif path in tree:
            after[path] = File(tree[path].executable, held)
    return after


def run_stage(configuration, stage, candidates, only, skip, tree, memory, is_fresh=False):
    """A run: whether all hooks passed, the report, the tree that they leave, and the ids of the unsteady ones."""
    hooks, fails_fast = configuration
    hooks = [hook for hook in hooks if (not hook.stages or stage in hook.stages) and only in ("", hook.id, hook.alias)]
    columns = max([80, *(len(hook.name) + 30 for hook in hooks)])
    report, passed, unsteady = b"", True, []
    for hook in hooks:
        names = [path for path in sorted(set(candidates), key=str.encode) if path in tree and re.search(hook.files, path)]
        spoken = Spoken()
        if hook.id in skip or (hook.alias and hook.alias in skip):
            report += line(columns, hook.name, "Skipped")
        elif not names and not hook.always_run:
            report += line(columns, hook.name, "Skipped", "(no files to check)")
        else:
            spoken, tree = run_hook(hook, names if hook.pass_filenames else [], tree, memory, is_fresh)
            unsteady += [hook.id] if spoken.is_unsteady else []
            report += line(columns, hook.name, "Failed" if spoken.failed else "Passed")
        if spoken.failed or hook.verbose:
            report += details(hook, spoken)
        passed = passed and not spoken.failed
        if spoken.failed and (fails_fast or hook.fail_fast):
            break
    return Run(passed, report, tree, unsteady)


def has_hook(configuration, stage, only):
    return not only or any(only in (hook.id, hook.alias) for hook in configuration[0] if not hook.stages or stage in hook.stages)


# ---- replies: as the program prints them, and as hook_trial gives those of `Host::play`

def ended(status, out=b"", err=b""):
    return f"status {status}, out {len(out)}, err {len(err)}\n".encode() + out + err


def with_length(name, text):
    return f"{name} {len(text)}\n".encode() + text


class Printed(NamedTuple):
    """What is answered to a look-up, which is no command of `Host::play`."""
    status: int
    out: bytes
    err: bytes = b""

    def printed(self):
        return ended(*self)


class Staged(NamedTuple):
    """A file is `added` or `removed`."""
    word: str

    def printed(self):
        return ended(0)

    def told(self):
        return f"{self.word}\n".encode()


class Accepted(NamedTuple):
    count: int

    def printed(self):
        return ended(0, f"accepted: {self.count}\n".encode())

    def told(self):
        return f"accepted {self.count}\n".encode()


class Ran(NamedTuple):
    passed: bool
    report: bytes
    changes: dict
    unsteady: list

    def printed(self):
        return ended(0 if self.passed else 1, self.report + b"".join(f"unsteady: {name}\n".encode() for name in self.unsteady))

    def told(self):
        head = f"ran, {'passed' if self.passed else 'failed'}, {len(self.unsteady)} unsteady\n".encode()
        return head + told_changes("change", self.changes) + with_length("report", self.report)


class MessageRan(NamedTuple):
    """The hooks about a message were run, and leave this message."""
    passed: bool
    report: bytes
    message: bytes

    def printed(self):
        return ended(0 if self.passed else 1, self.report)

    def told(self):
        return f"message ran, {'passed' if self.passed else 'failed'}\n".encode() + with_length("message", self.message) + with_length("report", self.report)


class Committed(NamedTuple):
    """A commit that is made. If its last hooks were stopped, `post` is a text that says why."""
    number: int
    reports: list
    post: object

    def printed(self):
        is_stopped = isinstance(self.post, str)
        told = b"" if is_stopped else self.post
        return ended(0, b"".join(self.reports) + told + f"commit {self.number}\n".encode(), f"hookhost: refused: {self.post}\n".encode() if is_stopped else b"")

    def told(self):
        post = f"post stopped {self.post}\n".encode() if isinstance(self.post, str) else with_length("post", self.post)
        return f"committed {self.number}\n".encode() + told_reports(self.reports) + post


class HooksFailed(NamedTuple):
    stage: str
    reports: list

    def printed(self):
        return ended(1, b"".join(self.reports))

    def told(self):
        name = "".join(word.capitalize() for word in self.stage.split("-"))
        return f"failed at {name}\n".encode() + told_reports(self.reports)


class Limited(NamedTuple):
    """How many answers are left after a limit is set."""
    left: int

    def printed(self):
        return ended(0, f"remembered: {self.left}\n".encode())

    def told(self):
        return f"limited {self.left}\n".encode()


class Forgot(NamedTuple):
    count: int

    def told(self):
        return f"forgot {self.count}\n".encode()


class Rejected(NamedTuple):
    why: str

    def printed(self):
        return ended(3, err=f"hookhost: refused: {self.why}\n".encode())

    def told(self):
        return f"refused {self.why}\n".encode()


class EditRefused(NamedTuple):
    """One of several changes is refused, and so all of them."""
    why: str
    at: int

    def told(self):
        return f"refused {self.why}\nat {self.at}\n".encode()


def told_changes(name, changes):
    return b"".join(f"{name} {path} gone\n".encode() if held is None else with_length(f"{name} {path}", held) for path, held in sorted(changes.items(), key=lambda each: each[0].encode()))


def told_reports(reports):
    return b"".join(with_length("report", report) for report in reports)


def told_files(name, files):
    text = b""
    for path in sorted(files, key=str.encode):
        mode, held = "executable" if files[path].executable else "plain", files[path].contents
        # Of a long file only the ends are reported.
        text += f"{name} {mode} {path} {len(held)}\n".encode() + (held[:100] + held[-100:] if len(held) > 4096 else held)
    return text


# ---- the machine

class Refused(Exception):
    """Why a command is refused, as it is printed."""


def cleaned(message):
    lines = [text.rstrip(b"\r\t ") for text in message.split(b"\n")]
    kept = [text for at, text in enumerate(lines) if text or (at > 0 and lines[at - 1] and any(lines[at:]))]
    return b"".join(text + b"\n" for text in kept)


class Machine:
    """A host. It is given the meaning of each text that is staged as a configuration. If its memory's `want` is `("command", N)`, memory
    is refused to the Nth command that it replies to, when it is about to change what is kept. If it is `("post", N)`, memory is refused
    after the last hooks of that commit."""

    def __init__(self, memory, configurations):
        self.history, self.staged, self.fixes, self.memory, self.configurations = [], {}, {}, memory, configurations
        self.replies = 0

    def reply(self, call):
        """What is answered to a command."""
        self.replies += 1
        before = self.history, self.staged, self.fixes
        try:
            try:
                reply = call(self)
            except Refused as refused:
                reply = Rejected(str(refused))
                self.refuse_command()
        except Want:
            self.history, self.staged, self.fixes = before
            return Rejected(OUT_OF_MEMORY)
        return reply

    def refuse_command(self):
        self.memory.refuse_at("command", self.replies)

    def head(self):
        return self.history[-1][1] if self.history else {}

    def configuration(self):
        if CONFIGURATION not in self.staged:
            raise Refused("7 NoConfig")
        found = self.configurations[self.staged[CONFIGURATION].contents]
        if found is None:
            raise Refused("8 BadConfig 2")
        return found

    def changed_paths(self):
        return [path for path, file in self.staged.items() if self.head().get(path) != file]

    def fixes_to(self, tree):
        """How the files of a tree differ from the staged ones, as fixes."""
        gone = {path: None for path in self.staged if path not in tree}
        return gone | {path: file.contents for path, file in tree.items() if self.staged.get(path) != file}

    def add(self, mode, path, contents):
        if any(other != path and (other.startswith(path + "/") or path.startswith(other + "/")) for other in self.staged):
            raise Refused("15 Clash")
        executable = {"executable": True, "plain": False}.get(mode, path in self.staged and self.staged[path].executable)
        self.refuse_command()
        self.staged, self.fixes = self.staged | {path: File(executable, contents)}, {}
        return Staged("added")

    def rm(self, path):
        if path not in self.staged:
            raise Refused("4 NotStaged")
        self.refuse_command()
        self.staged, self.fixes = {other: file for other, file in self.staged.items() if other != path}, {}
        return Staged("removed")

    def stage(self, count, *words):
        """Several changes, all or none."""
        before, left = (self.staged, self.fixes), list(words)
        for at in range(int(count)):
            taken = 4 if left[0] == "add" else 2
            (word, *given), left = left[:taken], left[taken:]
            try:
                getattr(self, word)(*given)
            except Refused as refused:
                self.staged, self.fixes = before
                return EditRefused(str(refused), at)
        return Staged("staged")

    def accept(self):
        if not self.fixes:
            raise Refused("11 NoFixes")
        self.refuse_command()
        count, self.staged, self.fixes = len(self.fixes), changed(self.staged, self.fixes), {}
        return Accepted(count)

    def forget(self):
        self.refuse_command()
        return Forgot(self.memory.forget())

    def limit(self, number):
        self.refuse_command()
        self.memory.book.keep_to(int(number))
        return Limited(len(self.memory.book))

    def run(self, stage, files, only, is_fresh, skip):
        configuration = self.configuration()
        if files not in ("changed", "all") and files not in self.staged:
            raise Refused("4 NotStaged")
        if not has_hook(configuration, stage, only):
            raise Refused("9 NoSuchHook")
        candidates = self.changed_paths() if files == "changed" else list(self.staged) if files == "all" else [files]
        run = run_stage(configuration, stage, candidates, only, skip, self.staged, self.memory, is_fresh)
        self.refuse_command()
        self.fixes = self.fixes_to(run.tree)
        return Ran(run.passed, run.report, self.fixes, run.unsteady)

    def message(self, stage, message, is_fresh, skip):
        """The hooks of a stage about a message, which change nothing here but what is cached."""
        tree = self.staged | {MESSAGE: File(False, message)}
        run = run_stage(self.configuration(), stage, [MESSAGE], "", skip, tree, self.memory, is_fresh)
        self.refuse_command()
        return MessageRan(run.passed, run.report, run.tree[MESSAGE].contents if MESSAGE in run.tree else b"")

    def commit(self, message, how, skip):
        if self.staged == self.head():
            raise Refused("10 NothingStaged")
        configuration, tree = self.configuration(), self.staged
        message += b"" if message.endswith(b"\n") or not message else b"\n"
        reports = []
        for stage in ["pre-commit", "prepare-commit-msg", "commit-msg"] if how == "verified" else ["prepare-commit-msg"]:
            is_of_message = stage != "pre-commit"
            candidates = [MESSAGE] if is_of_message else self.changed_paths()
            if is_of_message:
                tree = tree | {MESSAGE: File(False, message)}
            run = run_stage(configuration, stage, candidates, "", skip, tree, self.memory)
            reports, tree = [*reports, run.report], run.tree
            if is_of_message:
                message = tree[MESSAGE].contents if MESSAGE in tree else b""
                tree = {path: file for path, file in tree.items() if path != MESSAGE}
            if not run.passed:
                self.refuse_command()
                self.fixes = self.fixes_to(tree)
                return HooksFailed(stage, reports)
        if not cleaned(message):
            raise Refused("12 EmptyMessage")
        self.refuse_command()
        self.history, self.fixes = [*self.history, (cleaned(message), self.staged)], {}
        return Committed(len(self.history), reports, self.run_post_commit(configuration, skip))

    def run_post_commit(self, configuration, skip):
        """The report of the hooks after a commit, or what stopped them, which undoes nothing."""
        try:
            report = run_stage(configuration, "post-commit", [], "", skip, self.staged, self.memory).report
            self.memory.refuse_at("post", self.replies)
        except Want:
            return OUT_OF_MEMORY
        return report

    def list_fixes(self):
        return Printed(0, "".join(f"{'D' if self.fixes[path] is None else 'M'} {path}\n" for path in sorted(self.fixes, key=str.encode)).encode())

    def log(self):
        return Printed(0, b"".join(f"{at} ".encode() + self.history[at - 1][0].split(b"\n")[0] + b"\n" for at in range(len(self.history), 0, -1)))

    def show(self, number):
        if number > len(self.history):
            return Printed(3, b"", f"hookhost: no commit {number}\n".encode())
        message, tree = self.history[number - 1]
        return Printed(0, message + b"\n" + "".join(path + "\n" for path in sorted(tree, key=str.encode)).encode())

    def shown(self):
        """What is answered to the step `store` of hook_trial."""
        text = told_files("staged", self.staged) + told_files("head", self.head())
        return text + f"fixes {len(self.fixes)}, commits {len(self.history)}\n".encode()

    def told(self):
        """The repository, as hook_trial gives it after `Host::play`."""
        text = told_files("staged", self.staged) + told_files("head", self.head()) + told_changes("fix", self.fixes)
        for at, (message, tree) in enumerate(self.history):
            text += with_length(f"commit {at + 1}", message) + told_files("committed", tree)
        # No commit has the number 0, and none the one after the last.
        return text + b"no files\n" * 2


# ---- lists of commands for `Host::play`

def call_of(command):
    """What a command of a list calls of a machine."""
    word, *given = command
    if word == "run":
        stage, files, only, how, skip = given
        return lambda host: host.run(stage, files, only, how == "fresh", [name for name in skip.split(",") if name])
    if word == "message":
        stage, message, how, skip = given
        return lambda host: host.message(stage, message, how == "fresh", [name for name in skip.split(",") if name])
    if word == "commit":
        message, how, skip = given
        return lambda host: host.commit(message, how, [name for name in skip.split(",") if name])
    return lambda host: getattr(host, word)(*given)


def played(machine, commands):
    """What hook_trial answers to a list of commands, by a machine that plays them: the replies, what is counted, cached and forgotten
    then, and the repository."""
    replies = b"".join(machine.reply(call_of(command)).told() for command in commands)
    counts = machine.memory.counts()
    return replies + counts + f"{machine.memory.forget()} forgotten\n".encode() + machine.told()
