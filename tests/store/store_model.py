"""The model of a store and of a host over it, with which tests/store/store.py compares the program."""
import copy
import random

from kept_answers import KeptAnswer, contents_of, digest, records_of
from list_book import ListBook
from store_cases import (CHILDREN, CONFIG, CONFIG_PATH, HOOKS, MESSAGE, MODES, NOT_A_STORE, OTHER_PATHS, SHOWN, SQL,
                         unescaped)
from store_plants import AT_ONCE_TO_VERSION_1, PLANTED_STORES, contents_in

NO_CONFIG, NOTHING_STAGED = "refused\t7\tNoConfig\tnone", "refused\t10\tNothingStaged\tnone"
NO_TABLE = SQL + "no such table"
NO_FIXES, EMPTY_MESSAGE = "refused\t11\tNoFixes\tnone", "refused\t12\tEmptyMessage\tnone"


def path_fault(path):
    """The number of the first fault that a text has as a path, in the order in which they are looked for, or none."""
    parts = path.split("/")
    faults = {1: not path, 5: len(path.encode()) > 4096, 6: any(ord(c) < 32 or ord(c) == 127 for c in path), 2: path.startswith("/"),
              4: "" in parts, 3: "." in parts or ".." in parts, 7: parts[0] == ".git"}
    return next((number for number, is_so in faults.items() if is_so), None)


def files_in(texts):
    """Contents by their paths, and none if a file is gone, of the files that a line of children names."""
    return {path: content if equals else None for path, equals, content in (text.partition("=") for text in texts)}


def answer_in(text):
    """The answer that a line caches, in the order of paths. Its contents are bytes."""
    words, seen, changes, status, output = (part.strip() for part in (text + " |").split("|")[:5])
    files = sorted(files_in(seen.split()).items())
    changed = sorted(files_in(changes.split()).items())
    return KeptAnswer([word.encode() for word in words.split()], [(path, 0, unescaped(content)) for path, content in files],
                      [(path, None if now is None else unescaped(now)) for path, now in changed], int(status), unescaped(output))


def escaped(contents):
    return contents.decode().replace("\\", "\\\\").replace("\n", "\\n").replace("\t", "\\t")


def changed(tree, changes):
    """The tree with changes applied, in which a file keeps its mode."""
    after = dict(tree)
    for path, now in changes:
        if now is None:
            after.pop(path, None)
        elif path in after:
            after[path] = (after[path][0], escaped(now))
    return after


def tracked(tree):
    """The tree's files except the message."""
    return {path: file for path, file in tree.items() if path != MESSAGE}


def key_records(answer):
    """The records of an answer's words and seen files, by which a book finds it."""
    words, seen, *_ = records_of(answer)
    return words, seen


def book_of(answers):
    """A book of answers, the last of them in front."""
    book = ListBook()
    for answer in answers:
        book.put(key_records(answer), answer)
    return book


def migrated(book):
    """The book that a migration makes of the answers of a store of version 1: the greatest key is in front. A key is
    what the columns have, two digests, and those are compared by their bytes."""
    answers = [answer for _, answer in book.rows()]
    return book_of(sorted(answers, key=lambda answer: list(map(digest, key_records(answer)))))


def store_of(planted):
    """What a store that SQL made has, and that isn't open."""
    return {"version": planted.version, "staged": dict(planted.staged), "fixes": {}, "history": list(planted.history),
            "blobs": set(contents_in(planted)), "answers": book_of(planted.answers)}


def begun_message(message):
    return message if not message or message.endswith("\\n") else message + "\\n"


class Model:
    """What a store holds, and what it answers to a line. Contents and messages stay as the lines write them, except all contents that are
    kept, which are bytes."""

    def __init__(self):
        self.store, self.is_open, self.waiting, self.children = None, False, {}, []
        # The store after each answer that a command of the host looked up or put, before its end.
        self.passed = []

    def play(self, line):
        self.passed = []
        word, blank, rest = line.partition(" ")
        if word == "child":
            return self.child(rest)
        if word in ("create", "open", "close"):
            return getattr(self, word)()
        if word == "execute":
            return self.execute(rest)
        if not self.is_open:
            return "no store"
        call = getattr(self, word.replace("-", "_"))
        return call(*rest.split(" ", {"stage": 2, "add": 2, "fix": 1}.get(word, 0))) if blank else call()

    def create(self):
        if self.store is not None:
            return "refused\t3\tSql\tthere is already an object of this name"
        self.store = {"version": 2, "staged": {}, "fixes": {}, "history": [], "blobs": set(), "answers": ListBook()}
        self.is_open = True
        return "ok"

    def execute(self, text):
        """Makes one of the planted stores in an empty database, and opens it not; or one of version 1 of that which is
        there."""
        if text == AT_ONCE_TO_VERSION_1:
            if self.store is None:
                return NO_TABLE
            self.store |= {"version": 1}
            return "ok"
        self.store = store_of(PLANTED_STORES[text])
        return "ok"

    def open(self):
        if self.store is None:
            return NOT_A_STORE
        if self.store["version"] == 1:
            self.store |= {"version": 2, "answers": migrated(self.store["answers"])}
        self.is_open = True
        return "ok"

    def close(self):
        was_open, self.is_open = self.is_open, False
        return "ok" if was_open else "no store"

    def stage(self, mode, path, content):
        self.store["staged"][path] = (mode, content)
        self.store["fixes"] = {}
        self.store["blobs"].add(unescaped(content))
        return "ok"

    def unstage(self, path):
        self.store["staged"].pop(path, None)
        self.store["fixes"] = {}
        return "ok"

    def add(self, mode, path, content):
        staged = self.store["staged"]
        others = [each for each in staged if each != path]
        if number := path_fault(path):
            return f"refused\t3\tBadPath\t{number}"
        if len(unescaped(content)) > 16777216:
            return "refused\t5\tTooLarge\tnone"
        if self.clashes(path):
            return "refused\t15\tClash\tnone"
        if len(others) >= 100000 or sum(len(each.encode()) for each in [*others, path]) > 8388608:
            return "refused\t6\tTooMany\tnone"
        return self.stage(staged.get(path, ("plain", ""))[0] if mode == "-" else mode, path, content)

    def remove(self, path):
        if number := path_fault(path):
            return f"refused\t3\tBadPath\t{number}"
        return self.unstage(path) if path in self.store["staged"] else "refused\t4\tNotStaged\tnone"

    def edit_all(self, text):
        """Makes each change as the command that makes it alone. If one is refused, none is made."""
        before = copy.deepcopy(self.store)
        for at, (word, _, rest) in enumerate(edit.partition(" ") for edit in text.split(" | ")):
            answer = self.add(*rest.split(" ", 2)) if word == "add" else self.remove(rest)
            if answer != "ok":
                self.store = before
                return f"{answer}\tat\t{at}"
        return "ok"

    def stage_all(self, text):
        """The same by the store itself, which answers a refusal by its name and the number that it hands on."""
        answer = self.edit_all(text)
        if answer == "ok":
            return answer
        _, _, name, inner, *place = answer.split("\t")
        return "\t".join(["refused", *{"TooLarge": ("Store", "6"), "TooMany": ("Store", "7")}.get(name, (name, inner)), *place])

    def clashes(self, path):
        return any(path.startswith(each + "/") or each.startswith(path + "/") for each in self.store["staged"])

    def fix(self, path, content):
        self.waiting[path] = content
        return "ok"

    def fix_gone(self, path):
        self.waiting[path] = None
        return "ok"

    def set(self):
        self.set_fixes(self.waiting)
        self.waiting = {}
        return "ok"

    def set_fixes(self, fixes):
        self.store["fixes"] = {path: now for path, now in fixes.items() if path in self.store["staged"]}
        self.store["blobs"].update(unescaped(now) for now in self.store["fixes"].values() if now is not None)

    def accept(self):
        fixes, self.store["fixes"] = self.store["fixes"], {}
        for path, now in fixes.items():
            if now is None:
                del self.store["staged"][path]
            else:
                self.store["staged"][path] = (self.store["staged"][path][0], now)
        return f"ok\t{len(fixes)}"

    def commit(self, message):
        self.store["history"].append((message, dict(self.store["staged"])))
        self.store["fixes"] = {}
        return f"ok\t{len(self.store['history'])}"

    def remember(self, text):
        self.put(answer_in(text))
        return "ok"

    def put(self, answer):
        self.store["answers"].put(key_records(answer), answer)
        self.store["blobs"].update(contents_of(answer))

    def recall(self, text):
        answer = self.store["answers"].find(key_records(answer_in(text + " | | 0")))
        return "ok\tnone" if answer is None else self.told(answer)

    @staticmethod
    def told(answer):
        """What is answered if an answer is found."""
        changes = "".join(f"\t{path}\tgone" if now is None else f"\t{path}\tnow\t{escaped(now)}"
                          for path, now in answer.changes)
        return f"ok\t{answer.status}\t{escaped(answer.output)}{changes}"

    def answers(self):
        return f"ok\t{len(self.store['answers'])}"

    def limit(self):
        return f"ok\t{self.store['answers'].limit}"

    def set_limit(self, number):
        self.store["answers"].keep_to(int(number))
        return "ok"

    def forget(self):
        return f"ok\t{self.store['answers'].forget()}"

    def answer_limit(self):
        return self.limit()

    def limit_answers(self, number):
        self.set_limit(number)
        return self.answers()

    def forget_answers(self):
        return self.forget()

    def child(self, text):
        words, seen, changes, status = (part.split() for part in text.split("|"))
        self.children.append((words, files_in(seen), files_in(changes), int(status[0])))
        return "ok"

    def hooks_of(self, stage):
        return [(word, ending) for word, at, ending in HOOKS[self.store["staged"][CONFIG_PATH][1]] if at == stage]

    def run_stage(self, stage, paths, tree):
        """The tree that the hooks of a stage leave, and whether all pass. Each hook gets those of these paths that end as it says. One
        that gets none passes. Otherwise its child has to end with 0 and to change no file but the message's. A child that has no row
        isn't started. The rows are of plain files."""
        is_passed = True
        for word, ending in self.hooks_of(stage):
            seen = {path: tree[path] for path in sorted(paths) if path in tree and path.endswith(ending)}
            answer = self.answered([word, *seen], seen) if seen else None
            if answer is None:
                is_passed = is_passed and not seen
                continue
            before, tree = tree, changed(tree, answer.changes)
            is_passed = is_passed and answer.status == 0 and tracked(tree) == tracked(before)
        return tree, is_passed

    def answered(self, words, seen):
        """What is cached for the words and the seen files, otherwise the answer of a child, which is cached then. None if no row has one,
        since it isn't started."""
        files = [(path, MODES[mode], unescaped(content)) for path, (mode, content) in sorted(seen.items())]
        asked = KeptAnswer([word.encode() for word in words], files, [], 0)
        answer = self.store["answers"].find(key_records(asked))
        if answer is None:
            rows = [(changes, status) for row, held, changes, status in self.children
                    if row == words and seen == {path: ("plain", content) for path, content in held.items()}]
            if not rows:
                return None
            changes = [(path, None if now is None else unescaped(now)) for path, now in sorted(rows[0][0].items())]
            answer = asked._replace(changes=changes, status=rows[0][1])
            self.put(answer)
        self.passed.append(copy.deepcopy(self.store))
        return answer

    def candidates(self, which):
        """The paths of the staged files that the hooks of a run may get."""
        head = self.last_tree()
        return [path for path, file in self.store["staged"].items() if which == "all" or file != head.get(path)]

    def keep_fixes(self, tree):
        """Sets as fixes how the files of a tree differ from the staged ones."""
        after = {path: tree.get(path, (None, None))[1] for path in self.store["staged"]}
        self.set_fixes({path: now for path, now in after.items() if now != self.store["staged"][path][1]})

    def run_hooks(self, which):
        if CONFIG_PATH not in self.store["staged"]:
            return NO_CONFIG
        tree, is_passed = self.run_stage("pre-commit", self.candidates(which), self.store["staged"])
        self.keep_fixes(tree)
        return ("ok\tpassed" if is_passed else "ok\tfailed") + self.fixes().removeprefix("ok")

    def accept_fixes(self):
        return self.accept() if self.store["fixes"] else NO_FIXES

    def prepare_message(self, message):
        return self.run_on_message("prepare-commit-msg", message)

    def check_message(self, message):
        return self.run_on_message("commit-msg", message)

    def run_on_message(self, stage, message):
        """Whether the hooks of a stage pass that get a message, and the message that they leave. All else stays."""
        if CONFIG_PATH not in self.store["staged"]:
            return NO_CONFIG
        tree, is_passed = self.run_stage(stage, [MESSAGE], self.store["staged"] | {MESSAGE: ("plain", message)})
        return ("ok\tpassed\t" if is_passed else "ok\tfailed\t") + tree.get(MESSAGE, ("plain", ""))[1]

    def commit_verified(self, message):
        return self.uncommittable() or self.commit_behind_hooks(message, ["pre-commit", "prepare-commit-msg", "commit-msg"])

    def commit_unverified(self, message):
        return self.uncommittable() or self.commit_behind_hooks(message, ["prepare-commit-msg"])

    def uncommittable(self):
        """The refusal of a commit before its hooks, or none."""
        if self.store["staged"] == self.last_tree():
            return NOTHING_STAGED
        return None if CONFIG_PATH in self.store["staged"] else NO_CONFIG

    def commit_behind_hooks(self, message, stages):
        """Commits after the hooks of these stages, between which the files and the message pass on."""
        message, tree = begun_message(message), self.store["staged"]
        for stage in stages:
            is_of_message = stage != "pre-commit"
            paths = [MESSAGE] if is_of_message else self.candidates("changed")
            tree, is_passed = self.run_stage(stage, paths, tree | ({MESSAGE: ("plain", message)} if is_of_message else {}))
            message, tree = tree.get(MESSAGE, ("plain", "" if is_of_message else message))[1], tracked(tree)
            if not is_passed:
                self.keep_fixes(tree)
                return f"ok\tfailed\t{stage}"
        return self.commit_filled(message)

    def commit_filled(self, message):
        """Commits, unless the message is blank. The plays have only messages in which there is nothing to
        clean."""
        if not message.replace("\\n", "").strip():
            return EMPTY_MESSAGE
        made = self.commit(message)
        self.passed.append(copy.deepcopy(self.store))
        for word, _ in self.hooks_of("post-commit"):
            self.answered([word], {})
        return made.replace("ok", "ok\tcommitted") + "\ttold"

    def blob(self, content):
        self.store["blobs"].add(unescaped(content))
        return "ok\t" + digest(unescaped(content)).hex()

    def staged(self):
        return self.tree_line(self.store["staged"])

    def head(self):
        return self.tree_line(self.last_tree())

    def tree(self, number):
        at = int(number)
        return self.tree_line(self.store["history"][at - 1][1]) if 0 < at <= len(self.store["history"]) else "ok\tnone"

    def files(self, number):
        return self.tree_line(self.tree_at(int(number)))

    def trees(self):
        return "".join(["ok"] + [f"\t{at + 1}{self.files_of(tree)}" for at, (_, tree) in enumerate(self.store["history"])])

    def log(self):
        return "".join(["ok"] + [f"\t{at + 1}\t{message}" for at, (message, _) in enumerate(self.store["history"])])

    def fixes(self):
        rows = sorted(self.store["fixes"].items())
        return "".join(["ok"] + [f"\t{path}\tgone" if now is None else f"\t{path}\tnow\t{now}" for path, now in rows])

    def tree_at(self, number):
        return self.store["history"][number - 1][1] if 0 < number <= len(self.store["history"]) else {}

    def last_tree(self):
        return self.store["history"][-1][1] if self.store["history"] else {}

    def look(self, path):
        staged = self.store["staged"]
        mode, content = staged.get(path, ("none", "none"))
        head = self.last_tree()
        facts = path in staged, mode, content, self.clashes(path), path in head, staged.get(path) != head.get(path)
        return "\t".join(["ok", *(str(fact).lower() if isinstance(fact, bool) else fact for fact in facts)])

    def count(self):
        return f"ok\t{len(self.store['fixes'])}\t{len(self.store['history'])}\t{str(self.store['staged'] != self.last_tree()).lower()}"

    def message(self, number):
        at = int(number)
        return "ok\t" + (self.store["history"][at - 1][0] if 0 < at <= len(self.store["history"]) else "none")

    def walk(self):
        return f"ok{self.files_of(self.store['staged'])}\thead{self.files_of(self.last_tree())}"

    @staticmethod
    def files_of(tree):
        return "".join(f"\t{mode}\t{path}\t{content}" for path, (mode, content) in sorted(tree.items()))

    @staticmethod
    def tree_line(tree):
        return "ok" + Model.files_of(tree)

    def shown(self):
        """All that an open store shows, or none if there is no store."""
        return None if self.store is None else [getattr(self, word)() for word in SHOWN]

    def states(self, state_of):
        """What the function says of the model, after each change that the last line made before its end, and then."""
        end, found = self.store, []
        for self.store in [*self.passed, end]:
            found.append(state_of(self))
        return found


class Course:
    """A play next to the model: the model before each line and after the last one, and what each is answered. It is made once for many
    runs of the play, and none of its models is changed."""

    def __init__(self, play, model):
        self.play, self.models, self.answers = play, [model], []
        for line in play:
            after = copy.deepcopy(self.models[-1])
            self.answers.append(after.play(line))
            self.models.append(after)

    def first_other(self, given):
        """Which of these answers is the first that isn't the model's. As many as there are if all of them are."""
        pairs = enumerate(zip(given, self.answers))
        return next((at for at, (answer, right) in pairs if answer != right), len(given))


def model_over(planted):
    """The model of a store that SQL made."""
    model = Model()
    model.store = store_of(planted)
    return model


def model_of(lines):
    model = Model()
    for line in lines:
        model.play(line)
    return model


def key_of(line):
    """The words and the seen files of an answer's line."""
    return "|".join(line.split("|")[:2])


def recall_of(answer):
    """The line that recalls an answer, whose seen files are plain."""
    seen = " ".join(f"{path}={escaped(contents)}" for path, _, contents in answer.seen)
    return f"recall {' '.join(word.decode() for word in answer.words)} | {seen}"


def recalled_by(play):
    """The lines that recall each answer of a play's children, of its lines or of the stores that it makes, each with all that is answered
    to it."""
    answers = []
    for line in play:
        word, _, rest = line.partition(" ")
        if word in ("child", "remember"):
            answers.append(answer_in(rest))
        elif rest in PLANTED_STORES:
            answers += PLANTED_STORES[rest].answers
    told = {}
    for answer in answers:
        told.setdefault(recall_of(answer), []).append(Model.told(answer))
    return told


def lines_behind(play, count, is_open):
    """The lines that open a store after a stop, show what is cached, and go on with the line of the play that was stopped. Then they show
    what the store holds and what is cached. If no store was open, they go on with the lines after the one that opens it. None if no line
    was stopped."""
    if count == len(play):
        return []
    told, rest = recalled_by(play), play[count:]
    if not is_open:
        rest = rest[next(at for at, line in enumerate(rest) if line in ("create", "open")) + 1:]
    return ["open", "answers", *told, *rest, *SHOWN, "answers", *told]


def is_stopped_behind(answer, right):
    """A commit was made, and only the hooks after it were stopped."""
    return answer != right and answer == right.replace("\ttold", "\tstopped")


def random_answer(chance, paths, contents):
    """The words and the seen files of a line on an answer, and the rest of one that caches it."""
    seen = sorted(chance.sample(paths, chance.randrange(3)))
    files = " ".join(f"{path}={chance.choice(contents)}" for path in seen)
    changes = " ".join(chance.choice([path, f"{path}={chance.choice(contents)}"]) for path in seen if chance.random() < 0.5)
    key = f"{chance.choice(['c', 'c -v', 'd'])} {' '.join(seen)} | {files}"
    return key, f"{changes} | {chance.choice([0, 1, 255])} | {chance.choice(['', 'one', chr(92) + 'n'])}"


def random_edits(chance, paths, contents):
    """A few changes at once, of which one may be refused."""
    edits = []
    for _ in range(chance.randrange(1, 5)):
        path = chance.choice(paths if chance.random() < 0.9 else OTHER_PATHS)
        added = f"add {chance.choice(['-', 'plain', 'executable'])} {path} {chance.choice(contents)}"
        edits.append(added if chance.random() < 0.75 else f"remove {path}")
    return " | ".join(edits)


def random_play(seed, length):
    """A play of every call and command, over few paths and contents so that they meet."""
    chance = random.Random(seed)
    paths, contents = ["a", "b.txt", "dir/c", "dir/d", "e"], [str(n) for n in range(8)] + ["\\n", "x" * 300, ""]
    lines = ["create", *CHILDREN, f"stage plain {CONFIG}"]
    while len(lines) < length:
        path, content = chance.choice(paths), chance.choice(contents)
        kind = chance.randrange(28)
        if kind < 4:
            lines.append(f"stage {chance.choice(['plain', 'executable'])} {path} {content}")
        elif kind == 4:
            lines.append(f"unstage {path}")
        elif kind == 5:
            lines.append(f"blob {content}" if content else "log")
        elif kind < 8:
            chosen = chance.sample(paths, chance.randrange(1, 4))
            lines += [chance.choice([f"fix-gone {each}", f"fix {each} {content}"]) for each in chosen] + ["set"]
        elif kind < 10:
            lines.append(chance.choice(["accept", "accept", f"commit {content or 'm'}"]))
        elif kind < 12:
            lines.append(f"add {chance.choice(['-', 'plain', 'executable'])} {chance.choice([*paths, *OTHER_PATHS])} {content}")
        elif kind == 12:
            lines.append(f"remove {chance.choice([*paths, *OTHER_PATHS])}")
        elif kind == 13:
            lines += [f"add - b.txt {chance.randrange(6)}", chance.choice(["run-hooks changed", "run-hooks all"])]
        elif kind == 14:
            lines.append(chance.choice(["run-hooks changed", "run-hooks all", "accept-fixes"]))
        elif kind < 18:
            key, rest = random_answer(chance, paths, [each for each in contents if each])
            lines += [f"remember {key} | {rest}", f"recall {key}"][chance.randrange(2):]
        elif kind == 18:
            lines.append(chance.choice(["answers", "answers", "answers", "forget"]))
        elif kind < 21:
            lines.append(f"{chance.choice(['edit-all', 'stage-all'])} {random_edits(chance, paths, contents)}")
        elif kind < 23:
            # A limit of a few rows is met soon, and stays for a while.
            limit = chance.choice([1, 2, 2, 3, 3, 3, 10_000])
            lines.append(chance.choice(["limit", "answer-limit", f"set-limit {limit}", f"limit-answers {limit}"]))
        elif kind == 23:
            lines += ["close", *[f"execute {AT_ONCE_TO_VERSION_1}"][chance.randrange(2):], "open"]
        elif kind < 26:
            lines.append(f"{chance.choice(['commit-verified', 'commit-unverified'])} {chance.choice(['m', 'm', content])}")
        else:
            message = chance.choice(["m", "m\\n", content])
            lines.append(f"{chance.choice(['prepare-message', 'check-message'])} {message}")
    return lines
