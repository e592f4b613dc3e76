"""Cases of tests/fuzz/fuzz.py: hooks that print any bytes, end in any way, and do anything to their files."""
from fuzz_answers import CHILD_FAULTS, CONFIGURATION, MOST_OUTPUT_BYTES, Answer, refusal
from fuzz_play import entries_of, text_of
from host_program import check, line

SIGNALS = [1, 2, 3, 4, 6, 8, 9, 10, 11, 12, 13, 14, 15, 24, 31]
NAMES = ["f0", "f1", "d/f2", "d/e/f3", "new", "d", "g/new"]
# What a hook may do to the files, `{0}` and `{1}` two of their names.
DEEDS = [
    "rm -rf {0}", "printf more >> {0}", "printf other > {0}", ": > {0}", "cat payload >> {0}", "rm -rf {0}; mkdir {0}",
    "rm -rf {0}; mkdir -p {0}/x/y; echo > {0}/x/y/z", "mv {0} {1}", "cp {0} {1}", "rm -f {0}; ln {1} {0}", "chmod 000 {0}",
    "chmod 4777 . {0}", "touch -d 1970-01-01 {0}", "rm -rf d", "rm -rf ./* ./.[!.]*", 'rm -rf "$PWD"', "head -c 16777217 /dev/zero > {0}",
    "truncate -s 3G {0}", "mkdir .git; echo > .git/COMMIT_EDITMSG", "touch \"$(printf '\\377\\n')\"",
    "i=0; while [ $i -lt 40 ]; do mkdir x{0}$i; i=$((i+1)); done 2> /dev/null", "printf 'print(1)' > {0}; chmod 700 {0}",
]
# What comes last, since a later deed would write through a link, or wait for a fifo.
LAST_DEEDS = [
    "rm -rf {0}; mkfifo {0}", "rm -rf {0}; ln -s ../../outside {0}", "rm -rf {0}; ln -s . {0}", "rm -rf {0}; ln -s {0} {0}",
    "rm -rf {0}; ln -s none {0}", "rm -rf {0}; ln -s /etc {0}", "rm -rf d; ln -s ../../outside-folder d", "ln -s /dev/zero new",
]
BLANKS = bytes(range(9, 14)) + b" "


class Hook:
    """A hook of a script, and what is known of its output."""

    def __init__(self, chance, number):
        self.number, self.is_verbose = number, chance.random() < 0.5
        self.status = chance.choice([0, 0, 0, 1, 2, 77, 255, chance.randrange(256)])
        outputs = [b"", b"\n \x0b", b"Hook 1....Passed\n- hook id: h1\n", b"\x1b[2J\r\n" * 9, b"\0" * 100]
        self.output = chance.choice([*outputs, chance.randbytes(5), chance.randbytes(3000)])
        self.signal = chance.choice(SIGNALS) if chance.random() < 0.2 else None
        self.more = chance.choice([0, 1, MOST_OUTPUT_BYTES]) if chance.random() < 0.15 else None
        self.deeds = [chance.choice(DEEDS) for _ in range(chance.choice([0, 0, 1, 1, 2, 4]))] + [chance.choice(LAST_DEEDS)] * (chance.random() < 0.2)
        self.names = [chance.sample(NAMES, 2) for _ in self.deeds]
        self.is_to_errors = chance.random() < 0.3

    def script(self):
        """The output comes first, since a deed may remove the file that it is read from."""
        to = " >&2" if self.is_to_errors else ""
        lines = ["exec 2> /dev/null"] if self.deeds and not self.is_to_errors else []
        lines.append(f"cat said{self.number}{to}")
        if self.more is not None:
            lines.append(f"head -c {MOST_OUTPUT_BYTES - len(self.output) + self.more} /dev/zero{to}")
        lines += ["exec 2> /dev/null"] + [deed.format(*names) for deed, names in zip(self.deeds, self.names)]
        lines.append(f"ulimit -c 0; kill -{self.signal} $$; sleep 9" if self.signal else f"exit {self.status}")
        return "\n".join(lines).encode() + b"\n"

    def line(self):
        # A script may be removed by another hook before it, so it is outside of the files.
        keys = f"entry: sh ../../script{self.number}, pass_filenames: false, verbose: {str(self.is_verbose).lower()}"
        return f"  - {{id: h{self.number}, name: Hook {self.number}, language: system, {keys}}}\n"

    def told(self):
        """Its text in the report, if it does nothing to files."""
        fault = CHILD_FAULTS["a signal ended it"] if self.signal else CHILD_FAULTS["it wrote over 1 MiB"] if self.more else b""
        has_failed = bool(fault or self.status)
        text = line(f"Hook {self.number}", "Failed" if has_failed else "Passed")
        if not has_failed and not self.is_verbose:
            return text, has_failed
        text += f"- hook id: h{self.number}\n".encode()
        if fault:
            return text + fault, has_failed
        text += f"- exit code: {self.status}\n".encode() if self.status else b""
        said = (self.output + b"\0" * (MOST_OUTPUT_BYTES - len(self.output) if self.more == 0 else 0)).strip(BLANKS)
        return text + (b"\n" + said + b"\n\n" if said else b""), has_failed


def lay_hooks(case, hooks):
    """A repository with these hooks and some files, and what lies outside of the files of hooks."""
    case.does("init")
    case.write(CONFIGURATION, ("repos:\n- repo: local\n  hooks:\n" + "".join(hook.line() for hook in hooks)).encode())
    for name, held in (("f0", b"x\n"), ("f1", b""), ("d/f2", b"two\n"), ("d/e/f3", b"\0\xff"), ("payload", case.chance.randbytes(200))):
        case.write(name, held)
    for hook in hooks:
        case.write(f"script{hook.number}", hook.script())
        case.write(f"said{hook.number}", hook.output)
    case.write("outside", b"outside\n")
    case.write("outside-folder/f2", b"outside\n")
    case.write("outside-folder/e/f3", b"outside\n")
    case.does("add", CONFIGURATION, "f0", "f1", "d", "payload", *(f"said{hook.number}" for hook in hooks))


def accepts(case):
    """The fixes, which become the staged files."""
    fixes = [(text[:1], text[2:]) for text in case.does("fixes").split(b"\n") if text]
    if not fixes:
        return case.refuses(["accept"], "NoFixes")
    fixed = {path: case.does("cat", "--fixed", "--", path) for kind, path in fixes if kind == b"M"}
    check(case.does("accept") == f"accepted: {len(fixes)}\n".encode(), "accept counts other fixes")
    for kind, path in fixes:
        if kind == b"M":
            check(case.does("cat", "--", path) == fixed[path], "what is accepted has other bytes than its fix")
        else:
            case.refuses(["cat", "--", path], "NotStaged")
    return None


def outside_of(case):
    """What no hook and no run of hooks may change: all but the repository."""
    return {path: held for path, held in entries_of(case.folder).items() if not path.startswith(b".hookhost")}


def plays_hooks(case, bases):
    """Hooks that print anything, end in any way, and do anything to their files. What they answer is the same each time."""
    hooks = [Hook(case.chance, number) for number in range(case.chance.choice([1, 1, 2, 4]))]
    lay_hooks(case, hooks)
    outside = outside_of(case)
    first = case.run("run", "--all-files")
    if not any(hook.deeds for hook in hooks):
        told = [hook.told() for hook in hooks]
        wanted = Answer(int(any(has_failed for _, has_failed in told)), b"".join(text for text, _ in told), b"")
        check(first == wanted, f"a run says {text_of(first)} in place of {text_of(wanted)}")
    fixes = case.does("fixes")
    for words in (["run", "--all-files"], ["run", "--all-files", "--fresh"]):
        if case.chance.random() < 0.3:
            # What is dropped is started again, and answers as before.
            case.does("memory", f"--limit={case.chance.choice([1, 1, 2, 3, 100])}")
        again = case.run(*words)
        check(again == first, f"{words!r} says {text_of(again)}, and the first run said {text_of(first)}")
        check(case.does("fixes") == fixes, "another run leaves other fixes")
    committed = case.run("commit", "-m", "hooks")
    # A hook may leave no message.
    check(committed.status in (0, 1) or committed.err == refusal("EmptyMessage", "commit"), f"a commit says {text_of(committed)}")
    if committed.status == 1:
        accepts(case)
        case.run("commit", "--no-verify", "-m", "hooks")
    check(outside_of(case) == outside, "files of the working folder are changed")
