"""The steps of rows of the call `command_over` of hook_trial, for the tables of hook_cli. They say what a repository in memory is set up
with and asked for, and what is answered."""

STORE = ("store",)


def as_bytes(text):
    return text.encode() if isinstance(text, str) else text


def stage(path, contents="", mode="plain"):
    return ("stage", mode, path, contents)


def line(*command, out="all", err="all"):
    return ("line", out, err, *command)


def add(path, contents="", mode="none", out="all", err="all"):
    return line("add", mode, path, contents, out=out, err=err)


def several(*edits, err="all"):
    """Changes of the staged files at once, each `("add", mode, path, contents)` or `("rm", path)`."""
    return line("stage", str(len(edits)), *(word for edit in edits for word in edit), err=err)


def ended(status, out="", err="", flushes=("", "")):
    """What is answered to a line: its exit status, how many bytes are on the writers, and these."""
    out, err = as_bytes(out), as_bytes(err)
    head = f"status {status}, out {flushes[0]}{len(out)}, err {flushes[1]}{len(err)}\n"
    return head.encode() + out + err


# What standard error says if standard output gives an error.
UNTAKEN = "hookhost: standard output was not taken\n"


def cut_off(out="", err=UNTAKEN):
    """What is answered to a line whose text standard output took up to this many bytes before it gave an error."""
    return ended(3, out=out, err=err)


def done(out=""):
    return ended(0, out=out)


def refused(said):
    return ended(3, err=f"hookhost: refused: {said}\n")


def kept(staged=(), head=(), fixes=0, commits=0):
    """What a store is answered by. A file is its path, its contents and, if it isn't plain, its mode."""
    told = b""
    for name, files in (("staged", staged), ("head", head)):
        for path, contents, *mode in files:
            contents = as_bytes(contents)
            told += f"{name} {mode[0] if mode else 'plain'} {path} {len(contents)}\n".encode() + contents
    return told + f"fixes {fixes}, commits {commits}\n".encode()


def run(files="changed", only="", skip="", stage="pre-commit", how="remembering", out="all", err="all"):
    return line("run", stage, files, only, how, skip, out=out, err=err)


def message(text, stage="commit-msg", skip="", how="remembering", out="all", err="all"):
    return line("message", stage, text, how, skip, out=out, err=err)


def commit(how="unverified", out="all", err="all"):
    return line("commit", "m", how, "", out=out, err=err)


# Habits of writers that take all in the end, those that take nothing, and all.
PATIENT = ["one", "interrupted"]
BROKEN = ["nothing", "0", "unflushed"]
HABITS = ["all", *PATIENT, *BROKEN]
