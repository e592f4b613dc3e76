"""What a program says of how it was built: cases of tests/git/installation.py, on share/stamp and on what share/install does with it.

The form of a stamp is in tests/shared/build_stamps.py, as docs/REFERENCE.md describes it.
"""
import os
import re
import stat
import subprocess
import sys

from build_stamps import BYTES, PROVED, TRIAL, UNKNOWN, without_stamp
from git_bridge_repository import Repository, check, content, same

ID, OTHER_ID = "0123456789ab", "cdef01234567"
# What share/stamp is given, and what the program says then.
STAMPS = [
    (["proved", ID], f"{PROVED}{ID}\n"),
    (["trial", ID], f"{TRIAL}{ID}\n"),
    (["proved", f"{OTHER_ID} with changes"], f"{PROVED}{OTHER_ID} with changes\n"),
    (["trial", f"{ID} with changes"], f"{TRIAL}{ID} with changes\n"),
    (["proved", "unknown"], f"{PROVED}unknown\n"),
    (["trial"], f"{TRIAL}unknown\n"),
]
# Commits that no stamp has.
NO_COMMITS = ["", ID[:-1], ID + "0", ID.upper(), "g" * 12, f"{ID} with changes with changes", f"{ID} with", f"{ID} ", f" {ID}", "unknown with changes",
              "Unknown", f"{ID}\n", f"{ID}\r", f"\x1b[1m{ID[:8]}", f"{ID[:11]}\0", "v0.1.0", "é" * 6]
# A user who may run a program and not read it.
NOBODY = 65534


def line_up(line, fill=b"\n"):
    """A stamp with this line at its end."""
    return line.rjust(BYTES, fill)


# What a file may end with that is no stamp.
HOSTILE = [
    b"", b"\n" * BYTES, b"\0" * BYTES, b"\xff" * BYTES, b"build: unknown\n",
    *(line_up((way + commit + "\n").encode()) for way in (PROVED, TRIAL) for commit in NO_COMMITS),
    *(line_up(line.encode()) for line in (f"{PROVED}{ID}", f"{PROVED}{ID}\n\n", f"{PROVED}{ID}\nmore\n", f"more\n{PROVED}{ID}\n", f"build: {ID}\n", f"build: PROVED, of commit {ID}\n",
                                          f"build: proved, of  commit {ID}\n", f" {PROVED}{ID}\n", f"{PROVED}{TRIAL}{ID}\n", "build: proved\n", "proved\n", "\x1b]0;title\x07\n")),
    # Shorter than a stamp, so that what was there before it belongs to its bytes; longer; and filled with other bytes.
    line_up(f"{PROVED}{ID}\n".encode())[1:], f"{PROVED}{ID}\n".encode(), line_up(f"{PROVED}{ID}\n".encode()) + b"\0", line_up(f"{PROVED}{ID}\n".encode()) + b"\n",
    line_up(f"{PROVED}{ID}\n".encode(), b" "), line_up(f"{PROVED}{ID}\n".encode(), b"\0"), line_up(f"{PROVED}{ID}\n".encode(), b"b"), f"{PROVED}{'0' * 1000}\n".encode(),
]


def put(path, held):
    with open(path, "wb") as file:
        file.write(held)


def said(program, **how):
    """What a program says of its build, after its version and its logic."""
    done = subprocess.run([program, "--version"], capture_output=True, timeout=60, **how)
    lines = done.stdout.decode(errors="replace").splitlines(keepends=True)
    check((done.returncode, done.stderr, len(lines)) == (0, b"", 3), f"--version ends with {done!r}")
    check(re.fullmatch(r"hookhost [0-9.]+\nrattle logic [0-9a-f]{16}\n", "".join(lines[:2])), f"--version says {lines!r}")
    return lines[2]


def stamped(desk, *words, status=0, **how):
    answer = desk.share("stamp", *words, **how)
    check(answer.status == status, f"share/stamp {words!r} ends with {answer.status}: {answer!r}")
    return answer


def lay_sources(desk):
    """Lays out the sources of a program without a stamp, older than this. It uses the crate `low`, and not `other`."""
    put(desk.program, without_stamp(desk.program))
    desk.write(f"{desk.clone}/crates.txt", "# The crates.\nlow:\nother:\nhookhost: low regex\n")
    desk.write(f"{desk.clone}/HANDLES", "Handles allowed: none.\n")
    for place in ["low/src/lib.rt", "low/specs/Lib.antt", "hookhost/src/main.rt", "hookhost/proofs/Lib.antt", "other/src/lib.rt"]:
        desk.write(f"{desk.clone}/crates/{place}", "\n")
    for folder, _, names in os.walk(desk.clone):
        for name in ["", *names]:
            turn_back(desk, os.path.join(folder, name))


def turn_back(desk, path):
    """Makes a file older than the program."""
    if path != desk.program:
        os.utime(path, ns=(0, os.stat(desk.program).st_mtime_ns - 1))


# ---- cases


def a_program_says_how_it_was_built(desk):
    bare = without_stamp(desk.program)
    put(desk.program, bare)
    same("without a stamp", said(desk.program), UNKNOWN)
    link = os.path.join(desk.top, "a link")
    os.symlink(desk.program, link)
    for at, (words, line) in enumerate(STAMPS):
        os.chmod(desk.program, (0o755, 0o700, 0o555)[at % 3])
        os.utime(desk.program, ns=(10**18 + at, 10**18 + 7 * at + 1))
        before = os.stat(desk.program)
        for path in (desk.program, link):
            stamped(desk, path, *words)
            same(f"what is said after {words!r}", said(desk.program), line)
            check(content(desk.program) == bare + line_up(line.encode()), f"after {words!r} the file has something else than the program and its stamp")
            after = os.stat(desk.program)
            same("mode and time", (after.st_mode, after.st_mtime_ns), (before.st_mode, before.st_mtime_ns))
    check(os.path.islink(link), "a link is replaced")
    same("files next to it", os.listdir(os.path.dirname(desk.program)), [os.path.basename(desk.program)])
    same("what the Git script says", desk.run_bridge("--version"), f"hookhost-git, over hookhost 0.1.0\nrattle logic {logic(desk)}\n{STAMPS[-1][1]}")


def logic(desk):
    done = subprocess.run([desk.program, "--version"], capture_output=True, text=True, timeout=60)
    return re.search(r"^rattle logic (\w+)$", done.stdout, re.MULTILINE)[1]


def hostile_stamps_say_nothing(desk):
    bare = without_stamp(desk.program)
    for end in HOSTILE:
        put(desk.program, bare + end)
        same(f"what is said with {end!r} at the end", said(desk.program), UNKNOWN)
        # What isn't a stamp isn't removed by one.
        stamped(desk, desk.program, "trial", ID)
        check(content(desk.program) == bare + end + line_up(f"{TRIAL}{ID}\n".encode()), f"a stamp takes {end!r} away")
        same(f"what is said with {end!r} before a stamp", said(desk.program), f"{TRIAL}{ID}\n")


def an_unreadable_program_says_nothing(desk):
    """One that its user may run and not read."""
    stamped(desk, desk.program, "proved", ID)
    how = {"user": NOBODY, "group": NOBODY, "extra_groups": []} if os.geteuid() == 0 else {}
    folder = desk.program
    while folder != desk.top:
        folder = os.path.dirname(folder)
        os.chmod(folder, 0o755)
    same("what is said of one that can be read", said(desk.program, **how), f"{PROVED}{ID}\n")
    os.chmod(desk.program, 0o111)
    same("what is said", said(desk.program, **how), UNKNOWN)


def wrong_stamps_change_nothing(desk):
    before = content(desk.program)
    for commit in [each for each in NO_COMMITS if "\0" not in each]:
        stamped(desk, desk.program, "proved", commit, status=2)
    stamped(desk, desk.program, "Proved", ID, status=2)
    stamped(desk, os.path.join(desk.top, "nowhere"), "proved", ID, status=1)
    check(content(desk.program) == before, "the program is changed")


def commits_are_told(desk):
    def told(**how):
        return stamped(desk, "--commit", **how).out
    same("outside of Git", told(), "unknown\n")
    outer = Repository(desk.top, desk.env)
    outer.git("init", "--quiet", "--initial-branch=main")
    outer.git("commit", "--quiet", "--allow-empty", "-m", "Another's")
    same("within another's repository", told(), "unknown\n")
    inner = Repository(desk.clone, desk.env)
    inner.git("init", "--quiet", "--initial-branch=main")
    inner.write(".gitignore", "crates/*/out/\n")
    same("before the first commit", told(), "unknown\n")
    head = desk.commit().head()[:12]
    same("of a commit", told(), f"{head}\n")
    same("within a hook of Git", told(env={"GIT_DIR": os.path.join(desk.top, ".git"), "GIT_INDEX_FILE": "/nowhere"}), f"{head}\n")
    desk.write(f"{desk.clone}/untracked", "mine\n")
    same("with a file that Git doesn't know", told(), f"{head}\n")
    desk.write(f"{desk.clone}/README.md", "another\n")
    same("with a change", told(), f"{head} with changes\n")
    stamped(desk, desk.program, "trial")
    same("what is said", said(desk.program), f"{TRIAL}{head} with changes\n")
    tools = os.path.join(desk.top, "tools")
    os.mkdir(tools)
    os.symlink(sys.executable, os.path.join(tools, "python3"))
    same("where there is no Git", told(env={"PATH": tools}), "unknown\n")


def an_installed_program_says_how_it_was_built(desk):
    lay_sources(desk)
    bare, installed = content(desk.program), desk.at("bin/hookhost")
    answer = desk.install()
    same("what is said outside of Git", (said(installed), answer.err), (f"{PROVED}unknown\n", ""))
    head = desk.commit().head()[:12]
    desk.install()
    same("what is said", said(installed), f"{PROVED}{head}\n")
    same("mode", oct(stat.S_IMODE(os.stat(installed).st_mode)), oct(0o755))
    check(content(desk.program) == bare, "the built program itself is stamped")
    for place in ["crates.txt", "HANDLES", "crates/low/src/lib.rt", "crates/low/specs/Lib.antt", "crates/hookhost/src/main.rt", "crates/hookhost/proofs/Lib.antt", "crates/low/src"]:
        path = os.path.join(desk.clone, place)
        for later in (0, 10**9):
            os.utime(path, ns=(0, os.stat(desk.program).st_mtime_ns + later))
            answer = desk.install()
            same(f"what is said with another {place}", said(installed), UNKNOWN)
            check(f"it isn't newer than {path}\n" in answer.err, f"with another {place} it isn't told why: {answer!r}")
        turn_back(desk, path)
    os.utime(os.path.join(desk.clone, "crates/other/src/lib.rt"))
    desk.write(f"{desk.clone}/README.md", "another\n")
    desk.install()
    same("what is said with changes of other files", said(installed), f"{PROVED}{head} with changes\n")
    for way, line in (("trial", TRIAL), ("proved", PROVED)):
        stamped(desk, desk.program, way, OTHER_ID)
        answer = desk.install()
        check(content(installed) == content(desk.program), "a stamp is replaced by share/install")
        same("what is said of one with a stamp", (said(installed), answer.err), (f"{line}{OTHER_ID}\n", ""))
    check(os.path.realpath(installed) in desk.uninstall().out, "a stamped program isn't taken away")
    same("what is left", os.path.exists(desk.prefix), False)


def a_program_from_elsewhere_is_not_called_proved(desk):
    lay_sources(desk)
    elsewhere = os.path.join(desk.top, "elsewhere")
    os.rename(desk.program, elsewhere)
    os.symlink(elsewhere, desk.program)
    desk.install()
    same("what is said of a link to another program", said(desk.at("bin/hookhost")), UNKNOWN)
    os.replace(elsewhere, desk.program)
    os.remove(os.path.join(desk.clone, "crates/hookhost/src/main.rt"))
    desk.install()
    same("what is said without the sources", said(desk.at("bin/hookhost")), UNKNOWN)


CASES = [
    a_program_says_how_it_was_built, hostile_stamps_say_nothing, an_unreadable_program_says_nothing, wrong_stamps_change_nothing, commits_are_told,
    an_installed_program_says_how_it_was_built, a_program_from_elsewhere_is_not_called_proved,
]
