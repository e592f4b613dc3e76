"""Cases of tests/host/host.py: files with hard names, the lists of paths that other programs write, and modes.
"""
import os
import subprocess

from host_program import PROGRAM, check, do, refuses, run, staged_rows, write

HARD_NAMES = [
    "a b", " a", "a ", "a'b", 'a"b', "a\\b", "a\\nb", "-x", "--chmod=+x", "--help", "--", "-", "é", "e\u0301", "日本語", "🙂", "\u0085", "\u2028x", "\ufeffx",
    "*", "[a]", "$HOME", "`x`", "%s%n", "'); DROP TABLE staged; --", "~", "#", "...", "..a", "a..", "a:b", "A b/é'/\"x\"", ".gitx/a", "sub/.git/a", "x" * 255,
]


def keeps_files_of_hard_names(folder):
    do(folder, "init")
    files = {name.encode(): (0, b"the contents of " + name.encode() + b"\r\n\0\xff" * at) for at, name in enumerate(HARD_NAMES)}
    for name, (_, held) in files.items():
        write(os.fsencode(folder), name, held)
        check(do(folder, "add", "--", name) == b"", f"add of {name!r} prints something")
    for name, (_, held) in files.items():
        check(do(folder, "cat", "--", name) == held, f"{name!r} has other bytes")
    check(do(folder, "status") == b"".join(b"A " + name + b"\n" for name in sorted(files)), "status has other names")
    check(staged_rows(folder) == files, "sqlite3 reads other files")
    for name in files:
        do(folder, "rm", "--", name)
    check(do(folder, "status") == b"" and staged_rows(folder) == {}, "not all names are taken out")


def write_deep(folder, path, held):
    """Writes a file that is too deep to be named in one piece."""
    *folders, name = path.split("/")
    at = os.open(folder, os.O_RDONLY)
    for part in folders:
        os.mkdir(part, dir_fd=at)
        at, above = os.open(part, os.O_RDONLY, dir_fd=at), at
        os.close(above)
    with open(os.open(name, os.O_WRONLY | os.O_CREAT, dir_fd=at), "wb") as file:
        file.write(held)
    os.close(at)


def keeps_the_longest_path_that_the_system_opens(folder):
    do(folder, "init")
    longest = ("a" * 255 + "/") * 15 + "b" * 255
    longer = ("c" * 251 + "/") * 16 + "d" * 64
    check((len(longest), len(longer)) == (4095, 4096), "the paths have other lengths")
    write_deep(folder, longest, b"deep")
    write_deep(folder, longer, b"deeper")
    do(folder, "add", longest)
    check(do(folder, "cat", longest) == b"deep" and do(folder, "status") == b"A " + longest.encode() + b"\n", "the longest path is another")
    refuses(folder, ["add", longer], f"cannot use {longer}")
    refuses(folder, ["cat", longer], "refused: 4 NotStaged")
    refuses(folder, ["rm", longer + "d"], "refused: 3 BadPath 5")
    check(list(staged_rows(folder)) == [longest.encode()], "sqlite3 reads another path")


def refuses_control_bytes(folder):
    do(folder, "init")
    for byte, told in (("\n", "\\n"), ("\t", "\\t"), ("\x01", "\\001"), ("\x1f", "\\037"), ("\x7f", "\\177")):
        name = f"a{byte}b"
        refuses(folder, ["add", name], f'cannot use "a{told}b"')
        write(folder, name, b"1")
        for word in ("add", "rm", "cat"):
            refuses(folder, [word, name], "refused: 3 BadPath 6")
    check(do(folder, "status") == b"", "something is staged")


def tells_a_refused_name_on_one_line(folder):
    """Of several files the first that is refused is reported, with what would end its line in escapes."""
    do(folder, "init")
    write(folder, "a", b"1")
    names = {"a\nb": '"a\\nb"', "a\tb": '"a\\tb"', "\x1b[2J": '"\\033[2J"', "\x7f": '"\\177"', 'a"\\\x07': '"a\\"\\\\\\a"', "é\n": '"é\\n"'}
    for name, told in names.items():
        write(folder, name, b"1")
        wanted = (3, b"", f"hookhost: refused: 3 BadPath 6\nhookhost: at {told}\n".encode())
        check(run(folder, "add", "a", name) == wanted, f"add of {name!r} says {run(folder, 'add', 'a', name)!r}")
        check(run(folder, "rm", "a", name)[0] == 3, f"rm of {name!r} beside one that isn't staged is done")
        os.remove(os.path.join(folder, name))
    write(os.path.join(folder, "dir"), "a\nb", b"1")
    check(run(folder, "add", "dir") == (3, b"", b'hookhost: refused: 3 BadPath 6\nhookhost: at "dir/a\\nb"\n'), "a folder's file isn't told")
    check(do(folder, "status") == b"", "something is staged")


def stages_no_name_that_is_not_text(folder):
    """A name that isn't UTF-8 below a folder is reported by the folder, and one of a list as a word is."""
    do(folder, "init")
    write(os.path.join(folder, "dir", "sub"), "a", b"1")
    write(os.fsencode(os.path.join(folder, "dir", "sub")), b"\xff", b"1")
    refuses(folder, ["add", "dir"], "cannot use dir/sub")
    refuses(folder, ["add", "."], "cannot use dir/sub")
    os.rename(os.path.join(os.fsencode(folder), b"dir/sub/\xff"), os.path.join(os.fsencode(folder), b"\xff"))
    refuses(folder, ["add", "."], "cannot use .")
    check(do(folder, "status") == b"", "something is staged")
    do(folder, "add", "dir")
    check(do(folder, "status") == b"A dir/sub/a\n", "the folder isn't staged")


def explains_beside_names_that_are_not_text(folder):
    """Why a configuration is refused is reported with any other files in the folder."""
    write(folder, "config.yaml", b"repos: x\n")
    status, out, err = plain = run(folder, "explain", "config.yaml")
    check(status == 1 and out.startswith(b"config.yaml:1: ") and err == b"", f"it says {plain!r}")
    write(os.fsencode(os.path.join(folder, "dir")), b"\xff", b"1")
    write(os.fsencode(folder), b"\xfe", b"1")
    check((told := run(folder, "explain", "config.yaml")) == plain, f"it says {told!r}")


def stages_what_git_and_find_list(folder):
    """All files, with hard names among them, by the lists of paths that other programs write."""
    do(folder, "init")
    names = [name for name in HARD_NAMES if not name.startswith("sub/")]
    for name in names:
        write(os.fsencode(folder), name.encode(), name.encode())
    listed = subprocess.run(["find", ".", "-name", ".hookhost", "-prune", "-o", "-type", "f", "-printf", "%P\\0"], cwd=folder, stdout=subprocess.PIPE, check=True).stdout
    done = subprocess.run([PROGRAM, "add", "--paths-from=-"], cwd=folder, input=listed, capture_output=True, timeout=60)
    check((done.returncode, done.stdout, done.stderr) == (0, b"", b""), f"add of what find lists says {done!r}")
    check(staged_rows(folder) == {name.encode(): (0, name.encode()) for name in names}, "other files are staged")
    done = subprocess.run([PROGRAM, "rm", "--paths-from=/dev/stdin"], cwd=folder, input=listed, capture_output=True, timeout=60)
    check((done.returncode, done.stdout, done.stderr) == (0, b"", b"") and staged_rows(folder) == {}, f"rm of what find lists says {done!r}")


def reads_a_list_that_another_command_prints(folder):
    """What writes the list may need the lock."""
    do(folder, "init")
    for name in ("a", "b"):
        write(folder, name, b"1")
        do(folder, "add", name)
    words = f"'{PROGRAM}' status | cut -c3- | tr '\\n' '\\0' | '{PROGRAM}' rm --paths-from=-"
    done = subprocess.run(["sh", "-c", words], cwd=folder, capture_output=True, timeout=60)
    check((done.returncode, done.stderr) == (0, b"") and staged_rows(folder) == {}, f"it says {done!r}")


def takes_no_mode_from_the_working_file(folder):
    do(folder, "init")
    for name, mode in (("run", 0o755), ("text", 0o644)):
        write(folder, name, b"1")
        os.chmod(os.path.join(folder, name), mode)
        do(folder, "add", name)
    check(staged_rows(folder) == {b"run": (0, b"1"), b"text": (0, b"1")}, "a file is executable that wasn't asked for")


CASES = [keeps_files_of_hard_names, keeps_the_longest_path_that_the_system_opens, refuses_control_bytes,
         tells_a_refused_name_on_one_line, stages_no_name_that_is_not_text,
         explains_beside_names_that_are_not_text, stages_what_git_and_find_list,
         reads_a_list_that_another_command_prints, takes_no_mode_from_the_working_file]
