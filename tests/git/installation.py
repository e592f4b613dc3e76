#!/usr/bin/env python3
"""Tests share/install, share/package and share/stamp. share/install puts hookhost into the folders in which a Unix looks for it, and
share/package makes a package of Debian from it. By share/stamp both say how it was built (tests/git/installation_stamps.py).

Usage: tests/git/installation.py [PROGRAM [PART [ROOT]]]   (default: crates/hookhost/out/hookhost, all cases)

PART is a part of a case's name. Each case has a copy of what share/install and share/package read, and a home and a prefix of its own.
All their names have blanks and quotes. The package is installed in a bare Debian, made from this machine's packages
(tests/git/installation_root.py), and README.md's session with Git is run there. ROOT is a folder with another bare Debian and Git, which
is used in its place. `debootstrap --variant=minbase --include=git bookworm ROOT` makes one. That needs root.
"""
import gzip
import hashlib
import os
import re
import shlex
import shutil
import stat
import subprocess
import sys
import tarfile
import tempfile

sys.path.insert(0, os.path.abspath(f"{__file__}/../../shared"))
from build_stamps import PROVED
from git_bridge_readme import session
from git_bridge_repository import BLANKS, PROGRAM, TOP, WORDS, Answer, Repository, Wrong, check, content, environment, made, not_made, same
from installation_root import Root
from installation_stamps import CASES as CASES_OF_STAMPS, lay_sources, line_up

PART, ROOT = (sys.argv + ["", "", ""])[2:4]
# The files that are put below the prefix: the mode of each, and what it is a copy of.
PLACES = {
    "bin/hookhost": (0o755, "crates/hookhost/out/hookhost"),
    "bin/hookhost-git": (0o755, "git/hookhost-git"),
    "bin/hookhost-reads": (0o755, "git/hookhost-reads"),
    "bin/hookhost-import": (0o755, "git/hookhost-import"),
    **{f"share/hookhost/{modules}/{name}": (0o644, f"git/{modules}/{name}")
       for modules in ("hookhost_reads", "hookhost_import") for name in sorted(os.listdir(os.path.join(TOP, "git", modules))) if name.endswith(".py")},
    "share/man/man1/hookhost.1": (0o644, "share/hookhost.1"),
    "share/man/man1/hookhost-git.1": (0o644, "share/hookhost-git.1"),
    "share/man/man1/hookhost-reads.1": (0o644, "share/hookhost-reads.1"),
    "share/bash-completion/completions/hookhost": (0o644, "share/hookhost.bash"),
    "share/bash-completion/completions/hookhost-git": (0o644, "share/hookhost-git.bash"),
    "share/bash-completion/completions/hookhost-reads": (0o644, "share/hookhost-reads.bash"),
    "share/zsh/site-functions/_hookhost": (0o644, "share/_hookhost"),
    "share/zsh/site-functions/_hookhost-git": (0o644, "share/_hookhost-git"),
    "share/zsh/site-functions/_hookhost-reads": (0o644, "share/_hookhost-reads"),
    "share/fish/vendor_completions.d/hookhost.fish": (0o644, "share/hookhost.fish"),
    "share/fish/vendor_completions.d/hookhost-git.fish": (0o644, "share/hookhost-git.fish"),
    "share/fish/vendor_completions.d/hookhost-reads.fish": (0o644, "share/hookhost-reads.fish"),
}
LIST = "share/hookhost/installed"
BASH_COMPLETION = "/usr/share/bash-completion/bash_completion"
# Variables that name the program, the folders of shells, or the time of a package.
UNSET = ["HOOKHOST", "XDG_DATA_HOME", "XDG_DATA_DIRS", "SOURCE_DATE_EPOCH"]
# Words that share/install, share/package and share/stamp don't take.
NO_WORDS = {
    "install": ["--no-such", "x", "--prefix", "--prefix=", "--destdir", "--destdir=", "--prefix --uninstall", "--uninstall x"],
    "package": ["--no-such", "a b", "-x"],
    "stamp": ["", "--no-such", "x", "x maybe", "x proved y z", "-x proved", "--copy-of x", "--commit x"],
}
# The time of all commits of tests/git/git_bridge_repository.py, in seconds and as a version has it.
COMMITTED, SHOWN = 1795766400, "20261127080000"
# A program in place of hookhost, for cases that look at names alone: the real one takes long to pack.
SHORT = "#!/bin/sh\necho hookhost 0.1.0\n"


class Desk:
    """A copy of the repository's files, and a prefix to install them in."""

    def __init__(self, top):
        self.top, self.clone = top, os.path.join(top, "the clone's folder")
        self.home, self.prefix = os.path.join(top, "home"), os.path.join(top, "a home", "it's mine")
        os.mkdir(self.home)
        for name in ["docs", "git", "share"]:
            shutil.copytree(os.path.join(TOP, name), os.path.join(self.clone, name))
        shutil.copy(os.path.join(TOP, "README.md"), self.clone)
        self.program = os.path.join(self.clone, "crates/hookhost/out/hookhost")
        os.makedirs(os.path.dirname(self.program))
        shutil.copy(PROGRAM, self.program)
        self.env = {key: value for key, value in environment(self.home).items() if key not in UNSET}

    def share(self, name, *words, cwd=None, env=None, umask=-1):
        done = subprocess.run([os.path.join(self.clone, "share", name), *words], cwd=cwd or self.top, env=self.env | (env or {}), umask=umask,
                              stdin=subprocess.DEVNULL, capture_output=True, timeout=600)
        return Answer(done)

    def install(self, *words, status=0, **how):
        """What share/install prints, for the prefix if no words are given."""
        answer = self.share("install", *(words or ("--prefix", self.prefix)), **how)
        check(answer.status == status, f"share/install {words!r} ends with {answer.status}: {answer!r}")
        return answer

    def uninstall(self, *words, **how):
        return self.install("--uninstall", *(words or ("--prefix", self.prefix)), **how)

    def at(self, place):
        return os.path.join(self.prefix, place)

    def run_bridge(self, *words):
        """What the Git script of the clone prints, over its program."""
        env = self.env | {"HOOKHOST": self.program}
        return subprocess.run([os.path.join(self.clone, "git/hookhost-git"), *words], cwd=self.top, env=env, check=True, capture_output=True, text=True, timeout=60).stdout

    def write(self, path, text, mode=0o644):
        path = os.path.join(self.top, path)
        os.makedirs(os.path.dirname(path), exist_ok=True)
        with open(path, "w", encoding="utf-8") as file:
            file.write(text)
        os.chmod(path, mode)

    def commit(self):
        """Makes the clone one of Git, with a commit of all that is in it but the program."""
        repository = Repository(self.clone, self.env)
        if not os.path.isdir(os.path.join(self.clone, ".git")):
            repository.git("init", "--quiet", "--initial-branch=main")
            repository.write(".gitignore", "crates/*/out/\n")
        repository.git("add", ".")
        repository.git("commit", "--quiet", "--allow-empty", "-m", "A commit")
        return repository

    def package(self, folder, **how):
        """The paths of the package and the tar that share/package makes."""
        answer = self.share("package", folder, **how)
        check(answer.status == 0, f"share/package ends with {answer.status}: {answer!r}")
        deb, tar = answer.out.splitlines()
        same("folders of the paths", {os.path.dirname(deb), os.path.dirname(tar)}, {os.path.join(self.top, folder)})
        return deb, tar


def held_by(path):
    """The bytes of a file, or of a large one a digest."""
    held = content(path)
    return held if len(held) < 65536 else hashlib.sha256(held).hexdigest()


def snapshot(folder):
    """All below a folder by its path: a link's target, the mode of a folder, the mode and the bytes of a file."""
    found = {}
    for top, folders, names in os.walk(folder):
        for name in folders + names:
            path = os.path.join(top, name)
            about = os.lstat(path)
            mode = stat.S_IMODE(about.st_mode)
            held = os.readlink(path) if stat.S_ISLNK(about.st_mode) else held_by(path) if stat.S_ISREG(about.st_mode) else "folder"
            found[os.path.relpath(path, folder)] = mode, held
    return found


def told(answer, word):
    """The paths of the lines of what was put or removed."""
    return sorted(re.findall(rf"^{word}: (.*)$", answer.out, re.MULTILINE))


def says(text, *parts):
    for part in parts:
        check(part in text, f"{part!r} isn't in {text!r}")


def is_whole(desk, root):
    """Checks that each file is in its place below the root, with its bytes and mode."""
    for place, (mode, source) in PLACES.items():
        path = os.path.join(root, place)
        check(os.path.isfile(path) and not os.path.islink(path), f"there is no file {place}")
        same(f"mode of {place}", oct(stat.S_IMODE(os.stat(path).st_mode)), oct(mode))
        check(content(path) == content(os.path.join(desk.clone, source)), f"{place} isn't {source}")


# ---- what is put


def files_lie_where_a_unix_looks(desk):
    answer = desk.install(umask=0o077)
    is_whole(desk, desk.prefix)
    same("files that are named", told(answer, "installed"), sorted(desk.at(place) for place in [*PLACES, LIST]))
    found = snapshot(os.path.join(desk.top, "a home"))
    same("files", {os.path.relpath(path, "it's mine") for path, (_, held) in found.items() if held != "folder"}, {*PLACES, LIST})
    same("modes of folders", {mode for mode, held in found.values() if held == "folder"}, {0o755})


def any_folder_will_do(desk):
    os.mkdir(os.path.join(desk.top, "work"))
    answer = desk.install("--prefix=../a home/./it's mine//", cwd=os.path.join(desk.top, "work"))
    is_whole(desk, desk.prefix)
    desk.uninstall("--prefix", "it's mine", cwd=os.path.join(desk.top, "a home"))
    same("what is left", snapshot(os.path.join(desk.top, "a home")), {})
    says(answer.out, "it's mine/bin/hookhost-git\n")
    answer = Answer(subprocess.run(["sh", "install"], cwd=os.path.join(desk.clone, "share"), env=desk.env, capture_output=True, timeout=60))
    same("status", answer.status, 0)
    is_whole(desk, os.path.join(desk.home, ".local"))


def pages_are_found(desk):
    desk.install()
    for name in ["hookhost", "hookhost-git", "hookhost-reads"]:
        page = content(desk.at(f"share/man/man1/{name}.1")).decode()
        same("title", re.search(r"^\.TH (\S+) (\S+)", page, re.MULTILINE).groups(), (name.upper().replace("-", r"\-"), "1"))
        check(f"\n{name.replace('-', chr(92) + '-')} \\- " in page, f"the page of {name} has no line for apropos")
        if shutil.which("man"):
            env = desk.env | {"PATH": desk.at("bin") + ":" + desk.env["PATH"]}
            found = subprocess.run(["man", "-w", name], env=env, capture_output=True, text=True, timeout=60).stdout
            same("where man finds the page", found, desk.at(f"share/man/man1/{name}.1") + "\n")
        else:
            print("installation: man isn't installed here and finds nothing")


def told_by_bash(desk, lines):
    env, script = desk.env | {"XDG_DATA_HOME": os.path.join(desk.top, "data")}, "\n".join(lines) + "\n"
    done = subprocess.run(["bash", "--norc", "--noprofile"], input=script, env=env, cwd=desk.top, stdout=subprocess.PIPE, stderr=subprocess.STDOUT,
                          text=True, timeout=60)
    return done.stdout


def completions_load_in_bash(desk):
    desk.install()
    # bash-completion takes no folder with blanks in its name.
    os.symlink(desk.at("share"), os.path.join(desk.top, "data"))
    rows = [("hookhost", "_hookhost", "st", "status"), ("hookhost-git", "_hookhost_git", "inst", "install"), ("hookhost-reads", "_hookhost_reads", "--ea", "--each")]
    for name, function, word, wanted in rows:
        proposed = [f"complete -p {name}", f"COMP_WORDS=({name} {word}) COMP_CWORD=1; {function}; echo \"${{COMPREPLY[@]}}\""]
        shown = f"complete -F {function} {name}\n{wanted}\n"
        same("completion", told_by_bash(desk, [f"source {shlex.quote(desk.at('share/bash-completion/completions/' + name))}", *proposed]), shown)
        if os.path.exists(BASH_COMPLETION):
            load = f"if declare -F _comp_load > /dev/null; then _comp_load {name}; else __load_completion {name}; fi"
            same("completion that bash-completion finds", told_by_bash(desk, [f"source {BASH_COMPLETION}", load, *proposed]), shown)
        else:
            print("installation: bash-completion isn't installed here and finds nothing")


def the_installed_programs_find_each_other(desk):
    desk.install()
    os.remove(desk.program)
    shutil.rmtree(os.path.join(desk.clone, "git"))
    env = desk.env | {"PATH": f"{desk.at('bin')}:/usr/bin:/bin"}
    git = Repository.made(os.path.join(desk.top, "a repository"), env)
    git.configure(BLANKS, WORDS)
    answer = git.run("hookhost-git", "install")
    same("install", answer.status, 0)
    says(answer.out, "installed: ", "runs: pre-commit (2 hooks)")
    says(git.run("hookhost-git", "--version").out, "hookhost-git, over hookhost ")
    made(git.commit("-m", "The configuration"))
    git.add("a.txt", "BAD\n")
    not_made(git.commit(), "No bad words", "a.txt:1:BAD")
    git.add("a.txt", "good\n")
    answer = git.commit()
    made(answer)
    says(answer.text, "No bad words", "Passed")


def hookhost_reads_finds_its_modules(desk):
    """The program is started by each of its paths, and leaves no bytes that Python keeps of modules that it has read."""
    desk.install()
    shutil.rmtree(os.path.join(desk.clone, "git"))
    before = snapshot(desk.prefix)
    os.symlink(desk.at("bin/hookhost-reads"), os.path.join(desk.top, "a link"))
    env = {key: value for key, value in desk.env.items() if key != "PYTHONDONTWRITEBYTECODE"} | {"PATH": f"{desk.at('bin')}:{desk.env['PATH']}"}
    for words in [["hookhost-reads"], [os.path.join(desk.top, "a link")], [sys.executable, desk.at("bin/hookhost-reads")]]:
        done = subprocess.run([*words, "--help"], env=env, cwd=desk.top, capture_output=True, text=True, timeout=60)
        same(f"{words!r}", (done.returncode, done.stderr), (0, ""))
        says(done.stdout, "Usage: hookhost-reads ")
    same("what is written", snapshot(desk.prefix), before)


def what_is_left_to_do_is_told(desk):
    to_do = desk.install().out.partition("to do: ")[2]
    says(to_do, "isn't on the PATH", "XDG_DATA_DIRS=", "hookhost-git install")
    command = re.search(r"in ~/\.profile, (PATH=.*)$", to_do, re.MULTILINE)[1]
    found = subprocess.run(["sh", "-c", f"{command}; command -v hookhost-git"], env=desk.env, capture_output=True, text=True, timeout=60).stdout
    same("hookhost-git along the PATH that is told", found, desk.at("bin/hookhost-git") + "\n")
    env = {"PATH": f"{desk.at('bin')}:{desk.env['PATH']}", "XDG_DATA_DIRS": f"/usr/share:{desk.at('share')}/"}
    answer = desk.install(env=env)
    for text in ["isn't on the PATH", "XDG_DATA_DIRS", "along the PATH is"]:
        check(text not in answer.out, f"too much is left: {answer!r}")
    desk.write("other/hookhost", "#!/bin/sh\n", 0o755)
    says(desk.install(env=env | {"PATH": f"{desk.top}/other:{env['PATH']}"}).out, f"to do: hookhost along the PATH is {desk.top}/other/hookhost")
    says(desk.uninstall().out, "rm .git/hooks/pre-commit")


# ---- what was there before


def uninstall_leaves_all_else(desk):
    desk.write("a home/it's mine/bin/other", "mine\n", 0o755)
    desk.write("a home/it's mine/share/man/man1/other.1", "mine\n")
    os.makedirs(desk.at("share/fish"))
    before = snapshot(os.path.join(desk.top, "a home"))
    desk.install()
    desk.install()
    desk.write("a home/it's mine/share/zsh/mine", "mine\n")
    answer = desk.uninstall()
    same("files that are named", told(answer, "removed"), sorted(desk.at(place) for place in [*PLACES, LIST]))
    left = snapshot(os.path.join(desk.top, "a home"))
    same("what is left", left, before | {"it's mine/share/zsh": (0o755, "folder"), "it's mine/share/zsh/mine": (0o644, b"mine\n")})
    same("a second time", desk.uninstall().out, f"not installed: there is no {desk.at(LIST)}\n")
    same("what is left", snapshot(os.path.join(desk.top, "a home")), left)


def what_was_changed_since_is_left(desk):
    desk.install()
    desk.write("a home/it's mine/bin/hookhost-git", "mine\n", 0o755)
    os.remove(desk.at("bin/hookhost"))
    os.symlink(desk.program, desk.at("bin/hookhost"))
    os.remove(desk.at("share/man/man1/hookhost.1"))
    answer = desk.uninstall()
    left = [desk.at("bin/hookhost"), desk.at("bin/hookhost-git")]
    same("files that are left", told(answer, "left as it is"), [f"{path}, which was changed since" for path in left])
    same("what is left", sorted(snapshot(desk.prefix)), ["bin", "bin/hookhost", "bin/hookhost-git"])
    same("bytes", content(desk.at("bin/hookhost-git")), b"mine\n")


def an_old_one_is_replaced_whole(desk):
    shutil.copy("/bin/sleep", desk.program)
    desk.install()
    with subprocess.Popen([desk.at("bin/hookhost"), "600"]) as running:
        shutil.copy(PROGRAM, desk.program)
        desk.write("a home/it's mine/share/old", "old\n")
        desk.write("a home/it's mine/share/mine", "mine\n")
        digest = subprocess.run(["cksum"], input="old\n", capture_output=True, text=True, timeout=60).stdout.rstrip()
        with open(desk.at(LIST), "a", encoding="utf-8") as file:
            file.write(f"file {digest} share/old\n")
        answer = desk.install()
        check(running.poll() is None, "the running program has ended")
        same("the running program", content(f"/proc/{running.pid}/exe"), content("/bin/sleep"))
        running.kill()
    same("files that are removed", told(answer, "removed"), [desk.at("share/old")])
    is_whole(desk, desk.prefix)
    desk.uninstall()
    same("what is left", sorted(snapshot(desk.prefix)), ["share", "share/mine"])


def links_are_replaced(desk):
    desk.write("mine/file", "mine\n", 0o600)
    os.makedirs(desk.at("bin"))
    os.makedirs(desk.at("share/man/man1"))
    os.symlink(os.path.join(desk.top, "mine/file"), desk.at("bin/hookhost"))
    os.symlink(os.path.join(desk.top, "mine"), desk.at("bin/hookhost-git"))
    os.symlink(os.path.join(desk.top, "nowhere"), desk.at("share/man/man1/hookhost.1"))
    desk.install()
    is_whole(desk, desk.prefix)
    same("another's files", snapshot(os.path.join(desk.top, "mine")), {"file": (0o600, b"mine\n")})
    check(not os.path.lexists(os.path.join(desk.top, "nowhere")), "a link is followed")


# ---- what fails


def an_unbuilt_program_changes_nothing(desk):
    os.remove(desk.program)
    answer = desk.install(status=1)
    same("what is said", (answer.out, answer.err), ("", f"share/install: hookhost isn't built: {desk.clone}/demo/run builds it, as {desk.program}\n"))
    check(not os.path.exists(os.path.join(desk.top, "a home")), "a folder is made")
    answer = desk.share("package", "packages")
    same("status", answer.status, 1)
    says(answer.err, "hookhost isn't built", "demo/run")


def unknown_words_are_refused(desk):
    before = snapshot(desk.top)
    for name, rows in NO_WORDS.items():
        for words in rows:
            answer = desk.share(name, *words.split(), env={"HOME": os.path.join(desk.top, "no home")})
            same(f"share/{name} {words}", (answer.status, answer.out), (2, ""))
            says(answer.err, f"Usage: share/{name} ")
        for word in ["--help", "-h"]:
            answer = desk.share(name, word)
            same(f"share/{name} {word}", (answer.status, answer.err), (0, ""))
            says(answer.out, f"Usage: share/{name} ")
    same("status without a home", desk.share("install", env={"HOME": ""}).status, 2)
    same("what is changed", snapshot(desk.top), before)


def a_fault_changes_nothing(desk):
    for place, is_folder in [("bin/hookhost-git", True), ("share/fish", False), ("share/hookhost", False), (LIST, True), ("", False)]:
        if is_folder:
            os.makedirs(desk.at(place))
        else:
            desk.write(desk.at(place).rstrip("/"), "mine\n")
        before = snapshot(os.path.join(desk.top, "a home"))
        says(desk.install(status=1).err, "share/install: ")
        same(f"what a fault at {place!r} changes", snapshot(os.path.join(desk.top, "a home")), before)
        shutil.rmtree(os.path.join(desk.top, "a home"))


def who_stops_reading_stops_nothing(desk):
    """A pipe as in `share/install | head -n 1` stops nothing. A second time there is an old file to be removed."""
    for old in (False, True):
        if old:
            desk.write(desk.at("share/old"), "old\n")
            digest = subprocess.run(["cksum"], input="old\n", capture_output=True, text=True, timeout=60).stdout.rstrip()
            with open(desk.at(LIST), "a", encoding="utf-8") as file:
                file.write(f"file {digest} share/old\n")
        read, written = os.pipe()
        os.close(read)
        subprocess.run([os.path.join(desk.clone, "share/install"), "--prefix", desk.prefix], env=desk.env, stdout=written, stderr=subprocess.DEVNULL, timeout=60)
        os.close(written)
        is_whole(desk, desk.prefix)
        found = snapshot(os.path.join(desk.top, "a home"))
        same("files", {os.path.relpath(path, "it's mine") for path, (_, held) in found.items() if held != "folder"}, {*PLACES, LIST})


# ---- packages


def a_destdir_stands_for_the_top(desk):
    stage = f"{desk.top}/the stage{desk.prefix}"
    answer = desk.install("--destdir", "the stage", "--prefix", desk.prefix)
    is_whole(desk, stage)
    same("files that are named", told(answer, "installed"), sorted(os.path.join(stage, place) for place in [*PLACES, LIST]))
    check("to do" not in answer.out, f"something is left to do: {answer!r}")
    check(not os.path.exists(desk.prefix), "the prefix itself is made")
    desk.uninstall("--destdir=the stage", f"--prefix={desk.prefix}")
    check(not os.path.exists(os.path.join(desk.top, "the stage")), "the folder is left")


def fields(deb):
    text = subprocess.run(["dpkg-deb", "--field", deb], check=True, capture_output=True, text=True, timeout=60).stdout
    return dict(re.findall(r"^([A-Z][A-Za-z-]*): (.*)$", text, re.MULTILINE))


def members(archive):
    """What is in a tar by its path: the mode, the owner, the time, and what a file has."""
    with tarfile.open(archive) as tar:
        names = tar.getnames()
        same("order", names, sorted(names))
        return {it.name: (it.mode, it.uid, it.gid, it.mtime, tar.extractfile(it).read() if it.isfile() else None) for it in tar.getmembers()}


def members_of_deb(desk, deb):
    path = os.path.join(desk.top, "data.tar")
    with open(path, "wb") as file:
        subprocess.run(["dpkg-deb", "--fsys-tarfile", deb], check=True, stdout=file, timeout=60)
    return {name.removeprefix("./"): about for name, about in members(path).items() if name != "."}


def libc_of(program):
    """The version of the C library that the program asks for, as readelf gives it."""
    shown = subprocess.run(["readelf", "--version-info", "--wide", program], check=True, capture_output=True, text=True, timeout=60).stdout
    return max(re.findall(r"Name: GLIBC_([0-9.]+)", shown), key=lambda it: [int(part) for part in it.split(".")])


def runs_unpacked(desk, tar, build):
    """Checks that the programs of the tar find each other, and say how they were built."""
    subprocess.run(["tar", "-xzf", tar, "--strip-components=2", "--one-top-level=unpacked"], cwd=desk.top, check=True, timeout=60)
    env = desk.env | {"PATH": f"{desk.top}/unpacked/bin:/usr/bin:/bin"}
    done = subprocess.run(["hookhost-git", "--version"], env=env, capture_output=True, text=True, timeout=60)
    says(done.stdout, "hookhost-git, over hookhost 0.1.0\n", f"\n{build}")
    done = subprocess.run(["hookhost-reads", "--help"], env=env, capture_output=True, text=True, timeout=60)
    says(done.stdout, "Usage: hookhost-reads ")


def packages_have_all(desk):
    """The package and the tar: what they say, what is in them, and that they are made twice alike."""
    lay_sources(desk)
    head = desk.commit().head()
    build = f"{PROVED}{head[:12]}\n"
    deb, tar = desk.package("packages")
    version = f"0.1.0~git{SHOWN}.{head[:8]}"
    names = f"hookhost_{version}_{ARCHITECTURE}.deb", f"hookhost-{version}-{ARCHITECTURE}.tar.gz"
    same("names", (os.path.basename(deb), os.path.basename(tar)), names)
    about = fields(deb)
    same("fields", (about["Package"], about["Version"], about["Architecture"]), ("hookhost", version, ARCHITECTURE))
    same("what it depends on", about["Depends"], f"libc6 (>= {libc_of(PROGRAM)}), git (>= 1:2.22)")
    same("what it suggests, for hookhost-reads", about["Suggests"], "pre-commit, python3, strace")
    held = members_of_deb(desk, deb)
    for place, (mode, source) in PLACES.items():
        place = place.replace("zsh/site-functions", "zsh/vendor-completions")
        name, bytes_of = ("usr/" + place + ".gz", gzip.decompress) if "/man/" in place else ("usr/" + place, bytes)
        check(name in held, f"the package has no {name}")
        same(f"mode, owner and time of {name}", held[name][:4], (mode, 0, 0, COMMITTED))
        wanted = content(os.path.join(desk.clone, source)) + (line_up(build.encode()) if name == "usr/bin/hookhost" else b"")
        check(bytes_of(held[name][4]) == wanted, f"{name} isn't {source}")
    same("modes and owners", {(mode, user, group) for mode, user, group, _, data in held.values() if data is None}, {(0o755, 0, 0)})
    documents = {name.removeprefix("usr/share/doc/hookhost/") for name in held if name.startswith("usr/share/doc/hookhost/")}
    pages = {"docs/" + name for name in os.listdir(os.path.join(desk.clone, "docs"))}
    same("documents", documents, {"README.md", "copyright", "changelog.gz", "docs", *pages})
    says(held["usr/share/doc/hookhost/copyright"][4].decode(), "has no licence file", head)
    check(f"usr/{LIST}" not in held, "the package has the list of share/install")
    folder = os.path.basename(tar).removesuffix(".tar.gz")
    same("the tar", members(tar), {f"{folder}/{name.replace('zsh/vendor-completions', 'zsh/site-functions')}": it for name, it in held.items()})
    again = desk.package("again", env={"TZ": "Asia/Tokyo", "LC_ALL": "C.UTF-8", "TMPDIR": desk.home}, umask=0o077)
    for first, second in zip((deb, tar), again):
        check(content(first) == content(second), f"{os.path.basename(first)} is another when it is made again")
    runs_unpacked(desk, tar, build)


def versions_follow_the_commit(desk):
    desk.write(desk.program, SHORT, 0o755)
    git = desk.commit()
    first = git.head()[:8]
    git.git("tag", "another")

    def version():
        deb, _ = desk.package("packages")
        about = fields(deb)
        same("what it depends on", about["Depends"], "git (>= 1:2.22)")
        return about["Version"]
    same("before the tag", version(), f"0.1.0~git{SHOWN}.{first}")
    git.git("tag", "v0.1.0")
    same("at the tag", version(), "0.1.0")
    desk.write(f"{desk.clone}/README.md", "another\n")
    same("with a change", version(), "0.1.0+changed")
    desk.commit()
    same("after the tag", version(), f"0.1.0+git{SHOWN}.{git.head()[:8]}")
    desk.write(f"{desk.clone}/LICENSE", "All may do\n\nwhat they like.\n")
    desk.commit()
    deb, _ = desk.package("packages", env={"SOURCE_DATE_EPOCH": "1700000000"})
    held = members_of_deb(desk, deb)
    same("times", {it[3] for it in held.values()}, {1700000000})
    says(held["usr/share/doc/hookhost/copyright"][4].decode(), "License: LICENSE\n All may do\n .\n what they like.\n")
    shutil.rmtree(os.path.join(desk.clone, ".git"))
    answer = desk.share("package", "packages")
    same("status without Git", answer.status, 1)


# ---- a bare Debian


def install_without_git(root, package):
    """Checks that dpkg doesn't install the package if the list of packages has no Git, and that it does once it has."""
    path = root.path("var/lib/dpkg/status")
    stanzas = content(path).decode().split("\n\n")
    git = [stanza for stanza in stanzas if re.search(r"^Package: git$", stanza, re.MULTILINE)]
    with open(path, "w", encoding="utf-8") as file:
        file.write("\n\n".join(stanza for stanza in stanzas if stanza not in git))
    status, text = root.run("dpkg", "-i", package)
    check(status != 0, f"without git it is installed: {text}")
    says(text, "hookhost depends on git (>= 1:2.22)")
    with open(path, "a", encoding="utf-8") as file:
        file.write("\n" + git[0].strip("\n") + "\n")
    root.done("dpkg", "--configure", "hookhost")


def play_readme(root, folder):
    """Plays README.md's session with Git, in a folder in place of the one that its first command makes."""
    who = {f"GIT_{who}_{what}": f"tester{at}example.invalid" for who in ("AUTHOR", "COMMITTER") for what, at in (("NAME", " at "), ("EMAIL", "@"))}
    root.done("mkdir", folder)
    root.done("git", "init", "--quiet", at=folder)
    for command, shown in session()[1:]:
        reads = command.startswith("cat > ")
        _, text = root.run("bash", "-c", command, at=folder, given=shown.encode() if reads else b"", **who)
        if command == "hookhost-git install":
            shown = re.sub("^installed: .*(?=/.git/hooks/)", f"installed: {folder}", shown, flags=re.MULTILINE)
        if not reads:
            same(command, text, shown)
    same("commits", root.done("git", "log", "--format=%s", at=folder), "Add the plan\n")


def a_bare_debian_runs_the_package(desk):
    if why := Root.hindrance():
        print(f"installation: no bare Debian was played: {why}", flush=True)
        return
    desk.commit()
    deb, _ = desk.package("packages")
    root = Root(ROOT) if ROOT else Root.made(os.path.join(desk.top, "root"), "git")
    check(root.run("sh", "-c", "command -v rt || command -v hookhost")[0] != 0, "the bare Debian has the kit or hookhost")
    before = snapshot(root.path("usr"))
    shutil.copy(deb, root.path("tmp/hookhost.deb"))
    if ROOT:
        root.done("dpkg", "-i", "/tmp/hookhost.deb")
    else:
        install_without_git(root, "/tmp/hookhost.deb")
    same("what dpkg finds changed", root.done("dpkg", "--verify", "hookhost") + root.done("dpkg", "--audit"), "")
    same("where it is", root.done("sh", "-c", "command -v hookhost; command -v hookhost-git"), "/usr/bin/hookhost\n/usr/bin/hookhost-git\n")
    play_readme(root, "/root/plans")
    root.done("dpkg", "--purge", "hookhost")
    same("what is left", snapshot(root.path("usr")), before)


CASES = [
    files_lie_where_a_unix_looks, any_folder_will_do, pages_are_found, completions_load_in_bash, the_installed_programs_find_each_other,
    hookhost_reads_finds_its_modules, what_is_left_to_do_is_told, uninstall_leaves_all_else, what_was_changed_since_is_left, an_old_one_is_replaced_whole,
    links_are_replaced, an_unbuilt_program_changes_nothing, unknown_words_are_refused, a_fault_changes_nothing, who_stops_reading_stops_nothing,
    a_destdir_stands_for_the_top, *CASES_OF_STAMPS, packages_have_all, versions_follow_the_commit, a_bare_debian_runs_the_package,
]


def main():
    if not os.path.exists(PROGRAM):
        sys.exit(f"tests/git/installation.py: there is no {PROGRAM}: build it with `rt run` in crates/hookhost")
    chosen = [case for case in CASES if PART in case.__name__]
    failed = 0
    for case in chosen:
        top = os.path.realpath(tempfile.mkdtemp(prefix="installation-"))
        try:
            case(Desk(top))
        except (Wrong, subprocess.SubprocessError, OSError) as error:
            failed += 1
            print(f"installation: FAILED: {case.__name__}: {error}", flush=True)
        finally:
            shutil.rmtree(top, ignore_errors=True)
    print(f"installation: {len(chosen) - failed} passed, {failed} failed")
    return 1 if failed or not chosen else 0


ARCHITECTURE = subprocess.run(["dpkg", "--print-architecture"], stdout=subprocess.PIPE, text=True).stdout.strip() if shutil.which("dpkg") else ""
sys.exit(main())
