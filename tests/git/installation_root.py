"""Makes a bare Debian in a folder from this machine's own packages, for tests/git/installation.py.

It has the files of the packages that Debian marks as essential, of the named ones, and of all that these depend on, as they are installed
here. Its list of packages has no others. So it has neither the kit nor the other installed packages, and needs no network. What packages
do when they are installed isn't done again, except for what a shell and Git need of it.
"""
import os
import re
import shutil
import subprocess
import tempfile

from git_bridge_repository import check

DATABASE = "var/lib/dpkg"
FIELDS = "${db:Status-Status}\t${Package}\t${Essential}\t${Provides}\t${Pre-Depends}, ${Depends}\n"
PATH = "/usr/sbin:/usr/bin:/sbin:/bin"
# Mounts what a shell needs, in a list of mounts of its own, and changes to the folder.
ENTER = 'top=$1 at=$2; shift 2; mount -t proc proc "$top/proc" && mount --rbind /dev "$top/dev" || exit 125; exec chroot "$top" env -C "$at" "$@"'


def told(*words, given=b""):
    return subprocess.run(words, input=given, check=True, stdout=subprocess.PIPE, timeout=120).stdout


def names_of(field):
    """The packages that a field names, as groups of which each needs one."""
    groups = [re.findall(r"(?:^|\|)\s*([a-z0-9.+-]+)", group) for group in field.split(",")]
    return [group for group in groups if group]


def needed(names):
    """The essential packages, these, and all that they depend on."""
    needs, serves, left = {}, {}, list(names)
    for line in told("dpkg-query", "--show", "-f", FIELDS).decode().splitlines():
        status, name, essential, provides, depends = line.split("\t")
        if status == "installed":
            needs[name] = names_of(depends)
            serves |= {other: name for group in names_of(provides) for other in group}
            left += [name] if essential == "yes" else []
    serves |= {name: name for name in needs}
    found = set()
    while left:
        wanted = left.pop()
        check(wanted in serves, f"the package {wanted} isn't installed here")
        if serves[wanted] not in found:
            found.add(serves[wanted])
            left += [next((name for name in group if name in serves), group[0]) for group in needs[serves[wanted]]]
    return sorted(found)


def kind(path):
    """The order in which paths are copied: folders, then links, then files."""
    return (1 if os.path.islink(path) else 0 if os.path.isdir(path) else 2), path


class Root:
    """A bare Debian in a folder."""

    def __init__(self, folder):
        self.folder = folder
        self.env = {"PATH": PATH, "HOME": "/root", "DEBIAN_FRONTEND": "noninteractive"}

    @staticmethod
    def hindrance():
        """Why none can be played here, or None."""
        if os.getuid() != 0:
            return "only root can enter a bare Debian"
        with tempfile.TemporaryDirectory() as place:
            mounts = subprocess.run(["unshare", "--mount", "mount", "-t", "proc", "proc", place], stderr=subprocess.PIPE)
        return f"nothing can be mounted: {mounts.stderr.decode(errors='replace').strip()}" if mounts.returncode else None

    @staticmethod
    def made(folder, *names):
        """One with these packages and what they depend on."""
        check(shutil.which("dpkg-query"), "there is no dpkg-query here, and a bare Debian is made of Debian's packages")
        root = Root(folder)
        os.mkdir(folder)
        packages = needed(names)
        root.copy_files(packages)
        root.copy_database(packages)
        root.set_up()
        return root

    def path(self, *parts):
        return os.path.join(self.folder, *parts)

    def copy_files(self, packages):
        listed = told("dpkg-query", "--listfiles", *packages).decode().splitlines()
        # If `/bin` is a link, the files below it are those of `/usr/bin`.
        parted = [os.path.split(path) for path in listed if path.startswith("/") and path != "/."]
        found = {os.path.join(os.path.realpath(folder), name) for folder, name in parted}
        paths = sorted(filter(os.path.lexists, found), key=kind)
        packed = told("tar", "-C", "/", "--no-recursion", "--null", "-T", "-", "-cf", "-", given="\0".join("." + path for path in paths).encode())
        told("tar", "-C", self.folder, "-xpf", "-", given=packed)

    def copy_database(self, packages):
        """Writes the list of the packages, and of their files."""
        for name in ["info", "updates", "triggers"]:
            os.makedirs(self.path(DATABASE, name), exist_ok=True)
        with open(self.path(DATABASE, "status"), "wb") as file:
            file.write(told("dpkg-query", "--status", *packages) + b"\n")
        for name in os.listdir(f"/{DATABASE}/info"):
            if name == "format" or re.sub(r"(:\w+)?\.(list|md5sums)$", "", name) in packages:
                shutil.copy(f"/{DATABASE}/info/{name}", self.path(DATABASE, "info"))

    def set_up(self):
        """Does what the scripts of packages would do: links to the one of several tools, users, and the list of libraries."""
        for name in os.listdir("/etc/alternatives"):
            target, about = os.path.realpath(f"/etc/alternatives/{name}"), f"/{DATABASE}/alternatives/{name}"
            if os.path.exists(self.path(target[1:])) and os.path.exists(about):
                with open(about, encoding="utf-8") as file:
                    link = file.read().splitlines()[1]
                os.symlink(target, self.path("etc/alternatives", name))
                os.symlink(f"/etc/alternatives/{name}", self.path(link[1:]))
        for name in ["passwd", "group"]:
            shutil.copy(self.path("usr/share/base-passwd", name + ".master"), self.path("etc", name))
        if not os.path.lexists(self.path("bin/sh")):
            os.symlink("dash", self.path("bin/sh"))
        self.done("ldconfig")

    def run(self, *words, at="/", given=b"", **variables):
        """The status of a command in it, and what that prints."""
        done = subprocess.run(["unshare", "--mount", "sh", "-c", ENTER, "sh", self.folder, at, *words], env=self.env | variables, input=given,
                              stdout=subprocess.PIPE, stderr=subprocess.STDOUT, timeout=300)
        text = done.stdout.decode(errors="replace")
        check(done.returncode != 125 and "unshare: " not in text, f"nothing can be mounted here, so no bare Debian can be played: {text}")
        return done.returncode, text

    def done(self, *words, **how):
        """What a command in it prints, which has to do it."""
        status, text = self.run(*words, **how)
        check(status == 0, f"{words!r} ends with {status}: {text}")
        return text
