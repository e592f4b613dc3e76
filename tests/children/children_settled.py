"""At which age files count as settled for children of tests/children/children.py, so that no process has unwritten changes of them in its
memory. Nothing is waited for: the program is told other settings and mounts of the system, and another moment at which its folder was
changed. So its clock shows any age of a file."""
import os
import subprocess
import tempfile
from pathlib import Path

from children_reads import MAPS
from children_trial import BASE, HERE, TREE, Trial, built, check, equal, takes, wait_for

SECOND, THOUSANDTH = 10**9, 10**6
SIZE = 100_000
USUAL = "3000\n", "500\n"
# What the system says, in hundredths of a second, of how old dirty data gets and how often it looks for such data; and at which age in
# seconds a file counts as settled. With `None` none ever does: the system never looks, or doesn't say.
SETTINGS = {
    USUAL: 141,
    ("1\n", "1\n"): 1,
    ("24", "1"): 2,
    ("0\n", "25\n"): 2,
    ("360000\n", "6000\n"): 14_641,
    ("4294967295\n", "4294967295\n"): 343_597_384,
    ("3000\n", "0\n"): None,
    ("0\n", "0\n"): None,
    ("4294967296\n", "500\n"): None,
    ("3000\n", "-500\n"): None,
    ("often\n", "500\n"): None,
    ("3000\n", ""): None,
    (None, "500\n"): None,
    ("3000\n", None): None,
}
# Kinds of file systems on which no file ever settles.
OTHER_KINDS = "ext3", "ext2", "ext4dev", "ext", "fuse.ext4", "xfs", "btrfs", "f2fs", "overlay", "tmpfs", "nfs4", "vfat"


def mount(place, kind, optional="", more=""):
    """A line for what is mounted on the device of a place. `more` is added to the number of the device."""
    device = os.stat(place).st_dev
    return f"36 35 {os.major(device)}:{os.minor(device)}{more} / /kept rw,noatime {optional}- {kind} /dev/root rw,ext4\n"


def other_system(place, moment, settings=USUAL, mounts=None):
    """The environment of a program to which the system says this, and for which it is this moment."""
    library = Path(BASE, "other_times.so")
    if not library.exists():
        subprocess.run(["cc", "-O1", "-shared", "-fPIC", "-o", library, HERE / "other_times.c", "-ldl"], check=True)
    folder = Path(tempfile.mkdtemp(prefix="children-", dir=BASE))
    names = "dirty_expire_centisecs", "dirty_writeback_centisecs", "mountinfo"
    for name, text in zip(names, (*settings, mount(place, "ext4") if mounts is None else mounts)):
        if text is not None:
            (folder / name).write_text(text)
    return os.environ | {"LD_PRELOAD": str(library), "SYSTEM_FOLDER": str(folder), "TRASH_CHANGED": str(moment)}


def changed_at(top, path):
    """The moment at which a file of the scratch folder was last changed."""
    return Path(top, "h/scratch", path).stat().st_ctime_ns


def fine(moment):
    """This moment, or the next one if it is a whole thousandth of a second, which tells nothing."""
    return moment + (moment % THOUSANDTH == 0)


class Left:
    """A file in the folder that a program left."""

    def __init__(self):
        self.tree = {"f": b"x" * SIZE}
        trial = Trial(self.tree)
        equal(trial.run("true"), (0, b"", {}), "the child of a first program")
        trial.end()
        self.top = trial.top
        self.changed = changed_at(self.top, "f")

    def counts_as_settled(self, moment, wanted, text, **how):
        """Checks whether the next program reads the file once for its first child, and not again for its second. Otherwise it reads the
        file twice for each, as it does if it is to read everything."""
        is_known = wanted and Trial.reads == {}
        trial = Trial(self.tree, keep=self.top, env=other_system(self.top, moment, **how))
        for child, least in (("first", 1), ("second", 0)):
            read = trial.reads_of("true")
            least = least if is_known else 2
            check(least * SIZE <= read < (least + 0.5) * SIZE, f"{read} bytes are read of a {child} child, of a file of {SIZE}, {text}")
        trial.end()
        equal(changed_at(self.top, "f"), self.changed, "when the file was changed")


def a_file_settles_at_its_age_and_not_before():
    left = Left()
    for settings, seconds in SETTINGS.items():
        text = f"if the system says {settings}"
        if seconds is None:
            left.counts_as_settled(fine(left.changed + SECOND**2), False, text, settings=settings)
        else:
            settled = left.changed + seconds * SECOND
            left.counts_as_settled(settled, False, f"{text}, at {seconds} seconds", settings=settings)
            left.counts_as_settled(fine(settled + 1), True, f"{text}, after {seconds} seconds", settings=settings)


def ages_are_told_by_seconds_and_their_parts():
    left = Left()
    age = SETTINGS[USUAL] * SECOND
    second = left.changed // SECOND * SECOND
    thousandth = (left.changed // THOUSANDTH + 2) * THOUSANDTH
    moments = {second - 1: False, second + SECOND + 1: True, thousandth: False, thousandth + 1: True, thousandth + 1_000: True}
    for moment, is_settled in moments.items():
        left.counts_as_settled(moment + age, is_settled, f"{moment - left.changed} nanoseconds after it was changed, and {age} more")


def kinds_of_mounts(place):
    """What the system may say is mounted, with the kind of the file system of a place, if that is there."""
    for kind in OTHER_KINDS:
        yield kind, mount(place, kind)
    for kind, other in (("ext4", "xfs"), ("xfs", "ext4")):
        for optional in ("shared:1 ", "shared:1 master:2 propagate_from:3 unbindable "):
            yield kind, mount(place, kind, optional)
        yield kind, mount(place, other, more="0") + mount(place, kind) + mount(place, other, more="1")
    yield None, mount(place, "ext4", more="0")
    yield None, ""


def files_settle_on_one_kind_of_file_system():
    left = Left()
    moment = fine(left.changed + SETTINGS[USUAL] * SECOND + 1)
    for kind, mounts in kinds_of_mounts(left.top):
        left.counts_as_settled(moment, kind == "ext4", f"on {mounts!r}", mounts=mounts)


def a_write_through_memory_to_a_younger_file_is_seen():
    """The file was written through memory, and so is it again before the system has written it to the disk: its times don't show that."""
    maps = built("maps", MAPS)
    for settings, seconds in SETTINGS.items():
        text = f"if the system says {settings}"
        trial = Trial(TREE)
        top = trial.top
        equal(trial.run(maps, "stay", "a.txt", "oxy", top), (0, b"", {}), "a file that stays mapped")
        trial.end()
        moment = fine(changed_at(top, "a.txt") + SECOND**2) if seconds is None else changed_at(top, "a.txt") + seconds * SECOND
        trial = Trial(TREE, keep=top, env=other_system(top, moment, settings))
        equal(trial.run("true"), (0, b"", {}), "a child of the next program")
        changed = trial.sh(f"touch {top}/go.1; until [ -e {top}/done.1 ]; do sleep 0.001; done")
        equal(changed, (0, b"", {"a.txt": b"xne\n"}), f"a write through the mapping during a child, {text}")
        takes(trial, changed)
        equal(trial.sh("cat a.txt"), (0, b"xne\n", {}), f"the child after that, {text}")
        Path(top, "go.2").touch()
        wait_for(f"{top}/done.2")
        trial.sees_the_tree(f"a write through the mapping between two children, {text}")
        Path(top, "go.99").touch()
        trial.end()
