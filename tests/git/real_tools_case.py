"""The form of a hook for tests/git/real_tools.py, with the files at which it passes and those at which it fails."""
import dataclasses

from git_bridge_repository import quoted_yaml, shell


class Script(str):
    """The text of a file that is executable."""


@dataclasses.dataclass(frozen=True)
class Edit:
    """A change of files that the hook isn't given: one at which the hook fails, and then one at which it passes."""

    what: str
    stricter: dict
    laxer: dict


@dataclasses.dataclass(frozen=True)
class Case:
    """A hook. It passes over the files `good`, and fails if those of `bad` are in their place; of these, None is no file.

    Paths are those within the case's own folder. It has the name of the case, and the hook is given its files. A path that begins with
    `/` begins at the top of the tree, in which many tools have their settings.
    """

    id: str
    keys: str
    good: dict
    bad: dict
    edits: tuple = ()

    def tree(self, files):
        return {from_top(path) if path.startswith("/") else f"{self.id}/{path}": text for path, text in files.items()}

    def hook(self):
        """The hook as a flow of YAML."""
        files = "" if "files:" in self.keys else f", files: '^{self.id}/'"
        return f"id: {self.id}, name: {self.id}, " + ("" if "language:" in self.keys else "language: system, ") + self.keys + files


def from_top(path):
    """The path without the slash by which it begins at the top of the tree."""
    return path.removeprefix("/")


def entry(words):
    """The hook's command, which is given the names of the files."""
    return "entry: " + quoted_yaml(words)


def whole(words):
    """The hook's command, which looks for the files by itself."""
    return entry(words) + ", pass_filenames: false"


def whole_shell(line):
    """A line of a shell that looks for the files by itself."""
    return shell(line) + ", pass_filenames: false"


def files_of(shared, cases, *, bad=False):
    """The files that cases share and those of all cases: those with which all hooks pass, or those with which all of them fail."""
    tree = {from_top(path): text for path, text in shared.items()}
    for case in cases:
        for path, text in case.tree(case.good).items():
            if tree.setdefault(path, text) != text:
                raise ValueError(f"two cases write {path} otherwise")
    for case in cases if bad else ():
        tree |= case.tree(case.bad)
    return {path: text for path, text in tree.items() if text is not None}


def edited(tree, case, changes):
    """The tree after an edit of a case."""
    return {path: text for path, text in (tree | case.tree(changes)).items() if text is not None}
