"""What is the same for all hooks, and what the commands of one did."""
import os
import re
import sys

from hookhost_reads.basics import CONFIGURATION, Refused, shown, write_program
from hookhost_reads.configuration import imported, languages_of
from hookhost_reads.staged import staged_files
from hookhost_reads.store import Store
from hookhost_reads.strace import TRACED, Command, strace_words


class World:
    """All that is the same for all hooks."""

    def __init__(self, place, program, options, here):
        self.place, self.program, self.strace = place, program, strace_words()
        self.staged = staged_files(self.program, place)
        self.imported = imported(self.program, self.staged, place, here)
        self.scratch = os.path.join(place, "runs", "scratch")
        os.mkdir(os.path.join(place, "runs"))
        modules = os.path.join(self.staged.top, "node_modules")
        if os.path.isdir(modules):
            os.symlink(modules, os.path.join(place, "runs", "node_modules"))
        self.in_scratch = re.compile(re.escape(self.scratch) + r"(?:\.\d+)?(?:/|(?=$))(.*)", re.DOTALL)
        self.stores = {}
        self.known = set(self.staged.paths)
        self.folders = {path[:at.start()] for path in self.known for at in re.finditer("/", path)}
        self.env = {key: value for key, value in os.environ.items() if key not in ("GIT_DIR", "GIT_INDEX_FILE", "GIT_WORK_TREE", "GIT_PREFIX", "HOOKHOST_GIT_CALLS")}
        ceiling = os.environ.get("GIT_CEILING_DIRECTORIES")
        if self.staged.is_git:
            self.env.pop("HOOKHOST_LINKS", None)
            self.env |= {"PRE_COMMIT": "1", "HOOKHOST_TOP": self.staged.top} | ({"HOOKHOST_LINKS": ":".join(self.staged.links)} if self.staged.links else {})
        # With io_uring node may read files in a way that strace doesn't see.
        self.env |= {"HOOKHOST_SCRATCH": self.scratch, "UV_USE_IO_URING": "0",
                     "GIT_CEILING_DIRECTORIES": os.path.join(place, "runs") + (":" + ceiling if ceiling else "")}
        self.languages = languages_of(self.program, self.staged, self.env)
        self.left = self.imported.left if self.imported else []
        files = self.chosen(options)
        self.selections = [[path] for path in files] if options.each else [files]
        with open(os.path.join(self.staged.folder, CONFIGURATION), encoding="utf-8", errors="replace") as file:
            self.configuration = file.read()

    def store(self, contents):
        """A store with the staged files, some of them with these other contents. It is made once."""
        key = tuple(sorted(contents.items()))
        if key not in self.stores:
            self.stores[key] = Store(self, f"files.{len(self.stores)}", contents)
        return self.stores[key]

    def inside(self, full):
        """The path within the folder of hooks, or within the one next to it that a run may use: empty for the folder itself, None outside."""
        it = self.in_scratch.fullmatch(full)
        return it and it[1]

    def let_scripts(self, do_nothing):
        """Has the scripts that start imported hooks start nothing, or what they are for."""
        if self.imported is None:
            return
        own, none, new = (self.imported.scripts + end for end in (".own", ".none", ".new"))
        if not os.path.exists(none):
            os.mkdir(none)
            for name in os.listdir(own):
                write_program(os.path.join(none, name))
        os.symlink(none if do_nothing else own, new)
        os.replace(new, self.imported.scripts)

    def is_of_import(self, path):
        """Whether an imported hook's command has the file in its name, by a digest: its environment, and what that leads to."""
        return self.imported is not None and any(path == it or path.startswith(it + "/") for it in self.imported.looked)

    def chosen(self, options):
        found = self.selected(options)
        if CONFIGURATION not in found or self.imported is None and self.staged.configuration == CONFIGURATION:
            return found
        # Hooks find another text in its place.
        print(f"hookhost-reads: left to pre-commit: {CONFIGURATION}, in whose place hooks find what hookhost reads", file=sys.stderr)
        if found == [CONFIGURATION]:
            raise Refused("there is no other file: --all-files takes all, --files some")
        return [path for path in found if path != CONFIGURATION]

    def selected(self, options):
        if options.all_files:
            return self.staged.paths
        if options.files is None:
            if not self.staged.changed:
                raise Refused("no staged file differs from the last commit: --all-files takes all, --files some")
            return self.staged.changed
        found = {}
        for word in options.files:
            path = os.path.relpath(os.path.join(os.path.realpath(os.getcwd()), word), os.path.realpath(self.staged.top))
            held = [path] if path in self.known else [it for it in self.staged.paths if path == "." or it.startswith(path + "/")]
            if not held:
                raise Refused(f"not staged: {shown(word)}")
            found |= dict.fromkeys(held)
        return list(found)


def traced(world, name):
    """What the commands of the hooks of a name did, how the hooks ended, and what couldn't be started."""
    commands, verdicts, said = {}, set(), []
    world.let_scripts(do_nothing=False)
    for selection in world.selections:
        with world.store({}).trace(name, selection, TRACED, "--fresh") as (status, printed, errors, found):
            if status > 1:
                raise Refused(f"hookhost says: {errors.strip()}")
            verdicts |= set(re.findall(r"\.(Passed|Failed|Skipped)$", printed, re.MULTILINE))
            said += [line.removeprefix("hookhost: ") for line in errors.split("\n") if line.startswith("hookhost: ")]
            for command in found:
                commands.setdefault(command.words, Command(command.words, count=0)).add(command)
    return list(commands.values()), verdicts, list(dict.fromkeys(said))
