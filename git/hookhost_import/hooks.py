"""The hooks of a configuration, as those of a local repository."""
import shlex
from dataclasses import dataclass, field

from hookhost_import import wrapper
from hookhost_import.environments import Environment, is_installed
from hookhost_import.patterns import finds_the_same, means_the_same
from hookhost_import.pre_commit_parts import SCRIPT, SYSTEM, all_hooks, environment_of, install_hook_envs, languages, runs_plainly, speaking
from hookhost_import.tools import NOTHING, reads_of

PLAIN = (*SYSTEM, *SCRIPT, "pygrep", "fail")
# The stages that hookhost-git runs, each with its names.
STAGES = {
    "pre-commit": {"commit", "pre-commit"}, "prepare-commit-msg": {"prepare-commit-msg"}, "commit-msg": {"commit-msg"},
    "post-commit": {"post-commit"},
}
# Keys of a hook, with the value that means the same as no key.
KEYS = {
    "alias": "", "args": [], "files": "", "exclude": "^$", "types": ["file"], "types_or": [], "exclude_types": [], "always_run": False,
    "pass_filenames": True, "require_serial": False, "verbose": False, "fail_fast": False,
}
# Keys of hookhost's own, and the kinds of their values. pre-commit runs the hooks without them.
OWN_KEYS = {"x_reads": (str, "a text in quotes"), "x_per_file": (bool, "true or false"), "x_at_most": (int, "a number")}
# The types of what a tree of hookhost doesn't have.
NO_FILES = ("symlink", "directory", "socket")


@dataclass(frozen=True)
class Row:
    """A hook that is run at a commit: the numbers of its repository and of the hook in there, the names by which it is chosen, those of
    the stages that it has, its own fail_fast, and the local hook that it has become, or None if it is left to pre-commit."""

    place: tuple
    names: tuple
    stages: tuple
    fail_fast: bool
    made: dict


@dataclass
class Import:
    """What becomes of a configuration: the keys at its top, its local hooks and the repository of each, the hooks that are left to
    pre-commit, each with the reason and those of the stages that it has, all hooks that are run at a commit, and the folders and files
    whose change asks for another import."""

    top: dict
    hooks: list = field(default_factory=list)
    sources: list = field(default_factory=list)
    left: list = field(default_factory=list)
    rows: list = field(default_factory=list)
    looked: set = field(default_factory=set)


def needs_environment(hook):
    return languages[hook.language].ENVIRONMENT_DIR is not None


def gets(hook, kind):
    """Whether pre-commit hands the hook what has this type alone."""
    tags = {kind}
    return tags >= set(hook.types) and (not hook.types_or or bool(tags & set(hook.types_or))) and not tags & set(hook.exclude_types)


def stages_of(hook):
    """Those of the stages of a commit that the hook has."""
    return tuple(stage for stage, names in STAGES.items() if names & set(hook.stages))


def why_left(hook, raw):
    """Why a hook is left to pre-commit, by what it is; None if it isn't."""
    for key, (kind, what) in OWN_KEYS.items():
        if key in raw and type(raw[key]) is not kind:
            return f"its {key} has to be {what}"
    if hook.src == "meta":
        return "it is a hook of pre-commit itself"
    if hook.language not in PLAIN and not runs_plainly(hook.language):
        return f"hookhost doesn't start hooks of the language {hook.language}"
    if hook.log_file:
        return "it has a log_file"
    try:
        if not shlex.split(hook.entry) and hook.language not in ("fail", "pygrep"):
            return "its entry has no word"
    except ValueError:
        return "its entry can't be cut into words"
    if any(gets(hook, kind) for kind in NO_FILES):
        return "it asks for links or submodules, which hookhost hands to no hook"
    if not means_the_same(hook.files) or not means_the_same(hook.exclude):
        return "its files or exclude is a pattern that means something else to hookhost"
    if needs_environment(hook) and not stages_of(hook):
        return "it isn't run at a commit, so pre-commit hasn't installed it"
    return None


def keys_of(hook, raw):
    """The keys of a hook but for language, entry and arguments."""
    found = {"id": hook.id, "name": hook.name}
    for key, plain in KEYS.items():
        held = getattr(hook, key)
        held = list(held) if isinstance(held, (list, tuple)) else held
        if held != plain and key != "args":
            found[key] = held
    # hookhost takes an empty list for all stages, and pre-commit for none.
    found["stages"] = list(hook.stages) or ["post-rewrite"]
    return found | {key: raw[key] for key in OWN_KEYS if key in raw}


def with_command(keys, language, entry, args, **more):
    found = {key: keys[key] for key in ("id", "name")} | {"language": language, "entry": entry}
    if args:
        found["args"] = list(args)
    found |= {key: it for key, it in keys.items() if key not in found}
    return found | {key: it for key, it in more.items() if key not in keys}


class Maker:
    """Makes local hooks, with scripts in a folder."""

    def __init__(self, program, scripts, skipped):
        self.program, self.scripts, self.skipped = program, scripts, skipped

    def is_skipped(self, hook):
        return bool({hook.id, hook.alias} & self.skipped) and needs_environment(hook) and not is_installed(hook)

    def made(self, hook, rev, raw, looked):
        """The hook as a local one."""
        keys = keys_of(hook, raw)
        if self.is_skipped(hook):
            return with_command(keys, "fail", "SKIP names this hook, so it isn't installed", [])
        if hook.language == "pygrep":
            found = with_command(keys, "pygrep", hook.entry, hook.args)
            # A local one is served as in a configuration that isn't imported.
            if (hook.src == "local" or finds_the_same(hook.entry, hook.args)) and self.program.takes({}, [found]):
                return found
            looked |= set(wrapper.looked_at_for_pygrep())
            script = wrapper.write_for_pygrep(self.scripts, hook, rev)
            return with_command(keys, "system", shlex.quote(script), [*hook.args, hook.entry], x_reads=NOTHING)
        if hook.language == "fail":
            return with_command(keys, "fail", hook.entry, hook.args)
        if hook.language in SYSTEM:
            return with_command(keys, "system", hook.entry, hook.args)
        if hook.language in SCRIPT and hook.src == "local":
            return with_command(keys, "script", hook.entry, hook.args)
        environment = Environment.of(hook)
        looked |= {environment.top, *environment.outside}
        script = wrapper.write_for_environment(self.scripts, hook, rev)
        rest = shlex.split(hook.entry)[1:]
        return with_command(keys, "system", shlex.join([script, *rest]), hook.args, x_reads=reads_of(hook, environment_of(hook)))


def top_of(config):
    found = {"fail_fast": True} if config["fail_fast"] else {}
    found |= {key: config[key] for key, plain in (("files", ""), ("exclude", "^$")) if config[key] != plain}
    return found | {"default_stages": list(config["default_stages"])}


def imported(config, store, maker):
    """Has pre-commit install what the hooks need, and makes local hooks of them."""
    with speaking():
        hooks = list(all_hooks(config, store))
        places = [(number, at) for number, repo in enumerate(config["repos"]) for at in range(len(repo["hooks"]))]
        raws = [config["repos"][number]["hooks"][at] for number, at in places]
        reasons = [why_left(hook, raw) for hook, raw in zip(hooks, raws, strict=True)]
        wanted = [hook for hook, why in zip(hooks, reasons) if why is None and needs_environment(hook)]
        install_hook_envs([hook for hook in wanted if not {hook.id, hook.alias} & maker.skipped], store)
    found = Import(top_of(config))
    is_taken = means_the_same(config["files"]) and means_the_same(config["exclude"]) and maker.program.takes(found.top, [])
    if not is_taken:
        found.top = {}
    for hook, why, raw, place in zip(hooks, reasons, raws, places, strict=True):
        rev, stages = config["repos"][place[0]].get("rev", ""), stages_of(hook)
        if why is None and not is_taken:
            why = "files or exclude at the top is a pattern that hookhost doesn't take"
        made = maker.made(hook, rev, raw, found.looked) if why is None else None
        if made is not None and not maker.program.takes({}, [made]):
            made, why = None, "hookhost doesn't take it; its patterns may look around or back"
        if made is None:
            found.left.append((hook.id, why, stages))
        else:
            found.hooks.append(made)
            found.sources.append("" if hook.src == "local" else f"{hook.src}, {rev}")
        if stages:
            found.rows.append(Row(place, (hook.id, hook.alias), stages, hook.fail_fast, made))
    return found


@dataclass
class Part:
    """Hooks that follow one another, all run by hookhost or all left to pre-commit, or one alone whose failure ends the run."""

    is_left: bool
    is_alone: bool
    rows: list = field(default_factory=list)


def parts_of(rows, is_fail_fast):
    """The hooks in parts. Before the last hook that is left, each with fail_fast is a part of its own: the part's failure is the hook's.
    After it hookhost ends the run by itself. If every failure ends the run, any part's does."""
    last = max((at for at, row in enumerate(rows) if row.made is None), default=-1)
    found = []
    for at, row in enumerate(rows):
        part = Part(row.made is None, row.fail_fast and at <= last and not is_fail_fast)
        if not found or part.is_alone or found[-1].is_alone or found[-1].is_left != part.is_left:
            found.append(part)
        found[-1].rows.append(row)
    return found
