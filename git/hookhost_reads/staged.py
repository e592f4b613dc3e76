"""The files that are staged, in a checkout of Git or in a repository of hookhost."""
import os
import re
import shutil
from dataclasses import dataclass

from hookhost_reads.basics import CONFIGURATION, Refused, done, shown

# The most bytes that hookhost takes of a file, and of a path.
MOST_BYTES, MOST_PATH = 16 * 1024 * 1024, 4096


@dataclass
class Staged:
    """The staged files: the folder with their copies, their paths, which are executable, and which a commit would change. Also the names
    of hookhost.link that none of them has, and the path of the team's configuration."""

    folder: str
    top: str
    paths: list
    executable: set
    changed: list
    left_out: int = 0
    is_git: bool = False
    links: tuple = ()
    configuration: str = CONFIGURATION


def is_taken(path):
    """Whether hookhost takes a file of this name."""
    try:
        size = len(path.encode())
    except UnicodeEncodeError:
        return False
    return size <= MOST_PATH and not re.search(r"[\0-\x1f\x7f]", path) and not re.match(r"\.(hookhost|git)(/|$)", path)


def git(*words, env=None, cwd=None, given=None):
    answer = done(["git", *words], env=os.environ | (env or {}), cwd=cwd, **({} if given is None else {"input": given}))
    if answer.returncode:
        raise Refused(f"git {words[0]} says: {answer.stderr.decode(errors='replace').strip()}")
    return answer.stdout


def names(data):
    return [os.fsdecode(name) for name in data.split(b"\0") if name]


def name_of_configuration():
    """The path of the configuration in the index, by `git config hookhost.config`."""
    told = done(["git", "config", "hookhost.config"])
    name = os.fsdecode(told.stdout).removesuffix("\n") if told.returncode == 0 else CONFIGURATION
    if not re.fullmatch(r"[A-Za-z0-9_.+/-]+", name) or name.startswith("-") or {"", ".", ".."} & set(name.split("/")):
        raise Refused(f"hookhost.config can't be {shown(name)}")
    return name


def staged_in_git(place):
    """The files of the index, in the form that Git gives to working files."""
    top = os.fsdecode(git("rev-parse", "--show-toplevel")).removesuffix("\n")
    folder = os.fsdecode(git("rev-parse", "--absolute-git-dir")).removesuffix("\n")
    rows = git("ls-files", "--full-name", "--stage", "-z", cwd=top).split(b"\0")[:-1]
    tree, plain, left_out = os.path.join(place, "tree"), {}, 0
    for row in rows:
        mode, number, stage, path = *row.partition(b"\t")[0].split(b" "), os.fsdecode(row.partition(b"\t")[2])
        if stage != b"0":
            raise Refused("there are unmerged files: resolve them first")
        if mode.startswith(b"100") and is_taken(path):
            plain[path] = (mode, number)
        else:
            left_out += 1
    os.mkdir(tree)
    env = {"GIT_DIR": folder, "GIT_WORK_TREE": tree, "GIT_INDEX_FILE": os.path.join(place, "index")}
    listed = b"".join(mode + b" " + number + b"\t" + os.fsencode(path) + b"\0" for path, (mode, number) in plain.items())
    git("update-index", "-z", "--index-info", env=env, cwd=tree, given=listed)
    git("checkout-index", "--all", "--quiet", env=env, cwd=tree)
    for path in [path for path in plain if os.path.getsize(os.path.join(tree, path)) > MOST_BYTES]:
        os.remove(os.path.join(tree, path))
        del plain[path]
        left_out += 1
    has_head = done(["git", "rev-parse", "--verify", "--quiet", "HEAD"]).returncode == 0
    base = "HEAD" if has_head else os.fsdecode(git("hash-object", "-t", "tree", "/dev/null")).strip()
    changed = names(git("diff-index", "--cached", "--no-renames", "--diff-filter=d", "--name-only", "-z", base, env={"GIT_OPTIONAL_LOCKS": "0"}, cwd=top))
    executable = {path for path, (mode, _) in plain.items() if mode == b"100755"}
    links = [name.removesuffix("/") for name in names(done(["git", "config", "-z", "--get-all", "hookhost.link"]).stdout)]
    links = tuple(name for name in links if name not in plain and not any(path.startswith(name + "/") for path in plain))
    return Staged(tree, top, sorted(plain), executable, [path for path in changed if path in plain], left_out, True, links, name_of_configuration())


# The hook that copies what it finds to a folder.
COPY = "repos: [{{repo: local, hooks: [{{id: copy, name: copy, language: system, entry: \"cp -R . '{0}'\", always_run: true, pass_filenames: false}}]}}]\n"


def staged_in_store(program, place):
    """The files that are staged in the repository of hookhost of this folder, as a hook finds them in a copy of it."""
    copied, tree = os.path.join(place, "copied"), os.path.join(place, "tree")
    os.makedirs(os.path.join(copied, ".hookhost"))
    for name in ("store.db", "store.db-wal"):
        if os.path.exists(os.path.join(".hookhost", name)):
            shutil.copy(os.path.join(".hookhost", name), os.path.join(copied, ".hookhost", name))
    env = os.environ | {"HOOKHOST_SCRATCH": os.path.join(place, "scratch"), "HOOKHOST_TOP": os.getcwd(), "PRE_COMMIT_COLOR": "never"}

    def store(*words):
        answer = done([program, *words], cwd=copied, env=env)
        if answer.returncode > 1:
            raise Refused(f"hookhost {words[0]} says: {answer.stderr.decode(errors='replace').strip()}")
        return answer.stdout

    rows = [os.fsdecode(row) for row in store("status").split(b"\n") if row]
    configuration = store("cat", CONFIGURATION)
    with open(os.path.join(copied, CONFIGURATION), "w", encoding="utf-8") as file:
        file.write(COPY.format(tree))
    store("add", CONFIGURATION)
    store("run", "--all-files")
    shutil.rmtree(os.path.join(tree, ".git"), ignore_errors=True)
    with open(os.path.join(tree, CONFIGURATION), "wb") as file:
        file.write(configuration)
    paths = sorted(os.path.relpath(os.path.join(folder, name), tree) for folder, _, held in os.walk(tree) for name in held)
    executable = {path for path in paths if os.access(os.path.join(tree, path), os.X_OK)}
    return Staged(tree, os.getcwd(), paths, executable, [row[2:] for row in rows if row[:1] in "AM"])


def staged_files(program, place):
    if os.path.exists(".hookhost/store.db"):
        staged = staged_in_store(program, place)
    elif shutil.which("git") and done(["git", "rev-parse", "--show-toplevel"]).returncode == 0:
        staged = staged_in_git(place)
    else:
        raise Refused("here is neither a repository of hookhost (.hookhost) nor a working tree of Git")
    if staged.configuration not in staged.paths:
        raise Refused(f"no {staged.configuration} is staged")
    return staged
