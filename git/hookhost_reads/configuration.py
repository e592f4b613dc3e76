"""The hooks of the configuration: their languages, their x_reads, and those of other repositories, which hookhost-import makes local."""
import os
import re
import shutil
import subprocess
import sys
from dataclasses import dataclass

from hookhost_import.tools import EVERYTHING
from hookhost_reads.basics import CONFIGURATION, Refused, done

QUOTED = re.compile(r"""'(?:[^']|'')*'|"(?:[^"\\]|\\.)*\"""")
KEY = re.compile(r"""(?:'([\w-]+)'|"([\w-]+)"|([\w-]+))[ \t]*:(?=[ \t]|$)[ \t]*""", re.MULTILINE)
DASHES = re.compile(r"[ ]*(?:-[ ]+)*")


def tables_of(text):
    """The tables in the lines and flows of a configuration, as their keys and the texts of their values."""
    open_tables, flows, at = [], [], 0
    is_line = True
    while at < len(text):
        if is_line and not flows:
            dashes = DASHES.match(text, at)
            column, at = dashes.end() - dashes.start(), dashes.end()
            if text[at:at + 1] not in ("\n", "#", ""):
                first = column if "-" not in dashes[0] else dashes[0].index("-") + 1
                while open_tables and open_tables[-1][0] >= max(first, 1) and not (open_tables[-1][0] == column and "-" not in dashes[0]):
                    yield open_tables.pop()[1]
                if not open_tables or open_tables[-1][0] != column:
                    open_tables.append((column, {}))
        is_line = False
        letter = text[at]
        if key := KEY.match(text, at):
            at = key.end()
            value, end = value_at(text, at, bool(flows))
            table = flows[-1] if flows else open_tables[-1][1] if open_tables else {}
            table.setdefault(key[1] or key[2] or key[3], value)
            at = end if value is not None else at
        elif quoted := QUOTED.match(text, at):
            at = quoted.end()
        elif letter == "{":
            flows.append({})
            at += 1
        elif letter == "}" and flows:
            yield flows.pop()
            at += 1
        elif letter == "#" and text[at - 1:at] in ("", " ", "\t", "\n"):
            at = end_of_line(text, at)
        elif letter == "\n":
            is_line = True
            at += 1
        else:
            word = re.compile(r"[^\s{}\[\],#'\"]+").match(text, at)
            at = word.end() if word and not KEY.match(text, at) else at + 1
    yield from flows
    yield from (table for _, table in open_tables)


def end_of_line(text, at):
    end = text.find("\n", at)
    return len(text) if end < 0 else end


def value_at(text, at, is_flow):
    """The text of the value at this place, and where it ends. None in place of a text that isn't on one line."""
    if text[at:at + 1] in ("{", "[", "\n", "", "#", "|", ">", "&", "*", "!"):
        return None, at
    if quoted := QUOTED.match(text, at):
        held = quoted[0][1:-1]
        return held.replace("''", "'") if quoted[0][0] == "'" else of_double_quotes(held), quoted.end()
    end = end_of_line(text, at)
    stop = re.compile(r",(?=\s|$)|[{}\[\]]|\s#" if is_flow else r"\s#").search(text, at, end)
    end = stop.start() if stop else end
    return text[at:end].strip(), end


def of_double_quotes(held):
    known = {"n": "\n", "t": "\t", "0": "\0", "r": "\r", "e": "\x1b"}

    def letter(it):
        return chr(int(it[1][1:], 16)) if it[1][0] in "xuU" and len(it[1]) > 1 else known.get(it[1], it[1])
    return re.sub(r"\\(x[0-9a-fA-F]{2}|u[0-9a-fA-F]{4}|U[0-9a-fA-F]{8}|.)", letter, held)


def x_reads_of(text, name):
    """The x_reads of the hooks of this id or alias: a pattern, an empty text if there is none, or None if it can't be read."""
    tables = [table for table in tables_of(text) if name in (table.get("id"), table.get("alias"))]
    found = {"" if "x_reads" not in table or table["x_reads"] == "^$" else table["x_reads"] for table in tables}
    return found.pop() if len(found) == 1 else None


# The refusals for which an import may be a remedy, as in hookhost-git.
MENDED_BY_IMPORT = {"1", "5", "6", "7", "10"}
IN_IMPORT = re.compile(r"^(?:  # of (.*)\n)?  - id: .*\n(?:    .*\n)*", re.MULTILINE)
X_READS = re.compile(r"^    x_reads: .*\n", re.MULTILINE)


@dataclass
class Import:
    """What hookhost-import has made: the text that hookhost reads, the ids of hooks that are left to pre-commit, the folder of the scripts
    that start the others, and the folders and files of what these start."""

    text: str
    left: list
    scripts: str
    looked: list

    def tables(self, name):
        """Of each hook of this id or alias its keys, the repository that it is of, empty for a local one, and its part of the text."""
        for it in IN_IMPORT.finditer(self.text):
            table, = tables_of(it[0])
            if name in (table["id"], table.get("alias")):
                yield table, it[1] or "", it[0]

    def sources(self, name):
        return sorted({source for _, source, _ in self.tables(name) if source})

    def sees_all(self, name):
        """Whether a hook of this name has every file in its key, since the import says so."""
        return any(table.get("x_reads") == EVERYTHING for table, _, _ in self.tables(name))

    def without_x_reads(self, name):
        """The text with no x_reads of the hooks of this name."""
        text = self.text
        for _, _, part in self.tables(name):
            text = text.replace(part, X_READS.sub("", part))
        return text


def refusal(program, folder):
    """The number for which hookhost doesn't take the configuration of a folder, or None if it does."""
    checked = done([program, "check"], cwd=folder)
    found = re.search(rb"refused: ([0-9]+) ", checked.stderr + checked.stdout)
    return None if checked.returncode == 0 else found[1].decode() if found else ""


def imported(program, staged, place, here):
    """Puts the team's configuration where hookhost reads it, or if hookhost doesn't take it what hookhost-import makes of it. Returns that
    import, or None."""
    team, path = os.path.join(place, "team.yaml"), os.path.join(staged.folder, CONFIGURATION)
    shutil.copyfile(os.path.join(staged.folder, staged.configuration), team)
    shutil.copyfile(team, path)
    made = None
    if staged.is_git and refusal(program, staged.folder) in MENDED_BY_IMPORT:
        made = import_of(program, staged, place, here, team)
        with open(path, "w", encoding="utf-8") as file:
            file.write(made.text)
    if made is not None or staged.configuration != CONFIGURATION:
        staged.paths = sorted({*staged.paths, CONFIGURATION})
        staged.executable.discard(CONFIGURATION)
    return made


def import_of(program, staged, place, here, team):
    """Has hookhost-import make the team's configuration into one of local hooks, with all that it writes in this script's own folder."""
    importer = os.path.join(here, "hookhost-import")
    importer = importer if os.access(importer, os.X_OK) else shutil.which("hookhost-import")
    if importer is None or shutil.which("pre-commit") is None:
        raise Refused(f"{told_refusal(program, staged)}\nTo go on, install pre-commit (pre-commit.com), which then installs the hooks of other "
                      "repositories; or write them as local ones, as docs/FROM_PRE_COMMIT.md shows")
    print(f"hookhost-reads: {staged.configuration} has hooks that pre-commit installs: they are made ready", file=sys.stderr, flush=True)
    scripts, *lists = (os.path.join(place, name) for name in ("scripts", "served", "left", "looked"))
    os.mkdir(scripts + ".own")
    os.symlink(scripts + ".own", scripts)
    words = [importer, "--scripts", scripts, *(word for name, path in zip(("--output", "--left", "--looked"), lists) for word in (name, path)), team]
    if subprocess.run(words, cwd=staged.top, env=os.environ | {"HOOKHOST": program}, stdin=subprocess.DEVNULL).returncode:
        raise Refused(f"{told_refusal(program, staged)}\nThe hooks of {staged.configuration} can't be made ready by pre-commit")
    text, left, looked = (read(path) for path in lists)
    made = Import(text, left.split("\n")[:-1], scripts, looked.split("\0")[:-1])
    if made.left:
        print(f"hookhost-reads: left to pre-commit, and so not traced: {', '.join(made.left)}", file=sys.stderr, flush=True)
    return made


def read(path):
    with open(path, encoding="utf-8", errors="surrogateescape", newline="") as file:
        return file.read()


def told_refusal(program, staged):
    told = done([program, "explain"], cwd=staged.folder).stdout.decode(errors="replace").strip()
    return f"the staged configuration is refused:\n{told.replace(CONFIGURATION + ':', staged.configuration + ':')}"


def languages_of(program, staged, env):
    """The ids of the hooks of the stage pre-commit in their order, and the languages of each."""
    told = done([program, "explain"], cwd=staged.folder, env=env).stdout.decode(errors="replace")
    if not told.startswith(f"{CONFIGURATION}: taken, "):
        raise Refused(told_refusal(program, staged))
    found, stage = {}, ""
    for line in told.split("\n"):
        if re.fullmatch(r"[a-z][a-z -]*:", line):
            stage = line[:-1]
        elif stage == "pre-commit" and (it := re.match(r"  hook \d+ \(`(.*?)`\): (\w+)", line)):
            found.setdefault(it[1], set()).add(it[2])
    return found
