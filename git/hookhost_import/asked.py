"""What the program hookhost says: whether it takes a configuration, and which files it selects."""
import os
import shutil
import subprocess
import tempfile

from hookhost_import.basics import Refused
from hookhost_import.yaml_text import text_of

CONFIGURATION = ".pre-commit-config.yaml"


def found_program(here):
    """The program that HOOKHOST names, or the one in the folder of the script, or that of the PATH."""
    name = os.environ.get("HOOKHOST") or os.path.join(here, "hookhost")
    if not os.environ.get("HOOKHOST") and not os.access(name, os.X_OK):
        name = shutil.which("hookhost")
        if name is None:
            raise Refused("there is no hookhost: neither next to this script nor on the PATH, and HOOKHOST names none")
    if not os.path.isfile(name) or not os.access(name, os.X_OK):
        raise Refused(f"there is no hookhost: {name} is no program")
    return os.path.abspath(name)


class Program:
    """The program, called in a folder of its own."""

    def __init__(self, path, place):
        self.path, self.place = path, place
        # Nothing of the run that has started this may be a setting of it.
        self.env = {key: value for key, value in os.environ.items() if not key.startswith("HOOKHOST_")}
        for key in ("SKIP", "PRE_COMMIT_COLOR"):
            self.env.pop(key, None)

    def call(self, folder, *words, given=b""):
        return subprocess.run([self.path, *words], cwd=folder, env=self.env, input=given, capture_output=True)

    def takes(self, top, hooks):
        """Whether it takes a configuration of these keys and hooks."""
        with tempfile.TemporaryDirectory(dir=self.place) as folder:
            with open(os.path.join(folder, CONFIGURATION), "w", encoding="utf-8") as file:
                file.write(text_of([], top, hooks))
            return self.call(folder, "check").returncode == 0

    def selects(self, folder, hooks):
        """The files of a folder that each of these hooks selects. The hooks are without language and entry."""
        found = []
        for number, hook in enumerate(hooks):
            found.append({"id": f"h{number}", "name": f"h{number}", "language": "fail", "entry": "these"} | hook)
        with open(os.path.join(folder, CONFIGURATION), "w", encoding="utf-8") as file:
            file.write(text_of([], {}, found))
        if not os.path.exists(os.path.join(folder, ".hookhost")):
            self.need(self.call(folder, "init"))
        paths = [os.path.join(place, name) for place, _, held in os.walk(folder) for name in held if ".hookhost" not in place]
        names = [os.path.relpath(path, folder) for path in paths]
        executable = [name for name in names if os.access(os.path.join(folder, name), os.X_OK)]
        for words, group in (("add",), names), (("add", "--chmod=+x"), executable):
            if group:
                self.need(self.call(folder, *words, "--paths-from=-", given=b"\0".join(map(os.fsencode, group))))
        ran = self.call(folder, "run", "--all-files")
        if ran.returncode > 1:
            raise Refused(f"hookhost says: {ran.stderr.decode(errors='replace').strip()}")
        return self.selected(ran.stdout.decode(), len(hooks))

    @staticmethod
    def selected(report, count):
        """The names in the report of hooks that fail and print what they get."""
        found, at, is_name = [set() for _ in range(count)], None, False
        for line in report.split("\n"):
            if line.startswith("- hook id: h"):
                at, is_name = int(line[12:]), False
            elif line == "these" and at is not None:
                is_name = True
            elif is_name and line and at is not None:
                if line.endswith(("Failed", "Skipped")) and "...." in line:
                    at, is_name = None, False
                else:
                    found[at].add(line)
        return found

    @staticmethod
    def need(done):
        if done.returncode:
            raise Refused(f"hookhost says: {done.stderr.decode(errors='replace').strip()}")
