"""The plays of tests/memory/refused_memory.py: configurations, words, and how each has to end."""
from dataclasses import dataclass

CONFIGURATION = b"""# Three hooks in all forms of YAML that are read, and a key that nothing knows.
shade: blue
default_stages: [pre-commit, "push"]
repos:
- repo: local
  hooks:
  - id: names
    name: Check names
    language: fail
    entry: no such names
    args: [
      one, 'tw''o',   # and a comment
      "thr\\u00e9e",
    ]
  - {id: second, name: "Second", alias: other, language: fail, entry: 'nor these', verbose: true}
- repo: 'local'
  hooks:
  - id: third
    name: Third
    language: fail
    entry: >-
      a folded
      text

      of lines
    description: |+
      kept

    stages: []
"""
# Hooks with patterns, tags and searches: of the plays' files each gets some and not others.
SELECTION = b"""files: txt
exclude: ^b
repos:
- repo: local
  hooks:
  - {id: a, name: A, language: fail, entry: no, files: '^dir/', exclude: 'y|\\.md$', types: [text], types_or: [c, plain-text], exclude_types: [binary], x_reads: '^z', x_per_file: true, x_at_most: 2}
  - {id: b, name: B, language: pygrep, entry: 'c{3}$', args: [--negate]}
  - {id: c, name: C, language: pygrep, entry: a., args: [-i, --multiline]}
"""
# Whether the commands of hooks are given anything of what takes the place of the allocator, and a command whose output is long.
COMMAND = b"""repos:
- repo: local
  hooks:
  - {id: a, name: A, language: system, entry: "sh -c 'cat \\"$@\\"; test -z \\"$LD_PRELOAD$REFUSE_ALLOCATION$REFUSED_FILE\\"' --", verbose: true}
"""
# Commands that pass, fail, print on both outputs, modify files, and find them modified.
COMMANDS = b"""repos:
- repo: local
  hooks:
  - {id: pass, name: Pass, language: system, entry: 'true', files: ^a}
  - {id: fail, name: Fail, language: system, entry: "sh -c 'cat \\"$@\\"; echo to stderr >&2; exit 3' --", files: ^a}
  - {id: change, name: Change, language: system, entry: "sh -c 'echo more >> a.txt; rm dir/c.txt'", pass_filenames: false}
  - {id: find, name: Find, language: system, entry: cat, verbose: true}
"""
# Scripts: one of the files by its first line, by a command that names it, and one that isn't among the files.
SCRIPT = b"#!/bin/sh -e\nprintf '<%s>' \"$0\" \"$@\"\nfalse\n"
SCRIPTS = b"""repos:
- repo: local
  hooks:
  - {id: first, name: First line, language: script, entry: ./run.sh one, files: ^a}
  - {id: slash, name: System, language: system, entry: ./run.sh, args: ['two words'], files: ^a}
  - {id: none, name: Not there, language: script, entry: none.sh, files: ^a}
"""
# A command with room for two of the three names, the first of whose parts modifies the file that the second is given.
LONGEST = 131_072
PART = b"""/bin/sh -c 'shift; echo $# "$@"; wc -c < dir/c.txt; echo more >> dir/c.txt; exit $#' -- """
PARTS = b"""repos:
- repo: local
  hooks:
  - {id: parts, name: Parts, language: system, entry: %s%s}
""" % (PART, b"c" * (LONGEST - len(PART.replace(b"'", b"") + b" a.txt b.txt")))
# Each fault of a child but one: a wait that the system refuses can't be had.
FAULTS = b"""repos:
- repo: local
  hooks:
  - {id: start, name: Start, language: system, entry: no-such-program, files: ^a}
  - {id: signal, name: Signal, language: system, entry: "sh -c 'kill -9 $$'", files: ^a}
  - {id: output, name: Output, language: system, entry: head -c 1048577 /dev/zero, pass_filenames: false}
  - {id: folder, name: Folder, language: system, entry: "sh -c 'rm a.txt; mkdir a.txt'", pass_filenames: false}
  - {id: long, name: Long, language: system, entry: 'true', args: [%s], files: ^a}
""" % (b"c" * LONGEST)
# Hooks of each stage of a commit; that of the stage `manual` modifies a file.
STAGED_HOOKS = b"""repos:
- repo: local
  hooks:
  - {id: look, name: Look, language: system, entry: cat, stages: [pre-commit], verbose: true}
  - {id: write, name: Write, language: system, entry: "sh -c 'echo a line >> $1' --", stages: [prepare-commit-msg, commit-msg]}
  - {id: behind, name: Behind, language: system, entry: 'true', stages: [post-commit], always_run: true}
  - {id: change, name: Change, language: system, entry: "sed -i 's/a/b/'", stages: [manual]}
"""
# A hook that has a child for each file.
USING_HOOKS = b"""repos:
- repo: local
  hooks:
  - {id: look, name: Look, language: system, entry: cat, files: '[.]txt$', x_per_file: true}
"""
# The numbers of lack of memory: a run's, and those of `check`, whose words are read as a run's are. A command on a repository says 4
# while its words are read, as a run does. It also says 4 while the store is opened or made, as the store does. Otherwise it says 1, as
# the host does. That is for the command itself and for what is prepared before the store, as the working file of `add` and the children
# of a run.
OF_RUN = (4,)
OF_CHECK = (4, 12)
OF_INIT = (4,)
OF_PREPARED = (4, 1, 4, 1)
OF_COMMAND = (4, 1)
# How many allocations at the beginning and the end are refused, and how many between. The first pair is for a command on a repository,
# most of whose allocations open the store, and the second for a run that starts children.
OF_STORE, OF_CHILDREN = (220, 300), (40, 160)


@dataclass
class Play:
    """A run. It has its words and its standard input, the numbers of its lack of memory, its configuration, and the exit status that it
    has to end with (None: any). Then the repository that it is on, if any: a new one is `made`, or a copy of one of those by these names
    (refused_memory.py). Then how many answers it uses and puts, or none if it changes them at once. The last is the folder of its
    children, if any: new for each run, or left."""
    name: str
    words: list
    numbers: tuple = OF_RUN
    stdin: bytes = b""
    configuration: bytes = CONFIGURATION
    status: int = None
    repository: str = None
    uses: int = 0
    children: str = None


OVER_FILES = ["try", ".pre-commit-config.yaml", "a.txt", "b.txt", "dir/c.txt"]
PLAYS = [
    Play("the run without words", [], stdin=CONFIGURATION, status=0),
    Play("a run over files", ["try", ".pre-commit-config.yaml", "b.txt", "a.txt", "dir/c.txt"], status=1),
    Play("a run of patterns, tags and pygrep", ["try", ".pre-commit-config.yaml", "a.txt", "b.txt", "dir/c.txt"], configuration=SELECTION, status=1),
    Play("a run of one command", OVER_FILES, configuration=COMMAND, status=0, children="new"),
    Play("a run of commands", OVER_FILES, configuration=COMMANDS, status=1, children="left"),
    Play("a run of commands in a new folder", OVER_FILES, configuration=COMMANDS, status=1, children="new"),
    Play("a run of scripts", [*OVER_FILES, "run.sh"], configuration=SCRIPTS, status=1, children="left"),
    Play("a run of a command in parts", OVER_FILES, configuration=PARTS, status=1, children="left"),
    Play("a run with faults", OVER_FILES, configuration=FAULTS, status=1, children="left"),
    Play("the check of a refused pattern", ["check"], OF_CHECK, configuration=b"repos: []\nfiles: (a|b{2}\n", status=3),
    Play("a refused configuration", [], stdin=b"a: 1\na: 2\n", status=3),
    Play("words that name no command", ["try", "config.yaml"], status=2),
    Play("the check of a configuration", ["check"], OF_CHECK, status=0),
    Play("a new repository", ["init"], OF_INIT, status=0, repository="made"),
    Play("the add of a new file", ["add", "dir/c.txt"], OF_PREPARED, status=0, repository="there"),
    Play("the add of a staged file", ["add", "--chmod=+x", "a.txt"], OF_PREPARED, status=0, repository="there"),
    Play("the add of several files", ["add", "dir/c.txt", "a.txt", "b.txt"], OF_PREPARED, status=0, repository="there"),
    Play("the add of a folder and of listed files", ["add", "--paths-from=-"], OF_PREPARED, stdin=b"dir\0b.txt\0run.sh", status=0, repository="there"),
    Play("a refused file among several", ["add", "b.txt", "dir", "./a.txt"], OF_PREPARED, status=3, repository="there"),
    Play("the removal of several files", ["rm", "a.txt", ".pre-commit-config.yaml"], OF_COMMAND, status=0, repository="there"),
    Play("the removal of a staged file", ["rm", "a.txt"], OF_COMMAND, status=0, repository="there"),
    Play("the status", ["status"], OF_COMMAND, status=0, repository="there"),
    Play("the fixes", ["fixes"], OF_COMMAND, status=0, repository="there"),
    Play("accepted fixes", ["accept"], OF_COMMAND, status=0, repository="there"),
    Play("the bytes of a staged file", ["cat", "a.txt"], OF_COMMAND, status=0, repository="there"),
    Play("the bytes of a fix", ["cat", "--fixed", "a.txt"], OF_COMMAND, status=0, repository="there"),
    Play("the bytes of a committed file", ["cat", "--commit=1", "b.txt"], OF_COMMAND, status=0, repository="there"),
    Play("the removal of a folder", ["rm", "old"], OF_COMMAND, status=0, repository="there"),
    Play("the removal of listed files", ["rm", "--paths-from=-"], OF_PREPARED, stdin=b"a.txt\0old", status=0, repository="there"),
    Play("a run on listed files", ["run-files", "--paths-from=-"], OF_PREPARED, stdin=b"a.txt\0old/x", status=0, repository="there", uses=1),
    Play("an explained configuration", ["explain"], status=0),
    Play("an explained refusal", ["explain"], configuration=b"repos:\n- repo: local\n  hooks:\n  - {id: a, nam: b}\n", status=1),
    Play("the log", ["log"], OF_COMMAND, status=0, repository="there"),
    Play("a commit", ["show", "1"], OF_COMMAND, status=0, repository="there"),
    Play("how many answers are remembered", ["memory"], status=0, repository="there"),
    Play("forgotten answers", ["forget"], OF_COMMAND, status=0, repository="there", uses=None),
    Play("a limit of one answer", ["memory", "--limit=1"], OF_COMMAND, status=0, repository="there", uses=None),
    Play("a run that uses answers and drops one", ["run", "--all-files"], OF_PREPARED, status=0, repository="using", uses=3),
    Play("the status of version 1", ["status"], OF_COMMAND, status=0, repository="first"),
    Play("a run of version 1", ["run", "--all-files"], OF_PREPARED, status=0, repository="first", uses=3),
    Play("a run on the staged files", ["run", "--all-files", "--hook-stage", "manual"], OF_PREPARED, status=1, repository="there", uses=1),
    Play("a run on named files", ["run-files", "a.txt"], OF_PREPARED, status=0, repository="there", uses=1),
    Play("hooks after a commit", ["hook", "post-commit"], OF_PREPARED, status=0, repository="there", uses=1),
    Play("a commit through all stages", ["commit", "-m", "second"], OF_PREPARED, status=0, repository="there", uses=4),
]
FILES = (("a.txt", b"a\n"), ("b.txt", b""), ("dir/c.txt", b"c" * 9000), ("run.sh", SCRIPT))
