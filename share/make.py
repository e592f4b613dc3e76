#!/usr/bin/env python3
"""Writes the completions for bash, zsh and fish and the manual page in this folder from the help that the program prints. Also writes
the completions of hookhost-reads from its help.

Usage: share/make.py [PROGRAM]           writes hookhost.bash, _hookhost, hookhost.fish and hookhost.1, and hookhost-reads.bash,
                                         _hookhost-reads and hookhost-reads.fish; without PROGRAM these three alone
       share/make.py [PROGRAM] --check   compares them with what it would write, and fails with the first difference

The commands, their options and values, and their descriptions are read from `hookhost --help` and `hookhost COMMAND --help`. Which
words an option takes is found by giving it an empty one: the error lists them. A line of help that this script can't read is an
error, so that none is left out. What the manual page says of files and of the environment are sentences of docs/REFERENCE.md and
docs/DECISIONS.md, and texts of its own. hookhost-reads has no commands, and an option of it may take several words; the description
of its options is the beginning of their help.
"""
import os
import re
import subprocess
import sys
import tempfile
from dataclasses import dataclass, field

HERE = os.path.dirname(os.path.abspath(__file__))
TOP = os.path.dirname(HERE)
READS = os.path.join(TOP, "git", "hookhost-reads")
# The day on which the page's own texts were last checked.
DATE = "2026-11-29"
# The arguments and values that name files of the folder. For all others nothing can be proposed.
PATHS = ["CONFIG", "PATH", "FILE"]
# What the page says of files and of the environment: the beginnings of sentences of the documents, or a text of its own.
FILES = [
    (".pre-commit-config.yaml", "The configuration. try reads the file that it is given and check the one of the current folder; \
run, run-files, hook and commit read the staged one."),
    (".hookhost/store.db", ["The commands on a repository keep it ", "`store.db` is a store or ", "What a killed `init` "]),
    (".hookhost/store.db-wal", ["SQLite's log lies next to it, "]),
    (".hookhost/lock", ["'hookhost: cannot use .hookhost/lock' says "]),
    (".git/info/exclude", "In a checkout of Git the line .hookhost/ of this file keeps the repository out of Git. init adds it, and so does a later \
command that changes something, if it is missing. A .hookhost/.gitignore that an earlier hookhost wrote is removed then."),
    (".hookhost/scratch", ["Each command runs in ", "A copy is executable ", "The folder is made for the first command"]),
    (".hookhost/scratch.run", ["While a run has commands under way, "]),
    (".hookhost/scratch.1", ["A run that finds it in use, "]),
    (".hookhost/scratch.old", ["A run that a signal ended leaves its mark, "]),
]
ENVIRONMENT = [
    ("SKIP", ["`run`, `run-files`, `hook` and `commit` skip the hooks "]),
    ("PATH", ["Standard input is empty, the environment is ", "A program word without a `/` is looked for along "]),
    ("COLUMNS", "If standard error is a terminal, it shows a line for the command of a hook that is running, cut to so many \
columns, by default 80."),
    ("TERM", ["With `TERM=dumb`, "]),
    ("PRE_COMMIT_COLOR", "always or never: whether a report has colors. Without it a report has colors if standard output is a terminal, TERM isn't dumb and NO_COLOR isn't set."),
    ("NO_COLOR", "any text: no report has colors, unless PRE_COMMIT_COLOR is always."),
    ("HOOKHOST_TOP", "hookhost-git sets it to the top of the working tree, for hooks. If it is set, no hint is given."),
    ("HOOKHOST_LINKS", "names with colons between, as .venv:node_modules. The commands of hooks find a link of each name to the file or folder of that \
name in HOOKHOST_TOP, or without that in the current folder, unless a file of the run has the name. hookhost-git sets it to the names of hookhost.link."),
    ("HOOKHOST_SCRATCH", "hookhost-git sets it to the folder in which the commands of hooks run, in place of .hookhost/scratch."),
    ("HOOKHOST_AHEAD", "hookhost-git sets it to a folder next to which commands of hooks run ahead of their turns. Without it, and with \
HOOKHOST_GIT_CALLS, each runs in its turn."),
    ("HOOKHOST_GIT_CALLS", "hookhost-git sets it to a file in which its own git notes calls that found no repository. A command that made one has \
no result: it is reported as a fault, and never cached."),
]
SEE_ALSO = ["git(1)", "githooks(5)", "hookhost-git(1)", "sqlite3(1)"]
FURTHER = "https://pre-commit.com describes the configuration. docs/REFERENCE.md of hookhost's repository says, to the byte, what it takes, \
prints and refuses."


# ---- what the program says

@dataclass
class Option:
    """An option: its names, the name of its value (empty if it has none), its description, and the words that it takes. Then whether
    all words up to the next option are its values, and the names of options that can't be given with it."""
    names: list
    value: str
    text: str
    words: list
    is_many: bool = False
    rivals: list = field(default_factory=list)


@dataclass
class Argument:
    """An argument: its name, whether it may be given again, and its description."""
    name: str
    is_many: bool
    text: str


@dataclass
class Help:
    """The help of the program or of a command. The blocks are its texts between empty lines."""
    about: str
    usage: str
    commands: list
    arguments: list
    options: list
    blocks: list


def answer(program, *words):
    """What the program prints on standard error, in an empty folder."""
    with tempfile.TemporaryDirectory() as folder:
        done = subprocess.run([program, *words], cwd=folder, input=b"", capture_output=True, timeout=60)
    return done.stderr.decode()


def table(block):
    """The rows of a table of the help below its head: a name and its description."""
    _, *lines = block.splitlines()
    rows = [re.fullmatch(r" +(\S.*?) {2,}(\S.*)", line) for line in lines]
    if not all(rows):
        sys.exit(f"share/make.py: a line of the help can't be read: {lines[rows.index(None)]!r}")
    return [row.groups() for row in rows]


def help_of(program, *command):
    """The help of the program, or of one of its commands."""
    about, usage, *blocks = answer(program, *command, "--help").rstrip("\n").split("\n\n")
    if not usage.startswith("Usage: hookhost"):
        sys.exit(f"share/make.py: this isn't the help of hookhost: {about!r}")
    tables = {head: [] for head in ["Commands:", "Arguments:", "Options:"]}
    while blocks and (head := blocks[0].splitlines()[0]) in tables:
        tables[head] = table(blocks.pop(0))
    arguments = [Argument(re.search(r"\w+", shown)[0], "..." in shown, text) for shown, text in tables["Arguments:"]]
    # Of words in parentheses one is enough, and an argument does.
    required = re.findall(r"(?<![\[\w-])(--?[a-z][a-z-]*)[= ]<\w+>", re.sub(r"\(.*?\)", "", usage))
    options = []
    for shown, text in tables["Options:"]:
        names, value = re.findall(r"--?[A-Za-z][a-z-]*", shown), re.search(r"<(\w+)>", shown)
        others = [word for name in required if name not in names for word in (name, "1")] + ["1"] * len(arguments)
        words = words_of(program, command, names[-1], others) if value else []
        options.append(Option(names, value[1] if value else "", text, words))
    return Help(about, usage.removeprefix("Usage: "), tables["Commands:"], arguments, options, blocks)


def words_of(program, command, option, others):
    """The words that an option takes, as the error for an empty one lists them; none if it takes any. `others` are the required words."""
    said = re.search(r": only (.*) (?:is|are) allowed\n", answer(program, *command, option, "", *others))
    return re.split(r", | and ", said[1]) if said else []


def help_of_reads():
    """The help of hookhost-reads, which prints it on standard output."""
    done = subprocess.run([sys.executable, READS, "--help"], input=b"", capture_output=True, check=True, timeout=60)
    usage, about, *blocks = done.stdout.decode().rstrip("\n").split("\n\n")
    groups = [re.findall(r"--?[a-z][a-z-]*", it) for it in re.findall(r"\[([^]]* \| [^]]*)\]", usage)]
    block, = (it for it in blocks if it.startswith("Options:\n"))
    arguments, options = [], []
    for shown, text in table(re.sub(r"\n {10,}", " ", block)):
        names, value = re.findall(r"--?[A-Za-z][a-z-]*", shown), re.search(r"\b([A-Z]+)(\.\.)?$", shown)
        text = re.split(r"[,.:;](?= |$)", text)[0]
        if names:
            rivals = [it for group in groups if {*group} & {*names} for it in group if it not in names]
            options.append(Option(names, value[1] if value else "", text, [], bool(value and value[2]), rivals))
        else:
            arguments.append(Argument(value[1], bool(value[2]), text))
    return Help(about, usage.removeprefix("Usage: "), [], arguments, options, blocks)


def completed(option):
    """How the names of an option are proposed: with `=` after a long one that takes one value."""
    return [name + "=" if option.value and not option.is_many and name.startswith("--") else name for name in option.names]


def many_paths(options):
    """The name of the one option whose values are paths up to the next option."""
    name, = (name for option in options if option.is_many and option.value in PATHS for name in option.names)
    return name


def most_of(arguments):
    """How many values a command takes, at most: a number, or `any`."""
    return "any" if any(it.is_many for it in arguments) else len(arguments)


def takes_paths(arguments):
    return bool(arguments) and all(it.name in PATHS for it in arguments)


# ---- bash

# The words of the line, for what follows. The last is that at the cursor.
BASH_JOINED = r"""  local IFS=$' \t\n' at piece parted='' is_joined=''
  local -a words=()
  COMPREPLY=()
  # Bash parts words at = and at :, and here they are whole again. What it has parted from the word at the cursor is `parted`.
  for ((at = 1; at <= COMP_CWORD; at++)); do
    piece=${COMP_WORDS[at]}
    if [[ $is_joined || ( ${#words[@]} -gt 0 && $piece =~ ^[=:]+$ ) ]]; then
      parted=${words[-1]} words[-1]+=$piece is_joined=''
    else
      parted='' words+=("$piece")
    fi
    if [[ ${#words[@]} -gt 1 && $piece =~ ^[=:]+$ ]]; then
      parted=${words[-1]} is_joined=1
    fi
  done"""

# What proposes, for a function with this name.
BASH_HELPERS = r"""# Leaves an option out of those that are proposed.
%SELF%_leave_out() {
  local option
  local -a left=()
  for option in "${options[@]}"; do
    [[ ${option%=} == "$1" ]] || left+=("$option")
  done
  options=("${left[@]}")
}

# Proposes those of the words that begin with the first, without what bash has parted from it.
%SELF%_propose() {
  local word
  for word in "${@:2}"; do
    [[ $word != "$1"* ]] || COMPREPLY+=("${word#"$parted"}")
  done
  # No blank follows an option whose value is still to come.
  [[ ${#COMPREPLY[@]} != 1 || ${COMPREPLY[0]} != *= ]] || compopt -o nospace 2> /dev/null
}

# Proposes the files whose paths begin so, after the second word. Readline puts quotes around a path that needs them.
%SELF%_propose_paths() {
  local path=$1 head=$2
  case $path in
    [\'\"]*) path=${path:1} ;;
    *) path=${path//\\/} ;;
  esac
  while IFS= read -r path; do
    path=$head$path
    COMPREPLY+=("${path#"$parted"}")
  done < <(compgen -f -- "$path")
  compopt -o filenames 2> /dev/null
}"""

BASH = r"""# Completion of hookhost in bash, made by share/make.py from what the program's help prints. To use it, in ~/.bashrc:
#   source FOLDER/hookhost.bash

# Puts what can follow at the cursor into COMPREPLY.
_hookhost() {
%JOINED%
  case ${#words[@]},${words[0]} in
    1,-*) _hookhost_propose "${words[0]}" %OPTIONS% ;;
    1,*) _hookhost_propose "${words[0]}" %COMMANDS% ;;
    *) _hookhost_command ;;
  esac
}

# Proposes what may follow a command.
_hookhost_command() {
  # Its options, those of them that take a value, those whose value is a file, and how many paths it takes.
  local -a options valued filed taken=()
  local most
  case ${words[0]} in
%CASES%
    *) return ;;
  esac
  # An option is proposed once, and after -- each word is a value.
  local given=0 is_ended='' pending='' word
  for word in "${words[@]:1:${#words[@]}-2}"; do
    if [[ $pending ]]; then
      pending=''
    elif [[ $is_ended || $word != -?* ]]; then
      ((given += 1))
    elif [[ $word == -- ]]; then
      is_ended=1
    else
      [[ " ${valued[*]} " != *" $word "* ]] || pending=$word
      _hookhost_leave_out "${word%%=*}"
    fi
  done
  word=${words[-1]}
  if [[ $pending && " ${filed[*]} " == *" $pending "* ]]; then
    _hookhost_propose_paths "$word"
  elif [[ $pending ]]; then
    _hookhost_words "$pending"
    _hookhost_propose "$word" "${taken[@]}"
  elif [[ ! $is_ended && $word == --*=* && " ${filed[*]} " == *" ${word%%=*} "* ]]; then
    _hookhost_propose_paths "${word#*=}" "${word%%=*}="
  elif [[ ! $is_ended && $word == --*=* ]]; then
    _hookhost_words "${word%%=*}"
    _hookhost_propose "$word" "${taken[@]/#/${word%%=*}=}"
  elif [[ ! $is_ended && $word == -* ]]; then
    _hookhost_propose "$word" "${options[@]}"
  elif [[ $most == any ]] || ((given < most)); then
    _hookhost_propose_paths "$word"
  elif [[ ! $is_ended ]]; then
    _hookhost_propose "$word" "${options[@]}"
  fi
}

# Puts the words that an option takes into `taken`.
_hookhost_words() {
  case $1 in
%WORDS%
  esac
}

%HELPERS%

complete -F _hookhost hookhost
"""


def bash_of(program, commands):
    cases, words = [], {}
    for name, _ in program.commands:
        options = commands[name].options
        proposed = " ".join(it for option in options for it in completed(option))
        valued = " ".join(it for option in options if option.value for it in option.names)
        filed = " ".join(it for option in options if option.value in PATHS for it in option.names)
        most = most_of(commands[name].arguments) if takes_paths(commands[name].arguments) else 0
        cases.append(f"    {name}) options=({proposed}) valued=({valued}) filed=({filed}) most={most} ;;")
        words |= {it: " ".join(option.words) for option in options for it in option.names if option.words}
    return filled(BASH, {
        "COMMANDS": " ".join(name for name, _ in program.commands),
        "OPTIONS": " ".join(it for option in program.options for it in completed(option)),
        "CASES": "\n".join(cases),
        "WORDS": "\n".join(f"    {option}) taken=({taken}) ;;" for option, taken in words.items()),
        "JOINED": BASH_JOINED,
        "HELPERS": filled(BASH_HELPERS, {"SELF": "_hookhost"}),
    })


BASH_OF_READS = r"""# Completion of hookhost-reads in bash, made by share/make.py from what its help prints. To use it, in ~/.bashrc:
#   source FOLDER/hookhost-reads.bash

# Puts what can follow at the cursor into COMPREPLY.
_hookhost_reads() {
%JOINED%
  # The last option decides what follows it. An option is proposed once, and none that can't be given with an earlier one.
  local -a options=(%OPTIONS%) taken
  local last='' is_ended='' word each
  for word in "${words[@]:0:${#words[@]}-1}"; do
    if [[ $is_ended || $word != -?* ]]; then
      continue
    elif [[ $word == -- ]]; then
      is_ended=1
      continue
    fi
    case $word in
%CASES%
      *) taken=() ;;
    esac
    last=$word
    for each in "${taken[@]}"; do
      _hookhost_reads_leave_out "$each"
    done
  done
  word=${words[-1]}
  if [[ ! $is_ended && $word == -* ]]; then
    _hookhost_reads_propose "$word" "${options[@]}"
  elif [[ $last == %FILED% ]]; then
    _hookhost_reads_propose_paths "$word"
  fi
}

%HELPERS%

complete -F _hookhost_reads hookhost-reads
"""


def bash_of_reads(told):
    return filled(BASH_OF_READS, {
        "JOINED": BASH_JOINED,
        "OPTIONS": " ".join(it for option in told.options for it in completed(option)),
        "CASES": "\n".join(f"      {' | '.join(it.names)}) taken=({' '.join(it.names + it.rivals)}) ;;" for it in told.options),
        "FILED": many_paths(told.options),
        "HELPERS": filled(BASH_HELPERS, {"SELF": "_hookhost_reads"}),
    })


def filled(text, parts):
    """The text with each %NAME% replaced by its part."""
    return re.sub(r"%([A-Z]+)%", lambda it: parts[it[1]], text)


# ---- zsh

ZSH = r"""#compdef hookhost
# Completion of hookhost in zsh, made by share/make.py from what the program's help prints. To use it, put this file into a
# folder of $fpath, as /usr/local/share/zsh/site-functions, and start zsh again.

local curcontext=$curcontext state state_descr line
local -a commands
typeset -A opt_args

commands=(
%COMMANDS%
)

_arguments -C \
%OPTIONS%
  '1: :->command' \
  '*:: :->words'

case $state in
  command)
    _describe -t commands command commands
    ;;
  words)
    curcontext=${curcontext%:*:*}:hookhost-$words[1]:
    case $words[1] in
%CASES%
    esac
    ;;
esac
"""


def zsh_quoted(text):
    return "'" + text.replace("'", "'\\''") + "'"


def zsh_option(option):
    """An option as _arguments of zsh takes it. With --help or --version nothing else is proposed."""
    told = "[" + re.sub(r"([\[\]:\\])", r"\\\1", option.text) + "]"
    without = f"({' '.join(option.rivals)})" if option.rivals else ""
    if {"--help", "--version"} & {*option.names}:
        return "'(- : *)'{" + ",".join(option.names) + "}" + zsh_quoted(told)
    files = "_files" if option.value in PATHS else " "
    value = f":{option.value}:({' '.join(option.words)})" if option.words else f":{option.value}:{files}" if option.value else ""
    if option.is_many:
        return zsh_quoted(without + option.names[-1] + told + ":*-*" + value)
    name = option.names[-1] + ("" if not option.value else "=" if option.names[-1].startswith("--") else "+")
    return zsh_quoted(without + name + told + value)


def zsh_argument(place, argument):
    files = "_files" if argument.name in PATHS else " "
    return zsh_quoted(f"{'*' if argument.is_many else place}:{argument.name}:{files}")


def zsh_of(program, commands):
    listed = [zsh_quoted(name + ":" + text) for name, text in program.commands]
    cases = []
    for name, _ in program.commands:
        told = commands[name]
        specs = [*map(zsh_option, told.options), *(zsh_argument(at, it) for at, it in enumerate(told.arguments, 1))]
        cases.append(" \\\n          ".join([f"      {name})\n        _arguments -S", *specs]) + "\n        ;;")
    return filled(ZSH, {
        "COMMANDS": "\n".join("  " + it for it in listed),
        "OPTIONS": "\n".join(f"  {zsh_option(option)} \\" for option in program.options),
        "CASES": "\n".join(cases),
    })


ZSH_OF_READS = r"""#compdef hookhost-reads
# Completion of hookhost-reads in zsh, made by share/make.py from what its help prints. To use it, put this file into a folder of
# $fpath, as /usr/local/share/zsh/site-functions, and begin zsh again.

_arguments -S \
%SPECS%
"""


def zsh_of_reads(told):
    specs = [*map(zsh_option, told.options), *(zsh_argument(at, it) for at, it in enumerate(told.arguments, 1))]
    return filled(ZSH_OF_READS, {"SPECS": " \\\n".join("  " + it for it in specs)})


# ---- fish

FISH = r"""# Completion of hookhost in fish, made by share/make.py from what the program's help prints. To use it, put this file
# into ~/.config/fish/completions.

# Whether the command is this one.
function __hookhost_is
    set -l words (commandline -opc)
    test (count $words) -gt 1; and test "$words[2]" = $argv[1]
end

# Whether the command is this one, and it has fewer values than so many so far, or takes any number.
function __hookhost_takes
    __hookhost_is $argv[1]; or return
    set -l words (commandline -opc)
    set -l given 0
    set -l is_pending 0
    set -l is_ended 0
    for word in $words[3..-1]
        if test $is_pending = 1
            set is_pending 0
        else if test $is_ended = 1; or not string match -q -- '-?*' $word
            set given (math $given + 1)
        else if test $word = --
            set is_ended 1
        else if contains -- $word %VALUED%
            set is_pending 1
        end
    end
    test $argv[2] = any; or test $given -lt $argv[2]
end

complete -c hookhost -f
%PROGRAM%
%CASES%
"""


def fish_quoted(text):
    return "'" + text.replace("\\", "\\\\").replace("'", "\\'") + "'"


def fish_option(command, conditions, option):
    """An option. One without a value is proposed once. After another fish asks for its word, but not for many words."""
    bare, rivals = ([name.lstrip("-") for name in names] for names in (option.names, option.rivals))
    given = " ".join(("-s " if len(name) == 1 else "") + name for name in bare + rivals)
    names = " ".join(("-s " if len(name) == 1 else "-l ") + name for name in bare)
    is_one = option.value and not option.is_many
    bare_value = "" if not is_one else " -r -F" if option.value in PATHS else " -x"
    words = f" -x -a {fish_quoted(' '.join(option.words))}" if option.words else bare_value
    once = [] if is_one else [f"not __fish_contains_opt {given}"]
    return f"complete -c {command} -n '{'; and '.join(conditions + once)}' {names}{words} -d {fish_quoted(option.text)}"


def fish_of(program, commands):
    first = "__fish_is_first_token"
    lines = [f"complete -c hookhost -n {first} -a {name} -d {fish_quoted(text)}" for name, text in program.commands]
    lines += [fish_option("hookhost", [first], option) for option in program.options]
    cases = []
    for name, _ in program.commands:
        told = commands[name]
        cases += [fish_option("hookhost", [f"__hookhost_is {name}"], option) for option in told.options]
        if takes_paths(told.arguments):
            cases.append(f"complete -c hookhost -n '__hookhost_takes {name} {most_of(told.arguments)}' -F")
    valued = {it: None for told in commands.values() for option in told.options if option.value for it in option.names}
    return filled(FISH, {"VALUED": " ".join(valued), "PROGRAM": "\n".join(lines), "CASES": "\n".join(cases)})


FISH_OF_READS = r"""# Completion of hookhost-reads in fish, made by share/make.py from what its help prints. To use it, put this file into
# ~/.config/fish/completions.

# Whether files follow the last option.
function __hookhost_reads_takes_files
    set -l last ''
    for word in (commandline -opc)[2..-1]
        test $word = --; and break
        string match -q -- '-?*' $word; and set last $word
    end
    test "$last" = %FILED%
end

complete -c hookhost-reads -f
%OPTIONS%
complete -c hookhost-reads -n __hookhost_reads_takes_files -F
"""


def fish_of_reads(told):
    options = "\n".join(fish_option("hookhost-reads", [], option) for option in told.options)
    return filled(FISH_OF_READS, {"FILED": many_paths(told.options), "OPTIONS": options})


# ---- the manual page

def escaped(text):
    """A text in the form in which roff prints it unchanged."""
    names = {"\\": "e", "-": "-", "'": "(aq", "`": "(ga", "^": "(ha", "~": "(ti", '"': "(dq"}
    return re.sub(r"^\.", r"\\&.", re.sub(r"[-\\'`^~\"]", lambda it: "\\" + names[it[0]], text), flags=re.MULTILINE)


def marked(usage):
    """A line of usage, its words in bold, what they stand for in italics."""
    def part(found):
        return f"\\fI{found[1] or found[2]}\\fR" if found[1] or found[2] else f"\\fB{escaped(found[0])}\\fR"
    return re.sub(r"<([A-Z]+)>|\b([A-Z]+)\b|[a-z+=-]+", part, usage)


def paragraph(text):
    return [".PP", *escaped(text).splitlines()]


def item(head, *texts, width=""):
    """An item of a list: its head, and its texts on lines of their own, so many columns from the margin."""
    return [f".TP {width}".rstrip(), head, *"\n.br\n".join(escaped(text) for text in texts).splitlines()]


def close(items):
    """A list without empty lines between its items."""
    return [".PD 0", *(line for lines in items for line in lines), ".PD"]


def example(head, lines):
    return [*paragraph(head), ".PP", ".RS", ".nf", *(escaped(line.strip()) for line in lines), ".fi", ".RE"]


def statuses(lines):
    """The list of the exit statuses."""
    return close(item(f".B {status}", text, width=4) for status, text in (line.split(maxsplit=1) for line in lines))


def page_block(block):
    """A text of the help: an example, the exit statuses, or a paragraph, maybe followed by refusals."""
    head, *lines = block.splitlines()
    if head in ("Example:", "Examples:"):
        return example(head, lines)
    if head == "Exit status:":
        return [*paragraph(head), *statuses(lines)]
    text, rows = re.fullmatch(r"((?:\S.*\n)+)((?: .*\n)*)", block + "\n").groups()
    told = re.findall(r"^ +(\d+ \w+(?: N)?) +(.*)\n {18}(.*)\n", rows, re.MULTILINE)
    if 2 * len(told) != rows.count("\n"):
        sys.exit(f"share/make.py: a text of the help can't be read: {block!r}")
    refusals = [item(f".B {escaped(name)}", *texts, width=18) for name, *texts in told]
    return [*paragraph(text.rstrip("\n")), *(close(refusals) if refusals else [])]


def is_of_refusals(block):
    """Whether a text ends with a table of refusals."""
    return re.search(r"\n +\d+ \w+(?: N)? +.*\n {18}.*$", block)


def page_command(told, shared):
    """What the help of a command says, without the texts on refusals that other commands have too."""
    lines = [f".SS {marked(told.usage)}", escaped(told.about + ".")]
    for argument in told.arguments:
        lines += item(f"\\fI{argument.name}\\fR", argument.text)
    for option in told.options:
        names = ", ".join(f"\\fB{escaped(it)}\\fR" for it in option.names)
        lines += item(names + (f" \\fI{option.value}\\fR" if option.value else ""), option.text)
    pointer = paragraph("Refusals that other commands have too are under DIAGNOSTICS.")
    for block in told.blocks:
        if block not in shared:
            lines += page_block(block)
        elif lines[-len(pointer):] != pointer:
            lines += pointer
    return lines


def shared_refusals(commands):
    """The texts on refusals that the help of several commands has, with the names of these."""
    found = {}
    for name, told in commands.items():
        for block in filter(is_of_refusals, told.blocks):
            found.setdefault(block, []).append(name)
    return {block: names for block, names in found.items() if len(names) > 1}


def sentence(texts, beginning):
    """The sentence that begins so, without the markup of its document."""
    found = re.search(re.escape(beginning).replace(r"\ ", r"\s") + r".*?\.(?=\s|$)", texts, re.DOTALL)
    if not found:
        sys.exit(f"share/make.py: no sentence begins with {beginning!r}")
    return re.sub(r"\[([^\]]*)\]\([^)]*\)", r"\1", " ".join(found[0].split())).replace("`", "")


def told_of(texts, rows):
    """A list of files or variables with what the page says of each."""
    said = [(name, told if isinstance(told, str) else " ".join(sentence(texts, it) for it in told)) for name, told in rows]
    return [line for name, text in said for line in item(f".B {escaped(name)}", text)]


def page_of(program, commands):
    texts = "\n".join([*(read(TOP, "docs", name) for name in ["REFERENCE.md", "DECISIONS.md"]), *commands["init"].blocks])
    shared = shared_refusals(commands)
    ends, = (block for block in program.blocks if block.startswith("Exit status:"))
    usages = ["hookhost", *(told.usage for told in commands.values()), "hookhost [COMMAND] --help"]
    return "\n".join([
        '.\\" Made by share/make.py from what the help of the program prints.',
        f'.TH HOOKHOST 1 "{DATE}" "hookhost" "User Commands"', ".nh", ".ad l",
        ".SH NAME", escaped(f"hookhost - {program.about[0].lower()}{program.about[1:]}"),
        ".SH SYNOPSIS", ".nf", *map(marked, usages), ".fi",
        ".SH DESCRIPTION", *[line for block in program.blocks if block != ends for line in page_block(block)][1:],
        ".SH COMMANDS", *(line for told in commands.values() for line in page_command(told, shared)),
        ".SH DIAGNOSTICS", "These are the refusals of several commands. Those of one command are above, with it.",
        *(line for block, names in shared.items() for line in [".PP", f".B {escaped(', '.join(names))}", *page_block(block)]),
        ".SH EXIT STATUS", *statuses(ends.splitlines()[1:]),
        ".SH FILES", *told_of(texts, FILES),
        ".SH ENVIRONMENT", *told_of(texts, ENVIRONMENT),
        ".SH SEE ALSO", ", ".join("\\fB" + name[:-3].replace("-", "\\-") + f"\\fR{name[-3:]}" for name in SEE_ALSO), *paragraph(FURTHER),
    ]) + "\n"


# ---- the files

def read(*path):
    with open(os.path.join(*path), encoding="utf-8") as file:
        return file.read()


def difference(name, wanted):
    """The first line in which a file of this folder differs from what would be written, or None."""
    path = os.path.join(HERE, name)
    if not os.path.isfile(path):
        return f"there is no share/{name}"
    found, wanted = read(path).split("\n"), wanted.split("\n")
    for number in range(max(len(found), len(wanted))):
        here, there = (lines[number] if number < len(lines) else None for lines in (found, wanted))
        if here != there:
            return f"share/{name}:{number + 1}: {here!r} in place of {there!r}"
    return None


def of_program(path):
    """The files that are made from the program's help, with what each has to hold."""
    if not os.access(path, os.X_OK):
        sys.exit(f"share/make.py: there is no program {path}")
    program = help_of(path)
    commands = {name: help_of(path, name) for name, _ in program.commands}
    makers = {"hookhost.bash": bash_of, "_hookhost": zsh_of, "hookhost.fish": fish_of, "hookhost.1": page_of}
    return {name: maker(program, commands) for name, maker in makers.items()}


def of_reads():
    """The files that are made from the help of hookhost-reads, with what each has to hold."""
    told = help_of_reads()
    return {"hookhost-reads.bash": bash_of_reads(told), "_hookhost-reads": zsh_of_reads(told), "hookhost-reads.fish": fish_of_reads(told)}


def main():
    is_check = "--check" in sys.argv[2:] or sys.argv[1:] == ["--check"]
    programs = sys.argv[1:len(sys.argv) - is_check]
    if len(programs) > 1 or any(it.startswith("-") for it in programs):
        sys.exit("Usage: share/make.py [PROGRAM] [--check]")
    made = of_reads()
    for program in programs:
        made |= of_program(os.path.abspath(program))
    for name, wanted in made.items():
        if not is_check:
            with open(os.path.join(HERE, name), "w", encoding="utf-8") as file:
                file.write(wanted)
        elif wrong := difference(name, wanted):
            sys.exit(f"share/make.py: {wrong}; `python3 share/make.py PROGRAM` makes it again")
    print(f"share: {len(made)} files {'are as they are made' if is_check else 'written'}")


main()
