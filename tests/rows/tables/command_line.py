"""The lines of words of command_line: that the commands that they name, and the errors, are those that a user expects."""

PROGRAM = "hook_trial"

MORE = "For more information, try '--help'.\n"

# Words, and the command that they name with its words, a line each; or the kind of `clap`'s error, and its text.
LINES = [
    (["try", "hooks.yaml", "a", "b c"], "try\nhooks.yaml\na\nb c\n"),
    (["try", "--", "-c", "-p"], "try\n-c\n-p\n"),
    (["try", "check", "check"], "try\ncheck\ncheck\n"),
    (["check"], "check\n"),
    (["explain"], "explain\n"),
    (["explain", "a b"], "explain\na b\n"),
    (["explain", ""], "explain\n\n"),
    *(([flag], "refused DisplayVersion\nhookhost 0.1.0\nrattle logic dac8208d650f15bf\n") for flag in ["--version", "-V"]),
    (
        [],
        "refused MissingSubcommand\n"
        "error: 'hookhost' requires a subcommand but one was not provided\n"
        "  [subcommands: init, try, check, explain, add, rm, status, cat, run, run-files, hook, fixes, accept, commit, log, show, memory, forget]\n\n"
        f"Usage: hookhost <COMMAND>\n\n{MORE}",
    ),
    (
        ["try"],
        "refused MissingRequiredArgument\n"
        "error: the following required arguments were not provided:\n"
        "  <CONFIG>\n"
        "  <PATH>...\n\n"
        f"Usage: hookhost try [--color=<WHEN>] [--jobs=<N>] <CONFIG> <PATH>...\n\n{MORE}",
    ),
    (
        ["try", "hooks.yaml"],
        "refused MissingRequiredArgument\n"
        "error: the following required arguments were not provided:\n"
        "  <PATH>...\n\n"
        f"Usage: hookhost try [--color=<WHEN>] [--jobs=<N>] <CONFIG> <PATH>...\n\n{MORE}",
    ),
    (
        ["tried", "hooks.yaml", "a"],
        f"refused InvalidSubcommand\nerror: unrecognized subcommand 'tried'\n\nUsage: hookhost <COMMAND>\n\n{MORE}",
    ),
    (
        ["try", "--all", "hooks.yaml", "a"],
        "refused UnknownArgument\n"
        "error: unexpected argument '--all' found\n\n"
        "  tip: to pass '--all' as a value, use '-- --all'\n\n"
        f"Usage: hookhost try [--color=<WHEN>] [--jobs=<N>] <CONFIG> <PATH>...\n\n{MORE}",
    ),
    (["check", "a"], f"refused UnknownArgument\nerror: unexpected argument 'a' found\n\nUsage: hookhost check\n\n{MORE}"),
    (["check", "--all"], f"refused UnknownArgument\nerror: unexpected argument '--all' found\n\nUsage: hookhost check\n\n{MORE}"),
    (
        ["checks"],
        "refused InvalidSubcommand\n"
        "error: unrecognized subcommand 'checks'\n\n"
        "  tip: a similar subcommand exists: 'check'\n\n"
        f"Usage: hookhost <COMMAND>\n\n{MORE}",
    ),
    (
        ["--help"],
        "refused DisplayHelp\n"
        "Runs the hooks of a pre-commit configuration, and keeps a small repository\n\n"
        "Usage: hookhost <COMMAND>\n\n"
        "Commands:\n"
        "  init       Makes a new repository in the current folder\n"
        "  try        Runs the hooks of a configuration on files, and prints the report\n"
        "  check      Prints how many hooks .pre-commit-config.yaml has, and its ignored keys\n"
        "  explain    Says why a configuration is refused, or what its hooks will do\n"
        "  add        Stages files of the current folder\n"
        "  rm         Takes paths out of the staged files\n"
        "  status     Prints which staged files differ from those of the last commit\n"
        "  cat        Prints the bytes of a staged file, of its fix or of a commit's file\n"
        "  run        Runs the hooks of the staged configuration on staged files, and prints the report\n"
        "  run-files  Runs the hooks of the staged configuration on the named staged files\n"
        "  hook       Runs the hooks of one stage of a commit that another program makes\n"
        "  fixes      Prints the fixes, which accept applies to the staged files\n"
        "  accept     Applies the fixes to the staged files, and prints how many there were\n"
        "  commit     Commits the staged files, through the hooks of a commit\n"
        "  log        Prints the commits, the newest first\n"
        "  show       Prints a commit's message and its paths\n"
        "  memory     Prints how many results of hooks' commands are cached, or limits them\n"
        "  forget     Drops all cached results, and prints how many there were\n\n"
        "Options:\n"
        "  -h, --help     Print help\n"
        "  -V, --version  Print version\n\n"
        "Without words, the configuration is read from standard input, and its hooks run on\n"
        "no files. hookhost try --help explains what that refuses.\n\n"
        "A repository lies in .hookhost of the current folder: init makes it, and all\n"
        "commands but try, check and explain work on it. In a repository of Git the script\n"
        "hookhost-git runs the hooks of each commit: hookhost-git --help says how.\n\n"
        "Examples:\n"
        "  hookhost try .pre-commit-config.yaml README.md src/main.c\n"
        "  hookhost init\n"
        "  hookhost add README.md\n"
        "  hookhost status\n\n"
        "Exit status:\n"
        "   0  every hook passed or was skipped, or the command did what it says\n"
        "   1  a hook failed, or explain found a fault\n"
        "   2  the words are wrong, or ask for help\n"
        "   3  something was refused: standard error says what\n\n"
        "hookhost COMMAND --help explains what that command refuses.\n",
    ),
]

# The usage line of each command on a repository, and of those that print a report.
USAGES = {
    "init": "init",
    "try": "try [--color=<WHEN>] [--jobs=<N>] <CONFIG> <PATH>...",
    "explain": "explain [FILE]",
    "add": "add [--chmod=+x] (<PATH>... | --paths-from=<FILE>)",
    "rm": "rm (<PATH>... | --paths-from=<FILE>)",
    "status": "status",
    "fixes": "fixes",
    "accept": "accept",
    "run": "run [--all-files] [--hook-stage=<STAGE>] [--fresh] [--cautious] [--verbose] [--color=<WHEN>] [--jobs=<N>] [ID]",
    "run-files": "run-files [--only=<ID>] [--hook-stage=<STAGE>] [--fresh] [--cautious] [--verbose] [--color=<WHEN>] [--jobs=<N>] (<PATH>... | --paths-from=<FILE>)",
    "hook": "hook [--fresh] [--cautious] [--color=<WHEN>] [--jobs=<N>] <STAGE> [FILE]",
    "commit": "commit [--no-verify] [--color=<WHEN>] [--jobs=<N>] -m <TEXT>",
    "cat": "cat [--fixed | --commit=<N>] <PATH>",
    "log": "log",
    "show": "show <N>",
    "memory": "memory [--limit=<N>]",
    "forget": "forget",
}


def refused(command, kind, text):
    """The answer to words of a command that are refused, with the command's usage after the text."""
    return f"refused {kind}\nerror: {text}\n\nUsage: hookhost {USAGES[command]}\n\n{MORE}"


def no_command(word, tip=""):
    return f"refused InvalidSubcommand\nerror: unrecognized subcommand '{word}'\n\n{tip}Usage: hookhost <COMMAND>\n\n{MORE}"


def missing(value):
    return f"the following required arguments were not provided:\n  <{value}>"


# What `add`, `rm` and `run-files` say if paths are given neither in words nor in a file, or in both.
NO_PATHS = missing("PATH") + "..."
BOTH_PATHS = "the argument '--paths-from <FILE>' cannot be used with '[PATH]...'"


def no_flag(word):
    return f"unexpected argument '{word}' found\n\n  tip: to pass '{word}' as a value, use '-- {word}'"


def no_mode(value):
    return f"invalid value '{value}' for '--chmod <MODE>': only +x is allowed"


def no_number(value, name="<N>"):
    return f"invalid value '{value}' for '{name}': it has to be a number up to 4294967295"


def no_limit(value):
    return f"invalid value '{value}' for '--limit <N>': it has to be a number from 1 to 100000"


def no_jobs(value):
    return f"invalid value '{value}' for '--jobs <N>': it has to be a number from 1 to 256"


def no_color(value):
    return f"invalid value '{value}' for '--color <WHEN>': only auto, always and never are allowed"


def no_stage(value):
    return f"invalid value '{value}' for '<STAGE>': only pre-commit, prepare-commit-msg, commit-msg and post-commit are allowed"


def both_versions(value):
    return f"invalid value '{value}' for '--commit <N>': it can't be used with --fixed"


# Words by which `memory` limits what is cached, and the limit.
LIMITS = [
    (["--limit=1"], 1),
    (["--limit", "1"], 1),
    (["--limit=10000"], 10_000),
    (["--limit=100000"], 100_000),
    (["--limit=007"], 7),
    (["--limit=+5"], 5),
]
# Words of the commands on a repository, and what they ask for.
REPOSITORY_LINES = [
    (["init"], "init\n"),
    (["add", "a b"], "add\na b\n"),
    (["add", ""], "add\n\n"),
    (["add", "--chmod=+x", "a"], "add executable\na\n"),
    (["add", "--chmod", "+x", "a"], "add executable\na\n"),
    (["add", "a", "--chmod=+x"], "add executable\na\n"),
    (["add", "--", "-x"], "add\n-x\n"),
    (["add", "--", "--chmod=+x"], "add\n--chmod=+x\n"),
    (["rm", "a"], "remove\na\n"),
    # Several words, or a file of paths.
    (["add", "a", "b c", "a"], "add\na\nb c\na\n"),
    (["add", "b", "--chmod=+x", "a"], "add executable\nb\na\n"),
    (["add", "--", "a", "-x"], "add\na\n-x\n"),
    (["add", "--paths-from=-"], "add listed\n-\n"),
    (["add", "--paths-from", "list", "--chmod=+x"], "add executable listed\nlist\n"),
    (["add", "--paths-from="], "add listed\n\n"),
    (["rm", "a", "b"], "remove\na\nb\n"),
    (["rm", "--paths-from=list"], "remove listed\nlist\n"),
    (["status"], "status\n"),
    (["fixes"], "fixes\n"),
    (["accept"], "accept\n"),
    (["cat", "a"], "cat\na\n"),
    (["cat", "--fixed", "a"], "cat fixed\na\n"),
    (["cat", "a", "--fixed"], "cat fixed\na\n"),
    (["cat", "--", "--fixed"], "cat\n--fixed\n"),
    (["cat", "--commit=1", "a"], "cat commit 1\na\n"),
    (["cat", "--commit", "0", "a"], "cat commit 0\na\n"),
    (["cat", "a", "--commit=+4294967295"], "cat commit 4294967295\na\n"),
    (["cat", "--commit=4294967296", "a"], refused("cat", "InvalidValue", no_number("4294967296", "--commit <N>"))),
    (["cat", "--commit=", "a"], refused("cat", "InvalidValue", no_number("", "--commit <N>"))),
    (["cat", "--commit=x", "--fixed", "a"], refused("cat", "InvalidValue", both_versions("x"))),
    (["cat", "--fixed", "--commit=1", "a"], refused("cat", "InvalidValue", both_versions("1"))),
    (["log"], "log\n"),
    (["show", "0"], "show\n0\n"),
    (["show", "007"], "show\n7\n"),
    (["show", "+1"], "show\n1\n"),
    (["show", "4294967295"], "show\n4294967295\n"),
    (["memory"], "memory\n"),
    *((["memory", *words], f"limit {limit}\n") for words, limit in LIMITS),
    (["forget"], "forget\n"),
    # A value is missing, or there is one too many.
    (["cat"], refused("cat", "MissingRequiredArgument", missing("PATH"))),
    *(([command], refused(command, "InvalidValue", NO_PATHS)) for command in ["add", "rm", "run-files"]),
    *(
        ([command, "--paths-from=list", "a"], refused(command, "InvalidValue", BOTH_PATHS))
        for command in ["add", "rm", "run-files"]
    ),
    (["show"], refused("show", "MissingRequiredArgument", missing("N"))),
    (["add", "--chmod=+x"], refused("add", "InvalidValue", NO_PATHS)),
    (["add", "--chmod=755"], refused("add", "InvalidValue", NO_PATHS)),
    *(
        ([command, "a", "b"], refused(command, "UnknownArgument", "unexpected argument 'b' found"))
        for command in ["explain", "cat", "show"]
    ),
    (
        ["rm", "--paths-from=a", "--paths-from=b"],
        refused("rm", "ArgumentConflict", "the argument '--paths-from <FILE>' cannot be used multiple times"),
    ),
    *(
        ([command, "b"], refused(command, "UnknownArgument", "unexpected argument 'b' found"))
        for command in ["init", "status", "fixes", "accept", "log", "memory", "forget"]
    ),
    # `--chmod` takes `+x` alone, and once.
    *((["add", f"--chmod={mode}", "a"], refused("add", "InvalidValue", no_mode(mode))) for mode in ["-x", "+X", "x", "755", ""]),
    (["add", "--chmod", "a"], refused("add", "InvalidValue", NO_PATHS)),
    (["add", "--chmod", "-x", "a"], refused("add", "UnknownArgument", no_flag("-x"))),
    (
        ["add", "--chmod=+x", "--chmod=+x", "a"],
        refused("add", "ArgumentConflict", "the argument '--chmod <MODE>' cannot be used multiple times"),
    ),
    # A path that looks like a flag comes after `--`.
    (["add", "-x"], refused("add", "UnknownArgument", no_flag("-x"))),
    (["rm", "--chmod=+x", "a"], refused("rm", "UnknownArgument", no_flag("--chmod"))),
    # The number has 32 bits.
    *((["show", word], refused("show", "InvalidValue", no_number(word))) for word in ["x", "4294967296", "1.0", " 1", "", "++1"]),
    (["show", "-1"], refused("show", "UnknownArgument", no_flag("-1"))),
    (["show", "--", "-1"], refused("show", "InvalidValue", no_number("-1"))),
    # A limit is a number from 1 to 100,000, and is given once.
    *(
        (["memory", f"--limit={word}"], refused("memory", "InvalidValue", no_limit(word)))
        for word in ["0", "00", "100001", "4294967295", "4294967296", "-1", "x", "", "1.0", " 1", "1 2", "++1"]
    ),
    (["memory", "--limit", "0"], refused("memory", "InvalidValue", no_limit("0"))),
    (["memory", "--limit", "-1"], refused("memory", "UnknownArgument", "unexpected argument '-1' found")),
    (["memory", "--limit", "1", "2"], refused("memory", "UnknownArgument", "unexpected argument '2' found")),
    (
        ["memory", "--limit"],
        f"refused InvalidValue\nerror: a value is required for '--limit <N>' but none was supplied\n\n{MORE}",
    ),
    (
        ["memory", "--limit=1", "--limit=1"],
        refused("memory", "ArgumentConflict", "the argument '--limit <N>' cannot be used multiple times"),
    ),
    (["forget", "--limit=1"], refused("forget", "UnknownArgument", "unexpected argument '--limit' found")),
    # No word is short for another.
    (["help"], no_command("help")),
    (["stat"], no_command("stat", "  tip: a similar subcommand exists: 'status'\n\n")),
    (["remove"], no_command("remove", "  tip: a similar subcommand exists: 'rm'\n\n")),
    (["ADD", "a"], no_command("ADD")),
    (["fix"], no_command("fix", "  tip: a similar subcommand exists: 'fixes'\n\n")),
    (["forgot"], no_command("forgot", "  tip: a similar subcommand exists: 'forget'\n\n")),
    (["Memory"], no_command("Memory", "  tip: a similar subcommand exists: 'memory'\n\n")),
    # A command that takes no value has none to report.
    *(([command, "--all"], refused(command, "UnknownArgument", "unexpected argument '--all' found")) for command in ["accept", "memory", "forget"]),
    (
        ["add", "--ch=+x", "a"],
        refused("add", "UnknownArgument", "unexpected argument '--ch' found\n\n  tip: a similar argument exists: '--chmod'"),
    ),
    # The help of a command, which is short if the first word that asks for it begins with -h.
    *(
        (
            ["status", *words],
            "refused DisplayHelp\n"
            "Prints which staged files differ from those of the last commit\n\n"
            "Usage: hookhost status\n\n"
            "Options:\n"
            f"  -h, --help  Print help\n\n{MORE}",
        )
        for words in [["-h"], ["-h", "--help"], ["-hx"]]
    ),
    (
        ["status", "--help"],
        "refused DisplayHelp\n"
        "Prints which staged files differ from those of the last commit\n\n"
        "Usage: hookhost status\n\n"
        "Options:\n"
        "  -h, --help  Print help\n\n"
        "Each line is A PATH for a file that was added, M PATH for one whose bytes or mode\n"
        "differ, or D PATH for one that was unstaged, in the order of the paths. Before the\n"
        "first commit every staged file is an added one. The files in the folder aren't read.\n\n"
        "Example:\n"
        "  hookhost status\n\n"
        "Exit status:\n"
        "   0  the command did what it says\n"
        "   2  the words are wrong, or ask for help\n"
        "   3  something was refused: standard error says what\n\n"
        "'hookhost: cannot use .hookhost/store.db' says that no store is here, or that it\n"
        "can't be opened: hookhost init makes one. 'hookhost: cannot use .hookhost/lock' says\n"
        "that another hookhost works here: wait for it. 'hookhost: standard output was not\n"
        "taken' says that not all output was written: what was done stays. A store of an\n"
        "earlier version is converted when it is opened; then no earlier hookhost opens it.\n"
        "What opening the store refuses is reported as 'hookhost: refused: NUMBER NAME':\n"
        "   1 NotAStore    the file is no store of a version that this program knows\n"
        "                  move it away, and make a store by hookhost init\n"
        "   2 Damaged      the store breaks a rule that every store keeps\n"
        "                  take it from a backup: nothing here mends it\n"
        "   3 Sql          the database refused\n"
        "                  see that the disk can be read and has room\n"
        "   4 OutOfMemory  memory was refused\n"
        "                  free some memory, and run it again\n\n"
        "What the command itself refuses is reported in the same way:\n"
        "   1 OutOfMemory  memory was refused\n"
        "                  free some memory, and run it again\n"
        "   2 Store N      the store refused, for the cause N of those above\n"
        "                  do what is said there\n",
    ),
]

# Words for runs of hooks, and what they ask for.
RUN_LINES = [
    (("run",), "run pre-commit changed\n"),
    (("run", "names"), "run pre-commit changed\nnames\n"),
    (("run", "--all-files", "--fresh", "--hook-stage", "manual", "names"), "run manual all fresh\nnames\n"),
    (("run", "names", "--hook-stage=pre-commit"), "run pre-commit changed\nnames\n"),
    (("run", "--", "--fresh"), "run pre-commit changed\n--fresh\n"),
    (("commit", "-m", "a word"), "commit\na word\n"),
    (("commit", "-mx"), "commit\nx\n"),
    (("commit", "-m", ""), "commit\n\n"),
    (("commit", "--no-verify", "-m", "x\ny"), "commit unverified\nx\ny\n"),
    (("run-files", "a"), "run pre-commit named\na\n"),
    (("run-files", "--paths-from=list", "--fresh"), "run pre-commit listed fresh\nlist\n"),
    (("run-files", "--fresh", "b", "a", "--hook-stage=manual", "a"), "run manual named fresh\nb\na\na\n"),
    (("run", "--cautious"), "run pre-commit changed cautious\n"),
    (("run", "--verbose", "names", "--fresh", "--cautious"), "run pre-commit changed fresh cautious verbose\nnames\n"),
    (("run", "--all-files", "--verbose"), "run pre-commit all verbose\n"),
    (("run-files", "--verbose", "a"), "run pre-commit named verbose\na\n"),
    (("run-files", "--only=names", "b", "a"), "run pre-commit named\nnames\nb\na\n"),
    (("run-files", "--only", "names", "--cautious", "--paths-from=list"), "run pre-commit listed cautious\nnames\nlist\n"),
]

# Words for the hooks of a stage of a commit, and what they ask for. Those of two stages need a file, and the others take none.
HOOK_LINES = [
    *((("hook", stage), f"hook {stage}\n") for stage in ["pre-commit", "post-commit"]),
    *((("hook", stage, "a b"), f"hook {stage}\na b\n") for stage in ["prepare-commit-msg", "commit-msg"]),
    (("hook", "commit-msg", "-"), "hook commit-msg\n-\n"),
    (("hook", "commit-msg", ""), "hook commit-msg\n\n"),
    (("hook", "commit-msg", "commit-msg"), "hook commit-msg\ncommit-msg\n"),
    (("hook", "--", "commit-msg", "--fresh"), "hook commit-msg\n--fresh\n"),
    (("hook", "--fresh", "pre-commit"), "hook pre-commit fresh\n"),
    (("hook", "pre-commit", "--cautious"), "hook pre-commit cautious\n"),
    (("hook", "--cautious", "prepare-commit-msg", "--fresh", "a"), "hook prepare-commit-msg fresh cautious\na\n"),
    (("hook",), refused("hook", "MissingRequiredArgument", missing("STAGE"))),
    *(
        (("hook", stage, *files), refused("hook", "InvalidValue", no_stage(stage)))
        for stage in ["pre-push", "pre-merge-commit", "manual", "commit", "Pre-commit", "pre-commit ", "post-commi", ""]
        for files in [(), ("a",)]
    ),
    *((("hook", stage), refused("hook", "InvalidValue", missing("FILE"))) for stage in ["prepare-commit-msg", "commit-msg"]),
    *(
        (("hook", stage, file), refused("hook", "InvalidValue", f"unexpected argument '{file}' found"))
        for stage in ["pre-commit", "post-commit"]
        for file in ["a", "", "commit-msg"]
    ),
    (("hook", "commit-msg", "a", "b"), refused("hook", "UnknownArgument", "unexpected argument 'b' found")),
    (("hook", "pre-commit", "--verbose"), refused("hook", "UnknownArgument", no_flag("--verbose"))),
    (("hook", "pre-commit", "--hook-stage=manual"), refused("hook", "UnknownArgument", no_flag("--hook-stage"))),
]

# Words of the commands that print a report, and what they ask for: the first line without its end, and the lines after it.
REPORTS = [
    (("run", "--hook-stage=manual"), "run manual changed", ""),
    (("run", "--fresh", "--verbose", "names"), "run pre-commit changed fresh verbose", "names\n"),
    (("run-files", "a b"), "run pre-commit named", "a b\n"),
    (("try", "hooks.yaml", "a"), "try", "hooks.yaml\na\n"),
    (("commit", "-m", "some words"), "commit", "some words\n"),
    (("commit", "--no-verify", "-mx"), "commit unverified", "x\n"),
    (("hook", "post-commit"), "hook post-commit", ""),
    (("hook", "--fresh", "commit-msg", "a"), "hook commit-msg fresh", "a\n"),
]

# What `--color` may ask for, and how the first line ends then.
COLORS = {"auto": "", "always": " color always", "never": " color never"}


def colored(words, first, rest):
    """The rows of a command that prints a report, in each color, and with what `--color` doesn't take."""
    command, *others = words
    yield words, f"{first}\n{rest}"
    for color, end in COLORS.items():
        yield (*words, f"--color={color}"), f"{first}{end}\n{rest}"
        yield (command, "--color", color, *others), f"{first}{end}\n{rest}"
    for color in ["Always", "AUTO", "on", "alway", "never ", ""]:
        yield (*words, f"--color={color}"), refused(command, "InvalidValue", no_color(color))
    yield (command, "--color", "a b", *others), refused(command, "InvalidValue", no_color("a b"))
    yield (*words, "--color"), f"refused InvalidValue\nerror: a value is required for '--color <WHEN>' but none was supplied\n\n{MORE}"
    for colors in [("always", "always"), ("auto", "never")]:
        twice = (command, *others, *(f"--color={color}" for color in colors))
        yield twice, refused(command, "ArgumentConflict", "the argument '--color <WHEN>' cannot be used multiple times")


COLOR_LINES = [
    *(row for report in REPORTS for row in colored(*report)),
    # A word that is a value of another option, or comes after `--`, asks for no color.
    (("commit", "-m", "--color=never"), "commit\n--color=never\n"),
    (("try", "--", "--color=always", "a"), "try\n--color=always\na\n"),
    (("run", "--", "--color=always"), "run pre-commit changed\n--color=always\n"),
    # What a command lacks is reported before a color that isn't known.
    (("try", "--color=on"), refused("try", "MissingRequiredArgument", missing("CONFIG") + "\n  <PATH>...")),
    (("commit", "--color=on"), refused("commit", "MissingRequiredArgument", "the following required arguments were not provided:\n  -m <TEXT>")),
    (("run-files", "--color=on"), refused("run-files", "InvalidValue", NO_PATHS)),
    # The other commands print no report.
    *(
        ((command, "--color=always"), refused(command, "UnknownArgument", "unexpected argument '--color' found"))
        for command in ["init", "status", "accept", "forget"]
    ),
]

# Numbers of commands that `--jobs` may ask for, and how the first line ends then.
JOBS = {"1": " jobs 1", "2": " jobs 2", "256": " jobs 256", "007": " jobs 7", "+5": " jobs 5"}
# What is no such number. The last two are 1 if only their last 32 or 64 bits are looked at.
NO_JOBS = ["0", "00", "257", "-1", "x", "", "1.0", " 1", "1 2", "++1", "4294967297", "18446744073709551617"]


def counted(words, first, rest):
    """The rows of a command that prints a report, for numbers of commands that may run at the same time, and for what is no number."""
    command, *others = words
    for number, end in JOBS.items():
        yield (*words, f"--jobs={number}"), f"{first}{end}\n{rest}"
        yield (command, "--jobs", number, *others), f"{first}{end}\n{rest}"
    for number in NO_JOBS:
        yield (*words, f"--jobs={number}"), refused(command, "InvalidValue", no_jobs(number))
    yield (command, "--jobs", "257", *others), refused(command, "InvalidValue", no_jobs("257"))
    yield (*words, "--jobs"), f"refused InvalidValue\nerror: a value is required for '--jobs <N>' but none was supplied\n\n{MORE}"
    twice = (command, *others, "--jobs=1", "--jobs=1")
    yield twice, refused(command, "ArgumentConflict", "the argument '--jobs <N>' cannot be used multiple times")
    yield (command, "--jobs=3", "--color=always", *others), f"{first} color always jobs 3\n{rest}"
    # A color that isn't known is reported before such a number.
    yield (command, "--jobs=0", "--color=on", *others), refused(command, "InvalidValue", no_color("on"))


JOBS_LINES = [
    *(row for report in REPORTS for row in counted(*report)),
    # A word that is a value of another option, or comes after `--`, asks for no number.
    (("commit", "-m", "--jobs=2"), "commit\n--jobs=2\n"),
    (("try", "--", "--jobs=2", "a"), "try\n--jobs=2\na\n"),
    (("run", "--", "--jobs=2"), "run pre-commit changed\n--jobs=2\n"),
    # What a command lacks is reported before a number that can't be taken.
    (("try", "--jobs=0"), refused("try", "MissingRequiredArgument", missing("CONFIG") + "\n  <PATH>...")),
    (("commit", "--jobs=0"), refused("commit", "MissingRequiredArgument", "the following required arguments were not provided:\n  -m <TEXT>")),
    (("run-files", "--jobs=0"), refused("run-files", "InvalidValue", NO_PATHS)),
    # The other commands start no command of a hook.
    *(
        ((command, "--jobs=2"), refused(command, "UnknownArgument", "unexpected argument '--jobs' found"))
        for command in ["init", "status", "accept", "forget"]
    ),
]

ROWS = [("line_of", *words, said) for words, said in LINES + REPOSITORY_LINES + RUN_LINES + HOOK_LINES + COLOR_LINES + JOBS_LINES]
