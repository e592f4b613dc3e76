#!/usr/bin/env python3
"""Compares docs/REFERENCE.md with the code, and docs/DEFINITIONS.md with the definitions. Of the reference it compares each refusal's
number and name, what `--help` says of it, each limit, the words of a configuration, and each row of the tables of tags.

Usage: tests/reference.py [FOLDER]   (default: the repository that this file lies in)

An enum whose method `number` gives each variant its own number is a kind of refusal. Its variants' numbers and names (those of
`name`, or without it the variants' own) have to be the rows of one table of the reference whose first column is `number`. Each such
table has to be of one enum. HELP says which enum's table the help of a command prints: a line of number, name and when, and below
it one of what to do, in the words of the reference without its backticks. The help of each command on a repository prints the rows
that name the command in the tables whose first column is `printed`. The help of the program prints the table of the exit statuses.
No line of help is wider than 84 columns. A limit is a definition `most_.. = NUMBER` in a crate's specs/. LIMITS says where the
reference's table "Limits" names each of them, and every number of that table has to be a limit. The keys, stages, languages and
truths of the section on the configuration have to be those of hook_config's specs/.

A table of the definitions whose first columns are `word` and `file` is of the crates that its section's heading names. Each word is
defined in one of these files of their specs/, or is a type of the code that such a file uses. A table of laws has all laws of the
crates that it names. Each file of specs/, except Lib.antt and the lemmas, is in a table of its crate's sections. If a file says in
its first lines that it is for private functions or for laws alone, it may be named in their text instead.
"""
import os
import re
import sys

sys.path.insert(0, os.path.abspath(f"{__file__}/../shared"))
import places

TOP = os.path.abspath(sys.argv[1] if len(sys.argv) > 1 else places.TOP)
# The row of the table, the words in it with {} for the number, and the limit. A limit is its crate, its name, and by how much the number
# in the words is greater.
LIMITS = [
    ("configuration", "1 MiB ({} bytes)", "yaml_lines", "most_bytes", 0),
    ("configuration", "a node within at most {} others", "yaml_lines", "most_nodes", -1),
    ("configuration", "{} hooks", "hook_config", "most_hooks", 0),
    ("path", "{} bytes", "hook_base", "most_path_bytes", 0),
    ("file, message", "16 MiB ({} bytes)", "hook_base", "most_file_bytes", 0),
    ("first line of a script, after `#!`", "{} bytes", "file_tags", "most_shebang_bytes", 0),
    ("name of a hook in a report", "1 MiB ({} bytes)", "report_text", "most_name_bytes", 0),
    ("[command of a hook](#the-parts-of-a-command), with its names", "{} bytes", "hook_run", "most_command_bytes", 0),
    ("[command of a hook](#the-parts-of-a-command), with its names", "{} names", "hook_config", "most_names", 0),
    ("output of a child", "1 MiB ({} bytes)", "child_port", "most_output_bytes", 0),
    ("commands at the same time", "{}", "command_line", "most_jobs", 0),
    ("staged tree of a store", "{} files", "store_faults", "most_files", 0),
    ("staged tree of a store", "8 MiB ({} bytes) together", "store_faults", "most_tree_path_bytes", 0),
    ("commits of a store", "{}", "store_faults", "most_commits", 0),
    ("remembered answers of a store", "{}", "store_faults", "most_answers", 0),
    ("remembered answers of a store", "{} in a new store", "store_faults", "first_limit", 0),
    ("number that tells how lately an answer was used", "{}", "repo_store", "greatest_tick", 0),
    ("exit code of a remembered answer", "{}", "store_faults", "most_status", 0),
]
# The constants of command_line with what the help of a command says, and the enum whose refusals the command prints.
HELP = {"TRY_HELP": "TryFault", "CHECK_HELP": "ConfigKind"}
# The documents that name the logic in which the program is proved, as `--version` prints it.
OF_THE_LOGIC = [("README.md",), ("docs", "PROMISES.md")]
# The refusals for which the reference also says what a library's caller does. The help says what a user of the commands does.
LIBRARIES = ["StoreFault", "HostRefusal"]
# The constants of command_line with the help of the commands on a repository, and the enums of their refusals: those of opening
# the store, and then their own.
REPOSITORY_HELP = {
    "init": "INIT_HELP",
    "add": "ADD_HELP",
    "rm": "REMOVE_HELP",
    "status": "STATUS_HELP",
    "run": "RUN_HELP",
    "run-files": "RUN_FILES_HELP",
    "hook": "HOOK_HELP",
    "fixes": "FIXES_HELP",
    "accept": "ACCEPT_HELP",
    "commit": "COMMIT_HELP",
    "cat": "CAT_HELP",
    "log": "LOG_HELP",
    "show": "SHOW_HELP",
    "memory": "MEMORY_HELP",
    "forget": "FORGET_HELP",
}
REPOSITORY_REFUSALS = ["StoreFault", "HostRefusal"]
# The columns of a line of help, at most.
WIDEST = 84
# Tags that no table gives.
TAGS_OF_ALL = ["file", "executable", "non-executable", "text", "binary"]
# The tables of tags by the head of their first column, and the constants of the code.
TAG_TABLES = {"name": "NAMES", "extension": "EXTENSIONS", "interpreter": "INTERPRETERS"}


def read(*path):
    with open(os.path.join(TOP, *path), encoding="utf-8") as file:
        return file.read()


def sources(part, ending):
    """The texts of a crate's files, or of all crates', by their paths."""
    for folder, _, names in os.walk(os.path.join(TOP, part)):
        for name in sorted(names):
            if name.endswith(ending) and "/out/" not in folder:
                yield os.path.relpath(os.path.join(folder, name), TOP), read(folder, name)


def arms(body, function, value):
    """The values of the arms of a method's match, by the variant."""
    found = re.search(rf"\n    (?:pub(?:\(crate\))? )?fn {function}\(&self\).*?\n    \}}\n", body, re.DOTALL)
    return dict(re.findall(rf"\w+::(\w+)(?:\([^)]*\)| \{{[^}}]*\}})? => {value},", found[0])) if found else {}


def refusals_of_code():
    """The numbers and names of each kind of refusal, by the enum."""
    found = {}
    for _, text in sources("crates", ".rt"):
        for enum, body in re.findall(r"\nimpl (\w+) \{(.*?\n)\}\n", text, re.DOTALL):
            numbers, names = arms(body, "number", r"(\d+)"), arms(body, "name", r'"(\w+)"')
            if numbers and re.search(rf"\npub enum {enum} ", text):
                found[enum] = {int(number): names.get(variant, variant) for variant, number in numbers.items()}
    return found


def tables(text):
    """The tables of a Markdown text, each a list of rows of cells."""
    for block in re.findall(r"(?:^\|.*\n?)+", text, re.MULTILINE):
        yield [[cell.strip() for cell in re.split(r"(?<!\\)\|", row.strip().strip("|"))] for row in block.splitlines()]


def wrong_refusals(reference):
    """How the numbered tables differ from the enums. Each table is compared with its own enum, or the one with which it shares most names."""
    left = refusals_of_code()
    for rows in (rows for rows in tables(reference) if rows[0][0] == "number"):
        told = {int(row[0]): row[1] for row in rows[2:]}
        if len(told) < len(rows) - 2:
            yield f"the table with {rows[2][1]} has a number twice"
        enum = max(left, key=lambda it: (left[it] == told, len({*left[it].values()} & {*told.values()})), default=None)
        if enum is None:
            yield f"no enum is left for the table with {rows[2][1]}"
            continue
        code = left.pop(enum)
        for number in sorted({*told, *code}):
            if told.get(number) != code.get(number):
                yield f"{enum}: {number} is {code.get(number, 'nothing')} in the code, and {told.get(number, 'nothing')} in the reference"
    for enum in left:
        yield f"{enum}: the reference has no table of its numbers"


def section_of(text, title):
    """The text of a document below a heading, up to the next one."""
    return text.partition(f"\n## {title}\n")[2].partition("\n## ")[0]


def help_of(constant):
    """The text of a constant of the help."""
    return re.search(rf'const {constant}: &str = "\\\n(.*?)";', read("crates", "command_line", "src", "help.rt"), re.DOTALL)[1]


def rows_told(reference, heads):
    """The rows of the reference's tables with these heads, without backticks."""
    return [[[cell.replace("`", "") for cell in row] for row in rows[2:]] for rows in tables(reference) if rows[0] in heads]


def wrong_help(reference):
    """How what `--help` prints differs from the reference's tables of refusals and of exit statuses."""
    kinds = refusals_of_code()
    told = rows_told(reference, [["number", "name", "when", "what to do"], ["number", "kind", "when", "what to do"]])
    for constant, enum in HELP.items():
        printed = [list(row) for row in re.findall(r"^ *(\d+) (\w+) +(.*)\n {18}(.*)$", help_of(constant), re.MULTILINE)]
        if {int(row[0]): row[1] for row in printed} != kinds.get(enum) or printed not in told:
            yield f"{constant} doesn't print the table of {enum}: {[row for row in printed if all(row not in rows for rows in told)]!r}"
    known = [kinds[enum] for enum in [*HELP.values(), *LIBRARIES]]
    for rows in told:
        if {int(row[0]): row[1] for row in rows} not in known:
            yield f"the table with {rows[0][1]} says what to do, and no help prints it"
    printed = [list(row) for row in re.findall(r"^   (\d)  (.*)$", help_of("PROGRAM_HELP"), re.MULTILINE)]
    if [printed] != rows_told(reference, [["exit status", "when"]]):
        yield f"PROGRAM_HELP doesn't print the table of the exit statuses: {printed!r}"


def repository_help_of(constant):
    """The text of a constant of the help of the commands on a repository, with what they share."""
    source = read("crates", "command_line", "src", "repository_help.rt")
    texts = lambda code: [re.sub(r"\\\n\s*", "", it) for it in re.findall(r'"([^"]*)"', code)]
    told = texts(re.search(rf"const {constant}: &str = (.*?);\n(?:\n|$)", source, re.DOTALL)[1])
    if len(told) == 1:
        return told[0]
    before, after = texts(re.search(r"\$does,\n(.*?)\$refuses\n", source, re.DOTALL)[1])
    usual = texts(re.search(r"opening_help!\(\$does, (.*?), \$refuses\)", source)[1])
    statuses, = told[1:-1] or usual
    return "".join([told[0], before, statuses, after, told[-1]])


def wrong_repository_help(reference):
    """How the help of the commands on a repository differs from the reference's tables of what they print."""
    kinds = refusals_of_code()
    told = rows_told(reference, [["printed", "commands", "when", "what to do"]])
    for enum, rows in zip(REPOSITORY_REFUSALS, told):
        for printed, *_ in rows:
            number, name = printed.split()[:2]
            if kinds[enum].get(int(number)) != name:
                yield f"{enum} has no refusal {printed}"
    if len(told) != len(REPOSITORY_REFUSALS):
        yield "the tables of what commands print aren't one for each enum"
    for command, constant in REPOSITORY_HELP.items():
        printed = [list(row) for row in re.findall(r"^ *(\d+ \w+(?: N)?) +(.*)\n {18}(.*)$", repository_help_of(constant), re.MULTILINE)]
        wanted = [[row[0], *row[2:]] for rows in told for row in rows if command in row[1].split(", ")]
        if printed != wanted:
            yield f"{constant} doesn't print the rows of {command}: {[row for row in printed + wanted if (row in printed) != (row in wanted)]!r}"


def wrong_widths():
    """The lines of the help that are too wide."""
    texts = {name: help_of(name) for name in ["PROGRAM_HELP", *HELP]} | {name: repository_help_of(name) for name in REPOSITORY_HELP.values()}
    for name, text in texts.items():
        for line in text.splitlines():
            if len(line) > WIDEST:
                yield f"{name} has a line of {len(line)} columns: {line!r}"


def value_of(crate, name):
    """A limit, from the one definition of this name in the crate's specs/, which may be a power."""
    found = [it for _, text in sources(f"crates/{crate}/specs", ".antt") for it in re.findall(rf"^{name} = ([\d_]+)(?: \^ (\d+))?$", text, re.MULTILINE)]
    return int(found[0][0]) ** int(found[0][1] or 1) if len(found) == 1 else None


def wrong_limits(reference):
    rows = {row[0]: row[1] for rows in tables(section_of(reference, "Limits")) for row in rows[2:]}
    for path, text in sources("crates", ".antt"):
        crate = path.split(os.sep)[1]
        for name in re.findall(r"^(most_\w+) = [\d_]+$", text, re.MULTILINE):
            if (crate, name) not in [limit[2:4] for limit in LIMITS]:
                yield f"{name} of {path} is a limit that LIMITS doesn't name"
    told = []
    for row, words, crate, name, more in LIMITS:
        value = value_of(crate, name)
        if value is None:
            yield f"{crate}/specs has not one definition {name} = NUMBER"
            continue
        told.append((row, words.format(f"{value + more:,}")))
        if (mib := re.match(r"(\d+) MiB", words)) and int(mib[1]) << 20 != value:
            yield f"{name} of {crate} is {value:,}, which isn't {mib[0]}"
    for row, words in told:
        if words not in rows.get(row, ""):
            yield f"the row {row!r} doesn't say {words!r}"
    for row, words in rows.items():
        for _, part in (it for it in told if it[0] == row):
            words = words.replace(part, "", 1)
        if re.search(r"\d", words):
            yield f"the row {row!r} has a number that is no limit: {words!r}"
    limits = {number for _, words in told for number in re.findall(r"\d[\d,]*", words)}
    for number in sorted({*re.findall(r"(?<![\d,])\d{1,3}(?:,\d{3})+", reference)} - limits):
        yield f"{number} is none of the limits"


def listed(texts, name):
    """The words of a list in specs/: what follows `NAME =`. A key there means the word of its row."""
    body = re.search(rf"^{name} =(.*?)\n(?=\n|\Z)", texts, re.MULTILINE | re.DOTALL)[1]
    for word, key in re.findall(r'codes "([^"]*)"|listed \(?(\w+)', body):
        # A long row is wrapped after `=`.
        yield word or re.search(rf'^{key}\b.* =\s+record {{ word = codes "([^"]*)"', texts, re.MULTILINE)[1]


def quoted(text):
    """The words in backticks."""
    return re.findall(r"`([^`]+)`", text)


def sentence(section, beginning):
    """What follows a beginning, up to a full stop that isn't of a number or a word."""
    return re.search(rf"{beginning}(.*?)\.(?= |\n)", section)[1]


def wrong_configuration(reference):
    """How the words of a configuration differ from those of hook_config's specs/."""
    section = section_of(reference, "The configuration's keys")
    keys, kinds, languages, stages = (read("crates", "hook_config", "specs", f"{file}.antt") for file in ("KnownKeys", "Kinds", "Languages", "Stages"))
    ignored = sentence(section, "Read and ignored, whatever the value: ").partition("; on a hook ")
    rows = [row for rows in tables(section) for row in rows[2:]]
    for where, name, more in [("top", "top_keys", ignored[0]), ("repository", "repository_keys", ""), ("hook", "hook_keys", ignored[2])]:
        told = [key for row in rows if row[0] == where for key in quoted(row[1])] + quoted(more)
        if sorted(told) != sorted(listed(keys, name)):
            yield f"the keys at {where!r} aren't {name}: {sorted({*told} ^ {*listed(keys, name)})}"
    names = dict(re.findall(r'\(codes "([^"]+)", (\w+)\)', stages))
    told = quoted(sentence(section, "The stages are "))
    older, meant = map(quoted, sentence(section, "The older names ").split(" are read as "))
    read_as = {name: re.sub("-?([a-z]+)", lambda it: it[1].capitalize(), name) for name in told}
    if {**read_as, **{old: read_as.get(new) for old, new in zip(older, meant)}} != names or len(older) != len(meant):
        yield f"the stages are {sorted(names)} in Stages.antt"
    served = [re.search(rf'^{word} = codes "([^"]*)"$', languages, re.MULTILINE)[1] for word in re.findall(r"bytes_eq word (\w+)", languages)]
    if sorted(quoted(sentence(section, "The languages are "))) != sorted(served):
        yield f"the languages are {served} in Languages.antt"
    truths = quoted(sentence(section, "A \\*truth\\* is "))
    if sorted([*listed(kinds, "true_words"), *listed(kinds, "false_words")]) != sorted(form for it in truths for form in [it, it.capitalize(), it.upper()]):
        yield f"the truths {truths} aren't those of Kinds.antt"


def rows_of_code(name):
    """The rows of a table of tags, from its constant."""
    body = re.search(rf"pub static {name}: .*?= \[\n(.*?)\n\];", read("crates", "file_tags", "src", "tables.rt"), re.DOTALL)[1]
    return [(name, re.findall(r'"([^"]+)"', tags)) for name, tags in re.findall(r'\(\s*"([^"]+)",\s*&\[(.*?)\],?\s*\)', body, re.DOTALL)]


def wrong_tags(reference):
    """How the tables of tags differ from the code's."""
    for head, constant in TAG_TABLES.items():
        told = [(row[0].strip("`"), row[1].split(", ")) for rows in tables(reference) if rows[0] == [head, "tags"] for row in rows[2:]]
        code = rows_of_code(constant)
        if not code:
            yield f"{constant} has no rows"
        for row in [*(it for it in told if it not in code), *(it for it in code if it not in told)]:
            yield f"the row of {row[0]!r} in {constant} differs"


def wrong_tag_words():
    """How the tags that explain accepts differ from those that the tables give and those that each file has."""
    body = re.search(r"fn tag_words\(\).*?\n}\n", read("crates", "configuration_explain", "src", "known_words.rt"), re.DOTALL)[0]
    known, given = re.findall(r'"([^"]+)"', body), {tag for constant in TAG_TABLES.values() for _, tags in rows_of_code(constant) for tag in tags}
    for tag in {*known} ^ {*given, *TAGS_OF_ALL}:
        yield f"the tag {tag} isn't in both of tables.rt and tag_words"


def defined(text):
    """The words that a file of specs/ defines, and the types of the code that it uses."""
    # The content of a block is read as if it were outside of it.
    text = re.sub(r"^(?:(?:\w+ )*mutual|module .* where)\n((?:(?:  .*)?\n)+)", lambda it: re.sub("^  ", "", it[1], flags=re.MULTILINE), text, flags=re.MULTILINE)
    found = re.findall(r"^(?:\w+ )*pub (?:\w+ )*([^\s:({]+)", text, re.MULTILINE)
    uses = re.findall(r"^use Rattle\.\w+\.specs\.declared\.[^{\n]*\{([^}]*)\}", text, re.MULTILINE)
    return {*found} | {word for use in uses for word in re.findall(r"\w+", use)}


def is_aside(path):
    """Whether a file says in its first lines that it is only for private functions or laws."""
    head = re.match(r"(?:--.*\n)*", read(path))[0]
    return re.search(r"private (functions|fields)|inner calls|\blaws?\b", head, re.IGNORECASE)


def wrong_words(crates, rows, named):
    """What is wrong in a table of words of these crates. The files that it names are added to those that are named."""
    for row in rows[2:]:
        words, files = quoted(row[0]), row[1].split(", ")
        if trait := re.match(r"the trait `(\w+)`$", row[1]):
            texts = [text for crate in crates for _, text in sources(f"crates/{crate}/src", ".rt") if f"\npub trait {trait[1]} " in text]
            known = {word for text in texts for word in re.findall(r"^    ghost (\w+): ", text, re.MULTILINE)}
        else:
            paths = [path for crate in crates for name in files if os.path.isfile(os.path.join(TOP, path := f"crates/{crate}/specs/{name}.antt"))]
            if missing := [name for name in files if not any(path.endswith(f"/{name}.antt") for path in paths)]:
                yield f"{', '.join(missing)} is no file of specs/ of {', '.join(crates)}"
            named.update(paths)
            known = {word for path in paths for word in defined(read(path))}
        for word in words:
            if word not in known:
                yield f"{word} isn't defined in {row[1]} of {', '.join(crates)}"


def wrong_laws(rows):
    """How a table of laws differs from the laws of the crates that it names."""
    told = {(row[1], law) for row in rows[2:] for law in quoted(row[0])}
    for crate in sorted({row[1] for row in rows[2:]}):
        laws = {(crate, law) for law in re.findall(r"^pub fn (\w+)", read("crates", crate, "src", "laws.rt"), re.MULTILINE)}
        for _, law in sorted(laws ^ {it for it in told if it[0] == crate}):
            yield f"the law {law} of {crate} stands {'in no table' if (crate, law) in laws else 'in a table alone'}"


def wrong_definitions(text):
    """How the definitions' document differs from the files of specs/."""
    named, told = set(), {}
    for title, section in re.findall(r"^## (.*)\n((?:(?!## ).*\n?)*)", text, re.MULTILINE):
        crates = re.findall(r"`(\w+)/specs`", title)
        if not crates:
            yield f"the heading {title!r} names no crate"
        for crate in crates:
            told[crate] = told.get(crate, "") + re.sub(r"^\|.*\n?", "", section, flags=re.MULTILINE)
        for rows in tables(section):
            if rows[0][:2] == ["word", "file"]:
                yield from wrong_words(crates, rows, named)
            elif rows[0][:2] == ["law", "crate"]:
                yield from wrong_laws(rows)
            else:
                yield f"a table below {title!r} is of neither words nor laws"
    for path, _ in sources("crates", ".antt"):
        _, crate, part, file = (path.split(os.sep) + [""])[:4]
        name = file[:-len(".antt")]
        if part != "specs" or name == "Lib" or name.endswith("Lemmas") or path in named:
            continue
        if not is_aside(path) or not re.search(rf"\b{name}\b", told.get(crate, "")):
            yield f"{path} stands in no table of its crate's sections"


def wrong_version():
    """Which documents don't name the logic that `--version` prints."""
    logic = re.search(r"logic (\w+)", read("crates", "command_line", "src", "version.rt"))[1]
    for path in OF_THE_LOGIC:
        if logic not in read(*path):
            yield f"{'/'.join(path)} doesn't name the logic {logic}"


def main():
    reference, definitions = read("docs", "REFERENCE.md"), read("docs", "DEFINITIONS.md")
    wrong = [f"docs/REFERENCE.md: {each}" for each in [
        *wrong_refusals(reference), *wrong_help(reference), *wrong_repository_help(reference), *wrong_widths(), *wrong_limits(reference),
        *wrong_configuration(reference), *wrong_tags(reference),
    ]]
    wrong += [f"docs/DEFINITIONS.md: {each}" for each in wrong_definitions(definitions)]
    wrong += [f"crates/configuration_explain: {each}" for each in wrong_tag_words()]
    wrong += wrong_version()
    for each in wrong:
        print(f"FAILED {each}")
    kinds = refusals_of_code()
    rows = sum(len(rows_of_code(constant)) for constant in TAG_TABLES.values())
    words = len(re.findall(r"^\| `", definitions, re.MULTILINE))
    refusals = sum(map(len, kinds.values()))
    print(f"reference: {refusals} refusals of {len(kinds)} kinds, {len(LIMITS)} limits, {rows} rows of tags and {words} rows of definitions compared")
    print(f"reference: {max(0, refusals + len(LIMITS) + rows + words - len(wrong))} passed, {len(wrong)} failed")
    sys.exit(1 if wrong or not kinds or not words else 0)


main()
