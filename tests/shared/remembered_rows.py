"""The configurations, the children and the reports that the tables of cached answers share, hook_run_remembered and
commit_flow_remembered."""


# ---- configurations and children

def hook(name, entry, more=r"files: '\.txt$'", language="system"):
    """A hook's table. Its id is its name in small letters."""
    return f"  - {{id: {name.lower()}, name: {name}, language: {language}, entry: {entry}{', ' + more if more else ''}}}\n"


def hooks(*tables):
    return f"repos:\n- repo: local\n  hooks:\n{''.join(tables)}"


def answered(*words, seen=("a.txt=x",), status=0, changes="", output=""):
    """A row of the table: once a child of these words has seen these files, it answers so."""
    return "\n".join([f"answer {status}", "\t".join(words), "\t".join(seen), changes, output])


def child(*words, **how):
    return ("child", answered(*words, **how))


# ---- what is answered

def line(name, word):
    return f"{name}{'.' * (79 - len(name) - len(word))}{word}\n"


def details(name, *lines, output=""):
    """What a report says of a hook that failed so."""
    block = f"\n{output}\n" if output else ""
    return line(name, "Failed") + "".join(f"- {each}\n" for each in [f"hook id: {name.lower()}", *lines]) + block


MODIFIED = "files were modified by this hook"
T = hook("T", "c")
PASSED = line("T", "Passed")

# A child that takes the blank off a.txt, the same if there is none, and one that looks at it; and what their hooks report.
TRIM = child("trim", "a.txt", seen=["a.txt=x "], changes="a.txt=x")
TRIMMED, LOOK = child("trim", "a.txt"), child("look", "a.txt")
TRIMS = ("changed a.txt\n", details("Trim", MODIFIED), line("Look", "Passed"))
LOOKS = (line("Trim", "Passed"), line("Look", "Passed"))


def lint(number):
    """A child of a script with this number in it."""
    return child("sh", "tools/lint.sh", "a.txt", seen=["a.txt=x", f"tools/lint.sh={number}"])


# More answers than a reader would expect a book to make room for: each run sees another file.
MANY = 1_001
MANY_FILES = [f"{number}\n" for number in range(MANY)]
