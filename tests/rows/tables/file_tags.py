"""The tags of files and the words of first lines, and tags that are kept while a tree changes. Each row of tags asks for every
tag that is named here, so that none is given that isn't expected. The lists of names, extensions and interpreters are whole."""
import random

PROGRAM = "selection_trial"

# Extensions with the tags that they give.
EXTENSIONS = {
    "bash": "bash shell text",
    "c": "c text",
    "cc": "c++ text",
    "cpp": "c++ text",
    "cs": "c# text",
    "css": "css text",
    "csv": "csv text",
    "cxx": "c++ text",
    "exe": "binary",
    "gif": "binary gif image",
    "go": "go text",
    "gz": "binary gzip",
    "h": "c c++ header text",
    "hpp": "c++ header text",
    "htm": "html text",
    "html": "html text",
    "ico": "binary icon",
    "ini": "ini text",
    "jar": "binary jar zip",
    "java": "java text",
    "jpeg": "binary image jpeg",
    "jpg": "binary image jpeg",
    "js": "javascript text",
    "json": "json text",
    "jsx": "jsx text",
    "kt": "kotlin text",
    "lua": "lua text",
    "markdown": "markdown text",
    "md": "markdown text",
    "pdf": "binary pdf",
    "php": "php text",
    "pl": "perl text",
    "plist": "plist",
    "png": "binary image png",
    "proto": "proto text",
    "py": "python text",
    "pyi": "pyi text",
    "r": "r text",
    "rb": "ruby text",
    "rs": "rust text",
    "rst": "rst text",
    "scala": "scala text",
    "sh": "sh shell text",
    "so": "binary",
    "sql": "sql text",
    "swift": "swift text",
    "tex": "tex text",
    "tf": "terraform text",
    "toml": "toml text",
    "ts": "ts text",
    "tsx": "tsx text",
    "txt": "plain-text text",
    "vue": "vue text",
    "xml": "xml text",
    "yaml": "yaml text",
    "yml": "yaml text",
    "zip": "binary zip",
    "zsh": "shell zsh text",
}

# Names of files with the tags that they give.
NAMES = {
    ".bashrc": "bash shell text",
    ".editorconfig": "editorconfig text",
    ".gitattributes": "gitattributes text",
    ".gitignore": "gitignore text",
    "CMakeLists.txt": "cmake text",
    "Dockerfile": "dockerfile text",
    "GNUmakefile": "makefile text",
    "Gemfile": "ruby text",
    "Jenkinsfile": "groovy jenkins text",
    "LICENSE": "plain-text text",
    "Makefile": "makefile text",
    "README": "plain-text text",
    "Rakefile": "ruby text",
    "Vagrantfile": "ruby text",
    "go.mod": "go-mod text",
    "makefile": "makefile text",
}

# Interpreters with the tags that they give.
INTERPRETERS = {
    "awk": "awk",
    "bash": "bash shell",
    "dash": "dash shell",
    "ksh": "ksh shell",
    "node": "javascript",
    "nodejs": "javascript",
    "perl": "perl",
    "php": "php",
    "python": "python",
    "python2": "python python2",
    "python3": "python python3",
    "ruby": "ruby",
    "sh": "sh shell",
    "zsh": "shell zsh",
}

# Further tags to ask for: the two modes, and tags of `identify` that no row gives.
FURTHER = "binary directory executable file non-executable socket svg symlink text"

ALL = sorted({tag for tags in [*EXTENSIONS.values(), *NAMES.values(), *INTERPRETERS.values(), FURTHER] for tag in tags.split()})


def tags(mode, path, contents, expected):
    """A row: the file has these tags and `file`, and no other of all."""
    mode_tag = {"plain": "non-executable", "executable": "executable"}[mode]
    given = sorted({*expected.split(), "file", mode_tag})
    return ("tags_of", mode, path, contents, *ALL, "".join(f"{tag}\n" for tag in given))


def words(contents, *expected):
    """A row: the words of the first line."""
    return ("shebang", contents, "".join(f"{word}\n" for word in expected))


def script(line, expected):
    """A row: the tags of an executable file without a known name that begins with this line."""
    return tags("executable", "run", line, expected)


def follow(tree, changes, *expected):
    """A row: the tags that a tree's files have after changes. The program also compares each with `tags_of` of the file."""
    return ("follow", "".join(f"{line}\n" for line in tree), "".join(f"{line}\n" for line in changes), *ALL, "".join(f"{line}\n" for line in expected))


# A name's tags, from the table of names and, by what follows its last dot, from that of extensions.
def of_name(name):
    extension = name.rpartition(".")[2] if "." in name.lstrip(".") else ""
    return f"{NAMES[name]} {EXTENSIONS.get(extension, '')}"


# Names of files with the tags that they give. Then contents with the tags that they give if the name gives none: to an executable file,
# and to any.
PLAYED_NAMES = {"Makefile": "makefile text", "e": "", "run": "", "x.plist": "plist", "x.png": "binary image png", "x.py": "python text"}
PLAYED_CONTENTS = {"": ("", "text"), "x": ("", "text"), "\0": ("", "binary"), "#!/bin/sh": ("sh shell", "text"), "#!/usr/bin/env python3": ("python python3", "text"), "#!/bin/zsh \0": ("shell zsh", "binary")}
PLAYED_PATHS = [f"{folder}{name}" for folder in ["", "a/", "a-b/", "b/"] for name in PLAYED_NAMES]


def played_tags(path, mode, contents):
    """The line of a file: its path and its tags."""
    script, encoding = PLAYED_CONTENTS[contents]
    told = PLAYED_NAMES[path.rpartition("/")[2]].split() or (script.split() if mode == "x" else [])
    own = [] if {"text", "binary"} & {*told} else [encoding]
    return " ".join([path, *sorted({"file", "executable" if mode == "x" else "non-executable", *told, *own})])


def random_follow(source):
    """A row of a tree and changes: half of the lists of changes have each path once and in order, others any and repeated."""
    tree = {path: (source.choice("-x"), source.choice([*PLAYED_CONTENTS])) for path in source.sample(PLAYED_PATHS, source.randrange(13))}
    paths = source.choices(PLAYED_PATHS, k=source.randrange(9))
    if source.random() < 0.5:
        paths = sorted({*paths})
    changes = [(path, source.choice([None, *PLAYED_CONTENTS])) for path in paths]
    after = dict(tree)
    for path, contents in changes:
        if contents is None:
            after.pop(path, None)
        elif path in after:
            after[path] = (after[path][0], contents)
    return follow(
        [f"{mode} {path} {contents}" for path, (mode, contents) in tree.items()],
        [f"- {path}" if contents is None else f"+ {path} {contents}" for path, contents in changes],
        *(played_tags(path, *after[path]) for path in sorted(after)),
    )


SOURCE = random.Random(10)

ROWS = [
    # Every row of the tables. Neither the bytes nor the mode change what a name gives.
    *(tags("plain", f"dir/x.{extension}", b"\0", f"{given} binary" if extension == "plist" else given) for extension, given in EXTENSIONS.items()),
    *(tags("executable", f"x.{extension.upper()}", "#!/bin/dash\n", f"{given} text" if extension == "plist" else given) for extension, given in EXTENSIONS.items()),
    *(tags("plain", f"dir/{name}", b"\0", of_name(name)) for name in NAMES),
    *(tags("executable", name, "#!/bin/dash\n", of_name(name)) for name in NAMES),
    *(script(f"#!/usr/bin/{interpreter}\n", f"{given} text") for interpreter, given in INTERPRETERS.items()),
    *(script(f"#!/usr/bin/env {interpreter}.7.12 -x", f"{given} text") for interpreter, given in INTERPRETERS.items()),

    # Names, whole and in their pieces between dots, in order.
    tags("plain", "Dockerfile.xenial", "FROM x\n", "dockerfile text"),
    tags("plain", "xenial.Dockerfile", "", "dockerfile text"),
    tags("plain", "a/Dockerfile/b", "", "text"),
    tags("plain", "README.LICENSE.Makefile", "", "plain-text text"),
    tags("plain", "Makefile.README", "", "makefile text"),
    tags("plain", "x.go.mod", "", "text"),
    tags("plain", "x.Makefile.README", "", "makefile text"),
    tags("plain", "README.md", "", "plain-text markdown text"),
    tags("plain", "makefile.png", "", "makefile text binary image png"),
    tags("plain", "dockerfile", "", "text"),
    tags("plain", "MAKEFILE", "", "text"),
    tags("plain", "xMakefile", "", "text"),
    tags("plain", "CMakeLists", "", "text"),
    tags("plain", "bashrc", "", "text"),
    tags("plain", "x.bashrc", "", "text"),

    # Extensions: what follows the last dot that has another character somewhere before it.
    tags("plain", "X.PY", "", "python text"),
    tags("plain", "a.py.txt", "", "plain-text text"),
    tags("plain", "a.txt.py", "", "python text"),
    tags("plain", ".py", "", "text"),
    tags("plain", "...py", "", "text"),
    tags("plain", "..x.py", "", "python text"),
    tags("plain", ".x..py", "", "python text"),
    tags("plain", "x.py.", "", "text"),
    tags("plain", "x.", "", "text"),
    tags("plain", "py", "", "text"),
    tags("plain", "x.py/y", "", "text"),
    tags("plain", "x.pyc", "", "text"),
    tags("plain", "x.p", "", "text"),
    tags("plain", "x.svg", "", "text"),
    tags("plain", "x.\u212at", "", "text"),
    tags("plain", "x.\u00c9\u00c9.Md", "", "markdown text"),

    # The first line counts if the name gives nothing and the file is executable.
    script("#!/usr/bin/env python3.9\n", "python python3 text"),
    script("#!/usr/bin/env python3.9", "python python3 text"),
    script("#!/usr/bin/env -S python3 -u\n", "python python3 text"),
    script("#!/usr/bin/env -S\n", "text"),
    script("#!/usr/bin/env\n", "text"),
    script("#!/usr/bin/env -Snode\n", "text"),
    script("#!/usr/bin/env -S -S node\n", "text"),
    script("#!/usr/bin/env node -S\n", "javascript text"),
    script("#!/bin/env python3\n", "text"),
    script("#!/usr/bin/env /opt/bin/ruby2.7\n", "text"),
    script("#!/usr/bin/env /opt/bin/ruby.2.7\n", "ruby text"),
    script("#! \t /bin/sh \t -e\n", "sh shell text"),
    script("#!sh\n", "sh shell text"),
    script("#!/bin/sh\r\n", "sh shell text"),
    script("#!/bin/sh\r\r\n", "text"),
    script("#!/bin/\n", "text"),
    script("#!/bin/SH\n", "text"),
    script("#!/usr/bin/lua\n", "text"),
    script("#!/a.b/python\n", "python text"),
    script("#!python.3/x\n", "text"),
    script("#!python3.9.\n", "python python3 text"),
    script("#!.sh\n", "text"),
    script("#!\n", "text"),
    script("#!\n#!/bin/sh\n", "text"),
    script(" #!/bin/sh\n", "text"),
    script("#/bin/sh\n", "text"),
    script("!#/bin/sh\n", "text"),
    script("\n#!/bin/sh\n", "text"),
    script(b"#!/bin/sh\n\0", "sh shell binary"),
    script(b"#!/bin/sh\xff\n", "text"),
    tags("executable", "x.plist", "#!/bin/sh\n", "plist text"),
    tags("executable", "x.so", "#!/bin/sh\n", "binary"),
    tags("executable", "x.unknown", "#!/bin/sh\n", "sh shell text"),
    tags("plain", "run", "#!/usr/bin/env python3.9\n", "text"),

    # Text or binary by the first 1,024 bytes.
    tags("plain", "e", "", "text"),
    tags("plain", "e", b"\0", "binary"),
    *(tags("plain", "e", bytes([byte]), "text" if byte in {*range(7, 14), 27, *range(32, 127), *range(128, 256)} else "binary") for byte in range(256)),
    tags("plain", "e", b"x" * 1023 + b"\0", "binary"),
    tags("plain", "e", b"x" * 1024 + b"\0", "text"),
    tags("plain", "x.plist", b"bplist00\0", "plist binary"),
    tags("plain", "x.plist", "<plist>", "plist text"),

    # The words of the first line.
    words("#!/usr/bin/env python3.9\n", "/usr/bin/env", "python3.9"),
    words("#!/bin/sh -e\n", "/bin/sh", "-e"),
    words("#!/bin/sh", "/bin/sh"),
    words("#! \t/bin/sh\t \t-e  \n-x", "/bin/sh", "-e"),
    words("#!\t\n"),
    words("#!"),
    words("#"),
    words(""),
    words("!#/bin/sh"),
    words(" #!/bin/sh"),
    words("#!a\r\n", "a"),
    words("#!a\r", "a"),
    words("#!a\r\r\n", "a\r"),
    words("#!a\rb\n", "a\rb"),
    words("#!\r\n"),
    words("#!a \r\n", "a"),
    words("#!'a b' \"c\"\n", "'a", "b'", "\"c\""),
    words("#!a\x0b\x0cb\u00a0c\n", "a\x0b\x0cb\u00a0c"),
    words("#!\u00e9 \u65e5\n", "\u00e9", "\u65e5"),
    words(b"#!a\xff\nb"),
    words(b"#!a\n\xff", "a"),
    words(b"#!" + b"a" * 1024 + b"\n", "a" * 1024),
    words(b"#!" + b"a" * 1024, "a" * 1024),
    words(b"#!" + b"a" * 1025 + b"\n"),
    words(b"#!" + b"a" * 1023 + b"\r\n", "a" * 1023),
    words(b"#!" + b"a" * 1024 + b"\r\n"),
    words(b"#!a\n" + b"a" * 2000, "a"),
    ("most_shebang_bytes", "1024"),

    # Tags that are kept while a tree changes.
    follow(["- e x"], [], "e file non-executable text"),
    follow(["- e x"], ["+ e \0"], "e binary file non-executable"),
    follow(["- e \0"], ["+ e x"], "e file non-executable text"),
    follow(["- e x"], ["- e"]),
    follow([], ["+ e x"]),
    follow([], []),
    follow(["x e x"], ["+ e #!/bin/sh"], "e executable file sh shell text"),
    follow(["x e #!/bin/sh"], ["+ e x"], "e executable file text"),
    # a file that isn't there, a file that is gone and written again, a file that is written twice
    follow(["- e x"], ["+ d \0", "- f"], "e file non-executable text"),
    follow(["- e x", "- f x"], ["- e", "+ e \0"], "f file non-executable text"),
    follow(["- e x", "- f x"], ["+ e \0", "+ e x", "+ e \0"], "e binary file non-executable", "f file non-executable text"),
    # changes in order, out of order, and of the first and the last file alone
    follow(["- a x", "- b x", "- c x", "- d x"], ["+ a \0", "- b", "+ d \0"], "a binary file non-executable", "c file non-executable text", "d binary file non-executable"),
    follow(["- a x", "- b x", "- c x", "- d x"], ["+ d \0", "- b", "+ a \0"], "a binary file non-executable", "c file non-executable text", "d binary file non-executable"),
    follow(["- a x", "- b \0", "- c x"], ["- a"], "b binary file non-executable", "c file non-executable text"),
    follow(["- a x", "- b \0", "- c x"], ["- c"], "a file non-executable text", "b binary file non-executable"),
    *(random_follow(SOURCE) for _row in range(1_000)),
]
