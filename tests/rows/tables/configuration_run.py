"""What no contract of configuration_run says: how a run treats its reader and its writer, and what each refusal is shown as. Also that
reports and checks are those that a user expects."""

PROGRAM = "hook_trial"

# A configuration of one hook, `names`.
NAMES = """\
repos:
- repo: local
  hooks:
  - id: names
    name: Check names
    language: fail
    entry: no such names
"""

# What a run of it writes if there are no files.
SKIPPED = "Check names..........................................(no files to check)Skipped\n"

# What a run of it writes if no file is named.
FAILED_ALONE = """\
Check names..............................................................Failed
- hook id: names
- exit code: 1

no such names

"""

# What a run of it writes over the file `bad.txt`.
FAILED = """\
Check names..............................................................Failed
- hook id: names
- exit code: 1

no such names

bad.txt

"""

# The report of a whole run: the configuration, the paths of files without bytes, whether it passed, and the report.
REPORTS = [
    # There is no hook.
    ("repos: []\n", "passed\n"),
    # No file is selected.
    (NAMES, f"passed\n{SKIPPED}"),
    # One file is.
    (NAMES, "bad.txt", f"failed\n{FAILED}"),
    # Files are named in the order of their paths.
    (
        NAMES,
        "b/c",
        "a",
        "failed\nCheck names..............................................................Failed\n- hook id: names\n- exit code: 1\n\nno such names\n\na\nb/c\n\n",
    ),
    # A hook that always runs, without files.
    (f"{NAMES}    always_run: true\n", f"failed\n{FAILED_ALONE}"),
    # A hook that is given no names.
    (f"{NAMES}    pass_filenames: false\n", "bad.txt", f"failed\n{FAILED_ALONE}"),
    # The configuration stops after the first hook that failed.
    (
        f"fail_fast: true\n{NAMES}  - id: names\n    name: Check names\n    language: fail\n    entry: no such names\n",
        "bad.txt",
        f"failed\n{FAILED}",
    ),
    # A skipped hook prints its details if it is verbose, and does not stop.
    (
        f"{NAMES}    verbose: true\n    fail_fast: true\n  - id: last\n    name: Last\n    language: fail\n    entry: never\n",
        "passed\n"
        "Check names..........................................(no files to check)Skipped\n"
        "- hook id: names\n"
        "Last.................................................(no files to check)Skipped\n",
    ),
]

# A configuration's hooks come after the default stages.
REPOSITORY = "repos:\n- repo: local\n  hooks:\n"
HOOK = "  - id: names\n    name: Check names\n    language: fail\n    entry: no such names\n"

# A hook of another stage, whose name has 60 columns, more than fit 80 columns with the dots.
OTHER_STAGE = """\
  - id: wide
    name: 123456789012345678901234567890123456789012345678901234567890
    language: fail
    entry: e
    always_run: true
    verbose: true
    fail_fast: true
    stages:
    - push
"""

# Runs over `bad.txt` go through the hooks of their stage alone.
STAGES = [
    # Default stages other than the run's, before and after the only hook.
    *((f"default_stages:\n- {stage}\n{REPOSITORY}{HOOK}", "passed\n") for stage in ["push", "pre-push", "manual"]),
    *((f"{REPOSITORY}{HOOK}default_stages:\n- {stage}\n", "passed\n") for stage in ["push", "pre-push", "manual"]),
    # One hook has the run's stage of its own, or by default, and the other is of another stage.
    *(
        (f"default_stages:\n- push\n{REPOSITORY}{HOOK}    stages:\n    - manual\n    - {stage}\n{HOOK}", f"failed\n{FAILED}")
        for stage in ["commit", "pre-commit"]
    ),
    *(
        (f"default_stages:\n- {stage}\n{REPOSITORY}{HOOK}{HOOK}    stages:\n    - push\n", f"failed\n{FAILED}")
        for stage in ["commit", "pre-commit"]
    ),
    # A hook of another stage is ignored.
    (f"{REPOSITORY}{OTHER_STAGE}{HOOK}", f"failed\n{FAILED}"),
]

# Texts that are no configurations: nothing is written.
REFUSED = [
    ("", "kind: Shape, at: 0"),
    ("- a\n", "kind: Shape, at: 0"),
    ("repos:\n", "kind: Shape, at: 0"),
    ("repos:\n- repo: meta\n  hooks:\n", "kind: RemoteRepo, at: 0"),
    ("a: 1\na: 2\n", "kind: Yaml(YamlFault { kind: DoubledKey, line: 2 }), at: 2"),
]

# A configuration after empty lines, of 1,048,576 bytes together.
LONGEST = "\n" * 1048466 + NAMES

# A read of one byte more than a configuration may have, which are line feeds.
TOO_LARGE = "refused Config(ConfigFault { kind: Yaml(YamlFault { kind: TooLarge, line: 1 }), at: 1 }), 0 calls of the writer"

READS = [
    # A reader that fails is refused, and nothing is written.
    ("try_failing_reader", "1", NAMES, "bad.txt", "refused Read, 0 calls of the writer\n"),
    ("try_failing_reader", "2", NAMES, "bad.txt", "refused Read, 0 calls of the writer\n"),
    # A read without bytes ends the configuration.
    ("try_texts", NAMES, "", "repos: [", f"passed, 2 calls of the reader\n{SKIPPED}"),
    # A first read without bytes is an empty configuration.
    ("try_texts", "", NAMES, "refused Config(ConfigFault { kind: Shape, at: 0 }), 0 calls of the writer, 1 calls of the reader\n"),
    # A reader is read one byte past the limit.
    ("try_left", "\n" * 1048577, f"{TOO_LARGE}, 0 bytes left\n"),
    ("try_left", "\n" * 1060000, f"{TOO_LARGE}, 11423 bytes left\n"),
    # A configuration of the greatest length is read.
    ("try_left", LONGEST, f"passed, 0 bytes left\n{SKIPPED}"),
    ("most_configuration_bytes", "1048576"),
]

# A run calls its writer five times, and a writer that fails ends the run at that call.
WRITES = [
    ("try_failing_writer", "1", NAMES, "bad.txt", "refused Write, 1 calls of the writer\n"),
    ("try_failing_writer", "2", NAMES, "bad.txt", f"refused Write, 2 calls of the writer\n{FAILED[:40]}"),
    ("try_failing_writer", "3", NAMES, "bad.txt", f"refused Write, 3 calls of the writer\n{FAILED[:80]}"),
    ("try_failing_writer", "4", NAMES, "bad.txt", f"refused Write, 4 calls of the writer\n{FAILED[:120]}"),
    ("try_failing_writer", "5", NAMES, "bad.txt", f"refused Write, 5 calls of the writer\n{FAILED}"),
    ("try_failing_writer", "6", NAMES, "bad.txt", f"failed\n{FAILED}"),
    # The whole report is flushed.
    ("try_flushed", NAMES, "bad.txt", f"failed\n{FAILED}"),
]

# The refusals of a run: the name of each in the program, its number, its name and its text.
FAULTS = [
    ("read", "1 Read: the configuration cannot be read to its end"),
    ("configuration", "2 Config: the configuration is refused: a value is of the wrong kind"),
    ("write", "3 Write: the report cannot be written"),
    ("out of memory", "4 OutOfMemory: out of memory"),
    ("spent", "5 Spent: no more children can be counted"),
]

# Configurations, and what a check prints of them.
CHECKS = [
    (
        "x: 1\nrepos:\n- repo: local\n  hooks:\n  - id: a\n    name: A\n    language: fail\n    entry: e\n    foo: 2\n    description: d\n",
        "hooks: 1\nignored key: x\nignored key: foo\n",
    ),
    (
        "repos:\n- repo: local\n  hooks:\n  - id: a\n    name: A\n    language: fail\n    entry: e\n  - id: b\n    name: B\n    language: fail\n    entry: e\n",
        "hooks: 2\n",
    ),
    (
        "repos:\n- rev: 1\n  repo: local\n  hooks:\n  - id: a\n    name: A\n    language: fail\n    entry: e\nrev: 2\n",
        "hooks: 1\nignored key: rev\nignored key: rev\n",
    ),
]

ROWS = [
    *(("try_over", *case) for case in REPORTS),
    *(("try_over", configuration, "bad.txt", said) for configuration, said in STAGES),
    *(("try_over", text, "bad.txt", f"refused Config(ConfigFault {{ {said} }}), 0 calls of the writer\n") for text, said in REFUSED),
    *READS,
    *WRITES,
    *(("try_fault", *case) for case in FAULTS),
    *(("check_text", *case) for case in CHECKS),
]
