"""What report_text makes of a hook and of its outcome, and how wide a report is."""

PROGRAM = "run_trial"

WIDE = "日" * 60

# What a report says of a hook with the id `t`: the columns, the hook's name, whether it is verbose, how it ended, and its
# text.
HOOK_TEXTS = [
    # It passed.
    (
        ("80", "T", "", "ran", "0", "", "unseen"),
        "T........................................................................Passed\n",
    ),
    (
        ("80", "T", "verbose", "ran", "0", "", " \t\n\x0b\x0c\r"),
        "T........................................................................Passed\n- hook id: t\n",
    ),
    # Blanks are trimmed at both ends, and those between stay.
    (
        ("80", "T", "", "ran", "255", "", "\r\n one\n\ntwo \x0b\x0c\n"),
        "T........................................................................Failed\n- hook id: t\n- exit code: 255\n\none\n\ntwo\n\n",
    ),
    (
        ("80", "T", "", "ran", "0", "modified", ""),
        "T........................................................................Failed\n- hook id: t\n- files were modified by this hook\n",
    ),
    (
        ("80", "T", "", "ran", "3", "", "two\n", "signal"),
        "T........................................................................Failed\n"
        "- hook id: t\n- exit code: 3\n- fault: ended by a signal\n\ntwo\n\n",
    ),
    # Every fault has its line, in the order of the parts.
    (
        ("80", "T", "", "ran", "0", "modified", "", "not started", "wait failed", "output too long", "scratch failed", "misfit"),
        "T........................................................................Failed\n"
        "- hook id: t\n"
        "- fault: could not be started\n"
        "- fault: could not be waited for\n"
        "- fault: output is longer than 1048576 bytes\n"
        "- fault: files could not be written or read back\n"
        "- fault: a name does not fit the command\n"
        "- files were modified by this hook\n",
    ),
    # It was skipped.
    (
        ("80", "T", "", "asked"),
        "T.......................................................................Skipped\n",
    ),
    (
        ("80", "T", "verbose", "asked"),
        "T.......................................................................Skipped\n- hook id: t\n",
    ),
    (
        ("80", "T", "", "no files"),
        "T....................................................(no files to check)Skipped\n",
    ),
    # A wide name widens the report.
    (
        ("150", WIDE, "", "no files"),
        "日日日日日日日日日日日日日日日日日日日日日日日日日日日日日日日日日日日日日日日日日日日日日日日日日日日日日日日日日日日日...(no files to check)Skipped\n",
    ),
    (
        ("150", "A", "", "ran", "0", "", ""),
        "A..............................................................................................................................................Passed\n",
    ),
]

# The names of hooks, and the columns of their report.
COLUMNS = [
    ([], "80"),
    (["A"], "80"),
    (["A", WIDE, "B"], "150"),
]

ROWS = [
    *(("hook_text", *hook, said) for hook, said in HOOK_TEXTS),
    *(("columns", *names, said) for names, said in COLUMNS),
]
