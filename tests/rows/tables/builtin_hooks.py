"""Rows of `builtin_hooks`, as `tests/rows/rows.py` plays them.

fail_answer ENTRY PATH..                           the status, a line end, and the output
grep_build ENTRY ARGS                              `built`, or the refusal's number and name
grep_answer ENTRY ARGS PATHS (PATH CONTENTS)..     the same as `fail_answer`, over a tree of these files, or the refusal

ARGS and PATHS are parted by line ends.
"""
PROGRAM = "selection_trial"

P = ("p.txt", "p.txt")
TODO = "one TODO\r\ntwo\nTODO three"

LONG = ["a" * 5_000, "a" * 60_000, "|".join(f"w{number}" for number in range(1_000)), "[ab]" * 15_000, "(?x)" + " " * 60_000]

ROWS = [
    # fail: the entry, an empty line, the names a line each
    ("fail_answer", "no such names", "bad.txt", "1\nno such names\n\nbad.txt\n"),
    ("fail_answer", "no such names", "a", "b/c", "d", "1\nno such names\n\na\nb/c\nd\n"),
    ("fail_answer", "no such names", "1\nno such names\n\n\n"),
    ("fail_answer", "", "1\n\n\n\n"),
    ("fail_answer", "ends\n", "a", "1\nends\n\n\na\n"),

    # build: which arguments are known, and which entries are patterns
    ("grep_build", "TODO", "", "built"),
    ("grep_build", "", "", "built"),
    ("grep_build", "TODO", "-i", "built"),
    ("grep_build", "TODO", "--ignore-case", "built"),
    ("grep_build", "TODO", "--multiline", "built"),
    ("grep_build", "TODO", "--negate", "built"),
    ("grep_build", "TODO", "--negate\n-i\n--multiline\n--negate\n--ignore-case", "built"),
    ("grep_build", "TODO", "-v", "2 BadArg"),
    ("grep_build", "TODO", "-i\n-v", "2 BadArg"),
    ("grep_build", "TODO", "--multi-line", "2 BadArg"),
    ("grep_build", "TODO", "--multi", "2 BadArg"),
    ("grep_build", "TODO", "-I", "2 BadArg"),
    ("grep_build", "TODO", "i", "2 BadArg"),
    ("grep_build", "TODO", " -i", "2 BadArg"),
    ("grep_build", "TODO", "-i\n", "2 BadArg"),
    ("grep_build", "(?=a)", "", "1 NotAPattern"),
    ("grep_build", "(", "", "1 NotAPattern"),
    ("grep_build", "[a", "-i", "1 NotAPattern"),
    ("grep_build", r"(a)\1", "", "1 NotAPattern"),
    ("grep_build", "(", "-v", "2 BadArg"),
    ("grep_build", "(?-u)\\xff", "", "built"),
    # a long entry is a pattern too: a name, names one after another, classes
    *(("grep_build", long, args, "built") for long in LONG for args in ["", "-i"]),
    ("grep_answer", "(", "", *P, "a", "1 NotAPattern"),

    # by line: path, number, line
    ("grep_answer", "TODO", "", *P, TODO, "1\np.txt:1:one TODO\np.txt:3:TODO three\n"),
    ("grep_answer", "none", "", *P, TODO, "0\n"),
    ("grep_answer", "a", "", *P, "", "0\n"),
    ("grep_answer", "", "", *P, "", "0\n"),
    ("grep_answer", "^$", "", *P, "", "0\n"),
    ("grep_answer", "", "", *P, "\n", "1\np.txt:1:\n"),
    ("grep_answer", "", "", *P, "a", "1\np.txt:1:a\n"),
    ("grep_answer", "", "", *P, "a\n", "1\np.txt:1:a\n"),
    ("grep_answer", "", "", *P, "a\n\n", "1\np.txt:1:a\np.txt:2:\n"),
    ("grep_answer", "^$", "", *P, "a\n\nb\n\n", "1\np.txt:2:\np.txt:4:\n"),
    ("grep_answer", "b", "", *P, "a\nb", "1\np.txt:2:b\n"),
    ("grep_answer", "b", "", *P, "a\nb\n", "1\np.txt:2:b\n"),
    ("grep_answer", "b", "", *P, "\n\n\n\n\n\n\n\n\nb", "1\np.txt:10:b\n"),
    ("grep_answer", "a", "", *P, "aa a\n", "1\np.txt:1:aa a\n"),
    # a line is searched with its carriage returns and without its line feed
    ("grep_answer", "x$", "", *P, "x\r\nx\n", "1\np.txt:2:x\n"),
    ("grep_answer", r"x\r$", "", *P, "x\r\nx\n", "1\np.txt:1:x\n"),
    ("grep_answer", r"\n", "", *P, "x\ny\n", "0\n"),
    ("grep_answer", r"x\s", "", *P, "x\ny\n", "0\n"),
    ("grep_answer", "x.y", "", *P, "x\ny\n", "0\n"),
    ("grep_answer", "^y", "", *P, "x\ny\n", "1\np.txt:2:y\n"),
    ("grep_answer", r"\Ay", "", *P, "x\ny\n", "1\np.txt:2:y\n"),
    # trailing carriage returns aren't printed, inner ones are
    ("grep_answer", "x", "", *P, "x\r\r\n", "1\np.txt:1:x\n"),
    ("grep_answer", "x", "", *P, "x\r\ry\r\n", "1\np.txt:1:x\r\ry\n"),
    ("grep_answer", "x", "", *P, "x \r\n", "1\np.txt:1:x \n"),
    ("grep_answer", r"\r", "", *P, "\r\n", "1\np.txt:1:\n"),
    ("grep_answer", "x", "", *P, "x\r", "1\np.txt:1:x\n"),
    # letters in either case
    ("grep_answer", "todo", "", *P, TODO, "0\n"),
    ("grep_answer", "todo", "-i", *P, TODO, "1\np.txt:1:one TODO\np.txt:3:TODO three\n"),
    ("grep_answer", "todo", "--ignore-case", *P, TODO, "1\np.txt:1:one TODO\np.txt:3:TODO three\n"),
    ("grep_answer", "(?i)todo", "", *P, TODO, "1\np.txt:1:one TODO\np.txt:3:TODO three\n"),
    # bytes that are no UTF-8 are searched and printed as they are
    ("grep_answer", "x", "", *P, b"\xff\xfex\xff\n", b"1\np.txt:1:\xff\xfex\xff\n"),
    ("grep_answer", r"(?-u)\xff", "", *P, b"a\n\xff\n", b"1\np.txt:2:\xff\n"),
    ("grep_answer", "^.x", "", *P, b"\xffx\n", "0\n"),
    ("grep_answer", "(?-u)^.x", "", *P, b"\xffx\n", b"1\np.txt:1:\xffx\n"),
    ("grep_answer", "^.$", "", *P, "\u00e9\n", "1\np.txt:1:\u00e9\n"),
    ("grep_answer", "a\0b", "", *P, b"a\0b\n", b"1\np.txt:1:a\0b\n"),
    # files: in the order in which they are named, each as often; one that the tree lacks is skipped
    ("grep_answer", "a", "", "q\np.txt", "p.txt", "a\n", "q", "ba\n", "1\nq:1:ba\np.txt:1:a\n"),
    ("grep_answer", "a", "", "p.txt\np.txt", "p.txt", "a\n", "1\np.txt:1:a\np.txt:1:a\n"),
    ("grep_answer", "a", "", "p.txt", "p.txt", "b\n", "q", "a\n", "0\n"),
    ("grep_answer", "a", "", "", "p.txt", "a\n", "0\n"),
    ("grep_answer", "a", "", "lost", "p.txt", "a\n", "0\n"),
    ("grep_answer", "a", "--negate", "lost", "p.txt", "a\n", "0\n"),
    ("grep_answer", "a", "", "a:1/b", "a:1/b", "a", "1\na:1/b:1:a\n"),

    # a whole file: the line in which the first match begins, and the match from its first line feed on
    ("grep_answer", "two.TODO", "--multiline", *P, TODO, "1\np.txt:2:two\nTODO\n"),
    ("grep_answer", "two.TODO", "", *P, TODO, "0\n"),
    ("grep_answer", "TODO", "--multiline", *P, TODO, "1\np.txt:1:one TODO\r\n"),
    ("grep_answer", "x", "--multiline", *P, "a\nx\nx\n", "1\np.txt:2:x\n"),
    ("grep_answer", "b.c", "--multiline", *P, "ab\ncd\n", "1\np.txt:1:ab\nc\n"),
    ("grep_answer", "b.*d", "--multiline", *P, "a\n--b--\nc\nd--\n", "1\np.txt:2:--b--\nc\nd\n"),
    # one line feed is added if the match ends with one
    ("grep_answer", r"a\n", "--multiline", *P, "xa\ny", "1\np.txt:1:xa\n\n"),
    # a match that begins at a line feed begins in the line that it ends
    ("grep_answer", r"\ny", "--multiline", *P, "x\ny\n", "1\np.txt:1:x\ny\n"),
    ("grep_answer", r"\n", "--multiline", *P, "\n", "1\np.txt:1:\n\n"),
    ("grep_answer", r"\n\n", "--multiline", *P, "a\n\n\n", "1\np.txt:1:a\n\n\n"),
    # ends of lines and of the file
    ("grep_answer", "^b$", "--multiline", *P, "a\nb\nc", "1\np.txt:2:b\n"),
    ("grep_answer", r"\Ab", "--multiline", *P, "a\nb", "0\n"),
    ("grep_answer", "$", "--multiline", *P, "ab\nc", "1\np.txt:1:ab\n"),
    ("grep_answer", r"\z", "--multiline", *P, "a\n", "1\np.txt:2:\n"),
    ("grep_answer", r"\z", "--multiline", *P, "a\nb", "1\np.txt:2:b\n"),
    ("grep_answer", r"\z", "--multiline", *P, "\n\n", "1\np.txt:3:\n"),
    ("grep_answer", "^", "--multiline", *P, "", "1\np.txt:1:\n"),
    ("grep_answer", "^$", "--multiline", *P, "", "1\np.txt:1:\n"),
    ("grep_answer", "a", "--multiline", *P, "", "0\n"),
    ("grep_answer", "^$", "--multiline", *P, "a\n", "1\np.txt:2:\n"),
    ("grep_answer", "b.TODO", "--multiline\n-i", *P, "aB\ntodo", "1\np.txt:1:aB\ntodo\n"),
    ("grep_answer", "x.y", "--multiline", *P, "x\r\ny", "0\n"),
    ("grep_answer", "x..y", "--multiline", *P, "x\r\ny", "1\np.txt:1:x\r\ny\n"),
    ("grep_answer", "(?s-u:x.)", "--multiline", *P, b"\xffx\xff", b"1\np.txt:1:\xffx\xff\n"),

    # the files without a match
    ("grep_answer", "TODO", "--negate", *P, TODO, "0\n"),
    ("grep_answer", "TODO", "--negate", "q.txt", "q.txt", "x\n", "1\nq.txt\n"),
    ("grep_answer", "TODO", "--negate", "p.txt\nq.txt", "p.txt", TODO, "q.txt", "x\n", "1\nq.txt\n"),
    ("grep_answer", "^$", "--negate", *P, "", "1\np.txt\n"),
    ("grep_answer", "^$", "--negate\n--multiline", *P, "", "0\n"),
    ("grep_answer", "x.y", "--negate", *P, "x\ny\n", "1\np.txt\n"),
    ("grep_answer", "x.y", "--negate\n--multiline", *P, "x\ny\n", "0\n"),
    ("grep_answer", "x.z", "--negate\n--multiline", *P, "x\ny\n", "1\np.txt\n"),
    ("grep_answer", "", "--negate", *P, "\n", "0\n"),
    ("grep_answer", "todo", "--negate\n-i", *P, TODO, "0\n"),
]
