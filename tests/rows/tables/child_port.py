"""Children that answer by a table.

The arguments of `children` are the rows of the table and the children that are asked for, with `|` between their parts:

    row|WORDS|PATH|BYTES|STATUS|OUTPUT|CHANGE    ask|WORDS|PATH|BYTES

A child has seen a plain file of this path and these bytes. A change, if there is one, is a path, and after a blank the bytes unless
the file is gone. The answer has what each child gave, in the order of asking, whether its copy is equal, and how many calls and
faults were counted.
"""

PROGRAM = "yaml_trial"

ROWS = [
    # A table answers by words and seen files.
    (
        "children",
        "row|trim|a.txt|x \n|0|trimmed\n|",
        "row|trim|a.txt|x\n|3||",
        "ask|trim|a.txt|x\n",
        "ask|trim|a.txt|x \n",
        "done 3  true;done 0 trimmed\n true;calls 2 faults 0",
    ),
    # The first of two rows answers, with its change.
    (
        "children",
        "row|trim -a|a|1|255|out|a 2",
        "row|trim -a|a|1|0||",
        "row|trim|a|1|1||a",
        "ask|trim -a|a|1",
        "ask|trim|a|1",
        "ask|trim -a|b|1",
        "done 255 out a=2 true;done 1  a gone true;failed NotStarted true;calls 3 faults 1",
    ),
    # A child without a row is a fault and a call.
    ("children", "ask|trim|a.txt|x\n", "failed NotStarted true;calls 1 faults 1"),
    ("children", "calls 0 faults 0"),
]
