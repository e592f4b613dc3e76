"""The texts of refusals that no other table shows, each after its number: those of words (arg_partition), of a book (result_book) and of a
host (commit_flow). This program doesn't print them: they are for callers of the libraries. The call is

fault_texts"""

PROGRAM = "hook_trial"

# The refusals in the order of their numbers, and what one says that hands on another's.
WORDS = ["a quote is open at the end", "a backslash at the end escapes nothing", "out of memory"]
BOOK = ["out of memory", "the store refuses: more commits, staged files or paths than a store takes"]
HOST = [
    "out of memory",
    "the store refuses: the store is damaged",
    "the path is empty",
    "the path is not staged",
    "a file or a message of more than 16 MiB",
    "more commits, staged files or paths than a store takes",
    "no configuration is staged",
    "the configuration is refused: a value is of the wrong kind",
    "no hook of the stage has that id or alias",
    "nothing is staged that is not committed",
    "there are no fixes",
    "the message is empty",
    "other contents have the same digest",
    "no more children can be counted",
    "a staged path is a folder of the path, or lies in it",
]

ROWS = [("fault_texts", "".join(f"{number} {text}\n" for texts in (WORDS, BOOK, HOST) for number, text in enumerate(texts, 1)))]
