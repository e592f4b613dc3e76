"""Remembered answers put into the closed store of a benchmark as rows, which takes less time than to play them."""
import sqlite3

from kept_answers import KeptAnswer, contents_of as contents_kept, digest, records_of

# How many answers a new store keeps at most, and the greatest limit that may be set.
FIRST_LIMIT, MOST_ANSWERS = 10_000, 100_000


def answer_to(words, files):
    """What a command answered that saw these files, each (path, mode, contents), found nothing and wrote nothing."""
    return KeptAnswer([word.encode() for word in words], files, [], 0)


def keys_of(answers):
    """The digests that are the key of each answer's row."""
    return [tuple(map(digest, records_of(answer)[:2])) for answer in answers]


def plant(path, answers, limit=FIRST_LIMIT, version=2):
    """Puts answers into a store that has none, so that the last one is in front in a store of version 2, which gets that limit."""
    blobs = {digest(each): each for answer in answers for each in contents_kept(answer)}
    rows = [(*map(digest, records_of(answer)), answer.status) for answer in answers]
    with sqlite3.connect(path) as held:
        held.executemany("INSERT OR IGNORE INTO blobs VALUES (?, ?)", blobs.items())
        held.executemany("INSERT INTO answers VALUES (?, ?, ?, ?, ?)", rows)
        if version == 2:
            held.executemany("INSERT INTO uses VALUES (?, ?, ?)", ((*row[:2], tick) for tick, row in enumerate(rows, 1)))
            held.execute("UPDATE meta SET value = ? WHERE name = 'limit'", (limit,))
    held.close()
