"""Compares the book of a store with the model of tests/shared/list_book.py: for tests/host/host.py, and for
tests/plays/process_plays.py and tests/plays/long_runs.py, whose children are tests/plays/play_child.c.

Such a child prints a digest of its words and of the files that it has seen. Here it is computed again from the contents that a use of
the store names, so the uses show which child's answer is the first, which the second, and so on.
"""
import collections
import struct

from host_program import check
from list_book import ListBook

# The limit, and the keys of the answers that are cached, the most recently used first.
Book = collections.namedtuple("Book", "limit keys")
# The kinds of what lies in a folder, as a child reports them.
FILE, FOLDER = 0, 1
# The children that rows were found to have, which are the same in any store.
FOUND = {}


def book_of(model):
    """The book of a model."""
    return Book(model.limit, [key for key, _ in model.rows()])


def model_of(book, told=True):
    """The model of a book, in which the same is cached for each key."""
    model = ListBook(book.limit)
    for key in reversed(book.keys):
        model.put(key, told)
    return model


# ---- the children in a store

def children_in(database):
    """The book of a store, each answer of which has to have its use. A key is the digest that a child prints, and the paths of the files
    that it has seen with their modes."""
    ask = lambda text, *given: database.execute(text, given).fetchall()
    (limit,), = ask("SELECT value FROM meta WHERE name = 'limit'")
    rows = ask("SELECT words, seen FROM uses ORDER BY tick DESC")
    check(sorted(rows) == sorted(ask("SELECT words, seen FROM answers")), f"of {len(rows)} answers others are used")
    held = lambda digest: ask("SELECT bytes FROM blobs WHERE digest = ?", digest)[0][0]
    for row in rows:
        if row not in FOUND:
            FOUND[row] = key_of(*map(held, row), held)
    return Book(limit, [FOUND[row] for row in rows])


def key_of(words, seen, held):
    """What a child prints that has these records."""
    words = read_list(words, read_bytes)
    files = {path: (mode, held(digest)) for path, mode, digest in read_list(seen, read_seen)}
    # One that has seen all files reports the folders too. The empty `.git` is there as at the top of a working tree.
    folders = {b".git", *(path[:at] for path in files for at, letter in enumerate(path) if letter == ord("/"))}
    folders = folders if b"--whole" in words else set()
    state = 14695981039346656037
    for word in words[1:]:
        state = digested(state, word + b"\0")
    for path in sorted([*files, *folders]):
        kind, mode, contents = (FILE, *files[path]) if path in files else (FOLDER, 0, b"")
        for each in (path + b"\0", struct.pack("=i", kind), struct.pack("=i", mode), struct.pack("=Q", len(contents)), contents):
            state = digested(state, each)
    return f"{state:016x}", tuple((path.decode(), files[path][0]) for path in sorted(files))


def digested(state, data):
    """The digest with further bytes, as tests/plays/play_child.c takes them, eight at a time."""
    padded = data + bytes(-len(data) % 8)
    for piece in struct.unpack(f"={len(padded) // 8}Q", padded):
        state = (state ^ piece) * 1099511628211 & 0xFFFFFFFFFFFFFFFF
        state ^= state >> 32
    return state


# ---- records, as docs/REFERENCE.md has them

def read_bytes(record, at):
    length, = struct.unpack_from(">I", record, at)
    return record[at + 4:at + 4 + length], at + 4 + length


def read_seen(record, at):
    path, at = read_bytes(record, at)
    return (path, record[at], record[at + 1:at + 33]), at + 33


def read_list(record, read):
    """The items of a record."""
    items, at = [], 4
    for _ in range(struct.unpack_from(">I", record)[0]):
        item, at = read(record, at)
        items.append(item)
    check(at == len(record), f"a record has {len(record)} bytes, and its items {at}")
    return items
