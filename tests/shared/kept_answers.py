"""The records of a cached result, and the rows that it has in a store, put together apart from the program."""
import collections
import hashlib
import struct

# The words of a command as bytes. The files that its child saw as (path, mode, contents) and what became of them as (path, contents, or
# none if one is gone), both in the order of their paths. What it wrote, and its exit status.
KeptAnswer = collections.namedtuple("KeptAnswer", "words seen changes status output", defaults=[b""])


def digest(contents):
    return hashlib.sha256(contents).digest()


def n4(number):
    return struct.pack(">I", number)


def b(data):
    return n4(len(data)) + data


def listed(items):
    return n4(len(items)) + b"".join(items)


def words_record(words):
    return listed([b(word) for word in words])


def seen_item(path, mode, named):
    return b(path.encode()) + bytes([mode]) + named


def seen_record(seen):
    return listed([seen_item(path, mode, digest(contents)) for path, mode, contents in seen])


def changed_item(path, named):
    return b(path.encode()) + (b"\0" if named is None else b"\1" + named)


def changes_record(changes):
    return listed([changed_item(path, None if contents is None else digest(contents)) for path, contents in changes])


def records_of(answer):
    """What an answer's row names: its words, its seen files, what it wrote and its changes."""
    return [words_record(answer.words), seen_record(answer.seen), answer.output, changes_record(answer.changes)]


def contents_of(answer):
    """All contents that are kept for an answer."""
    seen = [contents for _, _, contents in answer.seen]
    return seen + [contents for _, contents in answer.changes if contents is not None] + records_of(answer)


# Version 2 of a store keeps these next to the answers, and the greatest of them in front.
GREATEST_TICK = 2 ** 62
# SQL that makes a store of version 1 of one of version 2.
TO_VERSION_1 = "DELETE FROM meta WHERE name = 'limit'; UPDATE meta SET value = 1 WHERE name = 'version'; DROP TABLE uses"
# All rows, as `row_of` writes each, and the uses from the front on, as `use_of` does.
SELECT_ROWS = ("SELECT lower(hex(words)), lower(hex(seen)), lower(hex(output)), lower(hex(changes)), status FROM answers "
               "ORDER BY words, seen")
SELECT_USES = "SELECT lower(hex(words)), lower(hex(seen)) FROM uses ORDER BY tick DESC"


def row_of(answer):
    """The row, as sqlite3 prints the columns in hexadecimal."""
    return "|".join([*(digest(record).hex() for record in records_of(answer)), str(answer.status)])


def use_of(answer):
    """The key of its use, as sqlite3 prints the columns in hexadecimal."""
    return "|".join(row_of(answer).split("|")[:2])


def using(words, seen):
    """SQL that brings the answer under two digests, in hexadecimal, to the front of a store of version 2, if it has no use yet."""
    return f"INSERT INTO uses SELECT x'{words}', x'{seen}', coalesce(max(tick), 0) + 1 FROM uses"


def planting(contents, records, status, version=2):
    """SQL that puts contents and the row of four records into a store, and in front of a store of version 2."""
    blobs = "".join(f"INSERT OR IGNORE INTO blobs VALUES (x'{digest(each).hex()}', x'{each.hex()}'); " for each in [*contents, *records])
    digests = [digest(record).hex() for record in records]
    use = f"; {using(*digests[:2])}" if version == 2 else ""
    return blobs + f"INSERT INTO answers VALUES ({', '.join(f'''x'{each}' ''' for each in digests)}, {status})" + use


def statements_of(answers, tick=None):
    """SQL that puts the rows of answers into a store, and their uses if they have a tick: that of the first, and one more for each
    further one."""
    columns = [row_of(answer).split("|") for answer in answers]
    rows = ["INSERT INTO answers VALUES (x'{}', x'{}', x'{}', x'{}', {})".format(*each) for each in columns]
    uses = [] if tick is None else [
        "INSERT INTO uses VALUES (x'{}', x'{}', {})".format(*each[:2], tick + at) for at, each in enumerate(columns)]
    return rows + uses


def planting_all(answers, version=2):
    """SQL that puts answers with all that they name into a store, in one transaction. Contents that many name are put once. The last one
    is in front of a store of version 2 then. The limit isn't checked."""
    kept = sorted({each for answer in answers for each in contents_of(answer)})
    blobs = [f"INSERT OR IGNORE INTO blobs VALUES (x'{digest(each).hex()}', x'{each.hex()}')" for each in kept]
    uses = [using(*use_of(answer).split("|")) for answer in answers] if version == 2 else []
    return "".join(f"{each};\n" for each in ["BEGIN", *blobs, *statements_of(answers), *uses, "COMMIT"])
