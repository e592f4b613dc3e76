"""What the other modules share: the errors that end an import, and digests."""
import hashlib
import os
import sys


class Refused(Exception):
    """Why this can't work, in words."""


class BadConfiguration(Refused):
    """What pre-commit says of a configuration or a manifest that it doesn't take."""


def say(text):
    print(f"hookhost-import: {text}", file=sys.stderr, flush=True)


def digest_of(*texts):
    """A digest of these texts, each with its length, so that no other texts have the same."""
    found = hashlib.sha256()
    for text in texts:
        held = text if isinstance(text, bytes) else os.fsencode(text)
        found.update(b"%d:" % len(held) + held)
    return found.hexdigest()


def in_utf8(text, what):
    """The text, if it is UTF-8, which a configuration has to be."""
    try:
        text.encode()
    except UnicodeEncodeError:
        raise Refused(f"{what} isn't UTF-8: {text!r}") from None
    return text


def in_comment(text):
    """The text on one line of ASCII that shows it, for a comment."""
    return "".join(it if it.isprintable() else "?" for it in text.encode("ascii", "backslashreplace").decode())


def write_whole(path, held, mode=0o644):
    """Writes a file that is there whole or not at all."""
    new = f"{path}.{os.getpid()}.new"
    with open(new, "wb") as file:
        file.write(held)
    os.chmod(new, mode)
    os.replace(new, path)
