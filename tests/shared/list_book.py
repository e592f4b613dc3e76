"""The model of a book: what is cached for each key, the most recently used first, and at most as many rows as its limit."""


class ListBook:
    """A look-up brings a row to the front, and so does a put. A put of one row too many drops the last."""

    def __init__(self, limit=10_000):
        self.limit = limit
        # The last of a dictionary is in front, so that each call takes as long among many rows as among few.
        self.held = {}

    def __eq__(self, other):
        """Whether both keep the same in one order."""
        return (self.limit, self.rows()) == (other.limit, other.rows())

    def __len__(self):
        return len(self.held)

    def __contains__(self, key):
        """Whether a key is held. Its row isn't used by that."""
        return key in self.held

    def rows(self):
        """The keys with what is cached for them, in their order."""
        return list(reversed(self.held.items()))

    def is_in_front(self, key):
        """Whether a key's row is the first, so that a look-up leaves all as it was."""
        return bool(self.held) and next(reversed(self.held)) == key

    def find(self, key):
        """What is cached for a key, or none."""
        if key not in self.held:
            return None
        self.held[key] = found = self.held.pop(key)
        return found

    def put(self, key, told):
        self.held.pop(key, None)
        self.held[key] = told
        self.keep_to(self.limit)

    def keep_to(self, limit):
        """Sets the limit, and drops last rows until it holds."""
        self.limit = limit
        while len(self.held) > limit:
            del self.held[next(iter(self.held))]

    def forget(self):
        """Takes all rows out, and says how many there were."""
        count = len(self.held)
        self.held.clear()
        return count
