"""The words of an output section by name, for tools/plain and tools/jsonl (docs/FORMATS.md has the names)."""
import re

SHIFT_OF_INDEX = 16
DESC_FIELDS = ["address", "high", "length", "flags"]
USED_FIELDS = ["id", "length"]


class NoWord(Exception):
    """A name that no word has."""


def up64(value):
    return (value + 63) // 64 * 64


def rings_len(size):
    return up64(up64(18 * size + 6) + 6 + 8 * size)


class Layout:
    """The offsets of a section's fields (docs/LINK.md), in words from its start. `data` is in
    bytes.
    """

    def __init__(self, out):
        size = 4096
        while size >= 64 and 8 * rings_len(size) >= out:
            size //= 2
        if size < 64:
            raise NoWord("no queue fits `out`, so no word has a name")
        self.size = size
        self.available = 4 * size
        self.used = up64(18 * size + 6) // 4
        self.data = rings_len(size)
        self.words = out // 4

    def fixed(self):
        return {
            "avail.index": self.available,
            "avail.event": self.available + 1 + self.size // 2,
            "used.index": self.used,
            "used.event": self.used + 1 + 2 * self.size,
        }

    def place(self, name):
        """Returns the word of a name, and the number of bits by which its value is shifted."""
        if name in self.fixed():
            return self.fixed()[name], SHIFT_OF_INDEX if name.endswith(".index") else 0
        found = re.fullmatch(r"(avail|desc|used|data)([0-9]{1,40})(?:\.([a-z]+))?", name)
        if not found:
            raise NoWord(f"no word has the name {name}")
        kind, position, field = found[1], int(found[2]), found[3]
        if kind == "data" and field is None and position % 4 == 0 and self.data + position < 4 * self.words:
            return (self.data + position) // 4, 0
        if kind == "data" or position >= self.size:
            raise NoWord(f"no word has the name {name}: the queue has {self.size} places")
        if kind == "avail" and field is None:
            return self.available + 1 + position // 2, 16 * (position % 2)
        fields = {"desc": DESC_FIELDS, "used": USED_FIELDS}.get(kind, [])
        if field not in fields:
            raise NoWord(f"no word has the name {name}")
        first = 4 * position if kind == "desc" else self.used + 1 + 2 * position
        return first + fields.index(field), 0

    def name(self, place):
        """Returns the name of a word, or None. A word with two entries has the name of the even
        one.
        """
        for name, word in self.fixed().items():
            if place == word:
                return name
        if place < self.available:
            return f"desc{place // 4}.{DESC_FIELDS[place % 4]}"
        if self.available < place <= self.available + self.size // 2:
            return f"avail{2 * (place - self.available - 1)}"
        if self.used < place <= self.used + 2 * self.size:
            position = place - self.used - 1
            return f"used{position // 2}.{USED_FIELDS[position % 2]}"
        if self.data <= 4 * place < 4 * self.words:
            return f"data{4 * place - self.data}"
        return None
