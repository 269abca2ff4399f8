"""Places as the protocol counts them: lines from 0, and columns in units of UTF-16, where a text has bytes."""
import bisect
import re

LINE_END = re.compile(r"\r\n|\n|\r")


def units(data):
    """Gives how many units of UTF-16 these bytes are."""
    return len(data.decode("utf-8", "replace").encode("utf-16-le")) // 2


class Places:
    """The places of a text."""

    def __init__(self, text):
        self.data, self.text = text.data, text.text
        self.starts = [0, *(it.end() for it in LINE_END.finditer(self.text))]

    def position(self, offset):
        """Gives the place of a byte."""
        line = bisect.bisect_right(self.starts, offset) - 1
        return {"line": line, "character": units(self.data[self.starts[line] : offset])}

    def offset(self, position):
        """Gives the byte at a place, or the one nearest to it where no text stands."""
        line, column = max(int(position["line"]), 0), max(int(position["character"]), 0)
        if line >= len(self.starts):
            return len(self.data)
        end = self.starts[line + 1] if line + 1 < len(self.starts) else len(self.data)
        row = self.text[self.starts[line] : end].rstrip("\r\n").encode("latin-1")
        before = row.decode("utf-8", "replace").encode("utf-16-le")[: 2 * column]
        return self.starts[line] + min(len(before.decode("utf-16-le", "ignore").encode("utf-8")), len(row))

    def range(self, start, end):
        return {"start": self.position(start), "end": self.position(end)}

    def whole(self, start, end):
        """Gives the range of some bytes, up to the end of the sign that the last one of them belongs to."""
        while end < len(self.data) and 0x80 <= self.data[end] < 0xC0:
            end += 1
        return self.range(start, end)
