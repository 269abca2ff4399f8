"""What was found in a text at one place, in lines and as a record."""
import os
from typing import NamedTuple

from .mends import Mend
from .texts import LONG

# The lines that a record has by themselves, each by the word that it begins with, and the name that they have there.
SHOWN = (("see", "see"), ("now", "now"), ("here may stand", "may_stand"))


class Found(NamedTuple):
    """The text and the offset where something was found, which is none where the text could not be read, the cause,
    the row of docs/CAUSES.md, the lines below the marked one, and the words of the program's answer."""

    text: object
    at: object
    cause: str
    row: str
    lines: list
    words: list

    def meaning(self, causes):
        return causes.get(self.row) or causes.get(self.row.split()[0])

    def printed(self, causes):
        """Gives the lines, the sentence of the row among them."""
        means = self.meaning(causes)
        said = [f"means: {means.means}", f'rule: "{means.rule}" in docs/{means.page}.md'] if means else []
        if self.at is None:
            head = [f"{self.text.name}: {self.cause}"]
        else:
            head = [f"{self.text.place(self.at)}: {self.cause}", *self.text.shown(self.at)]
        return [*head, *self.lines, *said, f"answer: {' '.join(self.words)}"]

    def record(self, causes):
        """Gives what a program reads: the same, and the edits of each mend."""
        means = self.meaning(causes)
        line, column, length = self.place()
        found = {"file": named(self.text.name), "line": line, "column": column, "length": length, "cause": self.cause}
        mends = [it for it in self.lines if isinstance(it, Mend)]
        found["mends"] = [{"says": read(it[6:]), "edits": self.edits(it)} for it in mends]
        for word, name in SHOWN:
            found[name] = [read(it[len(word) + 2 :]) for it in self.lines if it.startswith(f"{word}: ")]
        found["means"] = means.means if means else ""
        found["rule"] = {"heading": means.rule, "page": f"docs/{means.page}.md"} if means else None
        found["answer"] = read(" ".join(self.words))
        return found

    def place(self):
        """Gives the line and the column, both from 1, and how many bytes the token has; zeros where the text could not
        be read."""
        if self.at is None:
            return 0, 0, 0
        token = LONG.match(self.text.text, self.at)
        return (*self.text.where(self.at), token.end() - self.at if token else int(self.at < self.text.size))

    def edits(self, mend):
        """Gives the edits of a mend in the text that was read, or none where one of them is of what another mend
        wrote."""
        found = [self.text.before(it) for it in mend.edits]
        if None in found:
            return []
        return [{"at": start, "end": end, "new": read(new)} for start, end, new in found]


def read(text):
    """Gives bytes that stand one in each character as the text that they are."""
    return text.encode("latin-1").decode("utf-8", "replace")


def named(name):
    return os.fsdecode(name.encode("latin-1"))
