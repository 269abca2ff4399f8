"""What the comments of a text say that is due, and which of them say nothing that can be understood."""
import re
from typing import NamedTuple

from . import forms

MARK = "//!"
NEAR = re.compile(r"//[ \t]+!")


class Part(NamedTuple):
    """A part of a comment: its kind, its words, the line that it is about, which is 0 for the text as a whole, and the
    line and the column where it stands, both from 1, with where it ends in that line."""

    kind: str
    words: str
    about: int
    line: int
    column: int
    end: int


class Wrong(NamedTuple):
    """What is wrong with a comment, and where."""

    line: int
    column: int
    says: str


def comments(lines):
    """Gives the comments of a text: the number of the line, the column where the comment begins, from 0, the line that
    it is about, and what it says behind its two strokes."""
    last = 0
    for number, line in enumerate(lines, 1):
        line = line[:-1] if line.endswith("\r") else line
        code, strokes, said = line.partition("//")
        last = number if code.strip(" \t\r") else last
        if strokes:
            yield number, len(code), last, said


def pieces(number, column, about, said):
    """Gives the parts of what a comment says, without their kinds."""
    start = column + len(MARK)
    for piece in said[1:].split(";"):
        words = piece.strip()
        at = start + len(piece) - len(piece.lstrip())
        yield Part("", forms.plain(words) if words else "", about, number, at + 1, at + len(words))
        start += len(piece) + 1


class Due:
    """What is due of a text: the parts of its comments, and those that are wrong. A comment without words asks to be
    filled in."""

    def __init__(self, text, is_script):
        self.parts, self.wrong, self.asking = [], [], []
        self.forms = forms.OF_SCRIPT if is_script else forms.OF_CONTRACT
        self.shown = forms.SHOWN_OF_SCRIPT if is_script else forms.SHOWN_OF_CONTRACT
        for number, column, about, said in comments(text.lines):
            if said.startswith("!"):
                self.take(list(pieces(number, column, about, said)), is_script)
            elif NEAR.match(f"//{said}"):
                self.say(number, column, f"write `{MARK}`, without a blank, or a comment that does not begin with `!`")
            elif MARK in said and about == number:
                self.say(number, column + 2 + said.index(MARK), f"`{MARK}` stands in another comment; write it first")
        self.are_single(*forms.HEADS)
        self.are_alone("evening", "threads", "options")

    def say(self, line, column, says):
        self.wrong.append(Wrong(line, column + 1, says))

    def take(self, found, is_script):
        """Takes the parts of one comment."""
        if len(found) == 1 and not found[0].words:
            self.asking.append(found[0])
            return
        for it in found:
            says = self.wrong_of(it, is_script)
            if says:
                self.say(it.line, it.column - 1, says)
            else:
                self.parts.append(it._replace(kind=forms.kind_of(it.words, self.forms)))

    def wrong_of(self, part, is_script):
        """Says what is wrong with a part, if something is."""
        if not part.words:
            return "nothing stands here beside a `;`"
        kind = forms.kind_of(part.words, self.forms)
        if kind is None:
            return forms.no_form(part.words, self.shown)
        is_head = kind in forms.HEADS
        if is_script and is_head != (part.about == 0):
            return "this stands above all lines" if is_head else "no line stands above this"
        return ""

    def are_single(self, *kinds):
        """Has a second part of one of these kinds be wrong."""
        for kind in kinds:
            for it in self.of(kind)[1:]:
                self.say(it.line, it.column - 1, "this is said twice")

    def are_alone(self, *kinds):
        """Has a part of one of these kinds be wrong behind one of another, since no command has both."""
        for it in self.of(*kinds)[1:]:
            if it.kind != self.of(*kinds)[0].kind:
                first = self.of(*kinds)[0].words.split()[0]
                self.say(it.line, it.column - 1, f"no command takes this beside `{first}`")

    def of(self, *kinds):
        return [it for it in self.parts if it.kind in kinds]

    def between(self, first, last):
        """Gives the parts about these lines."""
        return [it for it in self.parts if first <= it.about <= last]
