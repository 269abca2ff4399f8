"""A contract as a text: its tokens, as "Tokens" in docs/LANGUAGE.md has them, and its places, as a reader sees them."""
import re
from typing import NamedTuple

LIMIT = 1_048_576
WIDTH = 110
# How long a text is at most that is tried many times on the program.
LONGEST = 65_536

TOKEN = re.compile(
    r"(?P<word>[A-Za-z_][A-Za-z_0-9]*)|(?P<number>[0-9]+)|(?P<blank>[ \t\r\n]+|//[^\n]*)"
    r"|(?P<symbol>->|=>|::|/\\|-o(?![A-Za-z_0-9])|[(){},;:.=+\-*/%<>|&])|(?P<bad>.)",
    re.DOTALL,
)
LONG = re.compile(r"[A-Za-z_][A-Za-z_0-9]*|[0-9]+")
UNPRINTED = re.compile(r"[\x00-\x08\x0b\x0c\x0d\x0e-\x1f\x7f]")


class Token(NamedTuple):
    kind: str
    text: str
    at: int

    @property
    def end(self):
        return self.at + len(self.text)


def tokens_of(text):
    """Gives the tokens of a text, without the blanks and comments between them."""
    found = TOKEN.finditer(text)
    return [Token(it.lastgroup, it.group(), it.start()) for it in found if it.lastgroup != "blank"]


def joined(tokens):
    """Gives tokens in one line, without the comments between them."""
    pairs = zip([None, *tokens], tokens)
    return "".join(("" if not before or before.end == it.at else " ") + it.text for before, it in pairs)


def listed(names):
    """Gives names in a row, eight at most."""
    names = list(dict.fromkeys(names))
    return ", ".join(f"`{it}`" for it in names[:8]) + (", .." if len(names) > 8 else "")


def cut(text, start):
    """Gives what is shown of a line, from so many bytes on."""
    return (".." if start else "") + text[start : start + WIDTH] + (".." if len(text) > start + WIDTH else "")


def marked(text, column, gutter):
    """Gives a line with marks under the token that begins behind so many bytes. A long line is cut; tabs stay, so that
    the marks stand under the token however wide a tab is."""
    start = column - 60 if column > 80 else 0
    blanks = ("  " if start else "") + re.sub(r"[^\t]", " ", text[start:column])
    token = LONG.match(text, column, column + WIDTH)
    marks = min(token.end() - column if token else 1, start + WIDTH - column)
    shown = f" {cut(text, start)}" if text else ""
    return [f"{gutter} |{shown}", f"{' ' * len(gutter)} | {blanks}{'^' * marks}"]


class Text:
    """The bytes of a contract, one character for each, and the word for the file that they came from."""

    def __init__(self, name, data):
        self.name, self.data, self.size = name, data, len(data)
        self.text = data.decode("latin-1")
        self.lines = self.text.split("\n")
        self._tokens = None

    @property
    def tokens(self):
        if self._tokens is None:
            self._tokens = tokens_of(self.text)
        return self._tokens

    def where(self, offset):
        """Gives the line and the column of an offset, both from 1."""
        start = self.text.rfind("\n", 0, offset) + 1
        return self.text.count("\n", 0, offset) + 1, offset - start + 1

    def place(self, offset):
        line, column = self.where(offset)
        return f"{self.name}:{line}:{column}"

    def line(self, number):
        """Gives a line, with a question mark for each byte that a terminal would not print."""
        return UNPRINTED.sub("?", re.sub(r"\r\Z", "", self.lines[number - 1]))

    def shown(self, offset):
        """Gives the line of an offset with its marks. Where the text ends in a new line, which is empty, the last one
        that is not blank stands above."""
        number, column = self.where(offset)
        above = []
        if offset == self.size and column == 1:
            last = max((at for at, it in enumerate(self.lines, 1) if it.strip(" \t\r")), default=0)
            if last:
                above = [f"{last:{len(str(number))}} | {cut(self.line(last), 0)}"]
        return above + marked(self.line(number), column - 1, str(number))

    def index_at(self, offset):
        """Gives the number of the token at an offset, or how many there are."""
        return next((at for at, it in enumerate(self.tokens) if it.at >= offset), len(self.tokens))

    def before(self, edit):
        """Gives an edit as one of the text that was read, which this is."""
        return edit

    def edited(self, *edits):
        """Gives the bytes with other texts in place of some pieces, each given by where it begins and where it ends."""
        pieces, done = [], 0
        for start, end, new in sorted(edits):
            pieces += [self.text[done:start], new]
            done = end
        return "".join([*pieces, self.text[done:]]).encode("latin-1")


class Edited:
    """Of a text with edits: its places are those of the text that these were made in."""

    def __init__(self, base, edits):
        super().__init__(base.name, base.edited(*edits))
        self.base, self.edits = base, sorted(edits)

    def back(self, offset):
        """Gives the offset before the edits, and whether it is outside of what they wrote."""
        moved = 0
        for start, end, new in self.edits:
            if offset < start + moved:
                break
            if offset < start + moved + len(new):
                return start, False
            moved += len(new) - (end - start)
        return offset - moved, True

    def where(self, offset):
        return self.base.where(self.back(offset)[0])

    def shown(self, offset):
        return self.base.shown(self.back(offset)[0])

    def before(self, edit):
        (start, is_out), (end, is_out_too) = self.back(edit[0]), self.back(max(edit[1] - 1, edit[0]))
        end = end + (edit[1] > edit[0])
        return self.base.before((start, end, edit[2])) if is_out and is_out_too else None


class EditedText(Edited, Text):
    """A contract with edits."""
