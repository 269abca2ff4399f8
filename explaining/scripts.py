"""A script as a text: its lines, the tokens of each, and what a line says, as "The script" in docs/TEXTS.md has it."""
import re
from typing import NamedTuple

from .texts import Edited, Text, Token, joined

TOKEN = re.compile(
    r"(?P<word>[A-Za-z_][A-Za-z_0-9]*)|(?P<number>[0-9]+)|(?P<blank>[ \t]+|//.*)|(?P<symbol>.)", re.DOTALL
)


class Argument(NamedTuple):
    """A value or a name of a line: its tokens, and the value that they write, if they do."""

    tokens: tuple
    value: object = None

    @property
    def text(self):
        return "".join(it.text for it in self.tokens)


class Line:
    """A line of a script: its number, where it begins, and its tokens."""

    def __init__(self, number, at, text):
        self.number, self.at, self.end = number, at, at + len(text)
        found = TOKEN.finditer(text)
        self.tokens = [Token(it.lastgroup, it.group(), at + it.start()) for it in found if it.lastgroup != "blank"]
        self.word = self.tokens[0].text if self.tokens else ""

    @property
    def is_start(self):
        return self.word in ("let", "exec")

    @property
    def contract(self):
        """The token of the name that a contract gets."""
        return self.tokens[1]

    @property
    def sender(self):
        return self.tokens[4 if self.word == "let" else 1]

    @property
    def process(self):
        return self.tokens[5 if self.word == "let" else 2]

    @property
    def text(self):
        """The line without comments and needless blanks."""
        return joined(self.tokens)

    def arguments(self):
        """Gives the values and the names between the parentheses of a line that starts a process."""
        inside = self.tokens[7 if self.word == "let" else 4 : -1]
        parts, depth = [[[]], [[]]], 0
        side = 0
        for it in inside:
            depth += (it.text == "[") - (it.text == "]")
            if it.text == ";":
                side = 1
            elif it.text == "," and depth == 0:
                parts[side].append([])
            else:
                parts[side][-1].append(it)
        values, names = ([tuple(it) for it in side if it] for side in parts)
        return [Argument(it, value_of(list(it)[::-1])) for it in values], [Argument(it) for it in names]


def value_of(tokens):
    """Takes the tokens of a value, of which the next one stands last, and gives the value."""
    it = tokens.pop()
    if it.text == "-":
        return -int(tokens.pop().text)
    if it.kind == "number":
        return int(it.text)
    if it.text != "[":
        return it.text == "true"
    found = []
    while tokens and tokens[-1].text != "]":
        if tokens[-1].text == ",":
            tokens.pop()
        else:
            found.append(value_of(tokens))
    tokens and tokens.pop()
    return found


class Script(Text):
    """The bytes of a script, and the word for the file that they came from."""

    def __init__(self, name, data):
        super().__init__(name, data)
        self.rows, at = [], 0
        for number, it in enumerate(self.lines, 1):
            is_ended = number < len(self.lines)
            text = it[:-1] if is_ended and it.endswith("\r") else it
            self.rows.append(Line(number, at, text))
            at += len(it) + 1

    @property
    def tokens(self):
        return [it for row in self.rows for it in row.tokens]

    def row(self, number):
        return self.rows[number - 1]

    def accounts(self, number):
        """Gives the names that lines before a line deposit to, in the order of the first deposit to each: that of their
        numbers."""
        rows = self.rows[: number - 1]
        return list(dict.fromkeys(it.tokens[1].text for it in rows if it.word == "deposit" and len(it.tokens) > 1))

    def unmade(self, number):
        """Gives the first name that lines behind a line give as that of a contract, and that no line makes, or
        nothing."""
        made = {it.tokens[1].text for it in self.rows if it.word == "let" and len(it.tokens) > 1}
        accounts = self.accounts(len(self.rows) + 1)
        for row in (it for it in self.rows[number:] if it.is_start):
            texts = [it.text for it in row.tokens]
            behind = texts[len(texts) - texts[::-1].index(";") :] if ";" in texts else []
            for it in behind:
                if it.isidentifier() and it not in (*made, *accounts):
                    return it
        return ""

    def batch(self, number):
        """Gives the lines that start a process of the batch that begins at a line, and the line that it ends at."""
        if self.row(number).word != "begin":
            return [self.row(number)], number
        end = next((it for it in range(number, len(self.rows) + 1) if self.row(it).word == "end"), len(self.rows))
        return [self.row(it) for it in range(number, end + 1) if self.row(it).is_start], end

    def part(self, last, *edits):
        """Gives the bytes up to the end of a line, with other texts in place of some pieces."""
        end = self.row(last).end
        kept = [it for it in edits if it[1] <= end]
        return Text(self.name, self.data[:end]).edited(*kept)


class EditedScript(Edited, Script):
    """A script with edits."""
