"""A line on what to write, with the edits that do it; and what mends.json has of it, which the page reads too."""
import json
import os
import string

with open(f"{os.path.dirname(os.path.realpath(__file__))}/mends.json", encoding="utf-8") as _file:
    DATA = json.load(_file)

# What stands in the words of a mend that leaves something to the writer.
OPEN = (
    "..", ", or ", "where the provider", "another name", "new name", "write a number", "write a truth", "write a list",
    "write ``", "write the account that pays",
    "in a smaller unit",
)


def filled(template, /, **known):
    """Gives a text of the data with what is known in place of its names."""
    return string.Template(template).substitute(known)


def says(sentence, /, **known):
    """Gives the words of a mend of the data."""
    return filled(DATA["says"][sentence], **known)


class Mend(str):
    """A line that begins with `mend:`. Its edits, each from where to where a text is replaced, and by what, do what is
    said; it has none where something is left to the writer. The edits that were tried are there in any case."""

    edits = ()
    tried = ()


def mend(words, *edits):
    """Gives the line of a mend, with the edits that were tried of it."""
    line = Mend(f"mend: {words}")
    line.tried = edits
    line.edits = () if any(it in words for it in OPEN) else edits
    return line
