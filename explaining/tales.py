"""What a tale tells of each batch: who was started, who fired at which instruction, and what came of that."""
from typing import NamedTuple

from .teller import Untold

# The words that are told of a start and of the firings of each form, and those behind which a number stands.
STARTED = ("line", "offers", "payer", "gas")
TOLD = {
    "label": ("on", "says", "made", "goes"), "send": ("on", "gives", "made", "goes"), "put": ("on", "made", "goes"),
    "pay": ("on", "pays", "made", "goes"), "case": ("on", "read", "says"), "recv": ("on", "read", "gives"),
    "take": ("on", "read", "value"), "get": ("on", "read", "pays"), "wait": ("on", "read"), "fwd": ("for",),
    "acquire": ("on", "of", "goes"), "release": ("on", "of"), "spawn": ("spawns", "made", "offers"),
    "call": ("calls",), "emit": ("value",), "if": ("is",), "match": ("is",),
}
NUMBERS = ("at", "on", "made", "goes", "read", "gives", "of", "offers", "for", "pays", *STARTED)


class Start(NamedTuple):
    """A process that a line of the script started: its number, its declaration, and what else is told of it."""

    pid: int
    process: str
    said: dict

    def number(self, word):
        return int(self.said[word])


class Firing(NamedTuple):
    """A firing: the number of the process, the form of the instruction, the gas that a `work` spent, and what else is
    told of it, by the word that it stands behind."""

    pid: int
    form: str
    gas: int
    said: dict

    def number(self, word):
        return int(self.said[word]) if word in self.said else None

    @property
    def at(self):
        """The offset of the instruction."""
        return int(self.said["at"])


class Batch(NamedTuple):
    """What is told of a deposit or a batch: the line of the script, who was started, the firings, the end, and how many
    further firings are not told."""

    line: int
    starts: list
    firings: list
    end: list
    further: int = 0

    @property
    def is_kept(self):
        return self.end[0] == "committed"


def pairs(words, needed):
    """Gives what pairs of words say, among which these have to be."""
    said = dict(zip(words[::2], words[1::2]))
    if not all(it in said for it in needed) or not all(said[it].isdecimal() for it in NUMBERS if it in said):
        raise Untold("what the teller tells has another form")
    return said


def batches_of(tale):
    """Gives what the bytes of a tale tell of each deposit and each batch."""
    found = []
    for line in tale.decode("latin-1").splitlines()[2:]:
        head, _, said = line.partition(" : ")
        words = head.split()
        if words[0] == "line":
            found.append(Batch(int(words[1]), [], [], []))
        elif words[0] == "end":
            found[-1].end.extend(words[1:])
        elif words[0] == ":":
            found[-1].starts.append(Start(int(words[2]), words[3], pairs(words[4:], STARTED)))
        else:
            gas = int(words[2]) if len(words) > 2 else 0
            told = pairs(said.split(), ("at", *TOLD.get(words[1], ())))
            found[-1].firings.append(Firing(int(words[0]), words[1], gas, told))
    return found
