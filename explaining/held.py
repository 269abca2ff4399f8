"""What a process holds where an instruction is stuck, by the types that its channels have come to on the way there."""
from typing import NamedTuple

from .codes import Codes
from .texts import listed

WIDEST = 100
# The instructions behind which nothing is held, or that pass on what is, and those that turn to a channel.
LEAVING = ("close", "fwd", "call", "spawn", "detach", "accept")
TURNING = ("label", "case", "send", "recv", "put", "take", "pay", "get", "wait", "release", "acquire")
# By the sign of a type what sends and what hears there, and the types at which the provider sends.
TALK = {
    "+": ("", "case {} {{ .. }}"), "&": ("", "case {} {{ .. }}"),
    "*": ("send {} ..", "recv {} .."), "-o": ("send {} ..", "recv {} .."),
    "/\\": ("put {} ..", "take {} .."), "->": ("put {} ..", "take {} .."),
    "|": ("pay {} {{..}}", "get {} {{..}}"), "<": ("pay {} {{..}}", "get {} {{..}}"),
    "1": ("close", "wait {}"), "up": ("accept", "acquire {} as .."), "down": ("detach", "release {} as .."),
}
PROVIDED = ("+", "*", "/\\", "|", "1", "up", "down")


class Type(NamedTuple):
    """A type: its first token and the one behind its last, its sign, and its parts: the continuation last, and of a
    choice each with its label."""

    at: int
    end: int
    sign: str
    parts: tuple


class Held(NamedTuple):
    """A channel: the type that it is at, the token that bound it, and the type that it was bound at."""

    type: Type
    bound: int
    first: Type


def bound_at(it, at):
    """Gives a channel of a type as it is bound by a token."""
    return Held(it, at, it)


class Types(Codes):
    """The types of a text, and what becomes of them along the instructions of a process."""

    def __init__(self, text, grammar):
        super().__init__(text, grammar)
        heads = [at for at, it in enumerate(self.tokens) if it.text == "type"]
        self.bodies = {self.tokens[at + 2].text: self.type(at + 4) for at in heads}

    def type(self, at):
        """Gives the type that begins at a token."""
        word = self.tokens[at].text
        if word in ("up", "down"):
            return self.prefix(at, at + 1, word)
        if word in ("|", "<"):
            return self.prefix(at, at + 5, word)
        if word in ("int", "bool", "list"):
            arrow = next(it for it in range(at, len(self.tokens)) if self.tokens[it].text in ("/\\", "->"))
            return self.prefix(at, arrow + 1, self.tokens[arrow].text)
        first = self.atom(at)
        sign = self.tokens[first.end].text
        if sign in ("*", "-o") and self.rule(first.end) == "type":
            behind = self.type(first.end + 1)
            return Type(at, behind.end, sign, (first, behind))
        return first

    def prefix(self, at, start, sign):
        behind = self.type(start)
        return Type(at, behind.end, sign, (behind,))

    def atom(self, at):
        word = self.tokens[at].text
        if word == "(":
            inner = self.type(at + 1)
            return Type(at, inner.end + 1, inner.sign, inner.parts)
        if word not in ("+", "&"):
            return Type(at, at + 1, "1" if self.tokens[at].kind == "number" else "name", ())
        parts, end = [], at + 1
        while self.tokens[end].text in ("{", "|"):
            it = self.type(end + 3)
            parts.append((self.tokens[end + 1].text, it))
            end = it.end
        return Type(at, end + 1, word, tuple(parts))

    def name(self, it):
        """Gives the name that a type is, which may stand in parentheses."""
        return next(token.text for token in self.tokens[it.at :] if token.text != "(")

    def unfolded(self, it):
        return self.bodies[self.name(it)] if it.sign == "name" else it

    def amount(self, it):
        """Gives the amount that a type names which pays or is paid: a number, or a star."""
        at = next(at for at in range(it.at, it.end) if self.tokens[at].text != "(")
        return self.tokens[at + 2].text

    def is_shared(self, it):
        return it.sign == "up" or it.sign == "name" and self.name(it) in self.shared

    def words(self, it):
        """Gives the text of a type, and of what its name stands for."""
        text = self.said(it.at, it.end)
        if it.sign == "name":
            body = self.unfolded(it)
            text = f"{text}`, which is `{self.said(body.at, body.end)}"
        return text if len(text) <= WIDEST else f"{text[:WIDEST]}.."

    def talk(self, name, it):
        """Gives the instructions with which the talk on a channel goes on, by its type."""
        whole = self.unfolded(it)
        is_sent = (whole.sign in PROVIDED) == (name == "self")
        if is_sent and whole.sign in ("+", "&"):
            return [f"{name}.{label}" for label, _ in whole.parts]
        return [TALK[whole.sign][0 if is_sent else 1].format(name)]

    def start(self, process):
        """Gives the channels of a process at its start, with `self` where it offers something."""
        at = process.at
        held = {}
        while self.tokens[at].text != "=":
            if self.key(at) == ("cpar", 0):
                held[self.tokens[at].text] = bound_at(self.type(at + 2), at)
            if self.tokens[at].text == ":" and self.rule(at) == "decl":
                held["self"] = bound_at(self.type(at + 1), at)
            at += 1
        return held

    def ways(self, process, at):
        """Gives the instructions from the start of a process to the one at a token, each with the branch that the way
        goes on with behind it."""
        steps, step = [], process.first
        while step.at != at:
            label, further = next(it for it in step.behind[::-1] if it[1].at <= at)
            steps.append((step, label))
            step = further
        return steps, step

    def behind(self, held, step, label):
        """Changes the channels as an instruction does."""
        names = [it.text for it in self.tokens[step.at : step.end]]
        form = step.form
        if form in ("accept", "detach"):
            names = [form, "self"]
        via = names[0] if form == "label" else names[1] if len(names) > 1 else ""
        if form == "spawn":
            return self.spawned(held, step, names)
        if form not in TURNING and form not in ("accept", "detach"):
            return None
        bound = held.pop(via)
        parts = self.unfolded(bound.type).parts
        if form == "acquire":
            held[via] = bound
            held[names[3]] = bound_at(parts[-1], step.at + 3)
        elif form == "release":
            held[names[3]] = bound_at(parts[-1], step.at + 3)
        elif form != "wait":
            label = names[2] if form == "label" else label
            further = dict(parts)[label] if form in ("label", "case") else parts[-1]
            held[via] = Held(further, bound.bound, bound.first)
        if form == "recv":
            held[names[2]] = bound_at(parts[0], step.at + 2)
        if form == "send":
            self.passed(held, names[2:])
        return None

    def spawned(self, held, step, names):
        self.passed(held, names[len(names) - names[::-1].index(";") : -1])
        offered = self.start(self.processes[names[3]])
        held[names[1]] = bound_at(offered["self"].type, step.at + 1)

    def passed(self, held, names):
        """Takes the channels that are passed on, but for shared ones."""
        for name in names:
            if name in held and not self.is_shared(held[name].type):
                del held[name]


def turned(types, name, it, stuck, has_mend):
    """Gives lines on the channel that a stuck instruction turns to."""
    lines, is_shared = [f"now: `{name}` is at `{types.words(it.type)}`"], types.is_shared(it.type)
    if stuck.form == "acquire" and not is_shared:
        return [*lines, f"see: `{name}` is not shared, and is talked to without that"]
    if name != "self" and stuck.form != "acquire" and is_shared:
        return [*lines, f"see: `{name}` is shared, and is acquired before it is talked to"]
    talk = types.talk(name, it.type)
    first = f"{name}." if stuck.form == "label" else stuck.form
    if has_mend or any(words.startswith(first) for words in talk):
        return lines
    return [*lines, f"see: `{name}` goes on by {listed(talk)}"]


def reached(text, answer, grammar):
    """Gives the types of a text, the instruction that is stuck, and what is held there."""
    types = Types(text, grammar)
    index = text.index_at(answer.offset)
    process = [it for it in types.processes.values() if it.at < index][-1]
    steps, stuck = types.ways(process, index)
    held = types.start(process)
    for step, label in steps:
        types.behind(held, step, label)
    return types, stuck, held


def now(types, stuck, held, has_mend=False):
    """Gives lines on what `self` is at and what is held where an instruction is stuck, or what its channel is at, and
    where there is no mend how that goes on."""
    text, index = types.text, stuck.at
    if stuck.form in TURNING:
        name = text.tokens[index if stuck.form == "label" else index + 1].text
        return turned(types, name, held[name], stuck, has_mend) if name in held else []
    if stuck.form not in LEAVING:
        return []
    lines = [f"now: `self` is at `{types.words(held['self'].type)}`"] if "self" in held else []
    for name, it in held.items():
        if name != "self" and not types.is_shared(it.type):
            place = text.place(text.tokens[it.bound].at)
            lines.append(f"now: `{name}` is held, at `{types.words(it.type)}`, bound at {place}")
    return lines
