"""What happens in a run, step by step: who says what to whom, by the tale of it."""
from typing import NamedTuple

from explaining.teller import Untold
from explaining.texts import joined

from .cast import Cast

SENDING, HEARING = ("label", "send", "put", "pay"), ("case", "recv", "take", "get", "wait")


class Step(NamedTuple):
    """A step: what is done, by which process, to which one, if to one, what is said, and the offset of the instruction,
    which is none for a start."""

    verb: str
    who: int
    whom: object
    what: str
    at: object


class Scene(NamedTuple):
    """What happens in a batch: what is told of it, its steps, the names of the processes, those to whom contracts are
    lent at its end, and the account of each process that it starts."""

    batch: object
    steps: list
    cast: Cast
    lent: dict
    payers: dict


class Story:
    """What happens in a run, by what is told of its batches. Gas comes in parts of a unit, so many to one."""

    def __init__(self, batches, text, script, unit=1):
        self.batches, self.text, self.script, self.unit = batches, text, script, unit
        self.cast, self.steps, self.lent, self.conditions = Cast(), [], {}, {}
        self.accounts, self.known = [], None

    @property
    def scenes(self):
        """The scenes of the run, one for each deposit and each batch."""
        if self.known is None:
            self.known = list(self.play())
        return self.known

    def play(self):
        """Gives one scene after another, which is as long in the cast and among the accounts as the next is not asked
        for. Of a batch that is undone the scene has a cast of its own."""
        for it in self.batches:
            yield self.scene(it)

    def gas(self, parts):
        return str(parts) if self.unit == 1 else f"{parts}/{self.unit}"

    def scene(self, batch):
        before, lent = (None, None) if batch.is_kept else (self.cast.copy(), dict(self.lent))
        self.steps = []
        names = []
        for it in batch.starts:
            names.append(self.cast.start(it, names))
            self.say("starts", it.pid, None, f"gas {self.gas(it.number('gas'))}", None)
        if batch.end == ["deposited"]:
            name = self.script.row(batch.line).tokens[1].text
            self.accounts += [name] if name not in self.accounts else []
        for it in batch.firings:
            self.fire(it)
        payers = {it.pid: self.payer(it) for it in batch.starts}
        if batch.is_kept:
            return Scene(batch, self.steps, self.cast, {}, payers)
        if not batch.further:
            self.unheard(before)
        scene = Scene(batch, self.steps, self.cast, self.lent, payers)
        self.cast, self.lent = before, lent
        return scene

    def payer(self, start):
        """Gives the name of the account that pays for a process."""
        number = start.number("payer")
        if number >= len(self.accounts):
            raise Untold("the teller tells of an account that is none")
        return self.accounts[number]

    def say(self, *step):
        self.steps.append(Step(*step))

    def fire(self, it):
        """Takes in a firing."""
        if it.form in SENDING:
            self.send(it)
        elif it.form in HEARING:
            self.hear(it)
        elif it.form in ("acquire", "release"):
            self.lend(it)
        elif it.form == "work":
            self.say("spends", it.pid, None, self.gas(it.gas), it.at)
        elif it.form == "emit":
            self.say("emits", it.pid, None, it.said["value"], it.at)
        elif it.form == "spawn":
            self.say("spawns", it.pid, self.cast.spawn(it), "", it.at)
        elif it.form in ("if", "match"):
            self.say("finds", it.pid, None, f"{self.condition(it.at)} is {it.said['is']}", it.at)
        elif it.form in ("close", "fwd"):
            self.leave(it)
        elif it.form == "call":
            self.cast.declared[it.pid] = it.said["calls"]

    def send(self, it):
        channel = it.number("on")
        self.cast.offers[it.number("goes")] = self.cast.offers.get(channel)
        self.cast.sent[it.number("made")] = it.pid, it.at, self.message(it) or "a value", channel

    def message(self, it):
        """Gives in words what a message says, or nothing where that is not told here."""
        if "pays" in it.said:
            return f"{self.gas(it.number('pays'))} gas"
        if "gives" in it.said:
            return self.cast.channel(it.number("gives"))
        return it.said.get("says") or it.said.get("value")

    def hear(self, it):
        sender, at, what, _ = self.cast.sent.pop(it.number("read"), (None, it.at, "", None))
        self.cast.offers.pop(it.number("on"), None)
        self.say("says", sender, it.pid, self.message(it) or what, at)

    def lend(self, it):
        """Takes in that a contract is acquired or released."""
        other = it.number("of")
        self.say(f"{it.form}s", it.pid, other, "", it.at)
        if it.form == "acquire":
            self.lent[other] = it.pid
            self.cast.offers[it.number("goes")] = other
        else:
            self.lent.pop(other, None)

    def leave(self, it):
        """Takes in that a process closes, or has another one go on in its place."""
        made = it.number("made")
        if it.form == "fwd":
            other = self.cast.provider(it.number("for"))
            self.cast.instead[it.pid] = other
            self.say("forwards", it.pid, other, "", it.at)
        elif made is None:
            self.say("closes", it.pid, None, "", it.at)
        else:
            self.cast.sent[made] = it.pid, it.at, "closes", None

    def unheard(self, before):
        """Says which messages of a batch that is undone nobody has heard."""
        for number, (sender, at, what, channel) in self.cast.sent.items():
            if number not in before.sent:
                whom = self.cast.provider(channel)
                self.say("unheard", sender, whom if whom != sender else None, what, at)

    def condition(self, offset):
        """Gives in one line what an `if` or a `match` asks for."""
        if offset not in self.conditions:
            self.conditions[offset] = condition(self.text, offset)
        return self.conditions[offset]


def condition(text, offset):
    """Gives what stands between the word at an offset and the { of its code, in one line."""
    start = text.index_at(offset) + 1
    waiting = depth = 0
    for end in range(start, len(text.tokens)):
        word = text.tokens[end].text
        if word == "{" and not waiting and not depth:
            return joined(text.tokens[start:end])
        depth += (word == "{") - (word == "}")
        waiting += (word == "match") - (word == "{")
    return ""
