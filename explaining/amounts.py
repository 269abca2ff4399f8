"""Which amounts are too small where no amounts do, and what to write in their place.

Amounts are left open, as by a reader who writes {*} for them, and the program is asked again. What is said here was
tried: with each amount written as is said, the program accepts the contract.
"""
from typing import NamedTuple

from .mends import mend, says
from .texts import Text

STARS = 64
# What a cost model puts before an instruction that it charges, and how many amounts of `work` are looked at.
PRICE = "work {1}; "
MOST_WORKS = 100
# Amounts that are tried to be left as they are come in this order; so those that a payer declares are changed last.
ORDER = ("type", "list", "get", "head", "pay", "bound")
LEVELS = (("head", "bound", "pay", "get"), ("head", "bound", "pay", "get", "type", "list"))


class Amount(NamedTuple):
    """A written amount, or the place behind the parameters where one is not written: from where to where it stands, and
    what it is an amount of."""

    kind: str
    at: int
    end: int
    value: int

    @property
    def is_missing(self):
        return self.at == self.end

    def edit(self, text):
        return (self.at, self.end, f" {{{text}}}" if self.is_missing else str(text))


def kind_of(tokens, at):
    """Gives what the amount behind the { at this place is an amount of."""
    before = [it.text for it in tokens[max(at - 2, 0) : at]]
    if before[-1:] == ["work"]:
        return "work"
    if before[-1:] == ["list"]:
        return "list"
    if before[-1:] in (["|"], ["<"]):
        return "type"
    if before[:1] in (["pay"], ["get"]):
        return before[0]
    return "head"


def closing(tokens, at):
    """Gives the number of the ) of the ( at this place."""
    depth = 0
    for number in range(at, len(tokens)):
        depth += (tokens[number].text == "(") - (tokens[number].text == ")")
        if depth == 0:
            return number
    return None


def amounts_of(text):
    """Gives the amounts of a text that the grammar reads, and how many stars it has."""
    tokens, found, stars = text.tokens, [], 0
    heads = {}
    for at, it in enumerate(tokens):
        if it.text == "proc":
            end = closing(tokens, at + 3)
            heads[end] = "bound" if tokens[at + 1].text == "T" else "head"
            if tokens[end + 1].text != "{":
                found.append(Amount(heads[end], tokens[end].end, tokens[end].end, 0))
        if it.text == "{" and tokens[at + 2].text == "}":
            amount = tokens[at + 1]
            kind = heads.get(at - 1) or kind_of(tokens, at)
            if amount.kind == "number":
                found.append(Amount(kind, amount.at, amount.end, int(amount.text)))
            stars += amount.text == "*"
    return found, stars


class Mends:
    """The contract, and the program that it is tried on with other amounts."""

    def __init__(self, text, program):
        self.text, self.program = text, program
        self.all, self.stars = amounts_of(text)

    def accepts(self, values):
        """Whether the contract is accepted with these amounts, of which a * leaves one open."""
        return self.program.check(self.text.edited(*(it.edit(new) for it, new in values.items()))).is_accepted

    def found(self, values):
        """Gives what is found for amounts that are left open, a number of units or a * where it is no whole one."""
        answer = self.program.least(self.text.edited(*(it.edit(new) for it, new in values.items())))
        stars = [it[3] for it in answer.lines if it[:1] == ["star"]]
        places = sorted([*values, *self.open_places()], key=lambda it: it if isinstance(it, int) else it.at)
        return {it: self.whole(star) for it, star in zip(places, stars) if not isinstance(it, int)}

    def open_places(self):
        tokens = self.text.tokens
        return [it.at for at, it in enumerate(tokens) if it.text == "*" and at and tokens[at - 1].text == "{"]

    def whole(self, star):
        parts = [int(it) for it in star.split("/")] + [1]
        return parts[0] // parts[1] if parts[0] % parts[1] == 0 else "*"

    def find(self):
        """Gives the amounts to change with what to write for each; nothing where none of them do; none where they are
        too many to be left open."""
        for kinds in LEVELS:
            opened = [it for it in self.all if it.kind in kinds]
            if self.stars + len(opened) > STARS:
                opened = [it for it in opened if not it.is_missing]
            if self.stars + len(opened) > STARS:
                return None
            if opened and self.accepts(dict.fromkeys(opened, "*")):
                return self.settled(opened)
        return {}

    def settled(self, opened):
        """Gives amounts that have to be other ones, each of them while the others may be any, with what will do."""
        left = dict.fromkeys(opened, "*")
        found = self.found(left)
        kept = {it: new for it, new in left.items() if found.get(it) != it.value}
        if kept and self.accepts(kept):
            left = kept
        for it in sorted(left, key=lambda it: ORDER.index(it.kind)):
            less = {other: new for other, new in left.items() if other is not it}
            if self.accepts(less):
                left = less
        values = {it: self.found(left).get(it, "*") for it in left}
        for it in values:
            values[it] = self.least(it, values)
        return self.kept(values) if self.accepts(values) else left

    def kept(self, values):
        """Gives amounts that do, of which those that are to be less than they are written are as great as they can be:
        together, where they are written alike."""
        for old in {it.value for it, new in values.items() if new != "*" and new < it.value}:
            those = [it for it, new in values.items() if it.value == old and new != "*" and new < old]
            low, high = min(values[it] for it in those), old
            while low + 1 < high:
                middle = (low + high) // 2
                if self.accepts({**values, **dict.fromkeys(those, middle)}):
                    low = middle
                else:
                    high = middle
            more = {**values, **dict.fromkeys(those, low)}
            values = more if self.accepts(more) else values
        return values

    def least(self, amount, values):
        """Gives the least number that does for one amount, while the others are as they are."""
        low, high = amount.value + 1, values[amount]
        if high == "*":
            return high
        while low < high:
            middle = (low + high) // 2
            if self.accepts({**values, amount: middle}):
                high = middle
            else:
                low = middle + 1
        return high

    def unpaid(self):
        """Gives the amounts of `work` that nobody has the gas for, whatever other amounts are written."""
        others = [it for it in self.all if it.kind in LEVELS[1]]
        works = [it for it in self.all if it.kind == "work" and it.value]
        opened = dict.fromkeys(others, "*")
        if not works or len(works) > MOST_WORKS or not self.accepts({**opened, **dict.fromkeys(works, 0)}):
            return []
        left = list(works)
        for it in works[::-1]:
            less = [other for other in left if other is not it]
            if self.accepts({**opened, **dict.fromkeys(less, 0)}):
                left = less
        return left


def parts(tokens, at):
    """Whether a token is a sign that a code begins behind, and no brace of an amount."""
    text = tokens[at].text
    if text == "{":
        return tokens[at + 2].text != "}"
    return text in ("=>", "=", "|") or text == "}" and tokens[at - 2].text != "{"


def earlier(text, program):
    """Gives the place of an instruction that gets gas behind others which have spent it before, with a line on where to
    write it, where the contract is accepted then."""
    tokens = text.tokens
    for at, it in enumerate(tokens):
        if it.text != "get" or tokens[at - 1].text != ";":
            continue
        start = next(place for place in range(at, 0, -1) if parts(tokens, place - 1))
        begins = [place for place in range(start, at) if place == start or tokens[place - 1].text == ";"]
        via, code = tokens[at + 1].text, text.text[it.at : tokens[at + 6].at]
        talks = [place for place in begins if via in (tokens[place].text, tokens[place + 1].text)
                 or tokens[place].text in ("accept", "detach", "acquire")]
        begins = [place for place in begins if not talks or place > talks[-1]]
        if begins:
            one = tokens[begins[0]]
            edits = (one.at, one.at, code), (it.at, tokens[at + 6].at, "")
            if program.check(text.edited(*edits)).is_accepted:
                words = f"write `{code.strip()}` before `{one.text}` at {text.place(one.at)}, and not here"
                return [(it.at, mend(words, *edits))]
    return []


def said(amount, value):
    """Gives in words what to write for an amount."""
    if amount.is_missing:
        return says("missing", more=value)
    if value != "*" and value > amount.value:
        return says("small", amount=amount.value, more=value)
    how = "is left open, since no whole number does" if value == "*" else "is not what is due here"
    return f"{amount.value} {how}; write `{{{value}}}`"


def unpaid(text, program, charged):
    """Gives the offset of each `work` that nobody has the gas for, and of each instruction that is charged by the cost
    model, of which the offsets are given, with how much that is. The model is written out for that."""
    edits = [(at, at, PRICE) for at in charged]
    if edits:
        edits.append((text.tokens[0].at, text.tokens[2].end, ""))
    works = Mends(Text(text.name, text.edited(*edits)), program).unpaid()
    head = text.tokens[2].end - text.tokens[0].at if edits else 0
    prices = {at - head + number * len(PRICE) + PRICE.index("1"): at for number, at in enumerate(sorted(charged))}
    for it in works:
        before = sum(at < it.at for at in prices)
        yield prices.get(it.at, it.at + head - before * len(PRICE)), it.value


def written_work(text, answer, program):
    """Gives a line for a `work` that is written where the cost model puts one before every instruction."""
    at = text.index_at(answer.offset)
    end = next((it for it in range(at, len(text.tokens) - 1) if text.tokens[it].text == ";"), None)
    if end is None:
        return []
    said = text.text[answer.offset : text.tokens[end].end]
    edit = (answer.offset, text.tokens[end + 1].at, "")
    after = program.check(text.edited(edit))
    is_gone = not after.is_cause("Cost") or after.offset >= answer.offset
    words = f"take `{said}` out, since each instruction costs 1 under `cost all`"
    return [mend(words, edit)] if is_gone else []


def explained(text, program, charged, brought=lambda at, value: []):
    """Gives the row that fits a text whose amounts do not do, and places with lines on what to write there. The
    offsets of the instructions that the cost model charges are given, and which lines there are on how what is spent at
    one of them is brought there."""
    early = earlier(text, program)
    if early:
        return "NoPotential amount", early
    mends = Mends(text, program)
    values = mends.find()
    if values is None:
        return "NoPotential", []
    if values:
        places = sorted(values, key=lambda it: it.at)
        edits = [it.edit(values[it]) for it in places]
        return "NoPotential amount", [(it.at, mend(said(it, values[it]), *edits)) for it in places]
    works = list(unpaid(text, program, charged))
    see = "see: {} spent here, and nothing brings it"
    return "NoPotential none", [(at, *brought(at, value), see.format(value)) for at, value in works]
