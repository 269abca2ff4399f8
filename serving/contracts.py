"""A contract that is open: what its names are, where they stand, and which words may stand at a place."""
from explaining.names import SPACES, USED
from explaining.stuck import SPAWNED
from explaining.texts import Text

from .places import Places
from .reading import CASE, LOST, Front, process_at, reached, types_of

# What the protocol calls a declaration, by its first word, and a word that is offered, by what it is.
SYMBOLS = {"type": 23, "fn": 12, "proc": 6}
OFFERED = {
    "definition": 22, "function": 3, "process": 2, "channel": 6, "value": 6, "list": 6, "label": 20, "word": 14,
    "talk": 15, "account": 21,
}
TALK = "talk"
LABELS = {("step", 0): "label", ("branch", 0): "label"}


def offered(word, kind, detail=""):
    """Gives a word that may stand there, as the protocol has it."""
    return {"label": word, "kind": OFFERED[kind], **({"detail": detail} if detail else {})}


class Contract:
    """A version of a contract: its text, what reads of it, and what the program answered, if it has."""

    is_script = False

    def __init__(self, uri, name, data, leaves):
        self.uri, self.text, self.leaves = uri, Text(name, data), leaves
        self.places, self.answer, self.found, self._types = Places(self.text), None, [], ()

    @property
    def types(self):
        """The types of what reads, or nothing; they are looked for once."""
        if self._types == ():
            self._types = types_of(self.text, self.leaves)
        return self._types

    def index(self, offset):
        """Gives the number of the word at a byte, or of the one that ends there, among what reads."""
        found = [at for at, it in enumerate(self.types.tokens) if it.kind == "word" and it.at <= offset <= it.end]
        return found[-1] if found else None

    def kind(self, at):
        """Gives as what a word is declared or used, if it is a name."""
        key = self.types.key(at)
        return LABELS.get(key) or self.types.declared(at) or self.types.used(at)

    def head(self, process):
        """Gives the head of a process, with what it takes where the contract is accepted."""
        types = self.types
        end = next(it for it in range(process.at, len(types.tokens)) if types.tokens[it].text == "=")
        lines = self.answer.lines if self.answer and self.answer.is_accepted else []
        bound = [" ".join(it) for it in lines if it[:2] == ["bound", process.name]]
        return "\n".join([types.said(process.at - 2, end), *bound])

    def told(self, name, kind):
        """Gives what a declared name is, or nothing."""
        types = self.types
        if kind == "definition" and name in types.bodies:
            body = types.bodies[name]
            return f"type {name} = {types.said(body.at, body.end)}"
        if kind == "process" and name in types.processes:
            return self.head(types.processes[name])
        if kind == "function":
            at = next((at for at, it in types.places(name) if it == kind), None)
            if at is not None:
                end = next(it for it in range(at, len(types.tokens)) if types.tokens[it].text == "=")
                return types.said(at - 1, end)
        return None

    def channels(self, offset):
        """Gives the types, the instruction at a byte with what is held before it, or nothing."""
        types = self.types
        process = types and process_at(types, offset)
        found = process and reached(types, process, offset)
        return found and (types, *found)

    def channel(self, offset, name):
        """Gives the types with what a channel is at where an instruction uses or binds it, or nothing."""
        found = self.channels(offset)
        if found:
            types, step, held = found
            if name not in held:
                types.behind(held, step, None)
            return (types, held[name]) if name in held else None
        front = Front(self.text, self.leaves, offset)
        first = front.first() if front.is_read else None
        found = None if first is None else front.held(first)
        return (found[0], found[1][name]) if found and name in found[1] else None

    def of_head(self, at):
        """Gives a channel of a head with its type."""
        types = self.types
        process = process_at(types, types.tokens[at].at)
        held = types.start(process) if process else {}
        it = held.get(types.tokens[at].text)
        return it and (types, it)

    def word(self, offset):
        """Gives the word at a byte, whether what it stands in reads or not."""
        return next((it for it in self.text.tokens if it.kind == "word" and it.at <= offset <= it.end), None)

    def hover(self, position):
        """Gives what the name at a place is: a channel with what it is at there, or the head of a declaration."""
        offset = self.places.offset(position)
        word = self.word(offset)
        if word is None or self.types is None:
            return None
        try:
            return self.hovered(word)
        except LOST:
            return None

    def hovered(self, word):
        at = self.index(word.at)
        kind = self.kind(at) if at is not None and self.types.tokens[at] == word else None
        if kind in SPACES:
            return self.told(word.text, kind)
        if kind == "label":
            return None
        is_head = kind and self.types.key(at) == ("cpar", 0)
        found = self.of_head(at) if is_head else self.channel(word.at, word.text)
        return found and f"`{word.text}` is at `{found[0].words(found[1].type)}`"

    def declared(self, at):
        """Gives the token that declares or binds the name of a token, if it is found."""
        types, kind = self.types, self.kind(at)
        if types.key(at) == ("lab", 0):
            return at
        if kind == "label":
            return self.label(at)
        found = [it for it, what in types.places(types.tokens[at].text) if what == kind or kind not in SPACES]
        if kind not in SPACES:
            bound = [it for it in found if types.declared(it) not in (*SPACES, "label")]
            found = [it for it in bound if it <= at and types.leads(it, at)][-1:]
        return found[0] if kind and found else None

    def label(self, at):
        """Gives the token of a label in the type of the channel that it is said or heard on."""
        types, tokens = self.types, self.types.tokens
        process = process_at(types, tokens[at].at)
        if types.key(at) == ("branch", 0):
            opening = types.opening(at)
            via, start = tokens[opening - 1].text, opening - 2
        else:
            via, start = tokens[at - 2].text, at - 2
        found = process and reached(types, process, tokens[start].at)
        whole = types.unfolded(found[1][via].type) if found and via in found[1] else None
        parts = whole.parts if whole and whole.sign in ("+", "&") else ()
        return next((it.at - 2 for label, it in parts if label == tokens[at].text), None)

    def uses(self, at):
        """Gives the tokens that stand for the same as a token, and the one that declares it."""
        first, name = self.declared(at), self.types.tokens[at].text
        if first is None:
            return None, []
        here = [it for it, token in enumerate(self.types.tokens) if token.text == name and self.kind(it)]
        return first, [it for it in here if self.declared(it) == first]

    def place(self, at):
        token = self.types.tokens[at]
        return {"uri": self.uri, "range": self.places.range(token.at, token.end)}

    def named(self, position):
        """Gives the number of the name at a place, or nothing."""
        return None if self.types is None else self.index(self.places.offset(position))

    def definition(self, position):
        """Gives where the name at a place is declared or bound."""
        at = self.named(position)
        try:
            found = None if at is None else self.declared(at)
        except LOST:
            found = None
        return [] if found is None else [self.place(found)]

    def references(self, position, is_whole=True):
        """Gives where the name at a place stands, with its declaration or without it."""
        at = self.named(position)
        try:
            first, found = (None, []) if at is None else self.uses(at)
        except LOST:
            return []
        return [self.place(it) for it in sorted({*found, first} - {None}) if is_whole or it != first]

    def symbols(self):
        """Gives the declarations, each with its name."""
        found, tokens = [], self.text.tokens
        for at, it in enumerate(tokens):
            name = tokens[at + (1 if it.text == "fn" else 2)] if at + 2 < len(tokens) else it
            if it.text in SYMBOLS and name.kind == "word":
                end = next((other.at for other in tokens[at + 1 :] if other.text in SYMBOLS), len(self.text.data))
                behind = max(other.end for other in tokens[at:] if other.at < end)
                where = {"range": self.places.range(it.at, behind)}
                where["selectionRange"] = self.places.range(name.at, name.end)
                found.append({"name": name.text, "kind": SYMBOLS[it.text], **where})
        return found

    def completion(self, position):
        """Gives the words that may stand at a place."""
        offset = self.places.offset(position)
        word = self.word(offset)
        start = word.at if word and word.at < offset else offset
        if any(it.at < start < it.end for it in self.text.tokens) or self.is_comment(start):
            return []
        front = Front(self.text, self.leaves, start)
        try:
            return self.offered(front) if front.is_read else []
        except LOST:
            return []

    def is_comment(self, offset):
        line = self.text.text[self.text.text.rfind("\n", 0, offset) + 1 : offset]
        return "//" in line

    def offered(self, front):
        """Gives the words that may stand behind what reads: words of the language, and names by what they are for."""
        first = front.first()
        held = None if first is None else front.held(first)
        found = [offered(it, "label") for it in self.labels(front, held)]
        if held and first == len(front.tokens):
            found += [it for name, channel in held[1].items() for it in self.talk(held[0], name, channel)]
        for kind in dict.fromkeys(self.wanted(front)):
            found += self.names(front, kind, held)
        words = {it.text for it in front.next} & front.leaves.grammar.reserved
        heads = set(SYMBOLS) if front.may_end and front.tokens[:1] and front.tokens[0].text in SYMBOLS else set()
        return found + [offered(it, "word") for it in sorted(words | heads)]

    @staticmethod
    def wanted(front):
        """Gives as what the names are used that may stand there."""
        for leaf in front.next:
            if leaf.text == "NAME":
                yield from (kind for kind, keys in USED.items() if (leaf.rule, leaf.number) in keys)

    @staticmethod
    def talk(types, name, channel):
        """Gives the instructions with which the talk on a channel goes on."""
        said = f"`{name}` is at `{types.words(channel.type)}`"
        if name != "self" and types.is_shared(channel.type):
            return [offered(f"acquire {name} as", TALK, said)]
        words = types.talk(name, channel.type)
        return [offered(it.split(" ..")[0].split(" {")[0], TALK, said) for it in words]

    def labels(self, front, held):
        """Gives the labels that may stand there: those that are sent, or those of branches that are still missing."""
        tokens = front.tokens
        if any((it.rule, it.text) == ("step", "NAME") and it.number == 0 for it in front.next) and tokens[-1:]:
            via = tokens[-2].text if tokens[-1].text == "." else ""
            types, channels = held or (None, {})
            talk = types.talk(via, channels[via].type) if via in channels else []
            return [it.partition(".")[2] for it in talk if it.startswith(f"{via}.")]
        if any((it.rule, it.text) == ("branch", "NAME") for it in front.next):
            return self.branches(front)
        return []

    @staticmethod
    def branches(front):
        """Gives the labels of a `case` that have no branch yet."""
        opening = front.open_braces(len(front.tokens))[-1]
        held = front.held(opening - 2) if front.read[opening].number == CASE else None
        via = front.tokens[opening - 1].text
        if not held or via not in held[1]:
            return []
        whole = held[0].unfolded(held[1][via].type)
        inside = front.within(opening, len(front.tokens))
        taken = {it.text for it, leaf in inside if leaf.rule == "branch" and leaf.text == "NAME"}
        return [label for label, _ in whole.parts if label not in taken] if whole.sign in ("+", "&") else []

    @staticmethod
    def may_begin(front, process):
        """Whether a process may be spawned or called, by its mode and that of the one at the cursor."""
        mode = front.tokens[1].text
        is_spawned = any((it.text, it.rule, it.number) == ("NAME", "step", 10) for it in front.next)
        return process.mode in (SPAWNED[mode] if is_spawned else mode)

    def names(self, front, kind, held):
        """Gives the names that may be used so there, each with what it is."""
        types = held[0] if held else self.types
        if types is None:
            return []
        if kind == "channel":
            channels = held[1] if held else {}
            found = [(name, it.type) for name, it in channels.items() if name != "self"]
            return [offered(name, kind, types.said(it.at, it.end)) for name, it in found]
        if kind in SPACES:
            known = dict.fromkeys(it.text for at, it in enumerate(types.tokens) if types.declared(at) == kind)
            if kind == "process":
                known = [it for it in known if self.may_begin(front, types.processes[it])]
            return [offered(it, kind, (self.told(it, kind) or "").partition("\n")[0]) for it in known]
        names = [offered(it, kind) for it in front.bound(kind)]
        return names + (self.names(front, "function", held) if kind == "value" else [])
