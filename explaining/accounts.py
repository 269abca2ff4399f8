"""Which values of a contract are numbers of accounts: those that `me` comes to, or that are compared with such.

A value has a place: the token that binds its name, the parameter, the function, or the word of its kind in a type. Two
places belong together where a value goes from one to the other as it is, or where both are compared by `=`.
"""
from .passing import separated

PAYER = "me"
# Behind how many tokens of an instruction its term begins.
BEHIND = {"put": 2, "let": 3, "emit": 1, "if": 1}


class Accounts:
    """The places of a contract that is accepted, and which of them belong together."""

    def __init__(self, types):
        self.types, self.tokens, self.above, self.bound = types, types.tokens, {}, {}
        self.functions()
        for process in types.processes.values():
            names = {it.name: (process.name, it.name) for it in process.of_kind("value")}
            self.walk(process.first, types.start(process), names)

    def top(self, place):
        while place in self.above:
            place = self.above[place]
        return place

    def join(self, places):
        """Has places belong together."""
        tops = list(dict.fromkeys(self.top(it) for it in places))
        for it in tops[1:]:
            self.above[it] = tops[0]

    def is_account(self, place):
        return self.top(place) == self.top(PAYER)

    def is_named(self, step, name):
        """Whether the value of a name at an instruction is the number of an account."""
        return name in self.bound.get(step.at, {}) and self.is_account(self.bound[step.at][name])

    def is_emitted(self, step):
        """Whether the result of an `emit` is the number of an account."""
        return self.is_account(("emit", step.at))

    def functions(self):
        """Goes through the bodies of the functions."""
        for at, it in enumerate(self.tokens):
            if it.text == "fn":
                equal = next(other for other in range(at, len(self.tokens)) if self.tokens[other].text == "=")
                end = next(other for other in range(equal, len(self.tokens)) if self.tokens[other].text == ";")
                name = self.tokens[at + 1].text
                words = range(at + 2, equal)
                names = {self.tokens[other].text: (name, self.tokens[other].text)
                         for other in words if self.types.key(other) == ("vpar", 0)}
                self.join([name, *self.places(equal + 1, end, names)])
                self.terms(equal + 1, end, names)

    def places(self, start, end, names):
        """Gives the places that the value of a term comes from as it is."""
        tokens = self.tokens
        while end - start > 2 and tokens[start].text == "(" and self.closing(start) == end - 1:
            start, end = start + 1, end - 1
        if end - start == 1:
            text = tokens[start].text
            return [PAYER] if text == PAYER else [names[text]] if text in names else []
        if self.types.used(start) == "function" and self.closing(start + 1) == end - 1:
            return [tokens[start].text]
        if tokens[start].text == "if":
            then = next(at for at in range(start, end) if self.is_outer(at, "then", start))
            other = next((at for at in range(then, end) if self.is_outer(at, "else", then)), end)
            return [*self.places(then + 1, other, names), *self.places(other + 1, end, names)]
        return []

    def is_outer(self, at, text, start):
        """Whether a token is this word, in no parentheses and in no other `if` behind the first token."""
        words = [it.text for it in self.tokens[start + 1 : at]]
        depth = words.count("if") - words.count("else") if text == "else" else words.count("if") - words.count("then")
        return self.tokens[at].text == text and not depth and words.count("(") == words.count(")")

    def closing(self, at):
        depth = 0
        for it in range(at, len(self.tokens)):
            depth += (self.tokens[it].text == "(") - (self.tokens[it].text == ")")
            if depth == 0:
                return it
        return None

    def terms(self, start, end, names):
        """Has belong together what is compared, and what is given to functions, between two tokens."""
        for at in range(start, end):
            if self.tokens[at].text == "=" and self.types.leaves[at].rule == "cmp":
                sides = self.places(at - 1, at, names), self.places(at + 1, at + 2, names)
                self.join([it for side in sides for it in side] if all(sides) else [])
            if self.types.used(at) == "function":
                close = self.closing(at + 1)
                rows = list(separated(self.tokens, at + 2, close))
                for (one, other), name in zip(rows, self.parameters(self.tokens[at].text)):
                    self.join([name, *self.places(one, other, names)])

    def parameters(self, function):
        """Gives the places of the parameters of a function."""
        at = next(it for it, kind in self.types.places(function) if kind == "function")
        close = self.closing(at + 1)
        return [(function, self.tokens[it].text) for it in range(at, close) if self.types.key(it) == ("vpar", 0)]

    def walk(self, step, held, names):
        """Goes through the instructions behind one, on each way."""
        while True:
            self.instruction(step, held, names)
            if len(step.behind) != 1:
                break
            label, further = step.behind[0]
            self.types.behind(held, step, label)
            step = further
        for label, further in step.behind:
            there = dict(held)
            self.types.behind(there, step, label)
            self.walk(further, there, dict(names))

    def instruction(self, step, held, names):
        """Has belong together what an instruction brings together, and binds what it binds."""
        words = [it.text for it in self.tokens[step.at : step.end]]
        self.bound[step.at] = dict(names)
        if step.form in ("put", "take"):
            kind = ("type", self.types.unfolded(held[words[1]].type).at)
        if step.form == "take":
            names[words[2]] = ("name", step.at + 2)
            self.join([kind, names[words[2]]])
        if step.form in BEHIND:
            start = step.at + BEHIND[step.form]
            found = self.places(start, step.end, names)
            self.terms(start, step.end, names)
            if step.form == "put":
                self.join([kind, *found])
            if step.form == "let":
                names[words[1]] = ("name", step.at + 1)
                self.join([names[words[1]], *found])
            if step.form == "emit":
                self.join([("emit", step.at), *found])
        if step.form in ("call", "spawn"):
            self.given(step, names)

    def given(self, step, names):
        at = next(it for it in range(step.at, step.end) if self.types.used(it) == "process")
        process = self.types.processes[self.tokens[at].text]
        end = next(it for it in range(at, step.end) if self.tokens[it].text == ";")
        values = [it for it in process.parameters if it.kind != "channel"]
        for (one, other), it in zip(separated(self.tokens, at + 2, end), values):
            if it.kind == "value":
                self.join([(process.name, it.name), *self.places(one, other, names)])
                self.terms(one, other, names)
