"""The processes of an accepted contract: their parameters, and their instructions with what comes behind each."""
from typing import NamedTuple

from .amounts import closing
from .names import Names
from .shapes import LASTS
from .texts import joined


class Parameter(NamedTuple):
    """A parameter: its name, whether it is a value, a list that carries potential or a channel, and its type as
    text."""

    name: str
    kind: str
    type: str


class Step:
    """An instruction: its form, its first token and the one behind its last, and what may come behind it, each with
    the label of the branch that it begins, if it is one."""

    def __init__(self, form, at, end):
        self.form, self.at, self.end, self.behind = form, at, end, []


class Process(NamedTuple):
    """A declaration of a process: the token of its name, its mode, its parameters, what it offers as text, and its
    first instruction."""

    name: str
    at: int
    mode: str
    parameters: list
    offers: str
    first: Step

    def of_kind(self, kind):
        return [it for it in self.parameters if it.kind == kind]


class Codes(Names):
    """The names of an accepted contract, and its processes."""

    def __init__(self, text, grammar):
        super().__init__(text, grammar)
        words = [it.text for it in self.tokens[:2]]
        self.model = words[1] if words[:1] == ["cost"] else "ticks"
        self.processes = {}
        for at, it in enumerate(self.tokens):
            if it.text == "proc":
                process = self.process(at)
                self.processes[process.name] = process
        self.shared = {
            self.tokens[at + 2].text
            for at, it in enumerate(self.tokens)
            if it.text == "type" and self.tokens[at + 1].text == "S"
        }

    def rule(self, at):
        return self.leaves[at].rule

    def said(self, start, end):
        """Gives the text from one token up to another one, in one line."""
        return joined(self.tokens[start:end])

    def process(self, head):
        opening = head + 3
        end = closing(self.tokens, opening)
        first = next(at for at in range(end, len(self.tokens)) if self.tokens[at].text == "=")
        parameters = list(self.parameters(opening + 1, end))
        colon = next((at for at in range(end, first) if self.tokens[at].text == ":"), first - 1)
        mode, name = self.tokens[head + 1].text, self.tokens[head + 2].text
        return Process(name, head + 2, mode, parameters, self.said(colon + 1, first), self.code(first + 1))

    def parameters(self, start, end):
        """Gives the parameters that stand from one token up to another one."""
        depth, begin = 0, start
        for at in range(start, end + 1):
            text = self.tokens[at].text
            ends = at == end or depth == 0 and text in (",", ";")
            depth += (text in "({") - (text in ")}")
            if ends and begin < at:
                kind = {"vpar": "value", "par": "list"}.get(self.rule(begin), "channel")
                yield Parameter(self.tokens[begin].text, kind, self.said(begin + 2, at))
            if ends:
                begin = at + 1

    def code(self, at):
        """Gives the first instruction of the code that begins at a token."""
        steps = []
        while not (self.rule(at) == "last" and self.tokens[at].text in LASTS):
            end = next(it for it in range(at, len(self.tokens)) if self.ends(it))
            steps.append(Step(self.form(at), at, end))
            at = end + 1
        steps.append(self.last(at))
        for before, it in zip(steps, steps[1:]):
            before.behind = [(None, it)]
        return steps[0]

    def ends(self, at):
        return self.tokens[at].text == ";" and self.rule(at) == "code"

    def form(self, at):
        text = self.tokens[at].text
        if self.tokens[at + 1].text == ".":
            return "label"
        if text == "let" and self.tokens[at + 3].text == "list":
            return "empty" if self.tokens[at + 4].text == "{" else "add"
        return text

    def last(self, at):
        """Gives the last instruction that begins at a token, with its branches."""
        form = self.tokens[at].text
        if form in ("close", "fwd", "call"):
            end = {"close": at + 1, "fwd": at + 2}.get(form) or closing(self.tokens, at + 2) + 1
            return Step(form, at, end)
        opening = self.find("{", at)
        step = Step(form, at, opening)
        for begin, label in self.branches(form, opening):
            step.behind.append((label, self.code(begin)))
        return step

    def find(self, text, start):
        """Gives the next token of this text that belongs to a last instruction."""
        return next(it for it in range(start, len(self.tokens)) if self.at_last(it, text))

    def at_last(self, at, text):
        return self.tokens[at].text == text and self.rule(at) == "last"

    def branches(self, form, opening):
        """Gives where the branches behind a { begin, each with its label."""
        depth, starts = 0, [opening + 1]
        for at in range(opening, len(self.tokens)):
            is_last = self.rule(at) == "last"
            text = self.tokens[at].text if is_last else ""
            depth += (text == "{") - (text == "}")
            if text == "|" and depth == 1:
                starts.append(at + 1)
            if depth == 0:
                break
        if form == "if":
            return [(opening + 1, None), (self.find("{", at) + 1, None)]
        behind = [next(it for it in range(start, len(self.tokens)) if self.tokens[it].text == "=>") for start in starts]
        return [(arrow + 1, self.tokens[start].text) for start, arrow in zip(starts, behind)]

    def is_charged(self, step):
        """Whether the cost model puts a `work` before an instruction."""
        if self.model == "sends":
            return step.form in ("label", "send", "put", "close")
        return self.model == "all" and step.form != "work"

    def steps(self):
        """Gives each instruction."""
        waiting = [it.first for it in self.processes.values()]
        while waiting:
            step = waiting.pop()
            waiting += [further for _, further in step.behind]
            yield step

    def charged(self):
        """Gives the offset of each instruction that the cost model puts a `work` before."""
        return (self.tokens[it.at].at for it in self.steps() if self.is_charged(it))
