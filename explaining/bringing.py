"""Gas that nobody brings to where it is spent: how the client brings it, by the type of who spends it."""
from .held import Types
from .mends import mend
from .texts import LONGEST


class Bringing:
    """A text whose amounts do not do, whatever they are, by its types."""

    def __init__(self, text, program, grammar):
        self.text, self.program = text, program
        self.types = Types(text, grammar) if text.size <= LONGEST else None

    def held(self, index):
        """Gives the process that an instruction is of, which begins at a token, with what it holds there."""
        process = [it for it in self.types.processes.values() if it.at < index][-1]
        steps, _ = self.types.ways(process, index)
        held = self.types.start(process)
        for step, label in steps:
            self.types.behind(held, step, label)
        return process, held

    def lines(self, at, spent):
        """Gives a line by which the client pays what is spent at the amount of a `work`, or at an instruction that the
        cost model charges: with it, nothing is missing there, and who is the client has to pay."""
        index = self.text.index_at(at)
        if self.types is None:
            return []
        index -= 2 if [it.text for it in self.types.tokens[index - 2 : index]] == ["work", "{"] else 0
        process, held = self.held(index)
        own, first = held.get("self"), self.types.tokens[index]
        if process.mode == "T" or own is None or own.type == own.first or self.types.is_shared(own.type):
            return []
        start = self.types.tokens[own.type.at]
        edits = (start.at, start.at, f"<{{{spent}}}| "), (first.at, first.at, f"get self {{{spent}}}; ")
        words = f"write `<{{{spent}}}|` before `{start.text}` at {self.text.place(start.at)}, in the type, and "
        where = f"`{first.text}`" if first.at != at else "it"
        words += f"`get self {{{spent}}};` before {where}, so that the client brings it"
        after = self.program.check(self.text.edited(*edits))
        does = after.is_accepted or after.is_cause("ProcType") or after.is_cause("NoPotential")
        return [mend(words, *edits)] if does else []
