"""With which values a term had a fault: the process is made to tell them before the instruction.

The term is left out there, so that the batch comes to its end. The values that are told then are believed only where
the batch ends so once more with the term in its place everywhere but at these values, at which alone it has the fault.
"""
from .passing import separated

# What stands in the place of a term, by the form of its instruction, and in that of an argument, by its kind.
STANDING_FOR = {"emit": ("0",), "if": ("true", "false"), "put": ("0", "true"), "let": ("0", "true")}
ARGUMENTS = {"int": ("0", "1"), "bool": ("true", "false")}
# Behind how many tokens of an instruction its term begins.
BEHIND = {"put": 2, "let": 3}
THOUSAND = 1_000_000_000


def written(value):
    """Gives a whole number as a term, of numbers that are not too long for a contract."""
    sign, parts, left = ("-" if value < 0 else "+"), [], abs(value)
    while left or not parts:
        parts.append(left % THOUSAND)
        left //= THOUSAND
    text = str(parts[-1]) if value >= 0 else f"(0 - {parts[-1]})"
    for it in parts[-2::-1]:
        text = f"({text} * {THOUSAND} {sign} {it})"
    return text


def is_told(name, value):
    """Gives in a term that a variable has a value of the report; nothing where that cannot be written."""
    if value in ("true", "false"):
        return name if value == "true" else f"not {name}"
    return f"{name} = {written(int(value))}" if value.lstrip("-").isdecimal() else ""


class Telling:
    """The instruction at which a process had a fault, in a script that is run again without the lines that were
    undone."""

    def __init__(self, fault):
        self.run, self.step, self.standing, self.pid = fault.run, fault.step, fault.standing, fault.pid
        self.number, self.fired, self.seen = fault.number, fault.course.fired, fault.course.seen
        self.names = fault.values()
        self.codes = self.run.codes

    def at(self):
        """Gives the offset of the instruction."""
        return self.codes.tokens[self.step.at].at

    def terms(self):
        """Gives from which token to which the terms of the instruction stand, each with what may stand for it."""
        step = self.step
        if step.form in STANDING_FOR:
            return [((step.at + BEHIND.get(step.form, 1), step.end), STANDING_FOR[step.form])]
        if step.form not in ("call", "spawn"):
            return []
        at = next(it for it in range(step.at, step.end) if self.codes.used(it) == "process")
        kinds = [it.type for it in self.codes.processes[self.codes.tokens[at].text].of_kind("value")]
        end = next(it for it in range(at, step.end) if self.codes.tokens[it].text == ";")
        given = [ARGUMENTS.get(it, (f"nil {it[5:]}",) * 2) for it in kinds]
        return list(zip(separated(self.codes.tokens, at + 2, end), given))

    def undone(self):
        """Gives edits that leave out the lines before that were not carried out."""
        for start, end in self.run.ends.items():
            if start < self.number and end[0] not in ("deposited", "committed", "show"):
                last = self.run.script.batch(start)[1]
                for row in self.run.script.rows[start - 1 : last]:
                    yield row.at, row.end, ""

    def asked(self, choice, values=None):
        """Gives the values that are told where something stands for the terms: everywhere, or at these values alone."""
        codes, edits, at = self.codes, [], self.at()
        edits.append((at, at, "".join(f"emit {it}; " for it in self.names)))
        there = [is_told(name, it) for name, it in zip(self.names, values or ())]
        if "" in there:
            return None
        for (start, end), given in self.terms():
            new, old = given[min(choice, len(given) - 1)], codes.said(start, end)
            term = f"(if {' and '.join(there)} then {new} else ({old}))" if values else new
            edits.append((codes.tokens[start].at, codes.tokens[end - 1].end, f" {term} "))
        last, contract = self.run.script.batch(self.number)[1], self.run.text.edited(*edits)
        answer = self.run.asked(last, *self.undone(), contract=contract)
        if answer is None or answer.status not in (0, 3) or answer.entries[-1][0][2] != "committed":
            return None
        return self.told(answer.entries[-1])

    def told(self, entry):
        """Gives the values that the process told last before the instruction had the fault."""
        results = [it[2] for it in entry if it[0] == "result" and it[1] == str(self.pid)]
        emitted = sum(form == "emit" for standing, form in self.fired if standing is self.standing)
        first = emitted + self.standing.passed.get(self.at(), 0) * len(self.names)
        found = results[first : first + len(self.names)]
        return found if len(found) == len(self.names) else None

    def find(self):
        """Gives the values, or nothing where they are not sure."""
        if not self.names:
            return None
        for choice in range(2 if self.terms() else 0):
            values = self.asked(choice)
            if values and (self.is_first() or self.asked(choice, values) == values):
                return values
        return None

    def is_first(self):
        """Whether no process came to the instruction before, so that nothing was left out but at the fault."""
        return self.at() not in self.seen
