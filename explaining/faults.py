"""Which term of which instruction had a fault, and with which values."""
from .standing import course
from .telling import Telling

FORMS = ("put", "spawn", "let", "add", "emit", "if", "call")
# The signs that can have a fault; any can come out of a function too.
SIGNS = {"Overflow": "+-*/", "DivideByZero": "/%", "ListLength": ("::",), "TermSteps": (), "Depth": ()}


class Fault:
    """A batch that ended with a fault, the process that had it, and the instruction at which that stands."""

    def __init__(self, run, entry, found):
        words = entry[0]
        self.run, self.number, self.pid, self.fault = run, int(words[1]), int(words[3]), words[4]
        self.course = found[1] if found and found[0].entries[-1] == entry else None
        self.standing = self.course.processes.get(self.pid) if self.course else None
        self.step = self.course.at(self.standing, FORMS) if self.standing else None

    def who(self):
        """Gives in words which process it is."""
        line = self.standing.line if self.standing else None
        if line and line.word == "exec":
            return f"line {line.number}"
        names = [name for name, pid in self.course.contracts.items() if pid == self.pid] if self.course else []
        if names:
            return f"the contract `{names[0]}`"
        return f"process {self.pid}" + (f", a `{self.standing.process.name}`" if self.standing else "")

    def within(self):
        """Gives the numbers of the tokens of the instruction."""
        return range(self.step.at, self.step.end)

    def at(self):
        """Gives the offset of what has the fault, or of the instruction where several parts may."""
        codes, signs = self.run.codes, SIGNS[self.fault]
        found = [
            at
            for at in self.within()
            if codes.used(at) == "function"
            or codes.tokens[at].text in signs and codes.rule(at) in ("sum", "prod", "cons")
        ]
        return codes.tokens[found[0] if len(found) == 1 else self.step.at].at

    def values(self):
        """Gives the variables that the terms of the instruction use and do not bind, in order."""
        codes = self.run.codes
        bound = {codes.tokens[at].text for at in self.within() if codes.declared(at)}
        used = [codes.tokens[at].text for at in self.within() if codes.used(at) == "value"]
        return [it for it in dict.fromkeys(used) if it not in bound]

    def told(self):
        """Gives a line on the values of the variables, where these are sure."""
        values = Telling(self).find()
        if not values:
            return []
        names = self.values()
        said = [f"`{name}` is {it}{self.whose(name, it)}" for name, it in zip(names, values)]
        return ["see: there " + ", ".join(said)]

    def whose(self, name, value):
        """Gives in words the account that a value is the number of, where the contract has it as one."""
        known = self.run.script.accounts(self.number)
        is_number = value.isdecimal() and int(value) < len(known)
        if not is_number or not self.run.accounts().is_named(self.step, name):
            return ""
        return f", the account `{known[int(value)]}`"

    def lines(self):
        if self.step is None:
            return [f"see: {self.who()} had the fault"]
        at, text = self.at(), self.run.text
        head = f"{text.place(at)}: {self.fault} in {self.who()}"
        return [head, *text.shown(at), *self.told(), *self.payer()]

    def payer(self):
        """Gives a line on the account that `me` is, where the instruction has one."""
        line, script = self.standing.line, self.run.script
        if not line or "me" not in [self.run.codes.tokens[at].text for at in self.within()]:
            return []
        known, name = script.accounts(self.number), line.sender.text
        return [f"see: there `me` is {known.index(name)}, the account `{name}`"] if name in known else []


def explained(run, entry):
    """Gives the place in the script, the cause, the row of docs/CAUSES.md, and lines on where the fault is."""
    number = int(entry[0][1])
    fault = Fault(run, entry, course(run, run.script.batch(number)[1]))
    cause = f"aborted {fault.fault}"
    line = fault.standing.line if fault.standing else None
    row = line if line and line.number in [it.number for it in run.script.batch(number)[0]] else run.script.row(number)
    return row.tokens[0].at, cause, cause, fault.lines()
