"""What to write in a line of a script that could not be carried out: a deposit, or the start of a process."""
from .arguments import Arguments
from .mends import mend, says
from .names import unused
from .renamed import fresh
from .syntax import nearest
from .texts import listed

MOST_UNITS = 2**64 - 1
# How many processes that offer one type are tried.
MOST_OFFERING, MOST_TRIED = 3, 8
WHAT = {"S": "contracts that can be made", "T": "transactions"}


def units(gas):
    """Gives an amount of gas in whole units, rounded up."""
    parts = [int(it) for it in gas.split("/")] + [1]
    return -(-parts[0] // parts[1])


class Refused:
    """The line of a script that the deposit or the batch at a line was refused by."""

    def __init__(self, run, words):
        self.run, self.number, self.words = run, int(words[1]), words
        self.line = run.script.row(int(words[4]))
        self.cause = words[5]

    def goes_on(self, *edits):
        """Whether more of the batch is carried out with other texts in place of some pieces."""
        return self.run.goes_on(self.number, self.cause, self.line.number, *edits)

    def meant(self, token, known):
        """Gives lines for the nearest of the names that may stand at a token, if the batch goes on with it."""
        for name in nearest(token.text, known):
            if self.goes_on((token.at, token.end, name)):
                return [mend(says("near", name=name), (token.at, token.end, name))]
        return []

    def deposit(self, account, amount):
        """Gives a line for a deposit that is made before."""
        new = f"deposit {account} {amount}"
        if not self.run.goes_on_behind(self.number, self.cause, self.line.number, new):
            return []
        at, place = self.run.script.row(self.number).at, "it" if self.number == self.line.number else "the `begin`"
        return [mend(says("deposit", account=account, units=amount, place=place), (at, at, f"{new}\n"))]

    def no_account(self):
        token = self.line.sender
        known = [it.tokens[1].text for it in self.run.before(self.number, "deposit")]
        needs = units(self.run.bounds.get(self.line.process.text, "0"))
        if token.text in self.run.contracts(self.number, self.line.number):
            lines = self.paying(token, known)
        else:
            lines = self.changed(known) or self.exchanged(known)
            lines = lines or self.meant(token, known) + self.deposit(token.text, needs)
        see = f"see: the accounts so far are {listed(known)}" if known else "see: nothing was deposited so far"
        return token.at, "NoAccount", [*lines, see]

    def paying(self, token, known):
        """Gives lines for accounts that may pay, in place of a contract that stands there."""
        does = [it for it in dict.fromkeys(known[-3:]) if self.goes_on((token.at, token.end, it))]
        mends = [mend(f"write `{it}` in place of `{token.text}`", (token.at, token.end, it)) for it in does]
        return [*mends, f"see: `{token.text}` is a contract, and the account that pays is wanted here"]

    def changed(self, known):
        """Gives a line where the account and the process of the line have changed places."""
        first, second = self.line.sender, self.line.process
        new = f"{second.text} {first.text}"
        if second.text not in known or not self.goes_on((first.at, second.end, new)):
            return []
        return [mend(f"write `{new}` in place of `{first.text} {second.text}`", (first.at, second.end, new))]

    def exchanged(self, known):
        """Gives a line where the name of the contract and the account that pays have changed places."""
        first, second = self.line.contract, self.line.sender
        edits = (first.at, first.end, second.text), (second.at, second.end, first.text)
        if self.line.word != "let" or first.text not in known or not self.goes_on(*edits):
            return []
        return [mend(f"let `{first.text}` and `{second.text}` change places", *edits)]

    def those_that_do(self, known):
        """Gives lines for the processes with which the line is carried out, where these are few."""
        token = self.line.process
        ends = [(it, self.run.end(self.number, (token.at, token.end, it))) for it in known[:MOST_TRIED]]
        does = [it for it, end in ends if end[0] == "committed"]
        edits = [(token.at, token.end, it) for it in does]
        return [mend(f"write `{it[2]}` in place of `{token.text}`", it) for it in edits] if len(does) <= 3 else []

    def no_process(self):
        token, codes = self.line.process, self.run.codes
        if codes is None:
            return token.at, "NoProcess", []
        mode = "S" if self.line.word == "let" else "T"
        other = codes.processes.get(token.text)
        if other:
            place = self.run.text.place(codes.tokens[other.at].at)
            see = f"see: `{token.text}` is declared at {place}, with the mode {other.mode}"
            known = [it.name for it in codes.processes.values() if it.mode == mode]
            lines = self.other_word(other) or self.made_inside(other)
            lines = lines or ([f"see: the {WHAT[mode]} are {listed(known)}"] if known else [])
            return token.at, "NoProcess mode", [*lines, see]
        known = [it.name for it in codes.processes.values() if it.mode == mode]
        lines = self.meant(token, known)
        see = f"see: the text declares no process of mode {mode}"
        see = f"see: the {WHAT[mode]} are {listed(known)}" if known else see
        lines = lines or self.offering(token.text, known) or [*self.those_that_do(known), see]
        return token.at, "NoProcess", lines

    def made_inside(self, process):
        """Gives a line without this one, where a transaction makes by itself what is no contract."""
        tokens, codes = self.run.codes.tokens, self.run.codes
        heads = [at for at, it in enumerate(tokens) if it.text in ("type", "fn", "proc")] + [len(tokens)]
        found = []
        for start, end in zip(heads, heads[1:]):
            words = [it.text for it in tokens[start:end]]
            rows = zip(words, words[2:], words[3:])
            if words[:2] == ["proc", "T"] and ("spawn", "=", process.name) in rows:
                found.append(words[2])
        line, text = self.line, self.run.script
        if process.mode != "R" or not found or self.run.script.row(self.number).word == "begin":
            return []
        edit = (line.at, min(line.end + 1, text.size), "")
        return [mend(f"take this line out, since {listed(found[:3])} makes by itself what `{process.name}` is", edit)]

    def offering(self, name, known):
        """Gives lines on the processes that offer a definition, where this is the name of one: of those with which the
        line is carried out, or refused for a cause behind this one, what to write."""
        codes, token = self.run.codes, self.line.process
        found = [it for it in known if codes.processes[it].offers == name]
        does = [it for it in found[:MOST_OFFERING] if self.goes_on((token.at, token.end, it))]
        if does:
            where = f"which offers it, in place of `{name}`"
            return [mend(f"write `{it}`, {where}", (token.at, token.end, it)) for it in does]
        return [f"see: `{name}` is a definition, and {listed(found)} offers it"] if found else []

    def other_word(self, process):
        """Gives lines for the other word that a line begins with, where that starts the process."""
        first, sender = self.line.tokens[0], self.line.sender
        if self.line.word == "let" and process.mode == "T":
            new, said = "exec ", f"`exec` in place of `let {self.line.contract.text} = new`"
        elif self.line.word == "exec" and process.mode == "S":
            name = self.run.script.unmade(self.line.number)
            new = f"let {name or unused(self.run.script)} = new "
            said = f"`let {name or '..'} = new` in place of `exec`"
        else:
            return []
        edit = (first.at, sender.at, new)
        return [mend(f"write {said}", edit)] if self.goes_on(edit) else []

    def name_taken(self):
        token = self.line.contract
        other = self.run.contracts(self.number, self.line.number).get(token.text)
        new = fresh(self.run.script, token.text)
        edit = (token.at, token.end, new)
        lines = [mend(f"write `{new}` in place of `{token.text}`", edit)] if self.goes_on(edit) else []
        see = [f"see: `{token.text}` is made at {self.run.script.place(other.contract.at)}"] if other else []
        return token.at, "NameTaken", [*lines, *see]

    def no_gas(self):
        has, needs = self.words[8], self.words[10]
        parts = needs.split("/")[1:]
        lacking = "/".join([str(int(needs.split("/")[0]) - int(has.split("/")[0])), *parts])
        see = f"see: `{self.line.process.text}` declares {needs}, and {has} is what the account has here"
        return self.line.sender.at, "NoGas", [*self.deposit(self.line.sender.text, units(lacking)), see]

    def too_much(self):
        token = self.line.tokens[2]
        left = MOST_UNITS - sum(int(it.tokens[2].text) for it in self.run.before(self.number, "deposit"))
        return token.at, "TooMuchGas", [f"see: {left} is the most that can be deposited here"]

    def bad_arguments(self):
        if self.run.codes is None:
            return self.line.process.at, "BadArguments", []
        return Arguments(self).find()


def explained(run, entry):
    """Gives the place in the script, the cause, the row of docs/CAUSES.md, and lines on what to do."""
    it = Refused(run, entry[0])
    explain = {
        "NoAccount": it.no_account,
        "NoProcess": it.no_process,
        "BadArguments": it.bad_arguments,
        "NameTaken": it.name_taken,
        "NoGas": it.no_gas,
        "TooMuchGas": it.too_much,
    }[it.cause]
    at, row, lines = explain()
    return at, it.cause, row, lines
