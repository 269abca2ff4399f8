"""Gas that a line of a script hands from one account to another, for which there is no line: transactions by which a
contract does so, or deposits that come in for the other account."""
from .mends import mend

WORDS = ("transfer", "pay", "move", "send", "give", "hand", "transferFrom", "sendTransaction", "wire", "remit", "tip")
# What stands between the names of accounts, or behind a number, and names nobody.
FILLING = ("to", "from", "of", "by", "unit", "units", "gas", "coin", "coins", "exec", "the", "account")
# How many pairs of transactions are tried.
MOST_PAIRS = 8


class Handing:
    """A line that hands gas over: who gives it, who gets it, and how much."""

    def __init__(self, line):
        self.line, self.script, self.row = line, line.script, line.row
        words = [it.text for it in self.row.tokens]
        known = [it for it in line.senders() if it in words]
        others = [it.text for it in self.row.tokens if it.kind == "word" and it.text not in (*known, *WORDS, *FILLING)
                  and it.text[:-1] not in WORDS]
        known += others if len(known) == len(others) == 1 else []
        numbers = [it for it in self.row.tokens if it.kind == "number"]
        self.is_such = any(it in WORDS or it[:-1] in WORDS for it in words) or words[1:3] == ["-", ">"]
        self.is_such = self.is_such and len(known) in (1, 2) and len(numbers) == 1 and "[" not in words
        self.is_such = self.is_such and not (line.codes and set(words) & set(line.codes.processes))
        if self.is_such:
            self.giver, self.getter = None, known[0]
            if known[1:]:
                self.giver, self.getter = self.sides(words, sorted(known, key=words.index))
            self.units = int(numbers[0].text)

    def sides(self, words, known):
        """Gives who gives and who gets it: by the words before them, and else in the order in which they stand."""
        before = {name: words[words.index(name) - 1] for name in known}
        is_turned = before[known[0]] == "to" or before[known[1]] == "from"
        return known[::-1] if is_turned else known

    def lines(self):
        if self.giver is None:
            return list(self.paid_out())[:1]
        return [*self.by_contract(), *self.by_deposit()][:2]

    def paid_out(self):
        """Gives a line for a transaction that gets as much from a contract, for who is to be paid."""
        codes = self.line.codes
        processes = codes.processes.values() if codes else ()
        names = [it.name for it in processes if it.mode == "T" and self.moved(it) == self.units]
        for row in (self.called(name, self.getter) for name in names[:MOST_PAIRS]):
            edit = (self.row.at, self.row.end, row)
            answer = self.line.program.run(codes.text.data, self.upto(edit), seconds=5) if row else None
            if answer and answer.entries and answer.entries[-1][0][2] == "committed":
                yield mend(f"write `{row}` in place of this line, which has the contract pay", edit)

    def by_contract(self):
        """Gives a line for a transaction that pays as much to a contract, and another one that gets it from there."""
        codes = self.line.codes
        if codes is None:
            return
        moved = {it.name: self.moved(it) for it in codes.processes.values() if it.mode == "T"}
        pairs = [(one, two) for one in moved for two in moved if moved[one] == -self.units and moved[two] == self.units]
        for one, two in pairs[:MOST_PAIRS]:
            rows = [self.called(name, who) for name, who in ((one, self.giver), (two, self.getter))]
            if None in rows:
                continue
            edit = (self.row.at, self.row.end, "\n".join(rows))
            answer = self.line.program.run(codes.text.data, self.upto(edit), seconds=5)
            if answer and [it[0][2] for it in answer.entries[-2:]] == ["committed", "committed"]:
                yield mend(f"write `{rows[0]}`, and behind it `{rows[1]}`, in place of this line", edit)

    def moved(self, process):
        """Gives how much gas a transaction gets from contracts, below 0 where it pays; 0 where that is not one
        number."""
        tokens, at = self.line.codes.tokens, process.at
        end = next((it for it in range(at, len(tokens)) if tokens[it].text == "proc"), len(tokens))
        found = {}
        for it in range(at, end - 3):
            if tokens[it].text in ("pay", "get") and tokens[it + 2].text == "{":
                found.setdefault(tokens[it].text, set()).add(tokens[it + 3].text)
        amounts = [it for one in found.values() for it in one]
        if len(found) != 1 or len(amounts) != 1 or not amounts[0].isdigit():
            return 0
        return int(amounts[0]) * (1 if "get" in found else -1)

    def called(self, name, who):
        """Gives the line by which an account runs a transaction on contracts that were made before; nothing where
        values are wanted."""
        codes, given = self.line.codes, []
        rows = [it for it in self.script.rows[: self.row.number - 1] if it.word == "let" and len(it.tokens) > 5]
        made = {it.tokens[1].text: codes.processes.get(it.process.text) for it in rows}
        for one in codes.processes[name].parameters:
            fits = [it for it, process in made.items() if process and process.offers == one.type and it not in given]
            if one.kind != "channel" or not fits:
                return None
            given.append(fits[-1])
        return f"exec {who} {name}(;{' ' if given else ''}{', '.join(given)})"

    def upto(self, *edits):
        """Gives the bytes of the script up to this line, with edits."""
        return self.script.part(self.row.number, *edits)

    def by_deposit(self):
        """Gives a line for a deposit of as much less for the one, and one for the other in the place of this line,
        where what stands before it ends as it did."""
        rows = [it for it in self.script.rows[: self.row.number - 1] if it.word == "deposit" and len(it.tokens) == 3
                and it.tokens[1].text == self.giver and int(it.tokens[2].text) >= self.units]
        for row in rows[::-1]:
            left = f"deposit {self.giver} {int(row.tokens[2].text) - self.units}"
            here = f"deposit {self.getter} {self.units}"
            edits = (row.at, row.tokens[2].end, left), (self.row.at, self.row.end, here)
            if self.ends(edits[0], (self.row.at, self.row.end, "")) == self.ends((self.row.at, self.row.end, "")):
                words = f"write `{left}` in line {row.number}, and `{here}` in place of this line, so that of what is"
                yield mend(f"{words} deposited {self.units} come in for `{self.getter}`", *edits)
                return

    def ends(self, *edits):
        """Gives how each line of the script ends up to this one, with edits; nothing where that is not told."""
        codes = self.line.codes
        answer = self.line.program.run(codes.text.data if codes else b"", self.upto(*edits), seconds=5)
        if answer is None or answer.status not in (0, 3):
            return None if codes else ()
        return [it[0] for it in answer.entries if it[0][2] != "show"]


def handed(line):
    """Gives lines on what to write in place of a line that hands gas from one account to another."""
    it = Handing(line)
    return it.lines() if it.is_such else []
