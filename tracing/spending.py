"""Where the gas of a script goes: by declaration, by place in the contract, by account, and what contracts keep."""
import collections
from fractions import Fraction
from typing import NamedTuple

from explaining.scripts import EditedScript
from explaining.texts import joined


class Spent(NamedTuple):
    """A batch that was committed: the declarations of its transactions, what these declare, what it spends, and what
    comes back to the accounts of those who run it."""

    names: tuple
    declares: Fraction
    spends: Fraction
    back: Fraction

    @property
    def given(self):
        """What goes to contracts, below 0 where they pay out."""
        return self.declares - self.spends - self.back


class Account:
    """What an account got by deposits, what its transactions declared, and what came back to it."""

    def __init__(self):
        self.deposits, self.declares, self.back = Fraction(0), Fraction(0), Fraction(0)

    @property
    def left(self):
        return self.deposits - self.declares + self.back


def shown_behind(script):
    """Gives the script with a `show` behind each batch, in the line of its last word."""
    edits, number = [], 1
    while number <= len(script.rows):
        row = script.row(number)
        last = script.batch(number)[1]
        if row.word in ("begin", "let", "exec"):
            end = script.row(last).end
            edits.append((end, end, "\nshow"))
        number = last + 1
    return EditedScript(script, edits)


class Shown:
    """What a `show` says: what accounts and contracts have, and the sums."""

    def __init__(self, entry):
        self.accounts = {it[1]: Fraction(it[2]) for it in entry if it[0] == "account"}
        self.contracts = {it[1]: Fraction(it[5]) for it in entry if it[0] == "contract"}
        self.sums = {it[0]: Fraction(it[1]) for it in entry if it[0] in ("stored", "spent", "deposits")}


class Spending:
    """What became of the gas, by the answer to a run of the script with a `show` behind each batch, and by what is told
    of its batches, whose gas comes in parts of a unit, so many to one."""

    def __init__(self, script, answer, scenes, unit):
        self.script, self.unit = script, unit
        self.scenes = {it.batch.line: it for it in scenes}
        self.batches, self.accounts, self.last = [], collections.defaultdict(Account), Shown([])
        for entry, behind in zip(answer.entries, [*answer.entries[1:], None]):
            self.take(entry, behind)

    def take(self, entry, behind):
        """Takes in an entry of the report, with the one behind it."""
        words, number = entry[0], int(entry[0][1])
        if words[2] == "deposited":
            tokens = self.script.row(number).tokens
            self.accounts[tokens[1].text].deposits += int(tokens[2].text)
        elif words[2] == "committed":
            self.batch(self.scenes[number], Fraction(words[6]), Shown(behind))
        elif words[2] == "show":
            self.last = Shown(entry)

    def batch(self, scene, spends, now):
        """Takes in a batch that was committed: who was started, what was spent, and what accounts have behind it."""
        declares = Fraction(0)
        for it in scene.batch.starts:
            gas = Fraction(it.number("gas"), self.unit)
            self.accounts[scene.payers[it.pid]].declares += gas
            declares += gas
        back = {name: has - self.accounts[name].left for name, has in now.accounts.items()}
        for name, gas in back.items():
            self.accounts[name].back += gas
        process = tuple(it.process for it in scene.batch.starts)
        self.batches.append(Spent(process, declares, spends, sum(back.values(), Fraction(0))))

    def by_names(self):
        """Gives the batches by the declarations that they run, in order of the first of each."""
        found = {}
        for it in self.batches:
            found.setdefault(it.names, []).append(it)
        return found

    def adds_up(self):
        """Whether the columns add up to what the last `show` says, and accounts are as it says."""
        sums, given = self.last.sums, sum(it.given for it in self.batches)
        left = {name: it.left for name, it in self.accounts.items()}
        spends = sum(it.spends for it in self.batches)
        are_sums = not sums or (spends, given) == (sums["spent"], sums["stored"])
        return are_sums and (not sums or left == self.last.accounts and sum(left.values()) + given + spends ==
                             sums["deposits"])

    def others(self):
        """Gives what is kept at the end by what is no contract: by other processes, and by messages."""
        return self.last.sums.get("stored", Fraction(0)) - sum(self.last.contracts.values())


class Place(NamedTuple):
    """What was spent at an instruction: at which offset, how often, and how much in parts of a unit."""

    at: int
    runs: int
    parts: int


def by_place(scenes):
    """Gives what was spent at each instruction in the batches that were committed, the most first."""
    runs, parts = collections.Counter(), collections.Counter()
    for scene in scenes:
        for it in scene.batch.firings if scene.batch.is_kept else ():
            if it.form == "work" and it.gas:
                runs[it.at] += 1
                parts[it.at] += it.gas
    return sorted((Place(at, runs[at], parts[at]) for at in runs), key=lambda it: (-it.parts, it.at))


def where(text, at):
    """Gives in words where an instruction stands: its declaration, its line, and itself."""
    index, depth = text.index_at(at), 0
    heads = [it for it in range(index) if text.tokens[it].text == "proc"]
    name = text.tokens[heads[-1] + 2].text if heads else ""
    end = index
    while end < len(text.tokens):
        word = text.tokens[end].text
        if word == ";" and not depth:
            end += 1
            break
        if not depth and (word in ("|", "}") or word == "{" and text.tokens[index].text in ("if", "case", "match")):
            break
        depth += (word in "({") - (word in ")}")
        end += 1
    return f"{name}:{text.where(at)[0]}", joined(text.tokens[index:end])
