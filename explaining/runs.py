"""A script on an accepted contract: what became of its lines, and what would become of others."""
import time

from . import ends, starts
from .accounts import PAYER, Accounts
from .codes import Codes
from .found import Found
from .held import Types
from .names import MOST_TOKENS
from .standing import course
from .teller import Teller, journal_of

# How many lines are explained, and for how many seconds in all the program is asked about other scripts: where the run
# itself took long, for several times as long, but not for more than so many.
MOST_LINES = 20
SECONDS, TIMES, MOST_SECONDS = 20, 4, 60
# The causes that a line is refused for, in the order in which they are looked for.
CAUSES = ("TooMuchGas", "NoAccount", "NoProcess", "BadArguments", "NameTaken", "NoGas")


class Run:
    """A contract, a script on it, the answer to these, and the program. The instructions of the contract are there
    where it has not too many tokens."""

    def __init__(self, text, script, answer, program, grammar):
        self.text, self.script, self.answer, self.program, self.grammar = text, script, answer, program, grammar
        self._accounts = None
        self.codes = Codes(text, grammar) if len(text.tokens) <= MOST_TOKENS else None
        self.bounds = {it[1]: it[3] for it in answer.lines if it[:1] == ["bound"]}
        self.ends = {int(it[0][1]): it[0][2:] for it in answer.entries}
        self.until = time.monotonic() + min(max(SECONDS, TIMES * answer.took), MOST_SECONDS)

    def accounts(self):
        """Gives which values of the contract are numbers of accounts."""
        if self._accounts is None:
            self._accounts = Accounts(Types(self.text, self.grammar))
        return self._accounts

    def seconds(self):
        return max(self.until - time.monotonic(), 0.01)

    def asked(self, last, *edits, contract=None):
        """Gives the answer to the script up to a line, with other texts in place of some pieces, or nothing where that
        takes too long."""
        part = self.script.part(last, *edits)
        return self.program.run(contract or self.text.data, part, seconds=self.seconds())

    def tale(self, last, *options):
        """Gives the answer to the script up to a line and the tale of its journal, or nothing."""
        found = self.program.journal(self.text.data, self.script.part(last), *options, seconds=self.seconds())
        if found is None:
            return None
        answer, (contract, script, journal) = found
        tale = Teller().tale(contract, script, "--journal", journal, seconds=self.seconds())
        with open(journal, "rb") as kept:
            return (answer, tale) if journal_of(tale) == kept.read() else None

    def end(self, number, *edits):
        """Gives what becomes of the line or the batch at a line, with other texts in place of some pieces, or none."""
        answer = self.asked(self.script.batch(number)[1], *edits)
        entries = answer.entries if answer and answer.status in (0, 3) else []
        return entries[-1][0][2:] if entries else ["none"]

    def goes_on(self, number, cause, line, *edits):
        """Whether the batch at a line is refused by none of its lines up to this one, or by this one for a cause that
        is looked for behind this one, with other texts in place of some pieces, which have as many lines."""
        end = self.end(number, *edits)
        if end[0] != "refused":
            return end[0] != "none"
        return int(end[2]) > line or int(end[2]) == line and CAUSES.index(end[3]) > CAUSES.index(cause)

    def goes_on_behind(self, number, cause, line, new):
        """The same, with a line more before the batch."""
        at = self.script.row(number).at
        return self.goes_on(number, cause, line + 1, (at, at, f"{new}\n"))

    def before(self, number, word):
        """Gives the lines before a line that begin with a word and were carried out."""
        found = []
        for start, end in self.ends.items():
            if start < number and end[0] in ("deposited", "committed"):
                row = self.script.row(start)
                found += [it for it in (self.script.batch(start)[0] if end[0] == "committed" else [row])]
        return [it for it in found if it.word == word]

    def contracts(self, number, line):
        """Gives the lines that make contracts before a line of the batch at a line, by the names of these."""
        rows = self.before(number, "let")
        rows += [it for it in self.script.batch(number)[0] if it.word == "let" and it.number < line]
        return {it.contract.text: it for it in rows}


def explained(run):
    """Gives what was found of each line that was not carried out, and of how many nothing is said."""
    found, left = [], 0
    for entry in run.answer.entries:
        words = entry[0]
        if words[2] in ("deposited", "committed", "show"):
            continue
        if len(found) == MOST_LINES:
            left += 1
            continue
        at, cause, row, lines = (starts if words[2] == "refused" else ends).explained(run, entry)
        found.append(Found(run.script, at, cause, row, lines, words))
    return found, left


def named(run):
    """Gives a remark on the results of a script that are numbers of accounts, with the names of these."""
    entries = [it for it in run.answer.entries if any(words[0] == "result" for words in it)]
    if run.codes is None or not entries or PAYER not in {it.text for it in run.text.tokens}:
        return []
    found = course(run, len(run.script.rows))
    lines, first = [], None
    for entry in entries if found else ():
        number = int(entry[0][1])
        results, known = [it[2] for it in entry if it[0] == "result"], run.script.accounts(number)
        for value, step in zip(results, found[1].results.get(number, ())):
            is_number = value.isdecimal() and int(value) < len(known)
            if is_number and run.accounts().is_emitted(step) and len(lines) < MOST_LINES:
                first = first or entry
                lines.append(f"see: the result {value} of line {number} is the account `{known[int(value)]}`")
    if not lines:
        return []
    at = run.script.row(int(first[0][1])).tokens[0].at
    return [Found(run.script, at, "remark", "remark account", list(dict.fromkeys(lines)), first[0])]
