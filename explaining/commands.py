"""The commands beside `run` that have a script: which words a call of one has, and what is found of its answer."""
import os

from . import runs, snapshots, talks
from .codes import Codes
from .found import Found
from .mends import mend
from .names import MOST_TOKENS

# How many words stand behind each command, and which of them name files that are read, as what.
COUNTS = {"pool": 3, "talk": 5, "save": 3, "resume": 3}
READ = {"pool": (0, 1), "talk": (0, 1, 4), "save": (0, 1), "resume": (0, 2, 1)}
NAMED = ("contract", "script", "third")


def is_call(words):
    """Whether words ask for one of these commands."""
    return words[:1] != [] and COUNTS.get(words[0]) == len(words) - 1


class Call:
    """A call of one of these commands, with the texts that it reads: nothing for one that cannot be read. What `save`
    writes goes to a file of its own, and not to that of the user."""

    def __init__(self, words, program, read, kinds, grammar):
        self.command, self.words, self.program, self.grammar = words[0], words[1:], program, grammar
        found = [read(self.words[at]) for at in READ[self.command]]
        self.data, self.reasons = [it[0] for it in found], [it[1] for it in found]
        names = [os.fsencode(self.words[at]).decode("latin-1") for at in READ[self.command]]
        texts = [None if data is None else kind(name, data) for kind, name, data in zip(kinds, names, self.data)]
        self.text, self.script, self.third = [*texts, None][:3]
        self.names = names

    def files(self):
        """Gives the words of the call, with the files of the texts in place of their names."""
        words, kept = list(self.words), ("contract.nomos", "lines.script", "third")
        for at, name, data in zip(READ[self.command], kept, self.data):
            words[at] = words[at] if data is None else self.program.kept(name, data)
        if self.command == "save":
            words[2] = self.program.kept("saved", b"")
        return words

    def answer(self):
        return self.program.call(self.command, *self.files())

    def resumed(self, data):
        """Gives the answer to the same call with another snapshot."""
        words = self.files()
        words[1] = self.program.kept("other", data)
        return self.program.call("resume", *words)

    def found(self, answer, of_contract, of_script):
        """Gives what is found of an answer, and of how many lines nothing is said."""
        if answer.status == 5:
            return [self.of_fault(answer)], 0
        if answer.status in (1, 8):
            return [of_contract(self.text, answer, self.program)], 0
        if answer.status == 11 and self.command == "save":
            return [snapshots.unsaved(answer.words, self.script)], 0
        if answer.status == 11:
            return [snapshots.Snapshot(self.third, self.text, self.resumed).found(answer.words)], 0
        if answer.status == 10:
            return [self.talk().of_text(answer)], 0
        if answer.words[:3] == ["script", "refused", "Pool"]:
            return [self.of_pool(answer)], 0
        found, left = self.of_lines(answer, of_script)
        more = self.talk().of_replies(answer) if self.command == "talk" and answer.status == 3 else []
        return [*found, *more], left

    def of_lines(self, answer, of_script):
        """Gives what is found of the lines of the script. What would become of others is asked by `run`, which begins
        with the empty ledger; of a script that goes on with a snapshot each line is named alone."""
        if answer.status == 2 or self.command != "resume":
            return of_script(self.text, self.script, answer, self.program)
        found = []
        for words in (it[0] for it in answer.entries if it[0][2] not in ("deposited", "committed", "show")):
            cause = " ".join(words[2:4]) if words[2] == "aborted" else words[2]
            number, cause = (int(words[4]), words[5]) if words[2] == "refused" else (int(words[1]), cause)
            if words[2] == "aborted":
                cause = f"aborted {words[4]}"
            found.append(Found(self.script, self.script.row(number).at, cause, cause, [], words))
        return found[: runs.MOST_LINES], max(len(found) - runs.MOST_LINES, 0)

    def talk(self):
        codes = Codes(self.text, self.grammar) if len(self.text.tokens) <= MOST_TOKENS else None
        words = ["talk", *self.words]
        return talks.Talk(self.text, self.script, words, self.third, codes, self.program)

    def of_fault(self, answer):
        """Gives what is found where a text could not be read."""
        which = {"contract": 0, "script": 1}.get(answer.words[2], 2)
        see = [f"see: {self.reasons[which]}"] if self.reasons[which] else []
        text = type(self.text or self.script or self.third)
        return Found(text(self.names[which], b""), None, "read fault", "read fault", see, answer.words)

    def of_pool(self, answer):
        """Gives what is found where a line stands behind the first single one that is none itself."""
        row = self.script.row(int(answer.words[3]))
        first = self.first_single()
        lines = list(self.pooled(row, first))[:1]
        see = [f"see: line {first.number} is the first that is submitted"] if first else []
        return Found(self.script, row.tokens[0].at, "script Pool", "script Pool", [*lines, *see], answer.words)

    def first_single(self):
        """Gives the first line of the script that threads submit."""
        is_open = False
        for row in self.script.rows:
            is_open = row.word == "begin" or is_open and row.word != "end"
            if row.word == "exec" and not is_open:
                return row
        return None

    def pooled(self, row, first):
        """Gives lines on where what stands in a line may stand, or what stands in its place: each was tried."""
        out, tries = (row.at, min(row.end + 1, self.script.size), ""), []
        begin, last = row.number, self.script.batch(row.number)[1]
        if row.word in ("deposit", "let") and first:
            edit = (first.at, first.at, f"{self.script.text[row.at : row.end]}\n")
            tries.append((f"write this line before line {first.number}", (edit, out)))
        if row.word == "begin":
            end = self.script.row(last)
            behind = (end.at, min(end.end + 1, self.script.size), "")
            tries.append(
                (f"take this `begin` out, and its `end` in line {last}, so that each line is submitted by itself",
                 (out, behind)))
            whole = self.script.text[row.at : end.end]
            moved = (row.at, min(end.end + 1, self.script.size), "")
            tries.append((f"write lines {begin} to {last} before line {first.number}",
                          ((first.at, first.at, f"{whole}\n"), moved)))
        if row.word == "show":
            tries.append(("take this line out: what accounts have is shown by `nomos resume` behind a `save`", (out,)))
        for words, edits in tries:
            files = self.files()
            files[1] = self.program.kept("other", self.script.edited(*edits))
            after = self.program.call("pool", *files)
            refused = after.words[:3] == ["script", "refused", "Pool"]
            moved = sum(it[2].count("\n") - self.script.text[it[0] : it[1]].count("\n") for it in edits)
            if not refused or int(after.words[3]) > row.number + min(moved, 0):
                yield mend(words, *edits)
