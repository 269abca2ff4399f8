"""Contracts and scripts held against what their comments say."""
import os
from typing import NamedTuple

from explaining.scripts import Script
from explaining.texts import LIMIT, Text

from . import comparing, facts, orders, writing
from .due import Due
from .finding import Unread, contract_of, read

# The statuses with which a check and a run have an answer.
CHECKED, RAN, REFUSED_SCRIPT, USAGE = (0, 1, 8), (0, 3), 2, 4
WHY = {5: "it could not read a text", 6: "its output could not be written", 7: "there was not enough memory",
       70: "it could not be built"}


class Differing(NamedTuple):
    """What differs: the file, the line and the column, the text there, what is wanted and what was found, or else what
    is wrong with a comment, and the lines that explain has."""

    file: str
    line: int
    column: int
    text: str
    wanted: str
    found: str
    behind: list
    wrong: str = ""


def named(file):
    """Gives the name of a file as the texts have it, one character for each byte."""
    return os.fsencode(file).decode("latin-1")


def ended(status):
    """Says of a program that has given no answer how it ended."""
    if status > 128:
        return f"the program was stopped by the signal {status - 128}"
    return f"the program ended with status {status}" + (f": {WHY[status]}" if status in WHY else "")


def about(text, offset):
    """Gives the line of the last token that is not behind the line of an offset, or 0 where there is none."""
    last, line = 0, text.where(offset)[0]
    for number, it in enumerate(text.lines[:line], 1):
        if it.partition("//")[0].strip(" \t\r"):
            last = number
    return last


class Tests:
    """What was compared, what differs, and the contract of each script, if it has one. Each thing that differs is
    handed to `say` as it is found. Where a contract is named as `on`, each script is run on this one."""

    def __init__(self, program, meaning, say, is_written=False, count=0):
        self.program, self.meaning, self.say, self.is_written, self.count = program, meaning, say, is_written, count
        self.ran, self.on = {}, None
        self.contracts, self.scripts, self.lines, self.differ, self.mended, self.written = 0, 0, 0, 0, 0, 0

    def differs(self, *parts, **others):
        self.differ += 1
        self.say(Differing(*parts, **others))

    def file(self, file):
        (self.script if file.endswith(".script") else self.contract)(file)

    def wrong(self, text, due):
        """Says what is wrong with comments, and whether something is."""
        if not self.is_written:
            for it in due.asking:
                due.say(it.line, it.column - 1, "this says nothing; --write fills it in")
        for line, column, says in due.wrong:
            self.differs(text.name, line, column, text.line(line).strip(), "", "", [], wrong=says)
        return bool(due.wrong)

    def contract(self, file):
        """Compares what becomes of a contract."""
        text = Text(named(file), read(file, LIMIT + 1))
        due = Due(text, False)
        self.contracts += 1
        answer = self.program.check(text.data)
        if answer.status not in CHECKED:
            self.differs(text.name, 1, 1, "", "an answer to this contract", ended(answer.status), [])
            return
        self.wrong(text, due)
        found = facts.of_check(answer)
        offset = answer.offset
        place, at = (text.where(offset), about(text, offset)) if offset is not None else ((1, 1), None)
        differences = comparing.of_contract(due, found, place, at)
        for it in differences:
            is_end = it.found == found.end
            behind = self.meaning.of_contract(text, answer, self.program) if is_end and not self.is_written else []
            shown = "" if is_end and at is None else text.line(it.line).strip()
            self.differs(text.name, it.line, it.column, shown, it.wanted, it.found, behind)
        self.write(file, text, differences, [(it, found.all or [found.end]) for it in due.asking])

    def script(self, file):
        """Compares what becomes of the lines of a script."""
        script = Script(named(file), read(file, LIMIT + 1))
        due = Due(script, True)
        self.scripts += 1
        self.wrong(script, due)
        named_contract = [it.words[3:].encode("latin-1") for it in due.of("contract")]
        beside = contract_of(file, os.fsdecode(named_contract[0]) if named_contract else None)
        contract = self.ran[file] = self.on or beside
        if contract is None:
            says = "there is no contract of its name beside it; write `//! on FILE.nomos` above all lines"
            self.differs(script.name, 1, 1, "", "", "", [], wrong=says)
            return
        try:
            text = Text(named(contract), read(contract, LIMIT + 1))
        except Unread as error:
            says = f"its contract {named(contract)} cannot be read: {error.why}"
            self.differs(script.name, 1, 1, "", "", "", [], wrong=says)
            return
        options = [word for it in due.of("options") for word in it.words.split()[1:]]
        if self.count and not due.of("evening", "threads"):
            orders.compare(self, text, script, due, options)
        else:
            self.run(file, text, script, due, options)

    def has_run(self, text, script, answer):
        """Whether a script was run, and says why where it was not."""
        if answer.status in RAN and answer.entries:
            return True
        wanted, found, line = "a script that runs", " ".join(answer.words), 1
        if answer.status in RAN:
            wanted, found = "a line that is carried out", "no line is in this script"
        elif answer.status in CHECKED:
            wanted = f"a contract that is accepted: {text.name}"
        elif answer.status == REFUSED_SCRIPT:
            line = int(answer.words[3]) if len(answer.words) > 3 else 1
        elif answer.status == USAGE:
            wanted, found = "options of a run behind `with`", "others"
        else:
            found = ended(answer.status)
        self.differs(script.name, line, 1, script.line(line).strip(), wanted, found, [])
        return False

    def asked(self, file, text, script, due):
        """Gives the answer to a script: from the empty ledger or, by its head, from the one that another script leaves,
        or with its single lines submitted by threads."""
        kept, call = self.program.kept, self.program.call
        threads = [it.words.split()[1] for it in due.of("threads")]
        evening = [it.words.split(" ", 1)[1].encode("latin-1") for it in due.of("evening")]
        if threads:
            return call("pool", kept("contract.nomos", text.data), kept("lines.script", script.data), threads[0])
        if not evening:
            return self.program.run(text.data, script.data)
        before = read(os.path.join(os.path.dirname(file), os.fsdecode(evening[0])), LIMIT + 1)
        contract, snapshot = kept("contract.nomos", text.data), kept("snapshot", b"")
        answer = call("save", contract, kept("before.script", before), snapshot)
        if answer.status not in RAN:
            return answer
        return call("resume", contract, snapshot, kept("lines.script", script.data))

    def run(self, file, text, script, due, options):
        """Compares one run of a script."""
        self.program.options = options
        try:
            answer = self.asked(file, text, script, due)
        except Unread as error:
            says = f"the script that stands before it, {named(error.name)}, cannot be read: {error.why}"
            self.differs(script.name, 1, 1, "", "", "", [], wrong=says)
            return
        if not self.has_run(text, script, answer):
            return
        run, differences, filled = None, [], []
        for entry in answer.entries:
            found, line = facts.of_entry(entry), facts.line_of(entry)
            first = int(entry[0][1])
            last = script.batch(first)[1]
            filled += [(it, found.all) for it in due.asking if first <= it.about <= last]
            more = comparing.of_line(due.between(first, last), found, line)
            differences += more
            self.lines += 1
            is_told = not self.is_written and not due.of("evening", "threads")
            if more and more[0].found == found.end and not found.is_good and is_told:
                run = run or self.meaning.run(text, script, answer, self.program)
                self.show(script, more, self.meaning.of_line(run, entry))
            else:
                self.show(script, more, [])
        self.write(file, script, differences, filled)

    def show(self, script, differences, behind):
        for it in differences:
            self.differs(script.name, it.line, it.column, script.row(it.line).text, it.wanted, it.found, behind)

    def write(self, file, text, differences, filled):
        """Writes what was found into the comments, where that is wanted and there is something to write."""
        filled = [comparing.Difference(it.line, 1, "", "", [it], new, it.about) for it, new in filled]
        if not self.is_written or not differences + filled or text.size > LIMIT:
            return
        lines = writing.edited(text.lines, differences + filled, file.endswith(".nomos"))
        writing.write(file, "\n".join(lines).encode("latin-1"))
        self.mended += len(differences)
        self.written += len(differences) + len(filled)
