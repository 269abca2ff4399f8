"""Why a batch of a script was undone: who waits for whom, which term has a fault, or what does not end."""
import collections

from . import faults
from .mends import mend
from .standing import course
from .texts import listed

# A batch that does not end is looked at for so many firings.
FIRINGS = 20_000
# How many other contracts are tried for one that stands in a line twice.
MOST_TRIED = 8
# How many times as many firings are tried then, and how many a batch may make at most.
TIMES, MOST_FIRINGS = 10, 10_000_000


class Waiting:
    """A batch in which transactions are left that nothing is ready for."""

    def __init__(self, run, entry, found):
        self.run, self.number = run, int(entry[0][1])
        self.left = [int(it[1]) for it in entry if it[0] == "left"]
        self.waits = {int(it[1]): int(it[5]) for it in entry if it[0] == "waits"}
        self.course = found[1] if found and found[0].entries[-1] == entry else None
        self.names = {pid: name for name, pid in self.course.contracts.items()} if self.course else {}

    def standing(self, pid):
        """Gives a process, where it is told of."""
        return self.course.processes.get(pid) if self.course else None

    def who(self, pid):
        """Gives in words which process this is."""
        standing = self.standing(pid)
        if pid in self.names:
            return f"the contract `{self.names[pid]}`"
        if standing and standing.line:
            return f"line {standing.line.number}"
        return f"process {pid}" + (f", a `{standing.process.name}`" if standing else "")

    def where(self, pid, forms):
        """Gives the place in the contract at which a process stands, and the instruction there."""
        standing = self.standing(pid)
        step = self.course.at(standing, forms) if standing else None
        return (None, None) if step is None else (self.run.codes.tokens[step.at].at, step)

    def holder(self, contract):
        """Gives the process that has acquired a contract, if one has."""
        return self.course.lent.get(contract) if self.course else None

    def wait(self, pid):
        """Gives a line on what a process waits for at an `acquire`, and the process that it waits for."""
        contract = self.waits[pid]
        at, _ = self.where(pid, ("acquire",))
        place = f" at {self.run.text.place(at)}" if at is not None else ""
        holder = self.holder(contract)
        what = f"see: {self.who(pid)} waits{place} for {self.who(contract)}"
        if contract == pid:
            return f"{what}, which it is itself", pid
        if holder == pid:
            return f"{what}, which it has acquired already", pid
        if holder is not None:
            return f"{what}, which {self.who(holder)} has acquired", holder
        return what, contract

    def other(self, pid):
        """Gives a line on a transaction that waits for what a contract does, and the process that it waits for."""
        at, step = self.where(pid, ("case", "recv", "take", "get", "wait", "release"))
        if at is None:
            return f"see: {self.who(pid)} is left", None
        name = self.course.names(step)[1]
        other = self.standing(pid).offering.get(name)
        contract = other if other in self.names else None
        whom = f" for {self.who(contract)}" if contract else f" for `{name}`"
        return f"see: {self.who(pid)} waits at {self.run.text.place(at)}{whom}", contract

    def lines(self):
        found, further = [], {}
        for pid in [*self.left, *(it for it in self.waits if it not in self.left)]:
            line, further[pid] = self.wait(pid) if pid in self.waits else self.other(pid)
            found.append(line)
        return [*self.mends(), *found, *self.ring(further)]

    def ring(self, further):
        """Gives a line on processes of which each waits for the next one and the last one for the first."""
        for first in further:
            way = [first]
            while further.get(way[-1]) not in (None, *way):
                way.append(further[way[-1]])
            if len(way) > 1 and further.get(way[-1]) == first:
                said = ", ".join(self.who(it) for it in way)
                return [f"see: each waits for the next one, and the last one for the first: {said}"]
        return []

    def another(self, row):
        """Gives a line on a contract that stands in a line twice, where the line is carried out with one other contract
        in its second place that who pays here has made, and with none but this one."""
        tokens = [it.tokens[0] for it in row.arguments()[1]]
        twice = [it for at, it in enumerate(tokens) if it.text in [other.text for other in tokens[:at]]]
        if not twice:
            return []
        token = twice[0]
        made = self.run.contracts(self.number, row.number)
        known = [it for it in made if made[it].sender.text == row.sender.text and it not in [at.text for at in tokens]]
        edits = [(token.at, token.end, it) for it in known[:MOST_TRIED]]
        does = [it for it in edits if self.run.end(self.number, it)[0] == "committed"]
        said = f"in place of the second `{token.text}`, since nobody acquires a contract twice at once"
        return [mend(f"write `{it[2]}` {said}", it) for it in does] if len(does) == 1 else []

    def mends(self):
        """Gives a line where the lines of the batch go through one after another."""
        rows, end = self.run.script.batch(self.number)
        if len(rows) == 1:
            return self.another(rows[0])
        if len(rows) < 2:
            return []
        begin, last = self.run.script.row(self.number), self.run.script.row(end)
        edits = (begin.at, begin.end, ""), (last.at, last.end, "")
        answer = self.run.asked(end, *edits)
        entries = answer.entries[-len(rows) :] if answer and answer.status in (0, 3) else [[["", "", ""]]]
        if any(it[0][2] != "committed" for it in entries):
            return []
        return [mend("take the `begin` and the `end` out, so that each line is a batch of its own", *edits)]


def of_blocked(run, entry):
    number = int(entry[0][1])
    waiting = Waiting(run, entry, course(run, run.script.batch(number)[1]))
    return run.script.row(number).tokens[0].at, "blocked", "blocked", waiting.lines()


def of_steps(run, entry):
    """Says which processes fire most."""
    number = int(entry[0][1])
    end, lines = run.script.batch(number)[1], []
    options = run.program.options
    found = course(run, end, *without(options, "--steps"), "--steps", str(firings_of(options)))
    if found and [it[0][:3] for it in found[0].entries] == [it[:3] for it in firsts(run, number)]:
        fired = [standing.process.name for standing, _ in found[1].fired]
        most = [name for name, count in collections.Counter(fired).most_common(3) if count * 4 >= len(fired)]
        lines = [f"see: most of the first {len(fired)} firings are of {listed(most)}"] if most else []
    return run.script.row(number).tokens[0].at, "steps", "steps", [*more_steps(run, number, int(entry[0][3])), *lines]


def more_steps(run, number, allowed):
    """Gives a line on how many firings a batch may make, and how many do where ten times as many do."""
    options = run.program.options
    see = f"see: a batch may make {allowed} firings here; `--steps N` behind the words of the call lets it make N"
    most = min(allowed * TIMES, MOST_FIRINGS)
    part, others = run.script.part(run.script.batch(number)[1]), [*without(options, "--steps"), "--steps", str(most)]
    answer = run.program.run(run.text.data, part, *others, seconds=run.seconds())
    words = answer.entries[-1][0] if answer and answer.status in (0, 3) else []
    if words[2:4] == ["committed", "firings"]:
        return [mend(f"write `--steps {words[4]}` behind the words of the call"), see]
    return [see]


def firings_of(options):
    """Gives how many firings of a batch are looked at: not more than the options say that it may make."""
    behind = options[options.index("--steps") + 1 :] if "--steps" in options else []
    return min(int(behind[0]), FIRINGS) if behind and behind[0].isdecimal() else FIRINGS


def without(options, word):
    """Gives options without the one that begins with a word."""
    at = options.index(word) if word in options else len(options)
    return [*options[:at], *options[at + 2 :]]


def firsts(run, number):
    """Gives the first lines of the entries up to that of a line."""
    return [it[0] for it in run.answer.entries if int(it[0][1]) <= number]


def explained(run, entry):
    """Gives the place in the script, the cause, the row of docs/CAUSES.md, and lines on what to do."""
    return {"blocked": of_blocked, "steps": of_steps, "aborted": faults.explained}[entry[0][2]](run, entry)
