"""Where the processes of a contract stand in a run, as the tale of it tells."""
from .tales import batches_of
from .teller import Untold

UNFIRED = ("accept", "detach")
SENDING = ("label", "send", "put", "pay")
TURNING = (*SENDING, "case", "recv", "take", "get", "wait")


class Standing:
    """A process: its number, its declaration, the line of the script that started it, if one did, its last firing, how
    often it fired at each instruction in the last batch, and who offers the channels that its instructions name."""

    def __init__(self, pid, process, line, offering):
        self.pid, self.process, self.line = pid, process, line
        self.last, self.passed, self.offering = None, {}, offering


class Course:
    """What is told of the batches that are not undone, and of the last one: the contracts by name, the processes by
    number, who offers each channel and to whom contracts are lent, at which offsets something fired, what fired in the
    last batch, and the instruction of each result of a batch, by the line of this."""

    def __init__(self, codes, script, batches):
        self.codes, self.script = codes, script
        self.steps = {codes.tokens[it.at].at: it for it in codes.steps()}
        self.contracts, self.processes, self.offers, self.lent = {}, {}, {}, {}
        self.seen, self.fired, self.results, self.line = set(), [], {}, 0
        for number, it in enumerate(batches, 1):
            if it.is_kept or number == len(batches) and it.end[0] not in ("deposited", "refused"):
                self.batch(it)

    def batch(self, batch):
        self.line, self.fired, self.results[batch.line] = batch.line, [], []
        for it in self.processes.values():
            it.passed = {}
        for it in batch.starts:
            self.start(it)
        for it in batch.firings:
            self.fire(it)

    def start(self, it):
        row, process = self.script.row(it.number("line")), self.codes.processes[it.process]
        names = [self.contracts.get(other.text) for other in row.arguments()[1]]
        offering = dict(zip((other.name for other in process.of_kind("channel")), names))
        self.processes[it.pid] = Standing(it.pid, process, row, offering)
        self.offers[it.number("offers")] = it.pid
        if row.word == "let":
            self.contracts[row.contract.text] = it.pid

    def fire(self, it):
        """Takes in a firing. A `work` of the cost model stands at the instruction that it is paid for."""
        standing, step = self.processes.get(it.pid), self.steps.get(it.at)
        if standing is None or step is None:
            raise Untold("the teller tells of a process, or of an instruction, that is none")
        self.fired.append((standing, it.form))
        self.seen.add(it.at)
        standing.last = it
        if step.form == it.form:
            standing.passed[it.at] = standing.passed.get(it.at, 0) + 1
            self.meet(standing, step, it)
        if it.form == "emit":
            self.results[self.line].append(step)
        if it.form in ("close", "fwd"):
            del self.processes[it.pid]

    def names(self, step):
        """Gives the texts of the tokens of an instruction."""
        return [it.text for it in self.codes.tokens[step.at : step.end]]

    def meet(self, standing, step, it):
        """Takes in who offers the channels that an instruction names."""
        names, offering = self.names(step), standing.offering
        if it.form in TURNING:
            offering[names[0 if it.form == "label" else 1]] = self.offers.get(it.number("on"))
        if it.form in SENDING:
            self.offers[it.number("goes")] = self.offers.get(it.number("on"))
        elif it.form == "recv":
            offering[names[2]] = self.offers.get(it.number("gives"))
        elif it.form in ("acquire", "release"):
            offering[names[1]] = offering[names[3]] = it.number("of")
            self.lend(it)
        elif it.form == "spawn":
            self.spawn(standing, names[1], it)
        elif it.form == "call":
            process, given = self.called(step)
            pairs = zip(process.of_kind("channel"), given)
            standing.offering = {par.name: offering[name] for par, name in pairs if name in offering}

    def lend(self, it):
        if it.form == "acquire":
            self.lent[it.number("of")] = it.pid
            self.offers[it.number("goes")] = it.number("of")
        else:
            self.lent.pop(it.number("of"), None)

    def spawn(self, standing, name, it):
        made = it.number("made")
        self.processes[made] = Standing(made, self.codes.processes[it.said["spawns"]], None, {})
        self.offers[it.number("offers")] = standing.offering[name] = made

    def called(self, step):
        """Gives the process that a call names, and the names of the channels that it is given."""
        names = self.names(step)
        given = names[len(names) - names[::-1].index(";") : -1]
        return self.codes.processes[names[1]], [it for it in given if it != ","]

    def stands(self, standing):
        """Gives the instruction at which a process stands."""
        it = standing.last
        if it is None:
            return standing.process.first
        if it.form == "call":
            return self.codes.processes[it.said["calls"]].first
        step = self.steps[it.at]
        if it.form != step.form:
            return step
        if it.form == "case":
            return dict(step.behind)[it.said["says"]]
        return step.behind[it.said.get("is") in ("false", "full")][1]

    def at(self, standing, forms):
        """Gives the instruction of one of these forms at which a process stands, or nothing."""
        step = self.stands(standing)
        while step.form in UNFIRED and step.form not in forms:
            step = step.behind[0][1]
        return step if step.form in forms else None


def course(run, last, *options):
    """Gives what is told of the script up to a line, with the answer; nothing where it is not told."""
    if not run.codes:
        return None
    try:
        found = run.tale(last, *options)
        return found and (found[0], Course(run.codes, run.script, batches_of(found[1])))
    except Untold:
        return None
