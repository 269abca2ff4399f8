"""Steps as a chart of text: a column for each process, `#` while it is acquired, `x` where it ends."""
from .shown import ended, further, waits

# How wide a column is at least, and how much wider than its text an arrow is at least.
LEAST, AROUND = 13, 8
SIGNS = {"acquires": "=", "releases": "="}
ARROWS = ("says", "spawns", "acquires", "releases", "unheard", "forwards")


def put(row, at, text):
    row[max(at, 0) : max(at, 0) + len(text)] = text


class Chart:
    """The chart of a scene."""

    def __init__(self, scene):
        self.scene, self.cast = scene, scene.cast
        steps = scene.steps
        self.order = list(dict.fromkeys(it for step in steps for it in (step.who, step.whom) if it is not None))
        self.columns = self.placed()
        self.ended, self.held = set(), set()
        born = {step.whom for step in steps if step.verb == "spawns"}
        self.live = [it for it in self.order if it not in born]
        self.width = max(self.columns.values(), default=0) + max([40, *(len(it.what) + 20 for it in steps)])

    def text(self, step):
        """Gives what stands in an arrow."""
        return step.what or {"forwards": "goes on"}.get(step.verb, step.verb)

    def placed(self):
        """Gives the column of each process, as far from the one before as names and arrows need."""
        columns = {}
        for at, pid in enumerate(self.order):
            name = len(self.cast.name(pid))
            if not at:
                columns[pid] = max(name // 2, 2)
                continue
            before = self.order[at - 1]
            names = (len(self.cast.name(before)) + 1) // 2 + name // 2 + 3
            least = columns[before] + max(LEAST, names)
            ends = [(columns[other], self.text(step)) for step in self.scene.steps for other in self.far(step, pid)
                    if other in columns]
            columns[pid] = max([least, *(start + len(text) + AROUND for start, text in ends)])
        return columns

    def far(self, step, pid):
        """Gives the other end of an arrow that has one end here."""
        if step.verb == "spawns" or step.verb not in ARROWS or pid not in (step.who, step.whom):
            return []
        return [it for it in (step.who, step.whom) if it not in (pid, None)]

    def row(self):
        """Gives a row with the line of each process that is there."""
        row = [" "] * self.width
        for it in self.live:
            if it not in self.ended:
                row[self.columns[it]] = "#" if it in self.held else "|"
        return row

    def lines(self):
        row = [" "] * self.width
        for it in self.live:
            put(row, self.columns[it] - len(self.cast.name(it)) // 2, self.cast.name(it))
        yield "".join(row).rstrip()
        for step in self.scene.steps:
            line = "".join(self.drawn(step)).rstrip()
            if line:
                yield line

    def drawn(self, step):
        """Gives the row of a step."""
        if step.verb == "starts":
            return self.started(step)
        if step.verb in ARROWS and step.whom not in (None, step.who) and step.who is not None:
            return self.arrow(step)
        row = self.row()
        if step.who is not None:
            put(row, self.columns[step.who] + 2, self.note(step))
        if step.verb == "closes":
            row = self.row()
            put(row, self.columns[step.who], "x")
            self.ended.add(step.who)
        return row

    def note(self, step):
        if step.verb == "finds":
            return f"if {step.what}"
        return {"spends": f"work {step.what}", "emits": f"result {step.what}"}.get(step.verb, step.what or step.verb)

    def started(self, step):
        """Gives the row that says what a transaction begins with, or an empty one."""
        if step.what.split()[1].split("/")[0] == "0":
            return []
        row = self.row()
        put(row, self.columns[step.who] + 2, f"{step.what}, account {self.scene.payers[step.who]}")
        return row

    def arrow(self, step):
        """Gives a row with an arrow from one process to another."""
        if step.verb == "acquires":
            self.held.add(step.whom)
        row, start, end = self.row(), self.columns[step.who], self.columns[step.whom]
        if step.verb == "spawns":
            name = self.cast.name(step.whom)
            stop = end - len(name) // 2
            put(row, start + 1, "-" * (stop - start - 2) + f">{name}")
            self.live.append(step.whom)
            return row
        sign = "." if step.what == "closes" else SIGNS.get(step.verb, "-")
        low, high = sorted((start, end))
        put(row, low + 1, sign * (high - low - 1))
        text = f" {self.text(step)} "
        put(row, low + 1 + (high - low - 1 - len(text)) // 2, text)
        put(row, high - 1 if start < end else low + 1, "?" if step.verb == "unheard" else ">" if start < end else "<")
        if step.what == "closes":
            put(row, start, "x")
            self.ended.add(step.who)
        if step.verb == "releases":
            self.held.discard(step.whom)
        return row


def lanes(run, scenes):
    """Gives these scenes of a run as charts, line by line; a batch in which nothing was started has none."""
    script = run.script
    for scene in scenes:
        if not scene.steps:
            continue
        line, count = scene.batch.line, len(scene.batch.firings) + scene.batch.further
        yield f"line {line}  {script.row(line).text}   {ended(scene)}, {count} firing{'' if count == 1 else 's'}"
        yield ""
        yield from Chart(scene).lines()
        yield from (*further(scene), *waits(scene, run.answer))
        yield ""
