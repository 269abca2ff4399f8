"""A script in many orders: by seeds of the teller, each replayed by the program, by both policies and by workers."""
import concurrent.futures
import os

from explaining.tales import batches_of
from explaining.teller import journal_of
from testing.facts import line_of, of_entry

from .steps import Story
from .told import unit_of
from .waiting import waits_of

SEEDS = 50
# The most firings of a batch where nothing else is said: many orders of a batch that does not end take long.
STEPS = 5_000
OTHERS = (("--policy", "first"), ("--policy", "round"), ("--workers", "2"), ("--workers", "4"))


def name_of(order):
    """Gives an order in words, as an option names it."""
    return " ".join(order)[2:]


class Way:
    """How a line ended: in words, without numbers of processes and channels and with results sorted, and the orders in
    which it ended so, with the entry of the first one."""

    def __init__(self, said, line, entry):
        self.said, self.line, self.entry, self.orders = said, line, entry, []


def said_of(entry):
    """Gives what a report says of a line."""
    facts = of_entry(entry)
    return "; ".join([facts.end, *facts.others, *sorted(facts.results)])


class Orders:
    """The orders of a script, what became of each line in them, and how many were run so far. What was replayed once is
    not replayed again."""

    def __init__(self, run, seeds, follow=None):
        self.run, self.follow = run, follow or (lambda count: None)
        seeded = [("--seed", str(it)) for it in range(seeds)]
        self.all = [*seeded, *OTHERS]
        self.reports, self.lines, self.count = {}, {}, 0
        self.steps = run.steps() or ["--steps", str(STEPS)]

    def ask(self, order):
        """Gives the journal of an order, or where the program runs it itself nothing, and then the answer."""
        run = self.run
        if order[0] != "--seed":
            kept = run.program.kept(f"journal-{name_of(order).replace(' ', '-')}", b"")
            answer = run.program.call("run", *run.files, *order, *self.steps, "--journal", kept)
            return kept, run.has_run(answer)
        journal = journal_of(run.teller.tale(*run.files, *order, *self.steps))
        kept = run.program.kept(f"journal-{order[1]}", journal)
        if journal not in self.reports:
            self.reports[journal] = run.replayed_as(kept)
        return kept, self.reports[journal]

    def compare(self):
        """Runs each order, and gathers what became of each line. The program's own run comes first, so that what is
        refused is said before anything else is asked."""
        self.run.has_run(self.run.program.call("run", *self.run.files, *self.steps))
        with concurrent.futures.ThreadPoolExecutor(os.cpu_count() or 1) as several:
            waiting = [several.submit(self.ask, it) for it in self.all]
            try:
                for order, it in zip(self.all, waiting):
                    self.take(order, *it.result())
            except BaseException:
                several.shutdown(wait=False, cancel_futures=True)
                raise

    def take(self, order, kept, answer):
        """Takes in the answer to an order."""
        for entry in answer.entries:
            said = said_of(entry)
            ways = self.lines.setdefault(int(entry[0][1]), {})
            way = ways.setdefault(said, Way(said, line_of(entry), (kept, entry)))
            way.orders.append(name_of(order))
        self.count += 1
        self.follow(self.count)

    def differing(self):
        """Gives the lines that end in several ways, each with these, the most frequent first."""
        found = {line: sorted(it.values(), key=lambda way: -len(way.orders)) for line, it in self.lines.items()}
        return {line: it for line, it in found.items() if len(it) > 1}

    def cut(self):
        """Gives the lines of batches that ran into the limit in some order."""
        rows = self.lines.items()
        return [line for line, ways in rows if any(way.entry[1][0][2] == "steps" for way in ways.values())]

    def waits(self, way):
        """Gives lines on who is left and who waits for whom, by name, in the first order in which a line is blocked."""
        kept, entry = way.entry
        if entry[0][2] != "blocked":
            return []
        batches = batches_of(self.run.teller.tale(*self.run.files, "--journal", kept))
        unit = unit_of(self.run.program.check(self.run.text.data))
        story = Story(batches, self.run.text, self.run.script, unit)
        scene = next(it for it in story.scenes if it.batch.line == int(entry[0][1]))
        return waits_of(entry, scene)
