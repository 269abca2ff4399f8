"""A script that is run and told: the program's report, and the tale of the journal behind it."""
import re

from explaining.scripts import Script
from explaining.tales import batches_of
from explaining.teller import NoTeller, Teller, Untold, journal_of
from explaining.texts import LIMIT, Text
from testing.finding import read
from testing.tests import REFUSED_SCRIPT, ended, named

from . import shortened
from .calling import OtherWords, Refused
from .steps import Story

RAN, USAGE = (0, 3), 4
# The words of the options of a run, each with the form of what stands behind it.
STEPS = {"--steps": "[1-9][0-9]*"}
ORDER = {"--seed": "0|[1-9][0-9]*", "--journal": "(?!-).+", "--policy": "first|round", "--workers": "[1-9][0-9]*"}
RUN = {**STEPS, **ORDER}


def unit_of(answer):
    """Gives into how many parts a unit of gas is divided, as an accepted block says."""
    said = next(it[1] for it in answer.lines if it[:1] == ["unit"])
    return int(said.partition("/")[2] or "1")


def why_not(answer, contract, script):
    """Says why nothing was run."""
    if answer.status in (1, 8):
        said = " ".join(answer.words)
        return f"{contract}: this contract is not accepted: {said}; nomos-explain says what that means"
    if answer.status == REFUSED_SCRIPT:
        at = f":{answer.words[3]}" if len(answer.words) > 3 else ""
        return f"{script}{at}: {' '.join(answer.words)}; nomos-explain says what that means"
    return ended(answer.status)


class Told:
    """A contract and a script on it, the answer to a run of these, and what is told of its batches."""

    def __init__(self, program, contract, script, options):
        self.program, self.teller, self.options, self.answer = program, Teller(), options, None
        self.names = contract, script
        self.text = Text(named(contract), read(contract, LIMIT + 1))
        self.script = Script(named(script), read(script, LIMIT + 1))
        self.files = program.kept("contract.nomos", self.text.data), program.kept("lines.script", self.script.data)

    def edit(self, edited):
        """Has another script be run, which was made of this one."""
        self.script = edited(self.script)
        self.files = self.files[0], self.program.kept("lines.script", self.script.data)

    def steps(self):
        return ["--steps", self.options["--steps"]] if "--steps" in self.options else []

    def order(self):
        """Gives the word of the order, if one is named, with what stands behind it."""
        named_orders = [(word, self.options[word]) for word in ORDER if word in self.options]
        if len(named_orders) > 1:
            raise OtherWords
        return named_orders[0] if named_orders else ("--policy", "first")

    def has_run(self, answer):
        """Gives an answer to a run; where there is none, it fails with the reason."""
        if answer.status == USAGE:
            raise OtherWords
        if answer.status not in RAN:
            raise Refused(why_not(answer, *self.names))
        return answer

    def replayed_as(self, kept):
        """Gives the program's answer to the file of a journal that the teller told."""
        answer = self.program.call("replay", *self.files, kept)
        if answer.words[:2] == ["journal", "refused"]:
            raise Untold(f"the program refuses the order that the teller told: {' '.join(answer.words)}")
        return self.has_run(answer)

    def ran(self):
        """Gives the answer to a run, its journal, and the tale of this where it is there already."""
        word, value = self.order()
        if word == "--seed":
            self.has_run(self.program.call("run", *self.files, *self.steps()))
            tale = self.teller.tale(*self.files, word, value, *self.steps())
            journal = journal_of(tale)
            return self.replayed_as(self.program.kept("told", journal)), journal, tale
        if word == "--journal":
            kept = self.program.kept("journal", read(value))
            answer = self.program.call("replay", *self.files, kept)
            if answer.words[:2] == ["journal", "refused"]:
                raise Refused(f"{value}: {' '.join(answer.words)}")
            return self.has_run(answer), read(kept), None
        kept = self.program.kept("journal", b"")
        answer = self.has_run(self.program.call("run", *self.files, word, value, *self.steps(), "--journal", kept))
        return answer, read(kept), None

    def at_once(self, policy):
        """Runs the script by a policy, and has it be told meanwhile, with fewer firings of a batch. Keeps the answer,
        and gives the tale, with the firings that it has not by the line of each batch that ran into its limit; nothing
        where a batch that is kept made more, or where the program does not replay what is told."""
        limit = min(int(self.options.get("--steps", shortened.MOST)), shortened.MOST)
        with self.program.begin("run", *self.files, "--policy", policy, *self.steps()) as run:
            try:
                tale = self.teller.tale(*self.files, "--policy", policy, "--steps", str(limit))
            except NoTeller:
                self.has_run(run.answer())
                raise
            except Untold:
                tale = None
            self.answer = self.has_run(run.answer())
        if tale is None:
            return None
        kept = self.program.kept("told", journal_of(tale))
        further = beyond(self.answer, self.program.call("replay", *self.files, kept), limit)
        return None if further is None else (tale, further)

    def tale(self, journal, script):
        """Gives the tale of a journal of a script, which has to be that of this journal."""
        files = self.files[0], self.program.kept("told.script", script.data)
        tale = self.teller.tale(*files, "--journal", self.program.kept("told", journal))
        if not is_of(journal, tale):
            raise Untold("the teller tells another run than the journal has")
        return tale

    def story(self, is_of_kept=False):
        """Runs the script, keeps the answer, and gives what happens; of batches that are kept alone, where only these
        are asked for. Of a batch that ran into its limit the first firings are told."""
        word, value = self.order()
        told = self.at_once(value) if word == "--policy" else None
        if told:
            return self.story_of(*told)
        self.answer, journal, tale = self.ran()
        if is_of_kept:
            (script, short), further = shortened.without_undone(self.script, journal), {}
        else:
            script, (short, further) = self.script, shortened.cut(journal)
        if tale is None or short != journal:
            tale = self.tale(short, script)
        return self.story_of(tale, further)

    def story_of(self, tale, further):
        """Gives what happens by a tale, of which so many firings were left out by the line of each batch."""
        ends = {int(it[0][1]): it[0][2:] for it in self.answer.entries}
        batches = [it._replace(further=further[it.line], end=ends[it.line]) if it.line in further else it
                   for it in batches_of(tale)]
        return Story(batches, self.text, self.script, unit_of(self.answer))


def beyond(answer, replayed, limit):
    """Gives how many firings more than a limit each batch made, by its line, that ran into the one of its run; nothing
    where another run was replayed than this answer is to, but for that limit."""
    if len(answer.entries) != len(replayed.entries):
        return None
    found = {}
    for entry, short in zip(answer.entries, replayed.entries):
        is_cut = entry[0][2] == short[0][2] == "steps" and short[0][3] == str(limit)
        if is_cut and int(entry[0][3]) > limit:
            found[int(entry[0][1])] = int(entry[0][3]) - limit
        elif entry[0] != short[0]:
            return None
        if entry[1:] != short[1:]:
            return None
    return found


def is_of(journal, tale):
    """Whether a tale is that of a journal, of either version."""
    told = journal_of(tale)
    if journal.startswith(b"nomos-journal 1"):
        told = re.sub(rb"(?m)^(\d+) .*", rb"\1", told.replace(b"nomos-journal 2", b"nomos-journal 1", 1))
    return told == journal
