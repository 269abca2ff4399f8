"""A script in several orders: by both policies, by two and by four workers, and by seeds where there is a teller; each
by its journal."""
import itertools

from explaining.teller import Teller, Untold, journal_of

from . import comparing, facts

# How many of the orders are named in which something differs.
SHOWN = 8


def ways(count, options, has_teller):
    """Gives the options of so many runs: both policies, two and four workers, and then one seed after another, or
    workers again where no teller can draw from a seed. Of the script's own options the most firings stay."""
    at = options.index("--steps") if "--steps" in options else len(options)
    steps = options[at : at + 2]
    first = (["--policy", "first"], ["--policy", "round"], ["--workers", "2"], ["--workers", "4"])
    more = (["--seed", str(it)] for it in itertools.count()) if has_teller else itertools.cycle(first[2:])
    return [[*it, *steps] for it in itertools.islice(itertools.chain(first, more), count)]


def replayed(program, teller, text, script, way):
    """Gives the answer to a run, and where that kept a journal, or the teller told one, the one to its replay."""
    files = program.kept("contract.nomos", text.data), program.kept("lines.script", script.data)
    if way[0] == "--seed":
        return program.call("replay", *files, program.kept("journal", journal_of(teller.tale(*files, *way))))
    program.options = way
    kept = program.kept("journal", b"")
    answer = program.run(text.data, script.data, *way, "--journal", kept)
    if answer.status not in (0, 3):
        return answer
    return program.call("replay", *files, kept)


def differences(script, due, answer):
    """Gives what differs in one order."""
    for entry in answer.entries:
        first = int(entry[0][1])
        parts = due.between(first, script.batch(first)[1])
        yield from comparing.of_line(parts, facts.of_entry(entry), facts.line_of(entry), is_sorted=True)


def compare(tests, text, script, due, options):
    """Compares a script in so many orders as are wanted, and says in which of them something differs."""
    met, lines, teller = {}, 0, Teller()
    for way in ways(tests.count, options, teller.name is not None):
        try:
            answer = replayed(tests.program, teller, text, script, way)
        except Untold as error:
            tests.differs(script.name, 1, 1, "", "an order that the teller draws", str(error), [])
            return
        if not tests.has_run(text, script, answer):
            return
        lines = len(answer.entries)
        for it in differences(script, due, answer):
            met.setdefault((it.line, it.wanted, it.found), []).append(" ".join(way[:2]))
    tests.lines += lines
    for (line, wanted, found), those in met.items():
        names = list(dict.fromkeys(those))
        shown = ", ".join(names[:SHOWN]) + (", .." if len(names) > SHOWN else "")
        behind = [f"in {len(those)} of {tests.count} orders: {shown}"]
        tests.differs(script.name, line, 1, script.row(line).text, wanted, found, behind)
