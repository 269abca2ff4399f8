"""A journal without what nobody looks at: batches that are undone, or all but the first firings of one that ran into
its limit. What is left is a journal again, of the same script or of one without these batches, and the teller judges
it."""
import re
from typing import NamedTuple

from explaining.scripts import EditedScript

# How many firings of a batch that ran into its limit are told; or as many as another batch made, where one made more,
# since one limit holds for all batches of a journal.
MOST = 1000
HEAD = re.compile(rb"nomos-journal [12]\nsteps \d+\n")
LINE, END = b"\nline ", b"\nend "


class Entry(NamedTuple):
    """An entry of a journal: its line of the script, where it begins and where its firings do, where the line of its
    end begins, and where that ends."""

    line: int
    start: int
    firings: int
    end: int
    stop: int


def entries(journal):
    """Gives the entries of a journal, or none where it has not the form of one."""
    found, at = [], journal.find(LINE)
    while at >= 0:
        firings, end = journal.find(b"\n", at + 1), journal.find(END, at + 1)
        stop = journal.find(b"\n", end + 1)
        if not HEAD.match(journal) or min(firings, end, stop) < 0 or not journal[at + 6 : firings].isdigit():
            return []
        found.append(Entry(int(journal[at + 6 : firings]), at + 1, firings + 1, end + 1, stop + 1))
        at = stop if journal.startswith(LINE, stop) else -1
    return found


def ended(journal, entry):
    """Gives the words of the end of an entry."""
    return journal[entry.end + 4 : entry.stop - 1].split()


def count(journal, entry):
    """Gives how many firings an entry has."""
    return journal.count(b"\n", entry.firings, entry.end)


def without_undone(script, journal):
    """Gives a script and a journal of it without the batches that are undone: what comes behind these is as it was,
    since each of them leaves all as it found it."""
    undone = [it for it in entries(journal) if ended(journal, it)[0] in (b"blocked", b"aborted", b"steps")]
    edits = []
    for it in undone:
        for number in range(it.line, script.batch(it.line)[1] + 1):
            row = script.row(number)
            edits.append((row.at, row.end, ""))
    return EditedScript(script, edits) if edits else script, kept(journal, [(it.start, it.stop, b"") for it in undone])


def kept(journal, edits):
    """Gives a journal with other bytes in place of some pieces, which stand in their order."""
    pieces, done = [], 0
    for start, end, new in edits:
        pieces += [journal[done:start], new]
        done = end
    return b"".join([*pieces, journal[done:]])


def cut(journal):
    """Gives a journal in which a batch that ran into its limit has its first firings alone, under a lower limit, and by
    the line of each such batch how many firings it made beyond that."""
    every = entries(journal)
    long = [it for it in every if ended(journal, it)[0] == b"steps"]
    limit = max([MOST, *(count(journal, it) for it in every if it not in long)])
    counts = {it.line: count(journal, it) - limit for it in long}
    if not long or min(counts.values()) <= 0:
        return journal, {}
    at = HEAD.match(journal).end()
    steps = journal.index(b"steps ") + 6
    edits = [(steps, at - 1, b"%d" % limit)]
    for it in long:
        behind = it.firings
        for _ in range(limit):
            behind = journal.index(b"\n", behind) + 1
        edits.append((behind, it.stop, b"end steps %d\n" % limit))
    return kept(journal, edits), counts
