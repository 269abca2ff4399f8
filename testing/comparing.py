"""What is due of a text compared with what was found."""
from typing import NamedTuple

from .facts import agrees, key


class Difference(NamedTuple):
    """What is wanted and what was found, the line and the column of it, the parts of comments that say what is wanted,
    and what they would say of what was found, at the line `at`."""

    line: int
    column: int
    wanted: str
    found: str
    parts: list
    new: list
    at: int


def differing(line, wanted, found, parts, new):
    return Difference(line, 1, "; ".join(wanted), "; ".join(found), parts, new, line)


def of_end(parts, facts, line):
    """Gives the difference in what became of a line, or none: without a part it has to be carried out, and one that
    says a refusal stands at the very line."""
    wanted = [it.words for it in parts] or ["carried out"]
    is_here = all(it.about == line for it in parts if it.words.startswith("refused"))
    if is_here and (all(agrees(it.words, facts.end) for it in parts) if parts else facts.is_good):
        return []
    if parts and not is_here:
        wanted = [f"{it.words} in line {it.about}" for it in parts]
    return [differing(line, wanted, [facts.end], parts, [] if facts.is_good else [facts.end])]


def of_results(parts, facts, line, is_sorted):
    """Gives the difference in the values that were emitted, or none. Without a part any are right."""
    order = sorted if is_sorted else list
    wanted = [it.words for it in parts]
    if not parts or order(wanted) == order(facts.results):
        return []
    return [differing(line, wanted, facts.results or ["no result"], parts, facts.results)]


def of_others(parts, facts, line):
    """Gives the differences in all else."""
    found = []
    for it in parts:
        if not any(agrees(it.words, other) for other in facts.others):
            same = [other for other in facts.others if key(other) == key(it.words)]
            found.append(differing(line, [it.words], same or ["nothing of it"], [it], same))
    return found


def of_line(parts, facts, line, is_sorted=False):
    """Gives the differences of a line or a batch. Where it has another end, the end is all that is said."""
    ends, results, others = ([it for it in parts if it.kind == kind] for kind in ("end", "result", "fact"))
    return of_end(ends, facts, line) or [
        *of_results(results, facts, line, is_sorted),
        *of_others(others, facts, line),
    ]


def of_answer(parts, facts, place, at):
    """Gives the difference in the answer to a contract, or none. The answer is about the line `at`, or about none; a
    part above all tokens, or of an answer that is about none, says nothing of the place."""
    wanted = [it.words for it in parts] or ["accepted"]
    is_here = at is None or all(it.about in (0, at) for it in parts)
    if is_here and all(agrees(it, facts.end) for it in wanted):
        return []
    if not is_here:
        wanted = [f"{it.words} in line {it.about}" for it in parts]
    new = [] if facts.end == "accepted" else [facts.end]
    return [Difference(*place, "; ".join(wanted), facts.end, parts, new, at or 0)]


def of_contract(due, facts, place, at):
    """Gives the differences of a contract, whose answer has this place."""
    found = of_answer(due.of("answer"), facts, place, at)
    if found:
        return found
    others = of_others(due.of("fact"), facts, 0)
    return [it._replace(line=it.parts[0].line, column=it.parts[0].column) for it in others]
