"""Gas that a contract is paid and neither spends nor pays on, so that no transaction takes it out again: a remark on a
contract that is accepted.

What a shared process has left where it detaches stays in its purse for ever: with one unit more spent there, all that
it spends and pays behind that is still paid for.
"""
from .codes import Codes
from .found import Found
from .names import MOST_TOKENS
from .rows import star_places
from .texts import LONGEST

# How many places are tried, and what is put there: where that much more may be spent, as much is left.
MOST_TRIED = 40
MORE = "work {1}; "


def is_paid(text):
    """Whether a type of a text has the client pay, or a shared process is given gas when it is made."""
    tokens = text.tokens
    pairs = zip(tokens, tokens[1:])
    is_client = any((it.text, behind.text) == ("<", "{") for it, behind in pairs)
    heads = [at for at, it in enumerate(tokens) if it.text == "proc" and tokens[at + 1].text in ("S", "L")]
    ends = [next(it for it in range(at, len(tokens)) if tokens[it].text == ")") for at in heads]
    return is_client or any(tokens[at + 1].text == "{" for at in ends)


def written(text, answer):
    """Gives edits by which each amount that is open is written as it was found, or nothing where one is no whole
    number of units."""
    found = [it[3] for it in answer.lines if it[:1] == ["star"]]
    places = star_places(text)
    if len(found) != len(places) or not all(it.isdecimal() for it in found):
        return None
    return [(at, at + 1, new) for at, new in zip(places, found)]


def charges(codes):
    """Gives edits by which the cost model is written out."""
    if codes.model == "ticks":
        return []
    head = codes.tokens[0].at, codes.tokens[2].end, ""
    return [head, *((at, at, MORE) for at in sorted(codes.charged()))]


def places(codes):
    """Gives the tokens at which a shared process detaches, and at which it goes on before it accepted anybody, with the
    process and the instruction."""
    for process in codes.processes.values():
        waiting = [(process.first, True)] if process.mode in ("S", "L") else []
        while waiting:
            step, is_new = waiting.pop()
            if step.form == "detach" or step.form == "call" and is_new and process.mode == "S":
                yield step.at, process
            waiting += [(further, is_new and step.form != "accept") for _, further in step.behind]


def explained(text, answer, program, grammar):
    """Gives what is found of an accepted contract: the first such place."""
    if not is_paid(text) or text.size > LONGEST or len(text.tokens) > MOST_TOKENS:
        return []
    codes, edits = Codes(text, grammar), written(text, answer)
    if edits is None:
        return []
    for at, process in sorted(places(codes), key=lambda it: it[0])[:MOST_TRIED]:
        token = codes.tokens[at]
        if program.check(text.edited(*edits, *charges(codes), (token.at, token.at, MORE))).is_accepted:
            see = f"see: what is left here is at least 1 unit, and `{process.name}` neither spends it nor pays it on"
            return [Found(text, token.at, "remark", "remark", [see], answer.words)]
    return []
