"""What to write in the head of a process where its body and its calls agree with one another and not with it."""
from .amounts import closing
from .mends import mend

# How many types, or kinds, are tried for a parameter.
MOST_TRIED = 12
KINDS = ("int", "bool", "list int", "list bool")


def goes_through(after):
    return after.is_accepted or after.is_cause("NoPotential")


def types_of(names, modes):
    """Gives the names of the definitions of some modes."""
    tokens = names.tokens
    return [tokens[at + 2].text for at, it in enumerate(tokens) if it.text == "type" and tokens[at + 1].text in modes]


def head_of(tokens, at):
    """Gives where the `proc` of the declaration around a token stands, and where its parameters end."""
    head = next((it for it in range(at, -1, -1) if tokens[it].text in ("proc", "fn")), None)
    return None if head is None or tokens[head].text == "fn" else (head, closing(tokens, head + 3))


def missing(names, at, program, is_asked=False):
    """Gives lines for a parameter of this name, which the head lacks and calls of the process give a value or a channel
    for, or which a transaction lacks where that is asked for too, where the contract is accepted with it."""
    tokens, place = names.tokens, head_of(names.tokens, at)
    used = names.used(at)
    if place is None or used not in ("value", "channel"):
        return []
    head, end = place
    if not are_more(names, head, end) and not (is_asked and tokens[head + 1].text == "T"):
        return []
    sign = next(it for it in range(head, end) if tokens[it].text == ";")
    is_channel = used == "channel"
    last = end if is_channel else sign
    is_first = tokens[last - 1].text in (";", "(")
    parting = (" " if is_channel else "") if is_first else ", "
    kinds = types_of(names, "RS" if tokens[head + 1].text != "R" else "R") if is_channel else KINDS
    behind = following(names, head, end, tokens[at].text, is_channel)
    found = []
    for kind in kinds[:MOST_TRIED]:
        new = f"{tokens[at].text}: {kind}"
        edit = (tokens[last - 1].end, tokens[last - 1].end, f"{parting}{new}")
        if behind is not None:
            edit = (behind.at, behind.at, f"{new}, ")
        if goes_through(program.check(names.text.edited(edit))):
            place = names.text.place(tokens[head + 2].at)
            where = "among the parameters of" if behind is None else f"before `{behind.text}`, among the parameters of"
            found.append(mend(f"write `{new}` {where} `{tokens[head + 2].text}` at {place}", edit))
    return found[:3]


def following(names, head, end, name, is_channel):
    """Gives the parameter that a missing one of a name stands before, by a call of the process that gives this name in
    that place; nothing where it is the last one, or that is not told."""
    tokens, process = names.tokens, names.tokens[head + 2].text
    for at in range(len(tokens) - 1):
        if tokens[at].text != process or tokens[at + 1].text != "(" or names.used(at) != "process":
            continue
        given = sides(tokens, at + 1, closing(tokens, at + 1))[is_channel]
        known = sides(tokens, head + 3, end)[is_channel]
        if [name] in [[it.text for it in row] for row in given] and len(given) == len(known) + 1:
            place = [[it.text for it in row] for row in given].index([name])
            return known[place][0] if place < len(known) else None
    return None


def sides(tokens, opening, end):
    """Gives the tokens of each value, and of each channel, between two parentheses."""
    found, depth = [[[]], [[]]], 0
    side = 0
    for it in tokens[opening + 1 : end]:
        depth += (it.text in ("(", "{")) - (it.text in (")", "}"))
        if depth == 0 and it.text == ";":
            side = 1
        elif depth == 0 and it.text == ",":
            found[side].append([])
        else:
            found[side][-1].append(it)
    return [[row for row in one if row] for one in found]


def are_more(names, head, end):
    """Whether a call of a process, or a spawn, gives more than it has parameters."""
    tokens, name = names.tokens, names.tokens[head + 2].text
    count = counted(tokens, head + 3, end)
    rows = [it + 1 for it in range(len(tokens) - 1) if tokens[it].text == name and tokens[it + 1].text == "("
            and names.used(it) == "process"]
    return any(counted(tokens, opening, closing(tokens, opening)) > count for opening in rows)


def counted(tokens, opening, end):
    """Gives how many parameters or arguments stand in parentheses."""
    depth, count, is_filled = 0, 0, False
    for it in tokens[opening + 1 : end + 1]:
        is_end = depth == 0 and it.text in (",", ";") or it is tokens[end]
        depth += (it.text in ("(", "{")) - (it.text in (")", "}"))
        count += is_end and is_filled
        is_filled = not is_end and (is_filled or it.text not in (",", ";"))
    return count


def retyped(stuck):
    """Gives edits for another type of a parameter, on which the stuck instruction is, or on a contract of which."""
    types, _, held = stuck.reached
    at = stuck.index if stuck.form == "label" else stuck.index + 1
    name = stuck.tokens[at].text
    if name not in held or name == "self":
        return
    bound = held[name].bound
    if stuck.tokens[bound - 1].text == "as" and stuck.tokens[bound - 3].text == "acquire":
        contract = stuck.tokens[bound - 2].text
        bound = held[contract].bound if contract in held else bound
    if stuck.names.key(bound) != ("cpar", 0) or stuck.tokens[bound + 3].text not in (",", ")"):
        return
    token, is_shared = stuck.tokens[bound + 2], types.is_shared(types.type(bound + 2))
    for it in types_of(stuck.names, "S" if is_shared else "R")[:MOST_TRIED]:
        if it != token.text:
            words = f"write `{it}` in place of `{token.text}` at {stuck.text.place(token.at)}, in the head"
            yield (token.at, token.end, it), words
