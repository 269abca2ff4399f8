"""Arguments of a `spawn` or a `call` that are left out, or too many, and terms in other words than a function's."""
from .mends import mend
from .texts import joined, listed, tokens_of

TRIED = {"int": "0", "bool": "true"}
MOST_TRIED = 8


def known_here(it, kind):
    """Gives the names of a kind that are bound on the way to an instruction."""
    types, at = it.types, it.step.at
    head = next(before for before in range(at, -1, -1) if types.tokens[before].text == "proc")
    return [types.tokens[place].text for place in range(head, at)
            if types.declared(place) == kind and types.leads(place, at)]


def written(it, values, names):
    """Gives the edit of the parentheses with these arguments, and how they are said."""
    new = f"({', '.join(values)};{' ' if names else ''}{', '.join(names)})"
    tokens, opening = it.types.tokens, it.types.tokens.index(it.name) + 1
    return (tokens[opening].at, tokens[it.step.end - 1].end, new), f"{it.name.text}{new}"


def completed(it):
    """Gives lines for the values and the channels that are left out: those with the names of the parameters, or of
    their types, where such are known, and else what is to be written."""
    values, names = [it.types.said(*pair) for pair in it.values], [token.text for token in it.names]
    missing, lacking = it.wanted_values[len(values) :], it.wanted_names[len(names) :]
    if len(values) > len(it.wanted_values) or len(names) > len(it.wanted_names) or not missing and not lacking:
        return []
    known = known_here(it, "value")
    fresh = computed_last(it, values, known) if len(missing) == 1 and not lacking else None
    if fresh:
        edit, said = written(it, [*values, fresh], names)
        if it.goes_past(it.types.text.edited(edit)):
            return [mend(f"write `{said}`", edit)]
    place = left_out(it, values, known) if len(missing) == 1 and not lacking else None
    place = by_names(it, values, known) if place is None and len(missing) == 1 and not lacking else place
    if place is not None:
        values.insert(place, it.wanted_values[place].name)
        missing = []
    held = [name for name in it.held if name not in ("self", *names)]
    more = [one.name if one.name in known else ".." for one in missing]
    for wanted in lacking:
        fits = [name for name in held if it.types.said(*it.held[name].type[:2]) == wanted.type]
        name = wanted.name if wanted.name in fits else fits[0] if fits else ".."
        held = [other for other in held if other != name]
        names.append(name)
    if all(one.kind == "value" for one in missing) and ".." not in names:
        tried = [TRIED.get(one.type, one.type.replace("list", "nil", 1)) if name == ".." else name
                 for one, name in zip(missing, more)]
        edit, _ = written(it, [*values, *tried], names)
        _, said = written(it, [*values, *more], names)
        kinds = listed([f"{one.name}: {one.type}" for one, name in zip(missing, more) if name == ".."])
        if it.goes_past(it.types.text.edited(edit)):
            return [mend(f"write `{said}`{f', with {kinds}' if kinds else ''}", edit)]
    return []


def computed_last(it, values, known):
    """Gives the one value that was computed or came in this branch and stands nowhere so far, if there is one, where
    the last value is left out."""
    types, head = it.types, it.types.tokens.index(it.name)
    used = {types.tokens[at].text for at in range(head) if types.used(at) == "value" and types.leads(at, head)}
    bound = [types.tokens[at].text for at in range(head) if types.key(at) in (("step", 3), ("step", 11))
             and types.leads(at, head)]
    found = [name for name in bound if name in known and name not in used and name not in values]
    return found[0] if len(found) == 1 else None


def left_out(it, values, known):
    """Gives which one value is left out, where one of the parameters' names is known here and was not used so far."""
    tokens, head = it.types.tokens, it.types.tokens.index(it.name)
    start = next(at for at in range(head, -1, -1) if tokens[at].text == "proc")
    body = next(at for at in range(start, head) if tokens[at].text == "=")
    used = [tokens[at].text for at in range(body, head) if it.types.used(at) == "value" and it.types.leads(at, head)]
    found = [at for at, one in enumerate(it.wanted_values)
             if one.name in known and one.name not in used and one.name not in values]
    return found[0] if len(found) == 1 else None


def by_names(it, values, known):
    """Gives which one value is left out, where the others name the parameters that they stand for, and one place alone
    lets the most of them do so."""
    names, words = [one.name for one in it.wanted_values], [{token.text for token in tokens_of(one)} for one in values]
    counts = []
    for at in range(len(names)):
        rest = names[:at] + names[at + 1 :]
        counts.append(sum(name in said for name, said in zip(rest, words)) if names[at] in known else -1)
    most = max(counts, default=0)
    return counts.index(most) if most > 0 and counts.count(most) == 1 else None


def shortened(it):
    """Gives lines for an argument that is too many: with one of them taken out the check goes on."""
    values, names = [it.types.said(*pair) for pair in it.values], [token.text for token in it.names]
    rows = []
    if len(values) == len(it.wanted_values) + 1 and len(names) == len(it.wanted_names):
        rows = [(values[:at] + values[at + 1 :], names, values[at]) for at in range(len(values))]
    elif len(names) == len(it.wanted_names) + 1 and len(values) == len(it.wanted_values):
        rows = [(values, names[:at] + names[at + 1 :], names[at]) for at in range(len(names))]
    for kept, others, out in rows[::-1][:MOST_TRIED]:
        edit, said = written(it, kept, others)
        if it.goes_past(it.types.text.edited(edit)):
            return [mend(f"take `{out}` out, as in `{said}`", edit)]
    return []


def of_two(it, start, end, wanted):
    """Gives lines for a function of two values that gives what is wanted, in place of an operator between these."""
    types, tokens = it.types, it.types.tokens
    found = [at for at in range(start, end) if tokens[at].text in ("+", "-", "*", "::")]
    if len(found) != 1:
        return []
    sides = joined(tokens[start : found[0]]), joined(tokens[found[0] + 1 : end])
    names = [tokens[at + 1].text for at, token in enumerate(tokens) if token.text == "fn"]
    turned = [f"{sides[1]} :: {sides[0]}"] if tokens[found[0]].text in ("::", "+") else []
    for new in (*turned, *(f"{name}({', '.join(sides)})" for name in names[:MOST_TRIED])):
        edit = (tokens[start].at, tokens[end - 1].end, new)
        if all(sides) and it.goes_past(types.text.edited(edit)):
            return [mend(f"write `{new}` in place of `{types.said(start, end)}`", edit)]
    if wanted.type.startswith("list") and tokens[found[0]].text == "+":
        return ["see: lists are joined by a function that calls itself: `fn joined(a: list int, b: list int): list int"
                " = match a { nil => b | h :: t => h :: joined(t, b) };`"]
    return []
