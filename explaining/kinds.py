"""Which part of a term is of another kind than its place wants: other terms are tried in its place on the program."""

from .amounts import closing
from .arguments import taken
from .codes import Parameter
from .mends import mend
from .texts import LONGEST, joined

# What is put in the place of a part, with how that is said, and for how many parts.
OTHERS = (("0", "a number"), ("true", "a truth value"), ("nil int", "a list"))
KINDS = ("int", "bool", "list int", "list bool")
MOST_PARTS = 20
# The rules of what stands before a term in its instruction.
HEADING = ("step", "last", "code", "chan", "bound", "branch")
MOST_FUNCTIONS, MOST_PAIRS = 4, 6
# What stands before a truth value that is compared with one of these.
TRUTHS = {"1": "", "true": "", "0": "not ", "false": "not "}


def parts(names, start, end):
    """Gives the variables, numbers and truth values between two tokens that are terms by themselves."""
    for at in range(start, end):
        leaf = names.leaves[at]
        if leaf.rule == "prim" and (leaf.text in ("NUMBER", "true", "false") or names.used(at) == "value"):
            yield names.tokens[at]


def truths(names, start, end):
    """Gives what a truth value is compared with between two tokens as if it were a number, in other words: an edit, and
    what it is in words."""
    tokens = names.tokens
    for at in range(start + 1, end - 1):
        pair = tokens[at - 1], tokens[at + 1]
        known = [it for it in pair if it.text in TRUTHS]
        others = [it for it, place in zip(pair, (at - 1, at + 1)) if names.used(place) == "value"]
        if tokens[at].text == "=" and names.leaves[at].rule == "cmp" and len(known) == len(others) == 1:
            new = f"{TRUTHS[known[0].text]}{others[0].text}"
            old = joined(tokens[at - 1 : at + 2])
            yield (pair[0].at, pair[1].end, new), f"write `{new}` in place of `{old}`"


def operands(names, start, end):
    """Gives the tokens of each part that an `and` or an `or` joins between two tokens, outside of parentheses."""
    rows, depth = [[]], 0
    start = next((at for at in range(start, end) if names.leaves[at].rule not in HEADING), end)
    for it in names.tokens[start:end]:
        depth += (it.text == "(") - (it.text == ")")
        if depth == 0 and it.text in ("and", "or"):
            rows.append([])
        else:
            rows[-1].append(it)
    return [it for it in rows if it] if len(rows) > 1 else []


def functions(names, start, end):
    """Gives the functions of one value, each given a variable between two tokens: an edit, and what it is in words."""
    tokens = names.tokens
    ones = [tokens[at + 1].text for at, it in enumerate(tokens) if it.text == "fn" and len(inside(names, at + 2)) == 1]
    for at in range(start, end):
        if names.used(at) == "value" and names.leaves[at].rule == "prim" and tokens[at].text != "me":
            for one in ones[:MOST_FUNCTIONS]:
                new = f"{one}({tokens[at].text})"
                edit = (tokens[at].at, tokens[at].end, new)
                yield edit, f"write `{new}` in place of `{tokens[at].text}` at {names.text.place(tokens[at].at)}"


def nils(names, start, end):
    """Gives what a list is compared with between two tokens as if it were a number: `nil`, as a `match` on it."""
    tokens, taken = names.tokens, {it.text for it in names.tokens}
    first, rest = (next(it for it in (name, *(f"{name}{count}" for count in range(2, 99))) if it not in taken)
                   for name in ("first", "rest"))
    for at in range(start + 1, end - 1):
        if tokens[at].text != "=" or names.leaves[at].rule != "cmp" or tokens[at + 1].text != "nil":
            continue
        last = at + 2
        while last < end and tokens[last].text == "list":
            last += 1
        new = f"(match {tokens[at - 1].text} {{ nil => true | {first} :: {rest} => false }})"
        edit = (tokens[at - 1].at, tokens[last].end, new)
        yield edit, f"write `{new}` in place of `{joined(tokens[at - 1 : last + 1])}`"


def heads(names, start, end):
    """Gives other kinds for the parameters whose values stand between two tokens: an edit of the head, and what it is
    in words."""
    tokens = names.tokens
    used = {tokens[at].text for at in range(start, end) if names.used(at) == "value"}
    head = next((at for at in range(start, -1, -1) if tokens[at].text in ("proc", "fn")), 0)
    for at in (at for at in range(head, start) if tokens[at].text in used and names.key(at) == ("vpar", 0)):
        stop = next(it for it in range(at, start) if tokens[it].text in (",", ";", ")"))
        declared = joined(tokens[at + 2 : stop])
        for kind in (it for it in KINDS if it != declared):
            edit = (tokens[at + 2].at, tokens[stop - 1].end, kind)
            yield edit, f"write `{kind}` in place of `{declared}` at {names.text.place(edit[0])}"


def turned(names, start, end):
    """Gives the calls of functions between two tokens with two of their values in each other's place: an edit, and what
    it is in words."""
    for at in range(start, end):
        rows = inside(names, at + 1) if names.used(at) == "function" else []
        said = [joined([names.tokens[it] for it in row]) for row in rows]
        pairs = [(one, two) for one in range(len(said)) for two in range(one + 1, len(said)) if said[one] != said[two]]
        for one, two in pairs[:MOST_PAIRS]:
            row = list(said)
            row[one], row[two] = row[two], row[one]
            close = closing(names.tokens, at + 1)
            edit = (names.tokens[at].at, names.tokens[close].end, f"{names.tokens[at].text}({', '.join(row)})")
            yield edit, f"write `{edit[2]}` in place of `{' '.join(names.text.text[edit[0] : edit[1]].split())}`"


def numbers(names, start, end):
    """Gives a comparison in place of each variable between two tokens, as if a number were a truth value: an edit, and
    what it is in words."""
    for at in range(start + 1, end + 1):
        it, around = names.tokens[at - 1], (names.tokens[at - 2].text, names.tokens[at].text)
        is_alone = around[0] in ("if", "and", "or", "not", "(") and around[1] in ("{", "then", "and", "or", ")")
        if is_alone and names.used(at - 1) == "value" and names.leaves[at - 1].rule == "prim":
            new = f"not {it.text} = 0"
            where = names.text.place(it.at)
            yield (it.at, it.end, new), f"write `{new}` in place of `{it.text}` at {where}, since a number is no test"


def other_parts(names, start, end, goes_on, is_whole=None):
    """Gives lines on the parts of the terms between two tokens of which a term of another kind lets the check go on.
    Another kind of a parameter has to let all of it be accepted, where that is told."""
    tries = [*nils(names, start, end), *truths(names, start, end), *turned(names, start, end)]
    tries += functions(names, start, end)
    found = [mend(words, edit) for edit, words in tries if goes_on(edit)]
    if found:
        return found[:3]
    found = [mend(words, edit) for edit, words in heads(names, start, end) if (is_whole or goes_on)(edit)]
    found = found or [mend(words, edit) for edit, words in numbers(names, start, end) if goes_on(edit)]
    if found:
        return found[:3]
    for it in operands(names, start, end):
        edit = (it[0].at, it[-1].end, "true")
        if len(it) > 1 and goes_on(edit) and len(found) < 3:
            where = f"in place of `{joined(it)}` at {names.text.place(it[0].at)}"
            found.append(mend(f"write a truth value {where}", edit))
    for it in list(parts(names, start, end))[:MOST_PARTS]:
        tried = [((it.at, it.end, new), said) for new, said in OTHERS]
        does = [(edit, said) for edit, said in tried if goes_on(edit)]
        if does and len(found) < 3:
            what = " or ".join(said for _, said in does)
            found.append(mend(f"write {what} in place of `{it.text}` at {names.text.place(it.at)}", does[0][0]))
    return found


def inside(names, opening):
    """Gives the rows of tokens with a comma between them that stand in the parentheses that open at a token."""
    rows, depth = [[]], 0
    for at in range(opening, len(names.tokens)):
        text = names.tokens[at].text
        depth += (text in ("(", "{")) - (text in (")", "}"))
        if depth == 0:
            return [it for it in rows if it]
        if text == "," and depth == 1:
            rows.append([])
        elif at > opening:
            rows[-1].append(at)
    return []


def miscounted(names, start, end):
    """Gives lines on the functions between two tokens that are given more or fewer values than they take."""
    lines = []
    for at in range(start, end):
        if names.used(at) != "function":
            continue
        place = next(it for it, kind in names.places(names.tokens[at].text) if kind == "function")
        rows = [[names.tokens[it] for it in row] for row in inside(names, place + 1)]
        wanted, given = [Parameter(it[0].text, "value", joined(it[2:])) for it in rows], len(inside(names, at + 1))
        missing = [it.name for it in wanted[given:]]
        bound = [it for it in range(start) if names.declared(it) == "value" and names.leads(it, start)]
        known = [names.tokens[it].text for it in bound]
        if missing and set(missing) <= set(known):
            close = closing(names.tokens, at + 1)
            old = names.text.text[names.tokens[at].at : names.tokens[close].end]
            new = f"{old[:-1].rstrip()}{', ' if given else ''}{', '.join(missing)})"
            edit = (names.tokens[at].at, names.tokens[close].end, new)
            lines.append(mend(f"write `{new}` in place of `{old}`", edit))
        elif missing:
            lines.append(completed(names, at, [it.type for it in wanted[given:]], missing))
        if len(wanted) < given:
            lines += shortened(names, at, len(wanted))
        if len(wanted) != given:
            where = f"`{names.tokens[at].text}` is called at {names.text.place(names.tokens[at].at)}"
            lines.append(f"see: {where}, and {taken(wanted, given, 'value')}")
    return lines


def completed(names, at, kinds, missing):
    """Gives a line for the values that a function is not given."""
    close = closing(names.tokens, at + 1)
    old = names.text.text[names.tokens[at].at : names.tokens[close].end]
    start = f"{old[:-1].rstrip()}{'' if old[:-1].rstrip().endswith('(') else ', '}"
    tried = ", ".join({"int": "0", "bool": "true"}.get(it, it.replace("list", "nil", 1)) for it in kinds)
    said = ", ".join(f"`{name}: {it}`" for name, it in zip(missing, kinds))
    edit = (names.tokens[at].at, names.tokens[close].end, f"{start}{tried})")
    return mend(f"write `{start}..)` in place of `{old}`, with {said}", edit)


def shortened(names, at, count):
    """Gives a line where a function is given more values than it takes."""
    rows = inside(names, at + 1)
    first, last = names.tokens[rows[count][0]], names.tokens[rows[-1][-1]]
    start = names.tokens[rows[count - 1][-1]].end if count else first.at
    said = names.text.text[first.at : last.end]
    return [mend(f"take `{said}` out", (start, last.end, ""))]


def declared_kind(names, index):
    """Gives the tokens of the kind that a function gives, of which the name stands at a token."""
    equal = next(at for at in range(index, len(names.tokens)) if names.tokens[at].text == "=")
    colon = next(at for at in range(equal, index, -1) if names.tokens[at].text == ":")
    return names.tokens[colon + 1], names.tokens[equal - 1]


def explained(text, answer, program, names):
    """Gives lines on what to do with a function whose body is not of its kind: another kind for it, or another part."""
    if names.leaves is None or text.size > LONGEST:
        return []
    index = text.index_at(answer.offset)

    def goes_on(edit):
        after = program.check(text.edited(edit))
        is_behind = (after.is_cause("TermType") or after.is_cause("ProcType")) and after.offset > answer.offset
        return after.is_accepted or after.is_cause("NoPotential") or is_behind

    first, last = declared_kind(names, index)
    declared = " ".join(text.text[first.at : last.end].split())
    tried = [it for it in KINDS if it != declared and goes_on((first.at, last.end, it))]
    where = f"in place of `{declared}` at {text.place(first.at)}"
    mends = [mend(f"write `{it}` {where}", (first.at, last.end, it)) for it in tried]
    body = text.index_at(last.end) + 1
    end = next(at for at in range(body, len(names.tokens)) if names.tokens[at].text == ";")
    return [*mends, *other_parts(names, body, end, goes_on)][:3] or miscounted(names, body, end)
