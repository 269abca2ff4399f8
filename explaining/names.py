"""What is wrong with a name that breaks a rule of "Names" in docs/LANGUAGE.md."""
import contextlib

from .amounts import closing
from .headed import goes_through, missing
from .known import written
from .mends import Mend, mend, says
from .renamed import fresh, renaming
from .syntax import distance, nearest
from .wordings import NOTHINGS
from .texts import joined, listed, tokens_of

# What a leaf NAME of the grammar is, by its rule and by which NAME of that rule it is.
DECLARED = {
    "definition": (("decl", 0),),
    "function": (("decl", 1),),
    "process": (("decl", 2), ("decl", 3)),
    "value": (("vpar", 0), ("step", 3), ("step", 11), ("last", 3), ("term", 0), ("term", 1)),
    "list": (("par", 0), ("last", 4)),
    "channel": (("cpar", 0), ("step", 2), ("step", 6), ("step", 8), ("step", 9)),
    "label": (("lab", 0), ("branch", 0)),
}
USED = {
    "definition": (("atom", 0),),
    "process": (("step", 10), ("last", 1)),
    "list": (("bound", 0), ("last", 2)),
    "value": (("prim", 0),),
    "channel": (("chan", 0), ("args", 0), ("args", 1), ("step", 1), ("step", 4), ("step", 5), ("step", 7), ("last", 0)),
}
SPACES = ("definition", "function", "process")
SHOWN = {"list": "a list that carries potential"}
MOST_TOKENS = 20_000
# How many channels are tried for one of another name.
MOST_BOUND = 12
# How many instructions are tried by which something is received.
MOST_TRIED = 40


def said(kind):
    return SHOWN.get(kind, f"a {kind}")


class Names:
    """The names of a text that the grammar reads, with the leaves that its tokens are read as."""

    def __init__(self, text, grammar):
        self.text, self.tokens = text, text.tokens
        self.leaves = grammar.leaves(text.tokens) if len(text.tokens) <= MOST_TOKENS else None

    def key(self, at):
        return (self.leaves[at].rule, self.leaves[at].number) if self.leaves[at].text == "NAME" else None

    def declared(self, at):
        """Gives as what a token declares or binds its name, if it does."""
        kind = next((kind for kind, keys in DECLARED.items() if self.key(at) in keys), None)
        made_by_list = self.key(at) == ("step", 11) and self.tokens[at + 2].text == "list"
        return "list" if made_by_list else kind

    def used(self, at):
        """Gives as what a token uses its name, if it does."""
        if self.key(at) == ("prim", 0) and self.tokens[at + 1 : at + 2] and self.tokens[at + 1].text == "(":
            return "function"
        return next((kind for kind, keys in USED.items() if self.key(at) in keys), None)

    def leads(self, start, end):
        """Whether the way from one token to another leaves no branch and no declaration that the first one is in."""
        depth, in_braces = 0, self.opening(start) is not None
        for it in self.tokens[start + 1 : end]:
            depth += (it.text == "{") - (it.text == "}")
            is_left = depth < 0 or it.text == "|" and depth == 0 and in_braces
            if is_left or it.text in ("type", "fn", "proc"):
                return False
        return True

    def opening(self, at):
        """Gives the number of the { that is open at a token of its declaration, if one is."""
        depth = 0
        for before in range(at - 1, -1, -1):
            text = self.tokens[before].text
            if text in ("type", "fn", "proc"):
                return None
            depth += (text == "}") - (text == "{")
            if depth < 0:
                return before
        return None

    def places(self, name):
        """Gives where a name is declared or bound, with as what."""
        here = [at for at, it in enumerate(self.tokens) if it.text == name]
        return [(at, self.declared(at)) for at in here if self.declared(at)]

    def known_before(self, at):
        """Gives the token by which the name that this one declares is known already, if it is found."""
        kind = self.declared(at)
        for before, other in reversed(self.places(self.tokens[at].text)):
            if before >= at:
                continue
            if kind == "label":
                fits = other == kind and self.opening(before) == self.opening(at)
            elif kind in SPACES:
                fits = other == kind
            else:
                fits = other not in (*SPACES, "label") and self.leads(before, at)
            if fits:
                return before
        return None

    def known_otherwise(self, at):
        """Gives the token that declares or binds the name of this one, and does not count here, with as what."""
        found = [it for it in self.places(self.tokens[at].text) if it[1] != "label"]
        near = [it for it in found if it[0] < at and self.leads(it[0], at)]
        far = [it for it in found if it[1] in (*SPACES, self.used(at))]
        return near[-1] if near else far[0] if far else None

    def offering(self, name):
        """Gives the processes that offer a definition."""
        for at, it in enumerate(self.tokens):
            if it.text == ":" and [token.text for token in self.tokens[at + 1 : at + 3]] == [name, "="]:
                heads = [before for before in range(at) if self.tokens[before].text in ("type", "fn", "proc")]
                if self.tokens[heads[-1]].text == "proc":
                    yield self.tokens[heads[-1] + 2].text

    def near(self, at):
        """Gives the names that are used like this one's, and spelt nearly so, the nearest first."""
        kinds = {self.used(at), "list"} if self.used(at) == "value" else {self.used(at)}
        name = self.tokens[at].text
        known = {it.text for place, it in enumerate(self.tokens) if self.declared(place) in kinds}
        if "value" in kinds:
            known |= {"true", "false"}
        return nearest(name, known)


def unused(text):
    """Gives a name that does not stand in a text."""
    taken = {it.text for it in text.tokens}
    return next(it for it in (f"n{number}" for number in range(len(taken) + 1)) if it not in taken)


def needless(names, at, program):
    """Gives a line for a `let` that gives a channel another name, which nothing uses: it is taken out."""
    tokens = names.tokens
    words = [it.text for it in tokens[at - 3 : at + 2]]
    if words[:1] + words[2:3] + words[4:] != ["let", "=", ";"] or names.used(at) != "value":
        return []
    edit = (tokens[at - 3].at, tokens[at + 1].end, "")
    if not goes_through(program.check(names.text.edited(edit))):
        return []
    return [mend(f"take `{' '.join(words[:4])}` out, since a channel has one name, and nothing uses this one", edit)]


def others(names, at, other):
    """Gives edits for a name that is something else than is wanted, each with what it is in words: a process that
    offers this definition, the two names of an instruction the other way round, what is written for a channel or a
    list where this is written for a value, a process that is spawned, a function with its parentheses, and another word
    to send or receive it."""
    tokens, token = names.tokens, names.tokens[at]
    words = [it.text for it in tokens[max(at - 3, 0) : at + 2]] if at > 2 else []
    if other == "definition" and names.used(at) == "process":
        for name in names.offering(token.text):
            yield (token.at, token.end, name), f"write `{name}`, which offers it, in place of `{token.text}`"
    if words[2:3] and words[2] in ("take", "recv", "send") and names.used(at) == "channel":
        pair = f"{words[4]} {token.text}"
        said = f"write `{words[2]} {pair}` in place of `{words[2]} {token.text} {words[4]}`"
        yield (token.at, tokens[at + 1].end, pair), said
    if other == "channel" and (words[0:1], words[2:3], words[4:5]) == (["let"], ["="], [";"]):
        new = f"take {token.text} {words[1]}"
        yield (tokens[at - 3].at, token.end, new), f"write `{new}` in place of `let {words[1]} = {token.text}`"
    around = [it.text for it in tokens[at - 1 : at + 3]]
    if other == "channel" and (around[:1], around[2:]) == (["("], [";", ")"]):
        new = f"(; {token.text})"
        yield (tokens[at - 1].at, tokens[at + 2].end, new), f"write `{new}` in place of `({token.text};)`"
    if other == "channel" and names.used(at) == "value":
        yield from moved(names, at)
    if other == "list" and words[2:3] == ["::"] and words[4:5] == [";"]:
        start = next(before for before in range(at, 0, -1) if tokens[before].text == "=") + 1
        term = joined(tokens[start : at - 1])
        said = f"write `list {term}, {token.text}` in place of `{term} :: {token.text}`"
        yield (tokens[start].at, token.end, f"list {term}, {token.text}"), said
    if other == "function" and names.used(at) == "process" and words[2:3] == ["call"]:
        yield from called(names, at)
    modes = [tokens[before + 1].text for before in range(at, -1, -1) if tokens[before].text == "proc"]
    if other in (None, "value") and names.used(at) == "channel" and modes[:1] not in ([], ["T"]):
        yield (token.at, token.end, "self"), f"write `self` in place of `{token.text}`"
    if other == "process" and names.used(at) == "function" and (words[0:1], words[2:3]) == (["let"], ["="]):
        end = closing(tokens, at + 1)
        call = f"{token.text}({joined(tokens[at + 2 : end])};)"
        said = f"write `spawn {words[1]} = {call}` in place of `let {words[1]} = {joined(tokens[at : end + 1])}`"
        yield (tokens[at - 3].at, tokens[end].end, f"spawn {words[1]} = {call}"), said
    yield from of_functions(names, at, other, words)
    yield from sent(names, at, other)


def of_functions(names, at, other, words):
    """Gives such edits where a process or a function stands for a value, or one for the other."""
    tokens, token = names.tokens, names.tokens[at]
    if other == "process" and names.used(at) == "function" and words[1:2] == ["put"]:
        end = closing(tokens, at + 1)
        call, name = f"{token.text}({joined(tokens[at + 2 : end])};)", fresh(names.text, token.text)
        new = f"spawn {name} = {call}; send {words[2]} {name}"
        old = joined(tokens[at - 2 : end + 1])
        yield (tokens[at - 2].at, tokens[end].end, new), f"write `{new}` in place of `{old}`"
    if other == "function" and names.used(at) == "value":
        yield from given(names, at)


def given(names, at):
    """Gives edits for a function that stands without its parentheses: with none of the values that are known here, or
    with one, the last ones first."""
    token, tokens = names.tokens[at], names.tokens
    known = [tokens[it].text for it in range(at) if names.declared(it) == "value" and names.leads(it, at)]
    for it in ["", *list(dict.fromkeys(known[::-1]))[:MOST_BOUND]]:
        new = f"{token.text}({it})"
        yield (token.at, token.end, new), f"write `{new}` in place of `{token.text}`"


def moved(names, at):
    """Gives an edit where a channel stands among the values of a `call` or a `spawn`: it stands behind the `;`, and a
    value that stands there goes before it."""
    tokens = names.tokens
    opening = next((it for it in range(at - 1, 0, -1) if tokens[it].text in ("(", ";", "{", "=>")), 0)
    if tokens[opening].text != "(" or names.used(opening - 1) != "process":
        return
    end = closing(tokens, opening)
    sides = names.text.text[tokens[opening].end : tokens[end].at].split(";")
    parts = [it.strip() for it in sides[0].split(",") if it.strip()]
    known = {tokens[it].text for it in range(at) if names.declared(it) == "channel" and names.leads(it, at)}
    found = [it for it in parts if it == tokens[at].text or it in known]
    channels = [it.strip() for it in sides[-1].split(",") if it.strip()] if len(sides) == 2 else []
    other = {tokens[it].text for it in range(at) if names.declared(it) == "value" and names.leads(it, at)}
    values = [*(it for it in parts if it not in found), *(it for it in channels if it in other - known)]
    channels = [it for it in channels if it not in values]
    if found and "(" not in sides[0]:
        new = f"({', '.join(values)}; {', '.join([*found, *channels])})"
        old = names.text.text[tokens[opening].at : tokens[end].end]
        yield (tokens[opening].at, tokens[end].end, new), f"write `{new}` in place of `{old}`"


def called(names, at):
    """Gives an edit where a process goes on as a function: it goes on as itself, with what the function gives."""
    tokens, token, end = names.tokens, names.tokens[at], closing(names.tokens, at + 1)
    head = next(before for before in range(at, 0, -1) if tokens[before].text == "proc")
    term = f"{token.text}({joined(tokens[at + 2 : end - 1])})" if tokens[end - 1].text == ";" else ""
    values = [it for it in range(head, at) if names.key(it) in (("vpar", 0), ("par", 0))]
    channels = [tokens[it].text for it in range(head, at) if names.key(it) == ("cpar", 0)]
    if term and len(values) == 1:
        new = f"call {tokens[head + 2].text}({term};{' ' if channels else ''}{', '.join(channels)})"
        old = joined(tokens[at - 1 : end + 1])
        yield (tokens[at - 1].at, tokens[end].end, new), f"write `{new}` in place of `{old}`"


def sent(names, at, other):
    """Gives edits of the word with which this name is sent, or was received: that for values or that for channels."""
    tokens, token = names.tokens, names.tokens[at]
    words = {("value", "channel"): ("put", "send"), ("channel", "value"): ("send", "put")}
    pair = words.get((names.used(at), other))
    if pair and tokens[at - 2].text == pair[0] and tokens[at + 1].text == ";":
        it, via = tokens[at - 2], tokens[at - 1].text
        said = f"write `{pair[1]} {via} {token.text}` in place of `{pair[0]} {via} {token.text}`"
        yield (it.at, it.end, pair[1]), said
    found = names.known_otherwise(at)
    words = {("value", "channel"): ("recv", "take"), ("channel", "value"): ("take", "recv")}
    pair = words.get((names.used(at), other))
    if pair and found and found[0] > 1 and tokens[found[0] - 2].text == pair[0]:
        it = tokens[found[0] - 2]
        yield (it.at, it.end, pair[1]), f"write `{pair[1]}` in place of `{pair[0]}` at {names.text.place(it.at)}"


def is_past(after, edit, token):
    """Whether the check went on past an edit, and past the name that it is for."""
    end = edit[0] + len(edit[2])
    return after.offset >= (end if edit[1] > token.at else end + token.end - edit[1])


def mended(names, at, other, program):
    """Gives lines for such edits, three at most, of which the check goes on past each."""
    found = []
    for edit, words in others(names, at, other):
        after = program.check(names.text.edited(edit))
        is_stuck = after.is_cause("Name") or after.is_cause("ProcType")
        is_behind = is_stuck and is_past(after, edit, names.tokens[at])
        if after.is_accepted or after.is_cause("NoPotential") or is_behind:
            found.append(mend(words, edit))
    sure = [it for it in found if not it.startswith("mend: write `self` in place of ")]
    return list(dict.fromkeys(sure or found))[:3]


def another(names, at):
    """Gives a line with another name for what is known already: of what an instruction binds, also where it is used."""
    text, token = names.text, names.tokens[at]
    if names.leaves[at].rule not in ("step", "last"):
        return mend(f"take another name than `{token.text}`", (token.at, token.end, fresh(text, token.text)))
    new = fresh(text, token.text)
    edits, where = renaming(text, at, new)
    words = f"write `{new}` in place of `{token.text}`{f', here and at {where}' if edits else ''}"
    return mend(words, (token.at, token.end, new), *edits)


def ended_at(tokens, start):
    """Gives the `;` behind the instruction that begins at a token, or nothing where none is behind it."""
    depth = 0
    for at in range(start, len(tokens)):
        if tokens[at].text == ";" and depth == 0:
            return at
        depth += (tokens[at].text in ("(", "{")) - (tokens[at].text in (")", "}"))
        if depth < 0:
            return None
    return None


def started(names, at, program):
    """Gives lines for a process that is started under a name which is bound nowhere on the way here, and is talked to,
    where all is accepted with it; one that is started nowhere else in the declaration comes first."""
    tokens, token = names.tokens, names.tokens[at]
    head = next((place for place in range(at, -1, -1) if tokens[place].text == "proc"), None)
    start = next((place for place in range(at, 0, -1) if tokens[place - 1].text in (";", "=>", "=", "{", "else")), 0)
    is_talk = tokens[start].text in ("case", "take", "recv", "put", "send", "wait") and at == start + 1 or at == start
    if names.used(at) != "channel" or head is None or not is_talk or token.text == "self":
        return []
    heads = (place for place in range(head + 1, len(tokens)) if tokens[place].text in ("proc", "fn", "type"))
    end = next(heads, len(tokens))
    known = {tokens[place + 3].text for place in range(head, end - 3) if tokens[place].text == "spawn"}
    if any(names.declared(place) == "channel" and tokens[place].text == token.text for place in range(head, end)):
        return []
    rows = [place for place, it in enumerate(tokens) if it.text == "proc" and tokens[place + 1].text == "R"]
    body = next(place for place in range(head, end) if tokens[place].text == "=") + 1
    lines = []
    for place in sorted(rows, key=lambda one: tokens[one + 2].text in known)[:MOST_BOUND]:
        inside = joined(tokens[place + 4 : closing(tokens, place + 3)])
        kinds = [it.partition(":")[2].strip() for it in inside.partition(";")[0].split(",") if it.strip()]
        if inside.partition(";")[2].strip() or any("{" in it for it in kinds):
            continue
        tried = ", ".join({"int": "0", "bool": "true"}.get(it, it.replace("list", "nil", 1)) for it in kinds)
        new = f"spawn {token.text} = {tokens[place + 2].text}({tried};);"
        for one in dict.fromkeys((start, body)):
            edit = (tokens[one].at, tokens[one].at, f"{new} ")
            if goes_through(program.check(names.text.edited(edit))):
                said = new.replace(f"({tried};)", "(..;)") if kinds else new
                words = f"write `{said}` before `{joined(tokens[one : one + 2])}` at {names.text.place(tokens[one].at)}"
                lines.append(mend(words, edit))
                break
    return lines[:3]


def matched(names, at, program):
    """Gives a line for a `match` between codes on a list that is a value: an `if` with the same two codes, before which
    the first element and the rest get their names."""
    tokens, name = names.tokens, names.tokens[at].text
    words = [it.text for it in tokens[at - 1 : at + 4]]
    if words[:1] + words[2:] != ["match", "{", "nil", "=>"]:
        return []
    depth, bar, end = 0, None, at + 1
    for end in range(at + 1, len(tokens)):
        depth += (tokens[end].text == "{") - (tokens[end].text == "}")
        bar = end if depth == 1 and tokens[end].text == "|" and bar is None else bar
        if depth == 0:
            break
    if bar is None or [it.text for it in tokens[bar + 2 : bar + 5 : 2]] != ["::", "=>"]:
        return []
    first, rest = tokens[bar + 1].text, tokens[bar + 3].text
    spans = (at + 4, bar - 1), (bar + 5, end - 1)
    codes = [names.text.text[tokens[one].at : tokens[other].end] for one, other in spans]
    h, t = fresh(names.text, first), fresh(names.text, rest)
    for kind, zero in (("int", "0"), ("bool", "false")):
        lets = [(first, f"nil => {zero}", h), (rest, f"nil => nil {kind}", t)]
        used = {it.text for it in tokens[bar + 5 : end]}
        code = "".join(f"let {it} = match {name} {{ {none} | {h} :: {t} => {one} }}; "
                       for it, none, one in lets if it in used)
        new = f"if (match {name} {{ nil => true | {h} :: {t} => false }}) {{ {codes[0]} }} else {{ {code}{codes[1]} }}"
        edit = (tokens[at - 1].at, tokens[end].end, new)
        if goes_through(program.check(names.text.edited(edit))):
            test = new[: new.index(") {") + 1]
            words = f"write `{test} {{ .. }} else {{ {code}.. }}` in place of this `match`, with the same two codes"
            line = mend(f"{words}: a list that is a value is matched in a term", edit)
            line.edits = (edit,)
            return [line]
    return []


def doubled(names, at, program):
    """Gives a line for an instruction that binds a name a second time, and stands there a second time as it is."""
    tokens = names.tokens
    start = next((place for place in range(at, 0, -1) if tokens[place - 1].text in (";", "{", "=>", "=")), 0)
    end, before = ended_at(tokens, start), names.known_before(at)
    if names.leaves[at].rule != "step" or end is None or before is None or before - at + start < 1:
        return []
    first = before - at + start
    words = [[it.text for it in tokens[one : one + end - start + 1]] for one in (first, start)]
    if words[0] != words[1]:
        return []
    edit = (tokens[start].at, tokens[end].end, "")
    after = program.check(names.text.edited(edit))
    is_past = (after.is_cause("Name") or after.is_cause("ProcType")) and after.offset > tokens[start].at
    if after.is_accepted or after.is_cause("NoPotential") or is_past:
        return [mend(f"take it out, since it stands at {names.text.place(tokens[first].at)} already", edit)]
    return []


def nothing(names, at, program):
    """Gives a line for a word that means in other languages that there is nothing, where no value has the name."""
    token = names.tokens[at]
    if token.text not in NOTHINGS or names.used(at) != "value":
        return []
    edit = (token.at, token.end, "(0 - 1)")
    if not goes_through(program.check(names.text.edited(edit))):
        return []
    return [mend(f"write a number that says that there is nothing, as `0 - 1`, in place of `{token.text}`", edit)]


def own_number(names, at, program):
    """Gives a line for `me` in place of a name that a transaction puts, and that a contract compares with what comes
    there: it is to know who pays."""
    tokens, token = names.tokens, names.tokens[at]
    head = next((place for place in range(at, -1, -1) if tokens[place].text in ("proc", "fn")), 0)
    if tokens[at - 2].text != "put" or tokens[head + 1].text != "T" or names.used(at) != "value":
        return []
    words = [it.text for it in tokens]
    taken = {words[place + 2] for place in range(len(words) - 2) if words[place : place + 2] == ["take", "self"]}
    is_compared = any(words[place : place + 3] in ([one, "=", token.text], [token.text, "=", one])
                      for one in taken for place in range(len(words) - 2))
    edit = (token.at, token.end, "me")
    if is_compared and goes_through(program.check(names.text.edited(edit))):
        return [mend(f"write `me`, the account that pays, in place of `{token.text}`", edit)]
    return []


def turned(names, at, program):
    """Gives a line for a name that is sent and bound nowhere, where all is accepted once it is received instead; and
    for one that is received and known already, where it is sent instead."""
    word, behind = names.tokens[at - 2], names.tokens[at + 1 : at + 2]
    ways = {("put", "value"): "take", ("send", "channel"): "recv", ("take", None): "put", ("recv", None): "send"}
    new = ways.get((word.text, names.used(at)))
    if new is None or not behind or behind[0].text != ";":
        return []
    edit = (word.at, word.end, new)
    if not goes_through(program.check(names.text.edited(edit))):
        return []
    return [mend(f"write `{new}` in place of `{word.text}` at {names.text.place(word.at)}", edit)]


def computed(names, at, program):
    """Gives a line for a value that is bound nowhere, by a `let` before the instruction, of what the writer knows."""
    tokens, token = names.tokens, names.tokens[at]
    start = next((place for place in range(at, 0, -1) if tokens[place - 1].text in (";", "=>", "=", "{", "else")), 0)
    if names.used(at) != "value" or names.leaves[start].rule not in ("step", "last", "chan"):
        return []
    for value in ("0", "true", "nil int"):
        new = f"let {token.text} = {value}; "
        edit = (tokens[start].at, tokens[start].at, new)
        after = program.check(names.text.edited(edit))
        is_past = (after.is_cause("Name") or after.is_cause("ProcType")) and after.offset > token.end + len(new)
        if goes_through(after) or is_past:
            words = f"write `let {token.text} = ..;` before `{joined(tokens[start : start + 2])}`"
            return [mend(f"{words} at {names.text.place(tokens[start].at)}", edit)]
    return []


def bound_later(names, at, program):
    """Gives a line for the instruction behind this one that binds the name, on the same way: it stands before it."""
    tokens, name, wanted = names.tokens, names.tokens[at].text, names.used(at)
    later = [place for place in range(at + 1, len(tokens))
             if tokens[place].text == name and names.declared(place) == wanted and names.leads(at, place)]
    start = next((place for place in range(at, 0, -1) if tokens[place - 1].text in (";", "{", "=>", "=")), 0)
    if not later or wanted not in ("value", "channel"):
        return []
    first = next((place for place in range(later[0], at, -1) if tokens[place - 1].text == ";"), None)
    end = None if first is None else ended_at(tokens, first)
    if end is None:
        return []
    code = joined(tokens[first:end])
    edits = (tokens[start].at, tokens[start].at, f"{code}; "), (tokens[first].at, tokens[end].end, "")
    after = program.check(names.text.edited(*edits))
    is_past = (after.is_cause("Name") or after.is_cause("ProcType")) and after.offset > tokens[end].end
    if after.is_accepted or after.is_cause("NoPotential") or is_past:
        said = joined(tokens[start : start + 2])
        where = f"before `{said}` at {names.text.place(tokens[start].at)}, and not behind it"
        return [mend(f"write `{code};` {where}", *edits)]
    return used_later(names, at, start, end, program)


def used_later(names, at, start, end, program):
    """Gives a line for the instruction that uses a name, behind the one that binds it."""
    tokens = names.tokens
    last = next((place for place in range(at, end) if tokens[place].text == ";"), None)
    if last is None:
        return []
    code = joined(tokens[start:last])
    edits = (tokens[start].at, tokens[last + 1].at, ""), (tokens[end].end, tokens[end].end, f" {code};")
    after = program.check(names.text.edited(*edits))
    is_past = (after.is_cause("Name") or after.is_cause("ProcType")) and after.offset > tokens[end].end
    if after.is_accepted or after.is_cause("NoPotential") or is_past:
        return [mend(f"write `{code};` behind the `;` at {names.text.place(tokens[end].at)}, and not here", *edits)]
    return []


def declared_ones(names, at, wanted, program):
    """Gives a line for what is declared that is wanted here, where one alone goes on past the whole declaration."""
    token, tokens = names.tokens[at], names.tokens
    known = [it.text for place, it in enumerate(tokens) if names.declared(place) == wanted]
    found = []
    for name in list(dict.fromkeys(known))[: 2 * MOST_BOUND]:
        after = program.check(names.text.edited((token.at, token.end, name)))
        is_past = after.is_cause("ProcType") and after.offset > token.at + len(name)
        if after.is_accepted or after.is_cause("NoPotential") or is_past:
            found.append((name, after.is_accepted or after.is_cause("NoPotential")))
    sure = [name for name, is_sure in found if is_sure] or [name for name, _ in found]
    lines = [mend(f"write `{name}` in place of `{token.text}`", (token.at, token.end, name)) for name in sure[:3]]
    return lines if len(sure) <= 3 else [f"see: declared are {listed(known)}"]


def applied(names, at, program):
    """Gives lines for a function that is given the value which stands in its place."""
    token, tokens = names.tokens[at], names.tokens
    end = closing(tokens, at + 1)
    inside = joined(tokens[at + 2 : end])
    known = [it.text for place, it in enumerate(tokens) if names.declared(place) == "function"]
    lines = []
    for name in list(dict.fromkeys(known))[:MOST_BOUND]:
        new = f"{name}({token.text}{', ' if inside else ''}{inside})"
        edit = (token.at, tokens[end].end, new)
        after = program.check(names.text.edited(edit))
        if after.is_accepted or after.is_cause("NoPotential"):
            lines.append(mend(f"write `{new}` in place of `{joined(tokens[at : end + 1])}`", edit))
    return lines[:3]


def acquired(names, at, program):
    """Gives lines on the contracts that are known here, one of which is acquired under this name before the
    instruction, where the check goes on past that then."""
    text, tokens, token = names.text, names.tokens, names.tokens[at]
    if names.used(at) != "channel":
        return []
    start = next(place for place in range(at, 0, -1) if tokens[place - 1].text in (";", "{", "=>", "="))
    known = [it.text for place, it in enumerate(tokens[:start])
             if names.declared(place) == "channel" and names.leads(place, start)]
    does = []
    for name in list(dict.fromkeys(known))[:MOST_BOUND]:
        new = f"acquire {name} as {token.text}; "
        after = program.check(text.edited((tokens[start].at, tokens[start].at, new)))
        is_past = (after.is_cause("Name") or after.is_cause("ProcType")) and after.offset > token.end + len(new)
        if after.is_accepted or after.is_cause("NoPotential") or is_past:
            does.append(mend(f"write `{new.strip()}` before `{tokens[start].text}`", (tokens[start].at,) * 2 + (new,)))
    return does[:3]


def bound_here(names, at, program, is_sure=False):
    """Gives lines on the channels that are bound on the way here with which the check goes on past this name, here and
    where it stands behind that; where it has to be sure, on those alone with which all is accepted."""
    text, token = names.text, names.tokens[at]
    if names.used(at) != "channel":
        return []
    known = [it.text for place, it in enumerate(names.tokens[:at])
             if names.declared(place) == "channel" and names.leads(place, at)]
    does = []
    for name in list(dict.fromkeys(known[::-1]))[:MOST_BOUND]:
        more, where = renaming(text, at, name)
        edits = (token.at, token.end, name), *more
        after = program.check(text.edited(*edits))
        is_past = (after.is_cause("Name") or after.is_cause("ProcType")) and after.offset > token.at + len(name)
        if after.is_accepted or after.is_cause("NoPotential") or is_past:
            words = f"write `{name}` in place of `{token.text}`{f', here and at {where}' if more else ''}"
            does.append((after.is_accepted or after.is_cause("NoPotential"), mend(words, *edits), name))
    does.sort(key=lambda it: distance(it[2], token.text))
    if is_sure:
        return [it for is_accepted, it, _ in does if is_accepted][:3]
    sure = [it for is_sure, it, _ in does if is_sure]
    if len(does) == 1 or 0 < len(sure) < 4:
        return sure or [does[0][1]]
    return acquired(names, at, program)


def nearly_bound(names, at, program):
    """Gives a line for a name that is bound on the way here as what is wanted, and is spelt nearly so, here and where
    this one stands behind that."""
    text, token, wanted = names.text, names.tokens[at], names.used(at)
    known = {it.text for place, it in enumerate(names.tokens[:at]) if names.declared(place) == wanted
             and names.leads(place, at)}
    for name in nearest(token.text, known):
        if distance(name.lower(), token.text.lower()) > 1:
            continue
        more, where = renaming(text, at, name)
        edits = (token.at, token.end, name), *more
        after = program.check(text.edited(*edits))
        is_past = (after.is_cause("Name") or after.is_cause("ProcType")) and after.offset > token.at + len(name)
        if goes_through(after) or is_past:
            words = f"write `{name}` in place of `{token.text}`{f', here and at {where}' if more else ''}"
            return [mend(words, *edits)]
    return []


def one_bound(names, at, program):
    """Gives a line for a channel that is bound on the way here, or `self`, in place of this name here alone, where all
    is accepted with one of them and with no other one."""
    token = names.tokens[at]
    if names.used(at) != "channel":
        return []
    known = [it.text for place, it in enumerate(names.tokens[:at])
             if names.declared(place) == "channel" and names.leads(place, at)]
    taken = {names.tokens[place].text for place, it in enumerate(names.tokens[:-1]) if place != at
             and names.tokens[place - 1].text == "acquire" and (names.leads(place, at) or names.leads(at, place))}
    taken = taken if names.tokens[at - 1].text == "acquire" else set()
    head = next((place for place in range(at, -1, -1) if names.tokens[place].text == "proc"), 0)
    own = [] if names.tokens[head + 1].text == "T" else ["self"]
    known = [it for it in [*own, *dict.fromkeys(known[::-1])] if it not in taken]
    edits = [(token.at, token.end, it) for it in known[:MOST_BOUND]]
    found = [it for it in edits if goes_through(program.check(names.text.edited(it)))]
    return [mend(f"write `{found[0][2]}` in place of `{token.text}`", found[0])] if len(found) == 1 else []


def payer(text, at, program, grammar):
    """Gives a line for `me` outside of transactions: a number that the client put, where there is one alone, or how the
    client may put its own."""
    names, token = Names(text, grammar), text.tokens[at]
    head = next(place for place in range(at, -1, -1) if text.tokens[place].text in ("fn", "proc"))
    if text.tokens[head].text == "fn" or names.leaves is None:
        return ["see: a function gets the number of the account as a parameter, and who calls it gives `me`"]
    taken = [place for place in range(head, at) if names.key(place) == ("step", 3) and names.leads(place, at)]
    own = [names.tokens[place].text for place in taken if names.tokens[place - 1].text == "self"]
    found = same_kind(names, at, own, program)
    lines = [mend(f"write `{name}`, which the client put, in place of `me`", edit) for name, edit in found]
    if len(lines) != 1 and not found:
        lines = put_by_client(names, at, program, grammar)
    asked = "see: a contract does not know who pays: the type has `int -> ..`, the contract `take self ..`, and the "
    return lines if len(lines) == 1 else [f"{asked}transaction `put x me`"]


def put_by_client(names, at, program, grammar):
    """Gives a line for the number that the client puts next, by the type that `self` is at here: it is taken first, and
    stands in place of each `me` behind that."""
    types, steps = way(names, at, grammar)
    if not steps or "self" not in steps[-1][1]:
        return []
    step, held = steps[-1]
    whole = types.unfolded(held["self"].type)
    if whole.sign != "->" or names.tokens[whole.at].text != "int":
        return []
    new, token = unused(names.text), names.tokens[step.at]
    known = {it.text for it in names.tokens}
    new = next((it for it in ("who", "account", "client") if it not in known), new)
    rows = [it for place, it in enumerate(names.tokens) if it.text == "me" and names.leads(step.at, place)]
    edits = [(token.at, token.at, f"take self {new}; "), *((it.at, it.end, new) for it in rows)]
    after = program.check(names.text.edited(*edits))
    is_past = (after.is_cause("Name") or after.is_cause("ProcType")) and after.offset > names.tokens[at].end
    if not (after.is_accepted or after.is_cause("NoPotential") or is_past):
        return []
    where = ", ".join(names.text.place(it.at) for it in rows[:8])
    words = f"write `take self {new};` before `{token.text}` at {names.text.place(token.at)}, and `{new}` in place of"
    return [mend(f"{words} `me` at {where}", *edits)]


def same_kind(names, at, known, program):
    """Gives the values among these, each with its edit, with which the check goes on past a name."""
    token, found = names.tokens[at], []
    for name in list(dict.fromkeys(known))[:MOST_BOUND]:
        edit = (token.at, token.end, name)
        after = program.check(names.text.edited(edit))
        is_past = (after.is_cause("Name") or after.is_cause("ProcType")) and after.offset > token.at + len(name)
        if after.is_accepted or after.is_cause("NoPotential") or is_past:
            found.append((name, edit))
    return found


def coming(names, at, program, grammar):
    """Gives a line for what receives this name, on a channel at whose type it comes next, or behind a label that the
    talk comes back from, before an instruction on the way here, the last one that does: with it the check goes on past
    the name."""
    signs = {"value": ("->", "/\\", "take"), "channel": ("-o", "*", "recv")}.get(names.used(at))
    types, steps = way(names, at, grammar) if signs else (None, [])
    asked = 0
    ways = [(step, via, new) for step, held in steps[::-1]
            for via, new in received(types, held, names.tokens[at].text, signs)]
    for step, via, new in sorted(ways, key=lambda it: "." in it[2]):
        start = names.tokens[step.at].at
        asked += 1
        if asked > MOST_TRIED:
            return []
        edit = (start, start, f"{new} ")
        after = program.check(names.text.edited(edit))
        use = names.tokens[at].at + len(edit[2])
        is_past = after.is_cause("Name") and after.offset > use
        is_here = after.is_cause("ProcType") and start <= after.offset <= use
        is_past = is_past or after.is_cause("ProcType") and not is_here
        is_past = is_past or is_here and not is_on(names.text.edited(edit), after.offset, via)
        if after.is_accepted or after.is_cause("NoPotential") or is_past:
            said = f"`{names.tokens[step.at].text}` at {names.text.place(start)}"
            return [mend(f"write `{new}` before {said}", edit)]
    return []


def is_on(data, offset, channel):
    """Whether the instruction at an offset is on this channel."""
    words = [it.text for it in tokens_of(data[offset : offset + 200].decode("latin-1"))[:2]]
    return channel in (words if words[1:] == ["."] else words[1:])


def received(types, held, name, signs):
    """Gives the instructions by which something of this name is received on what is held, each with its channel."""
    for via, it in held.items():
        whole = types.unfolded(it.type)
        if whole.sign == signs[0 if via == "self" else 1]:
            yield via, f"{signs[2]} {via} {name};"
        for label, behind in whole.parts if whole.sign == "&" and via != "self" else ():
            further = types.unfolded(behind)
            if further.sign == signs[1] and types.said(*further.parts[-1][:2]) == types.said(*it.type[:2]):
                yield via, f"{via}.{label}; {signs[2]} {via} {name};"


def compared(names, at):
    """Gives a line for a `case` of two branches on a value, of which the first names another value: an `if`."""
    tokens, rows = names.tokens, []
    if tokens[at - 1].text != "case" or names.used(at) != "channel" or tokens[at + 1].text != "{":
        return []
    depth, start, end = 0, at + 2, at + 1
    for end in range(at + 1, len(tokens)):
        depth += (tokens[end].text == "{") - (tokens[end].text == "}")
        if depth == 0 or depth == 1 and tokens[end].text == "|":
            rows.append((start, end))
            start = end + 1
        if depth == 0:
            break
    known = {tokens[it].text for it in range(at) if names.declared(it) == "value" and names.leads(it, at)}
    if len(rows) != 2 or tokens[rows[0][0]].text not in known:
        return []
    test = f"{tokens[at].text} = {tokens[rows[0][0]].text}"
    codes = [names.text.text[tokens[one + 2].at : tokens[other - 1].end] for one, other in rows]
    new = f"if {test} {{ {codes[0]} }} else {{ {codes[1]} }}"
    words = f"write an `if {test}` in place of this `case`, which is on a channel, with the same two branches"
    return [mend(words, (tokens[at - 1].at, tokens[end].end, new))]


def worth(names, at, program, grammar):
    """Gives a line where a channel stands for a value that it tells: it is asked before, and the value stands in its
    place, here and behind."""
    tokens, token = names.tokens, names.tokens[at]
    types, steps = way(names, at, grammar) if names.used(at) == "value" else (None, [])
    if not steps or token.text not in steps[-1][1]:
        return []
    step, held = steps[-1]
    it = held[token.text].type
    rows = [one for place, one in enumerate(tokens) if one.text == token.text and place >= step.at
            and names.used(place) == "value" and names.leads(step.at, place)]
    start, new = tokens[step.at], fresh(names.text, token.text)
    for label, behind in types.unfolded(it).parts if types.unfolded(it).sign == "&" else ():
        further = types.unfolded(behind)
        if further.sign != "/\\" or types.said(*further.parts[-1][:2]) != types.said(*it[:2]):
            continue
        code = f"{token.text}.{label}; take {token.text} {new};"
        edits = [(start.at, start.at, f"{code} "), *((one.at, one.end, new) for one in rows)]
        after = program.check(names.text.edited(*edits))
        is_past = (after.is_cause("Name") or after.is_cause("ProcType")) and after.offset > token.at + len(code)
        if after.is_accepted or after.is_cause("NoPotential") or is_past:
            where = ", ".join(names.text.place(one.at) for one in rows[:8])
            words = f"write `{code}` before `{start.text}` at {names.text.place(start.at)}, and `{new}` in place of"
            return [mend(f"{words} `{token.text}` at {where}", *edits)]
    return []


def made(names, at, program, grammar):
    """Gives lines for a process that is started before something is sent which is no channel yet, and is of the type
    that is wanted there: with the value that stands there, or with values that the writer knows."""
    tokens, token = names.tokens, names.tokens[at]
    if names.used(at) != "channel":
        return []
    types, step, held = stand(names, at, grammar)
    via, wanted = tokens[at - 1].text, handed(names, at, types, step)
    is_sent = step is not None and tokens[at - 2].text == "send" and via in held
    whole = types.unfolded(held[via].type) if is_sent else None
    if whole is not None and whole.sign == ("*" if via == "self" else "-o"):
        wanted = types.said(*whole.parts[0][:2])
    if wanted is None:
        return []
    lines, start, where = [], tokens[step.at].at, " ".join(it.text for it in tokens[step.at : step.at + 2])
    for it in types.processes.values():
        kinds = [one.type for one in it.parameters]
        if it.offers != wanted or it.mode != "R" or it.of_kind("channel"):
            continue
        is_value = names.known_otherwise(at) is not None and names.known_otherwise(at)[1] == "value"
        tries = [{"int": "0", "bool": "true"}.get(kind, kind.replace("list", "nil", 1)) for kind in kinds]
        name = fresh(names.text, token.text) if is_value else token.text
        given = [token.text] if is_value and len(kinds) == 1 else tries
        said = token.text if given != tries else ".." if tries else ""
        code = f"spawn {name} = {it.name}({', '.join(given)};); "
        edits = (start, start, code), *(((token.at, token.end, name),) if is_value else ())
        after = program.check(names.text.edited(*edits))
        is_past = after.is_cause("ProcType") or after.is_cause("Name")
        if after.is_accepted or after.is_cause("NoPotential") or is_past and after.offset > token.at + len(code):
            instead = f", and `{name}` in place of `{token.text}`" if is_value else ""
            words = f"write `spawn {name} = {it.name}({said};);` before `{where}`{instead}"
            lines.append(mend(words, *edits))
    return lines[:3]


def handed(names, at, types, step):
    """Gives the type of the parameter that a name is given for in a `call` or a `spawn`, where it is found."""
    tokens = names.tokens
    if step is None or step.form not in ("call", "spawn"):
        return None
    process = types.processes.get(tokens[step.at + (1 if step.form == "call" else 3)].text)
    signs = [place for place in range(step.at, at) if tokens[place].text == ";"]
    if process is None or not signs:
        return None
    count = sum(tokens[place].text == "," for place in range(signs[-1], at))
    channels = process.of_kind("channel")
    return channels[count].type if count < len(channels) else None


def stand(names, at, grammar):
    """Gives the types, the instruction that a token is in, and what is held there; no instruction where that is not
    found."""
    types, steps = way(names, at, grammar)
    return types, *(steps[-1] if steps else (None, {}))


def way(names, at, grammar):
    """Gives the types, and the instructions up to the one that a token is in, each with what is held there; none where
    they are not found."""
    from .held import Types

    types, steps = Types(names.text, grammar), []
    process = [it for it in types.processes.values() if it.at < at]
    if not process:
        return types, []
    held, step = types.start(process[-1]), process[-1].first
    try:
        while not step.at <= at < step.end:
            steps.append((step, dict(held)))
            label, further = next(it for it in step.behind[::-1] if it[1].at <= at)
            with contextlib.suppress(KeyError, ValueError, IndexError, TypeError):
                types.behind(held, step, label)
            step = further
    except (StopIteration, IndexError):
        return types, []
    return types, [*steps, (step, held)]


def unused_values(names, at, keys, last=None):
    """Gives the values that are bound so on the way to a token, and used nowhere behind that, or nowhere up to a
    token."""
    tokens = names.tokens
    end = len(tokens) if last is None else last
    return [it.text for place, it in enumerate(tokens[:at]) if names.key(place) in keys and names.leads(place, at)
            and not any(it.text == other.text and names.used(further) for further, other in enumerate(tokens[:end])
                        if further > place and names.leads(place, further) and names.leads(further, at))]


def valued(names, at, program):
    """Gives a line for the one value that was received or computed on the way here, or else is a parameter, and is used
    nowhere, in place of what stands where a value is wanted."""
    if names.used(at) != "value":
        return []
    known = unused_values(names, at, (("step", 3), ("step", 11)))
    known = known or unused_values(names, at, (("vpar", 0),), at)
    found = same_kind(names, at, known[::-1], program) if len(set(known)) <= MOST_BOUND else []
    if len(found) != 1:
        return []
    name, edit = found[0]
    more, where = renaming(names.text, at, name)
    end = next((it for it in range(at, len(names.tokens)) if names.tokens[it].text in (";", "{", "}")), at)
    same = [it for it in range(at + 1, end) if names.tokens[it].text == names.tokens[at].text and names.used(it)]
    more = (*((names.tokens[it].at, names.tokens[it].end, name) for it in same), *more)
    where = ", ".join([*(names.text.place(names.tokens[it].at) for it in same), *([where] if where else [])])
    words = f"write `{name}` in place of `{names.tokens[at].text}`{f', here and at {where}' if more else ''}"
    return [mend(words, edit, *more)]


def explained(text, answer, program, grammar):
    """Gives the row that fits a text with such a name, and lines on what to do."""
    at = text.index_at(answer.offset)
    token = text.tokens[at]
    if token.text == "me":
        return "Name me", payer(text, at, program, grammar)

    def moves_on(name):
        after = program.check(text.edited((token.at, token.end, name)))
        return not after.is_cause("Name") or after.offset > answer.offset

    is_new = moves_on(unused(text))
    names = Names(text, grammar)
    if names.leaves is None:
        return "Name", []
    if is_new:
        before = names.known_before(at)
        see = [] if before is None else [f"see: `{token.text}` is known since {text.place(text.tokens[before].at)}"]
        other = doubled(names, at, program) or turned(names, at, program)
        return "Name twice", [*other, another(names, at), *see]
    row, lines = of_unbound(names, at, program, grammar, moves_on)
    own = own_number(names, at, program) or nothing(names, at, program)
    if own:
        return row, [*own, *(it for it in lines if not isinstance(it, Mend))]
    if not any(isinstance(it, Mend) for it in lines):
        lines = [*(missing(names, at, program, is_asked=True) or computed(names, at, program)), *lines]
    return row, lines


def of_unbound(names, at, program, grammar, moves_on):
    """Gives the row and the lines for a name that is not bound, or as something else than is wanted."""
    token, wanted, other = names.tokens[at], names.used(at), names.known_otherwise(at)
    if wanted is None:
        return "Name", []
    near = next((it for it in names.near(at) if moves_on(it)), None)
    lacking = missing(names, at, program) or turned(names, at, program) or started(names, at, program)
    if not lacking and near is None and (other is None or other[1] == wanted):
        sure = bound_here(names, at, program, is_sure=True)
        lacking = one_bound(names, at, program) or (sure if len(sure) == 1 else [])
        is_asked = names.tokens[at - 1].text == "acquire" and not bound_here(names, at, program, is_sure=True)
        lacking = lacking or (missing(names, at, program, is_asked=True) if is_asked else [])
    if lacking:
        see = [f"see: `{token.text}` is bound at {names.text.place(names.tokens[other[0]].at)}"] \
            if other and other[1] == wanted else []
        return ("Name scope" if other else "Name unknown"), [*lacking, *see]
    early = [] if is_near_here(names, at) else bound_before(names, at, other, program, grammar, moves_on)
    if early and early[0].count("`") > 1 and "." in early[0].split("`")[1]:
        early = [*missing(names, at, program, is_asked=True), *early]
    if early and not (other and other[1] not in (wanted, None) and names.leads(other[0], at)):
        return "Name scope", early
    told = needless(names, at, program) if other and other[1] == "channel" else []
    mends = told or mended(names, at, other and other[1], program)
    is_sure = any(goes_through(program.check(names.text.edited(*it.tried))) for it in mends)
    if not is_sure and other and other[1] == "channel" and wanted == "value":
        told = worth(names, at, program, grammar)
        mends = [*told, seen(names, other, wanted)] if told else mends
    if mends:
        return ("Name other" if other else "Name unknown"), mends
    if other:
        return otherwise(names, at, other, program, grammar)
    does = valued(names, at, program)
    if near and not (does and distance(near, token.text) > 1):
        return "Name near", [mend(says("near", name=near), (token.at, token.end, near))]
    return unknown(names, at, does, program, grammar)


def is_near_here(names, at):
    """Whether a name that is bound on the way here as what is wanted differs from this one in a letter, or in case."""
    token, wanted = names.tokens[at], names.used(at)
    return any(names.declared(place) == wanted and names.leads(place, at)
               and distance(it.text.lower(), token.text.lower()) <= 1 and max(len(it.text), len(token.text)) > 2
               for place, it in enumerate(names.tokens[:at]) if it.text != token.text)


def bound_before(names, at, other, program, grammar, moves_on):
    """Gives lines for an instruction that binds the name: one that stands behind it, or one that receives it, where
    nothing else is likelier. A parameter that is used nowhere is likelier than what has to be asked for first."""
    early = bound_later(names, at, program)
    is_known = any(map(moves_on, names.near(at))) or bound_here(names, at, program, is_sure=True)
    is_known = is_known or names.used(at) == "value" and other is not None and other[1] == "function"
    does = valued(names, at, program)
    if early or is_known or does and unused_values(names, at, (("step", 3), ("step", 11))):
        return early
    found = coming(names, at, program, grammar)
    return [] if does and found and "." in found[0].split("`")[1] else found


def seen(names, other, wanted):
    """Gives a line on what a name is, where something else is wanted."""
    token, kind = names.tokens[other[0]], other[1]
    return f"see: `{token.text}` is {said(kind)}, by {names.text.place(token.at)}, and {said(wanted)} is wanted here"


def otherwise(names, at, other, program, grammar):
    """Gives the row and the lines for a name that is known as something else, or elsewhere."""
    text, token, wanted = names.text, names.tokens[at], names.used(at)
    place, kind = text.place(text.tokens[other[0]].at), other[1]
    if kind == wanted:
        found = nearly_bound(names, at, program) or one_bound(names, at, program)
        found = found or [*bound_here(names, at, program), *valued(names, at, program)]
        found = found or made(names, at, program, grammar)
        return "Name scope", [*found, f"see: `{token.text}` is bound at {place}"]
    see = seen(names, other, wanted)
    found = declared_ones(names, at, wanted, program) if wanted == "function" else []
    found = found or (applied(names, at, program) if wanted == "function" else [])
    found = found or (matched(names, at, program) if wanted == "list" else [])
    found = found or compared(names, at) or one_bound(names, at, program)
    mends = found or worth(names, at, program, grammar) or made(names, at, program, grammar)
    mends = mends or bound_here(names, at, program)
    mends = mends or valued(names, at, program)
    return "Name other", [*mends, see]


def unknown(names, at, does, program, grammar):
    """Gives the row and the lines for a name that is known nowhere; with a value that may be meant, if one may."""
    token, wanted = names.tokens[at], names.used(at)
    lines = [f"see: {said(wanted)} is wanted here, and none has the name `{token.text}`"]
    if wanted == "value" and token.text in NOTHINGS:
        words = f"write a number that says that there is nothing, as `0 - 1`, in place of `{token.text}`"
        lines = [mend(words, (token.at, token.end, "(0 - 1)")), *lines]
    if wanted in SPACES:
        lines = [*(written(names, at, program) or declared_ones(names, at, wanted, program)), *lines]
    known = [it.text for place, it in enumerate(names.tokens[:at])
             if names.declared(place) == wanted == "value" and names.leads(place, at)]
    lines += [f"see: the values that are known here are {listed(known)}"] if known else []
    does = made(names, at, program, grammar) or bound_here(names, at, program) or does
    return "Name unknown", [*does, *lines]
