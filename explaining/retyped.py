"""What to write in a type where the instructions agree with one another and not with it."""
from .mends import mend

# What goes the other way at each sign.
OTHER = {"/\\": "->", "->": "/\\", "*": "-o", "-o": "*", "+": "&", "&": "+"}
PAID = {"|": "<{{{}}}|", "<": "|{{{}}}>"}
FORMS = ("label", "case", "send", "recv", "put", "take", "pay", "get")
# With which sign a channel is sent or received, by the side that has the instruction.
SENDING = {("send", True): "*", ("recv", True): "-o", ("send", False): "-o", ("recv", False): "*"}


def sign_of(types, it):
    """Gives the token of the sign of a type, or nothing where parentheses hide it."""
    if it.sign in ("+", "&"):
        at = it.at
    else:
        at = it.parts[0].end if it.sign in ("*", "-o") else it.parts[-1].at - 1
    return types.tokens[at] if types.tokens[at].text == it.sign else None


def turned(types, it):
    """Gives the edit with which what is sent at a type goes the other way, and what that is in words."""
    whole = types.unfolded(it)
    token = sign_of(types, whole) if whole.sign in OTHER else None
    if whole.sign in PAID and types.tokens[whole.at].text == whole.sign:
        first, last = types.tokens[whole.at], types.tokens[whole.at + 4]
        new, old = PAID[whole.sign].format(types.amount(whole)), types.said(whole.at, whole.at + 5)
        place = types.text.place(first.at)
        yield (first.at, last.end, new), f"write `{new}` in place of `{old}` at {place}, in the type"
    if token:
        new = OTHER[whole.sign]
        place = types.text.place(token.at)
        yield (token.at, token.end, new), f"write `{new}` in place of `{token.text}` at {place}, in the type"


def ended(types, it, form, is_self):
    """Gives the edit with which one channel more goes over a talk, which ends behind it."""
    sign, last = SENDING.get((form, is_self)), types.tokens[it.end - 1]
    if sign:
        place = types.text.place(last.at)
        said = f"write `{sign} 1` behind `{last.text}` at {place}, in the type, where the talk goes on as that so far"
        yield (last.end, last.end, f" {sign} 1"), said


def missing(types, it, stuck, is_self):
    """Gives edits with which what is sent here stands in the type too, before what the channel is at."""
    token, form = types.tokens[it.at], stuck.form
    signs = {("put", True): "/\\", ("put", False): "->", ("take", True): "->", ("take", False): "/\\"}
    new = []
    if form in ("pay", "get"):
        amount = types.tokens[stuck.at + 3].text
        new = [f"<{{{amount}}}|" if (form == "get") == is_self else f"|{{{amount}}}>"]
    elif (form, is_self) in signs:
        new = [f"{kind} {signs[form, is_self]}" for kind in ("int", "bool")]
    for one in new:
        place = types.text.place(token.at)
        yield (token.at, token.at, f"{one} "), f"write `{one}` before `{token.text}` at {place}, in the type"


def retyped(types, stuck, held, reach):
    """Gives lines on such edits: those that let the check accept the text, and where the channel is at what is named
    behind the last sign of a type, those that let it go on past the stuck instruction."""
    at = stuck.at if stuck.form == "label" else stuck.at + 1
    name = types.tokens[at].text
    if stuck.form not in FORMS or name not in held:
        return []
    it, found = held[name].type, []
    for edit, words in turned(types, it):
        if reach(edit) == types.text.size + 1:
            found.append(mend(words, edit))
    for edit, words in missing(types, it, stuck, name == "self") if not found else ():
        if reach(edit) == types.text.size + 1:
            found.append(mend(words, edit))
    is_behind = types.tokens[it.at - 1].text in ("*", "-o")
    for edit, words in ended(types, it, stuck.form, name == "self") if is_behind and not found else ():
        if reach(edit) > types.tokens[stuck.at].at:
            found.append(mend(words, edit))
    return found
