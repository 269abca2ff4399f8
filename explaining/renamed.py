"""Names that are bound or written anew: the uses behind that, which a mend renames too, and a name for them."""
from .order import HEADS

# The signs behind which an instruction begins, and the words that bind the name behind them, with how far behind.
STARTS = (";", "{", "=>", "=")
BINDING = {"let": 1, "spawn": 1, "take": 2, "recv": 2, "acquire": 3, "release": 3}
MOST_PLACES = 8


def fresh(text, name):
    """Gives a name like this one that does not stand in a text."""
    taken = {it.text for it in text.tokens}
    return next(it for it in (f"{name[:60]}{number}" for number in range(2, len(taken) + 3)) if it not in taken)


def is_name(tokens, at):
    """Whether the word at a token is the name of a value or a channel, and no label and no function."""
    behind = tokens[at + 1].text if at + 1 < len(tokens) else ""
    return tokens[at - 1].text != "." and behind not in ("(", ":", "=>")


def binds(tokens, at):
    """Whether a token is the name that an instruction binds, or writes anew as other languages do."""
    for word, far in BINDING.items():
        if at >= far and tokens[at - far].text == word and (far < 3 or tokens[at - 1].text == "as"):
            return True
    is_part = "::" in (tokens[at - 1].text, tokens[at + 1].text if at + 1 < len(tokens) else "")
    end = next((it.text for it in tokens[at : at + 4] if it.text in ("=>", ";", ",", ")")), "")
    return is_part and end == "=>" or is_written(tokens, at)


def is_written(tokens, at):
    """Whether an instruction begins with this name and a `=`."""
    return tokens[at - 1].text in STARTS and at + 1 < len(tokens) and tokens[at + 1].text == "="


def uses(tokens, at, name=""):
    """Gives the uses of the name at a token behind its instruction, or of another one from the token on, on each way on
    which it is not bound anew before. What is bound anew counts behind the end of that instruction."""
    depth, found = 0, []
    coming = hidden = None
    start = at if name else next((it for it in range(at, len(tokens)) if tokens[it].text in (";", "{")), len(tokens))
    name = name or tokens[at].text
    for it in range(start, len(tokens)):
        text = tokens[it].text
        depth += (text == "{") - (text == "}")
        if depth < 0 or text == "|" and depth == 0 or text in HEADS:
            break
        if hidden is not None and (depth < hidden or text == "|" and depth == hidden):
            hidden = None
        if text == ";" and coming is not None:
            hidden, coming = coming, None
        if text == name and is_name(tokens, it) and hidden is None:
            if binds(tokens, it):
                coming = depth
            else:
                found.append(tokens[it])
    return found


def is_known(tokens, at):
    """Whether the name at a token is bound on the way to it, as a parameter or by an instruction."""
    head = next((it for it in range(at, -1, -1) if tokens[it].text in HEADS), 0)
    body = next((it for it in range(head, at) if tokens[it].text == "="), at)
    depth = 0
    for it in range(at - 1, head, -1):
        text = tokens[it].text
        depth += (text == "}") - (text == "{")
        if depth < 0 or text == "|" and depth == 0:
            depth = min(depth, 0)
        is_here = text == tokens[at].text and depth <= 0
        if is_here and (binds(tokens, it) if it > body else tokens[it + 1].text == ":"):
            return True
    return False


def places(text, tokens):
    """Gives in words where some tokens stand."""
    said = [text.place(it.at) for it in tokens[:MOST_PLACES]]
    return f"{', '.join(said)}{', ..' if len(tokens) > MOST_PLACES else ''}"


def renaming(text, at, new):
    """Gives the edits that write another name at the uses behind a token, and in words where these stand."""
    found = uses(text.tokens, at)
    return tuple((it.at, it.end, new) for it in found), places(text, found)
