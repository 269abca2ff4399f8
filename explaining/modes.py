"""What to do with a type that may not stand at its place: a word before it, or another mode of its declaration."""
from .mends import mend
from .shapes import HEADS
from .texts import joined


# How many words are put in at most.
MOST = 16


def words(text, at, count):
    return [it.text for it in text.tokens[at : at + count]]


def turned(text, at):
    """Gives the two sides of a `*` or a `-o` the other way round, where the contract stands before what is sent."""
    start = at - 2 if at > 1 and text.tokens[at - 2].text in ("down", "up") else at - 1
    first, sign, sent = joined(text.tokens[start:at]), text.tokens[at].text, text.tokens[at + 1]
    if sign in ("*", "-o") and sent.kind == "word":
        new = f"{sent.text} {sign} {first}"
        said = f"write `{new}` in place of `{first} {sign} {sent.text}`, since what is sent stands first"
        yield (text.tokens[start].at, sent.end, new), said


def tries(text, at):
    """Gives edits, each with what it is in words."""
    token = text.tokens[at]
    yield from turned(text, at)
    rows = [it for it in range(len(text.tokens) - 2) if text.tokens[it].text == "type"]
    names = [text.tokens[it + 2].text for it in rows][:MOST]
    if token.text in names:
        for name in (it for it in names if it != token.text):
            yield (token.at, token.end, name), f"write `{name}` in place of `{token.text}`"
    if token.kind == "word" or token.text in "&+1":
        for word in ("down", "up"):
            yield (token.at, token.at, f"{word} "), f"write `{word}` before `{token.text}`"
        before = text.tokens[at - 1]
        if before.text in ("down", "up"):
            yield (before.at, token.at, ""), f"take `{before.text}` out"
    head = next((it for it in range(at, -1, -1) if text.tokens[it].text in HEADS), None)
    if head is not None and text.tokens[head].text != "fn":
        mode = text.tokens[head + 1]
        behind = f"in place of `{mode.text}` at {text.place(mode.at)}"
        for letter in "RSLT":
            if letter != mode.text:
                yield (mode.at, mode.end, letter), f"write `{letter}` {behind}"
        offered = next((it for it in range(head, len(text.tokens)) if words(text, it, 3) == [":", "1", "="]), None)
        equal = next((it for it in range(head, len(text.tokens)) if text.tokens[it].text == "="), None)
        if text.tokens[head].text == "proc" and mode.text != "T" and offered and offered + 2 == equal:
            new = f"T{text.text[mode.end : text.tokens[offered].at].rstrip()}"
            yield (mode.at, text.tokens[offered + 1].end, new), f"write `T` {behind}, and take `: 1` out"


def each_down(text, answer, program):
    """Gives a line for a `down` before each name of a shared type that stands where a talk goes on, where all is
    accepted with these."""
    edits, at = [], answer.offset
    while len(edits) < MOST:
        token = text.tokens[text.index_at(at)]
        if token.kind != "word" or any(it[0] == token.at for it in edits):
            return []
        edits.append((token.at, token.at, "down "))
        after = program.check(text.edited(*edits))
        if after.is_accepted or after.is_cause("NoPotential"):
            places = [text.place(it[0]) for it in edits]
            where = f"{', '.join(places[:-1])} and {places[-1]}" if places[1:] else places[0]
            return [mend(f"write `down` before `{token.text}` at {where}, where the contract is shared again", *edits)]
        if not after.is_cause("Mode"):
            return []
        at = after.offset - len("down ") * sum(it[0] < after.offset for it in edits)
    return []


def explained(text, answer, program):
    """Gives lines on what to do: what makes the program accept the contract, or else nothing."""
    found = []
    for edit, words in tries(text, text.index_at(answer.offset)):
        after = program.check(text.edited(edit))
        if after.is_accepted or after.is_cause("NoPotential"):
            found.append(mend(words, edit))
    return found[:3] or each_down(text, answer, program)
