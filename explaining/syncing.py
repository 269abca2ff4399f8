"""Which part of a shared type leads to another one than it began as, and what to write there."""
from .mends import mend
from .shapes import HEADS

MOST_TRIED = 8


def strays(text, index):
    """Gives the names behind a `down` in the declaration around a token, with the name that is declared."""
    head = next((at for at in range(index, -1, -1) if text.tokens[at].text == "type"), None)
    if head is None:
        return None, []
    end = next((at for at in range(head + 1, len(text.tokens)) if text.tokens[at].text in HEADS), len(text.tokens))
    own = text.tokens[head + 2].text
    pairs = zip(text.tokens[head:end], text.tokens[head + 1 : end])
    return own, [it for before, it in pairs if before.text == "down" and it.kind == "word" and it.text != own]


def explained(text, answer, program):
    """Gives lines on the names that lead elsewhere: where one by itself, or all of them, lead back with another name,
    what to write."""
    own, found = strays(text, text.index_at(answer.offset))
    edits = [(it.at, it.end, own) for it in found[:MOST_TRIED]]

    def goes_on(*edits):
        after = program.check(text.edited(*edits))
        return not after.is_cause("NotSync") or after.offset > answer.offset

    if len(edits) > 1 and not any(goes_on(it) for it in edits) and goes_on(*edits):
        places = ", ".join(text.place(it.at) for it in found)
        return [mend(f"write `{own}` behind the `down` at {places}, so that it leads back", *edits)]
    lines = []
    for it, edit in zip(found, edits):
        if goes_on(edit):
            where = f"in place of `{it.text}` at {text.place(it.at)}"
            lines.append(mend(f"write `{own}` {where}, so that this `down` leads back", edit))
    return lines[:3]
