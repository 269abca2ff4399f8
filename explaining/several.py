"""Several things that are wrong in one call, each looked for with the mends of those before it applied."""
from .mends import Mend
from .scripts import EditedScript
from .texts import EditedText

MOST = 10
# The statuses at which something is explained.
EXPLAINED = (1, 2, 3, 8)


def first_mend(found):
    """Gives the first mend of which something was tried, or nothing."""
    return next((it for it in found.lines if isinstance(it, Mend) and it.tried), None)


def key(found):
    return found.text.name, found.text.where(found.at), found.cause


def several(text, script, answer, explain, ask):
    """Gives what is found in a contract, and in a script if there is one, ten times at most. It is told how an answer
    to two texts is explained, and how the program is asked. Where something is found again that was found before, its
    mend led nowhere, and this ends."""
    found, keys = [], set()
    while answer is not None and answer.status in EXPLAINED and answer.words and len(found) < MOST:
        new = [it for it in explain(text, script, answer) if key(it) not in keys]
        at = next((at for at, it in enumerate(new) if first_mend(it)), len(new))
        found += new[: at + 1]
        keys |= {key(it) for it in new[: at + 1]}
        if at == len(new):
            break
        edits = first_mend(new[at]).tried
        if new[at].text is script:
            script = EditedScript(script, edits)
        else:
            text = EditedText(text, edits)
        answer = ask(text, script)
    return found[:MOST]
