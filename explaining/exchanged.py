"""A call whose two words have changed places: the script stands first, and the contract behind it."""
from .found import Found
from .mends import mend
from .refused import OUTSIDE
from .shapes import HEADS


def is_script(text):
    """Whether a text begins as a script does, and not as a contract."""
    words = [it.text for it in text.tokens[:4]]
    return words[:1] != ["let"] and words[:1] != [] and words[0] in OUTSIDE or words[2:] == ["=", "new"]


def are_exchanged(text, script, answer):
    """Whether the contract that is refused is a script, and the script, where one is named, begins as a contract."""
    if not answer.is_cause("Syntax") or not is_script(text):
        return False
    return script is None or not script.tokens or script.tokens[0].text in (*HEADS, "cost")


def explained(text, script, answer):
    """Gives what is found, at the first word."""
    word = text.tokens[0].text
    lines = [f"see: `{word}` begins a line of a script; the contract is named first, and the script behind it"]
    if script is not None:
        lines = [mend(f"name {script.name} first, and {text.name} behind it"), *lines]
    return Found(text, text.tokens[0].at, "Syntax", "Syntax exchanged", lines, answer.words)
