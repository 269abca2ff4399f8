"""A byte order mark, which some editors put before a text, and which is none of its characters."""
from .mends import mend

MARK = "\xef\xbb\xbf"
TAKE_OUT = "take the byte order mark out, which stands before the text: have it saved as UTF-8 without one, or as ASCII"


def explained(text, answer):
    """Gives a line on a mark that stands where the first byte is refused that is none of ASCII."""
    return [mend(TAKE_OUT, (0, len(MARK), ""))] if answer.offset == 0 and text.text.startswith(MARK) else []
