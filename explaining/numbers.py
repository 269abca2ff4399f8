"""Numbers as other languages write them, and the same in digits."""
import re

WAYS = ((re.compile(r"0[xX]([0-9a-fA-F]+)"), 16), (re.compile(r"0[bB]([01]+)"), 2), (re.compile(r"0[oO]([0-7]+)"), 8))
PARTED = re.compile(r"[0-9]{1,3}([,_'][0-9]{3})+|[0-9]+(_[0-9]+)+")
POWER = re.compile(r"([0-9]+)[eE]([0-9]+)")
SUFFIX = re.compile(r"([0-9]+)([kKM])")
SUFFIXES = {"k": 10**3, "m": 10**6}
MOST_DIGITS, MOST_POWER = 60, 40
WRITTEN = "see: a number is written in the digits 0 to 9 alone, with nothing before, between or behind them"


def in_digits(word):
    """Gives the same number in digits, or nothing where this is none."""
    if len(word) > MOST_DIGITS:
        return ""
    for way, base in WAYS:
        found = way.fullmatch(word)
        if found:
            return str(int(found[1], base))
    if PARTED.fullmatch(word):
        return re.sub("[,_']", "", word)
    found = SUFFIX.fullmatch(word)
    if found:
        return str(int(found[1]) * SUFFIXES[found[2].lower()])
    found = POWER.fullmatch(word)
    return str(int(found[1]) * 10 ** int(found[2])) if found and int(found[2]) <= MOST_POWER else ""
