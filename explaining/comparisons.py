"""Comparisons and other tests as other languages have them, in the signs and words that this one has."""
import re

from .texts import joined, tokens_of

# By the sign of another language how the same is written, of the left side and the right one.
WRITTEN = {">": "{1} < {0}", ">=": "not {0} < {1}", "<=": "not {1} < {0}", "!=": "not {0} = {1}"}
# What stands between a comparison and other terms, besides what a term begins behind.
BEFORE = ("if", "then", "else", "and", "or", "not", "match")
BEHIND = ("then", "else", "and", "or", ",", ";", "{", "}", "|", "=>")

# Other signs and words of tests, and the same in this language.
SIGNS = ((r"==", "="), (r"&&", " and "), (r"\|\|", " or "), (r"!(?!=)", " not "), (r"\bmsg\.sender\b", "me"))
MOST_SIGNS = 8


def sides(tokens, at, count, begins_term):
    """Gives from where to where the two sides of a sign stand, which is so many tokens from one on, or nothing. It is
    told whether a term begins behind a token."""
    depth, start = 0, at
    while start and not (depth == 0 and (tokens[start - 1].text in BEFORE or begins_term(start - 1))):
        start -= 1
        depth += (tokens[start].text == ")") - (tokens[start].text == "(")
    depth, end = 0, at + count
    while end < len(tokens) and not (depth == 0 and tokens[end].text in (*BEHIND, ")")):
        depth += (tokens[end].text == "(") - (tokens[end].text == ")")
        end += 1
    return (start, end) if start < at and at + count < end else None


def written(tokens, at, sign, count, begins_term):
    """Gives the same comparison in signs of this language, and the tokens from which to which it stands."""
    found = sides(tokens, at, count, begins_term)
    if found is None:
        return None
    start, end = found
    return WRITTEN[sign].format(joined(tokens[start:at]), joined(tokens[at + count : end])), start, end


def chained(tokens, at, begins_term):
    """Gives two comparisons joined by an `and` in place of a chain of two, of which one sign begins at a token, and the
    tokens from which to which that stands; nothing where it is no chain."""
    signs = {**WRITTEN, "<": "{0} < {1}", "=": "{0} = {1}", "==": "{0} = {1}"}
    found = sides(tokens, at, 1, begins_term)
    start, end = found or (at, at)
    rows, depth, place = [], 0, start
    while place < end:
        sign = sign_at(tokens, place, signs) if depth == 0 else ""
        depth += (tokens[place].text == "(") - (tokens[place].text == ")")
        rows += [(place, sign)] if sign else []
        place += len(sign) or 1
    if len(rows) != 2:
        return None
    (one, first), (two, second) = rows
    parts = [joined(it) for it in (tokens[start:one], tokens[one + len(first) : two], tokens[two + len(second) : end])]
    if not all(parts):
        return None
    return f"{signs[first].format(*parts[:2])} and {signs[second].format(*parts[1:])}", start, end


def sign_at(tokens, at, signs):
    """Gives the sign of a comparison that begins at a token, of two signs or of one, or nothing."""
    it, behind = tokens[at], tokens[at + 1] if at + 1 < len(tokens) else tokens[at]
    two = it.text + behind.text if it.end == behind.at else ""
    return two if two in signs else it.text if it.text in signs else ""


def translated(text):
    """Gives a test in signs and words of this language."""
    for old, new in SIGNS:
        text = re.sub(old, new, text)
    for _ in range(MOST_SIGNS):
        tokens = tokens_of(text)
        nexts = list(zip(tokens, tokens[1:]))
        pairs = [(at, it.text + behind.text) for at, (it, behind) in enumerate(nexts) if it.end == behind.at]
        found = [(at, sign, 2) for at, sign in pairs if sign in ("!=", "<=", ">=")]
        found = found or [(at, it.text, 1) for at, it in enumerate(tokens) if it.text == ">"]
        change = written(tokens, *found[0], lambda at: tokens[at].text in ("(", ",")) if found else None
        if change is None:
            break
        new, start, end = change
        text = text[: tokens[start].at] + new + text[tokens[end - 1].end :]
    return " ".join(text.split())
