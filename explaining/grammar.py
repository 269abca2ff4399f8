"""The grammar that docs/LANGUAGE.md prints, read off the page, and what it says of a row of tokens.

A rule is followed in all ways that fit at once, each a stack of what is still to come; the tokens after one or two more
leave one of them. So nothing of the language is written here but how the page writes it.
"""
import re
from typing import NamedTuple

PART = re.compile(r'"([^"]+)"|([A-Za-z]+)|([\[\](){}|=])')
GROUPS = (
    ("code", "an instruction"), ("type", "a type"), ("term", "a term"), ("vtype", "a kind of values"),
    ("value", "a value"),
)
PLAIN = {"NAME": "a name", "NUMBER": "a number", "N": "a number"}
OPERATORS = {"::", "<", "=", "+", "-", "*", "/", "%", "and", "or"}


class Leaf(NamedTuple):
    """A token of a rule: a text, or NAME, NUMBER or N, which is the number-th leaf of its kind in the rule."""

    text: str
    rule: str
    number: int

    def fits(self, token, reserved):
        if self.text == "NAME":
            return token.kind == "word" and token.text not in reserved
        if self.text in ("NUMBER", "N"):
            return token.kind == "number"
        return token.text == self.text


class Way(NamedTuple):
    """What is still to come, and the leaves that were read, the last one first."""

    rest: tuple
    read: tuple


class Grammar:
    """The grammar that stands below a heading of a page, of which the words are reserved, or are not."""

    def __init__(self, page, heading="Grammar", is_reserving=True):
        block = page.split(f"\n## {heading}\n", 1)[1].split("```\n", 2)[1]
        self.rules, self.reserved, self.is_reserving = {}, set(), is_reserving
        for rule in re.split(r"\n(?=\w+ +=)", block):
            name, body = rule.split("=", 1)
            self.rule, self.counts = name.strip(), {}
            self.rules[self.rule] = self._choice(PART.findall(body)[::-1])
        groups = [it for it, _ in GROUPS if it in self.rules]
        self.firsts = {it: {leaf.text for leaf, _ in self._leaves(((("rule", it), ()),))} for it in groups}

    def _choice(self, parts):
        """Takes the alternatives from parts, of which the next one stands last."""
        ways = [[]]
        while parts and parts[-1][2] not in ("]", ")", "}"):
            text, word, sign = parts.pop()
            if sign == "|":
                ways.append([])
            elif sign:
                inner = self._choice(parts)
                parts.pop()
                ways[-1].append({"(": inner, "[": ("may", inner), "{": ("many", inner)}[sign])
            elif text or word.isupper():
                ways[-1].append(self._leaf(text or word, bool(text)))
            else:
                ways[-1].append(("rule", word))
        return ("one", ways)

    def _leaf(self, text, is_written):
        number = self.counts.get(text, 0)
        self.counts[text] = number + 1
        if self.is_reserving and is_written and text[0].isalpha():
            self.reserved.add(text)
        return Leaf(text, self.rule, number)

    def _leaves(self, stacks):
        """Gives each leaf that may come next, with what is to come behind it."""
        waiting, found = list(stacks), []
        while waiting:
            rest = waiting.pop()
            if not rest:
                continue
            (top, below) = rest
            if isinstance(top, Leaf):
                found.append((top, below))
            elif top[0] == "rule":
                waiting.append((self.rules[top[1]], below))
            elif top[0] == "one":
                for way in top[1]:
                    stack = below
                    for it in reversed(way):
                        stack = (it, stack)
                    waiting.append(stack)
            else:
                waiting += [below, (top[1], (top, below) if top[0] == "many" else below)]
        return found

    def read(self, tokens, rule="file"):
        """Gives how many tokens begin a text of a rule, and the ways in which these are read."""
        ways = [Way((("rule", rule), ()), ())]
        for count, token in enumerate(tokens):
            further = [
                Way(below, (leaf, it.read))
                for it in ways
                for leaf, below in self._leaves([it.rest])
                if leaf.fits(token, self.reserved)
            ]
            if not further:
                return count, ways
            ways = further
        return len(tokens), ways

    def next(self, ways):
        """Gives the leaves with which these ways go on."""
        return [leaf for leaf, _ in self._leaves([it.rest for it in ways])]

    def wanted(self, ways):
        """Gives the texts of the leaves with which these ways go on."""
        return {it.text for it in self.next(ways)}

    def may_end(self, ways):
        """Whether one of these ways may end."""
        return any(self._may_end(it.rest) for it in ways)

    def _may_end(self, rest):
        while rest:
            (top, rest) = rest
            if not (isinstance(top, tuple) and top[0] in ("may", "many")):
                return False
        return True

    def said(self, wanted):
        """Gives in words which tokens may stand."""
        left, words = set(wanted), []
        for rule, name in GROUPS:
            if self.firsts.get(rule, {""}) <= left:
                left -= self.firsts[rule]
                words.append(name)
        if OPERATORS <= left:
            left -= OPERATORS
            words.append("an operator")
        words += [said for it, said in PLAIN.items() if it in left]
        return words + [f"`{it}`" for it in sorted(left - PLAIN.keys())]

    def leaves(self, tokens):
        """Gives for each token of a text the leaf as which it is read, or nothing where this is no text."""
        count, ways = self.read(tokens)
        if count < len(tokens) or len(ways) != 1:
            return None
        found, read = [], ways[0].read
        while read:
            found.append(read[0])
            read = read[1]
        return found[::-1]
