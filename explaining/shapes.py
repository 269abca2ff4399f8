"""Slips in the shape of a type, of an instruction or of a branch: it has what it needs, and in another form."""
from typing import NamedTuple

from .lists import Lists
from .order import HEADS, Order
from .parting import Parting
from .renamed import fresh
from .texts import joined

KINDS = ("int", "bool", "list")
# The kinds of values by the names that other languages have for them.
WHOLE = "integer Integer Int number nat uint usize long short byte address account Address"
SIZED = "u8 u16 u32 u64 u128 i8 i16 i32 i64 i128 uint8 uint32 uint64 uint128 uint256 int8 int32 int64 int256"
ELSEWHERE = dict.fromkeys(f"{WHOLE} {SIZED} float double decimal real f32 f64".split(), "int")
ELSEWHERE.update(dict.fromkeys(("boolean", "Boolean", "Bool"), "bool"))
LASTS = ("close", "fwd", "call", "if", "case", "match")
# What stands for a channel where a sign for values is written, and the signs for values by what holds the label.
OF_CHANNELS = {"/\\": "*", "->": "-o"}
SENT = {"+": ("/\\", "*"), "&": ("->", "-o")}


class Slip(NamedTuple):
    """A row of docs/CAUSES.md, what to do, or nothing, an edit that the text is read further with, those that go along
    with it, and lines on other places."""

    row: str
    mend: str
    edit: tuple
    more: tuple = ()
    see: tuple = ()


class Shapes(Order, Lists, Parting):
    """What is found of the tokens around an offence, by the class that is made of this one."""

    def of_shapes(self):
        first = (self.of_moved, self.of_all_lists, self.of_parting)
        ways = (*first, self.of_signs, self.of_payloads, self.of_sides_of_head, self.of_bound, self.of_small)
        for way in (*ways, self.of_branches):
            yield from way()

    def elsewhere(self):
        return ELSEWHERE

    def slip(self, words, edit, row="Syntax"):
        return Slip(row, words, edit)

    def of_signs(self):
        """Slips in the sign between what is sent and how the talk goes on, and in what a list is of."""
        mark, before = self.marked, self.token(-1)
        if mark.text in OF_CHANNELS.values() and set(OF_CHANNELS) <= self.wanted:
            mend = f"write `/\\` in place of `{mark.text}` where the provider sends it, and `->` where it receives it"
            yield Slip("Syntax value", mend, (mark.at, mark.end, "/\\"))
        if mark.text in OF_CHANNELS and before.kind == "word" and not self.is_declared(before.text, "type"):
            yield from self.of_unknown_kind()
        elif mark.text in OF_CHANNELS and set(OF_CHANNELS.values()) <= self.wanted:
            sign = OF_CHANNELS[mark.text]
            mend = f"write `{sign}` in place of `{mark.text}`, since a channel stands before it, and no value"
            yield Slip("Syntax", mend, (mark.at, mark.end, sign))
        if before.text == "list" and self.wants("vtype") and self.is_declared(mark.text, "type"):
            yield Slip("Syntax elements", "", (mark.at, mark.end, "int"))

    def of_unknown_kind(self):
        """A value of a kind that is none, before what comes behind it in a type."""
        before = self.token(-1)
        kind = ELSEWHERE.get(before.text)
        if set(OF_CHANNELS.values()) <= self.wanted and kind:
            mend = f"write `{kind}` in place of `{before.text}`"
            yield Slip("Syntax spelling", mend, (before.at, before.end, kind))
        elif set(OF_CHANNELS.values()) <= self.wanted:
            mend = f"write `int`, or another kind of values, in place of `{before.text}`, which is declared nowhere"
            yield Slip("Syntax spelling", mend, (before.at, before.end, "int"))

    def of_payloads(self):
        """A label of a type that is written with what goes with it between parentheses."""
        mark, label, end = self.marked, self.token(-1), self.closing(0, "(", ")")
        colon = next((it for it in self.tokens if it.at >= end.end), end)
        inside = self.text.text[mark.end : end.at].strip()
        opening = self.opening(self.index)
        if mark.text == "(" and self.wanted == {":"} and colon.text == ":" and inside and opening:
            signs = SENT.get(self.tokens[opening - 1].text, SENT["&"])
            new = f"{label.text} : {inside} {signs[0 if inside.split()[0] in KINDS else 1]}"
            mend = f"write `{new}` in place of `{label.text}({inside}) :`"
            yield Slip("Syntax label", mend, (label.at, colon.end, new))

    def opening(self, index):
        """Gives the number of the innermost { that is open before a token, or 0."""
        depth = 0
        for at in range(index - 1, 0, -1):
            depth += (self.tokens[at].text == "}") - (self.tokens[at].text == "{")
            if depth < 0:
                return at
        return 0

    def of_sides_of_head(self):
        """Values among the parameters that stand behind the `;`."""
        is_value = set(OF_CHANNELS) <= self.wanted and self.token(-1).text in KINDS
        words = [it.text for it in self.tokens[: self.index]]
        if is_value and words[:1] == ["proc"] and words.count("(") == 1 and self.marked.text in (",", ")"):
            start, end = self.tokens[3], self.closing(3 - self.index, "(", ")")
            first, _, second = self.text.text[start.end : end.at].partition(";")
            parts = [it.strip() for it in second.split(",")]
            moved = [it for it in parts if it.partition(":")[2].split()[:1] and not self.is_talk(it)]
            values = ", ".join([it for it in [first.strip()] if it] + moved)
            new = f"({values}; {', '.join(it for it in parts if it not in moved)})".replace("; )", ";)")
            yield Slip("Syntax", f"write `{new}`, since values stand before the `;`", (start.at, end.end, new))

    def is_talk(self, parameter):
        """Whether a parameter is a channel, and no value."""
        kind = parameter.partition(":")[2]
        return kind.split()[0] not in KINDS or any(sign in kind for sign in OF_CHANNELS)

    def of_bound(self):
        """Slips in which an instruction stands where its name, or what it sends, is wanted."""
        mark, before, behind, third = self.marked, self.token(-1), self.token(1), self.token(-3)
        if mark.text in ("take", "recv") and (third.text, before.text, behind.kind) == ("let", "=", "word"):
            name = self.token(-2).text
            new = f"{mark.text} {behind.text} {name}"
            mend = f"write `{new}` in place of `let {name} = {mark.text} {behind.text}`"
            yield Slip("Syntax", mend, (third.at, behind.end, new))
        yield from self.of_taken()
        yield from self.of_received()
        if mark.text == "(" and third.text == "send" and self.is_declared(before.text, "proc"):
            end = self.closing(0, "(", ")")
            call = self.text.text[before.at : end.end]
            call = call if ";" in call else f"{call[:-1].rstrip()};)"
            name = fresh(self.text, before.text)
            mend = f"write `spawn {name} = {call};` before `send`, and `{name}` in place of `{call}`"
            new = f"spawn {name} = {call}; send {self.token(-2).text} {name}"
            yield Slip("Syntax", mend, (third.at, end.end, new))

    def of_received(self):
        """What is received, or computed, with its kind before its name."""
        mark, before, behind = self.marked, self.token(-1), self.token(1)
        words = [self.text_at(self.index + at) for at in range(1, 6)]
        if before.text == "let" and mark.text in (*KINDS, *ELSEWHERE) and behind.kind == "word" and words[1] == "=":
            new, end = f"let {behind.text}", behind
            if words[2] in ("take", "recv") and words[4] in (";", "}", "|"):
                new, end = f"{words[2]} {words[3]} {behind.text}", self.token(4)
            old = self.text.text[before.at : end.end]
            yield Slip("Syntax", f"write `{new}` in place of `{old}`", (before.at, end.end, new))

    def of_taken(self):
        """What is received by a word behind the channel and a dot, and bound by `let`."""
        dot = self.index + (self.marked.text == "self")
        words = [self.text_at(at) for at in range(max(dot - 4, 0), dot + 4)]
        if dot > 3 and words[0] == "let" and words[2] == "=" and words[4] == "." and words[5] in ("take", "recv"):
            last = dot + 3 if words[6:8] == ["(", ")"] else dot + 1
            new = f"{words[5]} {words[3]} {words[1]}"
            start, end = self.tokens[dot - 4].at, self.tokens[last].end
            mend = f"write `{new}` in place of `{self.text.text[start:end]}`"
            yield Slip("Syntax", mend, (start, end, new))

    def of_small(self):
        """Slips in a token or two: braces, a hyphen, a word that is too much."""
        mark, before, behind = self.marked, self.token(-1), self.token(1)
        if self.wanted == {"{"} and (mark.kind == "number" or mark.text == "*"):
            new = f"{{{mark.text}}}"
            yield Slip("Syntax", f"write `{new}` in place of `{mark.text}`", (mark.at, mark.end, new))
        is_one = before.end == mark.at and mark.end == behind.at and before.kind == behind.kind == "word"
        is_reserved = mark.text in self.grammar.reserved and "NAME" in self.wanted and behind.text == "-"
        if is_reserved and mark.end == behind.at and self.token(2).kind == "word" and behind.end == self.token(2).at:
            yield self.of_hyphen(mark, self.token(2))
        if mark.text == "-" and is_one:
            new = f"{before.text}_{behind.text}"
            mend = f"write `{new}` in place of `{before.text}-{behind.text}`, here and wherever this name stands"
            yield Slip("Syntax", mend, (before.at, behind.end, new))
        if mark.text == "self" and before.text in (";", ",") and self.wanted <= {"NAME", ")"}:
            start, end = (before.at, mark.end) if before.text == "," else (mark.at, mark.end)
            edit = (mark.at, behind.end, "") if behind.text == "," else (start, end, "")
            yield Slip("Syntax", "take `self` out, since each process has its own and is not given it", edit)
        if mark.text == "then" and behind.text == "{" and "{" in self.wanted:
            mend = "take `then` out, since these are instructions"
            yield Slip("Syntax else", mend, (mark.at, mark.end, ""))
        is_value = mark.kind == "number" or mark.text in ("true", "false")
        if is_value and before.text == "{" and self.token(-3).text == "case":
            yield Slip("Syntax match", "", (mark.at, mark.end, "x"))

    def of_hyphen(self, first, last):
        """A name with a hyphen in it, of which the first part is a reserved word, here and wherever it stands."""
        old, new = f"{first.text}-{last.text}", f"{first.text}_{last.text}"
        tokens = self.text.tokens
        rows = [(one.at, two.end, new) for one, two in zip(tokens, tokens[2:])
                if (one.text, two.text) == (first.text, last.text) and self.text.text[one.at : two.end] == old]
        words = f"write `{new}` in place of `{old}`, here and wherever this name stands"
        others = tuple(it for it in rows if it[0] != first.at)
        return Slip("Syntax", words, (first.at, last.end, new), others)

    def of_branches(self):
        """Branches without a last instruction, where what they have in common stands behind them."""
        mark, before, opening = self.marked, self.token(-1), self.opening(self.index)
        if mark.text not in ("}", "|") or self.tokens[0].text != "proc" or not opening:
            return
        if not self.wants("code") and ";" not in self.wanted or self.has_last(self.index):
            return
        ends, last = self.ends(opening)
        start = last + 2 if self.text_at(last + 1) == ";" else last + 1
        stop = self.apart(start, ("}", "|", *HEADS))
        stop -= self.text_at(stop - 1) == ";"
        if start < stop and stop < len(self.tokens):
            place = self.text.place(self.tokens[last].at)
            mend = f"write what stands behind the `}}` at {place} at the end of each branch before it instead"
            code = joined(self.tokens[start:stop])
            rows = [self.tokens[end - 1].end for end in ends], [self.parting(end) for end in ends]
            edits = [(at, at, f"{sign}{code}") for at, sign in zip(*rows)]
            taken_out = (self.tokens[last].end, self.tokens[stop - 1].end, "")
            yield Slip("Syntax branch", mend, edits[0], (*edits[1:], taken_out))
        ending = "close" if self.tokens[1].text in ("R", "T") else f"call {self.tokens[2].text}(..)"
        new = f"{self.parting(self.index)}{ending}".strip()
        mend = f"write `{new}`, or how else this branch ends, behind `{before.text}`"
        yield Slip("Syntax branch", mend, (before.end, mark.at, f" {new.replace('..', ';')} "))

    def text_at(self, at):
        return self.tokens[at].text if 0 <= at < len(self.tokens) else ""

    def parting(self, end):
        """Gives what parts the last instruction before a token from one that is put behind it."""
        return " " if self.tokens[end - 1].text in (";", "{", "=>") else "; "

    def has_last(self, end):
        """Whether the branch that ends at a token has a last instruction, with a `;` behind it or without."""
        at = end - 1 - (self.tokens[end - 1].text == ";")
        depth = 0
        while at > 0 and (depth or self.tokens[at].text not in (";", "{", "=>", "|")):
            depth += (self.tokens[at].text in ("}", ")")) - (self.tokens[at].text in ("{", "("))
            at -= 1
        return self.tokens[at + 1].text in LASTS

    def ends(self, opening):
        """Gives the tokens at which branches without a last instruction end, and the last } of these branches. They
        stand behind a {, and behind an `else` too."""
        ends, at = [], opening
        while True:
            at = self.apart(at + 1, ("}", "|"))
            if at >= len(self.tokens):
                return ends, at
            ends += [] if self.has_last(at) else [at]
            if self.tokens[at].text == "}":
                if self.text_at(at + 1) != "else":
                    return ends, at
                at += 2
