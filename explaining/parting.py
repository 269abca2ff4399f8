"""Slips in what stands between instructions: commas, dots, or the end of the line alone."""
from .order import HEADS

SIGNS = (",", ".", ":", "&")
PARTS = (";", "{", "}", "=>", "|", "=", "->")


class Parting:
    """What is found of the tokens around an offence, by the class that is made of this one."""

    def of_parting(self):
        """Another sign, or none, where a `;` parts two instructions, here and in the rest of the process."""
        mark, before = self.marked, self.token(-1)
        if ";" not in self.wanted or self.tokens[0].text != "proc":
            return
        end = self.apart(self.index, HEADS)
        if mark.text in SIGNS and self.begins(self.index + 1):
            edits = [(it.at, it.end, ";") for at, it in enumerate(self.tokens[:end])
                     if at >= self.index and it.text == mark.text and self.begins(at + 1) and self.is_between(at)]
            words = f"write `;` in place of `{mark.text}` between instructions"
            yield self.slip(words, edits[0])._replace(more=tuple(edits[1:]))
        elif self.begins(self.index) and self.is_first(self.index) and before.text not in PARTS:
            edits = [(self.tokens[at - 1].end, self.tokens[at - 1].end, ";") for at in range(self.index, end)
                     if self.begins(at) and self.is_first(at) and self.tokens[at - 1].text not in PARTS]
            words = "write `;` at the end of each line that an instruction ends in"
            yield self.slip(words, edits[0])._replace(more=tuple(edits[1:]))

    def begins(self, at):
        """Whether an instruction begins at a token: with a word for one, or with a channel and a `.` behind it."""
        if at >= len(self.tokens):
            return False
        it = self.tokens[at]
        is_label = (it.kind == "word" or it.text == "self") and self.text_at(at + 1) == "." and \
            self.text_at(at + 2).isidentifier() and self.text_at(at + 3) not in ("(", ".")
        return it.text in self.grammar.firsts["code"] and it.text != "self" and it.kind == "word" or is_label

    def is_between(self, at):
        """Whether a sign stands in no parentheses of its instruction."""
        depth = 0
        for it in self.tokens[self.index : at]:
            depth += (it.text == "(") - (it.text == ")")
        return depth == 0

    def is_first(self, at):
        """Whether a token is the first one in its line."""
        return "\n" in self.text.text[self.tokens[at - 1].end : self.tokens[at].at]
