"""Slips in which a part of a declaration, or an instruction, stands before or behind its place."""
from .texts import joined

HEADS = ("type", "fn", "proc")


class Order:
    """What is found of the tokens around an offence, by the class that is made of this one."""

    def of_moved(self):
        ways = (self.of_early, self.of_inside, self.of_lambda, self.of_behind, self.of_kind_of_list)
        for way in (*ways, self.of_head_alone, self.of_gas):
            yield from way()

    def of_early(self):
        """A potential, or the type that is offered, before the parameters."""
        mark, third = self.marked, self.token(-3)
        if mark.text not in ("{", ":", "->") or self.wanted != {"("} or third.text != "proc":
            return
        opening = self.apart_from(self.index, "(")
        if opening is None:
            return
        end = self.closing(opening - self.index, "(", ")")
        part, parameters = joined(self.tokens[self.index : opening]), self.text.text[self.tokens[opening].at : end.end]
        part = part.replace("->", ":", 1) if mark.text == "->" else f" {part}" if mark.text == "{" else part
        yield self.slip(f"write `{part.strip()}` behind the parameters", (mark.at, end.end, f"{parameters}{part}"))

    def of_gas(self):
        """A potential in words, behind the parameters; or one before the name."""
        mark, behind = self.marked, self.token(1)
        signs = [self.token(at).text for at in (-2, 0, 2, 4)]
        if signs == ["proc", "{", "}", "("]:
            end = self.closing(4, "(", ")")
            said = self.text.text[self.token(3).at : end.end]
            new = f"{said} {{{behind.text}}}"
            yield self.slip(f"write `{{{behind.text}}}` behind the parameters", (mark.at, end.end, new))
        if mark.kind == "word" and behind.kind == "number" and {"{", "="} <= self.wanted and self.token(-1).text == ")":
            said = self.text.text[mark.at : behind.end]
            new = f"{{{behind.text}}}"
            yield self.slip(f"write `{new}` in place of `{said}`", (mark.at, behind.end, new))

    def of_inside(self):
        """A potential among the parameters, which stands behind them."""
        mark, words = self.marked, [it.text for it in self.tokens[: self.index]]
        if words[-2:-1] == ["list"]:
            return
        if mark.text != "{" or words[:1] != ["proc"] or "=" in words or "(" not in words or ")" in words:
            return
        last, end = self.closing(0, "{", "}"), self.closing(3 - self.index, "(", ")")
        part = self.text.text[mark.at : last.end]
        new = f"{self.text.text[last.end : end.end]} {part}"
        yield self.slip(f"write `{part}` behind the parameters", (self.token(-1).end, end.end, new))

    def of_lambda(self):
        """A function whose parameters stand behind its `=`."""
        mark, behind = self.marked, self.token(1)
        if mark.text != "=" or self.wanted != {"("} or self.token(-2).text != "fn" or behind.text != "(":
            return
        end = self.closing(1, "(", ")")
        arrow = next((it for it in self.tokens if it.at >= end.end), end)
        names = [it.text for it in self.tokens[self.index + 2 :] if it.at < end.at and it.text != ","]
        if arrow.text in ("=>", "->") and all(it.isidentifier() for it in names):
            head = ", ".join(f"{it}: .." for it in names)
            name = self.token(-1)
            said = f"fn {name.text}({head}): .. ="
            new = f"({head.replace('..', 'int')}): int ="
            old = self.text.text[self.token(-2).at : arrow.end]
            yield self.slip(f"write `{said}` in place of `{old}`", (name.end, arrow.end, new))

    def apart_from(self, start, sign):
        """Gives the number of the next token with this text, if there is one before the body of the declaration."""
        texts = [it.text for it in self.tokens[start:]]
        body = texts.index("=") if "=" in texts else len(texts)
        return start + texts.index(sign) if sign in texts[:body] else None

    def of_behind(self):
        """Instructions behind the last one of a process, or of a branch."""
        mark, at = self.marked, self.index
        is_branch = mark.text == ";" and self.wanted and self.wanted <= {"|", "}"}
        start = at + 1 if is_branch else at
        last = start - 2
        if self.text_at(last) != "close" or self.text_at(start - 1) != ";" or start >= len(self.tokens):
            return
        if not is_branch and not ("proc" in self.wanted and self.begins_instruction()):
            return
        end = self.apart(start, ("|", "}") if is_branch else HEADS)
        stop = end - (self.tokens[end - 1].text == ";")
        if stop <= start:
            return
        code, first = self.text.text[self.tokens[start].at : self.tokens[stop - 1].end], self.tokens[last]
        edit = (first.at, self.tokens[stop - 1].end, code if self.has_last(end) else f"{code}; close")
        said = f"{' '.join(code.split())[:60]}"
        words = "take this `close` out, since more comes behind it" if self.has_last(end) else \
            f"write `close` behind `{said}`, since it is the last one"
        yield self.slip(words, edit, "Syntax behind")

    def of_head_alone(self):
        """Parameters of a process without the `;` that stands behind the values."""
        mark, words = self.marked, [it.text for it in self.tokens[: self.index]]
        is_head = words[:1] == ["proc"] and "=" not in words and ";" not in words and words.count("(") == 1
        if mark.text == ")" and is_head and ";" in self.wanted and "=" not in self.wanted:
            yield self.slip(f"write `;` before this `)`", (mark.at, mark.at, ";"))

    def of_kind_of_list(self):
        """The kind of what a list has, before the word `list`, and a mode before the name of a function."""
        mark, before = self.marked, self.token(-1)
        if before.text == "fn" and mark.text in ("R", "S", "L", "T") and self.token(1).kind == "word":
            yield self.slip(f"take `{mark.text}` out, since a function has no mode", (mark.at, self.token(1).at, ""))
        if mark.text in ("list", "array", "vector") and before.text in ("int", "bool"):
            new = f"list {before.text}"
            yield self.slip(f"write `{new}` in place of `{before.text} {mark.text}`", (before.at, mark.end, new))
