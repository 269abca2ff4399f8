"""Slips with lists: their kinds, their elements and loops over them, as other languages have them."""
from .order import HEADS
from .renamed import fresh, renaming
from .texts import joined

BASES = {"int": "int", "bool": "bool"}
NAMED = ("List", "Vec", "Array", "ArrayList", "Sequence", "Seq", "vector", "vec", "array", "seq", "set", "Set", "list")
BRACKETS = {"[": "]", "<": ">", "(": ")"}
# What puts an element at an end of a list, and what others have for an operator.
PUTS = ("push", "append", "add", "cons", "prepend", "insert", "push_front", "push_back", "concat")
# Those of them that put it behind all others.
BEHIND = ("push", "append", "add", "push_back", "insert", "concat")
OPERATORS = {"mod": "%", "rem": "%", "div": "/", "plus": "+", "minus": "-", "times": "*", "is": "=", "eq": "=",
             "equals": "=", "lt": "<"}
# What others write before the first element and the rest of a list.
MAKERS = ("cons", "list", "node", "some", "let", "const", "var", "head", "mut", "ref")
LOOPED = ("for", "while", "loop", "foreach", "repeat")
AT = "fn {}(l: list int, n: int): int = match l {{ nil => 0 | h :: t => if n = 0 then h else {}(t, n - 1) }};\n"


class Lists:
    """What is found of the tokens around an offence, by the class that is made of this one."""

    def of_all_lists(self):
        ways = (self.of_amounts, self.of_list_kinds, self.of_puts, self.of_put_into, self.of_patterns)
        ways = (*ways, self.of_operators, self.of_elements)
        for way in (*ways, self.of_goings):
            yield from way()

    def of_list_kinds(self):
        """The kind of a list in brackets, or with brackets behind the kind of its elements."""
        mark, before, behind = self.marked, self.token(-1), self.token(1)
        kinds = {**self.elsewhere(), **BASES}
        if self.wants("vtype") and behind.text == "[" and mark.text in kinds:
            yield self.slip_of_list(mark, self.closing(1, "[", "]"), kinds[mark.text])
        if mark.text == "[" and before.text in kinds and not self.wants("term"):
            yield self.slip_of_list(before, self.closing(0, "[", "]"), kinds[before.text])
        if self.wants("vtype") and mark.text == "[" and behind.text in ("]", *kinds):
            end = self.closing(0, "[", "]")
            last, kind = (self.token(2), self.token(2).text) if behind.text == "]" else (end, behind.text)
            if kind in kinds:
                yield self.slip_of_list(mark, last, kinds[kind])
        if self.wants("vtype") and mark.text in NAMED:
            kind = self.token(2).text
            if behind.text in BRACKETS and kind in kinds:
                yield self.slip_of_list(mark, self.closing(1, behind.text, BRACKETS[behind.text]), kinds[kind])
            if behind.text == "of" and kind in kinds:
                yield self.slip_of_list(mark, self.token(2), kinds[kind])
            if behind.text in kinds and mark.text != "list":
                yield self.slip_of_list(mark, behind, kinds[behind.text])

    def of_amounts(self):
        """The amount that each element of a list carries, behind the kind of the list."""
        mark, kind, word = self.marked, self.token(-1), self.token(-2)
        if mark.text == "{" and word.text == "list" and kind.text in BASES and self.token(2).text == "}":
            amount, end = self.token(1).text, self.token(2).end
            new, old = f"list {{{amount}}} {kind.text}", self.text.text[word.at : end]
            yield self.slip(f"write `{new}` in place of `{old}`", (word.at, end, new))

    def slip_of_list(self, first, last, kind):
        old = self.text.text[first.at : last.end]
        return self.slip(f"write `list {kind}` in place of `{old}`", (first.at, last.end, f"list {kind}"))

    def of_puts(self):
        """An element that is put into a list by a word of other languages."""
        mark, via, word = self.marked, self.token(-1), self.token(1)
        if mark.text == "." and word.text in PUTS and self.token(2).text == "(" and {"and", "+"} <= self.wanted:
            end = self.closing(2, "(", ")")
            inside = self.text.text[self.token(2).end : end.at].strip()
            old, new = self.text.text[via.at : end.end], self.put_in(word.text, via.text, inside)
            if self.is_number(via.text) and word.text == "add":
                new = f"{via.text} + {inside}"
            yield self.slip(f"write `{new}` in place of `{old}`", (via.at, end.end, new), "Syntax list")

    def put_in(self, word, name, inside):
        """Gives the term for a list with an element more: behind all others by a function that puts it there, where the
        text has one, and else before them."""
        known = [it for it in self.functions(["list int", "int"]) if self.is_behind(it)] if word in BEHIND else []
        return f"{known[0]}({name}, {inside})" if known else f"{inside} :: {name}"

    def is_behind(self, name):
        """Whether a function gives a list with its second value behind all others."""
        words = [it.text for it in self.text.tokens]
        at = next(at for at in range(len(words)) if words[at : at + 2] == ["fn", name])
        body = words[at : next((place for place in range(at, len(words)) if words[place] == ";"), len(words))]
        second = body[next(place for place in range(len(body)) if body[place] == ",") + 1]
        return any(body[place : place + 4] == ["=>", second, "::", "nil"] for place in range(len(body)))

    def is_number(self, name):
        """Whether a name is that of a parameter which is a number."""
        words = [it.text for it in self.tokens[: self.index]]
        return any(words[at : at + 3] == [name, ":", "int"] for at in range(len(words)))

    def of_put_into(self):
        """The same as an instruction, as if the list could change: a new one is bound, which later code uses."""
        mark, word, dot, name = self.marked, self.token(-1), self.token(-2), self.token(-3)
        if mark.text != "(" or word.text not in PUTS or dot.text != "." or name.kind != "word" or name.text == "self":
            return
        if self.is_channel(name.text) or self.token(-4).text not in (";", "{", "=>", "="):
            return
        end = self.closing(0, "(", ")")
        inside = self.text.text[mark.end : end.at].strip()
        new, at = fresh(self.text, name.text), self.text.index_at(name.at)
        edits, where = renaming(self.text, at, new)
        said = f"let {new} = {self.put_in(word.text, name.text, inside)}"
        words = f"write `{said}` in place of `{self.text.text[name.at : end.end]}`"
        words += f", and `{new}` in place of `{name.text}` at {where}" if edits else ""
        slip = self.slip(words, (name.at, end.end, said), "Syntax list")
        see = f"see: `{name.text}` itself stays what it was, since a name never changes its value"
        yield slip._replace(more=edits, see=(see,))

    def of_patterns(self):
        """The first element and the rest of a list in the branch of a `match`, as others have them."""
        mark, before = self.marked, self.token(-1)
        start = self.index if before.text == "|" else self.index - 1
        arrow = self.apart(start, ("=>", ";"))
        inside = [it.text for it in self.tokens[start:arrow]]
        names = [it for it in inside if it.isidentifier() and it.lower() not in MAKERS]
        is_branch = self.text_at(start - 1) == "|" and self.text_at(arrow) == "=>"
        if not is_branch or self.wanted not in ({"NAME"}, {"::"}) or len(names) != 2 or len(set(names)) != 2:
            return
        first = self.tokens[start]
        edit = (first.at, self.tokens[arrow - 1].end, " :: ".join(names))
        yield self.slip(f"write `{edit[2]}` between the `|` and the `=>`", edit, "Syntax match")

    def of_operators(self):
        """An operator that is a word in other languages."""
        mark = self.marked
        before, behind = self.token(-1), self.token(1)
        if mark.text == "not" and {"and", "+"} <= self.wanted and before.kind == "word" and behind.kind != "symbol":
            new = f"not {before.text} = {behind.text}"
            old = self.text.text[before.at : behind.end]
            edit = (before.at, behind.end, new)
            yield self.slip(f"write `{new}` in place of `{old}`", edit, "Syntax comparison")
        sign = OPERATORS.get(mark.text)
        if sign and {"and", "+"} <= self.wanted:
            yield self.slip(f"write `{sign}` in place of `{mark.text}`", (mark.at, mark.end, sign))

    def of_elements(self):
        """An element of a list by its number: by a function that has it, or one that is written for that."""
        mark, before = self.marked, self.token(-1)
        if mark.text != "[" or not {"and", "+"} <= self.wanted or before.kind != "word":
            return
        end = self.closing(0, "[", "]")
        inside = self.text.text[mark.end : end.at].strip()
        name = next((it for it in self.functions(["list int", "int"]) if self.gives(it) == "int"), "")
        own = "at" if "at" not in {it.text for it in self.text.tokens} else "element_at"
        new, old = f"{name or own}({before.text}, {inside})", self.text.text[before.at : end.end]
        head = next((it for it in self.text.tokens if it.text in HEADS), mark)
        more = () if name else ((head.at, head.at, AT.format(own, own)),)
        words = "" if name else f", and before all others the function `{AT.format(own, own).strip()}`"
        slip = self.slip(f"write `{new}` in place of `{old}`{words}", (before.at, end.end, new), "Syntax index")
        yield slip._replace(more=more)

    def gives(self, name):
        """Gives the kind that a function gives."""
        words = [it.text for it in self.text.tokens]
        at = next(at for at in range(len(words)) if words[at : at + 2] == ["fn", name])
        colon = next((place for place in range(at, len(words)) if words[place] == ")"), at) + 1
        equal = next((place for place in range(colon, len(words)) if words[place] == "="), colon)
        return " ".join(words[colon + 1 : equal])

    def functions(self, kinds):
        """Gives the functions of the text with parameters of these kinds."""
        tokens = self.text.tokens
        for at, it in enumerate(tokens):
            if it.text == "fn" and at + 2 < len(tokens) and tokens[at + 2].text == "(":
                end = next((place for place in range(at, len(tokens)) if tokens[place].text == ")"), at)
                rows = joined(tokens[at + 3 : end]).split(",")
                if [row.partition(":")[2].strip() for row in rows] == kinds:
                    yield tokens[at + 1].text

    def of_goings(self):
        """A function whose body goes through a list, or counts, by a loop."""
        mark, words = self.marked, [it.text for it in self.tokens]
        if words[:1] != ["fn"] or mark.text != "{" or self.token(-1).text != "=":
            return
        end = self.closing(0, "{", "}")
        inside = [it.text for it in self.tokens[self.index :] if it.at < end.at]
        if not set(LOOPED) & set(inside):
            return
        head = joined(self.tokens[3 : self.index - 1]).partition(")")[0].split(",")
        lists = [it.partition(":")[0].strip() for it in head if it.partition(":")[2].split()[:1] == ["list"]]
        names = [it.partition(":")[0].strip() for it in head]
        rest = ", ".join("t" if it in lists[:1] else it for it in names)
        if lists:
            words = f"write `match {lists[0]} {{ nil => .. | h :: t => .. }}` in place of this body, in which"
            said, new = f"{words} `{self.tokens[1].text}({rest})` goes through the rest", f"match {lists[0]} " \
                "{ nil => 0 | h :: t => 0 }"
        else:
            name = head[0].partition(":")[0].strip()
            said, new = f"write `if {name} < 1 then .. else ..` in place of this body, in which " \
                f"`{self.tokens[1].text}({name} - 1)` does the rest", f"if {name} < 1 then 0 else 0"
        yield self.slip(said, (mark.at, end.end, new), "Syntax loop")
