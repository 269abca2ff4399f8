"""Slips in the wording of an instruction, a term or a kind: it has what it needs, in another order or by the words of
other languages."""
from .known import BY_NAME
from .comparisons import translated
from .renamed import fresh
from .shapes import HEADS, KINDS, Shapes, Slip
from .texts import joined

# The instructions that send or receive on a channel, and the small words that others put between what these name.
TALKING = ("send", "recv", "put", "take")
BETWEEN = ("to", "from", "into", "in", "on", "via")
# What other languages call a text, and the words by which they choose, and declare a function.
TEXTS = ("string", "String", "str", "text", "char")
CHOOSING = ("switch", "select", "when")
FUNCTIONS = ("func", "function", "fun", "def")
# What other languages declare, and what stands in for it here.
DECLARATIONS = {
    "mapping": "a value for each of many is kept in a pile of processes, one for each key, or in a list",
    "struct": "what belongs together is handed on as the parameters of a process, or is sent one behind the other",
    "enum": "one of several is a number, or the labels of a `+` or a `&`",
    "event": "a transaction writes a result by `emit v;`, and each stands in the report",
    "import": "a contract is one text; copy what it needs into it",
    "use": "a contract is one text; copy what it needs into it",
    "modifier": "what is asked for before stands in an `if`, in each place",
    "contract": "a contract is a process of mode S, by `proc S`, and its type by `type S`",
    "interface": "what is asked of a contract is its type, by `type S`",
    "class": "a contract is a process of mode S, by `proc S`, and its type by `type S`",
    "module": "declarations stand in no other one; a contract is a process of mode S, by `proc S`",
    "library": "functions stand by themselves, by `fn`",
    "trait": "what is asked of a contract is its type, by `type S`",
    "impl": "what a contract does with a client is the `case` behind its `accept`",
    "pragma": "a text begins with its declarations, or with a `cost` before them",
    "package": "a contract is one text; copy what it needs into it",
    "constructor": "a contract begins as its process of mode S, by `let .. = new` in a script",
}
# The words with which they write something, and what these are parts of.
WRITING = ("print", "println", "printf", "log", "echo", "write", "display", "output", "puts")
OUTPUTS = ("console", "System", "std", "out", "io")
SENDERS = (("msg", "sender"), ("tx", "origin"), ("Tx", "sender"))
DEMANDS = ("require", "assert", "revert", "throw", "panic", "abort")
IN_AN_IF = "see: what is to be done only where something holds stands in an `if`"
DEMANDED = f"{IN_AN_IF}; a fault, as of `1 / 0`, undoes the whole batch"
# The signs that a difference stands behind in parentheses.
TIGHT = ("-", "*", "/", "%")
TRUTHS = ("true", "false")
NOTHINGS = ("null", "None", "undefined", "nullptr", "NULL", "nothing", "empty", "void")


class Wordings(Shapes):
    """What is found of the tokens around an offence, by the class that is made of this one."""

    def of_wordings(self):
        ways = (self.of_one_more, self.of_applied, self.of_minus, self.of_asked, self.of_spawned, self.of_commas)
        ways = (*ways, self.of_between, self.of_acquired, self.of_chains, self.of_lists)
        for way in (*ways, self.of_choices, self.of_foreign):
            yield from way()

    def instruction(self):
        """Gives the number of the token that the instruction around the offence begins with."""
        found = depth = 0
        for at, it in enumerate(self.tokens[: self.index]):
            depth += (it.text == "(") - (it.text == ")")
            is_amount = it.text == "{" and (self.tokens[at + 1].kind == "number" or self.tokens[at + 1].text == "*")
            is_first = it.text == "=" and not found
            if depth == 0 and not is_amount and (it.text in (";", "{", "=>") or is_first):
                found = at + 1
        return found

    def of_minus(self):
        """A term that begins with a `-`."""
        mark, before, behind = self.marked, self.token(-1), self.token(1)
        is_term = {"me", "nil"} <= self.wanted and (behind.kind in ("word", "number") or behind.text == "(")
        if mark.text != "-" or not is_term:
            return
        has_more = behind.text == "(" or behind.kind == "word" and self.token(2).text == "("
        end = self.closing(1, "(", ")") if has_more else behind
        said = f"0 - {self.text.text[behind.at : end.end]}"
        new = f"({said})" if before.text in TIGHT else said
        yield Slip("Syntax minus", f"write `{new}`", (mark.at, end.end, new))

    def of_asked(self):
        """A label in a term, as if its answer were a value."""
        mark, via, label, at = self.marked, self.token(-1), self.token(1), self.instruction()
        is_applied = self.token(2).text == "(" and {"and", "+"} <= self.wanted and label.text in BY_NAME
        if mark.text == "." and (self.is_declared(label.text, "fn") or is_applied) and self.token(2).text == "(":
            end = self.closing(2, "(", ")")
            inside = self.text.text[self.token(2).end : end.at].strip()
            new, old = f"{label.text}({via.text}{', ' if inside else ''}{inside})", self.text.text[via.at : end.end]
            yield Slip("Syntax", f"write `{new}` in place of `{old}`", (via.at, end.end, new))
        is_bound = self.token(-2).text == "=" and self.token(-4).text == "let"
        is_term = {"and", "+"} <= self.wanted and self.tokens[0].text == "proc" and not is_bound
        if mark.text == "." and is_term and via.kind == "word" and self.is_label(label.text):
            asked, word = f"{via.text}.{label.text}", self.tokens[at]
            known = self.taken(via.text, label.text)
            if known:
                yield Slip("Syntax", f"write `{known}` in place of `{asked}`", (via.at, label.end, known))
            between = self.text.text[word.at : via.at]
            put = f"{asked}; take {via.text} ..;"
            mend = f"write `{put}` before `{word.text}`, with a new name, and this name in place of `{asked}`"
            yield Slip("Syntax", mend, (word.at, label.end, f"{put.replace('..', 'x')} {between}x"))

    def taken(self, via, label):
        """Gives the name by which the answer to a label was taken just before on this way, if it was."""
        words = [it.text for it in self.tokens[: self.index]]
        asked = [via, ".", label, ";", "take", via]
        found = [at for at in range(len(words) - 6) if words[at : at + 6] == asked]
        is_way = found and not {"|", "}"} & set(words[found[-1] :])
        return words[found[-1] + 6] if is_way else ""

    def of_one_more(self):
        """A variable in a term with two signs behind it, or before it."""
        mark, before, behind = self.marked, self.token(-1), self.token(1)
        third = self.token(-2)
        if before.text in ("+", "-") and third.kind == "word" and third.end == before.at and before.end == mark.at:
            if mark.text == before.text and behind.text in (";", ")", ",", "}", "|", "::"):
                new = f"{third.text} {mark.text} 1"
                old = f"{third.text}{mark.text}{mark.text}"
                yield Slip("Syntax", f"write `{new}` in place of `{old}`", (third.at, mark.end, new))

    def of_applied(self):
        """A function with its value behind it, without parentheses."""
        mark, before = self.marked, self.token(-1)
        is_value = mark.kind in ("word", "number") and {"and", "("} <= self.wanted
        if is_value and self.is_declared(before.text, "fn") and mark.text not in self.grammar.reserved:
            end = self.apart(self.index, (";", ")", ",", "}", "|", "then", "else", "{"))
            inside = self.text.text[mark.at : self.tokens[end - 1].end]
            new = f"{before.text}({inside})"
            yield Slip("Syntax", f"write `{new}` in place of `{before.text} {inside}`",
                       (before.at, self.tokens[end - 1].end, new))

    def of_nothing(self):
        """A test whether a channel is there, which one that is held always is."""
        mark, at = self.marked, self.instruction()
        end = self.apart_brace(at)
        words = [it.text for it in self.tokens[at:end]] if end else []
        if words[:1] != ["if"] or not set(words) & set(NOTHINGS) or self.index > end:
            return
        last = self.closing(end - self.index, "{", "}")
        behind = next((it for it in self.tokens if it.at >= last.end), last)
        inside = self.text.text[self.tokens[end].end : last.at].strip().rstrip(";")
        sign = "" if behind.text in (";", "}", "|") else ";"
        new = f"{inside}{sign}" if "!" in words or "not" in words else ""
        if behind.text != "else":
            words = "take this `if` out, since a channel that is held is there, and keep what stands in its braces"
            if not new:
                words = "take this `if` and what stands in its braces out, since a channel that is held is there"
            yield Slip("Syntax", words, (self.tokens[at].at, last.end, new))

    def apart_brace(self, start):
        """Gives the number of the next { behind a token, if there is one."""
        return next((at for at in range(start, len(self.tokens)) if self.tokens[at].text == "{"), None)

    def of_spawned(self):
        """A process that is started by `let`, or by a word of other languages."""
        mark, word, before = self.marked, self.token(-1), self.token(-2)
        if before.text == "=" and self.is_declared(mark.text, "proc") and self.token(-4).text in ("let", "spawn"):
            start, end = self.token(-4), self.closing(1, "(", ")")
            inside = self.text.text[self.token(1).end : end.at].strip()
            new = f"spawn {self.token(-3).text} = {mark.text}({inside}{'' if ';' in inside else ';'})"
            old = self.text.text[start.at : end.end]
            yield Slip("Syntax", f"write `{new}` in place of `{old}`", (start.at, end.end, new))
        opening = max((at for at in range(self.index) if self.tokens[at].text == "("), default=0)
        words = [it.text for it in self.tokens[max(opening - 4, 0) : opening]]
        if self.marked.text == ";" and words[:1] + words[2:3] == ["let", "="] and self.is_declared(words[3], "proc"):
            it = self.tokens[opening - 4]
            mend = f"write `spawn` in place of `let` at {self.text.place(it.at)}"
            yield Slip("Syntax", mend, (it.at, it.end, "spawn"))

    def of_commas(self):
        """Several things that one instruction sends, receives or names."""
        mark, at = self.marked, self.instruction()
        word = self.tokens[at].text if at < len(self.tokens) else ""
        before, behind = self.token(-1), self.token(1)
        is_inside = before.kind == behind.kind == "number" and before.end == mark.at and mark.end == behind.at
        is_known = word in (*TALKING, "emit", "wait", "let", "spawn", "acquire", "release")
        is_other = is_inside or not is_known or self.begins(self.index + 1)
        if is_other or mark.text != "," or ";" not in self.wanted:
            return
        new = f"{word} {self.tokens[at + 1].text}" if word in TALKING else word
        yield Slip("Syntax", f"write `; {new}` in place of this `,`", (mark.at, mark.end, f"; {new} "))

    def of_between(self):
        """A small word between what is sent and the channel, which stands first."""
        mark, small, sent, word = self.marked, self.token(-1), self.token(-2), self.token(-3)
        if word.text in TALKING and small.text in BETWEEN and mark.kind == "word":
            new = f"{word.text} {mark.text} {sent.text}"
            mend = f"write `{new}` in place of `{word.text} {sent.text} {small.text} {mark.text}`"
            yield Slip("Syntax", mend, (word.at, mark.end, new))

    def of_acquired(self):
        """A name that stands on the other side of an instruction than it is bound at."""
        mark, before, behind, third = self.marked, self.token(-1), self.token(1), self.token(-3)
        if mark.text in ("acquire", "release") and (third.text, before.text) == ("let", "=") and behind.kind == "word":
            name = self.token(-2).text
            new = f"{mark.text} {behind.text} as {name}"
            mend = f"write `{new}` in place of `let {name} = {mark.text} {behind.text}`"
            yield Slip("Syntax", mend, (third.at, behind.end, new))
        if mark.text == "=" and self.wanted == {"as"} and behind.kind == "word":
            word = self.token(-2)
            new = f"{word.text} {behind.text} as {before.text}"
            mend = f"write `{new}` in place of `{word.text} {before.text} = {behind.text}`"
            yield Slip("Syntax", mend, (word.at, behind.end, new))
        end = self.closing(0, "(", ")")
        rest = [it for it in self.tokens[self.index :] if it.at >= end.end][:2]
        if mark.text == "(" and self.token(-2).text == "spawn" and [it.text for it in rest[:1]] == ["as"] and rest[1:]:
            start, call = self.token(-2), self.text.text[before.at : end.end]
            call = call if ";" in call else f"{call[:-1]};)"
            new = f"spawn {rest[1].text} = {call}"
            mend = f"write `{new}` in place of `spawn {call} as {rest[1].text}`"
            yield Slip("Syntax", mend, (start.at, rest[1].end, new))

    def of_chains(self):
        """Two comparisons with one part in common."""
        mark, before, sign = self.marked, self.token(-1), self.token(-2)
        if mark.text in ("<", "=") and sign.text in ("<", "=") and "and" in self.wanted and before.kind != "symbol":
            new = f"and {before.text} {mark.text}"
            yield Slip("Syntax", f"write `{new}` in place of this `{mark.text}`", (mark.at, mark.end, new))

    def of_lists(self):
        """The kind of a list with its elements in brackets, and an element by its number."""
        mark, before = self.marked, self.token(-1)
        signs = {"[": "]", "<": ">", "(": ")"}
        if before.text == "list" and mark.text in signs and self.wants("vtype"):
            end = self.closing(0, mark.text, signs[mark.text])
            inside, said = self.text.text[mark.end : end.at].strip(), self.text.text[before.at : end.end]
            yield Slip("Syntax", f"write `list {inside}` in place of `{said}`", (mark.at, end.end, f" {inside}"))

    def of_choices(self):
        """A `case` on a value, which is an `if`."""
        mark, at = self.marked, self.instruction()
        is_value = mark.kind == "number" or mark.text in TRUTHS
        if is_value and self.token(-1).text == "{" and self.token(-3).text == "case":
            at, opening = self.index - 3, self.index - 1
        elif self.wanted == {"nil"} and self.token(-1).text == "{" and self.tokens[0].text == "fn":
            yield from self.of_truth()
            return
        elif self.wanted == {"{"} and self.tokens[at : at + 1] and self.tokens[at].text == "case":
            opening = next((it for it in range(self.index, len(self.tokens)) if self.tokens[it].text == "{"), None)
        else:
            return
        rows, closing = self.rows(opening) if opening else ([], 0)
        subject = joined(self.tokens[at + 1 : opening]) if opening else ""
        are_values = all(label.kind == "number" or label.text in TRUTHS for label, _ in rows[:-1])
        if len(rows) > 1 and are_values and self.is_term(subject, at):
            tests = [self.test(subject, label.text) for label, _ in rows[:-1]]
            said, new = "{ .. }", f"{{ {rows[-1][1]} }}"
            for test, (_, code) in zip(tests[::-1], rows[-2::-1]):
                said = f"{{ if {test} {{ .. }} else {said} }}"
                new = f"{{ if {test} {{ {code} }} else {new} }}"
            edit = (self.tokens[at].at, self.tokens[closing].end, new[2:-2])
            yield Slip("Syntax match", f"write `{said[2:-2]}` in place of the `case`", edit)

    def of_truth(self):
        """A `match` on a truth value or a number in a term, which is an `if`."""
        at = next((at for at in range(self.index, 0, -1) if self.tokens[at].text in ("match", "switch")), 0)
        rows, closing = self.rows(self.index - 1)
        if not at or len(rows) < 2 or any(it.kind != "number" and it.text not in TRUTHS for it, _ in rows[:-1]):
            return
        subject = joined(self.tokens[at + 1 : self.index - 1])
        tests = [self.test(subject, label.text) for label, _ in rows[:-1]]
        new = "".join(f"if {test} then {code} else " for test, (_, code) in zip(tests, rows)) + rows[-1][1]
        edit = (self.tokens[at].at, self.tokens[closing].end, new)
        yield Slip("Syntax match", f"write `{new}` in place of the `match`", edit)

    def is_term(self, subject, end):
        """Whether a text is more than a name, or one that is bound as a value before a token."""
        words = ["", "", *(it.text for it in self.tokens[:end]), "", ""]
        for at, it in enumerate(words):
            is_kind = words[at + 1 : at + 2] == [":"] and words[at + 2] in KINDS
            if it == subject and (words[at - 1] == "let" or words[at - 2] == "take" or is_kind):
                return True
        return not subject.isidentifier()

    def test(self, subject, label):
        """Gives in words that a term has the value of a label."""
        if label in TRUTHS:
            return subject if label == "true" else f"not ({subject})"
        return f"{subject} = {label}"

    def rows(self, opening):
        """Gives the first token and the code of each branch behind a {, and the number of the } that ends them."""
        found, start = [], opening + 1
        while True:
            end = self.apart(start, ("|", "}"))
            if end >= len(self.tokens) or self.text_at(start + 1) != "=>":
                return [], 0
            found.append((self.tokens[start], joined(self.tokens[start + 2 : end])))
            if self.tokens[end].text == "}":
                return found, end
            start = end + 1

    def of_demand(self):
        """A condition that has to hold, as other languages ask for it: where it does not, a fault undoes all."""
        word, end = self.token(-1), self.apart(self.index, (";", "}", "|"))
        opening = self.index + (self.marked.text == "!")
        stop = min(self.apart(opening + 1, (",", ")")), end)
        test = translated(joined(self.tokens[opening + 1 : stop])) if self.text_at(opening) == "(" else ""
        taken = {it.text for it in self.text.tokens}
        name = "holds" if "holds" not in taken else fresh(self.text, "holds")
        is_asked = test and word.text in ("require", "assert")
        new = f"let {name} = if {test} then 0 else 1 / 0" if is_asked else f"let {name} = 1 / 0"
        edit = (word.at, self.tokens[end - 1].end, new)
        old = " ".join(self.text.text[edit[0] : edit[1]].split())
        return Slip("Syntax instruction", f"write `{new}` in place of `{old}`", edit, (), (DEMANDED,))

    def of_declaration(self):
        """A declaration that other languages have."""
        mark = self.marked
        end = self.apart(self.index, (";",))
        brace = next((it for it in range(self.index, end) if self.tokens[it].text == "{"), None)
        last = self.closing(brace - self.index, "{", "}") if brace else self.tokens[min(end, len(self.tokens) - 1)]
        see = f"see: there is no `{mark.text}`: {DECLARATIONS[mark.text]}"
        return Slip("Syntax declaration", "", (mark.at, last.end, ""), (), (see,))

    def of_foreign(self):
        """Words of other languages, and a value that is declared outside of processes."""
        mark, before, behind = self.marked, self.token(-1), self.token(1)
        if mark.text in TEXTS and self.wants("vtype"):
            yield Slip("Syntax text", "", (mark.at, mark.end, "int"))
        if before.text in CHOOSING and self.wanted == {"."}:
            mend = f"write `case` in place of `{before.text}`"
            yield Slip("Syntax instruction", mend, (before.at, before.end, "case"))
        if mark.text == "." and (before.text, behind.text) in SENDERS:
            said = f"{before.text}.{behind.text}"
            yield Slip("Syntax", f"write `me` in place of `{said}`", (before.at, behind.end, "me"))
        if before.text in DEMANDS and self.wanted == {"."}:
            yield self.of_demand()
        is_written = before.text in WRITING and (self.wanted == {"."} or self.token(-3).text in OUTPUTS)
        if is_written and mark.text == "(" and behind.text != ")":
            start, end = self.token(-3) if self.token(-2).text == "." else before, self.closing(0, "(", ")")
            terms = joined([it for it in self.tokens if mark.at < it.at < end.at])
            old = " ".join(self.text.text[start.at : end.end].split())
            mend = f"write `emit {terms}` in place of `{old}`"
            yield Slip("Syntax instruction", mend, (start.at, end.end, f"emit {terms}"))
        if not set(HEADS) <= self.wanted:
            return
        if mark.text in DECLARATIONS:
            yield self.of_declaration()
        if mark.text in FUNCTIONS and behind.kind == "word":
            yield Slip("Syntax declaration", f"write `fn` in place of `{mark.text}`", (mark.at, mark.end, "fn"))
        end = self.apart(self.index, (";",))
        term = [it.text for it in self.tokens[self.index + 3 : end]]
        is_value = term[-1:] and (term[-1].isdecimal() or term[-1] in TRUTHS) and term[:-1] in ([], ["-"])
        if mark.text in ("let", "const", "var") and self.token(2).text == "=" and is_value and end < len(self.tokens):
            kind, value = "bool" if term[-1] in TRUTHS else "int", " - ".join(["0"] * (len(term) - 1) + term[-1:])
            new = f"fn {behind.text}(): {kind} = {value};"
            mend = f"write `{new}` in place of this, and `{behind.text}()` where it is meant"
            yield Slip("Syntax declaration", mend, (mark.at, self.tokens[end].end, new))
