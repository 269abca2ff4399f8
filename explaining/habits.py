"""Slips of those who write other languages, or who have not met yet how a thing is written in this one."""
from .comparisons import translated
from .numbers import WRITTEN, in_digits
from .renamed import fresh, is_known, places, renaming, uses
from .shapes import ELSEWHERE, HEADS, KINDS, Slip
from .texts import joined
from .wordings import WRITING, Wordings

AGAIN = ("loop", "repeat", "again", "continue", "restart", "recurse", "goto", "next", "self_call")
LOOPS = ("while", "for", "loop", "repeat", "foreach")
# The instructions that are written with a channel behind them.
# What is computed of two numbers, by the sign between them.
ADDED = {"+": int.__add__, "-": int.__sub__, "*": int.__mul__}
WORDS = ("send", "recv", "put", "take", "wait", "pay", "get", "fwd", "acquire", "release")
# What others write before a name, which says nothing here.
MODIFIERS = ("mut", "ref", "const", "final", "var", "memory", "calldata", "storage", "immutable", "own", "public",
             "private", "pub", "static", "inout", "in", "out", "val", "linear", "resource", "payable", "external")
# The instructions by the words that others have for them.
INSTRUCTIONS = {
    **dict.fromkeys(("burn", "spend", "consume", "charge", "gas", "tick"), "work"),
    **dict.fromkeys(("stop", "end", "exit", "finish", "done", "terminate", "halt"), "close"),
    **dict.fromkeys(("lock", "open", "borrow", "claim"), "acquire"),
    **dict.fromkeys(("unlock", "free", "giveback"), "release"),
    **dict.fromkeys(("receive", "receives", "get_channel", "input"), "recv"),
    **dict.fromkeys(("read", "fetch", "pull"), "take"),
    **dict.fromkeys(("give", "pass", "transfer", "move"), "send"),
    **dict.fromkeys(("create", "new", "start", "fork", "run"), "spawn"),
    **dict.fromkeys(("var", "val", "set", "def", "const"), "let"),
    **dict.fromkeys(("forward", "redirect", "become"), "fwd"),
    **dict.fromkeys(("drop", "delete", "destroy", "await", "join"), "wait"),
    **dict.fromkeys((*WRITING, "result", "answer", "yield", "reply", "returns"), "emit"),
}
# the instructions that bind a name, and what stands before it
COMING = {"recv": "", "take": "", "acquire": "as ", "release": "as "}


class Habits(Wordings):
    """What is found of the tokens around an offence, by the class that is made of this one."""

    def of_habits(self):
        ways = (self.of_several_labels, self.of_pairs, self.of_order, self.of_returns, self.of_terms, self.of_cases)
        ways = (*ways, self.of_kinds, self.of_calls, self.of_loops, self.of_braces, self.of_heard, self.of_tried)
        ways = (*ways, self.of_other_words, self.of_bare, self.of_arrows, self.of_steps)
        for way in (self.of_wordings, self.of_chained, self.of_assigned, self.of_shapes, *ways):
            yield from way()

    def of_several_labels(self):
        """Several labels before one `=>`, as if the branch were for each of them; a comma behind the last of a row."""
        mark, before = self.marked, self.token(-1)
        if mark.text in (")", "}", "]") and before.text == ",":
            yield Slip("Syntax", "take this `,` out", (before.at, before.end, ""))
        if mark.text not in (",", "|", "or") or self.wanted != {"=>"} or before.kind != "word":
            return
        labels, at = [before.text], self.index
        while self.text_at(at) == mark.text and self.text_at(at + 1).isidentifier():
            labels.append(self.text_at(at + 1))
            at += 2
        end = self.apart(at + 1, ("|", "}")) if self.text_at(at) == "=>" else None
        if end is None or len(labels) < 2:
            return
        code = self.text.text[self.tokens[at + 1].at : self.tokens[end - 1].end]
        new = " | ".join(f"{it} => {code}" for it in labels)
        said = " and ".join(f"`{it} => ..`" for it in labels)
        edit = (before.at, self.tokens[end - 1].end, new)
        yield Slip("Syntax", f"write a branch for each label, {said}, with the same code", edit)

    def of_pairs(self):
        """Several types in parentheses, as a pair is written in other languages: each is sent one behind the other."""
        mark = self.marked
        opening = next((at for at in range(self.index - 1, 0, -1) if self.tokens[at].text in ("(", "{", ";")), 0)
        is_type = self.tokens[opening].text == "(" and self.tokens[0].text == "type"
        if mark.text != "," or not is_type or ")" not in self.wanted:
            return
        end = self.closing(opening - self.index, "(", ")")
        parts = self.text.text[self.tokens[opening].end : end.at].split(",")
        new, old = " * ".join(it.strip() for it in parts), self.text.text[self.tokens[opening].at : end.end]
        words = f"write `{new}` in place of `{old}`, since each is sent by itself"
        yield Slip("Syntax", words, (self.tokens[opening].at, end.end, new))

    def of_order(self):
        """Slips where something stands behind what it stands before."""
        mark, before, behind = self.marked, self.token(-1), self.token(1)
        if mark.text == "self" and self.token(-2).text in ("put", "take", "send", "recv"):
            word = self.token(-2).text
            edit = (before.at, mark.end, f"self {before.text}")
            yield Slip("Syntax", f"write `{word} self {before.text}` in place of `{word} {before.text} self`", edit)
        last = self.token(2)
        if mark.text in ("\"", "'") and self.wanted == {"NAME"} and behind.kind == "word" and last.text == mark.text:
            yield Slip("Syntax", f"take the quotes around `{behind.text}` out", (mark.at, last.end, behind.text))
        if self.wanted == {":"} and mark.kind == "word" and self.is_declared(before.text, "type"):
            new = f"{mark.text}: {before.text}"
            yield Slip("Syntax", f"write `{new}` in place of `{before.text} {mark.text}`", (before.at, mark.end, new))
            opening = self.token(-2).text
            if opening in ("(", ",") and ";" not in [it.text for it in self.tokens[: self.index]]:
                start = before if opening == "(" else self.token(-2)
                said = f"; {new}" if opening == "(" else new
                edit = (start.at, mark.end, f"; {new}")
                words = f"write `{said}` in place of `{before.text} {mark.text}`, behind a `;` since it is a channel"
                yield Slip("Syntax", words, edit)
        if mark.text in KINDS and "NAME" in self.wanted and behind.kind == "word":
            new = f"{behind.text}: {mark.text}"
            yield Slip("Syntax", f"write `{new}` in place of `{mark.text} {behind.text}`", (mark.at, behind.end, new))
        if mark.text == "list" and "NAME" in self.wanted and behind.text in KINDS and self.token(2).kind == "word":
            new = f"{self.token(2).text}: list {behind.text}"
            old = joined(self.tokens[self.index : self.index + 3])
            yield Slip("Syntax", f"write `{new}` in place of `{old}`", (mark.at, self.token(2).end, new))
        if before.text == "mut" and self.token(-2).text == "let":
            yield Slip("Syntax", "take `mut` out, since a name never changes its value", (before.at, mark.at, ""))
        is_modified = before.text in MODIFIERS and mark.kind == "word" and "NAME" not in self.wanted
        if is_modified and self.tokens[0].text in HEADS:
            yield Slip("Syntax", f"take `{before.text}` out", (before.at, mark.at, ""))
        is_value = mark.kind == "number" or mark.text in ("true", "false")
        if is_value and before.text in (";", ",") and self.wanted <= {"NAME", ")"}:
            yield from self.of_sides()

    def of_returns(self):
        """Slips with a `return`, which no word of the language is."""
        mark, before = self.marked, self.token(-1)
        if before.text != "return":
            return
        if self.wanted == {"."} and mark.text in (";", "}", "|") and self.tokens[0].text == "proc":
            new = self.last_one()
            yield Slip("Syntax instruction", f"write `{new}` in place of `return`", (before.at, before.end, new))
            return
        if self.wanted == {"."}:
            end = next((it for it in self.tokens[self.index :] if it.text in (";", "}", "|")), mark)
            term = self.text.text[mark.at : end.at].strip()
            word = "emit" if self.tokens[1].text == "T" else "put self"
            behind = next((it.text for it in self.tokens if it.at > end.at), "")
            if end.text == ";" and behind not in (*HEADS, ""):
                mend, edit = f"write `{word}` in place of `return`", (before.at, before.end, word)
            else:
                mend = f"write `{word} {term}; close` in place of `return {term}`"
                edit = (before.at, end.at, f"{word} {term}; close")
            yield Slip("Syntax instruction", mend, edit)
        else:
            yield Slip("Syntax", "take `return` out, since a term gives its value by itself", (before.at, mark.at, ""))

    def of_loops(self):
        """Slips with a loop, which is taken out with what stands in its braces, and with a word for another turn."""
        mark, before = self.marked, self.token(-1)
        is_turn = before.text in AGAIN and mark.text in ("|", "}", ";") and self.tokens[0].text == "proc"
        if self.wanted == {"."} and is_turn:
            new = self.last_one()
            mend = f"write `{new}` in place of `{before.text}`"
            yield Slip("Syntax loop", mend, (before.at, before.end, new))
        if self.wanted == {"."} and before.text in LOOPS:
            opening = next((at for at, it in enumerate(self.tokens) if at >= self.index and it.text == "{"), self.index)
            last = self.closing(opening - self.index, "{", "}")
            behind = next((it for it in self.tokens if it.at >= last.end), last)
            yield self.of_loop(before, opening, behind.end if behind.text == ";" else last.end)

    def of_loop(self, word, opening, end):
        """A loop of instructions, which is a process that calls itself."""
        test = translated(joined(self.tokens[self.index : opening])).strip("()") if word.text == "while" else ".."
        call = self.last_one() if self.tokens[0].text == "proc" and self.tokens[1].text == "S" else "call ..(..)"
        new = f"if {test or '..'} {{ ..; {call} }} else {{ .. }}"
        mend = f"write `{new}` in place of this loop, in which each turn is a call"
        return Slip("Syntax loop", mend, (word.at, end, ""))

    def of_heard(self):
        """What comes with a label, between the label of a branch and its `=>`."""
        mark, label = self.marked, self.token(-1)
        inside = [mark] if mark.kind == "word" else []
        end = self.closing(0, "(", ")") if mark.text == "(" else mark
        if mark.text == "(":
            inside = [it for it in self.tokens[self.index + 1 :] if it.at < end.at and it.text != ","]
        sign = next((it for it in self.tokens if it.at >= end.end), mark)
        at = next((at for at in range(self.index, 1, -1) if self.tokens[at - 2].text == "case"), 0)
        if self.wanted != {"=>"} or sign.text != "=>" or not at or not inside or not self.is_label(label.text):
            return
        via = self.tokens[at - 1].text
        tokens = [it.text for it in self.text.tokens]
        places = [place for place in range(len(tokens) - 2) if tokens[place : place + 2] == [label.text, ":"]]
        word = "take" if places and tokens[places[0] + 2] in KINDS else "recv"
        code = " ".join(f"{word} {via} {it.text};" for it in inside)
        old = self.text.text[label.at : sign.end]
        new = f"{label.text} => {code}"
        yield Slip("Syntax label", f"write `{new}` in place of `{old}`", (label.at, sign.end, new))

    def of_amounts_and_calls(self):
        """A label that is sent in a `case`, a `spawn` without its two `;`, and an amount that is no number."""
        mark, before, word = self.marked, self.token(-1), self.token(-2)
        if mark.text == "." and word.text == "case" and self.token(1).kind == "word" and self.token(2).text == "{":
            old = self.text.text[word.at : self.token(1).end]
            new = f"{before.text}.{self.token(1).text}; case {before.text}"
            yield Slip("Syntax", f"write `{new}` in place of `{old}`", (word.at, self.token(1).end, new))
        starts = [at for at in range(self.index) if self.text_at(at) in (";", "{", "=>", "else")]
        is_spawned = bool(starts) and self.text_at(starts[-1] + 1) == "spawn"
        if mark.text == ")" and ";" in self.wanted and is_spawned and self.token(1).kind == "word":
            words = "write `;` before this `)`, where the channels would stand, and one behind it"
            yield Slip("Syntax", words, (mark.at, mark.end, ";);"))
        way = ADDED.get(mark.text)
        if word.text == "{" and before.kind == self.token(1).kind == "number" and way and self.token(2).text == "}":
            new = str(max(way(int(before.text[:9]), int(self.token(1).text[:9])), 0))
            old = self.text.text[before.at : self.token(1).end]
            words = f"write `{new}` in place of `{old}`, since an amount is one number"
            yield Slip("Syntax", words, (before.at, self.token(1).end, new))
        if before.text == "{" and mark.kind == "word" and "*" in self.wanted and self.token(1).text == "}":
            words = f"write `*`, for which an amount is found, in place of `{mark.text}`"
            yield Slip("Syntax", f"{words}: no amount of gas is read of a value", (mark.at, mark.end, "*"))

    def of_bare(self):
        """An instruction without what it sends, with a `self` that it has not, or on `self` where it is on others."""
        mark, before, word = self.marked, self.token(-1), self.token(-2)
        is_end = mark.text in (";", "}", "|")
        if is_end and word.text == "put" and self.wants("term"):
            words = f"write `{word.text} {before.text} ..`, with what is sent"
            yield Slip("Syntax", words, (before.end, before.end, " 0"))
        if mark.text in (";", "}", "|") and before.text == "emit" and self.wants("term"):
            yield Slip("Syntax", "write `emit ..`, with a value", (before.end, before.end, " 0"))
        yield from self.of_amounts_and_calls()
        if word.text == "send" and (mark.text in ("me", "true", "false", "nil") or mark.kind == "number"):
            new, old = f"put {before.text}", f"send {before.text} {mark.text}"
            words = f"write `{new} {mark.text}` in place of `{old}`, since it is a value"
            yield Slip("Syntax", words, (word.at, before.end, new))
        if mark.text == "self" and before.text in ("accept", "detach", "fwd"):
            words = f"take `self` out, since `{before.text}` is on nothing else"
            yield Slip("Syntax", words, (mark.at, mark.end, ""))
        if before.text == "work" and self.token(1).text == "{" and mark.kind == "word":
            yield Slip("Syntax", f"take `{mark.text}` out, since `work` is on no channel", (mark.at, mark.end, ""))
        if mark.text == "self" and before.text in ("acquire", "release", "wait") and self.wanted == {"NAME"}:
            end = self.tokens[self.apart(self.index, (";", "}", "|"))]
            said = self.text.text[before.at : end.at].strip()
            words = f"take `{said}` out, since nobody does that with what it offers itself"
            yield Slip("Syntax word", words, (before.at, end.end if end.text == ";" else end.at, ""))

    def of_arrows(self):
        """A value or a channel that is sent or received by signs."""
        mark, before, behind = self.marked, self.token(-1), self.token(1)
        signs = mark.text + (behind.text if behind.at == mark.end and behind.text in ("-", "=", ">") else "")
        at = self.index + len(signs)
        if before.kind != "word" or self.wanted not in ({"."}, {".", "="}) or signs not in ("<-", "!", "?", "->", "<="):
            return
        end = self.apart(at, (";", "}", "|"))
        what = joined(self.tokens[at:end])
        via, sent = (what, before.text) if signs == "->" else (before.text, what)
        word = "send" if self.is_channel(sent) else "put"
        if signs == "?":
            word = "take"
        new, old = f"{word} {via} {sent}", self.text.text[before.at : self.tokens[end - 1].end]
        if what:
            edit = (before.at, self.tokens[end - 1].end, new)
            yield Slip("Syntax instruction", f"write `{new}` in place of `{old}`", edit)

    def of_steps(self):
        """A function with `let` in it, which is one term: what is bound is put where it is used."""
        if self.tokens[0].text != "fn" or self.marked.text not in ("let", "var", "const") or self.token(-1).text != "=":
            return
        at, known = self.index, {}
        while self.text_at(at) in ("let", "var", "const", "int", "bool") and self.text_at(at + 2) == "=":
            end = self.apart(at + 3, (";",))
            known[self.text_at(at + 1)] = f"({self.with_known(at + 3, end, known)})"
            at = end + 1
        at += self.text_at(at) == "return"
        end = self.apart(at, (";",))
        new = self.with_known(at, end, known)
        if known and at < end < len(self.tokens):
            edit = (self.marked.at, self.tokens[end - 1].end, new)
            yield Slip("Syntax", f"write `{new}` in place of this body, since a function is one term", edit)

    def with_known(self, start, end, known):
        """Gives the tokens of a term in one line, with what stands for some names."""
        rows = [it._replace(text=known.get(it.text, it.text)) for it in self.tokens[start:end]]
        return " ".join(it.text for it in rows).replace("( ", "(").replace(" )", ")").replace(" ,", ",")

    def of_tried(self):
        """What others try, and do where it fails."""
        before, mark = self.token(-1), self.marked
        if before.text not in ("try", "catch", "finally", "do", "begin") or mark.text != "{" or self.wanted != {"."}:
            return
        last = self.closing(0, "{", "}")
        inside = self.text.text[mark.end : last.at].strip().rstrip(";")
        at = self.text.index_at(last.at) - self.text.index_at(mark.at) + self.index + 1
        while self.text_at(at) in ("catch", "finally", "except"):
            opening = next((it for it in range(at, len(self.tokens)) if self.tokens[it].text == "{"), at)
            last = self.closing(opening - self.index, "{", "}")
            at = self.text.index_at(last.at) - self.text.index_at(mark.at) + self.index + 1
        sign = "" if self.text_at(at) in (";", "}", "|", "") else ";"
        words = f"take `{before.text}`, its braces and what is done on a fault out, since a fault undoes the batch"
        yield Slip("Syntax instruction", words, (before.at, last.end, f"{inside}{sign}"))

    def of_other_words(self):
        """An instruction by the word of another language."""
        before, mark = self.token(-1), self.marked
        if self.wanted == {"."} and before.text == "unless" and self.tokens[0].text == "proc":
            end = self.tokens[self.apart(self.index, ("{", "then", ";"))]
            test = self.text.text[mark.at : end.at].strip()
            new = f"if not ({test})"
            words = f"write `{new}` in place of `unless {test}`"
            yield Slip("Syntax instruction", words, (before.at, end.at, f"{new} "))
        other = INSTRUCTIONS.get(before.text)
        if self.wanted == {"."} and other and self.tokens[0].text == "proc":
            words = f"write `{other}` in place of `{before.text}`"
            yield Slip("Syntax instruction", words, (before.at, before.end, other))

    def of_cases(self):
        """Slips between `case`, which is on a channel, and `match`, which is on a list."""
        mark, before, word = self.marked, self.token(-1), self.token(-3)
        on_self = mark.text == "self" and before.text == "match"
        on_label = self.wanted == {"nil"} and word.text == "match" and self.is_label(mark.text)
        if on_self or on_label:
            token = before if on_self else word
            yield Slip("Syntax match", "write `case` in place of `match`", (token.at, token.end, "case"))
        if mark.text == "nil" and before.text == "{" and word.text == "case":
            yield Slip("Syntax match", "write `match` in place of `case`", (word.at, word.end, "match"))
        if mark.text == "[" and self.token(1).text == "]" and self.wanted == {"nil"}:
            yield Slip("Syntax match", "write `nil` in place of `[]`", (mark.at, self.token(1).end, "nil"))

    def of_question(self):
        """A choice between two terms that is written with `?` and `:`."""
        start = next((at + 1 for at in range(self.index - 1, 0, -1) if self.begins_term(at)), 1)
        colon = self.apart(self.index, (":",))
        end = self.apart(colon + 1, (";", ")", ",", "}", "|", "{"))
        parts = ((start, self.index), (self.index + 1, colon), (colon + 1, end))
        texts = [joined(self.tokens[one:other]) for one, other in parts if one < other]
        if len(texts) == 3:
            new = "if {} then {} else {}".format(*texts)
            yield Slip("Syntax else", f"write `{new}`", (self.tokens[start].at, self.tokens[end - 1].end, new))

    def begins_term(self, at):
        """Whether a term begins behind a token."""
        text, words = self.tokens[at].text, [it.text for it in self.tokens[max(at - 2, 0) : at]]
        is_equal = text == "=" and (words[:1] == ["let"] or "=" not in [it.text for it in self.tokens[:at]])
        return is_equal or text in ("(", ",", "then", "else", "=>", "emit", ";", "{") or words[-1:] == ["put"]

    def apart(self, start, signs):
        """Gives the number of the next token with one of these texts that is in no brackets, or how many there are."""
        depth = 0
        for at in range(start, len(self.tokens)):
            text = self.tokens[at].text
            if depth == 0 and text in signs:
                return at
            depth += (text in ("(", "{")) - (text in (")", "}"))
        return len(self.tokens)

    def of_terms(self):
        """Slips where a term is wanted, or goes on."""
        mark, before, behind = self.marked, self.token(-1), self.token(1)
        if mark.text == "?":
            yield from self.of_question()
        if mark.text == "[" and self.wants("term"):
            yield from self.of_list()
        if mark.text in ("\"", "'"):
            end = self.text.text.find(mark.text, mark.end) + 1
            old = self.text.text[mark.at : end] if end else mark.text
            words = f"write a number, or a truth value, in place of `{old[:40]}`"
            yield Slip("Syntax text", words, (mark.at, end if end else mark.end, "0"))
        if before.kind == "number" and before.end == mark.at and (mark.text == "." or mark.kind == "word"):
            end = behind.end if behind.kind == "number" and behind.at == mark.end else mark.end
            new = in_digits(before.text + mark.text)
            mend = f"write `{new}` in place of `{before.text}{mark.text}`" if new else ""
            if mark.text == "." and behind.kind == "number":
                mend = f"count in a smaller unit, of which `{before.text}.{behind.text}` is a whole number"
            yield Slip("Syntax number", mend, (before.at, end, new or "0"), (), (WRITTEN,))
        if self.wants("vtype") and before.text in ("nil", "list"):
            mend = f"write `int`, or another kind of values, behind `{before.text}`"
            yield Slip("Syntax", mend, (before.end, before.end, " int"))
        if self.wanted == {"nil"} and before.text == "{":
            yield from self.of_first_branch()
            close = "close" if self.is_code(-3) else "0"
            yield Slip("Syntax match", "", (mark.at, mark.at, f"nil => {close} | "))
        if "else" in self.wanted:
            yield from self.of_else()
        if mark.text == "{" and "then" in self.wanted:
            new, end = self.as_term(self.index)
            if new:
                edit = (before.end, self.tokens[end].end, new)
                yield Slip("Syntax else", f"write `{new.strip()}` in place of the braces, since it is a term", edit)
            mend = "write `then .. else ..` in place of `{ .. } else { .. }`, since it is a term"
            yield Slip("Syntax else", mend, (mark.at, mark.end, " then "))
        if mark.text == "then" and "{" in self.wanted:
            yield from self.of_codes()
            mend = "write `{ .. } else { .. }` in place of `then .. else ..`, since these are instructions"
            yield Slip("Syntax else", mend, (mark.at, mark.end, " { "))

    def of_codes(self):
        """Two codes behind a `then` and an `else`, which stand in braces."""
        open_ones, depth, other = 0, 0, None
        for at in range(self.index + 1, len(self.tokens)):
            text = self.tokens[at].text
            depth += (text in ("(", "{")) - (text in (")", "}"))
            if depth < 0 or depth == 0 and text == "|":
                break
            if depth == 0 and text == "else" and not open_ones:
                other = at
                break
            open_ones += (text == "then") - (text == "else")
        if other is None:
            return
        end = self.apart(other + 1, ("}", "|", *HEADS))
        end -= self.tokens[end - 1].text == ";"
        rows = [joined(it).strip("; ") for it in (self.tokens[self.index + 1 : other], self.tokens[other + 1 : end])]
        if all(rows) and not rows[1].startswith("{"):
            new = f"{{ {rows[0]} }} else {{ {rows[1]} }}"
            edit = (self.marked.at, self.tokens[end - 1].end, new)
            words = f"write `{new}` in place of `then` and `else`, since these are instructions"
            yield Slip("Syntax else", words, edit)

    def as_term(self, at):
        """Gives what stands in the braces that open at a token, and in those behind an `else`, as parts of a term, and
        the last token of that; nothing where there is no `else`."""
        end = self.tokens.index(self.closing(at - self.index, "{", "}"))
        inside = joined(self.tokens[at + 1 : end]).removeprefix("return ").rstrip(" ;")
        if self.text_at(end + 1) != "else" or not inside:
            return "", end
        start = end + 2
        opening = self.apart(start, ("{",))
        if self.text_at(start) == "{":
            last = self.tokens.index(self.closing(start - self.index, "{", "}"))
            other = joined(self.tokens[start + 1 : last]).removeprefix("return ").rstrip(" ;")
            return f" then {inside} else {other}", last
        if self.text_at(start) == "if" and self.text_at(opening) == "{":
            further, last = self.as_term(opening)
            test = joined(self.tokens[start:opening])
            return (f" then {inside} else {test}{further}" if further else ""), last
        return "", end

    def of_first_branch(self):
        """The two branches of a `match` the other way round."""
        start, bar = self.index, self.apart(self.index, ("|", "}"))
        end = self.apart(bar + 1, ("|", "}"))
        if self.text_at(bar) == "|" and self.text_at(bar + 1) == "nil" and self.text_at(end) == "}":
            first, second = joined(self.tokens[start:bar]), joined(self.tokens[bar + 1 : end])
            edit = (self.tokens[start].at, self.tokens[end - 1].end, f"{second} | {first}")
            yield Slip("Syntax match", "let the two branches change places, since that of `nil` comes first", edit)

    def of_kinds(self):
        """Slips where a kind or a type is written where none is, or none where one is."""
        mark, before, behind = self.marked, self.token(-1), self.token(1)
        end = next((it for it in self.tokens[self.index :] if it.text in ("=", ";")), None)
        binds = self.token(-2).text in ("let", "spawn") or self.token(-3).text in ("take", "recv")
        if mark.text == ":" and end and binds:
            kind = self.text.text[mark.at : end.at].strip()
            is_sign = (kind, end.text) == (":", "=")
            mend = "write `=` in place of `:=`" if is_sign else f"take `{kind}` out, since the kind is found by itself"
            yield Slip("Syntax", mend, (mark.at, end.at, ""))
        if mark.text == "=" and ":" in self.wanted and before.text in (")", "}"):
            is_term = self.tokens[0].text == "fn"
            what = "`: int`, or another kind of values," if is_term else "`:` and the type that is offered"
            one = "" if is_term else self.one_offered()
            words, new = (f"`: {one}`", f": {one} ") if one else (what, ": int " if is_term else ": 1 ")
            yield Slip("Syntax", f"write {words} before this `=`", (mark.at, mark.at, new))
        is_kind = behind.text in (*KINDS, *ELSEWHERE) or self.is_declared(behind.text, "type")
        if mark.kind == "word" and ":" in self.wanted and before.text in (")", "}") and is_kind:
            yield Slip("Syntax", f"write `:` in place of `{mark.text}`", (mark.at, mark.end, ":"))
        is_paired = before.text == ")" and (behind.text, self.token(3).text) == ("(", ")")
        if mark.kind == "word" and ":" in self.wanted and is_paired:
            kind = ELSEWHERE.get(self.token(2).text, self.token(2).text)
            said = self.text.text[mark.at : self.token(3).end]
            yield Slip("Syntax", f"write `: {kind}` in place of `{said}`", (mark.at, self.token(3).end, f": {kind}"))
        yield from self.of_left_out()

    def of_left_out(self):
        """Slips where a kind, a type, a channel or a body is left out, or a type stands for a kind."""
        mark, before = self.marked, self.token(-1)
        if self.wants("vtype") and mark.text in ELSEWHERE:
            mend = f"write `{ELSEWHERE[mark.text]}` in place of `{mark.text}`"
            yield Slip("Syntax spelling", mend, (mark.at, mark.end, ELSEWHERE[mark.text]))
        if self.wants("vtype") and self.tokens[0].text == "proc" and self.is_declared(mark.text, "type"):
            yield from self.of_parameters()
        if self.wanted == {":"} and before.kind == "word" and mark.text == ",":
            yield from self.of_shared_kind()
        if self.wanted == {":"} and before.kind == "word" and self.tokens[0].text in ("fn", "proc"):
            is_value = self.tokens[0].text == "fn" or ";" not in [it.text for it in self.tokens[: self.index]]
            kind, what = (": int", "another kind of values") if is_value else (": 1", "another type")
            mend = f"write `{kind}`, or {what}, behind `{before.text}`"
            yield Slip("Syntax", mend, (before.end, before.end, kind))
        if mark.text == ";" and self.token(-2).text in ("put", "take", "send", "recv") and before.text != "self":
            yield from self.of_unnamed()
            word = self.token(-2).text
            mend = f"write the channel between `{word}` and `{before.text}`, as in `{word} self {before.text}`"
            yield Slip("Syntax", mend, (before.at, before.at, "self "))
        if mark.text == ";" and "=" in self.wanted and self.tokens[0].text in HEADS:
            body = {"type": "1", "fn": "0", "proc": "close"}[self.tokens[0].text]
            yield Slip("Syntax body", "", (mark.at, mark.at, f" = {body}"))
        if mark.text in ("|", "}") and self.wanted == {":"} and before.kind == "word":
            mend = f"write `: 1`, or how else the talk goes on, behind `{before.text}`"
            yield Slip("Syntax label", mend, (before.end, before.end, " : 1"))

    def of_shared_kind(self):
        """Several parameters with one kind or type behind the last of them."""
        behind = range(self.index, len(self.tokens))
        colon = next((at for at in behind if self.text_at(at) in (":", ";", ")", "=")), 0)
        if not colon or self.text_at(colon) != ":":
            return
        end = self.apart(colon + 1, (",", ";", ")"))
        kind = joined(self.tokens[colon + 1 : end])
        rows = [at for at in range(self.index, colon) if self.text_at(at) == ","]
        before = self.token(-1)
        edits = [(self.tokens[at].at, self.tokens[at].at, f": {kind}") for at in rows]
        words = f"write `: {kind}` behind `{before.text}`, since each parameter has its own"
        if kind:
            yield Slip("Syntax", words, edits[0], tuple(edits[1:]))

    def one_offered(self):
        """Gives the one definition of the mode of this process, if there is one alone."""
        tokens = self.text.tokens
        rows = zip(tokens, tokens[1:], tokens[2:])
        found = [name.text for one, mode, name in rows if (one.text, mode.text) == ("type", self.tokens[1].text)]
        is_shared = self.tokens[1].text != "S" or any(it.text == "accept" for it in self.tokens[self.index :])
        return found[0] if len(found) == 1 and is_shared else ""

    def of_unnamed(self):
        """An instruction on a channel without the name that it binds: one that is used behind it and bound nowhere."""
        word, via = self.token(-2), self.token(-1)
        if word.text not in ("take", "recv") or via.text != "self" and not self.is_channel(via.text):
            return
        known = {it.text for it in self.tokens[: self.index]} | self.grammar.reserved
        behind = self.text.tokens[self.text.index_at(self.marked.at) : self.text.index_at(self.end_of_declaration())]
        used = [it.text for before, it in zip(behind, behind[1:]) if it.kind == "word" and it.text not in known
                and before.text not in (".", "as", "let", "spawn") and not self.is_known(it.text)]
        new = used[0] if used else fresh(self.text, "v")
        said = f"`{word.text} {via.text} {new}`" if used else f"`{word.text} {via.text} ..`, with a new name,"
        yield Slip("Syntax", f"write {said} in place of `{word.text} {via.text}`", (via.end, via.end, f" {new}"))

    def of_parameters(self):
        """Channels among the parameters that stand before the `;`."""
        opening = next((at for at in range(self.index, -1, -1) if self.tokens[at].text == "("), 0)
        start, end = self.tokens[opening], self.closing(opening - self.index, "(", ")")
        values = self.text.text[start.end : self.token(-2).at].strip(" ,\t\r\n")
        channels = self.text.text[self.token(-2).at : end.at].rstrip(" ;\t\r\n").replace(";", ",")
        new = f"({values}; {channels})"
        yield Slip("Syntax", f"write `{new}`, since channels stand behind the `;`", (start.at, end.end, new))

    def of_calls(self):
        """Slips in which something is written like a call."""
        mark, before, behind = self.marked, self.token(-1), self.token(1)
        end = self.closing(0, "(", ")")
        if mark.text == "(" and behind.text != ")" and before.kind == "word" and self.token(-2).text == ".":
            yield from self.of_sent(end)
        if mark.text == "(" and before.text in WORDS:
            inside = self.text.text[mark.end : end.at].replace(",", " ")
            yield Slip("Syntax", "take the parentheses and the commas out", (mark.at, end.end, f" {inside} "))
        if before.text == "close" and mark.text not in HEADS and (mark.kind == "word" or mark.text == "("):
            last = end if mark.text == "(" else mark
            said = self.text.text[mark.at : last.end]
            yield Slip("Syntax", f"take `{said}` out, since `close` stands alone", (mark.at, last.end, ""))
        if before.text == "." and mark.text in WORDS:
            yield self.of_dotted()
        yield from self.of_channels_alone()
        if mark.kind == "word" and self.wanted == {"("} and self.is_declared(mark.text, "proc"):
            yield Slip("Syntax", f"take `{before.text}` out", (before.at, mark.at, ""))

    def of_channels_alone(self):
        """Arguments without a `;`, of which some are channels, which stand behind it."""
        opening = self.opened()
        if opening is None or not self.is_declared(self.token(opening - 1 - self.index).text, "proc"):
            return
        end = self.closing(opening - self.index, "(", ")")
        sides = self.text.text[self.tokens[opening].end : end.at].split(";")
        parts = [it.strip() for side in sides for it in side.split(",") if it.strip()]
        names = [it for it in parts if self.is_channel(it)]
        values = [it for it in parts if it not in names]
        if names and "(" not in "".join(parts) and self.tokens[0].text == "proc":
            new = f"({', '.join(values)}; {', '.join(names)})"
            old = self.text.text[self.tokens[opening].at : end.end]
            yield Slip("Syntax", f"write `{new}` in place of `{old}`", (self.tokens[opening].at, end.end, new))

    def opened(self):
        """Gives the number of the ( that is open at the offence, or that it closes, if there is one."""
        depth = 1
        for at in range(self.index - 1, -1, -1):
            text = self.tokens[at].text
            depth += (text == ")") - (text == "(")
            if depth == 0:
                return at
            if text in ("{", "}", "=>", "="):
                return None
        return None

    def of_sent(self, end):
        """A label with what is sent behind it between parentheses, up to the one that closes them."""
        via, label, row = self.token(-3), self.token(-1), "Syntax sent"
        last = self.text.index_at(end.at) - self.text.index_at(self.marked.at)
        parts, start = [], self.index + 1
        while start < self.index + last:
            stop = min(self.apart(start, (",", ";")), self.index + last)
            parts.append(self.tokens[start:stop])
            start = stop + 1
        parts = [it for it in parts if it]
        words = ["send" if len(it) == 1 and self.is_channel(it[0].text) else "put" for it in parts]
        new = f"{via.text}.{label.text}"
        new += "".join(f"; {word} {via.text} {joined(it)}" for word, it in zip(words, parts))
        if via.kind == "word":
            old = self.text.text[via.at : end.end]
            yield Slip(row, f"write `{new}` in place of `{' '.join(old.split())}`", (via.at, end.end, new))
        yield Slip(row, "", (self.marked.at, end.end, ""))

    def is_channel(self, name):
        """Whether a name is bound as a channel before the offence, in the head or by an instruction."""
        words = [it.text for it in self.tokens[: self.index]]
        body = words.index("=") if "=" in words else len(words)
        for at in (at for at, it in enumerate(words) if it == name and at > 2):
            is_parameter = at < body and words[at + 1 : at + 2] == [":"] and ";" in words[:at]
            if is_parameter or words[at - 1] in ("spawn", "as") or words[at - 2] == "recv":
                return True
        return False

    def of_dotted(self):
        """An instruction that is written as a label of its channel."""
        name, mark, opening = self.token(-2), self.marked, self.token(1)
        start, end = mark.end, self.tokens[self.apart(self.index, (";", "}", "|")) - 1].end
        inside = self.text.text[start:end]
        if opening.text == "(":
            start, end = opening.end, self.closing(1, "(", ")").end
            inside = self.text.text[start : end - 1]
        new = f"{mark.text} {name.text} {inside.strip()}".strip()
        mend = f"write `{new}` in place of `{self.text.text[name.at : end]}`"
        return Slip("Syntax word", mend, (name.at, end, new))

    def of_chained(self):
        """An instruction on a channel behind a label of the same channel, as if the label were one."""
        via, word, opening = self.token(-3).text, self.token(1), self.token(2)
        if self.marked.text != "." or self.token(-2).text != "." or ";" not in self.wanted or word.kind != "word":
            return
        new, end = f"; {via}.", self.marked.end
        if word.text in WORDS:
            end = self.closing(2, "(", ")").end if opening.text == "(" else word.end
            inside = self.text.text[opening.end : end - 1].strip() if opening.text == "(" else ""
            new = f"; {word.text} {via} {inside}".rstrip()
        start = self.token(-3).at
        said, old = self.text.text[start : self.marked.at] + new, self.text.text[start : max(end, word.end)]
        said += "" if word.text in WORDS else word.text
        yield Slip("Syntax instruction", f"write `{said}` in place of `{old}`", (self.marked.at, end, new))

    def of_braces(self):
        """Slips with braces around the body of a declaration."""
        mark, before = self.marked, self.token(-1)
        if mark.text == "{" and self.tokens[0].text == "type" and (self.wants("type") or self.wanted == {"="}):
            sign = "= " if self.wanted == {"="} else ""
            mend = f"write `{sign}+` before this `{{` where the provider sends one of the labels, "
            yield Slip("Syntax", f"{mend}and `{sign}&` where it hears one", (mark.at, mark.at, f"{sign}+"))
        elif mark.text == "{" and before.text == "=":
            yield self.without_braces(0, "", "take the braces out")
        elif mark.text == "{" and "=" in self.wanted and self.tokens[0].text != "type":
            yield self.without_braces(0, "= ", "write `=` in place of this `{`, and take its `}` out")
        elif before.text == "{" and self.token(-2).text == ")" and self.wanted == {"NUMBER", "*"}:
            yield self.without_braces(-1, "= ", "write `=` in place of the `{` before this, and take its `}` out")

    def without_braces(self, step, sign, mend):
        """Gives the slip where what stands in the braces that open so many tokens behind the offence has none."""
        start, end = self.token(step), self.closing(step, "{", "}")
        inside = self.text.text[start.end : end.at].rstrip(" ;\t\r\n")
        words = inside.split(None, 1)
        if self.tokens[0].text == "fn" and words[:1] == ["return"] and words[1:]:
            mend, inside = f"{mend}, and the `return` too", words[1]
        behind = next((it.text for it in self.text.tokens if it.at >= end.end), "")
        if behind in (*HEADS, "") and end.kind:
            mend, inside = f"{mend}, and write `;` there", f"{inside};"
        return Slip("Syntax braces", mend, (start.at, end.end, f"{sign}{inside}"))

    def is_code(self, step):
        """Whether an instruction begins at the token so many behind the offence."""
        count, ways = self.grammar.read(self.tokens[: self.index + step])
        return self.grammar.firsts["code"] <= self.grammar.wanted(ways)

    def of_list(self):
        """A list that is written between brackets."""
        end = self.closing(0, "[", "]")
        parts = [it.strip() for it in self.text.text[self.marked.end : end.at].split(",")]
        kinds = {"int" if it.isdecimal() else "bool" if it in ("true", "false") else "" for it in parts if it} - {""}
        kind = kinds.pop() if len(kinds) == 1 else "" if any(parts) else self.kind_of_list()
        new = " :: ".join([it for it in parts if it] + [f"nil {kind or 'int'}"])
        yield Slip("Syntax list", f"write `{new}`" if kind else "", (self.marked.at, end.end, new))

    def kind_of_list(self):
        """Gives the kind of the elements of the list that is wanted at the offence, where that is a value of a call."""
        opening, tokens = self.opened(), self.text.tokens
        name = self.text_at(opening - 1) if opening else ""
        at = next((at for at, it in enumerate(tokens) if it.text == name and tokens[at + 1].text == "("
                   and (tokens[at - 1].text == "fn" or tokens[at - 2].text == "proc")), None)
        if at is None:
            return ""
        place = sum(it.text == "," for it in self.tokens[opening : self.index])
        end = next(it for it in range(at, len(tokens)) if tokens[it].text in (";", ")"))
        parts = joined(tokens[at + 2 : end]).split(",")
        words = parts[place].partition(":")[2].split() if place < len(parts) else []
        return " ".join(words[1:]) if words[:1] == ["list"] else ""

    def of_sides(self):
        """Values behind the `;` of arguments, and channels before it."""
        opening = next((at for at in range(self.index, -1, -1) if self.tokens[at].text == "("), 0)
        start, end = self.tokens[opening], self.closing(opening - self.index, "(", ")")
        names, _, values = self.text.text[start.end : end.at].partition(";")
        parts = [it.strip() for it in (*names.split(","), *values.split(",")) if it.strip()]
        channels = [it for it in parts if it.isidentifier() and self.is_channel(it)]
        others = [it for it in parts if it not in channels]
        if channels and others and "(" not in names + values:
            new, old = f"({', '.join(others)}; {', '.join(channels)})", self.text.text[start.at : end.end]
            yield Slip("Syntax", f"write `{new}` in place of `{old}`", (start.at, end.end, new))
        mend = "let what stands before the `;` and what stands behind it change places"
        yield Slip("Syntax", mend, (start.end, end.at, f"{values.strip()}; {names.strip()}"))

    def of_starts(self):
        """Slips at the first word of an instruction, which is a name and begins none."""
        mark, before, behind = self.marked, self.token(-1), self.token(1)
        if self.wanted == {"."} and before.kind == "word":
            row = "Syntax instruction"
            if mark.text == "(" and self.is_declared(before.text, "proc") and self.is_last():
                yield Slip(row, f"write `call` before `{before.text}`", (before.at, before.at, "call "))
            if mark.text == "(" and self.is_declared(before.text, "proc"):
                mend = f"write `spawn .. =` before `{before.text}`, with a new name for its channel"
                yield Slip(row, mend, (before.at, before.at, "spawn x = "))
            if mark.text == "(" and self.is_declared(before.text, "fn"):
                mend = f"write `let .. =` before `{before.text}`, with a new name for its value"
                yield Slip(row, mend, (before.at, before.at, "let x = "))
            if mark.text == "=" and behind.text in COMING and self.token(2).kind == "word":
                word, talk = behind.text, self.token(2)
                new = f"{word} {talk.text} {COMING[word]}{before.text}"
                old = self.text.text[before.at : talk.end]
                yield Slip(row, f"write `{new}` in place of `{old}`", (before.at, talk.end, new))
            if mark.text == ":" and behind.text == "=" and behind.at == mark.end:
                word = self.binder(2)
                edit, old = (before.at, behind.end, f"{word} {before.text} ="), f"{before.text} :="
                yield Slip(row, f"write `{edit[2]}` in place of `{old}`", edit)
            if mark.text == "=" and self.token(2).text == "." and self.token(3).text in COMING:
                word, end = self.token(3).text, self.token(5 if self.token(4).text == "(" else 3)
                new = f"{word} {behind.text} {COMING[word]}{before.text}"
                old = self.text.text[before.at : end.end]
                yield Slip(row, f"write `{new}` in place of `{old}`", (before.at, end.end, new))
            if mark.text == "=":
                yield self.of_written(self.binder(1))
            yield from self.of_labels_sent()
        if mark.text in KINDS and behind.kind == "word" and self.token(2).text == "=":
            word = self.binder(3)
            yield Slip("Syntax instruction", f"write `{word}` in place of `{mark.text}`", (mark.at, mark.end, word))

    def of_labels_sent(self):
        """Slips at a label, at a name that is counted, and at a word that binds nothing."""
        mark, before, behind = self.marked, self.token(-1), self.token(1)
        row = "Syntax instruction"
        if mark.kind == "word" and self.is_label(before.text):
            new = f"{mark.text}.{before.text}"
            yield Slip(row, f"write `{new}` in place of `{before.text} {mark.text}`", (before.at, mark.end, new))
        if mark.text in ("+", "-") and behind.text == mark.text:
            yield self.of_counted(mark.text)
        if mark.text in ("+", "-", "*", "/") and behind.text == "=":
            yield self.of_written("let", f"{before.text} {mark.text} ")
        if mark.kind == "word" and behind.text == "=":
            word = self.binder(2)
            yield Slip(row, f"write `{word}` in place of `{before.text}`", (before.at, before.end, word))
        if mark.text in (";", "}", "|") and self.is_label(before.text):
            mend = f"write the channel that it is sent on, and a `.`, before `{before.text}`"
            yield Slip(row, mend, (before.at, before.at, "x."))

    def of_assigned(self):
        """Branches of an `if` in which nothing is done but to write names anew: each is one term, before what stands
        behind them."""
        opening = self.opening(self.index)
        if self.wanted != {"."} or not opening or self.tokens[0].text != "proc":
            return
        start = next((at for at in range(opening - 1, 0, -1) if self.text_at(at) in ("if", ";", "{", "}")), 0)
        first, end = self.assigned(opening)
        other = {}
        if self.text_at(end + 1) == "else":
            other, end = self.assigned(end + 2) if self.text_at(end + 2) == "{" else (None, end)
        if self.text_at(start) != "if" or not first or other is None or self.text_at(end + 1) == "else":
            return
        end += self.text_at(end + 1) == ";"
        test, code, edits, said = joined(self.tokens[start + 1 : opening]), [], [], []
        for name in dict.fromkeys([*first, *other]):
            new = fresh(self.text, name)
            code.append(f"let {new} = if {test} then {first.get(name, name)} else {other.get(name, name)};")
            rows = uses(self.text.tokens, self.text.index_at(self.tokens[end].at) + 1, name)
            edits += [(it.at, it.end, new) for it in rows]
            said += [f"`{new}` in place of `{name}` at {places(self.text, rows)}"] if rows else []
        words = f"write `{' '.join(code)}` in place of this `if`"
        words = f"{words}, and {', and '.join(said)}" if said else words
        see = "see: a name never changes its value"
        edit = (self.tokens[start].at, self.tokens[end].end, " ".join(code))
        yield Slip("Syntax instruction", words, edit, tuple(edits), (see,))

    def assigned(self, opening):
        """Gives the terms by the names that are written anew in the braces that open at a token, and the token that
        closes these; none where something else is done there."""
        end, at, found = self.tokens.index(self.closing(opening - self.index, "{", "}")), opening + 1, {}
        while at < end:
            name, signs = self.text_at(at), (self.text_at(at + 1), self.text_at(at + 2))
            stop = min(self.apart(at, (";",)), end)
            if not name.isidentifier() or name in found:
                return None, end
            if signs[0] in ("+", "-") and signs[1] == signs[0] and stop == at + 3:
                found[name] = f"{name} {signs[0]} 1"
            elif signs[0] == "=":
                found[name] = joined(self.tokens[at + 2 : stop])
            elif signs[0] in ("+", "-", "*", "/") and signs[1] == "=":
                found[name] = f"{name} {signs[0]} {joined(self.tokens[at + 3 : stop])}"
            else:
                return None, end
            at = stop + 1
        return found, end

    def of_written(self, word, part=""):
        """A name that is written anew, as if it could change its value. What is computed of it stands first."""
        before = self.token(-1)
        at = self.text.index_at(before.at)
        if not part and not is_known(self.text.tokens, at):
            mend = f"write `{word}` before `{before.text}`"
            return Slip("Syntax instruction", mend, (before.at, before.at, f"{word} "))
        start = self.token(2 if part else 1)
        end = self.tokens[self.apart(self.index, (";", "}", "|")) - 1]
        new, old = fresh(self.text, before.text), self.text.text[before.at : end.end]
        said = f"{word} {new} = {part}{self.text.text[start.at : end.end]}"
        edits, where = renaming(self.text, at, new)
        words = f", and `{new}` in place of `{before.text}` at {where}" if edits else ""
        see = f"see: `{before.text}` itself stays what it was, since a name never changes its value"
        mend = f"write `{said}` in place of `{old}`{words}"
        return Slip("Syntax instruction", mend, (before.at, start.at, f"{word} {new} = {part}"), edits, (see,))

    def of_counted(self, sign):
        """A name that is counted up or down by two signs behind it."""
        name, end = self.token(-1), self.token(1).end
        new = fresh(self.text, name.text)
        edits, where = renaming(self.text, self.text.index_at(name.at), new)
        words = f", and `{new}` in place of `{name.text}` at {where}" if edits else ""
        said = f"let {new} = {name.text} {sign} 1"
        mend = f"write `{said}` in place of `{name.text}{sign}{sign}`{words}"
        see = f"see: `{name.text}` itself stays what it was, since a name never changes its value"
        return Slip("Syntax instruction", mend, (name.at, end, said), edits, (see,))

    def is_last(self):
        """Whether what stands in the parentheses at the offence is the end of a code."""
        end = self.closing(0, "(", ")")
        behind = [it.text for it in self.tokens if it.at > end.at][:2]
        return behind[:1] in (["|"], ["}"]) or behind[:1] == [";"] and (behind[1:] == [] or behind[1] in HEADS)

    def binder(self, step):
        """Gives the word that binds a name to what begins at a token: a process or a value."""
        return "spawn" if self.is_declared(self.token(step).text, "proc") else "let"

    def of_else(self):
        mark, before = self.marked, self.token(-1)
        if not self.wanted == {"else"}:
            yield Slip("Syntax else", "", (mark.at, mark.at, " else 0 "))
        elif mark.text in ("elif", "elsif", "elseif") or mark.text == "if":
            yield from self.of_else_if()
        elif self.begins_instruction():
            heads = [at for at, it in enumerate(self.tokens) if at > self.index and it.text in HEADS]
            last = self.tokens[heads[0] - 1] if heads else self.tokens[-1]
            end = self.apart(self.index, ("|", "}"))
            if self.opening(self.index) and end < len(self.tokens) and self.tokens[end].at < last.at:
                inside = self.text.text[mark.at : self.tokens[end - 1].end]
                mend = f"write `else {{` before `{mark.text}`, and `}}` behind the last instruction of this branch"
                edit = (mark.at, self.tokens[end - 1].end, f"else {{ {inside} }}")
                yield Slip("Syntax else", mend, edit)
            inside = self.text.text[mark.at : last.at]
            mend = f"write `else {{` before `{mark.text}`, and `}}` behind the last instruction"
            yield Slip("Syntax else", mend, (mark.at, last.at, f"else {{ {inside} }}"))
        elif mark.text in (";", "}", "|"):
            words = f"write `else {{ .. }}` behind `{before.text}` at {self.text.place(before.at)}"
            yield Slip("Syntax else", words, (before.end, before.end, f" else {{ {self.last_one()} }}"))

    def of_else_if(self):
        """A choice of several, in which what comes behind an `else` is an `if` without braces of its own."""
        last = last_at = self.index
        while self.text_at(last) not in ("{", "") and last < len(self.tokens):
            last += 1
        while self.text_at(last) == "{":
            last = last_at = self.tokens.index(self.closing(last - self.index, "{", "}"))
            if self.text_at(last + 1) in ("elif", "elsif", "elseif", "else"):
                while self.text_at(last) not in ("{", "") and last < len(self.tokens):
                    last += 1
        mark, end = self.marked, self.tokens[min(last_at, len(self.tokens) - 1)]
        inside = self.text.text[mark.end : end.end]
        mend = f"write `else {{ if` in place of `{mark.text}`, and a `}}` behind the `}}` at {self.text.place(end.at)}"
        yield Slip("Syntax else", mend, (mark.at, end.end, f"else {{ if{inside} }}"))

    def is_declared(self, name, word):
        """Whether a declaration that begins with this word has a name."""
        tokens = self.text.tokens
        heads = (at + (1 if word == "fn" else 2) for at, it in enumerate(tokens) if it.text == word)
        return any(at < len(tokens) and tokens[at].text == name for at in heads)

    def is_label(self, name):
        """Whether a choice has a label of this name."""
        rows = zip(self.text.tokens, self.text.tokens[1:], self.text.tokens[2:])
        return any(one.text in ("{", "|") and (it.text, colon.text) == (name, ":") for one, it, colon in rows)

    def is_known(self, name):
        return any(self.is_declared(name, word) for word in ("fn", "proc"))
