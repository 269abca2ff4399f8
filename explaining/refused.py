"""What is wrong in a text that is no script: the line, what may stand there, and an edit with which it has a form."""
import re

from . import scripts
from .forms import Forms, Slip
from .found import Found
from .handing import handed
from .marks import MARK, TAKE_OUT
from .mends import mend
from .numbers import PARTED, WRITTEN, in_digits
from .syntax import nearest
from .texts import Token, joined, listed

INSIDE, OUTSIDE = ("let", "exec", "end"), ("deposit", "let", "exec", "show", "begin")
MOST_UNITS, MOST_NUMBER, MOST_BYTES, MOST_DEEP = 10**18, 2**63, 64, 64
# Words between the parts of a line that say nothing by themselves.
FILLING = ("by", "as", "from", "with", "for", "on", "to", "new", "let", "exec", "contract", "account", "call", "run",
           "do", "invoke", "create", "make", "deploy", "var", "const")
# Short words for what a number counts, which are no numbers.
UNITS = ("s", "h", "d", "kg", "g", "u")
PUT_IN = {"NAME": "x", "NUMBER": "0", "N": "0"}


class Line(Forms):
    """The line that a script is refused by, and what was read of it."""

    def __init__(self, program, script, number, grammar, codes=None):
        self.program, self.script, self.grammar, self.codes = program, script, grammar, codes
        self.row = script.row(number)
        self.is_inside = self.inside(number)
        words = INSIDE if self.is_inside else OUTSIDE
        self.words = words
        self.tokens = self.row.tokens
        self.count, self.wanted, self.may_end = self.read()
        end = Token("", "", self.row.end)
        self.marked = self.tokens[self.count] if self.count < len(self.tokens) else end

    def inside(self, number):
        """Whether a batch is open before a line."""
        words = [it.word for it in self.script.rows[: number - 1] if it.word in ("begin", "end")]
        return words[-1:] == ["begin"]

    def read(self):
        """Gives how many tokens of the line begin a form, the tokens that may stand then, and whether none may."""
        if not self.tokens or self.tokens[0].text not in self.words:
            return 0, set(self.words), False
        if self.tokens[0].text in ("begin", "end"):
            return 1, set(), True
        count, ways = self.grammar.read(self.tokens, "line")
        return count, self.grammar.wanted(ways), self.grammar.may_end(ways)

    def at(self, step):
        """Gives the token so many behind the marked one, or an empty one."""
        it = self.count + step
        return self.tokens[it] if 0 <= it < len(self.tokens) else Token("", "", self.row.end)

    def row_text(self):
        return self.script.text[self.row.at : self.row.end]

    def has_form(self, edit):
        """Whether the program takes the line by itself with an edit. A text without a line is a contract too."""
        start, end, new = edit
        line = self.script.text[self.row.at : start] + new + self.script.text[end : self.row.end]
        words = [it.split()[:1] for it in line.split("\n")]
        is_open = self.is_inside + words.count(["begin"]) > words.count(["end"])
        text = ("begin\n" if self.is_inside else "") + line + ("\nend" if is_open else "")
        answer = self.program.run(b"", text.encode("latin-1"), seconds=5)
        return answer is not None and answer.words[:3] != ["script", "refused", "Syntax"]

    def slips(self):
        """Gives edits of which one may be what is meant, the likeliest first."""
        mark, before = self.marked, self.at(-1)
        if self.script.text.startswith(MARK) and self.row.number == 1:
            yield Slip((0, len(MARK), ""), TAKE_OUT)
        if mark.text in ("\"", "'"):
            new = self.row_text().replace(mark.text, "")
            yield Slip((self.row.at, self.row.end, new), "take the quotes out")
        if mark.text == "#":
            yield Slip((mark.at, mark.at + 1, "//"), "begin a comment with `//` in place of `#`")
        if before.text == "-" and mark.kind != "number" and "NUMBER" in self.wanted:
            yield Slip((before.end, before.end, "1"), f"write a number behind `-`")
        if mark.text == "." and before.kind == "number" and before.end == mark.at and self.at(1).kind != "number":
            yield Slip((mark.at, mark.end, ""), "take `.` out")
        yield from self.of_asked()
        yield from self.of_two()
        yield from self.of_forms()
        yield from self.of_starts()
        yield from self.of_spelling()
        if self.count and not self.is_part():
            yield from self.of_sides()
            yield from self.of_signs()
        if not self.count and len(self.tokens) == 1 and mark.text not in INSIDE + OUTSIDE:
            yield Slip((self.row.at, self.row.end, ""), "take this line out")
        is_of_number = before.kind == "number" and before.end == mark.at and mark.kind == "word"
        if self.count and mark.kind not in ("", "number") and mark.text not in (".", "-") and not is_of_number:
            yield Slip((mark.at, mark.end, ""), f"take `{mark.text}` out")
            yield Slip((mark.at, mark.end, "\n"), f"write what stands behind `{mark.text}` on another line")
            yield Slip((mark.at, self.row.end, ""), f"take what stands behind `{before.text}` out")
        yield from self.of_parts()

    def of_deposit(self):
        """Slips in a deposit: what is left out, or stands in another order."""
        mark, before, behind = self.marked, self.at(-1), self.at(1)
        is_whole = not (behind.at == mark.end and in_digits(mark.text + behind.text))
        one = self.senders()
        if before.text == "deposit" and mark.kind == "number" and len(one) == 1 and behind.text not in one and is_whole:
            new = f"{one[0]} {mark.text}"
            old = joined(self.tokens[self.count :])
            if behind.kind == "word":
                yield Slip((mark.at, self.row.end, new), f"write `{new}` in place of `{old}`")
        if before.text == "deposit" and mark.kind == "number" and behind.kind == "word" and is_whole:
            edit = (mark.at, behind.end, f"{behind.text} {mark.text}")
            yield Slip(edit, f"write `{behind.text} {mark.text}` in place of `{mark.text} {behind.text}`")
        last = self.tokens[-1] if self.tokens else mark
        is_filled = before.kind == "number" and self.count == 3 and self.tokens[0].text == "deposit" and mark is last
        if is_filled and mark.text in self.senders()[1:] and self.tokens[1].text not in self.senders()[1:]:
            new = f"deposit {mark.text} {before.text}"
            yield Slip((self.row.at, self.row.end, new), f"write `{new}`")
        if before.text == "deposit" and mark.kind == "number" and not behind.kind and self.senders():
            known = self.senders()
            one = known[0] if len(known) == 1 else ".."
            words = f"write `deposit {one} {mark.text}`{'' if one != '..' else ', with the account'}"
            yield Slip((mark.at, mark.at, f"{known[0]} "), words)
        if before.text == "deposit" and mark.kind == behind.kind == "number" and mark.end < behind.at:
            known = dict(enumerate(self.senders()))
            name = known.get(int(mark.text[:9]))
            if name:
                words = f"write `{name}` in place of `{mark.text}`, since an account is named, and its number found"
                yield Slip((mark.at, mark.end, name), words)
        if self.count == 2 and self.tokens[0].text == "deposit" and mark.text == "-" and behind.kind == "number":
            words = "take this line out, since a deposit adds gas, and only what a transaction spends leaves an account"
            yield Slip((self.row.at, self.row.end, ""), words)
        if before.text == "deposit" and mark.kind == "number" and self.tokens[-1].kind == "word":
            new = f"{self.tokens[-1].text} {mark.text if is_whole else in_digits(mark.text + behind.text)}"
            yield Slip((mark.at, self.row.end, new), f"write `deposit {new}`")

    def of_two(self):
        """The account before `new`, and a second transaction behind the first one of a line."""
        mark, behind = self.marked, self.at(1)
        if self.wanted == {"new"} and behind.text == "new" and mark.text in self.senders():
            new = f"new {mark.text}"
            yield Slip((mark.at, behind.end, new), f"write `{new}` in place of `{mark.text} new`")
        if self.count and self.may_end and self.codes and self.tokens[0].text == "exec" and behind.text == "(" and \
                mark.text in self.codes.processes and self.codes.processes[mark.text].mode == "T":
            new = f"exec {self.tokens[1].text} "
            yield Slip((mark.at, mark.at, f"\n{new}"), f"write `{new}{mark.text}(..)` on a line of its own")

    def of_asked(self):
        """A line that asks a contract for something by the name of a transaction: who pays runs it."""
        words, known = [it.text for it in self.tokens], self.script.accounts(self.row.number)
        processes = self.codes.processes if self.codes else {}
        if self.count or words[2:3] != ["."] or len(words) < 4 or words[3] not in processes or not known:
            return
        if processes[words[3]].mode == "T" and [it.kind for it in processes[words[3]].parameters] == ["channel"]:
            new = f"exec {known[0]} {words[3]}(; {words[1]})"
            yield Slip((self.row.at, self.row.end, new), f"write `{new}`, whose results stand in the report")

    def of_starts(self):
        """Slips at the start of a line: what is left out there, or stands in another order."""
        mark, behind = self.marked, self.at(1)
        if len(self.tokens) == 1 and self.tokens[0].text in ("exec", "let", "deposit"):
            words = "take this line out, since nothing stands behind its first word"
            yield Slip((self.row.at, self.row.end, ""), words)
        yield from self.of_deposit()
        if self.wanted == {"NAME"} and mark.text == ".":
            yield Slip((mark.at, mark.end, " "), "write a blank in place of `.`")
        if self.wanted == {"new"} and mark.text == "exec":
            said = self.script.text[self.row.at : mark.at].strip()
            if self.makes(self.at(2).text):
                yield Slip((mark.at, mark.end, "new"), "write `new` in place of `exec`")
            yield Slip((self.row.at, mark.at, ""), f"take `{said}` out, since results stand in the report alone")
        if not self.count and behind.kind == "word" and mark.text in self.accounts():
            yield Slip((mark.at, mark.at, "exec "), f"write `exec` before `{mark.text}`")
        if not self.count and mark.text == "new":
            name = self.script.unmade(self.row.number)
            said = f"write `let {name or '..'} =` before `new`{'' if name else ', with a name for the contract'}"
            yield Slip((mark.at, mark.at, f"let {name or 'x'} = "), said)
        if self.wanted == {"new"} and behind.text == "(":
            new, why = self.paying()
            edit = (mark.at, mark.at, f"{new.replace('..', 'x')} ")
            yield Slip(edit, f"write `{new}` before `{mark.text}`{why}")

    def of_parts(self):
        """A line with all its parts, in another order: the account, the process with its arguments, and for a contract
        its name, before a `=`."""
        tokens, processes = self.tokens, self.codes.processes if self.codes else {}
        found = [at for at, it in enumerate(tokens) if it.text in processes and self.opening(at)]
        accounts = [it.text for it in tokens if it.text in self.accounts()]
        accounts = accounts or [it for it in [self.one_account()] if it]
        if len(found) != 1 or not accounts:
            return
        at, end = found[0], self.closing(found[0])
        parts = re.split(r"[,;](?![^\[]*\])", joined(tokens[self.opening(at) + 1 : end]))
        parts = self.numbered([it.strip() for it in parts if it.strip()], processes[tokens[at].text])
        named = [it for it in parts if it[0].isalpha() and it not in ("true", "false")]
        values = ", ".join(it for it in parts if it not in named)
        call = f"{tokens[at].text}({values}; {', '.join(named)})".replace("; )", ";)")
        mode = processes[tokens[at].text].mode
        names = [before.text for before, it in zip(tokens, tokens[1:]) if it.text == "=" and before.kind == "word"]
        names = [tokens[1].text] if tokens[0].text == "let" and tokens[1].kind == "word" else names
        new = f"let {names[0]} = new {accounts[0]} {call}" if names else ""
        new = f"exec {accounts[0]} {call}" if mode == "T" else new
        if mode == "S" and not names and len(tokens) == end - at + 1:
            words = f"write `let .. = new {accounts[0]} {call}`, with a name for the contract"
            yield Slip((self.row.at, self.row.end, f"let x = new {accounts[0]} {call}"), words)
        said = {it.text for it in tokens if it.kind in ("word", "number")}
        is_whole = said <= {*FILLING, *re.findall(r"\w+", new), *(it.offers for it in processes.values())}
        if new and mode in "ST" and is_whole:
            yield Slip((self.row.at, self.row.end, new), f"write `{new}`")

    def numbered(self, parts, process):
        """Gives arguments without the accounts among them, or with the numbers of these where so many values are
        wanted."""
        known = self.script.accounts(self.row.number)
        values = [it for it in parts if not it[0].isalpha() or it in ("true", "false") or it in known]
        if len(values) == len([it for it in process.parameters if it.kind == "value"]):
            return [str(known.index(it)) if it in known else it for it in parts]
        return [it for it in parts if it not in self.accounts()]

    def opening(self, at):
        """Gives the number of the parenthesis behind the name of a process, with a word of making between them or
        without, or 0."""
        words = [it.text for it in self.tokens[at + 1 : at + 4]]
        is_made = words[:1] == ["."] and words[1:2] and words[1] in FILLING and words[2:] == ["("]
        return at + 1 if words[:1] == ["("] else at + 3 if is_made else 0

    def text_of(self, at):
        return self.tokens[at].text if at < len(self.tokens) else ""

    def makes(self, name):
        """Whether a process of this name makes a contract."""
        return self.codes is not None and name in self.codes.processes and self.codes.processes[name].mode == "S"

    def senders(self):
        """Gives the names that stand in the lines of the script as those of accounts."""
        known = list(self.accounts())
        known += [it.tokens[1].text for it in self.script.rows if it.word == "exec" and len(it.tokens) > 1]
        known += [it.tokens[4].text for it in self.script.rows if it.word == "let" and len(it.tokens) > 4]
        return [it for it in dict.fromkeys(known) if it[:1].isalpha()]

    def accounts(self):
        """Gives the names that the lines of the script deposit to."""
        return {it.tokens[1].text for it in self.script.rows if it.word == "deposit" and len(it.tokens) > 1}

    def is_part(self):
        """Whether a number that is not whole stands here."""
        mark, before, behind = self.marked, self.at(-1), self.at(1)
        is_inside = before.kind == behind.kind == "number" and before.end == mark.at and mark.end == behind.at
        said = joined([it for it in self.tokens if before.at <= it.at and it.end <= self.number_end()])
        return is_inside and (mark.text == "." or mark.text == "," and not PARTED.fullmatch(said))

    def of_part(self):
        """Gives lines on a number that is not whole, and one by which it is, where behind its point stands nothing but
        zeros."""
        mark, before, behind = self.marked, self.at(-1), self.at(1)
        edit = (before.at, behind.end, before.text)
        is_whole = mark.text == "." and not behind.text.strip("0") and self.has_form(edit)
        said = f"write `{before.text}` in place of `{before.text}.{behind.text}`"
        number = f"{before.text}{mark.text}{behind.text}"
        smaller = mend(f"count in a smaller unit, of which `{number}` is a whole number", edit)
        return [mend(said, edit) if is_whole else smaller, "see: numbers are whole"]

    def number_end(self):
        """Gives where the tokens end that stand behind the marked one without a blank."""
        end = self.marked.end
        for it in (other for other in self.tokens if other.at >= self.marked.at):
            end = it.end if it.at in (end, self.marked.at) else end
        return end

    def is_number(self):
        """Whether a number stands here as other languages write it."""
        mark, before = self.marked, self.at(-1)
        return mark.kind == "word" and before.kind == "number" and before.end == mark.at and mark.text[0] != "_"

    def of_digits(self):
        """Gives lines on such a number: the same in digits, where it is one and may stand here."""
        mark, before = self.marked, self.at(-1)
        new = in_digits(before.text + mark.text)
        is_unit = mark.text.isalpha() and (len(mark.text) > 1 or mark.text in UNITS)
        new = new or (before.text if is_unit else "")
        edit = (before.at, mark.end, new)
        does = new and self.has_form(edit)
        return [*([mend(f"write `{new}` in place of `{before.text}{mark.text}`", edit)] if does else []), WRITTEN]

    def of_sides(self):
        """Slips in which values and names have changed their sides, and one in which the account is missing."""
        mark, before = self.marked, self.at(-1)
        if self.wanted == {"NAME"} and mark.text == "(":
            known = self.script.accounts(self.row.number)
            said = f"write `{known[0]}`, the account, before `{before.text}`"
            if len(known) != 1:
                one = f", one of {listed(known)}" if known else ""
                said = f"write the account that pays before `{before.text}`{one}"
            yield Slip((before.at, before.at, f"{known[0] if known else 'x'} "), said)
        if self.wanted == {"("} and mark.kind:
            yield self.of_parentheses()
        labels = [it for it, sign in zip(self.tokens, self.tokens[1:]) if it.kind == "word" and sign.text in "=:"]
        labels = [it for it in labels if it.at > before.at and self.script.text[self.row.at : it.at].count("(") == 1]
        if labels:
            text, first = self.script.text[labels[0].at : self.row.end], labels[0]
            new = re.sub(r"[A-Za-z_]\w*[ \t]*[=:][ \t]*", "", text)
            parts = [it.strip() for it in new.rstrip(" \t)").split(",")]
            if ";" not in new and "[" not in new:
                given = [it for it in parts if it[:1].isalpha() and it not in ("true", "false")]
                new = f"{', '.join(it for it in parts if it not in given)}; {', '.join(given)})"
            yield Slip((first.at, self.row.end, new), "write the arguments alone, in the order of the parameters")
        texts = [it.text for it in self.tokens]
        if texts.count("(") == 1 and texts[-1] == ")" and mark.text != ")":
            opening, closing = self.tokens[texts.index("(")], self.tokens[-1]
            parts = re.split(r"[,;](?![^\[]*\])", self.script.text[opening.end : closing.at])
            parts = [it.strip() for it in parts if it.strip()]
            names = [it for it in parts if it[0].isalpha() and it not in ("true", "false")]
            values = ", ".join(it for it in parts if it not in names)
            edit = (opening.end, closing.at, f"{values}; {', '.join(names)}")
            yield Slip(edit, "write the values before the `;`, and the names of contracts behind it")

    def of_parentheses(self):
        """Arguments without parentheses."""
        rest = [it for it in self.tokens[self.count :] if it.text not in ",;()"]
        names = [it.text for it in rest if it.kind == "word" and it.text not in ("true", "false")]
        values = [it.text for it in rest if it.text not in names]
        new = f"({', '.join(values)}; {', '.join(names)})".replace("; )", ";)")
        return Slip((self.at(-1).end, self.row.end, new), f"write `{self.at(-1).text}{new}`")

    def of_signs(self):
        """Each token that may stand, put in before the marked one, and a sign in place of another one."""
        mark, before = self.marked, self.at(-1)
        for it in sorted(self.wanted - PUT_IN.keys() - {"true", "false", "-", "["}, key=lambda it: (it != ";", it)):
            edit = (before.end, before.end, f" {it} " if it[0].isalpha() else it)
            yield Slip(edit, f"write `{it}` behind `{before.text}`")
            if mark.text and mark.text in ",;:()[]{}=|/&" and not it[0].isalpha():
                yield Slip((mark.at, mark.end, it), f"write `{it}` in place of `{mark.text}`")

    def mends(self):
        over = handed(self)
        if over:
            return [*over, *self.instead()]
        if self.is_part():
            return self.of_part()
        if self.is_number():
            return self.of_digits()
        slips = (it._replace(edit=self.apart(it.edit)) for it in self.slips())
        found = next((it for it in slips if self.has_form(it.edit)), None) or self.first_of_several()
        return [mend(found.mend, found.edit)] if found else self.instead()

    def apart(self, edit):
        """Gives an edit with a blank where it would make one word of two."""
        (start, end, new), text = edit, self.script.text
        before, behind = text[start - 1 : start] if start else "", text[end : end + 1]
        if new and "".join((before, new[0])).isalnum() and before:
            new = f" {new}"
        if not new and before.isalnum() and behind.isalnum():
            new = " "
        return start, end, new

    def first_of_several(self):
        """Gives the first slip of a line that has more: with its edit at least two tokens more are read."""
        sure = (self.of_forms, self.of_starts, self.of_spelling)
        for it in (slip for way in sure for slip in way()):
            start, end, new = it.edit
            line = self.script.text[self.row.at : start] + new + self.script.text[end : self.row.end]
            if "\n" in new or not line.strip():
                continue
            tokens = scripts.Line(self.row.number, 0, line).tokens
            if not tokens or tokens[0].text not in self.words:
                continue
            count, _ = self.grammar.read(tokens, "line")
            if len(tokens) - count + 1 < len(self.tokens) - self.count:
                return it
        return None

    def of_spelling(self):
        """Words of the language that are spelt in another way."""
        mark = self.marked
        if mark.kind == "word" and not self.wanted & {"NAME", "N"}:
            for it in nearest(mark.text, {word for word in self.wanted if word[0].isalpha()} - PUT_IN.keys()):
                yield Slip((mark.at, mark.end, it), f"write `{it}` in place of `{mark.text}`")

    def said(self):
        """Gives a line on the tokens that may stand at the marked one."""
        words = self.grammar.said(self.wanted) + (["the end of the line"] if self.may_end else [])
        return [f"here may stand: {', '.join(words)}"] if words else []

    def of_batch(self):
        """Gives what is said of a line that has a form and may not stand here."""
        if self.row.word == "begin" and not self.is_inside and len(self.tokens) == 1:
            return self.row.tokens[0].at, "script Syntax begin", self.closed()
        word = self.row.word
        if self.tokens and not self.count and word in INSIDE + OUTSIDE:
            return self.tokens[0].at, "script Syntax batch", [*self.parted(), *self.said()]
        return None

    def closed(self):
        """Gives a line on the `end` that a batch lacks, where all lines up to the last one may stand in it."""
        last = [it for it in self.script.rows if it.tokens][-1]
        edit = (last.end, last.end, "\nend")
        does = self.goes_through(edit)
        return [mend(f"write `end` on a line behind line {last.number}", edit)] if does else []

    def parted(self):
        """Gives a line on where this line stands instead: a deposit before the batch, a `show` or a `begin` behind it,
        and an `end` nowhere."""
        rows, line, row = self.script.rows, joined(self.tokens), self.row
        begin = next((it for it in rows[: row.number][::-1] if it.word == "begin" and it is not row), None)
        end = next((it for it in rows[row.number :] if it.word == "end"), None)
        out = (row.at, min(row.end + 1, self.script.size), "")
        tries = []
        if row.word == "deposit" and begin:
            said = f"write this line before the `begin` in line {begin.number}"
            tries.append(((out, (begin.at, begin.at, f"{line}\n")), said))
        if row.word == "show" and end:
            said = f"write this line behind the `end` in line {end.number}"
            tries.append(((out, (end.end, end.end, f"\n{line}")), said))
        if row.word in ("show", "deposit") and self.is_inside and not end:
            tries.append((((row.at, row.at, "end\n"),), "write `end` on a line before it"))
        if row.word == "begin" and self.is_inside:
            tries.append((((row.at, row.at, "end\n"),), "write `end` on a line before it"))
        if row.word == "end":
            tries.append(((out,), "take this `end` out, since no `begin` stands before it"))
        return [mend(said, *edits) for edits, said in tries if self.goes_through(*edits)][:1]

    def goes_through(self, *edits):
        """Whether the program reads a script with edits, or refuses it behind this line."""
        answer = self.program.run(b"", self.script.edited(*edits), seconds=5)
        if answer is None:
            return False
        return answer.words[:3] != ["script", "refused", "Syntax"] or int(answer.words[3]) > self.row.number

    def of_limit(self):
        """Gives the first token that is more than a script may have, with what is said of it."""
        if self.count < len(self.tokens) or not self.may_end:
            return None
        is_sum = self.row.word == "deposit"
        deep = 0
        for before, it in zip([None, *self.tokens], self.tokens):
            deep += (it.text == "[") - (it.text == "]")
            most = MOST_UNITS if is_sum else MOST_NUMBER - (not before or before.text != "-")
            if it.kind == "word" and len(it.text) > MOST_BYTES:
                return it.at, [f"see: it has {len(it.text)} bytes, and a name has at most {MOST_BYTES}"]
            if it.kind == "number" and (len(it.text) > 4000 or int(it.text) > most):
                return it.at, [f"see: {most} is the most that stands here"]
            if deep > MOST_DEEP:
                return it.at, [f"see: lists stand at most {MOST_DEEP} deep in one another"]
        return self.tokens[0].at, ["see: a list of this line weighs more than 10000"] if "[" in self.row.text else []

    def explained(self):
        batch = self.of_batch()
        if batch:
            return batch
        limit = self.of_limit()
        if limit:
            return limit[0], "script Syntax limit", limit[1]
        return self.marked.at, "script Syntax", [*self.mends(), *self.said()]


def explained(program, script, answer, grammar, codes=None):
    """Gives what was found. The processes of the contract are there where they are known."""
    cause = " ".join(answer.words[:1] + answer.words[2:3])
    if cause != "script Syntax":
        at = script.row(int(answer.words[3])).at if answer.words[3:] else 1_048_576
        return Found(script, at, cause, cause, [], answer.words)
    at, row, lines = Line(program, script, int(answer.words[3]), grammar, codes).explained()
    return Found(script, at, cause, row, lines, answer.words)
