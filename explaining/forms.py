"""Slips in a line of a script that has all it needs, in another form: as other languages would have it."""
from typing import NamedTuple

from .mends import mend
from .numbers import PARTED, in_digits
from .syntax import distance
from .texts import joined, listed

# How many lines are looked at behind one that may go on there.
MOST_ROWS = 4
# How a value of a kind is named, and one of it.
KINDS = {"int": ("a number", "0"), "bool": ("`true` or `false`", "true"), "list": ("a list", "[]")}
# The first words of lines by those that others have for them, and what stands in for a line that there is none of.
WORDS = {
    **dict.fromkeys(("account", "fund", "faucet", "credit", "topup", "give", "mint", "load"), "deposit"),
    **dict.fromkeys(("commit", "submit", "done", "finish", "stop", "endbatch"), "end"),
    **dict.fromkeys(("batch", "start", "transaction", "atomic", "open"), "begin"),
    **dict.fromkeys(("print", "state", "balances", "balance", "status", "dump", "ledger", "display"), "show"),
}
INSTEAD = {
    **dict.fromkeys(("transfer", "pay", "move", "send"), "gas goes from one account to another through a contract"
                    " alone, as docs/COINS.md says; a `deposit` is new gas"),
    **dict.fromkeys(("withdraw", "burn", "refund"), "nothing takes gas out of an account but what a transaction"
                    " spends"),
    **dict.fromkeys(("assert", "expect", "check", "require"), "what is due of a line stands behind it, in a comment as"
                    " `//! result 7`, and nomos-test compares it"),
    **dict.fromkeys(("import", "include", "use", "source"), "the contract is named in the words of the call"),
    **dict.fromkeys(("sleep", "wait", "advance"), "there is no time; a line is run behind the one before"),
    **dict.fromkeys(("if", "else", "for", "while", "repeat", "match", "case"), "each line is run once, and what is done"
                    " only sometimes, or often, is what a transaction of the contract does"),
    **dict.fromkeys(("type", "fn", "proc", "def", "func", "function"), "declarations stand in the contract"),
}
STARTS = ("begin", "end", "exec", "let", "show", "deposit")
RESERVED = ("deposit", "let", "new", "exec", "begin", "end", "show", "true", "false")
# Words that others put before an account.
SMALL = ("as", "by", "from", "for", "with", "account", "contract", "on", "to")
# The brackets that others have around a list, and how many numbers are written out.
BRACKETS = {"{": "}", "(": ")", "<": ">", "[": "]"}
MOST_ROW, MOST_TIMES = 50, 20
# The truth values by the words that others have for them.
TRUTHS = {
    **dict.fromkeys(("yes", "y", "on", "t", "true", "ok"), "true"),
    **dict.fromkeys(("no", "n", "off", "f", "false", "not"), "false"),
}
ADDED = {"+": int.__add__, "-": int.__sub__, "*": int.__mul__}


class Slip(NamedTuple):
    """An edit, and what it is in words."""

    edit: tuple
    mend: str


class Forms:
    """What is found of the tokens around the marked one, by the class that is made of this one."""

    def of_forms(self):
        ways = (self.of_ends, self.of_small_letters, self.of_case, self.of_accounts, self.of_several, self.of_rows)
        ways = (*ways, self.of_left_out, self.of_dots)
        ways = (self.of_deposits, self.of_amounts, self.of_names, self.of_inner, self.of_first_words, *ways)
        ways = (*ways, self.of_words, self.of_given_behind, self.of_makes, self.of_payers, self.of_calls)
        for way in (*ways, self.of_brackets, self.of_tails, self.of_lists, self.of_numbers, self.of_terms):
            yield from way()

    def of_small_letters(self):
        """Words of the language in great letters, in this line and in others."""
        rows = [it for it in self.script.rows[self.row.number - 1 :] if it.word.lower() in STARTS]
        rows = [it for it in rows if it.word not in STARTS]
        if self.count or len(rows) < 2 or rows[0] is not self.row:
            return
        new, done = "", self.row.at
        for it in rows:
            line = self.script.text[it.at : it.end]
            for token in (token for token in it.tokens[::-1] if token.text.lower() in RESERVED):
                line = line[: token.at - it.at] + token.text.lower() + line[token.end - it.at :]
            new += self.script.text[done : it.at] + line
            done = it.end
        words = f"write the words of the language in {len(rows)} lines in small letters"
        yield Slip((self.row.at, done, new), words)

    def of_case(self):
        """Words of the language in great letters."""
        great = [it for it in self.tokens if it.text != it.text.lower() and it.text.lower() in RESERVED]
        if len(great) > 1 and great[0] is self.marked:
            new = self.row_text()
            for it in great[::-1]:
                new = new[: it.at - self.row.at] + it.text.lower() + new[it.end - self.row.at :]
            said = " and ".join(f"`{it.text.lower()}` in place of `{it.text}`" for it in great)
            yield Slip((self.row.at, self.row.end, new), f"write {said}")

    def of_ends(self):
        """A sign at the end of this line, and of others; a brace that closes a batch."""
        mark, last = self.marked, self.tokens[-1]
        if self.is_inside and mark.text == "}" and mark is last and not self.count:
            yield Slip((mark.at, mark.end, "end"), "write `end` in place of `}`")
        rows = [it for it in self.script.rows[self.row.number - 1 :] if it.tokens and it.tokens[-1].text == mark.text]
        if mark is last and mark.text in (";", ",", ".") and len(rows) > 1 and self.may_end:
            new, done = "", mark.at
            for it in rows:
                new += self.script.text[done : it.tokens[-1].at]
                done = it.tokens[-1].end
            words = f"take the `{mark.text}` at the end of {len(rows)} lines out"
            yield Slip((mark.at, done, new), words)

    def of_rows(self):
        """A line that goes on in the next one, and two lines in one."""
        mark, row = self.marked, self.row
        if self.count and (not mark.kind or mark.text == "\\"):
            tokens = list(row.tokens)
            for further in self.script.rows[row.number : row.number + MOST_ROWS]:
                tokens = [it for it in (*tokens, *further.tokens) if it.text != "\\"]
                mend = f"write what stands up to line {further.number} on this one line"
                yield Slip((row.at, further.end, joined(tokens)), mend)
        texts = [it.text for it in self.tokens]
        ends = (*STARTS, ")", "}", ";")
        starts = [at for at, it in enumerate(texts) if it in STARTS and (not at or texts[at - 1] in ends)]
        if len(starts) > 2 and starts[0] == 0:
            rows = [joined(self.tokens[at:end]).rstrip(";") for at, end in zip(starts, [*starts[1:], len(texts)])]
            said = ", ".join(f"`{it}`" for it in rows)
            yield Slip((row.at, row.end, "\n".join(rows)), f"write {said}, each on a line of its own")
        words = ("begin", "let", "exec", "deposit", "show") if texts[:1] == ["end"] else self.words
        if self.count and self.may_end and mark.text in words:
            yield Slip((mark.at, mark.at, "\n"), f"write this `{mark.text}` and what stands behind it on another line")

    def instead(self):
        """Gives a line on what stands in for a line that there is none of."""
        word = self.marked.text.lower()
        if self.of_due():
            return self.of_due()
        return [f"see: there is no `{word}`: {INSTEAD[word]}"] if not self.count and word in INSTEAD else []

    def of_dots(self):
        """Slips with a dot between two names: an account or a contract before what is run or given."""
        mark, before, behind = self.marked, self.at(-1), self.at(1)
        if not self.count and behind.text == "." and mark.text in self.accounts():
            name = self.at(2).text
            mend = f"write `exec {mark.text} {name}` in place of `{mark.text}.{name}`"
            yield Slip((mark.at, self.at(2).end, f"exec {mark.text} {name}"), mend)
        if mark.text != "." or before.kind != "word" or behind.kind != "word":
            return
        if before.text in self.made() and self.wanted == {"("} and self.at(2).text == "(":
            mend = f"take `{before.text}.` out, and write `{before.text}` among the names of contracts, behind the `;`"
            inside = joined(self.tokens[self.count + 3 :])[:-1].rstrip()
            sign = "; " if ";" not in inside else " " if inside[-1] == ";" else ", "
            yield Slip((before.at, self.row.end, f"{behind.text}({inside}{sign}{before.text})"), mend)
        if before.text in self.made() and self.wanted == {"("} and not self.at(2).kind:
            new = f"{behind.text}(; {before.text})"
            yield Slip((before.at, behind.end, new), f"write `{new}` in place of `{before.text}.{behind.text}`")
        yield Slip((before.at, mark.end, ""), f"take `{before.text}.` out")

    def of_accounts(self):
        """An account where a value is wanted, which its number is."""
        mark, known = self.marked, self.script.accounts(self.row.number)
        if "NUMBER" in self.wanted and mark.text in known and mark.text not in self.made():
            number = str(known.index(mark.text))
            mend = f"write `{number}` in place of `{mark.text}`, which is the number of this account"
            yield Slip((mark.at, mark.end, number), mend)
        if mark.text in ("\"", "'") and self.at(1).text in known and self.at(2).text == mark.text:
            number = str(known.index(self.at(1).text))
            said = f"`{self.script.text[mark.at : self.at(2).end]}`, since there are no texts"
            mend = f"write `{number}`, which is the number of the account `{self.at(1).text}`, in place of {said}"
            yield Slip((mark.at, self.at(2).end, number), mend)
        payer = self.payer()
        if "NUMBER" in self.wanted and mark.text == "me" and payer in known and "me" not in self.made():
            number = str(known.index(payer))
            mend = f"write `{number}` in place of `me`, which is the number of the account `{payer}` that pays here"
            yield Slip((mark.at, mark.end, number), mend)

    def one_account(self):
        """Gives the account of the script, where there is one alone."""
        known = self.script.accounts(len(self.script.rows) + 1)
        return known[0] if len(known) == 1 else ""

    def payer(self):
        """Gives the name of the account that pays for the line, where it stands at its place."""
        texts = [it.text for it in self.tokens]
        at = 1 if texts[:1] == ["exec"] else texts.index("new") + 1 if "new" in texts else len(texts)
        return texts[at] if at < len(texts) else ""

    def made(self):
        """Gives the names that the lines of the script give to contracts."""
        return {it.tokens[1].text for it in self.script.rows if it.word == "let" and len(it.tokens) > 1}

    def of_first_words(self):
        """Slips at the first word of a line, and in what a `deposit` and a bound result have."""
        mark, texts = self.marked, [it.text for it in self.tokens]
        if texts[:1] == ["deposit"] and self.wanted == {"N"} and mark.kind == "word" and len(texts) == 3:
            yield Slip((mark.at, mark.end, "0"), f"write a number of units in place of `{mark.text}`")
        if texts[:1] == ["deposit"] and self.wanted == {"N"} and not mark.kind:
            mend = f"write `{joined(self.tokens)} ..`, with the number of units"
            yield Slip((self.row.end, self.row.end, " 0"), mend)
        is_before = not self.count and texts[1:2] and texts[1] in self.words and mark.text not in self.accounts()
        if is_before and (mark.kind == "number" or texts[1] != "exec"):
            yield Slip((mark.at, self.tokens[1].at, ""), f"take `{mark.text}` out")
        yield from self.of_unpaid()
        other = WORDS.get(mark.text.lower()) if not self.count else None
        if other in self.words and texts[1:2] in (["exec"], ["let"], ["begin"]):
            yield Slip((mark.at, self.tokens[1].at, ""), f"take `{mark.text}` out")
        if other in self.words:
            yield Slip((mark.at, mark.end, other), f"write `{other}` in place of `{mark.text}`")
            yield Slip((mark.at, self.row.end, other), f"write `{other}` alone on this line")
        if not self.count and texts[1:2] == ["="] and texts[2:3] == ["exec"]:
            said = joined(self.tokens[:2])
            yield Slip((mark.at, self.tokens[2].at, ""), f"take `{said}` out, since results stand in the report alone")

    def of_unpaid(self):
        """A transaction behind another word than `exec`, or behind none, without the account that pays."""
        texts, processes = [it.text for it in self.tokens], self.codes.processes if self.codes else {}
        at = next((at for at in (0, 1) if texts[at + 1 : at + 2] == ["("] and texts[at] in processes), None)
        if self.count or at is None or processes[texts[at]].mode != "T" or texts[0] in (*STARTS, *self.accounts()):
            return
        one, known = self.one_account(), self.script.accounts(self.row.number)
        old = f" in place of `{texts[0]}`" if at else f" before `{texts[0]}`"
        said = f"write `exec {one}`{old}" if one else f"write `exec ..`{old}, with the account that pays"
        new = f"exec {one or (known[0] if known else 'x')} "
        yield Slip((self.tokens[0].at, self.tokens[at].at, new), said)

    def of_names(self):
        """A name with a hyphen in it, or with a number before it."""
        mark, before, behind = self.marked, self.at(-1), self.at(1)
        is_tight = before.end == mark.at and mark.end == behind.at and before.kind == "word"
        if mark.text == "-" and is_tight and behind.kind in ("word", "number"):
            new, old = f"{before.text}_{behind.text}", f"{before.text}-{behind.text}"
            yield Slip((before.at, behind.end, new), f"write `{new}` in place of `{old}`, here and wherever it stands")
        texts, known = [it.text for it in self.tokens], self.script.accounts(self.row.number)
        if texts[:2] == ["let", "="] and self.count == 1:
            yield Slip((mark.at, mark.at, "x "), "write `let .. =`, with a name for the contract")
        is_payer = texts[: self.count] in (["exec"], [*texts[:2], "=", "new"]) and self.wanted == {"NAME"}
        if is_payer and mark.kind == "number" and int(mark.text[:9]) < len(known):
            new = known[int(mark.text[:9])]
            yield Slip((mark.at, mark.end, new), f"write `{new}` in place of `{mark.text}`, which is its number")
        is_all = ";" in texts and "[" in texts[: self.count] and texts[-2:] == ["]", ")"]
        if is_all and texts[texts.index("[") - 1] == "(":
            opening = self.tokens[texts.index("[")]
            inside = self.script.text[opening.end : self.tokens[-2].at]
            yield Slip((opening.at, self.tokens[-2].end, inside), "take the `[` and the `]` out")
        if mark.kind == "number" and self.wanted == {"NAME"} and behind.kind == "word" and mark.end == behind.at:
            new, old = f"{behind.text}{mark.text}", f"{mark.text}{behind.text}"
            yield Slip((mark.at, behind.end, new), f"write `{new}` in place of `{old}`, here and wherever it stands")

    def of_deposits(self):
        """Several deposits in one line."""
        texts = [it.text for it in self.tokens]
        pairs = [it for it in texts[1:] if it not in (",", ";", "and", "deposit", "&", "to", ":", "=")]
        is_row = texts[:1] == ["deposit"] and len(pairs) > 3 and len(pairs) % 2 == 0
        if texts[:1] == ["deposit"] and len(texts) == 4 and texts[1] in SMALL and texts[3].isdecimal():
            yield Slip((self.tokens[1].at, self.tokens[2].at, ""), f"take `{texts[1]}` out")
        if texts[:1] == ["deposit"] and len(pairs) > 2 and pairs[-1].isdecimal() and set(texts) & {"and", ",", "&"}:
            if all(it.isidentifier() for it in pairs[:-1]):
                pairs, is_row = [it for name in pairs[:-1] for it in (name, pairs[-1])], True
        if is_row and all(it.isidentifier() and other.isdecimal() for it, other in zip(pairs[::2], pairs[1::2])):
            rows = [f"deposit {it} {other}" for it, other in zip(pairs[::2], pairs[1::2])]
            said = " and ".join(f"`{it}`" for it in rows)
            yield Slip((self.row.at, self.row.end, "\n".join(rows)), f"write {said}, each on a line of its own")

    def of_amounts(self):
        """What stands around the units of a `deposit`, and a deposit that is written like a value."""
        mark, before, texts = self.marked, self.at(-1), [it.text for it in self.tokens]
        if not self.count and mark.kind == "word" and texts[1:2] == ["="] and texts[3:] == [] and texts[2:3] and \
                texts[2].isdecimal():
            new = f"deposit {mark.text} {texts[2]}"
            yield Slip((self.row.at, self.row.end, new), f"write `{new}`")
        if texts[:1] == ["let"] and texts[2:4] == ["=", "deposit"] and texts[4:5] and texts[4].isdecimal():
            new = f"deposit {texts[1]} {texts[4]}"
            yield Slip((self.row.at, self.row.end, new), f"write `{new}`")
        if texts[:1] != ["deposit"] or self.count not in (2, 3):
            return
        numbers = [it for it in self.tokens[2:] if it.kind == "number"]
        if self.count == 2 and len(numbers) == 1 and numbers[0].at > mark.at:
            said = joined([it for it in self.tokens if mark.at <= it.at])
            new = numbers[0].text
            if "-" not in said and "." not in said:
                yield Slip((mark.at, self.row.end, new), f"write `{new}` in place of `{said}`")
        if self.count == 3 and mark.kind == "number" and mark.at > before.end:
            yield Slip((before.end, self.row.end, ""), f"take `{joined(self.tokens[3:])}` out")

    def of_inner(self):
        """A contract that is made among the arguments."""
        mark, before = self.marked, self.at(-1)
        processes = self.codes.processes if self.codes else {}
        if mark.text == "(" and before.text in processes and processes[before.text].mode == "S" and self.count > 3:
            end = self.tokens[self.closing(self.count)]
            made = self.script.text[before.at : end.end]
            words = f"write `let .. = new .. {made}` on a line before, with the account that pays behind `new`"
            yield Slip((before.at, end.end, "x"), f"{words} and a name for the contract, and this name here")

    def of_due(self):
        """What is asked of a result, which stands in a comment behind the line that emits it."""
        mark, last = self.marked, self.tokens[-1]
        rows = [it for it in self.script.rows[: self.row.number - 1] if it.word == "exec"]
        is_value = last.kind == "number" or last.text in ("true", "false")
        if self.count or mark.text.lower() not in ("assert", "expect", "check", "require") or not rows or not is_value:
            return []
        row = rows[-1]
        said = f"//! result {'-' if len(self.tokens) > 1 and self.tokens[-2].text == '-' else ''}{last.text}"
        edits = (row.end, row.end, f" {said}"), (self.row.at, min(self.row.end + 1, self.script.size), "")
        return [mend(f"write `{said}` behind line {row.number} in place of this line, for nomos-test", *edits)]

    def of_words(self):
        """Slips at the first words of a line, and with what a line is for."""
        mark, before, behind = self.marked, self.at(-1), self.at(1)
        texts = [it.text for it in self.tokens]
        if not self.count and mark.kind == "word" and behind.text in self.accounts() and texts[3:4] == ["("]:
            if mark.text != "new":
                yield Slip((mark.at, mark.end, "exec"), f"write `exec` in place of `{mark.text}`")
        other = WORDS.get(mark.text.lower()) if not self.count else None
        if mark.text + behind.text in ("/*", "--") and mark.end == behind.at:
            sign = mark.text + behind.text
            yield Slip((mark.at, behind.end, "//"), f"begin a comment with `//` in place of `{sign}`")
        if not self.count and mark.text in self.accounts() and behind.text in (":", ","):
            new = f"exec {mark.text}"
            yield Slip((mark.at, behind.end, new), f"write `{new}` in place of `{mark.text}{behind.text}`")
        if before.text == "deposit" and mark.text == "(" and self.tokens[-1].text == ")":
            new = " ".join(it.text for it in self.tokens if it.text not in ("(", ",", ")"))
            yield Slip((self.row.at, self.row.end, new), f"write `{new}`")
        if not self.count and texts[1:3] == ["=", "new"]:
            yield Slip((mark.at, mark.at, "let "), f"write `let` before `{mark.text}`")
        if self.wanted == {"new"} and (mark.kind == "number" or mark.text in ("true", "false", "-", "[")):
            value = self.script.text[mark.at : self.tokens[-1].end]
            mend = f"take this line out, and write `{value}` where `{self.at(-2).text}` is meant"
            yield Slip((self.row.at, self.row.end, ""), mend)
        if mark.text == "(" and self.wanted == {"NAME"} and texts[-2:-1] in (["by"], ["as"], ["from"]):
            end, account = self.tokens[-3], self.tokens[-1].text
            new = f"{account} {self.script.text[before.at : end.end]}"
            yield Slip((before.at, self.row.end, new), f"write `{self.tokens[0].text} {new}`, the account first")
        if before.text == "new" and mark.kind == "word" and "(" in texts[: self.count]:
            end = self.closing(self.count)
            made = joined(self.tokens[self.count - 1 : end + 1])
            mend = f"write `let .. = {made}` on a line before, with the account that pays behind `new` and a name for "
            yield Slip((before.at, self.tokens[end].end, "x"), f"{mend}the contract, and this name here")

    def of_left_out(self):
        """A line that ends before it says what is run."""
        processes = self.codes.processes.values() if self.codes else ()
        mode = "T" if self.tokens[0].text == "exec" else "S"
        names = [it.name for it in processes if it.mode == mode]
        if self.wanted == {"NAME"} and not self.marked.kind and names:
            before = self.at(-1).text
            said = f"write `{before} ..(..)`, with what is run: {listed(names)}"
            yield Slip((self.row.end, self.row.end, f" {names[0]}(;)"), said)

    def of_several(self):
        """Several contracts that one line makes."""
        texts = [it.text for it in self.tokens]
        if texts[:1] == ["let"] and self.marked.text == "," and "=" in texts:
            equal = texts.index("=")
            names = [it.text for it in self.tokens[1:equal] if it.kind == "word"]
            rows = [f"let {it} = {part}" for it, part in zip(names, self.parted_by(equal + 1, len(names)))]
            said = " and ".join(f"`{it}`" for it in rows)
            yield Slip((self.row.at, self.row.end, "\n".join(rows)), f"write {said}, each on a line of its own")

    def paying(self):
        """Gives `new` with the account that pays, and what is said of that where there is more than one."""
        one = self.one_account()
        return (f"new {one}", "") if one else ("new ..", ", with the account that pays")

    def parted_by(self, start, count):
        """Gives the parts of the line from a token on that have a comma between them, or so often all of it."""
        parts, depth = [[]], 0
        for it in self.tokens[start:]:
            depth += (it.text in ("(", "[")) - (it.text in (")", "]"))
            if it.text == "," and depth == 0:
                parts.append([])
            else:
                parts[-1].append(it)
        said = [joined(it) for it in parts]
        return said if len(said) == count else [joined(self.tokens[start:])] * count

    def of_given_behind(self):
        """The contracts behind the parentheses, as in `f(7) on c`."""
        texts = [it.text for it in self.tokens]
        closing = texts.index(")") if ")" in texts else len(texts)
        names = [it for it in texts[closing + 2 :] if it not in (",", "and", ")")]
        signs = (*SMALL, "at", "in", "using", "of", "over", ";", ",", "(")
        is_given = texts[closing + 1 : closing + 2] and texts[closing + 1] in signs
        opening = texts.index("(") if "(" in texts[:closing] else len(texts)
        if is_given and names and set(names) <= self.made() and self.count >= opening:
            inside = joined(self.tokens[opening + 1 : closing]).strip("; ")
            new = f"({inside}; {', '.join(names)})"
            said = joined(self.tokens[closing + 1 :])
            edit = (self.tokens[opening].at, self.row.end, new)
            yield Slip(edit, f"write `{new}`, with what `{said}` names behind the `;`")

    def of_makes(self):
        """A contract that is made by other words than `let .. = new ..`, or has its type before its name."""
        mark, before, behind = self.marked, self.at(-1), self.at(1)
        texts = [it.text for it in self.tokens]
        if not self.count and mark.text == "new" and texts[2:3] == ["("]:
            one, name = self.one_account(), self.script.unmade(self.row.number)
            said = f"`let {name or '..'} = new {one or '..'}` in place of `new`"
            said += "" if name else ", with a name for the contract"
            said += "" if one else ", and the account that pays"
            yield Slip((mark.at, mark.end, f"let {name or 'x'} = new {one or 'x'}"), f"write {said}")
        if self.wanted == {"new"} and mark.text in self.accounts():
            yield Slip((mark.at, mark.at, "new "), f"write `new` before `{mark.text}`")
        if self.wanted == {"new"} and mark.text != "exec" and behind.kind == "word" and texts[5:6]:
            is_paid = texts[5] != "("
            said, why = ("new", "") if is_paid else self.paying()
            yield Slip((mark.at, mark.end, said.replace("..", "x")), f"write `{said}` in place of `{mark.text}`{why}")
        if self.wanted == {"="} and before.kind == mark.kind == "word" and behind.text == "=":
            yield Slip((before.at, mark.at, ""), f"take `{before.text}` out, since a contract gets a name alone")
        if not self.count and texts[2:3] == ["="] and "(" in texts[4:]:
            rest = [it for it in self.tokens[3:] if it.text != "new"]
            has_account = len(rest) > 2 and rest[1].kind == "word"
            new, why = ("new", "") if has_account else self.paying()
            said = f"let {texts[1]} = {new} {rest[0].text}"
            mend = f"write `{said}` in place of `{joined(self.tokens[: self.tokens.index(rest[0]) + 1])}`"
            edit = (mark.at, rest[0].end, said.replace("..", "x"))
            yield Slip(edit, f"{mend}{why}")

    def of_tails(self):
        """What stands behind a whole line: another thing to run, how often it is run, and a name for its result."""
        mark, before, row = self.marked, self.at(-1), self.row
        if not self.may_end or before.text != ")" or self.tokens[0].text not in ("exec", "let"):
            return
        rest = [it for it in self.tokens if it.at >= mark.at]
        further = next((at for at, it in enumerate(rest) if it.text in ("exec", "let")), 0)
        if 0 < further < 4 and rest[-1].text == ")":
            new = f"{joined(self.tokens[: self.count])}\n{joined(rest[further:])}"
            yield Slip((row.at, row.end, new), f"write `{joined(rest[further:])}` on a line of its own")
        texts, line = [it.text for it in rest], joined(self.tokens[: self.count])
        is_more = texts[1:] and texts[0] in (",", "&", "and", "then", "+") and texts[-1] == ")"
        if self.tokens[0].text == "exec" and is_more:
            payer = joined(self.tokens[:2])
            new = "\n".join([line, f"{payer} {joined(rest[1:])}"])
            yield Slip((row.at, row.end, new), f"write `{payer} {joined(rest[1:])}` on a line of its own")
        number = next((it for it in texts if it.isdecimal()), "")
        is_times = len(texts) < 4 and texts[0] in ("*", "x", "times", "for", "repeat")
        if self.tokens[0].text == "exec" and is_times and number and 0 < int(number) <= MOST_TIMES:
            yield Slip((row.at, row.end, "\n".join([line] * int(number))), f"write this line {number} times")
        if texts[0] in ("-", "=", ">", ":", "into", "as", "to") and len(texts) < 5:
            said = self.script.text[mark.at : rest[-1].end]
            yield Slip((before.end, row.end, ""), f"take `{said}` out, since results stand in the report alone")

    def of_payers(self):
        """Several accounts before what is run, and a contract between the account and what is run."""
        mark, before, behind = self.marked, self.at(-1), self.at(1)
        opening = next((at for at, it in enumerate(self.tokens) if it.text == "("), 0)
        if mark.text == "," and self.tokens[0].text == "exec" and self.wanted == {"NAME"} and opening > self.count:
            accounts = [it.text for it in self.tokens[1 : opening - 1] if it.kind == "word"]
            call = joined(self.tokens[opening - 1 :])
            rows = [f"exec {it} {call}" for it in accounts]
            said = " and ".join(f"`{it}`" for it in rows)
            yield Slip((self.row.at, self.row.end, "\n".join(rows)), f"write {said}, each on a line of its own")
        processes = self.codes.processes if self.codes else {}
        small = self.at(-2)
        if self.wanted == {"("} and small.text in SMALL and mark.kind == "word" and before.text not in processes:
            yield Slip((small.at, before.at, ""), f"take `{small.text}` out")
        is_other = mark.text in processes and before.text not in processes and before.text not in self.made()
        if self.wanted == {"("} and is_other and behind.text == "(":
            yield Slip((before.at, mark.at, ""), f"take `{before.text}` out")
        if self.wanted == {"("} and before.text in self.made() and mark.kind == "word" and behind.text == "(":
            inside = joined(self.tokens[self.count + 2 :])[:-1].rstrip()
            sign = "; " if ";" not in inside else " " if inside[-1] == ";" else ", "
            mend = f"take `{before.text}` out, and write it among the names of contracts, behind the `;`"
            yield Slip((before.at, self.row.end, f"{mark.text}({inside}{sign}{before.text})"), mend)

    def of_calls(self):
        """A line that is written like a call, and one whose first words have changed places."""
        mark, texts = self.marked, [it.text for it in self.tokens]
        if self.tokens[0].text == "exec" and self.count == 1 and mark.text == "(" and texts[-1] == ")":
            parts = [it for it in self.tokens[2:-1] if it.text not in ",;"]
            names = [it.text for it in parts[2:] if it.kind == "word" and it.text not in ("true", "false")]
            values = [it.text for it in parts[2:] if it.text not in names]
            if len(parts) > 1:
                new = f"exec {parts[0].text} {parts[1].text}({', '.join(values)}; {', '.join(names)})"
                new = new.replace("; )", ";)")
                yield Slip((self.row.at, self.row.end, new), f"write `{new}`")
        if not self.count and mark.kind == "word" and texts[1:2] and distance(texts[1], "deposit") < 3:
            new = f"deposit {mark.text} {joined(self.tokens[2:])}".strip()
            yield Slip((self.row.at, self.row.end, new), f"write `{new}`")
        processes = self.codes.processes if self.codes else {}
        is_turned = mark.text in processes and texts[1:2] and texts[1] in self.accounts() and texts[2:3] == ["("]
        if not self.count and is_turned and processes[mark.text].mode == "T":
            new = f"exec {texts[1]} {mark.text}"
            said = f"write `{new}` in place of `{mark.text} {texts[1]}`"
            yield Slip((mark.at, self.tokens[1].end, new), said)
        payers = self.script.accounts(self.row.number)
        if not self.count and texts[1:2] == ["."] and mark.text in self.made() and texts[3:4] == ["("] and payers:
            inside = joined(self.tokens[4 : self.closing(3)]).rstrip("; ")
            new = f"{texts[2]}({inside}; {mark.text})"
            mend = f"write `exec .. {new}`, with the account that pays"
            if len(payers) == 1:
                mend = f"write `exec {payers[0]} {new}`"
            yield Slip((self.row.at, self.row.end, f"exec {payers[0]} {new}"), mend)
        if not self.count and texts[1:2] == ["exec"] and mark.text in self.accounts():
            new = f"exec {mark.text}"
            yield Slip((mark.at, self.tokens[1].end, new), f"write `{new}` in place of `{mark.text} exec`")

    def of_brackets(self):
        """Arguments in other brackets, or in none."""
        mark, before = self.marked, self.at(-1)
        texts = [it.text for it in self.tokens]
        signs = {"{": "}", "[": "]", "<": ">"}
        if self.wanted == {"("} and signs.get(mark.text) == texts[-1]:
            rows = [(it, texts[at + 1]) for at, it in enumerate(self.tokens[:-1]) if at > self.count]
            inside = joined([it for it, behind in rows if not {it.text, behind} & {":", "="}])
            parts = [it.strip() for it in inside.split(",") if it.strip()]
            names = [it for it in parts if it.isidentifier() and it not in ("true", "false")]
            values = [it for it in parts if it not in names]
            new = f"({inside})" if ";" in inside else f"({', '.join(values)}; {', '.join(names)})".replace("; )", ";)")
            mend = f"write `(` and `)` in place of `{mark.text}` and `{texts[-1]}`"
            yield Slip((mark.at, self.row.end, new), mend)
        is_ended = mark.text == ";" and mark is self.tokens[-1]
        if self.wanted == {"("} and (not mark.kind or is_ended):
            slip = self.of_no_arguments()
            yield slip._replace(edit=(slip.edit[0], self.row.end, slip.edit[2]))
        yield from self.of_names_given()
        yield from self.of_repeated()
        yield from self.of_signs_twice()
        yield from self.of_unparted()

    def of_names_given(self):
        """The names of contracts with something around them, or a number in the place of one."""
        mark, before = self.marked, self.at(-1)
        texts = [it.text for it in self.tokens]
        is_pair = before.kind == mark.kind == "word" and ";" in texts[: self.count] and mark.text in self.made()
        if is_pair and before.text not in self.made() and self.at(1).text in (",", ")"):
            yield Slip((before.at, mark.at, ""), f"take `{before.text}` out")
        is_name = self.wanted <= {"NAME", ")"} and ";" in texts[: self.count]
        process = self.codes.processes.get(texts[texts.index("(") - 1]) if self.codes and "(" in texts else None
        is_name = is_name and process is not None and process.of_kind("channel")
        is_name = is_name and (not process.of_kind("value") or texts[texts.index("(") + 1] != ";")
        if mark.kind == "number" and is_name and len(self.made()) == 1:
            one = next(iter(self.made()))
            yield Slip((mark.at, mark.end, one), f"write `{one}`, the name of the contract, in place of `{mark.text}`")
        if mark.text == ":" and before.text in self.made() and self.at(1).kind == "word":
            said = joined(self.tokens[self.count : self.count + 2])
            yield Slip((mark.at, self.at(1).end, ""), f"take `{said}` out")
        if mark.text in ("[", "(", "{") and ";" in texts[: self.count] and BRACKETS[mark.text] in texts[self.count :]:
            end = next(it for it in self.tokens[self.count :] if it.text == BRACKETS[mark.text])
            inside = self.script.text[mark.end : end.at].strip()
            old = self.script.text[mark.at : end.end]
            yield Slip((mark.at, end.end, inside), f"write `{inside}` in place of `{old}`")

    def of_unparted(self):
        """Values, or names of contracts, with nothing but blanks between them."""
        texts = [it.text for it in self.tokens]
        is_one = texts.count("(") == texts.count(")") == 1 and not set(texts) & {"[", "]", "-"}
        if not is_one or self.count < texts.index("("):
            return
        opening, closing = texts.index("("), texts.index(")")
        inside = texts[opening + 1 : closing]
        sides = " ".join(inside).split(";")
        parts = [it.replace(",", " ").split() for it in sides]
        lacking = sum(len(row) - 1 for row in parts if row) - inside.count(",")
        if len(sides) < 3 and lacking > 1 and all(it.isalnum() or it.isidentifier() for row in parts for it in row):
            new = f"({'; '.join(', '.join(row) for row in parts)})".replace("; )", ";)")
            edit = (self.tokens[opening].at, self.tokens[closing].end, new)
            yield Slip(edit, f"write `{new}` in place of `{self.script.text[edit[0] : edit[1]]}`")

    def of_repeated(self):
        """A line that is to be run so many times, or once for each number of a row."""
        texts = [it.text for it in self.tokens]
        at = texts.index("exec") if "exec" in texts else 0
        head, line = texts[:at], joined(self.tokens[at:]).rstrip("; }")
        numbers = [int(it) for it in head if it.isdecimal() and len(it) < 4]
        if self.count or not at or texts[0] not in ("repeat", "for", "loop", "times", "do"):
            return
        rows = []
        if len(numbers) == 1 and set(head) <= {*head[:1], str(numbers[0]), "times", ":", "{", "x", "do", "*"}:
            rows = [line] * numbers[0]
        elif len(numbers) == 2 and head[0] == "for" and head[2:3] in (["in"], ["="], ["from"]):
            last = numbers[1] + (".." not in "".join(head) and "to" not in head and "-" not in head)
            last -= head[3:5] == ["range", "("]
            places = [at + place for place, it in enumerate(texts[at:]) if it == head[1]]
            for number in range(numbers[0], min(last, numbers[0] + MOST_TIMES) + 1):
                tokens = [it._replace(text=str(number)) if place in places else it
                          for place, it in enumerate(self.tokens)]
                rows.append(joined(tokens[at:]).rstrip("; }"))
        if rows and len(rows) <= MOST_TIMES:
            said = f"`{rows[0]}` to `{rows[-1]}`" if rows[0] != rows[-1] else f"`{rows[0]}` {len(rows)} times"
            yield Slip((self.row.at, self.row.end, "\n".join(rows)), f"write {said}, each on a line of its own")

    def of_signs_twice(self):
        """Signs that stand twice, or at an end, and lists in other brackets or without commas."""
        mark, before = self.marked, self.at(-1)
        texts = [it.text for it in self.tokens]
        if mark.text in (",", ";", ")") and before.text in (",", ";") and mark.text + before.text != ");":
            it = before if mark.text == ")" else mark
            yield Slip((it.at, it.end, ""), f"take this `{it.text}` out")
        if mark.text == ";" and ";" in texts[: self.count] and before.kind == "word":
            mend = "write `,` in place of this `;`, since one alone parts values and names"
            yield Slip((mark.at, mark.end, ","), mend)
        if mark.text == "(" and "(" in texts[: self.count] and "NUMBER" in self.wanted:
            end = self.tokens[self.closing(self.count)]
            old = self.script.text[mark.at : end.end]
            if self.kind() in ("int", "bool") and "," not in old:
                yield Slip((mark.at, end.end, old[1:-1]), f"write `{old[1:-1]}` in place of `{old}`")
            yield Slip((mark.at, end.end, f"[{old[1:-1]}]"), f"write `[{old[1:-1]}]` in place of `{old}`")
        opening = next((at for at in range(self.count - 1, 0, -1) if texts[at] in ("[", "]")), 0)
        closing = next((at for at in range(self.count, len(texts)) if texts[at] in ("[", "]")), 0)
        if texts[opening] == "[" and closing and texts[closing] == "]":
            parts = [it for it in texts[opening + 1 : closing] if it not in (",", ";")]
            new = f"[{', '.join(parts)}]".replace("-, ", "-")
            old = joined(self.tokens[opening : closing + 1])
            yield Slip((self.tokens[opening].at, self.tokens[closing].end, new), f"write `{new}` in place of `{old}`")

    def of_no_arguments(self):
        """A process without parentheses, which go behind its name."""
        name = self.at(-1)
        process = self.codes.processes.get(name.text) if self.codes else None
        parameters = process.parameters if process else []
        if not parameters:
            return Slip((name.end, name.end, "(;)"), f"write `(;)` behind `{name.text}`")
        rows = [[it for it in parameters if (it.kind == "channel") == is_channel] for is_channel in (False, True)]
        said = f"({'..' if rows[0] else ''};{' ..' if rows[1] else ''})"
        values = ", ".join({"int": "0", "bool": "true"}.get(it.type, "[]") for it in rows[0])
        new = f"({values}; {', '.join('x' for _ in rows[1])})"
        listed = ", ".join(f"`{it.name}: {it.type}`" for it in parameters)
        return Slip((name.end, name.end, new), f"write `{said}` behind `{name.text}`, where {listed} stand")

    def of_other_lists(self):
        """A list in the brackets of other languages, and one that is told by its ends."""
        mark, before, texts = self.marked, self.at(-1), [it.text for it in self.tokens]
        if "NUMBER" in self.wanted and (mark.text in BRACKETS or mark.kind == "word"):
            opening = next((at for at in range(self.count, len(texts)) if texts[at] in (*BRACKETS, ",", ";")), 0)
            sign = BRACKETS.get(texts[opening])
            end = next((at for at in range(opening, len(texts)) if texts[at] == sign), 0)
            inside = joined(self.tokens[opening + 1 : end]).replace(";", ",").strip(", ")
            if sign and end and opening - self.count < 4:
                old = joined(self.tokens[self.count : end + 1])
                if self.kind() in ("int", "bool") and inside and "," not in inside:
                    yield Slip((mark.at, self.tokens[end].end, inside), f"write `{inside}` in place of `{old}`")
                yield Slip((mark.at, self.tokens[end].end, f"[{inside}]"), f"write `[{inside}]` in place of `{old}`")
        ends = [it for it in self.tokens[self.count :] if it.kind == "number"][:1]
        is_row = before.kind == "number" and ends and mark.text in (".", ":", "-") and self.at(-2).text == "["
        if is_row and int(before.text) <= int(ends[0].text) < int(before.text) + MOST_ROW:
            new = ", ".join(str(it) for it in range(int(before.text), int(ends[0].text) + 1))
            old = self.script.text[before.at : ends[0].end]
            yield Slip((before.at, ends[0].end, new), f"write `{new}` in place of `{old}`")

    def of_lists(self):
        """A list that is written as in a contract, with `::` and `nil`."""
        yield from self.of_other_lists()
        texts = [it.text for it in self.tokens]
        if "nil" not in texts[self.count :] or "(" not in texts[: self.count]:
            return
        start = next(at for at in range(self.count - 1, -1, -1) if texts[at] in ("(", ",")) + 1
        end = next((at for at in range(self.count, len(texts)) if texts[at] in (",", ";", ")")), len(texts))
        parts = joined(self.tokens[start : texts.index("nil")]).split("::")
        if texts.index("nil") < end:
            new = f"[{', '.join(it.strip() for it in parts if it.strip())}]"
            said = joined(self.tokens[start:end])
            yield Slip((self.tokens[start].at, self.tokens[end - 1].end, new), f"write `{new}` in place of `{said}`")

    def closing(self, at):
        """Gives the number of the token that closes the first parenthesis behind a token, or of the last one."""
        depth = 0
        for it in range(at, len(self.tokens)):
            depth += (self.tokens[it].text == "(") - (self.tokens[it].text == ")")
            if depth == 0 and self.tokens[it].text == ")":
                return it
        return len(self.tokens) - 1

    def of_numbers(self):
        """Numbers that are parted into thousands, or computed."""
        mark, before, behind = self.marked, self.at(-1), self.at(1)
        if before.kind != "number" or mark.text not in (",", "_", "'", *ADDED) and mark.kind != "word":
            return
        parts = [it for it in self.tokens[self.count - 1 :] if it.at >= before.at]
        ends = (at for at in range(1, len(parts)) if parts[at].at != parts[at - 1].end or parts[at].text in ";)]")
        end = next(ends, len(parts))
        said = joined(parts[:end])
        new = in_digits(said) if PARTED.fullmatch(said) else ""
        if mark.text not in ADDED and new:
            yield Slip((before.at, parts[end - 1].end, new), f"write `{new}` in place of `{said}`")
        if mark.text in ADDED and behind.kind == "number" and max(len(before.text), len(behind.text)) < 10:
            new = str(ADDED[mark.text](int(before.text), int(behind.text)))
            mend = f"write `{new}` in place of `{joined([before, mark, behind])}`, since nothing is computed here"
            yield Slip((before.at, behind.end, new), mend)

    def of_terms(self):
        """A name among the values that is no contract, where the names of contracts stand behind the `;`."""
        mark, made = self.marked, self.made()
        behind = [it for it in self.tokens if it.at > mark.at]
        names = {it.text for it in behind if it.kind == "word"}
        is_value = "NUMBER" in self.wanted and mark.kind == "word" and ";" in [it.text for it in behind]
        said, new = KINDS.get(self.kind(), ("a number, `true` or `false`, or a list,", "0"))
        turned = {"true": "false", "false": "true"}.get(self.at(1).text)
        if mark.text in ("!", "~", "not") and turned and "NUMBER" in self.wanted:
            old = joined(self.tokens[self.count : self.count + 2])
            yield Slip((mark.at, self.at(1).end, turned), f"write `{turned}` in place of `{old}`")
        truth = TRUTHS.get(mark.text.lower())
        if is_value and truth and self.kind() in ("bool", "") and mark.text not in made:
            yield Slip((mark.at, mark.end, truth), f"write `{truth}` in place of `{mark.text}`")
        if is_value and made and mark.text not in made and names <= made:
            yield Slip((mark.at, mark.end, new), f"write {said} in place of `{mark.text}`, which is no contract")
        end = self.script.text.find(mark.text, mark.end, self.row.end) if mark.text in ("\"", "'") else -1
        if end >= 0 and "NUMBER" in self.wanted:
            old = self.script.text[mark.at : end + 1]
            words = f"write {said} in place of `{old}`, since there are no texts"
            yield Slip((mark.at, end + 1, new), words)

    def kind(self):
        """Gives the first word of the kind of the value that is wanted at the marked token, where it is known."""
        texts = [it.text for it in self.tokens[: self.count]]
        if "(" not in texts:
            return ""
        opening = texts.index("(")
        process = self.codes.processes.get(texts[opening - 1]) if self.codes else None
        kinds = [it.type.split()[0] for it in process.parameters if it.kind == "value"] if process else []
        at, depth = 0, 0
        for it in texts[opening + 1 :]:
            depth += (it == "[") - (it == "]")
            at += it == "," and depth == 0
        return kinds[at] if at < len(kinds) and depth == 0 else ""
