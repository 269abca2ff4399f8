"""What is wrong where no contract goes on: the slip that was made, and an edit with which the text is read further."""
import re

from .comparisons import chained, written
from .habits import Habits
from .lasts import ended
from .mends import mend, says
from .renamed import fresh, places, uses
from .shapes import HEADS, KINDS, Slip
from .texts import Token, tokens_of

LETTERS = re.compile(r"[A-Za-z_0-9]")
PARTED = {"==": "=", "&&": " and ", "||": " or ", "!=": "=", "<=": "<", ">=": "<"}
# Rows that hold wherever these tokens may stand within a text.
SURE = (
    ("Syntax instruction", {"."}.__eq__), ("Syntax match", {"nil"}.__eq__), ("Syntax else", {"else"}.__eq__),
    ("Syntax declaration", set(HEADS).issubset),
)
# Rows of which the signs alone say what was meant.
CERTAIN = ("Syntax equality", "Syntax logic")
# How many tokens are looked at: of the declaration before the offence, and behind it.
BEFORE = 5_000
BEHIND = 400


def distance(one, other):
    """Gives how many letters are to be put in, taken out, changed, or changed with the next one."""
    rows = [list(range(len(other) + 1))]
    for i, letter in enumerate(one, 1):
        rows.append([i])
        for j, wanted in enumerate(other, 1):
            least = min(rows[i - 1][j] + 1, rows[i][j - 1] + 1, rows[i - 1][j - 1] + (letter != wanted))
            if i > 1 and j > 1 and letter == other[j - 2] and one[i - 2] == wanted:
                least = min(least, rows[i - 2][j - 2] + 1)
            rows[i].append(least)
    return rows[-1][-1]


def is_near(one, other):
    """Whether two words are one letter apart, or two where they are long enough for that."""
    if one.lower() == other.lower():
        return one != other
    least = min(len(one), len(other))
    return 0 < distance(one, other) <= (0 if least < 2 else 1 if least < 5 else 2)


def nearest(word, known):
    """Gives the words that are spelt nearly so, the nearest first."""
    return sorted((it for it in set(known) if is_near(word, it)), key=lambda it: (distance(word, it), it))


class Slips(Habits):
    """The text behind the head of the declaration that the offence stands in, and what was read of it."""

    def __init__(self, text, at, grammar):
        self.text, self.at, self.grammar = text, at, grammar
        marked = text.index_at(at)
        heads = [it for it in range(marked) if text.tokens[it].text in HEADS]
        self.start = text.tokens[heads[-1]].at if heads else 0
        self.tokens = text.tokens[heads[-1] if heads else 0 :]
        self.index = marked - (heads[-1] if heads else 0)
        count, self.ways = grammar.read(self.tokens[: self.index + 1]) if self.index < BEFORE else (-1, [])
        self.is_sure = count == self.index
        self.tokens = self.tokens[: self.index + BEHIND]
        self.end = self.tokens[-1].end if self.index + BEHIND == len(self.tokens) else text.size
        self.wanted = grammar.wanted(self.ways) if self.is_sure else set()
        self.marked = self.token(0)

    def token(self, step):
        """Gives the token so many behind the offence, or an empty one."""
        at = self.index + step
        return self.tokens[at] if 0 <= at < len(self.tokens) else Token("", "", self.text.size)

    def reach(self, edit):
        """Gives the offset up to which the text is read with an edit, or one past its end where all of it is."""
        start, end, new = edit
        edited = self.text.text[self.start : start] + new + self.text.text[end : self.end]
        tokens = tokens_of(edited)
        count, ways = self.grammar.read(tokens)
        moved = len(new) - (end - start)
        if count < len(tokens):
            return max(self.start + tokens[count].at - moved, start)
        is_whole = self.end < self.text.size or self.grammar.may_end(ways)
        return self.text.size + 1 if is_whole else self.text.size

    def goes_on(self, slip, tokens):
        """Whether the text is read with an edit, from the offence on, for more than so many tokens or to its end."""
        reached = self.reach(slip.edit)
        behind = self.token(tokens)
        return reached > (behind.at if behind.kind else self.text.size)

    def find(self):
        """Gives the first slip whose edit lets the text be read further."""
        if not self.is_sure:
            return None
        ways = (self.of_symbols, self.of_habits, self.of_words, self.of_places, self.of_heads, self.of_starts)
        for slip in (slip for way in ways for slip in way()):
            if self.goes_on(slip, 0 if slip.row in CERTAIN else 1):
                return slip
        found = [it for it in self.of_any() if self.goes_on(it, 6) or self.ends_declaration(it)]
        furthest = max((self.reach(it.edit) for it in found), default=0)
        best = [it for it in found if self.reach(it.edit) == furthest]
        return best[0] if len(best) == 1 or best and "`;`" in best[0].mend else None

    def ends_declaration(self, slip):
        heads = [it.at for it in self.tokens[self.index + 1 :] if it.text in HEADS]
        return self.reach(slip.edit) > (heads[0] if heads else self.text.size)

    def of_symbols(self):
        """Slips of which the symbols say what was meant."""
        yield from self.of_nothing()
        mark, before, behind = self.marked, self.token(-1), self.token(1)
        pair = before.text + mark.text if before.end == mark.at else ""
        ahead = mark.text + behind.text if mark.end == behind.at else ""
        for signs, at in ((pair, before.at), (ahead, mark.at)):
            third = next((it for it in self.tokens if it.at == at + 2), None)
            if signs == "==" and third and third.text == "=":
                yield Slip("Syntax equality", "write `=` in place of `===`", (at, at + 3, "="))
            if signs in ("==", "&&", "||"):
                row = "Syntax equality" if signs == "==" else "Syntax logic"
                yield Slip(row, f"write `{PARTED[signs].strip()}` in place of `{signs}`", (at, at + 2, PARTED[signs]))
            if signs in ("!=", "<=", ">=", "<>", "=<"):
                yield from self.of_comparison({"<>": "!=", "=<": "<="}.get(signs, signs), at)
            if signs in ("/*", "--") and not self.is_counted(at):
                yield from self.of_comment(signs, at)
        if mark.text == ">" or mark.text in ("<", "=") and "and" in self.wanted and chained(
                self.tokens, self.index, self.begins_term):
            yield from self.of_comparison(mark.text, mark.at)
        if mark.text == "!":
            yield Slip("Syntax logic", "write `not` in place of `!`", (mark.at, mark.end, " not "))
        if mark.text == "#":
            yield from self.of_comment("#", mark.at)

    def is_counted(self, at):
        """Whether the two signs at an offset stand behind the name of an instruction, and nothing behind them."""
        first = next(it for it, token in enumerate(self.tokens) if token.at == at)
        before, behind = self.text_at(first - 2), self.text_at(first + 2)
        return before in (";", "{", "=>", "=") and behind in (";", "}", "|")

    def of_comparison(self, sign, at):
        """A comparison by a sign of other languages, which begins at an offset."""
        first = next(it for it, token in enumerate(self.tokens) if token.at == at)
        found = chained(self.tokens, first, self.begins_term)
        found = found or written(self.tokens, first, sign, len(sign), self.begins_term)
        if found:
            new, start, end = found
            edit = (self.tokens[start].at, self.tokens[end - 1].end, new)
            old = self.text.text[edit[0] : edit[1]]
            yield Slip("Syntax comparison", f"write `{new}` in place of `{' '.join(old.split())}`", edit)
        yield Slip("Syntax comparison", "", (at, at + len(sign), PARTED.get(sign, "<")))

    def of_comment(self, sign, at):
        end = self.text.text.find("*/" if sign == "/*" else "\n", at + len(sign))
        end = self.text.size if end < 0 else end + 2 if sign == "/*" else end
        inside = self.text.text[at + len(sign) : end].removesuffix("*/")
        new = "\n".join(f"// {it.strip(' *#-')}" for it in inside.split("\n")) + ("\n" if sign == "/*" else "")
        yield Slip("Syntax comment", f"begin each line of it with `//` in place of `{sign}`", (at, end, new))

    def wants(self, group):
        """Whether a text of this rule may begin at the offence."""
        return self.grammar.firsts[group] <= self.wanted

    def closing(self, step, opening, closing):
        """Gives the token that closes what the token so many behind the offence opens."""
        depth = 0
        for it in self.tokens[self.index + step :]:
            depth += (it.text == opening) - (it.text == closing)
            if depth == 0:
                return it
        return self.token(len(self.tokens))

    def of_words(self):
        """Slips in words: one of other letters, and a reserved one in the place of a name."""
        for token in (self.marked, self.token(-1)):
            if token.kind != "word":
                continue
            reserved = self.grammar.reserved
            if token.text in reserved:
                reserved = reserved & self.wanted
            near = [it for it in sorted(reserved) if is_near(token.text, it)]
            for word in sorted(near, key=lambda it: distance(token.text, it)):
                row = "Syntax case" if word.lower() == token.text.lower() else "Syntax spelling"
                mend = f"{says('instead', new=word, old=token.text)} at {self.text.place(token.at)}"
                yield Slip(row, mend, (token.at, token.end, word))
        mark = self.marked
        if mark.text in self.grammar.reserved and "NAME" in self.wanted and not self.wants("term"):
            yield self.of_reserved()

    def of_reserved(self):
        """A reserved word in the place of a name: another name, of a label wherever it is one."""
        mark, tokens = self.marked, self.text.tokens
        new = fresh(self.text, mark.text)
        at = self.text.index_at(mark.at)
        is_label = self.token(-1).text == "." or self.token(1).text in (":", "=>") and self.token(-1).text in ("{", "|")
        rows = [it.at for place, it in enumerate(tokens[:-1]) if it.text == mark.text and place and place != at
                and (tokens[place - 1].text == "." or tokens[place - 1].text in ("{", "|")
                     and tokens[place + 1].text in (":", "=>"))]
        if mark.text in AT_THE_HEAD and not is_label:
            behind = range(at + 1, self.text.index_at(self.end_of_declaration()))
            rows, is_label = [tokens[place].at for place in behind if tokens[place].text == mark.text], True
        elif mark.text in INSTRUCTIONS and not is_label:
            rows, is_label = [tokens[place].at for place in self.named_so(at)], True
        edits = tuple((it, it + len(mark.text), new) for it in rows) if is_label else ()
        where = f", here and at {', '.join(self.text.place(it) for it in rows[:8])}" if edits else ""
        words = f"take another name than `{mark.text}`"
        words = f"write `{new}` in place of `{mark.text}`{where}" if is_label else words
        return Slip("Syntax word", words, (mark.at, mark.end, new), edits)

    def named_so(self, at):
        """Gives the other tokens of the name at a token that are names, and begin no instruction: where it is that of a
        process, those by which it is called, and else those behind it in the same declaration."""
        tokens, is_process = self.text.tokens, self.token(-2).text == "proc"
        end = len(tokens) if is_process else self.text.index_at(self.end_of_declaration())
        for place in range(0 if is_process else at + 1, end - 1):
            before, behind = tokens[place - 1].text, tokens[place + 1].text
            if tokens[place].text != self.marked.text or place == at:
                continue
            is_called = behind == "(" and before in ("call", "=")
            if is_called if is_process else before not in (";", "{", "=>", "|", "."):
                yield place

    def end_of_declaration(self):
        heads = [it.at for it in self.text.tokens if it.at > self.marked.at and it.text in HEADS]
        return heads[0] if heads else self.text.size

    def of_places(self):
        """Slips of which the place says what was meant."""
        mark, before, behind = self.marked, self.token(-1), self.token(1)
        if mark.text == ";" and behind.text in ("}", "|"):
            yield Slip("Syntax last", "take this `;` out", (mark.at, mark.end, ""))
        if mark.text == "(" and behind.text == ")":
            yield Slip("Syntax", "take `()` out", (mark.at, behind.end, ""))
        if mark.text in ("=", "=>", "->", ":") and before.kind == "word":
            for sign in (":", "=>", "="):
                if sign in self.wanted:
                    row = "Syntax label" if sign != "=" else "Syntax"
                    yield Slip(row, f"write `{sign}` in place of `{mark.text}`", (mark.at, mark.end, sign))
        if "/\\" in self.wanted and "->" in self.wanted and before.text in KINDS:
            mend = f"write `{before.text} /\\ 1`, or what else is meant"
            yield Slip("Syntax value", mend, (mark.at, mark.at, " /\\ 1 "))
        if mark.text == "if" and before.text == "else" and self.wanted == {"{"}:
            mend = "write `{` before this `if`, and a `}` behind its end"
            yield Slip("Syntax else", mend, (mark.at, mark.at, "{ "))
        if mark.text in HEADS and self.wants("code"):
            last = self.last_one()
            yield Slip("Syntax unfinished", f"write `{last};` before `{mark.text}`", (mark.at, mark.at, f"{last}; "))
        if "proc" in self.wanted and self.index and self.begins_instruction():
            yield Slip("Syntax behind", "", (mark.at, mark.at, "proc T x(;) = "))

    def of_heads(self):
        """Slips at the head of a declaration, and in the two ways to make a process."""
        mark, before, first, third = self.marked, self.token(-1), self.token(-2).text, self.token(-3)
        if third.text == "proc" and self.wanted == {"("}:
            mend = f"write `(;)` behind `{before.text}`, where its parameters go, values before the `;`"
            yield Slip("Syntax", mend, (before.end, before.end, "(;)"))
        if before.text in ("proc", "type") and mark.kind == "word":
            mode = self.mode_by_head()
            yield Slip("Syntax", f"write `{mode}` before `{mark.text}`", (mark.at, mark.at, f"{mode} "))
        equal = next((it for it in self.tokens[self.index :] if it.text == "="), None)
        in_head = {"=", "{"} & self.wanted and before.text in (")", "}")
        if mark.text in (":", "->", "returns") and equal and in_head and self.tokens[1].text == "T":
            offered = self.text.text[mark.at : equal.at].strip()
            mode = self.mode_of(self.token(1).text) if self.token(2) is equal else ""
            if mode:
                words = f"write `{mode}` in place of `T` at {self.text.place(self.tokens[1].at)}"
                edit = (self.tokens[1].at, self.tokens[1].end, mode)
                yield Slip("Syntax", f"{words}, since it offers `{self.token(1).text}`", edit)
            mend = f"take `{offered}` out, since a transaction offers nothing"
            yield Slip("Syntax", mend, (mark.at, equal.at, ""))
        if mark.text == "spawn" and third.text == "let" and before.text == "=":
            mend = f"write `spawn {first} =` in place of `let {first} = spawn`"
            yield Slip("Syntax", mend, (third.at, mark.end, f"spawn {first} ="))
        if mark.text == "." and self.token(-4).text == "let" and first == "=":
            yield self.of_asked_in_let(third.text, before.text)
        if mark.text == "(" and first == "spawn":
            mend = "write `.. =` behind `spawn`, with a new name for its channel"
            yield Slip("Syntax", mend, (before.at, before.at, "x = "))
        if self.wanted == {"as"}:
            new, at = fresh(self.text, before.text), self.text.index_at(mark.at)
            rows = uses(self.text.tokens, at, before.text)
            where = f", and `{new}` in place of `{before.text}` at {places(self.text, rows)}" if rows else ""
            edits = tuple((it.at, it.end, new) for it in rows)
            words = f"write `as {new}` behind `{before.text}`{where}"
            yield Slip("Syntax", words, (before.end, before.end, f" as {new}"), edits)

    def of_asked_in_let(self, name, via):
        """A value that is asked for by a label of a channel and bound by `let`: it is taken. A contract is acquired for
        that before, and released behind it."""
        asked = f"{via}.{self.token(1).text}"
        last = self.token(3 if [self.token(2).text, self.token(3).text] == ["(", ")"] else 1)
        new, other = f"{asked}; take {via} {name}", fresh(self.text, via)
        if self.is_contract(via):
            talk = f"{other}.{self.token(1).text}; take {other} {name}"
            new = f"acquire {via} as {other}; {talk}; release {other} as {other}x"
        words = f"write `{new}` in place of `let {name} = {asked}`"
        return Slip("Syntax", words, (self.token(-4).at, last.end, new))

    def is_contract(self, name):
        """Whether a name is that of a parameter which is a shared contract."""
        words = [it.text for it in self.tokens]
        body = words.index("=") if "=" in words else len(words)
        found = [at for at in range(3, body - 2) if words[at : at + 2] == [name, ":"] and ";" in words[:at]]
        return bool(found) and (words[found[0] + 2] == "up" or self.mode_of(words[found[0] + 2]) == "S")

    def mode_by_head(self):
        """Gives the mode of a declaration that has none: of a definition by how its type begins, and whether it comes
        to `down`, and of a process by what it offers."""
        texts = [it.text for it in self.text.tokens[self.text.index_at(self.marked.at) :]]
        equal = texts.index("=") if "=" in texts else len(texts) - 1
        behind, head = texts[equal + 1 : equal + 2], texts[:equal]
        if self.token(-1).text == "type":
            end = texts.index(";") if ";" in texts else len(texts)
            return "S" if behind == ["up"] else "L" if "down" in texts[equal:end] else "R"
        closing = len(head) - 1 - head[::-1].index(")") if ")" in head else len(head)
        offered = [it for it in head[closing:] if it not in (")", "{", "}", "*") and not it.isdecimal()]
        return (self.mode_of(offered[1]) or ("S" if offered[1] == "up" else "R")) if len(offered) > 1 else "T"

    def mode_of(self, name):
        """Gives the mode of the definition of a name, where there is one."""
        tokens = self.text.tokens
        found = (at for at, it in enumerate(tokens[:-2]) if it.text == "type" and tokens[at + 2].text == name)
        return next((tokens[at + 1].text for at in found), "")

    def last_one(self):
        """Gives an instruction that a process of the mode of this declaration ends with: `close`, or the call by which
        a shared one goes on as what it is, with the parameters under their names."""
        if self.tokens[1].text in ("R", "T"):
            return "close"
        end = next(at for at, it in enumerate(self.tokens) if it.text == ")")
        names = [[], []]
        for at in range(4, end):
            if self.tokens[at + 1].text == ":" and self.tokens[at - 1].text in ("(", ",", ";"):
                names[";" in [it.text for it in self.tokens[4:at]]].append(self.tokens[at].text)
        return f"call {self.tokens[2].text}({', '.join(names[0])}; {', '.join(names[1])})".replace("; )", ";)")

    def begins_instruction(self):
        word = self.marked.text
        return word in self.grammar.firsts["code"] or self.marked.kind == "word" and self.token(1).text == "."

    def is_met(self, name):
        """Whether a name may be that of a channel: `self`, or one that stands further before the offence too."""
        return name == "self" or any(it.text == name for it in self.tokens[: self.index - 1])

    def of_any(self):
        """Each token that may stand, put in before the offence or in its place, and the offence taken out."""
        mark, before = self.marked, self.token(-1)
        row = "Syntax" if mark.kind else "Syntax end"
        signs = sorted((it for it in self.wanted if not it[0].isalnum()), key=lambda it: (it != ";", it))
        for sign in signs:
            if sign == "." and before.kind == "word" and not self.is_met(before.text):
                continue
            edit = (before.end, before.end, sign) if self.index else (mark.at, mark.at, sign)
            yield Slip(row, f"write `{sign}` behind `{before.text}` at {self.text.place(before.at)}", edit)
        for sign in signs:
            if mark.kind and mark.kind != "word":
                yield Slip(row, f"write `{sign}` in place of `{mark.text}`", (mark.at, mark.end, sign))
        is_other = mark.text not in self.grammar.reserved and not self.is_known(mark.text)
        if mark.kind not in ("", "number") and is_other:
            yield Slip(row, f"take `{mark.text}` out", (mark.at, mark.end, ""))


# Reserved words that stand at the head of a text alone.
AT_THE_HEAD = ("all", "ticks", "sends", "cost")
# Reserved words by which instructions begin.
INSTRUCTIONS = tuple("send recv put take pay get work wait accept detach acquire release spawn emit close fwd".split())
# The rows of slips whose edits have so much that something else may be wrong in it.
WIDE = ("Syntax braces",)


def explained(text, answer, program, grammar):
    """Gives the row that fits a text that is no text of the grammar, and lines on what to do."""
    at, row, lines = answer.offset, "Syntax end" if answer.offset == text.size else "Syntax", []
    slips = Slips(text, at, grammar)
    slip = slips.find()
    if slip:
        start, end, new = slip.edit
        edited = text.edited(slip.edit)
        after = program.check(edited)
        reached = at + len(new) - (end - start) if slip.mend and end <= at else start + len(new)
        is_whole = end > at and after.offset == len(edited)
        reached = start + 1 if slip.row in WIDE else reached
        if after.is_cause("Syntax") and after.offset <= reached and not is_whole:
            slip = None
    if slip is None and at < text.size:
        row = next((name for name, wanted in SURE if slips.wanted and wanted(slips.wanted)), row)
    if slip:
        row = slip.row
        last = ended(text, slip, program) if row == "Syntax branch" and not slip.more else []
        lines += last or ([mend(" ".join(slip.mend.split()), slip.edit, *slip.more)] if slip.mend else [])
        lines += slip.see
    words = grammar.said(slips.wanted)
    if words:
        lines.append(f"here may stand: {', '.join(words)}")
    return row, lines
