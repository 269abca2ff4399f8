"""What to do where an instruction is stuck: other instructions before it or in its place are tried on the program."""
import itertools
from typing import NamedTuple

from . import headed
from .amounts import closing
from .answering import Answers
from .headed import goes_through
from .held import PROVIDED, now, reached
from .kinds import miscounted, other_parts
from .losing import Keeping, further, values_of, warned
from .mends import DATA, Mend, filled, mend, says
from .names import Names, unused
from .passing import passed, separated
from .renamed import fresh
from .retyped import retyped
from .shapes import LASTS
from .swapped import acquired_later, acquired_of, ended_otherwise, label_before, made_here, other_called
from .swapped import other_channel, other_made, other_sent, other_spawned, put_instead
from .syntax import distance
from .texts import LONGEST, joined

# How often the program is asked at most, how many instructions are put before a stuck one, and behind how many it is
# tried.
ASKED, DEEP = DATA["asked"], DATA["deep"]
MOST_BEHIND, MOST_BRANCHES = 4, 4
# How many kinds and values are tried in the place of others, and what the other kind is.
MOST_KINDS, MOST_VALUES, MOST_PAIRS = 24, 6, 10
OTHER_KIND = {"int": "bool", "bool": "int"}
# The modes that a process of each mode may spawn.
SPAWNED = {"R": "R", "S": "RS", "L": "RS", "T": "RS"}
# The leaves as which a channel is passed on or ended: by send, wait and release, and as an argument.
ENDING = (("step", 1), ("step", 4), ("step", 7), ("args", 0), ("args", 1))
# What the other side of a channel does at the same type.
DUAL = {"put": "take", "take": "put", "send": "recv", "recv": "send", "pay": "get", "get": "pay"}
# The instructions that may change places with the one behind them, those that are on a channel, those that have terms,
# and those that may be left out.
ORDERED = ("label", "send", "recv", "put", "take", "pay", "get", "wait", "acquire", "release", "accept", "detach")
TALKING = ("label", "case", "send", "recv", "put", "take", "pay", "get", "wait", "release")
TERMS = ("put", "spawn", "let", "add", "emit", "if", "call")
TAKEN_OUT = ("label", "put", "take", "recv", "pay", "get", "wait", "accept", "detach", "work")
HERE = "see: a shared process acquires behind its `accept` alone"
BEFORE_ACCEPT = f"{HERE}; acquire there, or take the value as a parameter"


class Try(NamedTuple):
    """An edit, what it is in words, and those that go along with it."""

    edit: tuple
    mend: str
    more: tuple = ()

    @property
    def edits(self):
        return (self.edit, *self.more)


def before(edits, offset):
    """Gives the offset in a text of what stands at one behind edits."""
    moved = 0
    for start, end, new in sorted(edits):
        if start + moved < offset:
            moved += len(new) - (end - start)
    return offset - moved


class Stuck:
    def __init__(self, text, answer, program, names, reached):
        self.text, self.program, self.names, self.form = text, program, names, answer.words[3]
        self.tokens, self.at = text.tokens, answer.offset
        self.index = text.index_at(self.at)
        self.reached, self.asked, self.is_whole = reached, 0, False
        self.new = unused(text)
        heads = [at for at in range(self.index) if self.tokens[at].text in ("proc", "fn", "type")]
        self.head = heads[-1]
        self.values = list(dict.fromkeys(values_of(names, self.head, self.index)))

    def reach(self, it):
        """Gives the offset up to which the program is content with the instructions of the text with an edit, or one
        past its end; less than the offset here where the edit does not do; none where it is not asked any more."""
        if self.asked >= ASKED:
            return None
        self.asked += 1
        after = self.program.check(self.text.edited(*it.edits))
        if after.is_accepted or after.is_cause("NoPotential") or after.words[:1] == ["unsolved"]:
            return self.text.size + 1
        if not after.is_cause("ProcType") and not after.is_cause("TermType"):
            return -1
        start, end, new = it.edit
        if start == self.at and not it.more and after.offset < start + len(new):
            return -1
        return before(it.edits, after.offset)

    def channels(self):
        """Gives the channels that are bound on the way here, shared contracts among them, the last ones first."""
        found = [
            self.tokens[at].text
            for at in range(self.head, self.index)
            if self.names.declared(at) == "channel" and self.names.leads(at, self.index)
        ]
        return ["self", *dict.fromkeys(found[::-1])]

    def labels(self):
        """Gives the labels of types, the nearest to the one that is written first, if one is."""
        found = [it.text for at, it in enumerate(self.tokens) if self.names.key(at) == ("lab", 0)]
        written = self.tokens[self.index + 2].text if self.form == "label" else ""
        return sorted(dict.fromkeys(found), key=lambda it: distance(it, written) if written else 0)[: DATA["labels"]]

    def put_before(self, name, it, new):
        """Gives the instructions on a channel at a type that may be put before the stuck one, by the rows of the data:
        the code, in which a name that is bound is new, how that is said, and the type behind it, or none where nothing
        more is put there."""
        whole = self.reached[0].unfolded(it)
        is_sent = (whole.sign in PROVIDED) == (name == "self")
        for row in DATA["before"]:
            if (row["at"], row["sent"]) == (whole.sign, is_sent):
                for known, behind in self.fillings(row["write"], name, whole):
                    known = {"channel": name, "new": new, **known}
                    is_bound = known.get("value") in self.values
                    left = {"new", *([] if is_bound else ["value"])}
                    open_ones = dict.fromkeys(left & known.keys(), DATA["left_open"])
                    said = filled(row["write"], **{**known, **open_ones})
                    yield filled(row["write"], **known), said, behind if "goes_on" in row else None

    def fillings(self, write, name, whole):
        """Gives what stands for the names of a row, each with the type behind it: a label, another channel, a value,
        an amount."""
        behind = whole.parts[-1] if whole.parts else None
        if "$label" in write:
            return [({"label": label}, further) for label, further in whole.parts]
        if "$other" in write:
            return [({"other": it}, behind) for it in self.channels()[1:] if it != name]
        if "$amount" in write:
            return [({"amount": self.reached[0].amount(whole)}, behind)]
        if "$value" in write:
            known = self.one_value(write, name)
            return [({"value": it}, behind) for it in known or DATA["values"].get(self.tokens[whole.at].text, ())]
        return [({}, behind)]

    def one_value(self, write, name):
        """Gives the value that is bound on the way here and fits, where one alone does, or one alone that is used
        nowhere."""
        fits = []
        for it in self.values[-MOST_VALUES:]:
            new = f"{filled(write, channel=name, value=it)} "
            if (self.reach(Try((self.at, self.at, new), "")) or 0) >= self.at:
                fits.append(it)
        used = {self.tokens[at].text for at in range(self.head, len(self.tokens)) if self.names.used(at) == "value"
                and (at < self.index or self.names.leads(self.index, at))}
        unused = [it for it in fits if it not in used]
        return fits if len(fits) == 1 else unused if len(unused) == 1 else []

    def instructions(self):
        """Goes through rows of instructions on one channel put before the stuck one, short ones first, and gives those
        with which the check goes on past it."""
        held = self.reached[2]
        waiting = [(name, held[name].type, "", "") for name in self.channels() if name in held]
        for depth in range(DEEP):
            further = []
            for name, it, code, said in waiting:
                for more, words, behind in self.put_before(name, it, self.new + "x" * depth):
                    if words == "accept;" and (said.endswith("detach; ") or self.is_dead_end()):
                        continue
                    edit = f"{code}{more} "
                    tried = self.put_early(name, more, words) if not code and words.startswith("get ") else None
                    tried = tried or Try((self.at, self.at, edit), says("before", code=said + words))
                    reached = self.reach(tried)
                    if reached is None:
                        return
                    if reached > self.at:
                        yield reached, tried
                    elif reached == self.at and behind is not None:
                        further.append((name, behind, edit, f"{said}{words} "))
            waiting = further

    def put_early(self, name, code, words):
        """Gives a `get` where the channel comes to the type that it is at here, so that what comes can be spent on the
        way here; nothing where that is here."""
        types, step, held = self.reached
        start = step
        for before, known in list(Keeping(types, step, held, []).way(self.process()))[::-1]:
            if name not in known or known[name].type != held[name].type:
                break
            start = before
        token = self.tokens[start.at]
        words = f"write `{words}` before `{token.text}` at {self.text.place(token.at)}"
        return Try((token.at, token.at, f"{code} "), words) if start.at != step.at else None

    def way(self):
        """Gives the instructions up to the stuck one, each with what is held there."""
        types, step, held = self.reached
        return list(Keeping(types, step, held, []).way(self.process()))

    def process(self):
        """Gives the process that the stuck instruction stands in."""
        return next(it for it in self.reached[0].processes.values() if it.at == self.head + 2)

    def end(self, index=None):
        """Gives where the stuck instruction, or the one at a token, ends, if it is one that others follow: before its
        ;"""
        depth = 0
        for it in self.tokens[self.index if index is None else index :]:
            if it.text == ";" and depth == 0:
                return it.at
            depth += (it.text in "({") - (it.text in ")}")
            if depth < 0:
                return None
        return None

    def behind(self):
        """Gives the number of the token behind the stuck instruction."""
        if self.form == "call":
            return closing(self.tokens, self.index + 2) + 1
        if self.form in ("fwd", "close"):
            return self.index + (2 if self.form == "fwd" else 1)
        if self.form == "if":
            rest = range(self.index, len(self.tokens))
            return next(at for at in rest if self.tokens[at].text == "{" and self.names.leaves[at].rule == "last")
        return self.text.index_at(self.end() or self.tokens[self.index].end)

    def others(self):
        """Gives what may stand in the place of the stuck instruction."""
        token = self.tokens[self.index]
        yield from self.elsewhere()
        for edit, words in headed.retyped(self) if self.form in TALKING else ():
            yield Try(edit, words)
        yield from self.swapped()
        ways = [put_instead(self)] if self.form in ("detach", "call", "close") else []
        ways += [other_channel(self), ended_otherwise(self), acquired_of(self)] if self.form in TALKING else []
        for edit, words in (it for way in (*ways, other_spawned(self)) for it in way):
            yield Try(edit, words)
        for edit, words, more in acquired_later(self) if self.form in DUAL else ():
            yield Try(edit, words, (more,))
        if self.form == "label":
            label = self.tokens[self.index + 2]
            for it in self.labels():
                yield Try((label.at, label.end, it), says("instead", new=it, old=label.text))
        if self.form == "case":
            yield from self.relabelled()
            yield from self.branches()
        if self.form in DUAL:
            yield from self.dual()
        if self.form in ("put", "send", "take", "recv"):
            yield from self.paid_instead()
        yield from self.others_near()

    def others_near(self):
        """Gives more of these: what is said or done before or behind the stuck instruction."""
        token = self.tokens[self.index]
        if self.form == "put":
            yield from self.made_of()
        if self.form in TALKING:
            yield from self.put_back()
            yield from self.heard_first()
        if self.form == "wait":
            yield from self.waited_early()
        if self.form in ("call", "spawn", "add"):
            yield from self.other_list()
        if self.form in TALKING:
            yield from (it for it in self.spent_before() if (self.reach(it) or 0) > self.text.size)
            yield from self.received_otherwise()
            yield from self.moved_here()
        if self.form == "call":
            others = [Try(edit, words) for edit, words in other_made(self)]
            yield from (it for it in others if (self.reach(it) or 0) > self.text.size)
            yield from self.accepted_early()
        if self.form in ("call", "spawn"):
            mode = self.process().mode
            modes = mode if self.form == "call" else SPAWNED[mode]
            others = [Try(edit, words) for edit, words in other_called(self, modes)]
            yield from (it for it in others if (self.reach(it) or 0) > self.text.size)
            yield from self.exchanged()
        if self.form == "send":
            yield from (Try(edit, words) for edit, words in other_sent(self))
            via, sent = self.tokens[self.index + 1 : self.index + 3]
            it = f"{sent.text} {via.text}"
            yield Try((via.at, sent.end, it), f"write `send {it}` in place of `send {via.text} {sent.text}`")
        if self.form in TALKING:
            yield from (Try(edit, words) for edit, words in label_before(self))
        if self.form == "close" and self.tokens[self.index - 1].text != "=":
            call = self.call_again()
            yield Try((token.at, token.end, call), f"write `{call}` in place of `close`")

    def made_of(self):
        """Gives a process that is made of the value which is put here, and sent where a channel is due."""
        types, _, held = self.reached
        via = self.tokens[self.index + 1].text
        whole = types.unfolded(held[via].type) if via in held else None
        if whole is None or whole.sign != ("*" if via == "self" else "-o"):
            return
        wanted, value = types.said(*whole.parts[0][:2]), self.text.text[self.tokens[self.index + 2].at : self.end()]
        for it in types.processes.values():
            if it.offers == wanted and it.mode == "R" and [one.kind for one in it.parameters] == ["value"]:
                name = fresh(self.text, it.name)
                new = f"spawn {name} = {it.name}({value};); send {via} {name}"
                old = joined(self.tokens[self.index : self.text.index_at(self.end())])
                yield Try((self.at, self.end(), new), says("instead", new=new, old=old))

    def spent_before(self):
        """Gives the instruction that pays what the type says, in place of a `work` of as much on the way here."""
        types, _, held = self.reached
        name = self.channel_at(self.index)
        whole = types.unfolded(held[name].type) if name in held else None
        if whole is None or whole.sign != ("|" if name == "self" else "<"):
            return
        amount = types.amount(whole)
        for step, _ in self.way()[::-1]:
            words = [it.text for it in self.tokens[step.at : step.end]][:4]
            if words == ["work", "{", amount, "}"]:
                token, new = self.tokens[step.at], f"pay {name} {{{amount}}}"
                old, place = f"work {{{amount}}}", self.text.place(token.at)
                edits = (token.at, self.tokens[step.at + 3].end, ""), (self.at, self.at, f"{new}; ")
                if self.tokens[step.at + 5 : step.at + 6] == self.tokens[self.index : self.index + 1]:
                    edits = ((token.at, self.tokens[step.at + 3].end, new),)
                else:
                    edits = (edits[0][0], self.tokens[step.at + 4].end, ""), edits[1]
                yield Try(edits[0], f"write `{new}` in place of `{old}` at {place}", edits[1:])
                return

    def paid_instead(self):
        """Gives the instruction that pays what the type says, or gets it, in place of one that is on a value or a
        channel."""
        types, _, held = self.reached
        name = self.tokens[self.index + 1].text
        whole = types.unfolded(held[name].type) if name in held else None
        if whole is not None and whole.sign in ("|", "<"):
            word = "pay" if (whole.sign == "|") == (name == "self") else "get"
            new = f"{word} {name} {{{types.amount(whole)}}}"
            old = joined(self.tokens[self.index : self.text.index_at(self.end())])
            yield Try((self.at, self.end(), new), says("instead", new=new, old=old))

    def heard_first(self):
        """Gives what stands from here on in each branch of a `case` on a channel of this instruction, whose label comes
        first."""
        types, _, held = self.reached
        names = [it.text for it in self.tokens[self.index : self.text.index_at(self.end() or self.at) + 1]]
        depth, end = 0, self.index
        stops = ("|", "proc", "fn", "type")
        while end < len(self.tokens) and depth >= 0 and not (depth == 0 and self.tokens[end].text in stops):
            depth += (self.tokens[end].text == "{") - (self.tokens[end].text == "}")
            end += 1
        end -= (depth < 0) + (self.tokens[end - 1].text == ";")
        code = self.text.text[self.at : self.tokens[end - 1].end]
        for name in (name for name in dict.fromkeys(names) if name in held):
            whole = types.unfolded(held[name].type)
            if whole.sign == ("&" if name == "self" else "+") and len(whole.parts) <= MOST_BRANCHES:
                yield from self.cased(name, whole, code, self.tokens[end - 1].end)

    def cased(self, name, whole, code, end):
        """Gives a `case` on a channel, with what stands from here on in each branch, or in some of them, where the
        others end in their own way."""
        types, step, held = self.reached
        ways = Answers(types, held, self.new, self.process(), self.values)
        last = self.call_again() if self.tokens[self.head + 1].text in ("S", "L") else "close"
        other = [ways.code(name, it, last, self.call_again()) for _, it in whole.parts]
        labels = [label for label, _ in whole.parts]
        for same in itertools.product((True, False), repeat=len(labels)):
            if not any(same) or not all(one or it for one, it in zip(same, other)):
                continue
            rows = [f"{label} => {code if one else it}" for label, one, it in zip(labels, same, other)]
            said = " and ".join(f"`{label}`" for label, one in zip(labels, same) if one)
            words = f"write a `case {name}` here, with what stands from here on in each of the branches {said}"
            if not all(same):
                more = " and ".join(f"`{row}`" for row, one in zip(rows, same) if not one)
                words = f"write a `case {name}` here, with what stands from here on in the branch {said}, and {more}"
                words += "".join(says("lost", channel=it) for it in ways.lost)
            it = Try((self.at, end, f"case {name} {{ {' | '.join(rows)} }}"), words)
            yield it
            if (self.reach(it) or 0) > self.text.size:
                return

    def waited_early(self):
        """Gives a `wait` for a channel behind what is done on this directly behind it, with what ends its talk before
        that; and no `wait`, where the channel is passed on behind it."""
        types, _, held = self.reached
        name, end = self.tokens[self.index + 1].text, self.end()
        later = [at for at in range(self.index + 2, len(self.tokens)) if self.tokens[at].text == name
                 and self.is_ending(at) and self.names.leads(self.index, at)]
        if name in held and types.unfolded(held[name].type).sign != "1" and later:
            yield Try((self.at, end + 1, ""), "take it out")
        last = self.text.index_at(end) + 1
        it, stop = held[name].type if name in held else None, None
        while it is not None and self.end(last) is not None and self.channel_at(last) == name:
            stop = self.end(last)
            it = further(types, it, [token.text for token in self.tokens[last : self.text.index_at(stop)]])
            last = self.text.index_at(stop) + 1
        code = self.to_end(name, it, DEEP) if stop is not None and it is not None else None
        if code:
            run = self.text.text[self.text.tokens[self.text.index_at(end) + 1].at : stop]
            new, old = f"{run}; {code}".strip(), " ".join(self.text.text[self.at : stop + 1].split())
            yield Try((self.at, stop + 1, new), f"write `{new}` in place of `{old}`{says('lost', channel=name)}")

    def put_back(self):
        """Gives the instructions on a channel that was given away before, before the one that gives it away."""
        name = self.channel_at(self.index)
        given = [at for at in range(self.head, self.index) if self.tokens[at].text == name and self.is_ending(at)
                 and self.names.leads(at, self.index)]
        last, end = self.index, self.end()
        while end is not None and self.channel_at(last) == name:
            stop, last = end, self.text.index_at(end) + 1
            end = self.end(last)
        if name in self.reached[2] or not given or last == self.index:
            return
        code, start = joined(self.tokens[self.index : self.text.index_at(stop)]), given[-1]
        for _ in range(MOST_BEHIND):
            before = [at for at in range(self.head, start) if self.tokens[at].text in (";", "{", "=>", "=")]
            start = before[-1] + 1 if before else start
            token = self.tokens[start]
            words = f"write `{code};` before `{token.text}` at {self.text.place(token.at)}, and not here"
            yield Try((token.at, token.at, f"{code}; "), words, ((self.at, self.tokens[last].at, ""),))
            start -= 1
            if not before or self.tokens[start].text != ";" or self.channel_at_end(start) != name:
                return

    def channel_at_end(self, end):
        """Gives the name that the instruction which ends before a token is on."""
        before = [at for at in range(self.head, end) if self.tokens[at].text in (";", "{", "=>", "=")]
        return self.channel_at(before[-1] + 1) if before else ""

    def other_list(self):
        """Gives another list that carries potential in place of one that was used up, where all is accepted then."""
        lists = [self.tokens[at].text for at in range(self.head, self.index)
                 if self.names.declared(at) == "list" and self.names.leads(at, self.index)]
        rows = [at for at in range(self.index, self.behind()) if self.tokens[at].text in lists]
        for token, name in ((self.tokens[at], name) for at in rows for name in lists[::-1]):
            it = Try((token.at, token.end, name), f"write `{name}` in place of `{token.text}`")
            if name != token.text and (self.reach(it) or 0) > self.text.size:
                yield it

    def exchanged(self):
        """Gives two arguments of a `call` or a `spawn` in each other's place, where all is accepted then."""
        at = self.index + (1 if self.form == "call" else 3)
        sign = next(place for place in range(at, len(self.tokens)) if self.tokens[place].text == ";")
        for start, end in ((at + 2, sign), (sign + 1, closing(self.tokens, at + 1))):
            rows = list(separated(self.tokens, start, end)) if start <= end else []
            pairs = [(one, two) for place, one in enumerate(rows) for two in rows[place + 1 :]]
            for pair in pairs[:MOST_PAIRS]:
                old = [self.text.text[self.tokens[one].at : self.tokens[two - 1].end] for one, two in pair]
                spans = [(self.tokens[one].at, self.tokens[two - 1].end) for one, two in pair]
                edits = [(*span, new) for span, new in zip(spans, old[::-1])]
                it = Try(edits[0], f"let `{old[0]}` and `{old[1]}` change places", (edits[1],))
                if old[0] != old[1] and (self.reach(it) or 0) > self.text.size:
                    yield it

    def moved_here(self):
        """Gives an instruction on the same channel that comes further behind, before the stuck one."""
        name, last = self.channel_at(self.index), self.index
        for count in range(MOST_BEHIND):
            end = self.end(last)
            if end is None:
                return
            last = self.text.index_at(end) + 1
            stop = self.end(last)
            if stop is None or self.tokens[last].text in LASTS:
                return
            if count and self.channel_at(last) == name and self.names.key(last + 1) != ("step", 1):
                code = joined(self.tokens[last : self.text.index_at(stop)])
                words = f"write `{code};` before it, and not at {self.text.place(self.tokens[last].at)}"
                behind = self.tokens[self.text.index_at(stop) + 1].at
                yield Try((self.at, self.at, f"{code}; "), words, ((self.tokens[last].at, behind, ""),))

    def received_otherwise(self):
        """Gives the names of two channels that were received one behind the other in each other's place."""
        for at in range(self.index - 6, self.head, -1):
            words = [it.text for it in self.tokens[at : at + 8]]
            if words[0] == words[4] == "recv" and words[1] == words[5] and self.names.leads(at, self.index):
                one, two = self.tokens[at + 2], self.tokens[at + 6]
                edits = (one.at, one.end, two.text), (two.at, two.end, one.text)
                said = f"let the names `{one.text}` and `{two.text}` at {self.text.place(one.at)} change places"
                it = Try(edits[0], said, (edits[1],))
                if (self.reach(it) or 0) > self.text.size:
                    yield it

    def accepted_early(self):
        """Gives the text without an `accept` behind which `self` says and hears nothing up to a call, since the process
        that is called begins with one."""
        types, _, held = self.reached
        own, rows = held.get("self"), list(Keeping(types, self.reached[1], held, []).way(self.process()))
        for step, known in rows[::-1]:
            at = known.get("self")
            if step.form == "accept" and at is not None and types.unfolded(at.type).parts[-1] == own.type:
                token = self.tokens[step.at]
                edit = (token.at, self.tokens[step.end].end, "")
                other = self.tokens[self.index + 1].text
                where = self.text.place(token.at)
                yield Try(edit, f"take `accept;` at {where} out, since `{other}` begins with one")
                return

    def elsewhere(self):
        """Gives another channel in the place of `self`, on which nobody hears a transaction, or of a contract: the name
        that it was acquired as, or a new one as which it is acquired first."""
        if self.form not in TALKING:
            return
        at = self.index if self.form == "label" else self.index + 1
        it, way = self.tokens[at], range(self.head, self.index)
        names = self.channels()[1:] if it.text == "self" and self.tokens[self.head + 1].text == "T" else []
        if it.text != "self":
            words = [(place, [other.text for other in self.tokens[place : place + 3]]) for place in way]
            found = [place + 3 for place, three in words if three == ["acquire", it.text, "as"]]
            names = [self.tokens[place].text for place in found if self.names.leads(place, self.index)]
        for name in names:
            yield Try((it.at, it.end, name), f"write `{name}` in place of `{it.text}`")
        if it.text != "self" and not names:
            name = fresh(self.text, it.text)
            new = f"acquire {it.text} as {name}; {self.text.text[self.at : it.at]}{name}"
            rows = self.talk_behind(at)
            where = f", here and at {', '.join(self.text.place(row.at) for row in rows)}" if rows else ""
            words = f"write `acquire {it.text} as {name};` before it, and `{name}` in place of `{it.text}`{where}"
            yield Try((self.at, it.end, new), words, tuple((row.at, row.end, name) for row in rows))

    def talk_behind(self, at):
        """Gives the tokens behind one by which instructions are on the same channel, up to its release."""
        name, rows = self.tokens[at].text, []
        for place in range(at + 1, len(self.tokens)):
            before, behind = self.tokens[place - 1].text, self.tokens[place + 1 : place + 2]
            if self.tokens[place].text != name or not self.names.leads(self.index, place):
                continue
            if before in ("put", "take", "send", "recv", "pay", "get", "case", "release", "wait") or \
                    behind and behind[0].text == ".":
                rows.append(self.tokens[place])
            if before == "release":
                break
        return rows

    def swapped(self):
        """Gives the stuck instruction and the one behind it the other way round, or it behind more of them."""
        if self.form not in ORDERED:
            return
        end = last = self.text.index_at(self.end())
        this = joined(self.tokens[self.index : end])
        for count in range(MOST_BEHIND):
            start, stop = last + 1, self.end(last + 1)
            if stop is None or self.tokens[start].text in LASTS:
                return
            last = self.text.index_at(stop)
            others, one = joined(self.tokens[end + 1 : last]), joined(self.tokens[start:last])
            how = f"let it stand behind `{one}`" if count else f"let it and `{one}` behind it change places"
            yield Try((self.at, stop, f"{others}; {this}"), how)

    def dual(self):
        """Gives what the other side would do, in place of the stuck instruction."""
        word, end = DUAL[self.form], self.end()
        via = self.tokens[self.index + 1]
        behind = {"put": ["0", "true"], "send": self.channels()[1:]}.get(word, [self.new])
        if self.form in ("pay", "get"):
            behind = [self.text.text[via.end : end].strip()]
        for it in behind:
            said = it if word in ("send", "pay", "get") else ".."
            yield Try((self.at, end, f"{word} {via.text} {it}"), f"write `{word} {via.text} {said}` in place of it")

    def call_again(self):
        """Gives the call by which the process goes on as what it is, with the parameters under their names."""
        name, values, channels = self.tokens[self.head + 2].text, [], []
        for at in range(self.head, self.index):
            rule = self.names.key(at)
            if rule in (("vpar", 0), ("par", 0)):
                values.append(self.tokens[at].text)
            elif rule == ("cpar", 0):
                channels.append(self.tokens[at].text)
        return f"call {name}({', '.join(values)}; {', '.join(channels)})".replace("; )", ";)")

    def relabelled(self):
        """Gives the branches with the labels that the type has, where it has others, and without those that it has
        not."""
        types, step, held = self.reached
        name = self.tokens[self.index + 1].text
        whole = types.unfolded(held[name].type) if name in held else None
        if whole is None or whole.sign not in ("+", "&"):
            return
        heads = [types.tokens[further.at - 2] for _, further in step.behind]
        wanted, has = [it for it, _ in whole.parts], [it.text for it in heads]
        lacking, left = [it for it in wanted if it not in has], [it for it in heads if it.text not in wanted]
        if len(lacking) == len(left) and left:
            edits = []
            for it in left:
                label = min(lacking, key=lambda other: distance(other, it.text))
                lacking.remove(label)
                edits.append((it.at, it.end, label))
            pairs = [(it.text, *edit) for edit, it in zip(edits, left)]
            said = " and ".join(f"`{new}` in place of `{old}` at {self.text.place(at)}" for old, at, _, new in pairs)
            yield Try(edits[0], f"write {said}", tuple(edits[1:]))

    def typed_branches(self, opening, has, close):
        """Gives the branches that the type has and the case has not, each with what ends its talk, where labels alone
        do."""
        types, step, held = self.reached
        name = self.tokens[self.index + 1].text
        whole = types.unfolded(held[name].type) if name in held else None
        if whole is None or whole.sign != ("&" if name == "self" else "+"):
            return
        lacking = [(label, it) for label, it in whole.parts if label not in has]
        ways = Answers(types, held, self.new, self.process(), self.values)
        last = self.call_again() if self.tokens[self.head + 1].text in ("S", "L") else "close"
        both = [(label, self.talked(name, it, DEEP)) for label, it in lacking], None
        other = [(label, ways.code(name, it, last, self.call_again(), label)) for label, it in lacking], ways
        for codes, ways in (both, other):
            if not codes or not all(code for _, code in codes):
                continue
            rows = [f"{label} => {code}" for label, code in codes]
            what = "a branch" if len(rows) == 1 else "branches"
            words = f"write {what} {' and '.join(f'`{it}`' for it in rows)} too"
            is_lost = any(f" wait {name};" in it and f"{name}." in it for it in rows)
            words += says("lost", channel=name) if is_lost else ""
            words += "".join(says("lost", channel=it) for it in ways.lost) if ways else ""
            yield Try((close, close, "".join(f" | {it}" for it in rows)), words)

    def talked(self, name, it, deep):
        """Gives the instructions by which the talk on a channel comes to its end by labels alone, with those that the
        process ends with; nothing where it does not."""
        last = self.call_again() if self.tokens[self.head + 1].text in ("S", "L") else "close"
        code = self.to_end(name, it, deep)
        return None if code is None else f"{code}{last}"

    def to_end(self, name, it, deep):
        """Gives the instructions by which the talk on a channel at a type comes to its end by labels alone, or none."""
        whole = self.reached[0].unfolded(it)
        if whole.sign in ("down", "1"):
            words = {("down", True): "detach; ", ("down", False): f"release {name} as {self.new}; ",
                     ("1", True): "", ("1", False): f"wait {name}; "}
            return words[whole.sign, name == "self"]
        is_sent = (whole.sign in PROVIDED) == (name == "self")
        for label, behind in whole.parts if whole.sign in ("+", "&") and is_sent and deep else ():
            code = self.to_end(name, behind, deep - 1)
            if code is not None:
                return f"{name}.{label}; {code}"
        return None

    def branches(self):
        """Gives further branches of a case: by its type, or one or two, each of which closes."""
        opening = self.index + 2
        depth, has, close = 0, [], None
        for at in range(opening, len(self.tokens)):
            depth += (self.tokens[at].text == "{") - (self.tokens[at].text == "}")
            if self.names.key(at) == ("branch", 0) and depth == 1:
                has.append(self.tokens[at].text)
            if depth == 0:
                close = self.tokens[at].at
                break
        typed = [(self.reach(it) or 0, it) for it in self.typed_branches(opening, has, close)]
        typed = [(reached, it) for reached, it in typed if reached > self.at]
        typed = [it for reached, it in typed if reached > close or not any(far > close for far, _ in typed)][:1]
        yield from typed
        lacking = [it for it in self.labels() if it not in has and not typed]
        sets = [[it] for it in lacking] + [[it, other] for at, it in enumerate(lacking) for other in lacking[at + 1 :]]
        for labels in sets:
            new = "".join(f" | {it} => close" for it in labels)
            words = " and ".join(f"`{it} => ..`" for it in labels)
            yield Try((close, close, new), f"write a branch {words} too")

    def taken_out(self):
        """Gives the text without the stuck instruction, where the one behind it is not stuck then."""
        end, name = self.end(), self.channel_at(self.index)
        words = "take it out"
        held = self.reached[2]
        at = {"send": 2, "release": 1}.get(self.form, 0)
        word, via = self.tokens[self.index + at].text, self.tokens[self.index + 1].text
        is_spent = at and (word not in held or via not in held)
        is_spent = is_spent or self.form == "release" and self.reached[0].is_shared(held[via].type)
        is_spent = is_spent or self.form == "send" and self.is_passed_later(word)
        for _ in range(DEEP):
            if self.form not in TAKEN_OUT and not is_spent or end is None:
                return
            it = Try((self.at, end + 1, ""), words)
            reached, behind = self.reach(it), self.text.index_at(end) + 1
            if behind == len(self.tokens):
                return
            if reached is not None and reached > self.tokens[behind].at:
                yield reached, it
                return
            if self.channel_at(behind) != name or self.end(behind) is None:
                return
            end = self.end(behind)
            said = joined(self.tokens[self.index : self.text.index_at(end)])
            words = f"take `{said}` out"

    def is_passed_later(self, name):
        """Whether a channel is passed on behind the stuck instruction, on the same way."""
        rest = range(self.text.index_at(self.end() or self.at), len(self.tokens))
        return any(self.tokens[at].text == name and self.is_ending(at) and self.names.leads(self.index, at)
                   for at in rest)

    def channel_at(self, index):
        """Gives the name that the instruction at a token is on, as far as it is on one."""
        texts = [it.text for it in self.tokens[index : index + 2]]
        return texts[0] if texts[1:] == ["."] else texts[-1]

    def is_dead_end(self):
        """Whether another `accept`, or the call of a process that begins with one, follows before any `detach`."""
        for at in range(self.index, len(self.tokens)):
            words = [it.text for it in self.tokens[at : at + 2]]
            if words[:1] == ["detach"] or words[0] in ("type", "fn", "proc"):
                return False
            if words[0] == "accept":
                return True
            if words[0] == "call":
                return words[1] == self.tokens[self.head + 2].text or self.accepts_first(words[1])
        return False

    def is_before_accept(self):
        """Whether the stuck instruction stands in a shared process before its first `accept`."""
        words = [it.text for it in self.tokens[self.head : self.index]]
        return words[1] == "S" and "accept" not in words

    def accepting(self):
        """Gives a line for the `accept` that comes behind this instruction, on the same way: it stands before it."""
        later = [at for at in range(self.index, len(self.tokens)) if self.tokens[at].text == "accept"]
        if not later or not self.names.leads(self.index, later[0]):
            return []
        it = self.tokens[later[0]]
        tried = Try((self.at, self.at, "accept; "), "", ((it.at, self.tokens[later[0] + 1].end, ""),))
        words = f"write `accept;` before it, and not at {self.text.place(it.at)}"
        return [mend(words, *tried.edits)] if (self.reach(tried) or 0) > self.at else []

    def accepts_first(self, name):
        """Whether the process of a name begins with an `accept`."""
        found = [at for at, kind in self.names.places(name) if kind == "process"]
        equal = next(at for at in range(found[0], len(self.tokens)) if self.tokens[at].text == "=") if found else 0
        return bool(found) and self.tokens[equal + 1].text == "accept"

    def keeping(self, types, step, held):
        """Gives what lets the check go on, where the stuck instruction leaves something behind, and gives all that to
        somebody: a call that takes it, or instructions that send it."""
        if self.form not in ("close", "call", "fwd", "detach"):
            return
        it = Keeping(types, step, held, values_of(self.names, self.head, self.index))
        given = [self.tokens[at].text for at in range(self.index, self.behind()) if self.names.used(at) == "channel"]
        if not it.assets and (self.form != "call" or set(given) <= held.keys()):
            return
        process = self.process()
        if self.form == "detach" or self.form == "call" and self.are_passed(types, held, it, given):
            return
        token, end = self.tokens[self.index], self.tokens[self.behind() - 1].end
        old = self.text.text[token.at : end]
        found = [new for new in (*it.forwards(process), *it.calls(process)) if new != old]
        called = [f"call {self.tokens[self.index + 1].text}("] if self.form == "call" else []
        found.sort(key=lambda new: (not any(map(new.startswith, called)), new.startswith("call ") and
                                    not self.accepts_first(new[5 : new.index("(")])))
        for new in found:
            yield Try((token.at, end, new), says("instead", new=new, old=old))
        yield from self.sent_instead(it, given)
        if self.form == "call" and not found:
            for said, new in it.open_calls(process):
                yield Try((token.at, end, new), says("instead", new=said, old=old))
        for asset, new in it.sends():
            said = says("gets", code=new, place="it", channel=asset)
            yield Try((token.at, token.at, f"{new} "), said)
        for asset, words, edits in it.returned(process):
            yield Try(edits[0], f"{words}, so that the client gets `{asset}` back", edits[1:])

    def are_passed(self, types, held, keeping, given):
        """Whether the channels of a call are those that its process takes, and all that are left, so that it is stuck
        for its values."""
        other = types.processes.get(self.tokens[self.index + 1].text)
        wanted = [it.type for it in other.of_kind("channel")] if other else None
        has = [types.said(*held[name].type[:2]) for name in given if name in held]
        return has == wanted and len(has) == len(given) and set(keeping.left) <= set(given)

    def kept_instead(self):
        """Gives an asset that is due here, and was brought to its end on the way here, sent in place of that."""
        types, _, held = self.reached
        own = types.unfolded(held["self"].type) if "self" in held else None
        if self.form not in ("detach", "close") or own is None or own.sign != "*":
            return
        it = Keeping(types, self.reached[1], held, [])
        if any(it.said(held[name].type) == it.said(own.parts[0]) for name in it.left):
            return
        rows = list(it.way(self.process()))
        for at, (step, known) in enumerate(rows):
            name = self.tokens[step.at + 1].text
            if step.form != "wait" or types.said(*known[name].first[:2]) != types.said(*own.parts[0][:2]):
                continue
            first = at
            while first and self.channel_at(rows[first - 1][0].at) == name and rows[first - 1][0].form == "label":
                first -= 1
            start, end = self.tokens[rows[first][0].at].at, self.tokens[step.end].end
            said = " ".join(self.text.text[start:end].split())
            words = f"take `{said}` at {self.text.place(start)} out, and write `send self {name};` before it"
            yield Try((self.at, self.at, f"send self {name}; "), words, ((start, end, ""),))

    def sent_instead(self, keeping, given):
        """Gives another asset that is held in place of one that was sent away before, and is passed on here."""
        types, _, held = self.reached
        for name in given:
            sent = [at for at in range(self.head, self.index) if self.tokens[at].text == name
                    and self.names.key(at) == ("step", 1) and self.names.leads(at, self.index)]
            others = [it for it in keeping.assets if it not in given]
            for other in others if name not in held and sent else ():
                token = self.tokens[sent[-1]]
                words = f"write `{other}` in place of `{name}` at {self.text.place(token.at)}, and leave this as it is"
                yield Try((token.at, token.end, other), words)

    def find(self):
        """Gives what lets the check go on past the stuck instruction: first what keeps all that is held, then the
        furthest ones, three at most. Behind each stands what is lost by it."""
        types, step, held = self.reached
        if self.is_of_kind(types, held):
            found = [it for it in self.swapped() if (self.reach(it) or 0) > self.at]
            lines = [] if found else [*self.put_first(types, held), *self.parts()]
            if lines:
                return lines
        kept = [it for it in self.keeping(types, step, held) if (self.reach(it) or 0) > self.at]
        lines, known = [mend(it.mend, *it.edits) for it in kept], [self.behind_edits(it) for it in kept]
        for it in self.others_found():
            end, text = warned(types, held, self.code_of(it.edit)), self.behind_edits(it)
            lines += [mend(f"{it.mend}{end}", *it.edits)] if text not in known else []
            known.append(text)
        lines.sort(key=lambda it: "nobody gets it" in it)
        moved = [it for it in lines if it.startswith("mend: let it ")]
        lines = [it for it in lines if it not in moved[1:]]
        if all("nobody gets it" in it for it in lines):
            lines = [*self.by_label(types, step, held), *lines]
        if not lines:
            instead = [it for it in self.kept_instead() if (self.reach(it) or 0) > self.at]
            lines = [mend(it.mend, *it.edits) for it in (*(it for _, it in self.made()), *instead)]
        return list(dict.fromkeys(lines))[:3] or self.parts()

    def put_first(self, types, held):
        """Gives a line for a value that is put before the one here, where all is accepted then."""
        name = self.tokens[self.index + 1].text
        kind = self.tokens[types.unfolded(held[name].type).at].text
        for value in self.one_value("put $channel $value;", name) or DATA["values"].get(kind, ()):
            it = Try((self.at, self.at, f"put {name} {value}; "), "")
            if (self.reach(it) or 0) > self.text.size:
                return [mend(says("before", code=f"put {name} {value if value in self.values else '..'};"), it.edit)]
        return []

    def is_of_kind(self, types, held):
        """Whether a value is wanted where one is put, so that it is of another kind."""
        via = self.tokens[self.index + 1].text
        if self.form != "put" or via not in held:
            return False
        return types.unfolded(held[via].type).sign == ("/\\" if via == "self" else "->")

    def behind_edits(self, it):
        """Gives the bytes of the text with edits, without blanks."""
        return b"".join(self.text.edited(*it.edits).split())

    def by_label(self, types, step, held):
        """Gives lines on another label for the last one, by which what is held is sent, where nothing else does."""
        if self.form not in ("close", "detach", "call"):
            return []
        it = Keeping(types, step, held, values_of(self.names, self.head, self.index))
        process = self.process()
        later = {self.tokens[at].text for at in range(self.index, len(self.tokens)) if self.is_ending(at)
                 and self.names.leads(self.index, at)} if self.form == "detach" else set()
        rows = [it for it in it.relabelled(process) if not any(f"send self {name};" in it[0] for name in later)]
        tries = [Try(edits[0], words, edits[1:]) for words, edits in rows]
        return [mend(other.mend, *other.edits) for other in tries if (self.reach(other) or 0) > self.at]

    def code_of(self, edit):
        """Gives the instructions that an edit puts before the stuck one, or the label that it has in its place."""
        start, end, new = edit
        if start == end == self.at:
            return new
        is_label = self.form == "label" and start == self.tokens[self.index + 2].at
        return f"{self.tokens[self.index].text}.{new};" if is_label else ""

    def released(self):
        """Gives the release of a contract behind the last instruction on it, where another one is acquired between that
        and the stuck instruction: held until here, a transaction could wait for itself."""
        types, step, held = self.reached
        for name, it in held.items():
            uses = [at for at in range(self.head, self.index)
                    if self.tokens[at].text == name and self.names.leads(at, self.index)]
            if name == "self" or types.unfolded(it.type).sign != "down" or not uses:
                continue
            last = next(at for at in range(uses[-1], len(self.tokens)) if self.tokens[at].text in (";", "{", "}"))
            between = [token.text for token in self.tokens[last : self.index]]
            if self.tokens[last].text == ";" and "acquire" in between:
                end = self.tokens[last].end
                words = f"write `release {name} as ..;` behind the `;` at {self.text.place(end - 1)}"
                yield Try((end, end, f" release {name} as {self.new};"), words)

    def others_found(self):
        """Gives what lets the check go on past the stuck instruction, the furthest ones."""
        early = [it for it in self.released() if (self.reach(it) or 0) > self.at]
        if early:
            return early
        asked = ((self.reach(it), it) for it in self.others())
        found = [(reached, it) for reached, it in asked if reached is not None and reached > self.at]
        if not found or self.form == "close" or self.form in DUAL:
            found = [*itertools.islice(self.instructions(), 3), *found]
        found = found or list(self.taken_out())
        furthest = max((reached for reached, _ in found), default=0)
        self.is_whole = furthest > self.text.size
        if self.form in ("pay", "get", "put", "take", "send") and all(
                it.edit[0] < self.at for reached, it in found if reached == furthest):
            out = [(reached, it) for reached, it in self.taken_out() if reached >= furthest]
            furthest = max([furthest, *(reached for reached, _ in out)])
            self.is_whole = furthest > self.text.size
            found = [*out, *found]
        return [it for reached, it in found if reached == furthest]

    def made(self):
        """Gives what is made here where it is wanted, and nothing of its type is held."""
        if self.form in ("detach", "close", "send", "release", "recv", "case", "take"):
            for edit, words in made_here(self, self.new):
                reached = self.reach(Try(edit, words))
                if reached is not None and reached > self.at:
                    yield reached, Try(edit, words)

    def parts(self):
        """Gives the parts of the terms of the stuck instruction of which another kind lets the check go on past it."""
        def goes_on(edit):
            reached = self.reach(Try(edit, ""))
            return reached is not None and reached > self.at

        def is_whole(edit):
            return (self.reach(Try(edit, "")) or 0) > self.text.size

        if self.form not in TERMS:
            return []
        found = other_parts(self.names, self.index, self.behind(), goes_on, is_whole)
        sure = [it for it in found if isinstance(it, Mend) and it.edits]
        is_sure = any(goes_through(self.program.check(self.text.edited(*it.edits))) for it in sure)
        has_name = any(self.names.used(at) == "value" for at in range(self.index, self.behind()))
        return [*([] if is_sure or not has_name else self.kinds_elsewhere()), *found]

    def kinds_elsewhere(self):
        """Gives lines on another kind of values in a type or in a head, where the contract is accepted with it."""
        kinds = [at for at, it in enumerate(self.tokens)
                 if it.text in OTHER_KIND and self.names.leaves[at].rule == "vtype"
                 and self.tokens[at - 1].text not in ("nil", "list")]
        kinds.sort(key=lambda at: abs(at - self.index))
        lines = []
        for token in (self.tokens[at] for at in kinds[:MOST_KINDS]):
            edit = (token.at, token.end, OTHER_KIND[token.text])
            after = self.program.check(self.text.edited(edit))
            if goes_through(after):
                place = self.text.place(token.at)
                lines.append(mend(f"write `{edit[2]}` in place of `{token.text}` at {place}", edit))
        return lines[:2]

    def declaration(self):
        """Gives the place and the head of the process that a spawn or a call names."""
        at = next((at for at in range(self.index, len(self.tokens)) if self.names.used(at) == "process"), None)
        name = self.tokens[at].text
        for place, kind in self.names.places(name):
            if kind == "process":
                modes = self.tokens[self.head + 1].text, self.tokens[place - 1].text
                start = self.tokens[place - 2].at
                end = next(it.at for it in self.tokens[place:] if it.text == "=")
                head = " ".join(self.text.text[start:end].split())
                see = f"see: `{name}` is declared at {self.text.place(self.tokens[place].at)}, as {head[:200]}"
                why = "see: a process goes on as one of its own mode alone: `{}` is called in one of mode `{}`"
                if self.form == "spawn":
                    why = "see: a process may not spawn one of this mode: `{}` is spawned in one of mode `{}`"
                is_other = modes[0] != modes[1] if self.form == "call" else modes[1] not in SPAWNED[modes[0]]
                return [see, *([why.format(" ".join((modes[1], name)), modes[0])] if is_other else [])]
        return []

    def given_away(self):
        """Gives where a channel of this instruction was passed on or ended on the way here, or a list used up."""
        lines = []
        for at in range(self.index, self.behind()):
            name = self.tokens[at].text
            uses = [
                before
                for before in range(self.head, self.index)
                if self.tokens[before].text == name
                and (self.names.used(at) == "channel" and self.is_ending(before) or self.names.used(before) == "list")
                and self.names.leads(before, self.index)
            ]
            if uses:
                how = "passed on or ended" if self.is_ending(uses[-1]) else "used up"
                lines.append(f"see: `{name}` was {how} at {self.text.place(self.tokens[uses[-1]].at)}")
        return list(dict.fromkeys(lines))

    def is_ending(self, at):
        return self.names.key(at) in ENDING


def explained(text, answer, program, grammar):
    """Gives lines on what to do where an instruction is stuck."""
    names = Names(text, grammar)
    if names.leaves is None or text.size > LONGEST:
        return []
    types, step, held = reached(text, answer, grammar)
    stuck = Stuck(text, answer, program, names, (types, step, held))
    lines = stuck.find()
    if not stuck.is_whole:
        lines = [*retyped(types, step, held, lambda edit: stuck.reach(Try(edit, "")) or 0), *lines][:3]
    declared = stuck.declaration() if stuck.form in ("spawn", "call") else []
    if declared and not lines:
        found = passed(types, step, held, program)
        lines = [it for it in found if isinstance(it, Mend)]
        declared += [it for it in found if not isinstance(it, Mend)]
    if not lines and stuck.form in TERMS:
        declared += miscounted(names, stuck.index, stuck.behind())
    if stuck.form == "acquire" and stuck.is_before_accept():
        lines = lines or [*stuck.accepting(), BEFORE_ACCEPT]
    if all("nobody gets it" in it for it in lines) and stuck.form in ("close", "call", "fwd"):
        lines = [*lines, *Keeping(types, step, held, []).takers()]
    return [*(lines or stuck.given_away()), *declared, *now(types, step, held, bool(lines))]
