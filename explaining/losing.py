"""What ends by a mend without anybody who gets it, and instructions that give it to somebody instead."""
from .mends import says
from .passing import separated
from .renamed import fresh
from .texts import tokens_of

# How many instructions a talk is followed for until it takes what is held.
DEEP = 4


def instructions_of(code):
    """Gives the texts of the tokens of each instruction of a mend."""
    found = [[]]
    for it in tokens_of(code):
        if it.text == ";":
            found.append([])
        else:
            found[-1].append(it.text)
    return [it for it in found if it]


def further(types, it, words):
    """Gives the type that a channel is at behind an instruction on it, or nothing where it ended."""
    whole = types.unfolded(it)
    if words[0] == "wait" or not whole.parts:
        return None
    return dict(whole.parts).get(words[2]) if whole.sign in ("+", "&") else whole.parts[-1]


def was_ended(types, it):
    """Whether a channel is at its end that the process itself brought there, or that has nothing but an end."""
    return types.unfolded(it.type).sign == "1" and (it.type != it.first or it.type.sign == "1")


def lost(types, held, code):
    """Gives the channels that are held, and are at their end behind the instructions of a mend."""
    at = {}
    for words in instructions_of(code):
        name = words[0] if words[1:2] == ["."] else words[1] if len(words) > 1 else ""
        if name not in held or name == "self" or words[0] in ("send", "acquire", "release"):
            continue
        it = at.get(name, held[name].type)
        at[name] = further(types, it, words) if it is not None else None
    ended = [name for name, it in at.items() if it is None or types.unfolded(it).sign == "1"]
    return [it for it in ended if not types.is_shared(held[it].type) and not was_ended(types, held[it])]


def warned(types, held, code):
    """Gives in words what is lost by the instructions of a mend."""
    return "".join(says("lost", channel=it) for it in lost(types, held, code))


class Keeping:
    """Instructions before a stuck one, and calls in its place, by which what is held stays somebody's."""

    def __init__(self, types, step, held, values):
        self.types, self.step, self.held, self.values = types, step, held, values
        self.left = [it for it, at in held.items() if it != "self" and not types.is_shared(at.type)]
        self.assets = [it for it in self.left if not was_ended(types, held[it])]

    def said(self, it):
        return self.types.said(it.at, it.end)

    def calls(self, process):
        """Gives calls of the processes of the same mode that take all that is held, each by its type. One that called
        itself with what it has, and has said nothing to anybody, would not come to an end."""
        own = self.held.get("self")
        is_silent = own is None or own.type == own.first or self.types.unfolded(own.type).sign == "1"
        for it in self.types.processes.values():
            is_endless = is_silent and it.name == process.name
            given = self.given(it) if it.mode == process.mode and not is_endless else None
            if given is not None:
                yield f"call {it.name}({', '.join(given[0])};{' ' if given[1] else ''}{', '.join(given[1])})"

    def open_calls(self, process):
        """Gives such calls of which the writer alone knows values: how each is said, and what is tried."""
        for it in self.types.processes.values():
            channels = self.fitting(it) if it.mode == process.mode and it.name != process.name else None
            values = it.of_kind("value")
            if channels is not None and values and len(values) + len(it.of_kind("channel")) == len(it.parameters):
                kinds = [one.type for one in values]
                tries = [{"int": "0", "bool": "true"}.get(kind, kind.replace("list", "nil", 1)) for kind in kinds]
                behind = f";{' ' if channels else ''}{', '.join(channels)})"
                said = ", ".join(".." for _ in values)
                yield f"call {it.name}({said}{behind}", f"call {it.name}({', '.join(tries)}{behind}"

    def forwards(self, process):
        """Gives the `fwd` by which the one channel that is left takes over, where it has the type that is offered."""
        own, left = self.held.get("self"), self.left
        if process.mode == "R" and own and len(left) == 1 and self.said(self.held[left[0]].type) == self.said(own.type):
            yield f"fwd {left[0]}"

    def given(self, process):
        """Gives the values and the channels that a process may be given: the values that the call here gives, where it
        takes such, or else those of the same names; nothing where they do not fit."""
        channels = self.fitting(process)
        if channels is None:
            return None
        values = [it for it in process.parameters if it.kind == "value"]
        known = self.called([it.type for it in values]) or [it.name for it in values if it.name in self.values]
        return (known, channels) if len(known) == len(values) else None

    def fitting(self, process):
        """Gives the channels that a process may be given, all that are left among them, where they fit."""
        left, channels = list(self.held), []
        for it in process.of_kind("channel"):
            fits = [name for name in left if name != "self" and self.said(self.held[name].type) == it.type]
            if not fits:
                return None
            channels.append(it.name if it.name in fits else fits[0])
            if not self.types.is_shared(self.held[channels[-1]].type):
                left.remove(channels[-1])
        return None if set(self.left) & set(left) else channels

    def called(self, kinds):
        """Gives the values of a call that is stuck, where its process takes values of these kinds."""
        tokens, at = self.types.tokens, self.step.at
        other = self.types.processes.get(tokens[at + 1].text) if self.step.form == "call" else None
        if not kinds or other is None or [it.type for it in other.parameters if it.kind != "channel"] != kinds:
            return []
        sign = next(place for place in range(at, self.step.end) if tokens[place].text == ";")
        given = [self.types.said(start, end) for start, end in separated(tokens, at + 3, sign)]
        return given if len(given) == len(kinds) else []

    def sends(self):
        """Gives rows of instructions that send an asset over another channel, whose talk takes one of its type."""
        for asset in self.assets:
            for name, it in self.held.items():
                if name == asset:
                    continue
                if self.types.is_shared(it.type):
                    yield from self.stored(asset, name, self.types.unfolded(it.type).parts[-1])
                else:
                    for code, _ in self.talks(asset, name, it.type, DEEP):
                        yield asset, code

    def takers(self):
        """Gives lines on the contracts that are held and take an asset, and then say what becomes of it."""
        known = {self.said(it.type): (name, it) for name, it in reversed(self.held.items()) if name != "self"}
        for asset in self.assets:
            for name, it in reversed(known.values()):
                body = self.types.unfolded(it.type)
                new = fresh(self.types.text, name)
                for code, end in self.talks(asset, new, body.parts[-1], DEEP) if body.sign == "up" else ():
                    if end.sign == "+":
                        says = " or ".join(f"`{label}`" for label, _ in end.parts)
                        yield f"see: `{name}` takes it: `acquire {name} as {new}; {code}`, and then it says {says}"

    def stored(self, asset, name, it):
        """Gives such rows for a contract, which is acquired for that and released behind it."""
        text = self.types.text
        new, behind = fresh(text, name), f"{fresh(text, name)}x"
        for code, end in self.talks(asset, new, it, DEEP):
            if end.sign == "down":
                yield asset, f"acquire {name} as {new}; {code} release {new} as {behind};"

    def talks(self, asset, name, it, deep):
        """Gives the instructions by which a talk at a type takes an asset, each with the type behind that."""
        whole, is_self = self.types.unfolded(it), name == "self"
        if not deep:
            return
        if whole.sign == ("*" if is_self else "-o"):
            if self.said(whole.parts[0]) == self.said(self.held[asset].type):
                yield f"send {name} {asset};", self.types.unfolded(whole.parts[-1])
        elif whole.sign == ("+" if is_self else "&"):
            for label, behind in whole.parts:
                for code, end in self.talks(asset, name, behind, deep - 1):
                    yield f"{name}.{label}; {code}", end
        elif whole.sign in ("<", "|"):
            word = "pay" if (whole.sign == "|") == is_self else "get"
            for code, end in self.talks(asset, name, whole.parts[-1], deep - 1):
                yield f"{word} {name} {{{self.types.amount(whole)}}}; {code}", end

    def returned(self, process):
        """Gives edits by which an asset goes back to the client that it came from: one channel more in the type that
        `self` is at, and a `send` there. What the process had before is not given to a client by this."""
        found = None
        for step, held in self.way(process):
            own = held.get("self")
            if own and own.type != own.first and not self.types.is_shared(own.type):
                found = step, held
        for asset in self.assets if found else ():
            step, held = found
            bound = self.held[asset].bound
            is_given = [it.text for it in self.types.tokens[bound - 2 : bound]] == ["recv", "self"]
            if is_given and asset in held and held[asset].type == self.held[asset].type:
                yield asset, *self.sending(asset, step, held["self"].type)

    def relabelled(self, process):
        """Gives in words, and as edits, another label in place of the last one that `self` sent, whose talk sends what
        is held, with the instructions for that before the stuck one."""
        said = end = None
        for step, held in self.way(process):
            words = [it.text for it in self.types.tokens[step.at : step.at + 3]]
            if step.form == "label" and words[0] == "self":
                said, end = (step, self.types.unfolded(held["self"].type), words[2]), None
            elif step.form == "detach":
                end = step
            elif step.at != self.step.at and words[1:2] == ["self"]:
                said = None
        if said is None:
            return
        step, whole, label = said
        end = end or self.step
        token, last = self.types.tokens[step.at + 2], self.types.tokens[end.at]
        for other, it in whole.parts if whole.sign == "+" else ():
            code = self.ending(it, DEEP) if other != label else None
            if code:
                place = self.types.text.place(token.at)
                gets = ", ".join(f"`{asset}`" for asset in self.assets if f" {asset};" in code)
                where = "it" if end is self.step else f"`detach` at {self.types.text.place(last.at)}"
                words = f"write `{other}` in place of `{label}` at {place}, and `{code}` before {where}"
                words = f"{words}; the client gets {gets}"
                yield words, ((token.at, token.end, other), (last.at, last.at, f"{code} "))

    def ending(self, it, deep):
        """Gives the instructions by which a talk of `self` at a type sends what is held and comes to its end, with
        something sent at least; nothing where that is not all it wants."""
        tokens, codes = self.types.tokens, []
        passed = [tokens[at].text for at in range(self.step.at, self.step.end)] if self.step.form == "call" else []
        whole, left = self.types.unfolded(it), [asset for asset in self.assets if asset not in passed]
        while whole.sign == "*" and deep:
            wanted = self.said(whole.parts[0])
            fits = [asset for asset in left if self.said(self.held[asset].type) == wanted]
            if not fits:
                return ""
            left.remove(fits[0])
            codes.append(f"send self {fits[0]};")
            whole, deep = self.types.unfolded(whole.parts[-1]), deep - 1
        return " ".join(codes) if whole.sign in ("down", "1") else ""

    def way(self, process):
        """Gives the instructions up to the stuck one, each with what is held there."""
        steps, stuck = self.types.ways(process, self.step.at)
        held = self.types.start(process)
        for step, label in steps:
            yield step, dict(held)
            self.types.behind(held, step, label)
        yield stuck, held

    def sending(self, asset, step, it):
        """Gives in words, and as edits, a `send` before an instruction, and what is sent in the type there."""
        types, text = self.types, self.types.text
        carried = self.said(self.held[asset].type)
        if self.held[asset].type.sign not in ("1", "name", "+", "&") and not carried.startswith("("):
            carried = f"({carried})"
        start, at = types.tokens[it.at].at, types.tokens[step.at].at
        words = f"write `{carried} *` before `{types.tokens[it.at].text}` at {text.place(start)}, in the type, and "
        where = "it" if step.at == self.step.at else f"`{types.tokens[step.at].text}` at {text.place(at)}"
        words += f"`send self {asset};` before {where}"
        return words, ((at, at, f"send self {asset}; "), (start, start, f"{carried} * "))


def values_of(names, head, index):
    """Gives the values that are bound on the way from the head of a process to an instruction."""
    found = [at for at in range(head, index) if names.declared(at) == "value" and names.leads(at, index)]
    return [names.tokens[at].text for at in found]
