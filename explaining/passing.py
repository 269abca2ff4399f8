"""Which argument of a `spawn` or a `call` does not fit the parameter of the process."""
from .arguments import taken
from .counted import completed, of_two, shortened
from .kinds import KINDS
from .mends import mend
from .names import unused
from .renamed import fresh


def separated(tokens, start, end):
    """Gives from which token to which the arguments stand that have a comma between them."""
    depth, begin = 0, start
    for at in range(start, end + 1):
        text = tokens[at].text
        depth += (text in "({") - (text in ")}")
        if begin < at and (at == end or text == "," and depth == 0):
            yield begin, at
            begin = at + 1


class Passed:
    """The arguments of an instruction, and the parameters of its process: values and lists, and channels."""

    def __init__(self, types, step, held, program):
        self.types, self.step, self.held, self.program = types, step, held, program
        tokens = types.tokens
        at = next(at for at in range(step.at, step.end) if types.used(at) == "process")
        self.name, self.process = tokens[at], types.processes[tokens[at].text]
        opening, semicolon = at + 1, self.semicolon(at + 1)
        self.values = list(separated(tokens, opening + 1, semicolon))
        self.names = [tokens[it] for it in range(semicolon + 1, step.end - 1) if tokens[it].text != ","]
        self.wanted_values = [it for it in self.process.parameters if it.kind != "channel"]
        self.wanted_names = self.process.of_kind("channel")

    def semicolon(self, opening):
        return next(at for at in range(opening, self.step.end) if self.types.tokens[at].text == ";")

    def of_count(self):
        sides = ((self.values, self.wanted_values, "value"), (self.names, self.wanted_names, "channel"))
        yield from (*completed(self), *shortened(self))
        for given, wanted, what in sides:
            if len(given) != len(wanted):
                yield f"see: {taken(wanted, len(given), what)}"

    def of_named(self):
        """A line for the same values without the names of the parameters, in the order of these."""
        tokens, known = self.types.tokens, {}
        names = [it.name for it in self.wanted_values]
        for start, end in self.values:
            is_named = tokens[start].text in names and tokens[start + 1].text == "=" and start + 2 < end
            if not is_named or tokens[start].text in known:
                return
            known[tokens[start].text] = self.types.said(start + 2, end)
        if set(known) == set(names) and known:
            new = ", ".join(known[name] for name in names)
            edit = (tokens[self.values[0][0]].at, tokens[self.values[-1][1] - 1].end, new)
            if self.goes_past(self.types.text.edited(edit)):
                yield mend(f"write the values alone, in the order of the parameters: `{new}`", edit)

    def of_lists(self):
        """Lines on lists that carry potential in the place of values, and the other way round."""
        for (start, end), wanted in zip(self.values, self.wanted_values):
            bound = self.types.known_otherwise(start) if end == start + 1 and self.types.used(start) else None
            is_list = bound is not None and bound[1] == "list"
            said = self.types.said(start, end)
            if wanted.kind == "list" and not is_list:
                yield from self.of_nil(start, end, wanted, said)
                yield f"see: `{wanted.name}` is a list that carries potential, and `{said}` is a value"
            if wanted.kind == "value" and is_list:
                yield f"see: `{wanted.name}` is a value, and `{said}` is a list that carries potential"

    def of_nil(self, start, end, wanted, said):
        """A line for an empty list that carries potential, in the place of an empty one that is a value."""
        tokens = self.types.tokens
        if tokens[start].text != "nil":
            return
        name = fresh(self.types.text, wanted.name)
        at, code = tokens[self.step.at].at, f"let {name} = {wanted.type};"
        edits = (at, at, f"{code} "), (tokens[start].at, tokens[end - 1].end, name)
        if self.goes_past(self.types.text.edited(*edits)):
            yield mend(f"write `{code}` before it, and `{name}` in place of `{said}`", *edits)

    def of_kinds(self):
        """Lines on terms of another kind than the parameter: with a value of this kind in its place, the check goes
        on."""
        tokens = self.types.tokens
        for (start, end), wanted in zip(self.values, self.wanted_values):
            words = wanted.type.split()
            value = {"int": "0", "bool": "true"}.get(words[0], f"nil {' '.join(words[1:])}")
            edit = (tokens[start].at, tokens[end - 1].end, value)
            if wanted.kind == "value" and self.goes_past(self.types.text.edited(edit)):
                yield from of_two(self, start, end, wanted)
                yield from self.of_head(wanted)
                yield f"see: `{wanted.name}` is of the kind `{wanted.type}`, and `{self.types.said(start, end)}` is not"

    def of_head(self, wanted):
        """Lines for another kind of a parameter in the head of the process, with which the check goes on."""
        types, tokens = self.types, self.types.tokens
        at = next(at for at in range(self.process.at, len(tokens)) if tokens[at].text == wanted.name)
        end = next(it for it in range(at, len(tokens)) if tokens[it].text in (",", ";"))
        for kind in (it for it in KINDS if it != wanted.type):
            edit = (tokens[at + 2].at, tokens[end - 1].end, kind)
            after = self.program.check(types.text.edited(edit))
            moved = (len(kind) - len(wanted.type)) * (edit[0] < tokens[self.step.at].at)
            is_behind = (after.is_cause("ProcType") or after.is_cause("TermType")) and \
                after.offset > tokens[self.step.at].at + moved
            if after.is_accepted or after.is_cause("NoPotential") or is_behind:
                yield mend(f"write `{kind}` in place of `{wanted.type}` at {types.text.place(edit[0])}", edit)

    def of_twice(self):
        """Lines on assets that are passed more than once."""
        for it in dict.fromkeys(token.text for token in self.names):
            bound = self.held.get(it)
            if bound and not self.types.is_shared(bound.type) and [token.text for token in self.names].count(it) > 1:
                yield from self.of_other(it)
                yield f"see: `{it}` is passed more than once, and a channel has one owner"

    def of_other(self, name):
        """Lines for another asset that is held, in the second place of one that is passed twice."""
        second = [token for token in self.names if token.text == name][1]
        for other, bound in self.held.items():
            if other not in ("self", *(token.text for token in self.names)) and not self.types.is_shared(bound.type):
                edit = (second.at, second.end, other)
                if self.goes_past(self.types.text.edited(edit)):
                    yield mend(f"write `{other}` in place of the second `{name}`, since a channel has one owner", edit)

    def of_types(self):
        """Lines on channels of other types than the parameters: with these types as those of a copy of the process,
        the check goes on."""
        pairs = [(it.text, wanted) for it, wanted in zip(self.names, self.wanted_names) if it.text in self.held]
        at = {name: self.types.said(*self.held[name].type[:2]) for name, _ in pairs}
        left = [(name, wanted) for name, wanted in pairs if at[name] != wanted.type]
        if not left or not self.goes_on({wanted.name: at[name] for name, wanted in left}):
            return
        for it in list(left):
            less = [other for other in left if other is not it]
            if self.goes_on({wanted.name: at[name] for name, wanted in less}):
                left = less
        for name, wanted in left:
            yield f"see: `{wanted.name}` is wanted at `{wanted.type}`, and `{name}` is at `{at[name]}`"

    def goes_on(self, changed):
        """Whether the check goes on with a copy of the process in which the parameters have these types."""
        copy, text = unused(self.types.text), self.types.text
        data = text.edited((self.name.at, self.name.end, copy)) + b"\n" + self.copied(copy, changed)
        return self.goes_past(data)

    def goes_past(self, data):
        """Whether the check of a text that is changed behind the start of the instruction goes on past it."""
        after = self.program.check(data)
        stuck = self.types.tokens[self.step.at].at
        is_behind = (after.is_cause("ProcType") or after.is_cause("TermType")) and after.offset > stuck
        return after.is_accepted or after.is_cause("NoPotential") or is_behind

    def copied(self, copy, changed):
        types, tokens = self.types, self.types.tokens
        head, edits = self.process.at - 2, []
        for at in range(head, self.process.first.at):
            if types.key(at) == ("cpar", 0) and tokens[at].text in changed:
                it = types.type(at + 2)
                edits.append((tokens[it.at].at, tokens[it.end - 1].end, changed[tokens[at].text]))
        heads = [at for at in range(self.process.at, len(tokens)) if tokens[at].text in ("type", "fn", "proc")]
        end = tokens[heads[0]].at if heads else types.text.size
        edits = [(tokens[head + 2].at, tokens[head + 2].end, copy), *edits]
        return types.text.edited((0, tokens[head].at, ""), *edits, (end, types.text.size, ""))


def passed(types, step, held, program):
    """Gives lines on the arguments that do not fit."""
    it = Passed(types, step, held, program)
    found = list(it.of_named()) or list(it.of_count())
    return found or [*it.of_lists(), *it.of_kinds(), *(list(it.of_twice()) or it.of_types())]
