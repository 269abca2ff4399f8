"""Which argument of a line of a script does not fit the parameter of the process that the line starts."""
from typing import NamedTuple

from .amounts import closing
from .mends import Mend, mend
from .syntax import distance, nearest
from .texts import listed, tokens_of


# How many contracts are tried for a parameter.
MOST_TRIED = 12


def fits(kind, value):
    """Whether a value is of a kind, of which the words are given."""
    if kind[0] == "list":
        return isinstance(value, list) and all(fits(kind[1:], it) for it in value)
    return isinstance(value, bool) if kind[0] == "bool" else isinstance(value, int) and not isinstance(value, bool)


def kind_of(value):
    if isinstance(value, list):
        return "a list"
    return "a truth value" if isinstance(value, bool) else "a number"


def flattened(value):
    """Gives what a list has that is no list, in the lists in it too."""
    return [it for part in value for it in (flattened(part) if isinstance(part, list) else [part])]


def words_of(kind, value):
    """Gives a number or a truth value as one of a kind, where it is one that others write so."""
    if kind == "bool":
        return str(value).lower() if isinstance(value, bool) else ("false", "true")[value] if value in (0, 1) else None
    return str(int(value))


def counted(count, what):
    return f"{count or 'no'} {what}{'s' if count > 1 else ''}"


def taken(wanted, given, what):
    """Gives in words how many arguments these parameters take, and how many stand there."""
    rows = "".join(f", `{it.name}: {it.type}`" for it in wanted)
    stands = "stand" if given > 1 else "stands"
    return f"it takes {counted(len(wanted), what)}{rows}; here {stands} {counted(given, what)}"


class Made(NamedTuple):
    """A line of a script that makes a contract: as it is said, and as it is tried."""

    said: str
    tried: str


class Arguments:
    """The arguments of a line, and the parameters of its process."""

    def __init__(self, refused):
        self.refused, self.run, self.line = refused, refused.run, refused.line
        self.process = self.run.codes.processes[self.line.process.text]
        self.values, self.names = self.line.arguments()
        self.wanted_values = [it for it in self.process.parameters if it.kind != "channel"]
        self.wanted_names = self.process.of_kind("channel")
        self.known = self.run.contracts(refused.number, self.line.number)

    def declared(self):
        place = self.run.text.place(self.run.codes.tokens[self.process.at].at)
        return f"`{self.process.name}` is declared at {place}"

    def find(self):
        """Gives the place, the row, and lines for the first argument that does not fit."""
        for it in self.process.parameters:
            is_asset = it.kind == "channel" and not self.is_shared(it.type)
            if is_asset or it.kind == "list":
                what = "an asset" if is_asset else "a list that carries potential"
                see = f"see: {self.declared()}, and its parameter `{it.name}` is {what}"
                return self.line.process.at, "BadArguments asset", [*self.of_making(), see]
        return self.of_count() or self.of_values() or self.of_names() or (self.line.process.at, "BadArguments", [])

    def of_making(self):
        """Gives lines on the processes that a line can start and that offer the same as this one."""
        token, found = self.line.process, []
        for it in self.run.codes.processes.values():
            is_free = all(other.kind == "value" or self.is_shared(other.type) for other in it.parameters)
            if (it.mode, it.offers) == ("S", self.process.offers) and is_free and self.line.word == "let":
                found.append(it.name)
        found = [it for it in found if self.goes_on_as(it)] or found
        does = [it for it in found[:MOST_TRIED] if self.refused.goes_on((token.at, token.end, it))]
        where = f"which makes one, in place of `{token.text}`"
        mends = [mend(f"write `{it}`, {where}", (token.at, token.end, it)) for it in does[:3]]
        return mends or [line for name in found[:1] for line in self.with_others(name)]

    def with_others(self, name):
        """Gives a line on a process that makes one, and takes other arguments."""
        process, token, last = self.run.codes.processes[name], self.line.process, self.line.tokens[-1]
        rows = process.of_kind("value"), process.of_kind("channel")
        values = ", ".join({"int": "0", "bool": "true"}.get(it.type, "[]") for it in rows[0])
        names = ", ".join(suits[0] for suits in map(self.suiting, rows[1]) if suits)
        edit = (token.at, last.end, f"{name}({values};{' ' if names else ''}{names})")
        said = f"{name}({'..' if rows[0] else ''};{' ..' if rows[1] else ''})"
        words = f"write `{said}`, which makes one, in place of `{token.text}(..)`"
        return [mend(words, edit)] if self.refused.goes_on(edit) else [f"see: `{name}` makes one"]

    def goes_on_as(self, name):
        """Whether a process calls the one of the line."""
        tokens, at = self.run.codes.tokens, self.run.codes.processes[name].at
        heads = [it for it in range(at, len(tokens)) if tokens[it].text in ("type", "fn", "proc")]
        words = [it.text for it in tokens[at : heads[0] if heads else len(tokens)]]
        return ("call", self.process.name) in zip(words, words[1:])

    def is_shared(self, type):
        while type.startswith("(") and closing(tokens_of(type), 0) == len(tokens_of(type)) - 1:
            type = type[1:-1].strip()
        words = type.split()
        return words[0] == "up" or len(words) == 1 and words[0] in self.run.codes.shared

    def of_count(self):
        pairs = ((self.values, self.wanted_values, "value"), (self.names, self.wanted_names, "contract"))
        lines = []
        if len(self.values) < len(self.wanted_values):
            lines += self.unlisted()
        if len(self.values) > len(self.wanted_values):
            lines += self.enlisted() or self.fewer()
        if len(self.names) > len(self.wanted_names):
            lines += self.fewer_names()
        for given, wanted, what in pairs:
            if len(given) != len(wanted):
                lines.append(f"see: {taken(wanted, len(given), what)}")
        if not lines:
            return None
        completed = [] if any(isinstance(it, Mend) for it in lines) else self.completed()
        lines = [*completed, f"see: {self.declared()}", *lines]
        lines.sort(key=lambda it: not isinstance(it, Mend))
        return self.line.process.at, "BadArguments count", lines

    def unlisted(self):
        """Gives a line for values that stand in one list, and are wanted one by one."""
        it = self.values[0] if len(self.values) == 1 else None
        if it is None or not isinstance(it.value, list) or len(it.value) != len(self.wanted_values):
            return []
        edit = (it.tokens[0].at, it.tokens[-1].end, it.text[1:-1].replace(",", ", "))
        words = f"write `{edit[2]}` in place of `{it.text}`"
        return [mend(words, edit)] if self.refused.goes_on(edit) else []

    def fewer(self):
        """Gives a line for the values that are more than the process takes, the last ones."""
        count = len(self.wanted_values)
        out, kept = self.values[count:], self.values[:count]
        start = kept[-1].tokens[-1].end if kept else out[0].tokens[0].at
        edit = (start, out[-1].tokens[-1].end, "")
        said = ", ".join(it.text for it in out)
        return [mend(f"take `{said}` out", edit)] if self.refused.goes_on(edit) else []

    def fewer_names(self):
        """Gives a line for the contracts that are more than the process takes, the last ones."""
        count = len(self.wanted_names)
        out, kept = self.names[count:], self.names[:count]
        start = kept[-1].tokens[-1].end if kept else out[0].tokens[0].at
        edit = (start, out[-1].tokens[-1].end, "")
        said = ", ".join(it.text for it in out)
        twice = {it.text for it in out} <= {it.text for it in kept}
        return [mend(f"take `{said}` out", edit)] if self.refused.goes_on(edit) and not twice else []

    def making(self):
        """Gives lines on what makes a contract of a type of which none is made so far."""
        if len(self.names) >= len(self.wanted_names):
            return []
        lacking = [it for it in self.wanted_names if not self.suiting(it)]
        return [mend(f"write `{it.said}` on a line before, and `{wanted.name}` behind the `;` here",
                     self.before(it), self.named_in(wanted))
                for wanted in lacking[:1] for it in self.makers(wanted) if wanted.name not in self.known]

    def named_in(self, wanted):
        """Gives the edit that writes the name of a parameter among the names of contracts, where it stands in the row
        of these."""
        place = self.wanted_names.index(wanted)
        if place < len(self.names):
            at = self.names[place].tokens[0].at
            return at, at, f"{wanted.name}, "
        last = self.line.tokens[-1].at
        return last, last, f", {wanted.name}" if self.names else f" {wanted.name}"

    def makers(self, wanted):
        """Gives lines of a script that make a contract for a parameter, three at most."""
        found = []
        for it in self.run.codes.processes.values():
            shared = [one for one in it.of_kind("channel") if self.is_shared(one.type)]
            is_free = len(it.of_kind("value")) + len(shared) == len(it.parameters)
            names = [self.suiting(one)[:1] for one in shared]
            if (it.mode, it.offers) == ("S", wanted.type) and is_free and all(names):
                values = ".." if it.of_kind("value") else ""
                tried = ", ".join({"int": "0", "bool": "true"}.get(one.type, "[]") for one in it.of_kind("value"))
                behind = f"{' ' if names else ''}{', '.join(name for row in names for name in row)}"
                head = f"let {wanted.name} = new {self.line.sender.text} {it.name}("
                found.append(Made(f"{head}{values};{behind})", f"{head}{tried};{behind})"))
        return found[:3]

    def before(self, made):
        """Gives the edit that writes the line which makes a contract before the batch of this one."""
        at = self.run.script.row(self.refused.number).at
        return at, at, f"{made.tried}\n"

    def enlisted(self):
        """Gives a line for the values that are those of the one list that is wanted."""
        at = [at for at, it in enumerate(self.wanted_values) if it.type.startswith("list")]
        if len(at) != 1:
            return []
        end = at[0] + len(self.values) - len(self.wanted_values)
        rows = self.values[at[0] : end + 1]
        old = ", ".join(it.text for it in rows)
        edit = (rows[0].tokens[0].at, rows[-1].tokens[-1].end, f"[{old}]")
        return [mend(f"write `[{old}]` in place of `{old}`", edit)] if self.refused.goes_on(edit) else []

    def completed(self):
        """Gives a line on the contracts that are left out, where one alone has the type of each that who pays here has
        made: what goes to it goes to nobody else."""
        given, names = [it.text for it in self.names], []
        for it in self.wanted_names:
            is_next = bool(given) and self.suits(given[0], it.type)
            payer = self.line.sender.text
            others = [] if is_next else [one for one in self.suiting(it) if self.known[one].sender.text == payer]
            others = [name for name in others if name not in names] or others
            if not is_next and len(others) != 1:
                return self.making()
            names.append(given.pop(0) if is_next else others[0])
        if given and set(given) <= set(names) and len(self.values) == len(self.wanted_values):
            last = self.line.tokens[-1]
            sign = next(it for it in self.line.tokens if it.text == ";")
            edit = (sign.at, last.end, f";{' ' if names else ''}{', '.join(names)})")
            words = f"take {listed(given)} out, which stands there already"
            return [mend(words, edit)] if self.refused.goes_on(edit) else []
        if not given and len(self.values) < len(self.wanted_values):
            return self.valued(names)
        if given or len(self.values) != len(self.wanted_values) or len(names) == len(self.names):
            return self.making()
        tokens = self.line.tokens
        sign = next(it for it in tokens if it.text == ";")
        edit = (sign.at, tokens[-1].end, f"; {', '.join(names)})")
        words = f"write `{', '.join(names)}` behind the `;`"
        return [mend(words, edit)] if self.refused.goes_on(edit) else []

    def of_values(self):
        for it, wanted in zip(self.values, self.wanted_values):
            if not fits(wanted.type.split(), it.value):
                see = f"see: {self.declared()}, and `{wanted.name}` is of the kind `{wanted.type}`"
                is_near = wanted.type.startswith("list") and isinstance(it.value, list)
                what = "a list of other elements" if is_near else kind_of(it.value)
                mends = self.sorted() or self.turned(it, wanted.type.split()) or self.other(it, wanted.type.split())
                lines = [*mends, f"{see}; `{it.text}` is {what}"]
                return it.tokens[0].at, "BadArguments kind", lines
        return None

    def other(self, argument, kind):
        """Gives a line for another value, of the kind that is wanted."""
        said, new = {"int": ("a number", "0"), "bool": ("`true` or `false`", "true")}.get(kind[0], ("a list", "[]"))
        edit = (argument.tokens[0].at, argument.tokens[-1].end, new)
        words = f"write {said} in place of `{argument.text}`"
        return [mend(words, edit)] if self.refused.goes_on(edit) else []

    def valued(self, names):
        """Gives a line on the values that are left out, with the names of contracts behind them."""
        token, last = self.line.process, self.line.tokens[-1]
        left = self.wanted_values[len(self.values) :]
        known = [it.text for it in self.values]
        tried = ", ".join([*known, *({"int": "0", "bool": "true"}.get(it.type, "[]") for it in left)])
        behind = f";{' ' if names else ''}{', '.join(names)})"
        edit = (token.end, last.end, f"({tried}{behind}")
        said = f"{token.text}({', '.join([*known, '..'])}{behind}"
        kinds = listed([f"{it.name}: {it.type}" for it in left])
        words = f"write `{said}`, with {counted(len(left), 'value')} for {kinds}"
        return [mend(words, edit)] if self.refused.goes_on(edit) else []

    def sorted(self):
        """Gives a line for the same values in the order of the parameters, where their kinds tell it."""
        left, found = list(self.values), []
        for wanted in self.wanted_values:
            it = next((it for it in left if fits(wanted.type.split(), it.value)), None)
            if it is None:
                return []
            left.remove(it)
            found.append(it.text)
        edit = (self.values[0].tokens[0].at, self.values[-1].tokens[-1].end, ", ".join(found))
        old = ", ".join(it.text for it in self.values)
        return [mend(f"write `{edit[2]}` in place of `{old}`", edit)] if self.refused.goes_on(edit) else []

    def turned(self, argument, kind):
        """Gives a line on the same value as one of another kind: a list of it alone, what a list has alone, or the
        truth value that other languages write as 0 or 1."""
        value, new = argument.value, ""
        is_list = isinstance(value, list) and kind in (["list", "int"], ["list", "bool"])
        flat = flattened(value) if is_list else []
        turned = [words_of(kind[1], it) for it in flat]
        if turned and None not in turned:
            new = f"[{', '.join(turned)}]"
        elif kind[0] == "list" and fits(kind[1:], value):
            new = f"[{argument.text}]"
        elif isinstance(value, list) and len(value) == 1 and fits(kind, value[0]):
            new = argument.text[1:-1]
        elif kind[0] == "bool" and value in (0, 1):
            new = ("false", "true")[value]
        elif kind[0] == "int" and isinstance(value, bool):
            new = str(int(value))
        edit = (argument.tokens[0].at, argument.tokens[-1].end, new)
        does = new and self.refused.goes_on(edit)
        return [mend(f"write `{new}` in place of `{argument.text}`", edit)] if does else []

    def of_names(self):
        for it, wanted in zip(self.names, self.wanted_names):
            if it.text not in self.known:
                suits = self.suiting(wanted)
                see = self.made(suits) if suits else f"see: no contract of the type `{wanted.type}` is made so far"
                is_named = it.text.isidentifier() and not suits
                makes = self.makers(wanted._replace(name=it.text)) if is_named and not self.of_account(it.text) else []
                makes = [mend(f"write `{made.said}` on a line before", self.before(made)) for made in makes]
                meant = self.refused.meant(it.tokens[0], nearest(it.text, suits))
                others = meant or self.of_type_name(it, wanted, suits) or self.of_one(it.tokens[0], suits)
                lines = self.made_elsewhere(it.text) or others or [*makes, *self.of_account(it.text), see]
                return it.tokens[0].at, "BadArguments name", lines
        for it, wanted in zip(self.names, self.wanted_names):
            if self.suits(it.text, wanted.type) is False:
                return self.of_type(it, wanted)
        return None

    def made_elsewhere(self, name):
        """Gives a line on the line of the script that makes a contract of this name, if one does."""
        for row in self.run.script.rows:
            if row.word == "let" and row.contract.text == name:
                place = self.run.script.place(row.contract.at)
                if row.number > self.line.number:
                    return [*self.moved_behind(row), f"see: `{name}` is made at {place}, behind this line"]
                return [f"see: `{name}` was to be made at {place}, and that was not carried out"]
        return []

    def moved_behind(self, row):
        """Gives a line for this line behind the one that makes the contract, where neither stands in a batch."""
        script, line = self.run.script, self.line
        inside = [it.word for it in script.rows[: row.number - 1] if it.word in ("begin", "end")][-1:] == ["begin"]
        edits = (line.at, line.end + 1, ""), (row.end, row.end, f"\n{line.text}")
        number = self.refused.number
        if number != line.number and row.number <= script.batch(number)[1]:
            does = self.run.end(number, *edits)[0] == "committed"
            return [mend(f"write this line behind line {row.number}", *edits)] if does else []
        if line.number != number or inside or script.row(line.number).word == "begin":
            return []
        answer = self.run.asked(row.number, *edits)
        is_made = answer is not None and answer.status in (0, 3) and answer.entries[-1][0][2:3] != ["refused"]
        return [mend(f"write this line behind line {row.number}", *edits)] if is_made else []

    def of_one(self, token, suits):
        """Gives a line for the one contract that has the type: what is meant, where its name is one letter away, or
        where no other contract is made at all, since else somebody could get what is another's."""
        edit = (token.at, token.end, suits[0] if suits else "")
        if len(suits) != 1 or self.made_elsewhere(token.text) or not self.refused.goes_on(edit):
            return []
        if distance(suits[0], token.text) == 1:
            return [mend(f"did you mean `{suits[0]}`?", edit)]
        is_known = token.text in self.run.codes.processes or self.of_account(token.text) or len(self.known) > 1
        words = f"write `{suits[0]}`, the one contract of this type, in place of `{token.text}`"
        return [] if is_known or not token.text.isidentifier() else [mend(words, edit)]

    def of_type_name(self, argument, wanted, suits):
        """Gives a line where the name is that of the type, or of a process that offers it, and one contract alone has
        this type."""
        token, processes = argument.tokens[0], self.run.codes.processes
        is_type = token.text == wanted.type or token.text in processes and processes[token.text].offers == wanted.type
        edit = (token.at, token.end, suits[0] if suits else "")
        if not is_type or len(suits) != 1:
            return []
        if not self.refused.goes_on(edit):
            return self.of_type_names()
        what = "type" if token.text == wanted.type else "process"
        return [mend(f"write `{suits[0]}`, which is of this {what}, in place of `{token.text}`", edit)]

    def of_type_names(self):
        """Gives a line where several names are those of types, of each of which there is one contract."""
        edits, new = [], []
        for it, wanted in zip(self.names, self.wanted_names):
            suits = self.suiting(wanted)
            is_known = it.text in self.known
            if not is_known and (len(suits) != 1 or it.text != wanted.type):
                return []
            new.append(it.text if is_known else suits[0])
            edits += [] if is_known else [(it.tokens[0].at, it.tokens[-1].end, suits[0])]
        if not edits or not self.refused.goes_on(*edits):
            return []
        said, old = ", ".join(new), ", ".join(it.text for it in self.names)
        return [mend(f"write `{said}`, which are of these types, in place of `{old}`", *edits)]

    def of_account(self, name):
        accounts = [it.tokens[1].text for it in self.run.before(self.refused.number, "deposit")]
        return [f"see: `{name}` is an account, and a contract is wanted here"] if name in accounts else []

    def suiting(self, wanted):
        """Gives the contracts that a parameter may be given, of the first ones that are made."""
        return [name for name in list(self.known)[:MOST_TRIED] if self.suits(name, wanted.type)]

    def made(self, names):
        return f"see: contracts of this type are {listed(names)}"

    def of_type(self, argument, wanted):
        """Gives what is said of a contract of another type."""
        made = self.run.codes.processes[self.known[argument.text].process.text]
        see = f"see: {self.declared()}, and `{wanted.name}` is `{wanted.type}`; `{argument.text}` is `{made.offers}`"
        others, token = self.suiting(wanted), argument.tokens[0]
        does = [name for name in others[:3] if self.refused.goes_on((token.at, token.end, name))]
        where = f"in place of `{argument.text}`"
        mends = [mend(f"write `{name}` {where}", (token.at, token.end, name)) for name in does] or self.changed(token)
        if not mends and not others and wanted.name not in self.known:
            mends = [mend(f"write `{it.said}` on a line before, and `{wanted.name}` in place of `{argument.text}`",
                          self.before(it), (token.at, token.end, wanted.name))
                     for it in self.makers(wanted)]
        return token.at, "BadArguments type", [*mends, see, *([self.made(others)] if others and not mends else [])]

    def changed(self, token):
        """Gives a line for the other name with which this one has changed places."""
        for it in (other.tokens[0] for other in self.names):
            edits = (token.at, token.end, it.text), (it.at, it.end, token.text)
            if it.at > token.at and self.refused.goes_on(*edits):
                return [mend(f"let `{token.text}` and `{it.text}` change places", *edits)]
        return []

    def suits(self, name, type):
        """Whether a contract has a type, as the program says of a transaction that takes one of it; none where it is
        not told."""
        if "*}" in type.replace(" ", ""):
            return None
        process, script = "n" + "x" * 40, self.run.script
        contract = self.run.text.data + f"\nproc T {process}(; c: {type}) {{1}} = close;\n".encode("latin-1")
        start = script.row(self.refused.number)
        rows = [it for it in script.batch(self.refused.number)[0] if it.number < self.line.number and it.word == "let"]
        lines = "".join(f"{it.text}\n" for it in rows) + f"exec {self.line.sender.text} {process}(; {name})\n"
        if start.word == "begin":
            lines = f"begin\n{lines}end\n"
        answer = self.run.asked(start.number, (start.at, start.end, lines), contract=contract)
        if answer is None or answer.status not in (0, 3):
            return None
        return "BadArguments" not in answer.entries[-1][0]
