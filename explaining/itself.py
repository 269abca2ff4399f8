"""A contract that a process acquires while it holds it already, so that it waits for itself in every order: a remark on
a contract that is accepted."""
from .found import Found
from .held import Types
from .mends import mend
from .names import MOST_TOKENS, unused
from .texts import LONGEST

# How many instructions are looked at.
MOST_STEPS = 20_000


class Way:
    """The way to an instruction: by each name of a contract the first one that this contract had, by the latter under
    which name it is held, and the instruction at which it came to that."""

    def __init__(self, roots, held, acquired):
        self.roots, self.held, self.acquired = roots, held, acquired

    def copy(self):
        return Way(dict(self.roots), dict(self.held), dict(self.acquired))

    def root(self, name):
        return self.roots.get(name, name)

    def step(self, words, form, at):
        """Takes in an instruction, and gives the name under which a contract is held that it acquires, if one is."""
        if form == "acquire":
            root = self.root(words[1])
            if root in self.held:
                return self.held[root]
            self.held[root], self.acquired[words[3]] = words[3], root
        elif form == "release":
            root = self.acquired.get(words[1])
            self.held.pop(root, None)
            self.roots[words[3]] = root
        return None


def found(types):
    """Gives the first instruction in order of text that acquires a contract which is held, with the name under which it
    is held, or nothing."""
    rows, count = [], 0
    for process in types.processes.values():
        waiting = [(process.first, Way({}, {}, {}))]
        while waiting and count < MOST_STEPS:
            step, way = waiting.pop()
            count += 1
            words = [it.text for it in types.tokens[step.at : step.end]]
            name = way.step(words, step.form, step.at)
            if name:
                rows.append((step.at, name, step))
            else:
                waiting += [(further, way.copy()) for _, further in step.behind]
    return min(rows, key=lambda it: it[0]) if rows else None


def releases(types, step, name):
    """Gives the instructions behind one that release a contract which is held under this name."""
    waiting, rows = [it for _, it in step.behind], []
    while waiting:
        it = waiting.pop()
        words = [token.text for token in types.tokens[it.at : it.end]]
        if words[:2] == ["release", name]:
            rows.append(it)
        else:
            waiting += [further for _, further in it.behind]
    return rows


def released(text, types, step, name, program):
    """Gives a line that releases the contract before it is acquired again, under the name that it has behind that,
    where the contract is accepted so."""
    rows, start = releases(types, step, name), types.tokens[step.at]
    names = {types.tokens[it.at + 3].text for it in rows}
    new = names.pop() if len(names) == 1 else unused(text)
    if any(it.text == new for it in types.tokens[step.at : min((row.at for row in rows), default=step.at)]):
        return []
    edits = [(start.at, start.at, f"release {name} as {new}; ")]
    edits += [(types.tokens[it.at].at, types.tokens[it.end].end, "") for it in rows]
    if not rows or not program.check(text.edited(*edits)).is_accepted:
        return []
    where = ", ".join(text.place(types.tokens[it.at].at) for it in rows)
    return [mend(f"write `release {name} as {new};` before it, and not at {where}", *edits)]


def explained(text, answer, program, grammar):
    """Gives what is found of an accepted contract: the first such place."""
    acquires = [it for it in text.tokens if it.text == "acquire"]
    if len(acquires) < 2 or text.size > LONGEST or len(text.tokens) > MOST_TOKENS:
        return []
    types = Types(text, grammar)
    place = found(types)
    if place is None:
        return []
    at, name, step = place
    token, contract = types.tokens[at], types.tokens[at + 1].text
    lines = released(text, types, step, name, program)
    see = f"see: `{contract}` is held here as `{name}`, and waits until it is released"
    return [Found(text, token.at, "remark", "remark wait", [*lines, see], answer.words)]
