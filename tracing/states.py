"""The types of a contract as state machines, in the words of Graphviz: seen by who offers the channel, `!` is sent and
`?` is heard."""
from explaining.grammar import Grammar
from explaining.held import PROVIDED, Types
from explaining.names import MOST_TOKENS

from .calling import TOP, Refused

SENT, HEARD, SHARED = ("#e2f3e5", "#2a7f3e"), ("#e3edfa", "#1b5fa8"), ("#fff3d6", "#8a6d00")
FONT = 'fontname="Helvetica"'
HEAD = [
    "digraph types {", f'  rankdir=TB; node [shape=box, style="rounded,filled", fillcolor=white, {FONT}, fontsize=11];',
    f"  edge [{FONT}, fontsize=10];",
]


def quoted(text):
    return '"' + text.replace("\\", "\\\\").replace('"', '\\"') + '"'


def bare(text):
    """Gives a type without parentheses around all of it."""
    depth = 0
    for at, it in enumerate(text):
        depth += (it == "(") - (it == ")")
        if not depth:
            break
    return bare(text[1:-1].strip()) if text.startswith("(") and at == len(text) - 1 else text


class Drawing:
    """The nodes and arrows of the types of a text."""

    def __init__(self, types):
        self.types, self.lines = types, []
        self.modes = {types.tokens[at + 2].text: types.tokens[at + 1].text for at, it in enumerate(types.tokens)
                      if it.text == "type"}

    def colours(self, it):
        return SHARED if it.sign in ("up", "down") else SENT if it.sign in PROVIDED else HEARD

    def cluster(self, name):
        """Draws what may happen on a channel of the type of a name."""
        self.lines.append(f'  subgraph "cluster_{name}" {{ label="type {self.modes[name]} {name}"; {FONT}; '
                          'color="#999999";')
        self.name, self.nodes = name, {}
        self.state(self.types.bodies[name])
        self.lines.append("  }")

    def first(self, it):
        """Gives the node of a type that is only a name, which its own cluster draws; of a name that stands for a name,
        that of the last one."""
        name = self.types.name(it)
        while self.types.bodies[name].sign == "name":
            name = self.types.name(self.types.bodies[name])
        return f"{name}_0"

    def state(self, it):
        """Gives the node of a type, and draws it where that is new."""
        if it.sign == "name":
            return self.first(it)
        said = bare(self.types.said(it.at, it.end))
        if said in self.nodes:
            return self.nodes[said]
        number = len(self.nodes)
        node = self.nodes[said] = f"{self.name}_{number}"
        shape = f"label={quoted(self.name)}, shape=box" if not number else 'label="", shape=circle'
        more = "" if not number else f", width=0.18, fixedsize=true, tooltip={quoted(said)}"
        fill, colour = self.colours(it)
        self.lines.append(f'    {node} [{shape}, fillcolor="{fill}"{more}];')
        for label, further in self.ways(it):
            end = self.state(further) if further else self.end(node)
            drawn = f'label={quoted(f" {label} ")}, color="{colour}", fontcolor="{colour}"'
            self.lines.append(f"    {node} -> {end} [{drawn}];")
        return node

    def end(self, node):
        self.lines.append(f'    {node}_end [shape=doublecircle, label="", width=0.12, fillcolor=black];')
        return f"{node}_end"

    def ways(self, it):
        """Gives what may happen at a type, each with the type behind it, or with none where the talk ends."""
        sign, further = "!" if it.sign in PROVIDED else "?", it.parts[-1] if it.parts else None
        if it.sign in ("+", "&"):
            return [(f"{sign} {label}", behind) for label, behind in it.parts]
        if it.sign in ("*", "-o"):
            return [(f"{sign} {self.types.said(it.parts[0].at, it.parts[0].end)}", further)]
        if it.sign in ("/\\", "->"):
            arrow = next(at for at in range(it.at, it.end) if self.types.tokens[at].text == it.sign)
            return [(f"{sign} {self.types.said(it.at, arrow).lstrip('(')}", further)]
        if it.sign in ("|", "<"):
            return [(f"{sign} {self.types.amount(it)} gas", further)]
        return [({"up": "acquire", "down": "release"}.get(it.sign, "! closes"), further)]


def states(text, names):
    """Gives the lines of a graph of the types of these names, or of all."""
    if len(text.tokens) > MOST_TOKENS:
        raise Refused(f"this contract has more tokens than are drawn, {MOST_TOKENS}")
    with open(f"{TOP}/docs/LANGUAGE.md", encoding="latin-1") as page:
        drawing = Drawing(Types(text, Grammar(page.read())))
    for it in names:
        if it not in drawing.types.bodies:
            raise Refused(f"this contract has no type of the name {it}")
    for name, body in drawing.types.bodies.items():
        if (not names or name in names) and body.sign != "name":
            drawing.cluster(name)
    return [*HEAD, *drawing.lines, "}"]
