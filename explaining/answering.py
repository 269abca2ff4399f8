"""The code of a branch that is missing, by the type of its label: what the talk takes and says up to its end."""
from .held import PROVIDED

# How many instructions such a code has at most, and how the kinds of values are put.
MOST = 12
VALUES = {"int": "0", "bool": "true"}


class Answers:
    """Codes by which a talk comes to its end: what comes is received under new names, and an asset that came goes on
    where one of its type is due, or to the process that goes on, or else comes to its end, and is lost. Where the
    process may choose a label, it is the one that leads to the shortest code, and the last one of several."""

    def __init__(self, types, held, new, process, values):
        self.types, self.held, self.process, self.values = types, held, process, values
        self.new, self.lost, self.label = new, [], ""
        self.known = {it.name: it.type for it in process.of_kind("value") if it.name in values}
        self.own = {name: it.type for name, it in held.items() if name != "self" and not types.is_shared(it.type)}

    def value(self, kind):
        """Gives the value that is put: of the name of the label, or the one that is known of its kind, or else one that
        the writer is to choose."""
        known = [name for name, has in self.known.items() if has == kind]
        if self.label in known or len(known) == 1:
            return self.label if self.label in known else known[0]
        return VALUES.get(kind) or kind.replace("list", "nil", 1)

    def code(self, name, it, last, again, label=""):
        """Gives the code on a channel at a type, with the instruction that the process ends with, or with the call by
        which it goes on as itself, or nothing."""
        self.name, self.last, self.again, self.label = name, last, again, label
        self.left = {other: has for other, has in self.own.items() if other != name}
        rows = self.rows(it, {}, MOST)
        return None if rows is None else " ".join(rows)

    def said(self, it):
        return self.types.said(*it[:2])

    def rows(self, it, assets, left):
        """Gives the instructions up to the end, with these assets that came so far, or nothing."""
        whole, name = self.types.unfolded(it), self.name
        is_sent = (whole.sign in PROVIDED) == (name == "self")
        if left == 0:
            return None
        if name == "self" and self.process.mode == "R" and self.said(it) == self.process.offers:
            return [self.again] if not assets and self.left.keys() == self.own.keys() else None
        if whole.sign in ("down", "1"):
            ends = {("down", True): ["detach;"], ("down", False): [f"release {name} as {self.new}r;"],
                    ("1", True): [], ("1", False): [f"wait {name};"]}
            behind = self.answer(assets, left) if name != "self" else self.behind(assets)
            return None if behind is None else [*ends[whole.sign, name == "self"], *behind]
        if whole.sign in ("+", "&"):
            found = [(label, self.rows(part, assets, left - 1)) for label, part in whole.parts] if is_sent else []
            found = [[f"{name}.{label};", *rows] for label, rows in found if rows is not None]
            return min(found[::-1], key=len, default=None)
        row, assets = self.row(whole, is_sent, assets, self.new + "x" * (MOST - left))
        further = self.rows(whole.parts[-1], assets, left - 1) if row else None
        return None if further is None else [row, *further]

    def answer(self, assets, left):
        """Gives what stands behind the talk on a channel: that of `self`, where it is under way."""
        own = self.held.get("self")
        if self.process.mode == "T" or own is None or self.types.is_shared(own.type):
            return self.behind(assets)
        self.name = "self"
        return self.rows(own.type, assets, left - 1)

    def row(self, whole, is_sent, assets, new):
        """Gives the instruction at a type by which one thing goes over the channel, received under a new name, and the
        assets behind it."""
        types, name = self.types, self.name
        if whole.sign in ("/\\", "->"):
            value = self.value(types.said(whole.at, whole.parts[-1].at - 1))
            return (f"put {name} {value};" if is_sent else f"take {name} {new};"), assets
        if whole.sign in ("|", "<"):
            return f"{'pay' if is_sent else 'get'} {name} {{{types.amount(whole)}}};", assets
        if whole.sign not in ("*", "-o"):
            return None, assets
        if not is_sent:
            return f"recv {name} {new};", {**assets, new: whole.parts[0]}
        fits = [other for other, it in assets.items() if self.said(it) == self.said(whole.parts[0])]
        if not fits:
            return None, assets
        return f"send {name} {fits[-1]};", {other: it for other, it in assets.items() if other != fits[-1]}

    def behind(self, assets):
        """Gives what stands behind the talk: where assets are left, a call that takes them, or what ends them."""
        is_same = not assets and self.left.keys() == self.own.keys()
        if is_same or not assets and self.process.mode in ("R", "T"):
            return [self.last]
        call = self.call(assets) if self.process.mode in ("S", "L") else None
        if call:
            return [call]
        rows = [self.ended(name, it, 4) for name, it in assets.items()]
        if None in rows:
            return None
        self.lost = list(dict.fromkeys([*self.lost, *assets]))
        return [*rows, self.last]

    def call(self, assets):
        """Gives a call of another process of the same mode that takes these assets, and what is held beside."""
        left = {**assets, **self.left}
        for it in self.types.processes.values():
            kinds, given, rest = it.of_kind("value"), [], dict(left)
            channels = it.of_kind("channel")
            for one in channels:
                fits = [name for name, has in rest.items() if self.said(has) == one.type]
                given += fits[:1]
                rest.pop(fits[0] if fits else "", None)
            is_whole = not rest and len(given) == len(channels) == len(it.parameters) - len(kinds)
            if it.mode != self.process.mode or not is_whole:
                continue
            values = [one.name if one.name in self.values else VALUES.get(one.type, one.type.replace("list", "nil", 1))
                      for one in kinds]
            return f"call {it.name}({', '.join(values)}; {', '.join(given)})"
        return None

    def ended(self, name, it, deep):
        """Gives the instructions by which an asset comes to its end by labels alone, or nothing."""
        whole = self.types.unfolded(it)
        if whole.sign == "1":
            return f"wait {name};"
        for label, part in whole.parts if whole.sign == "&" and deep else ():
            code = self.ended(name, part, deep - 1)
            if code:
                return f"{name}.{label}; {code}"
        return None
