"""What may stand in the place of something near a stuck instruction: another channel, another process that is spawned,
or what a value is sent by."""
from .amounts import closing
from .passing import separated
from .texts import joined

MOST_TRIED, MOST_BEHIND = 6, 3
# The sign of a type at which the client has an instruction, and that at which the provider has it.
CLIENT = {"take": "/\\", "recv": "*", "put": "->", "send": "-o", "get": "|", "pay": "<", "case": "+", "label": "&"}
OWN = {"take": "->", "recv": "-o", "put": "/\\", "send": "*", "get": "<", "pay": "|", "case": "&", "label": "+"}


def held_names(stuck):
    """Gives the linear channels that are held at a stuck instruction, the last ones first."""
    types, _, held = stuck.reached
    return [name for name, it in reversed(held.items()) if name != "self" and not types.is_shared(it.type)]


def other_channel(stuck):
    """Gives edits for another channel that is held, in place of the one of the instruction: the last ones first."""
    types, step, held = stuck.reached
    at = stuck.index if stuck.form == "label" else stuck.index + 1
    it = stuck.tokens[at]
    names = [name for name in held_names(stuck) if name != it.text and (it.text != "self" or goes_on(stuck, name))]
    names = [*(["self"] if it.text != "self" and "self" in held and goes_on(stuck, "self") else []), *names]
    for name in names[:MOST_TRIED]:
        yield (it.at, it.end, name), f"write `{name}` in place of `{it.text}`"


def goes_on(stuck, name):
    """Whether the talk on a channel goes on by an instruction like the stuck one."""
    types, _, held = stuck.reached
    whole = types.unfolded(held[name].type)
    is_such = whole.sign == (OWN if name == "self" else CLIENT).get(stuck.form)
    return is_such and (stuck.form != "label" or stuck.tokens[stuck.index + 2].text in dict(whole.parts))


def other_sent(stuck):
    """Gives edits for another asset that is held and of the type that is wanted, in place of the one that is sent; or
    for such a one that goes over what is sent here over `self`."""
    types, _, held = stuck.reached
    via, sent = stuck.tokens[stuck.index + 1 : stuck.index + 3]
    for channel, start in ((via, sent), (sent, via)):
        whole = types.unfolded(held[channel.text].type) if channel.text in held else None
        if whole is None or whole.sign != ("*" if channel.text == "self" else "-o"):
            continue
        wanted = types.said(*whole.parts[0][:2])
        for name in held_names(stuck):
            if name not in (via.text, sent.text) and types.said(*held[name].type[:2]) == wanted:
                new = name if channel is via else f"{sent.text} {name}"
                old = types.text.text[start.at : sent.end]
                yield (start.at, sent.end, new), f"write `{new}` in place of `{old}`"


def acquired_of(stuck):
    """Gives edits for another contract that is acquired under the name of the channel."""
    types, step, held = stuck.reached
    at = stuck.index if stuck.form == "label" else stuck.index + 1
    name = stuck.tokens[at].text
    bound = held[name].bound if name in held else 0
    if stuck.tokens[bound - 1].text != "as" or stuck.tokens[bound - 3].text != "acquire":
        return
    token = stuck.tokens[bound - 2]
    for other, it in held.items():
        if types.is_shared(it.type) and other not in (token.text, "self"):
            words = f"write `{other}` in place of `{token.text}` at {types.text.place(token.at)}"
            yield (token.at, token.end, other), words


def acquired_later(stuck):
    """Gives edits for an instruction on a contract that is acquired behind it: under that name, and behind that."""
    types, step, held = stuck.reached
    at, end = stuck.index + 1, stuck.end()
    it = stuck.tokens[at]
    if it.text not in held or not types.is_shared(held[it.text].type) or end is None or stuck.form == "acquire":
        return
    rows = [place for place in range(at, len(stuck.tokens) - 3) if stuck.tokens[place].text == "acquire"
            and stuck.tokens[place + 1].text == it.text and stuck.names.leads(at, place)]
    if not rows:
        return
    name, place = stuck.tokens[rows[0] + 3].text, rows[0]
    code = f"{stuck.form} {name} {stuck.text.text[it.end : end].strip()};"
    for _ in range(MOST_BEHIND):
        rest = range(place + 1, len(stuck.tokens))
        place = next((further for further in rest if stuck.tokens[further].text == ";"), None)
        if place is None:
            return
        after = stuck.tokens[place]
        words = f"write `{code}` behind the `;` at {stuck.text.place(after.at)}, and not here"
        behind = stuck.text.tokens[stuck.text.index_at(end) + 1].at
        yield (stuck.at, behind, ""), words, (after.end, after.end, f" {code}")


def other_spawned(stuck):
    """Gives edits for another process in a `spawn`, of what is sent at another type than is wanted."""
    types, step, held = stuck.reached
    if stuck.form != "send":
        return
    via, sent = stuck.tokens[stuck.index + 1].text, stuck.tokens[stuck.index + 2].text
    if via not in held or sent not in held:
        return
    whole, bound = types.unfolded(held[via].type), held[sent].bound
    if not whole.parts or whole.sign not in ("*", "-o") or types.tokens[bound - 1].text != "spawn":
        return
    wanted, old = types.said(*whole.parts[0][:2]), types.processes[types.tokens[bound + 2].text]
    for it in types.processes.values():
        kinds = [[(one.kind, one.type) for one in process.parameters] for process in (it, old)]
        if it.offers == wanted and it.mode in ("R", old.mode) and kinds[0] == kinds[1]:
            token = types.tokens[bound + 2]
            words = f"write `{it.name}` in place of `{old.name}` at {types.text.place(token.at)}"
            yield (token.at, token.end, it.name), words


def other_called(stuck, modes):
    """Gives edits for another process of these modes in a `call` or a `spawn`, which takes as much as stands there; one
    that begins with an `accept` alone may go on as itself, since else it would not come to an end."""
    types, own, held = stuck.reached[0], stuck.process(), stuck.reached[2].get("self")
    is_silent = held is None or held.type == held.first
    at = stuck.index + (1 if stuck.form == "call" else 3)
    token, start, end = stuck.tokens[at], at + 2, closing(stuck.tokens, at + 1)
    sign = next((at for at in range(start, end) if stuck.tokens[at].text == ";"), end)
    sides = (start, sign), (sign + 1, end)
    counts = [len(list(separated(stuck.tokens, *side))) for side in sides if side[0] <= side[1]]
    for it in types.processes.values():
        channels = len(it.of_kind("channel"))
        is_endless = it.name == own.name and (stuck.form == "spawn" or it.mode == "T" or it.mode == "R" and is_silent)
        is_other = it.mode in modes and it.name != token.text and not is_endless
        if is_other and [len(it.parameters) - channels, channels] == counts:
            yield (token.at, token.end, it.name), f"write `{it.name}` in place of `{token.text}`"


def label_before(stuck):
    """Gives edits for another label of the same choice, where one was sent just before on the same channel."""
    types, step, held = stuck.reached
    at = stuck.index if stuck.form == "label" else stuck.index + 1
    name = stuck.tokens[at].text
    words = [it.text for it in stuck.tokens[stuck.index - 4 : stuck.index]]
    if words[:2] + words[3:] != [name, ".", ";"] or name not in held:
        return
    token, rows = stuck.tokens[stuck.index - 2], stuck.way()
    at = next((known for before, known in rows if before.at == stuck.index - 4), {}).get(name)
    whole, place = types.unfolded(at.type) if at else None, types.text.place(token.at)
    for label, _ in whole.parts if whole and whole.sign in ("+", "&") else ():
        if label != token.text:
            yield (token.at, token.end, label), f"write `{label}` in place of `{token.text}` at {place}"


def other_made(stuck):
    """Gives edits for another process, with as many values, in the `spawn` of a channel that a `call` passes on."""
    types, _, held = stuck.reached
    given = [it.text for it in stuck.tokens[stuck.index : stuck.behind()] if it.text in held]
    for name in dict.fromkeys(given):
        bound = held[name].bound
        if stuck.tokens[bound - 1].text != "spawn" or stuck.tokens[bound + 2].text not in types.processes:
            continue
        token = stuck.tokens[bound + 2]
        old = types.processes[token.text]
        for it in types.processes.values():
            kinds = [[(one.kind, one.type) for one in process.parameters] for process in (it, old)]
            if it.mode == old.mode and it.name != old.name and kinds[0] == kinds[1]:
                yield (token.at, token.end, it.name), \
                    f"write `{it.name}` in place of `{old.name}` at {types.text.place(token.at)}"


def made_here(stuck, new):
    """Gives edits that make a channel of the type that is wanted, where none is held, and send it: how it is said and
    what is tried. The values are left to the writer."""
    types, step, held = stuck.reached
    for name in ("self", *held_names(stuck)):
        if name not in held:
            continue
        whole = types.unfolded(held[name].type)
        if whole.sign != ("*" if name == "self" else "-o"):
            continue
        wanted = types.said(*whole.parts[0][:2])
        if any(types.said(*held[other].type[:2]) == wanted for other in held_names(stuck)):
            continue
        for it in types.processes.values():
            if it.offers == wanted and it.mode == "R" and all(one.kind == "value" for one in it.parameters):
                kinds = [{"int": "0", "bool": "true"}.get(one.type, one.type.replace("list", "nil", 1))
                         for one in it.parameters]
                code = f"spawn {new} = {it.name}({', '.join(kinds)};); send {name} {new}; "
                said = f"spawn .. = {it.name}({'..' if kinds else ''};); send {name} ..;"
                yield (stuck.at, stuck.at, code), f"write `{said}` before it, with a new name"


def ended_otherwise(stuck):
    """Gives edits for the other way to part from a channel, by its type: a contract is released, and no end of it is
    waited for."""
    types, step, held = stuck.reached
    via = stuck.tokens[stuck.index + 1].text if stuck.form in ("wait", "release") else ""
    if via not in held or via == "self":
        return
    sign, end = types.unfolded(held[via].type).sign, stuck.end()
    if (stuck.form, sign) == ("wait", "down"):
        yield (stuck.at, end, f"release {via} as {stuck.new}"), f"write `release {via} as {stuck.new}` in place of it"
    if (stuck.form, sign) == ("release", "1"):
        yield (stuck.at, end, f"wait {via}"), f"write `wait {via}` in place of it"


def put_instead(stuck):
    """Gives edits for a value that is emitted just before, where the client wants one."""
    types, step, held = stuck.reached
    starts = [at for at in range(stuck.index - 1) if stuck.tokens[at].text in (";", "{", "=>", "=")]
    before = max(starts, default=0) + 1
    own = held.get("self")
    if stuck.tokens[before].text == "emit" and own and types.unfolded(own.type).sign == "/\\":
        it = stuck.tokens[before]
        said = joined(stuck.tokens[before + 1 : stuck.index - 1])
        yield (it.at, it.end, "put self"), f"write `put self {said}` in place of `emit {said}`"
