"""How a branch ends that has no last instruction: a call with what the process has, where all is accepted with it."""
from .amounts import closing
from .mends import mend

MOST_TRIED = 12


def parameters(tokens, at):
    """Gives the names of the parameters of a process whose name stands at a token: values and lists, and channels."""
    sides, depth = [[], []], 0
    for place in range(at + 2, closing(tokens, at + 1)):
        depth += (tokens[place].text in ("(", "{")) - (tokens[place].text in (")", "}"))
        if depth == 0 and tokens[place].text == ";":
            sides = [sides[0], []]
            side = 1
        elif depth == 0 and tokens[place + 1].text == ":" and tokens[place - 1].text in ("(", ",", ";"):
            sides[1 if any(it.text == ";" for it in tokens[at:place]) else 0].append(tokens[place].text)
    return sides


def ended(text, slip, program):
    """Gives lines for a call of a process of the same mode, with values and channels under the names of its parameters,
    or as they are called here, where the contract is accepted with it."""
    tokens, (start, end, new) = text.tokens, slip.edit
    heads = [at for at, it in enumerate(tokens) if it.text == "proc" and it.at < start]
    if not heads or tokens[heads[-1] + 1].text not in ("S", "L"):
        return []
    mode, lines = tokens[heads[-1] + 1].text, []
    heads = [at for at, it in enumerate(tokens) if it.text == "proc" and tokens[at + 1].text == mode]
    for at in heads[:MOST_TRIED]:
        values, channels = parameters(tokens, at + 2)
        call = f"call {tokens[at + 2].text}({', '.join(values)};{' ' if channels else ''}{', '.join(channels)})"
        edit = (start, end, f"{new[: new.index('call')]}{call} ")
        after = program.check(text.edited(edit))
        if after.is_accepted or after.is_cause("NoPotential"):
            before = next(it for it in reversed(tokens) if it.end <= start)
            lines.append(mend(f"write `{edit[2].strip()}` behind `{before.text}`", edit))
    return lines[:3]
