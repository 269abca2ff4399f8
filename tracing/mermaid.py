"""Steps as sequence charts of Mermaid, each in a block that code hosts draw on a page of Markdown."""
from .shown import ended, further

# What a chart reads otherwise, each with how it is written there.
ESCAPED = {"#": "#35;", ";": "#59;"}


def escaped(text):
    return "".join(ESCAPED.get(it, it) for it in text)


def drawn(step, held):
    """Gives the lines of a step. Those who are acquired have a bar until they are released."""
    who, whom, what = f"p{step.who}", f"p{step.whom}", escaped(step.what)
    if step.who is None or step.verb in ARROWS and step.whom is None:
        return [f"  Note over {whom if step.who is None else who}: {what}"]
    if step.verb in ARROWS:
        return [f"  {who}{ARROWS[step.verb]}{whom}: {what or WORDS.get(step.verb, step.verb)}", *bar(step, held)]
    return [f"  Note over {who}: {step.verb} {what}".rstrip()]


ARROWS = {"says": "->>", "spawns": "-->>", "acquires": "->>", "releases": "->>", "unheard": "-x", "forwards": "-->>"}
WORDS = {"spawns": "makes", "forwards": "goes on in its place"}


def bar(step, held):
    """Gives the line that begins or ends the bar of one who is acquired."""
    if step.verb == "acquires":
        held.add(step.whom)
        return [f"  activate p{step.whom}"]
    if step.verb == "releases" and step.whom in held:
        held.discard(step.whom)
        return [f"  deactivate p{step.whom}"]
    return []


def mermaid(script, scenes):
    """Gives these scenes as charts, line by line."""
    for scene in scenes:
        if not scene.steps:
            continue
        line, held = scene.batch.line, set()
        yield "```mermaid"
        yield f"%% line {line}: {script.row(line).text}: {ended(scene)}"
        yield "sequenceDiagram"
        for pid in dict.fromkeys(it for step in scene.steps for it in (step.who, step.whom) if it is not None):
            yield f"  participant p{pid} as {scene.cast.name(pid)}"
        for step in scene.steps:
            yield from drawn(step, held)
        for it in further(scene):
            yield f"  Note over p{scene.steps[0].who}: {escaped(it)}"
        yield "```"
