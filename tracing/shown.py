"""Steps as lines of text, and as a record."""
from testing.reporting import BOLD, GREEN, PLAIN, RED, read

from .waiting import waits_of

# What is written of a step, by what is done.
WORDS = {
    "says": "{who} -> {whom}  {what}", "spawns": "{who} spawns {whom}", "acquires": "{who} acquires {whom}",
    "releases": "{who} releases {whom}", "forwards": "{who} has {whom} go on in its place",
    "finds": "{who} finds that {what}", "closes": "{who} closes", "unheard": "{who} -> {whom}  {what}, not heard",
}


def said(step, cast):
    """Gives a step in words."""
    names = {"who": "?" if step.who is None else cast.name(step.who), "what": step.what}
    names["whom"] = "its client" if step.whom is None else cast.name(step.whom)
    return WORDS.get(step.verb, "{who} {verb} {what}").format(verb=step.verb, **names)


def head(scene, script, has_colour=False):
    """Gives the line above the steps of a batch: the line of the script, and how it ended."""
    bold, end, plain = (BOLD, GREEN if scene.batch.is_kept else RED, PLAIN) if has_colour else ("", "", "")
    line = scene.batch.line
    return f"{bold}line {line}  {script.row(line).text}{plain}  {end}{ended(scene)}{plain}"


def ended(scene):
    """Gives the end of a batch, with a name for the number of a process."""
    words = scene.batch.end
    if words[0] == "aborted":
        return f"aborted {scene.cast.name(int(words[1]))} {words[2]}"
    return " ".join(words)


def further(scene):
    """Gives a line on the firings of a batch that are not shown, if there are such."""
    count = scene.batch.further
    return [f".. and {count} more firings, which are undone too"] if count else []


def waits(scene, answer):
    """Gives lines on who waits for whom at the end of a batch."""
    if scene.batch.end[0] != "blocked":
        return []
    entry = next(it for it in answer.entries if int(it[0][1]) == scene.batch.line)
    return waits_of(entry, scene)


def steps(run, story, scenes, has_colour):
    """Gives the steps of these scenes of a run, line by line."""
    for scene in scenes:
        yield head(scene, run.script, has_colour)
        for it in scene.steps:
            place = "" if it.at is None else "{}:{}".format(*story.text.where(it.at))
            yield f"  {place:7} {said(it, scene.cast)}"
        yield from (f"          {it}" for it in (*further(scene), *waits(scene, run.answer)))


def records(run, story, scenes):
    """Gives what a program reads of the same."""
    found = []
    for scene in scenes:
        rows = []
        for it in scene.steps:
            line, column = (0, 0) if it.at is None else story.text.where(it.at)
            names = {word: None if pid is None else scene.cast.name(pid) for word, pid in (("who", it.who),
                                                                                         ("whom", it.whom))}
            rows.append({"verb": it.verb, **names, "what": it.what, "line": line, "column": column})
        line = scene.batch.line
        found.append({"line": line, "text": read(run.script.row(line).text), "end": ended(scene), "steps": rows,
                      "further": scene.batch.further, "waits": waits(scene, run.answer)})
    return found
