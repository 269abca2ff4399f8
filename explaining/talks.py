"""What is wrong with the text of a talk, with what opens it, and with what it says."""
import re

from .found import Found
from .mends import mend
from .scripts import Script
from .syntax import nearest
from .texts import listed

# The words of a line of a talk, by those that others have for them.
WORDS = {
    **dict.fromkeys(("say", "choose", "select", "call", "tell", "send_label", "lab"), "label"),
    **dict.fromkeys(("put", "send", "give", "number", "val", "int", "bool"), "value"),
    **dict.fromkeys(("payment", "gas", "deposit", "transfer"), "pay"),
    **dict.fromkeys(("listen", "recv", "receive", "take", "get", "read", "wait", "expect"), "hear"),
}
FORMS = ("label", "value", "pay", "hear")
HERE = "here may stand: `label NAME`, `value V`, `pay`, `hear`"
# How many labels and processes are tried, and for how many seconds each.
MOST_LABELS, SECONDS = 12, 5


def ways(row):
    """Gives what a line of a talk may have been meant to be, each as a line."""
    texts = [it.text for it in row.tokens]
    first, rest = texts[0], texts[1:]
    word = first if first in FORMS else WORDS.get(first.lower(), next(iter(nearest(first, FORMS)), ""))
    names = [it for it in texts if re.fullmatch("[A-Za-z_][A-Za-z_0-9]*", it)]
    value = "".join(rest).strip("():=\"'{};,.") if word == "value" else ""
    if word == "value" and value:
        yield f"value {value}"
    if word in ("pay", "hear"):
        yield word
    behind = [it for it in names if it != first]
    if word == "label" and behind:
        yield f"label {behind[0]}"
    dotted = texts[1:2] == ["."] and len(texts) > 2
    if dotted:
        yield f"label {texts[2]}"
    if re.fullmatch("-?[0-9]+|true|false", "".join(texts)):
        yield f"value {''.join(texts)}"
    if word == "value" and len(behind) == 1 and not dotted:
        yield f"label {behind[0]}"
    if len(names) == 1 and word in ("", "label"):
        yield f"label {names[0]}"


class Talk:
    """A call of `talk`: the contract, the script, who opens it with which process, the text of the talk, the processes
    of the contract where they are known, and the program."""

    def __init__(self, text, script, words, talk, codes, program):
        self.text, self.script, self.talk, self.codes, self.program = text, script, talk, codes, program
        self.name, self.process = words[3:5]

    def asked(self, *edits, script=None, name=None, process=None):
        """Gives the lines of the answer with edits of the talk, or with another script, account or process; nothing
        where that takes too long."""
        kept = self.program.kept
        files = kept("contract.nomos", self.text.data), kept("lines.script", script or self.script.data)
        data = self.talk.edited(*edits) if edits else self.talk.data
        words = name or self.name, process or self.process, kept("lines.talk", data)
        answer = self.program.call("talk", *files, *words, seconds=SECONDS)
        return [it for it in answer.lines if it[:1] == ["talk"]] if answer else None

    def of_text(self, answer):
        """Gives what is found where the text of the talk is refused."""
        words = answer.words
        if words[2] == "TooLong":
            return Found(self.talk, 1_048_576, "talk TooLong", "talk TooLong", [], words)
        row = self.talk.row(int(words[3]))
        lines = []
        for new in dict.fromkeys(ways(row)):
            edit = (row.at, row.end, new)
            if self.is_past(row.number, self.asked(edit)):
                lines.append(mend(f"write `{new}` in place of `{row.text}`", edit))
        return Found(self.talk, row.tokens[0].at, "talk Syntax", "talk Syntax", [*lines[:2], HERE], words)

    def is_past(self, number, replies):
        """Whether a text of a talk is read past a line."""
        refused = [int(it[3]) for it in replies or () if it[:3] == ["talk", "refused", "Syntax"]]
        return replies is not None and (not refused or refused[0] > number)

    def of_replies(self, answer):
        """Gives what is found where a talk is not opened, or ends before its text."""
        reply = next((it for it in answer.lines[::-1] if it[:1] == ["talk"]), None)
        if reply is None:
            return []
        if reply[1] == "refused":
            return [self.refused(reply)]
        if reply[1] in ("aborted", "steps"):
            cause = f"aborted {reply[3]}" if reply[1] == "aborted" else "steps"
            row = self.last_said(answer)
            return [Found(self.talk, row.at if row else None, cause, cause, [], reply)]
        if reply[2] in ("protocol", "gas"):
            row = self.talk.row(int(reply[1]))
            lines = self.of_protocol(row, answer) if reply[2] == "protocol" else self.more_gas(reply[4], reply[6], row)
            return [Found(self.talk, row.tokens[0].at, f"talk {reply[2]}", f"talk {reply[2]}", lines, reply)]
        return []

    def last_said(self, answer):
        """Gives the last line that was said, if one was."""
        said = [int(it[1]) for it in answer.lines if it[:1] == ["talk"] and it[2:3] == ["said"]]
        return self.talk.row(said[-1]) if said else None

    def known(self):
        """Gives the processes with which a talk can be opened, by their mode and their parameters."""
        found = self.codes.processes.values() if self.codes else ()
        return [it.name for it in found if it.mode == "R" and not it.parameters]

    def opens(self, **others):
        """Whether the talk is opened with another account, or another process."""
        return ["talk", "opened"] in (self.asked(**others) or ())

    def refused(self, reply):
        """Gives what is found where a talk is not opened: the words of the call say with whom."""
        cause, lines = reply[2], []
        accounts = self.script.accounts(len(self.script.rows) + 1)
        if cause == "NoAccount":
            near = [it for it in nearest(self.name, accounts) if self.opens(name=it)]
            new = f"deposit {self.name} 0"
            last = self.last_row()
            edit = (last.end, last.end, f"\n{new}")
            lines = [f"mend: name the account `{it}` in the call" for it in near[:1]]
            if not near and re.fullmatch("[A-Za-z_][A-Za-z_0-9]*", self.name) and \
                    self.opens(script=self.script.edited(edit)):
                lines = [mend(f"write `{new}` on a line behind line {last.number} of the script", edit)]
            lines += [f"see: the accounts are {listed(accounts)}"] if accounts else []
            return Found(self.script, last.at, "talk NoAccount", "talk NoAccount", lines, reply)
        if cause in ("NoProcess", "Carries"):
            known = [it for it in self.known() if it != self.process]
            opened = [it for it in known[:MOST_LABELS] if self.opens(process=it)]
            near = [it for it in nearest(self.process, opened)] or (opened if len(opened) == 1 else [])
            lines = [f"mend: name the process `{it}` in the call" for it in near[:1]]
            lines += [f"see: a talk can be opened with {listed(opened)}"] if opened else []
            here = [it for it in (self.codes.processes.values() if self.codes else ()) if it.name == self.process]
            at = self.codes.tokens[here[0].at].at if here else 0
            return Found(self.text, at, f"talk {cause}", f"talk {cause}", lines, reply)
        last = self.last_row()
        return Found(self.script, last.at, "talk NoGas", "talk NoGas", self.more_gas(reply[4], reply[6], None), reply)

    def last_row(self):
        return [it for it in self.script.rows if it.tokens][-1]

    def more_gas(self, has, needs, row):
        """Gives a line for a deposit at the end of the script, with which the account has enough."""
        unit = next((int(it[1].partition("/")[2] or "1") for it in self.unit()), 1)
        has, needs = (int(it.partition("/")[0]) for it in (has, needs))
        units = -((has - needs) // unit)
        new, last = f"deposit {self.name} {units}", self.last_row()
        edit = (last.end, last.end, f"\n{new}")
        replies = self.asked(script=self.script.edited(edit))
        number = str(row.number) if row else "opened"
        is_past = any(it[1] == number and it[2:3] in ([], ["said"]) for it in replies or ())
        return [mend(f"write `{new}` on a line behind line {last.number} of the script", edit)] if is_past else []

    def unit(self):
        answer = self.program.check(self.text.data)
        return [it for it in answer.lines if it[:1] == ["unit"]]

    def of_protocol(self, row, answer):
        """Gives lines on what may be said, or heard, in the place of a line, or before it; each was tried."""
        if any(it[2:4] == ["heard", "closed"] for it in answer.lines if it[:1] == ["talk"]):
            rest = (row.at, self.talk.size, "")
            words = f"take line {row.number} and what stands behind it out, since the talk is at its end"
            return [mend(words, rest)]
        lines, said = [], []
        for new in self.sayings():
            edit = (row.at, row.end, new)
            if new != row.text and self.is_said(row.number, self.asked(edit)):
                said.append((new, edit))
        before = [(new, edit) for new, edit in ((it, (row.at, row.at, f"{it}\n")) for it in (*self.sayings(), "hear"))
                  if self.is_said(row.number + 1, self.asked(edit), row.number)]
        near = [it for it in said if it[0] in nearest(row.text, [new for new, _ in said])]
        for new, edit in near[:1] or [] if row.tokens[0].text == "label" else []:
            lines.append(mend(f"write `{new}` in place of `{row.text}`", edit))
        lines += [mend(f"write `{self.shown(new)}` on a line before it", edit) for new, edit in before]
        lines += [mend(f"write `{self.shown(new)}` in place of `{row.text}`", edit) for new, edit in said]
        if not lines:
            edit = (row.at, min(row.end + 1, self.talk.size), "")
            further = [it for it in self.asked(edit) or () if it[2:3] == ["protocol"]]
            later = [int(it[1]) for it in further]
            lines = [mend("take this line out", edit)] if not later or later[0] > row.number else []
        return list(dict.fromkeys(lines))[:3]

    def shown(self, new):
        return "value .." if new.startswith("value ") else new

    def sayings(self):
        """Gives what may be said: each label of the contract, values, and a payment."""
        tokens = self.text.tokens
        labels = [it.text for at, it in enumerate(tokens[:-1]) if tokens[at + 1].text == ":" and
                  tokens[at - 1].text in ("{", "|")]
        return [*(f"label {it}" for it in list(dict.fromkeys(labels))[:MOST_LABELS]), "value 0", "value true", "pay"]

    def is_said(self, number, replies, before=None):
        """Whether a line is said, or heard, and one before it too, and the program goes on behind it."""
        ends = {int(it[1]): it[2:] for it in replies or () if it[1].isdecimal()}
        wanted = [it for it in (number, before) if it is not None]
        return all(ends.get(it, ["none"])[0] in ("said", "heard", "gas") and ends[it] != ["heard", "nothing"]
                   for it in wanted)


def text_of_talk(name, data):
    """Gives the text of a talk, whose lines have the tokens of those of a script."""
    return Script(name, data)
