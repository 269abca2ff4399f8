"""The report of a run with names in place of the numbers of processes, channels and accounts."""
from explaining.accounts import PAYER, Accounts
from explaining.grammar import Grammar
from explaining.held import Types
from explaining.names import MOST_TOKENS

from .calling import TOP


def is_account(text):
    """Gives a function that says of the offset of an `emit` whether what it emits is the number of an account."""
    if len(text.tokens) > MOST_TOKENS or PAYER not in {it.text for it in text.tokens}:
        return lambda offset: False
    with open(f"{TOP}/docs/LANGUAGE.md", encoding="latin-1") as page:
        accounts = Accounts(Types(text, Grammar(page.read())))
    return lambda offset: accounts.is_account(("emit", text.index_at(offset)))


class Reported:
    """A report, with what happens in the batches in it."""

    def __init__(self, answer, story):
        self.answer, self.story, self.is_account = answer, story, is_account(story.text)

    def lines(self):
        for it in self.answer.lines:
            if it[:1] == ["line"]:
                break
            yield " ".join(it)
        scenes = self.story.play()
        for entry in self.answer.entries:
            yield from self.entry(entry, None if entry[0][2] == "show" else next(scenes))

    def entry(self, entry, scene):
        """Gives the lines of an entry, which is that of a scene, or a `show`."""
        words, number, cast = list(entry[0]), int(entry[0][1]), scene.cast if scene else self.story.cast
        if words[2] == "aborted":
            words[3] = cast.name(int(words[3]))
        yield " ".join(words)
        emitted = [it.at for it in scene.batch.firings if it.form == "emit"] if scene else []
        for it in entry[1:]:
            if it[0] == "result":
                yield self.result(it, cast, emitted.pop(0), number)
            else:
                yield self.other(it, cast)

    def result(self, words, cast, at, number):
        """Gives the line of a result, with the line of the script whose process emitted it."""
        pid, value = int(words[1]), words[2]
        line = f"result {cast.name(pid)} {value} line {cast.lines.get(pid, number)}"
        known = self.story.accounts
        is_known = value.isdecimal() and int(value) < len(known)
        return f"{line} account {known[int(value)]}" if is_known and self.is_account(at) else line

    def other(self, words, cast):
        """Gives any other line behind an entry."""
        words = list(words)
        if words[0] == "left":
            words[1] = cast.name(int(words[1]))
        elif words[0] == "waits":
            words[1], words[5] = cast.name(int(words[1])), cast.name(int(words[5]))
            words[3] = cast.channel(int(words[3]))
        elif words[0] == "contract":
            words[3] = cast.name(int(words[3]))
        elif words[0] == "channel":
            words[1], words[3] = cast.channel(int(words[1])), self.owner(int(words[3]), cast)
        return " ".join(words)

    def owner(self, number, cast):
        """Gives the name of a process, or says that this is a message, and whose."""
        if number in cast.sent:
            return f"a message of {cast.name(cast.sent[number][0])}"
        return cast.name(number)
